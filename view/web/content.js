/* What the lanes show of frames, lines, keys, load and signals that are in view. */
// With more frames in view than this, columns tell of many frames each.
const BARS = 4000;
const STRIP = 7;

// ---- frames

// The numbers of the frames in view: the first, and that behind the last.
function framesInView() {
  return [firstAtLeast(ends, view.from), firstAtLeast(starts, view.to)];
}

function drawFrames(seen) {
  const [first, end] = framesInView();
  const bus = seen.find(it => it.kind === "bus");
  const nodes = [];
  for (const lane of seen) if (lane.kind === "node") nodes[lane.node] = lane;
  if (end - first <= BARS) drawBars(first, end, bus, nodes); else drawColumns(first, end, bus, nodes);
}

// Each frame as a bar on the bus, and as a narrow one in the lane of its sender.
function drawBars(first, end, bus, nodes) {
  for (let i = first; i < end; i++) {
    const x = xOf(starts[i]), width = Math.max(1, xOf(ends[i]) - x), number = colourOfKind(kindOf[i]);
    pen.globalAlpha = matches && !matches.has[entryOfFrame[i]] ? 0.35 : 1;
    if (bus) {
      bar(x, bus.top + 6, width, bus.height - 13, number);
      if (width > 34) barText(i, x, width, bus, number);
    }
    const lane = nodes[senderOf(i)];
    if (lane) bar(x, lane.top + lane.height - STRIP - 4, width, STRIP, number);
    plot.drawn++;
  }
  pen.globalAlpha = 1;
}

// What a frame is, in its bar, where there is room.
function barText(i, x, width, bus, number) {
  const left = Math.max(x, NAMES) + 4;
  const room = Math.min(x + width, plot.width - RIGHT) - left - 3;
  const ink = bandsOf(number) ? colours.text : inkOf(number);
  if (bandsOf(number)) {
    pen.fillStyle = colours.back;
    pen.fillRect(left - 2, bus.top + 9, Math.min(room, 160), 26);
  }
  text(kindText(i), left, bus.top + 19, room, ink);
  text(dataText(i), left, bus.top + 32, room, ink);
}

// Columns of one pixel, in which each colour is as high as its part of the time.
function drawColumns(first, end, bus, nodes) {
  const wide = Math.ceil(plot.width - NAMES - RIGHT);
  const parts = new Float32Array(wide * PAINTS);
  const sends = new Uint8Array(wide * run.nodes.length);
  for (let i = first; i < end; i++) {
    if (matches && !matches.has[entryOfFrame[i]]) continue;
    const x = Math.min(wide - 1, Math.max(0, Math.floor((starts[i] - view.from) * plot.scale)));
    parts[x * PAINTS + colourOfKind(kindOf[i]) % PAINTS] += (ends[i] - starts[i]) * plot.scale;
    if (senderOf(i) >= 0) sends[senderOf(i) * wide + x] = 1;
  }
  if (bus) drawStacks(parts, wide, bus);
  for (const lane of nodes) if (lane) drawSends(sends.subarray(lane.node * wide, (lane.node + 1) * wide), lane);
}

function drawStacks(parts, wide, bus) {
  const room = bus.height - 13, bottom = bus.top + bus.height - 7;
  for (let paint = 0; paint < PAINTS; paint++) {
    pen.fillStyle = colours.paints[paint];
    for (let x = 0; x < wide; x++) {
      if (!parts[x * PAINTS + paint]) continue;
      let below = 0;
      for (let i = 0; i < paint; i++) below += parts[x * PAINTS + i];
      const height = Math.max(1, Math.min(1, parts[x * PAINTS + paint]) * room);
      pen.fillRect(NAMES + x, bottom - Math.min(1, below) * room - height, 1, height);
      plot.drawn++;
    }
  }
}

// Where a node sends at all.
function drawSends(sends, lane) {
  pen.fillStyle = paintOf(view.colour === "sender" ? lane.node : PAINTS - 1);
  for (let x = 0; x < sends.length; x++) {
    if (!sends[x]) continue;
    const from = x;
    while (x < sends.length && sends[x]) x++;
    pen.fillRect(NAMES + from, lane.top + lane.height - STRIP - 4, x - from, STRIP);
    plot.drawn++;
  }
}

// ---- lines of nodes

// From the last to the first, so that each text may be as long as the place to the next mark of its node. Lines of a
// node that stand in one pixel have one mark, with the text of the first of them, or of the halt among them.
function drawLines(seen) {
  const groups = [];
  for (const lane of seen) {
    const nothing = { lane, x: plot.width - RIGHT, room: 0, lines: 0, first: 0, isHalt: 0, isMatch: false };
    if (lane.kind === "node") groups[lane.node] = nothing;
  }
  const first = firstAtLeast(lineAt, view.from);
  for (let i = firstAtLeast(lineAt, view.to) - 1; i >= first; i--) {
    const group = groups[lineNode[i]];
    if (!group) continue;
    const x = xOf(lineAt[i]);
    if (group.lines && group.x - x >= 1) { drawGroup(group); group.lines = 0; }
    if (!group.lines) { group.room = group.x - x; group.x = x; group.isHalt = 0; group.isMatch = false; }
    group.lines++;
    if (!group.isHalt) group.first = i;
    group.isHalt ||= halts[i];
    group.isMatch ||= !matches || matches.has[entryOfLine[i]] === 1;
  }
  for (const group of groups) if (group && group.lines) drawGroup(group);
  pen.globalAlpha = 1;
}

// The mark of lines that stand in one pixel, and their text.
function drawGroup({ lane, x, room, lines, first, isHalt, isMatch }) {
  pen.globalAlpha = isMatch ? 1 : 0.35;
  mark(x, lane.top + 5, isHalt, colours.text);
  const words = run.lines.text[first] + (lines > 1 ? ` (+${lines - 1})` : "");
  if (room > 40) text(words, x + 8, lane.top + 15, room - 14, isHalt ? colours.halt : colours.text);
  plot.drawn++;
}

function drawKeys(lane) {
  let next = plot.width;
  for (let i = run.keys.length - 1; i >= 0; i--) {
    const [moment, key] = run.keys[i];
    if (moment < view.from || moment > view.to) continue;
    const x = xOf(moment);
    pen.fillStyle = colours.dim;
    pen.fillRect(x, lane.top + 2, 1, lane.height - 4);
    if (next - x > 10) text(key, x + 3, lane.top + 16, 20, colours.text, FONT);
    next = x;
  }
}

// ---- load

// The load of the window that ends at a moment; where it does not lie in the run there is none.
function loadAt(moment) {
  return moment >= view.window && moment <= last ? loadBetween(moment - view.window, moment) : undefined;
}

// The load at the top of its lane: the least of these that the greatest load does not go above.
function loadTop() {
  const greatest = run.load.greatest.find(it => it.window === view.window);
  return [0.02, 0.1, 0.2, 0.5].find(it => greatest && greatest.load <= it) || 1;
}

// The lines of the load at the top of its lane and at half of that, and what they stand for.
function loadAxis(lane) {
  const bottom = lane.top + lane.height - 4, room = lane.height - 12;
  for (const part of [0.5, 1]) {
    const y = Math.round(bottom - part * room);
    pen.fillStyle = colours.line;
    pen.fillRect(NAMES, y, plot.width, 1);
    pen.textAlign = "right";
    text(`${100 * part * loadTop()} %`, NAMES - 6, y + 5, 60, colours.dim);
    pen.textAlign = "left";
  }
}

// The load in each pixel, and by looking at several moments in one where a window is short beside it.
function drawLoad(lane) {
  const bottom = lane.top + lane.height - 4, room = lane.height - 12, top = loadTop();
  const looks = Math.min(8, Math.max(1, Math.ceil(2 / (plot.scale * view.window))));
  pen.fillStyle = colours.load;
  for (let x = NAMES; x < plot.width - RIGHT; x++) {
    let most = 0;
    for (let i = 0; i < looks; i++) most = Math.max(most, loadAt(momentAt(x + i / looks)) || 0);
    if (most) pen.fillRect(x, bottom - most / top * room, 1, most / top * room);
  }
}

// ---- signals

function drawSignal(lane) {
  const { times, heights, low, high, value } = lane.signal;
  const bottom = lane.top + lane.height - 9, reach = lane.height - 24;
  const yOf = number => Math.round(bottom - (high > low ? (number - low) / (high - low) : 0.5) * reach);
  const first = Math.max(0, firstAtLeast(times, view.from) - 1), end = firstAtLeast(times, view.to);
  pen.strokeStyle = colours.accent;
  pen.lineWidth = 2;
  pen.beginPath();
  for (let i = first; i < end; i++) {
    const x = xOf(times[i]);
    const stop = i + 1 < times.length ? xOf(times[i + 1]) : xOf(last);
    if (stop - x < 1) { i = drawNarrow(i, end, lane, yOf); continue; }
    if (i > 0 && x >= NAMES) pen.lineTo(x, yOf(heights[i])); else pen.moveTo(x, yOf(heights[i]));
    pen.lineTo(stop, yOf(heights[i]));
    const left = Math.max(x, NAMES) + 3, words = String(value[i]);
    const room = Math.min(stop, plot.width - RIGHT) - left - 3;
    if (words.length * WIDTH_OF_LETTER < room) text(words, left, yOf(heights[i]) - 3, Infinity, colours.text);
    plot.drawn++;
  }
  pen.stroke();
}

// Of several changes within a pixel, a line from the least to the greatest. Gives the last that is drawn: where there
// are several, the one before the last of them, which goes on beyond the pixel.
function drawNarrow(i, end, lane, yOf) {
  const { times, heights } = lane.signal;
  const x = Math.floor(xOf(times[i]));
  let low = heights[i], high = low, at = i;
  while (at + 1 < end && xOf(times[at + 1]) < x + 1) {
    at++;
    low = Math.min(low, heights[at]);
    high = Math.max(high, heights[at]);
  }
  if (i > 0) pen.lineTo(x + 0.5, yOf(heights[i]));
  pen.moveTo(x + 0.5, yOf(low));
  pen.lineTo(x + 0.5, yOf(high) - 0.5);
  pen.moveTo(x + 0.5, yOf(heights[at]));
  plot.drawn++;
  return Math.max(i, at - 1);
}
