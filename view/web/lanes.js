/* The lanes: where they stand, and what of them does not depend on what is in view. */
const NAMES = 150;
const RIGHT = 10;
const OVERVIEW = 26;
const RULER = 24;
const TOP = OVERVIEW + RULER;

const plot = { width: 0, height: 0, scale: 1, scroll: 0, lanes: [], drawn: 0 };

const xOf = moment => NAMES + (moment - view.from) * plot.scale;
const momentAt = x => view.from + (x - NAMES) / plot.scale;

// The lanes from the top down, each with its name, its height and what draws it.
function layOut() {
  const node = run.nodes.length > 12 ? 32 : 40;
  const lanes = [
    { kind: "bus", name: `bus ${run.interface}`, height: 44 }, { kind: "load", name: "bus load", height: 56 },
  ];
  if (run.keys.length) lanes.push({ kind: "keys", name: "keys", height: 24 });
  run.nodes.forEach((name, i) => lanes.push({ kind: "node", name, node: i, height: node }));
  for (const i of view.signals) {
    lanes.push({ kind: "signal", name: signals[i].name, below: signals[i].message, signal: signals[i], height: 48 });
  }
  let top = TOP;
  for (const lane of lanes) { lane.top = top; top += lane.height; }
  plot.lanes = lanes;
  plot.height = top;
}

// Draws what is in view.
function draw() {
  const { width, scroll } = plot;
  plot.scale = (width - NAMES - RIGHT) / (view.to - view.from);
  plot.drawn = 0;
  pen.textBaseline = "alphabetic";
  pen.fillStyle = colours.back;
  pen.fillRect(0, 0, width, plot.shown);
  pen.save();
  pen.translate(0, -scroll);
  const seen = plot.lanes.filter(it => it.top + it.height > scroll + TOP && it.top < scroll + plot.shown);
  for (const lane of seen) laneBack(lane);
  pen.save();
  pen.beginPath();
  pen.rect(NAMES, scroll, width - NAMES - RIGHT, plot.shown);
  pen.clip();
  drawTicks(scroll);
  drawMeasured(scroll);
  drawFrames(seen);
  drawLines(seen);
  for (const lane of seen) {
    if (lane.kind === "load") drawLoad(lane);
    if (lane.kind === "keys") drawKeys(lane);
    if (lane.kind === "signal") drawSignal(lane);
  }
  drawSelected(scroll);
  pen.restore();
  pen.restore();
  drawTop();
}

// The ground of a lane and its name.
function laneBack(lane) {
  pen.fillStyle = colours.line;
  pen.fillRect(0, lane.top + lane.height - 1, plot.width, 1);
  const coloured = lane.kind === "node" && view.colour === "sender";
  if (coloured) bar(8, lane.top + 8, 11, 11, lane.node);
  const x = coloured ? 26 : 8;
  text(lane.name, x, lane.top + 18, NAMES - x - 6, colours.text, FONT);
  if (lane.kind === "load") loadAxis(lane);
  if (lane.below) text(lane.below, 8, lane.top + 31, NAMES - 14, colours.dim);
  if (lane.signal) text(rangeText(lane.signal), 8, lane.top + 43, NAMES - 14, colours.dim);
}

// From which raw number to which a signal goes, and the unit that the database has for its physical value.
function rangeText({ low, high, unit }) {
  return `${low} to ${high}${unit && `, raw ${unit}`}`;
}

// ---- time

// The ticks that are in view: their distance and the first of them.
function ticks() {
  const step = tickStep(100 / plot.scale);
  return { step, first: Math.ceil(Math.max(view.from, 0) / step) * step };
}

function drawTicks(scroll) {
  const { step, first } = ticks();
  pen.fillStyle = colours.grid;
  for (let at = first; at <= view.to; at += step) pen.fillRect(Math.round(xOf(at)), scroll + TOP, 1, plot.shown);
  pen.fillStyle = colours.lane;
  if (view.from < 0) pen.fillRect(NAMES, scroll + TOP, xOf(0) - NAMES, plot.shown);
  if (view.to > last) pen.fillRect(xOf(last), scroll + TOP, plot.width, plot.shown);
}

// The overview and the ruler, which stay above the lanes.
function drawTop() {
  pen.fillStyle = colours.back;
  pen.fillRect(0, 0, plot.width, TOP);
  drawOverview();
  const { step, first } = ticks();
  const unit = tickUnit(step);
  pen.fillStyle = colours.line;
  pen.fillRect(0, TOP - 1, plot.width, 1);
  text("whole run", 8, 17, NAMES - 14, colours.dim);
  text(`time, ${unit.name}`, 8, OVERVIEW + 16, NAMES - 14, colours.text, FONT);
  for (let at = first; at <= view.to; at += step) {
    const x = Math.round(xOf(at));
    pen.fillStyle = colours.dim;
    pen.fillRect(x, TOP - 7, 1, 6);
    pen.font = SMALL;
    pen.fillText(tickText(at, step, unit), Math.min(x + 3, plot.width - 50), OVERVIEW + 14);
  }
}

// ---- the whole run in small

let overview = null;

// Draws the whole run once; it changes with the width, the colours and the search alone.
function makeOverview() {
  const width = Math.max(1, Math.floor(plot.width - NAMES - RIGHT));
  const small = new OffscreenCanvas(width, OVERVIEW - 4);
  const brush = small.getContext("2d");
  const column = last / width;
  brush.fillStyle = colours.lane;
  brush.fillRect(0, 0, width, OVERVIEW);
  brush.fillStyle = colours.load;
  for (let x = 0; x < width; x++) {
    const load = loadBetween(x * column, (x + 1) * column);
    if (load > 0) brush.fillRect(x, 14 - Math.max(2, 14 * load), 1, Math.max(2, 14 * load));
  }
  brush.fillStyle = colours.text;
  let before = -1;
  for (let i = 0; i < lineAt.length; i++) {
    const x = Math.floor(lineAt[i] / column);
    if (x !== before) brush.fillRect(x, 16, 1, 5);
    before = x;
  }
  brush.fillStyle = colours.halt;
  for (const i of run.lines.halts) brush.fillRect(lineAt[i] / column - 1, 0, 3, OVERVIEW);
  if (matches) {
    brush.fillStyle = colours.accent;
    for (const entry of matches.list) brush.fillRect(momentOf(entry) / column, 0, 1, 4);
  }
  overview = small;
}

function drawOverview() {
  if (!overview) makeOverview();
  pen.drawImage(overview, NAMES, 2);
  const scale = (plot.width - NAMES - RIGHT) / last;
  const from = NAMES + Math.max(0, view.from) * scale, to = NAMES + Math.min(last, view.to) * scale;
  pen.fillStyle = colours.shade;
  pen.fillRect(from, 2, Math.max(2, to - from), OVERVIEW - 4);
  pen.strokeStyle = colours.accent;
  pen.lineWidth = 1.5;
  pen.strokeRect(from, 2, Math.max(2, to - from), OVERVIEW - 4);
}

// ---- what is chosen

function drawSelected(scroll) {
  if (view.selected < 0) return;
  const [from, to] = spanOf(view.selected);
  pen.fillStyle = colours.shade;
  pen.fillRect(xOf(from), scroll + TOP, Math.max(1, (to - from) * plot.scale), plot.shown);
  pen.fillStyle = colours.accent;
  pen.fillRect(Math.round(xOf(to)), scroll + TOP, 1, plot.shown);
}

function drawMeasured(scroll) {
  if (!view.measured) return;
  const [from, to] = view.measured.map(xOf).sort((a, b) => a - b);
  pen.fillStyle = colours.shade;
  pen.fillRect(from, scroll + TOP, to - from, plot.shown);
  pen.fillStyle = colours.accent;
  for (const x of [from, to]) pen.fillRect(Math.round(x), scroll + TOP, 1, plot.shown);
}
