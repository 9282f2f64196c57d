/* What is found under the pointer, and how it is told. */
const NEAR = 6;

// The lane at a place of the canvas.
function laneAt(y) {
  const at = y + plot.scroll;
  return y < TOP ? undefined : plot.lanes.find(it => at >= it.top && at < it.top + it.height);
}

// The frame that is closest to a place, of those that may be taken; -1 where none is close.
function frameNear(x, takes) {
  const moment = momentAt(x), near = NEAR / plot.scale;
  let best = -1, distance = near;
  const end = Math.min(firstAtLeast(starts, moment + near), ends.length);
  for (let i = firstAtLeast(ends, moment - near); i < end && i - end > -BARS; i++) {
    const away = Math.max(0, starts[i] - moment, moment - ends[i]);
    if (away < distance && takes(i)) { best = i; distance = away; }
  }
  return best;
}

// The line of a node that is closest to a place; -1 where none is close.
function lineNear(x, node) {
  const moment = momentAt(x), near = NEAR / plot.scale;
  let best = -1, distance = near;
  const end = firstAtLeast(lineAt, moment + near);
  for (let i = firstAtLeast(lineAt, moment - near); i < end; i++) {
    if (lineNode[i] === node && Math.abs(lineAt[i] - moment) <= distance) {
      best = i;
      distance = Math.abs(lineAt[i] - moment);
    }
  }
  return best;
}

// The entry under the pointer, or -1.
function entryAt(x, y) {
  const lane = laneAt(y);
  if (!lane || x < NAMES) return -1;
  if (lane.kind === "node") {
    const line = lineNear(x, lane.node);
    if (line >= 0) return entryOfLine[line];
  }
  if (lane.kind !== "bus" && lane.kind !== "node") return -1;
  const frame = frameNear(x, i => lane.kind === "bus" || senderOf(i) === lane.node);
  return frame >= 0 ? entryOfFrame[frame] : -1;
}

// What is told of the place under the pointer.
function tipAt(x, y) {
  const lane = laneAt(y), moment = momentAt(x);
  if (!lane || x < NAMES) return "";
  const entry = entryAt(x, y);
  if (entry >= 0) return entries[entry] < 0 ? tellLines(-1 - entries[entry]) : tellEntry(entry);
  if (lane.kind === "load" && loadAt(moment) !== undefined) {
    return `${percent(loadAt(moment))} in the ${duration(view.window)} up to ${seconds(moment)} s`;
  }
  if (lane.kind === "keys") {
    const near = run.keys.filter(it => Math.abs(it[0] - moment) * plot.scale < NEAR);
    return near.map(it => `key ${it[1]} at ${seconds(it[0])} s`).join("\n");
  }
  if (lane.kind === "signal") {
    const at = firstAtLeast(lane.signal.times, moment) - 1;
    if (at >= 0) return `${lane.signal.label} ${lane.signal.value[at]}, since ${seconds(lane.signal.times[at])} s`;
  }
  return "";
}

// The lines of a node that have one mark with a line, as many as are read at a glance.
function tellLines(line) {
  const few = 8, near = 1 / plot.scale;
  const told = [];
  const end = firstAtLeast(lineAt, lineAt[line] + near);
  for (let i = firstAtLeast(lineAt, lineAt[line] - near); i < end && told.length <= few; i++) {
    if (lineNode[i] === lineNode[line]) told.push(tellEntry(entryOfLine[i]));
  }
  return told.length > few ? `${told.slice(0, few).join("\n")}\n\u2026` : told.join("\n");
}

// An entry in words.
function tellEntry(entry) {
  const it = entries[entry];
  if (it < 0) return `${seconds(lineAt[-1 - it])} s  ${run.nodes[lineNode[-1 - it]]}: ${run.lines.text[-1 - it]}`;
  const lines = [
    `${kindText(it)}${senderText(it) && `, ${senderText(it)}`}`, dataText(it),
    `${seconds(starts[it])} to ${seconds(ends[it])} s: ${run.frames.bits[it]} bits, ${duration(ends[it] - starts[it])}`,
    signalText(it),
  ];
  return lines.filter(Boolean).join("\n");
}
