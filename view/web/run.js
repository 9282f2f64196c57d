/* The data of the run as columns, and what is looked up in them. Moments are in microseconds. */
const run = JSON.parse(document.getElementById("run").textContent);

const ends = Float64Array.from(run.frames.end);
const starts = ends.map((end, i) => end - run.frames.bits[i] * run.bit);
const kindOf = Uint32Array.from(run.frames.kind);
const lineAt = Float64Array.from(run.lines.at);
const lineNode = Uint8Array.from(run.lines.node);
const halts = new Uint8Array(lineAt.length);
for (const i of run.lines.halts) halts[i] = 1;

// The entries of the run in its order: a frame by its number, a line by -1 less its number.
const entries = new Int32Array(run.order.length);
const entryOfFrame = new Int32Array(ends.length);
const entryOfLine = new Int32Array(lineAt.length);
for (let i = 0, frame = 0, line = 0; i < entries.length; i++) {
  if (run.order[i] === "f") { entryOfFrame[frame] = i; entries[i] = frame++; }
  else { entryOfLine[line] = i; entries[i] = -1 - line++; }
}

// How long frames were on the bus before each frame.
const busyBefore = new Float64Array(ends.length + 1);
for (let i = 0; i < ends.length; i++) busyBefore[i + 1] = busyBefore[i] + ends[i] - starts[i];

// The end of what there is to see; a run without lines is as long as the scenario says.
const last = run.last || run.until || 1;

// The first place of a sorted column that has at least the value.
function firstAtLeast(column, value) {
  let low = 0, high = column.length;
  while (low < high) {
    const middle = (low + high) >> 1;
    if (column[middle] < value) low = middle + 1; else high = middle;
  }
  return low;
}

// How long frames were on the bus before a moment.
function busyUntil(moment) {
  const begun = firstAtLeast(starts, moment);
  return begun ? busyBefore[begun] - Math.max(0, ends[begun - 1] - moment) : 0;
}

// The load from one moment to another, as a part of 1.
function loadBetween(from, to) {
  return to > from ? (busyUntil(to) - busyUntil(from)) / (to - from) : 0;
}

const signals = run.signals.map(it => {
  const heights = Float64Array.from(it.value, Number);
  return {
    ...it, label: `${it.message}.${it.name}`, heights, frames: Int32Array.from(it.frame),
    times: Float64Array.from(it.frame, frame => ends[frame]),
    low: heights.reduce((a, b) => Math.min(a, b), Infinity), high: heights.reduce((a, b) => Math.max(a, b), -Infinity),
  };
});

const signalsOfKind = new Map();
for (const it of signals) {
  if (!signalsOfKind.has(it.kind)) signalsOfKind.set(it.kind, []);
  signalsOfKind.get(it.kind).push(it);
}

// The number that a signal has in a frame, or undefined before its first one.
function numberIn(signal, frame) {
  return signal.value[firstAtLeast(signal.frames, frame + 1) - 1];
}

// Whether a frame of the signal's message has it: it has enough bytes, and the multiplexor says so.
function hasSignal(signal, frame, all) {
  const data = run.frames.data[frame];
  if (data[0] === "R" || data.length < 2 * signal.bytes) return false;
  if (!signal.when) return true;
  const by = all.find(it => it.name === signal.when[0]);
  return by !== undefined && Number(numberIn(by, frame)) === signal.when[1];
}

// The signals of a frame with their numbers, as a text.
function signalText(frame) {
  const all = signalsOfKind.get(kindOf[frame]) || [];
  return all.filter(it => hasSignal(it, frame, all)).map(it => `${it.name} ${numberIn(it, frame)}`).join(", ");
}

// The bytes of a frame with blanks between, or how a remote frame is written.
function dataText(frame) {
  const data = run.frames.data[frame];
  return data[0] === "R" ? `remote, length ${data.slice(1) || 0}` : data.replace(/../g, "$& ").trim();
}

const senderOf = frame => run.kinds[kindOf[frame]].sender;
const senderText = frame => run.nodes[senderOf(frame)] ?? "";
const kindText = frame => `${run.kinds[kindOf[frame]].id} ${run.kinds[kindOf[frame]].name}`.trim();

// The moment of an entry, which of a frame is its end.
function momentOf(entry) {
  const it = entries[entry];
  return it >= 0 ? ends[it] : lineAt[-1 - it];
}

// All that is searched of an entry.
function searchText(entry) {
  const it = entries[entry];
  const text = it >= 0
    ? `${kindText(it)} ${senderText(it)} ${run.frames.data[it]}`
    : `${run.nodes[lineNode[-1 - it]]} ${run.lines.text[-1 - it]}`;
  return `${seconds(momentOf(entry))} ${text}`.toLowerCase();
}
