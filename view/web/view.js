/* What is in view, which the address of the page keeps. */
const LEAST_SPAN = 20;

const view = {
  from: 0, to: last, selected: -1, measured: null, signals: [], words: "", show: "all",
  window: Math.max(...run.load.greatest.map(it => it.window).filter(it => it <= 100000), 0) || 100000,
  colour: new Set(run.kinds.map(it => it.sender)).size > 1 ? "sender" : "identifier",
};

// What may be seen besides the run itself: a little before and behind it.
const MARGIN = last * 0.02;

// Shows the run from a moment to another, within what there is.
function look(from, to) {
  const span = Math.min(Math.max(to - from, LEAST_SPAN), last + 2 * MARGIN);
  const middle = (from + to) / 2;
  view.from = Math.min(Math.max(middle - span / 2, -MARGIN), last + MARGIN - span);
  view.to = view.from + span;
  changed();
}

// Zooms by a factor around a moment, which stays where it is.
function zoom(factor, moment) {
  const span = Math.min(Math.max((view.to - view.from) * factor, LEAST_SPAN), last + 2 * MARGIN);
  const part = (moment - view.from) / (view.to - view.from);
  look(moment - part * span, moment - part * span + span);
}

// Goes on by a part of what is in view.
function move(part) {
  const by = part * (view.to - view.from);
  look(view.from + by, view.to + by);
}

function lookAtAll() {
  look(-MARGIN, last + MARGIN);
}

// The moments of an entry: those between which a frame is on the bus, or twice that of a line.
function spanOf(entry) {
  const it = entries[entry];
  return it >= 0 ? [starts[it], ends[it]] : [lineAt[-1 - it], lineAt[-1 - it]];
}

// Brings an entry into view, where it is not.
function reveal(entry) {
  const [from, to] = spanOf(entry);
  if (from >= view.from && to <= view.to) return;
  const half = Math.max((view.to - view.from) / 2, (to - from) * 2);
  look((from + to) / 2 - half, (from + to) / 2 + half);
}

// Shows an entry with what is close to it.
function lookAt(entry) {
  const [from, to] = spanOf(entry);
  const beside = 10 * Math.max(to - from, 60 * run.bit);
  look(from - beside, to + beside);
}

// ---- the address

// What the address keeps, behind its `#`.
function address() {
  const words = new URLSearchParams();
  words.set("t", `${Math.round(view.from)}_${Math.round(view.to)}`);
  if (view.selected >= 0) words.set("e", view.selected);
  if (view.words) words.set("q", view.words);
  if (view.show !== "all") words.set("l", view.show);
  words.set("s", view.signals.map(it => signals[it].label).join(","));
  words.set("w", view.window);
  words.set("c", view.colour);
  return `#${words}`;
}

// Takes what the address says; what it does not say stays.
function takeAddress() {
  const words = new URLSearchParams(location.hash.slice(1));
  const range = /^(-?\d+)_(-?\d+)$/.exec(words.get("t") || "");
  const said = words.get("s") ?? run.chosen.join(",");
  view.signals = said.split(",").map(it => signals.findIndex(one => one.label === it)).filter(it => it >= 0);
  view.selected = Number(words.get("e") ?? -1);
  if (entries[view.selected] === undefined) view.selected = -1;
  view.words = words.get("q") || "";
  view.show = words.get("l") || "all";
  if (run.load.greatest.some(it => it.window === Number(words.get("w")))) view.window = Number(words.get("w"));
  if (words.get("c")) view.colour = words.get("c") === "identifier" ? "identifier" : "sender";
  if (range) look(Number(range[1]), Number(range[2])); else lookAtAll();
}
