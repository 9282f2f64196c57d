/* What the page does with keys, pointer and controls. */
const byId = id => document.getElementById(id);
const lanesBox = byId("lanes");
const statusBox = byId("status");
const tip = byId("tip");

let isDue = false;
let isReady = false;
let statusTimer = 0;
let addressTimer = 0;
let followed = "";

// Has the lanes drawn anew at the next frame of the screen, and a little later the line and the address set.
function changed() {
  if (!isDue && isReady) {
    isDue = true;
    requestAnimationFrame(() => { isDue = false; draw(); });
  }
  clearTimeout(statusTimer);
  statusTimer = setTimeout(tellView, 150);
  clearTimeout(addressTimer);
  addressTimer = setTimeout(() => history.replaceState(null, "", address()), 250);
}

// How many frames and lines lie between two moments, and the load.
function tellSpan(from, to) {
  const frames = firstAtLeast(starts, to) - firstAtLeast(ends, from);
  const lines = firstAtLeast(lineAt, to + 1) - firstAtLeast(lineAt, from);
  const load = percent(loadBetween(Math.max(0, from), Math.min(last, to)));
  return `${duration(to - from)}, frames ${frames}, lines ${lines}, load ${load}`;
}

// Says what is in view.
function tellView() {
  const from = Math.max(0, view.from), to = Math.min(last, view.to);
  let words = `In view ${seconds(from)} to ${seconds(to)} s: ${tellSpan(from, to)}.`;
  if (view.measured) {
    const [start, end] = [...view.measured].sort((a, b) => a - b);
    words += ` Measured ${seconds(start)} to ${seconds(end)} s: ${tellSpan(start, end)}.`;
  }
  if (view.selected >= 0) words += ` Selected: ${tellEntry(view.selected).replace(/\n/g, "; ")}`;
  if (statusBox.textContent !== words) statusBox.textContent = words;
  if (followed !== `${view.from} ${view.to}`) followView();
  followed = `${view.from} ${view.to}`;
}

// Fits the canvas to its place.
function fit() {
  const ratio = window.devicePixelRatio || 1;
  layOut();
  lanesBox.style.height = `${plot.height + 1}px`;
  plot.width = lanesBox.clientWidth;
  plot.shown = lanesBox.clientHeight;
  canvas.width = Math.round(plot.width * ratio);
  canvas.height = Math.round(plot.shown * ratio);
  canvas.style.width = `${plot.width}px`;
  canvas.style.height = `${plot.shown}px`;
  pen.setTransform(ratio, 0, 0, ratio, 0, 0);
  overview = null;
  byId("tall").style.height = `${Math.max(0, plot.height - plot.shown)}px`;
  showRows();
  // At once, since a canvas of another size is black.
  draw();
  changed();
}

// Colours are read again, and all is drawn anew.
function recolour() {
  takeColours();
  overview = null;
  showRows();
  changed();
}

// ---- the head

function tellRun() {
  byId("name").textContent = run.scenario;
  byId("summary").textContent = `Nodes: ${run.nodes.length}, ${1e3 / run.bit} kbit/s, frames: ${ends.length}, ` +
    `lines: ${lineAt.length}, the last at ${seconds(run.last)} s` +
    (run.lines.halts.length ? `, halted nodes: ${run.lines.halts.length}` : "");
  byId("notes").textContent = run.notes.join(" ");
  canvas.setAttribute("aria-label", `Lanes of the bus, its load, ${run.nodes.length} nodes and signals over time; ` +
    "the list below has the same frames and lines as text.");
}

function tellLoad() {
  const greatest = run.load.greatest.find(it => it.window === view.window);
  byId("load").textContent = `Bus load: mean ${percent(run.load.mean)}` + (greatest
    ? `, greatest ${percent(greatest.load)} in the ${duration(greatest.window)} up to ${seconds(greatest.end)} s` : "");
}

// ---- signals

function showChosen() {
  byId("chosen").replaceChildren(...view.signals.map(number => {
    const item = document.createElement("li");
    const button = made("button", `${signals[number].name} \u2715`);
    button.type = "button";
    button.setAttribute("aria-label", `Hide ${signals[number].label}`);
    button.addEventListener("click", () => { chooseSignals(view.signals.filter(it => it !== number)); });
    item.append(button);
    return item;
  }));
}

function chooseSignals(numbers) {
  view.signals = numbers;
  showChosen();
  fit();
}

function addSignal() {
  const name = byId("signal").value.trim();
  const number = signals.findIndex(it => it.label === name || it.name === name);
  if (number < 0) return;
  byId("signal").value = "";
  if (!view.signals.includes(number)) chooseSignals([...view.signals, number]);
}

// ---- the pointer

let drag = null;

// The place of the pointer on the canvas.
function placeIn(event) {
  const box = canvas.getBoundingClientRect();
  return [event.clientX - box.left, event.clientY - box.top];
}

function onWheel(event) {
  const [x] = placeIn(event);
  if (x < NAMES) return;
  event.preventDefault();
  const by = event.deltaMode === 1 ? 16 : 1;
  if (event.shiftKey || Math.abs(event.deltaX) > Math.abs(event.deltaY)) {
    move((event.deltaX || event.deltaY) * by / 800);
  } else {
    zoom(Math.exp(Math.max(-1, Math.min(1, event.deltaY * by * 0.0022))), momentAt(x));
  }
}

function onDown(event) {
  const [x, y] = placeIn(event);
  if (event.button !== 0 || x < NAMES) return;
  canvas.setPointerCapture(event.pointerId);
  drag = { x, y, from: view.from, to: view.to, moved: false, inOverview: y < OVERVIEW, measures: event.shiftKey };
  if (drag.inOverview) moveOverview(x);
}

// Shows what stands in the overview at a place.
function moveOverview(x) {
  const middle = (x - NAMES) / (plot.width - NAMES - RIGHT) * last, half = (view.to - view.from) / 2;
  look(middle - half, middle + half);
}

function onMove(event) {
  const [x, y] = placeIn(event);
  if (!drag) { showTip(event, x, y); return; }
  tip.hidden = true;
  if (Math.abs(x - drag.x) > 3) drag.moved = true;
  if (drag.inOverview) moveOverview(x);
  else if (drag.measures) { view.measured = [momentAt(drag.x), momentAt(x)]; changed(); }
  else if (drag.moved) {
    const by = (drag.x - x) / plot.scale;
    look(drag.from + by, drag.to + by);
  }
}

function onUp(event) {
  if (!drag) return;
  const [x, y] = placeIn(event);
  const chooses = !drag.moved && !drag.inOverview && !drag.measures;
  drag = null;
  if (chooses) select(entryAt(x, y));
}

function showTip(event, x, y) {
  const words = tipAt(x, y);
  tip.hidden = !words;
  if (!words) return;
  tip.textContent = words;
  const right = event.clientX + 14 + tip.offsetWidth > window.innerWidth;
  tip.style.left = `${Math.max(0, right ? event.clientX - 14 - tip.offsetWidth : event.clientX + 14)}px`;
  tip.style.top = `${Math.min(event.clientY + 14, window.innerHeight - tip.offsetHeight - 4)}px`;
}

// ---- keys

function toggleTheme() {
  const dark = getComputedStyle(document.documentElement).getPropertyValue("--back").trim() !== "#ffffff";
  document.documentElement.dataset.theme = dark ? "light" : "dark";
  recolour();
}

// The moment around which keys zoom: that of the selected entry where it is in view, else the middle.
function middle() {
  const [from, to] = view.selected >= 0 ? spanOf(view.selected) : [Infinity, -Infinity];
  return to >= view.from && from <= view.to ? to : (view.from + view.to) / 2;
}

const KEYS = {
  "+": () => zoom(0.5, middle()), "=": () => zoom(0.5, middle()), "-": () => zoom(2, middle()), "0": lookAtAll,
  "ArrowLeft": () => move(-0.2), "ArrowRight": () => move(0.2), "n": () => stepMatch(1), "p": () => stepMatch(-1),
  "/": () => byId("search").focus(), "l": () => list.focus(), "t": toggleTheme,
  "Escape": () => { view.measured = null; tip.hidden = true; changed(); },
};

const LIST_KEYS = {
  "ArrowDown": () => step(1), "ArrowUp": () => step(-1), "PageDown": () => step(PAGE), "PageUp": () => step(-PAGE),
  "Home": () => step(-shown.length), "End": () => step(shown.length),
  "Enter": () => { if (view.selected >= 0) lookAt(view.selected); },
};

function onKey(event) {
  if (event.ctrlKey || event.altKey || event.metaKey) return;
  const target = event.target;
  if (target === byId("search") && event.key === "Enter") {
    event.preventDefault();
    stepMatch(event.shiftKey ? -1 : 1);
  }
  if (target === byId("search") && event.key === "Escape") target.blur();
  if (target === byId("signal") && event.key === "Enter") { event.preventDefault(); addSignal(); }
  if (/^(INPUT|SELECT|TEXTAREA)$/.test(target.tagName)) return;
  const act = (target === list && LIST_KEYS[event.key]) || KEYS[event.key];
  if (!act) return;
  event.preventDefault();
  act();
}

// ---- the beginning

function listen() {
  canvas.addEventListener("wheel", onWheel, { passive: false });
  canvas.addEventListener("pointerdown", onDown);
  canvas.addEventListener("pointermove", onMove);
  canvas.addEventListener("pointerup", onUp);
  canvas.addEventListener("pointerleave", () => { tip.hidden = true; });
  canvas.addEventListener("dblclick", event => zoom(0.25, momentAt(placeIn(event)[0])));
  lanesBox.addEventListener("scroll", () => { plot.scroll = lanesBox.scrollTop; changed(); });
  list.addEventListener("scroll", showRows);
  list.addEventListener("click", event => {
    const row = event.target.closest(".row");
    if (row) select(Number(row.id.slice(5)));
  });
  list.addEventListener("dblclick", () => { if (view.selected >= 0) lookAt(view.selected); });
  document.addEventListener("keydown", onKey);
  byId("tools").addEventListener("submit", event => event.preventDefault());
  byId("search").addEventListener("input", () => { view.words = byId("search").value; find(); });
  byId("before").addEventListener("click", () => stepMatch(-1));
  byId("next").addEventListener("click", () => stepMatch(1));
  byId("show").addEventListener("change", () => { view.show = byId("show").value; fillList(); changed(); });
  byId("add").addEventListener("click", addSignal);
  byId("window").addEventListener("change", () => {
    view.window = Number(byId("window").value);
    tellLoad();
    changed();
  });
  byId("colour").addEventListener("change", () => { view.colour = byId("colour").value; recolour(); });
  byId("theme").addEventListener("click", toggleTheme);
  matchMedia("(prefers-color-scheme: dark)").addEventListener("change", recolour);
  window.addEventListener("hashchange", takeAll);
  new ResizeObserver(fit).observe(lanesBox);
}

function find() {
  search();
  overview = null;
  changed();
}

// Takes what the address says, and shows it.
function takeAll() {
  takeAddress();
  byId("search").value = view.words;
  byId("show").value = view.show;
  byId("window").value = view.window;
  byId("colour").value = view.colour;
  tellLoad();
  showChosen();
  find();
  fit();
  revealRow();
}

// An option of a control, with what it stands for.
function option(value, words) {
  const it = made("option", words);
  it.value = value;
  return it;
}

byId("signals").append(...signals.map(it => option(it.label, "")));
byId("window").append(...run.load.greatest.map(it => option(it.window, duration(it.window))));
byId("window").disabled = !run.load.greatest.length;
takeColours();
tellRun();
listen();
isReady = true;
takeAll();
tellView();
