/* The list of frames and lines, of which only the rows in view are made. */
const ROW = 22;
const PAGE = 10;
const list = document.getElementById("list");
const rowsBox = document.getElementById("rows");

// The entries that the search found, in order and by entry, or null where nothing is searched.
let matches = null;
// The entries of the list, in order.
let shown = [];

// Whether an entry is of those that the list is to have.
function isShown(entry) {
  const it = entries[entry];
  if (view.show === "frames") return it >= 0;
  if (view.show === "lines") return it < 0;
  return view.show === "all" || (it < 0 && halts[-1 - it] === 1);
}

let searched = null;

// Finds the entries that have all words of the search.
function search() {
  const words = view.words.toLowerCase().split(/\s+/).filter(Boolean);
  matches = null;
  if (words.length) {
    searched ??= Array.from(entries, (_, entry) => searchText(entry));
    matches = { has: new Uint8Array(entries.length), list: [] };
    for (let i = 0; i < searched.length; i++) {
      if (words.every(it => searched[i].includes(it))) { matches.has[i] = 1; matches.list.push(i); }
    }
  }
  fillList();
}

// Makes the list anew, of what is searched and shown.
function fillList() {
  shown = matches ? matches.list.filter(isShown) : Array.from(entries.keys()).filter(isShown);
  rowsBox.style.height = `${shown.length * ROW}px`;
  const found = matches ? `${matches.list.length} found` : "", box = document.getElementById("matches");
  if (box.textContent !== found) box.textContent = found;
  showRows();
}

// The place of an entry in the list, or of the next one behind it.
const placeOf = entry => firstAtLeast(shown, entry);

// An element with a text.
function made(tag, words, name = "") {
  const it = document.createElement(tag);
  it.textContent = words;
  if (name) it.className = name;
  return it;
}

// The cells of a frame's row.
function frameCells(frame) {
  const kind = made("span", kindText(frame));
  const swatch = made("span", "", "swatch");
  swatch.style.background = paintOf(colourOfKind(kindOf[frame]));
  kind.prepend(swatch);
  const rest = made("span", "");
  const bits = `${run.frames.bits[frame]} bits`;
  rest.append(made("code", dataText(frame) || "no data"), made("span", `  ${bits}  ${signalText(frame)}`, "dim"));
  return [made("span", senderText(frame) || "\u2013", "dim"), kind, rest];
}

// The row at a place of the list.
function makeRow(place) {
  const entry = shown[place], it = entries[entry];
  const row = made("div", "", place % 2 ? "row" : "row even");
  row.id = `entry${entry}`;
  row.style.top = `${place * ROW}px`;
  row.setAttribute("role", "option");
  row.setAttribute("aria-setsize", shown.length);
  row.setAttribute("aria-posinset", place + 1);
  row.setAttribute("aria-selected", entry === view.selected);
  row.append(made("span", seconds(momentOf(entry))));
  if (it >= 0) row.append(...frameCells(it));
  else {
    const line = -1 - it;
    const words = (halts[line] ? "\u2716 " : "") + run.lines.text[line];
    row.append(made("span", run.nodes[lineNode[line]]), made("span", words, halts[line] ? "wide halt" : "wide"));
  }
  return row;
}

// Makes the rows that are in view.
function showRows() {
  const first = Math.max(0, Math.floor(list.scrollTop / ROW) - 5);
  const end = Math.min(shown.length, Math.ceil((list.scrollTop + list.clientHeight) / ROW) + 5);
  rowsBox.replaceChildren(...Array.from({ length: Math.max(0, end - first) }, (_, i) => makeRow(first + i)));
  const row = document.getElementById(`entry${view.selected}`);
  if (row) list.setAttribute("aria-activedescendant", row.id); else list.removeAttribute("aria-activedescendant");
}

// Brings the row of the selected entry into view.
function revealRow() {
  const place = placeOf(view.selected);
  if (shown[place] === view.selected) {
    const top = place * ROW, room = list.clientHeight;
    const isNear = top > list.scrollTop - 3 * ROW && top < list.scrollTop + room + 2 * ROW;
    if (!isNear) list.scrollTop = top - room / 2;
    else list.scrollTop = Math.max(Math.min(list.scrollTop, top), top + ROW - room);
  }
  showRows();
}

// Brings the first row that is in view in time to the top, where nothing that is selected is in view.
function followView() {
  const span = view.selected >= 0 ? spanOf(view.selected) : [Infinity, Infinity];
  if (span[1] >= view.from && span[0] <= view.to) return;
  let low = 0, high = shown.length;
  while (low < high) {
    const middle = (low + high) >> 1;
    if (momentOf(shown[middle]) < view.from) low = middle + 1; else high = middle;
  }
  list.scrollTop = low * ROW;
}

// Selects an entry, and shows it in time and in the list.
function select(entry) {
  view.selected = entry;
  if (entry >= 0) reveal(entry);
  changed();
  revealRow();
}

// Selects the entry so many rows further.
function step(rows) {
  if (!shown.length) return;
  const place = view.selected < 0 ? (rows > 0 ? -1 : shown.length) : placeOf(view.selected);
  const here = shown[place] === view.selected || rows < 0 ? place : place - 1;
  select(shown[Math.min(shown.length - 1, Math.max(0, here + rows))]);
}

// Selects the next match or the one before, of those that the list has.
function stepMatch(by) {
  if (matches) step(by);
}
