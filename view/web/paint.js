/* Colours, which the style sheet has, and what is drawn with them. */
const PAINTS = 7;
const FONT = "12px system-ui, 'Segoe UI', 'Liberation Sans', sans-serif";
const SMALL = "11px system-ui, 'Segoe UI', 'Liberation Sans', sans-serif";
const WIDTH_OF_LETTER = 6.2;

const canvas = document.getElementById("canvas");
const pen = canvas.getContext("2d", { alpha: false });
const colours = {};

// Reads the colours of the style sheet, which are others in a dark page.
function takeColours() {
  const style = getComputedStyle(document.documentElement);
  const named = ["back", "lane", "line", "text", "dim", "accent", "halt", "load", "shade", "grid"];
  for (const name of named) colours[name] = style.getPropertyValue(`--${name}`).trim();
  colours.paints = Array.from({ length: PAINTS }, (_, i) => style.getPropertyValue(`--paint${i}`).trim());
  colours.inks = colours.paints.map(inkOn);
}

// Black or white, whichever is read better on a colour.
function inkOn(colour) {
  const [red, green, blue] = [1, 3, 5].map(at => (parseInt(colour.slice(at, at + 2), 16) / 255) ** 2.2);
  return 0.2126 * red + 0.7152 * green + 0.0722 * blue > 0.22 ? "#000000" : "#ffffff";
}

// The number of a kind's colour: that of its sender where frames are coloured so and one is known. Behind the last
// colour the first comes again, with a band.
function colourOfKind(kind) {
  const sender = run.kinds[kind].sender;
  return view.colour === "sender" && sender >= 0 ? sender : view.colour === "sender" ? run.nodes.length + kind : kind;
}

const paintOf = number => colours.paints[number % PAINTS];
const inkOf = number => colours.inks[number % PAINTS];
const bandsOf = number => Math.floor(number / PAINTS) % 3;

// A bar of a colour, with its bands.
function bar(x, y, width, height, number) {
  pen.fillStyle = paintOf(number);
  pen.fillRect(x, y, width, height);
  const bands = bandsOf(number);
  if (!bands || height < 8) return;
  pen.fillStyle = colours.back;
  for (let i = 1; i <= bands; i++) pen.fillRect(x, y + Math.round(i * height / (bands + 1)), width, 2);
}

// A text that is cut where it would be wider than its place.
function text(words, x, y, width, colour, font = SMALL) {
  const room = Math.floor(width / WIDTH_OF_LETTER);
  if (room < 2 || !words) return;
  pen.font = font;
  pen.fillStyle = colour;
  pen.fillText(words.length > room ? `${words.slice(0, room - 1)}\u2026` : words, x, y);
}

// A mark of a line: a point downwards, or a cross where a trap or the limit of turns halts the node.
function mark(x, y, halt, colour) {
  if (!halt) {
    pen.fillStyle = colour;
    pen.beginPath();
    pen.moveTo(x - 4, y);
    pen.lineTo(x + 4, y);
    pen.lineTo(x, y + 8);
    pen.fill();
    return;
  }
  pen.strokeStyle = colours.halt;
  pen.lineWidth = 3;
  pen.beginPath();
  pen.moveTo(x - 5, y - 1);
  pen.lineTo(x + 5, y + 9);
  pen.moveTo(x + 5, y - 1);
  pen.lineTo(x - 5, y + 9);
  pen.stroke();
}
