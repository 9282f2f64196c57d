/* How moments and durations are written. */
const MICROSECOND = "\u00b5s";
const THIN = "\u202f";

const UNITS = [
  { name: "s", size: 1e6, from: 1e5 },
  { name: "ms", size: 1e3, from: 1e2 },
  { name: MICROSECOND, size: 1, from: 0 },
];

// A moment in seconds with all its microseconds, as a log has it.
function seconds(moment) {
  return (moment / 1e6).toFixed(6);
}

// The digits of a number in groups of three, behind the point too.
function grouped(text) {
  const [whole, part] = text.split(".");
  const left = whole.replace(/\B(?=(\d{3})+$)/g, THIN);
  return part ? `${left}.${part.replace(/(\d{3})(?=\d)/g, `$1${THIN}`)}` : left;
}

// A duration in the unit that suits it.
function duration(micros) {
  const whole = Math.round(micros);
  if (Math.abs(whole) < 1000) return `${whole} ${MICROSECOND}`;
  return Math.abs(whole) < 1e6 ? `${whole / 1e3} ms` : `${whole / 1e6} s`;
}

// The distance of ticks: 1, 2 or 5 of a power of ten, and at least so many microseconds.
function tickStep(least) {
  const power = 10 ** Math.floor(Math.log10(Math.max(1, least)));
  return Math.max(1, [1, 2, 5, 10].map(it => it * power).find(it => it >= least) || 10 * power);
}

// The unit of ticks at a distance.
function tickUnit(step) {
  return UNITS.find(it => step >= it.from);
}

// A tick's moment in a unit, with as many digits as the distance needs.
function tickText(moment, step, unit) {
  const digits = Math.max(0, -Math.floor(Math.log10(step / unit.size) + 1e-9));
  return grouped((moment / unit.size).toFixed(digits));
}

// A part of 1 in percent.
function percent(part) {
  return `${(100 * part).toFixed(part < 0.0995 ? 2 : 1)} %`;
}
