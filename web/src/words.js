// Numbers as people write and read them, and what is wrong in a sentence.

// What is wrong, in words, at a cell of the table or a line of a text.
export class Wrong extends Error {
  constructor(sentence, path = "") {
    super(sentence);
    this.path = path;
  }
}

const DECIMAL = "[+-]?(?:[0-9]+[.,]?[0-9]*|[.,][0-9]+)(?:[eE][+-]?[0-9]+)?";
const WHOLE = new RegExp(`^${DECIMAL}$`);
const THOUSANDS = /^[+-]?[1-9][0-9]{0,2},[0-9]{3}$/;
const BITS = /^0x[0-9a-f]{16}$/i;
export const BEGINS_NUMBER = /^[+\u2212-]?[.,]?[0-9]/;

// A number as every reader of the text takes it: with a point and a plain minus.
export function plain(token) {
  return token.replace("\u2212", "-").replace(",", ".");
}

// A decimal number, with a point or a comma, or the 16 hexadecimal digits of a double's bits after 0x. A comma before three digits may be
// one of thousands, and is not guessed.
export function number(token) {
  if (BITS.test(token)) {
    const view = new DataView(new ArrayBuffer(8));
    view.setBigUint64(0, BigInt(token));
    return view.getFloat64(0);
  }
  const minus = token.replace("\u2212", "-");
  if (!WHOLE.test(minus)) throw new Wrong(token ? `'${token}' is no number: write it as 1.5 or 1,5` : "a number is missing: type one");
  if (THOUSANDS.test(minus)) throw new Wrong(`'${token}' may be ${minus.replace(",", ".")} or ${minus.replace(",", "")}: write one of these`);
  return Number(plain(token));
}

// The shortest number that reads back to the same bits, in Python's form.
export function written(x) {
  if (!Number.isFinite(x)) return "0x" + bits(x);
  if (x === 0) return Object.is(x, -0) ? "-0" : "0";
  const [mantissa, power] = x.toExponential().split("e");
  const exponent = Number(power);
  if (exponent >= -4 && exponent < 16) return String(x);
  return `${mantissa}e${exponent < 0 ? "-" : "+"}${String(Math.abs(exponent)).padStart(2, "0")}`;
}

export function bits(x) {
  const view = new DataView(new ArrayBuffer(8));
  view.setFloat64(0, x);
  return view.getBigUint64(0).toString(16).toUpperCase().padStart(16, "0");
}

export function counted(count, what) {
  return `${count} ${what}${count === 1 ? "" : "s"}`;
}

// So many significant digits at most, without needless zeros.
export function short(x, digits = 6) {
  return Number.isFinite(x) ? String(Number(x.toPrecision(digits))) : String(x);
}

// ---- units

export const DEGREE = Math.PI / 180;
export const UNITS = { nm: 1, um: 1000, deg: DEGREE, rad: 1 };
const SPELLED = { "\u00b5m": "um", "\u03bcm": "um", "\u00b0": "deg", "\u00ba": "deg", degree: "deg", degrees: "deg" };
const GLUED = new RegExp(`^(${DECIMAL})(${[...Object.keys(UNITS), ...Object.keys(SPELLED)].join("|")})$`, "i");

// A unit as the text has it.
export function unit(token) {
  const small = token.toLowerCase();
  return SPELLED[small] || small;
}

// A number and the unit that stands right behind it, as in 1064nm and 8°; any other word as it is.
export function apart(token) {
  const parts = GLUED.exec(token.replace("\u2212", "-"));
  return parts ? [parts[1], parts[2]] : [token];
}

// In nanometres or radians: multiplied once.
export function inUnit(x, name) {
  return UNITS[name] === 1 ? x : x * UNITS[name];
}

// A cell such as "1064 nm", "8,5°" or "10": its number as written and its unit, the first of `units` where it has none.
export function quantity(cell, units) {
  const words = cell.trim().split(/\s+/).flatMap(apart);
  const name = words.length === 1 ? units[0] : unit(words[1]);
  if (words.length > 2 || !units.includes(name)) throw new Wrong(`'${cell}' is no number in ${units.join(" or ")}`);
  return { token: words[0], unit: name, value: inUnit(number(words[0]), name) };
}
