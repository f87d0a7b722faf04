// Records of the C calls (oracle/README.md, 'Records'), made of the page's core. A record is a function's number, its arguments and its
// results, 64-bit words each; tests/replay.c has the same calls of the library in C.
import { call } from "../src/core.js";

const FILLED = -7.25; // what stands in a list that is lent
const NAN = 0x7ff8000000000000n;

const view = new DataView(new ArrayBuffer(8));

export function number(word) {
  view.setBigUint64(0, word);
  return view.getFloat64(0);
}

// All NaNs count as one.
export function word(x) {
  view.setFloat64(0, x);
  return Number.isNaN(x) ? NAN : view.getBigUint64(0);
}

// Takes one argument after the other from a record's words.
class Given {
  constructor(words) {
    this.words = words;
    this.at = 0;
  }

  word() {
    return this.words[this.at++];
  }

  count() {
    return Number(this.word());
  }

  number() {
    return number(this.word());
  }

  numbers(count) {
    return Float64Array.from({ length: count }, () => this.number());
  }

  list() {
    return this.numbers(this.count());
  }

  bytes() {
    const count = this.count();
    const words = Array.from({ length: Math.ceil(count / 8) }, () => this.word());
    return Uint8Array.from({ length: count }, (_, i) => Number((words[i >> 3] >> BigInt(56 - 8 * (i & 7))) & 0xffn));
  }
}

// A call over the exports themselves, in which a pointer to one number is an array of one: no count stands behind it.
function pointing(library, name, sheet, numbers) {
  const base = (library.__heap_base.value + 15) & ~15;
  const all = [sheet, ...numbers.filter(ArrayBuffer.isView)];
  const places = [];
  let at = base;
  for (const list of all) {
    places.push(at);
    at += Math.ceil(list.byteLength / 8) * 8;
  }
  const missing = at - library.memory.buffer.byteLength;
  if (missing > 0) library.memory.grow(Math.ceil(missing / 65536));
  const memory = new Uint8Array(library.memory.buffer);
  const bytes = (list) => new Uint8Array(list.buffer, list.byteOffset, list.byteLength);
  all.forEach((list, i) => memory.set(bytes(list), places[i]));
  const words = numbers.map((one) => (ArrayBuffer.isView(one) ? places[all.indexOf(one)] : one));
  const first = name === "quarter_waves" ? [] : [places[0], sheet.length];
  const returned = BigInt.asUintN(64, library[`dihkelu_${name}`](...first, ...words));
  all.forEach((list, i) => bytes(list).set(memory.subarray(places[i], places[i] + list.byteLength)));
  return returned;
}

function state(library, name, sheet, done, s, p, nm, more = []) {
  const [a, b, c, d] = [Uint32Array.of(done), Float64Array.of(s), Float64Array.of(p), Float64Array.of(nm)];
  const returned = name === "retune" ? pointing(library, name, sheet, [done, d, ...more]) : pointing(library, name, sheet, [a, b, c, d]);
  return [returned, BigInt(a[0]), word(b[0]), word(c[0]), word(d[0])];
}

// Calls that write a list whose length comes first.
function listed(given, name, take) {
  const list = new Float64Array(given.count()).fill(FILLED);
  const returned = call(name, ...take(given), list);
  return [returned, ...Array.from(list, word)];
}

// Bytes that a call has written, folded to one word.
function folded(bytes) {
  let sum = 0n;
  for (const byte of bytes) sum = BigInt.asUintN(64, (sum << 1n) | (sum >> 63n)) ^ BigInt(byte);
  return sum;
}

function evaluateList(given) {
  const list = new Float64Array(given.count()).fill(FILLED);
  const code = given.count();
  const numbers = [given.number(), given.number(), given.number()];
  const [angles, wavelengths] = [given.count(), given.count()];
  const lists = [given.numbers(angles), given.numbers(wavelengths), given.list()];
  const returned = call("evaluate_list", code, ...numbers, ...lists, list);
  return [returned, ...Array.from(list, word)];
}

function bandRecord(given) {
  const list = new Float64Array(given.count()).fill(FILLED);
  const [lines, weighed] = [given.count(), given.count()];
  const wavelengths = given.numbers(lines);
  const weights = Uint32Array.from({ length: weighed }, () => given.count());
  const returned = call("band", given.bytes(), wavelengths, weights, list);
  return [returned, ...Array.from(list, word)];
}

function output(given, name, take, found) {
  const bytes = new Uint8Array(given.count()).fill(0xa5);
  const returned = call(name, ...take(given), bytes);
  return [returned, ...found(bytes)];
}

const some = (count) => (given) => Array.from({ length: count }, () => given.number());
const lists = (count) => (given) => Array.from({ length: count }, () => given.list());
const coded = (given) => [given.count(), ...some(5)(given)];
const LISTED = {
  183: ["run", (given) => [given.bytes()]],
  184: ["answers", (given) => ((surface) => [given.bytes(), surface])(given.count())],
  185: ["evaluate", (given) => [...coded(given), given.list()]],
  186: ["stack", (given) => ((numbers) => [given.bytes(), ...numbers])(some(4)(given))],
  187: ["to_mueller", lists(1)], 188: ["mueller_born_wolf", lists(1)], 189: ["reflectance_range", some(4)],
  208: ["fresnel_dielectric", some(3)], 209: ["fresnel_unpolarized", some(3)], 210: ["schlick_approx", some(3)],
  211: ["surface_fresnel_jones", some(3)], 212: ["quarter_wave_ar", some(3)],
  213: ["bragg_mirror", (given) => [given.number(), given.number(), given.count(), given.number()]],
  215: ["to_stokes", lists(1)], 216: ["jones_normalize", lists(1)], 217: ["jones_intensity", lists(1)], 218: ["stokes_figures", lists(1)],
  219: ["jones_apply", lists(2)], 220: ["jones_mul", lists(2)], 221: ["mueller_apply", lists(2)], 222: ["diattenuator", lists(1)],
  223: ["linear_polarizer", some(1)], 224: ["retarder", some(2)], 225: ["quarter_wave_plate", some(1)], 226: ["half_wave_plate", some(1)],
};

// The results of a record's call, in words; null for a function that is no call of the header.
export function answer(library, which, words) {
  const given = new Given(words);
  if (LISTED[which]) return listed(given, ...LISTED[which]);
  if (which === 180) return [call("gate", given.bytes())];
  if (which === 181) return state(library, "start", given.bytes(), 7, FILLED, FILLED, FILLED);
  if (which === 182) {
    const before = [given.count(), given.number(), given.number(), given.number()];
    return state(library, "step", given.bytes(), ...before);
  }
  if (which === 197) {
    const [nm, done, ...before] = [given.number(), given.count(), given.number(), given.number(), given.number()];
    return state(library, "retune", given.bytes(), done, ...before, [nm]);
  }
  if (which === 155) {
    const over = Float64Array.of(FILLED);
    return [pointing(library, "quarter_waves", new Uint8Array(0), [...some(3)(given), over]), word(over[0])];
  }
  if (which === 198) return output(given, "edition_1", (one) => [one.bytes()], (bytes) => [folded(bytes)]);
  if (which === 205) return bandRecord(given);
  if (which === 206) return evaluateList(given);
  if (which === 207) return [call("invalid_argument", ...some(4)(given))];
  if (which === 214) return [call("coating_from_name", given.bytes())];
  if (which === 227) return output(given, "coating_name", (one) => [one.count()], (bytes) => Array.from(bytes, BigInt));
  return null;
}

export const CALLS = [155, 180, 181, 182, 183, 184, 185, 186, 187, 188, 189, 197, 198, 205, 206, 207, 208, 209, 210, 211, 212, 213, 214, 215, 216, 217, 218, 219, 220, 221, 222, 223, 224, 225, 226, 227];

export function* readRecords(bytes) {
  const data = new DataView(bytes.buffer, bytes.byteOffset, bytes.byteLength);
  for (let at = 0; at < bytes.length; ) {
    const [which, taken, given] = [0, 2, 4].map((i) => data.getUint16(at + i));
    const words = Array.from({ length: taken + given }, (_, i) => data.getBigUint64(at + 8 + 8 * i));
    yield { which, taken: words.slice(0, taken), expected: words.slice(taken) };
    at += 8 + 8 * (taken + given);
  }
}

export function record(which, taken, results) {
  const bytes = new DataView(new ArrayBuffer(8 + 8 * (taken.length + results.length)));
  [which, taken.length, results.length].forEach((x, i) => bytes.setUint16(2 * i, x));
  [...taken, ...results].forEach((x, i) => bytes.setBigUint64(8 + 8 * i, x));
  return new Uint8Array(bytes.buffer);
}
