// The library: c/dihkelu.c as WebAssembly. Each call has its arguments copied to the module's memory, and its answer copied out.

// A refusal of the documents: its number, and its place, a word of the sheet, a byte of the text or a line of the band.
export class Refused extends Error {
  constructor(number, place) {
    super(`refused ${number} ${place}`);
    this.number = number;
    this.place = place;
  }
}

let library = null;

export async function startCore(bytes) {
  const { instance } = await WebAssembly.instantiate(bytes, {});
  library = instance.exports;
  return library;
}

// Room for lists, one behind the other, each at a multiple of 8 bytes.
function room(sizes) {
  const places = [];
  let at = (library.__heap_base.value + 15) & ~15;
  for (const size of sizes) {
    places.push(at);
    at += Math.ceil(size / 8) * 8;
  }
  if (at > 2 ** 30) throw new Refused(4, 0); // more than any list of the page
  const missing = at - library.memory.buffer.byteLength;
  if (missing > 0) library.memory.grow(Math.ceil(missing / 65536));
  return places;
}

// A call over lists that are lent, typed arrays each. Those that are written are copied back. A number is passed as it is.
export function call(name, ...given) {
  const lists = given.filter(ArrayBuffer.isView);
  const places = room(lists.map((list) => list.byteLength));
  const memory = new Uint8Array(library.memory.buffer);
  const bytes = (list) => new Uint8Array(list.buffer, list.byteOffset, list.byteLength);
  lists.forEach((list, i) => memory.set(bytes(list), places[i]));
  const words = given.flatMap((one) => (ArrayBuffer.isView(one) ? [places[lists.indexOf(one)], one.length] : [one]));
  const returned = BigInt.asUintN(64, BigInt(library[`dihkelu_${name}`](...words)));
  lists.forEach((list, i) => bytes(list).set(memory.subarray(places[i], places[i] + list.byteLength)));
  return returned;
}

// The low half of what a call returned; its refusal is thrown.
export function answered(returned) {
  const number = Number(returned >> 32n);
  const low = Number(returned & 0xffffffffn);
  if (number) throw new Refused(number, low);
  return low;
}

const MOST = { surfaces: 64, answers: 69, stack: 192, bytes: 39460 };

export function version() {
  const number = library.dihkelu_version();
  return `${number >>> 16}.${number & 0xffff}`;
}

// The count of surfaces of a sheet that is admitted.
export function gate(sheet) {
  return answered(call("gate", sheet));
}

// s and p after each surface.
export function run(sheet) {
  const list = new Float64Array(2 * MOST.surfaces);
  const count = answered(call("run", sheet, list));
  return Array.from({ length: count }, (_, i) => [list[2 * i], list[2 * i + 1]]);
}

// What stays in the glass of s and of p at a surface; null of a bare one, which has no response.
export function absorptance(sheet, surface) {
  const list = new Float64Array(MOST.answers);
  const count = answered(call("answers", sheet, surface, list));
  return count < MOST.answers ? null : [list[67], list[68]];
}

// The weighed means of s and of p over the lines of a band.
export function band(sheet, wavelengths, weights) {
  const list = new Float64Array(2);
  answered(call("band", sheet, Float64Array.from(wavelengths), Uint32Array.from(weights), list));
  return [list[0], list[1]];
}

// The sheet for programs that read edition 1 only.
export function edition1(sheet) {
  const output = new Uint8Array(MOST.bytes);
  return output.slice(0, answered(call("edition_1", sheet, output)));
}

// The layers of a text in shorthand, n, k and thickness each.
export function stack(text, high, low, middle, design) {
  const list = new Float64Array(MOST.stack);
  const count = answered(call("stack", new TextEncoder().encode(text), high, low, middle, design, list));
  return Array.from({ length: count / 3 }, (_, i) => ({ n: list[3 * i], k: list[3 * i + 1], d: list[3 * i + 2] }));
}

// ---- sine and arcsine, which stand inside calls for polarized light (python/dihkelu/angles.py)

// A retarder of twice the angle, its axis at 0, multiplies Ex by e^(i angle).
function turned(angle) {
  const list = new Float64Array(8);
  answered(call("retarder", 2 * angle, 0, list));
  return list;
}

export function sine(angle) {
  return turned(angle)[1];
}

export function cosine(angle) {
  return turned(angle)[0];
}

// Twice the ellipticity of light whose S3 is x, S0 being 1.
export function arcsine(x) {
  const list = new Float64Array(5);
  answered(call("stokes_figures", Float64Array.of(1, 0, 0, x), list));
  return 2 * list[4];
}
