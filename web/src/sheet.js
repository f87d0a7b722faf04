// A sheet as data, and the bytes that stand for it (document 01, section 1; document 02, slips 3 and 5).
import { Wrong } from "./words.js";

export const COATINGS = ["bare", "ideal-ar", "mgf2", "broadband-ar", "mirror", "custom", "ideal-beamsplitter", "ideal-mirror"];
export const CUSTOM = 5;
export const MOST_SURFACES = 64;
export const MOST_LAYERS = 16;
export const FLOATS = { 1: 0, 2: 3, 3: 3, 4: 3, 5: 0, 6: 4, 7: 1 }; // after each kind word

export function editionOf(sheet) {
  if (sheet.edition) return sheet.edition;
  return sheet.surfaces.some((one) => one.retune !== null || one.layers.some((layer) => "a" in layer)) ? 2 : 1;
}

// The blocks of a sheet in order: kind, payload and numbers of each.
function blocksOf(sheet) {
  const blocks = [[1, editionOf(sheet)], [2, 0, sheet.wavelength, sheet.s, sheet.p]];
  for (const one of sheet.surfaces) {
    if (one.retune !== null) blocks.push([7, 0, one.retune]);
    blocks.push([3, 2 * one.coating + (one.reflected ? 1 : 0), one.before, one.after, one.angle]);
    for (const x of one.layers) blocks.push("a" in x ? [6, 0, x.a, x.b, x.c, x.d] : [4, 0, x.n, x.k, x.d]);
  }
  blocks.push([5, sheet.surfaces.length]);
  return blocks;
}

export function toBytes(sheet) {
  const blocks = blocksOf(sheet);
  const view = new DataView(new ArrayBuffer(blocks.reduce((sum, block) => sum + 4 + 8 * (block.length - 2), 0)));
  let at = 0;
  for (const [kind, payload, ...numbers] of blocks) {
    view.setUint32(at, ((kind << 28) | payload) >>> 0);
    numbers.forEach((x, i) => view.setFloat64(at + 4 + 8 * i, x));
    at += 4 + 8 * numbers.length;
  }
  return new Uint8Array(view.buffer);
}

// The blocks of bytes that are in grammar.
function* readBlocks(bytes) {
  const view = new DataView(bytes.buffer, bytes.byteOffset, bytes.byteLength);
  let at = 0;
  while (at < bytes.length) {
    const kind = bytes[at] >> 4;
    const payload = view.getUint32(at) & 0xfffffff;
    const numbers = Array.from({ length: FLOATS[kind] }, (_, i) => view.getFloat64(at + 4 + 8 * i));
    yield [kind, payload, numbers];
    at += 4 + 8 * FLOATS[kind];
  }
}

// The sheet of bytes that the gate has found to be in grammar. The limits are not tested.
export function fromBytes(bytes) {
  const sheet = { edition: 1, wavelength: NaN, s: NaN, p: NaN, surfaces: [] };
  let retune = null;
  for (const [kind, payload, x] of readBlocks(bytes)) {
    if (kind === 1) sheet.edition = payload;
    if (kind === 2) [sheet.wavelength, sheet.s, sheet.p] = x;
    if (kind === 7) [retune] = x;
    if (kind === 3) {
      sheet.surfaces.push({ coating: payload >> 1, reflected: payload % 2 === 1, before: x[0], after: x[1], angle: x[2], layers: [], retune });
      retune = null;
    }
    if (kind === 4) sheet.surfaces.at(-1).layers.push({ n: x[0], k: x[1], d: x[2] });
    if (kind === 6) sheet.surfaces.at(-1).layers.push({ a: x[0], b: x[1], c: x[2], d: x[3] });
  }
  return sheet;
}

// The wavelength that each surface is met with: that of the last retune up to it, else the beam's.
export function met(sheet) {
  let nm = sheet.wavelength;
  return sheet.surfaces.map((one) => (nm = one.retune === null ? nm : one.retune));
}

// ---- words in hexadecimal

export function hexWords(bytes) {
  const words = [];
  for (let i = 0; i < bytes.length; i += 4) {
    words.push(Array.from(bytes.subarray(i, i + 4), (byte) => byte.toString(16).toUpperCase().padStart(2, "0")).join(""));
  }
  return words;
}

export function isHex(text) {
  return /^\s*1000000[0-9a-f]\s/i.test(text) || /^\s*1000000[0-9a-f]{60,}\s*$/i.test(text);
}

export function fromHex(text) {
  const digits = text.replace(/\s+/g, "");
  const wrong = /[^0-9a-f]/i.exec(digits);
  if (wrong) throw new Wrong(`'${wrong[0]}' is no hexadecimal digit: a sheet in hexadecimal has the digits 0 to 9 and A to F, and spaces`);
  if (digits.length % 2) throw new Wrong("a digit is missing: a sheet in hexadecimal has 8 digits for each word");
  return Uint8Array.from({ length: digits.length / 2 }, (_, i) => parseInt(digits.slice(2 * i, 2 * i + 2), 16));
}
