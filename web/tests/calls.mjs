// Random calls of the page's core as records, which tests/replay.c holds to the library in C: node web/tests/calls.mjs SEED COUNT > FILE
import fs from "node:fs";
import { CALLS, answer, record, word } from "./records.mjs";
import { toBytes } from "../src/sheet.js";
import { start } from "./start.mjs";

let seed = Number(process.argv[2]) >>> 0;

// A number from 0 to 1 (mulberry32).
function draw() {
  seed = (seed + 0x6d2b79f5) >>> 0;
  let z = Math.imul(seed ^ (seed >>> 15), seed | 1);
  z ^= z + Math.imul(z ^ (z >>> 7), z | 61);
  return ((z ^ (z >>> 14)) >>> 0) / 4294967296;
}

const below = (count) => Math.floor(draw() * count);
const one = (list) => list[below(list.length)];
const between = (low, high) => low + draw() * (high - low);
const many = (count, make) => Array.from({ length: count }, make);

const EDGES = [0, -0, 1, 0.5, 4, 0.25, 100, 10000, 99.99999999999999, 5e-324, -1, 1e300, Infinity, -Infinity, NaN, 2 ** 20, Math.PI];

// Mostly a number of its range, sometimes any other.
function near(low, high) {
  return below(200) ? between(low, high) : one(EDGES);
}

function layer() {
  if (below(4) === 0) return { a: near(1.3, 2.4), b: near(0, 0.03), c: near(0, 0.0001), d: near(0, 400) };
  return { n: near(1.3, 2.5), k: 0, d: one([near(0, 400), 100]) };
}

// A metal film is met at angle 0.
function metal() {
  return { n: near(0.0625, 4), k: near(0, 8), d: near(0, 60) };
}

function surface() {
  const head = below(5) === 0;
  const coating = below(2) ? 5 : below(8);
  const layers = coating !== 5 ? [] : head && below(2) ? many(1 + below(4), metal) : many(one([0, 1, 2, 4, 8, 16]), layer);
  const retune = below(12) ? null : near(400, 1200);
  return { coating, reflected: below(3) === 0, before: one([1, near(1, 1.6)]), after: near(1.3, 1.9), angle: head ? 0 : near(-0.8, 0.8), layers, retune };
}

function sheet() {
  const count = below(20) ? below(7) : 64;
  return { edition: 2, wavelength: near(400, 1200), s: near(0, 1), p: near(0, 1), surfaces: many(count, surface) };
}

// A sheet, sometimes with a word damaged or its end cut off.
function sheetBytes() {
  const bytes = toBytes(sheet());
  if (below(10) === 0) bytes[below(bytes.length)] ^= 1 << below(8);
  return below(25) ? bytes : bytes.slice(0, below(bytes.length));
}

const number = (x) => [word(x)];
const count = (x) => [BigInt(x)];
const numbers = (list) => [...count(list.length), ...list.map(word)];

function bytesOf(bytes) {
  const words = many(Math.ceil(bytes.length / 8), () => 0n);
  bytes.forEach((byte, i) => (words[i >> 3] |= BigInt(byte) << BigInt(56 - 8 * (i & 7))));
  return [...count(bytes.length), ...words];
}

const any = () => (below(3) ? between(-2, 4) : one(EDGES));
const stackText = () => new TextEncoder().encode(below(2) ? one(["(HL)^7 H", "H", "2H L", "(H(LM)^2)^3", "((((H))))", "", "H^32", "(H", "(HL)^31 H", "LLLLLLLLLLLLLLLLL"]) : many(below(12), () => one("HLM()^ 0123456789x".split(""))).join(""));
const room = (most) => count(below(8) ? most : below(most + 2));
const layers = () => many(below(17), layer).filter((x) => "n" in x).flatMap((x) => [x.n, x.k, x.d]);
const matrix = (size) => numbers(many(below(30) ? size : below(20), any));

function evaluateList() {
  const angles = many(below(6), () => near(-0.8, 0.8));
  const wavelengths = many(below(20) ? angles.length : below(6), () => near(400, 1200));
  const head = [...room(16 * angles.length), ...count(below(10)), ...number(550), ...number(near(1, 1.6)), ...number(near(1, 2))];
  return [...head, ...count(angles.length), ...count(wavelengths.length), ...angles.map(word), ...wavelengths.map(word), ...numbers(layers())];
}

function bandWords() {
  const lines = many(below(10) ? 1 + below(8) : below(66), () => near(400, 1200));
  const weights = many(below(20) ? lines.length : below(5), () => (below(30) ? 1 + below(1000) : below(2000)));
  return [...room(2), ...count(lines.length), ...count(weights.length), ...lines.map(word), ...weights.map(BigInt), ...bytesOf(sheetBytes())];
}

const floats = (amount) => many(amount, () => word(any()));

// The arguments of a record of each function, as tests/replay.c takes them.
function argumentsOf(which) {
  if (which === 155) return [near(1, 4), near(0, 100000), near(100, 10000)].map(word);
  if (which === 180 || which === 181) return bytesOf(sheetBytes());
  if (which === 182) return [...count(below(8)), word(near(0, 1)), word(near(0, 1)), word(near(400, 1200)), ...bytesOf(sheetBytes())];
  if (which === 183) return [...room(128), ...bytesOf(sheetBytes())];
  if (which === 184) return [...room(69), ...count(below(7)), ...bytesOf(sheetBytes())];
  if (which === 185) return [...room(16), ...count(below(10)), word(near(400, 1200)), word(near(1, 2)), word(near(1, 2)), word(near(-0.8, 0.8)), word(near(400, 1200)), ...numbers(layers())];
  if (which === 186) return [...room(192), word(near(1, 3)), word(near(1, 3)), word(near(1, 3)), word(near(400, 1200)), ...bytesOf(stackText())];
  if (which === 187 || which === 188) return [...room(16), ...matrix(8)];
  if (which === 189) return [...room(2), word(near(1, 2)), word(near(2, 4)), word(near(1, 2)), word(near(2, 4))];
  if (which === 197) return [word(near(400, 1200)), ...count(below(8)), word(near(0, 1)), word(near(0, 1)), word(near(400, 1200)), ...bytesOf(sheetBytes())];
  if (which === 198) return [...room(39460), ...bytesOf(sheetBytes())];
  if (which === 205) return bandWords();
  if (which === 206) return evaluateList();
  if (which === 207) return floats(4);
  if (which === 213) return [...room(189), ...floats(2), ...count(below(34)), ...floats(1)];
  if (which === 214) return bytesOf(new TextEncoder().encode(one([" mgf2 ", "BBAR", "none", "", "mirror", "AR", "grün", "a name that has far more than 32 bytes"])));
  if (which === 227) return [...room(6), ...count(below(10))];
  if (which >= 208 && which <= 212) return [...room(16), ...floats(3)];
  if (which === 223 || which > 224) return [...room(8), ...floats(1)];
  if (which === 224) return [...room(8), ...floats(2)];
  if (which === 219) return [...room(4), ...matrix(8), ...matrix(4)];
  if (which === 220) return [...room(8), ...matrix(8), ...matrix(8)];
  if (which === 221) return [...room(4), ...matrix(16), ...matrix(4)];
  return [...room(8), ...matrix(4)];
}

const library = await start();
for (let i = 0; i < Number(process.argv[3]); i++) {
  const which = below(3) ? one([180, 182, 183, 184, 185, 205]) : one(CALLS); // the page's own more often
  const taken = argumentsOf(which);
  fs.writeSync(1, record(which, taken, answer(library, which, taken)));
}
