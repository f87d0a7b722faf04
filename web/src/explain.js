// Refusals in words, with the cell, the number found and what to do (python/dihkelu/explain.py). That a sheet is refused, and where, is
// the library's answer. Which limit is missed is arithmetic of this file, on sines and cosines of the library.
import { arcsine, cosine, sine } from "./core.js";
import { cauchy } from "./glasses.js";
import { MOST_LAYERS, MOST_SURFACES, CUSTOM, FLOATS, met } from "./sheet.js";
import { DEGREE, counted, short, written } from "./words.js";

const PRESET_INDICES = { 2: [1.38], 3: [1.46, 2.3], 4: [2.3, 1.46] }; // which the gate tests too
const PRESET_NM = 550;
const MOST_METAL = 4; // layers of a surface with metal films
const KINDS = { 1: "OPEN", 2: "BEAM", 3: "SURFACE", 4: "LAYER", 5: "END", 6: "a glass, kind 6", 7: "a retune, kind 7" };

// ---- limits: each that is missed has its cell and a sentence

function within(path, name, x, low, high) {
  return low <= x && x <= high ? [] : [{ path, sentence: `${name} is ${written(x)}: give a number from ${low} to ${high}` }];
}

function steepest(sine) {
  return `${Math.floor((arcsine(Math.min(1, sine)) / DEGREE) * 100) / 100} deg`;
}

// An angle as the documents' sine takes it is the library's own matter: beyond 2^20 it takes off turns of the double next to 2 pi.
function bends(surface, path, name, n, second) {
  if (!Number.isFinite(surface.angle)) return [];
  const bent = surface.before * Math.abs(sine(surface.angle));
  if (bent <= 0.875 * n) return [];
  const found = `n_incident times sin is ${written(bent)}, more than 0.875 of ${name} ${written(n)}`;
  const outside = second ? surface.after : surface.before;
  return [{ path, sentence: `${found}: take an angle of at most ${steepest((0.875 * n) / outside)}${second ? " outside the window" : ""}` }];
}

function beamMissed(sheet) {
  const powers = [...within("beam.s", "the s power", sheet.s, 0, 1), ...within("beam.p", "the p power", sheet.p, 0, 1)];
  return [...within("beam.wavelength", "the wavelength in nm", sheet.wavelength, 100, 10000), ...powers];
}

function angleMissed(surface, path) {
  if (!Number.isFinite(surface.angle)) return [{ path, sentence: "the angle is not finite: give one from -75.5 to 75.5 deg" }];
  const found = cosine(surface.angle);
  return found >= 0.25 ? [] : [{ path, sentence: `the angle's cosine is ${written(found)}, less than 0.25: take an angle of at most 75.5 deg` }];
}

function surfaceMissed(surface, face) {
  const { cells } = face;
  const preset = PRESET_INDICES[surface.coating] || [];
  return [
    ...within(cells.before, "the first index", surface.before, 1, 4),
    ...within(cells.after, "the second index", surface.after, 1, 4),
    ...angleMissed(surface, cells.angle),
    ...bends(surface, cells.angle, "the second index", surface.after, face.second),
    ...preset.flatMap((n) => bends(surface, cells.angle, "the coating's index", n, face.second)),
  ];
}

export function layerIndex(layer, nm) {
  return "a" in layer ? cauchy(layer.a, layer.b, layer.c, nm) : layer.n;
}

function layerMissed(layer, film, surface, face, nm) {
  const { cells } = film;
  const n = layerIndex(layer, nm);
  const k = layer.k || 0;
  const missed = [
    ...within(cells.n, "a" in layer ? `the index at ${written(nm)} nm` : "n", n, 1, 4),
    ...(k === 0 ? [] : [{ path: cells.k, sentence: `k is ${written(k)}, not zero` }]),
    ...within(cells.d, "the thickness in nm", layer.d, 0, 100000),
    ...bends(surface, face.cells.angle, "n", n, face.second),
  ];
  const metal = n < 1 || k !== 0 ? metalMissed(surface, face, nm) : [];
  return metal.length ? metal : missed;
}

// Which limits of metal films (document 02, slip 12) a surface with its layers misses.
function metalMissed(surface, face, nm) {
  if (surface.angle !== 0) return [{ path: face.cells.angle, sentence: "a film with k is met at 0 deg only: set the angle to 0, or k to 0" }];
  if (surface.layers.length > MOST_METAL) {
    return [{ path: face.cell, sentence: `at most ${MOST_METAL} layers are with a metal film, not ${surface.layers.length}: take some away` }];
  }
  const missed = surface.layers.flatMap((layer, i) => {
    const { cells } = face.films[i];
    const limits = [[cells.n, "n", layerIndex(layer, nm), 0.0625, 4], [cells.k, "k", layer.k || 0, 0, 8], [cells.d, "the thickness in nm", layer.d, 0, 100000]];
    return limits.flatMap((limit) => within(...limit));
  });
  const total = surface.layers.reduce((sum, layer) => sum + ((2 * Math.PI * layer.d) / nm) * (layer.k || 0), 0);
  if (missed.length || total <= 16) return missed;
  const thick = `2 pi thickness / wavelength times k adds up to ${short(total)}, more than 16`;
  return [{ path: face.films[0].cells.d, sentence: `${thick}: make the film thinner, no light comes through it` }];
}

// For each block the place of its kind word, its name, its first cell and which limits it misses.
export function* blocks(plan, sheet) {
  yield { place: 1, name: "the beam", path: "beam.wavelength", missed: beamMissed(sheet) };
  const waves = met(sheet);
  let place = 8;
  for (const [i, surface] of sheet.surfaces.entries()) {
    const face = plan.faces[i];
    if (surface.retune !== null) {
      const missed = within(face.cells.retune, "the new wavelength in nm", surface.retune, 100, 10000);
      yield { place, name: `the new wavelength before surface ${i + 1}`, path: face.cells.retune, missed };
      place += 3;
    }
    yield { place, name: `surface ${i + 1}`, path: face.cells.angle, missed: surfaceMissed(surface, face) };
    place += 7;
    for (const [j, layer] of surface.layers.entries()) {
      const missed = layerMissed(layer, face.films[j], surface, face, waves[i]);
      yield { place, name: `layer ${j + 1} of surface ${i + 1}`, path: face.films[j].cells.n, missed };
      place += "a" in layer ? 9 : 7;
    }
  }
}

// The cells that a refusal of the gate is about, each with its sentence; the first says the refusal.
export function marks(refused, plan, sheet, bytes) {
  const said = `refused ${refused.number} ${refused.place}`;
  if (refused.number !== 6) return [{ path: "", sentence: `${said}: ${sentence(refused, bytes)}` }];
  const all = [...blocks(plan, sheet)];
  const block = all.find((one) => one.place === refused.place);
  const less = { path: block.path, sentence: "it is outside the limits by less than these figures show: move a little away from the limit" };
  const first = (block.missed.length ? block.missed : [less]).map((one) => ({ ...one, sentence: `${said}: ${block.name}: ${one.sentence}` }));
  const others = all.filter((one) => one !== block).flatMap((one) => one.missed.map((missed) => ({ ...missed, sentence: `${one.name}: ${missed.sentence}` })));
  return [...first, ...others];
}

// ---- sentences on bytes

function walked(words, place) {
  const found = { kind: 0, surfaces: 0, layers: 0, custom: false };
  for (let at = 0; at < place; ) {
    const kind = words[at] >>> 28;
    if (kind === 3) Object.assign(found, { surfaces: found.surfaces + 1, layers: 0, custom: (words[at] & 0xfffffff) >> 1 === CUSTOM });
    if (kind === 4 || kind === 6) found.layers += 1;
    found.kind = kind;
    at += 1 + 2 * (FLOATS[kind] || 0);
  }
  return found;
}

function outOfGrammar(bytes, place) {
  const view = new DataView(bytes.buffer, bytes.byteOffset, bytes.byteLength);
  const words = Array.from({ length: bytes.length >> 2 }, (_, i) => view.getUint32(4 * i));
  if (place >= words.length) return `word ${place} is missing: the sheet ends without END`;
  const [kind, payload, before] = [words[place] >>> 28, words[place] & 0xfffffff, walked(words, place)];
  const layer = kind === 4 || kind === 6;
  const reasons = [
    [place === 0, "where OPEN of edition 1 or 2 should stand"],
    [place === 1, "where BEAM should stand"],
    [before.kind === 5, "after END"],
    [before.kind === 7 && kind !== 3, "where the SURFACE must stand that follows a retune"],
    [(kind === 6 || kind === 7) && words[0] === 0x10000001, "which edition 1 has not"],
    [(kind === 3 || kind === 7) && before.surfaces === MOST_SURFACES, `after ${MOST_SURFACES} surfaces, the most that a sheet has`],
    [layer && !before.custom, "which stands only after a SURFACE of coating custom"],
    [layer && before.layers === MOST_LAYERS, `after ${MOST_LAYERS} layers, the most that a surface has`],
    [kind === 5 && payload !== before.surfaces, `with the count ${payload}; the sheet has ${counted(before.surfaces, "surface")}`],
    [kind === 3 && payload > 15, `with the payload ${payload}, over 15`],
    [(layer || kind === 7) && payload !== 0, `with the payload ${payload}, not 0`],
    [kind in FLOATS && place + 2 * FLOATS[kind] >= words.length, "whose numbers go past the end"],
  ];
  const why = (reasons.find(([holds]) => holds) || [true, "which may not stand there"])[1];
  return `word ${place} is ${words[place].toString(16).toUpperCase().padStart(8, "0")}, ${KINDS[kind] || "no kind of block"}, ${why}`;
}

// Why a call refused a sheet's bytes.
export function sentence(refused, bytes) {
  const most = bytes[0] === 0x10 && bytes[1] === 0 && bytes[2] === 0 && bytes[3] === 2 ? 39460 : 30500;
  if (refused.number === 4) return `a sheet has a multiple of 4 bytes, from 36 to ${most}; this has ${bytes.length}: it is no sheet, or it is cut off`;
  if (refused.number === 5) return `${outOfGrammar(bytes, refused.place)}: write the sheet anew`;
  if (refused.number === 12) return `word ${refused.place} is a new wavelength, a kind 7, which edition 1 and a band have not: clear it`;
  return `the block at word ${refused.place} is outside the limits`;
}

// Why a band was refused.
export function bandSentence(refused, bytes, lines) {
  const { number, place } = refused;
  if (number === 15 && place === 64) return `the band has ${counted(lines.length, "line")}: give 1 to 64`;
  if (number === 15) return `line ${lines[place].line}: the weight is ${lines[place].weight}: give a whole number from 1 to 1000`;
  if (number === 16) {
    const { nm, line } = lines[place];
    const why = nm >= 100 && nm <= 10000 ? "a layer of the sheet is outside the gate there" : "give one from 100 to 10000 nm";
    return `line ${line}: the wavelength is ${written(nm)} nm: ${why}`;
  }
  return sentence(refused, bytes);
}

// ---- hints: the gate takes all of this, but it is hardly meant

// Whether light goes into a denser medium by the one surface and out of it by the other.
function isPlate(one, two) {
  return one.after > one.before && one.before > 0 && two.before === one.after && two.after < one.after && !one.reflected;
}

function neighbourHint(one, two, name) {
  const comes = one.reflected ? one.before : one.after;
  if (two.before !== comes) return [`${name} begins in index ${short(two.before)}; the light comes in index ${short(comes)}`];
  if (!isPlate(one, two)) return [];
  const expected = Math.abs(arcsine((one.before * sine(one.angle)) / one.after)) / DEGREE;
  const found = two.angle / DEGREE;
  if (Math.abs(expected - Math.abs(found)) <= 0.5) return [];
  return [`${name} is at ${found.toFixed(2)} deg; in a plate with parallel faces it is at ${expected.toFixed(2)} deg`];
}

// What all passes between a plate's faces add to one, as a share, by the powers before it, in it and behind it.
function passes(before, between, behind) {
  if (!(before > 0 && between > 0)) return 0;
  const both = (1 - between / before) * (1 - behind / between);
  return both < 1 ? both / (1 - both) : 0;
}

// Light to and fro between a plate's faces, which one pass leaves out, from 1 % on.
function passHint(sheet, after, i) {
  const [one, two] = [sheet.surfaces[i - 1], sheet.surfaces[i]];
  const absorbs = [...one.layers, ...two.layers].some((layer) => layer.k);
  if (two.reflected || absorbs || !isPlate(one, two)) return [];
  const start = i > 1 ? after[i - 2] : [sheet.s, sheet.p];
  const [s, p] = [0, 1].map((kind) => passes(start[kind], after[i - 1][kind], after[i][kind]));
  if (s <= 0.01 && p <= 0.01) return [];
  const why = "the light to and fro between it and the surface before, which one pass leaves out, would add";
  return [`surface ${i + 1} is the second face of a plate: ${why} ${short(100 * s, 2)} % to s and ${short(100 * p, 2)} % to p, without interference`];
}

function presetHint(surface, nm, name, called) {
  if (!(surface.coating in PRESET_INDICES) || Math.abs(nm - PRESET_NM) <= PRESET_NM / 10) return [];
  return [`${name} has the preset ${called}, designed for ${PRESET_NM} nm; the light has ${written(nm)} nm: give the layers yourself`];
}

// A number behind a bracket belongs to the letter after it.
function stackHints(model) {
  const coats = model.rows.flatMap((row) => (row.kind === "window" ? [row.front, ...(row.alike ? [] : [row.back])] : [row.coat]));
  const layers = coats.filter((coat) => coat.name === "custom").flatMap((coat) => coat.layers);
  return layers.filter((layer) => layer.kind === "stack").flatMap(({ text }) => {
    const [, bracket, digits, letter] = /(\([^()]*\))\s*([0-9]+)\s*([HLM])/.exec(text) || [];
    const thick = `in '${text}' the ${digits} makes the ${letter} behind it ${digits} quarter waves thick`;
    return bracket ? [`${thick}; to repeat the bracket write ${bracket}^${digits}`] : [];
  });
}

function angleHint(surface, name) {
  if (Math.abs(surface.angle) <= Math.PI / 2) return [];
  const degrees = `${(surface.angle / DEGREE).toFixed(2)} deg, more than a right angle`;
  return [`${name} is at ${written(surface.angle)} rad, ${degrees}; where degrees are meant write deg`];
}

export function hints(model, sheet, names, after) {
  const waves = met(sheet);
  const power = sheet.s + sheet.p > 1 + 1e-9 ? [`s and p add up to ${short(sheet.s + sheet.p)}: a beam of power 1 that is not polarized has 0.5 and 0.5`] : [];
  const said = sheet.surfaces.flatMap((surface, i) => {
    const name = `surface ${i + 1}`;
    const neighbour = i ? [...neighbourHint(sheet.surfaces[i - 1], surface, name), ...passHint(sheet, after, i)] : [];
    return [...neighbour, ...angleHint(surface, name), ...presetHint(surface, waves[i], name, names[surface.coating])];
  });
  return [...power, ...stackHints(model), ...said];
}

