// From the table to a sheet: cells are read to a plan, and the plan makes its sheet at the beam's wavelength or at another, as
// python/dihkelu/plans.py does. What a cell has wrong is collected with the cell's path.
import { Refused, arcsine, sine, stack } from "./core.js";
import { between, cauchy, glass, glassIndex, isGlass } from "./glasses.js";
import { at } from "./model.js";
import { COATINGS, CUSTOM, MOST_LAYERS, MOST_SURFACES } from "./sheet.js";
import { BEGINS_NUMBER, DEGREE, Wrong, apart, counted, number, quantity, short, unit, written } from "./words.js";

const LENGTH = ["nm", "um"];
const ANGLE = ["deg", "rad"];

// ---- an index: a number, a glass of the table, or a material of the sheet

export function indexOf(cell, materials) {
  const word = cell.trim();
  if (!word) throw new Wrong("an index is missing: give a number or a glass");
  if (BEGINS_NUMBER.test(word)) return { number: number(word) };
  if (materials.has(word.toLowerCase())) return { material: materials.get(word.toLowerCase()) };
  return { glass: glass(word) };
}

export function indexAt(index, nm) {
  if (index.glass) return glassIndex(index.glass, nm);
  if (!index.material) return index.number;
  const { points, a, b, c } = index.material;
  return points ? between(index.material, nm, "n") : cauchy(a, b, c, nm);
}

function kAt(index, nm) {
  if (!index.material) return 0;
  return index.material.points ? between(index.material, nm, "k") : index.material.k;
}

// The index of what a surface lies between, which has no k.
function clearAt(index, nm) {
  const k = kAt(index, nm);
  const has = () => `${index.material.name} has k ${written(k)} at ${written(nm)} nm`;
  if (k !== 0) throw new Wrong(`${has()}, and a surface lies between indices without k: make it a layer`);
  return indexAt(index, nm);
}

// ---- materials that have a table

// The words of each line of a table that has some.
export function tableWords(cell) {
  const lines = cell.split("\n").map((line) => line.trim().split(/\s+/).filter(Boolean).flatMap(apart));
  return lines.filter((words) => words.length);
}

const LINE_FORM = "write it as 1064 nm 0.26 6.97, the wavelength, n and k";

function tablePoint(words) {
  const [nm, name, n, k] = words.length === 3 ? [words[0], "nm", words[1], words[2]] : words;
  if (words.length < 3 || words.length > 4 || !LENGTH.includes(unit(name))) throw new Wrong(`'${words.join(" ")}' is no line: ${LINE_FORM}`);
  return { nm: quantity(`${nm} ${name}`, LENGTH).value, n: number(n), k: number(k) };
}

// The lines of a material's table, each a wavelength, n and k.
function pointsOf(cell) {
  const points = tableWords(cell).map(tablePoint);
  if (!points.length) throw new Wrong(`a table has a line for each wavelength: ${LINE_FORM}`);
  points.forEach((one, i) => {
    const twice = points.findIndex((other) => other.nm === one.nm) !== i;
    if (twice || ![one.nm, one.n, one.k].every(Number.isFinite)) {
      throw new Wrong(`there is a line for ${written(one.nm)} nm already, or a number of it is not finite: mend it`);
    }
  });
  return points;
}

// ---- stacks in shorthand

const SUPERSCRIPTS = "⁰¹²³⁴⁵⁶⁷⁸⁹";

// A stack with powers that are written small and high as the library has them, behind ^.
export function plainStack(text) {
  return text.replace(/[⁰¹²³⁴⁵⁶⁷⁸⁹]+/g, (found) => "^" + [...found].map((digit) => SUPERSCRIPTS.indexOf(digit)).join(""));
}

// What stands at a byte where no stack can have it.
function stackWrong(text, place) {
  const digits = [...text.matchAll(/[0-9]+/g)].find((found) => found.index <= place && place < found.index + found[0].length);
  if (!digits) return `'${text[place]}' cannot stand at place ${place + 1} of '${text}': write it as (HL)^7 H`;
  const power = text.slice(0, digits.index).trimEnd().endsWith("^");
  return `${digits[0].slice(0, 20)} in '${text}' is none: ${power ? "a power is from 1 to 31" : "a number before a letter is from 1 to 99"}`;
}

function stackRefused(text, refused) {
  const bytes = new TextEncoder().encode(text);
  if (refused.number === 10) return `'${text}' has more than 64 layers: a sheet takes ${MOST_LAYERS}`;
  if (refused.number === 1) return "an index or the design wavelength is not positive and finite: mend it";
  if (bytes.length > 255) return `the stack has ${bytes.length} bytes: a stack has 255 at most`;
  if (refused.place === bytes.length) return `'${text}' stops early: write it as (HL)^7 H`;
  return stackWrong(text, new TextDecoder().decode(bytes.slice(0, refused.place)).length);
}

// The layers of a text in shorthand, each with its letter's index at the design wavelength and its thickness.
function stackFilms(text, letters, design) {
  try {
    const made = stack(text, ...letters.map((letter) => indexAt(letter, design)), design);
    const named = stack(text, 1, 2, 3, design); // the letter of each layer
    return made.map((layer, i) => ({ index: letters[named[i].n - 1], d: layer.d }));
  } catch (refused) {
    if (refused instanceof Refused) throw new Wrong(stackRefused(text, refused));
    throw refused;
  }
}

// ---- the table's cells

class Reader {
  constructor(model) {
    this.model = model;
    this.problems = [];
    this.materials = new Map();
  }

  // What a cell says; where it is wrong that is kept, and NaN or the like stands for it.
  cell(path, read, otherwise = NaN) {
    try {
      return read(at(this.model, path));
    } catch (wrong) {
      if (!(wrong instanceof Wrong)) throw wrong;
      this.problems.push({ path, sentence: wrong.message });
      return otherwise;
    }
  }

  number(path) {
    return this.cell(path, (cell) => number(cell.trim()));
  }

  length(path) {
    return this.cell(path, (cell) => quantity(cell, LENGTH).value);
  }

  angle(path) {
    return this.cell(path, (cell) => quantity(cell, ANGLE).value);
  }

  index(path) {
    return this.cell(path, (cell) => indexOf(cell, this.materials), { number: NaN });
  }

  wrong(path, sentence) {
    this.problems.push({ path, sentence });
  }

  material(path) {
    const one = at(this.model, path);
    const name = one.name.trim();
    const small = name.toLowerCase();
    if (!/^[a-z][a-z0-9_.-]*$/i.test(name)) {
      this.wrong(`${path}.name`, `'${name}' is no name: a name is a letter, then letters, digits, '-', '_' and '.'`);
    } else if (isGlass(name)) {
      this.wrong(`${path}.name`, `'${name}' is a glass that has its name already: take another name`);
    } else if (this.materials.has(small)) {
      this.wrong(`${path}.name`, `there is a material '${name}' already: take another name`);
    }
    if (one.kind === "table") return void this.materials.set(small, { name: small, points: this.cell(`${path}.lines`, pointsOf, []) });
    const [a, b, c] = ["a", "b", "c"].map((part) => this.number(`${path}.${part}`));
    this.materials.set(small, { name: small, a, b, c, k: one.k.trim() ? this.number(`${path}.k`) : 0 });
  }

  // A layer; a k of null is the material's. One of a material with coefficients and no k changes with colour in the sheet itself, as kind 6.
  film(cells, index, k, d) {
    if (!index.material) return { cells, index, k: k === null ? 0 : k, d };
    if (k !== null) this.wrong(cells.k, `a layer of a material has the k of its material: clear ${written(k)}`);
    const { points, a, b, c, k: own } = index.material;
    return points || own !== 0 ? { cells, index, k: null, d } : { cells, index, k: null, d, given: { a, b, c, d } };
  }

  stack(path) {
    const line = at(this.model, path);
    const before = this.problems.length;
    const [H, L] = [this.index(`${path}.H`), this.index(`${path}.L`)];
    const M = line.M.trim() ? this.index(`${path}.M`) : H;
    const design = this.length(`${path}.design`);
    if (this.problems.length > before) return [];
    const cells = { n: `${path}.text`, k: `${path}.text`, d: `${path}.text` };
    return this.cell(
      `${path}.text`,
      (text) => {
        if (text.includes("M") && !line.M.trim()) throw new Wrong(`M stands in '${text}' and has no index: give M one`);
        return stackFilms(plainStack(text.trim()), [H, L, M], design).map((one) => this.film(cells, one.index, null, one.d));
      },
      []
    );
  }

  quarter(path) {
    const before = this.problems.length;
    const [index, count, design] = [this.index(`${path}.index`), this.number(`${path}.count`), this.length(`${path}.design`)];
    const thickness = () => count * stackFilms("H", [index, index, index], design)[0].d;
    const d = this.problems.length > before ? NaN : this.cell(`${path}.design`, thickness);
    return this.film({ n: `${path}.index`, k: `${path}.index`, d: `${path}.count` }, index, null, d);
  }

  layers(path) {
    const layer = at(this.model, path);
    if (layer.kind === "stack") return this.stack(path);
    if (layer.kind === "quarter") return [this.quarter(path)];
    if (layer.kind === "glass") {
      const [a, b, c] = ["a", "b", "c"].map((name) => this.number(`${path}.${name}`));
      const cells = { n: `${path}.a`, k: `${path}.a`, d: `${path}.thickness` };
      return [this.film(cells, { material: { name: "", a, b, c, k: 0 } }, null, this.length(cells.d))];
    }
    const k = layer.k.trim() ? this.number(`${path}.k`) : null;
    const cells = { n: `${path}.index`, k: `${path}.k`, d: `${path}.thickness` };
    return [this.film(cells, this.index(cells.n), k, this.length(cells.d))];
  }

  // The films of a coating, and its code.
  coat(path) {
    const coat = at(this.model, path);
    const coating = COATINGS.indexOf(coat.name);
    const films = coating === CUSTOM ? coat.layers.flatMap((_, i) => this.layers(`${path}.layers.${i}`)) : [];
    if (films.length > MOST_LAYERS) this.wrong(`${path}.name`, `a surface has at most ${MOST_LAYERS} layers; this has ${films.length}: take some away`);
    if (this.model.edition === "1" && films.some((film) => film.given)) {
      this.wrong(`${path}.name`, "a layer that changes with colour stands only in a sheet of edition 2: choose edition 2");
    }
    return { coating, films, cell: `${path}.name` };
  }

  retune(path) {
    if (!at(this.model, path).trim()) return null;
    if (this.model.edition === "1") this.wrong(path, "a new wavelength stands only in a sheet of edition 2: choose edition 2");
    return this.length(path);
  }

  window(path, row) {
    const medium = row.medium.trim() ? this.index(`${path}.medium`) : { number: 1 };
    const [inner, angle, retune] = [this.index(`${path}.glass`), this.angle(`${path}.angle`), this.retune(`${path}.retune`)];
    const front = this.coat(`${path}.front`);
    const back = row.alike ? front : this.coat(`${path}.back`);
    const cells = { before: `${path}.medium`, after: `${path}.glass`, angle: `${path}.angle`, retune: `${path}.retune` };
    const behind = { ...cells, before: cells.after, after: cells.before };
    return [
      { path, side: "front", before: medium, after: inner, angle, reflected: false, second: false, retune, ...front, cells },
      { path, side: "back", before: inner, after: medium, angle, reflected: false, second: true, retune: null, ...back, cells: behind },
    ];
  }

  surface(path, row) {
    const cells = { before: `${path}.from`, after: `${path}.to`, angle: `${path}.angle`, retune: `${path}.retune` };
    const [before, after, angle, retune] = [this.index(cells.before), this.index(cells.after), this.angle(cells.angle), this.retune(cells.retune)];
    return [{ path, side: "", before, after, angle, reflected: row.follows === "reflected", second: false, retune, ...this.coat(`${path}.coat`), cells }];
  }

  plan() {
    const { model } = this;
    model.materials.forEach((_, i) => this.material(`materials.${i}`));
    const plan = { edition: Number(model.edition) || 0, wavelength: this.length("beam.wavelength"), s: this.number("beam.s"), p: this.number("beam.p") };
    plan.faces = model.rows.flatMap((row, i) => (row.kind === "window" ? this.window(`rows.${i}`, row) : this.surface(`rows.${i}`, row)));
    if (plan.faces.length > MOST_SURFACES) {
      this.wrong(plan.faces[MOST_SURFACES].path + ".angle", `a sheet has at most ${MOST_SURFACES} surfaces; this has ${plan.faces.length}: delete some`);
    }
    return plan;
  }
}

// The plan of a table, and what its cells have wrong.
export function planOf(model) {
  const reader = new Reader(model);
  const plan = reader.plan();
  return { plan, problems: reader.problems };
}

// ---- the plan's sheet

// The angle in index n1 of light that comes in index n0 at an angle, by Snell's law.
function inside(angle, n0, n1, path) {
  const ratio = Number.isFinite(angle) && n1 ? (n0 * sine(angle)) / n1 : NaN;
  if (!(Math.abs(ratio) <= 1)) {
    const light = `no light at ${short(angle / DEGREE, 5)} deg in index ${written(n0)} comes into index ${written(n1)}`;
    throw new Wrong(`${light}: take a smaller angle`, path);
  }
  return arcsine(ratio);
}

function inCell(path, read) {
  try {
    return read();
  } catch (wrong) {
    if (wrong instanceof Wrong && !wrong.path) wrong.path = path;
    throw wrong;
  }
}

function layerAt(film, nm) {
  return { n: indexAt(film.index, nm), k: film.k === null ? kAt(film.index, nm) : film.k, d: film.d };
}

// A face at its wavelength; the second of a window at the angle that the first leads to.
function surfaceOf(face, nm, angle, previous) {
  const before = inCell(face.cells.before, () => clearAt(face.before, nm));
  const after = inCell(face.cells.after, () => clearAt(face.after, nm));
  const layers = face.films.map((film) => film.given || inCell(film.cells.n, () => layerAt(film, nm)));
  const inner = face.second ? inside(previous.angle, after, before, face.cells.angle) : angle;
  return { coating: face.coating, reflected: face.reflected, before, after, angle: inner, layers, retune: face.retune };
}

// The sheet of a plan at a wavelength, the beam's own unless given, with other angles by the faces' numbers from 0.
export function sheetOf(plan, wavelength = plan.wavelength, angles = {}) {
  const sheet = { edition: plan.edition, wavelength, s: plan.s, p: plan.p, surfaces: [] };
  let nm = wavelength;
  plan.faces.forEach((face, i) => {
    if (face.retune !== null) nm = face.retune;
    sheet.surfaces.push(surfaceOf(face, nm, i in angles ? angles[i] : face.angle, sheet.surfaces.at(-1)));
  });
  return sheet;
}

// Each face by its window or coating, short enough for a picture.
export function faceNames(plan) {
  return plan.faces.map((face, i) => {
    const name = face.side ? `window, ${face.side}` : `${COATINGS[face.coating]}, ${face.reflected ? "reflected" : "transmitted"}`;
    return `${i + 1}: ${name}`;
  });
}

function indicesOf(face) {
  return [face.before, face.after, ...face.films.map((film) => film.index)];
}

// Whether a glass by name stands in a plan whose index changes with the wavelength.
export function hasGlasses(plan) {
  return plan.faces.some((face) => indicesOf(face).some((index) => index.glass && index.glass.terms.length));
}

// Whether a film has a k in numbers, which is that of one wavelength.
export function hasFixedMetals(plan) {
  return plan.faces.some((face) => face.films.some((film) => film.k));
}

// What was worked out for the sheet: indices of named glasses, and angles inside windows.
export function notes(plan, sheet) {
  const said = new Set();
  let nm = sheet.wavelength;
  plan.faces.forEach((face, i) => {
    if (face.retune !== null) nm = face.retune;
    for (const index of indicesOf(face)) {
      const named = index.glass && index.glass.terms.length ? index.glass : null;
      if (named) said.add(`${named.name} has n ${short(indexAt(index, nm), 7)} at ${written(nm)} nm, by ${named.source}`);
    }
    if (face.second) said.add(`surface ${i + 1}: inside the window the light is at ${(sheet.surfaces[i].angle / DEGREE).toFixed(4)} deg, by Snell's law`);
  });
  return [...said];
}

export function summary(sheet, edition, bytes) {
  return `${counted(sheet.surfaces.length, "surface")}, edition ${edition}, ${counted(bytes.length, "byte")}`;
}
