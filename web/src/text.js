// The text of a sheet that people write and read (docs/SHEETS.md), to the table and back.
import { newCoat, newMaterial } from "./model.js";
import { indexOf, plainStack, tableWords } from "./plan.js";
import { COATINGS } from "./sheet.js";
import { BEGINS_NUMBER, Wrong, apart, number, plain, quantity, unit, written } from "./words.js";

const FORMS = {
  edition: "edition 1|2",
  material: "material NAME a NUMBER b NUMBER c NUMBER [k NUMBER]",
  point: "material NAME at NUMBER nm|um n NUMBER k NUMBER",
  beam: "beam NUMBER nm|um s NUMBER p NUMBER",
  surface: "surface COATING transmitted|reflected from INDEX to INDEX at NUMBER deg|rad",
  window: "window INDEX at NUMBER deg|rad [in INDEX]",
  face: "front|back|both COATING",
  layer: "layer INDEX thickness NUMBER nm|um [k NUMBER]",
  quarter: "layer INDEX quarter-waves NUMBER at NUMBER nm|um",
  glass: "glass a NUMBER b NUMBER c NUMBER thickness NUMBER nm|um",
  retune: "retune to NUMBER nm|um",
  stack: "stack TEXT with H INDEX L INDEX [M INDEX] at NUMBER nm|um",
  band: "NUMBER nm|um weight NUMBER",
};
const HEADS = ["edition", "material", "beam", "retune", "surface", "window", "front", "back", "both", "layer", "glass", "stack"];
const WHAT = { transmitted: "direction", 1: "edition", front: "face" }; // what alternatives are; else units

function choice(token, names, what) {
  const word = what === "unit" ? unit(token) : token.toLowerCase();
  if (!names.includes(word)) throw new Wrong(`there is no ${what} '${token}'; there are ${names.join(", ")}`);
  return word;
}

function name(token) {
  if (!/^[a-z][a-z0-9_.-]*$/i.test(token)) throw new Wrong(`'${token}' is no name: a name is a letter, then letters, digits, '-', '_' and '.'`);
  return token;
}

// What stands at the places of NUMBER, INDEX, NAME, COATING and the alternatives of a form; its other words must stand there. A
// number before a unit is found with it, as "1064 nm".
function match(tokens, form, materials, shown = form) {
  const [must, may] = form.split(" [");
  const wanted = must.split(" ");
  if (may && tokens.length > wanted.length) wanted.push(...may.replace("]", "").split(" "));
  const found = [];
  const place = (want, token) => {
    if (want === "NUMBER") return void (number(token), found.push(plain(token)));
    if (want === "INDEX") return void (indexOf(token, materials), found.push(BEGINS_NUMBER.test(token) ? plain(token) : token));
    if (want === "NAME") return void found.push(name(token));
    if (want === "COATING") return void found.push(choice(token, COATINGS, "coating"));
    if (!want.includes("|")) {
      if (token.toLowerCase() !== want) throw new Wrong(`'${token}' stands where '${want}' should: ${shown}`);
      return;
    }
    const names = want.split("|");
    const what = WHAT[names[0]];
    const chosen = choice(token, names, what || "unit");
    if (what) found.push(chosen);
    else found.push(`${found.pop()} ${chosen}`);
  };
  wanted.forEach((want, i) => {
    if (i >= tokens.length) throw new Wrong(`the line ends where ${want} should stand: ${shown}`);
    place(want, tokens[i]);
  });
  if (tokens.length > wanted.length) throw new Wrong(`'${tokens[wanted.length]}' is more than the line takes: ${shown}`);
  return found;
}

// ---- text to table

class TextReader {
  constructor() {
    this.model = { edition: "", materials: [], beam: null, rows: [] };
    this.materials = new Map();
    this.waiting = ""; // a wavelength, until its surface comes
    this.under = null; // the coating that a layer belongs to
    this.faces = null; // those of the last window that have no coating yet
    this.notes = [];
  }

  take(content) {
    const tokens = content.trim().split(/\s+/).flatMap(apart);
    const head = tokens[0].toLowerCase();
    if (this.waiting && head !== "surface" && head !== "window") throw new Wrong("a surface or a window must follow a retune");
    if (["surface", "window", "retune"].includes(head) && !this.model.beam) throw new Wrong(`a ${head} before the beam`);
    if (!HEADS.includes(head)) throw new Wrong(`'${tokens[0]}' begins no line; a line begins with ${HEADS.join(", ")} or #`);
    if (["front", "back", "both"].includes(head)) this.face(tokens);
    else this[head](tokens, content);
  }

  edition(tokens) {
    if (this.model.beam || this.model.edition) throw new Wrong("an edition stands once, before the beam");
    [this.model.edition] = match(tokens, FORMS.edition, this.materials);
  }

  material(tokens) {
    if (tokens.length > 2 && tokens[2].toLowerCase() === "at") return this.point(...match(tokens, FORMS.point, this.materials));
    const [called, a, b, c, k = ""] = match(tokens, FORMS.material, this.materials);
    if (this.materials.has(called.toLowerCase())) throw new Wrong(`there is a material '${called}' already`);
    this.addMaterial({ ...newMaterial(), name: called, a, b, c, k });
  }

  // A line of a material's table.
  point(called, nm, n, k) {
    const before = this.materials.get(called.toLowerCase());
    if (before && before.kind !== "table") throw new Wrong(`there is a material '${called}' with coefficients already`);
    const table = before || this.addMaterial({ ...newMaterial(), kind: "table", name: called });
    table.lines += `${nm} ${n} ${k}\n`;
  }

  addMaterial(one) {
    this.materials.set(one.name.toLowerCase(), one);
    this.model.materials.push(one);
    return one;
  }

  beam(tokens) {
    if (this.model.beam) throw new Wrong("a second beam");
    const [wavelength, s, p] = match(tokens, FORMS.beam, this.materials);
    this.model.beam = { wavelength, s, p, note: this.noted() };
  }

  surface(tokens) {
    const [coating, follows, from, to, angle] = match(tokens, FORMS.surface, this.materials);
    this.under = newCoat(coating);
    this.faces = null;
    this.row({ kind: "surface", follows, from, to, angle, coat: this.under });
  }

  window(tokens) {
    const [glass, angle, medium = ""] = match(tokens, FORMS.window, this.materials);
    this.under = null;
    this.faces = { front: true, back: true };
    this.row({ kind: "window", glass, medium, angle, alike: true, front: newCoat(), back: newCoat() });
  }

  row(row) {
    this.model.rows.push({ ...row, retune: this.waiting, note: this.noted() });
    this.waiting = "";
  }

  face(tokens) {
    const [which, coating] = match(tokens, FORMS.face, this.materials);
    if (!this.faces) throw new Wrong(`'${tokens[0]}' stands only under a window`);
    const taken = (which === "both" ? ["front", "back"] : [which]).find((side) => !this.faces[side]);
    if (taken) throw new Wrong(`the window's ${taken} has its coating already`);
    const row = this.model.rows.at(-1);
    row.alike = which === "both";
    this.faces = { front: this.faces.front && which === "back", back: this.faces.back && which === "front" };
    this.under = newCoat(coating);
    row[which === "back" ? "back" : "front"] = this.under;
  }

  retune(tokens) {
    if (this.model.edition === "1") throw new Wrong("a retune stands only in a sheet of edition 2");
    [this.waiting] = match(tokens, FORMS.retune, this.materials);
  }

  add(layer) {
    if (!this.under || this.under.name !== "custom") throw new Wrong("a layer stands only under a surface whose coating is custom");
    this.under.layers.push(layer);
  }

  layer(tokens) {
    if (tokens.length > 2 && tokens[2].toLowerCase() === "quarter-waves") {
      const [index, count, design] = match(tokens, FORMS.quarter, this.materials);
      this.add({ kind: "quarter", index, count, design });
    } else {
      const [index, thickness, k = ""] = match(tokens, FORMS.layer, this.materials);
      this.add({ kind: "layer", index, thickness, k });
    }
  }

  glass(tokens) {
    const [a, b, c, thickness] = match(tokens, FORMS.glass, this.materials);
    this.add({ kind: "glass", a, b, c, thickness });
  }

  stack(_, content) {
    const parts = /^\s*stack\s+(.*\S)\s+with\s+(.*?)\s*$/i.exec(content);
    if (!parts) throw new Wrong(`a stack has its text, the word with, and what the letters are: ${FORMS.stack}`);
    const tokens = parts[2].split(/\s+/).flatMap(apart);
    const withM = tokens.length > 4 && tokens[4].toLowerCase() === "m";
    if (parts[1].includes("M") && !withM) throw new Wrong(`M stands in '${parts[1]}' and has no index: ${FORMS.stack}`);
    const form = withM ? "h INDEX l INDEX m INDEX at NUMBER nm|um" : "h INDEX l INDEX at NUMBER nm|um";
    const given = match(tokens, form, this.materials, FORMS.stack);
    this.add({ kind: "stack", text: plainStack(parts[1]), H: given[0], L: given[1], M: withM ? given[2] : "", design: given.at(-1) });
  }

  // Comments are kept with the beam, window or surface that follows; those that `show` writes by itself are not.
  comment(said) {
    if (said && !/^([0-9]+: [-0-9.]+ deg|n [-0-9.e+]+)$/.test(said)) this.notes.push(said);
  }

  noted() {
    return this.notes.splice(0).join("; ");
  }

  end() {
    if (!this.model.beam) throw new Wrong(`the text ends without a beam: ${FORMS.beam}`);
    if (this.waiting) throw new Wrong("a surface or a window must follow a retune");
    const last = this.model.rows.at(-1) || this.model.beam;
    last.note = [last.note, this.noted()].filter(Boolean).join("; ");
    return this.model;
  }
}

function isUtf16(bytes) {
  const mark = (bytes[0] === 0xff && bytes[1] === 0xfe) || (bytes[0] === 0xfe && bytes[1] === 0xff);
  const start = String.fromCharCode(...bytes.subarray(0, 8));
  return mark || /^(\0[ -~\t\r\n]){4}|^([ -~\t\r\n]\0){4}/.test(start);
}

function withoutMark(bytes) {
  return bytes[0] === 0xef && bytes[1] === 0xbb && bytes[2] === 0xbf ? bytes.subarray(3) : bytes;
}

function decoded(bytes) {
  try {
    return new TextDecoder("utf-8", { fatal: true, ignoreBOM: true }).decode(bytes);
  } catch {
    return null;
  }
}

// A text is UTF-8 with hardly a control byte; a sheet begins with OPEN's byte 0x10 and is full of them.
export function isText(bytes) {
  if (bytes[0] === 0x10) return false;
  if (isUtf16(bytes)) return true;
  const controls = bytes.reduce((sum, byte) => sum + (byte < 32 && byte !== 9 && byte !== 10 && byte !== 13 ? 1 : 0), 0);
  if (decoded(withoutMark(bytes)) === null) return controls === 0;
  return 8 * controls <= bytes.length;
}

// The lines of a text, ended by a line feed, a carriage return or both.
function linesOf(bytes) {
  if (isUtf16(bytes)) throw new Wrong("the text is in UTF-16: save it as UTF-8 and open it again");
  const whole = decoded(withoutMark(bytes));
  if (whole === null) throw new Wrong("the text is not UTF-8: save it as UTF-8 and open it again");
  const lines = whole.split(/\r\n|\n|\r/);
  lines.forEach((content, i) => {
    const control = /[\0-\x08\x0b-\x1f\x7f]/.exec(content);
    const digits = control && control[0].charCodeAt(0).toString(16).toUpperCase().padStart(2, "0");
    if (control) throw new Wrong(`line ${i + 1}: the control byte 0x${digits} stands in the text: take it out`);
  });
  return lines;
}

function inLine(line, read) {
  try {
    return read();
  } catch (wrong) {
    if (wrong instanceof Wrong) throw new Wrong(`line ${line}: ${wrong.message}`);
    throw wrong;
  }
}

// The table of a text's bytes.
export function readText(bytes) {
  const reader = new TextReader();
  const lines = linesOf(bytes);
  lines.forEach((content, i) => {
    const [line, ...comment] = content.split("#");
    reader.comment(comment.join("#").trim());
    if (line.trim()) inLine(i + 1, () => reader.take(line));
  });
  return inLine(lines.length, () => reader.end());
}

// The lines of a band: a wavelength and a weight each, with the text's line.
export function readBand(text) {
  const found = [];
  text.split(/\r\n|\n|\r/).forEach((content, i) => {
    const tokens = content.split("#")[0].trim().split(/\s+/).filter(Boolean).flatMap(apart);
    if (!tokens.length) return;
    const [nm, weight] = inLine(i + 1, () => match(tokens, FORMS.band, new Map()));
    const whole = Number(weight);
    if (!(Number.isInteger(whole) && whole >= 0 && whole < 2 ** 32)) throw new Wrong(`line ${i + 1}: ${weight} is no whole weight: give one from 1 to 1000`);
    found.push({ nm: quantity(nm, ["nm", "um"]).value, weight: whole, line: i + 1 });
  });
  return found;
}

// ---- table to text

function withUnit(cell, units) {
  const { token, unit: name } = quantity(cell, units);
  return `${plain(token)} ${name}`;
}

const lengthText = (cell) => withUnit(cell, ["nm", "um"]);
const angleText = (cell) => withUnit(cell, ["deg", "rad"]);
const wordText = (cell) => plain(cell.trim());
const indexText = (cell) => (BEGINS_NUMBER.test(cell.trim()) ? wordText(cell) : cell.trim().replace(/\s+/g, "-"));

function layerText(one) {
  if (one.kind === "stack") {
    const letters = ["H", "L", "M"].filter((letter) => one[letter].trim()).map((letter) => `${letter} ${indexText(one[letter])}`);
    return `stack ${plainStack(one.text.trim())} with ${letters.join(" ")} at ${lengthText(one.design)}`;
  }
  if (one.kind === "quarter") return `layer ${indexText(one.index)} quarter-waves ${wordText(one.count)} at ${lengthText(one.design)}`;
  if (one.kind === "glass") {
    return `glass a ${wordText(one.a)} b ${wordText(one.b)} c ${wordText(one.c)} thickness ${lengthText(one.thickness)}`;
  }
  return `layer ${indexText(one.index)} thickness ${lengthText(one.thickness)}${one.k.trim() ? ` k ${wordText(one.k)}` : ""}`;
}

function coatLines(coat) {
  return coat.name === "custom" ? coat.layers.map((layer) => "  " + layerText(layer)) : [];
}

function faceLines(which, coat) {
  return coat.name === "bare" ? [] : [`  ${which} ${coat.name}`, ...coatLines(coat)];
}

function rowLines(row) {
  const lines = row.note.trim() ? [`# ${row.note.trim()}`] : [];
  if (row.retune.trim()) lines.push(`retune to ${lengthText(row.retune)}`);
  if (row.kind === "surface") {
    const ends = `from ${indexText(row.from)} to ${indexText(row.to)} at ${angleText(row.angle)}`;
    return [...lines, `surface ${row.coat.name} ${row.follows} ${ends}`, ...coatLines(row.coat)];
  }
  lines.push(`window ${indexText(row.glass)} at ${angleText(row.angle)}${row.medium.trim() ? ` in ${indexText(row.medium)}` : ""}`);
  if (row.alike) return [...lines, ...faceLines("both", row.front)];
  return [...lines, ...faceLines("front", row.front), ...faceLines("back", row.back)];
}

function materialLinesOf(one) {
  const begin = `material ${one.name.trim()}`;
  const k = one.k.trim() ? ` k ${wordText(one.k)}` : "";
  if (one.kind !== "table") return [`${begin} a ${wordText(one.a)} b ${wordText(one.b)} c ${wordText(one.c)}${k}`];
  return tableWords(one.lines).map((words) => `${begin} at ${lengthText(words.slice(0, -2).join(" "))} n ${wordText(words.at(-2))} k ${wordText(words.at(-1))}`);
}

// The text of a table whose cells can all be read.
export function writeText(model) {
  const { beam } = model;
  const lines = model.edition ? [`edition ${model.edition}`] : [];
  lines.push(...model.materials.flatMap(materialLinesOf));
  if (beam.note.trim()) lines.push(`# ${beam.note.trim()}`);
  lines.push(`beam ${lengthText(beam.wavelength)} s ${wordText(beam.s)} p ${wordText(beam.p)}`);
  lines.push(...model.rows.flatMap((row) => ["", ...rowLines(row)]));
  return lines.join("\n") + "\n";
}

// ---- sheet to table

function sheetLayer(x) {
  const thickness = `${written(x.d)} nm`;
  if ("a" in x) return { kind: "glass", a: written(x.a), b: written(x.b), c: written(x.c), thickness };
  return { kind: "layer", index: written(x.n), thickness, k: Object.is(x.k, 0) ? "" : written(x.k) };
}

// The table of a sheet, every number with all its bits.
export function sheetModel(sheet) {
  const rows = sheet.surfaces.map((one) => ({
    kind: "surface",
    follows: one.reflected ? "reflected" : "transmitted",
    from: written(one.before),
    to: written(one.after),
    angle: `${written(one.angle)} rad`,
    coat: { name: COATINGS[one.coating], layers: one.layers.map(sheetLayer) },
    retune: one.retune === null ? "" : `${written(one.retune)} nm`,
    note: "",
  }));
  const beam = { wavelength: `${written(sheet.wavelength)} nm`, s: written(sheet.s), p: written(sheet.p), note: "" };
  return { edition: String(sheet.edition), materials: [], beam, rows };
}
