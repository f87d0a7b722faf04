// The table as elements of the page. Every cell that is typed into has its path; every result its surface and column.
import { glassNames } from "./glasses.js";
import { COATINGS } from "./sheet.js";

export function h(tag, attributes = {}, ...children) {
  const element = document.createElement(tag);
  for (const [name, value] of Object.entries(attributes)) {
    if (value === true) element.setAttribute(name, "");
    else if (value !== false && value !== null && value !== undefined) element.setAttribute(name, value);
  }
  element.append(...children.filter((child) => child !== null && child !== undefined));
  return element;
}

function input(path, value, label, more = {}) {
  const element = h("input", { "data-path": path, "aria-label": label, size: 8, autocomplete: "off", spellcheck: "false", ...more });
  element.value = value;
  return element;
}

function labelled(text, element) {
  return h("label", {}, h("span", {}, text), element);
}

// A labelled input; `label` is its name for screen readers, which says whose it is.
function field(text, path, value, label, more) {
  return labelled(text, input(path, value, label, more));
}

// An index: names are offered.
function indexField(text, path, value, label, more) {
  return field(text, path, value, label, { list: "indices", size: 11, ...more });
}

function select(path, value, label, options) {
  const element = h("select", { "data-path": path, "aria-label": label });
  for (const [key, shown] of options) element.append(h("option", { value: key, selected: key === value }, shown));
  return element;
}

function button(action, at, text, label) {
  return h("button", { type: "button", "data-action": action, "data-at": at, "aria-label": label, title: label }, text);
}

function moveButtons(begin, path, where) {
  return h(
    "span",
    { class: "buttons" },
    button(`${begin}up`, path, "↑", `move ${where} up`),
    button(`${begin}down`, path, "↓", `move ${where} down`),
    button(`${begin}copy`, path, "copy", `copy ${where}`),
    button(`${begin}delete`, path, "×", `delete ${where}`)
  );
}

const COATING_NAMES = { mgf2: "mgf2 (550 nm)", "broadband-ar": "broadband-ar (550 nm)", mirror: "mirror (550 nm)", custom: "layers" };
const LAYER_KINDS = [["layer", "layer"], ["quarter", "quarter waves"], ["glass", "A, B, C"], ["stack", "shorthand"]];
const COLUMNS = ["s", "p", "mean", "stays", "left"];

// ---- coatings and their layers

function coatSelect(path, coat, label) {
  return select(`${path}.name`, coat.name, label, COATINGS.map((name) => [name, COATING_NAMES[name] || name]));
}

function coefficients(path, one, where) {
  return ["a", "b", "c"].map((name) => field(name.toUpperCase(), `${path}.${name}`, one[name], `coefficient ${name.toUpperCase()} of ${where}`));
}

function stackFields(path, layer, where) {
  const letters = ["H", "L", "M"].map((letter) => indexField(letter, `${path}.${letter}`, layer[letter], `index of ${letter} of ${where}`));
  const text = field("text", `${path}.text`, layer.text, `shorthand of ${where}`, { size: 18 });
  return [text, ...letters, field("at", `${path}.design`, layer.design, `design wavelength of ${where}`)];
}

function layerFields(path, layer, where) {
  if (layer.kind === "stack") return stackFields(path, layer, where);
  const thickness = () => field("thickness", `${path}.thickness`, layer.thickness, `thickness of ${where}`);
  if (layer.kind === "glass") return [...coefficients(path, layer, where), thickness()];
  const n = indexField("n", `${path}.index`, layer.index, `index of ${where}`);
  if (layer.kind === "layer") return [n, thickness(), field("k", `${path}.k`, layer.k, `k of ${where}`, { size: 5 })];
  const count = field("quarter waves", `${path}.count`, layer.count, `quarter waves of ${where}`, { size: 4 });
  return [n, count, field("at", `${path}.design`, layer.design, `design wavelength of ${where}`)];
}

function layerLine(path, layer, place, where) {
  const called = `layer ${place + 1} of ${where}`;
  const kind = select(`${path}.kind`, layer.kind, `kind of ${called}`, LAYER_KINDS);
  return h("li", {}, kind, ...layerFields(path, layer, called), moveButtons("layer-", path, called));
}

function layersRow(path, coat, where) {
  if (coat.name !== "custom") return null;
  const list = h("ol", { class: "layers" }, ...coat.layers.map((layer, i) => layerLine(`${path}.layers.${i}`, layer, i, where)));
  const layer = button("add-layer", path, "+ layer", `add a layer to ${where}`);
  const stack = button("add-stack", path, "+ shorthand", `add a stack in shorthand to ${where}`);
  const title = h("summary", {}, `Layers of ${where}, from the side of the lower index `, h("span", { "data-films": path }, ""));
  const details = h("details", { "data-coat": path, open: coat.open !== false }, title, list, h("div", { class: "buttons" }, layer, stack));
  return h("tr", { class: "layers-row" }, h("td", {}), h("td", { colspan: 11 }, details));
}

// ---- rows

function results(face) {
  return COLUMNS.map((column) => h("td", { class: "result", "data-face": face, "data-column": column }, ""));
}

function numberCell(face) {
  return h("td", { class: "number" }, String(face + 1));
}

function angleCell(path, row, where, more = {}) {
  return h("td", { "data-label": "angle", ...more }, input(`${path}.angle`, row.angle, `angle of ${where}`));
}

function retuneCell(path, row, face, where) {
  const label = `new wavelength from ${where} on; empty: as before`;
  return h("td", { "data-label": "nm" }, input(`${path}.retune`, row.retune, label, { size: 6, "data-nm": face }));
}

function noteInput(path, row, where) {
  return input(`${path}.note`, row.note, `note on ${where}`, { class: "note", size: 16, placeholder: "note" });
}

function actionsCell(path, where, more = {}) {
  return h("td", { class: "actions", ...more }, moveButtons("", path, where));
}

function frontRow(path, row, face, where) {
  const both = { rowspan: 2 };
  const glass = indexField("of", `${path}.glass`, row.glass, `glass of ${where}`);
  const medium = indexField("in", `${path}.medium`, row.medium, `medium around ${where}; empty: air`, { placeholder: "air" });
  const front = coatSelect(`${path}.front`, row.front, `coating of the front of ${where}`);
  return h(
    "tr",
    { class: "row" },
    numberCell(face),
    h("td", both, h("strong", {}, "window"), noteInput(path, row, where)),
    h("td", { ...both, "data-label": "glass" }, glass, medium),
    angleCell(path, row, where, both),
    h("td", { "data-label": "front" }, h("span", { class: "side" }, "front"), front),
    retuneCell(path, row, face, where),
    ...results(face),
    actionsCell(path, where, both)
  );
}

function backRow(path, row, face, where) {
  const alike = h("input", { type: "checkbox", "data-path": `${path}.alike`, checked: row.alike });
  const back = row.alike ? h("span", { class: "same" }, "as front") : coatSelect(`${path}.back`, row.back, `coating of the back of ${where}`);
  const side = h("span", { class: "side" }, "back");
  return h(
    "tr",
    { class: "row second" },
    numberCell(face),
    h("td", { "data-label": "back" }, side, back, h("label", { class: "alike" }, alike, h("span", {}, "alike"))),
    h("td", { class: "result", "data-nm": face }, ""),
    ...results(face)
  );
}

function windowRows(path, row, face, where) {
  return [
    frontRow(path, row, face, where),
    backRow(path, row, face + 1, where),
    layersRow(`${path}.front`, row.front, row.alike ? `both faces of ${where}` : `the front of ${where}`),
    row.alike ? null : layersRow(`${path}.back`, row.back, `the back of ${where}`),
  ];
}

function surfaceRows(path, row, face, where) {
  const follows = select(`${path}.follows`, row.follows, `light that is followed from ${where}`, [["transmitted", "surface"], ["reflected", "mirror"]]);
  const from = indexField("from", `${path}.from`, row.from, `index before ${where}`);
  const to = indexField("to", `${path}.to`, row.to, `index behind ${where}`);
  const only = h(
    "tr",
    { class: "row" },
    numberCell(face),
    h("td", {}, follows, noteInput(path, row, where)),
    h("td", { "data-label": "glass" }, from, to),
    angleCell(path, row, where),
    h("td", { "data-label": "coating" }, coatSelect(`${path}.coat`, row.coat, `coating of ${where}`)),
    retuneCell(path, row, face, where),
    ...results(face),
    actionsCell(path, where)
  );
  return [only, layersRow(`${path}.coat`, row.coat, where)];
}

const COLUMN_HEADS = [
  ["", ""],
  ["what", ""],
  ["glass", "a number, a name, or a material"],
  ["angle", "to the normal, where the light comes from"],
  ["coating", ""],
  ["nm", "the wavelength; type another to change it from here on"],
  ["s lost %", ""],
  ["p lost %", ""],
  ["lost %", "of s and p together"],
  ["stays %", "neither reflected nor transmitted"],
  ["left %", "of the beam"],
  ["", ""],
];

export function kindOf(row) {
  if (row.kind === "window") return "window";
  return row.follows === "reflected" ? "mirror" : "surface";
}

function headRow() {
  const cell = ([text, title]) => h("th", { scope: "col", title: title || null }, text || h("span", { class: "hidden" }, "row"));
  return h("thead", {}, h("tr", {}, ...COLUMN_HEADS.map(cell)));
}

export function trainTable(model) {
  const body = h("tbody");
  let face = 0;
  model.rows.forEach((row, i) => {
    const path = `rows.${i}`;
    const where = `${kindOf(row)} ${i + 1}`;
    const rows = row.kind === "window" ? windowRows(path, row, face, where) : surfaceRows(path, row, face, where);
    const errors = h("tr", { class: "errors", "data-errors": path, hidden: true }, h("td", { colspan: 12 }, h("ul", { role: "alert" })));
    body.append(...rows.filter(Boolean), errors);
    face += row.kind === "window" ? 2 : 1;
  });
  const caption = "The train: windows, surfaces and mirrors in the order that the light meets them";
  return h("table", { class: "train" }, h("caption", { class: "hidden" }, caption), headRow(), body);
}

// ---- beam and materials

export function beamFields(model) {
  const { beam } = model;
  const editions = [["", "as needed"], ["1", "1"], ["2", "2"]];
  return [
    field("wavelength", "beam.wavelength", beam.wavelength, "wavelength of the beam"),
    field("s power", "beam.s", beam.s, "s power of the beam", { size: 6 }),
    field("p power", "beam.p", beam.p, "p power of the beam", { size: 6 }),
    labelled("edition", select("edition", model.edition, "edition of the sheet", editions)),
    field("note", "beam.note", beam.note, "note on the sheet", { class: "note", size: 40 }),
  ];
}

function coefficientFields(path, one, where) {
  return [...coefficients(path, one, where), field("k", `${path}.k`, one.k, `k of ${where}`, { size: 5, placeholder: "0" })];
}

function tableField(path, one, where) {
  const label = `lines of ${where}, each a wavelength, n and k`;
  const size = { rows: Math.max(2, one.lines.split("\n").length), cols: 24, spellcheck: "false" };
  const area = h("textarea", { "data-path": `${path}.lines`, "aria-label": label, placeholder: "1064 nm 0.26 6.97", ...size });
  area.value = one.lines;
  return labelled("nm, n, k", area);
}

export function materialLines(model) {
  return model.materials.map((one, i) => {
    const path = `materials.${i}`;
    const where = `material ${i + 1}`;
    const name = field("name", `${path}.name`, one.name, `name of ${where}`, { size: 14 });
    const kind = select(`${path}.kind`, one.kind, `kind of ${where}`, [["coefficients", "A, B, C"], ["table", "table of n, k"]]);
    const fields = one.kind === "table" ? [tableField(path, one, where)] : coefficientFields(path, one, where);
    return h("li", {}, name, kind, ...fields, h("span", { class: "buttons" }, button("material-delete", path, "×", `delete ${where}`)));
  });
}

export function indexChoices(model) {
  return [...model.materials.map((one) => one.name), ...glassNames()].filter(Boolean).map((name) => h("option", { value: name }));
}
