// The table as data: every cell is the text that was typed. A cell's path, such as rows.0.front.layers.1.index, names it everywhere.

export function emptyModel() {
  return { edition: "", materials: [], beam: { wavelength: "1064 nm", s: "0.5", p: "0.5", note: "" }, rows: [] };
}

export function newCoat(name = "bare") {
  return { name, layers: [] };
}

export function newWindow() {
  return { kind: "window", glass: "fused-silica", medium: "", angle: "0 deg", alike: true, front: newCoat(), back: newCoat(), retune: "", note: "" };
}

export function newSurface() {
  return { kind: "surface", follows: "transmitted", from: "air", to: "fused-silica", angle: "0 deg", coat: newCoat(), retune: "", note: "" };
}

export function newMirror() {
  return { ...newSurface(), follows: "reflected", to: "n-bk7", angle: "45 deg", coat: newCoat("ideal-mirror") };
}

export function newLayer(kind) {
  const layers = {
    layer: { kind, index: "1.38", thickness: "100 nm", k: "" },
    quarter: { kind, index: "1.38", count: "1", design: "1064 nm" },
    glass: { kind, a: "1.45", b: "0.0033", c: "0", thickness: "100 nm" },
    stack: { kind, text: "(HL)^7 H", H: "2.3", L: "1.46", M: "", design: "1064 nm" },
  };
  return layers[kind];
}

export function newMaterial() {
  return { kind: "coefficients", name: "", a: "", b: "0", c: "0", k: "", lines: "" };
}

export function copyOf(part) {
  return JSON.parse(JSON.stringify(part));
}

export function at(model, path) {
  return path.split(".").reduce((part, key) => part[key], model);
}

export function put(model, path, value) {
  const keys = path.split(".");
  const last = keys.pop();
  keys.reduce((part, key) => part[key], model)[last] = value;
}

// ---- what was kept in the browser is taken only where it has the model's own shape

function sameShape(sample, found) {
  if (Array.isArray(sample)) return Array.isArray(found);
  if (typeof sample !== "object") return typeof found === typeof sample;
  return found !== null && typeof found === "object" && Object.keys(sample).every((key) => key in found && sameShape(sample[key], found[key]));
}

function isLayer(layer) {
  return Boolean(layer) && ["layer", "quarter", "glass", "stack"].includes(layer.kind) && sameShape(newLayer(layer.kind), layer);
}

function isCoat(coat) {
  return sameShape(newCoat(), coat) && coat.layers.every(isLayer);
}

function isRow(row) {
  if (row && row.kind === "window") return sameShape(newWindow(), row) && isCoat(row.front) && isCoat(row.back);
  return sameShape(newSurface(), row) && row.kind === "surface" && isCoat(row.coat);
}

export function isModel(found) {
  return sameShape(emptyModel(), found) && found.rows.every(isRow) && found.materials.every((one) => sameShape(newMaterial(), one));
}
