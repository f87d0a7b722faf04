// What is printed: input, results, version, date, notes, the picture and the sheet's words, so that a colleague can repeat it.
import { editionOf, COATINGS, hexWords, met } from "./sheet.js";
import { summary } from "./plan.js";
import { svgOf } from "./plot.js";
import { writeText } from "./text.js";
import { h } from "./view.js";
import { DEGREE, counted, short } from "./words.js";

export function percent(x) {
  return x === null || x === undefined ? "–" : x.toFixed(4).replace("-0.0000", "0.0000");
}

function called(surface) {
  const layers = surface.layers.length ? `, ${counted(surface.layers.length, "layer")}` : "";
  return `${COATINGS[surface.coating]} ${short(surface.before)} to ${short(surface.after)} at ${(surface.angle / DEGREE).toFixed(2)} deg${layers}`;
}

function tableOf(heads, rows) {
  const cells = (tag, row) => h("tr", {}, ...row.map((cell) => h(tag, {}, cell)));
  return h("table", { class: "figures" }, h("thead", {}, cells("th", heads)), h("tbody", {}, ...rows.map((row) => cells("td", row))));
}

function lossTable(result) {
  const { sheet, losses } = result;
  const waves = met(sheet);
  const rows = losses.map((loss, i) => {
    const surface = sheet.surfaces[i];
    const shares = [loss.s, loss.p, loss.mean, loss.stays, loss.left].map(percent);
    return [String(i + 1), called(surface), short(waves[i], 8), surface.reflected ? "reflected" : "transmitted", ...shares];
  });
  return tableOf(["", "surface", "nm", "follows", "s lost %", "p lost %", "lost %", "stays %", "left %"], rows);
}

function totalText({ lost, left, scale, s, p, sum }) {
  const factor = Number.isFinite(scale) ? `; scale factor ${scale.toFixed(6)}, the beam over what is left` : "";
  return `Whole train: ${percent(lost)} % lost, ${percent(left)} % left (s ${short(s)}, p ${short(p)}, sum ${short(sum)})${factor}`;
}

function list(sentences) {
  return h("ul", {}, ...sentences.map((one) => h("li", {}, one)));
}

function pictureOf(picture) {
  const box = h("div", { class: "picture" });
  box.innerHTML = svgOf(picture);
  return [h("h2", {}, "Picture"), box];
}

// The elements of a report. A table that cannot be read has no text; its cells are said to be wrong instead.
export function reportOf(model, result, picture, head) {
  const unread = result.problems.length && !result.refused;
  const input = unread ? [] : [h("h2", {}, "Input"), h("pre", {}, writeText(model))];
  if (!result.total) return [h("p", {}, head), ...input, h("h2", {}, "Refused"), list(result.problems.map((one) => one.sentence))];
  const words = `${summary(result.sheet, editionOf(result.sheet), result.bytes)}\n${hexWords(result.bytes).join(" ")}`;
  return [
    h("p", {}, head),
    ...input,
    h("h2", {}, "Losses"),
    lossTable(result),
    h("p", {}, h("strong", {}, totalText(result.total))),
    list([...result.hints, ...result.notes]),
    ...(picture ? pictureOf(picture) : []),
    h("h2", {}, "The sheet's words, in hexadecimal"),
    h("pre", { class: "words" }, words),
  ];
}
