// Pictures as SVG: lines over an axis, what was refused hatched, a legend. A saved picture stands alone.
import { short } from "./words.js";

const WIDTH = 860;
const HEIGHT = 400;
const LIGHT = {
  ink: "#1a1a1a",
  faint: "#d9d9d9",
  paper: "#ffffff",
  lines: ["#0b62a4", "#c4420b", "#2b2b2b", "#2e7d32", "#7b3fa0", "#a6761d", "#007c80", "#b0176b"],
};
const DARK = {
  ink: "#e8e8e8",
  faint: "#444444",
  paper: "#1b1d20",
  lines: ["#6db6ff", "#ff9b6a", "#f0f0f0", "#7fd08a", "#cfa3ec", "#e2bf6b", "#5fd0d3", "#ff8cc6"],
};
const DASHES = ["", "7 4", "2 3", "10 3 2 3"];

function escaped(text) {
  return String(text).replace(/&/g, "&amp;").replace(/</g, "&lt;").replace(/>/g, "&gt;").replace(/"/g, "&quot;");
}

// Round numbers from about low to about high, some six of them.
function ticks(low, high) {
  const rough = (high - low) / 6 || 1;
  const power = 10 ** Math.floor(Math.log10(rough));
  const step = [1, 2, 5, 10].map((x) => x * power).find((x) => x >= rough);
  const first = Math.ceil(low / step - 1e-9);
  const last = Math.floor(high / step + 1e-9);
  return Array.from({ length: last - first + 1 }, (_, i) => (first + i) * step);
}

function scale(low, high, from, to) {
  return (x) => from + ((x - low) / (high - low || 1)) * (to - from);
}

// A path through the points that are there; null breaks it. One point alone is a dot.
function pathOf(points, x, y) {
  let path = "";
  points.forEach((point, i) => {
    if (!point) return;
    const alone = !points[i - 1] && !points[i + 1];
    path += `${points[i - 1] ? "L" : "M"}${x(point[0]).toFixed(1)} ${y(point[1]).toFixed(1)}${alone ? "h0.01" : ""}`;
  });
  return path;
}

// The stretches of x where every line has a gap.
function gaps(xs, known) {
  const found = [];
  xs.forEach((at, i) => {
    if (known[i]) return;
    const left = i ? (xs[i - 1] + at) / 2 : at;
    const right = i + 1 < xs.length ? (at + xs[i + 1]) / 2 : at;
    if (found.length && found.at(-1)[1] === left) found.at(-1)[1] = right;
    else found.push([left, right]);
  });
  return found;
}

function axes(picture, x, y, box, paint) {
  const grid = [];
  for (const at of ticks(...picture.xRange)) {
    grid.push(`<path d="M${x(at).toFixed(1)} ${box.top}V${box.bottom}" stroke="${paint.faint}"/>`);
    grid.push(`<text x="${x(at).toFixed(1)}" y="${box.bottom + 17}" text-anchor="middle">${short(at)}</text>`);
  }
  for (const at of ticks(...picture.yRange)) {
    grid.push(`<path d="M${box.left} ${y(at).toFixed(1)}H${box.right}" stroke="${paint.faint}"/>`);
    grid.push(`<text x="${box.left - 7}" y="${(y(at) + 4).toFixed(1)}" text-anchor="end">${short(at)}</text>`);
  }
  grid.push(`<path d="M${box.left} ${box.top}V${box.bottom}H${box.right}" fill="none" stroke="${paint.ink}"/>`);
  grid.push(`<text x="${(box.left + box.right) / 2}" y="${HEIGHT - 8}" text-anchor="middle">${escaped(picture.xLabel)}</text>`);
  grid.push(`<text transform="translate(16 ${(box.top + box.bottom) / 2}) rotate(-90)" text-anchor="middle">${escaped(picture.yLabel)}</text>`);
  return grid;
}

function refusedParts(picture, x, box) {
  return gaps(picture.xs, picture.known).flatMap(([left, right]) => {
    const from = Math.max(box.left, x(left) - (left === right ? 2 : 0));
    const width = Math.max(4, x(right) - from);
    const label = width > 50 ? `<text x="${(from + width / 2).toFixed(1)}" y="${box.top + 16}" text-anchor="middle">refused</text>` : "";
    const place = `x="${from.toFixed(1)}" y="${box.top}" width="${width.toFixed(1)}" height="${box.bottom - box.top}"`;
    return [`<rect ${place} fill="url(#refused)"><title>refused</title></rect>`, label];
  });
}

function legend(entries, box) {
  return entries.flatMap((entry, i) => {
    const y = box.top + 6 + 17 * i;
    return [`<path d="M${box.right + 14} ${y}h26" ${entry.stroke}/>`, `<text x="${box.right + 46}" y="${y + 4}">${escaped(entry.name)}</text>`];
  });
}

function strokeOf(line, i, paint) {
  const { colour = i % 8, dash = Math.floor(i / 8) % 4 } = line;
  const ink = `fill="none" stroke="${paint.lines[colour]}" stroke-width="1.8" stroke-linecap="round"`;
  return `${ink} stroke-dasharray="${DASHES[dash]}"`;
}

function linePaths(picture, x, y, paint) {
  return picture.lines.map((line, i) => {
    const points = picture.xs.map((at, j) => (line.ys[j] === null ? null : [at, line.ys[j]]));
    return `<path d="${pathOf(points, x, y)}" ${strokeOf(line, i, paint)}><title>${escaped(line.name)}</title></path>`;
  });
}

function barPaths(picture, x, box, paint) {
  const heavy = `stroke="${paint.ink}" stroke-opacity="0.35" stroke-width="7"`;
  return (picture.bars || []).map((bar) => `<path d="M${x(bar.x).toFixed(1)} ${box.bottom}v${(-bar.height * 70).toFixed(1)}" ${heavy}/>`);
}

function markPath(picture, x, box, paint) {
  if (!isMarked(picture)) return "";
  const path = `M${x(picture.mark).toFixed(1)} ${box.top}V${box.bottom}`;
  return `<path d="${path}" stroke="${paint.ink}" stroke-dasharray="2 4"><title>as it stands in the table</title></path>`;
}

function isMarked(picture) {
  return picture.mark >= picture.xRange[0] && picture.mark <= picture.xRange[1];
}

const MOST_ENTRIES = 18; // that the legend has room for

function legendEntries(picture, paint) {
  const entries = picture.lines.map((line, i) => ({ name: line.name, stroke: strokeOf(line, i, paint) }));
  if (picture.bars) entries.push({ name: picture.barName, stroke: `stroke="${paint.ink}" stroke-opacity="0.35" stroke-width="7"` });
  if (isMarked(picture)) entries.push({ name: "as in the table", stroke: `stroke="${paint.ink}" stroke-dasharray="2 4"` });
  if (picture.known.includes(false)) entries.push({ name: "refused by the gate", stroke: 'stroke="url(#refused)" stroke-width="10"' });
  const more = entries.splice(MOST_ENTRIES);
  return more.length ? [...entries, { name: `and ${more.length} more`, stroke: 'stroke="none"' }] : entries;
}

// The picture with the ranges of its axes: x as it is, y from 0 on.
function ranged(picture) {
  const values = picture.lines.flatMap((line) => line.ys.filter((y) => y !== null));
  const [low, high] = [Math.min(0, ...values), Math.max(...values, 0)];
  const [left, right] = [Math.min(...picture.xs), Math.max(...picture.xs)];
  const xRange = left === right ? [left - 1, right + 1] : [left, right];
  return { ...picture, xRange, yRange: [low, high > low ? high + (high - low) * 0.06 : low + 1] };
}

function hatching(paint) {
  const pattern = '<pattern id="refused" width="7" height="7" patternUnits="userSpaceOnUse" patternTransform="rotate(45)">';
  const ground = `<rect width="7" height="7" fill="${paint.faint}" fill-opacity="0.6"/>`;
  return `<defs>${pattern}${ground}<path d="M0 0V7" stroke="${paint.ink}" stroke-opacity="0.55"/></pattern></defs>`;
}

// `given` has title, xLabel, yLabel, xs, known (whether each x was admitted), lines with name and y values (null where unknown), each with a
// colour and a dash of its own if need be; and it may have a mark, the x of the table, and bars, each an x and a height from 0 to 1, with a
// name for all.
export function svgOf(given, dark = false) {
  const paint = dark ? DARK : LIGHT;
  const picture = ranged(given);
  const box = { left: 64, right: WIDTH - 200, top: 34, bottom: HEIGHT - 48 };
  const x = scale(...picture.xRange, box.left, box.right);
  const y = scale(...picture.yRange, box.bottom, box.top);
  const fonts = `font-family="system-ui, sans-serif" font-size="12" fill="${paint.ink}"`;
  return [
    `<svg xmlns="http://www.w3.org/2000/svg" viewBox="0 0 ${WIDTH} ${HEIGHT}" ${fonts} role="img">`,
    `<title>${escaped(picture.title)}</title>`,
    hatching(paint),
    `<rect width="${WIDTH}" height="${HEIGHT}" fill="${paint.paper}"/>`,
    `<text x="${box.left}" y="20" font-size="14" font-weight="600">${escaped(picture.title)}</text>`,
    ...refusedParts(picture, x, box),
    ...axes(picture, x, y, box, paint),
    ...barPaths(picture, x, box, paint),
    markPath(picture, x, box, paint),
    ...linePaths(picture, x, y, paint),
    ...legend(legendEntries(picture, paint), box),
    "</svg>",
  ].join("\n");
}
