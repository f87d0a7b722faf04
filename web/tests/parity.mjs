// The page's modules beside the Python package: the same sheet, byte for byte, and the same answers of each text (parity.py).
import fs from "node:fs";
import { hexWords, toBytes } from "../src/sheet.js";
import { planOf, sheetOf } from "../src/plan.js";
import { bandOf, resultsOf, sweepAngle, sweepWavelength } from "../src/results.js";
import { readBand, readText, writeText } from "../src/text.js";
import { Wrong, bits } from "../src/words.js";
import { file, start } from "./start.mjs";

// Python's float.hex, by its bits.
function number(hex) {
  const [, sign, whole, part, power] = /^(-?)0x([01])(?:\.([0-9a-f]+))?p([+-]?\d+)$/.exec(hex);
  const x = Number(BigInt(`0x${whole}${(part || "").padEnd(13, "0")}`)) * 2 ** -52;
  return (sign ? -1 : 1) * x * 2 ** Number(power);
}

function fail(name, sentence) {
  console.error(`parity: ${name}: ${sentence}`);
  process.exit(1);
}

const same = (found, expected) => found.length === expected.length && found.every((x, i) => bits(x) === bits(number(expected[i])));

// The table and the sheet of a text; null where it is refused before the gate.
function made(text) {
  try {
    const model = readText(new TextEncoder().encode(text));
    const { plan, problems } = planOf(model);
    return problems.length ? null : { model, bytes: toBytes(sheetOf(plan)) };
  } catch (wrong) {
    if (wrong instanceof Wrong) return null;
    throw wrong;
  }
}

function text(given) {
  const found = made(given.text);
  const sheet = found && hexWords(found.bytes).join("").toLowerCase();
  if (sheet !== given.sheet) fail(given.name, `the page has ${sheet}, Python ${given.sheet}, of\n${given.text}`);
  if (!found) return 0;
  const { losses, total } = resultsOf(found.model);
  if (Boolean(total) !== Boolean(given.powers)) fail(given.name, "one admits it and the other does not");
  if (total && given.powers.length && !same([total.s, total.p], given.powers.at(-1))) fail(given.name, "the powers differ");
  if (total && losses.length !== given.powers.length) fail(given.name, "the counts of surfaces differ");
  process.stdout.write(JSON.stringify({ name: given.name, text: writeText(found.model), sheet }) + "\n");
  return 1;
}

function sweep(given) {
  const { plan } = planOf(readText(file("docs/guide/back.txt")));
  const list = given.points.map(([at]) => at);
  const found = given.sweep === "angle" ? sweepAngle(plan, list, [0]) : sweepWavelength(plan, list);
  found.forEach((point, i) => {
    if (!same(point.after.flat(), given.points[i][1])) fail(given.name, `the powers at ${point.at} differ`);
  });
}

function band(given) {
  const result = resultsOf(readText(file("examples/window.txt")));
  const { mean } = bandOf(result, readBand(new TextDecoder().decode(file("examples/daylight.lines"))));
  if (!same(mean, given.band)) fail(given.name, "the means differ");
}

await start();
let [count, taken] = [0, 0];
for (const line of fs.readFileSync(0, "utf8").split("\n").filter(Boolean)) {
  const given = JSON.parse(line);
  if (given.points) sweep(given);
  else if (given.band) band(given);
  else taken += text(given);
  count += 1;
}
if (taken < 2000) fail("all", `only ${taken} of ${count} texts gave a sheet`);
console.error(`parity: ${count} texts, sweeps and bands are the same in the page and in Python, ${taken} of them sheets`);
