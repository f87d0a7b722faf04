// What the page's modules take, refuse and say: node --test web/tests/modules.mjs
import assert from "node:assert/strict";
import fs from "node:fs";
import path from "node:path";
import test from "node:test";
import { absorptance, arcsine, cosine, run, sine, version } from "../src/core.js";
import { readFile } from "../src/files.js";
import { emptyModel, isModel, newLayer, newWindow, put } from "../src/model.js";
import { svgOf } from "../src/plot.js";
import { bandCsv, bandOf, resultsOf, steps, sweepAngle, sweepCsv } from "../src/results.js";
import { fromBytes, hexWords, toBytes } from "../src/sheet.js";
import { readBand, readText, writeText } from "../src/text.js";
import { Wrong, number, quantity, short, written } from "../src/words.js";
import { ROOT, file, start } from "./start.mjs";

await start();
const encoded = (text) => new TextEncoder().encode(text);
const read = (text) => readText(encoded(text));
const same = (found, expected, name) => assert.ok(found === expected, `${name}: another sheet`); // a whole sheet is too long to be shown
const sheetHex = (model) => hexWords(resultsOf(model).bytes).join(" ");
const BEAM = "beam 1064 nm s 0.5 p 0.5\n";

test("document 01's example", () => {
  const words = "10000001 20000000 407F4000 00000000 3FE00000 00000000 3FE00000 00000000 30000000 3FF00000 00000000 40080000 00000000 00000000 00000000 50000001";
  const model = readFile(encoded(words));
  const found = resultsOf(model);
  assert.equal(hexWords(found.bytes).join(" "), words);
  assert.deepEqual(run(found.bytes), [[0.375, 0.375]]);
  assert.equal(found.total.sum, 0.75);
  assert.equal(found.losses[0].stays, null);
  assert.match(version(), /^0\.\d+$/);
});

test("the guide's figures", () => {
  const { losses, total } = resultsOf(readText(file("docs/guide/back.txt")));
  const shown = losses.map((one) => [one.s, one.p, one.mean, one.stays, one.left].map((x) => x.toFixed(4).replace("-0.0000", "0.0000")).join(" "));
  assert.deepEqual(shown, [
    "0.0497 0.0772 0.0634 0.0000 99.9366",
    "0.0497 0.0772 0.0634 0.0000 99.8732",
    "3.0472 15.5362 9.2900 0.0000 90.5950",
    "0.0236 0.0186 0.0213 0.0000 90.5757",
    "0.0236 0.0186 0.0213 0.0000 90.5564",
  ]);
  assert.equal(total.scale.toFixed(6), "1.104284");
});

test("input as people write it", () => {
  const plainText = "beam 1064 nm s 0.5 p 0.5\nwindow n-bk7 at 8.5 deg\nboth custom\nlayer 1.38 thickness 99.5 nm\nsurface bare transmitted from 1 to 1.5 at 0.3 rad\n";
  for (const [from, to] of [["8.5 deg", "8,5 deg"], ["8.5 deg", "8.5°"], ["8.5 deg", "8,5 °"], ["8.5 deg", "8.5deg"], ["0.3 rad", "0,3rad"], ["99.5 nm", "99,5nm"], ["1064 nm", "1064nm"], ["n-bk7", "BK-7"], ["n-bk7", "N-BK7"], ["n-bk7", "Bk7"]]) {
    assert.ok(plainText.includes(from));
    assert.equal(sheetHex(read(plainText.replace(from, to))), sheetHex(read(plainText)), to);
  }
  assert.equal(sheetHex(read(plainText.replace("1064 nm", "1.064 µm"))), sheetHex(read(plainText.replace("1064 nm", "1.064 um"))));
  assert.equal(sheetHex(read(plainText.replace("1064 nm", "1.064 μm"))), sheetHex(read(plainText.replace("1064 nm", "1.064 um"))));
  const model = read(plainText);
  for (const cell of ["8,5°", "8.5", " 8.5 deg ", "8.5 Deg"]) {
    put(model, "rows.0.angle", cell);
    assert.equal(sheetHex(model), sheetHex(read(plainText)), cell);
    assert.equal(sheetHex(read(writeText(model))), sheetHex(read(plainText)), cell);
  }
  assert.equal(quantity("0x3FF8000000000000 rad", ["deg", "rad"]).value, 1.5);
  assert.throws(() => number("1,064"), /may be 1\.064 or 1064/);
  assert.equal(number("\u22120,5"), -0.5);
  for (const bad of ["", "1.2.3", "nan", "1e", "0x12", "eight", "8 9"]) assert.throws(() => quantity(bad, ["deg", "rad"]), Wrong, bad);
});

test("materials with a k, by coefficients and by a table", () => {
  const head = "material gold at 632.8 nm n 0.2 k 3.2\nmaterial gold at 1064 nm n 0.26 k 6.97\nmaterial dark a 1.5 b 0 c 0 k 0.5\n";
  const film = (name, nm) => resultsOf(read(`${head}beam ${nm} nm s 0.5 p 0.5\nsurface custom reflected from 1 to 1.5 at 0 deg\nlayer ${name} thickness 20 nm\n`));
  assert.deepEqual(film("gold", 1064).sheet.surfaces[0].layers, [{ n: 0.26, k: 6.97, d: 20 }]);
  const { n, k } = film("gold", 848.4).sheet.surfaces[0].layers[0];
  assert.ok(Math.abs(n - 0.23) < 1e-12 && Math.abs(k - 5.085) < 1e-12);
  assert.match(film("gold", 500).problems[0].sentence, /gold is known from 632\.8 to 1064 nm by its lines; the wavelength is 500 nm: add a line/);
  assert.deepEqual(film("dark", 600).sheet.surfaces[0].layers, [{ n: 1.5, k: 0.5, d: 20 }]);
  const said = (text) => resultsOf(read(head + BEAM + text)).problems.map((one) => `${one.path} ${one.sentence}`).join();
  assert.match(said("window gold at 0 deg\n"), /^rows\.0\.glass gold has k 6\.97 at 1064 nm, and a surface lies between indices without k/);
  assert.match(said("surface custom reflected from 1 to 1.5 at 0 deg\nlayer gold thickness 20 nm k 1\n"), /layers\.0\.k a layer of a material has the k of its material/);
  for (const lines of ["", "1064 nm 0.26", "1064 0.26 6.97\n1064 nm 1 1", "x 1 1"]) {
    const model = read(head + BEAM);
    put(model, "materials.0.lines", lines);
    assert.equal(resultsOf(model).problems[0].path, "materials.0.lines", lines);
  }
});

test("numbers are written as Python writes them", () => {
  const pairs = [[1, "1"], [0.1, "0.1"], [1e-5, "1e-05"], [0.0001, "0.0001"], [1e16, "1e+16"], [1e15, "1000000000000000"], [-0, "-0"], [123456.789, "123456.789"], [5e-324, "5e-324"], [Infinity, "0x7FF0000000000000"]];
  for (const [x, text] of pairs) {
    assert.equal(written(x), text);
    assert.ok(Object.is(number(text), x));
  }
});

test("sine, cosine and arcsine", () => {
  for (let x = -1.5; x <= 1.5; x += 0.01) {
    assert.ok(Math.abs(sine(x) - Math.sin(x)) < 3e-16);
    assert.ok(Math.abs(cosine(x) - Math.cos(x)) < 3e-16);
    assert.ok(Math.abs(arcsine(x / 2) - Math.asin(x / 2)) < 2e-15);
  }
});

test("a refusal marks its cell and says what to do", () => {
  const model = readText(file("docs/guide/back.txt"));
  const tries = [
    ["rows.0.angle", "65", "rows.0.angle", /refused 6 51: surface 2: .* take an angle of at most 61\.04 deg outside the window/],
    ["rows.1.angle", "80", "rows.1.angle", /refused 6 94: surface 3: the angle's cosine .* at most 75\.5 deg/],
    ["beam.wavelength", "99 um", "rows.0.glass", /known from 210 to 3710 nm/],
    ["beam.s", "1,5", "beam.s", /refused 6 1: the beam: the s power is 1\.5: give a number from 0 to 1/],
    ["rows.1.to", "0.9", "rows.1.to", /the second index is 0\.9: give a number from 1 to 4/],
    ["rows.0.front.layers.0.thickness", "-1", "rows.0.front.layers.0.thickness", /layer 1 of surface 1: the thickness in nm is -1/],
    ["rows.0.front.layers.0.index", "gold", "rows.0.front.layers.0.index", /there is no glass 'gold'/],
    ["rows.0.front.layers.0.index", "TiO2", "rows.0.front.layers.0.index", /a film's index depends on how it was made/],
    ["rows.1.coat.layers.0.text", "(HL)^9", "rows.1.coat.name", /at most 16 layers; this has 26/],
    ["rows.1.coat.layers.0.text", "(HL", "rows.1.coat.layers.0.text", /stops early/],
    ["rows.1.coat.layers.0.text", "(HX)^2", "rows.1.coat.layers.0.text", /'X' cannot stand at place 3/],
    ["rows.1.coat.layers.0.H", "", "rows.1.coat.layers.0.H", /an index is missing/],
    ["materials.0.name", "n-bk7", "materials.0.name", /has its name already/],
    ["materials.0.a", "x", "materials.0.a", /'x' is no number/],
    ["rows.0.retune", "50", "rows.0.glass", /known from 210 to 3710 nm/],
    ["edition", "1", "rows.0.front.name", /stands only in a sheet of edition 2/],
  ];
  for (const [path, cell, marked, said] of tries) {
    const changed = JSON.parse(JSON.stringify(model));
    put(changed, path, cell);
    const { problems, total } = resultsOf(changed);
    assert.equal(total, undefined, path);
    assert.equal(problems[0].path, marked);
    assert.match(problems[0].sentence, said);
  }
});

test("metal films are told which of their limits failed", () => {
  const metals = (films, angle) => `${BEAM}surface custom reflected from 1 to 1.5 at ${angle}\n${films}`;
  const film = (more) => `layer 0.26 thickness 40 nm k ${more}\n`;
  const said = (text) => resultsOf(read(text)).problems.map((one) => `${one.path} ${one.sentence}`).join("\n");
  assert.equal(said(metals(film("6.97"), "0 deg")), "");
  assert.match(said(metals(film("6.97"), "10 deg")), /^rows\.0\.angle refused 6 15: layer 1 of surface 1: a film with k is met at 0 deg only/);
  assert.match(said(metals(film("9"), "0 deg")), /^rows\.0\.coat\.layers\.0\.k .*k is 9: give a number from 0 to 8/);
  assert.match(said(metals(film("1").repeat(5), "0 deg")), /^rows\.0\.coat\.name .*at most 4 layers are with a metal film, not 5/);
  assert.match(said(metals("layer 0.26 thickness 900 nm k 7\n", "0 deg")), /adds up to 37\.\d+, more than 16/);
});

test("every sheet of examples/ goes to the table and back, bit for bit, or is refused as its answer says", () => {
  const names = fs.readdirSync(path.join(ROOT, "examples")).filter((name) => name.endsWith(".out")).map((name) => name.replace(".out", ".sheet"));
  for (const name of names) {
    const bytes = file("examples", name);
    const [, refused] = /^refused (\d+ \d+)/.exec(new TextDecoder().decode(file("examples", name.replace("sheet", "out")))) || [];
    if (/^[45] /.test(refused)) {
      assert.throws(() => readFile(bytes), (wrong) => wrong instanceof Wrong && (wrong.message.includes(`refused ${refused}: `) || /empty|too many/.test(wrong.message)), name);
      continue;
    }
    const words = hexWords(bytes).join(" ");
    const model = readFile(bytes);
    same(hexWords(toBytes(fromBytes(bytes))).join(" "), words, name);
    same(sheetHex(model), words, name);
    same(sheetHex(read(writeText(model))), words, name);
    same(sheetHex(readFile(encoded(words))), words, name);
    const found = resultsOf(model);
    if (refused) assert.ok(found.problems[0].sentence.startsWith(`refused ${refused}: `), name);
    else assert.ok(found.total, name);
  }
  assert.ok(names.length > 50);
});

test("bad files get a sentence", () => {
  const utf16 = new Uint8Array(Buffer.from("\ufeff" + BEAM, "utf16le"));
  const random = Uint8Array.from({ length: 5000 }, (_, i) => (i * 7919 + (i >> 3) * 104729) & 0xff);
  const files = [
    [new Uint8Array(0), /empty/],
    [new Uint8Array(10485760), /too many/],
    [random, /refused [45]/],
    [utf16, /UTF-16: save it as UTF-8/],
    [new Uint8Array(Buffer.from("# Glas für das Fenster\n" + BEAM, "latin1")), /not UTF-8: save it as UTF-8/],
    [encoded("hello"), /line 1: 'hello' begins no line/],
    [encoded(BEAM + "window gold at 3 deg\n"), /line 2: there is no glass 'gold'/],
    [encoded("10000001 2000000"), /digit|refused/],
    [file("examples/window.sheet").slice(0, 40), /refused 5/],
    [file("examples/window.sheet").slice(0, 41), /refused 4/],
    [file("web/dihkelu.html"), /line 1: /],
  ];
  for (const [bytes, said] of files) assert.throws(() => readFile(bytes), (wrong) => wrong instanceof Wrong && said.test(wrong.message), String(said));
});

test("notes of a text stay", () => {
  const model = read("# a title\n" + BEAM + "# the entrance\nwindow silica at 3 deg # tilted\n  both mgf2\n# the end\n");
  assert.deepEqual([model.beam.note, model.rows[0].note], ["a title", "the entrance; tilted; the end"]);
  assert.equal(read(writeText(model)).rows[0].note, model.rows[0].note);
});

test("what is kept in the browser is taken only in its shape", () => {
  const model = { ...emptyModel(), rows: [newWindow()] };
  model.rows[0].front = { name: "custom", layers: ["layer", "quarter", "glass", "stack"].map(newLayer) };
  assert.ok(isModel(model));
  for (const bad of [null, 3, "x", [], {}, { ...model, rows: [{}] }, { ...model, rows: [null] }, { ...model, beam: {} }, { ...model, rows: [{ ...newWindow(), front: 3 }] }]) assert.equal(isModel(bad), false);
});

test("sweeps and bands", () => {
  assert.deepEqual(steps(0, 0.3, 0.1), [0, 0.1, 0.2, 0.3]);
  assert.deepEqual(steps(60, 0, -30), [60, 30, 0]);
  for (const bad of [[0, 1, 0], [0, 1, -1], [0, 1e9, 1], [NaN, 1, 1]]) assert.throws(() => steps(...bad), Wrong);
  const result = resultsOf(readText(file("docs/guide/back.txt")));
  const points = sweepAngle(result.plan, steps(0, 75, 5), [0]);
  assert.deepEqual(points.map((one) => Boolean(one.refused)), points.map((one) => one.at > 61));
  const rows = sweepCsv(points, "angle_deg", result.plan).trim().split("\n");
  assert.equal(rows[0], "angle_deg,s,p,sum,lost_percent,s_1,p_1,s_2,p_2,s_3,p_3,s_4,p_4,s_5,p_5,refused");
  assert.equal(rows.length, 17);
  assert.match(rows[1], /^0,0\.4840992940324422,0\.4217824867819866,0\.9058817808144288,9\.4118219185571\d*,/);
  assert.match(rows[16], /^75,,,,,.*"refused 6 51: /);
  const lines = readBand("450 nm weight 620\n# nothing\n0,5µm weight 870\n");
  assert.deepEqual(lines.map((one) => [one.nm, one.weight, one.line]), [[450, 620, 1], [500, 870, 3]]);
  const window = resultsOf(readText(file("examples/window.txt")));
  assert.match(bandCsv(lines, bandOf(window, lines)), /^wavelength_nm,weight,s,p,sum\n450,620,0\.364195829/);
  for (const [text, said] of [["", /0 lines: give 1 to 64/], ["50 nm weight 1", /line 1: the wavelength is 50 nm/], ["500 nm weight 1001", /the weight is 1001/]]) {
    assert.throws(() => bandOf(window, readBand(text)), (wrong) => wrong instanceof Wrong && said.test(wrong.message));
  }
  assert.throws(() => readBand("500 nm weight 1.5"), /no whole weight/);
  assert.throws(() => bandOf(resultsOf(readText(file("examples/doubled.txt"))), lines), /refused 12/);
});

test("a picture has axes, units, a legend and the refused part", () => {
  const picture = { title: "a < b", xLabel: "angle, degrees", yLabel: "lost, %", xs: [0, 10, 20, 30], known: [true, true, false, false], lines: [{ name: "s", ys: [1, 2, null, null] }], mark: 10 };
  for (const dark of [false, true]) {
    const svg = svgOf(picture, dark);
    for (const part of ["a &lt; b", "angle, degrees", "lost, %", ">s<", "refused by the gate", "url(#refused)", "as in the table"]) assert.ok(svg.includes(part), part);
    assert.ok(!svg.includes("NaN") && !svg.includes("undefined") && !svg.includes("Infinity"));
  }
  const nothing = svgOf({ ...picture, known: [false, false, false, false], lines: [{ name: "s", ys: [null, null, null, null] }] });
  assert.ok(!nothing.includes("NaN") && !nothing.includes("Infinity"));
});

test("hints", () => {
  const said = (text) => resultsOf(read(text)).hints.join("\n");
  assert.match(said(BEAM + "surface mirror reflected from 1 to 1.52 at 45 deg\n"), /preset mirror, designed for 550 nm; the light has 1064 nm/);
  assert.match(said("beam 550 nm s 1 p 1\n"), /add up to 2/);
  assert.match(said(BEAM + "window 2 at 0 deg\n"), /surface 2 is the second face of a plate: .* would add 1\.3 % to s and 1\.3 % to p/); // R 1/9: 1/81 over 80/81
  assert.match(said(BEAM + "surface custom reflected from 1 to 1.5 at 0 deg\nstack (HL)7 H with H 2.3 L 1.46 at 1064 nm\n"), /to repeat the bracket write \(HL\)\^7/);
  assert.match(said(BEAM + "surface bare transmitted from 1 to 1.5 at 45 rad\n"), /more than a right angle; where degrees are meant write deg/);
  assert.match(said(BEAM + "surface bare transmitted from 1 to 1.5 at 30 deg\nsurface bare transmitted from 1.5 to 1 at 30 deg\n"), /in a plate with parallel faces it is at 19\.47 deg/);
  assert.equal(said(new TextDecoder().decode(file("docs/guide/back.txt"))), "");
  assert.equal(absorptance(file("examples/example.sheet"), 0), null);
  assert.equal(short(1.23456789), "1.23457");
});
