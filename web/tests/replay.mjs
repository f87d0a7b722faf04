// Every recorded answer of the C calls, replayed through the page's core, bit for bit: node web/tests/replay.mjs
import { answer, readRecords } from "./records.mjs";
import { file, start } from "./start.mjs";

const library = await start();
let [agree, differ, others] = [0, 0, 0];
for (const name of ["test_replay_c", "test_replay_calls"]) {
  for (const { which, taken, expected } of readRecords(file("crates", name, "stdin"))) {
    const found = answer(library, which, taken);
    if (!found) others += 1;
    else if (found.length === expected.length && found.every((x, i) => x === expected[i])) agree += 1;
    else if (!differ++) console.log(`function ${which}: ${found.map((x) => x.toString(16))}, expected ${expected.map((x) => x.toString(16))}`);
  }
}
console.log(`replay: ${agree} agree, ${differ} differ, ${others} of other functions`);
process.exit(differ || !agree ? 1 : 0);
