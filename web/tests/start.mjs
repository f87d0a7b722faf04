// What the tests in node share: the modules of the page over its own core and glass table.
import fs from "node:fs";
import path from "node:path";
import { fileURLToPath } from "node:url";
import { startCore } from "../src/core.js";
import { useGlasses } from "../src/glasses.js";

export const ROOT = path.resolve(path.dirname(fileURLToPath(import.meta.url)), "../..");

export function file(...names) {
  return new Uint8Array(fs.readFileSync(path.join(ROOT, ...names)));
}

// The core that the page itself carries.
export function pageCore() {
  const page = fs.readFileSync(path.join(ROOT, "web/dihkelu.html"), "utf8");
  const [, coded] = /<script id="core"[^>]*>([^<]*)<\/script>/.exec(page);
  return new Uint8Array(Buffer.from(coded.replace(/\s+/g, ""), "base64"));
}

export async function start(core = pageCore()) {
  useGlasses(JSON.parse(fs.readFileSync(path.join(ROOT, "python/dihkelu/glasses.json"), "utf8")));
  return startCore(core);
}
