// Files that are opened and saved, and the work that is kept in the browser.
import { Refused, gate } from "./core.js";
import { sentence } from "./explain.js";
import { isModel } from "./model.js";
import { fromBytes, fromHex, isHex } from "./sheet.js";
import { isText, readText, sheetModel } from "./text.js";
import { Wrong } from "./words.js";

export const MOST_BYTES = 1000000; // of a file; a sheet has 39,460 at most
const KEPT = "dihkelu";

// The table of a sheet's bytes. Numbers outside the limits are taken, and marked in the table.
function sheetFile(bytes) {
  try {
    gate(bytes);
  } catch (refused) {
    if (!(refused instanceof Refused)) throw refused;
    if (refused.number !== 6) throw new Wrong(`refused ${refused.number} ${refused.place}: ${sentence(refused, bytes)}`);
  }
  return sheetModel(fromBytes(bytes));
}

// The table of a file's bytes: a text, a sheet, or a sheet in hexadecimal.
export function readFile(bytes) {
  if (!bytes.length) throw new Wrong("the file is empty: choose another");
  if (bytes.length > MOST_BYTES) throw new Wrong(`the file has more than ${MOST_BYTES} bytes, too many for a sheet or its text: choose another`);
  if (!isText(bytes)) return sheetFile(bytes);
  const start = new TextDecoder().decode(bytes.subarray(0, 200));
  return isHex(start) ? sheetFile(fromHex(new TextDecoder().decode(bytes))) : readText(bytes);
}

// Offers a file to be saved; the browser asks where.
export function saveAs(name, type, content) {
  const link = document.createElement("a");
  link.href = URL.createObjectURL(new Blob([content], { type }));
  link.download = name;
  document.body.append(link);
  link.click();
  link.remove();
  setTimeout(() => URL.revokeObjectURL(link.href), 60000);
}

// A browser may forbid it for a page that was opened as a file: then nothing is kept, and that is said.
export function keep(model) {
  try {
    localStorage.setItem(KEPT, JSON.stringify(model));
    return true;
  } catch {
    return false;
  }
}

export function kept() {
  try {
    const model = JSON.parse(localStorage.getItem(KEPT));
    return isModel(model) ? model : null;
  } catch {
    return null;
  }
}
