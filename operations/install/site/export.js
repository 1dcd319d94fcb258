// A list of resources as a file: CSV for a spreadsheet, JSON for a program. The browser makes it from what it has read.

import { made } from "./elements.js";
import { plain } from "./names.js";
import { digestsIn } from "./source.js";

// A spreadsheet takes a cell that begins so for a formula.
const FORMULA = /^[=+\-@\t\r]/;

/** @typedef {import("./source.js").Resource} Resource */

/** @param {Resource} resource */
function facts({ name, loc, type, length, moment, hash }) {
  const { sha256, md5 } = digestsIn(hash);
  return { name: plain(name), address: plain(loc), type: plain(type), length, datetime: moment, sha256: plain(sha256),
    md5: plain(md5) };
}

/**
 * Resources as CSV (RFC 4180). An apostrophe precedes a text that a spreadsheet would run.
 * @param {Resource[]} resources
 */
export function csvOf(resources) {
  const cell = (/** @type {unknown} */ it) => `"${String(it).replace(FORMULA, "'$&").replaceAll('"', '""')}"`;
  const rows = resources.map((it) => Object.values(facts(it)).map(cell).join(","));
  return ["name,address,type,length,datetime,sha256,md5", ...rows, ""].join("\r\n");
}

/**
 * Resources as JSON.
 * @param {Resource[]} resources
 */
export function jsonOf(resources) {
  return `${JSON.stringify(resources.map(facts), null, 1)}\n`;
}

/**
 * Saves a text as a file of the reader.
 * @param {string} name
 * @param {string} type
 * @param {string} text
 */
export function save(name, type, text) {
  const link = made("a");
  link.href = URL.createObjectURL(new Blob([text], { type }));
  link.download = name;
  link.click();
  setTimeout(() => URL.revokeObjectURL(link.href), 60_000);
}
