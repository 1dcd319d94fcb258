// One document of a source, asked by fetch (docs/DOCUMENTS.md has the form).

import { plain } from "./names.js";
import { NoDocument, attributesOf, read, resolved } from "./xml.js";

const SITEMAP = "http://www.sitemaps.org/schemas/sitemap/0.9";
const TERMS = "http://www.openarchives.org/rs/terms/";
const MOMENT = /^\d{4}-(?:0[1-9]|1[0-2])-(?:0[1-9]|[12]\d|3[01])T(?:[01]\d|2[0-3]):[0-5]\d:[0-5]\d\.\d{3}Z$/;
// Milliseconds until an answer begins, and until it ends. Sitemap 0.9 allows no more entries in a document.
const BEGINS = 10_000;
const ENDS = 60_000;
const MOST_ENTRIES = 50_000;
// What the `rs:md` of an entry says of a resource, in the order in which sources write it.
const SAID = ["change", "datetime", "hash", "length", "type"];
// The names before the root was read.
const NO_NAMES = { entry: "", loc: "", lastmod: "", md: "", plain: /(?!)/y };

/**
 * What an entry says: its address, its `lastmod`, and the attributes of its `rs:md`.
 * @typedef {{loc: string, lastmod: string, said: Record<string, string | undefined>}} Entry
 */

/**
 * A document: its address, whether it names parts, what its `rs:md` says, and its entries or its parts.
 * @typedef {{address: string, isIndex: boolean, said: Record<string, string>, entries: Entry[]}} Listing
 */

/**
 * The names of elements in a document, and the pattern of an entry there.
 * @typedef {{entry: string, loc: string, lastmod: string, md: string, plain: RegExp}} Names
 */

/**
 * Why a source cannot be read: it is `closed`, `unreachable` or `gone`, has `dropped` a part meanwhile, calls itself
 * `elsewhere`, or its documents are `wrong`.
 */
export class Trouble extends Error {
  /**
   * @param {string} kind
   * @param {string} message
   */
  constructor(kind, message) {
    super(plain(message));
    this.kind = kind;
  }
}

/**
 * What ends a fetch after so many milliseconds.
 * @param {number} milliseconds
 * @returns {AbortSignal}
 */
export const limit = (milliseconds) => /** @type {any} */ (AbortSignal).timeout(milliseconds);

/**
 * What an address answers to GET, where it answers with 200.
 * @param {string} address
 * @param {RequestCache} cache
 */
export async function asked(address, cache = "no-cache") {
  let answer;
  const stop = new AbortController();
  const late = setTimeout(() => stop.abort(), BEGINS);
  try {
    answer = await fetch(address, { cache, redirect: "error", signal: stop.signal });
  } catch {
    const why = stop.signal.aborted ? `No response for ${BEGINS / 1_000} s.` : "It does not answer this browser.";
    throw new Trouble("unreachable", why);
  } finally {
    clearTimeout(late);
  }
  setTimeout(() => stop.abort(), ENDS);
  if (answer.ok) return answer;
  throw await refusal(address, answer);
}

/**
 * What a status means.
 * @param {string} address
 * @param {Response} answer
 */
async function refusal(address, answer) {
  const isText = answer.headers.get("content-type")?.startsWith("text/plain");
  const word = isText ? (await answer.text().catch(() => "")).trim().slice(0, 60) : "";
  const told = `${answer.status}${word ? ` ${word}` : ""}`;
  if (answer.status === 503 && word === "Closed") return new Trouble("closed", "It answers 503 Closed.");
  if (answer.status === 404) return new Trouble("dropped", `${address} answers ${told}.`);
  if (answer.status >= 500) return new Trouble("unreachable", `It answers ${told}.`);
  return new Trouble("wrong", `${address} answers ${told}.`);
}

/**
 * The document at an address.
 * @param {string} address
 * @param {RequestCache} [cache]
 */
export async function documentAt(address, cache) {
  const answer = await asked(address, cache);
  let text;
  try {
    text = await answer.text();
  } catch {
    throw new Trouble("unreachable", "Its answer ended early.");
  }
  return documentOf(text, address);
}

/**
 * What a text says as a document.
 * @param {string} text
 * @param {string} address
 */
export function documentOf(text, address) {
  /** @type {Listing} */
  const found = { address, isIndex: false, said: {}, entries: [] };
  let names = NO_NAMES;
  /** @type {Entry | null} */
  let entry = null;
  try {
    read(text, {
      begin(name, depth, attributes) {
        if (depth === 1) names = namesOf(name, attributesOf(attributes), found);
        else if (name === names.entry && depth === 2) entry = { loc: "", lastmod: "", said: {} };
        else if (name === names.md && depth === 2) found.said = attributesOf(attributes);
        else if (name === names.md && depth === 3 && entry) entry.said = attributesOf(attributes);
      },
      end(name, depth, inside) {
        if (depth === 3 && entry && name === names.loc) entry.loc = resolved(inside);
        else if (depth === 3 && entry && name === names.lastmod) entry.lastmod = resolved(inside);
        else if (depth === 2 && entry) {
          found.entries.push(entry);
          entry = null;
        }
      },
      whole: (at) => plainEntries(text, at, names.plain, found.entries),
    });
  } catch (fault) {
    if (!(fault instanceof NoDocument)) throw fault;
    throw new Trouble("wrong", `${address} has no document of ResourceSync.`);
  }
  if (found.entries.length <= MOST_ENTRIES) return found;
  throw new Trouble("wrong", `${address} has more than ${MOST_ENTRIES} entries.`);
}

/**
 * Takes the plain entries that follow each other from a place on, and gives the place behind the last.
 * @param {string} text
 * @param {number} at
 * @param {RegExp} pattern
 * @param {Entry[]} entries
 */
function plainEntries(text, at, pattern, entries) {
  let end = at;
  pattern.lastIndex = at;
  for (let it = pattern.exec(text); it; it = pattern.exec(text)) {
    const said = { change: it[3], datetime: it[4], hash: it[5], length: it[6], type: it[7] };
    entries.push({ loc: it[1], lastmod: it[2] ?? "", said });
    end = pattern.lastIndex;
  }
  return end;
}

/**
 * The names of what is looked for, with the prefixes that the root gives to the two vocabularies.
 * @param {string} root
 * @param {Record<string, string>} spaces
 * @param {Listing} found
 * @returns {Names}
 */
function namesOf(root, spaces, found) {
  const prefix = (/** @type {string} */ space) => {
    const key = Object.keys(spaces).find((it) => /^xmlns(:|$)/.test(it) && spaces[it] === space);
    if (key === undefined) throw new NoDocument(`no ${space}`);
    return key === "xmlns" ? "" : `${key.slice(6)}:`;
  };
  const [sitemap, terms] = [prefix(SITEMAP), prefix(TERMS)];
  if (root !== `${sitemap}urlset` && root !== `${sitemap}sitemapindex`) throw new NoDocument(root);
  found.isIndex = root === `${sitemap}sitemapindex`;
  const entry = `${sitemap}${found.isIndex ? "sitemap" : "url"}`;
  const [loc, lastmod, md] = [`${sitemap}loc`, `${sitemap}lastmod`, `${terms}md`];
  return { entry, loc, lastmod, md, plain: plainOf(entry, loc, lastmod, md) };
}

/**
 * The pattern of an entry as sources write it, without references: it is read in a step, and all else bit by bit.
 * @param {string[]} names
 */
function plainOf(...names) {
  const [entry, loc, lastmod, md] = names.map((it) => it.replaceAll(".", "\\."));
  const values = SAID.map((it) => `(?: ${it}="([^"<&\\t\\n\\r]*)")?`).join("");
  const texts = `<${loc}>([^<&]*)</${loc}>(?:<${lastmod}>([^<&]*)</${lastmod}>)?`;
  return new RegExp(`<${entry}>${texts}<${md}${values}/></${entry}>\\s*`, "y");
}

/**
 * An attribute of an entry's `rs:md`.
 * @param {Entry} entry
 * @param {string} name
 */
export function said(entry, name) {
  return entry.said[name] ?? "";
}

/**
 * A moment as this source writes it, which is in the order of time as text too.
 * @param {string} text
 */
export function momentOf(text = "") {
  if (MOMENT.test(text) && (text.slice(8, 10) < "29" || isDay(text))) return text;
  throw new Trouble("wrong", `“${String(text).slice(0, 60)}” is no moment.`);
}

/**
 * Whether the day of a moment is one of its month.
 * @param {string} text
 */
function isDay(text) {
  const time = Date.parse(text);
  return !Number.isNaN(time) && new Date(time).toISOString() === text;
}
