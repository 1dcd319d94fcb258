// A reader of the XML that documents of a source have: a declaration, elements, attributes, texts, references and comments of XML 1.0. It
// refuses what no document has: a DTD, CDATA, instructions.
//
// The browser's own parser builds a tree, and takes some hundred milliseconds for a list of 4,000 entries. This one tells what comes as it
// comes. operations/tests/page compares the two.

const NAME = "[A-Za-z_][\\w.:-]*";
const TOKEN = new RegExp(`<(/?)(${NAME})((?:\\s+${NAME}\\s*=\\s*(?:"[^<"]*"|'[^<']*'))*)\\s*(/?)>|([^<]+)|<!--(?:(?!--)[^])*-->`, "y");
const DECLARATION = /^\uFEFF?(?:<\?xml\s+version\s*=\s*["']1\.0["'][^<>?]*\?>)?/;
const ATTRIBUTE = new RegExp(`(${NAME})\\s*=\\s*(?:"([^"]*)"|'([^']*)')`, "g");
const REFERENCE = /&(?:#x([0-9a-fA-F]{1,6})|#(\d{1,7})|(amp|lt|gt|quot|apos));|&/g;
const NAMED = { amp: "&", lt: "<", gt: ">", quot: '"', apos: "'" };

/** Why a text is no document. */
export class NoDocument extends Error {}

/**
 * A text with its references resolved.
 * @param {string} text
 * @returns {string}
 */
export function resolved(text) {
  if (!text.includes("&")) return text;
  return text.replace(REFERENCE, (all, hexadecimal, decimal, name) => {
    if (name) return NAMED[/** @type {keyof typeof NAMED} */ (name)];
    const point = hexadecimal ? Number.parseInt(hexadecimal, 16) : Number(decimal);
    if (!point || Number.isNaN(point) || point > 0x10ffff) throw new NoDocument(`no reference: ${all}`);
    return String.fromCodePoint(point);
  });
}

/**
 * The attributes of a tag by their names.
 * @param {string} text
 * @returns {Record<string, string>}
 */
export function attributesOf(text) {
  const found = Object.create(null);
  ATTRIBUTE.lastIndex = 0;
  for (let it = ATTRIBUTE.exec(text); it; it = ATTRIBUTE.exec(text)) {
    if (it[1] in found) throw new NoDocument(`${it[1]} stands twice`);
    found[it[1]] = resolved(it[2] ?? it[3]);
  }
  return found;
}

/**
 * Reads a text, and tells each element's beginning (its name, its depth from 1, its attributes as they stand), its own
 * text, and its end. Within the root `whole` is asked first: it may take elements, and gives the place behind them.
 * @param {string} text
 * @param {{begin: (name: string, depth: number, attributes: string) => void,
 *   end: (name: string, depth: number, inside: string) => void, whole: (at: number) => number}} heard
 */
export function read(text, { begin, end, whole }) {
  /** @type {string[]} */
  const open = [];
  let [inside, hasRoot] = ["", false];
  TOKEN.lastIndex = DECLARATION.exec(text)?.[0].length ?? 0;
  for (let at = TOKEN.lastIndex; at < text.length; at = TOKEN.lastIndex) {
    if (open.length === 1) {
      at = TOKEN.lastIndex = whole(at);
      if (at === text.length) break;
    }
    const found = TOKEN.exec(text);
    if (!found) throw new NoDocument(`at ${at}`);
    const [, isEnd, name, attributes, isEmpty, words] = found;
    if (words !== undefined) {
      inside = words;
      if (!open.length && words.trim()) throw new NoDocument(`text outside at ${at}`);
    } else if (isEnd) {
      if (open.pop() !== name || attributes || isEmpty) throw new NoDocument(`at ${at}`);
      end(name, open.length + 1, inside);
      inside = "";
    } else if (name) {
      if (!open.length && hasRoot) throw new NoDocument(`a second root at ${at}`);
      hasRoot = true;
      begin(name, open.length + 1, attributes);
      inside = "";
      if (isEmpty) end(name, open.length + 1, "");
      else open.push(name);
    }
  }
  if (open.length || !hasRoot) throw new NoDocument("it ends early");
}
