// Names and types as people read them. Lists have names percent-encoded; here they are decoded where that is safe.

// What cannot be seen, or changes how the text around it is shown: controls, marks of direction, blanks other than
// the space, characters without a meaning of their own.
const UNSAFE = /(?! )[\p{C}\p{Z}\p{Default_Ignorable_Code_Point}]/u;
const EACH_UNSAFE = new RegExp(UNSAFE, "gu");
// A name that reads the same decoded.
const PLAIN = /^[ -$&-~]*$/;
const ESCAPES = /(?:%[0-9A-Fa-f]{2})+/g;
// These stay escapes: two names never look the same because one has `%41` where the other has `A`.
const STAYS = /[A-Za-z0-9._~!$&'()*+,;=:@/%-]/;
// A name that a mirror takes (operations/docs/DESTINATIONS.md): segments, none of which is `.` or `..`.
const SEGMENT = "(?!\\.{1,2}(?:/|$))(?:[A-Za-z0-9._~!$&'()*+,;=:@-]|%[0-9A-Fa-f]{2})+";
const LAWFUL = new RegExp(`^${SEGMENT}(?:/${SEGMENT})*$`);
const LONGEST = 240;
// The characters at the end of a name that a line always shows.
const KEPT = 14;
const MEDIA_TYPE = /^(([\w!#$&^.+-]+)\/([\w!#$&^.+-]+))\s*(?:;|$)/;
// Words for the second part of a type.
/** @type {Record<string, string>} */
const KINDS = { pdf: "PDF", csv: "CSV", xml: "XML", json: "JSON", html: "HTML", plain: "text", zip: "ZIP", gzip: "gzip",
  "octet-stream": "binary", markdown: "Markdown", msword: "Word", epub: "EPUB", tar: "tar", "tab-separated-values": "TSV" };
const utf8 = new TextDecoder("utf-8", { fatal: true, ignoreBOM: true });
const bytes = new TextEncoder();

/**
 * How a name is shown. It is marked where it stays encoded: its bytes are not UTF-8, or decode to what is not safe.
 * @param {string} name
 * @returns {{text: string, isMarked: boolean}}
 */
export function readable(name) {
  if (PLAIN.test(name)) return { text: name, isMarked: false };
  if (UNSAFE.test(name)) return { text: plain(name), isMarked: true };
  const text = decoded(name);
  return text === null || UNSAFE.test(text) ? { text: name, isMarked: true } : { text, isMarked: false };
}

/**
 * A text of a source with what is not safe encoded.
 * @param {string} text
 */
export function plain(text) {
  return UNSAFE.test(text) ? text.replace(EACH_UNSAFE, escapesOf) : text;
}

/**
 * The pieces of a name's text for one line: its folders, the beginning and the end of its last segment. Where it lacks
 * room, the folders are cut first, then the beginning of the segment; its end stays.
 * @param {string} text
 */
export function pieces(text) {
  const last = text.lastIndexOf("/") + 1;
  const end = Math.max(last, text.length - KEPT);
  // (no character of two units is cut)
  const at = /[\uDC00-\uDFFF]/.test(text[end] ?? "") ? end + 1 : end;
  return [text.slice(0, last), text.slice(last, at), text.slice(at)];
}

/**
 * A type in a word, or the type without parameters where it has none. What is no media type stays as it is.
 * @param {string} type
 */
export function kindOf(type) {
  const [, all, top, sub] = MEDIA_TYPE.exec(type.toLowerCase()) ?? [];
  if (!all) return plain(type);
  if (["image", "audio", "video", "font"].includes(top)) return top;
  const ending = /\+(json|xml|zip)$/.exec(sub)?.[1] ?? sub.replace(/^x-/, "");
  return Object.hasOwn(KINDS, ending) ? KINDS[ending] : all;
}

/**
 * Whether a mirror takes a name.
 * @param {string} name
 */
export function isLawful(name) {
  return name.length <= LONGEST && LAWFUL.test(name);
}

/**
 * A text as it is searched: without diacritics, in lower case.
 * @param {string} text
 */
export function searchable(text) {
  return text.normalize("NFD").replace(/[\u0300-\u036F]/g, "").toLowerCase();
}

/**
 * The escapes of a text's bytes.
 * @param {string} text
 */
function escapesOf(text) {
  return Array.from(bytes.encode(text), (it) => `%${it.toString(16).toUpperCase().padStart(2, "0")}`).join("");
}

/**
 * A name decoded, or null where its escapes are not UTF-8.
 * @param {string} name
 */
function decoded(name) {
  try {
    return name.replace(ESCAPES, textOf);
  } catch {
    return null;
  }
}

/**
 * The text of escapes that follow each other.
 * @param {string} escapes
 */
function textOf(escapes) {
  const text = utf8.decode(Uint8Array.from(escapes.slice(1).split("%").map((it) => Number.parseInt(it, 16))));
  let shown = "";
  let at = 0;
  for (const character of text) {
    const end = at + 3 * bytes.encode(character).length;
    shown += STAYS.test(character) ? escapes.slice(at, end) : character;
    at = end;
  }
  return shown;
}
