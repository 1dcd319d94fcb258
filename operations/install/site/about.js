// Who runs this site: a title, a contact and a licence of the content, where its keeper has put them into a file of JSON.

import { limit } from "./documents.js";
import { linked, made, part, tell } from "./elements.js";
import { plain } from "./names.js";

const FILE = "site/about.json";
// No longer file is read, and no longer text shown.
const MOST_BYTES = 10_000;
const LONGEST = 200;
const MILLISECONDS = 10_000;
const KEYS = ["title", "keeper", "contact", "licence", "licence_address", "tools_address"];

/**
 * What the file says: texts by their names, where it has them.
 * @typedef {{title?: string, keeper?: string, contact?: string, licence?: string, licence_address?: string,
 *   tools_address?: string}} About
 */

/**
 * Reads the file below the page's address. One that is absent, or is not as it should be, says nothing.
 * @param {string} here
 * @returns {Promise<About>}
 */
export async function aboutAt(here) {
  try {
    const signal = limit(MILLISECONDS);
    const answer = await fetch(`${here}/${FILE}`, { cache: "no-cache", redirect: "error", signal });
    const text = answer.ok ? await answer.text() : "";
    return text.length <= MOST_BYTES ? aboutOf(JSON.parse(text)) : {};
  } catch {
    return {};
  }
}

/**
 * The texts of a value.
 * @param {any} value
 * @returns {About}
 */
function aboutOf(value) {
  const texts = KEYS.map((key) => [key, Object.hasOwn(Object(value), key) ? value[key] : ""]);
  const isText = (/** @type {any[]} */ [, text]) => typeof text === "string" && text.trim() && text.length <= LONGEST;
  return Object.fromEntries(texts.filter(isText).map(([key, text]) => [key, plain(text.trim())]));
}

/**
 * Shows who runs the site in the page's foot.
 * @param {HTMLElement} root
 * @param {About} about
 */
export function showAbout(root, about) {
  const place = (/** @type {string} */ name) => part(root, name);
  const show = (/** @type {string} */ name, /** @type {(Node | string)[]} */ ...inside) => {
    place(name).replaceChildren(...inside);
    place(`${name}-part`).hidden = !inside.length;
  };
  show("keeper", ...(about.keeper ? [about.keeper] : []));
  show("contact", ...(about.contact ? [contactOf(about.contact)] : []));
  const { licence, licence_address: address = "" } = about;
  show("licence", ...(licence ? [linkOr(address, licence)] : []));
  root.hidden = !(about.keeper || about.contact || about.licence);
}

/**
 * An address of mail, or of the web, as a link; anything else as text.
 * @param {string} text
 */
function contactOf(text) {
  if (!/^[^\s@:/?&#]+@[^\s@:/?&#]+$/.test(text)) return linkOr(text, text);
  const link = made("a");
  link.href = `mailto:${text}`;
  tell(link, text);
  return link;
}

/** @type {(address: string, text: string) => HTMLElement} */
const linkOr = (address, text) => (/^https?:\/\//.test(address) ? linked(address, text) : made("span", "", text));
