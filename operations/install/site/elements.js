// Elements that are made from text only. What a source says is never read as markup.

import { plain, readable } from "./names.js";

/**
 * An element with a class, and a text or children.
 * @param {string} tag
 * @param {string} kind
 * @param {(string | Node)[]} inside
 * @returns {any}
 */
export function made(tag, kind = "", ...inside) {
  const it = document.createElement(tag);
  if (kind) it.className = kind;
  it.append(...inside);
  return it;
}

/**
 * Puts a text into an element, if it has another one.
 * @param {Node} element
 * @param {string} text
 */
export function tell(element, text) {
  if (element.textContent !== text) element.textContent = text;
}

/**
 * A text of a source, which cannot turn the text around it.
 * @param {string} text
 */
export function given(text, kind = "") {
  return made("bdi", kind, plain(text));
}

/**
 * Shows a whole name in an element, as people read it; `whole` has the mark of one that stays encoded.
 * @param {Element} element
 * @param {string} name
 */
export function showName(element, name, whole = element) {
  const { text, isMarked } = readable(name);
  tell(element, text);
  whole.classList.toggle("is-encoded", isMarked);
}

/**
 * A link, if the address is one of the web.
 * @param {string} address
 * @param {string} text
 */
export function linked(address, text) {
  const it = made("a");
  it.textContent = text;
  if (/^https?:\/\//.test(address)) it.href = address;
  it.rel = "noreferrer";
  return it;
}

/**
 * A copy of what a template of the page has.
 * @param {string} id
 * @returns {any}
 */
export function copied(id) {
  return /** @type {HTMLTemplateElement} */ (document.getElementById(id)).content.cloneNode(true);
}

/**
 * The part of a panel that has this role there: an element of the page's own markup, of whatever kind.
 * @param {ParentNode} root
 * @param {string} name
 * @returns {any}
 */
export function part(root, name) {
  return root.querySelector(`[data-part="${name}"]`);
}
