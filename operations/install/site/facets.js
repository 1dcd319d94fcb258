// Folders and types that narrow the list of resources, each with the number of resources that it leaves.

import { given, made } from "./elements.js";
import { count } from "./formats.js";
import { folderBelow, kind, tally } from "./model.js";
import { plain, readable } from "./names.js";

// This many folders, or types, are offered at a time: those with the most resources.
const MOST = 12;

/** @typedef {import("./source.js").Resource} Resource */

/**
 * Offers the folders above and below a folder; `go` gets the folder that the reader chooses.
 * @param {HTMLElement} place
 * @param {Resource[]} resources
 * @param {string} folder
 * @param {(folder: string) => void} go
 */
export function showFolders(place, resources, folder, go) {
  const below = tally(resources, (it) => folderBelow(it.name, folder));
  const names = folder.split("/").slice(0, -1);
  const above = ["", ...names.map((_, at) => `${names.slice(0, at + 1).join("/")}/`)];
  const path = folder ? above.map((it) => chip(it, lastOf(it) || "All folders", "", it === folder, go)) : [];
  show(place, [...path, ...below.slice(0, MOST).map(([it, number]) => chip(it, lastOf(it), count(number), false, go))]);
}

/**
 * Offers types; the chosen one is pressed, and pressed again it is left.
 * @param {HTMLElement} place
 * @param {Resource[]} resources
 * @param {string} type
 * @param {(type: string) => void} go
 */
export function showTypes(place, resources, type, go) {
  const found = tally(resources, kind);
  const offered = found.slice(0, MOST);
  if (type && !offered.some(([it]) => it === type)) offered.push([type, found.find(([it]) => it === type)?.[1] ?? 0]);
  const chips = offered.map(([it, number]) => chip(it, it, count(number), it === type, () => go(it === type ? "" : it)));
  show(place, offered.length > 1 || type ? chips : []);
}

/** The last segment of a folder, as people read it. */
const lastOf = (/** @type {string} */ folder) => readable(folder.split("/").at(-2) ?? "").text;

/**
 * A button with a text and a number.
 * @param {string} key
 * @param {string} text
 * @param {string} number
 * @param {boolean} isPressed
 * @param {(key: string) => void} go
 */
function chip(key, text, number, isPressed, go) {
  const button = made("button", "chip", given(text), ...(number ? [" ", made("span", "number", number)] : []));
  button.type = "button";
  button.title = plain(key);
  button.dataset.key = key;
  button.setAttribute("aria-pressed", String(isPressed));
  button.addEventListener("click", () => go(key));
  return button;
}

/**
 * Puts buttons into their place, and keeps the focus on the same one, or on the first.
 * @param {HTMLElement} place
 * @param {HTMLElement[]} chips
 */
function show(place, chips) {
  const focused = place.contains(document.activeElement) && /** @type {HTMLElement} */ (document.activeElement);
  place.hidden = !chips.length;
  place.replaceChildren(...chips);
  if (focused) (chips.find((it) => it.dataset.key === focused.dataset.key) ?? chips[0])?.focus();
}
