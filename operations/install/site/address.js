// What is shown has an address: the fragment names a source, a resource, a search, a folder, a type, an order and a
// range of time.

/** @type {(keyof Place)[]} */
const KEYS = ["source", "resource", "search", "folder", "type", "sort", "range"];

/**
 * Where a reader is. A field that is empty says: as at first.
 * @typedef {{source: string, resource: string, search: string, folder: string, type: string, sort: string,
 *   range: string}} Place
 */

/**
 * The place that a fragment names, or null where it names a part of the page, as `#main` does.
 * @param {string} fragment
 * @returns {Place | null}
 */
export function placeOf(fragment) {
  if (fragment.length > 1 && !fragment.includes("=")) return null;
  const fields = new URLSearchParams(fragment.slice(1));
  const [source, resource, search, folder, type, sort, range] = KEYS.map((key) => fields.get(key) ?? "");
  return { source, resource, folder, type, search, sort, range };
}

/**
 * The fragment of a place.
 * @param {Partial<Place>} place
 */
export function fragmentOf(place) {
  const fields = KEYS.flatMap((key) => (place[key] ? [`${key}=${escaped(place[key] ?? "")}`] : []));
  return fields.length ? `#${fields.join("&")}` : "";
}

/** @type {(text: any) => string} (TypeScript does not know `toWellFormed` yet) */
const escaped = (text) => encodeURIComponent(text.toWellFormed?.() ?? text).replaceAll("%2F", "/");

/** Keeps the address at the place that is shown, and goes where the reader's back and forward lead. */
export class Navigation {
  /**
   * `read` gives the place that is shown, `go` shows another one.
   * @param {() => Partial<Place>} read
   * @param {(place: Place) => void} go
   */
  constructor(read, go) {
    this.read = read;
    this.go = go;
    this.isGoing = false;
    this.isTyping = false;
    addEventListener("popstate", () => this.follow());
  }

  /** Shows the place that the address names. A part of the page, as `#main`, is no place. */
  follow(isFirst = false) {
    const place = placeOf(location.hash) ?? (isFirst && placeOf(""));
    if (!place) return;
    this.isGoing = true;
    this.isTyping = false;
    try {
      this.go(place);
    } finally {
      this.isGoing = false;
    }
  }

  /** Notes that the reader has gone elsewhere. Letters of one search share a step of the history. */
  note(isTyping = false) {
    if (this.isGoing) return;
    const address = fragmentOf(this.read()) || location.pathname + location.search;
    const isStep = !(isTyping && this.isTyping);
    this.isTyping = isTyping;
    if (new URL(address, location.href).href === location.href) return;
    try {
      history[isStep ? "pushState" : "replaceState"](null, "", address);
    } catch {
      // (a browser takes so many steps a minute; what is shown is right without)
    }
  }
}
