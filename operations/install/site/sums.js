// The first tab of a collection: the sums over the sources that were read, each source in a row, and a search over all.

import { fragmentOf } from "./address.js";
import { copied, given, made, part, tell } from "./elements.js";
import { age, count, counted, moment, size } from "./formats.js";
import { cell, fillName, fillType, nameCell, row } from "./listed.js";
import { search, sums } from "./model.js";
import { showMoment } from "./panel.js";
import { Rows } from "./rows.js";

/** @typedef {import("./panel.js").Panel} Panel */
/** @typedef {{panel: Panel, resource: import("./source.js").Resource}} Found */

/** The first tab of a collection. */
export class Sums {
  /**
   * `open` shows the tab of a panel, and a resource there; `moved` hears of another search.
   * @param {Panel[]} panels
   * @param {{open: (panel: Panel, name?: string) => void, say: (text: string) => void,
   *   moved: (isTyping: boolean) => void}} acts
   */
  constructor(panels, { open, say, moved }) {
    this.panels = panels;
    this.open = open;
    this.say = say;
    this.moved = moved;
    this.words = "";
    this.read = 0;
    /** @type {HTMLElement} */
    this.root = copied("sums").firstElementChild;
    this.search = part(this.root, "search-all");
    this.search.addEventListener("input", () => {
      this.find();
      this.moved(true);
    });
    /** @type {Rows<Found>} */
    this.rows = new Rows(part(this.root, "found-grid"), {
      open: ({ panel, resource }) => this.open(panel, resource.name),
      make: () => row(nameCell(), cell("source", given("")), cell("type", given("")), cell("number"), cell("moment")),
      fill: (element, item) => fill(element, item),
    });
    this.show();
  }

  /** The place that is shown. */
  place() {
    return { search: this.search.value.trim() };
  }

  /**
   * Shows a place.
   * @param {{search: string}} place
   */
  goTo(place) {
    if (this.search.value.trim() === place.search) return;
    this.search.value = place.search;
    this.find();
  }

  /** Searches all sources. */
  find() {
    const words = this.search.value.trim();
    part(this.root, "found-part").hidden = !words;
    if (!words) return;
    this.showFound(words);
  }

  /**
   * Shows what some words find.
   * @param {string} words
   */
  showFound(words) {
    const isFound = search(words);
    const items = this.panels.flatMap((panel) =>
      (panel.holding?.resources ?? []).filter(isFound).map((resource) => ({ panel, resource })));
    const read = this.panels.filter((it) => it.holding).length;
    this.rows.show(items, words === this.words && read === this.read);
    [this.words, this.read] = [words, read];
    const text = `${counted(items.length, "resource")} in ${count(read)} of ${counted(this.panels.length, "source")}`;
    if (part(this.root, "found-all").textContent === text) return;
    tell(part(this.root, "found-all"), text);
    this.say(text);
  }

  /** Shows the sums, and each source in its row. */
  show() {
    const all = sums(this.panels.map((it) => it.holding));
    const resources = this.panels.reduce((sum, it) => sum + it.listed.resources.length, 0);
    const put = (/** @type {string} */ name, /** @type {string} */ text) => tell(part(this.root, name), text);
    put("resources", count(resources));
    const sources = counted(this.panels.length, "source");
    put("read", all.read === this.panels.length ? `in ${sources}` : `in ${count(all.read)} of ${sources} that were read`);
    put("size", size(all.bytes));
    put("bytes", all.bytes >= 1_000 ? `${count(all.bytes)} bytes` : "");
    put("changes", count(all.changes));
    for (const name of /** @type {const} */ (["changed", "published"])) {
      if (all[name]) showMoment(part(this.root, name), all[name]);
      put(`${name}-age`, all[name] ? age(all[name]) : "");
    }
    // (a row that stays keeps the focus of its button)
    const rows = this.panels.map((it) => this.row(it));
    const body = part(this.root, "sources");
    if (body.textContent !== rows.map((it) => it.textContent).join("")) body.replaceChildren(...rows);
    if (this.search.value.trim()) this.showFound(this.search.value.trim());
  }

  /**
   * The row of a source.
   * @param {Panel} panel
   */
  row(panel) {
    const { holding, state, base, label, listed } = panel;
    const button = made("button", "quiet", given(label));
    Object.assign(button, { type: "button", title: base });
    button.addEventListener("click", () => this.open(panel));
    const head = made("th", "", button);
    head.scope = "row";
    const word = made("td", "tone", state.word);
    word.dataset.tone = state.tone;
    // (while parts come, the resources of those that came; a source that never answered has no figures)
    const some = listed.resources.length ? count(listed.resources.length) : "";
    const figures = holding
      ? [count(holding.resources.length), count(holding.bytes), moment(holding.changed)] : [some, "", ""];
    return made("tr", "", head, word, ...figures.map((it) => made("td", "", it)));
  }
}

/**
 * Fills the row of what a search found.
 * @param {HTMLElement} element
 * @param {Found} found
 */
function fill(element, { panel, resource }) {
  const [name, source, type, length, put] = /** @type {any} */ (element.children);
  fillName(name, resource.name, fragmentOf({ source: panel.key, resource: resource.name }));
  tell(source.firstChild, panel.label);
  fillType(type, resource);
  tell(length, count(resource.length));
  tell(put, moment(resource.moment).slice(0, 10));
}
