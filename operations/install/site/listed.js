// The two lists of a panel: the resources, searched and sorted, and the changes in view of the time line.

import { given, made, part, tell } from "./elements.js";
import { count, counted, moment } from "./formats.js";
import { csvOf, jsonOf, save } from "./export.js";
import { showFolders, showTypes } from "./facets.js";
import { chosen, kind, within } from "./model.js";
import { pieces, plain, readable } from "./names.js";
import { Rows } from "./rows.js";

const MARKS = { agrees: "✓ agrees", differs: "✗ differs", unasked: "not checked" };
// What the columns are called where an order is said.
const COLUMNS = { name: "name", type: "type", length: "bytes", moment: "moment" };

/** @typedef {import("./model.js").Column} Column */
/** @typedef {import("./source.js").Resource} Resource */

/**
 * A cell of a row.
 * @param {string} kind
 * @param {(string | Node)[]} inside
 */
export function cell(kind, ...inside) {
  const element = made("span", kind, ...inside);
  element.setAttribute("role", "gridcell");
  return element;
}

/**
 * A row of cells.
 * @param {HTMLElement[]} cells
 */
export function row(...cells) {
  const element = made("div", "row", ...cells);
  element.setAttribute("role", "row");
  return element;
}

/** A cell for a name, which is a link. The keys reach its row, so the link is not in the order of the tab key. */
export function nameCell() {
  const link = made("a", "", made("bdi", "", ...["folders", "segment", "end"].map((it) => made("span", it))));
  link.tabIndex = -1;
  return cell("name", link);
}

/**
 * Shows a name in its cell, cut before its end where it lacks room, with the address of its resource.
 * @param {any} cellOfName
 * @param {string} name
 * @param {string} address
 */
export function fillName(cellOfName, name, address) {
  const link = cellOfName.firstChild;
  const { text, isMarked } = readable(name);
  pieces(text).forEach((it, at) => tell(link.firstChild.children[at], it));
  cellOfName.title = text;
  cellOfName.classList.toggle("is-encoded", isMarked);
  link.setAttribute("href", address);
}

/**
 * Shows the type of a resource in its cell by a short word.
 * @param {any} cellOfType
 * @param {Resource} resource
 */
export function fillType(cellOfType, resource) {
  tell(cellOfType.firstChild, kind(resource));
  cellOfType.title = plain(resource.type);
}

/** The resources of a panel, searched and sorted. */
export class Listed {
  /**
   * `address` gives the address of a name's resource, `moved` hears of another search (typed, or not) or order.
   * @param {HTMLElement} root
   * @param {{open: (resource: Resource) => void,
   *   outcome: (resource: Resource) => import("./checking.js").Outcome | undefined,
   *   say: (text: string) => void, isChosen: (name: string) => boolean, address: (name: string) => string,
   *   moved: (isTyping?: boolean) => void}} acts
   */
  constructor(root, { open, outcome, say, isChosen, address, moved }) {
    this.root = root;
    this.outcome = outcome;
    this.say = say;
    this.address = address;
    this.moved = moved;
    /** @type {Resource[]} */
    this.resources = [];
    /** @type {Column} */
    this.key = "name";
    this.isDown = false;
    this.folder = "";
    this.type = "";
    this.grid = part(root, "resources-grid");
    this.search = part(root, "search");
    /** @type {Rows<Resource>} */
    this.rows = new Rows(this.grid, {
      open,
      isChosen: (resource) => isChosen(resource.name),
      make: () => row(nameCell(), cell("type", given("")), cell("number"), cell("moment"), cell("mark")),
      fill: (element, resource) => this.fill(element, resource),
    });
    this.search.addEventListener("input", () => {
      this.choose();
      this.moved(true);
    });
    for (const button of this.grid.querySelectorAll("[data-sort]")) {
      button.addEventListener("click", () => this.sort(button.dataset.sort));
    }
    part(root, "clear").addEventListener("click", () => this.clear());
    part(root, "csv").addEventListener("click", () => save("resources.csv", "text/csv", csvOf(this.rows.items)));
    part(root, "json").addEventListener("click", () => save("resources.json", "application/json", jsonOf(this.rows.items)));
  }

  /**
   * Fills the row of a resource.
   * @param {HTMLElement} element
   * @param {Resource} resource
   */
  fill(element, resource) {
    const [name, type, length, put, mark] = /** @type {any} */ (element.children);
    fillName(name, resource.name, this.address(resource.name));
    fillType(type, resource);
    tell(length, count(resource.length));
    tell(put, moment(resource.moment).slice(0, 10));
    const outcome = this.outcome(resource);
    if (outcome) this.grid.dataset.hasChecks = true;
    tell(mark, outcome ? MARKS[outcome.kind] : "");
    mark.dataset.kind = outcome?.kind ?? "";
  }

  /**
   * Takes the resources of another reading; the reader's search, order and place stay.
   * @param {Resource[]} resources
   */
  show(resources) {
    this.resources = resources;
    this.choose(true);
  }

  /**
   * Whether the search, the folder or the type hides a resource.
   * @param {{name: string, type: string, hash: string}} resource
   */
  hides(resource) {
    return !within(this.place())(resource);
  }

  /** What the list shows, as an address has it. */
  place() {
    const { folder, type } = this;
    return { search: this.search.value.trim(), folder, type, sort: this.order() };
  }

  /**
   * Narrows the list to a folder, or to a type.
   * @param {{folder?: string, type?: string}} to
   */
  narrow(to) {
    Object.assign(this, to);
    this.choose();
    this.moved();
  }

  /** Shows all resources again. */
  clear() {
    this.search.value = "";
    this.narrow({ folder: "", type: "" });
    this.search.focus();
  }

  /** The order as an address has it: a column, with a minus where it is turned; nothing as at first. */
  order() {
    return this.key === "name" && !this.isDown ? "" : `${this.isDown ? "-" : ""}${this.key}`;
  }

  /**
   * Shows the search, the folder, the type and the order of an address.
   * @param {import("./address.js").Place} place
   */
  goTo({ search, folder, type, sort: order }) {
    const key = order.replace(/^-/, "");
    this.key = Object.hasOwn(COLUMNS, key) ? /** @type {Column} */ (key) : "name";
    this.isDown = order.startsWith("-");
    Object.assign(this, { folder, type });
    this.search.value = search;
    this.showOrder();
    this.choose();
  }

  /**
   * Sorts by a column, or turns its order.
   * @param {Column} key
   */
  sort(key) {
    this.isDown = key === this.key ? !this.isDown : key === "moment";
    this.key = key;
    this.showOrder();
    this.choose();
    this.moved();
    this.say(`Sorted by ${COLUMNS[key]}, ${this.isDown ? "descending" : "ascending"}.`);
  }

  /** Marks the column by which the rows are sorted. */
  showOrder() {
    for (const button of this.grid.querySelectorAll("[data-sort]")) {
      const isThis = button.dataset.sort === this.key;
      button.parentNode.setAttribute("aria-sort", isThis ? (this.isDown ? "descending" : "ascending") : "none");
    }
  }

  /** Shows the resources that the search finds, in the order; the view stays where it is, or goes to the top. */
  choose(isSame = false) {
    const filter = this.place();
    const found = chosen(this.resources, filter, this.key, this.isDown);
    this.rows.show(found, isSame);
    showFolders(part(this.root, "folders"), found, this.folder, (folder) => this.narrow({ folder }));
    const ofAnyType = this.type ? this.resources.filter(within({ ...filter, type: "" })) : found;
    showTypes(part(this.root, "types"), ofAnyType, this.type, (type) => this.narrow({ type }));
    const isNothing = !found.length && this.resources.length > 0;
    part(this.root, "nothing").hidden = !isNothing;
    this.grid.hidden = part(this.root, "export").hidden = isNothing;
    const all = counted(this.resources.length, "resource");
    const isNarrow = filter.search || filter.folder || filter.type;
    const text = isNarrow ? `${count(found.length)} of ${all}` : all;
    tell(part(this.root, "found"), text);
    if (!isSame) this.say(text);
  }

  /**
   * Draws the row of a resource again.
   * @param {Resource} resource
   */
  mark(resource) {
    for (const [index, element] of this.rows.drawn) {
      if (this.rows.items[index].name === resource.name) this.fill(element, this.rows.items[index]);
    }
  }
}

/**
 * The list of changes.
 * @param {HTMLElement} grid
 * @param {{open: (change: Resource) => void, address: (name: string) => string}} acts
 * @returns {Rows<Resource>}
 */
export function changeRows(grid, { open, address }) {
  return new Rows(grid, {
    open,
    make: () => row(cell("moment"), cell("change"), nameCell(), cell("number")),
    fill: (element, change) => {
      const [at, kind, name, length] = /** @type {any} */ (element.children);
      tell(at, moment(change.moment));
      tell(kind, change.change);
      kind.className = `change ${["deleted", "updated"].includes(change.change) ? change.change : "created"}`;
      fillName(name, change.name, address(change.name));
      tell(length, change.change === "deleted" ? "" : count(change.length));
    },
  });
}
