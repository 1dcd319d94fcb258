// A list of any length, of which only the rows in view are drawn. One row is in the order of the tab key, and the arrows
// move from it.

// Rows beyond the edges of the view that are drawn too, and rows that are printed.
const BESIDE = 6;
const PRINTED = 100;

/** @typedef {HTMLElement & {index?: number}} Row  with the place of its item */

/** @template Item */
export class Rows {
  /**
   * `make` gives an empty row, `fill` puts an item into one, `open` is what a click or Enter does.
   * @param {HTMLElement} grid
   * @param {{make: () => Row, fill: (row: Row, item: Item) => void, open: (item: Item) => void,
   *   isChosen?: (item: Item) => boolean}} acts
   */
  constructor(grid, { make, fill, open, isChosen = () => false }) {
    this.grid = grid;
    this.make = make;
    this.fill = fill;
    this.open = open;
    this.isChosen = isChosen;
    /** @type {Item[]} */
    this.items = [];
    /** @type {Map<number, Row>} */
    this.drawn = new Map();
    /** @type {Row[]} */
    this.free = [];
    this.active = 0;
    this.height = 0;
    this.isPrinting = false;
    /** @type {number | null} */
    this.coming = null;
    /** @type {any} */
    this.view = grid.querySelector(".view");
    /** @type {any} */
    this.room = grid.querySelector(".room");
    this.view.addEventListener("scroll", () => this.drawSoon(), { passive: true });
    this.view.addEventListener("keydown", (/** @type {KeyboardEvent} */ it) => this.move(it));
    this.view.addEventListener("click", (/** @type {MouseEvent} */ it) => this.clicked(it));
    new ResizeObserver(() => this.measure()).observe(this.view);
    addEventListener("beforeprint", () => this.print(true));
    addEventListener("afterprint", () => this.print(false));
  }

  /**
   * Takes other items; the view stays where it is, or goes to the top.
   * @param {Item[]} items
   */
  show(items, isSame = false) {
    this.items = items;
    this.active = isSame ? Math.min(this.active, Math.max(0, items.length - 1)) : 0;
    if (!isSame) this.view.scrollTop = 0;
    this.grid.setAttribute("aria-rowcount", String(items.length + 1));
    this.redraw();
  }

  /** Draws all rows again. */
  redraw() {
    for (const [index, row] of this.drawn) {
      if (index < this.items.length) this.put(row, index);
    }
    this.measure();
  }

  /** Takes the height of a row from its style, as a reader's zoom and the width of the window change it. */
  measure() {
    const rems = Number.parseFloat(getComputedStyle(this.grid).getPropertyValue("--row"));
    const height = rems * Number.parseFloat(getComputedStyle(document.documentElement).fontSize);
    if (height !== this.height) {
      this.height = height;
      for (const [index, row] of this.drawn) this.place(row, index);
    }
    this.room.style.height = `${this.items.length * this.height}px`;
    this.draw();
  }

  /** Draws with the next frame. */
  drawSoon() {
    this.coming ??= requestAnimationFrame(() => {
      this.coming = null;
      this.draw();
    });
  }

  /** Which rows are to be there. */
  wanted() {
    if (this.isPrinting) return Array.from({ length: Math.min(PRINTED, this.items.length) }, (_, it) => it);
    const first = Math.max(0, Math.floor(this.view.scrollTop / this.height) - BESIDE);
    const end = this.view.scrollTop + this.view.clientHeight;
    const last = Math.min(this.items.length, Math.ceil(end / this.height) + BESIDE);
    const found = Array.from({ length: Math.max(0, last - first) }, (_, it) => first + it);
    // The row that the tab key leads to is always there.
    if (this.active < this.items.length && this.active < first) found.unshift(this.active);
    if (this.active < this.items.length && this.active >= last) found.push(this.active);
    return found;
  }

  /** Draws the rows that are to be there, and takes away the others. */
  draw() {
    const wanted = this.wanted();
    const staying = new Set(wanted);
    for (const [index, row] of this.drawn) {
      if (staying.has(index)) continue;
      row.remove();
      this.drawn.delete(index);
      this.free.push(row);
    }
    /** @type {Row | null} */
    let next = null;
    for (const index of wanted.reverse()) {
      const row = this.drawn.get(index) ?? this.taken(index);
      if (row.nextElementSibling !== next || !row.parentNode) this.room.insertBefore(row, next);
      next = row;
    }
  }

  /**
   * A row that was free or is new, for an item.
   * @param {number} index
   */
  taken(index) {
    const row = this.free.pop() ?? this.make();
    this.drawn.set(index, row);
    this.put(row, index);
    return row;
  }

  /**
   * Puts an item into a row.
   * @param {Row} row
   * @param {number} index
   */
  put(row, index) {
    row.index = index;
    row.setAttribute("aria-rowindex", String(index + 2));
    row.tabIndex = index === this.active ? 0 : -1;
    row.setAttribute("aria-selected", String(this.isChosen(this.items[index])));
    this.place(row, index);
    this.fill(row, this.items[index]);
  }

  /**
   * Brings an item into view, and makes its row the one of the tab key.
   * @param {Item} item
   */
  reveal(item) {
    const index = this.items.indexOf(item);
    if (index < 0) return;
    this.active = index;
    const top = index * this.height;
    const isInView = top >= this.view.scrollTop && top + this.height <= this.view.scrollTop + this.view.clientHeight;
    if (!isInView) this.view.scrollTop = Math.max(0, top - this.view.clientHeight / 3);
    this.redraw();
  }

  /**
   * @param {Row} row
   * @param {number} index
   */
  place(row, index) {
    row.style.transform = `translateY(${index * this.height}px)`;
  }

  /**
   * Makes another row the one of the tab key, and shows it.
   * @param {number} index
   */
  goTo(index) {
    if (!this.items.length) return;
    const to = Math.max(0, Math.min(this.items.length - 1, index));
    const before = this.drawn.get(this.active);
    if (before) before.tabIndex = -1;
    this.active = to;
    const [top, high] = [to * this.height, this.view.clientHeight];
    if (top < this.view.scrollTop) this.view.scrollTop = top;
    if (top + this.height > this.view.scrollTop + high) this.view.scrollTop = top + this.height - high;
    this.draw();
    const row = /** @type {Row} */ (this.drawn.get(to));
    row.tabIndex = 0;
    row.focus({ preventScroll: true });
  }

  /**
   * What a key does in the list.
   * @param {KeyboardEvent} event
   */
  move(event) {
    if (!this.items.length || event.altKey || event.ctrlKey || event.metaKey) return;
    const page = Math.max(1, Math.floor(this.view.clientHeight / this.height) - 1);
    /** @type {Record<string, number>} */
    const keys = { ArrowDown: 1, ArrowUp: -1, PageDown: page, PageUp: -page, Home: -Infinity, End: Infinity };
    const by = keys[event.key];
    if (by) this.goTo(this.active + by);
    else if (event.key === "Enter" || event.key === " ") this.open(this.items[this.active]);
    else return;
    event.preventDefault();
  }

  /**
   * A row was clicked. A link in it that is opened elsewhere is the browser's.
   * @param {MouseEvent} event
   */
  clicked(event) {
    const row = /** @type {Row | null} */ (/** @type {Element} */ (event.target).closest("[role=row]"));
    if (row?.index === undefined || event.ctrlKey || event.metaKey || event.shiftKey) return;
    event.preventDefault();
    this.goTo(row.index);
    this.open(this.items[row.index]);
  }

  /**
   * On paper the first rows stand one below another.
   * @param {boolean} isPrinting
   */
  print(isPrinting) {
    this.isPrinting = isPrinting;
    this.grid.dataset.isCut = String(this.items.length > PRINTED);
    this.draw();
  }
}
