// A time line of changes, which can be zoomed by buttons, keys, a drag and Ctrl with the wheel. At first it has the last
// 30 days. What is drawn is also in a table.

import { Counted, DAY, KINDS, binsOf, marks, spanText } from "./bins.js";
import { made, part, tell } from "./elements.js";
import { NEVER, age, count, counted as told } from "./formats.js";

const SVG = "http://www.w3.org/2000/svg";
// The drawing in its own units; a span is never shorter than this.
const HIGH = 150;
const AXIS = 22;
const BAR = 9;
const SHORTEST = 20;
// What is shown at first, in milliseconds.
const RECENT = 30 * DAY;
// Rows of the table with the drawing.
const ROWS = 24;
// A range of an address.
const RANGE = /^(\d{4}-\d\d-\d\dT[\d:.]+Z)\.\.(\d{4}-\d\d-\d\dT[\d:.]+Z)$/;

// What the keys do.
/** @type {Record<string, string>} */
const KEYS = { "+": "in", "=": "in", "-": "out", ArrowLeft: "earlier", ArrowRight: "later", Home: "whole", 0: "whole" };

/** @typedef {import("./bins.js").Span} Span */
/** @typedef {import("./bins.js").Bin} Bin */

const isSame = (/** @type {Span} */ one, /** @type {Span} */ other) => one[0] === other[0] && one[1] === other[1];

/**
 * An element of a drawing.
 * @param {string} name
 * @param {Record<string, string | number>} attributes
 * @param {string[]} inside
 */
function drawn(name, attributes, ...inside) {
  const it = document.createElementNS(SVG, name);
  for (const [key, value] of Object.entries(attributes)) it.setAttribute(key, String(value));
  it.append(...inside);
  return it;
}

/** The time line of a panel. */
export class Timeline {
  /**
   * `chosen` gets the span in view as it changes; `moved` hears that the reader changed it.
   * @param {HTMLElement} root
   * @param {{chosen: (first: number, last: number, isSamePlace: boolean) => void, moved: () => void}} acts
   */
  constructor(root, { chosen, moved }) {
    this.root = root;
    this.chosen = chosen;
    this.moved = moved;
    this.counted = new Counted([]);
    /** @type {number | null} the moment of the latest publication */
    this.at = null;
    this.wide = 0;
    /** @type {Bin[]} */
    this.bins = [];
    /** @type {Span} the span in view, once changes came */
    this.span = /** @type {any} */ (null);
    /** @type {Span} */
    this.whole = [0, 0];
    /** @type {Span} */
    this.recent = [0, 0];
    /** @type {number | undefined} where a drag began, from 0 to 1 */
    this.start = undefined;
    /** @type {Element | null} */
    this.brush = null;
    this.field = part(root, "field");
    for (const button of this.buttons()) {
      button.addEventListener("click", () => this.act(button.dataset.zoom));
    }
    this.field.addEventListener("keydown", (/** @type {KeyboardEvent} */ it) => this.pressed(it));
    this.field.addEventListener("wheel", (/** @type {WheelEvent} */ it) => this.wheeled(it), { passive: false });
    this.field.addEventListener("pointerdown", (/** @type {PointerEvent} */ it) => this.begin(it));
    this.field.addEventListener("pointermove", (/** @type {PointerEvent} */ it) => this.point(it));
    this.field.addEventListener("pointerup", (/** @type {PointerEvent} */ it) => this.end(it));
    this.field.addEventListener("pointercancel", () => this.mark(null));
    part(root, "table").addEventListener("toggle", () => this.list());
    new ResizeObserver(() => this.resized()).observe(this.field);
  }

  /**
   * Takes changes, in their order, and the moment of the latest publication.
   * @param {import("./source.js").Resource[]} changes
   * @param {string} at
   */
  show(changes, at) {
    this.counted = new Counted(changes);
    this.at = at === NEVER ? null : Date.parse(at);
    this.passed();
  }

  /** Time has passed: what ends now goes on. */
  passed(now = Date.now()) {
    const range = this.span ? this.range() : "";
    const end = this.counted.end(now);
    this.whole = this.counted.span(end, RECENT);
    this.recent = [end - RECENT, end];
    this.span = this.spanOf(range);
    this.changed(true);
  }

  /** @returns {NodeListOf<HTMLElement>} */
  buttons() {
    return this.root.querySelectorAll("[data-zoom]");
  }

  /** Whether all changes are in view. */
  isWhole() {
    return isSame(this.span, this.whole);
  }

  /** The span in view as an address has it: nothing for the last 30 days, `all`, or two moments. */
  range() {
    if (isSame(this.span, this.recent)) return "";
    return this.isWhole() ? "all" : this.span.map((it) => new Date(it).toISOString()).join("..");
  }

  /**
   * The span of an address.
   * @param {string} range
   * @returns {Span}
   */
  spanOf(range) {
    if (range === "all") return this.whole;
    const [from, until] = (RANGE.exec(range) ?? []).slice(1).map((it) => Date.parse(it));
    return from < until ? this.within(from, until) : this.recent;
  }

  /**
   * Shows the span of an address.
   * @param {string} range
   */
  goTo(range) {
    this.span = this.spanOf(range);
    this.changed();
  }

  /** Draws again where the width is another one. */
  resized() {
    if (!this.span || this.field.clientWidth === this.wide) return;
    this.draw();
  }

  /** Shows the span in view, and says that it is another one. */
  changed(isSamePlace = false) {
    this.draw();
    this.list();
    const [first, last] = this.span.map((it) => this.counted.before(it));
    this.chosen(first, last, isSamePlace);
  }

  /**
   * A span within the whole one.
   * @param {number} from
   * @param {number} until
   * @returns {Span}
   */
  within(from, until) {
    const length = Math.min(Math.max(until - from, SHORTEST), this.whole[1] - this.whole[0]);
    const start = Math.min(Math.max((from + until - length) / 2, this.whole[0]), this.whole[1] - length);
    return [Math.round(start), Math.round(start + length)];
  }

  /**
   * The reader goes to another span.
   * @param {number} from
   * @param {number} until
   */
  go(from, until) {
    this.span = this.within(from, until);
    this.changed();
    this.moved();
  }

  /**
   * Makes the span longer or shorter around a place of it, from 0 to 1.
   * @param {number} by
   */
  zoom(by, place = 0.5) {
    const [from, until] = this.span;
    const centre = from + place * (until - from);
    this.go(centre - (centre - from) * by, centre + (until - centre) * by);
  }

  /**
   * Moves the span by a part of its length.
   * @param {number} by
   */
  move(by) {
    const [from, until] = this.span;
    const way = Math.min(Math.max(by * (until - from), this.whole[0] - from), this.whole[1] - until);
    this.go(from + way, until + way);
  }

  /**
   * What a button or a key does.
   * @param {string | undefined} what
   */
  act(what) {
    if (!this.counted.times.length) return;
    if (what === "whole") this.go(...this.whole);
    else if (what === "recent") this.go(...this.recent);
    else if (what === "in" || what === "out") this.zoom(what === "in" ? 0.5 : 2);
    else this.move(what === "earlier" ? -0.4 : 0.4);
  }

  /** @param {KeyboardEvent} event */
  pressed(event) {
    const what = KEYS[event.key];
    if (!what || event.ctrlKey || event.metaKey || event.altKey) return;
    event.preventDefault();
    this.act(what);
  }

  /** @param {WheelEvent} event */
  wheeled(event) {
    if (!event.ctrlKey || !this.counted.times.length) return;
    event.preventDefault();
    this.zoom(event.deltaY > 0 ? 1.25 : 0.8, this.placeOf(event));
  }

  /**
   * Where a pointer is on the field, from 0 to 1.
   * @param {MouseEvent} event
   */
  placeOf(event) {
    const box = this.field.getBoundingClientRect();
    return Math.min(Math.max((event.clientX - box.left) / box.width, 0), 1);
  }

  /** @param {PointerEvent} event */
  begin(event) {
    if (event.button !== 0 || !this.counted.times.length) return;
    this.start = this.placeOf(event);
    this.field.setPointerCapture(event.pointerId);
  }

  /** @param {PointerEvent} event */
  point(event) {
    if (!this.span) return;
    const place = this.placeOf(event);
    if (this.start !== undefined) this.mark([Math.min(this.start, place), Math.max(this.start, place)]);
    const time = this.span[0] + place * (this.span[1] - this.span[0]);
    const bin = this.bins.find((it) => it.from <= time && time < it.until);
    tell(part(this.root, "readout"), bin ? `${spanText(bin.from, bin.until)} UTC: ${words(bin.counts)}` : "");
  }

  /** @param {PointerEvent} event */
  end(event) {
    const [start, place] = [this.start, this.placeOf(event)];
    this.mark(null);
    if (start === undefined || Math.abs(place - start) < 0.01) return;
    const [from, until] = this.span;
    this.go(from + Math.min(start, place) * (until - from), from + Math.max(start, place) * (until - from));
  }

  /**
   * Marks what a drag has chosen so far.
   * @param {Span | null} range
   */
  mark(range) {
    if (!range) this.start = undefined;
    this.brush?.setAttribute("x", String(range ? range[0] * this.wide : 0));
    this.brush?.setAttribute("width", String(range ? (range[1] - range[0]) * this.wide : 0));
  }

  /** Draws the span in view. */
  draw() {
    this.wide = this.field.clientWidth;
    const most = Math.max(8, Math.floor(this.wide / BAR));
    this.bins = binsOf(this.counted, this.span, most);
    const ups = Math.max(1, ...this.bins.map((it) => it.counts[0] + it.counts[1]));
    const downs = Math.max(0, ...this.bins.map((it) => it.counts[2]));
    const scale = (HIGH - 8) / (ups + downs);
    const base = 4 + ups * scale;
    const [width, height] = [this.wide, HIGH + AXIS];
    const svg = drawn("svg", { viewBox: `0 0 ${width} ${height}`, width, height, "aria-hidden": "true" });
    svg.append(...this.axis(), ...this.bins.flatMap((it) => this.bars(it, base, scale)), ...this.published());
    svg.append(drawn("line", { class: "zero", x1: 0, x2: this.wide, y1: base, y2: base }));
    this.brush = drawn("rect", { class: "brush", x: 0, y: 0, width: 0, height: HIGH });
    svg.append(this.brush);
    this.field.replaceChildren(svg);
    this.describe();
  }

  /**
   * Where a time is drawn.
   * @param {number} time
   */
  x(time) {
    return ((time - this.span[0]) / (this.span[1] - this.span[0])) * this.wide;
  }

  /**
   * What one bin has: created and updated above the line, deleted below it.
   * @param {Bin} bin
   * @param {number} base
   * @param {number} scale
   */
  bars(bin, base, scale) {
    const left = this.x(bin.from) + 0.5;
    const wide = Math.max(1, this.x(bin.until) - left - 0.5);
    let top = base;
    return bin.counts.flatMap((number, kind) => {
      if (!number) return [];
      const high = Math.max(1.5, number * scale);
      if (KINDS[kind] === "deleted") {
        return [drawn("rect", { class: "deleted", x: left, y: base, width: wide, height: high })];
      }
      top -= high;
      return [drawn("rect", { class: KINDS[kind], x: left, y: top, width: wide, height: high })];
    });
  }

  /** The marks of the axis. */
  axis() {
    if (!this.counted.times.length) return [];
    return marks(this.span, Math.max(2, Math.floor(this.wide / 90))).flatMap(({ at, text }) => {
      const x = this.x(at);
      if (x < 24 || x > this.wide - 24) return [];
      const tick = drawn("line", { class: "tick", x1: x, x2: x, y1: 0, y2: HIGH });
      return [tick, drawn("text", { x, y: HIGH + 15 }, text)];
    });
  }

  /** The mark of the latest publication. */
  published() {
    const x = this.at === null ? -1 : this.x(this.at);
    return x < 0 || x > this.wide ? [] : [drawn("line", { class: "published", x1: x, x2: x, y1: 0, y2: HIGH })];
  }

  /** The drawing in words. */
  describe() {
    const counts = this.counted.between(...this.span);
    const all = counts.reduce((sum, it) => sum + it, 0);
    const last = this.counted.times.at(-1);
    const figures = `${told(all, "change")}, ${words(counts)}`;
    const latest = all || last === undefined ? "" : `. The latest came ${age(new Date(last).toISOString())}`;
    const text = last === undefined ? "No changes are kept" : `${figures}${latest}`;
    tell(part(this.root, "range"), this.rangeText());
    tell(part(this.root, "summary"), `${text}.`);
    this.field.setAttribute("aria-label", `Time line, ${this.rangeText()}: ${text}.`);
    this.showButtons();
  }

  /** The span in view in words. */
  rangeText() {
    const days = (this.span[1] - this.span[0]) / DAY;
    if (isSame(this.span, this.recent)) return "The last 30 days";
    const length = days >= 2 ? `, ${told(Math.round(days), "day")}` : "";
    return `${this.isWhole() ? "All changes that are kept: " : ""}${spanText(...this.span)} UTC${length}`;
  }

  /** Buttons that would do nothing are off; the one whose span is in view is pressed. */
  showButtons() {
    const [from, until] = this.span;
    /** @type {Record<string, boolean>} */
    const isOff = {
      earlier: from <= this.whole[0], later: until >= this.whole[1], out: this.isWhole(), in: until - from <= SHORTEST,
    };
    const isRecent = isSame(this.span, this.recent);
    /** @type {Record<string, boolean>} */
    const isPressed = { recent: isRecent, whole: this.isWhole() && !isRecent };
    for (const button of this.buttons()) {
      const { zoom = "" } = button.dataset;
      if (zoom in isOff) button.setAttribute("aria-disabled", String(isOff[zoom]));
      else button.setAttribute("aria-pressed", String(isPressed[zoom]));
    }
  }

  /** The table of the same figures, in fewer and longer bins. */
  list() {
    const table = part(this.root, "table");
    if (!table.open || !this.span) return;
    const bins = binsOf(this.counted, this.span, ROWS).filter((it) => it.counts.some(Boolean));
    const rows = bins.map((it) => {
      const cells = it.counts.map((number) => made("td", "", count(number)));
      const head = made("th", "", spanText(it.from, it.until));
      head.scope = "row";
      return made("tr", "", head, ...cells);
    });
    table.querySelector("tbody").replaceChildren(...rows);
  }
}

/**
 * Counts of each kind in words.
 * @param {number[]} counts
 */
function words(counts) {
  return counts.map((it, kind) => `${count(it)} ${KINDS[kind]}`).join(", ");
}
