// Tabs, of which one is shown: the arrows, Home and End move along them.

import { given, made } from "./elements.js";

/** A row of tabs. */
export class Tabs {
  /**
   * `shown` hears which tab is shown by the reader.
   * @param {HTMLElement} bar
   * @param {(number: number) => void} shown
   */
  constructor(bar, shown) {
    this.bar = bar;
    this.hear = shown;
    this.shown = 0;
    /** @type {{tab: HTMLElement, panel: HTMLElement}[]} */
    this.tabs = [];
    bar.addEventListener("keydown", (event) => this.move(event));
  }

  /**
   * A tab with a label, and what it shows.
   * @param {string} label
   * @param {HTMLElement} content
   */
  add(label, content) {
    const number = this.tabs.length;
    const tab = made("button", "tab", given(label));
    Object.assign(tab, { type: "button", id: `tab-${number}` });
    tab.setAttribute("role", "tab");
    tab.setAttribute("aria-controls", `panel-${number}`);
    const panel = made("div", "", content);
    panel.id = `panel-${number}`;
    panel.setAttribute("role", "tabpanel");
    panel.setAttribute("aria-labelledby", tab.id);
    tab.addEventListener("click", () => this.show(number));
    this.bar.append(tab);
    this.tabs.push({ tab, panel });
    return panel;
  }

  /**
   * Shows a tab.
   * @param {number} number
   */
  show(number) {
    this.shown = number;
    this.tabs.forEach(({ tab, panel }, at) => {
      tab.setAttribute("aria-selected", String(at === number));
      tab.tabIndex = at === number ? 0 : -1;
      panel.hidden = at !== number;
    });
    this.hear(number);
  }

  /**
   * What a key does on the tabs.
   * @param {KeyboardEvent} event
   */
  move(event) {
    const last = this.tabs.length - 1;
    const after = this.shown < last ? this.shown + 1 : 0;
    const before = this.shown ? this.shown - 1 : last;
    /** @type {Record<string, number | undefined>} */
    const keys = { ArrowRight: after, ArrowLeft: before, Home: 0, End: last };
    const to = keys[event.key];
    if (to === undefined) return;
    event.preventDefault();
    this.show(to);
    this.tabs[to].tab.focus();
  }
}
