// The page: finds the sources from the Source Description beside it, shows a panel for each, keeps the address at what
// is shown, and asks again every so often.

import { Navigation } from "./address.js";
import { aboutAt, showAbout } from "./about.js";
import { describe } from "./described.js";
import { Trouble } from "./documents.js";
import { tell } from "./elements.js";
import { Panel } from "./panel.js";
import { basesOf } from "./source.js";
import { troubleText, troubleWord } from "./state.js";
import { Sums } from "./sums.js";
import { Tabs } from "./tabs.js";

// How often the lists are asked for while the page is looked at, in milliseconds.
const EVERY = 30_000;
const LEADS = "Their lists name each resource that they hold, and each change.";
const place = (/** @type {string} */ id) => /** @type {HTMLElement} */ (document.getElementById(id));
const here = new URL(".", location.href).href.slice(0, -1);
const hostOf = (/** @type {string} */ base) => base.replace(/^https?:\/\//, "");
const about = aboutAt(here);
const head = { what: "source", host: hostOf(here), title: "" };

/**
 * Says something to those who hear the page.
 * @param {string} text
 */
function say(text) {
  place("live").textContent = text;
}

/**
 * Shows more of the page's head: whether it is a source or a collection, its host, its operator's title.
 * @param {Partial<typeof head>} more
 */
function showHead(more) {
  const { what, host, title } = Object.assign(head, more);
  tell(place("kind"), `ResourceSync ${what}${title && ` at ${host}`}`);
  tell(place("title"), title || host);
  document.title = title ? `${title} – ${host}` : `${host} – a ${what} to mirror`;
}

/** The page of one source, or of many in tabs. */
class Page {
  /** @param {string[]} bases */
  constructor(bases) {
    this.isCollection = bases.length > 1;
    /** @type {Panel[]} */
    this.panels = bases.map((base) => this.panel(base));
    this.navigation = new Navigation(() => this.place(), (it) => this.goTo(it));
    this.tabs = new Tabs(place("tabs"), () => this.tabShown());
    /** @type {Sums | null} */
    this.sums = this.isCollection ? this.sumsOf() : null;
    if (this.sums) this.showTabs(this.sums);
    else place("main").append(this.panels[0].root);
    if (this.isCollection) tell(place("lead"), `A collection of ${bases.length} sources. ${LEADS}`);
    showHead(this.isCollection ? { what: "collection" } : { host: hostOf(bases[0]) });
    about.then((it) => this.panels.forEach((panel) => panel.showTools(it.tools_address)));
    this.navigation.follow(true);
  }

  /**
   * The panel of a source.
   * @param {string} base
   */
  panel(base) {
    // Below the page's address a source is known by its path.
    const isBelow = `${base}/`.startsWith(`${here}/`);
    const label = isBelow && base !== here ? base.slice(here.length + 1) : hostOf(base);
    return new Panel(base, {
      here, say, label,
      key: this.isCollection ? label : "",
      // A source that is the only one is asked at its own address, and not at another one that leads to it.
      isElsewhere: !this.isCollection && !isBelow,
      changed: () => this.changed(),
      moved: (isTyping) => this.navigation.note(isTyping),
    });
  }

  /** Shows the sums again, and describes the sources for search engines. */
  async changed() {
    this.sums?.show();
    describe(here, head.title || head.host, await about, this.panels);
  }

  /** The sums over all sources. */
  sumsOf() {
    return new Sums(this.panels, {
      open: (panel, name) => this.open(panel, name),
      say,
      moved: (isTyping) => this.navigation.note(isTyping),
    });
  }

  /**
   * Shows a tab for the sums, and one for each source.
   * @param {Sums} sums
   */
  showTabs(sums) {
    const all = this.tabs.add("All", sums.root);
    place("main").append(all, ...this.panels.map((it) => this.tabs.add(it.label, it.root)));
    place("tabs").hidden = false;
  }

  /**
   * The panel that is shown, or nothing where the sums are.
   * @returns {Panel | undefined}
   */
  get panelShown() {
    return this.isCollection ? this.panels[this.tabs.shown - 1] : this.panels[0];
  }

  /**
   * The place that is shown.
   * @returns {Partial<import("./address.js").Place>}
   */
  place() {
    return this.panelShown?.place() ?? this.sums?.place() ?? {};
  }

  /**
   * Shows a place.
   * @param {import("./address.js").Place} wanted
   */
  goTo(wanted) {
    if (this.isCollection) this.tabs.show(this.panels.findIndex((it) => it.key === wanted.source) + 1);
    (this.panelShown ?? this.sums)?.goTo(wanted);
  }

  /**
   * The reader opens a source, or a resource of it, in its tab.
   * @param {Panel} panel
   * @param {string} [name]
   */
  async open(panel, name) {
    this.tabs.show(this.panels.indexOf(panel) + 1);
    if (name !== undefined) panel.open(name);
  }

  /** A source is read when it is looked at, and each of them when the sums are. */
  tabShown() {
    for (const it of this.panelShown ? [this.panelShown] : this.panels) {
      if (!it.isBegun) it.read();
    }
    this.navigation.note();
  }

  /** Reads what is looked at again. */
  async read() {
    for (const it of this.panelShown ? [this.panelShown] : this.panels) await it.read();
  }
}

/** Finds the sources, however long they do not answer. */
async function find() {
  for (;;) {
    try {
      const bases = await basesOf(here);
      place("notice").hidden = true;
      return bases;
    } catch (fault) {
      const trouble = fault instanceof Trouble ? fault : { kind: "wrong", message: `This page failed: ${fault}` };
      const text = `${troubleWord(trouble)}. ${troubleText(trouble)}`;
      Object.assign(place("notice"), { hidden: false, textContent: text });
      place("notice").dataset.tone = "bad";
      say(text);
      await pause();
    }
  }
}

/** Waits a while, and until the page is looked at. */
async function pause() {
  await new Promise((go) => setTimeout(go, EVERY));
  while (document.hidden) await new Promise((go) => document.addEventListener("visibilitychange", go, { once: true }));
}

// A slash goes to the search that is shown.
document.addEventListener("keydown", (event) => {
  if (event.key !== "/" || event.ctrlKey || event.metaKey || event.target instanceof HTMLInputElement) return;
  const fields = /** @type {HTMLElement[]} */ ([...document.querySelectorAll("[type=search]")]);
  const shown = fields.find((it) => it.getClientRects().length);
  if (shown) event.preventDefault();
  shown?.focus();
});
place("reads").hidden = false;
showHead({});
about.then((it) => {
  showAbout(place("about"), it);
  showHead({ title: it.title ?? "" });
});
const page = new Page(await find());
for (;;) {
  await page.read();
  await pause();
}
