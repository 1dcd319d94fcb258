// The panel of one source: its state, its figures, its lists, its time line, how to mirror it and its checks.

import { fragmentOf } from "./address.js";
import { Checks } from "./checks.js";
import { Trouble } from "./documents.js";
import { copied, made, tell } from "./elements.js";
import { NEVER, age, count, counted, moment, size } from "./formats.js";
import { Listed, changeRows } from "./listed.js";
import { Holding } from "./model.js";
import { showOutcome, showResource } from "./resource.js";
import { DESCRIPTION, Source } from "./source.js";
import { showElsewhere, showState, stateOf } from "./state.js";
import { Timeline } from "./timeline.js";

const ELSEWHERE = "This source calls itself by another address, at which it can be looked at:";

/** @typedef {import("./address.js").Place} Place */
/** @typedef {import("./source.js").Resource} Resource */

/** The panel of one source. */
export class Panel {
  /**
   * `here` is the page's address, `key` the source's name in addresses and `label` that on its tab; `say` says
   * something to those who hear the page; `changed` is called when something may be another one, `moved` when the
   * reader has gone elsewhere.
   * @param {string} base
   * @param {{here: string, key: string, label: string, isElsewhere: boolean, say: (text: string) => void,
   *   changed: () => void, moved: (isTyping?: boolean) => void}} acts
   */
  constructor(base, { here, key, label, isElsewhere, say, changed, moved }) {
    this.base = base;
    this.here = here;
    this.key = key;
    this.label = label;
    this.isElsewhere = isElsewhere;
    this.say = say;
    this.changed = changed;
    this.moved = moved;
    this.source = new Source(base);
    /** @type {Holding | null} */
    this.holding = null;
    /** @type {Trouble | null} */
    this.trouble = null;
    this.readAt = 0;
    /** @type {string | null} the name of the chosen resource */
    this.chosen = null;
    /** @type {Place | null} what the reader wants to see once the lists came */
    this.wanted = null;
    /** @type {import("./rows.js").Rows<Resource> | null} where the reader chose it */
    this.cameFrom = null;
    this.isBegun = false;
    this.isReading = false;
    /** @type {HTMLElement} */
    this.root = copied("source").firstElementChild;
    /** @type {Record<string, any>} */
    this.parts = {};
    for (const it of this.elements("[data-part]")) this.parts[it.dataset.part ?? ""] = it;
    for (const it of this.elements("[data-name]")) it.setAttribute("aria-label", it.dataset.name ?? "");
    const address = (/** @type {string} */ name) => fragmentOf({ source: this.key, resource: name });
    this.checks = new Checks(this.parts, this.say, (it) => this.checked(it), (isDifferent) => this.settle(isDifferent));
    this.listed = new Listed(this.root, {
      open: (it) => this.open(it.name),
      outcome: (it) => this.checks.of(it),
      isChosen: (name) => name === this.chosen,
      say: this.say,
      moved: (isTyping) => this.searched(isTyping),
      address,
    });
    this.changes = changeRows(this.parts["changes-grid"], { open: (it) => this.open(it.name, this.changes), address });
    this.timeline = new Timeline(this.parts.timeline, {
      chosen: (...range) => this.inView(...range),
      moved: () => this.moved(),
    });
    this.hear();
    this.parts.again.addEventListener("click", () => this.read());
    this.showMirror();
    this.hideCard();
    this.state = stateOf(null, null, [], true);
    showState(this.root, this.parts, this.state, 0, false);
  }

  /**
   * The elements of a selector.
   * @param {string} selector
   * @returns {NodeListOf<HTMLElement>}
   */
  elements(selector) {
    return this.root.querySelectorAll(selector);
  }

  /** Hears the keys in the card, and where the focus goes. */
  hear() {
    const { card } = this.parts;
    card.addEventListener("keydown", (/** @type {KeyboardEvent} */ event) => {
      if (event.key === "Escape") this.back();
    });
    document.addEventListener("focusin", () => this.uncover());
  }

  /** A sheet over the list would hide what has the focus, so it goes when the focus is elsewhere. */
  uncover() {
    const { chosen: name, parts: { card } } = this;
    if (name === null || getComputedStyle(card).position !== "fixed") return;
    setTimeout(() => {
      if (this.chosen === name && !card.contains(document.activeElement)) this.close();
    });
  }

  /** Shows how the source is mirrored, and how it is filled. */
  showMirror() {
    const { command, copy, copyfilling, description, capabilities, filling } = this.parts;
    command.textContent = `ropepeach mirror ${this.base} mirror`;
    filling.textContent = `ropepeach fill FOLDER ${this.base}`;
    for (const [button, code] of [[copy, command], [copyfilling, filling]]) {
      button.addEventListener("click", () => this.copy(code.textContent, button, "The command is copied."));
    }
    description.href = `${this.here}${DESCRIPTION}`;
    capabilities.href = `${this.base}/capabilitylist.xml`;
  }

  /** Shows where the command comes from, if the site's keeper says it. */
  showTools(address = "") {
    if (/^https?:\/\//.test(address)) this.parts.tools.href = address;
  }

  /**
   * Copies a text, or says that the browser does not let a page copy.
   * @param {string} text
   * @param {HTMLElement} button
   * @param {string} message
   */
  async copy(text, button, message) {
    const label = button.dataset.label ?? button.textContent ?? "";
    button.dataset.label = label;
    try {
      await navigator.clipboard.writeText(text);
      tell(button, "Copied");
      this.say(message);
    } catch {
      tell(button, "Not copied");
      this.say("This browser does not let the page copy.");
    }
    setTimeout(() => tell(button, label), 2_000);
  }

  /** Reads the lists, and shows what is new; never twice at once. */
  async read() {
    if (this.isReading) return;
    [this.isReading, this.isBegun] = [true, true];
    this.parts.again.setAttribute("aria-disabled", "true");
    if (this.state.kind === "unread") this.showTrouble();
    try {
      await this.readOnce();
    } finally {
      this.isReading = false;
      this.parts.again.removeAttribute("aria-disabled");
    }
  }

  /** Reads the lists once, and shows what came. */
  async readOnce() {
    /** @type {Trouble | null} */
    let trouble = null;
    try {
      if (this.isElsewhere) throw new Trouble("elsewhere", ELSEWHERE);
      const holding = new Holding(await this.source.read((...parts) => this.progress(...parts)));
      performance.mark("read");
      this.readAt = Date.now();
      if (!this.holding?.isAs(holding)) this.show(holding);
      else this.timeline.passed();
    } catch (fault) {
      trouble = fault instanceof Trouble ? fault : new Trouble("wrong", `This page failed: ${fault}`);
      if (!this.holding) this.forget();
    }
    this.trouble = trouble;
    this.showTrouble();
  }

  /**
   * Shows how many parts came; after 1, 2, 4, 8 .. also the resources listed in them.
   * @type {import("./source.js").Progress}
   */
  progress(done, all, listed) {
    if (this.holding) return;
    tell(this.parts["state-more"], `: part ${count(done)} of ${count(all)}`);
    Object.assign(this.parts.reading, { max: all, value: done });
    if (done & (done - 1)) return;
    const resources = listed();
    if (!resources.length) return;
    performance.mark("rows");
    this.root.dataset.holds = "resources";
    tell(this.parts.resources, count(resources.length));
    tell(this.parts.since, "so far");
    this.listed.show(resources);
    this.changed();
  }

  /** Takes back the rows of a first reading that failed. */
  forget() {
    delete this.root.dataset.holds;
    tell(this.parts.resources, "–");
    tell(this.parts.since, "");
    this.listed.show([]);
  }

  /** Shows the state, and says it where it is another one. */
  showTrouble() {
    const state = stateOf(this.trouble, this.holding, this.checks.differing(), !this.isBegun);
    const isNews = state.kind !== this.state.kind && state.kind !== "reading";
    if (isNews) this.say(`${this.base}: ${state.word}. ${state.why}`);
    this.state = state;
    showState(this.root, this.parts, state, this.readAt, Boolean(this.trouble && this.holding));
    if (state.kind === "elsewhere") showElsewhere(this.parts, this.base);
    if (this.holding) this.showAges();
    this.changed();
  }

  /**
   * Shows another reading, and the place that the reader wanted before it came.
   * @param {Holding} holding
   */
  show(holding) {
    this.holding = holding;
    this.root.dataset.holds = holding.resources.length ? "resources" : holding.changes.length ? "changes" : "nothing";
    this.checks.keep(holding);
    this.checks.draw(holding.resources);
    this.showFigures(holding);
    this.listed.show(holding.resources);
    this.timeline.show(holding.changes, holding.at);
    const { wanted } = this;
    this.wanted = null;
    if (wanted) this.goTo(wanted);
    else if (this.chosen !== null) this.showCard(this.chosen);
    if (wanted?.resource) this.parts.card.scrollIntoView({ block: "nearest" });
    performance.mark("rows");
    performance.mark("shown");
  }

  /** @param {Holding} holding */
  showFigures(holding) {
    const { parts } = this;
    tell(parts.resources, count(holding.resources.length));
    const since = `${count(holding.listed.length)} listed, ${counted(holding.since, "change")} since`;
    tell(parts.since, holding.since ? since : holding.listed.length ? "all are listed" : "");
    tell(parts.size, size(holding.bytes));
    tell(parts.bytes, holding.bytes >= 1_000 ? `${count(holding.bytes)} bytes` : "");
    tell(parts.changes, count(holding.changes.length));
    tell(parts.from, holding.from === NEVER ? "all so far" : `since ${moment(holding.from)}`);
    showMoment(parts.changed, holding.changed);
    showMoment(parts.published, holding.at);
    parts.listed.href = holding.addresses.listed;
    parts.changelist.href = holding.addresses.changed;
  }

  /** How long ago things were, again with each reading. */
  showAges() {
    if (!this.holding) return;
    const { at, changed, publication } = this.holding;
    tell(this.parts["changed-age"], changed === NEVER ? "" : age(changed));
    const number = publication && `number ${publication}`;
    tell(this.parts["published-age"], [number, at === NEVER ? "" : age(at)].filter(Boolean).join(", "));
  }

  /**
   * Shows the changes that the time line has in view.
   * @param {number} first
   * @param {number} last
   * @param {boolean} isSamePlace
   */
  inView(first, last, isSamePlace) {
    this.parts["changes-grid"].hidden = first === last;
    this.changes.show((this.holding?.changes ?? []).slice(first, last).reverse(), isSamePlace);
  }

  /** The place that is shown. */
  place() {
    if (this.wanted) return { ...this.wanted, source: this.key };
    const { listed, timeline } = this;
    const range = this.holding ? timeline.range() : "";
    return { source: this.key, resource: this.chosen ?? "", ...listed.place(), range };
  }

  /**
   * Shows a place, now or once the lists came.
   * @param {Place} place
   */
  goTo(place) {
    const { listed, timeline } = this;
    const isOther = Object.entries(listed.place()).some(([key, it]) => place[/** @type {keyof Place} */ (key)] !== it);
    if (isOther) listed.goTo(place);
    if (!this.holding) {
      this.wanted = place;
      return;
    }
    if (place.range !== timeline.range()) timeline.goTo(place.range);
    if (place.resource) this.choose(place.resource);
    else this.close();
  }

  /**
   * A resource is chosen by the reader; `rows` is where the reader came from.
   * @param {string} name
   */
  open(name, rows = this.listed.rows) {
    if (this.wanted) {
      // (its facts are known once all parts came)
      this.wanted = { ...this.wanted, resource: name };
      return;
    }
    this.cameFrom = rows;
    this.choose(name);
    this.moved();
    this.parts.card.querySelector("h3").focus();
    this.parts.card.scrollIntoView({ block: "nearest" });
  }

  /**
   * Shows the card of a resource, and marks its row.
   * @param {string} name
   */
  choose(name) {
    this.chosen = name;
    this.showCard(name);
    const held = this.holding?.byName.get(name);
    if (held) this.listed.rows.reveal(held);
    else this.listed.rows.redraw();
  }

  /** Closes the card. */
  close() {
    if (this.chosen === null) return;
    this.chosen = null;
    this.hideCard();
    this.listed.rows.redraw();
    this.moved();
  }

  /** The reader has searched or sorted: the card of a resource that is hidden now is closed. */
  searched(isTyping = false) {
    const { chosen: name, listed, wanted } = this;
    if (wanted) this.wanted = { ...wanted, ...listed.place() };
    const isHidden = name !== null && listed.hides(this.holding?.byName.get(name) ?? { name, type: "", hash: "" });
    if (isHidden) this.close();
    this.moved(isTyping);
  }

  /**
   * Shows the facts of a resource in the card.
   * @param {string} name
   */
  showCard(name) {
    if (!this.holding) return;
    const held = this.holding.byName.get(name);
    const { card } = this.parts;
    const active = /** @type {HTMLElement | null} */ (document.activeElement);
    const focused = card.contains(active) ? active?.dataset.part : undefined;
    card.dataset.isOpen = true;
    showResource(card, {
      name, held, history: this.holding.history(name), from: this.holding.from,
      outcome: held && this.checks.of(held),
      check: () => held && this.checks.one(held),
      copy: (event) => this.copy(name, /** @type {HTMLElement} */ (event.currentTarget), "The name is copied."),
      back: () => this.back(),
      close: () => this.back(),
    });
    if (focused) this.elements(`.card [data-part="${focused}"]`)[0]?.focus();
  }

  /** Goes back to the row from which a resource was chosen, and closes its card. */
  back() {
    const rows = this.cameFrom ?? this.listed.rows;
    this.close();
    rows.goTo(rows.active);
  }

  /** Gives the card's room back where no resource is chosen. */
  hideCard() {
    this.parts.card.dataset.isOpen = false;
    this.parts.card.replaceChildren();
  }

  /**
   * A resource was checked.
   * @param {Resource} resource
   */
  checked(resource) {
    if (this.chosen === resource.name) showOutcome(this.parts.card, this.checks.of(resource));
    this.listed.mark(resource);
  }

  /**
   * Checks have ended: where a body differs, the lists may be older than it.
   * @param {boolean} isDifferent
   */
  async settle(isDifferent) {
    if (isDifferent) await this.read();
    this.showTrouble();
  }
}

/**
 * Shows a moment as its day, and its time of day below.
 * @param {HTMLElement} element
 * @param {string} text
 */
export function showMoment(element, text) {
  if (text === NEVER) tell(element, moment(text));
  else element.replaceChildren(made("span", "day", text.slice(0, 10)), " ", made("span", "time", text.slice(11, 19)));
}
