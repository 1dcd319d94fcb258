// The checks of one source's bodies: what came of each, one by one or many at random, with a bar.

import { canCheck, check, checkAll, someOf } from "./checking.js";
import { made, showName, tell } from "./elements.js";
import { count, counted, size } from "./formats.js";
import { readable } from "./names.js";

const SOME = 100;
// A check of many fetches at most these bytes, and offers the others: each byte is work for the source.
export const MOST_BYTES = 64 * 1_048_576;
// This many of the resources that differ are named.
const NAMED = 20;
// The site serves lists that are up to two seconds old (operations/install/ropepeach.nginx).
const OLDEST = 2_500;

/** @typedef {import("./checking.js").Outcome} Outcome */
/** @typedef {import("./model.js").Holding} Holding */
/** @typedef {import("./source.js").Resource} Resource */
/** @typedef {Record<string, any>} Parts  elements of the page's own markup, by what they show */

/** The checks of a panel. */
export class Checks {
  /**
   * `checked` is called with each resource that was checked; `ended` after the last, and reads the lists again where
   * one differs.
   * @param {Parts} parts
   * @param {(text: string) => void} say
   * @param {(resource: Resource) => void} checked
   * @param {(isDifferent: boolean) => Promise<void>} ended
   */
  constructor(parts, say, checked, ended) {
    this.parts = parts;
    this.say = say;
    this.checked = checked;
    this.ended = ended;
    /** @type {Map<string, {moment: string, outcome: Outcome}>} */
    this.outcomes = new Map();
    /** @type {{held: Resource[], sample: Resource[], rest: Resource[]}} */
    const none = { held: [], sample: [], rest: [] };
    this.held = none.held;
    this.sample = none.sample;
    this.rest = none.rest;
    this.first = 0;
    /** @type {AbortController | null} */
    this.stopping = null;
    parts["check-some"].addEventListener("click", () => this.some());
    parts.stop.addEventListener("click", () => this.stopping?.abort());
    parts["check-rest"].addEventListener("click", () => this.all(this.rest));
    if (!canCheck) {
      parts["check-some"].disabled = true;
      tell(parts.checked, "A browser checks over HTTPS only.");
    }
  }

  /**
   * Draws the resources of the next check, and says how many bytes it will fetch.
   * @param {Resource[]} resources
   */
  draw(resources) {
    this.held = resources;
    this.sample = someOf(resources, SOME);
    this.first = withinBytes(this.sample, MOST_BYTES);
    const isAll = this.first === resources.length;
    const which = isAll ? `Check all ${count(this.first)}` : `Check ${count(this.first)} at random`;
    tell(this.parts["check-some"], `${which} (${size(sum(this.sample.slice(0, this.first)))})`);
  }

  /**
   * The outcome of the check of this very body.
   * @param {Resource} resource
   */
  of(resource) {
    const found = this.outcomes.get(resource.name);
    return found?.moment === resource.moment ? found.outcome : undefined;
  }

  /**
   * Forgets the outcomes of bodies that are no longer held.
   * @param {Holding} holding
   */
  keep(holding) {
    for (const [name, { moment }] of this.outcomes) {
      if (holding.byName.get(name)?.moment !== moment) this.outcomes.delete(name);
    }
    this.showDiffering();
  }

  /** The names whose bodies differ from the list. */
  differing() {
    return [...this.outcomes].filter(([, { outcome }]) => outcome.kind === "differs");
  }

  /**
   * Notes what came of a check.
   * @param {Resource} resource
   * @param {Outcome} outcome
   */
  note(resource, outcome) {
    this.outcomes.set(resource.name, { moment: resource.moment, outcome });
    this.checked(resource);
  }

  /**
   * Whether a body differs is known once the lists were read again: a later change may explain it.
   * @param {boolean} isDifferent
   */
  async settle(isDifferent) {
    if (isDifferent) await new Promise((go) => setTimeout(go, OLDEST));
    await this.ended(isDifferent);
    this.showDiffering();
  }

  /**
   * Checks one resource.
   * @param {Resource} resource
   */
  async one(resource) {
    const outcome = await check(resource);
    this.note(resource, outcome);
    await this.settle(outcome.kind === "differs");
    const { kind, why } = this.of(resource) ?? { kind: "changed meanwhile", why: "Check it again." };
    this.say(`${readable(resource.name).text}: ${kind}. ${why}`);
  }

  /** Checks those that were drawn, but for those beyond the limit of bytes, and draws others for the next time. */
  async some() {
    await this.all(this.sample.slice(0, this.first), this.sample.slice(this.first));
    if (!this.stopping) this.draw(this.held);
  }

  /**
   * Checks these; `rest` are offered afterwards.
   * @param {Resource[]} chosen
   * @param {Resource[]} rest
   */
  async all(chosen, rest = []) {
    const { stop, bar } = this.parts;
    if (this.stopping || !chosen.length) return;
    this.offer([]);
    const found = { agrees: 0, differs: 0, unasked: 0, changed: 0, bytes: 0 };
    const begun = performance.now();
    this.stopping = new AbortController();
    this.parts["check-some"].setAttribute("aria-disabled", "true");
    stop.hidden = bar.hidden = false;
    Object.assign(bar, { max: chosen.length, value: 0 });
    await checkAll(chosen, (it, outcome) => {
      found[outcome.kind] += 1;
      found.bytes += it.length;
      bar.value += 1;
      tell(this.parts.checked, `${summary(found)} …`);
      this.note(it, outcome);
    }, this.stopping.signal);
    const seconds = (performance.now() - begun) / 1_000;
    this.stopping = null;
    await this.settle(found.differs > 0);
    this.parts["check-some"].removeAttribute("aria-disabled");
    stop.hidden = bar.hidden = true;
    const differing = new Set(this.differing().map(([name]) => name));
    const left = chosen.filter((it) => differing.has(it.name)).length;
    const all = summary({ ...found, differs: left, changed: found.differs - left });
    tell(this.parts.checked, `${all}; ${size(found.bytes)} in ${seconds.toFixed(1)} s.`);
    this.offer(rest);
    this.say(this.parts.checked.textContent);
  }

  /**
   * Offers to check what was left out.
   * @param {Resource[]} rest
   */
  offer(rest) {
    const button = this.parts["check-rest"];
    this.rest = rest;
    button.hidden = !rest.length;
    button.textContent = `Check the other ${count(rest.length)} (${size(sum(rest))})`;
  }

  /** Names what differs. */
  showDiffering() {
    const all = this.differing();
    const rows = all.slice(0, NAMED).map(([name, { outcome }]) => {
      const shown = made("bdi", "name");
      showName(shown, name);
      return made("li", "", shown, ` ${outcome.why}`);
    });
    if (all.length > NAMED) rows.push(made("li", "", `And ${count(all.length - NAMED)} more.`));
    this.parts.differing.hidden = !rows.length;
    this.parts.differing.replaceChildren(...rows);
  }
}

/**
 * The bytes of these together.
 * @param {Resource[]} resources
 */
function sum(resources) {
  return resources.reduce((bytes, it) => bytes + it.length, 0);
}

/**
 * How many of these, from the first on, have at most so many bytes together.
 * @param {Resource[]} resources
 * @param {number} most
 */
function withinBytes(resources, most) {
  let bytes = 0;
  for (const [at, it] of resources.entries()) {
    bytes += it.length;
    if (bytes > most) return at;
  }
  return resources.length;
}

/**
 * The outcomes of many checks in words.
 * @param {{agrees: number, differs: number, unasked: number, changed: number}} counts
 */
function summary({ agrees, differs, unasked, changed }) {
  /** @type {[number, string][]} */
  const all = [[unasked, "not checked"], [changed, "changed meanwhile"]];
  const more = all.filter(([number]) => number);
  const rest = more.map(([number, what]) => `${count(number)} ${what}`);
  const bad = differs ? [counted(differs, "differs", "differ")] : [];
  return [counted(agrees, "agrees", "agree"), ...bad, ...rest].join(", ");
}
