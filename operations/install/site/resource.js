// The facts of one resource, its history in the Change List, and its check.

import { canCheck } from "./checking.js";
import { copied, given, made, part, showName, tell } from "./elements.js";
import { NEVER, age, count, moment, size } from "./formats.js";
import { isLawful, plain, readable } from "./names.js";
import { digestsIn } from "./source.js";

// The newest changes of one name that are shown.
const MOST_CHANGES = 50;
const DELETED = "It was deleted. The source does not hold it now.";
const UNKNOWN = "The lists have nothing of this name.";

/** @typedef {import("./checking.js").Outcome} Outcome */
/** @typedef {import("./source.js").Resource} Resource */
/** @typedef {(which: string) => any} Place  an element of the card, by what it shows */

/**
 * Fills a card with a resource. `held` is what is held of the name now, or nothing where it is deleted.
 * @param {HTMLElement} card
 * @param {{name: string, held?: Resource, history: Resource[], from: string, outcome?: Outcome, check: () => void,
 *   copy: (event: Event) => void, back: () => void, close: () => void}} shown
 */
export function showResource(card, { name, held, history, from, outcome, check, copy, back, close }) {
  card.replaceChildren(copied("resource"));
  const it = (/** @type {string} */ which) => part(card, which);
  showTitle(it, name);
  it("gone").hidden = Boolean(held);
  tell(it("gone"), history.length ? DELETED : UNKNOWN);
  it("held").hidden = !held;
  if (held) showFacts(it, held);
  it("check").disabled = !held || !canCheck;
  for (const [which, act] of Object.entries({ check, back, close, copyname: copy })) {
    it(which).addEventListener("click", act);
  }
  it("open").hidden = !held;
  if (held && /^https?:/.test(held.loc)) {
    Object.assign(it("open"), { href: held.loc, rel: "noreferrer noopener", target: "_blank" });
  }
  showOutcome(card, outcome);
  if (!canCheck) tell(it("outcome"), "A browser checks over HTTPS only.");
  showHistory(it, history, from);
}

/**
 * The name as people read it, and as the lists have it where that is another text.
 * @param {Place} it
 * @param {string} name
 */
function showTitle(it, name) {
  const { text, isMarked } = readable(name);
  showName(it("name"), name, it("title"));
  it("lawful-part").hidden = text === name;
  tell(it("lawful"), plain(name));
  it("encoded").hidden = !isMarked;
  it("unlawful").hidden = isLawful(name);
}

/**
 * @param {Place} it
 * @param {Resource} held
 */
function showFacts(it, held) {
  tell(it("type"), plain(held.type) || "none is listed");
  tell(it("length"), held.length >= 1_000 ? `${count(held.length)} bytes (${size(held.length)})` : size(held.length));
  it("moment").replaceChildren(made("span", "whole", `${held.moment.slice(0, 10)} ${held.moment.slice(11, 23)}`),
    made("span", "more", `, ${age(held.moment)}`));
  const { sha256, md5 } = digestsIn(held.hash);
  tell(it("sha256"), plain(sha256) || "none is listed");
  tell(it("md5"), plain(md5) || "none is listed");
}

/**
 * @param {Place} it
 * @param {Resource[]} history
 * @param {string} from
 */
function showHistory(it, history, from) {
  const rows = history.slice(0, MOST_CHANGES).map((change) => {
    const facts = change.change === "deleted" ? [] : [", ", size(change.length), ", ", given(change.type)];
    return made("li", change.change, made("time", "", moment(change.moment)), " ", made("b", "", change.change), ...facts);
  });
  it("history").replaceChildren(...rows);
  const more = history.length > MOST_CHANGES ? `And ${count(history.length - MOST_CHANGES)} earlier. ` : "";
  const kept = `The list has ${from === NEVER ? "every change so far" : `the changes since ${moment(from)}`}.`;
  tell(it("earlier"), `${history.length ? "" : "It has no change of this name. "}${more}${kept}`);
}

/**
 * Shows the outcome of a check.
 * @param {HTMLElement} card
 * @param {Outcome | undefined} outcome
 */
export function showOutcome(card, outcome) {
  const place = part(card, "outcome");
  if (!place) return;
  const words = { agrees: "Agrees.", differs: "Differs.", unasked: "Not checked." };
  place.dataset.kind = outcome?.kind ?? "";
  tell(place, outcome ? `${words[outcome.kind]} ${outcome.why}` : "");
}
