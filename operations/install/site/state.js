// The state of a source in words, each told apart from the others, and what a reader should know of it.

import { linked } from "./elements.js";
import { age, clock, count, counted } from "./formats.js";
import { readable } from "./names.js";

// For each state its word, and whether it is good (nothing needs to be said), a thing to wait for, or bad.
/** @type {Record<string, [string, string]>} */
const STATES = {
  reading: ["Reading", "wait"],
  unread: ["Not read yet", "wait"],
  open: ["Open", "good"],
  full: ["Full", "wait"],
  nearly: ["Nearly full", "wait"],
  empty: ["Empty", "wait"],
  closed: ["Closed", "bad"],
  unreachable: ["Unreachable", "bad"],
  gone: ["Gone", "bad"],
  elsewhere: ["Elsewhere", "wait"],
  wrong: ["Unreadable", "bad"],
  disagrees: ["Disagrees", "bad"],
  refused: ["Not mirrorable", "bad"],
};
const CLOSED = "A call on its disk failed, and it answers nothing until its keeper starts it again.";
const AGAIN = "This page asks again every half minute.";
// This many of the names that no mirror takes are shown.
const NAMED = 3;
// A source takes no more resources and changes than this, and is nearly full above this share.
const MOST = 50_000;
const NEARLY = 0.9;

/** @typedef {{kind: string, message: string}} Told  a trouble */
/** @typedef {import("./model.js").Holding} Holding */
/** @typedef {{kind: string, word: string, tone: string, why: string}} State */

/**
 * The state: of the last reading's trouble, of the lists that were read, and of the bodies that differ from them.
 * @param {Told | null} trouble
 * @param {Holding | null} holding
 * @param {unknown[]} differing
 * @returns {State}
 */
export function stateOf(trouble, holding, differing, isUnread = false) {
  const kind = kindOf(trouble, holding, differing, isUnread);
  const [word, tone] = STATES[kind];
  const why = trouble ? troubleWhy(kind, trouble, holding) : holdingWhy(kind, holding, differing);
  return { kind, word, tone, why };
}

/**
 * @param {Told | null} trouble
 * @param {Holding | null} holding
 * @param {unknown[]} differing
 * @param {boolean} isUnread
 */
function kindOf(trouble, holding, differing, isUnread) {
  if (trouble) return trouble.kind in STATES ? trouble.kind : "wrong";
  if (!holding) return isUnread ? "unread" : "reading";
  if (holding.contradictions || differing.length) return "disagrees";
  if (holding.unlawful.length) return "refused";
  const most = Math.max(holding.resources.length, holding.changes.length);
  if (most > NEARLY * MOST) return most < MOST ? "nearly" : "full";
  return holding.resources.length ? "open" : "empty";
}

/**
 * What a reader should know where a source, or its Source Description, cannot be read.
 * @param {Told} trouble
 */
export function troubleText(trouble) {
  if (trouble.kind === "closed") return CLOSED;
  if (trouble.kind === "unreachable" || trouble.kind === "gone") return `${trouble.message} ${AGAIN}`;
  return trouble.message;
}

/** The word of a trouble. */
export const troubleWord = (/** @type {Told} */ trouble) => (STATES[trouble.kind] ?? STATES.wrong)[0];

/**
 * What a reader should know of a trouble.
 * @param {string} kind
 * @param {Told} trouble
 * @param {Holding | null} holding
 */
function troubleWhy(kind, trouble, holding) {
  if (kind === "elsewhere") return trouble.message;
  return `${troubleText(trouble)} ${holding ? "The figures below are from the last reading." : "Nothing was read yet."}`;
}

/**
 * What a reader should know of lists that were read.
 * @param {string} kind
 * @param {Holding | null} holding
 * @param {unknown[]} differing
 */
function holdingWhy(kind, holding, differing) {
  if (!holding) return "";
  if (kind === "disagrees") return [contradictionText(holding), bodiesText(differing)].filter(Boolean).join(" ");
  if (kind === "refused") return unlawfulText(holding.unlawful);
  if (kind === "full" || kind === "nearly") return roomText(holding);
  return "";
}

/**
 * The lists that have little room left, and what the operator can do.
 * @param {Holding} holding
 */
function roomText({ resources, changes }) {
  const text = (/** @type {number} */ number, /** @type {string} */ noun, /** @type {string} */ remedy) =>
    (number > NEARLY * MOST ? [`${count(number)} of ${count(MOST)} ${noun}. The operator can ${remedy}.`] : []);
  return [...text(resources.length, "resources", "delete some, or add a source"),
    ...text(changes.length, "changes kept", "publish, which drops old changes")].join(" ");
}

/** @param {Holding} holding */
function contradictionText({ contradictions, told }) {
  if (!contradictions) return "";
  const more = contradictions > told.length ? ` And ${contradictions - told.length} more.` : "";
  return `Its lists disagree with each other. ${told.map((it) => `${it}.`).join(" ")}${more}`;
}

/** @param {unknown[]} differing */
function bodiesText(differing) {
  if (!differing.length) return "";
  const them = differing.length === 1 ? "it" : "them";
  return `${counted(differing.length, "body is", "bodies are")} not as listed; “Check it” names ${them}.`;
}

/** @param {string[]} names */
function unlawfulText(names) {
  const shown = names.slice(0, NAMED).map((name) => `“${readable(name).text.slice(0, 80)}”`).join(", ");
  const more = names.length > NAMED ? `, and ${count(names.length - NAMED)} more` : "";
  const noun = names.length === 1 ? "the name" : "the names";
  return `A mirror refuses these lists, as it takes no file of ${noun} ${shown}${more}.`;
}

/**
 * Shows a state in its places of a panel. Figures of an earlier reading are dimmed.
 * @param {HTMLElement} root
 * @param {Record<string, any>} parts
 * @param {State} state
 * @param {number} readAt
 * @param {boolean} isOld
 */
export function showState(root, parts, state, readAt, isOld) {
  root.dataset.state = state.kind;
  root.dataset.isOld = String(isOld);
  parts.state.dataset.tone = state.tone;
  parts["state-word"].textContent = state.word;
  parts["state-more"].textContent = readAt ? readText(readAt, isOld) : "";
  parts.banner.hidden = !state.why;
  parts.banner.dataset.tone = state.tone;
  parts.word.textContent = `${state.word}.`;
  if (parts.why.textContent !== state.why) parts.why.textContent = state.why;
}

/**
 * When the figures were read, and their age if a later reading failed.
 * @param {number} readAt
 * @param {boolean} isOld
 */
function readText(readAt, isOld) {
  const at = `read at ${clock(readAt)} UTC`;
  return isOld ? `, last ${at}, ${age(new Date(readAt).toISOString())}` : `, ${at}`;
}

/**
 * Shows where a source is that calls itself by another address.
 * @param {Record<string, any>} parts
 * @param {string} base
 */
export function showElsewhere(parts, base) {
  parts.why.append(" ", linked(`${base}/`, base));
}
