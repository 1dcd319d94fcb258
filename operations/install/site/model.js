// What a source holds by its lists, whether these agree with each other, and whether a mirror takes its names.
//
// The Resource List, followed by the changes after its moment in their order, is what is held (docs/DOCUMENTS.md).

import { isLawful, kindOf, plain, readable, searchable } from "./names.js";
import { digestsIn } from "./source.js";

/** @typedef {import("./source.js").Resource} Resource */
/** @typedef {import("./source.js").Reading} Reading */
/** @typedef {{name: string, type: string, hash: string, searched?: string, kind?: string}} Named */
/** @typedef {{search: string, folder: string, type: string}} Filter  words, a folder and a kind of type; any may be empty */
/** @typedef {"name" | "type" | "length" | "moment"} Column */

const BY_NAME = (/** @type {Resource} */ a, /** @type {Resource} */ b) => (a.name < b.name ? -1 : a.name > b.name ? 1 : 0);
// How many contradictions the page puts into words.
const TOLD = 5;

/** One reading of a source's lists. */
export class Holding {
  /** @param {Reading} reading */
  constructor(reading) {
    this.at = reading.at;
    this.from = reading.from;
    this.listed = reading.listed;
    this.changes = reading.changes;
    this.addresses = reading.addresses;
    this.publication = reading.publication;
    this.contradictions = 0;
    /** @type {string[]} */
    this.told = [];
    /** @type {Map<string, Resource>} */
    const held = new Map();
    for (const it of this.listed) {
      // (a part that was kept has entries of an earlier reading)
      it.last = null;
      held.set(it.name, it);
    }
    if (held.size !== this.listed.length) this.contradict("The Resource List has a name twice");
    this.compareListed(held);
    this.since = this.follow(held);
    this.unlawful = unlawful(this.listed, this.changes);
    this.resources = [...held.values()].sort(BY_NAME);
    this.byName = held;
    this.bytes = this.resources.reduce((sum, it) => sum + it.length, 0);
    this.changed = this.changes.at(-1)?.moment ?? this.from;
  }

  /**
   * Notes a contradiction.
   * @param {string} what
   */
  contradict(what) {
    this.contradictions += 1;
    if (this.told.length < TOLD) this.told.push(plain(what));
  }

  /**
   * Compares the Resource List with the last change of each name up to its moment.
   * @param {Map<string, Resource>} held
   */
  compareListed(held) {
    /** @type {Map<string, Resource>} */
    const unlisted = new Map();
    for (const it of this.changes) {
      if (it.moment > this.at) continue;
      const listed = held.get(it.name);
      if (listed) listed.last = it;
      else unlisted.set(it.name, it);
    }
    for (const it of held.values()) {
      if (it.last && (it.last.change === "deleted" || !isSame(it, it.last))) this.contradictFacts(it.name);
    }
    for (const it of unlisted.values()) {
      if (it.change !== "deleted") this.contradictFacts(it.name);
    }
  }

  /** @param {string} name */
  contradictFacts(name) {
    this.contradict(`The Resource List and the Change List have different facts of ${name}`);
  }

  /**
   * Takes the changes after the Resource List's moment, and counts them.
   * @param {Map<string, Resource>} held
   */
  follow(held) {
    let [before, since] = [this.from, 0];
    for (const it of this.changes) {
      if (it.moment <= before) {
        this.contradict(`The Change List is not in the order of its moments at ${it.moment}`);
      }
      before = it.moment;
      if (it.moment <= this.at) continue;
      since += 1;
      if ((it.change === "created") === held.has(it.name)) {
        this.contradict(`The Change List has ${it.name} as ${it.change}, which it cannot be`);
      }
      if (it.change === "deleted") held.delete(it.name);
      else held.set(it.name, it);
    }
    return since;
  }

  /**
   * The changes of one name, the newest first.
   * @param {string} name
   */
  history(name) {
    return this.changes.filter((it) => it.name === name).reverse();
  }

  /**
   * Whether another reading says the same.
   * @param {Holding} other
   */
  isAs(other) {
    const figures = (/** @type {Holding} */ { at, from, changed, contradictions, changes, listed }) =>
      [at, from, changed, contradictions, changes.length, listed.length].join(" ");
    return figures(this) === figures(other);
  }
}

/**
 * The names that no mirror takes, each once: a mirror refuses the lists that have one.
 * @param {Resource[][]} lists
 */
function unlawful(...lists) {
  /** @type {Set<string>} */
  const found = new Set();
  for (const list of lists) {
    for (const { name } of list) {
      if (!isLawful(name)) found.add(name);
    }
  }
  return [...found];
}

/**
 * Whether two entries have the same facts.
 * @param {Resource} one
 * @param {Resource} other
 */
function isSame(one, other) {
  if (one.moment !== other.moment || one.length !== other.length || one.type !== other.type) return false;
  if (one.hash === other.hash) return true;
  const [its, others] = [digestsIn(one.hash), digestsIn(other.hash)];
  return its.sha256 === others.sha256 && its.md5 === others.md5;
}

/**
 * The sums over sources: what those of them have that could be read.
 * @param {(Holding | null)[]} holdings
 */
export function sums(holdings) {
  const read = /** @type {Holding[]} */ (holdings.filter(Boolean));
  const of = (/** @type {(it: Holding) => number} */ figure) => read.reduce((sum, it) => sum + figure(it), 0);
  const latest = (/** @type {(it: Holding) => string} */ figure) => read.map(figure).sort().at(-1) ?? "";
  return {
    read: read.length,
    bytes: of((it) => it.bytes),
    changes: of((it) => it.changes.length),
    changed: latest((it) => it.changed),
    published: latest((it) => it.at),
  };
}

/**
 * Return a function that decides whether a resource has each of some words in its name, as it is read or as it is in the
 * lists, or in its type. A word with `*` is a pattern that ends where the name ends; one of eight or more hexadecimal digits is also
 * the beginning of a SHA-256.
 * @param {string} words
 */
export function search(words) {
  const wanted = searchable(words).split(/\s+/).filter(Boolean).map(matches);
  return (/** @type {Named} */ resource) => wanted.every((it) => it(resource));
}

/**
 * Return a function that decides whether a resource has a word.
 * @param {string} word
 * @returns {(resource: Named) => boolean}
 */
function matches(word) {
  if (word.includes("*")) {
    const parts = word.split("*");
    return (resource) => searched(resource).split("\n").some((line) => isLike(line, parts));
  }
  const isDigest = /^[0-9a-f]{8,64}$/.test(word);
  return (resource) => searched(resource).includes(word)
    || (isDigest && digestsIn(resource.hash).sha256.startsWith(word));
}

/**
 * Whether a line has parts one after another, the last at its end.
 * @param {string} line
 * @param {string[]} parts
 */
function isLike(line, parts) {
  const last = parts.at(-1) ?? "";
  let at = 0;
  for (const part of parts.slice(0, -1)) {
    const found = line.indexOf(part, at);
    if (found < 0) return false;
    at = found + part.length;
  }
  return line.length - last.length >= at && line.endsWith(last);
}

/**
 * Return a function that decides whether a filter leaves a resource.
 * @param {Filter} filter
 */
export function within({ search: words, folder, type }) {
  const isFound = search(words);
  return (/** @type {Named} */ it) => it.name.startsWith(folder) && (!type || kind(it) === type) && isFound(it);
}

/**
 * The resources that a filter leaves, in an order. They come in that of their names.
 * @param {Resource[]} resources
 * @param {Filter} filter
 * @param {Column} key
 * @param {boolean} isDown
 */
export function chosen(resources, filter, key, isDown) {
  const found = resources.filter(within(filter));
  if (key !== "name") found.sort((a, b) => (a[key] < b[key] ? -1 : a[key] > b[key] ? 1 : 0));
  return isDown ? found.reverse() : found;
}

/**
 * The kind of a resource's type.
 * @param {Named} resource
 */
export function kind(resource) {
  resource.kind ??= kindOf(resource.type);
  return resource.kind;
}

/**
 * The folder directly below a folder that has a name, or nothing if the name is directly in the folder.
 * @param {string} name
 * @param {string} folder
 */
export function folderBelow(name, folder) {
  return name.slice(0, name.indexOf("/", folder.length) + 1);
}

/**
 * The values of resources with the number of resources of each, the most first; empty values are left out.
 * @param {Resource[]} resources
 * @param {(resource: Resource) => string} value
 */
export function tally(resources, value) {
  /** @type {Map<string, number>} */
  const found = new Map();
  for (const it of resources) {
    const key = value(it);
    found.set(key, (found.get(key) ?? 0) + 1);
  }
  found.delete("");
  return [...found].sort(([a, one], [b, other]) => other - one || (a < b ? -1 : 1));
}

/**
 * What is searched of a resource.
 * @param {Named} resource
 */
function searched(resource) {
  if (resource.searched === undefined) {
    const { text } = readable(resource.name);
    const names = text === resource.name ? text : `${text}\n${resource.name}`;
    resource.searched = searchable(`${names}\n${resource.type}`);
  }
  return resource.searched;
}
