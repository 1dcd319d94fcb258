// A source as its lists describe it: its description, both lists with their parts and indexes, and what each entry says.

import { Trouble, documentAt, momentOf, said } from "./documents.js";

export const DESCRIPTION = "/.well-known/resourcesync";
const CAPABILITIES = "/capabilitylist.xml";
// How often the lists are read again, if a publication comes meanwhile; how many parts are asked for side by side.
const READINGS = 6;
const LANES = 3;
// No source holds more, or a longer body.
const MOST_ENTRIES = 50_000;
const MOST_BYTES = 16_777_216;

/** @typedef {import("./documents.js").Entry} Entry */
/** @typedef {import("./documents.js").Listing} Listing */

/**
 * What a list says of a name. Of a Resource List `change` is empty, and `last` the last change of the name up to its
 * moment; `searched` is what a search looks at, `kind` that of its type.
 * @typedef {{name: string, loc: string, change: string, moment: string, length: number, type: string, hash: string,
 *   last: Resource | null, searched?: string, kind?: string}} Resource
 */

/**
 * A reading of both lists: their moments, their addresses, the number of the publication, and what they say.
 * @typedef {{at: string, from: string, addresses: {listed: string, changed: string}, publication: string,
 *   listed: Resource[], changes: Resource[]}} Reading
 */

/** @typedef {(done: number, all: number, listed: () => Resource[]) => void} Progress */

/**
 * The bases of the sources that the Source Description below this address names.
 * @param {string} address
 */
export async function basesOf(address) {
  const description = await documentAt(address + DESCRIPTION).catch((fault) => {
    if (fault.kind !== "dropped") throw fault;
    throw new Trouble("gone", `There is no Source Description at ${address + DESCRIPTION}.`);
  });
  const named = description.entries.filter((it) => said(it, "capability") === "capabilitylist");
  const addresses = named.map((it) => it.loc).filter((it) => it.endsWith(CAPABILITIES));
  const bases = addresses.map((it) => it.slice(0, -CAPABILITIES.length));
  if (!bases.length) throw new Trouble("wrong", "The Source Description names no Capability List.");
  return [...new Set(bases)];
}

/** A source that is read again and again. Parts that never change are kept. */
export class Source {
  /** @param {string} base */
  constructor(base) {
    this.base = base;
    this.front = `${base}/resource/`;
    /** @type {Map<string, Resource[]>} */
    this.kept = new Map();
  }

  /**
   * Reads both lists; `progress` gets how many parts came, of how many, and the resources of those that came.
   * @param {Progress} progress
   */
  async read(progress = () => {}) {
    let why = "";
    for (let round = 0; round < READINGS; round += 1) {
      try {
        return await this.once(progress);
      } catch (fault) {
        // A publication dropped a part, or came twice: its lists are other ones.
        if (!(fault instanceof Trouble) || fault.kind !== "dropped") throw fault;
        why = fault.message;
      }
    }
    throw new Trouble("wrong", `Its lists were read ${READINGS} times, and each time lacked a part: ${why}`);
  }

  /**
   * Reads both lists once.
   * @param {Progress} progress
   * @returns {Promise<Reading>}
   */
  async once(progress) {
    const lists = await documentAt(this.base + CAPABILITIES).catch((fault) => {
      throw fault.kind === "dropped" ? new Trouble("gone", `There is no source at ${this.base}.`) : fault;
    });
    const [listed, changed] = ["resourcelist", "changelist"].map((kind) => this.named(lists, kind));
    // The Change List comes second, so that it has each change up to the moment of the Resource List.
    const resources = await documentAt(listed);
    const changes = await documentAt(changed);
    /** @type {Map<string, Resource[]>} */
    const used = new Map();
    const [listedParts, changedParts] = [resources, changes].map((it) => new Array(it.isIndex ? it.entries.length : 0));
    await this.all([
      ...this.waiting(resources, listedParts, used, () => true),
      ...this.waiting(changes, changedParts, used, (it) => Boolean(said(it, "until"))),
    ], (done, all) => progress(done, all, () => listedParts.flat().filter(Boolean)));
    this.kept = used;
    const at = momentOf(resources.said.at);
    const from = momentOf(changes.said.from);
    if (from > at) throw new Trouble("dropped", `the Change List begins at ${from}, after the Resource List of ${at}`);
    const found = { listed: this.found(resources, listedParts), changes: this.found(changes, changedParts) };
    return { at, from, addresses: { listed, changed }, publication: publicationOf(resources), ...found };
  }

  /**
   * The address at which the Capability List names a list.
   * @param {Listing} lists
   * @param {string} capability
   */
  named(lists, capability) {
    const found = lists.entries.find((it) => said(it, "capability") === capability);
    if (!found) throw new Trouble("wrong", `Its Capability List names no ${capability}.`);
    return this.own(found.loc);
  }

  /**
   * An address of this source: nothing else is asked for.
   * @param {string} address
   */
  own(address) {
    if (!address.startsWith(`${this.base}/`)) {
      throw new Trouble("wrong", `${address.slice(0, 200)} is not below its base ${this.base}.`);
    }
    return address;
  }

  /**
   * What reads each part of a list that is an index, into its place. A part that stays as it is comes from the earlier
   * reading.
   * @param {Listing} list
   * @param {Resource[][]} parts
   * @param {Map<string, Resource[]>} used
   * @param {(pointer: Entry) => boolean} isKept
   */
  waiting(list, parts, used, isKept) {
    let number = 0;
    return Array.from(parts, (_, place) => async () => {
      const pointer = list.entries[place];
      const found = await this.part(pointer, used, isKept(pointer));
      parts[place] = found;
      number += found.length;
      if (number <= MOST_ENTRIES) return;
      throw new Trouble("wrong", `${list.address} has more than ${MOST_ENTRIES} entries.`);
    });
  }

  /**
   * Does what waits, a few side by side.
   * @param {(() => Promise<void>)[]} waiting
   * @param {(done: number, all: number) => void} progress
   */
  async all(waiting, progress) {
    let [next, done] = [0, 0];
    const lane = async () => {
      while (next < waiting.length) {
        await waiting[next++]();
        done += 1;
        progress(done, waiting.length);
      }
    };
    try {
      await Promise.all(Array.from({ length: LANES }, lane));
    } finally {
      next = waiting.length;
    }
  }

  /**
   * The entries of a part, which is known by its address and its moments.
   * @param {Entry} pointer
   * @param {Map<string, Resource[]>} used
   * @param {boolean} isKept
   */
  async part(pointer, used, isKept) {
    const key = `${pointer.loc} ${said(pointer, "at")} ${said(pointer, "until")}`;
    const found = this.kept.get(key) ?? this.entries(await documentAt(this.own(pointer.loc)));
    if (isKept) used.set(key, found);
    return found;
  }

  /**
   * The entries of a list, once its parts are there.
   * @param {Listing} list
   * @param {Resource[][]} parts
   */
  found(list, parts) {
    return list.isIndex ? parts.flat() : this.entries(list);
  }

  /** @param {Listing} document */
  entries(document) {
    return document.entries.map((it) => this.entry(it));
  }

  /**
   * What an entry says of a resource; a deleted one has no facts.
   * @param {Entry} read
   * @returns {Resource}
   */
  entry(read) {
    if (!read.loc.startsWith(this.front) || read.loc.length === this.front.length) {
      throw new Trouble("wrong", `${read.loc.slice(0, 200)} is no resource below ${this.front}.`);
    }
    const change = said(read, "change");
    const name = read.loc.slice(this.front.length);
    const moment = momentOf(said(read, "datetime") || read.lastmod);
    if (change === "deleted") {
      return { name, loc: read.loc, change, moment, length: 0, type: "", hash: "", last: null };
    }
    const length = said(read, "length");
    if (!/^\d{1,8}$/.test(length) || Number(length) > MOST_BYTES) {
      throw new Trouble("wrong", `${read.loc} is listed with no length of 16 MiB at most.`);
    }
    const [type, hash] = [said(read, "type"), said(read, "hash")];
    return { name, loc: read.loc, change, moment, length: Number(length), type, hash, last: null };
  }
}

/**
 * The digests that an attribute `hash` has, in lower case.
 * @param {string} hash
 */
export function digestsIn(hash) {
  const found = { sha256: "", md5: "" };
  for (const it of hash.split(" ")) {
    if (it.startsWith("sha-256:")) found.sha256 = it.slice(8).toLowerCase();
    else if (it.startsWith("md5:")) found.md5 = it.slice(4).toLowerCase();
  }
  return found;
}

/**
 * The number of the publication, which only the paths of parts tell.
 * @param {Listing} list
 */
function publicationOf(list) {
  return /\/resourcelist\/(\d+)\/\d+\.xml$/.exec((list.isIndex && list.entries[0]?.loc) || "")?.[1] ?? "";
}
