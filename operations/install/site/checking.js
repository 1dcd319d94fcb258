// Whether a body is the one that is listed: its length and its SHA-256, by the browser's own WebCrypto.

import { Trouble, asked } from "./documents.js";
import { digestsIn } from "./source.js";

// How many bodies are asked for side by side: fewer than the site sends to one visitor.
const LANES = 3;

/** Whether this browser can check at all: WebCrypto is there over HTTPS, and on this machine, only. */
export const canCheck = Boolean(globalThis.crypto?.subtle);

const UNASKABLE = "A browser asks for another address than this name has: use a mirror.";

/** @typedef {import("./source.js").Resource} Resource */

/**
 * The outcome of a check: `agrees`, `differs` or `unasked` (no body came), and why.
 * @typedef {{kind: "agrees" | "differs" | "unasked", why: string, when: number}} Outcome
 */

/** @type {(kind: Outcome["kind"], why: string) => Outcome} */
const result = (kind, why) => ({ kind, why, when: Date.now() });

/**
 * Fetches a body and compares it with what the list says.
 * @param {Resource} resource
 */
export async function check(resource) {
  if (!isAskable(resource.loc)) return result("unasked", UNASKABLE);
  const { sha256 } = digestsIn(resource.hash);
  if (!/^[0-9a-f]{64}$/.test(sha256)) return result("unasked", "The list has no SHA-256 of it.");
  let body;
  try {
    body = await bodyOf(resource);
  } catch (fault) {
    if (!(fault instanceof Trouble)) return result("unasked", "Its answer ended early.");
    const isGone = fault.kind === "dropped";
    return isGone ? result("differs", "It is listed, and the source answers 404.") : result("unasked", fault.message);
  }
  if (!body || body.length !== resource.length) {
    return result("differs", `${body ? `${body.length} bytes` : "More bytes"} came, ${resource.length} are listed.`);
  }
  const digest = new Uint8Array(await crypto.subtle.digest("SHA-256", body));
  const found = Array.from(digest, (it) => it.toString(16).padStart(2, "0")).join("");
  return found === sha256 ? result("agrees", "Length and SHA-256 are the listed ones.")
    : result("differs", `Its SHA-256 is ${found}.`);
}

/**
 * The bytes that come, or nothing where more come than are listed.
 * @param {Resource} resource
 */
async function bodyOf(resource) {
  const reader = (await asked(resource.loc, "no-store")).body?.getReader();
  if (!reader) return new Uint8Array(0);
  const body = new Uint8Array(resource.length);
  let length = 0;
  for (;;) {
    const { done, value } = await reader.read();
    if (done) return body.subarray(0, length);
    if (length + value.length > resource.length) {
      await reader.cancel();
      return null;
    }
    body.set(value, length);
    length += value.length;
  }
}

/**
 * Whether a browser asks for exactly this address: it takes `%2E` for a dot.
 * @param {string} address
 */
export function isAskable(address) {
  try {
    return new URL(address).pathname === address.replace(/^https?:\/\/[^/]*/, "");
  } catch {
    return false;
  }
}

/**
 * Some resources, each as likely as any other.
 * @param {Resource[]} resources
 * @param {number} most
 */
export function someOf(resources, most) {
  const left = [...resources];
  const number = Math.min(most, left.length);
  for (let at = 0; at < number; at += 1) {
    const other = at + Math.floor(Math.random() * (left.length - at));
    [left[at], left[other]] = [left[other], left[at]];
  }
  return left.slice(0, number);
}

/**
 * Checks some resources; `tell` gets each with its result. It ends early where `signal` says so.
 * @param {Resource[]} resources
 * @param {(resource: Resource, outcome: Outcome) => void} tell
 * @param {AbortSignal} signal
 */
export async function checkAll(resources, tell, signal) {
  let next = 0;
  const lane = async () => {
    while (next < resources.length && !signal.aborted) {
      const it = resources[next++];
      tell(it, await check(it));
    }
  };
  await Promise.all(Array.from({ length: LANES }, lane));
}
