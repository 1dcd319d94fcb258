// Changes counted by time: how many of each kind lie between two moments, found in a few steps whatever their number.

// The last moment that a source knows.
const LAST = 253_402_300_799_999;
export const KINDS = ["created", "updated", "deleted"];
// Steps of an axis in milliseconds, up to days; longer ones are months and years.
const SECOND = 1_000;
const MINUTE = 60 * SECOND;
const HOUR = 60 * MINUTE;
export const DAY = 24 * HOUR;
const STEPS = [1, 2, 5, 10, 20, 50, 100, 200, 500, SECOND, 2 * SECOND, 5 * SECOND, 10 * SECOND, 30 * SECOND,
  MINUTE, 2 * MINUTE, 5 * MINUTE, 10 * MINUTE, 30 * MINUTE, HOUR, 2 * HOUR, 6 * HOUR, 12 * HOUR, DAY, 2 * DAY, 7 * DAY];
const MONTHS = [1, 3, 6, 12, 24, 60, 120, 240, 600, 1_200, 6_000, 12_000];

/** @typedef {[number, number]} Span  two times in milliseconds */
/** @typedef {{from: number, until: number, counts: number[]}} Bin */

/** The times of changes, and how many of each kind came up to each. */
export class Counted {
  /** @param {{moment: string, change: string}[]} changes */
  constructor(changes) {
    this.times = Float64Array.from(changes, (it) => Date.parse(it.moment));
    this.sums = KINDS.map((kind) => {
      const sums = new Uint32Array(changes.length + 1);
      changes.forEach((it, at) => {
        sums[at + 1] = sums[at] + (it.change === kind ? 1 : 0);
      });
      return sums;
    });
  }

  /**
   * How many changes came before a time.
   * @param {number} time
   */
  before(time) {
    let [low, high] = [0, this.times.length];
    while (low < high) {
      const middle = (low + high) >> 1;
      if (this.times[middle] < time) low = middle + 1;
      else high = middle;
    }
    return low;
  }

  /**
   * How many of each kind came in [from, until).
   * @param {number} from
   * @param {number} until
   */
  between(from, until) {
    const [first, last] = [this.before(from), this.before(until)];
    return this.sums.map((it) => it[last] - it[first]);
  }

  /**
   * The end of what is shown: now, or a little after the last change where a clock is ahead.
   * @param {number} now
   */
  end(now) {
    const last = this.times.at(-1) ?? 0;
    return last >= now && last < now + DAY ? last + 1 : now;
  }

  /**
   * The span of all changes up to an end, with a little room before the first; no shorter than `least`.
   * @param {number} end
   * @param {number} least
   * @returns {Span}
   */
  span(end, least) {
    const first = this.times[0] ?? end;
    const room = Math.max(20, Math.ceil((end - first) / 50));
    const until = Math.min(Math.max(end, (this.times.at(-1) ?? 0) + 1), LAST);
    return [Math.max(Math.min(first - room, end - least), 0), until];
  }
}

/**
 * Bins of one width, by the steps of a clock, that cover a span.
 * @param {Counted} counted
 * @param {Span} span
 * @param {number} most
 */
export function binsOf(counted, [from, until], most) {
  const width = STEPS.find((it) => (until - from) / it <= most) ?? Math.ceil((until - from) / most / DAY) * DAY;
  /** @type {Bin[]} */
  const found = [];
  for (let at = Math.floor(from / width) * width; at < until; at += width) {
    found.push({ from: at, until: at + width, counts: counted.between(at, at + width) });
  }
  return found;
}

/**
 * Times at which an axis has a mark, few enough for its length, and how each is written.
 * @param {Span} span
 * @param {number} most
 */
export function marks([from, until], most) {
  const step = STEPS.find((it) => (until - from) / it <= most);
  /** @type {{at: number, text: string}[]} */
  const found = [];
  if (step) {
    for (let at = Math.ceil(from / step) * step; at <= until; at += step) found.push({ at, text: marked(at, step) });
    return found;
  }
  const months = MONTHS.find((it) => (until - from) / (it * 30.4 * DAY) <= most) ?? MONTHS[MONTHS.length - 1];
  const first = new Date(from);
  for (let month = Math.ceil((first.getUTCFullYear() * 12 + first.getUTCMonth()) / months) * months; ; month += months) {
    const at = Date.UTC(Math.floor(month / 12), month % 12);
    if (at > until) return found;
    if (at >= from) found.push({ at, text: new Date(at).toISOString().slice(0, months % 12 ? 7 : 4) });
  }
}

/**
 * A time as far as a step needs it.
 * @param {number} at
 * @param {number} step
 */
function marked(at, step) {
  const text = new Date(at).toISOString();
  if (step >= DAY) return text.slice(0, 10);
  if (step >= MINUTE) return at % DAY === 0 ? text.slice(5, 10) : text.slice(11, 16);
  return step >= SECOND ? text.slice(11, 19) : text.slice(14, 23);
}

/**
 * A span of time in words.
 * @param {number} from
 * @param {number} until
 */
export function spanText(from, until) {
  const [start, end] = [from, until].map((it) => new Date(it).toISOString());
  const digits = until - from < 10 * SECOND ? 23 : until - from < 2 * HOUR ? 19 : 16;
  const read = (/** @type {string} */ it) => it.slice(0, digits).replace("T", " ");
  const isOneDay = start.slice(0, 10) === end.slice(0, 10);
  return `${read(start)} – ${isOneDay ? end.slice(11, digits) : read(end)}`;
}
