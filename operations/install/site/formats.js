// Figures, sizes and moments as people read them. Moments are in UTC, as the source's documents are.

const counts = new Intl.NumberFormat("en");
const UNITS = ["bytes", "kB", "MB", "GB", "TB"];
/** @type {[number, string][]} */
const AGES = [
  [31_557_600_000, "year"], [2_629_800_000, "month"], [86_400_000, "day"], [3_600_000, "hour"], [60_000, "minute"],
  [1_000, "second"],
];
/** The moment of a source that was never published, or never changed: that of its formatting. */
export const NEVER = "1970-01-01T00:00:00.000Z";

/**
 * A number with its thousands apart.
 * @param {number} number
 */
export function count(number) {
  return counts.format(number);
}

/**
 * A number with the noun behind it.
 * @param {number} number
 * @param {string} noun
 */
export function counted(number, noun, many = `${noun}s`) {
  return `${count(number)} ${number === 1 ? noun : many}`;
}

/**
 * A size in three digits and its unit.
 * @param {number} bytes
 */
export function size(bytes) {
  let unit = 0;
  let value = bytes;
  while (value >= 999.5 && unit < UNITS.length - 1) {
    value /= 1_000;
    unit += 1;
  }
  if (!unit) return bytes === 1 ? "1 byte" : `${bytes} bytes`;
  return `${value < 9.995 ? value.toFixed(2) : value < 99.95 ? value.toFixed(1) : value.toFixed(0)} ${UNITS[unit]}`;
}

/**
 * A moment of 24 bytes, to the second.
 * @param {string} text
 */
export function moment(text) {
  return text === NEVER ? "never" : `${text.slice(0, 10)} ${text.slice(11, 19)}`;
}

/**
 * How long ago a moment was.
 * @param {string} text
 */
export function age(text, now = Date.now()) {
  if (text === NEVER) return "never";
  const passed = now - Date.parse(text);
  if (passed < -60_000) return "in the future";
  const found = AGES.find(([length]) => passed >= length);
  if (!found) return "just now";
  return `${counted(Math.floor(passed / found[0]), found[1])} ago`;
}

/**
 * The time of day of a clock, to the second.
 * @param {number} time
 */
export function clock(time) {
  return new Date(time).toISOString().slice(11, 19);
}
