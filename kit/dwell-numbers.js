/** The numbers of a report, as the library gives them, and how they are written. */

/**
 * @typedef {Object} Report
 * @property {bigint} journals
 * @property {bigint[]} dwell      of each state
 * @property {bigint[][]} pairs    rows by state
 * @property {bigint[]} entries    into each state
 */

/**
 * The numbers that krossvil_report_add adds to, taken apart.
 * @param {ArrayLike<bigint>} numbers @param {{states: number, inputs: number}} counts
 * @returns {Report}
 */
export function reportOf(numbers, { states, inputs }) {
  const all = Array.from(numbers);
  const pairs = all.slice(1 + states, 1 + states + states * inputs);
  return {
    journals: all[0],
    dwell: all.slice(1, 1 + states),
    pairs: Array.from({ length: states }, (_, state) => pairs.slice(state * inputs, (state + 1) * inputs)),
    entries: all.slice(1 + states + states * inputs, 1 + 2 * states + states * inputs),
  };
}

/**
 * The inputs that have slots.
 * @param {Report} report
 * @returns {number[]}
 */
export function usedInputs({ pairs }) {
  return pairs[0].map((_, input) => input).filter((input) => pairs.some((slots) => slots[input] > 0n));
}

/** @param {bigint} number */
export const grouped = (number) => String(number).replace(/\B(?=(\d{3})+$)/g, ',');

/** @param {bigint} number @param {string} one @param {string} many */
export const counted = (number, one, many) => `${grouped(number)} ${number === 1n ? one : many}`;

/**
 * How much a number is of another, from 0 to 1.
 * @param {bigint} part @param {bigint} whole
 */
export const share = (part, whole) => (whole === 0n ? 0 : Number(part * 1000000n / whole) / 1000000);

/** @param {bigint[]} numbers */
export const largest = (numbers) => numbers.reduce((a, b) => (a > b ? a : b), 0n);
