/** The columns of a matrix: inputs that are alike in every state share one. */

import { nameOf } from '../name-of.js';
import { has } from '../sets.js';

/** @typedef {import('../types.js').Table} Table */
/** @typedef {{inputs: number[], names: string[]}} Column */

/** A column of more inputs is called all others, if it is the largest. */
const MOST_NAMED = 6;

/**
 * What delays an input in a state: 0 for the hold, or the numbers of timers.
 * @param {Table} table @param {number} state @param {number} input
 * @returns {number[]}
 */
export function delaying(table, state, input) {
  if (table.kind === 'holds') return table.holds[state] > 0 && has(table.delayed[state], input) ? [0] : [];
  return table.timers.flatMap(({ region, delays }, k) => (has(region, state) && has(delays[state], input) ? [k] : []));
}

/**
 * @param {Table} table @param {string[]} names  of the inputs
 * @returns {Column[]}
 */
export function columnsOf(table, names) {
  /** @type {Map<string, number[]>} */
  const alike = new Map();
  for (let input = 0; input < table.counts.inputs; input++) {
    const key = JSON.stringify(table.next.map((row, state) => [row[input], delaying(table, state, input)]));
    alike.set(key, [...alike.get(key) ?? [], input]);
  }
  const groups = [...alike.values()];
  const largest = groups.reduce((a, b) => (b.length > a.length ? b : a));
  const words = (/** @type {number[]} */ inputs) => {
    if (inputs !== largest || inputs.length <= MOST_NAMED) return inputs.map((input) => nameOf(names, input));
    return [groups.length === 1 ? 'every input' : 'all others'];
  };
  return groups.map((inputs) => ({ inputs, names: words(inputs) }));
}
