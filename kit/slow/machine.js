/**
 * What a controller with holds can be in, for a search over its runs: every instant is a difference to now, which stays at a cap once no rule
 * tells larger ones apart, so that there are finitely many. It judges nothing: the run that is found is made and checked by the library.
 */

import { has } from '../sets.js';

/** @typedef {import('../types.js').Table} Table */
/** @typedef {import('../types.js').Kind} Kind */

/**
 * @typedef {Object} Situation
 * @property {0|1|2|3} phase
 * @property {number} present
 * @property {number} polled     0 where no rule asks for it
 * @property {number} state
 * @property {number} cycle      since the cycle start
 * @property {boolean} settled   did the input stand before now? asked before a poll only
 * @property {number} entered    since the entry, at most one more than the hold
 */

/** @typedef {{kind: Kind, value: number, after: Situation}} Move   a record that may come now */

/**
 * At time 0.
 * @param {Table} table @param {number} input
 * @returns {Situation}
 */
export function opening(table, input) {
  return { phase: 0, present: input, polled: 0, state: table.start, cycle: 0, settled: true, entered: 0 };
}

/**
 * @param {Table} table @param {Situation} now
 * @returns {Situation}
 */
function ticked({ next }, now) {
  const state = now.phase === 3 ? next[now.state][now.polled] : now.state;
  return { ...now, phase: 0, polled: 0, state, cycle: 0, settled: true, entered: state === now.state ? now.entered : 0 };
}

/**
 * @param {Table} table @param {Situation} now
 * @returns {Situation}
 */
function tested({ holds, delayed }, now) {
  const held = holds[now.state] > 0 && has(delayed[now.state], now.polled) && now.entered <= holds[now.state];
  return held ? { ...now, phase: 2, polled: 0 } : { ...now, phase: 3 };
}

/**
 * What the controller may do now; it does one thing at a time.
 * @param {Table} table @param {Situation} now
 * @returns {Move[]}
 */
function steps(table, now) {
  if (now.phase === 1) return [{ kind: 'test', value: 0, after: tested(table, now) }];
  if (now.phase > 1) return [{ kind: 'tick', value: 0, after: ticked(table, now) }];
  return now.cycle > 0 && now.settled ? [{ kind: 'poll', value: 0, after: { ...now, phase: 1, polled: now.present } }] : [];
}

/**
 * The records that may come now: a change to any other input, and what the controller may do.
 * @param {Table} table @param {Situation} now
 * @returns {Move[]}
 */
export function moves(table, now) {
  const others = Array.from({ length: table.counts.inputs }, (_, input) => input).filter((input) => input !== now.present);
  const changes = others.map((input) => (
    { kind: /** @type {const} */ ('change'), value: input, after: { ...now, present: input, settled: now.phase !== 0 } }));
  return [...steps(table, now), ...changes];
}

/**
 * Time goes on, within the cycle.
 * @param {Table} table @param {Situation} now @param {number} by
 * @returns {Situation}
 */
export function later({ holds }, now, by) {
  return { ...now, cycle: now.cycle + by, settled: true, entered: Math.min(now.entered + by, holds[now.state] + 1) };
}

/**
 * A number for a situation; no two have the same.
 * @param {Table} table @param {Situation} now
 */
export function keyOf({ counts, cycle, holds }, now) {
  const { states, inputs } = counts;
  const phase = (now.phase * 2 + Number(now.settled)) * inputs + now.polled;
  const members = (phase * inputs + now.present) * states + now.state;
  return (members * (cycle + 1) + now.cycle) * (Math.max(...holds) + 2) + now.entered;
}

/**
 * At most so many situations there are.
 * @param {Table} table
 */
export function situations({ counts, cycle, holds }) {
  return 8 * counts.inputs * counts.inputs * counts.states * (cycle + 1) * (Math.max(...holds) + 2);
}
