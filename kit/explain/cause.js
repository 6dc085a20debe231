/**
 * How somebody may have come to a refused verdict or state: the slips with which every value of the whole journal comes out as it is
 * written, behind the refused record too. It is a guess, and judges nothing.
 */

import { has } from '../sets.js';
import { clocks } from '../trace.js';
import { RULES, holds, nextTicks, openMind, write } from './machine.js';
import { SLIPS } from './slips.js';

/** @typedef {import('../types.js').Trace} Trace */
/** @typedef {import('../types.js').Step} Step */
/** @typedef {import('../types.js').Table} Table */
/** @typedef {import('../types.js').Machine} Machine */
/** @typedef {import('../types.js').SlipName} SlipName */
/** @typedef {import('../types.js').Record} JournalRecord */
/** @typedef {import('./machine.js').Mind} Mind */
/** @typedef {import('./machine.js').Rules} Rules */
/** @typedef {import('./slips.js').Slip} Slip */
/** @typedef {import('./slips.js').Mistaken} Mistaken */

/** @typedef {{names: SlipName[], says: string}} Cause  one name, or several of which any may be the cause */

/** @type {Map<string, string>} */
const NEXT = new Map([['poll', 'test'], ['test', 'tick'], ['tick', 'poll']]);

/**
 * Does every record come at a time and in a turn at which it may? That is the same for all machines, wrong or not.
 * @param {Table} table @param {JournalRecord[]} records
 */
function inTurn(table, [opening, ...records]) {
  let [turn, last, begun, changed, present] = ['poll', 0, 0, 0, opening.value];
  return records.every(({ kind, time, value }, k) => {
    const early = time < last || (kind === 'poll' && time <= Math.max(begun, changed));
    const outOfTurn = kind === 'end' ? k < records.length - 1 : kind !== 'change' && kind !== turn;
    if (early || outOfTurn || time > begun + table.cycle) return false;
    if (kind === 'change' && (value ?? 0) >= table.counts.inputs) return false;
    if (kind === 'change' && value !== present) [changed, present] = [time, value];
    if (kind === 'tick') begun = time;
    last = time;
    turn = NEXT.get(kind) ?? turn;
    return true;
  });
}

/**
 * The machine with these rules as it is before the refused record, if it writes every value that is written; else null.
 * @param {Trace} trace @param {JournalRecord[]} records @param {number[]} ticks @param {Rules} rules
 * @returns {Mind|null}
 */
function writer({ table, stop }, records, ticks, rules) {
  const mind = openMind(table, records[0].value ?? 0);
  let before = null;
  for (let k = 1; k < records.length; k++) {
    if (k === stop) before = { ...mind, from: [...mind.from], nextTick: ticks[k] };
    if (write(mind, rules, records[k], ticks[k]) !== records[k].value) return null;
  }
  return before;
}

/**
 * The clock that the slip mistakes at the refused record: where that is a test, one that holds it by the one rule and not by the other.
 * @param {Trace} trace @param {Step} step @param {Mind} mind @param {Rules} rules
 * @returns {Mistaken}
 */
function mistaken(trace, { record, before }, mind, rules) {
  const machine = /** @type {Machine} */ (before);
  const here = clocks(trace.table, machine).filter(({ delays }) => has(delays, machine.polled));
  const number = (/** @type {number|null} */ timer) => timer ?? machine.state;
  const clock = here.find(({ timer, from, length }) => (
    holds(mind, rules, number(timer), rules.instant(mind, record.time)) !== RULES.running(record.time - from, length)));
  return {
    trace, record, machine, nextTick: mind.nextTick, clock: trace.table.kind === 'holds' ? 'hold' : 'timer',
    right: clock?.from ?? 0, wrong: clock ? rules.since(mind, number(clock.timer)) : 0,
  };
}

/**
 * The slips that explain the whole journal, the first way of each.
 * @param {Trace} trace @param {Step} step  the refused one
 */
function explaining(trace, step) {
  if (trace.from !== undefined) return []; // the journal is not there as a whole
  const all = trace.steps.map(({ record }) => record);
  // Bytes at the end, as a torn journal has them, are no record.
  const records = all[all.length - 1].kind === 'bytes' ? all.slice(0, -1) : all;
  if (!inTurn(trace.table, records)) return [];
  const ticks = nextTicks(records);
  /** @type {Map<SlipName, {slip: Slip, at: Mistaken}>} */
  const found = new Map();
  for (const slip of SLIPS) {
    const rules = { ...RULES, ...slip.rules };
    const mind = found.has(slip.name) ? null : writer(trace, records, ticks, rules);
    if (mind) found.set(slip.name, { slip, at: mistaken(trace, step, mind, rules) });
  }
  return [...found.values()];
}

/**
 * The slip that likely led to a refused verdict or state, or all of which any may have; null if none explains the journal.
 * @param {Trace} trace @param {Step} step
 * @returns {Cause|null}
 */
export function causeOf(trace, step) {
  const causes = explaining(trace, step);
  if (causes.length === 0) return null;
  const took = causes.map(({ slip, at }) => slip.took(at));
  const is = [...new Set(causes.map(({ slip, at }) => slip.is(at)))];
  return { names: causes.map(({ slip }) => slip.name), says: sayCauses(took, is) };
}

/**
 * Of three or more only what was done: what is right of each would hide it.
 * @param {string[]} took @param {string[]} is
 */
function sayCauses(took, is) {
  if (took.length > 2) return `These records are what any of these slips would make: ${took.join('; ')}.`;
  const what = took.length === 1 ? took[0] : `either ${took[0]}, or ${took[1]}`;
  return `The usual slip: ${what}. ${is.join(' ')}`;
}
