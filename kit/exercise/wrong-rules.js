/**
 * Wrong rules, each a machine with one rule replaced, and whose answers somebody has written. Nothing is judged here: what is right comes
 * from the proved runtime.
 */

import { RULES, heed, nextTicks, openMind, write } from '../explain/machine.js';
import { SLIPS } from '../explain/slips.js';

/** @typedef {import('../types.js').Table} Table */
/** @typedef {import('../types.js').Record} JournalRecord */
/** @typedef {import('../explain/machine.js').Rules} Rules */
/** @typedef {{rules: Partial<Rules>, machine: (clock: string) => string}} WrongRule  and what its answers are those of, in words */

/** @type {WrongRule} */
export const SEES_WHAT_WENT = {
  rules: { sees: (m) => m.missed ?? m.present },
  machine: () => 'a poll that sees an input which came and went before it',
};

/** @type {WrongRule} */
const SENSOR_COUNTS = {
  rules: { counts: (m) => m.present },
  machine: () => 'a controller that goes by the input at the sensor, not by the polled one',
};

/** @type {WrongRule} */
export const DELAYS_ALL = {
  rules: { delays: (m, clock) => m.clocks[clock].length > 0 },
  machine: (clock) => `a ${clock} that delays every input, also those that are not drawn as delayed`,
};

/** @type {WrongRule[]} */
export const WRONG_RULES = [...SLIPS, SEES_WHAT_WENT, SENSOR_COUNTS, DELAYS_ALL];

/** What a table's clocks are called. */
export const clockWord = (/** @type {Table} */ { kind }) => (kind === 'holds' ? 'hold' : 'timer');

/**
 * What somebody with a wrong rule answers. Where nothing is asked they read what stands there, and go on from it.
 * @param {Table} table @param {JournalRecord[]} records  those of the run @param {Set<number>} asked  numbers of records
 * @param {WrongRule} wrong
 * @returns {(number|null)[]}  of each record
 */
export function answersOf(table, records, asked, wrong) {
  const rules = { ...RULES, ...wrong.rules };
  const mind = openMind(table, records[0].value ?? 0);
  const ticks = nextTicks(records);
  return records.map((record, k) => {
    if (k === 0) return record.value;
    mind.nextTick = ticks[k];
    if (asked.has(k) || record.kind === 'change') return write(mind, rules, record, ticks[k]);
    heed(mind, rules, record);
    return record.value;
  });
}

/**
 * The wrong rules that give just these answers.
 * @param {Table} table @param {JournalRecord[]} records  those of the run @param {Map<number, number>} answers  by the number of the record
 */
export function rulesBehind(table, records, answers) {
  const asked = new Set(answers.keys());
  return WRONG_RULES.filter((wrong) => {
    const own = answersOf(table, records, asked, wrong);
    return [...answers].every(([record, answer]) => own[record] === answer);
  });
}
