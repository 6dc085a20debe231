/** Small tables by chance, whose every run can be searched, and questions and journals for them. */

import { encodeTable, recordBytes } from '../fields.js';
import { plainNames } from '../names.js';
import { library } from './core.js';

/** With holds: up to three states and inputs, cycles of up to 3, holds of up to 4. */
export function smallTable(chance) {
  const counts = { states: chance.between(1, 3), inputs: chance.between(1, 3), outputs: 1 };
  const holds = Array.from({ length: counts.states }, () => (chance.percent(50) ? chance.between(1, 4) : 0));
  return {
    kind: 'holds', counts, start: chance.below(counts.states), cycle: chance.between(1, 3), outputs: holds.map(() => 0),
    next: holds.map(() => Array.from({ length: counts.inputs }, () => chance.below(counts.states))),
    holds, delayed: holds.map((hold) => (hold > 0 ? chance.below(2 ** counts.inputs) : 0)), timers: [], rest: [], names: plainNames(counts, 0),
  };
}

/** The same with one or two timers in the place of the holds. */
export function withTimers(table, chance) {
  const { counts } = table;
  const timers = Array.from({ length: chance.between(1, 2) }, () => ({
    length: chance.between(1, 4), region: chance.below(2 ** counts.states),
    delays: Array.from({ length: counts.states }, () => chance.below(2 ** counts.inputs)),
  }));
  const none = table.holds.map(() => 0);
  return { ...table, kind: 'timers', holds: none, delayed: none, timers, names: plainNames(counts, timers.length) };
}

/** A question about it: some states, and at least one input. */
export function questionOf(chance, { counts: { states, inputs } }) {
  const some = (count) => (chance.percent(50) ? 2 ** count - 1 : chance.below(2 ** count));
  return { states: some(states), inputs: chance.between(1, 2 ** inputs - 1), moves: chance.percent(70) ? 1 : chance.below(4) };
}

/** A journal by chance: cycles of any length that the table allows, changes before the poll and behind it. */
export function journalOf(table, chance, cycles) {
  const bytes = [...recordBytes('stimulus', 'input', 0, chance.below(table.counts.inputs))];
  const put = (kind, time, value = 0) => bytes.push(...recordBytes('stimulus', kind, time, value));
  const change = (from, to) => chance.percent(40) && put('change', chance.between(from, to), chance.below(table.counts.inputs));
  let start = 0;
  for (let k = 0; k < cycles; k++) {
    const tick = start + chance.between(1, table.cycle);
    const poll = chance.between(start + 1, tick);
    const test = chance.between(poll, tick);
    change(start, poll - 1);
    put('poll', poll);
    change(poll, test);
    put('test', test);
    change(test, tick);
    put('tick', tick);
    start = tick;
  }
  put('end', start);
  const ran = library.run(encodeTable(table), Uint8Array.from(bytes));
  if (!ran.ok) throw new Error(`refused ${ran.number} at ${ran.place}`);
  return ran.bytes;
}
