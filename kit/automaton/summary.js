import { nameOf } from '../name-of.js';
import { thousands } from '../names.js';

/**
 * A table in a few words, for those who do not see its picture.
 * @param {import('../types.js').Table} table @param {import('../types.js').Names} names
 */
export function summary(table, names) {
  const { states: q, inputs: i, outputs: o } = table.counts;
  const start = nameOf(names.states, table.start);
  return `${q} states, ${i} inputs, ${o} outputs; initial state ${start}, cycle at most ${thousands(table.cycle)}`;
}
