import { has } from './sets.js';

/**
 * The inputs that are delayed in a state: by its hold, or by a timer whose region has it.
 * @param {import('./types.js').Table} table @param {number} state
 * @returns {number}  a set
 */
export function delayedIn(table, state) {
  if (table.kind === 'holds') return table.holds[state] > 0 ? table.delayed[state] : 0;
  return table.timers.filter((timer) => has(timer.region, state)).reduce((set, timer) => set | timer.delays[state], 0) >>> 0;
}
