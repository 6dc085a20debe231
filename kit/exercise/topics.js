/**
 * What students get wrong, as topics of exercises: the rule that is right, the wrong rules that an exercise about it tells apart from that, and
 * why a table cannot show it.
 */

import { openMind } from '../explain/machine.js';
import { SLIPS } from '../explain/slips.js';
import { has } from '../sets.js';
import { DELAYS_ALL, SEES_WHAT_WENT, clockWord } from './wrong-rules.js';

/** @typedef {import('../types.js').Table} Table */
/** @typedef {import('./wrong-rules.js').WrongRule} WrongRule */

/**
 * @typedef {Object} Topic
 * @property {string} name
 * @property {string} title                        what is right
 * @property {(clocks: Clocks) => WrongRule[]} wrong   those that this table can show
 * @property {(clocks: Clocks) => string|null} cannot  why the table cannot show it; null if it may
 */

/** @typedef {{clock: number, length: number, state: number, delays: boolean[]}} Delaying   a clock that delays inputs in a state */

/**
 * @typedef {Object} Clocks
 * @property {Table} table
 * @property {'hold'|'timer'} word
 * @property {Set<number>} reached   the states that can be reached
 * @property {Delaying[]} delaying   in these states
 */

/**
 * The states that can be reached from the initial one.
 * @param {Table} table
 */
function reachedIn({ start, next }) {
  const reached = new Set([start]);
  for (const state of reached) for (const to of next[state]) reached.add(to);
  return reached;
}

/**
 * @param {Table} table
 * @returns {Clocks}
 */
export function clocksOf(table) {
  const { clocks, here } = openMind(table, 0);
  const reached = reachedIn(table);
  const inputs = Array.from({ length: table.counts.inputs }, (_, input) => input);
  const delaying = [...reached].flatMap((state) => here[state].map((clock) => ({
    clock, state, length: clocks[clock].length, delays: inputs.map((input) => has(clocks[clock].delays[state], input)),
  }))).filter(({ length, delays }) => length > 0 && delays.includes(true));
  return { table, word: clockWord(table), reached, delaying };
}

/**
 * The first way in which a slip is made, or those that are named.
 * @param {import('../types.js').SlipName} name @param {number[]} [ways]
 */
const slips = (name, ways = [0]) => ways.map((way) => SLIPS.filter((slip) => slip.name === name)[way]);

/** @param {Clocks} clocks */
const noClock = ({ delaying, word }) => (delaying.length > 0 ? null : `no state that can be reached has a ${word} that delays an input`);

/**
 * Does a tick lead back to a state in which a clock delays something?
 * @param {Clocks} clocks
 */
const leadsBack = ({ delaying, table }) => delaying.some(({ state }) => table.next[state].includes(state));

const [BY_BACK, BY_MOVE, , BY_TICK] = slips('hold-restarted', [0, 1, 2, 3]);

/**
 * Is there a move inside a timer's region to a state in which it delays something?
 * @param {Clocks} clocks
 */
function movesInside({ delaying, table, reached }) {
  return delaying.some(({ clock, state }) => [...reached].some((from) => (
    from !== state && has(table.timers[clock].region, from) && table.next[from].includes(state))));
}

/** @type {Topic[]} */
export const TOPICS = [
  {
    name: 'poll', title: 'an input is seen only if it stands at a poll', wrong: () => [SEES_WHAT_WENT],
    cannot: ({ table }) => {
      if (table.counts.inputs < 2) return 'it has one input only, so that nothing can come and go';
      return table.next.some((row) => new Set(row).size > 1) ? null : 'in each of its states all inputs lead to the same state';
    },
  },
  {
    name: 'entry', title: 'a hold runs from the entry, not from each arrow back to the state',
    wrong: (clocks) => (leadsBack(clocks) ? [BY_TICK, BY_BACK] : [BY_TICK]), cannot: noClock,
  },
  {
    name: 'delayed', title: 'a hold governs only the inputs that are drawn as delayed', wrong: () => [DELAYS_ALL],
    cannot: (clocks) => {
      if (noClock(clocks)) return noClock(clocks);
      return clocks.delaying.some(({ delays }) => delays.includes(false)) ? null : `each ${clocks.word} delays every input`;
    },
  },
  { name: 'passed', title: 'a hold ends when it is passed, not when it is reached', wrong: () => slips('hold-reached'), cannot: noClock },
  {
    name: 'test', title: 'a hold is measured at the test', wrong: () => slips('wrong-instant'),
    cannot: (clocks) => noClock(clocks) ?? (clocks.table.cycle > 1 ? null : 'its cycle bound is 1, so that poll, test and tick come at one time'),
  },
  {
    name: 'change', title: "a hold does not run from the input's change", wrong: () => slips('on-delay', [0, 1]),
    cannot: (clocks) => noClock(clocks) ?? (clocks.table.counts.inputs > 1 ? null : 'it has one input only, which never changes'),
  },
  {
    name: 'region', title: 'a timer runs on inside its region', wrong: () => [BY_MOVE],
    cannot: (clocks) => {
      if (clocks.table.kind === 'holds') return 'it has holds; a hold is over one state, and only timers have a region to move in';
      return noClock(clocks) ?? (movesInside(clocks) ? null : 'no move inside the region of a timer leads to a state in which it delays an input');
    },
  },
];
