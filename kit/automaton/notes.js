/** What stands below an automaton: the cycle bound, and the timers with their regions. */

import { group, text } from '../svg.js';
import { widthOf, wrap } from '../text-width.js';
import { nameOf } from '../name-of.js';
import { thousands } from '../names.js';
import { members } from '../sets.js';

/** @typedef {import('../types.js').Table} Table */
/** @typedef {import('../types.js').Names} Names */

const SIZE = 12.5;
const LEADING = 18;

/**
 * The cycle bound, then a line for each timer.
 * @param {Table} table @param {Names} names
 * @returns {string[]}
 */
export function notes(table, names) {
  return [`cycle at most ${thousands(table.cycle)}`, ...table.timers.map((timer, k) => {
    const states = members(timer.region).map((state) => nameOf(names.states, state)).join(', ') || 'no state';
    return `timer ${nameOf(names.timers, k)}: ${thousands(timer.length)} from the entry into ${states}`;
  })];
}

/**
 * The notes in lines, in the colours of the timers.
 * @param {{table: Table, names: Names, theme: import('../theme.js').Theme}} scene @param {number} room @param {boolean} [centred]
 * @returns {{height: number, markup: (x: number, y: number) => import('../svg.js').Content}}
 */
export function notesOf({ table, names, theme }, room, centred = true) {
  const fill = (/** @type {number} */ k) => (k === 0 ? theme.quiet : theme.timers[(k - 1) % theme.timers.length]);
  const lines = notes(table, names).flatMap((note, k) => wrap(note, room, SIZE).slice(0, 4).map((line) => ({ line, fill: fill(k) })));
  const indent = centred ? Math.max(0, (room - Math.max(...lines.map(({ line }) => widthOf(line, SIZE)))) / 2) : 0;
  return {
    height: lines.length * LEADING + 10,
    markup: (x, y) => group({ class: 'notes' },
      lines.map(({ line, fill: ink }, k) => text(x + indent, y + 12 + LEADING * k, line, { size: SIZE, fill: ink }))),
  };
}
