/** Where everything of a matrix stands. */

import { headsFor } from '../column-heads.js';
import { nameOf } from '../name-of.js';
import { thousands } from '../names.js';
import { has } from '../sets.js';
import { widthOf } from '../text-width.js';
import { columnsOf } from './columns.js';

/** @typedef {import('../types.js').Table} Table */
/** @typedef {import('../types.js').Names} Names */
/** @typedef {import('./columns.js').Column & {x: number, width: number}} Placed */
/** @typedef {{title: string, words: string[], bold?: boolean, x: number, width: number}} Fact   of all rows, at their heads */

/**
 * @typedef {Object} Plan
 * @property {boolean} numbered   cells have numbers of states, not names
 * @property {Placed[]} columns
 * @property {import('../column-heads.js').Heads} heads
 * @property {Fact[]} facts       number, name, output, hold or timers
 * @property {number} left        where rows begin
 * @property {number} right       where they end
 * @property {number} top         of the first row
 * @property {number} bottom      of the last row
 */

export const MARGIN = 12;
export const ROW = 26;
export const SIZE = 12.5;
/** For the arrow to the initial state, and for a number on a lit path. */
const MARKS = 46;
/** Names stand in the cells if the picture is not shrunk to less for them. */
const LEAST_SCALE = 0.85;
const LONGEST_FACT = 260;

/**
 * What can hold a test in a state.
 * @param {Table} table @param {Names} names @param {number} state
 */
function holdOf(table, names, state) {
  if (table.kind === 'holds') return thousands(table.holds[state]);
  return table.timers.flatMap((timer, k) => (has(timer.region, state) && timer.delays[state] !== 0 ? [nameOf(names.timers, k)] : [])).join(', ');
}

/**
 * The columns at the heads of the rows.
 * @param {Table} table @param {Names} names @param {boolean} numbered
 * @returns {Fact[]}
 */
function factsOf(table, names, numbered) {
  const each = (/** @type {(state: number) => string} */ say) => table.outputs.map((_, state) => say(state));
  const facts = [
    ...(numbered ? [{ title: 'no.', words: each(String) }] : []),
    { title: 'state', words: each((state) => nameOf(names.states, state)), bold: true },
    { title: 'output', words: each((state) => nameOf(names.outputs, table.outputs[state])) },
    { title: table.kind === 'holds' ? 'hold' : 'timers', words: each((state) => holdOf(table, names, state)) },
  ];
  let x = MARGIN + MARKS;
  return facts.map((fact) => {
    const width = Math.min(LONGEST_FACT, Math.max(...[fact.title, ...fact.words].map((words) => widthOf(words, SIZE, fact.bold)))) + 16;
    x += width;
    return { ...fact, x: x - width, width };
  });
}

/**
 * @param {Table} table @param {Names} names @param {number} room @param {boolean} numbered
 * @returns {Plan}
 */
function laidOut(table, names, room, numbered) {
  const facts = factsOf(table, names, numbered);
  const columns = columnsOf(table, names.inputs);
  const start = facts[facts.length - 1].x + facts[facts.length - 1].width;
  const inside = (/** @type {number} */ state) => widthOf(numbered ? String(state) : nameOf(names.states, state), SIZE);
  const least = columns.map(({ inputs }) => Math.max(24, ...table.next.map((row) => inside(row[inputs[0]]))) + 10);
  const heads = headsFor(columns.map((column) => column.names), least, room - start - MARGIN);
  let x = start;
  const placed = columns.map((column, k) => {
    x += heads.widths[k];
    return { ...column, x: x - heads.widths[k], width: heads.widths[k] };
  });
  const top = MARGIN + heads.height;
  return { numbered, columns: placed, heads, facts, left: MARGIN, right: x, top, bottom: top + ROW * table.outputs.length };
}

/**
 * With names in the cells if they have room, else with numbers.
 * @param {Table} table @param {Names} names @param {number} room
 * @returns {Plan}
 */
export function planOf(table, names, room) {
  const named = laidOut(table, names, room, false);
  return named.right + MARGIN <= room / LEAST_SCALE ? named : laidOut(table, names, room, true);
}
