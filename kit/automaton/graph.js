/**
 * A table as a graph: one edge for each state and each state that it leads to, with the inputs that lead there.
 */
import { delayedIn } from '../delayed-in.js';
import { thousands } from '../names.js';
import { has, members } from '../sets.js';
import { nameOf } from '../name-of.js';

/** @typedef {import('../types.js').Table} Table */
/** @typedef {import('../types.js').Names} Names */

/**
 * @typedef {Object} Edge
 * @property {number} from
 * @property {number} to
 * @property {number[]} free      the inputs that lead there at once
 * @property {number[]} delayed   the inputs that lead there when the hold is passed
 * @property {{free: string, delayed: string}} says   both, as the picture names them
 */

/**
 * @param {Table} table @param {Names} [names]
 * @returns {Edge[]}  loops too
 */
export function edgesOf(table, names = table.names) {
  return table.next.flatMap((row, from) => {
    const waits = delayedIn(table, from);
    return withWords([...new Set(row)].map((to) => {
      const inputs = row.map((_, input) => input).filter((input) => row[input] === to);
      return { from, to, free: inputs.filter((input) => !has(waits, input)), delayed: inputs.filter((input) => has(waits, input)) };
    }), names.inputs);
  });
}

/**
 * The edges of one state with their words. Where a single one has more inputs than can be named, and most of all, these are all others.
 * @param {Omit<Edge, 'says'>[]} edges @param {string[]} names
 * @returns {Edge[]}
 */
function withWords(edges, names) {
  const long = edges.filter(({ free, delayed }) => tooLong(free, names) || tooLong(delayed, names));
  const rest = edges.length === 1 ? 'every input' : 'all others';
  return edges.map((edge) => {
    const { free, delayed } = edge;
    const says = { free: listOf(free, names), delayed: listOf(delayed, names) };
    if (long.length !== 1 || edge !== long[0] || 2 * (free.length + delayed.length) <= names.length) return { ...edge, says };
    if (!tooLong(free, names)) return { ...edge, says: { ...says, delayed: free.length === 0 ? rest : 'all others' } };
    return { ...edge, says: { free: rest, delayed: tooLong(delayed, names) ? `${delayed.length} delayed` : says.delayed } };
  });
}

/** With more pairs of arrows than this for each state, so many cross that none can be followed: found by looking at tables of 2 to 32 states. */
const TANGLED = 200;

/**
 * Would the arrows be a tangle? Loops cross nothing, and do not count.
 * @param {Table} table
 */
export function isTangled(table) {
  const arrows = table.next.reduce((sum, row, from) => sum + new Set(row.filter((to) => to !== from)).size, 0);
  return arrows ** 2 / table.counts.states > TANGLED;
}

/**
 * @typedef {Object} Words
 * @property {string} output
 * @property {string} name
 * @property {{text: string, timer: number|null}[]} holds   what can hold a test here; empty if nothing can
 * @property {string} delayed   the names of all inputs that are delayed here
 */

/** Longer lists of inputs are not told by name; whoever points at them sees them all. */
const MOST_INPUTS = 6;
const LONGEST_LIST = 26;

/** @param {number[]} inputs @param {string[]} names */
export const namesOf = (inputs, names) => inputs.map((input) => nameOf(names, input)).join(', ');

/** @param {number[]} inputs @param {string[]} names */
const tooLong = (inputs, names) => inputs.length > MOST_INPUTS || (inputs.length > 2 && namesOf(inputs, names).length > LONGEST_LIST);

/**
 * Inputs as a picture names them: all by name if they are few.
 * @param {number[]} inputs @param {string[]} names
 */
export function listOf(inputs, names) {
  if (inputs.length === names.length && names.length > 2) return 'every input';
  return tooLong(inputs, names) ? `${inputs.length} inputs` : namesOf(inputs, names);
}

/** So many letters of it stand in a circle. */
const LONGEST_BUT = 13;

/**
 * What a hold delays: where that is all but a few, those few, if their names are short.
 * @param {number[]} inputs @param {string[]} names
 */
function delayedList(inputs, names) {
  const others = names.map((_, input) => input).filter((input) => !inputs.includes(input));
  const allBut = `all but ${namesOf(others, names)}`;
  return tooLong(inputs, names) && others.length > 0 && allBut.length <= LONGEST_BUT ? allBut : listOf(inputs, names);
}

/**
 * What stands in a state: its output, its name, and its hold with the inputs that it delays.
 * @param {Table} table @param {Names} names @param {number} state
 * @returns {Words}
 */
export function wordsOf(table, names, state) {
  const delays = (/** @type {number} */ set) => `{${delayedList(members(set), names.inputs)}}`;
  const hold = table.holds[state] === 0 ? '0' : `${thousands(table.holds[state] ?? 0)}, ${delays(table.delayed[state])}`;
  const timers = table.timers.map((timer, k) => ({ text: `${nameOf(names.timers, k)} ${delays(timer.delays[state])}`, timer: k }))
    .filter(({ timer }) => has(table.timers[timer].region, state) && table.timers[timer].delays[state] !== 0);
  const holds = table.kind === 'holds' ? [{ text: hold, timer: null }] : timers;
  const delayed = namesOf(members(delayedIn(table, state)), names.inputs);
  return { output: nameOf(names.outputs, table.outputs[state]), name: nameOf(names.states, state), holds, delayed };
}
