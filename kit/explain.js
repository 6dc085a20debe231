/**
 * A refusal as sentences, with the names and numbers of the case. Nothing is judged: the number and the place are the library's, and a
 * sentence only says why.
 */

import { sayNumber } from './explain/memory.js';
import { explainTrace } from './explain/records.js';
import { explainTable, isTableRefusal } from './explain/table.js';
import { counted, numbered, quoted, say } from './names.js';
import { has, members } from './sets.js';

export { explainTable, isTableRefusal } from './explain/table.js';
export { narrate } from './narrate.js';

/** @typedef {import('./types.js').Table} Table */
/** @typedef {import('./types.js').Trace} Trace */
/** @typedef {import('./types.js').Refusal} Refusal */
/** @typedef {import('./types.js').Explanation} Explanation */

/** Every number that a function of the library can give, in a few words. 29 is given no more. */
export const MEANINGS = new Map([
  [1, 'the table ends too soon'],
  [2, 'a field of the table has the wrong tag or length'],
  [3, 'a count, or the initial state, is out of range'],
  [4, 'the cycle bound is out of range'],
  [5, 'an output or a next state is out of range'],
  [6, 'a hold is too long'],
  [7, 'a delayed input does not exist'],
  [8, 'bytes follow the table'],
  [9, 'a set names a member that does not exist'],
  [10, 'a next state is outside the states'],
  [11, 'inputs are delayed in a state without a hold'],
  [12, 'a timer names a state or an input that does not exist'],
  [13, "a timer's length is out of range"],
  [14, 'the table has timers, and the calculator takes none'],
  [19, 'the journal, or the stimulus, is too long'],
  [20, 'the bytes end before the end field is complete'],
  [21, 'a tag is unknown, or its length is wrong'],
  [22, 'an opening is missing or stands in the middle, or bytes follow the end'],
  [23, 'a time, an input, a verdict or a state is out of range'],
  [24, 'a time is earlier than that of the record before'],
  [25, 'a record is later than its cycle may last'],
  [26, 'a record comes out of turn'],
  [27, 'a poll is not later than the last change, or than the start of its cycle'],
  [28, 'a polled input, a verdict or a state is not the one that the machine has'],
  [30, 'the memory that was lent is too short'],
  [32, 'more moves than 32 were asked for'],
  [33, 'the memory for the sums or the path is too short'],
  [34, 'the journal would be too long'],
  [35, 'the report is full'],
  [36, 'a number of the memory is out of range'],
]);

/**
 * @param {string[]} sentences @param {number} [place]
 * @returns {Explanation}
 */
function plain(sentences, place = 0) {
  return { sentences, slip: null, slipName: null, wanted: null, blame: { place, length: 0 } };
}

/**
 * Why a journal or a stimulus is refused.
 * @param {Trace} trace  one that was refused
 */
export function explainJournal(trace) {
  return explainTrace(trace);
}

/**
 * @param {Table} table @param {number} set @param {'states'|'inputs'} which
 */
function explainMember(table, set, which) {
  const count = table.counts[which];
  const [first] = members(set).filter((member) => member >= count);
  return plain([say`The set of ${which} names number ${first}, but ${numbered(count, which === 'states' ? 'state' : 'input')}.`]);
}

/**
 * @param {Table} table @param {number} place @param {{states: number}} question
 */
function explainOutside(table, place, { states }) {
  const [p, a] = [Math.floor(place / table.counts.inputs), place % table.counts.inputs];
  const { names } = table;
  const [from, input, to] = [quoted(names.states, p), quoted(names.inputs, a), quoted(names.states, table.next[p][a])];
  const sentences = [
    say`The states do not hold together under these inputs: from ${from} input ${input} leads to ${to}, which is not among them.`,
    say`Add ${to} to the states, or leave ${from} or ${input} out.`,
  ];
  return plain(has(states, p) ? sentences : sentences.slice(0, 1), place);
}

/**
 * Why a reaction time is not given.
 * @param {Table} table @param {Refusal} refusal @param {{states: number, inputs: number, moves?: number}} question
 * @returns {Explanation}
 */
export function explainReaction(table, { number, place }, question) {
  if (number === 9) return explainMember(table, place === 0 ? question.states : question.inputs, place === 0 ? 'states' : 'inputs');
  if (number === 10) return explainOutside(table, place, question);
  if (number === 14) return plain(['This table has timers. Reaction times are calculated for tables with holds.']);
  if (number === 32) return plain([say`${question.moves ?? 0} moves were asked for; at most 32 are calculated.`]);
  return explainRoom({ number, place });
}

/**
 * What the room was for, where the answer is that there is too little of it.
 * @param {Refusal} refusal @param {{bytes?: number, numbers?: number}} [given]  of a short journal its bytes, of a report its numbers
 * @returns {Explanation}
 */
export function explainRoom({ number }, given = {}) {
  if (number === 34) {
    const records = Math.floor(((given.bytes ?? 0) - 9) / 6);
    const long = given.bytes ? say`would have ${11 + 8 * records} bytes` : 'would be too long';
    return plain([say`Written out, the journal that this short journal stands for ${long}; a journal has at most 65,536.`,
      'The short journal itself can be checked as it is.']);
  }
  if (number === 35) return plain(['The report has 1,000 journals already, and takes no more. Begin a new one.']);
  if (number === 33) return plain(['The memory for the sums, or for the path, is too short for so many moves.']);
  const numbers = given.numbers === undefined ? '' : say` The report has room for ${counted(given.numbers, 'number')}.`;
  return plain([say`The memory that was lent is too short for what is to be written.${numbers}`]);
}

/**
 * Which number of a live run's memory is out of range, and what it may be.
 * @param {Table} table @param {Refusal} refusal @param {Uint32Array} memory
 * @returns {Explanation}
 */
export function explainMemory(table, { place }, memory) {
  return plain([sayNumber(table, memory, place), 'It is not the memory that a live run under this table has left.'], place);
}

/**
 * The sentences for any refusal of an entry that takes a table: of the table itself, or of what was given with it.
 * @param {Refusal} refusal @param {{tableBytes: Uint8Array, names?: import('./types.js').Names|null, trace?: Trace|null}} given
 * @returns {Explanation}
 */
export function explainRefusal(refusal, { tableBytes, names, trace }) {
  if (isTableRefusal(refusal.number)) return explainTable(tableBytes, refusal, names);
  return trace?.refused ? explainTrace(trace) : explainRoom(refusal);
}
