/** Answers that are no refusals, in sentences, with the names of the case. The numbers are the library's. */

import { counted, listed, quoted, say } from './names.js';
import { members } from './sets.js';
import { accepted, clocks } from './trace.js';

/** @typedef {import('./types.js').Table} Table */
/** @typedef {import('./types.js').Acceptance} Acceptance */
/** @typedef {import('./types.js').Explanation} Explanation */
/** @typedef {import('./types.js').Trace} Trace */
/** @typedef {import('./types.js').Clock} Clock */

/**
 * @param {string[]} names @param {number} set
 */
function named(names, set) {
  return listed(members(set).map((member) => quoted(names, member))) || 'none';
}

/**
 * As: 'idle' or 'busy'.
 * @param {string[]} names @param {number} set
 */
function either(names, set) {
  return listed(members(set).map((member) => quoted(names, member)), 'or') || 'none of them';
}

/**
 * The line that the program `checkjournal` prints.
 * @param {Acceptance} answer
 */
export function acceptanceLine(answer) {
  const { end, cycles, moves, state, output, left, longest } = answer;
  return `accepted end=${end} cycles=${cycles} moves=${moves} state=${state} output=${output} left=${left} longest=${longest}`;
}

/**
 * @param {{number: number, place: number}} refusal
 */
export function refusalLine({ number, place }) {
  return `refused ${number} at ${place}`;
}

/**
 * @param {Table} table @param {Acceptance} answer
 * @returns {string[]}
 */
export function sayAcceptance({ names, cycle }, answer) {
  const { end, cycles, moves, state, output, left, longest } = answer;
  const sentences = [say`The journal is a run of this table. It ends at ${end} in state ${quoted(names.states, state)} with output `
    + say`${quoted(names.outputs, output)}, after ${counted(cycles, 'cycle')} and ${counted(moves, 'move')}.`];
  if (cycles > 0) sentences.push(say`Its longest cycle took ${longest}, of at most ${cycle}.`);
  if (left > 0) sentences.push(say`At a held test up to ${left} was left until the hold was passed.`);
  return sentences;
}

/**
 * @param {Trace} trace @param {Clock} clock @param {number} now
 */
function sayClock({ names }, clock, now) {
  const what = clock.timer === null ? 'Its hold' : say`Timer ${quoted(names.timers, clock.timer)}`;
  const free = clock.from + clock.length + 1;
  const runs = say`${what} of ${clock.length} runs since ${clock.from} and delays ${named(names.inputs, clock.delays)}`;
  return free > now ? say`${runs}: the first test that can be free is at ${free}, in ${free - now}.`
    : say`${runs}; it is passed since ${free}.`;
}

/**
 * What holds at the end of what was accepted, and for how long.
 * @param {Trace} trace
 * @returns {string[]}
 */
export function sayLeft(trace) {
  const last = accepted(trace)[accepted(trace).length - 1];
  if (!last?.after) return ['Not even the opening is accepted.'];
  const now = last.record.time;
  const { state: q, entry } = last.after;
  const state = say`At ${now} the state is ${quoted(trace.names.states, q)}, entered at ${entry}.`;
  const delaying = clocks(trace.table, last.after).filter(({ delays }) => delays !== 0);
  if (delaying.length === 0) return [state, 'Nothing is delayed in it.'];
  return [state, ...delaying.map((clock) => sayClock(trace, clock, now))];
}

/**
 * @param {Table} table @param {{states: number, inputs: number, moves?: number}} question
 * @param {{time: number, target: number, tight?: number}} answer
 * @returns {string[]}
 */
export function sayReaction({ names }, question, answer) {
  const [states, inputs] = [either(names.states, question.states), either(names.inputs, question.inputs)];
  const over = question.moves === undefined ? '' : say` over ${counted(question.moves, 'move')}`;
  const sentences = [answer.target === 0
    ? say`That the state is ${states} and the input is ${inputs} never lasts for ${answer.time}${over}: no state is left to be in.`
    : say`As long as the state is ${states} and the input is ${inputs}, it takes at most ${answer.time}${over} `
      + say`until the state is ${either(names.states, answer.target)}.`];
  if (answer.tight !== undefined) sentences.push(say`In whole units ${answer.tight} is enough.`);
  return sentences;
}

/**
 * A worst path, as: 'quiet' under 'silence' to 'watch'.
 * @param {Table} table @param {number[]} path  state, input, state ..
 */
export function sayPath({ names }, path) {
  if (path.length === 0) return 'There is no state outside the target to wait in.';
  if (path.length === 1) return say`The longest wait is in ${quoted(names.states, path[0])}.`;
  const steps = path.map((member, k) => (k % 2 === 0 ? quoted(names.states, member) : say`under ${quoted(names.inputs, member)} to`));
  return say`The longest way: ${steps.join(' ')}.`;
}

/**
 * @param {{kept: number, dropped: number, number: number, place: number}} answer
 * @param {Explanation|null} why  of the refusal that stopped it
 * @returns {string[]}
 */
export function saySalvage({ kept, dropped, number, place }, why) {
  if (number === 0) return ['The journal is accepted as it is, and comes back unchanged.'];
  const upTo = kept === 4 ? 'the opening' : 'the last sound tick';
  const sentences = [say`The first ${counted(kept, 'byte')} are kept, up to ${upTo}, and an end is added; `
    + say`${counted(dropped, 'byte')} ${dropped === 1 ? 'is' : 'are'} dropped.`, say`It was stopped by refusal ${number} at ${place}.`];
  return why ? [...sentences, ...why.sentences] : sentences;
}

/**
 * @param {number} changed
 * @returns {string[]}
 */
export function sayConverted(changed) {
  if (changed === 0) return ['The table passes as it is, and comes back unchanged.'];
  return [say`In ${counted(changed, 'state')} without a hold the delayed inputs were taken out, which never had an effect.`];
}

/**
 * Where the time went, a sentence for each state.
 * @param {Table} table @param {{journals: number, dwell: number[], pairs: number[][], entries: number[]}} report
 * @returns {string[]}
 */
export function sayDwell({ names }, { journals, dwell, pairs, entries }) {
  const all = dwell.reduce((sum, each) => sum + each, 0);
  const share = (/** @type {number} */ slots) => (all === 0 ? '0.0' : (100 * slots / all).toFixed(1));
  const states = dwell.map((slots, q) => {
    const by = listed(pairs[q].flatMap((each, a) => (each > 0 ? [say`${each} with ${quoted(names.inputs, a)}`] : [])));
    const time = say`${slots} of the time (${share(slots)} %)${by ? say`, ${by}` : ''}`;
    return say`State ${quoted(names.states, q)}: ${time}; entered ${counted(entries[q], 'time')}.`;
  });
  return [say`${counted(journals, 'journal')} of ${all} in all.`, ...states];
}
