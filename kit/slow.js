/**
 * A slow run beside a reaction time: a journal in which states and inputs stay as long as could be found, and the state is still outside the
 * target. The search (slow/) only proposes inputs and times; the library makes the journal of them, checks it, and says the times.
 */

import { decodeTable, recordBytes } from './fields.js';
import { counted, quoted, say } from './names.js';
import { has } from './sets.js';
import { Search, recordsTo } from './slow/search.js';
import { inputs, traceJournal, visits } from './trace.js';

/** @typedef {import('./types.js').Library} Library */
/** @typedef {import('./types.js').Names} Names */
/** @typedef {import('./types.js').Table} Table */
/** @typedef {import('./types.js').Trace} Trace */
/** @typedef {import('./times.js').Question} Question */

/**
 * @typedef {Object} Slow
 * @property {Uint8Array} journal    accepted
 * @property {number} slots          so many have the states and inputs that were asked about
 * @property {number} from           the first of them
 * @property {number} state          of the slot behind them, outside the target
 */

/**
 * @param {import('./slow/search.js').Slowest} slowest
 */
function stimulusOf({ last, end }) {
  const fields = recordsTo(last).map(({ kind, time, value }) => recordBytes('stimulus', /** @type {any} */ (kind), time, value));
  return Uint8Array.from([...fields, recordBytes('stimulus', 'end', end, 0)].flat());
}

/**
 * The spans of slots that pass a test.
 * @param {import('./types.js').Visit[]} runs @param {(member: number) => boolean} passes @param {number} end
 */
function spansOf(runs, passes, end) {
  return runs.filter(({ state }) => passes(state)).map(({ from, to }) => ({ from, to: to ?? end }));
}

/**
 * How many slots up to the last one, as the accepted records show them, have these states and inputs without a break.
 * @param {Trace} trace @param {Question} question @param {number} last
 */
function rowBefore(trace, question, last) {
  const slots = (/** @type {{from: number, to: number}[]} */ spans, /** @type {number} */ slot) => spans.some(({ from, to }) => from <= slot && slot < to);
  const states = spansOf(visits(trace), (state) => has(question.states, state), last);
  const present = spansOf(inputs(trace), (input) => has(question.inputs, input), last);
  let row = 0;
  while (row < last && slots(states, last - 1 - row) && slots(present, last - 1 - row)) row += 1;
  return row;
}

/**
 * The journal of what was found, if the library accepts it and its slots are what was looked for; else null.
 * @param {Library} library @param {Uint8Array} bytes @param {Question} question @param {number} target
 * @param {import('./slow/search.js').Slowest} slowest
 * @returns {Slow|null}
 */
function slowOf(library, bytes, question, target, slowest) {
  const ran = library.run(bytes, stimulusOf(slowest));
  const trace = ran.ok ? traceJournal(library, { table: bytes, journal: ran.bytes, form: 'journal' }) : null;
  if (!ran.ok || !trace?.answer) return null;
  const last = trace.answer.end - 1;
  const slots = rowBefore(trace, question, last);
  const at = visits(trace).filter(({ from }) => from <= last).pop();
  if (!at || has(target, at.state) || slots !== slowest.slots) return null;
  return { journal: ran.bytes, slots, from: last - slots, state: at.state };
}

/** A search for a slow run, which goes on for as long as it is let. */
export class SlowRun {
  /**
   * @param {Library} library @param {Uint8Array} bytes  a table that passes, with holds
   * @param {Question} question @param {any} answer  the library's, a time
   */
  constructor(library, bytes, question, answer) {
    this.library = library;
    this.bytes = bytes;
    this.question = question;
    this.answer = answer;
    /** This is enough, as the library says; a time that is less may be true. @type {number} */
    this.least = answer.tight;
    const { target, time } = answer;
    this.search = new Search(/** @type {Table} */ (decodeTable(bytes)), { ...question, target, time, enough: this.least - 1 });
  }

  /**
   * Is there nothing more to be found?
   * @param {number} milliseconds
   */
  go(milliseconds) {
    return this.search.go(milliseconds);
  }

  /** @returns {Slow|null} */
  found() {
    const { slowest } = this.search;
    return slowest && slowOf(this.library, this.bytes, this.question, this.answer.target, slowest);
  }
}

/**
 * What is said of it: what was found, and that no shorter time is true only where that follows.
 * @param {Names} names @param {SlowRun} search @param {Slow|null} slow
 * @returns {string[]}
 */
export function saySlow(names, search, slow) {
  if (!slow) return ['No run was found in which the state is outside the target behind such slots and which a journal has room for.'];
  const { slots, from, state } = slow;
  const { least } = search;
  const found = say`In this run states and inputs stay for ${counted(slots, 'slot')}, from ${from} on, and at ${from + slots} the state is still `
    + say`${quoted(names.states, state)}.`;
  if (slots + 1 === least) return [found, say`So no time below ${least} is true of this table.`];
  return [found, say`A time of ${slots} is not enough. Whether a time between ${slots} and ${least} is, this does not say.`];
}
