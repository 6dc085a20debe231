/**
 * A run that is made event by event. The live runtime finds what a test and a tick say; or a person says it, and the live check judges.
 * Stimulus and journal grow with what was taken. Nothing is judged here.
 */

import { FORMS, recordBytes } from './fields.js';
import { newMemory } from './library.js';

/** @typedef {import('./types.js').Library} Library */
/** @typedef {import('./types.js').Kind} Kind */
/** @typedef {import('./types.js').Refusal} Refusal */
/** @typedef {'stimulus'|'journal'} Grown */

const [PHASE, PRESENT, CYCLE_START] = [1, 2, 7];
/** @type {Grown[]} */
const GROWN = ['stimulus', 'journal'];
const LONGEST = recordBytes('journal', 'change', 0, 0).length;
/** @type {Kind[]} */
const NEXT = ['poll', 'test', 'tick', 'tick'];

export class Live {
  /**
   * @param {Library} library @param {{table: Uint8Array, cycle: number}} given  a table that passes, and its longest cycle
   */
  constructor(library, { table, cycle }) {
    this.library = library;
    this.table = table;
    this.cycle = cycle;
    this.memory = newMemory();
    /** @type {Record<Grown, number[]>} */
    this.bytes = { stimulus: [], journal: [] };
    /** The time of the last record. */
    this.time = 0;
    /** How many records were taken, the opening among them. */
    this.records = 0;
  }

  /** What the controller does next. */
  get next() {
    return NEXT[this.memory[PHASE]];
  }

  /** The last time at which it may. */
  get deadline() {
    return this.memory[CYCLE_START] + this.cycle;
  }

  /** The input at the sensor. */
  get present() {
    return this.memory[PRESENT];
  }

  /** Might a record more, with the end behind it, make texts that are too long to be looked at as a whole? */
  get full() {
    return GROWN.some((form) => this.bytes[form].length + 2 * LONGEST > FORMS[form].max);
  }

  /**
   * An event: what its record says is found by the live runtime.
   * @param {Kind} kind @param {number} time @param {number} [value]  of an input
   * @returns {{form: Grown, bytes: Uint8Array}|null}  if it is refused: what was given, with all before it
   */
  take(kind, time, value = 0) {
    const event = recordBytes('stimulus', kind, time, value);
    const answer = this.library.live(this.table, this.memory, Uint8Array.from(event));
    if (!answer.ok) return { form: 'stimulus', bytes: Uint8Array.from([...this.bytes.stimulus, ...event]) };
    this.#keep(event, [...answer.bytes], time);
    return null;
  }

  /**
   * A record as a person says it: judged by the live check.
   * @param {Kind} kind @param {number} time @param {number} value
   * @returns {{form: Grown, bytes: Uint8Array}|null}  if it is refused: what was given, with all before it
   */
  claim(kind, time, value) {
    const record = recordBytes('journal', kind, time, value);
    const answer = this.library.watch(this.table, this.memory, Uint8Array.from(record));
    if (!answer.ok) return { form: 'journal', bytes: Uint8Array.from([...this.bytes.journal, ...record]) };
    this.#keep(recordBytes('stimulus', kind, time, value), record, time);
    return null;
  }

  /** @param {number[]} event @param {number[]} record @param {number} time */
  #keep(event, record, time) {
    this.bytes.stimulus.push(...event);
    this.bytes.journal.push(...record);
    this.time = time;
    this.records++;
  }

  /**
   * The run as far as it is made, as if it ended with its last record.
   * @param {Grown} form
   */
  ended(form) {
    return Uint8Array.from([...this.bytes[form], ...recordBytes(form, 'end', this.time, 0)]);
  }
}
