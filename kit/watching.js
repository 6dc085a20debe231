/**
 * A journal of any length, record by record through the live check. What is kept of it is the run's memory, a field that is not whole
 * yet, and the records that a sentence may name. Nothing is judged here: every answer is the library's, its place counted over all bytes.
 */

import { decodeRecords, decodeTable, numberAt } from './fields.js';
import { newMemory } from './library.js';
import { machineAfter, missingRecord } from './trace.js';

/** @typedef {import('./types.js').Acceptance} Acceptance */
/** @typedef {import('./types.js').Library} Library */
/** @typedef {import('./types.js').Machine} Machine */
/** @typedef {import('./types.js').Names} Names */
/** @typedef {import('./types.js').Refusal} Refusal */
/** @typedef {import('./types.js').Step} Step */
/** @typedef {import('./types.js').Table} Table */
/** @typedef {import('./types.js').Trace} Trace */

/** @typedef {{place: number, bytes: Uint8Array, before: Uint32Array, polledAt: number}} Taken   a record, and the memory before it */

const [CHANGE, POLL, TICK] = [0x11, 0x12, 0x14];
const ENDED = 2;

/**
 * The machine that a memory says.
 * @param {Table} table @param {Uint32Array} memory @param {number} polledAt
 * @returns {Machine|null}
 */
function machineOf(table, memory, polledAt) {
  if (memory[0] === 0) return null;
  const [, phase, present, polled, state, change, entry, cycleStart] = memory;
  const regionEntries = table.timers.map((_, k) => memory[10 + k]);
  return { phase: /** @type {Machine['phase']} */ (phase), present, polled, polledAt, state, change, entry, cycleStart, regionEntries };
}

/**
 * How many bytes the field at a place claims to have.
 * @param {Uint8Array} bytes @param {number} at
 */
function claimed(bytes, at) {
  return at + 3 > bytes.length ? Infinity : 3 + numberAt(bytes, at + 1, 2);
}

/** @param {Uint8Array} a @param {Uint8Array} b */
function joined(a, b) {
  const both = new Uint8Array(a.length + b.length);
  both.set(a);
  both.set(b, a.length);
  return both;
}

export class Watching {
  /**
   * @param {Library} library @param {{table: Uint8Array, names?: Names|null}} given  a table that passes
   */
  constructor(library, { table, names }) {
    this.library = library;
    this.tableBytes = table;
    this.table = /** @type {Table} */ (decodeTable(table, names));
    this.memory = newMemory();
    this.place = 0;
    this.rest = new Uint8Array();
    /** @type {Acceptance|null} */
    this.numbers = null;
    this.polledAt = 0;
    /** @type {Record<'change'|'tick'|'last', Taken|null>} */
    this.taken = { change: null, tick: null, last: null };
  }

  /** Has the end field been taken? */
  get ended() {
    return this.memory[0] === ENDED;
  }

  /**
   * Takes the next bytes, up to the last whole field, or to the first that is refused.
   * @param {Uint8Array} piece
   * @returns {Trace|null}  of the refusal
   */
  take(piece) {
    const bytes = this.rest.length === 0 ? piece : joined(this.rest, piece);
    let at = 0;
    while (at < bytes.length) {
      const length = this.ended ? bytes.length - at : claimed(bytes, at);
      if (at + length > bytes.length) break;
      const refused = this.#ask(bytes.subarray(at, at + length));
      if (refused) return refused;
      at += length;
    }
    this.rest = bytes.slice(at);
    return null;
  }

  /**
   * There are no more bytes.
   * @returns {Trace|null}  of the refusal
   */
  finish() {
    return this.ended ? null : this.#ask(this.rest);
  }

  /** @param {Uint8Array} field */
  #ask(field) {
    const before = this.memory.slice();
    const answer = this.library.watch(this.tableBytes, this.memory, field);
    if (!answer.ok) return this.#traceOf(field, { number: answer.number, place: this.place + answer.place });
    const { ok, ...numbers } = answer;
    this.numbers = numbers;
    this.#note({ place: this.place, bytes: field.slice(), before, polledAt: this.polledAt });
    this.place += field.length;
    return null;
  }

  /** @param {Taken} taken */
  #note(taken) {
    const [tag] = taken.bytes;
    if (tag === POLL) this.polledAt = numberAt(taken.bytes, 3, 4);
    if (tag === TICK) this.taken.tick = taken;
    if (tag === CHANGE && this.memory[2] !== taken.before[2]) this.taken.change = taken;
    this.taken.last = taken;
  }

  /**
   * A record that was taken, as a step.
   * @param {Taken} taken @param {number} number
   * @returns {Step}
   */
  #stepOf({ place, bytes, before, polledAt }, number) {
    const [record] = decodeRecords(bytes, 'journal');
    const machine = machineOf(this.table, before, polledAt);
    return { record: { ...record, place }, number, before: machine, after: machineAfter(this.table, machine, record) };
  }

  /**
   * What sentences need: the last change, the last tick, the last record, and that which was refused.
   * @param {Uint8Array} field @param {Refusal} refused
   * @returns {Trace}
   */
  #traceOf(field, refused) {
    const { change, tick, last } = this.taken;
    const kept = [...new Set([change, tick, last])].flatMap((each) => each ?? []).sort((a, b) => a.place - b.place);
    const steps = kept.map((each, number) => this.#stepOf(each, number));
    const [found] = decodeRecords(field, 'journal');
    const record = found ? { ...found, place: this.place } : missingRecord(steps.map((step) => step.record), this.place, 'journal');
    steps.push({ record, number: steps.length, before: machineOf(this.table, this.memory, this.polledAt), after: null });
    return {
      table: this.table, names: this.table.names, tableBytes: this.tableBytes, journal: field, from: this.place, form: 'journal', long: null,
      steps, answer: null, refused, at: refused.place, stop: steps.length - 1,
    };
  }
}
