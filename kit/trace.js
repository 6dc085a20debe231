/**
 * The machine as accepted records show it. Nothing is judged here: every record before a refusal is accepted, so the records themselves
 * carry each polled input, verdict and state. Only instants are remembered.
 */

import { decodeRecords, decodeTable, formOf, recordBytes } from './fields.js';
import { has } from './sets.js';

/** @typedef {import('./types.js').Table} Table */
/** @typedef {import('./types.js').Machine} Machine */
/** @typedef {import('./types.js').Step} Step */
/** @typedef {import('./types.js').Trace} Trace */
/** @typedef {import('./types.js').Clock} Clock */
/** @typedef {import('./types.js').Span} Span */
/** @typedef {import('./types.js').Visit} Visit */
/** @typedef {import('./types.js').Library} Library */
/** @typedef {import('./types.js').Record} JournalRecord */
/** @typedef {import('./types.js').Form} Form */
/** @typedef {import('./types.js').Names} Names */
/** @typedef {'journal'|'stamped'|'short'} JournalForm */
/** @typedef {Pick<Trace, 'answer'|'refused'|'at'|'long'>} Verdict */

/**
 * The library's answer; `at` is where in the bytes given the refused record starts.
 * @param {any} answer @param {Uint8Array|null} long @param {(place: number) => number} [placeIn]
 * @returns {Verdict}
 */
function verdict(answer, long, placeIn = (place) => place) {
  if (!answer.ok) {
    const { number, place } = answer;
    return { answer: null, refused: { number, place }, at: placeIn(place), long };
  }
  const { ok, ...numbers } = answer;
  return { answer: numbers, refused: null, at: null, long };
}

/**
 * A record has eight bytes in the long form and six in the stamped one; the opening has four in both.
 * @param {number} place
 */
function stampedPlace(place) {
  return place === 0 ? 0 : 4 + (place - 4) / 8 * 6;
}

/**
 * The library's answer about a journal of any form, under a table that passes.
 * @param {Library} library @param {Uint8Array} table @param {Uint8Array} journal @param {JournalForm} form
 * @returns {Verdict}
 */
export function askJournal(library, table, journal, form) {
  if (form === 'short') return verdict(library.checkShort(table, journal), null);
  if (form === 'journal') return verdict(library.checkJournal(table, journal), null);
  const read = library.readStamped(journal);
  return read.ok ? verdict(library.checkJournal(table, read.bytes), read.bytes, stampedPlace) : verdict(read, null);
}

/**
 * @param {Table} table @param {number} input
 * @returns {Machine}
 */
function opened(table, input) {
  return {
    phase: 0, present: input, polled: input, polledAt: 0, state: table.start, change: 0, entry: 0, cycleStart: 0,
    regionEntries: table.timers.map(() => 0),
  };
}

/**
 * @param {Table} table @param {Machine} m @param {number} state @param {number} time
 * @returns {Machine}
 */
function ticked(table, m, state, time) {
  const same = state === m.state;
  const enters = (/** @type {number} */ region) => !same && has(region, state) && !has(region, m.state);
  return {
    ...m, phase: 0, cycleStart: time, state, entry: same ? m.entry : time,
    regionEntries: table.timers.map((timer, k) => (enters(timer.region) ? time : m.regionEntries[k])),
  };
}

/**
 * The machine after an accepted record.
 * @param {Table} table @param {Machine|null} m @param {JournalRecord} record
 * @returns {Machine}
 */
export function machineAfter(table, m, record) {
  const { kind, time } = record;
  const value = record.value ?? 0;
  if (kind === 'input' || !m) return opened(table, value);
  if (kind === 'change') return { ...m, present: value, change: value === m.present ? m.change : time };
  if (kind === 'poll') return { ...m, phase: 1, polled: value, polledAt: time };
  if (kind === 'test') return { ...m, phase: value === 0 ? 2 : 3 };
  return kind === 'tick' ? ticked(table, m, value, time) : m;
}

/**
 * @param {Table} table @param {JournalRecord[]} records @param {number} stop  how many records were accepted
 * @returns {Step[]}
 */
function stepsOf(table, records, stop) {
  /** @type {Machine|null} */
  let machine = null;
  return records.map((record, number) => {
    const before = number <= stop ? machine : null;
    machine = number < stop ? machineAfter(table, machine, record) : null;
    return { record, number, before, after: machine };
  });
}

/**
 * The record that is missing where the bytes end before the end field.
 * @param {JournalRecord[]} records @param {number} place @param {Form} form
 * @returns {JournalRecord}
 */
export function missingRecord(records, place, form) {
  const time = records.length > 0 ? records[records.length - 1].time : 0;
  return { place, length: 0, kind: 'bytes', time, written: null, value: null, form };
}

/**
 * A journal under a table: the library's answer, and what each record did. Null if the table is refused: then ask library.checkTable.
 * @param {Library} library
 * @param {{table: Uint8Array, journal: Uint8Array, form?: Form|'table', names?: Names|null}} given
 * @returns {Trace|null}
 */
export function traceJournal(library, given) {
  if (!library.checkTable(given.table).ok) return null;
  const table = decodeTable(given.table, given.names);
  if (!table) return null;
  const shown = given.form ?? formOf(given.journal);
  const form = shown === 'stamped' || shown === 'short' ? shown : 'journal';
  const verdict = askJournal(library, given.table, given.journal, form);
  const records = decodeRecords(given.journal, form);
  if (verdict.at === given.journal.length) records.push(missingRecord(records, verdict.at, form));
  const stop = verdict.at === null ? null : records.findIndex((record) => record.place === verdict.at);
  const steps = stepsOf(table, records, stop ?? records.length);
  return { table, names: table.names, tableBytes: given.table, journal: given.journal, form, steps, stop, ...verdict };
}

/**
 * The journal of the records of a stimulus before a place. What was accepted so far may always end.
 * @param {Library} library @param {Uint8Array} table @param {Uint8Array} stimulus @param {number} place
 */
function journalUpTo(library, table, stimulus, place) {
  const kept = stimulus.subarray(0, place);
  const records = decodeRecords(kept, 'stimulus');
  const last = records[records.length - 1];
  if (last?.kind === 'end') return library.run(table, kept);
  return library.run(table, Uint8Array.from([...kept, ...recordBytes('stimulus', 'end', last?.time ?? 0, 0)]));
}

/**
 * A stimulus that the runtime refuses: the records before the refusal are run, and their journal shows the machine. Null if the table is
 * refused, or if the stimulus is not: then its journal has a trace.
 * @param {Library} library
 * @param {{table: Uint8Array, stimulus: Uint8Array, names?: Names|null}} given
 * @returns {Trace|null}
 */
export function traceStimulus(library, { table, stimulus, names }) {
  const answer = library.run(table, stimulus);
  const decoded = library.checkTable(table).ok ? decodeTable(table, names) : null;
  if (!decoded || answer.ok) return null;
  const verdict = { answer: null, refused: { number: answer.number, place: answer.place }, at: answer.place, long: null };
  const records = decodeRecords(stimulus, 'stimulus');
  if (answer.place === stimulus.length) records.push(missingRecord(records, answer.place, 'stimulus'));
  const stop = records.findIndex((record) => record.place === answer.place);
  const ran = journalUpTo(library, table, stimulus, answer.place);
  const shown = ran.ok ? decodeRecords(ran.bytes, 'journal') : [];
  const steps = stepsOf(decoded, records.map((record, k) => (k < stop ? { ...record, value: shown[k]?.value ?? null } : record)), stop);
  return { table: decoded, names: decoded.names, tableBytes: table, journal: stimulus, form: 'stimulus', steps, stop, ...verdict };
}

/**
 * The bytes from a record on.
 * @param {Trace} trace @param {JournalRecord} record
 */
export function bytesFrom({ journal, from = 0 }, { place }) {
  return journal.subarray(place - from);
}

/**
 * The steps whose records were accepted.
 * @param {Trace} trace
 */
export function accepted(trace) {
  return trace.stop === null ? trace.steps : trace.steps.slice(0, trace.stop);
}

/**
 * What can hold a test in the machine's state: its hold, or the timers whose region has it.
 * @param {Table} table @param {Machine} machine
 * @returns {Clock[]}
 */
export function clocks(table, machine) {
  const q = machine.state;
  if (table.kind === 'holds') {
    return table.holds[q] === 0 ? [] : [{ timer: null, length: table.holds[q], from: machine.entry, delays: table.delayed[q] }];
  }
  return table.timers
    .map((timer, k) => ({ timer: k, length: timer.length, from: machine.regionEntries[k], delays: timer.delays[q] }))
    .filter(({ timer }) => has(table.timers[timer].region, q));
}

/**
 * The clocks that hold a test of the polled input at a time.
 * @param {Table} table @param {Machine} machine @param {number} time
 */
export function holding(table, machine, time) {
  return clocks(table, machine).filter((clock) => has(clock.delays, machine.polled) && time - clock.from <= clock.length);
}

/**
 * The first time at which no clock holds a test of the polled input any more.
 * @param {Table} table @param {Machine} machine @param {number} time  from this time on
 */
export function freeFrom(table, machine, time) {
  return Math.max(time, ...holding(table, machine, time).map((clock) => clock.from + clock.length + 1));
}

/**
 * How many ticks are left at an accepted test; 0 if it is free.
 * @param {Trace} trace @param {Step} step
 */
export function left(trace, step) {
  const { record, before } = step;
  return before && record.kind === 'test' ? freeFrom(trace.table, before, record.time) - record.time : 0;
}

/**
 * @param {Trace} trace @param {number} first @param {(machine: Machine) => number} shown
 * @returns {Visit[]}
 */
function runsOf(trace, first, shown) {
  /** @type {Visit[]} */
  const visits = [{ state: first, from: 0, to: null }];
  for (const step of accepted(trace)) {
    const last = visits[visits.length - 1];
    if (!step.after || shown(step.after) === last.state) continue;
    last.to = step.record.time;
    visits.push({ state: shown(step.after), from: step.record.time, to: null });
  }
  return visits;
}

/**
 * The states in the order in which they were entered.
 * @param {Trace} trace
 */
export function visits(trace) {
  return runsOf(trace, trace.table.start, (machine) => machine.state);
}

/**
 * The inputs at the sensor, likewise; none if the opening was refused.
 * @param {Trace} trace
 */
export function inputs(trace) {
  const opening = accepted(trace)[0];
  return opening ? runsOf(trace, opening.record.value ?? 0, (machine) => machine.present) : [];
}

/**
 * Has no poll come since the input at the sensor came? A poll is later than the last change.
 * @param {Machine} machine
 */
export function isUnseen({ polledAt, change }) {
  return polledAt <= change;
}

/**
 * The inputs that came and went, or that stood at the beginning and went, and that no poll took. The last one may still be seen. Of an
 * exercise nothing is said.
 * @param {Trace} trace
 * @returns {(Visit & {to: number})[]}
 */
export function unseenInputs(trace) {
  if (trace.asked) return [];
  return accepted(trace).flatMap(({ before, after, record }) => (before && after && before.present !== after.present && isUnseen(before)
    ? [{ state: before.present, from: before.change, to: record.time }] : []));
}

/**
 * When a timer's region was entered from outside, and when it was left.
 * @param {Trace} trace @param {number} timer
 * @returns {Span[]}
 */
export function regionVisits(trace, timer) {
  const { region } = trace.table.timers[timer];
  /** @type {Span[]} */
  const spans = [];
  let inside = false;
  for (const { state, from, to } of visits(trace)) {
    if (has(region, state) && inside) spans[spans.length - 1].to = to;
    else if (has(region, state)) spans.push({ from, to });
    inside = has(region, state);
  }
  return spans;
}

/**
 * What the machine has where a record was refused with 28; null elsewhere.
 * @param {Trace} trace @param {Step} step
 */
export function ownValue(trace, step) {
  const { record, before, number } = step;
  if (trace.refused?.number !== 28 || trace.stop !== number || !before) return null;
  if (record.kind === 'poll') return before.present;
  if (record.kind === 'test') return 1 - (record.value ?? 0);
  return before.phase === 2 ? before.state : trace.table.next[before.state][before.polled];
}
