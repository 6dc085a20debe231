/**
 * A journal against the run of its own stimulus: what the controller found by itself is stripped, the proved runtime finds it anew, and
 * every record that differs is shown, not only the first.
 */

import { decodeRecords, recordBytes } from './fields.js';

/** @typedef {import('./types.js').Form} Form */
/** @typedef {import('./types.js').Library} Library */
/** @typedef {import('./types.js').Record} JournalRecord */
/** @typedef {import('./types.js').Refused} Refused */

/**
 * A record whose value is another than in the run.
 * @typedef {{number: number, record: JournalRecord, own: number}} Difference
 */

/**
 * The stimulus with the inputs and times of a journal; null if something in it is no record of the form.
 * @param {Uint8Array} journal @param {Form} form
 * @returns {Uint8Array|null}
 */
export function stimulusOf(journal, form) {
  const records = decodeRecords(journal, form);
  if (records.some(({ kind }) => kind === 'bytes')) return null;
  return Uint8Array.from(records.flatMap(({ kind, time, value }) => recordBytes('stimulus', kind, time, value ?? 0)));
}

/**
 * Runs the stimulus of a journal. If it can be run: its journal, and the records that differ from it. If not, the refusal, as the library
 * gives it for the stimulus, and the number of the record that is refused. Null if the journal has no stimulus.
 * @param {Library} library @param {{table: Uint8Array, journal: Uint8Array, form: Form}} given
 * @returns {{ok: true, bytes: Uint8Array, differences: Difference[]} | (Refused & {record: number}) | null}
 */
export function rerun(library, { table, journal, form }) {
  const stimulus = stimulusOf(journal, form);
  if (!stimulus) return null;
  const answer = library.run(table, stimulus);
  if (!answer.ok) {
    const before = decodeRecords(stimulus.subarray(0, answer.place), 'stimulus');
    return { ...answer, record: before.length };
  }
  const own = decodeRecords(answer.bytes, 'journal');
  const differences = decodeRecords(journal, form).flatMap((record, number) => (
    record.value === own[number].value ? [] : [{ number, record, own: own[number].value ?? 0 }]));
  return { ok: true, bytes: answer.bytes, differences };
}
