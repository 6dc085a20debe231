/** Why a journal, or a stimulus, that stops before its end is refused, and with which line it can be ended. */

import { FORMS, recordBytes } from '../fields.js';
import { counted, say } from '../names.js';
import { FORM_WORDS, recordLine } from '../notation/records.js';
import { accepted, bytesFrom } from '../trace.js';

/** @typedef {import('../types.js').Trace} Trace */
/** @typedef {import('./difference.js').Case} Case */
/** @typedef {import('./difference.js').Said} Said */

/**
 * What is there of it, and what is missing.
 * @param {Case} c
 */
function sayTorn({ trace, record }) {
  const word = FORM_WORDS[trace.form];
  const left = bytesFrom(trace, record).length;
  if (left > 0) {
    const there = say`${counted(left, 'byte')} ${left === 1 ? 'is' : 'are'} there`;
    return say`The ${word} stops in the middle of a field: of the one that starts at byte ${record.place}, ${there}.`;
  }
  return record.place === 0 ? say`The ${word} is empty.` : say`The ${word} stops after byte ${record.place - 1} without an end field.`;
}

/**
 * An end at the time of the last record, where only that is missing and there is room for it.
 * @param {Trace} trace
 * @returns {string[]}
 */
function sayEnd(trace) {
  const { form, journal, names, from = 0 } = trace;
  const length = from + journal.length;
  const { record } = accepted(trace)[accepted(trace).length - 1];
  const written = form === 'short' ? 0 : record.written ?? 0;
  const fits = length + recordBytes(form, 'end', written, 0).length <= FORMS[form].max;
  const whole = record.place + record.length === length;
  return fits && whole ? [`In a text the line '${recordLine({ ...record, kind: 'end', written, value: null }, names)}' ends it.`] : [];
}

/**
 * @param {Case} c
 * @returns {Said}
 */
export function explainTorn(c) {
  const { trace } = c;
  if (accepted(trace).length === 0) return { sentences: [sayTorn(c)] };
  const ticks = accepted(trace).filter((step) => step.record.kind === 'tick');
  const last = ticks[ticks.length - 1];
  const sound = last
    ? say`All before it is sound; the last whole cycle ended with the tick at ${last.record.time}.`
    : 'All before it is sound, but there is no whole cycle in it.';
  return { sentences: [sayTorn(c), sound, ...sayEnd(trace)] };
}
