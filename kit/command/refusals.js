/** A refusal as an answer: the library's line, where it stands, and the sentences. */

import { refusalLine } from '../answers.js';
import { MEANINGS, explainJournal, explainRefusal, isTableRefusal } from '../explain.js';
import { originAt, recordLine } from '../notation.js';
import { traceJournal, traceStimulus } from '../trace.js';
import { sayLooks } from './looks.js';
import { shownFile } from './sources.js';

/** @typedef {import('../types.js').Explanation} Explanation */
/** @typedef {import('../types.js').Refusal} Refusal */
/** @typedef {import('../types.js').Trace} Trace */
/** @typedef {import('./asking.js').Asking} Asking */
/** @typedef {import('./sources.js').Source} Source */
/** @typedef {import('./sources.js').TableSource} TableSource */

const LINE_SHOWN = 120;

/**
 * The trace of a source under a table that passes.
 * @param {Asking} asking @param {TableSource} table @param {Source} source
 * @returns {Trace|null}
 */
export function traceOf({ library }, table, source) {
  const { bytes, form } = source;
  if (form === 'stimulus') return traceStimulus(library, { table: table.bytes, stimulus: bytes, names: table.names });
  if (form === 'table') return null;
  return traceJournal(library, { table: table.bytes, journal: bytes, form, names: table.names });
}

/**
 * @typedef {Object} Told
 * @property {Refusal} refusal
 * @property {Source} source            what was refused
 * @property {Explanation} explanation
 * @property {Trace|null} trace
 */

/**
 * Why the library refused a table, or a journal or stimulus under it.
 * @param {Asking} asking @param {TableSource} table @param {Source|null} source @param {Refusal} refusal
 * @returns {Told}
 */
export function told(asking, table, source, refusal) {
  const trace = source && !isTableRefusal(refusal.number) ? traceOf(asking, table, source) : null;
  const explanation = explainRefusal(refusal, { tableBytes: table.bytes, names: table.names, trace });
  return { refusal, source: trace && source ? source : table, explanation, trace };
}

/**
 * The piece of text or the record that is blamed.
 * @param {Told} told
 * @returns {{line: number, column: number, width: number, file: string}|null}
 */
function originOf({ source, explanation }) {
  const origin = source.part && source.text ? originAt(source.part, explanation.blame.place) : null;
  return origin && { file: shownFile(source.file), line: origin.line, column: origin.column, width: origin.width };
}

/**
 * The line of text with a caret, or the record in the bytes.
 * @param {Told} told
 * @returns {string|null}
 */
function shownPlace(told) {
  const origin = originOf(told);
  if (origin) {
    const { file, line, column, width } = origin;
    const from = Math.max(0, column - 1 - LINE_SHOWN / 2);
    const source = (told.source.text?.lines[line - 1] ?? '').slice(from, from + LINE_SHOWN).replaceAll('\t', ' ').trimEnd();
    const caret = ' '.repeat(column - 1 - from) + '^'.repeat(Math.max(1, Math.min(width, LINE_SHOWN / 2)));
    return `${file}:${line}:${column}\n    ${source}\n    ${caret}`;
  }
  const { trace } = told;
  const record = trace && trace.stop !== null ? trace.steps[trace.stop].record : null;
  return trace && record && record.kind !== 'bytes' ? `${recordLine(record, trace.names)}      # at byte ${record.place}` : null;
}

/**
 * What a file of bytes looks like, if that is something else.
 * @param {Source} source
 */
function looksOf({ text, bytes }) {
  const says = text === null ? sayLooks(bytes) : null;
  return says ? [`The file ${says}.`] : [];
}

/**
 * @param {Told} told
 */
export function toldObject(told) {
  const { refusal, explanation, source } = told;
  const origin = originOf(told);
  const says = [...explanation.sentences, ...(explanation.slip ? [explanation.slip] : []), ...looksOf(source)];
  return {
    file: source.file, answer: 'refused', number: refusal.number, place: refusal.place, meaning: MEANINGS.get(refusal.number) ?? '', says,
    ...(explanation.slipName ? { slip: explanation.slipName } : {}),
    ...(explanation.either ? { either: explanation.either } : {}),
    ...(explanation.wanted === null ? {} : { wanted: explanation.wanted }),
    ...(origin ? { line: origin.line, column: origin.column } : {}),
  };
}

/**
 * Says the refusal.
 * @param {Asking} asking @param {Told} told @param {string} [before]  what stands before the line
 */
export function tell(asking, told, before = '') {
  const { terminal } = asking;
  const { refusal, explanation, source } = told;
  if (asking.json) return terminal.json(toldObject(told));
  terminal.line(`${before}${refusalLine(refusal)}`, 'red');
  if (asking.plain) return;
  const place = shownPlace(told);
  if (place) terminal.block(place);
  for (const sentence of explanation.sentences) terminal.sentence(sentence);
  if (explanation.slip) terminal.sentence(explanation.slip, 'bold');
  for (const sentence of looksOf(source)) terminal.sentence(sentence);
}

/**
 * A trace that was refused, told.
 * @param {Trace} trace @param {Source} source
 * @returns {Told}
 */
export function toldTrace(trace, source) {
  return { refusal: /** @type {Refusal} */ (trace.refused), source, explanation: explainJournal(trace), trace };
}
