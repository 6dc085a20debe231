/** What can be done with the table and the journal beside checking: each is one function of the library, and its result can be kept. */

import { refusalLine, sayConverted, saySalvage } from '../answers.js';
import { bothRuns } from '../both-runs.js';
import { explainJournal, explainRefusal } from '../explain.js';
import { nameOf } from '../name-of.js';
import { counted, say } from '../names.js';
import { recordsText, tableText } from '../notation.js';
import { rerun } from '../rerun.js';
import { traceJournal } from '../trace.js';

/** @typedef {import('../types.js').Library} Library */
/** @typedef {import('../types.js').Trace} Trace */
/** @typedef {import('../types.js').Form} Form */
/** @typedef {import('./workspace.js').Answers} Answers */
/** @typedef {import('./workspace.js').Pane} Pane */

/**
 * @typedef {Object} Result
 * @property {string[]} sentences
 * @property {string} [line]            the library's refusal
 * @property {{pane: Pane, text: string, bytes: Uint8Array, file: string}} [made]
 * @property {{line: number, says: string}[]} [list]   of the journal's lines
 * @property {(look: {width: number, theme: 'light'|'dark'}) => string} [picture]   an SVG file
 */

/**
 * @typedef {Object} Tool
 * @property {string} id
 * @property {string} label
 * @property {string} says
 * @property {(answers: Answers) => boolean} fits
 * @property {(library: Library, answers: Answers) => Result} use
 */

/**
 * @param {Answers} answers @param {Uint8Array} bytes @param {Form} form @param {string} file
 */
function journal({ reading }, bytes, form, file) {
  return { pane: /** @type {Pane} */ ('journal'), text: recordsText(bytes, form, reading.names), bytes, file };
}

/**
 * The bytes of the table and of the journal, of which a tool takes what it needs.
 * @param {Answers} answers
 */
function bytesOf({ reading }) {
  return { table: reading.table?.bytes ?? new Uint8Array(), given: reading.journal?.bytes ?? new Uint8Array() };
}

/**
 * @param {Answers} answers @param {{number: number, place: number}} refusal @param {Trace|null} [trace]
 * @returns {Result}
 */
function refusal({ reading }, refusal, trace) {
  const { sentences } = explainRefusal(refusal, { tableBytes: reading.table?.bytes ?? new Uint8Array(), names: reading.names, trace });
  return { line: refusalLine(refusal), sentences };
}

/** @param {Form} form */
const isForm = (form) => (/** @type {Answers} */ { journal: subject }) => subject?.trace.form === form;

/**
 * Salvage takes a long journal; a stamped one is written out first.
 * @param {Library} library @param {Answers} answers
 * @returns {Result}
 */
function salvage(library, answers) {
  const { table, given } = bytesOf(answers);
  const trace = answers.journal?.trace;
  const answer = library.salvage(table, trace?.long ?? given);
  if (!answer.ok) return refusal(answers, answer, trace);
  const why = answer.number !== 0 && trace?.refused ? explainJournal(trace) : null;
  return { sentences: saySalvage(answer, why), made: journal(answers, answer.bytes, 'journal', 'salvaged.journal') };
}

/**
 * @param {(library: Library, table: Uint8Array, given: Uint8Array) => any} rewrite @param {Form} form @param {string} says @param {string} file
 * @returns {Tool['use']}
 */
function rewriting(rewrite, form, says, file) {
  return (library, answers) => {
    const { table, given } = bytesOf(answers);
    const answer = rewrite(library, table, given);
    if (!answer.ok) return refusal(answers, answer, answers.journal?.trace);
    const sentences = [say`${says} ${counted(given.length, 'byte')} became ${answer.bytes.length}.`];
    return { sentences, made: journal(answers, answer.bytes, form, file) };
  };
}

/**
 * @param {Library} library @param {Answers} answers
 * @returns {Result}
 */
function convert(library, answers) {
  const { table } = bytesOf(answers);
  const answer = library.convertTable(table);
  if (!answer.ok) return refusal(answers, answer);
  const text = tableText(answer.bytes, answers.reading.names);
  return { sentences: sayConverted(answer.changed), made: { pane: 'table', text, bytes: answer.bytes, file: 'converted.table' } };
}

/**
 * @param {Trace} trace @param {string} kind @param {number|null} value
 */
function valueName({ names }, kind, value) {
  if (kind === 'test') return ['held', 'free'][value ?? 2] ?? String(value);
  return nameOf(kind === 'tick' ? names.states : names.inputs, value);
}

/**
 * @param {Library} library @param {Answers} answers
 * @returns {Result}
 */
function compare(library, answers) {
  const subject = /** @type {import('./workspace.js').Subject} */ (answers.journal);
  const { trace, lines } = subject;
  const { table, given } = bytesOf(answers);
  const answer = rerun(library, { table, journal: given, form: trace.form });
  if (!answer) return { sentences: ['Something in this journal is no record, so it has no stimulus to run.'] };
  if (!answer.ok) {
    return { sentences: [say`The inputs and times of this journal cannot be run: refusal ${answer.number} at record ${answer.record}.`] };
  }
  const list = answer.differences.slice(0, 20).map(({ number, record, own }) => {
    const [says, is] = [record.value, own].map((value) => valueName(trace, record.kind, value));
    return { line: lines[number], says: say`The ${record.kind} at ${record.time} says ${says}; in the run it is ${is}.` };
  });
  const count = answer.differences.length;
  const differ = say`${counted(count, 'record')} of the journal ${count === 1 ? 'differs' : 'differ'} from its run.`;
  const sentences = [count === 0 ? 'The run of the same inputs and times gives this very journal.'
    : say`The runtime was given the same inputs and times. ${differ}`];
  const picture = (/** @type {any} */ look) => bothRuns(trace, answer, look);
  return { sentences, list, picture, made: journal(answers, answer.bytes, 'journal', 'run.journal') };
}

/**
 * @param {Library} library @param {Answers} answers
 * @returns {Result}
 */
function run(library, answers) {
  const { table } = bytesOf(answers);
  const answer = library.run(table, answers.reading.stimulus?.bytes ?? new Uint8Array());
  if (!answer.ok) return refusal(answers, answer, answers.stimulus?.trace);
  return { sentences: [], made: journal(answers, answer.bytes, 'journal', 'run.journal') };
}

/**
 * Fills the journal with the run of the stimulus.
 * @type {Tool}
 */
export const RUN = {
  id: 'run', label: 'Run the stimulus', says: '', use: run, fits: ({ stimulus }) => stimulus !== null && !stimulus.trace.refused,
};

/** @type {Tool[]} */
export const TOOLS = [
  { id: 'compare', label: 'Compare with the run', says: 'Every record that differs from the run of the same inputs and times, not only the first.',
    fits: ({ journal: subject }) => subject !== null, use: compare },
  { id: 'salvage', label: 'Salvage', says: 'What is sound of a torn journal, up to its last tick, with an end.',
    fits: ({ journal: subject }) => Boolean(subject?.trace.refused) && (subject?.trace.form === 'journal' || subject?.trace.long !== null),
    use: salvage },
  { id: 'unstamp', label: 'Write out the stamps', says: 'The long journal of one whose times are stamps of 16 bits.',
    fits: isForm('stamped'),
    use: rewriting((library, _, given) => library.readStamped(given), 'journal', 'The stamps are written out as times.', 'unstamped.journal') },
  { id: 'lengthen', label: 'Write out the gaps', says: 'The long journal that a short one stands for.',
    fits: isForm('short'),
    use: rewriting((library, table, given) => library.lengthen(table, given), 'journal', 'The gaps are written out as times.', 'long.journal') },
  { id: 'shorten', label: 'Shorten', says: 'The same journal with gaps of two bytes in the place of times.',
    fits: (answers) => isForm('journal')(answers) && answers.journal?.trace.refused === null,
    use: rewriting((library, table, given) => library.shorten(table, given), 'short', 'The times are written as gaps.', 'short.journal') },
  { id: 'convert', label: 'Convert the table', says: 'Takes delayed inputs out of states that have no hold, where they never had an effect.',
    fits: ({ tableRefused }) => tableRefused?.number === 11, use: convert },
];
