/**
 * Exercises: a journal with blanks. What is right the proved runtime finds, from the stimulus that is left of it; what is said of the answers
 * is what the checker says of the journal with the answers in it. Nothing is judged here.
 */

import { clockWord, rulesBehind } from './exercise/wrong-rules.js';
import { sayReaction } from './answers.js';
import { explainJournal, explainReaction } from './explain.js';
import { decodeRecords, decodeTable, recordBytes } from './fields.js';
import { counted, say } from './names.js';
import { ASKED } from './notation/records.js';
import { stimulusOf } from './rerun.js';
import { wholeSet } from './sets.js';
import { traceJournal, traceStimulus } from './trace.js';

/** @typedef {import('./types.js').Blank} Blank */
/** @typedef {import('./types.js').ExercisePart} ExercisePart */
/** @typedef {import('./types.js').Kind} Kind */
/** @typedef {import('./types.js').Library} Library */
/** @typedef {import('./types.js').Names} Names */
/** @typedef {import('./types.js').Record} JournalRecord */
/** @typedef {import('./types.js').Refusal} Refusal */
/** @typedef {import('./types.js').Refused} Refused */
/** @typedef {import('./types.js').Table} Table */
/** @typedef {import('./types.js').Trace} Trace */
/** @typedef {Omit<import('./types.js').Question, 'origin'> & {origin?: import('./types.js').Origin}} Question */
/** @typedef {Pick<ExercisePart, 'told'|'bytes'> & {blanks: Omit<Blank, 'origin'>[], questions?: Question[]}} Asked   from a text or not */

/**
 * An exercise that can be done.
 * @typedef {Object} Exercise
 * @property {Uint8Array} tableBytes
 * @property {Table} table
 * @property {Asked} asked
 * @property {JournalRecord[]} run     what the runtime has written for its stimulus: the right answers are there, and nowhere else
 * @property {Time[]} times            and those of its questions for a reaction time
 */

/**
 * Why an exercise cannot be done: a place in its bytes, or, if it is a question, that.
 * @typedef {{ok: false, sentences: string[], place: number, refusal: Refusal|null, question?: Question}} Bad
 */

/**
 * @typedef {Object} Grade
 * @property {number} blanks
 * @property {number} answered
 * @property {number} right
 * @property {(boolean|null)[]} each   of each blank: is its answer that of the run? null where there is none
 * @property {Trace|null} refused      what the checker refuses of the journal with the answers in it, up to the first that is missing
 * @property {Time|null} time          of the questions for a reaction time the first that is answered wrong
 * @property {string[]} machines       whose answers these are, if all are given: machines with a wrong rule, in words
 */

/**
 * An exercise of a stimulus: the values of these kinds are asked. If the runtime refuses the stimulus, the refusal.
 * @param {Library} library @param {{table: Uint8Array, stimulus: Uint8Array}} given
 * @param {{kinds?: readonly Kind[], told?: ExercisePart['told']}} [how]
 * @returns {{ok: true, asked: Asked} | Refused}
 */
export function makeExercise(library, { table, stimulus }, how = {}) {
  const { kinds = ASKED, told = 'each' } = how;
  const ran = library.run(table, stimulus);
  if (!ran.ok) return ran;
  const bytes = ran.bytes.slice();
  /** @type {Asked['blanks']} */
  const blanks = [];
  for (const [record, { kind, place, length }] of decodeRecords(ran.bytes, 'journal').entries()) {
    if (!kinds.includes(kind)) continue;
    bytes[place + length - 1] = 0;
    blanks.push({ record, kind, place: place + length - 1, answer: null });
  }
  return { ok: true, asked: { told, bytes, blanks } };
}

/**
 * @param {string[]} sentences @param {number} [place] @param {Refusal|null} [refusal]
 * @returns {Bad}
 */
const bad = (sentences, place = 0, refusal = null) => ({ ok: false, sentences, place, refusal });

/**
 * The runtime refuses the stimulus of an exercise.
 * @param {Library} library @param {{table: Uint8Array, names?: Names|null}} given @param {Uint8Array} stimulus @param {Asked} asked
 */
function refusedStimulus(library, { table, names }, stimulus, asked) {
  const trace = traceStimulus(library, { table, stimulus, names });
  const refusal = trace?.refused ?? null;
  const sentences = trace ? explainJournal(trace).sentences : [];
  const place = trace && trace.stop !== null ? decodeRecords(asked.bytes, 'journal')[trace.stop]?.place ?? asked.bytes.length : 0;
  return bad(['The exercise cannot be done: what it gives is refused, whatever is answered.', ...sentences], place, refusal);
}

/**
 * Something that is given in an exercise is not what the run has.
 * @param {Library} library @param {{table: Uint8Array, names?: Names|null}} given @param {Asked} asked @param {JournalRecord[]} run
 * @returns {Bad|null}
 */
function wrongGiven(library, { table, names }, { bytes, blanks }, run) {
  const journal = bytes.slice();
  for (const { place, record } of blanks) journal[place] = run[record].value ?? 0;
  const trace = traceJournal(library, { table, journal, form: 'journal', names });
  if (!trace?.refused) return null;
  const sentences = ['The exercise cannot be done: a value that it gives is refused.', ...explainJournal(trace).sentences];
  return bad(sentences, trace.refused.place, trace.refused);
}

/**
 * A question for a reaction time as the library is asked it, and its answer.
 * @typedef {{question: Question, asks: {states: number, inputs: number, moves?: number}, answer: any}} Time
 */

/**
 * @param {Library} library @param {Uint8Array} tableBytes @param {Table} table @param {Question} question
 * @returns {Time}
 */
function askTime(library, tableBytes, { counts }, question) {
  const states = question.states ?? wholeSet(counts.states);
  const inputs = question.inputs ?? wholeSet(counts.inputs);
  const { moves } = question;
  if (moves === null) return { question, asks: { states, inputs }, answer: library.reaction(tableBytes, states, inputs) };
  return { question, asks: { states, inputs, moves }, answer: library.reactionMoves(tableBytes, states, inputs, moves) };
}

/**
 * An exercise under a table that passes, or why it cannot be done.
 * @param {Library} library @param {{table: Uint8Array, names?: Names|null}} given @param {Asked} asked
 * @returns {{ok: true, exercise: Exercise} | Bad}
 */
export function openExercise(library, given, asked) {
  const table = decodeTable(given.table, given.names);
  const stimulus = stimulusOf(asked.bytes, 'journal');
  if (!table || !stimulus) return bad(['The exercise cannot be done: something in it is no record.']);
  const { blanks, questions = [] } = asked;
  if (blanks.length + questions.length === 0) {
    return bad(['Nothing is asked in this exercise. A question mark stands for a value that is asked, as in: 5 test ?']);
  }
  const times = questions.map((question) => askTime(library, given.table, table, question));
  const untimely = times.find(({ answer }) => !answer.ok);
  if (untimely) return { ...bad(explainReaction(table, untimely.answer, untimely.asks).sentences), question: untimely.question };
  const exercise = { tableBytes: given.table, table, asked, run: /** @type {JournalRecord[]} */ ([]), times };
  if (asked.bytes.length === 0) return { ok: true, exercise };
  const ran = library.run(given.table, stimulus);
  if (!ran.ok) return refusedStimulus(library, given, stimulus, asked);
  const run = decodeRecords(ran.bytes, 'journal');
  return wrongGiven(library, given, asked, run) ?? { ok: true, exercise: { ...exercise, run } };
}

/**
 * The journal with the answers in it, up to the first that is missing.
 * @param {Asked} asked
 */
function answeredJournal({ bytes, blanks }) {
  const open = blanks.find(({ answer }) => answer === null);
  if (!open) return bytes;
  const before = decodeRecords(bytes, 'journal').slice(0, open.record);
  const { place, length, time } = before[before.length - 1];
  return Uint8Array.from([...bytes.subarray(0, place + length), ...recordBytes('journal', 'end', time, 0)]);
}

/**
 * What is said of the answers.
 * @param {Library} library @param {Exercise} exercise
 * @returns {Grade}
 */
export function grade(library, { tableBytes, table, asked, run, times }) {
  const { blanks } = asked;
  const journal = run.length > 0 ? answeredJournal(asked) : null;
  const trace = journal && traceJournal(library, { table: tableBytes, journal, form: 'journal', names: table.names });
  const ofRun = blanks.map(({ record, answer }) => (answer === null ? null : answer === run[record].value));
  const ofTimes = times.map(({ question, answer }) => (question.answer === null ? null : question.answer === answer.time));
  const each = [...ofRun, ...ofTimes];
  const count = (/** @type {boolean[]} */ ...of) => each.filter((is) => is !== null && of.includes(is)).length;
  const answers = new Map(blanks.map(({ record, answer }) => [record, answer ?? -1]));
  const whole = !ofRun.includes(null) && ofRun.includes(false);
  return {
    blanks: each.length, answered: count(true, false), right: count(true), each,
    refused: trace?.refused ? trace : null, time: times[ofTimes.indexOf(false)] ?? null,
    machines: whole ? rulesBehind(table, run, answers).map(({ machine }) => machine(clockWord(table))) : [],
  };
}

/**
 * How many answers are right.
 * @param {Grade} grade
 */
export function sayCount({ blanks, answered, right }) {
  if (answered === 0) return say`Nothing is answered yet: ${counted(blanks, 'value')} ${blanks === 1 ? 'is' : 'are'} asked.`;
  const left = blanks - answered;
  if (right === blanks) return blanks === 1 ? 'The answer is right.' : say`All ${blanks} answers are right.`;
  const open = left === 0 ? '' : say`; ${left} ${left === 1 ? 'is' : 'are'} not answered yet`;
  if (blanks === 1) return 'The answer is wrong.';
  if (answered === 1) return say`The first answer is ${right === 1 ? 'right' : 'wrong'}${open}.`;
  return say`${right === 0 ? 'None' : right} of ${answered} answers ${right < 2 ? 'is' : 'are'} right${open}.`;
}

/**
 * What the reaction time is where it was answered wrong.
 * @param {Table} table @param {Grade} grade
 * @returns {string[]}
 */
export function sayTime(table, { time }) {
  return time ? [say`The reaction time is not ${time.question.answer ?? 0}.`, ...sayReaction(table, time.asks, time.answer)] : [];
}

/**
 * Whose answers these are, if some wrong rule gives just them.
 * @param {Grade} grade
 */
export function sayMachines({ machines }) {
  const few = [...new Set(machines)].slice(0, 3);
  return few.length === 0 ? null : `Your answers are those of ${few.join('; or of ')}.`;
}
