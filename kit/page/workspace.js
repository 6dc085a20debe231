/**
 * The three texts of the page, read as one, and the library's answers about them. Nothing is judged here, and nothing is drawn.
 */

import { exerciseTrace } from '../exercise/shown.js';
import { grade, openExercise, sayTime } from '../exercise.js';
import { decodeRecords, decodeTable } from '../fields.js';
import { explainJournal, explainTable } from '../explain.js';
import { originAt, readText } from '../notation.js';
import { traceJournal, traceStimulus } from '../trace.js';

/** @typedef {import('../types.js').Library} Library */
/** @typedef {import('../types.js').Part} Part */
/** @typedef {import('../types.js').ExercisePart} ExercisePart */
/** @typedef {import('../types.js').Names} Names */
/** @typedef {import('../types.js').Table} Table */
/** @typedef {import('../types.js').Trace} Trace */
/** @typedef {import('../types.js').Refusal} Refusal */
/** @typedef {import('../types.js').Explanation} Explanation */
/** @typedef {'table'|'stimulus'|'journal'} Pane */
/** @typedef {Record<Pane, string>} Texts */
/** @typedef {{pane: Pane, line: number, column: number, width: number}} Spot  a piece of a pane's text; lines and columns from 1 */
/** @typedef {Spot & {says: string}} PaneMistake */

/**
 * @typedef {Object} Reading
 * @property {PaneMistake[]} mistakes
 * @property {Names|null} names
 * @property {Part|null} table
 * @property {Part|null} stimulus
 * @property {Part|null} journal       of any of the three forms
 * @property {ExercisePart|null} exercise  in the place of a journal
 * @property {(line: number) => {pane: Pane, line: number}} place  from a line of all texts to a pane's line
 */

/**
 * What is known of a journal, a stimulus or an exercise under a table that passes.
 * @typedef {Object} Subject
 * @property {'journal'|'stimulus'|'exercise'} kind
 * @property {Pane} pane               where its text stands: a text with several parts may stand in one pane
 * @property {Part|ExercisePart} part
 * @property {Trace} trace             of a stimulus that runs, that of its journal; of an exercise what was answered, which nobody has judged
 * @property {Explanation|null} explanation  of a refusal
 * @property {number[]} lines          of each step the line in that pane; 0 where it has none
 */

/**
 * An exercise that can be done, or why it cannot; and what is to be told of its answers, when it is time.
 * @typedef {Object} Doing
 * @property {ExercisePart} part
 * @property {Subject|null} subject
 * @property {import('../exercise.js').Grade|null} grade
 * @property {import('../exercise.js').Bad|null} bad
 * @property {string[]} sentences      about a reaction time that was answered wrong
 */

/**
 * @typedef {Object} Answers
 * @property {Texts} texts             those that the answers were given for
 * @property {Reading} reading
 * @property {Refusal|null} tableRefused
 * @property {Explanation|null} tableExplanation
 * @property {Table|null} decoded      a table that passes
 * @property {Subject|null} journal
 * @property {Subject|null} stimulus
 * @property {Doing|null} exercise
 */

/** @type {Pane[]} */
export const PANES = ['table', 'stimulus', 'journal'];
const JOURNALS = ['journal', 'stamped', 'short'];

export const PANE_NAMES = { table: 'Table', stimulus: 'Stimulus', journal: 'Journal' };

/** @param {string} text */
const linesOf = (text) => text.split(/\r\n|\n|\r/);

/**
 * The first line that says something, if it does not begin with the word `krossvil`.
 * @param {string[]} lines
 * @returns {number} counted from 1; 0 if there is none
 */
function headlessLine(lines) {
  const k = lines.findIndex((line) => !/^\s*(#|$)/.test(line));
  return k < 0 || /^\s*krossvil(\s|$)/.test(lines[k]) ? 0 : k + 1;
}

/**
 * All panes as one text, so that the table's names and mistakes count in all of them. A pane without a heading is left out: its lines
 * would be taken for those of the pane before.
 * @param {Texts} texts
 * @returns {Reading}
 */
export function readPanes(texts) {
  /** @type {PaneMistake[]} */
  const headless = [];
  const blocks = PANES.map((pane) => {
    const lines = linesOf(texts[pane]);
    const line = headlessLine(lines);
    const says = `this text begins with the words: krossvil ${pane}`;
    if (line > 0) headless.push({ pane, line, column: 1, width: Math.max(1, lines[line - 1].length), says });
    return line > 0 ? lines.map(() => '') : lines;
  });
  const starts = [0, blocks[0].length, blocks[0].length + blocks[1].length];
  const all = blocks.flat();
  const text = readText(all.join('\n'));
  const place = (/** @type {number} */ line) => {
    const k = line > starts[2] ? 2 : line > starts[1] ? 1 : 0;
    return { pane: PANES[k], line: line - starts[k] };
  };
  const said = headless.length > 0 && text.parts.length === 0 && all.every((line) => line.trim() === '') ? [] : text.mistakes;
  const parts = (/** @type {string[]} */ kinds) => text.parts.filter(({ kind }) => kinds.includes(kind));
  const [journal = null, ...others] = [...parts(JOURNALS), ...(text.exercise ? [text.exercise] : [])];
  const exercise = journal?.kind === 'exercise' ? journal : null;
  const second = others.map(({ line }) => ({ line, column: 1, width: all[line - 1].length, says: 'a second journal; one at a time is answered' }));
  const mistakes = [...headless, ...[...said, ...second].map((mistake) => ({ ...mistake, ...place(mistake.line) }))];
  const [table = null] = parts(['table']);
  const [stimulus = null] = parts(['stimulus']);
  return { mistakes, names: text.names, place, table, stimulus, journal: journal?.kind === 'exercise' ? null : journal, exercise };
}

/**
 * The line of each record, by its number. Each origin of a whole record comes before those of its pieces.
 * @param {Reading} reading @param {Pick<Part, 'origins'>} part @param {number[]} places
 */
function linesAt(reading, part, places) {
  /** @type {Map<number, number>} */
  const lines = new Map();
  for (const { place, line } of part.origins) if (!lines.has(place)) lines.set(place, reading.place(line).line);
  return places.map((place) => lines.get(place) ?? 0);
}

/**
 * @param {Library} library @param {Reading} reading @param {Uint8Array} table
 * @returns {Subject|null}
 */
function journalSubject(library, reading, table) {
  const { journal: part, names } = reading;
  const form = /** @type {import('../types.js').Form} */ (part?.kind);
  const trace = part && traceJournal(library, { table, journal: part.bytes, form, names: names ?? undefined });
  if (!part || !trace) return null;
  const lines = linesAt(reading, part, trace.steps.map(({ record }) => record.place));
  return { kind: 'journal', pane: reading.place(part.line).pane, part, trace, explanation: trace.refused ? explainJournal(trace) : null, lines };
}

/**
 * @param {Library} library @param {Reading} reading @param {Uint8Array} table
 * @returns {Subject|null}
 */
function stimulusSubject(library, reading, table) {
  const { stimulus: part, names } = reading;
  if (!part) return null;
  const known = names ?? undefined;
  const ran = library.run(table, part.bytes);
  const trace = ran.ok ? traceJournal(library, { table, journal: ran.bytes, form: 'journal', names: known })
    : traceStimulus(library, { table, stimulus: part.bytes, names: known });
  if (!trace) return null;
  const lines = linesAt(reading, part, decodeRecords(part.bytes, 'stimulus').map(({ place }) => place));
  return { kind: 'stimulus', pane: reading.place(part.line).pane, part, trace, explanation: trace.refused ? explainJournal(trace) : null, lines };
}

/**
 * @param {Library} library @param {Reading} reading @param {Uint8Array} table
 * @returns {Doing|null}
 */
function doingOf(library, reading, table) {
  const { exercise: part, names } = reading;
  if (!part) return null;
  const opened = openExercise(library, { table, names }, part);
  if (!opened.ok) return { part, subject: null, grade: null, bad: opened, sentences: [] };
  const graded = grade(library, opened.exercise);
  if (part.bytes.length === 0) return { part, subject: null, grade: graded, bad: null, sentences: sayTime(opened.exercise.table, graded) };
  const trace = exerciseTrace(opened.exercise.table, table, part);
  const lines = linesAt(reading, part, trace.steps.map(({ record }) => record.place));
  /** @type {Subject} */
  const subject = { kind: 'exercise', pane: reading.place(part.line).pane, part, trace, explanation: null, lines };
  return { part, subject, grade: graded, bad: null, sentences: sayTime(opened.exercise.table, graded) };
}

/**
 * Nothing is answered about these texts.
 * @param {Texts} texts
 * @returns {Answers}
 */
export function noAnswers(texts) {
  const place = (/** @type {number} */ line) => ({ pane: PANES[0], line });
  const reading = { mistakes: [], names: null, table: null, stimulus: null, journal: null, exercise: null, place };
  return { texts, reading, tableRefused: null, tableExplanation: null, decoded: null, journal: null, stimulus: null, exercise: null };
}

/**
 * Asks the library everything that the three texts allow.
 * @param {Library} library @param {Texts} texts
 * @returns {Answers}
 */
export function ask(library, texts) {
  const reading = readPanes(texts);
  const answers = { ...noAnswers(texts), reading };
  if (!reading.table) return answers;
  const { bytes } = reading.table;
  const checked = library.checkTable(bytes);
  if (!checked.ok) {
    answers.tableRefused = { number: checked.number, place: checked.place };
    answers.tableExplanation = explainTable(bytes, answers.tableRefused, reading.names ?? undefined);
    return answers;
  }
  answers.decoded = decodeTable(bytes, reading.names);
  answers.journal = journalSubject(library, reading, bytes);
  answers.stimulus = stimulusSubject(library, reading, bytes);
  answers.exercise = doingOf(library, reading, bytes);
  return answers;
}

/**
 * The piece of a pane's text that a refusal points at.
 * @param {Reading} reading @param {Pick<Part, 'bytes'|'origins'|'line'>} part @param {number} place
 * @returns {Spot|null}
 */
export function spotOf(reading, part, place) {
  const origin = originAt(part, place);
  if (!origin) return part.bytes.length === 0 ? { ...reading.place(part.line), column: 1, width: 1 } : null;
  return { ...reading.place(origin.line), column: origin.column, width: origin.width };
}
