/**
 * A worksheet of a run, and its solutions: the table as automaton and as text, the diagram with empty verdicts and states, and lines for answers.
 * What is right the runtime has written; the sheet of solutions has it, with a sentence for each, and the worksheet has none of it.
 */

import { diagram } from './diagram.js';
import { exerciseTrace } from './exercise/shown.js';
import { makeExercise } from './exercise.js';
import { narrate } from './explain.js';
import { decodeTable } from './fields.js';
import { nameOf } from './name-of.js';
import { tableText } from './notation.js';
import { tablePicture } from './table-picture.js';
import { traceJournal } from './trace.js';

/** @typedef {import('./types.js').Library} Library */
/** @typedef {import('./types.js').Kind} Kind */
/** @typedef {import('./types.js').Names} Names */
/** @typedef {import('./types.js').Table} Table */
/** @typedef {import('./types.js').Trace} Trace */

/**
 * A line of the sheet: what is asked, and on the sheet of solutions the answer and why.
 * @typedef {{asks: string, answer: string, says: string}} Row
 */

/**
 * @typedef {Object} Sheet
 * @property {string} title
 * @property {string} automaton   an SVG file, as the other pictures
 * @property {string} text        of the table
 * @property {string} open        the diagram with nothing in its blanks
 * @property {string} solved
 * @property {Row[]} rows
 */

/** A diagram on paper is drawn for this width. */
const WIDTH = 720;
const AUTOMATON_WIDTH = 420;

/** @type {Record<string, string>} */
const ASKS = { poll: 'which input?', test: 'held or free?', tick: 'which state?' };

/**
 * @param {Trace} trace @param {number} number  of the record
 * @returns {Row}
 */
function rowOf(trace, number) {
  const step = trace.steps[number];
  const { kind, time, value } = step.record;
  const names = kind === 'tick' ? trace.names.states : trace.names.inputs;
  const answer = kind === 'test' ? ['held', 'free'][value ?? 0] : nameOf(names, value);
  return { asks: `${time} ${kind}: ${ASKS[kind]}`, answer, says: narrate(trace, step) };
}

/**
 * @param {Library} library
 * @param {{table: Uint8Array, stimulus: Uint8Array, names?: Names|null, title?: string, kinds?: readonly Kind[]}} given   a table that passes
 * @returns {{ok: true, sheet: Sheet} | import('./types.js').Refused}
 */
export function sheetOf(library, { table: bytes, stimulus, names, title = 'Worksheet', kinds = ['test', 'tick'] }) {
  const made = makeExercise(library, { table: bytes, stimulus }, { kinds });
  if (!made.ok) return made;
  const ran = library.run(bytes, stimulus);
  if (!ran.ok) return ran;
  const table = /** @type {Table} */ (decodeTable(bytes, names));
  const trace = /** @type {Trace} */ (traceJournal(library, { table: bytes, journal: ran.bytes, form: 'journal', names: table.names }));
  const look = { head: false, width: WIDTH, title };
  return {
    ok: true,
    sheet: {
      title, text: tableText(bytes, table.names), automaton: tablePicture(table, { width: AUTOMATON_WIDTH }),
      open: diagram(exerciseTrace(table, bytes, made.asked), { ...look, id: 'open' }),
      solved: diagram(trace, { ...look, id: 'solved', narrate: (step) => narrate(trace, step) }),
      rows: made.asked.blanks.map(({ record }) => rowOf(trace, record)),
    },
  };
}
