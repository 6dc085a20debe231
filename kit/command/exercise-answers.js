/** What is said of an exercise that was filled in. What is right, and why, is the library's answer. */

import { grade, openExercise, sayCount, sayMachines, sayTime } from '../exercise.js';
import { explainJournal } from '../explain.js';
import { decodeRecords, decodeTable } from '../fields.js';
import { originAt, recordLine, showMistakes } from '../notation.js';
import { ACCEPTED, REFUSED } from './asking.js';
import { tell, toldObject } from './refusals.js';
import { shownFile } from './sources.js';
import { Terminal } from './terminal.js';
import { Trouble } from './trouble.js';

/** @typedef {import('./asking.js').Asking} Asking */
/** @typedef {import('./sources.js').TableSource} TableSource */
/** @typedef {import('./sources.js').GivenExercise} GivenExercise */
/** @typedef {import('../types.js').ExercisePart} ExercisePart */
/** @typedef {import('../exercise.js').Grade} Grade */

/**
 * A sentence at the place of a text that it is about.
 * @param {GivenExercise} given @param {{bytes: Uint8Array, origins: import('../types.js').Origin[], line: number}} part @param {number} place
 * @param {string} says
 */
function troubleAt({ file, text }, part, place, says) {
  const { line, column, width } = originAt(part, place) ?? { line: part.line, column: 1, width: 1 };
  return new Trouble(showMistakes({ mistakes: [{ line, column, width, says }], lines: text?.lines ?? [] }, shownFile(file)));
}

/**
 * Why an exercise cannot be done, at its place.
 * @param {GivenExercise} given @param {ExercisePart} part @param {import('../exercise.js').Bad} bad
 */
function badAt({ file, text }, part, { sentences, place, question }) {
  const nothing = part.blanks.length + part.questions.length === 0;
  const origin = question?.origin ?? (nothing ? null : originAt(part, place)) ?? { line: part.line, column: 1, width: 1 };
  const mistake = { line: origin.line, column: origin.column, width: origin.width, says: sentences.join(' ') };
  return new Trouble(showMistakes({ mistakes: [mistake], lines: text?.lines ?? [] }, shownFile(file)));
}

/**
 * The exercise with the answers of a file: that has the same records, with words in the place of the question marks, or behind them.
 * @param {Asking} asking @param {TableSource} table @param {GivenExercise} given  the one that was handed out
 * @param {string} file
 * @returns {GivenExercise}
 */
export function answersFrom(asking, table, given, file) {
  const asked = /** @type {ExercisePart} */ (given.part);
  const filled = asking.sources.exercise(file, table);
  const part = filled.part ?? filled.text?.parts.find(({ kind }) => kind === 'journal');
  if (!part) throw new Trouble(`${shownFile(file)}: there is no exercise and no journal in this text`);
  const records = decodeRecords(part.bytes, 'journal');
  const open = new Set(filled.part?.blanks.filter(({ answer }) => answer === null).map(({ record }) => record));
  const blank = new Set(asked.blanks.map(({ record }) => record));
  const names = decodeTable(table.bytes, table.names)?.names;
  for (const [k, record] of decodeRecords(asked.bytes, 'journal').entries()) {
    const other = records[k];
    const given = other && other.kind === record.kind && other.time === record.time;
    if ((given && (blank.has(k) || (other.value === record.value && !open.has(k)))) || !names) continue;
    const line = recordLine(blank.has(k) ? { ...record, value: null } : record, names);
    throw troubleAt(filled, part, other?.place ?? part.bytes.length, `here the exercise has: ${line}${blank.has(k) ? ' ?' : ''}`);
  }
  const more = records[decodeRecords(asked.bytes, 'journal').length];
  if (more) throw troubleAt(filled, part, more.place, 'the exercise has no such record');
  const blanks = asked.blanks.map((each) => ({
    ...each, answer: open.has(each.record) ? null : records[each.record].value, origin: originAt(part, each.place) ?? each.origin,
  }));
  const questions = asked.questions.map((question, k) => ({ ...question, answer: filled.part?.questions[k]?.answer ?? null }));
  return { ...filled, part: { ...asked, bytes: part.bytes, origins: part.origins, line: part.line, blanks, questions } };
}

/**
 * What is said of the first wrong answer.
 * @param {GivenExercise} given @param {Grade} got
 */
function toldOf({ file, text, part }, { refused }) {
  if (!refused?.refused || !part) return null;
  const explanation = { ...explainJournal(refused), slip: null, slipName: null, either: undefined };
  const source = { file, form: /** @type {const} */ ('journal'), bytes: part.bytes, part: { ...part, kind: /** @type {const} */ ('journal') }, text };
  return { refusal: refused.refused, source, explanation, trace: refused };
}

/**
 * Told at the end: nothing before that.
 * @param {Asking} asking @param {GivenExercise} given @param {Grade} got
 */
function sayOpen({ terminal, json }, { file }, { answered, blanks }) {
  if (json) terminal.json({ file, answer: 'not told', answered, blanks });
  else terminal.line(`answered ${answered} of ${blanks}`);
  terminal.sentence('What is right is told once all are answered.');
  return REFUSED;
}

/**
 * @param {Asking} asking @param {TableSource} table @param {GivenExercise} given
 */
export function gradeGiven(asking, table, given) {
  const part = /** @type {ExercisePart} */ (given.part);
  asking.terminal = new Terminal(asking.io, { plain: asking.plain || asking.json, beside: false });
  const opened = openExercise(asking.library, { table: table.bytes, names: table.names }, part);
  if (!opened.ok) throw badAt(given, part, opened);
  const got = grade(asking.library, opened.exercise);
  if (part.told === 'end' && got.answered < got.blanks) return sayOpen(asking, given, got);
  return sayGrade(asking, given, got, sayTime(opened.exercise.table, got));
}

/**
 * @param {Asking} asking @param {GivenExercise} given @param {Grade} got @param {string[]} ofTime
 */
function sayGrade(asking, given, got, ofTime) {
  const { terminal } = asking;
  const { right, answered, blanks, machines } = got;
  const refused = toldOf(given, got);
  if (asking.json) {
    const numbers = { right, answered, blanks, ...(machines.length > 0 ? { machines } : {}) };
    terminal.json({ file: given.file, answer: right === blanks ? 'accepted' : 'refused', ...(refused ? toldObject(refused) : {}), ...numbers });
  } else {
    terminal.line(`right ${right} of ${blanks}`, right === blanks ? 'green' : 'red');
    terminal.sentence(sayCount(got));
    if (refused) tell(asking, refused);
    for (const sentence of ofTime) terminal.sentence(sentence);
    const says = sayMachines(got);
    if (says) terminal.sentence(says, 'bold');
  }
  return right === blanks ? ACCEPTED : REFUSED;
}
