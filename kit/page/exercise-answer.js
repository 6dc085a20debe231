/** What is said of an exercise and of its answers: the number that is right, the checker's refusal at the first wrong one, and whose answers they are. */

import { refusalLine } from '../answers.js';
import { sayCount, sayMachines } from '../exercise.js';
import { MEANINGS, explainJournal } from '../explain.js';
import { say } from '../names.js';
import { spotOf } from './workspace.js';

/** @typedef {import('./answer.js').Said} Said */
/** @typedef {import('./workspace.js').Doing} Doing */
/** @typedef {import('./workspace.js').Reading} Reading */
/** @typedef {import('../exercise.js').Grade} Grade */

/** @type {Omit<Said, 'look'|'line'>} */
const PLAIN = { about: 'exercise', meaning: '', sentences: [], slip: null, spot: null, mistakes: [] };

/**
 * It is not time to tell anything.
 * @param {Grade} grade
 * @returns {Said}
 */
function untold({ answered, blanks }) {
  const all = answered === blanks;
  const sentence = all ? 'All are answered: ask to be told what is right.' : 'What is right is told once all are answered.';
  return { ...PLAIN, look: 'quiet', line: say`answered ${answered} of ${blanks}`, sentences: [sentence] };
}

/**
 * @param {Reading} reading @param {Doing} doing @param {Grade} grade
 * @returns {Said}
 */
function told(reading, { part, sentences: ofTime }, grade) {
  const { answered, right, blanks, refused } = grade;
  const line = answered === 0 ? say`answered 0 of ${blanks}` : say`right ${right} of ${blanks}`;
  const slip = sayMachines(grade);
  if (!refused?.refused) {
    const look = answered === 0 ? 'quiet' : right === answered ? 'accepted' : 'refused';
    return { ...PLAIN, look, line, sentences: [sayCount(grade), ...ofTime], slip };
  }
  const { sentences, blame } = explainJournal(refused);
  const meaning = `${refusalLine(refused.refused)}: ${MEANINGS.get(refused.refused.number)}`;
  return { ...PLAIN, look: 'refused', line, meaning, sentences: [sayCount(grade), ...sentences, ...ofTime], slip, spot: spotOf(reading, part, blame.place) };
}

/**
 * Is everything answered that is asked?
 * @param {Doing|null} doing
 */
export const isDone = (doing) => doing?.grade !== null && doing?.grade.answered === doing?.grade.blanks;

/**
 * @param {Reading} reading @param {Doing} doing @param {boolean} tells  has the reader asked to be told?
 * @returns {Said}
 */
export function sayExercise(reading, doing, tells) {
  const { part, grade, bad } = doing;
  if (bad) {
    const origin = bad.question?.origin ?? (part.blanks.length + part.questions.length === 0 ? { line: part.line, column: 1, width: 1 } : null);
    const spot = origin ? { ...reading.place(origin.line), column: origin.column, width: origin.width } : spotOf(reading, part, bad.place);
    return { ...PLAIN, look: 'mistake', line: 'This exercise cannot be done', sentences: bad.sentences, spot };
  }
  if (!grade) return { ...PLAIN, look: 'quiet', line: '' };
  return part.told === 'each' || (tells && isDone(doing)) ? told(reading, doing, grade) : untold(grade);
}
