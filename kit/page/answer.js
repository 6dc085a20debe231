/** The answer about what is looked at, in a few words and then in sentences. The numbers are the library's. */

import { acceptanceLine, refusalLine, sayAcceptance } from '../answers.js';
import { MEANINGS } from '../explain.js';
import { counted } from '../names.js';
import { fill, make } from './dom.js';
import { sayExercise } from './exercise-answer.js';
import { PANE_NAMES, spotOf } from './workspace.js';

/** @typedef {import('./workspace.js').Answers} Answers */
/** @typedef {import('./workspace.js').Subject} Subject */
/** @typedef {import('./workspace.js').Spot} Spot */

/**
 * @typedef {Object} Said
 * @property {'accepted'|'refused'|'mistake'|'quiet'} look
 * @property {string} line         the first line: the library's answer where it was asked
 * @property {string} about        what was asked
 * @property {string} meaning
 * @property {string[]} sentences
 * @property {string|null} slip
 * @property {Spot|null} spot      the text to look at
 * @property {{says: string, spot: Spot}[]} mistakes
 */

export const NOTHING = { meaning: '', sentences: [], slip: null, spot: null, mistakes: [] };
/** @type {Said} */
export const UNSAID = { ...NOTHING, look: 'quiet', line: '', about: '' };
const MISTAKES_SHOWN = 4;

/**
 * What the answer is about: the text in hand, or else the journal, or else the stimulus.
 * @param {Answers} answers @param {string} pane
 * @returns {Subject|null}
 */
export function subjectOf({ journal, stimulus, exercise }, pane) {
  if (exercise && (pane !== 'stimulus' || !stimulus)) return exercise.subject;
  return (pane === 'stimulus' ? stimulus ?? journal : journal ?? stimulus) ?? null;
}

/**
 * @param {Answers} answers @param {import('../types.js').Refusal} refusal @param {import('../types.js').Explanation} why
 * @param {Subject['part']} part @param {string} about @param {number} place
 * @returns {Said}
 */
function refused({ reading }, refusal, why, part, about, place) {
  const spot = spotOf(reading, part, place);
  const { sentences, slip } = why;
  return { ...NOTHING, look: 'refused', line: refusalLine(refusal), about, meaning: MEANINGS.get(refusal.number) ?? '', sentences, slip, spot };
}

/**
 * @param {Answers} answers @param {Subject} subject
 * @returns {Said}
 */
function sayOf(answers, subject) {
  const { trace, explanation, part, kind } = subject;
  const about = kind === 'journal' ? { journal: 'journal', stamped: 'stamped journal', short: 'short journal', stimulus: '' }[trace.form] : kind;
  if (trace.refused && explanation) {
    return refused(answers, trace.refused, explanation, part, about, explanation.blame.place);
  }
  if (!trace.answer) return { ...NOTHING, look: 'quiet', line: '', about };
  const sentences = sayAcceptance(trace.table, trace.answer);
  if (kind === 'journal') return { ...NOTHING, look: 'accepted', line: acceptanceLine(trace.answer), about, sentences };
  const [first, ...rest] = sentences;
  const ran = first.replace('The journal is a run of this table. It', 'The stimulus can be run. Its journal');
  return { ...NOTHING, look: 'accepted', line: acceptanceLine(trace.answer), about: "stimulus' run", sentences: [ran, ...rest] };
}

/**
 * @param {Answers} answers @param {Subject|null} subject @param {boolean} [tells]  is it time to tell what is right in an exercise?
 * @returns {Said}
 */
export function sayAnswer(answers, subject, tells = false) {
  const { reading, tableRefused, tableExplanation, decoded } = answers;
  if (reading.mistakes.length > 0) {
    const count = reading.mistakes.length;
    const mistakes = reading.mistakes.slice(0, MISTAKES_SHOWN).map((spot) => ({
      spot, says: `${PANE_NAMES[spot.pane]}, line ${spot.line}: ${spot.says}`,
    }));
    const line = count === 1 ? 'A mistake in the text' : `${counted(count, 'mistake')} in the texts`;
    return { ...NOTHING, look: 'mistake', line, about: 'not asked', mistakes };
  }
  if (reading.table && tableRefused && tableExplanation) {
    return refused(answers, tableRefused, tableExplanation, reading.table, 'table', tableExplanation.blame.place);
  }
  if (answers.exercise && subject?.kind !== 'stimulus') return sayExercise(reading, answers.exercise, tells);
  if (subject) return sayOf(answers, subject);
  const sentences = [decoded ? 'The table passes. Write a journal or a stimulus, or ask for a reaction time.' : 'Write a table, or open an example.'];
  return { ...NOTHING, look: decoded ? 'accepted' : 'quiet', line: decoded ? 'accepted' : 'No table yet', about: 'table', sentences };
}

/**
 * @param {Element} room @param {Said} said @param {(spot: Spot) => void} go
 * @param {{record: string, says: string}|null} [step]  a record that is looked at, in the place of the answer's own sentences
 */
export function showAnswer(room, said, go, step = null) {
  const { look, line, about, meaning, sentences, slip, spot, mistakes } = said;
  room.className = `answer ${look}`;
  const where = spot && make('button', { class: 'plain', id: 'go', onclick: () => go(spot) }, `line ${spot.line}`);
  fill(room,
    make('p', { class: 'line' }, make('span', { class: 'about' }, about), make('strong', { id: 'verdict' }, line),
      where, meaning && make('span', { class: 'meaning' }, meaning)),
    step && make('p', { class: 'sentences', id: 'step-says' }, make('strong', { class: 'at-record' }, step.record), ` ${step.says}`),
    !step && sentences.length > 0 && make('p', { class: 'sentences' }, sentences.join(' ')),
    !step && slip && make('p', { class: 'slip' }, slip),
    mistakes.length > 0 && make('ul', { class: 'mistakes' },
      ...mistakes.map((each) => make('li', {}, make('button', { class: 'plain', onclick: () => go(each.spot) }, each.says)))));
}
