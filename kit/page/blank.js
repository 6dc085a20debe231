/** The blank of an exercise that is looked at: a choice in the bar. */

import { say } from '../names.js';
import { byId, fill, make } from './dom.js';
import { isDone } from './exercise-answer.js';

/** @typedef {import('./page.js').Page} Page */
/** @typedef {import('../types.js').Blank} Blank */
/** @typedef {import('../types.js').Names} Names */

const VERDICTS = ['held', 'free'];
const KEYS_MOST = 9;

/**
 * What can be answered.
 * @param {Blank} blank @param {Names} names
 */
export function choicesOf({ kind }, { inputs, states }) {
  return kind === 'test' ? VERDICTS : kind === 'poll' ? inputs : states;
}

/**
 * The blank at the record that is looked at.
 * @param {Page} page
 */
export function blankOf({ subject, answers: { exercise }, step: { selected } }) {
  if (subject?.kind !== 'exercise' || !exercise) return null;
  return exercise.part.blanks.find(({ record }) => record === selected) ?? null;
}

/**
 * Buttons for the choices, which stay while they are the same, and the focus with them.
 * @param {Blank|null} blank @param {string[]} labels
 */
function showChoices(blank, labels) {
  const room = byId('blank-choices');
  const shown = labels.join('\n');
  const focused = room.contains(document.activeElement);
  if (room.dataset.shown !== shown) {
    room.dataset.shown = shown;
    fill(room, ...labels.map((label, k) => make('button', {
      type: 'button', title: k < KEYS_MOST ? `Key ${k + 1}` : null,
    }, label)));
    if (focused) (room.firstElementChild ?? byId('blank-next')).focus({ preventScroll: true });
  }
  for (const [k, button] of [...room.children].entries()) button.setAttribute('aria-pressed', String(blank?.answer === k));
}

/** @param {Page} page */
export function showBlank(page) {
  const { subject, answers: { exercise, decoded } } = page;
  const open = subject?.kind === 'exercise' && exercise !== null && decoded !== null;
  byId('blank').hidden = !open;
  const blank = open ? blankOf(page) : null;
  const time = blank ? subject?.trace.steps[blank.record].record.time ?? 0 : 0;
  fill(byId('blank-says'), blank ? say`The ${blank.kind} at ${time}:` : 'Choose a blank in the text or the diagram:');
  showChoices(blank, blank && decoded ? choicesOf(blank, decoded.names) : []);
  byId('blank-tell').hidden = !open || exercise?.part.told === 'each';
  byId('blank-tell').disabled = !isDone(exercise);
}
