/** The panel in which exercises are made, and the bar in which they are answered: what the reader does there. */

import { TOPICS } from '../exercise/topics.js';
import { listenToBlanks } from './answering.js';
import { byId, fill, make } from './dom.js';
import { listenToQuestions } from './questions.js';

/** @typedef {import('./page.js').Page} Page */

/** @param {Page} page */
export function listenToExercises(page) {
  fill(byId('make-topic'), ...TOPICS.map(({ name, title }) => make('option', { value: name }, title)));
  byId('make-shown').addEventListener('click', () => page.making.ofShown());
  byId('make-sheet').addEventListener('click', () => page.making.sheet());
  byId('make-about').addEventListener('click', () => page.making.about());
  byId('make-topic').addEventListener('change', () => page.making.follow());
  byId('make-question').addEventListener('click', () => page.making.ofTime());
  listenToBlanks(page);
  listenToQuestions(page);
}
