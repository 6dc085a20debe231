/** The questions for a reaction time in an exercise: each a number to be given. It is written into the text, behind its question mark. */

import { listed, quoted, say } from '../names.js';
import { members } from '../sets.js';
import { byId, fill, make } from './dom.js';
import { isDone } from './exercise-answer.js';

/** @typedef {import('./page.js').Page} Page */
/** @typedef {import('../types.js').Question} Question */
/** @typedef {import('../types.js').Names} Names */

/**
 * @param {Question} question @param {Names} names
 */
function sayQuestion({ states, inputs, moves }, names) {
  const either = (/** @type {number|null} */ set, /** @type {string[]} */ list) => (
    set === null ? 'any' : listed(members(set).map((member) => quoted(list, member)), 'or'));
  const over = moves === null ? '' : say`, over ${moves} ${moves === 1 ? 'move' : 'moves'}`;
  return `As long as the state is ${either(states, names.states)} and the input is ${either(inputs, names.inputs)}${over}: how long does it take at most?`;
}

/**
 * Puts a number behind a question mark, or takes it away.
 * @param {Page} page @param {number} k @param {string} number
 */
export function answerQuestion(page, k, number) {
  const question = page.answers.exercise?.part.questions[k];
  if (!question) return;
  const { pane, line } = page.answers.reading.place(question.origin.line);
  const { column, width } = question.origin;
  const lines = page.texts[pane].split('\n');
  const old = lines[line - 1];
  lines[line - 1] = `${old.slice(0, column - 1)}? ${number}`.trimEnd() + old.slice(column - 1 + width);
  page.put({ ...page.texts, [pane]: lines.join('\n') }, pane, page.title);
}

/**
 * The fields stay while the questions are the same, and the focus with them.
 * @param {Page} page
 */
export function showQuestions(page) {
  const { answers: { exercise, decoded } } = page;
  const questions = exercise && !exercise.bad && decoded ? exercise.part.questions : [];
  const said = decoded ? questions.map((question) => sayQuestion(question, decoded.names)) : [];
  const room = byId('questions');
  byId('questions-panel').hidden = questions.length === 0;
  if (room.dataset.shown !== said.join('\n')) {
    room.dataset.shown = said.join('\n');
    fill(room, ...said.map((words, k) => make('label', { class: 'question' }, words, make('input', {
      type: 'number', min: 0, step: 1, inputmode: 'numeric', 'data-question': k,
    }))));
  }
  byId('questions-tell').hidden = exercise?.part.told !== 'end';
  byId('questions-tell').disabled = !isDone(exercise);
  for (const [k, { answer }] of questions.entries()) {
    const field = room.children[k].querySelector('input');
    if (field.value !== String(answer ?? '')) field.value = String(answer ?? '');
  }
}

/** @param {Page} page */
export function listenToQuestions(page) {
  byId('questions-tell').addEventListener('click', () => page.making.tell());
  byId('questions').addEventListener('change', (/** @type {any} */ { target }) => {
    if (target.checkValidity()) answerQuestion(page, Number(target.dataset.question), target.value);
  });
}
