/** Nothing is answered: whatever stands on the page of an answer before is taken away, and sentences say why. */

import { byId, closeMenu, empty, fill, make } from './dom.js';

const SHOWS_ANSWERS = ['diagram', 'machine', 'automaton', 'where', 'step-short', 'spoken', 'tools', 'tool-answer', 'reaction-answer',
  'reaction-slow', 'reaction-picture', 'pane-says', 'stage-picture', 'stage-says', 'stage-where', 'touch-says', 'touch-refused', 'live-time',
  'live-says', 'make-says', 'blank-says', 'blank-choices', 'questions', 'save-list', 'together-list', 'paper'];
const PICTURES = '#pictures, #automaton-beside, #automaton-below, #make-panel, #reaction-panel, #stepping';
const OTHERS = '#tools-panel, #together, #live-panel, #questions-panel, #blank, #run';

/** @param {string} rooms */
function hide(rooms) {
  for (const room of document.querySelectorAll(rooms)) room.toggleAttribute('hidden', true);
}

/** What was made of texts that are no longer there, and what was spoken of them: the next answer is spoken a little later. */
export function closeOld() {
  empty('spoken');
  fill(byId('tool-answer'));
  fill(byId('paper'));
  closeMenu(byId('save'));
  byId('link-box').close();
}

/** Pictures, and their rooms. */
function emptyPictures() {
  empty('diagram', 'machine', 'automaton', 'reaction-answer', 'reaction-slow', 'reaction-picture');
  hide(PICTURES);
}

/**
 * First everything goes, by means that hardly fail; then something is said.
 * @param {string[]} sentences @param {(() => void)|null} [again]  asks about the texts that are there
 */
export function showNothing(sentences, again = null) {
  const room = byId('answer');
  room.className = 'answer mistake';
  room.textContent = 'Nothing is answered';
  empty(...SHOWS_ANSWERS);
  for (const badge of document.querySelectorAll('.badge')) badge.textContent = '';
  delete byId('tools').dataset.shown;
  delete byId('blank-choices').dataset.shown;
  delete byId('questions').dataset.shown;
  emptyPictures();
  hide(OTHERS);
  byId('save').open = false;
  byId('link-box').close();
  fill(room, make('p', { class: 'line' }, make('strong', { id: 'verdict' }, 'Nothing is answered')),
    ...sentences.map((sentence) => make('p', { class: 'sentences' }, sentence)),
    again && make('button', { type: 'button', id: 'again', onclick: again }, 'Ask about the texts that are there'));
  fill(byId('spoken'), ['Nothing is answered.', ...sentences].join(' '));
}
