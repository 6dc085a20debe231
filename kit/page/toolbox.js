/** The panel of tools: those that fit what is there, and what one of them gave. */

import { byId, fill, make, save, show } from './dom.js';
import { lookOf } from './looks.js';
import { RUN, TOOLS } from './tools.js';

/** @typedef {import('./page.js').Page} Page */
/** @typedef {import('./tools.js').Tool} Tool */
/** @typedef {import('./tools.js').Result} Result */

/** @param {Page} page */
export function showTools(page) {
  const { answers } = page;
  const fitting = answers.reading.mistakes.length > 0 ? [] : TOOLS.filter((tool) => tool.fits(answers));
  page.rooms.set('tools-panel', fitting.length > 0);
  fill(byId('h-tools'), answers.tableRefused ? 'With this table' : 'With this journal');
  const key = fitting.map(({ id }) => id).join(' ');
  if (byId('tools').dataset.shown === key) return;
  byId('tools').dataset.shown = key;
  fill(byId('tool-answer'));
  fill(byId('tools'), ...fitting.map((tool) => make('button', {
    type: 'button', id: `tool-${tool.id}`, title: tool.says, onclick: () => use(page, tool),
  }, tool.label)));
}

/** @param {Page} page @param {Tool} tool */
function use(page, tool) {
  const { made, list = [], line, sentences, picture } = tool.use(page.library, page.answers);
  const figure = picture && make('figure', { id: 'tool-picture' });
  fill(byId('tool-answer'), make('p', {}, make('strong', {}, `${tool.label}. `), line && `${line}. `, sentences.join(' ')),
    figure, list.length > 0 && make('ul', {}, ...list.map((each) => make('li', {}, lineButton(page, each)))),
    made && make('div', { class: 'row' }, ...keeping(page, made)));
  if (!picture) return;
  const { scale, ...look } = lookOf(page, figure);
  show(figure, picture(look), scale);
}

/** @param {Page} page @param {{line: number, says: string}} given */
function lineButton(page, { line, says }) {
  return make('button', { class: 'plain', type: 'button', onclick: () => page.go({ pane: page.subject?.pane ?? 'journal', line, column: 1, width: 0 }) }, says);
}

/**
 * What was made can be put in its text, or saved.
 * @param {Page} page @param {NonNullable<Result['made']>} made
 */
function keeping(page, { pane, text, bytes, file }) {
  const button = (/** @type {string} */ label, /** @type {() => void} */ onclick, /** @type {string|null} */ id = null) =>
    make('button', { type: 'button', id, onclick }, label);
  return [
    button('Put it in the text', () => {
      page.replace({ ...page.texts, [pane]: text }, pane);
      byId(`tab-${pane}`).focus({ preventScroll: true });
    }, 'tool-put'),
    button('Save as bytes', () => save(file, bytes)),
    button('Save as text', () => save(`${file}.kv`, text, 'text/plain')),
  ];
}

/**
 * Fills the journal with the run of the stimulus.
 * @param {Page} page
 */
export function run(page) {
  const { made } = RUN.use(page.library, page.answers);
  if (made) page.replace({ ...page.texts, journal: made.text }, 'journal');
}
