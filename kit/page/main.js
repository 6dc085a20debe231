/** The live page: texts on one side, the library's answer and its pictures on the other. It begins here. */

import { loadLibrary } from '../library.js';
import { byId, fill, make } from './dom.js';
import { redraw } from './drawing.js';
import { fromBase64 } from './link.js';
import { listen } from './listening.js';
import { catchAll, sayFault } from './net.js';
import { openAddress } from './opening.js';
import { Page } from './page.js';
import { writePaper } from './paper.js';
import { showNothing } from './unanswered.js';

/** @param {(import('../examples.js').Example)[]} samples */
function listExamples(samples) {
  const option = (/** @type {import('../examples.js').Example} */ { name, title }) => make('option', { value: name }, title);
  const groups = [...new Set(samples.map(({ group }) => group))];
  fill(byId('examples'), make('option', { value: '', disabled: true }, 'your own'),
    ...groups.map((group) => make('optgroup', { label: group }, ...samples.filter((each) => each.group === group).map(option))));
}

/**
 * Only another width changes the pictures; on a phone the height changes while one scrolls.
 * @param {Page} page
 */
function followWidth(page) {
  let width = innerWidth;
  addEventListener('resize', () => {
    if (innerWidth !== width) redraw(page);
    width = innerWidth;
  });
}

async function begin() {
  /** @type {Page|null} */
  let page = null;
  catchAll((error) => (page ? page.unanswered(sayFault(error)) : showNothing(sayFault(error))));
  const { wasm, samples, opens } = JSON.parse(byId('data').textContent);
  page = new Page(await loadLibrary(fromBase64(wasm)), samples, opens);
  listExamples(samples);
  listen(page);
  page.dark = matchMedia('(prefers-color-scheme: dark)').matches;
  await openAddress(page);
  page.undo = [];
  byId('undo').hidden = true;
  redraw(page);
  addEventListener('hashchange', () => openAddress(/** @type {Page} */ (page)));
  addEventListener('beforeprint', () => writePaper(/** @type {Page} */ (page)));
  addEventListener('afterprint', () => /** @type {Page} */ (page).sheets.done());
  followWidth(page);
  document.documentElement.dataset.ready = 'yes';
}

begin();
