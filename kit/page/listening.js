/** What the reader does: buttons, tabs, keys, the diagram, what is dropped or pasted. */

import { copyFrom, showLink } from './address.js';
import { byId, closeMenu } from './dom.js';
import { redraw, showOther } from './drawing.js';
import { tooLong } from './limits.js';
import { listenToLive } from './live-controls.js';
import { listenToExercises } from './making-controls.js';
import { openExample, openFiles } from './opening.js';
import { listenToStage } from './presenting.js';
import { listSavings } from './saving.js';
import { move, select, selectTime } from './stepping.js';
import { run } from './toolbox.js';
import { listenToTouch } from './touching.js';
import { PANES } from './workspace.js';

/** @typedef {import('./page.js').Page} Page */

/** @param {Page} page */
export function listen(page) {
  listenToButtons(page);
  listenToChoices(page);
  listenToTabs(page);
  listenToKeys(page);
  listenToDiagram(page);
  listenToDrops(page);
  listenToPastes(page);
  listenToLive(page.live);
  listenToStage(page);
  listenToTouch(page);
  listenToExercises(page);
}

/** @param {Page} page */
function listenToButtons(page) {
  const press = (/** @type {string} */ id, /** @type {() => void} */ then) => byId(id).addEventListener('click', then);
  press('first', () => select(page, 0));
  press('back', () => move(page, -1));
  press('next', () => move(page, 1));
  press('last', () => select(page, Infinity));
  press('whole', () => select(page, null));
  press('run', () => run(page));
  press('show-as', () => showOther(page));
  press('undo', () => page.takeBack());
  press('open', () => byId('files').click());
  press('link', () => showLink(page));
  press('link-close', () => byId('link-box').close());
  press('link-copy', () => copyFrom('link-text'));
  press('link-copy-plain', () => copyFrom('link-plain'));
  for (const look of /** @type {const} */ (['large', 'dark'])) {
    press(look, () => {
      page[look] = !page[look];
      redraw(page);
    });
  }
}

/** @param {Page} page */
function listenToChoices(page) {
  byId('files').addEventListener('change', () => {
    openFiles(page, [...byId('files').files]);
    byId('files').value = '';
  });
  byId('examples').addEventListener('change', () => openExample(page, byId('examples').value));
  byId('save').addEventListener('toggle', () => byId('save').open && listSavings(page));
  document.addEventListener('click', (/** @type {any} */ event) => {
    if (!event.target.closest('#save')) closeMenu(byId('save'));
  });
}

/** @param {Page} page */
function listenToTabs(page) {
  for (const [k, pane] of PANES.entries()) {
    const tab = byId(`tab-${pane}`);
    tab.addEventListener('click', () => page.look(pane));
    tab.addEventListener('keydown', (/** @type {KeyboardEvent} */ event) => {
      const by = { ArrowRight: 1, ArrowLeft: PANES.length - 1 }[event.key];
      if (!by) return;
      event.preventDefault();
      event.stopPropagation();
      const other = PANES[(k + by) % PANES.length];
      page.look(other);
      byId(`tab-${other}`).focus();
    });
  }
}

/**
 * Arrow keys step where they have no other use.
 * @param {Page} page
 */
function listenToKeys(page) {
  const moves = new Map([['ArrowRight', () => move(page, 1)], ['ArrowLeft', () => move(page, -1)], ['Home', () => select(page, 0)],
    ['End', () => select(page, Infinity)], ['Escape', () => select(page, null)]]);
  document.addEventListener('keydown', (event) => {
    const then = moves.get(event.key);
    const busy = event.target instanceof Element && event.target.closest('textarea, input, select, dialog, details[open]');
    if (event.key === 'Escape') closeMenu(byId('save'));
    if (!then || busy || event.altKey || event.ctrlKey || event.metaKey || event.shiftKey) return;
    event.preventDefault();
    then();
  });
}

/**
 * The time at a place on the strip that shows a whole long journal.
 * @param {any} strip @param {number} x
 */
function timeOnStrip(strip, x) {
  const { left, width } = strip.querySelector('rect').getBoundingClientRect();
  return Number(strip.dataset.to) * Math.min(1, Math.max(0, (x - left) / width));
}

/** @param {Page} page */
function listenToDiagram(page) {
  byId('diagram').addEventListener('click', (/** @type {any} */ event) => {
    const record = event.target.closest('[data-record]');
    const strip = event.target.closest('.overview');
    if (record) select(page, Number(record.dataset.record));
    else if (strip) selectTime(page, timeOnStrip(strip, event.clientX));
  });
}

/** @param {Page} page */
function listenToDrops(page) {
  const carriesFiles = (/** @type {DragEvent} */ event) => [...event.dataTransfer?.types ?? []].includes('Files');
  let depth = 0;
  const shown = (/** @type {number} */ by) => {
    depth = Math.max(0, by === 0 ? 0 : depth + by);
    byId('drop').hidden = depth === 0;
  };
  document.addEventListener('dragenter', (event) => carriesFiles(event) && shown(1));
  document.addEventListener('dragleave', (event) => carriesFiles(event) && shown(-1));
  document.addEventListener('dragover', (event) => carriesFiles(event) && event.preventDefault());
  document.addEventListener('drop', (event) => {
    shown(0);
    if (!carriesFiles(event)) return;
    event.preventDefault();
    openFiles(page, [...event.dataTransfer?.files ?? []]);
  });
}

/**
 * A text that would be too long is not put in: a browser takes long to set it, and it would get no answer.
 * @param {Page} page
 */
function listenToPastes(page) {
  for (const pane of PANES) {
    const { field } = page.editors[pane];
    field.addEventListener('beforeinput', (/** @type {InputEvent} */ event) => {
      const added = event.data ?? event.dataTransfer?.getData('text/plain') ?? '';
      const text = field.value.slice(0, field.selectionStart) + added + field.value.slice(field.selectionEnd);
      const long = added.length > 1 ? tooLong({ ...page.texts, [pane]: text }) : null;
      if (!long) return;
      event.preventDefault();
      page.unanswered([`That is not put in. With it: ${long[0].toLowerCase()}${long.slice(1)}`], true);
    });
  }
}
