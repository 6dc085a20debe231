/** Answering an exercise, by mouse, finger or key: what is chosen is written into the text, behind its question mark. */

import { memberText } from '../notation/records.js';
import { blankOf, choicesOf } from './blank.js';
import { byId } from './dom.js';
import { select } from './stepping.js';

/** @typedef {import('./page.js').Page} Page */

/**
 * The next blank behind the record that is looked at, one without an answer first.
 * @param {Page} page
 */
function nextBlank({ answers: { exercise }, step: { selected } }) {
  const blanks = exercise?.part.blanks ?? [];
  const after = [...blanks.filter(({ record }) => record > (selected ?? -1)), ...blanks.filter(({ record }) => record <= (selected ?? -1))];
  return after.find(({ answer }) => answer === null) ?? after[0] ?? null;
}

/** @param {Page} page */
export function goToNext(page) {
  const blank = nextBlank(page);
  if (blank) select(page, blank.record);
}

/**
 * Writes an answer behind its question mark; then the next blank is looked at, unless something is to be read about this one.
 * @param {Page} page @param {number} value
 */
export function answerBlank(page, value) {
  const blank = blankOf(page);
  const { decoded, reading } = page.answers;
  if (!blank || !decoded) return;
  const { pane, line } = reading.place(blank.origin.line);
  const { column, width } = blank.origin;
  const lines = page.texts[pane].split('\n');
  const old = lines[line - 1];
  const word = memberText(choicesOf(blank, decoded.names), value);
  lines[line - 1] = `${old.slice(0, column - 1)}? ${word}${old.slice(column - 1 + width)}`;
  page.put({ ...page.texts, [pane]: lines.join('\n') }, pane, page.title);
  select(page, blank.record);
  if (page.said.look !== 'refused') goToNext(page);
}

/** @param {Page} page */
export function listenToBlanks(page) {
  byId('blank-choices').addEventListener('click', (/** @type {any} */ { target }) => {
    const choice = [...byId('blank-choices').children].indexOf(target.closest('button'));
    if (choice >= 0) answerBlank(page, choice);
  });
  byId('blank-next').addEventListener('click', () => goToNext(page));
  byId('blank-tell').addEventListener('click', () => page.making.tell());
  document.addEventListener('keydown', (event) => {
    const busy = event.target instanceof Element && event.target.closest('textarea, input, select, dialog, details[open]');
    if (byId('blank').hidden || !byId('live-panel').hidden || busy || event.altKey || event.ctrlKey || event.metaKey || event.repeat) return;
    const choice = byId('blank-choices').children[Number(event.key) - 1];
    if (choice) choice.click();
    else if (event.key === 'n') goToNext(page);
  });
}
