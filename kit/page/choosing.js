/** Files that come together: one table and one stimulus are opened, and of several journals one after the other, as the reader chooses. */

import { formOf } from '../fields.js';
import { isText } from '../notation.js';
import { splitText } from './documents.js';

/** @typedef {import('./receiving.js').Taken} Taken */
/** @typedef {import('./receiving.js').Left} Left */
/** @typedef {import('./workspace.js').Pane} Pane */

/** More are for the command, which checks any number. */
export const JOURNALS_MOST = 100;

/**
 * The panes that a file fills.
 * @param {Uint8Array} bytes
 * @returns {Pane[]}
 */
function panesOf(bytes) {
  if (isText(bytes)) return /** @type {Pane[]} */ (Object.keys(splitText(new TextDecoder().decode(bytes))));
  const form = formOf(bytes);
  return [form === 'table' || form === 'stimulus' ? form : 'journal'];
}

/**
 * What is put in the panes at once, all journals, and what is left. A text that has a table is a whole: it is opened or left as one.
 * @param {Taken[]} files
 * @returns {{opened: Taken[], journals: Taken[], left: Left[]}}
 */
export function choose(files) {
  const known = files.map((file) => ({ file, panes: panesOf(file.bytes) }));
  const having = (/** @type {Pane} */ pane, /** @type {typeof known} */ among) => among.filter(({ panes }) => panes.includes(pane));
  const [table, ...tables] = having('table', known);
  const [stimulus, ...stimuli] = having('stimulus', known.filter((each) => !tables.includes(each)));
  const second = (/** @type {string} */ what, /** @type {string} */ first) => `has a second ${what}, beside that of ${first}. Open it alone.`;
  const left = [
    ...tables.map(({ file: { name } }) => ({ name, why: second('table', table.file.name) })),
    ...stimuli.map(({ file: { name } }) => ({ name, why: second('stimulus', stimulus.file.name) })),
  ];
  const journals = having('journal', known.filter((each) => ![...tables, ...stimuli].includes(each)));
  const many = journals.slice(JOURNALS_MOST).map(({ file: { name } }) => (
    { name, why: `comes after ${JOURNALS_MOST} journals, the most that are opened together. The command checks any number.` }));
  const first = journals.find((each) => each !== table && each !== stimulus);
  const opened = known.filter((each) => [table, stimulus, first].includes(each)).map(({ file }) => file);
  return { opened, journals: journals.slice(0, JOURNALS_MOST).map(({ file }) => file), left: [...left, ...many] };
}
