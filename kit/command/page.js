/** `page`: the live page as one file, with the table and the journal or stimulus that are given inside. */

import { readFileSync } from 'node:fs';
import { recordsText, tableText } from '../notation.js';
import { decodeTable } from '../fields.js';
import { ACCEPTED } from './asking.js';
import { madeFile } from './library-file.js';
import { titleOf } from './pictures.js';
import { JOURNALS, shownFile } from './sources.js';
import { unicodeEscape } from './terminal.js';
import { Trouble } from './trouble.js';
import { put } from './writing.js';

/** @typedef {import('./asking.js').Asking} Asking */
/** @typedef {import('./sources.js').Source} Source */
/** @typedef {import('./sources.js').TableSource} TableSource */

/** The name of the example that is given, with which the page opens. */
const GIVEN = 'given';

const DATA = /(<script type="application\/json" id="data">)([^<]*)(<\/script>)/;

/** JSON that cannot end the script in which it stands. */
const inScript = (/** @type {unknown} */ value) => JSON.stringify(value).replace(/[<\u2028\u2029]/g, unicodeEscape);

/**
 * The texts of what is given; a text that is given whole stays as it was written.
 * @param {Asking} asking @param {TableSource} table
 */
function textOf(asking, table) {
  if (table.text && asking.files.length === 1) return table.text.lines.join('\n');
  const names = table.names ?? decodeTable(table.bytes)?.names ?? null;
  const sources = asking.files.slice(1).flatMap((file) => asking.all(table, [...JOURNALS, 'stimulus'], file));
  const forms = sources.map(({ form }) => form);
  if (new Set(forms).size < forms.length) throw new Trouble('a page has one journal and one stimulus');
  return [tableText(table.bytes, names), ...sources.map(({ bytes, form }) => recordsText(bytes, /** @type {any} */ (form), names))].join('\n');
}

/**
 * The page with one more example, with which it opens.
 * @param {string} html @param {{title: string, says: string, group: string, text: string}} example
 */
export function pageWith(html, example) {
  const found = DATA.exec(html);
  const data = found ? JSON.parse(found[2]) : null;
  const takes = found && Array.isArray(data?.samples) && typeof data.opens === 'string';
  if (!takes) throw new Trouble('this page takes no example; open it and drop the files on it');
  data.samples.unshift({ name: GIVEN, ...example });
  data.opens = GIVEN;
  return html.slice(0, found.index) + found[1] + inScript(data) + found[3] + html.slice(found.index + found[0].length);
}

/**
 * @param {Asking} asking
 */
export function page(asking) {
  if (asking.json && asking.options.output === undefined) throw new Trouble('with --json give -o FILE');
  const file = madeFile('krossvil.html');
  if (!file) throw new Trouble('the page is not built yet: run kit/page/build');
  asking.io.keep(file);
  const html = readFileSync(file, 'utf8');
  if (asking.files.length === 0) put(asking, html);
  else {
    const table = asking.table();
    const own = asking.files[asking.files.length - 1];
    const title = titleOf(asking, own) || 'Given';
    put(asking, pageWith(html, { title, says: `From ${shownFile(own)}.`, group: 'runs', text: textOf(asking, table) }));
  }
  const { output } = asking.options;
  if (asking.json) asking.terminal.json({ answer: 'written', wrote: output });
  else if (output !== undefined && output !== '-') asking.terminal.sentence(`Open ${output} in a browser.`);
  return ACCEPTED;
}
