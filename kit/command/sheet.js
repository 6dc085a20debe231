/** `sheet`: a worksheet of a run and its solutions, for a browser or as PDF. */

import { ASKED } from '../notation/records.js';
import { PAPERS, sheetHtml } from '../sheet/html.js';
import { sheetOf } from '../sheet.js';
import { ACCEPTED, REFUSED } from './asking.js';
import { tableRefused } from './check.js';
import { oneOf } from './one-of.js';
import { titleOf } from './pictures.js';
import { tell, told } from './refusals.js';
import { shownFile } from './sources.js';
import { Trouble } from './trouble.js';
import { endingOf, put } from './writing.js';

/** @typedef {import('./asking.js').Asking} Asking */
/** @typedef {import('../types.js').Kind} Kind */

/** @param {Asking} asking @param {string} html */
function asPaper({ io }, html) {
  const pdf = io.paper(html);
  if (!pdf) throw new Trouble('for .pdf the package chromium is missing: apt-get install chromium; or write .html and print it');
  return pdf;
}

/**
 * @param {Asking} asking
 */
export function sheet(asking) {
  const { options } = asking;
  const paper = oneOf('paper', options.paper ?? PAPERS[0], PAPERS);
  const kinds = /** @type {Kind[]|undefined} */ (options.blank?.split(',').map((/** @type {string} */ word) => oneOf('blank', word.trim(), ASKED)));
  const ending = endingOf(asking, 'html');
  if (ending !== 'html' && ending !== 'pdf') throw new Trouble(`a sheet is written as .html or .pdf, not as .${ending}`);
  const table = asking.table();
  if (tableRefused(asking, table)) return REFUSED;
  const source = asking.one(table, ['stimulus']);
  const made = sheetOf(asking.library, { table: table.bytes, stimulus: source.bytes, names: table.names, title: titleOf(asking, table.file), kinds });
  if (!made.ok) {
    tell(asking, told(asking, table, source, made));
    return REFUSED;
  }
  const html = sheetHtml(made.sheet, paper);
  put(asking, ending === 'pdf' ? asPaper(asking, html) : html);
  const { output } = options;
  if (asking.json) asking.terminal.json({ file: source.file, answer: 'drawn', asked: made.sheet.rows.length, ...(output === undefined ? {} : { wrote: output }) });
  else if (output !== undefined) asking.terminal.sentence(`The worksheet and its solutions are in ${shownFile(output)}.`);
  return ACCEPTED;
}
