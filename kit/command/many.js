/** Many journals, one after the other: a file that cannot be read is said, and the next one is asked. */

import { ACCEPTED, NOT_ASKED } from './asking.js';
import { JOURNALS, shownFile } from './sources.js';
import { notAsked } from './terminal.js';
import { Trouble } from './trouble.js';

/** @typedef {import('./asking.js').Asking} Asking */
/** @typedef {import('./sources.js').Source} Source */
/** @typedef {import('./sources.js').TableSource} TableSource */

/**
 * Says that a file could not be asked about.
 * @param {Asking} asking @param {string} file @param {unknown} error
 */
function sayTrouble(asking, file, error) {
  if (!(error instanceof Trouble)) throw error;
  asking.terminal.clearProgress();
  if (asking.json) asking.terminal.json({ file, ...notAsked(error.message) });
  else asking.complain(error.message);
  return NOT_ASKED;
}

/** @param {number[]} codes */
export const worstOf = (codes) => codes.reduce((worst, code) => Math.max(worst, code), ACCEPTED);

/**
 * @param {Asking} asking @param {TableSource} table @param {string} file @param {(source: Source) => number} act
 * @returns {number[]}
 */
function codesOf(asking, table, file, act) {
  try {
    return named(asking.all(table, JOURNALS, file, asking.library.reading)).map((source) => act(source));
  } catch (error) {
    const isFolder = error instanceof Trouble && error.code === 'EISDIR';
    const inside = isFolder ? asking.io.list(file) : [];
    if (inside.length > 0) return eachJournal(asking, table, inside, act);
    return [sayTrouble(asking, file, isFolder ? new Trouble(`${file}: there is no file in this folder`) : error)];
  }
}

/**
 * The exit code of each journal, and of each file that could not be read. A folder stands for the files in it.
 * @param {Asking} asking @param {TableSource} table @param {string[]} files @param {(source: Source) => number} act
 * @returns {number[]}
 */
export function eachJournal(asking, table, files, act) {
  const codes = files.flatMap((file, k) => {
    asking.terminal.progress(k, files.length);
    return codesOf(asking, table, file, act);
  });
  asking.terminal.clearProgress();
  return codes;
}

/**
 * Several journals of one text are told apart by their form.
 * @param {Source[]} sources
 */
export function named(sources) {
  if (sources.length < 2) return sources;
  return sources.map((source) => ({ ...source, file: `${shownFile(source.file)} (${source.form})` }));
}
