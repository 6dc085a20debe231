/**
 * For the shell's completion: `krossvil complete OPTION WORD WORDS..` prints what the word that is being typed can go on to, one to a line,
 * as it is to stand in the shell. The names are those of the first table among the words of the line.
 */

import { decodeTable } from '../fields.js';
import { wordsOf } from './arguments.js';
import { ACCEPTED } from './asking.js';
import { Sources } from './sources.js';
import { Trouble } from './trouble.js';

/** @typedef {import('./io.js').Io} Io */
/** @typedef {import('../types.js').Names} Names */

/** @type {Record<string, 'states'|'inputs'>} */
const LISTS = { '--from': 'states', '--while': 'inputs' };

/** Everything but letters, digits and what means nothing to a shell behind a backslash. */
const forShell = (/** @type {string} */ word) => word.replace(/[^\p{L}\p{M}\p{N}_.,-]/gu, '\\$&');

/** A name as it stands among others with commas between. */
const inList = (/** @type {string} */ name) => (name.includes(',') ? `"${name}"` : name);

/**
 * The names of the table in a file; null if there is none.
 * @param {Io} io @param {string} file @param {string|undefined} other  the text from which the names are to be taken
 * @returns {Names|null}
 */
function namesIn(io, file, other) {
  if (file === '-') return null;
  try {
    const sources = new Sources(io, false);
    const given = other === undefined ? null : sources.names(other);
    const table = sources.table(file, given);
    return decodeTable(table.bytes, table.names)?.names ?? null;
  } catch (error) {
    if (!(error instanceof Trouble)) throw error;
    return null;
  }
}

/**
 * @param {Io} io @param {string[]} args
 */
export function answer(io, [option, word = '', ...words]) {
  const { options, files } = wordsOf('react', words);
  const tables = files.map((file) => namesIn(io, file, options.names));
  const names = tables.find((each) => each !== null)?.[LISTS[option]] ?? [];
  const before = /^(?:(?:"[^"]*"|[^",]+),)*/.exec(word)?.[0] ?? '';
  const begun = word.slice(before.length);
  const fitting = names.map(inList).filter((name) => name.startsWith(begun) && !`,${before}`.includes(`,${name},`));
  for (const name of fitting) io.print(`${forShell(before + name)}\n`);
  return ACCEPTED;
}
