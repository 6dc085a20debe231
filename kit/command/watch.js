/** `watch`: a journal of any length, record by record. The library says whether each is taken; if one is not, the kit says why not. */

import { acceptanceLine, sayAcceptance } from '../answers.js';
import { Watching } from '../watching.js';
import { ACCEPTED, REFUSED } from './asking.js';
import { tableRefused } from './check.js';
import { tell, toldTrace } from './refusals.js';
import { Trouble } from './trouble.js';

/** @typedef {import('../types.js').Acceptance} Acceptance */
/** @typedef {import('../types.js').Trace} Trace */
/** @typedef {import('./asking.js').Asking} Asking */
/** @typedef {import('./sources.js').Source} Source */
/** @typedef {import('./sources.js').TableSource} TableSource */

/**
 * Takes all pieces, up to the first refusal. A file that is followed is at its end when the end field is, and nothing behind it.
 * @param {Watching} watching @param {Iterable<Uint8Array>} pieces
 * @returns {Trace|null}  of the refusal
 */
function takeAll(watching, pieces) {
  for (const piece of pieces) {
    const refused = watching.take(piece);
    if (refused) return refused;
    if (piece.length === 0 && watching.ended) break;
  }
  return watching.finish();
}

/**
 * The journal that is meant: the second file, or that in the table's own text.
 * @param {Asking} asking @param {TableSource} table
 * @returns {{source: Source, pieces: Iterable<Uint8Array>}}
 */
function journalOf(asking, table) {
  const [, file] = asking.files;
  const follow = asking.options.follow === true;
  if (file !== undefined) return asking.sources.stream(file, table, follow);
  if (follow) throw new Trouble("--follow needs the journal's own file, behind that of the table");
  const source = asking.one(table, ['journal']);
  return { source, pieces: [source.bytes] };
}

/**
 * What is known of the beginning, by which files of another kind are told: the first piece, or a longer first field.
 * @param {Source} source @param {Trace} refused
 */
function beginningOf({ bytes }, { journal, from }) {
  return from === 0 && journal.length > bytes.length ? journal : bytes;
}

/**
 * @param {Asking} asking
 */
export function watch(asking) {
  const { terminal } = asking;
  const table = asking.table();
  if (tableRefused(asking, table)) return REFUSED;
  const { source, pieces } = journalOf(asking, table);
  const watching = new Watching(asking.library, { table: table.bytes, names: table.names });
  const refused = takeAll(watching, pieces);
  if (refused) {
    tell(asking, toldTrace(refused, { ...source, bytes: beginningOf(source, refused) }));
    return REFUSED;
  }
  const numbers = /** @type {Acceptance} */ (watching.numbers);
  if (asking.json) terminal.json({ file: source.file, answer: 'accepted', ...numbers });
  else terminal.line(acceptanceLine(numbers), 'green');
  if (!asking.json) for (const sentence of sayAcceptance(watching.table, numbers)) terminal.sentence(sentence);
  return ACCEPTED;
}
