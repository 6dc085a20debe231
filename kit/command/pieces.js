/** What comes in pieces, from a file or a pipe. */

import { kindOf } from '../fields.js';

/** @typedef {Iterator<Uint8Array>} Pieces */

/** So many bytes tell a text from others. */
const BEGINNING = 20;

/**
 * What has come, and more of it while that is wanted.
 * @param {Uint8Array} head @param {Pieces} pieces @param {(all: Uint8Array) => boolean} wanted
 */
export function gathered(head, pieces, wanted) {
  let all = head;
  while (wanted(all)) {
    const { value, done } = pieces.next();
    if (done) break;
    all = new Uint8Array(Buffer.concat([all, value]));
  }
  return all;
}

/**
 * The first bytes; where no field of a journal begins them, enough to tell whether they are a text.
 * @param {Pieces} pieces
 */
export function beginningOf(pieces) {
  const isOpen = (/** @type {Uint8Array} */ all) => all.length === 0 || (all.length < BEGINNING && kindOf('journal', all[0]) === null);
  return gathered(new Uint8Array(), pieces, isOpen);
}

/**
 * The pieces with that which was taken from them.
 * @param {Uint8Array} head @param {Pieces} pieces
 * @returns {Iterable<Uint8Array>}
 */
export function* withHead(head, pieces) {
  try {
    yield head;
    for (let next = pieces.next(); !next.done; next = pieces.next()) yield next.value;
  } finally {
    pieces.return?.();
  }
}
