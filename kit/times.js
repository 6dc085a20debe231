/** Reaction times: what the library answers to one question, put together. */

/** @typedef {import('./types.js').Library} Library */
/** @typedef {{states: number, inputs: number, moves: number}} Question */

/**
 * Time, tight time, target and the longest way; or the refusal.
 * @param {Library} library @param {Uint8Array} bytes @param {Question} question
 * @returns {any}
 */
export function timesOf(library, bytes, { states, inputs, moves }) {
  const over = library.reactionMoves(bytes, states, inputs, moves);
  return over.ok ? { ...over, ...library.reactionTightMoves(bytes, states, inputs, moves) } : over;
}
