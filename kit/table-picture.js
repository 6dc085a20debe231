/** The picture of a table that is easier to read: the automaton, or the matrix of next states where its arrows would be a tangle. */

import { automaton } from './automaton.js';
import { isTangled } from './automaton/graph.js';
import { matrix } from './matrix.js';

/** @typedef {import('./types.js').Table} Table */
/** @typedef {'automaton'|'matrix'} Shown */

/** @type {Record<Shown, (table: Table, options?: import('./automaton.js').Options) => string>} */
const PICTURES = { automaton, matrix };
export const SHOWN = /** @type {Shown[]} */ (Object.keys(PICTURES));

/**
 * Which of the two is taken by itself.
 * @param {Table} table
 * @returns {Shown}
 */
export const easierToRead = (table) => (isTangled(table) ? 'matrix' : 'automaton');

/**
 * @param {Table} table @param {import('./automaton.js').Options & {show?: Shown|null}} [options]
 * @returns {string}   an SVG file
 */
export function tablePicture(table, options = {}) {
  return PICTURES[options.show ?? easierToRead(table)](table, options);
}
