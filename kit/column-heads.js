/** Words over the columns of a matrix: upright where there is room, else turned, one name below the other. */

import { group, text } from './svg.js';
import { fit, widthOf } from './text-width.js';

/** @typedef {{size: number, fill: string, bold?: boolean}} Style */

const SIZE = 12.5;
const LEADING = 15;
/** No upright head is wider, and no turned one longer. */
const WIDEST = 180;
const LONGEST = 300;

/**
 * @typedef {Object} Heads
 * @property {boolean} turned
 * @property {number[]} widths    of the columns
 * @property {number} height
 */

/**
 * @param {string[][]} names    of each column
 * @param {number[]} least      as wide as each column must be for what stands in it
 * @param {number} room         for all columns
 * @returns {Heads}
 */
export function headsFor(names, least, room) {
  const lengths = names.map((list) => widthOf(list.join(', '), SIZE, true));
  const upright = least.map((width, k) => Math.max(width, lengths[k] + 14));
  const all = upright.reduce((sum, width) => sum + width, 0);
  if (all <= room && lengths.every((length) => length <= WIDEST)) return { turned: false, widths: upright, height: 30 };
  const longest = Math.max(...names.flat().map((name) => widthOf(name, SIZE, true)));
  const turned = least.map((width, k) => Math.max(width, names[k].length * LEADING + 8));
  return { turned: true, widths: turned, height: Math.min(longest, LONGEST) + 16 };
}

/**
 * @param {Heads} heads @param {string[]} names  of one column
 * @param {number} x   its middle
 * @param {number} y   the lower edge
 * @param {{fill: string, bold?: boolean}} look
 */
export function head({ turned, height }, names, x, y, look) {
  const style = { size: SIZE, ...look };
  if (!turned) return text(x, y - 9, names.join(', '), { ...style, anchor: 'middle' });
  const first = x - (names.length - 1) * LEADING / 2 + SIZE * 0.36;
  return group({}, names.map((name, k) => {
    const at = Math.round(first + k * LEADING);
    return text(at, y - 8, fit(name, height - 14, SIZE, true), style, { transform: `rotate(-90 ${at} ${y - 8})` });
  }));
}
