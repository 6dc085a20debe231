/**
 * Words in states and at edges: how they are set, and how large a state's circle must be for them.
 */
import { fit, widthOf, wrap } from '../text-width.js';

/** @typedef {import('./graph.js').Words} Words */
/** @typedef {import('./graph.js').Edge} Edge */

/**
 * @typedef {Object} Line
 * @property {string} text
 * @property {number} size
 * @property {boolean} bold
 * @property {number} y              its base line, from the circle's middle
 * @property {'output'|'name'|'hold'} role
 * @property {number|null} timer
 */

/** No circle is smaller or larger. */
const SMALLEST = 36;
const LARGEST = 64;
const HEIGHTS = { output: 17, name: 20, hold: 15 };
const SIZES = { output: 12.5, name: 14.5, hold: 12 };
const BETWEEN = 5;

/**
 * The lines in a state's circle, from top to bottom, not yet cut to its width.
 * @param {Words} words
 * @param {boolean} split    what a hold delays stands on a line of its own
 * @returns {Line[]}
 */
function stacked(words, split) {
  const holds = words.holds.flatMap((hold) => (split ? hold.text.split(/ (?=\{)/).map((text) => ({ ...hold, text })) : [hold]));
  const rows = [
    { text: words.output, role: /** @type {const} */ ('output'), timer: null },
    { text: words.name, role: /** @type {const} */ ('name'), timer: null },
    ...holds.map((hold) => ({ ...hold, role: /** @type {const} */ ('hold') })),
  ];
  const total = rows.reduce((sum, row) => sum + HEIGHTS[row.role], 0) + BETWEEN * (holds.length > 0 ? 2 : 1);
  let y = -total / 2;
  return rows.map((row, k) => {
    const line = { ...row, size: SIZES[row.role], bold: row.role === 'name', y: y + HEIGHTS[row.role] * 0.76 };
    const next = rows[k + 1];
    y += HEIGHTS[row.role] + (next !== undefined && next.role !== row.role ? BETWEEN : 0);
    return line;
  });
}

/**
 * How wide the circle is at a line.
 * @param {Line} line @param {number} radius
 */
function roomFor(line, radius) {
  const far = Math.max(Math.abs(line.y - line.size * 0.75), Math.abs(line.y + line.size * 0.15));
  return far >= radius ? 0 : 2 * Math.sqrt(radius * radius - far * far) - 8;
}

/**
 * @param {Line[]} lines @param {number} radius
 */
function fitsIn(lines, radius) {
  return lines.every((line) => widthOf(line.text, line.size, line.bold) <= roomFor(line, radius));
}

/**
 * A hold is split only where it would not fit otherwise.
 * @param {Words} words
 */
function bestLines(words) {
  const whole = stacked(words, false);
  return fitsIn(whole, LARGEST) || words.holds.length > 1 ? whole : stacked(words, true);
}

/**
 * The radius that all states have: large enough for what stands in them, if that is not too much.
 * @param {Words[]} states
 */
export function radiusFor(states) {
  const lines = states.flatMap(bestLines);
  let radius = SMALLEST;
  while (radius < LARGEST && !fitsIn(lines, radius)) radius += 2;
  return radius;
}

/**
 * @param {Words} words @param {number} radius
 * @returns {Line[]}
 */
export function linesIn(words, radius) {
  return bestLines(words).map((line) => ({ ...line, text: fit(line.text, roomFor(line, radius), line.size, line.bold) }));
}

export const EDGE_SIZE = 12.5;
const EDGE_ROOM = 128;
const MOST_LINES = 3;

/**
 * @typedef {Object} Label
 * @property {{text: string, delayed: boolean, lit: boolean}[]} lines
 * @property {number} width
 * @property {number} height
 */

/**
 * The inputs of an edge: at once, then after the hold.
 * @param {Edge} edge
 * @param {number|null} lit     the input that is lit
 * @returns {Label}
 */
export function edgeLabel({ free, delayed, says }, lit) {
  const of = (/** @type {string} */ words, /** @type {number[]} */ inputs) => wrap(words, EDGE_ROOM, EDGE_SIZE)
    .map((text) => ({ text, delayed: inputs === delayed, lit: lit !== null && inputs.includes(lit) }));
  const all = [...of(says.free, free), ...of(says.delayed, delayed)];
  const lines = all.length <= MOST_LINES ? all : [...all.slice(0, MOST_LINES - 1), { ...all[MOST_LINES - 1], text: '…' }];
  const width = Math.max(...lines.map((line) => widthOf(line.text, EDGE_SIZE)));
  return { lines, width, height: lines.length * EDGE_SIZE * 1.2 };
}
