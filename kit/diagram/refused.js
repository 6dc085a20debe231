/**
 * The refused record: a red ring, a line through all lanes, and what it says beside what the machine has.
 */
import { circle, group, line, path } from '../svg.js';
import { nameOf } from '../name-of.js';
import { thousands } from '../names.js';
import { ownValue } from '../trace.js';
import { axisNumber } from './backdrop.js';
import { boxOf, drawOnPlate } from './labels.js';
import { sides, VERDICTS } from './record-words.js';
import { isLater, refusedStep, timeOf, xOf, yOf } from './view.js';

/** @typedef {import('./view.js').View} View */
/** @typedef {import('../types.js').Step} Step */

/** What is wrong, in a word or two, where the record names nothing that the machine has otherwise. */
const IN_SHORT = new Map([
  [19, 'too long'], [20, 'breaks off'], [21, 'no such field'], [22, 'not its place'], [23, 'out of range'], [24, 'goes back'], [25, 'too late'],
  [26, 'out of turn'], [27, 'too soon'],
]);

/**
 * @param {View} view @param {Step} step
 * @returns {string[]}   what it says, then what is
 */
function inShort({ trace, stretch }, step) {
  const own = ownValue(trace, step);
  const { kind, value, time } = step.record;
  const lists = { poll: trace.names.inputs, test: VERDICTS, tick: trace.names.states };
  if (own !== null && (kind === 'poll' || kind === 'test' || kind === 'tick')) {
    return [`says ${nameOf(lists[kind], value)}`, `is ${nameOf(lists[kind], own)}`];
  }
  const wrong = IN_SHORT.get(trace.refused?.number ?? 0) ?? 'refused';
  if (kind === 'bytes' || stretch.far) return [wrong];
  return kind === 'input' ? [wrong, 'opening'] : [wrong, `${kind} at ${thousands(time)}`];
}

/**
 * The words at the ring are chosen before those at other records.
 * @param {View} view @param {import('./labels.js').Labels} labels
 */
export function refusedWords(view, labels) {
  const step = refusedStep(view);
  if (step === null) return null;
  const { sizes, theme, lanes } = view;
  const [x, y, r] = [xOf(view, step), yOf(view, step), sizes.ring];
  const [says, is] = inShort(view, step);
  const first = { y: y + (is === undefined ? sizes.text * 0.36 : -1), text: says, size: sizes.text, fill: theme.red, bold: true };
  const second = { y: y + sizes.text * 1.1, text: is ?? '', size: sizes.small + 0.5, fill: theme.ink };
  const words = is === undefined ? [first] : [first, second];
  const [right, left] = sides(view, step, r + 7, words);
  const rows = [lanes.tick, lanes.poll, lanes.test, lanes.state.y - 10]
    .flatMap((row) => sides(view, step, 7, [{ ...first, y: row + sizes.text * 0.36 }]));
  const around = [left, stacked(words, x, y + r + 4), stacked(words, x, y - r - 6 - sizes.text * 1.15 * words.length)];
  const inLane = y < lanes.band.y;
  const chosen = labels.choose([right, ...(inLane ? [] : around), ...rows]);
  labels.block(x - r - 2, y - r - 2, 2 * r + 4, 2 * r + 4);
  labels.block(x - 2, lanes.band.y, 4, lanes.band.height);
  const fallback = right.every((word) => boxOf(word).x + boxOf(word).width < view.width) ? right : left;
  return (chosen.length > 0 ? chosen : fallback).map((word) => drawOnPlate(word, theme.paper));
}

/**
 * Words below each other, around a place; `y` is where the first begins.
 * @param {{text: string, size: number, fill: string, bold?: boolean}[]} words @param {number} x @param {number} y
 * @returns {import('./labels.js').Word[]}
 */
function stacked(words, x, y) {
  return words.map((word, k) => ({ ...word, x, y: y + word.size * (0.85 + 1.15 * k), anchor: 'middle' }));
}

/**
 * The line through all lanes, down to `foot`, and the record's time on the axis.
 * @param {View} view @param {number} foot
 */
export function refusedLine(view, foot) {
  const step = refusedStep(view);
  if (step === null) return null;
  const { theme, lanes, sizes } = view;
  const x = xOf(view, step);
  return group({ class: 'refusal-line', opacity: isLater(view, step) ? 0.3 : null },
    line(x, lanes.top, x, foot, theme.red, 1.8, { 'stroke-dasharray': '6 4' }),
    axisNumber(view, timeOf(view, step), { size: sizes.small + 0.5, fill: theme.red, bold: true }));
}

/**
 * @param {View} view @param {import('../svg.js').Content} words
 */
export function refusedMark(view, words) {
  const step = refusedStep(view);
  if (step === null) return null;
  const { theme, sizes } = view;
  const ring = { fill: 'none', stroke: theme.red, 'stroke-width': 3.4, class: 'refused-record', 'data-record': step.number };
  return group({ class: 'refusal', opacity: isLater(view, step) ? 0.3 : null }, circle(xOf(view, step), yOf(view, step), sizes.ring, ring), words);
}

/**
 * Where the axis is broken: two slanted lines, and nothing between them and the record far away.
 * @param {View} view
 */
export function axisBreak({ stretch, end, lanes, theme }) {
  if (!stretch.far) return null;
  const x = end + 10;
  const slant = (/** @type {number} */ at) => `M${at - 5},${lanes.top + 14}l10,-14M${at - 5},${lanes.bottom}l10,-14`;
  return path(slant(x) + slant(x + 8), { stroke: theme.quiet, 'stroke-width': 2.2, fill: 'none', class: 'break' });
}
