/**
 * The records of a crowded picture: a stroke for each, at most one in a column of pixels, and no words.
 */
import { group, path } from '../svg.js';

/** @typedef {import('./view.js').View} View */

const COLUMN = 1.5;

/**
 * @param {View} view
 */
export function denseRecords(view) {
  const { lanes, theme } = view;
  const strokes = [
    { y: lanes.input.y - 8, height: 7, stroke: theme.ink, is: ofKind('change') },
    { y: lanes.poll - 7, height: 14, stroke: theme.poll, is: ofKind('poll') },
    { y: lanes.test - 13, height: 12, stroke: theme.held, is: ofKind('test', 0) },
    { y: lanes.test + 1, height: 12, stroke: theme.free, is: ofKind('test', 1) },
    { y: lanes.tick - 13, height: 26, stroke: theme.ink, is: ofKind('tick') },
  ];
  return group({ class: 'records dense', fill: 'none', 'stroke-width': 1 }, strokes.map(({ y, height, stroke, is }) =>
    path(columns(view, is).map((column) => `M${column * COLUMN},${y}v${height}`).join(''), { stroke })));
}

/**
 * @param {string} kind @param {number} [value]
 * @returns {(step: import('../types.js').Step) => boolean}
 */
function ofKind(kind, value) {
  return ({ record, after }) => after !== null && record.kind === kind && (value === undefined || record.value === value);
}

/**
 * @param {View} view @param {(step: import('../types.js').Step) => boolean} is
 */
function columns({ shown, x }, is) {
  return [...new Set(shown.filter(is).map((step) => Math.round(x(step.record.time) / COLUMN)))];
}
