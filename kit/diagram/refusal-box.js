/** The refusal in words, in a box to which the refused record's line leads down. */

import { group, path, rect, text } from '../svg.js';
import { firstThatFits, widthOf, wrap } from '../text-width.js';
import { thousands } from '../names.js';
import { refusedStep, xOf } from './view.js';

/** @typedef {import('./view.js').View} View */

/** No picture shows more lines of words. */
const MOST_LINES = 30;

/**
 * Where things stand in the box.
 * @param {View} view
 */
function measuresOf({ sizes, width }) {
  const [side, inset, size] = sizes.narrow ? [8, 10, 13] : [24, 18, 16];
  return { side, size, leading: size * 1.45, left: side + inset, room: width - 2 * side - 2 * inset };
}

/**
 * @param {View} view @param {number} y
 * @returns {import('./frame.js').Piece}
 */
export function refusalBox(view, y) {
  const { options, theme, width, trace } = view;
  const sentences = options.sentences ?? [];
  if (trace.refused === null || sentences.length === 0) return { markup: null, height: 0 };
  const { side, size, leading, left, room } = measuresOf(view);
  const words = sentences.flatMap((sentence) => wrap(sentence, room, size)).slice(0, MOST_LINES);
  const slip = options.slip ? wrap(options.slip, room - 14, size).slice(0, MOST_LINES) : [];
  const height = size + 22 + leading * (words.length + slip.length) + (slip.length > 0 ? 10 : 0);
  const first = y + size + 30;
  const slipTop = first + leading * words.length - size + 4;
  const style = { size, fill: theme.ink };
  return {
    height,
    markup: group({ class: 'refusal-box' }, pointer(view, y, side),
      rect(side, y, width - 2 * side, height, { fill: theme.redPaper, stroke: theme.red, 'stroke-width': 1.8, rx: 6 }),
      heading(view, y),
      words.map((line, k) => text(left, first + leading * k, line, style)),
      slip.length === 0 ? null : rect(left, slipTop + 2, 4, leading * slip.length, { fill: theme.red }),
      slip.map((line, k) => text(left + 14, slipTop + size + 2 + leading * k, line, style))),
  };
}

/**
 * The refusal's number, the record, its place, and what the number means.
 * @param {View} view @param {number} y
 */
function heading(view, y) {
  const { options, theme, trace } = view;
  const { left, room, size } = measuresOf(view);
  const step = refusedStep(view);
  const place = `byte ${thousands(trace.at ?? trace.refused?.place ?? 0)}`;
  const where = step === null ? place : `record ${step.number}, ${place}`;
  const number = String(trace.refused?.number);
  const indent = widthOf(number, size + 5, true) + 10;
  const words = firstThatFits(options.meaning ? [`${where}: ${options.meaning}`, where] : [where], room - indent, size - 1);
  return [
    text(left, y + size + 9, number, { size: size + 5, fill: theme.red, bold: true }),
    text(left + indent, y + size + 8, words, { size: size - 1, fill: theme.quiet }),
  ];
}

/**
 * The tip of the box, below the refused record.
 * @param {View} view @param {number} y @param {number} side
 */
function pointer(view, y, side) {
  const step = refusedStep(view);
  if (step === null) return null;
  const x = xOf(view, step);
  const foot = Math.min(Math.max(x, side + 16), view.width - side - 16);
  return path(`M${foot - 9},${y}L${x},${y - 12}L${foot + 9},${y}z`, { fill: view.theme.red });
}
