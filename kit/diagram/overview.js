/**
 * A long journal on one strip: its states, and which piece of it the picture shows.
 */
import { group, path, rect, text } from '../svg.js';
import { thousands } from '../names.js';
import { inTurn } from '../theme.js';
import { boxesOf, columnsOf, runsOf } from './runs.js';

/** @typedef {import('./view.js').View} View */

const HEIGHT = 14;

/**
 * @param {Omit<View, 'lanes'>} view @param {number} y
 * @returns {{markup: import('../svg.js').Content, height: number}}
 */
export function overview(view, y) {
  const { stretch, sizes, theme, taken, width } = view;
  if (stretch.whole || stretch.seen === 0) return { markup: null, height: 0 };
  const right = width - sizes.right;
  const x = (/** @type {number} */ time) => sizes.left + time / stretch.seen * (right - sizes.left);
  const pieces = columnsOf(runsOf(taken, (machine) => machine.state, { from: 0, to: stretch.seen, known: stretch.seen }), x, 2);
  const fills = [...new Set(pieces.map((piece) => piece.value))];
  const [a, b] = [x(Math.min(stretch.from, stretch.seen)), x(Math.min(stretch.to, stretch.seen))];
  const middle = Math.max((a + b) / 2, a + 2);
  const frame = { fill: 'none', stroke: theme.lit, 'stroke-width': 2.4, rx: 2, class: 'overview-window' };
  return {
    height: HEIGHT + 34,
    markup: group({ class: 'overview', 'data-from': 0, 'data-to': String(stretch.seen) },
      text(sizes.left - sizes.gap, y + 19, sizes.narrow ? 'all' : 'whole journal', { size: sizes.small, fill: theme.quiet, anchor: 'end' }),
      fills.map((value) => path(boxesOf(pieces.filter((piece) => piece.value === value), y + 8, HEIGHT), { fill: inTurn(theme.states, value) })),
      rect(sizes.left, y + 8, right - sizes.left, HEIGHT, { fill: 'none', stroke: theme.border, 'stroke-width': 0.8 }),
      rect(a, y + 5, Math.max(b - a, 4), HEIGHT + 6, frame),
      path(`M${middle - 6},${y + HEIGHT + 18}h12l-6,-6z`, { fill: theme.lit }),
      extent(view, y + HEIGHT + 23, middle, stretch)),
  };
}

/**
 * @param {Omit<View, 'lanes'>} view @param {number} y @param {number} middle @param {import('./stretch.js').Stretch} stretch
 */
function extent({ sizes, theme, width }, y, middle, stretch) {
  const words = `shown: ${thousands(stretch.from)} to ${thousands(Math.min(stretch.to, stretch.seen))} of ${thousands(stretch.seen)}`;
  const atEnd = middle > width / 2;
  return text(atEnd ? middle - 12 : middle + 12, y, words, { size: sizes.small, fill: theme.ink, anchor: atEnd ? 'end' : 'start' });
}
