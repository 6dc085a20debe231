/** What the marks of a matrix mean, below it. */

import { nameOf } from '../name-of.js';
import { circle, group, rect, text } from '../svg.js';
import { fit, widthOf } from '../text-width.js';
import { delaying } from './columns.js';
import { delayMarks, startMark } from './drawing.js';
import { MARGIN, SIZE } from './plan.js';

/** @typedef {import('./drawing.js').Scene} Scene */
/** @typedef {{words: string, mark: (x: number, y: number) => import('../svg.js').Content}} Item   y is the middle of a line */

const LEADING = 24;
const MARK = 30;

/**
 * @param {Scene} scene
 * @returns {Item[]}
 */
function itemsOf(scene) {
  const { table, names, theme, plan } = scene;
  const swatch = (/** @type {number} */ x, /** @type {number} */ y, /** @type {number[]} */ by = []) => [
    delayMarks(scene, { x, y: y - 9, width: 22, height: 18 }, by),
    rect(x, y - 9, 22, 18, { fill: 'none', stroke: theme.border, 'stroke-width': 0.8 }),
  ];
  const inside = { size: SIZE, fill: theme.ink, anchor: /** @type {const} */ ('middle') };
  const used = new Set(table.next.flatMap((row, state) => row.flatMap((_, input) => delaying(table, state, input))));
  const delayed = [...used].sort().map((k) => ({
    words: table.kind === 'holds' ? "delayed by the state's hold" : `delayed by timer ${nameOf(names.timers, k)}`,
    mark: (/** @type {number} */ x, /** @type {number} */ y) => swatch(x, y, [k]),
  }));
  return [
    { words: 'initial state', mark: (x, y) => startMark(scene, x + 24, y) },
    { words: `next state${plan.numbered ? ', by its number' : ''}`,
      mark: (x, y) => [swatch(x, y), text(x + 11, y + 4.5, plan.numbered ? '1' : 'q', inside)] },
    { words: 'the state stays', mark: (x, y) => [swatch(x, y), circle(x + 11, y, 2, { fill: theme.quiet })] },
    ...delayed,
  ];
}

/**
 * The items one after another, in as many lines as they need.
 * @param {Scene} scene @param {number} room @param {number} top
 * @returns {{height: number, markup: import('../svg.js').Markup}}
 */
export function legend(scene, room, top) {
  let [x, y] = [MARGIN, top + LEADING / 2];
  const markup = itemsOf(scene).map(({ words, mark }) => {
    const shown = fit(words, room - MARK, SIZE);
    const wide = MARK + widthOf(shown, SIZE) + 22;
    if (x > MARGIN && x + wide > MARGIN + room) [x, y] = [MARGIN, y + LEADING];
    x += wide;
    return [mark(x - wide, y), text(x - wide + MARK, y + 4.5, shown, { size: SIZE, fill: scene.theme.quiet })];
  });
  return { height: y - top + LEADING / 2, markup: group({ class: 'legend' }, markup) };
}
