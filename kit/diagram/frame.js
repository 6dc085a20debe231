/** What stands around the lanes: title and answer, and the legend. */

import { circle, group, line, rect, text } from '../svg.js';
import { firstThatFits, widthOf, wrap } from '../text-width.js';
import { nameOf } from '../name-of.js';
import { counted, thousands } from '../names.js';
import { unseenInputs } from '../trace.js';

/** @typedef {import('./view.js').View} View */
/** @typedef {import('../types.js').Trace} Trace */
/** @typedef {{markup: import('../svg.js').Content, height: number}} Piece */

/**
 * The answer in words, the fullest first.
 * @param {Trace} trace
 * @returns {string[]}
 */
export function answerWords({ answer, refused, at, names }) {
  if (refused !== null) {
    const where = at !== null && at !== refused.place ? ` (byte ${thousands(at)} as stamped)` : '';
    return [`refused ${refused.number} at byte ${thousands(refused.place)}${where}`, `refused ${refused.number} at ${refused.place}`];
  }
  if (answer === null) return [''];
  const first = `accepted: end ${thousands(answer.end)}, ${counted(answer.cycles, 'cycle')}, ${counted(answer.moves, 'move')}`;
  const last = `last state ${nameOf(names.states, answer.state)}`;
  return [`${first}, ${last}, longest cycle ${thousands(answer.longest)}`, `${first}, ${last}`, first, 'accepted'];
}

/**
 * The title, and the answer beside it if there is room, or else below it.
 * @param {Omit<View, 'lanes'>} view
 * @returns {Piece}
 */
export function head(view) {
  const { options, sizes: { narrow, title: size }, theme, width, trace } = view;
  if (options.head === false) return { markup: null, height: 4 };
  const side = narrow ? 12 : 24;
  const room = width - 2 * side;
  const titles = options.title ? wrap(options.title.slice(0, 300), room, size, true).slice(0, 3) : [];
  const lines = titles.map((words, k) => text(side, 14 + size * (1 + 1.25 * k), words, { size, fill: theme.ink, bold: true }));
  const style = { size: narrow ? 13 : 16, fill: trace.refused === null ? theme.free : theme.red, bold: true };
  const free = room - widthOf(titles[0] ?? '', size, true) - 24;
  const full = answerWords(trace).slice(0, narrow ? 1 : 3);
  const beside = titles.length < 2 ? full.find((words) => widthOf(words, style.size, true) <= free) : undefined;
  if (beside !== undefined) {
    return { markup: [lines, text(width - side, 14 + size, beside, { ...style, anchor: 'end' })], height: size + 30 };
  }
  const below = 14 + size * (titles.length > 0 ? 1 + 1.25 * (titles.length - 1) : 0) + style.size * 1.5;
  return { markup: [lines, text(side, below, firstThatFits(answerWords(trace), room, style.size, true), style)], height: below + 12 };
}

/** @typedef {{words: string[], sign: (x: number, y: number) => import('../svg.js').Markup}} Entry   its words in full, and in short */

const PHASES = [['waits for the poll', 'before the poll'], ['polled, not yet tested', 'polled'], ['tested: held', 'held'], ['tested: free', 'free']];

/**
 * @param {View} view
 * @returns {Entry[]}
 */
function legendEntries({ theme, lanes, trace, hatch, dense }) {
  /** @type {(fill: string) => Entry['sign']} */
  const swatch = (fill) => (x, y) => rect(x, y - 11, 20, 14, { fill, stroke: theme.border, 'stroke-width': 0.8 });
  /** @type {(colour: string) => Entry['sign']} */
  const stroke = (colour) => (x, y) => line(x + 10, y - 11, x + 10, y + 2, colour, 1.5);
  /** @type {Entry['sign']} */
  const dot = (x, y) => group({}, line(x + 10, y - 13, x + 10, y + 4, theme.held, 2.4), circle(x + 10, y - 4.5, 5, { fill: theme.held }));
  const tests = [{ words: ['tests that are held', 'held tests'], sign: stroke(theme.held) },
    { words: ['tests that are free', 'free tests'], sign: stroke(theme.free) }];
  /** @type {Entry} */
  const delayed = { words: ['input delayed in this state', 'input delayed'], sign: (x, y) => rect(x, y - 8, 20, 7, { fill: theme.heldFill }) };
  const never = unseenInputs(trace).length > 0 ? [{ words: ['seen by no poll', 'never seen'], sign: swatch(`url(#${hatch}-unseen)`) }] : [];
  return [
    ...(dense ? tests : PHASES.map((words, phase) => ({ words, sign: swatch(theme.phases[phase]) }))),
    ...(lanes.clocks.length > 0 ? [delayed] : []),
    ...(lanes.clocks.length > 0 && !dense ? [{ words: ['a test here is still held', 'here still held'], sign: dot }] : []),
    ...never,
    ...(trace.refused !== null ? [{ words: ['not read any more', 'not read'], sign: swatch(`url(#${hatch})`) }] : []),
  ];
}

/** What a sign takes, with the gap behind it. */
const SIGN = 26;

/**
 * In one row if the words in full, or in short, make it so; else in full in several.
 * @param {View} view @param {number} y
 * @returns {Piece}
 */
export function legend(view, y) {
  const { sizes, theme, width } = view;
  const [side, gap] = sizes.narrow ? [12, 12] : [24, 20];
  const entries = legendEntries(view);
  const wide = (/** @type {string} */ word) => SIGN + widthOf(word, sizes.small);
  const inOneRow = (/** @type {number} */ k) => entries.reduce((sum, { words }) => sum + wide(words[k]) + gap, 2 * side - gap) <= width;
  const which = [0, 1].find(inOneRow) ?? 0;
  let [x, row] = [side, 0];
  const placed = entries.map(({ words, sign }) => {
    const word = words[which];
    if (x + wide(word) > width - side && x > side) [x, row] = [side, row + 1];
    const [left, base] = [x, y + 14 + row * 22];
    x += wide(word) + gap;
    return [sign(left, base), text(left + SIGN, base, word, { size: sizes.small, fill: theme.quiet })];
  });
  return { markup: group({ class: 'legend' }, placed), height: 14 + row * 22 + 12 };
}
