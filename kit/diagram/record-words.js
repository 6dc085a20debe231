/** The words at records: what was polled, the verdict and what is left, where a tick leads. They stand where there is room for them. */

import { nameOf } from '../name-of.js';
import { thousands } from '../names.js';
import { left } from '../trace.js';
import { cycleOf } from './cycles.js';
import { xOf, yOf } from './view.js';

/** @typedef {import('./view.js').View} View */
/** @typedef {import('../types.js').Step} Step */
/** @typedef {import('./labels.js').Labels} Labels */
/** @typedef {import('./labels.js').Word} Word */
/** @typedef {Omit<Word, 'x'|'anchor'>} Unplaced */

export const VERDICTS = ['held', 'free'];

/**
 * The words at the records. Those where something turns come first; in a crowded picture the others have none.
 * @param {View} view @param {Labels} labels @param {Step[]} drawn
 * @returns {Map<number, Word[]>}
 */
export function wordsOf(view, labels, drawn) {
  const turning = turns(view.shown);
  const first = (/** @type {Step} */ step) => turning.has(step.number) || isAsked(view, step);
  const readable = drawn.filter((step) => step.after !== null && (view.wordy || first(step)));
  const rank = (/** @type {Step} */ step) =>
    (first(step) ? 0 : 10) + ['test', 'tick', 'poll', 'change', 'end'].indexOf(step.record.kind);
  readable.sort((a, b) => rank(a) - rank(b));
  return new Map(readable.map((step) => [step.number, placed(view, labels, step)]));
}

/**
 * Words to the left of a tick have the row of its cycle for themselves: behind `stays` they would read as one sentence.
 * @param {View} view @param {Labels} labels @param {Step} step
 */
function placed(view, labels, step) {
  const words = labels.choose(choicesOf(view, step));
  if (step.record.kind === 'tick' && words[0]?.anchor === 'end') {
    const { from, to } = cycleOf(view, step);
    labels.block(from, words[0].y - words[0].size, to - from, words[0].size);
  }
  return words;
}

/**
 * The numbers of the records at which something is another than in the record of the same kind before.
 * @param {Step[]} steps
 */
function turns(steps) {
  /** @type {Map<string, number|null>} */
  const last = new Map();
  const turning = new Set();
  for (const { number, record, before, after } of steps) {
    const moved = record.kind === 'tick' ? before?.state !== after?.state : last.get(record.kind) !== record.value;
    if (moved) turning.add(number);
    last.set(record.kind, record.value);
  }
  return turning;
}

/**
 * What may stand at a record, the best first.
 * @param {View} view @param {Step} step
 * @returns {Word[][]}
 */
function choicesOf(view, step) {
  if (step.record.kind === 'poll') return pollChoices(view, step);
  if (step.record.kind === 'test') return testChoices(view, step);
  return step.record.kind === 'tick' ? tickChoices(view, step) : [];
}

const OPEN = '?';

/**
 * In an exercise: is the value of this record asked?
 * @param {View} view @param {Step} step
 */
const isAsked = ({ trace }, step) => trace.asked?.all.has(step.number) === true;

/**
 * What is asked and answered stands apart from what is given.
 * @param {View} view @param {Step} step @param {string} given
 */
const inkOf = (view, step, given) => (isAsked(view, step) ? view.theme.lit : given);

/**
 * The value's name; a question mark where it is asked and not answered.
 * @param {View} view @param {Step} step @param {string[]} names
 */
export function valueWord({ trace }, step, names) {
  return trace.asked?.open.has(step.number) ? OPEN : nameOf(names, step.record.value);
}

/**
 * @param {View} view @param {Step} step
 */
function pollChoices(view, step) {
  const { theme, sizes, trace, scale, lanes } = view;
  const text = valueWord(view, step, trace.names.inputs);
  const word = { y: lanes.poll + sizes.text * 0.36, text, size: sizes.text, fill: inkOf(view, step, theme.poll), bold: isAsked(view, step) };
  return sides(view, step, 5 + 8 * scale, [word]);
}

/**
 * @param {View} view @param {Step} step
 * @returns {Word[][]}
 */
function testChoices(view, step) {
  const { theme, sizes, trace, scale, lanes } = view;
  const held = step.record.value === 0;
  const y = lanes.test + sizes.text * 0.36;
  const fill = inkOf(view, step, held ? theme.held : theme.free);
  const verdict = { y, text: valueWord(view, step, VERDICTS), size: sizes.text, fill, bold: true };
  const units = left(trace, step);
  const ticks = { y: y + sizes.small * 1.25, text: `${thousands(units)} left`, size: sizes.small, fill: theme.held };
  const choices = units > 0 ? [[verdict, ticks], [{ ...ticks, y }], [verdict]] : [[verdict]];
  /** @type {Word} */
  const over = { ...verdict, x: xOf(view, step), y: lanes.test + (held ? -13 : 13 + sizes.text * 0.72), anchor: 'middle' };
  return [...choices.flatMap((words) => sides(view, step, 4 + 10 * scale, words)), [over]];
}

/**
 * To the left of a tick its state is another still, so its words stand to the right. Only where it leads may stand to the left, for want
 * of room: the arrow says that it comes.
 * @param {View} view @param {Step} step
 */
function tickChoices(view, step) {
  const { theme, sizes, trace } = view;
  const moves = step.before?.state !== step.after?.state;
  const name = valueWord(view, step, trace.names.states);
  const bold = moves || isAsked(view, step);
  const style = { y: yOf(view, step) + sizes.text * 0.36, size: sizes.text, fill: inkOf(view, step, moves ? theme.ink : theme.quiet), bold };
  if (trace.asked?.open.has(step.number)) return sides(view, step, 8, [{ ...style, text: OPEN }]);
  if (moves) return sides(view, step, 8, [{ ...style, text: `→ ${name}` }]);
  return [`stays ${name}`, 'stays'].map((text) => sides(view, step, 8, [{ ...style, text }])[0]);
}

/**
 * Words to the right of a record, and to its left; at the selected one they make room for its ring.
 * @param {View} view @param {Step} step @param {number} gap @param {Unplaced[]} words
 * @returns {Word[][]}
 */
export function sides(view, step, gap, words) {
  const x = xOf(view, step);
  const away = step.number === view.options.selected ? Math.max(gap, 20) : gap;
  return [
    words.map((word) => ({ ...word, x: x + away, anchor: 'start' })),
    words.map((word) => ({ ...word, x: x - away, anchor: 'end' })),
  ];
}
