/** The records: marks, words at them, and what each says to whoever points at it. */

import { circle, element, group } from '../svg.js';
import { thousands } from '../names.js';
import { draw } from './labels.js';
import { marked, markOf } from './marks.js';
import { VERDICTS, valueWord, wordsOf } from './record-words.js';
import { isLater, xOf, yOf } from './view.js';

/** @typedef {import('./view.js').View} View */
/** @typedef {import('../types.js').Step} Step */

/**
 * @param {View} view @param {import('./labels.js').Labels} labels
 */
export function records(view, labels) {
  const drawn = marked(view);
  const words = wordsOf(view, labels, drawn);
  return group({ class: 'records' }, drawn.map((step) => group(
    { class: view.trace.asked?.all.has(step.number) ? 'record asked' : 'record', 'data-record': step.number, opacity: isLater(view, step) ? 0.25 : null },
    element('title', {}, saying(view, step)), roomOf(view, step), markOf(view, step), (words.get(step.number) ?? []).map(draw))));
}

/** The radius of what a finger finds. */
const FINGER = 15;

/**
 * A blank is there to be touched: it has more room than its mark.
 * @param {View} view @param {Step} step
 */
function roomOf(view, step) {
  const room = { fill: 'none', 'pointer-events': 'all' };
  return view.trace.asked?.all.has(step.number) ? circle(xOf(view, step), yOf(view, step), FINGER, room) : null;
}

/**
 * @param {View} view @param {Step} step
 */
function saying(view, step) {
  const { trace: { names }, options } = view;
  const { kind, time, value, place } = step.record;
  const lists = { input: names.inputs, change: names.inputs, poll: names.inputs, test: VERDICTS, tick: names.states, end: [], bytes: [] };
  const says = value === null ? '' : `, ${valueWord(view, step, lists[kind])}`;
  const why = step.after !== null && options.narrate ? `. ${options.narrate(step)}` : '';
  return `record ${step.number}, byte ${place}: ${kind} at ${thousands(time)}${says}${why}`;
}
