/** The marks of records: one for each, in a row of its kind, so that records of one instant stay apart. */

import { circle, line, path } from '../svg.js';
import { widthOf } from '../text-width.js';
import { inTurn } from '../theme.js';
import { cycleOf } from './cycles.js';
import { refusedStep, xOf, yOf } from './view.js';

/** @typedef {import('./view.js').View} View */
/** @typedef {import('../types.js').Step} Step */

/**
 * How a record is drawn if it was not accepted: as the refused one, or as one that was not read.
 * @param {View} view @param {Step} step
 */
function inkOf(view, step) {
  const { theme, trace: { asked } } = view;
  if (asked?.all.has(step.number)) return { line: theme.lit, fill: asked.open.has(step.number) ? theme.paper : theme.litFill };
  if (step === refusedStep(view)) return { line: theme.red, fill: theme.red };
  return step.after === null ? { line: theme.unread, fill: theme.paper } : null;
}

/**
 * A card that repeats its reading changes nothing, so its mark is hollow and has no line.
 * @param {View} view @param {Step} step
 */
function changeMark(view, step) {
  const { lanes: { input }, theme, scale } = view;
  const x = xOf(view, step);
  const repeats = step.before !== null && step.before.present === step.record.value;
  const ink = inkOf(view, step)?.line ?? theme.ink;
  const top = input.y - 6;
  const half = 6 * Math.max(scale, 0.6);
  return [
    repeats ? null : line(x, top, x, input.y + input.height + 3, ink, 2.2 * Math.max(scale, 0.5)),
    path(`M${x - half},${top}h${2 * half}l${-half},${half * 1.4}z`, { fill: repeats ? theme.paper : ink, stroke: ink, 'stroke-width': 1.2 }),
  ];
}

/**
 * A poll has the colour of the input that it found, and a dotted line to it.
 * @param {View} view @param {Step} step
 */
function pollMark(view, step) {
  const { lanes, theme, scale } = view;
  const x = xOf(view, step);
  const ink = inkOf(view, step);
  const r = 7.5 * scale;
  const unread = step.after === null && step !== refusedStep(view);
  const stroke = ink?.line ?? theme.poll;
  const from = lanes.input.y + lanes.input.height;
  return [
    unread ? null : line(x, from, x, lanes.poll - r, stroke, 1.8 * Math.max(scale, 0.6), { 'stroke-dasharray': '2.5 2.5' }),
    circle(x, lanes.poll, r, { fill: ink?.fill ?? inTurn(theme.inputs, step.record.value ?? 0), stroke, 'stroke-width': 3 * Math.max(scale, 0.6) }),
  ];
}

/**
 * @param {View} view @param {Step} step
 */
function testMark(view, step) {
  const { lanes, theme, scale } = view;
  const ink = inkOf(view, step);
  const held = step.record.value === 0;
  const r = 9.5 * scale;
  return path(`M${xOf(view, step)},${lanes.test - r}l${r},${r}l${-r},${r}l${-r},${-r}z`, {
    fill: ink?.fill ?? (held ? theme.held : theme.freeFill), stroke: ink?.line ?? (held ? theme.held : theme.free),
    'stroke-width': 2.4 * Math.max(scale, 0.6),
  });
}

/**
 * A tick ends the cycle, so its line goes through all rows; if it moves, on to the state that it leads to.
 * @param {View} view @param {Step} step
 */
function tickMark(view, step) {
  const { lanes, theme, scale } = view;
  const x = xOf(view, step);
  const ink = inkOf(view, step)?.line ?? theme.ink;
  const half = 13 * Math.max(scale, 0.6);
  const open = view.trace.asked?.open.has(step.number) === true;
  const moves = !open && step.after !== null && step.before !== null && step.after.state !== step.before.state;
  const foot = moves ? lanes.state.y - 1 : lanes.band.y + lanes.band.height;
  return [
    line(x, lanes.band.y, x, foot, ink, 1.6 * Math.max(scale, 0.6)),
    line(x, lanes.tick - half, x, lanes.tick + half, ink, 6 * Math.max(scale, 0.5)),
    moves ? path(`M${x - 5 * scale},${foot - 8 * scale}h${10 * scale}l${-5 * scale},${8 * scale}z`, { fill: ink }) : null,
  ];
}

/**
 * @param {View} view @param {Step} step
 */
function endMark(view, step) {
  const { lanes, theme } = view;
  const x = xOf(view, step);
  const foot = step.after === null ? lanes.band.y + lanes.band.height : lanes.bottom;
  return line(x, lanes.top, x, foot, inkOf(view, step)?.line ?? theme.ink, 2.4);
}

/** @type {Record<string, (view: View, step: Step) => import('../svg.js').Content>} */
const MARKS = { change: changeMark, poll: pollMark, test: testMark, tick: tickMark, end: endMark };

/**
 * @param {View} view @param {Step} step
 */
export function markOf(view, step) {
  return MARKS[step.record.kind](view, step);
}

/**
 * The steps that have marks. Those whose marks are long lines come first, so that they lie below the others.
 * @param {View} view
 */
export function marked(view) {
  const drawn = view.shown.filter((step) => step.record.kind in MARKS);
  const isLine = (/** @type {Step} */ step) => step.record.kind === 'tick' || step.record.kind === 'end';
  return [...drawn.filter(isLine), ...drawn.filter((step) => !isLine(step))];
}

/**
 * What these marks cover, so that no word stands there.
 * @param {View} view @param {import('./labels.js').Labels} labels @param {Step[]} steps
 */
export function blockMarks(view, labels, steps) {
  const { lanes, scale } = view;
  for (const step of steps) {
    const x = xOf(view, step);
    const { kind } = step.record;
    if (kind === 'tick') blockTick(view, labels, step);
    else if (kind === 'end') labels.block(x - 2, lanes.top, 4, lanes.bottom - lanes.top);
    else labels.block(x - 9 * scale, yOf(view, step) - 9 * scale, 18 * scale, 18 * scale);
  }
}

/**
 * A tick's line, and the length of the cycle that it ends.
 * @param {View} view @param {import('./labels.js').Labels} labels @param {Step} step
 */
function blockTick(view, labels, step) {
  const { lanes, sizes } = view;
  const { from, to, length } = cycleOf(view, step);
  const wide = widthOf(length, sizes.small);
  labels.block(xOf(view, step) - 3, lanes.band.y, 6, lanes.cycle - lanes.band.y);
  labels.block((from + to - wide) / 2, lanes.cycle - 8, wide, 16);
}
