/** The row of cycles: how long each lasted, and how long one may last. */

import { group, path, text } from '../svg.js';
import { widthOf } from '../text-width.js';
import { thousands } from '../names.js';
import { isLater, refusedStep } from './view.js';

/** @typedef {import('./view.js').View} View */
/** @typedef {import('../types.js').Step} Step */

/**
 * The cycle that a tick ends: where it stands, and its length in words.
 * @param {View} view @param {Step} step
 */
export function cycleOf({ x, stretch }, step) {
  const start = step.before?.cycleStart ?? 0;
  return { from: x(Math.max(start, stretch.from)), to: x(step.record.time), length: thousands(step.record.time - start) };
}

/**
 * The completed cycles with their lengths.
 * @param {View} view
 */
export function cycles(view) {
  const ticks = view.shown.filter((step) => step.record.kind === 'tick' && step.after !== null);
  return group({ class: 'cycles' }, ticks.map((step) => group({ opacity: isLater(view, step) ? 0.25 : null }, cycleArrow(view, step))));
}

/**
 * An arrow with two tips, or one where the cycle began before the picture; in a narrow cycle the number alone.
 * @param {View} view @param {Step} step
 */
function cycleArrow(view, step) {
  const { lanes: { cycle: y }, theme, sizes, stretch } = view;
  const { from, to, length } = cycleOf(view, step);
  const wide = widthOf(length, sizes.small);
  const word = text((from + to) / 2, y + sizes.small * 0.36, length, { size: sizes.small, fill: theme.quiet, anchor: 'middle' });
  if (to - from < wide + 4) return null;
  if (to - from < wide + 30) return word;
  const begins = (step.before?.cycleStart ?? 0) >= stretch.from;
  const [a, b] = [from + 5, to - 5];
  const [c, d] = [(from + to - wide) / 2 - 4, (from + to + wide) / 2 + 4];
  const tips = (begins ? `M${a},${y}l6,-4v8z` : '') + `M${b},${y}l-6,-4v8z`;
  return [path(`M${a},${y}H${c}M${d},${y}H${b}`, { stroke: theme.quiet, 'stroke-width': 1.4 }), path(tips, { fill: theme.quiet }), word];
}

/**
 * Until when a record could have come, where one came too late.
 * @param {View} view
 */
export function cycleLimit(view) {
  const { trace, lanes, theme, sizes, x, stretch } = view;
  const start = refusedStep(view)?.before?.cycleStart;
  if (trace.refused?.number !== 25 || start === undefined) return null;
  const limit = start + trace.table.cycle;
  if (limit > stretch.to) return null;
  const [a, b] = [x(Math.max(start, stretch.from)), x(limit)];
  const words = [`at most ${thousands(trace.table.cycle)}: until ${thousands(limit)}`, `until ${thousands(limit)}`];
  const word = words.find((long) => widthOf(long, sizes.small, true) < b - a - 8) ?? '';
  return group({ class: 'limit' },
    path(`M${a + 4},${lanes.cycle + 8}H${b}M${b},${lanes.cycle - 8}v24`, { stroke: theme.red, 'stroke-width': 2, fill: 'none' }),
    text((a + b) / 2, lanes.cycle + 2, word, { size: sizes.small, fill: theme.red, anchor: 'middle', bold: true }));
}
