/** Which record is shown, and what of the automaton is lit at it. */

import { machineAt } from './machine.js';

/** @typedef {import('./page.js').Page} Page */
/** @typedef {import('../types.js').Step} Step */

/**
 * The record that is shown: the one that is looked at, or the refused one, or the last.
 * @param {Page} page
 * @returns {Step|null}
 */
export function shownStep({ subject, step: { selected } }) {
  if (!subject) return null;
  const { steps, stop } = subject.trace;
  return steps[selected ?? stop ?? steps.length - 1] ?? null;
}

/**
 * The state that the machine is in, and the edge that a tick took.
 * @param {Step|null} step
 */
export function litAt(step) {
  if (!step) return {};
  const tick = step.record.kind === 'tick' && step.after && step.before?.phase === 3;
  return { state: machineAt(step)?.state ?? null, edge: tick && step.before ? { from: step.before.state, input: step.before.polled } : null };
}
