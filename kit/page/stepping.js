/** Going from record to record: by buttons and keys, from the diagram, or with the caret. */

import { drawStep } from './drawing.js';
import { markTexts } from './marks.js';

/** @typedef {import('./page.js').Page} Page */
/** @typedef {import('./workspace.js').Pane} Pane */

/**
 * @param {Page} page @param {number|null} number  null for the whole run
 * @param {boolean} [stepping]
 */
export function select(page, number, stepping = true) {
  const { subject } = page;
  if (!subject) return;
  const last = subject.trace.steps.length - 1;
  const selected = number === null ? null : Math.min(last, Math.max(0, number));
  page.step = { selected, stepping: stepping && selected !== null };
  markTexts(page);
  page.say();
  const line = selected === null ? 0 : subject.lines[selected];
  if (stepping && line > 0 && page.pane === subject.pane) page.editors[subject.pane].reveal(line);
  drawStep(page);
}

/**
 * The first record from this time on.
 * @param {Page} page @param {number} time
 */
export function selectTime(page, time) {
  const number = page.subject?.trace.steps.findIndex(({ record }) => record.time >= time) ?? -1;
  if (number >= 0) select(page, number);
}

/**
 * From the whole run one goes on from its beginning, or back from its end.
 * @param {Page} page @param {number} by
 */
export function move(page, by) {
  const { subject, step: { selected } } = page;
  const end = subject?.trace.stop ?? (subject?.trace.steps.length ?? 1) - 1;
  select(page, selected === null ? (by > 0 ? 0 : end) : selected + by);
}

/**
 * The caret is in a line: its record is looked at.
 * @param {Page} page @param {Pane} pane @param {number} line
 */
export function lookAtLine(page, pane, line) {
  if (page.subject?.pane !== pane) return;
  const number = page.subject.lines.indexOf(line);
  const selected = number < 0 ? null : number;
  if (selected !== page.step.selected) select(page, selected, false);
}
