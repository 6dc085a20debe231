/** The answer keeps its room, so that nothing below it moves while one steps, whatever is said of a record, or types a mistake. */

import { showAnswer } from './answer.js';
import { byId, inTwoColumns, make } from './dom.js';
import { saidAt } from './machine.js';

/** @typedef {import('./page.js').Page} Page */
/** @typedef {import('./workspace.js').Subject} Subject */

/** Of a long journal only so many records are asked for their sentences: the last ones, whose numbers are the longest. */
const ASKED = 300;
/** So many of the longest sentences are measured. */
const MEASURED = 6;

/** @param {Subject} subject */
function longestOf({ trace }) {
  const said = trace.steps.slice(0, trace.stop ?? trace.steps.length).slice(-ASKED).map((step) => saidAt(trace, step));
  const length = (/** @type {ReturnType<typeof saidAt>} */ each) => (each ? each.record.length + each.says.length : 0);
  return said.sort((a, b) => length(b) - length(a)).slice(0, MEASURED);
}

/**
 * Measures the answer itself, and what is said of records, in boxes like the answer's own.
 * @param {Page} page
 */
export function keepRoom({ subject, said, rooms }) {
  const room = byId('answer');
  const before = rooms.height('answer') > 0 ? `${rooms.height('answer')}px` : '';
  room.style.maxHeight = said.mistakes.length > 0 ? before : '';
  room.style.minHeight = before;
  if (!subject) return;
  const boxes = [null, ...(inTwoColumns() ? longestOf(subject) : [])].map((step) => {
    const box = make('div');
    showAnswer(box, said, () => {}, step);
    return box;
  });
  const holder = make('div', { class: 'measured', 'aria-hidden': 'true' }, boxes);
  holder.style.width = `${room.offsetWidth}px`;
  room.after(holder);
  room.style.minHeight = `${Math.max(...boxes.map((box) => box.offsetHeight))}px`;
  holder.remove();
}
