/** How much the page takes in. What is longer gets no answer: it is refused in a sentence, before anything is done with it. */

import { say } from '../names.js';
import { TEXT_MAX } from '../notation.js';
import { PANES } from './workspace.js';

/** @typedef {import('./workspace.js').Texts} Texts */

/** A journal has some 11,000 records at most, the largest table some 65,000 lines; browsers take seconds to set many more. */
export const LINES_MOST = 200000;
const BYTES_OF_CHARACTER = 3;

/**
 * How many bytes a text has in a file. Nobody needs to know it exactly of one that has too many characters already.
 * @param {string} text
 */
function bytesIn(text) {
  const sure = text.length > TEXT_MAX || BYTES_OF_CHARACTER * text.length <= TEXT_MAX;
  return sure ? text.length : new TextEncoder().encode(text).length;
}

/** @param {string} text */
function linesIn(text) {
  let lines = 1;
  for (let at = text.indexOf('\n'); at >= 0; at = text.indexOf('\n', at + 1)) lines++;
  return lines;
}

/**
 * Why texts are too long to be read, as a sentence; null if they are not.
 * @param {Texts} texts
 * @returns {string|null}
 */
export function tooLong(texts) {
  const whole = PANES.map((pane) => texts[pane]).join('\n');
  const bytes = bytesIn(whole);
  if (bytes > TEXT_MAX) return say`The texts have ${bytes} bytes in all; at most ${TEXT_MAX} are read.`;
  const lines = linesIn(whole);
  return lines > LINES_MOST ? say`The texts have ${lines} lines in all; at most ${LINES_MOST} are read here.` : null;
}
