/** Files as the page's three texts, and back: whole texts with several parts, or bytes of any form. */

import { formOf } from '../fields.js';
import { isText, readText, recordsText, tableText } from '../notation.js';
import { PANES, readPanes } from './workspace.js';

/** @typedef {import('../types.js').Names} Names */
/** @typedef {import('./workspace.js').Texts} Texts */
/** @typedef {import('./workspace.js').Pane} Pane */

const HEADING = /^\s*krossvil(\s+(\w+))?(\s+(\w+))?\s*(#.*)?$/;
const COMMENT = /^\s*(#|$)/;

/** @returns {Texts} */
export const noTexts = () => ({ table: '', stimulus: '', journal: '' });

/**
 * The pane of a heading.
 * @param {string} line
 * @returns {Pane|null}
 */
function paneOf(line) {
  const heading = HEADING.exec(line);
  if (!heading) return null;
  const word = heading[4] ?? heading[2];
  if (word === 'exercise') return 'journal';
  return PANES.find((pane) => pane === word) ?? 'table';
}

/**
 * Comments that stand before a heading belong to what it heads, and go below it: a text begins with its heading.
 * @param {string[]} lines  those of a part, and comments of the next one
 */
function cutComments(lines) {
  let end = lines.length;
  while (end > 0 && COMMENT.test(lines[end - 1])) end--;
  return lines.splice(end).filter((line) => line.trim() !== '');
}

/**
 * A text with several parts, each in its pane. Whatever stands before the first heading goes to the table's pane.
 * @param {string} source
 * @returns {Partial<Texts>}  only panes for which there is something
 */
export function splitText(source) {
  /** @type {Map<Pane, string[]>} */
  const found = new Map();
  /** @type {string[]} */
  let current = [];
  for (const line of source.replace(/^\ufeff/, '').split(/\r\n|\n|\r/)) {
    const pane = paneOf(line);
    if (pane) {
      const comments = cutComments(current);
      current = found.get(pane) ?? [];
      found.set(pane, current);
      for (const each of [line, ...comments]) current.push(each);
    } else {
      if (found.size === 0) found.set('table', current);
      current.push(line);
    }
  }
  const texts = [...found].map(([pane, lines]) => [pane, `${lines.join('\n').trimEnd()}\n`]);
  return Object.fromEntries(texts.filter(([, text]) => text.trim() !== ''));
}

/**
 * All panes as one text.
 * @param {Texts} texts
 */
export function joinTexts(texts) {
  return PANES.map((pane) => texts[pane].trim()).filter((text) => text !== '').map((text) => `${text}\n`).join('\n');
}

/**
 * Bytes as a text in the pane where they belong. A journal takes the names of the table that is there.
 * @param {Uint8Array} bytes @param {Texts} texts
 * @returns {Partial<Texts>}
 */
function bytesAsText(bytes, texts) {
  const form = formOf(bytes);
  const present = readText(texts.table);
  if (form !== 'table') return { [form === 'stimulus' ? 'stimulus' : 'journal']: recordsText(bytes, form, present.names) };
  const same = present.parts[0]?.kind === 'table' && sameBytes(present.parts[0].bytes, bytes);
  return { table: same ? texts.table : tableText(bytes) };
}

/** @param {Uint8Array} one @param {Uint8Array} other */
function sameBytes(one, other) {
  return one.length === other.length && one.every((byte, k) => byte === other[k]);
}

/**
 * Records that name members of a table that is gone: the same bytes, in the words of the new table. Of what is wrong in two texts for one
 * reason only the first is a mistake, so each is looked at when the ones before are mended.
 * @param {Texts} texts @param {Texts} old @param {Set<Pane>} filled
 * @returns {Texts}
 */
function renamed(texts, old, filled) {
  const was = readPanes(old);
  const result = { ...texts };
  for (const pane of PANES) {
    const [now, part] = [readPanes(result), was[pane]];
    const lost = !filled.has(pane) && now.mistakes.some((mistake) => mistake.pane === pane);
    if (lost && part && part.kind !== 'table') result[pane] = recordsText(part.bytes, part.kind, now.names);
  }
  return result;
}

/**
 * Puts files in the panes, tables first, since journals take their names. A text that has a table is a whole: what it does not have is
 * not kept.
 * @param {Texts} texts @param {Uint8Array[]} files
 * @returns {{texts: Texts, filled: Pane[]}}
 */
export function takeFiles(texts, files) {
  const rank = (/** @type {Uint8Array} */ file) => (isText(file) ? 0 : formOf(file) === 'table' ? 1 : 2);
  let result = texts;
  /** @type {Set<Pane>} */
  const filled = new Set();
  for (const file of [...files].sort((a, b) => rank(a) - rank(b))) {
    const found = isText(file) ? splitText(new TextDecoder().decode(file)) : bytesAsText(file, result);
    for (const pane of PANES) if (found[pane] !== undefined) filled.add(pane);
    result = isText(file) && found.table !== undefined ? { ...noTexts(), ...found } : { ...result, ...found };
  }
  return { texts: filled.has('table') ? renamed(result, texts, filled) : result, filled: [...filled] };
}
