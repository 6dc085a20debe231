/** What bytes that are no table, stimulus or journal look like. It is a guess, for a sentence about them; nothing is judged by it. */

import { isText } from './notation.js';

/**
 * How files of other kinds begin.
 * @type {[string, number[]][]}
 */
const BEGINNINGS = [
  ['a PNG picture', [0x89, 0x50, 0x4e, 0x47]],
  ['a JPEG picture', [0xff, 0xd8, 0xff]],
  ['a GIF picture', [0x47, 0x49, 0x46, 0x38]],
  ['a PDF document', [0x25, 0x50, 0x44, 0x46]],
  ['an office document of an old kind', [0xd0, 0xcf, 0x11, 0xe0]],
  ['a ZIP archive', [0x50, 0x4b, 0x03, 0x04]],
  ['a gzip archive', [0x1f, 0x8b, 0x08]],
  ['an xz archive', [0xfd, 0x37, 0x7a, 0x58, 0x5a, 0x00]],
  ['a program (ELF)', [0x7f, 0x45, 0x4c, 0x46]],
  ['a program (WebAssembly)', [0x00, 0x61, 0x73, 0x6d]],
  ['a text in UTF-32', [0xff, 0xfe, 0x00, 0x00]],
  ['a text in UTF-32', [0x00, 0x00, 0xfe, 0xff]],
  ['a text in UTF-16', [0xff, 0xfe]],
  ['a text in UTF-16', [0xfe, 0xff]],
];
const LOOKED_AT = 1000;
const PAIRS_LEAST = 2;

/** @param {number} byte */
const isPrinted = (byte) => (byte >= 0x20 && byte !== 0x7f) || (byte >= 0x09 && byte <= 0x0d);

/**
 * UTF-16 without its mark: of nearly every pair of bytes the same one is zero, and the other can be printed.
 * @param {Uint8Array} bytes
 */
function isWideText(bytes) {
  const pairs = Math.floor(bytes.length / 2);
  const wide = (/** @type {0|1} */ zero) => Array.from({ length: pairs }, (_, k) => k)
    .filter((k) => bytes[2 * k + zero] === 0 && isPrinted(bytes[2 * k + 1 - zero])).length;
  return pairs >= PAIRS_LEAST && Math.max(wide(0), wide(1)) > 0.9 * pairs;
}

/**
 * A few words for what these bytes look like, with their article; null if that is unknown, or if they are a text that can be read.
 * @param {Uint8Array} bytes
 * @returns {string|null}
 */
export function looksLike(bytes) {
  const start = bytes.subarray(0, LOOKED_AT);
  const known = BEGINNINGS.find(([, beginning]) => beginning.every((byte, k) => byte === start[k]));
  if (known) return known[0];
  if (start.length === 0 || isText(start)) return null;
  if (isWideText(start)) return 'a text in UTF-16';
  return start.every(isPrinted) ? 'a text that does not begin with the word krossvil' : null;
}
