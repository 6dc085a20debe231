/** What a file looks like that is not what it was taken for. */

import { looksLike } from '../looks-like.js';
import { Trouble } from './trouble.js';

/**
 * And what to do about it; null if that is unknown.
 * @param {Uint8Array} data
 */
export function sayLooks(data) {
  const looks = looksLike(data);
  if (looks === null) return null;
  if (looks.includes('UTF-')) return `looks like ${looks}; save it as UTF-8`;
  return `looks like ${looks}${looks.startsWith('a text') ? '; its first line is one such as: krossvil journal' : ''}`;
}

/**
 * A text was wanted, and this is none.
 * @param {string} file @param {Uint8Array} data
 */
export function noText(file, data) {
  return new Trouble(`${file} ${sayLooks(data) ?? 'is no text: it does not begin with the word krossvil'}`);
}
