/** A word among those that an option takes. */

import { listed } from '../names.js';
import { didYouMean } from '../notation/mistakes.js';
import { Trouble } from './trouble.js';

/**
 * @param {string} option @param {string} word @param {string[]} words
 */
export function oneOf(option, word, words) {
  if (!words.includes(word)) throw new Trouble(`--${option} takes ${listed(words, 'or')}, not '${word}'${didYouMean(word, words)}`);
  return word;
}
