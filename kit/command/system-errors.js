/** What the system says when a file cannot be read or written, in words. */

import { Trouble } from './trouble.js';

/** @type {Record<string, string>} */
const WORDS = {
  ENOENT: 'no such file',
  EISDIR: 'it is a folder',
  ENOTDIR: 'a part of the path is no folder',
  EACCES: 'it may not be read or written',
  EPERM: 'it may not be read or written',
  ENOSPC: 'the disk is full',
  EDQUOT: 'the disk is full',
  EFBIG: 'the file would be too large',
  ENAMETOOLONG: 'the name is too long',
  EROFS: 'it may not be written',
  ELOOP: 'its links go round in a circle',
};

/**
 * @param {unknown} error
 * @returns {string}
 */
export function getSystemErrorMessage(error) {
  const { code, message } = /** @type {any} */ (error);
  return WORDS[code] ?? String(message).split('\n')[0];
}

/**
 * What the act gives, or trouble with the path.
 * @param {string} path @param {() => any} act
 */
export function orTrouble(path, act) {
  try {
    return act();
  } catch (error) {
    if (error instanceof Trouble) throw error;
    throw new Trouble(`${path}: ${getSystemErrorMessage(error)}`, /** @type {any} */ (error).code);
  }
}
