/** Files that come to the page: which of them it takes, and why not the others. Most of a file that is not taken is never read. */

import { FORMS, formOf, isTag } from '../fields.js';
import { BYTES_READ } from '../library.js';
import { looksLike } from '../looks-like.js';
import { say } from '../names.js';
import { FORM_WORDS, TEXT_MAX, isText } from '../notation.js';

/** @typedef {{name: string, bytes: Uint8Array}} Taken */
/** @typedef {{name: string, why: string}} Left  `why` goes on where the name ends */

const START = 1000;

/** @param {Left} left */
export const sayLeft = ({ name, why }) => `Not opened: ${name} ${why}`;

/**
 * Bytes that are a little too long are taken: the library refuses them itself.
 * @param {Uint8Array} start @param {number} size
 */
function whyTooLong(start, size) {
  if (isText(start)) return size > TEXT_MAX ? say`has ${size} bytes; of a text at most ${TEXT_MAX} are read.` : null;
  if (size <= BYTES_READ) return null;
  const form = formOf(start);
  if (form === 'table') return say`has ${size} bytes; of a table at most ${BYTES_READ} are read.`;
  return say`has ${size} bytes; of a ${FORM_WORDS[form]} at most ${FORMS[form].max} are read.`;
}

/**
 * Why a file that begins so is not taken; null if it is.
 * @param {Uint8Array} start @param {number} size
 */
export function whyNot(start, size) {
  if (size === 0) return 'is empty.';
  const like = looksLike(start);
  if (like) return `looks like ${like}.`;
  if (isText(start) || isTag(start[0])) return whyTooLong(start, size);
  return `begins with the byte ${start[0].toString(16).padStart(2, '0')}, with which no table, stimulus or journal begins.`;
}

/** @param {Blob} blob */
const bytesOf = async (blob) => new Uint8Array(await blob.arrayBuffer());

/** @param {Uint8Array} bytes */
function isUtf8(bytes) {
  try {
    return new TextDecoder('utf-8', { fatal: true }).decode(bytes) !== null;
  } catch {
    return false;
  }
}

/**
 * @param {File} file
 * @returns {Promise<Taken|Left>}
 */
async function receiveOne(file) {
  const { name, size } = file;
  const start = await bytesOf(file.slice(0, START)).catch(() => null);
  const why = start && whyNot(start, size);
  if (why) return { name, why };
  const bytes = start && await bytesOf(file).catch(() => null);
  if (!bytes) return { name, why: 'could not be read. If it is a folder, open the files in it.' };
  if (isText(bytes) && !isUtf8(bytes)) return { name, why: 'is a text that is not in UTF-8. Save it in UTF-8, and open it again.' };
  return { name, bytes };
}

/**
 * @param {File[]} files
 * @returns {Promise<{taken: Taken[], left: Left[]}>}
 */
export async function receive(files) {
  const all = await Promise.all(files.map(receiveOne));
  return {
    taken: /** @type {Taken[]} */ (all.filter((each) => 'bytes' in each)),
    left: /** @type {Left[]} */ (all.filter((each) => 'why' in each)),
  };
}
