/** What the tests of the core share: the library, the samples, comparisons. */

import { readFileSync } from 'node:fs';
import { loadLibrary } from '../library.js';

export const library = await loadLibrary(readFileSync(new URL('../../target/kit/krossvil.wasm', import.meta.url)));

/** @param {string} name */
export function sample(name) {
  return readFileSync(new URL(`../samples/${name}.kv`, import.meta.url), 'utf8');
}

/** @param {Uint8Array} one @param {Uint8Array} other */
export function sameBytes(one, other) {
  return Buffer.compare(one, other) === 0;
}
