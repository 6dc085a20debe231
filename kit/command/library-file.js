/** Where the files stand that are made: beside the kit in a package, in target/kit of a clone. */

import { existsSync, readFileSync } from 'node:fs';
import { fileURLToPath } from 'node:url';
import { loadLibraryNow } from '../library.js';
import { Trouble } from './trouble.js';

/**
 * @param {string} name
 * @returns {string|null}
 */
export function madeFile(name) {
  const places = [`../${name}`, `../../target/kit/${name}`].map((place) => fileURLToPath(new URL(place, import.meta.url)));
  return places.find((place) => existsSync(place)) ?? null;
}

/** The folder of the ready examples. */
export function examplesFolder() {
  const places = ['../samples', '../../doc/krossvil/examples'].map((place) => fileURLToPath(new URL(place, import.meta.url)));
  return places.find((place) => existsSync(place)) ?? places[0];
}

/** The file of the proved library. */
export function libraryFile() {
  const file = madeFile('krossvil.wasm');
  if (!file) throw new Trouble('the library is not built yet: run kit/native/build wasm');
  return file;
}

/** The proved library. */
export async function ownLibrary() {
  return loadLibraryNow(readFileSync(libraryFile()));
}
