/** `--version`: the version, and the sum of the library that gives the answers. */

import { createHash } from 'node:crypto';
import { readFileSync } from 'node:fs';
import { wantsObjects } from './arguments.js';
import { ACCEPTED } from './asking.js';
import { libraryFile } from './library-file.js';
import { jsonLine } from './terminal.js';

/** @typedef {import('./io.js').Io} Io */

/**
 * @param {Io} io @param {string[]} args
 */
export function answer(io, args) {
  const { version } = JSON.parse(readFileSync(new URL('../package.json', import.meta.url), 'utf8'));
  const file = libraryFile();
  const sum = createHash('sha256').update(readFileSync(file)).digest('hex');
  io.print(wantsObjects(args) ? `${jsonLine({ version, library: { file, sha256: sum } })}\n`
    : `krossvil ${version}\nThe proved library is ${file}; its SHA-256 sum is\n${sum}\n`);
  return ACCEPTED;
}
