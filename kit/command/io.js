/** The world outside: files, the streams, other programs. Tests put another in its place. */

import { closeSync, fstatSync, openSync, readSync, readdirSync, statSync, writeSync } from 'node:fs';
import { createRequire } from 'node:module';
import { join } from 'node:path';
import { Inputs, isOpenAs, writeWhole } from './output-files.js';
import { printed } from './printing.js';
import { getSystemErrorMessage, orTrouble } from './system-errors.js';
import { whyFailed } from './tool-failure.js';
import { Trouble } from './trouble.js';

/**
 * @typedef {Object} Io
 * @property {(path: string, limit: number, noted: boolean, room?: Uint8Array) => Uint8Array} read   `-` is the standard input; no more than
 *                                                                   the limit is read, into the room that is given if that is enough,
 *                                                                   and what was read may be overwritten in memory by the next reading.
 *                                                                   A file that is noted is never written to
 * @property {(path: string, follow: boolean) => Iterable<Uint8Array>} pieces   of a file, up to its end; each is good up to the next. One that is
 *                                                                   followed has no end: where it has no more for now comes an empty piece
 * @property {(path: string) => void} keep                           a file that is never written to, as if it had been read
 * @property {(path: string) => boolean} isOutput                    is it the standard output, by any name?
 * @property {(folder: string) => string[]} list                     its files
 * @property {(outputs: import('./output-files.js').Output[]) => void} write   all of them or none, and none over what was read
 * @property {(data: Uint8Array|string) => void} print               to the standard output
 * @property {(text: string) => void} complain                       to the standard error
 * @property {() => void} finish                                     what was printed and still waits goes out
 * @property {(tool: string, args: string[], input: string) => Uint8Array|null} convert   null if the tool is not there
 * @property {(html: string) => Uint8Array|null} paper                as PDF, by a browser's print; null if there is none
 * @property {boolean} printsToTerminal
 * @property {boolean} complainsToTerminal
 * @property {boolean} colours
 * @property {number} columns                                        of the terminal
 */

const [INPUT, OUTPUT, ERRORS] = [0, 1, 2];

/**
 * Is a terminal open there? Node's own answer takes its time to load, and is asked only of a device that might be one.
 * @param {number} file
 */
function isTerminal(file) {
  try {
    const stat = fstatSync(file);
    if (!stat.isCharacterDevice() || stat.rdev === statSync('/dev/null', { throwIfNoEntry: false })?.rdev) return false;
  } catch {
    return false; // it is closed
  }
  return createRequire(import.meta.url)('node:tty').isatty(file);
}

const PRINTS_TO_TERMINAL = isTerminal(OUTPUT);

/** A file that grows is looked at so often, in milliseconds. */
const FOLLOWED_EVERY = 100;

/** Longer than any journal, so that most files fit; it is used again and again, which is much faster than memory that is new. */
const ROOM = Buffer.alloc(70000);

/**
 * @param {number} file @param {number} limit @param {Uint8Array} room  if it is not enough, there is more elsewhere
 */
function readUpTo(file, limit, room) {
  let length = 0;
  for (;;) {
    const count = patiently(() => readSync(file, room, length, Math.min(limit, room.length) - length, null));
    length += count;
    if (count === 0 || length >= limit) return room.subarray(0, length);
    if (length === room.length) room = Buffer.concat([room, Buffer.alloc(room.length)]);
  }
}

/**
 * A terminal or a pipe may have nothing yet, or no room; then it is asked again.
 * @param {() => number} act
 */
function patiently(act) {
  for (;;) {
    try {
      return act();
    } catch (error) {
      const { code } = /** @type {any} */ (error);
      if (code === 'EOF') return 0;
      if (code !== 'EAGAIN') throw error;
      pause(10);
    }
  }
}

/** @param {number} milliseconds */
function pause(milliseconds) {
  Atomics.wait(new Int32Array(new SharedArrayBuffer(4)), 0, 0, milliseconds);
}

/**
 * Straight to the stream's file: Node's own streams take longer to load than a journal to check. Who closed a pipe wants no more.
 * @param {number} file @param {Uint8Array|string} data
 */
function writeAll(file, data) {
  const bytes = typeof data === 'string' ? Buffer.from(data) : data;
  try {
    for (let done = 0; done < bytes.length;) done += patiently(() => writeSync(file, bytes, done));
  } catch (error) {
    const closed = /** @type {any} */ (error).code === 'EPIPE';
    if (file === OUTPUT && !closed) writeAll(ERRORS, `krossvil: standard output: ${getSystemErrorMessage(error)}\n`);
    process.exit(2);
  }
}

/** Short pieces for the standard output wait here, and go out together: at a terminal at once. */
class Waiting {
  constructor() {
    /** @type {string[]} */
    this.pieces = [];
    this.length = 0;
    this.most = PRINTS_TO_TERMINAL ? 0 : 65536;
  }

  /** @param {Uint8Array|string} data */
  add(data) {
    if (typeof data !== 'string') this.flush();
    if (typeof data !== 'string') return writeAll(OUTPUT, data);
    this.pieces.push(data);
    this.length += data.length;
    if (this.length > this.most) this.flush();
  }

  flush() {
    const { pieces } = this;
    [this.pieces, this.length] = [[], 0];
    if (pieces.length > 0) writeAll(OUTPUT, pieces.join(''));
  }
}

const waiting = new Waiting();

const inputs = new Inputs();

/** @type {Io['read']} */
function read(path, limit, noted, room = ROOM) {
  const file = path === '-' ? INPUT : openSync(path, 'r');
  try {
    if (noted) inputs.note(file, path === '-' ? 'standard input' : path);
    return readUpTo(file, limit, room);
  } finally {
    if (file !== INPUT) closeSync(file);
  }
}

/**
 * A file that grows is followed; a pipe ends when it is closed.
 * @type {Io['pieces']}
 */
function* pieces(path, follow) {
  const name = path === '-' ? 'standard input' : path;
  const file = path === '-' ? INPUT : orTrouble(name, () => openSync(path, 'r'));
  try {
    const grows = follow && fstatSync(file).isFile();
    for (let length = 0; ;) {
      const count = orTrouble(name, () => patiently(() => readSync(file, ROOM)));
      length += count;
      if (count === 0 && !grows) return;
      if (count === 0 && fstatSync(file).size < length) throw new Trouble(`${name}: it has become shorter while it was followed`);
      yield ROOM.subarray(0, count);
      if (count === 0) pause(FOLLOWED_EVERY);
    }
  } finally {
    if (file !== INPUT) closeSync(file);
  }
}

/** @param {string} path */
function keep(path) {
  const file = openSync(path, 'r');
  inputs.note(file, path);
  closeSync(file);
}

/** @param {string} path */
const isOutput = (path) => path === '-' || orTrouble(path, () => isOpenAs(path, OUTPUT));

/**
 * The files of a folder by their names: no hidden ones, and no folders, pipes or devices, since those would not end.
 * @param {string} folder
 */
function list(folder) {
  const names = /** @type {string[]} */ (readdirSync(folder)).filter((name) => !name.startsWith('.')).sort();
  return names.map((name) => join(folder, name)).filter((file) => statSync(file, { throwIfNoEntry: false })?.isFile() ?? true);
}

/**
 * A path may be another name of the standard output, as /dev/stdout: what stands in that already stays.
 * @param {import('./output-files.js').Output[]} outputs
 */
function write(outputs) {
  for (const [path] of outputs) inputs.refuse(path);
  const [[path, data], ...others] = outputs;
  if (others.length === 0 && isOutput(path)) waiting.add(data);
  else writeWhole(outputs);
}

/**
 * The module for other programs is loaded where it is needed: few commands do, and it takes its time.
 * @param {string} tool @param {string[]} args @param {string} input
 */
function convert(tool, args, input) {
  const { spawnSync } = createRequire(import.meta.url)('node:child_process');
  const done = spawnSync(tool, args, { input, maxBuffer: 1 << 28 });
  const missing = /** @type {any} */ (done.error)?.code === 'ENOENT';
  if (missing) return null;
  if (done.error || done.status !== 0) throw new Trouble(`${tool} failed: ${whyFailed(tool, done)}`);
  return done.stdout;
}

/** @type {Io} */
export const realIo = {
  read: (path, limit, noted, room) => orTrouble(path === '-' ? 'standard input' : path, () => read(path, limit, noted, room)),
  pieces,
  keep: (path) => orTrouble(path, () => keep(path)),
  isOutput,
  list: (folder) => orTrouble(folder, () => list(folder)),
  write,
  print: (data) => waiting.add(data),
  complain(text) {
    waiting.flush();
    writeAll(ERRORS, text);
  },
  finish: () => waiting.flush(),
  convert,
  paper: printed,
  printsToTerminal: PRINTS_TO_TERMINAL,
  complainsToTerminal: isTerminal(ERRORS),
  colours: PRINTS_TO_TERMINAL && !process.env.NO_COLOR && process.env.TERM !== 'dumb',
  columns: (PRINTS_TO_TERMINAL && process.stdout.columns) || 100,
};
