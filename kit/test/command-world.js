/** What the tests of the command share: a world of its own for each run, in which files are in memory and everything that is printed is kept. */

import { spawnSync } from 'node:child_process';
import { fileURLToPath } from 'node:url';
import { main } from '../command/main.js';
import { Trouble } from '../command/trouble.js';
import { library } from './core.js';

export const COMMAND = fileURLToPath(new URL('../krossvil', import.meta.url));
export const KIT = fileURLToPath(new URL('..', import.meta.url));

const bytesOf = (data) => (typeof data === 'string' ? Buffer.from(data) : data);

/** Bytes in pieces, each of which is overwritten when the next is asked for. */
function* inPieces(bytes, length, follow) {
  for (let at = 0; at < bytes.length; at += length) {
    const piece = Uint8Array.from(bytes.subarray(at, at + length));
    yield piece;
    piece.fill(0xee);
  }
  if (follow) yield new Uint8Array();
}

/** Bytes that are read into a room, if they fit. */
function inRoom(bytes, room) {
  if (!room || bytes.length >= room.length) return bytes;
  room.set(bytes);
  return room.subarray(0, bytes.length);
}

/**
 * Runs the command in a world with these files; `-` is the standard input.
 * @returns {Promise<{code: number, out: string, err: string, files: Record<string, Uint8Array|string>, lines: any[]}>}
 */
export async function ask(args, files = {}, world = {}) {
  const written = { ...files };
  const printed = { out: [], err: [] };
  const io = {
    read(path, limit, noted, room) {
      if (!Object.hasOwn(written, path)) throw new Trouble(`${path}: no such file`);
      return inRoom(bytesOf(written[path]).subarray(0, limit), room);
    },
    pieces: (path, follow) => inPieces(io.read(path, Infinity), world.pieceLength ?? 1000, follow),
    keep() {},
    isOutput: (path) => path === '-',
    list: () => [],
    write(outputs) { Object.assign(written, Object.fromEntries(outputs)); },
    print(data) { printed.out.push(bytesOf(data)); },
    complain(text) { printed.err.push(bytesOf(text)); },
    finish() {},
    convert: (tool, options, input) => Buffer.from(`${tool} ${options.join(' ')} ${input.length}`),
    paper: (html) => Buffer.from(`%PDF ${html.length}`),
    printsToTerminal: false, complainsToTerminal: false, colours: false, columns: 80, ...world,
  };
  const code = await main(args, io, async () => world.library ?? library);
  const [out, err] = [printed.out, printed.err].map((pieces) => Buffer.concat(pieces).toString());
  return { code, out, err, files: written, lines: args.includes('--json') ? out.split('\n').filter(Boolean).map((line) => JSON.parse(line)) : [] };
}

/** Runs the command itself. */
export function spawn(args, options = {}) {
  const done = spawnSync(COMMAND, args, { encoding: 'utf8', cwd: `${KIT}/samples`, ...options });
  return { code: done.status, out: done.stdout, err: done.stderr };
}
