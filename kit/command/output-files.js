/** Files that are written: none that was read, and each whole or not at all. */

import {
  accessSync, closeSync, constants, existsSync, fchmodSync, fchownSync, fstatSync, fsyncSync, lstatSync, openSync, readlinkSync, realpathSync,
  renameSync, rmSync, statSync, writeFileSync,
} from 'node:fs';
import { dirname, join, resolve } from 'node:path';
import { orTrouble } from './system-errors.js';
import { Trouble } from './trouble.js';

/** @typedef {[path: string, data: Uint8Array|string]} Output */
/** @typedef {{take: () => void, drop: () => void}} Draft   to be put in its place, or to be thrown away */

/** A file is the same under all its names if device and number are. */
const idOf = (/** @type {{dev: bigint, ino: bigint}} */ { dev, ino }) => `${dev} ${ino}`;

const statOf = (/** @type {string} */ path) => statSync(path, { bigint: true, throwIfNoEntry: false });

/**
 * Is the file that the path leads to the one that is open here?
 * @param {string} path @param {number} file
 */
export function isOpenAs(path, file) {
  const stat = statOf(path);
  return stat !== undefined && idOf(stat) === idOf(fstatSync(file, { bigint: true }));
}

/** The files that were read. Pipes and devices are not among them: nothing is lost of them. */
export class Inputs {
  constructor() {
    /** @type {Map<string, string>} */
    this.names = new Map();
  }

  /** @param {number} file  an open one @param {string} name */
  note(file, name) {
    const stat = fstatSync(file, { bigint: true });
    if (stat.isFile()) this.names.set(idOf(stat), name);
  }

  /** @param {string} path  of what is to be written */
  refuse(path) {
    const stat = orTrouble(path, () => statOf(path));
    const name = stat && this.names.get(idOf(stat));
    if (name) throw new Trouble(`-o ${path}: this is ${name}, which was read and would be lost; name another file`);
  }
}

/**
 * Where a path leads through its links, the last of which may lead to a file that is not there yet.
 * @param {string} path
 * @returns {string}
 */
function placeOf(path) {
  if (existsSync(path)) return realpathSync(path);
  const isLink = lstatSync(path, { throwIfNoEntry: false })?.isSymbolicLink();
  return isLink ? placeOf(resolve(realpathSync(dirname(path)), readlinkSync(path))) : path;
}

/**
 * Fills a file that was just made. It gets the owner, if that may be, and the mode of the one whose place it is to take.
 * @param {number} file @param {Uint8Array|string} data @param {any} old
 */
function fill(file, data, old) {
  try {
    writeFileSync(file, data);
    if (old?.uid !== undefined && old.uid !== fstatSync(file).uid) fchownSync(file, old.uid, old.gid);
    if (old) fchmodSync(file, old.mode & 0o7777);
    fsyncSync(file);
  } finally {
    closeSync(file);
  }
}

let drafts = 0;

/**
 * All that is to be written, in a file beside the one whose place it is to take. What is no file, as a pipe, is written to later.
 * @param {Output} output
 * @returns {Draft}
 */
function draftOf([path, data]) {
  const place = placeOf(path);
  const folder = dirname(place);
  if (!existsSync(folder)) throw new Trouble(`${path}: there is no folder '${folder}'`);
  const old = statSync(place, { throwIfNoEntry: false });
  if (old?.isDirectory()) throw new Trouble(`${path}: it is a folder`);
  if (old && !old.isFile()) return { take: () => writeFileSync(path, data), drop: () => {} };
  if (old) accessSync(place, constants.W_OK);
  const draft = join(folder, `.krossvil-${process.pid}-${++drafts}`);
  const drop = () => rmSync(draft, { force: true });
  const file = orTrouble(`${path}: its folder`, () => openSync(draft, 'wx', old ? 0o600 : 0o666));
  try {
    fill(file, data, old);
  } catch (error) {
    drop();
    throw error;
  }
  return { take: () => renameSync(draft, place), drop };
}

/**
 * Writes all of them or, as far as that can be known before, none.
 * @param {Output[]} outputs
 */
export function writeWhole(outputs) {
  /** @type {{path: string, draft: Draft}[]} */
  const made = [];
  try {
    for (const output of outputs) made.push({ path: output[0], draft: orTrouble(output[0], () => draftOf(output)) });
    for (const { path, draft } of made) orTrouble(path, draft.take);
  } catch (error) {
    for (const { draft } of made) draft.drop();
    throw error;
  }
}
