/** Runs alone: what runs beside it slows the command more than the loop. */

import assert from 'node:assert/strict';
import { execFileSync, spawnSync } from 'node:child_process';
import { mkdtempSync, rmSync, writeFileSync } from 'node:fs';
import { tmpdir } from 'node:os';
import { join } from 'node:path';
import { after, test } from 'node:test';
import { encodeTable } from '../fields.js';
import { KIT } from './command-world.js';
import { library } from './core.js';
import { longJournal, slow } from './pictures-fixtures.js';

const folder = mkdtempSync(join(tmpdir(), 'krossvil-'));
after(() => rmSync(folder, { recursive: true }));

/** The processor's time of a program, in milliseconds: the clock says little where other programs run beside it. */
function processorTime(program, args) {
  const script = 'unset NODE_EXTRA_CA_CERTS; TIMEFORMAT="%U %S"; time "$@" >/dev/null'; // Node would read them before all else
  const done = spawnSync('bash', ['-c', script, '-', program, ...args], { encoding: 'utf8' });
  assert.match(done.stderr, /^[0-9.]+ [0-9.]+\n$/);
  return 1000 * done.stderr.trim().split(' ').reduce((sum, seconds) => sum + Number(seconds), 0);
}

/** The least times of some rounds, in turn, so that what runs beside them slows all of them alike; no more rounds than are needed. A machine
 * that others share may be slow for half a minute, so they go on for two. */
function leastTimes(acts, enough) {
  const end = Date.now() + 120000;
  let least = acts.map(() => Infinity);
  for (let round = 0; round < 5 || (Date.now() < end && !enough(least)); round++) least = acts.map((act, k) => Math.min(least[k], act()));
  return least;
}

/** A loop in C over the native library, where that runs by itself. */
function nativeLoop() {
  const loop = join(folder, 'loop');
  const root = join(KIT, '..');
  const sources = [`${KIT}/test/command-loop.c`, `${root}/target/staticlib/libkrossvil.a`];
  execFileSync('gcc', ['-O2', '-Wall', '-Werror', `-I${root}/include`, ...sources, '-o', loop]);
  return loop;
}

/** A table and 1,000 journals of 64 KB in files. */
function manyFiles() {
  const table = join(folder, 'table.bin');
  writeFileSync(table, encodeTable(slow));
  const journals = Array.from({ length: 1000 }, (_, k) => join(folder, `${k}.bin`));
  const kinds = Array.from({ length: 4 }, (_, k) => longJournal(slow, { cycles: 2500, changes: 20, seed: k + 1 }));
  for (const [k, file] of journals.entries()) writeFileSync(file, kinds[k % kinds.length]);
  assert.ok(kinds.every((bytes) => bytes.length > 60000 && library.checkJournal(encodeTable(slow), bytes).ok));
  return [table, ...journals];
}

/** The command as it is installed: few files, which start faster than the modules of a clone. */
function installed() {
  execFileSync(join(KIT, 'deb/build'), ['krossvil']);
  execFileSync('dpkg-deb', ['-x', join(KIT, '../target/kit/krossvil.deb'), join(folder, 'installed')]);
  return join(folder, 'installed/usr/bin/krossvil');
}

/** Node with nothing to do. */
function bareNode() {
  const file = join(folder, 'nothing.cjs');
  writeFileSync(file, '');
  return () => processorTime('node', [file]);
}

const [table, ...journals] = manyFiles();
const program = installed();
const command = (files) => () => processorTime(program, ['check', ...files, '--plain']);

/** Measured are 21 to 29. */
const START = 35;

test(`the command starts, and checks one journal, in at most ${START} ms more than Node with nothing to do`, () => {
  const [bare, start] = leastTimes([bareNode(), command([table, journals[0]])], ([least, own]) => own - least <= START);
  console.log(`# start: ${Math.round(start - bare)} ms above the ${Math.round(bare)} ms of Node`);
  assert.ok(start > bare && start - bare <= START, `${start - bare} ms, of at most ${START}`);
});

/** Each journal is given so often: once is as short as the start, which differs from run to run, and what is left of it differs more. */
const TIMES = 4;

/** For 1,000 journals, beyond a bare loop in JavaScript that reads, checks and prints. Measured are 16 on a quiet machine, and up to 22. */
const BESIDE = 35;

/** Times a loop in C, where the native library runs by itself. Measured are 2.55: WebAssembly alone takes twice what native code does. */
const MOST = 3;

// What is compared is the checking: the start, which is the same for one journal as for all, is taken off.
test(`1,000 journals of 64 KB, ${TIMES} times: what the command adds to a bare loop, and ${MOST} times a loop in C`, () => {
  const files = [table, ...Array.from({ length: TIMES }, () => journals).flat()];
  const { status, stdout } = spawnSync(program, ['check', ...files, '--plain'], { encoding: 'utf8', maxBuffer: 1 << 24 });
  assert.equal(status, 0);
  assert.equal(stdout.split('\n').filter((line) => line.includes(': accepted end=')).length, 1000 * TIMES);
  const script = (given) => () => processorTime('node', [`${KIT}/test/command-loop.js`, join(KIT, '../target/kit/krossvil.wasm'), ...given]);
  const loop = process.arch === 'x64' ? nativeLoop() : null;
  const one = files.slice(0, 2);
  const acts = [command(one), command(files), script(one), script(files), ...(loop ? [() => processorTime(loop, files)] : [])];
  const figures = ([start, whole, scriptStart, scriptWhole, native]) => {
    const taken = whole - start;
    return { start, whole, taken, beside: (taken - (scriptWhole - scriptStart)) / TIMES, times: native ? taken / native : 0, native };
  };
  const good = ({ beside, times }) => beside <= BESIDE && times <= MOST;
  const { start, whole, taken, beside, times, native } = figures(leastTimes(acts, (least) => good(figures(least))));
  console.log(`# ${1000 * TIMES} journals: ${Math.round(taken)} ms after a start of ${Math.round(start)} ms; `
    + `for 1,000 ${Math.round(beside)} ms beside a bare loop`
    + (loop ? `; in C ${Math.round(native)} ms: ${times.toFixed(2)} times, with the start ${(whole / native).toFixed(2)} times` : ''));
  assert.ok(taken > 0 && good({ beside, times }), `${beside} ms of at most ${BESIDE}, ${times} times of at most ${MOST}`);
});
