/** What the command writes: never over what it has read, and whole or not at all. Real files, real links, real failures. */

import assert from 'node:assert/strict';
import { spawnSync } from 'node:child_process';
import {
  chmodSync, linkSync, mkdirSync, mkdtempSync, readFileSync, readdirSync, readlinkSync, realpathSync, rmSync, statSync, symlinkSync, writeFileSync,
} from 'node:fs';
import { tmpdir } from 'node:os';
import { join } from 'node:path';
import { after, test } from 'node:test';
import { fileURLToPath } from 'node:url';
import { readText } from '../notation.js';
import { COMMAND } from './command-world.js';
import { sample } from './core.js';

const home = mkdtempSync(join(tmpdir(), 'krossvil-'));
after(() => rmSync(home, { recursive: true }));

const part = (name, kind) => readText(sample(name)).parts.find((each) => each.kind === kind).bytes;

/** A folder with a table, its torn journal, a text of both, a text that can be run, and two links to the journal. */
function room() {
  const folder = mkdtempSync(join(home, 'room-'));
  const at = (name) => join(folder, name);
  writeFileSync(at('table.bin'), part('torn-journal', 'table'));
  writeFileSync(at('torn.bin'), part('torn-journal', 'journal'));
  writeFileSync(at('torn.kv'), sample('torn-journal'));
  writeFileSync(at('run.kv'), sample('classroom'));
  linkSync(at('torn.bin'), at('hard.bin'));
  symlinkSync('torn.bin', at('soft.bin'));
  mkdirSync(at('under'));
  const shell = (line, env = {}) => {
    const script = `krossvil() { "${COMMAND}" "$@"; }\n${line}`;
    const done = spawnSync('bash', ['-c', script], { cwd: folder, encoding: 'utf8', env: { ...process.env, ...env } });
    return { code: done.status, out: done.stdout, err: done.stderr };
  };
  return { folder, at, shell };
}

/** Every file of a folder with its bytes, hidden ones too. */
const contents = (folder) => readdirSync(folder, { withFileTypes: true }).filter((each) => each.isFile())
  .map(({ name }) => [name, readFileSync(join(folder, name)).toString('hex')]).sort();

const SALVAGED = 99;

test('an output that is an input, by any name or link, is refused before anything is written', () => {
  const { folder, shell } = room();
  const before = contents(folder);
  const salvage = 'salvage table.bin torn.bin -o';
  const lines = [
    `${salvage} torn.bin`, `${salvage} ./under/../torn.bin`, `${salvage} ${folder}/torn.bin`, `${salvage} hard.bin`, `${salvage} soft.bin`,
    'salvage table.bin soft.bin -o hard.bin', `${salvage} table.bin`, 'run run.kv -o run.kv', 'salvage torn.kv -o torn.kv',
    'text table.bin torn.bin -o torn.bin', 'bytes torn.kv --as journal -o torn.kv', `${salvage} run.kv --names run.kv`,
    'salvage table.bin - -o hard.bin <torn.bin', 'salvage table.bin /dev/stdin -o torn.bin <torn.bin', `${salvage} /dev/stdout >>torn.bin`,
  ];
  for (const line of lines) {
    const { code, out, err } = shell(`krossvil ${line}`);
    assert.deepEqual([line, code, out], [line, 2, '']);
    assert.match(err, /^krossvil: -o \S+: this is .+, which was read and would be lost; name another file\n$/m, line);
    assert.deepEqual(contents(folder), before, line);
  }
});

test('with --json nothing but objects goes to the standard output: what is made needs a file of its own', () => {
  const { folder, shell } = room();
  const before = contents(folder);
  const lines = ['run run.kv', 'salvage torn.kv', 'text table.bin', 'bytes run.kv --as table', 'picture run.kv', 'draw run.kv', 'page run.kv',
    'wave run.kv', 'dwell run.kv', 'short run.kv'];
  for (const line of lines) {
    for (const output of ['-o -', '-o /dev/stdout', '--output=-']) {
      const { code, out, err } = shell(`krossvil ${line} --json ${output}`);
      assert.deepEqual([line, code, err], [line, 2, '']);
      const says = 'with --json the standard output has objects alone: give -o FILE';
      assert.deepEqual(JSON.parse(out), { answer: 'not asked', says: [says] }, `${line} ${output}`);
    }
    assert.deepEqual(contents(folder), before, line);
  }
});

test('the page is not written over the page that the command has', () => {
  const { at, shell } = room();
  const own = fileURLToPath(new URL('../../target/kit/krossvil.html', import.meta.url));
  const before = readFileSync(own);
  symlinkSync(own, at('page.html'));
  for (const line of [`page -o ${own}`, `page run.kv -o ${own}`, 'page run.kv -o page.html']) {
    const { code, err } = shell(`krossvil ${line}`);
    assert.equal(code, 2, line);
    assert.match(err, /this is .*krossvil\.html, which was read and would be lost; name another file\n$/, line);
    assert.ok(readFileSync(own).equals(before), line);
  }
});

test('pictures and waves are not written over what was read either, and of two files none is', () => {
  const { folder, at, shell } = room();
  for (const name of ['journal.svg', 'journal.vcd', 'journal.gtkw']) writeFileSync(at(name), part('classroom', 'journal'));
  const before = contents(folder);
  for (const line of ['picture table.bin journal.svg -o journal.svg', 'dwell table.bin journal.svg -o journal.svg',
    'wave table.bin journal.vcd -o journal.gtkw', 'wave table.bin journal.gtkw -o journal.gtkw']) {
    const { code, out } = shell(`krossvil ${line}`);
    assert.deepEqual([line, code, out], [line, 2, '']);
    assert.deepEqual(contents(folder), before, line);
  }
});

test('an output that is there keeps its mode, and links still lead to it', () => {
  const { folder, at, shell } = room();
  writeFileSync(at('old.bin'), 'old');
  chmodSync(at('old.bin'), 0o640);
  symlinkSync('../old.bin', at('under/link.bin'));
  symlinkSync('new.bin', at('dangling.bin'));
  assert.equal(shell('krossvil salvage table.bin torn.bin -o under/link.bin').code, 0);
  assert.deepEqual([readlinkSync(at('under/link.bin')), readFileSync(at('old.bin')).length], ['../old.bin', SALVAGED]);
  assert.equal(statSync(at('old.bin')).mode & 0o777, 0o640);
  assert.equal(shell('umask 027; krossvil salvage table.bin torn.bin -o dangling.bin').code, 0);
  assert.deepEqual([readlinkSync(at('dangling.bin')), readFileSync(at('new.bin')).length], ['new.bin', SALVAGED]);
  assert.equal(statSync(at('new.bin')).mode & 0o777, 0o640);
  assert.deepEqual([readdirSync(at('under')), readdirSync(folder).filter((name) => name.startsWith('.'))], [['link.bin'], []]);
});

test('a device or a pipe is written to and stays what it is; the standard output is not begun anew', () => {
  const { at, shell } = room();
  const salvage = 'krossvil salvage table.bin torn.bin --plain -o';
  assert.equal(shell(`${salvage} /dev/null`).code, 0);
  assert.ok(statSync('/dev/null').isCharacterDevice());
  const line = 'kept=92 dropped=21 refused 20 at 108\n'.length;
  assert.equal(Number(shell(`${salvage} /dev/stdout | wc -c`).out), SALVAGED + line);
  writeFileSync(at('log'), 'old');
  assert.equal(shell(`${salvage} /dev/stdout >>log`).code, 0);
  assert.equal(readFileSync(at('log')).length, 3 + SALVAGED + line);
  assert.equal(shell(`mkfifo pipe; cat pipe >copy & ${salvage} pipe; wait`).code, 0);
  assert.deepEqual([statSync(at('pipe')).isFIFO(), readFileSync(at('copy')).length], [true, SALVAGED]);
  const full = shell(`${salvage} /dev/full`);
  assert.deepEqual([full.code, full.err], [2, 'krossvil: /dev/full: the disk is full\n']);
  const fullOutput = shell('krossvil run run.kv >/dev/full');
  assert.deepEqual([fullOutput.code, fullOutput.err], [2, 'krossvil: standard output: the disk is full\n']);
});

test('where no more can be written the old file is left as it was, and nothing else', () => {
  const { folder, at, shell } = room();
  for (const name of ['old.svg', 'old.vcd', 'old.gtkw']) writeFileSync(at(name), 'old');
  const before = contents(folder);
  for (const line of ['picture run.kv -o old.svg', 'picture run.kv -o new.svg', 'wave run.kv -o old.gtkw', 'wave run.kv -o new.gtkw']) {
    const { code, err } = shell(`ulimit -f 1; krossvil ${line}`);
    assert.deepEqual([code, err.replace(/\S+\.(svg|vcd|gtkw)/, 'FILE')], [2, 'krossvil: FILE: the file would be too large\n'], line);
    assert.deepEqual(contents(folder), before, line);
  }
  assert.equal(shell('ulimit -f 1; krossvil salvage table.bin torn.bin -o saved.bin').code, 0);
});

/** The first write to a file puts half of it there, and that is the end of the program. */
const KILLER = `const fs = require('node:fs');
const { openSync, writeSync } = fs;
const half = (file, data) => {
  writeSync(typeof file === 'number' ? file : openSync(file, 'w'), Buffer.from(data).subarray(0, data.length / 2));
  process.kill(process.pid, 'SIGKILL');
};
fs.writeFileSync = half;
fs.writeSync = (file, ...rest) => (file > 2 ? half : writeSync)(file, ...rest);
require('node:module').syncBuiltinESMExports();
`;

test('a run that is killed while it writes leaves the old file as it was', () => {
  const { at, shell } = room();
  writeFileSync(at('killer.cjs'), KILLER);
  writeFileSync(at('old.svg'), 'old');
  const { code } = shell('krossvil picture run.kv -o old.svg', { NODE_OPTIONS: `--require ${at('killer.cjs')}` });
  assert.deepEqual([code, readFileSync(at('old.svg'), 'utf8').slice(0, 20)], [128 + 9, 'old']);
});

test('nothing is written where the tool for pictures fails', () => {
  const { folder, at, shell } = room();
  writeFileSync(at('rsvg-convert'), '#!/bin/sh\necho half\necho broken >&2\nexit 1\n', { mode: 0o755 });
  writeFileSync(at('old.png'), 'old');
  const before = contents(folder);
  const { code, err } = shell('PATH=$PWD:$PATH krossvil picture run.kv -o old.png');
  assert.deepEqual([code, err], [2, 'krossvil: rsvg-convert failed: broken\n']);
  assert.deepEqual(contents(folder), before);
});

test('a folder that is not there, or is in the place of a file, is named', () => {
  const { folder, at, shell } = room();
  symlinkSync('circle.bin', at('circle.bin'));
  symlinkSync('none/saved.bin', at('far.bin'));
  const cases = [['none/saved.bin', "none/saved.bin: there is no folder 'none'"], ['under', 'under: it is a folder'],
    ['torn.bin/saved.bin', 'torn.bin/saved.bin: a part of the path is no folder'],
    ['none/a/saved.bin', "none/a/saved.bin: there is no folder 'none/a'"],
    ['circle.bin', 'circle.bin: its links go round in a circle'], ['far.bin', `far.bin: there is no folder '${realpathSync(folder)}/none'`]];
  for (const [output, says] of cases) {
    const { code, err } = shell(`krossvil salvage table.bin torn.bin -o ${output}`);
    assert.deepEqual([code, err], [2, `krossvil: ${says}\n`]);
  }
});
