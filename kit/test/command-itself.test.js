import assert from 'node:assert/strict';
import { execFileSync, spawnSync } from 'node:child_process';
import { chmodSync, existsSync, mkdtempSync, readFileSync, rmSync, symlinkSync, writeFileSync } from 'node:fs';
import { tmpdir } from 'node:os';
import { join } from 'node:path';
import { after, test } from 'node:test';
import { COMMAND, KIT, spawn } from './command-world.js';
import { sample } from './core.js';

const folder = mkdtempSync(join(tmpdir(), 'krossvil-'));
after(() => rmSync(folder, { recursive: true }));

const which = (tool) => spawnSync('sh', ['-c', `command -v ${tool}`], { encoding: 'utf8' }).stdout.trim();

/** A folder of links to these programs, to be the whole PATH. */
function pathOf(name, tools) {
  const path = mkdtempSync(join(folder, name));
  for (const tool of tools) symlinkSync(which(tool), join(path, tool));
  return { PATH: path };
}
const SHELL = ['sh', 'readlink'];

test('the exit codes, from a folder that is not its own and through a link', () => {
  const link = join(folder, 'krossvil');
  symlinkSync(COMMAND, link);
  const ends = (args, options) => spawnSync(link, args, { cwd: join(KIT, 'samples'), encoding: 'utf8', ...options });
  assert.equal(ends(['check', 'classroom.kv']).status, 0);
  assert.equal(ends(['check', 'changed-verdict.kv']).status, 1);
  assert.equal(ends(['check', 'none.kv']).status, 2);
  assert.equal(ends(['check', '.']).stderr, 'krossvil: .: it is a folder\n');
  assert.equal(ends(['check', '-'], { input: sample('classroom') }).stdout.split('\n')[0],
    'accepted end=12 cycles=4 moves=2 state=0 output=0 left=4 longest=3');
  assert.equal(ends([]).status, 2);
});

test('a pipe that is closed early is no trouble', () => {
  const done = spawnSync('sh', ['-c', `"${COMMAND}" explain watchdog.kv | head -n 1`], { cwd: join(KIT, 'samples'), encoding: 'utf8' });
  assert.deepEqual([done.stdout.split('\n').length, done.stderr], [2, '']);
});

test('without node, librsvg or Graphviz it says which package is missing, and ends with 2', () => {
  const bare = spawn(['check', 'classroom.kv'], { env: pathOf('none', SHELL) });
  assert.deepEqual([bare.code, bare.err], [2, 'krossvil: nodejs is missing; install it: apt-get install nodejs\n']);
  const env = pathOf('node', [...SHELL, 'node']);
  for (const [args, name] of [[['picture', 'quarry.kv', '-o', join(folder, 'a.png')], 'librsvg2-bin'],
    [['draw', 'classroom.kv', '-o', join(folder, 'a.pdf')], 'librsvg2-bin'],
    [['draw', 'classroom.kv', '--graphviz', '-o', join(folder, 'a.svg')], 'graphviz']]) {
    const { code, out, err } = spawn(args, { env });
    assert.deepEqual([code, out], [2, '']);
    assert.match(err, new RegExp(`the package ${name} is missing: apt-get install ${name}`));
    assert.ok(!existsSync(args.at(-1)));
  }
  assert.equal(spawn(['picture', 'quarry.kv', '-o', join(folder, 'a.svg')], { env }).code, 0);
});

test('pictures as PNG and PDF', { skip: which('rsvg-convert') === '' && 'rsvg-convert is not here' }, () => {
  const made = (name) => {
    assert.equal(spawn(['picture', 'quarry.kv', '-o', join(folder, name)]).code, 0);
    return readFileSync(join(folder, name));
  };
  const png = made('quarry.png');
  assert.equal(png.subarray(1, 4).toString(), 'PNG');
  assert.equal(png.readUInt32BE(16), 2560);
  assert.equal(made('quarry.pdf').subarray(0, 5).toString(), '%PDF-');
});

/** A text of a table of 32 states and 32 inputs that lead anywhere. */
function denseText() {
  const all = Array.from({ length: 32 }, (_, k) => k);
  const arrows = (q) => all.map((input) => `i${input} -> q${(7 * q * input + 5 * input + q) % 32}`).join('\n');
  const states = all.map((q) => `state q${q}\noutput o\n${arrows(q)}`).join('\n');
  return `krossvil table\ncycle 3\ninputs ${all.map((k) => `i${k}`).join(', ')}\noutputs o\nstart q0\n${states}\n`;
}

test('Graphviz draws a dense table of 32 by 32 in little time, no larger than two slides', { skip: which('dot') === '' && 'dot is not here' }, () => {
  const made = join(folder, 'dense.png');
  writeFileSync(join(folder, 'dense.kv'), denseText());
  const done = spawnSync('bash', ['-c', `TIMEFORMAT=%U; time "${COMMAND}" draw "${join(folder, 'dense.kv')}" --graphviz -o "${made}"`],
    { encoding: 'utf8', timeout: 300000 });
  assert.match(done.stderr, /^[0-9.]+\n$/);
  assert.ok(Number(done.stderr) < 15, `${done.stderr} s of the processor`);
  const [width, height] = [16, 20].map((at) => readFileSync(made).readUInt32BE(at));
  assert.ok(width > 1500 && width <= 3841 && height > 800 && height <= 2161, `${width} ${height}`);
});

test('why Graphviz failed is said in one sentence, and not what it warned of before', () => {
  const path = pathOf('dot', [...SHELL, 'node', 'kill']);
  const says = (script) => {
    writeFileSync(join(path.PATH, 'dot'), `#!/bin/sh\ncat > /dev/null\n${script}\n`);
    chmodSync(join(path.PATH, 'dot'), 0o755);
    const { code, err } = spawn(['draw', 'classroom.kv', '--graphviz', '-o', join(folder, 'b.png')], { env: { PATH: `${path.PATH}:/usr/bin:/bin` } });
    assert.equal(code, 2);
    return err;
  };
  const warns = "echo 'dot: graph is too large for cairo-renderer bitmaps. Scaling by 0.75 to fit' >&2";
  assert.equal(says(`${warns}; echo 'dot: failure to create cairo surface: out of memory' >&2; exit 1`),
    'krossvil: dot failed: failure to create cairo surface: out of memory\n');
  assert.equal(says(`${warns}; kill -KILL $$`), 'krossvil: dot failed: it was stopped by SIGKILL, as happens where memory runs out\n');
  assert.equal(says(`${warns}; exit 3`), 'krossvil: dot failed: it ended with 3 and did not say why\n');
});

test('the pictures that stand in the repository are those that the command makes', () => {
  const done = spawnSync(join(KIT, 'pictures/make'), ['--compare'], { encoding: 'utf8' });
  assert.deepEqual([done.status, done.stdout, done.stderr], [0, '', '']);
});

test('at a terminal: colours, and a progress line that is gone in the end', { skip: which('script') === '' && 'script is not here' }, () => {
  const lines = execFileSync('script', ['-qec', `"${COMMAND}" check classroom.kv ${'changed-verdict.kv '.repeat(150)}; true`, '/dev/null'],
    { cwd: join(KIT, 'samples'), encoding: 'utf8', env: { ...process.env, TERM: 'xterm', NO_COLOR: '' }, input: '' });
  assert.match(lines, /\x1b\[31mchanged-verdict\.kv: refused 28 at 76\x1b\[0m/);
  const shown = lines.split('\n').map((line) => line.split('\x1b[K').pop());
  assert.ok(shown.every((line) => !line.includes(' of 150 journals')));
});
