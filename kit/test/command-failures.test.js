/** What goes wrong is said in the command's own words, and with --json as an object, with the same exit code. */

import assert from 'node:assert/strict';
import { execFileSync, spawnSync } from 'node:child_process';
import { createHash } from 'node:crypto';
import { copyFileSync, cpSync, linkSync, mkdirSync, mkdtempSync, readFileSync, rmSync, symlinkSync, writeFileSync } from 'node:fs';
import { tmpdir } from 'node:os';
import { join } from 'node:path';
import { after, test } from 'node:test';
import { COMMANDS } from '../command/commands.js';
import { EXAMPLES } from '../examples.js';
import { readText } from '../notation.js';
import { COMMAND, KIT, ask, spawn } from './command-world.js';
import { sample } from './core.js';

const folder = mkdtempSync(join(tmpdir(), 'krossvil-'));
after(() => rmSync(folder, { recursive: true }));

const part = (name, kind) => readText(sample(name)).parts.find((each) => each.kind === kind).bytes;
const utf16 = (text, order = 'utf-16le') => (order === 'utf-16le' ? Buffer.from(text, 'utf16le') : Buffer.from(text, 'utf16le').swap16());
const FILES = {
  ...Object.fromEntries(EXAMPLES.map(({ name }) => [`${name}.kv`, sample(name)])),
  'table.bin': part('classroom', 'table'), 'journal.bin': part('classroom', 'journal'), 'changed.bin': part('changed-verdict', 'journal'),
  'wrong.kv': sample('classroom').replace('inputs ', 'inpits '), 'late.kv': sample('classroom').replaceAll('12  end', '99  end'),
  'wide.kv': utf16(`\ufeff${sample('classroom')}`), 'bare.kv': utf16(sample('classroom')), 'big.kv': utf16(sample('classroom'), 'utf-16be'),
  'picture.png': Buffer.from('89504e470d0a1a0a0000000d49484452', 'hex'), 'note.txt': 'a note\n',
};

test('options that are wrong are named in our own words', async () => {
  const usage = 'usage: krossvil react TABLE [options]\n';
  const cases = [
    ['--moves -1', "--moves takes a number from 0 to 32, not '-1'\n"], ['--moves=-1', "--moves takes a number from 0 to 32, not '-1'\n"],
    ['--moves x', "--moves takes a number from 0 to 32, not 'x'\n"],
    ['--moves', `--moves needs a value behind it: --moves N\n${usage}`],
    ['--mvoes 2', `there is no option '--mvoes' here; did you mean '--moves'?\n${usage}`],
    ['-o a.svg', `there is no option '-o' here\n${usage}`], ['--tight=2', `--tight takes no value\n${usage}`],
    ['--while --tight', `--while needs a value behind it, and '--tight' looks like an option; if it is none, write --while=--tight\n${usage}`],
  ];
  for (const [line, says] of cases) {
    const { code, out, err } = await ask(['react', 'classroom.kv', ...line.split(' ')], FILES);
    assert.deepEqual([line, code, out, err], [line, 2, '', `krossvil: ${says}`]);
  }
  assert.match((await ask(['picture', 'quarry.kv', '--begin', '-5'], FILES)).err, /--begin takes a number from 0 to 4294967295, not '-5'/);
  assert.equal((await ask(['react', 'classroom.kv', '--moves', '33'], FILES)).out.split('\n')[0], 'refused 32 at 0');
});

/** Lines that fail, in every way that there is, and what the object says. */
const FAILURES = [
  ['', 2, /no command '--json'/], ['chek classroom.kv', 2, /no command 'chek'/], ['help chek', 2, /no command 'chek'/],
  ['check', 2, /a file is missing/], ['draw table.bin journal.bin', 2, /too many files/], ['check --foo x', 2, /no option '--foo'/],
  ['react classroom.kv --moves -1', 2, /from 0 to 32/],
  ['check none.kv', 2, /no such file/], ['check classroom.kv --names none.kv', 2, /no such file/], ['check wrong.kv', 2, /wrong\.kv:\d+:\d+: /],
  ['check table.bin journal.bin --as jurnal', 2, /did you mean 'journal'\?/], ['explain table.bin', 2, /name a journal too/],
  ['react classroom.kv --while tarin', 2, /did you mean 'train'\?/], ['picture quarry.kv', 2, /with --json give -o FILE/],
  ['picture quarry.kv -o a.gif', 2, /\.svg, \.png or \.pdf/], ['draw classroom.kv --graphviz -o a.svg', 2, /graphviz is missing/],
  ['text classroom.kv', 2, /is a text already/], ['bytes table.bin', 2, /is no text/], ['check table.bin none.bin changed.bin', 2, /no such file/],
  ['check changed-verdict.kv', 1, /The test at 8 says free/], ['check old-table.kv', 1, /delays/], ['explain late.kv', 1, /too late/],
  ['compare quarry.kv', 1, null], ['compare torn-journal.kv', 1, /stops in the middle/], ['left torn-journal.kv', 1, /stops in the middle/],
  ['run table.bin changed.bin', 1, /looks like/], ['salvage old-table.kv journal.bin', 1, /delays/], ['dwell table.bin changed.bin', 1, /says free/],
  ['react gas-burner.kv --while heat', 1, /This table has timers/], ['unstamp journal.bin', 1, /With its table named before it/],
];

test(`with --json every failure is an object, and the exit code is the same: ${FAILURES.length} failures`, async () => {
  for (const [line, code, says] of FAILURES) {
    const args = line.split(' ').filter(Boolean);
    const missing = { convert: () => null };
    const told = await ask([...args, '--json'], FILES, missing);
    assert.deepEqual([line, told.code, told.err], [line, code, '']);
    if (args.length > 0 && !line.startsWith('picture quarry.kv') && !line.startsWith('chek')) {
      assert.equal((await ask(args, FILES, missing)).code, code, line);
    }
    const failed = told.lines.filter(({ answer, own }) => answer === (code === 1 ? 'refused' : 'not asked') || own !== undefined);
    assert.ok(failed.length > 0, `${line}: ${told.out}`);
    if (says) assert.match(failed[0].says.join('\n'), says, line);
  }
});

test('a file behind -- is no option', async () => {
  const { out, err } = await ask(['check', '--', '--json'], {});
  assert.deepEqual([out, err], ['', 'krossvil: --json: no such file\n']);
});

test('without node, and where the library is broken, it is an object too', () => {
  const path = mkdtempSync(join(folder, 'none'));
  for (const tool of ['sh', 'readlink']) symlinkSync(execFileSync('sh', ['-c', `command -v ${tool}`], { encoding: 'utf8' }).trim(), join(path, tool));
  const bare = spawn(['check', 'classroom.kv', '--json'], { env: { PATH: path } });
  assert.deepEqual([bare.code, JSON.parse(bare.out)],
    [2, { answer: 'not asked', says: ['nodejs is missing; install it: apt-get install nodejs'] }]);
  const installed = mkdtempSync(join(folder, 'installed'));
  execFileSync(join(KIT, 'command/build'));
  copyFileSync(COMMAND, join(installed, 'krossvil'));
  for (const made of ['krossvil.cjs', 'parts']) cpSync(join(KIT, '../target/kit', made), join(installed, made), { recursive: true });
  writeFileSync(join(installed, 'krossvil.wasm'), 'broken');
  const broken = (args) => spawnSync(join(installed, 'krossvil'), args, { cwd: join(KIT, 'samples'), encoding: 'utf8' });
  const told = broken(['check', 'classroom.kv', '--json']);
  assert.deepEqual([told.status, told.stderr, JSON.parse(told.stdout).answer], [2, '', 'not asked']);
  const said = broken(['check', 'classroom.kv']);
  assert.deepEqual([said.status, said.stdout, said.stderr.split(':').slice(0, 2)], [2, '', ['krossvil', ' this is a fault of krossvil itself']]);
});

test('a text in UTF-16, and files of other kinds, are named', async () => {
  const wide = /wide\.kv looks like a text in UTF-16; save it as UTF-8/;
  for (const name of ['wide.kv', 'bare.kv', 'big.kv']) {
    const { code, out } = await ask(['check', name], FILES);
    assert.deepEqual([code, out.includes('\n  The file looks like a text in UTF-16; save it as UTF-8.\n')], [1, true], name);
    assert.match((await ask(['check', 'table.bin', name, '--json'], FILES)).lines[0].says.at(-1), /a text in UTF-16/);
  }
  assert.match((await ask(['bytes', 'wide.kv'], FILES)).err, wide);
  assert.match((await ask(['check', 'table.bin', '--names', 'wide.kv'], FILES)).err, wide);
  assert.match((await ask(['check', 'table.bin', 'picture.png'], FILES)).out, /The file looks like a PNG picture\./);
  assert.match((await ask(['check', 'table.bin', 'note.txt'], FILES)).out, /does not begin with the word krossvil; its first line is one such as/);
  assert.ok(!(await ask(['check', 'changed-verdict.kv'], FILES)).out.includes('looks like'));
});

test('a folder stands for the files in it, by their names', () => {
  const card = join(folder, 'card');
  mkdirSync(join(card, 'older'), { recursive: true });
  const put = (name, bytes) => writeFileSync(join(card, name), bytes);
  put('b.bin', FILES['journal.bin']);
  put('a.bin', FILES['changed.bin']);
  put('.hidden', 'x');
  put('older/c.bin', FILES['journal.bin']);
  execFileSync('mkfifo', [join(card, 'pipe')]);
  symlinkSync('gone.bin', join(card, 'c.bin'));
  linkSync(join(card, 'b.bin'), join(card, 'd.kv'));
  const here = (args) => spawn(args, { cwd: folder });
  writeFileSync(join(folder, 'table.bin'), FILES['table.bin']);
  const { code, out, err } = here(['check', 'table.bin', 'card/', '--json']);
  assert.deepEqual([code, err], [2, '']);
  assert.deepEqual(out.trim().split('\n').map((line) => JSON.parse(line)).map(({ file, answer }) => [file, answer]),
    [['card/a.bin', 'refused'], ['card/b.bin', 'accepted'], ['card/c.bin', 'not asked'], ['card/d.kv', 'accepted']]);
  rmSync(join(card, 'c.bin'));
  assert.match(here(['check', 'table.bin', 'card', 'card/older', '--plain']).out,
    /^card\/a\.bin: refused 28 at 76\n[^]*\ncard\/older\/c\.bin: accepted /);
  assert.match(here(['check', 'table.bin', 'card/older']).out, /^card\/older\/c\.bin: accepted [^]*1 journal checked, 0 refused\.\n$/);
  assert.match(here(['dwell', 'table.bin', 'card', '--plain']).out, /^refused,"card\/a\.bin",28,76\njournals,2\n/);
  rmSync(join(card, 'older/c.bin'));
  assert.deepEqual(here(['check', 'table.bin', 'card/older']), { code: 2, out: '', err: 'card/older: there is no file in this folder\n' });
  assert.equal(here(['explain', 'table.bin', 'card']).err, 'krossvil: card: it is a folder\n');
});

test('--version has the version and the sum of the library that answers', () => {
  const { version } = JSON.parse(readFileSync(join(KIT, 'package.json')));
  const sum = createHash('sha256').update(readFileSync(join(KIT, '../target/kit/krossvil.wasm'))).digest('hex');
  const { code, out } = spawn(['--version']);
  assert.deepEqual([code, out.split('\n')[0], out.split('\n')[2]], [0, `krossvil ${version}`, sum]);
  assert.match(out.split('\n')[1], /^The proved library is \/.*\/krossvil\.wasm; its SHA-256 sum is$/);
  const told = JSON.parse(spawn(['--version', '--json']).out);
  assert.deepEqual([told.version, told.library.sha256], [version, sum]);
});

test('the help says what folders, failures and --version are', async () => {
  const { out } = await ask(['--help']);
  for (const words of ['krossvil --version', 'not asked']) assert.ok(out.includes(words), words);
  for (const name of ['check', 'dwell']) assert.ok(COMMANDS[name].more.join(' ').includes('A folder stands for the files in it'));
});
