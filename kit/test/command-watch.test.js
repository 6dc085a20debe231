import assert from 'node:assert/strict';
import { spawn as start } from 'node:child_process';
import { appendFileSync, mkdtempSync, readFileSync, readdirSync, readlinkSync, realpathSync, rmSync, truncateSync, writeFileSync } from 'node:fs';
import { tmpdir } from 'node:os';
import { join } from 'node:path';
import { test } from 'node:test';
import { setTimeout as sleep } from 'node:timers/promises';
import { EXAMPLES } from '../examples.js';
import { encodeTable, recordBytes } from '../fields.js';
import { newMemory } from '../library.js';
import { readText } from '../notation.js';
import { Chance } from './chance.js';
import { COMMAND, ask, spawn } from './command-world.js';
import { library, sample } from './core.js';
import { drawTable, perhapsDamaged } from './draw.js';

const PARTS = readText(sample('classroom')).parts;
const TABLE = PARTS.find(({ kind }) => kind === 'table').bytes;
const JOURNAL = PARTS.find(({ kind }) => kind === 'journal').bytes;
const SAMPLES = Object.fromEntries(EXAMPLES.map(({ name }) => [`${name}.kv`, sample(name)]));
const first = (text) => text.split('\n')[0];

/** A journal of so many cycles under the classroom's table, written by the live runtime, and how it ends. */
function longJournal(cycles) {
  const memory = newMemory();
  const event = (kind, time, value = 0) => library.live(TABLE, memory, Uint8Array.from(recordBytes('stimulus', kind, time, value))).bytes;
  const fields = [event('input', 0)];
  for (let k = 0; k < cycles; k++) fields.push(event('poll', 2 * k + 1), event('test', 2 * k + 2), event('tick', 2 * k + 2));
  return new Uint8Array(Buffer.concat([...fields, event('end', 2 * cycles)]));
}

const CYCLES = 8000;
const LONG = longJournal(CYCLES);

/** Where the test of a cycle stands in it. */
const testAt = (cycle) => 4 + 24 * cycle + 8;

/** The journal with the last byte of a record changed. */
function changed(journal, place, value) {
  const copy = Uint8Array.from(journal);
  copy[place + 7] = value;
  return copy;
}

/** What an answer has besides the slip, which only `check` looks for, and the guess of what else a file is, which has only its beginning. */
function withoutSlip({ says, slip, either, ...answer }) {
  const sentences = says?.filter((each) => !/^The usual slip|^These records are what any|^The file looks like/.test(each));
  return says ? { ...answer, says: sentences } : answer;
}

test('on every journal of the examples the answer is that of check', async () => {
  let compared = 0;
  const same = async (args, files) => {
    const [watched, checked] = [await ask(['watch', ...args, '--json'], files), await ask(['check', ...args, '--as', 'journal', '--json'], files)];
    assert.deepEqual([watched.code, watched.lines.map(withoutSlip)], [checked.code, checked.lines.map(withoutSlip)], args.join(' '));
    const plain = [await ask(['watch', ...args, '--plain'], files), await ask(['check', ...args, '--as', 'journal', '--plain'], files)];
    assert.equal(plain[0].out, plain[1].out);
    compared++;
  };
  for (const name of Object.keys(SAMPLES)) if (/^krossvil journal/m.test(SAMPLES[name])) await same([name], SAMPLES);
  const folder = new URL('../../examples/', import.meta.url);
  for (const name of readdirSync(folder, { recursive: true }).filter((each) => /[^/]+\/(?!.*table|.*stimulus).*\.bin$/.test(each))) {
    const table = ['table.bin', '../classroom/table.bin'].map((each) => new URL(each, new URL(name, folder)));
    const bytes = table.flatMap((each) => { try { return [readFileSync(each)]; } catch { return []; } })[0];
    await same(['t.bin', 'j.bin'], { 't.bin': bytes, 'j.bin': readFileSync(new URL(name, folder)) });
  }
  assert.ok(compared > 25, `${compared} were compared`);
});

test('a journal longer than a check takes is accepted, in pieces of any length, and check names the command', async () => {
  const files = { 'table.bin': TABLE, 'long.bin': LONG };
  assert.equal(LONG.length, 11 + 24 * CYCLES);
  for (const pieceLength of [1, 3, 8, 1000, 70000, LONG.length]) {
    const { code, out } = await ask(['watch', 'table.bin', 'long.bin'], files, { pieceLength });
    assert.deepEqual([code, first(out)], [0, `accepted end=${2 * CYCLES} cycles=${CYCLES} moves=0 state=0 output=0 left=0 longest=2`]);
  }
  const { code, out } = await ask(['check', 'table.bin', 'long.bin'], files);
  assert.deepEqual([code, first(out)], [1, 'refused 19 at 0']);
  assert.match(out, /'krossvil watch' checks a journal of any length/);
  assert.match((await ask(['check', 'table.bin', 'long.bin', '--json'], files)).lines[0].says[1], /krossvil watch/);
});

/** What is wrong far behind the first 65,536 bytes, and what is said of it. */
const FAR = testAt(6000);
const WRONG = [
  ['a verdict', changed(LONG, FAR, 0), 28, FAR, /The test at 12,002 says held, but state 'idle' has no hold/],
  ['a polled input', changed(LONG, FAR - 8, 1), 28, FAR - 8,
    /The poll at 12,001 says that it saw 'train', but from the beginning on the input is 'no_train'/],
  ['a state', changed(LONG, FAR + 8, 1), 28, FAR + 8, /from 'idle' the polled input 'no_train' leads to 'idle'/],
  ['an input', changed(LONG, FAR - 8, 7), 23, FAR - 8, /The poll at 12,001 names input 7/],
  ['a record is missing', Buffer.concat([LONG.subarray(0, FAR), LONG.subarray(FAR + 8)]), 26, FAR, /The tick at 12,002 comes out of turn/],
  ['a cycle is missing', Buffer.concat([LONG.subarray(0, FAR - 8), LONG.subarray(FAR + 40)]), 25, FAR - 8, /the cycle began at 12,000/],
  ['a cycle comes again', Buffer.concat([LONG.subarray(0, FAR - 8), LONG.subarray(FAR - 32)]), 24, FAR - 8,
    /The poll at 11,999 stands after the tick at 12,000, which is later/],
  ['a tag', Buffer.from(LONG).fill(0x15, FAR, FAR + 1), 21, FAR, /The field at byte 144,012 has tag 15, which no field of a journal has/],
  ['it is cut in a field', LONG.subarray(0, FAR + 3), 20, FAR, /the one that starts at byte 144,012, 3 bytes.*ended with the tick at 12,000/],
  ['it is cut behind one', LONG.subarray(0, FAR), 20, FAR, /stops after byte 144,011 without an end field/],
  ['it opens again', Buffer.concat([LONG.subarray(0, FAR), LONG]), 22, FAR, /A second opening stands at byte 144,012/],
  ['more follows', Buffer.concat([LONG, LONG]), 22, LONG.length, /The journal ends before byte 192,011, but more follows/],
  ['one byte follows', Buffer.concat([LONG, Buffer.from([0])]), 22, LONG.length, /but more follows/],
];

test(`what is wrong is said with its place in all bytes: ${WRONG.length} journals`, async () => {
  for (const [what, bytes, number, place, says] of WRONG) {
    for (const pieceLength of [7, 8, 65536]) {
      const { code, lines: [told] } = await ask(['watch', 'classroom.kv', 'far.bin', '--json'], { ...SAMPLES, 'far.bin': bytes }, { pieceLength });
      assert.deepEqual([what, code, told.answer, told.number, told.place], [what, 1, 'refused', number, place]);
      assert.match(told.says.join(' '), says, what);
    }
  }
});

/** Journals whose sentences name what was long before the refused record. */
const LOOKING_BACK = [
  ['the poll', 'input train; 1 poll train; 2 change no_train; 2 test free; 3 tick idle; 3 end', /it came at 2, and the poll was at 1\. What/],
  ['the input before', 'input train; 1 change no_train; 2 change no_train; 3 poll train; 3 end', /Input 'train' was over at 1: what/],
  ['the tick', 'input train; 1 poll train; 1 test free; 2 tick busy; 3 poll train; 4 change train', /ended with the tick at 2\./],
];

test('sentences that look back are those of check', async () => {
  const [head] = sample('classroom').split('\nkrossvil ');
  for (const [what, lines, says] of LOOKING_BACK) {
    const { parts: [, { bytes }] } = readText(`${head}\nkrossvil journal\n${lines.replaceAll('; ', '\n')}\n`);
    const files = { ...SAMPLES, j: bytes };
    const watched = await ask(['watch', 'classroom.kv', 'j', '--json'], files, { pieceLength: 5 });
    const checked = await ask(['check', 'classroom.kv', 'j', '--json'], files);
    assert.deepEqual(watched.lines, checked.lines.map(withoutSlip));
    assert.match(watched.lines[0].says.join(' '), says, what);
  }
});

test('damaged journals: 1,500 of them have the answer of the check of the whole, and its sentences', async () => {
  const chance = new Chance(17);
  const numbers = new Set();
  for (let k = 0; k < 1500; k++) {
    const t = chance.percent(30) ? encodeTable(drawTable(chance, chance.percent(50) ? 'holds' : 'timers')) : TABLE;
    const j = perhapsDamaged(chance, chance.percent(80) ? JOURNAL : LONG.subarray(0, 4 + 8 * chance.below(40)));
    const { lines: [watched] } = await ask(['watch', 't', 'j', '--json'], { t, j }, { pieceLength: 1 + chance.below(40) });
    const { lines: [checked] } = await ask(['check', 't', 'j', '--as', 'journal', '--json'], { t, j });
    const counted = JSON.stringify(withoutSlip(checked)).replace(/but [0-9]+ bytes? follows?\./, 'but more follows.');
    assert.deepEqual(withoutSlip(watched), JSON.parse(counted));
    numbers.add(watched.number ?? 0);
  }
  assert.ok([0, 20, 21, 22, 23, 24, 26, 28].every((number) => numbers.has(number)), [...numbers].join(' '));
});

test('texts, and what cannot be asked', async () => {
  const files = { ...SAMPLES, 'table.bin': TABLE, 'journal.bin': JOURNAL, empty: new Uint8Array(),
    mixed: Buffer.concat([Buffer.from('words, and behind them none: '), Buffer.alloc(31)]),
    'picture.png': Buffer.from('\x89PNG\r\n\x1a\n\0\0\0\rIHDR', 'latin1') };
  const cases = [
    [['watch', 'table.bin', 'classroom.kv'], 0, /^accepted end=12/], [['watch', 'table.bin', '-'], 0, /^accepted end=12/],
    [['watch', 'table.bin', 'empty'], 1, /^refused 20 at 0\n {2}The journal is empty/],
    [['watch', 'old-table.kv', 'journal.bin'], 1, /^refused 11 at 40/],
    [['watch', 'table.bin', 'classroom.kv', '--follow'], 2, /this is a text, and only bytes can be followed/],
    [['watch', 'table.bin', 'picture.png'], 1, /The file looks like a PNG picture/],
    [['watch', 'table.bin', 'mixed'], 1, /^refused 20 at 0\n.* 60 bytes are there\.\n$/],
    [['watch', 'classroom.kv', '--follow'], 2, /--follow needs the journal's own file/],
    [['watch', '-', '-'], 2, /the standard input can be read once only/], [['watch', 'table.bin', 'none.bin'], 2, /none\.bin: no such file/],
    [['watch', 'table.bin'], 2, /these are bytes; name a journal too/], [['watch', 'short-journal.kv'], 2, /there is no journal in this text/],
  ];
  for (const [args, code, says] of cases) {
    const input = args[1] === '-' ? TABLE : sample('classroom');
    const got = await ask(args, { ...files, '-': input }, { pieceLength: 5 });
    assert.equal(got.code, code, args.join(' '));
    assert.match(got.out + got.err, says);
  }
});

/** A folder with a table, in which something is done. */
async function inFolder(act) {
  const folder = mkdtempSync(join(tmpdir(), 'krossvil-watch-'));
  try {
    writeFileSync(join(folder, 'table.bin'), TABLE);
    await act((name) => join(folder, name));
  } finally {
    rmSync(folder, { recursive: true });
  }
}

/** The command, started: what it has said, and its exit code when it ends. */
function started(args) {
  const child = start(COMMAND, args);
  const said = { out: '', err: '' };
  child.stdout.on('data', (data) => { said.out += data; });
  child.stderr.on('data', (data) => { said.err += data; });
  child.stdin.on('error', () => {});
  return { child, said, end: new Promise((resolve) => { child.on('close', resolve); }) };
}

/** Until a program has read so many bytes of a file, however long it takes to start: the system knows where it stands in each open file. */
async function untilRead({ pid }, file, length) {
  const stands = (/** @type {string} */ open) => {
    try {
      return readlinkSync(`/proc/${pid}/fd/${open}`) === realpathSync(file)
        && readFileSync(`/proc/${pid}/fdinfo/${open}`, 'utf8').startsWith(`pos:\t${length}\n`);
    } catch {
      return false; // closed meanwhile
    }
  };
  for (let k = 0; k < 600 && !readdirSync(`/proc/${pid}/fd`).some(stands); k++) await sleep(50);
}

test('from a pipe: accepted when it is closed, and refused at once while it is open', () => inFolder(async (path) => {
  assert.match(spawn(['watch', path('table.bin'), '-', '--plain'], { input: LONG }).out, /^accepted end=16000 cycles=8000 /);
  const { child, said, end } = started(['watch', path('table.bin'), '-', '--plain']);
  child.stdin.write(changed(JOURNAL, 76, 1).subarray(0, 84));
  assert.deepEqual([await end, said.out], [1, 'refused 28 at 76\n']);
}));

test('a file that grows is followed to its end record', () => inFolder(async (path) => {
  const journal = path('journal.bin');
  writeFileSync(journal, '');
  const { said, end } = started(['watch', path('table.bin'), journal, '--follow', '--plain']);
  for (let at = 0; at < JOURNAL.length; at += 41) {
    await sleep(150);
    assert.equal(said.out, '');
    appendFileSync(journal, JOURNAL.subarray(at, at + 41));
  }
  assert.deepEqual([await end, said.out, said.err], [0, 'accepted end=12 cycles=4 moves=2 state=0 output=0 left=4 longest=3\n', '']);
}));

test('a file that grows is refused while it grows; one that becomes shorter cannot be followed', () => inFolder(async (path) => {
  const journal = path('journal.bin');
  writeFileSync(journal, JOURNAL.subarray(0, 50));
  const growing = started(['watch', path('table.bin'), journal, '--follow', '--plain']);
  await sleep(400);
  assert.equal(growing.child.exitCode, null);
  appendFileSync(journal, changed(JOURNAL, 76, 1).subarray(50, 84));
  assert.deepEqual([await growing.end, growing.said.out], [1, 'refused 28 at 76\n']);
  writeFileSync(journal, JOURNAL.subarray(0, 50));
  const shorter = started(['watch', path('table.bin'), journal, '--follow']);
  await untilRead(shorter.child, journal, 50);
  truncateSync(journal, 20);
  assert.equal(await shorter.end, 2);
  assert.match(shorter.said.err, /journal\.bin: it has become shorter while it was followed/);
}));
