import assert from 'node:assert/strict';
import { test } from 'node:test';
import { EXAMPLES } from '../examples.js';
import { encodeTable } from '../fields.js';
import { isText, originAt, readText, recordsText, showMistakes, tableText } from '../notation.js';
import { Chance } from './chance.js';
import { library, sameBytes, sample } from './core.js';
import { drawRun, perhapsDamaged } from './draw.js';

const ROUNDS = 2500;
const CLASSROOM_TABLE = sample('classroom').split('\nkrossvil ')[0];
const FORMS = ['journal', 'stamped', 'short', 'stimulus'];

/** Bytes, their text, and back. */
function comesBack(bytes, kind, names) {
  const text = kind === 'table' ? tableText(bytes, names) : recordsText(bytes, kind, names);
  const read = readText(text, names);
  assert.deepEqual(read.mistakes, [], text);
  assert.ok(isText(text));
  assert.equal(read.parts.length, 1);
  assert.equal(read.parts[0].kind, kind);
  assert.ok(sameBytes(read.parts[0].bytes, bytes), text);
}

test(`any bytes come back from their text: ${ROUNDS} in each of five forms`, () => {
  for (let round = 0; round < ROUNDS; round++) {
    const chance = new Chance(round);
    const run = drawRun(chance, library);
    comesBack(perhapsDamaged(chance, run.bytes), 'table', chance.percent(50) ? run.table.names : null);
    for (const form of FORMS) comesBack(perhapsDamaged(chance, run[form]), form, chance.percent(50) ? run.table.names : null);
  }
});

test('bytes of one form come back from the text of another', () => {
  for (let round = 0; round < 500; round++) {
    const chance = new Chance(round);
    const run = drawRun(chance, library);
    const bytes = chance.pick([run.bytes, run.journal, run.stamped, run.short, run.stimulus, new Uint8Array()]);
    for (const kind of ['table', ...FORMS]) comesBack(bytes, kind, null);
  }
});

test('long and broken bytes come back', () => {
  for (const kind of ['table', ...FORMS]) {
    for (const length of [0, 1, 2, 3, 65535, 65537, 100000]) comesBack(new Chance(length).bytes(length), kind, null);
    comesBack(new Uint8Array(70000).fill(0x11), kind, null);
  }
});

test('the largest table that has its six fields comes back, with long names and without', () => {
  const chance = new Chance(1);
  const each = (count, draw) => Array.from({ length: count }, draw);
  const bytes = encodeTable({
    kind: 'timers', counts: { states: 255, inputs: 255, outputs: 255 }, start: 255, cycle: 0xffffffff, rest: chance.bytes(9),
    outputs: each(255, () => 255), next: each(255, () => each(255, () => chance.below(256))), holds: [], delayed: [],
    timers: each(64, () => ({ length: 0xffffffff, region: 0xffffffff, delays: each(255, () => 0xffffffff) })), names: null,
  });
  const long = (letter, count) => each(count, (_, k) => `${letter}${k}`.padEnd(64, 'é'));
  comesBack(bytes, 'table', null);
  comesBack(bytes, 'table', { states: long('q', 255), inputs: long('i', 255), outputs: long('o', 255), timers: long('t', 64) });
});

test('a name may be a keyword, have spaces, quotation marks of other kinds, or markup', () => {
  const strange = ['state', 'bytes', 'krossvil', 'a b', '<script>', "it's", '&amp;', '#1', '->', 'ü', '列車', '--', '0', '12', '-', '$(x)',
    '`', '\\', ',', 'held'];
  const run = drawRun(new Chance(1), library);
  for (let round = 0; round < 300; round++) {
    const chance = new Chance(round);
    const timers = ['output', 'hold', 'timer', 'cycle'];
    const names = { states: [...strange], inputs: [...strange].reverse(), outputs: [...strange], timers };
    const table = { ...run.table, ...tableOf(chance, strange.length), names };
    const bytes = encodeTable(table);
    comesBack(bytes, 'table', names);
    const read = readText(tableText(bytes, names));
    assert.deepEqual(read.names, { ...names, timers: names.timers.slice(0, table.timers.length) });
    comesBack(Uint8Array.of(0x10, 0, 1, chance.below(30), 0x14, 0, 5, 0, 0, 0, 9, chance.below(30)), 'journal', names);
  }
});

/** A table with so many of everything. */
function tableOf(chance, count) {
  const each = (draw) => Array.from({ length: count }, draw);
  return {
    kind: 'timers', counts: { states: count, inputs: count, outputs: count }, start: chance.below(count), cycle: 5, rest: new Uint8Array(),
    outputs: each(() => chance.below(count)), next: each(() => each(() => chance.below(count))), holds: [], delayed: [],
    timers: Array.from({ length: 4 }, () => ({ length: 3, region: chance.draw(), delays: each(() => chance.draw()) })),
  };
}

test('names that cannot stand in a text are not written', () => {
  const bytes = readText(sample('classroom')).parts[0].bytes;
  for (const bad of ['', ' a', 'a\n', 'a"b', 'a\u202eb', 'a\u200bb', 'x'.repeat(65), 'e\u0301']) {
    const names = { states: [bad, 'busy'], inputs: ['a', 'b'], outputs: ['N', 'T'], timers: [] };
    comesBack(bytes, 'table', names);
    assert.ok(tableText(bytes, names).includes('state q0'), JSON.stringify(bad));
  }
  assert.ok(tableText(bytes, { states: ['a', 'a'], inputs: ['a', 'b'], outputs: ['N', 'T'], timers: [] }).includes('state q0'));
});

const HIDDEN = [...'\u0000\u0007\u001b\u007f\u0085\u00ad\u061c\u200b\u200e\u2028\u202a\u202e\u2066\u2069\ufeff\ue000'];
const UNPRINTED = /[\u0000-\u0009\u000b-\u001f\u007f-\u009f\u202a-\u202e\u2066-\u2069]/;

test('control and bidi characters are refused wherever they stand, and are not printed', () => {
  for (const hidden of HIDDEN) {
    const places = [['state idle', `state "id${hidden}le"`], ['state idle', `state id${hidden}le`], ['inputs  no_train', `inputs  "${hidden}"`],
      ['# E:', `# ${hidden}`]];
    for (const [from, to] of places) {
      const read = readText(sample('classroom').replace(from, to));
      assert.equal(read.mistakes.length, 1, JSON.stringify([to, read.mistakes]));
      assert.match(read.mistakes[0].says, /cannot be seen/);
      assert.ok(read.parts.every(({ kind }) => kind !== 'table'));
      assert.ok(!UNPRINTED.test(showMistakes(read)));
    }
  }
});

/** A change to the classroom's text, and the one mistake that it makes: line, column, what is said. */
const MISTAKES = [
  ['1  change train\n 2  poll   train', '1  change tarin\n 2  poll   train', 38, 12, "there is no input 'tarin'; did you mean 'train'?"],
  ['state busy', 'state buzy', 10, 17, "there is no state 'busy'; did you mean 'buzy'?"],
  ['inputs  no_train, train', 'inputs  no_train train', 3, 18, 'inputs are written with a comma between them'],
  ['inputs  no_train, train', 'inputs  no_train,', 3, 17, 'nothing follows this comma'],
  ['inputs  no_train, train', 'inputs  train, train', 3, 16, "'train' stands twice"],
  ['inputs  no_train, train', 'inputs  no_train, 2nd', 3, 19, 'a name begins with a letter, or stands in quotation marks: "2nd"'],
  ['cycle   3', 'cylce   3', 2, 1, "'cylce' is not understood here; did you mean 'cycle'?"],
  ['cycle   3', 'cycle   -3', 2, 9, "the cycle bound is a whole number, not '-3'"],
  ['cycle   3', 'cycle   4294967296', 2, 9, 'the cycle bound of 4294967296 does not fit in its bytes: at most 4294967295'],
  ['cycle   3  ', 'cycle   3 4', 2, 11, "'4' is a word too many"],
  ['cycle   3', 'cycle', 2, 6, 'the cycle bound is missing'],
  ['start   idle', 'start   T', 5, 9, "there is no state 'T'; 'T' is an output"],
  ['start   idle\n', '', 1, 10, "the table does not say its 'start'"],
  ['state idle\n', 'state\n', 7, 6, "the state's name is missing"],
  ['state busy', 'state idle', 12, 7, "a second state 'idle'"],
  ['    output T\n', '', 12, 7, "state 'busy' does not say its output"],
  ['    output T\n', '    output T\n    output N\n', 14, 5, "a second 'output' for one state"],
  ['hold 5 delays', 'hold 5 delay', 14, 12, "after the hold comes 'delays' and the inputs that it delays"],
  ['hold 5 delays', 'hold five delays', 14, 10, "a hold is a whole number, not 'five'"],
  ['hold 5 delays no_train', 'hold 5 delays busy', 14, 19, "there is no input 'busy'; 'busy' is a state"],
  ['    train    -> busy\n\nkrossvil', '\nkrossvil', 12, 7, "state 'busy' has no arrow for input train; if it stays, write: train -> busy"],
  ['    train    -> busy\n\nkrossvil', '    train    -> busy\n    train -> idle\n\nkrossvil', 17, 5,
    "a second arrow for input 'train' in state 'busy'"],
  ['    train    -> busy\n\nkrossvil', '    train    => busy\n\nkrossvil', 16, 14, 'an arrow is written ->'],
  ['    train    -> busy\n\nkrossvil', '    train    ->\n\nkrossvil', 16, 14, 'an arrow is written: input -> state'],
  ['state idle\n    output N', '    output N', 7, 5, "'output' belongs under a state"],
  ['krossvil journal', 'krossvil jornal', 36, 10,
    "after 'krossvil' comes table, stimulus, journal, stamped journal, short journal or exercise; did you mean 'journal'?"],
  ['krossvil journal', 'krossvil stimulus', 36, 10, 'a second stimulus in one text'],
  ['krossvil table', 'table', 1, 1, 'a text begins with the word krossvil and what follows, as in: krossvil table'],
  [' 2  test   free ', ' 2  test   fre ', 40, 12, "there is no verdict 'fre'; did you mean 'free'?"],
  [' 2  poll   train', 'poll 2 train', 39, 1, 'the time comes first: 2 poll'],
  [' 2  poll   train', ' 2  pol    train', 39, 5, "after the time comes change, poll, test, tick or end; did you mean 'poll'?"],
  [' 2  poll   train', ' 2', 39, 3, 'after the time comes change, poll, test, tick or end'],
  [' 2  poll   train', '+2  poll   train', 39, 1, 'this is a gap; a journal of gaps begins with: krossvil short journal'],
  [' 2  poll   train', ' 2  poll   train now', 39, 18, "'now' is a word too many"],
  [' 3  tick   busy ', ' 3  tick        ', 41, 9, 'the tick at 3 does not say the state afterwards'],
  [' 3  tick   busy ', ' 3  tick   train', 41, 12, "there is no state 'train'; 'train' is an input"],
  [' 2  poll\n', ' 2  poll train\n', 21, 10, 'a poll in a stimulus has a time only; the runtime finds the rest'],
  ['12  end\n\n', '12  end 5\n\n', 34, 9, "'5' is a word too many"],
  [' 2  test   free ', ' 2  test   “free” ', 40, 12, 'a name stands in straight quotation marks: "so"'],
  ['state busy', 'state "busy', 12, 7, 'the quotation mark that ends this name is missing'],
  ['input no_train\n 1  change train\n 2  poll   ', 'bytes 1\n 1  change train\n 2  poll   ', 37, 7,
    'bytes are pairs of hexadecimal digits, as in: bytes 13 00 05'],
  [' 2  poll   train', '4294967296 poll train', 39, 1, 'a time of 4294967296 does not fit in its bytes: at most 4294967295'],
  ['cycle   3', 'cycle   3\ntimer   t 5 over busy', 15, 5, 'a table with timers has no holds: give the state a timer of its own'],
];

test(`a mistake has its line, its column and the likely word, and no others beside it: ${MISTAKES.length}`, () => {
  for (const [from, to, line, column, says] of MISTAKES) {
    const text = sample('classroom').replace(from, to);
    assert.notEqual(text, sample('classroom'), from);
    const { mistakes } = readText(text);
    assert.deepEqual(mistakes.map((each) => [each.line, each.column, each.says]), [[line, column, says]], to);
  }
});

test('timers: a dash is no state, and mistakes are found', () => {
  const text = sample('gas-burner');
  const tries = [
    ['vent   12 over idle, purge', 'vent   12 over -', null],
    ['vent   12 over idle, purge', 'vent   12', /after the length comes 'over'/],
    ['vent   12 over idle, purge', 'vent   12 over', /after the length comes 'over'/],
    ['vent   12 over idle, purge', 'vent   12 over idel', /no state 'idel'; did you mean 'idle'/],
    ['vent delays heat', 'vnet delays heat', /no timer 'vnet'; did you mean 'vent'/],
    ['vent delays heat', 'vent delay heat', /'delay' is not understood here; did you mean 'delays'/],
    ['vent delays heat', 'vent delays', /after 'delays' come the inputs/],
    ['timer   settle', 'timer   vent', /a second timer 'vent'/],
  ];
  for (const [from, to, says] of tries) {
    const { mistakes } = readText(text.replace(from, to));
    assert.equal(mistakes.length, says ? 1 : 0, JSON.stringify([to, mistakes]));
    if (says) assert.match(mistakes[0].says, says);
  }
});

test('a short journal is written with gaps', () => {
  const { mistakes } = readText(sample('short-journal').replace('+1  poll   train ', ' 2  poll   train '));
  assert.equal(mistakes.length, 1);
  assert.match(mistakes[0].says, /gaps in the place of times, written with a plus sign: \+2/);
});

test('names without a table are one mistake', () => {
  const journal = sample('classroom').split('\n\n').at(-1);
  assert.equal(readText(journal).mistakes.length, 1);
  assert.match(readText(journal).mistakes[0].says, /no table's text to take names from/);
  assert.deepEqual(readText(journal, readText(sample('classroom')).names).mistakes, []);
});

test('the members of a table of bytes have plain names', () => {
  const bytes = '01 00 04 02 02 02 00 02 00 04 00 00 00 03 03 00 02 00 01 04 00 04 00 01 00 01 '
    + '05 00 08 00 00 00 00 00 00 00 05 06 00 08 00 00 00 00 00 00 00 01';
  const { mistakes, parts, names } = readText(`krossvil table\nbytes ${bytes}\nkrossvil journal\ninput i0\n1 tick q1\n`);
  assert.deepEqual([mistakes, parts.length, names.states], [[], 2, ['q0', 'q1']]);
});

test('every sample is a sound text', () => {
  for (const { name } of EXAMPLES) assert.deepEqual(readText(sample(name)).mistakes, [], name);
});

test('a text may come as bytes, with a byte order mark and any line ends; other bytes are named by their line', () => {
  const text = sample('classroom');
  const expected = readText(text).parts;
  for (const other of [`\ufeff${text}`, text.replaceAll('\n', '\r\n'), text.replaceAll('\n', '\r')]) {
    assert.ok(isText(other));
    assert.deepEqual(readText(new TextEncoder().encode(other)).parts, expected);
    assert.deepEqual(readText(other).parts, expected);
  }
  const broken = new TextEncoder().encode(text);
  broken[text.indexOf('outputs')] = 0xff;
  assert.deepEqual(readText(broken).mistakes.map(({ line }) => line), [4]);
  assert.equal(readText('krossvil table\n' + ' '.repeat(6000001)).mistakes.length, 1);
  assert.equal(readText('').mistakes.length, 1);
  for (const none of ['', 'krossvilx', ' krossvil table', '\u0010\u0000\u0001', 'table']) assert.ok(!isText(none), none);
});

test('texts damaged by chance: no exception, and what is read comes back', () => {
  const pool = EXAMPLES.map(({ name }) => sample(name));
  const pieces = ['krossvil', '->', '"', ',', '#', '+', '-', '\n', ' ', '\t', '\u202e', '65536', '4294967296', 'state', 'hold', 'delays',
    'bytes ff', 'timer', 'over', 'é', '\ud800'];
  for (let round = 0; round < 4000; round++) {
    const chance = new Chance(round);
    let text = chance.pick(pool);
    for (let count = chance.between(1, 4); count > 0; count--) {
      const at = chance.below(text.length);
      const put = chance.percent(60) ? chance.pick(pieces) : '';
      text = text.slice(0, at) + put + text.slice(at + chance.below(chance.percent(80) ? 3 : 60));
    }
    const read = readText(text);
    for (const { line, column, says } of read.mistakes) assert.ok(line >= 1 && line <= read.lines.length && column >= 1 && says.length > 0);
    assert.equal(new Set(read.mistakes.map(({ line, column, says }) => `${line}:${column}:${says}`)).size, read.mistakes.length);
    for (const part of read.parts) comesBack(part.bytes, part.kind, read.names);
    showMistakes(read);
  }
});

/** Texts that are long, or have many mistakes. */
const HUGE = {
  'one line of bytes': `krossvil journal\nbytes ${'11 '.repeat(300000)}`,
  'many lines of bytes': `krossvil table\n${'bytes 11\n'.repeat(100000)}`,
  'many records': `krossvil journal\ninput 0\n${'1 change 0\n'.repeat(50000)}`,
  'many names': `krossvil table\ninputs ${Array.from({ length: 100000 }, (_, k) => `i${k}`).join(', ')}\n`,
  'many states': `krossvil table\n${Array.from({ length: 60000 }, (_, k) => `state q${k}\n`).join('')}`,
  'many unknown names': `${CLASSROOM_TABLE}\nkrossvil journal\n${Array.from({ length: 50000 }, (_, k) => `1 tick q${k}q\n`).join('')}`,
  'many parts': 'krossvil journal\n'.repeat(200000),
  'many lines that are not understood': `krossvil table\n${'cylce 3\n'.repeat(100000)}`,
  'spaces': `krossvil table\n${' '.repeat(3900000)}`,
  'a long word': `krossvil table\n${'x'.repeat(3900000)}`,
  'quotation marks': `krossvil table\n${'"'.repeat(900001)}`,
};

test('a huge text is read, or has its mistakes, in a moment', () => {
  for (const [name, text] of Object.entries(HUGE)) {
    const from = Date.now();
    const read = readText(text);
    assert.ok(Date.now() - from < 20000, `${name} took ${Date.now() - from} ms`);
    assert.ok(read.mistakes.length <= 100 && showMistakes(read).length < 10000, name);
    assert.equal(read.parts.length > 0, /^(one line|many lines of bytes|many records|many parts|many unknown)/.test(name), name);
  }
});

test('every byte of a part came from somewhere in its text', () => {
  for (const { name } of EXAMPLES) {
    const { parts, lines } = readText(sample(name));
    for (const part of parts) {
      for (let place = 0; place <= part.bytes.length; place++) {
        const origin = originAt(part, place);
        assert.ok(origin && lines[origin.line - 1].length >= origin.column - 1 + origin.width, `${name} ${place}`);
      }
    }
  }
  const { parts, lines } = readText(sample('classroom'));
  const piece = (part, place) => {
    const { line, column, width } = originAt(part, place);
    return [line, lines[line - 1].slice(column - 1, column - 1 + width)];
  };
  assert.deepEqual([6, 10, 17, 18, 23, 24, 33, 44].map((place) => piece(parts[0], place)),
    [[5, 'idle'], [2, '3'], [8, 'N'], [13, 'T'], [10, 'busy'], [15, 'idle'], [14, '5'], [14, 'no_train']]);
  assert.deepEqual([0, 3, 76, 79, 83].map((place) => piece(parts[2], place)),
    [[37, 'input no_train'], [37, 'no_train'], [47, '8  test   held'], [47, '8'], [47, 'held']]);
});
