import assert from 'node:assert/strict';
import { readFileSync } from 'node:fs';
import { test } from 'node:test';
import { encodeTable } from '../fields.js';
import { BYTES_READ, newMemory, newReport, readReport } from '../library.js';
import { readText } from '../notation.js';
import { wholeSet } from '../sets.js';
import { Chance } from './chance.js';
import { library, sameBytes, sample } from './core.js';
import { drawTable, perhapsDamaged } from './draw.js';

const file = (name) => new Uint8Array(readFileSync(new URL(`../../examples/${name}`, import.meta.url)));
const header = readFileSync(new URL('../../include/krossvil.h', import.meta.url), 'utf8');
const table = file('classroom/table.bin');
const journal = file('classroom/journal.bin');

/** The names of the functions that are called, from here on. */
const called = new Set();
library.module.exports = new Proxy(library.module.exports, {
  get(exports, name) {
    called.add(name);
    return exports[name];
  },
});

/** The numbers of a module's sections; 0 has one with a name: of functions, of who made it, of a build. */
function sectionsOf(wasm) {
  const numbers = [];
  for (let at = 8; at < wasm.length;) {
    numbers.push(wasm[at++]);
    let length = 0;
    for (let shift = 1, more = true; more; shift *= 128) {
      length += (wasm[at] & 127) * shift;
      more = wasm[at++] > 127;
    }
    at += length;
  }
  return numbers;
}

test('the module has only what runs: nothing in it names who made it, or where', () => {
  const wasm = readFileSync(new URL('../../target/kit/krossvil.wasm', import.meta.url));
  assert.ok([1, 3, 5, 7, 10].every((number) => sectionsOf(wasm).includes(number)));
  assert.ok(!sectionsOf(wasm).includes(0));
  assert.equal(sectionsOf(Buffer.concat([wasm, Buffer.from('\0\x05\x04name')])).at(-1), 0);
});

test('the classroom, through every function', () => {
  assert.deepEqual(library.checkTable(table), { ok: true });
  const numbers = { ok: true, end: 12, cycles: 4, moves: 2, state: 0, output: 0, left: 4, longest: 3 };
  assert.deepEqual(library.checkJournal(table, journal), numbers);
  assert.deepEqual(library.checkJournal(table, file('changed-verdict/journal.bin')), { ok: false, number: 28, place: 76 });
  assert.deepEqual(library.run(table, file('classroom/stimulus.bin')), { ok: true, bytes: journal });
  assert.deepEqual(library.reaction(table, 3, 1), { ok: true, time: 14, target: 1 });
  assert.deepEqual(library.reaction(table, 3, 2), { ok: true, time: 6, target: 2 });
  assert.deepEqual(library.reaction(table, 2, 1), { ok: false, number: 10, place: 2 });
  assert.deepEqual(library.reaction(table, 0xffffffff, 1), { ok: false, number: 9, place: 0 });
  assert.deepEqual(library.readStamped(file('short-clock/stamped.bin')), { ok: true, bytes: file('short-clock/journal.bin') });
  const short = file('short-journal/short.bin');
  assert.deepEqual(library.shorten(table, journal), { ok: true, bytes: short });
  assert.deepEqual(library.lengthen(table, short), { ok: true, bytes: journal });
  assert.deepEqual(library.checkShort(table, short), numbers);
  assert.deepEqual(library.salvage(table, file('torn-journal/torn.bin')),
    { ok: true, kept: 92, dropped: 21, number: 20, place: 108, bytes: file('torn-journal/salvaged.bin') });
  assert.deepEqual(library.salvage(table, journal), { ok: true, kept: 123, dropped: 0, number: 0, place: 0, bytes: journal });
  assert.deepEqual(library.convertTable(file('idle-sets/old-table.bin')), { ok: true, changed: 1, bytes: file('idle-sets/table.bin') });
  assert.deepEqual(library.convertTable(file('gas-burner/table.bin')), { ok: false, number: 2, place: 36 });
});

test('a season of journals', () => {
  const report = newReport();
  for (const name of ['early', 'late']) assert.deepEqual(library.reportAdd(table, file(`season/${name}.bin`), report), { ok: true });
  assert.deepEqual(library.reportAdd(table, file('season/torn.bin'), report), { ok: false, number: 20, place: 108 });
  const expected = { journals: 2, dwell: [7, 15], pairs: [[2, 5], [12, 3]], entries: [4, 3] };
  assert.deepEqual(readReport(report, 2, 2), expected);
  const longer = new BigUint64Array(3000).fill(7n);
  longer[0] = 0n;
  assert.deepEqual(library.reportAdd(table, journal, longer), { ok: true });
  assert.ok(longer.subarray(9).every((number) => number === 7n));
  assert.equal(longer[1], 11n);
});

/** The fields of bytes in which each is whole. */
function fieldsOf(bytes) {
  const fields = [];
  for (let at = 0; at < bytes.length; at += fields.at(-1).length) fields.push(bytes.subarray(at, at + 3 + bytes[at + 2]));
  return fields;
}

test('one event and one record at a time: the journal and the numbers are those of the whole, and both have the same memory', () => {
  for (const name of ['classroom', 'gas-burner']) {
    const [bytes, stimulus] = [file(`${name}/table.bin`), file(`${name}/stimulus.bin`)];
    const [ran, watched] = [newMemory(), newMemory()];
    const written = [];
    let last = null;
    for (const event of fieldsOf(stimulus)) {
      const lived = library.live(bytes, ran, event);
      assert.ok(lived.ok);
      last = library.watch(bytes, watched, lived.bytes);
      assert.deepEqual(watched, ran);
      assert.deepEqual([lived.state, lived.output], [last.state, last.output]);
      written.push(...lived.bytes);
    }
    assert.deepEqual(Uint8Array.from(written), library.run(bytes, stimulus).bytes);
    assert.deepEqual(last, library.checkJournal(bytes, Uint8Array.from(written)));
    assert.deepEqual(library.live(bytes, ran, stimulus.subarray(0, 4)), { ok: false, number: 22, place: 0 });
  }
});

test('what a live run answers; a refusal leaves its memory, and numbers behind it are not touched', () => {
  const memory = new Uint32Array(19).fill(7, 17);
  const events = fieldsOf(file('classroom/stimulus.bin'));
  const answers = events.slice(0, 4).map((event) => library.live(table, memory, event));
  const [opening, , , free] = answers;
  assert.deepEqual(opening, { ok: true, state: 0, output: 0, phase: 0, left: 0, deadline: 3, bytes: journal.slice(0, 4) });
  assert.deepEqual(free, { ok: true, state: 0, output: 0, phase: 3, left: 0, deadline: 3, bytes: journal.slice(20, 28) });
  assert.deepEqual([...memory.subarray(17)], [7, 7]);
  const kept = memory.slice();
  assert.deepEqual(library.live(table, memory, events[3]), { ok: false, number: 26, place: 0 });
  assert.deepEqual(library.watch(table, memory, journal.subarray(28)), { ok: false, number: 22, place: 8 });
  assert.deepEqual(library.watch(table, memory.subarray(0, 16), journal.subarray(28, 36)), { ok: false, number: 30, place: 0 });
  assert.deepEqual(memory, kept);
  const claiming = new Uint8Array(65538).fill(0xff);
  assert.deepEqual(library.watch(table, memory, claiming), { ok: false, number: 21, place: 0 });
  assert.deepEqual(library.watch(table, memory, claiming.subarray(1)), { ok: false, number: 20, place: 0 });
  memory[4] = 2;
  assert.deepEqual(library.live(table, memory, events[4]), { ok: false, number: 36, place: 4 });
});

test('reaction over several moves', () => {
  assert.deepEqual(library.reactionMoves(table, 3, 1, 0), { ok: true, time: 3, target: 3, sums: [], path: [] });
  assert.deepEqual(library.reactionMoves(table, 3, 1, 1), { ok: true, time: 14, target: 1, sums: [[0, 11]], path: [1] });
  assert.deepEqual(library.reactionMoves(table, 3, 2, 2), { ok: true, time: 6, target: 2, sums: [[3, 0], [3, 0]], path: [0] });
  assert.deepEqual(library.reactionMoves(table, 3, 1, 32), { ok: true, time: 14, target: 1, sums: Array(32).fill([0, 11]), path: [1] });
  const watchdog = readText(sample('watchdog')).parts[0].bytes;
  assert.deepEqual(library.reactionMoves(watchdog, 7, 2, 2),
    { ok: true, time: 17, target: 4, sums: [[2, 13, 0], [15, 13, 0]], path: [0, 1, 1] });
  for (const moves of [33, 2 ** 32 - 1, 2 ** 32, 2 ** 40]) {
    assert.deepEqual(library.reactionMoves(table, 3, 1, moves), { ok: false, number: 32, place: 0 });
  }
  assert.deepEqual(library.reactionMoves(table, 2, 1, 0), { ok: false, number: 10, place: 2 });
  assert.deepEqual(library.reactionMoves(table, 0xffffffff, 1, 33), { ok: false, number: 9, place: 0 });
  assert.deepEqual(library.reactionMoves(file('gas-burner/table.bin'), 1, 1, 2), { ok: false, number: 14, place: 0 });
});

test('the tight time', () => {
  assert.deepEqual(library.reactionTight(table, 3, 1), { ok: true, time: 14, target: 1, tight: 12 });
  assert.deepEqual(library.reactionTight(table, 3, 2), { ok: true, time: 6, target: 2, tight: 5 });
  assert.deepEqual(library.reactionTight(table, 3, 3), { ok: true, time: 3, target: 3, tight: 3 });
  assert.deepEqual(library.reactionTight(table, 2, 1), { ok: false, number: 10, place: 2 });
  assert.deepEqual(library.reactionTight(table, 3, 4), { ok: false, number: 9, place: 1 });
});

test('the tight time over several moves', () => {
  const mixer = file('back-to-idle/table.bin');
  assert.deepEqual(library.reactionTightMoves(mixer, 31, 1, 3), { ok: true, time: 61, target: 1, tight: 57 });
  assert.deepEqual(library.reactionTightMoves(mixer, 31, 1, 0), { ok: true, time: 2, target: 31, tight: 2 });
  assert.deepEqual(library.reactionTightMoves(mixer, 31, 1, 33), { ok: false, number: 32, place: 0 });
  assert.deepEqual(library.reactionTightMoves(mixer, 1, 2, 0), { ok: false, number: 10, place: 1 });
  assert.deepEqual(library.reactionTightMoves(file('gas-burner/table.bin'), 1, 1, 2), { ok: false, number: 14, place: 0 });
});

test('of one move, tight and several moves say what the calculator says: 3,000 questions', () => {
  const chance = new Chance(3);
  const numbers = new Set();
  for (let k = 0; k < 3000; k++) {
    const drawn = encodeTable(drawTable(chance, chance.percent(95) ? 'holds' : 'timers'));
    const bytes = chance.percent(90) ? drawn : perhapsDamaged(chance, drawn);
    const [states, inputs] = [0, 0].map(() => (chance.percent(60) ? wholeSet(chance.below(5)) : chance.below(16)));
    const one = library.reaction(bytes, states, inputs);
    const { tight, ...timed } = library.reactionTight(bytes, states, inputs);
    const { sums, path, ...moved } = library.reactionMoves(bytes, states, inputs, 1);
    const over = library.reactionTightMoves(bytes, states, inputs, 1);
    assert.deepEqual([timed, moved, over], [one, one, library.reactionTight(bytes, states, inputs)]);
    if (one.ok) assert.ok(tight <= one.time && tight >= one.time - 2 && sums.length === 1 && path.length <= 1);
    numbers.add(one.number ?? 0);
  }
  for (const number of [0, 9, 10, 14]) assert.ok(numbers.has(number), `no question had the answer ${number}`);
});

test('what is longer than the memory gets the same answer as the whole would', () => {
  const tooLong = { ok: false, number: 19, place: 0 };
  for (const length of [65537, 65538, 100000, 3000000]) {
    const bytes = new Uint8Array(length).fill(0x11);
    const entries = ['checkJournal', 'checkShort', 'run', 'shorten', 'lengthen', 'salvage'];
    for (const entry of entries) assert.deepEqual(library[entry](table, bytes), tooLong, entry);
    assert.deepEqual(library.reportAdd(table, bytes, newReport()), tooLong);
    assert.deepEqual(library.readStamped(bytes), tooLong);
  }
  assert.deepEqual(library.run(table, new Uint8Array(57345)), tooLong);
  assert.deepEqual(library.checkJournal(table, new Uint8Array(65536)), { ok: false, number: 21, place: 0 });
  const claims = new Uint8Array(100000).fill(0xff);
  claims[0] = 1;
  assert.deepEqual(library.checkTable(claims), { ok: false, number: 2, place: 0 });
  assert.deepEqual(library.checkTable(claims.subarray(0, 65537)), { ok: false, number: 1, place: 0 });
  const followed = new Uint8Array(2000000);
  followed.set(table);
  assert.deepEqual(library.checkTable(followed), { ok: false, number: 8, place: 48 });
});

test('a place may be large', () => {
  const changes = Uint8Array.from([0x10, 0, 1, 0, ...Array.from({ length: 8191 }, () => [0x11, 0, 5, 0, 0, 0, 0, 0]).flat()]);
  assert.deepEqual(library.checkJournal(table, changes), { ok: false, number: 20, place: 65532 });
});

test('nothing that was given is changed, and answers do not share memory', () => {
  const [given, before] = [journal.slice(), journal.slice()];
  const first = library.run(table, file('classroom/stimulus.bin'));
  library.salvage(table, given);
  library.shorten(table, given);
  assert.ok(sameBytes(given, before) && sameBytes(first.bytes, before));
});

test('the rooms lie apart, and within what the module leaves free of its memory', () => {
  const { module: { rooms, memory, exports }, reading } = library;
  let end = exports.__heap_base.value;
  for (const { at, size } of Object.values(rooms)) {
    assert.ok(at >= end);
    end = at + size;
  }
  assert.ok(end <= memory.length);
  assert.deepEqual([reading.length, reading.byteOffset + reading.length], [BYTES_READ, end]);
});

/** Bytes in the room for reading, between others. */
function inReading(bytes, from) {
  library.reading.fill(0xee);
  library.reading.set(bytes, from);
  return library.reading.subarray(from, from + bytes.length);
}

test('bytes in the room for reading are handed over where they lie, as many as of others', () => {
  const { module, reading } = library;
  const given = inReading(journal, 3);
  assert.deepEqual(module.give('input', given), [reading.byteOffset + 3, BigInt(journal.length)]);
  assert.deepEqual(module.give('input', given.slice()), [module.rooms.input.at, BigInt(journal.length)]);
  assert.deepEqual(module.give('input', reading), [reading.byteOffset, BigInt(module.rooms.input.size)]);
});

test('they get the answers that they get elsewhere, and no call changes them', () => {
  const [short, stamped, torn] = ['short-journal/short.bin', 'short-clock/stamped.bin', 'torn-journal/torn.bin'].map(file);
  const under = (name, ...more) => (bytes) => library[name](table, bytes, ...more.map((make) => make()));
  const cases = [
    [under('checkJournal'), journal], [under('checkJournal'), torn], [under('checkJournal'), new Uint8Array()],
    [under('checkJournal'), new Uint8Array(65537).fill(0x11)], [under('checkShort'), short], [under('run'), file('classroom/stimulus.bin')],
    [under('shorten'), journal], [under('lengthen'), short], [under('salvage'), torn], [under('reportAdd', newReport), journal],
    [(bytes) => library.watch(table, newMemory(), bytes), journal.subarray(0, 4)], [(bytes) => library.readStamped(bytes), stamped],
    [(bytes) => library.checkTable(bytes), table], [(bytes) => library.checkJournal(bytes, journal), table],
  ];
  for (const [asked, bytes] of cases) {
    const given = inReading(bytes, 3);
    const before = library.reading.slice();
    assert.deepEqual(asked(given), asked(bytes.slice()));
    assert.ok(sameBytes(library.reading, before));
  }
});

test("the header has the package's version", () => {
  const [, version] = /^#define KROSSVIL_VERSION "(.*)"$/m.exec(header);
  assert.equal(version, JSON.parse(readFileSync(new URL('../package.json', import.meta.url), 'utf8')).version);
});

test('every function of the header was called', () => {
  const declared = [...header.matchAll(/^uint64_t (krossvil_[a-z_]*)\(/gm)].map(([, name]) => name);
  assert.deepEqual(declared.filter((name) => !called.has(name)), []);
  assert.equal(declared.length, 16);
});
