/** Many journals of one command are read into the same memory, each over the one before: each is told as if it were alone, and elsewhere. */

import assert from 'node:assert/strict';
import { mkdtempSync, rmSync, writeFileSync } from 'node:fs';
import { tmpdir } from 'node:os';
import { join } from 'node:path';
import { after, test } from 'node:test';
import { realIo } from '../command/io.js';
import { decodeRecords, encodeTable } from '../fields.js';
import { recordsText } from '../notation.js';
import { Chance } from './chance.js';
import { ask } from './command-world.js';
import { library } from './core.js';
import { damage, stamp } from './draw.js';
import { longJournal, slow } from './pictures-fixtures.js';

const folder = mkdtempSync(join(tmpdir(), 'krossvil-'));
after(() => rmSync(folder, { recursive: true }));

const TABLE = encodeTable(slow);

/** A journal in every form. */
function inForms(options) {
  const journal = longJournal(slow, options);
  return [['journal', journal], ['short', library.shorten(TABLE, journal).bytes], ['stamped', stamp(journal)]];
}

/** The last tick goes to another state. */
function changedLate([form, bytes]) {
  const { place, length } = decodeRecords(bytes, form).at(-2);
  return bytes.map((byte, k) => (k === place + length - 1 ? byte ^ 1 : byte));
}

/** Long and short ones, sound and damaged, as bytes and as texts, and what is too long for the room, in any order. */
function drawJournals(chance) {
  const [brief, long] = [inForms({ cycles: 12, changes: 60 }), inForms({ cycles: 2000, changes: 20 })];
  const damaged = Array.from({ length: 25 }, () => brief).flat().map(([form, bytes]) => [form, damage(chance, bytes)]);
  const texts = [...damaged.slice(0, 9), ...long].map(([form, bytes]) => Buffer.from(recordsText(bytes, form)));
  const lengths = [0, 65537, 70000, 70001, 150000].map((length) => new Uint8Array(length).fill(0x10));
  const all = [...[...brief, ...long, ...damaged].map(([, bytes]) => bytes), ...long.map(changedLate), ...texts, ...lengths];
  return all.map((bytes) => [chance.draw(), bytes]).sort(([one], [other]) => one - other).map(([, bytes]) => bytes);
}

const files = Object.fromEntries([TABLE, ...drawJournals(new Chance(41))].map((bytes, k) => [join(folder, `${k}.bin`), bytes]));
for (const [file, bytes] of Object.entries(files)) writeFileSync(file, bytes);
const [table, ...journals] = Object.keys(files);

const together = (...args) => ask([args[0], table, ...journals, ...args.slice(1)], {}, { read: realIo.read });
const alone = (file, ...args) => ask([args[0], table, file, ...args.slice(1)], {}, { read: (path) => Uint8Array.from(files[path]) });

/** The answers of a command, without the last line, by their journals. */
const byJournal = (out) => out.replace(/ .*\n$/, '').split(/^(?=\S)/m);

test(`check: ${journals.length} journals, each with the numbers and the sentences that it gets alone`, async () => {
  const { lines } = await together('check', '--json');
  for (const [k, file] of journals.entries()) assert.deepEqual(lines[k], (await alone(file, 'check', '--json')).lines[0]);
  assert.equal(lines.length, journals.length);
  assert.ok(lines.some(({ answer }) => answer === 'accepted'));
  const numbers = new Set(lines.map(({ number }) => number));
  for (const number of [19, 20, 21, 22, 23, 25, 26, 28]) assert.ok(numbers.has(number), `no journal was refused with ${number}`);
});

test('check, for people: each refusal with the record and the sentences that it gets alone', async () => {
  const told = byJournal((await together('check')).out);
  assert.equal(told.length, journals.length);
  for (const [k, file] of journals.entries()) {
    const { code, out } = await alone(file, 'check');
    assert.equal(told[k], `${file}: ${code === 0 ? `${out.split('\n')[0]}\n` : out}`);
  }
});

test('dwell: each refusal as it is alone, and the time of all that are accepted', async () => {
  const { lines } = await together('dwell', '--json');
  const each = await Promise.all(journals.map((file) => alone(file, 'dwell', '--json')));
  assert.deepEqual(lines.slice(0, -1), each.flatMap((one) => one.lines.slice(0, -1)));
  const sum = (read) => each.reduce((all, one) => all + read(one.lines.at(-1)), 0);
  assert.equal(lines.at(-1).journals, sum(({ journals: count }) => count));
  for (const [q, { time }] of lines.at(-1).states.entries()) assert.equal(time, sum(({ states }) => states[q].time));
});
