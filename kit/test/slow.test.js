/** Slow runs: what is found is accepted, has the slots that are said, and none is slower than the proved times allow. */

import assert from 'node:assert/strict';
import { test } from 'node:test';
import { decodeRecords, encodeTable } from '../fields.js';
import { plainNames } from '../names.js';
import { readText } from '../notation.js';
import { has } from '../sets.js';
import { SlowRun, saySlow } from '../slow.js';
import { timesOf } from '../times.js';
import { Chance } from './chance.js';
import { ask } from './command-world.js';
import { library, sample } from './core.js';
import { questionOf, smallTable } from './small-tables.js';

const tableOf = (name) => readText(sample(name)).parts.find(({ kind }) => kind === 'table').bytes;

function searched(bytes, question, milliseconds = 20000) {
  const answer = timesOf(library, bytes, question);
  assert.ok(answer.ok);
  const search = new SlowRun(library, bytes, question, answer);
  search.go(milliseconds);
  return { search, answer, slow: search.found() };
}

/** The state and the input of each slot, told by the records one by one; kit/trace.js has no part in it. */
function slotsOf(journal, start) {
  const slots = [];
  let [state, input] = [start, 0];
  for (const { kind, time, value } of decodeRecords(journal, 'journal')) {
    while (slots.length < time) slots.push({ state, input });
    if (kind === 'input' || kind === 'change') input = value;
    if (kind === 'tick') state = value;
  }
  return slots;
}

function holdsUp(bytes, question, { answer, slow }, start) {
  assert.ok(library.checkJournal(bytes, slow.journal).ok);
  const slots = slotsOf(slow.journal, start);
  assert.equal(slots.length, slow.from + slow.slots + 1);
  const row = slots.slice(slow.from, -1);
  assert.ok(row.every(({ state, input }) => has(question.states, state) && has(question.inputs, input)));
  assert.equal(slots.at(-1).state, slow.state);
  assert.ok(!has(answer.target, slow.state));
}

test("the classroom's table: 11 slots and 4, and no shorter time is true", () => {
  for (const [inputs, slots] of [[1, 11], [2, 4]]) {
    const question = { states: 3, inputs, moves: 1 };
    const found = searched(tableOf('classroom'), question);
    assert.equal(found.slow.slots, slots);
    holdsUp(tableOf('classroom'), question, found, 0);
    assert.match(saySlow(plainNames({ states: 2, inputs: 2, outputs: 2 }, 0), found.search, found.slow)[1], new RegExp(`no time below ${slots + 1} is true`));
  }
});

test('over several moves: 56 slots of the mixer', () => {
  const question = { states: 31, inputs: 1, moves: 3 };
  const found = searched(tableOf('mixer'), question);
  assert.equal(found.slow.slots, 56);
  assert.equal(found.answer.tight, 57);
  holdsUp(tableOf('mixer'), question, found, 0);
});

test('on random small tables: never slower than the tight time allows, and how often it is reached', (t) => {
  const chance = new Chance(44);
  const counted = { asked: 0, found: 0, reached: 0, several: 0 };
  while (counted.asked < 400) {
    const table = smallTable(chance);
    const bytes = encodeTable(table);
    assert.ok(library.checkTable(bytes).ok);
    const question = questionOf(chance, table);
    const times = timesOf(library, bytes, question);
    if (!times.ok || (question.states & ~times.target) === 0) continue;
    counted.asked += 1;
    const found = searched(bytes, question);
    assert.ok(found.search.search.whole && found.search.search.done);
    if (!found.slow) continue;
    counted.found += 1;
    holdsUp(bytes, question, found, table.start);
    assert.ok(found.slow.slots < found.answer.tight);
    counted.several += Number(question.moves > 1);
    counted.reached += Number(found.slow.slots + 1 === found.answer.tight);
  }
  t.diagnostic(`# of ${counted.asked} questions ${counted.found} have a slow run, ${counted.several} of them over several moves; ${counted.reached} reach the tight time`);
  assert.ok(counted.several > 10 && counted.reached > counted.found / 3 && counted.reached < counted.found);
});

test('large numbers: what is found in time is said, and no more', () => {
  const table = { ...smallTable(new Chance(1)), counts: { states: 2, inputs: 2, outputs: 1 }, start: 0, cycle: 60000, outputs: [0, 0], next: [[0, 1], [0, 1]],
    holds: [0, 3600000], delayed: [0, 1], names: plainNames({ states: 2, inputs: 2, outputs: 1 }, 0) };
  const bytes = encodeTable(table);
  const question = { states: 3, inputs: 1, moves: 1 };
  const found = searched(bytes, question, 1000);
  holdsUp(bytes, question, found, 0);
  const says = saySlow(table.names, found.search, found.slow).join(' ');
  assert.equal(/no time below/.test(says), found.slow.slots + 1 === found.answer.tight);
});

test('the command prints the journal, and says what it shows', async () => {
  const files = { 'classroom.kv': sample('classroom'), 'gas-burner.kv': sample('gas-burner') };
  const got = await ask(['slow', 'classroom.kv', '--while', 'no_train'], files);
  assert.equal(got.code, 0);
  const { parts } = readText(sample('classroom').split('\nkrossvil ')[0] + '\n' + got.out);
  const [table, journal] = ['table', 'journal'].map((kind) => parts.find((part) => part.kind === kind).bytes);
  assert.ok(library.checkJournal(table, journal).ok);
  assert.match(got.err, /^slots=11 from=1 end=13\n.*11 slots.*\n.*no time below 12 is true of this table/);
  const [told] = (await ask(['slow', 'classroom.kv', '--while', 'train', '--json'], files)).lines;
  assert.deepEqual([told.answer, told.slots], ['accepted', 4]);
  const timers = await ask(['slow', 'gas-burner.kv'], files);
  assert.deepEqual([timers.code, timers.out, /This table has timers/.test(timers.err)], [1, '', true]);
  const none = await ask(['slow', 'classroom.kv', '--while', 'no_train', '--moves', '0', '--json'], files);
  assert.deepEqual([none.code, none.lines[0].answer], [0, 'none']);
  assert.match((await ask(['slow', 'classroom.kv', '--seconds', 'x'], files)).err, /--seconds takes a number/);
});
