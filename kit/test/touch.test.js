/** A stimulus whose records are moved, put in and taken out: the other lines stay as they are, and the times stay in order where they can. */

import assert from 'node:assert/strict';
import { test } from 'node:test';
import { movedTo, putIn, takenOut } from '../touch.js';
import { decodeRecords } from '../fields.js';
import { readText } from '../notation.js';
import { Chance } from './chance.js';
import { sample } from './core.js';

const TEXT = ['krossvil stimulus', 'input no_train', '# before', ' 1  change train   # a train', ' 2  poll', ' 2  test', ' 3  tick', '10  end'].join('\n');
const PLACES = [{ line: 2, time: 0 }, { line: 4, time: 1 }, { line: 5, time: 2 }, { line: 6, time: 2 }, { line: 7, time: 3 }, { line: 8, time: 10 }];

test('a record goes along the time, past others only where it is later or earlier than they are', () => {
  const at = (number, time) => movedTo(TEXT, PLACES, number, time);
  assert.deepEqual([at(1, 0).number, at(1, 2).number, at(1, 3).number, at(1, 4).number, at(4, 2).number, at(4, 1).number], [1, 1, 3, 4, 4, 2]);
  assert.equal(at(1, 2).text, TEXT.replace(' 1  change', ' 2  change'));
  assert.deepEqual(at(1, 3).text.split('\n').slice(3, 7), [' 2  poll', ' 2  test', ' 3  change train   # a train', ' 3  tick']);
  assert.equal(at(5, 100).text.split('\n').at(-1), '100  end');
  assert.equal(movedTo(TEXT, PLACES, 0, 5), null);
});

test('a change is put in behind a record and taken out again', () => {
  const put = putIn(TEXT, PLACES, 4, 'change no_train');
  assert.deepEqual([put.number, put.text.split('\n')[7]], [5, ' 3  change no_train']);
  const places = [...PLACES.slice(0, 5), { line: 8, time: 3 }, { line: 9, time: 10 }];
  assert.deepEqual(takenOut(put.text, places, 5), { text: TEXT, number: 4 });
});

test('over random moves the records are the same but for one time, and in order', () => {
  const chance = new Chance(4);
  const [table, stimulus] = sample('classroom').split(/(?=^krossvil )/m);
  const read = (text) => readText(`${table}\n${text}`).parts.find(({ kind }) => kind === 'stimulus');
  const offset = table.split('\n').length;
  for (let k = 0; k < 300; k++) {
    const part = read(stimulus);
    const records = decodeRecords(part.bytes, 'stimulus');
    const places = records.map(({ time, place }) => ({ time, line: part.origins.find((origin) => origin.place === place).line - offset }));
    const number = chance.between(1, records.length - 2);
    const moved = movedTo(stimulus, places, number, chance.below(records.at(-1).time));
    const after = decodeRecords(read(moved.text).bytes, 'stimulus');
    assert.ok(after.every(({ time }, j) => j === 0 || after[j - 1].time <= time));
    const rest = (list, without) => list.filter((_, j) => j !== without).map(({ kind, time, value }) => `${kind} ${time} ${value}`);
    assert.deepEqual(rest(after, moved.number), rest(records, number));
    assert.equal(after[moved.number].kind, records[number].kind);
    assert.equal(moved.text.length, stimulus.length);
  }
});
