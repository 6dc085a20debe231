import assert from 'node:assert/strict';
import { test } from 'node:test';
import { automaton } from '../automaton.js';
import { matrix } from '../matrix.js';
import { delaying } from '../matrix/columns.js';
import { easierToRead, tablePicture } from '../table-picture.js';
import { widthOf } from '../text-width.js';
import { Chance } from './chance.js';
import { drawTable } from './draw.js';
import { HOSTILE, tableOf, withHostileNames } from './pictures-fixtures.js';
import { all, ofClass, readXml } from './well-formed.js';

const named = (word, count) => Array.from({ length: count }, (_, k) => `${word}${k}`);

/** A table of any size, whose next states are as they are said to be. */
function large(count, next, inputs = count) {
  const each = named('', count).map((_, q) => q);
  return {
    ...tableOf('classroom'), counts: { states: count, inputs, outputs: 4 }, outputs: each.map((q) => q % 4),
    next: each.map((q) => named('', inputs).map((_, input) => next(q, input))),
    holds: each.map((q) => 5 * (q % 3)), delayed: each.map((q) => (q % 3 === 0 ? 0 : (0x9e3779b9 * q) & (2 ** inputs - 1) >>> 0) >>> 0),
    names: { states: named('state', count), inputs: named('sensor', inputs), outputs: named('valve', 4), timers: [] },
  };
}
const ring = (count) => large(count, (q, input) => [(q + 1) % count, 0][input] ?? q);
const random = (count, inputs, chance = new Chance(count)) => large(count, () => chance.below(count), inputs);
const size = (svg) => ['width', 'height'].map((side) => Number(readXml(svg).attributes[side]));

test('every next state and every delay of a table can be read off its matrix', () => {
  const drawn = Array.from({ length: 60 }, (_, round) => drawTable(new Chance(round)));
  for (const table of [...drawn, tableOf('gas-burner'), ring(32), random(32)]) {
    const root = readXml(matrix(table));
    const { names } = table;
    const seen = new Map(ofClass(root, 'edge').flatMap((cell) => cell.attributes['data-inputs'].split(' ')
      .map((input) => [`${cell.attributes['data-from']} ${input}`, cell])));
    assert.equal(seen.size, table.counts.states * table.counts.inputs);
    const numbered = all(root).some(({ text }) => text === 'no.');
    for (const [q, row] of table.next.entries()) {
      for (const [input, to] of row.entries()) {
        const cell = seen.get(`${q} ${input}`);
        const says = cell.children.find(({ name }) => name === 'text')?.text ?? 'stays';
        assert.deepEqual([says, Number(cell.attributes['data-to'])], [to === q ? 'stays' : numbered ? String(to) : names.states[to], to]);
        assert.equal(cell.children.filter(({ name }) => name === 'path').length, delaying(table, q, input).length);
      }
    }
    assert.deepEqual(ofClass(root, 'state').map(({ attributes }) => Number(attributes['data-state'])), table.outputs.map((_, q) => q));
    const [start] = ofClass(root, 'state').filter((row) => ofClass(row, 'start').length === 1);
    assert.equal(Number(start.attributes['data-state']), table.start);
  }
});

test('inputs that are alike share a column, and are all others where they are many', () => {
  const table = { ...ring(32), delayed: Array(32).fill(0) };
  const heads = ofClass(readXml(matrix(table)), 'heads')[0];
  assert.deepEqual(all(heads).map(({ text }) => text).filter(Boolean), ['state', 'output', 'hold', 'sensor0', 'sensor1', 'all others']);
});

test('what is lit is lit, and nothing else', () => {
  const gas = tableOf('gas-burner');
  const name = ({ attributes }) => attributes['data-state'] ?? `${attributes['data-from']}-${attributes['data-to']}`;
  const lit = (options) => ofClass(readXml(matrix(gas, { lit: options })), 'lit').map(name);
  assert.deepEqual(lit({}), []);
  assert.deepEqual(lit({ state: 2 }), ['2']);
  assert.deepEqual(lit({ edge: { from: 1, input: 1 } }), ['1-2']);
  assert.deepEqual(lit({ path: [1, 1, 2, 2, 3] }).sort(), ['1', '1-2', '2', '2-3', '3']);
  assert.deepEqual(lit({ path: [3] }), ['3']);
  const [cell] = ofClass(readXml(matrix(gas, { lit: { edge: { from: 1, input: 1 } } })), 'lit');
  assert.deepEqual(cell.children.map(({ name }) => name), ['title', 'rect', 'path', 'rect', 'text']);
  assert.equal(cell.children[3].attributes.fill, 'none');
});

test('a matrix of 32 by 32 fits a slide, and its words can be read: none is cut, none is wider than its cell', () => {
  for (const longer of ['', '_of_the_second_conveyor']) {
    const plain = random(32);
    const lengthened = (list) => list.map((name) => name + longer);
    const names = { ...plain.names, inputs: lengthened(plain.names.inputs), states: lengthened(plain.names.states) };
    const svg = matrix(plain, { names });
    const root = readXml(svg);
    const [width, height] = size(svg);
    assert.ok(width <= 1920 && height <= 1080, `${width} ${height}`);
    const texts = all(root).filter((element) => element.name === 'text');
    const scale = width / Number(root.attributes.viewBox.split(' ')[2]);
    assert.ok(texts.every(({ attributes }) => scale * Number(attributes['font-size']) >= 9.5), `${scale}`);
    assert.deepEqual([...names.inputs, ...names.states].filter((name) => !texts.some(({ text }) => text === name)), []);
    const row = ofClass(root, 'edge').slice(0, 32).flatMap(({ children }) => children.filter((child) => child.name === 'text'));
    for (const [k, { text, attributes }] of row.entries()) {
      const next = row[k + 1];
      const apart = next ? Number(next.attributes.x) - Number(attributes.x) : Infinity;
      assert.ok((widthOf(text, 12.5) + widthOf(next?.text ?? '', 12.5)) / 2 < apart);
    }
  }
});

test('any names, any width and both themes: the matrix is well-formed', () => {
  for (let round = 0; round < HOSTILE.length; round++) {
    const table = withHostileNames(drawTable(new Chance(round)), round);
    const [width] = size(matrix(table, { title: HOSTILE[round], width: 400, theme: round % 2 ? 'dark' : 'light', lit: { state: 0, path: [0] } }));
    assert.ok(width <= 400);
    for (const draw of [matrix, automaton]) assert.ok(size(draw(tableOf('classroom'), { width: 0 }))[0] > 150);
  }
});

test('the picture that is easier to read is taken, or the one that is asked for', () => {
  const sparse = [tableOf('classroom'), tableOf('gas-burner'), tableOf('watchdog'), ring(8), ring(32), random(8), random(32, 2)];
  const dense = [random(16), random(32), random(9), large(32, (q, input) => (q * input + input) % 32)];
  assert.deepEqual([...sparse, ...dense].map(easierToRead), [...sparse.map(() => 'automaton'), ...dense.map(() => 'matrix')]);
  const shown = (table, show) => readXml(tablePicture(table, { show })).attributes.class;
  assert.deepEqual([shown(ring(8)), shown(dense[0]), shown(ring(8), 'matrix'), shown(random(9), 'automaton')],
    ['krossvil-automaton', 'krossvil-matrix', 'krossvil-matrix', 'krossvil-automaton']);
});

test('an automaton of up to 32 states has the shape of a slide, and fits it', () => {
  for (const table of [ring(16), ring(32), random(32, 2)]) {
    for (const options of [{}, { slide: true, width: 1280 }]) {
      const [width, height] = size(automaton(table, options));
      assert.ok(width <= (options.width ?? 1920) && width / height > 1.2 && width / height < 2.2, `${width} ${height}`);
      assert.ok(options.width || height <= 1080, `${height}`);
    }
  }
});
