import assert from 'node:assert/strict';
import { spawnSync } from 'node:child_process';
import { test } from 'node:test';
import { automaton, automatonDot } from '../automaton.js';
import { edgesOf } from '../automaton/graph.js';
import { layoutOf } from '../automaton/layout.js';
import { distance } from '../automaton/route.js';
import { delayedIn } from '../delayed-in.js';
import { members } from '../sets.js';
import { Chance } from './chance.js';
import { drawTable } from './draw.js';
import { HOSTILE, tableOf, withHostileNames } from './pictures-fixtures.js';
import { processorTime } from './processor-time.js';
import { all, ofClass, readXml } from './well-formed.js';

const TABLES = ['classroom', 'watchdog', 'gas-burner', 'stutter-filter'].map(tableOf);
const KINDS = new Set(['svg', 'title', 'desc', 'g', 'rect', 'line', 'circle', 'path', 'text']);

/** A controller as they are drawn in class: it goes on, stays or begins anew. */
function drawController(chance, states) {
  const inputs = chance.between(2, 3);
  const row = (q) => Array.from({ length: inputs }, () => chance.pick([q, (q + 1) % states, (q + 2) % states, 0]));
  const next = Array.from({ length: states }, (_, q) => row(q));
  const named = (letter, count) => Array.from({ length: count }, (_, k) => `${letter}${k}`);
  return {
    ...TABLES[0], counts: { states, inputs, outputs: 2 }, next, outputs: next.map((_, q) => q % 2),
    holds: next.map((_, q) => q % 3), delayed: next.map((_, q) => (q % 3 ? 1 : 0)),
    names: { states: named('state_', states), inputs: named('input_', inputs), outputs: ['off', 'on'], timers: [] },
  };
}

function look(table, options) {
  const root = readXml(automaton(table, options));
  for (const { name, attributes } of all(root)) {
    assert.ok(KINDS.has(name), `<${name}>`);
    assert.ok(Object.keys(attributes).every((key) => !/^on|href|style/.test(key)));
  }
  return root;
}

test('each state and each edge is there once, and each input is named', () => {
  for (const table of TABLES) {
    const root = look(table);
    const states = ofClass(root, 'state').map((group) => Number(group.attributes['data-state']));
    assert.deepEqual(states, table.outputs.map((_, q) => q));
    const ends = ({ attributes }) => `${attributes['data-from']} ${attributes['data-to']}`;
    const wanted = edgesOf(table).map(({ from, to }) => `${from} ${to}`);
    assert.deepEqual(ofClass(root, 'edge').map(ends).sort(), wanted.sort());
    for (const [q, row] of table.next.entries()) {
      for (const [input, to] of row.entries()) {
        const edge = ofClass(root, 'edge').find((group) => ends(group) === `${q} ${to}`);
        assert.ok(edge.children[0].text.includes(table.names.inputs[input]));
      }
    }
    const delays = ofClass(root, 'state').map((group) => group.children[0].text.split(', delays ')[1] ?? '');
    assert.deepEqual(delays, table.outputs.map((_, q) => members(delayedIn(table, q)).map((input) => table.names.inputs[input]).join(', ')));
    assert.ok(table.names.states.every((name) => all(root).some(({ text }) => text === name)));
  }
});

/** 32 inputs: the state moves on with the first ones, and stays with all others. */
function withOthers(delayed) {
  const inputs = Array.from({ length: 32 }, (_, k) => `i${k}`);
  const next = [0, 1].map((q) => inputs.map((_, input) => (input < 3 ? 1 - q : q)));
  return {
    ...TABLES[0], counts: { states: 2, inputs: 32, outputs: 2 }, next, holds: [0, 5], delayed: [0, delayed],
    names: { ...TABLES[0].names, inputs },
  };
}

test('inputs that are too many to name are all others where the rest is named, on edges and in DOT', () => {
  const said = (table) => {
    const words = edgesOf(table).map(({ says }) => [says.free, says.delayed].filter(Boolean));
    const shown = new Set(all(look(table)).map(({ text }) => text));
    assert.deepEqual(words.flat().filter((each) => !shown.has(each)), []);
    return words.map((each) => each.join('/')).sort();
  };
  assert.deepEqual(said(withOthers(2 ** 32 - 1)), ['all others', 'all others', 'i0, i1, i2', 'i0, i1, i2']);
  assert.deepEqual(said(withOthers(0xffff0001)), ['all others', 'all others/16 delayed', 'i0, i1, i2', 'i1, i2/i0']);
  assert.deepEqual(said(withOthers(0b11000)), ['all others', 'all others/i3, i4', 'i0, i1, i2', 'i0, i1, i2']);
  const halves = { ...withOthers(0), next: [0, 1].map(() => Array.from({ length: 32 }, (_, input) => input % 2)) };
  assert.deepEqual(said(halves), Array(4).fill('16 inputs'));
  const few = edgesOf({ ...withOthers(0), next: [Array.from({ length: 32 }, (_, input) => Math.max(0, Math.floor(input / 4) - 1))] });
  assert.deepEqual(few.map(({ says }) => says.free).slice(0, 2), ['8 inputs', 'i8, i9, i10, i11']);
  const alone = { ...withOthers(0xffff0000), next: [Array(32).fill(1), Array(32).fill(0)] };
  assert.deepEqual(said(alone), ['every input', 'every input/16 delayed']);
  assert.match(automatonDot(withOthers(0)), /s0 -> s0 \[label="all others", tooltip="i3, i4, .*, i31"\];/);
});

test('what is lit is lit, and nothing else', () => {
  const gas = tableOf('gas-burner');
  const name = ({ attributes }) => attributes['data-state'] ?? `${attributes['data-from']}-${attributes['data-to']}`;
  const lit = (options) => ofClass(look(gas, { lit: options }), 'lit').map(name);
  assert.deepEqual(lit({}), []);
  assert.deepEqual(lit({ state: 2 }), ['2']);
  assert.deepEqual(lit({ edge: { from: 1, input: 1 } }), ['1-2']);
  assert.deepEqual(lit({ path: [1, 1, 2, 2, 3] }).sort(), ['1', '1-2', '2', '2-3', '3']);
  assert.deepEqual(lit({ path: [3] }), ['3']);
});

test("a timer's region is outlined: around its states alone, or each of them", () => {
  const gas = tableOf('gas-burner');
  const regions = ofClass(look(gas), 'region');
  assert.deepEqual(regions.map((group) => group.attributes['data-timer']), ['0', '1']);
  assert.ok(regions.every((group) => group.children.length === 1));
  const apart = { ...gas, timers: [{ ...gas.timers[0], region: 0 }] };
  assert.equal(ofClass(look(apart), 'region')[0].children.length, 0);
});

test('the picture is the same every time, and as wide as it may be at most', () => {
  for (const table of TABLES) {
    for (const width of [390, 800, 1280]) {
      const root = look(table, { width });
      assert.ok(Number(root.attributes.width) <= width);
      assert.deepEqual(layoutOf(table, table.names, { width, loops: true }), layoutOf(table, table.names, { width, loops: true }));
    }
  }
});

test('states stand apart, and with up to 12 of them no edge goes through one', () => {
  for (let states = 2; states <= 12; states++) {
    for (let seed = 0; seed < 6; seed++) {
      const table = drawController(new Chance(100 * states + seed), states);
      const { places, radius, edges } = layoutOf(table, table.names, { width: 1200, loops: true });
      for (const [q, place] of places.entries()) {
        assert.ok(places.every((other, k) => k === q || distance(place, other) > 2 * radius + 40));
        const others = edges.filter(({ edge }) => edge.from !== q && edge.to !== q);
        const through = others.filter(({ route }) => route.points.some((point) => distance(point, place) < radius));
        assert.deepEqual(through.map(({ edge }) => `${edge.from} to ${edge.to} through ${q}`), [], `${states} states, seed ${seed}`);
      }
    }
  }
});

test('32 states are laid out within two seconds', () => {
  const table = drawController(new Chance(7), 32);
  const taken = processorTime(() => look(table, { width: 1600 }));
  assert.ok(taken < 2000, `${taken} ms`);
});

test('any table that passes has a picture, and a DOT text with all its states', () => {
  for (let round = 0; round < 60; round++) {
    const chance = new Chance(round);
    const table = drawTable(chance);
    look(table, { width: chance.between(200, 1600), lit: { state: 0, path: [0] }, loops: chance.percent(50) });
    const dot = automatonDot(table);
    assert.equal(dot.match(/^ {2}s\d+ \[id=/gm).length, table.counts.states);
  }
});

test('hostile names do no harm in the picture', () => {
  for (let shift = 0; shift < HOSTILE.length; shift++) {
    for (const table of TABLES) look(withHostileNames(table, shift), { title: HOSTILE[shift] });
  }
});

/** A DOT text by its own rules: strings end, labels in angle brackets are well-formed, and statements end with a semicolon. */
function readDot(dot) {
  const strings = dot.replace(/label=<(<table.*<\/table>)>\]/g, (_, table) => {
    readXml(table);
    return 'label=T]';
  });
  const bare = strings.replace(/"(?:[^"\\]|\\.)*"/g, 'S');
  assert.match(bare, /^digraph automaton \{\n(?: {2}[A-Za-z0-9_ \[\]=,;.>-]*;\n)+\}\n$/);
}

test('hostile names do no harm in DOT, and Graphviz reads it where it is installed', () => {
  const graphviz = spawnSync('dot', ['-V']).status === 0;
  for (let shift = 0; shift < HOSTILE.length; shift++) {
    for (const table of TABLES) {
      const dot = automatonDot(withHostileNames(table, shift));
      readDot(dot);
      if (!graphviz || shift > 2) continue;
      const drawn = spawnSync('dot', ['-Tsvg'], { input: dot, encoding: 'utf8' });
      assert.equal(drawn.status, 0, drawn.stderr);
      assert.equal(drawn.stdout.includes('<script'), false);
    }
  }
});

test('a hold that delays all inputs but a few names those few, where they are short', () => {
  const inputs = Array.from({ length: 30 }, (_, k) => `in${k}`);
  const of = (delayed, names = inputs) => ({
    ...TABLES[0], counts: { states: 1, inputs: 30, outputs: 1 }, next: [inputs.map(() => 0)], outputs: [0], holds: [7], delayed: [delayed],
    names: { states: ['only'], inputs: names, outputs: ['out'], timers: [] },
  });
  const without = (...few) => few.reduce((set, input) => set - 2 ** input, 2 ** 30 - 1);
  const said = (table) => [automaton(table), automatonDot(table)].map((picture) => /(?<=\{)(all but|every|\d+|in)[^{}<>]*(?=\})/.exec(picture)?.[0]);
  for (const [table, words] of [
    [of(without(3)), 'all but in3'], [of(without(3, 12), inputs.map((_, k) => k.toString(36))), 'all but 3, c'], [of(without(3, 12)), '28 inputs'],
    [of(without(3), inputs.map((name) => `a_long_name_of_${name}`)), '29 inputs'], [of(without()), 'every input'], [of(8), 'in3'],
  ]) assert.deepEqual(said(table), [words, words]);
});
