import assert from 'node:assert/strict';
import { test } from 'node:test';
import { diagram } from '../diagram.js';
import { EXAMPLES } from '../examples.js';
import { recordBytes } from '../fields.js';
import { widthOf } from '../text-width.js';
import { regionVisits, visits } from '../trace.js';
import { Chance } from './chance.js';
import { library } from './core.js';
import { drawRun, perhapsDamaged } from './draw.js';
import { HOSTILE, changed, longJournal, slow, tableOf, traceOf, traceOfSample, withHostileNames } from './pictures-fixtures.js';
import { processorTime } from './processor-time.js';
import { all, ofClass, readXml } from './well-formed.js';

const WIDTHS = [1280, 390];
const KINDS = new Set(['svg', 'title', 'desc', 'defs', 'pattern', 'g', 'rect', 'line', 'circle', 'path', 'text']);

const run = traceOfSample('classroom');
const at = (kind, time) => run.steps.findIndex(({ record }) => record.kind === kind && record.time === time);

/** The classroom's run with one record another. */
const wrong = (number, record) => traceOf(run.table, changed(run, number, record));

/** A sample of each refusal that a journal can get. */
const REFUSED = {
  19: traceOf(run.table, new Uint8Array(65537)),
  20: traceOf(run.table, run.journal.subarray(0, 80)),
  21: traceOf(run.table, Uint8Array.from([...run.journal.subarray(0, 60), 0x25, 0, 1, 0, ...run.journal.subarray(60)])),
  22: traceOf(run.table, Uint8Array.from([...run.journal.subarray(0, 60), ...recordBytes('journal', 'input', 0, 0)])),
  23: wrong(at('poll', 7), { value: 9 }),
  24: wrong(at('test', 10), { time: 4 }),
  25: wrong(at('tick', 6), { time: 7 }),
  26: wrong(at('poll', 7), { kind: 'test', value: 1 }),
  27: wrong(at('poll', 2), { time: 1 }),
  28: traceOfSample('changed-verdict'),
};

const SAMPLES = EXAMPLES.filter(({ group }) => group !== 'tables').map(({ name, title }) => ({ title, trace: traceOfSample(name) }));
const CASES = [...SAMPLES, ...Object.entries(REFUSED).map(([number, trace]) => ({ title: `refusal ${number}`, trace }))];

/** The picture as a tree; it is well-formed, and has only what pictures have. */
function look(trace, options = {}) {
  const root = readXml(diagram(trace, options));
  for (const { name, attributes } of all(root)) {
    assert.ok(KINDS.has(name), `<${name}>`);
    assert.ok(Object.keys(attributes).every((key) => !/^on|href|style/.test(key)), Object.keys(attributes).join());
  }
  return root;
}

/** Where a time stands in the picture. */
function placeOf(root, time) {
  const [from, to, left, right] = ['from', 'to', 'left', 'right'].map((key) => Number(root.attributes[`data-${key}`]));
  return left + (time - from) / (to - from) * (right - left);
}

/** The ends of the holds and timers that the journal shows, as entry + length. */
function endsOf(trace) {
  const { table } = trace;
  const spans = table.kind === 'holds'
    ? visits(trace).filter(({ state }) => table.delayed[state] !== 0).map(({ state, from, to }) => ({ from, to, end: from + table.holds[state] }))
    : table.timers.flatMap((timer, k) => regionVisits(trace, k).map(({ from, to }) => ({ from, to, end: from + timer.length })));
  return spans.filter(({ to, end }) => to === null || to >= end).map(({ end }) => end);
}

/** How many times each number stands in a list. */
const sorted = (numbers) => [...numbers].sort((a, b) => a - b);

test('one record is marked as refused where the journal was, none where it was accepted', () => {
  for (const { title, trace } of CASES) {
    for (const width of WIDTHS) {
      const marked = ofClass(look(trace, { title, width, sentences: ['One.', 'Two.'], slip: 'Three.' }), 'refused-record');
      assert.equal(marked.length, trace.refused ? 1 : 0, title);
      if (trace.refused) assert.equal(Number(marked[0].attributes['data-record']), trace.stop, title);
    }
  }
});

test('each sample of a refusal is refused with its number', () => {
  for (const [number, trace] of Object.entries(REFUSED)) assert.equal(trace.refused?.number, Number(number));
});

test("a hold's bar begins at the entry, and its dot stands at entry + hold", () => {
  const dots = (name) => ofClass(look(traceOfSample(name)), 'hold-end').map((dot) => Number(dot.attributes['data-time']));
  assert.deepEqual(dots('classroom'), [8]);
  assert.deepEqual(dots('changed-verdict'), [8]);
  assert.deepEqual(dots('quarry'), [7, 14]);
  for (const { title, trace } of CASES) {
    const root = look(trace);
    const shown = (time) => time <= Number(root.attributes['data-to']);
    const found = ofClass(root, 'hold-end');
    assert.deepEqual(sorted(found.map((dot) => Number(dot.attributes['data-time']))), sorted(endsOf(trace).filter(shown)), title);
    for (const dot of found) assert.ok(Math.abs(Number(dot.attributes.cx) - placeOf(root, Number(dot.attributes['data-time']))) < 0.02, title);
  }
  const root = look(run);
  assert.ok(Math.abs(Number(ofClass(root, 'hold-bar')[0].attributes.x) - placeOf(root, 3)) < 0.02);
});

test('of a hold whose state was left before its end there is no dot', () => {
  const root = look(traceOfSample('watchdog'));
  assert.equal(ofClass(root, 'hold-bar').length, 2);
  assert.deepEqual(ofClass(root, 'hold-end').map((dot) => dot.attributes['data-time']), ['15']);
});

test('each record stands at its time', () => {
  const root = look(run);
  const records = ofClass(root, 'record');
  assert.equal(records.length, run.steps.length - 1);
  for (const group of records) {
    const { record } = run.steps[Number(group.attributes['data-record'])];
    const mark = group.children.find(({ name }) => name === 'circle' || name === 'line' || name === 'path');
    const x = mark.attributes.cx ?? mark.attributes.x1 ?? /^M([\d.]+)/.exec(mark.attributes.d)[1];
    assert.ok(Math.abs(Number(x) - placeOf(root, record.time)) < 7, group.children[0].text);
  }
});

/** The boxes of all words, as they are drawn. */
function words(root) {
  return all(root).filter(({ name }) => name === 'text').map(({ attributes, text }) => {
    const size = Number(attributes['font-size']);
    const width = widthOf(text, size, attributes['font-weight'] === 'bold');
    const shift = { end: width, middle: width / 2 }[attributes['text-anchor']] ?? 0;
    const [left, bottom] = [Number(attributes.x) - shift, Number(attributes.y)];
    return { text, left, right: left + width, top: bottom - 0.74 * size, bottom };
  });
}

/** No words overlap, and none leaves the picture. */
function wordsAreApart(root, width, title) {
  const boxes = words(root);
  for (const [k, a] of boxes.entries()) {
    assert.ok(a.left >= -0.5 && a.right <= width + 0.5, `${title}, ${width}: ${a.text}`);
    const other = boxes.slice(k + 1).find((b) => a.left < b.right && b.left < a.right && a.top < b.bottom && b.top < a.bottom);
    assert.equal(other, undefined, `${title}, ${width}: ${a.text} over ${other?.text}`);
  }
}

test('no words overlap, and none leaves the picture', () => {
  const far = wrong(at('poll', 10), { time: 2000000000 });
  for (const { title, trace } of [...CASES, { title: 'Far away', trace: far }]) {
    for (const width of WIDTHS) {
      for (const options of [{}, { selected: 5, step: true }, { head: false, low: true }]) {
        const said = { sentences: ['A sentence, which is a little longer than the others are.'], slip: 'A slip.' };
        wordsAreApart(look(trace, { title, width, ...said, ...options }), width, title);
      }
    }
  }
});

/** The words at a tick, and on which side of it they stand. */
function atTick(trace, root, time) {
  const { number } = trace.steps.find(({ record }) => record.kind === 'tick' && record.time === time);
  const [mark] = ofClass(root, 'record').filter(({ attributes }) => attributes['data-record'] === String(number));
  return all(mark).filter(({ name }) => name === 'text').map(({ text, attributes }) => `${text} ${attributes['text-anchor'] ?? 'start'}`).join();
}

test('where a tick leads is said before that another stays', () => {
  for (let width = 760; width <= 1280; width += 20) {
    for (const low of [false, true]) {
      const root = look(run, { width, low });
      assert.equal(atTick(run, root, 3), '→ busy start', `${width}`);
      assert.match(atTick(run, root, 11), /^→ idle (start|end)$/, `${width}`);
      if (atTick(run, root, 11) === '→ idle end') assert.equal(atTick(run, root, 9), '', `${width}: stays → idle`);
    }
  }
  assert.equal(atTick(traceOfSample('quarry'), look(traceOfSample('quarry'), { width: 820 }), 8), '→ idle end');
});

test('the legend has one row where short words can make it so, and never loses an entry', () => {
  const rows = (root) => new Set(ofClass(root, 'legend').flatMap(all).filter(({ name }) => name === 'text').map(({ attributes }) => attributes.y));
  const entries = (root) => ofClass(root, 'legend').flatMap(all).filter(({ name }) => name === 'text').length;
  for (const trace of [run, traceOfSample('quarry'), traceOfSample('gas-burner')]) {
    const wide = look(trace, { width: 1280 });
    for (const width of [820, 900, 1280]) assert.equal(rows(look(trace, { width })).size, 1, `${width}`);
    assert.equal(entries(look(trace, { width: 820 })), entries(wide));
    assert.equal(entries(look(trace, { width: 390 })), entries(wide));
  }
});

test('a refused record far away does not squash the rest', () => {
  for (const width of WIDTHS) {
    const root = look(wrong(at('poll', 10), { time: 2000000000 }), { width });
    assert.equal(ofClass(root, 'break').length, 1);
    assert.ok(placeOf(root, 9) - placeOf(root, 0) > 0.35 * width);
    const [ring] = ofClass(root, 'refused-record');
    assert.ok(Number(ring.attributes.cx) > placeOf(root, 12) && Number(ring.attributes.cx) < width);
  }
  assert.equal(ofClass(look(REFUSED[25]), 'break').length, 0);
});

test('a window is kept to, and a record that is asked for is in the picture', () => {
  const root = look(run, { from: 4, to: 9 });
  assert.deepEqual([root.attributes['data-from'], root.attributes['data-to']], ['4', '9']);
  const shown = ofClass(root, 'record').map((group) => run.steps[Number(group.attributes['data-record'])].record.time);
  assert.deepEqual(sorted(shown), [5, 5, 6, 7, 8, 9]);
  assert.equal(ofClass(root, 'overview').length, 1);
  assert.equal(ofClass(look(run), 'overview').length, 0);
  const long = traceOf(slow, longJournal(slow));
  const later = look(long, { from: 4000 });
  assert.ok(later.attributes['data-from'] === '4000' && Number(later.attributes['data-to']) > 4050 && Number(later.attributes['data-to']) < 5000);
  for (const selected of [0, 1, 999, 4000, long.steps.length - 1]) {
    const picture = look(long, { selected, step: true });
    assert.equal(ofClass(picture, 'selected-record').length, 1);
    assert.equal(Number(ofClass(picture, 'selected-record')[0].attributes['data-record']), selected);
  }
});

test('a window before the refused record does not mark it', () => {
  assert.equal(ofClass(look(REFUSED[28], { from: 0, to: 4 }), 'refused-record').length, 0);
});

test('when one steps, later records are faint', () => {
  for (let selected = 0; selected < run.steps.length; selected++) {
    for (const group of ofClass(look(run, { selected, step: true }), 'record')) {
      assert.equal(group.attributes.opacity !== undefined, Number(group.attributes['data-record']) > selected);
    }
  }
});

test('hostile names do no harm', () => {
  for (let shift = 0; shift < HOSTILE.length; shift++) {
    for (const name of ['gas-burner', 'quarry']) {
      const { journal } = traceOfSample(name);
      const trace = traceOf(withHostileNames(tableOf(name), shift), journal);
      const evil = HOSTILE[shift];
      const root = look(trace, { title: evil, sentences: HOSTILE, slip: evil, meaning: evil, id: evil, narrate: () => evil });
      assert.equal(ofClass(root, 'refused-record').length, trace.refused ? 1 : 0);
    }
  }
});

test('a journal of 64 KB is drawn within a second, in less than 200 KB', () => {
  const gas = tableOf('gas-burner');
  const whole = traceOf(slow, longJournal(slow));
  const lively = traceOf(gas, longJournal(gas, { cycles: 1970, changes: 100, seed: 5 }));
  const changes = Array.from({ length: 8190 }, (_, k) => recordBytes('journal', 'change', k, k & 1)).flat();
  const ends = [recordBytes('journal', 'input', 0, 0), recordBytes('journal', 'end', 8190, 0)];
  const changing = traceOf({ ...slow, cycle: 60000 }, Uint8Array.from([...ends[0], ...changes, ...ends[1]]));
  const last = whole.steps.findLastIndex(({ record }) => record.kind === 'test');
  const refused = traceOf(slow, changed(whole, last, { value: 1 - whole.steps[last].record.value }));
  assert.equal(whole.journal.length, 65531);
  for (const trace of [whole, lively, changing, refused]) {
    assert.ok(trace.journal.length > 60000);
    const end = trace.steps[trace.steps.length - 1].record.time;
    for (const options of [{}, { from: 0, to: 1000000 }, { from: 0, to: end }, { selected: 4000, step: true }, { width: 3000 }]) {
      let picture = '';
      const taken = processorTime(() => {
        picture = diagram(trace, { title: 'Long', ...options });
      });
      assert.ok(taken < 1000, `${taken} ms`);
      assert.ok(Buffer.byteLength(picture) < 200 * 1024, `${Buffer.byteLength(picture)} bytes, ${JSON.stringify(options)}`);
      readXml(picture);
    }
  }
});

const ROUNDS = 700;

test(`${ROUNDS} runs, sound and damaged, of all forms: every picture is well-formed, marks what was refused, and can be read`, () => {
  for (let round = 0; round < ROUNDS; round++) {
    const chance = new Chance(round);
    const drawn = drawRun(chance, library);
    const form = chance.pick(['journal', 'stamped', 'short']);
    const trace = traceOf(drawn.table, perhapsDamaged(chance, drawn[form]), form);
    const selected = chance.percent(50) ? chance.below(trace.steps.length) : null;
    const options = { width: chance.pick([390, 760, 1280]), selected, step: chance.percent(50) };
    const root = look(trace, options);
    wordsAreApart(root, options.width, `round ${round}`);
    const inWindow = trace.steps.length < 150 && options.selected === null;
    if (inWindow || !trace.refused) assert.equal(ofClass(root, 'refused-record').length, trace.refused ? 1 : 0, `round ${round}`);
    const ends = endsOf(trace);
    const dots = ofClass(root, 'hold-end').map((dot) => Number(dot.attributes['data-time']));
    assert.ok(options.step || dots.every((time) => ends.includes(time)), `round ${round}`);
  }
});
