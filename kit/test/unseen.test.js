import assert from 'node:assert/strict';
import { test } from 'node:test';
import { diagram } from '../diagram.js';
import { EXAMPLES } from '../examples.js';
import { narrate } from '../explain.js';
import { accepted, unseenInputs } from '../trace.js';
import { Chance } from './chance.js';
import { library } from './core.js';
import { drawRun, perhapsDamaged } from './draw.js';
import { traceOf, traceOfSample } from './pictures-fixtures.js';
import { all, ofClass, readXml } from './well-formed.js';

/** From the records alone: the inputs that ended, with no poll between their first record and their last. */
function unseenByRecords(trace) {
  const found = [];
  let stood = null;
  for (const { record: { kind, time, value } } of accepted(trace)) {
    if (kind === 'poll') stood.polled = true;
    if ((kind !== 'input' && kind !== 'change') || value === stood?.state) continue;
    if (stood && !stood.polled) found.push({ state: stood.state, from: stood.from, to: time });
    stood = { state: value, from: time, polled: false };
  }
  return found;
}

/** Traces of the samples, of runs by chance, and of damaged ones. */
function* traces() {
  for (const { name } of EXAMPLES.filter(({ group }) => group !== 'tables')) yield traceOfSample(name);
  for (let seed = 0; seed < 300; seed++) {
    const chance = new Chance(seed);
    const { table, journal } = drawRun(chance, library, 12);
    yield traceOf(table, seed % 3 === 0 ? perhapsDamaged(chance, journal) : journal);
  }
}

test('an input that no poll took is hatched in the diagram, and no other; stepping says so where it goes', () => {
  let count = 0;
  for (const trace of traces()) {
    const expected = unseenByRecords(trace);
    assert.deepEqual(unseenInputs(trace), expected);
    const said = accepted(trace).filter((step) => /it was never seen\.$/.test(narrate(trace, step))).map(({ record }) => record.time);
    assert.deepEqual(said, expected.map(({ to }) => to));
    for (const width of [1280, 390]) {
      const root = readXml(diagram(trace, { width }));
      const groups = ofClass(root, 'never-seen').flatMap((each) => all(each)).filter(({ attributes }) => attributes['data-to'] !== undefined);
      const [from, to] = ['data-from', 'data-to'].map((key) => Number(root.attributes[key]));
      const shown = expected.filter((each) => Math.min(each.to, to) > Math.max(each.from, from));
      const drawn = groups.map(({ attributes }) => [Number(attributes['data-from']), Number(attributes['data-to'])]);
      assert.ok(drawn.every(([a, b]) => shown.some((each) => each.from === a && each.to === b)));
      if (trace.refused === null) assert.equal(drawn.length, shown.length);
    }
    count += expected.length;
  }
  assert.ok(count > 300, `${count}`);
});

test('the example of the first lesson: a train between two polls, which no program ever saw', () => {
  const trace = traceOfSample('never-seen');
  assert.equal(trace.refused, null);
  assert.deepEqual(unseenInputs(trace), [{ state: 1, from: 5, to: 6 }]);
  const step = trace.steps.find(({ record }) => record.kind === 'change' && record.time === 6);
  assert.equal(narrate(trace, step), "The input becomes 'no_train'. 'train' stood from 5 to 6, and no poll took it: it was never seen.");
});
