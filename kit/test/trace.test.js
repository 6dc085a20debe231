import assert from 'node:assert/strict';
import { test } from 'node:test';
import { sayAcceptance } from '../answers.js';
import { MEANINGS, explainJournal, explainTable, isTableRefusal, narrate } from '../explain.js';
import { decodeTable } from '../fields.js';
import { rerun, stimulusOf } from '../rerun.js';
import { accepted, inputs, left, ownValue, regionVisits, traceJournal, traceStimulus, visits } from '../trace.js';
import { Chance } from './chance.js';
import { library, sameBytes } from './core.js';
import { drawRun, perhapsDamaged } from './draw.js';

const ROUNDS = 6000;

/** A run and damaged bytes of one of its forms. */
function drawn(seed) {
  const chance = new Chance(seed);
  const run = drawRun(chance, library);
  const form = chance.pick(['journal', 'stamped', 'short']);
  return { chance, run, form, bytes: perhapsDamaged(chance, run[form]) };
}

/** What the library says of bytes in a form, and the place in them. */
function asked(table, bytes, form) {
  if (form === 'short') return library.checkShort(table, bytes);
  if (form === 'journal') return library.checkJournal(table, bytes);
  const read = library.readStamped(bytes);
  return read.ok ? library.checkJournal(table, read.bytes) : read;
}

/** The steps cover the bytes in order, and those before the refusal have a machine. */
function soundSteps(trace) {
  let place = 0;
  for (const { record } of trace.steps) {
    assert.equal(record.place, place);
    place += record.length;
  }
  assert.equal(place, trace.journal.length);
  trace.steps.forEach((step, k) => {
    assert.equal(step.number, k);
    assert.equal(step.after !== null, k < (trace.stop ?? Infinity));
    assert.equal(step.before !== null, k > 0 && k <= (trace.stop ?? Infinity));
  });
  if (trace.refused) assert.equal(trace.steps[trace.stop].record.place, trace.at);
}

/** Sentences that a person can read. */
function readable(sentences) {
  assert.ok(sentences.length > 0);
  for (const sentence of sentences) {
    assert.match(sentence, /^[A-Z'].*[.?]$/s);
    assert.ok(!/undefined|NaN|null|Infinity|\[object/.test(sentence), sentence);
  }
}

function explained(explanation, length) {
  readable(explanation.sentences);
  if (explanation.slip) readable([explanation.slip]);
  assert.ok(explanation.blame.place >= 0 && explanation.blame.place + explanation.blame.length <= length);
}

test(`journals of all forms, damaged: number and place are the library's, and every refusal has its sentences: ${ROUNDS}`, () => {
  const numbers = new Set();
  for (let seed = 0; seed < ROUNDS; seed++) {
    const { run, form, bytes } = drawn(seed);
    const trace = traceJournal(library, { table: run.bytes, journal: bytes, form });
    const answer = asked(run.bytes, bytes, form);
    assert.deepEqual(trace.refused, answer.ok ? null : { number: answer.number, place: answer.place });
    assert.equal(trace.answer !== null, answer.ok);
    soundSteps(trace);
    for (const step of accepted(trace)) readable([narrate(trace, step)]);
    if (trace.refused) explained(explainJournal(trace), bytes.length);
    else readable(sayAcceptance(trace.table, trace.answer));
    if (trace.refused) numbers.add(trace.refused.number);
  }
  for (const number of [20, 21, 22, 23, 24, 25, 26, 27, 28]) assert.ok(numbers.has(number), `${number} never came`);
});

test('the machine that accepted records show has the numbers of the library', () => {
  for (let seed = 0; seed < 3000; seed++) {
    const chance = new Chance(seed);
    const run = drawRun(chance, library, 40);
    for (const form of ['journal', 'stamped', 'short']) {
      const trace = traceJournal(library, { table: run.bytes, journal: run[form] });
      assert.equal(trace.form, form);
      const { end, cycles, moves, state, output, left: most, longest } = trace.answer;
      const last = trace.steps[trace.steps.length - 1];
      const ticks = trace.steps.filter(({ record }) => record.kind === 'tick');
      assert.equal(last.record.time, end);
      assert.equal(last.after.state, state);
      assert.equal(trace.table.outputs[state], output);
      assert.equal(ticks.length, cycles);
      assert.equal(visits(trace).length - 1, moves);
      assert.equal(Math.max(0, ...trace.steps.map((step) => left(trace, step))), most);
      assert.equal(Math.max(0, ...ticks.map(({ record, before }) => record.time - before.cycleStart)), longest);
      const tests = trace.steps.filter(({ record }) => record.kind === 'test');
      for (const step of tests) assert.equal(step.record.value, left(trace, step) > 0 ? 0 : 1);
      for (const { from, to } of inputs(trace)) assert.ok(to === null || from <= to);
      trace.table.timers.forEach((_, k) => regionVisits(trace, k).forEach(({ from, to }) => assert.ok(to === null || from <= to)));
    }
  }
});

test('the value that an explanation of 28 names removes the 28 from its place', () => {
  let tried = 0;
  for (let seed = 0; tried < 3000; seed++) {
    const { run, form, bytes, chance } = drawn(seed);
    const values = [...bytes];
    if (chance.percent(70) && values.length > 12) values[3 + 8 * chance.below(values.length / 8)] ^= 1;
    const journal = Uint8Array.from(values);
    const trace = traceJournal(library, { table: run.bytes, journal, form });
    if (trace.refused?.number !== 28) continue;
    const { wanted, blame } = explainJournal(trace);
    assert.equal(wanted, ownValue(trace, trace.steps[trace.stop]));
    assert.notEqual(journal[blame.place], wanted);
    journal[blame.place] = wanted;
    const mended = traceJournal(library, { table: run.bytes, journal, form });
    assert.ok(mended.at === null || mended.at > trace.at, `seed ${seed}`);
    tried++;
  }
});

test('a journal against the run of its own stimulus', () => {
  for (let seed = 0; seed < 2000; seed++) {
    const { run, form, bytes } = drawn(seed);
    assert.ok(sameBytes(stimulusOf(run[form], form), run.stimulus));
    assert.deepEqual(rerun(library, { table: run.bytes, journal: run[form], form }), { ok: true, bytes: run.journal, differences: [] });
    const trace = traceJournal(library, { table: run.bytes, journal: bytes, form });
    const again = rerun(library, { table: run.bytes, journal: bytes, form });
    const aboutValue = [23, 28].includes(trace.refused?.number); // what the stimulus does not say
    if (!again) {
      assert.ok(trace.steps.some(({ record }) => record.kind === 'bytes' && record.length > 0));
    } else if (again.ok && trace.refused) {
      assert.ok(aboutValue);
      assert.equal(again.differences[0].number, trace.stop);
      if (trace.refused.number === 28) assert.equal(again.differences[0].own, ownValue(trace, trace.steps[trace.stop]));
    } else if (again.ok) {
      assert.deepEqual(again.differences, []);
    } else if (!aboutValue && (form !== 'stamped' || trace.long)) {
      assert.equal(again.record, trace.stop);
    }
  }
});

test('stimuli, damaged: number and place are the library\'s, and every refusal has its sentences', () => {
  const numbers = new Set();
  for (let seed = 0; seed < 3000; seed++) {
    const chance = new Chance(seed);
    const run = drawRun(chance, library);
    const stimulus = perhapsDamaged(chance, run.stimulus);
    const answer = library.run(run.bytes, stimulus);
    const trace = traceStimulus(library, { table: run.bytes, stimulus });
    assert.equal(trace === null, answer.ok);
    if (!trace) continue;
    assert.deepEqual(trace.refused, { number: answer.number, place: answer.place });
    soundSteps(trace);
    explained(explainJournal(trace), stimulus.length);
    for (const step of accepted(trace)) readable([narrate(trace, step)]);
    numbers.add(answer.number);
  }
  for (const number of [20, 21, 22, 23, 24, 25, 26, 27]) assert.ok(numbers.has(number), `${number} never came`);
});

test('tables, damaged: every refusal has its sentences', () => {
  const numbers = new Set();
  for (let seed = 0; seed < 12000; seed++) {
    const chance = new Chance(seed);
    const { bytes, table } = drawRun(chance, library, 1);
    const damaged = perhapsDamaged(chance, bytes);
    const answer = library.checkTable(damaged);
    assert.equal(traceJournal(library, { table: damaged, journal: new Uint8Array() }) === null, !answer.ok);
    if (answer.ok) continue;
    assert.ok(isTableRefusal(answer.number) && MEANINGS.has(answer.number));
    explained(explainTable(damaged, answer, chance.percent(50) ? table.names : null), damaged.length);
    decodeTable(damaged);
    numbers.add(answer.number);
  }
  for (const number of [1, 2, 3, 4, 5, 6, 7, 8, 11, 12, 13]) assert.ok(numbers.has(number), `${number} never came`);
});
