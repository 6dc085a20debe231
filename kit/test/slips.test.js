import assert from 'node:assert/strict';
import { test } from 'node:test';
import { explainJournal } from '../explain.js';
import { RULES, openMind, write } from '../explain/machine.js';
import { SLIPS } from '../explain/slips.js';
import { decodeRecords, decodeTable } from '../fields.js';
import { readText } from '../notation.js';
import { traceJournal } from '../trace.js';
import { Chance } from './chance.js';
import { library, sample } from './core.js';
import { drawRun } from './draw.js';
import { STUDENTS, drawCycles, writeJournal } from './students.js';

const RUNS = 4000;

test(`the machine whose rules the slips replace writes what the library's runtime writes: ${RUNS} runs`, () => {
  const kinds = new Set();
  for (let seed = 0; seed < RUNS; seed++) {
    const { table, journal } = drawRun(new Chance(seed), library, 40);
    const [opening, ...records] = decodeRecords(journal, 'journal');
    const mind = openMind(table, opening.value);
    const written = records.map((record) => write(mind, RULES, record, record.time));
    assert.deepEqual(written, records.map(({ value }) => value), `seed ${seed}`);
    records.forEach(({ kind, value }) => kinds.add(`${table.kind} ${kind} ${kind === 'test' ? value : ''}`));
  }
  for (const kind of ['holds', 'timers']) assert.ok(kinds.has(`${kind} test 0`) && kinds.has(`${kind} test 1`) && kinds.has(`${kind} tick `));
});

/** A table with its bytes, and how likely each of its inputs is to be over by the next poll. */
function given(text, passing) {
  const { parts: [{ bytes }], names } = readText(text);
  return { bytes, names, passing, table: decodeTable(bytes, names) };
}

/** Journal number k of a student, of so many cycles: with more cycles it begins in the same way. */
function draw({ table, passing }, student, k, cycles) {
  return writeJournal(table, drawCycles(new Chance(k * STUDENTS.length + STUDENTS.indexOf(student)), table, cycles, passing), student);
}

const calledBy = ({ name, way }) => `${name} ${way}`.trim();
const noCounts = () => ({ refused: 0, alone: 0, two: 0, more: 0, none: 0, wrong: 0 });

/** Of a refused journal whether the true slip is named, and with how many others. */
function add(counts, named, { name }) {
  counts.refused++;
  counts[named.length === 0 ? 'none' : !named.includes(name) ? 'wrong' : ['alone', 'two'][named.length - 1] ?? 'more']++;
}

/** The journals of a student, counted by what is named for those that are refused. */
function count(at, student, journals, cycles) {
  const counts = noCounts();
  for (let k = 0; k < journals; k++) {
    const trace = traceJournal(library, { table: at.bytes, journal: draw(at, student, k, cycles), names: at.names });
    if (!trace.refused) continue;
    assert.equal(trace.refused.number, 28);
    const { slipName, either } = explainJournal(trace);
    add(counts, either ?? (slipName ? [slipName] : []), student);
  }
  return counts;
}

const sayCounts = ({ refused, alone, two, more }) => `refused ${refused}: alone ${alone}, of two ${two}, of more ${more}`;
const padded = (student) => `${student.name.padEnd(14)} ${student.way.padEnd(29)}`;

/** In every refused journal of a student the true slip is among those that are named. */
function assertTrue({ none, wrong }, student, what) {
  assert.deepEqual([none, wrong], [0, 0], `${calledBy(student)}, ${what}: named none, or without the true one`);
}

/** Each error that makes a difference at this table is named alone or as one of two in at least 95 of 100 refused journals. */
function allNamed(t, at, journals, cycles, same = []) {
  for (const student of STUDENTS) {
    const counts = count(at, student, journals, cycles);
    t.diagnostic(`${padded(student)} ${sayCounts(counts)}`);
    assertTrue(counts, student, cycles);
    const called = calledBy(student);
    if (same.includes(called)) assert.equal(counts.refused, 0, called);
    else assert.ok(counts.refused >= 20 && isNamed(counts), `${called}: ${sayCounts(counts)}`);
  }
}

const isNamed = ({ refused, alone, two }) => alone + two >= 0.95 * refused;

const CLASSROOM = given(sample('classroom'), [20, 80]);
const BURNER = given(sample('gas-burner').replace('vent   12', 'vent   5').replace('settle 9', 'settle 4'), [70, 25, 50]);
const MIXER = given(sample('mixer'), [35, 35]);
const TABLES = [["the classroom's table", CLASSROOM], ['a table with timers', BURNER], ['a table with five states', MIXER]];
const NO_REGION = ['hold-restarted by a move in the region'];

test('errors of students at the classroom\'s table, 100 cycles: the true one is named, alone or as one of two', (t) => {
  allNamed(t, CLASSROOM, 200, 100, NO_REGION);
});

test('at a table with timers: the true one is named, alone or as one of two', (t) => {
  allNamed(t, BURNER, 40, 120);
});

test('at a table with five states: the true one is named, alone or as one of two', (t) => {
  allNamed(t, MIXER, 40, 120, NO_REGION);
});

const SHORT = [5, 10, 15, 30];
const JOURNALS = 100;
const LONGEST = 120;

/** In which cycle of a long journal the refused record stands, and in which each slip, in any of its ways, first writes something else. */
function ends(at, journal) {
  const { steps, stop } = traceJournal(library, { table: at.bytes, journal, names: at.names });
  const records = steps.map(({ record }) => record);
  const cycles = [];
  let cycle = 1;
  for (const { kind } of records) cycles.push(kind === 'tick' ? cycle++ : cycle);
  const ticks = records.filter(({ kind }) => kind === 'tick').map(({ time }) => time);
  const until = new Map();
  for (const slip of SLIPS) {
    const rules = { ...RULES, ...slip.rules };
    const mind = openMind(at.table, records[0].value);
    const other = records.findIndex((record, k) => k > 0 && write(mind, rules, record, ticks[cycles[k] - 1]) !== record.value);
    until.set(slip.name, Math.max(until.get(slip.name) ?? 0, other < 0 ? Infinity : cycles[other]));
  }
  return { refused: stop === null ? Infinity : cycles[stop], until };
}

/** What is named of a student's journals at each length: the long ones begin as the short ones, so that one look at each is enough. */
function countLengths(at, student) {
  const all = Array.from({ length: JOURNALS }, (_, k) => ends(at, draw(at, student, k, LONGEST)));
  return Array.from({ length: LONGEST + 1 }, (_, cycles) => {
    const counts = noCounts();
    for (const { refused, until } of all) {
      if (refused <= cycles) add(counts, [...until].filter(([, end]) => end > cycles).map(([name]) => name), student);
    }
    return counts;
  });
}

for (const [where, at] of TABLES) {
  test(`${where}, ${SHORT.join(', ')} cycles: the true one is always among those named; from how many cycles on with one other at most`, (t) => {
    for (const student of STUDENTS) {
      const lengths = countLengths(at, student);
      const said = SHORT.map((cycles) => {
        const counts = count(at, student, JOURNALS, cycles);
        assertTrue(counts, student, cycles);
        assert.deepEqual(lengths[cycles], counts, `${calledBy(student)}, ${cycles}`);
        return `${cycles}: ${counts.alone}+${counts.two}+${counts.more} of ${counts.refused}`;
      });
      if (lengths[LONGEST].refused === 0) continue;
      const from = 1 + lengths.findLastIndex((counts) => counts.refused < 20 || !isNamed(counts));
      t.diagnostic(`${padded(student)} alone+of two+of more: ${said.join('; ')}. 95 of 100 from ${from} on`);
      assert.ok(from <= LONGEST, calledBy(student));
    }
  });
}
