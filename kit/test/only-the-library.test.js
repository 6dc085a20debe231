/** No verdict, state or number that is shown comes from anywhere but the library: given another that says something else, all say that. */

import assert from 'node:assert/strict';
import { test } from 'node:test';
import { bothRuns } from '../both-runs.js';
import { grade, makeExercise, openExercise } from '../exercise.js';
import { decodeRecords, recordBytes } from '../fields.js';
import { readText } from '../notation.js';
import { sayAnswer, subjectOf } from '../page/answer.js';
import { splitText } from '../page/documents.js';
import { machineAt, machineCells } from '../page/machine.js';
import { answerReaction } from '../page/reaction.js';
import { ask } from '../page/workspace.js';
import { rerun } from '../rerun.js';
import { sheetOf } from '../sheet.js';
import { SlowRun } from '../slow.js';
import { timesOf } from '../times.js';
import { library, sample } from './core.js';

const { parts, names } = readText(sample('classroom'));
const part = (kind) => parts.find((each) => each.kind === kind).bytes;
const [table, stimulus, journal] = ['table', 'stimulus', 'journal'].map(part);
const RUN = decodeRecords(journal, 'journal');
/** The test at 5, which is held, and the tick at 6. */
const [AT_TEST, AT_TICK] = [RUN.findIndex(({ kind, time }) => kind === 'test' && time === 5), RUN.findIndex(({ kind, time }) => kind === 'tick' && time === 6)];

/** The classroom's journal, in which that test is free and the state idle behind it. */
const OTHER = Uint8Array.from(RUN.flatMap(({ kind, time, value }, k) =>
  recordBytes('journal', kind, time, k === AT_TEST ? 1 : kind === 'tick' && k >= AT_TICK ? 0 : value ?? 0)));

/** A library that runs and accepts this journal alone, with numbers of its own, and has its own times. */
const strange = {
  ...Object.fromEntries(Object.getOwnPropertyNames(Object.getPrototypeOf(library)).filter((name) => name !== 'constructor')
    .map((name) => [name, (...given) => library[name](...given)])),
  run: () => ({ ok: true, bytes: OTHER }),
  checkJournal: (_, bytes) => (Buffer.compare(bytes, OTHER) === 0 ? { ok: true, end: 12, cycles: 44, moves: 55, state: 1, output: 1, left: 66, longest: 77 }
    : { ok: false, number: 28, place: 52 }),
  reactionMoves: () => ({ ok: true, time: 999, target: 2, sums: [[0, 0]], path: [0] }),
  reactionTightMoves: () => ({ ok: true, time: 999, target: 2, tight: 888 }),
};

test('the answer, the machine and its cells', () => {
  const texts = { ...splitText(sample('classroom')), journal: '' };
  const answers = ask(strange, texts);
  const subject = subjectOf(answers, 'stimulus');
  assert.match(sayAnswer(answers, subject).line, /^accepted end=12 cycles=44 moves=55 state=1 output=1 left=66 longest=77$/);
  const cells = Object.fromEntries(machineCells(subject.trace, machineAt(subject.trace.steps[AT_TICK])));
  assert.deepEqual([cells.state, cells.output, cells['entered at']], ['idle', 'N', '6']);
  const refused = ask(strange, { ...texts, journal: splitText(sample('classroom')).journal });
  assert.match(sayAnswer(refused, subjectOf(refused, 'journal')).line, /^refused 28 at 52$/);
});

test('reaction times, and the slow run beside them', () => {
  const said = answerReaction(strange, { bytes: table, table: ask(strange, { ...splitText(sample('classroom')) }).decoded }, { states: 3, inputs: 1, moves: 1 });
  assert.deepEqual([said.line, said.beside[0], said.beside[1]], ['at most 999', 'tight 888, in whole units', 'until: busy']);
  const question = { states: 3, inputs: 1, moves: 1 };
  const search = new SlowRun({ ...library, run: strange.run, checkTable: () => ({ ok: true }), checkJournal: strange.checkJournal }, table, question, timesOf(library, table, question));
  search.go(5000);
  assert.equal(search.found(), null, 'what the library does not run as it was found is not shown');
});

test('exercises and sheets', () => {
  const { asked } = makeExercise(strange, { table, stimulus }, {});
  const { exercise } = openExercise(strange, { table, names }, asked);
  const given = decodeRecords(OTHER, 'journal');
  const answered = { ...exercise, asked: { ...exercise.asked, blanks: exercise.asked.blanks.map((blank) => ({ ...blank, answer: given[blank.record].value })) } };
  assert.equal(grade(strange, answered).right, 12);
  const { sheet } = sheetOf(strange, { table, stimulus, names });
  const [row] = sheet.rows.filter(({ asks }) => asks.startsWith('5 test'));
  assert.equal(row.answer, 'free');
  assert.equal(sheet.rows.find(({ asks }) => asks.startsWith('6 tick')).answer, 'idle');
});

test('both runs', () => {
  const own = rerun(strange, { table, journal, form: 'journal' });
  assert.deepEqual(own.differences[0].number, AT_TEST);
  const subject = subjectOf(ask(library, { ...splitText(sample('classroom')) }), 'journal');
  assert.match(bothRuns(subject.trace, own), /they differ first at 5/);
});
