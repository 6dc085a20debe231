import assert from 'node:assert/strict';
import { readFileSync } from 'node:fs';
import { test } from 'node:test';
import { sayConverted, sayDwell, sayLeft, sayPath, sayReaction, saySalvage } from '../answers.js';
import { EXAMPLES } from '../examples.js';
import { MEANINGS, explainJournal, explainMemory, explainReaction, explainRefusal, explainRoom } from '../explain.js';
import { decodeTable } from '../fields.js';
import { newReport, readReport } from '../library.js';
import { FORM_WORDS, originAt, readText } from '../notation.js';
import { traceJournal, traceStimulus } from '../trace.js';
import { library, sample } from './core.js';
import { REFUSALS, checkInto, movesWith, runInto } from './refusals.js';

/** The explanation of a sample. */
function explain({ kind, table, names, bytes, question, given, memory }, refusal) {
  if (kind === 'memory') return explainMemory(decodeTable(table, names), refusal, memory);
  if (kind === 'reaction') return explainReaction(decodeTable(table, names), refusal, question);
  if (kind === 'room') return explainRoom(refusal, given);
  const trace = kind === 'stimulus' ? traceStimulus(library, { table, stimulus: bytes, names })
    : kind === 'table' ? null : traceJournal(library, { table, journal: bytes, form: kind, names });
  return explainRefusal(refusal, { tableBytes: table, names, trace });
}

test(`each number has a sample and a sentence: ${REFUSALS.length} samples`, () => {
  for (const refusal of REFUSALS) {
    const answer = refusal.ask();
    assert.deepEqual(answer, { ok: false, number: refusal.number, place: refusal.place }, String(refusal.says));
    assert.match(explain(refusal, answer).sentences.join(' '), refusal.says);
    assert.ok(MEANINGS.has(refusal.number));
  }
  const sampled = new Set(REFUSALS.map(({ number }) => number));
  assert.deepEqual([...MEANINGS.keys()].filter((number) => !sampled.has(number)), []);
  assert.deepEqual([movesWith(4, 3)().ok, runInto(123)().ok, checkInto(28)().ok], [true, true, true], 'one more is enough');
});

test('each number that the header lists has a meaning', () => {
  const header = readFileSync(new URL('../../include/krossvil.h', import.meta.url), 'utf8');
  const [, list] = /^enum krossvil_refusal {([^}]*)}/m.exec(header);
  const numbers = [...list.matchAll(/^ {4}KROSSVIL_[A-Z_]+ = ([0-9]+),/gm)].map(([, number]) => Number(number));
  assert.deepEqual([...MEANINGS.keys()], numbers);
});

/** An example's trace, its explanation, and the piece of text that is blamed. */
function exampleOf(name) {
  const { parts, names, lines } = readText(sample(name));
  const journal = parts.find(({ kind }) => kind !== 'table' && kind !== 'stimulus');
  const trace = traceJournal(library, { table: parts[0].bytes, journal: journal.bytes, form: journal.kind, names });
  const explanation = trace.refused ? explainJournal(trace) : null;
  const origin = explanation && originAt(journal, explanation.blame.place);
  return { trace, explanation, blamed: origin && lines[origin.line - 1].trim() };
}

test('the errors of students, and the other examples', () => {
  const expected = [
    ['slip-hold-restarted', 28, 'hold-restarted', /^11  test   held/, /the tick at 6 led back to 'busy'.*it runs from 3/],
    ['slip-old-entry', 28, 'old-entry', /^17  test   free/, /the entry of an earlier visit, at 3, was let stand.*at 14/],
    ['slip-hold-reached', 28, 'hold-reached', /^6  test   free/, /the hold was taken to end when it is reached. A hold ends when it is passed/],
    ['slip-wrong-instant', 28, 'wrong-instant', /^9  test   held/, /measured at the poll, at 8/],
    ['slip-move-at-test', 28, 'move-at-test', /^7  test   free/, /changed at the test, at 1.*the hold runs from 3/],
    ['slip-on-delay', 28, 'on-delay', /^11  test   held/, /counted from the input's change at 7, as an on-delay timer counts.*it runs from 3/],
    ['slip-hold-ignored', 28, 'hold-ignored', /^5  test   free/, /the hold was ignored/],
    ['changed-verdict', 28, null, /^8  test   free/, null],
    ['quarry', 28, 'old-entry', /^10  test   free/, /at 2, was let stand.*at 9/],
    ['torn-journal', 20, null, /^bytes 14 00 05 00 00/, null],
  ];
  for (const [name, number, slip, line, says] of expected) {
    const { trace, explanation, blamed } = exampleOf(name);
    assert.equal(trace.refused.number, number, name);
    assert.equal(explanation.slipName, slip, name);
    assert.match(blamed, line);
    if (says) assert.match(explanation.slip, says);
  }
  const runs = ['classroom', 'watchdog', 'gas-burner', 'short-journal', 'stamped-journal'];
  for (const name of runs) assert.equal(exampleOf(name).trace.refused, null, name);
  assert.ok(EXAMPLES.every(({ name }) => sample(name).startsWith('krossvil')));
});

/** Tables and journals, a record to each semicolon, and what is said of the slip. */
const HEAD = sample('classroom').split('\nkrossvil ')[0];
const BURNER = sample('gas-burner').split('\nkrossvil ')[0];
const TO_BUSY = 'input train; 1 poll train; 1 test free; 2 tick busy; 2 change no_train; ';
const LATE_TO_BUSY = 'input train; 1 poll train; 2 test free; 2 tick busy; 2 change no_train; ';
const REACHED = 'input train; 1 poll train; 1 test free; 1 tick busy; 2 change no_train; 3 poll no_train; 3 test held; 4 tick busy; '
  + '6 poll no_train; 6 test free; 6 tick idle; ';
const TO_PURGE = 'input off; 1 change heat; 2 poll heat; 2 test free; 3 tick purge; 5 poll heat; 6 test held; 7 tick purge; 9 poll heat; '
  + '10 test held; 11 tick purge; 12 poll heat; 13 test held; 14 tick purge; ';
const THREE = new RegExp('^These records are what any of these slips would make: the hold was taken to end when it is reached; '
  + 'the hold was measured at the tick, at 8; the state was changed at the test, at 1\\.$');
const SLIPS = [
  ['one test, which three explain', HEAD, THREE, `${TO_BUSY} 4 poll no_train; 4 test held; 5 tick busy; 7 poll no_train; 7 test free; `
    + '8 tick idle; 8 end'],
  ['reached, or measured at the tick', HEAD, /: either the hold was taken to end when it is reached, or the hold was measured at the tick, at 8. A/,
    `${LATE_TO_BUSY} 4 poll no_train; 4 test held; 5 tick busy; 7 poll no_train; 7 test free; 8 tick idle; 8 end`],
  ['measured at the tick', HEAD.replace('cycle   3', 'cycle   4').replace('hold 5', 'hold 3'), /: the hold was measured at the tick, at 6. A hold/,
    `${LATE_TO_BUSY} 3 poll no_train; 3 test held; 3 tick busy; 4 poll no_train; 4 test free; 6 tick idle; 6 end`],
  ['measured once more at the tick', HEAD, /: the hold was measured once more at the tick, at 8. What counts is the test/,
    `${TO_BUSY} 4 poll no_train; 5 test held; 5 tick busy; 7 poll no_train; 7 test held; 8 tick idle; 8 end`],
  ['held, and changed all the same', HEAD, /: the state was changed although the test was held. After/,
    `${TO_BUSY} 4 poll no_train; 4 test held; 5 tick idle; 5 end`],
  ['a timer is started again', BURNER, /: the timer was started again by the move at 3. Only a move into its region starts a timer: it runs from 0/,
    `${TO_PURGE} 15 poll heat; 15 test held; 15 tick purge; 16 poll heat; 16 test free; 17 tick ignite; 17 end`],
  ['the state changes twice', HEAD.replace(/train {4}-> busy\s*$/, 'train    -> idle\n'), /: the state was changed at the test already, and then/,
    'input train; 1 poll train; 1 test free; 2 tick idle; 2 end'],
  ['no slip explains it', HEAD.replace('cycle   3', 'cycle   4'), null,
    `${LATE_TO_BUSY} 4 poll no_train; 5 test free; 6 tick idle; 8 poll no_train; 8 test held; 8 tick idle; 8 end`],
  ['all of it is explained', HEAD, /: the hold was taken to end/, `${REACHED} 7 end`],
  ['it is not ended yet', HEAD, /: the hold was taken to end/, `${REACHED} bytes 14 00`],
  ['a state behind it is not explained', HEAD, null, REACHED.replace('6 tick idle', '6 tick busy; 6 end')],
  ['a poll behind it is not explained', HEAD, null, `${REACHED} 8 poll train; 8 end`],
  ['a record behind it is late', HEAD, null, `${REACHED} 10 end`],
  ['a record behind it is earlier', HEAD, null, `${REACHED} 5 end`],
  ['a record behind it is out of turn', HEAD, null, `${REACHED} 7 test free; 7 end`],
  ['a poll behind it is at a change', HEAD, null, `${REACHED} 8 change train; 8 poll train; 8 end`],
  ['a change behind it names no input', HEAD, null, `${REACHED} 8 change 7; 8 end`],
  ['records stand behind the end', HEAD, null, `${REACHED} 8 end; 8 end`],
];

test(`slips that have no example of their own: ${SLIPS.length}`, () => {
  for (const [what, table, says, journal] of SLIPS) {
    const { parts, names, mistakes } = readText(`${table}\nkrossvil journal\n${journal.replaceAll(';', '\n')}\n`);
    assert.deepEqual(mistakes, []);
    const trace = traceJournal(library, { table: parts[0].bytes, journal: parts[1].bytes, names });
    assert.equal(trace.refused?.number, 28, what);
    const { slip, slipName, either } = explainJournal(trace);
    if (says) assert.match(slip ?? '', says, what);
    else assert.equal(slip, null, what);
    if (slip?.includes(': either ')) assert.deepEqual([slipName, either], [null, ['hold-reached', 'wrong-instant']], what);
    else if (says === THREE) assert.deepEqual([slipName, either], [null, ['hold-reached', 'wrong-instant', 'move-at-test']], what);
    else assert.deepEqual([slipName !== null, either], [slip !== null, undefined], what);
  }
});

/** What is refused of a text that has only the first lines of a sample's records, and the line with which that is ended. */
function cut(name, kind, count) {
  const [head, ...parts] = sample(name).split(/^krossvil /m).slice(1);
  const lines = parts.find((each) => each.startsWith(FORM_WORDS[kind])).split('\n').filter((line) => line.trim() !== '');
  const text = `krossvil ${head}krossvil ${lines.slice(0, 1 + count).join('\n')}\n`;
  const read = (whole) => {
    const { parts: [table, records], names } = readText(whole);
    const given = { table: table.bytes, names };
    return kind === 'stimulus' ? traceStimulus(library, { ...given, stimulus: records.bytes })
      : traceJournal(library, { ...given, journal: records.bytes, form: kind });
  };
  const [, line] = /In a text the line '(.*)' ends it\.$/.exec(explainJournal(read(text)).sentences.join(' ')) ?? [];
  return { line, ended: line === undefined ? null : read(`${text}${line}\n`), records: lines.length - 1 };
}

test('a missing end suggests its line, and with that line what was there is accepted', () => {
  assert.equal(cut('classroom', 'journal', 4).line, '2  end');
  assert.deepEqual([cut('short-journal', 'short', 4).line, cut('classroom', 'stimulus', 4).line], ['+0  end', '2  end']);
  let ended = 0;
  for (const [name, kind] of [['classroom', 'journal'], ['classroom', 'stimulus'], ['short-journal', 'short'], ['stamped-journal', 'stamped'],
    ['gas-burner', 'journal'], ['watchdog', 'journal']]) {
    for (let count = 1; count < cut(name, kind, 1).records; count++, ended++) {
      const { line, ended: trace } = cut(name, kind, count);
      assert.match(line, /^\+?[0-9]+ {2}end$/);
      assert.equal(trace?.refused ?? null, null, `${name} ${kind} ${count}`); // a stimulus that is run has no trace of its own
    }
  }
  assert.ok(ended > 80, `${ended} were ended`);
  assert.equal(exampleOf('torn-journal').explanation.sentences.join(' ').includes('In a text'), false);
});

test('what holds at the end', () => {
  assert.deepEqual(sayLeft(exampleOf('classroom').trace), ["At 12 the state is 'idle', entered at 11.", 'Nothing is delayed in it.']);
  assert.deepEqual(sayLeft(exampleOf('changed-verdict').trace), ["At 7 the state is 'busy', entered at 3.",
    "Its hold of 5 runs since 3 and delays 'no_train': the first test that can be free is at 9, in 2."]);
  assert.deepEqual(sayLeft(exampleOf('torn-journal').trace)[1], "Its hold of 5 runs since 3 and delays 'no_train'; it is passed since 9.");
  assert.match(sayLeft(exampleOf('gas-burner').trace)[1], /Timer 'vent' of 12 runs since 26 and delays 'heat': .* at 39, in 6/);
});

test('other answers in sentences', () => {
  const { parts, names } = readText(sample('classroom'));
  const table = decodeTable(parts[0].bytes, names);
  const question = { states: 3, inputs: 1 };
  assert.deepEqual(sayReaction(table, question, library.reaction(parts[0].bytes, 3, 1)),
    ["As long as the state is 'idle' or 'busy' and the input is 'no_train', it takes at most 14 until the state is 'idle'."]);
  assert.match(sayReaction(table, question, { time: 14, target: 1, tight: 12 })[1], /12 is enough/);
  assert.match(sayPath(table, [1, 0, 0]), /'busy' under 'no_train' to 'idle'/);
  const torn = exampleOf('torn-journal');
  const salvaged = library.salvage(torn.trace.tableBytes, torn.trace.journal);
  assert.match(saySalvage(salvaged, torn.explanation).join(' '),
    /first 92 bytes are kept.*21 bytes are dropped. It was stopped by refusal 20 at 108/);
  assert.deepEqual(saySalvage(library.salvage(parts[0].bytes, parts[2].bytes), null),
    ['The journal is accepted as it is, and comes back unchanged.']);
  const old = library.convertTable(readText(sample('old-table')).parts[0].bytes);
  assert.match(sayConverted(old.changed)[0], /In 1 state without a hold/);
  assert.deepEqual(library.checkTable(old.bytes), { ok: true });
  const report = newReport();
  assert.deepEqual(library.reportAdd(parts[0].bytes, parts[2].bytes, report), { ok: true });
  assert.deepEqual(sayDwell(table, readReport(report, 2, 2)), ['1 journal of 12 in all.',
    "State 'idle': 4 of the time (33.3 %), 2 with 'no_train' and 2 with 'train'; entered 2 times.",
    "State 'busy': 8 of the time (66.7 %), 8 with 'no_train'; entered 1 time."]);
});
