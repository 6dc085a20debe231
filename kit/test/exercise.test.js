import assert from 'node:assert/strict';
import { test } from 'node:test';
import { diagram } from '../diagram.js';
import { exerciseAbout, toldApart } from '../exercise/about.js';
import { exerciseTrace } from '../exercise/shown.js';
import { TOPICS, clocksOf } from '../exercise/topics.js';
import { WRONG_RULES, answersOf } from '../exercise/wrong-rules.js';
import { grade, makeExercise, openExercise, sayCount, sayMachines, sayTime } from '../exercise.js';
import { explainJournal } from '../explain.js';
import { decodeRecords, decodeTable, encodeTable } from '../fields.js';
import { exerciseText, readText, tableText } from '../notation.js';
import { stimulusOf } from '../rerun.js';
import { Chance } from './chance.js';
import { library, sample, sameBytes } from './core.js';
import { drawRun } from './draw.js';
import { all, readXml } from './well-formed.js';

const KINDS = [['poll', 'test', 'tick'], ['test', 'tick'], ['test'], ['tick'], ['poll']];

/** The parts of a text that has no mistake. */
function read(text) {
  const { parts, exercise, names, mistakes } = readText(text);
  assert.deepEqual(mistakes, []);
  const part = (kind) => parts.find((each) => each.kind === kind)?.bytes;
  return { table: part('table'), stimulus: part('stimulus'), exercise, names };
}

const CLASSROOM = read(sample('classroom'));
const TABLE = sample('classroom').split('krossvil stimulus')[0];

/** An exercise with these answers, by the number of the record. */
const answered = (asked, answers) => {
  const bytes = asked.bytes.slice();
  const blanks = asked.blanks.map((blank) => ({ ...blank, answer: answers(blank) }));
  for (const { place, answer } of blanks) bytes[place] = answer ?? 0;
  return { ...asked, bytes, blanks };
};

const guess = (chance, { counts }, kind) => chance.below({ poll: counts.inputs, test: 2, tick: counts.states }[kind]);

function open(given, asked) {
  const opened = openExercise(library, given, asked);
  assert.ok(opened.ok, JSON.stringify(opened.sentences));
  return opened.exercise;
}

test('an exercise of a stimulus: its text has no answer, and comes back as it is', () => {
  for (let seed = 0; seed < 600; seed++) {
    const chance = new Chance(seed);
    const { table, bytes, stimulus, journal } = drawRun(chance, library, 12);
    const kinds = KINDS[seed % KINDS.length];
    const { asked } = makeExercise(library, { table: bytes, stimulus }, { kinds, told: seed % 2 ? 'end' : 'each' });
    const text = exerciseText(asked, table.names);
    for (const [k, line] of text.trim().split('\n').slice(2).entries()) {
      const { kind } = decodeRecords(journal, 'journal')[k];
      assert.equal(line.endsWith('?'), kinds.includes(kind), line);
    }
    const { exercise } = read(`${tableText(bytes, table.names)}\n${text}`);
    assert.equal(exercise.told, asked.told);
    assert.ok(sameBytes(exercise.bytes, asked.bytes));
    assert.deepEqual(exercise.blanks.map(({ origin, ...blank }) => blank), asked.blanks);
    assert.ok(sameBytes(stimulusOf(exercise.bytes, 'journal'), stimulus));
    const some = answered(asked, ({ kind }) => (chance.percent(50) ? null : guess(chance, table, kind)));
    const back = read(`${tableText(bytes, table.names)}\n${exerciseText(some, table.names)}`).exercise;
    assert.deepEqual(back.blanks.map(({ origin, ...blank }) => blank), some.blanks);
    assert.ok(sameBytes(back.bytes, some.bytes));
  }
});

test('with the answers of the run all are right; of others the checker says which is the first wrong one', () => {
  let wrong = 0;
  for (let seed = 0; seed < 600; seed++) {
    const chance = new Chance(seed);
    const { table, bytes, stimulus, journal } = drawRun(chance, library, 12);
    const run = decodeRecords(journal, 'journal');
    const { asked } = makeExercise(library, { table: bytes, stimulus }, { kinds: KINDS[seed % KINDS.length] });
    if (asked.blanks.length === 0) continue;
    const given = { table: bytes, names: table.names };
    const all = grade(library, open(given, answered(asked, ({ record }) => run[record].value)));
    assert.deepEqual([all.right, all.answered, all.refused, all.machines], [asked.blanks.length, asked.blanks.length, null, []]);
    const some = answered(asked, ({ record, kind }) => {
      if (chance.percent(15)) return null;
      if (chance.percent(70)) return run[record].value;
      return guess(chance, table, kind);
    });
    const got = grade(library, open(given, some));
    assert.equal(got.right, some.blanks.filter(({ record, answer }) => answer === run[record].value).length);
    assert.equal(got.answered, some.blanks.filter(({ answer }) => answer !== null).length);
    const until = some.blanks.find(({ answer }) => answer === null)?.record ?? Infinity;
    const first = some.blanks.find(({ record, answer }) => record < until && answer !== run[record].value);
    assert.equal(got.refused?.stop ?? null, first?.record ?? null);
    if (first) assert.equal(got.refused.refused.number, 28);
    wrong += first ? 1 : 0;
  }
  assert.ok(wrong > 200, `${wrong}`);
});

test('each wrong rule is named for its answers, whatever is asked', () => {
  for (const name of ['classroom', 'gas-burner', 'mixer']) {
    const { table: bytes, stimulus, names } = read(sample(name).replace(/krossvil stimulus[^]*/, '') + stimulusText(name));
    const table = decodeTable(bytes, names);
    for (const [k, wrong] of WRONG_RULES.entries()) {
      const { asked } = makeExercise(library, { table: bytes, stimulus }, { kinds: KINDS[k % 4] });
      const run = decodeRecords(library.run(bytes, stimulus).bytes, 'journal');
      const answers = answersOf(table, run, new Set(asked.blanks.map(({ record }) => record)), wrong);
      const got = grade(library, open({ table: bytes, names }, answered(asked, ({ record }) => answers[record])));
      const same = asked.blanks.every(({ record }) => answers[record] === run[record].value);
      if (same) assert.deepEqual([got.right, got.machines], [asked.blanks.length, []]);
      else assert.ok(got.machines.includes(wrong.machine(table.kind === 'holds' ? 'hold' : 'timer')), `${name} ${k}`);
    }
  }
});

/** A stimulus of a sample, or one by chance where it has none. */
function stimulusText(name) {
  const { stimulus, table, names } = read(sample(name));
  const drawn = stimulus ?? exerciseAbout(library, table, TOPICS[1], { seed: 1, cycles: 30 }).stimulus;
  return `\nkrossvil stimulus\n${decodeRecords(drawn, 'stimulus').map(({ kind, time, value }) => (
    kind === 'input' ? `input ${names.inputs[value]}` : `${time} ${kind} ${kind === 'change' ? names.inputs[value] : ''}`)).join('\n')}\n`;
}

test('what is said: the count, the refusal with its sentence, whose answers they are', () => {
  const { asked } = makeExercise(library, CLASSROOM, {});
  const run = decodeRecords(library.run(CLASSROOM.table, CLASSROOM.stimulus).bytes, 'journal');
  const told = (answers) => {
    const got = grade(library, open(CLASSROOM, answered(asked, answers)));
    return [sayCount(got), ...(got.refused ? explainJournal(got.refused).sentences : []), sayMachines(got)];
  };
  assert.deepEqual(told(() => null), ['Nothing is answered yet: 12 values are asked.', null]);
  assert.deepEqual(told(({ record }) => run[record].value), ['All 12 answers are right.', null]);
  assert.deepEqual(told(({ record }) => (record < 5 ? run[record].value : null)), ['3 of 3 answers are right; 9 are not answered yet.', null]);
  const slip = read(sample('slip-hold-reached').replace('krossvil journal', 'krossvil exercise').replace(/(poll|test|tick) +(\w+)/g, '$1 ? $2'));
  const got = grade(library, open(slip, slip.exercise));
  assert.deepEqual([got.blanks - got.right, sayMachines(got)], [2, 'Your answers are those of a hold that ends when it is reached.']);
});

/** The only mistake of a text. */
function mistake(text) {
  const { mistakes } = readText(text);
  assert.equal(mistakes.length, 1, JSON.stringify(mistakes));
  return [mistakes[0].line, mistakes[0].column, mistakes[0].says];
}

test('bad exercises get a sentence with their place', () => {
  const with_ = (...lines) => `${sample('classroom').replace(/krossvil stimulus[^]*/, '')}krossvil exercise\n${lines.join('\n')}\n`;
  const head = with_().split('\n').length - 1;
  const asks = 'what can be asked is what a poll saw, what a test says or where a tick leads; ';
  assert.deepEqual(mistake(with_('input ?', '3 end')), [head, 7, `${asks}an input says it itself`]);
  assert.deepEqual(mistake(with_('input train', '1 change ?', '3 end')), [head + 1, 10, `${asks}a change says it itself`]);
  assert.deepEqual(mistake(with_('input train', '3 end ?')), [head + 1, 7, `${asks}an end says it itself`]);
  assert.match(mistake(with_('input train', '? poll train', '3 end'))[2], /^a line begins with a time/);
  assert.match(mistake(with_('input train', '2 poll ? tarin', '3 end'))[2], /there is no input 'tarin'; did you mean 'train'\?/);
  assert.match(mistake(with_('input train', '2 poll ? train train', '3 end'))[2], /a word too many/);
  assert.match(mistake(with_('told at the ned', 'input train', '3 end'))[2], /told at each answer, or told at the end; did you mean/);
  assert.match(mistake(with_('input train', 'bytes 10 00', '3 end'))[2], /no bytes stand in it/);
  assert.match(mistake(sample('classroom').replace('2  poll   train', '2  poll   ?'))[2], /stands in an exercise only: krossvil exercise/);
  assert.match(mistake(sample('classroom').replace('2  poll\n', '2  poll ?\n'))[2], /stands in an exercise only/);
  const bad = (...lines) => {
    const { exercise, ...given } = read(with_(...lines));
    const { ok, sentences, place } = openExercise(library, given, exercise);
    assert.equal(ok, false);
    return [place, sentences.join(' ')];
  };
  assert.match(bad('input train', '2 poll train', '3 end')[1], /^Nothing is asked in this exercise/);
  const late = bad('input train', '2 poll ?', '9 test ?', '9 end');
  assert.deepEqual([late[0], late[1].slice(0, 75)], [12, 'The exercise cannot be done: what it gives is refused, whatever is answered']);
  const given = bad('input train', '2 poll no_train', '2 test ?', '2 end');
  assert.deepEqual([given[0], given[1].slice(0, 66)], [4, 'The exercise cannot be done: a value that it gives is refused. The']);
  assert.equal(bad('input train', '2 poll ?')[0], 12);
});

test('a reaction time is asked: read, written, graded by the library', () => {
  const { table, names } = CLASSROOM;
  const exercise = (...lines) => read(`${TABLE}krossvil exercise\n${lines.join('\n')}\n`).exercise;
  const line = 'reaction from busy while no_train over 2 moves takes ?';
  const { questions: [question] } = exercise(line);
  assert.deepEqual([question.states, question.inputs, question.moves, question.answer], [2, 1, 2, null]);
  for (const each of [line, `${line} 7`, 'reaction takes ?', 'reaction while no_train, train takes ? 0']) {
    assert.equal(exerciseText(exercise(each), names), `krossvil exercise\ntold at each answer\n${each}\n`);
  }
  const right = library.reaction(table, 3, 1).time;
  const graded = (...lines) => grade(library, open(CLASSROOM, exercise(...lines)));
  const asks = 'reaction from idle, busy while no_train takes ?';
  assert.deepEqual([graded(asks).answered, graded(`${asks} ${right}`).right, graded(`${asks} ${right}`).time], [0, 1, null]);
  const wrong = graded(`${asks} ${right + 1}`);
  assert.deepEqual([wrong.right, wrong.time.answer.time], [0, right]);
  assert.match(sayTime(decodeTable(table, names), wrong).join(' '), new RegExp(`^The reaction time is not ${right + 1}\\. As long as .* at most ${right} `));
  const moves = library.reactionMoves(table, 3, 1, 2).time;
  assert.equal(graded(`reaction while no_train over 2 moves takes ? ${moves}`).right, 1);
  const both = graded(`${asks} 1`, 'input train', '2 poll ? no_train', '2 test ?', '3 end');
  assert.deepEqual([both.blanks, both.answered, both.right, both.refused.stop, both.each], [3, 2, 0, 1, [false, null, false]]);
  const outside = openExercise(library, CLASSROOM, exercise('reaction from busy while no_train takes ?'));
  assert.deepEqual([outside.ok, outside.question?.moves], [false, null]);
  assert.match(outside.sentences[0], /The states do not hold together/);
  const says = (text) => mistake(`${TABLE}krossvil exercise\n${text}\n`)[2];
  assert.match(says('reaction while no_train takes 5'), /what is asked is how long it takes/);
  assert.match(says('reaction while no_train'), /what is asked is how long it takes/);
  assert.match(says('reaction while tarin takes ?'), /there is no input 'tarin'/);
  assert.match(says('reaction no_train takes ?'), /is written: reaction from/);
  assert.match(says('reaction over two moves takes ?'), /is a whole number/);
});

const TABLES = ['classroom', 'watchdog', 'mixer', 'gas-burner'];
const EACH = 1000;

for (const topic of TOPICS) {
  test(`about ${topic.name}: ${EACH} exercises for each table that can show it, all accepted once filled in, all telling the rules apart`, () => {
    let shown = 0;
    for (const name of TABLES) {
      const { table: bytes, names } = read(sample(name));
      const table = decodeTable(bytes, names);
      for (let seed = 0; seed < EACH; seed++) {
        const made = exerciseAbout(library, bytes, topic, { seed });
        if (!made.ok && seed === 0 && topic.cannot(clocksOf(table))) break;
        assert.ok(made.ok, `${name}, seed ${seed}: ${made.says}`);
        const ran = library.run(bytes, made.stimulus);
        assert.ok(ran.ok && library.checkJournal(bytes, ran.bytes).ok);
        const run = decodeRecords(ran.bytes, 'journal');
        const asked = new Set(made.asked.blanks.map(({ record }) => record));
        assert.equal(run.filter(({ kind }) => kind === 'tick').length, made.cycles);
        for (const wrong of topic.wrong(clocksOf(table))) assert.ok(toldApart(table, run, asked, wrong) >= 2, `${name}, seed ${seed}`);
        shown++;
      }
    }
    assert.ok(shown >= (topic.name === 'region' ? EACH : TABLES.length * EACH), `${shown}`);
  });
}

test('the same seed gives the same exercise, another another; the length is the one that is asked for', () => {
  const about = (seed, cycles) => exerciseAbout(library, CLASSROOM.table, TOPICS[1], { seed, cycles }).stimulus;
  assert.deepEqual(about(7, 9), about(7, 9));
  assert.notDeepEqual(about(7, 9), about(8, 9));
  for (const cycles of [8, 20, 100]) assert.equal(decodeRecords(about(3, cycles), 'stimulus').filter(({ kind }) => kind === 'tick').length, cycles);
});

test('a table that cannot show a topic: a sentence says why', () => {
  const topic = (name) => TOPICS.find((each) => each.name === name);
  const says = (table, name, wish = {}) => exerciseAbout(library, table, topic(name), { seed: 1, ...wish }).says;
  const noHold = read(sample('classroom').replace(/ +hold 5.*\n/, '').replace(/krossvil stimulus[^]*/, '')).table;
  for (const name of ['entry', 'delayed', 'passed', 'test', 'change']) {
    assert.equal(says(noHold, name), 'This table cannot show it: no state that can be reached has a hold that delays an input.');
  }
  assert.match(says(CLASSROOM.table, 'region'), /only timers have a region to move in/);
  assert.match(says(read(sample('stutter-filter')).table, 'delayed'), /each hold delays every input/);
  assert.match(says(CLASSROOM.table, 'passed', { cycles: 2 }), /^In 2 cycles no run was found .* The shortest hold, 5, takes 4 cycles/);
  assert.match(says(CLASSROOM.table, 'passed', { kinds: ['poll'] }), /let one of them be asked/);
  const one = read('krossvil table\ncycle 1\ninputs a\noutputs o\nstart s\nstate s\noutput o\nhold 2 delays a\na -> s\n').table;
  assert.match(says(one, 'poll'), /one input only/);
  assert.match(says(one, 'test'), /cycle bound is 1/);
  assert.match(says(one, 'change'), /never changes/);
});

test('the diagram of an exercise gives nothing away: with other holds or timers it is the same, whatever is right', () => {
  for (const name of ['classroom', 'gas-burner', 'watchdog']) {
    const { table: bytes, stimulus, names } = read(sample(name));
    const table = decodeTable(bytes, names);
    const other = { ...table, holds: table.holds.map((hold) => 2 * hold), timers: table.timers.map((timer) => ({ ...timer, length: 1 })) };
    const pictures = [table, other].map((each) => {
      const { asked } = makeExercise(library, { table: encodeTable(each), stimulus }, {});
      return diagram(exerciseTrace(each, bytes, asked), { width: 900 });
    });
    assert.equal(pictures[0], pictures[1]);
    const marks = all(readXml(pictures[0])).filter(({ attributes }) => attributes.class === 'record asked');
    assert.equal(marks.length, decodeRecords(stimulus, 'stimulus').filter(({ kind }) => ['poll', 'test', 'tick'].includes(kind)).length);
    assert.doesNotMatch(pictures[0], /hold-end|never-seen"><g| left</);
  }
});

test('what was answered stands in the diagram of an exercise as it was said, right or wrong', () => {
  const { asked } = makeExercise(library, CLASSROOM, {});
  const said = answered(asked, ({ kind, record }) => (record > 8 ? null : kind === 'tick' ? 1 : 0));
  const trace = exerciseTrace(decodeTable(CLASSROOM.table, CLASSROOM.names), CLASSROOM.table, said);
  const titles = [...diagram(trace).matchAll(/<title>([^<]*)</g)].map(([, words]) => words);
  assert.ok(titles.includes('record 2, byte 12: poll at 2, no_train') && titles.includes('record 3, byte 20: test at 2, held'));
  assert.ok(titles.includes('record 4, byte 28: tick at 3, busy') && titles.includes('record 9, byte 68: poll at 7, ?'));
});
