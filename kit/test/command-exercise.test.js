import assert from 'node:assert/strict';
import { test } from 'node:test';
import { EXAMPLES } from '../examples.js';
import { readText } from '../notation.js';
import { ask } from './command-world.js';
import { sample } from './core.js';

const FILES = Object.fromEntries(EXAMPLES.map(({ name }) => [`${name}.kv`, sample(name)]));
const words = (line) => line.split(' ');

/** An exercise as the command makes it. */
async function made(line) {
  const got = await ask(words(`exercise ${line}`), FILES);
  assert.equal(got.code, 0, got.err);
  return got.out;
}

/** What is said of a file. */
const said = (text, more = '', files = {}) => ask(words(`exercise mine.kv${more}`), { ...FILES, 'mine.kv': text, ...files });

test('an exercise of a stimulus has the table and blanks, and no answer; what is asked is an option', async () => {
  const all = readText(await made('classroom.kv'));
  assert.deepEqual([all.mistakes, all.exercise.told, all.exercise.blanks.length], [[], 'each', 12]);
  assert.ok(all.exercise.blanks.every(({ answer }) => answer === null));
  const tests = readText(await made('classroom.kv --blank test --told end')).exercise;
  assert.deepEqual([tests.told, tests.blanks.map(({ kind }) => kind)], ['end', ['test', 'test', 'test', 'test']]);
  assert.deepEqual(readText(await made('slip-hold-reached.kv')).exercise.blanks.length % 3, 0);
  const json = await ask(words('exercise classroom.kv --json'), FILES);
  assert.deepEqual([json.lines[0].answer, json.lines[0].blanks, json.lines[0].text], ['accepted', 12, await made('classroom.kv')]);
  const { files, out } = await ask(words('exercise classroom.kv -o out.kv'), FILES);
  assert.deepEqual([files['out.kv'], out], [await made('classroom.kv'), '  12 values are asked.\n']);
});

test('about a topic: the seed draws the same again, and is said', async () => {
  const one = await ask(words('exercise gas-burner.kv --about region --seed 5 --length 20'), FILES);
  assert.match(one.err, /Seed 5, 20 cycles: \d+ values are asked\./);
  assert.equal(one.out, (await ask(words('exercise gas-burner.kv --about region --seed 5 --length 20 --plain'), FILES)).out);
  const drawn = await ask(words('exercise classroom.kv --about entry --json'), FILES);
  const again = await ask(words(`exercise classroom.kv --about entry --seed ${drawn.lines[0].seed}`), FILES);
  assert.equal(again.out, drawn.lines[0].text);
});

test('of an exercise that is filled in: how many are right, the first wrong one, whose answers they are', async () => {
  const exercise = await made('slip-hold-reached.kv');
  const empty = await said(exercise);
  assert.deepEqual([empty.code, empty.out.split('\n')[0]], [1, 'right 0 of 9']);
  const wrong = await said(exercise, ' --answers slip-hold-reached.kv');
  assert.equal(wrong.code, 1);
  assert.match(wrong.out, /^right 7 of 9\n {2}7 of 9 answers are right\.\nrefused 28 at \d+\n {2}slip-hold-reached\.kv:\d+:\d+\n/);
  assert.match(wrong.out, /says free, but state 'busy' was entered at/);
  assert.match(wrong.out, /Your answers are those of a hold that ends when it is reached\.\n$/);
  assert.doesNotMatch(wrong.out, /usual slip/);
  const [object] = (await said(exercise, ' --answers slip-hold-reached.kv --json')).lines;
  assert.deepEqual([object.answer, object.number, object.right, object.blanks, object.machines],
    ['refused', 28, 7, 9, ['a hold that ends when it is reached']]);
});

test('answers behind the question marks; all right; told at the end', async () => {
  const exercise = await made('classroom.kv');
  const run = (await ask(words('run classroom.kv'), FILES)).out.split('\n').slice(1);
  const answer = (text, count) => {
    let k = 0;
    const lines = text.split('\n');
    const from = lines.indexOf('krossvil exercise') + 2;
    return lines.map((line, at) => (line.endsWith('?') && k++ < count ? `${line} ${run[at - from].trim().split(/ +/)[2]}` : line)).join('\n');
  };
  const all = await said(answer(exercise, 99));
  assert.deepEqual([all.code, all.out], [0, 'right 12 of 12\n  All 12 answers are right.\n']);
  const some = await said(answer(exercise, 3));
  assert.deepEqual([some.code, some.out], [1, 'right 3 of 12\n  3 of 3 answers are right; 9 are not answered yet.\n']);
  const late = await said(answer(exercise.replace('told at each answer', 'told at the end'), 3));
  assert.deepEqual([late.code, late.out], [1, 'answered 3 of 12\n  What is right is told once all are answered.\n']);
  const whole = await said(exercise, ' --answers theirs.kv', { 'theirs.kv': answer(exercise, 99) });
  assert.equal(whole.code, 0);
});

test('a reaction time is asked and answered', async () => {
  const exercise = await made('classroom.kv --while no_train --moves 2');
  assert.match(exercise, /\nreaction while no_train over 2 moves takes \?\n$/);
  const { time } = (await ask(words('react classroom.kv --while no_train --moves 2 --json'), FILES)).lines[0];
  const right = await said(exercise.replace('takes ?', `takes ? ${time}`));
  assert.deepEqual([right.code, right.out], [0, 'right 1 of 1\n  The answer is right.\n']);
  const wrong = await said(exercise, ' --answers theirs.kv', { 'theirs.kv': exercise.replace('takes ?', `takes ? ${time + 1}`) });
  assert.equal(wrong.code, 1);
  assert.match(wrong.out, new RegExp(`^right 0 of 1\\n {2}The answer is wrong\\.\\n {2}The reaction time is not ${time + 1}\\.\\n.*at most ${time} `));
  assert.match((await ask(words('exercise gas-burner.kv --while off'), FILES)).err, /Reaction times are calculated for tables with holds/);
  const outside = await said(exercise.replace('while no_train over 2 moves', 'from busy while no_train'));
  assert.match(outside.err, /mine\.kv:\d+:\d+: The states do not hold together/);
});

test('what is wrong is said at its place', async () => {
  const exercise = await made('classroom.kv');
  const says = async (text, more, files) => (await said(text, more, files)).err;
  assert.match(await says(exercise, ' --answers theirs.kv', { 'theirs.kv': exercise.replace(' 5  test   ?', ' 4  test   ?') }), /theirs\.kv:\d+:\d+: .*5 {2}test +\?/);
  assert.match(await says(exercise, ' --answers theirs.kv', { 'theirs.kv': exercise.replace(' 3  change no_train\n', '') }), /here the exercise has: 3 {2}change no_train/);
  assert.match(await says(exercise.replaceAll('?', '').replace(/(poll|test|tick) *\n/g, '$1 0\n')), /mine\.kv:\d+:1: Nothing is asked in this exercise/);
  assert.match(await says(exercise.replace('11  tick   ?', '14  tick   ?')), /mine\.kv:\d+:\d+: The exercise cannot be done: what it gives is refused/);
  assert.match(await says(exercise.replace(' 2  poll   ?', ' 2  poll   no_train')), /mine\.kv:\d+:\d+: The exercise cannot be done: a value that it gives/);
  const fails = async (line) => {
    const got = await ask(words(`exercise ${line}`), FILES);
    assert.equal(got.code, 2, line);
    return got.err;
  };
  assert.match(await fails('classroom.kv --about entri'), /--about takes poll, .* or region, not 'entri'; did you mean 'entry'\?/);
  assert.match(await fails('classroom.kv --about region'), /This table cannot show it: it has holds/);
  assert.match(await fails('classroom.kv --about entry --seed -1'), /--seed takes a whole number/);
  assert.match(await fails('classroom.kv --about entry --length 0'), /--length takes a whole number from 1 to 1000/);
  assert.match(await fails('classroom.kv --seed 3'), /go with --about TOPIC/);
  assert.match(await fails('classroom.kv --blank polls'), /--blank takes poll, test or tick, not 'polls'; did you mean 'poll'\?/);
  assert.match(await fails('classroom.kv --told never'), /--told takes each or end/);
  assert.match(await fails('classroom.kv --answers classroom.kv'), /goes with an exercise/);
  assert.match(await fails('stutter-filter.kv'), /there is no stimulus in this text/);
  const refused = await ask(words('exercise mine.kv'), { 'mine.kv': sample('classroom').replace(' 6  tick\n', ' 9  tick\n') });
  assert.deepEqual([refused.code, /^refused 25 at \d+/.test(refused.err)], [1, true]);
});

test('a worksheet and its solutions: the first has no answer; on a size of paper; nothing of a stimulus that is refused', async () => {
  const files = { 'classroom.kv': sample('classroom'), 'late.kv': sample('classroom').replace('krossvil stimulus', 'krossvil stimulus # late').replace(/^ 2 {2}poll$/m, ' 9  poll') };
  const { code, files: written } = await ask(['sheet', 'classroom.kv', '-o', 'sheet.html', '--paper', 'letter', '--title', '<i>Trains'], files);
  const [, work, solved] = String(written['sheet.html']).split('<section');
  assert.equal(code, 0);
  assert.match(String(written['sheet.html']), /@page \{ size: letter;/);
  assert.ok(work.includes('<h1>&lt;i&gt;Trains</h1>') && !/<b>(held|free|idle|busy)<\/b>/.test(work));
  assert.deepEqual([...solved.matchAll(/<b>(\w+)<\/b>/g)].map(([, word]) => word), ['free', 'busy', 'held', 'busy', 'held', 'busy', 'free', 'idle']);
  assert.match(String((await ask(['sheet', 'classroom.kv', '-o', 'sheet.pdf'], files)).files['sheet.pdf']), /^%PDF/);
  assert.match((await ask(['sheet', 'classroom.kv', '--paper', 'A5'], files)).err, /--paper takes A4 or letter, not 'A5'/);
  const late = await ask(['sheet', 'late.kv', '-o', 'late.html'], files);
  assert.deepEqual([late.code, late.files['late.html'], /^refused \d+ at /.test(late.out)], [1, undefined, true]);
});
