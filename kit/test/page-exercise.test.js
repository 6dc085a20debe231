/** Exercises on the page: made, opened, answered by mouse, finger, key and in the text, told at each answer or at the end. */

import assert from 'node:assert/strict';
import { test } from 'node:test';
import { makeExercise } from '../exercise.js';
import { decodeRecords, encodeTable } from '../fields.js';
import { exerciseText, readText, tableText } from '../notation.js';
import { stimulusOf } from '../rerun.js';
import { library, sample } from './core.js';
import { longJournal, slow } from './pictures-fixtures.js';
import { VERDICT, caretBehind, choose, open, paneText, setPane } from './page-world.js';

const { parts } = readText(sample('classroom'));
const part = (kind) => parts.find((each) => each.kind === kind).bytes;
const RUN = decodeRecords(library.run(part('table'), part('stimulus')).bytes, 'journal');
const WORDS = { poll: ['no_train', 'train'], test: ['held', 'free'], tick: ['idle', 'busy'] };
const BLANKS = RUN.filter(({ kind }) => WORDS[kind]);
const TABLE = sample('classroom').split('krossvil stimulus')[0];

/** The classroom's exercise on the page. */
async function exercise(t, { told = 'each', size } = {}) {
  const tab = await open(t, 'example=classroom', size);
  await tab.value(`document.getElementById('make-told').value = '${told}'`);
  await tab.click('#make-shown');
  return tab;
}

const says = (tab) => tab.text('#answer');
const answers = async (tab) => readText(TABLE + await paneText(tab, 'journal')).exercise.blanks.map(({ answer }) => answer);

/** A finger on the middle of an element. */
async function touch(tab, selector) {
  const { x, y } = await tab.value(`(() => { const e = document.querySelector(${JSON.stringify(selector)}); e.scrollIntoView({ block: 'center' });
    const r = e.getBoundingClientRect(); return { x: r.x + r.width / 2, y: r.y + r.height / 2 }; })()`);
  await tab.send('Input.dispatchTouchEvent', { type: 'touchStart', touchPoints: [{ x, y }] });
  await tab.send('Input.dispatchTouchEvent', { type: 'touchEnd', touchPoints: [] });
  await tab.frames();
}

test('what is shown becomes an exercise: no answer is in its texts, its link, its diagram or anywhere on the page', async (t) => {
  const tab = await exercise(t);
  assert.equal(await tab.text(VERDICT), 'answered 0 of 12');
  const text = await paneText(tab, 'journal');
  assert.equal(text, exerciseText(makeExercise(library, { table: part('table'), stimulus: part('stimulus') }, {}).asked, readText(TABLE).names));
  assert.equal(await paneText(tab, 'stimulus'), '');
  assert.equal(await tab.value("document.querySelectorAll('#diagram .asked').length"), 12);
  assert.equal(await tab.value("document.getElementById('machine').checkVisibility()"), false);
  const shown = () => tab.value(`['diagram', 'stepping', 'answer'].map((id) => document.getElementById(id).innerHTML).join().replaceAll(', changed', '')`);
  const five = await shown();
  await setPane(tab, 'table', (await paneText(tab, 'table')).replace('hold 5', 'hold 1'));
  assert.ok(await shown() === five, 'with another hold, under which other answers are right, the same is shown');
  await setPane(tab, 'table', TABLE);
  await tab.click('#link');
  const link = await tab.value("document.getElementById('link-text').value");
  await tab.click('#link-close');
  const other = await open(t, link.split('#')[1]);
  assert.equal(await paneText(other, 'journal'), text);
  assert.equal(await other.text(VERDICT), 'answered 0 of 12');
});

test('by mouse, by key and in the text; told at each answer', async (t) => {
  const tab = await exercise(t);
  await tab.press('#diagram .asked[data-record="2"] circle');
  assert.equal(await tab.text('#blank-says'), 'The poll at 2:');
  await tab.press('#blank-choices button:nth-child(2)');
  assert.equal(await tab.text(VERDICT), 'right 1 of 12');
  assert.equal(await tab.text('#blank-says'), 'The test at 2:');
  await tab.value('document.activeElement.blur()');
  await tab.key('2');
  assert.deepEqual((await answers(tab)).slice(0, 3), [1, 1, null]);
  await tab.key('1');
  assert.equal(await tab.text(VERDICT), 'right 2 of 12');
  assert.match(await says(tab), /refused 28 at 28: .*2 of 3 answers are right; 9 are not answered yet\. The tick at 3 says state 'idle', but from 'idle' the/);
  assert.equal(await tab.text('#blank-says'), 'The tick at 3:', 'one stays where something is to be read');
  await tab.key('2');
  assert.equal(await tab.text(VERDICT), 'right 3 of 12');
  await tab.key('n');
  assert.equal(await tab.text('#blank-says'), 'The test at 5:');
  await tab.key('ArrowLeft');
  assert.equal(await tab.text('#blank-says'), 'The poll at 5:');
  await caretBehind(tab, 'journal', ' 5  poll   ?');
  await tab.type(' no_train');
  assert.equal(await tab.text(VERDICT), 'right 4 of 12');
  await tab.key('ArrowDown');
  assert.equal(await tab.text('#blank-says'), 'The test at 5:', 'the caret chooses too');
});

test('on a phone, with a finger; all right; then as those who end the hold when it is reached', async (t) => {
  const tab = await exercise(t, { size: { width: 390, height: 844, phone: true } });
  await tab.send('Emulation.setTouchEmulationEnabled', { enabled: true });
  await touch(tab, '#diagram .asked[data-record="2"] circle');
  for (const { kind, value } of BLANKS) await touch(tab, `#blank-choices button:nth-child(${1 + WORDS[kind].indexOf(WORDS[kind][value])})`);
  assert.deepEqual(await answers(tab), BLANKS.map(({ value }) => value));
  assert.equal(await tab.text(VERDICT), 'right 12 of 12');
  assert.match(await says(tab), /All 12 answers are right\./);
  assert.ok(await tab.value('document.documentElement.scrollWidth <= innerWidth'));
  const reached = (await paneText(tab, 'journal')).replace(' 8  test   ? held', ' 8  test   ? free').replace(' 9  tick   ? busy', ' 9  tick   ? idle');
  await setPane(tab, 'journal', reached);
  assert.equal(await tab.text(VERDICT), 'right 10 of 12');
  assert.match(await says(tab), /Your answers are those of a hold that ends when it is reached/);
});

test('told at the end: nothing before, then all, and no more once something is changed', async (t) => {
  const tab = await exercise(t, { told: 'end' });
  await tab.click('#blank-next');
  await tab.click('#blank-choices button:nth-child(1)');
  assert.equal(await tab.text(VERDICT), 'answered 1 of 12');
  assert.equal(await tab.value("document.getElementById('blank-tell').disabled"), true);
  for (let k = 1; k < 12; k++) await tab.click('#blank-choices button:nth-child(1)');
  assert.equal(await tab.text(VERDICT), 'answered 12 of 12');
  const wrong = BLANKS.filter(({ value }) => value !== 0).length;
  await tab.click('#blank-tell');
  assert.equal(await tab.text(VERDICT), `right ${12 - wrong} of 12`);
  assert.match(await says(tab), /refused 28 at 12: /);
  await tab.click('#blank-choices button:nth-child(2)');
  assert.equal(await tab.text(VERDICT), 'answered 12 of 12');
});

test('about a topic: drawn with a seed; a table that cannot show it says why', async (t) => {
  const tab = await open(t, 'example=classroom');
  const topics = await tab.value("[...document.getElementById('make-topic').options].map(({ value }) => value)");
  assert.deepEqual(topics, ['poll', 'entry', 'delayed', 'passed', 'test', 'change', 'region']);
  const topic = (name) => tab.value(`(() => { const list = document.getElementById('make-topic'); list.value = '${name}'; list.dispatchEvent(new Event('change')); })()`);
  await topic('region');
  assert.match(await tab.text('#make-says'), /This table cannot show it: it has holds/);
  await topic('entry');
  await tab.value("document.getElementById('make-seed').value = '7'; document.getElementById('make-cycles').value = '9'");
  await tab.click('#make-about');
  assert.match(await tab.text('#notice'), /^Seed 7, 9 cycles: 27 values are asked/);
  const first = await paneText(tab, 'journal');
  await tab.click('#undo');
  assert.match(await paneText(tab, 'journal'), /^krossvil journal/);
  await tab.click('#make-about');
  assert.equal(await paneText(tab, 'journal'), first);
});

test('a reaction time is asked: a number is given, and the page itself tells none', async (t) => {
  const tab = await open(t, 'example=classroom');
  const { time } = library.reaction(part('table'), 3, 1);
  await tab.click('#make-question');
  assert.match(await paneText(tab, 'journal'), /\nreaction from idle, busy while no_train takes \?\n$/);
  assert.equal(await tab.text(VERDICT), 'answered 0 of 1');
  assert.equal(await tab.value("document.getElementById('reaction-panel').checkVisibility()"), false);
  assert.ok(!(await tab.value('document.body.innerText')).includes(`at most ${time}`));
  await tab.press('#questions input');
  await tab.type(String(time + 1));
  await tab.key('Enter');
  assert.equal(await tab.text(VERDICT), 'right 0 of 1');
  assert.match(await says(tab), new RegExp(`The reaction time is not ${time + 1}\\..* at most ${time} until`));
  await setPane(tab, 'journal', (await paneText(tab, 'journal')).replace(`? ${time + 1}`, `? ${time}`));
  assert.equal(await tab.text(VERDICT), 'right 1 of 1');
  assert.equal(await tab.value("document.querySelector('#questions input').value"), String(time));
  await setPane(tab, 'journal', (await paneText(tab, 'journal')).replace('told at each answer', 'told at the end'));
  assert.equal(await tab.text(VERDICT), 'answered 1 of 1');
  await tab.press('#questions-tell');
  assert.equal(await tab.text(VERDICT), 'right 1 of 1');
});

test('bad exercises get a sentence with their place; nothing is drawn', async (t) => {
  const tab = await open(t, 'example=classroom');
  const put = (...lines) => setPane(tab, 'journal', ['krossvil exercise', ...lines, ''].join('\n'));
  const cases = [
    [['input train', '2 poll train', '3 end'], /Nothing is asked in this exercise/, 'line 1'],
    [['input train', '2 poll ?', '9 test ?', '9 end'], /what it gives is refused, whatever is answered/, 'line 4'],
    [['input train', '2 poll no_train', '2 test ?', '3 end'], /a value that it gives is refused/, 'line 3'],
    [['input train', '1 change ?', '3 end'], /line 3: what can be asked is what a poll saw/, null],
  ];
  for (const [lines, why, line] of cases) {
    await put(...lines);
    assert.match(await says(tab), why);
    if (line) assert.equal(await tab.text('#go'), line);
    assert.equal(await tab.value("document.getElementById('blank').checkVisibility()"), false);
  }
  await choose(tab, 'classroom');
  await setPane(tab, 'journal', (await paneText(tab, 'journal')).replace('poll   train', 'poll   ?'));
  assert.match(await says(tab), /stands in an exercise only/);
});

test('each keystroke in an exercise of 200 records takes less than 50 ms of processor time', async (t) => {
  const bytes = encodeTable(slow);
  const stimulus = stimulusOf(longJournal(slow, { cycles: 56, changes: 60 }), 'journal');
  const { asked } = makeExercise(library, { table: bytes, stimulus }, {});
  const { length } = decodeRecords(asked.bytes, 'journal');
  assert.ok(length >= 200 && length < 215, `${length}`);
  const tab = await open(t, 'example=classroom');
  await setPane(tab, 'table', tableText(bytes, slow.names));
  await setPane(tab, 'stimulus', '');
  await setPane(tab, 'journal', exerciseText(asked, slow.names).replaceAll('?', '? 0'));
  await tab.send('Performance.enable', { timeDomain: 'threadTicks' });
  const spent = async () => (await tab.send('Performance.getMetrics')).metrics.find(({ name }) => name === 'ScriptDuration').value;
  await caretBehind(tab, 'journal', 'poll   ? 0');
  const times = [];
  for (const key of ['1', '#', ' ', 'a', 'b', 'c', 'd', 'e']) {
    const before = await spent();
    await tab.type(key);
    times.push(1000 * (await spent() - before));
  }
  times.sort((a, b) => a - b);
  t.diagnostic(`milliseconds: ${times.map((each) => each.toFixed(0)).join(' ')}`);
  assert.ok(times[times.length >> 1] < 50, times.join());
});
