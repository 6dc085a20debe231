/** The run that is touched: records dragged with mouse and finger and moved by keys; the library runs each, and its refusals stand at the finger. */

import assert from 'node:assert/strict';
import { test } from 'node:test';
import { acceptanceLine, refusalLine } from '../answers.js';
import { readText } from '../notation.js';
import { library } from './core.js';
import { VERDICT, open, paneText } from './page-world.js';

/** Where a record's mark stands, and how many pixels a unit of time has. */
const placeOf = (tab, number) => tab.value(`(() => { const svg = document.querySelector('#diagram svg');
  svg.scrollIntoView({ block: 'center' });
  const box = svg.querySelector('.record[data-record="${number}"]').lastElementChild.getBoundingClientRect();
  const { left, right, from, to } = svg.dataset;
  const unit = (right - left) / (to - from) * svg.getBoundingClientRect().width / svg.viewBox.baseVal.width;
  return { x: box.x + box.width / 2, y: box.y + box.height / 2, unit }; })()`);

async function mouse(tab, type, x, y) {
  await tab.send('Input.dispatchMouseEvent', { type, x, y, button: 'left', buttons: 1, clickCount: 1 });
  await tab.frames();
}

async function finger(tab, type, x, y) {
  await tab.send('Input.dispatchTouchEvent', { type, touchPoints: type === 'touchEnd' ? [] : [{ x, y }] });
  await tab.frames();
}

/** What the library says of the texts that stand on the page. */
async function expectedOf(tab) {
  const text = `${await paneText(tab, 'table')}\n${await paneText(tab, 'stimulus')}`;
  const { parts } = readText(text);
  const [table, stimulus] = ['table', 'stimulus'].map((kind) => parts.find((part) => part.kind === kind).bytes);
  const ran = library.run(table, stimulus);
  if (!ran.ok) return refusalLine(ran);
  const { ok, ...numbers } = library.checkJournal(table, ran.bytes);
  return acceptanceLine(numbers);
}

test('a change is dragged with the mouse; the stimulus follows, and its run is the library\'s', async (t) => {
  const tab = await open(t, 'example=classroom');
  const [journal, stimulus] = [await paneText(tab, 'journal'), await paneText(tab, 'stimulus')];
  const { x, y, unit } = await placeOf(tab, 5);
  await mouse(tab, 'mousePressed', x, y);
  for (const [units, time, says] of [[1, 4, ''], [2, 4, 'refused 27 at '], [3, 6, ''], [4, 6, 'refused 27 at '], [3, 6, '']]) {
    await mouse(tab, 'mouseMoved', x + units * unit, y);
    assert.match(await paneText(tab, 'stimulus'), new RegExp(`^ *${time}  change no_train`, 'm'));
    assert.equal((await tab.text('#touch-says')).slice(0, 14), says);
    assert.equal(await tab.text(VERDICT), await expectedOf(tab));
  }
  await mouse(tab, 'mouseReleased', x + 3 * unit, y);
  assert.equal(await paneText(tab, 'journal'), journal);
  await tab.click('#undo');
  assert.deepEqual([await paneText(tab, 'journal'), await paneText(tab, 'stimulus')], [journal, stimulus]);
});

test('where the rules turn it down the refusal stands at the finger, and letting go springs back', async (t) => {
  const tab = await open(t, 'example=classroom', { width: 390, height: 844, phone: true });
  await tab.send('Emulation.setTouchEmulationEnabled', { enabled: true });
  const stimulus = await paneText(tab, 'stimulus');
  const { x, y, unit } = await placeOf(tab, 2);
  await finger(tab, 'touchStart', x, y);
  await finger(tab, 'touchMove', x - unit, y);
  await finger(tab, 'touchMove', x - 2 * unit, y);
  assert.match(await tab.text('#touch-says'), /^refused 2[47] at \d+\. The poll/);
  assert.equal(await tab.value("document.getElementById('touch-says').checkVisibility()"), true);
  await finger(tab, 'touchEnd');
  assert.equal(await tab.value("document.getElementById('touch-says').checkVisibility()"), false);
  assert.equal(await paneText(tab, 'stimulus'), stimulus);
});

test('by keys: earlier, later, put in, taken out, and taken back', async (t) => {
  const tab = await open(t, 'example=classroom');
  await tab.click('#tab-stimulus');
  const stimulus = await paneText(tab, 'stimulus');
  await tab.value('document.activeElement.blur()');
  for (const _ of [0, 1]) await tab.key('ArrowRight');
  assert.match(await tab.text('#where'), /^record 1 of/);
  const shift = (key) => tab.send('Input.dispatchKeyEvent', { type: 'keyDown', key, code: key, modifiers: 8 }).then(() => tab.frames());
  await shift('ArrowLeft');
  assert.match(await paneText(tab, 'stimulus'), /^ *0 {2}change train/m);
  assert.match(await tab.text('#where'), /^record 1 of/);
  await shift('ArrowRight');
  assert.equal(await paneText(tab, 'stimulus'), stimulus);
  await tab.key('Insert');
  const more = await paneText(tab, 'stimulus');
  assert.equal(more.split('\n').length, stimulus.split('\n').length + 1);
  assert.equal(await tab.text(VERDICT), await expectedOf(tab));
  await tab.key('Delete');
  assert.equal(await paneText(tab, 'stimulus'), stimulus);
  await shift('ArrowRight');
  await tab.until("/^refused 27 /.test(document.getElementById('touch-refused').textContent)");
  assert.equal(await paneText(tab, 'stimulus'), stimulus);
  for (let k = 0; k < 4; k++) await tab.click('#undo');
  assert.equal(await paneText(tab, 'stimulus'), stimulus);
});

test('each move of a drag over 200 records is answered within 50 ms of processor time', async (t) => {
  const tab = await open(t, 'example=classroom');
  const lines = ['krossvil stimulus', 'input no_train'];
  for (let k = 0; k < 66; k++) lines.push(`${3 * k + 1} poll`, `${3 * k + 2} test`, `${3 * k + 3} tick`);
  lines.push('198 end');
  await tab.value(`(() => { const field = document.querySelector('#pane-stimulus textarea'); field.value = ${JSON.stringify(lines.join('\n'))};
    field.dispatchEvent(new Event('input', { bubbles: true })); })()`);
  await tab.click('#tab-stimulus');
  await tab.send('Performance.enable', { timeDomain: 'threadTicks' });
  const spent = async () => (await tab.send('Performance.getMetrics')).metrics.find(({ name }) => name === 'TaskDuration').value;
  const { x, y, unit } = await placeOf(tab, 20);
  await mouse(tab, 'mousePressed', x, y);
  await mouse(tab, 'mouseMoved', x + 6, y);
  const before = await spent();
  const moves = 10;
  for (let k = 1; k <= moves; k++) await mouse(tab, 'mouseMoved', x + (k % 2 === 0 ? 0 : 2 * unit), y);
  const each = 1000 * (await spent() - before) / moves;
  await mouse(tab, 'mouseReleased', x, y);
  t.diagnostic(`# ${each.toFixed(1)} ms of processor time for each move`);
  assert.ok(each < 50, `${each} ms`);
});
