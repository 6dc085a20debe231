/** Live on the page: each event through the library, the texts and all that is shown grow with it, and a refused one is there to be seen. */

import assert from 'node:assert/strict';
import { test } from 'node:test';
import { VERDICT, caretBehind, choose, expected, open, paneText, setPane } from './page-world.js';

const [IDLE, BUSY] = [1, 2];
const [NO_TRAIN, TRAIN] = [1, 2];
const [HELD, FREE] = [1, 2];

/** What a reader does in the panel. */
function handsOn(tab) {
  const press = (id) => tab.click(`#live-${id}`);
  const nth = (id, k) => press(`${id} button:nth-child(${k})`);
  return {
    press,
    input: (k) => nth('inputs', k),
    says: (k) => nth('verdicts', k),
    into: (k) => nth('states', k),
    wait: async (units) => { for (let k = 0; k < units; k++) await press('wait'); },
    /** A cycle of three units, as the runtime finds it. */
    cycle: async () => { for (const each of ['poll', 'test', 'tick']) { await press('wait'); await press(each); } },
  };
}

async function begun(t, size) {
  const tab = await open(t, 'example=classroom', size);
  const hands = handsOn(tab);
  await tab.click('#live');
  await hands.input(NO_TRAIN);
  return { tab, ...hands };
}

const lit = (tab) => tab.value("document.querySelector('#automaton .state.lit')?.textContent ?? ''");
const marks = (tab) => tab.value("document.querySelectorAll('#diagram [data-record]').length");

test('what happens is written down as it happens, and shown', async (t) => {
  const { tab, input, cycle } = await begun(t);
  assert.match(await paneText(tab, 'journal'), /^krossvil journal\ninput no_train\n\s*0 +end\n$/);
  const few = await marks(tab);
  await cycle();
  await input(TRAIN);
  assert.equal(await tab.text('#live-inputs button[aria-pressed=true]'), 'train');
  await cycle();
  assert.match(await lit(tab), /busy/);
  assert.equal(await tab.text(VERDICT), 'accepted end=6 cycles=2 moves=1 state=1 output=1 left=0 longest=3');
  assert.match(await tab.text('#answer'), /6 tick busy/);
  assert.ok(await marks(tab) > few);
  await tab.click('#tab-stimulus');
  assert.match(await tab.text(VERDICT), /^accepted end=6/);
  assert.match(await paneText(tab, 'stimulus'), /3 +change train\n4 +poll\n5 +test\n6 +tick\n6 +end\n$/);
});

test('the three errors happen by hand, and are refused at once', async (t) => {
  const { tab, input, cycle, wait, press, says, into } = await begun(t);
  await input(TRAIN);
  await press('poll');
  assert.equal(await tab.text(VERDICT), 'refused 27 at 12');
  assert.match(await tab.text('#live-says'), /stands where it stood/);
  await cycle();
  await input(NO_TRAIN);
  await cycle();
  await press('hand');
  /** A poll, a test that says this, and a tick into that state; each a unit later. */
  const decide = async (verdict, state) => {
    await wait(1);
    await press('poll');
    await wait(1);
    await says(verdict);
    if (!state) return;
    await wait(1);
    await into(state);
  };
  await decide(FREE);
  assert.match(await tab.text(VERDICT), /^refused 28/);
  assert.match(await tab.text('#answer'), /8 - 3 = 5 is not more than 5/);
  assert.equal(await tab.value("document.querySelectorAll('#diagram .refused-record').length"), 1);
  await says(HELD);
  await into(BUSY);
  await decide(FREE, IDLE);
  await input(TRAIN);
  await decide(FREE, BUSY);
  await input(NO_TRAIN);
  assert.match(await tab.text(VERDICT), /^accepted .* moves=3 /);
  await decide(FREE);
  assert.match(await tab.text(VERDICT), /^refused 28/);
  assert.match(await tab.text('#answer .slip'), /entry/);
  await says(HELD);
  assert.match(await tab.text(VERDICT), /^accepted/);
});

test('the clock runs while a key or the button is held', async (t) => {
  const { tab } = await begun(t);
  const records = async () => (await paneText(tab, 'journal')).split('\n').length;
  const count = await records();
  const key = (type) => tab.send('Input.dispatchKeyEvent', { type, key: 'c', code: 'KeyC', windowsVirtualKeyCode: 67 });
  await key('keyDown');
  await tab.until(`document.querySelector('#pane-journal textarea').value.split('\\n').length >= ${count + 4}`);
  await key('keyUp');
  const stood = await records();
  await new Promise((done) => { setTimeout(done, 800); });
  assert.equal(await records(), stood);
  assert.match(await tab.text(VERDICT), /^accepted/);
  const { x, y } = await tab.value("(({ x, y }) => ({ x, y }))(document.getElementById('live-clock').getBoundingClientRect())");
  const mouse = (type) => tab.send('Input.dispatchMouseEvent', { type, x: x + 9, y: y + 9, button: 'left', clickCount: 1 });
  await mouse('mousePressed');
  await tab.until(`document.querySelector('#pane-journal textarea').value.split('\\n').length >= ${stood + 3}`);
  await mouse('mouseReleased');
});

test('a held key that repeats does not hurry the clock', async (t) => {
  const { tab } = await begun(t);
  const key = (type, more = {}) =>
    tab.send('Input.dispatchKeyEvent', { type, key: ' ', code: 'Space', windowsVirtualKeyCode: 32, ...more });
  await tab.value("document.getElementById('live-clock').focus()");
  const records = async () => (await paneText(tab, 'journal')).split('\n').length;
  const count = await records();
  const since = Date.now();
  await key('keyDown');
  for (let k = 0; k < 30; k++) await key('keyDown', { autoRepeat: true });
  const most = 2 + Math.floor((Date.now() - since) / 350);
  await key('keyUp');
  const beats = await records() - count;
  assert.ok(beats >= 1 && beats <= most, `${beats} beats, at most ${most}`);
});

test('where a cycle is short, the clock does not wait', async (t) => {
  const tab = await open(t, 'example=classroom');
  await setPane(tab, 'table', (await paneText(tab, 'table')).replace('cycle   3', 'cycle   2'));
  await tab.click('#live-inputs button');
  for (let k = 0; k < 6; k++) for (const type of ['pointerdown', 'pointerup']) {
    await tab.value(`document.getElementById('live-clock').dispatchEvent(new Event('${type}'))`);
  }
  const times = [...(await paneText(tab, 'journal')).matchAll(/^ *(\d+) +(\w+)/gm)].map(([, time, kind]) => `${time} ${kind}`);
  assert.deepEqual(times, ['1 poll', '2 test', '2 tick', '3 poll', '4 test', '4 tick', '4 end']);
});

test('keys do what the buttons do, and nothing in a text', async (t) => {
  const { tab } = await begun(t);
  for (const key of ['2', 'w', 'p', 'w', 't', 'w', 'k']) await tab.key(key);
  assert.match(await paneText(tab, 'journal'), /0 +change train\n1 +poll +train\n2 +test +free\n3 +tick +busy\n3 +end/);
  await caretBehind(tab, 'journal', 'input no_train');
  await tab.key('k');
  assert.match(await tab.text(VERDICT), /^accepted/);
});

test('a run is over when its texts change, and what was there before comes back', async (t) => {
  const { tab, cycle, press, input } = await begun(t);
  await cycle();
  await caretBehind(tab, 'journal', 'krossvil journal');
  await tab.type(' ');
  assert.equal(await tab.text('#live-time'), 'No run');
  assert.equal(await tab.value("document.getElementById('live-poll').disabled"), true);
  await tab.click('#undo');
  assert.equal(await tab.text(VERDICT), expected('classroom'));
  await input(TRAIN);
  await press('new');
  assert.equal(await tab.text('#live-time'), 'No run');
  assert.match(await paneText(tab, 'journal'), /input train/);
  await choose(tab, 'gas-burner');
  assert.equal(await tab.text('#live-time'), 'No run');
  await caretBehind(tab, 'table', 'krossvil table');
  await tab.type('x');
  assert.match(await tab.text('#live-says'), /a table that passes/);
  assert.equal(await tab.value("document.querySelectorAll('#live-inputs button').length"), 0);
});

test('the panel fits a projector and a phone, in both sizes of type', async (t) => {
  for (const size of [{ width: 1920, height: 1080 }, { width: 1280, height: 800 }, { width: 390, height: 844, phone: true }]) {
    const tab = await open(t, 'example=stutter-filter', size);
    await tab.click('#live');
    await tab.click('#live-inputs button');
    await tab.click('#live-hand');
    for (const type of ['small', 'large']) {
      if (type === 'large') await tab.click('#large');
      assert.equal(await tab.value('document.documentElement.scrollWidth <= innerWidth'), true, `${size.width}, ${type}`);
      const out = await tab.value("[...document.querySelectorAll('#live-panel button')].filter((each) => { const r = each.getBoundingClientRect(); "
        + "return each.checkVisibility() && (r.right > innerWidth || r.left < 0 || r.height < 24); }).length");
      assert.equal(out, 0, `${size.width}, ${type}`);
    }
  }
});
