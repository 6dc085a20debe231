/** The page for a room: words that a back row reads, an arrow key or a presenter's key for each record, light and dark. */

import assert from 'node:assert/strict';
import { test } from 'node:test';
import { choose, open } from './page-world.js';

const ROOM = { width: 1920, height: 1080 };
/** Of each element on the stage that has words of its own, how large they are on the screen. */
const SIZES = `[...document.querySelectorAll('#stage text, #stage p, #stage button, #stage output')].filter((each) => each.checkVisibility()
  && each.textContent !== '').map((each) => parseFloat(getComputedStyle(each).fontSize) * (each.getScreenCTM?.().a ?? 1))`;
const says = (tab) => tab.text('#stage-says');

test('at 1,080 lines no word has fewer than 24 pixels, and all of the picture is in sight', async (t) => {
  const tab = await open(t, 'example=classroom', ROOM);
  for (const name of ['classroom', 'quarry', 'gas-burner', 'watchdog', 'mixer', 'changed-verdict']) {
    await choose(tab, name);
    await tab.click('#present');
    for (const look of [0, 1]) {
      const sizes = await tab.value(SIZES);
      assert.ok(sizes.length > 8 && Math.min(...sizes) >= 24, `${name}: ${Math.min(...sizes)}`);
      const room = await tab.value("(({ scrollWidth, clientWidth, scrollHeight, clientHeight }) => [scrollWidth - clientWidth, scrollHeight - clientHeight])"
        + "(document.getElementById('stage-picture'))");
      assert.ok(room[0] <= 1 && (room[1] <= 1 || name === 'gas-burner'), `${name}: ${room}`);
      if (look === 0) await tab.key('a');
    }
    await tab.key('a');
    await tab.key('Escape');
  }
});

test("the records by arrow keys and by a presenter's keys, with their sentences", async (t) => {
  const tab = await open(t, 'example=quarry', ROOM);
  await tab.click('#present');
  assert.match(await says(tab), /^refused 28 at 132\. The test at 10 says free/);
  assert.equal(await tab.value("document.getElementById('stage').classList.contains('refused')"), true);
  const seen = [];
  for (const key of ['PageDown', 'PageDown', 'ArrowRight', 'ArrowRight']) {
    await tab.key(key);
    seen.push(await says(tab));
  }
  assert.equal(new Set(seen).size, 4);
  assert.equal(await tab.value("document.querySelector('#stage .selected-record').dataset.record"), '3');
  await tab.key('PageUp');
  assert.equal(await says(tab), seen[2]);
  await tab.key('ArrowLeft');
  assert.equal(await says(tab), seen[1]);
  assert.equal(await tab.value("document.getElementById('stage').classList.contains('refused')"), false);
  await tab.click('#stage-next');
  assert.equal(await says(tab), seen[2]);
});

test('light and dark; behind it nothing is reached, and Escape gives the page back', async (t) => {
  const tab = await open(t, 'example=classroom', ROOM);
  await tab.click('#present');
  const paper = () => tab.value("document.querySelector('#stage-picture svg rect').getAttribute('fill')");
  const light = await paper();
  await tab.click('#stage-dark');
  assert.notEqual(await paper(), light);
  assert.deepEqual(await tab.value("[...document.querySelectorAll('body > header, body > main, body > .stepping')].map(({ inert }) => inert)"), [true, true, true]);
  await tab.key('Escape');
  assert.deepEqual(await tab.value("[document.getElementById('stage').checkVisibility(), document.activeElement.id, document.querySelector('main').inert]"),
    [false, 'present', false]);
});

test('begun with a key it takes the whole screen', async (t) => {
  const tab = await open(t, 'example=classroom', ROOM);
  await tab.value("document.getElementById('present').focus()");
  await tab.key('Enter');
  await tab.until("document.fullscreenElement?.id === 'stage'");
  await tab.key('PageDown');
  assert.match(await says(tab), /input/);
  await tab.key('Escape');
  await tab.until('document.fullscreenElement === null');
  assert.equal(await tab.value("document.getElementById('stage').checkVisibility()"), false);
});

test('on a phone the picture comes first, then the answer, then the texts', async (t) => {
  const tab = await open(t, 'example=quarry', { width: 390, height: 844, phone: true });
  const tops = await tab.value("['#diagram', '#answer', '#machine', '.write', '#tools-panel'].map((each) => document.querySelector(each).getBoundingClientRect().top)");
  assert.deepEqual(tops, [...tops].sort((a, b) => a - b));
});
