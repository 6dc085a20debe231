/** The lesson of docs/TEACHING.md, gone through in a browser as a class would, step by step. */

import assert from 'node:assert/strict';
import { readFileSync } from 'node:fs';
import { test } from 'node:test';
import { readText } from '../notation.js';
import { VERDICT, choose, open, paneText } from './page-world.js';

const PAGE = readFileSync(new URL('../../docs/TEACHING.md', import.meta.url), 'utf8');
const done = new Set();
const step = (number) => done.add(number);

/** Drags a record's mark by so many units of time, with the mouse; what stands at the finger on the way. */
async function drag(tab, number, stops) {
  const { x, y, unit } = await tab.value(`(() => { const svg = document.querySelector('#diagram svg'); svg.scrollIntoView({ block: 'center' });
    const box = svg.querySelector('.record[data-record="${number}"]').lastElementChild.getBoundingClientRect();
    const { left, right, from, to } = svg.dataset;
    return { x: box.x + box.width / 2, y: box.y + box.height / 2, unit: (right - left) / (to - from) * svg.getBoundingClientRect().width / svg.viewBox.baseVal.width }; })()`);
  const mouse = async (type, units) => {
    await tab.send('Input.dispatchMouseEvent', { type, x: x + units * unit, y, button: 'left', buttons: 1, clickCount: 1 });
    await tab.frames();
  };
  const says = [];
  await mouse('mousePressed', 0);
  for (const units of stops) {
    await mouse('mouseMoved', units);
    says.push(await tab.text('#touch-says'));
  }
  await mouse('mouseReleased', stops.at(-1));
  return says;
}

test('how a controller works', async (t) => {
  const tab = await open(t, 'example=classroom', { width: 1920, height: 1080 });
  step(1);
  await tab.click('#present');
  const said = [];
  for (let k = 0; k < 16; k++) {
    await tab.key('PageDown');
    said.push(await tab.text('#stage-says'));
  }
  step(2);
  assert.ok(said.some((each) => /5 - 3 = 2 is at most 5/.test(each)));
  assert.ok(said.some((each) => /8 - 3 = 5 is at most 5/.test(each)));
  await tab.key('a');
  assert.ok(await tab.value("document.querySelector('#stage .state.lit') !== null"));
  await tab.key('Escape');
});

test('seen only at a poll', async (t) => {
  const tab = await open(t, 'example=never-seen');
  step(3);
  assert.match(await tab.text('#diagram'), /train, from 5 to 6: no poll took it, it was never seen/);
  await tab.click('#first');
  const said = [];
  for (let k = 0; k < 8; k++) {
    await tab.click('#next');
    said.push(await tab.text('#answer'));
  }
  assert.ok(said.some((each) => /no poll|never seen/.test(each)), said.join('\n'));
  step(4);
  const [refused, taken] = await drag(tab, 8, [1, 2]);
  assert.match(refused, /^refused 27 /);
  assert.equal(taken, '');
  assert.match(await tab.text(VERDICT), /^accepted .* state=1 /);
  await tab.click('#undo');
  await tab.click('#tab-journal');
  assert.match(await tab.text(VERDICT), /^accepted/);
});

test('from the last entry', async (t) => {
  const tab = await open(t, 'example=quarry');
  step(5);
  assert.equal(await tab.text(VERDICT), 'refused 28 at 132');
  assert.match(await tab.text('#answer'), /the entry of an earlier visit, at 2, was let stand/);
  step(6);
  await tab.click('#tool-compare');
  assert.equal(await tab.value("document.querySelectorAll('#tool-picture .first-difference').length"), 1);
  step(7);
  await tab.value("document.getElementById('make-topic').value = 'entry'; document.getElementById('make-seed').value = '7'");
  await tab.click('#make-about');
  assert.match(await tab.text(VERDICT), /^answered 0 of \d+$/);
  await tab.value('document.activeElement.blur()');
  await tab.key('n');
  for (let k = 0; k < 60 && !/refused 28/.test(await tab.text('#answer')); k++) await tab.key('1');
  assert.match(await tab.text('#answer'), /refused 28 at \d+/);
});

test('only what is delayed, until it is passed', async (t) => {
  const tab = await open(t, 'example=slip-hold-ignored');
  step(8);
  assert.match(await tab.text(VERDICT), /^refused 28 /);
  await choose(tab, 'slip-hold-reached');
  assert.match(await tab.text('#answer'), /The usual slip: the hold was taken to end when it is reached/);
  step(9);
  await tab.value("document.getElementById('make-topic').value = 'delayed'; document.getElementById('make-told').value = 'end'");
  await tab.click('#make-about');
  assert.match(await tab.text('#answer'), /What is right is told once all are answered/);
});

test('everybody by themselves, on a phone and on paper', async (t) => {
  const tab = await open(t, 'example=classroom');
  await tab.click('#make-shown');
  step(10);
  await tab.click('#link');
  const link = await tab.value("document.getElementById('link-text').value");
  assert.match(await tab.text('#link-box'), /opened as a file/);
  await tab.click('#link-close');
  step(11);
  await tab.value('window.print = () => { window.printed = true; }');
  await tab.click('#make-sheet');
  assert.deepEqual([await tab.value('window.printed'), await tab.text('#make-says')], [true, '']);
  const phone = await open(t, link.split('#')[1], { width: 390, height: 844, phone: true });
  assert.equal(await phone.text(VERDICT), 'answered 0 of 12');
  assert.equal(readText(`${await paneText(phone, 'table')}\n${await paneText(phone, 'journal')}`).exercise.blanks.filter(({ answer }) => answer !== null).length, 0);
  assert.ok(await phone.value("document.getElementById('diagram').getBoundingClientRect().top < document.getElementById('answer').getBoundingClientRect().top"));
});

test('how long it takes', async (t) => {
  const tab = await open(t, 'example=classroom');
  step(12);
  assert.match(await tab.text('#reaction-answer'), /^at most 14tight 12/);
  await tab.click('#slow');
  await tab.until("/So no time below 12 is true/.test(document.getElementById('reaction-slow').textContent)");
  assert.match(await tab.text(VERDICT), /^accepted end=13 .* state=1 /);
});

test('no step of the page is left out', () => {
  const steps = [...PAGE.matchAll(/^(\d+)\. /gm)].map(([, number]) => Number(number)).filter((number, k) => k >= 3);
  assert.deepEqual(steps, Array.from({ length: 12 }, (_, k) => k + 1));
  assert.deepEqual([...done].sort((a, b) => a - b), steps);
});
