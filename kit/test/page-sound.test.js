/** No answer stands beside anything else than what it was given for: whatever fails, and whatever changes. */

import assert from 'node:assert/strict';
import { rmSync } from 'node:fs';
import { test } from 'node:test';
import { EXAMPLES } from '../examples.js';
import { DRIVER } from './page-driver.js';
import { faultyPage } from './page-faults.js';
import { NOTHING, dropMade, made, partsOf, pictures } from './page-given.js';
import { VERDICT, caretBehind, choose, expected, open } from './page-world.js';

/** Functions that take an answer away, or hear of a fault: they have to be believed. */
const BELIEVED = ['page/dom.js byId', 'page/dom.js empty', 'page/page.js unanswered', 'page/page.js #forget', 'page/page.js texts',
  'page/held.js drop', 'page/workspace.js noAnswers', 'page/unanswered.js showNothing', 'page/unanswered.js emptyPictures', 'page/unanswered.js hide',
  'page/net.js sayFault', 'page/editor.js value', 'page/editor.js bare'];

test('a fault in any function of the page leaves nothing of an answer', async (t) => {
  const { folder, href } = faultyPage(/^(page\/\S+|library|live|notation|trace|answers|explain|diagram|automaton)\.js$/);
  t.after(() => rmSync(folder, { recursive: true }));
  const tab = await open(t, 'example=changed-verdict', {}, href);
  await tab.value(DRIVER);
  const reached = await tab.value('driver.reach()');
  const tried = Object.entries(reached).filter(([name]) => !BELIEVED.includes(name));
  assert.ok(tried.length > 150, `${tried.length}`);
  for (const each of tried) assert.equal(await tab.value(`driver.tryOne(${JSON.stringify(each)})`), null);
  assert.ok(tab.complaints.length >= tried.length / 2 && tab.complaints.every((each) => /a fault in/.test(each)));
  tab.complaints = [];
  t.diagnostic(`${tried.length} functions`);
});

test('a fault while the page begins is told', async (t) => {
  const { folder, href } = faultyPage(/^(page\/main|library)\.js$/);
  t.after(() => rmSync(folder, { recursive: true }));
  const tab = await open(t, '');
  for (const name of ['library.js loadLibrary', 'page/main.js listExamples']) {
    const { identifier } = await tab.send('Page.addScriptToEvaluateOnNewDocument', { source: `window.fault = '${name}'` });
    await tab.send('Page.navigate', { url: href });
    await tab.until(`document.querySelector('${VERDICT}')?.textContent === '${NOTHING}'`);
    assert.match(await tab.text('#answer'), new RegExp(`The page could not go on \\(Error: a fault in ${name}\\)`));
    await tab.send('Page.removeScriptToEvaluateOnNewDocument', { identifier });
  }
  Object.assign(tab, { complaints: [], requests: [] });
});

test('what was made of texts goes when they change', async (t) => {
  const tab = await open(t, 'example=changed-verdict');
  await tab.click('#tool-compare');
  assert.notEqual(await tab.text('#tool-answer'), '');
  await tab.click('#save summary');
  await caretBehind(tab, 'journal', 'krossvil journal');
  await tab.value("document.getElementById('save').open = true");
  await tab.type(' ');
  assert.equal(await tab.text('#tool-answer'), '');
  assert.equal(await tab.value("document.getElementById('save').open"), false);
  await tab.click('#link');
  await dropMade(tab, [['a.journal', made(partsOf('classroom').journal)]]);
  assert.equal(await tab.value("document.getElementById('link-box').open"), false);
  await caretBehind(tab, 'table', 'krossvil table');
  await tab.type('x');
  await tab.value("document.querySelector('#reaction-states input').click()");
  assert.ok(!/at most/.test(await tab.text('#reaction-answer')), 'no reaction time of another table');
  await dropMade(tab, [['b.kv', JSON.stringify('krossvil table\nnothing\n')]]);
  assert.equal(await pictures(tab), 0, 'no pictures of other files');
});

test('texts that change behind the page are never answered for', async (t) => {
  const tab = await open(t, 'example=classroom');
  for (const act of ["'next').click()", "'dark').click()", "'tool-compare').click()", "'save').open = true"]) {
    await choose(tab, 'classroom');
    await tab.value(`(() => { document.querySelector('#pane-journal textarea').value = 'krossvil journal'; document.getElementById(${act}; })()`);
    await tab.until(`document.querySelector('${VERDICT}').textContent === '${NOTHING}'`);
    assert.match(await tab.text('#answer'), /the answer belongs to other texts/);
  }
  assert.equal(tab.complaints.length, 4);
  tab.complaints = [];
});

test('in the place of a link that cannot be read nothing is answered', async (t) => {
  for (const hash of ['packed=AAAA', 'text=***', 'example=nowhere']) {
    const tab = await open(t, hash);
    assert.equal(await tab.text(VERDICT), NOTHING, hash);
    assert.match(await tab.text('#answer'), /What the address carries cannot be read/);
    await tab.click('#again');
    assert.equal(await tab.text(VERDICT), expected('changed-verdict'));
  }
});

test('no picture has the name of other texts than its own', async (t) => {
  const tab = await open(t, 'example=classroom');
  const titleOf = (name) => EXAMPLES.find((each) => each.name === name).title;
  const chosen = () => tab.value("document.getElementById('examples').value");
  const names = async () => [await tab.text('#diagram svg title'), await chosen(), await tab.text('#notice')];
  await choose(tab, 'changed-verdict');
  assert.deepEqual((await names()).slice(0, 2), [titleOf('changed-verdict'), 'changed-verdict']);
  await tab.click('#undo');
  assert.deepEqual(await names(), [titleOf('classroom'), '', '']);
  assert.equal(await tab.text(VERDICT), expected('classroom'));
  await tab.until("location.hash.startsWith('#packed=')");
  await caretBehind(tab, 'journal', 'krossvil journal');
  await tab.type('##');
  assert.deepEqual(await names(), [`${titleOf('classroom')}, changed`, '', '']);
  await choose(tab, 'changed-verdict');
  await tab.click('#tool-compare');
  await tab.click('#tool-put');
  assert.deepEqual(await names(), [`${titleOf('changed-verdict')}, changed`, '', '']);
});
