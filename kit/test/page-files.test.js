/** Files that are dropped, and texts of any length: what can be opened is answered by the library, the rest is refused in a sentence. */

import assert from 'node:assert/strict';
import { test } from 'node:test';
import { acceptanceLine, refusalLine } from '../answers.js';
import { readText, tableText } from '../notation.js';
import { library, sample } from './core.js';
import { assertRefused, dropMade, made, partsOf, pictures, textsOf } from './page-given.js';
import { VERDICT, caretBehind, choose, expected, open, paneText, setPane } from './page-world.js';

test('bytes around the limits are answered by the library, and much longer ones are refused unread', async (t) => {
  const tab = await open(t, 'example=classroom');
  const { table } = partsOf('classroom');
  for (const length of [65535, 65536, 65537, 70000]) {
    const bytes = new Uint8Array(length).fill(0x10);
    await dropMade(tab, [['long', `new Uint8Array(${length}).fill(0x10)`]]);
    assert.equal(await tab.text(VERDICT), refusalLine(library.checkJournal(table, bytes)), `${length}`);
    assert.deepEqual([...readText(await paneText(tab, 'journal')).parts[0].bytes], [...bytes]);
  }
  await choose(tab, 'classroom');
  const before = await textsOf(tab);
  await tab.value(`(() => { window.read = 0; const { arrayBuffer } = Blob.prototype;
    Blob.prototype.arrayBuffer = function () { window.read += this.size; return arrayBuffer.call(this); }; })()`);
  for (const [length, first, limit] of [[70001, 0x10, /70,001 bytes; of a journal at most 65,536/], [3000000, 0x10, /3,000,000 bytes; of a journal/],
    [3000000, 0x20, /of a stimulus at most 57,344 are read/], [3000000, 0x30, /of a short journal at most 65,536/],
    [3000000, 1, /of a table at most 70,000/]]) {
    await dropMade(tab, [['long', `(() => { const bytes = new Uint8Array(${length}); bytes.set([${first}, 0, 1]); return bytes; })()`]]);
    await assertRefused(tab, before, limit);
  }
  assert.ok(await tab.value('window.read') <= 5000);
  await tab.value("document.getElementById('again').focus()");
  await tab.key('Enter');
  assert.equal(await tab.text(VERDICT), expected('classroom'));
  assert.equal(await tab.value('document.activeElement.id'), 'tab-journal');
  assert.ok(await pictures(tab) > 0);
});

test('a text of any length is answered, or told at once that it is too long', async (t) => {
  const tab = await open(t, 'example=classroom');
  const before = await textsOf(tab);
  await setPane(tab, 'journal', `krossvil journal\n${'1 poll train\n'.repeat(130000)}`);
  assert.equal(await tab.text(VERDICT), 'refused 19 at 0');
  await choose(tab, 'classroom');
  const room = 6000000 - before[0].length - before[1].length - before[2].length - 2;
  await setPane(tab, 'journal', before[2] + '#'.repeat(room));
  assert.equal(await tab.text(VERDICT), expected('classroom'));
  const longer = before[2] + '#'.repeat(room + 1);
  await setPane(tab, 'journal', longer);
  await assertRefused(tab, [before[0], before[1], longer], /The texts have 6,000,001 bytes in all; at most 6,000,000 are read\./);
  await tab.until("location.hash === ''");
  await choose(tab, 'classroom');
  for (const [made, says] of [["'krossvil journal\\n' + '#'.repeat(6000000)", /has 6,000,017 bytes; of a text at most 6,000,000 are read/],
    ["'krossvil journal\\n' + '#'.repeat(5999983)", /long is too long beside the other texts\. The texts have 6,000,\d+ bytes in all/],
    ["'krossvil journal\\n' + '#\\n'.repeat(250000)", /long is too long .* The texts have \d+,\d+ lines in all; at most 200,000 are read here/]]) {
    await dropMade(tab, [['long', made]]);
    await assertRefused(tab, before, says);
  }
});

test('what is pasted and would be too long is not put in', async (t) => {
  const tab = await open(t, 'example=classroom');
  const before = await textsOf(tab);
  const command = (name) => tab.send('Input.dispatchKeyEvent', { type: 'keyDown', commands: [name] });
  const clip = async (text) => {
    await tab.value(`(() => { const field = document.createElement('textarea'); field.id = 'clip'; document.body.append(field);
      field.value = ${text}; field.select(); })()`);
    await command('copy');
    await tab.value("document.getElementById('clip').remove()");
    await caretBehind(tab, 'journal', 'krossvil journal');
    await command('paste');
    await tab.frames();
  };
  await clip("'#'.repeat(6000000)");
  await assertRefused(tab, before, /That is not put in\. With it: the texts have 6,00\d,\d+ bytes in all; at most 6,000,000 are read\./);
  await clip("' # mine'");
  assert.match(await paneText(tab, 'journal'), /^krossvil journal # mine\n/);
  assert.equal(await tab.text(VERDICT), expected('classroom'));
});

test('files of no known kind are refused with a word on what they look like', async (t) => {
  const tab = await open(t, 'example=classroom');
  const before = await textsOf(tab);
  const text = Buffer.from(sample('classroom'), 'utf16le');
  for (const [bytes, says] of [
    [[0x89, 0x50, 0x4e, 0x47, 13, 10], /Not opened: a\.file looks like a PNG picture\. *The texts are as they were\./],
    [text, /looks like a text in UTF-16\./], [[0xff, 0xfe, ...text], /UTF-16/],
    [Buffer.from('1 poll train\n'), /looks like a text that does not begin with the word krossvil\./],
    [[], /a\.file is empty\./], [[0xfe, 0, 1], /a\.file begins with the byte fe, with which no table, stimulus or journal begins\./],
    [[...Buffer.from('krossvil journal # Gr'), 0xfc, 0xdf], /is a text that is not in UTF-8\. Save it in UTF-8/]]) {
    await dropMade(tab, [['a.file', made(bytes)]]);
    await assertRefused(tab, before, says);
  }
  await tab.value("Blob.prototype.arrayBuffer = () => Promise.reject(new DOMException('gone', 'NotReadableError'))");
  await dropMade(tab, [['gone', made([0x10, 0, 1, 0])]]);
  await assertRefused(tab, before, /gone could not be read\. If it is a folder, open the files in it\./);
  await tab.click('#tab-table');
  assert.equal(await tab.text(VERDICT), expected('classroom'));
});

/** The list's rows: name, verdict, whether it is the one in the pane. */
const rows = (tab) => tab.value(`[...document.querySelectorAll('#together:not([hidden]) li')].map((row) => {
  const button = row.querySelector('button');
  return button ? [button.textContent, row.querySelector('span').textContent, button.getAttribute('aria-pressed')] : [row.textContent]; })`);

const lineOf = (answer) => (answer.ok ? acceptanceLine(answer) : refusalLine(answer));

test('of several journals each has its verdict, and one after the other can be had', async (t) => {
  const tab = await open(t, 'example=watchdog');
  const { table, journal } = partsOf('classroom');
  const changed = partsOf('changed-verdict').journal;
  const stamped = partsOf('stamped-journal');
  const lines = [lineOf(library.checkJournal(table, changed)), lineOf(library.checkJournal(table, journal)), 'not asked: its text has a mistake'];
  await dropMade(tab, [['a.journal', made(changed)], ['b.journal', made(journal)], ['c.kv', JSON.stringify('krossvil journal\ninput train\n')],
    ['d.table', made(table)], ['e.table', made(stamped.table)], ['f.png', made([0x89, 0x50, 0x4e, 0x47])]]);
  assert.deepEqual(await rows(tab), [['a.journal', lines[0], 'true'], ['b.journal', lines[1], 'false'], ['c.kv', lines[2], 'false'],
    ['Not opened: f.png looks like a PNG picture.'],
    ['Not opened: e.table has a second table, beside that of d.table. Open it alone.']]);
  assert.equal(await tab.text(VERDICT), lines[0]);
  assert.equal(await paneText(tab, 'table'), tableText(table));
  await tab.value("document.querySelectorAll('#together button')[1].focus()");
  await tab.key('Enter');
  assert.equal(await tab.text(VERDICT), lines[1]);
  assert.deepEqual((await rows(tab)).map(([, , pressed]) => pressed), ['false', 'true', 'false', undefined, undefined]);
  assert.deepEqual([...readText((await textsOf(tab)).join('\n')).parts.find(({ kind }) => kind === 'journal').bytes], [...journal]);
  assert.equal(await tab.value("document.activeElement === document.querySelectorAll('#together button')[1]"), true);
  await tab.click('#together li:nth-child(3) button');
  assert.equal(await tab.text(VERDICT), 'A mistake in the text');
  assert.equal(await tab.value("document.querySelectorAll('#diagram svg, #machine > *').length"), 0, 'no pictures of another journal');
  await tab.click('#undo');
  assert.equal(await tab.text(VERDICT), lines[1]);
  await caretBehind(tab, 'table', 'krossvil table');
  await tab.type('#');
  assert.deepEqual(await rows(tab), []);
});

test('the list of journals goes when other texts come', async (t) => {
  const tab = await open(t, 'example=classroom');
  const [one, other] = ['classroom', 'changed-verdict'].map((name) => made(partsOf(name).journal));
  const both = async () => {
    await dropMade(tab, [['one', one], ['other', other]]);
    assert.equal((await rows(tab)).length, 2);
  };
  await both();
  await choose(tab, 'changed-verdict');
  assert.deepEqual(await rows(tab), []);
  await both();
  await dropMade(tab, [['other', other]]);
  assert.deepEqual(await rows(tab), []);
  await both();
  await dropMade(tab, [['f.png', made([0x89, 0x50, 0x4e, 0x47])]]);
  assert.deepEqual(await rows(tab), []);
});

test('files are opened in the order in which they came', async (t) => {
  const tab = await open(t, 'example=classroom');
  const [slow, quick] = ['classroom', 'changed-verdict'].map((name) => made(partsOf(name).journal));
  await tab.value(`(() => { const { arrayBuffer } = Blob.prototype; let turn = 0; window.notices = [];
    const notice = document.getElementById('notice');
    new MutationObserver(() => notices.push(notice.textContent)).observe(notice, { childList: true });
    Blob.prototype.arrayBuffer = function () { const wait = turn++ === 0 ? 300 : 0;
      return new Promise((done) => setTimeout(done, wait)).then(() => arrayBuffer.call(this)); };
    for (const [name, bytes] of [['slow', ${slow}], ['quick', ${quick}]]) {
      const carried = new DataTransfer(); carried.items.add(new File([bytes], name));
      document.body.dispatchEvent(new DragEvent('drop', { dataTransfer: carried, bubbles: true })); } })()`);
  await tab.until('notices.length === 2');
  assert.deepEqual(await tab.value('notices'), ['Opened: slow', 'Opened: quick']);
  await tab.frames();
  assert.equal(await tab.text(VERDICT), expected('changed-verdict'));
});
