/** The page on paper: what the browser prints, as PDF, in both sizes and both ways of holding the sheet. */

import assert from 'node:assert/strict';
import { execFileSync } from 'node:child_process';
import { mkdtempSync, rmSync, writeFileSync } from 'node:fs';
import { tmpdir } from 'node:os';
import { join } from 'node:path';
import { test } from 'node:test';
import { sample } from './core.js';
import { choose, expected, open as openPage, paneText, setPane } from './page-world.js';

/** The page in a tab, where a click on print opens no window of the browser's: the tests print by the browser's protocol, which waits for none. */
const open = async (t, ...rest) => {
  const tab = await openPage(t, ...rest);
  await tab.value('window.print = () => {}, 0');
  return tab;
};

const SHEETS = [['A4', 8.27, 11.69], ['letter', 8.5, 11]].flatMap(([name, paperWidth, paperHeight]) =>
  [false, true].map((landscape) => ({ name: `${name} ${landscape ? 'across' : 'upright'}`, paperWidth, paperHeight, landscape })));

const UPRIGHT = SHEETS.filter(({ landscape }) => !landscape);

const plain = (text) => text.replace(/\s+/g, ' ').trim();

/** Words of a printed page with their sides, in shares of the sheet. */
function wordsOf(bbox) {
  const numbers = (source) => Object.fromEntries([...source.matchAll(/(\w+)="([\d.]+)"/g)].map(([, name, value]) => [name, Number(value)]));
  return bbox.split('<page ').slice(1).map((page) => {
    const { width, height } = numbers(page.slice(0, page.indexOf('>')));
    return [...page.matchAll(/<word ([^>]*)>([^<]*)</g)].map(([, sides, text]) => {
      const { xMin, xMax, yMin, yMax } = numbers(sides);
      return { text, left: xMin / width, right: xMax / width, top: yMin / height, bottom: yMax / height, size: yMax - yMin };
    });
  });
}

/** How bright the first printed page is, from 0 to 1. */
function brightness(file) {
  const picture = execFileSync('pdftoppm', ['-gray', '-r', '20', '-l', '1', file]);
  const [head] = /^P5\s+\d+\s+\d+\s+\d+\s/.exec(picture.toString('latin1'));
  const dots = picture.subarray(head.length);
  return dots.reduce((sum, dot) => sum + dot, 0) / dots.length / 255;
}

/** Prints the page as the browser's own command does. */
async function printed(t, tab, sheet = SHEETS[0]) {
  const folder = mkdtempSync(join(tmpdir(), 'krossvil-paper-'));
  t.after(() => rmSync(folder, { recursive: true }));
  const file = join(folder, 'page.pdf');
  const { data } = await tab.send('Page.printToPDF', { ...sheet, name: undefined });
  writeFileSync(file, Buffer.from(data, 'base64'));
  const read = (...options) => execFileSync('pdftotext', [...options, file, '-'], { encoding: 'utf8', maxBuffer: 1e8 });
  return { file, text: plain(read('-raw')), pages: wordsOf(read('-bbox')) };
}

const CONTROLS = ['Open', 'Save', 'Link', 'Large', 'Dark', 'Whole run', 'Next', 'Run the stimulus', 'Compare with the run', 'so many moves'];

/** The numbers of the diagram's axis stand in one row with the word `time`. */
function axisOf(pages) {
  for (const page of pages) {
    const time = page.find(({ text }) => text === 'time');
    if (time) return page.filter(({ text, bottom }) => /^[\d,]+$/.test(text) && Math.abs(bottom - time.bottom) < 0.005);
  }
  return [];
}

test('a printed page has title, answer, diagram, automaton and the texts in full, and no control', async (t) => {
  const tab = await open(t, 'example=quarry');
  await tab.click('#dark');
  const said = plain(await tab.value("document.querySelector('#answer .sentences').textContent"));
  for (const sheet of SHEETS) {
    const { file, text, pages } = await printed(t, tab, sheet);
    for (const words of ["The quarry's fault", expected('quarry'), said, 'The usual slip:', 'cycle at most 3']) {
      assert.ok(text.includes(words), `${sheet.name}: ${words}`);
    }
    for (const pane of ['table', 'stimulus', 'journal']) {
      for (const line of (await paneText(tab, pane)).split('\n')) assert.ok(text.includes(plain(line)), `${sheet.name}: ${line}`);
    }
    for (const control of CONTROLS) assert.ok(!text.includes(control), `${sheet.name}: ${control}`);
    const sides = pages.flat();
    assert.ok(sides.every(({ left, right, top, bottom }) => left > 0.02 && right < 0.98 && top > 0.02 && bottom < 0.98), sheet.name);
    assert.ok(sides.every(({ size }) => size >= 7), `${sheet.name}: words that are too small`);
    const axis = axisOf(pages);
    assert.ok(Math.min(...axis.map(({ left }) => left)) < 0.25 && Math.max(...axis.map(({ right }) => right)) > 0.9, `${sheet.name}: the axis`);
    assert.ok(pages.length <= 2, `${sheet.name}: ${pages.length} pages`);
    assert.ok(brightness(file) > 0.85, `${sheet.name}: ${brightness(file)}`);
  }
});

test('what is printed is of the texts that are there, and of nothing else', async (t) => {
  const tab = await open(t, 'example=changed-verdict');
  assert.ok(!(await printed(t, tab)).text.includes(', changed'));
  await setPane(tab, 'journal', sample('quarry').split(/(?=^krossvil journal)/m)[1]);
  const { text } = await printed(t, tab);
  assert.ok(text.includes(expected('quarry')) && !text.includes(expected('changed-verdict')));
  assert.ok(text.includes('The changed verdict, changed'), 'not the title of an example that is another');
  await setPane(tab, 'journal', 'krossvil journal\ninput no_tarin\n');
  const wrong = await printed(t, tab);
  assert.match(wrong.text, /Journal, line 2: there is no input 'no_tarin'/);
  assert.ok(wrong.text.includes('input no_tarin'));
  assert.ok(!wrong.text.includes(expected('quarry')) && axisOf(wrong.pages).length === 0, 'no picture of another text');
  for (const [lines, says] of [[130000, /It has 130,002 lines, and is not printed/], [200000, /Nothing is answered/]]) {
    await setPane(tab, 'journal', `krossvil journal\ninput train\n${'1 poll train\n'.repeat(lines)}`);
    const long = await printed(t, tab);
    assert.match(long.text, says);
    assert.ok(long.pages.length <= 2 && !long.text.includes(expected('quarry')), `${long.pages.length} pages`);
  }
});

test('a table alone, and a journal of 64 KB, are printed in full', async (t) => {
  const tab = await open(t, 'example=mixer');
  const alone = await printed(t, tab);
  assert.ok(alone.text.includes('Back to idle') && alone.text.includes('hold 12 delays stop, go') && alone.pages.length <= 2);
  await choose(tab, 'classroom');
  const cycles = Array.from({ length: 2700 }, (_, k) => `${3 * k + 1} poll no_train\n${3 * k + 2} test free\n${3 * k + 3} tick idle\n`);
  await setPane(tab, 'journal', `krossvil journal\ninput no_train\n${cycles.join('')}8100 end\n`);
  const { text, pages } = await printed(t, tab);
  assert.ok(pages[0].some(({ text: word }) => word === 'accepted'));
  for (const line of ['1 poll no_train', '4000 poll no_train', '8099 test free', '8100 end']) assert.ok(text.includes(line), line);
  assert.ok(pages.length < 45, `${pages.length} pages`);
});

test('a worksheet and its solutions are printed, on A4 and letter, and then the page again', async (t) => {
  const tab = await open(t, 'example=classroom');
  for (const sheet of UPRIGHT) {
    await tab.click('#make-sheet');
    const { text, pages } = await printed(t, tab, sheet);
    assert.ok(pages.length <= 3, sheet.name);
    const [work, solved] = [pages[0], pages.slice(1).flat()].map((words) => words.map((word) => word.text).join(' '));
    assert.match(work, /^The classroom run Name Date .*krossvil table cycle 3 /);
    assert.match(work, /12\. 11 tick: which state\?/);
    assert.ok(!/held\.|free\.|stays|4 left|over when/.test(work), 'no answer on the worksheet');
    assert.match(solved, /^The classroom run: solutions /);
    assert.match(solved, /5\. 5 test: held or free\? held\. Held: /);
    assert.ok(pages.flat().every(({ left, right, bottom }) => left > 0.02 && right < 0.98 && bottom < 0.98), sheet.name);
    assert.ok(!text.includes('Run the stimulus'));
  }
  await setPane(tab, 'journal', `${await paneText(tab, 'journal')}# more\n`);
  assert.match((await printed(t, tab)).text, /accepted end=12/);
});

test('on a worksheet the run of five states stands below them, in words that can be read', async (t) => {
  const tab = await open(t, 'example=mixer');
  await tab.click('#tab-stimulus');
  await setPane(tab, 'stimulus', 'krossvil stimulus\ninput stop\n1 poll\n1 test\n2 tick\n2 end\n');
  for (const sheet of UPRIGHT) {
    await tab.click('#make-sheet');
    const [first] = (await printed(t, tab, sheet)).pages;
    assert.ok(axisOf([first]).length > 0 && first.some(({ text }) => text === 'rinsing'), sheet.name);
    assert.ok(first.every(({ size }) => size >= 7), `${sheet.name}: words that are too small`);
  }
});
