/** What the tests of the page share: the page in a browser, and what its reader does with it. */

import assert from 'node:assert/strict';
import { execFileSync } from 'node:child_process';
import { after, before } from 'node:test';
import { fileURLToPath } from 'node:url';
import { acceptanceLine, refusalLine } from '../answers.js';
import { readText } from '../notation.js';
import { traceJournal } from '../trace.js';
import { library, sample } from './core.js';
import { Browser } from './page-browser.js';

export const FILE = new URL('../../target/kit/krossvil.html', import.meta.url);

/** @type {Browser} */
let browser;

before(() => {
  execFileSync(process.execPath, [fileURLToPath(new URL('../page/build', import.meta.url))]);
  browser = new Browser();
});

after(async () => {
  await browser.close();
});

/** A tab with an example; what it complained about and asked for is looked at when the test ends. */
export async function open(t, hash, size, page = FILE.href) {
  const tab = await browser.open(`${page}#${hash}`, size);
  t.after(async () => {
    assert.deepEqual(tab.complaints, []);
    assert.deepEqual(tab.requests.filter((url) => url.split('#')[0] !== page && !/^(blob|data):/.test(url)), []);
    await tab.close();
  });
  return tab;
}

/** The parts of a sample, and the line that the library's answer makes. */
export function expected(name) {
  const { parts, names } = readText(sample(name));
  const table = parts.find(({ kind }) => kind === 'table').bytes;
  const journal = parts.find(({ kind }) => ['journal', 'stamped', 'short'].includes(kind));
  const checked = library.checkTable(table);
  if (!checked.ok) return refusalLine(checked);
  if (!journal) return 'accepted';
  const trace = traceJournal(library, { table, journal: journal.bytes, form: journal.kind, names });
  return trace.refused ? refusalLine(trace.refused) : acceptanceLine(trace.answer);
}

export const VERDICT = '#verdict';

/** Chooses an example from the list. */
export async function choose(tab, name) {
  await tab.value(`(() => { const list = document.getElementById('examples'); list.value = ${JSON.stringify(name)};
    list.dispatchEvent(new Event('change')); })()`);
  await tab.frames();
}

/** Puts the caret behind the first place where a pane's text has these words. */
export async function caretBehind(tab, pane, words) {
  await tab.click(`#tab-${pane}`);
  await tab.value(`(() => { const field = document.querySelector('#pane-${pane} textarea'); field.focus();
    const at = field.value.indexOf(${JSON.stringify(words)}) + ${words.length}; field.setSelectionRange(at, at); })()`);
}

/** Puts a text in the place of a pane's. */
export async function setPane(tab, pane, text) {
  await tab.value(`(() => { const field = document.querySelector('#pane-${pane} textarea'); field.value = ${JSON.stringify(text)};
    field.dispatchEvent(new Event('input', { bubbles: true })); })()`);
  await tab.frames();
}

/** Drops files on the page, as bytes. */
export async function drop(tab, files) {
  await tab.value(`(() => { const carried = new DataTransfer();
    for (const [name, bytes] of ${JSON.stringify(files.map(([name, bytes]) => [name, [...bytes]]))}) {
      carried.items.add(new File([new Uint8Array(bytes)], name));
    }
    document.body.dispatchEvent(new DragEvent('drop', { dataTransfer: carried, bubbles: true, cancelable: true })); })()`);
  await tab.until(`document.getElementById('notice').textContent.includes(${JSON.stringify(files[0][0])})`);
  await tab.frames();
}

export const paneText = (tab, pane) => tab.value(`document.querySelector('#pane-${pane} textarea').value`);

/** What the page saves goes to this folder. */
export function allowSaving(folder) {
  return browser.send('Browser.setDownloadBehavior', { behavior: 'allow', downloadPath: folder });
}
