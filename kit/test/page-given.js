/** What the tests of files and faults share: files that are made in the page, and what is left when nothing is answered. */

import assert from 'node:assert/strict';
import { readText } from '../notation.js';
import { PANES } from '../page/workspace.js';
import { sample } from './core.js';
import { VERDICT, paneText } from './page-world.js';

export const NOTHING = 'Nothing is answered';

/** The bytes of a sample's parts, by their kind. */
export const partsOf = (name) => Object.fromEntries(readText(sample(name)).parts.map(({ kind, bytes }) => [kind, bytes]));

export const textsOf = (tab) => Promise.all(PANES.map((pane) => paneText(tab, pane)));

/** How many pictures are in sight. */
export const pictures = (tab) => tab.value("[...document.querySelectorAll('main svg')].filter((each) => each.checkVisibility()).length");

/** Bytes as an expression. */
export const made = (bytes) => `Uint8Array.of(${[...bytes].join()})`;

/** Drops files that are made in the page, by expressions; and waits until the page said something about them. */
export async function dropMade(tab, files) {
  await tab.value(`(() => { const carried = new DataTransfer(); document.getElementById('notice').textContent = '';
    const files = [${files.map(([name, content]) => `[${JSON.stringify(name)}, ${content}]`).join()}];
    for (const [name, content] of files) carried.items.add(new File([content], name));
    document.body.dispatchEvent(new DragEvent('drop', { dataTransfer: carried, bubbles: true, cancelable: true })); })()`);
  await tab.until("document.getElementById('notice').textContent !== ''");
  await tab.frames();
}

/** Nothing is answered, for this reason, and the texts are as they were. */
export async function assertRefused(tab, before, says) {
  assert.equal(await tab.text(VERDICT), NOTHING);
  assert.match(await tab.text('#answer'), says);
  assert.equal(await tab.value("[...document.querySelectorAll('.badge')].map((each) => each.textContent).join('')"), '');
  assert.equal(await pictures(tab), 0);
  assert.deepEqual(await textsOf(tab), before);
}
