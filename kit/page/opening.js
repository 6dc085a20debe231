/** Texts from elsewhere: an example, files, what the address carries. */

import { setAddress } from './address.js';
import { choose } from './choosing.js';
import { noTexts, splitText, takeFiles } from './documents.js';
import { byId } from './dom.js';
import { tooLong } from './limits.js';
import { CARRIES, fromHash } from './link.js';
import { receive, sayLeft } from './receiving.js';

/** @typedef {import('./page.js').Page} Page */

const NAMED = 8;

/**
 * One after the other: what came first is opened first, however long it takes to be read.
 * @param {Page} page @param {() => Promise<void>} open
 */
function inTurn(page, open) {
  page.opening = page.opening.catch(() => {}).then(open);
  return page.opening;
}

/**
 * @param {Page} page @param {string} name
 * @returns {boolean}  is there such an example?
 */
export function openExample(page, name) {
  const sample = page.samples.find((each) => each.name === name);
  if (!sample) return false;
  const texts = { ...noTexts(), ...splitText(sample.text) };
  page.together.forget();
  page.reaction.begin(sample.asks);
  page.replace(texts, texts.journal ? 'journal' : 'table', sample.title);
  clearTimeout(page.waiting.get('link'));
  byId('examples').value = name;
  page.notice(sample.says);
  setAddress(page, `example=${name}`);
  return true;
}

/**
 * Files that were opened or dropped. If none of them can be opened, the texts stay, and the answer makes way for the reasons: else it
 * might be taken for one about the files.
 * @param {Page} page @param {File[]} files
 */
export function openFiles(page, files) {
  return inTurn(page, async () => {
    const { taken, left: unread } = await receive(files);
    const { opened, journals, left: others } = choose(taken);
    const left = [...unread, ...others];
    const { texts, filled } = takeFiles(page.texts, opened.map(({ bytes }) => bytes));
    const long = tooLong(texts);
    if (long) left.push(...opened.map(({ name }) => ({ name, why: `is too long beside the other texts. ${long}` })));
    if (long || opened.length === 0) return refuse(page, left);
    page.replace(texts, filled.includes('journal') ? 'journal' : filled[filled.length - 1] ?? page.pane, namesOf(opened));
    page.together.show(journals, left);
    page.notice(`Opened: ${namesOf(opened)}${byId('together').hidden ? '' : '. The others stand below the answer.'}`);
  });
}

/** @param {Page} page @param {import('./receiving.js').Left[]} left */
function refuse(page, left) {
  if (left.length === 0) return;
  page.notice(`Not opened: ${namesOf(left)}`);
  const more = left.length > NAMED ? [`Not opened: ${left.length - NAMED} others.`] : [];
  page.unanswered([...left.slice(0, NAMED).map(sayLeft), ...more, 'The texts are as they were.'], true);
}

/** @param {{name: string}[]} files */
function namesOf(files) {
  const names = files.slice(0, NAMED).map(({ name }) => name).join(', ');
  return files.length > NAMED ? `${names} and ${files.length - NAMED} more` : names;
}

/**
 * What the address carries; an example if it carries nothing. One in the place of something that cannot be read gets no answer: it might
 * be taken for one about what was sent.
 * @param {Page} page
 */
export function openAddress(page) {
  return inTurn(page, async () => {
    const { hash } = location;
    if (hash === page.hash && page.hash !== '') return;
    const carried = await fromHash(hash);
    page.hash = hash;
    if (carried && 'text' in carried) return openLink(page, carried.text);
    if (carried && openExample(page, carried.example)) return;
    openExample(page, page.opens);
    if (CARRIES.test(hash)) page.unanswered(['What the address carries cannot be read: ask for the link again. These texts are an example.'], true);
  });
}

/** @param {Page} page @param {string} text */
function openLink(page, text) {
  page.together.forget();
  const texts = { ...noTexts(), ...splitText(text) };
  page.replace(texts, texts.journal ? 'journal' : texts.stimulus ? 'stimulus' : 'table', 'A journal');
}
