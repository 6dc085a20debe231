/** The page's address carries the texts: it can be handed on, and a reload loses nothing. */

import { joinTexts } from './documents.js';
import { byId } from './dom.js';
import { tooLong } from './limits.js';
import { toHash } from './link.js';

/** @typedef {import('./page.js').Page} Page */

const LINK_MOST = 30000;

/**
 * Other texts that came meanwhile have an address of their own.
 * @param {Page} page
 */
export async function carry(page) {
  const { texts } = page;
  const text = joinTexts(texts);
  const hash = tooLong(texts) ? '' : await toHash(text);
  if (joinTexts(page.texts) === text) setAddress(page, hash.length <= LINK_MOST ? hash : '');
}

/** @param {Page} page @param {string} hash */
export function setAddress(page, hash) {
  page.hash = `#${hash}`;
  try {
    history.replaceState(null, '', page.hash);
  } catch {
    // A browser that does not allow it has the link's window still.
  }
}

/**
 * A file has an address on its own machine only; then the texts are offered as well.
 * @param {Page} page
 */
export async function showLink(page) {
  const long = tooLong(page.texts);
  if (long) return page.notice(`There is no link. ${long}`);
  const text = joinTexts(page.texts);
  byId('link-text').value = `${location.href.replace(/#.*$/, '')}#${await toHash(text)}`;
  byId('link-plain').value = text;
  byId('link-file').hidden = location.protocol !== 'file:';
  byId('link-box').showModal();
  byId('link-text').select();
  for (const id of ['link-text', 'link-plain']) byId(id).scrollTop = 0;
}

/** @param {'link-text'|'link-plain'} id */
export async function copyFrom(id) {
  byId(id).select();
  try {
    await navigator.clipboard.writeText(byId(id).value);
  } catch {
    document.execCommand('copy');
  }
  byId('link-box').close();
}
