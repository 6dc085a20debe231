/** How a picture on the page is drawn: its width, colours and size of type. */

/** @typedef {import('./page.js').Page} Page */

const LARGER = 1.25;

/**
 * How wide a picture is drawn: in large type it is drawn smaller, and then shown as wide.
 * @param {Page} page @param {HTMLElement} room
 * @returns {{width: number, theme: 'light'|'dark', scale: number}}
 */
export function lookOf({ large, dark }, room) {
  const style = getComputedStyle(room);
  const width = room.clientWidth - parseFloat(style.paddingLeft) - parseFloat(style.paddingRight);
  const scale = large ? LARGER : 1;
  return { width: Math.max(260, Math.floor(width / scale)), theme: dark ? 'dark' : 'light', scale };
}
