/** Elements of the page. Whatever is shown goes in as text, never as markup; only pictures and worksheets, whose words are escaped, are parsed. */

import { visible } from '../escape.js';

/** @typedef {HTMLElement|string|null|false|undefined} Child */

/**
 * @param {string} id
 * @returns {any}
 */
export function byId(id) {
  return document.getElementById(id);
}

/**
 * @param {string} tag @param {Record<string, any>} [attributes]  `onclick` and the like are functions
 * @param {...(Child|Child[])} children
 * @returns {any}
 */
export function make(tag, attributes = {}, ...children) {
  const element = document.createElement(tag);
  for (const [name, value] of Object.entries(attributes)) {
    if (typeof value === 'function') element.addEventListener(name.slice(2), value);
    else if (value !== null && value !== undefined && value !== false) element.setAttribute(name, value === true ? '' : String(value));
  }
  fill(element, ...children);
  return element;
}

/**
 * Closes a menu. The focus does not stay behind in what is hidden now.
 * @param {any} menu  an element `details`
 */
export function closeMenu(menu) {
  if (menu.open && menu.contains(document.activeElement)) menu.querySelector('summary').focus();
  menu.open = false;
}

/** Texts on one side, answer and pictures on the other; else all stands below each other, and the bar says what a record says. */
export const inTwoColumns = () => matchMedia('(min-width: 901px)').matches;

/**
 * Puts these children in the place of all others.
 * @param {Element} element @param {...(Child|Child[])} children
 */
export function fill(element, ...children) {
  const nodes = children.flat(2).filter((child) => child !== null && child !== false && child !== undefined);
  element.replaceChildren(...nodes.map((child) => (typeof child === 'string' ? visible(child) : /** @type {any} */ (child))));
}

/** @param {...string} ids  of elements in which nothing is left */
export function empty(...ids) {
  for (const id of ids) byId(id).textContent = '';
}

/**
 * The picture that each element shows, and what it was made of.
 * @type {WeakMap<Element, {svg: string, scale: number, picture: Element}>}
 */
const SHOWN = new WeakMap();

/**
 * A picture in the place of what the element shows. One that was shrunk to its room is shown in full size, so that its words can be read. One
 * that is there already stays: to lay it out again is most of what a picture costs.
 * @param {Element} element @param {string} svg @param {number} [scale]  so many times as large as it was drawn
 */
export function show(element, svg, scale = 1) {
  const shown = SHOWN.get(element);
  if (shown?.svg !== svg || shown.scale !== scale || element.firstChild !== shown.picture) {
    const parsed = /** @type {any} */ (new DOMParser().parseFromString(svg, 'image/svg+xml').documentElement);
    const picture = document.importNode(parsed, true);
    picture.style.width = `${Math.max(scale * parsed.width.baseVal.value, parsed.viewBox.baseVal.width)}px`;
    element.replaceChildren(picture);
    SHOWN.set(element, { svg, scale, picture });
  }
  revealLit(element);
}

/**
 * A picture that is wider than its room is moved until the lit state is in sight.
 * @param {Element} element
 */
function revealLit(element) {
  const lit = element.scrollWidth > element.clientWidth && element.querySelector('.state.lit');
  if (!lit) return;
  const [room, state] = [element.getBoundingClientRect(), lit.getBoundingClientRect()];
  if (state.left < room.left || state.right > room.right) element.scrollLeft += (state.left + state.right - room.left - room.right) / 2;
}

/**
 * A file for the reader to keep.
 * @param {string} name @param {Uint8Array|string|Blob} content @param {string} [type]
 */
export function save(name, content, type = 'application/octet-stream') {
  const url = URL.createObjectURL(content instanceof Blob ? content : new Blob([/** @type {any} */ (content)], { type }));
  make('a', { href: url, download: name }).click();
  setTimeout(() => URL.revokeObjectURL(url), 10000);
}
