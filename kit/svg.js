/**
 * SVG as text. Whatever stands in an attribute or in a text is escaped here, so that no caller can forget it.
 */
import { escapeXml } from './escape.js';

export const FONT = "'DejaVu Sans', Verdana, 'Segoe UI', Roboto, Arial, sans-serif";

/**
 * Markup that one of these functions made. It is a class of its own, so that text is never taken for markup.
 */
export class Markup {
  /** @param {string} source */
  constructor(source) {
    this.source = source;
  }

  toString() {
    return this.source;
  }
}

/**
 * @typedef {Markup | string | null | false | undefined | any[]} Content   a string is text, and is escaped; a list has contents
 * @typedef {Record<string, string | number | null | undefined | false>} Attributes
 */

/** No picture shows more of a text. */
const LONGEST = 400;

/** @param {string} words */
const cut = (words) => (words.length <= LONGEST ? words : `${[...words.slice(0, LONGEST)].slice(0, -1).join('')}…`);

/**
 * A number with two decimals at most.
 * @param {number} value
 * @returns {string}
 */
export function short(value) {
  return Number.isFinite(value) ? String(Math.round(value * 100) / 100) : '0';
}

/**
 * @param {Attributes} attributes
 * @returns {string}
 */
function attributesText(attributes) {
  let text = '';
  for (const [name, value] of Object.entries(attributes)) {
    if (value === null || value === undefined || value === false) continue;
    text += ` ${name}="${typeof value === 'number' ? short(value) : escapeXml(value)}"`;
  }
  return text;
}

/**
 * @param {Content} content
 * @returns {string}
 */
function contentText(content) {
  if (Array.isArray(content)) return content.map(contentText).join('');
  if (content instanceof Markup) return content.source;
  return content ? escapeXml(cut(content)) : '';
}

/**
 * An element. Names of elements and attributes are the program's own.
 * @param {string} name @param {Attributes} attributes @param {...Content} content
 * @returns {Markup}
 */
export function element(name, attributes, ...content) {
  const inner = contentText(content);
  const start = `<${name}${attributesText(attributes)}`;
  return new Markup(inner === '' ? `${start}/>` : `${start}>${inner}</${name}>`);
}

/** @param {Attributes} attributes @param {...Content} content */
export const group = (attributes, ...content) => element('g', attributes, ...content);

/** @param {number} x @param {number} y @param {number} width @param {number} height @param {Attributes} [more] */
export const rect = (x, y, width, height, more = {}) => element('rect', { x, y, width: Math.max(width, 0), height, ...more });

/**
 * @param {number} x1 @param {number} y1 @param {number} x2 @param {number} y2 @param {string} stroke @param {number} [width]
 * @param {Attributes} [more]
 */
export const line = (x1, y1, x2, y2, stroke, width = 1, more = {}) =>
  element('line', { x1, y1, x2, y2, stroke, 'stroke-width': width, ...more });

/** @param {number} cx @param {number} cy @param {number} r @param {Attributes} [more] */
export const circle = (cx, cy, r, more = {}) => element('circle', { cx, cy, r, ...more });

/** @param {string} d @param {Attributes} [more] */
export const path = (d, more = {}) => element('path', { d, ...more });

/**
 * A line of text; `y` is its base line.
 * @param {number} x @param {number} y @param {string} content
 * @param {{size: number, fill: string, anchor?: 'start'|'middle'|'end', bold?: boolean}} style @param {Attributes} [more]
 */
export function text(x, y, content, style, more = {}) {
  if (content === '') return new Markup('');
  const anchor = style.anchor === 'start' ? null : style.anchor ?? null;
  const bold = style.bold ? 'bold' : null;
  return element('text', { x, y, 'font-size': style.size, fill: style.fill, 'text-anchor': anchor, 'font-weight': bold, ...more }, content);
}

/**
 * A whole picture, which says in words what it shows.
 * @param {{width: number, height: number, title: string, description?: string, className: string, data?: Attributes}} about
 * @param {...Content} content
 * @returns {string}
 */
export function picture(about, ...content) {
  const { width, height, title, description, className, data } = about;
  const attributes = {
    xmlns: 'http://www.w3.org/2000/svg', class: className, width, height, viewBox: `0 0 ${short(width)} ${short(height)}`,
    'font-family': FONT, role: 'img', 'aria-label': description ? `${title}: ${description}` : title, ...data,
  };
  const words = [element('title', {}, title), description ? element('desc', {}, description) : null];
  return element('svg', attributes, words, ...content).source;
}
