/**
 * Names and titles are anybody's text. Each picture and dump takes them through one of these functions.
 */

/**
 * Characters that a person cannot see or that turn the text around them: controls, lone surrogates, line separators, joiners,
 * marks of direction, tags, and what XML has no place for. They are shown as U+FFFD.
 */
const UNSEEN = new RegExp([
  '[\\u0000-\\u001f\\u007f-\\u009f\\u00ad\\u061c\\u180e\\u200b-\\u200f\\u2028-\\u202e\\u2060-\\u206f]',
  '[\\ud800-\\udfff\\ufeff\\ufff0-\\ufffb\\ufffe\\uffff\\u{e0000}-\\u{e0fff}]',
].join('|'), 'gu');

/**
 * The text with every unseen character made visible.
 * @param {unknown} text
 * @returns {string}
 */
export function visible(text) {
  return String(text).replace(UNSEEN, '\ufffd');
}

const MARKUP = { '&': '&amp;', '<': '&lt;', '>': '&gt;', '"': '&quot;', "'": '&#39;' };

/**
 * As content or attribute of SVG, XML or HTML.
 * @param {unknown} text
 * @returns {string}
 */
export function escapeXml(text) {
  return visible(text).replace(/[&<>"']/g, (c) => MARKUP[/** @type {keyof typeof MARKUP} */ (c)]);
}

/**
 * As a quoted string of DOT. A backslash is doubled, so that no name turns into one of Graphviz's escapes.
 * @param {unknown} text
 * @returns {string}
 */
export function quoteDot(text) {
  return '"' + visible(text).replace(/[\\"]/g, '\\$&') + '"';
}

/**
 * As a value of a string signal in a VCD, where blanks end a value: whatever is not plain ASCII is written as its bytes in UTF-8,
 * `\xHH` each, which GTKWave turns back.
 * @param {unknown} text
 * @returns {string}
 */
export function vcdWord(text) {
  const bytes = new TextEncoder().encode(visible(text));
  let word = '';
  for (const byte of bytes) {
    const plain = byte > 32 && byte < 127 && byte !== 92;
    word += plain ? String.fromCharCode(byte) : '\\x' + byte.toString(16).padStart(2, '0');
  }
  return word === '' ? '\\x20' : word;
}

/**
 * In a comment of C, Rust or Promela: it can neither end the comment nor begin another, nor go on in the next line.
 * @param {unknown} text
 * @returns {string}
 */
export function inComment(text) {
  return visible(text).replace(/[*/\\?]/g, '_');
}
