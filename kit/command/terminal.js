/** Lines for people and objects for scripts. Names and files are anybody's text: nothing unseen goes out. */

import { visible } from '../escape.js';

/** @typedef {import('./io.js').Io} Io */
/** @typedef {'green'|'red'|'bold'|'quiet'} Colour */

const CODES = { green: 32, red: 31, bold: 1, quiet: 2 };
const INDENT = '  ';

/**
 * A character as JSON and JavaScript can write it, half by half where it has two.
 * @param {string} character
 */
export function unicodeEscape(character) {
  return Array.from({ length: character.length }, (_, k) => `\\u${character.charCodeAt(k).toString(16).padStart(4, '0')}`).join('');
}

/**
 * JSON on one line. What cannot be seen is written as an escape, so that the object is the same and a terminal is not moved.
 * @param {unknown} value
 */
export function jsonLine(value) {
  const line = JSON.stringify(value);
  return visible(line) === line ? line : [...line].map((c) => (visible(c) === c ? c : unicodeEscape(c))).join('');
}

/**
 * That something could not be asked, as an object.
 * @param {string} message
 */
export const notAsked = (message) => ({ answer: 'not asked', says: message.split('\n') });

/**
 * Words in lines of a width.
 * @param {string} text @param {number} width
 */
function wrapped(text, width) {
  const lines = [''];
  for (const word of text.split(' ')) {
    const last = lines[lines.length - 1];
    if (last !== '' && last.length + 1 + word.length > width) lines.push(word);
    else lines[lines.length - 1] = last === '' ? word : `${last} ${word}`;
  }
  return lines;
}

/** Where answers go: to the standard output, or beside it where that takes the bytes or text that were asked for. */
export class Terminal {
  /**
   * @param {Io} io @param {{plain: boolean, beside: boolean}} how
   */
  constructor(io, { plain, beside }) {
    this.io = io;
    this.plain = plain;
    this.beside = beside;
    this.coloured = io.colours && !plain && !beside;
    this.isTerminal = beside ? io.complainsToTerminal : io.printsToTerminal;
    /** @type {number|null} when it is drawn next, once there is something to wait for */
    this.progressAt = null;
    this.progressShown = false;
  }

  /** @param {string} line @param {Colour} [colour] */
  line(line, colour) {
    const seen = visible(line);
    this.#put(`${this.paint(seen, colour)}\n`);
  }

  /**
   * A sentence, indented; left out of plain answers.
   * @param {string} text @param {Colour} [colour]
   */
  sentence(text, colour) {
    if (this.plain) return;
    const seen = visible(text);
    const lines = this.isTerminal ? wrapped(seen, Math.max(20, this.io.columns - INDENT.length)) : [seen];
    for (const line of lines) this.#put(`${INDENT}${this.paint(line, colour)}\n`);
  }

  /**
   * Lines whose blanks count, indented; left out of plain answers.
   * @param {string} text
   */
  block(text) {
    if (this.plain) return;
    for (const line of text.split('\n')) this.#put(`${INDENT}${visible(line)}\n`);
  }

  /** @param {unknown} value */
  json(value) {
    this.clearProgress();
    this.io.print(`${jsonLine(value)}\n`);
  }

  /** @param {string} text @param {Colour} [colour] */
  paint(text, colour) {
    return colour && this.coloured ? `\x1b[${CODES[colour]}m${text}\x1b[0m` : text;
  }

  /**
   * How far it is, on one line of the terminal that is written over; only of work that takes longer than a second.
   * @param {number} done @param {number} of
   */
  progress(done, of) {
    if (!this.io.complainsToTerminal || of < 2) return;
    const now = Date.now();
    this.progressAt ??= now + 1000;
    if (now < this.progressAt) return;
    this.progressAt = now + 100;
    this.progressShown = true;
    this.io.complain(`\r\x1b[K${done} of ${of} journals`);
  }

  clearProgress() {
    if (this.progressShown) this.io.complain('\r\x1b[K');
    this.progressShown = false;
  }

  /** @param {string} text */
  #put(text) {
    this.clearProgress();
    if (this.beside) this.io.complain(text);
    else this.io.print(text);
  }
}
