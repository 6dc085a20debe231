/** Pieces of lines as numbers: what tables and records have in common when a text is read. */

import { plainNames } from '../names.js';
import { tokenNameFault } from './lexer.js';
import { didYouMean } from './mistakes.js';

/** @typedef {import('../types.js').Names} Names */
/** @typedef {import('../types.js').Origin} Origin */
/** @typedef {import('./lexer.js').Token} Token */
/** @typedef {import('./lexer.js').Line} Line */
/** @typedef {import('./mistakes.js').Mistakes} Mistakes */
/** @typedef {'state'|'input'|'output'|'timer'|'verdict'} What */

const VERDICTS = ['held', 'free'];
const NONE = plainNames({ states: 0, inputs: 0, outputs: 0 }, 0);

/** The mistakes of a text so far, and the names that are known. */
export class Reading {
  /**
   * @param {Mistakes} mistakes @param {Names|null} names
   */
  constructor(mistakes, names) {
    this.mistakes = mistakes;
    this.names = names;
    /**
     * Lists of names that could not be read: that a name is not in them is no mistake of its own.
     * @type {Set<What>}
     */
    this.unsound = new Set();
  }

  /** Some line could not be read: what is unknown may have stood there. */
  distrust() {
    this.unsound = new Set(['state', 'input', 'output', 'timer']);
  }

  /**
   * @param {What} what
   * @returns {string[]}
   */
  known(what) {
    if (what === 'verdict') return VERDICTS;
    const { states, inputs, outputs, timers } = this.names ?? NONE;
    return { state: states, input: inputs, output: outputs, timer: timers }[what];
  }

  /**
   * @param {Line} line @param {Token|undefined} token @param {number} limit @param {string} what  with its article
   * @returns {number}
   */
  number(line, token, limit, what) {
    if (!token) {
      this.mistakes.add(line.number, behind(line), `${what} is missing`);
    } else if (token.kind !== 'number' && token.kind !== 'gap') {
      this.mistakes.add(line.number, token, `${what} is a whole number, not '${token.text}'`);
    } else if (Number(token.text) > limit) {
      this.mistakes.add(line.number, token, `${what} of ${token.text} does not fit in its bytes: at most ${limit}`);
    } else {
      return Number(token.text);
    }
    return 0;
  }

  /**
   * A name as its number; a number stands for itself, out of range too: the library says so.
   * @param {Line} line @param {Token|undefined} token @param {What} what @param {number} [limit]
   * @returns {number}
   */
  member(line, token, what, limit = 255) {
    if (!token) {
      this.mistakes.add(line.number, behind(line), `the ${what}'s name is missing`);
      return 0;
    }
    if (token.kind === 'number') return this.number(line, token, limit, `a number for the ${what}`);
    if (token.kind !== 'word' && token.kind !== 'name') {
      this.mistakes.add(line.number, token, `here should stand the ${what}'s name`);
      return 0;
    }
    const k = this.known(what).indexOf(token.text);
    if (k < 0) this.unknown(line, token, what);
    else if (k > limit) this.mistakes.add(line.number, token, `'${token.text}' is ${what} number ${k}; a set goes up to ${limit}`);
    return k < 0 || k > limit ? 0 : k;
  }

  /**
   * @param {Line} line @param {Token} token @param {What} what
   */
  unknown(line, token, what) {
    if (this.unsound.has(what)) {
      this.mistakes.unsaid();
      return;
    }
    const { text } = token;
    if (!this.names && what !== 'verdict') {
      const says = () => `'${text}' is a name, and there is no table's text to take names from; a number stands for itself`;
      this.mistakes.once('names', line.number, token, says);
      return;
    }
    this.mistakes.once(`${what} ${text}`, line.number, token, () => `there is no ${what} '${text}'${this.hint(text, what)}`);
  }

  /**
   * The word that was likely meant, or where else the name belongs, or what there is.
   * @param {string} text @param {What} what
   */
  hint(text, what) {
    const known = this.known(what);
    const meant = didYouMean(text, known);
    const other = /** @type {What[]} */ (['state', 'input', 'output', 'timer', 'verdict']).find((kind) => this.known(kind).includes(text));
    if (meant) return meant;
    if (other) return `; '${text}' is ${other === 'state' || other === 'timer' || other === 'verdict' ? 'a' : 'an'} ${other}`;
    if (known.length === 0) return '';
    return `; there ${known.length === 1 ? 'is' : 'are'}: ${known.slice(0, 6).join(', ')}${known.length > 6 ? ' ..' : ''}`;
  }

  /**
   * Tokens with commas between them.
   * @param {Line} line @param {Token[]} tokens @param {string} what
   * @returns {Token[]}
   */
  listed(line, tokens, what) {
    const wrong = tokens.find((token, k) => (token.kind === 'comma') !== (k % 2 === 1));
    if (wrong) {
      this.mistakes.add(line.number, wrong, `${what} are written with a comma between them`);
      return [];
    }
    if (tokens.length > 0 && tokens.length % 2 === 0) {
      this.mistakes.add(line.number, tokens[tokens.length - 1], 'nothing follows this comma');
      return [];
    }
    return tokens.filter((_, k) => k % 2 === 0);
  }

  /**
   * A name where it is given.
   * @param {Line} line @param {Token} token
   * @returns {boolean}  whether it can be one
   */
  isName(line, token) {
    const fault = tokenNameFault(token);
    if (fault) this.mistakes.add(line.number, token, fault);
    return !fault;
  }

  /**
   * The bytes of a line that begins with `bytes`.
   * @param {Line} line
   * @returns {number[]}
   */
  raw(line) {
    const pairs = line.tokens.slice(1);
    const wrong = pairs.find((token) => token.kind === 'name' || !/^[0-9a-f]{2}$/i.test(token.text));
    if (wrong) this.mistakes.add(line.number, wrong, 'bytes are pairs of hexadecimal digits, as in: bytes 13 00 05');
    return wrong ? [] : pairs.map((token) => parseInt(token.text, 16));
  }

  /**
   * @param {Line} line @param {Token|undefined} token  the first that should not be there
   */
  tooMany(line, token) {
    if (token) this.mistakes.add(line.number, token, `'${token.text}' is a word too many`);
  }
}

/**
 * Just behind the line's last token.
 * @param {Line} line
 */
export function behind(line) {
  const last = line.tokens[line.tokens.length - 1];
  return { column: last.column + last.width, width: 1 };
}

/**
 * The bytes at a place came from these tokens.
 * @param {number} place @param {number} length @param {Line} line @param {Token[]} [tokens]  all of the line if none are given
 * @returns {Origin}
 */
export function origin(place, length, line, tokens = line.tokens) {
  const { column } = tokens[0];
  const last = tokens[tokens.length - 1];
  return { place, length, line: line.number, column, width: last.column + last.width - column };
}
