/** Mistakes in a text: where each stands, which word was likely meant, and causes only. */

/** @typedef {import('../types.js').Mistake} Mistake */
/** @typedef {import('./lexer.js').Token} Token */

const SHOWN = 10;
const MOST = 100;
const WIDTH = 120;
const LONGEST = 400;

/** The mistakes of one text, gathered instead of stopping at the first. Of each line the first is kept: others often follow from it. */
export class Mistakes {
  constructor() {
    /** @type {Mistake[]} */
    this.found = [];
    /** @type {Set<string>} */
    this.said = new Set();
    /** @type {Set<number>} */
    this.lines = new Set();
    /** How many were made, those that are not kept included: so a part with a mistake shows by it. */
    this.count = 0;
  }

  /**
   * @param {number} line @param {{column: number, width: number}|null|undefined} at  a token; null: the line's beginning
   * @param {string} says
   */
  add(line, at, says) {
    this.count++;
    const short = says.length > LONGEST ? `${says.slice(0, LONGEST)} ..` : says;
    if (!this.lines.has(line)) this.found.push({ line, column: at?.column ?? 1, width: at?.width ?? 1, says: short });
    this.lines.add(line);
  }

  /**
   * One cause, one mistake: what is wrong in many places for one reason is said once.
   * @param {string} cause @param {number} line @param {{column: number, width: number}|null|undefined} at @param {() => string} says
   */
  once(cause, line, at, says) {
    if (this.said.has(cause)) this.unsaid();
    else this.add(line, at, says());
    this.said.add(cause);
  }

  /** There are so many that nothing more is read. What is left out counts as a mistake. */
  stop() {
    const full = this.found.length >= MOST;
    if (full) this.unsaid();
    return full;
  }

  /** A mistake that follows from another: the part has it, but nothing is said. */
  unsaid() {
    this.count++;
  }

  /**
   * Something is missing; it is said at the line that it belongs to, beside other things that are missing there.
   * @param {number} line @param {Token} at @param {string} says
   */
  missing(line, at, says) {
    this.count++;
    this.found.push({ line, column: at.column, width: at.width, says });
  }

  /** In the order of the text. */
  sorted() {
    return [...this.found].sort((a, b) => a.line - b.line || a.column - b.column);
  }
}

/**
 * How many letters are to be changed, put in, left out or swapped with their neighbour to get from one word to the other.
 * @param {string} from @param {string} to
 */
function distance(from, to) {
  let older = /** @type {number[]} */ ([]);
  let last = Array.from({ length: to.length + 1 }, (_, k) => k);
  for (let i = 1; i <= from.length; i++) {
    const row = [i];
    for (let j = 1; j <= to.length; j++) {
      const same = from[i - 1] === to[j - 1];
      row[j] = Math.min(last[j] + 1, row[j - 1] + 1, last[j - 1] + (same ? 0 : 1));
      const swapped = i > 1 && j > 1 && from[i - 1] === to[j - 2] && from[i - 2] === to[j - 1];
      if (swapped) row[j] = Math.min(row[j], older[j - 2] + 1);
    }
    [older, last] = [last, row];
  }
  return last[to.length];
}

/**
 * The word that was likely meant; null if none is near.
 * @param {string} word @param {string[]} words
 */
export function likelyMeant(word, words) {
  const written = word.slice(0, 100).toLowerCase();
  const near = words
    .map((meant) => ({ meant, far: distance(written, meant.toLowerCase()) }))
    .filter(({ meant, far }) => far <= Math.max(1, Math.floor(Math.min(meant.length, written.length) / 3)))
    .sort((a, b) => a.far - b.far);
  return near.length > 0 ? near[0].meant : null;
}

/**
 * @param {string} word @param {string[]} words
 * @returns {string}  "; did you mean 'train'?" or nothing
 */
export function didYouMean(word, words) {
  const meant = likelyMeant(word, words);
  return meant === null ? '' : `; did you mean '${meant}'?`;
}

/**
 * A mistake with its line and a caret below. Of a long line the piece around the mistake is shown.
 * @param {Mistake} mistake @param {string[]} lines @param {string} file
 */
function showOne({ line, column, width, says }, lines, file) {
  const from = Math.max(0, column - 1 - WIDTH / 2);
  const source = (lines[line - 1] ?? '').slice(from, from + WIDTH).trimEnd().replaceAll(/[\p{Cc}\p{Cf}]/gu, ' ');
  const caret = ' '.repeat(column - 1 - from) + '^'.repeat(Math.max(1, Math.min(width, WIDTH / 2)));
  return `${file}:${line}:${column}: ${says}\n    ${source}\n    ${caret}`;
}

/**
 * The mistakes of a text as a person reads them: file, line, column, the line, a caret.
 * @param {{mistakes: Mistake[], lines: string[]}} text @param {string} [file]
 */
export function showMistakes(text, file = 'text') {
  const shown = text.mistakes.slice(0, SHOWN).map((mistake) => showOne(mistake, text.lines, file));
  const more = text.mistakes.length - shown.length;
  return [...shown, ...(more > 0 ? [`and ${more} more`] : [])].join('\n');
}
