/**
 * Words at records. None is drawn over another, nor over a mark: a word that finds no room is left out.
 */
import { rect, text } from '../svg.js';
import { widthOf } from '../text-width.js';

/**
 * @typedef {Object} Box
 * @property {number} x
 * @property {number} y
 * @property {number} width
 * @property {number} height
 */

/**
 * @typedef {Object} Word
 * @property {number} x
 * @property {number} y          its base line
 * @property {string} text
 * @property {'start'|'middle'|'end'} anchor
 * @property {number} size
 * @property {string} fill
 * @property {boolean} [bold]
 */

export class Labels {
  /** @param {Box} page   no word leaves it */
  constructor(page) {
    this.page = page;
    /** @type {Box[]} */
    this.taken = [];
  }

  /**
   * Something is drawn here.
   * @param {number} x @param {number} y @param {number} width @param {number} height
   */
  block(x, y, width, height) {
    this.taken.push({ x, y, width, height });
  }

  /** @param {Box} box */
  isFree(box) {
    const { page } = this;
    const inside = box.x >= page.x && box.y >= page.y && box.x + box.width <= page.x + page.width &&
      box.y + box.height <= page.y + page.height;
    return inside && !this.taken.some((other) => meet(box, other));
  }

  /**
   * The first of the groups of words that finds room, all of it; nothing if none does.
   * @param {Word[][]} choices
   * @returns {Word[]}
   */
  choose(choices) {
    const chosen = choices.find((words) => words.every((word) => this.isFree(boxOf(word))));
    for (const word of chosen ?? []) this.taken.push(boxOf(word));
    return chosen ?? [];
  }
}

/**
 * @param {Box} a @param {Box} b
 */
export function meet(a, b) {
  return a.x < b.x + b.width && b.x < a.x + a.width && a.y < b.y + b.height && b.y < a.y + a.height;
}

/**
 * @param {Word} word
 * @returns {Box}
 */
export function boxOf(word) {
  const width = widthOf(word.text, word.size, word.bold) + 4;
  const x = word.anchor === 'end' ? word.x - width + 2 : word.anchor === 'middle' ? word.x - width / 2 : word.x - 2;
  return { x, y: word.y - word.size * 0.82, width, height: word.size * 1.06 };
}

/** @param {Word} word */
export const draw = (word) => text(word.x, word.y, word.text, word);

/**
 * A word on a plate, which keeps hatching and lines away from it.
 * @param {Word} word @param {string} paper
 */
export function drawOnPlate(word, paper) {
  const box = boxOf(word);
  return [rect(box.x, box.y, box.width, box.height, { fill: paper, 'fill-opacity': 0.9, rx: 2 }), draw(word)];
}
