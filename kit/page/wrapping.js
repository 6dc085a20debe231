/** How many rows each line of a text field takes, where lines that are too long go on in the next row. */

import { make } from './dom.js';

/** More lines than this are not remembered. */
const REMEMBERED = 20000;
/** Characters that are as wide as each other in a face for programs. */
const EVEN = /^[\x20-\x7e]*$/;

export class Wrapping {
  /** @param {HTMLTextAreaElement} field  what has its style and stands beside it measures for it */
  constructor(field) {
    this.field = field;
    this.mirror = make('div', { class: 'mirror', 'aria-hidden': 'true' });
    field.after(this.mirror);
    /** @type {Map<string, number>} */
    this.rows = new Map();
    this.look = '';
    this.columns = 0;
    /** The last answer, and the lines that it is of. */
    this.last = { lines: [''], starts: [0, 1] };
  }

  /**
   * Before which row each line begins, and at the end how many rows there are.
   * @param {string[]} lines
   * @returns {number[]}
   */
  starts(lines) {
    if (!this.#follow() && this.last.lines === lines) return this.last.starts;
    const isShort = (/** @type {string} */ line) => line.length <= this.columns && EVEN.test(line);
    this.#measure(new Set(lines.filter((line) => !isShort(line) && !this.rows.has(line))));
    const starts = [0];
    for (const line of lines) starts.push(starts[starts.length - 1] + (isShort(line) ? 1 : this.rows.get(line) ?? 1));
    this.last = { lines, starts };
    return starts;
  }

  /** Another width, or another size of type: everything is measured anew, and the answer is yes. */
  #follow() {
    const look = `${this.field.clientWidth} ${getComputedStyle(this.field).fontSize}`;
    if (look === this.look && this.rows.size < REMEMBERED) return false;
    this.look = look;
    this.rows.clear();
    this.mirror.style.width = `${this.field.clientWidth}px`;
    const sign = make('span', {}, '0'.repeat(100));
    this.mirror.replaceChildren(sign);
    sign.style.whiteSpace = 'pre';
    const { paddingLeft, paddingRight } = getComputedStyle(this.mirror);
    const room = this.field.clientWidth - parseFloat(paddingLeft) - parseFloat(paddingRight);
    this.columns = Math.floor(room / (sign.getBoundingClientRect().width / 100));
    this.mirror.replaceChildren();
    return true;
  }

  /** @param {Set<string>} lines */
  #measure(lines) {
    if (lines.size === 0) return;
    const boxes = [...lines].map((line) => {
      const box = document.createElement('div');
      box.textContent = line;
      return { line, box };
    });
    this.mirror.replaceChildren(...boxes.map(({ box }) => box));
    const height = parseFloat(getComputedStyle(this.mirror).lineHeight);
    for (const { line, box } of boxes) this.rows.set(line, Math.max(1, Math.round(box.offsetHeight / height)));
    this.mirror.replaceChildren();
  }
}
