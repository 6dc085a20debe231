/**
 * A text field with a margin of numbers and with marked lines. Lines that are too long go on in the next row. Only what is in view is
 * drawn, so that long journals stay quick.
 */

import { make } from './dom.js';
import { Wrapping } from './wrapping.js';

/** @typedef {{line: number, column?: number, width?: number, look: 'refused'|'mistake'|'current'}} Mark */

export class Editor {
  /**
   * @param {HTMLElement} room @param {{label: string, describedBy: string, onInput: () => void, onCaret: (line: number) => void}} given
   */
  constructor(room, { label, describedBy, onInput, onCaret }) {
    this.margin = make('div', { class: 'margin', 'aria-hidden': 'true' });
    this.marked = make('div', { class: 'marks', 'aria-hidden': 'true' });
    this.field = make('textarea', {
      'aria-label': label, 'aria-describedby': describedBy, spellcheck: 'false', autocapitalize: 'off', autocomplete: 'off', dir: 'ltr',
    });
    room.append(this.margin, make('div', { class: 'field' }, this.marked, this.field));
    this.wrapping = new Wrapping(this.field);
    /** @type {Mark[]} */
    this.marks = [];
    /** @type {Map<number, string>|null} */
    this.numbers = null;
    /** @type {string[]} */
    this.lines = [''];
    /** Before which row each line begins. */
    this.starts = [0, 1];
    this.field.addEventListener('input', () => this.#changed(onInput));
    this.field.addEventListener('scroll', () => this.draw());
    for (const event of ['click', 'keyup']) this.field.addEventListener(event, () => onCaret(this.caretLine()));
    new ResizeObserver(() => this.draw()).observe(this.field);
  }

  get value() {
    return this.field.value;
  }

  set value(text) {
    if (text === this.field.value) return;
    this.field.value = text;
    this.field.setSelectionRange(0, 0);
    this.field.scrollTop = 0;
    this.#changed(() => {});
  }

  /** @param {() => void} then */
  #changed(then) {
    this.lines = this.field.value.split('\n');
    then();
    this.draw();
  }

  caretLine() {
    return this.field.value.slice(0, this.field.selectionStart).split('\n').length;
  }

  /**
   * @param {Mark[]} marks @param {Map<number, string>|null} numbers  what stands in the margin beside the numbers of the lines
   */
  decorate(marks, numbers) {
    this.marks = marks;
    this.numbers = numbers;
    this.margin.classList.toggle('double', numbers !== null);
    this.draw();
  }

  /** Without any mark or number. */
  bare() {
    this.marks = [];
    this.numbers = new Map();
    this.margin.textContent = this.marked.textContent = '';
  }

  /** @param {number} line */
  reveal(line) {
    const { height, top: topOf } = this.#measure();
    const [top, below, room] = [topOf(line), topOf(line + 1) + height, this.field.clientHeight];
    if (top < this.field.scrollTop + height || below > this.field.scrollTop + room) {
      this.field.scrollTop = Math.max(0, top - room / 2);
    }
    this.draw();
  }

  /**
   * The caret at a piece of text, with the focus.
   * @param {{line: number, column: number, width: number}} spot
   */
  go({ line, column, width }) {
    const before = this.lines.slice(0, line - 1).reduce((sum, each) => sum + each.length + 1, 0);
    this.field.focus();
    this.field.setSelectionRange(before + column - 1, before + column - 1 + width);
    this.reveal(line);
  }

  linesInSight() {
    const { height, shift } = this.#measure();
    return (this.field.clientHeight - shift) / height;
  }

  /** The height of a row, what stands above the first one, and where a line begins. */
  #measure() {
    const style = getComputedStyle(this.field);
    const [height, shift] = [parseFloat(style.lineHeight) || 20, parseFloat(style.paddingTop) || 0];
    if (this.field.clientWidth > 0) this.starts = this.wrapping.starts(this.lines);
    return { height, shift, top: (/** @type {number} */ line) => shift + (this.starts[line - 1] ?? line - 1) * height };
  }

  draw() {
    const { height, top } = this.#measure();
    const { scrollTop, clientHeight } = this.field;
    if (clientHeight === 0) return;
    const isInView = (/** @type {number} */ line) => top(line + 1) >= scrollTop && top(line) <= scrollTop + clientHeight;
    const shown = this.lines.map((_, k) => k + 1).filter(isInView);
    const place = (/** @type {any} */ element, /** @type {number} */ line) => {
      element.style.top = `${top(line) - scrollTop}px`;
      element.style.height = `${(this.starts[line] - this.starts[line - 1]) * height}px`;
      return element;
    };
    this.margin.replaceChildren(...shown.flatMap((line) => this.#numbers(line).map((number) => place(number, line))));
    const marks = this.marks.filter(({ line }) => line <= this.lines.length && isInView(line));
    this.marked.replaceChildren(...marks.map((mark) => place(this.#band(mark), mark.line)));
  }

  /**
   * The line's own number, and what else is known of it.
   * @param {number} line
   */
  #numbers(line) {
    const looks = this.marks.filter((mark) => mark.line === line).map(({ look }) => look);
    const number = (/** @type {string} */ kind, /** @type {string} */ words) => make('span', { class: [kind, ...looks].join(' ') }, words);
    return [number('ordinal', String(line)), ...(this.numbers ? [number('number', this.numbers.get(line) ?? '')] : [])];
  }

  /**
   * A band over the whole line, with the meant piece of text set off. The text itself stands in the field above; here it only keeps
   * the place.
   * @param {Mark} mark
   */
  #band({ line, column, width = 1, look }) {
    const band = make('div', { class: `band ${look}` });
    if (column !== undefined) {
      const text = this.lines[line - 1] ?? '';
      const piece = document.createElement('span');
      piece.className = 'piece';
      piece.textContent = text.slice(column - 1, column - 1 + width) || ' ';
      band.append(text.slice(0, column - 1), piece, text.slice(column - 1 + width));
    }
    return band;
  }
}
