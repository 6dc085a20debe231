/**
 * A worksheet of what is shown and its solutions, on paper, by the browser's own print: they stand in the place of what the page prints else, until
 * that is done or another text is there.
 */

import { refusalLine } from '../answers.js';
import { stimulusOf } from '../rerun.js';
import { sheetSections } from '../sheet/sections.js';
import { sheetOf } from '../sheet.js';
import { joinTexts } from './documents.js';
import { empty } from './dom.js';

/** @typedef {import('./page.js').Page} Page */
/** @typedef {import('../types.js').Kind} Kind */

export class Sheets {
  /** @type {{texts: string, html: string}|null} */
  #ready = null;

  /** @param {Page} page */
  constructor(page) {
    this.page = page;
  }

  /** The stimulus of what is shown, an exercise too; null if there is none. */
  #stimulus() {
    const { subject } = this.page;
    if (!subject) return null;
    return subject.kind === 'stimulus' ? subject.part.bytes : stimulusOf(subject.part.bytes, subject.kind === 'exercise' ? 'journal' : subject.trace.form);
  }

  /**
   * Says why nothing is printed, or nothing.
   * @param {Kind[]} kinds
   */
  print(kinds) {
    const { page } = this;
    const { reading: { table }, decoded } = page.answers;
    const stimulus = this.#stimulus();
    if (!table || !decoded || !stimulus) return 'There is nothing to be printed: a table that passes and a run are needed.';
    const made = sheetOf(page.library, { table: table.bytes, stimulus, names: decoded.names, title: page.title, kinds });
    if (!made.ok) return `Its inputs and times cannot be run: ${refusalLine(made)}.`;
    this.#ready = { texts: joinTexts(page.texts), html: sheetSections(made.sheet) };
    window.print();
    return '';
  }

  /** What is to be printed in the place of the page, if that is what its texts are still. */
  ready() {
    return this.#ready?.texts === joinTexts(this.page.texts) ? this.#ready.html : null;
  }

  done() {
    this.#ready = null;
    empty('paper');
  }
}
