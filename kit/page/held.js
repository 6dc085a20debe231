/** An answer, and the texts that it was given for. It is handed out only while these are the texts of the page: nobody can show it else. */

import { UNSAID } from './answer.js';
import { noTexts } from './documents.js';
import { PANES, noAnswers } from './workspace.js';

/** @typedef {import('./workspace.js').Texts} Texts */
/** @typedef {import('./workspace.js').Answers} Answers */
/** @typedef {{answers: Answers, subject: import('./workspace.js').Subject|null, said: import('./answer.js').Said}} Shown */

/** @param {Texts} one @param {Texts} other */
export const same = (one, other) => PANES.every((pane) => one[pane] === other[pane]);

export class Held {
  /** @type {Shown} */
  #shown = { answers: noAnswers(noTexts()), subject: null, said: UNSAID };

  /** @param {() => Texts} texts  those of the page */
  constructor(texts) {
    this.texts = texts;
  }

  /** @param {Shown} shown */
  hold(shown) {
    this.#shown = shown;
  }

  /**
   * Nothing is answered about the texts that are there.
   * @returns {boolean}  are they others than before?
   */
  drop() {
    const [old, texts] = [this.#shown.answers.texts, this.texts()];
    this.#shown = { answers: noAnswers(texts), subject: null, said: UNSAID };
    return !same(old, texts);
  }

  /** @returns {Shown} */
  get() {
    if (!same(this.#shown.answers.texts, this.texts())) throw new Error('the answer belongs to other texts');
    return this.#shown;
  }
}
