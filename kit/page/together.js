/** Files that came together: each journal with the library's verdict under the table that is there, to choose from, and what was left. */

import { acceptanceLine, refusalLine } from '../answers.js';
import { formOf } from '../fields.js';
import { isText, recordsText } from '../notation.js';
import { askJournal } from '../trace.js';
import { splitText } from './documents.js';
import { byId, fill, make } from './dom.js';
import { sayLeft } from './receiving.js';
import { readPanes } from './workspace.js';

/** @typedef {import('./page.js').Page} Page */
/** @typedef {import('./receiving.js').Taken} Taken */
/** @typedef {import('./receiving.js').Left} Left */
/** @typedef {import('./workspace.js').Texts} Texts */
/** @typedef {import('../trace.js').JournalForm} JournalForm */
/** @typedef {{look: string, line: string}} Verdict */

/**
 * The text that a journal has in its pane.
 * @param {Taken} file @param {import('../types.js').Names|null} names
 */
function textOf({ bytes }, names) {
  if (isText(bytes)) return splitText(new TextDecoder().decode(bytes)).journal ?? '';
  return recordsText(bytes, /** @type {JournalForm} */ (formOf(bytes)), names);
}

/**
 * @param {Page} page @param {Taken} file
 * @returns {Verdict}
 */
function verdictOf({ library, texts, answers }, { bytes }) {
  const { decoded, reading: { table } } = answers;
  if (!decoded || !table) return { look: 'mistake', line: 'not asked: there is no table that passes' };
  const text = isText(bytes) ? readPanes({ ...texts, stimulus: '', journal: textOf({ name: '', bytes }, null) }) : null;
  if (text && text.mistakes.length > 0) return { look: 'mistake', line: 'not asked: its text has a mistake' };
  const part = text?.journal ?? { bytes, kind: formOf(bytes) };
  const { answer, refused } = askJournal(library, table.bytes, part.bytes, /** @type {JournalForm} */ (part.kind));
  if (refused) return { look: 'refused', line: refusalLine(refused) };
  return answer ? { look: 'accepted', line: acceptanceLine(answer) } : { look: '', line: '' };
}

export class Together {
  /** @param {Page} page */
  constructor(page) {
    this.page = page;
    /** The table's text under which the journals were asked about. */
    this.table = '';
    /**
     * The journal that was put in its pane last.
     * @type {{button: any, text: string}|null}
     */
    this.chosen = null;
  }

  /**
   * The files in the panes are those that came; a single journal needs no list.
   * @param {Taken[]} journals @param {Left[]} left
   */
  show(journals, left) {
    const { texts, answers: { reading } } = this.page;
    const rows = (journals.length > 1 ? journals : []).map((file) => ({ file, ...this.#row(file) }));
    this.forget();
    this.table = texts.table;
    const inPane = rows.find(({ file }) => textOf(file, reading.names) === texts.journal);
    this.chosen = inPane ? { button: inPane.button, text: texts.journal } : null;
    fill(byId('together-list'), ...rows.map(({ row }) => row), ...left.map((each) => make('li', { class: 'hint' }, sayLeft(each))));
    byId('together').hidden = rows.length + left.length === 0;
    this.follow(texts);
  }

  /** @param {Taken} file */
  #row(file) {
    const { look, line } = verdictOf(this.page, file);
    const button = make('button', { type: 'button', onclick: () => this.#choose(file, button) }, file.name);
    return { button, row: make('li', {}, button, make('span', { class: look }, line)) };
  }

  /** @param {Taken} file @param {any} button */
  #choose(file, button) {
    const { page } = this;
    const text = textOf(file, page.answers.reading.names);
    this.chosen = { button, text };
    page.replace({ ...page.texts, journal: text }, 'journal', file.name);
    page.notice(`Opened: ${file.name}`);
  }

  /**
   * Under another table the verdicts are worth nothing.
   * @param {Texts} texts
   */
  follow({ table, journal }) {
    if (table !== this.table) this.forget();
    for (const button of byId('together-list').querySelectorAll('button')) {
      button.setAttribute('aria-pressed', String(button === this.chosen?.button && journal === this.chosen?.text));
    }
  }

  forget() {
    byId('together').hidden = true;
    byId('together-list').textContent = '';
    this.chosen = null;
  }
}
