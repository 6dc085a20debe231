/**
 * A slow run beside a reaction time: looked for piece by piece, so that the page stays awake, and put in the place of the journal. What is
 * said of it stands there for as long as the table, the question and that journal do.
 */

import { recordsText } from '../notation.js';
import { SlowRun, saySlow } from '../slow.js';
import { timesOf } from '../times.js';
import { fill, make } from './dom.js';

/** @typedef {import('../types.js').Library} Library */
/** @typedef {import('../types.js').Table} Table */
/** @typedef {import('./reaction.js').Question} Question */
/** @typedef {{bytes: Uint8Array, table: Table}} Given */
/** @typedef {{journal: () => string, take: (journal: string) => void}} Journals   the one on the page, and another in its place */

/** In milliseconds: of one piece of the search, and of all of it. */
const PIECE = 25;
const MOST = 5000;

/** @param {Given} given @param {Question} question */
const keyOf = ({ bytes }, question) => JSON.stringify([[...bytes], question]);

export class SlowPanel {
  /** @param {Library} library @param {Element} room @param {Journals} journals */
  constructor(library, room, journals) {
    this.library = library;
    this.room = room;
    this.journals = journals;
    /** What the room is for now; '' where nothing can be asked. */
    this.key = '';
    /** @type {{key: string, journal: string|null, says: string[]}|null} what was found, and beside which journal it may stand */
    this.found = null;
    /** @type {SlowRun|null} what is looked for now */
    this.search = null;
  }

  /** What is looked for is not wanted any more. */
  stop() {
    this.search = null;
  }

  /**
   * The table, the question or the journal may be another now.
   * @param {Given|null} given @param {Question|null} question  null where there is no time to be shown
   */
  update(given, question) {
    const key = given && question ? keyOf(given, question) : '';
    if (key === this.key && this.search) return;
    this.stop();
    this.key = key;
    if (!given || !question) return void fill(this.room);
    const { found } = this;
    const still = found?.key === key && (found.journal === null || found.journal === this.journals.journal());
    const button = make('button', { type: 'button', id: 'slow' }, 'Show a slow run');
    button.addEventListener('click', () => this.#begin(given, question));
    fill(this.room, button, still && found ? make('p', {}, found.says.join(' ')) : '');
  }

  /** @param {Given} given @param {Question} question */
  #begin(given, question) {
    const answer = timesOf(this.library, given.bytes, question);
    if (!answer.ok) return;
    this.search = new SlowRun(this.library, given.bytes, question, answer);
    fill(this.room, make('p', { class: 'hint', 'aria-busy': 'true' }, 'Looking for a slow run.'));
    this.#go(this.search, given, question, MOST);
  }

  /** @param {SlowRun} search @param {Given} given @param {Question} question @param {number} left */
  #go(search, given, question, left) {
    setTimeout(() => {
      if (search !== this.search) return;
      if (search.go(PIECE) || left <= PIECE) this.#end(search, given, question);
      else this.#go(search, given, question, left - PIECE);
    });
  }

  /** @param {SlowRun} search @param {Given} given @param {Question} question */
  #end(search, given, question) {
    this.stop();
    const slow = search.found();
    const { names } = given.table;
    const journal = slow && recordsText(slow.journal, 'journal', names);
    this.found = { key: this.key, journal, says: saySlow(names, search, slow) };
    if (journal !== null) this.journals.take(journal);
    else this.update(given, question);
  }
}
