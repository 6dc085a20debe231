/** Making exercises: of what the page shows, or about a topic by chance. What is right stands in none of the texts. */

import { exerciseAbout, topicOf, whyNot } from '../exercise/about.js';
import { makeExercise } from '../exercise.js';
import { refusalLine } from '../answers.js';
import { counted, say } from '../names.js';
import { exerciseText } from '../notation.js';
import { stimulusOf } from '../rerun.js';
import { joinTexts } from './documents.js';
import { byId, fill } from './dom.js';

/** @typedef {import('./page.js').Page} Page */
/** @typedef {import('./workspace.js').Texts} Texts */
/** @typedef {import('../types.js').Kind} Kind */

const SEEDS = 1000000;

export class Making {
  /**
   * The texts for which the reader asked to be told what is right.
   * @type {string|null}
   */
  #told = null;

  /** @param {Page} page */
  constructor(page) {
    this.page = page;
  }

  /**
   * @param {Texts} texts
   */
  tells(texts) {
    return this.#told !== null && this.#told === joinTexts(texts);
  }

  /** The reader asks to be told what is right. */
  tell() {
    this.#told = joinTexts(this.page.texts);
    this.page.answer();
  }

  /** The stimulus of what is shown; null if there is none. */
  stimulus() {
    const { subject } = this.page;
    if (!subject || subject.kind === 'exercise') return null;
    return subject.kind === 'stimulus' ? subject.part.bytes : stimulusOf(subject.part.bytes, subject.trace.form);
  }

  /** @returns {{kinds: Kind[], told: 'each'|'end'}} */
  #how() {
    const kinds = /** @type {Kind[]} */ (['poll', 'test', 'tick'].filter((kind) => byId(`make-${kind}`).checked));
    return { kinds, told: byId('make-told').value === 'end' ? 'end' : 'each' };
  }

  /** What stands in the panel: what can be made, and why not what cannot. While one types nothing in it moves. */
  follow() {
    const { page } = this;
    const { decoded, reading: { mistakes } } = page.answers;
    const ready = decoded !== null && mistakes.length === 0;
    byId('make-shown').disabled = !ready || this.stimulus() === null;
    byId('make-about').disabled = !ready;
    const topic = topicOf(byId('make-topic').value);
    fill(byId('make-says'), (decoded && topic ? whyNot(decoded, topic) : null) ?? '');
  }

  /**
   * @param {import('../exercise.js').Asked} asked @param {string} says
   */
  #put(asked, says) {
    const { page } = this;
    const count = asked.blanks.length + (asked.questions?.length ?? 0);
    if (count === 0) return fill(byId('make-says'), 'Nothing would be asked: choose polls, tests or ticks that are there.');
    page.replace({ table: page.texts.table, stimulus: '', journal: exerciseText(asked, page.answers.decoded?.names) }, 'journal', 'An exercise');
    page.notice(say`${says}${counted(count, 'value')} ${count === 1 ? 'is' : 'are'} asked. The link hands it on.`);
    byId('tab-journal').focus({ preventScroll: true });
    scrollTo(0, 0);
  }

  ofShown() {
    const { page } = this;
    const [table, stimulus] = [page.answers.reading.table, this.stimulus()];
    if (!table || !stimulus) return;
    const made = makeExercise(page.library, { table: table.bytes, stimulus }, this.#how());
    if (made.ok) return this.#put(made.asked, '');
    fill(byId('make-says'), `Its inputs and times cannot be run: ${refusalLine(made)}.`);
  }

  /** On paper, with its solutions. */
  sheet() {
    fill(byId('make-says'), this.page.sheets.print(this.#how().kinds));
  }

  /** The reaction time that the form asks for. */
  ofTime() {
    const { sets: { states, inputs }, rooms: { moves } } = this.page.reaction;
    const question = { states, inputs, moves: moves.value === '1' ? null : Number(moves.value), answer: null };
    this.#put({ told: this.#how().told, bytes: new Uint8Array(), blanks: [], questions: [question] }, '');
  }

  about() {
    const { page } = this;
    const { table } = page.answers.reading;
    const topic = topicOf(byId('make-topic').value);
    if (!table || !topic) return;
    const number = (/** @type {string} */ id) => (byId(id).value === '' || !byId(id).checkValidity() ? undefined : Number(byId(id).value));
    const seed = number('make-seed') ?? Math.floor(Math.random() * SEEDS);
    const made = exerciseAbout(page.library, table.bytes, topic, { seed, cycles: number('make-cycles'), ...this.#how() });
    if (made.ok) this.#put(made.asked, `Seed ${seed}, ${counted(made.cycles, 'cycle')}: `);
    else fill(byId('make-says'), made.says);
  }
}
