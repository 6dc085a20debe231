/**
 * Live: a run that the reader makes event by event, or with a clock that runs while a key or a button is held. Each event goes through the
 * library's live runtime; who decides a test or a tick by hand has the live check against him. The texts grow, and what the page shows is
 * the answer about them: of a refused record too, which is there to be seen until the next one is tried.
 */

import { Live } from '../live.js';
import { recordsText } from '../notation.js';
import { UNSAID } from './answer.js';
import { showControls } from './live-controls.js';
import { select } from './stepping.js';
import { PANES } from './workspace.js';

/** @typedef {import('./page.js').Page} Page */
/** @typedef {import('./workspace.js').Texts} Texts */
/** @typedef {import('../types.js').Kind} Kind */
/** @typedef {ReturnType<Live['take']>} Refused */

const BEAT = 350;

export class LivePanel {
  /**
   * The texts that the run has written.
   * @type {Texts|null}
   */
  #wrote = null;

  #clock = 0;

  /** @param {Page} page */
  constructor(page) {
    this.page = page;
    /** @type {Live|null} */
    this.run = null;
    this.now = 0;
    this.refused = false;
    this.open = false;
    this.byHand = false;
  }

  toggle() {
    this.open = !this.open;
    this.stop();
    showControls(this);
  }

  decideByHand() {
    this.byHand = !this.byHand;
    this.stop();
    showControls(this);
  }

  /**
   * If the texts are others than the run has written, it is over.
   * @param {Texts} texts
   */
  follow(texts) {
    if (this.#wrote && PANES.some((pane) => this.#wrote?.[pane] !== texts[pane])) this.forget();
    showControls(this);
  }

  /** The run is over; its texts stay. */
  forget() {
    this.run = null;
    this.#wrote = null;
    this.refused = false;
    this.stop();
  }

  /** @param {number} input */
  #begin(input) {
    const { page } = this;
    const { decoded, reading: { table } } = page.answers;
    if (!decoded || !table) return;
    page.remember();
    this.run = new Live(page.library, { table: table.bytes, cycle: decoded.cycle });
    this.now = 0;
    this.#try((run) => run.take('input', 0, input));
  }

  /** @param {(run: Live) => Refused} act */
  #try(act) {
    const { run } = this;
    if (!run) return;
    const refused = run.full ? null : act(run);
    this.refused = refused !== null;
    if (refused || run.full) this.stop();
    this.#write(run, refused);
  }

  /** @param {Live} run @param {Refused} refused */
  #write(run, refused) {
    const { page } = this;
    const { names } = page.answers.reading;
    const text = (/** @type {'stimulus'|'journal'} */ form) =>
      recordsText(refused?.form === form ? refused.bytes : run.ended(form), form, names);
    this.#wrote = { ...page.texts, stimulus: text('stimulus'), journal: text('journal') };
    page.put(this.#wrote, refused?.form ?? 'journal', 'A live run');
    if (!refused) select(page, run.records - 1);
  }

  /** @param {number} input  that the sensor gives now, or with which a run begins */
  change(input) {
    if (this.run) this.#try((run) => run.take('change', this.now, input));
    else this.#begin(input);
  }

  /** @param {Kind} kind */
  event(kind) {
    this.#try((run) => run.take(kind, this.now));
  }

  /** @param {Kind} kind @param {number} value */
  claim(kind, value) {
    this.#try((run) => run.claim(kind, this.now, value));
  }

  wait() {
    if (this.run) this.now++;
    showControls(this);
  }

  /**
   * What the controller does next, a unit of time later; or at once, where it must not wait any longer. Where nothing is answered the
   * clock does not go on.
   */
  #beat() {
    if (this.page.said === UNSAID) return;
    this.#clock = window.setTimeout(() => this.#beat(), BEAT);
    this.#try((run) => {
      this.now = Math.max(this.now, Math.min(this.now + 1, run.deadline));
      return run.take(run.next, this.now);
    });
  }

  go() {
    this.stop();
    if (this.run) this.#beat();
  }

  stop() {
    clearTimeout(this.#clock);
  }
}
