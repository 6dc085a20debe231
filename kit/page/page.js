/** The page itself: its three texts, the library's answer about them, and which record is looked at. */

import { carry } from './address.js';
import { UNSAID, sayAnswer, showAnswer, subjectOf } from './answer.js';
import { keepRoom } from './answer-room.js';
import { byId, fill, inTwoColumns } from './dom.js';
import { draw, drawWay } from './drawing.js';
import { Editor } from './editor.js';
import { Held, same } from './held.js';
import { tooLong } from './limits.js';
import { LivePanel } from './live.js';
import { Making } from './making.js';
import { saidAt } from './machine.js';
import { markTexts, showBadges, showFoot } from './marks.js';
import { Stage } from './presenting.js';
import { ReactionPanel } from './reaction.js';
import { Rooms } from './rooms.js';
import { Sheets } from './sheets.js';
import { lookAtLine } from './stepping.js';
import { Together } from './together.js';
import { Touching } from './touching.js';
import { closeOld, showNothing } from './unanswered.js';
import { PANES, ask } from './workspace.js';

/** @typedef {import('../types.js').Library} Library */
/** @typedef {import('./workspace.js').Pane} Pane */
/** @typedef {import('./workspace.js').Texts} Texts */
/** @typedef {import('./workspace.js').Answers} Answers */
/** @typedef {import('./workspace.js').Spot} Spot */
/** @typedef {import('../examples.js').Example & {text: string}} Sample */

const LINK_LATER = 400;
const SPEAK_LATER = 700;
const UNDO_MOST = 30;
const CHANGED = ', changed';

/** @param {string} title */
const changed = (title) => (title.endsWith(CHANGED) ? title : title + CHANGED);

export class Page {
  #held = new Held(() => this.texts);

  /**
   * @param {Library} library @param {Sample[]} samples
   * @param {string} opens  the example that is shown where the address carries nothing else
   */
  constructor(library, samples, opens) {
    this.library = library;
    this.samples = samples;
    this.opens = opens;
    /** What the texts are called in pictures. */
    this.title = 'A journal';
    /** @type {Pane} */
    this.pane = 'journal';
    /** @type {{selected: number|null, stepping: boolean}} */
    this.step = { selected: null, stepping: false };
    /** @type {{texts: Texts, title: string}[]} */
    this.undo = [];
    this.hash = '';
    /** @type {Map<string, any>} */
    this.waiting = new Map();
    /** @type {import('../table-picture.js').Shown|null} the picture that the reader chose */
    this.show = null;
    this.large = false;
    this.dark = false;
    this.editors = /** @type {Record<Pane, Editor>} */ (Object.fromEntries(PANES.map((pane) => [pane, this.#editor(pane)])));
    this.rooms = new Rooms();
    this.together = new Together(this);
    this.live = new LivePanel(this);
    this.stage = new Stage(this);
    this.touching = new Touching(this);
    this.sheets = new Sheets(this);
    this.making = new Making(this);
    /** Files and links are opened one after the other. @type {Promise<void>} */
    this.opening = Promise.resolve();
    this.reaction = new ReactionPanel(library, {
      form: byId('reaction-form'), states: byId('reaction-states'), inputs: byId('reaction-inputs'), moves: byId('reaction-moves'),
      answer: byId('reaction-answer'), slow: byId('reaction-slow'),
    }, () => drawWay(this), { journal: () => this.texts.journal, take: (journal) => this.replace({ ...this.texts, journal }, 'journal', 'A slow run') });
  }

  /** @param {Pane} pane */
  #editor(pane) {
    return new Editor(byId(`pane-${pane}`), {
      label: `The ${pane}, as text`, describedBy: 'pane-says',
      onInput: () => this.#typed(), onCaret: (line) => lookAtLine(this, pane, line),
    });
  }

  /** @returns {Texts} */
  get texts() {
    return { table: this.editors.table.value, stimulus: this.editors.stimulus.value, journal: this.editors.journal.value };
  }

  get answers() {
    return this.#held.get().answers;
  }

  get subject() {
    return this.#held.get().subject;
  }

  get said() {
    return this.#held.get().said;
  }

  /** Something was typed: the answer comes at once, pictures with the next frame. */
  #typed() {
    byId('examples').value = '';
    this.rooms.note();
    this.notice('', this.rooms.height('notice'));
    this.title = changed(this.title);
    this.step = { selected: null, stepping: false };
    this.later('link', LINK_LATER, () => carry(this));
    this.answer();
  }

  /**
   * @param {string} what  whatever waits under this name waits no longer
   * @param {number} delay @param {() => void} then
   */
  later(what, delay, then) {
    clearTimeout(this.waiting.get(what));
    this.waiting.set(what, setTimeout(then, delay));
  }

  /**
   * Texts from elsewhere in the place of those that are there.
   * @param {Texts} texts @param {Pane} pane @param {string} [title]
   */
  replace(texts, pane, title = changed(this.title)) {
    this.remember();
    this.put(texts, pane, title);
  }

  /** The texts that are there, or these, can be brought back. */
  remember(before = { texts: this.texts, title: this.title }) {
    this.undo = [...this.undo, before].slice(-UNDO_MOST);
  }

  /**
   * Texts that came of those that are there, with the answers about them.
   * @param {Texts} texts @param {Pane} pane @param {Answers} answers
   */
  change(texts, pane, answers) {
    this.put(texts, pane, changed(this.title), answers);
  }

  /** @param {Texts} texts @param {Pane} pane @param {string} title @param {Answers|null} [answers]  if the library was asked about them */
  put(texts, pane, title, answers = null) {
    this.later('link', LINK_LATER, () => carry(this));
    this.title = title;
    byId('undo').hidden = this.undo.length === 0;
    byId('examples').value = '';
    this.notice('');
    for (const each of PANES) this.editors[each].value = texts[each];
    this.step = { selected: null, stepping: false };
    this.show = null;
    this.turnTo(pane);
    this.rooms.forget();
    this.answer(answers);
    requestAnimationFrame(() => this.#revealWrong());
  }

  /** The line that is wrong comes in sight, once everything is drawn and the text has its height. */
  #revealWrong() {
    const spot = this.said.spot ?? this.said.mistakes[0]?.spot;
    if (spot?.pane === this.pane) this.editors[this.pane].reveal(spot.line);
  }

  takeBack() {
    const before = this.undo.pop();
    if (before) this.put(before.texts, this.pane, before.title);
  }

  /** @param {Pane} pane */
  turnTo(pane) {
    this.pane = pane;
    for (const each of PANES) {
      const tab = byId(`tab-${each}`);
      tab.setAttribute('aria-selected', String(each === pane));
      tab.tabIndex = each === pane ? 0 : -1;
      byId(`pane-${each}`).hidden = each !== pane;
    }
  }

  /** @param {Pane} pane */
  look(pane) {
    this.turnTo(pane);
    this.step = { selected: null, stepping: false };
    this.answer();
  }

  /** @param {Spot} spot */
  go(spot) {
    this.turnTo(spot.pane);
    this.editors[spot.pane].go(spot);
    this.answer();
  }

  /**
   * Asks the library about all texts, and shows what it says.
   * @param {Answers|null} [asked]  taken where they are about the same texts: no text is asked about twice
   */
  answer(asked = null) {
    const { texts } = this;
    if (this.#forget()) closeOld();
    const long = tooLong(texts);
    if (long) return this.unanswered([long]);
    const answers = asked && same(asked.texts, texts) ? asked : ask(this.library, texts);
    const subject = answers.reading.mistakes.length > 0 ? null : subjectOf(answers, this.pane);
    const said = sayAnswer(answers, subject, this.making.tells(texts));
    this.#held.hold({ answers, subject, said });
    this.say();
    keepRoom(this);
    const spoken = `${said.about}: ${said.line}. ${said.sentences[0] ?? said.mistakes[0]?.says ?? ''}`;
    this.later('spoken', SPEAK_LATER, () => fill(byId('spoken'), spoken));
    showBadges(answers);
    showFoot(this);
    markTexts(this);
    this.together.follow(texts);
    this.live.follow(texts);
    this.making.follow();
    this.waiting.set('frame', requestAnimationFrame(() => draw(this)));
  }

  /** What was answered before is out of reach, before anything else can fail. Says whether the texts are others now. */
  #forget() {
    this.reaction.given = null;
    this.reaction.slow.stop();
    clearTimeout(this.waiting.get('spoken'));
    cancelAnimationFrame(this.waiting.get('frame'));
    return this.#held.drop();
  }

  /** The button that asks again goes; the focus does not go with it. */
  #again() {
    this.answer();
    byId(`tab-${this.pane}`).focus({ preventScroll: true });
  }

  /**
   * Nothing is answered, and nothing of an answer is left on the page.
   * @param {string[]} sentences  why @param {boolean} [again]  can the texts that are there be asked about?
   */
  unanswered(sentences, again = false) {
    this.#forget();
    this.step = { selected: null, stepping: false };
    for (const pane of PANES) this.editors[pane].bare();
    showNothing(sentences, again ? () => this.#again() : null);
  }

  /** The answer; or, where one goes through the records, a sentence about the one that is looked at. */
  say() {
    const { subject, said, step: { selected } } = this;
    if (said === UNSAID) return;
    const step = subject && selected !== null ? subject.trace.steps[selected] : null;
    const about = step && subject ? saidAt(subject.trace, step) : null;
    fill(byId('step-short'), step ? about?.says ?? said.sentences.join(' ') : '');
    showAnswer(byId('answer'), said, (spot) => this.go(spot), inTwoColumns() ? about : null);
  }

  /** @param {string} says @param {number} [height]  at least */
  notice(says, height = 0) {
    fill(byId('notice'), says);
    byId('notice').style.minHeight = `${height}px`;
  }
}
