/**
 * The run that is shown can be touched: a record is moved along the time, a change is put in or taken out. The stimulus follows, the library
 * runs it, and the page shows that run. Where the library refuses, its refusal is said and the text stays as it was.
 */

import { refusalLine } from '../answers.js';
import { decodeRecords } from '../fields.js';
import { writtenName } from '../notation/lexer.js';
import { recordsText } from '../notation.js';
import { stimulusOf } from '../rerun.js';
import { movedTo, putIn, takenOut } from '../touch.js';
import { byId, fill, make } from './dom.js';
import { ask } from './workspace.js';

/** @typedef {import('./page.js').Page} Page */
/** @typedef {import('./workspace.js').Pane} Pane */
/** @typedef {import('../touch.js').Place} Place */
/** @typedef {import('../touch.js').Touched} Touched */
/** @typedef {{pane: Pane, text: string, places: Place[], kinds: string[]}} Held   a stimulus, and where its records stand */

/**
 * The stimulus of what is shown: its own text, or that of the journal's inputs and times; null where there is none. An exercise has none: its run
 * would be its answers.
 * @param {Page} page
 * @returns {Held|null}
 */
export function stimulusShown({ subject, texts, answers: { reading } }) {
  if (!subject || subject.kind === 'exercise') return null;
  const own = subject.kind === 'stimulus';
  const bytes = own ? subject.part.bytes : stimulusOf(subject.part.bytes, subject.trace.form);
  const elsewhere = reading.stimulus && reading.place(reading.stimulus.line).pane !== 'stimulus';
  if (!bytes || (!own && elsewhere)) return null;
  const records = decodeRecords(bytes, 'stimulus');
  if (records.some(({ kind }) => kind === 'bytes')) return null;
  const places = records.map(({ time }, k) => ({ time, line: own ? subject.lines[k] : k + 2 }));
  const kinds = records.map(({ kind }) => kind);
  const pane = own ? subject.pane : 'stimulus';
  return { pane, kinds, places, text: own ? texts[pane] : recordsText(bytes, 'stimulus', reading.names) };
}

export class Touching {
  /** @param {Page} page */
  constructor(page) {
    this.page = page;
    /** @type {{texts: import('./workspace.js').Texts, pane: Pane, title: string, selected: number|null, held: Held, number: number}|null} */
    this.begun = null;
    this.refused = '';
  }

  /** @param {number} number  of a record */
  begin(number) {
    const { texts, pane, title, step: { selected } } = this.page;
    const held = stimulusShown(this.page);
    this.refused = '';
    this.begun = held && number > 0 && number < held.places.length ? { texts, pane, title, selected, held, number } : null;
    return this.begun !== null;
  }

  /**
   * The record that was begun with stands at this time, if the library runs that. All is told from where it was in the beginning.
   * @param {number} time
   */
  to(time) {
    const { begun } = this;
    if (begun) this.#take(movedTo(begun.held.text, begun.held.places, begun.number, Math.max(0, time)));
  }

  /** @param {number} input */
  putIn(input) {
    const { begun } = this;
    const { names } = this.page.answers.reading;
    if (begun) this.#take(putIn(begun.held.text, begun.held.places, begun.number, `change ${names ? writtenName(names.inputs[input]) : input}`));
  }

  takeOut() {
    const { begun } = this;
    if (begun?.held.kinds[begun.number] === 'change') this.#take(takenOut(begun.held.text, begun.held.places, begun.number));
  }

  /** @param {Touched|null} touched */
  #take(touched) {
    const { page, begun } = this;
    if (!begun || !touched) return;
    const texts = { ...begun.texts, [begun.held.pane]: touched.text };
    const answers = ask(page.library, texts);
    const { stimulus } = answers;
    const refused = stimulus?.trace.refused;
    if (!stimulus || refused) {
      this.refused = refused ? `${refusalLine(refused)}. ${stimulus?.explanation?.sentences[0] ?? ''}` : 'That is no stimulus.';
      return;
    }
    this.refused = '';
    page.change(texts, begun.held.pane, answers);
    page.step = { selected: touched.number, stepping: false };
  }

  /** Where it was refused last, all is as it was before. What has changed can be taken back. */
  end() {
    const { page, begun } = this;
    this.begun = null;
    if (!begun) return;
    const changed = page.texts[begun.held.pane] !== begun.texts[begun.held.pane];
    if (this.refused && changed) {
      page.put(begun.texts, begun.pane, begun.title);
      page.step = { selected: begun.selected, stepping: false };
    } else if (changed) {
      page.remember({ texts: begun.texts, title: begun.title });
      byId('undo').hidden = false;
    }
  }
}

/** How far a finger goes before it drags, in pixels. */
const DRAGS = 5;

/**
 * From places on the screen to times, as the picture has them now.
 * @param {any} svg
 */
function timeAt(svg) {
  const { left, width } = svg.getBoundingClientRect();
  const { from, to, left: first, right: last } = svg.dataset;
  const scale = svg.viewBox.baseVal.width / width;
  const perUnit = (Number(last) - Number(first)) / (Number(to) - Number(from));
  return (/** @type {number} */ x) => Math.round(Number(from) + ((x - left) * scale - Number(first)) / perUnit);
}

/**
 * The refusal stands at the finger.
 * @param {string} says @param {number} x @param {number} y
 */
function sayAt(says, x, y) {
  const room = byId('touch-says');
  room.hidden = says === '';
  fill(room, says);
  room.style.left = `${Math.min(Math.max(8, x - 150), innerWidth - 316)}px`;
  room.style.top = `${Math.max(8, y - room.offsetHeight - 28)}px`;
}

/** @param {Page} page */
function listenToFinger({ touching }) {
  const figure = byId('diagram');
  /** @type {{number: number, x: number, time: (x: number) => number, drags: boolean, last: number|null, pointer: number}|null} */
  let drag = null;
  figure.addEventListener('pointerdown', (/** @type {any} */ event) => {
    const record = event.target.closest('[data-record]');
    if (!record || event.button !== 0) return;
    const number = Number(record.dataset.record);
    drag = { number, x: event.clientX, time: timeAt(figure.querySelector('svg')), drags: false, last: null, pointer: event.pointerId };
  });
  figure.addEventListener('pointermove', (/** @type {any} */ event) => {
    if (!drag || event.pointerId !== drag.pointer) return;
    if (!drag.drags && Math.abs(event.clientX - drag.x) < DRAGS) return;
    if (!drag.drags) {
      if (!touching.begin(drag.number)) return void (drag = null);
      drag.drags = true;
      figure.setPointerCapture(event.pointerId);
    }
    const time = drag.time(event.clientX);
    if (time !== drag.last) touching.to(time);
    drag.last = time;
    sayAt(touching.refused, event.clientX, event.clientY);
  });
  const letGo = () => {
    if (drag?.drags) touching.end();
    drag = null;
    sayAt('', 0, 0);
  };
  figure.addEventListener('pointerup', letGo);
  figure.addEventListener('pointercancel', letGo);
}

/** @param {Page} page */
export function listenToTouch(page) {
  const { touching } = page;
  listenToFinger(page);
  /** @param {() => void} then */
  const act = (then) => {
    const { selected } = page.step;
    if (selected === null || !touching.begin(selected)) return;
    then();
    const { refused } = touching;
    touching.end();
    page.later('touch', 0, () => sayRefused(refused));
  };
  const by = (/** @type {number} */ units) => act(() => touching.begun && touching.to(touching.begun.held.places[touching.begun.number].time + units));
  const put = () => act(() => touching.putIn(Number(byId('touch-input').value)));
  const out = () => act(() => touching.takeOut());
  for (const [id, then] of /** @type {[string, () => void][]} */ ([['earlier', () => by(-1)], ['later', () => by(1)], ['put-in', put], ['take-out', out]])) {
    byId(id).addEventListener('click', then);
  }
  const keys = new Map([['ArrowLeft', () => by(-1)], ['ArrowRight', () => by(1)], ['Insert', put], ['Delete', out]]);
  document.addEventListener('keydown', (event) => {
    const then = keys.get(event.key);
    const busy = event.target instanceof Element && event.target.closest('textarea, input, select, dialog, details[open]');
    if (!then || busy || event.altKey || event.ctrlKey || event.metaKey || event.shiftKey !== event.key.startsWith('Arrow')) return;
    event.preventDefault();
    then();
  });
}

/** @param {string} says */
function sayRefused(says) {
  fill(byId('touch-refused'), says);
}

/**
 * What can be done with the record that is looked at.
 * @param {Page} page
 */
export function showTouch(page) {
  const { subject, step: { selected } } = page;
  const held = selected !== null && selected > 0 ? stimulusShown(page) : null;
  byId('touch').hidden = !held || !subject;
  sayRefused('');
  if (!held || !subject || selected === null) return;
  byId('take-out').hidden = held.kinds[selected] !== 'change';
  const present = subject.trace.steps[selected]?.after?.present;
  const options = subject.trace.names.inputs.map((name, k) => ({ name, k })).filter(({ k }) => k !== present);
  fill(byId('touch-input'), ...options.map(({ name, k }) => make('option', { value: k }, name)));
}
