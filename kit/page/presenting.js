/**
 * The page for a room: one picture that fills the screen, and the sentence about the record that is looked at, in type that a back row reads.
 * It shows what the page shows, and steps through it by arrow keys or a presenter's two keys.
 */

import { diagram } from '../diagram.js';
import { narrate } from '../explain.js';
import { tablePicture } from '../table-picture.js';
import { byId, fill, show } from './dom.js';
import { litAt, shownStep } from './lit.js';
import { saidAt } from './machine.js';
import { move, select } from './stepping.js';

/** @typedef {import('./page.js').Page} Page */

/** At 1,080 lines no word has fewer than 24 pixels: this is the least size of a word, for each line of the screen. */
const LEAST = 24.5 / 1080;
/** The smallest words of a diagram, wide and narrow, and of a table's picture. */
const SMALLEST = { wide: 12.5, narrow: 11, table: 12 };
/** A diagram that is drawn for less than this is a narrow one. */
const NARROW = 700;

export class Stage {
  /** @param {Page} page */
  constructor(page) {
    this.page = page;
    this.open = false;
    /** The table's picture in the place of the diagram? */
    this.table = false;
  }

  begin() {
    this.open = true;
    this.#others(true);
    byId('stage').hidden = false;
    byId('stage-next').focus();
    if (/** @type {any} */ (navigator).userActivation?.isActive ?? true) byId('stage').requestFullscreen?.().catch(() => {});
    this.draw();
  }

  end() {
    if (!this.open) return;
    this.open = false;
    this.#others(false);
    byId('stage').hidden = true;
    if (document.fullscreenElement) document.exitFullscreen();
    byId('present').focus();
  }

  /** @param {boolean} inert  what stands behind can be neither seen nor reached */
  #others(inert) {
    for (const each of document.querySelectorAll('body > header, body > main, body > .stepping')) each.toggleAttribute('inert', inert);
  }

  other() {
    this.table = !this.table;
    this.draw();
  }

  /** What the page shows now, if this is open. Without an answer there is nothing to be shown. */
  draw() {
    if (!this.open) return;
    const { subject, answers: { decoded }, said } = this.page;
    const table = decoded !== null && (this.table || !subject);
    byId('stage-other').hidden = !subject || !decoded;
    fill(byId('stage-other'), table ? 'Diagram' : 'Automaton');
    const about = this.#about();
    fill(byId('stage-says'), about ?? [said.line, ...said.sentences].slice(0, 2).join('. '));
    byId('stage').className = `stage ${about === null ? said.look : ''}`;
    fill(byId('stage-picture'));
    if (table) this.#drawTable();
    else if (subject) this.#drawDiagram();
    fill(byId('stage-where'), byId('where').textContent ?? '');
  }

  /** The sentence about the record that is looked at; null where the answer stands in its place. */
  #about() {
    const { subject, step: { selected } } = this.page;
    const step = subject && subject.kind !== 'exercise' && selected !== null ? subject.trace.steps[selected] : null;
    return step && subject ? saidAt(subject.trace, step)?.says ?? null : null;
  }

  #drawDiagram() {
    const { page } = this;
    const { subject, title, dark, step: { selected, stepping } } = page;
    if (!subject) return;
    const room = byId('stage-picture').getBoundingClientRect();
    const wide = innerHeight * LEAST / SMALLEST.wide;
    const scale = room.width / wide >= NARROW ? wide : innerHeight * LEAST / SMALLEST.narrow;
    show(byId('stage-picture'), diagram(subject.trace, {
      head: false, low: true, selected, step: stepping, id: 'stage', title, theme: dark ? 'dark' : 'light', width: Math.floor(room.width / scale),
      narrate: subject.kind === 'exercise' ? undefined : (step) => narrate(subject.trace, step),
    }), scale);
  }

  /** As large as the room allows, and no smaller than can be read. */
  #drawTable() {
    const { page } = this;
    const { decoded } = page.answers;
    if (!decoded) return;
    const room = byId('stage-picture').getBoundingClientRect();
    const least = innerHeight * LEAST / SMALLEST.table;
    const lit = page.subject?.kind === 'exercise' ? {} : page.subject ? litAt(shownStep(page)) : { path: page.reaction.path };
    const svg = tablePicture(decoded, { show: page.show, lit, theme: page.dark ? 'dark' : 'light', width: Math.floor(room.width / least) });
    show(byId('stage-picture'), svg, 1);
    const { width, height } = byId('stage-picture').querySelector('svg').viewBox.baseVal;
    const scale = Math.max(least, Math.min(room.width / width, room.height / height));
    byId('stage-picture').querySelector('svg').style.width = `${scale * width}px`;
  }
}

/** @param {Page} page */
export function listenToStage(page) {
  const { stage } = page;
  const press = (/** @type {string} */ id, /** @type {() => void} */ then) => byId(id).addEventListener('click', then);
  press('present', () => stage.begin());
  press('stage-close', () => stage.end());
  press('stage-back', () => move(page, -1));
  press('stage-next', () => move(page, 1));
  press('stage-other', () => stage.other());
  press('stage-dark', () => byId('dark').click());
  const keys = new Map([['ArrowRight', () => move(page, 1)], ['PageDown', () => move(page, 1)], ['ArrowLeft', () => move(page, -1)],
    ['PageUp', () => move(page, -1)], ['Home', () => select(page, 0)], ['End', () => select(page, Infinity)], ['Escape', () => stage.end()],
    ['a', () => stage.other()]]);
  document.addEventListener('keydown', (event) => {
    const then = keys.get(event.key);
    if (!stage.open || !then || event.altKey || event.ctrlKey || event.metaKey) return;
    event.preventDefault();
    event.stopImmediatePropagation();
    then();
  }, true);
  document.addEventListener('fullscreenchange', () => (document.fullscreenElement ? stage.draw() : stage.end()));
  addEventListener('resize', () => stage.draw());
}
