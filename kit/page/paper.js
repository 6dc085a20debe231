/**
 * The page on paper: title, answer, diagram, automaton, and the texts in full, all from the answer that the page has for its texts. The
 * texts come last: a journal of 64 KB leaves the answer on the first sheet.
 */

import { diagram } from '../diagram.js';
import { say } from '../names.js';
import { tablePicture } from '../table-picture.js';
import { UNSAID } from './answer.js';
import { byId, fill, make, show } from './dom.js';
import { machineAt, saidAt } from './machine.js';
import { placesOf } from './marks.js';
import { PANES, PANE_NAMES } from './workspace.js';

/** @typedef {import('./page.js').Page} Page */
/** @typedef {import('./answer.js').Said} Said */
/** @typedef {import('./workspace.js').Answers} Answers */
/** @typedef {import('./workspace.js').Pane} Pane */
/** @typedef {import('../types.js').Step} Step */

/** The diagram is drawn for a sheet that stands upright and for one that lies across; the style shows the one that fits. */
const WIDTHS = { upright: 720, across: 1040 };
/** An automaton that is no higher stays on the sheet of the run, a little smaller if need be. */
const LOW = 440;
/** A text of more lines is set smaller, in more columns; one of more than so many, which no accepted journal needs, is not printed. */
const LONG = 400;
const LINES_MOST = 20000;

/**
 * @param {Said} said
 * @param {{record: string, says: string}|null} record  the one that is looked at
 */
function answerOf({ look, line, about, meaning, sentences, slip, spot, mistakes }, record) {
  return make('div', { class: `answer ${look}` },
    make('p', { class: 'line' }, make('span', { class: 'about' }, about), make('strong', {}, line), spot && make('span', {}, `line ${spot.line}`),
      meaning && make('span', { class: 'meaning' }, meaning)),
    sentences.length > 0 && make('p', {}, sentences.join(' ')), slip && make('p', { class: 'slip' }, slip),
    mistakes.map(({ says }) => make('p', {}, says)),
    record && make('p', {}, make('strong', { class: 'at-record' }, record.record), ` ${record.says}`));
}

/**
 * @param {string} name @param {string} svg
 */
function figure(name, svg) {
  const room = make('figure', { class: name });
  show(room, svg);
  room.classList.toggle('low', room.firstElementChild.height.baseVal.value <= LOW);
  return room;
}

/**
 * The run, with the record that is looked at, and the automaton.
 * @param {Page} page @param {Step|null} step
 */
function picturesOf({ title, show: shown, subject, answers: { decoded } }, step) {
  const run = subject && Object.entries(WIDTHS).map(([way, width]) =>
    figure(`run ${way}`, diagram(subject.trace, { head: false, title, width, selected: step?.number ?? null, id: `paper-${way}` })));
  const lit = { state: step && machineAt(step)?.state };
  return [...run ?? [], decoded && figure('automaton', tablePicture(decoded, { show: shown, lit, width: WIDTHS.upright }))];
}

/** So many lines that belong together are not parted. */
const TOGETHER = 20;

/**
 * Lines up to an empty one.
 * @param {HTMLElement[]} rows
 * @returns {HTMLElement[]}
 */
function stanzas(rows) {
  /** @type {HTMLElement[][]} */
  const found = [[]];
  for (const row of rows) {
    found[found.length - 1].push(row);
    if (row.textContent === '') found.push([]);
  }
  return found.map((stanza) => make('div', { class: stanza.length <= TOGETHER ? 'together' : '' }, stanza));
}

/**
 * A text in full; each line has its number, and each record its place in the bytes.
 * @param {Pane} pane @param {string} text @param {Answers} answers @param {Said} said
 */
function textOf(pane, text, answers, { spot }) {
  if (text.trim() === '') return null;
  const places = placesOf(answers, pane);
  const wrong = new Set([...answers.reading.mistakes, ...(spot ? [spot] : [])].filter((each) => each.pane === pane).map(({ line }) => line));
  const lines = text.trimEnd().split('\n');
  const head = make('h2', {}, PANE_NAMES[pane]);
  if (lines.length > LINES_MOST) return make('section', {}, head, make('p', {}, say`It has ${lines.length} lines, and is not printed.`));
  const place = (/** @type {number} */ number) => (places ? ` ${(places.get(number) ?? '').padStart(5)}` : '');
  const rows = lines.map((line, k) => make('div', {
    class: wrong.has(k + 1) ? 'numbered wrong' : 'numbered', 'data-at': `${String(k + 1).padStart(4)}${place(k + 1)}  `,
  }, line));
  const kind = `${places ? 'with-places' : ''} ${lines.length > LONG ? 'long' : ''}`;
  return make('section', { class: kind }, head, stanzas(rows));
}

/**
 * Nothing of a sheet that was printed before is left, whatever fails here. Where the page says that nothing is answered, so does the sheet.
 * @param {Page} page
 */
export function writePaper(page) {
  const room = byId('paper');
  room.textContent = 'Nothing is answered.';
  const sheets = page.sheets.ready();
  if (sheets) return void (room.innerHTML = sheets);
  const { answers, subject, said, texts, title, step: { selected } } = page;
  if (said === UNSAID) return fill(room, make('h1', {}, title), make('p', {}, byId('answer').innerText));
  const step = subject?.trace.steps[selected ?? -1] ?? null;
  fill(room, make('h1', {}, title), answerOf(said, subject && step && saidAt(subject.trace, step)),
    ...picturesOf(page, step),
    make('div', { class: 'texts' }, PANES.map((each) => textOf(each, texts[each], answers, said))));
}
