/** What stands at the texts: marks on tabs, below the text in hand, and in its lines. */

import { counted } from '../names.js';
import { byId, fill } from './dom.js';
import { RUN } from './tools.js';
import { PANES } from './workspace.js';

/** @typedef {import('./page.js').Page} Page */
/** @typedef {import('./workspace.js').Pane} Pane */
/** @typedef {import('./workspace.js').Answers} Answers */
/** @typedef {import('./workspace.js').Subject} Subject */

/**
 * On each tab whether its text is accepted, refused, or has a mistake.
 * @param {Answers} answers
 */
export function showBadges({ reading, tableRefused, decoded, journal, stimulus }) {
  const ofSubject = (/** @type {Subject|null} */ subject) => (subject ? subject.trace.refused?.number ?? 0 : null);
  const numbers = { table: tableRefused?.number ?? (decoded ? 0 : null), stimulus: ofSubject(stimulus), journal: ofSubject(journal) };
  for (const pane of PANES) {
    const badge = byId(`tab-${pane}`).querySelector('.badge');
    const wrong = reading.mistakes.some((mistake) => mistake.pane === pane);
    const number = numbers[pane];
    badge.className = `badge ${wrong ? 'mistake' : number === null ? '' : number === 0 ? 'accepted' : 'refused'}`;
    badge.textContent = wrong ? 'mistake' : number === null ? '' : number === 0 ? '\u2713' : `\u2717 ${number}`;
  }
}

/**
 * Below the text in hand.
 * @param {Page} page
 */
export function showFoot({ answers, pane, texts }) {
  const { place, exercise } = answers.reading;
  const read = answers.reading[pane] ?? (pane === 'journal' ? exercise : null);
  const part = read && place(read.line).pane === pane ? read : null;
  const left = pane === 'table' ? '' : '; at the left line and byte';
  const empty = texts[pane].trim() === '' ? `Empty. Begin with the words: krossvil ${pane}` : '';
  fill(byId('pane-says'), part ? `${counted(part.bytes.length, 'byte')}${left}` : empty);
  byId('run').hidden = !answers.reading.stimulus || pane === 'table';
  byId('run').disabled = !RUN.fits(answers);
}

/**
 * Marks in the texts: mistakes, the refusal, the record that is looked at.
 * @param {Page} page
 */
export function markTexts({ answers, subject, said, step, editors }) {
  for (const pane of PANES) {
    /** @type {import('./editor.js').Mark[]} */
    const marks = answers.reading.mistakes.filter((each) => each.pane === pane).map((each) => ({ ...each, look: 'mistake' }));
    if (said.look === 'refused' && said.spot?.pane === pane) marks.push({ ...said.spot, look: 'refused' });
    const line = subject?.pane === pane && step.selected !== null ? subject.lines[step.selected] : 0;
    if (line > 0) marks.push({ line, look: 'current' });
    editors[pane].decorate(marks, placesOf(answers, pane));
  }
}

/**
 * The place of each record in the bytes, by its line; none while the text has a mistake. A pane for a table has none, if it has no records.
 * @param {Answers} answers @param {Pane} pane
 * @returns {Map<number, string>|null}
 */
export function placesOf({ reading }, pane) {
  const places = new Map();
  for (const { line, place } of [reading.stimulus, reading.journal, reading.exercise].flatMap((part) => part?.origins ?? [])) {
    const own = reading.place(line);
    if (own.pane === pane && !places.has(own.line)) places.set(own.line, String(place));
  }
  return pane === 'table' && places.size === 0 ? null : places;
}
