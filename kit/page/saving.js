/** What can be saved: the texts, the bytes, the pictures. */

import { automaton, automatonDot } from '../automaton.js';
import { diagram } from '../diagram.js';
import { MEANINGS } from '../explain.js';
import { matrix } from '../matrix.js';
import { vcd } from '../vcd.js';
import { joinTexts } from './documents.js';
import { byId, closeMenu, fill, make, save } from './dom.js';

/** @typedef {import('./workspace.js').Answers} Answers */
/** @typedef {import('./workspace.js').Subject} Subject */
/** @typedef {import('./workspace.js').Texts} Texts */
/**
 * @typedef {{title: string, texts: Texts, answers: Answers, subject: Subject|null, selected: number|null, theme: 'light'|'dark',
 *   tell: (says: string) => void}} State
 */
/** @typedef {{label: string, can: (state: State) => boolean, save: (state: State) => void}} Saving */

/**
 * The timing diagram for a slide: with its answer, and the refusal in words.
 * @param {State} state
 */
function slide({ subject, title, selected, theme }) {
  const { trace, explanation } = /** @type {Subject} */ (subject);
  return diagram(trace, {
    title, width: 1280, selected, theme, sentences: explanation?.sentences, slip: explanation?.slip,
    meaning: MEANINGS.get(trace.refused?.number ?? 0),
  });
}

/**
 * A picture in dots, twice as fine as on the screen. A browser that has no room for it says so in one of three ways.
 * @param {string} name @param {string} svg @param {State['tell']} tell
 */
function saveDots(name, svg, tell) {
  const fail = () => tell('The picture could not be made as PNG. Save it as SVG.');
  const image = new Image();
  image.onerror = fail;
  image.onload = () => {
    const canvas = document.createElement('canvas');
    [canvas.width, canvas.height] = [2 * image.width, 2 * image.height];
    const context = canvas.getContext('2d');
    if (!context) return fail();
    context.drawImage(image, 0, 0, canvas.width, canvas.height);
    canvas.toBlob((blob) => (blob ? save(name, blob) : fail()));
  };
  image.src = `data:image/svg+xml,${encodeURIComponent(svg)}`;
}

const SVG = 'image/svg+xml';
const hasSubject = (/** @type {State} */ { subject }) => subject !== null;
const hasTable = (/** @type {State} */ { answers }) => answers.decoded !== null;

/**
 * @param {'table'|'stimulus'|'journal'} pane
 * @returns {Saving}
 */
const bytes = (pane) => ({
  label: `${pane[0].toUpperCase()}${pane.slice(1)}, as bytes`,
  can: ({ answers }) => answers.reading[pane] !== null,
  save: ({ answers }) => save(`krossvil.${pane}`, answers.reading[pane]?.bytes ?? ''),
});

/** @type {Saving[]} */
const SAVINGS = [
  { label: 'All texts', can: () => true, save: ({ texts }) => save('krossvil.kv', joinTexts(texts), 'text/plain') },
  bytes('table'), bytes('stimulus'), bytes('journal'),
  { label: 'Timing diagram, SVG', can: hasSubject, save: (state) => save('krossvil-diagram.svg', slide(state), SVG) },
  { label: 'Timing diagram, PNG', can: hasSubject, save: (state) => saveDots('krossvil-diagram.png', slide(state), state.tell) },
  { label: 'Automaton, SVG', can: hasTable,
    save: ({ answers, theme }) => answers.decoded && save('krossvil-automaton.svg', automaton(answers.decoded, { theme }), SVG) },
  { label: 'Matrix of next states, SVG', can: hasTable,
    save: ({ answers, theme }) => answers.decoded && save('krossvil-matrix.svg', matrix(answers.decoded, { theme }), SVG) },
  { label: 'Automaton, DOT', can: hasTable,
    save: ({ answers }) => answers.decoded && save('krossvil-automaton.dot', automatonDot(answers.decoded), 'text/plain') },
  { label: 'Waves, VCD', can: ({ subject }) => subject !== null && subject.kind !== 'exercise',
    save: ({ subject }) => subject && save('krossvil.vcd', vcd(subject.trace), 'text/plain') },
];

/**
 * The menu: what there is to save stands ready, the rest is out of use.
 * @param {import('./page.js').Page} page
 */
export function listSavings(page) {
  const state = stateOf(page);
  fill(byId('save-list'), ...SAVINGS.map((saving) => make('button', {
    type: 'button', disabled: !saving.can(state), onclick: () => {
      saving.save(stateOf(page));
      closeMenu(byId('save'));
    },
  }, saving.label)));
}

/**
 * What there is now, not when the menu was opened.
 * @param {import('./page.js').Page} page
 * @returns {State}
 */
function stateOf(page) {
  const { texts, answers, subject, title, dark, step: { selected } } = page;
  return { texts, answers, subject, title, selected, theme: dark ? 'dark' : 'light', tell: (says) => page.notice(says) };
}
