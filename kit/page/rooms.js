/**
 * The rooms of pictures and panels. What is not drawn while one types, since the texts have no answer, leaves its room empty: nothing old
 * is seen, and nothing moves. In the first picture's room a sentence says why.
 */

import { byId, make } from './dom.js';
import { PANE_NAMES } from './workspace.js';

/** @typedef {import('./page.js').Page} Page */

const PICTURES = ['diagram', 'automaton-beside', 'automaton-below'];
const ROOMS = ['notice', 'answer', ...PICTURES, 'machine', 'tools-panel', 'make-panel', 'reaction-panel', 'stepping'];

export class Rooms {
  /**
   * How high each room in sight was before something was typed.
   * @type {Map<string, number>}
   */
  #heights = new Map();

  /**
   * Why something is not drawn.
   * @type {HTMLElement|null}
   */
  #why = null;

  /** Before something that was typed is answered. */
  note() {
    const heights = ROOMS.map((id) => /** @type {[string, number]} */ ([id, byId(id).getBoundingClientRect().height]));
    this.#heights = new Map(heights.filter(([, height]) => height > 0));
  }

  /** Texts from elsewhere are in the place of those that were there. */
  forget() {
    this.#heights.clear();
  }

  /**
   * @param {string} id
   * @returns {number}  0 if it was not in sight
   */
  height(id) {
    return this.#heights.get(id) ?? 0;
  }

  /** @param {Page} page */
  begin(page) {
    this.#why = whyNothing(page);
    for (const each of document.querySelectorAll('.undrawn')) each.remove();
  }

  /**
   * A room with something in it is as high as that. One without is out of sight, or keeps its height.
   * @param {string} id @param {boolean} has
   */
  set(id, has) {
    const room = byId(id);
    const bare = !has && this.#why !== null && this.height(id) > 0;
    room.hidden = !has && !bare;
    room.classList.toggle('bare', bare);
    room.style.height = bare ? `${this.height(id)}px` : '';
  }

  /** All is drawn that there is. */
  end() {
    const first = PICTURES.map(byId).find(({ classList }) => classList.contains('bare'));
    if (first && this.#why) first.append(this.#why);
  }
}

/**
 * Without the table nothing can be drawn: its mistakes come first.
 * @param {Page} page
 * @returns {HTMLElement|null}
 */
function whyNothing(page) {
  const { said, answers: { tableRefused, reading: { mistakes } } } = page;
  const mistake = mistakes.find(({ pane }) => pane === 'table') ?? mistakes[0];
  const spot = mistake ?? (tableRefused && said.spot);
  if (!spot) return null;
  const line = (/** @type {string} */ words) => make('button', { class: 'plain', type: 'button', onclick: () => page.go(spot) }, words);
  const why = mistake ? [line(`line ${spot.line} of the ${PANE_NAMES[spot.pane].toLowerCase()}`), ' has a mistake.']
    : ['the table is refused, at ', line(`line ${spot.line}`), '.'];
  return make('p', { class: 'undrawn' }, 'Nothing is drawn here: ', why);
}
