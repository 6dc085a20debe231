/** The controls of a live run: what can be done now. Buttons stay where they are while a run goes on, and so does the focus. */

import { thousands } from '../names.js';
import { byId, fill, make } from './dom.js';

/** @typedef {import('./live.js').LivePanel} LivePanel */

const RUNNING = ['live-wait', 'live-poll', 'live-test', 'live-tick', 'live-clock', 'live-hand', 'live-new'];
const VERDICTS = ['held', 'free'];
const KEYS_MOST = 9;

/**
 * @param {LivePanel} live @param {boolean} ready
 */
function says({ run, refused }, ready) {
  if (!ready) return 'For a run there has to be a table that passes, and no mistake in the texts.';
  if (!run) return 'Begin: which input does the sensor give? Stimulus and journal are written anew; Undo brings these back.';
  if (refused) return 'That is refused, and the run stands where it stood: go on.';
  if (run.full) return 'The journal is as long as one can be that is checked as a whole.';
  return 'The texts end where the run stands, and can be saved as they are.';
}

/**
 * @param {string} room @param {string[]} labels @param {(k: number) => void} press
 * @param {boolean} [keys]
 */
function buttons(room, labels, press, keys = false) {
  const key = labels.join('\n');
  if (byId(room).dataset.shown === key) return;
  byId(room).dataset.shown = key;
  fill(byId(room), ...labels.map((label, k) => make('button', {
    type: 'button', title: keys && k < KEYS_MOST ? `Key ${k + 1}` : null, onclick: () => press(k),
  }, label)));
}

/**
 * @param {LivePanel} live @param {{inputs: string[], states: string[]}} names
 */
function showButtons(live, { inputs, states }) {
  buttons('live-inputs', inputs, (input) => live.change(input), true);
  buttons('live-verdicts', VERDICTS, (verdict) => live.claim('test', verdict));
  buttons('live-states', states, (state) => live.claim('tick', state));
  for (const [k, button] of [...byId('live-inputs').children].entries()) {
    button.setAttribute('aria-pressed', String(live.run !== null && live.run.present === k));
  }
}

/** @param {LivePanel} live */
export function showControls(live) {
  const { page, run, open, byHand } = live;
  const { decoded, reading: { mistakes } } = page.answers;
  const ready = decoded !== null && mistakes.length === 0;
  byId('live').setAttribute('aria-pressed', String(open));
  byId('live-panel').hidden = !open;
  fill(byId('live-time'), run ? `Time ${thousands(live.now)}` : 'No run');
  fill(byId('live-says'), says(live, ready));
  showButtons(live, ready ? decoded.names : { inputs: [], states: [] });
  for (const id of RUNNING) byId(id).disabled = run === null;
  byId('live-hand').setAttribute('aria-pressed', String(byHand));
  for (const id of ['live-test', 'live-tick']) byId(id).hidden = byHand;
  byId('live-said').hidden = !byHand || run === null;
}

/** @param {LivePanel} live */
export function listenToLive(live) {
  const press = (/** @type {string} */ id, /** @type {() => void} */ then) => byId(id).addEventListener('click', then);
  press('live', () => live.toggle());
  press('live-wait', () => live.wait());
  press('live-poll', () => live.event('poll'));
  press('live-test', () => live.event('test'));
  press('live-tick', () => live.event('tick'));
  press('live-hand', () => live.decideByHand());
  press('live-new', () => {
    live.forget();
    showControls(live);
  });
  listenToClock(live);
  listenToLiveKeys(live);
}

/**
 * The clock runs while its button is held, by a finger, the mouse or a key.
 * @param {LivePanel} live
 */
function listenToClock(live) {
  const button = byId('live-clock');
  button.addEventListener('pointerdown', (/** @type {PointerEvent} */ { pointerId }) => {
    // Kept, since the button moves when the answer above it grows.
    if (pointerId !== undefined) button.setPointerCapture(pointerId);
    live.go();
  });
  for (const over of ['pointerup', 'pointercancel', 'blur']) button.addEventListener(over, () => live.stop());
  button.addEventListener('keydown', (/** @type {KeyboardEvent} */ event) =>
    [' ', 'Enter'].includes(event.key) && !event.repeat && live.go());
  button.addEventListener('keyup', () => live.stop());
  button.addEventListener('contextmenu', (/** @type {Event} */ event) => event.preventDefault());
}

/**
 * Keys, where they have no other use: a digit for an input, letters for the rest.
 * @param {LivePanel} live
 */
function listenToLiveKeys(live) {
  const letters = new Map([['w', () => live.wait()], ['p', () => live.event('poll')], ['t', () => live.event('test')],
    ['k', () => live.event('tick')], ['c', () => live.go()]]);
  document.addEventListener('keydown', (event) => {
    const busy = event.target instanceof Element && event.target.closest('textarea, input, select, dialog, details[open]');
    if (byId('live-panel').hidden || busy || event.altKey || event.ctrlKey || event.metaKey || event.repeat) return;
    const input = byId('live-inputs').children[Number(event.key) - 1];
    if (input) input.click();
    else letters.get(event.key)?.();
  });
  document.addEventListener('keyup', (event) => event.key === 'c' && live.stop());
  addEventListener('blur', () => live.stop());
}
