/**
 * Everything that the parts of a timing diagram need to know of each other.
 */
import { sizesFor } from './lanes.js';
import { stretchOf } from './stretch.js';
import { THEMES } from '../theme.js';

/** @typedef {import('../types.js').Trace} Trace */
/** @typedef {import('../types.js').Step} Step */

/**
 * @typedef {Object} Options
 * @property {string} [title]
 * @property {number} [width]              in pixels; 1280 if it is not said
 * @property {number} [from]               the stretch of time that is shown; without it one that can be read is chosen
 * @property {number} [to]
 * @property {number|null} [selected]      the number of the record that is looked at
 * @property {boolean} [step]              what comes after the selected record is drawn faintly
 * @property {string[]} [sentences]        the refusal in words, for the box below
 * @property {string|null} [slip]          the usual slip, set off from them
 * @property {string} [meaning]            what the refusal's number means, in a few words
 * @property {boolean} [head]              title and answer above the lanes; yes if it is not said
 * @property {boolean} [low]               the lanes are closer together, for a page that has more to show
 * @property {'light'|'dark'} [theme]
 * @property {(step: Step) => string} [narrate]   a sentence for an accepted record, which is shown when one points at it
 * @property {string} [id]                 begins the names of the picture's patterns, where a page has several pictures
 */

/**
 * @typedef {Object} View
 * @property {Trace} trace
 * @property {Step[]} taken          the accepted steps
 * @property {Step[]} shown          the steps that the picture shows, the refused one and unread ones with them
 * @property {Options} options
 * @property {import('../theme.js').Theme} theme
 * @property {import('./lanes.js').Sizes} sizes
 * @property {import('./lanes.js').Lanes} lanes
 * @property {import('./stretch.js').Stretch} stretch
 * @property {number} width
 * @property {number} end            where the even part of the axis ends
 * @property {(time: number) => number} x
 * @property {boolean} dense         records are too many for a mark each
 * @property {number} scale          of marks, 1 if there is room
 * @property {boolean} wordy         every record has its words, not only those where something turns
 * @property {string} hatch          the pattern of what was not read
 */

/** A cycle needs this many pixels, or a long journal is shown in pieces. */
const CYCLE_ROOM = 26;
/** More records than this in one picture have no marks of their own. */
const MOST_MARKS = 330;
/** What the axis has for a record behind a break. */
const FAR_ROOM = 120;

/**
 * All but the lanes, which depend on what stands above them.
 * @param {Trace} trace @param {Options} options
 * @returns {Omit<View, 'lanes'>}
 */
export function viewOf(trace, options) {
  const width = Math.max(240, Math.round(options.width ?? 1280));
  const sizes = sizesFor(width, options.low);
  const plot = width - sizes.left - sizes.right;
  const room = { cycles: Math.floor(plot / CYCLE_ROOM), records: MOST_MARKS * 2 / 3, words: (sizes.narrow ? 84 : 110) / plot };
  const stretch = stretchOf(trace, options, room);
  const end = width - sizes.right - (stretch.far ? Math.min(FAR_ROOM, plot / 3) : 0);
  const shown = trace.steps.filter((step, index) => isShown(trace, stretch, step, index));
  const cycleWidth = (end - sizes.left) / Math.max(1, shown.filter((step) => step.record.kind === 'tick').length);
  return {
    trace, options, sizes, stretch, width, end, shown,
    taken: trace.steps.slice(0, trace.stop ?? trace.steps.length),
    theme: THEMES[options.theme ?? 'light'] ?? THEMES.light,
    x: scaleOf(stretch, sizes.left, end, width - sizes.right - sizes.ring * 2),
    dense: shown.length > MOST_MARKS,
    scale: Math.min(1, Math.max(0.4, cycleWidth / 64)),
    wordy: cycleWidth > (sizes.narrow ? 50 : 72),
    hatch: `${(options.id ?? 'krossvil').replace(/[^A-Za-z0-9_-]/g, '')}-unread`,
  };
}

/**
 * From times to places.
 * @param {import('./stretch.js').Stretch} stretch @param {number} left @param {number} end
 * @param {number} farX   where a refused record behind a break stands
 * @returns {(time: number) => number}
 */
function scaleOf({ from, to, far, refusedAt }, left, end, farX) {
  const perUnit = (end - left) / (to - from);
  return (time) => (far && time === refusedAt ? farX : left + (time - from) * perUnit);
}

/**
 * @param {Trace} trace @param {import('./stretch.js').Stretch} stretch @param {Step} step @param {number} index
 */
function isShown(trace, stretch, step, index) {
  const { time, kind } = step.record;
  const inside = time >= stretch.from && time <= stretch.to;
  if (trace.stop === null || index < trace.stop) return inside;
  if (index === trace.stop) return stretch.to >= stretch.seen;
  return inside && kind !== 'bytes' && kind !== 'input' && time >= stretch.seen && !stretch.far;
}

/**
 * The refused step, if the picture shows it.
 * @param {Omit<View, 'lanes'>} view
 * @returns {Step|null}
 */
export function refusedStep({ trace, stretch }) {
  return trace.stop === null || stretch.to < stretch.seen ? null : trace.steps[trace.stop];
}

/**
 * When a step happened. The refused one may have no time of its own.
 * @param {Omit<View, 'lanes'>} view @param {Step} step
 */
export function timeOf({ trace, stretch }, step) {
  return step.number === trace.stop ? stretch.refusedAt ?? 0 : step.record.time;
}

/**
 * Where the record's mark stands, from left to right. A refused one may be earlier than the picture, and then stands at its edge.
 * @param {Omit<View, 'lanes'>} view @param {Step} step
 */
export function xOf(view, step) {
  return Math.max(view.sizes.left, view.x(timeOf(view, step)));
}

/**
 * The middle of the row on which a record stands. What is no record stands where the next one was to come.
 * @param {View} view @param {Step} step
 * @returns {number}
 */
export function yOf({ lanes, taken }, step) {
  const { kind } = step.record;
  const next = /** @type {const} */ (['poll', 'test', 'tick', 'tick']);
  if (kind === 'poll' || kind === 'test' || kind === 'tick') return lanes[kind];
  if (kind === 'change' || kind === 'input' || (kind === 'bytes' && step.before === null)) return lanes.input.y + lanes.input.height / 2;
  if (kind === 'end' || step.before === null || taken[taken.length - 1].record.kind === 'end') return lanes.cycle;
  return lanes[next[step.before.phase]];
}

/**
 * Does the step come after the selected one, where one goes through them record by record?
 * @param {Omit<View, 'lanes'>} view @param {Step} step
 */
export function isLater({ options }, step) {
  return options.step === true && step.number > (options.selected ?? Infinity);
}

/** So many pixels behind the selected record show the machine as it is then. */
const GLANCE = 18;

/**
 * Where the steps are divided when one goes through them record by record: behind the selected one. Null if all are alike.
 * @param {Omit<View, 'lanes'>} view
 * @returns {{step: Step, until: number}|null}   `until` is a time
 */
export function presentOf(view) {
  const { options, trace, stretch, sizes, end } = view;
  const step = trace.steps[options.selected ?? -1];
  if (!options.step || step === undefined) return null;
  const glance = GLANCE * (stretch.to - stretch.from) / (end - sizes.left);
  return { step, until: timeOf(view, step) + glance };
}
