/**
 * The timing diagram of a journal, as SVG: lanes over one axis. An element of class `refused-record` rings the refused record; each hold's
 * end has the class `hold-end` and its time in `data-time`; a record's mark stands in a group of class `record`, its number in `data-record`.
 */
import { circle, group, line, picture, rect } from './svg.js';
import { axis, hatchPattern, inputLane, names, phaseBand, stateLanes, unread, unseen } from './diagram/backdrop.js';
import { clockRows } from './diagram/clocks.js';
import { cycleLimit, cycles } from './diagram/cycles.js';
import { denseRecords } from './diagram/dense.js';
import { answerWords, head, legend } from './diagram/frame.js';
import { Labels } from './diagram/labels.js';
import { lanesFor } from './diagram/lanes.js';
import { overview } from './diagram/overview.js';
import { blockMarks, marked } from './diagram/marks.js';
import { records } from './diagram/records.js';
import { refusalBox } from './diagram/refusal-box.js';
import { axisBreak, refusedLine, refusedMark, refusedWords } from './diagram/refused.js';
import { refusedStep, viewOf, xOf, yOf } from './diagram/view.js';

/** @typedef {import('./types.js').Trace} Trace */
/** @typedef {import('./diagram/view.js').View} View */
/** @typedef {import('./diagram/view.js').Options} Options */

/**
 * @param {Trace} trace @param {Options} [options]
 * @returns {string}   an SVG file
 */
export function diagram(trace, options = {}) {
  const bare = viewOf(trace, options);
  const top = head(bare);
  const strip = overview(bare, top.height);
  const lanes = lanesFor(trace.table, bare.sizes, top.height + strip.height);
  /** @type {View} */
  const view = { ...bare, lanes };
  const words = refusalBox(view, lanes.bottom + 24);
  const foot = lanes.bottom + (words.height > 0 ? words.height + 36 : 8);
  const below = legend(view, foot);
  const about = {
    width: view.width, height: foot + below.height, className: 'krossvil-diagram', title: options.title || 'Timing diagram',
    description: answerWords(trace)[0], data: measures(view),
  };
  return picture(about, hatchPattern(view), rect(0, 0, about.width, about.height, { fill: view.theme.paper }), top.markup, strip.markup,
    lanesOf(view, words.height > 0 ? lanes.bottom + 14 : lanes.bottom), words.markup, recordsOf(view), below.markup);
}

/**
 * What a page needs to know to turn a place in the picture into a time.
 * @param {View} view
 */
function measures({ stretch, sizes, end }) {
  return { 'data-from': String(stretch.from), 'data-to': String(stretch.to), 'data-left': sizes.left, 'data-right': end };
}

/**
 * @param {View} view
 * @param {number} foot   down to here goes the refused record's line
 */
function lanesOf(view, foot) {
  return group({ class: 'lanes' }, axis(view), names(view), phaseBand(view), inputLane(view), unseen(view), stateLanes(view), unread(view),
    selectedLine(view), refusedLine(view, foot), clockRows(view), view.dense ? null : cycles(view), cycleLimit(view), axisBreak(view));
}

/**
 * @param {View} view
 */
function recordsOf(view) {
  const { lanes, sizes, width } = view;
  const labels = new Labels({ x: sizes.left, y: lanes.top, width: width - sizes.left - 3, height: lanes.bottom - lanes.top });
  const marks = view.dense ? [] : marked(view);
  if (view.stretch.far) labels.block(view.end, lanes.top, width - view.end, lanes.bottom - lanes.top);
  const isUnreadLine = (/** @type {import('./types.js').Step} */ step) => step.after === null && ['tick', 'end'].includes(step.record.kind);
  blockMarks(view, labels, marks.filter((step) => !isUnreadLine(step)));
  const words = refusedWords(view, labels);
  blockMarks(view, labels, marks.filter(isUnreadLine));
  blockSelected(view, labels);
  return [selectedMark(view), view.dense ? denseRecords(view) : records(view, labels), refusedMark(view, words)];
}

/**
 * The selected step, if the picture shows it.
 * @param {View} view
 */
function selectedStep(view) {
  const step = view.trace.steps[view.options.selected ?? -1];
  return step !== undefined && (view.shown.includes(step) || step === refusedStep(view)) ? step : null;
}

/**
 * @param {View} view
 */
function selectedLine(view) {
  const step = selectedStep(view);
  const { theme, lanes } = view;
  return step === null ? null : line(xOf(view, step), lanes.top - 4, xOf(view, step), lanes.bottom + 2, theme.lit, 2.6);
}

/** The radius of the ring around the selected record. */
const RING = 15;

/**
 * @param {View} view
 */
function selectedMark(view) {
  const step = selectedStep(view);
  if (step === null) return null;
  const { theme } = view;
  const ring = { fill: theme.litFill, stroke: theme.lit, 'stroke-width': 2.6, class: 'selected-record', 'data-record': step.number };
  return circle(xOf(view, step), yOf(view, step), RING, ring);
}

/**
 * @param {View} view @param {Labels} labels
 */
function blockSelected(view, labels) {
  const step = selectedStep(view);
  if (step !== null) labels.block(xOf(view, step) - RING - 2, yOf(view, step) - RING - 2, 2 * RING + 4, 2 * RING + 4);
}
