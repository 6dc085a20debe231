/**
 * Where the time went under many inputs: a row for each state, a column for each input that has slots, and in each cell their number. The more
 * they are, the stronger is the cell's tint. So many colours as there are inputs could not be told apart.
 */
import { head, headsFor } from './column-heads.js';
import { counted, grouped, largest, share, usedInputs } from './dwell-numbers.js';
import { nameOf } from './name-of.js';
import { shrunk, SLIDE } from './slide.js';
import { element, group, line, picture, rect, short, text } from './svg.js';
import { fit, widthOf } from './text-width.js';
import { THEMES } from './theme.js';

/** @typedef {import('./types.js').Names} Names */
/** @typedef {import('./dwell-numbers.js').Report} Report */

const [MARGIN, ROW, SIZE] = [12, 26, 12.5];
/** Of the bar of a state's time. */
const BAR = 110;
const LONGEST_NAME = 300;
const TINT = { least: 0.06, most: 0.45 };

/**
 * @typedef {Object} Plan
 * @property {Report} report
 * @property {Names} names
 * @property {import('./theme.js').Theme} theme
 * @property {{input: number, x: number, width: number}[]} columns
 * @property {import('./column-heads.js').Heads} heads
 * @property {{bar: number, slots: number, entries: number}} ends   where the columns at the heads of rows end
 * @property {number} top @property {number} right
 * @property {{time: bigint, slots: bigint}} most    the longest time in a state, the most slots of a cell
 */

/**
 * @param {Report} report @param {Names} names @param {import('./dwell-plot.js').Options} options
 * @returns {Plan}
 */
function planOf(report, names, options) {
  const widest = (/** @type {string[]} */ words, bold = false) => Math.max(...words.map((each) => widthOf(each, SIZE, bold)));
  const bar = MARGIN + Math.min(LONGEST_NAME, widest(report.dwell.map((_, state) => nameOf(names.states, state)), true)) + 12 + BAR;
  const slots = bar + 10 + widest(['slots', ...report.dwell.map(grouped)]);
  const entries = slots + 16 + widest(['entries', ...report.entries.map(grouped)]);
  const inputs = usedInputs(report);
  const least = inputs.map((input) => Math.max(20, widest(report.pairs.map((row) => grouped(row[input])))) + 10);
  const heads = headsFor(inputs.map((input) => [nameOf(names.inputs, input)]), least, (options.width ?? SLIDE.width) - entries - 2 * MARGIN);
  let x = entries + MARGIN;
  const columns = inputs.map((input, k) => {
    x += heads.widths[k];
    return { input, x: x - heads.widths[k], width: heads.widths[k] };
  });
  const most = { time: largest(report.dwell), slots: largest(report.pairs.flat()) };
  const theme = THEMES[options.theme ?? 'light'] ?? THEMES.light;
  return { report, names, theme, columns, heads, ends: { bar, slots, entries }, top: 40 + heads.height, right: x, most };
}

/**
 * @param {Plan} plan @param {number} state @param {number} y
 */
function row(plan, state, y) {
  const { report, names, theme, ends, most } = plan;
  const right = { size: SIZE, fill: theme.ink, anchor: /** @type {const} */ ('end') };
  const from = ends.bar - BAR;
  return group({ class: 'dwell', 'data-state': state },
    text(MARGIN, y + 17.5, fit(nameOf(names.states, state), LONGEST_NAME, SIZE, true), { size: SIZE, fill: theme.ink, bold: true }),
    rect(from, y + 6, share(report.dwell[state], most.time) * BAR, ROW - 12, { fill: theme.poll }),
    text(ends.slots, y + 17.5, grouped(report.dwell[state]), right), text(ends.entries, y + 17.5, grouped(report.entries[state]), right),
    plan.columns.map((column) => cell(plan, state, column, y)));
}

/**
 * @param {Plan} plan @param {number} state @param {{input: number, x: number, width: number}} column @param {number} y
 */
function cell({ report, names, theme, most }, state, { input, x, width }, y) {
  const slots = report.pairs[state][input];
  if (slots === 0n) return null;
  const tint = TINT.least + (TINT.most - TINT.least) * share(slots, most.slots);
  const title = `${nameOf(names.states, state)}, ${nameOf(names.inputs, input)}: ${counted(slots, 'slot', 'slots')}`;
  return group({ class: 'slots', 'data-state': state, 'data-input': input }, element('title', {}, title),
    element('rect', { x, y, width, height: ROW, fill: theme.poll, 'fill-opacity': tint.toFixed(4) }),
    text(x + width - 5, y + 17.5, grouped(slots), { size: SIZE, fill: theme.ink, anchor: 'end' }));
}

/**
 * @param {Plan} plan @param {number} bottom
 */
function grid({ columns, theme, top, right }, bottom) {
  const count = Math.round((bottom - top) / ROW);
  return group({ class: 'grid' },
    Array.from({ length: count + 1 }, (_, k) => line(MARGIN, top + ROW * k, right, top + ROW * k, k % count === 0 ? theme.border : theme.grid)),
    [...columns.map(({ x }) => x), right].map((x, k) => line(x, top, x, bottom, k === 0 ? theme.border : theme.grid)));
}

/**
 * @param {Report} report @param {Names} names @param {import('./dwell-plot.js').Options} options
 * @returns {string}   an SVG file
 */
export function dwellMatrix(report, names, options) {
  const plan = planOf(report, names, options);
  const { theme, columns, ends, top } = plan;
  const [width, bottom] = [plan.right + MARGIN, top + ROW * report.dwell.length];
  const height = bottom + 34;
  const title = options.title || 'Where the time went';
  const journals = counted(report.journals, 'journal', 'journals');
  const scale = shrunk({ width, height }, options.width);
  const data = { viewBox: `0 0 ${short(width)} ${short(height)}` };
  const quiet = { size: SIZE, fill: theme.quiet };
  return picture({ width: width * scale, height: height * scale, title, description: journals, className: 'krossvil-dwell', data },
    rect(0, 0, width, height, { fill: theme.paper }),
    text(MARGIN, 28, fit(`${title}: ${journals}`, width - 2 * MARGIN, 19, true), { size: 19, fill: theme.ink, bold: true }),
    text(MARGIN, top - 9, 'state', quiet), text(ends.slots, top - 9, 'slots', { ...quiet, anchor: 'end' }),
    text(ends.entries, top - 9, 'entries', { ...quiet, anchor: 'end' }),
    columns.map(({ input, x, width: wide }) => head(plan.heads, [nameOf(names.inputs, input)], x + wide / 2, top, { fill: theme.ink, bold: true })),
    report.dwell.map((_, state) => row(plan, state, top + ROW * state)), grid(plan, bottom),
    text(MARGIN, bottom + 22, 'In a cell: the slots of this state under this input. No number: none.', quiet));
}
