/**
 * Where the time went: a bar for each state, with its slots by input, as SVG. Of many inputs it is a matrix.
 */
import { dwellMatrix } from './dwell-matrix.js';
import { counted, largest, share, usedInputs } from './dwell-numbers.js';
import { element, group, picture, rect, text } from './svg.js';
import { fit, widthOf, wrap } from './text-width.js';
import { nameOf } from './name-of.js';
import { THEMES } from './theme.js';

export { reportOf } from './dwell-numbers.js';

/** @typedef {import('./types.js').Names} Names */

/** @typedef {import('./dwell-numbers.js').Report} Report */

/**
 * @typedef {Object} Options
 * @property {string} [title]
 * @property {number} [width]
 * @property {'light'|'dark'} [theme]
 */

/** More inputs have no colours that can be told apart. */
const MOST_COLOURS = 8;

/**
 * @typedef {Object} Plan
 * @property {Report} report
 * @property {Names} names
 * @property {import('./theme.js').Theme} theme
 * @property {number} width
 * @property {boolean} narrow     names and numbers stand above the bars
 * @property {number} left        where bars begin
 * @property {number} room        of the longest bar
 * @property {bigint} longest
 * @property {(input: number) => string} colourOf   that of the other pictures where it can be told from all others
 */

/**
 * @param {Report} report @param {Names} names @param {Options} options
 * @returns {Plan}
 */
function planOf(report, names, options) {
  const width = Math.max(240, options.width ?? 900);
  const narrow = width < 600;
  const widest = Math.max(...report.dwell.map((_, state) => widthOf(nameOf(names.states, state), 14, true)));
  const numbers = Math.max(...report.dwell.map((_, state) => widthOf(numbersOf(report, state), 13)));
  const left = narrow ? 12 : Math.min(widest, width / 4) + 36;
  const room = width - left - (narrow ? 12 : numbers + 36);
  const theme = THEMES[options.theme ?? 'light'] ?? THEMES.light;
  const used = usedInputs(report);
  const colourOf = (/** @type {number} */ input) => theme.inputs[names.inputs.length > MOST_COLOURS ? used.indexOf(input) : input];
  return { report, names, theme, width, narrow, left, room, longest: largest(report.dwell), colourOf };
}

/**
 * @param {Report} report @param {number} state
 */
function numbersOf({ dwell, entries }, state) {
  return `${counted(dwell[state], 'slot', 'slots')}, ${counted(entries[state], 'entry', 'entries')}`;
}

/**
 * @param {Report} report @param {Names} names @param {Options} [options]
 * @returns {string}   an SVG file
 */
export function dwellPlot(report, names, options = {}) {
  if (usedInputs(report).length > MOST_COLOURS) return dwellMatrix(report, names, options);
  const plan = planOf(report, names, options);
  const { theme, width, narrow } = plan;
  const title = options.title || 'Where the time went';
  const heads = wrap(`${title.slice(0, 300)}: ${counted(report.journals, 'journal', 'journals')}`, width - 24, narrow ? 15 : 19, true).slice(0, 3);
  const top = 20 + heads.length * 24;
  const step = narrow ? 48 : 38;
  const key = legend(plan, top + step * report.dwell.length + 20);
  const height = top + step * report.dwell.length + 20 + key.height;
  return picture({ width, height, title, description: counted(report.journals, 'journal', 'journals'), className: 'krossvil-dwell' },
    rect(0, 0, width, height, { fill: theme.paper }),
    heads.map((head, k) => text(12, 28 + 24 * k, head, { size: narrow ? 15 : 19, fill: theme.ink, bold: true })),
    report.dwell.map((_, state) => row(plan, state, top + step * state)), key.markup);
}

/**
 * @param {Plan} plan @param {number} state @param {number} y
 */
function row(plan, state, y) {
  const { report, names, theme, narrow, left, room, width, longest } = plan;
  const name = nameOf(names.states, state);
  const numbers = numbersOf(report, state);
  const bar = { y: narrow ? y + 18 : y + 4, height: narrow ? 20 : 26 };
  const end = left + share(report.dwell[state], longest) * room;
  const words = narrow ? [
    text(12, y + 13, fit(name, width - 36 - widthOf(numbers, 12), 13, true), { size: 13, fill: theme.ink, bold: true }),
    text(width - 12, y + 13, numbers, { size: 12, fill: theme.quiet, anchor: 'end' }),
  ] : [
    text(left - 12, y + 22, fit(name, left - 20, 14, true), { size: 14, fill: theme.ink, bold: true, anchor: 'end' }),
    text(end + 10, y + 22, numbers, { size: 13, fill: theme.quiet }),
  ];
  return group({ class: 'dwell', 'data-state': state }, words, bars(plan, state, bar));
}

/**
 * A state's slots, input after input. A name that has no room stands below, with its colour.
 * @param {Plan} plan @param {number} state @param {{y: number, height: number}} bar
 */
function bars({ report, names, theme, left, room, longest, colourOf }, state, { y, height }) {
  let before = 0n;
  return report.pairs[state].map((slots, input) => {
    const [a, b] = [left + share(before, longest) * room, left + share(before + slots, longest) * room];
    before += slots;
    if (slots === 0n) return null;
    const name = nameOf(names.inputs, input);
    return [
      element('rect', { x: a, y, width: Math.max(b - a, 0.5), height, fill: colourOf(input), stroke: theme.border, 'stroke-width': 0.8 },
        element('title', {}, `${nameOf(names.states, state)}, ${name}: ${counted(slots, 'slot', 'slots')}`)),
      widthOf(name, 12.5) > b - a - 8 ? null
        : text((a + b) / 2, y + height / 2 + 4.5, name, { size: 12.5, fill: theme.ink, anchor: 'middle' }),
    ];
  });
}

/**
 * The inputs that have slots.
 * @param {Plan} plan @param {number} y
 */
function legend({ report, names, theme, width, colourOf }, y) {
  const used = usedInputs(report);
  let [x, line] = [12, 0];
  const markup = used.map((input) => {
    const name = fit(nameOf(names.inputs, input), width - 60, 12.5);
    const wide = 28 + widthOf(name, 12.5) + 18;
    if (x + wide > width && x > 12) [x, line] = [12, line + 1];
    const at = x;
    x += wide;
    return [
      rect(at, y + 22 * line, 20, 14, { fill: colourOf(input), stroke: theme.border, 'stroke-width': 0.8 }),
      text(at + 27, y + 22 * line + 11.5, name, { size: 12.5, fill: theme.quiet }),
    ];
  });
  return { markup: group({ class: 'legend' }, markup), height: used.length === 0 ? 4 : 22 * (line + 1) + 8 };
}
