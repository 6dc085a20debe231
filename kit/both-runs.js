/**
 * The written journal and the run of its own inputs and times, one above the other over one axis, with the first difference marked. What is
 * written is drawn as it is written; what is run is the library's.
 */

import { fieldTimes } from './both-runs/stretch.js';
import { decodeRecords } from './fields.js';
import { nameOf } from './name-of.js';
import { thousands } from './names.js';
import { circle, group, line, path, picture, rect, text } from './svg.js';
import { fit, widthOf } from './text-width.js';
import { THEMES, inTurn } from './theme.js';

/** @typedef {import('./types.js').Trace} Trace */
/** @typedef {import('./types.js').Record} JournalRecord */
/** @typedef {import('./theme.js').Theme} Theme */
/** @typedef {{width?: number, theme?: 'light'|'dark', title?: string}} Options */
/** @typedef {{from: number, to: number, value: number}} Run */

/**
 * What every row needs to know.
 * @typedef {Object} Plan
 * @property {Trace} trace
 * @property {Theme} theme
 * @property {number} from
 * @property {number} to
 * @property {number} left
 * @property {number} width
 * @property {(time: number) => number} x
 */

const ROW = 34;
const SIZE = { word: 14, small: 12 };
/** From the top: the base line of the axis, then the first row. */
const AXIS = 16;
const TOP = 28;

/**
 * What stood for how long, as the records say it.
 * @param {JournalRecord[]} records @param {string[]} kinds @param {number} first @param {Plan} plan
 * @returns {Run[]}
 */
function runsOf(records, kinds, first, { from, to }) {
  /** @type {Run[]} */
  const runs = [{ from: 0, to, value: first }];
  for (const { kind, time, value } of records) {
    const last = runs[runs.length - 1];
    if (!kinds.includes(kind) || value === null || value === last.value) continue;
    last.to = time;
    runs.push({ from: time, to, value });
  }
  return runs.map((run) => ({ ...run, from: Math.max(run.from, from), to: Math.min(run.to, to) })).filter((run) => run.from < run.to);
}

/** @param {Plan} plan @param {JournalRecord[]} records */
const inputs = (plan, records) => runsOf(records, ['input', 'change'], records[0].value ?? 0, plan);

/**
 * @param {Plan} plan @param {number} y @param {Run[]} runs @param {string[]} colours @param {string[]} names
 */
function lane({ x, theme }, y, runs, colours, names) {
  return runs.map(({ from, to, value }) => {
    const [left, wide] = [x(from), x(to) - x(from)];
    return [rect(left, y, wide, ROW - 6, { fill: inTurn(colours, value), stroke: theme.border }),
      text(left + wide / 2, y + 19, fit(nameOf(names, value), wide - 6, SIZE.word), { size: SIZE.word, fill: theme.ink, anchor: 'middle' })];
  });
}

/**
 * @param {Plan} plan @param {number} y @param {JournalRecord[]} records
 */
function tests(plan, y, records) {
  const { x, theme } = plan;
  const middle = y + (ROW - 6) / 2;
  const shown = shownOf(plan, records, 'test');
  const wordy = shown.length < 2 || Math.min(...shown.slice(1).map(({ record }, k) => x(record.time) - x(shown[k].record.time))) > 46;
  return shown.map(({ record: { time, value } }) => {
    const held = value === 0;
    const colours = { fill: held ? theme.held : theme.freeFill, stroke: held ? theme.held : theme.free, 'stroke-width': 2.2 };
    const word = { size: SIZE.small, fill: held ? theme.held : theme.free, bold: true };
    return [path(`M${x(time)},${middle - 8}l8,8l-8,8l-8,-8z`, colours), wordy && text(x(time) + 11, middle + 4, held ? 'held' : 'free', word)];
  });
}

/** @param {Plan} plan @param {number} y @param {JournalRecord[]} records */
function polls(plan, y, records) {
  const { x, theme } = plan;
  return shownOf(plan, records, 'poll').map(({ record: { time, value } }) =>
    circle(x(time), y + (ROW - 6) / 2, 7, { fill: inTurn(theme.inputs, value ?? 0), stroke: theme.poll, 'stroke-width': 2.6 }));
}

/**
 * @param {Plan} plan @param {JournalRecord[]} records @param {string} kind
 */
function shownOf({ from, to }, records, kind) {
  return records.map((record, number) => ({ record, number }))
    .filter(({ record }) => record.kind === kind && record.time >= from && record.time <= to);
}

/**
 * A row for each, from the top: its name, and what is drawn at a height.
 * @param {Plan} plan @param {JournalRecord[]} written @param {JournalRecord[]} run
 * @returns {{name: string, of: string, kind: string, draw: (y: number) => any}[]}
 */
function rowsOf(plan, written, run) {
  const { trace: { table, names }, theme } = plan;
  const pair = (/** @type {string} */ kind, /** @type {(records: JournalRecord[], y: number) => any} */ draw) => [
    { name: kind, of: 'written', kind, draw: (/** @type {number} */ y) => draw(written, y) },
    { name: kind, of: 'in the run', kind, draw: (/** @type {number} */ y) => draw(run, y) }];
  const state = (/** @type {JournalRecord[]} */ records, /** @type {number} */ y) =>
    lane(plan, y, runsOf(records, ['tick'], table.start, plan), theme.states, names.states);
  return [
    { name: 'input', of: '', kind: 'input', draw: (y) => lane(plan, y, inputs(plan, run), theme.inputs, names.inputs) },
    ...pair('poll', (records, y) => polls(plan, y, records)),
    ...pair('test', (records, y) => tests(plan, y, records)),
    ...pair('state', state),
  ];
}

/** @param {Plan} plan @param {number} bottom */
function axis({ from, to, x, theme, left }, bottom) {
  const most = Math.max(1, (x(to) - left) / (widthOf(thousands(to), SIZE.small) + 18));
  const least = Math.max(1, (to - from) / most);
  const power = 10 ** Math.floor(Math.log10(least));
  const step = [1, 2, 5, 10].map((k) => k * power).find((each) => each >= least) ?? 10 * power;
  const times = [];
  for (let time = Math.ceil(from / step) * step; time <= to; time += step) times.push(time);
  return times.map((time) => [line(x(time), TOP - 6, x(time), bottom, theme.grid),
    text(x(time), AXIS, thousands(time), { size: SIZE.small, fill: theme.quiet, anchor: 'middle' })]);
}

/**
 * The rows that are about a kind of record, as one box at its time: 'tick' shows in the states.
 * @param {Plan} plan @param {{kind: string}[]} rows @param {JournalRecord} record
 */
function boxAt({ x }, rows, { kind, time }) {
  const about = kind === 'tick' ? 'state' : kind;
  const first = rows.findIndex((row) => row.kind === about);
  return { x: x(time) - 13, y: TOP + first * ROW - 2, width: 26, height: 2 * ROW - 2 };
}

/**
 * @param {Trace} trace  of the written journal
 * @param {{bytes: Uint8Array, differences: {number: number, record: JournalRecord}[]}} own  the run, and the records that differ from it
 * @param {Options} [options]
 * @returns {string}  an SVG file
 */
export function bothRuns(trace, own, options = {}) {
  const { width = 900, theme: look = 'light', title = 'Written, and run' } = options;
  const theme = THEMES[look];
  const written = trace.steps.map(({ record }) => record);
  const [first] = own.differences;
  const { from, to } = fieldTimes(written, first?.number ?? null, width);
  const left = width < 700 ? 84 : 140;
  const right = width - 20;
  const plan = {
    trace, theme, from, to, left, width,
    x: (/** @type {number} */ time) => left + (time - from) * (right - left) / Math.max(1, to - from),
  };
  const rows = rowsOf(plan, written, decodeRecords(own.bytes, 'journal'));
  const bottom = TOP + rows.length * ROW;
  const height = bottom + (first ? 26 : 8);
  const says = first ? `they differ first at ${thousands(first.record.time)}` : 'they are the same';
  return picture({ width, height, className: 'krossvil-both', title, description: says },
    rect(0, 0, width, height, { fill: theme.paper }), axis(plan, bottom),
    own.differences.filter(({ record }) => record.time >= from && record.time <= to).map(({ record }) => shade(plan, rows, record)),
    rows.map((row, k) => [nameOfRow(plan, TOP + k * ROW, row),
      group({ class: `${row.kind} ${row.of === 'written' ? 'written' : 'run'}` }, row.draw(TOP + k * ROW))]),
    first && mark(plan, rows, first, bottom));
}

/** @param {Plan} plan @param {{kind: string}[]} rows @param {JournalRecord} record */
function shade(plan, rows, record) {
  const box = boxAt(plan, rows, record);
  return rect(box.x, box.y, box.width, box.height, { fill: plan.theme.redPaper, stroke: plan.theme.red, 'stroke-width': 0.8, rx: 4, class: 'differs' });
}

/** @param {Plan} plan @param {number} y @param {{name: string, of: string}} row */
function nameOfRow({ left, theme, width }, y, { name, of }) {
  const two = of !== '' && width >= 700;
  const words = two || of === '' ? name : of === 'written' ? name : 'run';
  return [text(left - 12, y + (two ? 12 : 19), words, { size: SIZE.word, fill: theme.ink, anchor: 'end', bold: true }),
    two && text(left - 12, y + 26, of, { size: SIZE.small, fill: theme.quiet, anchor: 'end' })];
}

/**
 * @param {Plan} plan @param {{kind: string}[]} rows @param {{number: number, record: JournalRecord}} first @param {number} bottom
 */
function mark(plan, rows, { number, record }, bottom) {
  const { theme, x, left, width } = plan;
  const box = boxAt(plan, rows, record);
  const words = 'here they differ first';
  const half = widthOf(words, SIZE.small, true) / 2;
  const at = Math.min(Math.max(x(record.time), left + half), width - 8 - half);
  return group({ class: 'first-difference', 'data-record': number },
    line(x(record.time), TOP - 6, x(record.time), box.y, theme.red, 2),
    line(x(record.time), box.y + box.height, x(record.time), bottom + 4, theme.red, 2),
    rect(box.x, box.y, box.width, box.height, { fill: 'none', stroke: theme.red, 'stroke-width': 3, rx: 4 }),
    text(at, bottom + 20, words, { size: SIZE.small, fill: theme.red, anchor: 'middle', bold: true }));
}
