/**
 * What lies behind the records: the axis, the input, the phases, state and output, and the hatching over what was not read.
 */
import { element, group, line, path, rect, text } from '../svg.js';
import { fit, widthOf } from '../text-width.js';
import { delayedIn } from '../delayed-in.js';
import { nameOf } from '../name-of.js';
import { thousands } from '../names.js';
import { has } from '../sets.js';
import { inTurn } from '../theme.js';
import { unseenInputs } from '../trace.js';
import { boxesOf, columnsOf, runsOf } from './runs.js';
import { presentOf, timeOf, refusedStep } from './view.js';

/** @typedef {import('./view.js').View} View */
/** @typedef {import('./runs.js').Run} Run */

/**
 * The times on the axis: the narrowest of 1, 2, 5, 10, 20, 50 .. whose numbers do not touch.
 * @param {View} view
 */
function stepOf(view) {
  const { stretch, sizes, end } = view;
  const room = Math.max(30, widthOf(thousands(stretch.to), sizes.small) + 14);
  const most = Math.max(1, (end - sizes.left) / room);
  const least = Math.max(1, (stretch.to - stretch.from) / most);
  const power = 10 ** Math.floor(Math.log10(least));
  return [1, 2, 5, 10].map((k) => k * power).find((step) => step >= least) ?? 10 * power;
}

/**
 * @param {View} view
 */
export function axis(view) {
  const { stretch, lanes, sizes, theme, x } = view;
  const step = stepOf(view);
  const first = Math.ceil(stretch.from / step);
  const count = Math.max(0, Math.floor(stretch.to / step) - first + 1);
  const times = Array.from({ length: count }, (_, k) => (first + k) * step);
  const lines = times.map((time) => `M${x(time).toFixed(1)},${lanes.top}V${lanes.bottom}`).join('');
  return group({ class: 'axis' },
    path(lines, { stroke: theme.grid, 'stroke-width': 1 }),
    text(sizes.left - sizes.gap, lanes.axis, 'time', { size: sizes.small, fill: theme.quiet, anchor: 'end' }),
    times.filter((time) => clearOfRefused(view, time))
      .map((time) => axisNumber(view, time, { size: sizes.small + 0.5, fill: theme.quiet })));
}

/**
 * A number on the axis, which stays inside the picture.
 * @param {View} view @param {number} time @param {{size: number, fill: string, bold?: boolean}} style
 */
export function axisNumber({ x, width, sizes, lanes }, time, style) {
  const words = thousands(time);
  const half = widthOf(words, style.size, style.bold) / 2;
  return text(Math.min(Math.max(x(time), sizes.left + half - 8), width - half - 3), lanes.axis, words, { ...style, anchor: 'middle' });
}

/**
 * The refused record's time stands on the axis in red; numbers that would touch it are left out.
 * @param {View} view @param {number} time
 */
function clearOfRefused(view, time) {
  const { stretch, sizes, x } = view;
  if (stretch.refusedAt === null || stretch.to < stretch.seen) return true;
  const room = (widthOf(thousands(time), sizes.small) + widthOf(thousands(stretch.refusedAt), sizes.small, true)) / 2 + 6;
  return Math.abs(x(time) - x(stretch.refusedAt)) > room;
}

/**
 * The lanes' names at the left.
 * @param {View} view
 */
export function names(view) {
  const { lanes, trace } = view;
  const middle = (/** @type {{y: number, height: number}} */ lane) => lane.y + lane.height / 2;
  const rows = [
    { y: middle(lanes.input), word: 'input', under: 'at the sensor' },
    { y: lanes.poll, word: 'poll', under: '' },
    { y: lanes.test, word: 'test', under: '' },
    { y: lanes.tick, word: 'tick', under: '' },
    { y: lanes.cycle, word: 'cycle', under: `at most ${thousands(trace.table.cycle)}` },
    { y: middle(lanes.state), word: 'state', under: '' },
    { y: middle(lanes.output), word: 'output', under: '' },
    ...lanes.clocks.map((lane, k) => ({ y: middle(lane), ...clockName(view, k) })),
  ];
  return group({ class: 'names' }, rows.map(({ y, word, under }) => rowName(view, y, word, under)));
}

/**
 * @param {View} view @param {number} k
 */
function clockName({ trace, sizes }, k) {
  if (trace.table.kind === 'holds') return { word: 'hold', under: 'from the entry' };
  if (sizes.narrow) return { word: 'timer', under: '' };
  return { word: nameOf(trace.names.timers, k), under: `timer of ${thousands(trace.table.timers[k].length)}` };
}

/**
 * @param {View} view @param {number} y @param {string} word @param {string} under
 */
function rowName({ sizes, theme }, y, word, under) {
  const room = sizes.left - sizes.gap - 1;
  const two = under !== '' && !sizes.narrow;
  const x = sizes.left - sizes.gap;
  return [
    text(x, y + (two ? -1 : sizes.word * 0.35), fit(word, room, sizes.word, true), { size: sizes.word, fill: theme.ink, anchor: 'end', bold: true }),
    two ? text(x, y + 15, fit(under, room, sizes.small), { size: sizes.small, fill: theme.quiet, anchor: 'end' }) : null,
  ];
}

/**
 * A lane of runs. In a crowded picture they are drawn by columns of pixels.
 * @param {View} view @param {Run[]} runs @param {{y: number, height: number}} lane @param {string[]} colours
 * @param {((value: number) => string) | null} name   of a run
 */
function lane(view, runs, { y, height }, colours, name) {
  const { theme, x } = view;
  const pieces = view.dense ? columnsOf(runs, x, 1.5) : runs.map((run) => ({ x: x(run.from), width: x(run.to) - x(run.from), value: run.value }));
  const boxes = [...new Set(pieces.map((piece) => piece.value))].map((value) =>
    path(boxesOf(pieces.filter((piece) => piece.value === value), y, height), { fill: inTurn(colours, value) }));
  const borders = name === null || view.dense ? null : path(boxesOf(pieces, y, height), { fill: 'none', stroke: theme.border });
  return [boxes, borders, name === null ? null : pieces.map((piece) => laneWord(view, piece, y + height / 2, name(piece.value)))];
}

/**
 * @param {View} view @param {{x: number, width: number}} piece @param {number} y @param {string} name
 */
function laneWord({ sizes, theme }, piece, y, name) {
  const word = fit(name, piece.width - 8, sizes.text);
  return text(piece.x + piece.width / 2, y + sizes.text * 0.36, word, { size: sizes.text, fill: theme.ink, anchor: 'middle' });
}

/**
 * A lane's runs, or two lists of them where one goes through the records: what has come, and what comes later.
 * @param {View} view @param {(machine: import('../types.js').Machine) => number} pick
 * @param {(runs: Run[]) => import('../svg.js').Content} drawRuns
 */
function inTime(view, pick, drawRuns) {
  const { taken, stretch } = view;
  const present = presentOf(view);
  if (present === null) return drawRuns(runsOf(taken, pick, stretch));
  const past = runsOf(taken.slice(0, present.step.number + 1), pick, { ...stretch, known: Math.min(present.until, stretch.known) });
  const later = runsOf(taken, pick, { ...stretch, from: Math.max(present.until, stretch.from) });
  return [group({ opacity: 0.25 }, drawRuns(later)), drawRuns(past)];
}

/**
 * The input as it stands at the sensor, and below it where it is delayed in the state.
 * @param {View} view
 */
export function inputLane(view) {
  const { trace, lanes, theme } = view;
  const under = { y: lanes.input.y + lanes.input.height + 3, height: 7 };
  const delayed = [theme.heldFill, theme.heldFill];
  return group({ class: 'input' },
    inTime(view, (machine) => machine.present, (runs) => lane(view, runs, lanes.input, theme.inputs, (value) => nameOf(trace.names.inputs, value))),
    inTime(view, (machine) => Number(has(delayedIn(trace.table, machine.state), machine.present)),
      (runs) => lane(view, runs.filter((run) => run.value === 1), under, delayed, null)));
}

/**
 * The stretches of the input that no poll took, hatched. In a crowded picture they have no words.
 * @param {View} view
 */
export function unseen(view) {
  const { trace, lanes: { input }, stretch, hatch, x } = view;
  const [first, last] = [stretch.from, Math.min(stretch.to, stretch.known)];
  const seen = unseenInputs(trace).map((run) => ({ ...run, value: 1, left: Math.max(run.from, first), right: Math.min(run.to, last) }));
  const runs = seen.filter(({ left, right }) => right > left);
  if (!view.dense) return group({ class: 'never-seen' }, runs.map((run) => unseenStretch(view, run, x(run.left), x(run.right) - x(run.left))));
  const pieces = columnsOf(runs.map(({ left, right, value }) => ({ from: left, to: right, value })), x, 1.5);
  return path(boxesOf(pieces, input.y, input.height), { fill: `url(#${hatch}-unseen)`, class: 'never-seen' });
}

/**
 * The hatching leaves the input's name free. Whoever points at it reads what it means.
 * @param {View} view @param {import('../types.js').Visit & {to: number}} run @param {number} left @param {number} width
 */
function unseenStretch(view, { state, from, to }, left, width) {
  const { trace, lanes: { input }, sizes, hatch, options } = view;
  const name = nameOf(trace.names.inputs, state);
  const later = options.step && to > (trace.steps[options.selected ?? 0]?.record.time ?? 0);
  const free = fit(name, width - 8, sizes.text) === '' ? 0 : sizes.text * 1.4;
  const strip = (input.height - free) / 2;
  return group({ opacity: later ? 0.25 : null, 'data-from': from, 'data-to': to },
    element('title', {}, `${name}, from ${thousands(from)} to ${thousands(to)}: no poll took it, it was never seen`),
    [input.y, input.y + input.height - strip].map((y) => rect(left, y, width, strip, { fill: `url(#${hatch}-unseen)` })));
}

/**
 * Where the controller is in its cycle. In a crowded picture cycles are too short to see.
 * @param {View} view
 */
export function phaseBand(view) {
  const { lanes, theme, x, stretch } = view;
  if (view.dense) {
    const [from, to] = [x(stretch.from), x(Math.min(stretch.known, stretch.to))];
    return rect(from, lanes.band.y, to - from, lanes.band.height, { fill: theme.phases[0] });
  }
  return group({ class: 'phases' }, inTime(view, (machine) => machine.phase, (runs) => lane(view, runs, lanes.band, theme.phases, null)));
}

/**
 * @param {View} view
 */
export function stateLanes(view) {
  const { trace, lanes, theme } = view;
  const { outputs } = trace.table;
  const [states, signals] = [trace.names.states, trace.names.outputs];
  return group({ class: 'state' },
    inTime(view, (machine) => machine.state, (runs) => lane(view, runs, lanes.state, theme.states, (value) => nameOf(states, value))),
    inTime(view, (machine) => outputs[machine.state], (runs) => lane(view, runs, lanes.output, theme.outputs, (value) => nameOf(signals, value))));
}

/**
 * @param {View} view
 */
export function hatchPattern({ hatch, theme }) {
  const units = { patternUnits: 'userSpaceOnUse' };
  const unread = { id: hatch, width: 9, height: 9, ...units, patternTransform: 'rotate(45)' };
  const unseen = { id: `${hatch}-unseen`, width: 7, height: 7, ...units, patternTransform: 'rotate(-45)' };
  return element('defs', {}, element('pattern', unread, line(0, 0, 0, 9, theme.grid, 3)),
    element('pattern', unseen, line(0, 0, 0, 7, theme.quiet, 1.6)));
}

/**
 * What is not read any more.
 * @param {View} view
 */
export function unread(view) {
  const { stretch, lanes, sizes, end, hatch, x, width } = view;
  const step = refusedStep(view);
  if (step === null || stretch.to < stretch.known) return null;
  const from = x(stretch.far ? timeOf(view, step) : stretch.known);
  const to = stretch.far ? width - sizes.right : end;
  return rect(from, lanes.top + 4, to - from, lanes.bottom - lanes.top - 4, { fill: `url(#${hatch})`, class: 'unread' });
}
