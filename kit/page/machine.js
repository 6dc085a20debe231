/** The machine's values at a step, those that the record changed set off, and a sentence about the record. */

import { narrate } from '../explain.js';
import { nameOf } from '../name-of.js';
import { recordLine } from '../notation.js';
import { thousands } from '../names.js';
import { members } from '../sets.js';
import { clocks } from '../trace.js';
import { fill, make } from './dom.js';

/** @typedef {import('../types.js').Trace} Trace */
/** @typedef {import('../types.js').Step} Step */
/** @typedef {import('../types.js').Machine} Machine */

const PHASES = ['waits for its poll', 'polled, waits for its test', 'held, waits for its tick', 'free, waits for its tick'];

/**
 * @param {Trace} trace @param {Machine} m
 * @returns {[string, string][]}
 */
function clockCells(trace, m) {
  const { names } = trace;
  const here = clocks(trace.table, m);
  if (here.length === 0) return trace.table.kind === 'holds' ? [['hold', 'none']] : [['timers', 'none runs here']];
  return here.map(({ timer, length, from, delays }) => {
    const what = timer === null ? 'hold' : `timer ${nameOf(names.timers, timer)}`;
    const delayed = members(delays).map((input) => nameOf(names.inputs, input)).join(', ') || 'nothing';
    return [`${what}, delays ${delayed}`, `${thousands(length)} from ${thousands(from)}: over when ${thousands(from + length)} is passed`];
  });
}

/**
 * Names and values; those of holds and timers, which are long, come last.
 * @param {Trace} trace @param {Machine} m
 * @returns {[string, string][]}
 */
export function machineCells(trace, m) {
  const { names, table } = trace;
  return [
    ['state', nameOf(names.states, m.state)],
    ['output', nameOf(names.outputs, table.outputs[m.state])],
    ['entered at', thousands(m.entry)],
    ['input at the sensor', nameOf(names.inputs, m.present)],
    ['last change', thousands(m.change)],
    ['polled input', m.phase === 0 ? 'none yet' : `${nameOf(names.inputs, m.polled)}, at ${thousands(m.polledAt)}`],
    ['cycle', `${thousands(m.cycleStart)} to at most ${thousands(m.cycleStart + table.cycle)}`],
    ['controller', PHASES[m.phase]],
    ...clockCells(trace, m),
  ];
}

/**
 * The machine that a step shows: after it, or before it where it was refused.
 * @param {Step} step
 */
export function machineAt(step) {
  return step.after ?? step.before;
}

/**
 * A sentence about a step. The refused one has the answer's own sentences: null.
 * @param {Trace} trace @param {Step} step
 */
export function sayStep(trace, step) {
  if (step.after) return narrate(trace, step);
  return step.number === trace.stop ? null : 'A record before this one is refused, so this one is not read.';
}

/**
 * A record that is looked at: its line, and a sentence about it. Null for the refused one, and in an exercise.
 * @param {Trace} trace @param {Step} step
 * @returns {{record: string, says: string}|null}
 */
export function saidAt(trace, step) {
  const says = trace.asked ? null : sayStep(trace, step);
  return says === null ? null : { record: `${recordLine(step.record, trace.names).trim().replace(/\s+/g, ' ')}:`, says };
}

/**
 * @param {Element} room @param {Trace} trace @param {Step} step
 */
export function showMachine(room, trace, step) {
  const machine = machineAt(step);
  if (!machine) {
    fill(room, cell('machine', 'not read any more', false));
    return;
  }
  const before = new Map(step.before && step.after ? machineCells(trace, step.before) : []);
  fill(room, machineCells(trace, machine).map(([name, value]) => cell(name, value, before.size > 0 && before.get(name) !== value)));
}

/**
 * @param {string} name @param {string} value @param {boolean} changed
 */
function cell(name, value, changed) {
  const wide = /^(hold|timer)/.test(name) ? 'widest' : /^(cycle|controller)/.test(name) ? 'wide' : '';
  const words = make('dd', {}, value, changed && make('span', { class: 'unseen' }, ' (changed)'));
  return make('div', { class: `${changed ? 'changed' : ''} ${wide}` }, make('dt', {}, name), words);
}
