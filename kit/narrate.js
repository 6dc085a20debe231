/** An accepted record in a sentence: what it did, and why it is so. */

import { listed, quoted, say } from './names.js';
import { has } from './sets.js';
import { clocks, holding, isUnseen, left } from './trace.js';

/** @typedef {import('./types.js').Trace} Trace */
/** @typedef {import('./types.js').Step} Step */
/** @typedef {import('./types.js').Clock} Clock */
/** @typedef {import('./types.js').Machine} Machine */

/**
 * @param {Trace} trace @param {Step} step @param {Machine} m
 */
function change({ names }, { record }, m) {
  const input = quoted(names.inputs, record.value ?? 0);
  if (m.present === record.value) return say`The card repeats its reading, ${input}.`;
  const stood = say`${quoted(names.inputs, m.present)} stood from ${m.change === 0 ? 'the beginning' : m.change} to ${record.time}`;
  return say`The input becomes ${input}.${isUnseen(m) ? say` ${stood}, and no poll took it: it was never seen.` : ''}`;
}

/**
 * @param {Trace} trace @param {number} time @param {Clock} clock
 */
function sum(trace, time, clock) {
  const name = clock.timer === null ? '' : say` (timer ${quoted(trace.names.timers, clock.timer)})`;
  const since = time - clock.from;
  return say`${time} - ${clock.from} = ${since} is ${since > clock.length ? 'more than' : 'at most'} ${clock.length}${name}`;
}

/**
 * @param {Trace} trace @param {Step} step @param {Machine} m
 */
function test(trace, step, m) {
  const { record } = step;
  const [state, polled] = [quoted(trace.names.states, m.state), quoted(trace.names.inputs, m.polled)];
  const here = clocks(trace.table, m);
  const delaying = here.filter((clock) => has(clock.delays, m.polled));
  if (here.length === 0) return say`Free: state ${state} has no ${trace.table.kind === 'holds' ? 'hold' : 'timer'}.`;
  if (delaying.length === 0) return say`Free: input ${polled} is not delayed in ${state}.`;
  if (record.value !== 0) return say`Free: ${listed(delaying.map((clock) => sum(trace, record.time, clock)))}, so the hold is passed.`;
  const sums = holding(trace.table, m, record.time).map((clock) => sum(trace, record.time, clock));
  return say`Held: ${polled} is delayed in ${state}, and ${listed(sums)}. ${left(trace, step)} left until it is passed.`;
}

/**
 * @param {Trace} trace @param {Step} step @param {Machine} m
 */
function tick({ names }, { record }, m) {
  const [from, input] = [quoted(names.states, m.state), quoted(names.inputs, m.polled)];
  if (m.phase === 2) return say`Held, so the state stays ${from}; its entry stays ${m.entry}.`;
  if (record.value === m.state) return say`From ${from} input ${input} leads back to ${from}; the entry stays ${m.entry}.`;
  return say`From ${from} input ${input} leads to ${quoted(names.states, record.value ?? 0)}, entered at ${record.time}.`;
}

/**
 * @param {Trace} trace @param {Step} step
 * @returns {string}
 */
export function narrate(trace, step) {
  const { record, before } = step;
  const { names, table } = trace;
  if (!before) return say`At 0 the input is ${quoted(names.inputs, record.value ?? 0)} and the state ${quoted(names.states, table.start)}.`;
  if (record.kind === 'change') return change(trace, step, before);
  if (record.kind === 'test') return test(trace, step, before);
  if (record.kind === 'tick') return tick(trace, step, before);
  const since = before.change === 0 ? 'from the beginning on' : say`since ${before.change}`;
  if (record.kind === 'poll') return say`The controller sees ${quoted(names.inputs, before.present)}, which stands ${since}.`;
  return say`The journal ends in state ${quoted(names.states, before.state)}.`;
}
