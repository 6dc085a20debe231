/** Why a polled input, a verdict or a state is not the machine's: the sum behind a verdict, and the usual slip. */

import { listed, quoted, say } from '../names.js';
import { has } from '../sets.js';
import { accepted, clocks, freeFrom, holding, ownValue } from '../trace.js';
import { causeOf } from './cause.js';

/** @typedef {import('../types.js').Trace} Trace */
/** @typedef {import('../types.js').Step} Step */
/** @typedef {import('../types.js').Clock} Clock */
/** @typedef {import('../types.js').Machine} Machine */
/** @typedef {import('../types.js').Record} JournalRecord */

/**
 * A refused record. The machine is that before it.
 * @typedef {{trace: Trace, step: Step, record: JournalRecord, machine: Machine}} Case
 */

/** @typedef {{sentences: string[], slip?: import('./cause.js').Cause|null}} Said */

/**
 * @param {Case} c
 * @returns {Said}
 */
function explainPolled({ trace, record, machine }) {
  const { inputs } = trace.names;
  const [said, present] = [quoted(inputs, record.value ?? 0), quoted(inputs, machine.present)];
  const since = machine.change === 0 ? 'from the beginning on' : say`since ${machine.change}`;
  const sentences = [say`The poll at ${record.time} says that it saw ${said}, but ${since} the input is ${present}.`];
  const stood = accepted(trace).some((step) => step.before?.present === record.value);
  if (stood) sentences.push(say`Input ${said} was over at ${machine.change}: what stands at no poll is never seen.`);
  return { sentences };
}

/**
 * @param {Case} c
 * @returns {Said}
 */
function explainTicked({ trace, step, record, machine }) {
  const { states, inputs } = trace.names;
  const [said, here, polled] = [quoted(states, record.value ?? 0), quoted(states, machine.state), quoted(inputs, machine.polled)];
  const slip = causeOf(trace, step);
  const says = say`The tick at ${record.time} says state ${said}`;
  if (machine.phase === 2) return { sentences: [say`${says}, but the test before it was held, so state ${here} stays.`], slip };
  const sentences = [say`${says}, but from ${here} the polled input ${polled} leads to ${quoted(states, ownValue(trace, step) ?? 0)}.`];
  if (machine.present !== machine.polled && trace.table.next[machine.state][machine.present] === record.value) {
    sentences.push(say`${said} is where ${quoted(inputs, machine.present)} leads, the input at the sensor; but it came at `
      + say`${machine.change}, and the poll was at ${machine.polledAt}. What counts is what was polled.`);
  }
  return { sentences, slip };
}

/**
 * The only entry at 0 is that of the initial state: no tick comes before 1.
 * @param {Machine} machine
 */
function entered({ entry }) {
  return entry === 0 ? 'was there from the beginning, 0,' : say`was entered at ${entry}`;
}

/**
 * Why a clock holds the test, with the sum.
 * @param {Trace} trace @param {Machine} machine @param {number} time @param {Clock} clock
 */
function why(trace, machine, time, clock) {
  const { states, inputs, timers } = trace.names;
  const [state, polled] = [quoted(states, machine.state), quoted(inputs, machine.polled)];
  const sum = say`${time} - ${clock.from} = ${time - clock.from} is not more than ${clock.length}`;
  if (clock.timer === null) {
    return say`state ${state} ${entered(machine)} and delays ${polled} until its hold of ${clock.length} is passed: ${sum}`;
  }
  return say`timer ${quoted(timers, clock.timer)} runs since ${clock.from}, when its region was entered, and delays ${polled} in ${state} `
    + say`until its length of ${clock.length} is passed: ${sum}`;
}

/**
 * A test that says free, and is held.
 * @param {Case} c
 * @returns {Said}
 */
function explainFree({ trace, step, record, machine }) {
  const held = holding(trace.table, machine, record.time).map((clock) => why(trace, machine, record.time, clock));
  const sentences = [say`The test at ${record.time} says free, but ${listed(held)}.`,
    say`The first test that can be free is at ${freeFrom(trace.table, machine, record.time)}.`];
  const slip = causeOf(trace, step);
  const delayedNow = clocks(trace.table, machine).some((clock) => has(clock.delays, machine.present));
  if (!slip && machine.present !== machine.polled && !delayedNow) {
    const present = quoted(trace.names.inputs, machine.present);
    sentences.push(say`The input at the sensor, ${present}, is not delayed; but what counts is what was polled.`);
  }
  return { sentences, slip };
}

/**
 * A test that says held, and is free.
 * @param {Case} c
 * @returns {Said}
 */
function explainHeld({ trace, step, record, machine }) {
  const { states, inputs, timers } = trace.names;
  const [state, polled] = [quoted(states, machine.state), quoted(inputs, machine.polled)];
  const here = clocks(trace.table, machine);
  const delaying = here.filter((clock) => has(clock.delays, machine.polled));
  const what = trace.table.kind === 'holds' ? 'hold' : 'timer';
  const says = say`The test at ${record.time} says held`;
  if (here.length === 0) return { sentences: [say`${says}, but state ${state} has no ${what}, so every test in it is free.`] };
  if (delaying.length === 0) {
    return { sentences: [say`${says}, but input ${polled} is not delayed in state ${state}, so the test is free at once.`,
      say`A ${what} does not hold every input back, only those that it delays.`] };
  }
  const passed = delaying.map((clock) => {
    const sum = say`${record.time} - ${clock.from} = ${record.time - clock.from} is more than ${clock.length}`;
    return clock.timer === null ? say`the hold of ${state} is passed: it ${entered(machine)}, and ${sum}`
      : say`timer ${quoted(timers, clock.timer)} is passed: it runs since ${clock.from}, and ${sum}`;
  });
  return { sentences: [say`${says}, but ${listed(passed)}.`], slip: causeOf(trace, step) };
}

/**
 * What a record says that the machine does not have (28).
 * @param {Case} c
 * @returns {Said}
 */
export function explainDifferent(c) {
  if (c.record.kind === 'poll') return explainPolled(c);
  if (c.record.kind === 'tick') return explainTicked(c);
  return c.record.value === 1 ? explainFree(c) : explainHeld(c);
}
