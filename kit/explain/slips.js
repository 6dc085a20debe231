/**
 * What people get wrong (docs/RULES.md, "What students get wrong", and two errors of those who know timers of PLCs): each slip as a
 * machine with a wrong rule, and in words. A slip that people make in several ways has a machine for each way.
 */

import { quoted, say } from '../names.js';
import { RULES, held } from './machine.js';

/** @typedef {import('../types.js').SlipName} SlipName */
/** @typedef {import('../types.js').Trace} Trace */
/** @typedef {import('../types.js').Machine} Machine */
/** @typedef {import('../types.js').Record} JournalRecord */
/** @typedef {import('./machine.js').Mind} Mind */
/** @typedef {import('./machine.js').Rules} Rules */

/**
 * A refused record, and the clock that was mistaken.
 * @typedef {Object} Mistaken
 * @property {Trace} trace
 * @property {JournalRecord} record
 * @property {Machine} machine       before the record
 * @property {number} nextTick       the tick behind it
 * @property {'hold'|'timer'} clock  what it is called
 * @property {number} right          since when it runs
 * @property {number} wrong          since when it was taken to run
 */

/** @typedef {(mistaken: Mistaken) => string} Words */

/**
 * @typedef {Object} Slip
 * @property {SlipName} name
 * @property {Partial<Rules>} rules
 * @property {Words} took    what was done, as a clause
 * @property {Words} is      what is right, as a sentence
 * @property {(clock: string) => string} machine   what such answers are those of, as: a hold that ends when it is reached
 */

/** @type {Words} */
const isMeasured = ({ clock }) => say`A ${clock} is measured at the test.`;

/** @type {Words} */
const isStarted = ({ clock, right }) => say`Only a move ${clock === 'hold' ? 'starts a hold' : 'into its region starts a timer'}: it runs from `
  + say`${right}.`;

/** @type {Words} */
const isThereFromTick = ({ clock, right, record }) => (record.kind === 'tick' ? 'The state changes at the tick only.'
  : say`The new state is there from the tick on, and the ${clock} runs from ${right}.`);

/** @type {Words} */
const tookTick = ({ clock, wrong }) => say`the ${clock} was started again at the tick at ${wrong}`;

/** @type {Words} */
const tookAtTest = ({ wrong, record }) => (record.kind === 'tick' ? 'the state was changed at the test already, and then once more at the tick'
  : say`the state was changed at the test, at ${wrong}`);

/** @type {Words} */
const tookChange = ({ clock, wrong }) => say`the ${clock} was counted from ${wrong === 0 ? 'the beginning' : say`the input's change at ${wrong}`}, `
  + 'as an on-delay timer counts';

/** @type {Words} */
const tookSeen = ({ clock, wrong, machine, trace }) => say`the ${clock} was counted from the poll at ${wrong}, which first saw `
  + say`${quoted(trace.names.inputs, machine.polled)}, as an on-delay timer counts`;

/**
 * A hold that runs since an instant of the input, or since the entry where that is later.
 * @param {'change'|'stood'|'seen'} of @param {Words} took @param {string} since
 * @returns {Slip[]}
 */
function onDelay(of, took, since) {
  const common = /** @type {const} */ ({ name: 'on-delay', took, is: isStarted });
  return [
    { ...common, rules: { since: (m) => m[of] }, machine: (clock) => `a ${clock} that runs from ${since}` },
    { ...common, rules: { since: (m, clock) => Math.max(m[of], m.from[clock]) },
      machine: (clock) => `a ${clock} that runs from ${since}, or from the entry if that is later` },
  ];
}

/** @type {Slip[]} */
export const SLIPS = [
  {
    name: 'hold-reached',
    rules: { running: (passed, length) => passed < length },
    took: ({ clock }) => say`the ${clock} was taken to end when it is reached`,
    is: ({ clock }) => say`A ${clock} ends when it is passed.`,
    machine: (clock) => `a ${clock} that ends when it is reached`,
  },
  {
    name: 'old-entry',
    rules: { starts: (m, clock, to) => RULES.starts(m, clock, to) && !m.ran[clock] },
    took: ({ wrong }) => say`the entry of an earlier visit, at ${wrong}, was let stand`,
    is: ({ clock, right }) => say`The ${clock} runs from the last entry, at ${right}.`,
    machine: (clock) => `a ${clock} that runs from its first entry, also in later visits`,
  },
  {
    name: 'hold-restarted',
    rules: { starts: (m, clock, to) => RULES.starts(m, clock, to) || (m.free && to === m.state) },
    took: ({ clock, wrong, machine, trace }) => say`the tick at ${wrong} led back to ${quoted(trace.names.states, machine.state)}, and `
      + say`the ${clock} was started again there`,
    is: isStarted,
    machine: (clock) => `a ${clock} that starts again where a tick leads back`,
  },
  {
    name: 'hold-restarted',
    rules: { starts: (m, clock, to) => to !== m.state },
    took: ({ clock, wrong }) => say`the ${clock} was started again by the move at ${wrong}`,
    is: isStarted,
    machine: (clock) => `a ${clock} that starts again at each move, inside its region too`,
  },
  {
    name: 'hold-restarted',
    rules: { starts: (m) => m.free },
    took: tookTick,
    is: isStarted,
    machine: (clock) => `a ${clock} that starts again at each tick after a free test`,
  },
  {
    name: 'hold-restarted',
    rules: { starts: () => true },
    took: tookTick,
    is: isStarted,
    machine: (clock) => `a ${clock} that starts again at each tick`,
  },
  {
    name: 'wrong-instant',
    rules: { instant: (m) => m.polledAt },
    took: ({ clock, machine }) => say`the ${clock} was measured at the poll, at ${machine.polledAt}`,
    is: isMeasured,
    machine: (clock) => `a ${clock} that is measured at the poll`,
  },
  {
    name: 'wrong-instant',
    rules: { instant: (m) => m.nextTick },
    took: ({ clock, nextTick }) => say`the ${clock} was measured at the tick, at ${nextTick}`,
    is: isMeasured,
    machine: (clock) => `a ${clock} that is measured at the tick`,
  },
  {
    name: 'wrong-instant',
    rules: { moves: (m, rules, time) => m.free || !held(m, rules, time) },
    took: ({ clock, record }) => say`the ${clock} was measured once more at the tick, at ${record.time}`,
    is: () => 'What counts is the test.',
    machine: (clock) => `a ${clock} that is measured once more at the tick`,
  },
  { name: 'move-at-test', rules: { movesAtTest: true, moves: () => false }, took: tookAtTest, is: isThereFromTick,
    machine: () => 'a state that changes at the test' },
  { name: 'move-at-test', rules: { movesAtTest: true }, took: tookAtTest, is: isThereFromTick,
    machine: () => 'a state that changes at the test, and once more at the tick' },
  ...onDelay('change', tookChange, "the input's change"),
  ...onDelay('stood', tookChange, 'the last change before the poll'),
  ...onDelay('seen', tookSeen, 'the poll that first saw the input'),
  {
    name: 'hold-ignored',
    rules: { running: () => false },
    took: ({ clock }) => say`the ${clock} was ignored`,
    is: ({ clock }) => say`While a ${clock} runs, a test of an input that it delays is held.`,
    machine: (clock) => `no ${clock} at all`,
  },
  {
    name: 'hold-ignored',
    rules: { moves: () => true },
    took: () => 'the state was changed although the test was held',
    is: () => 'After a held test the state stays.',
    machine: () => 'a state that changes after a held test too',
  },
];
