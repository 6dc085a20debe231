/**
 * Stimuli by chance, in which holds run, end and are near their end when a test comes. Whether a stimulus can be run, and what its run is,
 * the library says; the machine that is kept along here only leads the chance.
 */

import { RULES, openMind, write } from '../explain/machine.js';
import { recordBytes } from '../fields.js';

/** @typedef {import('../chance.js').Chance} Chance */
/** @typedef {import('../types.js').Kind} Kind */
/** @typedef {import('../types.js').Table} Table */
/** @typedef {import('../explain/machine.js').Mind} Mind */
/** @typedef {[kind: Kind, time: number, value: number]} Event */

/**
 * How likely each is, in percent.
 * @typedef {Object} Likely
 * @property {number} pulse   an input that comes and goes before the poll
 * @property {number} late    a change between the poll and the tick
 */

/**
 * When the clocks of the state are reached that delay something in it and have not passed yet.
 * @param {Mind} m @param {number} begun
 */
function endsOf(m, begun) {
  return m.here[m.state].filter((clock) => m.clocks[clock].delays[m.state] !== 0)
    .map((clock) => m.from[clock] + m.clocks[clock].length).filter((end) => end > begun);
}

/**
 * Poll, test and tick: near the end of a hold where one ends in this cycle, and late where it is far away.
 * @param {Chance} chance @param {Mind} m @param {number} begun
 */
function drawTimes(chance, m, begun) {
  const { cycle } = m.table;
  const ends = endsOf(m, begun);
  const near = ends.filter((end) => end <= begun + cycle);
  if (near.length > 0 && chance.percent(70)) {
    const test = Math.min(begun + cycle, chance.pick(near) + chance.below(2));
    return [chance.between(begun + 1, test), test, chance.between(test, begun + cycle)];
  }
  const [poll, test, tick] = [0, 0, 0].map(() => begun + chance.between(1, cycle)).sort((a, b) => a - b);
  return [poll, test, ends.length > 0 && near.length === 0 && chance.percent(80) ? begun + cycle : tick];
}

/**
 * The input that the next poll is to find: one that waits, one that leads back, or one that leads on.
 * @param {Chance} chance @param {Mind} m @param {number} begun
 */
function drawInput(chance, m, begun) {
  const { next } = m.table;
  const all = next[m.state].map((_, input) => input);
  const delayed = all.filter((input) => m.here[m.state].some((clock) => RULES.delays(m, clock, input)));
  const back = all.filter((input) => next[m.state][input] === m.state);
  const on = all.filter((input) => next[m.state][input] !== m.state);
  const running = endsOf(m, begun).length > 0;
  const chosen = chance.pick(running ? [delayed, delayed, delayed, back, back, all] : [on, on, on, delayed, all]);
  return chosen.length > 0 ? chance.pick(chosen) : chance.pick(all);
}

/**
 * Changes in a stretch of time, up to the input that is wanted.
 * @param {Chance} chance @param {number} present @param {number[]} wanted @param {number} from @param {number} to
 * @returns {Event[]}
 */
function changes(chance, present, wanted, from, to) {
  const times = wanted.map(() => chance.between(from, to)).sort((a, b) => a - b);
  let before = present;
  return wanted.flatMap((input, k) => {
    const same = input === before;
    before = input;
    return same ? [] : [/** @type {Event} */ (['change', times[k], input])];
  });
}

/**
 * @param {Chance} chance @param {Mind} m @param {number} begun @param {Likely} likely
 * @returns {Event[]}
 */
function drawCycle(chance, m, begun, likely) {
  const { counts: { inputs } } = m.table;
  const [poll, test, tick] = drawTimes(chance, m, begun);
  const input = drawInput(chance, m, begun);
  const other = () => (input + chance.between(1, inputs - 1)) % inputs;
  const pulse = inputs > 1 && chance.percent(likely.pulse) ? [other()] : [];
  const late = inputs > 1 && chance.percent(likely.late) ? [other()] : [];
  return [
    ...changes(chance, m.present, [...pulse, input], begun, poll - 1), ['poll', poll, 0],
    ...changes(chance, input, late, poll, test), ['test', test, 0], ['tick', tick, 0],
  ];
}

/**
 * A stimulus of so many cycles.
 * @param {Chance} chance @param {Table} table @param {number} cycles @param {Likely} likely
 */
export function drawStimulus(chance, table, cycles, likely) {
  const opening = chance.below(table.counts.inputs);
  const mind = openMind(table, opening);
  const bytes = [...recordBytes('stimulus', 'input', 0, opening)];
  let begun = 0;
  for (let k = 0; k < cycles; k++) {
    for (const [kind, time, value] of drawCycle(chance, mind, begun, likely)) {
      bytes.push(...recordBytes('stimulus', kind, time, value));
      write(mind, RULES, { kind, time, value, place: 0, length: 0, written: time, form: 'stimulus' }, time);
      begun = time;
    }
  }
  return Uint8Array.from([...bytes, ...recordBytes('stimulus', 'end', begun, 0)]);
}
