/**
 * Journals as people write them who have got one thing wrong. A student keeps notes, looks back through them at each test, and knows
 * nothing of kit/explain: what the kit guesses is held against this.
 */

import { recordBytes } from '../fields.js';
import { has, setOf } from '../sets.js';

/**
 * Cycles by chance: the changes, the poll, the test and the tick of each.
 * @param {import('./chance.js').Chance} chance @param {import('../types.js').Table} table @param {number} count
 * @param {number[]} passing  how likely each input is to be over by the next poll, in percent
 */
export function drawCycles(chance, { cycle, counts: { inputs } }, count, passing) {
  const opening = chance.below(inputs);
  let [begun, input] = [0, opening];
  const change = (from, to) => {
    input = (input + chance.between(1, inputs - 1)) % inputs;
    return { time: chance.between(from, to), input };
  };
  const cycles = Array.from({ length: count }, () => {
    const from = begun;
    const [poll, test, tick] = [0, 0, 0].map(() => from + chance.between(1, cycle)).sort((a, b) => a - b);
    const early = chance.percent(passing[input]) ? [change(from, poll - 1)] : [];
    const late = chance.percent(5) ? [change(poll, test)] : [];
    begun = tick;
    return { early, poll, late, test, tick };
  });
  return { opening, cycles };
}

/** What can hold a test in a state: its hold, which is over this state alone, or timers. */
function clocksIn({ kind, holds, delayed, timers }, state) {
  if (kind === 'holds') return [{ length: holds[state], region: setOf([state]), delays: delayed[state] }];
  return timers.filter(({ region }) => has(region, state)).map(({ length, region, delays }) => ({ length, region, delays: delays[state] }));
}

/** The visits since the region was last entered, the oldest first. */
function stay({ visits }, { region }) {
  let from = visits.length - 1;
  while (from > 0 && has(region, visits[from - 1].state)) from--;
  return visits.slice(from);
}

const last = (list) => list[list.length - 1];
const entry = (notes, clock) => stay(notes, clock)[0].tick;
const lastMove = ({ visits }) => last(visits).tick;
const lastBack = (notes, clock) => Math.max(entry(notes, clock), ...stay(notes, clock).flatMap(({ backs }) => backs));
const sinceChange = ({ changes }) => last(changes);
const sinceStood = ({ polls }) => last(polls).stood;
const orEntry = (since) => (notes, clock) => Math.max(since(notes), entry(notes, clock));

/** When the poll came that first saw what the last one saw. */
function sinceSeen({ polls }) {
  let from = polls.length - 1;
  while (from > 0 && polls[from - 1].input === polls[from].input) from--;
  return polls[from].time;
}

/** The clock is taken to run since an instant, and to be measured at another. */
const counted = (since, at = 'test') => (notes, clock, cycle) => cycle[at] - since(notes, clock) <= clock.length;

/** What each thinks: does the clock hold the test? If the tick asks once more: does it hold the tick? */
export const STUDENTS = [
  { name: 'hold-reached', way: '', test: (notes, clock, cycle) => cycle.test - entry(notes, clock) < clock.length },
  { name: 'old-entry', way: '', test: counted(({ visits }, { region }) => visits.find(({ state }) => has(region, state)).tick) },
  { name: 'hold-restarted', way: 'by a tick that leads back', test: counted(lastBack) },
  { name: 'hold-restarted', way: 'by every tick', test: counted(({ begun }) => begun) },
  { name: 'hold-restarted', way: 'by a move in the region', test: counted(lastMove) },
  { name: 'hold-restarted', way: 'by a move in it, or back', test: counted((notes, clock) => Math.max(lastMove(notes), lastBack(notes, clock))) },
  { name: 'wrong-instant', way: 'at the poll', test: counted(entry, 'poll') },
  { name: 'wrong-instant', way: 'at the tick', test: counted(entry, 'tick') },
  { name: 'wrong-instant', way: 'once more at the tick', test: counted(entry), tick: counted(entry, 'tick') },
  { name: 'move-at-test', way: '', test: counted((notes, clock) => stay(notes, clock)[0].test) },
  { name: 'move-at-test', way: 'and once more at the tick', test: counted((notes, clock) => stay(notes, clock)[0].test), twice: true },
  { name: 'on-delay', way: 'since the change', test: counted(sinceChange) },
  { name: 'on-delay', way: 'since the change or the entry', test: counted(orEntry(sinceChange)) },
  { name: 'on-delay', way: 'since what was polled stands', test: counted(sinceStood) },
  { name: 'on-delay', way: 'since then or the entry', test: counted(orEntry(sinceStood)) },
  { name: 'on-delay', way: 'since it was first polled', test: counted(sinceSeen) },
  { name: 'on-delay', way: 'since that poll or the entry', test: counted(orEntry(sinceSeen)) },
  { name: 'hold-ignored', way: '', test: () => false },
  { name: 'hold-ignored', way: 'at the tick', test: counted(entry), tick: () => false },
];

/** The next state, and what is noted of the way to it. */
function move(table, notes, test, tick) {
  const visit = last(notes.visits);
  const to = table.next[visit.state][last(notes.polls).input];
  if (to === visit.state) visit.backs.push(tick);
  else notes.visits.push({ state: to, test, tick, backs: [] });
}

/** A cycle as the student writes it: kinds, times and values. */
function writeCycle(table, notes, cycle, student) {
  const changed = ({ time, input }) => { notes.changes.push(time); notes.input = input; return ['change', time, input]; };
  const early = cycle.early.map(changed);
  notes.polls.push({ time: cycle.poll, input: notes.input, stood: last(notes.changes) });
  const late = cycle.late.map(changed);
  const { input } = last(notes.polls);
  const delaying = clocksIn(table, last(notes.visits).state).filter(({ delays }) => has(delays, input));
  const holds = (thinks) => delaying.some((clock) => thinks(notes, clock, cycle));
  const held = holds(student.test);
  const moves = !held || (student.tick && !holds(student.tick));
  if (moves) move(table, notes, cycle.test, cycle.tick);
  if (moves && student.twice) move(table, notes, cycle.tick, cycle.tick);
  notes.begun = cycle.tick;
  return [...early, ['poll', cycle.poll, input], ...late, ['test', cycle.test, held ? 0 : 1], ['tick', cycle.tick, last(notes.visits).state]];
}

/** The journal that the student writes. */
export function writeJournal(table, { opening, cycles }, student) {
  const notes = { input: opening, changes: [0], polls: [], begun: 0, visits: [{ state: table.start, test: 0, tick: 0, backs: [] }] };
  const records = cycles.flatMap((cycle) => writeCycle(table, notes, cycle, student));
  return Uint8Array.from([['input', 0, opening], ...records, ['end', notes.begun, 0]].flatMap(([kind, time, value]) => (
    recordBytes('journal', kind, time, value))));
}
