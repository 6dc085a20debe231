/**
 * Which stretch of time a picture shows. A long journal is shown in pieces; a refused record that is far away stands behind a break
 * of the axis, so that it does not squash the rest.
 */

import { clocks } from '../trace.js';

/** @typedef {import('../types.js').Trace} Trace */
/** @typedef {import('../types.js').Step} Step */

/**
 * @typedef {Object} Stretch
 * @property {number} from
 * @property {number} to         the last time on the even part of the axis
 * @property {number} seen       the time of the last accepted record
 * @property {number} known      up to when input and state are drawn
 * @property {number|null} refusedAt   the time of the refused record; that of the record before where it has none
 * @property {boolean} far       the refused record stands behind a break
 * @property {boolean} whole     the stretch has all accepted records
 */

/**
 * @typedef {Object} Asked
 * @property {number} [from]
 * @property {number} [to]
 * @property {number|null} [selected]   the number of a record that must be in the picture
 */

/**
 * What one picture takes: cycles, records, and how much of its width the words at a refused record need.
 * @typedef {{cycles: number, records: number, words: number}} Room
 */

/**
 * @param {Trace} trace @param {Asked} asked @param {Room} room
 * @returns {Stretch}
 */
export function stretchOf(trace, asked, room) {
  const taken = trace.steps.slice(0, trace.stop ?? trace.steps.length);
  const seen = taken.length === 0 ? 0 : taken[taken.length - 1].record.time;
  const piece = pieceOf(taken, trace.stop !== null, asked, room);
  const refusedAt = trace.stop === null ? null : timeOfRefused(trace.steps[trace.stop], seen);
  const from = Math.max(0, Math.floor(asked.from ?? piece.from));
  const pace = paceOf(taken, trace.table.cycle);
  const far = refusedAt !== null && refusedAt > seen + Math.max((seen - from) / 2, 2 * pace);
  const reach = Math.max(((far ? seen : Math.max(seen, refusedAt ?? 0)) - from) / 2, pace);
  const last = piece.last ? lastShown(trace, { from, seen, refusedAt, far, reach, pace }, room.words) : piece.to;
  const to = Math.max(from + 1, Math.ceil(asked.to ?? last));
  const known = refusedAt === null ? seen : far ? Math.max(to, seen) : Math.max(seen, refusedAt);
  return { from, to, seen, known, refusedAt, far: far && to >= seen, whole: from === 0 && to >= seen };
}

/**
 * A second opening and bytes that are no record have no time of their own.
 * @param {Step} step @param {number} seen
 */
function timeOfRefused(step, seen) {
  const { kind, time } = step.record;
  return kind === 'bytes' || kind === 'input' ? seen : time;
}

/**
 * How long a cycle usually is: the middle one of the completed ones.
 * @param {Step[]} taken @param {number} bound
 */
function paceOf(taken, bound) {
  const lengths = taken.filter((step) => step.record.kind === 'tick').map((step) => step.record.time - (step.before?.cycleStart ?? 0));
  lengths.sort((a, b) => a - b);
  return Math.max(1, lengths[lengths.length >> 1] ?? bound);
}

/**
 * Behind a refused record some of what was not read is shown, and the end of a hold that is running with a little beyond it, if they are
 * near.
 * @param {Trace} trace @param {{from: number, seen: number, refusedAt: number|null, far: boolean, reach: number, pace: number}} found
 * @param {number} words   the share of the width that is left free behind the refused record
 */
function lastShown(trace, { from, seen, refusedAt, far, reach, pace }, words) {
  if (refusedAt === null) return seen;
  const machine = trace.steps[trace.stop ?? 0].before;
  const base = far ? seen + Math.min(pace / 2, reach) : Math.max(seen, refusedAt);
  const unread = far ? [] : trace.steps.slice((trace.stop ?? 0) + 1).map((step) => step.record.time);
  const ends = machine === null ? [] : clocks(trace.table, machine).filter(({ delays }) => delays !== 0).map((clock) => clock.from + clock.length + 1);
  const limits = machine === null ? [] : [machine.cycleStart + trace.table.cycle, ...ends];
  const near = [...unread.filter((time) => time <= base + reach), ...limits.filter((time) => time <= base + 1.5 * reach)];
  const free = far || refusedAt < seen ? base : (base - words * from) / (1 - words);
  return near.reduce((a, b) => Math.max(a, b), free);
}

/**
 * The piece of a long journal that is shown: the one that has the selected record, or begins or ends at the time asked for; or else the
 * last one before a refusal, or the first.
 * @param {Step[]} taken @param {boolean} refused @param {Asked} asked @param {Room} room
 */
function pieceOf(taken, refused, { selected, from, to }, room) {
  const first = from === undefined ? 0 : Math.max(0, taken.findIndex((step) => step.record.time >= from));
  const behind = to === undefined ? -1 : taken.findIndex((step) => step.record.time > to);
  const part = taken.slice(first, behind < 0 ? undefined : behind);
  const fromEnd = from === undefined && (refused || to !== undefined);
  const cuts = cutsOf(part, fromEnd, room);
  const wanted = selected === null || selected === undefined ? (fromEnd ? part.length : 0) : selected - first;
  const k = Math.max(0, cuts.findIndex((_, index) => wanted < (cuts[index + 1] ?? Infinity)));
  const timeAt = (/** @type {number} */ index) => part[index]?.record.time ?? 0;
  const last = k === cuts.length - 1;
  return { from: timeAt(cuts[k]), to: last ? 0 : timeAt(cuts[k + 1]), last };
}

/**
 * Where each piece begins, as indices of steps. They are counted from the end if that was refused, so that its piece is a full one.
 * @param {Step[]} taken @param {boolean} fromEnd @param {Room} room
 * @returns {number[]}
 */
function cutsOf(taken, fromEnd, room) {
  const cuts = [];
  let cycles = 0;
  let records = 0;
  for (let k = 1; k < taken.length; k++) {
    const index = fromEnd ? taken.length - k : k;
    cycles += taken[index].record.kind === 'tick' ? 1 : 0;
    records += 1;
    const rest = fromEnd ? index : taken.length - index;
    if ((cycles < room.cycles && records < room.records) || rest < 12) continue;
    cuts.push(index);
    cycles = 0;
    records = 0;
  }
  return [0, ...(fromEnd ? cuts.reverse() : cuts)];
}
