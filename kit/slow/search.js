/**
 * The slowest run to be found: states and inputs stay for as many slots as possible, and then the state is still outside the target. Each
 * situation is gone on from with the longest row of slots that leads to it; where all were gone on from, no run is slower.
 */

import { has } from '../sets.js';
import { keyOf, later, moves, opening, situations } from './machine.js';

/** @typedef {import('../types.js').Table} Table */
/** @typedef {import('./machine.js').Situation} Situation */
/** @typedef {import('../types.js').Kind} Kind */
/**
 * @typedef {Object} Asked
 * @property {number} states
 * @property {number} inputs
 * @property {number} target
 * @property {number} time     the calculated one
 * @property {number} enough   with so many slots the search is at its end
 */

/**
 * A situation that is reached, by a record or by the time that passed.
 * @typedef {Object} Reached
 * @property {Situation} now
 * @property {number} time
 * @property {number} row        how many slots up to now have the states and inputs that are asked about; it stays at one above the time
 * @property {Kind|null} kind    null where time went on
 * @property {number} value
 * @property {Reached|null} from
 */

/** @typedef {{slots: number, end: number, last: Reached}} Slowest   the last slot, before `end`, is outside the target */

/** Above this a cycle has only its first and its last instants. */
const EXACT_MOST = 3000000;
/** So many that are reached are kept. */
const KEPT_MOST = 400000;
/** The clock is looked at once for so many. */
const BETWEEN_LOOKS = 256;

/**
 * The instants of a cycle at which something may be recorded.
 * @param {Table} table @param {boolean} all
 */
function instantsOf({ cycle }, all) {
  if (all) return Array.from({ length: cycle + 1 }, (_, instant) => instant);
  return [...new Set([0, 1, 2, cycle - 1, cycle])].filter((instant) => instant >= 0 && instant <= cycle).sort((a, b) => a - b);
}

export class Search {
  /** @type {Reached[]} */
  #open = [];
  #at = 0;
  /** @type {Map<number, Reached>} */
  #best = new Map();
  #kept = 0;

  /** @param {Table} table  with holds @param {Asked} asked */
  constructor(table, asked) {
    this.table = table;
    this.asked = asked;
    const exact = situations(table) <= EXACT_MOST;
    /** The instant behind each. @type {Map<number, number>} */
    this.following = new Map();
    const instants = instantsOf(table, exact);
    instants.slice(1).forEach((instant, k) => this.following.set(instants[k], instant));
    /** @type {Slowest|null} */
    this.slowest = null;
    /** Nothing is left to be gone on from, or enough was found. */
    this.done = false;
    /** Were all runs looked at, up to what no rule tells apart? */
    this.whole = exact;
    for (let input = 0; input < table.counts.inputs; input += 1) this.#reach(opening(table, input), 0, 0, 'input', input, null);
  }

  /**
   * @param {Situation} now @param {number} time @param {number} row @param {Kind|null} kind @param {number} value @param {Reached|null} from
   */
  #reach(now, time, row, kind, value, from) {
    const key = keyOf(this.table, now);
    const before = this.#best.get(key);
    if (before && before.row >= row) return;
    if (this.#kept >= KEPT_MOST) {
      this.whole = false;
      return;
    }
    const reached = { now, time, row, kind, value, from };
    this.#kept += 1;
    this.#best.set(key, reached);
    this.#open.push(reached);
  }

  /**
   * Time goes on to the next instant of the cycle; the slots until then have the state and the input of now.
   * @param {Reached} reached
   */
  #wait(reached) {
    const { now, time, row } = reached;
    const instant = this.following.get(now.cycle);
    if (instant === undefined) return;
    const by = instant - now.cycle;
    const stays = has(this.asked.states, now.state) && has(this.asked.inputs, now.present);
    if (!has(this.asked.target, now.state)) this.#note(reached, stays ? by : 1);
    this.#reach(later(this.table, now, by), time + by, stays ? Math.min(row + by, this.asked.time + 1) : 0, null, 0, reached);
  }

  /**
   * The last of so many slots from here on is outside the target.
   * @param {Reached} last @param {number} slots
   */
  #note(last, slots) {
    const row = last.row + slots - 1;
    if (row > (this.slowest?.slots ?? 0)) this.slowest = { slots: row, end: last.time + slots, last };
  }

  /**
   * Goes on for so many milliseconds, or to the end.
   * @param {number} milliseconds @param {() => number} [clock]
   */
  go(milliseconds, clock = () => performance.now()) {
    const until = clock() + milliseconds;
    while (!this.done && clock() < until) this.#some();
    return this.done;
  }

  #some() {
    for (let k = 0; k < BETWEEN_LOOKS && this.#at < this.#open.length; k += 1) {
      const reached = this.#open[this.#at];
      this.#at += 1;
      if (this.#best.get(keyOf(this.table, reached.now)) !== reached) continue;
      for (const { kind, value, after } of moves(this.table, reached.now)) this.#reach(after, reached.time, reached.row, kind, value, reached);
      this.#wait(reached);
    }
    this.done = this.#at === this.#open.length || this.slowest?.slots === this.asked.enough;
  }
}

/**
 * What was recorded on the way, the opening first.
 * @param {Reached} last
 * @returns {Reached[]}
 */
export function recordsTo(last) {
  const records = [];
  for (let at = /** @type {Reached|null} */ (last); at; at = at.from) if (at.kind !== null) records.push(at);
  return records.reverse();
}
