/** The numbers of a live run's memory, in words. */

import { say } from '../names.js';

/** @typedef {import('../types.js').Table} Table */

const LATEST = 2000000000;
const MOST_LEFT = 3600001;
const TIME = 8;
const INSTANTS = [5, 6, 7, 10, 11, 12, 13];

const WORDS = ['the stage', 'the phase', 'the present input', 'the polled input', 'the state', 'the last change', 'the entry into the state',
  'the start of the cycle', 'the time of the record before', 'the longest cycle', "the first timer's entry", "the second timer's entry",
  "the third timer's entry", "the fourth timer's entry", 'the count of ticks', 'the count of moves', 'the most ticks left'];

/**
 * The most that each number may be.
 * @param {Table} table @param {Uint32Array} memory
 */
function mostOf({ counts: { states, inputs }, cycle }, memory) {
  const time = memory[TIME];
  return [2, 3, inputs - 1, inputs - 1, states - 1, time, time, time, LATEST, cycle, time, time, time, time, LATEST, LATEST, MOST_LEFT];
}

/**
 * The number at this place, and the most that it may be.
 * @param {Table} table @param {Uint32Array} memory @param {number} place
 */
export function sayNumber(table, memory, place) {
  const most = mostOf(table, memory)[place];
  const why = INSTANTS.includes(place) ? ', the time of the record before' : '';
  return say`Number ${place} of the memory, ${WORDS[place]}, is ${memory[place]}; it may be at most ${most}${why}.`;
}
