/**
 * An exercise as a diagram shows it: what is given and what was answered, and a question mark where nothing is. Nothing is judged, and
 * nothing that would give an answer away is there: no hold, no timer, nothing of what a poll missed.
 */

import { decodeRecords } from '../fields.js';
import { machineAfter } from '../trace.js';

/** @typedef {import('../types.js').Machine} Machine */
/** @typedef {import('../types.js').Step} Step */
/** @typedef {import('../types.js').Table} Table */
/** @typedef {import('../types.js').Trace} Trace */
/** @typedef {import('../exercise.js').Asked} Asked */

const OPEN = '?';

/**
 * The table without holds and timers, with one more state, input and output: the one that nobody has said yet.
 * @param {Table} table
 * @returns {Table}
 */
function withoutClocks(table) {
  const { names, counts, outputs } = table;
  const none = outputs.map(() => 0);
  const more = { states: [...names.states, OPEN], inputs: [...names.inputs, OPEN], outputs: [...names.outputs, OPEN], timers: [] };
  return { ...table, kind: 'holds', holds: [...none, 0], delayed: [...none, 0], timers: [], outputs: [...outputs, counts.outputs], names: more };
}

/**
 * @param {Table} table  a table that passes
 * @param {Uint8Array} tableBytes @param {Asked} asked
 * @returns {Trace}
 */
export function exerciseTrace(table, tableBytes, { bytes, blanks }) {
  const open = new Set(blanks.filter(({ answer }) => answer === null).map(({ record }) => record));
  const unsaid = new Map([['poll', table.counts.inputs], ['test', 2], ['tick', table.counts.states]]);
  const bare = withoutClocks(table);
  /** @type {Machine|null} */
  let machine = null;
  const steps = decodeRecords(bytes, 'journal').map((given, number) => {
    const record = open.has(number) ? { ...given, value: unsaid.get(given.kind) ?? null } : given;
    const before = machine;
    const after = machineAfter(bare, before, record);
    machine = open.has(number) && record.kind === 'test' ? { ...after, phase: 1 } : after;
    return { record, number, before, after: machine };
  });
  return {
    table: bare, names: bare.names, tableBytes, journal: bytes, form: 'journal', long: null, steps, answer: null, refused: null, at: null, stop: null,
    asked: { all: new Set(blanks.map(({ record }) => record)), open },
  };
}
