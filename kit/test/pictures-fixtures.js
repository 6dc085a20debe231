/** What the tests of pictures share: traces of the samples, of lines and of long journals, and a reader of pictures. */

import { FORMS, decodeTable, encodeTable, recordBytes } from '../fields.js';
import { readText } from '../notation.js';
import { traceJournal } from '../trace.js';
import { Chance } from './chance.js';
import { library, sample } from './core.js';

/** The table of a sample, with its names. */
export function tableOf(name) {
  const text = readText(sample(name));
  return decodeTable(text.parts.find((part) => part.kind === 'table').bytes, text.names);
}

/** The trace of bytes under a table. */
export function traceOf(table, journal, form = 'journal') {
  return traceJournal(library, { table: encodeTable(table), journal, form, names: table.names });
}

/** The trace of a sample's journal. */
export function traceOfSample(name) {
  const text = readText(sample(name));
  const part = text.parts.find(({ kind }) => kind in FORMS && kind !== 'stimulus');
  return traceOf(tableOf(name), part.bytes, part.kind);
}

/** Names that are as hostile as can be, in place of a table's own. */
export const HOSTILE = [
  '</text><script>alert(1)</script>', '"\' onload="alert(1)', '&amp;&#60;]]>', '\u202eevil\u2066\u200f', 'nul\u0000\u0007\u001b[31mred',
  '\ud800 lone \udfff',
  '$end #0 \n\t\\x41', '\\N\\G"];}; evil -> [label="', 'w'.repeat(5000), '', '日本語の名前', '\ufffe\uffff\u2028\u{e0041}',
];

/** The table with hostile names. */
export function withHostileNames(table, shift = 0) {
  const hostile = (list) => list.map((_, k) => HOSTILE[(k + shift) % HOSTILE.length]);
  const { states, inputs, outputs, timers } = table.names;
  return { ...table, names: { states: hostile(states), inputs: hostile(inputs), outputs: hostile(outputs), timers: hostile(timers) } };
}

/** Bytes of a journal whose every record is kept, save for one line: `time kind value` in the place of the one that begins so. */
export function changed(trace, number, { kind, time, value }) {
  const record = trace.steps[number].record;
  const bytes = recordBytes('journal', kind ?? record.kind, time ?? record.time, value ?? record.value ?? 0);
  return Uint8Array.from([...trace.journal.subarray(0, record.place), ...bytes, ...trace.journal.subarray(record.place + record.length)]);
}

/** A table that is the classroom's, but slower, so that a long journal has long and short cycles. */
export const slow = { ...tableOf('classroom'), cycle: 30, holds: [0, 50] };

/** As many cycles as are asked for, with a change now and then: the proved runtime answers a stimulus. 2,730 cycles have 65,531 bytes. */
export function longJournal(table, { cycles = 2730, changes = 0, seed = 1 } = {}) {
  const chance = new Chance(seed);
  const part = Math.max(1, Math.floor(table.cycle / 4));
  const bytes = [...recordBytes('stimulus', 'input', 0, 0)];
  const put = (kind, time, value = 0) => bytes.push(...recordBytes('stimulus', kind, time, value));
  let now = 0;
  for (let k = 0; k < cycles; k++) {
    if (chance.percent(changes)) put('change', now, chance.below(table.counts.inputs));
    const poll = now + 1 + chance.below(part);
    const test = poll + chance.below(part);
    now = test + chance.below(part);
    put('poll', poll);
    put('test', test);
    put('tick', now);
  }
  put('end', now);
  const answer = library.run(encodeTable(table), Uint8Array.from(bytes));
  if (!answer.ok) throw new Error(`the stimulus is refused ${answer.number} at ${answer.place}`);
  return answer.bytes;
}
