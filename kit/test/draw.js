/** Tables, stimuli and journals by chance: sound ones, and damage that knows where fields start. */

import { FORMS, decodeRecords, encodeTable, fieldAt, recordBytes } from '../fields.js';
import { plainNames } from '../names.js';
import { wholeSet } from '../sets.js';

/** @param {import('./chance.js').Chance} chance @param {number} count */
function drawSet(chance, count) {
  return (chance.percent(30) ? wholeSet(count) : chance.draw() & wholeSet(count)) >>> 0;
}

/** @param {import('./chance.js').Chance} chance @param {number} cycle */
function drawLength(chance, cycle) {
  return chance.percent(80) ? chance.between(1, 5 * cycle) : chance.between(1, 3600000);
}

/** A table that passes. */
export function drawTable(chance, kind = chance.percent(40) ? 'timers' : 'holds') {
  const count = () => (chance.percent(80) ? chance.between(1, 4) : chance.between(1, 32));
  const counts = { states: count(), inputs: count(), outputs: count() };
  const { states, inputs, outputs } = counts;
  const each = (draw) => Array.from({ length: states }, draw);
  const cycle = chance.percent(85) ? chance.between(1, 9) : chance.between(1, 60000);
  const holds = each(() => (chance.percent(30) ? 0 : drawLength(chance, cycle)));
  const timers = Array.from({ length: chance.between(1, 4) }, () => ({
    length: drawLength(chance, cycle), region: drawSet(chance, states), delays: each(() => drawSet(chance, inputs)),
  }));
  const timed = kind === 'timers';
  return {
    kind, counts, start: chance.below(states), cycle, rest: new Uint8Array(),
    outputs: each(() => chance.below(outputs)),
    next: each(() => Array.from({ length: inputs }, () => chance.below(states))),
    holds: timed ? [] : holds,
    delayed: timed ? [] : holds.map((hold) => (hold === 0 ? 0 : drawSet(chance, inputs))),
    timers: timed ? timers : [],
    names: plainNames(counts, timed ? timers.length : 0),
  };
}

/** Records of a cycle that begins at a time, and when it ends. */
function drawCycle(chance, table, from) {
  const { cycle, counts } = table;
  const later = (time) => Math.min(from + cycle, time + chance.below(Math.max(1, Math.ceil(cycle / 3))));
  const records = [];
  let [time, changed] = [from, 0];
  const change = () => {
    records.push(['change', time, chance.below(counts.inputs)]);
    changed = time;
  };
  while (chance.percent(40) && time < from + cycle) {
    change();
    time = later(time);
  }
  time = Math.max(time, from + 1, changed + 1);
  if (time > from + cycle) return { records, time: from + cycle, open: true };
  for (const kind of ['poll', 'test', 'tick']) {
    records.push([kind, time, 0]);
    if (kind !== 'tick' && chance.percent(20)) change();
    time = later(time);
  }
  return { records, time: records[records.length - 1][1], open: false };
}

/** A stimulus that can be run. */
export function drawStimulus(chance, table, most = 12) {
  const bytes = [...recordBytes('stimulus', 'input', 0, chance.below(table.counts.inputs))];
  let time = 0;
  for (let cycles = chance.below(most); cycles > 0; cycles--) {
    const cycle = drawCycle(chance, table, time);
    for (const [kind, at, value] of cycle.records) bytes.push(...recordBytes('stimulus', kind, at, value));
    time = cycle.time;
    if (cycle.open) break;
  }
  return Uint8Array.from([...bytes, ...recordBytes('stimulus', 'end', time, 0)]);
}

/** The same records, stamped with a counter of 16 bits. */
export function stamp(journal) {
  const fields = decodeRecords(journal, 'journal').map(({ kind, time, value }) => recordBytes('stamped', kind, time % 65536, value ?? 0));
  return Uint8Array.from(fields.flat());
}

/** A table that passes, and a run of it in every form. */
export function drawRun(chance, library, most) {
  const table = drawTable(chance);
  const bytes = encodeTable(table);
  const stimulus = drawStimulus(chance, table, most);
  const ran = library.run(bytes, stimulus);
  if (!ran.ok) throw new Error(`a stimulus that was drawn is refused: ${ran.number} at ${ran.place}`);
  return { table, bytes, stimulus, journal: ran.bytes, short: library.shorten(bytes, ran.bytes).bytes, stamped: stamp(ran.bytes) };
}

/** Where the fields start, as far as they go. */
function starts(bytes) {
  const places = [0];
  for (let field = fieldAt(bytes, 0); field; field = fieldAt(bytes, field.end)) places.push(field.end);
  return places;
}

/** @param {Uint8Array} bytes @param {number} at @param {number} count @param {Iterable<number>} put */
function splice(bytes, at, count, put = []) {
  return Uint8Array.from([...bytes.subarray(0, at), ...put, ...bytes.subarray(at + count)]);
}

/** One thing wrong, or perhaps none. */
export function damage(chance, bytes) {
  const at = chance.below(bytes.length);
  const places = starts(bytes);
  const start = chance.pick(places);
  const end = fieldAt(bytes, start)?.end ?? bytes.length;
  const field = bytes.subarray(start, end);
  const kinds = [
    () => bytes.subarray(0, chance.below(bytes.length + 1)),
    () => bytes.subarray(0, start),
    () => splice(bytes, at, 1, [bytes[at] ^ (1 << chance.below(8))]),
    () => splice(bytes, at, 1, [chance.below(256)]),
    () => splice(bytes, at, 1),
    () => splice(bytes, at, 0, chance.bytes(chance.between(1, 4))),
    () => splice(bytes, start, field.length),
    () => splice(bytes, start, 0, field),
    () => splice(bytes, start, 1, [chance.pick([...FORM_TAGS, chance.below(256)])]),
    () => splice(bytes, start + 2, 1, [(bytes[start + 2] ?? 0) + chance.between(-1, 1)]),
    () => splice(bytes, end - 1, 1, [(bytes[end - 1] ?? 0) ^ 1]),
    () => Uint8Array.from([...bytes, ...chance.bytes(chance.between(1, 6))]),
  ];
  return bytes.length === 0 ? chance.bytes(3) : Uint8Array.from(chance.pick(kinds)());
}

const FORM_TAGS = [1, 2, 3, 4, 5, 6, 7, 8, ...Object.values(FORMS).flatMap(({ base }) => [0, 1, 2, 3, 4, 15].map((k) => base + k))];

/** Sound, damaged once or more, or any bytes at all. */
export function perhapsDamaged(chance, bytes) {
  if (chance.percent(4)) return chance.bytes(chance.below(80));
  let damaged = bytes;
  for (let count = chance.below(4); count > 0; count--) damaged = damage(chance, damaged);
  return damaged;
}
