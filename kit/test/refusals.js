/** A sample for every number that the library can give, and what its sentences say. */

import { newMemory } from '../library.js';
import { readText } from '../notation.js';
import { library, sample } from './core.js';

const CLASSROOM = sample('classroom');
const BURNER = sample('gas-burner');

/** The bytes of a text's part. */
function part(text, kind) {
  const { parts, mistakes, names } = readText(text);
  if (mistakes.length > 0) throw new Error(mistakes[0].says);
  return { bytes: parts.find((each) => each.kind === kind).bytes, names };
}

/** The classroom's table or the burner's with one thing changed. */
function table(number, place, from, to, says, text = CLASSROOM) {
  const { bytes, names } = part(text.replace(from, to).split('\nkrossvil ')[0], 'table');
  return { number, place, says, kind: 'table', table: bytes, names, ask: () => library.checkTable(bytes) };
}

/** The classroom's table, and a journal, a stimulus or a journal of another form. */
function records(number, place, form, text, says) {
  const { bytes: tableBytes, names } = part(CLASSROOM, 'table');
  const bytes = typeof text === 'string' ? part(`${CLASSROOM.split('\nkrossvil ')[0]}\n${text}`, form).bytes : text;
  const ask = { journal: () => library.checkJournal(tableBytes, bytes), short: () => library.checkShort(tableBytes, bytes),
    stimulus: () => library.run(tableBytes, bytes), stamped: () => library.readStamped(bytes) }[form];
  return { number, place, says, kind: form, table: tableBytes, names, bytes, ask };
}

const journal = (number, place, lines, says) => records(number, place, 'journal', `krossvil journal\n${lines}\n`, says);
const [, OWN_JOURNAL] = CLASSROOM.split('krossvil journal\n');
const changed = (number, place, from, to, says) => journal(number, place, OWN_JOURNAL.replace(from, to), says);

/** A question to the calculator. */
function reaction(number, place, states, inputs, says, text = CLASSROOM) {
  const { bytes, names } = part(text, 'table');
  const question = { states, inputs };
  return { number, place, says, kind: 'reaction', table: bytes, names, question, ask: () => library.reaction(bytes, states, inputs) };
}

/** A question to the calculator for several moves. */
function several(number, place, states, inputs, moves, says, ask = () => library.reactionMoves(TABLE, states, inputs, moves)) {
  const { names } = part(CLASSROOM, 'table');
  return { number, place, says, kind: 'reaction', table: TABLE, names, question: { states, inputs, moves }, ask };
}

/** The kit always lends enough: to have 33 and 30 of the library's functions, these are called with less, as C might. */
function lendLess(name, args, rooms, answer) {
  const { module } = library;
  const lent = rooms.map(([room, count]) => [module.rooms[room].at, BigInt(count)]);
  return module.call(name, [...args, ...lent], answer);
}

const given = (room, bytes) => library.module.give(room, bytes);
export const movesWith = (sums, path) => () => lendLess('krossvil_reaction_moves', [given('table', TABLE), [3, 1, 2]],
  [['sums', sums], ['path', path]], ['time', 'target', 'length']);
export const runInto = (size) => () => lendLess('krossvil_run', [given('table', TABLE), given('input', STIMULUS)],
  [['output', size]], ['length']);
export const checkInto = (size) => () => lendLess('krossvil_check_journal', [given('table', TABLE), given('input', JOURNAL)],
  [['answer', size]], []);

/** Something that has too little room. */
function room(number, given, says, ask) {
  return { number, place: 0, says, kind: 'room', given, ask };
}

/** A live run whose memory has a number out of range: 17 numbers of a run that has begun, with these in their place. */
function memory(number, place, numbers, says, text = CLASSROOM) {
  const { bytes, names } = part(text, 'table');
  const kept = Uint32Array.of(1, ...Array(16).fill(0));
  for (const [at, value] of Object.entries(numbers)) kept[at] = value;
  return { number, place, says, kind: 'memory', table: bytes, names, memory: kept, ask: () => library.watch(bytes, kept, JOURNAL.subarray(0, 4)) };
}

const STIMULUS = part(CLASSROOM, 'stimulus').bytes;
const LONG_SHORT = `krossvil short journal\ninput no_train\n${'+0 change no_train\n'.repeat(8191)}+0 end\n`;
const TABLE = part(CLASSROOM, 'table').bytes;
const JOURNAL = part(CLASSROOM, 'journal').bytes;
const SHORT = records(0, 0, 'short', LONG_SHORT, /./).bytes;

export const REFUSALS = [
  table(1, 0, /^[^]*$/, 'krossvil table\nbytes 01 00\n', /ends in the middle of the field at byte 0: 2 bytes of it are there/),
  table(1, 14, /^[^]*$/, 'krossvil table\nbytes 01 00 04 02 02 02 00\nbytes 02 00 04 00 00 00 03\n',
    /ends after 14 bytes, where it should go on with field 03, outputs/),
  table(2, 0, /^[^]*$/, 'krossvil table\nbytes 10 00 01 00\n', /should stand field 01, counts and initial state; there stands a field with tag 10/),
  table(2, 26, /^[^]*$/, 'krossvil table\nbytes 01 00 04 02 02 02 00 02 00 04 00 00 00 03\n'
    + 'bytes 03 00 02 00 01 04 00 04 00 01 00 01 09 00 00\n', /field 05, holds, or field 07, timers/),
  table(3, 0, 'start   idle', 'start   7', /initial state is number 7, but the 2 states are numbered 0 to 1/),
  table(4, 7, 'cycle   3', 'cycle   60001', /cycle bound is 60,001; it may be 1 to 60,000/),
  table(5, 17, 'output N', 'output 9', /State 'idle' has output number 9, but the 2 outputs are numbered 0 to 1/),
  table(5, 23, 'train    -> busy', 'train    -> 7', /From state 'idle' input 'train' leads to state number 7/),
  table(6, 33, 'hold 5', 'hold 3600001', /State 'busy' has a hold of 3,600,001; the longest is 3,600,000/),
  table(7, 44, 'hold 5 delays no_train', 'hold 5 delays 6', /State 'busy' delays input number 6, but the 2 inputs are numbered 0 to 1/),
  table(8, 48, /$/, '\nbytes ff\n', /complete after 48 bytes, but 1 more follows/, CLASSROOM.split('\nkrossvil ')[0]),
  table(11, 40, 'state idle\n', 'state idle\n    hold 0 delays train\n', /State 'idle' delays 'train', but has no hold/),
  table(12, 43, 'over idle, purge', 'over idle, 9', /Timer 'vent' runs over state number 9, but the 4 states/, BURNER),
  table(12, 66, 'vent delays heat', 'vent delays 8', /In state 'purge' timer 'vent' delays input number 8/, BURNER),
  table(13, 39, 'vent   12', 'vent   0', /Timer 'vent' has length 0; it may be 1 to 3,600,000/, BURNER),
  reaction(9, 0, 4, 1, /set of states names number 2, but the 2 states are numbered 0 to 1/),
  reaction(9, 1, 3, 8, /set of inputs names number 3/),
  reaction(10, 2, 2, 1, /from 'busy' input 'no_train' leads to 'idle', which is not among them/),
  reaction(14, 0, 1, 1, /This table has timers/, BURNER),
  records(19, 0, 'journal', new Uint8Array(65537), /has more than 65,536 bytes/),
  records(19, 0, 'short', new Uint8Array(70000), /has 70,000 bytes; at most 65,536 are read/),
  records(19, 0, 'stimulus', new Uint8Array(57346), /stimulus has 57,346 bytes/),
  records(20, 0, 'journal', new Uint8Array(), /The journal is empty/),
  changed(20, 116, '12  end', '', /stops after byte 115 without an end field/),
  changed(20, 116, '12  end', 'bytes 1f 00', /of the one that starts at byte 116, 2 bytes are there/),
  journal(21, 4, 'input no_train\nbytes 15 00 00', /has tag 15, which no field of a journal has/),
  journal(21, 4, 'input no_train\nbytes 24 00 04 00 00 00 00', /It looks like one of a stimulus/),
  journal(21, 4, 'input no_train\nbytes 14 00 03 00 01 00', /is a tick, by its tag 14, but has length 3; here its length is 5/),
  journal(22, 0, '0 end', /opens with the input at time 0; this one begins with the end at 0/),
  journal(22, 4, 'input no_train\ninput train', /A second opening stands at byte 4/),
  changed(22, 123, '12  end', '12  end\nbytes 00', /ends before byte 123, but 1 byte follows/),
  changed(23, 4, '1  change train', '1  change 5', /names input 5, but the 2 inputs are numbered 0 to 1/),
  changed(23, 116, '12  end', '2000000001 end', /times go up to 2,000,000,000/),
  changed(23, 20, ' 2  test   free', ' 2  test   7', /has the verdict 7; a verdict is 0, held, or 1, free/),
  changed(23, 28, ' 3  tick   busy', ' 3  tick   4', /names state 4, but the 2 states/),
  changed(24, 20, ' 2  test   free', ' 1  test   free', /The test at 1 stands after the poll at 2, which is later/),
  changed(25, 28, ' 3  tick   busy', ' 4  tick   busy',
    /the cycle began at 0 and lasts at most 3, so no record of it, be it a change or the end, is later than 3/),
  changed(26, 20, ' 2  test   free', ' 2  tick   busy', /comes out of turn: the controller has polled and waits for its test/),
  changed(27, 12, ' 2  poll   train', ' 1  poll   train', /not later than the last change of the input, which was at 1/),
  journal(27, 4, 'input no_train\n0 poll no_train', /not later than the start of its cycle, 0. The first poll that can come is at 1/),
  changed(28, 12, ' 2  poll   train', ' 2  poll   no_train', /says that it saw 'no_train', but since 1 the input is 'train'/),
  changed(28, 20, ' 2  test   free', ' 2  test   held', /state 'idle' has no hold, so every test in it is free/),
  changed(28, 76, ' 8  test   held', ' 8  test   free', /8 - 3 = 5 is not more than 5/),
  changed(28, 28, ' 3  tick   busy', ' 3  tick   idle', /from 'idle' the polled input 'train' leads to 'busy'/),
  changed(28, 60, ' 6  tick   busy', ' 6  tick   idle', /the test before it was held, so state 'busy' stays/),
  records(27, 12, 'stimulus', 'krossvil stimulus\ninput no_train\n1 change train\n1 poll\n1 end\n', /not later than the last change/),
  records(26, 4, 'stimulus', 'krossvil stimulus\ninput no_train\n1 tick\n1 end\n', /waits for its poll/),
  records(28, 58, 'short', `krossvil ${sample('short-journal').split('\nkrossvil ')[1].replace('+1  test   held', '+1  test   free')}`,
    /The test at 8 says free/),
  room(30, { numbers: 3 }, /memory that was lent is too short.*room for 3 numbers/, () => library.reportAdd(TABLE, JOURNAL, new BigUint64Array(3))),
  room(30, {}, /memory that was lent is too short/, runInto(JOURNAL.length - 1)),
  room(30, {}, /memory that was lent is too short/, checkInto(27)),
  room(30, {}, /memory that was lent is too short/, () => library.watch(TABLE, newMemory().subarray(1), JOURNAL.subarray(0, 4))),
  several(32, 0, 3, 1, 33, /33 moves were asked for; at most 32 are calculated/),
  several(10, 2, 2, 1, 2, /from 'busy' input 'no_train' leads to 'idle', which is not among them/),
  several(33, 0, 3, 1, 2, /memory for the sums, or for the path, is too short for so many moves/, movesWith(3, 63)),
  several(33, 0, 3, 1, 2, /memory for the sums, or for the path, is too short for so many moves/, movesWith(4, 2)),
  room(34, { bytes: SHORT.length }, /would have 65,539 bytes; a journal has at most 65,536/, () => library.lengthen(TABLE, SHORT)),
  room(35, {}, /has 1,000 journals already/, () => library.reportAdd(TABLE, JOURNAL, new BigUint64Array(9).fill(1000n, 0, 1))),
  memory(36, 0, { 0: 3, 1: 9 }, /Number 0 of the memory, the stage, is 3; it may be at most 2\./),
  memory(36, 4, { 4: 2, 8: 7 }, /Number 4 of the memory, the state, is 2; it may be at most 1\./),
  memory(36, 7, { 7: 8, 8: 7 }, /Number 7 of the memory, the start of the cycle, is 8; it may be at most 7, the time of the record before\./),
  memory(36, 9, { 9: 4, 8: 7 }, /Number 9 of the memory, the longest cycle, is 4; it may be at most 3\./),
  memory(36, 14, { 14: 2000000001 }, /Number 14 of the memory, the count of ticks, is 2,000,000,001; it may be at most 2,000,000,000\./),
];
