/** Why a table is refused, in sentences. */

import { fieldAt, numberAt, tablePlaces } from '../fields.js';
import { counted, fittingNames, numbered, quoted, say, thousands } from '../names.js';
import { members } from '../sets.js';

/** @typedef {import('../types.js').Names} Names */
/** @typedef {import('../types.js').Refusal} Refusal */
/** @typedef {import('../types.js').Explanation} Explanation */

/**
 * What is known of a table that is refused: its bytes, the refusal, and, once field 01 is sound, its counts and names.
 * @typedef {Object} Case
 * @property {Uint8Array} bytes
 * @property {number} number
 * @property {number} place
 * @property {{states: number, inputs: number, outputs: number}} counts
 * @property {number} timers
 * @property {Names} names
 */

/**
 * The bytes to point at are from the refusal's place on if no other is given.
 * @typedef {{sentences: string[], length: number, place?: number}} Said
 */

const FIELDS = ['counts and initial state', 'cycle bound', 'outputs', 'next states', 'holds', 'delayed inputs', 'timers',
  'inputs that timers delay'];
const LONGEST_HOLD = 3600000;

/**
 * @param {number} tag
 */
function fieldName(tag) {
  return say`field ${tag.toString(16).padStart(2, '0')}, ${FIELDS[tag - 1]}`;
}

/**
 * The places of the fields that stand before and at the refusal's place.
 * @param {Case} c
 */
function fieldsBefore(c) {
  const places = [0];
  while (places[places.length - 1] < c.place) {
    const field = fieldAt(c.bytes, places[places.length - 1]);
    if (!field) break;
    places.push(field.end);
  }
  return places;
}

/**
 * Which field should stand at the place, and with which lengths.
 * @param {Case} c
 * @returns {{tag: number, lengths: number[]}[]}
 */
function wantedFields(c) {
  const { states, inputs } = c.counts;
  const k = fieldsBefore(c).length;
  if (k <= 2) return [{ tag: k, lengths: [4] }];
  if (k === 3) return [{ tag: 3, lengths: [states] }];
  if (k === 4) return [{ tag: 4, lengths: [states * inputs] }];
  const holds = { tag: k, lengths: [4 * states] };
  if (k === 5) return [holds, { tag: 7, lengths: [8, 16, 24, 32] }];
  return c.timers > 0 ? [{ tag: 8, lengths: [4 * states * c.timers] }] : [holds];
}

/**
 * @param {Case} c
 * @returns {Said}
 */
function explainRunOut(c) {
  const left = c.bytes.length - c.place;
  const wanted = wantedFields(c).map(({ tag }) => fieldName(tag)).join(', or ');
  if (left === 0) {
    return { sentences: [say`The table ends after ${counted(c.place, 'byte')}, where it should go on with ${wanted}.`], length: 0 };
  }
  const there = say`${counted(left, 'byte')} of it ${left === 1 ? 'is' : 'are'} there`;
  const claimed = left >= 3 ? say`; it claims to have ${counted(3 + numberAt(c.bytes, c.place + 1, 2), 'byte')}` : '';
  return { sentences: [say`The table ends in the middle of the field at byte ${c.place}: ${there}${claimed}.`], length: left };
}

/**
 * @param {Case} c
 * @returns {Said}
 */
function explainWrongField(c) {
  const tag = c.bytes[c.place];
  const length = numberAt(c.bytes, c.place + 1, 2);
  const wanted = wantedFields(c);
  const right = wanted.find((field) => field.tag === tag);
  const lengths = (/** @type {number[]} */ all) => all.map(thousands).join(' or ');
  const says = right
    ? say`At byte ${c.place} ${fieldName(tag)}, has length ${length}; here its length is ${lengths(right.lengths)}.`
    : say`At byte ${c.place} should stand ${wanted.map((field) => fieldName(field.tag)).join(', or ')}; there stands a field with tag `
      + say`${tag.toString(16).padStart(2, '0')}.`;
  const hint = c.place > 0 ? [] : otherKind(tag);
  return { sentences: [says, ...hint], length: 3 };
}

/**
 * What else bytes may be that begin with this tag.
 * @param {number} tag
 */
function otherKind(tag) {
  const kind = new Map([[1, 'journal'], [2, 'stimulus'], [3, 'short journal']]).get(tag >> 4);
  return kind ? [say`Bytes that begin so look like a ${kind}: was it given in place of the table?`] : [];
}

/**
 * @param {Case} c
 * @returns {Said}
 */
function explainCounts(c) {
  const values = [...c.bytes.subarray(3, 7)];
  const k = values.slice(0, 3).findIndex((value) => value < 1 || value > 32);
  const word = ['state', 'input', 'output'][k];
  const says = k >= 0
    ? say`The table has ${counted(values[k], word)}; there may be 1 to 32.`
    : say`The initial state is number ${values[3]}, but ${numbered(values[0], 'state')}.`;
  return { sentences: [says], place: 3 + (k >= 0 ? k : 3), length: 1 };
}

/**
 * @param {Case} c
 * @returns {Said}
 */
function explainBound(c) {
  const bound = numberAt(c.bytes, c.place + 3, 4);
  return { sentences: [say`The cycle bound is ${bound}; it may be 1 to 60,000.`], place: c.place + 3, length: 4 };
}

/**
 * @param {Case} c
 * @returns {Said}
 */
function explainEntry(c) {
  const { counts, names, place } = c;
  const places = tablePlaces(counts, c.timers);
  const value = c.bytes[place];
  if (place < places.next(0, 0)) {
    const state = quoted(names.states, place - places.output(0));
    return { sentences: [say`State ${state} has output number ${value}, but ${numbered(counts.outputs, 'output')}.`], length: 1 };
  }
  const k = place - places.next(0, 0);
  const [state, input] = [quoted(names.states, Math.floor(k / counts.inputs)), quoted(names.inputs, k % counts.inputs)];
  const says = say`From state ${state} input ${input} leads to state number ${value}, but ${numbered(counts.states, 'state')}.`;
  return { sentences: [says], length: 1 };
}

/**
 * @param {Case} c
 * @returns {Said}
 */
function explainHold(c) {
  const state = quoted(c.names.states, (c.place - tablePlaces(c.counts, 0).hold(0)) / 4);
  const hold = numberAt(c.bytes, c.place, 4);
  return { sentences: [say`State ${state} has a hold of ${hold}; the longest is ${LONGEST_HOLD}.`], length: 4 };
}

/**
 * The members of a set that are not below a count, in words.
 * @param {number} set @param {number} count @param {string} what
 */
function beyond(set, count, what) {
  const [first] = members(set).filter((member) => member >= count);
  return say`${what} number ${first}, but ${numbered(count, what)}`;
}

/**
 * @param {Case} c
 * @returns {Said}
 */
function explainDelayed(c) {
  const state = (c.place - tablePlaces(c.counts, 0).delayed(0)) / 4;
  const set = numberAt(c.bytes, c.place, 4);
  return { sentences: [say`State ${quoted(c.names.states, state)} delays ${beyond(set, c.counts.inputs, 'input')}.`], length: 4 };
}

/**
 * @param {Case} c
 * @returns {Said}
 */
function explainIdleSet(c) {
  const state = quoted(c.names.states, (c.place - tablePlaces(c.counts, 0).delayed(0)) / 4);
  const inputs = members(numberAt(c.bytes, c.place, 4)).map((input) => quoted(c.names.inputs, input)).join(', ');
  return {
    sentences: [say`State ${state} delays ${inputs}, but has no hold, so nothing would ever be delayed in it.`,
      'Give the state a hold, or delay nothing in it. A table from before this rule can be converted: that empties such sets.'],
    length: 4,
  };
}

/**
 * @param {Case} c
 * @returns {Said}
 */
function explainMember(c) {
  const { counts, names, timers, place } = c;
  const places = tablePlaces(counts, timers);
  const set = numberAt(c.bytes, place, 4);
  if (place < places.delays(0, 0)) {
    const timer = quoted(names.timers, (place - places.region(0)) / 8);
    return { sentences: [say`Timer ${timer} runs over ${beyond(set, counts.states, 'state')}.`], length: 4 };
  }
  const k = (place - places.delays(0, 0)) / 4;
  const [timer, state] = [quoted(names.timers, k % timers), quoted(names.states, Math.floor(k / timers))];
  return { sentences: [say`In state ${state} timer ${timer} delays ${beyond(set, counts.inputs, 'input')}.`], length: 4 };
}

/**
 * @param {Case} c
 * @returns {Said}
 */
function explainLength(c) {
  const timer = quoted(c.names.timers, (c.place - tablePlaces(c.counts, c.timers).length(0)) / 8);
  const length = numberAt(c.bytes, c.place, 4);
  return { sentences: [say`Timer ${timer} has length ${length}; it may be 1 to ${LONGEST_HOLD}.`], length: 4 };
}

/**
 * @param {Case} c
 * @returns {Said}
 */
function explainRest(c) {
  const more = c.bytes.length - c.place;
  const follow = more === 1 ? 'follows' : 'follow';
  return { sentences: [say`The table is complete after ${counted(c.place, 'byte')}, but ${more} more ${follow}.`], length: more };
}

/** @type {Map<number, (c: Case) => Said>} */
const SENTENCES = new Map([
  [1, explainRunOut], [2, explainWrongField], [3, explainCounts], [4, explainBound], [5, explainEntry], [6, explainHold],
  [7, explainDelayed], [8, explainRest], [11, explainIdleSet], [12, explainMember], [13, explainLength],
]);

/**
 * How many timers field 07 has, if it stands there.
 * @param {Uint8Array} bytes @param {{states: number, inputs: number}} counts
 */
function timersIn(bytes, { states, inputs }) {
  const field = fieldAt(bytes, 20 + states + states * inputs);
  return field?.tag === 7 ? Math.floor(field.value.length / 8) : 0;
}

/**
 * Is this number one that a table is refused with?
 * @param {number} number
 */
export function isTableRefusal(number) {
  return SENTENCES.has(number);
}

/**
 * @param {Uint8Array} bytes @param {Refusal} refusal @param {Names|null} [names]
 * @returns {Explanation}
 */
export function explainTable(bytes, { number, place }, names) {
  const [states, inputs, outputs] = [bytes[3] ?? 0, bytes[4] ?? 0, bytes[5] ?? 0];
  const counts = { states, inputs, outputs };
  const timers = timersIn(bytes, counts);
  const sentence = SENTENCES.get(number);
  const said = sentence
    ? sentence({ bytes, number, place, counts, timers, names: fittingNames(names, counts, timers) })
    : { sentences: [say`The table is refused: ${number} at ${place}.`], length: 1 };
  const blame = { place: said.place ?? place, length: said.length };
  return { sentences: said.sentences, slip: null, slipName: null, wanted: null, blame };
}
