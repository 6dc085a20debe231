/** Why a journal of any form, or a stimulus, is refused, in sentences. The number and the place are the library's. */

import { FORMS, kindOf, numberAt, valueLength } from '../fields.js';
import { counted, numbered, quoted, say } from '../names.js';
import { FORM_WORDS } from '../notation/records.js';
import { bytesFrom, ownValue } from '../trace.js';
import { explainDifferent } from './difference.js';
import { explainTorn } from './torn.js';

/** @typedef {import('../types.js').Trace} Trace */
/** @typedef {import('../types.js').Step} Step */
/** @typedef {import('../types.js').Machine} Machine */
/** @typedef {import('../types.js').Record} JournalRecord */
/** @typedef {import('../types.js').Form} Form */
/** @typedef {import('../types.js').Explanation} Explanation */
/** @typedef {import('./difference.js').Case} Case */
/** @typedef {import('./difference.js').Said} Said */

const LATEST = 2000000000;
const WAITS = ['waits for its poll', 'has polled and waits for its test', 'has tested (held) and waits for its tick',
  'has tested (free) and waits for its tick'];
const NEXT = ['the poll', 'the test', 'the tick', 'the tick'];

/**
 * @param {JournalRecord} record
 */
function called(record) {
  if (record.kind === 'bytes') return say`the field at byte ${record.place}`;
  return record.kind === 'input' ? 'the opening' : say`the ${record.kind} at ${record.time}`;
}

/**
 * @param {string} words
 */
function capital(words) {
  return words[0].toUpperCase() + words.slice(1);
}

/**
 * @param {Trace} trace
 */
function formWord(trace) {
  return FORM_WORDS[trace.form];
}

/**
 * @param {Case} c
 * @returns {Said}
 */
function explainTooLong({ trace }) {
  const { max } = FORMS[trace.form];
  const { length } = trace.journal;
  // A file that is read up to one byte more than the limit may have been longer.
  const has = length > max + 1 ? say`${length}` : say`more than ${max}`;
  return { sentences: [say`The ${formWord(trace)} has ${has} bytes; at most ${max} are read.`] };
}

/**
 * What bytes with this tag, or this length, may belong to instead.
 * @param {Form} form @param {number} tag @param {number} length
 */
function otherForm(form, tag, length) {
  const others = /** @type {Form[]} */ (['journal', 'stamped', 'short', 'stimulus']).filter((other) => other !== form);
  const other = others.find((each) => {
    const kind = kindOf(each, tag);
    return kind !== null && kind !== 'input' && valueLength(each, kind) === length;
  }) ?? others.find((each) => kindOf(each, tag) === 'input' && kindOf(form, tag) === null);
  return other ? [say`It looks like one of a ${FORM_WORDS[other]}: was that given in place of the ${FORM_WORDS[form]}?`] : [];
}

/**
 * @param {Case} c
 * @returns {Said}
 */
function explainUnknown({ trace, record }) {
  const { form } = trace;
  const bytes = bytesFrom(trace, record);
  const [tag] = bytes;
  const length = numberAt(bytes, 1, 2);
  const kind = kindOf(form, tag);
  const hex = tag.toString(16).padStart(2, '0');
  const what = kind === 'input' ? 'the opening' : kind === 'end' ? 'the end' : say`a ${kind ?? ''}`;
  const says = kind
    ? say`The field at byte ${record.place} is ${what}, by its tag ${hex}, but has length ${length}; `
      + say`here its length is ${valueLength(form, kind)}.`
    : say`The field at byte ${record.place} has tag ${hex}, which no field of a ${formWord(trace)} has.`;
  return { sentences: [says, ...otherForm(form, tag, length)] };
}

/**
 * @param {Case} c
 * @returns {Said}
 */
function explainOutOfPlace({ trace, step, record }) {
  const word = formWord(trace);
  if (step.number === 0) return { sentences: [say`A ${word} opens with the input at time 0; this one begins with ${called(record)}.`] };
  if (trace.steps[step.number - 1].record.kind === 'end') {
    const more = bytesFrom(trace, record).length;
    const follow = trace.from === undefined ? say`${counted(more, 'byte')} ${more === 1 ? 'follows' : 'follow'}` : 'more follows';
    return { sentences: [say`The ${word} ends before byte ${record.place}, but ${follow}.`] };
  }
  return { sentences: [say`A second opening stands at byte ${record.place}.`,
    'The input at time 0 is given once, at the beginning; later inputs are changes.'] };
}

/**
 * @param {Case} c
 * @returns {Said}
 */
function explainRange({ trace, record }) {
  const { states, inputs } = trace.table.counts;
  const { kind } = record;
  const value = record.value ?? 0;
  if (record.time > LATEST) return { sentences: [say`${capital(called(record))} is too late: times go up to ${LATEST}.`] };
  const says = kind === 'test' ? say`has the verdict ${value}; a verdict is 0, held, or 1, free`
    : kind === 'tick' ? say`names state ${value}, but ${numbered(states, 'state')}`
      : say`names input ${value}, but ${numbered(inputs, 'input')}`;
  return { sentences: [say`${capital(called(record))} ${says}.`] };
}

/**
 * @param {Case} c
 * @returns {Said}
 */
function explainEarlier({ trace, step, record }) {
  const before = trace.steps[step.number - 1].record;
  return { sentences: [say`${capital(called(record))} stands after ${called(before)}, which is later.`,
    'Times never fall from one record to the next.'] };
}

/**
 * @param {Case} c
 * @returns {Said}
 */
function explainLate({ trace, record, machine }) {
  const { cycle } = trace.table;
  const latest = machine.cycleStart + cycle;
  const sentences = [say`${capital(called(record))} is too late: the cycle began at ${machine.cycleStart} and lasts at most ${cycle}, `
    + say`so no record of it, be it a change or the end, is later than ${latest}.`];
  if (record.kind !== 'tick') sentences.push(say`A tick at ${latest} or before would have begun a new cycle.`);
  return { sentences };
}

/**
 * @param {Case} c
 * @returns {Said}
 */
function explainTurn({ record, machine }) {
  return { sentences: [say`${capital(called(record))} comes out of turn: the controller ${WAITS[machine.phase]}.`,
    say`A cycle is poll, test, tick, once each and in this order; next comes ${NEXT[machine.phase]}.`] };
}

/**
 * @param {Case} c
 * @returns {Said}
 */
function explainPollTime({ trace, record, machine }) {
  const { change, cycleStart, present } = machine;
  const first = Math.max(change, cycleStart) + 1;
  const latest = cycleStart + trace.table.cycle;
  const room = first <= latest ? say`The first poll that can come is at ${first}.`
    : say`In this cycle, which lasts until ${latest} at most, no poll can come any more.`;
  if (record.time <= change && change >= cycleStart && change > 0) {
    return { sentences: [say`The poll at ${record.time} is not later than the last change of the input, which was at ${change}.`,
      say`Input ${quoted(trace.names.inputs, present)} stands from ${change} on, and a poll sees only what stood before it. ${room}`] };
  }
  return { sentences: [say`The poll at ${record.time} is not later than the start of its cycle, ${cycleStart}. ${room}`] };
}

/** @type {Map<number, (c: Case) => Said>} */
const SENTENCES = new Map([
  [19, explainTooLong], [20, explainTorn], [21, explainUnknown], [22, explainOutOfPlace], [23, explainRange], [24, explainEarlier],
  [25, explainLate], [26, explainTurn], [27, explainPollTime], [28, explainDifferent],
]);

/**
 * The bytes to point at: of a record the time, the value, or all of it.
 * @param {Trace} trace @param {JournalRecord} record
 */
function blame({ refused, form }, record) {
  const { place, length } = record;
  const time = { place: place + 3, length: FORMS[form].width };
  const number = refused?.number;
  if (record.kind === 'bytes' || number === 22 || number === 26) return { place, length };
  if (number === 24 || number === 25 || number === 27 || (number === 23 && record.time > LATEST)) return time;
  return number === 23 || number === 28 ? { place: place + length - 1, length: 1 } : { place, length };
}

/**
 * Why the journal, or the stimulus, is refused.
 * @param {Trace} trace  one that was refused
 * @returns {Explanation}
 */
export function explainTrace(trace) {
  const step = trace.steps[trace.stop ?? 0];
  const sentence = SENTENCES.get(trace.refused?.number ?? 0);
  if (!step || !sentence || !trace.refused) throw new Error('only what was refused has an explanation');
  const machine = /** @type {Machine} */ (step.before);
  const { sentences, slip } = sentence({ trace, step, record: step.record, machine });
  return {
    sentences,
    slip: slip?.says ?? null,
    slipName: slip?.names.length === 1 ? slip.names[0] : null,
    ...(slip && slip.names.length > 1 ? { either: slip.names } : {}),
    wanted: ownValue(trace, step),
    blame: blame(trace, step.record),
  };
}
