/** Journals of the three forms and stimuli as texts: a record to a line. */

import { FORMS, decodeRecords, recordBytes, saysValue } from '../fields.js';
import { writtenName } from './lexer.js';
import { didYouMean } from './mistakes.js';
import { behind, origin } from './reading.js';

/** @typedef {import('../types.js').Form} Form */
/** @typedef {import('../types.js').Kind} Kind */
/** @typedef {import('../types.js').Names} Names */
/** @typedef {import('../types.js').Origin} Origin */
/** @typedef {import('../types.js').Record} JournalRecord */
/** @typedef {import('./lexer.js').Line} Line */
/** @typedef {import('./lexer.js').Token} Token */
/** @typedef {import('./reading.js').Reading} Reading */
/** @typedef {import('./reading.js').What} What */
/** @typedef {import('../types.js').Blank} Blank */

/**
 * The forms in a text's words, after `krossvil`.
 * @type {{[form in Form]: string}}
 */
export const FORM_WORDS = { journal: 'journal', stamped: 'stamped journal', short: 'short journal', stimulus: 'stimulus' };

/**
 * What a record's value is.
 * @type {{[kind in Kind]?: What}}
 */
const VALUES = { input: 'input', change: 'input', poll: 'input', test: 'verdict', tick: 'state' };
const TIMED = ['change', 'poll', 'test', 'tick', 'end'];
const MISSING = new Map([['change', 'the new input'], ['poll', 'the input polled'], ['test', 'its verdict, held or free'],
  ['tick', 'the state afterwards']]);

/** What can be asked: the kinds whose value the machine finds. */
export const ASKED = /** @type {Kind[]} */ (['poll', 'test', 'tick']);

const BYTES_IN_LINE = 16;
const NOTE_COLUMN = 28;

/**
 * What stands for the time in a form, in words.
 * @param {Form} form
 */
function timeWord(form) {
  return form === 'short' ? 'gap' : form === 'stamped' ? 'stamp' : 'time';
}

/**
 * How a line begins in a form, for a line that begins otherwise.
 * @param {Form} form
 */
function beginning(form) {
  const example = { journal: '5', stimulus: '5', stamped: '5', short: '+5' }[form];
  return `a line begins with a ${timeWord(form)}, as ${example}, with 'input' or with 'bytes'`;
}

/**
 * The number that stands for the time; null if the line does not begin with one.
 * @param {Reading} reading @param {Line} line @param {Form} form
 */
function readTime(reading, line, form) {
  const [first, second] = line.tokens;
  const { mistakes } = reading;
  const most = 256 ** FORMS[form].width - 1;
  if (first.kind === (form === 'short' ? 'gap' : 'number')) return reading.number(line, first, most, `a ${timeWord(form)}`);
  if (form === 'short' && first.kind === 'number') {
    const says = () => `a short journal has gaps in the place of times, written with a plus sign: +${first.text}`;
    mistakes.once('no gap', line.number, first, says);
  } else if (first.kind === 'gap') {
    mistakes.once('gap', line.number, first, () => 'this is a gap; a journal of gaps begins with: krossvil short journal');
  } else if (TIMED.includes(first.text) && second) {
    mistakes.add(line.number, first, `the ${timeWord(form)} comes first: ${form === 'short' ? '+' : ''}${second.text} ${first.text}`);
  } else {
    mistakes.add(line.number, first, beginning(form) + didYouMean(first.text, ['input', 'bytes']));
  }
  return null;
}

/**
 * The kind of a record; null if the line does not say one.
 * @param {Reading} reading @param {Line} line @param {Form} form
 * @returns {Kind|null}
 */
function readKind(reading, line, form) {
  const token = line.tokens[1];
  if (token?.kind === 'word' && TIMED.includes(token.text)) return /** @type {Kind} */ (token.text);
  const says = `after the ${timeWord(form)} comes change, poll, test, tick or end`;
  reading.mistakes.add(line.number, token ?? behind(line), says + (token ? didYouMean(token.text, TIMED) : ''));
  return null;
}

/**
 * A value that is asked, and behind it perhaps what somebody has answered.
 * @param {Reading} reading @param {Line} line @param {Kind} kind @param {number} at @param {boolean} asks  may something be asked here?
 * @returns {number|null}
 */
function readAsked(reading, line, kind, at, asks) {
  const [mark, answer] = line.tokens.slice(at);
  if (!asks) {
    reading.mistakes.once('asked', line.number, mark, () => 'a value that is asked, ?, stands in an exercise only: krossvil exercise');
  } else if (!ASKED.includes(kind)) {
    const itself = `${kind === 'change' ? 'a' : 'an'} ${kind} says it itself`;
    reading.mistakes.add(line.number, mark, `what can be asked is what a poll saw, what a test says or where a tick leads; ${itself}`);
  } else {
    reading.tooMany(line, line.tokens[at + 2]);
    return answer ? reading.member(line, answer, /** @type {What} */ (VALUES[kind])) : null;
  }
  return null;
}

/**
 * The value at a token, where the kind has one in this form.
 * @param {Reading} reading @param {Line} line @param {Form} form @param {Kind} kind @param {number} at
 */
function readValue(reading, line, form, kind, at) {
  const token = line.tokens[at];
  const what = VALUES[kind];
  if (!saysValue(form, kind) || !what) {
    if (kind === 'end' || !token) reading.tooMany(line, token);
    else reading.mistakes.once('value', line.number, token, () => `a ${kind} in a stimulus has a time only; the runtime finds the rest`);
    return 0;
  }
  reading.tooMany(line, line.tokens[at + 1]);
  if (token || kind === 'input') return reading.member(line, token, what);
  const says = () => `the ${kind} at ${line.tokens[0].text} does not say ${MISSING.get(kind)}`;
  reading.mistakes.once('no value', line.number, behind(line), says);
  return 0;
}

/**
 * A line's bytes, and which of its tokens gave which of them. Where a value is asked, its byte is the answer, or 0.
 * @param {Reading} reading @param {Line} line @param {Form} form @param {number} place
 * @param {((blank: Omit<Blank, 'record'>) => void)|null} [asks]  in an exercise: what takes a blank
 * @returns {{bytes: number[], origins: Origin[]}}
 */
export function readRecord(reading, line, form, place, asks = null) {
  const first = line.tokens[0];
  const whole = (/** @type {number[]} */ bytes) => origin(place, bytes.length, line);
  if (first.kind === 'word' && first.text === 'bytes') {
    const bytes = reading.raw(line);
    return { bytes, origins: [whole(bytes)] };
  }
  const opens = first.kind === 'word' && first.text === 'input';
  const written = opens ? 0 : readTime(reading, line, form);
  const kind = opens ? 'input' : written === null ? null : readKind(reading, line, form);
  if (written === null || kind === null) return { bytes: [], origins: [] };
  const at = opens ? 1 : 2;
  const asked = line.tokens[at]?.kind === 'blank';
  const answer = asked ? readAsked(reading, line, kind, at, asks !== null) : null;
  const bytes = recordBytes(form, kind, written, asked ? answer ?? 0 : readValue(reading, line, form, kind, at));
  const origins = [whole(bytes)];
  const valued = place + bytes.length - 1;
  if (!opens) origins.push(origin(place + 3, FORMS[form].width, line, [first]));
  if (line.tokens[at]) origins.push(origin(valued, 1, line, asked ? line.tokens.slice(at) : [line.tokens[at]]));
  if (asked) asks?.({ kind, place: valued, answer, origin: origins[origins.length - 1] });
  return { bytes, origins };
}

/**
 * @param {Reading} reading @param {Line[]} body @param {Form} form
 * @returns {{bytes: Uint8Array, origins: Origin[]}}
 */
export function readRecords(reading, body, form) {
  /** @type {number[]} */
  const bytes = [];
  /** @type {Origin[]} */
  const origins = [];
  for (const line of body) {
    if (reading.mistakes.stop()) break;
    const record = readRecord(reading, line, form, bytes.length);
    for (const byte of record.bytes) bytes.push(byte);
    origins.push(...record.origins);
  }
  return { bytes: Uint8Array.from(bytes), origins };
}

/**
 * Bytes as lines that begin with `bytes`; a line for no bytes too.
 * @param {Uint8Array} bytes
 * @returns {string[]}
 */
export function bytesLines(bytes) {
  const pairs = Array.from(bytes, (byte) => byte.toString(16).padStart(2, '0'));
  const count = Math.max(1, Math.ceil(pairs.length / BYTES_IN_LINE));
  return Array.from({ length: count }, (_, k) => ['bytes', ...pairs.slice(k * BYTES_IN_LINE, (k + 1) * BYTES_IN_LINE)].join(' '));
}

/**
 * A member's name as a text has it, or its number if it has none.
 * @param {string[]} list @param {number} k
 */
export function memberText(list, k) {
  return k < list.length ? writtenName(list[k]) : String(k);
}

/**
 * @param {JournalRecord} record @param {Names} names
 */
export function valueText(record, names) {
  if (record.value === null) return '';
  const what = VALUES[record.kind];
  return memberText(what === 'state' ? names.states : what === 'verdict' ? ['held', 'free'] : names.inputs, record.value);
}

/**
 * A record as a line of a text.
 * @param {JournalRecord} record @param {Names} names @param {number} [width]  that times take
 */
export function recordLine(record, names, width = 1) {
  const value = valueText(record, names);
  if (record.kind === 'input') return `input ${value}`;
  const time = `${record.form === 'short' ? '+' : ''}${record.written}`;
  return `${time.padStart(width)}  ${record.kind.padEnd(6)} ${value}`.trimEnd();
}

/**
 * @param {Uint8Array} bytes @param {Form} form @param {Names} names @param {Map<number, string>} [notes]  comments by the record's place
 */
export function writeRecords(bytes, form, names, notes = new Map()) {
  const records = decodeRecords(bytes, form);
  const widths = records.map((record) => String(record.written ?? '').length + (form === 'short' ? 1 : 0));
  const width = widths.reduce((most, each) => Math.max(most, each), 1);
  const lines = records.flatMap((record) => {
    const { place, length } = record;
    const own = record.kind === 'bytes' ? bytesLines(bytes.subarray(place, place + length)) : [recordLine(record, names, width)];
    const note = notes.get(place);
    return note === undefined ? own : [`${own[0].padEnd(NOTE_COLUMN)}# ${note}`, ...own.slice(1)];
  });
  return [`krossvil ${FORM_WORDS[form]}`, ...lines, ''].join('\n');
}
