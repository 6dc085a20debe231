/**
 * Texts of tables, stimuli and journals, both ways. A text says what the bytes are and does not judge them: the library does. Every
 * byte string has a text that gives it back. kit/NOTATION.md has the notation.
 */

import { nameFault, readLine } from './notation/lexer.js';
import { Mistakes, didYouMean } from './notation/mistakes.js';
import { plainNames } from './names.js';
import { readExercise, writeExercise } from './notation/exercise.js';
import { FORM_WORDS, readRecords, writeRecords } from './notation/records.js';
import { readTable } from './notation/table-reader.js';
import { writeTable } from './notation/table-writer.js';
import { Reading } from './notation/reading.js';

export { showMistakes } from './notation/mistakes.js';
export { FORM_WORDS, recordLine } from './notation/records.js';

/** @typedef {import('./types.js').Form} Form */
/** @typedef {import('./types.js').Names} Names */
/** @typedef {import('./types.js').Origin} Origin */
/** @typedef {import('./types.js').Part} Part */
/** @typedef {import('./types.js').Text} Text */
/** @typedef {import('./notation/lexer.js').Line} Line */
/** @typedef {import('./types.js').ExercisePart} ExercisePart */
/** @typedef {'table'|'exercise'|Form} SectionKind */
/** @typedef {{kind: SectionKind, header: Line, body: Line[], spoilt: boolean}} Section  spoilt: a line of it could not be read */

/** The largest table that has its six fields takes 4,300,000 with plain names. */
export const TEXT_MAX = 6000000;
const BYTES_OF_CHARACTER = 3;

const MAGIC = 'krossvil';
const BOM = '\ufeff';
const NONE = plainNames({ states: 0, inputs: 0, outputs: 0 }, 0);

/**
 * What may follow the word `krossvil`.
 * @type {Map<string, SectionKind>}
 */
const KINDS = new Map([['table', 'table'], ['exercise', 'exercise']]);
for (const form of /** @type {Form[]} */ (Object.keys(FORM_WORDS))) KINDS.set(FORM_WORDS[form], form);

/** The first byte of a text: of the word, or of a mark of UTF-8 before it. */
const FIRST_BYTES = [MAGIC.charCodeAt(0), 0xef];
const BEGINNING = new RegExp(`^${BOM}?${MAGIC}(\\s|$)`);
const DECODER = new TextDecoder();

/**
 * Does it begin with the word `krossvil`?
 * @param {Uint8Array|string} data
 */
export function isText(data) {
  if (typeof data !== 'string' && !FIRST_BYTES.includes(data[0])) return false;
  return BEGINNING.test(typeof data === 'string' ? data.slice(0, 20) : DECODER.decode(data.subarray(0, 20)));
}

/**
 * The lines of a source, or the mistake that keeps it from being read.
 * @param {Uint8Array|string} source
 * @returns {{lines: string[], mistake?: string, line?: number}}
 */
function linesOf(source) {
  if (source.length > TEXT_MAX) return { lines: [''], mistake: `a text of more than ${TEXT_MAX} bytes is not read` };
  const split = (/** @type {string} */ text) => (text.startsWith(BOM) ? text.slice(1) : text).split(/\r\n|\n|\r/);
  if (typeof source === 'string') return { lines: split(source) };
  try {
    return { lines: split(new TextDecoder('utf-8', { fatal: true }).decode(source)) };
  } catch {
    const lines = split(new TextDecoder().decode(source));
    const line = lines.findIndex((each) => each.includes('\ufffd')) + 1;
    return { lines, mistake: 'this line is not UTF-8 text', line };
  }
}

/**
 * The part that a line begins; null, with a mistake, if it is none.
 * @param {Line} header @param {Section[]} sections @param {Mistakes} mistakes
 * @returns {Section|null}
 */
function sectionOf(header, sections, mistakes) {
  const words = header.tokens.slice(1);
  const given = words.map((token) => token.text).join(' ');
  const kind = KINDS.get(given);
  if (!kind) {
    const says = `after 'krossvil' comes table, stimulus, journal, stamped journal, short journal or exercise`;
    mistakes.add(header.number, words[0] ?? header.tokens[0], says + didYouMean(given, [...KINDS.keys()]));
    return null;
  }
  if (sections.some((section) => section.kind === kind)) {
    mistakes.add(header.number, words[0], `a second ${given} in one text`);
    return null;
  }
  return { kind, header, body: [], spoilt: false };
}

/**
 * The parts of a text, with the tokens of their lines.
 * @param {string[]} lines @param {Mistakes} mistakes
 * @returns {Section[]}
 */
function sectionsOf(lines, mistakes) {
  /** @type {Section[]} */
  const sections = [];
  /** @type {Section|null|undefined} */
  let section;
  for (const [k, source] of lines.entries()) {
    const stopped = mistakes.stop();
    const { tokens, fault } = readLine(stopped ? '' : source);
    if (fault) mistakes.add(k + 1, fault, fault.says);
    if ((fault || stopped) && section) section.spoilt = true;
    if (stopped) break;
    if (tokens.length === 0) continue;
    const line = { number: k + 1, tokens };
    if (tokens[0].kind === 'word' && tokens[0].text === MAGIC) {
      section = sectionOf(line, sections, mistakes);
      if (section) sections.push(section);
    } else if (section) {
      section.body.push(line);
    } else if (section === undefined) {
      mistakes.once('beginning', k + 1, tokens[0], () => 'a text begins with the word krossvil and what follows, as in: krossvil table');
    }
  }
  return sections;
}

/**
 * @param {Section} section @param {Reading} reading
 * @returns {Part|ExercisePart}
 */
function readPart({ kind, header, body, spoilt }, reading) {
  if (kind === 'exercise') return readExercise(reading, header, body);
  const read = kind === 'table' ? readTable(reading, header, body, !spoilt) : readRecords(reading, body, kind);
  return { kind, line: header.number, bytes: read.bytes, origins: read.origins };
}

/**
 * @param {Section} section @param {Reading} reading
 * @returns {Part|ExercisePart|null}  null if it has a mistake
 */
function partOf(section, reading) {
  const before = reading.mistakes.count;
  const part = readPart(section, reading);
  return reading.mistakes.count > before || section.spoilt ? null : part;
}

/**
 * Reads all parts of a text. Its own table's names are used, or else those given.
 * @param {Uint8Array|string} source @param {Names|null} [names]
 * @returns {Text}
 */
export function readText(source, names = null) {
  const mistakes = new Mistakes();
  const { lines, mistake, line } = linesOf(source);
  if (mistake) {
    mistakes.add(line ?? 1, null, mistake);
    return { parts: [], exercise: null, names, mistakes: mistakes.sorted(), lines };
  }
  const sections = sectionsOf(lines, mistakes);
  const reading = new Reading(mistakes, names);
  if (mistakes.count > 0) reading.distrust();
  const tableFirst = [...sections].sort((a, b) => Number(b.kind === 'table') - Number(a.kind === 'table'));
  const read = tableFirst.map((section) => partOf(section, reading));
  if (sections.length === 0 && mistakes.count === 0) mistakes.add(1, null, 'the text is empty; it begins as in: krossvil table');
  const parts = /** @type {Part[]} */ (read.filter((part) => part !== null && part.kind !== 'exercise'));
  const exercise = /** @type {ExercisePart|null} */ (read.find((part) => part?.kind === 'exercise') ?? null);
  return { parts, exercise, names: reading.names, mistakes: mistakes.sorted(), lines };
}

/**
 * Can every name stand in a text, and no two be taken for each other?
 * @param {Names|null|undefined} names
 */
function writable(names) {
  if (!names) return false;
  return [names.states, names.inputs, names.outputs, names.timers].every((list) => new Set(list).size === list.length
    && list.every((name) => nameFault(name) === null && name === name.normalize('NFC')));
}

/**
 * Any bytes as the text of a table. Names that do not fit it, cannot stand in a text, or would make it too long to be read are not used.
 * @param {Uint8Array} bytes @param {Names|null} [names]
 */
export function tableText(bytes, names) {
  const text = writeTable(bytes, writable(names) ? names : null);
  return BYTES_OF_CHARACTER * text.length > TEXT_MAX ? writeTable(bytes, null) : text;
}

/**
 * Any bytes as the text of a journal or a stimulus. What has no name is written as its number.
 * @param {Uint8Array} bytes @param {Form} form @param {Names|null} [names] @param {Map<number, string>} [notes]  comments by place
 */
export function recordsText(bytes, form, names, notes) {
  return writeRecords(bytes, form, names && writable(names) ? names : NONE, notes);
}

/**
 * An exercise as a text, with what was answered so far.
 * @param {import('./types.js').WrittenExercise} exercise @param {Names|null} [names]
 */
export function exerciseText(exercise, names) {
  return writeExercise(exercise, names && writable(names) ? names : NONE);
}

/**
 * The smallest piece of the text that gave the byte at a place. Behind the last byte it is the last line.
 * @param {Pick<Part, 'bytes'|'origins'>} part @param {number} place
 * @returns {Origin|null}
 */
export function originAt(part, place) {
  const at = Math.min(place, part.bytes.length - 1);
  const around = part.origins.filter((origin) => origin.place <= at && at < origin.place + origin.length);
  return around.reduce((best, each) => (best && best.length < each.length ? best : each), /** @type {Origin|null} */ (null));
}
