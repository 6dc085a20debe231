/** Exercises as texts: the lines of a journal, in which `?` stands for a value that is asked, and how the answers are told. */

import { decodeRecords } from '../fields.js';
import { didYouMean } from './mistakes.js';
import { isQuestion, questionLine, readQuestion } from './questions.js';
import { readRecord, recordLine, valueText } from './records.js';

/** @typedef {import('../types.js').Names} Names */
/** @typedef {import('../types.js').Origin} Origin */
/** @typedef {import('../types.js').Blank} Blank */
/** @typedef {import('../types.js').ExercisePart} ExercisePart */
/** @typedef {import('./lexer.js').Line} Line */
/** @typedef {import('./reading.js').Reading} Reading */

/**
 * When it is told what is right, in a text's words.
 * @type {{[told in ExercisePart['told']]: string}}
 */
export const TOLD = { each: 'told at each answer', end: 'told at the end' };
const WORDS = Object.values(TOLD);

/**
 * @param {Reading} reading @param {Line} line
 * @returns {ExercisePart['told']}
 */
function readTold(reading, line) {
  const words = line.tokens.map(({ text }) => text).join(' ');
  if (!WORDS.includes(words)) reading.mistakes.add(line.number, line.tokens[0], `here stands ${WORDS.join(', or ')}${didYouMean(words, WORDS)}`);
  return words === TOLD.end ? 'end' : 'each';
}

/** @param {Line} line */
const isTold = ({ tokens: [first] }) => first.kind === 'word' && first.text === 'told';

/**
 * @param {Reading} reading @param {Line} header @param {Line[]} body
 * @returns {ExercisePart}
 */
export function readExercise(reading, header, body) {
  /** @type {number[]} */
  const bytes = [];
  /** @type {Origin[]} */
  const origins = [];
  /** @type {Blank[]} */
  const blanks = [];
  const first = body[0] && isTold(body[0]) ? 1 : 0;
  const told = first === 1 ? readTold(reading, body[0]) : 'each';
  const lines = body.slice(first);
  const questions = lines.filter(isQuestion).map((line) => readQuestion(reading, line));
  for (const [record, line] of lines.filter((each) => !isQuestion(each)).entries()) {
    if (reading.mistakes.stop()) break;
    if (line.tokens[0].text === 'bytes') reading.mistakes.add(line.number, line.tokens[0], 'an exercise is of records only: no bytes stand in it');
    const read = readRecord(reading, line, 'journal', bytes.length, (blank) => blanks.push({ ...blank, record }));
    for (const byte of read.bytes) bytes.push(byte);
    origins.push(...read.origins);
  }
  return { kind: 'exercise', line: header.number, told, bytes: Uint8Array.from(bytes), origins, blanks, questions };
}

/**
 * The text of an exercise, with what was answered so far.
 * @param {import('../types.js').WrittenExercise} exercise @param {Names} names
 */
export function writeExercise({ told, bytes, blanks, questions = [] }, names) {
  const records = decodeRecords(bytes, 'journal');
  const width = records.reduce((most, { written }) => Math.max(most, String(written ?? '').length), 1);
  const asked = new Map(blanks.map(({ record, answer }) => [record, answer]));
  const lines = records.map((record, number) => {
    const answer = asked.get(number);
    if (answer === undefined) return recordLine(record, names, width);
    const said = answer === null ? '' : valueText({ ...record, value: answer }, names);
    return `${recordLine({ ...record, value: null }, names, width).padEnd(width + 9)}? ${said}`.trimEnd();
  });
  return ['krossvil exercise', TOLD[told], ...questions.map((question) => questionLine(question, names)), ...lines, ''].join('\n');
}
