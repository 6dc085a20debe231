/** Questions for a reaction time in an exercise, a line each: `reaction from idle, busy while no_train over 2 moves takes ?` */

import { members, setOf } from '../sets.js';
import { origin } from './reading.js';
import { memberText } from './records.js';

/** @typedef {import('../types.js').Names} Names */
/** @typedef {import('../types.js').Question} Question */
/** @typedef {import('./lexer.js').Line} Line */
/** @typedef {import('./lexer.js').Token} Token */
/** @typedef {import('./reading.js').Reading} Reading */

const CLAUSES = ['from', 'while', 'over', 'takes'];
const FORM = 'reaction from STATES while INPUTS over N moves takes ?';
const MOVES_MOST = 4294967295;

/** @param {Line} line */
export const isQuestion = ({ tokens: [first] }) => first.kind === 'word' && first.text === 'reaction';

/**
 * The line's tokens by the word that they stand behind.
 * @param {Reading} reading @param {Line} line
 */
function clausesOf(reading, line) {
  /** @type {Map<string, Token[]>} */
  const clauses = new Map();
  /** @type {Token[]|null} */
  let clause = null;
  for (const token of line.tokens.slice(1)) {
    if (token.kind === 'word' && CLAUSES.includes(token.text) && !clauses.has(token.text)) clauses.set(token.text, clause = []);
    else if (clause) clause.push(token);
    else reading.mistakes.add(line.number, token, `a question for a reaction time is written: ${FORM}`);
  }
  return clauses;
}

/**
 * Names with commas between; all members if nothing is said.
 * @param {Reading} reading @param {Line} line @param {Token[]|undefined} tokens @param {'state'|'input'} what
 */
function readSet(reading, line, tokens, what) {
  if (!tokens) return null;
  if (tokens.length === 0) reading.mistakes.add(line.number, line.tokens[0], `the names of the ${what}s are missing: ${FORM}`);
  return setOf(reading.listed(line, tokens, `${what}s`).map((token) => reading.member(line, token, what, 31)));
}

/**
 * @param {Reading} reading @param {Line} line @param {Token[]|undefined} tokens
 */
function readMoves(reading, line, tokens) {
  if (!tokens) return null;
  const [number, word, more] = tokens;
  if (word && word.text !== 'moves' && word.text !== 'move') reading.mistakes.add(line.number, word, `here stands the word moves: ${FORM}`);
  reading.tooMany(line, more);
  return reading.number(line, number, MOVES_MOST, 'the number of moves');
}

/**
 * @param {Reading} reading @param {Line} line
 * @returns {Question}
 */
export function readQuestion(reading, line) {
  const clauses = clausesOf(reading, line);
  const [states, inputs] = [readSet(reading, line, clauses.get('from'), 'state'), readSet(reading, line, clauses.get('while'), 'input')];
  const moves = readMoves(reading, line, clauses.get('over'));
  const takes = clauses.get('takes') ?? [];
  const [mark, answer, more] = takes;
  if (mark?.kind !== 'blank') reading.mistakes.add(line.number, mark ?? line.tokens[0], `what is asked is how long it takes: ${FORM}`);
  reading.tooMany(line, more);
  const said = answer ? reading.number(line, answer, MOVES_MOST, 'a time') : null;
  return { states, inputs, moves, answer: said, origin: origin(0, 0, line, takes.length > 0 ? takes : line.tokens) };
}

/**
 * @param {Pick<Question, 'states'|'inputs'|'moves'|'answer'>} question @param {Names} names
 */
export function questionLine({ states, inputs, moves, answer }, names) {
  const listed = (/** @type {number} */ set, /** @type {string[]} */ list) => members(set).map((member) => memberText(list, member)).join(', ');
  return ['reaction', ...(states === null ? [] : [`from ${listed(states, names.states)}`]),
    ...(inputs === null ? [] : [`while ${listed(inputs, names.inputs)}`]),
    ...(moves === null ? [] : [`over ${moves} ${moves === 1 ? 'move' : 'moves'}`]), 'takes ?', ...(answer === null ? [] : [String(answer)])].join(' ');
}
