/** `react`: how long it takes at most until the state is one of the target, asked by names. */

import { sayPath, sayReaction } from '../answers.js';
import { explainReaction } from '../explain.js';
import { decodeTable } from '../fields.js';
import { didYouMean } from '../notation/mistakes.js';
import { writtenName } from '../notation/lexer.js';
import { members, setOf, wholeSet } from '../sets.js';
import { timesOf } from '../times.js';
import { ACCEPTED, REFUSED } from './asking.js';
import { tableRefused } from './check.js';
import { numberOf } from './pictures.js';
import { tell } from './refusals.js';
import { Trouble } from './trouble.js';

/** @typedef {import('../types.js').Table} Table */
/** @typedef {import('./asking.js').Asking} Asking */
/** @typedef {{states: number, inputs: number, moves?: number}} Question */
/** @typedef {import('./sources.js').TableSource} TableSource */

/**
 * Names with commas between; one in quotation marks may have commas itself.
 * @param {string} words
 */
function splitNames(words) {
  return (words.match(/"[^"]*"|[^,]+/g) ?? []).map((word) => word.trim()).filter((word) => word !== '');
}

/**
 * A member by its name, or by its number where no name is so.
 * @param {string} word @param {string[]} names @param {string} what
 */
function memberOf(word, names, what) {
  const name = word.replace(/^"(.*)"$/, '$1').normalize('NFC');
  const found = names.indexOf(name);
  if (found >= 0) return found;
  if (/^[0-9]+$/.test(word) && Number(word) < 32) return Number(word);
  throw new Trouble(`there is no ${what} '${name}'${didYouMean(name, names)}\nthere are: ${names.map(writtenName).join(', ')}`);
}

/**
 * @param {string|undefined} words @param {string[]} names @param {string} what
 */
export function setFrom(words, names, what) {
  return words === undefined ? wholeSet(names.length) : setOf(splitNames(words).map((word) => memberOf(word, names, what)));
}

/**
 * A path is state, input, state .. state.
 * @param {Table} table @param {number} member @param {number} at
 */
const nameOnPath = ({ names }, member, at) => (at % 2 === 0 ? names.states : names.inputs)[member];

/**
 * @param {Asking} asking @param {Table} table @param {Question} question @param {any} answer
 */
function sayAnswer(asking, table, question, answer) {
  const { terminal } = asking;
  const target = members(answer.target).map((state) => table.names.states[state]);
  if (asking.json) {
    const { ok, path, ...rest } = answer;
    const named = path?.map((/** @type {number} */ member, /** @type {number} */ at) => nameOnPath(table, member, at));
    return terminal.json({ answer: 'accepted', ...rest, target, ...(path && { moves: question.moves, path: named }) });
  }
  const moves = question.moves === undefined ? '' : ` moves=${question.moves}`;
  const tight = answer.tight === undefined ? '' : ` tight=${answer.tight}`;
  terminal.line(`time=${answer.time}${tight} target=${target.map(writtenName).join(',') || '-'}${moves}`, 'green');
  for (const sentence of sayReaction(table, question, answer)) terminal.sentence(sentence);
  if (answer.path) terminal.sentence(sayPath(table, answer.path));
}

/**
 * @param {Asking} asking @param {TableSource} source @param {Table} table @param {Question} question @param {any} answer
 */
function answerOne(asking, source, table, question, answer) {
  if (!answer.ok) return reactionRefused(asking, source, table, question, answer);
  sayAnswer(asking, table, question, answer);
  return ACCEPTED;
}

/**
 * @param {Asking} asking @param {TableSource} source @param {Table} table @param {Question} question @param {any} answer
 */
export function reactionRefused(asking, source, table, question, answer) {
  const explanation = explainReaction(table, answer, question);
  tell(asking, { refusal: answer, source: { ...source, part: null }, explanation, trace: null });
  return REFUSED;
}

/**
 * The table, and what is asked of it by names; null if it is refused, which is then said.
 * @param {Asking} asking
 * @returns {{source: TableSource, table: Table, states: number, inputs: number, moves: number|undefined}|null}
 */
export function askedBy(asking) {
  const { options } = asking;
  const moves = numberOf(asking, 'moves', 4294967295, 32);
  const source = asking.table();
  if (tableRefused(asking, source)) return null;
  const table = /** @type {Table} */ (decodeTable(source.bytes, source.names));
  const states = setFrom(options.from, table.names.states, 'state');
  return { source, table, states, inputs: setFrom(options.while, table.names.inputs, 'input'), moves };
}

/**
 * @param {Asking} asking
 */
export function react(asking) {
  const { options, library } = asking;
  const asked = askedBy(asking);
  if (!asked) return REFUSED;
  const { source, table, states, inputs, moves } = asked;
  const one = (/** @type {Question} */ question, /** @type {any} */ answer) => answerOne(asking, source, table, question, answer);
  const codes = [];
  if (options.tight) codes.push(one({ states, inputs }, library.reactionTight(source.bytes, states, inputs)));
  if (moves !== undefined) codes.push(one({ states, inputs, moves }, timesOf(library, source.bytes, { states, inputs, moves })));
  if (codes.length === 0) codes.push(one({ states, inputs }, library.reaction(source.bytes, states, inputs)));
  return Math.max(...codes);
}
