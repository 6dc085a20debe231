/** The lines of a table's text, sorted by what they are about. */

import { didYouMean } from './mistakes.js';

/** @typedef {import('./lexer.js').Line} Line */
/** @typedef {import('./lexer.js').Token} Token */
/** @typedef {import('./reading.js').Reading} Reading */

/**
 * The lines of a state.
 * @typedef {Object} Block
 * @property {Line} line
 * @property {Line|null} output
 * @property {Line|null} hold
 * @property {Line[]} delays  of timers
 * @property {Line[]} arrows
 */

/**
 * The lines of a table, by what they are about. `header` is the line `krossvil table`.
 * @typedef {Object} Lines
 * @property {Line} header
 * @property {Map<string, Line>} heads
 * @property {Line[]} timers
 * @property {Block[]} blocks
 * @property {Line[]} rest
 */

export const HEADS = ['cycle', 'inputs', 'outputs', 'start'];
const WORDS = [...HEADS, 'timer', 'state', 'output', 'hold', 'bytes'];
const MOST_BYTE = 255;

/**
 * The keyword that a line begins with; a name in quotation marks is none.
 * @param {Line} line
 */
export function keyword(line) {
  const [first] = line.tokens;
  return first.kind === 'word' ? first.text : '';
}

/**
 * @param {Line} line @param {string} word
 */
function secondIs(line, word) {
  return line.tokens[1]?.kind === 'word' && line.tokens[1].text === word;
}

/**
 * Puts a line where it belongs; false if no part of a table is like this.
 * @param {Lines} lines @param {Line} line @param {Reading} reading
 */
function put(lines, line, reading) {
  const word = keyword(line);
  const block = lines.blocks[lines.blocks.length - 1];
  const second = (/** @type {Line|null|undefined} */ given, /** @type {string} */ says) => {
    if (given) reading.mistakes.add(line.number, line.tokens[0], says);
  };
  if (word === 'state' && !line.tokens.some((token) => token.kind === 'arrow')) {
    lines.blocks.push({ line, output: null, hold: null, delays: [], arrows: [] });
  } else if (line.tokens.some((token) => token.kind === 'arrow')) {
    if (block) block.arrows.push(line);
    else orphan(reading, line, 'an arrow');
  } else if (word === 'bytes') {
    lines.rest.push(line);
  } else if ((word === 'output' || word === 'hold') && block) {
    second(block[word], `a second '${word}' for one state`);
    block[word] = line;
  } else if (HEADS.includes(word)) {
    second(lines.heads.get(word), `a second '${word}' for one table`);
    lines.heads.set(word, line);
  } else if (word === 'timer') {
    lines.timers.push(line);
  } else if (secondIs(line, 'delays') && block) {
    block.delays.push(line);
  } else {
    return false;
  }
  return true;
}

/**
 * A line that belongs under a state, where none was begun. The state that it was meant for is likely missing.
 * @param {Reading} reading @param {Line} line @param {string} what
 */
function orphan(reading, line, what) {
  reading.unsound.add('state');
  reading.mistakes.once('orphan', line.number, line.tokens[0], () => `${what} belongs under a state`);
}

/**
 * @param {Reading} reading @param {Line} line
 */
function notUnderstood(reading, line) {
  const [first, second] = line.tokens;
  if (['output', 'hold'].includes(keyword(line))) return orphan(reading, line, `'${first.text}'`);
  if (secondIs(line, 'delays')) return orphan(reading, line, "'delays'");
  const meant = didYouMean(first.text, WORDS);
  const delays = second && !meant ? didYouMean(second.text, ['delays']) : '';
  const [wrong, hint] = second && delays ? [second, delays] : [first, meant];
  return reading.mistakes.add(line.number, wrong, `'${wrong.text}' is not understood here${hint}`);
}

/**
 * The lines by what they are about. What is no line of a table is a mistake.
 * @param {Reading} reading @param {Line} header @param {Line[]} body
 * @returns {Lines}
 */
export function sortLines(reading, header, body) {
  /** @type {Lines} */
  const lines = { header, heads: new Map(), timers: [], blocks: [], rest: [] };
  for (const line of body) {
    if (reading.mistakes.stop()) break;
    if (!put(lines, line, reading)) notUnderstood(reading, line);
  }
  lines.blocks = upToByte(reading, lines.blocks, (block) => block.line, 'state');
  lines.timers = upToByte(reading, lines.timers, (line) => line, 'timer');
  return lines;
}

/**
 * As many as a byte can count; more are a mistake.
 * @template T
 * @param {Reading} reading @param {T[]} all @param {(one: T) => Line} lineOf @param {string} what @param {(one: T) => Token|null} [tokenOf]
 */
export function upToByte(reading, all, lineOf, what, tokenOf = () => null) {
  const one = all[MOST_BYTE];
  if (one === undefined) return all;
  reading.mistakes.add(lineOf(one).number, tokenOf(one), `more than ${MOST_BYTE} ${what}s do not fit in a byte`);
  return all.slice(0, MOST_BYTE);
}
