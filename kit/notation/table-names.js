/** The names in a table's text. */

import { behind } from './reading.js';
import { upToByte } from './table-lines.js';

/** @typedef {import('../types.js').Names} Names */
/** @typedef {import('./lexer.js').Line} Line */
/** @typedef {import('./reading.js').Reading} Reading */
/** @typedef {import('./table-lines.js').Lines} Lines */

/**
 * The names that a line lists after its first word.
 * @param {Reading} reading @param {Line|undefined} line @param {'input'|'output'} what
 * @returns {string[]}
 */
function readListed(reading, line, what) {
  if (!line) {
    reading.unsound.add(what);
    return [];
  }
  const before = reading.mistakes.count;
  const listed = reading.listed(line, line.tokens.slice(1), `${what}s`);
  const tokens = upToByte(reading, listed, () => line, what, (token) => token);
  for (const [k, token] of tokens.entries()) {
    const twice = tokens.findIndex((other) => other.text === token.text) < k;
    if (reading.isName(line, token) && twice) reading.mistakes.add(line.number, token, `'${token.text}' stands twice`);
  }
  if (reading.mistakes.count > before) reading.unsound.add(what);
  return tokens.map((token) => token.text);
}

/**
 * The names that stand second in lines, as those of states and timers.
 * @param {Reading} reading @param {Line[]} lines @param {'state'|'timer'} what
 * @returns {string[]}
 */
function readSecond(reading, lines, what) {
  const before = reading.mistakes.count;
  const names = lines.map((line) => line.tokens[1]?.text ?? '');
  for (const [k, line] of lines.entries()) {
    const token = line.tokens[1];
    if (!token) reading.mistakes.add(line.number, behind(line), `the ${what}'s name is missing`);
    else if (reading.isName(line, token) && names.indexOf(token.text) < k) {
      reading.mistakes.add(line.number, token, `a second ${what} '${token.text}'`);
    }
    if (what === 'state') reading.tooMany(line, line.tokens[2]);
  }
  if (reading.mistakes.count > before) reading.unsound.add(what);
  return names;
}

/**
 * The names that a table gives to its members.
 * @param {Reading} reading @param {Lines} lines
 * @returns {Names}
 */
export function readNames(reading, lines) {
  return {
    states: readSecond(reading, lines.blocks.map((block) => block.line), 'state'),
    inputs: readListed(reading, lines.heads.get('inputs'), 'input'),
    outputs: readListed(reading, lines.heads.get('outputs'), 'output'),
    timers: readSecond(reading, lines.timers, 'timer'),
  };
}
