/** A line of a text as tokens. `#` begins a comment. */

/**
 * `word` may be a keyword or a name; `name` stands in quotation marks and is never a keyword; `gap` is a number with a plus sign; `blank` is
 * a question mark. `column` counts from 1.
 * @typedef {Object} Token
 * @property {'word'|'name'|'number'|'gap'|'arrow'|'comma'|'dash'|'blank'} kind
 * @property {string} text
 * @property {number} column
 * @property {number} width
 */

/** @typedef {{number: number, tokens: Token[]}} Line  a line that has tokens */
/** @typedef {{column: number, width: number, says: string}} Fault */

const NAME_MAX = 64;

const SPACES = /\s*/uy;

/**
 * Patterns over all letters, made when a text is first read: that takes longer than most answers about bytes.
 * @returns {{token: RegExp, bare: RegExp, hidden: RegExp}}
 */
function makePatterns() {
  const word = '[\\p{L}\\p{M}\\p{N}_.]+(?:-[\\p{L}\\p{M}\\p{N}_.]+)*';
  const signs = '(?<arrow>->|→)|(?<comma>,)|(?<blank>\\?)';
  return {
    token: new RegExp(`(?<name>"[^"]*")|${signs}|(?<gap>\\+[0-9]+)|(?<word>${word}|-[0-9]+)|(?<dash>-)`, 'uy'),
    bare: /^[\p{L}_][\p{L}\p{M}\p{N}_.]*(?:-[\p{L}\p{M}\p{N}_.]+)*$/u,
    // What cannot be seen: control characters, those that turn the direction of writing, those of no width, separators of lines.
    hidden: /[\p{Cc}\p{Cf}\p{Cs}\p{Co}\p{Zl}\p{Zp}]/u,
  };
}

/** @type {ReturnType<typeof makePatterns>|undefined} */
let made;

const patterns = () => (made ??= makePatterns());

/** Words with a meaning of their own. A name that is one of them is written in quotation marks. */
const KEYWORDS = new Set(['krossvil', 'table', 'stimulus', 'journal', 'stamped', 'short', 'cycle', 'inputs', 'outputs', 'start', 'timer',
  'over', 'state', 'output', 'hold', 'delays', 'bytes', 'input', 'change', 'poll', 'test', 'tick', 'end', 'exercise', 'told',
  'reaction', 'from', 'while', 'takes']);

/**
 * What is wrong with a name; null if nothing is.
 * @param {string} name
 */
export function nameFault(name) {
  if (name.trim() === '') return 'a name needs letters';
  if (name !== name.trim()) return 'a name neither begins nor ends with a space';
  if (name.length > NAME_MAX) return `a name has at most ${NAME_MAX} characters`;
  return patterns().hidden.test(name) || name.includes('"') ? 'a name has only characters that can be seen, and no quotation mark' : null;
}

/**
 * A name as it stands in a text.
 * @param {string} name
 */
export function writtenName(name) {
  return patterns().bare.test(name) && !KEYWORDS.has(name) ? name : `"${name}"`;
}

/**
 * Can this token be a name, and what is wrong with it?
 * @param {Token} token
 */
export function tokenNameFault(token) {
  if (token.kind === 'name') return nameFault(token.text);
  if (token.kind !== 'word' || !patterns().bare.test(token.text)) return `a name begins with a letter, or stands in quotation marks: "${token.text}"`;
  return nameFault(token.text);
}

/**
 * @param {string} line @param {number} at
 * @returns {Fault}
 */
function strange(line, at) {
  const character = String.fromCodePoint(line.codePointAt(at) ?? 0);
  const fault = { column: at + 1, width: character.length };
  if (character === '"') return { ...fault, says: 'the quotation mark that ends this name is missing' };
  if ('“”„«»\'‘’'.includes(character)) return { ...fault, says: 'a name stands in straight quotation marks: "so"' };
  if (line.startsWith('=>', at)) return { ...fault, width: 2, says: 'an arrow is written ->' };
  return { ...fault, says: `'${character}' is not understood here` };
}

/**
 * @param {string} line
 * @returns {Fault|null}
 */
function hiddenFault(line) {
  const at = line.replaceAll('\t', ' ').search(patterns().hidden);
  if (at < 0) return null;
  const code = (line.codePointAt(at) ?? 0).toString(16).toUpperCase().padStart(4, '0');
  return { column: at + 1, width: 1, says: `a character that cannot be seen stands here (U+${code})` };
}

/**
 * @param {RegExpExecArray} match
 * @returns {Token}
 */
function tokenOf(match) {
  const kind = Object.keys(match.groups ?? {}).find((name) => match.groups?.[name] !== undefined);
  const text = match[0].normalize('NFC');
  const place = { column: match.index + 1, width: match[0].length };
  if (kind === 'name') return { kind, text: text.slice(1, -1), ...place };
  if (kind === 'gap') return { kind, text: text.slice(1), ...place };
  if (kind === 'word' && /^[0-9]+$/.test(text)) return { kind: 'number', text, ...place };
  return { kind: /** @type {Token['kind']} */ (kind), text, ...place };
}

/**
 * @param {string} line @param {number} at
 */
function behindSpaces(line, at) {
  SPACES.lastIndex = at;
  SPACES.test(line);
  return SPACES.lastIndex;
}

/**
 * The tokens of a line up to its comment, and what is wrong with it. The tokens before a fault are given too.
 * @param {string} line
 * @returns {{tokens: Token[], fault: Fault|null}}
 */
export function readLine(line) {
  /** @type {Token[]} */
  const tokens = [];
  const hidden = hiddenFault(line);
  const { token } = patterns();
  for (let at = behindSpaces(line, 0); at < line.length && line[at] !== '#';) {
    token.lastIndex = at;
    const match = token.exec(line);
    if (!match) return { tokens, fault: hidden ?? strange(line, at) };
    tokens.push(tokenOf(match));
    at = behindSpaces(line, at + match[0].length);
  }
  return { tokens, fault: hidden };
}
