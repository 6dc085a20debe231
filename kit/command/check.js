/** `check`: is each journal a run of the table? The library says it; if not, the kit says why not. */

import { acceptanceLine, sayAcceptance } from '../answers.js';
import { decodeTable } from '../fields.js';
import { counted } from '../names.js';
import { ACCEPTED, NOT_ASKED, REFUSED } from './asking.js';
import { eachJournal, named, worstOf } from './many.js';
import { tell, told } from './refusals.js';
import { JOURNALS, shownFile } from './sources.js';

/** @typedef {import('./asking.js').Asking} Asking */
/** @typedef {import('./refusals.js').Told} Told */
/** @typedef {import('./sources.js').Source} Source */
/** @typedef {import('./sources.js').TableSource} TableSource */

const TOO_LONG = 19;

/**
 * The library's answer for a journal of any form.
 * @param {Asking} asking @param {TableSource} table @param {Source} source
 */
export function ask({ library }, table, { bytes, form }) {
  if (form === 'short') return library.checkShort(table.bytes, bytes);
  if (form !== 'stamped') return library.checkJournal(table.bytes, bytes);
  const read = library.readStamped(bytes);
  return read.ok ? library.checkJournal(table.bytes, read.bytes) : read;
}

/**
 * If the table is refused, that is the answer to every question about it.
 * @param {Asking} asking @param {TableSource} table
 */
export function tableRefused(asking, table) {
  const answer = asking.library.checkTable(table.bytes);
  if (!answer.ok) tell(asking, told(asking, table, null, answer));
  return !answer.ok;
}

/**
 * A journal that is too long has a command of its own.
 * @param {Told} told
 * @returns {Told}
 */
function namingWatch(told) {
  const { refusal, trace, explanation } = told;
  if (refusal.number !== TOO_LONG || trace?.form !== 'journal') return told;
  return { ...told, explanation: { ...explanation, sentences: [...explanation.sentences, "'krossvil watch' checks a journal of any length."] } };
}

/**
 * @param {Asking} asking @param {TableSource} table @param {Source} source @param {boolean} many
 */
function checkOne(asking, table, source, many) {
  const { terminal } = asking;
  const before = many ? `${shownFile(source.file)}: ` : '';
  const answer = ask(asking, table, source);
  if (!answer.ok) {
    tell(asking, namingWatch(told(asking, table, source, answer)), before);
    return REFUSED;
  }
  const { ok, ...numbers } = asking.json ? answer : { ok: true };
  if (asking.json) terminal.json({ file: source.file, answer: 'accepted', ...numbers });
  else terminal.line(`${before}${acceptanceLine(answer)}`, 'green');
  const decoded = many || asking.plain || asking.json ? null : decodeTable(table.bytes, table.names);
  if (decoded) for (const sentence of sayAcceptance(decoded, answer)) terminal.sentence(sentence);
  return ACCEPTED;
}

/**
 * @param {Asking} asking @param {TableSource} table
 */
function passes(asking, table) {
  if (asking.json) asking.terminal.json({ file: table.file, answer: 'passes' });
  else asking.terminal.line('passes', 'green');
  if (!asking.json) asking.terminal.sentence('The table is well formed. No journal is named, so none is checked.');
  return ACCEPTED;
}

/**
 * The journals in the table's own text.
 * @param {Asking} asking @param {TableSource} table
 */
function checkBeside(asking, table) {
  const has = table.text?.parts.some(({ kind }) => JOURNALS.some((form) => form === kind));
  if (!has && asking.kind === null) return passes(asking, table);
  const sources = named(asking.all(table, JOURNALS, undefined));
  return worstOf(sources.map((source) => checkOne(asking, table, source, sources.length > 1)));
}

/**
 * How many journals there were, in a sentence.
 * @param {number[]} codes
 */
function sayMany(codes) {
  const count = (/** @type {number} */ code) => codes.filter((each) => each === code).length;
  const unread = count(NOT_ASKED) === 0 ? '' : `, ${counted(count(NOT_ASKED), 'file')} could not be read`;
  return `${counted(count(ACCEPTED) + count(REFUSED), 'journal')} checked, ${count(REFUSED)} refused${unread}.`;
}

/**
 * @param {Asking} asking
 */
export function check(asking) {
  const table = asking.table();
  if (tableRefused(asking, table)) return REFUSED;
  const files = asking.files.slice(1);
  if (files.length === 0) return checkBeside(asking, table);
  let many = files.length > 1;
  const codes = eachJournal(asking, table, files, (source) => {
    many ||= source.file !== files[0];
    return checkOne(asking, table, source, many);
  });
  if (many && !asking.json) asking.terminal.sentence(sayMany(codes));
  return worstOf(codes);
}
