/** `export`: the automaton in the languages of model checkers, and the table as a source file. */

import { decodeTable } from '../fields.js';
import { likelyMeant } from '../notation/mistakes.js';
import { thousands } from '../names.js';
import { promela, scaled, sizeOf } from '../models/promela.js';
import { sourceC, sourceRust } from '../models/source.js';
import { uppaal } from '../models/uppaal.js';
import { ACCEPTED, REFUSED } from './asking.js';
import { tableRefused } from './check.js';
import { numberOf } from './pictures.js';
import { reactionRefused, setFrom } from './react.js';
import { shownFile } from './sources.js';
import { Trouble } from './trouble.js';
import { put } from './writing.js';

/** @typedef {import('../types.js').Table} Table */
/** @typedef {import('../models/promela.js').Asserted} Asserted */
/** @typedef {import('./asking.js').Asking} Asking */
/** @typedef {import('./sources.js').TableSource} TableSource */

/** @typedef {{models: boolean, make: (table: Table, asserted: Asserted, bytes: Uint8Array) => string}} Language */

/**
 * Those of models take assertions.
 * @type {Record<string, Language>}
 */
const LANGUAGES = {
  promela: { models: true, make: promela },
  uppaal: { models: true, make: uppaal },
  c: { models: false, make: (table, _, bytes) => sourceC(table, bytes) },
  rust: { models: false, make: (table, _, bytes) => sourceRust(table, bytes) },
};

/** A search over more than this is not to be waited for. */
const SEARCH_MOST = 50000000;

/** @param {Asking} asking */
function languageOf({ files: [word], options }) {
  const language = Object.hasOwn(LANGUAGES, word) ? LANGUAGES[word] : null;
  const meant = likelyMeant(word, Object.keys(LANGUAGES));
  if (!language) throw new Trouble(`the languages are ${Object.keys(LANGUAGES).join(', ')}, not '${word}'${meant ? `; did you mean '${meant}'?` : ''}`);
  const asked = ['while', 'states', 'within', 'hold', 'scale'].find((name) => options[name] !== undefined);
  if (asked && !language.models) throw new Trouble(`--${asked} is for models, and ${word} has the table alone`);
  return language;
}

/**
 * The second half, with the target that the library calculates; null where it is not asked for.
 * @param {Asking} asking @param {TableSource} source @param {Table} table
 */
function questionOf(asking, source, table) {
  const { options, library } = asking;
  const within = numberOf(asking, 'within', 2000000000);
  const alone = ['while', 'states'].find((name) => options[name] !== undefined);
  if (within === undefined && alone) throw new Trouble(`--${alone} needs --within C: how long states and inputs stay`);
  if (within === undefined) return null;
  const states = setFrom(options.states, table.names.states, 'state');
  const inputs = setFrom(options.while, table.names.inputs, 'input');
  return { states, inputs, within, answer: library.reaction(source.bytes, states, inputs) };
}

/**
 * @param {Asking} asking
 */
function exportTable(asking) {
  const { make, models } = languageOf(asking);
  const source = asking.table(asking.files[1]);
  if (tableRefused(asking, source)) return REFUSED;
  const whole = /** @type {Table} */ (decodeTable(source.bytes, source.names));
  const question = questionOf(asking, source, whole);
  if (question && !question.answer.ok) return reactionRefused(asking, source, whole, question, question.answer);
  const by = numberOf(asking, 'scale', 3600000) ?? 1;
  const table = by > 0 ? scaled(whole, by) : null;
  if (!table) throw new Trouble(`--scale ${by}: not every time of this table can be divided by it`);
  if (question && question.within % by !== 0) throw new Trouble(`--within ${question.within} cannot be divided by --scale ${by}`);
  const late = question && { ...question, target: /** @type {any} */ (question.answer).target, within: [question.within / by] };
  const says = models ? aboutSize(table) : [];
  put(asking, make(table, { hold: asking.options.hold === true, late }, source.bytes));
  return sayDone(asking, source.file, says);
}

/**
 * @param {Table} table
 * @returns {string[]}
 */
function aboutSize(table) {
  const size = sizeOf(table);
  if (size <= SEARCH_MOST) return [];
  return [`The model has up to ${thousands(size)} states, which is too much for a search over all of them. With --scale N all times are divided by N.`];
}

/**
 * @param {Asking} asking @param {string} file @param {string[]} says
 */
function sayDone(asking, file, says) {
  const { options: { output } } = asking;
  if (asking.json) asking.terminal.json({ file, answer: 'exported', ...(output === undefined ? {} : { wrote: output }), says });
  else for (const sentence of [...says, ...(output === undefined ? [] : [`It is in ${shownFile(output)}.`])]) asking.terminal.sentence(sentence);
  return ACCEPTED;
}

export { exportTable as export };
