/** The files that are named: bytes, or a text that begins with `krossvil`. A text may hold a table and its journals and stimulus together. */

import { FORMS, decodeTable, formOf } from '../fields.js';
import { listed, plainNames } from '../names.js';
import { FORM_WORDS, TEXT_MAX, isText, readText, showMistakes } from '../notation.js';
import { stimulusOf } from '../rerun.js';
import { noText } from './looks.js';
import { beginningOf, gathered, withHead } from './pieces.js';
import { Trouble } from './trouble.js';

/** @typedef {import('../types.js').Form} Form */
/** @typedef {import('../types.js').Names} Names */
/** @typedef {import('../types.js').Part} Part */
/** @typedef {import('../types.js').Text} Text */
/** @typedef {import('./io.js').Io} Io */

/**
 * A table, a journal or a stimulus, and where it comes from.
 * @typedef {Object} Source
 * @property {string} file
 * @property {'table'|Form} form
 * @property {Uint8Array} bytes
 * @property {Part|null} part      of the text that it comes from, if it does
 * @property {Text|null} text
 */

/** @typedef {Source & {names: Names|null}} TableSource   null where the table comes from bytes and no names are given */

/**
 * A file that may have an exercise; if it has none, it has a stimulus.
 * @typedef {{file: string, text: Text|null, part: import('../types.js').ExercisePart|null, stimulus: () => Source}} GivenExercise
 */

/** Of a table what stands behind this changes no answer of the library. */
const TABLE_READ = 70000;
const LIMIT = TEXT_MAX + 1;

const NONE = plainNames({ states: 0, inputs: 0, outputs: 0 }, 0);

export const JOURNALS = /** @type {const} */ (['journal', 'stamped', 'short']);

/** What is read of bytes in a form: one more than the most that the library takes. */
const mostOf = (/** @type {'table'|Form} */ form) => (form === 'table' ? TABLE_READ : FORMS[form].max + 1);

/** @param {'table'|Form} kind */
export const wordOf = (kind) => (kind === 'table' ? 'table' : FORM_WORDS[kind]);

export class Sources {
  /** @param {Io} io @param {boolean} noted  what is read is not to be written over */
  constructor(io, noted) {
    this.io = io;
    this.noted = noted;
    this.inputRead = false;
  }

  /**
   * @param {string} file @param {Uint8Array} [room]  what is read goes there if it fits, and is used before the next reading only
   */
  read(file, room) {
    this.#readOnce(file);
    const data = this.io.read(file, LIMIT, this.noted, room);
    return room ? data : new Uint8Array(data);
  }

  /** @param {string} file */
  #readOnce(file) {
    if (file === '-' && this.inputRead) throw new Trouble('the standard input can be read once only');
    if (file === '-') this.inputRead = true;
  }

  /**
   * A journal piece by piece; one in a text as a whole.
   * @param {string} file @param {TableSource} table @param {boolean} follow
   * @returns {{source: Source, pieces: Iterable<Uint8Array>}}
   */
  stream(file, table, follow) {
    this.#readOnce(file);
    const pieces = this.io.pieces(file, follow)[Symbol.iterator]();
    const head = beginningOf(pieces);
    if (!isText(head)) return { source: bytesSource(file, head, 'journal'), pieces: withHead(head, pieces) };
    if (follow) throw new Trouble(`${shownFile(file)}: this is a text, and only bytes can be followed`);
    const text = this.text(file, gathered(head, pieces, (all) => all.length < LIMIT), namesFor(table));
    const [source] = partsOf(file, text, ['journal'], null);
    return { source, pieces: [source.bytes] };
  }

  /**
   * @param {string} file @param {Uint8Array} data @param {Names|null} names
   * @returns {Text}
   */
  text(file, data, names) {
    const text = readText(data, names);
    if (text.mistakes.length > 0) throw new Trouble(showMistakes(text, shownFile(file)));
    return text;
  }

  /**
   * The names of the table in a text.
   * @param {string} file
   * @returns {Names}
   */
  names(file) {
    const data = this.read(file);
    if (!isText(data)) throw noText(shownFile(file), data);
    const text = this.text(file, data, null);
    if (!text.names) throw new Trouble(`${shownFile(file)}: names are taken from a table's text, and there is none`);
    return text.names;
  }

  /**
   * @param {string} file @param {Names|null} names  those that were asked for
   * @returns {TableSource}
   */
  table(file, names) {
    const data = this.read(file);
    if (!isText(data)) return { ...bytesSource(file, data, 'table'), names };
    const text = this.text(file, data, names);
    const part = text.parts.find(({ kind }) => kind === 'table');
    if (!part) throw new Trouble(`${shownFile(file)}: there is no table in this text; name the table's file first, then this one`);
    return { file, form: 'table', bytes: part.bytes, part, text, names: names ?? text.names };
  }

  /**
   * Records, with the table of their text if it has one.
   * @param {string} file @param {Names|null} names @param {Form} form
   * @returns {{table: TableSource|null, source: Source}}
   */
  alone(file, names, form) {
    const data = this.read(file);
    if (!isText(data)) return { table: null, source: bytesSource(file, data, form) };
    const text = this.text(file, data, names ?? NONE);
    const part = text.parts.find(({ kind }) => kind === 'table');
    const table = part ? { file, form: part.kind, bytes: part.bytes, part, text, names: names ?? text.names } : null;
    return { table, source: partsOf(file, text, [form], null)[0] };
  }

  /**
   * Every part of a text, or bytes as what they are said to be or show themselves to be.
   * @param {string} file @param {Names|null} names @param {'table'|Form|null} as
   * @returns {{parts: Source[], names: Names|null, isText: boolean}}
   */
  any(file, names, as) {
    const data = this.read(file);
    if (!isText(data)) {
      const form = as ?? formOf(data);
      return { parts: [{ file, form, bytes: data, part: null, text: null }], names, isText: false };
    }
    const text = this.text(file, data, names);
    const parts = text.parts.map((part) => ({ file, form: part.kind, bytes: part.bytes, part, text }));
    return { parts, names: text.names, isText: true };
  }

  /**
   * What a file has of these forms: of bytes one, of a text all parts that fit. `as` picks one, or says what bytes are.
   * @param {string} file @param {TableSource} table @param {readonly Form[]} forms @param {Form|null} as @param {Uint8Array} [room]
   * @returns {Source[]}
   */
  records(file, table, forms, as, room) {
    const data = this.read(file, room);
    if (!isText(data)) return [bytesSource(file, data, as ?? ownForm(data, forms))];
    return partsOf(file, this.text(file, data, namesFor(table)), forms, as);
  }

  /**
   * The exercise in a file, or in the table's own text; if there is none, the stimulus.
   * @param {string|undefined} file @param {TableSource} table
   * @returns {GivenExercise}
   */
  exercise(file, table) {
    const own = file === undefined;
    if (own && !table.text) throw new Trouble(`${shownFile(table.file)}: these are bytes; name a stimulus or an exercise too`);
    const data = own ? null : this.read(file);
    const bytes = data && !isText(data) ? data : null;
    const name = file ?? table.file;
    const text = bytes ? null : data ? this.text(name, data, namesFor(table)) : table.text;
    const stimulus = () => (text ? stimulusIn(name, text) : bytesSource(name, bytes ?? new Uint8Array(), 'stimulus'));
    return { file: name, text, part: text?.exercise ?? null, stimulus };
  }

  /**
   * The parts of the table's own text.
   * @param {TableSource} table @param {readonly Form[]} forms @param {Form|null} as
   * @returns {Source[]}
   */
  beside(table, forms, as) {
    return table.text ? partsOf(table.file, table.text, forms, as) : [];
  }
}

/** @param {string} file */
export const shownFile = (file) => (file === '-' ? 'standard input' : file);

/**
 * @param {string} file @param {Uint8Array} data @param {'table'|Form} form
 * @returns {Source}
 */
function bytesSource(file, data, form) {
  const most = mostOf(form);
  return { file, form, bytes: data.length > most ? data.subarray(0, most) : data, part: null, text: null };
}

/**
 * What bytes show themselves to be, among the forms that are asked for.
 * @param {Uint8Array} data @param {readonly Form[]} forms
 */
function ownForm(data, forms) {
  const shown = formOf(data);
  return forms.find((form) => form === shown) ?? forms[0];
}

/**
 * @param {string} file @param {Text} text @param {readonly Form[]} forms @param {Form|null} as
 * @returns {Source[]}
 */
function partsOf(file, text, forms, as) {
  const wanted = as ? [as] : forms;
  const parts = text.parts.filter(({ kind }) => wanted.some((form) => form === kind));
  if (parts.length === 0) throw new Trouble(`${shownFile(file)}: there is no ${listed(wanted.map(wordOf), 'or')} in this text`);
  return parts.map((part) => ({ file, form: /** @type {Form} */ (part.kind), bytes: part.bytes, part, text }));
}

/**
 * The stimulus of a text, or what is left of its journal without the values that the machine finds.
 * @param {string} file @param {Text} text
 * @returns {Source}
 */
function stimulusIn(file, text) {
  const journal = text.parts.some(({ kind }) => kind === 'stimulus') ? null : text.parts.find(({ kind }) => kind === 'journal');
  const bytes = journal && stimulusOf(journal.bytes, 'journal');
  return bytes ? { file, form: 'stimulus', bytes, part: null, text: null } : partsOf(file, text, ['stimulus'], null)[0];
}

/**
 * The names that a text without a table is read with.
 * @param {TableSource} table
 */
function namesFor(table) {
  return table.names ?? decodeTable(table.bytes)?.names ?? NONE;
}
