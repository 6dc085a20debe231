/** One question: the command's options and files, the library, and the ways to answer. */

import { decodeTable } from '../fields.js';
import { likelyMeant } from '../notation/mistakes.js';
import { Sources, shownFile, wordOf } from './sources.js';
import { Terminal } from './terminal.js';
import { Trouble } from './trouble.js';

/** @typedef {import('../types.js').Form} Form */
/** @typedef {import('../types.js').Library} Library */
/** @typedef {import('../types.js').Names} Names */
/** @typedef {import('./io.js').Io} Io */
/** @typedef {import('./sources.js').Source} Source */
/** @typedef {import('./sources.js').TableSource} TableSource */

/** The exit codes. */
export const ACCEPTED = 0;
export const REFUSED = 1;
export const NOT_ASKED = 2;

const KINDS = ['table', 'journal', 'short', 'stamped', 'stimulus'];

export class Asking {
  /**
   * @param {Io} io @param {Library} library @param {string[]} files @param {Record<string, any>} options
   * @param {boolean} writes  the command writes what was made: without -o that goes to the standard output, and answers go beside it
   */
  constructor(io, library, files, options, writes) {
    this.io = io;
    this.library = library;
    this.files = files;
    this.options = options;
    this.json = options.json === true;
    this.plain = options.plain === true;
    if (this.json && options.output !== undefined && io.isOutput(options.output)) {
      throw new Trouble('with --json the standard output has objects alone: give -o FILE');
    }
    const toOutput = writes && (options.output === undefined || options.output === '-');
    this.terminal = new Terminal(io, { plain: this.plain, beside: toOutput && !this.json });
    this.sources = new Sources(io, options.output !== undefined);
    this.kind = this.#kind();
    /** @type {Names|null} */
    this.givenNames = options.names === undefined ? null : this.sources.names(options.names);
  }

  #kind() {
    const { as } = this.options;
    if (as === undefined || KINDS.includes(as)) return as ?? null;
    const meant = likelyMeant(as, KINDS);
    throw new Trouble(`--as takes ${KINDS.join(', ')}, not '${as}'${meant ? `; did you mean '${meant}'?` : ''}`);
  }

  /**
   * The table, which is the first file.
   * @param {string} [file]
   * @returns {TableSource}
   */
  table(file = this.files[0]) {
    const table = this.sources.table(file, this.givenNames);
    if (this.givenNames && !this.plain && !this.json) this.#sayWhoseNames(table);
    return table;
  }

  /** @param {TableSource} table */
  #sayWhoseNames(table) {
    const decoded = decodeTable(table.bytes, this.givenNames);
    const whose = shownFile(this.options.names);
    const says = decoded && decoded.names.states !== this.givenNames?.states
      ? `The names in ${whose} are not as many as this table has members, and are not used.` : `Names are those of ${whose}.`;
    this.complain(says);
  }

  /**
   * To the standard error, line by line.
   * @param {string} text
   */
  complain(text) {
    const beside = new Terminal(this.io, { plain: true, beside: true });
    for (const line of text.split('\n')) beside.line(line);
  }

  /**
   * The one journal or stimulus that is meant: the second file, or that in the table's own text.
   * @param {TableSource} table @param {readonly Form[]} forms
   * @returns {Source}
   */
  one(table, forms) {
    const all = this.all(table, forms, this.files[1]);
    if (all.length === 1) return all[0];
    const kinds = all.map(({ form }) => `--as ${form}`).join(', ');
    throw new Trouble(`${shownFile(all[0].file)}: say which part is meant: ${kinds}`);
  }

  /**
   * @param {TableSource} table @param {readonly Form[]} forms @param {string|undefined} file  the table's own if it is not said
   * @param {Uint8Array} [room]  for bytes that are used before the next file is read only
   * @returns {Source[]}
   */
  all(table, forms, file, room) {
    const as = this.kind === null ? null : forms.find((form) => form === this.kind);
    if (as === undefined) throw new Trouble(`--as ${this.kind}: here ${forms.join(', ')} can be meant`);
    if (file !== undefined) return this.sources.records(file, table, forms, as, room);
    if (table.text) return this.sources.beside(table, forms, as);
    throw new Trouble(`${shownFile(table.file)}: these are bytes; name a ${wordOf(forms[0])} too`);
  }
}
