/** Commands that make a journal or a table of what they are given: `run`, `salvage`, `short`, `long`, `unstamp`, `convert`. */

import { sayConverted, saySalvage } from '../answers.js';
import { decodeTable } from '../fields.js';
import { MEANINGS, explainRoom } from '../explain.js';
import { counted } from '../names.js';
import { ACCEPTED, REFUSED } from './asking.js';
import { tell, told } from './refusals.js';
import { shownFile, wordOf } from './sources.js';
import { madeObject, putMade } from './writing.js';

/** @typedef {import('../types.js').Form} Form */
/** @typedef {import('../types.js').Names} Names */
/** @typedef {import('./asking.js').Asking} Asking */
/** @typedef {import('./sources.js').Source} Source */
/** @typedef {import('./sources.js').TableSource} TableSource */

/**
 * The names for the text of what was made: those given, or plain ones that fit the table.
 * @param {TableSource} table
 */
export const namesOf = (table) => table.names ?? decodeTable(table.bytes)?.names ?? null;

/**
 * Writes what was made and says the rest.
 * @param {Asking} asking @param {{bytes: Uint8Array, form: 'table'|Form, names: Names|null}} made
 * @param {{file: string, numbers: Record<string, any>, says: string[], line?: string}} about
 */
export function deliver(asking, made, { file, numbers, says, line }) {
  putMade(asking, made);
  if (asking.json) asking.terminal.json({ file, answer: 'accepted', ...numbers, ...madeObject(asking, made), says });
  else {
    if (line && (!asking.terminal.beside || !asking.plain)) asking.terminal.line(line);
    for (const sentence of says) asking.terminal.sentence(sentence);
  }
  return ACCEPTED;
}

/**
 * @param {Asking} asking @param {Uint8Array} bytes @param {'table'|Form} form
 */
export function sayWritten({ options }, bytes, form) {
  return options.output === undefined ? [] : [`${counted(bytes.length, 'byte')} of a ${wordOf(form)} are in ${shownFile(options.output)}.`];
}

/**
 * @param {Asking} asking @param {TableSource} table @param {Source} source @param {any} answer
 */
function refuse(asking, table, source, answer) {
  const about = told(asking, table, source, answer);
  const room = answer.number >= 30 ? { ...about, source, explanation: explainRoom(answer, { bytes: source.bytes.length }) } : about;
  tell(asking, room);
  return REFUSED;
}

/**
 * A command that turns records of one form into records of another, under a table.
 * @param {Form} from @param {Form} to @param {(asking: Asking, table: Uint8Array, bytes: Uint8Array) => any} make
 */
function conversion(from, to, make) {
  return (/** @type {Asking} */ asking) => {
    const table = asking.table();
    const source = asking.one(table, [from]);
    const answer = make(asking, table.bytes, source.bytes);
    if (!answer.ok) return refuse(asking, table, source, answer);
    const says = sayWritten(asking, answer.bytes, to);
    return deliver(asking, { bytes: answer.bytes, form: to, names: namesOf(table) }, { file: source.file, numbers: {}, says });
  };
}

export const run = conversion('stimulus', 'journal', ({ library }, table, bytes) => library.run(table, bytes));
export const short = conversion('journal', 'short', ({ library }, table, bytes) => library.shorten(table, bytes));
export const long = conversion('short', 'journal', ({ library }, table, bytes) => library.lengthen(table, bytes));

/**
 * @param {Asking} asking
 */
export function salvage(asking) {
  const table = asking.table();
  const source = asking.one(table, ['journal']);
  const answer = asking.library.salvage(table.bytes, source.bytes);
  if (!answer.ok) return refuse(asking, table, source, answer);
  const { ok, bytes, ...numbers } = answer;
  const stopped = numbers.number === 0 ? null : told(asking, table, source, numbers);
  const line = `kept=${numbers.kept} dropped=${numbers.dropped}${stopped ? ` refused ${numbers.number} at ${numbers.place}` : ''}`;
  const says = [...saySalvage(numbers, stopped?.explanation ?? null), ...sayWritten(asking, bytes, 'journal')];
  return deliver(asking, { bytes, form: 'journal', names: namesOf(table) }, { file: source.file, numbers, says, line });
}

/**
 * The reader of stamped journals needs no table; one that is named gives the names.
 * @param {Asking} asking
 */
export function unstamp(asking) {
  const { table, source } = stampedOf(asking);
  const answer = asking.library.readStamped(source.bytes);
  if (!answer.ok && table) return refuse(asking, table, source, answer);
  if (!answer.ok) {
    tell(asking, { refusal: answer, source, trace: null, explanation: meaningOf(answer) });
    return REFUSED;
  }
  const names = table ? namesOf(table) : asking.givenNames;
  const says = sayWritten(asking, answer.bytes, 'journal');
  return deliver(asking, { bytes: answer.bytes, form: 'journal', names }, { file: source.file, numbers: {}, says });
}

/**
 * Without a table there are no names to say more with.
 * @param {{number: number, place: number}} refusal
 */
function meaningOf({ number, place }) {
  const sentences = [`It means: ${MEANINGS.get(number) ?? ''}. With its table named before it, the journal is explained.`];
  return { sentences, slip: null, slipName: null, wanted: null, blame: { place, length: 0 } };
}

/**
 * @param {Asking} asking
 * @returns {{table: TableSource|null, source: Source}}
 */
function stampedOf(asking) {
  const [first, second] = asking.files;
  if (second !== undefined) {
    const table = asking.table();
    return { table, source: asking.one(table, ['stamped']) };
  }
  return asking.sources.alone(first, asking.givenNames, 'stamped');
}

/**
 * @param {Asking} asking
 */
export function convert(asking) {
  const table = asking.table();
  const answer = asking.library.convertTable(table.bytes);
  if (!answer.ok) return refuse(asking, table, table, answer);
  const { changed, bytes } = answer;
  const says = [...sayConverted(changed), ...sayWritten(asking, bytes, 'table')];
  const line = `changed=${changed}`;
  return deliver(asking, { bytes, form: 'table', names: table.names }, { file: table.file, numbers: { changed }, says, line });
}
