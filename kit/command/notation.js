/** `text`: bytes as text. `bytes`: text as bytes. */

import { TEXT_MAX, recordsText, tableText } from '../notation.js';
import { decodeTable } from '../fields.js';
import { ACCEPTED } from './asking.js';
import { noText } from './looks.js';
import { shownFile, wordOf } from './sources.js';
import { Trouble } from './trouble.js';
import { put } from './writing.js';

/** @typedef {import('./asking.js').Asking} Asking */
/** @typedef {import('./sources.js').Source} Source */

/** No form needs less than a character and a half for a byte: longer files have no text that could be read back. */
const MOST = TEXT_MAX * 2 / 3;

/**
 * The parts of a text: tables before what uses their names, each kind once.
 * @param {Source[]} parts
 */
function inOrder(parts) {
  const kinds = parts.map(({ form }) => form);
  const twice = kinds.find((kind, k) => kinds.indexOf(kind) !== k);
  if (twice) throw new Trouble(`a text has each part once, and these files have more than one ${wordOf(twice)}; write them one by one`);
  return [...parts].sort((a, b) => Number(b.form === 'table') - Number(a.form === 'table'));
}

/**
 * @param {Asking} asking
 */
export function text(asking) {
  const given = asking.files.map((file) => asking.sources.any(file, asking.givenNames, asking.files.length === 1 ? asking.kind : null));
  const already = given.findIndex(({ isText }) => isText);
  if (given.length === 1 && already === 0) throw new Trouble(`${shownFile(asking.files[0])} is a text already`);
  const parts = inOrder(given.flatMap((each) => each.parts));
  const table = parts.find(({ form }) => form === 'table');
  const names = asking.givenNames ?? given.find((each) => each.names)?.names ?? (table ? decodeTable(table.bytes)?.names : null) ?? null;
  const tooLong = new Trouble(`${shownFile(asking.files[0])}: as a text it is too long to be read back`);
  if (parts.some(({ bytes }) => bytes.length > MOST)) throw tooLong;
  const texts = parts.map(({ form, bytes }) => (form === 'table' ? tableText(bytes, names) : recordsText(bytes, form, names)));
  const whole = texts.join('\n');
  if (whole.length > TEXT_MAX) throw tooLong;
  if (!asking.json) put(asking, whole);
  else {
    if (asking.options.output !== undefined) put(asking, whole);
    asking.terminal.json({ parts: parts.map(({ file, form, bytes }) => ({ file, form, length: bytes.length })),
      ...(asking.options.output === undefined ? { text: whole } : { wrote: asking.options.output }) });
  }
  return ACCEPTED;
}

/**
 * @param {Asking} asking
 */
export function bytes(asking) {
  const [file] = asking.files;
  const { parts, isText } = asking.sources.any(file, asking.givenNames, null);
  if (!isText) throw noText(shownFile(file), parts[0].bytes);
  const wanted = asking.kind === null ? parts : parts.filter(({ form }) => form === asking.kind);
  if (wanted.length === 0) throw new Trouble(`${shownFile(file)}: there is no ${wordOf(asking.kind)} in this text`);
  if (wanted.length > 1) throw new Trouble(`${shownFile(file)}: say which part is meant: ${wanted.map(({ form }) => `--as ${form}`).join(', ')}`);
  const [{ form, bytes: made }] = wanted;
  if (!asking.json) put(asking, made);
  else {
    if (asking.options.output !== undefined) put(asking, made);
    asking.terminal.json({ file, form, length: made.length, ...(asking.options.output === undefined
      ? { hex: Buffer.from(made).toString('hex') } : { wrote: asking.options.output }) });
  }
  return ACCEPTED;
}
