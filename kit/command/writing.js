/** What a command has made goes to a file whose ending says the form, or to the standard output. */

import { recordsText, tableText } from '../notation.js';
import { Trouble } from './trouble.js';

/** @typedef {import('../types.js').Form} Form */
/** @typedef {import('../types.js').Names} Names */
/** @typedef {import('./asking.js').Asking} Asking */

/** Pictures are made this much larger than they are laid out, so that they are sharp on a slide. */
const ZOOM = '2';

/**
 * The ending of the file that is written.
 * @param {Asking} asking @param {string} otherwise
 */
export function endingOf({ options }, otherwise) {
  const found = /\.([A-Za-z0-9]+)$/.exec(options.output ?? '');
  return found ? found[1].toLowerCase() : otherwise;
}

/**
 * @param {Asking} asking @param {Uint8Array|string} data
 */
export function put({ io, options }, data) {
  const { output } = options;
  if (output !== undefined && output !== '-') return io.write([[output, data]]);
  if (io.printsToTerminal && typeof data !== 'string') throw new Trouble('bytes are not written to a terminal: give -o FILE');
  io.print(data);
}

/**
 * A table, journal or stimulus: as text to the standard output or to a file that ends in .kv, else as bytes.
 * @param {Asking} asking @param {{bytes: Uint8Array, form: 'table'|Form, names: Names|null}} made
 */
export function putMade(asking, { bytes, form, names }) {
  const asText = asking.options.output === undefined || endingOf(asking, '') === 'kv';
  const text = () => (form === 'table' ? tableText(bytes, names) : recordsText(bytes, form, names));
  if (!asking.json) return put(asking, asText ? text() : bytes);
  if (asking.options.output !== undefined) put(asking, asText ? text() : bytes);
  return undefined;
}

/**
 * What JSON says of what was made: where it was written, or its text.
 * @param {Asking} asking @param {{bytes: Uint8Array, form: 'table'|Form, names: Names|null}} made
 */
export function madeObject({ options }, { bytes, form, names }) {
  if (options.output !== undefined) return { length: bytes.length, wrote: options.output };
  return { length: bytes.length, text: form === 'table' ? tableText(bytes, names) : recordsText(bytes, form, names) };
}

/**
 * A picture: .svg as it is, .png and .pdf through librsvg.
 * @param {Asking} asking @param {string} svg
 */
export function putPicture(asking, svg) {
  const ending = endingOf(asking, 'svg');
  if (ending === 'svg') return put(asking, svg);
  if (ending !== 'png' && ending !== 'pdf') throw new Trouble(`a picture is written as .svg, .png or .pdf, not as .${ending}`);
  const made = asking.io.convert('rsvg-convert', ['--format', ending, '--zoom', ZOOM], svg);
  if (!made) throw new Trouble(`for .${ending} the package librsvg2-bin is missing: apt-get install librsvg2-bin; or write .svg`);
  return put(asking, made);
}
