/** A link that carries the texts: behind the `#` of the address, which no browser sends anywhere. */

import { TEXT_MAX } from '../notation.js';

/**
 * Compression, where the browser has it; without it links are longer.
 * @type {any}
 */
const streams = globalThis;

/** What stands behind the `#` if it carries anything. */
export const CARRIES = /^#?(example|text|packed)=(.*)$/;

/** @param {Uint8Array} bytes */
function toBase64(bytes) {
  let binary = '';
  for (const byte of bytes) binary += String.fromCharCode(byte);
  return btoa(binary).replace(/\+/g, '-').replace(/\//g, '_').replace(/=+$/, '');
}

/** @param {string} text */
export function fromBase64(text) {
  const binary = atob(text.replace(/-/g, '+').replace(/_/g, '/'));
  return Uint8Array.from(binary, (character) => character.charCodeAt(0));
}

/**
 * Runs bytes through a stream and stops where it gives too much.
 * @param {Uint8Array} bytes @param {any} stream
 */
async function through(bytes, stream) {
  const reader = new Blob([/** @type {any} */ (bytes)]).stream().pipeThrough(stream).getReader();
  /** @type {number[][]|Uint8Array[]} */
  const pieces = [];
  let length = 0;
  for (let next = await reader.read(); !next.done; next = await reader.read()) {
    length += next.value.length;
    if (length > TEXT_MAX) throw new Error('too long');
    pieces.push(next.value);
  }
  const whole = new Uint8Array(length);
  let at = 0;
  for (const piece of pieces) {
    whole.set(piece, at);
    at += piece.length;
  }
  return whole;
}

/**
 * @param {string} text
 * @returns {Promise<string>}  what stands behind the `#`
 */
export async function toHash(text) {
  const bytes = new TextEncoder().encode(text);
  if (!streams.CompressionStream) return `text=${toBase64(bytes)}`;
  return `packed=${toBase64(await through(bytes, new streams.CompressionStream('deflate-raw')))}`;
}

/**
 * @param {string} hash
 * @returns {Promise<{example: string}|{text: string}|null>}  null if it carries nothing, or nothing that can be read
 */
export async function fromHash(hash) {
  const [, key, value] = CARRIES.exec(hash) ?? [];
  if (key === 'example') return { example: value };
  if (!key) return null;
  try {
    const bytes = fromBase64(value);
    return { text: new TextDecoder().decode(key === 'text' ? bytes : await through(bytes, new streams.DecompressionStream('deflate-raw'))) };
  } catch {
    return null;
  }
}
