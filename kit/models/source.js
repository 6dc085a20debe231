/** A table's bytes as a source file of C or Rust, with its names as constants, to be compiled into a controller's program. */

import { inComment } from '../escape.js';

/** @typedef {import('../types.js').Table} Table */
/** @typedef {{kind: string, name: string, number: number, says: string}} Constant */

const LINE = 12;

/**
 * A name as part of an identifier: letters and digits of ASCII, all else as one low line.
 * @param {string} name
 */
function identifier(name) {
  return name.normalize('NFKD').replace(/[\u0300-\u036f]/g, '').replace(/[^A-Za-z0-9]+/g, '_').replace(/^_+|_+$/g, '').toUpperCase();
}

/**
 * A constant for each member. Where two would have one identifier, or one would be empty, both go by their numbers.
 * @param {string} kind @param {string[]} names
 * @returns {Constant[]}
 */
function constantsOf(kind, names) {
  const words = names.map(identifier);
  return names.map((says, number) => {
    const alone = words[number] !== '' && words.filter((word) => word === words[number]).length === 1;
    return { kind, name: alone ? words[number] : String(number), number, says };
  });
}

/**
 * @param {Table} table
 * @returns {Constant[]}
 */
function constants({ names, kind }) {
  return [...constantsOf('STATE', names.states), ...constantsOf('INPUT', names.inputs), ...constantsOf('OUTPUT', names.outputs),
    ...(kind === 'timers' ? constantsOf('TIMER', names.timers) : [])];
}

/** @param {Uint8Array} bytes */
function rows(bytes) {
  const words = [...bytes].map((byte) => `0x${byte.toString(16).padStart(2, '0')}`);
  return Array.from({ length: Math.ceil(words.length / LINE) }, (_, k) => `    ${words.slice(LINE * k, LINE * (k + 1)).join(', ')},`);
}

/**
 * @param {Table} table @param {Uint8Array} bytes
 * @returns {string}
 */
export function sourceC(table, bytes) {
  const defines = constants(table).map(({ kind, name, number, says }) => `#define TABLE_${kind}_${name} ${number} /* ${inComment(says)} */`);
  return ['/* A table of Krossvil, for krossvil.h: krossvil export c. */', '#ifndef KROSSVIL_TABLE_H', '#define KROSSVIL_TABLE_H', '',
    '#include <stdint.h>', '', ...defines, `#define TABLE_CYCLE ${table.cycle} /* E, the longest that a cycle may last */`, '',
    `#define TABLE_LENGTH ${bytes.length}`, `static const uint8_t table_bytes[TABLE_LENGTH] = {`, ...rows(bytes), '};', '', '#endif', ''].join('\n');
}

/**
 * @param {Table} table @param {Uint8Array} bytes
 * @returns {string}
 */
export function sourceRust(table, bytes) {
  const consts = constants(table).map(({ kind, name, number, says }) => `pub const ${kind}_${name}: u32 = ${number}; // ${inComment(says)}`);
  return ['// A table of Krossvil: krossvil export rust.', '#![allow(dead_code)]', '', ...consts,
    `pub const CYCLE: u32 = ${table.cycle}; // E, the longest that a cycle may last`, '',
    `pub static TABLE: [u8; ${bytes.length}] = [`, ...rows(bytes), '];', ''].join('\n');
}
