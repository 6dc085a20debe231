/** Any bytes as the text of a table of either kind. */

import { decodeTable, fieldAt } from '../fields.js';
import { members } from '../sets.js';
import { writtenName } from './lexer.js';
import { bytesLines, memberText } from './records.js';

/** @typedef {import('../types.js').Names} Names */
/** @typedef {import('../types.js').Table} Table */

/**
 * Field by field as far as they go, as bytes.
 * @param {Uint8Array} bytes
 */
function rawLines(bytes) {
  const lines = [];
  for (let at = 0; at < bytes.length || lines.length === 0;) {
    const end = fieldAt(bytes, at)?.end ?? bytes.length;
    lines.push(...bytesLines(bytes.subarray(at, end)));
    at = Math.max(end, at + 1);
  }
  return lines;
}

/**
 * @param {Table} table
 */
function headLines(table) {
  const { names, counts } = table;
  const list = (/** @type {string[]} */ of) => of.map(writtenName).join(', ');
  const region = (/** @type {number} */ set) => members(set).map((q) => memberText(names.states, q)).join(', ') || '-';
  return [
    `cycle   ${table.cycle}`,
    `inputs  ${list(names.inputs.slice(0, counts.inputs))}`.trimEnd(),
    `outputs ${list(names.outputs.slice(0, counts.outputs))}`.trimEnd(),
    `start   ${memberText(names.states, table.start)}`,
    ...table.timers.map((timer, k) => `timer   ${writtenName(names.timers[k])} ${timer.length} over ${region(timer.region)}`),
  ];
}

/**
 * @param {Table} table @param {number} q
 */
function stateLines(table, q) {
  const { names } = table;
  const inputs = (/** @type {number} */ set) => members(set).map((i) => memberText(names.inputs, i)).join(', ');
  const lines = ['', `state ${writtenName(names.states[q])}`, `    output ${memberText(names.outputs, table.outputs[q])}`];
  const [hold, delayed] = [table.holds[q] ?? 0, table.delayed[q] ?? 0];
  if (hold > 0 || delayed > 0) lines.push(`    hold ${hold}${delayed > 0 ? ` delays ${inputs(delayed)}` : ''}`);
  for (const [k, timer] of table.timers.entries()) {
    if (timer.delays[q] > 0) lines.push(`    ${writtenName(names.timers[k])} delays ${inputs(timer.delays[q])}`);
  }
  const targets = [...new Set(table.next[q])];
  const led = targets.map((to) => table.next[q].flatMap((next, i) => (next === to ? [memberText(names.inputs, i)] : [])).join(', '));
  const width = Math.max(0, ...led.map((names) => names.length));
  return [...lines, ...targets.map((to, k) => `    ${led[k].padEnd(Math.min(width, 40))} -> ${memberText(names.states, to)}`)];
}

/**
 * Any bytes as the text of a table.
 * @param {Uint8Array} bytes @param {Names|null} [names]
 */
export function writeTable(bytes, names) {
  const table = decodeTable(bytes, names);
  if (!table) return ['krossvil table', ...rawLines(bytes), ''].join('\n');
  const states = table.outputs.flatMap((_, q) => stateLines(table, q));
  const rest = table.rest.length > 0 ? ['', ...bytesLines(table.rest)] : [];
  return ['krossvil table', ...headLines(table), ...states, ...rest, ''].join('\n');
}
