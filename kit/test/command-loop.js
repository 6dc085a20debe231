/** Checks the journals that are named after the library and a table, as plainly as JavaScript can: the measure for what the command adds. */

import { closeSync, openSync, readFileSync, readSync, writeSync } from 'node:fs';

const [wasm, table, ...journals] = process.argv.slice(2);
const { memory, __heap_base: base, krossvil_check_journal: check } = new WebAssembly.Instance(new WebAssembly.Module(readFileSync(wasm))).exports;
const MOST = 65537;
const tableAt = Math.ceil(base.value / 8) * 8;
const journalAt = tableAt + 70000;
const answerAt = journalAt + 70000;
const bytes = new Uint8Array(memory.buffer);
const view = new DataView(memory.buffer);
const room = bytes.subarray(journalAt, journalAt + MOST);
const tableBytes = readFileSync(table);
bytes.set(tableBytes, tableAt);

function read(path) {
  const file = openSync(path, 'r');
  let length = 0;
  for (let count = 1; count > 0 && length < MOST;) {
    count = readSync(file, room, length, MOST - length, null);
    length += count;
  }
  closeSync(file);
  return length;
}

const lines = journals.map((path) => {
  const length = read(path);
  if (check(tableAt, BigInt(tableBytes.length), journalAt, BigInt(length), answerAt, 28n) !== 0n) return `${path}: refused`;
  return `${path}: accepted ${[0, 1, 2, 3, 4, 5, 6].map((k) => view.getUint32(answerAt + 4 * k)).join(' ')}`;
});
writeSync(1, `${lines.join('\n')}\n`);
