/** Files of other kinds are named, and none of ours is taken for one. */

import assert from 'node:assert/strict';
import { readFileSync } from 'node:fs';
import { test } from 'node:test';
import { gzipSync } from 'node:zlib';
import { EXAMPLES } from '../examples.js';
import { looksLike } from '../looks-like.js';
import { readText } from '../notation.js';
import { Chance } from './chance.js';
import { library, sample } from './core.js';
import { drawRun } from './draw.js';

const bytes = (...given) => Uint8Array.from(given.flat());
const wide = Buffer.from('krossvil table\n', 'utf16le');

test('files of other kinds are named', () => {
  const own = new URL('../../target/kit/krossvil.wasm', import.meta.url);
  const files = [
    ['a PNG picture', bytes(0x89, ...Buffer.from('PNG\r\n\x1a\n'), 0, 0, 0, 13)], ['a JPEG picture', bytes(0xff, 0xd8, 0xff, 0xe0, 0, 16)],
    ['a GIF picture', Buffer.from('GIF89a\x01\x00')], ['a PDF document', Buffer.from('%PDF-1.7\n')],
    ['an office document of an old kind', bytes(0xd0, 0xcf, 0x11, 0xe0, 0xa1)], ['a ZIP archive', Buffer.from('PK\x03\x04\x14\x00')],
    ['a gzip archive', gzipSync(sample('classroom'))], ['an xz archive', bytes(0xfd, ...Buffer.from('7zXZ'), 0)],
    ['a program (ELF)', Buffer.from('\x7fELF\x02\x01')], ['a program (WebAssembly)', readFileSync(own)],
    ['a text in UTF-16', wide], ['a text in UTF-16', Buffer.from(wide).swap16()], ['a text in UTF-16', bytes(0xff, 0xfe, ...wide)],
    ['a text in UTF-16', bytes(0xfe, 0xff, ...Buffer.from(wide).swap16())], ['a text in UTF-32', bytes(0xff, 0xfe, 0, 0, 0x6b, 0, 0, 0)],
    ['a text that does not begin with the word krossvil', Buffer.from('1 poll train\r\n')],
    ['a text that does not begin with the word krossvil', Buffer.from('# Gr\u00fc\u00dfe', 'latin1')],
    [null, bytes()], [null, bytes(0xfe, 0, 7)], [null, bytes(0)],
  ];
  for (const [like, file] of files) assert.equal(looksLike(file), like, `${like}: ${Buffer.from(file).subarray(0, 8).toString('hex')}`);
});

test('no table, stimulus, journal or text of ours is taken for another kind', () => {
  const chance = new Chance(17);
  for (let k = 0; k < 300; k++) {
    const run = drawRun(chance, library, 6);
    for (const file of [run.bytes, run.journal, run.stamped, run.short, run.stimulus]) assert.equal(looksLike(file), null);
  }
  for (const { name } of EXAMPLES) {
    assert.equal(looksLike(Buffer.from(sample(name))), null, name);
    for (const part of readText(sample(name)).parts) assert.equal(looksLike(part.bytes), null, name);
  }
});
