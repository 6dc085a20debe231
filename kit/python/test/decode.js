/** Reads lines, each a form and bytes in hexadecimal, and writes for each the records that kit/fields.js finds in them. */

import { readFileSync } from 'node:fs';
import { decodeRecords } from '../../fields.js';

for (const line of readFileSync(0, 'utf8').split('\n').filter(Boolean)) {
  const [form, hex] = line.split(' ');
  const found = decodeRecords(Uint8Array.from(Buffer.from(hex, 'hex')), /** @type {any} */ (form));
  console.log(JSON.stringify(found.map(({ kind, time, value, place }) => [kind, time, value, place])));
}
