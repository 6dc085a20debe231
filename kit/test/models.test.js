/** Models and sources of a table: what UPPAAL would open is walked beside the library, C and Rust are compiled, and names do no harm. */

import assert from 'node:assert/strict';
import { execFileSync } from 'node:child_process';
import { mkdtempSync, rmSync, writeFileSync } from 'node:fs';
import { tmpdir } from 'node:os';
import { join } from 'node:path';
import { test } from 'node:test';
import { decodeRecords, decodeTable, encodeTable, recordBytes } from '../fields.js';
import { promela, scaled, sizeOf } from '../models/promela.js';
import { sourceC, sourceRust } from '../models/source.js';
import { uppaal } from '../models/uppaal.js';
import { readText } from '../notation.js';
import { Chance } from './chance.js';
import { ask } from './command-world.js';
import { library, sample } from './core.js';
import { Walk, rootOf } from './models/uppaal.js';
import { tableOf, withHostileNames } from './pictures-fixtures.js';
import { journalOf, smallTable, withTimers } from './small-tables.js';

const tablesFor = (chance, count) => [tableOf('classroom'), tableOf('gas-burner'),
  ...Array.from({ length: count }, (_, k) => (k % 3 === 2 ? withTimers(smallTable(chance), chance) : smallTable(chance)))];

/** Which record an edge makes; null for the change to the same input, and where a move would be too soon. */
function recordOf(walk, { name, edge, a }) {
  if (name === 'Environment') return edge.from === 'Begin' ? { kind: 'input', value: a } : { kind: 'change', value: a };
  if (edge.to.startsWith('Test')) return { kind: 'poll', value: walk.values.present };
  if (edge.from.startsWith('Test')) return { kind: 'test', value: Number(edge.to.startsWith('Free')) };
  return { kind: 'tick', value: null };
}

test("what UPPAAL would open, walked in whole units by chance: the library makes the same of its inputs and times", () => {
  const chance = new Chance(7);
  let records = 0;
  for (const table of tablesFor(chance, 12)) {
    for (let run = 0; run < 12; run++) {
      const walk = new Walk(uppaal(table, { hold: true, late: { states: 1, inputs: 1, target: 1, within: [5] } }));
      const written = [];
      let time = 0;
      for (let step = 0; step < 120; step++) {
        const ways = walk.enabled();
        const waits = walk.canWait() && walk.places.Environment !== 'Begin';
        if (ways.length === 0 && !waits) break;
        if (waits && (ways.length === 0 || chance.percent(40))) {
          walk.wait();
          time += 1;
          continue;
        }
        const begin = ways.find(({ edge }) => edge.from === 'Begin');
        const way = begin ? chance.pick(ways.filter(({ edge }) => edge.from === 'Begin')) : chance.pick(ways);
        assert.notEqual(way.edge.to, 'Soon');
        const record = recordOf(walk, way);
        walk.take(way);
        written.push({ ...record, time, value: record.kind === 'tick' ? walk.values.state : record.value });
      }
      const bytes = (form) => Uint8Array.from([...written.flatMap(({ kind, time: at, value }) => recordBytes(form, kind, at, value)), ...recordBytes(form, 'end', time, 0)]);
      const ran = library.run(encodeTable(table), bytes('stimulus'));
      assert.ok(ran.ok, `${ran.number} at ${ran.place}`);
      assert.deepEqual([...ran.bytes], [...bytes('journal')]);
      records += written.length;
    }
  }
  assert.ok(records > 5000);
});

test('journals of the library go through it, and no other verdict or state does', () => {
  const chance = new Chance(8);
  for (const table of tablesFor(chance, 8)) {
    for (let seed = 1; seed <= 6; seed++) {
      const walk = new Walk(uppaal(table));
      let now = 0;
      for (const { kind, time, value } of decodeRecords(journalOf(table, new Chance(seed), 12), 'journal')) {
        for (; now < time; now++) {
          assert.ok(walk.canWait());
          walk.wait();
        }
        if (kind === 'end' || (kind === 'change' && value === walk.values.present)) continue;
        const ways = walk.enabled().filter((way) => recordOf(walk, way).kind === kind && (kind !== 'input' && kind !== 'change' ? true : way.a === value));
        assert.equal(ways.length, 1, `${kind} at ${time}: ${ways.length}`);
        const said = recordOf(walk, ways[0]);
        walk.take(ways[0]);
        assert.equal(kind === 'tick' ? walk.values.state : said.value, value);
      }
    }
  }
});

test('a guard, a reset or an invariant that is changed in the file is noticed', () => {
  const table = tableOf('classroom');
  const goesWrong = (file) => {
    try {
      for (let seed = 1; seed <= 6; seed++) {
        const walk = new Walk(file);
        let now = 0;
        for (const { kind, time, value } of decodeRecords(journalOf(table, new Chance(seed), 30), 'journal')) {
          for (; now < time; now++) {
            if (!walk.canWait()) return true;
            walk.wait();
          }
          if (kind === 'end' || (kind === 'change' && value === walk.values.present)) continue;
          const way = walk.enabled().find((each) => recordOf(walk, each).kind === kind && (each.a === null || each.a === value));
          if (!way) return true;
          const said = recordOf(walk, way);
          walk.take(way);
          if ((kind === 'tick' ? walk.values.state : said.value) !== value) return true;
        }
      }
      return false;
    } catch {
      return true;
    }
  };
  const file = uppaal(table);
  assert.equal(goesWrong(file), false);
  for (const [old, by] of [['y &lt;= hold[1]', 'y &lt; hold[1]'], ['y = 0, z = 0', 'z = 0'], ['x &gt; 0 &amp;&amp; z &gt; 0', 'x &gt; 1 &amp;&amp; z &gt; 0'],
    ['polled = present', 'polled = 0'], ['z &lt;= E', 'z &lt; E']]) {
    assert.ok(file.includes(old), old);
    assert.equal(goesWrong(file.replaceAll(old, by)), true, old);
  }
});

test('C and Rust are compiled, and hold the bytes and the numbers of the names', () => {
  const folder = mkdtempSync(join(tmpdir(), 'krossvil-models-'));
  try {
    for (const table of [tableOf('classroom'), tableOf('gas-burner'), withHostileNames(tableOf('watchdog')), withHostileNames(tableOf('gas-burner'), 5)]) {
      const bytes = encodeTable(table);
      writeFileSync(join(folder, 'table.h'), sourceC(table, bytes));
      writeFileSync(join(folder, 'main.c'), '#include <stdio.h>\n#include "table.h"\n#include "table.h"\nint main(void) { return fwrite(table_bytes, 1, TABLE_LENGTH, stdout) != TABLE_LENGTH; }\n');
      execFileSync('gcc', ['-std=c99', '-Wall', '-Wextra', '-Werror', '-pedantic', '-o', 'c', 'main.c'], { cwd: folder });
      assert.ok(Buffer.compare(execFileSync('./c', { cwd: folder }), bytes) === 0);
      writeFileSync(join(folder, 'table.rs'), sourceRust(table, bytes));
      writeFileSync(join(folder, 'main.rs'), 'mod table;\nuse std::io::Write;\nfn main() { std::io::stdout().write_all(&table::TABLE).unwrap(); assert_eq!(table::CYCLE, '
        + `${table.cycle}); }\n`);
      execFileSync('rustc', ['--edition', '2021', '-D', 'warnings', '-o', 'rust', 'main.rs'], { cwd: folder });
      assert.ok(Buffer.compare(execFileSync('./rust', { cwd: folder }), bytes) === 0);
    }
    assert.match(sourceC(tableOf('classroom'), new Uint8Array(1)), /#define TABLE_STATE_BUSY 1 /);
    assert.match(sourceRust(tableOf('classroom'), new Uint8Array(1)), /pub const INPUT_NO_TRAIN: u32 = 0;/);
  } finally {
    rmSync(folder, { recursive: true, force: true });
  }
});

test('names from strangers do no harm in a model', () => {
  for (let shift = 0; shift < 12; shift++) {
    for (const name of ['classroom', 'gas-burner']) {
      const table = withHostileNames(tableOf(name), shift);
      const model = promela(table, { hold: true });
      const bare = model.replace(/\/\*[^]*?\*\//g, '');
      assert.ok(!/[^\x00-\x7f]|alert|evil/.test(bare));
      assert.equal(bare, promela(tableOf(name), { hold: true }).replace(/\/\*[^]*?\*\//g, ''));
      rootOf(uppaal(table, { hold: true }));
      assert.deepEqual(new Walk(uppaal(table)).values, new Walk(uppaal(tableOf(name))).values);
    }
  }
});

test('large numbers are said to be too much, and can be divided', async () => {
  const files = { 'classroom.kv': sample('classroom'), 'large.kv': sample('classroom').replace('hold 5', 'hold 3600000').replace(/cycle +3/, 'cycle 60000'),
    'bad.kv': sample('old-table'), 'timers.kv': sample('gas-burner') };
  const large = await ask(['export', 'promela', 'large.kv', '-o', 'large.pml'], files);
  assert.match(large.out, /up to [\d,]+ states, which is too much for a search/);
  const divided = await ask(['export', 'promela', 'large.kv', '--scale', '20000'], files);
  assert.match(divided.out, /#define E 3\n/);
  assert.equal(divided.err, '');
  assert.match((await ask(['export', 'promela', 'large.kv', '--scale', '7'], files)).err, /not every time .* can be divided/);
  const table = decodeTable(readText(files['large.kv']).parts[0].bytes);
  assert.equal(scaled(table, 7), null);
  assert.ok(sizeOf(scaled(table, 20000)) < sizeOf(table));
});

test('the command: languages, questions, and what is refused', async () => {
  const files = { 'classroom.kv': sample('classroom'), 'bad.kv': sample('old-table'), 'timers.kv': sample('gas-burner') };
  const got = async (...words) => { const { code, out, err } = await ask(['export', ...words], files); return [code, out, err]; };
  const [code, out] = await got('promela', 'classroom.kv', '--while', 'no_train', '--within', '12', '--hold');
  assert.deepEqual([code, /row >= 12 && !IN\(state, 1\)/.test(out), /too soon/.test(out)], [0, true, true]);
  assert.match((await got('uppaal', 'classroom.kv', '--while', 'no_train', '--within', '14'))[1], /A\[\] not \(stays\(\) &amp;&amp; w &gt; 14/);
  assert.match((await got('promla', 'classroom.kv'))[2], /did you mean 'promela'/);
  assert.match((await got('c', 'classroom.kv', '--hold'))[2], /is for models/);
  assert.match((await got('promela', 'classroom.kv', '--while', 'train'))[2], /--while needs --within/);
  assert.deepEqual([(await got('promela', 'bad.kv'))[0], (await got('promela', 'bad.kv'))[1]], [1, '']);
  const [refused, nothing, why] = await got('promela', 'timers.kv', '--within', '3');
  assert.deepEqual([refused, nothing, /This table has timers/.test(why)], [1, '', true]);
  const written = await ask(['export', 'rust', 'classroom.kv', '-o', 'table.rs', '--json'], files);
  assert.deepEqual([written.lines[0].answer, /pub static TABLE/.test(written.files['table.rs'])], ['exported', true]);
});
