/** The picture of a journal beside its own run: both as they are, the first difference marked, whatever the names and the length. */

import assert from 'node:assert/strict';
import { test } from 'node:test';
import { bothRuns } from '../both-runs.js';
import { decodeRecords, encodeTable } from '../fields.js';
import { rerun } from '../rerun.js';
import { changed, longJournal, slow, tableOf, traceOf, traceOfSample, withHostileNames } from './pictures-fixtures.js';
import { library } from './core.js';
import { readXml } from './well-formed.js';

const ownOf = (trace) => rerun(library, { table: trace.tableBytes, journal: trace.journal, form: trace.form });
const count = (svg, pattern) => [...svg.matchAll(pattern)].length;

/** The words of one row of the picture. */
const wordsOf = (svg, row) => [...new RegExp(`<g class="${row}">(.*?)</g>`, 's').exec(svg)[1].matchAll(/<text[^>]*>([^<]*)</g)].map(([, word]) => word);

test('the quarry: the test at 10 is where they differ first', () => {
  const trace = traceOfSample('quarry');
  const svg = bothRuns(trace, ownOf(trace));
  assert.match(svg, /class="first-difference" data-record="17"/);
  assert.match(svg, /they differ first at 10/);
  assert.deepEqual(wordsOf(svg, 'test written'), ['free', 'held', 'free', 'free', 'free']);
  assert.deepEqual(wordsOf(svg, 'test run'), ['free', 'held', 'free', 'free', 'held']);
  assert.deepEqual([wordsOf(svg, 'state written').at(-1), wordsOf(svg, 'state run').at(-1)], ['idle', 'busy']);
  assert.equal(count(svg, /class="differs"/g), 2);
});

test('a journal that is its own run has no mark', () => {
  const trace = traceOfSample('classroom');
  const svg = bothRuns(trace, ownOf(trace));
  assert.ok(!svg.includes('first-difference') && svg.includes('they are the same'));
  assert.deepEqual(wordsOf(svg, 'state written'), wordsOf(svg, 'state run'));
});

test('of a long journal the stretch around the first difference is drawn, and names do no harm', () => {
  const table = withHostileNames(slow);
  const trace = traceOf(table, longJournal(slow, { cycles: 600, changes: 40 }));
  const tests = decodeRecords(trace.journal, 'journal').flatMap(({ kind, value }, number) => (kind === 'test' ? [{ number, value }] : []));
  const { number, value } = tests[400];
  const wrong = traceOf(table, changed(trace, number, { value: 1 - value }));
  for (const width of [390, 900, 1600]) {
    for (const theme of ['light', 'dark']) {
      const svg = bothRuns(wrong, ownOf(wrong), { width, theme });
      readXml(svg);
      assert.match(svg, new RegExp(`data-record="${number}"`));
      assert.ok(count(svg, /<path/g) < width / 4 && svg.length < 60000);
    }
  }
});

test('a journal with timers, and one that is short', () => {
  const timers = traceOfSample('gas-burner');
  assert.equal(timers.table.kind, 'timers');
  readXml(bothRuns(timers, ownOf(timers)));
  const short = traceOfSample('short-journal');
  assert.deepEqual(encodeTable(tableOf('classroom')), short.tableBytes);
  assert.match(bothRuns(short, ownOf(short)), /they are the same/);
});
