import assert from 'node:assert/strict';
import { spawnSync } from 'node:child_process';
import { mkdtempSync, rmSync, writeFileSync } from 'node:fs';
import { tmpdir } from 'node:os';
import { join } from 'node:path';
import { test } from 'node:test';
import { automaton } from '../automaton.js';
import { diagram } from '../diagram.js';
import { dwellPlot, reportOf } from '../dwell-plot.js';
import { escapeXml, quoteDot, vcdWord, visible } from '../escape.js';
import { encodeTable } from '../fields.js';
import { matrix } from '../matrix.js';
import { readText } from '../notation.js';
import { DARK, LIGHT, inTurn } from '../theme.js';
import { fit, widthOf, wrap } from '../text-width.js';
import { gtkw, vcd } from '../vcd.js';
import { Chance } from './chance.js';
import { library, sample } from './core.js';
import { drawRun, perhapsDamaged } from './draw.js';
import { HOSTILE, longJournal, slow, tableOf, traceOf, traceOfSample, withHostileNames } from './pictures-fixtures.js';
import { all, ofClass, readXml } from './well-formed.js';

test('unseen characters are made visible, and nothing else is touched', () => {
  assert.equal(visible('a\u202eb\u0000c\ud800d'), 'a\ufffdb\ufffdc\ufffdd');
  assert.equal(visible('Zürich, 東京 🚂 <&>'), 'Zürich, 東京 🚂 <&>');
  assert.equal(escapeXml('<a b="c">&\''), '&lt;a b=&quot;c&quot;&gt;&amp;&#39;');
  assert.equal(quoteDot('a"b\\N\n'), '"a\\"b\\\\N\ufffd"');
  assert.equal(vcdWord('no train'), 'no\\x20train');
  assert.equal(vcdWord(''), '\\x20');
  assert.match(HOSTILE.map(vcdWord).join(''), /^[\x21-\x7e]*$/);
});

test('words are cut and wrapped to their room', () => {
  for (const words of [...HOSTILE, 'The test at 8 says free, but state busy was entered at 3.']) {
    for (const room of [0, 20, 90, 300]) {
      assert.ok(widthOf(fit(words, room, 13), 13) <= room);
      for (const line of wrap(words, Math.max(room, 20), 13)) assert.ok(widthOf(line, 13) <= Math.max(room, 20));
    }
  }
  assert.equal(fit('train', 100, 13), 'train');
  assert.equal(wrap('one two three', 1000, 13).join('|'), 'one two three');
});

/** How bright a colour is, and how much two differ, as the guidelines for web content have it. */
function brightness(colour) {
  const linear = (part) => (part <= 0.03928 ? part / 12.92 : ((part + 0.055) / 1.055) ** 2.4);
  const parts = [1, 3, 5].map((k) => linear(parseInt(colour.slice(k, k + 2), 16) / 255));
  return 0.2126 * parts[0] + 0.7152 * parts[1] + 0.0722 * parts[2];
}
function contrast(one, other) {
  const [dark, light] = [brightness(one), brightness(other)].sort((a, b) => a - b);
  return (light + 0.05) / (dark + 0.05);
}

/** A colour over another, so much of it. */
function mixed(over, paper, much) {
  const part = (colour, k) => parseInt(colour.slice(k, k + 2), 16);
  return `#${[1, 3, 5].map((k) => Math.round(much * part(over, k) + (1 - much) * part(paper, k)).toString(16).padStart(2, '0')).join('')}`;
}

test('words have a contrast of 4.5 at least, marks of 3', () => {
  for (const theme of [LIGHT, DARK]) {
    const many = (colours) => Array.from({ length: 32 }, (_, k) => inTurn(colours, k));
    const lanes = [...many(theme.inputs), ...many(theme.states), ...many(theme.outputs)];
    const words = [
      [theme.ink, [theme.paper, theme.redPaper, theme.heldFill, theme.litFill, theme.phases[2], mixed(theme.poll, theme.paper, 0.45), ...lanes]],
      [theme.quiet, [theme.paper, theme.redPaper, ...theme.phases]],
      [theme.poll, [theme.paper, ...theme.phases]],
      [theme.held, [theme.paper, theme.phases[0], theme.phases[1], theme.phases[2]]],
      [theme.free, [theme.paper, theme.phases[0], theme.phases[1], theme.phases[3]]],
      [theme.red, [theme.paper, theme.redPaper]],
      [theme.lit, [theme.paper]],
      ...theme.timers.map((timer) => [timer, [theme.paper]]),
    ];
    const pairs = words.flatMap(([fill, papers]) => papers.map((paper) => [fill, paper]));
    for (const [fill, paper] of pairs) assert.ok(contrast(fill, paper) >= 4.5, `${fill} on ${paper}: ${contrast(fill, paper)}`);
    const marks = [
      [theme.border, theme.paper], [theme.unread, theme.paper], [theme.lit, theme.phases[0]],
      [theme.held, theme.freeFill], [theme.free, theme.freeFill], [theme.poll, theme.paper],
      ...[theme.held, theme.quiet, ...theme.timers].map((mark) => [mark, theme.phases[2]]),
    ];
    for (const [mark, paper] of marks) assert.ok(contrast(mark, paper) >= 3, `${mark} on ${paper}: ${contrast(mark, paper)}`);
  }
});

test('each of 32 numbers has a colour of its own', () => {
  for (const colours of [LIGHT.inputs, LIGHT.states, DARK.inputs, DARK.states]) {
    assert.equal(new Set(Array.from({ length: 32 }, (_, k) => inTurn(colours, k))).size, 32);
  }
});

/** A dump by the rules: declarations, then times that rise, with changes of what was declared. Gives the values at each time. */
function readVcd(text) {
  const lines = text.split('\n');
  assert.equal(lines.pop(), '');
  const end = lines.indexOf('$enddefinitions $end');
  const signals = new Map();
  for (const line of lines.slice(0, end)) {
    const found = /^\$var (string|wire|event) (\d+) ([!-~]) ([a-z_]+)(?: \[\d+:0\])? \$end$/.exec(line);
    if (found) signals.set(found[3], { type: found[1], width: Number(found[2]), name: found[4] });
    else assert.match(line, /^\$(version krossvil|timescale 10{0,2} ?[munpf]?s|scope module [a-z]+|upscope) \$end$/);
  }
  const values = new Map();
  const times = [];
  for (const line of lines.slice(end + 1)) {
    if (line.startsWith('#')) {
      times.push({ time: Number(line.slice(1)), values: new Map(values) });
      continue;
    }
    const found = /^(?:s([!-~]+) |b([01]+|x) |([01x]))([!-~])$/.exec(line);
    assert.ok(found, line);
    const signal = signals.get(found[4]);
    assert.equal(signal.type === 'string', found[1] !== undefined, line);
    assert.ok((found[2] ?? '').length <= signal.width, line);
    values.set(signal.name, found[1] ?? found[2] ?? found[3]);
    times[times.length - 1].values = new Map(values);
  }
  assert.ok(times.every(({ time }, k) => k === 0 || time > times[k - 1].time));
  return times;
}

test("the classroom's dump has its states, verdicts and cycles", () => {
  const times = readVcd(vcd(traceOfSample('classroom')));
  const at = (time, ...names) => names.map((name) => times.find((moment) => moment.time === time).values.get(name));
  assert.deepEqual(at(0, 'input', 'state', 'output', 'phase', 'cycle', 'refused'), ['no_train', 'idle', 'N', 'before_poll', '0', '0']);
  assert.deepEqual(at(3, 'state', 'output', 'cycle', 'input'), ['busy', 'T', '1', 'no_train']);
  assert.deepEqual(at(5, 'verdict', 'left', 'polled', 'phase'), ['held', '100', 'no_train', 'held']);
  assert.deepEqual(at(11, 'state'), ['idle']);
  assert.equal(times[times.length - 1].values.get('refused') ?? '0', '0');
  const refused = readVcd(vcd(traceOfSample('changed-verdict')));
  assert.equal(refused.find(({ time }) => time === 8).values.get('refused'), '1');
});

test('verdict and ticks left stay until the next poll, where poll, test and tick share an instant too', () => {
  const source = `${sample('classroom').split('krossvil stimulus')[0]}krossvil stimulus\ninput train\n${
    ['2 poll', '2 test', '2 tick', '3 change no_train', '4 poll', '4 test', '4 tick', '6 poll', '7 test', '7 tick', '8 poll', '8 test', '8 tick',
      '9 end'].join('\n')}\n`;
  const { parts: [table, stimulus] } = readText(source);
  const times = readVcd(vcd(traceOf(tableOf('classroom'), library.run(table.bytes, stimulus.bytes).bytes)));
  const seen = times.map(({ time, values }) => [time, values.get('verdict'), parseInt(values.get('left'), 2), values.get('polled')]);
  assert.deepEqual(seen, [
    [0, '\\x20', 0, '\\x20'], [2, 'free', 0, 'train'], [3, 'free', 0, 'train'], [4, 'held', 4, 'no_train'],
    [6, '\\x20', 0, 'no_train'], [7, 'held', 1, 'no_train'], [8, 'free', 0, 'no_train'], [9, 'free', 0, 'no_train'],
    [10, 'free', 0, 'no_train'],
  ]);
});

test('what GTKWave is to show is in the dump, under any name of the file', () => {
  const trace = traceOfSample('quarry');
  const [scopes, signals] = [[], []];
  for (const [, word, last] of vcd(trace).matchAll(/^\$(scope module|upscope|var \S+ \d+ \S+) ?(.*?) ?\$end$/gm)) {
    if (word === 'upscope') scopes.pop();
    else if (word.startsWith('scope')) scopes.push(last);
    else signals.push([...scopes, last.replace(' ', '')].join('.'));
  }
  for (const name of HOSTILE) {
    const [dump, save, ...lines] = gtkw(trace, name).split('\n');
    assert.match(dump, /^\[dumpfile\] "\/folder\/[^"]*\.vcd"$/);
    assert.match(save, /^\[savefile\] "\/folder\/[^"]*\.gtkw"$/);
    const shown = lines.filter((line) => /^[a-z]+\./.test(line));
    assert.ok(shown.length === 13 && shown.every((signal) => signals.includes(signal)), shown.join(' '));
    assert.match(lines.filter((line) => !shown.includes(line)).join('\n'), /^(\[[a-z_]+\] [0-9 ]+\n)+\*-[0-9.]+ 0\n(@[0-9]+\n)+$/);
  }
});

test('500 runs, sound and damaged, and hostile names: every dump is well-formed, and its state is that of the records', () => {
  for (let round = 0; round < 500; round++) {
    const chance = new Chance(round);
    const drawn = drawRun(chance, library);
    const table = chance.percent(50) ? withHostileNames(drawn.table, chance.below(12)) : drawn.table;
    const trace = traceOf(table, perhapsDamaged(chance, drawn.journal));
    const times = readVcd(vcd(trace, { unit: chance.pick(['1 s', '10 us', 'an hour', '$end']) }));
    const last = trace.steps.slice(0, trace.stop ?? undefined).pop();
    const shown = times.find(({ time }) => time === last?.record.time)?.values.get('state_number');
    if (last) assert.equal(parseInt(shown, 2), last.after.state);
    assert.equal(times.some(({ values }) => values.get('refused') === '1'), trace.refused !== null);
  }
});

test('the plot has a bar for each state and input that has slots, as long as they are many', () => {
  const gas = tableOf('gas-burner');
  const { states, inputs } = gas.counts;
  const numbers = new BigUint64Array(1 + 2 * states + states * inputs);
  const journals = [1, 2, 3].map((seed) => longJournal(gas, { cycles: 300, changes: 50, seed }));
  for (const journal of journals) assert.ok(library.reportAdd(encodeTable(gas), journal, numbers).ok);
  const report = reportOf(numbers, gas.counts);
  assert.equal(report.journals, 3n);
  const bars = (group) => group.children.filter(({ name }) => name === 'rect').map(({ attributes }) => Number(attributes.width));
  const sum = (numbersOfBars) => numbersOfBars.reduce((a, b) => a + b, 0);
  for (const width of [390, 900]) {
    const rows = ofClass(readXml(dwellPlot(report, gas.names, { width })), 'dwell');
    for (const [q, row] of rows.entries()) {
      assert.equal(bars(row).length, report.pairs[q].filter((slots) => slots > 0n).length);
      assert.ok(Math.abs(sum(bars(row)) / sum(bars(rows[0])) - Number(report.dwell[q]) / Number(report.dwell[0])) < 0.01);
    }
    for (const [shift, title] of HOSTILE.entries()) readXml(dwellPlot(report, withHostileNames(gas, shift).names, { width, title }));
  }
});

/** A report in which each state has its own slots under so many inputs. */
function reportFor(states, inputs) {
  const pairs = Array.from({ length: states }, (_, q) => Array.from({ length: inputs }, (__, i) => BigInt((q * 37 + i * 101) % 13 * 1234)));
  const dwell = pairs.map((row) => row.reduce((a, b) => a + b, 0n));
  return { journals: 3n, dwell, pairs, entries: dwell.map((_, q) => BigInt(q)) };
}
const namesFor = (states, inputs, word) => ({
  states: Array.from({ length: states }, (_, k) => `${word}_station_${k}`), inputs: Array.from({ length: inputs }, (_, k) => `${word}_sensor_${k}`),
  outputs: [], timers: [],
});
const texts = (root) => all(root).filter(({ name }) => name === 'text').map(({ text }) => text);

test('with up to 32 inputs the plot names each in full and has every number; no two inputs are told apart by colour alone', () => {
  for (const [states, inputs] of [[32, 32], [2, 9], [4, 20]]) {
    const [report, names] = [reportFor(states, inputs), namesFor(states, inputs, 'conveyor')];
    for (const theme of ['light', 'dark']) {
      const root = readXml(dwellPlot(report, names, { theme }));
      assert.ok(Number(root.attributes.width) <= 1920 && Number(root.attributes.height) <= 1080);
      const said = texts(root);
      assert.deepEqual([...names.inputs, ...names.states].filter((name) => !said.includes(name)), []);
      assert.deepEqual(said.filter((words) => words.includes('…')), []);
      const cells = ofClass(root, 'slots');
      const number = (slots) => Number(slots).toLocaleString('en');
      const shown = cells.map(({ attributes, children }) => [attributes['data-state'], attributes['data-input'], children.at(-1).text].join(' '));
      const wanted = report.pairs.flatMap((row, q) => row.flatMap((slots, i) => (slots > 0n ? [`${q} ${i} ${number(slots)}`] : [])));
      assert.deepEqual(shown, wanted);
      const tints = new Map(cells.map(({ children }) => [children.at(-1).text, children.find(({ name }) => name === 'rect').attributes]));
      assert.equal(new Set([...tints.values()].map(({ fill }) => fill)).size, 1);
      const byNumber = [...tints].sort(([a], [b]) => parseInt(a.replaceAll(',', ''), 10) - parseInt(b.replaceAll(',', ''), 10));
      assert.ok(byNumber.every(([, tint], k) => k === 0 || Number(tint['fill-opacity']) > Number(byNumber[k - 1][1]['fill-opacity'])));
      for (const [q, row] of ofClass(root, 'dwell').entries()) {
        assert.deepEqual(texts(row).slice(0, 3), [names.states[q], number(report.dwell[q]), String(q)]);
      }
    }
  }
  assert.deepEqual(texts(readXml(dwellPlot(reportFor(8, 8), namesFor(8, 8, 'a_long_name')))).filter((words) => words.includes('…')), []);
  const few = { ...reportFor(1, 32), pairs: [Array.from({ length: 32 }, (_, i) => (i % 8 === 0 ? 5n : 0n))] };
  const fills = ofClass(readXml(dwellPlot(few, namesFor(1, 32, 'a'))), 'legend')[0].children.filter(({ name }) => name === 'rect');
  assert.deepEqual(fills.map(({ attributes }) => attributes.fill), LIGHT.inputs.slice(0, 4));
});

test("the classroom's run has the numbers of the rules", () => {
  const { table, tableBytes, journal } = traceOfSample('classroom');
  const numbers = new BigUint64Array(9);
  assert.ok(library.reportAdd(tableBytes, journal, numbers).ok);
  const report = reportOf(numbers, table.counts);
  assert.deepEqual(report, { journals: 1n, dwell: [4n, 8n], pairs: [[2n, 2n], [8n, 0n]], entries: [2n, 1n] });
  const said = all(readXml(dwellPlot(report, table.names))).map(({ text }) => text);
  const wanted = ['Where the time went: 1 journal', 'idle', '4 slots, 2 entries', 'busy', '8 slots, 1 entry'];
  assert.deepEqual(wanted.filter((words) => !said.includes(words)), []);
});

test('a report of nothing, and one of the largest numbers, have plots', () => {
  const { counts, names } = tableOf('classroom');
  for (const number of [0n, 2n ** 64n - 1n]) readXml(dwellPlot(reportOf(new BigUint64Array(9).fill(number), counts), names));
});

test('xmllint finds every kind of picture well-formed, where it is installed', (context) => {
  if (spawnSync('xmllint', ['--version']).status !== 0) return context.skip('xmllint is not installed');
  const folder = mkdtempSync(join(tmpdir(), 'krossvil-'));
  const gas = tableOf('gas-burner');
  const hostile = traceOf(withHostileNames(gas, 1), traceOfSample('gas-burner').journal);
  const long = traceOf(slow, longJournal(slow));
  const pictures = [
    diagram(traceOfSample('quarry'), { title: 'Quarry', sentences: ['One.'] }), diagram(hostile, { title: HOSTILE.join(' ') }), diagram(long),
    diagram(long, { from: 0, to: long.answer.end, theme: 'dark' }), automaton(gas), automaton(withHostileNames(gas, 3)),
    dwellPlot(reportOf(new BigUint64Array(21).fill(3n), gas.counts), withHostileNames(gas, 5).names), matrix(withHostileNames(gas, 2)),
    dwellPlot(reportFor(12, 12), withHostileNames({ names: namesFor(12, 12, '') }).names),
  ];
  const files = pictures.map((picture, k) => join(folder, `${k}.svg`));
  pictures.forEach((picture, k) => writeFileSync(files[k], picture));
  const said = spawnSync('xmllint', ['--noout', '--nonet', ...files], { encoding: 'utf8' });
  rmSync(folder, { recursive: true });
  assert.equal(said.status, 0, said.stderr);
  assert.ok(pictures.every((picture) => all(readXml(picture)).length > 5));
});
