/** The page's modules without a browser: files of any kind give the library's answers, at a line that is there. */

import assert from 'node:assert/strict';
import { test } from 'node:test';
import { refusalLine } from '../answers.js';
import { EXAMPLES } from '../examples.js';
import { FORMS, formOf, recordBytes } from '../fields.js';
import { BYTES_READ } from '../library.js';
import { FORM_WORDS, TEXT_MAX, readText, tableText } from '../notation.js';
import { sayAnswer, subjectOf } from '../page/answer.js';
import { joinTexts, noTexts, splitText, takeFiles } from '../page/documents.js';
import { LINES_MOST, tooLong } from '../page/limits.js';
import { fromHash, toHash } from '../page/link.js';
import { machineAt, machineCells, sayStep } from '../page/machine.js';
import { answerReaction } from '../page/reaction.js';
import { whyNot } from '../page/receiving.js';
import { RUN, TOOLS } from '../page/tools.js';
import { PANES, ask, readPanes } from '../page/workspace.js';
import { askJournal } from '../trace.js';
import { Chance } from './chance.js';
import { library, sameBytes, sample } from './core.js';
import { drawRun, perhapsDamaged } from './draw.js';

test('the parts of every sample stay the same bytes when they are split and joined', () => {
  for (const { name } of EXAMPLES) {
    const whole = readText(sample(name));
    const texts = { ...noTexts(), ...splitText(sample(name)) };
    for (const text of [joinTexts(texts), PANES.map((pane) => texts[pane]).join('\n')]) {
      const again = readText(text);
      assert.deepEqual(again.mistakes, [], name);
      assert.deepEqual(again.parts.map(({ kind, bytes }) => [kind, [...bytes]]), whole.parts.map(({ kind, bytes }) => [kind, [...bytes]]), name);
    }
    for (const pane of PANES) if (texts[pane]) assert.match(texts[pane], /^krossvil /, `${name}: ${pane}`);
  }
});

/** What the library says of records of a form. */
function judge(table, bytes, form) {
  if (form === 'stimulus') return library.run(table, bytes);
  return form === 'short' ? library.checkShort(table, bytes) : library.checkJournal(table, bytes);
}

/** Everything that the page shows of a subject. */
function lookAt(answers, pane) {
  const subject = subjectOf(answers, pane);
  const said = sayAnswer(answers, subject);
  if (!subject) return { said };
  for (const step of subject.trace.steps) {
    sayStep(subject.trace, step);
    const machine = machineAt(step);
    if (machine) assert.ok(machineCells(subject.trace, machine).length >= 8);
  }
  return { said, subject };
}

test('any files give the answers of the library, at a line of their text', () => {
  const chance = new Chance(26);
  let refused = 0;
  for (let k = 0; k < 1500; k++) {
    const run = drawRun(chance, library, 6);
    const form = chance.pick(['journal', 'short', 'stimulus']);
    const table = chance.percent(25) ? perhapsDamaged(chance, run.bytes) : run.bytes;
    const records = perhapsDamaged(chance, run[form]);
    const { texts } = takeFiles(noTexts(), [records, table]);
    const answers = ask(library, texts);
    assert.deepEqual(answers.reading.mistakes, [], `case ${k}`);
    const given = answers.reading.table && (answers.reading.journal ?? answers.reading.stimulus);
    if (!given || !sameBytes(given.bytes, records) || !sameBytes(answers.reading.table.bytes, table)) continue;
    if (given.kind === 'stamped') continue;
    const { said } = lookAt(answers, given.kind === 'stimulus' ? 'stimulus' : 'journal');
    const own = judge(table, records, given.kind);
    assert.equal(own.ok, said.look === 'accepted', `case ${k}`);
    if (own.ok) continue;
    refused++;
    assert.equal(said.line, refusalLine(own), `case ${k}`);
    const lines = said.spot ? texts[said.spot.pane].split('\n') : [];
    assert.ok(!said.spot || said.spot.line <= lines.length, `case ${k}`);
    assert.ok(said.spot || records.length === 0 || table.length === 0, `case ${k}: no line`);
  }
  assert.ok(refused > 500, `${refused}`);
});

test('every tool works on what it offers itself for', () => {
  const chance = new Chance(4);
  const used = new Map();
  for (let k = 0; k < 600; k++) {
    const run = drawRun(chance, library, 5);
    const form = chance.pick(['journal', 'short', 'stamped', 'stimulus']);
    const { texts } = takeFiles(noTexts(), [perhapsDamaged(chance, run[form]), run.bytes]);
    const answers = ask(library, texts);
    for (const tool of [RUN, ...TOOLS].filter(({ fits }) => fits(answers))) {
      const { made, sentences } = tool.use(library, answers);
      used.set(tool.id, (used.get(tool.id) ?? 0) + 1);
      assert.ok(sentences.length > 0 || made, tool.id);
      if (!made) continue;
      const again = readPanes({ ...texts, [made.pane]: made.text });
      assert.ok(sameBytes(again[made.pane]?.bytes ?? new Uint8Array(), made.bytes), `case ${k}, ${tool.id}`);
    }
  }
  const { texts } = takeFiles(noTexts(), [Buffer.from(sample('old-table'))]);
  const answers = ask(library, texts);
  const convert = TOOLS.find(({ id }) => id === 'convert');
  assert.ok(convert.fits(answers) && ask(library, { ...texts, table: convert.use(library, answers).made.text }).decoded);
  for (const { id } of [RUN, ...TOOLS]) assert.ok(id === 'convert' || used.get(id) > 10, `${id} ${used.get(id)}`);
});

test('typing leaves every text readable or says what is wrong, and never throws', () => {
  const chance = new Chance(9);
  const pieces = ['krossvil', ' ', '\n', 'journal', '"', '#', '->', '99999999999', 'bytes 00', '\u202e', '<b>', 'hold', ',', '\t',
    'krossvil table\n', '\u0000', '+1', '\ud800'];
  for (let k = 0; k < 1500; k++) {
    const texts = { ...noTexts(), ...splitText(sample(chance.pick(EXAMPLES).name)) };
    for (let edits = chance.between(1, 3); edits > 0; edits--) {
      const pane = chance.pick(PANES);
      const at = chance.below(texts[pane].length + 1);
      texts[pane] = texts[pane].slice(0, at) + (chance.percent(50) ? chance.pick(pieces) : '') + texts[pane].slice(at + chance.below(6));
    }
    const answers = ask(library, texts);
    const { said } = lookAt(answers, chance.pick(PANES));
    for (const { spot } of said.mistakes) {
      assert.ok(spot.line >= 1 && spot.line <= texts[spot.pane].split('\n').length, JSON.stringify([texts, spot]));
    }
  }
});

test('a pane without its heading is told so, and does not spoil the others', () => {
  const texts = { ...noTexts(), ...splitText(sample('classroom')) };
  const reading = readPanes({ ...texts, journal: '# mine\n 1 poll train\n' });
  assert.deepEqual(reading.mistakes.map(({ pane, line, says }) => [pane, line, says]),
    [['journal', 2, 'this text begins with the words: krossvil journal']]);
  assert.ok(reading.table && reading.stimulus && !reading.journal);
  assert.deepEqual(readPanes({ ...noTexts(), journal: 'x' }).mistakes.length, 1);
});

test('a question about members that are not there is answered in words', () => {
  const { reading, decoded } = ask(library, { ...noTexts(), ...splitText(sample('classroom')) });
  const answer = (states, inputs) => answerReaction(library, { bytes: reading.table.bytes, table: decoded }, { states, inputs, moves: 1 });
  assert.deepEqual(answer(7, 1), {
    number: 9, line: 'refused 9 at 0', beside: [], path: [], sentences: ['The set of states names number 2, but the 2 states are numbered 0 to 1.'],
  });
  assert.match(answer(3, 8).sentences[0], /^The set of inputs names number 3, but the 2 inputs are numbered 0 to 1\.$/);
});

test('links carry every text, and wrong ones carry nothing', async () => {
  for (const { name } of EXAMPLES) assert.deepEqual(await fromHash(`#${await toHash(sample(name))}`), { text: sample(name) });
  assert.deepEqual(await fromHash('#example=quarry'), { example: 'quarry' });
  for (const hash of ['', '#', '#x=1', '#packed=AAAA', '#packed=%', '#text=\u00ff']) assert.equal(await fromHash(hash), null, hash);
  const bomb = await toHash('a'.repeat(7000000));
  assert.ok(bomb.length < 20000);
  assert.equal(await fromHash(`#${bomb}`), null);
});

/** So many bytes that begin as a run of a form does. */
function recordsOf(form, length) {
  const bytes = new Uint8Array(length);
  bytes.set(recordBytes(form, 'input', 0, 0));
  const record = recordBytes(form, 'change', 0, 1);
  for (let at = 4; at < length; at += record.length) bytes.set(record.slice(0, length - at), at);
  return bytes;
}

test('the page has the answer of the library about bytes of every form around its limit', () => {
  const table = readText(sample('classroom')).parts[0].bytes;
  const texts = { ...noTexts(), table: tableText(table) };
  for (const [form, { max }] of Object.entries(FORMS)) {
    for (const length of [max - 1, max, max + 1]) {
      const bytes = recordsOf(form, length);
      assert.equal(formOf(bytes), form);
      assert.equal(whyNot(bytes, length), null);
      const answers = ask(library, takeFiles(texts, [bytes]).texts);
      const own = form === 'stimulus' ? library.run(table, bytes) : askJournal(library, table, bytes, form).refused;
      assert.equal(sayAnswer(answers, subjectOf(answers, 'journal')).line, refusalLine(own), `${form} ${length}`);
      assert.equal(own.number === 19, length > max, `${form} ${length}`);
    }
  }
});

test('files and texts are refused from their limits on, with the limit', () => {
  for (const [form, { max }] of Object.entries(FORMS)) {
    const bytes = recordsOf(form, 1000);
    assert.equal(whyNot(bytes, BYTES_READ), null);
    const limit = max.toLocaleString('en');
    assert.equal(whyNot(bytes, BYTES_READ + 1), `has 70,001 bytes; of a ${FORM_WORDS[form]} at most ${limit} are read.`);
  }
  const text = Buffer.from('krossvil table');
  assert.equal(whyNot(text, TEXT_MAX), null);
  assert.equal(whyNot(text, TEXT_MAX + 1), 'has 6,000,001 bytes; of a text at most 6,000,000 are read.');
  for (const pane of PANES) {
    const of = (character, count, more = '') => tooLong({ ...noTexts(), [pane]: character.repeat(count) + more });
    assert.deepEqual([of('x', TEXT_MAX - 3), of('x', TEXT_MAX - 2)], [null, null]);
    assert.equal(of('x', TEXT_MAX - 1), 'The texts have 6,000,001 bytes in all; at most 6,000,000 are read.');
    assert.equal(of('\u00fc', TEXT_MAX / 2 - 1), null);
    assert.equal(of('\u00fc', TEXT_MAX / 2 - 1, 'x'), 'The texts have 6,000,001 bytes in all; at most 6,000,000 are read.');
    assert.equal(of('\n', LINES_MOST - 3), null);
    assert.equal(of('\n', LINES_MOST - 2), 'The texts have 200,001 lines in all; at most 200,000 are read here.');
  }
});

test('two journals in one text are not answered as one', () => {
  const [table, , journal] = sample('classroom').split(/(?=^krossvil )/m);
  const { mistakes } = readPanes({ table, stimulus: '', journal: `${journal}krossvil short journal\ninput train\n` });
  assert.deepEqual(mistakes.map(({ pane, line, says }) => [pane, line, says]),
    [['journal', journal.split('\n').length, 'a second journal; one at a time is answered']]);
});

test('texts with very many lines are split and read', () => {
  const comments = '# nothing\n'.repeat(140000);
  assert.equal(splitText(`krossvil table\n${comments}krossvil journal\ninput 0\n`).journal.split('\n').length, 140003);
  assert.deepEqual(readPanes({ ...noTexts(), journal: `krossvil journal\n${comments}input 0\n` }).journal.bytes.length, 4);
});
