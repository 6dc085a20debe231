import assert from 'node:assert/strict';
import { test } from 'node:test';
import { COMMANDS } from '../command/commands.js';
import { encodeTable } from '../fields.js';
import { newReport } from '../library.js';
import { recordsText, tableText } from '../notation.js';
import { members, wholeSet } from '../sets.js';
import { Chance } from './chance.js';
import { ask } from './command-world.js';
import { library } from './core.js';
import { drawRun, drawTable, perhapsDamaged } from './draw.js';
import { HOSTILE } from './pictures-fixtures.js';

const ROUNDS = 250;

/** A table and records of every form, damaged or not. */
function drawFiles(chance) {
  const run = drawRun(chance, library, 8);
  const spoil = (bytes) => (chance.percent(30) ? bytes : perhapsDamaged(chance, bytes));
  const table = chance.percent(75) ? run.bytes : perhapsDamaged(chance, run.bytes);
  return { table, journal: spoil(run.journal), short: spoil(run.short), stamped: spoil(run.stamped), stimulus: spoil(run.stimulus) };
}

/** As the bytes themselves, or as the text that gives them. */
const written = (chance, form, bytes) => (chance.percent(50) ? bytes : form === 'table' ? tableText(bytes) : recordsText(bytes, form));

/** What the library says of a journal of a form. */
function verdict(table, bytes, form) {
  const passes = library.checkTable(table);
  if (!passes.ok) return passes;
  if (form === 'short') return library.checkShort(table, bytes);
  const read = form === 'stamped' ? library.readStamped(bytes) : { ok: true, bytes };
  return read.ok ? library.checkJournal(table, read.bytes) : read;
}

const DIRECT = {
  run: ['stimulus', (table, bytes) => library.run(table, bytes)],
  short: ['journal', (table, bytes) => library.shorten(table, bytes)],
  long: ['short', (table, bytes) => library.lengthen(table, bytes)],
  salvage: ['journal', (table, bytes) => library.salvage(table, bytes)],
  unstamp: ['stamped', (_, bytes) => library.readStamped(bytes)],
  convert: ['table', (table) => library.convertTable(table)],
};

/** The object's number and place are the answer's. */
function same(got, answer, about) {
  assert.equal(got.code, answer.ok ? 0 : 1, `${about}: ${got.err}`);
  const last = got.lines[got.lines.length - 1];
  if (!answer.ok) assert.deepEqual([last.answer, last.number, last.place], ['refused', answer.number, answer.place], about);
  else assert.notEqual(last?.answer, 'refused', about);
  return last;
}

test(`check, explain, compare and left on ${3 * ROUNDS} journals: number and place are the library's`, async () => {
  const chance = new Chance(11);
  let refused = 0;
  for (let k = 0; k < ROUNDS; k++) {
    const given = drawFiles(chance);
    for (const form of ['journal', 'short', 'stamped']) {
      const files = { table: written(chance, 'table', given.table), journal: written(chance, form, given[form]) };
      const answer = verdict(given.table, given[form], form);
      refused += answer.ok ? 0 : 1;
      const last = same(await ask(['check', 'table', 'journal', '--as', form, '--json'], files), answer, `check ${k} ${form}`);
      if (answer.ok) assert.deepEqual({ ok: true, ...last }, { ...answer, file: 'journal', answer: 'accepted' });
      const line = (await ask(['check', 'table', 'journal', '--as', form], files)).out.split('\n')[0];
      assert.ok(answer.ok ? line.startsWith('accepted end=') : line === `refused ${answer.number} at ${answer.place}`, line);
      same(await ask(['explain', 'table', 'journal', '--as', form, '--json'], files), answer, `explain ${k} ${form}`);
      same(await ask(['left', 'table', 'journal', '--as', form, '--json'], files), answer, `left ${k} ${form}`);
      const compared = await ask(['compare', 'table', 'journal', '--as', form, '--json'], files);
      assert.deepEqual([compared.code, compared.lines.length > 0], [answer.ok ? 0 : 1, !answer.ok]);
    }
  }
  assert.ok(refused > ROUNDS && refused < 3 * ROUNDS, `${refused} refused`);
});

test(`run, short, long, salvage, unstamp and convert on ${ROUNDS} files each: the library's bytes, or its refusal`, async () => {
  const chance = new Chance(12);
  for (let k = 0; k < ROUNDS; k++) {
    const given = drawFiles(chance);
    for (const [command, [form, direct]] of Object.entries(DIRECT)) {
      const files = { table: written(chance, 'table', given.table), records: written(chance, form, given[form]) };
      const answer = direct(given.table, given[form]);
      const args = command === 'convert' ? [command, 'table'] : [command, 'table', 'records'];
      const got = await ask([...args, '-o', 'made.bin', '--json'], files);
      same(got, answer, `${command} ${k}`);
      if (answer.ok) assert.deepEqual(Buffer.from(got.files['made.bin']), Buffer.from(answer.bytes));
      else assert.equal(got.files['made.bin'], undefined);
      assert.equal((await ask(args, files)).code, got.code);
    }
  }
});

test(`dwell on ${ROUNDS} tables: the library's numbers`, async () => {
  const chance = new Chance(13);
  for (let k = 0; k < ROUNDS; k++) {
    const { table, journal } = drawFiles(chance);
    const report = newReport();
    const answer = library.reportAdd(table, journal, report);
    const passes = library.checkTable(table).ok;
    const got = await ask(['dwell', 'table', 'journal', '--as', 'journal', '--json'], { table, journal });
    assert.equal(got.code, answer.ok ? 0 : 1);
    const refused = got.lines.find((each) => each.answer === 'refused');
    if (!answer.ok) assert.deepEqual([refused.number, refused.place], [answer.number, answer.place]);
    if (passes) assert.equal(got.lines[got.lines.length - 1].journals, answer.ok ? 1 : 0);
  }
});

/** A question to the calculator: mostly one that is answered. */
function drawQuestion(chance) {
  const table = chance.percent(85) ? encodeTable(drawTable(chance, chance.percent(90) ? 'holds' : 'timers')) : drawFiles(chance).table;
  const whole = (count) => wholeSet(Math.min(count ?? 0, 32));
  const states = chance.percent(70) ? whole(table[3]) : chance.below(8);
  const inputs = chance.percent(40) ? whole(table[4]) : chance.below(8);
  return { table, states, inputs, moves: chance.percent(90) ? chance.below(6) : chance.between(7, 40) };
}

const overMoves = (...question) => {
  const over = library.reactionMoves(...question);
  return over.ok ? { ...over, tight: library.reactionTightMoves(...question).tight } : over;
};

test(`react on ${3 * ROUNDS} tables, with tight and with several moves: the library's numbers`, async () => {
  const chance = new Chance(15);
  const numbers = new Set();
  const list = (set) => members(set).join(',');
  for (let k = 0; k < 3 * ROUNDS; k++) {
    const { table, states, inputs, moves } = drawQuestion(chance);
    const args = ['react', 'table', '--from', list(states), '--while', list(inputs)];
    const answers = [
      [[], library.reaction(table, states, inputs)],
      [['--tight'], library.reactionTight(table, states, inputs)],
      [['--moves', String(moves)], overMoves(table, states, inputs, moves)],
    ];
    for (const [options, answer] of answers) {
      const last = same(await ask([...args, ...options, '--json'], { table }), answer, `react ${k} ${options}`);
      numbers.add(answer.number ?? 0);
      if (answer.ok) assert.deepEqual([last.time, last.tight, last.sums], [answer.time, answer.tight, answer.sums]);
      if (answer.ok) assert.deepEqual(last.target, members(answer.target).map((state) => `q${state}`));
      if (answer.ok) assert.deepEqual(last.path, answer.path?.map((member, at) => `${at % 2 === 0 ? 'q' : 'i'}${member}`));
      const line = (await ask([...args, ...options], { table })).out.split('\n')[0];
      assert.ok(answer.ok ? line.startsWith(`time=${answer.time} `) : line === `refused ${answer.number} at ${answer.place}`, line);
    }
  }
  for (const number of [0, 9, 10, 14, 32]) assert.ok(numbers.has(number), `no question had the answer ${number}`);
});

test('pictures, dumps, pages, texts: no exception on any bytes, and a picture wherever the table passes', async () => {
  const chance = new Chance(14);
  for (let k = 0; k < 40; k++) {
    const { table, journal, short, stamped } = drawFiles(chance);
    const passes = library.checkTable(table).ok;
    for (const [form, bytes] of Object.entries({ journal, short, stamped })) {
      for (const command of ['picture', 'wave']) {
        const { code } = await ask([command, 'table', 'journal', '--as', form], { table, journal: bytes });
        assert.equal(code, passes ? 0 : 1);
      }
      const text = await ask(['text', 'journal', '--as', form, '-o', 'text.kv'], { journal: bytes });
      const back = await ask(['bytes', 'text.kv', '-o', 'back'], text.files);
      assert.deepEqual(Buffer.from(back.files.back), Buffer.from(bytes));
    }
    for (const output of ['a.svg', 'a.dot']) assert.equal((await ask(['draw', 'table', '-o', output], { table })).code, passes ? 0 : 1);
    const anything = { a: chance.bytes(chance.below(200)), b: chance.bytes(chance.below(200)) };
    for (const [name, { count: [least, most] }] of Object.entries(COMMANDS)) {
      const given = ['a', 'b'].slice(0, Math.max(least, Math.min(2, most)));
      const options = [...(chance.percent(50) ? ['--json'] : []), ...(chance.percent(50) ? ['-o', 'made.svg'] : [])];
      if (name !== 'page') assert.ok([0, 1, 2].includes((await ask([name, ...given, ...options], anything)).code));
    }
  }
});

test('long files: 19 comes from the library, and nothing more is read than is needed', async () => {
  const table = drawRun(new Chance(1), library, 3).bytes;
  for (const length of [65537, 100000, 7000000]) {
    const journal = new Uint8Array(length).fill(0x10);
    const { lines: [told] } = await ask(['check', 'table', 'journal', '--json'], { table, journal });
    assert.deepEqual([told.number, told.place], [19, 0]);
  }
  const long = new Uint8Array(200000);
  long.set(table);
  const { lines: [told] } = await ask(['check', 'long', '--json'], { long });
  assert.deepEqual([told.number, told.place], [library.checkTable(long).number, library.checkTable(long).place]);
  assert.equal((await ask(['text', 'huge'], { huge: new Uint8Array(5000000) })).code, 2);
});

/** Nothing that moves a terminal: what is printed has no character that cannot be seen, save for the line's end. */
function harmless(text, about) {
  const bad = /[\u0000-\u0009\u000b-\u001f\u007f-\u009f\u00ad\u061c\u200b-\u200f\u2028-\u202e\u2060-\u206f\ufeff]/u.exec(text);
  assert.equal(bad && `U+${bad[0].codePointAt(0).toString(16)} in ${about}`, null);
}

test('hostile names do no harm in the terminal: of files, of options, in texts', async () => {
  const { bytes: table, journal } = drawRun(new Chance(5), library, 3);
  const changed = Uint8Array.from(journal);
  changed[journal.length - 8] ^= 1;
  for (const name of HOSTILE.filter((each) => each !== '')) {
    const files = { [name]: journal, changed, table, [`${name}.kv`]: `krossvil table\ninputs "${name}"\nstate ${name}\n` };
    const lines = [['check', 'table', name], ['check', 'table', name, 'changed', `none${name}`], ['check', `${name}.kv`], ['check', name], [name],
      ['help', name], ['check', 'table', name, '--as', name], ['check', 'table', name, '--names', `${name}.kv`],
      ['react', 'table', '--from', name], ['react', 'table', `--moves=${name}`],
      ['wave', 'table', name, `--unit=${name}`], ['wave', 'table', name], ['explain', 'table', name],
      ['dwell', 'table', name], ['dwell', 'table', name, '--plain'], ['wave', 'table', name, '-o', `${name}.gtkw`],
      ['draw', 'table', `--title=${name}`, '-o', 'a.dot'], ['picture', 'table', name, `--title=${name}`], ['page', 'table', name],
      ['check', `--${name}`, 'table'], ['run', 'table', name], ['salvage', 'table', name, '-o', `out${name}`],
      ['text', name], ['bytes', name], ['bytes', `${name}.kv`]];
    for (const line of lines) {
      for (const args of [line, [...line, '--json']]) {
        const { code, out, err } = await ask(args, files, { colours: false });
        assert.ok([0, 1, 2].includes(code));
        harmless(err, `the errors of ${JSON.stringify(args)}`);
        if (line[0] !== 'page') harmless(out, `the answer of ${JSON.stringify(args)}`);
      }
    }
  }
});

test('names in texts that can be written come out as they are, in every command', async () => {
  const names = ['a "quoted" <b>', '日本語', 'no train; rm -rf', "it's", '$(x)', '`x`', '%s', '\\n'].map((name) => name.replaceAll('"', "'"));
  for (const name of names) {
    const text = `krossvil table\ncycle 3\ninputs "${name}", b\noutputs o\nstart "${name}"\n\n`
      + `state "${name}"\n    output o\n    "${name}", b -> "${name}"\n\n`
      + `krossvil stimulus\ninput "${name}"\n1 end\n\nkrossvil journal\ninput "${name}"\n1 poll b\n1 end\n`;
    const explained = await ask(['check', 'a.kv'], { 'a.kv': text });
    assert.equal(explained.code, 1);
    assert.ok(explained.out.includes(`'${name}'`), explained.out);
    const ran = await ask(['run', 'a.kv'], { 'a.kv': text });
    assert.ok(ran.out.includes(`input "${name}"`) || ran.out.includes(`input ${name}`), ran.out + ran.err);
    assert.equal((await ask(['react', 'a.kv', '--from', `"${name}"`, '--json'], { 'a.kv': text })).code, 0);
  }
});
