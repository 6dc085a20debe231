import assert from 'node:assert/strict';
import { test } from 'node:test';
import { refusalLine } from '../answers.js';
import { COMMANDS } from '../command/commands.js';
import { EXAMPLES } from '../examples.js';
import { plainNames } from '../names.js';
import { readText } from '../notation.js';
import { ask } from './command-world.js';
import { library, sample, sameBytes } from './core.js';

const SAMPLES = Object.fromEntries(EXAMPLES.map(({ name }) => [`${name}.kv`, sample(name)]));
const part = (name, kind) => readText(sample(name)).parts.find((each) => each.kind === kind).bytes;
const FILES = {
  ...SAMPLES, 'table.bin': part('classroom', 'table'), 'journal.bin': part('classroom', 'journal'),
  'stimulus.bin': part('classroom', 'stimulus'), 'changed.bin': part('changed-verdict', 'journal'),
  'short.bin': part('short-journal', 'short'), 'stamped.bin': part('stamped-journal', 'stamped'),
};
const words = (line) => [...line.matchAll(/"([^"]*)"|(\S+)/g)].map(([, quoted, word]) => quoted ?? word);
const first = (text) => text.split('\n')[0];

const ACCEPTED = 'accepted end=12 cycles=4 moves=2 state=0 output=0 left=4 longest=3';
const REFUSED = 'refused 28 at 76';

test("the first line of check is the program's, word for word", async () => {
  const cases = [
    ['check classroom.kv', 0, ACCEPTED], ['check table.bin journal.bin', 0, ACCEPTED], ['check classroom.kv journal.bin', 0, ACCEPTED],
    ['check table.bin changed.bin', 1, REFUSED], ['check changed-verdict.kv', 1, REFUSED], ['check changed-verdict.kv --plain', 1, REFUSED],
    ['check table.bin short.bin', 0, ACCEPTED], ['check short-journal.kv', 0, ACCEPTED], ['check table.bin', 0, 'passes'],
    ['check old-table.kv', 1, 'refused 11 at 40'], ['check table.bin table.bin', 1, 'refused 21 at 0'],
    ['check table.bin short.bin --as journal', 1, refusalLine(library.checkJournal(FILES['table.bin'], FILES['short.bin']))],
  ];
  for (const [line, code, says] of cases) {
    const got = await ask(words(line), FILES);
    assert.deepEqual([line, got.code, first(got.out), got.err], [line, code, says, '']);
  }
  const { out } = await ask(['check', 'changed-verdict.kv', '--plain'], FILES);
  assert.equal(out, `${REFUSED}\n`);
});

test('a refusal is shown at its line, with sentences and the usual slip', async () => {
  const { out } = await ask(['check', 'changed-verdict.kv'], FILES);
  const lines = out.split('\n');
  const [, line, column] = /^ {2}changed-verdict\.kv:(\d+):(\d+)$/.exec(lines[1]);
  assert.match(sample('changed-verdict').split('\n')[line - 1].slice(column - 1), /^free/);
  assert.equal(lines[3].indexOf('^') - 6, column - 1);
  assert.match(out, /The test at 8 says free, but state 'busy' was entered at 3/);
  const [told] = (await ask(['check', 'changed-verdict.kv', '--json'], FILES)).lines;
  assert.deepEqual([told.answer, told.number, told.place, told.slip, told.wanted, told.line], ['refused', 28, 76, undefined, 0, Number(line)]);
  assert.match((await ask(['check', 'slip-hold-reached.kv'], FILES)).out, /The usual slip: the hold was taken to end when it is reached/);
  assert.equal((await ask(['check', 'slip-hold-reached.kv', '--json'], FILES)).lines[0].slip, 'hold-reached');
  const records = 'input train; 1 poll train; 2 test free; 2 tick busy; 2 change no_train; 4 poll no_train; 4 test held; 5 tick busy; '
    + '7 poll no_train; 7 test free; 8 tick idle; 8 end';
  const two = { 'two.kv': `${sample('classroom').split('\nkrossvil ')[0]}\nkrossvil journal\n${records.replaceAll('; ', '\n')}\n` };
  assert.deepEqual((await ask(['check', 'two.kv', '--json'], two)).lines[0].either, ['hold-reached', 'wrong-instant']);
  const three = { 'three.kv': two['two.kv'].replace('2 test free', '1 test free') };
  assert.match((await ask(['check', 'three.kv'], three)).out, /^ {2}These records are what any of these slips would make: the hold was taken to end /m);
  assert.deepEqual((await ask(['check', 'three.kv', '--json'], three)).lines[0].either, ['hold-reached', 'wrong-instant', 'move-at-test']);
  const fromBytes = await ask(['check', 'table.bin', 'changed.bin', '--names', 'classroom.kv'], FILES);
  assert.match(fromBytes.out, /8 {2}test {3}free +# at byte 76\n.*state 'busy'/);
  assert.equal(fromBytes.err, 'Names are those of classroom.kv.\n');
});

test('many journals: a line each, the worst code, and those that cannot be read are said', async () => {
  const { code, out, err } = await ask(['check', 'table.bin', 'journal.bin', 'changed.bin', 'none.bin', 'short.bin'], FILES);
  assert.equal(code, 2);
  assert.equal(err, 'none.bin: no such file\n');
  assert.deepEqual(out.split('\n').filter((line) => /^\S/.test(line)),
    [`journal.bin: ${ACCEPTED}`, `changed.bin: ${REFUSED}`, `short.bin: ${ACCEPTED}`]);
  assert.match(out, /3 journals checked, 1 refused, 1 file could not be read\./);
  const { lines } = await ask(['check', 'table.bin', 'journal.bin', 'changed.bin', 'none.bin', '--json'], FILES);
  assert.deepEqual(lines.map(({ file, answer }) => [file, answer]),
    [['journal.bin', 'accepted'], ['changed.bin', 'refused'], ['none.bin', 'not asked']]);
  assert.equal((await ask(['check', 'table.bin', 'journal.bin', 'changed.bin'], FILES)).code, 1);
});

test('a progress line at a terminal, which is gone in the end', async () => {
  const many = Object.fromEntries(Array.from({ length: 300 }, (_, k) => [`${k}.bin`, FILES['journal.bin']]));
  let [now, step] = [0, 30];
  const real = Date.now;
  Date.now = () => (now += step);
  const errorsOf = async (world) => (await ask(['check', 'table.bin', ...Object.keys(many), '--json'], { ...FILES, ...many }, world)).err;
  try {
    const err = await errorsOf({ complainsToTerminal: true });
    assert.match(err, /^(\r\x1b\[K\d+ of 300 journals\r\x1b\[K)+$/);
    assert.ok(Number(/\d+/.exec(err.replace('\x1b[', ''))[0]) > 30, 'it comes after a second');
    assert.equal(await errorsOf({}), '');
    step = 3;
    assert.equal(await errorsOf({ complainsToTerminal: true }), '', 'less than a second has none');
  } finally {
    Date.now = real;
  }
});

test('what was made comes back as bytes and as text', async () => {
  const cases = [
    ['run', 'table.bin stimulus.bin', 'journal', FILES['journal.bin']],
    ['run', 'classroom.kv', 'journal', FILES['journal.bin']],
    ['short', 'table.bin journal.bin', 'short', FILES['short.bin']],
    ['long', 'table.bin short.bin', 'journal', FILES['journal.bin']],
    ['unstamp', 'stamped.bin', 'journal', library.readStamped(FILES['stamped.bin']).bytes],
    ['unstamp', 'stamped-journal.kv', 'journal', library.readStamped(FILES['stamped.bin']).bytes],
    ['salvage', 'torn-journal.kv', 'journal', library.salvage(FILES['table.bin'], part('torn-journal', 'journal')).bytes],
    ['convert', 'old-table.kv', 'table', library.convertTable(part('old-table', 'table')).bytes],
    ['bytes', 'classroom.kv --as stimulus', 'stimulus', FILES['stimulus.bin']],
  ];
  for (const [command, given, kind, expected] of cases) {
    const args = [command, ...words(given)];
    const asBytes = await ask([...args, '-o', 'made.bin'], FILES);
    assert.deepEqual([command, asBytes.code, sameBytes(asBytes.files['made.bin'], expected)], [command, 0, true]);
    if (command === 'bytes') continue;
    const asText = await ask([...args, '-o', 'made.kv'], FILES);
    const printed = await ask(args, FILES);
    assert.equal(printed.out, asText.files['made.kv']);
    const back = kind === 'table' ? readText(printed.out) : readText(printed.out, readText(sample('classroom')).names ?? null);
    const plain = plainNames({ states: 2, inputs: 2, outputs: 2 }, 0);
    const again = back.mistakes.length > 0 ? readText(printed.out, plain) : back;
    assert.ok(sameBytes(again.parts.find((each) => each.kind === kind).bytes, expected), command);
    const [told] = (await ask([...args, '--json'], FILES)).lines;
    assert.deepEqual([told.answer, told.length, told.text], ['accepted', expected.length, printed.out]);
  }
});

test('text and bytes: several files become one text, which is checked as they are', async () => {
  const { files } = await ask(['text', 'journal.bin', 'table.bin', '-o', 'run.kv', '--names', 'classroom.kv'], FILES);
  assert.match(files['run.kv'], /^krossvil table\n[^]*state busy[^]*\nkrossvil journal\n[^]*8 {2}test {3}held/);
  assert.equal(first((await ask(['check', 'run.kv'], files)).out), ACCEPTED);
  const piped = await ask(['check', 'table.bin', '-'], { ...FILES, '-': (await ask(['run', 'table.bin', 'stimulus.bin'], FILES)).out });
  assert.equal(first(piped.out), ACCEPTED);
  for (const args of [['text', 'classroom.kv'], ['bytes', 'table.bin'], ['bytes', 'classroom.kv'], ['bytes', 'old-table.kv', '--as', 'journal'],
    ['text', 'journal.bin', 'journal.bin'], ['check', '-', '-']]) {
    assert.equal((await ask(args, { ...FILES, '-': FILES['table.bin'] })).code, 2, args.join(' '));
  }
});

test('explain has every record, and stops at the one that is refused', async () => {
  const whole = await ask(['explain', 'classroom.kv'], FILES);
  assert.equal(whole.code, 0);
  assert.equal(whole.out.trim().split('\n').length, 16);
  const { code, out } = await ask(['explain', 'changed-verdict.kv'], FILES);
  assert.equal(code, 1);
  assert.match(out, /\n {3}76 +8 {2}test {3}free\nrefused 28 at 76\n[^]*What follows, 5 records, is not read\./);
  const { lines } = await ask(['explain', 'changed-verdict.kv', '--json'], FILES);
  assert.deepEqual([lines.length, lines[9].answer, lines[10].answer], [11, 'accepted', 'refused']);
});

test('compare shows every record that differs', async () => {
  const { code, out } = await ask(['compare', 'quarry.kv'], FILES);
  assert.equal(code, 1);
  assert.match(out, /132 +10 {2}test {3}free +the run has held\n +140 +11 {2}tick {3}idle +the run has 'busy'\n2 of 20 records differ/);
  assert.deepEqual((await ask(['compare', 'classroom.kv'], FILES)).out, 'all 16 records are those of the run\n');
  assert.match((await ask(['compare', 'torn-journal.kv'], FILES)).out, /^refused 20 at 108\n[^]*There is no run to compare with/);
});

test('left says what holds at the end', async () => {
  const { lines: [told] } = await ask(['left', 'torn-journal.kv', '--json'], FILES);
  assert.deepEqual([told.answer, told.time, told.name, told.entry, told.left, told.running[0].free], ['refused', 10, 'busy', 3, 0, 9]);
  assert.match((await ask(['left', 'classroom.kv'], FILES)).out, /^time=12 state=0 entry=11 left=0\n/);
});

test('react takes names, numbers and quotation marks, and says what it lacks', async () => {
  assert.equal(first((await ask(['react', 'stutter-filter.kv', '--while', 'no_tr'], FILES)).out), 'time=5600 target=q0');
  const byNumber = await ask(['react', 'stutter-filter.kv', '--from', '0,"q1"', '--while', '1', '--json'], FILES);
  assert.deepEqual(byNumber.lines, [{ answer: 'accepted', time: 5600, target: ['q0'] }]);
  const outside = await ask(['react', 'classroom.kv', '--from', 'idle', '--while', 'train'], FILES);
  assert.deepEqual([outside.code, first(outside.out)], [1, `refused 10 at ${library.reaction(FILES['table.bin'], 1, 2).place}`]);
  assert.equal(first((await ask(['react', 'classroom.kv', '--from', '9'], FILES)).out), 'refused 9 at 0');
  assert.equal(first((await ask(['react', 'gas-burner.kv'], FILES)).out), 'refused 14 at 0');
  const meant = await ask(['react', 'classroom.kv', '--while', 'tarin'], FILES);
  assert.deepEqual([meant.code, meant.err], [2, "krossvil: there is no input 'tarin'; did you mean 'train'?\nthere are: no_train, train\n"]);
  for (const number of ['-1', '1.5', 'x', '99999999999']) assert.equal((await ask(['react', 'classroom.kv', `--moves=${number}`], FILES)).code, 2);
});

test('react over several moves, and tight', async () => {
  const cases = [
    ['classroom.kv --while no_train --tight', 0, 'time=14 tight=12 target=idle', /In whole units 12 is enough\./],
    ['classroom.kv --while train --tight', 0, 'time=6 tight=5 target=busy', /In whole units 5 is enough\./],
    ['classroom.kv --while no_train --moves 0', 0, 'time=3 tight=3 target=idle,busy moves=0', /There is no state outside the target/],
    ['classroom.kv --while no_train --moves 1', 0, 'time=14 tight=12 target=idle moves=1', /The longest wait is in 'busy'\./],
    ['watchdog.kv --while silence --moves 2', 0, 'time=17 tight=15 target=alarm moves=2',
      /In whole units 15 is enough\.\s+The longest way: 'quiet' under 'silence' to 'watch'\./],
    ['classroom.kv --moves 33', 1, 'refused 32 at 0', /33 moves were asked for; at most 32/],
    ['classroom.kv --moves 4294967295', 1, 'refused 32 at 0', /4,294,967,295 moves were asked for/],
    ['classroom.kv --from idle --while train --moves 2', 1, 'refused 10 at 1', /leads to 'busy', which is not among them/],
    ['classroom.kv --from idle --while train --tight', 1, 'refused 10 at 1', /leads to 'busy', which is not among them/],
    ['gas-burner.kv --moves 2', 1, 'refused 14 at 0', /This table has timers/],
    ['gas-burner.kv --tight', 1, 'refused 14 at 0', /This table has timers/],
  ];
  for (const [line, code, says, sentence] of cases) {
    const got = await ask(['react', ...words(line)], FILES);
    assert.deepEqual([line, got.code, first(got.out), got.err], [line, code, says, '']);
    assert.match(got.out, sentence, line);
  }
  const both = await ask(['react', 'watchdog.kv', '--while', 'silence', '--moves', '2', '--tight', '--json'], FILES);
  assert.deepEqual(both.lines, [{ answer: 'accepted', time: 4, tight: 3, target: ['watch', 'alarm'] },
    { answer: 'accepted', time: 17, tight: 15, target: ['alarm'], sums: [[2, 13, 0], [15, 13, 0]], moves: 2, path: ['quiet', 'silence', 'watch'] }]);
  assert.equal((await ask(['react', 'classroom.kv', '--tight', '--moves', '33'], FILES)).code, 1);
});

test('dwell: a table, the lines for a spreadsheet, objects, and a plot', async () => {
  const plain = await ask(['dwell', 'table.bin', 'journal.bin', 'changed.bin', 'short.bin', '--plain'], FILES);
  assert.equal(plain.code, 1);
  assert.equal(plain.out, 'refused,"changed.bin",28,76\njournals,2\npair,0,0,4\npair,0,1,4\npair,1,0,16\npair,1,1,0\nstate,0,8,4\nstate,1,16,2\n');
  const drawn = await ask(['dwell', 'classroom.kv', '-o', 'dwell.svg'], FILES);
  assert.match(drawn.files['dwell.svg'], /^<svg|^<\?xml/);
  assert.match(drawn.out, /^journals=1\nstate +time +% +entered +no_train +train\nidle +4 +33\.3 +2 +2 +2\n/);
  const full = await ask(['dwell', 'table.bin', ...Array(1001).fill('journal.bin'), '--json'], FILES);
  assert.deepEqual([full.lines[0].number, full.lines[0].place, full.lines[1].journals], [35, 0, 1000]);
});

test('pictures and dumps: each ending, and which package is missing', async () => {
  const cases = [['picture', 'quarry.kv'], ['draw', 'classroom.kv'], ['dwell', 'classroom.kv']];
  for (const [command, file] of cases) {
    for (const ending of ['svg', 'png', 'pdf']) {
      const made = await ask([command, file, '-o', `made.${ending}`], FILES);
      assert.deepEqual([made.code, made.err], [0, ''], command);
      if (ending !== 'svg') assert.match(String(made.files[`made.${ending}`]), new RegExp(`^rsvg-convert --format ${ending} `));
    }
    const missing = await ask([command, file, '-o', 'made.png'], FILES, { convert: () => null });
    assert.deepEqual([missing.code, missing.files['made.png']], [2, undefined]);
    assert.match(missing.err, /the package librsvg2-bin is missing: apt-get install librsvg2-bin/);
    assert.equal((await ask([command, file, '-o', 'made.gif'], FILES)).code, 2);
  }
  const graphviz = await ask(['draw', 'classroom.kv', '--graphviz', '-o', 'made.svg'], FILES, { convert: () => null });
  assert.deepEqual([graphviz.code, graphviz.err],
    [2, 'krossvil: the package graphviz is missing: apt-get install graphviz; or leave --graphviz out\n']);
  assert.match((await ask(['draw', 'classroom.kv', '-o', 'made.dot'], FILES)).files['made.dot'], /^digraph/);
  const shownAs = async (...options) => /class="krossvil-(\w+)"/.exec((await ask(['draw', 'classroom.kv', ...options], FILES)).out)[1];
  assert.deepEqual([await shownAs(), await shownAs('--show', 'automaton'), await shownAs('--show', 'matrix')], ['automaton', 'automaton', 'matrix']);
  assert.match((await ask(['wave', 'quarry.kv', '--unit', '10 ms'], FILES)).out, /\$timescale 10 ms \$end/);
  assert.equal((await ask(['wave', 'quarry.kv', '--unit', 'week'], FILES)).code, 2);
  const shown = await ask(['wave', 'quarry.kv', '-o', 'made/a b.gtkw'], FILES);
  assert.deepEqual([shown.code, shown.out, shown.err], [0, '', '']);
  assert.equal(shown.files['made/a b.vcd'], (await ask(['wave', 'quarry.kv'], FILES)).out);
  assert.match(shown.files['made/a b.gtkw'], /^\[dumpfile\] "\/folder\/a b\.vcd"\n\[savefile\] "\/folder\/a b\.gtkw"\n/);
  const svg = (await ask(['picture', 'quarry.kv', '--title', 'A <title>', '--dark', '--begin', '3', '--until', '12'], FILES)).out;
  assert.match(svg, /A &lt;title&gt;/);
});

test('bytes are not written to a terminal', async () => {
  const { code, err } = await ask(['bytes', 'classroom.kv', '--as', 'journal'], FILES, { printsToTerminal: true });
  assert.deepEqual([code, err], [2, 'krossvil: bytes are not written to a terminal: give -o FILE\n']);
});

test('colours at a terminal only, and sentences in lines of its width', async () => {
  const { out } = await ask(['check', 'changed-verdict.kv'], FILES, { printsToTerminal: true, colours: true, columns: 50 });
  assert.match(out, /^\x1b\[31mrefused 28 at 76\x1b\[0m\n/);
  assert.ok(out.split('\n').slice(4).every((line) => line.replace(/\x1b\[\d+m/g, '').length <= 50));
  const plain = await ask(['check', 'changed-verdict.kv', '--plain'], FILES, { printsToTerminal: true, colours: true });
  assert.equal(plain.out, `${REFUSED}\n`);
});

test('what could not be asked ends with 2 and says why', async () => {
  const cases = [
    ['', /^$/], ['chek classroom.kv', /no command 'chek'; did you mean 'check'\?/], ['check', /a file is missing/],
    ['check --foo x', /there is no option '--foo' here/],
    ['check none.kv', /none\.kv: no such file/], ['explain table.bin', /these are bytes; name a journal too/],
    ['draw table.bin journal.bin', /too many files/],
    ['explain stutter-filter.kv', /there is no journal, stamped journal or short journal in this text/],
    ['check classroom.kv --names table.bin', /is no text/], ['check classroom.kv --names journal.kv', /there is none/],
    ['check journal.kv', /there is no table in this text; name the table's file first/],
    ['check wrong.kv', /wrong\.kv:\d+:\d+: [^]*did you mean 'inputs'\?/],
    ['check table.bin journal.bin --as jurnal', /did you mean 'journal'\?/], ['run classroom.kv --as table', /there is no option '--as' here/],
    ['check table.bin journal.bin --as table', /here journal, stamped, short can be meant/], ['toString x', /there is no command/],
    ['picture quarry.kv --begin soon', /--begin takes a number/],
    ['draw classroom.kv --show matrx', /--show takes automaton or matrix, not 'matrx'; did you mean 'matrix'\?/],
    ['draw classroom.kv --show matrix --graphviz', /Graphviz draws the automaton only: leave --show matrix out/],
    ['explain two.kv', /two\.kv: say which part is meant: --as journal, --as short/],
  ];
  const wrong = `${sample('classroom').split('\nkrossvil stimulus')[0]}`.replace('inputs ', 'inpits ');
  const two = `${sample('classroom')}\n${sample('short-journal').slice(sample('short-journal').indexOf('krossvil short'))}`;
  const files = { ...FILES, 'journal.kv': 'krossvil journal\ninput 0\n0 end\n', 'wrong.kv': wrong, 'two.kv': two };
  for (const [line, says] of cases) {
    const { code, err } = await ask(words(line), files);
    assert.equal(code, 2, line);
    assert.match(err, says, line);
  }
  assert.deepEqual((await ask(['explain', 'two.kv', '--as', 'short'], files)).code, 0);
});

test('every command has help, and every example in it works', async () => {
  const general = await ask(['--help']);
  assert.equal(general.code, 0);
  for (const [name, { examples }] of Object.entries(COMMANDS)) {
    assert.match(general.out, new RegExp(`^  ${name} `, 'm'));
    const help = await ask([name, '--help']);
    assert.equal(help.out, (await ask(['help', name])).out);
    for (const [line] of examples) {
      assert.ok(help.out.includes(`  ${line}\n`));
      const [program, ...args] = words(line);
      assert.deepEqual([program, args[0]], ['krossvil', name]);
      if (name === 'page') continue; // it needs the built page
      const { code, out, err } = await ask(args, FILES);
      const refused = /changed-verdict|quarry\.kv$|left torn|explain q/.test(line) && !line.includes('picture');
      assert.equal(code, refused ? 1 : 0, `${line}\n${out}${err}`);
    }
  }
});
