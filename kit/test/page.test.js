/** The page in a browser: typed in, stepped through, given files; it answers as the library does, and asks the network for nothing. */

import assert from 'node:assert/strict';
import { once } from 'node:events';
import { existsSync, mkdtempSync, readFileSync, rmSync } from 'node:fs';
import { createServer } from 'node:http';
import { tmpdir } from 'node:os';
import { join } from 'node:path';
import { test } from 'node:test';
import { EXAMPLES } from '../examples.js';
import { decodeTable, encodeTable } from '../fields.js';
import { plainNames } from '../names.js';
import { readText, recordsText, tableText } from '../notation.js';
import { library, sample } from './core.js';
import { FILE, VERDICT, allowSaving, caretBehind, choose, drop, expected, open, paneText, setPane } from './page-world.js';

test('every example opens with the answer of the library', async (t) => {
  const tab = await open(t, 'example=classroom');
  for (const { name } of EXAMPLES) {
    await choose(tab, name);
    assert.equal(await tab.text(VERDICT), expected(name), name);
    const hidden = await tab.value("document.querySelector('#pictures').hidden");
    const rings = await tab.value("document.querySelectorAll('#diagram:not([hidden]) .refused-record').length");
    if (!hidden) assert.equal(rings, expected(name).startsWith('refused') ? 1 : 0, name);
    assert.equal(await tab.value('location.hash'), `#example=${name}`);
  }
});

test('the answer follows each key', async (t) => {
  const tab = await open(t, 'example=changed-verdict');
  assert.equal(await tab.text(VERDICT), 'refused 28 at 76');
  assert.match(await tab.text('#answer'), /8 - 3 = 5 is not more than 5/);
  assert.equal(await tab.text('#pane-journal .number.refused'), '76');
  await caretBehind(tab, 'journal', ' 8  test   free');
  for (const _ of 'free') await tab.key('Backspace');
  assert.match(await tab.text(VERDICT), /mistake/);
  await tab.type('hel');
  assert.match(await tab.text('#answer'), /Journal, line 12: .*did you mean 'held'/);
  await tab.type('d');
  assert.equal(await tab.text(VERDICT), expected('classroom'));
  await tab.until("document.getElementById('spoken').textContent.includes('accepted')");
});

test('a mistake is shown at its line, and a click goes there', async (t) => {
  const tab = await open(t, 'example=classroom');
  await caretBehind(tab, 'table', 'start   idle');
  await tab.type('x');
  assert.match(await tab.text('#answer'), /Table, line 5: there is no state 'idlex'; did you mean 'idle'\?/);
  assert.equal(await tab.text('#pane-table .ordinal.mistake'), '5');
  await tab.click('#tab-journal');
  await tab.click('.mistakes button');
  assert.equal(await tab.value("document.activeElement.closest('.editor')?.id"), 'pane-table');
  await tab.key('End');
  await tab.key('Backspace');
  await tab.click('#tab-journal');
  assert.equal(await tab.text(VERDICT), expected('classroom'));
});

test('a whole text in one pane has its marks there', async (t) => {
  const tab = await open(t, 'example=classroom');
  await setPane(tab, 'stimulus', '');
  await setPane(tab, 'journal', '');
  const [table, journal] = sample('quarry').split(/(?=^krossvil )/m);
  await tab.click('#tab-table');
  await setPane(tab, 'table', table + journal);
  assert.equal(await tab.text(VERDICT), expected('quarry'));
  const line = Number(/line (\d+)/.exec(await tab.text('#go'))[1]);
  assert.match((table + journal).split('\n')[line - 1], /10 +test +free/);
  await tab.value("document.querySelector('#pane-table textarea').focus()");
  await tab.click('#go');
  const marks = (pane) => tab.value(`['refused', 'current'].map((look) => document.querySelector('#pane-${pane} .ordinal.' + look)?.textContent)`);
  assert.deepEqual(await marks('table'), [String(line), null]);
  assert.equal(await tab.text('#pane-table .number.refused'), expected('quarry').split(' ').at(-1));
  const first = 2 + table.split('\n').length - 1;
  await tab.click('#first');
  await tab.value("document.querySelector('#pane-table textarea').scrollTop = 1e6");
  await tab.frames();
  await tab.click('#next');
  assert.equal(await tab.text('#pane-table .ordinal.current'), String(first + 1));
  await tab.click('#tab-journal');
  assert.deepEqual([await marks('journal'), await tab.text('#pane-says')], [[null, null], 'Empty. Begin with the words: krossvil journal']);
  await caretBehind(tab, 'table', '10  test');
  await tab.key('ArrowRight');
  assert.equal(await tab.text('#pane-table .ordinal.current'), String(line));
});

test('arrow keys step through the records and light the machine', async (t) => {
  const tab = await open(t, 'example=classroom');
  await tab.value('document.activeElement.blur()');
  const lit = () => tab.value("[...document.querySelectorAll('#automaton .state.lit')].map((state) => state.dataset.state).join()");
  const changed = () => tab.value("[...document.querySelectorAll('#machine .changed dt')].map((name) => name.textContent)");
  await tab.key('ArrowRight');
  assert.match(await tab.text('#where'), /^record 0 of 15, byte 0$/);
  assert.equal(await lit(), '0');
  await tab.key('ArrowRight');
  assert.deepEqual(await changed(), ['input at the sensor', 'last change']);
  for (let k = 0; k < 3; k++) await tab.key('ArrowRight');
  assert.match(await tab.text('#step-says'), /3 tick busy: From 'idle' input 'train' leads to 'busy', entered at 3\./);
  assert.equal(await lit(), '1');
  assert.equal(await tab.value("document.querySelectorAll('#automaton .edge.lit').length"), 1);
  assert.equal(await tab.text('#pane-journal .number.current'), '28');
  assert.equal(await tab.value("document.querySelector('#diagram .selected-record').dataset.record"), '4');
  await tab.key('ArrowLeft');
  assert.match(await tab.text('#where'), /^record 3 /);
  await tab.key('End');
  assert.match(await tab.text('#where'), /^record 15 /);
  await tab.press('#back');
  assert.match(await tab.text('#where'), /^record 14 /);
  await tab.key('Escape');
  assert.equal(await tab.text('#where'), '16 records');
});

test('a dense table is a matrix in which the machine is lit, and the button below it shows the automaton', async (t) => {
  const tab = await open(t, 'example=classroom');
  const all = Array.from({ length: 12 }, (_, k) => k);
  const table = {
    ...decodeTable(readText(sample('classroom')).parts[0].bytes), counts: { states: 12, inputs: 12, outputs: 2 }, outputs: all.map((q) => q % 2),
    next: all.map((q) => all.map((input) => (5 * q + 7 * input + q * input) % 12)), holds: all.map(() => 0), delayed: all.map(() => 0),
    names: plainNames({ states: 12, inputs: 12, outputs: 2 }, 0),
  };
  await setPane(tab, 'table', tableText(encodeTable(table), table.names));
  await setPane(tab, 'stimulus', '');
  await setPane(tab, 'journal', 'krossvil journal\ninput i3\n1 poll i3\n1 test free\n2 tick q9\n2 end\n');
  assert.match(await tab.text(VERDICT), /^accepted /);
  await tab.value('document.activeElement.blur()');
  for (let k = 0; k < 4; k++) await tab.key('ArrowRight');
  const shown = () => tab.value(`[document.querySelector('#automaton svg').getAttribute('class'),
    ...[...document.querySelectorAll('#automaton .lit')].map(({ dataset }) => dataset.state ?? dataset.from + '-' + dataset.to)]`);
  assert.deepEqual(await shown(), ['krossvil-matrix', '0-9', '9']);
  await tab.value("document.getElementById('show-as').focus()");
  await tab.key('Enter');
  assert.deepEqual(await shown(), ['krossvil-automaton', '0-9', '9']);
  assert.deepEqual([await tab.text(':focus'), await tab.text('#where')], ['Show the matrix', 'record 3 of 4, byte 20']);
  await choose(tab, 'gas-burner');
  assert.deepEqual([(await shown())[0], await tab.text('#show-as')], ['krossvil-automaton', 'Show the matrix']);
  await tab.click('#show-as');
  assert.equal((await shown())[0], 'krossvil-matrix');
});

test('the caret and the diagram choose a record', async (t) => {
  const tab = await open(t, 'example=classroom');
  await caretBehind(tab, 'journal', ' 5  poll');
  await tab.key('ArrowDown');
  assert.match(await tab.text('#where'), /^record 7 of 15, byte 52$/);
  await tab.value("document.querySelector('#diagram [data-record=\"10\"]').dispatchEvent(new MouseEvent('click', { bubbles: true }))");
  assert.match(await tab.text('#where'), /^record 10 of 15, byte 76$/);
});

test('a stimulus is run, and that can be undone', async (t) => {
  const tab = await open(t, 'example=changed-verdict');
  await tab.click('#tab-stimulus');
  assert.match(await tab.text('#answer'), /The stimulus can be run/);
  const old = await paneText(tab, 'journal');
  await tab.click('#run');
  assert.equal(await tab.text(VERDICT), expected('classroom'));
  assert.equal(await tab.value("document.getElementById('tab-journal').getAttribute('aria-selected')"), 'true');
  await tab.click('#undo');
  assert.equal(await paneText(tab, 'journal'), old);
  await tab.click('#tab-stimulus');
  await caretBehind(tab, 'stimulus', ' 2  test\n 3  tick\n');
  await tab.type('3 tick\n');
  assert.match(await tab.text(VERDICT), /^refused 26 at /);
  assert.equal(await tab.value("document.getElementById('run').disabled"), true);
});

test('files are dropped, as bytes and as text', async (t) => {
  const tab = await open(t, 'example=watchdog');
  const { parts, names } = readText(sample('changed-verdict'));
  const bytes = (kind) => parts.find((part) => part.kind === kind).bytes;
  await drop(tab, [['a.journal', bytes('journal')], ['a.table', bytes('table')]]);
  assert.equal(await tab.text(VERDICT), 'refused 28 at 76');
  assert.match(await paneText(tab, 'stimulus'), /change i1/, 'the old stimulus, in the words of the new table');
  assert.equal(await paneText(tab, 'table'), tableText(bytes('table')));
  const plain = plainNames({ states: 2, inputs: 2, outputs: 2 }, 0);
  assert.equal(await paneText(tab, 'journal'), recordsText(bytes('journal'), 'journal', plain));
  await drop(tab, [['classroom.kv', Buffer.from(sample('classroom'))]]);
  assert.equal(await tab.text(VERDICT), expected('classroom'));
  await drop(tab, [['again.journal', bytes('journal')]]);
  assert.equal(await paneText(tab, 'journal'), recordsText(bytes('journal'), 'journal', names));
});

test('any bytes that begin as ours do give an answer when they are dropped, and come back as they were', async (t) => {
  const tab = await open(t, 'example=classroom');
  const wild = [[1], [0x10], [0x20, 0, 1, 9, 0x2f], [0x30, 0, 1], [8, 0xfe, 0], Array.from({ length: 70000 }, (_, k) => (1 + k * 7919) % 256),
    [0x10, 0, 1, 0, ...Array(66000).fill(0x11)]];
  for (const [k, bytes] of wild.entries()) {
    await drop(tab, [[`wild${k}`, bytes]]);
    const given = Uint8Array.from(bytes);
    const text = (await paneText(tab, 'table')) + (await paneText(tab, 'stimulus')) + (await paneText(tab, 'journal'));
    const back = readText(text).parts.some((part) => Buffer.compare(part.bytes, given) === 0);
    assert.ok(back, `file ${k}`);
    assert.match(await tab.text(VERDICT), /^(refused \d+ at \d+|accepted.*)$/);
  }
});

test('a torn journal is salvaged, short and stamped ones are written out, an old table is converted', async (t) => {
  const tab = await open(t, 'example=torn-journal');
  await tab.click('#tool-salvage');
  assert.match(await tab.text('#tool-answer'), /The first 92 bytes are kept/);
  await tab.click('#tool-put');
  assert.match(await tab.text(VERDICT), /^accepted end=9 /);
  await tab.click('#tool-shorten');
  await tab.click('#tool-put');
  assert.match(await paneText(tab, 'journal'), /^krossvil short journal\n/);
  assert.match(await tab.text(VERDICT), /^accepted end=9 /);
  await tab.click('#tool-lengthen');
  await tab.click('#tool-put');
  assert.match(await paneText(tab, 'journal'), /^krossvil journal\n/);
  await tab.go(`${FILE.href}#example=stamped-journal`);
  await tab.until("document.getElementById('examples').value === 'stamped-journal'");
  await tab.frames();
  await tab.click('#tool-unstamp');
  await tab.click('#tool-put');
  assert.equal(await tab.text(VERDICT), expected('stamped-journal'));
  assert.match(await paneText(tab, 'journal'), /^krossvil journal\n/);
  await tab.go(`${FILE.href}#example=old-table`);
  await tab.until("document.getElementById('examples').value === 'old-table'");
  await tab.frames();
  await tab.click('#tool-convert');
  await tab.click('#tool-put');
  assert.equal(await tab.text(VERDICT), 'accepted');
});

test('a journal is compared with its own run', async (t) => {
  const tab = await open(t, 'example=quarry');
  await tab.click('#tool-compare');
  assert.match(await tab.text('#tool-answer'), /2 records of the journal differ.*The test at 10 says free; in the run it is held\./s);
  assert.equal(await tab.value("document.querySelector('#tool-picture .first-difference').dataset.record"), '17');
  await setPane(tab, 'journal', (await paneText(tab, 'journal')).replace('10  test   free', '10  test   held'));
  assert.equal(await tab.value("document.querySelectorAll('#tool-picture').length"), 0);
});

/** Sets the boxes and the number of moves of the reaction panel. */
async function askReaction(tab, { states, inputs, moves = 1 }) {
  await tab.value(`(() => {
    for (const [which, set] of [['states', ${states}], ['inputs', ${inputs}]]) {
      for (const box of document.querySelectorAll('#reaction-' + which + ' input')) {
        if (box.checked !== ((set >>> box.dataset.member & 1) === 1)) box.click();
      }
    }
    const field = document.getElementById('reaction-moves');
    field.value = '${moves}';
    field.dispatchEvent(new Event('input'));
  })()`);
  return tab.text('#reaction-answer');
}

/** What is lit as the longest way: in the panel's picture, or in the automaton itself where there is no journal. */
async function litPath(tab) {
  const room = await tab.value("document.getElementById('diagram').hidden") ? '#automaton' : '#reaction-picture:not([hidden])';
  const lit = (what, name) => tab.value(`[...document.querySelectorAll('${room} .${what}.lit')].map(${name}).sort()`);
  return { states: await lit('state', '({ dataset }) => dataset.state'), edges: await lit('edge', '({ dataset }) => dataset.from + dataset.to') };
}

/** The states of a path, and its edges, as the picture names them. */
function ofPath(path) {
  const states = path.filter((_, k) => k % 2 === 0);
  return { states: [...new Set(states)].map(String).sort(), edges: states.slice(1).map((state, k) => `${states[k]}${state}`).sort() };
}

const tableOf = (name) => readText(sample(name)).parts[0].bytes;

test('a reaction time is asked for by names, with the tight time beside it', async (t) => {
  const tab = await open(t, 'example=classroom');
  const numbers = [];
  for (const inputs of [1, 2]) {
    const { time, tight } = library.reactionTight(tableOf('classroom'), 3, inputs);
    numbers.push(time, tight);
    const said = await askReaction(tab, { states: 3, inputs });
    assert.match(said, new RegExp(`^at most ${time}tight ${tight}, in whole unitsuntil: ${inputs === 1 ? 'idle' : 'busy'}As long as`));
    assert.deepEqual(await litPath(tab), ofPath(library.reactionMoves(tableOf('classroom'), 3, inputs, 1).path));
  }
  assert.deepEqual(numbers, [14, 12, 6, 5]);
  assert.match(await askReaction(tab, { states: 3, inputs: 3 }), /^at most 3tight 3, .*There is no state outside the target to wait in\.$/);
  assert.deepEqual(await litPath(tab), { states: [], edges: [] });
  assert.match(await askReaction(tab, { states: 1, inputs: 0 }), /never lasts for 6: no state is left to be in\./);
});

test('a slow run is put in the place of the journal, and what is said of it stands beside that journal only', async (t) => {
  const tab = await open(t, 'example=classroom');
  const before = await paneText(tab, 'journal');
  for (const [inputs, slots] of [[1, 11], [2, 4]]) {
    await askReaction(tab, { states: 3, inputs });
    await tab.click('#slow');
    await tab.until("/this run/.test(document.getElementById('reaction-slow').textContent)");
    const said = await tab.text('#reaction-slow');
    assert.match(said, new RegExp(`stay for ${slots} slots, .*So no time below ${slots + 1} is true of this table\\.$`));
    assert.match(await tab.text(VERDICT), new RegExp(`^accepted end=${slots + 2} `));
  }
  const made = await paneText(tab, 'journal');
  await setPane(tab, 'journal', `${made}# more\n`);
  assert.equal(await tab.text('#reaction-slow'), 'Show a slow run');
  await setPane(tab, 'journal', made);
  assert.match(await tab.text('#reaction-slow'), /stay for 4 slots/);
  await askReaction(tab, { states: 3, inputs: 1 });
  assert.equal(await tab.text('#reaction-slow'), 'Show a slow run');
  await askReaction(tab, { states: 2, inputs: 1 });
  assert.equal(await tab.text('#reaction-slow'), '');
  await tab.click('#undo');
  await tab.click('#undo');
  assert.equal(await paneText(tab, 'journal'), before);
});

test('several moves are asked for, and the worst path is lit', async (t) => {
  for (const [name, states, most] of [['classroom', 3, 3], ['watchdog', 7, 3], ['stutter-filter', 3, 2]]) {
    const tab = await open(t, `example=${name}`);
    for (let inputs = 0; inputs < 4; inputs++) {
      for (let moves = 0; moves <= most; moves++) {
        const { time, path } = library.reactionMoves(tableOf(name), states, inputs, moves);
        const said = await askReaction(tab, { states, inputs, moves });
        assert.match(said, new RegExp(`^at most ${time}(tight|until)`), `${name} ${inputs} ${moves}`);
        const { tight } = library.reactionTightMoves(tableOf(name), states, inputs, moves);
        assert.ok(said.startsWith(`at most ${time}tight ${tight}, in whole units`), `${name} ${inputs} ${moves}`);
        assert.deepEqual(await litPath(tab), ofPath(path), `${name} ${inputs} ${moves}`);
      }
    }
  }
  const tab = await open(t, 'example=watchdog');
  assert.match(await askReaction(tab, { states: 7, inputs: 2, moves: 2 }),
    /^at most 17tight 15, in whole unitsuntil: alarm.* at most 17 over 2 moves until .*The longest way: 'quiet' under 'silence' to 'watch'\.$/);
  assert.deepEqual(await litPath(tab), { states: ['0', '1'], edges: ['01'] });
});

test('the panel says in words why no reaction time is given', async (t) => {
  const tab = await open(t, 'example=classroom');
  assert.match(await askReaction(tab, { states: 2, inputs: 1 }),
    /^refused 10 at 2The states do not hold together .* from 'busy' input 'no_train' leads to 'idle', which is not among them\. Add 'idle'/);
  assert.match(await askReaction(tab, { states: 3, inputs: 1, moves: 33 }), /^refused 32 at 0.*33 moves were asked for; at most 32 are calculated/);
  assert.deepEqual(await litPath(tab), { states: [], edges: [] });
  const most = /^refused 32 at 0/;
  const wrong = ['-1 is', '1.5 is', 'No number'].map((words) => new RegExp(`^not asked${words.replace('.', '\\.')} .* 0 to 32\\.$`));
  for (const [moves, says] of [['-1', wrong[0]], ['1.5', wrong[1]], ['', wrong[2]], ['33', most], ['4294967297', most]]) {
    assert.match(await askReaction(tab, { states: 3, inputs: 1, moves }), says, moves);
    assert.deepEqual(await litPath(tab), { states: [], edges: [] }, moves);
  }
  assert.match(await askReaction(tab, { states: 3, inputs: 1, moves: 0 }), /^at most 3tight 3, in whole unitsuntil.* over 0 moves/);
});

test('a table with timers has the reason in the place of the form', async (t) => {
  const tab = await open(t, 'example=gas-burner');
  const form = () => tab.value(`[...document.querySelectorAll('#reaction-panel :is(fieldset, input)')]
    .filter((each) => each.checkVisibility()).length`);
  assert.match(await tab.text('#reaction-answer'), /^refused 14 at 0This table has timers\./);
  assert.equal(await form(), 0);
  await choose(tab, 'classroom');
  assert.ok(await form() > 4);
  assert.match(await tab.text('#reaction-answer'), /^at most 14/);
});

test('an example opens with the question that it promises, and the next one with its own', async (t) => {
  const tab = await open(t, 'example=mixer');
  const asked = async () => [await tab.value("document.getElementById('reaction-moves').value"),
    await tab.value("[...document.querySelectorAll('#reaction-inputs input')].map(({ checked }) => Number(checked)).join('')")].join(' ');
  assert.equal(await asked(), '3 10');
  assert.match(await tab.text('#reaction-answer'), /^at most 61tight 57, in whole unitsuntil: idle/);
  for (const [name, question] of [['classroom', '1 10'], ['stutter-filter', '1 01'], ['mixer', '3 10']]) {
    await choose(tab, name);
    assert.equal(await asked(), question, name);
  }
});

/** In the page: where the states of a picture stand in it. */
const PLACES = (room) => `[...document.querySelectorAll('${room} .state')].map((state) => {
  const { cx, cy } = state.querySelector('circle'); return [state.dataset.state, cx.baseVal.value, cy.baseVal.value].join(' '); })`;

test('the automaton has one layout on the page', async (t) => {
  const tab = await open(t, 'example=classroom');
  for (const name of ['classroom', 'watchdog', 'mixer', 'stutter-filter']) {
    await choose(tab, name);
    const places = await tab.value(PLACES('#automaton'));
    assert.ok(places.length > 1, name);
    const alone = await tab.value("document.getElementById('diagram').hidden");
    assert.deepEqual(await tab.value(PLACES('#reaction-picture:not([hidden])')), alone ? [] : places, name);
    assert.notDeepEqual((await litPath(tab)).states, [], name);
  }
});

test('the link carries the texts, and a broken one does no harm', async (t) => {
  const tab = await open(t, 'example=changed-verdict');
  await caretBehind(tab, 'journal', 'krossvil journal');
  await tab.type(' # mine');
  await tab.until("location.hash.startsWith('#packed=')");
  await tab.click('#link');
  const link = await tab.value("document.getElementById('link-text').value");
  assert.match(await tab.text('#link-box'), /opened as a file: the link works only where the same file is/);
  const plain = await tab.value("document.getElementById('link-plain').value");
  await tab.click('#link-close');
  const other = await open(t, link.split('#')[1]);
  assert.match(await paneText(other, 'journal'), /^krossvil journal # mine\n/);
  assert.equal(await other.text(VERDICT), 'refused 28 at 76');
  await drop(other, [['text.kv', Buffer.from(plain)]]);
  assert.deepEqual(await Promise.all(['table', 'stimulus', 'journal'].map((pane) => paneText(other, pane))).then((texts) => texts.map((text) => text.trim())),
    plain.split(/(?=^krossvil )/m).map((text) => text.trim()));
  for (const hash of ['packed=AAAA', 'packed=***', 'text=%%', 'example=<img src=x onerror=alert(1)>', 'text=PGltZyBzcmM9eD4']) {
    const broken = await open(t, hash);
    assert.notEqual(await broken.text(VERDICT), null, hash);
  }
});

test('where the page comes from a server the link is enough', async (t) => {
  const server = createServer((request, response) => response.end(readFileSync(FILE))).listen(0, '127.0.0.1');
  t.after(() => server.close());
  await once(server, 'listening');
  const tab = await open(t, 'example=classroom', undefined, `http://127.0.0.1:${server.address().port}/page.html`);
  await tab.click('#link');
  assert.equal(await tab.value("document.getElementById('link-file').checkVisibility()"), false);
});

const HOSTILE = '<img src=x onerror="window.harm=1">';

/** The table's text on worksheet and solutions, as they would be printed, and what stands there as an element although it is a name. */
async function worksheet(tab) {
  await tab.click('#make-sheet');
  return tab.value(`(() => { dispatchEvent(new Event('beforeprint')); const all = (selector) => [...document.querySelectorAll(selector)];
    return { texts: all('#paper pre').map((each) => each.textContent), odd: all('#paper :is(script, img, textarea, b:not(ol > li > b))').length }; })()`);
}

test('hostile names are shown and do no harm', async (t) => {
  const tab = await open(t, 'example=classroom');
  const names = [`<script>window.harm=1</script>`, `</textarea><b>`, `a&amp;'b`, 'track #1', `${'x'.repeat(60)}`];
  for (const name of names) {
    const text = sample('classroom').replaceAll('busy', `"${name}"`).replaceAll('no_train', `"${name}2"`);
    const [table, , journal] = text.split(/(?=^krossvil )/m);
    await setPane(tab, 'table', table);
    await setPane(tab, 'journal', journal);
    await setPane(tab, 'stimulus', '');
    assert.equal(await tab.text(VERDICT), expected('classroom'), name);
    await tab.click('#first');
    for (let k = 0; k < 6; k++) await tab.click('#next');
    assert.ok((await tab.text('#machine')).includes(name), name);
    const { texts, odd } = await worksheet(tab);
    assert.deepEqual([texts.map((each) => each.split(name).length), odd], [[8, 8], 0], name);
  }
  for (const wrong of [HOSTILE, '\u202Egnorw', 'a\u0000b', '"\u2066"']) {
    await setPane(tab, 'table', `krossvil table\n${wrong}\n`);
    assert.match(await tab.text(VERDICT), /mistake/);
    assert.ok(!/[\u0000\u202e\u2066]/.test(await tab.text('#answer')), 'no hidden characters');
  }
  await drop(tab, [[`${HOSTILE}.kv`, Buffer.from(sample('classroom'))]]);
  assert.equal(await tab.value('window.harm ?? 0'), 0);
  assert.equal(await tab.value("document.querySelectorAll('img, main script').length"), 0);
});

test('texts, bytes and pictures are saved', async (t) => {
  const folder = mkdtempSync(join(tmpdir(), 'krossvil-saved-'));
  t.after(() => rmSync(folder, { recursive: true }));
  const tab = await open(t, 'example=changed-verdict');
  await allowSaving(folder);
  const saved = async (label, name) => {
    await tab.click('#save summary');
    await tab.value(`[...document.querySelectorAll('#save-list button')].find((button) => button.textContent === ${JSON.stringify(label)}).click()`);
    for (let k = 0; k < 400 && !existsSync(join(folder, name)); k++) await new Promise((resolve) => setTimeout(resolve, 25));
    return readFileSync(join(folder, name));
  };
  const { parts } = readText(sample('changed-verdict'));
  for (const kind of ['table', 'stimulus', 'journal']) {
    const bytes = await saved(`${kind[0].toUpperCase()}${kind.slice(1)}, as bytes`, `krossvil.${kind}`);
    assert.deepEqual([...bytes], [...parts.find((part) => part.kind === kind).bytes]);
  }
  const again = readText(await saved('All texts', 'krossvil.kv'));
  assert.deepEqual(again.parts.map(({ bytes }) => [...bytes]), parts.map(({ bytes }) => [...bytes]));
  assert.ok(/^<svg .*refused 28 at byte 76/s.test(String(await saved('Timing diagram, SVG', 'krossvil-diagram.svg'))));
  assert.match(String(await saved('Automaton, SVG', 'krossvil-automaton.svg')), /^<svg /);
  assert.match(String(await saved('Matrix of next states, SVG', 'krossvil-matrix.svg')), /^<svg [^>]*class="krossvil-matrix"/);
  assert.match(String(await saved('Automaton, DOT', 'krossvil-automaton.dot')), /^digraph/);
  assert.match(String(await saved('Waves, VCD', 'krossvil.vcd')), /\$enddefinitions/);
  assert.equal((await saved('Timing diagram, PNG', 'krossvil-diagram.png')).subarray(1, 4).toString(), 'PNG');
});

test('a picture that cannot be saved as PNG is told, and the answer stays', async (t) => {
  const tab = await open(t, 'example=changed-verdict');
  const press = async () => {
    await tab.value("document.getElementById('notice').textContent = ''");
    await tab.click('#save summary');
    await tab.value("[...document.querySelectorAll('#save-list button')].find((button) => button.textContent === 'Timing diagram, PNG').click()");
    await tab.until("document.getElementById('notice').textContent !== ''");
    assert.match(await tab.text('#notice'), /^The picture could not be made as PNG\. Save it as SVG\.$/);
    assert.equal(await tab.text(VERDICT), expected('changed-verdict'));
  };
  const fails = ['HTMLCanvasElement.prototype.toBlob = (then) => then(null)', 'HTMLCanvasElement.prototype.getContext = () => null',
    "Object.defineProperty(Image.prototype, 'src', { set() { this.onerror(); } })"];
  for (const fail of fails) {
    await tab.value(`void (${fail})`);
    await press();
  }
});
