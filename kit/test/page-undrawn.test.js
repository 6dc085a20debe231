/** Where the texts have no answer, nothing of an old one is left, nothing moves while one types, and one sentence says why. */

import assert from 'node:assert/strict';
import { execFileSync } from 'node:child_process';
import { test } from 'node:test';
import { caretBehind, choose, expected, open } from './page-world.js';

const WIDE = [{ width: 1920, height: 1080 }, { width: 1280, height: 800 }];
const PHONE = { width: 390, height: 844, phone: true };
const ROOMS = ['#answer', '.write', '.editor:not([hidden])', '.foot', '#automaton-beside', '#diagram', '#machine', '#automaton-below',
  '#tools-panel', '#reaction-panel', '.note', '.stepping', '.top'];

/** In the page: where everything stands. */
const PLACES = `${JSON.stringify(ROOMS)}.map((room) => {
  const { left, top, width, height } = document.querySelector(room).getBoundingClientRect();
  return { room, left, top: top + scrollY, width, height };
})`;

/** In the page: what an answer says, in words that stand in no text of the reader's. */
const SAID = `['#verdict', '#answer .sentences', '#where', '#diagram svg > desc', '#reaction-answer .line', '#reaction-answer p:last-child']
  .map((each) => document.querySelector(each)).concat(...document.querySelectorAll('#machine dt')).map((each) => each?.textContent ?? '')
  .filter((words) => words.length > 10)`;

/** In the page: pictures that are there, in sight or not, and what is left of other answers. */
const LEFT = `['#diagram svg', '#machine > *', '#automaton svg', '#reaction-picture svg', '#reaction-answer strong', '#tools button', '#paper svg']
  .filter((each) => document.querySelector(each))`;

/** In the page: the sentences that say why nothing is drawn. */
const UNDRAWN = `[...document.querySelectorAll('.undrawn')].filter((each) => each.checkVisibility({ visibilityProperty: true }))
  .map((each) => each.textContent)`;

function assertStill(before, now, what) {
  for (const [k, { room, ...place }] of before.entries()) {
    for (const [side, at] of Object.entries(place)) {
      assert.ok(Math.abs(now[k][side] - at) <= 1, `${what}: ${room}, ${side}: ${at}, then ${now[k][side]}`);
    }
  }
}

/** Every name and value of the accessibility tree that does not stand in a text field. */
async function spokenTree(tab) {
  const { nodes } = await tab.send('Accessibility.getFullAXTree');
  const fields = new Set(nodes.filter(({ role }) => role?.value === 'textbox').flatMap(({ childIds }) => childIds));
  for (const node of nodes) if (fields.has(node.nodeId)) for (const child of node.childIds) fields.add(child);
  return nodes.filter(({ ignored, nodeId }) => !ignored && !fields.has(nodeId)).map(({ name }) => name?.value ?? '').join('\n');
}

async function printedWords(tab) {
  const { data } = await tab.send('Page.printToPDF', {});
  return execFileSync('pdftotext', ['-raw', '-', '-'], { input: Buffer.from(data, 'base64'), encoding: 'utf8' }).replace(/\s+/g, ' ');
}

/** Until the answer was spoken, which comes a little after it is seen. */
const untilSpoken = (tab) => tab.until("document.getElementById('spoken').textContent !== ''");

/** A mistake that is typed behind these words of a pane. */
const TYPED = [
  { pane: 'journal', behind: 'krossvil journal', types: 'x' },
  { pane: 'table', behind: 'krossvil table', types: 'x' },
  { pane: 'table', behind: 'krossvil table', types: '\nq\nw\ne\nr\nt\ny' },
];

for (const { width, ...size } of [...WIDE, PHONE]) {
  test(`nothing moves while mistakes are typed and mended, ${width} wide`, async (t) => {
    const tab = await open(t, 'example=classroom', { width, ...size });
    for (const name of ['changed-verdict', 'classroom', 'quarry', 'gas-burner', 'watchdog']) {
      for (const { pane, behind, types } of TYPED) {
        await choose(tab, name);
        await caretBehind(tab, pane, behind);
        const before = await tab.value(PLACES);
        for (const letter of types) {
          await tab.type(letter);
          assertStill(before, await tab.value(PLACES), `${name}, ${pane}, ${letter}`);
        }
        for (const _ of types) await tab.key('Backspace');
        assertStill(before, await tab.value(PLACES), `${name}, ${pane}, mended`);
        assert.deepEqual(await tab.value(UNDRAWN), []);
      }
    }
  });
}

const OF_TABLE = ['Automaton, SVG', 'Matrix of next states, SVG', 'Automaton, DOT'];

/** Nothing of what was said before is spoken or printed. Gives what can be saved. */
async function assertGone(tab, said, what) {
  const [spoken, printed] = [await spokenTree(tab), await printedWords(tab)];
  for (const words of said) {
    assert.ok(!spoken.includes(words), `${what}, spoken: ${words}`);
    assert.ok(!printed.includes(words), `${what}, printed: ${words}`);
  }
  await tab.click('#save summary');
  const saved = await tab.value("[...document.querySelectorAll('#save-list button:enabled')].map((each) => each.textContent)");
  await tab.click('#save summary');
  return saved;
}

test('beside a mistake nothing old is seen, spoken, printed or saved, and a sentence names the line to mend', async (t) => {
  for (const size of [...WIDE, PHONE]) {
    const tab = await open(t, 'example=changed-verdict', size);
    const said = await tab.value(SAID);
    assert.ok(said.length > 6 && said.includes(expected('changed-verdict')));
    await untilSpoken(tab);
    await caretBehind(tab, 'journal', 'input no_train');
    await tab.type('x');
    assert.deepEqual(await tab.value(LEFT), ['#automaton svg', '#reaction-picture svg', '#reaction-answer strong']);
    assert.equal(await tab.value("document.querySelectorAll('#automaton .lit').length"), 0, 'no state of an old journal is lit');
    assert.deepEqual(await tab.value(UNDRAWN), ['Nothing is drawn here: line 2 of the journal has a mistake.']);
    const ofJournal = said.filter((words) => !/^(at most|As long as|The longest)/.test(words));
    assert.ok(ofJournal.length < said.length);
    const saved = await assertGone(tab, ofJournal, `${size.width}, journal`);
    assert.deepEqual(saved, ['All texts', 'Table, as bytes', 'Stimulus, as bytes', ...OF_TABLE]);
    await caretBehind(tab, 'table', 'start   idle');
    await tab.type('x');
    assert.deepEqual(await tab.value(LEFT), []);
    assert.deepEqual(await tab.value(UNDRAWN), ['Nothing is drawn here: line 5 of the table has a mistake.']);
    assert.deepEqual(await assertGone(tab, said, `${size.width}, table`), ['All texts', 'Stimulus, as bytes']);
    await tab.click('#tab-journal');
    await tab.click('.undrawn button');
    assert.equal(await tab.value("document.activeElement.closest('.editor')?.id"), 'pane-table');
  }
});

test('nor beside a table that is refused; what the reader chose is there again when it is mended', async (t) => {
  const tab = await open(t, 'example=changed-verdict', WIDE[1]);
  await tab.click('#reaction-states input');
  const chosen = () => tab.value("[...document.querySelectorAll('#reaction-form input')].map((each) => each.checked).join()");
  const [sets, said, before] = [await chosen(), await tab.value(SAID), await tab.value(PLACES)];
  await untilSpoken(tab);
  await caretBehind(tab, 'table', 'cycle   3');
  await tab.key('Backspace');
  await tab.type('0');
  assert.match(await tab.text('#verdict'), /^refused \d+ at \d+$/);
  assert.deepEqual(await tab.value(LEFT), []);
  assert.deepEqual(await tab.value(UNDRAWN), ['Nothing is drawn here: the table is refused, at line 2.']);
  const bytes = ['Table, as bytes', 'Stimulus, as bytes', 'Journal, as bytes'];
  assert.deepEqual(await assertGone(tab, said, 'refused'), ['All texts', ...bytes]);
  await tab.key('Backspace');
  await tab.type('3');
  assert.equal(await chosen(), sets);
  await tab.click('#tab-journal');
  assertStill(before, await tab.value(PLACES), 'mended');
});

test('texts that come from elsewhere with a mistake keep no room of those before', async (t) => {
  const tab = await open(t, 'text=a3Jvc3N2aWwgdGFibGUKeA', WIDE[1]);
  assert.deepEqual([await tab.value(UNDRAWN), await tab.value(LEFT)], [[], []]);
  assert.equal(await tab.value("document.getElementById('pictures').checkVisibility()"), false);
  await choose(tab, 'changed-verdict');
  await caretBehind(tab, 'table', 'krossvil table');
  await tab.type('x');
  await tab.value("location.hash = '#text=a3Jvc3N2aWwgdGFibGUKeA'");
  await tab.until("document.querySelector('#pane-journal textarea').value === ''");
  await tab.frames();
  assert.deepEqual([await tab.value(UNDRAWN), await tab.value(LEFT)], [[], []]);
  const seen = "['#pictures', '.slot', '#tools-panel', '#reaction-panel'].filter((each) => document.querySelector(each).checkVisibility())";
  assert.deepEqual(await tab.value(seen), []);
});
