/** How the page looks and is used: on a projector and on a phone, in light and dark, by the keyboard alone. */

import assert from 'node:assert/strict';
import { test } from 'node:test';
import { choose, open, setPane } from './page-world.js';

const PROJECTOR = { width: 1280, height: 800 };
const PHONES = [{ width: 390, height: 844, phone: true }, { width: 320, height: 640, phone: true }];

test('it fits a projector and a phone, in both sizes of type', async (t) => {
  for (const size of [PROJECTOR, ...PHONES]) {
    const tab = await open(t, 'example=changed-verdict', size);
    const wide = () => tab.value('document.documentElement.scrollWidth - innerWidth');
    assert.ok(await wide() <= 0, `${size.width}`);
    await tab.click('#large');
    assert.ok(await wide() <= 0, `${size.width}, large`);
    assert.ok(await tab.value("document.querySelector('#diagram svg').getBoundingClientRect().width <= innerWidth"));
  }
});

test('on a projector the answer, the text, the diagram, the machine and the automaton are in sight while one steps', async (t) => {
  const tab = await open(t, 'example=changed-verdict', PROJECTOR);
  for (const name of ['changed-verdict', 'classroom', 'watchdog']) {
    await choose(tab, name);
    for (let k = 0; k < 5; k++) await tab.click('#next');
    const bottoms = await tab.value(`['#answer', '.number.current', '#diagram', '#machine', '#automaton']
      .map((each) => document.querySelector(each).getBoundingClientRect().bottom)`);
    const bar = await tab.value("document.querySelector('.stepping').getBoundingClientRect().top");
    assert.ok(Math.max(...bottoms) <= bar, `${name}: ${bottoms.join()} and ${bar}`);
  }
});

/** In the page: goes from the whole run through all records, and says where the diagram stands at each, and whether it has its legend. */
const STEPPING = `(() => {
  const look = () => {
    const { left, top, width, height } = document.getElementById('diagram').getBoundingClientRect();
    return { left, top: top + scrollY, width, height, legend: document.querySelectorAll('#diagram .legend').length };
  };
  const [first, next] = ['first', 'next'].map((id) => document.getElementById(id));
  const seen = [look()];
  for (first.click(); !next.disabled; next.click()) seen.push(look());
  return [...seen, look()];
})()`;

test('the diagram stands still while one steps, and keeps its legend', async (t) => {
  for (const size of [{ width: 1920, height: 1080 }, PROJECTOR, PHONES[0]]) {
    const tab = await open(t, 'example=changed-verdict', size);
    for (const name of ['changed-verdict', 'quarry', 'classroom', 'gas-burner']) {
      await choose(tab, name);
      const seen = await tab.value(STEPPING);
      assert.ok(seen.length > 15, name);
      for (const side of ['left', 'top', 'width', 'height']) {
        const places = seen.map((each) => each[side]);
        assert.ok(Math.max(...places) - Math.min(...places) <= 1, `${name}, ${size.width}, ${side}: ${places.join()}`);
      }
      assert.ok(seen.every(({ legend }) => legend === 1), `${name}, ${size.width}`);
    }
  }
});

/** In the page: how much of the text is cut at its side, and how far the last line's number is from the end of the text. */
const WRAPPED = `(() => {
  const field = document.querySelector('.editor:not([hidden]) textarea');
  field.scrollTop = field.scrollHeight;
  field.dispatchEvent(new Event('scroll'));
  const numbers = [...document.querySelectorAll('.editor:not([hidden]) .ordinal')];
  const { paddingBottom, lineHeight } = getComputedStyle(field);
  const foot = field.getBoundingClientRect().top + field.clientTop + field.scrollHeight - field.scrollTop - parseFloat(paddingBottom);
  return { cut: field.scrollWidth - field.clientWidth, last: numbers.at(-1).textContent, lines: field.value.split('\\n').length,
    off: foot - parseFloat(lineHeight) - numbers.at(-1).getBoundingClientRect().top };
})()`;

test('comments can be read to their end, and each number stands at its line', async (t) => {
  for (const size of [PROJECTOR, PHONES[0]]) {
    const tab = await open(t, 'example=changed-verdict', size);
    for (const name of ['classroom', 'quarry', 'gas-burner']) {
      await choose(tab, name);
      for (const pane of ['table', 'journal']) {
        await tab.click(`#tab-${pane}`);
        const { cut, off, last, lines } = await tab.value(WRAPPED);
        assert.deepEqual([cut, last], [0, String(lines)], `${name}, ${pane}, ${size.width}`);
        assert.ok(Math.abs(off) <= 1, `${name}, ${pane}, ${size.width}: ${off}`);
      }
    }
  }
});

test('the margin has the line and the byte that the answer names', async (t) => {
  const tab = await open(t, 'example=quarry', PROJECTOR);
  const named = /refused 28 at (\d+)(line (\d+))/.exec(await tab.text('#answer .line'));
  assert.equal(await tab.text('#pane-journal .number.refused'), named[1]);
  assert.equal(`line ${await tab.text('#pane-journal .ordinal.refused')}`, named[2]);
  const left = () => tab.value("document.querySelector('#pane-journal textarea').getBoundingClientRect().left");
  const before = await left();
  await setPane(tab, 'journal', 'krossvil journal\ninput no_tarin\n');
  assert.equal(await tab.text('#pane-journal .ordinal.mistake'), '2');
  assert.equal(await left(), before, 'a mistake moves nothing to the side');
});

test('the line that is wrong is in sight when an example opens', async (t) => {
  for (const size of [PROJECTOR, PHONES[0]]) {
    const tab = await open(t, 'example=classroom', size);
    for (const name of ['changed-verdict', 'quarry', 'slip-hold-restarted', 'slip-wrong-instant']) {
      await choose(tab, name);
      const [editor, line] = await tab.value(`['#pane-journal', '#pane-journal .number.refused'].map((each) => {
        const { top, bottom } = document.querySelector(each)?.getBoundingClientRect() ?? {}; return { top, bottom }; })`);
      assert.ok(line.top >= editor.top && line.bottom <= editor.bottom, `${name}, ${size.width}: ${JSON.stringify([editor, line])}`);
    }
  }
});

/** In the page: every element that has words of its own, and is seen. */
const WORDS = `[...document.querySelectorAll('body *')].filter((each) => each.getClientRects().length > 0
  && (each.matches('textarea') || [...each.childNodes].some((node) => node.nodeType === 3 && node.data.trim()))
  && !each.closest('script, noscript, option, .unseen, .marks'))`;

/** In the page: words that are smaller than 12 pixels, those of pictures as they are shown. */
const SMALL = `${WORDS}.map((each) => {
  const size = parseFloat(getComputedStyle(each).fontSize) * (each instanceof SVGElement ? each.getScreenCTM().a : 1);
  return [each.textContent.slice(0, 40), size];
}).filter(([, size]) => size < 11.9)`;

test('no word is smaller than 12 pixels', async (t) => {
  for (const size of [PROJECTOR, ...PHONES]) {
    const tab = await open(t, 'example=changed-verdict', size);
    for (const name of ['changed-verdict', 'watchdog', 'gas-burner', 'stutter-filter', 'old-table']) {
      await choose(tab, name);
      assert.ok(await tab.value(`${WORDS}.length`) > 30, name);
      assert.deepEqual(await tab.value(SMALL), [], `${name}, ${size.width}`);
    }
  }
});

test('a picture that is wider than a phone shows what is lit', async (t) => {
  const tab = await open(t, 'example=classroom', PHONES[1]);
  const sides = () => tab.value(`['#automaton', '#automaton .state.lit'].map((each) => document.querySelector(each).getBoundingClientRect())
    .flatMap(({ left, right }) => [left, right])`);
  assert.ok(await tab.value("document.getElementById('automaton').scrollWidth > document.getElementById('automaton').clientWidth"));
  const states = new Set();
  for (let k = 0; k < 16; k++) {
    await tab.click('#next');
    states.add(await tab.value("document.querySelector('#automaton .state.lit').dataset.state"));
    const [left, right, from, to] = await sides();
    assert.ok(from >= left && to <= right, `record ${k}: ${left} ${from} ${to} ${right}`);
  }
  assert.equal(states.size, 2);
});

/** In the page: every piece of text whose contrast to what it stands on is below 4.5. Pictures have colours and tests of their own. */
const FAINT = `(() => {
  const parts = (colour) => colour.match(/[\\d.]+/g).map(Number);
  const light = (colour) => parts(colour).slice(0, 3).map((each) => each / 255)
    .map((each) => (each <= 0.03928 ? each / 12.92 : ((each + 0.055) / 1.055) ** 2.4))
    .reduce((sum, each, k) => sum + each * [0.2126, 0.7152, 0.0722][k], 0);
  const ground = (element) => { for (let each = element; each; each = each.parentElement) { const colour = getComputedStyle(each).backgroundColor;
    if ((parts(colour)[3] ?? 1) > 0) return colour; } return 'rgb(255, 255, 255)'; };
  const seen = ${WORDS}.filter((each) => !each.closest('svg, :disabled'));
  return { count: seen.length, faint: seen.map((each) => { const [a, b] = [light(getComputedStyle(each).color), light(ground(each))];
    return [each.outerHTML.slice(0, 80), (Math.max(a, b) + 0.05) / (Math.min(a, b) + 0.05)]; }).filter(([, ratio]) => ratio < 4.5) };
})()`;

test('words have the contrast that a projector needs, in light and dark', async (t) => {
  const tab = await open(t, 'example=changed-verdict');
  for (let dark = 0; dark < 2; dark++) {
    for (const name of ['classroom', 'changed-verdict', 'old-table', null]) {
      if (name) await choose(tab, name);
      else await setPane(tab, 'table', 'krossvil table\ncycle x\n');
      if (name === 'changed-verdict') for (let k = 0; k < 4; k++) await tab.click('#next');
      const { count, faint } = await tab.value(FAINT);
      assert.ok(count > 20, `${count}`);
      assert.deepEqual(faint, [], `${name}, ${dark}`);
    }
    await tab.click('#dark');
  }
});

const CONTROLS = ['button', 'textbox', 'combobox', 'tab', 'checkbox', 'spinbutton', 'DisclosureTriangle'];

test('every control has a name, and every tab its panel', async (t) => {
  const tab = await open(t, 'example=changed-verdict');
  const { nodes } = await tab.send('Accessibility.getFullAXTree');
  const controls = nodes.filter(({ role, ignored }) => !ignored && CONTROLS.includes(role?.value));
  assert.ok(controls.length > 15);
  for (const node of controls) assert.notEqual(node.name?.value ?? '', '', JSON.stringify(node));
  const tabs = () => tab.value(`[...document.querySelectorAll('[role=tablist] [role=tab]')].map((each) => {
    const panel = document.getElementById(each.getAttribute('aria-controls'));
    return [each.id, each.getAttribute('aria-selected'), each.tabIndex, panel.getAttribute('role') === 'tabpanel'
      && panel.getAttribute('aria-labelledby') === each.id && !panel.hidden].join(' '); })`);
  assert.deepEqual(await tabs(), ['tab-table false -1 false', 'tab-stimulus false -1 false', 'tab-journal true 0 true']);
  await tab.value("document.getElementById('tab-journal').focus()");
  await tab.key('ArrowRight');
  assert.deepEqual(await tabs(), ['tab-table true 0 true', 'tab-stimulus false -1 false', 'tab-journal false -1 false']);
  assert.equal(await tab.value('document.activeElement.id'), 'tab-table');
});

/** In the page: whatever can have the focus, in the order of the document. */
const STOPS = `[...document.querySelectorAll('button, select, summary, textarea, input, a, [tabindex]')]
  .filter((each) => !each.disabled && each.tabIndex >= 0 && each.getClientRects().length > 0)`;

/** In the page: which of them has the focus, how wide its ring is, and whether nothing covers it. */
const FOCUS = `(() => {
  const each = document.activeElement;
  const { outlineStyle, outlineWidth } = getComputedStyle(each.closest('.editor') ?? each);
  const { left, top, width, height } = each.getBoundingClientRect();
  const inSight = [top + 2, top + height - 2].some((y) => each.contains(document.elementFromPoint(left + width / 2, y)));
  return { stop: ${STOPS}.indexOf(each), ring: outlineStyle === 'solid' ? parseFloat(outlineWidth) : 0, inSight };
})()`;

test('the Tab key reaches everything in order, in sight and with a ring', async (t) => {
  for (const size of [PROJECTOR, PHONES[0]]) {
    const tab = await open(t, 'example=changed-verdict', size);
    await tab.click('#tool-compare');
    const count = await tab.value(`${STOPS}.length`);
    assert.ok(count > 20, `${count}`);
    await tab.value('getSelection().collapse(document.body, 0)');
    for (let stop = 0; stop < count; stop++) {
      await tab.key('Tab');
      const name = await tab.value('document.activeElement.outerHTML.slice(0, 60)');
      assert.deepEqual(await tab.value(FOCUS), { stop, ring: 3, inSight: true }, `${size.width}: ${name}`);
    }
  }
});

test('Escape closes the menu and the window, and the focus is not lost', async (t) => {
  const tab = await open(t, 'example=classroom');
  const focused = () => tab.value("document.activeElement.id || document.activeElement.parentElement.id");
  await tab.value("document.querySelector('#save summary').focus()");
  await tab.key('Enter');
  await tab.until("document.querySelectorAll('#save-list button').length > 0");
  await tab.key('Tab');
  assert.equal(await focused(), 'save-list');
  await tab.key('Escape');
  assert.deepEqual([await tab.value("document.getElementById('save').open"), await focused()], [false, 'save']);
  await tab.value("document.getElementById('link').focus()");
  await tab.key('Enter');
  await tab.until("document.getElementById('link-box').open");
  await tab.key('Escape');
  assert.deepEqual([await tab.value("document.getElementById('link-box').open"), await focused()], [false, 'link']);
});

test('keys go on where a button is out of use, or gone', async (t) => {
  const tab = await open(t, 'example=torn-journal');
  await tab.value("document.getElementById('next').focus()");
  const last = await tab.value("Number(/\\d+/.exec(document.getElementById('where').textContent)[0]) - 1");
  for (let k = 0; k <= last; k++) await tab.key('Enter');
  assert.match(await tab.text('#where'), new RegExp(`^record ${last} of ${last},`));
  assert.equal(await tab.value("document.getElementById('next').disabled"), true);
  await tab.key('ArrowLeft');
  assert.match(await tab.text('#where'), new RegExp(`^record ${last - 1} of ${last},`));
  await tab.click('#tool-salvage');
  await tab.value("document.getElementById('tool-put').focus()");
  await tab.key('Enter');
  assert.equal(await tab.value('document.activeElement.id'), 'tab-journal');
});
