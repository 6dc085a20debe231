/** What a reader does with the page, done in the page itself, with a fault in one function after the other. */

/**
 * Runs in the page: everything that it uses stands in it. Timers and frames come at once, so that nothing waits long.
 */
function drive() {
  const later = window.setTimeout;
  window.setTimeout = (then) => later(then, 1);
  window.requestAnimationFrame = (then) => later(then, 0);
  window.cancelAnimationFrame = clearTimeout;
  HTMLAnchorElement.prototype.click = () => {};
  const TABLE = [1, 0, 4, 1, 1, 1, 0, 2, 0, 4, 0, 0, 0, 3, 3, 0, 1, 0, 4, 0, 1, 0, 5, 0, 4, 0, 0, 0, 0, 6, 0, 4, 0, 0, 0, 0];
  const FILES = [['t', TABLE], ['a', [16, 0, 1, 0]], ['b', [16, 0, 1, 0, 31, 0, 4, 0, 0, 0, 0]], ['c', [137, 80, 78, 71]], ['d', [32, 0, 1, 0]]];
  const TEXT = 'krossvil journal\ninput 0\n';
  const ANSWERS = '#live-time, #live-says, #machine, #where, #step-short, #reaction-answer, #reaction-slow, #tool-answer, #together-list, #pane-says, '
    + '#save-list, #tools, .number, #make-says, #blank-says, #blank-choices, #questions';
  const ROOMS = '#pictures, .slot, .stepping, #tools-panel, #reaction-panel, #together, #live-panel, #make-panel, #questions-panel, #blank, #run';

  const id = (name) => document.getElementById(name);
  const all = (selector) => [...document.querySelectorAll(selector)];
  const settle = () => new Promise((done) => later(done, 15));
  const until = async (isSo) => {
    for (let k = 0; k < 40 && !isSo(); k++) await settle();
    return isSo();
  };
  /** Presses a button that is not there yet. */
  const pressSoon = async (selector) => {
    await until(() => document.querySelector(selector));
    document.querySelector(selector)?.click();
  };
  const example = (name) => {
    id('examples').value = name;
    id('examples').dispatchEvent(new Event('change'));
  };
  const liveInput = () => document.querySelector('#live-inputs button').click();
  const journal = document.querySelector('#pane-journal textarea');
  const type = (text) => {
    journal.value += text;
    journal.dispatchEvent(new Event('input', { bubbles: true }));
  };
  const drop = (files) => {
    const dataTransfer = new DataTransfer();
    for (const [name, given] of files) dataTransfer.items.add(new File([typeof given === 'string' ? given : new Uint8Array(given)], name));
    document.body.dispatchEvent(new DragEvent('drop', { dataTransfer, bubbles: true, cancelable: true }));
  };

  const actions = {
    type: () => type('# more\n'),
    mistake: () => type('more\n'),
    go: () => { type('more\n'); document.querySelector('.mistakes button')?.click(); },
    undo: () => { type('#'); id('undo').click(); },
    tab: () => id('tab-table').click(),
    next: () => id('next').click(),
    caret: () => { journal.setSelectionRange(60, 60); journal.dispatchEvent(new KeyboardEvent('keyup')); },
    diagram: () => document.querySelector('#diagram [data-record]').dispatchEvent(new MouseEvent('click', { bubbles: true })),
    drop: () => drop(FILES),
    dropTexts: () => drop([['k', TEXT], ['l', TEXT]]),
    choose: async () => { drop(FILES); await pressSoon('#together-list li:nth-child(2) button'); },
    refuse: () => drop([FILES[3]]),
    compare: () => id('tool-compare').click(),
    put: async () => { id('tool-salvage').click(); await pressSoon('#tool-put'); },
    run: () => { id('tab-stimulus').click(); id('run').click(); },
    stamped: async () => { example('stamped-journal'); await pressSoon('#tool-unstamp'); },
    convert: async () => { example('old-table'); await pressSoon('#tool-convert'); },
    save: async () => { id('save').open = true; await pressSoon('#save-list button'); for (const each of all('#save-list button')) each.click(); },
    live: () => id('live').click(),
    liveBegin: () => liveInput(),
    liveWait: () => { liveInput(); id('live-wait').click(); },
    liveEvent: () => { liveInput(); id('live-poll').click(); },
    liveHand: () => { liveInput(); id('live-hand').click(); },
    liveClaim: () => { liveInput(); document.querySelector('#live-verdicts button').click(); },
    liveClock: async () => { liveInput(); id('live-clock').dispatchEvent(new Event('pointerdown')); await settle();
      id('live-clock').dispatchEvent(new Event('pointerup')); },
    liveNew: () => { liveInput(); id('live-new').click(); },
    makeShown: () => { id('make-told').value = 'each'; id('make-shown').click(); },
    makeAbout: () => { id('make-seed').value = '1'; id('make-topic').dispatchEvent(new Event('change')); id('make-about').click(); },
    answer: async () => { id('make-shown').click(); await settle(); id('blank-next').click(); await pressSoon('#blank-choices button'); },
    key: async () => { id('make-shown').click(); await settle(); for (const key of ['n', '1']) document.body.dispatchEvent(new KeyboardEvent('keydown', { key })); },
    makeUntold: () => { id('make-told').value = 'end'; id('make-shown').click(); },
    tell: async () => {
      id('make-told').value = 'end'; id('make-shown').click(); await settle();
      journal.value = journal.value.replaceAll('?', '? 0'); type('');
      await settle(); id('blank-tell').click();
    },
    question: () => id('make-question').click(),
    answerQuestion: async () => {
      id('make-question').click(); await settle();
      const field = document.querySelector('#questions input'); field.value = '3'; field.dispatchEvent(new Event('change', { bubbles: true }));
    },
    badExercise: () => { journal.value = journal.value.replace('journal', 'exercise'); type(''); },
    link: () => id('link').click(),
    dark: () => id('dark').click(),
    print: () => window.dispatchEvent(new Event('beforeprint')),
    react: () => { const box = document.querySelector('#reaction-states input'); if (!box.checked) box.click(); box.click(); },
    slow: async () => { id('slow').click(); await until(() => /this run|No run/.test(id('reaction-slow').textContent)); },
    example: () => example('gas-burner'),
    address: () => { location.hash = '#text=a3Jvc3N2aWwgdGFibGUK'; },
  };

  /** An answer with everything that belongs to it. What was done before may still come to its end, as files that are read: then once more. */
  const begin = async () => {
    window.fault = '';
    for (let k = 0; k < 20; k++) {
      id('link-box').close();
      example('changed-verdict');
      await settle();
      window.hits = 0;
      if (await until(() => id('verdict')?.textContent === 'refused 28 at 76' && document.querySelector('#diagram svg'))) return true;
    }
    return false;
  };

  /** What the page still shows of an answer. */
  const left = () => [
    ['verdict', (id('verdict') ?? id('answer')).textContent.replace('Nothing is answered', '')],
    ['badges', all('.badge').map((each) => each.textContent).join('')],
    ['words', all(ANSWERS).map((each) => each.textContent).join('')],
    ['paper', id('paper').textContent.replace('Nothing is answered.', '')],
    ['spoken', id('spoken').textContent.replace(/^Nothing is answered.*/, '')],
    ['pictures', all('main svg, .band').map((each) => each.outerHTML.slice(0, 40)).join()],
    ['rooms', all(ROOMS).filter((each) => each.checkVisibility()).map((each) => each.id || each.className).join()],
    ['open', all('#link-box[open], #save[open]').map((each) => each.id).join()],
  ].filter(([, what]) => what !== '');

  /** Of each function that is run by what a reader does: the first thing that runs it. */
  const reach = async () => {
    const found = {};
    for (const [action, act] of Object.entries(actions)) {
      await begin();
      window.reached = new Set();
      await act();
      for (let k = 0; k < 5; k++) await settle();
      for (const name of window.reached) found[name] ??= action;
    }
    return found;
  };

  /** What is wrong after a fault in this function; nothing if all is well. */
  const tryOne = async ([name, first]) => {
    for (const action of [first, ...Object.keys(actions)]) {
      if (!await begin()) return [name, 'no answer to begin with'];
      window.fault = name;
      await Promise.resolve().then(actions[action]).catch(() => {});
      if (await until(() => window.hits > 0)) break;
    }
    return await until(() => window.hits > 0 && left().length === 0) ? null : [name, window.hits, ...left()];
  };

  window.driver = { reach, tryOne };
}

export const DRIVER = `(${drive})()`;
