/** All commands: what each is given, does and says. The help, the manual page and the completion are made of this list. */

/**
 * @typedef {Object} Command
 * @property {'in class'|'in the yard'|'at the desk'} group
 * @property {string} files        as the usage has them
 * @property {[number, number]} count   of files, the least and the most
 * @property {string} says         in a few words
 * @property {string[]} more       sentences
 * @property {string[]} options    besides those that every command takes
 * @property {boolean} [writes]    without -o what it makes goes to the standard output
 * @property {[string, string][]} examples   a line to type, and what it does
 * @property {() => Promise<any>} module   what it does is exported there under the command's name, and gives the exit code
 */

const ANY = Infinity;
const PICTURE = ['title', 'width', 'dark'];

/** @type {Record<string, Command>} */
export const COMMANDS = {
  check: {
    group: 'in class', files: 'TABLE [JOURNAL...]', count: [1, ANY], options: ['as'], module: () => import('./check.js'),
    says: 'is each journal a run of the table? if not, why not',
    more: ["The first line is the proved checker's: accepted with its numbers, or refused with the number and the byte.",
      'Without a journal, the one in the text of the table is checked; if there is none, the table alone.',
      'A folder stands for the files in it.'],
    examples: [
      ['krossvil check classroom.kv', 'the table and the journal in one text'],
      ['krossvil check changed-verdict.kv', 'a journal that is refused, and why'],
      ['krossvil check table.bin journal.bin --names classroom.kv', 'bytes from a controller, with names'],
      ['krossvil check table.bin journal.bin journal.bin --json', 'many journals, for a script'],
    ],
  },
  explain: {
    group: 'in class', files: 'TABLE [JOURNAL]', count: [1, 2], options: ['as'], module: () => import('./records.js'),
    says: 'every record in a sentence',
    more: ['Each record up to the end, or to the one that is refused: its byte, its line, and why it is so.'],
    examples: [['krossvil explain classroom.kv', 'why each test is held or free']],
  },
  compare: {
    group: 'in class', files: 'TABLE [JOURNAL]', count: [1, 2], options: ['as'], module: () => import('./records.js'),
    says: 'every record that differs from the run',
    more: ['What the controller found by itself is stripped from the journal, the proved runtime runs the stimulus that is left, and each record '
      + 'that differs is shown, not only the first.'],
    examples: [['krossvil compare quarry.kv', 'two records of the quarry are wrong']],
  },
  run: {
    group: 'in class', files: 'TABLE [STIMULUS]', count: [1, 2], options: ['output'], module: () => import('./conversions.js'), writes: true,
    says: 'the journal that the machine writes',
    more: ['With -o FILE.kv as text, with any other ending as bytes; without -o the text is printed.'],
    examples: [
      ['krossvil run classroom.kv', 'prints the journal'],
      ['krossvil run classroom.kv -o journal.bin', 'writes it as a controller would'],
    ],
  },
  picture: {
    group: 'in class', files: 'TABLE [JOURNAL]', count: [1, 2], options: ['output', 'as', ...PICTURE, 'begin', 'until'],
    module: () => import('./pictures.js'), writes: true,
    says: 'the timing diagram (.svg .png .pdf)',
    more: ['The refused record is ringed in red, and the sentences stand below. .png and .pdf need the package librsvg2-bin.'],
    examples: [
      ['krossvil picture quarry.kv -o quarry.svg', 'for a page or a slide'],
      ['krossvil picture quarry.kv -o quarry.png --title "The quarry"', 'with a title of its own'],
    ],
  },
  draw: {
    group: 'in class', files: 'TABLE', count: [1, 1], options: ['output', 'show', ...PICTURE, 'graphviz'],
    module: () => import('./pictures.js'), writes: true,
    says: 'the automaton, or the matrix of next states (.svg .png .pdf .dot)',
    more: ['Where the arrows of the automaton would be a tangle, the matrix is drawn; --show says which of the two is wanted.',
      '.png and .pdf need the package librsvg2-bin, --graphviz needs graphviz.'],
    examples: [
      ['krossvil draw classroom.kv -o classroom.svg', 'the two states and their arrows'],
      ['krossvil draw gas-burner.kv --show matrix -o gas-burner.svg', 'a row for each state, a column for each input'],
      ['krossvil draw classroom.kv -o classroom.dot', 'for Graphviz'],
    ],
  },
  exercise: {
    group: 'in class', files: 'TABLE [STIMULUS]', count: [1, 2],
    options: ['output', 'about', 'seed', 'length', 'blank', 'told', 'answers', 'from', 'while', 'moves'],
    module: () => import('./exercise.js'), writes: true,
    says: 'a journal with blanks; or, of one that is filled in, what is right',
    more: ['A value that is asked is a question mark: 5 test ? The answer goes behind it: 5 test ? held. What is right is nowhere in the text; the '
      + 'runtime finds it. With an exercise in the place of the stimulus it is said how many answers are right, what the checker says of the first '
      + 'wrong one, and which wrong rule gives just these answers, if one does.',
    'With --from, --while or --moves a reaction time is asked.',
    'With --about the stimulus is drawn by chance, so that those who have the rule wrong answer otherwise at two blanks at least. The topics are: '
      + 'poll, an input is seen only if it stands at a poll; entry, a hold runs from the entry; delayed, it governs only the inputs that are '
      + "delayed; passed, it ends when it is passed; test, it is measured at the test; change, it does not run from the input's change; region, a "
      + 'timer runs on inside its region.'],
    examples: [
      ['krossvil exercise classroom.kv -o exercise.kv', 'every value that the machine finds is asked'],
      ['krossvil exercise classroom.kv --blank test --told end', 'the verdicts only, told at the end'],
      ['krossvil exercise classroom.kv --about entry --seed 7 --length 15', 'those who start the hold again at each tick are found out'],
      ['krossvil exercise stutter-filter.kv --while no_tr', 'how long at most until "no train" is reported?'],
    ],
  },
  sheet: {
    group: 'in class', files: 'TABLE [STIMULUS]', count: [1, 2], options: ['output', 'title', 'paper', 'blank'], module: () => import('./sheet.js'), writes: true,
    says: 'a worksheet of a run and its solutions (.html .pdf)',
    more: ['The table as automaton and as text, the diagram with empty verdicts and states, and lines for answers; on the next sheet the solutions.',
      '.pdf needs the package chromium, whose own print makes it; .html is printed by any browser.'],
    examples: [
      ['krossvil sheet classroom.kv -o classroom.html', 'open classroom.html and print it'],
      ['krossvil sheet classroom.kv -o classroom.html --paper letter --title "Trains"', 'for paper of another size, with a title of its own'],
    ],
  },
  page: {
    group: 'in class', files: '[TABLE [JOURNAL] [STIMULUS]]', count: [0, 3], options: ['output', 'title'],
    module: () => import('./page.js'), writes: true,
    says: 'the live page with these files inside, one HTML file',
    more: ['It works from a folder, without a network: edit, step through the records, see the answer at each keystroke.'],
    examples: [['krossvil page quarry.kv -o quarry.html', 'open quarry.html in a browser']],
  },
  text: {
    group: 'in class', files: 'FILE...', count: [1, 5], options: ['output', 'as'], module: () => import('./notation.js'), writes: true,
    says: 'bytes as text (any bytes)',
    more: ['Several files become one text, each with the names of the table among them. Any bytes have a text that gives them back.'],
    examples: [
      ['krossvil text table.bin journal.bin -o run.kv', 'a table and its journal as one text'],
      ['krossvil text journal.bin --names classroom.kv', 'with names'],
    ],
  },
  bytes: {
    group: 'in class', files: 'TEXT', count: [1, 1], options: ['output', 'as'], module: () => import('./notation.js'), writes: true,
    says: 'text as bytes (broken ones too)',
    more: ['Nothing is judged: what the text says is written. A mistake in the text is shown with its line and column.'],
    examples: [['krossvil bytes classroom.kv --as journal -o journal.bin', 'the journal of the text']],
  },
  watch: {
    group: 'in the yard', files: 'TABLE [JOURNAL]', count: [1, 2], options: ['follow'], module: () => import('./watch.js'),
    says: 'is a journal of any length a run of the table? if not, why not',
    more: ['The journal is read record by record, from a file or a pipe, and is never in memory as a whole. A record that is refused is said '
      + 'at once, with its byte in all that was read, and what follows is not read.',
    'With --follow a file that grows is read on until its end record stands there, or one that is refused.',
    'A slip that explains a whole journal is looked for by `check` only.'],
    examples: [
      ['krossvil watch table.bin journal.bin', 'of many records, as a controller leaves them in a season'],
      ['krossvil watch table.bin journal.bin --follow', 'while the controller writes it'],
    ],
  },
  left: {
    group: 'in the yard', files: 'TABLE [JOURNAL]', count: [1, 2], options: ['as'], module: () => import('./records.js'),
    says: 'what holds at the end of the journal, and for how long',
    more: ['If the journal is refused, what holds at the end of what was accepted.'],
    examples: [['krossvil left torn-journal.kv', 'the state, its entry, and from when on it can be left']],
  },
  salvage: {
    group: 'in the yard', files: 'TABLE [JOURNAL]', count: [1, 2], options: ['output'], module: () => import('./conversions.js'), writes: true,
    says: 'what is sound of a torn journal',
    more: ['What is kept ends with the last sound tick and is closed, so that it is accepted.'],
    examples: [['krossvil salvage torn-journal.kv -o saved.bin', 'how many bytes are kept, and what stopped it']],
  },
  short: {
    group: 'in the yard', files: 'TABLE [JOURNAL]', count: [1, 2], options: ['output'], module: () => import('./conversions.js'), writes: true,
    says: 'a journal as a short journal', more: ['A short journal has gaps in the place of times, and six bytes for a record instead of eight.'],
    examples: [['krossvil short classroom.kv -o short.bin', 'for a memory card that fills']],
  },
  long: {
    group: 'in the yard', files: 'TABLE [SHORT]', count: [1, 2], options: ['output'], module: () => import('./conversions.js'), writes: true,
    says: 'a short journal as a journal', more: ['It is the journal that the short one stands for.'],
    examples: [['krossvil long short-journal.kv', 'prints the journal']],
  },
  unstamp: {
    group: 'in the yard', files: '[TABLE] STAMPED', count: [1, 2], options: ['output'], module: () => import('./conversions.js'), writes: true,
    says: 'a journal with stamps of 16 bits as a journal', more: ['The table is not needed; it gives the names.'],
    examples: [['krossvil unstamp stamped-journal.kv', 'prints the journal with its times']],
  },
  convert: {
    group: 'in the yard', files: 'TABLE', count: [1, 1], options: ['output'], module: () => import('./conversions.js'), writes: true,
    says: 'a table that an older check let pass, as it passes now',
    more: ['Inputs that are delayed in a state without a hold, which never had an effect, are taken out.'],
    examples: [['krossvil convert old-table.kv -o table.bin', 'how many states were changed']],
  },
  dwell: {
    group: 'in the yard', files: 'TABLE [JOURNAL...]', count: [1, ANY], options: ['output', 'as', ...PICTURE], module: () => import('./dwell.js'),
    says: 'where the time went, over up to 1,000 journals (plot: .svg .png .pdf)',
    more: ['--plain gives the lines of the program `dwell`, which a spreadsheet reads. A journal that is refused is said, and not counted.',
      'A folder stands for the files in it.'],
    examples: [
      ['krossvil dwell classroom.kv', 'the time in each state'],
      ['krossvil dwell table.bin journal.bin journal.bin -o dwell.svg', 'with a plot'],
    ],
  },
  react: {
    group: 'at the desk', files: 'TABLE', count: [1, 1], options: ['from', 'while', 'moves', 'tight'], module: () => import('./react.js'),
    says: 'the reaction time: --from STATES --while INPUTS',
    more: ['While the state is one of STATES and the input one of INPUTS: after how long at most is the state one of the target, and which is that?',
      'A name with a comma or a blank stands in quotation marks, and so that the shell keeps them, the whole in apostrophes.'],
    examples: [
      ['krossvil react stutter-filter.kv --while no_tr', 'how long until "no train" is reported for sure'],
      ['krossvil react classroom.kv --from busy,idle --while no_train', 'states by their names'],
      ['krossvil react classroom.kv --while no_train --tight', 'and the tight time'],
      ['krossvil react watchdog.kv --while silence --moves 2', 'how long until two silent moves have led to the alarm'],
      ['krossvil react classroom.kv --while train --json', 'numbers for a script'],
    ],
  },
  slow: {
    group: 'at the desk', files: 'TABLE', count: [1, 1], options: ['output', 'from', 'while', 'moves', 'seconds'],
    module: () => import('./slow.js'), writes: true,
    says: 'a run that takes as long as could be found: --from STATES --while INPUTS',
    more: ['A journal, accepted by the proved checker, in which the state stays one of STATES and the input one of INPUTS for as many slots as could be '
      + 'found, and the state is still outside the target. It shows which times are not enough.',
    'The search stops where the tight time of one move is reached, or when its seconds are over.'],
    examples: [
      ['krossvil slow classroom.kv --while no_train', 'eleven slots without a train, and still busy'],
      ['krossvil slow mixer.kv --while stop --moves 3 -o slow.kv', 'over several moves, as a text'],
    ],
  },
  export: {
    group: 'at the desk', files: 'LANGUAGE TABLE', count: [2, 2], options: ['output', 'while', 'states', 'within', 'hold', 'scale'],
    module: () => import('./export.js'), writes: true,
    says: 'the automaton for a model checker (promela, uppaal), or the table for a program (c, rust)',
    more: ['promela is for spin, in whole units; uppaal has the clocks of the report. Without more it is the automaton alone.',
      '--within C adds: where the state is one of --states and the input one of --while for C, the state is in the target. --hold adds: no state is '
      + 'left too soon.',
      'docs/MODELS.md has a question of an engineer, from the table to the answer.'],
    examples: [
      ['krossvil export promela classroom.kv --hold -o classroom.pml', 'then: spin -search -bfs classroom.pml'],
      ['krossvil export promela classroom.kv --while no_train --within 12', 'twelve slots without a train are enough'],
      ['krossvil export uppaal gas-burner.kv -o gas-burner.xml', 'then open it in UPPAAL'],
      ['krossvil export c classroom.kv -o table.h', 'bytes and names, for a controller'],
    ],
  },
  wave: {
    group: 'at the desk', files: 'TABLE [JOURNAL]', count: [1, 2], options: ['output', 'as', 'unit'],
    module: () => import('./pictures.js'), writes: true,
    says: 'a .vcd file for GTKWave (.gtkw: with the signals shown)',
    more: ['Names, numbers, phases and events as signals; `refused` rises where the journal is refused.',
      '-o FILE.gtkw writes FILE.vcd, and in FILE.gtkw what GTKWave is to show of it.'],
    examples: [
      ['krossvil wave classroom.kv -o classroom.vcd', 'then: gtkwave classroom.vcd, and pick signals'],
      ['krossvil wave quarry.kv -o quarry.gtkw', 'then: gtkwave quarry.gtkw, and the signals are shown'],
    ],
  },
};
