/** The help: of all commands, and of one. */

import { COMMANDS } from './commands.js';
import { examplesFolder } from './library-file.js';
import { COMMON, OPTIONS } from './options.js';

const WIDTH = 100;

export const GROUPS = /** @type {const} */ (['in class', 'in the yard', 'at the desk']);

/** What is true of all commands. */
export const FILES = [
  'A FILE is bytes, or a text that begins with the word krossvil; - is the standard input. A text may hold a table and its journal and '
    + 'stimulus together: then it is named once. Names come from the table\'s text, or from --names TEXT.',
  '-o FILE writes to FILE, and its ending says the form. FILE is none of those that are read, and an old one is replaced once all is written. '
    + '--plain leaves sentences out.',
  '--json gives one object on one line for each answer, and for each failure, on the standard output. Of a failure its "answer" is refused, or '
    + 'not asked where the exit is 2, and "says" has the sentences.',
];

const MADE = 'table.bin is made with: krossvil bytes classroom.kv --as table -o table.bin; journal.bin likewise.';

export const EXITS = [
  ['0', 'accepted, or done'],
  ['1', 'refused'],
  ['2', 'could not be asked: no such file, a mistake in a text or in the command, a package that is missing'],
];

/**
 * @param {string} text @param {number} [width] @param {string} [indent]
 */
export function filled(text, width = WIDTH, indent = '') {
  const lines = [''];
  for (const word of text.split(' ')) {
    const last = lines[lines.length - 1];
    if (last !== '' && last.length + 1 + word.length > width - indent.length) lines.push(word);
    else lines[lines.length - 1] = last === '' ? word : `${last} ${word}`;
  }
  return lines.map((line) => indent + line).join('\n');
}

/** @param {string} name */
export function optionWords(name) {
  const { short, value } = OPTIONS[name];
  const long = name === 'output' ? `-${short} ${value}` : `--${name}${value ? ` ${value}` : ''}`;
  return short && name !== 'output' ? `-${short}, ${long}` : long;
}

/** @param {string} name */
export const usage = (name) => `krossvil ${name} ${COMMANDS[name].files}${COMMANDS[name].options.includes('output') ? ' [-o FILE]' : ''} [options]`;

/** The options of a command. */
export const optionsOf = (/** @type {string} */ name) => [...COMMANDS[name].options, ...COMMON];

/** Of all commands. */
export function generalHelp() {
  const line = (/** @type {string} */ name) => `  ${name.padEnd(8)} ${COMMANDS[name].files.padEnd(28)} ${COMMANDS[name].says}`;
  const groups = GROUPS.flatMap((group) => [group, ...Object.keys(COMMANDS).filter((name) => COMMANDS[name].group === group).map(line)]);
  return [
    'krossvil COMMAND FILE... [-o FILE] [options]', '',
    filled('Check, run, explain and draw polling controllers (PLC-Automata) and their journals. Every answer is that of a proved library.'), '',
    ...groups, '',
    ...FILES.flatMap((words) => [filled(words), '']),
    ...EXITS.map(([code, says]) => `exit ${code}  ${says}`), '',
    'To begin, in a folder with the examples:',
    `  cp ${examplesFolder()}/*.kv .`,
    '  krossvil check changed-verdict.kv',
    '  krossvil picture changed-verdict.kv -o changed-verdict.svg', '',
    'krossvil COMMAND --help has more, and an example to type. krossvil --version has the version, and the sum of the library.', '',
  ].join('\n');
}

/**
 * Of one command.
 * @param {string} name
 */
export function commandHelp(name) {
  const { says, more, examples } = COMMANDS[name];
  const option = (/** @type {string} */ each) => `  ${optionWords(each).padEnd(18)} ${OPTIONS[each].says}`;
  return [
    usage(name), '', filled(`${says[0].toUpperCase()}${says.slice(1)}.`), '', filled(more.join(' ')), '',
    ...optionsOf(name).map(option), '',
    examples.length > 1 ? 'Examples:' : 'Example:', ...examples.flatMap(([line, does]) => [`  ${line}`, `      ${does}`]), '',
    `The texts of the examples are in ${examplesFolder()}.`,
    ...(examples.some(([line]) => line.includes('table.bin ')) ? [MADE] : []), '',
  ].join('\n');
}
