/** The manual page and the completion, made of the list of commands. `node kit/deb/manual.js manual|completion` prints one of them. */

import { readFileSync } from 'node:fs';
import { COMMANDS } from '../command/commands.js';
import { EXITS, FILES, GROUPS, optionWords, optionsOf, usage } from '../command/help.js';
import { COMMON, OPTIONS } from '../command/options.js';
import { TOPICS } from '../exercise/topics.js';
import { SHOWN } from '../table-picture.js';

/** As text of a manual page: backslashes, hyphens and a dot or an apostrophe that begins a line. */
const roff = (/** @type {string} */ text) => text.replaceAll('\\', '\\e').replaceAll('-', '\\-').replace(/^([.'])/gm, '\\&$1');

/** @param {string} name */
function ofCommand(name) {
  const { says, more, examples } = COMMANDS[name];
  return [
    `.SS ${name}`, `.B ${roff(usage(name))}`, '.PP', roff(`${says[0].toUpperCase()}${says.slice(1)}.`), roff(more.join(' ')),
    ...COMMANDS[name].options.flatMap((option) => ['.TP', `.B ${roff(optionWords(option))}`, roff(OPTIONS[option].says)]),
    ...examples.flatMap(([line, does]) => ['.PP', `.EX`, roff(`  ${line}`), `.EE`, `.RS 6`, roff(`${does}`), '.RE']),
  ];
}

/** The manual page. */
export function manual() {
  return [
    '.TH KROSSVIL 1', '.SH NAME', 'krossvil \\- check, run, explain and draw polling controllers and their journals', '.SH SYNOPSIS',
    '.B krossvil', roff('COMMAND FILE... [-o FILE] [options]'), '.SH DESCRIPTION',
    roff('Polling controllers (PLC-Automata) poll an input, test it and tick. krossvil checks their tables and journals, runs them, '
      + 'explains and draws them. Every answer, number and place is that of a proved library; reading of texts, sentences and pictures '
      + 'are not proved.'),
    ...FILES.flatMap((words) => ['.PP', roff(words)]),
    '.SH OPTIONS', ...COMMON.flatMap((option) => ['.TP', `.B ${roff(optionWords(option))}`, roff(OPTIONS[option].says)]),
    '.TP', `.B ${roff('krossvil --version')}`, 'the version, and the sum of the library, alone or with \\-\\-json as an object',
    '.SH COMMANDS', ...GROUPS.flatMap((group) => Object.keys(COMMANDS).filter((name) => COMMANDS[name].group === group).flatMap(ofCommand)),
    '.SH EXIT STATUS', ...EXITS.flatMap(([code, says]) => ['.TP', `.B ${code}`, roff(says)]),
    '.SH FILES', '.TP', '.I /usr/share/doc/krossvil/examples', 'ready examples',
    '.TP', '.I /usr/share/krossvil/krossvil.html', 'the live page', '',
  ].join('\n');
}

/** The completion for bash. */
export function completion() {
  const words = (/** @type {string} */ option) => [`--${option}`, ...(OPTIONS[option].short ? [`-${OPTIONS[option].short}`] : [])];
  const names = Object.keys(COMMANDS);
  const options = names.map((name) => `${name}) options='${optionsOf(name).flatMap(words).join(' ')}' ;;`);
  return readFileSync(new URL('completion.bash', import.meta.url), 'utf8')
    .replaceAll('@COMMANDS@', names.join(' ')).replace('@SHOWN@', SHOWN.join(' '))
    .replace('@TOPICS@', TOPICS.map(({ name }) => name).join(' ')).replace('@OPTIONS@', options.join('\n    '));
}

const [what] = process.argv.slice(2);
if (what === 'manual') process.stdout.write(manual());
if (what === 'completion') process.stdout.write(completion());
