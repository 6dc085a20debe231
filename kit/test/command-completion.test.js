/** The completion, in a bash at a terminal: keys are typed, and what the shell then hands to the command is looked at. */

import assert from 'node:assert/strict';
import { spawnSync } from 'node:child_process';
import { existsSync, mkdirSync, mkdtempSync, rmSync, writeFileSync } from 'node:fs';
import { tmpdir } from 'node:os';
import { join } from 'node:path';
import { after, test } from 'node:test';
import { completion } from '../deb/manual.js';
import { readText } from '../notation.js';
import { COMMAND, ask } from './command-world.js';
import { sample } from './core.js';

const folder = mkdtempSync(join(tmpdir(), 'krossvil-'));
after(() => rmSync(folder, { recursive: true }));

const INPUTS = ['no train', '$(touch hacked)', "it's", 'a,b', 'übung', '`touch hacked`'];
const ODD = `krossvil table\ncycle 3\ninputs ${INPUTS.map((name) => `"${name}"`).join(', ')}\noutputs N\nstart idle\n
state idle\n    output N\n    ${INPUTS.map((name) => `"${name}"`).join(', ')} -> idle\n`;

/** In the shell `krossvil` shows what it is given, a word to a line; only for completion it is the command itself. */
const RC = `. ./completion
krossvil() {
    if [ "$1" = complete ]; then "${COMMAND}" "$@"; else printf '=>'; printf '<%s>' "$@"; echo; fi
}
`;

/** Types lines at a terminal, and gives the words that each hands to the command. */
function typed(lines) {
  writeFileSync(join(folder, 'keys'), `${lines.join('\n')}\n exit\n`);
  const env = { ...process.env, TERM: 'dumb', INPUTRC: '/dev/null', LC_ALL: 'C.UTF-8', HOME: folder, HISTFILE: '' };
  const { stdout } = spawnSync('sh', ['-c', "script -qec 'bash --noprofile --rcfile rc -i' /dev/null <keys"], { cwd: folder, encoding: 'utf8', env });
  return stdout.split('\n').filter((line) => line.startsWith('=><')).map((line) => line.trim().slice(3, -1).split('><'));
}

test('names of the table on the line are completed, as the shell takes them', async () => {
  writeFileSync(join(folder, 'completion'), completion());
  writeFileSync(join(folder, 'rc'), RC);
  writeFileSync(join(folder, 'my table.kv'), sample('classroom'));
  writeFileSync(join(folder, 'odd.kv'), ODD);
  writeFileSync(join(folder, 'table.bin'), readText(sample('classroom')).parts[0].bytes);
  mkdirSync(join(folder, 'train'));
  const cases = [
    ['react my\\ table.kv --while tr\t', '--while', 'train'], ["react 'my table.kv' --from b\t", '--from', 'busy'],
    ['react ~/my\\ table.kv --from busy,i\t', '--from', 'busy,idle'], ['react my\\ table.kv --while=n\t', '--while=no_train'],
    ['react my\\ table.kv --from=busy --while=\tt\t', '--from=busy', '--while=train'],
    ['react --tight my\\ table.kv --while t\t', '--while', 'train'],
    ['react table.bin --while i1\t', '--while', 'i1'], ['react table.bin --names my\\ table.kv --while t\t', '--while', 'train'],
    ['react odd.kv --while no\t', '--while', 'no train'], ['react odd.kv --while \\$\t', '--while', '$(touch hacked)'],
    ['react odd.kv --while it\t', '--while', "it's"], ['react odd.kv --while \\"\t', '--while', '"a,b"'],
    ['react odd.kv --while no\\ train,\\`\t', '--while', 'no train,`touch hacked`'], ['react odd.kv --while ü\t', '--while', 'übung'],
    ['react none.kv --while t\t', '--while', 't'], ['check my\t --as sta\t', 'my table.kv', '--as', 'stamped'],
  ];
  const got = typed(cases.map(([line]) => `krossvil ${line}`));
  assert.deepEqual(got.map((words, k) => words.slice(1 - cases[k].length)), cases.map(([, ...words]) => words));
  assert.ok(!existsSync(join(folder, 'hacked')));
  for (const words of got.filter((each) => each[1] === 'odd.kv')) assert.equal((await ask(words, { 'odd.kv': ODD })).code, 0, words.join(' '));
});
