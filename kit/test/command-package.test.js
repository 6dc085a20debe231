import assert from 'node:assert/strict';
import { spawnSync } from 'node:child_process';
import { existsSync, readFileSync } from 'node:fs';
import { test } from 'node:test';
import { COMMANDS } from '../command/commands.js';
import { OPTIONS } from '../command/options.js';
import { pageWith } from '../command/page.js';
import { Trouble } from '../command/trouble.js';
import { completion, manual } from '../deb/manual.js';
import { ask } from './command-world.js';
import { sample } from './core.js';
import { HOSTILE } from './pictures-fixtures.js';

test('the manual page has every command, option and example', () => {
  const page = manual();
  const plain = page.replaceAll('\\-', '-').replaceAll('\\e', '\\').replaceAll('\\&', '');
  for (const [name, { options, examples, says }] of Object.entries(COMMANDS)) {
    assert.ok(page.includes(`\n.SS ${name}\n`));
    assert.ok(plain.includes(says.slice(1)));
    for (const [line] of examples) assert.ok(plain.includes(`  ${line}\n`), line);
    for (const option of options) assert.ok(plain.includes(OPTIONS[option].says));
  }
  assert.ok(page.split('\n').every((line) => !line.startsWith("'")));
});

test('the completion has every command with its options', () => {
  const script = completion();
  for (const [name, { options }] of Object.entries(COMMANDS)) {
    const [, words] = new RegExp(`^    ${name}\\) options='([^']*)'`, 'm').exec(script);
    for (const option of [...options, 'json', 'plain', 'names', 'help']) assert.ok(words.split(' ').includes(`--${option}`), `${name} ${option}`);
  }
  const words = ['krossvil', 'draw', 'classroom.kv', '--show', 'm'];
  const completed = `COMP_WORDS=(${words.join(' ')}); COMP_CWORD=4; _krossvil; echo "\${COMPREPLY[*]}"`;
  assert.equal(spawnSync('bash', ['-c', `${script}\n${completed}`], { encoding: 'utf8' }).stdout, 'matrix\n');
});

const EMPTY = '<p>a</p><script type="application/json" id="data">'
  + '{"samples":[{"name":"changed-verdict","text":"b"}],"opens":"changed-verdict"}</script><p>c</p>';
const dataOf = (html) => JSON.parse(/id="data">([^<]*)<\/script>/.exec(html)[1]);

test('a page takes any text without being ended by it', () => {
  for (const text of [...HOSTILE, '</script><script>alert(1)</script>', '<!--', '$& $1 $`']) {
    const html = pageWith(EMPTY, { title: text, says: text, group: 'runs', text });
    assert.deepEqual([html.match(/<script/g).length, html.match(/<\/script/g).length], [1, 1]);
    assert.ok(html.startsWith('<p>a</p>') && html.endsWith('<p>c</p>'));
    assert.deepEqual([dataOf(html).opens, ...dataOf(html).samples.map((each) => each.name)], ['given', 'given', 'changed-verdict']);
    assert.equal(dataOf(html).samples[0].text, text);
  }
  assert.throws(() => pageWith('<p>', { title: '', says: '', group: 'runs', text: '' }), Trouble);
});

const built = existsSync(new URL('../../target/kit/krossvil.html', import.meta.url));

test('the built page carries what it is given', { skip: !built && 'the page is not built' }, async () => {
  const page = readFileSync(new URL('../../target/kit/krossvil.html', import.meta.url), 'utf8');
  assert.equal((await ask(['page'])).out, page);
  const whole = await ask(['page', 'quarry.kv', '-o', 'quarry.html'], { 'quarry.kv': sample('quarry') });
  assert.deepEqual([whole.code, whole.out], [0, '  Open quarry.html in a browser.\n']);
  const { opens, samples: [quarry] } = dataOf(whole.files['quarry.html']);
  assert.deepEqual([quarry.title, quarry.text, quarry.name], ['quarry', sample('quarry'), opens]);
  const { files } = await ask(['bytes', 'a.kv', '--as', 'journal', '-o', 'journal.bin'], { 'a.kv': sample('classroom') });
  const parts = await ask(['page', 'a.kv', 'journal.bin', '--title', 'From the card'], files);
  const [given] = dataOf(parts.out).samples;
  assert.equal(given.title, 'From the card');
  assert.match(given.text, /^krossvil table\n[^]*\nkrossvil journal\n[^]*11 {2}tick {3}idle\n12 {2}end\n$/);
});
