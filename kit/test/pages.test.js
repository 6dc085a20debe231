/** The repository's pages: their links lead somewhere, and what they list and show is what there is. */

import assert from 'node:assert/strict';
import { spawnSync } from 'node:child_process';
import { existsSync, readFileSync, readdirSync } from 'node:fs';
import { basename, dirname, join } from 'node:path';
import { test } from 'node:test';
import { direct, needsOf, rowsOf } from '../pictures/crates.js';
import { COMMAND, KIT } from './command-world.js';

const ROOT = dirname(KIT);
const read = (file) => readFileSync(join(ROOT, file), 'utf8');
const below = (folder) => readdirSync(join(ROOT, folder), { recursive: true }).map((name) => join(folder, name));
const PAGES = ['README.md', ...['docs', 'kit', 'examples'].flatMap(below).filter((file) => file.endsWith('.md'))];

/** A page without what stands in code. */
const prose = (page) => page.replace(/^```[^]*?^```/gm, '').replace(/^ {4}.*$/gm, '').replace(/`[^`\n]*`/g, '');

const linksOf = (page) => [...prose(page).matchAll(/\]\(([^)\s]+)\)/g)].map(([, link]) => link).filter((link) => !/^\w+:/.test(link));

/** The names by which the headings of a page are linked to. */
const anchorsOf = (page) => [...page.matchAll(/^#+ (.*)$/gm)].map(([, words]) => words.toLowerCase().replace(/[^\w\- ]/g, '').replace(/ /g, '-'));

function leads(file, link) {
  const [path, anchor] = link.split('#');
  const target = path === '' ? file : join(dirname(file), path);
  return existsSync(join(ROOT, target)) && (anchor === undefined || anchorsOf(read(target)).includes(anchor));
}

/** The cells of each row of a page's tables, heads left out. */
const rowsOfTables = (page) => [...page.matchAll(/^\| (?!-)(.*) \|$/gm)].map(([, row]) => row.split(' | '));

test('every link and picture of a page leads to a file, and to a heading of it', () => {
  const links = PAGES.flatMap((file) => linksOf(read(file)).map((link) => ({ file, link })));
  assert.ok(links.length > 100);
  assert.deepEqual(links.filter(({ file, link }) => !leads(file, link)), []);
});

test('the first link of the front page is the page that needs no toolchain', () => {
  assert.equal(linksOf(read('README.md'))[0], 'kit/dist/krossvil.html');
});

test('the front page is short, and shows what the command prints', () => {
  const page = read('README.md');
  assert.ok(page.split('\n').length <= 121);
  const [, command, shown] = /^ {4}\$ kit\/krossvil (.*)\n((?: {4}.*\n)+)/m.exec(page);
  const { stdout } = spawnSync(COMMAND, command.split(' '), { cwd: ROOT, encoding: 'utf8' });
  assert.equal(shown.replace(/\s+/g, ' ').trim(), stdout.replace(/\s+/g, ' ').trim());
});

test('the reading order names every definition', () => {
  const page = read('docs/READING.md');
  const [order, helpers] = page.split('## Helpers');
  const named = (file) => order.includes(`](../${file})`) || helpers.includes(`\`${basename(file)}\``);
  const files = below('crates').filter((file) => /^crates\/\w+\/specs\/\w+\.antt$/.test(file) && basename(file) !== 'Lib.antt');
  assert.ok(files.length > 50);
  assert.deepEqual(files.filter((file) => !named(file)), []);
  for (const [, helper] of helpers.split('## ')[0].matchAll(/`(\w+\.antt)`/g)) assert.ok(files.some((file) => basename(file) === helper), helper);
});

test('each crate has a line, and stands in the picture above all that it needs', () => {
  const needs = needsOf(read('crates.txt'));
  const lines = rowsOfTables(read('docs/ARCHITECTURE.md')).map(([crate]) => /^\[(\w+)\]/.exec(crate)?.[1]).filter(Boolean);
  assert.deepEqual(lines, [...needs.keys()]);
  assert.deepEqual([...needs.keys()].sort(), readdirSync(join(ROOT, 'crates')).sort());
  const rows = rowsOf(needs);
  for (const [name, all] of needs) for (const need of all) assert.ok(rows.get(need) > rows.get(name), `${name} on ${need}`);
});

test('what the picture leaves out is needed by way of what it draws', () => {
  const needs = needsOf(read('crates.txt'));
  const drawn = direct(needs);
  const reached = (name) => new Set(drawn.get(name).flatMap((need) => [need, ...reached(need)]));
  for (const [name, all] of needs) for (const need of all) assert.ok(reached(name).has(need), `${name} on ${need}`);
});

test('each function of the header has a line, and an example that calls it', () => {
  const functions = [...read('include/krossvil.h').matchAll(/^uint64_t (krossvil_\w+)\(/gm)].map(([, name]) => name);
  const rows = rowsOfTables(read('docs/C.md')).filter(([name]) => name.startsWith('`'));
  assert.deepEqual(rows.map(([name]) => name.slice(1, -1)), functions);
  for (const [name, , examples] of rows) {
    for (const [, file] of examples.matchAll(/\(\.\.\/([^)]*)\)/g)) assert.match(read(file), new RegExp(`\\b${name.slice(1, -1)}\\b`), file);
  }
});
