/**
 * A table's timed automaton as a file that UPPAAL opens: the report's clocks (x since the last change, y since the entry, or one for each timer's
 * region, z since the cycle start), a template for the controller and one for the environment, and the queries for the two halves of demand 3.
 * The controller has four places for each state, which stand where our own picture has the state. docs/MODELS.md lays its edges beside the rules.
 */

import { layoutOf } from '../automaton/layout.js';
import { escapeXml, inComment } from '../escape.js';
import { has } from '../sets.js';

/** @typedef {import('../types.js').Table} Table */
/** @typedef {import('./promela.js').Asserted} Asserted */
/** @typedef {{from: string, to: string, guard: string, sync?: string, update: string, select?: string}} Edge */

/** Where the four places of a state stand, from where the picture has it. */
const PHASES = { Poll: [0, 0], Test: [170, 0], Held: [170, 110], Free: [170, -110] };
/** The picture's places are so much further apart here, since there are four for each. */
const APART = 3;

/** @param {(number|boolean)[]} values */
const list = (values) => `{ ${values.join(', ')} }`;
/** @param {number} set @param {number} count */
const flags = (set, count) => list(Array.from({ length: count }, (_, k) => has(set, k)));

/**
 * What the names of a clock, its sets and its flag end in.
 * @param {Table} table
 */
const clockNames = (table) => (table.kind === 'timers' ? table.timers.map((_, k) => String(k)) : ['']);

/** @param {Table} table */
const timersOf = (table) => (table.kind === 'timers' ? table.timers.map((_, k) => k) : []);

/**
 * @param {Table} table @param {Asserted} asserted
 * @returns {string[]}
 */
function declarations(table, { late, hold }) {
  const { counts: { states, inputs }, names, next } = table;
  const named = (/** @type {string} */ what, /** @type {string[]} */ words) => `// ${what}: ${words.map((word, k) => `${k} ${inComment(word)}`).join(', ')}`;
  const rows = (/** @type {(q: number) => string} */ of) => `{ ${Array.from({ length: states }, (_, q) => of(q)).join(', ')} }`;
  const timing = table.kind === 'holds'
    ? ['clock y;   // since the entry into the state', `const int hold[Q] = ${list(table.holds)};`,
      `const bool delayed[Q][I] = ${rows((q) => flags(table.delayed[q], inputs))};`]
    : table.timers.flatMap((timer, k) => [`clock y${k};   // since the region of timer ${k} was entered`, `const int length${k} = ${timer.length};`,
      `const bool region${k}[Q] = ${flags(timer.region, states)};`, `const bool delayed${k}[Q][I] = ${rows((q) => flags(timer.delays[q], inputs))};`]);
  const asked = late ? ['clock w;   // since states and inputs stay', `const bool asked[Q] = ${flags(late.states, states)};`,
    `const bool stands[I] = ${flags(late.inputs, inputs)};`, `const bool target[Q] = ${flags(late.target, states)};`, 'broadcast chan stirred;',
    'bool stays() { return asked[state] && stands[present]; }'] : [];
  const only = hold ? clockNames(table).map((k) => `bool only${k};   // only delayed inputs have stood since the entry`) : [];
  return [named('states', names.states), named('inputs', names.inputs), `const int Q = ${states};`, `const int I = ${inputs};`,
    `const int E = ${table.cycle};`, `const int next[Q][I] = ${rows((q) => list(next[q]))};`,
    `int[0, ${states - 1}] state = ${table.start};`, `int[0, ${inputs - 1}] present;`, `int[0, ${inputs - 1}] polled;`,
    'clock x;   // since the last change of the input', 'clock z;   // since the start of the cycle', ...timing, ...asked, ...only];
}

/**
 * What can hold a test in a state, or be left too soon: whether it runs there, which inputs it delays, its clock and its length.
 * @param {Table} table @param {number} q
 * @returns {{only: string, runs: boolean, delayed: string, y: string, length: string}[]}
 */
function watches(table, q) {
  if (table.kind === 'holds') return [{ only: 'only', runs: table.holds[q] > 0, delayed: `delayed[${q}]`, y: 'y', length: `hold[${q}]` }];
  return timersOf(table).map((k) => (
    { only: `only${k}`, runs: has(table.timers[k].region, q), delayed: `delayed${k}[${q}]`, y: `y${k}`, length: `length${k}` }));
}

/** @param {string} place @param {number} q */
const idOf = (place, q) => `${place}${q}`;

/**
 * The edges of a test: ta-3, ta-4 and ta-5 of the report. A guard is a conjunction, so that each set of clocks that are asked about has its own
 * edge to Free, and each clock one to Held.
 * @param {Table} table @param {number} q
 * @returns {Edge[]}
 */
function testEdges(table, q) {
  const here = watches(table, q).filter(({ runs }) => runs);
  const sets = Array.from({ length: 2 ** here.length }, (_, set) => set);
  const [from, held, free] = ['Test', 'Held', 'Free'].map((place) => idOf(place, q));
  return [
    ...here.map(({ delayed, y, length }) => ({ from, to: held, guard: `${delayed}[polled] && ${y} <= ${length}`, update: '' })),
    ...sets.map((set) => ({
      from, to: free, update: '',
      guard: here.map(({ delayed, y, length }, k) => (has(set, k) ? `${delayed}[polled] && ${y} > ${length}` : `!${delayed}[polled]`)).join(' && '),
    }))];
}

/**
 * A tick behind a free test: to each state that some input leads to. If it is another, it is entered, and the clocks of what is entered are reset.
 * @param {Table} table @param {number} q @param {boolean} hold
 * @returns {Edge[]}
 */
function moveEdges(table, q, hold) {
  const resets = (/** @type {number} */ to) => (table.kind === 'holds' ? ['y = 0']
    : timersOf(table).filter((k) => has(table.timers[k].region, to) && !has(table.timers[k].region, q)).map((k) => `y${k} = 0`));
  const stood = (/** @type {number} */ to) => (hold ? watches(table, to).map(({ only, delayed }) => `${only} = ${delayed}[present]`) : []);
  return [...new Set(table.next[q])].map((to) => ({
    from: idOf('Free', q), to: idOf('Poll', to), guard: `next[${q}][polled] == ${to}`,
    update: (to === q ? ['z = 0'] : [`state = ${to}`, ...resets(to), 'z = 0', ...stood(to)]).join(', '),
  }));
}

/**
 * A move that would come too soon leads to a place of its own.
 * @param {Table} table @param {number} q
 * @returns {Edge[]}
 */
function soonEdges(table, q) {
  return watches(table, q).filter(({ runs }) => runs).map(({ only, y, length }) => (
    { from: idOf('Free', q), to: 'Soon', guard: `next[${q}][polled] != ${q} && ${only} && ${y} <= ${length}`, update: '' }));
}

/**
 * @param {Table} table @param {boolean} hold
 * @returns {Edge[]}
 */
function controllerEdges(table, hold) {
  return table.next.flatMap((_, q) => [
    { from: idOf('Poll', q), to: idOf('Test', q), guard: 'x > 0 && z > 0', update: 'polled = present' },
    ...testEdges(table, q),
    { from: idOf('Held', q), to: idOf('Poll', q), guard: '', update: 'z = 0' },
    ...moveEdges(table, q, hold),
    ...(hold ? soonEdges(table, q) : []),
  ]);
}

/**
 * The initial state's first: it is the one to begin at.
 * @param {Table} table @param {boolean} hold
 * @returns {[string, number, number, string][]}
 */
function controllerPlaces(table, hold) {
  const { places } = layoutOf(table, table.names, { width: Infinity, loops: true });
  const states = [table.start, ...places.map((_, q) => q).filter((q) => q !== table.start)];
  /** @type {[string, number, number, string][]} */
  const all = states.flatMap((q) => Object.entries(PHASES).map(([place, [x, y]]) => /** @type {[string, number, number, string]} */ (
    [idOf(place, q), Math.round(APART * places[q].x) + x, Math.round(APART * places[q].y) + y, 'z <= E'])));
  const right = Math.max(...all.map(([, x]) => x));
  return hold ? [...all, ['Soon', right + 250, 0, '']] : all;
}

/** @param {string} kind @param {string} text @param {[number, number]} at */
const label = (kind, text, [x, y]) => (text === '' ? '' : `<label kind="${kind}" x="${x}" y="${y}">${escapeXml(text)}</label>`);

/**
 * Its labels stand at its middle.
 * @param {Edge} edge @param {Map<string, [number, number]>} places @param {string} stirred
 */
function edgeXml({ from, to, guard, update, select = '', sync = '' }, places, stirred) {
  const [[ax, ay], [bx, by]] = [from, to].map((place) => places.get(place) ?? [0, 0]);
  const [x, y] = [Math.round((ax + bx) / 2) + 12, Math.round((ay + by) / 2) + (from === to ? 40 : 0)];
  return `<transition><source ref="${from}"/><target ref="${to}"/>${label('select', select, [x, y - 15])}${label('guard', guard, [x, y])}`
    + `${label('synchronisation', sync || stirred, [x, y + 15])}${label('assignment', update, [x, y + 30])}</transition>`;
}

/**
 * @param {string} name @param {[string, number, number, string][]} places  name, x, y, invariant @param {Edge[]} edges @param {string} [stirred]
 */
function template(name, places, edges, stirred = '') {
  const stands = new Map(places.map(([id, x, y]) => [id, /** @type {[number, number]} */ ([x, y])]));
  return ['<template>', `<name>${name}</name>`,
    ...places.map(([id, x, y, invariant]) => `<location id="${id}" x="${x}" y="${y}"><name x="${x - 20}" y="${y - 35}">${id}</name>`
      + `${label('invariant', invariant, [x - 20, y + 20])}</location>`),
    `<init ref="${places[0][0]}"/>`, ...edges.map((edge) => edgeXml(edge, stands, stirred)), '</template>'];
}

/** @param {string[]} templates */
function system(templates) {
  const small = templates.map((name) => name.toLowerCase());
  return `${templates.map((name, k) => `${small[k]} = ${name}();\n`).join('')}system ${small.join(', ')};`;
}

/**
 * @param {Table} table  one that passes @param {Asserted} [asserted]
 * @returns {string}
 */
export function uppaal(table, asserted = {}) {
  const { late, hold = false } = asserted;
  const stirred = late ? 'stirred!' : '';
  const stood = (/** @type {boolean} */ first) => (hold ? clockNames(table) : [])
    .map((k) => `, only${k} = ${first ? '' : `only${k} && `}delayed${k}[state][a]`).join('');
  const any = { select: 'a : int[0, I - 1]', to: 'World' };
  /** @type {Edge} */
  const change = { ...any, from: 'World', guard: 'a != present', update: `present = a, x = 0${stood(false)}` };
  /** @type {Edge} */
  const begin = { ...any, from: 'Begin', guard: '', update: `present = a, polled = a${stood(true)}` };
  const observer = late ? template('Observer', [['Look', 0, 0, '']], [
    { from: 'Look', to: 'Look', guard: '!stays()', sync: 'stirred?', update: 'w = 0' }]) : [];
  const queries = [...(hold ? ['A[] not controller.Soon'] : []),
    ...(late?.within ?? []).map((within) => `A[] not (stays() && w > ${within} && not target[state])`)];
  return ['<?xml version="1.0" encoding="utf-8"?>',
    "<!DOCTYPE nta PUBLIC '-//Uppaal Team//DTD Flat System 1.1//EN' 'http://www.it.uu.se/research/group/darts/uppaal/flat-1_2.dtd'>",
    '<nta>', `<declaration>${declarations(table, asserted).map(escapeXml).join('\n')}</declaration>`,
    ...template('Controller', controllerPlaces(table, hold), controllerEdges(table, hold), stirred),
    ...template('Environment', [['Begin', -200, 0, 'z <= 0'], ['World', 0, 0, '']], [begin, change], stirred), ...observer,
    `<system>${system(late ? ['Controller', 'Environment', 'Observer'] : ['Controller', 'Environment'])}</system>`,
    '<queries>', ...queries.map((query) => `<query><formula>${escapeXml(query)}</formula><comment/></query>`), '</queries>', '</nta>', ''].join('\n');
}
