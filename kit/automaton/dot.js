/**
 * The automaton as DOT, for Graphviz: what automaton.js draws, laid out by others.
 */
import { escapeXml, quoteDot } from '../escape.js';
import { LIGHT } from '../theme.js';
import { edgesOf, isTangled, namesOf, wordsOf } from './graph.js';
import { notes } from './notes.js';

/** @typedef {import('../types.js').Table} Table */
/** @typedef {import('../types.js').Names} Names */

const FACE = 'fontname="DejaVu Sans"';

/** In inches, at 96 dots each: two slides wide. Without it the picture of a large table has more dots than Graphviz can paint. */
const LARGEST = '40,22.5';

/** So far apart states stand on the oval, in inches. */
const APART = 2.7;

/**
 * Where a state stands among many arrows: Graphviz would search for minutes, and find nothing that is easier to read than an oval.
 * @param {Table} table @param {number} state
 * @param {number} [further]   out from the oval
 */
function placeOf(table, state, further = 0) {
  const angle = Math.PI - 2 * Math.PI * (state - table.start) / table.counts.states;
  const radius = table.counts.states * APART / (2 * Math.PI);
  const [x, y] = [(1.35 * radius + further) * Math.cos(angle), (0.75 * radius + further) * Math.sin(angle)];
  return isTangled(table) ? `, pos="${x.toFixed(2)},${y.toFixed(2)}!"` : '';
}

/**
 * @param {Table} table @param {Names} names @param {number} state
 */
function node(table, names, state) {
  const { output, name, holds } = wordsOf(table, names, state);
  const row = (/** @type {string} */ inner) => `<tr><td>${inner}</td></tr>`;
  const below = holds.map((hold) => row(`<font color="${hold.text === '0' ? LIGHT.quiet : LIGHT.held}">${escapeXml(hold.text)}</font>`));
  const rows = [row(escapeXml(output)), '<hr/>', row(`<b>${escapeXml(name)}</b>`), ...(below.length > 0 ? ['<hr/>'] : []), ...below];
  const inside = `<table border="0" cellborder="0" cellspacing="0" cellpadding="3">${rows.join('')}</table>`;
  return `  s${state} [id="state-${state}"${placeOf(table, state)}, label=<${inside}>];`;
}

/**
 * Whoever points at an edge sees all its inputs.
 * @param {Names} names @param {import('./graph.js').Edge} edge
 */
function arrow(names, { from, to, free, delayed, says }) {
  const line = (/** @type {string} */ words, /** @type {number[]} */ inputs, /** @type {string} */ style) =>
    (inputs.length === 0 ? [] : [`  s${from} -> s${to} [label=${quoteDot(words)}, tooltip=${quoteDot(namesOf(inputs, names.inputs))}${style}];`]);
  return [...line(says.free, free, ''), ...line(says.delayed, delayed, `, style=dashed, color="${LIGHT.held}", fontcolor="${LIGHT.held}"`)];
}

/**
 * Regions may overlap, which clusters of Graphviz may not; so they are named below the picture.
 * @param {Table} table @param {Names} names
 */
function caption(table, names) {
  return notes(table, names).map((note) => quoteDot(note).slice(1, -1)).join('\\n');
}

/**
 * @param {Table} table @param {{loops?: boolean, names?: Names}} [options]
 * @returns {string}
 */
export function automatonDot(table, options = {}) {
  const names = options.names ?? table.names;
  const edges = edgesOf(table, names).filter((edge) => options.loops !== false || edge.from !== edge.to);
  return [
    'digraph automaton {',
    isTangled(table) ? '  layout=neato; splines=line; outputorder=edgesfirst; pad=0.2;' : '  rankdir=LR; nodesep=0.6; ranksep=1.1; pad=0.2;',
    `  size="${LARGEST}";`,
    `  node [shape=circle, style=filled, fillcolor="${LIGHT.paper}", ${FACE}, fontsize=13, margin=0.02, penwidth=1.6, color="${LIGHT.ink}"];`,
    `  edge [${FACE}, fontsize=12, color="${LIGHT.ink}", arrowsize=0.8];`,
    `  label="${caption(table, names)}"; labelloc=b; ${FACE}; fontsize=12; fontcolor="${LIGHT.quiet}";`,
    ...table.outputs.map((_, state) => node(table, names, state)),
    `  start [shape=point, fillcolor="${LIGHT.ink}", width=0.1${placeOf(table, table.start, 1.5)}]; start -> s${table.start};`,
    ...edges.flatMap((edge) => arrow(names, edge)),
    '}',
    '',
  ].join('\n');
}
