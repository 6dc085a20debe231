/**
 * The picture of a table's automaton, as SVG, laid out here; and as DOT for Graphviz.
 *
 * In each state stand its output, its name, and its hold with the inputs that it delays. A state's group has the class `state` and its
 * number in `data-state`, an edge's the class `edge` and its ends in `data-from` and `data-to`. What is lit has the class `lit` too.
 */

import { picture, rect, short } from './svg.js';
import { shrunk } from './slide.js';
import { THEMES } from './theme.js';
import { arrow, edges, labels, loops, states } from './automaton/drawing.js';
import { layoutOf } from './automaton/layout.js';
import { notesOf } from './automaton/notes.js';
import { regions } from './automaton/regions.js';
import { summary } from './automaton/summary.js';

export { automatonDot } from './automaton/dot.js';

/** @typedef {import('./types.js').Table} Table */
/** @typedef {import('./types.js').Names} Names */
/** @typedef {import('./automaton/layout.js').Layout} Layout */
/** @typedef {import('./automaton/drawing.js').Scene} Scene */

/**
 * @typedef {Object} Lit
 * @property {number|null} [state]                          the state that the machine is in
 * @property {{from: number, input: number}|null} [edge]    the edge that it takes
 * @property {number[]|null} [path]                         states and inputs in turn, as the reaction calculator gives them
 */

/**
 * @typedef {Object} Options
 * @property {string} [title]
 * @property {number} [width]       the picture is no wider; if it is not said, it fits a slide
 * @property {boolean} [slide]      it has the shape of a slide, however small it becomes; else it is laid out for its width
 * @property {Lit} [lit]
 * @property {boolean} [loops]      inputs that leave the state where it is; yes if it is not said
 * @property {Names} [names]        in the place of the table's own
 * @property {'light'|'dark'} [theme]
 */

/** No picture is narrower, so that the words below it have room. */
const NARROWEST = 240;

/**
 * @param {Table} table @param {Options} [options]
 * @returns {string}   an SVG file
 */
export function automaton(table, options = {}) {
  const names = options.names ?? table.names;
  const layout = remembered(table, names, options.slide ? Infinity : options.width ?? Infinity, options.loops ?? true);
  const theme = THEMES[options.theme ?? 'light'] ?? THEMES.light;
  /** @type {Scene} */
  const scene = { table, names, layout, theme, ...lights(table, options.lit ?? {}) };
  const { frame } = layout;
  const width = Math.max(frame.width, NARROWEST);
  const left = frame.x - (width - frame.width) / 2;
  const notes = notesOf(scene, width - 24);
  const height = frame.height + notes.height;
  const scale = shrunk({ width, height }, options.width);
  const about = {
    width: width * scale, height: height * scale, title: options.title || 'Automaton', description: summary(table, names),
    className: 'krossvil-automaton', data: { viewBox: `${short(left)} ${short(frame.y)} ${short(width)} ${short(height)}` },
  };
  return picture(about, rect(left, frame.y, width, height, { fill: theme.paper }), regions(scene), edges(scene), loops(scene), arrow(scene),
    states(scene), labels(scene), notes.markup(left + 12, frame.y + frame.height));
}

/** @type {Map<string, Layout>} */
const LAYOUTS = new Map();

/**
 * A layout is the same while only lights change, so the last ones are kept.
 * @param {Table} table @param {Names} names @param {number} width @param {boolean} withLoops
 * @returns {Layout}
 */
function remembered(table, names, width, withLoops) {
  const { next, start, outputs, holds, delayed, timers } = table;
  const key = JSON.stringify([next, start, outputs, holds, delayed, timers, names, width, withLoops]);
  const layout = LAYOUTS.get(key) ?? layoutOf(table, names, { width, loops: withLoops });
  LAYOUTS.delete(key);
  LAYOUTS.set(key, layout);
  if (LAYOUTS.size > 8) LAYOUTS.delete([...LAYOUTS.keys()][0]);
  return layout;
}

/**
 * @param {Table} table @param {Lit} lit
 * @returns {Pick<Scene, 'path'|'isLit'|'litInput'>}
 */
function lights(table, { state = null, edge = null, path: walk = null }) {
  const inputs = new Map();
  const steps = walk ?? [];
  for (let k = 0; k + 2 < steps.length; k += 2) inputs.set(steps[k] * 32 + steps[k + 2], steps[k + 1]);
  if (edge) inputs.set(edge.from * 32 + (table.next[edge.from]?.[edge.input] ?? 0), edge.input);
  const path = steps.filter((_, k) => k % 2 === 0);
  return { path, isLit: (q) => q === state || path.includes(q), litInput: (from, to) => inputs.get(from * 32 + to) ?? null };
}
