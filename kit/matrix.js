/**
 * The matrix of a table's next states, as SVG, for tables whose automaton would be a tangle. Inputs that are alike in every state share a
 * column. A row's head has the class `state` and its number in `data-state`, a cell the class `edge`, its ends in `data-from` and `data-to`
 * and its inputs in `data-inputs`; what is lit has the class `lit` too.
 */

import { summary } from './automaton/summary.js';
import { notesOf } from './automaton/notes.js';
import { legend } from './matrix/legend.js';
import { grid, heads, rows } from './matrix/drawing.js';
import { MARGIN, planOf } from './matrix/plan.js';
import { SLIDE, shrunk } from './slide.js';
import { picture, rect, short } from './svg.js';
import { THEMES } from './theme.js';

/** @typedef {import('./types.js').Table} Table */
/** @typedef {import('./automaton.js').Lit} Lit */
/** @typedef {import('./automaton.js').Options} Options */
/** @typedef {import('./matrix/drawing.js').Scene} Scene */

/** No picture is narrower, so that the words below it have room. */
const NARROWEST = 300;

/**
 * @param {Lit} lit
 * @returns {Pick<Scene, 'path'|'isLit'|'isTaken'>}
 */
function lights({ state = null, edge = null, path: walk = null }) {
  const steps = walk ?? [];
  const path = steps.filter((_, k) => k % 2 === 0);
  const taken = new Set(path.slice(0, -1).map((from, k) => from * 32 + steps[2 * k + 1]));
  if (edge) taken.add(edge.from * 32 + edge.input);
  return { path, isLit: (q) => q === state || path.includes(q), isTaken: (q, input) => taken.has(q * 32 + input) };
}

/**
 * @param {Table} table @param {Options} [options]
 * @returns {string}   an SVG file
 */
export function matrix(table, options = {}) {
  const names = options.names ?? table.names;
  const theme = THEMES[options.theme ?? 'light'] ?? THEMES.light;
  const plan = planOf(table, names, options.width ?? SLIDE.width);
  /** @type {Scene} */
  const scene = { table, names, plan, theme, ...lights(options.lit ?? {}) };
  const width = Math.max(plan.right + MARGIN, NARROWEST);
  const key = legend(scene, width - 2 * MARGIN, plan.bottom + 8);
  const notes = notesOf(scene, width - 2 * MARGIN, false);
  const height = plan.bottom + 8 + key.height + 6 + notes.height;
  const scale = shrunk({ width, height }, options.width);
  const about = {
    width: width * scale, height: height * scale, title: options.title || 'Next states', description: summary(table, names),
    className: 'krossvil-matrix', data: { viewBox: `0 0 ${short(width)} ${short(height)}` },
  };
  return picture(about, rect(0, 0, width, height, { fill: theme.paper }), rows(scene), grid(scene), heads(scene), key.markup,
    notes.markup(MARGIN, plan.bottom + 8 + key.height + 6));
}
