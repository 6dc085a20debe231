/** Rows, cells and heads of a matrix. */

import { head } from '../column-heads.js';
import { nameOf } from '../name-of.js';
import { circle, element, group, line, path, rect, text } from '../svg.js';
import { fit } from '../text-width.js';
import { delaying } from './columns.js';
import { ROW, SIZE } from './plan.js';

/** @typedef {import('./plan.js').Plan} Plan */

/**
 * @typedef {Object} Scene
 * @property {import('../types.js').Table} table
 * @property {import('../types.js').Names} names
 * @property {Plan} plan
 * @property {import('../theme.js').Theme} theme
 * @property {number[]} path          the states of the lit path, in order
 * @property {(state: number) => boolean} isLit
 * @property {(state: number, input: number) => boolean} isTaken   the cell is lit
 */

/** How large a mark in a corner is. */
const CORNER = 9;

/**
 * A mark in one of the four corners of a box, so that one sees without colours what delays.
 * @param {{x: number, y: number, width: number, height: number}} box @param {number} k @param {string} fill
 */
function corner({ x, y, width, height }, k, fill) {
  const [atX, byX] = k % 2 === 0 ? [x, CORNER] : [x + width, -CORNER];
  const [atY, byY] = k < 2 ? [y, CORNER] : [y + height, -CORNER];
  return path(`M${atX},${atY}h${byX}L${atX},${atY + byY}z`, { fill });
}

/**
 * The tint and the marks of what is delayed.
 * @param {Scene} scene @param {{x: number, y: number, width: number, height: number}} box @param {number[]} by
 */
export function delayMarks({ table, theme }, box, by) {
  if (by.length === 0) return null;
  const fill = (/** @type {number} */ k) => (table.kind === 'holds' ? theme.held : theme.timers[k]);
  return [rect(box.x, box.y, box.width, box.height, { fill: theme.phases[2] }), by.map((k) => corner(box, k, fill(k)))];
}

/**
 * The arrow to the initial state, with its point at x.
 * @param {Scene} scene @param {number} x @param {number} y
 */
export function startMark({ theme }, x, y) {
  return group({ class: 'start' }, circle(x - 20, y, 3.5, { fill: theme.ink }), line(x - 20, y, x - 6, y, theme.ink, 1.7),
    path(`M${x},${y}l-9,-4.5v9z`, { fill: theme.ink }));
}

/** @param {Scene} scene */
export function heads({ plan: { heads: look, columns, facts, top }, theme, table, isTaken }) {
  const lit = (/** @type {number[]} */ inputs) => inputs.some((input) => table.next.some((_, state) => isTaken(state, input)));
  return group({ class: 'heads' },
    facts.map(({ title, x }) => text(x, top - 9, title, { size: SIZE, fill: theme.quiet })),
    columns.map(({ names, inputs, x, width }) => head(look, names, x + width / 2, top, { fill: lit(inputs) ? theme.lit : theme.ink, bold: true })));
}

/** @param {Scene} scene */
export function rows(scene) {
  return scene.table.outputs.map((_, state) => {
    const y = scene.plan.top + ROW * state;
    return [band(scene, state, y), rowHead(scene, state, y), scene.plan.columns.map((column) => cell(scene, state, column, y))];
  });
}

/**
 * Behind the row of a lit state.
 * @param {Scene} scene @param {number} state @param {number} y
 */
function band({ plan: { left, right }, theme, isLit }, state, y) {
  return isLit(state) ? rect(left, y, right - left, ROW, { fill: theme.litFill }) : null;
}

/**
 * @param {Scene} scene @param {number} state @param {number} y
 */
function rowHead(scene, state, y) {
  const { plan: { facts, left }, theme, table, names } = scene;
  const k = scene.path.indexOf(state);
  const title = `state ${nameOf(names.states, state)}, output ${nameOf(names.outputs, table.outputs[state])}`;
  return group({ class: scene.isLit(state) ? 'state lit' : 'state', 'data-state': state }, element('title', {}, title),
    k < 0 ? null : [circle(left + 10, y + ROW / 2, 9.5, { fill: theme.lit }),
      text(left + 10, y + 17.5, String(k + 1), { size: 12, fill: theme.paper, anchor: 'middle', bold: true })],
    state === table.start ? startMark(scene, facts[0].x - 4, y + ROW / 2) : null,
    facts.map(({ words, bold, x, width }) => text(x, y + 17.5, fit(words[state], width - 8, SIZE, bold), { size: SIZE, fill: theme.ink, bold })));
}

/**
 * @param {Scene} scene @param {number} state @param {import('./plan.js').Placed} column @param {number} y
 */
function cell(scene, state, { inputs, names: words, x, width }, y) {
  const { plan, theme, table, names } = scene;
  const to = table.next[state][inputs[0]];
  const lit = inputs.some((input) => scene.isTaken(state, input));
  const by = delaying(table, state, inputs[0]);
  const title = `${nameOf(names.states, state)}, ${words.join(', ')}: ${nameOf(names.states, to)}${by.length > 0 ? ', delayed' : ''}`;
  const middle = x + width / 2;
  const about = { class: lit ? 'edge lit' : 'edge', 'data-from': state, 'data-to': to, 'data-inputs': inputs.join(' ') };
  return group(about, element('title', {}, title),
    delayMarks(scene, { x, y, width, height: ROW }, by),
    lit ? rect(x, y, width, ROW, { fill: by.length > 0 ? 'none' : theme.litFill, stroke: theme.lit, 'stroke-width': 3 }) : null,
    to === state ? circle(middle, y + ROW / 2, 2, { fill: theme.quiet })
      : text(middle, y + 17.5, plan.numbered ? String(to) : nameOf(names.states, to), { size: SIZE, fill: theme.ink, anchor: 'middle' }));
}

/**
 * The lines between rows and columns, and a rim around lit rows.
 * @param {Scene} scene
 */
export function grid({ plan: { columns, left, right, top, bottom }, theme, table, isLit }) {
  const rules = [...table.outputs.map((_, state) => top + ROW * state), bottom];
  const lit = table.outputs.map((_, state) => state).filter(isLit);
  return group({ class: 'grid' },
    rules.map((y, k) => line(left, y, right, y, k === 0 || y === bottom ? theme.border : theme.grid)),
    [...columns.map(({ x }) => x), right].map((x, k) => line(x, top, x, bottom, k === 0 ? theme.border : theme.grid)),
    lit.map((state) => rect(left, top + ROW * state, right - left, ROW, { fill: 'none', stroke: theme.lit, 'stroke-width': 2 })));
}
