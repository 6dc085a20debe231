/** States and edges of an automaton's picture. */

import { circle, element, group, line, path, short, text } from '../svg.js';
import { nameOf } from '../name-of.js';
import { namesOf } from './graph.js';
import { EDGE_SIZE, edgeLabel, linesIn } from './words.js';

/** @typedef {import('../svg.js').Markup} Markup */
/** @typedef {import('./graph.js').Edge} Edge */
/** @typedef {import('./layout.js').Layout} Layout */
/** @typedef {import('./route.js').Point} Point */

/**
 * @typedef {Object} Scene
 * @property {import('../types.js').Table} table
 * @property {import('../types.js').Names} names
 * @property {Layout} layout
 * @property {import('../theme.js').Theme} theme
 * @property {(state: number) => boolean} isLit
 * @property {(from: number, to: number) => number|null} litInput   the input for which the edge is lit
 * @property {number[]} path        the states of the lit path, in order
 */

/** @param {Point} point */
const at = (point) => `${short(point.x)},${short(point.y)}`;

/**
 * @param {Point} tip @param {Point} from   where it comes from
 * @param {number} size
 */
function arrowHead(tip, from, size) {
  const angle = Math.atan2(tip.y - from.y, tip.x - from.x);
  const corner = (/** @type {number} */ turn) => at({ x: tip.x - size * Math.cos(angle + turn), y: tip.y - size * Math.sin(angle + turn) });
  return `M${at(tip)}L${corner(0.4)}L${corner(-0.4)}z`;
}

/**
 * An edge that all its inputs take after the hold alone is dashed.
 * @param {Scene} scene @param {Edge} edge @param {string} d @param {Point} tip @param {Point} before   the point before the tip
 */
function drawEdge({ names, theme, litInput }, edge, d, tip, before) {
  const lit = litInput(edge.from, edge.to) !== null;
  const waits = edge.free.length === 0;
  const colour = lit ? theme.lit : waits ? theme.held : theme.ink;
  const after = edge.delayed.length > 0 ? `; after the hold: ${namesOf(edge.delayed, names.inputs)}` : '';
  const title = `${nameOf(names.states, edge.from)} to ${nameOf(names.states, edge.to)}: ${namesOf(edge.free, names.inputs)}${after}`;
  return group({ class: lit ? 'edge lit' : 'edge', 'data-from': edge.from, 'data-to': edge.to }, element('title', {}, title),
    path(d, { fill: 'none', stroke: colour, 'stroke-width': lit ? 4 : 1.7, 'stroke-dasharray': waits ? '7 4' : null }),
    path(arrowHead(tip, before, lit ? 15 : 11), { fill: colour }));
}

/**
 * @param {Scene} scene
 */
export function edges(scene) {
  return scene.layout.edges.map(({ edge, route: { start, control, end, points } }) =>
    drawEdge(scene, edge, `M${at(start)}Q${at(control)} ${at(end)}`, end, points[points.length - 2]));
}

/**
 * @param {Scene} scene
 */
export function loops(scene) {
  return scene.layout.loops.map(({ edge, loop: { start, one, two, end, points } }) =>
    drawEdge(scene, edge, `M${at(start)}C${at(one)} ${at(two)} ${at(end)}`, end, points[points.length - 2]));
}

/**
 * The arrow to the initial state.
 * @param {Scene} scene
 */
export function arrow({ layout: { arrow: { from, to } }, theme }) {
  return group({ class: 'start' }, circle(from.x, from.y, 5, { fill: theme.ink }), line(from.x, from.y, to.x, to.y, theme.ink, 1.7),
    path(arrowHead(to, from, 11), { fill: theme.ink }));
}

/**
 * @param {Scene} scene
 */
export function states(scene) {
  const { layout: { places, radius, words }, theme } = scene;
  return places.map((place, state) => {
    const lit = scene.isLit(state);
    const { name, output, delayed } = words[state];
    const title = `state ${name}, output ${output}${delayed === '' ? '' : `, delays ${delayed}`}`;
    const look = { fill: lit ? theme.litFill : theme.paper, stroke: lit ? theme.lit : theme.ink, 'stroke-width': lit ? 4 : 2 };
    return group({ class: lit ? 'state lit' : 'state', 'data-state': state }, element('title', {}, title),
      circle(place.x, place.y, radius, look), inside(scene, place, state), badge(scene, place, state));
  });
}

/**
 * The words in a state, with lines between output, name and hold.
 * @param {Scene} scene @param {Point} place @param {number} state
 */
function inside(scene, place, state) {
  const { layout: { words, radius }, theme } = scene;
  const lines = linesIn(words[state], radius);
  return lines.map((row, k) => {
    const ends = lines[k + 1] !== undefined && lines[k + 1].role !== row.role;
    const y = row.y + row.size * 0.15 + 4.5;
    const half = Math.sqrt(Math.max(0, radius ** 2 - y * y)) * 0.72;
    return [
      text(place.x, place.y + row.y, row.text, { size: row.size, fill: inkOf(scene, state, row), anchor: 'middle', bold: row.bold }),
      ends ? line(place.x - half, place.y + y, place.x + half, place.y + y, theme.border, 1) : null,
    ];
  });
}

/**
 * @param {Scene} scene @param {number} state @param {import('./words.js').Line} row
 */
function inkOf({ theme, table }, state, { role, timer }) {
  if (role !== 'hold') return theme.ink;
  if (timer !== null) return theme.timers[timer % theme.timers.length];
  return table.holds[state] > 0 ? theme.held : theme.quiet;
}

/**
 * The number of a state on the lit path.
 * @param {Scene} scene @param {Point} place @param {number} state
 */
function badge({ path: walk, layout: { radius }, theme }, place, state) {
  const k = walk.indexOf(state);
  if (k < 0) return null;
  const [x, y] = [place.x + radius * 0.74, place.y - radius * 0.74];
  return [circle(x, y, 11, { fill: theme.lit }), text(x, y + 4.5, String(k + 1), { size: 13, fill: theme.paper, anchor: 'middle', bold: true })];
}

/**
 * The inputs at edges and loops. A rim of paper keeps lines that pass below them away. What is lit is not bold: it would be too wide for
 * its place, and places do not change while one steps.
 * @param {Scene} scene
 */
export function labels({ layout, theme, litInput }) {
  const rim = { stroke: theme.paper, 'stroke-width': 4, 'stroke-linejoin': 'round', 'paint-order': 'stroke' };
  return [...layout.edges, ...layout.loops].map(({ edge, label }) => {
    const { lines, height } = edgeLabel(edge, litInput(edge.from, edge.to));
    return lines.map(({ text: words, lit, delayed }, k) => {
      const style = { size: EDGE_SIZE, fill: lit ? theme.lit : delayed ? theme.held : theme.ink };
      return text(label.x, label.y - height / 2 + EDGE_SIZE * (0.95 + 1.2 * k), words, { ...style, anchor: 'middle' }, rim);
    });
  });
}
