/**
 * Where everything of an automaton's picture stands.
 */
import { members } from '../sets.js';
import { SLIDE } from '../slide.js';
import { edgesOf, wordsOf } from './graph.js';
import { besideEdge, besideLoop } from './labels.js';
import { loopAt, startArrow } from './loops.js';
import { place } from './place.js';
import { routesOf } from './route.js';
import { edgeLabel, radiusFor } from './words.js';

/** @typedef {import('../types.js').Table} Table */
/** @typedef {import('../types.js').Names} Names */
/** @typedef {import('./route.js').Point} Point */

/**
 * @typedef {Object} Layout
 * @property {number} radius
 * @property {import('./graph.js').Words[]} words
 * @property {Point[]} places
 * @property {{from: Point, to: Point, angle: number}} arrow
 * @property {import('./labels.js').Box} frame    what the picture needs, without the notes below it
 * @property {{edge: import('./graph.js').Edge, route: import('./route.js').Route, label: import('./labels.js').Spot}[]} edges
 * @property {{edge: import('./graph.js').Edge, loop: import('./loops.js').Loop, label: import('./labels.js').Spot}[]} loops
 */

/**
 * The edges along which a walk from the initial state first comes to each state.
 * @param {Table} table
 */
function flowOf(table) {
  const reached = [table.start];
  /** @type {number[][]} */
  const flow = [];
  for (let k = 0; k < reached.length; k++) {
    for (const to of new Set(table.next[reached[k]])) {
      if (reached.includes(to)) continue;
      reached.push(to);
      flow.push([reached[k], to]);
    }
  }
  return flow;
}

/**
 * @param {Table} table
 * @param {import('./graph.js').Edge[]} edges    none is a loop
 * @returns {import('./place.js').Graph}
 */
function graphOf(table, edges) {
  const keys = new Set(edges.map(({ from, to }) => Math.min(from, to) * 32 + Math.max(from, to)));
  const pairs = [...keys].map((key) => /** @type {[number, number]} */ ([key >> 5, key & 31]));
  const groups = table.timers.map((timer) => members(timer.region).filter((state) => state < table.counts.states));
  const shared = groups.filter((group) => group.length > 1);
  return { count: table.counts.states, start: table.start, pairs, flow: flowOf(table), groups: shared };
}

/**
 * In the shape of a slide, or with as many columns as the width takes.
 * @param {number} count @param {number} radius
 * @param {number} widest    of the words at edges
 * @param {number} width
 * @returns {import('./place.js').Grid}
 */
function gridFor(count, radius, widest, width) {
  const dx = 2 * radius + Math.min(Math.max(76, widest + 34), 150);
  const dy = 2 * radius + 72;
  const most = Math.max(2, Math.floor((width - 120 + dx - 2 * radius) / dx));
  const spare = count <= 2 ? 0 : Math.ceil(count * 0.35);
  const wanted = count <= 4 ? count : Math.ceil(Math.sqrt((count + spare) * (dy / dx) * SLIDE.width / SLIDE.height));
  const columns = Math.min(most, Math.max(2, wanted));
  return { columns, rows: Math.max(1, Math.ceil((count + spare) / columns)), dx, dy, clear: radius + 10 };
}

/** Around states, for regions and badges; and around all. */
const MARGIN = 14;

/**
 * The picture's outer edges.
 * @param {Omit<Layout, 'frame'>} layout
 * @returns {import('./labels.js').Box}
 */
function frameOf({ places, radius, edges, loops, arrow }) {
  const points = [...edges.flatMap(({ route }) => route.points), ...loops.flatMap(({ loop }) => loop.points), arrow.from];
  const boxes = [
    ...places.map(({ x, y }) => ({ x, y, width: 2 * (radius + MARGIN), height: 2 * (radius + MARGIN) })),
    ...points.map((point) => ({ ...point, width: 0, height: 0 })),
    ...[...edges, ...loops].map(({ label }) => label),
  ];
  const side = (/** @type {(box: import('./labels.js').Spot) => number} */ of) => boxes.map(of);
  const x = Math.min(...side((box) => box.x - box.width / 2)) - MARGIN;
  const y = Math.min(...side((box) => box.y - box.height / 2)) - MARGIN;
  const right = Math.max(...side((box) => box.x + box.width / 2)) + MARGIN;
  const bottom = Math.max(...side((box) => box.y + box.height / 2)) + MARGIN;
  return { x, y, width: right - x, height: bottom - y };
}

/**
 * @param {Table} table @param {Names} names @param {{width: number, loops: boolean}} wanted
 * @returns {Layout}
 */
export function layoutOf(table, names, { width, loops: withLoops }) {
  const words = table.outputs.map((_, state) => wordsOf(table, names, state));
  const radius = radiusFor(words);
  const all = edgesOf(table, names);
  const edges = all.filter((edge) => edge.from !== edge.to);
  const loops = withLoops ? all.filter((edge) => edge.from === edge.to) : [];
  const size = (/** @type {import('./graph.js').Edge} */ edge) => edgeLabel(edge, null);
  const widest = Math.max(0, ...edges.map((edge) => size(edge).width));
  const places = place(graphOf(table, edges), gridFor(table.counts.states, radius, widest, width));
  const drawn = { places, radius, routes: routesOf(edges, places, radius) };
  const arrow = startArrow(table.start, drawn);
  const curls = loops.map((edge) => loopAt(edge.from, drawn, edge.from === table.start ? [arrow.angle] : [], arrow.from));
  const lines = [...drawn.routes.map((route) => route.points), ...curls.map((loop) => loop.points), [arrow.from, arrow.to]];
  const obstacles = { places, radius, lines, boxes: [] };
  const layout = {
    radius, words, places, arrow,
    edges: edges.map((edge, k) => ({ edge, route: drawn.routes[k], label: besideEdge(drawn.routes[k], size(edge), obstacles) })),
    loops: loops.map((edge, k) => ({ edge, loop: curls[k], label: besideLoop(curls[k], size(edge), obstacles) })),
  };
  return { ...layout, frame: frameOf(layout) };
}
