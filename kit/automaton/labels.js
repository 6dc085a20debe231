/**
 * Where the words at edges stand: beside their edge, off states, other words and other edges, as far as there is room.
 */
import { meet } from '../diagram/labels.js';
import { along } from './loops.js';
import { distance, pointAt } from './route.js';

/** @typedef {import('./route.js').Point} Point */
/** @typedef {import('./route.js').Route} Route */
/** @typedef {import('./loops.js').Loop} Loop */
/** @typedef {{x: number, y: number, width: number, height: number}} Box */
/** @typedef {{x: number, y: number, width: number, height: number}} Spot   x and y are the middle */

/**
 * @typedef {Object} Obstacles
 * @property {Point[]} places
 * @property {number} radius
 * @property {Point[][]} lines    points along edges, loops and the arrow
 * @property {Box[]} boxes        words that have their place
 */

/** With more lines than this there is no room for words anywhere, and each stands at the middle of its edge. */
const MANY_LINES = 240;

/** Along an edge, the best first. */
const STEPS = [0.5, 0.42, 0.58, 0.34, 0.66, 0.26, 0.74, 0.2, 0.8];

/**
 * @param {Point} middle @param {{width: number, height: number}} size
 * @returns {Box}
 */
const around = (middle, { width, height }) => ({ x: middle.x - width / 2 - 2, y: middle.y - height / 2 - 1, width: width + 4, height: height + 2 });

/** @param {Box} box @param {Point} point */
const holds = (box, point) => point.x > box.x && point.x < box.x + box.width && point.y > box.y && point.y < box.y + box.height;

/**
 * @param {Box} box @param {number} by
 * @returns {Box}
 */
const wider = (box, by) => ({ x: box.x - by, y: box.y - by, width: box.width + 2 * by, height: box.height + 2 * by });

/**
 * What stands in the way of a word. A word keeps further away from edges that are not its own, so that one sees whose it is.
 * @param {Box} box @param {Obstacles} obstacles
 * @param {Point[]} own     points along its own edge
 */
function disturbance(box, { places, radius, lines, boxes }, own) {
  if (lines.length > MANY_LINES) return 0;
  const nearest = (/** @type {Point} */ place) => ({
    x: Math.min(Math.max(place.x, box.x), box.x + box.width), y: Math.min(Math.max(place.y, box.y), box.y + box.height),
  });
  const states = places.filter((place) => distance(nearest(place), place) < radius + 2).length;
  const words = boxes.filter((other) => meet(wider(box, 3), other)).length;
  const reach = wider(box, 7);
  const edges = lines.filter((points) => points.some((point) => holds(box, point))).length;
  const near = lines.filter((points) => points !== own && points.some((point) => holds(reach, point))).length;
  return 50 * states + 40 * words + 12 * edges + 4 * near;
}

/**
 * The middle of an edge's words.
 * @param {Route} route @param {{width: number, height: number}} size @param {Obstacles} obstacles
 * @returns {Spot}
 */
export function besideEdge(route, size, obstacles) {
  const { start, control, end } = route;
  const steps = obstacles.lines.length > MANY_LINES ? [0.5] : STEPS;
  const choices = steps.flatMap((t, rank) => [-1, 1].map((side) => {
    const [point, ahead] = [pointAt(start, control, end, t), pointAt(start, control, end, t + 0.01)];
    const length = Math.max(1e-6, distance(point, ahead));
    const normal = { x: side * (ahead.y - point.y) / length, y: -side * (ahead.x - point.x) / length };
    const away = Math.abs(normal.x) * size.width / 2 + Math.abs(normal.y) * size.height / 2 + 5;
    const middle = { x: point.x + normal.x * away, y: point.y + normal.y * away };
    return { middle, cost: disturbance(around(middle, size), obstacles, route.points) + rank + (normal.y > 0 ? 0.5 : 0) };
  }));
  const best = choices.reduce((a, b) => (b.cost < a.cost ? b : a));
  obstacles.boxes.push(around(best.middle, size));
  return { ...best.middle, width: size.width, height: size.height };
}

/**
 * The middle of a loop's words: behind its tip, or beside it.
 * @param {Loop} loop @param {{width: number, height: number}} size @param {Obstacles} obstacles
 * @returns {Spot}
 */
export function besideLoop(loop, size, obstacles) {
  const tip = loop.points[4];
  const choices = [0, 0.5, -0.5, 0.9, -0.9, 1.4, -1.4].map((turn, rank) => {
    const angle = loop.angle + turn;
    const away = Math.abs(Math.cos(angle)) * size.width / 2 + Math.abs(Math.sin(angle)) * size.height / 2 + 5;
    const middle = along(tip, angle, away);
    return { middle, cost: disturbance(around(middle, size), obstacles, loop.points) + rank };
  });
  const best = choices.reduce((a, b) => (b.cost < a.cost ? b : a));
  obstacles.boxes.push(around(best.middle, size));
  return { ...best.middle, width: size.width, height: size.height };
}
