/**
 * What sticks out of a single state: the loop of inputs that leave it where it is, and the arrow that shows the initial state.
 */
import { distance } from './route.js';

/** @typedef {import('./route.js').Point} Point */
/** @typedef {import('./route.js').Route} Route */

/**
 * @typedef {Object} Loop
 * @property {number} state
 * @property {Point} start
 * @property {Point} one       the curve's two corners
 * @property {Point} two
 * @property {Point} end
 * @property {number} angle    in which direction it sticks out
 * @property {Point[]} points
 */

/**
 * @param {Point} from @param {number} angle @param {number} length
 * @returns {Point}
 */
export function along(from, angle, length) {
  return { x: from.x + length * Math.cos(angle), y: from.y + length * Math.sin(angle) };
}

const UP = -Math.PI / 2;
const DIRECTIONS = Array.from({ length: 24 }, (_, k) => -Math.PI + k * Math.PI / 12);

/**
 * How far two directions are apart.
 * @param {number} a @param {number} b
 */
function apart(a, b) {
  const turn = Math.abs(a - b) % (2 * Math.PI);
  return Math.min(turn, 2 * Math.PI - turn);
}

/**
 * The direction in which most room is left, near to the one that is liked.
 * @param {number} state @param {{places: Point[], routes: Route[], radius: number}} drawn @param {number} liked
 * @param {number} length     how far it sticks out
 * @param {number[]} taken    directions that are used already
 * @param {Point[]} points    other things in the way
 */
function freeDirection(state, { places, routes, radius }, liked, length, taken, points) {
  const middle = places[state];
  const ends = routes.flatMap((route) => (route.from === state ? [route.start] : route.to === state ? [route.end] : []));
  const used = [...ends.map((end) => Math.atan2(end.y - middle.y, end.x - middle.x)), ...taken];
  const cost = (/** @type {number} */ angle) => {
    const tip = along(middle, angle, radius + length);
    const crowding = used.map((other) => Math.max(0, 0.8 - apart(other, angle))).reduce((a, b) => a + 6 * b, 0);
    const nodes = places.filter((place, k) => k !== state && distance(place, tip) < radius + 34).length;
    const edges = routes.filter((route) => route.points.some((point) => distance(point, tip) < 22)).length;
    const things = points.filter((point) => distance(point, tip) < 30).length;
    return crowding + 6 * nodes + 2.5 * (edges + things) + 0.5 * apart(angle, liked);
  };
  return DIRECTIONS.map((angle) => ({ angle, cost: cost(angle) })).reduce((best, next) => (next.cost < best.cost - 1e-9 ? next : best)).angle;
}

/**
 * The arrow to the initial state, from the left if there is room.
 * @param {number} state @param {{places: Point[], routes: Route[], radius: number}} drawn
 */
export function startArrow(state, drawn) {
  const angle = freeDirection(state, drawn, Math.PI, 40, [], []);
  return { angle, from: along(drawn.places[state], angle, drawn.radius + 42), to: along(drawn.places[state], angle, drawn.radius + 4) };
}

/**
 * @param {number} state @param {{places: Point[], routes: Route[], radius: number}} drawn @param {number[]} taken
 * @param {Point} arrow     where the initial state's arrow begins
 * @returns {Loop}
 */
export function loopAt(state, drawn, taken, arrow) {
  const angle = freeDirection(state, drawn, UP, 30, taken, [arrow]);
  const { radius } = drawn;
  const middle = drawn.places[state];
  const half = Math.min(0.5, 17 / radius);
  const [start, end] = [along(middle, angle - half, radius + 1), along(middle, angle + half, radius + 4)];
  const [one, two] = [along(middle, angle - half * 1.35, radius + 42), along(middle, angle + half * 1.35, radius + 42)];
  const at = (/** @type {number} */ t) => {
    const [a, b, c, d] = [(1 - t) ** 3, 3 * t * (1 - t) ** 2, 3 * t * t * (1 - t), t ** 3];
    return { x: a * start.x + b * one.x + c * two.x + d * end.x, y: a * start.y + b * one.y + c * two.y + d * end.y };
  };
  return { state, start, one, two, end, angle, points: Array.from({ length: 9 }, (_, k) => at(k / 8)) };
}
