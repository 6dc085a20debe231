/**
 * How edges run: each as one curve, bent so far that it passes other states by, crosses little, and keeps apart from the edge that goes the
 * other way.
 */

/** @typedef {{x: number, y: number}} Point */

/**
 * @typedef {Object} Route
 * @property {number} from
 * @property {number} to
 * @property {Point} start       where it leaves the state's circle
 * @property {Point} control
 * @property {Point} end         where it meets the other circle
 * @property {Point[]} points    along it
 * @property {Bounds} bounds
 */

/** @typedef {{left: number, right: number, top: number, bottom: number}} Bounds */

/** So many pieces a curve is cut into to see what it meets. */
const PIECES = 16;
const BENDS = [0, 24, -24, 52, -52, 90, -90, 140, -140, 200, -200];

/** @param {Point} a @param {Point} b */
export const distance = (a, b) => Math.hypot(a.x - b.x, a.y - b.y);

/**
 * A point of the curve with the corners a, c and b.
 * @param {Point} a @param {Point} c @param {Point} b @param {number} t
 * @returns {Point}
 */
export function pointAt(a, c, b, t) {
  const [u, v, w] = [(1 - t) * (1 - t), 2 * t * (1 - t), t * t];
  return { x: u * a.x + v * c.x + w * b.x, y: u * a.y + v * c.y + w * b.y };
}

/**
 * Where the curve leaves the circle around its beginning.
 * @param {Point} a @param {Point} c @param {Point} b @param {number} radius
 */
function leaving(a, c, b, radius) {
  let [inside, outside] = [0, 0.5];
  for (let k = 0; k < 18; k++) {
    const middle = (inside + outside) / 2;
    if (distance(pointAt(a, c, b, middle), a) < radius) inside = middle;
    else outside = middle;
  }
  return outside;
}

/**
 * The curve between two circles. `bend` is how far its middle lies to the left of the straight line.
 * @param {{from: number, to: number}} edge @param {Point[]} places @param {number} radius @param {number} bend
 * @returns {Route}
 */
function curve({ from, to }, places, radius, bend) {
  const [a, b] = [places[from], places[to]];
  const length = Math.max(1, distance(a, b));
  const control = { x: (a.x + b.x) / 2 + 2 * bend * (b.y - a.y) / length, y: (a.y + b.y) / 2 - 2 * bend * (b.x - a.x) / length };
  const t0 = leaving(a, control, b, radius + 1);
  const t1 = 1 - leaving(b, control, a, radius + 4);
  const mixed = (/** @type {'x'|'y'} */ k) =>
    (1 - t1) * (1 - t0) * a[k] + ((1 - t1) * t0 + (1 - t0) * t1) * control[k] + t0 * t1 * b[k];
  const [start, end, middle] = [pointAt(a, control, b, t0), pointAt(a, control, b, t1), { x: mixed('x'), y: mixed('y') }];
  const points = Array.from({ length: PIECES + 1 }, (_, k) => pointAt(start, middle, end, k / PIECES));
  return { from, to, start, control: middle, end, points, bounds: boundsOf(points) };
}

/**
 * @param {Point} a @param {Point} b @param {Point} c @param {Point} d
 */
function segmentsCross(a, b, c, d) {
  return side(a, b, c) * side(a, b, d) < 0 && side(c, d, a) * side(c, d, b) < 0;
}

/**
 * Which side of the line from p to q the point r lies on.
 * @param {Point} p @param {Point} q @param {Point} r
 */
export function side(p, q, r) {
  return (q.x - p.x) * (r.y - p.y) - (q.y - p.y) * (r.x - p.x);
}

/**
 * @param {Point[]} points
 * @returns {Bounds}
 */
function boundsOf(points) {
  const [xs, ys] = [points.map((p) => p.x), points.map((p) => p.y)];
  return { left: Math.min(...xs), right: Math.max(...xs), top: Math.min(...ys), bottom: Math.max(...ys) };
}

/**
 * @param {Bounds} a @param {Bounds} b
 * @param {number} by    how far they may be apart
 */
function near(a, b, by) {
  return a.left <= b.right + by && b.left <= a.right + by && a.top <= b.bottom + by && b.top <= a.bottom + by;
}

/**
 * How often two curves cross.
 * @param {Route} one @param {Route} other
 */
function crossings(one, other) {
  if (!near(one.bounds, other.bounds, 0)) return 0;
  let count = 0;
  for (let i = 0; i < PIECES; i++) {
    for (let j = 0; j < PIECES; j++) {
      if (segmentsCross(one.points[i], one.points[i + 1], other.points[j], other.points[j + 1])) count += 1;
    }
  }
  return count;
}

/**
 * How much a curve comes too near to states that are not its own.
 * @param {Route} route @param {Point[]} places @param {number} radius
 */
function nearness(route, places, radius) {
  let cost = 0;
  places.forEach((place, state) => {
    if (state === route.from || state === route.to) return;
    const around = { left: place.x, right: place.x, top: place.y, bottom: place.y };
    if (!near(route.bounds, around, radius + 14)) return;
    const nearest = Math.min(...route.points.map((point) => distance(point, place)));
    if (nearest < radius + 14) cost += 110 + (radius + 14 - nearest);
  });
  return cost;
}

/**
 * How much two curves run side by side: so many of the one's points lie close to the other's.
 * @param {Route} one @param {Route} other
 */
function closeness(one, other) {
  if (!near(one.bounds, other.bounds, 9)) return 0;
  const close = (/** @type {Point} */ point) => other.points.some((p) => Math.abs(p.x - point.x) + Math.abs(p.y - point.y) < 11);
  return one.points.slice(2, -2).filter(close).length;
}

/**
 * @param {Route} route @param {number} bend @param {Route[]} others @param {Point[]} places @param {number} radius
 */
function cost(route, bend, others, places, radius) {
  let sum = Math.abs(bend) * 0.12 + nearness(route, places, radius);
  for (const other of others) {
    sum += 14 * crossings(route, other);
    const related = other.from === route.from || other.to === route.to || other.from === route.to || other.to === route.from;
    if (related) sum += 5 * closeness(route, other);
  }
  return sum;
}

/** With more edges than this no bend helps. */
const MANY_EDGES = 160;

/**
 * @param {{from: number, to: number}[]} edges   none is a loop
 * @param {Point[]} places @param {number} radius
 * @returns {Route[]}
 */
export function routesOf(edges, places, radius) {
  const hasReverse = (/** @type {{from: number, to: number}} */ edge) => edges.some((other) => other.from === edge.to && other.to === edge.from);
  const routes = edges.map((edge) => curve(edge, places, radius, hasReverse(edge) ? 13 : 0));
  if (edges.length > MANY_EDGES) return routes;
  for (let round = 0; round < 3; round++) {
    edges.forEach((edge, k) => {
      const others = routes.filter((_, other) => other !== k);
      const bends = hasReverse(edge) ? [13, ...BENDS.slice(1)] : BENDS;
      const tried = bends.map((bend) => {
        const route = curve(edge, places, radius, bend);
        return { route, cost: cost(route, bend, others, places, radius) };
      });
      routes[k] = tried.reduce((best, next) => (next.cost < best.cost ? next : best)).route;
    });
  }
  return routes;
}
