/**
 * The regions of timers: an outline around their states. Where it would have to go around a stranger too, each state has a ring instead.
 */
import { group, path } from '../svg.js';
import { members } from '../sets.js';
import { along } from './loops.js';
import { side } from './route.js';

/** @typedef {import('./route.js').Point} Point */

/**
 * The corners around all points, in order.
 * @param {Point[]} points
 * @returns {Point[]}
 */
function hull(points) {
  const sorted = [...points].sort((a, b) => a.x - b.x || a.y - b.y);
  const half = (/** @type {Point[]} */ list) => list.reduce((/** @type {Point[]} */ kept, point) => {
    while (kept.length > 1 && side(kept[kept.length - 2], kept[kept.length - 1], point) <= 0) kept.pop();
    return [...kept, point];
  }, []).slice(0, -1);
  return [...half(sorted), ...half(sorted.reverse())];
}

/** @param {Point} middle @param {number} radius */
const ring = (middle, radius) => Array.from({ length: 24 }, (_, k) => along(middle, k * Math.PI / 12, radius));

/**
 * @param {Point} point @param {Point[]} corners
 */
function inside(point, corners) {
  return corners.every((corner, k) => side(corner, corners[(k + 1) % corners.length], point) >= 0);
}

/**
 * The outlines of a region: one, or a ring for each state.
 * @param {number[]} states @param {Point[]} places @param {number} radius
 * @returns {Point[][]}
 */
function outlines(states, places, radius) {
  const corners = hull(states.flatMap((state) => ring(places[state], radius)));
  const strangers = places.filter((_, state) => !states.includes(state));
  const alone = !strangers.some((place) => ring(place, radius - 6).some((point) => inside(point, corners)));
  return alone && states.length > 0 ? [corners] : states.map((state) => ring(places[state], radius));
}

/**
 * The regions of all timers, each a little further out than the one before.
 * @param {import('./drawing.js').Scene} scene
 */
export function regions({ table, layout: { places, radius }, theme }) {
  return table.timers.map((timer, k) => {
    const states = members(timer.region).filter((state) => state < table.counts.states);
    const colour = theme.timers[k % theme.timers.length];
    const look = { fill: colour, 'fill-opacity': 0.1, stroke: colour, 'stroke-width': 2, 'stroke-dasharray': '7 4' };
    const paths = outlines(states, places, radius + 9 + 4 * k)
      .map((corners) => `M${corners.map(({ x, y }) => `${x.toFixed(1)},${y.toFixed(1)}`).join('L')}z`);
    return group({ class: 'region', 'data-timer': k }, paths.map((d) => path(d, look)));
  });
}
