/**
 * Where the crates stand in their picture: in rows. A line's way through a row that it passes is a place too, so that no line runs
 * behind a crate. Each row has an order in which few lines cross and most are short.
 */
import { dice } from '../automaton/place.js';

/** @typedef {import('./crates.js').Needs} Needs */

/**
 * @typedef {Object} Place
 * @property {string} name     of a crate; '' where a line passes
 * @property {string} from     the crate that its lines downwards come from
 * @property {number} width
 * @property {number} x        of its middle; 0 is the middle of the picture
 * @property {Place[]} above   those of the row above that a line leads to
 * @property {Place[]} below
 */

/** Between two places of a row. */
const GAP = 11;
/** No place wants to stand further from the middle of the picture. */
const SIDE = 370;
/** So many orders to begin with are tried. */
const TRIES = 300;
/** So far to the side, a line costs as much as half a crossing. */
const FAR = 60;

/** @param {string} name @param {string} from @param {number} width @returns {Place} */
const newPlace = (name, from, width) => ({ name, from, width, x: 0, above: [], below: [] });

/** @param {Place} upper @param {Place} lower */
function join(upper, lower) {
  upper.below.push(lower);
  lower.above.push(upper);
}

/**
 * The rows, top first, in the order of the file.
 * @param {Needs} needs    direct ones
 * @param {Map<string, number>} rowOf @param {(name: string) => number} widthOf
 * @returns {Place[][]}
 */
function rowsOfPlaces(needs, rowOf, widthOf) {
  const row = (/** @type {string} */ name) => rowOf.get(name) ?? 0;
  const crates = new Map([...needs.keys()].map((name) => [name, newPlace(name, name, widthOf(name))]));
  const at = (/** @type {string} */ name) => /** @type {Place} */ (crates.get(name));
  const rows = Array.from({ length: Math.max(...rowOf.values()) + 1 }, (_, k) => [...needs.keys()].filter((name) => row(name) === k).map(at));
  for (const [name, all] of needs) {
    for (const need of all) {
      let upper = at(name);
      for (const passed of rows.slice(row(name) + 1, row(need))) {
        const passing = newPlace('', name, 0);
        passed.push(passing);
        join(upper, passing);
        upper = passing;
      }
      join(upper, at(need));
    }
  }
  return rows;
}

/**
 * While the rows are put in order their places stand side by side.
 * @param {Place[]} row
 */
function pack(row) {
  let x = -row.reduce((sum, place) => sum + place.width + GAP, 0) / 2;
  for (const place of row) {
    place.x = x + (place.width + GAP) / 2;
    x += place.width + GAP;
  }
}

/**
 * What the lines below a row cost: crossings, and how far they lead to the side.
 * @param {Place[]} row
 */
function cost(row) {
  const lines = row.flatMap((upper) => upper.below.map((lower) => [upper.x, lower.x]));
  const crossing = lines.map((one, k) => lines.slice(k + 1).filter((other) => (one[0] - other[0]) * (one[1] - other[1]) < 0).length);
  return 2 * crossing.reduce((sum, count) => sum + count, 0) + lines.reduce((sum, [upper, lower]) => sum + Math.abs(upper - lower) / FAR, 0);
}

/** @param {Place[]} row @param {number} j @param {number} k */
function swap(row, j, k) {
  [row[j], row[k]] = [row[k], row[j]];
  pack(row);
}

/**
 * Swaps places of one row as long as that makes it better.
 * @param {Place[]} row @param {Place[]} above    the row above it, or none
 * @returns {boolean} whether anything was swapped
 */
function improve(row, above) {
  let best = cost(row) + cost(above);
  const before = best;
  for (let j = 0; j < row.length; j++) {
    for (let k = j + 1; k < row.length; k++) {
      swap(row, j, k);
      const now = cost(row) + cost(above);
      if (now < best - 1e-9) best = now;
      else swap(row, j, k);
    }
  }
  return best < before;
}

/** @param {Place[][]} rows @returns {number} what all lines cost then */
function settle(rows) {
  rows.forEach(pack);
  let better = true;
  while (better) better = rows.map((row, k) => improve(row, rows[k - 1] ?? [])).includes(true);
  return rows.reduce((sum, row) => sum + cost(row), 0);
}

/**
 * @param {Place[]} row @param {() => number} roll
 * @returns {Place[]}
 */
function shuffled(row, roll) {
  const keys = new Map(row.map((place) => [place, roll()]));
  return [...row].sort((a, b) => (keys.get(a) ?? 0) - (keys.get(b) ?? 0));
}

/**
 * The best of many beginnings.
 * @param {Place[][]} rows
 */
function inOrder(rows) {
  const roll = dice(1);
  let best = { cost: Infinity, rows };
  for (let k = 0; k < TRIES; k++) {
    const tried = rows.map((row) => shuffled(row, roll));
    const found = settle(tried);
    if (found < best.cost) best = { cost: found, rows: tried };
  }
  return best.rows;
}

/**
 * Where a place would stand by itself: between those that lines lead to. Lines that only pass are kept straight.
 * @param {Place} place
 */
function wish(place) {
  let [sum, weights] = [0, 0];
  for (const other of [...place.above, ...place.below]) {
    const weight = place.name === '' && other.name === '' ? 8 : place.name === '' || other.name === '' ? 2 : 1;
    sum += weight * other.x;
    weights += weight;
  }
  const side = SIDE - place.width / 2;
  return weights === 0 ? place.x : Math.max(-side, Math.min(side, sum / weights));
}

/**
 * Pushes neighbours apart, from the left and from the right, and takes the middle of both.
 * @param {Place[]} row @param {number[]} wishes
 */
function spread(row, wishes) {
  const apart = (/** @type {number} */ k) => (row[k - 1].width + row[k].width) / 2 + GAP;
  const [left, right] = [[...wishes], [...wishes]];
  for (let k = 1; k < row.length; k++) right[k] = Math.max(right[k], right[k - 1] + apart(k));
  for (let k = row.length - 1; k > 0; k--) left[k - 1] = Math.min(left[k - 1], left[k] - apart(k));
  row.forEach((place, k) => { place.x = (left[k] + right[k]) / 2; });
}

/**
 * @param {Needs} needs @param {Map<string, number>} rowOf @param {(name: string) => number} widthOf
 * @returns {Place[][]}
 */
export function layersOf(needs, rowOf, widthOf) {
  const rows = inOrder(rowsOfPlaces(needs, rowOf, widthOf));
  for (const row of rows) spread(row, row.map(() => 0));
  for (let round = 0; round < 100; round++) {
    for (const row of round % 2 === 0 ? rows : [...rows].reverse()) spread(row, row.map(wish));
  }
  return rows;
}
