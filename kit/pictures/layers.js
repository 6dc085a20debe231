/** The picture of the crates by layers, made from the text of crates.txt. */
import { line, path, picture, rect, text } from '../svg.js';
import { widthOf } from '../text-width.js';
import { LIGHT } from '../theme.js';
import { direct, needsOf, partsOf, rowsOf } from './crates.js';
import { layersOf } from './places.js';

/** @typedef {import('./places.js').Place} Place */
/** @typedef {{fill: string, stroke: string}} Look */

const SIZE = 13;
const BOX = 28;
const ROW = 64;
const MARGIN = 12;
const LEGEND = 40;

/** @type {Look[]} of the parts of crates.txt, in turn */
const LOOKS = [
  { fill: LIGHT.states[0], stroke: LIGHT.border }, { fill: LIGHT.freeFill, stroke: LIGHT.free },
  { fill: LIGHT.inputs[0], stroke: '#6a4fb0' }, { fill: LIGHT.inputs[4], stroke: '#9a8430' }];

/** @param {number} row */
const heightOf = (row) => MARGIN + BOX / 2 + row * ROW;

/**
 * @param {Place} place @param {number} row @param {Look} look
 */
function box({ name, x, width }, row, look) {
  const y = heightOf(row);
  return [rect(x - width / 2, y - BOX / 2, width, BOX, { rx: 5, ...look }),
    text(x, y + 5, name, { size: SIZE, fill: LIGHT.ink, anchor: 'middle', bold: true })];
}

/**
 * @param {Place} upper @param {Place} lower @param {number} row    of the upper one
 * @param {string} stroke
 */
function curve(upper, lower, row, stroke) {
  const [from, to] = [heightOf(row) + (upper.name ? BOX / 2 : 0), heightOf(row + 1) - (lower.name ? BOX / 2 : 0)];
  const middle = (from + to) / 2;
  const d = `M${[upper.x, from]}C${[upper.x, middle, lower.x, middle, lower.x, to].map((value) => Math.round(value * 100) / 100)}`;
  return path(d, { fill: 'none', stroke, 'stroke-width': 1.3 });
}

/**
 * One bar for crates that need the same: all of them stand on all below it.
 * @param {Place[]} uppers @param {number} row
 */
function bar(uppers, row) {
  const lowers = uppers[0].below;
  const y = heightOf(row) + ROW / 2;
  const xs = [...uppers, ...lowers].map(({ x }) => x);
  const strokes = (/** @type {Place} */ { x }, /** @type {number} */ to) => line(x, y, x, to, LIGHT.border, 1.3);
  return [line(Math.min(...xs), y, Math.max(...xs), y, LIGHT.border, 1.3),
    uppers.map((upper) => strokes(upper, heightOf(row) + BOX / 2)), lowers.map((lower) => strokes(lower, heightOf(row + 1) - BOX / 2))];
}

/**
 * The lines below a row.
 * @param {Place[]} places @param {number} row @param {(name: string) => Look} lookOf
 */
function linesBelow(places, row, lookOf) {
  /** @type {Map<string, Place[]>} */
  const same = new Map();
  for (const place of places) {
    const key = place.below.map(({ name, x }) => `${name} ${x}`).sort().join();
    same.set(key, [...same.get(key) ?? [], place]);
  }
  return [...same.values()].map((uppers) => {
    if (uppers.length > 1 && uppers[0].below.length > 1) return bar(uppers, row);
    return uppers.flatMap((upper) => upper.below.map((lower) => curve(upper, lower, row, lookOf(upper.from).stroke)));
  });
}

/**
 * @param {string[]} titles @param {number} left @param {number} y
 */
function legend(titles, left, y) {
  let x = left;
  return titles.map((title, k) => {
    const entry = [rect(x, y - 10, 12, 12, { rx: 3, ...LOOKS[k % LOOKS.length] }), text(x + 18, y, title, { size: 12, fill: LIGHT.quiet })];
    x += 18 + widthOf(title, 12) + 22;
    return entry;
  });
}

/**
 * @param {string} source    of crates.txt
 * @returns {string} SVG
 */
export function layersPicture(source) {
  const needs = needsOf(source);
  const parts = partsOf(source);
  const lookOf = (/** @type {string} */ name) => LOOKS[parts.findIndex(({ names }) => names.has(name)) % LOOKS.length];
  const rows = layersOf(direct(needs), rowsOf(needs), (name) => widthOf(name, SIZE, true) + 14);
  const left = Math.min(...rows.flat().map(({ x, width }) => x - width / 2)) - MARGIN;
  for (const place of rows.flat()) place.x -= left;
  const width = Math.max(...rows.flat().map((place) => place.x + place.width / 2)) + MARGIN;
  const height = heightOf(rows.length - 1) + BOX / 2 + LEGEND;
  const crates = (/** @type {Place[]} */ row) => row.filter(({ name }) => name !== '');
  return picture(
    { width, height, title: 'The layers', description: 'each crate stands above all that it stands on', className: 'layers' },
    rect(0, 0, width, height, { fill: LIGHT.paper }),
    rows.map((row, k) => linesBelow(row, k, lookOf)),
    rows.map((row, k) => crates(row).map((place) => box(place, k, lookOf(place.name)))),
    legend(parts.map(({ title }) => title), MARGIN, height - 14));
}
