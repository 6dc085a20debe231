/**
 * Where everything stands: sizes of words and marks, and the lanes from top to bottom.
 */

/** @typedef {import('../types.js').Table} Table */

/**
 * @typedef {Object} Sizes
 * @property {boolean} narrow
 * @property {boolean} low      the lanes are closer together
 * @property {number} left      where time begins
 * @property {number} gap       between a lane's name and its beginning
 * @property {number} right     how much is left free at the right edge
 * @property {number} word      the lanes' names
 * @property {number} text      what stands in lanes and at records
 * @property {number} small     what explains
 * @property {number} title
 * @property {number} ring      radius of the ring around the refused record
 */

/**
 * @param {number} width @param {boolean} [low]
 * @returns {Sizes}
 */
export function sizesFor(width, low = false) {
  const narrow = width < 700;
  return narrow
    ? { narrow, low, left: 64, gap: 16, right: 14, word: 11.5, text: 12, small: 11, title: 16, ring: 13 }
    : { narrow, low, left: 140, gap: 20, right: 34, word: 16, text: 14, small: 12.5, title: 21, ring: 17 };
}

/**
 * Of each lane its top, or for rows of marks their middle, and heights.
 * @typedef {Object} Lanes
 * @property {number} top        of the axis' lines
 * @property {number} axis       base line of its numbers
 * @property {{y: number, height: number}} input
 * @property {{y: number, height: number}} band     behind the records
 * @property {number} poll
 * @property {number} test
 * @property {number} tick
 * @property {number} cycle
 * @property {{y: number, height: number}} state
 * @property {{y: number, height: number}} output
 * @property {{y: number, height: number}[]} clocks   the hold, or each timer
 * @property {number} bottom
 */

/** Gaps above lanes, and heights. `rows` are the middles of the rows in the band; `clock` is from one clock to the next. */
const WIDE = { axis: 18, input: [18, 40], band: [28, 164], rows: [24, 62, 108, 144], state: [24, 38], output: 26, clocks: 16, clock: [42, 32] };
const LOW = { axis: 16, input: [16, 36], band: [24, 146], rows: [22, 56, 98, 130], state: [20, 34], output: 24, clocks: 12, clock: [38, 30] };
const NARROW = { axis: 14, input: [16, 32], band: [24, 134], rows: [18, 50, 88, 118], state: [18, 30], output: 22, clocks: 12, clock: [34, 24] };

/** A narrow picture has the timers' names above their bars. */
const NAME_ABOVE = 10;

/**
 * @param {Table} table @param {Sizes} sizes
 * @param {number} head    the height of what stands above the axis
 * @returns {Lanes}
 */
export function lanesFor(table, { narrow, low }, head) {
  const m = narrow ? NARROW : low ? LOW : WIDE;
  const lane = (/** @type {number} */ above, /** @type {number[]} */ [gap, height]) => ({ y: above + gap, height });
  const axis = head + m.axis;
  const input = lane(axis, m.input);
  const band = lane(input.y + input.height, m.band);
  const state = lane(band.y + band.height, m.state);
  const output = lane(state.y + state.height, [0, m.output]);
  const name = narrow && table.kind === 'timers' ? NAME_ABOVE : 0;
  const step = m.clock[0] + name;
  const first = output.y + output.height + m.clocks;
  const clocks = Array.from({ length: clockRows(table) }, (_, k) => ({ y: first + k * step + name, height: m.clock[1] }));
  const bottom = clocks.length === 0 ? output.y + output.height + 8 : first + clocks.length * step + 2;
  const [poll, test, tick, cycle] = m.rows.map((row) => band.y + row);
  return { top: input.y - 8, axis, input, band, poll, test, tick, cycle, state, output, clocks, bottom };
}

/**
 * One row is enough for all holds, since there is one state at a time.
 * @param {Table} table
 */
function clockRows(table) {
  if (table.kind === 'timers') return table.timers.length;
  return table.holds.some((hold, state) => hold > 0 && table.delayed[state] !== 0) ? 1 : 0;
}
