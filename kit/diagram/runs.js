/**
 * What stood for how long: input, phase, state. Between two records nothing changes.
 */

/** @typedef {import('../types.js').Step} Step */
/** @typedef {import('../types.js').Machine} Machine */

/**
 * @typedef {Object} Run
 * @property {number} from
 * @property {number} to
 * @property {number} value
 */

/**
 * @param {Step[]} taken                          the accepted steps
 * @param {(machine: Machine) => number} pick @param {{from: number, to: number, known: number}} stretch
 * @returns {Run[]}  the runs within the stretch, none of them empty
 */
export function runsOf(taken, pick, stretch) {
  /** @type {Run[]} */
  const runs = [];
  const end = Math.min(stretch.to, stretch.known);
  for (let k = 0; k < taken.length; k++) {
    const from = Math.max(taken[k].record.time, stretch.from);
    const to = Math.min(taken[k + 1]?.record.time ?? stretch.known, end);
    const machine = taken[k].after;
    if (to <= from || machine === null) continue;
    const value = pick(machine);
    const last = runs[runs.length - 1];
    if (last !== undefined && last.value === value) last.to = to;
    else runs.push({ from, to, value });
  }
  return runs;
}

/**
 * The runs as columns of pixels, for crowded pictures. A column has the value that lasts longest in it, and neighbours of one value are put
 * together, so that there are never more pieces than columns.
 * @param {Run[]} runs @param {(time: number) => number} x
 * @param {number} width    of a column
 * @returns {{x: number, width: number, value: number}[]}
 */
export function columnsOf(runs, x, width) {
  /** @type {Map<number, {value: number, share: number}>} */
  const columns = new Map();
  for (const run of runs) {
    const [from, to] = [x(run.from) / width, x(run.to) / width];
    for (let column = Math.floor(from); column < to; column++) {
      const share = Math.min(to, column + 1) - Math.max(from, column);
      if (share > (columns.get(column)?.share ?? 0)) columns.set(column, { value: run.value, share });
    }
  }
  return joined(columns, width);
}

/**
 * @param {Map<number, {value: number}>} columns   in order
 * @param {number} width
 */
function joined(columns, width) {
  /** @type {{x: number, width: number, value: number}[]} */
  const pieces = [];
  for (const [column, { value }] of columns) {
    const last = pieces[pieces.length - 1];
    const touches = last !== undefined && Math.abs(last.x + last.width - column * width) < 0.01;
    if (touches && last.value === value) last.width = (column + 1) * width - last.x;
    else pieces.push({ x: column * width, width, value });
  }
  return pieces;
}

/**
 * Pieces of a lane as boxes of one path.
 * @param {{x: number, width: number}[]} pieces @param {number} y @param {number} height
 */
export function boxesOf(pieces, y, height) {
  const tenth = (/** @type {number} */ number) => Math.round(number * 10) / 10;
  return pieces.map(({ x, width }) => `M${tenth(x)},${y}h${tenth(width)}v${height}h${-tenth(width)}z`).join('');
}
