/**
 * Where the states stand: in the cells of a grid, so that edges are short, cross little, and pass no other state. Found by annealing from
 * a fixed seed, so that a table always has the same picture.
 */

/**
 * @typedef {Object} Graph
 * @property {number} count
 * @property {number} start
 * @property {[number, number][]} pairs    states with an edge between them, each pair once
 * @property {number[][]} flow             [from, to] of edges along which the states are first reached
 * @property {number[][]} groups           states that belong together
 */

/**
 * @typedef {Object} Grid
 * @property {number} columns
 * @property {number} rows
 * @property {number} dx        between columns, in pixels
 * @property {number} dy
 * @property {number} clear     an edge should keep so far away from a state's middle
 */

/** What each fault costs, against one cell of length. */
const CROSSING = 3;
const PASSING = 8;
const BACKWARD = 0.35;
const APART = 0.5;
const BEFORE_START = 1.5;

/**
 * A source of numbers from 0 to 1, always the same.
 * @param {number} seed
 */
export function dice(seed) {
  let state = seed;
  return () => {
    state = (Math.imul(state, 1664525) + 1013904223) >>> 0;
    return state / 4294967296;
  };
}

class Board {
  /**
   * @param {Graph} graph @param {Grid} grid
   */
  constructor(graph, grid) {
    this.graph = graph;
    this.grid = grid;
    this.x = new Float64Array(graph.count);
    this.y = new Float64Array(graph.count);
    /** The two ends of each pair. */
    this.one = Int32Array.from(graph.pairs, (pair) => pair[0]);
    this.two = Int32Array.from(graph.pairs, (pair) => pair[1]);
    /** @type {number[]} the state in each cell, or -1 */
    this.cells = Array.from({ length: grid.columns * grid.rows }, (_, cell) => (cell < graph.count ? cell : -1));
    /** @type {number[][]} indices of the pairs at each state */
    this.at = Array.from({ length: graph.count }, (_, state) => graph.pairs.flatMap((pair, k) => (pair.includes(state) ? [k] : [])));
    this.cells.forEach((state, cell) => this.put(state, cell));
  }

  /**
   * @param {number} state @param {number} cell
   */
  put(state, cell) {
    this.cells[cell] = state;
    if (state < 0) return;
    this.x[state] = (cell % this.grid.columns) * this.grid.dx;
    this.y[state] = Math.floor(cell / this.grid.columns) * this.grid.dy;
  }

  /**
   * @param {number} one @param {number} other
   */
  swap(one, other) {
    const [a, b] = [this.cells[one], this.cells[other]];
    this.put(b, one);
    this.put(a, other);
  }

  /**
   * Which side of the line from a to b the state c lies on.
   * @param {number} a @param {number} b @param {number} c
   */
  side(a, b, c) {
    return (this.x[b] - this.x[a]) * (this.y[c] - this.y[a]) - (this.y[b] - this.y[a]) * (this.x[c] - this.x[a]);
  }

  /**
   * @param {number} k
   * @param {number} other   indices of pairs
   */
  cross(k, other) {
    const a = this.one[k];
    const b = this.two[k];
    const c = this.one[other];
    const d = this.two[other];
    if (a === c || a === d || b === c || b === d) return false;
    return this.side(a, b, c) * this.side(a, b, d) < 0 && this.side(c, d, a) * this.side(c, d, b) < 0;
  }

  /**
   * Does the edge between a pair come too near to a state?
   * @param {number} k @param {number} state
   */
  passes(k, state) {
    const a = this.one[k];
    const b = this.two[k];
    if (state === a || state === b) return false;
    const ux = this.x[b] - this.x[a];
    const uy = this.y[b] - this.y[a];
    const vx = this.x[state] - this.x[a];
    const vy = this.y[state] - this.y[a];
    const t = Math.min(1, Math.max(0, (ux * vx + uy * vy) / (ux * ux + uy * uy)));
    return (vx - t * ux) ** 2 + (vy - t * uy) ** 2 < this.grid.clear ** 2;
  }

  /**
   * What a pair's edge costs by itself.
   * @param {number} k
   */
  pairCost(k) {
    const [a, b] = [this.one[k], this.two[k]];
    const length = Math.sqrt(((this.x[a] - this.x[b]) / this.grid.dx) ** 2 + ((this.y[a] - this.y[b]) / this.grid.dy) ** 2);
    let cost = length * length * 0.5 + length;
    for (let state = 0; state < this.graph.count; state++) if (this.passes(k, state)) cost += PASSING;
    return cost;
  }

  /**
   * What all edges at a state cost, and the state where it stands.
   * @param {number} state
   */
  stateCost(state) {
    const { pairs } = this.graph;
    let cost = 0;
    for (const k of this.at[state]) {
      cost += this.pairCost(k);
      for (let other = 0; other < pairs.length; other++) if (this.cross(k, other)) cost += CROSSING;
    }
    for (let k = 0; k < pairs.length; k++) if (this.passes(k, state)) cost += PASSING;
    return cost;
  }

  /** What does not belong to a single edge: the direction of reading, groups, the room for the arrow to the initial state. */
  wholeCost() {
    const { flow, groups, start, count } = this.graph;
    let cost = this.x[start] / this.grid.dx * 0.15;
    for (const [from, to] of flow) if (this.x[to] < this.x[from]) cost += BACKWARD;
    for (let state = 0; state < count; state++) if (this.y[state] === this.y[start] && this.x[state] < this.x[start]) cost += BEFORE_START;
    for (const group of groups) cost += APART * this.spread(group);
    return cost;
  }

  /**
   * How many cells a group takes, and how many strangers stand in them.
   * @param {number[]} group
   */
  spread(group) {
    const [xs, ys] = [group.map((state) => this.x[state]), group.map((state) => this.y[state])];
    const [left, right, top, bottom] = [Math.min(...xs), Math.max(...xs), Math.min(...ys), Math.max(...ys)];
    const isInside = (/** @type {number} */ state) =>
      this.x[state] >= left && this.x[state] <= right && this.y[state] >= top && this.y[state] <= bottom;
    const inside = [...this.x.keys()].filter(isInside).length;
    return (right - left) / this.grid.dx + (bottom - top) / this.grid.dy + 3 * (inside - group.length);
  }

  cost() {
    const { pairs } = this.graph;
    let cost = this.wholeCost();
    for (let k = 0; k < pairs.length; k++) {
      cost += this.pairCost(k);
      for (let other = 0; other < k; other++) if (this.cross(k, other)) cost += CROSSING;
    }
    return cost;
  }

  copy() {
    return { cost: this.cost(), x: this.x.slice(), y: this.y.slice() };
  }

  /**
   * What changes with the states in two cells.
   * @param {number} one @param {number} other
   */
  localCost(one, other) {
    const [a, b] = [this.cells[one], this.cells[other]];
    return (a < 0 ? 0 : this.stateCost(a)) + (b < 0 ? 0 : this.stateCost(b)) + this.wholeCost();
  }
}

/**
 * One annealing.
 * @param {Graph} graph @param {Grid} grid @param {number} seed @param {number} moves
 */
function anneal(graph, grid, seed, moves) {
  const board = new Board(graph, grid);
  const roll = dice(seed);
  const cell = () => Math.floor(roll() * board.cells.length);
  for (let k = 0; k < board.cells.length; k++) board.swap(cell(), cell());
  let best = board.copy();
  for (let move = 0; move < moves; move++) {
    const [one, other, heat] = [cell(), cell(), 4 * (1 - move / moves) ** 2 + 0.01];
    if (one === other || (board.cells[one] < 0 && board.cells[other] < 0)) continue;
    const before = board.localCost(one, other);
    board.swap(one, other);
    const worse = board.localCost(one, other) - before;
    if (worse > 0 && roll() > Math.exp(-worse / heat)) board.swap(one, other);
    else if (move > moves * 0.6 && worse < 0 && board.cost() < best.cost - 1e-9) best = board.copy();
  }
  return best;
}

/** How much work one picture may take, in comparisons of edges. */
const EFFORT = 1.5e7;

/**
 * The best of several annealings. The corner at the top left is at 0, 0.
 * @param {Graph} graph @param {Grid} grid
 * @returns {{x: number, y: number}[]}
 */
export function place(graph, grid) {
  const degree = 2 * graph.pairs.length / graph.count;
  const work = Math.max(20, 4 * degree * (graph.pairs.length + graph.count));
  const tries = graph.count <= 3 ? 2 : 4;
  const moves = Math.ceil(Math.min(600 * graph.count, EFFORT / work / tries));
  const found = Array.from({ length: tries }, (_, k) => anneal(graph, grid, 7919 * (k + 1), moves)).reduce((a, b) => (b.cost < a.cost ? b : a));
  const [left, top] = [Math.min(...found.x), Math.min(...found.y)];
  return Array.from(found.x, (x, state) => ({ x: x - left, y: found.y[state] - top }));
}
