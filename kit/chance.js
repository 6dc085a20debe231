/** Seeded chance: what was drawn can be drawn again. */

export class Chance {
  /** @param {number} seed */
  constructor(seed) {
    this.state = seed >>> 0;
  }

  /** 32 bits. */
  draw() {
    this.state = (this.state + 0x9e3779b9) >>> 0;
    let z = this.state;
    z = Math.imul(z ^ (z >>> 16), 0x21f0aaad);
    z = Math.imul(z ^ (z >>> 15), 0x735a2d97);
    return (z ^ (z >>> 15)) >>> 0;
  }

  /**
   * 0 to count - 1; 0 for a count of 0.
   * @param {number} count
   */
  below(count) {
    return count > 0 ? this.draw() % count : 0;
  }

  /** @param {number} low @param {number} high */
  between(low, high) {
    return low + this.below(high - low + 1);
  }

  /** @param {number} p */
  percent(p) {
    return this.below(100) < p;
  }

  /** @template T @param {ArrayLike<T>} all @returns {T} */
  pick(all) {
    return all[this.below(all.length)];
  }

  /** @param {number} count */
  bytes(count) {
    return Uint8Array.from({ length: count }, () => this.below(256));
  }
}
