/** Sets as the bytes have them: numbers of 32 bits without sign, in which bit i stands for member i. */

/**
 * @param {number} set @param {number} member
 */
export function has(set, member) {
  return member < 32 && (set >>> member & 1) === 1;
}

/**
 * The members, the smallest first.
 * @param {number} set
 * @returns {number[]}
 */
export function members(set) {
  return Array.from({ length: 32 }, (_, k) => k).filter((k) => has(set, k));
}

/**
 * @param {Iterable<number>} all  each below 32
 */
export function setOf(all) {
  let set = 0;
  for (const member of all) set |= 1 << member;
  return set >>> 0;
}

/**
 * Every number below the count.
 * @param {number} count  at most 32
 */
export function wholeSet(count) {
  return count >= 32 ? 0xffffffff : 2 ** count - 1;
}
