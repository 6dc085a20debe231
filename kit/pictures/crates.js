/** The crates and what they stand on, as crates.txt says. */

/** @typedef {Map<string, string[]>} Needs   of each crate those that it needs, in the order of the file */

/**
 * The lines of crates.txt. What has no line of its own there comes with the toolchain, and is left out.
 * @param {string} text
 * @returns {Needs}
 */
export function needsOf(text) {
  const lines = text.split('\n').filter((line) => /^\w+( staticlib)?:/.test(line)).map((line) => line.split(/(?: staticlib)?:/));
  const own = new Set(lines.map(([name]) => name));
  return new Map(lines.map(([name, needs]) => [name, needs.split(' ').filter((need) => own.has(need))]));
}

/**
 * Only what no other need stands on already.
 * @param {Needs} needs
 * @returns {Needs}
 */
export function direct(needs) {
  /** @type {(name: string) => string[]} */
  const below = (name) => (needs.get(name) ?? []).flatMap((need) => [need, ...below(need)]);
  return new Map([...needs].map(([name, all]) => {
    const further = new Set(all.flatMap(below));
    return [name, all.filter((need) => !further.has(need))];
  }));
}

/**
 * The row of each crate, 0 at the top: right below the lowest of those that stand on it.
 * @param {Needs} needs
 * @returns {Map<string, number>}
 */
export function rowsOf(needs) {
  const rows = new Map([...needs.keys()].map((name) => [name, 0]));
  for (const [name, all] of [...needs].reverse()) {
    for (const need of all) rows.set(need, Math.max(rows.get(need) ?? 0, (rows.get(name) ?? 0) + 1));
  }
  return rows;
}

/**
 * The file's parts. A comment opens one and names it, up to its first stop; the first comment speaks of the file, and what comes behind
 * it is the library.
 * @param {string} text
 * @returns {{title: string, names: Set<string>}[]}
 */
export function partsOf(text) {
  return text.split(/^#/m).slice(1).map((part, k) => {
    const [comment, ...lines] = part.split('\n');
    return { title: k === 0 ? 'The library' : comment.trim().split(/[.;]/)[0], names: new Set(lines.map((line) => line.split(/(?: staticlib)?:/)[0])) };
  });
}
