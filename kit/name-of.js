/**
 * A member's name as a picture shows it: its number if it has none.
 * @param {string[]} names @param {number|null} number
 * @returns {string}
 */
export function nameOf(names, number) {
  return number === null ? '' : names[number] ?? String(number);
}
