/** Names of a table's members. They live in the table's text; what has none gets a plain one, or its number. */

/** @typedef {import('./types.js').Names} Names */

/**
 * q0, q1 .., i0, i1 .., o0, o1 .., t0, t1 ..
 * @param {{states: number, inputs: number, outputs: number}} counts @param {number} timers
 * @returns {Names}
 */
export function plainNames(counts, timers) {
  const named = (/** @type {string} */ letter, /** @type {number} */ count) => Array.from({ length: count }, (_, k) => `${letter}${k}`);
  return {
    states: named('q', counts.states),
    inputs: named('i', counts.inputs),
    outputs: named('o', counts.outputs),
    timers: named('t', timers),
  };
}

/**
 * The names given if they are as many as the table has members, else plain ones. A list of timers alone may be missing.
 * @param {Names|null|undefined} names @param {{states: number, inputs: number, outputs: number}} counts @param {number} timers
 * @returns {Names}
 */
export function fittingNames(names, counts, timers) {
  const plain = plainNames(counts, timers);
  if (!names) return plain;
  const fits = names.states.length === counts.states && names.inputs.length === counts.inputs && names.outputs.length === counts.outputs;
  if (!fits) return plain;
  return names.timers.length === timers ? names : { ...names, timers: plain.timers };
}

/**
 * A member's name in a sentence: in quotation marks, or its number if it has none.
 * @param {string[]} list @param {number} k
 */
export function quoted(list, k) {
  return k < list.length ? `'${list[k]}'` : String(k);
}

/**
 * @param {string[]} words @param {string} [joint]
 * @returns {string} "a", "a and b", "a, b and c"
 */
export function listed(words, joint = 'and') {
  if (words.length < 2) return words.join('');
  return `${words.slice(0, -1).join(', ')} ${joint} ${words[words.length - 1]}`;
}

/**
 * A count and its word: "1 byte", "2 bytes".
 * @param {number} count @param {string} word
 */
export function counted(count, word) {
  return `${thousands(count)} ${word}${count === 1 ? '' : 's'}`;
}

/**
 * "the 3 states are numbered 0 to 2", "the only state is numbered 0"
 * @param {number} count @param {string} word
 */
export function numbered(count, word) {
  return count === 1 ? `the only ${word} is numbered 0` : `the ${counted(count, word)} are numbered 0 to ${count - 1}`;
}

/**
 * A sentence: a template in which numbers are written as `thousands` writes them.
 * @param {TemplateStringsArray} strings @param {(string|number)[]} values
 */
export function say(strings, ...values) {
  return String.raw({ raw: strings }, ...values.map((value) => (typeof value === 'number' ? thousands(value) : value)));
}

/**
 * A number as it stands in a sentence: from five digits on with commas.
 * @param {number} number
 */
export function thousands(number) {
  const digits = String(number);
  return digits.length < 5 ? digits : digits.replace(/\B(?=(\d{3})+$)/g, ',');
}
