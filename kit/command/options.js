/** The options, and what each is for. */

/** @typedef {{type: 'string'|'boolean', short?: string, value?: string, says: string}} Option */

/** @type {Record<string, Option>} */
export const OPTIONS = {
  output: { type: 'string', short: 'o', value: 'FILE', says: 'write to FILE; its ending says the form' },
  names: { type: 'string', value: 'TEXT', says: "take the names from this table's text" },
  as: { type: 'string', value: 'KIND', says: 'table, journal, short, stamped or stimulus: what the bytes are, or which part of a text is meant' },
  json: { type: 'boolean', says: 'one object on one line for each answer, and for each failure' },
  plain: { type: 'boolean', says: 'no sentences and no colour' },
  help: { type: 'boolean', short: 'h', says: 'this help' },
  title: { type: 'string', value: 'WORDS', says: "the picture's title" },
  width: { type: 'string', value: 'PIXELS', says: 'how wide the picture is' },
  dark: { type: 'boolean', says: 'light on dark' },
  begin: { type: 'string', value: 'TIME', says: 'the picture begins at this time' },
  until: { type: 'string', value: 'TIME', says: 'the picture goes up to this time' },
  show: { type: 'string', value: 'WHAT', says: 'automaton or matrix; the one that is easier to read if left out' },
  graphviz: { type: 'boolean', says: 'let Graphviz place the states; where arrows are a tangle they stand on an oval' },
  from: { type: 'string', value: 'STATES', says: 'names with commas between; all states if left out' },
  while: { type: 'string', value: 'INPUTS', says: 'names with commas between; all inputs if left out' },
  moves: { type: 'string', value: 'N', says: 'over so many moves, at most 32, with the tight time and the longest way' },
  tight: { type: 'boolean', says: 'also the tight time of one move, which is enough too, since times are whole numbers' },
  states: { type: 'string', value: 'STATES', says: 'names with commas between; all states if left out' },
  within: { type: 'string', value: 'C', says: 'assert that the target is reached within C' },
  hold: { type: 'boolean', says: 'assert that no state is left too soon' },
  scale: { type: 'string', value: 'N', says: 'divide all times by N, where they can be divided' },
  paper: { type: 'string', value: 'SIZE', says: 'A4 or letter; A4 if left out' },
  seconds: { type: 'string', value: 'N', says: 'search for at most so long; 10 if left out' },
  follow: { type: 'boolean', says: 'read on while the file grows, up to the end record' },
  about: { type: 'string', value: 'TOPIC', says: 'poll, entry, delayed, passed, test, change or region: the rule that the exercise is about' },
  seed: { type: 'string', value: 'N', says: 'draws the same exercise again; by chance if left out' },
  length: { type: 'string', value: 'CYCLES', says: 'how many cycles are drawn; as many as the table needs if left out' },
  blank: { type: 'string', value: 'KINDS', says: 'what is asked: poll, test, tick with commas between; all three if left out' },
  told: { type: 'string', value: 'WHEN', says: 'each or end: whether it is told at each answer what is right, or at the end; each if left out' },
  answers: { type: 'string', value: 'FILE', says: 'the exercise as it was filled in, or a journal with words in the place of the question marks' },
  unit: { type: 'string', value: 'TIME', says: 'how long one unit is: 1 ms if left out; 1, 10 or 100 of s, ms, us, ns, ps or fs' },
};

/** Those that every command takes. */
export const COMMON = ['names', 'json', 'plain', 'help'];
