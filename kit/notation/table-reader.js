/** The text of a table as bytes. */

import { decodeTable, encodeTable, tablePlaces } from '../fields.js';
import { setOf } from '../sets.js';
import { writtenName } from './lexer.js';
import { behind, origin } from './reading.js';
import { HEADS, keyword, sortLines } from './table-lines.js';
import { readNames } from './table-names.js';

/** @typedef {import('../types.js').Names} Names */
/** @typedef {import('../types.js').Origin} Origin */
/** @typedef {import('../types.js').Table} Table */
/** @typedef {import('./lexer.js').Line} Line */
/** @typedef {import('./lexer.js').Token} Token */
/** @typedef {import('./reading.js').Reading} Reading */
/** @typedef {import('./table-lines.js').Block} Block */
/** @typedef {import('./table-lines.js').Lines} Lines */

/** @typedef {{bytes: Uint8Array, origins: Origin[]}} Read */

const MOST_NUMBER = 0xffffffff;
const MOST_MEMBER = 31;
const MOST_FIELD = 65535;

/** What is gathered of a table while it is read. */
class Gathered {
  /**
   * @param {Reading} reading @param {Lines} lines @param {Names} names
   */
  constructor(reading, lines, names) {
    this.reading = reading;
    this.lines = lines;
    this.names = names;
    this.counts = { states: names.states.length, inputs: names.inputs.length, outputs: names.outputs.length };
    this.places = tablePlaces(this.counts, lines.timers.length);
    /** @type {Origin[]} */
    this.origins = [];
    /**
     * What is missing: said only if nothing else is wrong, since it often only follows from that.
     * @type {[Line, string][]}
     */
    this.absent = [];
  }

  /**
   * @param {number} place @param {number} length @param {Line} line
   * @param {(Token|undefined)[]} [tokens]  all of the line if none are there
   */
  came(place, length, line, tokens = []) {
    const given = /** @type {Token[]} */ (tokens.filter((token) => token !== undefined));
    this.origins.push(origin(place, length, line, given.length > 0 ? given : line.tokens));
  }

  /**
   * Inputs or states after a word, as a set.
   * @param {Line} line @param {number} from @param {'input'|'state'} what
   */
  set(line, from, what) {
    const tokens = this.reading.listed(line, line.tokens.slice(from), `${what}s`);
    return setOf(tokens.map((token) => this.reading.member(line, token, what, MOST_MEMBER)));
  }

  /**
   * The word that a set comes after must be there, and the set too.
   * @param {Line} line @param {number} at @param {string} word @param {string} says
   */
  expect(line, at, word, says) {
    const there = line.tokens[at]?.kind === 'word' && line.tokens[at].text === word && line.tokens.length > at + 1;
    if (!there) this.reading.mistakes.add(line.number, line.tokens[at] ?? behind(line), says);
    return there;
  }
}

/**
 * @param {Gathered} g
 */
function readCycle(g) {
  const line = g.lines.heads.get('cycle');
  if (!line) return 0;
  g.reading.tooMany(line, line.tokens[2]);
  g.came(7, 7, line);
  g.came(10, 4, line, [line.tokens[1]]);
  return g.reading.number(line, line.tokens[1], MOST_NUMBER, 'the cycle bound');
}

/**
 * The initial state, and where the counts came from.
 * @param {Gathered} g
 */
function readStart(g) {
  const { heads, blocks, header } = g.lines;
  const [inputs, outputs, start] = ['inputs', 'outputs', 'start'].map((word) => heads.get(word));
  const listedTokens = (/** @type {Line} */ line) => line.tokens.slice(1).filter((token) => token.kind !== 'comma');
  g.came(3, 1, blocks[32]?.line ?? header);
  if (inputs) g.came(4, 1, inputs, [listedTokens(inputs)[32]]);
  if (outputs) g.came(5, 1, outputs, [listedTokens(outputs)[32]]);
  if (!start) return 0;
  g.reading.tooMany(start, start.tokens[2]);
  g.came(6, 1, start, [start.tokens[1]]);
  return g.reading.member(start, start.tokens[1], 'state');
}

/**
 * @param {Gathered} g @param {Block} block @param {number} q
 */
function readOutput(g, block, q) {
  const line = block.output;
  g.came(g.places.output(q), 1, line ?? block.line, line ? [line.tokens[1]] : []);
  if (!line) {
    g.absent.push([block.line, `state '${g.names.states[q]}' does not say its output`]);
    return 0;
  }
  g.reading.tooMany(line, line.tokens[2]);
  return g.reading.member(line, line.tokens[1], 'output');
}

/**
 * @param {Gathered} g @param {Block} block @param {number} q
 * @returns {[number, number]} the hold, and the inputs that it delays
 */
function readHold(g, block, q) {
  const line = block.hold;
  if (g.lines.timers.length > 0) {
    if (line) g.reading.mistakes.add(line.number, line.tokens[0], 'a table with timers has no holds: give the state a timer of its own');
    return [0, 0];
  }
  g.came(g.places.hold(q), 4, line ?? block.line, line ? [line.tokens[1]] : []);
  g.came(g.places.delayed(q), 4, line ?? block.line, line ? line.tokens.slice(3) : []);
  if (!line) return [0, 0];
  const hold = g.reading.number(line, line.tokens[1], MOST_NUMBER, 'a hold');
  const says = "after the hold comes 'delays' and the inputs that it delays";
  if (line.tokens.length < 3 || !g.expect(line, 2, 'delays', says)) return [hold, 0];
  return [hold, g.set(line, 3, 'input')];
}

/**
 * The sets that the timers delay in a state.
 * @param {Gathered} g @param {Block} block @param {number} q
 * @returns {number[]}
 */
function readDelays(g, block, q) {
  const sets = g.lines.timers.map(() => 0);
  const seen = new Set();
  sets.forEach((_, k) => g.came(g.places.delays(q, k), 4, block.line));
  for (const line of block.delays) {
    const before = g.reading.mistakes.count;
    const k = g.reading.member(line, line.tokens[0], 'timer');
    if (!g.expect(line, 1, 'delays', "after 'delays' come the inputs that the timer delays")) continue;
    const set = g.set(line, 2, 'input');
    if (g.reading.mistakes.count > before) continue;
    if (k >= sets.length) g.reading.mistakes.add(line.number, line.tokens[0], 'there is no such timer');
    else if (seen.has(k)) g.reading.mistakes.add(line.number, line.tokens[0], `a second 'delays' of this timer for one state`);
    seen.add(k);
    sets[k] = set;
    g.came(g.places.delays(q, k), 4, line, line.tokens.slice(2));
  }
  return sets;
}

/**
 * The target of an arrow; its inputs are added to the row.
 * @param {Gathered} g @param {Line} line @param {Map<number, number>} row @param {number} q
 */
function readArrow(g, line, row, q) {
  const { mistakes } = g.reading;
  const at = line.tokens.findIndex((token) => token.kind === 'arrow');
  if (at === 0 || at !== line.tokens.length - 2) {
    mistakes.add(line.number, line.tokens[at], 'an arrow is written: input -> state');
    return;
  }
  const to = g.reading.member(line, line.tokens[at + 1], 'state');
  for (const token of g.reading.listed(line, line.tokens.slice(0, at), 'inputs')) {
    const before = mistakes.count;
    const i = g.reading.member(line, token, 'input');
    if (mistakes.count > before) continue;
    if (row.has(i)) mistakes.add(line.number, token, `a second arrow for input '${token.text}' in state '${g.names.states[q]}'`);
    else if (i >= g.counts.inputs) mistakes.add(line.number, token, `there is no input ${i} that an arrow could be for`);
    row.set(i, to);
    g.came(g.places.next(q, i), 1, line, [line.tokens[at + 1]]);
  }
}

/**
 * @param {Gathered} g @param {Block} block @param {number} q
 * @returns {number[]}
 */
function readRow(g, block, q) {
  /** @type {Map<number, number>} */
  const row = new Map();
  for (const line of block.arrows) readArrow(g, line, row, q);
  const missing = g.names.inputs.filter((_, i) => !row.has(i)).map(writtenName);
  if (missing.length > 0) {
    const state = g.names.states[q];
    const many = missing.length > 1 ? 's' : '';
    const inputs = missing.join(', ');
    const says = `state '${state}' has no arrow for input${many} ${inputs}; if it stays, write: ${inputs} -> ${writtenName(state)}`;
    g.absent.push([block.line, says]);
  }
  return g.names.inputs.map((_, i) => row.get(i) ?? 0);
}

/**
 * A timer's length and region. A region of no state is written as a dash.
 * @param {Gathered} g @param {Line} line @param {number} k
 */
function readTimer(g, line, k) {
  const length = g.reading.number(line, line.tokens[2], MOST_NUMBER, "a timer's length");
  g.came(g.places.length(k), 4, line, [line.tokens[2]]);
  g.came(g.places.region(k), 4, line, line.tokens.slice(4));
  const says = "after the length comes 'over' and the states over which the timer runs, or a dash if there are none";
  if (line.tokens[2] && !g.expect(line, 3, 'over', says)) return { length, region: 0 };
  const none = line.tokens.length === 5 && line.tokens[4].kind === 'dash';
  return { length, region: none || !line.tokens[2] ? 0 : g.set(line, 4, 'state') };
}

/**
 * Everything of a table but the names.
 * @param {Gathered} g @param {Uint8Array} rest
 * @returns {Table}
 */
function readValues(g, rest) {
  const { blocks, timers } = g.lines;
  const each = (/** @type {(g: Gathered, block: Block, q: number) => any} */ read) => blocks.map((block, q) => read(g, block, q));
  const start = readStart(g);
  const cycle = readCycle(g);
  const outputs = each(readOutput);
  const next = each(readRow);
  const holds = each(readHold);
  const delays = each(readDelays);
  return {
    kind: timers.length > 0 ? 'timers' : 'holds',
    counts: g.counts, start, cycle, outputs, next,
    holds: timers.length > 0 ? [] : holds.map(([hold]) => hold),
    delayed: timers.length > 0 ? [] : holds.map(([, set]) => set),
    timers: timers.map((line, k) => ({ ...readTimer(g, line, k), delays: delays.map((sets) => sets[k]) })),
    rest,
    names: g.names,
  };
}

/**
 * What is missing, if nothing else is wrong.
 * @param {Gathered} g
 */
function sayAbsent(g) {
  const { heads, header } = g.lines;
  const kind = header.tokens[1];
  for (const word of HEADS) {
    if (!heads.has(word)) g.reading.mistakes.missing(header.number, kind, `the table does not say its '${word}'`);
  }
  for (const [line, says] of g.absent) g.reading.mistakes.missing(line.number, line.tokens[1] ?? line.tokens[0], says);
}

/**
 * Bytes that are given as such.
 * @param {Reading} reading @param {Line[]} body
 * @returns {Read}
 */
function readRaw(reading, body) {
  /** @type {number[]} */
  const bytes = [];
  const origins = body.map((line) => {
    const own = reading.raw(line);
    for (const byte of own) bytes.push(byte);
    return origin(bytes.length - own.length, own.length, line);
  });
  return { bytes: Uint8Array.from(bytes), origins };
}

/**
 * A table of bytes alone. If no names were given, its members have plain ones.
 * @param {Reading} reading @param {Line[]} body
 */
function readNameless(reading, body) {
  const read = readRaw(reading, body);
  reading.names ??= decodeTable(read.bytes)?.names ?? null;
  return read;
}

/**
 * A table's bytes. On mistakes they mean nothing. The names that could be read are those of the reading from then on.
 * @param {Reading} reading @param {Line} header @param {Line[]} body @param {boolean} whole  whether every line of it could be read
 * @returns {Read}
 */
export function readTable(reading, header, body, whole) {
  const { mistakes } = reading;
  const before = mistakes.count;
  if (body.length > 0 && body.every((line) => keyword(line) === 'bytes')) return readNameless(reading, body);
  const lines = sortLines(reading, header, body);
  const names = readNames(reading, lines);
  reading.names = names;
  const g = new Gathered(reading, lines, names);
  const rest = readRaw(reading, lines.rest);
  const table = readValues(g, rest.bytes);
  const longest = 4 * Math.max(2, names.states.length) * names.timers.length;
  if (longest > MOST_FIELD) mistakes.add(header.number, null, 'so many timers do not fit in a field');
  if (mistakes.count === before && whole) sayAbsent(g);
  if (mistakes.count > before || !whole) return { bytes: new Uint8Array(), origins: [] };
  const bytes = encodeTable(table);
  const end = bytes.length - rest.bytes.length;
  const behindLast = rest.origins.map((each) => ({ ...each, place: each.place + end }));
  return { bytes, origins: [origin(0, bytes.length, header), ...g.origins, ...behindLast] };
}
