/**
 * A table's automaton in whole units, as a model in Promela for `spin`: a controller that polls, tests and ticks, and an environment that
 * changes the input and lets time pass. Every clock is a difference to now and stays at a cap, so that a search over all of it ends. It is
 * written from docs/RULES.md, "The machine" and "Slots"; the library has no part in it.
 */

import { inComment } from '../escape.js';
import { members } from '../sets.js';

/** @typedef {import('../types.js').Table} Table */

/**
 * What is asserted of each slot.
 * @typedef {Object} Asserted
 * @property {boolean} [hold]     the first half of demand 3: no state is left too soon
 * @property {{states: number, inputs: number, target: number, within: number[]}|null} [late]
 *           the second: states and inputs stay for so many slots, and then the state is in the target
 */

/** Above this a variable of spin's smallest kind would begin again at 0, without a word. */
const BYTE_MOST = 250;

/**
 * An expression that has one of these values, by the number that another expression has.
 * @param {string} by @param {(number|string)[]} values
 * @returns {string}
 */
function chosen(by, values) {
  const words = values.map(String);
  if (words.every((word) => word === words[0])) return words[0];
  return words.slice(0, -1).reduceRight((rest, word, k) => `(${by} == ${k} -> ${word} : ${rest})`, words[words.length - 1]);
}

/**
 * A clock that can hold a test: the state's, or one for each timer.
 * @typedef {Object} Clock
 * @property {string} name       of its variable
 * @property {string} length     in a state
 * @property {(q: string) => string} runs   is it running in this state?
 * @property {(q: string, a: string) => string} delays
 * @property {number} most
 */

/**
 * @param {Table} table
 * @returns {Clock[]}
 */
export function clocksOf(table) {
  if (table.kind === 'holds') {
    return [{
      name: 'entered', length: 'HOLD(state)', runs: (q) => `HOLD(${q}) > 0`, delays: (q, a) => `DELAYED(${q}, ${a})`, most: Math.max(...table.holds),
    }];
  }
  return table.timers.map((timer, k) => ({
    name: `entered${k}`, length: `LENGTH${k}`, runs: (q) => `IN(${q}, REGION${k})`, delays: (q, a) => `DELAYED${k}(${q}, ${a})`, most: timer.length,
  }));
}

/** @param {Table} table @param {string} what @param {string[]} names */
const listed = (table, what, names) => `/* ${what}: ${names.map((name, k) => `${k} ${inComment(name)}`).join(', ')} */`;

/** @param {Table} table */
function constants(table) {
  const { names, cycle, start, next } = table;
  const set = (/** @type {number[]} */ sets) => `IN(a, ${chosen('(q)', sets)})`;
  const timing = table.kind === 'holds'
    ? [`#define HOLD(q) ${chosen('(q)', table.holds)}`, `#define DELAYED(q, a) ${set(table.delayed)}`]
    : table.timers.flatMap((timer, k) => [`#define LENGTH${k} ${timer.length}`, `#define REGION${k} ${timer.region}`,
      `#define DELAYED${k}(q, a) ${set(timer.delays)}`]);
  return [listed(table, 'states', names.states), listed(table, 'inputs', names.inputs),
    ...(table.kind === 'timers' ? [listed(table, 'timers', names.timers)] : []),
    `#define E ${cycle}`, `#define START ${start}`, '#define IN(member, set) (((set) >> (member)) & 1)',
    `#define NEXT(q, a) ${chosen('(q)', next.map((row) => chosen('(a)', row)))}`, ...timing];
}

/** @param {Table} table @param {string} number */
function machine(table, number) {
  return ['', '/* the machine; each clock is a difference to now */',
    'byte phase;          /* 0 before the poll, 1 before the test, 2 held, 3 free */',
    'byte present;        /* the input at the sensor */',
    'byte polled;         /* 0 where no rule asks for it */',
    'byte state = START;', 'byte to;             /* 0 between two steps */',
    `${number} cycle;          /* since the start of the cycle, at most E */`,
    'bit settled;         /* has the input stood since before now? */',
    ...clocksOf(table).map(({ name, length }) => `${number} ${name};        /* since the entry, at most ${length} + 1 */`)];
}

/**
 * Time goes on, within the cycle. The slot that begins has the state and the input of now: what is asserted is looked at first.
 * @param {Table} table @param {string[]} asserted
 */
function time(table, asserted) {
  const clocks = clocksOf(table).map(({ name, length }) => `       if :: ${name} <= ${length} -> ${name}++ :: else fi;`);
  return ['  :: d_step { cycle < E ->', '       printf("@slot %d %d\\n", state, present);', ...asserted, ...clocks, '       cycle++; settled = 1 }'];
}

/** @param {Table} table */
function entries(table) {
  if (table.kind === 'holds') return ['            entered = 0;'];
  return table.timers.map((_, k) => `            if :: IN(to, REGION${k}) && !IN(state, REGION${k}) -> entered${k} = 0 `
    + `:: !IN(to, REGION${k}) -> entered${k} = LENGTH${k} + 1 :: else fi;`);
}

/** @param {Table} table */
function controller(table) {
  const held = clocksOf(table).map(({ name, length, runs, delays }) => `(${runs('state')} && ${delays('state', 'polled')} && ${name} <= ${length})`);
  return ['', 'proctype controller() {', 'end:', '  do',
    '  :: d_step { phase == 0 && cycle > 0 && settled -> polled = present; phase = 1; printf("@poll %d\\n", polled) }',
    '  :: d_step { phase == 1 ->', '       if', `       :: ${held.join(' || ')} -> phase = 2; polled = 0; printf("@test 0\\n")`,
    '       :: else -> phase = 3; printf("@test 1\\n")', '       fi }',
    '  :: d_step { phase == 2 -> cycle = 0; phase = 0; printf("@tick %d\\n", state) }',
    '  :: d_step { phase == 3 ->', '       to = NEXT(state, polled);', '       if', '       :: to != state ->', ...entries(table),
    '            state = to', '       :: else', '       fi;', '       to = 0; polled = 0; cycle = 0; phase = 0; printf("@tick %d\\n", state) }',
    '  od', '}'];
}

/** @param {Table} table @param {string[]} asserted */
function environment({ counts, ...table }, asserted) {
  const inputs = Array.from({ length: counts.inputs }, (_, a) => a);
  return ['', 'proctype environment() {', 'end:', '  do',
    ...inputs.map((a) => `  :: d_step { present != ${a} -> present = ${a}; settled = 0; printf("@change %d\\n", present) }`),
    '  :: d_step { true -> printf("@change %d\\n", present) }   /* a card repeats its reading */',
    ...time({ counts, ...table }, asserted), '  od', '}',
    '', 'init {', '  if', ...inputs.map((a) => `  :: present = ${a}`), '  fi;', '  printf("@input %d\\n", present);',
    '  atomic { run controller(); run environment() }', '}', ''];
}

/**
 * The first half: a state that was entered is not left while no more than its hold is over and only delayed inputs stood.
 * @param {Table} table @param {string} number
 * @returns {{declared: string[], looked: string[]}}
 */
function tooSoon(table, number) {
  const clocks = clocksOf(table).map((clock, k) => ({ ...clock, since: `since${k}`, only: `only${k}` }));
  const lengthIn = (/** @type {Clock} */ clock, /** @type {string} */ q) => (table.kind === 'holds' ? `HOLD(${q})` : clock.length);
  const restart = (/** @type {number} */ k, /** @type {string} */ since) => (table.kind === 'holds' ? `${since} = 0;`
    : `if :: IN(state, REGION${k}) && !IN(before, REGION${k}) -> ${since} = 0 :: else fi;`);
  return {
    declared: ['', '/* what was seen in slots of the state before: how long it, or its region, is entered, and whether only delayed inputs stood */',
      'byte before = START;', ...clocks.map(({ since, only }) => `${number} ${since}; bit ${only} = 1;`)],
    looked: ['       if', '       :: state != before ->',
      ...clocks.map((clock) => `            assert(!(${clock.runs('before')} && ${clock.only} && ${clock.since} <= ${lengthIn(clock, 'before')}));   /* too soon */`),
      ...clocks.map(({ since, only }, k) => `            ${restart(k, since)} ${only} = 1;`),
      '            before = state', '       :: else', '       fi;',
      ...clocks.map((clock) => `       ${clock.only} = ${clock.only} && ${clock.runs('state')} && ${clock.delays('state', 'present')}; `
        + `if :: ${clock.since} <= ${clock.most} -> ${clock.since}++ :: else fi;`)],
  };
}

/**
 * The second half: a row of slots with these states and inputs, and behind it a state outside the target.
 * @param {NonNullable<Asserted['late']>} late @param {string} number
 */
function tooLate({ states, inputs, target, within }, number) {
  return {
    declared: ['', `/* the states ${members(states).join(', ')} and the inputs ${members(inputs).join(', ')} stay; the target: ${members(target).join(', ')} */`,
      `${number} row;            /* so many slots up to now have them */`],
    looked: [...within.map((most) => `       assert(!(row >= ${most} && !IN(state, ${target})));   /* too late */`),
      `       if :: !(IN(state, ${states}) && IN(present, ${inputs})) -> row = 0 :: row >= ${Math.max(...within)} -> skip :: else -> row++ fi;`],
  };
}

/**
 * @param {Table} table  one that passes @param {Asserted} [asserted]
 * @returns {string}
 */
export function promela(table, asserted = {}) {
  const largest = Math.max(table.cycle, ...clocksOf(table).map(({ most }) => most), ...(asserted.late?.within ?? [])) + 2;
  const number = largest < BYTE_MOST ? 'byte' : largest < 32000 ? 'short' : 'int';
  const halves = [asserted.hold ? tooSoon(table, number) : null, asserted.late ? tooLate(asserted.late, number) : null].flatMap((half) => half ?? []);
  return ['/* The automaton of a table, in whole units: krossvil export promela. docs/MODELS.md says how it is to be read. */',
    ...constants(table), ...machine(table, number), ...halves.flatMap(({ declared }) => declared), ...controller(table),
    ...environment(table, halves.flatMap(({ looked }) => looked))].join('\n');
}

/**
 * At most so many states has a search, without what is asserted.
 * @param {Table} table
 */
export function sizeOf(table) {
  const { states, inputs } = table.counts;
  return clocksOf(table).reduce((size, { most }) => size * (most + 2), (3 + 2 * inputs) * inputs * states * (table.cycle + 1));
}

/**
 * The table with all times divided by a number; null where one of them cannot be.
 * @param {Table} table @param {number} by
 * @returns {Table|null}
 */
export function scaled(table, by) {
  const times = [table.cycle, ...table.holds, ...table.timers.map(({ length }) => length)];
  if (times.some((time) => time % by !== 0)) return null;
  return {
    ...table, cycle: table.cycle / by, holds: table.holds.map((hold) => hold / by), timers: table.timers.map((timer) => ({ ...timer, length: timer.length / by })),
  };
}
