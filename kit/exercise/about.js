/** An exercise about a topic: a stimulus by chance on which those who have that rule wrong answer otherwise, at two blanks at least. */

import { Chance } from '../chance.js';
import { makeExercise } from '../exercise.js';
import { decodeRecords, decodeTable } from '../fields.js';
import { counted, say } from '../names.js';
import { ASKED } from '../notation/records.js';
import { drawStimulus } from './drawing.js';
import { TOPICS, clocksOf } from './topics.js';
import { answersOf } from './wrong-rules.js';

/** @typedef {import('../types.js').Kind} Kind */
/** @typedef {import('../types.js').Library} Library */
/** @typedef {import('../types.js').ExercisePart} ExercisePart */
/** @typedef {import('../types.js').Record} JournalRecord */
/** @typedef {import('../types.js').Table} Table */
/** @typedef {import('./topics.js').Topic} Topic */
/** @typedef {import('./topics.js').Clocks} Clocks */
/** @typedef {import('./wrong-rules.js').WrongRule} WrongRule */

/**
 * @typedef {Object} Wish
 * @property {number} seed
 * @property {number} [cycles]           as many as the table needs if it is not said
 * @property {readonly Kind[]} [kinds]   of records whose values are asked
 * @property {ExercisePart['told']} [told]
 */

/** At so many blanks at least a wrong rule is told from the right one. */
const LEAST = 2;
const TRIES = 400;
const NO_BLANK = 'What tells the rules apart are tests and ticks: let one of them be asked.';
export const CYCLES_MOST = 1000;
const USUAL = { least: 12, most: 400 };

/**
 * So many cycles are enough for the shortest clock to pass twice.
 * @param {Clocks} clocks
 */
function usualCycles({ delaying, table }) {
  const shortest = Math.min(...delaying.map(({ length }) => length));
  const enough = delaying.length === 0 ? 0 : 6 + 2 * Math.ceil((shortest + 1) / table.cycle);
  return Math.min(USUAL.most, Math.max(USUAL.least, enough));
}

/**
 * At how many verdicts and states that are asked a wrong rule answers otherwise than the run.
 * @param {Table} table @param {JournalRecord[]} run @param {Set<number>} asked @param {WrongRule} wrong
 */
export function toldApart(table, run, asked, wrong) {
  const answers = answersOf(table, run, asked, wrong);
  return run.filter(({ kind, value }, k) => asked.has(k) && (kind === 'test' || kind === 'tick') && answers[k] !== value).length;
}

/**
 * @param {Topic} topic @param {Clocks} clocks @param {number} cycles
 */
function notFound({ title }, { delaying, table, word }, cycles) {
  const shortest = Math.min(...delaying.map(({ length }) => length));
  const least = delaying.length === 0 ? 0 : 2 + Math.ceil((shortest + 1) / table.cycle);
  const takes = say` The shortest ${word}, ${shortest}, takes ${least} cycles of at most ${table.cycle} to be entered and passed.`;
  const long = least > cycles ? takes : '';
  return say`In ${counted(cycles, 'cycle')} no run was found that shows it: ${title}.${long} Ask for more cycles.`;
}

/**
 * @param {string} name
 * @returns {Topic|null}
 */
export const topicOf = (name) => TOPICS.find((topic) => topic.name === name) ?? null;

/**
 * Why a table cannot show a topic, in a sentence; null if it may.
 * @param {Table} table @param {Topic} topic
 */
export function whyNot(table, topic) {
  const cannot = topic.cannot(clocksOf(table));
  return cannot === null ? null : `This table cannot show it: ${cannot}.`;
}

/**
 * An exercise about a topic, under a table that passes; or a sentence that says why there is none.
 * @param {Library} library @param {Uint8Array} tableBytes @param {Topic} topic @param {Wish} wish
 * @returns {{ok: true, asked: import('../exercise.js').Asked, stimulus: Uint8Array, cycles: number} | {ok: false, says: string}}
 */
export function exerciseAbout(library, tableBytes, topic, { seed, cycles, kinds = ASKED, told }) {
  const table = /** @type {Table} */ (decodeTable(tableBytes));
  const clocks = clocksOf(table);
  const cannot = whyNot(table, topic);
  if (cannot) return { ok: false, says: cannot };
  if (!kinds.includes('test') && !kinds.includes('tick')) return { ok: false, says: NO_BLANK };
  const chance = new Chance(seed);
  const count = cycles ?? usualCycles(clocks);
  const likely = { pulse: topic.name === 'poll' ? 50 : 8, late: 6 };
  const wrong = topic.wrong(clocks);
  for (let k = 0; k < TRIES; k++) {
    const stimulus = drawStimulus(chance, table, count, likely);
    const made = makeExercise(library, { table: tableBytes, stimulus }, { kinds, told });
    const ran = library.run(tableBytes, stimulus);
    if (!made.ok || !ran.ok) continue;
    const run = decodeRecords(ran.bytes, 'journal');
    const asked = new Set(made.asked.blanks.map(({ record }) => record));
    if (wrong.every((each) => toldApart(table, run, asked, each) >= LEAST)) return { ok: true, asked: made.asked, stimulus, cycles: count };
  }
  return { ok: false, says: notFound(topic, clocks, count) };
}
