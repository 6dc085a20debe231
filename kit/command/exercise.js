/** `exercise`: makes one of a stimulus, or about a topic; says what is right in one that was filled in. */

import { exerciseAbout, CYCLES_MOST, topicOf } from '../exercise/about.js';
import { TOPICS } from '../exercise/topics.js';
import { makeExercise, openExercise } from '../exercise.js';
import { decodeTable } from '../fields.js';
import { counted } from '../names.js';
import { exerciseText, tableText } from '../notation.js';
import { TOLD } from '../notation/exercise.js';
import { ASKED } from '../notation/records.js';
import { ACCEPTED, REFUSED } from './asking.js';
import { tableRefused } from './check.js';
import { answersFrom, gradeGiven } from './exercise-answers.js';
import { numberOf } from './pictures.js';
import { setFrom } from './react.js';
import { oneOf } from './one-of.js';
import { tell, told } from './refusals.js';
import { Trouble } from './trouble.js';
import { put } from './writing.js';

/** @typedef {import('./asking.js').Asking} Asking */
/** @typedef {import('./sources.js').TableSource} TableSource */
/** @typedef {import('../types.js').Kind} Kind */
/** @typedef {import('../types.js').ExercisePart} ExercisePart */

const SEEDS = 1000000;

/**
 * @param {string} option @param {string|undefined} text @param {number} least @param {number} most
 */
function numberIn(option, text, least, most) {
  if (text === undefined) return undefined;
  const number = /^[0-9]+$/.test(text) ? Number(text) : -1;
  if (number < least || number > most) throw new Trouble(`--${option} takes a whole number from ${least} to ${most}, not '${text}'`);
  return number;
}

/**
 * What is asked, and when it is told what is right.
 * @param {Asking} asking
 */
function howOf({ options }) {
  const kinds = options.blank === undefined ? ASKED
    : /** @type {Kind[]} */ (options.blank.split(',').map((/** @type {string} */ word) => oneOf('blank', word.trim(), ASKED)));
  const when = /** @type {ExercisePart['told']} */ (options.told === undefined ? 'each' : oneOf('told', options.told, Object.keys(TOLD)));
  return { kinds, told: when };
}

/**
 * Writes an exercise with its table, as one text.
 * @param {Asking} asking @param {TableSource} table @param {import('../exercise.js').Asked} asked @param {string} says
 * @param {Record<string, number|string>} numbers
 */
function deliver(asking, table, asked, says, numbers) {
  const names = table.names ?? decodeTable(table.bytes)?.names ?? null;
  const text = `${tableText(table.bytes, names)}\n${exerciseText(asked, names)}`;
  const { output } = asking.options;
  const count = asked.blanks.length + (asked.questions?.length ?? 0);
  if (count === 0) throw new Trouble('nothing would be asked: the stimulus has no such record');
  if (!asking.json || output !== undefined) put(asking, text);
  const made = output === undefined ? { text } : { wrote: output };
  if (asking.json) asking.terminal.json({ answer: 'accepted', blanks: count, ...numbers, ...made });
  else asking.terminal.sentence(`${says}${counted(count, 'value')} ${count === 1 ? 'is' : 'are'} asked.`);
  return ACCEPTED;
}

/**
 * @param {Asking} asking @param {TableSource} table
 */
function makeAbout(asking, table) {
  const { options, library } = asking;
  if (asking.files.length > 1) throw new Trouble('with --about the stimulus is drawn by chance: name the table alone');
  const topic = topicOf(oneOf('about', options.about, TOPICS.map(({ name }) => name)));
  const seed = numberIn('seed', options.seed, 0, 2 ** 32 - 1) ?? Math.floor(Math.random() * SEEDS);
  const cycles = numberIn('length', options.length, 1, CYCLES_MOST);
  const made = exerciseAbout(library, table.bytes, /** @type {import('../exercise/topics.js').Topic} */ (topic), { seed, cycles, ...howOf(asking) });
  if (!made.ok) throw new Trouble(made.says);
  return deliver(asking, table, made.asked, `Seed ${seed}, ${counted(made.cycles, 'cycle')}: `, { seed, cycles: made.cycles });
}

/**
 * A question for a reaction time.
 * @param {Asking} asking @param {TableSource} source
 */
function makeQuestion(asking, source) {
  const { options } = asking;
  const table = /** @type {import('../types.js').Table} */ (decodeTable(source.bytes, source.names));
  const set = (/** @type {string|undefined} */ words, /** @type {string[]} */ names, /** @type {string} */ what) => (
    words === undefined ? null : setFrom(words, names, what));
  const question = {
    states: set(options.from, table.names.states, 'state'), inputs: set(options.while, table.names.inputs, 'input'),
    moves: numberOf(asking, 'moves', 4294967295, 32) ?? null, answer: null,
  };
  const asked = { told: howOf(asking).told, bytes: new Uint8Array(), blanks: [], questions: [question] };
  const opened = openExercise(asking.library, { table: source.bytes, names: source.names }, asked);
  if (!opened.ok) throw new Trouble(opened.sentences.join(' '));
  return deliver(asking, source, asked, '', {});
}

/**
 * @param {Asking} asking @param {TableSource} table @param {import('./sources.js').Source} source
 */
function makeOf(asking, table, source) {
  const made = makeExercise(asking.library, { table: table.bytes, stimulus: source.bytes }, howOf(asking));
  if (made.ok) return deliver(asking, table, made.asked, '', {});
  tell(asking, told(asking, table, source, made));
  return REFUSED;
}

/**
 * @param {Asking} asking
 */
export function exercise(asking) {
  const { about, answers, seed, length } = asking.options;
  const table = asking.table();
  if (tableRefused(asking, table)) return REFUSED;
  if (about !== undefined) return makeAbout(asking, table);
  if (['from', 'while', 'moves'].some((option) => asking.options[option] !== undefined)) return makeQuestion(asking, table);
  if (seed !== undefined || length !== undefined) throw new Trouble('--seed and --length go with --about TOPIC');
  const given = asking.sources.exercise(asking.files[1], table);
  if (given.part) return gradeGiven(asking, table, answers === undefined ? given : answersFrom(asking, table, given, answers));
  if (answers !== undefined) throw new Trouble('--answers FILE goes with an exercise: name the one that was handed out');
  return makeOf(asking, table, given.stimulus());
}
