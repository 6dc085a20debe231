/** Reaction times by names. Every number is the library's. */

import { refusalLine, sayPath, sayReaction } from '../answers.js';
import { explainReaction } from '../explain.js';
import { nameOf } from '../name-of.js';
import { thousands } from '../names.js';
import { members, setOf, wholeSet } from '../sets.js';
import { timesOf } from '../times.js';
import { fill, make } from './dom.js';
import { SlowPanel } from './slow.js';

/** @typedef {import('../types.js').Library} Library */
/** @typedef {import('../types.js').Table} Table */
/** @typedef {import('./workspace.js').Answers} Answers */

/** @typedef {import('../times.js').Question} Question */
/**
 * `number` is the refusal's, or 0; `question` is there where the answer is a time.
 * @typedef {{number: number, line: string, beside: string[], sentences: string[], path: number[], question?: Question}} Answer
 */

/** What is asked of a table first: how long one input lasts until the state is sure, over one move. */
const FIRST = { inputs: 1, moves: 1 };
/** A table with timers has no reaction times, whatever is asked. */
const HAS_TIMERS = 14;

/**
 * The library's answer: in a few words, in sentences, and the path to be lit.
 * @param {Library} library @param {{bytes: Uint8Array, table: Table}} given  a table that passes
 * @param {Question} question
 * @returns {Answer}
 */
export function answerReaction(library, { bytes, table }, question) {
  const said = timesOf(library, bytes, question);
  if (!said.ok) {
    return { number: said.number, line: refusalLine(said), beside: [], sentences: explainReaction(table, said, question).sentences, path: [] };
  }
  const { time, tight, target, path } = said;
  const until = members(target).map((state) => nameOf(table.names.states, state)).join(', ') || 'nowhere';
  return {
    number: 0, line: `at most ${thousands(time)}`,
    beside: [...(tight === undefined ? [] : [`tight ${thousands(tight)}, in whole units`]), `until: ${until}`],
    sentences: [...sayReaction(table, question.moves === 1 ? { ...question, moves: undefined } : question, said), sayPath(table, path)],
    path, question,
  };
}

/**
 * What is said of a number of moves that the library cannot be asked for.
 * @param {string} moves  as it was typed
 * @returns {Answer}
 */
function notAsked(moves) {
  const why = moves === '' ? 'No number of moves is given.' : `${moves} is no number of moves.`;
  return { number: 0, line: 'not asked', beside: [], sentences: [why, 'Ask for a whole number, 0 to 32.'], path: [] };
}

/** The form for a reaction time, and its answer. */
export class ReactionPanel {
  /**
   * @param {Library} library
   * @param {{form: HTMLElement, states: Element, inputs: Element, moves: any, answer: Element, slow: Element}} rooms
   * @param {() => void} answered  the longest way may be another now
   * @param {import('./slow.js').Journals} journals
   */
  constructor(library, rooms, answered, journals) {
    this.slow = new SlowPanel(library, rooms.slow, journals);
    this.library = library;
    this.rooms = rooms;
    this.answered = answered;
    rooms.moves.addEventListener('input', () => this.answer());
    /** What the check boxes were made for. */
    this.made = '';
    /** What is asked when they are made. */
    this.opens = FIRST;
    /** @type {{bytes: Uint8Array, table: Table}|null} */
    this.given = null;
    this.sets = { states: 0, inputs: 0 };
    /** @type {number[]} the longest way: states and inputs in turn */
    this.path = [];
  }

  /**
   * The form begins anew, with a question about what comes.
   * @param {import('../examples.js').Example['asks']} [asks]
   */
  begin(asks) {
    this.made = '';
    this.opens = { ...FIRST, ...asks };
  }

  /** @param {Answers} answers */
  update({ reading, decoded }) {
    this.given = reading.table && decoded ? { bytes: reading.table.bytes, table: decoded } : null;
    if (this.given) this.#boxes(this.given.table);
    this.answer();
  }

  /** @param {Table} table */
  #boxes({ names, counts }) {
    const key = JSON.stringify([names.states, names.inputs]);
    if (key === this.made) return;
    this.made = key;
    this.sets = { states: wholeSet(counts.states), inputs: this.opens.inputs };
    this.rooms.moves.value = String(this.opens.moves);
    this.opens = FIRST;
    this.#set('states', names.states);
    this.#set('inputs', names.inputs);
  }

  /**
   * @param {'states'|'inputs'} which @param {string[]} names
   */
  #set(which, names) {
    fill(this.rooms[which], ...names.map((name, k) => {
      const box = make('input', { type: 'checkbox', 'data-member': k });
      box.checked = (this.sets[which] >>> k & 1) === 1;
      box.addEventListener('change', () => {
        const others = members(this.sets[which]).filter((member) => member !== k);
        this.sets[which] = setOf(box.checked ? [...others, k] : others);
        this.answer();
      });
      return make('label', { class: 'box' }, box, name);
    }));
  }

  /** Asks again: the table, a set or the number of moves changed. Where no question has an answer, there is no form. */
  answer() {
    const { answer: room, form } = this.rooms;
    const said = this.given && this.#ask(this.given);
    form.hidden = said?.number === HAS_TIMERS;
    this.path = said?.path ?? [];
    this.slow.update(this.given, said?.question ?? null);
    if (said) {
      const words = said.beside.map((each) => make('span', { class: 'meaning' }, each));
      fill(room, make('p', { class: 'line' }, make('strong', {}, said.line), words), make('p', {}, said.sentences.join(' ')));
    } else {
      fill(room, make('p', { class: 'hint' }, 'There is no table that passes.'));
    }
    this.answered();
  }

  /**
   * The library is asked for any whole number of moves: that 33 are too many is its answer.
   * @param {{bytes: Uint8Array, table: Table}} given
   */
  #ask(given) {
    const { moves: field } = this.rooms;
    const moves = Number(field.value);
    const whole = field.value !== '' && Number.isInteger(moves) && moves >= 0;
    field.setAttribute('aria-invalid', String(!whole));
    return whole ? answerReaction(this.library, given, { ...this.sets, moves }) : notAsked(field.value);
  }
}
