/** The pictures: the timing diagram, the machine, the automaton or its matrix with the state lit. */

import { diagram } from '../diagram.js';
import { narrate } from '../explain.js';
import { counted, thousands } from '../names.js';
import { easierToRead, tablePicture } from '../table-picture.js';
import { keepRoom } from './answer-room.js';
import { showBlank } from './blank.js';
import { byId, empty, fill, inTwoColumns, show } from './dom.js';
import { litAt, shownStep } from './lit.js';
import { lookOf } from './looks.js';
import { showMachine } from './machine.js';
import { showQuestions } from './questions.js';
import { showTools } from './toolbox.js';
import { showTouch } from './touching.js';
import { PANES } from './workspace.js';

/** @typedef {import('./page.js').Page} Page */
/** @typedef {import('../types.js').Table} Table */
/** @typedef {import('../types.js').Trace} Trace */
/** @typedef {import('../types.js').Step} Step */

/** A diagram that is drawn for less than this width has smaller words, and is shown larger. */
const NARROW = { width: 700, scale: 1.1 };
/** So many lines of the text in hand stay in sight. */
const LINES_LEAST = 5;

/**
 * Everything below the answer: what there is an answer for, and nothing else.
 * @param {Page} page
 */
export function draw(page) {
  const { subject, answers, rooms } = page;
  if (!subject) empty('diagram', 'machine', 'where');
  if (!answers.decoded) empty('automaton', 'reaction-picture');
  rooms.begin(page);
  showTools(page);
  for (const id of ['diagram', 'stepping']) rooms.set(id, subject !== null);
  rooms.set('machine', subject !== null && subject.kind !== 'exercise');
  rooms.set('make-panel', answers.decoded !== null);
  rooms.set('reaction-panel', answers.decoded !== null && !asksTime(page));
  showQuestions(page);
  placeAutomaton(page);
  byId('pictures').hidden = ['diagram', 'machine', 'automaton-below'].every((id) => byId(id).hidden);
  page.reaction.update(asksTime(page) ? { ...answers, decoded: null } : answers);
  drawStep(page);
  rooms.end();
}

/**
 * Where a reaction time is asked in an exercise, the page gives none.
 * @param {Page} page
 */
const asksTime = ({ answers: { reading: { exercise } } }) => exercise !== null && exercise.questions.length > 0;

/**
 * Below the texts, where there are two columns and the automaton has room there; else below the machine.
 * @param {Page} page
 */
function placeAutomaton(page) {
  const { rooms, answers: { decoded } } = page;
  const slots = ['automaton-beside', 'automaton-below'];
  for (const slot of slots) rooms.set(slot, decoded !== null);
  if (!decoded) return;
  byId(slots[0]).append(byId('automaton'), byId('show-as'));
  drawAutomaton(page, decoded);
  const k = fitsBeside(page) ? 0 : 1;
  byId(slots[k]).append(byId('automaton'), byId('show-as'));
  byId(slots[1 - k]).hidden = true;
}

/** @param {Page} page */
function fitsBeside({ editors, pane }) {
  if (!inTwoColumns()) return false;
  const { scrollWidth, clientWidth } = byId('automaton');
  return scrollWidth <= clientWidth && editors[pane].linesInSight() >= LINES_LEAST;
}

/**
 * What changes when one goes to another record.
 * @param {Page} page
 */
export function drawStep(page) {
  const { subject, answers } = page;
  const step = shownStep(page);
  if (subject) drawDiagram(page, subject.trace);
  if (subject && step) {
    if (subject.kind === 'exercise') empty('machine');
    else showMachine(byId('machine'), subject.trace, step);
    showWhere(subject.trace, page.step.selected);
  }
  showBlank(page);
  if (answers.decoded) drawAutomaton(page, answers.decoded);
  showTouch(page);
  page.stage.draw();
}

/**
 * Does the automaton show the machine of a journal, or will it again once a mistake in that is mended?
 * @param {Page} page
 */
const showsMachine = ({ subject, said, rooms }) => subject !== null || (said.mistakes.length > 0 && rooms.height('machine') > 0);

/** @param {Page} page @param {Table} table */
function drawAutomaton(page, table) {
  const { scale, ...look } = lookOf(page, byId('automaton'));
  const lit = page.subject?.kind === 'exercise' ? {} : showsMachine(page) ? litAt(shownStep(page)) : { path: page.reaction.path };
  show(byId('automaton'), tablePicture(table, { show: page.show, lit, ...look }), scale);
  fill(byId('show-as'), `Show the ${otherPicture(page, table)}`);
}

/** @param {Page} page @param {Table} table */
const otherPicture = ({ show: shown }, table) => ((shown ?? easierToRead(table)) === 'matrix' ? 'automaton' : 'matrix');

/**
 * The automaton in the place of the matrix, or the other way round. The focus stays where it is, though the button may move.
 * @param {Page} page
 */
export function showOther(page) {
  const { decoded } = page.answers;
  if (!decoded) return;
  page.show = otherPicture(page, decoded);
  draw(page);
  byId('show-as').focus();
}

/**
 * The longest way of a reaction: in the automaton itself, or, where that shows the machine of a journal, in a picture with the same layout.
 * @param {Page} page
 */
export function drawWay(page) {
  const { answers: { decoded }, reaction: { path } } = page;
  const room = byId('reaction-picture');
  room.hidden = !showsMachine(page) || path.length === 0;
  if (!decoded) return;
  if (!showsMachine(page)) drawAutomaton(page, decoded);
  else if (path.length > 0) {
    const { scale, ...look } = lookOf(page, byId('automaton'));
    show(room, tablePicture(decoded, { show: page.show, title: 'The longest way', lit: { path }, ...look }), scale);
  }
}

/** @param {Page} page */
function diagramLook(page) {
  const look = lookOf(page, byId('diagram'));
  return page.large || look.width >= NARROW.width ? look : { ...look, width: Math.floor(look.width / NARROW.scale), scale: NARROW.scale };
}

/** @param {Page} page @param {Trace} trace */
function drawDiagram(page, trace) {
  const { title, step: { selected, stepping } } = page;
  const says = trace.asked ? undefined : (/** @type {Step} */ step) => narrate(trace, step);
  const { scale, ...look } = diagramLook(page);
  const options = { head: false, low: true, selected, step: stepping, narrate: says, id: 'page', title, ...look };
  show(byId('diagram'), diagram(trace, options), scale);
}

/** @param {Trace} trace @param {number|null} selected */
function showWhere({ steps }, selected) {
  const last = steps.length - 1;
  fill(byId('where'), selected === null ? counted(last + 1, 'record')
    : `record ${thousands(selected)} of ${thousands(last)}, byte ${thousands(steps[selected].record.place)}`);
  byId('back').disabled = byId('first').disabled = selected === 0;
  byId('next').disabled = byId('last').disabled = selected === last;
  byId('whole').disabled = selected === null;
}

/**
 * Pictures depend on width, size of type and colours.
 * @param {Page} page
 */
export function redraw(page) {
  for (const look of /** @type {const} */ (['large', 'dark'])) {
    document.documentElement.classList.toggle(look, page[look]);
    byId(look).setAttribute('aria-pressed', String(page[look]));
  }
  for (const pane of PANES) page.editors[pane].draw();
  page.say();
  keepRoom(page);
  draw(page);
}
