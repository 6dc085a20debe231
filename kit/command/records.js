/** `explain`: every record in a sentence. `compare`: every record that differs from the run. `left`: what holds at the end. */

import { refusalLine, sayLeft } from '../answers.js';
import { narrate } from '../explain.js';
import { counted, quoted } from '../names.js';
import { recordLine } from '../notation.js';
import { rerun, stimulusOf } from '../rerun.js';
import { members } from '../sets.js';
import { accepted, clocks } from '../trace.js';
import { ACCEPTED, REFUSED } from './asking.js';
import { tableRefused } from './check.js';
import { tell, toldObject, toldTrace, traceOf } from './refusals.js';
import { JOURNALS } from './sources.js';

/** @typedef {import('../types.js').Trace} Trace */
/** @typedef {import('../types.js').Step} Step */
/** @typedef {import('../types.js').Record} JournalRecord */
/** @typedef {import('../types.js').Names} Names */
/** @typedef {import('./asking.js').Asking} Asking */
/** @typedef {import('./sources.js').Source} Source */
/** @typedef {import('./sources.js').TableSource} TableSource */

/**
 * A record as its line of text.
 * @param {JournalRecord} record @param {Names} names @param {number} [width]
 */
function shownRecord(record, names, width = 1) {
  if (record.kind !== 'bytes') return recordLine(record, names, width);
  return record.length === 0 ? '(nothing)' : `(${counted(record.length, 'byte')})`;
}

/**
 * The trace of the journal that is meant; null if the table is refused, which is said.
 * @param {Asking} asking
 * @returns {{trace: Trace, source: Source, table: TableSource}|null}
 */
export function traced(asking) {
  const table = asking.table();
  const source = asking.one(table, JOURNALS);
  if (tableRefused(asking, table)) return null;
  const trace = traceOf(asking, table, source);
  return trace && { trace, source, table };
}

/**
 * How wide the times of a trace are.
 * @param {Trace} trace
 */
function timeWidth({ steps }) {
  return steps.reduce((widest, { record }) => Math.max(widest, String(record.written ?? '').length + (record.form === 'short' ? 1 : 0)), 1);
}

/**
 * @param {Asking} asking @param {Trace} trace @param {Step} step @param {number} width
 */
function explainStep(asking, trace, step, width) {
  const { record } = step;
  const line = shownRecord(record, trace.names, width);
  const says = narrate(trace, step);
  if (asking.json) return asking.terminal.json({ place: record.place, record: line.trim(), time: record.time, answer: 'accepted', says: [says] });
  asking.terminal.line(`${String(record.place).padStart(5)}  ${line.padEnd(24)}${asking.plain ? '' : `  ${says}`}`.trimEnd());
}

/**
 * @param {Asking} asking
 */
export function explain(asking) {
  const found = traced(asking);
  if (!found) return REFUSED;
  const { trace, source } = found;
  const width = timeWidth(trace);
  for (const step of accepted(trace)) explainStep(asking, trace, step, width);
  if (trace.stop === null) return ACCEPTED;
  const { record } = trace.steps[trace.stop];
  const line = shownRecord(record, trace.names, width);
  if (!asking.json) asking.terminal.line(`${String(record.place).padStart(5)}  ${line}`.trimEnd(), 'red');
  tell(asking, toldTrace(trace, source));
  const unread = trace.steps.length - trace.stop - 1;
  if (unread > 0 && !asking.json) asking.terminal.sentence(`What follows, ${counted(unread, 'record')}, is not read.`);
  return REFUSED;
}

/**
 * @param {string} kind @param {Names} names @param {number|null} value
 */
function valueWord(kind, names, value) {
  if (kind === 'test') return value === 0 ? 'held' : value === 1 ? 'free' : String(value);
  return quoted(kind === 'tick' ? names.states : names.inputs, value ?? 0);
}

/**
 * The stimulus of the journal cannot be run: there is nothing to compare with.
 * @param {Asking} asking @param {{trace: Trace, source: Source, table: TableSource}} found
 * @param {{number: number, place: number}|null} refusal  of the stimulus
 */
function incomparable(asking, { trace, source, table }, refusal) {
  if (trace.refused) tell(asking, toldTrace(trace, source));
  if (asking.json) return REFUSED;
  if (!refusal) {
    asking.terminal.sentence('There is no run to compare with: something in the journal is no record.');
    return REFUSED;
  }
  const bytes = stimulusOf(source.bytes, trace.form) ?? new Uint8Array();
  const stimulus = traceOf(asking, table, { ...source, form: 'stimulus', bytes });
  asking.terminal.sentence(`There is no run to compare with: the stimulus that is left of the journal has the answer '${refusalLine(refusal)}'.`);
  if (stimulus) for (const sentence of toldTrace(stimulus, source).explanation.sentences) asking.terminal.sentence(sentence);
  return REFUSED;
}

/**
 * @param {Asking} asking
 */
export function compare(asking) {
  const found = traced(asking);
  if (!found) return REFUSED;
  const { trace, source, table } = found;
  const run = rerun(asking.library, { table: table.bytes, journal: source.bytes, form: trace.form });
  if (!run?.ok) return incomparable(asking, found, run);
  const width = timeWidth(trace);
  for (const { record, own } of run.differences) {
    const line = shownRecord(record, trace.names, width);
    const word = valueWord(record.kind, trace.names, own);
    if (asking.json) asking.terminal.json({ file: source.file, place: record.place, record: line.trim(), value: record.value, own });
    else asking.terminal.line(`${String(record.place).padStart(5)}  ${line.padEnd(24)}  the run has ${word}`);
  }
  return compared(asking, trace, run.differences.length);
}

/**
 * @param {Asking} asking @param {Trace} trace @param {number} different
 */
function compared(asking, trace, different) {
  const whole = different === 0 && trace.refused === null;
  if (!asking.json) {
    const all = counted(trace.steps.length, 'record');
    asking.terminal.line(whole ? `all ${all} are those of the run` : `${different} of ${all} differ`, whole ? 'green' : 'red');
  }
  return whole ? ACCEPTED : REFUSED;
}

/**
 * What holds at the end of what was accepted, in numbers.
 * @param {Trace} trace
 */
function leftNumbers(trace) {
  const last = accepted(trace)[accepted(trace).length - 1];
  if (!last?.after) return null;
  const { time } = last.record;
  const { state, entry } = last.after;
  const running = clocks(trace.table, last.after).filter(({ delays }) => delays !== 0).map(({ timer, length, from, delays }) => ({
    ...(timer === null ? {} : { timer: trace.names.timers[timer] }), length, from,
    delays: members(delays).map((input) => trace.names.inputs[input]), free: from + length + 1, left: Math.max(0, from + length + 1 - time),
  }));
  return { time, state, name: trace.names.states[state], entry, left: Math.max(0, ...running.map((clock) => clock.left)), running };
}

/**
 * @param {Asking} asking
 */
export function left(asking) {
  const found = traced(asking);
  if (!found) return REFUSED;
  const { trace, source } = found;
  const numbers = leftNumbers(trace);
  if (asking.json) {
    const answer = trace.refused ? toldObject(toldTrace(trace, source)) : { file: source.file, answer: 'accepted' };
    asking.terminal.json({ ...answer, ...numbers });
  } else {
    if (trace.refused) tell(asking, toldTrace(trace, source));
    const line = numbers && `time=${numbers.time} state=${numbers.state} entry=${numbers.entry} left=${numbers.left}`;
    if (line) asking.terminal.line(line, trace.refused ? undefined : 'green');
    for (const sentence of sayLeft(trace)) asking.terminal.sentence(sentence);
  }
  return trace.refused ? REFUSED : ACCEPTED;
}
