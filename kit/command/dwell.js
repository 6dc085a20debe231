/** `dwell`: where the time of many journals went, as a table and as a plot. */

import { dwellPlot, reportOf } from '../dwell-plot.js';
import { visible } from '../escape.js';
import { explainRoom } from '../explain.js';
import { decodeTable } from '../fields.js';
import { newReport } from '../library.js';
import { ACCEPTED, REFUSED } from './asking.js';
import { tableRefused } from './check.js';
import { eachJournal, named, worstOf } from './many.js';
import { numberOf, themeOf } from './pictures.js';
import { tell, told } from './refusals.js';
import { JOURNALS, shownFile } from './sources.js';
import { putPicture } from './writing.js';

/** @typedef {import('../types.js').Table} Table */
/** @typedef {import('../dwell-plot.js').Report} Report */
/** @typedef {import('./asking.js').Asking} Asking */
/** @typedef {import('./sources.js').Source} Source */
/** @typedef {import('./sources.js').TableSource} TableSource */

/**
 * Adds a journal of any form: of a short or stamped one its long form.
 * @param {Asking} asking @param {TableSource} table @param {Source} source @param {BigUint64Array} report
 */
function add({ library }, table, { bytes, form }, report) {
  const long = form === 'short' ? library.lengthen(table.bytes, bytes) : form === 'stamped' ? library.readStamped(bytes) : { ok: true, bytes };
  return long.ok ? library.reportAdd(table.bytes, /** @type {any} */ (long).bytes, report) : long;
}

/**
 * @param {Asking} asking @param {TableSource} table @param {Source} source @param {any} refusal
 */
function refuse(asking, table, source, refusal) {
  if (asking.plain && !asking.json) {
    const file = visible(shownFile(source.file)).replaceAll('"', '""');
    asking.terminal.line(`refused,"${file}",${refusal.number},${refusal.place}`);
    return REFUSED;
  }
  const about = told(asking, table, source, refusal);
  const whole = refusal.number >= 30 ? { ...about, source, explanation: explainRoom(refusal, { bytes: source.bytes.length }) } : about;
  tell(asking, whole, `${shownFile(source.file)}: `);
  return REFUSED;
}

/** @param {bigint} part @param {bigint} whole */
const percent = (part, whole) => (whole === 0n ? '0.0' : (100 * Number(part) / Number(whole)).toFixed(1));

/**
 * Columns, as wide as they need to be: the first to the left, all others to the right.
 * @param {string[][]} rows
 */
function aligned(rows) {
  const widths = rows[0].map((_, k) => Math.max(...rows.map((row) => [...row[k]].length)));
  const pad = (/** @type {string} */ cell, /** @type {number} */ k) => {
    const blanks = ' '.repeat(widths[k] - [...cell].length);
    return k === 0 ? cell + blanks : blanks + cell;
  };
  return rows.map((row) => row.map(pad).join('  ').trimEnd());
}

/**
 * The table of a report, for people.
 * @param {Table} table @param {Report} report
 */
function tableLines({ names }, { dwell, pairs, entries }) {
  const all = dwell.reduce((sum, each) => sum + each, 0n);
  const used = names.inputs.map((_, input) => input).filter((input) => pairs.some((row) => row[input] > 0n));
  const head = ['state', 'time', '%', 'entered', ...used.map((input) => visible(names.inputs[input]))];
  const row = (/** @type {bigint} */ time, /** @type {number} */ q) => [
    visible(names.states[q]), String(time), percent(time, all), String(entries[q]), ...used.map((input) => String(pairs[q][input]))];
  return aligned([head, ...dwell.map(row)]);
}

/**
 * The lines of the program `dwell`, which a spreadsheet reads.
 * @param {Report} report
 */
function sheetLines({ journals, dwell, pairs, entries }) {
  return [`journals,${journals}`, ...pairs.flatMap((row, q) => row.map((slots, i) => `pair,${q},${i},${slots}`)),
    ...dwell.map((slots, q) => `state,${q},${slots},${entries[q]}`)];
}

/**
 * @param {Asking} asking @param {Table} table @param {Report} report
 */
function sayReport(asking, table, report) {
  const { terminal } = asking;
  if (asking.json) {
    const { names } = table;
    const states = report.dwell.map((time, q) => ({ state: names.states[q], time: Number(time), entered: Number(report.entries[q]),
      inputs: Object.fromEntries(report.pairs[q].map((slots, i) => [names.inputs[i], Number(slots)])) }));
    return terminal.json({ answer: 'report', journals: Number(report.journals), states });
  }
  if (!asking.plain) terminal.line(`journals=${report.journals}`, 'green');
  for (const line of asking.plain ? sheetLines(report) : tableLines(table, report)) terminal.line(line);
}

/**
 * @param {Asking} asking
 */
export function dwell(asking) {
  const width = numberOf(asking, 'width', 20000);
  const source = asking.table();
  if (tableRefused(asking, source)) return REFUSED;
  const table = /** @type {Table} */ (decodeTable(source.bytes, source.names));
  const numbers = newReport();
  const act = (/** @type {Source} */ journal) => {
    const answer = add(asking, source, journal, numbers);
    return answer.ok ? ACCEPTED : refuse(asking, source, journal, answer);
  };
  const files = asking.files.slice(1);
  const codes = files.length > 0 ? eachJournal(asking, source, files, act) : named(asking.all(source, JOURNALS, undefined)).map(act);
  const report = reportOf(numbers, table.counts);
  const { output, title } = asking.options;
  if (output !== undefined) putPicture(asking, dwellPlot(report, table.names, { title, width, theme: themeOf(asking) }));
  sayReport(asking, table, report);
  return worstOf(codes);
}
