/** `picture`: the timing diagram. `draw`: the automaton, or the matrix of next states. `wave`: a dump for GTKWave. */

import { basename } from 'node:path';
import { automatonDot } from '../automaton.js';
import { diagram } from '../diagram.js';
import { MEANINGS, explainJournal, narrate } from '../explain.js';
import { decodeTable } from '../fields.js';
import { didYouMean } from '../notation/mistakes.js';
import { SHOWN, tablePicture } from '../table-picture.js';
import { gtkw, vcd } from '../vcd.js';
import { ACCEPTED, REFUSED } from './asking.js';
import { tableRefused } from './check.js';
import { traced } from './records.js';
import { Trouble } from './trouble.js';
import { endingOf, put, putPicture } from './writing.js';

/** @typedef {import('../types.js').Table} Table */
/** @typedef {import('./asking.js').Asking} Asking */

/**
 * A number of an option. The most that is understood may be more than the most that is worth asking for.
 * @param {Asking} asking @param {string} name @param {number} most @param {number} [sensible]
 * @returns {number|undefined}
 */
export function numberOf({ options }, name, most, sensible = most) {
  const words = options[name];
  if (words === undefined) return undefined;
  const number = /^[0-9]+$/.test(words) ? Number(words) : NaN;
  if (!(number <= most)) throw new Trouble(`--${name} takes a number from 0 to ${sensible}, not '${words}'`);
  return number;
}

/**
 * @param {Asking} asking @param {string} file
 */
export function titleOf({ options }, file) {
  return options.title ?? (file === '-' ? '' : basename(file).replace(/\.(kv|bin)$/, ''));
}

/** @param {Asking} asking */
export const themeOf = ({ options }) => /** @type {'dark'|'light'} */ (options.dark ? 'dark' : 'light');

/**
 * @param {Asking} asking @param {string} file
 */
function said(asking, file) {
  if (asking.json) asking.terminal.json({ file, answer: 'drawn', ...(asking.options.output === undefined ? {} : { wrote: asking.options.output }) });
  return ACCEPTED;
}

/**
 * A picture for people cannot go to where objects go.
 * @param {Asking} asking
 */
function refuseMixing(asking) {
  if (asking.json && asking.options.output === undefined) throw new Trouble('with --json give -o FILE');
}

/**
 * @param {Asking} asking
 */
export function picture(asking) {
  refuseMixing(asking);
  const [begin, until, width] = [numberOf(asking, 'begin', 4294967295), numberOf(asking, 'until', 4294967295), numberOf(asking, 'width', 20000)];
  const found = traced(asking);
  if (!found) return REFUSED;
  const { trace, source } = found;
  const explanation = trace.refused ? explainJournal(trace) : null;
  putPicture(asking, diagram(trace, {
    title: titleOf(asking, source.file), theme: themeOf(asking), width, from: begin, to: until, narrate: (step) => narrate(trace, step),
    sentences: explanation?.sentences, slip: explanation?.slip, meaning: MEANINGS.get(trace.refused?.number ?? 0),
  }));
  return said(asking, source.file);
}

/**
 * @param {Asking} asking @param {Table} table
 */
function drawByGraphviz(asking, table) {
  const ending = endingOf(asking, 'svg');
  if (!['svg', 'png', 'pdf'].includes(ending)) throw new Trouble(`an automaton is written as .svg, .png, .pdf or .dot, not as .${ending}`);
  const made = asking.io.convert('dot', [`-T${ending}`], automatonDot(table));
  if (!made) throw new Trouble('the package graphviz is missing: apt-get install graphviz; or leave --graphviz out');
  put(asking, ending === 'svg' ? Buffer.from(made).toString('utf8') : made);
}

/**
 * What `draw` is asked to show; Graphviz has only the automaton.
 * @param {Asking} asking @param {boolean} asGraph
 * @returns {import('../table-picture.js').Shown|undefined}
 */
function shownBy({ options: { show } }, asGraph) {
  if (show === undefined) return undefined;
  if (!SHOWN.includes(show)) throw new Trouble(`--show takes ${SHOWN.join(' or ')}, not '${show}'${didYouMean(show, SHOWN)}`);
  if (asGraph && show === 'matrix') throw new Trouble('Graphviz draws the automaton only: leave --show matrix out, or Graphviz');
  return show;
}

/**
 * @param {Asking} asking
 */
export function draw(asking) {
  refuseMixing(asking);
  const width = numberOf(asking, 'width', 20000);
  const isDot = endingOf(asking, 'svg') === 'dot';
  const show = shownBy(asking, isDot || asking.options.graphviz === true);
  const source = asking.table();
  if (tableRefused(asking, source)) return REFUSED;
  const table = /** @type {Table} */ (decodeTable(source.bytes, source.names));
  const title = titleOf(asking, source.file);
  if (isDot) put(asking, automatonDot(table));
  else if (asking.options.graphviz) drawByGraphviz(asking, table);
  else putPicture(asking, tablePicture(table, { show, title, width, slide: true, theme: themeOf(asking) }));
  return said(asking, source.file);
}

const UNIT = /^(1|10|100) ?(s|ms|us|ns|ps|fs)$/;

/**
 * The dump; for a file that ends in .gtkw, the dump beside it and in the file what GTKWave shows of it.
 * @param {Asking} asking
 */
export function wave(asking) {
  refuseMixing(asking);
  const { io, options: { unit, output } } = asking;
  if (unit !== undefined && !UNIT.test(unit)) {
    throw new Trouble(`--unit takes 1, 10 or 100 of s, ms, us, ns, ps or fs, as '10 ms'; not '${unit}'`);
  }
  const found = traced(asking);
  if (!found) return REFUSED;
  const dump = vcd(found.trace, { unit });
  if (endingOf(asking, 'vcd') === 'gtkw') {
    const stem = output.slice(0, -'.gtkw'.length);
    io.write([[`${stem}.vcd`, dump], [`${stem}.gtkw`, gtkw(found.trace, basename(stem))]]);
  } else put(asking, dump);
  return said(asking, found.source.file);
}
