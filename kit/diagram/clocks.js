/**
 * Holds and timers: a bar from the entry into the state or the region, and a closed dot at its end, because a test at that time is still
 * held.
 */
import { circle, element, group, line, path, rect, text } from '../svg.js';
import { firstThatFits, fit, widthOf } from '../text-width.js';
import { nameOf } from '../name-of.js';
import { thousands } from '../names.js';
import { members } from '../sets.js';
import { regionVisits, visits } from '../trace.js';
import { boxesOf, columnsOf } from './runs.js';
import { presentOf } from './view.js';

/** @typedef {import('./view.js').View} View */

/**
 * @typedef {Object} Bar
 * @property {number} from
 * @property {number} end        from + length
 * @property {number|null} to    when the state or the region was left
 * @property {string} what       "hold 5"
 * @property {string} delays     the names of what it delays
 * @property {boolean} [later]   it is not there yet
 */

/**
 * @param {View} view @param {number} row
 * @returns {Bar[]}
 */
function barsOf({ trace }, row) {
  const { table, names } = trace;
  const inputs = (/** @type {number} */ set) => members(set).map((input) => nameOf(names.inputs, input)).join(', ');
  if (table.kind === 'holds') {
    return visits(trace).filter(({ state }) => table.holds[state] > 0 && table.delayed[state] !== 0).map(({ state, from, to }) => ({
      from, to, end: from + table.holds[state], what: `hold ${thousands(table.holds[state])}`, delays: inputs(table.delayed[state]),
    }));
  }
  const { length, region, delays } = table.timers[row];
  const all = members(region).reduce((set, state) => set | delays[state], 0) >>> 0;
  return regionVisits(trace, row).map(({ from, to }) => ({
    from, to, end: from + length, what: `${nameOf(names.timers, row)} ${thousands(length)}`, delays: inputs(all),
  }));
}

/**
 * @param {View} view
 */
export function clockRows(view) {
  const { stretch, lanes } = view;
  return lanes.clocks.map((lane, row) => {
    const bars = asKnown(view, barsOf(view, row)).filter((bar) => bar.from <= stretch.to && Math.min(bar.end, bar.to ?? Infinity) >= stretch.from);
    const wide = view.dense ? bars.filter((bar) => endOf(view, bar) - view.x(bar.from) > 24) : bars;
    return group({ class: 'clock', 'data-clock': row },
      caption(view, lane, row),
      narrowBars(view, lane, bars.filter((bar) => !wide.includes(bar))),
      wide.map((bar) => drawBar(view, lane, bar, bars[bars.indexOf(bar) + 1]?.from ?? Infinity)));
  });
}

/**
 * A narrow picture has no room for a timer's name at its left.
 * @param {View} view @param {{y: number, height: number}} lane @param {number} row
 */
function caption({ trace, sizes, theme }, lane, row) {
  if (!sizes.narrow || trace.table.kind === 'holds') return null;
  const words = `${nameOf(trace.names.timers, row)} ${thousands(trace.table.timers[row].length)}`;
  return text(sizes.left + 1, lane.y - 3, fit(words, 200, sizes.small), { size: sizes.small, fill: theme.quiet });
}

/**
 * Where the bar ends in the picture.
 * @param {View} view @param {Bar} bar
 */
function endOf({ x, stretch }, bar) {
  return x(Math.min(bar.end, bar.to ?? bar.end, stretch.to));
}

/**
 * The bars of a crowded picture, which are too narrow for words and dots.
 * @param {View} view @param {{y: number, height: number}} lane @param {Bar[]} bars
 */
function narrowBars(view, lane, bars) {
  if (bars.length === 0) return null;
  const runs = bars.map((bar) => ({ from: bar.from, to: Math.min(bar.end, bar.to ?? bar.end, view.stretch.to), value: 1 }));
  return path(boxesOf(columnsOf(runs, view.x, 1.5), lane.y + 6, 20), { fill: view.theme.heldFill });
}

/**
 * Where one goes through the records, nobody knows yet that a state will be left, but the end of its hold is known from its entry on. So
 * its bar goes on, and bars that come in its place are left out.
 * @param {View} view @param {Bar[]} bars
 * @returns {Bar[]}
 */
function asKnown(view, bars) {
  const now = presentOf(view)?.step;
  if (now === undefined) return bars;
  const { time } = now.record;
  const ticked = (now.after ?? now.before)?.cycleStart === time;
  const hasCome = (/** @type {number|null} */ tick) => tick !== null && (tick < time || (tick === time && ticked));
  const known = bars.map((bar) => ({ ...bar, later: !hasCome(bar.from), to: hasCome(bar.from) && !hasCome(bar.to) ? null : bar.to }));
  const present = known.find((bar) => !bar.later && bar.to === null);
  return known.filter((bar) => !bar.later || present === undefined || bar.from > present.end);
}

/**
 * A bar goes on behind the refused record, to the end that the hold would have. It ends sooner if the state was left.
 * @param {View} view @param {{y: number, height: number}} lane @param {Bar} bar
 * @param {number} next      when the next bar begins
 */
function drawBar(view, lane, bar, next) {
  const { theme, stretch, x } = view;
  const ends = bar.to === null || bar.to >= bar.end;
  const stop = Math.min(ends ? bar.end : bar.to ?? bar.end, stretch.to);
  const [a, b] = [x(Math.max(bar.from, stretch.from)), x(stop)];
  const y = lane.y + (lane.height - 22) / 2;
  const dot = ends && bar.end <= stretch.to;
  const says = `${bar.what} delays ${bar.delays || 'nothing'}: from ${thousands(bar.from)}, over when ${thousands(bar.end)} is passed`;
  const title = says + (ends ? '' : `; left at ${thousands(bar.to ?? 0)}`);
  return group({ class: 'hold', opacity: bar.later ? 0.25 : null }, element('title', {}, title),
    rect(a, y, b - a, 22, { fill: theme.heldFill, 'fill-opacity': ends ? null : 0.45, stroke: theme.held, 'stroke-width': 1.4, class: 'hold-bar' }),
    stop < bar.end && ends ? torn(view, b, y) : null,
    barWords(view, bar, { a, b, y, room: x(Math.min(next, stretch.to)), dot }),
    dot ? holdEnd(view, bar.end, b, y) : null);
}

/**
 * The bar goes on beyond the picture.
 * @param {View} view @param {number} x @param {number} y
 */
function torn({ theme }, x, y) {
  return path(`M${x + 1},${y - 1}l-7,4l7,4l-7,4l7,4l-7,4l7,4v1h3v-26h-3z`, { fill: theme.paper });
}

/**
 * @param {View} view @param {number} time @param {number} x @param {number} y
 */
function holdEnd({ theme }, time, x, y) {
  return [
    line(x, y - 5, x, y + 27, theme.held, 3),
    circle(x, y + 11, 7, { fill: theme.held, class: 'hold-end', 'data-time': String(time) }),
  ];
}

/**
 * Words in the bar if it is wide enough, and behind its dot what did not fit.
 * @param {View} view @param {Bar} bar @param {{a: number, b: number, y: number, room: number, dot: boolean}} place
 */
function barWords({ theme, sizes, trace }, bar, { a, b, y, room, dot }) {
  const over = `over when ${thousands(bar.end)} is passed`;
  const inside = b - a - (dot ? 18 : 12);
  const [delays, until] = [`${bar.what} delays ${bar.delays}`, `until ${thousands(bar.end)} is passed`];
  const full = [`${delays}: from ${thousands(bar.from)}, ${over}`, `${delays}, ${over}`, `${bar.what}: ${over}`, until];
  const size = sizes.small;
  const whole = bar.to !== null && bar.to < bar.end ? undefined : full.find((words) => widthOf(words, size) <= inside);
  const captioned = sizes.narrow && trace.table.kind === 'timers';
  const named = captioned ? [`until ${thousands(bar.end)}`] : [delays, bar.what];
  const word = whole ?? firstThatFits([...named, thousands(bar.end - bar.from)], inside, size);
  const behind = whole === undefined && dot && room - b > widthOf(over, size) + 18 ? over : '';
  return [
    text(a + 6, y + 11 + size * 0.36, word.includes('…') ? '' : word, { size, fill: theme.ink, anchor: 'start' }),
    text(b + 12, y + 11 + size * 0.36, behind, { size, fill: theme.held, anchor: 'start' }),
  ];
}
