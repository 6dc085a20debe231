/**
 * A journal as a value change dump, which GTKWave opens: values by their names and, for other viewers, by their numbers. Polled input, verdict
 * and `left` stay until the next poll, since poll, test and tick may share an instant. The dump ends one unit later than the journal, so that
 * what happens last can be seen.
 */
import { vcdWord, visible } from './escape.js';
import { nameOf } from './name-of.js';
import { left } from './trace.js';

/** @typedef {import('./types.js').Trace} Trace */
/** @typedef {import('./types.js').Step} Step */
/** @typedef {{name: string, type: 'string'|'wire'|'event', width: number, scope: string}} Signal */

const PHASES = ['before_poll', 'before_test', 'held', 'free'];

/** @type {Signal[]} */
const SIGNALS = [
  ...signals('run', 'string', 1, ['input', 'polled', 'verdict', 'state', 'output', 'phase']),
  ...signals('run', 'wire', 32, ['cycle', 'left']),
  ...signals('run', 'wire', 1, ['refused']),
  ...signals('records', 'event', 1, ['change', 'poll', 'test', 'tick']),
  ...signals('numbers', 'wire', 5, ['input_number', 'polled_number', 'state_number', 'output_number']),
  ...signals('numbers', 'wire', 2, ['phase_number']),
  ...signals('numbers', 'wire', 1, ['verdict_number']),
];

/**
 * @param {string} scope @param {Signal['type']} type @param {number} width @param {string[]} names
 * @returns {Signal[]}
 */
function signals(scope, type, width, names) {
  return names.map((name) => ({ name, type, width, scope }));
}

/** @type {Map<string, Signal & {code: string}>} */
const BY_NAME = new Map(SIGNALS.map((signal, k) => [signal.name, { ...signal, code: String.fromCharCode(33 + k) }]));

/**
 * @param {string} unit
 */
function header(unit) {
  const scopes = [...new Set(SIGNALS.map((signal) => signal.scope))];
  const variables = (/** @type {string} */ scope) => [...BY_NAME.values()].filter((signal) => signal.scope === scope)
    .map(({ type, width, code, name }) => `$var ${type} ${width} ${code} ${name}${width > 1 ? ` [${width - 1}:0]` : ''} $end`);
  return [
    '$version krossvil $end', `$timescale ${unit} $end`,
    ...scopes.flatMap((scope) => [`$scope module ${scope} $end`, ...variables(scope), '$upscope $end']),
    '$enddefinitions $end',
  ];
}

/**
 * A value as the dump has it; `x` stands for one that is not there yet.
 * @param {string} name @param {string|number|null} value
 */
function change(name, value) {
  const signal = BY_NAME.get(name);
  if (signal === undefined) throw new Error(`no such signal: ${name}`);
  if (signal.type === 'event') return `1${signal.code}`;
  if (signal.type === 'string') return `s${vcdWord(value ?? '')} ${signal.code}`;
  const bits = value === null ? 'x' : Number(value).toString(2);
  return signal.width === 1 ? `${bits}${signal.code}` : `b${bits} ${signal.code}`;
}

/**
 * What the machine is after an accepted record.
 * @param {Trace} trace @param {Step} step @param {number} cycle
 * @returns {Record<string, string|number|null>}
 */
function valuesOf({ names, table }, { after: machine }, cycle) {
  if (machine === null) return {};
  const output = table.outputs[machine.state];
  return {
    input: nameOf(names.inputs, machine.present), state: nameOf(names.states, machine.state), output: nameOf(names.outputs, output),
    phase: PHASES[machine.phase], cycle, refused: 0, input_number: machine.present, state_number: machine.state, output_number: output,
    phase_number: machine.phase,
  };
}

/**
 * What a poll and a test found. Only the next poll takes it away.
 * @param {Trace} trace @param {Step} step
 * @returns {Record<string, string|number|null>}
 */
function foundBy(trace, step) {
  const { record: { kind, value }, after } = step;
  if (after === null || !['input', 'poll', 'test'].includes(kind)) return {};
  const polled = kind === 'input' ? null : after.polled;
  const verdict = kind === 'test' ? value : null;
  return {
    polled: nameOf(trace.names.inputs, polled), polled_number: polled,
    verdict: nameOf(['held', 'free'], verdict), verdict_number: verdict, left: left(trace, step),
  };
}

/**
 * Writes lines, and of a signal only what is new.
 */
class Dump {
  /** @param {string} unit */
  constructor(unit) {
    this.lines = header(unit);
    /** @type {Map<string, string|number|null>} */
    this.last = new Map();
    this.time = -1;
  }

  /** @param {number} time */
  at(time) {
    if (time <= this.time) return;
    this.lines.push(`#${time}`);
    this.time = time;
  }

  /** @param {Record<string, string|number|null>} values */
  put(values) {
    for (const [name, value] of Object.entries(values)) {
      if (this.last.has(name) && this.last.get(name) === value) continue;
      this.last.set(name, value);
      this.lines.push(change(name, value));
    }
  }

  /** @param {string} kind */
  event(kind) {
    if (BY_NAME.get(kind)?.type === 'event') this.lines.push(change(kind, 1));
  }
}

/** How GTKWave shows a signal: decimal, binary or as text, at the right. */
const FLAGS = { number: '@24', bit: '@28', string: '@820' };

/** The whole run is to take so many of GTKWave's frames; at zoom -z there are 2^z units to a frame, and never less than one. */
const FRAMES = 3.5;

/**
 * What GTKWave keeps of its window: it opens the dump with the signals of the run and the records shown, from the first time to the last.
 * GTKWave looks for the dump where it lies as seen from the opened file: only that counts of the two paths, so their folder is made up.
 * @param {Trace} trace @param {string} name  of both files, without the ending
 */
export function gtkw(trace, name) {
  const { time } = trace.steps[trace.stop ?? trace.steps.length - 1].record;
  const zoom = Math.min(0, Math.log2(FRAMES / (time + 1)));
  const shown = [...BY_NAME.values()].filter(({ scope }) => scope !== 'numbers').map(({ scope, name: signal, type, width }) => {
    const flags = type === 'string' ? FLAGS.string : width > 1 ? FLAGS.number : FLAGS.bit;
    return `${flags}\n${scope}.${signal}${width > 1 ? `[${width - 1}:0]` : ''}`;
  });
  const path = `/folder/${visible(name).replaceAll('"', '\ufffd')}`;
  const head = [`[dumpfile] "${path}.vcd"`, `[savefile] "${path}.gtkw"`, '[timestart] 0', '[size] 1200 500', '[signals_width] 200'];
  return `${[...head, `*${zoom.toFixed(6)} 0`, ...shown].join('\n')}\n`;
}

/**
 * @param {Trace} trace
 * @param {{unit?: string}} [options]   how long one unit of time is: `1 ms` if it is not said
 * @returns {string}
 */
export function vcd(trace, options = {}) {
  const unit = /^(1|10|100) ?(s|ms|us|ns|ps|fs)$/.test(options.unit ?? '') ? options.unit ?? '' : '1 ms';
  const dump = new Dump(unit);
  dump.at(0);
  let cycle = 0;
  for (const step of trace.steps.slice(0, trace.stop ?? trace.steps.length)) {
    cycle += step.record.kind === 'tick' ? 1 : 0;
    dump.at(step.record.time);
    dump.event(step.record.kind);
    dump.put({ ...valuesOf(trace, step, cycle), ...foundBy(trace, step) });
  }
  if (trace.stop !== null) {
    dump.at(trace.steps[trace.stop].record.time);
    dump.put({ refused: 1 });
  }
  dump.at(dump.time + 1);
  return `${dump.lines.join('\n')}\n`;
}
