/** `spin` for the tests: a search over all of a model, the run that it found, and runs by chance. */

import { spawnSync } from 'node:child_process';
import { mkdtempSync, rmSync, writeFileSync } from 'node:fs';
import { tmpdir } from 'node:os';
import { join } from 'node:path';
import { recordBytes } from '../../fields.js';

const KINDS = ['change', 'poll', 'test', 'tick'];

/** Runs a command in a folder; what it prints. */
function call(folder, command, ...words) {
  const done = spawnSync(command, words, { cwd: folder, encoding: 'utf8', maxBuffer: 1 << 28 });
  if (done.error) throw done.error;
  if (done.status !== 0 && command !== './pan') throw new Error(`${command}: ${done.stdout}${done.stderr}`);
  return done.stdout;
}

/** Makes something with a folder that has the model in it. */
function withModel(model, make) {
  const folder = mkdtempSync(join(tmpdir(), 'krossvil-spin-'));
  try {
    writeFileSync(join(folder, 'model.pml'), model);
    return make(folder);
  } finally {
    rmSync(folder, { recursive: true, force: true });
  }
}

/** The events of a printed run, each with its time; and its slots. */
export function eventsOf(printed) {
  const events = [];
  const slots = [];
  let opening = 0;
  for (const [, kind, ...words] of printed.matchAll(/@(\w+) (\d+)(?: (\d+))?/g)) {
    const [value, input] = words.map(Number);
    if (kind === 'input') opening = value;
    else if (kind === 'slot') slots.push({ state: value, input });
    else events.push({ kind, value, time: slots.length });
  }
  return { opening, events, slots };
}

/** The stimulus of such a run, and the journal that it says. */
export function bytesOf({ opening, events, slots }) {
  const bytes = (form) => Uint8Array.from([...recordBytes(form, 'input', 0, opening),
    ...events.flatMap(({ kind, time, value }) => recordBytes(form, kind, time, value)), ...recordBytes(form, 'end', slots.length, 0)]);
  return { stimulus: bytes('stimulus'), journal: bytes('journal') };
}

/**
 * Searches all of it, breadth first, so that no depth cuts it off. Something is told for each way in which a search can end without having seen
 * all: then there is no verdict.
 * @returns {{errors: number, states: number, said: string, run: any}}
 */
export function search(model) {
  return withModel(model, (folder) => {
    call(folder, 'spin', '-a', 'model.pml');
    call(folder, 'gcc', '-O0', '-w', '-DBFS', '-DSAFETY', '-DMEMLIM=2000', '-o', 'pan', 'pan.c');
    const said = call(folder, './pan');
    const errors = /errors: (\d+)/.exec(said);
    if (!errors || /max search depth too small|out of memory|reached.*limit|truncated/i.test(said)) throw new Error(`no verdict: ${said}`);
    const run = errors[1] === '0' ? null : eventsOf(call(folder, 'spin', '-t', 'model.pml'));
    return { errors: Number(errors[1]), states: Number(/(\d+) states, stored/.exec(said)[1]), said, run };
  });
}

/** Runs by chance, each from another seed; of each so many steps. */
export function simulate(model, seeds, steps) {
  return withModel(model, (folder) => seeds.map((seed) => eventsOf(call(folder, 'spin', `-n${seed}`, `-u${steps}`, 'model.pml'))));
}

/**
 * The model, made to follow one of these journals: which of them it can go along to their ends. Every step has to be the journal's next record, at
 * its time and with its value.
 * @param {string} model @param {{kind: string, time: number, value: number|null}[][]} journals
 * @returns {Set<number>}
 */
export function follows(model, journals) {
  const all = journals.map((records) => records.slice(1).map(({ kind, time, value }) => [KINDS.indexOf(kind), time, value ?? 0]));
  const column = (k) => `{ ${all.flat().map((record) => record[k]).join(', ')} }`;
  const starts = all.map((_, j) => all.slice(0, j).flat().length);
  const columns = ['its_kinds', 'its_times', 'its_values'].map((name, k) => `static const int ${name}[] = ${column(k)};`).join('\n  ');
  const declared = `c_decl {\n  ${columns}\n}\nint n; int j; int clock; bit off;\n`;
  const now = (kind) => `!off && c_expr { its_kinds[now.n] == ${kind} && its_times[now.n] == now.clock } &&`;
  const took = (value) => `if :: c_expr { its_values[now.n] == now.${value} } -> n++ :: else -> off = 1 fi`;
  const verdict = (value) => `if :: c_expr { its_values[now.n] == ${value} } -> n++ :: else -> off = 1 fi`;
  const opening = journals.map((records, k) => `  :: present = ${records[0].value}; n = ${starts[k]}; j = ${k}`).join('\n');
  const led = model
    .replaceAll('d_step { present !=', `d_step { ${now(0)} c_expr { its_values[now.n] != now.present } && present !=`)
    .replace('d_step { true ->', `d_step { ${now(0)} c_expr { its_values[now.n] == now.present } ->`)
    .replace('d_step { phase == 0', `d_step { ${now(1)} phase == 0`).replace('d_step { phase == 1', `d_step { ${now(2)} phase == 1`)
    .replace('d_step { phase == 2', `d_step { ${now(3)} phase == 2`).replace('d_step { phase == 3', `d_step { ${now(3)} phase == 3`)
    .replace('d_step { cycle < E ->', 'd_step { !off && c_expr { its_times[now.n] > now.clock } && cycle < E -> clock++;')
    .replaceAll('printf("@change %d\\n", present)', took('present')).replace('printf("@poll %d\\n", polled)', took('polled'))
    .replace('printf("@test 0\\n")', verdict(0)).replace('printf("@test 1\\n")', verdict(1)).replaceAll('printf("@tick %d\\n", state)', took('state'))
    .replace('printf("@slot %d %d\\n", state, present);', '').replace(/ {2}:: present = 0[^]*? {2}fi;\n/, `${opening}\n  fi;\n`)
    .replace('  printf("@input %d\\n", present);\n', '')
    .replace('proctype environment() {\nend:\n  do\n', 'proctype environment() {\nend:\n  do\n'
      + '  :: d_step { !off && c_expr { its_kinds[now.n] == -1 && its_times[now.n] == now.clock } -> c_code { printf("followed %d\\n", now.j); }; off = 1 }\n')
    .replace('\n/* the machine', `\n${declared}/* the machine`);
  const { said, errors } = search(led);
  if (errors !== 0) throw new Error(said);
  return new Set([...said.matchAll(/^followed (\d+)$/gm)].map(([, journal]) => Number(journal)));
}
