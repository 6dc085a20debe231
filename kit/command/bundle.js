/**
 * Modules in one script: a function for each, which runs once, when it is first needed. Import and export lines as the kit writes them
 * are understood; any other stops the build. A module that is loaded later, as `() => import('./it.js')`, is there already, or stands in
 * a script of its own. Remarks, types within a line and indents are left out, since what starts must first be read.
 */
import { readFileSync } from 'node:fs';
import { basename, dirname, relative, resolve } from 'node:path';
import { fileURLToPath } from 'node:url';

const kit = resolve(dirname(fileURLToPath(import.meta.url)), '..');

const IMPORT = /^import \{([^}]*)\} from '([^']+)';$/gm;
const REEXPORT = /^export \{([^}]*)\} from '([^']+)';$/gm;
const LIST = /^export \{([^}]*)\};$/gm;
const DECLARATION = /^export ((?:async )?function\*?|class|const) ([A-Za-z_$][\w$]*)/gm;
const LATER = /\(\) => import\('([^']+)'\)/g;
const REMARK = /^ *\/\*\*[^]*?\*\/\n/gm;
const TYPE = /\/\*\* @type \{(?:[^*]|\*(?!\/))*\} \*\/ ?/g;

/**
 * Without what only a reader needs. A module with a text of several lines keeps its indents.
 * @param {string} source
 */
function bare(source) {
  const short = source.replace(REMARK, '').replace(TYPE, '');
  const severalLines = short.split('\n').some((line) => (line.match(/`/g)?.length ?? 0) % 2 === 1);
  return severalLines ? short : short.replace(/^ +/gm, '').replace(/\n{2,}/g, '\n');
}

/**
 * `a, b as c` as pairs: the name, and the other one or the same again.
 * @param {string} list
 */
const pairs = (list) => list.split(',').map((each) => each.trim()).filter(Boolean).map((each) => {
  const [name, as] = each.split(/\s+as\s+/);
  return [name, as ?? name];
});

/**
 * Names of an import, as a pattern of an object.
 * @param {string} list
 */
const pattern = (list) => pairs(list).map(([name, own]) => `${name}: ${own}`).join(', ');

/**
 * A module as a function whose value has its exports. The bracket before the word `function` says that it is called soon: what runs it then
 * compiles it as it first reads it, and not in a second reading, which takes a third of the command's start.
 * @param {string} source @param {(from: string) => string} valueOf @param {(from: string) => string} laterOf
 */
function wrap(source, valueOf, laterOf) {
  /** @type {string[]} */
  const exported = [];
  const body = bare(source)
    .replace(IMPORT, (_, list, from) => `const { ${pattern(list)} } = ${valueOf(from)};`)
    .replace(REEXPORT, (_, list, from) => {
      for (const [name, as] of pairs(list)) exported.push(`${as}: ${valueOf(from)}.${name}`);
      return '';
    })
    .replace(LIST, (_, list) => {
      for (const [name, as] of pairs(list)) exported.push(`${as}: ${name}`);
      return '';
    })
    .replace(DECLARATION, (_, what, name) => {
      exported.push(name);
      return `${what} ${name}`;
    })
    .replace(LATER, (_, from) => `async () => ${laterOf(from)}`)
    .replaceAll('import.meta.url', 'here');
  const odd = /^(import|export)\b(?!:).*$/m.exec(body); // a name of a command may be such a word
  if (odd) throw new Error(`not understood: ${odd[0]}`);
  return `once((function () {\n${body}\nreturn { ${exported.join(', ')} };\n}))`;
}

const ONCE = 'const once = (make) => {\nlet made;\nreturn () => made ??= make();\n};';

/** Modules by their files, each with its name in the script. */
class Gathered {
  /** @param {Map<string, string>} known  modules that stand elsewhere */
  constructor(known = new Map()) {
    this.known = known;
    /** @type {Map<string, string>} */
    this.done = new Map();
    this.open = new Set();
    /** @type {string[]} */
    this.lines = [];
    /** Those that stand elsewhere and are needed here. */
    this.needed = new Set();
  }

  /**
   * Adds a module and all that it needs; gives its name.
   * @param {string} file @param {(file: string) => string} laterOf  what loads a module later
   * @returns {string}
   */
  add(file, laterOf) {
    const elsewhere = this.known.get(file);
    if (elsewhere) this.needed.add(elsewhere);
    const ready = elsewhere ?? this.done.get(file);
    if (ready) return ready;
    if (this.open.has(file)) throw new Error(`${file} needs itself`);
    this.open.add(file);
    const path = (/** @type {string} */ from) => resolve(dirname(file), from);
    const valueOf = (/** @type {string} */ from) => (from.startsWith('node:') ? `require('${from}')` : `${this.add(path(from), laterOf)}()`);
    const value = wrap(readFileSync(file, 'utf8'), valueOf, (from) => laterOf(path(from)));
    const id = `m${this.known.size + this.done.size}`;
    this.done.set(file, id);
    this.lines.push(`// ${relative(kit, file)}\nconst ${id} = ${value};`);
    return id;
  }
}

/**
 * All modules that one needs, itself last and run at the end.
 * @param {string} entry
 */
export function bundle(entry) {
  const all = new Gathered();
  /** @type {(file: string) => string} */
  const laterOf = (file) => `${all.add(file, laterOf)}()`;
  const last = all.add(entry, laterOf);
  return `'use strict';\n(() => {\n${ONCE}\n${all.lines.join('\n')}\n${last}();\n})();`;
}

/**
 * The same in several scripts for Node: one that starts, with what it needs itself, and in a folder beside it one for each module that is
 * loaded later, so that no more is read than is asked for. `here` is what stands for import.meta.url.
 * @param {string} entry @param {string} folder  its name
 * @returns {{start: string, later: [name: string, script: string][]}}
 */
export function bundleInParts(entry, folder) {
  const main = new Gathered();
  const files = new Set();
  const nameOf = (/** @type {string} */ file) => `${basename(file, '.js')}.cjs`;
  const last = main.add(entry, (file) => {
    files.add(file);
    return `require('./${folder}/${nameOf(file)}')(shared)`;
  });
  const shared = `const shared = { here, ${[...main.done.values()].join(', ')} };`;
  const start = `${ONCE}\n${main.lines.join('\n')}\n${shared}\n${last}();`;
  const later = [...files].map((file) => {
    const part = new Gathered(main.done);
    const value = part.add(file, () => { throw new Error(`${file}: it is loaded later, and loads later itself`); });
    const given = `({ ${['here', ...part.needed].join(', ')} })`;
    const script = `'use strict';\nmodule.exports = (function ${given} {\n${ONCE}\n${part.lines.join('\n')}\nreturn ${value}();\n});`;
    return /** @type {[string, string]} */ ([nameOf(file), script]);
  });
  return { start, later };
}
