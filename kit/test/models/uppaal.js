/** A file for UPPAAL, read back: its templates with guards, resets and invariants, and a walk through it in whole units. */

import { all, readXml } from '../well-formed.js';

const textOf = ({ text }) => text;
const named = (element, name) => all(element).filter((each) => each.name === name);
const labelsOf = (element) => Object.fromEntries(named(element, 'label').map((label) => [label.attributes.kind, textOf(label)]));

/** An expression of UPPAAL's, as far as our files have them, over numbers and arrays of numbers. */
function expression(text) {
  const words = text.replace(/\bnot\b/g, '!').replace(/([^&])&([^&])/g, '$1&$2');
  return new Function('v', `with (v) { return ${words || 'true'}; }`);
}

/** `a = b, c = d`, one after the other. */
function assignments(text) {
  const each = text === '' ? [] : text.split(/, (?=\w+ = )/);
  return new Function('v', `with (v) { ${each.join('; ')} }`);
}

/** Constants, variables and clocks, with what they begin with. */
function declared(text) {
  const values = {};
  for (const line of text.split('\n').map((each) => each.replace(/\/\/.*$/, '').trim())) {
    const constant = /^const (?:int|bool) (\w+)(?:\[\w+\])* = (.*);$/.exec(line);
    const variable = /^(?:int\[[^\]]*\]|bool|clock) (\w+)(?: = (\d+))?;$/.exec(line);
    const method = /^bool (\w+)\(\) \{ return (.*); \}$/.exec(line);
    if (constant) values[constant[1]] = JSON.parse(constant[2].replaceAll('{', '[').replaceAll('}', ']'));
    else if (variable) values[variable[1]] = Number(variable[2] ?? 0);
    else if (method) values[method[1]] = null;
    else if (line !== '' && !line.startsWith('broadcast')) throw new Error(`not understood: ${line}`);
  }
  return { values, clocks: [...text.matchAll(/^clock (\w+);/gm)].map(([, name]) => name) };
}

/** Without the lines before it. */
export const rootOf = (file) => readXml(file.slice(file.indexOf('<nta>')).trim());

export class Walk {
  /** @param {string} file */
  constructor(file) {
    const root = rootOf(file);
    const { values, clocks } = declared(textOf(named(root, 'declaration')[0]));
    Object.assign(this, { values, clocks, places: {} });
    this.templates = named(root, 'template').map((template) => ({
      name: textOf(named(template, 'name')[0]),
      invariants: Object.fromEntries(named(template, 'location').map((place) => [place.attributes.id, expression(labelsOf(place).invariant ?? '')])),
      edges: named(template, 'transition').map((edge) => {
        const labels = labelsOf(edge);
        return {
          from: named(edge, 'source')[0].attributes.ref, to: named(edge, 'target')[0].attributes.ref, select: labels.select !== undefined,
          guard: expression(labels.guard ?? ''), update: assignments(labels.assignment ?? ''), sync: labels.synchronisation ?? '',
        };
      }),
    }));
    for (const [k, template] of named(root, 'template').entries()) this.places[this.templates[k].name] = named(template, 'init')[0].attributes.ref;
    this.queries = named(root, 'formula').map(textOf);
  }

  /** The edges that can be taken now, each with the value that is chosen where it has one. */
  enabled() {
    const { values, places } = this;
    return this.templates.filter(({ name }) => name !== 'Observer').flatMap(({ name, edges }) => edges.filter(({ from }) => from === places[name])
      .flatMap((edge) => (edge.select ? Array.from({ length: values.I }, (_, a) => a) : [null]).map((a) => ({ name, edge, a }))))
      .filter(({ edge, a }) => edge.guard({ ...values, a }) && this.#allowed(edge, a));
  }

  /** Is the invariant of the place that it leads to kept? */
  #allowed(edge, a) {
    const after = { ...this.values, a };
    edge.update(after);
    return this.templates.every(({ invariants }) => !(edge.to in invariants) || invariants[edge.to](after));
  }

  take({ name, edge, a }) {
    const scope = { ...this.values, a };
    edge.update(scope);
    const { a: _, ...values } = scope;
    this.values = values;
    this.places[name] = edge.to;
  }

  canWait() {
    const later = { ...this.values };
    for (const clock of this.clocks) later[clock] += 1;
    return this.templates.every(({ name, invariants }) => invariants[this.places[name]](later));
  }

  wait() {
    for (const clock of this.clocks) this.values[clock] += 1;
  }
}
