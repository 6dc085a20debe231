/** What stands behind a command: its options and files, or what is wrong with them. */

import { parseArgs } from 'node:util';
import { didYouMean } from '../notation/mistakes.js';
import { COMMANDS } from './commands.js';
import { optionsOf, usage } from './help.js';
import { OPTIONS } from './options.js';
import { Trouble } from './trouble.js';

/** @typedef {{name: string, rawName: string, value: string|undefined, inlineValue: boolean|undefined}} Given   an option as it was given */

/** A value may be a number below 0, which is then turned down as a number. */
const LIKE_OPTION = /^-[^0-9]/;

/**
 * What is wrong with an option; null if nothing is.
 * @param {Given} given @param {string[]} known
 */
function faultOf({ name, rawName, value, inlineValue }, known) {
  if (!known.includes(name)) return `there is no option '${rawName}' here${didYouMean(rawName, known.map((each) => `--${each}`))}`;
  const { type, value: what } = OPTIONS[name];
  if (type === 'boolean') return value === undefined ? null : `${rawName} takes no value`;
  if (value === undefined) return `${rawName} needs a value behind it: ${rawName} ${what}`;
  if (inlineValue || !LIKE_OPTION.test(value)) return null;
  return `${rawName} needs a value behind it, and '${value}' looks like an option; if it is none, write --${name}=${value}`;
}

/**
 * The words behind a command, right or wrong.
 * @param {string} name  of the command
 * @param {string[]} args
 * @returns {{options: Record<string, any>, files: string[], given: Given[]}}
 */
export function wordsOf(name, args) {
  const options = Object.fromEntries(optionsOf(name).map((option) => {
    const { type, short } = OPTIONS[option];
    return [option, short ? { type, short } : { type }];
  }));
  const { values, positionals, tokens } = parseArgs({ args, options, allowPositionals: true, strict: false, tokens: true });
  return { options: values, files: positionals, given: tokens.filter((/** @type {{kind: string}} */ { kind }) => kind === 'option') };
}

/**
 * @param {string} name  of the command
 * @param {string[]} args
 */
export function parsed(name, args) {
  const { options, files, given } = wordsOf(name, args);
  for (const each of given) {
    const fault = faultOf(each, optionsOf(name));
    if (fault) throw new Trouble(`${fault}\nusage: ${usage(name)}`);
  }
  return { options, files };
}

/**
 * @param {string} name  of the command
 * @param {string[]} files
 */
export function countFiles(name, files) {
  const [least, most] = COMMANDS[name].count;
  if (files.length < least) throw new Trouble(`a file is missing\nusage: ${usage(name)}`);
  if (files.length > most) throw new Trouble(`these are too many files\nusage: ${usage(name)}`);
}

/**
 * Are answers wanted as objects? It is asked before the rest is understood, so that what is wrong with it is an object too.
 * @param {string[]} args
 */
export function wantsObjects(args) {
  const end = args.indexOf('--');
  return args.slice(0, end < 0 ? args.length : end).includes('--json');
}
