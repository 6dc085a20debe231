/** The command `krossvil`: finds out what is asked, asks it, and ends with 0, 1 or 2. */

import { visible } from '../escape.js';
import { didYouMean } from '../notation/mistakes.js';
import { countFiles, parsed, wantsObjects } from './arguments.js';
import { ACCEPTED, Asking, NOT_ASKED } from './asking.js';
import { COMMANDS } from './commands.js';
import { commandHelp, generalHelp } from './help.js';
import { realIo } from './io.js';
import { ownLibrary } from './library-file.js';
import { jsonLine, notAsked } from './terminal.js';
import { Trouble } from './trouble.js';

/** @typedef {import('./io.js').Io} Io */
/** @typedef {import('../types.js').Library} Library */

/** What is asked of the command itself, and for the shell's completion. */
const BESIDES = {
  '--version': () => import('./version.js'),
  complete: () => import('./complete.js'),
};

/**
 * @param {string[]} args @param {Io} io @param {() => Promise<Library>} load
 * @returns {Promise<number>}
 */
async function answer(args, io, load) {
  const [first, ...rest] = args;
  if (first === undefined || first === '--help' || first === '-h' || (first === 'help' && rest.length === 0)) {
    io.print(generalHelp());
    return first === undefined ? NOT_ASKED : ACCEPTED;
  }
  if (first === '--version' || first === 'complete') return (await BESIDES[first]()).answer(io, rest);
  const [name, given] = first === 'help' ? [rest[0], ['--help']] : [first, rest];
  if (!Object.hasOwn(COMMANDS, name)) {
    throw new Trouble(`there is no command '${name}'${didYouMean(name, Object.keys(COMMANDS))}\nsee: krossvil --help`);
  }
  const { options, files } = parsed(name, given);
  if (options.help) {
    io.print(commandHelp(name));
    return ACCEPTED;
  }
  countFiles(name, files);
  const [module, library] = await Promise.all([COMMANDS[name].module(), load()]);
  return module[name](new Asking(io, library, files, options, COMMANDS[name].writes === true));
}

/**
 * Says why nothing could be asked.
 * @param {Io} io @param {string[]} args @param {string} message
 */
export function sayFailure(io, args, message) {
  if (wantsObjects(args)) io.print(`${jsonLine(notAsked(message))}\n`);
  else for (const line of `krossvil: ${message}`.split('\n')) io.complain(`${visible(line)}\n`);
  io.finish();
  return NOT_ASKED;
}

/**
 * @param {string[]} args @param {Io} [io] @param {() => Promise<Library>} [load]
 * @returns {Promise<number>}  the exit code
 */
export async function main(args, io = realIo, load = ownLibrary) {
  try {
    return await answer(args, io, load);
  } catch (error) {
    if (!(error instanceof Trouble)) throw error;
    return sayFailure(io, args, error.message);
  } finally {
    io.finish();
  }
}
