/** `slow`: a run in which states and inputs stay as long as could be found, and the state is still outside the target. */

import { counted } from '../names.js';
import { SlowRun, saySlow } from '../slow.js';
import { timesOf } from '../times.js';
import { ACCEPTED, REFUSED } from './asking.js';
import { deliver, namesOf, sayWritten } from './conversions.js';
import { numberOf } from './pictures.js';
import { askedBy, reactionRefused } from './react.js';

/** @typedef {import('./asking.js').Asking} Asking */

const SECONDS = 10;
const SECONDS_MOST = 86400;

/**
 * @param {Asking} asking
 */
export function slow(asking) {
  const seconds = numberOf(asking, 'seconds', SECONDS_MOST) ?? SECONDS;
  const asked = askedBy(asking);
  if (!asked) return REFUSED;
  const { source, table, states, inputs, moves = 1 } = asked;
  const question = { states, inputs, moves };
  const answer = timesOf(asking.library, source.bytes, question);
  if (!answer.ok) return reactionRefused(asking, source, table, question, answer);
  const search = new SlowRun(asking.library, source.bytes, question, answer);
  const ended = search.go(1000 * seconds);
  const found = search.found();
  const stopped = ended ? [] : [`The search was stopped after ${counted(seconds, 'second')}.`];
  const says = [...saySlow(table.names, search, found), ...stopped];
  if (!found) return sayNone(asking, source.file, says);
  const { journal: bytes, slots, from } = found;
  const made = { bytes, form: /** @type {const} */ ('journal'), names: namesOf(source) };
  const line = `slots=${slots} from=${from} end=${from + slots + 1}`;
  return deliver(asking, made, { file: source.file, numbers: { slots, from }, says: [...says, ...sayWritten(asking, bytes, 'journal')], line });
}

/**
 * Nothing was found, and nothing is written.
 * @param {Asking} asking @param {string} file @param {string[]} says
 */
function sayNone(asking, file, says) {
  if (asking.json) asking.terminal.json({ file, answer: 'none', says });
  else for (const sentence of says) asking.terminal.sentence(sentence);
  return ACCEPTED;
}
