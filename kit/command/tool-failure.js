/** Why another program failed, as it says itself or the system does. */

import { getSystemErrorMessage } from './system-errors.js';

/** What a program says before it goes on all the same. */
const WARNING = /\bwarning\b|scaling by/i;

/**
 * @param {string} tool @param {{error?: Error & {code?: string}, signal: string|null, status: number|null, stderr: Uint8Array}} done
 */
export function whyFailed(tool, { error, signal, status, stderr }) {
  if (error?.code === 'ENOBUFS') return 'what it made is too large';
  if (signal) return `it was stopped by ${signal}, as happens where memory runs out`;
  if (error && !status) return getSystemErrorMessage(error);
  const said = new TextDecoder().decode(stderr).split('\n').filter((line) => line.trim() !== '' && !WARNING.test(line));
  return said.pop()?.replace(`${tool}: `, '') ?? `it ended with ${status} and did not say why`;
}
