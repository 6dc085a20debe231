/** The question could not be asked: no such file, a mistake in a text or in the command, a tool that is missing. The command ends with 2. */
export class Trouble extends Error {
  /** @param {string} message @param {string} [code]  the system's, where the trouble comes from there */
  constructor(message, code) {
    super(message);
    this.code = code;
  }
}
