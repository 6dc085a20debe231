/** What the command is started with. A fault of the command itself is no refusal: it ends with 2 as well. */

import { realIo } from './io.js';
import { main, sayFailure } from './main.js';

const args = process.argv.slice(2);
main(args).catch((error) => sayFailure(realIo, args, `this is a fault of krossvil itself: ${error?.stack ?? error}`)).then((code) => {
  process.exitCode = code;
});
