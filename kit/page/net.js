/** Whatever goes wrong on the page, at once or later, and is caught nowhere else, comes here. So no answer outlives it. */

/** @param {(error: unknown) => void} then */
export function catchAll(then) {
  // Without an error of its own it is the browser's remark on layout, which is repeated with the next frame.
  addEventListener('error', ({ error }) => error && then(error));
  addEventListener('unhandledrejection', ({ reason }) => then(reason));
}

/**
 * @param {unknown} error
 * @returns {string[]}
 */
export function sayFault(error) {
  return [`The page could not go on (${error}). The texts are kept: save them, and open the page again.`];
}
