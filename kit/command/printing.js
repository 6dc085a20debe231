/** A page on sheets, as PDF, by the print of a browser that is installed. */

import { createRequire } from 'node:module';
import { tmpdir } from 'node:os';
import { join } from 'node:path';
import { Trouble } from './trouble.js';

/** The names that it goes by. */
const BROWSERS = ['chromium', 'chromium-browser', 'google-chrome', 'chrome'];

/**
 * Root may not be confined, and a browser that finds no other way asks to be told so.
 */
const OPTIONS = ['--headless', '--disable-gpu', '--no-pdf-header-footer', '--disable-dev-shm-usage', ...(process.getuid?.() === 0 ? ['--no-sandbox'] : [])];

/**
 * @param {string} html
 * @returns {Uint8Array|null}  null if there is no browser
 */
export function printed(html) {
  const load = createRequire(import.meta.url);
  const { mkdtempSync, readFileSync, rmSync, writeFileSync, existsSync } = load('node:fs');
  const { spawnSync } = load('node:child_process');
  const folder = mkdtempSync(join(tmpdir(), 'krossvil-sheet-'));
  const [page, pdf] = [join(folder, 'sheet.html'), join(folder, 'sheet.pdf')];
  try {
    writeFileSync(page, html);
    for (const browser of BROWSERS) {
      const done = spawnSync(browser, [...OPTIONS, `--user-data-dir=${join(folder, 'profile')}`, `--print-to-pdf=${pdf}`, `file://${page}`]);
      if (/** @type {any} */ (done.error)?.code === 'ENOENT') continue;
      if (!existsSync(pdf)) throw new Trouble(`${browser} did not print`);
      return readFileSync(pdf);
    }
    return null;
  } finally {
    rmSync(folder, { recursive: true, force: true, maxRetries: 5 });
  }
}
