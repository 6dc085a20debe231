/** A worksheet and its solutions as two sections of HTML, for a file of their own and for the page. Whatever is anybody's text is escaped. */

import { escapeXml } from '../escape.js';

/** @param {string} head @param {string} run @param {string[]} rows */
const section = (head, run, rows) => `<section class="sheet">${head}${run}<ol>${rows.map((row) => `<li>${row}</li>`).join('')}</ol></section>`;

/**
 * @param {import('../sheet.js').Sheet} sheet
 * @returns {string}
 */
export function sheetSections({ title, automaton, text, open, solved, rows }) {
  const name = escapeXml(title);
  const table = `<div class="table">${automaton}<pre>${text.trim().split('\n').map(escapeXml).join('\n')}</pre></div>`;
  return section(`<h1>${name}</h1><p class="who">Name <span></span> Date <span></span></p>${table}`, open,
    rows.map(({ asks }) => `${escapeXml(asks)} <span></span>`))
    + section(`<h1>${name}: solutions</h1>${table}`, solved,
      rows.map(({ asks, answer, says }) => `${escapeXml(asks)} <b>${escapeXml(answer)}</b>. ${escapeXml(says)}`));
}
