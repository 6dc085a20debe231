/** A worksheet and its solutions as one file for a browser, which prints them on sheets of their own. */

import { escapeXml } from '../escape.js';
import { FONT } from '../svg.js';
import { sheetSections } from './sections.js';

/** The papers that a browser knows by name. */
export const PAPERS = ['A4', 'letter'];

/**
 * The page has it too, and its own fonts. The picture of the table is as large as it was drawn where long lines beside it leave the room, no
 * higher than a sheet, and with up to six states low enough for the run below it.
 */
export const STYLE = `
.sheet { font: 11pt/1.4 var(--sans); color: #14202b; }
.sheet + .sheet { break-before: page; }
.sheet h1 { font-size: 15pt; margin: 0 0 2mm; }
.sheet span { border-bottom: 0.3mm solid #44515d; }
.sheet .who, .sheet .table { display: flex; gap: 6mm; margin: 0 0 3mm; }
.sheet .who span { flex: 1; }
.sheet .table svg { align-self: start; width: auto; min-width: 0; height: auto; max-height: 232mm; }
.sheet .table svg:not(:has([data-state='6'])) { max-height: 118mm; }
.sheet pre { flex: 1 0 auto; max-width: calc(100% - 84mm); margin: 0; font: 8.5pt/1.3 var(--mono); white-space: pre-wrap; }
.sheet > svg { width: 100%; height: auto; }
.sheet ol { columns: 2; column-gap: 8mm; margin: 3mm 0 0; padding-left: 8mm; }
.sheet + .sheet ol { columns: 1; }
.sheet li { break-inside: avoid; padding: 0.8mm 0; }
.sheet li span { display: inline-block; width: 26mm; margin-left: 2mm; }
.sheet b { color: #0d6630; }
`;

const FONTS = `:root { --sans: ${FONT}; --mono: 'DejaVu Sans Mono', Menlo, Consolas, 'Roboto Mono', monospace; }`;

/**
 * @param {import('../sheet.js').Sheet} sheet @param {string} [paper]
 * @returns {string}
 */
export function sheetHtml(sheet, paper = PAPERS[0]) {
  return `<!DOCTYPE html>\n<html lang="en"><head><meta charset="utf-8"><title>${escapeXml(sheet.title)}</title>`
    + `<style>@page { size: ${paper}; margin: 12mm; }\n${FONTS}${STYLE}</style></head><body>${sheetSections(sheet)}</body></html>\n`;
}
