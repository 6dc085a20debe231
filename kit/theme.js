/**
 * The colours of all pictures. They are made for a projector in a lit room: words have a contrast of at least 4.5 to what they stand
 * on, lines and marks that tell something of at least 3, and held and free differ in lightness too, not only in hue.
 */

/**
 * @typedef {Object} Theme
 * @property {string} paper
 * @property {string} ink        words, and the lines of ticks and changes
 * @property {string} quiet      words that explain
 * @property {string} grid
 * @property {string} border     around lanes
 * @property {string} unread     hatching, and records that were not read
 * @property {string} red        the refusal
 * @property {string} redPaper
 * @property {string} poll
 * @property {string} held       words and outlines
 * @property {string} heldFill
 * @property {string} free       words and outlines
 * @property {string} freeFill
 * @property {string} lit        the record, state or edge that is looked at
 * @property {string} litFill
 * @property {string[]} phases   behind the records: before the poll, before the test, held, free
 * @property {string[]} inputs   in turn
 * @property {string[]} states   in turn
 * @property {string[]} outputs  in turn
 * @property {string[]} timers   outlines of their regions
 */

/** @type {Theme} */
export const LIGHT = {
  paper: '#ffffff', ink: '#14202b', quiet: '#44515d', grid: '#ccd4db', border: '#5b7081', unread: '#8794a0',
  red: '#b8101a', redPaper: '#fdf0f0', poll: '#174a80', held: '#8f4700', heldFill: '#f5a52f', free: '#0d6630', freeFill: '#bfe8c9',
  lit: '#0a51c4', litFill: '#ffe680',
  phases: ['#f1f4f7', '#cde1f6', '#fbd093', '#bfe8c9'],
  inputs: ['#ece7f7', '#c2b0e6', '#dcedf2', '#98cbdc', '#f3ecd0', '#e0cd85', '#f6e0ec', '#e0a9cd'],
  states: ['#e6ebf0', '#bacadb', '#dae8e4', '#a8cdc4', '#efe4d8', '#d9c0a4', '#e5e1f1', '#c3b8e0'],
  outputs: ['#f7f8fa', '#d3dce5', '#eaf3f0', '#c6dfd8', '#f8f2ea', '#e6d6c3', '#f2f0f8', '#d9d2eb'],
  timers: ['#b3550a', '#0e7182', '#8a2f8f', '#4c6b12'],
};

/** @type {Theme} */
export const DARK = {
  paper: '#10161d', ink: '#f2f5f8', quiet: '#bcc7d1', grid: '#37434f', border: '#8fa3b5', unread: '#7d8b98',
  red: '#ff7a80', redPaper: '#34171b', poll: '#a3cfff', held: '#ffc069', heldFill: '#a25c00', free: '#7fe0a0', freeFill: '#1a4f2f',
  lit: '#ffe066', litFill: '#5a4b00',
  phases: ['#1b232c', '#1d3b5c', '#5c3a08', '#1a4f2f'],
  inputs: ['#342d49', '#4f4080', '#233f48', '#2a5a6a', '#443c1d', '#5f501a', '#472c3d', '#6c3759'],
  states: ['#2b3641', '#3c4e60', '#25403a', '#2d594f', '#403324', '#5f482c', '#352f4f', '#4f4376'],
  outputs: ['#20282f', '#35434f', '#1d322d', '#294d45', '#33291f', '#503e29', '#2b2740', '#463d66'],
  timers: ['#ffae66', '#6fd3e4', '#e69bea', '#b7d86a'],
};

/** @type {Record<string, Theme>} */
export const THEMES = { light: LIGHT, dark: DARK };

/**
 * A colour for each number: the ones given, then the same with other hues.
 * @param {string[]} colours @param {number} number
 * @returns {string}
 */
export function inTurn(colours, number) {
  const colour = colours[number % colours.length] ?? colours[0];
  const round = Math.floor(number / colours.length);
  return round === 0 ? colour : turned(colour, 0.13 * round);
}

/**
 * The colour with another hue, as bright as before: its red, green and blue are turned around the grey axis.
 * @param {string} colour   #rrggbb
 * @param {number} by       1 is a whole turn
 */
function turned(colour, by) {
  const parts = [1, 3, 5].map((at) => parseInt(colour.slice(at, at + 2), 16));
  const grey = (parts[0] + parts[1] + parts[2]) / 3;
  const [cosine, sine] = [Math.cos(2 * Math.PI * by), Math.sin(2 * Math.PI * by) / Math.sqrt(3)];
  const mixed = parts.map((part, k) => grey + (part - grey) * cosine + (parts[(k + 2) % 3] - parts[(k + 1) % 3]) * sine);
  return `#${mixed.map((part) => Math.round(Math.min(255, Math.max(0, part))).toString(16).padStart(2, '0')).join('')}`;
}
