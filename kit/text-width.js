/**
 * How wide a text is when it is drawn, without asking a browser: the advances of DejaVu Sans, in hundredths of the font's size.
 * Verdana is as wide, to a hundredth or two; the faces that a phone has instead are narrower.
 */
import { visible } from './escape.js';

const FIRST = 32;
const REGULAR = [
  32, 40, 46, 84, 64, 95, 78, 27, 39, 39, 50, 84, 32, 36, 32, 34, 64, 64, 64, 64, 64, 64, 64, 64, 64, 64, 34, 34, 84, 84, 84, 53,
  100, 68, 69, 70, 77, 63, 58, 77, 75, 29, 29, 66, 56, 86, 75, 79, 60, 79, 69, 63, 61, 73, 68, 99, 69, 61, 69, 39, 34, 39, 84, 50,
  50, 61, 63, 55, 63, 62, 35, 63, 63, 28, 28, 58, 28, 97, 63, 61, 63, 63, 41, 52, 39, 63, 59, 82, 59, 59, 52, 64, 34, 64, 84];
const BOLD = [
  35, 46, 52, 84, 70, 100, 87, 31, 46, 46, 52, 84, 38, 42, 38, 37, 70, 70, 70, 70, 70, 70, 70, 70, 70, 70, 40, 40, 84, 84, 84, 58,
  100, 77, 76, 73, 83, 68, 68, 82, 84, 37, 37, 77, 64, 100, 84, 85, 73, 85, 77, 72, 68, 81, 77, 110, 77, 72, 73, 46, 37, 46, 84, 50,
  50, 67, 72, 59, 72, 68, 44, 72, 71, 34, 34, 67, 34, 104, 71, 69, 72, 72, 49, 60, 48, 71, 65, 92, 65, 65, 58, 71, 37, 71, 84];

/** Beyond ASCII: letters of Europe are near 65, what comes after them (arrows, Chinese, pictures) is taken as a full square. */
const EUROPEAN = 72;
const SQUARE = 105;

/**
 * @param {string} text
 * @param {number} size     in pixels
 * @param {boolean} [bold]
 * @returns {number}        in pixels
 */
export function widthOf(text, size, bold = false) {
  const advances = bold ? BOLD : REGULAR;
  let hundredths = 0;
  for (const character of visible(text)) {
    const code = character.codePointAt(0) ?? 0;
    hundredths += advances[code - FIRST] ?? (code < 0x500 ? EUROPEAN : SQUARE);
  }
  return hundredths * size / 100;
}

/**
 * The text, or its beginning and an ellipsis, or nothing: whatever the room takes.
 * @param {string} text @param {number} room @param {number} size @param {boolean} [bold]
 * @returns {string}
 */
export function fit(text, room, size, bold = false) {
  if (room < size / 2) return '';
  if (widthOf(text, size, bold) <= room) return text;
  const characters = [...visible(text)];
  let keep = 0;
  let width = widthOf('…', size, bold);
  while (keep < characters.length && width + widthOf(characters[keep], size, bold) <= room) {
    width += widthOf(characters[keep], size, bold);
    keep += 1;
  }
  return keep >= 2 ? characters.slice(0, keep).join('') + '…' : '';
}

/**
 * The first of the texts that the room takes; the last one cut to it if none is short enough.
 * @param {string[]} texts   the best first
 * @param {number} room @param {number} size @param {boolean} [bold]
 * @returns {string}
 */
export function firstThatFits(texts, room, size, bold = false) {
  return texts.find((text) => widthOf(text, size, bold) <= room) ?? fit(texts[texts.length - 1] ?? '', room, size, bold);
}

/**
 * The text in lines. A word that is wider than a line is broken.
 * @param {string} text @param {number} room @param {number} size @param {boolean} [bold]
 * @returns {string[]}
 */
export function wrap(text, room, size, bold = false) {
  const lines = [''];
  for (const word of text.split(' ').flatMap((long) => pieces(long, room, size, bold))) {
    const line = lines[lines.length - 1];
    const longer = line === '' ? word : line + ' ' + word;
    if (widthOf(longer, size, bold) <= room) lines[lines.length - 1] = longer;
    else lines.push(word);
  }
  return lines.filter((line) => line !== '');
}

/**
 * A word, broken where it is wider than a line.
 * @param {string} word @param {number} room @param {number} size @param {boolean} bold
 * @returns {string[]}
 */
function pieces(word, room, size, bold) {
  const parts = [''];
  for (const character of visible(word)) {
    const last = parts[parts.length - 1];
    if (last === '' || widthOf(last + character, size, bold) <= room) parts[parts.length - 1] = last + character;
    else parts.push(character);
  }
  return parts;
}
