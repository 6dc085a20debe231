/**
 * The text of a stimulus with one record at another time, or with a change put in or taken out. Every other line stays as it is, and comments
 * stay at their lines. Nothing is judged: whether it runs is the library's to say.
 */

/** @typedef {{line: number, time: number}} Place   of a record: its line, counted from 1, and its time */
/** @typedef {{text: string, number: number}} Touched   and which record it is now */

const TIME = /^(\s*)([0-9]+)/;

/** @param {string} text */
const linesOf = (text) => text.split(/\r\n|\n|\r/);

/**
 * A line whose time is another. The column of times stays straight where it can.
 * @param {string} line @param {number} time
 */
function timed(line, time) {
  return line.replace(TIME, (_, blanks, old) => {
    const wide = (blanks + old).length;
    return String(time).padStart(wide);
  });
}

/**
 * Where it comes to stand: behind all that are earlier now, and in its old order among those of the same time.
 * @param {Place[]} places @param {number} number @param {number} time
 */
function numberAt(places, number, time) {
  let at = number;
  if (time > places[number].time) while (at + 1 < places.length && places[at + 1].time < time) at += 1;
  else while (at > 1 && places[at - 1].time > time) at -= 1;
  return at;
}

/**
 * @param {string} text @param {Place[]} places  of all records, the opening first @param {number} number @param {number} time
 * @returns {Touched|null}  null where the line has no time to be changed
 */
export function movedTo(text, places, number, time) {
  const lines = linesOf(text);
  const from = places[number].line - 1;
  if (number === 0 || from < 0 || !TIME.test(lines[from])) return null;
  const to = numberAt(places, number, time);
  const [line] = lines.splice(from, 1);
  const beside = places[to].line - 1;
  lines.splice(to === number ? from : beside, 0, timed(line, time));
  return { text: lines.join('\n'), number: to };
}

/**
 * A line behind a record, at the same time.
 * @param {string} text @param {Place[]} places @param {number} number @param {string} words  as: change train
 * @returns {Touched}
 */
export function putIn(text, places, number, words) {
  const lines = linesOf(text);
  const at = places[number].line;
  const [, blanks = '', time = ''] = TIME.exec(lines[at - 1]) ?? [];
  lines.splice(at, 0, `${String(places[number].time).padStart((blanks + time).length)}  ${words}`);
  return { text: lines.join('\n'), number: number + 1 };
}

/**
 * @param {string} text @param {Place[]} places @param {number} number
 * @returns {Touched}
 */
export function takenOut(text, places, number) {
  const lines = linesOf(text);
  lines.splice(places[number].line - 1, 1);
  return { text: lines.join('\n'), number: number - 1 };
}
