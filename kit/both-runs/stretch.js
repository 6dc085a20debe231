/** Which stretch of time is drawn of two runs: all of it, or as much around their first difference as can be read. */

/** @typedef {import('../types.js').Record} JournalRecord */

/** A record needs so many pixels. */
const RECORD_ROOM = 18;
/** Of the records that are drawn this part stands before the first difference. */
const BEFORE = 0.6;
/** So much more is drawn behind the last record, so that what a tick says there is seen. */
const TAIL = 0.05;

/**
 * @param {JournalRecord[]} records @param {number|null} first  the number of the first that differs @param {number} width
 */
export function fieldTimes(records, first, width) {
  const count = Math.max(8, Math.floor(width / RECORD_ROOM));
  const last = records.length - 1;
  const from = Math.max(0, Math.min((first ?? 0) - Math.floor(BEFORE * count), last - count));
  const timeAt = (/** @type {number} */ number) => records[Math.min(number, last)]?.time ?? 0;
  const length = timeAt(from + count) - timeAt(from);
  return { from: timeAt(from), to: timeAt(from) + length + Math.max(1, Math.round(TAIL * length)) };
}
