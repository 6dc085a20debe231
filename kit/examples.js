/** Ready examples: texts in samples/, for the page and the command. */

/**
 * @typedef {Object} Example
 * @property {string} name       and the file samples/NAME.kv
 * @property {string} title
 * @property {string} says       what it shows, in a sentence
 * @property {'runs'|'errors of students'|'forms'|'tables'} group
 * @property {{inputs?: number, moves?: number}} [asks]   the reaction time that it is about: a set of inputs, the first one if it is not
 *                               said, and over how many moves, 1 if it is not said
 */

/** @type {Example[]} */
export const EXAMPLES = [
  { name: 'classroom', title: 'The classroom run', group: 'runs',
    says: 'A train comes and goes; busy holds until five units are passed. The journal is accepted.' },
  { name: 'never-seen', title: 'A train that is never seen', group: 'runs',
    says: 'A train comes and goes between two polls. What stands at no poll is never seen.' },
  { name: 'changed-verdict', title: 'The changed verdict', group: 'runs',
    says: 'The same run, in which one test says free where it is held.' },
  { name: 'quarry', title: "The quarry's fault", group: 'runs',
    says: 'The second train is let go at once: the entry of the first visit was let stand.' },
  { name: 'watchdog', title: 'A watchdog', group: 'runs',
    says: 'An alarm if a signal is absent for more than nine seconds; it was absent twice.' },
  { name: 'gas-burner', title: 'A gas burner, with timers', group: 'runs',
    says: 'Two timers, each over two states, run on through moves inside their regions.' },
  { name: 'slip-hold-restarted', title: 'The hold is started again', group: 'errors of students',
    says: 'A tick led back to the same state, and the hold was started anew. Only a move does that.' },
  { name: 'slip-old-entry', title: 'An old entry is let stand', group: 'errors of students',
    says: 'A state was visited again, and the hold still counted from its first entry.' },
  { name: 'slip-hold-reached', title: 'The hold ends when it is reached', group: 'errors of students',
    says: 'The test at entry + 5 says free. A hold of 5 ends when 5 is passed.' },
  { name: 'slip-wrong-instant', title: 'The hold is measured at the poll', group: 'errors of students',
    says: 'At the poll it is not passed yet, at the test it is. The test counts.' },
  { name: 'slip-move-at-test', title: 'The state changes at the test', group: 'errors of students',
    says: 'The hold was counted from the test. The new state is there from the tick on.' },
  { name: 'slip-on-delay', title: "The hold runs from the input's change", group: 'errors of students',
    says: 'It was counted from when the train had gone, as an on-delay timer counts. It runs from the entry.' },
  { name: 'slip-hold-ignored', title: 'The hold is ignored', group: 'errors of students',
    says: 'The first test after the train says free. While a hold runs, a delayed input has to wait.' },
  { name: 'short-journal', title: 'A short journal', group: 'forms',
    says: 'The classroom run with gaps in the place of times.' },
  { name: 'stamped-journal', title: 'A stamped journal', group: 'forms',
    says: 'A controller whose clock wraps from 65,535 to 0, twice in this run.' },
  { name: 'torn-journal', title: 'A torn journal', group: 'forms',
    says: 'The supply was lost in the middle of a record. What is sound can be salvaged.' },
  { name: 'stutter-filter', title: 'The stutter filter', group: 'tables', asks: { inputs: 0b10 },
    says: 'A table to ask for reaction times: how long until "no train" is reported for sure?' },
  { name: 'mixer', title: 'Back to idle', group: 'tables', asks: { moves: 3 },
    says: 'A mixer is stopped. How long until it is idle again? The longest way back has three moves.' },
  { name: 'old-table', title: 'An old table', group: 'tables',
    says: 'It delays an input in a state without a hold, and is refused; it can be converted.' },
];

/**
 * @param {string} name
 */
export function exampleFile(name) {
  return `${name}.kv`;
}
