/**
 * The data that the modules of the kit exchange. There is no code here: only the shapes, and what each module exports.
 *
 * One rule for all modules: the kit never judges. Every answer, number and place is the proved library's.
 *
 * Numbers are plain numbers. A set is a number of 32 bits without sign: bit i stands for member i, `set >>> i & 1` asks for it.
 * A place is a byte offset, counted from 0.
 */

/**
 * The names of a table's members, in the order of their numbers. They live in the table's text alone; without one they are
 * q0, q1 .., i0, i1 .., o0, o1 .., t0, t1 ...  A number at or beyond the end of a list has no name.
 * @typedef {Object} Names
 * @property {string[]} states
 * @property {string[]} inputs
 * @property {string[]} outputs
 * @property {string[]} timers   empty in a table with holds
 */

/**
 * A timer of a table with timers.
 * @typedef {Object} Timer
 * @property {number} length
 * @property {number} region     set of states
 * @property {number[]} delays   for each state the set of inputs that the timer delays in it
 */

/**
 * What the bytes of a table say, in range or out of it. Only bytes whose six fields have their tags and lengths have a Table.
 * @typedef {Object} Table
 * @property {'holds'|'timers'} kind
 * @property {{states: number, inputs: number, outputs: number}} counts
 * @property {number} start      the initial state
 * @property {number} cycle      E, the cycle bound
 * @property {number[]} outputs  of each state
 * @property {number[][]} next   rows by state: next[q][i]
 * @property {number[]} holds    of each state; empty in a table with timers
 * @property {number[]} delayed  for each state the set of inputs that its hold delays; empty in a table with timers
 * @property {Timer[]} timers    empty in a table with holds
 * @property {Uint8Array} rest   the bytes after the last field, which no table that passes has
 * @property {Names} names
 */

/**
 * How records stand in bytes. `journal`: tags 10..1F, times of four bytes. `stamped`: the same tags, stamps of two bytes.
 * `short`: tags 30..3F, gaps of two bytes. `stimulus`: tags 20..2F, times of four bytes, and polls, tests and ticks without value.
 * @typedef {'journal'|'stamped'|'short'|'stimulus'} Form
 */

/**
 * @typedef {'input'|'change'|'poll'|'test'|'tick'|'end'|'bytes'} Kind
 * `input` is the opening field; `bytes` is whatever is no whole, known field of the form.
 */

/**
 * A field of a journal or a stimulus, as its bytes say it, in range or out of it.
 * @typedef {Object} Record
 * @property {number} place      where it starts
 * @property {number} length     how many bytes it has, tag and length included; 0 for a record that is missing
 * @property {Kind} kind
 * @property {number} time       the time in units, reckoned from stamps or gaps where the form has them; 0 for `input`;
 *                               for `bytes` that of the record before
 * @property {number|null} written   the number that stands in the bytes for the time: time, stamp or gap; null for `input`, `bytes`
 * @property {number|null} value input, verdict (0 held, 1 free) or state; null where the record has none
 * @property {Form} form
 */

/**
 * The machine, as accepted records show it.
 * @typedef {Object} Machine
 * @property {0|1|2|3} phase     0 before the poll, 1 before the test, 2 held, 3 free
 * @property {number} present    the input at the sensor
 * @property {number} polled     the polled input
 * @property {number} polledAt   when it was polled; 0 before the first poll
 * @property {number} state
 * @property {number} change     when another input last came
 * @property {number} entry      when the state was entered
 * @property {number} cycleStart
 * @property {number[]} regionEntries   for each timer: when its region was last entered from outside; empty in a table with holds
 */

/**
 * A record and what it did. The opening is step 0.
 * @typedef {Object} Step
 * @property {Record} record
 * @property {number} number
 * @property {Machine|null} before   null for the opening, and behind the refused record
 * @property {Machine|null} after    null for the refused record, and behind it
 */

/**
 * A refusal, as the library gives it.
 * @typedef {Object} Refusal
 * @property {number} number
 * @property {number} place
 */

/**
 * The numbers of an accepted journal, as the library gives them, under the names of the program's line.
 * @typedef {Object} Acceptance
 * @property {number} end
 * @property {number} cycles
 * @property {number} moves
 * @property {number} state
 * @property {number} output
 * @property {number} left
 * @property {number} longest
 */

/**
 * A journal under a table that passes: the library's answer, and every record with the machine before and after it.
 *
 * Exactly one of `answer` and `refused` is there. If it was refused, exactly one step is the refused one: `steps[stop]`, the first
 * whose `after` is null. Where the refusal is that no further record is there (20 at the journal's length), that step has a record of
 * kind `bytes` and length 0. Where the journal is too long (19), it is step 0.
 *
 * A stamped journal is read first, then its long form is checked. If the check refuses it, `refused.place` is the library's place in
 * the long form, and `at` the place of the same record in the stamped journal. In every other case `at` is `refused.place`.
 *
 * Of a journal that was read record by record and refused there are only the steps that sentences need.
 * @typedef {Object} Trace
 * @property {Table} table
 * @property {Names} names
 * @property {Uint8Array} tableBytes
 * @property {Uint8Array} journal     the bytes given; of a journal that was read record by record the field that is refused
 * @property {number} [from]          where that field stands, if it was; more may follow it
 * @property {Form} form             `stimulus` only from traceStimulus
 * @property {Uint8Array|null} long   of a stamped journal that could be read, its long form; else null
 * @property {Step[]} steps
 * @property {Acceptance|null} answer
 * @property {Refusal|null} refused
 * @property {number|null} at         where in `journal` the refused record starts
 * @property {number|null} stop       index of the refused step in `steps`
 * @property {{all: Set<number>, open: Set<number>}} [asked]   in an exercise, which nobody has judged: the records whose values are asked, and
 *                                    those of them that are not answered
 */

/**
 * Something that can hold a test in a state: the state's hold, or a timer whose region has the state.
 * @typedef {Object} Clock
 * @property {number|null} timer  the timer's number; null for a hold
 * @property {number} length      a test at `from + length` is still held, the next later one is free
 * @property {number} from        since when it runs: the entry into the state, or into the region
 * @property {number} delays      set of inputs that it delays in the state
 */

/**
 * trace.js exports
 *   traceJournal(library: Library, given: {table: Uint8Array, journal: Uint8Array, form?: Form, names?: Names}): Trace | null
 *       null if the table is refused: ask library.checkTable. Without `form` it is the one that the first bytes show.
 *   traceStimulus(library: Library, given: {table: Uint8Array, stimulus: Uint8Array, names?: Names}): Trace | null
 *       only of a stimulus that the runtime refuses; of any other trace the journal that library.run gives.
 *       Its records before the refusal have the values that the runtime found.
 *   askJournal(library: Library, table: Uint8Array, journal: Uint8Array, form: Form): the library's answer alone
 *   accepted(trace: Trace): Step[]                  the steps that were accepted
 *   bytesFrom(trace: Trace, record: Record): Uint8Array   the bytes that there are from a record on
 *   machineAfter(table: Table, machine: Machine|null, record: Record): Machine   after a record that was accepted
 * watching.js exports
 *   class Watching: a journal of any length; take(piece) and finish() give the trace of the refusal, or null
 *
 * live.js exports
 *   class Live: a run made event by event; take(kind, time, value) and claim(..) give what is refused with all before it, or null
 *   clocks(table: Table, machine: Machine): Clock[] what can hold a test in the machine's state
 *   holding(table: Table, machine: Machine, time: number): Clock[]   those that hold a test of the polled input at that time
 *   freeFrom(table: Table, machine: Machine, time: number): number   the first time from then on at which none of them holds
 *   left(trace: Trace, step: Step): number          ticks left at a test; 0 if it is free
 *   visits(trace: Trace): Visit[]                   the states in the order in which they were entered
 *   regionVisits(trace: Trace, timer: number): Span[]    when a timer's region was entered and left
 *   inputs(trace: Trace): Visit[]                   the inputs at the sensor, likewise (`state` is the input's number)
 *   isUnseen(machine: Machine): boolean             has no poll come since the input at the sensor came?
 *   unseenInputs(trace: Trace): Visit[]             the inputs that came and went, and that no poll took
 *   ownValue(trace: Trace, step: Step): number|null what the machine has where a record was refused with 28; else null
 *
 * @typedef {{from: number, to: number|null}} Span          `to` is null where the journal does not show the end
 * @typedef {{state: number, from: number, to: number|null}} Visit
 */

/**
 * explain.js exports
 *   explainRefusal(refusal: Refusal, given: {tableBytes: Uint8Array, names?: Names, trace?: Trace}): Explanation
 *       of any entry that takes a table: of the table itself, or of the journal or stimulus whose trace is given
 *   explainTable(bytes: Uint8Array, refusal: Refusal, names?: Names): Explanation
 *   explainJournal(trace: Trace): Explanation       a trace that was refused, of a journal or of a stimulus
 *   explainReaction(table: Table, refusal: Refusal, question: {states: number, inputs: number, moves?: number}): Explanation
 *   explainRoom(refusal: Refusal, given?: {bytes?: number, numbers?: number}): Explanation     30, 33, 34, 35
 *   explainMemory(table: Table, refusal: Refusal, memory: Uint32Array): Explanation           36
 *   isTableRefusal(number: number): boolean
 *   narrate(trace: Trace, step: Step): string       one sentence for an accepted record: why it is so
 *   MEANINGS: Map<number, string>                   every number in a few words
 *
 * @typedef {Object} Explanation
 * @property {string[]} sentences        what is wrong, with the names and numbers of the case
 * @property {string|null} slip          the usual slip, where an error of students explains the whole journal, or all that do
 * @property {SlipName|null} slipName    the only one that does
 * @property {SlipName[]} [either]       where several do, all of them
 * @property {number|null} wanted        for a 28 the value that the machine has
 * @property {{place: number, length: number}} blame   the bytes to point at, in what was refused
 * @typedef {'hold-restarted'|'old-entry'|'hold-reached'|'wrong-instant'|'move-at-test'|'on-delay'|'hold-ignored'} SlipName
 *
 * answers.js exports, for what is no refusal
 *   acceptanceLine(answer: Acceptance): string      the line of `checkjournal`;  refusalLine(refusal: Refusal): string
 *   sayAcceptance(table: Table, answer: Acceptance): string[]
 *   sayLeft(trace: Trace): string[]                 what holds at the end of what was accepted, and for how long
 *   sayReaction(table, question, answer), sayPath(table, path), saySalvage(answer, explanation), sayConverted(changed),
 *   sayDwell(table, report): string[]
 */

/**
 * A mistake in a text. Lines and columns count from 1; `width` characters are meant.
 * @typedef {Object} Mistake
 * @property {number} line
 * @property {number} column
 * @property {number} width
 * @property {string} says
 */

/**
 * Which piece of the text gave which bytes.
 * @typedef {Object} Origin
 * @property {number} place
 * @property {number} length
 * @property {number} line
 * @property {number} column
 * @property {number} width
 */

/**
 * A part of a text: a table, a stimulus, or a journal of one of three forms.
 * @typedef {Object} Part
 * @property {'table'|Form} kind
 * @property {number} line           where its first line stands
 * @property {Uint8Array} bytes
 * @property {Origin[]} origins      smaller pieces after larger ones that contain them
 */

/**
 * A value that is asked in an exercise.
 * @typedef {Object} Blank
 * @property {number} record         the number of its record
 * @property {Kind} kind             of that: poll, test or tick
 * @property {number} place          of its byte in the journal
 * @property {number|null} answer    what somebody has answered; null if nothing
 * @property {Origin} origin         the piece of the text that it stands in
 */

/**
 * An exercise in a text: a journal with blanks. The bytes have the answers, or 0 where there is none: they are nobody's journal.
 * @typedef {Object} ExercisePart
 * @property {'exercise'} kind
 * @property {number} line           where its first line stands
 * @property {'each'|'end'} told     when it is told what is right: at each answer, or at the end
 * @property {Uint8Array} bytes
 * @property {Origin[]} origins
 * @property {Blank[]} blanks
 * @property {Question[]} questions
 */

/**
 * A reaction time that is asked in an exercise. A set that is null has all members; without moves it is over one of the library's steps.
 * @typedef {Object} Question
 * @property {number|null} states
 * @property {number|null} inputs
 * @property {number|null} moves
 * @property {number|null} answer
 * @property {Origin} origin
 *
 * What is needed to write an exercise.
 * @typedef {{told: ExercisePart['told'], bytes: Uint8Array, blanks: Pick<Blank, 'record'|'answer'>[], questions?: Omit<Question, 'origin'>[]}} WrittenExercise
 */

/**
 * notation.js exports
 *   isText(data: Uint8Array|string): boolean        does it begin with the word `krossvil`?
 *   readText(source: Uint8Array|string, names?: Names|null): Text
 *   tableText(bytes: Uint8Array, names?: Names|null): string
 *   recordsText(bytes: Uint8Array, form: Form, names?: Names|null, notes?: Map<number, string>): string
 *       `notes`: a comment for the record at a place
 *   recordLine(record: Record, names: Names, width?: number): string     one record as a line
 *   exerciseText(exercise: {told, bytes, blanks}, names?: Names|null): string     with what was answered so far
 *   originAt(part: Part, place: number): Origin|null     the smallest piece of text that gave the byte at the place
 *   showMistakes(text: Text, file?: string): string      file:line:column, the line, a caret
 *   FORM_WORDS: the forms in a text's words, as `short journal`
 *
 * @typedef {Object} Text
 * @property {Part[]} parts              those that could be read
 * @property {ExercisePart|null} exercise  it is no part: nobody is to take it for a journal
 * @property {Names|null} names          those of the table in the text, or those that were given
 * @property {Mistake[]} mistakes        none if the text is sound
 * @property {string[]} lines
 */

/**
 * fields.js exports (bytes to values and back)
 *   decodeTable(bytes: Uint8Array, names?: Names|null): Table|null
 *   encodeTable(table: Table): Uint8Array
 *   decodeRecords(bytes: Uint8Array, form: Form): Record[]
 *   recordBytes(form: Form, kind: Kind, written: number, value: number): number[]
 *   formOf(bytes: Uint8Array): 'table'|Form              what the first bytes show; it is a guess for broken ones
 *   isTag(byte: number): boolean                         does a field of ours begin with it?
 *   FORMS: tags, widths and limits of the forms
 * looks-like.js exports
 *   looksLike(bytes: Uint8Array): string|null            what bytes of another kind look like, as `a PNG picture`
 * rerun.js exports
 *   rerun(library: Library, given: {table: Uint8Array, journal: Uint8Array, form: Form}): the run of a journal's own stimulus, and every
 *       record that differs from it: {ok: true, bytes, differences: {number, record, own}[]}, or the refusal of the stimulus, or null
 *   stimulusOf(journal: Uint8Array, form: Form): Uint8Array|null     null if something in the journal is no record
 * both-runs.js exports
 *   bothRuns(trace: Trace, own: the run as rerun gives it, options?: {width, theme, title}): string     an SVG file
 * times.js exports
 *   timesOf(library: Library, table: Uint8Array, question): time, tight time, target and the longest way, or the refusal
 * sheet.js exports
 *   sheetOf(library: Library, {table, stimulus, names?, title?, kinds?}): {ok: true, sheet} | Refused
 *   sheet/sections.js: sheetSections(sheet), in HTML, for command and page;  sheet/html.js: sheetHtml(sheet, paper?), as a file
 * slow.js exports
 *   class SlowRun: a search, go(milliseconds) and found()
 *   saySlow(names: Names, search: SlowRun, slow): string[]
 * exercise.js exports
 *   makeExercise(library, {table, stimulus}, {kinds?, told?}): {ok: true, asked: Asked} | Refused     what is asked, without answers
 *   openExercise(library, {table, names?}, asked: Asked): {ok: true, exercise: Exercise} | {ok: false, sentences, place, refusal}
 *   grade(library, exercise: Exercise): Grade;  sayCount(grade), sayMachines(grade): what is said of the answers
 *   exercise/about.js: exerciseAbout(library, tableBytes, topic, {seed, cycles?, kinds?, told?}), whyNot(table, topic), topicOf(name)
 *   exercise/shown.js: exerciseTrace(table, tableBytes, asked): Trace     for the diagram: nothing is judged
 *   exercise/topics.js: TOPICS;  exercise/wrong-rules.js: WRONG_RULES, answersOf
 * names.js: plainNames, fittingNames, quoted, listed, counted, numbered, thousands; sets.js: has, members, setOf, wholeSet
 * examples.js: EXAMPLES, exampleFile
 */

/**
 * library.js exports
 *   loadLibrary(wasm: BufferSource): Promise<Library>
 *   BYTES_READ: bytes behind these change no answer
 *   newMemory(): Uint32Array                             the memory of a live run that has not begun: 17 numbers, which live and watch change
 *   newReport(): BigUint64Array                          a report of no journals
 *   readReport(report: BigUint64Array, states: number, inputs: number): {journals, dwell: number[], pairs: number[][], entries: number[]}
 *
 * Every function answers {ok: true, ..} or {ok: false, number, place}.
 * @typedef {{ok: false, number: number, place: number}} Refused
 * @typedef {Object} Library
 * @property {Uint8Array} reading        for who reads files: what is read into it is handed over without a copy, and no call changes it
 * @property {(table: Uint8Array) => {ok: true} | Refused} checkTable
 * @property {(table: Uint8Array, journal: Uint8Array) => ({ok: true} & Acceptance) | Refused} checkJournal
 * @property {(table: Uint8Array, shortJournal: Uint8Array) => ({ok: true} & Acceptance) | Refused} checkShort
 * @property {(table: Uint8Array, stimulus: Uint8Array) => {ok: true, bytes: Uint8Array} | Refused} run
 * @property {(table: Uint8Array, states: number, inputs: number) => {ok: true, time: number, target: number} | Refused} reaction
 * @property {(table: Uint8Array, states: number, inputs: number, moves: number) =>
 *            {ok: true, time: number, target: number, sums: number[][], path: number[]} | Refused} reactionMoves
 *            sums[r][q]; the path is state, input, state, input .. state
 * @property {(table: Uint8Array, states: number, inputs: number) =>
 *            {ok: true, time: number, target: number, tight: number} | Refused} reactionTight
 * @property {(table: Uint8Array, states: number, inputs: number, moves: number) =>
 *            {ok: true, time: number, target: number, tight: number} | Refused} reactionTightMoves
 * @property {(table: Uint8Array) => {ok: true, changed: number, bytes: Uint8Array} | Refused} convertTable
 * @property {(stamped: Uint8Array) => {ok: true, bytes: Uint8Array} | Refused} readStamped
 * @property {(table: Uint8Array, journal: Uint8Array) => {ok: true, bytes: Uint8Array} | Refused} shorten
 * @property {(table: Uint8Array, shortJournal: Uint8Array) => {ok: true, bytes: Uint8Array} | Refused} lengthen
 * @property {(table: Uint8Array, journal: Uint8Array) =>
 *            {ok: true, kept: number, dropped: number, number: number, place: number, bytes: Uint8Array} | Refused} salvage
 * @property {(table: Uint8Array, journal: Uint8Array, report: BigUint64Array) => {ok: true} | Refused} reportAdd
 * @property {(table: Uint8Array, memory: Uint32Array, event: Uint8Array) => {ok: true, state: number, output: number, phase: number,
 *            left: number, deadline: number, bytes: Uint8Array} | Refused} live      the bytes are those of the record
 * @property {(table: Uint8Array, memory: Uint32Array, record: Uint8Array) => ({ok: true} & Acceptance) | Refused} watch
 *            the numbers are those of the journal, as if it ended with this record
 */

export {};
