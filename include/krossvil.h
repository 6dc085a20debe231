/*
 * krossvil: a table check, a journal check, a runtime, both of these one record at a time, a reaction calculator for one move and for
 * several, a converter of old tables, a reader of stamped journals, for short journals a check and the ways to and from journals, salvage
 * of torn journals, and a report of where the time of many journals went; for polling controllers, and a host program in C.
 * docs/RULES.md has all the rules in words.
 *
 * Link with libkrossvil.a, which there is for several processors: docs/C.md names them. The functions keep no state, allocate nothing, call
 * only memcpy and memset (for armv7-linux a division too), and never stop the program: each ends with an answer on any bytes. So they may
 * be called from several threads at once, as long as no thread writes to a slice that another call was given. How much stack they need is
 * below; that is measured, not proved.
 *
 * Slices. A slice is a pointer and the number of bytes at it, which has 64 bits on every processor. The pointer is never null, not even if
 * the number is 0, and a slice that a function writes to (without const) shares no byte with another slice of the same call. Three slices
 * have numbers in the place of bytes: the sums of krossvil_reaction_moves, the report of krossvil_report_add, and the memory of
 * krossvil_live and krossvil_watch. These are in the processor's own byte order; nothing else depends on it.
 *
 * The number that comes back. 0 is success. Otherwise it is refusal number * 2^32 + place: krossvil_number and krossvil_place
 * below take it apart, and krossvil_refusal names the numbers. On a refusal no byte of any slice has changed.
 *
 * The answer. On success the answer's numbers stand at the start of `answer`, four bytes each, most significant byte first
 * (krossvil_answer reads one), and its other bytes are unchanged. If `answer` is too short for them the refusal is 30 at 0; that is
 * checked last of all, so any other refusal comes before it.
 *
 * Bytes. Each field is a tag byte, a two-byte length, then the value; all numbers are unsigned, most significant byte first.
 * Q, I and O are the counts of states, inputs and outputs; tags are in hexadecimal.
 *
 *   Table, exactly these fields in this order:
 *     01  4      Q, I, O (each 1..32), initial state (below Q)
 *     02  4      cycle bound E, 1..60,000
 *     03  Q      output of each state, below O
 *     04  Q*I    next state, rows by state, each below Q
 *   then, in a table with holds,
 *     05  4*Q    hold of each state, 0..3,600,000
 *     06  4*Q    delayed inputs of each state: input i is 2^i; none where the hold is 0
 *   or, in a table with N timers, N from 1 to 4,
 *     07  8*N    length of each timer, 1..3,600,000, and its region, a set of states: state q is 2^q
 *     08  4*Q*N  inputs that each timer delays, rows by state: entry q*N + k is for state q and timer k
 *
 *   A hold starts when its state is entered. A timer starts when its region is entered from outside, or at 0 if the region has the
 *   initial state; it runs on through moves inside the region, and delays no input outside it.
 *
 *   A machine works in cycles, from 0 or a tick to the next tick, and its phase says how far it is: 0 before the poll, 1 before the test,
 *   2 after a test that was held, 3 after one that was free. A poll comes in phase 0, a test in 1, a tick in 2 or 3, which makes it 0;
 *   a change and the end come in any.
 *
 *   Journal, at most 65,536 bytes: field 10 first, field 1F last, the others between in any number. A time is four bytes,
 *   0..2,000,000,000, and stands first in its value.
 *     10  1    input at time 0
 *     11  5    change: time, new input
 *     12  5    poll: time, input polled
 *     13  5    test: time, verdict (0 held, 1 free)
 *     14  5    tick: time, state afterwards
 *     1F  4    end: time T
 *
 *   Stimulus, at most 57,344 bytes: the same with tags 20 to 24 and 2F; fields 22, 23 and 24 have length 4, the time only.
 *
 *   Stamped journal, at most 49,152 bytes: the journal of a controller whose clock is a counter of 16 bits, which wraps from
 *   65,535 to 0. In the place of each time stand two bytes, the counter at that time: the stamp.
 *     10  1    input at time 0
 *     11  3    change: stamp, new input
 *     12  3    poll: stamp, input polled
 *     13  3    test: stamp, verdict
 *     14  3    tick: stamp, state afterwards
 *     1F  2    end: stamp
 *
 *   Short journal, at most 65,536 bytes: a journal with tags of its own, in which two bytes stand in the place of each time, the gap.
 *   A gap is the time since the record before; that of the first record is its time.
 *     30  1    input at time 0
 *     31  3    change: gap, new input
 *     32  3    poll: gap, input polled
 *     33  3    test: gap, verdict
 *     34  3    tick: gap, state afterwards
 *     3F  2    end: gap
 *   With n records between opening and end a short journal has 9 + 6*n bytes, and the journal that it stands for 11 + 8*n. So one of
 *   more than 49,152 bytes, with 8,191 records or more, stands for a journal that would be too long.
 */
#ifndef KROSSVIL_H
#define KROSSVIL_H

#include <stddef.h>
#include <stdint.h>

#ifdef __cplusplus
extern "C" {
#endif

#define KROSSVIL_VERSION "1.0.0"
#define KROSSVIL_VERSION_NUMBER 1000000 /* the same, to be compared: 1,000,000 * major + 1,000 * minor + patch */

/* ---- Refusals ---- */

/* Each says what is wrong and, behind the bar, at which place. A place is a byte offset, counted from 0, in the bytes that were turned
 * down, save for 9, 10, 14, 32, 33 and 36. */
enum krossvil_refusal {
    KROSSVIL_TABLE_RUNS_OUT = 1,          /* table runs out before field 06, or 08, is complete | start of the field */
    KROSSVIL_TABLE_WRONG_FIELD = 2,       /* table field has the wrong tag or length | start of the field */
    KROSSVIL_COUNT_OUT_OF_RANGE = 3,      /* a count or the initial state is out of range | start of the field */
    KROSSVIL_BOUND_OUT_OF_RANGE = 4,      /* E out of range | start of the field */
    KROSSVIL_ENTRY_OUT_OF_RANGE = 5,      /* output or next state out of range | first such entry */
    KROSSVIL_HOLD_TOO_LONG = 6,           /* hold too long | first such entry */
    KROSSVIL_UNKNOWN_INPUT_DELAYED = 7,   /* delayed set names an input at or above I | first such entry */
    KROSSVIL_BYTES_AFTER_TABLE = 8,       /* bytes after field 06, or 08 | first of them */
    KROSSVIL_UNKNOWN_MEMBER = 9,          /* calculator: a set names a member that does not exist | 0 states, 1 inputs */
    KROSSVIL_LEAVES_STATES = 10,          /* calculator: some next(p, a) is outside the states | smallest p*I + a */
    KROSSVIL_IDLE_SET = 11,               /* delayed set not empty on a state whose hold is 0 | first such entry */
    KROSSVIL_TIMER_UNKNOWN_MEMBER = 12,   /* region names a state at or above Q, or a timer's set an input at or above I | first such entry */
    KROSSVIL_TIMER_OUT_OF_RANGE = 13,     /* timer's length is 0 or too long | first such entry */
    KROSSVIL_HAS_TIMERS = 14,             /* calculator: the table has timers | 0 */
    KROSSVIL_TOO_LONG = 19,               /* journal of any kind, or stimulus, too long | 0 */
    KROSSVIL_RUNS_OUT = 20,               /* bytes run out before the end field is complete | start of the field */
    KROSSVIL_WRONG_FIELD = 21,            /* unknown tag, or wrong length for the tag | start of the field */
    KROSSVIL_MISPLACED = 22,              /* first field is not the opening one, a second opening, or bytes after the end field | their start */
    KROSSVIL_OUT_OF_RANGE = 23,           /* time, input, verdict or state out of range | start of the field */
    KROSSVIL_TIME_GOES_BACK = 24,         /* time earlier than the record before; never in a short journal | start of the field */
    KROSSVIL_PAST_BOUND = 25,             /* later than cycle start + E | start of the field */
    KROSSVIL_WRONG_PHASE = 26,            /* record not allowed in this phase | start of the field */
    KROSSVIL_POLL_TOO_SOON = 27,          /* poll not later than last change, or than cycle start | start of the field */
    KROSSVIL_DIFFERS = 28,                /* polled input, verdict or state differs from the machine's | start of the field */
    KROSSVIL_TOO_SHORT = 30,              /* what is lent is too short: buffer for what is written, answer, report or memory | 0 */
    KROSSVIL_TOO_MANY_MOVES = 32,         /* several moves: more than 32 | 0 */
    KROSSVIL_SUMS_OR_PATH_TOO_SHORT = 33, /* several moves: fewer than krossvil_sums_len or krossvil_path_len asks for | 0 */
    KROSSVIL_WOULD_BE_TOO_LONG = 34,      /* lengthening: the journal would pass 65,536 bytes | 0 */
    KROSSVIL_REPORT_FULL = 35,            /* the report has 1,000 journals already | 0 */
    KROSSVIL_MEMORY_OUT_OF_RANGE = 36,    /* live: memory that is none of a live run under this table | index of the first such number */
};

/* The table's refusals, 1 to 8 and 11 to 13, come before all others: field by field; in field 06 entry by entry, each for 7 and
 * then for 11; in field 07 timer by timer, each for 13 at its length and then for 12 at its region; 8 is the last of them. Then,
 * of a journal, a stimulus or a short journal, 19, and field by field 20 to 28; of a stamped journal, which has no table, 19, and
 * field by field 20 to 22; of the calculators, 14, 9 for the states, 9 for the inputs, 10; of several moves the same with 32 before 10
 * and 33 after it. Then, of krossvil_lengthen, 34. Then 30.
 * Of krossvil_report_add, after those of the journal, 30 if the report has no number at all, then 35, then 30.
 * Of krossvil_live and krossvil_watch, after the table's, 30 if the memory has fewer than 17 numbers; 36; 22 at 0 if the run has ended;
 * 20 to 23 at 0 for the field; 22 at the first byte behind it; 24 to 28 at 0; then 30.
 * krossvil_salvage gives 20 to 23 only at 0, for the opening field: it salvages from all that is wrong behind that.
 * The table check has no answer, and gives 1 to 8 and 11 to 13 only. The converter gives none of 11 to 14: it takes tables with holds
 * only, and field 07 is 2 to it. 29, a run's journal that would pass 65,536 bytes, is no longer given, since no run makes one; the
 * number is not used again. */

/* ---- Sizes ---- */

/* Of what is read: more is too long. A table has no refusal for that; none with more bytes passes (proved). */
#define KROSSVIL_TABLE_MAX 1626u
#define KROSSVIL_JOURNAL_MAX 65536u
#define KROSSVIL_STIMULUS_MAX 57344u
#define KROSSVIL_STAMPED_MAX 49152u
#define KROSSVIL_SHORT_MAX 65536u

/* Of what is written: a buffer of so many bytes is never too short (proved). */
#define KROSSVIL_SALVAGED_MAX 65531u  /* for krossvil_salvage, krossvil_run and krossvil_read_stamped */
#define KROSSVIL_SHORTENED_MAX 49149u /* for krossvil_shorten; for krossvil_lengthen KROSSVIL_JOURNAL_MAX */

/* Bytes of stack that are enough (measured). krossvil_run and krossvil_read_stamped need the more the longer what they read is. */
#define KROSSVIL_RUN_STACK 80000u        /* for krossvil_run and krossvil_read_stamped, whatever they read */
#define KROSSVIL_RUN_STACK_MEDIUM 24000u /* for these with a stimulus of at most 14,336 bytes, a stamped journal of at most 12,288 */
#define KROSSVIL_RUN_STACK_SHORT 8000u   /* for these with a stimulus of at most 1,792 bytes, a stamped journal of at most 1,536 */
#define KROSSVIL_LIVE_STACK 2048u        /* for krossvil_live and krossvil_watch */
#define KROSSVIL_STACK 16000u            /* for the other functions */

#define KROSSVIL_MOVES_MAX 32u  /* moves of one question */
#define KROSSVIL_SUMS_MAX 1024u /* numbers, not bytes: so many sums are never too few */
#define KROSSVIL_PATH_MAX 63u   /* a path of so many bytes is never too short */

#define KROSSVIL_LIVE 17u      /* numbers, not bytes: the memory of a live run */
#define KROSSVIL_RECORD_MAX 8u /* a record of a journal has no more bytes */

#define KROSSVIL_REPORT_MAX 1089u      /* numbers, not bytes: a report of so many is never too short */
#define KROSSVIL_REPORT_JOURNALS 1000u /* so many journals one report takes */

/* ---- Answers ---- */

/* How many bytes an answer has on success. */
#define KROSSVIL_JOURNAL_ANSWER 28u
#define KROSSVIL_RUN_ANSWER 4u
#define KROSSVIL_REACTION_ANSWER 8u
#define KROSSVIL_MOVES_ANSWER 12u
#define KROSSVIL_TIGHT_ANSWER 12u
#define KROSSVIL_TIGHT_MOVES_ANSWER 12u
#define KROSSVIL_CONVERT_ANSWER 4u
#define KROSSVIL_STAMPED_ANSWER 4u
#define KROSSVIL_SHORT_ANSWER 28u
#define KROSSVIL_SHORTEN_ANSWER 4u
#define KROSSVIL_LENGTHEN_ANSWER 4u
#define KROSSVIL_SALVAGE_ANSWER 16u
#define KROSSVIL_LIVE_ANSWER 24u
#define KROSSVIL_WATCH_ANSWER 28u

/* Where its numbers stand: krossvil_answer below reads the one at a place. */
enum {
    /* krossvil_check_journal, krossvil_check_short and krossvil_watch */
    KROSSVIL_JOURNAL_END = 0, /* T; of krossvil_watch the time of the record */
    KROSSVIL_JOURNAL_TICKS = 1,
    KROSSVIL_JOURNAL_MOVES = 2,
    KROSSVIL_JOURNAL_STATE = 3,  /* the last one */
    KROSSVIL_JOURNAL_OUTPUT = 4, /* that of the last state */
    KROSSVIL_JOURNAL_LEFT = 5,
    KROSSVIL_JOURNAL_LONGEST = 6,

    /* krossvil_run, krossvil_read_stamped, krossvil_shorten and krossvil_lengthen: how many bytes were written */
    KROSSVIL_WRITTEN = 0,

    /* krossvil_reaction, krossvil_reaction_moves, krossvil_reaction_tight and krossvil_reaction_tight_moves */
    KROSSVIL_REACTION_TIME = 0,
    KROSSVIL_REACTION_TARGET = 1, /* a set */
    KROSSVIL_MOVES_PATH = 2,      /* krossvil_reaction_moves: the path's length in bytes */
    KROSSVIL_TIGHT_TIME = 2,      /* krossvil_reaction_tight and krossvil_reaction_tight_moves */

    /* krossvil_convert_table: how many states have changed */
    KROSSVIL_CONVERT_CHANGED = 0,

    /* krossvil_salvage: bytes kept and dropped, number and place of the refusal that stopped it */
    KROSSVIL_SALVAGE_KEPT = 0,
    KROSSVIL_SALVAGE_DROPPED = 1,
    KROSSVIL_SALVAGE_NUMBER = 2, /* 0 if none did: the journal is accepted */
    KROSSVIL_SALVAGE_PLACE = 3,

    /* krossvil_live */
    KROSSVIL_LIVE_WRITTEN = 0, /* how many bytes the record has */
    KROSSVIL_LIVE_STATE = 1,   /* the state now */
    KROSSVIL_LIVE_OUTPUT = 2,  /* its output */
    KROSSVIL_LIVE_PHASE = 3,
    KROSSVIL_LIVE_LEFT = 4,     /* ticks left at this test, 0 if it is free, and at any other event */
    KROSSVIL_LIVE_DEADLINE = 5, /* cycle start + E: no record may be later */
};

/* Where the numbers of a live run's memory stand that a host may want to read. The others are in docs/RULES.md. */
enum {
    KROSSVIL_MEMORY_STAGE = 0, /* 0 not begun, 1 running, 2 ended */
    KROSSVIL_MEMORY_PHASE = 1,
    KROSSVIL_MEMORY_INPUT = 2, /* the present one */
    KROSSVIL_MEMORY_STATE = 4,
    KROSSVIL_MEMORY_START = 7, /* of the cycle */
    KROSSVIL_MEMORY_TIME = 8,  /* of the last record */
    KROSSVIL_MEMORY_TICKS = 14,
    KROSSVIL_MEMORY_MOVES = 15,
};

/* ---- Forms and phases ---- */

/* The first byte of each form. A stamped journal begins as a journal does. */
enum krossvil_opening {
    KROSSVIL_JOURNAL_OPENING = 0x10,
    KROSSVIL_STIMULUS_OPENING = 0x20,
    KROSSVIL_SHORT_OPENING = 0x30,
};

enum krossvil_phase {
    KROSSVIL_PHASE_BEFORE_POLL = 0,
    KROSSVIL_PHASE_BEFORE_TEST = 1,
    KROSSVIL_PHASE_HELD = 2,
    KROSSVIL_PHASE_FREE = 3,
};

/* ---- Functions ---- */

/* Does the table pass? There are no further numbers. */
uint64_t krossvil_check_table(const uint8_t *table, uint64_t table_len);

/* Is the journal a run of the table's machine? Answer, 28 bytes: T, the number of ticks, the number of moves (ticks that change the
 * state), the last state, its output, the most ticks that a held test had left until its hold, or every timer that held it, was
 * passed (0 if none was held), and the longest completed cycle, from a tick or from 0 to the next tick (0 if there was none). */
uint64_t krossvil_check_journal(const uint8_t *table, uint64_t table_len, const uint8_t *journal, uint64_t journal_len,
                                uint8_t *answer, uint64_t answer_len);

/* Run the table's machine on a stimulus and write its journal at the start of `journal`; the bytes past it are unchanged. 28 never comes:
 * a stimulus names no polled input, verdict or state, and the machine's own are written. Answer, 4 bytes: the journal's length. */
uint64_t krossvil_run(const uint8_t *table, uint64_t table_len, const uint8_t *stimulus, uint64_t stimulus_len,
                      uint8_t *journal, uint64_t journal_len, uint8_t *answer, uint64_t answer_len);

/* How long until the state is in the target, once it stays in `states` and the input in `inputs`? Sets are numbers, bit i for
 * member i; empty sets are allowed. The target is the set of every next(p, a), for p in `states` and a in `inputs`, and must lie in
 * `states` (10). The time c is E and the largest weight of a state in `states` outside the target; with no such state it is E. A state
 * weighs E, or hold + 2*E if it has a hold and delays one of `inputs`. What c promises, of every accepted journal: if s + c is below T, and
 * each slot from s to s + c - 1 has its state in `states` and its input in `inputs`, slot s + c has its state in the target. (Slot k is
 * the time from k to k + 1; its state and input are those after every record up to time k, those at k included.)
 * A table with timers is refused (14). Answer, 8 bytes: the reaction time in units of the table's times, the target set. */
uint64_t krossvil_reaction(const uint8_t *table, uint64_t table_len, uint32_t states, uint32_t inputs,
                           uint8_t *answer, uint64_t answer_len);

/* How long until the state is in the target of several moves, once it stays in `states` and the input in `inputs`? For so many moves, 0
 * to 32, the target is what next(S, inputs), the set of every next(s, a), makes of S when it is applied so many times to `states`. A path
 * is a row of states, all in `states` and outside the target, each a next state of the one before under an input of `inputs`; a state
 * weighs E, or hold + 2*E if it has a hold and delays one of `inputs`. The time is E and the largest sum of weights along a path of at
 * most so many states; with no path the sum is 0.
 * sums is sums_len numbers of 32 bits, in the processor's own byte order, aligned to 4 bytes. It gets a row of Q for each move: at r*Q + q
 * stands the largest sum of a path of at most r + 1 states that begins at q, 0 for a state in the target or outside `states`. Numbers
 * past the last row, moves*Q in all (krossvil_sums_len below), are unchanged.
 * path gets one worst path, a byte for each state, and between two states one for the input that leads on: the smallest state at which a
 * path with the largest sum begins, then at each state the smallest input that keeps the sum largest; it ends with a state. The bytes
 * past it are unchanged. With k states it has 2*k - 1 bytes, and none if there is no path; but there must be room for 2*moves - 1
 * (krossvil_path_len below).
 * A table with timers is refused (14). 10 comes for 0 moves too. Answer, 12 bytes: the reaction time, the target set, the path's length in
 * bytes. For one move, time and target are those of krossvil_reaction, and so are the refusals but for 33 and 30. */
uint64_t krossvil_reaction_moves(const uint8_t *table, uint64_t table_len, uint32_t states, uint32_t inputs, uint32_t moves,
                                 uint32_t *sums, uint64_t sums_len, uint8_t *path, uint64_t path_len,
                                 uint8_t *answer, uint64_t answer_len);

/* How many sums there must be, for so many states and moves, and how many bytes of path. */
static inline uint64_t krossvil_sums_len(uint32_t state_count, uint32_t moves)
{
    return (uint64_t)state_count * moves;
}

static inline uint64_t krossvil_path_len(uint32_t moves)
{
    return moves == 0 ? 0 : 2 * (uint64_t)moves - 1;
}

/* What krossvil_reaction tells, and beside it the tight time, which is enough too, since times are whole numbers. Refusals are those of
 * krossvil_reaction. Answer, 12 bytes: the reaction time, the target set, the tight time. The tight time is the reaction time where no
 * member of `states` lies outside the target; otherwise it is less by 2 if one of those that do has a hold and delays an input of
 * `inputs`, and by 1 if none does. Nothing is said of shorter times: for some tables one of them would be enough. */
uint64_t krossvil_reaction_tight(const uint8_t *table, uint64_t table_len, uint32_t states, uint32_t inputs,
                                 uint8_t *answer, uint64_t answer_len);

/* The time and the target that krossvil_reaction_moves tells, and beside them the tight time over so many moves, 0 to 32, which is enough
 * too. No sums and no path are written, so that 33 never comes; the other refusals are those of krossvil_reaction_moves. Answer, 12 bytes:
 * the reaction time, the target set, the tight time. With no path the tight time is E. Otherwise it is E - 1 and the largest sum along a
 * path of at most so many states, where a state counts hold + 2*E - 1 if it has a hold and delays an input of `inputs`, and E if not; so it
 * is less than the reaction time. For one move it is that of krossvil_reaction_tight, and for none E. Nothing is said of shorter times. */
uint64_t krossvil_reaction_tight_moves(const uint8_t *table, uint64_t table_len, uint32_t states, uint32_t inputs, uint32_t moves,
                                       uint8_t *answer, uint64_t answer_len);

/* For a table with holds that was made before there was 11. Write it at the start of `new_table`, with the delayed set emptied at
 * each state whose hold is 0, where it never had an effect: the new table has as many bytes, passes, and behaves the same in every
 * journal and every reaction time. The bytes past it are unchanged. Answer, 4 bytes: how many states had a set that was not empty
 * and is now. */
uint64_t krossvil_convert_table(const uint8_t *table, uint64_t table_len, uint8_t *new_table, uint64_t new_table_len,
                                uint8_t *answer, uint64_t answer_len);

/* Read a stamped journal and write its long form, the journal with its times, at the start of `journal`; the bytes past it are
 * unchanged. The first time is the first stamp, and each later one the time before plus (stamp - stamp before) modulo 65,536. That
 * is right where no record is 65,536 or more after the one before, as in every run of a machine. Inputs, verdicts and states are
 * carried over as they stand; krossvil_check_journal says whether the journal is a run. Answer, 4 bytes: the journal's length. */
uint64_t krossvil_read_stamped(const uint8_t *stamped, uint64_t stamped_len, uint8_t *journal, uint64_t journal_len,
                               uint8_t *answer, uint64_t answer_len);

/* Is the short journal a run of the table's machine? It is if the journal that it stands for is, were that ever so long; the answer, 28
 * bytes, has the same numbers. A place is one in the short journal. */
uint64_t krossvil_check_short(const uint8_t *table, uint64_t table_len, const uint8_t *short_journal, uint64_t short_len,
                              uint8_t *answer, uint64_t answer_len);

/* Check a journal, and write it as a short journal at the start of `short_journal`; the bytes past it are unchanged. What is not
 * accepted is refused as krossvil_check_journal refuses it: only in a run is every gap known to fit. Answer, 4 bytes: the short
 * journal's length. */
uint64_t krossvil_shorten(const uint8_t *table, uint64_t table_len, const uint8_t *journal, uint64_t journal_len,
                          uint8_t *short_journal, uint64_t short_len, uint8_t *answer, uint64_t answer_len);

/* Check a short journal, and write the journal that it stands for at the start of `journal`; the bytes past it are unchanged. What is
 * not accepted is refused as krossvil_check_short refuses it; then comes 34, if the journal would pass 65,536 bytes, then 30. What
 * was shortened is lengthened to the same bytes, and what was lengthened is shortened to the same bytes. Answer, 4 bytes: the
 * journal's length. */
uint64_t krossvil_lengthen(const uint8_t *table, uint64_t table_len, const uint8_t *short_journal, uint64_t short_len,
                           uint8_t *journal, uint64_t journal_len, uint8_t *answer, uint64_t answer_len);

/* Write what is sound of a torn journal at the start of `salvaged`; the bytes past it are unchanged. An accepted journal is written as
 * it is: the answer is its length, 0, 0 and 0. Otherwise krossvil_check_journal refuses it at some record, or at the bytes behind the
 * end field. Of the records before that place, those up to the last tick that ends at or before byte 65,529 are kept, or the opening
 * field alone if there is no such tick; then comes an end field of 7 bytes with the time of that tick, or 0. Answer, 16 bytes: the
 * number of bytes kept, without the end field that is added; the number of bytes dropped; the refusal number and the place that
 * stopped it. What is written is accepted, and comes back unchanged when it is salvaged; it has at most 65,531 bytes, and up to 7 more
 * than the journal. A journal that is too long, or whose opening field is refused, is refused in the same way. */
uint64_t krossvil_salvage(const uint8_t *table, uint64_t table_len, const uint8_t *journal, uint64_t journal_len,
                          uint8_t *salvaged, uint64_t salvaged_len, uint8_t *answer, uint64_t answer_len);

/* Check a journal, and add where its time went to a report. The report is memory of the host's: report_len numbers of 64 bits, in the
 * processor's own byte order, aligned to 8 bytes; no other argument overlaps it. It begins with zeros, and has these numbers:
 *   at 0                how many journals were added
 *   at 1 + q            dwell: how many slots have state q
 *   at 1 + Q + q*I + a  pairs, rows by state: how many slots have state q and present input a
 *   at 1 + Q + Q*I + q  entries: how often state q was entered
 * which are 1 + 2*Q + Q*I (krossvil_report_len below). A journal that ends at T has the slots 0 to T - 1; the state and the input of
 * slot k are those after every record up to time k, those at k included. An entry is a tick, one at T too, that makes q the state
 * from another; and in every journal the initial state is entered at 0.
 * What is not accepted is refused as krossvil_check_journal refuses it. Then comes 30, if report_len is 0; 35, if the first number is
 * 1,000 or more; and 30, if report_len is less than 1 + 2*Q + Q*I. Otherwise the journal's numbers are added, modulo 2^64, which no sum
 * of 1,000 journals reaches that began with zeros; numbers past the last are unchanged, and on a refusal all are. In which order
 * journals are added makes no difference while no 35 comes.
 * The report does not say under which table it was begun: the table is given with each journal, and that it is the same for all of
 * them is for the host to see to. Under another table numbers would be added at places that mean something else. */
uint64_t krossvil_report_add(const uint8_t *table, uint64_t table_len, const uint8_t *journal, uint64_t journal_len,
                             uint64_t *report, uint64_t report_len);

/* Take the next event of a stimulus, and write the record that it makes at the start of `record`; the bytes past it are unchanged. One
 * event is one field: 20 first, then 21 to 24, and 2F last. The records one after another are the journal that krossvil_run would write of
 * the events one after another; but there may be any number of them, up to the time 2,000,000,000.
 * live is memory of the host's: live_len numbers of 32 bits, in the processor's own byte order, aligned to 4 bytes. The first 17 are the
 * run's: zeros before it begins, and to be kept from one call to the next as they are. Numbers past them are unchanged. They may outlast a
 * loss of supply: with the memory that the last call left, the run goes on.
 * Where a number is out of its range the memory is refused (36): the stage is at most 2, the phase at most 3, inputs, polled and present,
 * and the state are the table's, no instant is later than the time, nor that than 2,000,000,000, and the longest cycle is at most E. Of a
 * run that has not begun only the stage is looked at. Memory that is in range and yet not the machine's, or that of another table, no
 * check can tell: the answer is then that of the machine which the memory says.
 * After the end field every event is 22 at 0. A refused event changes nothing, and may be mended and given again. There must be room for
 * the record as a journal has it, 4, 8 or, for the end, 7 bytes (30). Answer, 24 bytes: the record's length; the state and its output, as
 * they are now; the phase; the ticks left at this test, 0 if it is free, and at any other event; the deadline, cycle start + E. */
uint64_t krossvil_live(const uint8_t *table, uint64_t table_len, uint32_t *live, uint64_t live_len, const uint8_t *event, uint64_t event_len,
                       uint8_t *record, uint64_t record_len, uint8_t *answer, uint64_t answer_len);

/* Take the next record of a journal, and judge it, with memory as krossvil_live has it: a record that krossvil_live has written is taken,
 * and the memory is then the same. One record is one field: 10 first, then 11 to 14, and 1F last. Answer, 28 bytes: the numbers of
 * krossvil_check_journal, as if the journal ended with this record; T is its time, 0 after the opening field. */
uint64_t krossvil_watch(const uint8_t *table, uint64_t table_len, uint32_t *live, uint64_t live_len, const uint8_t *record, uint64_t record_len,
                        uint8_t *answer, uint64_t answer_len);

/* How many numbers a report has, and where in it they stand. */
static inline uint64_t krossvil_report_len(uint32_t state_count, uint32_t input_count)
{
    return 1 + 2 * (uint64_t)state_count + (uint64_t)state_count * input_count;
}

#define KROSSVIL_REPORT_ADDED 0u /* how many journals were added */

static inline size_t krossvil_dwell_at(uint32_t state) { return 1 + (size_t)state; }

static inline size_t krossvil_pair_at(uint32_t state_count, uint32_t input_count, uint32_t state, uint32_t input)
{
    return 1 + (size_t)state_count + (size_t)state * input_count + input;
}

static inline size_t krossvil_entries_at(uint32_t state_count, uint32_t input_count, uint32_t state)
{
    return 1 + (size_t)state_count + (size_t)state_count * input_count + state;
}

/* ---- What comes back, taken apart ---- */

static inline uint32_t krossvil_number(uint64_t code) { return (uint32_t)(code >> 32); }

static inline uint32_t krossvil_place(uint64_t code) { return (uint32_t)code; }

/* The answer's number at a place, which has a name above. */
static inline uint32_t krossvil_answer(const uint8_t *answer, size_t place)
{
    const uint8_t *b = answer + 4 * place;
    return (uint32_t)b[0] << 24 | (uint32_t)b[1] << 16 | (uint32_t)b[2] << 8 | (uint32_t)b[3];
}

/* The same, for hosts that were written before places had names. */
static inline uint32_t krossvil_read(const uint8_t *answer, size_t k) { return krossvil_answer(answer, k); }

/* How many bytes krossvil_salvage wrote: those kept and, where something was refused, an end field. */
static inline uint64_t krossvil_salvaged_len(const uint8_t *answer)
{
    return (uint64_t)krossvil_answer(answer, KROSSVIL_SALVAGE_KEPT) + (krossvil_answer(answer, KROSSVIL_SALVAGE_NUMBER) == 0 ? 0 : 7);
}

/* Q, I and O of a table that passes. */
static inline uint32_t krossvil_table_states(const uint8_t *table) { return table[3]; }

static inline uint32_t krossvil_table_inputs(const uint8_t *table) { return table[4]; }

static inline uint32_t krossvil_table_outputs(const uint8_t *table) { return table[5]; }

#ifdef __cplusplus
}
#endif

#endif
