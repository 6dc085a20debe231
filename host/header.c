/* Holds include/krossvil.h against the functions that it declares: each size is enough, and one less or one more is not; what the inline
 * functions say is so. The places of an answer's numbers are tested by what the examples print. This is C and C++ at once, since the
 * header is. */
#include "krossvil.h"

#include <stdio.h>
#include <string.h>

static unsigned passed, failed;

static void expect(int good, const char *what)
{
    if (good) {
        passed++;
    } else {
        failed++;
        printf("not so: %s\n", what);
    }
}

#define EXPECT(what) expect(what, #what)

/* ---- Bytes ---- */

/* With room for one byte more than is allowed. */
static uint8_t largest[KROSSVIL_TABLE_MAX + 1], table[KROSSVIL_TABLE_MAX], journal[KROSSVIL_JOURNAL_MAX + 1], zeros[KROSSVIL_JOURNAL_MAX + 1];
static uint8_t shortened[KROSSVIL_SHORTENED_MAX], salvaged[KROSSVIL_SALVAGED_MAX], written[KROSSVIL_JOURNAL_MAX], path[KROSSVIL_PATH_MAX];
static uint32_t sums[KROSSVIL_SUMS_MAX];
static uint64_t report[KROSSVIL_REPORT_MAX];
static uint8_t answer[KROSSVIL_JOURNAL_ANSWER];
static size_t table_len, journal_len;

static const uint8_t stimulus[] = { KROSSVIL_STIMULUS_OPENING, 0, 1, 0, 0x2F, 0, 4, 0, 0, 0, 0 };
static const uint8_t change[] = { 0x21, 0, 5, 0, 0, 0, 0, 1 }, opening[] = { KROSSVIL_JOURNAL_OPENING, 0, 1, 0 };
static const uint8_t stamped[] = { KROSSVIL_JOURNAL_OPENING, 0, 1, 0, 0x1F, 0, 2, 0, 0 };
static const uint8_t short_journal[] = { KROSSVIL_SHORT_OPENING, 0, 1, 0, 0x3F, 0, 2, 0, 0 };

enum { STATES = 2, INPUTS = 3, OUTPUTS = 4, MOST = 32, TIMERS = 4, EVERY_STATE = 3, EVERY_INPUT = 7 };

/* A field of zeros. Returns where it ends. */
static uint8_t *field(uint8_t *at, unsigned tag, size_t length)
{
    at[0] = (uint8_t)tag;
    at[1] = (uint8_t)(length >> 8);
    at[2] = (uint8_t)length;
    memset(at + 3, 0, length);
    return at + 3 + length;
}

/* The fields 01 to 04 of a table. */
static uint8_t *begin_table(uint8_t *bytes, size_t states, size_t inputs, size_t outputs)
{
    uint8_t *b = field(bytes, 1, 4);
    bytes[3] = (uint8_t)states;
    bytes[4] = (uint8_t)inputs;
    bytes[5] = (uint8_t)outputs;
    b = field(b, 2, 4);
    b[-1] = 1; /* E */
    return field(field(b, 3, states), 4, states * inputs);
}

/* The longest table, one with holds, and the longest journal that is accepted under it. */
static size_t make_all(void)
{
    uint8_t *b = begin_table(largest, MOST, MOST, MOST), *timers = b + 3;
    b = field(field(b, 7, 8 * TIMERS), 8, 4 * MOST * TIMERS);
    for (int k = 0; k < TIMERS; k++)
        timers[8 * k + 3] = 1;
    size_t largest_len = (size_t)(b - largest);

    b = begin_table(table, STATES, INPUTS, OUTPUTS);
    table_len = (size_t)(field(field(b, 5, 4 * STATES), 6, 4 * STATES) - table);

    b = field(journal, KROSSVIL_JOURNAL_OPENING, 1);
    while ((size_t)(b - journal) + 8 + 7 <= KROSSVIL_JOURNAL_MAX)
        b = field(b, 0x11, 5);
    journal_len = (size_t)(field(b, 0x1F, 4) - journal);
    return largest_len;
}

/* ---- Answers: each is long enough, and one byte less is not ---- */

static uint64_t check_journal(uint64_t len) { return krossvil_check_journal(table, table_len, journal, journal_len, answer, len); }

static uint64_t run(uint64_t len)
{
    return krossvil_run(table, table_len, stimulus, sizeof stimulus, written, sizeof written, answer, len);
}

static uint64_t reaction(uint64_t len) { return krossvil_reaction(table, table_len, EVERY_STATE, EVERY_INPUT, answer, len); }

static uint64_t reaction_moves(uint64_t len)
{
    return krossvil_reaction_moves(table, table_len, EVERY_STATE, EVERY_INPUT, 1, sums, KROSSVIL_SUMS_MAX, path, sizeof path, answer, len);
}

static uint64_t reaction_tight(uint64_t len) { return krossvil_reaction_tight(table, table_len, EVERY_STATE, EVERY_INPUT, answer, len); }

static uint64_t reaction_tight_moves(uint64_t len)
{
    return krossvil_reaction_tight_moves(table, table_len, EVERY_STATE, EVERY_INPUT, 2, answer, len);
}

static uint64_t convert(uint64_t len) { return krossvil_convert_table(table, table_len, written, sizeof written, answer, len); }

static uint64_t read_stamped(uint64_t len)
{
    return krossvil_read_stamped(stamped, sizeof stamped, written, sizeof written, answer, len);
}

static uint64_t check_short(uint64_t len)
{
    return krossvil_check_short(table, table_len, short_journal, sizeof short_journal, answer, len);
}

static uint64_t shorten(uint64_t len)
{
    return krossvil_shorten(table, table_len, journal, journal_len, shortened, sizeof shortened, answer, len);
}

static uint64_t lengthen(uint64_t len)
{
    return krossvil_lengthen(table, table_len, short_journal, sizeof short_journal, written, sizeof written, answer, len);
}

static uint64_t salvage(uint64_t len)
{
    return krossvil_salvage(table, table_len, journal, journal_len, salvaged, sizeof salvaged, answer, len);
}

/* A run of its own for each call, so many numbers of memory, and the first event of it or, with the memory of a run that is under way, a
 * change. */
static uint64_t first_event(uint64_t kept, uint64_t answer_len)
{
    uint32_t live[KROSSVIL_LIVE] = { 0 };
    return krossvil_live(table, table_len, live, kept, stimulus, 4, written, KROSSVIL_RECORD_MAX, answer, answer_len);
}

static uint64_t next_event(uint64_t record_len)
{
    uint32_t live[KROSSVIL_LIVE] = { 1 };
    return krossvil_live(table, table_len, live, KROSSVIL_LIVE, change, sizeof change, written, record_len, answer, sizeof answer);
}

static uint64_t live_answer(uint64_t len) { return first_event(KROSSVIL_LIVE, len); }

static uint64_t live_kept(uint64_t kept) { return first_event(kept, sizeof answer); }

static uint64_t watch(uint64_t len)
{
    uint32_t live[KROSSVIL_LIVE] = { 0 };
    return krossvil_watch(table, table_len, live, KROSSVIL_LIVE, opening, sizeof opening, answer, len);
}

static int answers(uint64_t (*call)(uint64_t), uint64_t size)
{
    return call(size) == 0 && krossvil_number(call(size - 1)) == KROSSVIL_TOO_SHORT;
}

static void test_answers(void)
{
    EXPECT(answers(check_journal, KROSSVIL_JOURNAL_ANSWER));
    EXPECT(answers(run, KROSSVIL_RUN_ANSWER));
    EXPECT(answers(reaction, KROSSVIL_REACTION_ANSWER));
    EXPECT(answers(reaction_moves, KROSSVIL_MOVES_ANSWER));
    EXPECT(answers(reaction_tight, KROSSVIL_TIGHT_ANSWER));
    EXPECT(answers(reaction_tight_moves, KROSSVIL_TIGHT_MOVES_ANSWER));
    EXPECT(answers(convert, KROSSVIL_CONVERT_ANSWER));
    EXPECT(answers(read_stamped, KROSSVIL_STAMPED_ANSWER));
    EXPECT(answers(check_short, KROSSVIL_SHORT_ANSWER));
    EXPECT(answers(shorten, KROSSVIL_SHORTEN_ANSWER));
    EXPECT(answers(lengthen, KROSSVIL_LENGTHEN_ANSWER));
    EXPECT(answers(salvage, KROSSVIL_SALVAGE_ANSWER));
    EXPECT(answers(live_answer, KROSSVIL_LIVE_ANSWER));
    EXPECT(answers(watch, KROSSVIL_WATCH_ANSWER));
}

/* ---- Sizes ---- */

/* Whether so many zeros are refused for their first field, and one more as too long. */
static int is_most(uint64_t (*call)(uint64_t), uint64_t most)
{
    return krossvil_number(call(most)) == KROSSVIL_WRONG_FIELD && krossvil_number(call(most + 1)) == KROSSVIL_TOO_LONG;
}

static uint64_t zeros_as_journal(uint64_t len) { return krossvil_check_journal(table, table_len, zeros, len, answer, sizeof answer); }

static uint64_t zeros_as_short(uint64_t len) { return krossvil_check_short(table, table_len, zeros, len, answer, sizeof answer); }

static uint64_t zeros_as_stimulus(uint64_t len)
{
    return krossvil_run(table, table_len, zeros, len, written, sizeof written, answer, sizeof answer);
}

static uint64_t zeros_as_stamped(uint64_t len)
{
    return krossvil_read_stamped(zeros, len, written, sizeof written, answer, sizeof answer);
}

static void test_reading(size_t largest_len)
{
    EXPECT(largest_len == KROSSVIL_TABLE_MAX && krossvil_check_table(largest, KROSSVIL_TABLE_MAX) == 0);
    uint64_t code = krossvil_check_table(largest, KROSSVIL_TABLE_MAX + 1);
    EXPECT(krossvil_number(code) == KROSSVIL_BYTES_AFTER_TABLE && krossvil_place(code) == KROSSVIL_TABLE_MAX);
    EXPECT(is_most(zeros_as_journal, KROSSVIL_JOURNAL_MAX));
    EXPECT(is_most(zeros_as_short, KROSSVIL_SHORT_MAX));
    EXPECT(is_most(zeros_as_stimulus, KROSSVIL_STIMULUS_MAX));
    EXPECT(is_most(zeros_as_stamped, KROSSVIL_STAMPED_MAX));
}

static void test_writing(void)
{
    EXPECT(shorten(sizeof answer) == 0 && krossvil_answer(answer, KROSSVIL_WRITTEN) == KROSSVIL_SHORTENED_MAX);
    EXPECT(krossvil_number(krossvil_shorten(table, table_len, journal, journal_len, shortened, KROSSVIL_SHORTENED_MAX - 1, answer,
                                            sizeof answer)) == KROSSVIL_TOO_SHORT);
    EXPECT(salvage(sizeof answer) == 0 && krossvil_salvaged_len(answer) == KROSSVIL_SALVAGED_MAX);
    EXPECT(krossvil_number(krossvil_salvage(table, table_len, journal, journal_len, salvaged, KROSSVIL_SALVAGED_MAX - 1, answer,
                                            sizeof answer)) == KROSSVIL_TOO_SHORT);
}

/* A journal without its last byte gets another end: with so many bytes it is accepted, and with one less it is not. */
static void test_salvaged(void)
{
    EXPECT(krossvil_salvage(table, table_len, journal, journal_len - 1, salvaged, sizeof salvaged, answer, sizeof answer) == 0);
    EXPECT(krossvil_answer(answer, KROSSVIL_SALVAGE_NUMBER) == KROSSVIL_RUNS_OUT);
    uint64_t len = krossvil_salvaged_len(answer);
    EXPECT(krossvil_check_journal(table, table_len, salvaged, len, answer, sizeof answer) == 0);
    EXPECT(krossvil_number(krossvil_check_journal(table, table_len, salvaged, len - 1, answer, sizeof answer)) == KROSSVIL_RUNS_OUT);
}

static uint32_t number_of_moves(uint32_t moves, uint64_t sums_len, uint64_t path_len)
{
    return krossvil_number(krossvil_reaction_moves(table, table_len, EVERY_STATE, EVERY_INPUT, moves, sums, sums_len, path, path_len,
                                                   answer, sizeof answer));
}

static void test_moves(void)
{
    const uint64_t need = krossvil_sums_len(STATES, KROSSVIL_MOVES_MAX);
    EXPECT(krossvil_sums_len(MOST, KROSSVIL_MOVES_MAX) == KROSSVIL_SUMS_MAX);
    EXPECT(krossvil_path_len(KROSSVIL_MOVES_MAX) == KROSSVIL_PATH_MAX && krossvil_path_len(0) == 0);
    EXPECT(number_of_moves(KROSSVIL_MOVES_MAX, need, KROSSVIL_PATH_MAX) == 0);
    EXPECT(number_of_moves(KROSSVIL_MOVES_MAX, need - 1, KROSSVIL_PATH_MAX) == KROSSVIL_SUMS_OR_PATH_TOO_SHORT);
    EXPECT(number_of_moves(KROSSVIL_MOVES_MAX, need, KROSSVIL_PATH_MAX - 1) == KROSSVIL_SUMS_OR_PATH_TOO_SHORT);
    EXPECT(number_of_moves(KROSSVIL_MOVES_MAX + 1, KROSSVIL_SUMS_MAX, KROSSVIL_PATH_MAX) == KROSSVIL_TOO_MANY_MOVES);
}

static uint32_t number_of_report(uint64_t report_len)
{
    return krossvil_number(krossvil_report_add(table, table_len, journal, journal_len, report, report_len));
}

static void test_report(void)
{
    const uint64_t need = krossvil_report_len(STATES, INPUTS);
    EXPECT(krossvil_report_len(MOST, MOST) == KROSSVIL_REPORT_MAX);
    EXPECT(krossvil_entries_at(STATES, INPUTS, STATES - 1) == need - 1);
    EXPECT(number_of_report(need - 1) == KROSSVIL_TOO_SHORT);
    EXPECT(number_of_report(need) == 0 && report[KROSSVIL_REPORT_ADDED] == 1);
    report[KROSSVIL_REPORT_ADDED] = KROSSVIL_REPORT_JOURNALS - 1;
    EXPECT(number_of_report(need) == 0 && number_of_report(need) == KROSSVIL_REPORT_FULL);
}

/* The memory's size and the record's, and what stands where. */
static void test_live(void)
{
    uint32_t live[KROSSVIL_LIVE] = { 0 };
    EXPECT(answers(live_kept, KROSSVIL_LIVE));
    EXPECT(answers(next_event, KROSSVIL_RECORD_MAX));
    EXPECT(krossvil_answer(answer, KROSSVIL_LIVE_WRITTEN) == KROSSVIL_RECORD_MAX);
    EXPECT(krossvil_live(table, table_len, live, KROSSVIL_LIVE, stimulus, 4, written, 4, answer, sizeof answer) == 0);
    EXPECT(krossvil_answer(answer, KROSSVIL_LIVE_WRITTEN) == 4 && krossvil_answer(answer, KROSSVIL_LIVE_DEADLINE) == 1);
    EXPECT(krossvil_live(table, table_len, live, KROSSVIL_LIVE, change, sizeof change, written, 8, answer, sizeof answer) == 0);
    EXPECT(live[KROSSVIL_MEMORY_STAGE] == 1 && live[KROSSVIL_MEMORY_INPUT] == 1 && live[KROSSVIL_MEMORY_TIME] == 0);
}

int main(void)
{
    const size_t largest_len = make_all();
    const uint8_t numbers[] = { 0, 0, 0, 1, 2, 3, 4, 5 };
    const int version = KROSSVIL_VERSION_NUMBER;
    char text[40];
    test_answers();
    test_reading(largest_len);
    test_writing();
    test_salvaged();
    test_moves();
    test_report();
    test_live();
    EXPECT(krossvil_table_states(table) == STATES && krossvil_table_inputs(table) == INPUTS && krossvil_table_outputs(table) == OUTPUTS);
    EXPECT(krossvil_answer(numbers, 1) == 0x02030405 && krossvil_read(numbers, 1) == 0x02030405);
    snprintf(text, sizeof text, "%d.%d.%d", version / 1000000, version / 1000 % 1000, version % 1000);
    EXPECT(strcmp(text, KROSSVIL_VERSION) == 0);
    printf("%u passed, %u failed\n", passed, failed);
    return failed != 0;
}
