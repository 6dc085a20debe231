/* Holds the names of refusals in include/krossvil.h against the functions that it declares: for each name bytes that are refused so, and
 * the place. Those that are for sizes are in host/header.c. */
#include "krossvil.h"

#include <stdio.h>
#include <string.h>

static unsigned passed, failed;

static void expect(const char *name, uint64_t code, uint32_t number, uint32_t place)
{
    if (krossvil_number(code) == number && krossvil_place(code) == place) {
        passed++;
    } else {
        failed++;
        printf("not %s at %u: %u at %u\n", name, place, krossvil_number(code), krossvil_place(code));
    }
}

#define EXPECT(code, refusal, place) expect(#refusal, code, refusal, place)

/* ---- Tables: two states, three inputs, four outputs; E is 1 ---- */

#define UP_TO_FIELD_04 1, 0, 4, 2, 3, 4, 0, 2, 0, 4, 0, 0, 0, 1, 3, 0, 2, 0, 0, 4, 0, 6, 0, 0, 0, 0, 0, 0
static const uint8_t holds[] = { UP_TO_FIELD_04, 5, 0, 8, 0, 0, 0, 0, 0, 0, 0, 0, 6, 0, 8, 0, 0, 0, 0, 0, 0, 0, 0 };
static const uint8_t timers[] = { UP_TO_FIELD_04, 7, 0, 8, 0, 0, 0, 1, 0, 0, 0, 0, 8, 0, 8, 0, 0, 0, 0, 0, 0, 0, 0 };
enum { FIELD_05 = 28, FIELD_07 = 28, FIELD_06 = FIELD_05 + 11 };

/* The check of a table in which the byte at a place is another. */
static uint64_t changed(const uint8_t *table, size_t place, uint8_t byte)
{
    uint8_t bytes[sizeof holds];
    memcpy(bytes, table, sizeof bytes);
    bytes[place] = byte;
    return krossvil_check_table(bytes, sizeof bytes);
}

static void test_tables(void)
{
    EXPECT(krossvil_check_table(holds, sizeof holds - 1), KROSSVIL_TABLE_RUNS_OUT, FIELD_06);
    EXPECT(changed(holds, 7, 3), KROSSVIL_TABLE_WRONG_FIELD, 7);
    EXPECT(changed(holds, 3, 0), KROSSVIL_COUNT_OUT_OF_RANGE, 0);
    EXPECT(changed(holds, 13, 0), KROSSVIL_BOUND_OUT_OF_RANGE, 7);
    EXPECT(changed(holds, 17, 4), KROSSVIL_ENTRY_OUT_OF_RANGE, 17);
    EXPECT(changed(holds, FIELD_05 + 3, 1), KROSSVIL_HOLD_TOO_LONG, FIELD_05 + 3);
    EXPECT(changed(holds, FIELD_06 + 6, 8), KROSSVIL_UNKNOWN_INPUT_DELAYED, FIELD_06 + 3);
    EXPECT(changed(holds, FIELD_06 + 6, 1), KROSSVIL_IDLE_SET, FIELD_06 + 3);
    EXPECT(changed(timers, FIELD_07 + 10, 4), KROSSVIL_TIMER_UNKNOWN_MEMBER, FIELD_07 + 7);
    EXPECT(changed(timers, FIELD_07 + 6, 0), KROSSVIL_TIMER_OUT_OF_RANGE, FIELD_07 + 3);
}

/* ---- Questions to the calculator ---- */

static uint64_t reaction(const uint8_t *table, uint32_t states, uint32_t inputs)
{
    uint8_t answer[KROSSVIL_REACTION_ANSWER];
    return krossvil_reaction(table, sizeof holds, states, inputs, answer, sizeof answer);
}

static void test_reactions(void)
{
    EXPECT(reaction(holds, 4, 1), KROSSVIL_UNKNOWN_MEMBER, 0);
    EXPECT(reaction(holds, 1, 8), KROSSVIL_UNKNOWN_MEMBER, 1);
    EXPECT(reaction(holds, 2, 1), KROSSVIL_LEAVES_STATES, 3); /* state 1 goes to 0 */
    EXPECT(reaction(timers, 1, 1), KROSSVIL_HAS_TIMERS, 0);
}

/* ---- Journals ---- */

#define OPENING KROSSVIL_JOURNAL_OPENING, 0, 1, 0
#define RECORD(tag, time, value) tag, 0, 5, 0, 0, 0, time, value
#define END 0x1F, 0, 4, 0, 0, 0, 0

/* The check of the bytes that are listed. */
#define CHECK(...) check((const uint8_t[]){ __VA_ARGS__ }, sizeof((const uint8_t[]){ __VA_ARGS__ }))

static uint64_t check(const uint8_t *journal, size_t size)
{
    uint8_t answer[KROSSVIL_JOURNAL_ANSWER];
    return krossvil_check_journal(holds, sizeof holds, journal, size, answer, sizeof answer);
}

static void test_journals(void)
{
    EXPECT(CHECK(OPENING), KROSSVIL_RUNS_OUT, 4);
    EXPECT(CHECK(OPENING, RECORD(0x15, 0, 0)), KROSSVIL_WRONG_FIELD, 4);
    EXPECT(CHECK(END), KROSSVIL_MISPLACED, 0);
    EXPECT(CHECK(OPENING, RECORD(0x11, 0, 3)), KROSSVIL_OUT_OF_RANGE, 4);
    EXPECT(CHECK(OPENING, RECORD(0x11, 1, 0), RECORD(0x11, 0, 0)), KROSSVIL_TIME_GOES_BACK, 12);
    EXPECT(CHECK(OPENING, RECORD(0x11, 2, 0)), KROSSVIL_PAST_BOUND, 4);
    EXPECT(CHECK(OPENING, RECORD(0x13, 1, 0)), KROSSVIL_WRONG_PHASE, 4);
    EXPECT(CHECK(OPENING, RECORD(0x12, 0, 0)), KROSSVIL_POLL_TOO_SOON, 4);
    EXPECT(CHECK(OPENING, RECORD(0x12, 1, 1)), KROSSVIL_DIFFERS, 4);
}

/* A short journal of so many changes at 0, where six bytes stand for eight. */
static void test_lengthening(void)
{
    static uint8_t bytes[KROSSVIL_SHORT_MAX], journal[KROSSVIL_JOURNAL_MAX];
    uint8_t answer[KROSSVIL_LENGTHEN_ANSWER], *b = bytes + 4;
    memcpy(bytes, (uint8_t[]){ KROSSVIL_SHORT_OPENING, 0, 1, 0 }, 4);
    for (; (size_t)(b - bytes) <= KROSSVIL_SHORTENED_MAX; b += 6)
        memcpy(b, (uint8_t[]){ 0x31, 0, 3, 0, 0, 0 }, 6);
    memcpy(b, (uint8_t[]){ 0x3F, 0, 2, 0, 0 }, 5);
    EXPECT(krossvil_lengthen(holds, sizeof holds, bytes, (size_t)(b + 5 - bytes), journal, sizeof journal, answer, sizeof answer),
           KROSSVIL_WOULD_BE_TOO_LONG, 0);
}

/* A state, number 4 of the memory, that the table has not got. */
static void test_memory(void)
{
    uint32_t live[KROSSVIL_LIVE] = { 1 };
    uint8_t answer[KROSSVIL_WATCH_ANSWER];
    live[KROSSVIL_MEMORY_STATE] = 2;
    EXPECT(krossvil_watch(holds, sizeof holds, live, KROSSVIL_LIVE, holds, 0, answer, sizeof answer), KROSSVIL_MEMORY_OUT_OF_RANGE,
           KROSSVIL_MEMORY_STATE);
}

int main(void)
{
    test_tables();
    test_reactions();
    test_journals();
    test_lengthening();
    test_memory();
    printf("%u passed, %u failed\n", passed, failed);
    return failed != 0;
}
