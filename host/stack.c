/* How many bytes of stack the library's functions touch. Each call runs on a painted stack of its own, and the paint that is
 * gone is counted. Fails where that is more than include/krossvil.h says. */
#include "krossvil.h"

#include <stdio.h>
#include <string.h>
#include <ucontext.h>

enum { ROOM = 1 << 20, PAINT = 0xA5 };

/* One state and one input, E is 60,000: with no hold, and with four timers that delay the input. */
#define UP_TO_FIELD_04 1, 0, 4, 1, 1, 1, 0, 2, 0, 4, 0, 0, 0xEA, 0x60, 3, 0, 1, 0, 4, 0, 1, 0
#define TIMER 0, 0, 0, 9, 0, 0, 0, 1
static const uint8_t holds[] = { UP_TO_FIELD_04, 5, 0, 4, 0, 0, 0, 0, 6, 0, 4, 0, 0, 0, 0 };
static const uint8_t timers[] = { UP_TO_FIELD_04, 7, 0, 32, TIMER, TIMER, TIMER, TIMER,
                                  8, 0, 16, 0, 0, 0, 1, 0, 0, 0, 1, 0, 0, 0, 1, 0, 0, 0, 1 };
static const uint8_t *table;
static size_t table_len;
static uint8_t stimulus[KROSSVIL_STIMULUS_MAX], journal[KROSSVIL_JOURNAL_MAX], new_table[sizeof holds];
static uint64_t report[1 + 2 + 1]; /* for one state and one input */
static uint8_t chain[14 + 3 + 32 + 3 + 32 * 32 + 2 * (3 + 4 * 32)], path[KROSSVIL_PATH_MAX];
static uint32_t sums[KROSSVIL_SUMS_MAX];
static uint8_t salvaged[KROSSVIL_JOURNAL_MAX], stamped[KROSSVIL_STAMPED_MAX], short_journal[KROSSVIL_SHORT_MAX], answer[KROSSVIL_JOURNAL_ANSWER];
static size_t stimulus_len, journal_len, stamped_len, short_len;
static _Alignas(16) uint8_t stack[ROOM];
static ucontext_t here, there;
static uint64_t code;

/* Polls, tests and ticks, a cycle at each instant, up to so many bytes; then the end. */
static void make_stimulus(size_t size)
{
    uint32_t time = 0;
    uint8_t *b = stimulus;
    memcpy(b, (uint8_t[]){ 0x20, 0, 1, 0 }, 4);
    b += 4;
    for (unsigned tag = 0x22; (size_t)(b - stimulus) + 14 <= size; tag = tag == 0x24 ? 0x22 : tag + 1) {
        time += tag == 0x22;
        memcpy(b, (uint8_t[]){ (uint8_t)tag, 0, 4, 0, 0, (uint8_t)(time >> 8), (uint8_t)time }, 7);
        b += 7;
    }
    memcpy(b, (uint8_t[]){ 0x2F, 0, 4, 0, 0, (uint8_t)(time >> 8), (uint8_t)time }, 7);
    stimulus_len = (size_t)(b - stimulus) + 7;
}

/* Polls, each 65,535 after the one before, up to so many bytes; then the end. */
static void make_stamped(size_t size)
{
    uint16_t stamp = 0;
    uint8_t *b = stamped;
    memcpy(b, (uint8_t[]){ 0x10, 0, 1, 0 }, 4);
    for (b += 4; (size_t)(b - stamped) + 11 <= size; b += 6) {
        stamp--;
        memcpy(b, (uint8_t[]){ 0x12, 0, 3, (uint8_t)(stamp >> 8), (uint8_t)stamp, 0 }, 6);
    }
    memcpy(b, (uint8_t[]){ 0x1F, 0, 2, (uint8_t)(stamp >> 8), (uint8_t)stamp }, 5);
    stamped_len = (size_t)(b - stamped) + 5;
}

/* 32 states and 32 inputs with no hold: under every input each state leads to the one after it, and the last stays. The longest path. */
static void make_chain(void)
{
    uint8_t *b = chain;
    memcpy(b, (uint8_t[]){ 1, 0, 4, 32, 32, 1, 0, 2, 0, 4, 0, 0, 0xEA, 0x60, 3, 0, 32 }, 17);
    b += 17 + 32;
    memcpy(b, (uint8_t[]){ 4, 4, 0 }, 3);
    for (unsigned k = 0; k < 32 * 32; k++)
        b[3 + k] = (uint8_t)(k / 32 < 31 ? k / 32 + 1 : 31);
    b += 3 + 32 * 32;
    memcpy(b, (uint8_t[]){ 5, 0, 128 }, 3);
    memcpy(b + 3 + 128, (uint8_t[]){ 6, 0, 128 }, 3);
}

static void check_table(void)
{
    code = krossvil_check_table(table, table_len);
}

static void check_journal(void)
{
    code = krossvil_check_journal(table, table_len, journal, journal_len, answer, sizeof answer);
}

static void run(void)
{
    code = krossvil_run(table, table_len, stimulus, stimulus_len, journal, sizeof journal, answer, sizeof answer);
}

static void reaction(void)
{
    code = krossvil_reaction(table, table_len, 1, 1, answer, sizeof answer);
}

static void reaction_moves(void)
{
    code = krossvil_reaction_moves(chain, sizeof chain, UINT32_MAX, UINT32_MAX, KROSSVIL_MOVES_MAX, sums, KROSSVIL_SUMS_MAX, path,
                                   sizeof path, answer, sizeof answer);
}

static void reaction_tight(void)
{
    code = krossvil_reaction_tight(table, table_len, 1, 1, answer, sizeof answer);
}

static void reaction_tight_moves(void)
{
    code = krossvil_reaction_tight_moves(chain, sizeof chain, UINT32_MAX, UINT32_MAX, KROSSVIL_MOVES_MAX, answer, sizeof answer);
}

static void convert_table(void)
{
    code = krossvil_convert_table(table, table_len, new_table, sizeof new_table, answer, sizeof answer);
}

static void read_stamped(void)
{
    code = krossvil_read_stamped(stamped, stamped_len, journal, sizeof journal, answer, sizeof answer);
}

static void check_short(void)
{
    code = krossvil_check_short(table, table_len, short_journal, short_len, answer, sizeof answer);
}

static void shorten(void)
{
    code = krossvil_shorten(table, table_len, journal, journal_len, short_journal, sizeof short_journal, answer, sizeof answer);
}

static void lengthen(void)
{
    code = krossvil_lengthen(table, table_len, short_journal, short_len, journal, sizeof journal, answer, sizeof answer);
}

/* All but the last byte: the end is torn. */
static void salvage(void)
{
    code = krossvil_salvage(table, table_len, journal, journal_len - 1, salvaged, sizeof salvaged, answer, sizeof answer);
}

static void report_add(void)
{
    code = krossvil_report_add(table, table_len, journal, journal_len, report, sizeof report / sizeof *report);
}

/* The first four fields of a run: opening, poll, test and tick. */
static void live(void)
{
    uint32_t memory[KROSSVIL_LIVE] = { 0 };
    const uint8_t *event = stimulus;
    code = 0;
    for (int k = 0; k < 4 && code == 0; k++, event += 3 + event[2])
        code = krossvil_live(table, table_len, memory, KROSSVIL_LIVE, event, 3u + event[2], salvaged, KROSSVIL_RECORD_MAX, answer,
                             sizeof answer);
}

static void watch(void)
{
    uint32_t memory[KROSSVIL_LIVE] = { 0 };
    const uint8_t *record = journal;
    code = 0;
    for (int k = 0; k < 4 && code == 0; k++, record += 3 + record[2])
        code = krossvil_watch(table, table_len, memory, KROSSVIL_LIVE, record, 3u + record[2], answer, sizeof answer);
}

static void call_on_own_stack(void (*call)(void))
{
    memset(stack, PAINT, sizeof stack);
    getcontext(&there);
    there.uc_stack.ss_sp = stack;
    there.uc_stack.ss_size = sizeof stack;
    there.uc_link = &here;
    makecontext(&there, call, 0);
    swapcontext(&here, &there);
}

/* 1 if the call succeeds within so many bytes. */
static int measure(const char *name, void (*call)(void), size_t promised)
{
    size_t left = 0;
    call_on_own_stack(call); /* at the first call memcpy and the like may still be looked up, which takes stack too */
    call_on_own_stack(call);
    while (left < sizeof stack && stack[left] == PAINT)
        left++;
    int good = code == 0 && sizeof stack - left <= promised;
    printf("%-14s %6zu bytes of stack, at most %6zu: %s\n", name, sizeof stack - left, promised, good ? "ok" : "WRONG");
    return good;
}

/* What is promised goes by these lengths of what is read. */
static const size_t run_stacks[] = { KROSSVIL_RUN_STACK_SHORT, KROSSVIL_RUN_STACK_MEDIUM, KROSSVIL_RUN_STACK };
static const size_t stimulus_sizes[] = { 1792, 14336, KROSSVIL_STIMULUS_MAX }, stamped_sizes[] = { 1536, 12288, KROSSVIL_STAMPED_MAX };

/* The twelve calls that take either kind of table: how many are good. */
static int measure_on(const char *kind, const uint8_t *bytes, size_t len)
{
    int good = 0;
    table = bytes;
    table_len = len;
    printf("on a table with %s:\n", kind);
    for (int k = 0; k < 3; k++) {
        make_stimulus(stimulus_sizes[k]);
        good += measure("run", run, run_stacks[k]);
    }
    journal_len = krossvil_answer(answer, KROSSVIL_WRITTEN);
    good += measure("check_journal", check_journal, KROSSVIL_STACK);
    good += measure("check_table", check_table, KROSSVIL_STACK);
    good += measure("salvage", salvage, KROSSVIL_STACK);
    good += measure("report_add", report_add, KROSSVIL_STACK);
    good += measure("shorten", shorten, KROSSVIL_STACK);
    short_len = krossvil_answer(answer, KROSSVIL_WRITTEN);
    good += measure("check_short", check_short, KROSSVIL_STACK);
    good += measure("lengthen", lengthen, KROSSVIL_STACK);
    good += measure("live", live, KROSSVIL_LIVE_STACK);
    good += measure("watch", watch, KROSSVIL_LIVE_STACK);
    return good;
}

int main(void)
{
    int passed = measure_on("timers", timers, sizeof timers);
    passed += measure_on("holds", holds, sizeof holds);
    passed += measure("reaction", reaction, KROSSVIL_STACK);
    make_chain();
    passed += measure("reaction_moves", reaction_moves, KROSSVIL_STACK);
    passed += measure("reaction_tight", reaction_tight, KROSSVIL_STACK);
    passed += measure("reaction_tight_moves", reaction_tight_moves, KROSSVIL_STACK);
    passed += measure("convert_table", convert_table, KROSSVIL_STACK);
    for (int k = 0; k < 3; k++) {
        make_stamped(stamped_sizes[k]);
        passed += measure("read_stamped", read_stamped, run_stacks[k]);
    }
    printf("%d passed, %d failed\n", passed, 32 - passed);
    return passed != 32;
}
