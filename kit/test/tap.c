/* Stands between host/differential.c and the native library: it makes each call, and writes to file descriptor 3 what was given and what
 * came back. Linked with --wrap for every function, so that the caller is as it is. kit/test/replay.js reads it. With HASHED defined it is
 * not written: every 1,000 calls a hash of all so far is printed, by which host/test-targets.sh compares processors.
 *
 * A call is its name with a zero byte, the number that came back (8 bytes), how many arguments follow (1 byte), and these. A number is `n`
 * and 4 bytes. A slice is `s`, the width of an entry (1 byte), how many entries (4 bytes), whether it changed (1 byte), its bytes before
 * and, if it changed, its bytes afterwards. All numbers have their least significant byte first. */
#include "krossvil.h"

#include <inttypes.h>
#include <stdio.h>
#include <stdlib.h>
#include <string.h>

enum { MOST_ARGUMENTS = 8 };

struct argument {
    char kind; /* n or s */
    uint32_t number;
    const void *at;
    size_t width, count;
    void *before;
};

static struct argument arguments[MOST_ARGUMENTS];
static unsigned argument_count;

#ifdef HASHED
static uint64_t hash = 0xCBF29CE484222325u;

static void mix(uint32_t number)
{
    hash = (hash ^ number) * 0x100000001B3u;
}

static void put(const void *bytes, size_t count)
{
    const uint8_t *b = bytes;
    for (; count >= 4; count -= 4, b += 4)
        mix(b[0] | (uint32_t)b[1] << 8 | (uint32_t)b[2] << 16 | (uint32_t)b[3] << 24);
    for (; count > 0; count--)
        mix(*b++);
}

static void call_ends(void)
{
    static uint32_t calls;
    if (++calls % 1000 == 0)
        printf("calls %" PRIu32 " hash %016" PRIX64 "\n", calls, hash);
}
#else
static void put(const void *bytes, size_t count)
{
    static FILE *out;
    if (out == NULL && (out = fdopen(3, "wb")) == NULL)
        abort();
    if (count > 0 && fwrite(bytes, 1, count, out) != count)
        abort();
}

static void call_ends(void) {}
#endif

static void put_number(uint64_t number, unsigned bytes)
{
    for (; bytes > 0; bytes--, number >>= 8)
        put(&(uint8_t){ (uint8_t)number }, 1);
}

static struct argument *next_argument(char kind)
{
    if (argument_count == MOST_ARGUMENTS)
        abort();
    struct argument *argument = &arguments[argument_count++];
    argument->kind = kind;
    return argument;
}

static void give_number(uint32_t number)
{
    next_argument('n')->number = number;
}

static void give(const void *at, size_t count, size_t width)
{
    struct argument *slice = next_argument('s');
    slice->at = at;
    slice->width = width;
    slice->count = count;
    slice->before = malloc(count * width + 1);
    if (slice->before == NULL)
        abort();
    memcpy(slice->before, at, count * width);
}

static void put_slice(const struct argument *slice)
{
    size_t size = slice->width * slice->count;
    int changed = memcmp(slice->before, slice->at, size) != 0;
    put_number(slice->width, 1);
    put_number(slice->count, 4);
    put_number((uint64_t)changed, 1);
    put(slice->before, size);
    if (changed)
        put(slice->at, size);
    free(slice->before);
}

static uint64_t came_back(const char *name, uint64_t number)
{
    put(name, strlen(name) + 1);
    put_number(number, 8);
    put_number(argument_count, 1);
    for (unsigned k = 0; k < argument_count; k++) {
        put(&arguments[k].kind, 1);
        if (arguments[k].kind == 'n')
            put_number(arguments[k].number, 4);
        else
            put_slice(&arguments[k]);
    }
    argument_count = 0;
    call_ends();
    return number;
}

#define BYTES(name) name, name##_len
#define TAKES(name) const uint8_t *name, uint64_t name##_len
#define FILLS(name) uint8_t *name, uint64_t name##_len

/* WRAP(function, (its parameters), (their names), what is given) */
#define WRAP(function, parameters, names, ...) \
    uint64_t __real_##function parameters; \
    uint64_t __wrap_##function parameters; \
    uint64_t __wrap_##function parameters \
    { \
        __VA_ARGS__; \
        return came_back(#function, __real_##function names); \
    }

#define TABLE give(table, table_len, 1)
#define INPUT give(input, input_len, 1)
#define OUTPUT give(output, output_len, 1)
#define ANSWER give(answer, answer_len, 1)

#define CHECKS(function) \
    WRAP(function, (TAKES(table), TAKES(input), FILLS(answer)), (BYTES(table), BYTES(input), BYTES(answer)), TABLE, INPUT, ANSWER)
#define REWRITES(function) \
    WRAP(function, (TAKES(table), TAKES(input), FILLS(output), FILLS(answer)), \
         (BYTES(table), BYTES(input), BYTES(output), BYTES(answer)), TABLE, INPUT, OUTPUT, ANSWER)
#define COPIES(function) \
    WRAP(function, (TAKES(input), FILLS(output), FILLS(answer)), (BYTES(input), BYTES(output), BYTES(answer)), INPUT, OUTPUT, ANSWER)
#define REACTS(function) \
    WRAP(function, (TAKES(table), uint32_t states, uint32_t inputs, FILLS(answer)), (BYTES(table), states, inputs, BYTES(answer)), \
         TABLE, give_number(states), give_number(inputs), ANSWER)

WRAP(krossvil_check_table, (TAKES(table)), (BYTES(table)), TABLE)
CHECKS(krossvil_check_journal)
CHECKS(krossvil_check_short)
REWRITES(krossvil_run)
REWRITES(krossvil_shorten)
REWRITES(krossvil_lengthen)
REWRITES(krossvil_salvage)
COPIES(krossvil_convert_table)
COPIES(krossvil_read_stamped)
REACTS(krossvil_reaction)
WRAP(krossvil_report_add, (TAKES(table), TAKES(input), uint64_t *report, uint64_t report_len),
     (BYTES(table), BYTES(input), BYTES(report)), TABLE, INPUT, give(report, report_len, 8))

#ifdef HAS_krossvil_live
#define MEMORY give(live, live_len, 4)
WRAP(krossvil_live, (TAKES(table), uint32_t *live, uint64_t live_len, TAKES(input), FILLS(output), FILLS(answer)),
     (BYTES(table), BYTES(live), BYTES(input), BYTES(output), BYTES(answer)), TABLE, MEMORY, INPUT, OUTPUT, ANSWER)
WRAP(krossvil_watch, (TAKES(table), uint32_t *live, uint64_t live_len, TAKES(input), FILLS(answer)),
     (BYTES(table), BYTES(live), BYTES(input), BYTES(answer)), TABLE, MEMORY, INPUT, ANSWER)
#endif
#ifdef HAS_krossvil_reaction_tight
REACTS(krossvil_reaction_tight)
#endif
#ifdef HAS_krossvil_reaction_tight_moves
WRAP(krossvil_reaction_tight_moves, (TAKES(table), uint32_t states, uint32_t inputs, uint32_t moves, FILLS(answer)),
     (BYTES(table), states, inputs, moves, BYTES(answer)), TABLE, give_number(states), give_number(inputs), give_number(moves), ANSWER)
#endif
#ifdef HAS_krossvil_reaction_moves
WRAP(krossvil_reaction_moves,
     (TAKES(table), uint32_t states, uint32_t inputs, uint32_t moves, uint32_t *sums, uint64_t sums_len, FILLS(path), FILLS(answer)),
     (BYTES(table), states, inputs, moves, BYTES(sums), BYTES(path), BYTES(answer)), TABLE, give_number(states), give_number(inputs),
     give_number(moves), give(sums, sums_len, 4), give(path, path_len, 1), ANSWER)
#endif
