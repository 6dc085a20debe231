/* A table where it stands, for tuned C, and whether it passes. */
#ifndef TUNED_TABLE_H
#define TUNED_TABLE_H

#include "plain-bytes.h"

#include <string.h>

#if __BYTE_ORDER__ != __ORDER_LITTLE_ENDIAN__
#error "wide loads are written for processors with the least significant byte first"
#endif

static inline uint64_t load8(const uint8_t *b) /* as it stands in memory */
{
    uint64_t x;
    memcpy(&x, b, sizeof x);
    return x;
}

static inline uint32_t load4(const uint8_t *b)
{
    uint32_t x;
    memcpy(&x, b, sizeof x);
    return x;
}

static inline uint32_t number4(const uint8_t *b)
{
    return __builtin_bswap32(load4(b));
}

static inline void store4(uint8_t *b, uint32_t number)
{
    number = __builtin_bswap32(number);
    memcpy(b, &number, sizeof number);
}

struct view {
    uint32_t states, inputs, initial, bound, timers; /* timers: 0 in a table with holds */
    const uint8_t *output, *next, *hold, *delayed;   /* with timers: their lengths and regions, and their sets */
};

/* Is each of the bytes below the limit, which is at most 32? Of many the largest, which the compiler takes from 16 at a time. Few are taken
 * eight at a time: a byte that is not below sets its top bit, by itself or when so much is added. A table has eight bytes more behind its
 * entries, so that the last ones are read with what follows. */
static inline bool all_below(const uint8_t *b, size_t count, uint32_t limit)
{
    const uint64_t each = 0x0101010101010101u, add = each * (128 - limit);
    uint64_t seen = 0, x;
    uint8_t top = 0;
    size_t k = 0;
    if (count >= 64) {
        for (; k < count; k++)
            top = b[k] > top ? b[k] : top;
        return top < limit;
    }
    for (; k + 8 <= count; k += 8) {
        x = load8(b + k);
        seen |= x | (x + add);
    }
    if (k < count) {
        x = load8(b + k) & ((1ull << 8 * (count - k)) - 1);
        seen |= x | (x + add);
    }
    return !(seen & each << 7);
}

static inline bool each_hold_passes(const struct view *v)
{
    uint32_t wrong = 0;
    for (uint32_t q = 0; q < v->states; q++)
        wrong |= number4(v->hold + 4 * q) > LONGEST_HOLD;
    return !wrong;
}

/* Do the fields 05 and 06 pass? Both entries of a state are looked at together, and no way leads out of the loop. No hold is larger than all
 * of them joined; where that tells nothing, each is looked at. */
static inline bool holds_pass(const struct view *v)
{
    uint32_t idle = 0, sets = 0, holds = 0;
    for (uint32_t q = 0; q < v->states; q++) {
        uint32_t set = load4(v->delayed + 4 * q), hold = load4(v->hold + 4 * q);
        sets |= set;
        holds |= hold;
        idle |= hold == 0 ? set : 0;
    }
    return !idle && !(sets & __builtin_bswap32(beyond(v->inputs))) && (__builtin_bswap32(holds) <= LONGEST_HOLD || each_hold_passes(v));
}

static inline bool timers_pass(const struct view *v)
{
    uint32_t wrong = 0, regions = 0, sets = 0;
    for (uint32_t k = 0; k < v->timers; k++) {
        wrong |= number4(v->hold + 8 * k) - 1 >= LONGEST_HOLD;
        regions |= load4(v->hold + 8 * k + 4);
    }
    for (uint32_t k = 0; k < v->states * v->timers; k++)
        sets |= load4(v->delayed + 4 * k);
    return !wrong && !(regions & __builtin_bswap32(beyond(v->states))) && !(sets & __builtin_bswap32(beyond(v->inputs)));
}

/* Is this the head of a field? */
static inline bool head_is(const uint8_t *b, uint32_t tag, uint32_t length)
{
    return number4(b) >> 8 == (tag << 16 | length);
}

/* Fields 05 to 08 begin at `at`, where seven bytes at least are left. What the two have by their counts must be all that is left. */
static inline bool last_pass(const uint8_t *b, size_t len, size_t at, struct view *v)
{
    uint32_t first = 4 * v->states, second = first;
    v->timers = 0;
    if (b[at] == 7) {
        first = get2(b + at + 1);
        v->timers = first / 8;
        second = 4 * v->states * v->timers;
        if (first % 8 != 0 || v->timers - 1 >= MOST_TIMERS)
            return false;
    }
    if (len != at + 6 + first + second)
        return false;
    v->hold = b + at + 3;
    v->delayed = v->hold + first + 3;
    if (v->timers > 0)
        return head_is(v->delayed - 3, 8, second) && timers_pass(v);
    return head_is(b + at, 5, first) && head_is(v->delayed - 3, 6, second) && holds_pass(v);
}

/* Does the table pass? The smallest has 36 bytes. */
static inline bool view_table(const uint8_t *b, size_t len, struct view *v)
{
    if (len < 36)
        return false;
    uint64_t first = __builtin_bswap64(load8(b)), bound = __builtin_bswap64(load8(b + 6));
    uint32_t outputs = first >> 16 & 0xFF;
    v->states = first >> 32 & 0xFF;
    v->inputs = first >> 24 & 0xFF;
    v->initial = first >> 8 & 0xFF;
    v->bound = (uint32_t)bound;
    if (first >> 40 != 0x010004 || (bound >> 32 & 0xFFFFFF) != 0x020004 || v->states - 1 >= 32 || v->inputs - 1 >= 32 || outputs - 1 >= 32 ||
        v->initial >= v->states || v->bound - 1 >= 60000)
        return false;
    uint32_t entries = v->states * v->inputs;
    size_t last = 20 + v->states + entries;
    v->output = b + 17;
    v->next = b + 20 + v->states;
    return len >= last + 14 && head_is(b + 14, 3, v->states) && head_is(v->next - 3, 4, entries) &&
           all_below(v->output, v->states, outputs) && all_below(v->next, entries, v->states) && last_pass(b, len, last, v);
}

#endif
