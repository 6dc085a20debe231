/* The table as plain C keeps it: a value, filled while its bytes are checked. */
#ifndef PLAIN_TABLE_H
#define PLAIN_TABLE_H

#include "plain-bytes.h"

struct table {
    uint32_t states, inputs, outputs, initial, bound;
    uint8_t output[32], next[32][32];
    uint32_t timers; /* 0 in a table with holds */
    uint32_t hold[32], delayed[32];
    uint32_t length[MOST_TIMERS], region[MOST_TIMERS], delays[32][MOST_TIMERS];
};

/* A table that was made before there was 11 may have idle sets, and has no timers. */
enum rules { NOW, BEFORE_11 };

/* Fields 05 and 06. */
static uint64_t read_holds(const uint8_t *bytes, size_t len, size_t at, enum rules rules, struct table *t)
{
    uint64_t code;
    uint32_t none = beyond(t->inputs);
    t->timers = 0;
    if ((code = field(bytes, len, at, 5, 4 * t->states)))
        return code;
    for (uint32_t q = 0; q < t->states; q++)
        if ((t->hold[q] = get4(bytes + at + 3 + 4 * q)) > LONGEST_HOLD)
            return refusal(6, at + 3 + 4 * q);
    at += 3 + 4 * t->states;
    if ((code = field(bytes, len, at, 6, 4 * t->states)))
        return code;
    for (uint32_t q = 0; q < t->states; q++) {
        if ((t->delayed[q] = get4(bytes + at + 3 + 4 * q)) & none)
            return refusal(7, at + 3 + 4 * q);
        if (rules == NOW && t->hold[q] == 0 && t->delayed[q] != 0)
            return refusal(11, at + 3 + 4 * q);
    }
    at += 3 + 4 * t->states;
    return at == len ? 0 : refusal(8, at);
}

/* Fields 07 and 08. */
static uint64_t read_timers(const uint8_t *bytes, size_t len, size_t at, struct table *t)
{
    uint64_t code;
    size_t length;
    uint32_t no_state = beyond(t->states), no_input = beyond(t->inputs);
    if (!whole(bytes, len, at, &length))
        return refusal(1, at);
    if (length % 8 != 0 || length < 8 || length > 8 * MOST_TIMERS)
        return refusal(2, at);
    t->timers = (uint32_t)length / 8;
    at += 3;
    for (uint32_t k = 0; k < t->timers; k++, at += 8) {
        if ((t->length[k] = get4(bytes + at)) < 1 || t->length[k] > LONGEST_HOLD)
            return refusal(13, at);
        if ((t->region[k] = get4(bytes + at + 4)) & no_state)
            return refusal(12, at + 4);
    }
    if ((code = field(bytes, len, at, 8, 4 * t->states * t->timers)))
        return code;
    at += 3;
    for (uint32_t q = 0; q < t->states; q++)
        for (uint32_t k = 0; k < t->timers; k++, at += 4)
            if ((t->delays[q][k] = get4(bytes + at)) & no_input)
                return refusal(12, at);
    return at == len ? 0 : refusal(8, at);
}

static uint64_t read_entries(const uint8_t *bytes, size_t len, enum rules rules, struct table *t)
{
    uint64_t code;
    size_t at = 14;
    if ((code = field(bytes, len, at, 3, t->states)))
        return code;
    for (uint32_t q = 0; q < t->states; q++)
        if ((t->output[q] = bytes[at + 3 + q]) >= t->outputs)
            return refusal(5, at + 3 + q);
    at += 3 + t->states;
    if ((code = field(bytes, len, at, 4, t->states * t->inputs)))
        return code;
    for (uint32_t q = 0; q < t->states; q++)
        for (uint32_t i = 0; i < t->inputs; i++)
            if ((t->next[q][i] = bytes[at + 3 + q * t->inputs + i]) >= t->states)
                return refusal(5, at + 3 + q * t->inputs + i);
    at += 3 + t->states * t->inputs;
    if (rules == NOW && at < len && bytes[at] == 7)
        return read_timers(bytes, len, at, t);
    return read_holds(bytes, len, at, rules, t);
}

static uint64_t read_table(const uint8_t *bytes, size_t len, enum rules rules, struct table *t)
{
    uint64_t code;
    if ((code = field(bytes, len, 0, 1, 4)))
        return code;
    t->states = bytes[3];
    t->inputs = bytes[4];
    t->outputs = bytes[5];
    t->initial = bytes[6];
    if (!count_in_range(t->states) || !count_in_range(t->inputs) || !count_in_range(t->outputs) || t->initial >= t->states)
        return refusal(3, 0);
    if ((code = field(bytes, len, 7, 2, 4)))
        return code;
    t->bound = get4(bytes + 10);
    if (t->bound < 1 || t->bound > 60000)
        return refusal(4, 7);
    return read_entries(bytes, len, rules, t);
}

#endif
