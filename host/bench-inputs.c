#include "bench.h"
#include "plain.h"

#include <stdio.h>
#include <stdlib.h>

/* ---- chance ---- */

static uint64_t chance;

static uint32_t below(uint32_t count)
{
    chance ^= chance << 13;
    chance ^= chance >> 7;
    chance ^= chance << 17;
    return (uint32_t)(chance >> 32) % count;
}

static void stir(uint64_t number)
{
    chance = (chance ^ number) * 0x9E3779B97F4A7C15u;
    chance ^= chance >> 32;
}

/* By the plan, and not by what was made before: a line has the same inputs whichever lines are measured beside it. */
static void seed(const struct plan *plan, uint32_t number)
{
    chance = 1;
    const uint64_t all[] = { plan->count, plan->bound, plan->timers, plan->idle, plan->irregular, plan->bytes, plan->record_size, number };
    for (size_t k = 0; k < sizeof all / sizeof *all; k++)
        stir(all[k]);
    chance |= 1;
}

/* ---- tables ---- */

static void add(uint8_t *bytes, size_t *len, unsigned byte)
{
    bytes[(*len)++] = (uint8_t)byte;
}

static void add4(uint8_t *bytes, size_t *len, uint32_t number)
{
    for (int shift = 24; shift >= 0; shift -= 8)
        add(bytes, len, number >> shift);
}

static void head(uint8_t *bytes, size_t *len, unsigned tag, size_t length)
{
    add(bytes, len, tag);
    add(bytes, len, (unsigned)(length >> 8));
    add(bytes, len, (unsigned)length);
}

/* A set of some of the first `count`, or of the first 31. */
static uint32_t some_of(uint32_t count)
{
    return below(1u << (count < 31 ? count : 31));
}

/* Every second state has a hold and delays some inputs; idle sets stand at the others. */
static void add_holds(uint8_t *b, size_t *n, const struct plan *plan)
{
    head(b, n, 5, 4 * plan->count);
    for (uint32_t q = 0; q < plan->count; q++)
        add4(b, n, q % 2 * (1 + below(4 * plan->bound)));
    head(b, n, 6, 4 * plan->count);
    for (uint32_t q = 0; q < plan->count; q++)
        add4(b, n, (q % 2 || plan->idle) * some_of(plan->count));
}

/* Each timer has some states for its region and delays some inputs in every state. */
static void add_timers(uint8_t *b, size_t *n, const struct plan *plan)
{
    head(b, n, 7, 8 * plan->timers);
    for (uint32_t k = 0; k < plan->timers; k++) {
        add4(b, n, 1 + below(4 * plan->bound));
        add4(b, n, some_of(plan->count));
    }
    head(b, n, 8, 4 * plan->count * plan->timers);
    for (uint32_t k = 0; k < plan->count * plan->timers; k++)
        add4(b, n, some_of(plan->count));
}

/* Any next state; with several moves the states stand in 8 steps, and every input leads to one of the next step, from the last to one of the
 * same. So from 8 moves on the target is in the last step, and every other state is on some path. */
static uint32_t next_state(const struct plan *plan, uint32_t q)
{
    uint32_t step = plan->count / 8;
    if (plan->moves == 0)
        return below(plan->count);
    return (q / step < 7 ? q / step + 1 : 7) * step + below(step);
}

static void make_table(const struct plan *plan, struct input *in)
{
    uint8_t *b = in->table;
    uint32_t count = plan->count;
    size_t *n = &in->table_len;
    *n = 0;
    head(b, n, 1, 4);
    add4(b, n, count << 24 | count << 16 | count << 8);
    head(b, n, 2, 4);
    add4(b, n, plan->bound);
    head(b, n, 3, count);
    for (uint32_t q = 0; q < count; q++)
        add(b, n, q);
    head(b, n, 4, count * count);
    for (uint32_t k = 0; k < count * count; k++)
        add(b, n, next_state(plan, k / count));
    (plan->timers > 0 ? add_timers : add_holds)(b, n, plan);
    in->states = in->inputs = UINT32_MAX >> (32 - count);
    in->moves = plan->moves;
}

/* ---- runs ---- */

static void add_event(struct input *in, unsigned tag, uint32_t time)
{
    head(in->stimulus, &in->stimulus_len, tag, tag == 0x21 ? 5 : 4);
    add4(in->stimulus, &in->stimulus_len, time);
}

static void add_change(const struct plan *plan, struct input *in, uint32_t time)
{
    add_event(in, 0x21, time);
    add(in->stimulus, &in->stimulus_len, below(plan->count));
}

/* One cycle after `start`; returns its tick. Regular: the same steps each time, and a change now and then. Irregular: changes
 * before and after the poll, and steps of any length. */
static uint32_t add_cycle(const struct plan *plan, struct input *in, uint32_t start, uint32_t number, size_t *records)
{
    bool irregular = plan->irregular, before = irregular ? below(2) : number % 8 == 0, after = irregular && below(3) == 0;
    uint32_t third = plan->bound / 3, time = start;
    if (before) {
        time += irregular ? below(third) : 0;
        add_change(plan, in, time);
    }
    time += 1 + (irregular ? below(third) : 0);
    add_event(in, 0x22, time);
    time += irregular ? below(third / 2) : 0;
    if (after)
        add_change(plan, in, time);
    add_event(in, 0x23, time);
    time += irregular ? below(third / 2) : 0;
    add_event(in, 0x24, time);
    *records += 3 + before + after;
    return time;
}

static void must_pass(uint64_t code)
{
    if (code != 0) {
        fprintf(stderr, "bench: an input is refused\n");
        exit(1);
    }
}

/* The journal with stamps in the place of times. */
static void make_stamped(struct input *in)
{
    in->stamped_len = 0;
    for (const uint8_t *from = in->journal; from < in->journal + in->journal_len; from += 3 + from[2]) {
        size_t cut = from[0] == 0x10 ? 0 : 2; /* bytes of the time */
        head(in->stamped, &in->stamped_len, from[0], from[2] - cut);
        for (size_t k = 3 + cut; k < 3u + from[2]; k++)
            add(in->stamped, &in->stamped_len, from[k]);
    }
}

/* A stimulus, its journal, and that as a short and as a stamped one. */
static void make_run(const struct plan *plan, struct input *in)
{
    uint32_t time = 0;
    size_t records = 0;
    uint8_t answer[4];
    in->stimulus_len = 0;
    head(in->stimulus, &in->stimulus_len, 0x20, 1);
    add(in->stimulus, &in->stimulus_len, 0);
    for (uint32_t k = 0; 11 + plan->record_size * (records + 5) <= plan->bytes && in->stimulus_len + 44 <= KROSSVIL_STIMULUS_MAX; k++)
        time = add_cycle(plan, in, time, k, &records);
    add_event(in, 0x2F, time);
    must_pass(plain_run(in->table, in->table_len, in->stimulus, in->stimulus_len, in->journal, sizeof in->journal, answer, sizeof answer));
    in->journal_len = krossvil_answer(answer, KROSSVIL_WRITTEN);
    must_pass(plain_shorten(in->table, in->table_len, in->journal, in->journal_len, in->short_journal, sizeof in->short_journal, answer,
                            sizeof answer));
    in->short_len = krossvil_answer(answer, KROSSVIL_WRITTEN);
    make_stamped(in);
}

void make_input(const struct plan *plan, uint32_t number, struct input *in)
{
    seed(plan, number);
    make_table(plan, in);
    if (plan->bytes > 0)
        make_run(plan, in);
}
