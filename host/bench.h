/* What host/bench.c measures: inputs, made by chance from a plan (host/bench-inputs.c), and jobs, what is called on them
 * (host/bench-jobs.c). */
#ifndef BENCH_H
#define BENCH_H

#include "krossvil.h"

#include <stdbool.h>

struct plan {
    uint32_t count; /* of states and of inputs */
    uint32_t bound, timers;
    bool idle;          /* a table that was made before there was 11, with idle sets */
    uint32_t moves;     /* of one question; then the states stand in steps */
    bool irregular;     /* run: any steps and any changes, or the same again and again */
    size_t bytes;       /* of the longest run's journal, 0 for no run */
    size_t record_size; /* in that journal: 8, or 6 where it is a short or a stamped one */
};

struct input {
    uint8_t table[KROSSVIL_TABLE_MAX], stimulus[KROSSVIL_STIMULUS_MAX], journal[KROSSVIL_JOURNAL_MAX];
    uint8_t short_journal[KROSSVIL_SHORT_MAX], stamped[KROSSVIL_STAMPED_MAX];
    size_t table_len, stimulus_len, journal_len, short_len, stamped_len;
    uint32_t states, inputs, moves; /* sets of all of them */
};

/* The same plan and number give the same input. */
void make_input(const struct plan *plan, uint32_t number, struct input *in);

/* The functions of include/krossvil.h: the library's, and those of its peers. */
struct side;
extern const struct side library, plain, tuned;

struct job {
    uint64_t (*call)(const struct side *side, const struct input *in, uint8_t *answer);
    size_t (*bytes)(const struct input *in); /* of what is read */
    bool is_tuned;                           /* tuned C has it too */
};

extern const struct job check_table, check_journal, check_short, run, reaction, reaction_tight, reaction_moves, reaction_tight_moves, report_add, live, watch, shorten,
    lengthen, salvage, read_stamped, convert_table;

/* What calls write beside their answers. */
struct written {
    uint8_t bytes[KROSSVIL_JOURNAL_MAX];
    uint64_t report[KROSSVIL_REPORT_MAX];
    uint32_t sums[KROSSVIL_SUMS_MAX];
};

extern struct written written;

#endif
