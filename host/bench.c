/* Times the library and its peers, plain C and tuned C, on the same bytes, as docs/SPEED.md says.
 *
 *     bench time PATTERN        times, a line for each job whose name has the pattern
 *     bench make PATTERN FILE   the inputs of these jobs
 *     bench count FILE          calls each once, between marks, for an emulator that logs every instruction
 */
#include "bench.h"

#include <regex.h>
#include <stdarg.h>
#include <stdio.h>
#include <stdlib.h>
#include <string.h>
#include <time.h>
#include <unistd.h>

enum { ROUNDS = 61, ROTATION = 16, ROUND_NS = 400000, ANSWER = KROSSVIL_JOURNAL_ANSWER };

/* ---- lines ---- */

struct line {
    char name[40];
    const struct job *job;
    struct plan plan;
};

static struct line lines[128];
static size_t line_count;

__attribute__((format(printf, 3, 4))) static void add_line(const struct job *job, struct plan plan, const char *name, ...)
{
    struct line *line = &lines[line_count++];
    va_list words;
    va_start(words, name);
    vsnprintf(line->name, sizeof line->name, name, words);
    va_end(words);
    line->job = job;
    line->plan = plan;
}

/* Runs of three sizes. The longest journal that is run from a stimulus has 48 KB as a short or a stamped one. */
static void add_runs(const struct job *job, const char *name, const char *kind, bool irregular, uint32_t timers, bool is_short)
{
    const size_t sizes[] = { 1024, 8192, is_short ? 49152 : 65536 };
    for (int s = 0; s < 3; s++) {
        struct plan plan = { .count = irregular ? 8 : 2, .bound = irregular ? 60 : 6, .timers = timers, .irregular = irregular };
        plan.bytes = sizes[s];
        plan.record_size = is_short ? 6 : 8;
        add_line(job, plan, "%s, %s, %zu KB", name, kind, sizes[s] / 1024);
    }
}

static void add_all_runs(const struct job *job, const char *name, bool is_short)
{
    add_runs(job, name, "regular", false, 0, is_short);
    add_runs(job, name, "irregular", true, 0, is_short);
    add_runs(job, name, "1 timer", true, 1, is_short);
    add_runs(job, name, "4 timers", true, 4, is_short);
}

static const uint32_t counts[] = { 2, 8, 32 };

static void add_tables(const struct job *job, const char *name, bool idle)
{
    for (int k = 0; k < 3; k++) {
        struct plan plan = { .count = counts[k], .bound = 60, .idle = idle };
        add_line(job, plan, "%s, %u states, %u inputs", name, counts[k], counts[k]);
    }
}

/* Where the cost is linear it grows by the same for each move, whatever the table's check costs. */
static void add_moves(void)
{
    for (uint32_t moves = 8; moves <= 32; moves *= 2)
        add_line(&reaction_moves, (struct plan){ .count = 32, .bound = 60, .moves = moves }, "reaction, 32 states, %u moves", moves);
    for (uint32_t moves = 8; moves <= 32; moves *= 2)
        add_line(&reaction_tight_moves, (struct plan){ .count = 32, .bound = 60, .moves = moves }, "tight, 32 states, %u moves", moves);
}

/* Irregular runs of 1 KB, so that an event is any of them. In each call the table is checked, which is most of it. */
static void add_live(const struct job *job, const char *name)
{
    for (int k = 0; k < 6; k++) {
        struct plan plan = { .count = counts[k / 2], .bound = 60, .timers = k % 2 * 4, .irregular = true, .bytes = 1024, .record_size = 8 };
        add_line(job, plan, "%s, %u by %u, %s", name, plan.count, plan.count, k % 2 ? "4 timers" : "holds");
    }
}

static void add_lines(void)
{
    add_all_runs(&check_journal, "journal check", false);
    add_all_runs(&run, "runtime", false);
    add_all_runs(&check_short, "short check", true);
    add_all_runs(&report_add, "report", false);
    add_tables(&check_table, "table check", false);
    add_tables(&reaction, "reaction", false);
    add_tables(&reaction_tight, "tight", false);
    add_moves();
    add_live(&live, "live");
    add_live(&watch, "watch");
    add_runs(&shorten, "shorten", "irregular", true, 0, false);
    add_runs(&lengthen, "lengthen", "irregular", true, 0, true);
    add_runs(&salvage, "salvage", "irregular", true, 0, false);
    add_runs(&read_stamped, "read stamped", "irregular", true, 0, true);
    add_tables(&convert_table, "convert", true);
}

/* Leaves the lines whose names have the pattern. */
static void pick(const char *pattern)
{
    regex_t wanted;
    size_t picked = 0;
    if (regcomp(&wanted, pattern, REG_EXTENDED | REG_NOSUB) != 0) {
        fprintf(stderr, "bench: '%s' is no pattern\n", pattern);
        exit(2);
    }
    for (size_t k = 0; k < line_count; k++)
        if (regexec(&wanted, lines[k].name, 0, NULL, 0) == 0)
            lines[picked++] = lines[k];
    line_count = picked;
    if (picked == 0) {
        fprintf(stderr, "bench: no line has '%s' in its name\n", pattern);
        exit(2);
    }
}

/* ---- the same answers ---- */

static struct input inputs[ROTATION];

struct outcome {
    uint64_t code;
    uint8_t answer[ANSWER];
    struct written written;
};

static void outcome_of(const struct job *job, const struct side *side, const struct input *in, struct outcome *outcome)
{
    memset(&written, 0, sizeof written);
    memset(outcome->answer, 0, ANSWER);
    outcome->code = job->call(side, in, outcome->answer);
    outcome->written = written;
}

/* A peer must give the same number, the same answer and the same bytes, sums or report as the library; and nothing here is refused. */
static void must_agree(const struct line *line, const struct side *peer)
{
    static struct outcome a, b;
    for (int k = 0; k < ROTATION; k++) {
        outcome_of(line->job, &library, &inputs[k], &a);
        outcome_of(line->job, peer, &inputs[k], &b);
        if (a.code != 0 || b.code != 0 || memcmp(a.answer, b.answer, ANSWER) != 0 || memcmp(&a.written, &b.written, sizeof written) != 0) {
            fprintf(stderr, "bench: %s: the library and a peer differ\n", line->name);
            exit(1);
        }
    }
}

/* ---- times ---- */

static volatile uint64_t sink;

static double now(void)
{
    struct timespec t;
    clock_gettime(CLOCK_MONOTONIC, &t);
    return (double)t.tv_sec * 1e9 + (double)t.tv_nsec;
}

/* Nanoseconds a call, over the rotation so many times. */
static double time_calls(const struct job *job, const struct side *side, int times)
{
    uint8_t answer[ANSWER];
    uint64_t sum = 0;
    double start = now();
    for (int n = 0; n < times; n++)
        for (int k = 0; k < ROTATION; k++)
            sum += job->call(side, &inputs[k], answer);
    double end = now();
    sink = sum;
    return (end - start) / (times * ROTATION);
}

static int ascending(const void *a, const void *b)
{
    double x = *(const double *)a, y = *(const double *)b;
    return (x > y) - (x < y);
}

static void print_ratio(double *ratios)
{
    qsort(ratios, ROUNDS, sizeof *ratios, ascending);
    printf("   %.2f (%.2f to %.2f)", ratios[ROUNDS / 2], ratios[ROUNDS / 4], ratios[ROUNDS - 1 - ROUNDS / 4]);
}

/* The sides take turns, forwards and backwards. */
static void time_line(const struct line *line)
{
    const struct side *sides[] = { &library, &plain, &tuned };
    int count = line->job->is_tuned ? 3 : 2;
    double ns[3][ROUNDS], ratio[3][ROUNDS], bytes = 0;
    for (uint32_t k = 0; k < ROTATION; k++) {
        make_input(&line->plan, k, &inputs[k]);
        bytes += (double)line->job->bytes(&inputs[k]) / ROTATION;
    }
    for (int s = 1; s < count; s++)
        must_agree(line, sides[s]);
    int times = 1 + (int)(ROUND_NS / (time_calls(line->job, &plain, 1) * ROTATION));
    for (int k = 0; k < ROUNDS; k++) {
        for (int n = 0; n < count; n++) {
            int s = k % 2 ? n : count - 1 - n;
            ns[s][k] = time_calls(line->job, sides[s], times);
        }
        for (int s = 1; s < count; s++)
            ratio[s][k] = ns[0][k] / ns[s][k];
    }
    for (int s = 0; s < count; s++)
        qsort(ns[s], ROUNDS, sizeof **ns, ascending);
    printf("%-34s %7.0f %10.0f %8.0f %10.0f", line->name, bytes, ns[0][ROUNDS / 2], bytes / ns[0][ROUNDS / 2] * 1000, ns[1][ROUNDS / 2]);
    if (count == 3)
        printf(" %10.0f", ns[2][ROUNDS / 2]);
    else
        printf(" %10s", "-");
    for (int s = 1; s < count; s++)
        print_ratio(ratio[s]);
    printf("\n");
    fflush(stdout);
}

/* ---- counts ---- */

struct made {
    struct line line;
    struct input input;
};

static void write_inputs(const char *path)
{
    static struct made made;
    FILE *file = fopen(path, "wb");
    for (size_t k = 0; file && k < line_count; k++) {
        made.line = lines[k];
        make_input(&made.line.plan, 0, &made.input);
        if (fwrite(&made, sizeof made, 1, file) != 1)
            break;
    }
    if (!file || fclose(file) != 0) {
        fprintf(stderr, "bench: %s cannot be written\n", path);
        exit(1);
    }
}

/* In a log of instructions, this name stands before the library's call and behind each. */
__attribute__((noinline)) static void mark(void)
{
    __asm__ volatile("");
}

static void count_line(const struct made *made)
{
    uint8_t answer[ANSWER];
    const struct job *job = made->line.job;
    mark();
    sink = job->call(&library, &made->input, answer);
    mark();
    sink = job->call(&plain, &made->input, answer);
    mark();
    if (job->is_tuned)
        sink = job->call(&tuned, &made->input, answer);
    mark();
    printf("%s|%zu|%d\n", made->line.name, job->bytes(&made->input), job->is_tuned);
}

/* Straight from the file: whatever is done here is logged too. The program that wrote it is the same, so that addresses are. */
static void count_inputs(void)
{
    static struct made made;
    while (read(STDIN_FILENO, &made, sizeof made) == sizeof made)
        count_line(&made);
}

int main(int argc, char **argv)
{
    if (argc == 2 && strcmp(argv[1], "count") == 0) {
        count_inputs();
        return 0;
    }
    if (argc < 3)
        return 2;
    add_lines();
    pick(argv[2]);
    if (argc == 4)
        write_inputs(argv[3]);
    for (size_t k = 0; argc == 3 && k < line_count; k++)
        time_line(&lines[k]);
    return 0;
}
