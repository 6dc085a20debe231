#include "bench.h"
#include "plain.h"
#include "tuned.h"

struct written written;

struct side {
    __typeof__(&krossvil_check_table) check_table;
    __typeof__(&krossvil_check_journal) check_journal;
    __typeof__(&krossvil_check_short) check_short;
    __typeof__(&krossvil_run) run;
    __typeof__(&krossvil_reaction) reaction;
    __typeof__(&krossvil_reaction_tight) reaction_tight;
    __typeof__(&krossvil_reaction_moves) reaction_moves;
    __typeof__(&krossvil_reaction_tight_moves) reaction_tight_moves;
    __typeof__(&krossvil_report_add) report_add;
    __typeof__(&krossvil_live) live;
    __typeof__(&krossvil_watch) watch;
    __typeof__(&krossvil_shorten) shorten;
    __typeof__(&krossvil_lengthen) lengthen;
    __typeof__(&krossvil_salvage) salvage;
    __typeof__(&krossvil_read_stamped) read_stamped;
    __typeof__(&krossvil_convert_table) convert_table;
};

#define TUNED(name)                                                                                                                      \
    .check_table = name##_check_table, .check_journal = name##_check_journal, .reaction = name##_reaction,                               \
    .reaction_tight = name##_reaction_tight, .reaction_moves = name##_reaction_moves
#define NOT_TUNED(name)                                                                                                                  \
    .check_short = name##_check_short, .run = name##_run, .report_add = name##_report_add, .live = name##_live, .watch = name##_watch,   \
    .shorten = name##_shorten, .lengthen = name##_lengthen, .salvage = name##_salvage, .read_stamped = name##_read_stamped,              \
    .convert_table = name##_convert_table, .reaction_tight_moves = name##_reaction_tight_moves

const struct side library = { TUNED(krossvil), NOT_TUNED(krossvil) };
const struct side plain = { TUNED(plain), NOT_TUNED(plain) };
const struct side tuned = { TUNED(tuned) };

static size_t table_bytes(const struct input *in) { return in->table_len; }
static size_t journal_bytes(const struct input *in) { return in->journal_len; }
static size_t short_bytes(const struct input *in) { return in->short_len; }
static size_t stamped_bytes(const struct input *in) { return in->stamped_len; }
static size_t stimulus_bytes(const struct input *in) { return in->stimulus_len; }

static uint64_t call_check_table(const struct side *side, const struct input *in, uint8_t *answer)
{
    (void)answer;
    return side->check_table(in->table, in->table_len);
}

static uint64_t call_check_journal(const struct side *side, const struct input *in, uint8_t *answer)
{
    return side->check_journal(in->table, in->table_len, in->journal, in->journal_len, answer, KROSSVIL_JOURNAL_ANSWER);
}

static uint64_t call_check_short(const struct side *side, const struct input *in, uint8_t *answer)
{
    return side->check_short(in->table, in->table_len, in->short_journal, in->short_len, answer, KROSSVIL_SHORT_ANSWER);
}

static uint64_t call_run(const struct side *side, const struct input *in, uint8_t *answer)
{
    return side->run(in->table, in->table_len, in->stimulus, in->stimulus_len, written.bytes, sizeof written.bytes, answer,
                     KROSSVIL_RUN_ANSWER);
}

static uint64_t call_reaction(const struct side *side, const struct input *in, uint8_t *answer)
{
    return side->reaction(in->table, in->table_len, in->states, in->inputs, answer, KROSSVIL_REACTION_ANSWER);
}

static uint64_t call_reaction_tight(const struct side *side, const struct input *in, uint8_t *answer)
{
    return side->reaction_tight(in->table, in->table_len, in->states, in->inputs, answer, KROSSVIL_TIGHT_ANSWER);
}

static uint64_t call_reaction_moves(const struct side *side, const struct input *in, uint8_t *answer)
{
    return side->reaction_moves(in->table, in->table_len, in->states, in->inputs, in->moves, written.sums, KROSSVIL_SUMS_MAX, written.bytes,
                                KROSSVIL_PATH_MAX, answer, KROSSVIL_MOVES_ANSWER);
}

static uint64_t call_reaction_tight_moves(const struct side *side, const struct input *in, uint8_t *answer)
{
    return side->reaction_tight_moves(in->table, in->table_len, in->states, in->inputs, in->moves, answer, KROSSVIL_TIGHT_MOVES_ANSWER);
}

static uint64_t call_report_add(const struct side *side, const struct input *in, uint8_t *answer)
{
    (void)answer;
    written.report[KROSSVIL_REPORT_ADDED] = 0; /* so that it is never full */
    return side->report_add(in->table, in->table_len, in->journal, in->journal_len, written.report, KROSSVIL_REPORT_MAX);
}

/* A stimulus event by event, from zeros. */
static uint64_t call_live(const struct side *side, const struct input *in, uint8_t *answer)
{
    uint32_t memory[KROSSVIL_LIVE] = { 0 };
    const uint8_t *end = in->stimulus + in->stimulus_len;
    uint8_t *to = written.bytes;
    uint64_t code = 0;
    for (const uint8_t *from = in->stimulus; from < end && code == 0; from += 3u + from[2]) {
        code = side->live(in->table, in->table_len, memory, KROSSVIL_LIVE, from, 3u + from[2], to, KROSSVIL_RECORD_MAX, answer,
                          KROSSVIL_LIVE_ANSWER);
        to += krossvil_answer(answer, KROSSVIL_LIVE_WRITTEN);
    }
    return code;
}

/* A journal record by record, from zeros. */
static uint64_t call_watch(const struct side *side, const struct input *in, uint8_t *answer)
{
    uint32_t memory[KROSSVIL_LIVE] = { 0 };
    const uint8_t *end = in->journal + in->journal_len;
    uint64_t code = 0;
    for (const uint8_t *from = in->journal; from < end && code == 0; from += 3u + from[2])
        code = side->watch(in->table, in->table_len, memory, KROSSVIL_LIVE, from, 3u + from[2], answer, KROSSVIL_WATCH_ANSWER);
    return code;
}

static uint64_t call_shorten(const struct side *side, const struct input *in, uint8_t *answer)
{
    return side->shorten(in->table, in->table_len, in->journal, in->journal_len, written.bytes, sizeof written.bytes, answer,
                         KROSSVIL_SHORTEN_ANSWER);
}

static uint64_t call_lengthen(const struct side *side, const struct input *in, uint8_t *answer)
{
    return side->lengthen(in->table, in->table_len, in->short_journal, in->short_len, written.bytes, sizeof written.bytes, answer,
                          KROSSVIL_LENGTHEN_ANSWER);
}

/* The journal's last three bytes are torn off. */
static uint64_t call_salvage(const struct side *side, const struct input *in, uint8_t *answer)
{
    return side->salvage(in->table, in->table_len, in->journal, in->journal_len - 3, written.bytes, sizeof written.bytes, answer,
                         KROSSVIL_SALVAGE_ANSWER);
}

static uint64_t call_read_stamped(const struct side *side, const struct input *in, uint8_t *answer)
{
    return side->read_stamped(in->stamped, in->stamped_len, written.bytes, sizeof written.bytes, answer, KROSSVIL_STAMPED_ANSWER);
}

static uint64_t call_convert_table(const struct side *side, const struct input *in, uint8_t *answer)
{
    return side->convert_table(in->table, in->table_len, written.bytes, sizeof written.bytes, answer, KROSSVIL_CONVERT_ANSWER);
}

const struct job check_table = { call_check_table, table_bytes, true };
const struct job check_journal = { call_check_journal, journal_bytes, true };
const struct job check_short = { call_check_short, short_bytes, false };
const struct job run = { call_run, stimulus_bytes, false };
const struct job reaction = { call_reaction, table_bytes, true };
const struct job reaction_tight = { call_reaction_tight, table_bytes, true };
const struct job reaction_moves = { call_reaction_moves, table_bytes, true };
const struct job reaction_tight_moves = { call_reaction_tight_moves, table_bytes, false };
const struct job report_add = { call_report_add, journal_bytes, false };
const struct job live = { call_live, stimulus_bytes, false };
const struct job watch = { call_watch, journal_bytes, false };
const struct job shorten = { call_shorten, journal_bytes, false };
const struct job lengthen = { call_lengthen, short_bytes, false };
const struct job salvage = { call_salvage, journal_bytes, false };
const struct job read_stamped = { call_read_stamped, stamped_bytes, false };
const struct job convert_table = { call_convert_table, table_bytes, false };
