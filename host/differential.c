/* Holds the library against the reference: seeded random tables, stimuli, journals, stamped and short journals, and sets,
 * sound and damaged. For each case both are called with their own copies of the same bytes, and the value returned and
 * every byte of every buffer are compared, guard bytes included. Every stimulus and every journal is then given once more field by
 * field, to a live run or a live check, which must say the same as the whole.
 *
 *     differential [CASES [SEED]]
 *
 * A number that an entry can give and that stayed away counts as a failure. The last line is `N passed, M failed`.
 * With SELF defined a second build of the reference (see SECOND in reference.h) stands in for the library. */
#include "reference.h"

#ifdef SELF
uint64_t second_check_table(const uint8_t *, uint64_t);
uint64_t second_check_journal(const uint8_t *, uint64_t, const uint8_t *, uint64_t, uint8_t *, uint64_t);
uint64_t second_run(const uint8_t *, uint64_t, const uint8_t *, uint64_t, uint8_t *, uint64_t, uint8_t *, uint64_t);
uint64_t second_reaction(const uint8_t *, uint64_t, uint32_t, uint32_t, uint8_t *, uint64_t);
uint64_t second_reaction_moves(const uint8_t *, uint64_t, uint32_t, uint32_t, uint32_t, uint32_t *, uint64_t, uint8_t *, uint64_t, uint8_t *,
                               uint64_t);
uint64_t second_reaction_tight(const uint8_t *, uint64_t, uint32_t, uint32_t, uint8_t *, uint64_t);
uint64_t second_reaction_tight_moves(const uint8_t *, uint64_t, uint32_t, uint32_t, uint32_t, uint8_t *, uint64_t);
uint64_t second_convert_table(const uint8_t *, uint64_t, uint8_t *, uint64_t, uint8_t *, uint64_t);
uint64_t second_read_stamped(const uint8_t *, uint64_t, uint8_t *, uint64_t, uint8_t *, uint64_t);
uint64_t second_check_short(const uint8_t *, uint64_t, const uint8_t *, uint64_t, uint8_t *, uint64_t);
uint64_t second_shorten(const uint8_t *, uint64_t, const uint8_t *, uint64_t, uint8_t *, uint64_t, uint8_t *, uint64_t);
uint64_t second_lengthen(const uint8_t *, uint64_t, const uint8_t *, uint64_t, uint8_t *, uint64_t, uint8_t *, uint64_t);
uint64_t second_salvage(const uint8_t *, uint64_t, const uint8_t *, uint64_t, uint8_t *, uint64_t, uint8_t *, uint64_t);
uint64_t second_report_add(const uint8_t *, uint64_t, const uint8_t *, uint64_t, uint64_t *, uint64_t);
uint64_t second_live(const uint8_t *, uint64_t, uint32_t *, uint64_t, const uint8_t *, uint64_t, uint8_t *, uint64_t, uint8_t *, uint64_t);
uint64_t second_watch(const uint8_t *, uint64_t, uint32_t *, uint64_t, const uint8_t *, uint64_t, uint8_t *, uint64_t);
#define krossvil_check_table second_check_table
#define krossvil_check_journal second_check_journal
#define krossvil_run second_run
#define krossvil_reaction second_reaction
#define krossvil_reaction_moves second_reaction_moves
#define krossvil_reaction_tight second_reaction_tight
#define krossvil_reaction_tight_moves second_reaction_tight_moves
#define krossvil_convert_table second_convert_table
#define krossvil_read_stamped second_read_stamped
#define krossvil_check_short second_check_short
#define krossvil_shorten second_shorten
#define krossvil_lengthen second_lengthen
#define krossvil_salvage second_salvage
#define krossvil_report_add second_report_add
#define krossvil_live second_live
#define krossvil_watch second_watch
#else
#include "krossvil.h"
#endif

#include <inttypes.h>
#include <stdbool.h>
#include <stdio.h>
#include <stdlib.h>
#include <string.h>

enum {
    JOURNAL_LIMIT = 65536,
    STIMULUS_LIMIT = 57344,
    STAMPED_LIMIT = 49152,
    SHORT_LIMIT = 65536,
    MOST_RECORDS = 8190, /* between opening and end of a journal, and of a stamped one */
    MOST_SHORT = 10921,  /* and of a short one */
    ROOM = 2 * 65536,
    MOST_PIECES = 11000,
    KEPT = 17 /* numbers of the memory of a live run */
};

/* ---- chance ---- */

/* Every processor gets the same cases of a seed (host/test-targets.sh): where C leaves an order open, no two draws depend on it. */

static uint64_t chance_state;

static uint64_t draw64(void)
{
    uint64_t z = chance_state += 0x9E3779B97F4A7C15u;
    z = (z ^ z >> 30) * 0xBF58476D1CE4E5B9u;
    z = (z ^ z >> 27) * 0x94D049BB133111EBu;
    return z ^ z >> 31;
}

static void seed_case(uint64_t seed, uint64_t number)
{
    chance_state = seed;
    chance_state = draw64() ^ number * 0xD1342543DE82EF95u;
}

/* 0..count-1; 0 for a count of 0. */
static uint32_t below(uint32_t count)
{
    return count == 0 ? 0 : (uint32_t)(draw64() % count);
}

static uint32_t between(uint32_t low, uint32_t high)
{
    return low + below(high - low + 1);
}

static bool percent(unsigned p)
{
    return below(100) < p;
}

static uint32_t low_bits(unsigned count)
{
    return count >= 32 ? 0xFFFFFFFFu : ((uint32_t)1 << count) - 1;
}

/* ---- bytes ---- */

struct bytes {
    size_t len;
    uint8_t at[ROOM];
};

static void add(struct bytes *bytes, unsigned byte)
{
    if (bytes->len < ROOM)
        bytes->at[bytes->len++] = (uint8_t)byte;
}

/* The lowest so many bytes of a number, up to four. */
static void add_number(struct bytes *bytes, uint32_t number, unsigned count)
{
    while (count-- > 0)
        add(bytes, number >> 8 * count & 0xFF);
}

static void add4(struct bytes *bytes, uint32_t number)
{
    add_number(bytes, number, 4);
}

static void head(struct bytes *bytes, unsigned tag, size_t length)
{
    add(bytes, tag);
    add(bytes, (unsigned)(length >> 8 & 0xFF));
    add(bytes, (unsigned)(length & 0xFF));
}

/* One bit of the first so many bytes. */
static void flip_bit(struct bytes *bytes, size_t of)
{
    if (of == 0)
        return;
    uint8_t bit = (uint8_t)(1u << below(8));
    bytes->at[below((uint32_t)of)] ^= bit;
}

/* Damage that knows nothing of fields save where they start. */
static void damage_bytes(struct bytes *bytes, const size_t *starts, size_t count, size_t limit)
{
    size_t start = count == 0 ? 0 : starts[below((uint32_t)count)];
    if (start + 3 > bytes->len)
        start = 0;
    bool headed = bytes->len >= 3;
    switch (below(11)) {
    case 0: /* cut anywhere */
        bytes->len = below((uint32_t)bytes->len + 1);
        break;
    case 1: /* cut at a field, or in its head */
        if (headed)
            bytes->len = start + below(4);
        break;
    case 2: /* the last bytes are missing */
        bytes->len -= bytes->len == 0 ? 0 : below(bytes->len < 8 ? (uint32_t)bytes->len : 8) + 1u;
        break;
    case 3: /* one bit */
        flip_bit(bytes, bytes->len);
        break;
    case 4: /* one byte */
        if (bytes->len > 0) {
            uint8_t byte = (uint8_t)below(256);
            bytes->at[below((uint32_t)bytes->len)] = byte;
        }
        break;
    case 5: /* a length by one, or far off */
        if (headed && percent(70)) {
            bytes->at[start + 2] = (uint8_t)(bytes->at[start + 2] + (percent(50) ? 1 : 255));
        } else if (headed) {
            uint8_t byte = percent(50) ? 0xFF : (uint8_t)below(256);
            bytes->at[start + 1 + below(2)] = byte;
        }
        break;
    case 6: /* a tag: by one, of another family, any */
        if (headed)
            bytes->at[start] = (uint8_t)(percent(40)   ? bytes->at[start] + (percent(50) ? 1u : 255u)
                                         : percent(50) ? bytes->at[start] ^ (between(1, 3) << 4)
                                                       : below(256));
        break;
    case 7: /* a few bytes more */
        for (uint32_t more = between(1, 10); more > 0; more--)
            add(bytes, below(percent(50) ? 256 : 1));
        break;
    case 8: /* many bytes more, around the limit */
        if (percent(35)) {
            size_t wanted = limit - 2 + below(6);
            while (bytes->len < wanted)
                add(bytes, 0x11);
        } else {
            add(bytes, below(256));
        }
        break;
    case 9: /* a byte taken out */
        if (bytes->len > 0) {
            size_t at = below((uint32_t)bytes->len);
            memmove(bytes->at + at, bytes->at + at + 1, bytes->len - at - 1);
            bytes->len--;
        }
        break;
    case 10: /* a byte put in */
        if (bytes->len < ROOM) {
            size_t at = below((uint32_t)bytes->len + 1);
            memmove(bytes->at + at + 1, bytes->at + at, bytes->len - at);
            bytes->at[at] = (uint8_t)below(256);
            bytes->len++;
        }
        break;
    }
}

/* ---- tables ---- */

/* In an old table a state of hold 0 may delay inputs too. In one that leads ahead, with holds, most next states are some way further on
 * in a row of the states. */
enum table_kind { HOLDS, OLD_HOLDS, TIMERS, AHEAD };

/* One place more than a table can have, for a plan that is damaged. */
struct plan {
    unsigned q, i, o, initial;
    uint32_t bound;
    uint32_t output[33], next[33][33];
    uint32_t hold[33], delayed[33];
    bool timed; /* timers in the place of holds */
    unsigned timers;
    uint32_t length[5], region[5], delays[33][5];
};

static unsigned draw_count(void)
{
    static const unsigned corners[] = { 1, 2, 3, 4, 31, 32 };
    return percent(75) ? corners[below(percent(60) ? 4 : 6)] : between(1, 32);
}

static uint32_t draw_bound(void)
{
    static const uint32_t corners[] = { 1, 2, 3, 200, 59999, 60000 };
    return percent(45) ? corners[below(6)] : percent(70) ? between(1, 12) : between(1, 60000);
}

/* Of a hold or of a timer. */
static uint32_t draw_length(uint32_t bound)
{
    if (percent(5))
        return 3600000 - below(2);
    if (percent(5))
        return between(1, 3600000);
    bool multiple = percent(50);
    uint32_t length = multiple ? between(1, 3) * bound : between(1, 6 * bound);
    if (multiple)
        length += below(3);
    return length > 3600000 ? 3600000 : length;
}

static uint32_t draw_set(unsigned count)
{
    uint32_t all = low_bits(count);
    switch (below(6)) {
    case 0: return 0;
    case 1: return all;
    case 2: return (uint32_t)1 << below(count);
    case 3: return (uint32_t)1 << (count - 1);
    case 4: return (uint32_t)draw64() & (uint32_t)draw64() & all;
    default: return (uint32_t)draw64() & all;
    }
}

/* The set and a member that is not below the count, if there can be one. */
static uint32_t beyond(uint32_t set, unsigned count)
{
    if (count < 32)
        set |= (uint32_t)1 << (percent(50) ? count : percent(50) ? 31 : between(count, 31));
    return set;
}

static uint32_t draw_delayed(const struct plan *plan, bool dense)
{
    return dense && percent(70) ? low_bits(plan->i) : draw_set(plan->i);
}

static void draw_holds(struct plan *plan, bool old)
{
    bool dense = percent(50);
    for (unsigned s = 0; s < plan->q; s++) {
        plan->hold[s] = percent(25) ? 0 : draw_length(plan->bound);
        if (plan->hold[s] > 0 || old)
            plan->delayed[s] = draw_delayed(plan, dense);
    }
}

/* A region may be empty, share states with others, and leave out states in which its timer delays inputs. */
static void draw_timers(struct plan *plan)
{
    bool dense = percent(50);
    plan->timed = true;
    plan->timers = between(1, 4);
    for (unsigned k = 0; k < plan->timers; k++) {
        plan->length[k] = draw_length(plan->bound);
        plan->region[k] = percent(50) ? (uint32_t)draw64() & low_bits(plan->q) : draw_set(plan->q);
        for (unsigned s = 0; s < plan->q; s++)
            plan->delays[s][k] = draw_delayed(plan, dense);
    }
}

/* The states stand in any order; the last of them, and here and there another, stays. */
static void lead_ahead(struct plan *plan)
{
    unsigned order[32] = { 0 };
    unsigned stay = below(3) * 2, steps = between(1, 3); /* percent of self-loops; how many states ahead at most */
    for (unsigned k = 0; k < plan->q; k++) {
        unsigned other = percent(50) ? k : below(k + 1);
        order[k] = order[other];
        order[other] = k;
    }
    for (unsigned k = 0; k < plan->q; k++)
        for (unsigned a = 0; a < plan->i; a++) {
            unsigned ahead = percent(stay) ? k : k + between(1, steps);
            plan->next[order[k]][a] = order[ahead < plan->q ? ahead : plan->q - 1];
        }
}

static void draw_plan(struct plan *plan, enum table_kind kind)
{
    memset(plan, 0, sizeof *plan);
    plan->q = draw_count();
    plan->i = draw_count();
    plan->o = draw_count();
    plan->initial = percent(30) ? plan->q - 1 : below(plan->q);
    plan->bound = draw_bound();
    unsigned stay = below(3) * 30;                            /* percent of self-loops */
    unsigned span = percent(70) ? plan->q : 1 + below(plan->q); /* next states come from these */
    for (unsigned s = 0; s < plan->q; s++) {
        plan->output[s] = percent(20) ? plan->o - 1 : below(plan->o);
        for (unsigned a = 0; a < plan->i; a++)
            plan->next[s][a] = percent(stay) ? s : percent(10) ? plan->q - 1 : below(span);
    }
    if (kind == TIMERS)
        draw_timers(plan);
    else
        draw_holds(plan, kind == OLD_HOLDS);
    if (kind == AHEAD)
        lead_ahead(plan);
}

static uint32_t draw_too_long(void)
{
    static const uint32_t lengths[] = { 3600001, 3600002, 0x00FFFFFF, 0x80000000u, 0xFFFFFFFFu, 0x0136EE80u };
    return lengths[below(6)];
}

static void damage_holds(struct plan *plan)
{
    unsigned s = below(plan->q);
    switch (below(3)) {
    case 0: plan->hold[s] = draw_too_long(); break;
    case 1: plan->delayed[s] = beyond(plan->delayed[s], plan->i); break;
    case 2: /* inputs delayed with no hold, some of them unknown: 11, or 7 before it */
        plan->hold[s] = 0;
        plan->delayed[s] |= (uint32_t)1 << below(plan->i);
        if (percent(30))
            plan->delayed[s] = beyond(plan->delayed[s], plan->i);
        break;
    }
}

static void damage_timers(struct plan *plan)
{
    unsigned s = below(plan->q), k = below(plan->timers);
    switch (below(4)) {
    case 0: /* a wrong length, perhaps with a wrong region: 13, and then 12 */
        plan->length[k] = percent(50) ? 0 : draw_too_long();
        if (percent(40))
            plan->region[k] = beyond(plan->region[k], plan->q);
        break;
    case 1: plan->region[k] = beyond(plan->region[k], plan->q); break;
    case 2: plan->delays[s][k] = beyond(plan->delays[s][k], plan->i); break;
    case 3: plan->timers = percent(50) ? 0 : 5; break;
    }
}

/* One entry out of range, or two. */
static void damage_plan(struct plan *plan)
{
    static const uint32_t bounds[] = { 0, 60001, 65536, 0x01000001u, 0xFFFFFFFFu };
    unsigned s = below(plan->q), a = below(plan->i);
    switch (below(11)) {
    case 0: plan->q = percent(40) ? 0 : percent(70) ? 33 : between(33, 255); break;
    case 1: plan->i = percent(40) ? 0 : percent(70) ? 33 : between(33, 255); break;
    case 2: plan->o = percent(40) ? 0 : percent(70) ? 33 : between(33, 255); break;
    case 3: plan->initial = percent(70) ? plan->q : between(plan->q, 255); break;
    case 4: plan->bound = bounds[below(5)]; break;
    case 5: plan->output[s] = percent(70) ? plan->o : 255; break;
    case 6: plan->next[s][a] = percent(70) ? plan->q : 255; break;
    default:
        if (plan->timed)
            damage_timers(plan);
        else
            damage_holds(plan);
        break;
    }
}

static void write_holds(const struct plan *plan, unsigned q, struct bytes *bytes, size_t *starts)
{
    starts[4] = bytes->len;
    head(bytes, 0x05, 4 * (size_t)q);
    for (unsigned s = 0; s < q; s++)
        add4(bytes, plan->hold[s]);
    starts[5] = bytes->len;
    head(bytes, 0x06, 4 * (size_t)q);
    for (unsigned s = 0; s < q; s++)
        add4(bytes, plan->delayed[s]);
}

static void write_timers(const struct plan *plan, unsigned q, struct bytes *bytes, size_t *starts)
{
    starts[4] = bytes->len;
    head(bytes, 0x07, 8 * (size_t)plan->timers);
    for (unsigned k = 0; k < plan->timers; k++) {
        add4(bytes, plan->length[k]);
        add4(bytes, plan->region[k]);
    }
    starts[5] = bytes->len;
    head(bytes, 0x08, 4 * (size_t)q * plan->timers);
    for (unsigned s = 0; s < q; s++)
        for (unsigned k = 0; k < plan->timers; k++)
            add4(bytes, plan->delays[s][k]);
}

/* `starts` takes six places. A damaged count goes into field 01; the other fields keep the old size half the time. */
static void write_table(const struct plan *plan, unsigned q, unsigned i, struct bytes *bytes, size_t *starts)
{
    bytes->len = 0;
    starts[0] = bytes->len;
    head(bytes, 0x01, 4);
    add(bytes, plan->q);
    add(bytes, plan->i);
    add(bytes, plan->o);
    add(bytes, plan->initial);
    starts[1] = bytes->len;
    head(bytes, 0x02, 4);
    add4(bytes, plan->bound);
    starts[2] = bytes->len;
    head(bytes, 0x03, q);
    for (unsigned s = 0; s < q; s++)
        add(bytes, plan->output[s]);
    starts[3] = bytes->len;
    head(bytes, 0x04, (size_t)q * i);
    for (unsigned s = 0; s < q; s++)
        for (unsigned a = 0; a < i; a++)
            add(bytes, plan->next[s][a]);
    if (plan->timed)
        write_timers(plan, q, bytes, starts);
    else
        write_holds(plan, q, bytes, starts);
}

/* Gives one of the last two fields, or both, the tag of the other kind of table. */
static void mix_kinds(struct bytes *bytes, const size_t *starts)
{
    uint32_t fields = between(1, 3);
    if (fields & 1)
        bytes->at[starts[4]] ^= 0x05 ^ 0x07;
    if (fields & 2)
        bytes->at[starts[5]] ^= 0x06 ^ 0x08;
}

static void draw_table(struct plan *plan, struct bytes *bytes, enum table_kind kind, bool damaged)
{
    size_t starts[6];
    draw_plan(plan, kind);
    struct plan written = *plan;
    if (damaged && percent(60)) {
        damage_plan(&written); /* a second time only while the counts stand: it draws within them */
        if (percent(25) && written.q == plan->q && written.i == plan->i && written.timers == plan->timers)
            damage_plan(&written);
        damaged = percent(25);
    }
    bool follow = percent(50);
    write_table(&written, follow && written.q <= 33 ? written.q : plan->q,
                follow && written.i <= 33 ? written.i : plan->i, bytes, starts);
    if (damaged && percent(15)) {
        mix_kinds(bytes, starts);
    } else if (damaged) {
        if (percent(20)) { /* a field or more is missing */
            size_t from = starts[below(6)], to = starts[below(6)];
            if (from < to) {
                memmove(bytes->at + from, bytes->at + to, bytes->len - to);
                bytes->len -= to - from;
            }
        }
        damage_bytes(bytes, starts, 6, JOURNAL_LIMIT);
    }
}

/* ---- journals, stimuli, stamped and short journals ---- */

/* What an entry takes beside the table, or writes. */
enum form { JOURNAL, STIMULUS, STAMPED, SHORT, TABLE, REPORT, SUMS, MEMORY, NOTHING };

static const char *const form_names[] = { "journal", "stimulus", "stamped journal", "short journal" };
static const size_t limits[] = { JOURNAL_LIMIT, STIMULUS_LIMIT, STAMPED_LIMIT, SHORT_LIMIT };

enum kind { OPENING, CHANGE, POLL, TEST, TICK, END };

struct piece {
    enum kind kind;
    uint32_t time, value;
    uint32_t latest;   /* when it was drawn: cycle start + E */
    uint32_t hold_end; /* when it was drawn: the end of the hold, or of a timer */
};

static struct piece pieces[MOST_PIECES];
static size_t piece_count;
static size_t piece_starts[MOST_PIECES];

static unsigned time_size(enum kind kind, enum form form)
{
    return kind == OPENING ? 0 : form == STAMPED || form == SHORT ? 2 : 4;
}

static bool has_value(enum kind kind, enum form form)
{
    return kind <= CHANGE || (kind != END && form != STIMULUS);
}

static size_t value_size(enum kind kind, enum form form)
{
    return time_size(kind, form) + (has_value(kind, form) ? 1u : 0u);
}

static size_t field_size(enum kind kind, enum form form)
{
    return 3 + value_size(kind, form);
}

/* A stamp is what two bytes have of a time, a gap what they have of the time since the record before. */
static void write_pieces(enum form form, struct bytes *bytes)
{
    static const unsigned families[] = { 0x10, 0x20, 0x10, 0x30 }, tags[] = { 0x0, 0x1, 0x2, 0x3, 0x4, 0xF };
    uint32_t before = 0;
    bytes->len = 0;
    for (size_t k = 0; k < piece_count; k++) {
        const struct piece *piece = &pieces[k];
        piece_starts[k] = bytes->len;
        head(bytes, families[form] | tags[piece->kind], value_size(piece->kind, form));
        add_number(bytes, form == SHORT ? piece->time - before : piece->time, time_size(piece->kind, form));
        if (has_value(piece->kind, form))
            add(bytes, piece->value);
        if (piece->kind != OPENING)
            before = piece->time;
    }
}

static uint32_t draw_time(uint32_t low, uint32_t high)
{
    if (low >= high)
        return low;
    switch (below(8)) {
    case 0:
    case 1: return low;
    case 2: return low + 1;
    case 3: return high;
    case 4: return high - low > 4 ? low + between(1, 4) : high;
    default: return between(low, high);
    }
}

/* As draw_time, but likely at the end of the hold where that can be had. */
static uint32_t draw_time_near(uint32_t low, uint32_t high, uint32_t hold_end)
{
    uint32_t wanted = hold_end + below(2);
    if (wanted >= low && wanted <= high && percent(60))
        return wanted;
    return draw_time(low, high);
}

/* Of the machine only what it takes to draw telling times. */
struct machine {
    unsigned state;
    uint32_t entry, region_entry[4];
};

/* When the hold of the state ends, or some timer. */
static uint32_t draw_hold_end(const struct plan *plan, const struct machine *m)
{
    unsigned k = below(plan->timers);
    return plan->timed ? m->region_entry[k] + plan->length[k] : m->entry + plan->hold[m->state];
}

static bool holds(const struct plan *plan, const struct machine *m, unsigned polled, uint32_t time)
{
    unsigned s = m->state;
    for (unsigned k = 0; k < plan->timers; k++)
        if ((plan->region[k] >> s & 1) && (plan->delays[s][k] >> polled & 1) &&
            time <= m->region_entry[k] + plan->length[k])
            return true;
    return plan->hold[s] > 0 && (plan->delayed[s] >> polled & 1) && time <= m->entry + plan->hold[s];
}

static void move(const struct plan *plan, struct machine *m, unsigned state, uint32_t time)
{
    for (unsigned k = 0; k < plan->timers; k++)
        if ((plan->region[k] >> state & 1) && !(plan->region[k] >> m->state & 1))
            m->region_entry[k] = time;
    m->state = state;
    m->entry = time;
}

/* The records of a run, in this form of at most `limit` bytes, and of just that many if `limit` is reached. */
static void draw_records(const struct plan *plan, unsigned cycles, enum form form, size_t limit, unsigned changes)
{
    struct machine m = { .state = plan->initial };
    unsigned phase = 0, input = below(plan->i), polled = input;
    uint32_t now = 0, last_change = 0, start = 0, ticks = 0;
    size_t room = limit - field_size(OPENING, form) - field_size(END, form);
    bool lazy = percent(30); /* long cycles */
    pieces[0] = (struct piece){ .kind = OPENING, .value = input };
    piece_count = 1;
    unsigned stop_phase = below(4);
    for (;;) {
        uint32_t high = start + plan->bound, hold_end = draw_hold_end(plan, &m);
        struct piece piece = { .latest = high, .hold_end = hold_end };
        if (room < field_size(POLL, form) || piece_count + 2 >= MOST_PIECES || (ticks >= cycles && phase >= stop_phase))
            break;
        bool change = percent(changes);
        if (room < 120)
            change = room % field_size(POLL, form) != 0;
        if (phase == 0 && now >= high)
            change = false; /* else no poll could follow */
        if (change && room >= field_size(CHANGE, form)) {
            piece.kind = CHANGE;
            piece.time = draw_time(now, phase == 0 ? high - 1 : high);
            piece.value = percent(25) ? input : below(plan->i);
            input = piece.value;
            last_change = piece.time;
        } else if (phase == 0) {
            uint32_t low = now;
            if (low <= last_change)
                low = last_change + 1;
            if (low <= start)
                low = start + 1;
            if (low > high)
                break;
            piece.kind = POLL;
            piece.time = draw_time_near(low, high, hold_end);
            polled = piece.value = input;
            phase = 1;
        } else if (phase == 1) {
            piece.kind = TEST;
            piece.time = draw_time_near(now, high, hold_end);
            bool held = holds(plan, &m, polled, piece.time);
            piece.value = held ? 0 : 1;
            phase = held ? 2 : 3;
        } else {
            piece.kind = TICK;
            piece.time = lazy ? high : draw_time_near(now, high, hold_end);
            if (phase == 3 && plan->next[m.state][polled] != m.state)
                move(plan, &m, plan->next[m.state][polled], piece.time);
            piece.value = m.state;
            start = piece.time;
            phase = 0;
            ticks++;
        }
        room -= field_size(piece.kind, form);
        now = piece.time;
        pieces[piece_count++] = piece;
    }
    uint32_t high = start + plan->bound;
    uint32_t end = draw_time(now, high);
    pieces[piece_count++] = (struct piece){ .kind = END, .time = end, .latest = high, .hold_end = draw_hold_end(plan, &m) };
}

/* How long until the next record of a stamped journal: likely 0, 1, a turn of the counter less one, about half a turn,
 * or until the counter is at 65,535 or at 0. */
static uint32_t draw_gap(uint32_t now)
{
    uint32_t to_last = 65535 - (now & 0xFFFF);
    switch (below(8)) {
    case 0: return 0;
    case 1: return 1;
    case 2: return 65535;
    case 3: return 32767 + below(3);
    case 4: return to_last;
    case 5: return to_last < 65535 ? to_last + 1 : 0;
    default: return below(65536);
    }
}

/* A stamped journal of so many records between opening and end, of any kinds and values: no machine need have done it. */
static void draw_stamped(size_t count)
{
    uint32_t now = 0, values = percent(50) ? 256 : 2;
    pieces[0] = (struct piece){ .kind = OPENING, .value = below(values) };
    for (size_t k = 1; k <= count + 1; k++) {
        now += draw_gap(now);
        enum kind kind = (enum kind)between(CHANGE, TICK);
        pieces[k] = (struct piece){ .kind = kind, .time = now, .value = below(values) };
    }
    pieces[count + 1].kind = END;
    piece_count = count + 2;
}

static void damage_time(struct piece *piece, uint32_t before)
{
    switch (below(12)) {
    case 0: piece->time++; break;
    case 1: piece->time--; break;
    case 2: piece->time = piece->latest; break;
    case 3:
    case 4: piece->time = piece->latest + 1; break;
    case 5: piece->time = piece->hold_end; break;
    case 6: piece->time = piece->hold_end + 1; break;
    case 7: piece->time = before; break;
    case 8: piece->time = before - 1; break;
    case 9: piece->time = percent(50) ? 0 : below(1000); break;
    case 10: piece->time = 2000000000 + below(2); break;
    case 11: piece->time = percent(50) ? 0xFFFFFFFFu : (uint32_t)draw64(); break;
    }
}

/* The time of a record. The records after it stay where they are, or as far behind it as they were. */
static void damage_time_at(size_t k, bool along)
{
    uint32_t time = pieces[k].time;
    damage_time(&pieces[k], pieces[k - 1].time);
    for (size_t later = k + 1; along && later < piece_count; later++)
        pieces[later].time += pieces[k].time - time;
}

static void damage_value(struct piece *piece, const struct plan *plan)
{
    uint32_t count = piece->kind == TEST ? 2 : piece->kind == TICK ? plan->q : plan->i;
    piece->value = percent(50) ? below(count) : percent(50) ? (piece->value + 1) % count : percent(70) ? count : 255;
}

static void insert_piece(size_t at, struct piece piece)
{
    if (piece_count >= MOST_PIECES)
        return;
    memmove(pieces + at + 1, pieces + at, (piece_count - at) * sizeof *pieces);
    pieces[at] = piece;
    piece_count++;
}

static void remove_piece(size_t at)
{
    memmove(pieces + at, pieces + at + 1, (piece_count - at - 1) * sizeof *pieces);
    piece_count--;
}

static void damage_pieces(const struct plan *plan, enum form form)
{
    if (piece_count < 2)
        return;
    /* Late records tell the most: what comes before them has to pass. */
    size_t k = percent(25) ? piece_count - 1 : between(1, (uint32_t)piece_count - 1);
    size_t poll = k; /* the last poll up to there, or the record itself */
    for (size_t back = k; back > 0 && pieces[poll].kind != POLL; back--)
        if (pieces[back].kind == POLL)
            poll = back;
    switch (below(14)) {
    case 0:
    case 1:
    case 2:
    case 3: damage_time_at(k, form == SHORT && percent(60)); break;
    case 4:
    case 5: damage_value(&pieces[percent(10) ? 0 : k], plan); break;
    case 6: { /* two records change places */
        size_t other = percent(70) ? k - 1 : below((uint32_t)piece_count);
        struct piece piece = pieces[k];
        pieces[k] = pieces[other];
        pieces[other] = piece;
        if (percent(50)) { /* but the times stay */
            uint32_t time = pieces[k].time;
            pieces[k].time = pieces[other].time;
            pieces[other].time = time;
        }
        break;
    }
    case 7: remove_piece(percent(15) ? 0 : k); break;
    case 8: insert_piece(k, pieces[percent(15) ? 0 : k]); break;
    case 9: { /* a second opening, or an end too soon */
        struct piece piece = pieces[k];
        piece.kind = percent(50) ? OPENING : END;
        if (percent(40))
            damage_value(&piece, plan);
        if (percent(20))
            damage_time(&piece, pieces[k - 1].time);
        insert_piece(percent(10) ? 0 : k, piece);
        break;
    }
    case 10: pieces[k].kind = (enum kind)below(6); break;
    case 11: { /* a change at the instant of the record after, or before */
        struct piece piece = pieces[k];
        piece.kind = CHANGE;
        piece.time = pieces[percent(50) ? k : k - 1].time;
        piece.value = below(plan->i);
        insert_piece(k, piece);
        break;
    }
    case 12: /* a poll at the instant of the change or tick before it */
        pieces[poll].time = pieces[poll - 1].time;
        break;
    case 13: { /* a change that changes nothing, at the instant of the poll */
        struct piece piece = pieces[poll];
        piece.kind = CHANGE;
        insert_piece(poll, piece);
        break;
    }
    }
}

/* ---- one case ---- */

enum entry {
    CHECK_TABLE, CHECK_JOURNAL, RUN, REACTION, CONVERT_TABLE, READ_STAMPED, CHECK_SHORT, SHORTEN, LENGTHEN, SALVAGE, REPORT_ADD,
    REACTION_MOVES, REACTION_TIGHT, TIGHT_MOVES, LIVE, WATCH, ENTRIES
};

static const struct {
    const char *name;
    enum form takes, writes;
    size_t answer_size;
    unsigned share, damaged; /* percent: of the random cases, and how many of these have a damaged table; the last five have no share:
                                three follow each REACTION, two of them with a table of their own, and LIVE and WATCH follow each
                                stimulus and each journal, field by field */
} entries[ENTRIES] = {
    [CHECK_TABLE] = { "check_table", NOTHING, NOTHING, 0, 13, 65 },
    [CHECK_JOURNAL] = { "check_journal", JOURNAL, NOTHING, 28, 19, 11 },
    [RUN] = { "run", STIMULUS, JOURNAL, 4, 17, 12 },
    [REACTION] = { "reaction", NOTHING, NOTHING, 8, 12, 14 },
    [CONVERT_TABLE] = { "convert_table", NOTHING, TABLE, 4, 7, 45 },
    [READ_STAMPED] = { "read_stamped", STAMPED, JOURNAL, 4, 7, 0 },
    [CHECK_SHORT] = { "check_short", SHORT, NOTHING, 28, 5, 30 },
    [SHORTEN] = { "shorten", JOURNAL, SHORT, 4, 5, 30 },
    [LENGTHEN] = { "lengthen", SHORT, JOURNAL, 4, 5, 30 },
    [SALVAGE] = { "salvage", JOURNAL, JOURNAL, 16, 5, 20 },
    [REPORT_ADD] = { "report_add", JOURNAL, REPORT, 0, 5, 25 },
    [REACTION_MOVES] = { "reaction_moves", NOTHING, SUMS, 12, 0, 20 },
    [REACTION_TIGHT] = { "reaction_tight", NOTHING, NOTHING, 12, 0, 0 },
    [TIGHT_MOVES] = { "tight_moves", NOTHING, NOTHING, 12, 0, 0 },
    [LIVE] = { "live", STIMULUS, MEMORY, 24, 0, 0 },
    [WATCH] = { "watch", JOURNAL, MEMORY, 28, 0, 0 },
};

/* Entries of one shape, the reference's and the library's. */
static uint64_t (*const checks[ENTRIES][2])(const uint8_t *, uint64_t, const uint8_t *, uint64_t, uint8_t *, uint64_t) = {
    [CHECK_JOURNAL] = { reference_check_journal, krossvil_check_journal },
    [CHECK_SHORT] = { reference_check_short, krossvil_check_short },
};
static uint64_t (*const calculators[ENTRIES][2])(const uint8_t *, uint64_t, uint32_t, uint32_t, uint8_t *, uint64_t) = {
    [REACTION] = { reference_reaction, krossvil_reaction },
    [REACTION_TIGHT] = { reference_reaction_tight, krossvil_reaction_tight },
};
static uint64_t (*const rewrites[ENTRIES][2])(const uint8_t *, uint64_t, const uint8_t *, uint64_t, uint8_t *, uint64_t, uint8_t *,
                                              uint64_t) = {
    [RUN] = { reference_run, krossvil_run },
    [SHORTEN] = { reference_shorten, krossvil_shorten },
    [LENGTHEN] = { reference_lengthen, krossvil_lengthen },
    [SALVAGE] = { reference_salvage, krossvil_salvage },
};

struct call {
    enum entry entry;
    const struct bytes *table, *input; /* input: what it takes beside the table */
    uint32_t states, inputs, moves;
    size_t output_len, answer_len; /* in bytes; output: what it writes beside the answer */
    size_t path_len;               /* a second output: the path of REACTION_MOVES, the record of LIVE */
    const void *beforehand;        /* what stands in an output of numbers beforehand, or NULL: anything */
    const struct bytes *right;     /* the output that a success must have, where that is known beforehand, or NULL */
    const struct bytes *right_path;
};

enum { GUARD = 64 };

struct lent {
    size_t len, before; /* guard bytes before it: their number shifts it by a few bytes, one of numbers by a whole number */
    uint8_t salt;
    const uint8_t *content; /* what stands in it, or NULL: bytes by the salt */
    union {
        uint8_t at[ROOM + 2 * GUARD];
        uint64_t numbers[(ROOM + 2 * GUARD) / 8];
        uint32_t sums[(ROOM + 2 * GUARD) / 4];
    };
};

struct side {
    uint64_t returned;
    bool inputs_kept;
    struct lent output, answer, path;
};

static struct side reference_side, library_side;

/* What was lent: the content, and around it guard bytes. */
static uint8_t fill(const struct lent *lent, size_t at)
{
    if (lent->content != NULL && at >= lent->before && at < lent->before + lent->len)
        return lent->content[at - lent->before];
    return (uint8_t)(lent->salt + 37 * at + (at >> 8));
}

static void lend(struct lent *lent, size_t len, size_t before, uint8_t salt, const void *content)
{
    lent->len = len;
    lent->before = before;
    lent->salt = salt;
    lent->content = content;
    for (size_t k = 0; k < len + 2 * GUARD; k++)
        lent->at[k] = fill(lent, k);
}

/* The first byte that differs from what was lent, from byte `from` of the buffer on, or in the guard; SIZE_MAX: none. */
static size_t touched(const struct lent *lent, size_t from)
{
    for (size_t k = 0; k < lent->len + 2 * GUARD; k++)
        if ((k < lent->before || k >= lent->before + from) && lent->at[k] != fill(lent, k))
            return k;
    return SIZE_MAX;
}

/* Of just the size, so that a sanitizer sees a byte too many. */
static uint8_t *copied(const struct bytes *bytes)
{
    uint8_t *copy = malloc(bytes->len);
    if (copy == NULL && bytes->len > 0) {
        fprintf(stderr, "no memory\n");
        exit(2);
    }
    if (bytes->len > 0)
        memcpy(copy, bytes->at, bytes->len);
    return copy;
}

static void call_side(const struct call *call, bool library, struct side *side)
{
    uint8_t *table = copied(call->table), *input = copied(call->input);
    size_t table_len = call->table->len, input_len = call->input->len;
    uint8_t *output = side->output.at + side->output.before, *answer = side->answer.at + side->answer.before;
    size_t output_len = call->output_len, answer_len = call->answer_len;
    switch (call->entry) {
    case CHECK_TABLE:
        side->returned = (library ? krossvil_check_table : reference_check_table)(table, table_len);
        break;
    case CHECK_JOURNAL:
    case CHECK_SHORT:
        side->returned = checks[call->entry][library](table, table_len, input, input_len, answer, answer_len);
        break;
    case REACTION:
    case REACTION_TIGHT:
        side->returned = calculators[call->entry][library](table, table_len, call->states, call->inputs, answer, answer_len);
        break;
    case REACTION_MOVES:
        side->returned = (library ? krossvil_reaction_moves : reference_reaction_moves)(
            table, table_len, call->states, call->inputs, call->moves, side->output.sums + side->output.before / 4, output_len / 4,
            side->path.at + side->path.before, call->path_len, answer, answer_len);
        break;
    case TIGHT_MOVES:
        side->returned = (library ? krossvil_reaction_tight_moves : reference_reaction_tight_moves)(
            table, table_len, call->states, call->inputs, call->moves, answer, answer_len);
        break;
    case CONVERT_TABLE:
        side->returned = (library ? krossvil_convert_table : reference_convert_table)(table, table_len, output,
                                                                                      output_len, answer, answer_len);
        break;
    case READ_STAMPED:
        side->returned = (library ? krossvil_read_stamped : reference_read_stamped)(input, input_len, output,
                                                                                    output_len, answer, answer_len);
        break;
    case REPORT_ADD:
        side->returned = (library ? krossvil_report_add : reference_report_add)(
            table, table_len, input, input_len, side->output.numbers + side->output.before / 8, output_len / 8);
        break;
    case LIVE:
        side->returned = (library ? krossvil_live : reference_live)(
            table, table_len, side->output.sums + side->output.before / 4, output_len / 4, input, input_len,
            side->path.at + side->path.before, call->path_len, answer, answer_len);
        break;
    case WATCH:
        side->returned = (library ? krossvil_watch : reference_watch)(
            table, table_len, side->output.sums + side->output.before / 4, output_len / 4, input, input_len, answer, answer_len);
        break;
    default:
        side->returned = rewrites[call->entry][library](table, table_len, input, input_len, output, output_len, answer,
                                                        answer_len);
        break;
    }
    side->inputs_kept = (table_len == 0 || memcmp(table, call->table->at, table_len) == 0) &&
                        (input_len == 0 || memcmp(input, call->input->at, input_len) == 0);
    free(table);
    free(input);
}

#define REFUSED(number, place) ((uint64_t)(number) << 32 | (place))

static uint32_t number_in(const uint8_t *answer, size_t k)
{
    const uint8_t *at = answer + 4 * k;
    return (uint32_t)at[0] << 24 | (uint32_t)at[1] << 16 | (uint32_t)at[2] << 8 | at[3];
}

static uint32_t answer_number(const struct lent *answer, size_t k)
{
    return number_in(answer->at + answer->before, k);
}

/* The length of a journal by the answer of the entry that wrote it. To what salvage kept of a refused one it has added an end. */
static size_t length_by(enum entry entry, const uint8_t *answer)
{
    bool end_added = entry == SALVAGE && number_in(answer, 2) != 0;
    return number_in(answer, 0) + (end_added ? field_size(END, JOURNAL) : 0);
}

/* How many numbers a report has under a table that passes. */
static size_t report_size(const struct bytes *sound_table)
{
    size_t states = sound_table->at[3], inputs_of_state = sound_table->at[4];
    return 1 + 2 * states + states * inputs_of_state;
}

/* How many bytes of its output buffer a side has to fill. */
static size_t output_size(const struct call *call, const struct side *side)
{
    if (side->returned != 0)
        return 0;
    switch (entries[call->entry].writes) {
    case NOTHING: return 0;
    case TABLE: return call->table->len;
    case REPORT: return 8 * report_size(call->table);
    case SUMS: return 4 * (size_t)call->moves * call->table->at[3];
    case MEMORY: return 4 * KEPT;
    default: return length_by(call->entry, side->answer.at + side->answer.before);
    }
}

/* And of its second output: the path of several moves, or the record of a live run. */
static size_t path_size(const struct call *call, const struct side *side)
{
    if (side->returned != 0 || (call->entry != REACTION_MOVES && call->entry != LIVE))
        return 0;
    return answer_number(&side->answer, call->entry == LIVE ? 0 : 2);
}

/* What must hold of a salvaged journal, by the journal check of the reference. */
static const char *badly_salvaged(const struct call *call, const struct side *side, size_t written)
{
    const uint8_t *output = side->output.at + side->output.before;
    uint32_t numbers[4];
    uint8_t answer[28];
    for (size_t k = 0; k < 4; k++)
        numbers[k] = answer_number(&side->answer, k);
    if (reference_check_journal(call->table->at, call->table->len, output, written, answer, sizeof answer) != 0)
        return "the salvaged journal is not accepted";
    if (reference_check_journal(call->table->at, call->table->len, call->input->at, call->input->len, answer,
                                sizeof answer) != REFUSED(numbers[2], numbers[3]))
        return "the refusal that stopped it is not that of the journal check";
    if ((uint64_t)numbers[0] + numbers[1] != call->input->len)
        return "the bytes kept and dropped are not those of the journal";
    if (memcmp(output, call->input->at, numbers[0]) != 0)
        return "the bytes kept are not the beginning of the journal";
    return NULL;
}

/* What must hold of a report that a journal was added to, by the answer of the reference's journal check: the dwell sums to T, the pairs
 * of a state to its dwell, and there is an entry for each move and one for the initial state. All sums are modulo 2^64. */
static const char *badly_added(const struct call *call, const struct side *side)
{
    const uint64_t *after = side->output.numbers + side->output.before / 8, *before = call->beforehand;
    size_t states = call->table->at[3], inputs_of_state = call->table->at[4];
    uint64_t dwell = 0, entered = 0;
    uint8_t answer[28];
    if (before == NULL)
        return "success with a first number that was not known";
    if (reference_check_journal(call->table->at, call->table->len, call->input->at, call->input->len, answer, sizeof answer) != 0)
        return "a journal was added that is not accepted";
    if (before[0] >= 1000 || after[0] != before[0] + 1)
        return "the journal was not counted, or one too many was taken";
    for (size_t q = 0; q < states; q++) {
        uint64_t of_state = after[1 + q] - before[1 + q];
        dwell += of_state;
        for (size_t a = 0, at = 1 + states + q * inputs_of_state; a < inputs_of_state; a++)
            of_state -= after[at + a] - before[at + a];
        if (of_state != 0)
            return "the pairs of a state do not sum to its dwell";
        size_t at = 1 + states + states * inputs_of_state + q;
        entered += after[at] - before[at];
    }
    if (dwell != number_in(answer, 0))
        return "the dwell does not sum to T";
    return entered == 1 + (uint64_t)number_in(answer, 2) ? NULL : "the entries are not the moves and the first one";
}

/* The numbers of a table with holds that passes, where they stand in its bytes. */
struct parts {
    size_t states, inputs_of_state;
    uint32_t bound;
    const uint8_t *next, *holds, *delayed;
};

static struct parts parts_of(const struct bytes *sound_table)
{
    const uint8_t *at = sound_table->at;
    struct parts parts = { .states = at[3], .inputs_of_state = at[4], .bound = number_in(at + 10, 0) };
    parts.next = at + 17 + parts.states + 3;
    parts.holds = parts.next + parts.states * parts.inputs_of_state + 3;
    parts.delayed = parts.holds + 4 * parts.states + 3;
    return parts;
}

static bool has(uint32_t set, size_t member)
{
    return member < 32 && (set >> member & 1) != 0;
}

/* What must hold of a path, told from the table's bytes. Its sum is added to `sum`. */
static const char *bad_path(const struct call *call, const struct side *side, uint32_t *sum)
{
    struct parts parts = parts_of(call->table);
    const uint8_t *path = side->path.at + side->path.before;
    uint32_t target = answer_number(&side->answer, 1);
    size_t length = path_size(call, side);
    if (length > 0 && (length % 2 == 0 || length > 2 * (size_t)call->moves - 1))
        return "the path does not end with a state, or has too many";
    for (size_t k = 0; k < length; k += 2) {
        size_t q = path[k];
        if (q >= parts.states || !has(call->states, q) || has(target, q))
            return "the path has a state outside P, or in the target";
        if (k > 0 && (!has(call->inputs, path[k - 1]) ||
                      parts.next[path[k - 2] * parts.inputs_of_state + path[k - 1]] != q))
            return "the path does not go from next state to next state under A";
        bool held = number_in(parts.holds, q) > 0 && (number_in(parts.delayed, q) & call->inputs) != 0;
        *sum += held ? number_in(parts.holds, q) + 2 * parts.bound : parts.bound;
    }
    return NULL;
}

/* What must hold of the answer over several moves: the sums are above 0 just where a path may be, and grow from row to row; the time is E
 * and the largest of the last row, and that is the sum of the path. */
static const char *badly_moved(const struct call *call, const struct side *side)
{
    struct parts parts = parts_of(call->table);
    const uint32_t *sums = side->output.sums + side->output.before / 4;
    uint32_t target = answer_number(&side->answer, 1), largest = 0, sum = 0;
    for (size_t k = 0; k < call->moves * parts.states; k++) {
        size_t q = k % parts.states;
        if ((sums[k] > 0) != (has(call->states, q) && !has(target, q)))
            return "a sum is 0 where a path begins, or is not where none may";
        if (k >= parts.states && sums[k] < sums[k - parts.states])
            return "a sum is smaller than in the row before";
        if (k / parts.states + 1 == call->moves && sums[k] > largest)
            largest = sums[k];
    }
    if (answer_number(&side->answer, 0) != parts.bound + largest)
        return "the time is not E and the largest sum";
    if ((target & ~call->states) != 0 || (call->moves == 0 && target != call->states))
        return "the target is outside P, or not P for no moves";
    const char *bad = bad_path(call, side, &sum);
    return bad != NULL ? bad : sum == largest ? NULL : "the path has not the largest sum";
}

/* What must hold of a tight time, by the calculator of the reference: time and target are its own, the tight time is at least E, and it is
 * below the time by one tick or two, or not at all where the time is E. */
static const char *badly_tightened(const struct call *call, const struct side *side)
{
    uint32_t bound = number_in(call->table->at + 10, 0), time = answer_number(&side->answer, 0), tight = answer_number(&side->answer, 2);
    uint8_t answer[8];
    if (reference_reaction(call->table->at, call->table->len, call->states, call->inputs, answer, sizeof answer) != 0 ||
        time != number_in(answer, 0) || answer_number(&side->answer, 1) != number_in(answer, 1))
        return "time and target are not the calculator's";
    if (tight < bound || tight > time || time - tight > 2)
        return "the tight time is below E, above the time, or more than two ticks below it";
    return (tight == time) == (time == bound) ? NULL : "the tight time is the time where it must not be, or is not where it must be";
}

/* The same over several moves, by the reference's sums: below the time by one tick at least where there is a path, and by at most one and one
 * for each state of it. */
static const char *badly_tightened_over(const struct call *call, const struct side *side)
{
    static struct several several;
    uint32_t bound = number_in(call->table->at + 10, 0), time = answer_number(&side->answer, 0), tight = answer_number(&side->answer, 2);
    if (!reference_several(call->table->at, call->table->len, call->states, call->inputs, call->moves, BY_ROUNDS, &several) ||
        time != several.time || answer_number(&side->answer, 1) != several.target)
        return "time and target are not the calculator's over several moves";
    if (tight < bound || tight > time || time - tight > 1 + (several.path_len + 1) / 2)
        return "the tight time is below E, above the time, or too far below it";
    return (tight == time) == (several.path_len == 0) ? NULL : "the tight time is the time where it must not be, or is not where it must be";
}

static bool same_bytes(const struct lent *lent, size_t written, const struct bytes *right)
{
    return written == right->len && memcmp(lent->at + lent->before, right->at, written) == 0;
}

/* What must hold of one side by itself: a refusal changes nothing, a success nothing past the answer and the output, a
 * new table passes, a salvaged journal is accepted, a report has the right sums, a path is one, a tight time is near the time, and the
 * output is right where that is known. */
static const char *broken(const struct call *call, const struct side *side)
{
    bool success = side->returned == 0;
    if (!side->inputs_kept)
        return "bytes that were only read have changed";
    size_t answer_size = success ? entries[call->entry].answer_size : 0;
    if (answer_size > call->answer_len)
        return "success with an answer buffer too short";
    if (touched(&side->answer, answer_size) != SIZE_MAX)
        return "the answer buffer or its guard has changed where it may not";
    size_t written = output_size(call, side);
    if (written > call->output_len)
        return "success with an output buffer too short";
    if (touched(&side->output, written) != SIZE_MAX)
        return "the output buffer or its guard has changed where it may not";
    if (path_size(call, side) > call->path_len)
        return "success with a path buffer too short";
    if (touched(&side->path, path_size(call, side)) != SIZE_MAX)
        return "the path buffer or its guard has changed where it may not";
    if (success && call->entry == CONVERT_TABLE &&
        reference_check_table(side->output.at + side->output.before, written) != 0)
        return "the new table does not pass";
    if (success && call->right != NULL && !same_bytes(&side->output, written, call->right))
        return "the output is not the right one";
    if (success && call->right_path != NULL && !same_bytes(&side->path, path_size(call, side), call->right_path))
        return "the path is not the right one";
    if (success && call->entry == REACTION_MOVES)
        return badly_moved(call, side);
    if (success && call->entry == REPORT_ADD)
        return badly_added(call, side);
    if (success && call->entry == REACTION_TIGHT)
        return badly_tightened(call, side);
    if (success && call->entry == TIGHT_MOVES)
        return badly_tightened_over(call, side);
    return success && call->entry == SALVAGE ? badly_salvaged(call, side, written) : NULL;
}

static size_t differs_at(const struct lent *a, const struct lent *b)
{
    for (size_t k = 0; k < a->len + 2 * GUARD; k++)
        if (a->at[k] != b->at[k])
            return k;
    return SIZE_MAX;
}

static uint64_t passed, mismatches;

/* With FIRST defined the first one ends the test: of a fault that was put in no more is asked. */
static void count_mismatch(void)
{
    mismatches++;
#ifdef FIRST
    printf("mismatches: %" PRIu64 "\n", mismatches);
    exit(1);
#endif
}

enum { NUMBERS = 37 }; /* one more than the largest of a refusal */
static uint64_t histogram[ENTRIES][NUMBERS], other_numbers;

static void print_bytes(const char *name, const uint8_t *bytes, size_t len)
{
    printf("  %s, %zu bytes:", name, len);
    for (size_t k = 0; k < len; k++)
        printf("%s%02X", k % 32 == 0 ? "\n    " : " ", bytes[k]);
    printf("\n");
}

static void print_returned(const char *name, uint64_t returned)
{
    printf("  %s returned %" PRIu64 " (number %" PRIu64 ", place %" PRIu64 ")\n", name, returned, returned >> 32,
           returned & 0xFFFFFFFFu);
}

static void print_lent(const char *name, const struct lent *reference, const struct lent *library)
{
    size_t at = differs_at(reference, library);
    if (at != SIZE_MAX)
        printf("  %s buffer differs first at %ld: reference %02X, library %02X\n", name,
               (long)at - (long)reference->before, reference->at[at], library->at[at]);
}

static void print_case(const char *label, const struct call *call, const char *reason)
{
    enum form takes = entries[call->entry].takes;
    printf("first mismatch: %s, entry %s: %s\n", label, entries[call->entry].name, reason);
    print_returned("reference", reference_side.returned);
    print_returned("library", library_side.returned);
    print_lent("answer", &reference_side.answer, &library_side.answer);
    print_lent("output", &reference_side.output, &library_side.output);
    print_lent("path", &reference_side.path, &library_side.path);
    if (call->entry != READ_STAMPED)
        print_bytes("table", call->table->at, call->table->len);
    if (takes != NOTHING)
        print_bytes(form_names[takes], call->input->at, call->input->len);
    if (calculators[call->entry][0] != NULL || call->entry == REACTION_MOVES || call->entry == TIGHT_MOVES)
        printf("  states %08" PRIX32 ", inputs %08" PRIX32 ", moves %" PRIu32 "\n", call->states, call->inputs, call->moves);
    if (call->entry == REACTION_MOVES || call->entry == LIVE) {
        printf("  path or record buffer of %zu bytes\n", call->path_len);
        if (reference_side.returned == 0)
            print_bytes("reference's path or record", reference_side.path.at + reference_side.path.before,
                        path_size(call, &reference_side));
    }
    if (entries[call->entry].writes != NOTHING) {
        printf("  output buffer of %zu bytes\n", call->output_len);
        if (call->beforehand != NULL)
            print_bytes("numbers beforehand", call->beforehand, call->output_len);
        if (reference_side.returned == 0)
            print_bytes("reference's output", reference_side.output.at + reference_side.output.before,
                        output_size(call, &reference_side));
    }
    if (entries[call->entry].answer_size > 0) {
        print_bytes("reference's answer buffer", reference_side.answer.at + reference_side.answer.before,
                    call->answer_len);
        print_bytes("library's answer buffer", library_side.answer.at + library_side.answer.before, call->answer_len);
    }
}

/* Calls both sides and compares; `wanted`, if given, is what both must say: the value, then the numbers. Returns whether all is well. */
static bool compare(const char *label, const struct call *call, const uint64_t *wanted)
{
    enum form writes = entries[call->entry].writes;
    size_t shift = below(8), before = GUARD - (writes == REPORT ? shift % 2 * 8 : writes == SUMS || writes == MEMORY ? shift % 4 * 4 : shift);
    uint8_t salt = (uint8_t)below(256);
    lend(&reference_side.output, call->output_len, before, salt, call->beforehand);
    lend(&library_side.output, call->output_len, before, salt, call->beforehand);
    lend(&reference_side.answer, call->answer_len, before, salt, NULL);
    lend(&library_side.answer, call->answer_len, before, salt, NULL);
    lend(&reference_side.path, call->path_len, GUARD - shift, salt, NULL);
    lend(&library_side.path, call->path_len, GUARD - shift, salt, NULL);
    call_side(call, false, &reference_side);
    call_side(call, true, &library_side);

    const char *reason = NULL;
    if (reference_side.returned != library_side.returned)
        reason = "the values returned differ";
    else if (differs_at(&reference_side.answer, &library_side.answer) != SIZE_MAX)
        reason = "the answer buffers differ";
    else if (differs_at(&reference_side.output, &library_side.output) != SIZE_MAX)
        reason = "the output buffers differ";
    else if (differs_at(&reference_side.path, &library_side.path) != SIZE_MAX)
        reason = "the path buffers differ";
    if (reason == NULL)
        reason = broken(call, &reference_side);
    if (reason == NULL)
        reason = broken(call, &library_side);
    if (reason == NULL && wanted != NULL) {
        if (library_side.returned != wanted[0])
            reason = "both differ from what is wanted";
        for (size_t k = 0; reason == NULL && wanted[0] == 0 && k < entries[call->entry].answer_size / 4; k++)
            if (answer_number(&library_side.answer, k) != wanted[1 + k])
                reason = "both differ from what is wanted";
    }

    uint64_t number = library_side.returned >> 32;
    if (library_side.returned != 0 && number == 0)
        number = NUMBERS;
    if (number < NUMBERS)
        histogram[call->entry][number]++;
    else
        other_numbers++;
    if (reason == NULL) {
        passed++;
    } else {
        if (mismatches == 0)
            print_case(label, call, reason);
        count_mismatch();
    }
    return reason == NULL;
}

/* ---- random cases ---- */

static struct bytes table, input, scratch, other_form; /* the last: the records of the input, in another form */

static uint32_t draw_states(const struct plan *plan, uint32_t inputs)
{
    uint32_t states = draw_set(plan->q);
    if (percent(30))
        states = low_bits(plan->q);
    if (percent(70)) { /* closed under next, so that there is a reaction time */
        for (unsigned round = 0; round < plan->q; round++)
            for (unsigned p = 0; p < plan->q; p++)
                for (unsigned a = 0; a < plan->i; a++)
                    if ((states >> p & 1) && (inputs >> a & 1))
                        states |= (uint32_t)1 << plan->next[p][a];
    }
    return states;
}

static size_t draw_answer_len(size_t exact)
{
    if (exact > 0 && percent(8))
        return percent(50) ? exact - 1 : below((uint32_t)exact);
    return percent(50) ? exact : exact + between(1, 40);
}

static size_t draw_output_len(size_t exact)
{
    if (exact > 0 && percent(18))
        return percent(50) ? exact - 1 : percent(80) ? below((uint32_t)exact) : 0;
    return percent(40) ? exact : percent(95) ? exact + between(1, 100) : JOURNAL_LIMIT + below(100);
}

/* The journal of the stimulus in `input`, by the reference, goes into the values of the pieces. Those of a run that is too long
 * for a stimulus stay as they were drawn. */
static void take_values(const struct bytes *sound_table)
{
    uint8_t length[4];
    if (reference_run(sound_table->at, sound_table->len, input.at, input.len, scratch.at, ROOM, length, 4) != 0)
        return;
    size_t at = 0;
    for (size_t k = 0; k < piece_count; k++) {
        at += field_size(pieces[k].kind, JOURNAL);
        if (has_value(pieces[k].kind, JOURNAL))
            pieces[k].value = scratch.at[at - 1];
    }
}

/* As many bytes as there may be, or a few more or less; of a short journal also around what can be lengthened. */
static size_t draw_most(enum form form)
{
    if (form == SHORT) {
        size_t most = percent(50) ? MOST_RECORDS : MOST_SHORT;
        return 9 + 6 * (most - 2 + below(5));
    }
    return percent(60) ? STIMULUS_LIMIT - below(percent(50) ? 1 : 30) : STIMULUS_LIMIT + below(12);
}

/* The pieces of a run of the machine: as many as a stimulus has room for, or for a short journal as many as that has. */
static void draw_run(const struct plan *plan, enum form form)
{
    static struct bytes sound;
    size_t starts[6];
    enum form sized = form == SHORT ? SHORT : STIMULUS;

    if (percent(2)) {
        size_t most = draw_most(sized);
        draw_records(plan, 1000000, sized, most, percent(50) ? 0 : below(60));
    } else {
        unsigned cycles = percent(40) ? below(4) : percent(70) ? below(20) : below(120);
        draw_records(plan, cycles, sized, limits[sized], percent(30) ? 0 : below(60));
    }
    if (form != STIMULUS) {
        write_pieces(STIMULUS, &input);
        write_table(plan, plan->q, plan->i, &sound, starts);
        take_values(&sound);
    }
}

/* Draws into `input`, sound or damaged, and returns whether it is sound. What has to be written of a sound one goes into
 * `other_form`. */
static bool draw_input(const struct plan *plan, enum form form, enum form other)
{
    size_t limit = limits[form];
    if (form == STAMPED && percent(60))
        draw_stamped(percent(4) ? MOST_RECORDS - 2 + below(5) : percent(60) ? below(6) : below(80));
    else
        draw_run(plan, form);
    if (other != NOTHING)
        write_pieces(other, &other_form);

    unsigned damages = percent(30) ? 0 : percent(75) ? 1 : 2;
    bool coarse = percent(form == STAMPED ? 70 : 40);
    for (unsigned k = 0; k < damages && !coarse; k++)
        damage_pieces(plan, form);
    write_pieces(form, &input);
    for (unsigned k = 0; k < damages && coarse; k++)
        damage_bytes(&input, piece_starts, piece_count, limit);
    if (form != STIMULUS && input.len > limit - 5536 && percent(30)) { /* around the longest journal */
        size_t wanted = limit - 2 + below(5);
        while (input.len < wanted)
            add(&input, below(256));
        return false;
    }
    return damages == 0;
}

/* A journal to be salvaged: sometimes its opening field is broken; often it is torn, and most that are too long are torn to where the
 * last tick that may be kept lies. */
static void tear(void)
{
    if (percent(12) && input.len >= 4) {
        switch (below(4)) {
        case 0: input.len = below(4); break;
        case 1: flip_bit(&input, 3); break;
        case 2:
            input.len -= 4;
            memmove(input.at, input.at + 4, input.len);
            break;
        case 3: input.at[3] = (uint8_t)between(32, 255); break;
        }
    } else if (input.len > JOURNAL_LIMIT ? percent(80) : input.len > JOURNAL_LIMIT - 100 && percent(60)) {
        size_t wanted = JOURNAL_LIMIT - below(40);
        input.len = input.len < wanted ? input.len : wanted;
    } else if (percent(40)) {
        input.len = below((uint32_t)input.len + 1);
    }
}

static enum table_kind draw_kind(enum entry entry)
{
    bool converts = entry == CONVERT_TABLE;
    if (percent(converts ? 10 : 33))
        return TIMERS;
    return percent(converts ? 70 : entry == READ_STAMPED ? 0 : 3) ? OLD_HOLDS : HOLDS;
}

/* How long the output is by the reference; if it refuses, any number will do. */
static size_t exact_output(enum entry entry)
{
    uint8_t answer[16];
    uint64_t refused;
    if (entry == CONVERT_TABLE)
        return table.len;
    if (entry == READ_STAMPED)
        refused = reference_read_stamped(input.at, input.len, scratch.at, ROOM, answer, sizeof answer);
    else
        refused = rewrites[entry][0](table.at, table.len, input.at, input.len, scratch.at, ROOM, answer, sizeof answer);
    return refused != 0 ? below(300) : length_by(entry, answer);
}

/* Accepted journals that came back: from the form that the entry reads or writes, or what it had salvaged from it. Of reports, those
 * that several journals were added to in two orders; of several moves, questions of one move. */
static uint64_t came_back[ENTRIES];

static uint64_t counted_twice; /* journals that the reference has counted slot by slot and stretch by stretch */

static bool accepts_other_form(void)
{
    uint8_t answer[28];
    return reference_check_journal(table.at, table.len, other_form.at, other_form.len, answer, sizeof answer) == 0;
}

/* After a success of SHORTEN or LENGTHEN: what was written is turned back, and has the same numbers as what was given. */
static void turn_back(const char *label, const struct call *there)
{
    static struct bytes turned;
    uint64_t numbers[8] = { 0 };
    bool shortened = there->entry == SHORTEN;
    struct call back = *there;
    turned.len = output_size(there, &library_side);
    memcpy(turned.at, library_side.output.at + library_side.output.before, turned.len);

    back.entry = shortened ? CHECK_JOURNAL : CHECK_SHORT;
    back.output_len = 0;
    back.answer_len = 28;
    back.right = NULL;
    compare(label, &back, NULL);
    for (size_t k = 0; k < 7; k++)
        numbers[1 + k] = answer_number(&library_side.answer, k);
    back.input = &turned;
    back.entry = shortened ? CHECK_SHORT : CHECK_JOURNAL;
    compare(label, &back, numbers);
    back.entry = shortened ? LENGTHEN : SHORTEN;
    back.output_len = there->input->len;
    back.right = there->input;
    compare(label, &back, (const uint64_t[]){ 0, there->input->len });
    came_back[there->entry]++;
}

/* After a success of SALVAGE: what was written is accepted, and comes back unchanged. */
static void salvage_again(const char *label, const struct call *first)
{
    static struct bytes salvaged;
    struct call again = *first;
    salvaged.len = output_size(first, &library_side);
    memcpy(salvaged.at, library_side.output.at + library_side.output.before, salvaged.len);
    if (answer_number(&library_side.answer, 2) != 0)
        came_back[SALVAGE]++;

    again.input = again.right = &salvaged;
    again.output_len = salvaged.len;
    again.answer_len = 16;
    compare(label, &again, (const uint64_t[]){ 0, salvaged.len, 0, 0, 0 });
    again.entry = CHECK_JOURNAL;
    again.output_len = 0;
    again.right = NULL;
    again.answer_len = 28;
    compare(label, &again, NULL); /* by the reference it was accepted above */
}

enum { REPORT_ROOM = 2048 }; /* numbers: more than the largest report has */

/* By the table's counts, which may be damaged. */
static size_t draw_report_len(void)
{
    size_t exact = table.len > 4 && table.at[3] <= 32 && table.at[4] <= 32 ? report_size(&table) : 1;
    switch (below(12)) {
    case 0: return 0;
    case 1: return 1;
    case 2: return exact - 1;
    case 3: return below((uint32_t)exact);
    case 4: return exact + 1;
    case 5: return exact + below(100);
    default: return exact;
    }
}

/* Numbers that are small, at the end of 32 bits or of 64, or any. */
static uint64_t draw_sum(void)
{
    switch (below(5)) {
    case 0: return 0;
    case 1: return below(1000000);
    case 2: return 0xFFFFFFFFu - below(20);
    case 3: return UINT64_MAX - below(20);
    default: return draw64();
    }
}

static uint64_t draw_journals(void)
{
    static const uint64_t corners[] = { 998, 999, 1000, 1001, 0x100000000u, 0x8000000000000000u, UINT64_MAX - 1, UINT64_MAX };
    return percent(50) ? 0 : percent(50) ? below(1000) : percent(70) ? corners[below(8)] : draw64();
}

static void draw_report(uint64_t *report)
{
    bool zeros = percent(40);
    for (size_t k = 0; k < REPORT_ROOM; k++)
        report[k] = zeros ? 0 : draw_sum();
    report[0] = draw_journals();
}

/* The reference against itself: the slots, where they are few enough to be counted, and the stretches. */
static void count_twice(const char *label)
{
    static uint64_t by_slots[REPORT_ROOM], by_stretches[REPORT_ROOM];
    size_t size = reference_tally(table.at, table.len, input.at, input.len, BY_SLOTS, by_slots);
    if (size == 0)
        return;
    counted_twice++;
    if (reference_tally(table.at, table.len, input.at, input.len, BY_STRETCHES, by_stretches) != size ||
        memcmp(by_slots, by_stretches, 8 * size) != 0) {
        if (mismatches == 0) {
            printf("first mismatch: %s: the reference counts otherwise by slots than by stretches\n", label);
            print_bytes("table", table.at, table.len);
            print_bytes("journal", input.at, input.len);
        }
        count_mismatch();
    }
}

/* Adds journals to a report in this order, one after another; returns how many were taken. */
static unsigned add_all(const char *label, const struct bytes *journals, const unsigned *order, size_t count, uint64_t *report)
{
    struct call call = { .entry = REPORT_ADD, .table = &table, .output_len = 8 * report_size(&table), .beforehand = report };
    unsigned taken = 0;
    for (size_t k = 0; k < count; k++) {
        call.input = &journals[order[k]];
        compare(label, &call, NULL);
        taken += library_side.returned == 0;
        memcpy(report, library_side.output.at + library_side.output.before, call.output_len);
    }
    return taken;
}

/* After a success of REPORT_ADD: that journal and two more under the same table, sound or not, are added in two orders. */
static void add_in_two_orders(const char *label, const struct plan *plan)
{
    static const unsigned orders[][3] = { { 0, 1, 2 }, { 0, 2, 1 }, { 1, 0, 2 }, { 1, 2, 0 }, { 2, 0, 1 }, { 2, 1, 0 } };
    static struct bytes journals[3];
    static uint64_t first[REPORT_ROOM], second[REPORT_ROOM];
    for (size_t k = 0; k < 3; k++) {
        journals[k].len = input.len;
        memcpy(journals[k].at, input.at, input.len);
        draw_input(plan, JOURNAL, NOTHING);
    }
    draw_report(first);
    first[0] = percent(70) ? below(997) : 997;
    memcpy(second, first, sizeof first);
    unsigned taken = add_all(label, journals, orders[0], 3, first);
    add_all(label, journals, orders[1 + below(5)], 3, second);
    if (taken > 1)
        came_back[REPORT_ADD]++;
    if (memcmp(first, second, sizeof first) != 0) {
        if (mismatches == 0)
            printf("first mismatch: %s: journals added in another order give another report\n", label);
        count_mismatch();
    }
}

static uint64_t worked_out_twice; /* questions of several moves that the reference has worked out by paths and by rounds */

/* The reference against itself: the paths, where they are few enough to be tried, and the rounds. */
static void work_out_twice(const char *label, const struct call *call)
{
    static struct several by_paths, by_rounds;
    if (!reference_several(table.at, table.len, call->states, call->inputs, call->moves, BY_PATHS, &by_paths))
        return;
    worked_out_twice++;
    if (!reference_several(table.at, table.len, call->states, call->inputs, call->moves, BY_ROUNDS, &by_rounds) ||
        memcmp(&by_paths, &by_rounds, sizeof by_paths) != 0) {
        if (mismatches == 0) {
            printf("first mismatch: %s: the reference finds something else by paths than by rounds\n", label);
            print_bytes("table", table.at, table.len);
            printf("  states %08" PRIX32 ", inputs %08" PRIX32 ", moves %" PRIu32 "\n", call->states, call->inputs, call->moves);
        }
        count_mismatch();
    }
}

/* The same question of the tight calculator. */
static void ask_for_tight(const char *label, const struct call *reaction)
{
    struct call tight = *reaction;
    tight.entry = REACTION_TIGHT;
    tight.answer_len = draw_answer_len(entries[REACTION_TIGHT].answer_size);
    compare(label, &tight, NULL);
}

/* The same question over several moves. With one, `wanted` is what the tight calculator has said, or NULL. */
static void ask_for_tight_moves(const char *label, const struct call *several, const uint64_t *wanted)
{
    struct call tight = *several;
    tight.entry = TIGHT_MOVES;
    tight.output_len = tight.path_len = 0;
    tight.right = tight.right_path = NULL;
    tight.answer_len = wanted == NULL ? draw_answer_len(entries[TIGHT_MOVES].answer_size) : 12;
    compare(label, &tight, wanted);
}

/* The same question of one move, in both ways: the same refusal, or the same time and target. */
static void ask_of_one_move(const char *label, const struct call *several)
{
    struct call one = *several;
    one.moves = 1;
    one.output_len = 4 * 32;
    one.path_len = 1;
    one.answer_len = 12;
    one.right = one.right_path = NULL;
    compare(label, &one, NULL);
    uint64_t wanted[3] = { library_side.returned, 0, 0 };
    for (size_t k = 0; wanted[0] == 0 && k < 2; k++)
        wanted[1 + k] = answer_number(&library_side.answer, k);
    one.entry = REACTION;
    one.output_len = one.path_len = 0;
    compare(label, &one, wanted);
    one.entry = REACTION_TIGHT;
    compare(label, &one, NULL);
    uint64_t tight[4] = { library_side.returned, 0, 0, 0 };
    for (size_t k = 0; tight[0] == 0 && k < 3; k++)
        tight[1 + k] = answer_number(&library_side.answer, k);
    ask_for_tight_moves(label, &one, tight);
    if (wanted[0] == 0)
        came_back[REACTION_MOVES]++;
}

static uint32_t draw_moves(void)
{
    static const uint32_t corners[] = { 0, 1, 2, 31, 32, 33, 34, 63, 64, 256, 0x80000000u, UINT32_MAX };
    return percent(25) ? corners[below(12)] : percent(50) ? between(0, 5) : between(1, 32);
}

/* The sets of a question, a few of them with members that there are not. */
static void draw_question(const struct plan *plan, struct call *call)
{
    call->inputs = percent(25) ? low_bits(plan->i) : draw_set(plan->i);
    call->states = draw_states(plan, call->inputs);
    if (percent(8))
        call->states = beyond(call->states, plan->q);
    if (percent(8))
        call->inputs = beyond(call->inputs, plan->i);
    if (percent(4))
        call->states = (uint32_t)draw64();
}

static size_t draw_room(size_t exact)
{
    if (exact > 0 && percent(14))
        return percent(60) ? exact - 1 : percent(70) ? below((uint32_t)exact) : 0;
    return percent(50) ? exact : exact + between(1, 40);
}

static void several_moves_case(const char *label)
{
    static struct plan plan;
    struct call call = { .entry = REACTION_MOVES, .table = &table, .input = &input };
    enum table_kind kind = percent(55) ? AHEAD : draw_kind(REACTION_MOVES);
    draw_table(&plan, &table, kind, percent(entries[REACTION_MOVES].damaged));
    input.len = 0;
    draw_question(&plan, &call);
    call.moves = draw_moves();
    uint32_t rows = call.moves <= 33 ? call.moves : between(0, 33);
    call.output_len = 4 * draw_room(rows * plan.q);
    call.path_len = draw_room(rows == 0 ? 0 : 2 * rows - 1);
    call.answer_len = draw_answer_len(entries[REACTION_MOVES].answer_size);
    compare(label, &call, NULL);
    ask_for_tight_moves(label, &call, NULL);
    work_out_twice(label, &call);
    ask_of_one_move(label, &call);
}

/* ---- live runs ---- */

/* Stimuli and journals that were given field by field, to the end of what the whole has to say. */
static uint64_t walked[ENTRIES];

/* At most so many fields of each. All of them, but where the reference stands on both sides: the faults are many. */
#ifndef WALK
#ifdef SELF
#define WALK 40
#else
#define WALK MOST_PIECES
#endif
#endif

enum { MEMORY_ROOM = KEPT + 8, RECORD_ROOM = 8 };

static void fail(const char *label, const char *reason, const struct bytes *bytes)
{
    if (mismatches == 0) {
        printf("first mismatch: %s: %s\n", label, reason);
        print_bytes("table", table.at, table.len);
        print_bytes("field or whole", bytes->at, bytes->len);
    }
    count_mismatch();
}

/* What becomes of one field: the code, the memory, the record and the answer. */
struct turn {
    uint64_t code;
    uint32_t memory[KEPT];
    uint8_t record[RECORD_ROOM], answer[28];
};

static void turn_of(bool library, enum entry entry, const struct bytes *field, const uint32_t *memory, struct turn *turn)
{
    memset(turn, 0, sizeof *turn);
    memcpy(turn->memory, memory, sizeof turn->memory);
    if (entry == LIVE)
        turn->code = (library ? krossvil_live : reference_live)(table.at, table.len, turn->memory, KEPT, field->at, field->len,
                                                                turn->record, RECORD_ROOM, turn->answer, 24);
    else
        turn->code = (library ? krossvil_watch : reference_watch)(table.at, table.len, turn->memory, KEPT, field->at, field->len,
                                                                  turn->answer, 28);
}

/* Gives a field to both sides, which must agree; the library's turn is told. Some go the long way, with guards around each buffer. */
static void take_turn(const char *label, enum entry entry, const struct bytes *field, const uint32_t *memory, bool guarded,
                      struct turn *turn)
{
    struct turn other;
    turn_of(false, entry, field, memory, &other);
    turn_of(true, entry, field, memory, turn);
    if (memcmp(&other, turn, sizeof other) != 0)
        fail(label, entry == LIVE ? "live runs differ" : "live checks differ", field);
    if (!guarded)
        return;
    struct call call = { .entry = entry, .table = &table, .input = field, .output_len = 4 * KEPT, .beforehand = memory,
                         .path_len = entry == LIVE ? RECORD_ROOM : 0, .answer_len = entries[entry].answer_size };
    compare(label, &call, NULL);
}

/* The field at `at` by its head; one that runs out is all that is left. */
static void cut_field(const struct bytes *whole, size_t at, struct bytes *field)
{
    size_t left = whole->len - at, size = left;
    if (left >= 3 && 3 + ((size_t)whole->at[at + 1] << 8 | whole->at[at + 2]) < left)
        size = 3 + ((size_t)whole->at[at + 1] << 8 | whole->at[at + 2]);
    field->len = size;
    memcpy(field->at, whole->at + at, size);
}

/* A record that live has written is watched: it is taken, and the memories are equal. */
static void watch_record(const char *label, const struct turn *live, uint32_t *memory, bool guarded)
{
    static struct bytes record;
    struct turn turn;
    record.len = number_in(live->answer, 0);
    memcpy(record.at, live->record, RECORD_ROOM);
    take_turn(label, WATCH, &record, memory, guarded, &turn);
    memcpy(memory, turn.memory, sizeof turn.memory);
    if (turn.code != 0 || memcmp(turn.memory, live->memory, sizeof turn.memory) != 0)
        fail(label, "what live has written is not taken by watch as it was meant", &record);
}

/* What the whole has to say of these bytes, by the reference: the code, what it writes and its answer. */
struct whole {
    uint64_t code;
    struct bytes journal;
    uint8_t answer[28];
};

static void ask_whole(enum entry entry, const struct bytes *bytes, struct whole *whole)
{
    whole->journal.len = 0;
    if (entry == LIVE) {
        whole->code = reference_run(table.at, table.len, bytes->at, bytes->len, whole->journal.at, ROOM, whole->answer, 4);
        whole->journal.len = whole->code == 0 ? number_in(whole->answer, 0) : 0;
    } else {
        whole->code = reference_check_journal(table.at, table.len, bytes->at, bytes->len, whole->answer, 28);
    }
}

/* Field by field from zeros, up to a refusal or to the end: the same as the whole, which is too long for it or not. */
static void walk(const char *label, enum entry entry, const struct bytes *bytes)
{
    static struct whole whole;
    static struct bytes field, written;
    uint32_t memory[KEPT] = { 0 }, watching[KEPT] = { 0 };
    struct turn turn = { .code = 0 };
    size_t at = 0;
    written.len = 0;
    for (unsigned k = 0; memory[0] != 2 || at < bytes->len; k++) {
        bool guarded = k < 4 || percent(2);
        if (k == WALK)
            return;
        cut_field(bytes, at, &field);
        take_turn(label, entry, &field, memory, guarded, &turn);
        if (turn.code != 0)
            break;
        memcpy(memory, turn.memory, sizeof memory);
        if (entry == LIVE) {
            watch_record(label, &turn, watching, guarded);
            memcpy(written.at + written.len, turn.record, RECORD_ROOM);
            written.len += number_in(turn.answer, 0);
        }
        at += field.len;
    }
    ask_whole(entry, bytes, &whole);
    if (whole.code == REFUSED(19, 0))
        return; /* a live run is never too long */
    bool of_table = turn.code != 0 && turn.code >> 32 < 19;
    if (whole.code != turn.code + (turn.code == 0 || of_table ? 0 : at))
        fail(label, "field by field it is refused otherwise than as a whole", bytes);
    else if (whole.code == 0 && entry == LIVE &&
             (written.len != whole.journal.len || memcmp(written.at, whole.journal.at, written.len) != 0))
        fail(label, "the records of the live run are not the journal", bytes);
    else if (whole.code == 0 && entry == WATCH && memcmp(turn.answer, whole.answer, 28) != 0)
        fail(label, "the numbers of the live check are not those of the journal", bytes);
    walked[entry] += whole.code == 0;
}

/* ---- memory of any numbers, slices that are too short, fields with something behind them ---- */

/* An instant that is at most `time`: at some distance that tells. */
static uint32_t draw_instant(const struct plan *plan, uint32_t time)
{
    uint32_t hold = plan->timed ? plan->length[below(plan->timers)] : plan->hold[below(plan->q)];
    uint32_t few = below(4), within = below(plan->bound + 1), any = (uint32_t)draw64();
    uint32_t back[] = { 0, 1, few, plan->bound, within, hold, hold + 1, any };
    uint32_t distance = back[below(8)];
    return distance > time ? 0 : time - distance;
}

/* In range as far as the plan is the table's. */
static void draw_memory(const struct plan *plan, uint32_t *memory)
{
    static const uint32_t times[] = { 0, 1, 100, 1000000, 1999999999, 2000000000 };
    uint32_t time = percent(60) ? times[below(6)] : below(2000000001);
    for (unsigned k = 0; k < MEMORY_ROOM; k++)
        memory[k] = draw_instant(plan, time);
    memory[0] = percent(80) ? 1 : below(3);
    memory[1] = below(4);
    memory[2] = below(plan->i);
    memory[3] = below(plan->i);
    memory[4] = below(plan->q);
    memory[8] = time;
    memory[9] = percent(50) ? below(plan->bound + 1) : plan->bound;
    for (unsigned k = 14; k < 16; k++)
        memory[k] = percent(60) ? below(time + 1) : 2000000000 - below(2);
    memory[16] = percent(50) ? below(3600002) : percent(50) ? 0 : 3600001;
}

/* One number just in range, just out of it, or any. */
static void damage_memory(const struct plan *plan, uint32_t *memory)
{
    const uint32_t corners[] = { 0, 1, 2, 3, 4, plan->i - 1, plan->i, plan->q - 1, plan->q, plan->bound, plan->bound + 1, memory[8],
                                 memory[8] + 1, 2000000000, 2000000001, 3600001, 3600002, 0x80000000u, UINT32_MAX, 31, 32 };
    uint32_t number = percent(90) ? corners[below(sizeof corners / sizeof *corners)] : (uint32_t)draw64();
    memory[percent(10) ? 0 : below(KEPT)] = number;
}

/* A field of any kind at a time that tells, by this memory. */
static void draw_field(const struct plan *plan, enum form form, const uint32_t *memory, struct bytes *field)
{
    static const enum kind by_phase[] = { POLL, TEST, TICK, TICK };
    struct piece kept = pieces[0];
    size_t count = piece_count;
    uint32_t soon = memory[8] + below(4), within = memory[8] + below(plan->bound + 1);
    const uint32_t times[] = { memory[8], memory[8] + 1, soon, memory[7] + plan->bound, memory[7] + plan->bound + 1,
                               memory[8] - 1, memory[5], memory[7], within, 2000000000, 2000000001 };
    struct piece piece = { .kind = percent(75) ? by_phase[memory[1] % 4] : (enum kind)below(6) };
    piece.value = below(plan->i);
    piece.time = times[below(percent(70) ? 5 : 11)];
    if (piece.kind == POLL)
        piece.value = memory[2];
    else if (piece.kind == TEST)
        piece.value = below(2);
    else if (piece.kind == TICK)
        piece.value = percent(60) ? memory[4] : plan->next[memory[4] % 32][memory[3] % 32];
    if (memory[0] == 0 && percent(90))
        piece = (struct piece){ .kind = OPENING, .value = below(plan->i) };
    if (percent(8))
        damage_value(&piece, plan);
    pieces[0] = piece;
    piece_count = 1;
    write_pieces(form, field);
    pieces[0] = kept;
    piece_count = count;
    if (percent(3)) /* some of it is missing, or something stands behind it */
        field->len = below((uint32_t)field->len);
    for (unsigned behind = percent(9) ? between(1, 9) : 0; behind > 0; behind--)
        add(field, below(256));
    if (percent(6))
        flip_bit(field, field->len);
}

static void any_memory_case(const char *label, const struct plan *plan, enum entry entry)
{
    static struct bytes field;
    uint32_t memory[MEMORY_ROOM];
    struct call call = { .entry = entry, .table = &table, .input = &field, .beforehand = memory };
    draw_memory(plan, memory);
    draw_field(plan, entries[entry].takes, memory, &field);
    if (percent(35))
        damage_memory(plan, memory);
    call.output_len = 4 * (size_t)(percent(6) ? below(KEPT) : percent(50) ? KEPT : between(KEPT, MEMORY_ROOM));
    call.answer_len = draw_answer_len(entries[entry].answer_size);
    if (entry == LIVE)
        call.path_len = percent(80) ? between(7, 30) : below(9);
    compare(label, &call, NULL);
}

static enum entry draw_entry(void)
{
    unsigned lot = below(100), entry = CHECK_TABLE;
    while (lot >= entries[entry].share)
        lot -= entries[entry++].share;
    return (enum entry)entry;
}

/* After a success: the way back, or the same once more. */
static void go_on(const char *label, const struct call *call, const struct plan *plan)
{
    if (call->entry == READ_STAMPED && call->right != NULL && accepts_other_form())
        came_back[call->entry]++;
    if (call->entry == SHORTEN || call->entry == LENGTHEN)
        turn_back(label, call);
    if (call->entry == SALVAGE)
        salvage_again(label, call);
    if (call->entry == REPORT_ADD)
        add_in_two_orders(label, plan);
}

static void random_case(uint64_t seed, uint64_t number)
{
    static struct plan plan;
    static uint64_t report[REPORT_ROOM];
    static struct bytes once_more;
    struct call call = { .table = &table, .input = &input };
    char label[64];

    seed_case(seed, number);
    snprintf(label, sizeof label, "case %" PRIu64 " of seed %" PRIu64, number, seed);
    call.entry = draw_entry();
    enum form takes = entries[call.entry].takes, writes = entries[call.entry].writes;
    bool damaged = percent(entries[call.entry].damaged);
    draw_table(&plan, &table, draw_kind(call.entry), damaged);
    input.len = 0;
    bool rewritten = writes != NOTHING && writes != REPORT;
    bool sound = takes != NOTHING && draw_input(&plan, takes, rewritten ? writes : NOTHING);
    if (sound && rewritten && call.entry != RUN && call.entry != SALVAGE) /* theirs go by the table, which may be damaged */
        call.right = &other_form;
    if (call.entry == SALVAGE)
        tear();
    if (call.entry == REACTION)
        draw_question(&plan, &call);
    if (rewritten)
        call.output_len = draw_output_len(exact_output(call.entry));
    if (writes == REPORT) {
        call.output_len = 8 * draw_report_len();
        draw_report(report);
        call.beforehand = report;
        count_twice(label);
    }
    call.answer_len = entries[call.entry].answer_size == 0 ? 0 : draw_answer_len(entries[call.entry].answer_size);
    bool success = compare(label, &call, NULL) && library_side.returned == 0;
    if (call.entry == REACTION) {
        ask_for_tight(label, &call);
        several_moves_case(label);
    }
    bool walks = takes == STIMULUS || takes == JOURNAL;
    once_more.len = walks ? input.len : 0;
    memcpy(once_more.at, input.at, once_more.len);
    if (success)
        go_on(label, &call, &plan);
    if (walks) {
        enum entry entry = takes == STIMULUS ? LIVE : WATCH;
        walk(label, entry, &once_more);
        any_memory_case(label, &plan, entry);
        any_memory_case(label, &plan, entry);
    }
}

/* ---- the paper's cases ---- */

static struct plan classroom(void)
{
    struct plan plan = { .q = 2, .i = 2, .o = 2, .bound = 3, .output = { 0, 1 }, .hold = { 0, 5 }, .delayed = { 0, 1 } };
    plan.next[0][1] = plan.next[1][1] = 1;
    return plan;
}

/* The hold of state 1 as a timer whose region is that state. */
static struct plan classroom_with_timer(void)
{
    struct plan plan = classroom();
    plan.timed = true;
    plan.timers = 1;
    plan.length[0] = plan.hold[1];
    plan.region[0] = 2;
    plan.delays[1][0] = plan.delayed[1];
    plan.hold[1] = plan.delayed[1] = 0;
    return plan;
}

/* A journal is written as kinds, with time and value for each: "I0 c1,1 p2,1 t2,1 k3,1 e12". */
static void read_pieces(const char *text)
{
    static const char letters[] = "Icptke";
    piece_count = 0;
    while (*text != '\0') {
        char letter = *text++;
        char *end;
        struct piece piece = { .kind = (enum kind)(strchr(letters, letter) - letters) };
        uint32_t number = (uint32_t)strtoul(text, &end, 10);
        if (piece.kind == OPENING)
            piece.value = number;
        else
            piece.time = number;
        if (*end == ',')
            piece.value = (uint32_t)strtoul(end + 1, &end, 10);
        pieces[piece_count++] = piece;
        text = *end == ' ' ? end + 1 : end;
    }
}

static void expect(bool right, const char *otherwise)
{
    if (right) {
        passed++;
    } else {
        printf("%s\n", otherwise);
        count_mismatch();
    }
}

/* What is wanted of the short journal where this is wanted of the journal: the place is that of the same field. */
static uint64_t in_short(uint64_t wanted)
{
    uint64_t place = wanted & 0xFFFFFFFFu;
    return wanted - place + (place < 4 ? place : 4 + (place - 4) / 8 * 6);
}

/* The way from one journal to the other: with just the room that it takes, and with a byte less for the output or the answer. */
static void compare_way(const char *label, enum entry entry, const struct bytes *from, const struct bytes *to,
                        const uint64_t *wanted)
{
    struct call call = { .entry = entry, .table = &table, .input = from, .right = to };
    const uint64_t without_room[] = { wanted[0] != 0 ? wanted[0] : REFUSED(30, 0) };
    size_t answer_size = entries[entry].answer_size;
    call.output_len = to->len;
    call.answer_len = answer_size;
    compare(label, &call, wanted);
    call.answer_len = answer_size - 1;
    compare(label, &call, without_room);
    call.answer_len = answer_size;
    call.output_len -= to->len == 0 ? 0 : 1;
    compare(label, &call, without_room);
}

/* The pieces as a journal and as a short one. `wanted` is of the journal check, and has eight places. */
static void compare_forms(const char *label, const uint64_t *wanted)
{
    static struct bytes journal, short_journal;
    struct call call = { .table = &table, .answer_len = 32 };
    uint64_t of_short[8];

    write_pieces(JOURNAL, &journal);
    write_pieces(SHORT, &short_journal);
    memcpy(of_short, wanted, sizeof of_short);
    of_short[0] = in_short(wanted[0]);
    call.entry = CHECK_JOURNAL;
    call.input = &journal;
    compare(label, &call, wanted);
    call.entry = CHECK_SHORT;
    call.input = &short_journal;
    compare(label, &call, of_short);
    compare_way(label, SHORTEN, &journal, &short_journal, (const uint64_t[]){ wanted[0], short_journal.len });
    compare_way(label, LENGTHEN, &short_journal, &journal, (const uint64_t[]){ of_short[0], journal.len });
}

/* Journals as a text has them, and what is wanted of the journal check. */
struct told {
    const char *journal;
    uint64_t wanted[8];
};

static void told_cases(const char *name, const struct told *told, size_t count)
{
    char label[64];
    for (size_t k = 0; k < count; k++) {
        snprintf(label, sizeof label, "%s %zu", name, k);
        read_pieces(told[k].journal);
        compare_forms(label, told[k].wanted);
    }
}

/* The classroom's journals, under its table with the hold or with the timer. */
static void journal_cases(const struct plan *plan)
{
#define RUN_TO_3 "I0 c1,1 p2,1 t2,1 k3,1 c3,0 p5,0 t5,0 k6,1 "
    static const struct told journals[] = {
        { RUN_TO_3 "p7,0 t8,0 k9,1 p10,0 t10,1 k11,0 e12", { 0, 12, 4, 2, 0, 0, 4, 3 } },
        { RUN_TO_3 "p7,0 t8,1 k9,1 p10,0 t10,1 k11,0 e12", { REFUSED(28, 76) } },
        { "I0 e0", { 0, 0, 0, 0, 0, 0, 0, 0 } },
        { "", { REFUSED(20, 0) } },
        { RUN_TO_3 "p7,0 t8,0 e8", { 0, 8, 2, 1, 1, 1, 4, 3 } },
        { RUN_TO_3 "p7,0 t9,1 e9", { 0, 9, 2, 1, 1, 1, 4, 3 } },
        { RUN_TO_3 "p7,0 t9,0 e9", { REFUSED(28, 76) } },
        { "I0 p1,0 t1,1 k3,0 e3", { 0, 3, 1, 0, 0, 0, 0, 3 } },
        { "I0 p1,0 t1,1 k4,0 e4", { REFUSED(25, 20) } },
        { "I0 c1,1 p1,1 e1", { REFUSED(27, 12) } },
        { "I0 p1,0 c1,1 e1", { 0, 1, 0, 0, 0, 0, 0, 0 } },
    };
    struct call call = { .table = &table, .input = &input, .answer_len = 32 };
    size_t starts[6];

    write_table(plan, 2, 2, &table, starts);
    input.len = 0;
    call.entry = CHECK_TABLE;
    compare("classroom table", &call, (const uint64_t[]){ 0 });
    told_cases("paper's journal", journals, sizeof journals / sizeof *journals);

    read_pieces(journals[0].journal);
    write_pieces(JOURNAL, &other_form);
    write_pieces(STIMULUS, &input);
    call.entry = RUN;
    call.output_len = 200;
    call.right = &other_form;
    compare("paper's stimulus", &call, (const uint64_t[]){ 0, 123 });
    expect(table.len == 48 && input.len == 111, "the paper's run: a length differs");
}

static void paper_cases(void)
{
    static const struct {
        uint32_t states, inputs;
        uint64_t wanted[4]; /* the last: the tight time, which only the tight calculator gives */
    } sets[] = {
        { 3, 1, { 0, 14, 1, 12 } }, { 3, 2, { 0, 6, 2, 5 } }, { 2, 1, { REFUSED(10, 2) } },
        { 2, 2, { 0, 3, 2, 3 } },   { 0, 1, { 0, 3, 0, 3 } }, { 4, 1, { REFUSED(9, 0) } },
        { 3, 4, { REFUSED(9, 1) } },
    };
    struct plan plan = classroom();
    struct call call = { .table = &table, .input = &input, .answer_len = 32 };
    char label[64];

    journal_cases(&plan);
    input.len = 0;
    for (size_t k = 0; k < sizeof sets / sizeof *sets; k++) {
        snprintf(label, sizeof label, "paper's sets %zu", k);
        call.states = sets[k].states;
        call.inputs = sets[k].inputs;
        call.entry = REACTION;
        compare(label, &call, sets[k].wanted);
        call.entry = REACTION_TIGHT;
        compare(label, &call, sets[k].wanted);
    }
}

/* The classroom's table with a timer, and one byte of it changed: field 07 is at 26, field 08 at 37. */
static void timer_cases(void)
{
    static const struct {
        size_t place;
        uint8_t byte;
        uint64_t wanted;
    } changes[] = {
        { 26, 0x09, REFUSED(2, 26) }, { 28, 7, REFUSED(2, 26) },  { 28, 0, REFUSED(2, 26) },  { 27, 1, REFUSED(1, 26) },
        { 32, 0, REFUSED(13, 29) },   { 29, 1, REFUSED(13, 29) }, { 36, 4, REFUSED(12, 33) }, { 36, 0, 0 },
        { 37, 0x06, REFUSED(2, 37) }, { 39, 4, REFUSED(2, 37) },  { 43, 4, REFUSED(12, 40) }, { 43, 3, 0 },
        { 47, 4, REFUSED(12, 44) },   { 39, 9, REFUSED(1, 37) },  { 26, 0x05, REFUSED(2, 37) },
    };
    struct plan plan = classroom_with_timer();
    struct call call = { .table = &table, .input = &input, .states = 4, .output_len = 48, .answer_len = 32 };
    size_t starts[6];
    char label[64];

    journal_cases(&plan);
    input.len = 0;
    call.entry = REACTION;
    compare("a reaction time with a timer", &call, (const uint64_t[]){ REFUSED(14, 0) });
    call.entry = REACTION_TIGHT;
    compare("a tight reaction time with a timer", &call, (const uint64_t[]){ REFUSED(14, 0) });
    call.entry = TIGHT_MOVES;
    compare("a tight reaction time over several moves with a timer", &call, (const uint64_t[]){ REFUSED(14, 0) });
    call.entry = CONVERT_TABLE;
    compare("a timer converted", &call, (const uint64_t[]){ REFUSED(2, 26) });
    for (size_t k = 0; k < sizeof changes / sizeof *changes; k++) {
        snprintf(label, sizeof label, "timer table, byte %zu is %u", changes[k].place, changes[k].byte);
        write_table(&plan, 2, 2, &table, starts);
        table.at[changes[k].place] = changes[k].byte;
        for (unsigned entry = CHECK_TABLE; entry < ENTRIES; entry++) {
            call.entry = (enum entry)entry;
            bool reads_timers = entry != CONVERT_TABLE && entry != READ_STAMPED;
            if (entry == CHECK_TABLE || (reads_timers && changes[k].wanted != 0)) /* the table's refusals come first */
                compare(label, &call, &changes[k].wanted);
        }
    }
}

/* The classroom's table as it may have been before 11: in state 0, which has no hold, input 1 is delayed. */
static void old_table_case(void)
{
    struct plan plan = classroom();
    struct bytes *new_table = &scratch;
    struct call call = { .table = &table, .input = &input, .output_len = 48, .answer_len = 4 };
    size_t starts[6];

    write_table(&plan, 2, 2, new_table, starts);
    plan.delayed[0] = 2;
    write_table(&plan, 2, 2, &table, starts);
    input.len = 0;
    call.entry = CHECK_TABLE;
    compare("old table", &call, (const uint64_t[]){ REFUSED(11, 40) });
    call.entry = CONVERT_TABLE;
    compare("old table converted", &call, (const uint64_t[]){ 0, 1 });
    expect(memcmp(library_side.output.at + library_side.output.before, new_table->at, 48) == 0,
           "old table converted: it is not the classroom's");
}

/* The longest journal: 2,730 cycles of one unit are 11 + 7 x 8,190 bytes of stimulus, and 11 + 8 x 8,190 of journal. With one event
   more the stimulus is too long. */
static void longest_case(void)
{
    struct plan plan = classroom();
    struct call call = { .entry = RUN, .table = &table, .input = &input, .output_len = 65531, .answer_len = 4 };
    size_t starts[6];

    write_table(&plan, 2, 2, &table, starts);
    pieces[0] = (struct piece){ .kind = OPENING };
    piece_count = 1;
    for (uint32_t time = 1; time <= 2730; time++)
        for (enum kind kind = POLL; kind <= TICK; kind++)
            pieces[piece_count++] = (struct piece){ .kind = kind, .time = time };
    pieces[piece_count++] = (struct piece){ .kind = END, .time = 2730 };
    write_pieces(STIMULUS, &input);
    expect(input.len == 57341, "the longest journal's stimulus has not 57,341 bytes");
    compare("longest journal", &call, (const uint64_t[]){ 0, 65531 });
    call.output_len = 65530;
    compare("longest journal, room for a byte less", &call, (const uint64_t[]){ REFUSED(30, 0) });
    pieces[piece_count - 1] = (struct piece){ .kind = POLL, .time = 2731 };
    pieces[piece_count++] = (struct piece){ .kind = END, .time = 2731 };
    write_pieces(STIMULUS, &input);
    compare("an event more than the longest journal's", &call, (const uint64_t[]){ REFUSED(19, 0) });
}

/* The files of examples/short-clock: a stamped journal, what is read from it, and the classroom's table with a longer bound
 * and hold. */
static void short_clock_case(void)
{
    struct plan plan = classroom();
    struct call call = { .table = &table, .input = &input, .output_len = 123, .answer_len = 28, .right = &other_form };
    size_t starts[6];

    plan.bound = 50000;
    plan.hold[1] = 90000;
    write_table(&plan, 2, 2, &table, starts);
    read_pieces("I0 c20000,1 p30000,1 t30000,1 k40000,1 c65535,0 p65536,0 t65537,0 k90000,1 "
                "p130000,0 t130000,0 k140000,1 p150000,0 t150000,1 k160000,0 e180000");
    write_pieces(JOURNAL, &other_form);
    write_pieces(STAMPED, &input);
    call.entry = READ_STAMPED;
    compare("short clock", &call, (const uint64_t[]){ 0, 123 });
    call.output_len = 122;
    compare("short clock, room for a byte less", &call, (const uint64_t[]){ REFUSED(30, 0) });
    call.output_len = 123;
    call.answer_len = 3;
    compare("short clock, no room for the answer", &call, (const uint64_t[]){ REFUSED(30, 0) });

    call = (struct call){ .entry = CHECK_JOURNAL, .table = &table, .input = &input, .answer_len = 28 };
    compare("short clock, stamps for times", &call, (const uint64_t[]){ REFUSED(21, 4) });
    call.input = &other_form;
    compare("short clock, its times", &call, (const uint64_t[]){ 0, 180000, 4, 2, 0, 0, 64464, 50000 });
}

/* A stamped or short journal of 27 bytes, with fields at 0, 4, 10, 16 and 22, is cut to so many bytes and has one changed. */
struct change {
    size_t len, place;
    uint8_t byte;
    uint64_t wanted[2];
};

static void take_change(enum form form, const struct change *change, char *label, size_t room)
{
    snprintf(label, room, "%s, %zu bytes, byte %zu is %u", form_names[form], change->len, change->place, change->byte);
    read_pieces("I0 p1,0 t2,1 k3,0 e4");
    write_pieces(form, &input);
    input.len = change->len;
    input.at[change->place] = change->byte;
}

/* Stamped journals as a text has them; then that of take_change, changed in this way or that. */
static void stamped_cases(void)
{
    static const struct {
        const char *journal;
        uint64_t wanted[2];
    } journals[] = {
        { "", { REFUSED(20, 0) } },
        { "I0", { REFUSED(20, 4) } },
        { "I0 p1,0", { REFUSED(20, 10) } },
        { "I0 e0", { 0, 11 } },
        { "I0 e65535", { 0, 11 } },
        { "I255 c65535,254 p65536,253 t65536,7 k131071,252 e131072", { 0, 43 } },
        { "e0", { REFUSED(22, 0) } },
        { "p1,0 I0 e1", { REFUSED(22, 0) } },
        { "I0 I0 e1", { REFUSED(22, 4) } },
        { "I0 p1,0 I0 e1", { REFUSED(22, 10) } },
        { "I0 e1 e1", { REFUSED(22, 9) } },
    };
    static const struct change changes[] = {
        { 27, 0, 0x10, { 0, 35 } },           { 2, 0, 0x10, { REFUSED(20, 0) } },   { 3, 0, 0x20, { REFUSED(20, 0) } },
        { 27, 0, 0x20, { REFUSED(21, 0) } },  { 27, 0, 0x12, { REFUSED(21, 0) } },  { 27, 2, 0, { REFUSED(21, 0) } },
        { 9, 4, 0x22, { REFUSED(20, 4) } },   { 27, 5, 0x01, { REFUSED(20, 4) } },  { 27, 4, 0x22, { REFUSED(21, 4) } },
        { 27, 4, 0x15, { REFUSED(21, 4) } },  { 27, 4, 0x10, { REFUSED(21, 4) } },  { 27, 4, 0x1F, { REFUSED(21, 4) } },
        { 27, 6, 5, { REFUSED(21, 4) } },     { 27, 6, 2, { REFUSED(21, 4) } },     { 27, 15, 7, { 0, 35 } },
        { 22, 0, 0x10, { REFUSED(20, 22) } }, { 26, 0, 0x10, { REFUSED(20, 22) } }, { 27, 22, 0x14, { REFUSED(21, 22) } },
        { 27, 24, 1, { REFUSED(21, 22) } },   { 27, 24, 3, { REFUSED(20, 22) } },   { 28, 27, 0x1F, { REFUSED(22, 27) } },
    };
    struct call call = { .entry = READ_STAMPED, .table = &table, .input = &input, .output_len = 50, .answer_len = 4 };
    char label[64];

    table.len = 0;
    call.right = &other_form;
    for (size_t k = 0; k < sizeof journals / sizeof *journals; k++) {
        snprintf(label, sizeof label, "stamped journal %zu", k);
        read_pieces(journals[k].journal);
        write_pieces(JOURNAL, &other_form);
        write_pieces(STAMPED, &input);
        compare(label, &call, journals[k].wanted);
    }
    call.right = NULL;
    for (size_t k = 0; k < sizeof changes / sizeof *changes; k++) {
        take_change(STAMPED, &changes[k], label, sizeof label);
        compare(label, &call, changes[k].wanted);
    }
}

/* The longest stamped journal: 8,190 records are 9 + 6 x 8,190 bytes of it, and 11 + 8 x 8,190 of its long form. */
static void longest_stamped_case(void)
{
    struct call call = { .entry = READ_STAMPED, .table = &table, .input = &input, .answer_len = 4 };

    table.len = 0;
    for (uint32_t k = 0; k <= MOST_RECORDS + 1; k++)
        pieces[k] = (struct piece){ .kind = POLL, .time = k * 65535 };
    pieces[0].kind = OPENING;
    pieces[MOST_RECORDS + 1].kind = END;
    piece_count = MOST_RECORDS + 2;
    write_pieces(JOURNAL, &other_form);
    write_pieces(STAMPED, &input);
    expect(input.len == 49149, "the longest stamped journal has not 49,149 bytes");
    call.right = &other_form;
    call.output_len = 65531;
    compare("longest stamped journal", &call, (const uint64_t[]){ 0, 65531 });
    call.output_len = 65530;
    compare("longest stamped journal, room for a byte less", &call, (const uint64_t[]){ REFUSED(30, 0) });
    head(&input, 0x12, 3);
    compare("longest stamped journal, and three bytes", &call, (const uint64_t[]){ REFUSED(22, 49149) });
    add(&input, 0);
    compare("longest stamped journal, and four bytes", &call, (const uint64_t[]){ REFUSED(19, 0) });

    insert_piece(1, pieces[1]);
    write_pieces(STAMPED, &input);
    compare("a record more than the longest stamped journal's", &call, (const uint64_t[]){ REFUSED(19, 0) });
    input.len = 49153;
    compare("the same, with three bytes of its end", &call, (const uint64_t[]){ REFUSED(19, 0) });
    input.len = 49152;
    compare("the same, with two bytes of its end", &call, (const uint64_t[]){ REFUSED(20, 49150) });
}

/* Gaps up to the largest, 60,000, and above it; and fields out of order. */
static void form_cases(void)
{
    static const struct told journals[] = {
        { "I0", { REFUSED(20, 4) } },
        { "I0 p1,0", { REFUSED(20, 12) } },
        { "e0", { REFUSED(22, 0) } },
        { "p1,0 I0 e1", { REFUSED(22, 0) } },
        { "I0 I0 e1", { REFUSED(22, 4) } },
        { "I0 p1,0 I2 e1", { REFUSED(22, 12) } },
        { "I2 e1", { REFUSED(23, 0) } },
        { "I0 e60000", { 0, 60000, 0, 0, 0, 0, 0, 0 } },
        { "I0 e60001", { REFUSED(25, 4) } },
        { "I0 e65535", { REFUSED(25, 4) } },
        { "I0 p60000,0 t60000,1 k60000,0 c120000,1 e120000", { 0, 120000, 1, 0, 0, 0, 0, 60000 } },
        { "I0 c59999,1 p60000,1 t60000,1 k60000,1 c60000,0 p120000,0 e120000", { 0, 120000, 1, 1, 1, 1, 0, 60000 } },
        { "I0 p1,0 t30000,1 k60000,0 p60001,0 t90000,1 k120000,0 e180000", { 0, 180000, 2, 0, 0, 0, 0, 60000 } },
        { "I0 p1,0 t30000,1 k60000,0 p60001,0 t90000,1 k120001,0 e120001", { REFUSED(25, 44) } },
        { "I0 p1,0 t30000,1 k60000,0 p60001,0 t90000,1 e120001", { REFUSED(25, 44) } },
    };
    struct plan plan = classroom();
    size_t starts[6];

    plan.bound = 60000;
    write_table(&plan, 2, 2, &table, starts);
    told_cases("journal of long gaps", journals, sizeof journals / sizeof *journals);
}

/* For what is refused of a short journal: its check, and its way to a journal with no room for anything. */
static void refused_short(const char *label, uint64_t of_check, uint64_t of_lengthen)
{
    struct call call = { .table = &table, .input = &input };
    call.entry = CHECK_SHORT;
    call.answer_len = of_check == REFUSED(30, 0) ? 27 : 28;
    compare(label, &call, &of_check);
    call.entry = LENGTHEN;
    call.answer_len = 0;
    compare(label, &call, &of_lengthen);
}

/* The short journal of take_change, changed in this way or that. */
static void short_cases(void)
{
    static const struct change changes[] = {
        { 27, 0, 0x30, { REFUSED(30, 0) } },   { 2, 0, 0x30, { REFUSED(20, 0) } },    { 3, 0, 0x10, { REFUSED(20, 0) } },
        { 27, 0, 0x10, { REFUSED(21, 0) } },   { 27, 0, 0x32, { REFUSED(21, 0) } },   { 27, 2, 0, { REFUSED(21, 0) } },
        { 27, 3, 2, { REFUSED(23, 0) } },      { 9, 4, 0x12, { REFUSED(20, 4) } },    { 27, 5, 0x01, { REFUSED(20, 4) } },
        { 27, 4, 0x12, { REFUSED(21, 4) } },   { 27, 4, 0x22, { REFUSED(21, 4) } },   { 27, 4, 0x35, { REFUSED(21, 4) } },
        { 27, 4, 0x30, { REFUSED(21, 4) } },   { 27, 4, 0x3F, { REFUSED(21, 4) } },   { 27, 6, 5, { REFUSED(21, 4) } },
        { 27, 6, 2, { REFUSED(21, 4) } },      { 27, 8, 0, { REFUSED(27, 4) } },      { 27, 7, 1, { REFUSED(25, 4) } },
        { 27, 9, 2, { REFUSED(23, 4) } },      { 27, 9, 1, { REFUSED(28, 4) } },      { 27, 10, 0x34, { REFUSED(26, 10) } },
        { 27, 14, 2, { REFUSED(25, 16) } },    { 27, 14, 3, { REFUSED(25, 10) } },    { 27, 15, 2, { REFUSED(23, 10) } },
        { 27, 15, 0, { REFUSED(28, 10) } },    { 27, 16, 0x33, { REFUSED(26, 16) } }, { 27, 21, 2, { REFUSED(23, 16) } },
        { 27, 21, 1, { REFUSED(28, 16) } },    { 22, 0, 0x30, { REFUSED(20, 22) } },  { 26, 0, 0x30, { REFUSED(20, 22) } },
        { 27, 22, 0x34, { REFUSED(21, 22) } }, { 27, 24, 1, { REFUSED(21, 22) } },    { 27, 24, 3, { REFUSED(20, 22) } },
        { 27, 26, 3, { REFUSED(30, 0) } },     { 27, 26, 4, { REFUSED(25, 22) } },    { 28, 27, 0x3F, { REFUSED(22, 27) } },
    };
    struct plan plan = classroom();
    size_t starts[6];
    char label[64];

    write_table(&plan, 2, 2, &table, starts);
    for (size_t k = 0; k < sizeof changes / sizeof *changes; k++) {
        take_change(SHORT, &changes[k], label, sizeof label);
        refused_short(label, changes[k].wanted[0], changes[k].wanted[0]);
    }
}

/* So many records between opening and end: a poll 60,000 after the cycle start, its test and its tick at the same instant,
 * and again. */
static void take_long_cycles(size_t count)
{
    uint32_t time = 0;
    pieces[0] = (struct piece){ .kind = OPENING };
    for (size_t k = 1; k <= count; k++) {
        enum kind kind = (enum kind)(POLL + (k - 1) % 3);
        time += kind == POLL ? 60000 : 0;
        pieces[k] = (struct piece){ .kind = kind, .time = time, .value = kind == TEST };
    }
    pieces[count + 1] = (struct piece){ .kind = END, .time = time };
    piece_count = count + 2;
}

/* The longest journal, and the longest short one: 8,190 records are 9 + 6 x 8,190 bytes of a short journal, and 11 + 8 x 8,190 of
 * the journal that it stands for. With one more it cannot be lengthened; 10,921 are 65,535 bytes. */
static void longest_short_case(void)
{
    static const uint64_t of_journal[8] = { 0, 163800000, 2730, 0, 0, 0, 0, 60000 };
    struct plan plan = classroom();
    struct call call = { .entry = CHECK_SHORT, .table = &table, .input = &input, .answer_len = 28 };
    size_t starts[6];

    plan.bound = 60000;
    write_table(&plan, 2, 2, &table, starts);
    take_long_cycles(MOST_RECORDS);
    write_pieces(SHORT, &input);
    expect(input.len == 49149, "the longest journal's short form has not 49,149 bytes");
    compare_forms("longest journal and its short form", of_journal);

    take_long_cycles(MOST_RECORDS + 1);
    write_pieces(JOURNAL, &other_form);
    write_pieces(SHORT, &input);
    expect(other_form.len == 65539, "the shortest journal that is too long has not 65,539 bytes");
    compare("a record more", &call, (const uint64_t[]){ 0, 163860000, 2730, 0, 0, 0, 0, 60000 });
    refused_short("a record more, no room", REFUSED(30, 0), REFUSED(34, 0));
    call.entry = LENGTHEN;
    for (call.output_len = 65530; call.output_len <= 65540; call.output_len++)
        compare("a record more, lengthened", &call, (const uint64_t[]){ REFUSED(34, 0) });
    input.at[input.len - 1]++;
    refused_short("a record more, the end too late", REFUSED(25, 49150), REFUSED(25, 49150));

    take_long_cycles(MOST_SHORT);
    write_pieces(SHORT, &input);
    expect(input.len == 65535, "the longest short journal has not 65,535 bytes");
    call.entry = CHECK_SHORT;
    compare("longest short journal", &call, (const uint64_t[]){ 0, 218460000, 3640, 0, 0, 0, 0, 60000 });
    refused_short("longest short journal, no room", REFUSED(30, 0), REFUSED(34, 0));
    add(&input, 0x3F);
    refused_short("longest short journal, and a byte", REFUSED(22, 65535), REFUSED(22, 65535));
    add(&input, 0);
    refused_short("longest short journal, and two bytes", REFUSED(19, 0), REFUSED(19, 0));
    take_long_cycles(MOST_SHORT + 1);
    write_pieces(SHORT, &input);
    refused_short("a record more than the longest short journal's", REFUSED(19, 0), REFUSED(19, 0));
    input.len = 65536;
    refused_short("the same without its end", REFUSED(20, 65536), REFUSED(20, 65536));
}

/* The journal in `input`, salvaged to what is in `other_form`, with room that is just enough or a byte too short; and then again.
 * `wanted` has five places. */
static void compare_salvage(const char *label, const uint64_t *wanted)
{
    struct call call = {
        .entry = SALVAGE, .table = &table, .input = &input, .output_len = ROOM / 2, .answer_len = 16, .right = &other_form
    };
    compare_way(label, SALVAGE, &input, &other_form, wanted);
    if (compare(label, &call, wanted) && wanted[0] == 0)
        salvage_again(label, &call);
}

/* The pieces up to one, and an end with its time: what is left of a journal whose last sound tick that is. 0 is the opening. */
static void close_after(size_t piece)
{
    struct piece behind = pieces[piece + 1];
    size_t count = piece_count;
    pieces[piece + 1] = (struct piece){ .kind = END, .time = pieces[piece].time };
    piece_count = piece + 2;
    write_pieces(JOURNAL, &other_form);
    pieces[piece + 1] = behind;
    piece_count = count;
}

/* The classroom's journal, torn at every byte. */
static void torn_cases(void)
{
    struct plan plan = classroom();
    size_t starts[6], last_tick = 0, field = 0; /* the field that is torn */
    char label[64];

    write_table(&plan, 2, 2, &table, starts);
    read_pieces(RUN_TO_3 "p7,0 t8,0 k9,1 p10,0 t10,1 k11,0 e12");
    for (size_t len = 0; len < 123; len++) {
        write_pieces(JOURNAL, &input);
        if (field + 1 < piece_count && len == piece_starts[field + 1]) {
            if (pieces[field].kind == TICK)
                last_tick = field;
            field++;
        }
        size_t place = piece_starts[field], kept = last_tick == 0 ? 4 : piece_starts[last_tick] + 8;
        snprintf(label, sizeof label, "classroom journal, torn to %zu bytes", len);
        input.len = len;
        close_after(last_tick);
        if (field == 0)
            compare_salvage(label, (const uint64_t[]){ REFUSED(20, 0) });
        else
            compare_salvage(label, (const uint64_t[]){ 0, kept, len - kept, 20, place });
    }
    expect(field == 15 && last_tick == 14, "the classroom journal was not torn in every field");
}

/* Journals as a text has them, and what is salvaged from them under the classroom's table. */
static void salvage_cases(void)
{
#define CYCLE_TO_3 "I0 p1,0 t1,1 k3,0 "
    static const struct {
        const char *journal, *salvaged;
        uint64_t wanted[5];
    } journals[] = {
        { "I0 e0", "I0 e0", { 0, 11, 0, 0, 0 } },
        { CYCLE_TO_3 "e3", CYCLE_TO_3 "e3", { 0, 35, 0, 0, 0 } },
        { CYCLE_TO_3 "c4,1 p5,1 t5,1 e6", CYCLE_TO_3 "c4,1 p5,1 t5,1 e6", { 0, 59, 0, 0, 0 } },
        { "", "", { REFUSED(20, 0) } },
        { "e0", "", { REFUSED(22, 0) } },
        { "p1,0 I0 e1", "", { REFUSED(22, 0) } },
        { "k0,0 I0 e1", "", { REFUSED(22, 0) } },
        { "I2 e1", "", { REFUSED(23, 0) } },
        { "I2", "", { REFUSED(23, 0) } },
        { "I0", "I0 e0", { 0, 4, 0, 20, 4 } },
        { "I1 I0 e1", "I1 e0", { 0, 4, 11, 22, 4 } },
        { "I0 c1,1 p2,1 t2,1 e2 e2", "I0 e0", { 0, 4, 38, 22, 35 } },           /* bytes after the end */
        { "I0 e0 e0", "I0 e0", { 0, 4, 14, 22, 11 } },
        { CYCLE_TO_3 "e3 e3", CYCLE_TO_3 "e3", { 0, 28, 14, 22, 35 } },
        { CYCLE_TO_3 "e5 k5,0", CYCLE_TO_3 "e3", { 0, 28, 15, 22, 35 } },
        { CYCLE_TO_3 "p4,0 e5 t5,1", CYCLE_TO_3 "e3", { 0, 28, 23, 22, 43 } },
        { CYCLE_TO_3 "e7", CYCLE_TO_3 "e3", { 0, 28, 7, 25, 28 } },             /* an end that is refused */
        { CYCLE_TO_3 "e2", CYCLE_TO_3 "e3", { 0, 28, 7, 24, 28 } },
        { CYCLE_TO_3 "c5,1", CYCLE_TO_3 "e3", { 0, 28, 8, 20, 36 } },
        { "I0 p1,0 t1,1 k4,0 e4", "I0 e0", { 0, 4, 31, 25, 20 } },              /* a tick that is refused */
        { "I0 p1,0 t1,1 k3,1 e3", "I0 e0", { 0, 4, 31, 28, 20 } },
        { "I0 p1,0 t1,1 k3,2 e3", "I0 e0", { 0, 4, 31, 23, 20 } },
        { "I0 p1,0 k3,0 e3", "I0 e0", { 0, 4, 23, 26, 12 } },
        { CYCLE_TO_3 "k3,0 e3", CYCLE_TO_3 "e3", { 0, 28, 15, 26, 28 } },
        { CYCLE_TO_3 "p4,0 t4,1 k7,0 e7", CYCLE_TO_3 "e3", { 0, 28, 31, 25, 44 } },
        { CYCLE_TO_3 "p3,0 t4,1 k5,0 e5", CYCLE_TO_3 "e3", { 0, 28, 31, 27, 28 } }, /* a tick after what is refused */
        { "I0 p1,1 t1,1 k3,1 p4,1 t4,1 k5,1 e5", "I0 e0", { 0, 4, 55, 28, 4 } },
        { RUN_TO_3 "p7,0 t8,1 k9,1 p10,0 t10,1 k11,0 e12", RUN_TO_3 "e6", { 0, 68, 55, 28, 76 } },
    };
    struct plan plan = classroom();
    size_t starts[6];
    char label[64];

    write_table(&plan, 2, 2, &table, starts);
    for (size_t k = 0; k < sizeof journals / sizeof *journals; k++) {
        snprintf(label, sizeof label, "salvage %zu", k);
        read_pieces(journals[k].salvaged);
        write_pieces(JOURNAL, &other_form);
        read_pieces(journals[k].journal);
        write_pieces(JOURNAL, &input);
        compare_salvage(label, journals[k].wanted);
    }
}

/* Where an end field has no more room. 8,190 records are 65,524 bytes with the opening, and with an end 65,531; the last is a tick.
 * With a change before them the last tick ends at 65,532: the one before it, at 65,508, is kept. */
static void last_cut_cases(void)
{
    struct plan plan = classroom();
    size_t starts[6];
    char label[64];

    plan.bound = 60000;
    write_table(&plan, 2, 2, &table, starts);
    take_long_cycles(MOST_RECORDS);
    write_pieces(JOURNAL, &input);
    write_pieces(JOURNAL, &other_form);
    compare_salvage("longest journal", (const uint64_t[]){ 0, 65531, 0, 0, 0 });
    input.len = 65524;
    compare_salvage("longest journal, without its end", (const uint64_t[]){ 0, 65524, 0, 20, 65524 });
    write_pieces(JOURNAL, &input);
    while (input.len < JOURNAL_LIMIT)
        add(&input, 0x1F);
    compare_salvage("longest journal, and five bytes", (const uint64_t[]){ 0, 65524, 12, 22, 65531 });
    add(&input, 0x1F);
    compare_salvage("longest journal, and six bytes", (const uint64_t[]){ REFUSED(19, 0) });

    insert_piece(1, (struct piece){ .kind = CHANGE });
    for (size_t len = 65523; len <= 65537; len++) {
        snprintf(label, sizeof label, "a record more than the longest, torn to %zu bytes", len);
        write_pieces(JOURNAL, &input);
        close_after(8188);
        input.len = len;
        size_t place = len < 65524 ? 65516 : len < 65532 ? 65524 : 65532;
        if (len > JOURNAL_LIMIT)
            compare_salvage(label, (const uint64_t[]){ REFUSED(19, 0) });
        else
            compare_salvage(label, (const uint64_t[]){ 0, 65508, len - 65508, 20, place });
    }
    for (size_t k = 1; k < piece_count; k++)
        pieces[k] = (struct piece){ .kind = CHANGE };
    write_pieces(JOURNAL, &input);
    close_after(0);
    input.len = JOURNAL_LIMIT;
    compare_salvage("nothing but changes", (const uint64_t[]){ 0, 4, 65532, 20, 65532 });
}

/* What an accepted journal under the classroom's table adds to a report, and what is wanted of one that is refused. */
struct added {
    const char *journal;
    uint64_t wanted, numbers[9]; /* journals; slots in 0, 1; in 0 with 0, 1, in 1 with 0, 1; entries into 0, 1 */
};

enum { CLASSROOM_REPORT = 9 };

/* Reports of each of these lengths with each of these first numbers, the others all alike; the journal is in `input`. */
static void compare_reports(const char *label, const struct added *added)
{
    static const size_t lengths[] = { 0, 1, 2, CLASSROOM_REPORT - 1, CLASSROOM_REPORT, CLASSROOM_REPORT + 1, 40 };
    static const uint64_t firsts[] = { 0, 1, 998, 999, 1000, 1001, 0x1000003E8u, UINT64_MAX };
    static const uint64_t others[] = { 0, 7, 0xFFFFFFFFu, UINT64_MAX - 2, UINT64_MAX };
    static struct bytes sums;
    uint64_t report[40], after[CLASSROOM_REPORT];
    struct call call = { .entry = REPORT_ADD, .table = &table, .input = &input, .beforehand = report, .right = &sums };
    for (size_t case_number = 0; case_number < 7 * 8; case_number++) {
        size_t len = lengths[case_number % 7];
        report[0] = firsts[case_number / 7];
        for (size_t k = 1; k < 40; k++)
            report[k] = others[case_number % 5];
        for (size_t k = 0; k < CLASSROOM_REPORT; k++)
            after[k] = report[k] + added->numbers[k];
        memcpy(sums.at, after, sums.len = sizeof after);
        call.output_len = 8 * len;
        uint64_t wanted = added->wanted != 0       ? added->wanted
                          : len == 0               ? REFUSED(30, 0)
                          : report[0] >= 1000      ? REFUSED(35, 0)
                          : len < CLASSROOM_REPORT ? REFUSED(30, 0)
                                                   : 0;
        compare(label, &call, &wanted);
    }
}

/* Under the classroom's table with the hold or with the timer. */
static void report_cases(const struct plan *plan)
{
    static const struct added journals[] = {
        { "I0 e0", 0, { 1, 0, 0, 0, 0, 0, 0, 1, 0 } },
        { "I1 e3", 0, { 1, 3, 0, 0, 3, 0, 0, 1, 0 } },
        { RUN_TO_3 "p7,0 t8,0 k9,1 p10,0 t10,1 k11,0 e12", 0, { 1, 4, 8, 2, 2, 8, 0, 2, 1 } },
        { "I0 p1,0 t1,1 k3,0 e3", 0, { 1, 3, 0, 3, 0, 0, 0, 1, 0 } },         /* a tick to the same state */
        { "I1 p1,1 t1,1 k3,1 e3", 0, { 1, 3, 0, 0, 3, 0, 0, 1, 1 } },         /* an entry at T, and no slot of it */
        { "I1 p1,1 t1,1 k2,1 e3", 0, { 1, 2, 1, 0, 2, 0, 1, 1, 1 } },
        { "I0 c0,1 e2", 0, { 1, 2, 0, 0, 2, 0, 0, 1, 0 } },                   /* a change at 0 */
        { "I0 c2,1 e2", 0, { 1, 2, 0, 2, 0, 0, 0, 1, 0 } },                   /* and at T */
        { "I0 c1,1 c1,0 c1,1 e2", 0, { 1, 2, 0, 1, 1, 0, 0, 1, 0 } },
        { "I0 p1,0 c1,1 t2,1 k2,0 e3", 0, { 1, 3, 0, 1, 2, 0, 0, 1, 0 } },    /* another input than the polled one */
        { "I1 p1,1 t1,1 k1,1 p2,1 t2,1 k2,1 c2,0 c3,1 e5", 0, { 1, 1, 4, 0, 1, 1, 3, 1, 1 } },
        { RUN_TO_3 "p7,0 t8,1 k9,1 p10,0 t10,1 k11,0 e12", REFUSED(28, 76), { 0 } },
        { RUN_TO_3, REFUSED(20, 68), { 0 } },
        { "", REFUSED(20, 0), { 0 } },
        { "I0 p1,0 t1,1 k4,0 e4", REFUSED(25, 20), { 0 } },
        { "I0 e0 e0", REFUSED(22, 11), { 0 } },
        { "I2 e0", REFUSED(23, 0), { 0 } },
        { "I0 c2,1 c1,0 e2", REFUSED(24, 12), { 0 } },
        { "I0 t1,1 e2", REFUSED(26, 4), { 0 } },
        { "I0 c1,1 p1,1 e1", REFUSED(27, 12), { 0 } },
    };
    size_t starts[6];
    char label[64];

    write_table(plan, 2, 2, &table, starts);
    for (size_t k = 0; k < sizeof journals / sizeof *journals; k++) {
        snprintf(label, sizeof label, "journal %zu, added", k);
        read_pieces(journals[k].journal);
        write_pieces(JOURNAL, &input);
        compare_reports(label, &journals[k]);
        uint64_t before = counted_twice;
        count_twice(label);
        expect(counted_twice - before == (journals[k].wanted == 0), "a short journal was not counted by slots");
    }
    table.len--;
    compare_reports("a journal added under half a table", &(struct added){ "", REFUSED(1, 37), { 0 } });
    table.len++;
    for (input.len = 0; input.len < JOURNAL_LIMIT + 1;)
        add(&input, 0x11);
    compare_reports("a journal that is too long, added", &(struct added){ "", REFUSED(19, 0), { 0 } });
}

/* The classroom's journal until the report is full, and once more. */
static void full_report_case(void)
{
    uint64_t report[CLASSROOM_REPORT] = { 0 };
    const uint64_t thousand[CLASSROOM_REPORT] = { 1000, 4000, 8000, 2000, 2000, 8000, 0, 2000, 1000 };
    const unsigned first[] = { 0 };
    struct plan plan = classroom();
    size_t starts[6];
    unsigned taken = 0;
    uint64_t passed_before = passed;

    write_table(&plan, 2, 2, &table, starts);
    read_pieces(RUN_TO_3 "p7,0 t8,0 k9,1 p10,0 t10,1 k11,0 e12");
    write_pieces(JOURNAL, &input);
    for (unsigned k = 0; k < 1001; k++)
        taken += add_all("the report filled", &input, first, 1, report);
    passed = passed_before; /* together they are the two assertions below */
    expect(taken == 1000 && library_side.returned == REFUSED(35, 0), "the report did not take 1,000 journals and no more");
    expect(memcmp(report, thousand, sizeof report) == 0, "the report of 1,000 journals is not 1,000 times that of one");
}

/* The longest journal: its sums pass 32 bits after 27 times. */
static void long_report_case(void)
{
    uint64_t report[CLASSROOM_REPORT] = { 0 };
    const uint64_t thirty[CLASSROOM_REPORT] = { 30, 4914000000u, 0, 4914000000u, 0, 0, 0, 30, 0 };
    const unsigned first[] = { 0 };
    struct plan plan = classroom();
    size_t starts[6];

    plan.bound = 60000;
    write_table(&plan, 2, 2, &table, starts);
    take_long_cycles(MOST_RECORDS);
    write_pieces(JOURNAL, &input);
    for (unsigned k = 0; k < 30; k++)
        add_all("the longest journal added", &input, first, 1, report);
    expect(memcmp(report, thirty, sizeof report) == 0, "the report of 30 long journals is not 30 times that of one");
}

static void all_report_cases(void)
{
    struct plan plan = classroom(), with_timer = classroom_with_timer();
    report_cases(&plan);
    report_cases(&with_timer);
    full_report_case();
    long_report_case();
}

/* A question of several moves: what is wanted of it, the row of sums of each round, and the path. */
static struct bytes right_sums, right_path;

static void add_sum(uint32_t sum)
{
    memcpy(right_sums.at + right_sums.len, &sum, 4);
    right_sums.len += 4;
}

/* With the sums and the path above, with just the room that it takes, with less of one thing or another, and with more. A refusal that
 * comes before the room is looked at comes without any too. */
static void compare_moves(const char *label, uint32_t states, uint32_t inputs, uint32_t moves, const uint64_t *wanted)
{
    static const struct {
        int sums, path, answer; /* how much more or less */
    } rooms[] = {
        { 0, 0, 0 }, { -1, 0, 0 },  { 0, -1, 0 },   { 0, 0, -1 },  { -1, 0, -1 }, { 0, -1, -1 },
        { 1, 0, 0 }, { 0, 1, 0 },   { 7, 9, 20 },   { 9, 9, -12 }, { -1, 9, 9 },  { 9, -1, 9 },
    };
    struct call call = { .entry = REACTION_MOVES, .table = &table, .input = &input, .states = states, .inputs = inputs, .moves = moves };
    size_t places = wanted[0] == 0 ? moves * (size_t)table.at[3] : 0, bytes = wanted[0] == 0 && moves > 0 ? 2 * moves - 1 : 0;
    call.right = &right_sums;
    call.right_path = &right_path;
    for (size_t k = 0; k < sizeof rooms / sizeof *rooms; k++) {
        bool lacks = (places > 0 && rooms[k].sums < 0) || (bytes > 0 && rooms[k].path < 0);
        uint64_t otherwise = lacks ? REFUSED(33, 0) : rooms[k].answer < 0 ? REFUSED(30, 0) : 0;
        call.output_len = 4 * (places + (size_t)(places == 0 && rooms[k].sums < 0 ? 0 : rooms[k].sums));
        call.path_len = bytes + (size_t)(bytes == 0 && rooms[k].path < 0 ? 0 : rooms[k].path);
        call.answer_len = 12 + (size_t)rooms[k].answer;
        compare(label, &call, wanted[0] != 0 || otherwise == 0 ? wanted : &otherwise);
    }
    call.right = call.right_path = NULL;
    ask_for_tight_moves(label, &call, NULL);
    ask_of_one_move(label, &call);
    uint64_t before = worked_out_twice;
    bool few = (inputs & (inputs - 1)) == 0 || moves <= 8; /* inputs in A, or moves: few enough for the paths to be tried */
    work_out_twice(label, &call);
    expect(!few || worked_out_twice - before == (wanted[0] == 0), "a short question was not worked out by paths");
}

/* The classroom's table: state 0 weighs 3, and state 1 weighs 5 + 2 x 3 where input 0 is in A. Each row of sums is the same. */
static void classroom_moves_cases(void)
{
    static const uint32_t moves[] = { 0, 1, 2, 32, 33, 34, UINT32_MAX };
    static const struct {
        uint32_t states, inputs;
        uint64_t refused; /* for up to 32 moves */
        uint32_t time, target, row[2], start; /* start: of the path, or 2 if there is none */
    } questions[] = {
        { 3, 1, 0, 14, 1, { 0, 11 }, 1 }, { 3, 2, 0, 6, 2, { 3, 0 }, 0 }, { 3, 3, 0, 3, 3, { 0, 0 }, 2 },
        { 3, 0, 0, 6, 0, { 3, 3 }, 0 },   { 1, 1, 0, 3, 1, { 0, 0 }, 2 }, { 2, 2, 0, 3, 2, { 0, 0 }, 2 },
        { 2, 0, 0, 6, 0, { 0, 3 }, 1 },   { 0, 3, 0, 3, 0, { 0, 0 }, 2 }, { 2, 1, REFUSED(10, 2), 0, 0, { 0, 0 }, 2 },
        { 2, 3, REFUSED(10, 2), 0, 0, { 0, 0 }, 2 },       { 1, 3, REFUSED(10, 1), 0, 0, { 0, 0 }, 2 },
        { 4, 1, REFUSED(9, 0), 0, 0, { 0, 0 }, 2 },        { 3, 4, REFUSED(9, 1), 0, 0, { 0, 0 }, 2 },
        { UINT32_MAX, UINT32_MAX, REFUSED(9, 0), 0, 0, { 0, 0 }, 2 },
    };
    struct plan plan = classroom();
    size_t starts[6];
    char label[64];

    write_table(&plan, 2, 2, &table, starts);
    input.len = 0;
    for (size_t k = 0; k < sizeof questions / sizeof *questions; k++)
        for (size_t m = 0; m < sizeof moves / sizeof *moves; m++) {
            uint32_t n = moves[m];
            uint64_t wanted[4] = { questions[k].refused, questions[k].time, questions[k].target, questions[k].start < 2 };
            if (n > 32 && (wanted[0] == 0 || wanted[0] >= REFUSED(10, 0)))
                wanted[0] = REFUSED(32, 0);
            if (n == 0) {
                wanted[1] = 3;
                wanted[2] = questions[k].states;
                wanted[3] = 0;
            }
            right_sums.len = right_path.len = 0;
            for (uint32_t row = 0; row < n && n <= 32; row++) {
                add_sum(questions[k].row[0]);
                add_sum(questions[k].row[1]);
            }
            if (wanted[3] == 1)
                add(&right_path, questions[k].start);
            snprintf(label, sizeof label, "classroom, question %zu of %" PRIu32 " moves", k, n);
            compare_moves(label, questions[k].states, questions[k].inputs, n, wanted);
        }
}

/* A chain of 32 states: each leads to the one after it, under both inputs, and the last to itself. Holds are as long as can be, and delay
 * input 1. From any state, n moves lead to state n or further on, but never past the last. */
static void chain_cases(void)
{
    static const uint32_t moves[] = { 0, 1, 2, 8, 31, 32, 33 };
    struct plan plan = { .q = 32, .i = 2, .o = 1, .bound = 60000 };
    size_t starts[6];
    char label[64];

    for (unsigned q = 0; q < 32; q++) {
        plan.next[q][0] = plan.next[q][1] = q < 31 ? q + 1 : 31;
        plan.hold[q] = 3600000;
        plan.delayed[q] = 2;
    }
    write_table(&plan, 32, 2, &table, starts);
    input.len = 0;
    for (uint32_t inputs = 1; inputs <= 3; inputs++)
        for (size_t m = 0; m < sizeof moves / sizeof *moves; m++) {
            uint32_t n = moves[m], weight = inputs & 2 ? 3720000 : 60000, before = n < 31 ? n : 31; /* so many before the target */
            uint64_t wanted[4] = { n > 32 ? REFUSED(32, 0) : 0, 60000 + before * weight, UINT32_MAX << before,
                                   before == 0 ? 0 : 2 * before - 1 };
            right_sums.len = right_path.len = 0;
            for (uint32_t k = 0; k < n * 32; k++) {
                uint32_t row = k / 32, q = k % 32, left = q < before ? before - q : 0;
                add_sum((left <= row ? left : row + 1) * weight);
            }
            for (uint32_t q = 0; q < before; q++) {
                if (q > 0)
                    add(&right_path, inputs == 2 ? 1 : 0);
                add(&right_path, q);
            }
            snprintf(label, sizeof label, "chain, inputs %" PRIu32 ", %" PRIu32 " moves", inputs, n);
            compare_moves(label, UINT32_MAX, inputs, n, wanted);
        }
}

/* The mixer of examples/back-to-idle: filling 1, mixing 2, emptying 3, rinsing 4, idle 0. Input 0 is stop. */
static void back_to_idle_cases(void)
{
    static const uint32_t rows[4][3][5] = { { { 0 } },
                                            { { 0, 2, 9, 0, 0 } },
                                            { { 0, 2, 9, 34, 0 }, { 0, 36, 43, 34, 0 } },
                                            { { 0, 2, 9, 34, 16 }, { 0, 36, 43, 50, 16 }, { 0, 52, 59, 50, 16 } } };
    static const uint64_t wanted[4][4] = { { 0, 2, 31, 0 }, { 0, 11, 25, 1 }, { 0, 45, 17, 3 }, { 0, 61, 1, 5 } };
    static const uint8_t path[] = { 2, 0, 3, 0, 4 };
    struct plan plan = { .q = 5, .i = 2, .o = 5, .bound = 2, .output = { 0, 1, 2, 3, 4 },
                         .next = { { 0, 1 }, { 3, 2 }, { 3, 2 }, { 4, 4 }, { 0, 1 } },
                         .hold = { 0, 0, 5, 30, 12 }, .delayed = { 0, 0, 1, 3, 3 } };
    size_t starts[6];
    char label[64];

    write_table(&plan, 5, 2, &table, starts);
    input.len = 0;
    for (uint32_t n = 0; n < 4; n++) {
        right_sums.len = right_path.len = 0;
        for (size_t k = 0; k < 5 * n; k++)
            add_sum(rows[n][k / 5][k % 5]);
        for (size_t k = 0; k < wanted[n][3]; k++)
            add(&right_path, path[k]);
        snprintf(label, sizeof label, "back to idle, %" PRIu32 " moves", n);
        compare_moves(label, 31, 1, n, wanted[n]);
    }
    right_sums.len = right_path.len = 0;
    for (size_t k = 0; k < 5 * 4; k++)
        add_sum(0);
    compare_moves("back to idle, stop and go", 31, 3, 4, (const uint64_t[]){ 0, 2, 31, 0 });
    right_sums.len = 0;
    compare_moves("back to idle, without idle", 30, 1, 4, (const uint64_t[]){ REFUSED(10, 8) });
}

/* A table with a timer; and the first table with a byte less: the table's refusals come before all others. */
static void refused_moves_cases(void)
{
    struct plan with_timer = classroom_with_timer(), plan = classroom();
    size_t starts[6];
    input.len = 0;
    right_sums.len = right_path.len = 0;
    write_table(&with_timer, 2, 2, &table, starts);
    for (uint32_t moves = 0; moves < 34; moves += 11)
        compare_moves("several moves with a timer", 4, 4, moves, (const uint64_t[]){ REFUSED(14, 0) });
    write_table(&plan, 2, 2, &table, starts);
    table.len--;
    for (uint32_t moves = 0; moves < 34; moves += 11)
        compare_moves("several moves, half a table", 4, 4, moves, (const uint64_t[]){ REFUSED(1, 37) });
}

static void all_moves_cases(void)
{
    classroom_moves_cases();
    chain_cases();
    back_to_idle_cases();
    refused_moves_cases();
}

/* ---- live runs that are told ---- */

/* The paper's run, event by event: what live answers, and what watch does of its record. */
static void told_live_case(void)
{
    static const uint64_t live[][7] = {
        { 0, 4, 0, 0, 0, 0, 3 }, { 0, 8, 0, 0, 0, 0, 3 }, { 0, 8, 0, 0, 1, 0, 3 }, { 0, 8, 0, 0, 3, 0, 3 }, { 0, 8, 1, 1, 0, 0, 6 },
        { 0, 8, 1, 1, 0, 0, 6 }, { 0, 8, 1, 1, 1, 0, 6 }, { 0, 8, 1, 1, 2, 4, 6 }, { 0, 8, 1, 1, 0, 0, 9 }, { 0, 8, 1, 1, 1, 0, 9 },
        { 0, 8, 1, 1, 2, 1, 9 }, { 0, 8, 1, 1, 0, 0, 12 }, { 0, 8, 1, 1, 1, 0, 12 }, { 0, 8, 1, 1, 3, 0, 12 }, { 0, 8, 0, 0, 0, 0, 14 },
        { 0, 7, 0, 0, 0, 0, 14 },
    }, watch[][8] = {
        { 0, 0, 0, 0, 0, 0, 0, 0 }, { 0, 1, 0, 0, 0, 0, 0, 0 }, { 0, 2, 0, 0, 0, 0, 0, 0 }, { 0, 2, 0, 0, 0, 0, 0, 0 },
        { 0, 3, 1, 1, 1, 1, 0, 3 }, { 0, 3, 1, 1, 1, 1, 0, 3 }, { 0, 5, 1, 1, 1, 1, 0, 3 }, { 0, 5, 1, 1, 1, 1, 4, 3 },
        { 0, 6, 2, 1, 1, 1, 4, 3 }, { 0, 7, 2, 1, 1, 1, 4, 3 }, { 0, 8, 2, 1, 1, 1, 4, 3 }, { 0, 9, 3, 1, 1, 1, 4, 3 },
        { 0, 10, 3, 1, 1, 1, 4, 3 }, { 0, 10, 3, 1, 1, 1, 4, 3 }, { 0, 11, 4, 2, 0, 0, 4, 3 }, { 0, 12, 4, 2, 0, 0, 4, 3 },
    };
    static struct bytes field, record;
    uint32_t memory[KEPT] = { 0 }, watching[KEPT] = { 0 };
    struct call call = { .entry = LIVE, .table = &table, .input = &field, .output_len = 4 * KEPT, .beforehand = memory,
                         .path_len = RECORD_ROOM, .right_path = &record, .answer_len = 24 };
    struct call check = { .entry = WATCH, .table = &table, .input = &record, .output_len = 4 * KEPT, .beforehand = watching,
                          .answer_len = 28 };
    read_pieces("I0 c1,1 p2,1 t2,1 k3,1 c3,0 p5,0 t5,0 k6,1 p7,0 t8,0 k9,1 p10,0 t10,1 k11,0 e12");
    write_pieces(JOURNAL, &other_form);
    write_pieces(STIMULUS, &input);
    for (size_t k = 0, at = 0, to = 0; k < 16; k++, at += field.len, to += record.len) {
        cut_field(&input, at, &field);
        cut_field(&other_form, to, &record);
        compare("the paper's run, live", &call, live[k]);
        memcpy(memory, library_side.output.at + library_side.output.before, sizeof memory);
        compare("the paper's run, watched", &check, watch[k]);
        memcpy(watching, library_side.output.at + library_side.output.before, sizeof watching);
        expect(memcmp(memory, watching, sizeof memory) == 0, "the paper's run: live and watch keep other numbers");
    }
    expect(memory[0] == 2 && memory[14] == 4 && memory[16] == 4, "the paper's run: it has not ended as it should");
}

/* What a live run and a live check refuse, of these bytes with this memory. */
static void refused_live(const char *label, const uint32_t *memory, size_t kept, const struct bytes *field, size_t room,
                         size_t answer_room, uint64_t wanted)
{
    struct call call = { .entry = LIVE, .table = &table, .input = field, .output_len = 4 * kept, .beforehand = memory,
                         .path_len = room, .answer_len = answer_room };
    compare(label, &call, &wanted);
}

static void refused_watch(const char *label, const uint32_t *memory, const struct bytes *field, uint64_t wanted)
{
    struct call call = { .entry = WATCH, .table = &table, .input = field, .output_len = 4 * KEPT, .beforehand = memory,
                         .answer_len = 0 };
    compare(label, &call, &wanted);
}

/* The first pieces of a text as bytes of a form. */
static const struct bytes *told_field(const char *text, enum form form)
{
    read_pieces(text);
    write_pieces(form, &input);
    return &input;
}

/* 36: each number, just out of range and just in it, with no field at all, which is 20; and behind it another that is out. */
static void memory_cases(const uint32_t *running)
{
    static const struct bytes nothing;
    const uint32_t most[KEPT] = { 2, 3, 1, 1, 1, 5, 5, 5, 2000000000, 3, 5, 5, 5, 5, 2000000000, 2000000000, 3600001 };
    uint32_t memory[KEPT];
    for (size_t k = 0; k < KEPT; k++) {
        memcpy(memory, running, sizeof memory);
        memory[k] = most[k];
        refused_live("in range", memory, KEPT, &nothing, 0, 0, k == 0 ? REFUSED(22, 0) : REFUSED(20, 0));
        memory[k]++;
        refused_live("out of range", memory, KEPT, &nothing, 0, 0, REFUSED(36, k));
        refused_watch("out of range", memory, &nothing, REFUSED(36, k));
        refused_live("out of range, with a number too few", memory, KEPT - 1, &nothing, 0, 0, REFUSED(30, 0));
        memory[KEPT - 1] = UINT32_MAX;
        refused_live("out of range twice", memory, KEPT, &nothing, 0, 0, REFUSED(36, k));
    }
}

static void refused_live_cases(void)
{
    static const uint32_t begun_not[KEPT] = { 0, 9, 9, 9, 99, 9, 9, 9, 1, UINT32_MAX, 9, 9, 9, 9, 9, UINT32_MAX, UINT32_MAX };
    /* Running: state 1 since 3, in phase 0 of the cycle from 3, the input 0 since 5. */
    static const uint32_t running[KEPT] = { 1, 0, 0, 1, 1, 5, 3, 3, 5, 3, 3, 0, 0, 0, 1, 1, 0 };
    static struct bytes longer;
    static const struct bytes nothing;
    uint32_t ended[KEPT];
    memory_cases(running);
    refused_live("not begun: no opening", begun_not, KEPT, told_field("p6", STIMULUS), 8, 24, REFUSED(22, 0));
    refused_live("not begun: input out of range", begun_not, KEPT, told_field("I2", STIMULUS), 8, 24, REFUSED(23, 0));
    refused_live("a second opening", running, KEPT, told_field("I2", STIMULUS), 8, 24, REFUSED(22, 0));
    refused_live("a record of a journal", running, KEPT, told_field("p6,0", JOURNAL), 8, 24, REFUSED(21, 0));
    refused_live("out of range", running, KEPT, told_field("p2000000001", STIMULUS), 8, 24, REFUSED(23, 0));
    refused_live("a poll at the change", running, KEPT, told_field("p5", STIMULUS), 8, 24, REFUSED(27, 0));
    refused_live("a test in phase 0", running, KEPT, told_field("t6", STIMULUS), 8, 24, REFUSED(26, 0));
    refused_live("past the deadline", running, KEPT, told_field("p7", STIMULUS), 8, 24, REFUSED(25, 0));
    refused_live("back in time", running, KEPT, told_field("p4", STIMULUS), 8, 24, REFUSED(24, 0));
    refused_live("no room for the record", running, KEPT, told_field("p6", STIMULUS), 7, 24, REFUSED(30, 0));
    refused_live("no room for the answer", running, KEPT, told_field("p6", STIMULUS), 8, 23, REFUSED(30, 0));
    refused_watch("another input", running, told_field("p6,1", JOURNAL), REFUSED(28, 0));
    refused_watch("no room for the answer", running, told_field("p6,0", JOURNAL), REFUSED(30, 0));
    longer = *told_field("p4", STIMULUS); /* back in time, and bytes behind it */
    longer.len += 2;
    refused_live("bytes behind the field", running, KEPT, &longer, 8, 24, REFUSED(22, 7));
    longer.at[3] = 0xFF; /* out of range, which comes first */
    refused_live("out of range, bytes behind it", running, KEPT, &longer, 8, 24, REFUSED(23, 0));
    longer = *told_field("I1 I1", JOURNAL);
    refused_watch("bytes behind the opening", begun_not, &longer, REFUSED(22, 4));
    memcpy(ended, running, sizeof ended);
    ended[0] = 2;
    refused_live("ended: nothing", ended, KEPT, &nothing, 8, 24, REFUSED(22, 0));
    refused_live("ended: an unknown field", ended, KEPT, told_field("p6", JOURNAL), 8, 24, REFUSED(22, 0));
    refused_watch("ended: an opening", ended, told_field("I0", JOURNAL), REFUSED(22, 0));
}

/* A live run to the last time of all: cycles of 60,000, each with a change, a poll, a test and a tick, more than 100,000 records. State 1
 * holds input 0 for the longest time that there is. */
static void longest_live_case(void)
{
    struct plan plan = classroom();
    static struct bytes field;
    static const unsigned tags[] = { 0x21, 0x22, 0x23, 0x24 };
    uint32_t memory[KEPT] = { 0 }, watching[KEPT] = { 0 }, records = 0, time = 0;
    struct turn turn = { .code = 0 };
    size_t starts[6];
    plan.bound = 60000;
    plan.hold[1] = 3600000;
    write_table(&plan, 2, 2, &table, starts);
    field = *told_field("I1", STIMULUS);
    for (bool ended = false; !ended && records < 140000; records++) {
        take_turn("the longest live run", LIVE, &field, memory, records % 10000 == 0, &turn);
        if (turn.code != 0)
            break;
        watch_record("the longest live run", &turn, watching, records % 10000 == 0);
        memcpy(memory, turn.memory, sizeof memory);
        ended = memory[0] == 2;
        unsigned tag = time == 2000000000 ? 0x2F : tags[records % 4];
        if (tag == 0x22)
            time = time + 60000 < 2000000000 ? time + 60000 : 2000000000;
        field.len = 0;
        head(&field, tag, tag == 0x21 ? 5 : 4);
        add4(&field, time);
        if (tag == 0x21)
            add(&field, records / 4 % 3 == 0 ? 1 : 0);
    }
    expect(turn.code == 0 && records > 100000, "the longest live run breaks off");
    expect(memory[8] == 2000000000 && memory[14] == 33333 && memory[0] == 2, "the longest live run ends otherwise");
    refused_live("past the longest live run", memory, KEPT, &field, 8, 24, REFUSED(22, 0));
    memory[0] = 1;
    field.at[6]++;
    refused_live("later than any time", memory, KEPT, &field, 8, 24, REFUSED(23, 0));
}

static void live_cases(void)
{
    const struct plan plans[] = { classroom(), classroom_with_timer() };
    size_t starts[6];
    for (size_t k = 0; k < 2; k++) {
        write_table(&plans[k], 2, 2, &table, starts);
        told_live_case();
        refused_live_cases();
    }
    if (WALK >= 40)
        longest_live_case();
}

/* ---- the whole ---- */

static bool can_give(enum entry entry, unsigned number)
{
    if (entry == READ_STAMPED)
        return number == 0 || (number >= 19 && number <= 22) || number == 30;
    if (number <= 8)
        return true; /* success and the table's */
    if (number >= 11 && number <= 13)
        return entry != CONVERT_TABLE; /* it reads by the old rules */
    if (number == 30)
        return entry != CHECK_TABLE;
    if (number == 36)
        return entry == LIVE || entry == WATCH;
    if (number == 19 && (entry == LIVE || entry == WATCH))
        return false;
    if (number == 32 && (entry == REACTION_MOVES || entry == TIGHT_MOVES))
        return true;
    if (number == 33 && entry == REACTION_MOVES)
        return true;
    if (entry == REACTION_MOVES || entry == TIGHT_MOVES || calculators[entry][0] != NULL)
        return number == 9 || number == 10 || number == 14;
    if (entry == SALVAGE)
        return number >= 19 && number <= 23; /* all that is wrong behind the opening field is salvaged */
    if (number == 24)
        return entries[entry].takes == JOURNAL || entries[entry].takes == STIMULUS; /* a gap is never below 0 */
    if (number >= 19 && number <= 28)
        return entries[entry].takes != NOTHING && !((entry == RUN || entry == LIVE) && number == 28);
    return (entry == LENGTHEN && number == 34) || (entry == REPORT_ADD && number == 35);
}

/* How many numbers that an entry can give stayed away; those that came are added to `seen`. */
static uint64_t print_histogram(uint64_t *seen)
{
    uint64_t away = 0;
    printf("number");
    for (unsigned entry = 0; entry < ENTRIES; entry++)
        printf(" %14s", entries[entry].name);
    printf("\n");
    for (unsigned number = 0; number < NUMBERS; number++) {
        bool some = false;
        for (unsigned entry = 0; entry < ENTRIES; entry++)
            some |= can_give((enum entry)entry, number) || histogram[entry][number] > 0;
        if (!some)
            continue;
        printf("%6u", number);
        for (unsigned entry = 0; entry < ENTRIES; entry++) {
            bool can = can_give((enum entry)entry, number);
            if (can || histogram[entry][number] > 0)
                printf(" %14" PRIu64, histogram[entry][number]);
            else
                printf(" %14s", "-");
            if (can && histogram[entry][number] == 0)
                away++;
            else if (can)
                ++*seen;
        }
        printf("\n");
    }
    if (other_numbers > 0)
        printf("other numbers: %" PRIu64 "\n", other_numbers);
    if (away > 0)
        printf("stayed away: %" PRIu64 "\n", away);
    return away;
}

/* How many of the ways there and back nothing has gone; those that something went are added to `seen`. */
static uint64_t print_came_back(uint64_t *seen)
{
    static const struct {
        enum entry entry;
        const char *journals;
    } ways[] = {
        { READ_STAMPED, "stamped and read back" },
        { SHORTEN, "shortened and lengthened" },
        { LENGTHEN, "short ones, lengthened and shortened" },
        { SALVAGE, "salvaged ones, salvaged again" },
        { REPORT_ADD, "several of them added in two orders" },
    };
    uint64_t away = 0;
    for (size_t k = 0; k < sizeof ways / sizeof *ways; k++) {
        printf("accepted journals, %s: %" PRIu64 "\n", ways[k].journals, came_back[ways[k].entry]);
        if (came_back[ways[k].entry] == 0)
            away++;
        else
            ++*seen;
    }
    printf("accepted journals, counted by slots and by stretches: %" PRIu64 "\n", counted_twice);
    printf("questions of several moves, worked out by paths and by rounds: %" PRIu64 "\n", worked_out_twice);
    printf("questions of one move, asked in both ways: %" PRIu64 "\n", came_back[REACTION_MOVES]);
    printf("stimuli that were run to the end, taken event by event: %" PRIu64 "\n", walked[LIVE]);
    printf("accepted journals, taken record by record: %" PRIu64 "\n", walked[WATCH]);
    const uint64_t others[] = { counted_twice, worked_out_twice, came_back[REACTION_MOVES], walked[LIVE], walked[WATCH] };
    for (size_t k = 0; k < sizeof others / sizeof *others; k++)
        if (others[k] == 0)
            away++;
        else
            ++*seen;
    return away;
}

static bool read_number(const char *text, uint64_t *number)
{
    char *end;
    *number = strtoull(text, &end, 10);
    return *text >= '0' && *text <= '9' && *end == '\0';
}

int main(int argc, char **argv)
{
    uint64_t cases = 100000, seed = 1;
    if (argc > 3 || (argc > 1 && !read_number(argv[1], &cases)) || (argc > 2 && !read_number(argv[2], &seed))) {
        fprintf(stderr, "usage: differential [CASES [SEED]]\n");
        return 2;
    }
    paper_cases();
    old_table_case();
    timer_cases();
    longest_case();
    short_clock_case();
    stamped_cases();
    longest_stamped_case();
    form_cases();
    short_cases();
    longest_short_case();
    torn_cases();
    salvage_cases();
    last_cut_cases();
    all_report_cases();
    all_moves_cases();
    live_cases();
    uint64_t asserted = passed, wrong = mismatches;
    for (uint64_t number = 0; number < cases; number++)
        random_case(seed, number);
    /* The random cases together are one assertion, that none differs; each number that was seen is another. */
    if (mismatches > wrong)
        wrong++;
    else
        asserted++;
    uint64_t away = print_histogram(&asserted);
    printf("random cases: %" PRIu64 "\n", cases);
    away += print_came_back(&asserted);
    printf("mismatches: %" PRIu64 "\n", mismatches);
    printf("%" PRIu64 " passed, %" PRIu64 " failed\n", asserted, wrong + away);
    return mismatches + away == 0 ? 0 : 1;
}
