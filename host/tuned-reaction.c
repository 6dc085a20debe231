/* The calculators in C that was written for speed: each state's set of next states is made once, as one number. */
#include "plain.h"
#include "tuned.h"
#include "tuned-table.h"

enum { MOST_MOVES = 32 };

/* A question that is not refused. */
struct question {
    struct view v;
    uint32_t states, inputs;
    uint32_t next[32]; /* the set of next states of each member of `states` */
};

/* The states that a row leads to under these inputs. */
static inline uint32_t set_of(const uint8_t *row, uint32_t count, uint32_t inputs)
{
    uint32_t set = 0;
    if (inputs == (uint32_t)~0ull >> (32 - count)) {
        for (uint32_t a = 0; a < count; a++)
            set |= 1u << row[a];
        return set;
    }
    for (; inputs != 0; inputs &= inputs - 1)
        set |= 1u << row[__builtin_ctz(inputs)];
    return set;
}

/* Does everything stay in `states`? */
static inline bool take_question(const uint8_t *table, size_t table_len, uint32_t states, uint32_t inputs, struct question *q)
{
    uint32_t out = 0;
    if (!view_table(table, table_len, &q->v) || q->v.timers > 0 || states & beyond(q->v.states) || inputs & beyond(q->v.inputs))
        return false;
    q->states = states;
    q->inputs = inputs;
    for (uint32_t left = states; left != 0; left &= left - 1) {
        uint32_t p = (uint32_t)__builtin_ctz(left);
        q->next[p] = set_of(q->v.next + p * q->v.inputs, q->v.inputs, inputs);
        out |= q->next[p] & ~states;
    }
    return out == 0;
}

/* The set of all next states of a set within `states`. */
static inline uint32_t next_of(const struct question *q, uint32_t set)
{
    uint32_t next = 0;
    for (; set != 0; set &= set - 1)
        next |= q->next[__builtin_ctz(set)];
    return next;
}

static inline uint32_t weight(const struct question *q, uint32_t p)
{
    uint32_t delays = number4(q->v.delayed + 4 * p) & q->inputs; /* none where there is no hold */
    return delays != 0 ? number4(q->v.hold + 4 * p) + 2 * q->v.bound : q->v.bound;
}

/* ---- one move ---- */

static inline uint32_t heaviest_of(const struct question *q, uint32_t set)
{
    uint32_t heaviest = 0;
    for (; set != 0; set &= set - 1) {
        uint32_t w = weight(q, (uint32_t)__builtin_ctz(set));
        heaviest = w > heaviest ? w : heaviest;
    }
    return heaviest;
}

uint64_t tuned_reaction(const uint8_t *table, uint64_t table_len, uint32_t states, uint32_t inputs, uint8_t *answer, uint64_t answer_len)
{
    struct question q;
    if (answer_len < 8 || !take_question(table, table_len, states, inputs, &q))
        return plain_reaction(table, table_len, states, inputs, answer, answer_len);
    uint32_t target = next_of(&q, states);
    store4(answer, q.v.bound + heaviest_of(&q, states & ~target));
    store4(answer + 4, target);
    return 0;
}

uint64_t tuned_reaction_tight(const uint8_t *table, uint64_t table_len, uint32_t states, uint32_t inputs, uint8_t *answer,
                              uint64_t answer_len)
{
    struct question q;
    if (answer_len < 12 || !take_question(table, table_len, states, inputs, &q))
        return plain_reaction_tight(table, table_len, states, inputs, answer, answer_len);
    uint32_t target = next_of(&q, states), heaviest = heaviest_of(&q, states & ~target), time = q.v.bound + heaviest;
    store4(answer, time);
    store4(answer + 4, target);
    store4(answer + 8, time - (heaviest > q.v.bound) - (heaviest > 0));
    return 0;
}

/* ---- several moves ---- */

/* The largest sum along a path that goes on from a state with these next states. */
static inline uint32_t largest_of(const uint32_t *row, uint32_t set)
{
    uint32_t most = 0;
    for (; set != 0; set &= set - 1) {
        uint32_t sum = row[__builtin_ctz(set)];
        most = sum > most ? sum : most;
    }
    return most;
}

/* Every row from the row before. What is not on the way stays 0 in each. */
static void fill_rows(const struct question *q, uint32_t way, uint32_t moves, const uint32_t *weights, uint32_t *sums)
{
    uint32_t count = q->v.states, *row = sums;
    memset(sums, 0, (size_t)moves * count * sizeof *sums);
    for (uint32_t left = way; left != 0; left &= left - 1)
        row[__builtin_ctz(left)] = weights[__builtin_ctz(left)];
    for (uint32_t k = 1; k < moves; k++, row += count)
        for (uint32_t left = way; left != 0; left &= left - 1) {
            uint32_t p = (uint32_t)__builtin_ctz(left);
            row[count + p] = weights[p] + largest_of(row, q->next[p] & way);
        }
}

/* The smallest input that leads on to a sum. */
static inline uint32_t input_to(const struct question *q, uint32_t p, const uint32_t *row, uint32_t sum)
{
    const uint8_t *next = q->v.next + p * q->v.inputs;
    uint32_t left = q->inputs;
    while (row[next[__builtin_ctz(left)]] != sum)
        left &= left - 1;
    return (uint32_t)__builtin_ctz(left);
}

/* The worst path, from the last row back to the first: its length. */
static uint32_t trace(const struct question *q, const uint32_t *weights, const uint32_t *row, uint32_t *sum, uint8_t *path)
{
    uint32_t p = 0, length = 0;
    for (uint32_t k = 1; k < q->v.states; k++)
        p = row[k] > row[p] ? k : p;
    *sum = row[p];
    if (*sum == 0)
        return 0;
    path[length++] = (uint8_t)p;
    for (uint32_t rest = *sum - weights[p]; rest > 0; rest -= weights[p]) {
        row -= q->v.states;
        uint32_t a = input_to(q, p, row, rest);
        p = q->v.next[p * q->v.inputs + a];
        path[length++] = (uint8_t)a;
        path[length++] = (uint8_t)p;
    }
    return length;
}

uint64_t tuned_reaction_moves(const uint8_t *table, uint64_t table_len, uint32_t states, uint32_t inputs, uint32_t moves, uint32_t *sums,
                              uint64_t sums_len, uint8_t *path, uint64_t path_len, uint8_t *answer, uint64_t answer_len)
{
    struct question q;
    uint32_t target = states, weights[32], sum = 0, length = 0;
    if (answer_len < 12 || moves > MOST_MOVES || !take_question(table, table_len, states, inputs, &q) ||
        sums_len < (size_t)moves * q.v.states || (moves > 0 && path_len < 2 * moves - 1))
        return plain_reaction_moves(table, table_len, states, inputs, moves, sums, sums_len, path, path_len, answer, answer_len);
    for (uint32_t k = 0; k < moves; k++)
        target = next_of(&q, target);
    for (uint32_t left = states & ~target; left != 0; left &= left - 1)
        weights[__builtin_ctz(left)] = weight(&q, (uint32_t)__builtin_ctz(left));
    if (moves > 0) {
        fill_rows(&q, states & ~target, moves, weights, sums);
        length = trace(&q, weights, sums + (size_t)(moves - 1) * q.v.states, &sum, path);
    }
    store4(answer, q.v.bound + sum);
    store4(answer + 4, target);
    store4(answer + 8, length);
    return 0;
}
