/* The calculators in plain C. */
#include "plain.h"
#include "plain-table.h"

enum { MOST_MOVES = 32 };

static uint64_t check_sets(const struct table *t, uint32_t states, uint32_t inputs)
{
    if (t->timers > 0)
        return refusal(14, 0);
    if ((uint64_t)states >> t->states)
        return refusal(9, 0);
    return (uint64_t)inputs >> t->inputs ? refusal(9, 1) : 0;
}

/* The set of next states, which has to be in `states`: 10 where it is not. */
static uint64_t next_set(const struct table *t, uint32_t states, uint32_t inputs, uint32_t *next)
{
    uint32_t found = 0;
    for (uint32_t p = 0; p < t->states; p++)
        for (uint32_t a = 0; a < t->inputs; a++)
            if (states >> p & 1 && inputs >> a & 1) {
                if (!(states >> t->next[p][a] & 1))
                    return refusal(10, p * t->inputs + a);
                found |= 1u << t->next[p][a];
            }
    *next = found;
    return 0;
}

static uint32_t weight(const struct table *t, uint32_t p, uint32_t inputs)
{
    return t->hold[p] > 0 && t->delayed[p] & inputs ? t->hold[p] + 2 * t->bound : t->bound;
}

/* The heaviest state on the way, 0 if there is none; and the target. */
static uint64_t heaviest_on_the_way(const struct table *t, uint32_t states, uint32_t inputs, uint32_t *target, uint32_t *heaviest)
{
    uint64_t code;
    *heaviest = 0;
    if ((code = check_sets(t, states, inputs)) || (code = next_set(t, states, inputs, target)))
        return code;
    for (uint32_t p = 0; p < t->states; p++)
        if ((states & ~*target) >> p & 1 && weight(t, p, inputs) > *heaviest)
            *heaviest = weight(t, p, inputs);
    return 0;
}

uint64_t plain_reaction(const uint8_t *table, uint64_t table_len, uint32_t states, uint32_t inputs, uint8_t *answer,
                        uint64_t answer_len)
{
    struct table t;
    uint32_t target, heaviest;
    uint64_t code;
    if ((code = read_table(table, table_len, NOW, &t)) || (code = heaviest_on_the_way(&t, states, inputs, &target, &heaviest)))
        return code;
    if (answer_len < 8)
        return refusal(30, 0);
    put4(answer, t.bound + heaviest);
    put4(answer + 4, target);
    return 0;
}

/* The tight time is less by 2 where a hold is on the way, and by 1 where only states without one are. */
uint64_t plain_reaction_tight(const uint8_t *table, uint64_t table_len, uint32_t states, uint32_t inputs, uint8_t *answer,
                              uint64_t answer_len)
{
    struct table t;
    uint32_t target, heaviest;
    uint64_t code;
    if ((code = read_table(table, table_len, NOW, &t)) || (code = heaviest_on_the_way(&t, states, inputs, &target, &heaviest)))
        return code;
    if (answer_len < 12)
        return refusal(30, 0);
    put4(answer, t.bound + heaviest);
    put4(answer + 4, target);
    put4(answer + 8, t.bound + heaviest - (heaviest == 0 ? 0 : heaviest == t.bound ? 1 : 2));
    return 0;
}

/* One row of sums from the row before, NULL for the first; `way` has the states of paths. */
static void round_of(const struct table *t, uint32_t way, uint32_t inputs, const uint32_t *weights, const uint32_t *before, uint32_t *row)
{
    for (uint32_t q = 0; q < t->states; q++) {
        uint32_t most = 0;
        row[q] = 0;
        if (!(way >> q & 1))
            continue;
        for (uint32_t a = 0; before && a < t->inputs; a++)
            if (inputs >> a & 1 && before[t->next[q][a]] > most)
                most = before[t->next[q][a]];
        row[q] = weights[q] + most;
    }
}

/* The worst path from the last row back to the first; returns its length, and its sum in *sum. */
static uint32_t trace(const struct table *t, uint32_t inputs, const uint32_t *weights, const uint32_t *sums, uint32_t moves,
                      uint8_t *path, uint32_t *sum)
{
    const uint32_t *row = sums + (size_t)(moves - 1) * t->states;
    uint32_t q = 0, length = 0;
    for (uint32_t p = 1; p < t->states; p++)
        if (row[p] > row[q])
            q = p;
    *sum = row[q];
    if (row[q] == 0)
        return 0;
    path[length++] = (uint8_t)q;
    for (uint32_t rest = row[q] - weights[q]; rest > 0; rest -= weights[q]) {
        uint32_t a = 0;
        row -= t->states;
        while (!(inputs >> a & 1) || row[t->next[q][a]] != rest)
            a++;
        q = t->next[q][a];
        path[length++] = (uint8_t)a;
        path[length++] = (uint8_t)q;
    }
    return length;
}

uint64_t plain_reaction_moves(const uint8_t *table, uint64_t table_len, uint32_t states, uint32_t inputs, uint32_t moves, uint32_t *sums,
                              uint64_t sums_len, uint8_t *path, uint64_t path_len, uint8_t *answer, uint64_t answer_len)
{
    struct table t;
    uint32_t target = states, next, weights[32], sum = 0, length = 0;
    uint64_t code;
    if ((code = read_table(table, table_len, NOW, &t)) || (code = check_sets(&t, states, inputs)))
        return code;
    if (moves > MOST_MOVES)
        return refusal(32, 0);
    if ((code = next_set(&t, states, inputs, &next)))
        return code;
    if (sums_len < (size_t)moves * t.states || (moves > 0 && path_len < 2 * moves - 1))
        return refusal(33, 0);
    if (answer_len < 12)
        return refusal(30, 0);
    for (uint32_t k = 0; k < moves; k++)
        next_set(&t, target, inputs, &target); /* what is left of a set is in it */
    for (uint32_t q = 0; q < t.states; q++)
        weights[q] = weight(&t, q, inputs);
    for (uint32_t k = 0; k < moves; k++)
        round_of(&t, states & ~target, inputs, weights, k == 0 ? NULL : sums + (size_t)(k - 1) * t.states, sums + (size_t)k * t.states);
    if (moves > 0)
        length = trace(&t, inputs, weights, sums, moves, path, &sum);
    put4(answer, t.bound + sum);
    put4(answer + 4, target);
    put4(answer + 8, length);
    return 0;
}

/* The largest sum of a path of at most so many states, by two rows. */
static uint32_t largest_sum(const struct table *t, uint32_t way, uint32_t inputs, const uint32_t *weights, uint32_t moves)
{
    uint32_t rows[2][32], sum = 0;
    for (uint32_t k = 0; k < moves; k++)
        round_of(t, way, inputs, weights, k == 0 ? NULL : rows[(k + 1) % 2], rows[k % 2]);
    for (uint32_t q = 0; moves > 0 && q < t->states; q++)
        if (rows[(moves - 1) % 2][q] > sum)
            sum = rows[(moves - 1) % 2][q];
    return sum;
}

uint64_t plain_reaction_tight_moves(const uint8_t *table, uint64_t table_len, uint32_t states, uint32_t inputs, uint32_t moves,
                                    uint8_t *answer, uint64_t answer_len)
{
    struct table t;
    uint32_t target = states, next, weights[32], tights[32];
    uint64_t code;
    if ((code = read_table(table, table_len, NOW, &t)) || (code = check_sets(&t, states, inputs)))
        return code;
    if (moves > MOST_MOVES)
        return refusal(32, 0);
    if ((code = next_set(&t, states, inputs, &next)))
        return code;
    if (answer_len < 12)
        return refusal(30, 0);
    for (uint32_t k = 0; k < moves; k++)
        next_set(&t, target, inputs, &target); /* what is left of a set is in it */
    for (uint32_t q = 0; q < t.states; q++) {
        weights[q] = weight(&t, q, inputs);
        tights[q] = weights[q] == t.bound ? t.bound : weights[q] - 1;
    }
    uint32_t sum = largest_sum(&t, states & ~target, inputs, weights, moves);
    uint32_t tight = largest_sum(&t, states & ~target, inputs, tights, moves);
    put4(answer, t.bound + sum);
    put4(answer + 4, target);
    put4(answer + 8, tight == 0 ? t.bound : t.bound + tight - 1);
    return 0;
}
