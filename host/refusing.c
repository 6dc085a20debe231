/* Plain C as host/test-peers.sh gives it to tuned C: what is handed over must be refused. Else tuned C gives the right answers, and is slow. */
#include "plain.h"

#include <stdio.h>
#include <stdlib.h>

static uint64_t refused(uint64_t code)
{
    if (code == 0) {
        fprintf(stderr, "tuned C has handed over what is accepted\n");
        exit(1);
    }
    return code;
}

uint64_t refusing_check_table(const uint8_t *table, uint64_t table_len)
{
    return refused(plain_check_table(table, table_len));
}

uint64_t refusing_check_journal(const uint8_t *table, uint64_t table_len, const uint8_t *journal, uint64_t journal_len, uint8_t *answer,
                                uint64_t answer_len)
{
    return refused(plain_check_journal(table, table_len, journal, journal_len, answer, answer_len));
}

uint64_t refusing_reaction(const uint8_t *table, uint64_t table_len, uint32_t states, uint32_t inputs, uint8_t *answer, uint64_t answer_len)
{
    return refused(plain_reaction(table, table_len, states, inputs, answer, answer_len));
}

uint64_t refusing_reaction_tight(const uint8_t *table, uint64_t table_len, uint32_t states, uint32_t inputs, uint8_t *answer,
                                 uint64_t answer_len)
{
    return refused(plain_reaction_tight(table, table_len, states, inputs, answer, answer_len));
}

uint64_t refusing_reaction_moves(const uint8_t *table, uint64_t table_len, uint32_t states, uint32_t inputs, uint32_t moves, uint32_t *sums,
                                 uint64_t sums_len, uint8_t *path, uint64_t path_len, uint8_t *answer, uint64_t answer_len)
{
    return refused(plain_reaction_moves(table, table_len, states, inputs, moves, sums, sums_len, path, path_len, answer, answer_len));
}
