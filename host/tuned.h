/* The table check, the journal check and the calculators in C that was written for speed: one pass, wide loads, the table read where it
 * stands. Only what is accepted is fast: what is not goes to plain C (host/plain.h), which finds number and place. host/bench measures
 * the library against it; host/test-peers.sh holds it against the reference. */
#ifndef TUNED_H
#define TUNED_H

#include <stddef.h>
#include <stdint.h>

uint64_t tuned_check_table(const uint8_t *table, uint64_t table_len);

uint64_t tuned_check_journal(const uint8_t *table, uint64_t table_len, const uint8_t *journal, uint64_t journal_len, uint8_t *answer,
                             uint64_t answer_len);

/* host/tuned-reaction.c */
uint64_t tuned_reaction(const uint8_t *table, uint64_t table_len, uint32_t states, uint32_t inputs, uint8_t *answer, uint64_t answer_len);

uint64_t tuned_reaction_tight(const uint8_t *table, uint64_t table_len, uint32_t states, uint32_t inputs, uint8_t *answer,
                              uint64_t answer_len);

uint64_t tuned_reaction_moves(const uint8_t *table, uint64_t table_len, uint32_t states, uint32_t inputs, uint32_t moves, uint32_t *sums,
                              uint64_t sums_len, uint8_t *path, uint64_t path_len, uint8_t *answer, uint64_t answer_len);

#endif
