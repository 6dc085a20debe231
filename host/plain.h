/* The entries as an engineer would write them in C at first, for use and not for proof: what host/bench measures the library against.
 * They answer as the functions of include/krossvil.h do; host/test-peers.sh holds them against the reference. */
#ifndef PLAIN_H
#define PLAIN_H

#include <stddef.h>
#include <stdint.h>

uint64_t plain_check_table(const uint8_t *table, uint64_t table_len);

uint64_t plain_check_journal(const uint8_t *table, uint64_t table_len, const uint8_t *journal, uint64_t journal_len,
                             uint8_t *answer, uint64_t answer_len);

uint64_t plain_check_short(const uint8_t *table, uint64_t table_len, const uint8_t *short_journal, uint64_t short_len,
                           uint8_t *answer, uint64_t answer_len);

uint64_t plain_report_add(const uint8_t *table, uint64_t table_len, const uint8_t *journal, uint64_t journal_len, uint64_t *report,
                          uint64_t report_len);

uint64_t plain_run(const uint8_t *table, uint64_t table_len, const uint8_t *stimulus, uint64_t stimulus_len,
                   uint8_t *journal, uint64_t journal_len, uint8_t *answer, uint64_t answer_len);

/* host/plain-reaction.c */
uint64_t plain_reaction(const uint8_t *table, uint64_t table_len, uint32_t states, uint32_t inputs, uint8_t *answer,
                        uint64_t answer_len);

uint64_t plain_reaction_moves(const uint8_t *table, uint64_t table_len, uint32_t states, uint32_t inputs, uint32_t moves, uint32_t *sums,
                              uint64_t sums_len, uint8_t *path, uint64_t path_len, uint8_t *answer, uint64_t answer_len);

uint64_t plain_reaction_tight(const uint8_t *table, uint64_t table_len, uint32_t states, uint32_t inputs, uint8_t *answer,
                              uint64_t answer_len);

uint64_t plain_reaction_tight_moves(const uint8_t *table, uint64_t table_len, uint32_t states, uint32_t inputs, uint32_t moves,
                                    uint8_t *answer, uint64_t answer_len);

/* host/plain-rewrite.c */
uint64_t plain_shorten(const uint8_t *table, uint64_t table_len, const uint8_t *journal, uint64_t journal_len, uint8_t *short_journal,
                       uint64_t short_len, uint8_t *answer, uint64_t answer_len);

uint64_t plain_lengthen(const uint8_t *table, uint64_t table_len, const uint8_t *short_journal, uint64_t short_len, uint8_t *journal,
                        uint64_t journal_len, uint8_t *answer, uint64_t answer_len);

uint64_t plain_salvage(const uint8_t *table, uint64_t table_len, const uint8_t *journal, uint64_t journal_len, uint8_t *salvaged,
                       uint64_t salvaged_len, uint8_t *answer, uint64_t answer_len);

uint64_t plain_read_stamped(const uint8_t *stamped, uint64_t stamped_len, uint8_t *journal, uint64_t journal_len, uint8_t *answer,
                            uint64_t answer_len);

uint64_t plain_convert_table(const uint8_t *table, uint64_t table_len, uint8_t *new_table, uint64_t new_table_len, uint8_t *answer,
                             uint64_t answer_len);

/* host/plain-live.c */
uint64_t plain_live(const uint8_t *table, uint64_t table_len, uint32_t *live, uint64_t live_len, const uint8_t *event, uint64_t event_len,
                    uint8_t *record, uint64_t record_len, uint8_t *answer, uint64_t answer_len);

uint64_t plain_watch(const uint8_t *table, uint64_t table_len, uint32_t *live, uint64_t live_len, const uint8_t *record, uint64_t record_len,
                     uint8_t *answer, uint64_t answer_len);

#endif
