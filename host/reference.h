/* A second implementation of the sixteen entries in plain C, written from the rules alone; docs/RULES.md, "In C", says what each
 * takes and gives. The library is held against it.
 * With SECOND defined the same entries get the prefix second_, so that two builds can be linked into one program. */
#ifndef REFERENCE_H
#define REFERENCE_H

#include <stdbool.h>
#include <stddef.h>
#include <stdint.h>

#ifdef SECOND
#define reference_check_table second_check_table
#define reference_check_journal second_check_journal
#define reference_run second_run
#define reference_reaction second_reaction
#define reference_reaction_moves second_reaction_moves
#define reference_several second_several
#define reference_reaction_tight second_reaction_tight
#define reference_reaction_tight_moves second_reaction_tight_moves
#define reference_convert_table second_convert_table
#define reference_read_stamped second_read_stamped
#define reference_check_short second_check_short
#define reference_shorten second_shorten
#define reference_lengthen second_lengthen
#define reference_salvage second_salvage
#define reference_report_add second_report_add
#define reference_tally second_tally
#define reference_live second_live
#define reference_watch second_watch
#endif

uint64_t reference_check_table(const uint8_t *table, uint64_t table_len);

uint64_t reference_check_journal(const uint8_t *table, uint64_t table_len, const uint8_t *journal, uint64_t journal_len,
                                 uint8_t *answer, uint64_t answer_len);

uint64_t reference_run(const uint8_t *table, uint64_t table_len, const uint8_t *stimulus, uint64_t stimulus_len,
                       uint8_t *journal, uint64_t journal_len, uint8_t *answer, uint64_t answer_len);

uint64_t reference_reaction(const uint8_t *table, uint64_t table_len, uint32_t states, uint32_t inputs,
                            uint8_t *answer, uint64_t answer_len);

uint64_t reference_reaction_moves(const uint8_t *table, uint64_t table_len, uint32_t states, uint32_t inputs, uint32_t moves,
                                  uint32_t *sums, uint64_t sums_len, uint8_t *path, uint64_t path_len, uint8_t *answer,
                                  uint64_t answer_len);

uint64_t reference_reaction_tight(const uint8_t *table, uint64_t table_len, uint32_t states, uint32_t inputs,
                                  uint8_t *answer, uint64_t answer_len);

uint64_t reference_reaction_tight_moves(const uint8_t *table, uint64_t table_len, uint32_t states, uint32_t inputs, uint32_t moves,
                                        uint8_t *answer, uint64_t answer_len);

uint64_t reference_convert_table(const uint8_t *table, uint64_t table_len, uint8_t *new_table, uint64_t new_table_len,
                                 uint8_t *answer, uint64_t answer_len);

uint64_t reference_read_stamped(const uint8_t *stamped, uint64_t stamped_len, uint8_t *journal, uint64_t journal_len,
                                uint8_t *answer, uint64_t answer_len);

uint64_t reference_check_short(const uint8_t *table, uint64_t table_len, const uint8_t *short_journal, uint64_t short_len,
                               uint8_t *answer, uint64_t answer_len);

uint64_t reference_shorten(const uint8_t *table, uint64_t table_len, const uint8_t *journal, uint64_t journal_len,
                           uint8_t *short_journal, uint64_t short_len, uint8_t *answer, uint64_t answer_len);

uint64_t reference_lengthen(const uint8_t *table, uint64_t table_len, const uint8_t *short_journal, uint64_t short_len,
                            uint8_t *journal, uint64_t journal_len, uint8_t *answer, uint64_t answer_len);

uint64_t reference_salvage(const uint8_t *table, uint64_t table_len, const uint8_t *journal, uint64_t journal_len,
                           uint8_t *salvaged, uint64_t salvaged_len, uint8_t *answer, uint64_t answer_len);

uint64_t reference_report_add(const uint8_t *table, uint64_t table_len, const uint8_t *journal, uint64_t journal_len,
                              uint64_t *report, uint64_t report_len);

uint64_t reference_live(const uint8_t *table, uint64_t table_len, uint32_t *live, uint64_t live_len, const uint8_t *event,
                        uint64_t event_len, uint8_t *record, uint64_t record_len, uint8_t *answer, uint64_t answer_len);

uint64_t reference_watch(const uint8_t *table, uint64_t table_len, uint32_t *live, uint64_t live_len, const uint8_t *record,
                         uint64_t record_len, uint8_t *answer, uint64_t answer_len);

/* What a journal adds to a report, 1,089 places at most: counted slot by slot, which is what the rules say, or stretch by stretch from
 * one record to the next. Returns how many numbers there are; 0 if the journal is refused, or is too long to be counted in this way. */
enum counting { BY_SLOTS, BY_STRETCHES };

size_t reference_tally(const uint8_t *table, uint64_t table_len, const uint8_t *journal, uint64_t journal_len,
                       enum counting counting, uint64_t *numbers);

/* What several moves come to: worked out by the paths themselves, tried one by one, which is what the rules say, or by rounds, a row of
 * sums from the row before. Returns whether it could be: false if the question is refused, whatever the room, or has too many paths. */
enum way { BY_PATHS, BY_ROUNDS };

struct several {
    uint32_t time, target;
    uint32_t largest;       /* sum: the time without E */
    uint32_t sums[33 * 32]; /* rows of Q, one for each move; and one row more for a fault */
    uint32_t path_len;
    uint8_t path[65];
};

bool reference_several(const uint8_t *table, uint64_t table_len, uint32_t states, uint32_t inputs, uint32_t moves, enum way way,
                       struct several *several);

#endif
