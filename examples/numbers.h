/* Numbers among the words of the example hosts, and those of an answer. */
#ifndef NUMBERS_H
#define NUMBERS_H

#include <stdint.h>
#include <stdio.h>
#include <stdlib.h>
#include "krossvil.h"

/* A number of 32 bits in base ten; 0, and a line on the error stream, if the word is none. */
static inline int read_number(const char *word, uint32_t *number)
{
    char *end;
    unsigned long long read = strtoull(word, &end, 10);
    *number = (uint32_t)read;
    if (*word >= '0' && *word <= '9' && *end == '\0' && read <= UINT32_MAX)
        return 1;
    fprintf(stderr, "'%s' is not a number of 32 bits\n", word);
    return 0;
}

/* What the check of a journal, or of a short journal, answers where it accepts. */
static inline void print_accepted(const uint8_t *answer)
{
    printf("accepted end=%u cycles=%u moves=%u state=%u output=%u left=%u longest=%u\n",
           krossvil_answer(answer, KROSSVIL_JOURNAL_END), krossvil_answer(answer, KROSSVIL_JOURNAL_TICKS),
           krossvil_answer(answer, KROSSVIL_JOURNAL_MOVES), krossvil_answer(answer, KROSSVIL_JOURNAL_STATE),
           krossvil_answer(answer, KROSSVIL_JOURNAL_OUTPUT), krossvil_answer(answer, KROSSVIL_JOURNAL_LEFT),
           krossvil_answer(answer, KROSSVIL_JOURNAL_LONGEST));
}

#endif
