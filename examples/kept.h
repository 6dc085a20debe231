/* The journal of a live run and its memory, in two files, so that a program that is killed at any moment goes on when it is started again.
 *
 * A record is appended to the journal first. Then the memory, with the journal's size behind it, is written to a file of its own, which
 * takes the place of the old one in one step. Killed between the two, the journal has a record, or a part of one, that the memory does not
 * know: it is cut off, and its event is given again. (Where the supply may fail, and not only the program, each file has to be on the disk
 * before the next step: fsync.) */
#ifndef KEPT_H
#define KEPT_H

#define _POSIX_C_SOURCE 200809L /* a file is cut: so this header comes before all others */
#include <stdint.h>
#include <stdio.h>
#include <unistd.h>
#include "files.h"
#include "krossvil.h"

struct kept {
    uint32_t live[KROSSVIL_LIVE]; /* zeros before the run begins */
    uint32_t journal_size;
};

static FILE *kept_journal;
static const char *kept_memory; /* where */

/* Opens the journal where the memory left it; both may be missing. 0, and a line on the error stream, if they do not go together: nothing
 * is cut off but one record. */
static inline int resume(struct kept *kept, const char *journal_path, const char *memory_path)
{
    size_t size = sizeof *kept;
    kept_memory = memory_path;
    if (access(memory_path, F_OK) == 0 && !load(memory_path, (uint8_t *)kept, sizeof *kept, &size))
        return 0;
    kept_journal = fopen(journal_path, "ab");
    if (!kept_journal || fseek(kept_journal, 0, SEEK_END) != 0) {
        fprintf(stderr, "%s cannot be opened\n", journal_path);
        return 0;
    }
    long known = (long)kept->journal_size, more = ftell(kept_journal) - known;
    if (size == sizeof *kept && more >= 0 && more <= (long)KROSSVIL_RECORD_MAX && ftruncate(fileno(kept_journal), known) == 0)
        return 1;
    fprintf(stderr, "%s and %s do not go together\n", journal_path, memory_path);
    return 0;
}

/* Keeps a record and the memory after it; 0, and a line on the error stream, if that cannot be done. */
static inline int keep(struct kept *kept, const uint8_t *record, uint32_t size)
{
    char next[4096];
    if (fwrite(record, 1, size, kept_journal) != size || fflush(kept_journal) != 0) {
        fprintf(stderr, "the journal cannot be written\n");
        return 0;
    }
    kept->journal_size += size;
    if (snprintf(next, sizeof next, "%s.next", kept_memory) < (int)sizeof next && store(next, (const uint8_t *)kept, sizeof *kept) &&
        rename(next, kept_memory) == 0)
        return 1;
    fprintf(stderr, "%s cannot be written\n", kept_memory);
    return 0;
}

#endif
