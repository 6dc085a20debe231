/* A fault for the test of the shared object: it stands before the library, and where the journal check refuses with 28 it says 27. */
#define _GNU_SOURCE
#include <dlfcn.h>
#include <stddef.h>
#include "krossvil.h"

uint64_t krossvil_check_journal(const uint8_t *table, uint64_t table_len, const uint8_t *journal, uint64_t journal_len, uint8_t *answer,
                                uint64_t answer_len)
{
    uint64_t (*own)(const uint8_t *, uint64_t, const uint8_t *, uint64_t, uint8_t *, uint64_t);
    *(void **)&own = dlsym(RTLD_NEXT, "krossvil_check_journal");
    uint64_t code = own(table, table_len, journal, journal_len, answer, answer_len);
    return krossvil_number(code) == KROSSVIL_DIFFERS ? code - ((uint64_t)1 << 32) : code;
}
