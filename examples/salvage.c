/* An example host: writes what is sound of a torn journal. It prints how many bytes were kept and dropped, and the refusal that
 * stopped it, if the journal was not sound to its end; or it prints only a refusal, and then writes nothing.
 *
 *   kit/native/build x86-64
 *   gcc -O2 -Iinclude examples/salvage.c target/staticlib/libkrossvil.a -o salvage
 *   ./salvage examples/torn-journal/table.bin examples/torn-journal/torn.bin salvaged.bin
 */
#include <stdio.h>
#include "files.h"
#include "krossvil.h"

/* One byte more than the longest lets a file that is too long be turned down. */
static uint8_t table[KROSSVIL_TABLE_MAX + 1], journal[KROSSVIL_JOURNAL_MAX + 1], salvaged[KROSSVIL_SALVAGED_MAX];

int main(int count, char **words)
{
    size_t table_size, size;
    uint8_t answer[KROSSVIL_SALVAGE_ANSWER];

    if (count != 4) {
        fprintf(stderr, "usage: salvage TABLE JOURNAL NEW\n");
        return 2;
    }
    if (!apart(words[1], words[3]) || !apart(words[2], words[3]))
        return 2;
    if (!load(words[1], table, sizeof table, &table_size) || !load(words[2], journal, sizeof journal, &size))
        return 2;

    uint64_t code = krossvil_salvage(table, table_size, journal, size, salvaged, sizeof salvaged, answer, sizeof answer);
    if (code != 0) {
        printf("refused %u at %u\n", krossvil_number(code), krossvil_place(code));
        return 1;
    }
    if (!store(words[3], salvaged, krossvil_salvaged_len(answer)))
        return 2;
    printf("kept=%u dropped=%u", krossvil_answer(answer, KROSSVIL_SALVAGE_KEPT), krossvil_answer(answer, KROSSVIL_SALVAGE_DROPPED));
    uint32_t number = krossvil_answer(answer, KROSSVIL_SALVAGE_NUMBER);
    if (number != 0)
        printf(" refused %u at %u", number, krossvil_answer(answer, KROSSVIL_SALVAGE_PLACE));
    printf("\n");
    return 0;
}
