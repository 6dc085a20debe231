/* An example host: writes a journal as a short journal, and a short journal as the journal that it stands for. It prints how many
 * bytes were written, or the refusal, and then writes nothing.
 *
 *   kit/native/build x86-64
 *   gcc -O2 -Iinclude examples/shorten.c target/staticlib/libkrossvil.a -o shorten
 *   ./shorten examples/short-journal/table.bin examples/short-journal/journal.bin short.bin
 *   ./shorten examples/short-journal/table.bin short.bin journal.bin
 */
#include <stdio.h>
#include "files.h"
#include "krossvil.h"

/* One byte more than the longest lets a file that is too long be turned down. */
static uint8_t table[KROSSVIL_TABLE_MAX + 1], given[KROSSVIL_SHORT_MAX + 1], written[KROSSVIL_JOURNAL_MAX];

int main(int count, char **words)
{
    size_t table_size, size;
    uint8_t answer[KROSSVIL_SHORTEN_ANSWER];

    if (count != 4) {
        fprintf(stderr, "usage: shorten TABLE JOURNAL NEW\n");
        return 2;
    }
    if (!apart(words[1], words[3]) || !apart(words[2], words[3]))
        return 2;
    if (!load(words[1], table, sizeof table, &table_size) || !load(words[2], given, sizeof given, &size))
        return 2;

    /* What does not begin as a short journal does is a journal or is refused as one. */
    uint64_t code = (size > 0 && given[0] == KROSSVIL_SHORT_OPENING ? krossvil_lengthen : krossvil_shorten)(
        table, table_size, given, size, written, sizeof written, answer, sizeof answer);
    if (code != 0) {
        printf("refused %u at %u\n", krossvil_number(code), krossvil_place(code));
        return 1;
    }
    if (!store(words[3], written, krossvil_answer(answer, KROSSVIL_WRITTEN)))
        return 2;
    printf("bytes=%u\n", krossvil_answer(answer, KROSSVIL_WRITTEN));
    return 0;
}
