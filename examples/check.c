/* An example host: checks a journal, or a short journal as it is, without the journal that it stands for. It prints the numbers of the
 * run, or the refusal.
 *
 *   kit/native/build x86-64
 *   gcc -O2 -Iinclude examples/check.c target/staticlib/libkrossvil.a -o check
 *   ./check examples/short-journal/table.bin examples/short-journal/short.bin
 */
#include <stdio.h>
#include "files.h"
#include "krossvil.h"
#include "numbers.h"

/* One byte more than the longest lets a file that is too long be turned down. */
static uint8_t table[KROSSVIL_TABLE_MAX + 1], journal[KROSSVIL_SHORT_MAX + 1];

int main(int count, char **words)
{
    size_t table_size, size;
    uint8_t answer[KROSSVIL_JOURNAL_ANSWER];

    if (count != 3) {
        fprintf(stderr, "usage: check TABLE JOURNAL\n");
        return 2;
    }
    if (!load(words[1], table, sizeof table, &table_size) || !load(words[2], journal, sizeof journal, &size))
        return 2;

    /* What does not begin as a short journal does is a journal or is refused as one. */
    uint64_t code = (size > 0 && journal[0] == KROSSVIL_SHORT_OPENING ? krossvil_check_short : krossvil_check_journal)(
        table, table_size, journal, size, answer, sizeof answer);
    if (code != 0) {
        printf("refused %u at %u\n", krossvil_number(code), krossvil_place(code));
        return 1;
    }
    print_accepted(answer);
    return 0;
}
