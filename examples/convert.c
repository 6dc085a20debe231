/* An example host: converts a table that was made before there was KROSSVIL_IDLE_SET. It prints how many states have changed, or the
 * refusal, and then writes nothing.
 *
 *   kit/native/build x86-64
 *   gcc -O2 -Iinclude examples/convert.c target/staticlib/libkrossvil.a -o convert
 *   ./convert examples/idle-sets/old-table.bin table.bin
 */
#include <stdio.h>
#include "files.h"
#include "krossvil.h"

/* One byte more than the longest lets a file that is too long be turned down. */
static uint8_t old_table[KROSSVIL_TABLE_MAX + 1], new_table[KROSSVIL_TABLE_MAX];

int main(int count, char **words)
{
    size_t size;
    uint8_t answer[KROSSVIL_CONVERT_ANSWER];

    if (count != 3) {
        fprintf(stderr, "usage: convert OLD NEW\n");
        return 2;
    }
    if (!apart(words[1], words[2]))
        return 2;
    if (!load(words[1], old_table, sizeof old_table, &size))
        return 2;

    uint64_t code = krossvil_convert_table(old_table, size, new_table, sizeof new_table, answer, sizeof answer);
    if (code != 0) {
        printf("refused %u at %u\n", krossvil_number(code), krossvil_place(code));
        return 1;
    }
    if (!store(words[2], new_table, size)) /* as many bytes as the old one */
        return 2;
    printf("changed=%u\n", krossvil_answer(answer, KROSSVIL_CONVERT_CHANGED));
    return 0;
}
