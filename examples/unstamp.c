/* An example host: reads a stamped journal and writes its long form, the journal with its times. It prints how many bytes that
 * has, or the refusal, and then writes nothing.
 *
 *   kit/native/build x86-64
 *   gcc -O2 -Iinclude examples/unstamp.c target/staticlib/libkrossvil.a -o unstamp
 *   ./unstamp examples/short-clock/stamped.bin journal.bin
 */
#include <stdio.h>
#include "files.h"
#include "krossvil.h"

/* One byte more than the longest lets a file that is too long be turned down. */
static uint8_t stamped[KROSSVIL_STAMPED_MAX + 1], journal[KROSSVIL_JOURNAL_MAX];

int main(int count, char **words)
{
    size_t size;
    uint8_t answer[KROSSVIL_STAMPED_ANSWER];

    if (count != 3) {
        fprintf(stderr, "usage: unstamp STAMPED JOURNAL\n");
        return 2;
    }
    if (!apart(words[1], words[2]))
        return 2;
    if (!load(words[1], stamped, sizeof stamped, &size))
        return 2;

    uint64_t code = krossvil_read_stamped(stamped, size, journal, sizeof journal, answer, sizeof answer);
    if (code != 0) {
        printf("refused %u at %u\n", krossvil_number(code), krossvil_place(code));
        return 1;
    }
    if (!store(words[2], journal, krossvil_answer(answer, KROSSVIL_WRITTEN)))
        return 2;
    printf("bytes=%u\n", krossvil_answer(answer, KROSSVIL_WRITTEN));
    return 0;
}
