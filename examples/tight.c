/* An example host: asks how long a reaction takes, and how long in whole units; for one move, or for as many as are named. Sets are
 * numbers, member i as 2^i. It prints the time, the target and the tight time, or the refusal.
 *
 *   kit/native/build x86-64
 *   gcc -O2 -Iinclude examples/tight.c target/staticlib/libkrossvil.a -o tight
 *   ./tight examples/classroom/table.bin 3 1
 *   ./tight examples/back-to-idle/table.bin 31 1 3
 */
#include <stdio.h>
#include "files.h"
#include "krossvil.h"
#include "numbers.h"

/* One byte more than the longest lets a file that is too long be turned down. */
static uint8_t table[KROSSVIL_TABLE_MAX + 1];

int main(int count, char **words)
{
    size_t size;
    uint32_t states, inputs, moves = 1;
    uint8_t answer[KROSSVIL_TIGHT_ANSWER];

    if (count != 4 && count != 5) {
        fprintf(stderr, "usage: tight TABLE STATES INPUTS [MOVES]\n");
        return 2;
    }
    if (!load(words[1], table, sizeof table, &size) || !read_number(words[2], &states) || !read_number(words[3], &inputs) ||
        (count == 5 && !read_number(words[4], &moves)))
        return 2;

    uint64_t code = count == 5 ? krossvil_reaction_tight_moves(table, size, states, inputs, moves, answer, sizeof answer)
                               : krossvil_reaction_tight(table, size, states, inputs, answer, sizeof answer);
    if (code != 0) {
        printf("refused %u at %u\n", krossvil_number(code), krossvil_place(code));
        return 1;
    }
    printf("time=%u target=%u tight=%u\n", krossvil_answer(answer, KROSSVIL_REACTION_TIME),
           krossvil_answer(answer, KROSSVIL_REACTION_TARGET), krossvil_answer(answer, KROSSVIL_TIGHT_TIME));
    return 0;
}
