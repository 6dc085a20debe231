/* An example host: asks how long it takes to a target in several moves. It prints the reaction time and the target set, the sums row by
 * row, and one worst path. Sets are numbers, in which 2^i stands for member i.
 *
 *   kit/native/build x86-64
 *   gcc -O2 -Iinclude examples/moves.c target/staticlib/libkrossvil.a -o moves
 *   ./moves examples/back-to-idle/table.bin 31 1 3
 */
#include <stdio.h>
#include "files.h"
#include "krossvil.h"
#include "numbers.h"

/* One byte more than the longest lets a file that is too long be turned down. */
static uint8_t table[KROSSVIL_TABLE_MAX + 1], path[KROSSVIL_PATH_MAX];
static uint32_t sums[KROSSVIL_SUMS_MAX];

static void print_sums(uint32_t state_count, uint32_t moves)
{
    for (uint32_t row = 0; row < moves; row++) {
        printf("row %u:", row);
        for (uint32_t q = 0; q < state_count; q++)
            printf(" %u", sums[row * state_count + q]);
        printf("\n");
    }
}

/* States and inputs by turns, a state first and last. */
static void print_path(uint32_t length)
{
    printf("path:");
    for (uint32_t k = 0; k < length; k++)
        printf(k % 2 == 0 ? " state %u" : " input %u", path[k]);
    fputs(length == 0 ? " none\n" : "\n", stdout);
}

int main(int count, char **words)
{
    size_t size;
    uint32_t states, inputs, moves;
    uint8_t answer[KROSSVIL_MOVES_ANSWER];

    if (count != 5) {
        fprintf(stderr, "usage: moves TABLE STATES INPUTS MOVES\n");
        return 2;
    }
    if (!load(words[1], table, sizeof table, &size) || !read_number(words[2], &states) || !read_number(words[3], &inputs) ||
        !read_number(words[4], &moves))
        return 2;
    uint64_t code = krossvil_reaction_moves(table, size, states, inputs, moves, sums, KROSSVIL_SUMS_MAX, path, sizeof path, answer,
                                            sizeof answer);
    if (code != 0) {
        printf("refused %u at %u\n", krossvil_number(code), krossvil_place(code));
        return 1;
    }
    printf("within %u to the states of the set %u\n", krossvil_answer(answer, KROSSVIL_REACTION_TIME),
           krossvil_answer(answer, KROSSVIL_REACTION_TARGET));
    print_sums(krossvil_table_states(table), moves);
    print_path(krossvil_answer(answer, KROSSVIL_MOVES_PATH));
    return 0;
}
