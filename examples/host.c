/* An example host: runs a stimulus on a table, checks the journal that comes out, and asks for a reaction time.
 *
 *   kit/native/build x86-64
 *   gcc -O2 -Iinclude examples/host.c target/staticlib/libkrossvil.a -o host
 *   ./host examples/classroom/table.bin examples/classroom/stimulus.bin
 */
#include <stdio.h>
#include "files.h"
#include "krossvil.h"
#include "numbers.h"

/* One byte more than the longest lets a file that is too long be turned down. */
static uint8_t table[KROSSVIL_TABLE_MAX + 1], stimulus[KROSSVIL_STIMULUS_MAX + 1], journal[KROSSVIL_JOURNAL_MAX];

/* Sets are numbers, in which 2^i stands for member i. */
static uint32_t only(uint32_t member) { return UINT32_C(1) << member; }

static uint32_t all_of(uint32_t count) { return (uint32_t)((UINT64_C(1) << count) - 1); }

/* Prints a refusal; 1 if there was none. */
static int passed(const char *what, uint64_t code)
{
    if (code == 0)
        return 1;
    printf("%s: refused %u at %u\n", what, krossvil_number(code), krossvil_place(code));
    return 0;
}

int main(int count, char **words)
{
    size_t table_size, stimulus_size;
    uint8_t answer[KROSSVIL_JOURNAL_ANSWER];

    if (count != 3) {
        fprintf(stderr, "usage: host TABLE STIMULUS\n");
        return 2;
    }
    if (!load(words[1], table, sizeof table, &table_size) || !load(words[2], stimulus, sizeof stimulus, &stimulus_size))
        return 2;

    if (!passed("table", krossvil_check_table(table, table_size)))
        return 1;
    printf("table: passes\n");

    if (!passed("run", krossvil_run(table, table_size, stimulus, stimulus_size, journal, sizeof journal, answer, sizeof answer)))
        return 1;
    size_t journal_size = krossvil_answer(answer, KROSSVIL_WRITTEN);
    printf("run: a journal of %zu bytes\n", journal_size);

    if (!passed("journal", krossvil_check_journal(table, table_size, journal, journal_size, answer, sizeof answer)))
        return 1;
    printf("journal: ");
    print_accepted(answer);

    uint32_t states = all_of(krossvil_table_states(table));
    if (!passed("reaction", krossvil_reaction(table, table_size, states, only(0), answer, sizeof answer)))
        return 1;
    printf("reaction: from any state, while the input is 0, within %u to the states of the set %u\n",
           krossvil_answer(answer, KROSSVIL_REACTION_TIME), krossvil_answer(answer, KROSSVIL_REACTION_TARGET));
    return 0;
}
