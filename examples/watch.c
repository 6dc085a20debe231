/* An example host: checks a journal of any length from standard input, record by record, with the memory of one record. It prints the
 * numbers of the run, or the refusal, as the program checkjournal does.
 *
 *   kit/native/build x86-64
 *   gcc -O2 -Iinclude examples/watch.c target/staticlib/libkrossvil.a -o watch
 *   ./watch examples/classroom/table.bin < examples/classroom/journal.bin
 */
#include <inttypes.h>
#include <stdio.h>
#include "files.h"
#include "krossvil.h"
#include "numbers.h"

static uint8_t table[KROSSVIL_TABLE_MAX + 1], field[3 + UINT16_MAX];
static uint32_t live[KROSSVIL_LIVE];

/* The next field as its head claims it, or what is left of the journal: how many bytes. */
static size_t next_field(void)
{
    size_t size = fread(field, 1, 3, stdin);
    return size < 3 ? size : 3 + fread(field + 3, 1, (size_t)field[1] << 8 | field[2], stdin);
}

int main(int count, char **words)
{
    size_t table_size, size;
    uint64_t at = 0, code = 0;
    uint8_t answer[KROSSVIL_WATCH_ANSWER];

    if (count != 2) {
        fprintf(stderr, "usage: watch TABLE\n");
        return 2;
    }
    if (!load(words[1], table, sizeof table, &table_size))
        return 2;
    for (; code == 0; at += code == 0 ? size : 0) {
        size = next_field();
        if (size == 0 && live[KROSSVIL_MEMORY_STAGE] == 2)
            break; /* nothing behind the end field */
        code = krossvil_watch(table, table_size, live, KROSSVIL_LIVE, field, size, answer, sizeof answer);
    }
    if (ferror(stdin)) {
        fprintf(stderr, "the journal cannot be read\n");
        return 2;
    }
    if (code == 0) {
        print_accepted(answer);
        return 0;
    }
    if (krossvil_number(code) < KROSSVIL_RUNS_OUT)
        at = 0; /* the place is one in the table */
    printf("refused %u at %" PRIu64 "\n", krossvil_number(code), at + krossvil_place(code));
    return 1;
}
