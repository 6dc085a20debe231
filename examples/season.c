/* An example host: adds journals to a report of where their time went, and prints it. For each journal it prints that it was added,
 * or the refusal; one that is refused leaves the report as it was. Then come the number of journals and, for each state, its slots,
 * the entries into it, and its slots with each input. The table is loaded once, so that all journals are read under the same.
 *
 *   kit/native/build x86-64
 *   gcc -O2 -Iinclude examples/season.c target/staticlib/libkrossvil.a -o season
 *   cd examples/season && ../../season table.bin early.bin torn.bin late.bin
 */
#include <inttypes.h>
#include <stdio.h>
#include "files.h"
#include "krossvil.h"

/* One byte more than the longest lets a file that is too long be turned down. */
static uint8_t table[KROSSVIL_TABLE_MAX + 1], journal[KROSSVIL_JOURNAL_MAX + 1];
static uint64_t report[KROSSVIL_REPORT_MAX]; /* zeros to begin with */

static void print_refusal(const char *name, uint64_t code)
{
    printf("%s: refused %u at %u\n", name, krossvil_number(code), krossvil_place(code));
}

static void print_report(uint32_t state_count, uint32_t input_count)
{
    printf("journals=%" PRIu64 "\n", report[KROSSVIL_REPORT_ADDED]);
    for (uint32_t q = 0; q < state_count; q++) {
        printf("state %u: slots=%" PRIu64 " entries=%" PRIu64 " by input", q, report[krossvil_dwell_at(q)],
               report[krossvil_entries_at(state_count, input_count, q)]);
        for (uint32_t a = 0; a < input_count; a++)
            printf(" %" PRIu64, report[krossvil_pair_at(state_count, input_count, q, a)]);
        printf("\n");
    }
}

int main(int count, char **words)
{
    size_t table_size, size;
    int refused = 0;

    if (count < 2) {
        fprintf(stderr, "usage: season TABLE JOURNAL ...\n");
        return 2;
    }
    if (!load(words[1], table, sizeof table, &table_size))
        return 2;
    uint64_t code = krossvil_check_table(table, table_size);
    if (code != 0) {
        print_refusal(words[1], code);
        return 1;
    }
    uint32_t state_count = krossvil_table_states(table), input_count = krossvil_table_inputs(table);

    for (int k = 2; k < count; k++) {
        if (!load(words[k], journal, sizeof journal, &size))
            return 2;
        code = krossvil_report_add(table, table_size, journal, size, report, krossvil_report_len(state_count, input_count));
        if (code != 0) {
            print_refusal(words[k], code);
            refused = 1;
        } else {
            printf("%s: added\n", words[k]);
        }
    }
    print_report(state_count, input_count);
    return refused;
}
