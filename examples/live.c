/* An example host: a controller's loop. Sensor lines `TIME INPUT` come from standard input, the first for time 0, each later than the one
 * before. It polls every 2 units, appends its journal to a file record by record, and prints changes of the output and, at a held test, how
 * long is left. Killed at any moment and started again with the same files it goes on; lines that it had taken are passed over.
 *
 *   kit/native/build x86-64
 *   gcc -O2 -Iinclude examples/live.c target/staticlib/libkrossvil.a -o live
 *   ./live examples/classroom/table.bin journal.bin memory.bin < examples/live/sensor.txt
 */
#include "kept.h" /* before all others */
#include "events.h"
#include <stdlib.h>

static uint8_t table[KROSSVIL_TABLE_MAX + 1];
static size_t table_size;
static struct kept kept;
static const uint32_t *live = kept.live;

/* Gives the runtime an event; its record and the memory are kept before anything is shown. */
static void take(uint8_t tag, uint32_t time, uint32_t input)
{
    static uint32_t shown = UINT32_MAX; /* after a start the output is shown in any case */
    uint8_t event[EVENT_MAX], record[KROSSVIL_RECORD_MAX], answer[KROSSVIL_LIVE_ANSWER];
    size_t size = write_event(event, tag, time, input);
    uint64_t code = krossvil_live(table, table_size, kept.live, KROSSVIL_LIVE, event, size, record, sizeof record, answer, sizeof answer);
    if (code != 0) {
        printf("refused %u at %u\n", krossvil_number(code), krossvil_place(code));
        exit(1);
    }
    if (!keep(&kept, record, krossvil_answer(answer, KROSSVIL_LIVE_WRITTEN)))
        exit(2);
    uint32_t output = krossvil_answer(answer, KROSSVIL_LIVE_OUTPUT), left = krossvil_answer(answer, KROSSVIL_LIVE_LEFT);
    if (output != shown)
        printf("%u: output %u\n", time, shown = output);
    if (left > 0)
        printf("%u: held, %u left\n", time, left);
}

int main(int count, char **words)
{
    static const uint8_t next[] = { POLL, TEST, TICK, TICK }; /* by phase; test and tick come at the instant of their poll */
    unsigned time, input;
    if (count != 4)
        return fprintf(stderr, "usage: live TABLE JOURNAL MEMORY\n"), 2;
    if (!load(words[1], table, sizeof table, &table_size) || !resume(&kept, words[2], words[3]))
        return 2;
    while (scanf("%u %u", &time, &input) == 2) {
        if (live[KROSSVIL_MEMORY_STAGE] == 0)
            take(OPENING, 0, input);
        for (uint32_t phase; (phase = live[KROSSVIL_MEMORY_PHASE]) != 0 || live[KROSSVIL_MEMORY_START] + 2 <= time;)
            take(next[phase % 4], live[KROSSVIL_MEMORY_START] + 2, 0);
        if (time >= live[KROSSVIL_MEMORY_TIME] && input != live[KROSSVIL_MEMORY_INPUT])
            take(CHANGE, time, input);
    }
    if (!feof(stdin))
        return fprintf(stderr, "a line is not TIME INPUT\n"), 2;
    if (live[KROSSVIL_MEMORY_STAGE] == 1)
        take(END, live[KROSSVIL_MEMORY_TIME], 0);
    return 0;
}
