/* Writes the journal that krossvil_run makes of a stimulus:  run-stimulus TABLE STIMULUS JOURNAL */
#include "../examples/files.h"
#include "krossvil.h"

static uint8_t table[KROSSVIL_TABLE_MAX + 1], stimulus[KROSSVIL_STIMULUS_MAX + 1], journal[KROSSVIL_JOURNAL_MAX];

int main(int count, char **words)
{
    size_t table_size, size;
    uint8_t answer[KROSSVIL_RUN_ANSWER];
    if (count != 4 || !load(words[1], table, sizeof table, &table_size) || !load(words[2], stimulus, sizeof stimulus, &size))
        return 2;
    uint64_t code = krossvil_run(table, table_size, stimulus, size, journal, sizeof journal, answer, sizeof answer);
    return code == 0 && store(words[3], journal, krossvil_answer(answer, KROSSVIL_WRITTEN)) ? 0 : 1;
}
