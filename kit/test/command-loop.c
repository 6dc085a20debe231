// Checks the journals that are named after a table, as plainly as C can: the measure for the command's time.
#include "krossvil.h"

#include <stdio.h>

static uint8_t table[KROSSVIL_TABLE_MAX + 1], journal[KROSSVIL_JOURNAL_MAX + 1];

static size_t read_file(const char *path, uint8_t *room, size_t size) {
    FILE *file = fopen(path, "rb");
    if (!file)
        return 0;
    size_t length = fread(room, 1, size, file);
    fclose(file);
    return length;
}

int main(int count, char **files) {
    size_t table_length = read_file(files[1], table, sizeof table);
    for (int k = 2; k < count; k++) {
        uint8_t answer[KROSSVIL_JOURNAL_ANSWER];
        size_t length = read_file(files[k], journal, sizeof journal);
        uint64_t code = krossvil_check_journal(table, table_length, journal, length, answer, sizeof answer);
        printf("%s: %s\n", files[k], code == 0 ? "accepted" : "refused");
    }
}
