/* The lines that go over the serial line, in both directions: docs/CONTROLLER.md has their forms. */
#ifndef LINES_H
#define LINES_H

#include <stdint.h>

struct line {
    uint32_t time;
    uint32_t input; /* 255, which no table has, in a line that ends the run */
    int ends;
};

void lines_open(void);
void lines_send_record(uint32_t at, const uint8_t *record, uint32_t size);
void lines_send_refusal(uint32_t number, uint32_t place);

/* Asks for the first line that is not earlier than `from`, and waits for it. */
struct line lines_next(uint32_t from);

#endif
