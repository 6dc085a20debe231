/* Events of a stimulus as bytes. */
#ifndef EVENTS_H
#define EVENTS_H

#include <stddef.h>
#include <stdint.h>

enum { OPENING = 0x20, CHANGE = 0x21, POLL = 0x22, TEST = 0x23, TICK = 0x24, END = 0x2F, EVENT_MAX = 8 };

/* Writes the event, and returns how many bytes it has. The input is that of an opening or a change; no table has one of 255 or more. */
static inline size_t write_event(uint8_t *event, uint8_t tag, uint32_t time, uint32_t input)
{
    uint8_t *b = event;
    *b++ = tag;
    *b++ = 0;
    *b++ = tag == OPENING ? 1 : tag == CHANGE ? 5 : 4;
    for (int shift = 24; shift >= 0 && tag != OPENING; shift -= 8)
        *b++ = (uint8_t)(time >> shift);
    if (tag == OPENING || tag == CHANGE)
        *b++ = input < 255 ? (uint8_t)input : 255;
    return (size_t)(b - event);
}

#endif
