/* What the controller keeps through a reset: the run's memory, its last record and the clock. */
#ifndef KEPT_H
#define KEPT_H

#include <stdint.h>
#include "krossvil.h"

struct kept { /* what the last event has left */
    uint32_t live[KROSSVIL_LIVE];
    uint32_t at; /* so many bytes of the journal are before the record */
    uint32_t size;
    uint32_t output;
    uint8_t record[KROSSVIL_RECORD_MAX];
};

extern volatile uint32_t kept_clock; /* in units since the run began */

/* The mark says whether a run is kept, and that it is one of this table. If none is, it is 17 zeros from here on. */
void kept_open(uint32_t mark);
const struct kept *kept_now(void);
struct kept *kept_next(void); /* a copy of it, for the next event to change */
void kept_switch(void);       /* from now on that one is kept */

#endif
