#include "kept.h"
#include "board.h"

/* A reset leaves these alone. After power-on there is anything in them, and the mark not among it. */
#define KEPT __attribute__((section(".kept")))

volatile uint32_t kept_clock KEPT;
static volatile uint32_t marked KEPT, current KEPT; /* current: 0 or 1 */
static struct kept two[2] KEPT;

void kept_open(uint32_t mark)
{
    if (marked == mark)
        return;
    marked = 0;
    in_order();
    kept_clock = 0;
    current = 0;
    two[0] = (struct kept){ .at = 0 };
    in_order();
    marked = mark;
}

const struct kept *kept_now(void) { return &two[current]; }

struct kept *kept_next(void)
{
    two[1 - current] = two[current];
    return &two[1 - current];
}

void kept_switch(void)
{
    in_order();
    current = 1 - current; /* one word: it is written, or it is not */
    in_order();
}
