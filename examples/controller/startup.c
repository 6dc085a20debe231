/* What runs before main, and the two functions of a C library that the compiler and libkrossvil.a call. */
#include <stddef.h>
#include "board.h"

extern uint32_t stack_top, data_start, data_end, data_in_flash, bss_start, bss_end; /* controller.ld */
int main(void);
void reset(void);
void timer0(void);

static void fault(void) /* no way leads here unless something is broken: no output, and no way on but a reset */
{
    LEDS = 0;
    for (;;)
        __asm__ volatile("wfi");
}

__attribute__((section(".vectors"), used)) static const void *const vectors[16 + 32] = {
    &stack_top, reset, fault, fault, fault, fault, fault, [16 + TIMER0_INTERRUPT] = timer0,
};

typedef uint32_t __attribute__((may_alias)) word;

/* By words where both ends allow it: the controller copies its memory at each event. */
void *memcpy(void *to, const void *from, size_t count)
{
    uint8_t *t = to;
    const uint8_t *f = from;
    if (((uintptr_t)t | (uintptr_t)f) % 4 == 0)
        for (; count >= 4; count -= 4, t += 4, f += 4)
            *(word *)t = *(const word *)f;
    while (count-- > 0)
        *t++ = *f++;
    return to;
}

void *memset(void *to, int byte, size_t count)
{
    for (uint8_t *t = to; count-- > 0;)
        *t++ = (uint8_t)byte;
    return to;
}

void reset(void) /* the section .kept is left as it is */
{
    memcpy(&data_start, &data_in_flash, (size_t)((uint8_t *)&data_end - (uint8_t *)&data_start));
    memset(&bss_start, 0, (size_t)((uint8_t *)&bss_end - (uint8_t *)&bss_start));
    main();
}
