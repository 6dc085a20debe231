/* To be linked with the controller (--wrap=main --wrap=lines_next): a board that resets itself at random moments, from one instruction to the
 * next, for which a reset from outside is too coarse. Each life ends with the interrupt of a second timer. */
#include "board.h"
#include "lines.h"

#define TIMER1 ((struct timer *)0x40001000)
#define VECTORS (*(volatile uint32_t *)0xE000ED08) /* where the processor finds them */
#define RESET (*(volatile uint32_t *)0xE000ED0C)
#define PRIORITIES ((volatile uint8_t *)0xE000E400) /* of each interrupt; 0 comes before all others */

enum { COUNT = 16 + 32, TIMER1_INTERRUPT = 9, RESET_NOW = 0x05FA0004, SHORT_LIFE = 1 << 17, LONG_LIFE = 1 << 22, PC = 6, AWAKE = 0xB662 };

static uint32_t drawn __attribute__((section(".kept"))); /* the last random number; 0 after power-on of the emulator */
static uint32_t vectors[COUNT] __attribute__((aligned(256)));

int __real_main(void);
int __wrap_main(void);
struct line __real_lines_next(uint32_t from);
struct line __wrap_lines_next(uint32_t from);
void fail_at(const uint32_t *stacked);

static uint32_t draw(void)
{
    drawn = 1664525u * drawn + 1013904223u;
    return drawn >> 8;
}

/* Most of the time the controller sleeps: just behind that (`cpsie i`) nothing is to be seen, so life goes on for some time. */
void fail_at(const uint32_t *stacked)
{
    TIMER1->interrupt = 1;
    TIMER1->value = 1 + draw() % SHORT_LIFE;
    if (((const uint16_t *)stacked[PC])[-1] == AWAKE)
        return;
    RESET = RESET_NOW;
    for (;;)
        ;
}

__attribute__((naked)) static void fail(void) { __asm__ volatile("mrs r0, msp\n b fail_at"); }

int __wrap_main(void)
{
    const uint32_t *given = (const uint32_t *)VECTORS;
    for (int k = 0; k < COUNT; k++)
        vectors[k] = given[k];
    vectors[16 + TIMER1_INTERRUPT] = (uint32_t)fail;
    in_order();
    VECTORS = (uint32_t)vectors;
    PRIORITIES[TIMER0_INTERRUPT] = 0x80;
    TIMER1->reload = LONG_LIFE;
    TIMER1->value = 1 + draw() % (draw() % 2 == 0 ? SHORT_LIFE : LONG_LIFE);
    TIMER1->control = TIMER_RUNS | TIMER_INTERRUPTS;
    INTERRUPTS_ENABLE = 1u << TIMER1_INTERRUPT;
    return __real_main();
}

/* Most of the waiting for a line does not count, or most lives would end in it. */
struct line __wrap_lines_next(uint32_t from)
{
    if (draw() % 4 != 0)
        TIMER1->control = 0;
    struct line line = __real_lines_next(from);
    TIMER1->control = TIMER_RUNS | TIMER_INTERRUPTS;
    return line;
}
