/* The registers that the controller uses, of the board mps2-an385: a Cortex-M3 at 25 MHz with Arm's CMSDK peripherals. */
#ifndef BOARD_H
#define BOARD_H

#include <stdint.h>

struct timer { /* counts down to 0 and from there begins again with `reload` */
    volatile uint32_t control, value, reload, interrupt;
};
struct uart {
    volatile uint32_t data, state, control, interrupt, divider;
};

#define TIMER0 ((struct timer *)0x40000000)
#define UART0 ((struct uart *)0x40004000)
#define LEDS (*(volatile uint32_t *)0x4002F004)             /* eight of them, a bit each */
#define INTERRUPTS_ENABLE (*(volatile uint32_t *)0xE000E100) /* a bit for each interrupt */

enum {
    CLOCK_HZ = 25000000,
    TIMER_RUNS = 1, /* control */
    TIMER_INTERRUPTS = 8,
    TIMER0_INTERRUPT = 8, /* its number */
    UART_SENDS = 1,       /* control */
    UART_RECEIVES = 2,
    UART_SENDING = 1, /* state: a byte waits to go out */
    UART_RECEIVED = 2,
};

/* What is written before it is in memory before what is written after it. */
static inline void in_order(void) { __asm__ volatile("dmb" ::: "memory"); }

/* Sleeps until an interrupt, unless the word has changed already: one that comes just before the sleep is not slept through. */
static inline void sleep_while(const volatile uint32_t *word, uint32_t was)
{
    __asm__ volatile("cpsid i" ::: "memory");
    if (*word == was)
        __asm__ volatile("wfi");
    __asm__ volatile("cpsie i" ::: "memory");
}

_Noreturn static inline void halt(void)
{
    TIMER0->control = 0;
    for (;;)
        __asm__ volatile("wfi");
}

#endif
