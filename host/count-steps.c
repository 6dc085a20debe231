/* To be linked with the controller's sources in the place of controller.c: how many instructions a call of krossvil_live takes, by the size
 * of the table, how many the rest of an event, and how much stack. Under `-icount shift=6` an instruction lasts 64 ns and the timer counts
 * every 40 ns. It prints a line for each number, and ends the emulator
 * by semihosting. */
#include <stddef.h>
#include "board.h"
#include "events.h"
#include "kept.h"
#include "krossvil.h"
#include "lines.h"

#define TIMER1 ((struct timer *)0x40001000)

enum { CYCLES = 100, PAINT = 0xA5 };
extern uint8_t stack_bottom; /* controller.ld */
static uint8_t table[KROSSVIL_TABLE_MAX], *end;
static uint32_t worst;

static void print(const char *text, uint32_t number)
{
    char digits[12];
    int k = sizeof digits;
    digits[--k] = '\0';
    digits[--k] = '\n';
    for (; k > 0 && (number > 0 || k == sizeof digits - 2); number /= 10)
        digits[--k] = (char)('0' + number % 10);
    while (*text != '\0')
        UART0->data = (uint8_t)*text++;
    for (text = digits + k; *text != '\0';)
        UART0->data = (uint8_t)*text++;
}

static uint32_t instructions_since(uint32_t value) { return (value - TIMER1->value) * 5 / 8; }

static void field(uint8_t tag, uint32_t size)
{
    *end++ = tag;
    *end++ = (uint8_t)(size >> 8);
    *end++ = (uint8_t)size;
}

static void number(uint32_t value)
{
    for (int shift = 24; shift >= 0; shift -= 8)
        *end++ = (uint8_t)(value >> shift);
}

/* A table with so many states, inputs and outputs. Each state delays each input, by a hold, or by so many timers if there are any. */
static void make_table(uint32_t n, uint32_t timers)
{
    uint32_t all = n == 32 ? UINT32_MAX : (1u << n) - 1;
    end = table;
    field(1, 4);
    number(n << 24 | n << 16 | n << 8);
    field(2, 4);
    number(10);
    field(3, n);
    for (uint32_t q = 0; q < n; q++)
        *end++ = (uint8_t)q;
    field(4, n * n);
    for (uint32_t k = 0; k < n * n; k++)
        *end++ = (uint8_t)((k / n + k % n) % n);
    field(timers > 0 ? 7 : 5, timers > 0 ? 8 * timers : 4 * n);
    for (uint32_t k = 0; k < (timers > 0 ? timers : n); k++) {
        number(4);
        if (timers > 0)
            number(all);
    }
    field(timers > 0 ? 8 : 6, timers > 0 ? 4 * n * timers : 4 * n);
    for (uint32_t k = 0; k < (timers > 0 ? n * timers : n); k++)
        number(all);
}

static void call(uint32_t *live, uint8_t tag, uint32_t time, uint32_t input)
{
    uint8_t event[EVENT_MAX], record[KROSSVIL_RECORD_MAX], answer[KROSSVIL_LIVE_ANSWER];
    size_t size = write_event(event, tag, time, input);
    uint32_t value = TIMER1->value;
    uint64_t code = krossvil_live(table, (uint64_t)(end - table), live, KROSSVIL_LIVE, event, size, record, sizeof record, answer, sizeof answer);
    uint32_t took = instructions_since(value);
    if (code != 0)
        print("refused ", krossvil_number(code));
    worst = took > worst ? took : worst;
}

static void count_calls(const char *text, uint32_t n, uint32_t timers)
{
    uint32_t live[KROSSVIL_LIVE] = { 0 };
    make_table(n, timers);
    worst = 0;
    call(live, OPENING, 0, 0);
    for (uint32_t k = 1; k <= CYCLES; k++) {
        call(live, CHANGE, 2 * k - 1, k % n);
        call(live, POLL, 2 * k, 0);
        call(live, TEST, 2 * k, 0);
        call(live, TICK, 2 * k, 0);
    }
    print(text, worst);
}

static void count_nothing(void) /* so that the count is seen to be right */
{
    uint32_t value = TIMER1->value;
    __asm__ volatile(".rept 1000\n nop\n .endr");
    print("one thousand: ", instructions_since(value));
}

static void count_rest(void) /* what the controller does beside the call */
{
    uint32_t value = TIMER1->value;
    struct kept *next = kept_next();
    next->size = KROSSVIL_RECORD_MAX;
    kept_switch();
    lines_send_record(1000000, kept_now()->record, kept_now()->size);
    print("memory and line: ", instructions_since(value));
}

static void count_stack(const char *text, uint32_t timers)
{
    uint8_t *here = __builtin_frame_address(0), *at = &stack_bottom;
    for (uint8_t *byte = at; byte < here - 64; byte++)
        *(volatile uint8_t *)byte = PAINT;
    count_calls(text, 32, timers);
    while (*(volatile uint8_t *)at == PAINT)
        at++;
    print("stack: ", (uint32_t)(here - at));
}

_Noreturn static void leave(void)
{
    register uint32_t what __asm__("r0") = 0x18, why __asm__("r1") = 0x20026;
    __asm__ volatile("bkpt 0xAB" ::"r"(what), "r"(why));
    for (;;)
        ;
}

int main(void)
{
    lines_open();
    kept_open(1);
    TIMER1->reload = UINT32_MAX;
    TIMER1->control = TIMER_RUNS;
    count_nothing();
    count_calls("2x2: ", 2, 0);
    count_calls("8x8: ", 8, 0);
    count_stack("32x32: ", 0);
    count_stack("32x32, 4 timers: ", 4);
    count_rest();
    leave();
}

void timer0(void) {}
