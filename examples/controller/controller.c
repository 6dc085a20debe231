/* A controller: the proved library decides, and this loop gives it the events as they come. docs/CONTROLLER.md says what goes in and out,
 * why a reset at any moment neither loses nor doubles a record, and how to bring it to another board. */
#include "board.h"
#include "events.h"
#include "kept.h"
#include "krossvil.h"
#include "lines.h"
#include "table.h" /* made by the script build: table, PACE and MARK */

enum { UNITS_PER_SECOND = 100, UNIT = CLOCK_HZ / UNITS_PER_SECOND, REFUSED_LED = 0x80 };

static volatile uint32_t known_until; /* up to this time it is known what the sensor says; the clock does not pass it */

void timer0(void)
{
    TIMER0->interrupt = 1; /* clears it */
    if (kept_clock < known_until)
        kept_clock = kept_clock + 1;
}

static uint32_t live(uint32_t place) { return kept_now()->live[place]; }

static void send_last_record(void)
{
    const struct kept *now = kept_now();
    lines_send_record(now->at, now->record, now->size);
}

static void take(uint8_t tag, uint32_t time, uint32_t input)
{
    uint8_t event[EVENT_MAX], answer[KROSSVIL_LIVE_ANSWER];
    size_t size = write_event(event, tag, time, input);
    struct kept *next = kept_next();
    uint64_t code = krossvil_live(table, sizeof table, next->live, KROSSVIL_LIVE, event, size, next->record, sizeof next->record, answer,
                                  sizeof answer);
    if (code != 0) {
        LEDS = REFUSED_LED; /* and no output */
        lines_send_refusal(krossvil_number(code), krossvil_place(code));
        halt();
    }
    next->at += next->size;
    next->size = krossvil_answer(answer, KROSSVIL_LIVE_WRITTEN);
    next->output = krossvil_answer(answer, KROSSVIL_LIVE_OUTPUT);
    kept_switch(); /* a reset before this, and the event has not happened; after it, and it has, with all that it changed */
    LEDS = next->output;
    send_last_record();
}

/* Polls, tests or ticks, if that is due. PACE has for each cycle in turn how long after its start each of them is. */
static int step(void)
{
    static const uint8_t pace[][3] = { PACE }, next[] = { POLL, TEST, TICK, TICK };
    const uint8_t *due = pace[live(KROSSVIL_MEMORY_TICKS) % (sizeof pace / sizeof *pace)];
    uint32_t clock = kept_clock, phase = live(KROSSVIL_MEMORY_PHASE);
    if (clock < live(KROSSVIL_MEMORY_START) + due[phase < 2 ? phase : 2])
        return 0;
    take(next[phase], clock, 0);
    return 1;
}

/* Lets the clock run until the time of a line, and does what is due on the way. It has stood, so that a whole unit begins. */
static void run_until(uint32_t time)
{
    TIMER0->value = UNIT;
    known_until = time;
    for (uint32_t clock = 0; clock < time;) {
        clock = kept_clock;
        while (step())
            ;
        if (clock < time)
            sleep_while(&kept_clock, clock);
    }
}

int main(void)
{
    kept_open(MARK);
    LEDS = kept_now()->output;
    lines_open();
    if (live(KROSSVIL_MEMORY_STAGE) != 0)
        send_last_record(); /* it may have been half out */
    TIMER0->reload = UNIT - 1;
    TIMER0->control = TIMER_RUNS | TIMER_INTERRUPTS;
    INTERRUPTS_ENABLE = 1u << TIMER0_INTERRUPT;
    for (uint32_t from = live(KROSSVIL_MEMORY_TIME); live(KROSSVIL_MEMORY_STAGE) != 2;) {
        struct line line = lines_next(from);
        if (live(KROSSVIL_MEMORY_STAGE) == 0)
            take(OPENING, 0, line.input);
        run_until(line.time);
        if (line.ends)
            take(END, line.time, 0);
        else if (line.input != live(KROSSVIL_MEMORY_INPUT))
            take(CHANGE, line.time, line.input);
        from = line.time + 1;
    }
    halt();
}
