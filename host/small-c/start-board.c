/* A program on a board of the emulator's, with no system: mps2-an385 and mps2-an386 (Cortex-M), virt (RISC-V). It prints and ends by the
 * emulator's calls for debuggers (semihosting). WORDS: those of its command line, as strings. board.ld says where all stands. */
#include "start.h"
#include <stdint.h>
#include <stdlib.h>
#include <ucontext.h>

enum { WRITE0 = 0x04, EXIT_EXTENDED = 0x20, APPLICATION_EXIT = 0x20026 };

extern uint32_t stack_top;
int main(int count, char **words);
_Noreturn void begin(void);

#ifdef __riscv

static void call(uint32_t number, const void *what)
{
    register uint32_t called __asm__("a0") = number;
    register const void *first __asm__("a1") = what;
    __asm__ volatile(".balign 16\n .option push\n .option norvc\n slli x0, x0, 0x1f\n ebreak\n srai x0, x0, 7\n .option pop"
                     : "+r"(called) : "r"(first) : "memory");
}

/* A trap ends the program. */
__attribute__((naked, aligned(4))) static void fault(void)
{
    __asm__("la sp, stack_top\n li a0, 4\n j end");
}

__attribute__((naked, section(".start"))) void start(void);
void start(void)
{
    __asm__("la sp, stack_top\n la t0, %0\n csrw mtvec, t0\n j begin" : : "i"(fault));
}

/* call_on(top, call): with the stack there. */
__asm__(".globl call_on\n call_on:\n addi sp, sp, -16\n sw ra, 12(sp)\n sw s1, 8(sp)\n mv s1, sp\n mv sp, a0\n jalr a1\n mv sp, s1\n"
        " lw ra, 12(sp)\n lw s1, 8(sp)\n addi sp, sp, 16\n ret");

#else

static void call(uint32_t number, const void *what)
{
    register uint32_t called __asm__("r0") = number;
    register const void *first __asm__("r1") = what;
    __asm__ volatile("bkpt 0xAB" : "+r"(called) : "r"(first) : "memory");
}

static void fault(void)
{
    end(4);
}

void start(void);
void start(void)
{
#ifdef __ARM_FP
    *(volatile uint32_t *)0xE000ED88 |= 0xFu << 20; /* the floating-point unit is switched on */
    __asm__ volatile("dsb\n isb");
#endif
    begin();
}

__attribute__((section(".start"), used)) static void *const vectors[16] = { &stack_top, start, fault, fault, fault, fault, fault };

__asm__(".thumb_func\n .globl call_on\n call_on:\n push {r4, lr}\n mov r4, sp\n mov sp, r0\n blx r1\n mov sp, r4\n pop {r4, pc}");

#endif

void put_out(char *text, size_t size)
{
    text[size] = 0;
    call(WRITE0, text);
}

void end(int status)
{
    const uint32_t reason[] = { APPLICATION_EXIT, (uint32_t)status };
    for (;;)
        call(EXIT_EXTENDED, reason);
}

void begin(void)
{
    static char *words[] = { "program", WORDS, NULL };
    exit(main((int)(sizeof words / sizeof *words) - 1, words));
}
