/* A program under Linux. WORDS: those of its command line, as strings. */
#include "start.h"
#include <stdint.h>
#include <stdlib.h>

int main(int count, char **words);
void _start(void);

#if defined __aarch64__
#define CALL_REGISTER "x8"
#define FIRST_REGISTER "x0"
#define SECOND_REGISTER "x1"
#define THIRD_REGISTER "x2"
#define CALL "svc 0"
enum { WRITE = 64, EXIT = 93 };
#elif defined __riscv
#define CALL_REGISTER "a7"
#define FIRST_REGISTER "a0"
#define SECOND_REGISTER "a1"
#define THIRD_REGISTER "a2"
#define CALL "ecall"
enum { WRITE = 64, EXIT = 93 };
#else
#define CALL_REGISTER "r7"
#define FIRST_REGISTER "r0"
#define SECOND_REGISTER "r1"
#define THIRD_REGISTER "r2"
#define CALL "svc 0"
enum { WRITE = 4, EXIT = 1 };
#endif

static uintptr_t call(uintptr_t number, uintptr_t a, uintptr_t b, uintptr_t c)
{
    register uintptr_t called __asm__(CALL_REGISTER) = number;
    register uintptr_t first __asm__(FIRST_REGISTER) = a;
    register uintptr_t second __asm__(SECOND_REGISTER) = b;
    register uintptr_t third __asm__(THIRD_REGISTER) = c;
    __asm__ volatile(CALL : "+r"(first) : "r"(called), "r"(second), "r"(third) : "memory");
    return first;
}

void put_out(char *text, size_t size)
{
    for (size_t done = 0; done < size;) {
        uintptr_t written = call(WRITE, 1, (uintptr_t)text + done, size - done);
        if (written > size - done) /* an error */
            end(3);
        done += written;
    }
}

void end(int status)
{
    for (;;)
        call(EXIT, (uintptr_t)status, 0, 0);
}

/* The system has set the stack. */
void _start(void)
{
    static char *words[] = { "program", WORDS, NULL };
    exit(main((int)(sizeof words / sizeof *words) - 1, words));
}
