/* The divisions that compilers leave to a library on processors of 32 bits. */
#include <stdint.h>

#if __SIZEOF_POINTER__ == 4

/* By a number of 16 bits: digit by digit, of 16 bits each. */
static uint64_t divided_by_small(uint64_t number, uint32_t by, uint64_t *rest)
{
    uint32_t high = (uint32_t)(number >> 32), low = (uint32_t)number;
    uint32_t middle = high % by << 16 | low >> 16;
    uint32_t last = middle % by << 16 | (low & 0xFFFF);
    *rest = last % by;
    return (uint64_t)(high / by) << 32 | (uint64_t)(middle / by) << 16 | last / by;
}

/* Bit by bit, from the highest that can be. */
static uint64_t divided(uint64_t number, uint64_t by, uint64_t *rest)
{
    uint64_t result = 0;
    if (by == 0)
        __builtin_trap();
    if (by <= 0xFFFF)
        return divided_by_small(number, (uint32_t)by, rest);
    for (int k = number < by ? -1 : __builtin_clzll(by) - __builtin_clzll(number); k >= 0; k--)
        if (number >= by << k) {
            number -= by << k;
            result |= (uint64_t)1 << k;
        }
    *rest = number;
    return result;
}

#ifdef __riscv

uint64_t __udivdi3(uint64_t number, uint64_t by);
uint64_t __umoddi3(uint64_t number, uint64_t by);

uint64_t __udivdi3(uint64_t number, uint64_t by)
{
    uint64_t rest;
    return divided(number, by, &rest);
}

uint64_t __umoddi3(uint64_t number, uint64_t by)
{
    uint64_t rest;
    divided(number, by, &rest);
    return rest;
}

#else

uint64_t __aeabi_uidivmod(uint32_t number, uint32_t by);
uint64_t divided_for_arm(uint64_t number, uint64_t by, uint64_t *rest);

/* The result in the first register, the rest in the second: as a number of 64 bits comes back. */
uint64_t __aeabi_uidivmod(uint32_t number, uint32_t by)
{
    return (uint64_t)(number % by) << 32 | number / by;
}

uint64_t divided_for_arm(uint64_t number, uint64_t by, uint64_t *rest)
{
    return divided(number, by, rest);
}

/* The result in the first two registers, the rest in the next two. */
__attribute__((naked)) void __aeabi_uldivmod(void);
void __aeabi_uldivmod(void)
{
    __asm__("push {r4, lr}\n sub sp, sp, #16\n add r12, sp, #8\n str r12, [sp]\n bl divided_for_arm\n"
            " ldr r2, [sp, #8]\n ldr r3, [sp, #12]\n add sp, sp, #16\n pop {r4, pc}");
}

#endif
#endif
