/* What the NDK's own library has for machines of 32 bits: numbers of 64 bits divided and shifted. bindings/java/android/pack
 * compiles it in where there is no NDK. */
#include <stdint.h>

#if defined(__arm__) || defined(__i386__)
uint64_t simbegyor_divided(uint64_t number, uint64_t divisor, uint64_t *rest);

/* The quotient, bit by bit from the highest on, and the rest. Shifts by 1 and by 63 need no function. */
__attribute__((visibility("hidden"))) uint64_t simbegyor_divided(uint64_t number, uint64_t divisor, uint64_t *rest) {
    uint64_t quotient = 0;
    *rest = 0;
    for (int bit = 0; bit < 64; bit++) {
        *rest = *rest << 1 | number >> 63;
        number <<= 1;
        quotient <<= 1;
        if (*rest >= divisor) {
            *rest -= divisor;
            quotient |= 1;
        }
    }
    return quotient;
}

/* The shifts by 0 to 63 bits, of the two halves. */
static uint64_t shifted_right(uint64_t number, int count) {
    const uint32_t high = (uint32_t)(number >> 32), low = (uint32_t)number;
    if (count == 0) return number;
    if (count >= 32) return high >> (count - 32);
    return (uint64_t)(high >> count) << 32 | (high << (32 - count) | low >> count);
}

static uint64_t shifted_left(uint64_t number, int count) {
    const uint32_t high = (uint32_t)(number >> 32), low = (uint32_t)number;
    if (count == 0) return number;
    if (count >= 32) return (uint64_t)(low << (count - 32)) << 32;
    return (uint64_t)(high << count | low >> (32 - count)) << 32 | low << count;
}
#endif

#if defined(__arm__)
uint64_t __aeabi_llsr(uint64_t number, int count) { return shifted_right(number, count); }
uint64_t __aeabi_llsl(uint64_t number, int count) { return shifted_left(number, count); }

/* A processor of ARMv7-A may lack the division of 32 bits too. */
uint32_t __aeabi_uidiv(uint32_t number, uint32_t divisor) {
    uint64_t rest;
    return (uint32_t)simbegyor_divided(number, divisor, &rest);
}

/* By the ARM ABI the quotient is in the first register and the rest in the next: those of a number of 64 bits. */
uint64_t __aeabi_uidivmod(uint32_t number, uint32_t divisor) {
    uint64_t rest;
    const uint32_t quotient = (uint32_t)simbegyor_divided(number, divisor, &rest);
    return rest << 32 | quotient;
}

/* By the ARM ABI the quotient is in the first two registers, and the rest in the next two. */
__attribute__((naked)) void __aeabi_uldivmod(void) {
    __asm__("push {r6, lr}\n\tsub sp, sp, #16\n\tadd r6, sp, #8\n\tstr r6, [sp]\n\tbl simbegyor_divided\n\t"
            "ldr r2, [sp, #8]\n\tldr r3, [sp, #12]\n\tadd sp, sp, #16\n\tpop {r6, pc}");
}
#elif defined(__i386__)
uint64_t __lshrdi3(uint64_t number, int count) { return shifted_right(number, count); }
uint64_t __ashldi3(uint64_t number, int count) { return shifted_left(number, count); }
uint64_t __udivdi3(uint64_t number, uint64_t divisor) {
    uint64_t rest;
    return simbegyor_divided(number, divisor, &rest);
}
uint64_t __umoddi3(uint64_t number, uint64_t divisor) {
    uint64_t rest;
    simbegyor_divided(number, divisor, &rest);
    return rest;
}
#endif
