/* Whether the processor has all of x86-64-v2. The registers of these instructions are those of every x86-64, so no system has to
   allow them. */
#include <cpuid.h>

static inline int has_v2(void) {
    const unsigned wanted = bit_SSE3 | bit_SSSE3 | bit_CMPXCHG16B | bit_SSE4_1 | bit_SSE4_2 | bit_POPCNT;
    unsigned a, b, c, d;
    __cpuid(1, a, b, c, d);
    return (c & wanted) == wanted;
}
