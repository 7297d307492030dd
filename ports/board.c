/* What a program needs on qemu's board mps2-an385, a Cortex-M3 without an operating system: vectors, output by semihosting,
 * and the functions that a compiler may call. The library itself needs memcpy, memmove and memset alone, and
 * libgcc's division of 64 bits. */
#include <stddef.h>
#include <stdint.h>

void answers(void);
void put(const char *line, unsigned length);
void reset(void);
void fault(void);
extern uint32_t stack_top;

enum { WRITE = 4, EXIT = 0x18, DONE = 0x20026, FAILED = 0x20023 };

static void semihost(int operation, const void *argument) {
    register int r0 __asm__("r0") = operation;
    register const void *r1 __asm__("r1") = argument;
    __asm__ volatile("bkpt 0xab" : "+r"(r0) : "r"(r1) : "memory");
}

void put(const char *line, unsigned length) {
    char text[96];
    for (unsigned i = 0; i < length; i++) text[i] = line[i];
    text[length] = 0;
    semihost(WRITE, text);
}

void reset(void) {
    answers();
    semihost(EXIT, (void *)DONE);
    for (;;) {}
}

void fault(void) {
    put("fault\n", 6);
    semihost(EXIT, (void *)FAILED);
    for (;;) {}
}

/* The processor takes its stack from the first word, and what it calls at reset and at faults from the next ones. */
__attribute__((section(".vectors"), used)) static const struct {
    uint32_t *stack;
    void (*handlers[15])(void);
} vectors = { &stack_top, { reset, fault, fault, fault, fault, fault } };

void *memcpy(void *to, const void *from, size_t length);
void *memmove(void *to, const void *from, size_t length);
void *memset(void *to, int byte, size_t length);
void __aeabi_memcpy(void *to, const void *from, size_t length);
void __aeabi_memcpy4(void *to, const void *from, size_t length);
void __aeabi_memcpy8(void *to, const void *from, size_t length);
void __aeabi_memmove(void *to, const void *from, size_t length);
void __aeabi_memclr(void *to, size_t length);
void __aeabi_memclr4(void *to, size_t length);
void __aeabi_memclr8(void *to, size_t length);

void *memcpy(void *to, const void *from, size_t length) { return memmove(to, from, length); }

void *memmove(void *to, const void *from, size_t length) {
    volatile uint8_t *a = to;
    const uint8_t *b = from;
    if (to < from) for (size_t i = 0; i < length; i++) a[i] = b[i];
    else while (length--) a[length] = b[length];
    return to;
}

void *memset(void *to, int byte, size_t length) {
    volatile uint8_t *a = to;
    while (length--) a[length] = (uint8_t)byte;
    return to;
}

void __aeabi_memcpy(void *to, const void *from, size_t length) { memmove(to, from, length); }
void __aeabi_memcpy4(void *to, const void *from, size_t length) { memmove(to, from, length); }
void __aeabi_memcpy8(void *to, const void *from, size_t length) { memmove(to, from, length); }
void __aeabi_memmove(void *to, const void *from, size_t length) { memmove(to, from, length); }
void __aeabi_memclr(void *to, size_t length) { memset(to, 0, length); }
void __aeabi_memclr4(void *to, size_t length) { memset(to, 0, length); }
void __aeabi_memclr8(void *to, size_t length) { memset(to, 0, length); }
