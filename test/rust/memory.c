/* What core of Rust calls and a machine without a C library hasn't, beside the functions of ports/board.c. Loops that a compiler leaves alone. */
#include <stddef.h>

int memcmp(const void *first, const void *second, size_t length);

int memcmp(const void *first, const void *second, size_t length) {
    const volatile unsigned char *a = first, *b = second;
    for (size_t i = 0; i < length; i++)
        if (a[i] != b[i]) return a[i] < b[i] ? -1 : 1;
    return 0;
}

#ifdef __arm__
void __aeabi_memset(void *to, size_t length, int byte);

void __aeabi_memset(void *to, size_t length, int byte) {
    volatile unsigned char *at = to;
    for (size_t i = 0; i < length; i++) at[i] = (unsigned char)byte;
}
#else
void *memcpy(void *to, const void *from, size_t length);
void *memmove(void *to, const void *from, size_t length);
void *memset(void *to, int byte, size_t length);

void *memmove(void *to, const void *from, size_t length) {
    volatile unsigned char *at = to;
    const volatile unsigned char *of = from;
    if ((size_t)to < (size_t)from)
        for (size_t i = 0; i < length; i++) at[i] = of[i];
    else
        for (size_t i = length; i > 0; i--) at[i - 1] = of[i - 1];
    return to;
}

void *memcpy(void *to, const void *from, size_t length) { return memmove(to, from, length); }

void *memset(void *to, int byte, size_t length) {
    volatile unsigned char *at = to;
    for (size_t i = 0; i < length; i++) at[i] = (unsigned char)byte;
    return to;
}
#endif
