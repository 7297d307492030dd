/* What programs with tests of their own share: each prints what does not hold, and counts it. Include it after ndef.h. */
#ifndef EXPECT_H
#define EXPECT_H

#include <stdio.h>
#include <string.h>

static int failed;

static void expect(int holds, const char *what) {
    if (!holds) failed++, printf("%s\n", what);
}

/* Whether what a call wrote is this text. */
static inline int is(const uint8_t *buffer, ndef_size count, const char *text, ndef_size length) {
    return count == length && memcmp(buffer, text, length) == 0;
}

#endif
