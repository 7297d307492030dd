/* The plain reading of the format (conformance/reference.h) as C.
 *
 *   reference ROUNDS    beside the library, over random messages, some bytes of which are changed; prints 'N passed, M failed'
 *   reference -         answers the lines of standard input, bytes in hexadecimal: test/paths/lines makes conformance/paths.txt of that
 *   reference FILE      beside the library, over the lines of conformance/paths.txt */
#include "ndef.h"
#include "reference.h"
#include <stdio.h>
#include <stdlib.h>
#include <string.h>

static uint64_t state = 88172645463325252ULL;
static unsigned random_below(unsigned count) {
    state ^= state << 13; state ^= state >> 7; state ^= state << 17;
    return (unsigned)(state >> 20) % count;
}

static const char *const TYPES[] = {"T", "U", "Sp", "Hr", "Hs", "Hc", "act", "s", "t", "ac", "cr", "err", "x", "T", "U"};

/* A record's head with a type; gives where its payload begins, and in `length` where its length is. */
static unsigned put_head(uint8_t *b, unsigned n, unsigned flags, const char *type, unsigned *length) {
    unsigned size = (unsigned)strlen(type);
    b[n++] = (uint8_t)(flags | 0x11); b[n++] = (uint8_t)size; *length = n++;
    if (flags & 8) b[n++] = 0;
    memcpy(b + n, type, size);
    return n + size;
}

/* Records within a payload. */
static unsigned put_nested(uint8_t *b, unsigned n, char table) {
    unsigned count = random_below(3) + (table != 's'), at, length, size;
    for (at = 0; at < count && n < 70; at++) {
        const char *type = table == 'p' ? TYPES[random_below(9)] : table == 'r' && at == 0 ? "cr" : TYPES[9 + random_below(4)];
        n = put_head(b, n, (at == 0 ? 0x80U : 0) | (at + 1 == count ? 0x40U : 0), type, &length);
        size = type[0] == 'c' ? 2 : random_below(6); b[length] = (uint8_t)size;
        while (size--) b[n++] = (uint8_t)(random_below(3) ? random_below(4) : random_below(256));
    }
    return n;
}

static unsigned put_message(uint8_t *b) {
    unsigned n = 0, at, count = 1 + random_below(3), length, from, size;
    for (at = 0; at < count && n < 40; at++) {
        const char *type = TYPES[random_below(15)];
        int chunk = random_below(8) == 0, is_handover = type[0] == 'H' && type[1] != 'c';
        n = put_head(b, n, (at == 0 ? 0x80U : 0) | (at + 1 == count && !chunk ? 0x40U : 0) | (chunk ? 0x20U : 0) | (random_below(8) ? 0 : 8U), type, &length);
        from = n;
        if (is_handover) b[n++] = 0x12;
        if (type[0] == 'S' || is_handover) n = put_nested(b, n, type[1]);
        else for (size = random_below(10); size; size--) b[n++] = (uint8_t)(random_below(2) ? random_below(4) : random_below(3) ? 'a' : random_below(256));
        b[length] = (uint8_t)(n - from);
    }
    for (at = random_below(3); at; at--) b[random_below(n)] = (uint8_t)(random_below(2) ? random_below(256) : b[random_below(n)]);
    return random_below(4) ? n : random_below(n + 1);
}

/* Whether the library answers as the plain reading does. */
static int agrees(const uint8_t *b, unsigned n, const ndef_limits *limits) {
    ndef_checked checked;
    uint32_t status = ndef_check(b, n, limits, &checked);
    ref_answer wanted = ref_check(b, n, limits->payload, limits->records, limits->chunks, limits->flags);
    unsigned at;
    if (status == wanted.status && checked.place == wanted.place && checked.records == wanted.records && checked.reason == wanted.reason) return 1;
    printf("FAILED: ");
    for (at = 0; at < n; at++) printf("%02x", b[at]);
    printf(": %u at %lu, reason %u; the plain reading: %u at %lu, reason %u\n", (unsigned)status, (unsigned long)checked.place, (unsigned)checked.reason,
           (unsigned)wanted.status, (unsigned long)wanted.place, (unsigned)wanted.reason);
    return 0;
}

static int random_messages(long rounds) {
    long left, failed = 0;
    for (left = rounds; left; left--) {
        uint8_t b[128];
        ndef_limits limits;
        unsigned n = put_message(b);
        ndef_default_limits(&limits);
        limits.flags = random_below(4);
        if (!random_below(4)) limits.payload = 1 + random_below(20);
        if (!random_below(4)) limits.records = 1 + random_below(3);
        if (!random_below(4)) limits.chunks = 1 + random_below(3);
        failed += !agrees(b, n, &limits);
    }
    printf("%ld passed, %ld failed\n", rounds - failed, failed);
    return failed != 0;
}

/* The bytes of a line, or -1 where it is a remark. */
static int bytes_of(const char *line, uint8_t *b) {
    int n = 0, taken, column;
    unsigned octet;
    if (*line == '#') return -1;
    for (column = 0; column < 7 && strchr(line, '|'); column++) line = strchr(line, '|') + 1;
    for (; sscanf(line, " %2x%n", &octet, &taken) == 1; line += taken) b[n++] = (uint8_t)octet;
    return n;
}

static void answer(const uint8_t *b, int n, char *text) {
    ref_answer a = ref_check(b, (uint64_t)n, 1048576, 1024, 4096, 0);
    if (a.status == 0) sprintf(text, "accepted %lu", (unsigned long)a.place);
    else sprintf(text, "refused %lu %u", (unsigned long)a.place, (unsigned)a.reason);
}

static int lines_of(const char *name) {
    char line[400], text[64];
    long passed = 0, failed = 0;
    int is_answering = !strcmp(name, "-"), n;
    FILE *file = is_answering ? stdin : fopen(name, "r");
    ndef_limits limits;
    ndef_default_limits(&limits);
    if (!file) { perror(name); return 2; }
    while (fgets(line, sizeof line, file)) {
        uint8_t b[200];
        if ((n = bytes_of(line, b)) < 0) continue;
        answer(b, n, text);
        if (is_answering) { printf("%.*s%s | %s\n", 2 * n, line, n ? "" : "-", text); continue; }
        if (agrees(b, (unsigned)n, &limits) && strstr(line, text)) passed++; else { failed++; printf("FAILED: %s", line); }
    }
    if (!is_answering) printf("%ld passed, %ld failed\n", passed, failed);
    return failed != 0;
}

int main(int count, char **words) {
    if (count != 2) return 2;
    return *words[1] >= '0' && *words[1] <= '9' ? random_messages(atol(words[1])) : lines_of(words[1]);
}
