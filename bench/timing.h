/* What the programs in C that time share: messages in files, and the least time of a call. A program includes it first. */
#define _POSIX_C_SOURCE 199309L
#include <stdint.h>
#include <stdio.h>
#include <stdlib.h>
#include <string.h>
#include <time.h>

typedef struct { const char *name; uint8_t *at; size_t length; } message;

static double now(void) {
    struct timespec at;
    clock_gettime(CLOCK_PROCESS_CPUTIME_ID, &at);
    return at.tv_sec * 1e9 + at.tv_nsec;
}

static message read_message(const char *folder, const char *name) {
    message m = {name, NULL, 0};
    char path[4096];
    FILE *file;
    snprintf(path, sizeof path, "%s/%s", folder, name);
    file = fopen(path, "rb");
    if (file == NULL || fseek(file, 0, SEEK_END) != 0) { perror(path); exit(1); }
    m.length = (size_t)ftell(file);
    m.at = malloc(m.length);
    rewind(file);
    if (m.at == NULL || fread(m.at, 1, m.length, file) != m.length) { perror(path); exit(1); }
    fclose(file);
    return m;
}

/* The nanoseconds of a call: the least of batches of a millisecond or of one call. */
static double least(uint32_t (*call)(const message *), const message *m, double milliseconds) {
    double begun = now(), best = 1e18;
    long batch = 1;
    do {
        double from = now(), took;
        for (long i = 0; i < batch; i++) call(m);
        took = now() - from;
        if (took / batch < best) best = took / batch;
        if (took < 1e6) batch *= 2;
    } while (now() - begun < milliseconds * 1e6);
    return best;
}
