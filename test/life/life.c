/* What holds of the library for C however long a program lives. Messages come from standard input, as test/fuzz/messages.c writes them.
 *
 *     life decode COUNT     decodes COUNT messages, one after the other and again from the first: memory stays as it was
 *     life answer COUNT     the same, whatever memory does: valgrind itself takes more and more
 *     life threads COUNT    64 threads decode one message after the other, all of them the same one: each gets the answers that one
 *                           thread got alone; COUNT is the number of decodes of all
 *     life bytes            a message of the greatest length of small limits, fed one byte at a time */
#include "../alike/reading.h"

#include <pthread.h>
#include <stdio.h>
#include <stdlib.h>
#include <string.h>
#include <unistd.h>

enum { MOST = 1 << 16, THREADS = 64, TENTHS = 10 };
static uint8_t *messages[MOST];
static ndef_size lengths[MOST];
static size_t count;

static void fail(const char *why) {
    printf("FAILED: %s\n", why);
    exit(1);
}

static void load(void) {
    uint8_t head[4];
    while (count < MOST && fread(head, 1, 4, stdin) == 4) {
        const ndef_size length = head[0] | (ndef_size)head[1] << 8;
        messages[count] = malloc(length + 1);
        if (messages[count] == NULL || fread(messages[count], 1, length, stdin) != length) fail("the messages can't be read");
        lengths[count++] = length;
    }
    if (count == 0) fail("there is no message");
}

/* The memory that the process has, in kB. */
static unsigned long resident(void) {
    unsigned long all, mine = 0;
    FILE *file = fopen("/proc/self/statm", "r");
    if (file == NULL || fscanf(file, "%lu %lu", &all, &mine) != 2) fail("/proc/self/statm can't be read");
    fclose(file);
    return mine * (unsigned long)sysconf(_SC_PAGESIZE) / 1024;
}

static struct reader *new_reader(void) {
    struct reader *reader = calloc(1, sizeof *reader);
    if (reader == NULL) fail("there is no memory");
    return reader;
}

/* The hash of the answers about one message. */
static uint64_t answers(struct reader *reader, size_t which) {
    ndef_limits limits;
    ndef_default_limits(&limits);
    reader->hash = 0;
    read_message(reader, messages[which], lengths[which], &limits);
    read_fields(reader, messages[which], lengths[which], &limits);
    return reader->hash;
}

static void decode(unsigned long long wanted, int stays) {
    struct reader *reader = new_reader();
    uint64_t *first = calloc(count, sizeof *first);
    unsigned long before = 0;
    if (first == NULL) fail("there is no memory");
    for (unsigned long long done = 0; done < wanted; done++) {
        const size_t which = (size_t)(done % count);
        const uint64_t hash = answers(reader, which);
        if (done < count) first[which] = hash;
        if (hash != first[which]) fail("a message is answered in another way than the first time");
        if (done == wanted / TENTHS) before = resident();
    }
    printf("%llu decodes, memory %lu kB after a tenth, %lu kB at the end\n", wanted, before, resident());
    if (stays && resident() > before + 256) fail("the memory grows");
    free(reader), free(first);
}

struct work {
    pthread_t thread;
    unsigned long long rounds;
    uint64_t *wanted;
    int differs;
};

/* A thread walks all messages, from the first on, so that all threads read the same ones at once. */
static void *work(void *given) {
    struct work *mine = given;
    struct reader *reader = new_reader();
    for (unsigned long long i = 0; i < mine->rounds && !mine->differs; i++)
        mine->differs = answers(reader, (size_t)(i % count)) != mine->wanted[i % count];
    free(reader);
    return NULL;
}

static void threads(unsigned long long wanted) {
    struct work all[THREADS];
    uint64_t *hashes = calloc(count, sizeof *hashes);
    struct reader *reader = new_reader();
    if (hashes == NULL) fail("there is no memory");
    for (size_t i = 0; i < count; i++) hashes[i] = answers(reader, i);
    for (int i = 0; i < THREADS; i++) {
        all[i] = (struct work){ .rounds = wanted / THREADS, .wanted = hashes, .differs = 0 };
        if (pthread_create(&all[i].thread, NULL, work, &all[i]) != 0) fail("there is no thread");
    }
    for (int i = 0; i < THREADS; i++) {
        pthread_join(all[i].thread, NULL);
        if (all[i].differs) fail("a thread gets another answer");
    }
    printf("%d threads, %llu decodes\n", THREADS, wanted / THREADS * THREADS);
    free(hashes), free(reader);
}

/* A record with type and id of 255 bytes, and a payload in pieces whose lengths have four bytes each (NDEF 1.0, 3.2). */
static ndef_size put_record(uint8_t *to, const ndef_limits *limits, int first, int last) {
    uint8_t *at = to;
    for (uint32_t piece = 0; piece < limits->chunks; piece++) {
        const uint32_t length = piece == 0 ? limits->payload - limits->chunks + 1 : 1;
        const int is_first = piece == 0, is_end = piece == limits->chunks - 1;
        *at++ = (uint8_t)((first && is_first ? 0x80 : 0) | (last && is_end ? 0x40 : 0) | (is_end ? 0 : 0x20) | (is_first ? 0x08 | 4 : 6));
        *at++ = is_first ? 255 : 0;
        for (int shift = 24; shift >= 0; shift -= 8) *at++ = (uint8_t)(length >> shift);
        if (is_first) *at++ = 255, memset(at, 'x', 510), at += 510;
        memset(at, 'p', length), at += length;
    }
    return (ndef_size)(at - to);
}

/* Each byte but the last leaves more to come; the message ends with its last one, and not before. */
static void bytes(void) {
    static uint8_t message[1 << 16];
    const ndef_limits limits = { 1000, 7, 9, 0 };
    const ndef_size most = limits.records * (6 * (ndef_size)limits.chunks + 511 + limits.payload);
    ndef_checker checker;
    ndef_checked checked;
    ndef_size length = 0;
    for (uint32_t i = 0; i < limits.records; i++) length += put_record(message + length, &limits, i == 0, i == limits.records - 1);
    if (length != most) fail("the message hasn't the greatest length");
    if (ndef_begin(&limits, &checker) != NDEF_OK) fail("the limits are refused");
    for (ndef_size i = 0; i < length; i++) {
        const uint32_t status = ndef_feed(&checker, message + i, 1, &checked);
        if (status != (i == length - 1 ? NDEF_OK : NDEF_MORE) || checked.place != i + 1) fail("a byte is answered in another way");
    }
    if (checked.records != limits.records) fail("the records are counted in another way");
    printf("%llu bytes, one at a time\n", (unsigned long long)length);
}

int main(int words, char **word) {
    const unsigned long long wanted = words > 2 ? strtoull(word[2], NULL, 10) : 0;
    if (words > 1 && strcmp(word[1], "bytes") == 0) return bytes(), 0;
    if (words != 3) return 2;
    load();
    if (strcmp(word[1], "decode") == 0) decode(wanted, 1);
    else if (strcmp(word[1], "answer") == 0) decode(wanted, 0);
    else if (strcmp(word[1], "threads") == 0) threads(wanted);
    else return 2;
    for (size_t i = 0; i < count; i++) free(messages[i]);
    return 0;
}
