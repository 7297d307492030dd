/* messages FOLDER: writes the messages that all programs of bench/ read, each to a file of its name. */
#include <stdint.h>
#include <stdio.h>
#include <stdlib.h>
#include <string.h>

typedef struct { uint8_t *at; size_t length, buffer; } buffer;

static void put(buffer *b, const void *bytes, size_t length) {
    if (b->length + length > b->buffer) {
        b->buffer = 2 * (b->length + length) + 64;
        b->at = realloc(b->at, b->buffer);
        if (b->at == NULL) abort();
    }
    memcpy(b->at + b->length, bytes, length);
    b->length += length;
}

static void put_octet(buffer *b, unsigned octet) { uint8_t byte = (uint8_t)octet; put(b, &byte, 1); }

static void fill(buffer *b, unsigned octet, size_t count) { while (count-- > 0) put_octet(b, octet); }

/* A record with these bits of the header octet. A short payload has one octet of length. */
static void record(buffer *b, unsigned header, const char *type, buffer payload) {
    int is_short = payload.length < 256;
    put_octet(b, header | (is_short ? 0x10 : 0));
    put_octet(b, (unsigned)strlen(type));
    for (int shift = is_short ? 0 : 24; shift >= 0; shift -= 8) put_octet(b, (unsigned)(payload.length >> shift) & 255);
    put(b, type, strlen(type));
    put(b, payload.at, payload.length);
    free(payload.at);
}

static buffer of(const void *bytes, size_t length) { buffer b = {0}; put(&b, bytes, length); return b; }

static buffer text(buffer body) {
    buffer b = of("\x02" "en", 3);
    put(&b, body.at, body.length);
    free(body.at);
    return b;
}

static buffer words(const char *body) { return text(of(body, strlen(body))); }
static buffer many(unsigned octet, size_t count) { buffer b = {0}; fill(&b, octet, count); return b; }

/* Letters of three octets, of two and of one. */
static buffer wide(size_t least) {
    buffer b = {0};
    while (b.length < least) put(&b, "\xE2\x82\xAC\xC3\xA9z", 6);
    return b;
}

static buffer uri(void) { return of("\x01" "example.com", 12); }

static buffer poster(void) {
    buffer b = {0};
    record(&b, 0x81, "U", uri());
    record(&b, 0x01, "T", words("Title"));
    record(&b, 0x41, "act", of("", 1));
    return b;
}

static void write_file(const char *folder, const char *name, buffer b) {
    char path[4096];
    FILE *file;
    snprintf(path, sizeof path, "%s/%s", folder, name);
    file = fopen(path, "wb");
    if (file == NULL || fwrite(b.at, 1, b.length, file) != b.length || fclose(file) != 0) { perror(path); exit(1); }
    free(b.at);
}

static void write_one(const char *folder, const char *name, unsigned tnf, const char *type, buffer payload) {
    buffer b = {0};
    record(&b, 0xC0 | tnf, type, payload);
    write_file(folder, name, b);
}

static void write_texts(const char *folder, const char *name, int count) {
    buffer b = {0};
    for (int i = 0; i < count; i++) record(&b, (i == 0 ? 0x80 : 0) | (i == count - 1 ? 0x40 : 0) | 1, "T", words("Hello, tag"));
    write_file(folder, name, b);
}

static void write_chunks(const char *folder, const char *name, int count) {
    buffer b = {0};
    for (int i = 0; i < count; i++) {
        put_octet(&b, 0x10 | (i == 0 ? 0x82 : 6) | (i == count - 1 ? 0x40 : 0x20));
        put_octet(&b, i == 0 ? 3 : 0);
        put_octet(&b, 240);
        if (i == 0) put(&b, "a/b", 3);
        fill(&b, 'x', 240);
    }
    write_file(folder, name, b);
}

int main(int count, char **arguments) {
    const char *folder = arguments[1];
    if (count != 2) return 2;
    write_one(folder, "hello", 1, "T", words("Hello"));
    write_one(folder, "umlauts", 1, "T", words("Gr\xC3\xBC\xC3\x9F" "e"));
    write_one(folder, "uri", 1, "U", uri());
    write_one(folder, "poster", 1, "Sp", poster());
    write_texts(folder, "records-1000", 1000);
    write_one(folder, "opaque-1M", 2, "a/b", many('x', 1000000));
    write_one(folder, "ascii-1M", 1, "T", text(many('a', 1000000)));
    write_one(folder, "wide-1M", 1, "T", text(wide(999990)));
    write_chunks(folder, "chunks-4000", 4000);
    write_texts(folder, "records-100", 100);
    write_texts(folder, "records-10000", 10000);
    write_texts(folder, "records-60000", 60000);
    write_file(folder, "cut", of("\xD1\x01\x08T\x02" "enHell", 11));
    return 0;
}
