/* Writes a link and a log to an NTAG, one page of four bytes after the other. The message has more bytes than the memory for it: the log is read
 * as it is needed. An NTAG keeps a message as a Type 2 Tag does: after the octet 03 and its length, from page 4 on, and before the octet FE. */
#include "ndef.h"

#include <stdio.h>
#include <string.h>

enum { PAGE = 4, FIRST_PAGE = 4, LINES = 40, LINE = 11 };

/* All memory for the message: a page, and a part of a payload. */
static uint8_t page[PAGE], part[60];

/* Where the next byte goes. */
static struct { unsigned page, filled; } next = { FIRST_PAGE + 1, 0 };

/* What the command WRITE of the tag does. */
static void write_page(unsigned number, const uint8_t *bytes) {
    printf("page %u: %02x %02x %02x %02x\n", number, bytes[0], bytes[1], bytes[2], bytes[3]);
}

/* A line of the log, such as "07:00,20.7\n". */
static void read_line(unsigned number, uint8_t *to) {
    char line[LINE + 1];
    snprintf(line, sizeof line, "%02u:00,20.%u\n", number % 24, number % 10);
    memcpy(to, line, LINE);
}

/* Writes a record up to where more of its payload is needed, or to its end. */
static void write_part(ndef_writer *record, const char *type, const uint8_t *bytes, ndef_size length) {
    ndef_size count, begin = record->taken;
    for (;;) {
        const ndef_size at = record->taken - begin;
        if (ndef_writer_next(record, (const uint8_t *)type, strlen(type), NULL, 0, bytes + at, length - at, page + next.filled,
                             PAGE - next.filled, &count) != NDEF_OK) return;
        next.filled += (unsigned)count;
        if (next.filled < PAGE) return;
        write_page(next.page++, page);
        next.filled = 0;
    }
}

static int write_link(const char *uri) {
    const ndef_writing how = { NDEF_TNF_WELL_KNOWN, NDEF_WRITE_FIRST, 0 };
    ndef_writer record;
    ndef_size length;
    if (ndef_write_uri((const uint8_t *)uri, strlen(uri), part, sizeof part, &length) != NDEF_OK) return 0;
    if (ndef_writer_begin(&record, 1, 0, length, &how) != NDEF_OK) return 0;
    write_part(&record, "U", part, length);
    return 1;
}

static int write_log(void) {
    const ndef_writing how = { NDEF_TNF_MEDIA, NDEF_WRITE_LAST, 0 };
    ndef_writer record;
    if (ndef_writer_begin(&record, strlen("text/csv"), 0, LINES * LINE, &how) != NDEF_OK) return 0;
    for (unsigned line = 0; line < LINES; line++) {
        read_line(line, part);
        write_part(&record, "text/csv", part, LINE);
    }
    return 1;
}

int main(void) {
    static const uint8_t none[PAGE] = { 0x03, 0x00, 0xfe, 0x00 };
    /* A reader finds no message until the last page is written. */
    write_page(FIRST_PAGE, none);
    if (!write_link("https://www.example.com/log") || !write_log()) return 1;
    const unsigned length = PAGE * (next.page - FIRST_PAGE - 1) + next.filled;
    page[next.filled++] = 0xfe;
    while (next.filled < PAGE) page[next.filled++] = 0;
    write_page(next.page, page);
    /* A length of more than 254 bytes has three octets. */
    const uint8_t front[PAGE] = { 0x03, 0xff, (uint8_t)(length >> 8), (uint8_t)length };
    write_page(FIRST_PAGE, front);
    return 0;
}
