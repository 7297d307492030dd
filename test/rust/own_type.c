/* own_type [MESSAGES]: random messages with temperatures, each in one chunk, some of them with octets changed, put in or left out. A checker of
 * Rattle that knows the type (own_type.rs) answers what ndef_check and then ndef_check_layout over each such record answer: a length that
 * doesn't fit is refused at the last octet of the type. */
#include "ndef.h"

#include <stdio.h>
#include <stdlib.h>
#include <string.h>

uint32_t own_refusal(const uint8_t *bytes, size_t length, uint64_t *place);

enum { MOST = 400, NAME = 16, FITS = 23 };
static uint64_t state = 88172645463325252u;
static unsigned long taken, laid, other, before, chunked;
static uint8_t message[MOST];
static size_t length;

static uint32_t below(uint32_t n) {
    state ^= state << 13;
    state ^= state >> 7;
    state ^= state << 17;
    return (uint32_t)((state >> 32) % n);
}

static void put(const void *bytes, size_t count) {
    memcpy(message + length, bytes, count);
    length += count;
}

static void put_record(uint8_t marks) {
    static const char *const names[] = { "example.com:temp", "example.com:temq", "example.com:tem", "example.com:temp2", "T" };
    const uint32_t which = below(3) ? 0 : below(5);
    const uint8_t name = (uint8_t)strlen(names[which]), size = which == 4 ? 5 : (uint8_t)(below(2) ? 2 : below(5)), has_id = !below(4), is_long = !below(4);
    const uint8_t head[] = { (uint8_t)(marks | 0x10 * !is_long | 8 * has_id | (which == 4 ? 1 : 4)), name, 0, 0, 0 };
    put(head, is_long ? 5 : 2), put(&size, 1), put("\2", has_id), put(names[which], name), put("id", has_id * 2u);
    put(which == 4 ? "\2enHi" : below(2) ? "\0\327\1\2" : "\324\20\2e", size);
}

static void change(void) {
    const size_t at = below((uint32_t)length);
    switch (below(5)) {
    case 0: message[at] = (uint8_t)below(256); break;
    case 1: message[at] ^= (uint8_t)(1u << below(8)); break;
    case 2: memmove(message + at + 1, message + at, length - at), message[at] = (uint8_t)below(8), length++; break;
    case 3: memmove(message + at, message + at + 1, length - at - 1), length -= length > 1; break;
    default: length = at + 1;
    }
}

static void make_message(void) {
    const uint32_t records = 1 + below(3);
    length = 0;
    for (uint32_t i = 0; i < records; i++) put_record((uint8_t)(0x80 * (i == 0) | 0x40 * (i + 1 == records)));
    for (uint32_t i = below(4); i > 1; i--) change();
}

/* What C answers: the check, and then each whole temperature by its layout. 0 where one is in several chunks. */
static int c_refusal(uint32_t *reason, uint64_t *place) {
    const ndef_layout_field two = { NDEF_LAYOUT_OCTETS, 2, 0 };
    ndef_limits limits;
    ndef_checked checked;
    ndef_record record;
    ndef_laid_out out;
    ndef_default_limits(&limits);
    if (ndef_check(message, length, &limits, &checked) == NDEF_BAD_ARGUMENT) return 0;
    *reason = checked.reason, *place = checked.place;
    for (ndef_size at = 0; ndef_record_at(message, checked.place, at, &record) == NDEF_OK; at = record.end) {
        if (record.tnf != NDEF_TNF_EXTERNAL || record.type_length != NAME || memcmp(message + record.type_at, "example.com:temp", NAME) != 0) continue;
        if (record.chunks > 1) return 0;
        if (ndef_check_layout(message + record.payload_at, record.payload_length, &two, 1, &out) != NDEF_REFUSED) continue;
        *reason = out.reason;
        *place = out.length_fits ? record.payload_at + out.place : record.type_at + record.type_length - 1;
        laid++;
        return 1;
    }
    return 1;
}

/* Whether the type of a temperature ends at an octet that is refused since nothing fits. */
static int ends_type(uint64_t at, uint32_t reason) {
    return reason == FITS && at + 1 >= NAME && memcmp(message + at + 1 - NAME, "example.com:temp", NAME) == 0;
}

int main(int count, char **words) {
    const unsigned long messages = count > 1 ? strtoul(words[1], NULL, 10) : 100000;
    for (unsigned long i = 0; i < messages; i++) {
        uint64_t place = 0, wanted = 0;
        uint32_t reason, why;
        make_message();
        reason = own_refusal(message, length, &place);
        if (!c_refusal(&why, &wanted)) {
            chunked++;
        } else if (reason == why && place == wanted) {
            if (reason) other++;
            else taken++;
        } else if (why && why != FITS && place < wanted && ends_type(place, reason)) {
            before++; /* The record isn't whole, so there is no payload to be checked. */
        } else {
            printf("message %lu: %u at %llu, and by C %u at %llu\n", i, reason, (unsigned long long)place, why, (unsigned long long)wanted);
            return 1;
        }
    }
    other -= laid;
    printf("%lu taken, %lu refused by the layout, %lu for other reasons, %lu before they are whole, %lu in chunks\n", taken, laid, other, before, chunked);
    return taken < messages / 20 || laid < messages / 20 || other < messages / 20;
}
