/* A program in C reads a handover and all its references by one call: payloads and messages laid out by Connection Handover 1.2, and handovers of
 * chance, of which the calls that read one part say the same. */
#include "ndef.h"

#include <stddef.h>
#include <stdio.h>
#include <stdlib.h>
#include <string.h>

#if NDEF_VERSION_MINOR >= 1

enum { ITEMS = 70000, LINKS = 100, PARTS = 256, NAMES = 40 };

static ndef_reference_item items[ITEMS], marked;
static ndef_checked why;
static uint8_t message[200000], payload[100000], inner[100000];
static ndef_size message_length, payload_length;
static unsigned long linked;
static int failed;

static void expect(int holds, const char *what) {
    if (holds) return;
    if (failed++ > 9) exit(1);
    printf("%s: payload ", what);
    for (ndef_size i = 0; i < payload_length; i++) printf("%02x", payload[i]);
    printf(", message ");
    for (ndef_size i = 0; i < message_length; i++) printf("%02x", message[i]);
    puts("");
}

/* ---- laid out by the standard */

/* A version, an alternative carrier with two auxiliary references, of which one is empty, another carrier, and an error. */
#define SELECT "\x13" "\x91\x02\x07" "ac\x02\x01" "a\x02\x01" "b\0" "\x11\x02\x04" "ac\x03\x01" "b\0" "\x51\x03\x02" "err\x01\x05"
/* Its record, two with one id, and one with the other. */
#define MESSAGE "\x91\x02\x1e" "Hs" SELECT "\x1a\x03\0\x01" "a/bb" "\x1a\x03\0\x01" "a/bb" "\x5a\x03\0\x01" "a/ba"
#define REQUEST "\x12\x91\x02\x02" "cr\x12\x34\x51\x02\x04" "ac\x01\x01" "0\0"

static const ndef_reference_item OF_SELECT[] = {
    { 0, 0, 6, 7, 8, 1, 3, 51, 2, 1 },
    { 0, 1, 6, 7, 11, 1, 1, 35, 2, 1 },
    { 0, 2, 6, 7, 13, 0, 0, 0, 2, 0 },
    { 1, 0, 18, 4, 20, 1, 1, 35, 3, 1 },
};

static void take(const char *octets, ndef_size length, const char *bytes, ndef_size bytes_length) {
    memcpy(payload, octets, payload_length = length);
    memcpy(message, bytes, message_length = bytes_length);
}

static uint32_t read_all(uint32_t kind, uint32_t flags, ndef_handover_parts *out, ndef_size capacity) {
    return ndef_handover_items(kind, payload, payload_length, flags, message, message_length, out, &why, items, capacity);
}

static void select_is_read(void) {
    static const ndef_handover_parts parts = { 2, 4, 29, 1, 1, 3, 0, 1, 1 };
    ndef_handover_parts out = { 9, 9, 9, 9, 9, 9, 9, 9, 9 };
    take(SELECT, sizeof SELECT - 1, MESSAGE, sizeof MESSAGE - 1);
    expect(read_all(NDEF_KIND_SELECT, 0, &out, ITEMS) == NDEF_OK && memcmp(&out, &parts, offsetof(ndef_handover_parts, error) + sizeof out.error) == 0, "the select");
    expect(memcmp(items, OF_SELECT, sizeof OF_SELECT) == 0, "the references of the select");
    message_length = 0;
    expect(read_all(NDEF_KIND_SELECT, 0, &out, 4) == NDEF_OK && items[0].at == 8 && !items[0].has_record && !items[0].record_at, "no message");
    memset(items, 1, sizeof *items), out.references = 9;
    expect(read_all(NDEF_KIND_SELECT, 0, &out, 3) == NDEF_BUFFER_TOO_SMALL && out.references == 4 && items[0].at == marked.at, "three of four");
}

static void request_is_read(void) {
    static const ndef_reference_item one = { 0, 0, 13, 4, 15, 1, 0, 0, 1, 0 };
    ndef_handover_parts out = { 9, 9, 9, 9, 9, 9, 9, 9, 9 };
    take(REQUEST, sizeof REQUEST - 1, "\xd0\0\0", 3);
    expect(read_all(NDEF_KIND_REQUEST, 0, &out, 1) == NDEF_OK && out.collision == 0x1234 && out.minor == 2 && out.carriers == 1 && !out.has_error, "the request");
    expect(memcmp(items, &one, sizeof one) == 0, "the reference of the request");
}

static void bad_is_answered(void) {
    ndef_handover_parts out = { 9, 9, 9, 9, 9, 9, 9, 9, 9 };
    take(REQUEST, sizeof REQUEST - 1, "\x90\0\0", 3);
    expect(read_all(NDEF_KIND_REQUEST, 0, &out, 1) == NDEF_BAD_ARGUMENT && out.major == 9, "a message without an end");
    message_length = 0;
    expect(read_all(NDEF_KIND_SMART_POSTER, 0, &out, 1) == NDEF_BAD_ARGUMENT && out.major == 9, "a poster");
    expect(read_all(NDEF_KIND_REQUEST, 2, &out, 1) == NDEF_BAD_ARGUMENT && out.major == 9, "a flag");
    payload[0] = 0x22;
    expect(read_all(NDEF_KIND_REQUEST, 0, &out, 1) == NDEF_REFUSED && why.place == 0 && out.major == 9, "another version");
}

/* ---- of chance */

static uint64_t seed = 0x9e3779b97f4a7c15u;
static uint8_t names[NAMES][255];
static ndef_size name_lengths[NAMES];

static uint32_t chance(uint32_t n) {
    seed ^= seed << 13, seed ^= seed >> 7, seed ^= seed << 17;
    return (uint32_t)((seed >> 20) % n);
}

/* Ids of three letters that are mostly alike, one as long as may be, and the empty one. */
static void make_names(void) {
    for (int i = 0; i < NAMES; i++) {
        name_lengths[i] = i == 39 ? 0 : i == 38 ? 255 : 1 + (ndef_size)i % 3;
        for (int j = 0; j < 255; j++) names[i][j] = (uint8_t)(i < 38 ? "abc"[(i >> (j & 7)) % 3] : 'z');
    }
}

static ndef_size put_record(uint8_t *to, const char *type, uint32_t tnf, int name, ndef_size length, uint32_t flags, uint32_t chunk) {
    const ndef_writing how = { tnf, flags, chunk };
    ndef_size count = 0;
    if (ndef_write_record((const uint8_t *)type, strlen(type), names[name], name_lengths[name], inner, length, &how, to, 100000, &count) != NDEF_OK) abort();
    return count;
}

static ndef_size put_name(ndef_size at, int name) {
    inner[at] = (uint8_t)name_lengths[name];
    memcpy(inner + at + 1, names[name], name_lengths[name]);
    return at + 1 + name_lengths[name];
}

static ndef_size make_carrier(void) {
    const uint32_t more = chance(3) ? 0 : chance(5);
    inner[0] = (uint8_t)chance(256);
    ndef_size at = put_name(1, (int)chance(8));
    inner[at++] = (uint8_t)more;
    for (uint32_t i = 0; i < more; i++) at = put_name(at, (int)chance(NAMES));
    return at;
}

/* One record within a handover: mostly an alternative carrier. */
static ndef_size put_inner(uint8_t *to, uint32_t flags) {
    static const uint8_t error[] = { 2, 0, 0, 1, 0 };
    if (chance(4) == 0) return put_record(to, "x", 1 + chance(4), 39, chance(5), flags, 0);
    if (chance(6) == 0) return memcpy(inner, error, sizeof error), put_record(to, "err", 1, 39, sizeof error, flags, 0);
    return put_record(to, "ac", 1, chance(5) ? 39 : 1, make_carrier(), flags | (chance(4) ? 0 : (uint32_t)NDEF_WRITE_LONG), 0);
}

static void make_payload(uint32_t kind, uint32_t most) {
    const uint32_t count = chance(most);
    payload[0] = (uint8_t)(0x10 | chance(16)), payload_length = 1;
    if (kind == NDEF_KIND_REQUEST)
        memcpy(inner, "\1\2", 2), payload_length += put_record(payload + 1, "cr", 1, 39, 2, NDEF_WRITE_FIRST | (count ? 0 : (uint32_t)NDEF_WRITE_LAST), 0);
    for (uint32_t i = 0; i < count; i++)
        payload_length += put_inner(payload + payload_length, (payload_length == 1 ? (uint32_t)NDEF_WRITE_FIRST : 0) | (i + 1 == count ? (uint32_t)NDEF_WRITE_LAST : 0));
}

static void make_message(uint32_t most) {
    const uint32_t count = 1 + chance(most);
    message_length = 0;
    for (uint32_t i = 0; i < count; i++)
        message_length += put_record(message + message_length, "a/b", 2, chance(4) ? (int)chance(NAMES) : 39, 8,
                                     (i ? 0 : (uint32_t)NDEF_WRITE_FIRST) | (i + 1 == count ? (uint32_t)NDEF_WRITE_LAST : 0), chance(6) ? 0 : 2);
}

/* Now and then an octet is another, or the end is missing. */
static ndef_size spoil(uint8_t *octets, ndef_size length) {
    if (chance(6) == 0) octets[chance((uint32_t)length)] ^= (uint8_t)(1u << chance(8));
    return chance(10) ? length : chance((uint32_t)length + 1);
}

static int has_message(void) {
    ndef_record record = { 0, 0, 0, 0, 0, 0, 0, 0, 0, 0, 0, 0 };
    while (!record.last)
        if (ndef_record_at(message, message_length, record.end, &record) != NDEF_OK) return 0;
    return 1;
}

/* The record to which a reference refers, as it is found by its id. */
static void record_is_found(const ndef_reference_item *item, int whole) {
    ndef_record found;
    const uint32_t status = whole ? ndef_find_id(message, message_length, 0, payload + item->at, item->length, &found) : (uint32_t)NDEF_END;
    expect(item->has_record == (status == NDEF_OK), "a record that is there");
    expect(item->record_at == (status == NDEF_OK ? found.at : 0) && (item->has_record || item->record_index == 0), "where it is");
    linked += item->has_record;
}

/* The references of a carrier, as other calls give them; their number. */
static ndef_size carrier_is_read(const ndef_record *record, const ndef_reference_item *item, ndef_size carrier, int whole) {
    static ndef_part parts[PARTS];
    ndef_alternative_parts alternative;
    ndef_size count = 0;
    const uint8_t *octets = payload + 1 + record->payload_at;
    if (ndef_alternative(octets, record->payload_length, &alternative, &why) != NDEF_OK) abort();
    if (ndef_references(octets, record->payload_length, parts, PARTS, &count) != NDEF_OK) abort();
    for (ndef_size i = 0; i < count; i++, item++) {
        expect(item->carrier == carrier && item->number == i && item->power == alternative.power, "the carrier of a reference");
        expect(item->carrier_at == 1 + record->payload_at && item->carrier_length == record->payload_length, "where the carrier is");
        expect(item->at == item->carrier_at + parts[i].at && item->length == parts[i].length, "where a reference is");
        record_is_found(item, whole);
    }
    return count;
}

static void links_are_items(const ndef_handover_parts *out) {
    static ndef_link links[LINKS];
    const ndef_reference_item *item = items;
    ndef_size count = 0;
    if (ndef_links(message, message_length, payload, payload_length, links, LINKS, &count) != NDEF_OK) abort();
    expect(count == out->carriers, "the number of links");
    for (ndef_size i = 0; i < out->references; i++, item++)
        if (item->number == 0)
            expect(links[item->carrier].has_record == item->has_record && links[item->carrier].record_index == item->record_index, "a link");
}

static void references_are_read(uint32_t kind, const ndef_handover_parts *out, int whole) {
    ndef_record record = { 0, 0, 0, 0, 0, 0, 0, 0, 0, 0, 0, 0 };
    ndef_size count = 0, carriers = 0;
    record.last = payload_length == 1;
    while (!record.last) {
        if (ndef_record_at(payload + 1, payload_length - 1, record.end, &record) != NDEF_OK) abort();
        if (ndef_kind(payload + 1, payload_length - 1, &record, kind) == NDEF_KIND_ALTERNATIVE)
            count += carrier_is_read(&record, items + count, carriers++, whole);
    }
    expect(count == out->references && carriers == out->carriers, "the number of references");
    expect(memcmp(items + count, &marked, sizeof marked) == 0, "those after them");
}

static void parts_are_read(const ndef_handover_parts *out, const ndef_request_parts *request, const ndef_select_parts *select) {
    expect(out->major == 1 && out->minor == (request->major ? request->minor : select->minor), "the version");
    expect(out->carriers == (request->major ? request->carriers : select->carriers) && out->collision == request->collision, "the carriers and the number");
    expect(out->has_error == select->has_error && out->error == select->error, "the error");
    expect(out->detail_at == select->detail_at && out->detail_length == select->detail_length, "the data of the error");
}

static void handover_is_read(uint32_t kind, uint32_t flags) {
    ndef_request_parts request = { 0, 0, 0, 0 };
    ndef_select_parts select = { 0, 0, 0, 0, 0, 0, 0 };
    ndef_handover_parts out = { 9, 9, 9, 9, 9, 9, 9, 9, 9 };
    ndef_checked wanted = { 7, 7, 7 };
    const uint32_t status = kind == NDEF_KIND_REQUEST ? ndef_request(payload, payload_length, flags, &request, &wanted)
                                                      : ndef_select(payload, payload_length, flags, &select, &wanted);
    why.place = why.records = why.reason = 7;
    memset(items, 1, 400 * sizeof *items);
    const uint32_t answer = read_all(kind, flags, &out, ITEMS);
    if (message_length > 0 && !has_message()) {
        expect(answer == NDEF_BAD_ARGUMENT && out.major == 9, "bytes that begin with no message");
        return;
    }
    expect(answer == status && why.place == wanted.place && why.reason == wanted.reason, "the status");
    if (status != NDEF_OK) {
        expect(out.major == 9 && memcmp(items, &marked, sizeof marked) == 0, "what is refused");
        return;
    }
    parts_are_read(&out, &request, &select);
    references_are_read(kind, &out, message_length > 0);
    if (message_length > 0) links_are_items(&out);
}

int main(int count, char **words) {
    const long rounds = count > 1 ? atol(words[1]) : 1000;
    memset(&marked, 1, sizeof marked);
    select_is_read();
    request_is_read();
    bad_is_answered();
    make_names();
    for (long i = 0; i < rounds && !failed; i++) {
        const uint32_t kind = chance(2) ? NDEF_KIND_REQUEST : NDEF_KIND_SELECT, most = chance(20) ? 7 : 60;
        make_payload(kind, most);
        make_message(chance(20) ? 7 : 60);
        payload_length = spoil(payload, payload_length);
        message_length = spoil(message, message_length);
        handover_is_read(chance(9) ? kind : (uint32_t)(NDEF_KIND_REQUEST + NDEF_KIND_SELECT) - kind, chance(2));
    }
    if (linked < (unsigned long)rounds / 4) printf("only %lu references have a record\n", linked), failed++;
    return failed > 0;
}
#else
int main(void) { return 0; }
#endif
