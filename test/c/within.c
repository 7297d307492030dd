/* A program in C reads a poster, a request and a select by one call each, and the numbers in them: payloads laid out by RTD Smart Poster 1.0 and Connection
 * Handover 1.2, and for each record where its parts lie. What the calls answer is compared with those that read one record, too. */
#include "ndef.h"

#include <stdio.h>
#include <string.h>

#if NDEF_VERSION_MINOR >= 1

static int failed;

static void expect(int holds, const char *name, const char *what, unsigned long long at) {
    if (holds) return;
    failed++;
    printf("%s: %s, %llu\n", name, what, at);
}

enum { ITEMS = 8 };

/* A payload of a kind, and the items of its records. */
typedef struct {
    const char *name;
    uint32_t kind;
    const char *octets;
    ndef_size length;
    uint32_t records;
    ndef_item items[ITEMS];
} laid_out;

#define OCTETS(text) text, sizeof text - 1

/* A URI with a prefix, a title in English, one in UTF-16 with an id, an action, a size, a media type and an icon. */
#define POSTER "\x91\x01\x08U\x01nfc.com" "\x11\x01\x08T\x02" "enTitle" "\x19\x01\x07\x01Ti\x82" "fi\xfe\xff\0T" "\x11\x03\x01" "act\x01" \
    "\x11\x01\x04s\0\0\x27\x10" "\x11\x01\x09timage/png" "\x52\x09\x01image/png\x89"
#define REQUEST "\x12\x91\x02\x02" "cr\x12\x34" "\x51\x02\x04" "ac\x01\x01" "0\0"
#define SELECT "\x13\x91\x02\x04" "ac\x01\x01" "0\0" "\x51\x03\x05" "err\x02\0\0\x01\0"

static const laid_out TABLE[] = {
    { "poster", NDEF_KIND_SMART_POSTER, OCTETS(POSTER), 7, {
        { 0, 12, 1, NDEF_KIND_URI, 3, 1, 0, 4, 8, 1, 3, 1, 0, 0, 5, 7 },
        { 12, 24, 1, NDEF_KIND_TEXT, 15, 1, 0, 16, 8, 1, 1, 0, 17, 2, 19, 5 },
        { 24, 37, 1, NDEF_KIND_TEXT, 28, 1, 1, 30, 7, 1, 2, 0, 31, 2, 33, 4 },
        { 37, 44, 1, NDEF_KIND_ACTION, 40, 3, 0, 43, 1, 1, 0, 0, 0, 0, 0, 0 },
        { 44, 52, 1, NDEF_KIND_SIZE, 47, 1, 0, 48, 4, 1, 0, 0, 0, 0, 0, 0 },
        { 52, 65, 1, NDEF_KIND_MEDIA_TYPE, 55, 1, 0, 56, 9, 1, 0, 0, 0, 0, 0, 0 },
        { 65, 78, 2, NDEF_KIND_OTHER, 68, 9, 0, 77, 1, 1, 0, 0, 0, 0, 0, 0 } } },
    { "request", NDEF_KIND_REQUEST, OCTETS(REQUEST), 2, {
        { 1, 8, 1, NDEF_KIND_COLLISION, 4, 2, 0, 6, 2, 1, 0, 0, 0, 0, 0, 0 },
        { 8, 17, 1, NDEF_KIND_ALTERNATIVE, 11, 2, 0, 13, 4, 1, 0, 0, 0, 0, 0, 0 } } },
    { "select", NDEF_KIND_SELECT, OCTETS(SELECT), 2, {
        { 1, 10, 1, NDEF_KIND_ALTERNATIVE, 4, 2, 0, 6, 4, 1, 0, 0, 0, 0, 0, 0 },
        { 10, 21, 1, NDEF_KIND_ERROR, 13, 3, 0, 16, 5, 1, 0, 0, 0, 0, 0, 0 } } },
    { "select of no carrier", NDEF_KIND_SELECT, OCTETS("\x12"), 0, { { 0 } } },
};
enum { ROWS = sizeof TABLE / sizeof *TABLE };

static const ndef_item MARK = { 7, 7, 7, 7, 7, 7, 7, 7, 7, 7, 7, 7, 7, 7, 7, 7 };

/* The items that a call gives with this capacity; all are marked before. */
static uint32_t listed(const laid_out *it, ndef_size capacity, ndef_item *items, ndef_checked *out) {
    for (int i = 0; i < ITEMS; i++) items[i] = MARK;
    return ndef_items_within(it->kind, (const uint8_t *)it->octets, it->length, 0, out, items, capacity);
}

/* What the calls give that read one record. */
static void read_singly(const laid_out *it, const ndef_item *item) {
    const uint8_t *octets = (const uint8_t *)it->octets;
    ndef_record record;
    ndef_text_parts text;
    ndef_uri_parts uri;
    ndef_checked why;
    expect(ndef_record_at(octets, it->length, item->at, &record) == NDEF_OK && record.end == item->end && record.tnf == item->tnf, it->name, "no such record", item->at);
    expect(record.type_at == item->type_at && record.payload_at == item->payload_at && record.id_length == item->id_length, it->name, "another place", item->at);
    expect(ndef_kind(octets, it->length, &record, it->kind) == item->kind, it->name, "another kind", item->at);
    const uint8_t *payload = octets + item->payload_at;
    if (item->form == 3)
        expect(ndef_split_uri(payload, item->payload_length, 0, &uri, &why) == NDEF_OK && uri.code == item->number && item->payload_at + uri.rest_at == item->text_at,
               it->name, "another URI", item->at);
    else if (item->form)
        expect(ndef_text(payload, item->payload_length, &text, &why) == NDEF_OK && text.utf16 + 1 == item->form && item->payload_at + text.text_at == item->text_at,
               it->name, "another text", item->at);
}

static void lists(const laid_out *it) {
    ndef_item items[ITEMS];
    ndef_checked out = { 9, 9, 9 };
    expect(listed(it, ITEMS, items, &out) == NDEF_OK && out.place == it->length && out.reason == 0, it->name, "not taken", out.place);
    expect(out.records == it->records, it->name, "another number of records", out.records);
    for (uint32_t i = 0; i < it->records; i++) {
        expect(memcmp(items + i, it->items + i, sizeof *items) == 0, it->name, "another item", i);
        read_singly(it, items + i);
    }
    expect(memcmp(items + it->records, &MARK, sizeof MARK) == 0, it->name, "an item more is written", it->records);
    if (it->records == 0) return;
    expect(listed(it, it->records - 1, items, &out) == NDEF_BUFFER_TOO_SMALL && out.records == it->records && memcmp(items, &MARK, sizeof MARK) == 0, it->name,
           "one too few", out.records);
}

/* A payload that is cut, and one whose version, type or code is another, is refused as by the call that reads it whole. */
static void refused_alike(const laid_out *it, const uint8_t *octets, ndef_size length, uint32_t flags) {
    ndef_poster_parts poster;
    ndef_request_parts request;
    ndef_select_parts select;
    ndef_item items[ITEMS];
    ndef_checked out = { 9, 9, 9 }, why = { 9, 9, 9 };
    const uint32_t status = it->kind == NDEF_KIND_SMART_POSTER ? ndef_poster(octets, length, flags, &poster, &why)
        : it->kind == NDEF_KIND_REQUEST ? ndef_request(octets, length, flags, &request, &why) : ndef_select(octets, length, flags, &select, &why);
    expect(ndef_items_within(it->kind, octets, length, flags, &out, items, ITEMS) == status, it->name, "another status", length);
    if (status == NDEF_REFUSED)
        expect(out.place == why.place && out.reason == why.reason && out.records == 0, it->name, "refused elsewhere", out.place);
}

static void refuses(const laid_out *it) {
    uint8_t changed[96];
    for (ndef_size length = 0; length <= it->length; length++) refused_alike(it, (const uint8_t *)it->octets, length, 0);
    for (ndef_size at = 0; at < it->length; at++) {
        for (unsigned octet = 0; octet < 256; octet += 3) {
            memcpy(changed, it->octets, it->length);
            changed[at] = (uint8_t)octet;
            refused_alike(it, changed, it->length, octet & 1);
        }
    }
    ndef_item item = MARK;
    ndef_checked out = { 9, 9, 9 };
    for (uint32_t kind = 0; kind < 20; kind++) {
        if (kind >= NDEF_KIND_SMART_POSTER && kind <= NDEF_KIND_SELECT) continue;
        expect(ndef_items_within(kind, (const uint8_t *)it->octets, it->length, 0, &out, &item, 1) == NDEF_BAD_ARGUMENT, it->name, "another kind is taken", kind);
    }
    expect(ndef_items_within(it->kind, (const uint8_t *)it->octets, it->length, 2, &out, &item, 1) == NDEF_BAD_ARGUMENT && out.place == 9 && item.at == 7, it->name,
           "an unknown flag is taken", 2);
}

/* ---- numbers */

static const struct {
    uint32_t kind;
    const char *octets;
    ndef_size length;
    uint32_t number;
} NUMBERS[] = {
    { NDEF_KIND_ACTION, OCTETS("\0"), 0 }, { NDEF_KIND_ACTION, OCTETS("\x02"), 2 }, { NDEF_KIND_ACTION, OCTETS("\xff"), 255 },
    { NDEF_KIND_SIZE, OCTETS("\0\0\x27\x10"), 10000 }, { NDEF_KIND_SIZE, OCTETS("\xff\xfe\xfd\xfc"), 0xfffefdfc },
    { NDEF_KIND_COLLISION, OCTETS("\x12\x34"), 0x1234 }, { NDEF_KIND_COLLISION, OCTETS("\xff\xff"), 65535 },
};

static void numbers(void) {
    static const uint8_t octets[6] = { 1, 2, 3, 4, 5, 6 };
    uint32_t number;
    ndef_checked why;
    for (size_t row = 0; row < sizeof NUMBERS / sizeof *NUMBERS; row++) {
        number = 7;
        const uint32_t status = ndef_number(NUMBERS[row].kind, (const uint8_t *)NUMBERS[row].octets, NUMBERS[row].length, &number, &why);
        expect(status == NDEF_OK && number == NUMBERS[row].number, "number", "another", row);
    }
    for (uint32_t kind = 0; kind < 20; kind++) {
        const ndef_size size = kind == NDEF_KIND_ACTION ? 1 : kind == NDEF_KIND_SIZE ? 4 : kind == NDEF_KIND_COLLISION ? 2 : 0;
        for (ndef_size length = 0; length <= sizeof octets; length++) {
            if (size && length == size) continue;
            number = 7, why = (ndef_checked){ 9, 9, 9 };
            expect(ndef_number(kind, octets, length, &number, &why) == (size ? NDEF_REFUSED : NDEF_BAD_ARGUMENT) && number == 7, "number", "another length", kind);
            if (size) expect(why.place == 0 && why.records == 0 && why.reason == NDEF_REASON_DOES_NOT_FIT, "number", "another reason", why.reason);
            else expect(why.place == 9, "number", "a refusal is written", kind);
        }
    }
}

int main(void) {
    for (size_t row = 0; row < ROWS; row++) lists(TABLE + row), refuses(TABLE + row);
    numbers();
    return failed != 0;
}

#else

int main(void) { return 0; }

#endif
