/* What the other programs leave out: references and ids of each length, parts that lie outside their bytes, as many records as there can be, and
 * payloads of more bytes than PAYLOAD_LENGTH can say (NDEF 1.0, 3.2.5). */
#define _DEFAULT_SOURCE
#include "ndef.h"

#include <stdio.h>
#include <stdlib.h>
#include <string.h>
#include <sys/mman.h>

enum { MOST = 1 << 16 };
static int failed;
static uint8_t payload[MOST], message[MOST], buffer[MOST];

static void expect(int holds, const char *what, unsigned long long first, unsigned long long second) {
    if (holds) return;
    failed++;
    if (failed < 30) printf("%s: %llu, %llu\n", what, first, second);
}

/* ---- references and ids */

/* A handover select refers to the second of three records, whose ids differ in one letter (Connection Handover 1.2). */
static void link_to(size_t length, size_t place) {
    uint8_t ids[2][255], select[600];
    const ndef_writing head = { NDEF_TNF_WELL_KNOWN, NDEF_WRITE_FIRST, 0 }, middle = { NDEF_TNF_MEDIA, 0, 0 };
    const ndef_writing last = { NDEF_TNF_MEDIA, NDEF_WRITE_LAST, 0 };
    const ndef_part reference = { 0, length };
    const ndef_alternative_writing carrier = { 0, 1, 1 };
    const ndef_select_writing how = { { 0, 0 }, 2, 0, 0 };
    ndef_size count = 0, size = 0, links_count = 0;
    ndef_link links[2];
    ndef_record found;
    memset(ids, 'i', sizeof ids);
    ids[0][place] = 'j';
    expect(ndef_write_select(&how, ids[1], length, &reference, 1, &carrier, 1, select, sizeof select, &size) == NDEF_OK, "no select", length, 0);
    uint32_t status = ndef_write_record((const uint8_t *)"Hs", 2, NULL, 0, select, size, &head, message, sizeof message, &count);
    const ndef_size first = count;
    status |= ndef_write_record((const uint8_t *)"a/b", 3, ids[0], length, NULL, 0, &middle, message + count, sizeof message - count, &size);
    count += size;
    const ndef_size second = count;
    status |= ndef_write_record((const uint8_t *)"a/b", 3, ids[1], length, NULL, 0, &last, message + count, sizeof message - count, &size);
    count += size;
    ndef_size select_size = 0;
    status |= ndef_payload(message, count, 0, buffer, sizeof buffer, &select_size);
    expect(status == NDEF_OK, "no message", length, 0);
    expect(ndef_links(message, count, buffer, select_size, links, 2, &links_count) == NDEF_OK && links_count == 1, "no link", length, place);
    expect(links[0].has_record == 1 && links[0].record_index == 2 && links[0].record_at == second, "another record is linked", length, place);
    expect(ndef_link_at(message, count, buffer, select_size, 0, &links[1]) == NDEF_OK && links[1].record_at == second, "one link differs", length, place);
    expect(ndef_find_id(message, count, 0, ids[1], length, &found) == NDEF_OK && found.at == second, "another id is found", length, place);
    expect(ndef_find_id(message, count, 0, ids[0], length, &found) == NDEF_OK && found.at == first, "the first id isn't found", length, place);
}

static void references(void) {
    for (size_t length = 1; length < 256; length++) link_to(length, 0), link_to(length, length / 2), link_to(length, length - 1);
}

/* ---- what is written of parts */

enum { TEXT_BYTES = 40 };
static const ndef_part inside = { 3, 5 };

/* Parts that reach beyond TEXT_BYTES bytes, or begin after them. */
static const ndef_part outside[] = { { 41, 0 }, { 40, 1 }, { 36, 5 }, { 0, 41 }, { 1, (ndef_size)-1 }, { (ndef_size)-1, 1 }, { (ndef_size)-1, 0 } };

static uint32_t write_poster(ndef_part uri, ndef_part media, ndef_part language, ndef_part text, ndef_part type, ndef_part data) {
    const ndef_poster_writing how = { uri, media, 1, 0, 0, 0, 0 };
    const ndef_title_writing title = { language, text, 0 };
    const ndef_icon_writing icon = { type, data };
    ndef_size count = 0;
    return ndef_write_poster((const uint8_t *)"abcdefghijklmnopqrstuvwxyzabcdefghijklmnopq", TEXT_BYTES, &how, &title, 1, &icon, 1, buffer, sizeof buffer, &count);
}

static uint32_t write_select(ndef_part data, ndef_part reference) {
    const ndef_select_writing how = { data, 2, 1, 9 };
    const ndef_alternative_writing carrier = { 0, 1, 1 };
    ndef_size count = 0;
    return ndef_write_select(&how, (const uint8_t *)"abcdefghijklmnopqrstuvwxyzabcdefghijklmnopq", TEXT_BYTES, &reference, 1, &carrier, 1, buffer, sizeof buffer, &count);
}

static void parts(void) {
    expect(write_poster(inside, inside, inside, inside, inside, inside) == NDEF_OK, "parts within the bytes are refused", 0, 0);
    expect(write_select(inside, inside) == NDEF_OK, "parts within the bytes are refused", 1, 0);
    for (size_t i = 0; i < sizeof outside / sizeof *outside; i++) {
        for (int which = 0; which < 6; which++) {
            const ndef_part *of[6] = { &inside, &inside, &inside, &inside, &inside, &inside };
            of[which] = &outside[i];
            expect(write_poster(*of[0], *of[1], *of[2], *of[3], *of[4], *of[5]) == NDEF_BAD_ARGUMENT, "a part outside is taken", i, (unsigned)which);
        }
        expect(write_select(outside[i], inside) == NDEF_BAD_ARGUMENT, "data outside are taken", i, 0);
        expect(write_select(inside, outside[i]) == NDEF_BAD_ARGUMENT, "a reference outside is taken", i, 0);
    }
}

/* The references of an alternative carrier have to be among the parts that are given: here there are two. */
static void series(void) {
    static const ndef_alternative_writing taken[] = { { 0, 1, 1 }, { 0, 2, 1 }, { 1, 1, 1 } };
    static const ndef_alternative_writing refused[] = { { 2, 1, 1 }, { 1, 2, 1 }, { 0, 3, 1 }, { 0, 0, 1 }, { 3, 1, 1 }, { (ndef_size)-1, 1, 1 },
        { (ndef_size)-1, 2, 1 }, { 1, (ndef_size)-1, 1 }, { 0, 1, 4 } };
    const ndef_part references[2] = { { 0, 1 }, { 1, 1 } };
    ndef_size count = 0;
    for (size_t i = 0; i < sizeof taken / sizeof *taken; i++)
        expect(ndef_write_request(2, 1, (const uint8_t *)"ab", 2, references, 2, &taken[i], 1, buffer, sizeof buffer, &count) == NDEF_OK,
               "references among the parts are refused", i, 0);
    for (size_t i = 0; i < sizeof refused / sizeof *refused; i++)
        expect(ndef_write_request(2, 1, (const uint8_t *)"ab", 2, references, 2, &refused[i], 1, buffer, sizeof buffer, &count) == NDEF_BAD_ARGUMENT,
               "references that aren't among the parts are taken", i, 0);
}

/* Appending demands that the last chunk of the buffer ends a message, and an id of at most 255 bytes (NDEF 1.0, 3.2.4). */
static void appended(void) {
    static uint8_t id[256];
    const ndef_writing how = { NDEF_TNF_UNKNOWN, 0, 0 };
    ndef_message_builder built = { 3, 0, 1 };
    ndef_size count = 0;
    static const uint8_t lasts[] = { 0x90, 0xb0, 0xf0 };
    for (size_t i = 0; i < sizeof lasts; i++) {
        memcpy(buffer, "\x90\0\0", 3), buffer[0] = lasts[i];
        expect(ndef_append(&built, NULL, 0, NULL, 0, NULL, 0, &how, buffer, sizeof buffer, &count) == NDEF_BAD_ARGUMENT, "an open message grows", i, 0);
    }
    memcpy(buffer, "\xd0\0\0", 3);
    expect(ndef_append_text(&built, id, 256, NULL, 0, NULL, 0, 0, buffer, sizeof buffer, &count) == NDEF_BAD_ARGUMENT, "a long id is taken", 0, 0);
    expect(ndef_append_uri(&built, id, 256, NULL, 0, buffer, sizeof buffer, &count) == NDEF_BAD_ARGUMENT, "a long id is taken", 1, 0);
    expect(ndef_append_text(&built, id, 255, NULL, 0, NULL, 0, 0, buffer, sizeof buffer, &count) == NDEF_OK, "an id of 255 bytes is refused", 0, 0);
}

static void nothing(void) {
    ndef_record record;
    expect(ndef_record_at(NULL, 0, 0, &record) == NDEF_END, "no bytes have a record", 0, 0);
    expect(ndef_find_id(NULL, 0, 0, NULL, 0, &record) == NDEF_END, "no bytes have an id", 0, 0);
    expect(ndef_find_type(NULL, 0, 0, 1, NULL, 0, &record) == NDEF_END, "no bytes have a type", 0, 0);
}

/* ---- more than there can be */

/* A select of `many` carriers, with an error or without. */
static uint32_t write_carriers(const ndef_alternative_writing *carriers, ndef_size many, uint32_t has_error) {
    const ndef_select_writing how = { { 0, 1 }, 2, has_error, 9 };
    const ndef_part reference = { 0, 1 };
    ndef_size count = 0;
    return ndef_write_select(&how, (const uint8_t *)"a", 1, &reference, 1, carriers, many, NULL, 0, &count);
}

/* A message within a payload has at most 65535 records. */
static void records(void) {
    enum { MANY = 65536 };
    uint8_t *poster = malloc(3 * MANY + 8);
    ndef_title_writing *titles = calloc(MANY, sizeof *titles);
    ndef_alternative_writing *carriers = calloc(MANY, sizeof *carriers);
    const ndef_poster_writing how = { { 0, 1 }, { 0, 0 }, 0, 0, 0, 0, 0 };
    const ndef_part reference = { 0, 1 };
    ndef_poster_parts parts;
    ndef_checked why;
    ndef_size count = 0;
    if (poster == NULL || titles == NULL || carriers == NULL) exit(3);
    for (size_t i = 0; i < MANY; i++) titles[i].language.length = 1, carriers[i] = (ndef_alternative_writing){ 0, 1, 1 };
    expect(ndef_write_poster((const uint8_t *)"a", 1, &how, titles, MANY - 1, NULL, 0, NULL, 0, &count) == NDEF_BAD_ARGUMENT, "65536 records are written", 0, 0);
    expect(ndef_write_poster((const uint8_t *)"a", 1, &how, titles, MANY - 2, NULL, 0, NULL, 0, &count) == NDEF_BUFFER_TOO_SMALL, "65535 records are refused", 0, 0);
    expect(ndef_write_request(2, 1, (const uint8_t *)"a", 1, &reference, 1, carriers, MANY - 1, NULL, 0, &count) == NDEF_BAD_ARGUMENT, "65536 records are written", 1, 0);
    expect(ndef_write_request(2, 1, (const uint8_t *)"a", 1, &reference, 1, carriers, MANY - 2, NULL, 0, &count) == NDEF_BUFFER_TOO_SMALL, "65535 records are refused", 1, 0);
    expect(write_carriers(carriers, MANY, 0) == NDEF_BAD_ARGUMENT && write_carriers(carriers, MANY - 1, 0) == NDEF_BUFFER_TOO_SMALL, "carriers of a select", 0, 0);
    expect(write_carriers(carriers, MANY - 1, 1) == NDEF_BAD_ARGUMENT && write_carriers(carriers, MANY - 2, 1) == NDEF_BUFFER_TOO_SMALL, "carriers and an error", 0, 0);
    for (size_t most = MANY - 1; most <= MANY; most++) {
        memcpy(poster, "\x91\1\2U\0a", 6);
        for (size_t i = 1; i < most; i++) memcpy(poster + 3 + 3 * i, i + 1 == most ? "\x50\0\0" : "\x10\0\0", 3);
        const uint32_t status = ndef_poster(poster, 3 + 3 * most, 0, &parts, &why);
        expect(most < MANY ? status == NDEF_OK : status == NDEF_REFUSED && why.reason == NDEF_REASON_TOO_MANY_RECORDS, "records are counted in another way", most, why.place);
    }
    free(poster), free(titles), free(carriers);
}

/* Texts and URIs of more bytes than 16384, by the calls that read one payload (RTD Text 1.0, 3.2; RTD URI 1.0, 3.2), and in a smart poster. */
static void long_ones(void) {
    enum { LETTERS = 20000 };
    static const char https[] = "https://";
    static uint8_t poster[2 * LETTERS + 100];
    const ndef_writing first = { NDEF_TNF_WELL_KNOWN, NDEF_WRITE_FIRST, 0 }, last = { NDEF_TNF_WELL_KNOWN, NDEF_WRITE_LAST, 0 };
    ndef_checked why = { 7, 7, 7 };
    ndef_text_parts text = { 0, 0, 0, 0, 0 };
    ndef_uri_parts uri = { 0, 0, 0 };
    ndef_poster_parts parts;
    ndef_icon icon;
    ndef_part part;
    ndef_size count = 0, title = 0, whole = 0;
    int same = 1;
    memset(payload, 'a', sizeof payload), memcpy(payload, "\2en", 3);
    expect(ndef_text(payload, 3 + LETTERS, &text, &why) == NDEF_OK && text.language_at == 1 && text.language_length == 2 && text.text_at == 3 && text.text_length == LETTERS
           && !text.utf16, "a long text isn't read", text.text_at, text.text_length);
    expect(ndef_text_in_utf8(payload, 3 + LETTERS, buffer, sizeof buffer, &count, &why) == NDEF_OK && count == LETTERS, "a long text isn't written", count, 0);
    for (size_t i = 0; i < LETTERS; i++) same &= buffer[i] == 'a';
    expect(ndef_write_record((const uint8_t *)"T", 1, NULL, 0, payload, 3 + LETTERS, &first, poster, sizeof poster, &title) == NDEF_OK, "no long title", title, 0);
    payload[0] = 4, payload[1] = payload[2] = 'a';
    expect(ndef_uri(payload, 1 + LETTERS, 0, buffer, sizeof buffer, &count, &why) == NDEF_OK && count == 8 + LETTERS && memcmp(buffer, https, 8) == 0,
           "a long URI isn't read", count, 0);
    for (size_t i = 0; i < LETTERS; i++) same &= buffer[8 + i] == 'a';
    expect(same, "a long text or URI is another", 0, 0);
    expect(ndef_split_uri(payload, 1 + LETTERS, 0, &uri, &why) == NDEF_OK && uri.code == 4 && uri.rest_at == 1 && uri.rest_length == LETTERS, "a long URI isn't split",
           uri.rest_at, uri.rest_length);
    expect(ndef_write_record((const uint8_t *)"U", 1, NULL, 0, payload, 1 + LETTERS, &last, poster + title, sizeof poster - title, &count) == NDEF_OK, "no long URI", count, 0);
    whole = title + count;
    expect(ndef_poster(poster, whole, 0, &parts, &why) == NDEF_OK && why.place == 7, "a long poster isn't read", whole, why.place);
    expect(ndef_title(poster, whole, (const uint8_t *)"en", 2, &text) == NDEF_OK && text.text_at == 10 && text.text_length == LETTERS, "a long title isn't found", text.text_at, 0);
    expect(ndef_poster_titles(poster, whole, &text, 1, &count) == NDEF_OK && count == 1, "a long title isn't given", count, 0);
    expect(ndef_poster_icons(poster, whole, &icon, 1, &count) == NDEF_OK && count == 0, "a poster of long records has an icon", count, 0);
    expect(ndef_poster_media_type(poster, whole, &part) == NDEF_END, "a poster of long records has a media type", 0, 0);
}

/* A message is built on from what these calls wrote alone: from no other length or place of its last record (include/ndef.h). */
static void built_on(void) {
    const ndef_writing plain = { NDEF_TNF_EXTERNAL, 0, 0 }, wide = { NDEF_TNF_EXTERNAL, NDEF_WRITE_LONG, 0 }, reserved = { 6, 0, 0 };
    ndef_message_builder state = { 0, 0, 0 };
    ndef_size count = 0;
    const uint8_t *b = (const uint8_t *)"b", *i = (const uint8_t *)"i";
    expect(ndef_append(&state, b, 1, i, 1, b, 1, &plain, buffer, sizeof buffer, &count) == NDEF_OK, "a record isn't appended", 0, 0);
    expect(ndef_append(&state, b, 1, i, 1, b, 1, &wide, buffer, sizeof buffer, &count) == NDEF_OK, "a long head isn't appended", 0, 0);
    expect(ndef_append(&state, b, 1, i, 1, b, 1, &plain, buffer, sizeof buffer, &count) == NDEF_OK && count == 24 && state.last_at == 17, "a last record isn't appended",
           count, state.last_at);
    for (ndef_size length = 1; length <= count; length++)
        for (ndef_size at = 0; at <= count; at++) {
            ndef_message_builder other = { length, at, state.records };
            if (length == state.length && at == state.last_at) continue;
            expect(ndef_append(&other, b, 1, NULL, 0, NULL, 0, &plain, buffer, sizeof buffer, &count) == NDEF_BAD_ARGUMENT && other.length == length,
                   "a message is built on from elsewhere", length, at);
        }
    expect(ndef_append(&state, NULL, 0, NULL, 0, NULL, 0, &reserved, buffer, sizeof buffer, &count) == NDEF_BAD_ARGUMENT, "the type name format 6 is appended", 0, 0);
}

/* The data of an error have one byte for the reasons 1 and 3, four for 2 (Connection Handover 1.2, Error record). */
static void error_data(void) {
    static const size_t fitting[] = { 0, 1, 4, 1 };
    for (uint32_t reason = 1; reason < 4; reason++)
        for (size_t length = 0; length < 7; length++) {
            const ndef_select_writing how = { { 0, length }, 2, 1, reason };
            ndef_size count = 0;
            const uint32_t status = ndef_write_select(&how, (const uint8_t *)"abcdefg", 7, NULL, 0, NULL, 0, buffer, sizeof buffer, &count);
            expect(length == fitting[reason] ? status == NDEF_OK && count == 8 + length && buffer[7] == reason && memcmp(buffer + 8, "abcdefg", length) == 0
                                             : status == NDEF_BAD_ARGUMENT, "an error with other data is written", reason, length);
        }
}

/* The sentences ask what a check of payloads asks, so no limits with NDEF_OPAQUE (include/ndef.h). */
static void sentences(void) {
    static const char *const proxmarks[] = { "[=] 04 | 03 10 D1 01\n", "[+] 04 | 03 10 D1 01\n", "[usb] pm3 --> hf mfu dump\n" };
    static const char octets[] = "4294967295 octets of the payload are missing.";
    ndef_limits limits = { 4294967295u, 1, 1, 0 };
    ndef_found found = { 0, 0, 0 };
    ndef_size count = 77;
    for (size_t i = 0; i < 3; i++)
        expect(ndef_find_hint((const uint8_t *)proxmarks[i], strlen(proxmarks[i]), &limits, &found) == NDEF_OK && found.hint == NDEF_HINT_PROXMARK, "a line of a Proxmark isn't known",
               i, found.hint);
    expect(ndef_refusal_message((const uint8_t *)"\xc5\0\xff\xff\xff\xff", 6, &limits, buffer, sizeof buffer, &count) == NDEF_OK && count == sizeof octets - 1
           && memcmp(buffer, octets, count) == 0, "the longest payload is missing in another way", count, 0);
    count = 77;
    for (limits.flags = NDEF_OPAQUE; limits.flags <= (NDEF_OPAQUE | NDEF_STANDARD); limits.flags++) {
        expect(ndef_refusal_message((const uint8_t *)"a", 1, &limits, buffer, sizeof buffer, &count) == NDEF_BAD_ARGUMENT, "a refusal has a sentence with a flag", limits.flags, 0);
        expect(ndef_hint((const uint8_t *)"a", 1, &limits, buffer, sizeof buffer, &count) == NDEF_BAD_ARGUMENT, "a hint has a sentence with a flag", limits.flags, 0);
        expect(ndef_find_hint((const uint8_t *)"a", 1, &limits, &found) == NDEF_BAD_ARGUMENT, "a hint is found with a flag", limits.flags, 0);
    }
    static const ndef_limits wrong[] = { { 0, 1, 1, 0 }, { 1, 0, 1, 0 }, { 1, 65536, 1, 0 }, { 1, 1, 0, 0 }, { 1, 1, 65536, 0 }, { 1, 1, 1, 4 } };
    for (size_t i = 0; i < sizeof wrong / sizeof *wrong; i++) {
        expect(ndef_refusal_message((const uint8_t *)"a", 1, &wrong[i], buffer, sizeof buffer, &count) == NDEF_BAD_ARGUMENT, "a refusal has a sentence with a wrong limit", i, 0);
        expect(ndef_hint((const uint8_t *)"a", 1, &wrong[i], buffer, sizeof buffer, &count) == NDEF_BAD_ARGUMENT, "a hint has a sentence with a wrong limit", i, 0);
        expect(ndef_find_hint((const uint8_t *)"a", 1, &wrong[i], &found) == NDEF_BAD_ARGUMENT, "a hint is found with a wrong limit", i, 0);
    }
    expect(count == 77, "a wrong flag or limit leaves something", count, 0);
}

/* PAYLOAD_LENGTH has four octets, so no payload has 4294967296 bytes: each is refused at its first octet, and none is written. */
static void lengths(void) {
    const ndef_size most = 4294967295u;
    const ndef_writing how = { NDEF_TNF_UNKNOWN, NDEF_WRITE_FIRST | NDEF_WRITE_LAST, 0 };
    ndef_checked why[10];
    ndef_part part;
    ndef_text_parts text;
    ndef_uri_parts uri;
    ndef_carrier_parts carrier;
    ndef_error_parts error;
    ndef_alternative_parts alternative;
    ndef_poster_parts poster;
    ndef_request_parts request;
    ndef_select_parts select;
    const ndef_layout_field rest = { NDEF_LAYOUT_REST, 0, 0 };
    ndef_laid_out laid;
    ndef_size count = 0;
    if (sizeof(size_t) < 8) return;
    uint8_t *bytes = mmap(NULL, (size_t)(most + 4096), PROT_READ, MAP_PRIVATE | MAP_ANONYMOUS | MAP_NORESERVE, -1, 0);
    if (bytes == MAP_FAILED) return;
    const uint32_t status[] = { ndef_text(bytes, most + 1, &text, &why[0]), ndef_split_uri(bytes, most + 1, 0, &uri, &why[1]),
        ndef_carrier(bytes, most + 1, &carrier, &why[2]), ndef_error(bytes, most + 1, &error, &why[3]),
        ndef_alternative(bytes, most + 1, &alternative, &why[4]), ndef_poster(bytes, most + 1, 0, &poster, &why[5]),
        ndef_request(bytes, most + 1, 0, &request, &why[6]), ndef_select(bytes, most + 1, 0, &select, &why[7]),
        ndef_text_in_utf8(bytes, most + 1, NULL, 0, &count, &why[8]), ndef_uri(bytes, most + 1, 0, NULL, 0, &count, &why[9]) };
    for (size_t i = 0; i < 10; i++)
        expect(status[i] == NDEF_REFUSED && why[i].place == 0 && why[i].reason == NDEF_REASON_DOES_NOT_FIT, "a payload is too long", i, why[i].place);
    expect(ndef_reference(bytes, most + 1, 0, &part) == NDEF_BAD_ARGUMENT, "a long carrier has a reference", 0, 0);
    expect(ndef_references(bytes, most + 1, NULL, 0, &count) == NDEF_BAD_ARGUMENT, "a long carrier has references", 0, 0);
    expect(ndef_links(bytes, 0, bytes, most + 1, NULL, 0, &count) == NDEF_BAD_ARGUMENT, "a long handover has links", 0, 0);
    expect(ndef_title(bytes, most + 1, NULL, 0, &text) == NDEF_BAD_ARGUMENT, "a long poster has a title", 0, 0);
    expect(ndef_poster_titles(bytes, most + 1, NULL, 0, &count) == NDEF_BAD_ARGUMENT, "a long poster has titles", 0, 0);
    expect(ndef_poster_icons(bytes, most + 1, NULL, 0, &count) == NDEF_BAD_ARGUMENT, "a long poster has icons", 0, 0);
    expect(ndef_poster_media_type(bytes, most + 1, &part) == NDEF_BAD_ARGUMENT, "a long poster has a media type", 0, 0);
    expect(ndef_check_layout(bytes, most + 1, &rest, 1, &laid) == NDEF_REFUSED && laid.place == 0 && laid.length_fits == 0, "a long payload has a layout", laid.place, 0);
    expect(ndef_write_record(NULL, 0, NULL, 0, bytes, most + 1, &how, NULL, 0, &count) == NDEF_BAD_ARGUMENT, "a long payload is written", 0, 0);
    expect(ndef_write_record(NULL, 0, NULL, 0, bytes, most, &how, NULL, 0, &count) == NDEF_BUFFER_TOO_SMALL && count == most + 6, "the longest payload isn't written", 0, 0);
    expect(ndef_write_error(9, bytes, most, buffer, sizeof buffer, &count) == NDEF_BAD_ARGUMENT, "a long error is written", 0, 0);
    expect(ndef_write_error(9, bytes, most - 1, NULL, 0, &count) == NDEF_BUFFER_TOO_SMALL && count == most, "the longest error isn't written", 0, 0);
    expect(ndef_write_carrier(1, bytes, 1, bytes, most - 2, NULL, 0, &count) == NDEF_BAD_ARGUMENT, "a long carrier is written", 0, 0);
    expect(ndef_write_carrier(1, bytes, 1, bytes, most - 3, NULL, 0, &count) == NDEF_BUFFER_TOO_SMALL && count == most, "the longest carrier isn't written", 0, 0);
    /* Icons of one place, of four gigabytes together. */
    const ndef_poster_writing of = { { 0, 1 }, { 0, 0 }, 0, 0, 0, 0, 0 };
    const ndef_icon_writing icons[2] = { { { 0, 1 }, { 0, most / 2 } }, { { 0, 1 }, { 0, most / 2 } } };
    expect(ndef_write_poster(bytes, most, &of, NULL, 0, icons, 2, NULL, 0, &count) == NDEF_BAD_ARGUMENT, "a long poster is written", 0, 0);
    const ndef_select_writing long_data = { { 0, most }, 2, 1, 9 };
    expect(ndef_write_select(&long_data, bytes, most, NULL, 0, NULL, 0, NULL, 0, &count) == NDEF_BAD_ARGUMENT, "a select with a long error is written", 0, 0);
    munmap(bytes, (size_t)(most + 4096));
    /* A record of two chunks of two gigabytes, more than a record in one piece can have. */
    bytes = mmap(NULL, (size_t)(most + 4096), PROT_READ | PROT_WRITE, MAP_PRIVATE | MAP_ANONYMOUS | MAP_NORESERVE, -1, 0);
    if (bytes == MAP_FAILED) return;
    memcpy(bytes, "\xa5\0\x80\0\0\0", 6), memcpy(bytes + 6 + 2147483648u, "\x46\0\x80\0\0\0", 6);
    expect(ndef_normalize(bytes, most + 13, 0, NULL, 0, &count) == NDEF_BAD_ARGUMENT, "a record of four gigabytes is joined", 0, 0);
    munmap(bytes, (size_t)(most + 4096));
}

int main(void) {
    references(), parts(), series(), appended(), nothing(), records(), long_ones(), built_on(), error_data(), sentences(), lengths();
    return failed != 0;
}
