/* What holds of the library whatever bytes it is given. libFuzzer calls LLVMFuzzerTestOneInput; with -DLINES the
 * program itself reads inputs from standard input, as lines of hexadecimal digits. An input is two bytes that choose
 * how the message is read, and the message. What does not hold is printed, and the program aborts. */
#include "ndef.h"

#include <stdio.h>
#include <stdlib.h>
#include <string.h>

#define HOLDS(fact) ((fact) ? (void)0 : fail(__LINE__, #fact))

int LLVMFuzzerTestOneInput(const uint8_t *data, size_t size);

static void fail(int line, const char *fact) {
    fprintf(stderr, "line %d: %s\n", line, fact);
    abort();
}

/* ---- buffers */

/* What a call wrote to a buffer of its own, which has exactly the size that the call needs. */
struct made {
    uint32_t status;
    ndef_size length;
    uint8_t *bytes;
};

/* Memory of exactly so many bytes, so that AddressSanitizer sees what lies beside it. */
static uint8_t *filled(ndef_size size, uint8_t with) {
    uint8_t *buffer = malloc(size ? size : 1);
    HOLDS(buffer != NULL);
    memset(buffer, with, size ? size : 1);
    return buffer;
}

static int is_filled(const uint8_t *buffer, ndef_size size, uint8_t with) {
    for (ndef_size i = 0; i < size; i++)
        if (buffer[i] != with) return 0;
    return 1;
}

/* Makes a call, which names `buffer`, `size` and `count`, four times: with no room, with a buffer that is one byte short,
 * with one that is too large, and with one that is exact. */
#define MAKE(made, call) do { \
    uint8_t *buffer = NULL, *larger = NULL; \
    ndef_size size = 0, count = 0; \
    (made)->status = (call), (made)->length = count, (made)->bytes = NULL; \
    HOLDS((made)->status == NDEF_BUFFER_TOO_SMALL || count == 0); \
    if ((made)->status == NDEF_BUFFER_TOO_SMALL) { \
        HOLDS(count > 0); \
        size = (made)->length - 1, buffer = filled(size, 0x5a); \
        HOLDS((call) == NDEF_BUFFER_TOO_SMALL && count == (made)->length && is_filled(buffer, size, 0x5a)); \
        free(buffer); \
        size = (made)->length + 3, buffer = larger = filled(size, 0xc3); \
        HOLDS((call) == NDEF_OK && count == (made)->length && is_filled(buffer + count, 3, 0xc3)); \
        size = (made)->length, buffer = filled(size, 0x5a); \
        (made)->status = (call), (made)->bytes = buffer; \
        HOLDS((made)->status == NDEF_OK && count == size && memcmp(buffer, larger, size) == 0); \
        free(larger); \
    } \
} while (0)

/* Makes a call that fills an array, which names `array`, `size` and `count`, with no array, with one that is an element
 * short, and with one that is exact. `list` has the elements, NULL if there are none. */
#define LIST(list, number, call) do { \
    void *array = NULL; \
    ndef_size size = 0, count = 0; \
    const uint32_t asked = (call); \
    (list) = NULL, (number) = count; \
    HOLDS(asked == NDEF_BUFFER_TOO_SMALL || count == 0); \
    if (asked == NDEF_BUFFER_TOO_SMALL) { \
        size = (number) - 1, array = filled(size * sizeof *(list), 0x5a); \
        HOLDS((call) == NDEF_BUFFER_TOO_SMALL && count == (number) && is_filled(array, size * sizeof *(list), 0x5a)); \
        free(array); \
        size = (number), array = filled(size * sizeof *(list), 0x5a); \
        HOLDS((call) == NDEF_OK && count == (number)); \
        (list) = array; \
    } \
} while (0)

static void discard(struct made *made) { free(made->bytes); }

static int is_same(const struct made *made, const uint8_t *bytes, ndef_size length) {
    if (made->status != NDEF_OK || made->length != length) return 0;
    return length == 0 || memcmp(made->bytes, bytes, length) == 0;
}

/* Whether a part lies within so many bytes. */
static int is_within(ndef_size at, ndef_size length, ndef_size whole) { return at <= whole && length <= whole - at; }

/* ---- checks */

static int is_answer(uint32_t status, const ndef_checked *out, uint32_t checked_status, const ndef_checked *checked,
                     ndef_size length) {
    const int wants_more = checked_status == NDEF_REFUSED && checked->place == length;
    return status == (wants_more ? (uint32_t)NDEF_MORE : checked_status) && out->place == checked->place
        && out->records == checked->records && out->reason == checked->reason;
}

/* A check of all bytes and feeds of them in parts answer the same. */
static uint32_t check(const uint8_t *bytes, ndef_size length, const ndef_limits *limits, ndef_size cut,
                      ndef_checked *out) {
    ndef_checker whole, copy;
    ndef_checked fed, again;
    const uint32_t status = ndef_check(bytes, length, limits, out);
    HOLDS(status == NDEF_OK || status == NDEF_REFUSED);
    HOLDS(out->place <= length && (status == NDEF_OK ? out->records > 0 : out->records == 0));
    HOLDS((status == NDEF_OK) == (out->reason == 0));
    HOLDS((out->reason == NDEF_REASON_END_OF_INPUT) == (status == NDEF_REFUSED && out->place == length));
    memset(&whole, 0x77, sizeof whole);
    HOLDS(ndef_begin(limits, &whole) == NDEF_OK);
    copy = whole;
    uint32_t last = ndef_feed(&whole, bytes, cut, &fed);
    HOLDS(is_answer(last, &fed, ndef_check(bytes, cut, limits, &again), &again, cut));
    last = ndef_feed(&whole, bytes + cut, length - cut, &fed);
    HOLDS(is_answer(last, &fed, status, out, length));
    HOLDS(ndef_feed(&whole, NULL, 0, &again) == last && memcmp(&fed, &again, sizeof fed) == 0);
    for (ndef_size at = 0; at < length; at++) last = ndef_feed(&copy, bytes + at, 1, &fed);
    HOLDS(length == 0 || is_answer(last, &fed, status, out, length));
    return status;
}

/* ---- payloads: each is read as every type, and what is read is written and read again */

/* A record that is appended in place, twice, is what ndef_append makes of the payload that was written; with a byte too
 * few the message stays as it was. The call names `state`, `buffer`, `size` and `count`. */
#define APPENDED(type, payload, payload_length, call) do { \
    const ndef_writing how = { NDEF_TNF_WELL_KNOWN, 0, 0 }; \
    ndef_message_builder one = { 0, 0, 0 }, other = { 0, 0, 0 }; \
    const ndef_size most = 2 * (16 + (payload_length)); \
    uint8_t *buffer = filled(most, 0x5a), *same = filled(most, 0x5a); \
    for (int i = 0; i < 2; i++) { \
        ndef_message_builder *state = &one; \
        ndef_size size = most, count = 0, needed = 0; \
        HOLDS(ndef_append(&other, (const uint8_t *)(type), 1, NULL, 0, payload, payload_length, &how, same, most, \
                          &needed) == NDEF_OK); \
        size = needed - 1; \
        HOLDS((call) == NDEF_BUFFER_TOO_SMALL && count == needed && one.records == (uint32_t)i); \
        size = needed; \
        HOLDS((call) == NDEF_OK && count == needed && memcmp(buffer, same, most) == 0); \
        HOLDS(one.length == other.length && one.last_at == other.last_at && one.records == other.records); \
    } \
    free(buffer), free(same); \
} while (0)

static void look_at_text(const uint8_t *payload, ndef_size length) {
    ndef_text_parts parts, again;
    ndef_checked why, other;
    struct made text, written, back;
    const uint32_t status = ndef_text(payload, length, &parts, &why);
    MAKE(&text, ndef_text_in_utf8(payload, length, buffer, size, &count, &other));
    HOLDS(text.status == status);
    if (status != NDEF_OK) {
        HOLDS(status == NDEF_REFUSED && why.place == other.place && why.reason == other.reason && why.place <= length);
        return;
    }
    HOLDS(is_within(parts.language_at, parts.language_length, length));
    HOLDS(is_within(parts.text_at, parts.text_length, length));
    HOLDS(parts.utf16 || is_same(&text, payload + parts.text_at, parts.text_length));
    for (uint32_t flags = 0; flags <= NDEF_AS_UTF16; flags++) {
        MAKE(&written, ndef_write_text(payload + parts.language_at, parts.language_length, text.bytes, text.length,
                                       flags, buffer, size, &count));
        HOLDS(written.status == NDEF_OK && ndef_text(written.bytes, written.length, &again, &why) == NDEF_OK);
        HOLDS(again.language_length == parts.language_length && again.utf16 == flags);
        APPENDED("T", written.bytes, written.length,
                 ndef_append_text(state, NULL, 0, payload + parts.language_at, parts.language_length, text.bytes,
                                  text.length, flags, buffer, size, &count));
        MAKE(&back, ndef_text_in_utf8(written.bytes, written.length, buffer, size, &count, &why));
        HOLDS(is_same(&back, text.bytes, text.length));
        discard(&written), discard(&back);
    }
    discard(&text);
}

/* The URI is the prefix and the rest. */
static void look_at_uri_parts(const uint8_t *payload, ndef_size length, uint32_t flags, const struct made *uri) {
    ndef_uri_parts parts;
    ndef_checked why;
    struct made prefix;
    HOLDS(ndef_split_uri(payload, length, flags, &parts, &why) == uri->status);
    if (uri->status != NDEF_OK) return;
    MAKE(&prefix, ndef_uri_prefix(parts.code, buffer, size, &count));
    HOLDS(prefix.status == NDEF_OK && prefix.length + parts.rest_length == uri->length);
    HOLDS(is_within(parts.rest_at, parts.rest_length, length));
    HOLDS(prefix.length == 0 || memcmp(uri->bytes, prefix.bytes, prefix.length) == 0);
    HOLDS(parts.rest_length == 0
          || memcmp(uri->bytes + prefix.length, payload + parts.rest_at, parts.rest_length) == 0);
    discard(&prefix);
}

static void look_at_uri(const uint8_t *payload, ndef_size length, uint32_t flags) {
    ndef_checked why;
    struct made uri, written, back;
    MAKE(&uri, ndef_uri(payload, length, flags, buffer, size, &count, &why));
    look_at_uri_parts(payload, length, flags, &uri);
    if (uri.status != NDEF_OK) {
        HOLDS(uri.status == NDEF_REFUSED && why.place <= length);
        return;
    }
    MAKE(&written, ndef_write_uri(uri.bytes, uri.length, buffer, size, &count));
    HOLDS(written.status == NDEF_OK && written.length <= uri.length + 1);
    APPENDED("U", written.bytes, written.length,
             ndef_append_uri(state, NULL, 0, uri.bytes, uri.length, buffer, size, &count));
    MAKE(&back, ndef_uri(written.bytes, written.length, 0, buffer, size, &count, &why));
    HOLDS(is_same(&back, uri.bytes, uri.length));
    discard(&uri), discard(&written), discard(&back);
}

static void look_at_carrier(const uint8_t *payload, ndef_size length) {
    ndef_carrier_parts parts, again;
    ndef_checked why;
    struct made written;
    if (ndef_carrier(payload, length, &parts, &why) != NDEF_OK) return;
    HOLDS(is_within(parts.type_at, parts.type_length, length) && is_within(parts.data_at, parts.data_length, length));
    MAKE(&written, ndef_write_carrier(parts.format, payload + parts.type_at, parts.type_length, payload + parts.data_at,
                                      parts.data_length, buffer, size, &count));
    HOLDS(written.status == NDEF_OK && written.length == length);
    HOLDS(memcmp(written.bytes + 1, payload + 1, length - 1) == 0);
    HOLDS(ndef_carrier(written.bytes, written.length, &again, &why) == NDEF_OK && again.format == parts.format);
    discard(&written);
}

static void look_at_alternative(const uint8_t *payload, ndef_size length) {
    ndef_part *parts;
    ndef_size number;
    ndef_alternative_parts alternative, again;
    ndef_part part;
    ndef_checked why;
    struct made written;
    LIST(parts, number, ndef_references(payload, length, array, size, &count));
    if (ndef_alternative(payload, length, &alternative, &why) != NDEF_OK) {
        HOLDS(ndef_references(payload, length, NULL, 0, &number) == NDEF_BAD_ARGUMENT);
        return;
    }
    HOLDS(number == alternative.references && alternative.power <= 3 && alternative.references >= 1 && alternative.references <= 256);
    for (uint32_t i = 0; i < alternative.references; i++) {
        HOLDS(ndef_reference(payload, length, i, &part) == NDEF_OK && is_within(part.at, part.length, length));
        HOLDS(part.at == parts[i].at && part.length == parts[i].length);
    }
    HOLDS(ndef_reference(payload, length, alternative.references, &part) == NDEF_END);
    MAKE(&written, ndef_write_alternative(alternative.power, payload, length, parts, alternative.references, buffer, size, &count));
    HOLDS(written.status == NDEF_OK && written.length <= length);
    HOLDS(memcmp(written.bytes + 1, payload + 1, written.length - 1) == 0);
    HOLDS(ndef_alternative(written.bytes, written.length, &again, &why) == NDEF_OK);
    HOLDS(alternative.power == again.power && alternative.references == again.references);
    discard(&written);
    free(parts);
}

static void look_at_error(const uint8_t *payload, ndef_size length) {
    ndef_error_parts parts;
    ndef_checked why;
    struct made written;
    if (ndef_error(payload, length, &parts, &why) != NDEF_OK) return;
    HOLDS(is_within(parts.data_at, parts.data_length, length));
    MAKE(&written, ndef_write_error(parts.reason, payload + parts.data_at, parts.data_length, buffer, size, &count));
    HOLDS(is_same(&written, payload, length));
    discard(&written);
    if (!parts.has_number) return;
    MAKE(&written, ndef_write_error_number(parts.reason, parts.number, buffer, size, &count));
    HOLDS(is_same(&written, payload, length));
    discard(&written);
}

/* The titles of a poster and its media type are the records of these types. */
static void look_at_titles(const uint8_t *payload, ndef_size length, uint32_t status) {
    ndef_text_parts *titles, text, first;
    ndef_size number, found = 0, at = 0;
    ndef_record record = { 0, 0, 0, 0, 0, 0, 0, 0, 0, 0, 0, 0 };
    ndef_checked why;
    ndef_part media = { 0, 0 };
    LIST(titles, number, ndef_poster_titles(payload, length, array, size, &count));
    HOLDS(status == NDEF_OK || number == 0);
    const uint32_t answer = ndef_poster_media_type(payload, length, &media);
    const uint32_t there = ndef_find_type(payload, length, 0, NDEF_TNF_WELL_KNOWN, (const uint8_t *)"t", 1, &record);
    HOLDS(answer == (status == NDEF_OK ? there : (uint32_t)NDEF_BAD_ARGUMENT));
    HOLDS(answer != NDEF_OK || (media.at == record.payload_at && media.length == record.payload_length));
    record.last = status != NDEF_OK;
    while (!record.last
           && ndef_find_type(payload, length, at, NDEF_TNF_WELL_KNOWN, (const uint8_t *)"T", 1, &record) == NDEF_OK) {
        const uint8_t *part = payload + record.payload_at;
        HOLDS(found < number && ndef_text(part, record.payload_length, &text, &why) == NDEF_OK);
        const ndef_text_parts *title = titles + found++;
        HOLDS(title->language_at == record.payload_at + text.language_at);
        HOLDS(title->text_at == record.payload_at + text.text_at && title->text_length == text.text_length);
        HOLDS(title->language_length == text.language_length && title->utf16 == text.utf16);
        HOLDS(ndef_title(payload, length, part + text.language_at, text.language_length, &first) == NDEF_OK);
        HOLDS(first.language_at <= title->language_at && first.language_length == text.language_length);
        at = record.end;
    }
    HOLDS(found == number);
    free(titles);
}

/* The icons of a poster are its records of a media type. */
static void look_at_icons(const uint8_t *payload, ndef_size length, uint32_t status) {
    ndef_icon *icons;
    ndef_size number, found = 0, at = 0;
    ndef_record record;
    LIST(icons, number, ndef_poster_icons(payload, length, array, size, &count));
    HOLDS(status == NDEF_OK || number == 0);
    while (status == NDEF_OK && ndef_record_at(payload, length, at, &record) == NDEF_OK) {
        if (record.tnf == NDEF_TNF_MEDIA) {
            HOLDS(found < number);
            const ndef_icon *icon = icons + found++;
            HOLDS(icon->media_type.at == record.type_at && icon->media_type.length == record.type_length);
            HOLDS(icon->data.at == record.payload_at && icon->data.length == record.payload_length);
        }
        at = record.end;
    }
    HOLDS(found == number);
    free(icons);
}

/* A poster is written again in one call, its titles as their octets of UTF-8, with its URI behind the payload; and read
 * back as the same. */
static void write_poster(const uint8_t *payload, ndef_size length, const ndef_poster_parts *parts) {
    ndef_poster_parts again;
    ndef_text_parts *titles, *back;
    ndef_size number, others;
    ndef_part media = { 0, 0 }, other = { 0, 0 };
    ndef_checked why;
    struct made uri, written;
    MAKE(&uri, ndef_uri(payload + parts->uri_at, parts->uri_length, 0, buffer, size, &count, &why));
    LIST(titles, number, ndef_poster_titles(payload, length, array, size, &count));
    const uint32_t has_media = ndef_poster_media_type(payload, length, &media) == NDEF_OK;
    uint8_t *bytes = filled(length + uri.length, 0);
    memcpy(bytes, payload, length);
    if (uri.length > 0) memcpy(bytes + length, uri.bytes, uri.length);
    ndef_title_writing *said = (ndef_title_writing *)filled((number + 1) * sizeof *said, 0);
    int are_utf8 = 1;
    for (ndef_size i = 0; i < number; i++) {
        said[i].language.at = titles[i].language_at, said[i].language.length = titles[i].language_length;
        said[i].text.at = titles[i].text_at, said[i].text.length = titles[i].text_length;
        said[i].utf16 = (uint32_t)i % 2;
        are_utf8 &= !titles[i].utf16;
    }
    const ndef_icon_writing icon = { { 0, 1 }, { length, uri.length } };
    const ndef_poster_writing how = { { length, uri.length }, media, has_media, parts->has_action, parts->action,
                                      parts->has_size, parts->size };
    if (are_utf8) {
        MAKE(&written, ndef_write_poster(bytes, length + uri.length, &how, said, number, &icon, 1, buffer, size, &count));
        HOLDS(written.status == NDEF_OK && ndef_poster(written.bytes, written.length, 0, &again, &why) == NDEF_OK);
        HOLDS(again.has_action == parts->has_action && again.action == parts->action);
        HOLDS(again.has_size == parts->has_size && again.size == parts->size);
        LIST(back, others, ndef_poster_titles(written.bytes, written.length, array, size, &count));
        HOLDS(others == number && (number == 0 || back[number - 1].utf16 == said[number - 1].utf16));
        HOLDS((ndef_poster_media_type(written.bytes, written.length, &other) == NDEF_OK) == has_media);
        HOLDS(other.length == media.length);
        free(back), discard(&written);
    }
    free(said), free(bytes), free(titles), discard(&uri);
}

static void look_at_poster(const uint8_t *payload, ndef_size length, uint32_t flags) {
    ndef_poster_parts parts;
    ndef_checked why;
    ndef_size count;
    uint8_t byte;
    const uint32_t read = ndef_poster(payload, length, flags, &parts, &why);
    if (flags == NDEF_STANDARD) look_at_titles(payload, length, read), look_at_icons(payload, length, read);
    if (read != NDEF_OK) return;
    HOLDS(is_within(parts.uri_at, parts.uri_length, length));
    const uint32_t status = ndef_uri(payload + parts.uri_at, parts.uri_length, flags, &byte, 0, &count, &why);
    HOLDS(status == NDEF_OK || status == NDEF_BUFFER_TOO_SMALL);
    HOLDS(parts.has_action <= 1 && (parts.has_action || parts.action == 0));
    HOLDS(parts.has_size <= 1 && (parts.has_size || parts.size == 0));
    if (flags == 0) write_poster(payload, length, &parts);
}

/* Of a call that begins at the front each time, at most about this number are made for one input. */
enum { STEPS = 64 };

/* The links of a handover that stands in the message: as many as it has carriers. */
static void look_at_links(const uint8_t *bytes, ndef_size length, const uint8_t *payload, ndef_size payload_length,
                          ndef_size carriers) {
    ndef_link link, *links;
    ndef_record record;
    ndef_alternative_parts alternative;
    ndef_part id;
    ndef_checked why;
    ndef_size number;
    LIST(links, number, ndef_links(bytes, length, payload, payload_length, array, size, &count));
    const ndef_size apart = 1 + carriers / STEPS;
    for (ndef_size i = 0;; i = i + apart < carriers ? i + apart : carriers) {
        const uint32_t status = ndef_link_at(bytes, length, payload, payload_length, i, &link);
        if (status == NDEF_BAD_ARGUMENT) HOLDS(links == NULL);
        if (status == NDEF_BAD_ARGUMENT) return;
        HOLDS(number == carriers && status == (i < carriers ? NDEF_OK : NDEF_END));
        if (status == NDEF_END) break;
        HOLDS(link.carrier_at == links[i].carrier_at && link.carrier_length == links[i].carrier_length);
        HOLDS(link.record_index == links[i].record_index && link.record_at == links[i].record_at);
        HOLDS(link.has_record == links[i].has_record);
        HOLDS(is_within(link.carrier_at, link.carrier_length, payload_length));
        HOLDS(ndef_alternative(payload + link.carrier_at, link.carrier_length, &alternative, &why) == NDEF_OK);
        HOLDS(ndef_reference(payload + link.carrier_at, link.carrier_length, 0, &id) == NDEF_OK);
        if (!link.has_record) continue;
        HOLDS(ndef_record_at(bytes, length, link.record_at, &record) == NDEF_OK && record.id_length == id.length);
        HOLDS(memcmp(bytes + record.id_at, payload + link.carrier_at + id.at, id.length) == 0);
    }
    free(links);
}

/* The alternative carriers of a handover, whose references lie in its payload. */
struct carriers {
    ndef_alternative_writing *alternatives;
    ndef_part *references;
    ndef_size number, all;
};

static struct carriers carriers_of(const uint8_t *payload, ndef_size length, ndef_size number) {
    struct carriers found = { NULL, NULL, 0, 0 };
    ndef_record record;
    ndef_alternative_parts alternative;
    ndef_checked why;
    found.alternatives = (ndef_alternative_writing *)filled((number + 1) * sizeof *found.alternatives, 0);
    found.references = (ndef_part *)filled((256 * number + 1) * sizeof *found.references, 0);
    for (ndef_size at = 0; found.number < number; at = record.end, found.number++) {
        HOLDS(ndef_find_type(payload + 1, length - 1, at, NDEF_TNF_WELL_KNOWN, (const uint8_t *)"ac", 2, &record) == NDEF_OK);
        const uint8_t *carrier = payload + 1 + record.payload_at;
        ndef_part *own;
        ndef_size many;
        HOLDS(ndef_alternative(carrier, record.payload_length, &alternative, &why) == NDEF_OK);
        LIST(own, many, ndef_references(carrier, record.payload_length, array, size, &count));
        found.alternatives[found.number].first = found.all;
        found.alternatives[found.number].references = many;
        found.alternatives[found.number].power = alternative.power;
        for (ndef_size i = 0; i < many; i++, found.all++) {
            found.references[found.all].at = 1 + record.payload_at + own[i].at;
            found.references[found.all].length = own[i].length;
        }
        free(own);
    }
    return found;
}

/* A request and a select are written again in one call, and read back as the same. */
static void write_request(const uint8_t *payload, ndef_size length, const ndef_request_parts *parts) {
    const struct carriers c = carriers_of(payload, length, parts->carriers);
    ndef_request_parts again;
    ndef_checked why;
    struct made written;
    MAKE(&written, ndef_write_request(parts->minor, parts->collision, payload, length, c.references, c.all,
                                      c.alternatives, c.number, buffer, size, &count));
    HOLDS(written.status == NDEF_OK && ndef_request(written.bytes, written.length, 0, &again, &why) == NDEF_OK);
    HOLDS(again.carriers == parts->carriers && again.minor == parts->minor && again.collision == parts->collision);
    discard(&written), free(c.alternatives), free(c.references);
}

static void write_select(const uint8_t *payload, ndef_size length, const ndef_select_parts *parts) {
    const struct carriers c = carriers_of(payload, length, parts->carriers);
    const ndef_select_writing how = { { parts->detail_at, parts->detail_length }, parts->minor, parts->has_error,
                                      parts->error };
    ndef_select_parts again;
    ndef_checked why;
    struct made written;
    MAKE(&written, ndef_write_select(&how, payload, length, c.references, c.all, c.alternatives, c.number, buffer, size,
                                     &count));
    HOLDS(written.status == NDEF_OK && ndef_select(written.bytes, written.length, 0, &again, &why) == NDEF_OK);
    HOLDS(again.carriers == parts->carriers && again.minor == parts->minor && again.has_error == parts->has_error);
    HOLDS(again.error == parts->error && again.detail_length == parts->detail_length);
    discard(&written), free(c.alternatives), free(c.references);
}

static void look_at_handover(const uint8_t *bytes, ndef_size length, const uint8_t *payload, ndef_size payload_length,
                             uint32_t flags) {
    ndef_request_parts request;
    ndef_select_parts select;
    ndef_checked why;
    struct made written;
    const int is_request = ndef_request(payload, payload_length, flags, &request, &why) == NDEF_OK;
    const int is_select = ndef_select(payload, payload_length, flags, &select, &why) == NDEF_OK;
    if (is_request) look_at_links(bytes, length, payload, payload_length, request.carriers);
    if (is_request && flags == 0) write_request(payload, payload_length, &request);
    if (is_select && flags == 0) write_select(payload, payload_length, &select);
    if (is_select) {
        HOLDS(is_within(select.detail_at, select.detail_length, payload_length));
        if (!is_request) look_at_links(bytes, length, payload, payload_length, select.carriers);
        MAKE(&written, ndef_write_handover(NDEF_SELECT, select.major, select.minor, payload + 1, payload_length - 1,
                                           buffer, size, &count));
        HOLDS(is_same(&written, payload, payload_length) || (flags && written.status == NDEF_BAD_ARGUMENT));
        discard(&written);
    }
    if (is_request && flags == 0) {
        MAKE(&written, ndef_write_handover(NDEF_REQUEST, request.major, request.minor, payload + 1, payload_length - 1,
                                           buffer, size, &count));
        HOLDS(is_same(&written, payload, payload_length));
        discard(&written);
    }
}

/* ---- records */

static void look_at_payload(const uint8_t *bytes, ndef_size length, const uint8_t *payload, ndef_size payload_length) {
    look_at_text(payload, payload_length);
    look_at_carrier(payload, payload_length);
    look_at_alternative(payload, payload_length);
    look_at_error(payload, payload_length);
    for (uint32_t flags = 0; flags <= NDEF_STANDARD; flags++) {
        look_at_uri(payload, payload_length, flags);
        look_at_poster(payload, payload_length, flags);
        look_at_handover(bytes, length, payload, payload_length, flags);
    }
}

/* Whether a record has the type, id and payload that its type name format allows; in bytes that aren't a message a walk
 * meets others. */
static int can_be_written(const ndef_record *record) {
    if (record->tnf == NDEF_TNF_EMPTY) return record->type_length + record->id_length + record->payload_length == 0;
    return (record->tnf == NDEF_TNF_UNKNOWN) == (record->type_length == 0);
}

/* The record is written again, alone and in chunks, and read back as the same. */
static void write_record(const uint8_t *bytes, const ndef_record *record, const struct made *payload, uint32_t chunk) {
    ndef_record again;
    struct made written, back;
    for (uint32_t form = 0; form <= NDEF_WRITE_LONG; form += NDEF_WRITE_LONG) {
        const ndef_writing how = { record->tnf, NDEF_WRITE_FIRST | NDEF_WRITE_LAST | form,
                                   record->tnf == NDEF_TNF_EMPTY ? 0 : chunk };
        MAKE(&written, ndef_write_record(bytes + record->type_at, record->type_length, bytes + record->id_at,
                                         record->id_length, payload->bytes, payload->length, &how, buffer, size, &count));
        HOLDS(written.status == (can_be_written(record) ? NDEF_OK : NDEF_BAD_ARGUMENT));
        if (written.status != NDEF_OK) return;
        HOLDS(ndef_record_at(written.bytes, written.length, 0, &again) == NDEF_OK);
        HOLDS(again.end == written.length && again.last == 1 && again.tnf == record->tnf);
        HOLDS(again.type_length == record->type_length && again.id_length == record->id_length);
        HOLDS(memcmp(written.bytes + again.type_at, bytes + record->type_at, again.type_length) == 0);
        HOLDS(memcmp(written.bytes + again.id_at, bytes + record->id_at, again.id_length) == 0);
        MAKE(&back, ndef_payload(written.bytes, written.length, 0, buffer, size, &count));
        HOLDS(is_same(&back, payload->bytes, payload->length));
        discard(&written), discard(&back);
    }
}

/* The fields of a payload follow one another from its first byte to its last. */
static void look_at_payload_fields(const uint8_t *type, ndef_size type_length, uint32_t tnf,
                                   const struct made *payload) {
    ndef_field *fields;
    ndef_size number, at = 0;
    LIST(fields, number, ndef_payload_fields(tnf, type, type_length, payload->bytes, payload->length, array, size, &count));
    for (ndef_size i = 0; i < number; at += fields[i].length, i++)
        HOLDS(fields[i].at == at && fields[i].length > 0 && fields[i].depth <= 1);
    HOLDS(at == payload->length);
    free(fields);
}

/* The chunks of a record, joined, are its payload. */
static void look_at_pieces(const uint8_t *bytes, ndef_size length, const ndef_record *record,
                           const struct made *payload) {
    ndef_part *parts;
    ndef_size number, at = 0;
    look_at_payload_fields(bytes + record->type_at, record->type_length, record->tnf, payload);
    LIST(parts, number, ndef_chunks(bytes, length, record->at, array, size, &count));
    HOLDS(number == record->chunks && parts[0].at == record->payload_at && parts[0].length == record->part_length);
    for (ndef_size i = 0; i < number; at += parts[i].length, i++) {
        HOLDS(is_within(parts[i].at, parts[i].length, record->end) && parts[i].length <= payload->length - at);
        HOLDS(parts[i].length == 0 || memcmp(payload->bytes + at, bytes + parts[i].at, parts[i].length) == 0);
    }
    HOLDS(at == payload->length);
    free(parts);
}

/* A record is found from its own place; from the front of the message one is found that is not behind it. */
static void find(const uint8_t *bytes, ndef_size length, const ndef_record *record) {
    const uint8_t *type = bytes + record->type_at, *id = bytes + record->id_at;
    ndef_record found;
    HOLDS(ndef_find_type(bytes, length, record->at, record->tnf, type, record->type_length, &found) == NDEF_OK);
    HOLDS(found.at == record->at && found.end == record->end && found.payload_length == record->payload_length);
    HOLDS(ndef_find_type(bytes, length, 0, record->tnf, type, record->type_length, &found) == NDEF_OK);
    HOLDS(found.at <= record->at && found.tnf == record->tnf && found.type_length == record->type_length);
    if (record->id_length == 0) return;
    HOLDS(ndef_find_id(bytes, length, record->at, id, record->id_length, &found) == NDEF_OK && found.at == record->at);
    HOLDS(ndef_find_id(bytes, length, 0, id, record->id_length, &found) == NDEF_OK && found.at <= record->at);
    HOLDS(found.id_length == record->id_length && memcmp(bytes + found.id_at, id, found.id_length) == 0);
}

/* A message that is built of the record, twice, is whole behind each; with a byte too few it stays as it was. */
static void build(const uint8_t *bytes, const ndef_record *record, const struct made *payload, uint32_t chunk) {
    const ndef_writing how = { record->tnf, chunk & NDEF_WRITE_LONG, record->tnf == NDEF_TNF_EMPTY ? 0 : chunk };
    const ndef_limits most = { UINT32_MAX, 65535, 65535, NDEF_OPAQUE };
    ndef_message_builder built = { 0, 0, 0 };
    ndef_checked checked;
    if (!can_be_written(record)) return;
    const ndef_size size = 2 * (16 + record->type_length + record->id_length + 8 * payload->length);
    uint8_t *buffer = filled(size, 0x5a);
    for (uint32_t number = 1; number <= 2; number++) {
        ndef_size count = 0, needed = 0;
        const ndef_message_builder before = built;
#define APPEND(size, count) ndef_append(&built, bytes + record->type_at, record->type_length, bytes + record->id_at, \
        record->id_length, payload->bytes, payload->length, &how, buffer, size, count)
        HOLDS(APPEND(built.length, &needed) == NDEF_BUFFER_TOO_SMALL && APPEND(needed - 1, &count) == NDEF_BUFFER_TOO_SMALL);
        HOLDS(count == needed && built.length == before.length && built.records == before.records);
        HOLDS(is_filled(buffer + before.length, size - before.length, 0x5a));
        HOLDS(APPEND(needed, &count) == NDEF_OK && count == needed && built.length == needed);
        HOLDS(is_filled(buffer + needed, size - needed, 0x5a));
        HOLDS(ndef_check(buffer, needed, &most, &checked) == NDEF_OK && checked.place == needed);
        HOLDS(checked.records == number && built.records == number);
#undef APPEND
    }
    free(buffer);
}

/* Walks as far as records go; tells where the walk ends, how many records there are, and whether the last says so. */
static ndef_size walk(const uint8_t *bytes, ndef_size length, uint32_t chunk, uint32_t *records, int *is_last) {
    ndef_record record;
    struct made payload;
    ndef_size at = 0;
    *records = 0, *is_last = 0;
    while (!*is_last && ndef_record_at(bytes, length, at, &record) == NDEF_OK) {
        HOLDS(record.at == at && record.end > at && record.end <= length && record.chunks > 0 && record.tnf <= 5);
        HOLDS(is_within(record.type_at, record.type_length, record.end));
        HOLDS(is_within(record.id_at, record.id_length, record.end));
        HOLDS(is_within(record.payload_at, record.part_length, record.end));
        HOLDS(record.part_length <= record.payload_length);
        MAKE(&payload, ndef_payload(bytes, length, at, buffer, size, &count));
        HOLDS(payload.status == NDEF_OK && payload.length == record.payload_length);
        HOLDS(record.part_length == 0 || memcmp(payload.bytes, bytes + record.payload_at, record.part_length) == 0);
        HOLDS(record.chunks > 1 || record.payload_at + record.payload_length == record.end);
        write_record(bytes, &record, &payload, 0);
        write_record(bytes, &record, &payload, chunk);
        look_at_pieces(bytes, length, &record, &payload);
        find(bytes, length, &record);
        build(bytes, &record, &payload, chunk);
        look_at_payload(bytes, length, payload.bytes, payload.length);
        discard(&payload);
        at = record.end, *is_last = (int)record.last, *records += 1;
    }
    return at;
}

/* A message written again has the same records, each in one chunk, and stays as it is when it is written so once more. */
static void rewrite(const uint8_t *bytes, ndef_size length, uint32_t records) {
    for (uint32_t flags = 0; flags <= NDEF_WRITE_LONG; flags += NDEF_WRITE_LONG) {
        struct made made, again, payload, same;
        ndef_record one, other;
        MAKE(&made, ndef_normalize(bytes, length, flags, buffer, size, &count));
        if (made.status != NDEF_OK) {
            HOLDS(made.status == NDEF_BAD_ARGUMENT);
            continue;
        }
        MAKE(&again, ndef_normalize(made.bytes, made.length, flags, buffer, size, &count));
        HOLDS(is_same(&again, made.bytes, made.length));
        ndef_size at = 0, to = 0;
        for (uint32_t i = 0; i < records; i++) {
            HOLDS(ndef_record_at(bytes, length, at, &one) == NDEF_OK);
            HOLDS(ndef_record_at(made.bytes, made.length, to, &other) == NDEF_OK);
            HOLDS(other.chunks == 1 && other.tnf == one.tnf && other.last == one.last);
            HOLDS(other.type_length == one.type_length && other.id_length == one.id_length);
            MAKE(&payload, ndef_payload(bytes, length, at, buffer, size, &count));
            MAKE(&same, ndef_payload(made.bytes, made.length, to, buffer, size, &count));
            HOLDS(is_same(&same, payload.bytes, payload.length));
            discard(&payload), discard(&same);
            at = one.end, to = other.end;
        }
        HOLDS(to == made.length);
        discard(&made), discard(&again);
    }
}

/* ---- fields */

static int is_checked(const ndef_checked *one, const ndef_checked *other) {
    return one->place == other->place && one->records == other->records && one->reason == other->reason;
}

static int is_field(const ndef_field *one, const ndef_field *other) {
    return one->at == other->at && one->length == other->length && one->depth == other->depth
        && one->name == other->name;
}

/* A byte of a field is in it, and the next step leads to the one behind it; behind the last there is none. */
static void look_at_field(const uint8_t *bytes, ndef_size length, const ndef_limits *limits, const ndef_field *fields,
                          ndef_size count, ndef_size index) {
    ndef_field found;
    ndef_checked why;
    const ndef_size place = fields[index].at + index % fields[index].length;
    HOLDS(ndef_field_at(bytes, length, limits, place, &found, &why) == NDEF_OK && is_field(&found, &fields[index]));
    const uint32_t status = ndef_next_field(bytes, length, limits, &found, &why);
    HOLDS((status == NDEF_OK) == (index + 1 < count));
    HOLDS(is_field(&found, &fields[status == NDEF_OK ? index + 1 : index]));
    if (status != NDEF_OK) HOLDS(status == (uint32_t)(why.reason ? NDEF_REFUSED : NDEF_END));
}

/* The fields follow one another without a gap, up to the end of the message or the refused byte. */
static void look_at_fields(const uint8_t *bytes, ndef_size length, const ndef_limits *limits, uint32_t status,
                           const ndef_checked *checked) {
    ndef_size count = 0, again = 0, at = 0;
    ndef_checked why;
    const uint32_t asked = ndef_fields(bytes, length, limits, NULL, 0, &count, &why);
    if (limits->flags & NDEF_OPAQUE) {
        HOLDS(asked == NDEF_BAD_ARGUMENT && count == 0);
        return;
    }
    HOLDS(asked == (count ? (uint32_t)NDEF_BUFFER_TOO_SMALL : status) && is_checked(&why, checked));
    ndef_field *fields = (ndef_field *)filled(count * sizeof *fields, 0x5a);
    if (count) {
        HOLDS(ndef_fields(bytes, length, limits, fields, count - 1, &again, &why) == NDEF_BUFFER_TOO_SMALL && again == count);
        HOLDS(is_checked(&why, checked) && is_filled((uint8_t *)fields, count * sizeof *fields, 0x5a));
    }
    HOLDS(ndef_fields(bytes, length, limits, fields, count, &again, &why) == status && again == count);
    HOLDS(is_checked(&why, checked));
    const ndef_size apart = 16 + count / STEPS;
    for (ndef_size i = 0; i < count; at += fields[i].length, i++) {
        HOLDS(fields[i].at == at && fields[i].length > 0 && fields[i].depth <= 1);
        HOLDS(fields[i].name >= NDEF_FIELD_HEADER && fields[i].name <= NDEF_FIELD_CARRIER_DATA);
        if (i % apart == 0 || i + 1 == count) look_at_field(bytes, length, limits, fields, count, i);
    }
    HOLDS(at == checked->place);
    free(fields);
}

int LLVMFuzzerTestOneInput(const uint8_t *data, size_t size) {
    if (size < 2) return 0;
    const ndef_size length = size - 2, cut = length ? data[1] % (length + 1) : 0;
    const uint8_t *bytes = data + 2;
    const ndef_limits usual = { 1048576, 1024, 4096, data[0] & 3u }, small = { 16, 2, 2, data[0] & 3u };
    ndef_checked checked;
    uint32_t records;
    int is_last;
    const ndef_limits *limits = data[0] & 4 ? &small : &usual;
    const uint32_t status = check(bytes, length, limits, cut, &checked);
    const ndef_size end = walk(bytes, length, 1 + (data[0] >> 3), &records, &is_last);
    HOLDS(status != NDEF_OK || (is_last && end == checked.place && records == checked.records));
    if (is_last) rewrite(bytes, length, records);
    look_at_fields(bytes, length, limits, status, &checked);
    look_at_payload(bytes, length, bytes, length);
    return 0;
}

#ifdef LINES
int main(void) {
    static char line[1 << 16];
    unsigned long inputs = 0;
    while (fgets(line, sizeof line, stdin)) {
        const size_t length = strspn(line, "0123456789abcdef") / 2;
        uint8_t *input = filled(length, 0);
        for (size_t i = 0; i < length; i++) {
            const char digits[3] = { line[2 * i], line[2 * i + 1], 0 };
            input[i] = (uint8_t)strtoul(digits, NULL, 16);
        }
        LLVMFuzzerTestOneInput(input, length);
        free(input);
        inputs++;
    }
    printf("inputs %lu\n", inputs);
    return inputs == 0;
}
#endif
