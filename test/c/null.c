/* Where a length is 0 a pointer may be NULL: each call then answers as with another pointer. */
#include "ndef.h"

#include <stdio.h>
#include <string.h>

enum { CALLS = 128 };

struct answer { uint32_t status, reason; uint64_t place, count; };
static struct answer answers[2][CALLS];
static int made;
static ndef_checked why;
static ndef_size count;

static void answer(int way, uint32_t status) {
    const struct answer one = { status, why.reason, why.place, count };
    answers[way][made++] = one;
}

static void check_calls(int way, const uint8_t *none, uint8_t *buffer) {
    ndef_limits limits;
    ndef_checker checker;
    ndef_record record;
    ndef_link link;
    ndef_default_limits(&limits);
    ndef_begin(&limits, &checker);
    answer(way, ndef_check(none, 0, &limits, &why));
    answer(way, ndef_feed(&checker, none, 0, &why));
    answer(way, ndef_record_at(none, 0, 0, &record));
    answer(way, ndef_payload(none, 0, 0, buffer, 0, &count));
    answer(way, ndef_reason_name(22, buffer, 0, &count));
    answer(way, ndef_reason_sentence(22, buffer, 0, &count));
    answer(way, ndef_refusal_message(none, 0, &limits, buffer, 0, &count));
    answer(way, ndef_hint(none, 0, &limits, buffer, 0, &count));
    answer(way, ndef_field_warning(NDEF_FIELD_URI_REST, none, 0, buffer, 0, &count));
    answer(way, ndef_record_warning(none, 0, 0, buffer, 0, &count));
    answer(way, ndef_link_at(none, 0, none, 0, 0, &link));
}

static void reading_calls(int way, const uint8_t *none, uint8_t *buffer) {
    ndef_text_parts text;
    ndef_carrier_parts carrier;
    ndef_alternative_parts alternative;
    ndef_part part;
    ndef_request_parts request;
    ndef_select_parts select;
    ndef_poster_parts poster;
    ndef_error_parts error;
    answer(way, ndef_uri(none, 0, 0, buffer, 0, &count, &why));
    answer(way, ndef_uri((const uint8_t *)"", 1, 0, buffer, 0, &count, &why));
    answer(way, ndef_text(none, 0, &text, &why));
    answer(way, ndef_text_in_utf8(none, 0, buffer, 0, &count, &why));
    answer(way, ndef_text_in_utf8((const uint8_t *)"", 1, buffer, 0, &count, &why));
    answer(way, ndef_carrier(none, 0, &carrier, &why));
    answer(way, ndef_alternative(none, 0, &alternative, &why));
    answer(way, ndef_reference(none, 0, 0, &part));
    answer(way, ndef_request(none, 0, 0, &request, &why));
    answer(way, ndef_select(none, 0, 0, &select, &why));
    answer(way, ndef_poster(none, 0, 0, &poster, &why));
    answer(way, ndef_error(none, 0, &error, &why));
}

static void writing_calls(int way, const uint8_t *none, const ndef_part *no_parts, uint8_t *buffer, ndef_size size) {
    const ndef_writing how = { NDEF_TNF_UNKNOWN, NDEF_WRITE_FIRST | NDEF_WRITE_LAST, 0 };
    const ndef_part empty = { 0, 0 };
    answer(way, ndef_write_record(none, 0, none, 0, none, 0, &how, buffer, size, &count));
    answer(way, ndef_write_uri(none, 0, buffer, size, &count));
    answer(way, ndef_write_text(none, 0, none, 0, 0, buffer, size, &count));
    answer(way, ndef_write_text(none, 0, none, 0, NDEF_AS_UTF16, buffer, size, &count));
    answer(way, ndef_write_carrier(1, none, 0, none, 0, buffer, size, &count));
    answer(way, ndef_write_alternative(0, none, 0, no_parts, 0, buffer, size, &count));
    answer(way, ndef_write_alternative(0, none, 0, &empty, 1, buffer, size, &count));
    answer(way, ndef_write_action(1, buffer, size, &count));
    answer(way, ndef_write_size(1, buffer, size, &count));
    answer(way, ndef_write_collision(1, buffer, size, &count));
    answer(way, ndef_write_error(9, none, 0, buffer, size, &count));
    answer(way, ndef_write_error_number(2, 1, buffer, size, &count));
    answer(way, ndef_write_handover(NDEF_SELECT, 1, 2, none, 0, buffer, size, &count));
}

/* The calls that fill an array, find a record or build a message. */
static void more_calls(int way, const uint8_t *none, ndef_part *no_parts, ndef_link *no_links, uint8_t *buffer, ndef_size size) {
    const ndef_writing how = { NDEF_TNF_UNKNOWN, 0, 0 };
    ndef_record record;
    ndef_uri_parts uri;
    ndef_text_parts text;
    ndef_message_builder built = { 0, 0, 0 };
    const ndef_poster_writing poster = { { 0, 0 }, { 0, 0 }, 0, 0, 0, 0, 0 };
    const ndef_title_writing title = { { 0, 0 }, { 0, 0 }, 0 };
    const ndef_icon_writing icon = { { 0, 0 }, { 0, 0 } };
    ndef_icon place;
    const ndef_alternative_writing alternative = { 0, 1, 0 };
    const ndef_select_writing select = { { 0, 0 }, 1, 1, 9 };
    answer(way, ndef_chunks(none, 0, 0, no_parts, 0, &count));
    answer(way, ndef_chunks((const uint8_t *)"\xd0\0", 3, 0, no_parts, 0, &count));
    answer(way, ndef_references(none, 0, no_parts, 0, &count));
    answer(way, ndef_links(none, 0, none, 0, no_links, 0, &count));
    answer(way, ndef_links((const uint8_t *)"\xd0\0", 3, (const uint8_t *)"\x12", 1, no_links, 0, &count));
    answer(way, ndef_find_type(none, 0, 0, 0, none, 0, &record));
    answer(way, ndef_find_type((const uint8_t *)"\xd0\0", 3, 0, 0, none, 0, &record));
    answer(way, ndef_find_id((const uint8_t *)"\xd0\0", 3, 0, none, 0, &record));
    memset(&record, 0, sizeof record);
    answer(way, ndef_kind(none, 0, &record, 0));
    answer(way, ndef_status_name(2, buffer, 0, &count));
    answer(way, ndef_split_uri(none, 0, 0, &uri, &why));
    answer(way, ndef_uri_prefix(0, buffer, 0, &count));
    answer(way, ndef_append(&built, none, 0, none, 0, none, 0, &how, buffer, size, &count));
    answer(way, ndef_append_text(&built, none, 0, none, 0, none, 0, 0, buffer, size, &count));
    answer(way, ndef_append_uri(&built, none, 0, none, 0, buffer, size, &count));
    answer(way, ndef_title(none, 0, none, 0, &text));
    answer(way, ndef_poster_icons(none, 0, way ? &place : NULL, 0, &count));
    answer(way, ndef_poster_icons((const uint8_t *)"\xd1\1\1U\0", 5, way ? &place : NULL, 0, &count));
    answer(way, ndef_normalize(none, 0, 0, buffer, size, &count));
    answer(way, ndef_write_request(1, 2, none, 0, no_parts, 0, way ? &alternative : NULL, 0, buffer, size, &count));
    answer(way, ndef_write_select(&select, none, 0, no_parts, 0, way ? &alternative : NULL, 0, buffer, size, &count));
    answer(way, ndef_write_poster(none, 0, &poster, way ? &title : NULL, 0, way ? &icon : NULL, 0, buffer, size, &count));
    answer(way, ndef_title((const uint8_t *)"\xd1\1\1U\0", 5, none, 0, &text));
}

/* The calls that give records, that look at a payload by its layout, that say what may help, and that write a record in steps. */
static void item_calls(int way, const uint8_t *none, uint8_t *buffer) {
    const ndef_writing how = { NDEF_TNF_EMPTY, 0, 0 };
    ndef_writer writer;
    const ndef_layout_field octets = { NDEF_LAYOUT_OCTETS, 1, 0 };
    ndef_laid_out out = { 9, 9, 9 };
    ndef_limits limits;
    ndef_found found;
    ndef_item item;
    ndef_default_limits(&limits);
    answer(way, ndef_items(none, 0, &limits, &why, way ? &item : NULL, 0));
    answer(way, ndef_items((const uint8_t *)"\xd0\0", 3, &limits, &why, way ? &item : NULL, 0));
#if NDEF_VERSION_MINOR >= 1
    uint32_t number = 9;
    answer(way, ndef_items_within(NDEF_KIND_SMART_POSTER, none, 0, 0, &why, way ? &item : NULL, 0));
    answer(way, ndef_items_within(NDEF_KIND_SELECT, (const uint8_t *)"\x12", 1, 0, &why, way ? &item : NULL, 0));
    answer(way, ndef_number(NDEF_KIND_ACTION, none, 0, &number, &why));
    ndef_handover_parts parts = { 9, 9, 9, 9, 9, 9, 9, 9, 9 };
    ndef_reference_item reference;
    answer(way, ndef_handover_items(NDEF_KIND_SELECT, none, 0, 0, none, 0, &parts, &why, way ? &reference : NULL, 0));
    answer(way, ndef_handover_items(NDEF_KIND_SELECT, (const uint8_t *)"\x12", 1, 0, none, 0, &parts, &why, way ? &reference : NULL, 0));
    count = parts.references;
#endif
    answer(way, ndef_check_layout(none, 0, way ? &octets : NULL, 0, &out));
    count = (ndef_size)out.place;
    answer(way, ndef_check_layout((const uint8_t *)"\0", 1, way ? &octets : NULL, 0, &out));
    answer(way, ndef_check_layout(none, 0, &octets, 1, &out));
    answer(way, ndef_writer_begin(&writer, 0, 0, 0, &how));
    answer(way, ndef_writer_next(&writer, none, 0, none, 0, none, 0, buffer, 0, &count));
    answer(way, ndef_writer_next(&writer, none, 0, none, 0, none, 0, (uint8_t[3]){ 0 }, 3, &count));
    answer(way, ndef_writer_next(&writer, none, 0, none, 0, none, 0, buffer, 0, &count));
    answer(way, ndef_find_hint(none, 0, &limits, &found));
    count = 9;
}

/* The calls that give fields. */
static void field_calls(int way, const uint8_t *none, ndef_field *no_fields, uint8_t *buffer) {
    ndef_limits limits;
    ndef_field field = { 0, 0, 0, 0 };
    ndef_default_limits(&limits);
    answer(way, ndef_fields(none, 0, &limits, no_fields, 0, &count, &why));
    answer(way, ndef_fields((const uint8_t *)"\xd0\0", 3, &limits, no_fields, 0, &count, &why));
    answer(way, ndef_field_at(none, 0, &limits, 0, &field, &why));
    answer(way, ndef_next_field(none, 0, &limits, &field, &why));
    answer(way, ndef_payload_fields(NDEF_TNF_EMPTY, none, 0, none, 0, no_fields, 0, &count));
    answer(way, ndef_payload_fields(NDEF_TNF_WELL_KNOWN, (const uint8_t *)"U", 1, none, 0, no_fields, 0, &count));
    answer(way, ndef_field_name(1, buffer, 0, &count));
}

int main(void) {
    static uint8_t byte[1], buffer[2][64];
    static ndef_part part[1];
    static ndef_link link[1];
    static ndef_field field[1];
    int calls = 0;
    for (int way = 0; way < 2; way++) {
        made = 0;
        why.place = why.reason = 0;
        count = 9;
        check_calls(way, way ? byte : NULL, way ? byte : NULL);
        reading_calls(way, way ? byte : NULL, way ? byte : NULL);
        field_calls(way, way ? byte : NULL, way ? field : NULL, way ? byte : NULL);
        item_calls(way, way ? byte : NULL, way ? byte : NULL);
        writing_calls(way, way ? byte : NULL, way ? part : NULL, way ? byte : NULL, 0);
        writing_calls(way, way ? byte : NULL, way ? part : NULL, buffer[way], sizeof buffer[way]);
        more_calls(way, way ? byte : NULL, way ? part : NULL, way ? link : NULL, way ? byte : NULL, 0);
        more_calls(way, way ? byte : NULL, way ? part : NULL, way ? link : NULL, buffer[way], sizeof buffer[way]);
        calls = made;
    }
    printf("calls %d\n", calls);
    return memcmp(answers[0], answers[1], sizeof answers[0]) != 0 || memcmp(buffer[0], buffer[1], sizeof buffer[0]) != 0;
}
