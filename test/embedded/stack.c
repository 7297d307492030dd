/* Measures the stack that each call takes: paints the memory below the stack pointer, makes the call, and looks how far the
 * paint is gone. Runs over the cases of the suite, and over texts of many lengths, and prints the most of each call. */
/* What the calls answer doesn't matter here. */
#define NDEF_NEEDS(...)
#define NDEF_ANSWERS(...)
#include "ndef.h"
#include "cases.h"

void put(const char *line, unsigned length);
void answers(void);

enum { DEEP = 16000, MOST = 1 << 16, PAINT = 0xa5, ELEMENTS = 4096 };

static uint8_t bytes[MOST], payload[MOST], buffer[2 * MOST];
static const uint8_t *given;
static ndef_size given_length, count;
static ndef_limits limits;
static ndef_checker checker;
static ndef_checked out;
static uint32_t flags;
static const ndef_part parts[2] = { { 0, 0 }, { 0, 1 } };
static const ndef_alternative_writing alternatives[2] = { { 0, 2, 1 }, { 1, 1, 0 } };
static const char *const types[] = { "T", "Sp", "Hr", "Hs" };
static const ndef_size type_lengths[] = { 1, 2, 2, 2 };

/* Arrays that calls fill. */
static union {
    ndef_part parts[ELEMENTS];
    ndef_link links[ELEMENTS];
    ndef_field fields[ELEMENTS];
    ndef_text_parts titles[ELEMENTS];
    ndef_icon icons[ELEMENTS];
} array;

static void nothing(void) {}
static void check(void) { ndef_check(given, given_length, &limits, &out); }
static void begin(void) { ndef_begin(&limits, &checker); }
static void feed(void) { ndef_feed(&checker, given, given_length, &out); }
static void refusal_message(void) { ndef_refusal_message(given, given_length, &limits, buffer, sizeof buffer, &count); }
static void hint(void) { ndef_hint(given, given_length, &limits, buffer, sizeof buffer, &count); }
static void record_at(void) { static ndef_record to; ndef_record_at(given, given_length, 0, &to); }
static void kind(void) {
    static ndef_record of;
    of.tnf = NDEF_TNF_WELL_KNOWN, of.type_length = type_lengths[flags];
    ndef_kind((const uint8_t *)types[flags], type_lengths[flags], &of, NDEF_KIND_OTHER);
}
static void payload_of(void) { ndef_payload(given, given_length, 0, buffer, sizeof buffer, &count); }
static void uri(void) { ndef_uri(given, given_length, flags & 1, buffer, sizeof buffer, &count, &out); }
static void text(void) { static ndef_text_parts to; ndef_text(given, given_length, &to, &out); }
static void text_in_utf8(void) { ndef_text_in_utf8(given, given_length, buffer, sizeof buffer, &count, &out); }
static void carrier(void) { static ndef_carrier_parts to; ndef_carrier(given, given_length, &to, &out); }
static void alternative(void) { static ndef_alternative_parts to; ndef_alternative(given, given_length, &to, &out); }
static void reference(void) { static ndef_part to; ndef_reference(given, given_length, 0, &to); }
static void request(void) { static ndef_request_parts to; ndef_request(given, given_length, flags & 1, &to, &out); }
static void select_of(void) { static ndef_select_parts to; ndef_select(given, given_length, flags & 1, &to, &out); }
static void link_at(void) { static ndef_link to; ndef_link_at(bytes, given_length, given, given_length, 0, &to); }
static void poster(void) { static ndef_poster_parts to; ndef_poster(given, given_length, flags & 1, &to, &out); }
static void error(void) { static ndef_error_parts to; ndef_error(given, given_length, &to, &out); }
static void write_record(void) {
    static ndef_writing how;
    how.tnf = NDEF_TNF_WELL_KNOWN, how.flags = flags, how.chunk = flags & 1 ? 3 : 0;
    ndef_write_record((const uint8_t *)"T", 1, given, 0, given, given_length, &how, buffer, sizeof buffer, &count);
}
static void write_uri(void) { ndef_write_uri(given, given_length, buffer, sizeof buffer, &count); }
static void write_text(void) { ndef_write_text((const uint8_t *)"en", 2, given, given_length, flags & 1, buffer, sizeof buffer, &count); }
static void write_carrier(void) { ndef_write_carrier(1, given, given_length & 255, given, given_length, buffer, sizeof buffer, &count); }
static void write_alternative(void) { ndef_write_alternative(1, given, given_length, parts, 2, buffer, sizeof buffer, &count); }
static void write_error(void) { ndef_write_error(4, given, given_length, buffer, sizeof buffer, &count); }
static void write_error_number(void) { ndef_write_error_number(2, 7, buffer, sizeof buffer, &count); }
static void write_handover(void) { ndef_write_handover(flags & 1, 1, 2, given, given_length, buffer, sizeof buffer, &count); }
static void write_action(void) { ndef_write_action(7, buffer, sizeof buffer, &count); }
static void write_size(void) { ndef_write_size(7, buffer, sizeof buffer, &count); }
static void write_collision(void) { ndef_write_collision(7, buffer, sizeof buffer, &count); }
static void reason_name(void) { ndef_reason_name(flags, buffer, sizeof buffer, &count); }
static void reason_sentence(void) { ndef_reason_sentence(flags, buffer, sizeof buffer, &count); }
static void default_limits(void) { static ndef_limits to; ndef_default_limits(&to); }
static void version(void) { ndef_version(); }
static void status_name(void) { ndef_status_name(flags, buffer, sizeof buffer, &count); }
static void chunks(void) { ndef_chunks(given, given_length, 0, array.parts, ELEMENTS, &count); }
static void references(void) { ndef_references(given, given_length, array.parts, ELEMENTS, &count); }
static void links(void) { ndef_links(bytes, given_length, given, given_length, array.links, ELEMENTS, &count); }
static void find_type(void) { static ndef_record to; ndef_find_type(given, given_length, 0, 1, (const uint8_t *)"none", 4, &to); }
static void find_id(void) { static ndef_record to; ndef_find_id(given, given_length, 0, (const uint8_t *)"none", 4, &to); }
static void fields(void) { ndef_fields(given, given_length, &limits, array.fields, ELEMENTS, &count, &out); }
static void field_at(void) { static ndef_field to; ndef_field_at(given, given_length, &limits, given_length / 2, &to, &out); }
static void next_field(void) {
    static ndef_field to;
    if (ndef_next_field(given, given_length, &limits, &to, &out) != NDEF_OK) to.at = to.length = 0;
}
static void payload_fields(void) {
    ndef_payload_fields(1, (const uint8_t *)types[flags], type_lengths[flags], given, given_length,
                        array.fields, ELEMENTS, &count);
}
static void field_name(void) { ndef_field_name(flags, buffer, sizeof buffer, &count); }
/* All bytes given, or the first of them, as each field. */
static void field_warning(void) {
    for (uint32_t name = NDEF_FIELD_HEADER; name <= NDEF_FIELD_CARRIER_DATA; name++)
        ndef_field_warning(name, given, flags & 1 && given_length ? 1 : given_length, buffer, sizeof buffer, &count);
}
static void record_warning(void) { ndef_record_warning(given, given_length, flags, buffer, sizeof buffer, &count); }
static void split_uri(void) { static ndef_uri_parts to; ndef_split_uri(given, given_length, flags & 1, &to, &out); }
static void uri_prefix(void) { ndef_uri_prefix(flags, buffer, sizeof buffer, &count); }
static void append(void) {
    static const ndef_message_builder none;
    static const ndef_writing how = { NDEF_TNF_WELL_KNOWN, 0, 3 };
    static ndef_message_builder built;
    built = none;
    ndef_append(&built, (const uint8_t *)"T", 1, given, 0, given, given_length, &how, buffer, sizeof buffer, &count);
}
static void append_text(void) {
    static const ndef_message_builder none;
    static ndef_message_builder built;
    built = none;
    ndef_append_text(&built, given, 0, (const uint8_t *)"en", 2, given, given_length, flags & 1, buffer, sizeof buffer, &count);
}
static void append_uri(void) {
    static const ndef_message_builder none;
    static ndef_message_builder built;
    built = none;
    ndef_append_uri(&built, given, 0, given, given_length, buffer, sizeof buffer, &count);
}
static void poster_titles(void) { ndef_poster_titles(given, given_length, array.titles, ELEMENTS, &count); }
static void title(void) { static ndef_text_parts to; ndef_title(given, given_length, (const uint8_t *)"en", 2, &to); }
static void poster_media_type(void) { static ndef_part to; ndef_poster_media_type(given, given_length, &to); }
static void poster_icons(void) { ndef_poster_icons(given, given_length, array.icons, ELEMENTS, &count); }
static void normalize(void) { ndef_normalize(given, given_length, flags & 1 ? NDEF_WRITE_LONG : 0, buffer, sizeof buffer, &count); }
static void write_poster(void) {
    static ndef_poster_writing how = { { 0, 0 }, { 0, 0 }, 1, 1, 2, 1, 7 };
    static ndef_title_writing one;
    static ndef_icon_writing icon;
    how.uri.length = one.text.length = icon.data.length = given_length;
    one.utf16 = flags & 1;
    icon.media_type.length = given_length < 9 ? given_length : 9;
    ndef_write_poster(given, given_length, &how, &one, 1, &icon, 1, buffer, sizeof buffer, &count);
}
static void write_request(void) {
    ndef_write_request(2, 7, given, given_length, parts, 2, alternatives, 2, buffer, sizeof buffer, &count);
}
static void write_select(void) {
    static ndef_select_writing how = { { 0, 0 }, 2, 1, 4 };
    how.data.length = given_length;
    ndef_write_select(&how, given, given_length, parts, 2, alternatives, 2, buffer, sizeof buffer, &count);
}
#if NDEF_VERSION_MAJOR > 0 || NDEF_VERSION_MINOR >= 4
static ndef_writer writer;
static const ndef_writing in_chunks = { NDEF_TNF_WELL_KNOWN, 0, 3 };
static void writer_begin(void) { ndef_writer_begin(&writer, 1, 0, given_length, &in_chunks); }
/* The call before this one began the record. */
static void writer_next(void) {
    ndef_writer_next(&writer, (const uint8_t *)"T", 1, given, 0, given, given_length, buffer, sizeof buffer, &count);
}
#endif

#define CALL(name) { "ndef_" #name, name, 0 }
static struct call { const char *name; void (*make)(void); unsigned most; } calls[] = {
    { "", nothing, 0 }, CALL(check), CALL(begin), CALL(feed), CALL(refusal_message), CALL(hint), CALL(record_at), CALL(kind),
    { "ndef_payload", payload_of, 0 }, CALL(chunks), CALL(find_type), CALL(find_id), CALL(fields), CALL(field_at),
    CALL(next_field), CALL(payload_fields), CALL(field_warning), CALL(record_warning), CALL(uri), CALL(split_uri),
    CALL(uri_prefix), CALL(text), CALL(text_in_utf8), CALL(carrier), CALL(alternative), CALL(reference), CALL(references),
    CALL(request), { "ndef_select", select_of, 0 }, CALL(link_at), CALL(links), CALL(poster), CALL(poster_titles), CALL(title),
    CALL(poster_media_type), CALL(poster_icons), CALL(error), CALL(write_record), CALL(write_uri), CALL(write_text),
    CALL(write_carrier), CALL(write_alternative), CALL(write_error), CALL(write_error_number), CALL(write_handover),
    CALL(write_action), CALL(write_size), CALL(write_collision), CALL(write_poster), CALL(write_request), CALL(write_select),
    CALL(append), CALL(append_text), CALL(append_uri), CALL(normalize),
#if NDEF_VERSION_MAJOR > 0 || NDEF_VERSION_MINOR >= 4
    CALL(writer_begin), CALL(writer_next),
#endif
    CALL(reason_name), CALL(reason_sentence),
    CALL(field_name), CALL(status_name), CALL(version), CALL(default_limits)
};
enum { CALLS = sizeof calls / sizeof *calls };

__attribute__((noinline)) static void paint(void) {
    volatile uint8_t stack[DEEP];
    for (int i = 0; i < DEEP; i++) stack[i] = PAINT;
    __asm__ volatile("" : : "r"(stack) : "memory");
}

__attribute__((noinline)) static unsigned painted_over(void) {
    volatile uint8_t stack[DEEP];
    unsigned i = 64; /* the lowest bytes are this function's own */
    __asm__ volatile("" : : "r"(stack) : "memory");
    while (i < DEEP && stack[i] == PAINT) i++;
    return DEEP - i;
}

__attribute__((noinline)) static void measure(struct call *call) {
    paint();
    call->make();
    unsigned taken = painted_over();
    if (taken > call->most) call->most = taken;
}

static void measure_all(const uint8_t *at, ndef_size length) {
    given = at;
    given_length = length;
    for (flags = 0; flags < 4; flags++) {
        ndef_default_limits(&limits);
        limits.flags = flags;
        ndef_begin(&limits, &checker);
        for (int i = 0; i < CALLS; i++) measure(&calls[i]);
    }
}

static void copy(uint8_t *to, const uint8_t *from, ndef_size length) {
    for (ndef_size i = 0; i < length; i++) to[i] = from[i];
}

/* A text of some length, in UTF-8 or UTF-16, as a message. */
static ndef_size long_text(ndef_size length, int is_utf16) {
    static const char mixed[] = "a\xc3\xa9\xe2\x82\xac\xf0\x9f\x98\x80zz";
    const ndef_writing how = { NDEF_TNF_WELL_KNOWN, NDEF_WRITE_FIRST | NDEF_WRITE_LAST, 0 };
    ndef_size end = 0;
    payload[end++] = is_utf16 ? 0x82 : 0x02;
    payload[end++] = 'e';
    payload[end++] = 'n';
    for (ndef_size i = 0; i < length; i++) payload[end++] = is_utf16 ? (uint8_t)(i & 1 ? 0x41 : 0) : (uint8_t)mixed[i % 12];
    ndef_write_record((const uint8_t *)"T", 1, payload, 0, payload, end, &how, bytes, sizeof bytes, &end);
    return end;
}

static void print_most(void) {
    for (int i = 1; i < CALLS; i++) {
        char line[64];
        unsigned length = 0, number = calls[i].most - calls[0].most, divisor = 10000;
        for (const char *c = calls[i].name; *c; c++) line[length++] = *c;
        line[length++] = ' ';
        while (divisor > 1 && number < divisor) divisor /= 10;
        for (; divisor; divisor /= 10) line[length++] = (char)('0' + number / divisor % 10);
        line[length++] = '\n';
        put(line, length);
    }
}

void answers(void) {
    for (unsigned k = 0; k < CASES + 40; k++) {
        ndef_size length, part = 0;
        if (k >= CASES) length = long_text((k - CASES) * 96, k & 1);
        else if (cases[k].length < MOST) copy(bytes, case_bytes + cases[k].at, length = cases[k].length);
        else continue;
        measure_all(bytes, length);
        if (ndef_payload(bytes, length, 0, payload, sizeof payload, &part) != NDEF_OK) continue;
        measure_all(payload, part);
        if (part) measure_all(payload + 1, part - 1);
    }
    print_most();
}

#include "../../ports/hosted.h"
