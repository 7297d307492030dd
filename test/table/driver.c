/* driver TABLE: makes each call of the table, as its second form has them, of the library for C, and prints a line for each row. Bytes are given in
 * memory of just their length; each call that fills memory is given none at first, then one too few, which it must leave as it is, and then
 * just enough; and three threads make all calls again in another order: nothing may be another answer then. */
#include <pthread.h>
#include <stdarg.h>
#include <stdio.h>
#include <stdlib.h>
#include <string.h>
#include "ndef.h"

static const char NOT[] = "{\"stream\":\"a message is fed\",\"record\":\"a message is written record by record, and checked as a whole\",\"text\":\"a program has its own words\","
                          "\"which\":\"the status says no more\"}";

/* What one thread has of the row it answers. */
typedef struct { uint8_t *bytes; size_t length; } octets;
static _Thread_local char *out;
static _Thread_local size_t out_length, out_capacity;
static _Thread_local char **names, **words;
static _Thread_local size_t words_count, words_capacity, seen;
static _Thread_local void **taken;
static _Thread_local size_t taken_count, taken_capacity;
static _Thread_local const char *failure;

static void *kept(void *memory) {
    if (taken_count == taken_capacity) taken = realloc(taken, (taken_capacity = 2 * taken_capacity + 64) * sizeof *taken);
    return taken[taken_count++] = memory;
}
static octets fresh(size_t length) {
    octets made = {kept(malloc(length ? length : 1)), length};
    memset(made.bytes, 0xbb, length);
    return made;
}
static int is_untouched(octets of) {
    for (size_t at = 0; at < of.length; at++)
        if (of.bytes[at] != 0xbb) return 0;
    return 1;
}

/* A call that fills the bytes `to`: its last arguments are FILL. */
#define FILL to.bytes, to.length, &needed
#define FILLED(status, to, call)                                                              \
    do {                                                                                      \
        ndef_size needed = 0;                                                                  \
        to = fresh(0);                                                                        \
        status = call;                                                                        \
        if (status == NDEF_BUFFER_TOO_SMALL) {                                                \
            to = fresh(needed - 1);                                                           \
            if (call != status || !is_untouched(to)) failure = "one byte too few";            \
            to = fresh(needed);                                                               \
            status = call;                                                                    \
        }                                                                                     \
        to.length = (size_t)needed;                                                            \
    } while (0)
/* The same of an array of a type: the last arguments are EACH. */
#define EACH array, capacity, &count
#define LISTED(type, call)                                                                    \
    type *array = NULL;                                                                       \
    ndef_size count = 0, capacity = 0;                                                        \
    uint32_t status = call;                                                                   \
    if (status == NDEF_BUFFER_TOO_SMALL) {                                                    \
        array = kept(malloc(count * sizeof(type)));                                           \
        capacity = count - 1;                                                                 \
        if (call != NDEF_BUFFER_TOO_SMALL) failure = "one too few of " #type;                 \
        capacity = count;                                                                     \
        status = call;                                                                        \
    }

/* ---- what is shown */

static void say(const char *form, ...) {
    va_list words_of;
    for (;;) {
        va_start(words_of, form);
        const int length = vsnprintf(out + out_length, out_capacity - out_length, form, words_of);
        va_end(words_of);
        if (out_length + (size_t)length < out_capacity) {
            out_length += (size_t)length;
            return;
        }
        out = realloc(out, out_capacity = 2 * out_capacity + (size_t)length + 1);
    }
}
static void say_hex(const uint8_t *bytes, size_t length) {
    static const char digits[] = "0123456789abcdef";
    if (out_capacity < out_length + 2 * length + 3) out = realloc(out, out_capacity = 2 * out_capacity + 2 * length + 3);
    out[out_length++] = '"';
    for (size_t at = 0; at < length; at++) out[out_length++] = digits[bytes[at] >> 4], out[out_length++] = digits[bytes[at] & 15];
    out[out_length++] = '"', out[out_length] = 0;
}
static void say_text(octets text) {
    say("\"");
    for (size_t at = 0; at < text.length; at++) say(text.bytes[at] == '"' || text.bytes[at] == '\\' ? "\\%c" : "%c", text.bytes[at]);
    say("\"");
}
/* The comma between the items of a list. */
static void comma(size_t index) { if (index) say(","); }
static octets name_of(uint32_t reason) {
    octets to;
    uint32_t status;
    FILLED(status, to, ndef_reason_name(reason, FILL));
    if (status) failure = "ndef_reason_name";
    return to;
}
static void say_place(const ndef_checked *why) {
    say("[%llu,", (unsigned long long)why->place);
    say_text(name_of(why->reason));
    say("]");
}
/* Says instead of all since a place why there is no answer; gives the status. */
static uint32_t say_why(size_t since, uint32_t status, const ndef_checked *why) {
    out_length = since;
    if (status == NDEF_REFUSED) say("{\"refused\":"), say_place(why), say("}");
    else say("{\"bad\":true}");
    return status;
}
static void say_not(const char *why) { say("{\"not\":\"%s\"}", why); }

/* ---- a row */

static const char *word(const char *form, ...) {
    char name[200];
    va_list words_of;
    va_start(words_of, form);
    vsnprintf(name, sizeof name, form, words_of);
    va_end(words_of);
    for (size_t turn = 0; turn < words_count; turn++, seen++)
        if (!strcmp(names[seen % words_count], name)) return words[seen % words_count];
    return NULL;
}
static uint32_t number(const char *digits) { return digits ? (uint32_t)strtoul(digits, NULL, 10) : 0; }
static octets bytes_of(const char *digits) {
    octets made = fresh(digits ? strlen(digits) / 2 : 0);
    for (size_t at = 0; at < made.length; at++) {
        const char two[] = {digits[2 * at], digits[2 * at + 1], 0};
        made.bytes[at] = (uint8_t)strtoul(two, NULL, 16);
    }
    return made;
}
static uint32_t profile_of(void) { return word("profile") ? NDEF_STANDARD : 0; }
static ndef_limits limits_of(void) {
    ndef_limits made;
    ndef_default_limits(&made);
    if (word("limits.payload")) made.payload = number(word("limits.payload"));
    if (word("limits.records")) made.records = number(word("limits.records"));
    if (word("limits.chunks")) made.chunks = number(word("limits.chunks"));
    made.flags = profile_of() | (word("opaque") ? NDEF_OPAQUE : 0);
    return made;
}

/* ---- values */

static octets part(octets of, ndef_size at, ndef_size length) { return (octets){of.bytes + at, (size_t)length}; }
static void say_part(octets of, ndef_size at, ndef_size length) { say_hex(of.bytes + at, (size_t)length); }

static void say_title(octets payload, const ndef_text_parts *text, octets utf8) {
    say("[");
    say_part(payload, text->language_at, text->language_length);
    say(","), say_hex(utf8.bytes, utf8.length);
    say(",%s]", text->utf16 ? "true" : "false");
}
static uint32_t say_language(octets payload, int is_title) {
    ndef_text_parts text;
    ndef_checked why;
    octets to;
    uint32_t status = ndef_text(payload.bytes, payload.length, &text, &why);
    const size_t since = out_length;
    if (status) return say_why(since, status, &why);
    FILLED(status, to, ndef_text_in_utf8(payload.bytes, payload.length, FILL, &why));
    if (status) return say_why(since, status, &why);
    if (is_title) return say_title(payload, &text, to), NDEF_OK;
    say("{\"kind\":\"text\",\"language\":"), say_part(payload, text.language_at, text.language_length);
    say(",\"text\":"), say_hex(to.bytes, to.length);
    say(",\"utf16\":%s}", text.utf16 ? "true" : "false");
    return NDEF_OK;
}
static uint32_t say_uri(octets payload, uint32_t flags, const char *before, const char *after) {
    ndef_checked why;
    octets to;
    uint32_t status;
    const size_t since = out_length;
    FILLED(status, to, ndef_uri(payload.bytes, payload.length, flags, FILL, &why));
    if (status) return say_why(since, status, &why);
    say("%s", before), say_hex(to.bytes, to.length), say("%s", after);
    return NDEF_OK;
}
static uint32_t say_alternative(octets payload, const char *more) {
    ndef_alternative_parts parts;
    ndef_checked why;
    const uint32_t answered = ndef_alternative(payload.bytes, payload.length, &parts, &why);
    if (answered) return say_why(out_length, answered, &why);
    LISTED(ndef_part, ndef_references(payload.bytes, payload.length, EACH));
    if (status || count != parts.references) failure = "ndef_references";
    say("[%u,", parts.power);
    for (ndef_size index = 0; index < count; index++) {
        ndef_part one;
        if (ndef_reference(payload.bytes, payload.length, index, &one) || one.at != array[index].at || one.length != array[index].length) failure = "ndef_reference";
        if (index > 1) say(",");
        say_part(payload, one.at, one.length);
        if (!index) say(",[");
    }
    say("]%s]", more);
    return NDEF_OK;
}
static uint32_t say_error(octets payload) {
    ndef_error_parts parts;
    ndef_checked why;
    const uint32_t status = ndef_error(payload.bytes, payload.length, &parts, &why);
    if (status) return say_why(out_length, status, &why);
    say("[%u,", parts.reason), say_part(payload, parts.data_at, parts.data_length);
    if (parts.has_number) say(",%u]", parts.number);
    else say(",null]");
    return NDEF_OK;
}
/* Gives the next record of a message within a payload, and its payload; the payload around it says the kind. */
static int next_of(octets message, ndef_record *record, octets *payload, uint32_t *kind, uint32_t within) {
    uint32_t status;
    octets to;
    if (!message.length || record->last || ndef_record_at(message.bytes, message.length, record->end, record)) return 0;
    FILLED(status, to, ndef_payload(message.bytes, message.length, record->at, FILL));
    if (status) failure = "ndef_payload";
    *payload = to;
    *kind = ndef_kind(message.bytes, message.length, record, within);
    return 1;
}
static uint32_t say_poster(octets payload, uint32_t flags) {
    ndef_poster_parts parts;
    ndef_checked why;
    ndef_part media;
    const size_t since = out_length;
    const uint32_t answered = ndef_poster(payload.bytes, payload.length, flags, &parts, &why);
    if (answered) return say_why(since, answered, &why);
    say_uri(part(payload, parts.uri_at, parts.uri_length), flags, "{\"kind\":\"poster\",\"uri\":", ",\"titles\":[");
    ndef_record record = {0};
    octets inner;
    uint32_t kind;
    for (size_t index = 0; next_of(payload, &record, &inner, &kind, NDEF_KIND_SMART_POSTER);)
        if (kind == NDEF_KIND_TEXT) comma(index++), say_language(inner, 1);
    if (parts.has_action) say("],\"action\":%u", parts.action);
    else say("],\"action\":null");
    if (parts.has_size) say(",\"size\":%u,\"media\":", parts.size);
    else say(",\"size\":null,\"media\":");
    if (ndef_poster_media_type(payload.bytes, payload.length, &media)) say("null");
    else say_part(payload, media.at, media.length);
    LISTED(ndef_icon, ndef_poster_icons(payload.bytes, payload.length, EACH));
    if (status) failure = "ndef_poster_icons";
    say(",\"icons\":[");
    for (ndef_size index = 0; index < count; index++) {
        comma((size_t)index), say("["), say_part(payload, array[index].media_type.at, array[index].media_type.length);
        say(","), say_part(payload, array[index].data.at, array[index].data.length), say("]");
    }
    say("]}");
    return NDEF_OK;
}
static uint32_t say_handover(octets payload, uint32_t flags, uint32_t outer) {
    ndef_request_parts request = {0};
    ndef_select_parts select = {0};
    ndef_checked why;
    const int is_request = outer == NDEF_KIND_REQUEST;
    const uint32_t status = is_request ? ndef_request(payload.bytes, payload.length, flags, &request, &why) : ndef_select(payload.bytes, payload.length, flags, &select, &why);
    if (status) return say_why(out_length, status, &why);
    say("{\"kind\":\"%s\",\"version\":[%u,%u],\"carriers\":[", is_request ? "request" : "select", is_request ? request.major : select.major, is_request ? request.minor : select.minor);
    ndef_record record = {0};
    octets inner, error = {0};
    uint32_t kind;
    size_t carriers = 0;
    while (next_of(part(payload, 1, payload.length - 1), &record, &inner, &kind, outer)) {
        if (kind == NDEF_KIND_ALTERNATIVE) comma(carriers++), say_alternative(inner, "");
        if (kind == NDEF_KIND_ERROR && !error.bytes) error = inner;
    }
    if (carriers != (is_request ? request.carriers : select.carriers) || !error.bytes != !select.has_error) failure = "the parts of a handover";
    if (is_request) return say("],\"collision\":%u}", request.collision), NDEF_OK;
    say("],\"error\":");
    if (error.bytes) say_error(error);
    else say("null");
    say("}");
    return NDEF_OK;
}
static uint32_t say_carrier(octets payload) {
    ndef_carrier_parts parts;
    ndef_checked why;
    const uint32_t status = ndef_carrier(payload.bytes, payload.length, &parts, &why);
    if (status) return say_why(out_length, status, &why);
    say("{\"kind\":\"carrier\",\"format\":%u,\"type\":", parts.format), say_part(payload, parts.type_at, parts.type_length);
    say(",\"data\":"), say_part(payload, parts.data_at, parts.data_length), say("}");
    return NDEF_OK;
}
/* Says the value of a payload of a kind; of those within a poster or handover too. Where it is refused, it says that instead. */
static uint32_t say_value(uint32_t kind, octets payload, uint32_t flags) {
    uint32_t all = 0;
    switch (kind) {
        case NDEF_KIND_TEXT: return say_language(payload, 0);
        case NDEF_KIND_URI: return say_uri(payload, flags, "{\"kind\":\"uri\",\"uri\":", "}");
        case NDEF_KIND_SMART_POSTER: return say_poster(payload, flags);
        case NDEF_KIND_REQUEST: case NDEF_KIND_SELECT: return say_handover(payload, flags, kind);
        case NDEF_KIND_CARRIER: return say_carrier(payload);
        case NDEF_KIND_ACTION: case NDEF_KIND_SIZE: case NDEF_KIND_COLLISION:
            for (size_t at = 0; at < payload.length; at++) all = 256 * all + payload.bytes[at];
            say("{\"kind\":\"%s\",\"number\":%u}", kind == NDEF_KIND_ACTION ? "action" : kind == NDEF_KIND_SIZE ? "size" : "collision", all);
            return NDEF_OK;
        case NDEF_KIND_MEDIA_TYPE: say("{\"kind\":\"media\",\"media\":"), say_hex(payload.bytes, payload.length), say("}"); return NDEF_OK;
        case NDEF_KIND_ALTERNATIVE: say("{\"kind\":\"alternative\",\"alternative\":"), say_alternative(payload, ""), say("}"); return NDEF_OK;
        case NDEF_KIND_ERROR: say("{\"kind\":\"error\",\"error\":"), say_error(payload), say("}"); return NDEF_OK;
        default: say("null"); return NDEF_OK;
    }
}
static void say_records(octets message, uint32_t flags, uint32_t within, int has_values) {
    ndef_record record = {0};
    octets payload;
    uint32_t kind;
    say("[");
    for (size_t index = 0; next_of(message, &record, &payload, &kind, within); index++) {
        LISTED(ndef_part, ndef_chunks(message.bytes, message.length, record.at, EACH));
        size_t length = 0;
        for (ndef_size at = 0; at < count; at++) length += array[at].length;
        if (status || count != record.chunks || length != payload.length || record.payload_length != length) failure = "ndef_chunks";
        comma(index), say("[%u,", record.tnf);
        say_part(message, record.type_at, record.type_length), say(","), say_part(message, record.id_at, record.id_length);
        say(","), say_hex(payload.bytes, payload.length);
        if (has_values) say(",%u,", kind), say_value(kind, payload, flags);
        say("]");
    }
    say("]");
}

/* ---- operations that read */

/* Whether an item is the record with its value, where that is the text of a text or a URI in one chunk. */
static int is_item(octets message, const ndef_item *item, const ndef_record *record, const ndef_limits *limits) {
    ndef_text_parts text;
    ndef_uri_parts uri;
    ndef_checked why;
    const uint8_t *payload = message.bytes + item->payload_at;
    const uint32_t kind = ndef_kind(message.bytes, message.length, record, NDEF_KIND_OTHER);
    const int is_typed = item->chunks == 1 && !(limits->flags & NDEF_OPAQUE);
    if (item->at != record->at || item->end != record->end || item->tnf != record->tnf || item->type_at != record->type_at || item->type_length != record->type_length
        || item->payload_at - item->id_length != record->id_at || item->id_length != record->id_length || item->payload_at != record->payload_at
        || item->payload_length != record->payload_length || item->chunks != record->chunks || item->kind != kind) return 0;
    if (is_typed && kind == NDEF_KIND_TEXT)
        return !ndef_text(payload, item->payload_length, &text, &why) && item->form == 1 + text.utf16 && item->language_at == item->payload_at + text.language_at
            && item->language_length == text.language_length && item->text_at == item->payload_at + text.text_at && item->text_length == text.text_length;
    if (is_typed && kind == NDEF_KIND_URI)
        return !ndef_split_uri(payload, item->payload_length, limits->flags, &uri, &why) && item->form == 3 && item->number == uri.code
            && item->text_at == item->payload_at + uri.rest_at && item->text_length == uri.rest_length;
    return !item->form && !item->number && !item->language_length && !item->text_length;
}
/* The items of a message are its records, and an array that is too short by one is refused. */
static void look_at_items(octets bytes, const ndef_limits *limits, const ndef_checked *found) {
    ndef_item *items = kept(calloc(found->records, sizeof *items));
    ndef_checked again;
    ndef_record record = {0};
    if (ndef_items(bytes.bytes, bytes.length, limits, &again, items, found->records - 1) != NDEF_BUFFER_TOO_SMALL || items->end) failure = "ndef_items, one too few";
    if (ndef_items(bytes.bytes, bytes.length, limits, &again, items, found->records) || memcmp(&again, found, sizeof again)) failure = "ndef_items";
    for (uint32_t index = 0; index < found->records; index++)
        if (ndef_record_at(bytes.bytes, bytes.length, record.end, &record) || !is_item(bytes, &items[index], &record, limits)) failure = "an item";
}

static void checked_op(const char *op) {
    const octets bytes = bytes_of(word("bytes"));
    const ndef_limits limits = limits_of();
    ndef_checked found;
    const uint32_t status = ndef_check(bytes.bytes, bytes.length, &limits, &found);
    if (status) { say_why(out_length, status, &found); return; }
    const octets message = part(bytes, 0, found.place);
    look_at_items(bytes, &limits, &found);
    if (!strcmp(op, "check")) say("{\"length\":%llu,\"records\":%u}", (unsigned long long)found.place, found.records);
    else if (!strcmp(op, "decode_all") && found.place < bytes.length) say("{\"trailing\":%llu}", (unsigned long long)found.place);
    else if (!strcmp(op, "normalize")) {
        octets to;
        uint32_t answered;
        FILLED(answered, to, ndef_normalize(bytes.bytes, bytes.length, 0, FILL));
        if (answered) say_why(out_length, answered, &found);
        else say("{\"bytes\":"), say_hex(to.bytes, to.length), say("}");
    } else say("{\"length\":%llu,\"records\":", (unsigned long long)found.place), say_records(message, profile_of(), NDEF_KIND_OTHER, 1), say("}");
}
static void feed(const char *op) {
    const ndef_limits limits = limits_of();
    ndef_checker checker;
    ndef_checked found;
    (void)op;
    if (ndef_begin(&limits, &checker)) { say("{\"bad\":true}"); return; }
    say("{\"fed\":[");
    for (uint32_t index = 0; index < number(word("parts")); index++) {
        octets given = bytes_of(word("parts.%u", index));
        const uint32_t status = ndef_feed(&checker, given.bytes, given.length, &found);
        memset(given.bytes, 0xaa, given.length);
        comma(index), say("[\"%s\",%llu", status == NDEF_OK ? "whole" : status == NDEF_MORE ? "more" : "refused", (unsigned long long)found.place);
        if (status == NDEF_REFUSED) say(","), say_text(name_of(found.reason));
        say("]");
    }
    say("]}");
}
static void fields(const char *op) {
    const octets bytes = bytes_of(word("bytes"));
    const ndef_limits limits = limits_of();
    ndef_checked why = {0}, again;
    ndef_field field, one = {0};
    (void)op;
    LISTED(ndef_field, ndef_fields(bytes.bytes, bytes.length, &limits, EACH, &why));
    if (status == NDEF_BAD_ARGUMENT) { say("{\"bad\":true}"); return; }
    say("{\"fields\":[");
    for (ndef_size index = 0; index < count; index++) {
        octets to;
        uint32_t answered;
        FILLED(answered, to, ndef_field_name(array[index].name, FILL));
        comma((size_t)index), say("[%llu,%llu,%u,", (unsigned long long)array[index].at, (unsigned long long)array[index].length, array[index].depth);
        say_text(to), say("]");
        if (answered) failure = "ndef_field_name";
        if (count > 100) continue; /* these walk all that is before */
        if (ndef_next_field(bytes.bytes, bytes.length, &limits, &one, &again) || memcmp(&one, &array[index], sizeof one)) failure = "ndef_next_field";
        if (ndef_field_at(bytes.bytes, bytes.length, &limits, one.at + one.length - 1, &field, &again) || memcmp(&one, &field, sizeof one)) failure = "ndef_field_at";
    }
    if (status == NDEF_REFUSED) say("],\"refused\":"), say_place(&why), say("}");
    else say("],\"refused\":null}");
}
/* A sentence that a call writes, null where there is none. */
static void say_said(uint32_t status, octets said) {
    if (status == NDEF_OK) say_text(said);
    else say(status == NDEF_BAD_ARGUMENT ? "{\"bad\":true}" : "null");
}
static void refusal(const char *op) {
    const octets bytes = bytes_of(word("bytes"));
    const ndef_limits limits = limits_of();
    ndef_found found;
    octets to;
    uint32_t status;
    (void)op;
    FILLED(status, to, ndef_refusal_message(bytes.bytes, bytes.length, &limits, FILL));
    say("{\"why\":"), say_said(status, to);
    FILLED(status, to, ndef_hint(bytes.bytes, bytes.length, &limits, FILL));
    say(",\"hint\":"), say_said(status, to);
    status = ndef_find_hint(bytes.bytes, bytes.length, &limits, &found);
    if (status == NDEF_OK) say(",\"found\":[%u,%llu,%llu],\"text\":\"-text\"}", found.hint, (unsigned long long)found.at, (unsigned long long)found.length);
    else say(status == NDEF_BAD_ARGUMENT ? ",\"found\":{\"bad\":true},\"text\":null}" : ",\"found\":null,\"text\":null}");
}
static void line(const char *op) {
    const octets bytes = bytes_of(word("bytes"));
    const ndef_limits limits = limits_of();
    ndef_checked why;
    (void)op;
    if (word("records")) { say_not("record"); return; }
    if (ndef_check(bytes.bytes, bytes.length, &limits, &why) != NDEF_REFUSED) return;
    say("{\"line\":\"refused at %llu: %s: %s\"}", (unsigned long long)why.place, ndef_reason_text(why.reason), ndef_sentence_text(why.reason));
}
static void warnings(const char *op) {
    const octets bytes = bytes_of(word("bytes"));
    ndef_limits limits = limits_of();
    ndef_checked found;
    octets to;
    uint32_t answered;
    size_t said = 0;
    (void)op;
    LISTED(ndef_field, ndef_fields(bytes.bytes, bytes.length, &limits, EACH, &found));
    answered = ndef_check(bytes.bytes, bytes.length, &limits, &found);
    if (status || answered) { say_why(out_length, answered, &found); return; }
    say("{\"fields\":[");
    for (ndef_size index = 0; index < count; index++) {
        const octets of = part(bytes, array[index].at, array[index].length);
        FILLED(answered, to, ndef_field_warning(array[index].name, of.bytes, of.length, FILL));
        if (answered == NDEF_OK) comma(said++), say("[%llu,", (unsigned long long)index), say_text(to), say("]");
    }
    said = 0, say("],\"records\":[");
    for (uint32_t index = 0; index <= found.records; index++) {
        FILLED(answered, to, ndef_record_warning(bytes.bytes, bytes.length, index, FILL));
        if (answered == NDEF_OK) comma(said++), say("[%u,", index), say_text(to), say("]");
    }
    say("]}");
}
static void links(const char *op) {
    const octets bytes = bytes_of(word("bytes"));
    const ndef_limits limits = limits_of();
    ndef_checked found;
    ndef_record record = {0};
    octets payload = {0};
    uint32_t kind = 0, answered = ndef_check(bytes.bytes, bytes.length, &limits, &found);
    (void)op;
    if (answered) { say_why(out_length, answered, &found); return; }
    const char *index = word("index");
    for (uint32_t at = 0; *index != '-' && at <= number(index); at++)
        if (!next_of(part(bytes, 0, found.place), &record, &payload, &kind, NDEF_KIND_OTHER)) kind = 0;
    if (kind != NDEF_KIND_REQUEST && kind != NDEF_KIND_SELECT) { say("{\"bad\":true}"); return; }
    LISTED(ndef_link, ndef_links(bytes.bytes, found.place, payload.bytes, payload.length, EACH));
    if (status) { say("{\"bad\":true}"); return; }
    say("{\"links\":[");
    for (ndef_size at = 0; at < count; at++) {
        ndef_link one;
        char more[40] = ",null";
        if (ndef_link_at(bytes.bytes, found.place, payload.bytes, payload.length, at, &one) || memcmp(&one, &array[at], sizeof one)) failure = "ndef_link_at";
        if (one.has_record) snprintf(more, sizeof more, ",%llu", (unsigned long long)one.record_index);
        comma((size_t)at), say_alternative(part(payload, one.carrier_at, one.carrier_length), more);
    }
    say("]}");
}
static uint32_t kind_of(void) {
    const octets type = bytes_of(word("type"));
    ndef_record record = {0};
    record.tnf = NDEF_TNF_WELL_KNOWN, record.type_length = type.length;
    return ndef_kind(type.bytes, type.length, &record, NDEF_KIND_OTHER);
}
static void value_op(const char *op) {
    const octets payload = bytes_of(word("payload"));
    const uint32_t kind = kind_of();
    const size_t since = out_length;
    if (say_value(kind, payload, profile_of())) return;
    const char *value = kept(strdup(out + since));
    out_length = since;
    if (!strcmp(op, "value_of")) say("{\"value\":%s}", value);
    else if (kind < NDEF_KIND_SMART_POSTER || kind > NDEF_KIND_SELECT) say("{\"within\":null}");
    else {
        const size_t skip = kind != NDEF_KIND_SMART_POSTER;
        say("{\"within\":"), say_records(part(payload, skip, payload.length - skip), profile_of(), kind, 1), say("}");
    }
}
static void reason(const char *op) {
    octets to;
    uint32_t status;
    (void)op;
    FILLED(status, to, ndef_reason_sentence(number(word("number")), FILL));
    if (status) failure = "ndef_reason_sentence";
    say("{\"name\":"), say_text(name_of(number(word("number")))), say(",\"sentence\":"), say_text(to), say("}");
}
static void title(const char *op) {
    const octets payload = bytes_of(word("payload")), language = bytes_of(word("language"));
    ndef_poster_parts parts;
    ndef_text_parts text;
    ndef_checked why;
    (void)op;
    const uint32_t answered = ndef_poster(payload.bytes, payload.length, 0, &parts, &why);
    if (answered) { say_why(out_length, answered, &why); return; }
    if (ndef_title(payload.bytes, payload.length, language.bytes, language.length, &text)) { say("{\"title\":null}"); return; }
    LISTED(ndef_text_parts, ndef_poster_titles(payload.bytes, payload.length, EACH));
    ndef_record record = {0};
    octets inner;
    uint32_t kind;
    say("{\"title\":");
    for (ndef_size index = 0; next_of(payload, &record, &inner, &kind, NDEF_KIND_SMART_POSTER);) {
        if (kind != NDEF_KIND_TEXT) continue;
        if (status || index >= count) failure = "ndef_poster_titles";
        else if (!memcmp(&array[index++], &text, sizeof text)) { say_language(inner, 1); break; }
    }
    say("}");
}
static void layout(const char *op) {
    static const char *const forms[] = {"", "octets", "within", "counted", "utf8", "rest"};
    const octets payload = bytes_of(word("payload"));
    ndef_layout_field all[8] = {{0, 0, 0}};
    ndef_laid_out found;
    const uint32_t count = number(word("fields"));
    (void)op;
    for (uint32_t index = 0; index < count; index++) {
        while (strcmp(forms[all[index].form], word("fields.%u.0", index))) all[index].form++;
        all[index].least = number(word("fields.%u.1", index)), all[index].most = number(word("fields.%u.2", index));
    }
    const uint32_t status = ndef_check_layout(payload.bytes, payload.length, all, count, &found);
    if (status == NDEF_OK) say("{\"fits\":true}");
    else if (status == NDEF_BAD_ARGUMENT) say("{\"bad\":true}");
    else say("{\"refused\":"), say_place(&(ndef_checked){found.place, 0, found.reason}), say(",\"of_length\":%s}", found.length_fits ? "true" : "false");
}

/* ---- operations that write */

static ndef_writing how_of(uint32_t index, uint32_t last, const char *tnf, uint32_t form, uint32_t chunk) {
    return (ndef_writing){number(tnf), form | (index == 0 ? NDEF_WRITE_FIRST : 0) | (index == last ? NDEF_WRITE_LAST : 0), chunk};
}
/* Writes the records one after the other, at once and in steps of a few bytes. */
static uint32_t written(octets *whole) {
    const uint32_t count = number(word("records")), chunk = number(word("form.chunk")), form = word("form.long") ? NDEF_WRITE_LONG : 0;
    *whole = fresh(0);
    for (uint32_t index = 0; index < count; index++) {
        const ndef_writing how = how_of(index, count - 1, word("records.%u.0", index), form, chunk);
        const octets type = bytes_of(word("records.%u.1", index)), id = bytes_of(word("records.%u.2", index)), payload = bytes_of(word("records.%u.3", index));
        octets to, more;
        uint32_t status;
        FILLED(status, to, ndef_write_record(type.bytes, type.length, id.bytes, id.length, payload.bytes, payload.length, &how, FILL));
        if (status) return status;
        more = fresh(whole->length + to.length);
        memcpy(more.bytes, whole->bytes, whole->length), memcpy(more.bytes + whole->length, to.bytes, to.length);
        *whole = more;
        ndef_writer writer;
        ndef_size count_of = 0, at = 0;
        uint8_t few[7];
        status = ndef_writer_begin(&writer, type.length, id.length, payload.length, &how);
        while (!status && !(status = ndef_writer_next(&writer, type.bytes, type.length, id.bytes, id.length, payload.bytes + writer.taken,
                                                      payload.length - writer.taken, few, sizeof few, &count_of)) && at + count_of <= to.length && !memcmp(few, to.bytes + at, count_of))
            at += count_of;
        if (status != NDEF_END || at != to.length) failure = "ndef_writer_next";
    }
    return count ? NDEF_OK : NDEF_BAD_ARGUMENT;
}
static void encode(const char *op) {
    octets whole;
    ndef_checked found;
    const ndef_limits limits = limits_of();
    const uint32_t status = written(&whole), size = number(word("size"));
    if (status) { say("{\"bad\":true}"); return; }
    if (!word("unchecked")) {
        const uint32_t checked = ndef_check(whole.bytes, whole.length, &limits, &found);
        if (checked == NDEF_REFUSED) { say_not("record"); return; }
        if (checked) { say("{\"bad\":true}"); return; }
    }
    if (!strcmp(op, "encode")) { say("{\"bytes\":"), say_hex(whole.bytes, whole.length), say("}"); return; }
    say("{\"parts\":[");
    for (size_t at = 0; at < whole.length; at += size) comma(at), say_hex(whole.bytes + at, whole.length - at < size ? whole.length - at : size);
    say("]}");
}
static void record_parts(const char *op) {
    const octets type = bytes_of(word("record.1")), id = bytes_of(word("record.2"));
    const ndef_writing how = how_of(0, 0, word("record.0"), 0, 0);
    ndef_writer writer;
    uint8_t few[16];
    ndef_size count = 0;
    uint32_t status = ndef_writer_begin(&writer, type.length, id.length, number(word("length")), &how);
    const size_t since = out_length;
    (void)op;
    if (status) { say("{\"bad\":true}"); return; }
    say("{\"bytes\":\"");
    for (uint32_t index = 0; index <= number(word("parts")); index++) {
        const octets given = bytes_of(index < number(word("parts")) ? word("parts.%u", index) : NULL);
        for (ndef_size begun = writer.taken; !status;) {
            status = ndef_writer_next(&writer, type.bytes, type.length, id.bytes, id.length, given.bytes + (writer.taken - begun), given.length - (writer.taken - begun), few, sizeof few, &count);
            for (ndef_size at = 0; !status && at < count; at++) say("%02x", few[at]);
            if (!status && !count) break;
        }
        if (status == NDEF_END && index < number(word("parts"))) status = given.length == writer.taken || !given.length ? NDEF_OK : status;
    }
    say("\"}");
    size_t length = 0;
    for (uint32_t index = 0; index < number(word("parts")); index++) length += strlen(word("parts.%u", index)) / 2;
    if (status != NDEF_END || length != number(word("length"))) out_length = since, say("{\"bad\":true}");
}

/* The texts of a value, one after the other, in memory of just their length. */
static _Thread_local octets arena;
static ndef_part put(const char *digits) {
    const octets text = bytes_of(digits);
    octets more = fresh(arena.length + text.length);
    memcpy(more.bytes, arena.bytes, arena.length), memcpy(more.bytes + arena.length, text.bytes, text.length);
    const ndef_part made = {arena.length, text.length};
    arena = more;
    return made;
}
static uint32_t made_poster(octets *made) {
    const uint32_t titles_count = number(word("value.titles")), icons_count = number(word("value.icons"));
    ndef_title_writing *titles = kept(calloc(titles_count + 1, sizeof *titles));
    ndef_icon_writing *icons = kept(calloc(icons_count + 1, sizeof *icons));
    ndef_poster_writing how = {put(word("value.uri")), {0, 0}, word("value.media") != NULL, word("value.action") != NULL, number(word("value.action")), word("value.size") != NULL, number(word("value.size"))};
    octets to;
    uint32_t status;
    if (how.has_media_type) how.media_type = put(word("value.media"));
    for (uint32_t index = 0; index < titles_count; index++) {
        titles[index].language = put(word("value.titles.%u.0", index)), titles[index].text = put(word("value.titles.%u.1", index));
        titles[index].utf16 = word("value.titles.%u.2", index) != NULL;
    }
    for (uint32_t index = 0; index < icons_count; index++)
        icons[index].media_type = put(word("value.icons.%u.0", index)), icons[index].data = put(word("value.icons.%u.1", index));
    FILLED(status, to, ndef_write_poster(arena.bytes, arena.length, &how, titles, titles_count, icons, icons_count, FILL));
    *made = to;
    return status;
}
static uint32_t made_handover(octets *made, int is_request) {
    const uint32_t count = number(word("value.carriers")), minor = number(word("value.version.1"));
    ndef_alternative_writing *all = kept(calloc(count + 1, sizeof *all));
    ndef_part *references = kept(calloc(300 * (count + 1), sizeof *references));
    ndef_size references_count = 0;
    octets to;
    uint32_t status;
    for (uint32_t index = 0; index < count; index++) {
        const uint32_t others = number(word("value.carriers.%u.2", index));
        all[index] = (ndef_alternative_writing){references_count, 1 + others, number(word("value.carriers.%u.0", index))};
        references[references_count++] = put(word("value.carriers.%u.1", index));
        for (uint32_t other = 0; other < others; other++) references[references_count++] = put(word("value.carriers.%u.2.%u", index, other));
    }
    const ndef_select_writing how = {put(word("value.error.1")), minor, word("value.error") != NULL, number(word("value.error.0"))};
    if (is_request) FILLED(status, to, ndef_write_request(minor, number(word("value.collision")), arena.bytes, arena.length, references, references_count, all, count, FILL));
    else FILLED(status, to, ndef_write_select(&how, arena.bytes, arena.length, references, references_count, all, count, FILL));
    *made = to;
    return status;
}
static void make(const char *op) {
    const char *kind = word("value.kind");
    const octets language = bytes_of(word("value.language")), text = bytes_of(word("value.text")), uri = bytes_of(word("value.uri")), type = bytes_of(word("value.type")), data = bytes_of(word("value.data"));
    octets to;
    uint32_t status = NDEF_BAD_ARGUMENT, number_of = NDEF_KIND_TEXT;
    (void)op;
    arena = fresh(0);
    if (*kind == 't') FILLED(status, to, ndef_write_text(language.bytes, language.length, text.bytes, text.length, word("value.utf16") != NULL, FILL));
    else if (*kind == 'u') FILLED(status, to, ndef_write_uri(uri.bytes, uri.length, FILL));
    else if (*kind == 'c') FILLED(status, to, ndef_write_carrier(number(word("value.format")), type.bytes, type.length, data.bytes, data.length, FILL));
    else if (*kind == 'p') status = made_poster(&to);
    else if (number(word("value.version.0")) == 1) status = made_handover(&to, *kind == 'r');
    if (status) { say("{\"bad\":\"-which\"}"); return; }
    for (const char *kinds = "tuprsc"; kinds[number_of - 1] != *kind;) number_of++;
    say("{\"payload\":"), say_hex(to.bytes, to.length), say(",\"value\":"), say_value(number_of, to, 0), say("}");
}
static void no_streams(const char *op) { (void)op, say_not("stream"); }

/* ---- all rows */

static const struct { const char *name; void (*run)(const char *); } OPERATIONS[] = {
    {"check", checked_op}, {"decode", checked_op}, {"decode_all", checked_op}, {"normalize", checked_op}, {"feed", feed}, {"stream", no_streams}, {"fields", fields},
    {"refusal", refusal}, {"line", line}, {"warnings", warnings}, {"links", links}, {"value_of", value_op}, {"within", value_op}, {"reason", reason}, {"title", title},
    {"layout", layout}, {"encode", encode}, {"parts", encode}, {"record_parts", record_parts}, {"make", make}};

/* The line of a row, in new memory. */
static char *answered(const char *line) {
    char *copy = strdup(line);
    words_count = out_length = taken_count = seen = 0, failure = NULL;
    for (char *at = copy, *sign; at; ) {
        char *next = strchr(at, '\t');
        if (next) *next++ = 0;
        if (words_count == words_capacity) {
            words_capacity = 2 * words_capacity + 64;
            names = realloc(names, words_capacity * sizeof *names), words = realloc(words, words_capacity * sizeof *words);
        }
        sign = strchr(at, '=');
        *sign = 0, names[words_count] = at, words[words_count++] = sign + 1, at = next;
    }
    const char *op = word("op");
    say("{\"id\":\"%s\",\"answer\":", word("id"));
    const size_t since = out_length;
    size_t index = 0;
    while (strcmp(OPERATIONS[index].name, op)) index++;
    OPERATIONS[index].run(op);
    if (failure) out_length = since, say("{\"failed\":\"%s\"}", failure);
    say("}");
    while (taken_count) free(taken[--taken_count]);
    free(copy);
    return strdup(out);
}

static char **rows, **answers;
static size_t rows_count;
static char *others; /* which rows are answered otherwise */

static void *again(void *turn) {
    for (size_t index = rows_count; index-- > 0;) {
        const size_t at = (index + (size_t)turn * rows_count / 3) % rows_count;
        char *answer = answered(rows[at]);
        if (strcmp(answer, answers[at])) others[at] = 1;
        free(answer);
    }
    free(out), free(names), free(words), free(taken);
    return NULL;
}

int main(int count, char **arguments) {
    FILE *file = fopen(arguments[count - 1], "r");
    char *line = NULL;
    size_t line_capacity = 0;
    pthread_t threads[3];
    while (file && getline(&line, &line_capacity, file) > 0) {
        line[strcspn(line, "\n")] = 0;
        rows = realloc(rows, (rows_count + 1) * sizeof *rows), answers = realloc(answers, (rows_count + 1) * sizeof *answers);
        rows[rows_count] = strdup(line), answers[rows_count++] = answered(line);
    }
    others = calloc(rows_count + 1, 1);
    for (size_t turn = 0; turn < 3; turn++) pthread_create(&threads[turn], NULL, again, (void *)turn);
    for (size_t turn = 0; turn < 3; turn++) pthread_join(threads[turn], NULL);
    printf("{\"language\":\"C\",\"not\":%s}\n", NOT);
    for (size_t at = 0; at < rows_count; at++) {
        if (others[at]) printf("%.*s{\"failed\":\"another answer in threads\"}}\n", (int)(strstr(answers[at], "\"answer\":") + 9 - answers[at]), answers[at]);
        else puts(answers[at]);
    }
    return 0;
}
