/* Reads all of a message by the library for C, and gives a hash of all that it answers: two builds that give the same hashes of the same
 * messages answer alike. What is read has no effect on the next message. */
#include "ndef.h"

enum { MOST_BYTES = 1 << 14, MOST_PARTS = 1 << 12 };

/* The memory of a reader: where payloads are joined and texts written. */
struct reader {
    uint64_t hash;
    uint8_t payload[MOST_BYTES], buffer[MOST_BYTES];
    ndef_field fields[MOST_PARTS];
    ndef_link links[MOST_PARTS];
};

static void mix(struct reader *to, uint64_t number) { to->hash = (to->hash ^ number) * 1099511628211u ^ to->hash >> 29; }

static void mix_bytes(struct reader *to, const uint8_t *bytes, ndef_size length) {
    mix(to, length);
    for (ndef_size i = 0; i < length; i++) mix(to, bytes[i]);
}

/* A status, and where it is a refusal, its place and its reason. */
static uint32_t mix_refusal(struct reader *to, uint32_t status, const ndef_checked *why) {
    mix(to, status);
    if (status == NDEF_REFUSED) mix(to, why->place), mix(to, why->reason);
    return status;
}

static void read_text(struct reader *to, ndef_size length) {
    ndef_text_parts text;
    ndef_checked why;
    ndef_size count = 0;
    if (mix_refusal(to, ndef_text(to->payload, length, &text, &why), &why) != NDEF_OK) return;
    mix(to, text.language_length), mix(to, text.text_at), mix(to, text.text_length), mix(to, text.utf16);
    mix(to, ndef_text_in_utf8(to->payload, length, to->buffer, MOST_BYTES, &count, &why));
    mix_bytes(to, to->buffer, count);
}

static void read_uri(struct reader *to, ndef_size length, uint32_t flags) {
    ndef_checked why;
    ndef_size count = 0;
    if (mix_refusal(to, ndef_uri(to->payload, length, flags, to->buffer, MOST_BYTES, &count, &why), &why) != NDEF_OK) return;
    mix_bytes(to, to->buffer, count);
}

static void read_poster(struct reader *to, ndef_size length, uint32_t flags) {
    ndef_poster_parts poster;
    ndef_checked why;
    if (mix_refusal(to, ndef_poster(to->payload, length, flags, &poster, &why), &why) != NDEF_OK) return;
    mix(to, poster.uri_at), mix(to, poster.uri_length), mix(to, poster.has_action), mix(to, poster.action);
    mix(to, poster.has_size), mix(to, poster.size);
}

static void read_handover(struct reader *to, const uint8_t *bytes, ndef_size whole, ndef_size length, uint32_t flags) {
    ndef_request_parts request;
    ndef_select_parts select;
    ndef_checked why;
    ndef_size count = 0;
    if (mix_refusal(to, ndef_request(to->payload, length, flags, &request, &why), &why) == NDEF_OK)
        mix(to, request.carriers), mix(to, request.minor), mix(to, request.collision);
    if (mix_refusal(to, ndef_select(to->payload, length, flags, &select, &why), &why) == NDEF_OK)
        mix(to, select.carriers), mix(to, select.minor), mix(to, select.has_error), mix(to, select.error);
    if (mix(to, ndef_links(bytes, whole, to->payload, length, to->links, MOST_PARTS, &count)), count > MOST_PARTS) return;
    for (ndef_size i = 0; i < count; i++) mix(to, to->links[i].record_index), mix(to, to->links[i].has_record);
}

static void read_carrier(struct reader *to, ndef_size length) {
    ndef_carrier_parts carrier;
    ndef_checked why;
    if (mix_refusal(to, ndef_carrier(to->payload, length, &carrier, &why), &why) == NDEF_OK)
        mix(to, carrier.format), mix(to, carrier.type_length), mix(to, carrier.data_at), mix(to, carrier.data_length);
}

/* Reads each record of a message that was checked, and its payload as its type says. */
static void read_records(struct reader *to, const uint8_t *bytes, ndef_size length, uint32_t flags) {
    ndef_record record = { 0, 0, 0, 0, 0, 0, 0, 0, 0, 0, 0, 0 };
    do {
        ndef_size count = 0;
        if (ndef_record_at(bytes, length, record.end, &record) != NDEF_OK) return;
        const uint32_t kind = ndef_kind(bytes, length, &record, NDEF_KIND_OTHER);
        mix(to, kind), mix(to, record.tnf), mix(to, record.chunks), mix(to, record.end), mix(to, record.payload_length);
        mix_bytes(to, bytes + record.type_at, record.type_length), mix_bytes(to, bytes + record.id_at, record.id_length);
        if (ndef_payload(bytes, length, record.at, to->payload, MOST_BYTES, &count) != NDEF_OK) continue;
        mix_bytes(to, to->payload, count);
        switch (kind) {
        case NDEF_KIND_TEXT: read_text(to, count); break;
        case NDEF_KIND_URI: read_uri(to, count, flags); break;
        case NDEF_KIND_SMART_POSTER: read_poster(to, count, flags); break;
        case NDEF_KIND_REQUEST: case NDEF_KIND_SELECT: read_handover(to, bytes, length, count, flags); break;
        case NDEF_KIND_CARRIER: read_carrier(to, count); break;
        default: break;
        }
    } while (!record.last);
}

/* Checks the bytes within limits, whole and in two parts, and reads the message that they begin with. */
static uint32_t read_message(struct reader *to, const uint8_t *bytes, ndef_size length, const ndef_limits *limits) {
    ndef_checked checked, fed;
    ndef_checker checker;
    const uint32_t status = mix_refusal(to, ndef_check(bytes, length, limits, &checked), &checked);
    mix(to, checked.place), mix(to, checked.records);
    if (status == NDEF_OK) read_records(to, bytes, checked.place, limits->flags & NDEF_STANDARD);
    mix(to, ndef_begin(limits, &checker));
    mix(to, ndef_feed(&checker, bytes, length / 2, &fed));
    mix_refusal(to, ndef_feed(&checker, bytes + length / 2, length - length / 2, &fed), &fed);
    mix(to, fed.place), mix(to, fed.reason);
    return status;
}

/* Reads the fields of the bytes too. */
static void read_fields(struct reader *to, const uint8_t *bytes, ndef_size length, const ndef_limits *limits) {
    ndef_size count = 0;
    ndef_checked why;
    mix_refusal(to, ndef_fields(bytes, length, limits, to->fields, MOST_PARTS, &count, &why), &why);
    mix(to, count);
    for (ndef_size i = 0; i < count && count <= MOST_PARTS; i++)
        mix(to, to->fields[i].at), mix(to, to->fields[i].depth), mix(to, to->fields[i].name);
}
