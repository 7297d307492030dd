/* Makes every call of the library over the cases of the suite and over random messages. Prints a line for each message: a
 * hash of all that the calls answered and wrote. Two builds of the library that print the same lines answer alike.
 * `cases.h` is made by test/c/case_table. Without a C library (-ffreestanding), the caller has `put` and calls `answers`. */
#include "ndef.h"
#include "cases.h"

#ifndef ROUNDS
#define ROUNDS 20000
#endif

enum { MOST = 1 << 17, MARKS = 8 };
static uint8_t message[MOST], buffer[MOST], copy[MOST], payload[MOST];
static uint64_t hash, calls;

void put(const char *line, unsigned length);
void answers(void);

/* ---- what is hashed */

static void mix_byte(uint8_t byte) { hash = (hash ^ byte) * 1099511628211u; }

static void mix(uint64_t number) {
    for (int i = 0; i < 8; i++) mix_byte((uint8_t)(number >> (8 * i)));
}

static void mix_bytes(const uint8_t *bytes, ndef_size length) {
    for (ndef_size i = 0; i < length; i++) mix_byte(bytes[i]);
}

static uint32_t mix_status(uint32_t status) {
    calls++;
    mix(status);
    return status;
}

static void mix_checked(const ndef_checked *checked) {
    mix(checked->place);
    mix(checked->records);
    mix(checked->reason);
}

/* A buffer of `size` bytes, and marks after it that no call may write. */
static uint8_t *marked(ndef_size size) {
    for (ndef_size i = 0; i < size + MARKS; i++) buffer[i] = 0xa5;
    return buffer;
}

static void mix_needed(uint32_t status, ndef_size size, ndef_size count) {
    mix_status(status);
    mix(count);
    mix_bytes(buffer, size + MARKS);
}

static void copy_bytes(uint8_t *to, const uint8_t *from, ndef_size length) {
    for (ndef_size i = 0; i < length; i++) to[i] = from[i];
}

/* ---- the calls */

/* A call that writes to a buffer. */
#define WRITTEN(size, call) do { ndef_size count = 77; uint8_t *to = marked(size); (void)to; \
    uint32_t status = (call); mix_needed(status, size, count); } while (0)

static void read_with_flags(const uint8_t *bytes, ndef_size length, uint32_t flags, ndef_size size) {
    ndef_checked why = { 77, 77, 77 };
    ndef_request_parts request = { 7, 7, 7, 7 };
    ndef_select_parts select = { 7, 7, 7, 7, 7, 7, 7 };
    ndef_poster_parts poster = { 7, 7, 7, 7, 7, 7 };
    WRITTEN(size, ndef_uri(bytes, length, flags, to, size, &count, &why));
    mix_checked(&why);
    mix_status(ndef_request(bytes, length, flags, &request, &why));
    mix(request.carriers), mix(request.major), mix(request.minor), mix(request.collision), mix_checked(&why);
    mix_status(ndef_select(bytes, length, flags, &select, &why));
    mix(select.carriers), mix(select.detail_at), mix(select.detail_length), mix(select.major), mix(select.minor);
    mix(select.has_error), mix(select.error), mix_checked(&why);
    mix_status(ndef_poster(bytes, length, flags, &poster, &why));
    mix(poster.uri_at), mix(poster.uri_length), mix(poster.has_action), mix(poster.action), mix(poster.has_size), mix(poster.size);
    mix_checked(&why);
}

static void read_without_flags(const uint8_t *bytes, ndef_size length, ndef_size size) {
    ndef_checked why = { 77, 77, 77 };
    ndef_text_parts text = { 7, 7, 7, 7, 7 };
    ndef_carrier_parts carrier = { 7, 7, 7, 7, 7 };
    ndef_alternative_parts alternative = { 7, 7 };
    ndef_error_parts error = { 7, 7, 7, 7, 7 };
    mix_status(ndef_text(bytes, length, &text, &why));
    mix(text.language_at), mix(text.language_length), mix(text.text_at), mix(text.text_length), mix(text.utf16), mix_checked(&why);
    WRITTEN(size, ndef_text_in_utf8(bytes, length, to, size, &count, &why));
    mix_status(ndef_carrier(bytes, length, &carrier, &why));
    mix(carrier.type_at), mix(carrier.type_length), mix(carrier.data_at), mix(carrier.data_length), mix(carrier.format);
    mix_status(ndef_alternative(bytes, length, &alternative, &why));
    mix(alternative.power), mix(alternative.references);
    for (ndef_size index = 0; index < 4; index++) {
        ndef_part part = { 7, 7 };
        mix_status(ndef_reference(bytes, length, index, &part));
        mix(part.at), mix(part.length);
    }
    mix_status(ndef_error(bytes, length, &error, &why));
    mix(error.data_at), mix(error.data_length), mix(error.reason), mix(error.has_number), mix(error.number), mix_checked(&why);
}

static void write_from(const uint8_t *bytes, ndef_size length, ndef_size size) {
    ndef_size third = length / 3;
    uint32_t number = (uint32_t)length;
    const ndef_part parts[3] = { { 0, third }, { third, length - third }, { length, 0 } };
    WRITTEN(size, ndef_write_uri(bytes, length, to, size, &count));
    for (uint32_t flags = 0; flags < 3; flags++)
        WRITTEN(size, ndef_write_text(bytes, length < 2 ? length : 2, bytes, length, flags, to, size, &count));
    WRITTEN(size, ndef_write_text(bytes, third, bytes + third, length - third, 1, to, size, &count));
    WRITTEN(size, ndef_write_carrier(number % 9, bytes, third, bytes + third, length - third, to, size, &count));
    WRITTEN(size, ndef_write_alternative(number % 5, bytes, length, parts, length % 4, to, size, &count));
    WRITTEN(size, ndef_write_error(number % 5, bytes, length, to, size, &count));
    WRITTEN(size, ndef_write_error_number(number % 5, number * 2654435761u, to, size, &count));
    for (uint32_t handover = 0; handover < 3; handover++)
        WRITTEN(size, ndef_write_handover(handover, 1, number % 17, bytes, length, to, size, &count));
    WRITTEN(size, ndef_write_action(number * 3, to, size, &count));
    WRITTEN(size, ndef_write_size(number * 2654435761u, to, size, &count));
    WRITTEN(size, ndef_write_collision(number * 40503u, to, size, &count));
    const ndef_title_writing titles[2] = { { parts[0], parts[1], number % 3 }, { parts[2], parts[0], 1 } };
    const ndef_alternative_writing carriers[3] = { { number % 4, 1, number % 4 }, { 0, number % 3, 1 }, { 1, 2, 3 } };
    for (uint32_t has = 0; has < 4; has++) {
        const ndef_select_writing how = { parts[has % 3], number % 17, has & 1, number * 7 };
        WRITTEN(size, ndef_write_request(number % 17, number * 40503u, bytes, length, parts, 3, carriers, has, to, size, &count));
        WRITTEN(size, ndef_write_select(&how, bytes, length, parts, 3, carriers, has, to, size, &count));
    }
    const ndef_icon_writing icons[2] = { { parts[0], parts[1] }, { parts[1], parts[2] } };
    for (uint32_t has = 0; has < 4; has++) {
        const ndef_poster_writing how = { parts[number % 2], parts[0], has & 1, has >> 1, number * 3, has & 1, number };
        WRITTEN(size, ndef_write_poster(bytes, length, &how, titles, has % 3, icons, has / 2, to, size, &count));
    }
}

static void mix_built(const ndef_message_builder *built) { mix(built->length), mix(built->last_at), mix(built->records); }

/* Appends two texts and a URI of the bytes to a message. */
static void append_from(const uint8_t *bytes, ndef_size length, ndef_size size) {
    ndef_message_builder built = { 0, 0, 0 };
    const ndef_size two = length < 2 ? length : 2;
    ndef_size count = 77;
    marked(size);
    for (uint32_t flags = 0; flags < 3; flags++) {
        mix_status(ndef_append_text(&built, bytes, length / 3, bytes, two, bytes, length, flags, buffer, size, &count));
        mix(count), mix_built(&built);
    }
    mix_status(ndef_append_uri(&built, bytes, length % 5, bytes, length, buffer, size, &count));
    mix(count), mix_built(&built), mix_bytes(buffer, size + MARKS);
}

/* The calls that fill an array: with none, with too small a one and with a large one. */
enum { ELEMENTS = 64 };
static ndef_part parts[ELEMENTS];
static ndef_link links[ELEMENTS];
static const ndef_size sizes[] = { 0, 1, ELEMENTS };

static ndef_part *marked_parts(void) {
    for (int i = 0; i < ELEMENTS; i++) parts[i].at = parts[i].length = 7;
    return parts;
}

static void mix_parts(uint32_t status, ndef_size count) {
    mix_status(status), mix(count);
    for (int i = 0; i < ELEMENTS; i++) mix(parts[i].at), mix(parts[i].length);
}

static void fill_parts(const uint8_t *bytes, ndef_size length, ndef_size at) {
    for (int i = 0; i < 3; i++) {
        ndef_size count = 77;
        uint32_t status = ndef_chunks(bytes, length, at, marked_parts(), sizes[i], &count);
        mix_parts(status, count);
        status = ndef_references(bytes, length, marked_parts(), sizes[i], &count);
        mix_parts(status, count);
    }
}

static void fill_links(const uint8_t *bytes, ndef_size length, const uint8_t *handover, ndef_size handover_length) {
    for (int i = 0; i < 3; i++) {
        const ndef_link mark = { 7, 7, 7, 7, 7 };
        ndef_size count = 77;
        for (int k = 0; k < ELEMENTS; k++) links[k] = mark;
        mix_status(ndef_links(bytes, length, handover, handover_length, links, sizes[i], &count)), mix(count);
        for (int k = 0; k < ELEMENTS; k++) {
            mix(links[k].carrier_at), mix(links[k].carrier_length), mix(links[k].record_index), mix(links[k].record_at);
            mix(links[k].has_record);
        }
    }
}

/* The fields of a message, or of what comes before a refused byte; the field of a byte, and the one after it. */
static void fill_fields(const uint8_t *bytes, ndef_size length, const ndef_limits *limits) {
    static ndef_field fields[ELEMENTS];
    const ndef_field mark = { 7, 7, 7, 7 };
    for (int i = 0; i < 3; i++) {
        ndef_size count = 77;
        ndef_checked why = { 77, 77, 77 };
        for (int k = 0; k < ELEMENTS; k++) fields[k] = mark;
        mix_status(ndef_fields(bytes, length, limits, fields, sizes[i], &count, &why)), mix(count), mix_checked(&why);
        mix_status(ndef_payload_fields(i, bytes, length % 4, bytes, length, fields + 1, i ? ELEMENTS - 1 : 0, &count)), mix(count);
        mix_status(ndef_field_at(bytes, length, limits, length / 2, &fields[0], &why)), mix_checked(&why);
        mix_status(ndef_next_field(bytes, length, limits, &fields[0], &why)), mix_checked(&why);
        for (int k = 0; k < ELEMENTS; k++)
            mix(fields[k].at), mix(fields[k].length), mix(fields[k].depth), mix(fields[k].name);
    }
}

/* Why bytes are refused, what may help, and what is strange in fields and records. */
static void say_why(const uint8_t *bytes, ndef_size length, const ndef_limits *limits) {
    WRITTEN(200, ndef_refusal_message(bytes, length, limits, to, 40 + 8 * (length % 20), &count));
    WRITTEN(200, ndef_hint(bytes, length, limits, to, 60 + 8 * (length % 20), &count));
    WRITTEN(200, ndef_field_warning(length % 33, bytes, length, to, 40 + 8 * (length % 20), &count));
    WRITTEN(200, ndef_record_warning(bytes, length, length % 3, to, 40 + 8 * (length % 20), &count));
}

/* What may help, by numbers. */
static void find_hint(const uint8_t *bytes, ndef_size length, const ndef_limits *limits) {
    ndef_found found = { 77, 77, 77 };
    mix_status(ndef_find_hint(bytes, length, limits, &found)), mix(found.hint), mix(found.at), mix(found.length);
}

static ndef_item items[ELEMENTS];

static void mark_items(void) {
    const ndef_item mark = { 7, 7, 7, 7, 7, 7, 7, 7, 7, 7, 7, 7, 7, 7, 7, 7 };
    for (int k = 0; k < ELEMENTS; k++) items[k] = mark;
}

static void mix_items(void) {
    for (const ndef_item *it = items; it < items + ELEMENTS; it++) {
        mix(it->at), mix(it->end), mix(it->tnf), mix(it->kind), mix(it->type_at), mix(it->type_length), mix(it->id_length);
        mix(it->payload_at), mix(it->payload_length), mix(it->chunks), mix(it->form), mix(it->number);
        mix(it->language_at), mix(it->language_length), mix(it->text_at), mix(it->text_length);
    }
}

/* All records of a message at once. */
static void list_records(const uint8_t *bytes, ndef_size length, const ndef_limits *limits) {
    for (int i = 0; i < 3; i++) {
        ndef_checked out = { 77, 77, 77 };
        mark_items();
        mix_status(ndef_items(bytes, length, limits, &out, items, sizes[i])), mix_checked(&out);
        mix_items();
    }
}

#if NDEF_VERSION_MINOR >= 1
/* Those of the message within a payload, and the number that a payload is. */
static void list_within(const uint8_t *bytes, ndef_size length, uint32_t flags) {
    for (uint32_t kind = 0; kind < 13; kind++) {
        ndef_checked why = { 77, 77, 77 };
        uint32_t number = 77;
        mark_items();
        mix_status(ndef_items_within(kind, bytes, length, flags, &why, items, sizes[length % 3])), mix_checked(&why);
        mix_items();
        mix_status(ndef_number(kind, bytes, length % 6 < length ? length % 6 : length, &number, &why)), mix(number), mix_checked(&why);
    }
}
#endif

#if NDEF_VERSION_MINOR >= 1
/* All references of a handover, in the message that its payload holds, and in none. */
static void list_references(const uint8_t *bytes, ndef_size length, uint32_t flags) {
    static ndef_reference_item references[ELEMENTS];
    for (uint32_t kind = NDEF_KIND_REQUEST; kind <= NDEF_KIND_SELECT; kind++) {
        ndef_handover_parts out = { 77, 77, 77, 77, 77, 77, 77, 77, 77 };
        ndef_checked why = { 77, 77, 77 };
        for (int i = 0; i < ELEMENTS; i++) references[i] = (ndef_reference_item) { 77, 77, 77, 77, 77, 77, 77, 77, 77, 77 };
        mix_status(ndef_handover_items(kind, bytes, length, flags, bytes + (length > 0), length % 2 && length > 0 ? length - 1 : 0, &out, &why, references, sizes[length % 3]));
        mix(out.carriers), mix(out.references), mix(out.detail_at), mix(out.detail_length), mix(out.major), mix(out.minor), mix(out.collision);
        mix(out.has_error), mix(out.error), mix_checked(&why);
        for (const ndef_reference_item *it = references; it < references + ELEMENTS; it++) {
            mix(it->carrier), mix(it->number), mix(it->carrier_at), mix(it->carrier_length), mix(it->at), mix(it->length);
            mix(it->record_index), mix(it->record_at), mix(it->power), mix(it->has_record);
        }
    }
}
#endif

/* The bytes as a payload, and as the forms and bounds of fields. */
static void lay_out(const uint8_t *bytes, ndef_size length) {
    ndef_layout_field fields[4] = { { 0, 0, 0 }, { 0, 0, 0 }, { 0, 0, 0 }, { 0, 0, 0 } };
    ndef_size count = length < 16 ? length / 4 : 4;
    for (ndef_size i = 0; i < count; i++) {
        const uint8_t *at = bytes + length - 4 * (i + 1);
        fields[i].form = i < 3 ? 1 + at[0] % 3 : at[0] % 7;
        fields[i].least = fields[i].form == NDEF_LAYOUT_OCTETS ? at[1] % 8 : at[1], fields[i].most = at[2] + (at[3] > 250);
    }
    for (ndef_size used = 0; used <= count; used++) {
        ndef_laid_out out = { 77, 77, 77 };
        mix_status(ndef_check_layout(bytes, length, fields, used, &out)), mix(out.place), mix(out.reason), mix(out.length_fits);
    }
}

static void mix_text(const ndef_text_parts *text) {
    mix(text->language_at), mix(text->language_length), mix(text->text_at), mix(text->text_length), mix(text->utf16);
}

/* The titles of a poster, one of them by its language, and the media type. */
static void look_at_titles(const uint8_t *bytes, ndef_size length) {
    static ndef_text_parts titles[ELEMENTS];
    const ndef_text_parts mark = { 7, 7, 7, 7, 7 };
    ndef_text_parts title = mark;
    ndef_part media = { 7, 7 };
    for (int i = 0; i < 3; i++) {
        ndef_size count = 77;
        for (int k = 0; k < ELEMENTS; k++) titles[k] = mark;
        mix_status(ndef_poster_titles(bytes, length, titles, sizes[i], &count)), mix(count);
        for (int k = 0; k < ELEMENTS; k++) mix_text(titles + k);
    }
    mix_status(ndef_title(bytes, length, (const uint8_t *)"EN", 2, &title)), mix_text(&title);
    mix_status(ndef_poster_media_type(bytes, length, &media)), mix(media.at), mix(media.length);
}

static void mix_part(const ndef_part *part) { mix(part->at), mix(part->length); }

/* The icons of a poster. */
static void look_at_icons(const uint8_t *bytes, ndef_size length) {
    static ndef_icon icons[ELEMENTS];
    const ndef_icon mark = { { 7, 7 }, { 7, 7 } };
    for (int i = 0; i < 3; i++) {
        ndef_size count = 77;
        for (int k = 0; k < ELEMENTS; k++) icons[k] = mark;
        mix_status(ndef_poster_icons(bytes, length, icons, sizes[i], &count)), mix(count);
        for (int k = 0; k < ELEMENTS; k++) mix_part(&icons[k].media_type), mix_part(&icons[k].data);
    }
}

static void look_at_payload(const uint8_t *bytes, ndef_size length, ndef_size size) {
    for (uint32_t flags = 0; flags < 3; flags++) {
        ndef_checked why = { 77, 77, 77 };
        ndef_uri_parts uri = { 7, 7, 7 };
        read_with_flags(bytes, length, flags, size);
#if NDEF_VERSION_MINOR >= 1
        list_within(bytes, length, flags);
        list_references(bytes, length, flags);
#endif
        mix_status(ndef_split_uri(bytes, length, flags, &uri, &why));
        mix(uri.rest_at), mix(uri.rest_length), mix(uri.code), mix_checked(&why);
    }
    fill_parts(bytes, length, 0);
    read_without_flags(bytes, length, size);
    write_from(bytes, length, size);
    append_from(bytes, length, size);
    look_at_titles(bytes, length);
    look_at_icons(bytes, length);
}

static void follow_links(const uint8_t *bytes, ndef_size length, const uint8_t *handover, ndef_size handover_length) {
    for (ndef_size index = 0; index < 4; index++) {
        ndef_link link = { 7, 7, 7, 7, 7 };
        mix_status(ndef_link_at(bytes, length, handover, handover_length, index, &link));
        mix(link.carrier_at), mix(link.carrier_length), mix(link.record_index), mix(link.record_at), mix(link.has_record);
    }
}

static void mix_record(const ndef_record *record) {
    mix(record->at), mix(record->end), mix(record->type_at), mix(record->type_length), mix(record->id_at), mix(record->id_length);
    mix(record->payload_at), mix(record->part_length), mix(record->payload_length), mix(record->chunks);
    mix(record->tnf), mix(record->last);
}

/* Writes the record again, in one piece and chunked; `copy` has its payload. */
static void write_again(const uint8_t *bytes, const ndef_record *record) {
    ndef_size size = 64 + 8 * record->payload_length + record->type_length + record->id_length;
    if (size + MARKS > MOST) size = 1000;
    for (uint32_t flags = 0; flags < 9; flags += 3) {
        const ndef_writing how = { record->tnf, flags & 7, flags == 6 ? 3 : 0 };
        WRITTEN(size, ndef_write_record(bytes + record->type_at, record->type_length, bytes + record->id_at, record->id_length,
                                        copy, record->payload_length, &how, to, size, &count));
    }
}

/* Writes it in steps, of parts and into buffers of a few bytes. */
static void write_in_steps(const uint8_t *bytes, const ndef_record *record) {
    const ndef_writing how = { record->tnf, (uint32_t)record->at % 9, record->payload_length % 7 };
    ndef_writer writer = { { 7, 7, 7 }, 7, 7, 7, 7, 7 };
    mix_status(ndef_writer_begin(&writer, record->type_length, record->id_length, record->payload_length, &how));
    for (uint32_t i = 0; i < 40; i++) {
        ndef_size left = writer.taken <= record->payload_length ? record->payload_length - writer.taken : 0;
        ndef_size part = i % 9 == 8 ? left + 1 : left < i ? left : i;
        WRITTEN(i % 11, ndef_writer_next(&writer, bytes + record->type_at, record->type_length, bytes + record->id_at, record->id_length,
                                         copy + record->payload_length - left, part, to, i % 11, &count));
        mix(writer.taken), mix(writer.head);
    }
}

static void find(const uint8_t *bytes, ndef_size length, const ndef_record *record) {
    const ndef_size from[] = { 0, record->at };
    for (int i = 0; i < 2; i++) {
        ndef_record found = { 7, 7, 7, 7, 7, 7, 7, 7, 7, 7, 7, 7 };
        mix_status(ndef_find_type(bytes, length, from[i], record->tnf, bytes + record->type_at, record->type_length, &found));
        mix_record(&found);
        mix_status(ndef_find_id(bytes, length, from[i], bytes + record->id_at, record->id_length, &found));
        mix_record(&found);
    }
    for (uint32_t within = 0; within < 8; within++) mix(ndef_kind(bytes, length, record, within));
}

/* Appends the record to a message of it; `copy` has its payload. */
static void build(const uint8_t *bytes, const ndef_record *record) {
    ndef_size size = 64 + 16 * record->payload_length + 2 * (record->type_length + record->id_length);
    ndef_message_builder built = { 0, 0, 0 };
    if (size + MARKS > MOST) size = 1000;
    marked(size);
    for (uint32_t i = 0; i < 4; i++) {
        const ndef_writing how = { record->tnf, i == 1 ? NDEF_WRITE_LONG : i == 3, i == 2 ? 3 : 0 };
        ndef_size count = 77;
        mix_status(ndef_append(&built, bytes + record->type_at, record->type_length, bytes + record->id_at, record->id_length,
                               copy, record->payload_length, &how, buffer, i ? size : size / 2, &count));
        mix(count), mix_built(&built);
    }
    mix_bytes(buffer, size + MARKS);
}

static void walk(const uint8_t *bytes, ndef_size length, int is_nested) {
    ndef_size at = 0;
    for (uint32_t flags = 0; flags < 5; flags += 2)
        WRITTEN(1000, ndef_normalize(bytes, length, flags, to, 1000, &count));
    for (int i = 0; i < 12; i++) {
        ndef_record record = { 7, 7, 7, 7, 7, 7, 7, 7, 7, 7, 7, 7 };
        uint32_t status = mix_status(ndef_record_at(bytes, length, at, &record));
        mix_record(&record);
        if (status != NDEF_OK || record.payload_length + 2 * MARKS > MOST) break;
        ndef_size size = record.payload_length;
        WRITTEN(size, ndef_payload(bytes, length, at, to, size ? size - 1 : 0, &count));
        WRITTEN(size, ndef_payload(bytes, length, at, to, size, &count));
        copy_bytes(copy, buffer, size);
        write_again(bytes, &record);
        write_in_steps(bytes, &record);
        build(bytes, &record);
        find(bytes, length, &record);
        fill_parts(bytes, length, at);
        if (!is_nested && size <= 3000) {
            copy_bytes(payload, copy, size);
            look_at_payload(payload, size, 2 * size + 40);
            look_at_payload(payload, size, size / 2);
            follow_links(bytes, length, payload, size);
            fill_links(bytes, length, payload, size);
            walk(payload, size, 1);
            if (size > 1) walk(payload + 1, size - 1, 1);
        }
        at = record.end;
    }
}

static void feed(const uint8_t *bytes, ndef_size length, const ndef_limits *limits) {
    static ndef_checker checker;
    ndef_checked out = { 77, 77, 77 };
    mix_status(ndef_begin(limits, &checker));
    for (ndef_size at = 0, step; at < length; at += step) {
        step = at < 64 ? 1 : length - at;
        mix_status(ndef_feed(&checker, bytes + at, step, &out)), mix_checked(&out);
    }
    mix_status(ndef_begin(limits, &checker));
    mix_status(ndef_feed(&checker, bytes, length / 2, &out)), mix_checked(&out);
    mix_status(ndef_feed(&checker, bytes + length / 2, length - length / 2, &out)), mix_checked(&out);
    mix_status(ndef_feed(&checker, bytes, 0, &out)), mix_checked(&out);
}

static void look_at(const uint8_t *bytes, ndef_size length, ndef_limits limits) {
    for (uint32_t flags = 0; flags < 5; flags++) {
        ndef_checked out = { 77, 77, 77 };
        const ndef_limits small = { 1 + (uint32_t)(length / 2), 2, 2, flags };
        limits.flags = flags;
        mix_status(ndef_check(bytes, length, &limits, &out)), mix_checked(&out);
        mix_status(ndef_check(bytes, length, &small, &out)), mix_checked(&out);
        fill_fields(bytes, length, &limits), fill_fields(bytes, length, &small);
        say_why(bytes, length, &limits), say_why(bytes, length, &small);
        find_hint(bytes, length, &limits), find_hint(bytes, length, &small);
        list_records(bytes, length, &limits), list_records(bytes, length, &small);
        feed(bytes, length, &limits);
    }
    lay_out(bytes, length);
    walk(bytes, length, 0);
}

static void names(void) {
    ndef_limits usual;
    ndef_default_limits(&usual);
    mix(usual.payload), mix(usual.records), mix(usual.chunks), mix(usual.flags);
    for (uint32_t reason = 0; reason < 40; reason++)
        WRITTEN(24, ndef_reason_name(reason, to, reason % 20, &count));
    for (uint32_t reason = 0; reason < 40; reason++)
        WRITTEN(80, ndef_reason_sentence(reason, to, 2 * reason + 22, &count));
    for (uint32_t name = 0; name < 40; name++)
        WRITTEN(40, ndef_field_name(name, to, name, &count));
    for (uint32_t number = 0; number < 8; number++)
        WRITTEN(24, ndef_status_name(number, to, number + 4, &count));
    for (uint32_t code = 0; code < 260; code++)
        WRITTEN(32, ndef_uri_prefix(code, to, code % 29, &count));
    mix(ndef_version());
}

/* ---- random messages: the cases with bytes changed, put in or left out, some of them as payloads */

static uint32_t below(uint32_t bound) {
    static uint64_t state = 88172645463325252u;
    state ^= state << 13;
    state ^= state >> 7;
    state ^= state << 17;
    return (uint32_t)((state >> 32) % bound);
}

static ndef_size some_case(uint8_t *to) {
    const struct message_case *one;
    do one = &cases[below(CASES)];
    while (one->length > 4000);
    copy_bytes(to, case_bytes + one->at, one->length);
    return one->length;
}

static ndef_size changed(uint8_t *bytes, ndef_size length) {
    uint32_t at = below((uint32_t)length), with = below(256), what = below(9);
    if (what < 3) bytes[at] ^= (uint8_t)(1u << (with & 7));
    else if (what < 5) bytes[at] = (uint8_t)with;
    else if (what == 5) return at;
    else if (what == 6) {
        for (ndef_size i = length; i > at; i--) bytes[i] = bytes[i - 1];
        return length + 1;
    } else {
        for (ndef_size i = at; i + 1 < length; i++) bytes[i] = bytes[i + 1];
        return length - 1;
    }
    return length;
}

static ndef_size within_a_record(uint8_t *bytes, ndef_size length) {
    static const char *const types[] = { "T", "U", "Sp", "Hr", "Hs", "Hc", "ac", "err" };
    const char *type = types[below(8)];
    const ndef_writing how = { NDEF_TNF_WELL_KNOWN, NDEF_WRITE_FIRST | NDEF_WRITE_LAST | (below(3) ? 0 : NDEF_WRITE_LONG), below(4) ? 0 : 1 + below(9) };
    ndef_size type_length = 1, count = 0;
    while (type[type_length]) type_length++;
    if (ndef_write_record((const uint8_t *)type, type_length, bytes, 0, bytes, length, &how, buffer, MOST, &count) != NDEF_OK) return length;
    copy_bytes(bytes, buffer, count);
    return count;
}

static ndef_size random_message(void) {
    ndef_size length = some_case(message);
    if (below(3) == 0) length += some_case(message + length);
    for (uint32_t times = below(4); times && length; times--) length = changed(message, length);
    if (below(3) == 0) length = within_a_record(message, length);
    return length;
}

/* ---- lines */

static unsigned digits(char *to, uint64_t number, unsigned base) {
    char reversed[24];
    unsigned count = 0, length = 0;
    do reversed[count++] = "0123456789abcdef"[number % base], number /= base;
    while (number);
    while (count) to[length++] = reversed[--count];
    return length;
}

static void put_line(uint64_t first, uint64_t second) {
    char line[64];
    unsigned length = digits(line, first, 10);
    line[length++] = ' ';
    length += digits(line + length, second, 16);
    line[length++] = '\n';
    put(line, length);
}

void answers(void) {
    for (uint32_t i = 0; i < CASES + ROUNDS; i++) {
        ndef_limits limits = { 1048576, 1024, 4096, 0 };
        ndef_size length;
        if (i < CASES) {
            const struct message_case *one = &cases[i];
            if (one->length > MOST / 2) continue;
            copy_bytes(message, case_bytes + one->at, length = one->length);
            limits.payload = one->payload, limits.records = one->records, limits.chunks = one->chunks;
        } else length = random_message();
        hash = 14695981039346656037u;
        mix_bytes(message, length);
        look_at(message, length, limits);
        if (i == 0) names();
        put_line(i, hash);
    }
    put_line(CASES + ROUNDS, calls);
}

#include "../../ports/hosted.h"
