/* The calls that find a record or build a message, those of names, and what no poster can be written of: with a buffer that fits
 * and with one that is too small by one. VERSION_NUMBER is the version that the header names. */
#include "ndef.h"
#include "expect.h"

#include <string.h>

/* ---- records that are found */

static void found(void) {
    /* "A" with 2 bytes; an empty record; a media type "A", id "x"; "A" with 1 byte, id "y", the last; and another message, "B", id "z" */
    static const uint8_t bytes[] = { 0x91, 1, 2, 'A', 1, 2, 0x10, 0, 0, 0x1a, 1, 0, 1, 'A', 'x', 0x59, 1, 1, 1, 'A', 'y', 3, 0xd9, 1, 0, 1, 'B', 'z' };
    const uint8_t *a = (const uint8_t *)"A", *b = (const uint8_t *)"B", *x = (const uint8_t *)"x", *y = (const uint8_t *)"y", *z = (const uint8_t *)"z";
    ndef_record found, one;
    memset(&found, 0x77, sizeof found);
    expect(ndef_find_type(bytes, sizeof bytes, 0, NDEF_TNF_WELL_KNOWN, b, 1, &found) == NDEF_END, "found: a type behind the message is found");
    expect(ndef_find_type(bytes, sizeof bytes, 0, NDEF_TNF_EXTERNAL, a, 1, &found) == NDEF_END, "found: the type of another format is found");
    expect(ndef_find_type(bytes, sizeof bytes, 0, NDEF_TNF_WELL_KNOWN, a, 0, &found) == NDEF_END, "found: a longer type is found");
    expect(ndef_find_id(bytes, sizeof bytes, 0, x, 0, &found) == NDEF_END, "found: the empty id is found");
    expect(ndef_find_id(bytes, sizeof bytes, 0, z, 1, &found) == NDEF_END, "found: an id behind the message is found");
    expect(ndef_find_type(bytes, sizeof bytes, sizeof bytes, NDEF_TNF_WELL_KNOWN, a, 1, &found) == NDEF_END, "found: the end isn't one");
    expect(ndef_find_type(bytes, sizeof bytes, 1, NDEF_TNF_WELL_KNOWN, a, 1, &found) == NDEF_BAD_ARGUMENT, "found: a walk begins within a record");
    expect(ndef_find_type(bytes, sizeof bytes, sizeof bytes + 1, NDEF_TNF_WELL_KNOWN, a, 1, &found) == NDEF_BAD_ARGUMENT, "found: a walk begins far away");
    expect(ndef_find_type(bytes, 21, 0, NDEF_TNF_WELL_KNOWN, b, 1, &found) == NDEF_BAD_ARGUMENT, "found: half a record is passed");
    expect(ndef_find_type(bytes, 15, 0, NDEF_TNF_WELL_KNOWN, b, 1, &found) == NDEF_BAD_ARGUMENT, "found: the message breaks off, and isn't refused");
    expect(ndef_find_id(bytes, 15, 0, y, 1, &found) == NDEF_BAD_ARGUMENT, "found: the message breaks off before the id, and isn't refused");
    expect(found.at == 0x7777777777777777 && found.last == 0x77777777, "found: something is told of none");
    expect(ndef_find_type(bytes, sizeof bytes, 0, NDEF_TNF_WELL_KNOWN, a, 1, &found) == NDEF_OK && found.at == 0 && found.end == 6, "found: the first of a type isn't");
    expect(ndef_find_type(bytes, sizeof bytes, 6, NDEF_TNF_WELL_KNOWN, a, 1, &found) == NDEF_OK && found.at == 15, "found: the next of a type isn't");
    expect(ndef_find_type(bytes, sizeof bytes, 0, NDEF_TNF_EMPTY, a, 0, &found) == NDEF_OK && found.at == 6, "found: the empty record isn't");
    expect(ndef_find_type(bytes, 15, 0, NDEF_TNF_MEDIA, a, 1, &found) == NDEF_OK && found.at == 9 && found.id_length == 1, "found: a media type isn't");
    expect(ndef_find_id(bytes, sizeof bytes, 0, y, 1, &found) == NDEF_OK && ndef_record_at(bytes, sizeof bytes, 15, &one) == NDEF_OK
           && memcmp(&found, &one, sizeof one) == 0, "found: an id isn't, or is told otherwise");
    expect(ndef_find_id(bytes, sizeof bytes, 22, z, 1, &found) == NDEF_OK && found.at == 22, "found: an id of the next message isn't");
}

/* ---- names */

static void version(void) {
    expect(ndef_version() == VERSION_NUMBER, "the version is another one than the header names");
}

static void names(void) {
    static const char *const texts[] = { "Ok", "Refused", "BufferTooSmall", "BadArgument", "End", "More" };
    uint8_t buffer[15];
    ndef_size count;
    for (uint32_t status = 0; status < 6; status++) {
        ndef_size length = strlen(texts[status]);
        memset(buffer, 0x77, sizeof buffer);
        expect(ndef_status_name(status, buffer, length - 1, &count) == NDEF_BUFFER_TOO_SMALL && count == length && buffer[0] == 0x77, "names: a small buffer is enough");
        expect(ndef_status_name(status, buffer, length, &count) == NDEF_OK && count == length && memcmp(buffer, texts[status], length) == 0 && buffer[length] == 0x77,
               "names: a status has another");
    }
    count = 77;
    expect(ndef_status_name(6, buffer, sizeof buffer, &count) == NDEF_BAD_ARGUMENT && count == 77, "names: there are more statuses");
}

/* ---- messages that are built */

static const uint8_t *octets(const char *text) { return (const uint8_t *)text; }

static void built(void) {
    /* "a" with "xy", in one piece; "b" with id "i" and "uvw", in pieces of 2; and "c" with no payload */
    static const uint8_t one[] = { 0xd4, 1, 2, 'a', 'x', 'y' };
    static const uint8_t two[] = { 0x94, 1, 2, 'a', 'x', 'y', 0x3c, 1, 2, 1, 'b', 'i', 'u', 'v', 0x56, 0, 1, 'w' };
    static const uint8_t three[] = { 0x94, 1, 2, 'a', 'x', 'y', 0x3c, 1, 2, 1, 'b', 'i', 'u', 'v', 0x16, 0, 1, 'w', 0x44, 1, 0, 0, 0, 0, 'c' };
    ndef_writing plain = { 4, 0, 0 }, cut = { 4, 0, 2 }, wide = { 4, NDEF_WRITE_LONG, 0 }, wrong = { 4, 1, 0 };
    ndef_message_builder state = { 0, 0, 0 }, kept;
    uint8_t buffer[40], marks[40];
    ndef_size count = 77;
    memset(buffer, 0xa5, sizeof buffer);
    expect(ndef_append(&state, octets("a"), 1, NULL, 0, octets("xy"), 2, &plain, buffer, 5, &count) == NDEF_BUFFER_TOO_SMALL && count == 6, "built: the first needs another length");
    expect(state.length == 0 && state.records == 0 && buffer[0] == 0xa5, "built: a small buffer is written");
    expect(ndef_append(&state, octets("a"), 1, NULL, 0, octets("xy"), 2, &plain, buffer, 6, &count) == NDEF_OK && count == 6, "built: the first isn't appended");
    expect(memcmp(buffer, one, sizeof one) == 0 && buffer[6] == 0xa5, "built: the first is another message");
    expect(state.length == 6 && state.last_at == 0 && state.records == 1, "built: the first is told otherwise");
    memcpy(marks, buffer, sizeof buffer);
    kept = state;
    expect(ndef_append(&state, octets("b"), 1, octets("i"), 1, octets("uvw"), 3, &cut, buffer, 17, &count) == NDEF_BUFFER_TOO_SMALL && count == 18, "built: pieces need another length");
    expect(memcmp(buffer, marks, sizeof buffer) == 0 && state.length == 6 && state.last_at == 0 && state.records == 1, "built: a buffer that is too small for pieces is written");
    expect(ndef_append(&state, octets("b"), 1, octets("i"), 1, octets("uvw"), 3, &cut, buffer, 18, &count) == NDEF_OK && count == 18, "built: pieces aren't appended");
    expect(memcmp(buffer, two, sizeof two) == 0 && buffer[18] == 0xa5, "built: pieces make another message");
    expect(state.length == 18 && state.last_at == 14 && state.records == 2, "built: pieces are told otherwise");
    expect(ndef_append(&state, octets("c"), 1, NULL, 0, NULL, 0, &wide, buffer, sizeof buffer, &count) == NDEF_OK && count == 25, "built: the long form isn't appended");
    expect(memcmp(buffer, three, sizeof three) == 0 && buffer[25] == 0xa5, "built: the long form makes another message");
    expect(state.length == 25 && state.last_at == 18 && state.records == 3, "built: the long form is told otherwise");
    memcpy(marks, buffer, sizeof buffer);
    count = 77;
    expect(ndef_append(&state, octets("a"), 1, NULL, 0, NULL, 0, &wrong, buffer, sizeof buffer, &count) == NDEF_BAD_ARGUMENT, "built: the flag of the first is taken");
    expect(ndef_append(&state, octets("a"), 0, NULL, 0, NULL, 0, &plain, buffer, sizeof buffer, &count) == NDEF_BAD_ARGUMENT, "built: an empty type is taken");
    kept = state, kept.last_at--;
    expect(ndef_append(&kept, octets("a"), 1, NULL, 0, NULL, 0, &plain, buffer, sizeof buffer, &count) == NDEF_BAD_ARGUMENT, "built: another place is taken");
    kept = state, kept.length--;
    expect(ndef_append(&kept, octets("a"), 1, NULL, 0, NULL, 0, &plain, buffer, sizeof buffer, &count) == NDEF_BAD_ARGUMENT, "built: another length is taken");
    kept = state, kept.length = (uint64_t)-1;
    expect(ndef_append(&kept, octets("a"), 1, NULL, 0, NULL, 0, &plain, buffer, sizeof buffer, &count) == NDEF_BAD_ARGUMENT, "built: the greatest length is taken");
    kept = state, kept.last_at = (uint64_t)-1;
    expect(ndef_append(&kept, octets("a"), 1, NULL, 0, NULL, 0, &plain, buffer, sizeof buffer, &count) == NDEF_BAD_ARGUMENT, "built: the greatest place is taken");
    kept = state, kept.records = 0xffffffff;
    expect(ndef_append(&kept, octets("a"), 1, NULL, 0, NULL, 0, &plain, buffer, sizeof buffer, &count) == NDEF_BAD_ARGUMENT, "built: a record too many is taken");
    kept = state, kept.length = 0;
    expect(ndef_append(&kept, octets("a"), 1, NULL, 0, NULL, 0, &plain, buffer, sizeof buffer, &count) == NDEF_BAD_ARGUMENT, "built: records with no length are taken");
    expect(count == 77 && memcmp(buffer, marks, sizeof buffer) == 0 && state.length == 25, "built: a wrong argument leaves something else");
}

/* ---- texts and URIs that are appended */

/* A text "Hi" in "de" with the id "ab", then the URI http://www.x.y, then a text in UTF-16. */
static void appended(void) {
    static const uint8_t long_id[256];
    static const uint8_t one[] = { 0xd9, 1, 5, 2, 'T', 'a', 'b', 2, 'd', 'e', 'H', 'i' };
    static const uint8_t three[] = {
        0x99, 1, 5, 2, 'T', 'a', 'b', 2, 'd', 'e', 'H', 'i',
        0x11, 1, 4, 'U', 1, 'x', '.', 'y',
        0x59, 1, 8, 1, 'T', 'c', 0x81, 'f', 0xfe, 0xff, 0x20, 0xac, 0, 'A' };
    ndef_message_builder state = { 0, 0, 0 }, kept;
    uint8_t buffer[40], marks[40];
    ndef_size count = 77;
    memset(buffer, 0xa5, sizeof buffer);
    expect(ndef_append_text(&state, octets("ab"), 2, octets("de"), 2, octets("Hi"), 2, 0, buffer, 11, &count) == NDEF_BUFFER_TOO_SMALL && count == 12,
           "appended: a text needs another length");
    expect(state.length == 0 && state.records == 0 && buffer[0] == 0xa5, "appended: a small buffer is written");
    expect(ndef_append_text(&state, octets("ab"), 2, octets("de"), 2, octets("Hi"), 2, 0, buffer, 12, &count) == NDEF_OK && count == 12, "appended: a text isn't");
    expect(memcmp(buffer, one, sizeof one) == 0 && buffer[12] == 0xa5, "appended: a text is another message");
    expect(state.length == 12 && state.last_at == 0 && state.records == 1, "appended: a text is told otherwise");
    memcpy(marks, buffer, sizeof buffer);
    expect(ndef_append_uri(&state, NULL, 0, octets("http://www.x.y"), 14, buffer, 19, &count) == NDEF_BUFFER_TOO_SMALL && count == 20, "appended: a URI needs another length");
    expect(memcmp(buffer, marks, sizeof buffer) == 0 && state.length == 12 && state.records == 1, "appended: a buffer that is too small for a URI is written");
    expect(ndef_append_uri(&state, NULL, 0, octets("http://www.x.y"), 14, buffer, 20, &count) == NDEF_OK && count == 20, "appended: a URI isn't");
    expect(state.length == 20 && state.last_at == 12 && state.records == 2, "appended: a URI is told otherwise");
    expect(ndef_append_text(&state, octets("c"), 1, octets("f"), 1, octets("\xe2\x82\xac" "A"), 4, NDEF_AS_UTF16, buffer, 33, &count) == NDEF_BUFFER_TOO_SMALL && count == 34,
           "appended: UTF-16 needs another length");
    expect(ndef_append_text(&state, octets("c"), 1, octets("f"), 1, octets("\xe2\x82\xac" "A"), 4, NDEF_AS_UTF16, buffer, 34, &count) == NDEF_OK && count == 34,
           "appended: UTF-16 isn't");
    expect(memcmp(buffer, three, sizeof three) == 0 && buffer[34] == 0xa5, "appended: the three are another message");
    expect(state.length == 34 && state.last_at == 20 && state.records == 3, "appended: UTF-16 is told otherwise");
    memcpy(marks, buffer, sizeof buffer);
    count = 77;
    expect(ndef_append_text(&state, NULL, 0, octets("f"), 1, octets("A"), 1, 2, buffer, sizeof buffer, &count) == NDEF_BAD_ARGUMENT, "appended: an unknown flag is taken");
    expect(ndef_append_text(&state, NULL, 0, octets("\x80"), 1, octets("A"), 1, 0, buffer, sizeof buffer, &count) == NDEF_BAD_ARGUMENT, "appended: a language beyond ASCII is taken");
    expect(ndef_append_text(&state, NULL, 0, octets("f"), 1, octets("\xff"), 1, 0, buffer, sizeof buffer, &count) == NDEF_BAD_ARGUMENT, "appended: a text beyond UTF-8 is taken");
    expect(ndef_append_uri(&state, NULL, 0, octets("\xff"), 1, buffer, sizeof buffer, &count) == NDEF_BAD_ARGUMENT, "appended: a URI beyond UTF-8 is taken");
    expect(ndef_append_uri(&state, long_id, 256, octets("x"), 1, buffer, sizeof buffer, &count) == NDEF_BAD_ARGUMENT, "appended: an id of 256 bytes is taken");
    kept = state, kept.length--;
    expect(ndef_append_uri(&kept, NULL, 0, octets("x"), 1, buffer, sizeof buffer, &count) == NDEF_BAD_ARGUMENT, "appended: another length is taken");
    expect(ndef_append_text(&kept, NULL, 0, octets("f"), 1, octets("A"), 1, 0, buffer, sizeof buffer, &count) == NDEF_BAD_ARGUMENT, "appended: another length is taken for a text");
    expect(count == 77 && memcmp(buffer, marks, sizeof buffer) == 0 && state.length == 34, "appended: a wrong argument leaves something else");
}

/* ---- a poster written in one call */

/* What a poster is made of, by places in these bytes. */
static const uint8_t poster_bytes[] = "http://www.x.ytext/xenHidGimage/png\x89P\xff";
enum { POSTER_BYTES = sizeof poster_bytes - 1 };

/* Each argument that is refused differs in one number from one that is taken. */
static void poster_refused(void) {
    static const ndef_title_writing titles[4] = {
        { { 20, 2 }, { 22, 2 }, 2 }, { { 37, 1 }, { 22, 2 }, 0 }, { { 20, 2 }, { 37, 1 }, 0 }, { { 20, 2 }, { 38, 1 }, 0 } };
    static const ndef_icon_writing icons[3] = { { { 26, 0 }, { 35, 2 } }, { { 26, 13 }, { 35, 2 } }, { { 26, 9 }, { 35, 4 } } };
    static const ndef_poster_writing wrong[] = {
        { { 0, 38 }, { 0, 0 }, 0, 0, 0, 0, 0 }, { { 0, 39 }, { 0, 0 }, 0, 0, 0, 0, 0 }, { { 0, 14 }, { 37, 1 }, 1, 0, 0, 0, 0 },
        { { 0, 14 }, { 38, 1 }, 1, 0, 0, 0, 0 }, { { 0, 14 }, { 0, 0 }, 2, 0, 0, 0, 0 }, { { 0, 14 }, { 0, 0 }, 0, 2, 0, 0, 0 },
        { { 0, 14 }, { 0, 0 }, 0, 1, 256, 0, 0 }, { { 0, 14 }, { 0, 0 }, 0, 0, 0, 2, 0 } };
    static const ndef_poster_writing plain = { { 0, 14 }, { 0, 0 }, 0, 0, 0, 0, 0 };
    uint8_t buffer[80];
    ndef_size count = 77;
    buffer[0] = 0xa5;
    for (size_t i = 0; i < sizeof wrong / sizeof wrong[0]; i++)
        expect(ndef_write_poster(poster_bytes, POSTER_BYTES, &wrong[i], NULL, 0, NULL, 0, buffer, sizeof buffer, &count) == NDEF_BAD_ARGUMENT,
               "poster: a wrong number is taken");
    for (int i = 0; i < 4; i++)
        expect(ndef_write_poster(poster_bytes, POSTER_BYTES, &plain, &titles[i], 1, NULL, 0, buffer, sizeof buffer, &count) == NDEF_BAD_ARGUMENT,
               "poster: a wrong title is taken");
    for (int i = 0; i < 3; i++)
        expect(ndef_write_poster(poster_bytes, POSTER_BYTES, &plain, NULL, 0, &icons[i], 1, buffer, sizeof buffer, &count) == NDEF_BAD_ARGUMENT,
               "poster: a wrong icon is taken");
    expect(count == 77 && buffer[0] == 0xa5, "poster: a wrong argument leaves something else");
}

int main(void) {
    found();
    version();
    names();
    built();
    appended();
    poster_refused();
    return failed != 0;
}
