/* Random layouts and payloads by ndef_check_layout: its answer is that of a search over all payloads of the layout, which knows only what
 * each field may hold. Where an octet is refused, some payload of the same length begins with the octets before it, and none with it. */
#include "ndef.h"

#include <stdio.h>
#include <stdlib.h>
#include <string.h>

enum { MOST = 12, FIELDS = 4 };
static uint64_t state = 88172645463325252u;
static unsigned long long laid, refused, lengths, bad;

static uint32_t below(uint32_t n) {
    state ^= state << 13;
    state ^= state >> 7;
    state ^= state << 17;
    return (uint32_t)((state >> 32) % n);
}

static void expect(int holds, const char *what) {
    if (holds) return;
    printf("%s\n", what);
    exit(1);
}

/* RFC 3629, section 4: the octets that may come first in a character of so many octets, and second after it. */
typedef struct { uint8_t first, last, least, most, count; } lead;
static const lead leads[] = {
    { 0x00, 0x7f, 0, 0, 1 }, { 0xc2, 0xdf, 0x80, 0xbf, 2 }, { 0xe0, 0xe0, 0xa0, 0xbf, 3 }, { 0xe1, 0xec, 0x80, 0xbf, 3 },
    { 0xed, 0xed, 0x80, 0x9f, 3 }, { 0xee, 0xef, 0x80, 0xbf, 3 }, { 0xf0, 0xf0, 0x90, 0xbf, 4 }, { 0xf1, 0xf3, 0x80, 0xbf, 4 },
    { 0xf4, 0xf4, 0x80, 0x8f, 4 },
};

/* Whether some text of `length` octets begins with the `known` ones. */
static int text_begins(const uint8_t *octets, int known, int length) {
    if (known <= 0) return 1;
    for (unsigned i = 0; i < sizeof leads / sizeof *leads; i++) {
        const lead *at = leads + i;
        if (octets[0] < at->first || octets[0] > at->last || at->count > length) continue;
        for (int k = 1; k < at->count && k < known; k++) {
            if (octets[k] < (k == 1 ? at->least : 0x80) || octets[k] > (k == 1 ? at->most : 0xbf)) return 0;
        }
        return text_begins(octets + at->count, known - at->count, length - at->count);
    }
    return 0;
}

/* Whether some payload of `length` octets of these fields begins with the `known` ones. */
static int begins(const ndef_layout_field *fields, int count, const uint8_t *octets, int known, int length) {
    if (known < 0) known = 0;
    if (count == 0) return length == 0;
    if (fields->form == NDEF_LAYOUT_REST) return 1;
    if (fields->form == NDEF_LAYOUT_UTF8) return text_begins(octets, known, length);
    if (fields->form == NDEF_LAYOUT_OCTETS) {
        int n = (int)fields->least;
        return n <= length && begins(fields + 1, count - 1, octets + n, known - n, length - n);
    }
    if (length == 0) return 0;
    if (fields->form == NDEF_LAYOUT_WITHIN) {
        if (known > 0 && (octets[0] < fields->least || octets[0] > fields->most)) return 0;
        return begins(fields + 1, count - 1, octets + 1, known - 1, length - 1);
    }
    for (int n = known > 0 ? octets[0] : 0; n <= (known > 0 ? octets[0] : 255); n++) {
        if (n < length && begins(fields + 1, count - 1, octets + 1 + n, known - 1 - n, length - 1 - n)) return 1;
    }
    return 0;
}

/* Fields whose octets and lengths are small, so that many payloads fit. */
static int random_layout(ndef_layout_field *fields) {
    int count = (int)below(FIELDS + 1);
    for (int i = 0; i < count; i++) {
        ndef_layout_field one = { NDEF_LAYOUT_OCTETS + below(3), 0, 77777 };
        if (i + 1 == count && below(2)) one.form = below(2) ? NDEF_LAYOUT_UTF8 : NDEF_LAYOUT_REST;
        if (one.form == NDEF_LAYOUT_OCTETS) one.least = below(4);
        if (one.form == NDEF_LAYOUT_WITHIN) one.least = below(3), one.most = one.least + below(4);
        fields[i] = one;
    }
    return count;
}

static void fill(uint8_t *payload, int length) {
    static const uint8_t of_texts[] = { 'a', 0x80, 0xbf, 0xc2, 0xe0, 0xa0, 0xed, 0x9f, 0xf0, 0x90, 0xf4, 0x8f, 0xff };
    for (int i = 0; i < length; i++) payload[i] = below(3) ? (uint8_t)below(6) : of_texts[below(sizeof of_texts)];
}

static void one_round(void) {
    uint8_t payload[MOST + 1];
    ndef_layout_field fields[FIELDS];
    ndef_laid_out out = { 77, 77, 77 };
    int count = random_layout(fields), length = (int)below(MOST + 1);
    fill(payload, length);
    uint32_t status = ndef_check_layout(payload, (ndef_size)length, fields, (ndef_size)count, &out);
    if (begins(fields, count, payload, length, length)) {
        expect(status == NDEF_OK && out.place == (uint64_t)length && out.reason == 0 && out.length_fits == 1, "a payload of the layout is refused");
        laid++;
        return;
    }
    expect(status == NDEF_REFUSED, "another payload is taken");
    if (!begins(fields, count, payload, 0, length)) {
        expect(out.place == 0 && out.reason == 23 && out.length_fits == 0, "a length that doesn't fit is not said");
        lengths++;
        return;
    }
    int at = (int)out.place;
    expect(out.length_fits == 1 && at < length, "an octet isn't refused");
    expect(begins(fields, count, payload, at, length) && !begins(fields, count, payload, at + 1, length), "another octet is refused");
    refused++;
}

/* What isn't a layout: a form of its own, bounds in the wrong order, a field after one that goes to the end, too many. */
static void bad_layouts(void) {
    static ndef_layout_field many[256];
    const ndef_layout_field wrong[][2] = {
        { { 0, 1, 1 }, { NDEF_LAYOUT_REST, 0, 0 } }, { { 6, 1, 1 }, { NDEF_LAYOUT_REST, 0, 0 } },
        { { NDEF_LAYOUT_WITHIN, 2, 1 }, { NDEF_LAYOUT_REST, 0, 0 } }, { { NDEF_LAYOUT_WITHIN, 0, 256 }, { NDEF_LAYOUT_REST, 0, 0 } },
        { { NDEF_LAYOUT_REST, 0, 0 }, { NDEF_LAYOUT_OCTETS, 0, 0 } }, { { NDEF_LAYOUT_UTF8, 0, 0 }, { NDEF_LAYOUT_UTF8, 0, 0 } },
    };
    ndef_laid_out out = { 77, 78, 79 };
    for (unsigned i = 0; i < sizeof wrong / sizeof *wrong; i++, bad++) {
        expect(ndef_check_layout((const uint8_t *)"abc", 3, wrong[i], 2, &out) == NDEF_BAD_ARGUMENT, "a layout is taken that is none");
    }
    for (int i = 0; i < 256; i++) many[i] = (ndef_layout_field){ NDEF_LAYOUT_OCTETS, 0, 0 };
    expect(ndef_check_layout(NULL, 0, many, 256, &out) == NDEF_BAD_ARGUMENT, "256 fields are taken");
    expect(out.place == 77 && out.reason == 78 && out.length_fits == 79, "a bad layout leaves something");
    expect(ndef_check_layout(NULL, 0, many, 255, &out) == NDEF_OK, "255 fields aren't taken");
}

int main(int count, char **words) {
    unsigned long rounds = count > 1 ? strtoul(words[1], NULL, 10) : 100000;
    bad_layouts();
    for (unsigned long i = 0; i < rounds; i++) one_round();
    expect(laid > rounds / 20 && refused > rounds / 20 && lengths > rounds / 20, "some answer is rare");
    printf("%llu payloads of their layouts, %llu refused, %llu of another length, %llu layouts that are none\n", laid, refused, lengths, bad);
    return 0;
}
