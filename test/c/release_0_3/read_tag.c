/* read_tag.c */
#include "ndef.h"

#include <stdio.h>

static uint8_t dump[65536], payload[65536], spelled[65536];
static ndef_checked why;

static void print_text(const char *before, const uint8_t *text, ndef_size length) {
    ndef_text_parts parts;
    ndef_size count;
    if (ndef_text(text, length, &parts, &why) == NDEF_OK
        && ndef_text_in_utf8(text, length, spelled, sizeof spelled, &count, &why) == NDEF_OK)
        printf("%s%.*s: %.*s\n", before, (int)parts.language_length,
               (const char *)text + parts.language_at, (int)count, (const char *)spelled);
}

static void print_uri(const char *before, const uint8_t *uri, ndef_size length) {
    ndef_size count;
    if (ndef_uri(uri, length, 0, spelled, sizeof spelled, &count, &why) == NDEF_OK)
        printf("%s%.*s\n", before, (int)count, (const char *)spelled);
}

static void print_poster(ndef_size length) {
    ndef_poster_parts poster;
    ndef_record record;
    if (ndef_poster(payload, length, 0, &poster, &why) != NDEF_OK) return;
    print_uri("poster ", payload + poster.uri_at, poster.uri_length);
    for (ndef_size at = 0; ndef_record_at(payload, length, at, &record) == NDEF_OK; at = record.end)
        if (ndef_kind(payload, length, &record, NDEF_KIND_SMART_POSTER) == NDEF_KIND_TEXT)
            print_text("  ", payload + record.payload_at, record.payload_length);
}

int main(int words, char **word) {
    FILE *file = words == 2 ? fopen(word[1], "rb") : NULL;
    if (file == NULL) return 2;
    const ndef_size read = fread(dump, 1, sizeof dump, file);
    ndef_limits limits;
    ndef_checked checked;
    ndef_record record;
    fclose(file);
    ndef_usual_limits(&limits);
    if (ndef_check(dump, read, &limits, &checked) != NDEF_OK) {
        printf("refused at %llu: %s\n", (unsigned long long)checked.place,
               ndef_reason_text(checked.reason));
        return 1;
    }
    const ndef_size end = checked.place;
    for (ndef_size at = 0; ndef_record_at(dump, end, at, &record) == NDEF_OK; at = record.end) {
        ndef_size length;
        if (ndef_payload(dump, end, at, payload, sizeof payload, &length) != NDEF_OK) return 3;
        switch (ndef_kind(dump, end, &record, NDEF_KIND_OTHER)) {
        case NDEF_KIND_TEXT: print_text("", payload, length); break;
        case NDEF_KIND_URI: print_uri("link ", payload, length); break;
        case NDEF_KIND_SMART_POSTER: print_poster(length); break;
        default: printf("%llu bytes\n", (unsigned long long)length);
        }
    }
    return 0;
}
