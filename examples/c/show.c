/* Prints the records of the message with which a tag image begins, which is given as a file. */
#include "ndef.h"

#include <stdio.h>

static uint8_t image[65536];
static uint8_t payload[65536];
static uint8_t spelled[2 * 65536];

/* Bytes as they are where they are printable ASCII, others as \xHH. */
static void print_bytes(const uint8_t *bytes, ndef_size length) {
    putchar('"');
    for (ndef_size i = 0; i < length; i++) {
        if (bytes[i] >= 0x20 && bytes[i] < 0x7f && bytes[i] != '"' && bytes[i] != '\\')
            putchar(bytes[i]);
        else
            printf("\\x%02x", bytes[i]);
    }
    putchar('"');
}

/* Characters as they are, but control characters (U+0000 to U+001F and U+007F to U+009F) as bytes, \xHH. */
static void print_utf8(const uint8_t *text, ndef_size length) {
    putchar('"');
    for (ndef_size i = 0; i < length; i++) {
        const int is_high_control = text[i] == 0xc2 && text[i + 1] < 0xa0;
        if (text[i] >= 0x20 && text[i] != 0x7f && !is_high_control)
            putchar(text[i]);
        else
            printf("\\x%02x", text[i]);
        if (is_high_control)
            printf("\\x%02x", text[++i]);
    }
    putchar('"');
}

/* A text with its language, a link, and the bytes of any other payload. */
static void print_payload(uint32_t kind, const uint8_t *bytes, ndef_size length) {
    ndef_text_parts parts;
    ndef_checked why;
    ndef_size count;
    if (kind == NDEF_KIND_TEXT && ndef_text(bytes, length, &parts, &why) == NDEF_OK
        && ndef_text_in_utf8(bytes, length, spelled, sizeof spelled, &count, &why) == NDEF_OK) {
        printf("text ");
        print_bytes(bytes + parts.language_at, parts.language_length);
        putchar(' ');
        print_utf8(spelled, count);
    } else if (kind == NDEF_KIND_URI
        && ndef_uri(bytes, length, 0, spelled, sizeof spelled, &count, &why) == NDEF_OK) {
        printf("link ");
        print_utf8(spelled, count);
    } else {
        print_bytes(bytes, length);
    }
}

static int print_refusal(const ndef_checked *checked) {
    printf("refused at %llu: %u %s\n", (unsigned long long)checked->place, checked->reason, ndef_reason_text(checked->reason));
    return 1;
}

int main(int count, char **words) {
    FILE *file = count == 2 ? fopen(words[1], "rb") : NULL;
    if (file == NULL) {
        fprintf(stderr, "usage: show FILE\n");
        return 2;
    }
    size_t length = fread(image, 1, sizeof image, file);
    fclose(file);

    ndef_limits limits;
    ndef_default_limits(&limits);
    ndef_checked checked;
    if (ndef_check(image, length, &limits, &checked) != NDEF_OK)
        return print_refusal(&checked);

    printf("records %u, bytes %llu\n", checked.records, (unsigned long long)checked.place);
    ndef_record record;
    for (ndef_size at = 0; ndef_record_at(image, checked.place, at, &record) == NDEF_OK; at = record.end) {
        ndef_size payload_length = 0;
        if (ndef_payload(image, checked.place, at, payload, sizeof payload, &payload_length) != NDEF_OK)
            return 3;
        printf(" tnf %u type ", record.tnf);
        print_bytes(image + record.type_at, record.type_length);
        printf(" id ");
        print_bytes(image + record.id_at, record.id_length);
        printf(" payload %llu in %llu: ", (unsigned long long)payload_length, (unsigned long long)record.chunks);
        print_payload(ndef_kind(image, checked.place, &record, NDEF_KIND_OTHER), payload, payload_length);
        putchar('\n');
    }
    return 0;
}
