/* Prints the texts and links of a tag's bytes, as a reader gives them: a message, and what follows it on the tag. */
#include "ndef.h"
#include <stdio.h>

static const uint8_t tag[] = "\x91\x01\x08T\x02" "enHello" "\x51\x01\x0cU\x02" "example.com\xfe";
static uint8_t payload[256], spelled[512];

static void print_tag(const uint8_t *bytes, ndef_size length) {
    ndef_limits limits;
    ndef_checked checked, why;
    ndef_record record;
    ndef_size size, count;
    ndef_default_limits(&limits);
    if (ndef_check(bytes, length, &limits, &checked) != NDEF_OK) {
        printf("refused at %lu: %s\n", (unsigned long)checked.place, ndef_reason_text(checked.reason));
        return;
    }
    for (ndef_size at = 0; ndef_record_at(bytes, checked.place, at, &record) == NDEF_OK; at = record.end) {
        const uint32_t kind = ndef_kind(bytes, checked.place, &record, NDEF_KIND_OTHER);
        if (ndef_payload(bytes, checked.place, at, payload, sizeof payload, &size) != NDEF_OK)
            printf("%lu bytes are too many\n", (unsigned long)size);
        else if (kind == NDEF_KIND_TEXT && ndef_text_in_utf8(payload, size, spelled, sizeof spelled, &count, &why) == NDEF_OK)
            printf("text %.*s\n", (int)count, (const char *)spelled);
        else if (kind == NDEF_KIND_URI && ndef_uri(payload, size, 0, spelled, sizeof spelled, &count, &why) == NDEF_OK)
            printf("link %.*s\n", (int)count, (const char *)spelled);
    }
}

#ifdef ESP_PLATFORM
void app_main(void) { print_tag(tag, sizeof tag - 1); }
#else
int main(void) { print_tag(tag, sizeof tag - 1); return 0; }
#endif
