/* Prints the texts and links of a Type 2 Tag, of what a PN532 answers where it reads the tag's memory. */
#include "ndef.h"
#include <stdio.h>
#include <string.h>

/* The answers to InDataExchange with the tag's command READ of the pages 4 and 8: D5 41, the status and 16 bytes. */
static const uint8_t answers[][19] = {
    {0xD5, 0x41, 0, 0x03, 0x1C, 0x91, 0x01, 0x08, 'T', 0x02, 'e', 'n', 'H', 'e', 'l', 'l', 'o', 0x51, 0x01},
    {0xD5, 0x41, 0, 0x0C, 'U', 0x02, 'e', 'x', 'a', 'm', 'p', 'l', 'e', '.', 'c', 'o', 'm', 0xFE, 0x00}};
static uint8_t memory[sizeof answers / sizeof *answers * 16], payload[256], spelled[512];

static void print_tag(const uint8_t *bytes, ndef_size length) {
    ndef_limits limits;
    ndef_checked checked, why;
    ndef_record record;
    ndef_size size, count;
    ndef_default_limits(&limits);
    if (ndef_check(bytes, length, &limits, &checked) != NDEF_OK) {
        const char *why = ndef_reason_text(checked.reason);
        printf("refused at %lu: %s: %s\n", (unsigned long)checked.place, why, ndef_sentence_text(checked.reason));
        return;
    }
    for (ndef_size at = 0; ndef_record_at(bytes, checked.place, at, &record) == NDEF_OK; at = record.end) {
        const uint32_t kind = ndef_kind(bytes, checked.place, &record, NDEF_KIND_OTHER);
        if (ndef_payload(bytes, checked.place, at, payload, sizeof payload, &size) != NDEF_OK)
            printf("%lu bytes are too many\n", (unsigned long)size);
        else if (kind == NDEF_KIND_TEXT && ndef_text_in_utf8(payload, size, spelled, sizeof spelled, &count, &why) == NDEF_OK)
            printf("text %.*s\n", (int)count, (const char *)spelled);
        else if (kind == NDEF_KIND_URI && ndef_uri(payload, size, 0, spelled, sizeof spelled, &count, &why) == NDEF_OK)
            printf("link %.*s\n", (int)count, (const char *)spelled);
    }
}

/* Puts the memory together, and prints the message in it: the library finds where the tag has one. */
static void print_answers(void) {
    ndef_limits limits;
    ndef_found found;
    for (size_t page = 0; page < sizeof memory / 16; page++) {
        if (answers[page][2] != 0) { printf("the reader has the error %02x\n", answers[page][2]); return; }
        memcpy(memory + 16 * page, answers[page] + 3, 16);
    }
    ndef_default_limits(&limits);
    if (ndef_find_hint(memory, sizeof memory, &limits, &found) == NDEF_OK && found.hint == NDEF_HINT_TLV)
        print_tag(memory + found.at, found.length);
    else printf("the tag has no message\n");
}

#ifdef ESP_PLATFORM
void app_main(void) { print_answers(); }
#else
int main(void) { print_answers(); return 0; }
#endif
