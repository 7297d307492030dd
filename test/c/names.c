/* The names of the headers: the lists and the functions that return strings agree with the constants and with what the
 * library writes to buffers. */
#include "ndef.h"
#include "expect.h"

#include <stdio.h>
#include <string.h>

/* The lists have the numbers of the constants. */
#define NUMBERS(number, name, text) typedef char number_of_##name[number == NDEF_REASON_##name ? 1 : -1];
NDEF_REASONS(NUMBERS)
#define FIELD_NUMBERS(number, name, text) typedef char number_of_field_##name[number == NDEF_FIELD_##name ? 1 : -1];
NDEF_FIELDS(FIELD_NUMBERS)
#define STATUS_NUMBERS(number, name, text) typedef char number_of_status_##name[number == NDEF_##name ? 1 : -1];
NDEF_STATUSES(STATUS_NUMBERS)
#define SENTENCES(number, name, text) typedef char number_of_sentence_##name[number == NDEF_REASON_##name ? 1 : -1];
NDEF_SENTENCES(SENTENCES)

#define TEXT(number, name, text) [number] = text,
static const char *const texts[] = { NDEF_REASONS(TEXT) };
enum { COUNT = sizeof texts / sizeof texts[0] };

static const char *const fields[] = { NDEF_FIELDS(TEXT) };
enum { FIELDS = sizeof fields / sizeof fields[0] };

static void try_fields(void) {
    uint8_t buffer[31];
    for (uint32_t name = 0; name < 300; name++) {
        ndef_size count = 77;
        if (name == 0 || name >= FIELDS) {
            expect(ndef_field_name(name, buffer, sizeof buffer, &count) == NDEF_BAD_ARGUMENT && count == 77,
                   "a number that is no field has a name");
            continue;
        }
        const ndef_size length = strlen(fields[name]);
        memset(buffer, 0x77, sizeof buffer);
        expect(ndef_field_name(name, buffer, length - 1, &count) == NDEF_BUFFER_TOO_SMALL && count == length && buffer[0] == 0x77,
               "a buffer that is too small for the name of a field is enough");
        expect(ndef_field_name(name, buffer, sizeof buffer, &count) == NDEF_OK && count == length, fields[name]);
        expect(!memcmp(buffer, fields[name], length) && (length == sizeof buffer || buffer[length] == 0x77), fields[name]);
    }
    expect(FIELDS == 32, "the list has another number of fields");
}

/* What a call writes to a buffer is the string of a function, and a number that the call refuses is "unknown". */
struct names {
    uint32_t (*write)(uint32_t number, uint8_t *buffer, ndef_size size, ndef_size *count);
    const char *(*text)(uint32_t number);
    uint32_t first, last;
    ndef_size most;
};

static void try_name(const struct names *names, uint32_t number, const char *what) {
    uint8_t buffer[80];
    const char *text = names->text(number);
    const ndef_size length = strlen(text);
    ndef_size count = 77;
    memset(buffer, 0x77, sizeof buffer);
    expect(names->write(number, buffer, sizeof buffer, &count) == NDEF_OK && count == length, what);
    expect(length > 0 && length <= names->most && !memcmp(buffer, text, length) && buffer[length] == 0x77, what);
    expect(names->write(number, buffer, length - 1, &count) == NDEF_BUFFER_TOO_SMALL && count == length, what);
    expect(names->write(number, NULL, 0, &count) == NDEF_BUFFER_TOO_SMALL && count == length, what);
    for (uint32_t other = names->first; other < number; other++) expect(strcmp(names->text(other), text) != 0, what);
}

static void try_names(const struct names *names, const char *what) {
    const uint32_t others[] = { names->last + 1, 300, 0x10000 + names->last, UINT32_MAX };
    ndef_size longest = 0, count = 77;
    for (uint32_t number = names->first; number <= names->last; number++) {
        try_name(names, number, what);
        if (strlen(names->text(number)) > longest) longest = strlen(names->text(number));
    }
    expect(longest == names->most, what);
    for (size_t i = 0; i < sizeof others / sizeof others[0]; i++) {
        expect(names->write(others[i], NULL, 0, &count) == NDEF_BAD_ARGUMENT && count == 77, what);
        expect(!strcmp(names->text(others[i]), "unknown"), what);
    }
    if (names->first) expect(!strcmp(names->text(0), "unknown"), what);
}

static void try_strings(void) {
    const struct names reasons = { ndef_reason_name, ndef_reason_text, 1, 25, 16 };
    const struct names sentences = { ndef_reason_sentence, ndef_sentence_text, 1, 25, 70 };
    const struct names statuses = { ndef_status_name, ndef_status_text, 0, 5, 14 };
    const struct names of_fields = { ndef_field_name, ndef_field_text, 1, 31, 31 };
    try_names(&reasons, "the name of a reason is another");
    try_names(&sentences, "the sentence of a reason is another");
    try_names(&statuses, "the name of a status is another");
    try_names(&of_fields, "the name of a field is another");
}

/* The version of the header as text is that of its numbers; more.c compares these with the library's. */
static void try_version(void) {
    char text[40];
    snprintf(text, sizeof text, "%d.%d.%d", NDEF_VERSION_MAJOR, NDEF_VERSION_MINOR, NDEF_VERSION_PATCH);
    expect(!strcmp(ndef_version_string(), text), "the version as text is another");
    expect(!strcmp(NDEF_VERSION_STRING, text), "the version of the header as text is another");
}

int main(void) {
    uint8_t buffer[16];
    for (uint32_t reason = 0; reason < 300; reason++) {
        ndef_size count = 77;
        uint32_t status = ndef_reason_name(reason, buffer, sizeof buffer, &count);
        if (reason == 0 || reason >= COUNT)
            expect(status == NDEF_BAD_ARGUMENT && count == 77, "a number that is no reason has a name");
        else
            expect(status == NDEF_OK && count == strlen(texts[reason]) && !memcmp(buffer, texts[reason], count),
                   texts[reason]);
    }
    expect(COUNT == 26, "the list has another number of reasons");
    try_fields();
    try_strings();
    try_version();
    return failed != 0;
}
