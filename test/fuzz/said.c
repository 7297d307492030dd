/* What holds of the sentences of the library, whatever bytes it is given: why they are refused, what may help, and what is strange in what
 * is accepted (include/ndef.h). Messages come from standard input as test/fuzz/messages.c writes them; each is fed in parts too. */
#include "ndef.h"

#include <stdio.h>
#include <stdlib.h>
#include <string.h>

enum { MOST = 1 << 14, MOST_FIELDS = 1 << 12, LONGEST = 192 };
static uint8_t surrounded[1 + MOST], *const message = surrounded + 1, sentence[LONGEST + 1];
static ndef_field fields[MOST_FIELDS];
static ndef_size length, count;
static unsigned long long messages, sentences;

#define HOLDS(fact) ((fact) ? (void)0 : fail(__LINE__, #fact))

static void fail(int line, const char *fact) {
    fprintf(stderr, "line %d, message %llu: %s\n", line, messages, fact);
    exit(1);
}

/* A sentence was written, or there is none: ASCII, at most 192 bytes, to a full stop or a question mark. */
static int is_said(uint32_t status) {
    HOLDS(status == NDEF_OK || status == NDEF_END);
    if (status == NDEF_END) return 0;
    HOLDS(count > 1 && count <= LONGEST && (sentence[count - 1] == '.' || sentence[count - 1] == '?'));
    for (ndef_size at = 0; at < count; at++) HOLDS(sentence[at] >= ' ' && sentence[at] < 0x7f);
    sentence[count] = 0, sentences++;
    return 1;
}

static uint32_t checked_from(ndef_size at, const ndef_limits *limits) {
    ndef_checked checked;
    return ndef_check(message + at, length - at, limits, &checked);
}

/* Hints for which the header of release 1.0 has no names. */
enum { INTERRUPTED = 15, UNFINISHED = 16, OD = 17 };

/* A hint is true: a message begins where it says so, and the standard profile reads what it says that this reads. */
static void look_at_hint(const ndef_limits *limits) {
    static const char near[] = "a message begins at byte ";
    const char *text = (const char *)sentence, *at = strstr(text, near);
    ndef_limits standard = *limits;
    standard.flags |= NDEF_STANDARD;
    if (at != NULL) HOLDS(checked_from(strtoul(at + strlen(near), NULL, 10), limits) == NDEF_OK);
    if (strstr(text, "NDEF_STANDARD") != NULL)
        HOLDS(checked_from(0, limits) == NDEF_REFUSED && checked_from(0, &standard) == NDEF_OK);
}

/* The number of the hint; 0 where there is none. There is one where there is a sentence; a place is that of a message, or in the bytes that
 * a tag has for one. */
static uint32_t found_at(const uint8_t *bytes, ndef_size size, const ndef_limits *limits) {
    ndef_found found = { 0, 0, 0 };
    ndef_checked checked;
    const uint32_t answer = ndef_find_hint(bytes, size, limits, &found);
    HOLDS(answer == ndef_hint(bytes, size, limits, sentence, LONGEST, &count));
    if (answer != NDEF_OK) return 0;
    HOLDS(found.hint >= NDEF_HINT_TLV && found.hint <= OD);
    if (found.hint == INTERRUPTED || found.hint == UNFINISHED) HOLDS(found.at > 0 && found.length == 0);
    else if (found.hint > NDEF_HINT_MESSAGE) HOLDS(found.at == 0 && found.length == 0);
    if (found.hint == NDEF_HINT_MESSAGE)
        HOLDS(found.at < size && found.length == 0 && ndef_check(bytes + found.at, size - found.at, limits, &checked) == NDEF_OK);
    if (found.hint < NDEF_HINT_MESSAGE) HOLDS(found.at > 0 && found.length < 1 << 24);
    return found.hint;
}

/* A byte of what surrounds a message on a tag: the hint says that the message begins at byte 1, exactly where one begins there and the bytes
 * don't look like the memory of a tag. */
static void look_at_surrounded(uint32_t status, const ndef_limits *limits) {
    surrounded[0] = "\0\1\3"[messages % 3];
    const uint32_t hint = found_at(surrounded, length + 1, limits);
    const int said = is_said(ndef_hint(surrounded, length + 1, limits, sentence, LONGEST, &count));
    if ((hint >= 1 && hint <= 3) || hint >= INTERRUPTED) return;
    HOLDS((said && strstr((const char *)sentence, " a message begins at byte 1.") != NULL) == (status == NDEF_OK));
}

/* The sentences of what is refused; none where it is accepted. */
static void look_at_refusal(uint32_t status, const ndef_limits *limits) {
    const int refused = is_said(ndef_refusal_message(message, length, limits, sentence, LONGEST, &count));
    HOLDS(refused == (status == NDEF_REFUSED));
    found_at(message, length, limits);
    if (!is_said(ndef_hint(message, length, limits, sentence, LONGEST, &count))) return;
    HOLDS(refused);
    look_at_hint(limits);
}

/* The remarks on each field and each record of the message with which the bytes begin. */
static void look_at_remarks(const ndef_checked *checked, const ndef_limits *limits) {
    ndef_checked why;
    ndef_size number = 0;
    HOLDS(ndef_fields(message, length, limits, fields, MOST_FIELDS, &number, &why) == NDEF_OK && number <= MOST_FIELDS);
    for (ndef_size i = 0; i < number; i++) {
        const ndef_field *field = &fields[i];
        is_said(ndef_field_warning(field->name, message + field->at, field->length, sentence, LONGEST, &count));
    }
    for (ndef_size index = 0; index < checked->records; index++)
        is_said(ndef_record_warning(message, length, index, sentence, LONGEST, &count));
    HOLDS(ndef_record_warning(message, length, checked->records, sentence, LONGEST, &count) == NDEF_END);
}

/* Fed in parts of some bytes each, the message is answered as it is whole. */
static void feed(uint32_t status, const ndef_checked *checked, const ndef_limits *limits, ndef_size part) {
    ndef_checker checker;
    ndef_checked fed;
    uint32_t last = NDEF_MORE;
    HOLDS(ndef_begin(limits, &checker) == NDEF_OK);
    for (ndef_size at = 0; at < length && last == NDEF_MORE; at += part)
        last = ndef_feed(&checker, message + at, length - at < part ? length - at : part, &fed);
    if (last == NDEF_MORE) HOLDS(status == NDEF_REFUSED && checked->place == length);
    else HOLDS(last == status && fed.place == checked->place && fed.reason == checked->reason);
}

static void look(const ndef_limits *limits) {
    ndef_checked checked;
    const uint32_t status = ndef_check(message, length, limits, &checked);
    HOLDS(status == NDEF_OK || status == NDEF_REFUSED);
    look_at_refusal(status, limits);
    look_at_surrounded(status, limits);
    if (status == NDEF_OK) look_at_remarks(&checked, limits);
    else for (ndef_size index = 0; index < 3; index++) is_said(ndef_record_warning(message, length, index, sentence, LONGEST, &count));
    feed(status, &checked, limits, 1 + messages % 7);
    feed(status, &checked, limits, 1 + length * (messages % 11) / 11);
}

int main(void) {
    uint8_t head[4];
    while (fread(head, 1, 4, stdin) == 4) {
        length = head[0] | (ndef_size)head[1] << 8;
        if (length > MOST || fread(message, 1, length, stdin) != length) return 2;
        messages++;
        for (uint32_t flags = 0; flags <= NDEF_STANDARD; flags += NDEF_STANDARD) {
            const ndef_limits usual = { 1048576, 1024, 4096, flags }, small = { 20, 2, 2, flags }, least = { 20, 1, 1, flags };
            look(&usual);
            if (messages % 8 == 0) look(&small);
            if (messages % 8 == 4) look(&least);
        }
    }
    printf("%llu sentences of %llu messages\n", sentences, messages);
    return sentences == 0;
}
