/* Answers a handover request: answer_handover REQUEST TYPE > answer.bin
 * The answer selects the first carrier of the media type; without one, it selects none. */
#include "ndef.h"

#include <stdio.h>
#include <string.h>

static uint8_t request[65536], payload[65536], answer[65536];

int main(int count, char **words) {
    const ndef_writing well_known = { NDEF_TNF_WELL_KNOWN, 0, 0 }, media = { NDEF_TNF_MEDIA, 0, 0 };
    const ndef_alternative_writing active = { 0, 1, 1 };
    ndef_select_writing how = { { 0, 0 }, 0, 0, 0 };
    ndef_message_builder built = { 0, 0, 0 };
    ndef_part id = { 0, 0 };
    ndef_size length, needed;
    ndef_limits limits;
    ndef_checked checked;
    ndef_request_parts asked;
    ndef_record record;
    if (count != 3 || freopen(words[1], "rb", stdin) == NULL) {
        fprintf(stderr, "usage: answer_handover REQUEST TYPE\n");
        return 2;
    }
    const uint8_t *type = (const uint8_t *)words[2];
    const ndef_size read = fread(request, 1, sizeof request, stdin), type_length = strlen(words[2]);
    ndef_default_limits(&limits);
    if (ndef_check(request, read, &limits, &checked) != NDEF_OK
        || ndef_payload(request, read, 0, payload, sizeof payload, &length) != NDEF_OK
        || ndef_request(payload, length, 0, &asked, &checked) != NDEF_OK) {
        fprintf(stderr, "answer_handover: no handover request\n");
        return 1;
    }
    const int is_found = ndef_find_type(request, read, 0, NDEF_TNF_MEDIA, type, type_length, &record) == NDEF_OK;
    if (is_found) id = (ndef_part) { record.id_at, record.id_length };
    how.minor = asked.minor;
    if (ndef_write_select(&how, request, read, &id, 1, &active, is_found, payload, sizeof payload, &length) != NDEF_OK
        || ndef_append(&built, (const uint8_t *)"Hs", 2, NULL, 0, payload, length, &well_known, answer, sizeof answer,
                       &needed) != NDEF_OK)
        return 1;
    if (is_found && (ndef_payload(request, read, record.at, payload, sizeof payload, &length) != NDEF_OK
            || ndef_append(&built, type, type_length, request + id.at, id.length, payload, length, &media, answer,
                           sizeof answer, &needed) != NDEF_OK))
        return 1;
    return fwrite(answer, 1, built.length, stdout) != built.length;
}
