/* every_name.c: what release 0.3.0 has under names that are others now. */
#include "ndef.h"

#include <string.h>

int main(void) {
    static const uint8_t message[] = { 0xd1, 1, 3, 'U', 3, 'a', 'b' };
    static const ndef_built none;
    uint8_t buffer[192];
    struct ndef_built built = none;
    ndef_limits limits = { .payload = 1, .records = 1, .pieces = 1, .flags = 0 };
    ndef_record record;
    ndef_part part;
    ndef_uri_parts uri;
    ndef_checked why;
    ndef_size count;
    ndef_usual_limits(&limits);
    if (limits.pieces != 4096 || ndef_record_at(message, sizeof message, 0, &record) != NDEF_OK || record.pieces != 1) return 1;
    if (ndef_pieces(message, sizeof message, 0, &part, 1, &count) != NDEF_OK || count != 1) return 2;
    if (ndef_uri_view(message + part.at, part.length, 0, &uri, &why) != NDEF_OK || uri.code != 3) return 3;
    if (ndef_why(message, 3, &limits, buffer, 0, &count) != NDEF_NO_ROOM || count == 0) return 4;
    if (ndef_field_remark(NDEF_FIELD_URI_CODE, (const uint8_t *)"\x24", 1, buffer, sizeof buffer, &count) != NDEF_OK) return 5;
    if (ndef_record_remark(message, sizeof message, 0, buffer, sizeof buffer, &count) != NDEF_END) return 6;
    if (ndef_rewrite(message, sizeof message, 0, buffer, sizeof buffer, &count) != NDEF_OK || count != sizeof message) return 7;
    if (ndef_append_uri(&built, NULL, 0, (const uint8_t *)"http://ab", 9, buffer, sizeof buffer, &count) != NDEF_OK) return 8;
    return memcmp(buffer, message, sizeof message) == 0 && built.records == 1 ? 0 : 9;
}
