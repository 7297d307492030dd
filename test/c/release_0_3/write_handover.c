/* write_handover.c */
#include "ndef.h"

#include <stdio.h>
#include <string.h>

static uint8_t select_payload[256], message[512];
static ndef_size length;
static ndef_built built;

static uint32_t append(uint32_t tnf, const char *type, const char *id, const uint8_t *payload,
                       ndef_size size) {
    const ndef_writing how = { tnf, 0, 0 };
    return ndef_append(&built, (const uint8_t *)type, strlen(type), (const uint8_t *)id, strlen(id),
                       payload, size, &how, message, sizeof message, &length);
}

int main(void) {
    static const uint8_t ids[] = "bw", bluetooth[] = { 2, 0 }, wifi[] = { 16, 0 };
    const ndef_part references[] = { { 0, 1 }, { 1, 1 } };
    const ndef_alternative_writing carriers[] = { { 0, 1, 1 }, { 1, 1, 0 } };
    const ndef_select_writing how = { { 0, 0 }, 2, 0, 0 };
    ndef_size select_length, count;
    ndef_link links[2];
    if (ndef_write_select(&how, ids, 2, references, 2, carriers, 2, select_payload,
                          sizeof select_payload, &select_length) != NDEF_OK
        || append(NDEF_TNF_WELL_KNOWN, "Hs", "", select_payload, select_length) != NDEF_OK
        || append(NDEF_TNF_MEDIA, "application/vnd.bluetooth.ep.oob", "b", bluetooth, 2) != NDEF_OK
        || append(NDEF_TNF_MEDIA, "application/vnd.wfa.wsc", "w", wifi, 2) != NDEF_OK)
        return 1;
    for (ndef_size at = 0; at < length; at++) printf("%02x", message[at]);
    puts("");

    if (ndef_links(message, length, select_payload, select_length, links, 2, &count) != NDEF_OK)
        return 1;
    for (ndef_size index = 0; index < count; index++) {
        ndef_alternative_parts carrier;
        ndef_checked why;
        ndef_record record;
        if (ndef_alternative(select_payload + links[index].carrier_at, links[index].carrier_length,
                             &carrier, &why) != NDEF_OK
            || ndef_record_at(message, length, links[index].record_at, &record) != NDEF_OK)
            return 1;
        printf("%s %.*s\n", carrier.power == 1 ? "active" : "inactive",
               (int)record.type_length, (const char *)message + record.type_at);
    }
    return 0;
}
