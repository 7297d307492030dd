/* Calls of the library that cost Go one crossing each: some 60 ns. A value is a call of its own, since a record is a plain struct, which a
 * program makes and compares. */
#ifndef CALLS_H
#define CALLS_H

#include "ndef.h"

#if NDEF_VERSION_MAJOR < 1
#error "ndef for Go needs the library simbegyor-ndef of version 1.0.0 or later"
#endif

/* What the payload of a record is, and where the parts of a text or a URI lie in it. */
typedef struct {
    uint32_t kind, status;
    ndef_text_parts text;
    ndef_uri_parts uri;
    ndef_checked why;
} go_value;

static inline uint32_t go_kind(uint32_t tnf, _GoString_ name, uint32_t within) {
    const ndef_record record = {.type_length = _GoStringLen(name), .tnf = tnf};
    return ndef_kind((const uint8_t *)_GoStringPtr(name), record.type_length, &record, within);
}

static inline go_value go_value_of(uint32_t tnf, _GoString_ name, const uint8_t *payload, ndef_size length, uint32_t flags) {
    go_value value;
    value.kind = go_kind(tnf, name, NDEF_KIND_OTHER);
    value.status = NDEF_OK;
    if (value.kind == NDEF_KIND_TEXT) value.status = ndef_text(payload, length, &value.text, &value.why);
    if (value.kind == NDEF_KIND_URI) value.status = ndef_split_uri(payload, length, flags, &value.uri, &value.why);
    return value;
}

#endif
