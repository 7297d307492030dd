/* ndef_0_3.h: the names of release 0.3.0 for what has others now, so that a program written for that release compiles
 * unchanged. Include it instead of ndef.h, or after it, and after every other header: `pieces` is a macro from then on,
 * since a member of that name is `chunks` now. CHANGELOG.md has the table. */
#ifndef NDEF_0_3_H
#define NDEF_0_3_H

#include "ndef.h"

/* Calls. */
#define ndef_usual_limits ndef_default_limits
#define ndef_why ndef_refusal_message
#define ndef_pieces ndef_chunks
#define ndef_field_remark ndef_field_warning
#define ndef_record_remark ndef_record_warning
#define ndef_rewrite ndef_normalize
#define ndef_uri_view ndef_split_uri

/* A struct, and a member of ndef_limits and ndef_record. */
#define ndef_built ndef_message_builder
#define pieces chunks

/* A status. As text it is "BufferTooSmall", and was "NoRoom". */
#define NDEF_NO_ROOM NDEF_BUFFER_TOO_SMALL

#endif
