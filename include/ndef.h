/* ndef.h: checks, reads and writes messages of the NFC Data Exchange Format (NFC Forum, NDEF 1.0).
 *
 * The library allocates no memory, never blocks, has no global state and reads and writes only what its arguments
 * point to. So every call is safe in any thread and in an interrupt handler. Every call returns, whatever bytes it
 * is given.
 *
 * On x86-64 the archive libndef.a and the shared library run on every processor. Made of what was proved, with glibc
 * both take the code for x86-64-v2 where the processor has that (the shared library by a file in glibc-hwcaps), and
 * check long texts that are not ASCII several times as fast; libndef-v2.a has that code alone, and needs SSSE3 and
 * SSE4.1.
 *
 * The caller must keep these rules:
 *   - A pointer that comes with a length points to that many bytes (or elements). Where the length is 0, the pointer
 *     may have any value, NULL too. Any other pointer points to memory for one value of its type.
 *   - No other pointer is NULL. The library does not test for that: NULL with a length above 0, or NULL for a struct or
 *     a count, reads or writes memory at a low address, which ends the program on most systems.
 *   - What a call writes (`out`, `count`, `refusal`, a buffer, a checker) overlaps none of its other arguments.
 *   - The ndef_checker that ndef_feed is given holds what ndef_begin or ndef_feed left in it, or is a copy of one
 *     that does. Only one call at a time uses it.
 *   - No array has more than PTRDIFF_MAX bytes.
 * All else is checked: whatever the numbers, bytes and structs hold, the answer is defined.
 *
 * Most calls return an ndef_status. With NDEF_BAD_ARGUMENT and NDEF_END the call has written nothing (but ndef_begin
 * has written its checker); with NDEF_BUFFER_TOO_SMALL it has written *count alone. Where the array is too small or
 * there is no field, ndef_fields, ndef_field_at and ndef_next_field have written *refusal as well, and ndef_items,
 * ndef_items_within and ndef_handover_items, which have no count, *out. What `out`, `count`, `refusal` and a buffer
 * held before the call does not matter: nothing need have been written there, so a variable without a value and fresh
 * memory of malloc serve.
 *
 * A buffer (the parameter `buffer`) is memory that the caller supplies, `capacity` bytes long, to which a call writes
 * bytes. The call puts the number of bytes it wrote into *count. Where the buffer is too small, the answer is
 * NDEF_BUFFER_TOO_SMALL and *count has the size that is needed: so a buffer of 0 bytes asks for the size. Text in a
 * buffer ends without a NUL. */
#ifndef NDEF_H
#define NDEF_H

#include <stddef.h>
#include <stdint.h>

/* The version of this header. */
#define NDEF_VERSION_MAJOR 1
#define NDEF_VERSION_MINOR 1
#define NDEF_VERSION_PATCH 0

/* A length, or the offset of a byte counted from 0. It has 64 bits on every machine, since the library is compiled
 * so. Where size_t has 64 bits it is size_t; elsewhere it is uint64_t, with the library's alignment of 8 bytes. */
#if SIZE_MAX == UINT64_MAX
typedef size_t ndef_size;
#elif defined(__GNUC__)
typedef uint64_t ndef_size __attribute__((aligned(8)));
#else
typedef uint64_t ndef_size;
#endif

/* What compilers warn of, if they can, and what a program may define away: NULL for the pointers with these numbers, and
 * with NDEF_ANSWERS an answer that nobody looks at. */
#if !defined(NDEF_NEEDS) && defined(__GNUC__) && !defined(__TINYC__)
#define NDEF_NEEDS(...) __attribute__((nonnull(__VA_ARGS__)))
#define NDEF_ANSWERS(...) __attribute__((nonnull(__VA_ARGS__), warn_unused_result))
#elif !defined(NDEF_NEEDS)
#define NDEF_NEEDS(...)
#define NDEF_ANSWERS(...)
#endif

#ifdef __cplusplus
extern "C" {
#endif

/* What most calls return. */
enum ndef_status {
    NDEF_OK = 0,
    NDEF_REFUSED = 1,      /* the bytes are no message, or no such payload; the call gives the offset and the reason */
    NDEF_BUFFER_TOO_SMALL = 2, /* the buffer is too small, and unchanged; *count has the size that is needed */
    NDEF_BAD_ARGUMENT = 3, /* an argument is wrong; the comment at each call lists what it refuses */
    NDEF_END = 4,          /* there are no more records, references, links or fields */
    NDEF_MORE = 5          /* the bytes so far begin a message, and more must follow (ndef_feed alone) */
};

/* Why a byte is refused. ndef_reason_text gives the name of each, and ndef_sentence_text what it means. */
enum ndef_reason {
    NDEF_REASON_RESERVED_TNF = 1, NDEF_REASON_BEGIN_MISSING = 2, NDEF_REASON_BEGIN_AGAIN = 3,
    NDEF_REASON_UNCHANGED_OUTSIDE = 4, NDEF_REASON_CHANGED_INSIDE = 5, NDEF_REASON_ID_INSIDE = 6,
    NDEF_REASON_CHUNK_AT_END = 7, NDEF_REASON_CHUNK_OF_EMPTY = 8, NDEF_REASON_TOO_MANY_PIECES = 9,
    NDEF_REASON_TOO_MANY_RECORDS = 10, NDEF_REASON_TYPE_NOT_EMPTY = 11, NDEF_REASON_TYPE_EMPTY = 12,
    NDEF_REASON_EMPTY_NOT_EMPTY = 13, NDEF_REASON_PAYLOAD_TOO_LARGE = 14, NDEF_REASON_TEXT_BIT = 15,
    NDEF_REASON_LANGUAGE = 16, NDEF_REASON_UTF8 = 17, NDEF_REASON_UTF16 = 18, NDEF_REASON_URI_CODE = 19,
    NDEF_REASON_URI_MISSING = 20, NDEF_REASON_URI_AGAIN = 21, NDEF_REASON_VERSION = 22, NDEF_REASON_DOES_NOT_FIT = 23,
    NDEF_REASON_END_OF_INPUT = 24, NDEF_REASON_COLLISION_MISSING = 25
};

/* The type name format of a record (TNF, NDEF 1.0, 3.2.6). */
enum ndef_tnf {
    NDEF_TNF_EMPTY = 0,
    NDEF_TNF_WELL_KNOWN = 1,
    NDEF_TNF_MEDIA = 2,
    NDEF_TNF_ABSOLUTE_URI = 3,
    NDEF_TNF_EXTERNAL = 4,
    NDEF_TNF_UNKNOWN = 5 /* with NDEF_STANDARD the reserved 7 is read as this too */
};

/* ---- check */

/* How large a message may be, and how it is checked.
 *   payload  the most bytes of one record's payload, its chunks joined: 1 to 4294967295
 *   records  the most records of the message: 1 to 65535
 *   chunks   the most chunks of one record: 1 to 65535
 *   flags    NDEF_STANDARD: read the reserved type name format 7 and URI codes above 0x23 as the standards say;
 *            without it they are refused, though the standards ask a reader to accept them. A type name format 7 with a
 *            type, and bit 6 of a text's status octet, are refused in both. docs/FORMAT.md has each difference from
 *            the standards.
 *            NDEF_OPAQUE: don't check payloads; without it texts, URIs, smart posters and handovers are checked too. */
typedef struct ndef_limits {
    uint32_t payload, records, chunks, flags;
} ndef_limits;
enum { NDEF_STANDARD = 1, NDEF_OPAQUE = 2 };

/* Writes the default limits, which suit tags: 1048576 bytes of payload, 1024 records, 4096 chunks, no flags. */
void ndef_default_limits(ndef_limits *out) NDEF_NEEDS(1);

/* What a check finds. */
typedef struct ndef_checked {
    uint64_t place;   /* the length of the message in bytes; if refused, the offset of the first refused byte */
    uint32_t records; /* the number of records; if refused, 0 */
    uint32_t reason;  /* 0; if refused, an ndef_reason */
} ndef_checked;

/* Checks that the bytes begin with a message. Other bytes may follow it.
 * NDEF_OK: the first out->place bytes are a message of out->records records.
 * NDEF_REFUSED: no message begins with the bytes up to and including the one at out->place, for the reason in
 *   out->reason. If out->place is `length`, the reason is NDEF_REASON_END_OF_INPUT: the bytes begin a message, and
 *   more must follow. Where the bytes arrive in parts, use ndef_feed, which looks at each part once.
 * NDEF_BAD_ARGUMENT: a limit is out of range, or an unknown flag is set. */
uint32_t ndef_check(const uint8_t *bytes, ndef_size length, const ndef_limits *limits, ndef_checked *out)
                    NDEF_ANSWERS(3, 4);

/* The state of a check of bytes that arrive in parts. It lies in the caller's memory, aligned to 8 bytes. Of the
 * message it holds the bytes of one type at most, while that arrives in parts, and no byte of an id or a payload. What
 * `words` holds has a meaning for ndef_begin and ndef_feed alone; copying it copies the state. */
typedef struct ndef_checker {
    uint64_t words[61];
} ndef_checker;

/* Begins a check. It overwrites the checker, whatever that held. A checker needs no clean-up.
 * NDEF_OK.
 * NDEF_BAD_ARGUMENT: a limit is out of range, or an unknown flag is set. Then every ndef_feed answers that as well. */
uint32_t ndef_begin(const ndef_limits *limits, ndef_checker *checker) NDEF_NEEDS(1, 2);

/* Checks the next `length` bytes; 0 is allowed. The answer is what ndef_check answers for all bytes fed since
 * ndef_begin, joined, except that NDEF_MORE says that the message goes on. Offsets count from the first byte that
 * was fed.
 * NDEF_OK: the first out->place bytes are a message. NDEF_REFUSED: out has the offset and the reason. After either,
 *   every later feed gives the same answer.
 * NDEF_MORE: the bytes begin a message, and more must follow. out->place is the number of bytes fed, out->reason is
 *   NDEF_REASON_END_OF_INPUT. Feeding 0 bytes gives this answer again.
 * NDEF_BAD_ARGUMENT: ndef_begin answered so. */
uint32_t ndef_feed(ndef_checker *checker, const uint8_t *bytes, ndef_size length, ndef_checked *out) NDEF_ANSWERS(1, 4);

/* Writes the name of a reason to the buffer, in ASCII, at most 16 bytes.
 * NDEF_OK, NDEF_BUFFER_TOO_SMALL. NDEF_BAD_ARGUMENT: there is no such reason. */
uint32_t ndef_reason_name(uint32_t reason, uint8_t *buffer, ndef_size capacity, ndef_size *count) NDEF_ANSWERS(4);

/* Writes what a reason means to the buffer: a sentence of English in ASCII, at most 70 bytes; ndef-explain prints it.
 * NDEF_OK, NDEF_BUFFER_TOO_SMALL. NDEF_BAD_ARGUMENT: there is no such reason. */
uint32_t ndef_reason_sentence(uint32_t reason, uint8_t *buffer, ndef_size capacity, ndef_size *count) NDEF_ANSWERS(4);

/* Writes what was wanted where the bytes are refused, or what the reason means: a sentence of ASCII, at most 192 bytes.
 * NDEF_OK, NDEF_BUFFER_TOO_SMALL. NDEF_END: they begin with a message. NDEF_BAD_ARGUMENT: as with ndef_fields. After
 *   these two the buffer and *count are unchanged. */
uint32_t ndef_refusal_message(const uint8_t *bytes, ndef_size length, const ndef_limits *limits, uint8_t *buffer,
                              ndef_size capacity, ndef_size *count) NDEF_ANSWERS(3, 6);

/* What a hint is about. */
enum ndef_hint_number {
    NDEF_HINT_TLV = 1,          /* an NDEF message TLV of a tag has bytes for a message, or none */
    NDEF_HINT_ATTRIBUTES = 2,   /* a message comes after the attribute block of a Type 3 Tag */
    NDEF_HINT_FILE = 3,         /* a message comes after its length, as in a file of a Type 4 Tag */
    NDEF_HINT_MESSAGE = 4,      /* a message begins after other bytes */
    NDEF_HINT_TERMINATOR = 5,   /* the terminator of a tag's TLV blocks is in place of a message */
    NDEF_HINT_DIGITS = 6,       /* the bytes are digits */
    NDEF_HINT_XXD = 7,          /* the bytes are a dump by xxd */
    NDEF_HINT_HEXDUMP = 8,      /* the bytes are a dump by hexdump -C */
    NDEF_HINT_WORDS = 9,        /* the bytes are a dump by od or hexdump of numbers of more than one byte */
    NDEF_HINT_FLIPPER = 10,     /* the bytes are an NFC file of a Flipper */
    NDEF_HINT_PROXMARK = 11,    /* the bytes are what the client of a Proxmark prints */
    NDEF_HINT_BASE64 = 12,      /* the bytes may be base64 */
    NDEF_HINT_CODE = 13,        /* the identifier code of a URI may be missing */
    NDEF_HINT_STANDARD = 14,    /* a reader of the standard profile accepts the bytes */
    NDEF_HINT_INTERRUPTED = 15, /* reserved areas of a tag may lie before the end of an NDEF message TLV */
    NDEF_HINT_UNFINISHED = 16,  /* a Type 3 Tag is being written: its message is not whole yet */
    NDEF_HINT_OD = 17           /* the bytes are a dump by od -tx1 */
};

/* What may help where bytes are refused, by numbers. */
typedef struct ndef_found {
    uint32_t hint;    /* the hint, one of ndef_hint_number */
    ndef_size at;     /* the offset at which a message may begin; 0 where the hint names none */
    ndef_size length; /* the number of bytes there that a tag has for it; 0 where the hint names none */
} ndef_found;

/* Writes a sentence that may help where the bytes are refused, as ndef_refusal_message does: they are the memory of a
 * tag or a text that spells bytes; the first is 00, 01 or 03 and a message begins at one of the offsets 1 to 16; the
 * code of a URI may be missing; or NDEF_STANDARD reads the bytes. It may take 17 times as long as a check.
 * NDEF_OK, NDEF_BUFFER_TOO_SMALL, NDEF_BAD_ARGUMENT: as with ndef_refusal_message. NDEF_END: also where nothing is
 *   known to help. */
uint32_t ndef_hint(const uint8_t *bytes, ndef_size length, const ndef_limits *limits, uint8_t *buffer,
                   ndef_size capacity, ndef_size *count) NDEF_ANSWERS(3, 6);

/* Says by numbers what may help where the bytes are refused: which hint it is, and of one on the memory of a tag
 * where a message may begin and how many bytes the tag has for it.
 * NDEF_OK: `out` has the hint whose sentence ndef_hint writes.
 * NDEF_END: the bytes begin with a message, or nothing is known to help; `out` is unchanged.
 * NDEF_BAD_ARGUMENT: as with ndef_fields; `out` is unchanged. */
uint32_t ndef_find_hint(const uint8_t *bytes, ndef_size length, const ndef_limits *limits, ndef_found *out)
                        NDEF_ANSWERS(3, 4);

/* ---- read records */

/* A record: where its parts lie in the bytes of the message. Of its first chunk the type, the id and the payload follow
 * one another, up to the end of that chunk; so an empty part, too, has its offset. */
typedef struct ndef_record {
    ndef_size at;                   /* where the record begins */
    ndef_size end;                  /* where the next record begins */
    ndef_size type_at, type_length;
    ndef_size id_at, id_length;     /* the length is 0 if the record has no id, or an empty one */
    ndef_size payload_at;           /* where the payload of its first chunk begins */
    ndef_size part_length;          /* the payload length of its first chunk; with one chunk, of the whole payload */
    ndef_size payload_length;       /* the length of the whole payload, its chunks joined */
    ndef_size chunks;               /* the number of chunks; 1 if the record is not chunked */
    uint32_t tnf;                   /* an ndef_tnf */
    uint32_t last;                  /* 1 for the last record of the message, else 0 */
} ndef_record;

/* Gives the record that begins at an offset. The first record of a message begins at 0, the next at the `end` of the
 * one before, up to the record whose `last` is 1. If ndef_check took the message, this reaches every record of it.
 * In other bytes the call says whether a whole record begins at the offset: an unchunked record, or an initial
 * chunk with all chunks that follow.
 * NDEF_OK: `out` has the record. NDEF_END: `at` is `length`. NDEF_BAD_ARGUMENT: no record begins at any other `at`. */
uint32_t ndef_record_at(const uint8_t *bytes, ndef_size length, ndef_size at, ndef_record *out) NDEF_ANSWERS(4);

/* What the payload of a record is, as its type says. */
enum ndef_kinds {
    NDEF_KIND_OTHER = 0,        /* a type that the standards read here do not define in that message */
    NDEF_KIND_TEXT = 1,         /* T, for ndef_text */
    NDEF_KIND_URI = 2,          /* U, for ndef_uri */
    NDEF_KIND_SMART_POSTER = 3, /* Sp, for ndef_poster */
    NDEF_KIND_REQUEST = 4,      /* Hr, for ndef_request */
    NDEF_KIND_SELECT = 5,       /* Hs, for ndef_select */
    NDEF_KIND_CARRIER = 6,      /* Hc, for ndef_carrier */
    NDEF_KIND_ACTION = 7, NDEF_KIND_SIZE = 8, NDEF_KIND_MEDIA_TYPE = 9, /* act, s and t, in a smart poster */
    NDEF_KIND_ALTERNATIVE = 10, /* ac, in a request or select, for ndef_alternative */
    NDEF_KIND_COLLISION = 11,   /* cr, in a request */
    NDEF_KIND_ERROR = 12        /* err, in a select, for ndef_error */
};

/* Returns what the payload of a record is: one of ndef_kinds. The record is what ndef_record_at wrote for the same
 * bytes. `within` is 0 for a record of the message itself; for one of the message within a payload it is the kind of
 * that payload. If ndef_check took the message without NDEF_OPAQUE, each payload whose kind is not NDEF_KIND_OTHER is a
 * payload of that kind. The answer is also NDEF_KIND_OTHER where the type of the record does not lie within the bytes,
 * its tnf is above 5, or payloads of the kind `within` hold no message. */
uint32_t ndef_kind(const uint8_t *bytes, ndef_size length, const ndef_record *record, uint32_t within) NDEF_ANSWERS(3);

/* Writes the whole payload of the record that begins at an offset to the buffer, its chunks joined.
 * NDEF_OK, NDEF_BUFFER_TOO_SMALL. NDEF_BAD_ARGUMENT: no record begins at `at`, or `at` is `length`. */
uint32_t ndef_payload(const uint8_t *bytes, ndef_size length, ndef_size at, uint8_t *buffer, ndef_size capacity,
                      ndef_size *count) NDEF_ANSWERS(6);

/* ---- write records */

/* How a record is written.
 *   tnf    an ndef_tnf
 *   flags  NDEF_WRITE_FIRST: it is the first record of its message. NDEF_WRITE_LAST: it is the last.
 *          NDEF_WRITE_LONG: write the payload length in four bytes even where one would do.
 *   chunk  the payload bytes of each chunk but the last; 0: don't chunk the record */
typedef struct ndef_writing {
    uint32_t tnf, flags, chunk;
} ndef_writing;
enum { NDEF_WRITE_FIRST = 1, NDEF_WRITE_LAST = 2, NDEF_WRITE_LONG = 4 };

/* Writes a record to the buffer. With an id of length 0 the record gets no id. Records written one after the other,
 * the first with NDEF_WRITE_FIRST and the last with NDEF_WRITE_LAST, are a message.
 * NDEF_OK, NDEF_BUFFER_TOO_SMALL.
 * NDEF_BAD_ARGUMENT: tnf is above 5; an unknown flag is set; the type or the id has more than 255 bytes; the
 *   payload has more than 4294967295 bytes; tnf is NDEF_TNF_UNKNOWN and the type is not empty; tnf is
 *   NDEF_TNF_WELL_KNOWN, NDEF_TNF_MEDIA, NDEF_TNF_ABSOLUTE_URI or NDEF_TNF_EXTERNAL and the type is empty; tnf is
 *   NDEF_TNF_EMPTY and the type, id or payload is not empty. */
uint32_t ndef_write_record(const uint8_t *type, ndef_size type_length, const uint8_t *id, ndef_size id_length,
                           const uint8_t *payload, ndef_size payload_length, const ndef_writing *how, uint8_t *buffer,
                           ndef_size capacity, ndef_size *count) NDEF_ANSWERS(7, 10);

/* A record that is written in steps, for a caller that does not have the whole payload, or no memory for the record.
 * It is plain numbers: it may be copied and kept. `head` is 0 once the payload is written, if it has a byte. */
typedef struct ndef_writer {
    ndef_writing how;        /* how the record is written */
    uint32_t type_length;    /* the bytes of the type */
    uint32_t id_length;      /* the bytes of the id */
    uint32_t payload_length; /* the bytes of the whole payload */
    uint32_t taken;          /* the bytes of the payload that are written */
    uint32_t head;           /* the bytes that are written of the head, type and id of the chunk that is begun */
} ndef_writer;

/* Begins a record that is written in steps, whose type, id and payload have these lengths. Nothing of it is written
 * yet.
 * NDEF_OK: the writer holds it.
 * NDEF_BAD_ARGUMENT: what ndef_write_record answers so of a type, an id and a payload of these lengths. */
uint32_t ndef_writer_begin(ndef_writer *writer, ndef_size type_length, ndef_size id_length, ndef_size payload_length,
                           const ndef_writing *how) NDEF_ANSWERS(1, 5);

/* Writes the next bytes of the record to the buffer, as many as there are and fit. `part` is the payload from byte
 * writer->taken on, or as much of it as is at hand: the call takes what it writes, and moves writer->taken on by
 * that. The type and the id are the same in each call. What the calls write, one after another, is what
 * ndef_write_record writes of the whole payload.
 * NDEF_OK: *count bytes were written. Where they do not fill the buffer, the whole part was taken, and either more
 *   of the payload is needed (*count may then be 0) or the record is whole.
 * NDEF_END: the record is whole.
 * NDEF_BAD_ARGUMENT: the part is longer than what is left of the payload; the type or the id has another length than
 *   ndef_writer_begin was given; the writer holds what these calls never write. */
uint32_t ndef_writer_next(ndef_writer *writer, const uint8_t *type, ndef_size type_length, const uint8_t *id,
                          ndef_size id_length, const uint8_t *part, ndef_size part_length, uint8_t *buffer,
                          ndef_size capacity, ndef_size *count) NDEF_ANSWERS(1, 10);

/* ---- payloads
 *
 * A call that reads a payload is given the whole payload of a record, its chunks joined: its bytes in the message
 * if the record has one chunk, or else what ndef_payload wrote. With NDEF_OK it leaves `refusal` unchanged. With
 * NDEF_REFUSED the bytes are no payload of that type: refusal->place and refusal->reason say where in the payload and
 * why, refusal->records is 0, and nothing else is written. */

/* Writes the URI of a URI record (`U`) to the buffer, in UTF-8, with its prefix spelled out. Flags: with
 * NDEF_STANDARD a reserved prefix code means no prefix; without it such a code is refused.
 * NDEF_OK, NDEF_BUFFER_TOO_SMALL, NDEF_REFUSED. NDEF_BAD_ARGUMENT: an unknown flag is set. */
uint32_t ndef_uri(const uint8_t *payload, ndef_size length, uint32_t flags, uint8_t *buffer, ndef_size capacity,
                  ndef_size *count, ndef_checked *refusal) NDEF_ANSWERS(6, 7);

/* Writes the payload of a URI record (`U`) to the buffer, with the longest prefix code that fits the URI.
 * NDEF_OK, NDEF_BUFFER_TOO_SMALL. NDEF_BAD_ARGUMENT: the URI is not UTF-8, or the payload would have more than
 *   4294967295 bytes. */
uint32_t ndef_write_uri(const uint8_t *uri, ndef_size length, uint8_t *buffer, ndef_size capacity, ndef_size *count)
                        NDEF_ANSWERS(5);

/* A text: where its parts lie in the payload. The text begins where the language code ends, also if either is empty. */
typedef struct ndef_text_parts {
    ndef_size language_at, language_length; /* the language code, up to 63 bytes of ASCII */
    ndef_size text_at, text_length;         /* the text; in UTF-16 its byte order mark, if it has one, is its front */
    uint32_t utf16; /* 0: UTF-8. 1: UTF-16, as the byte order mark says; big-endian if there is none */
} ndef_text_parts;

/* Says where the parts of the text lie in the payload of a Text record (`T`): language_at is 1.
 * NDEF_OK, NDEF_REFUSED. */
uint32_t ndef_text(const uint8_t *payload, ndef_size length, ndef_text_parts *out, ndef_checked *refusal)
                   NDEF_ANSWERS(3, 4);

/* Writes the text of a Text record (`T`) to the buffer, in UTF-8. UTF-16 is converted, and its byte order mark is
 * skipped.
 * NDEF_OK, NDEF_BUFFER_TOO_SMALL, NDEF_REFUSED. */
uint32_t ndef_text_in_utf8(const uint8_t *payload, ndef_size length, uint8_t *buffer, ndef_size capacity,
                           ndef_size *count, ndef_checked *refusal) NDEF_ANSWERS(5, 6);

/* Writes the payload of a Text record (`T`) to the buffer. The text is given in UTF-8. Flags: NDEF_AS_UTF16 writes it
 * in UTF-16, big-endian, with a byte order mark in front.
 * NDEF_OK, NDEF_BUFFER_TOO_SMALL.
 * NDEF_BAD_ARGUMENT: the language code has more than 63 bytes or is not ASCII; the text is not UTF-8; the payload
 *   would have more than 4294967295 bytes; an unknown flag is set. */
uint32_t ndef_write_text(const uint8_t *language, ndef_size language_length, const uint8_t *text, ndef_size text_length,
                         uint32_t flags, uint8_t *buffer, ndef_size capacity, ndef_size *count) NDEF_ANSWERS(8);
enum { NDEF_AS_UTF16 = 1 };

/* A handover carrier: where its parts lie in the payload. */
typedef struct ndef_carrier_parts {
    ndef_size type_at, type_length; /* the carrier type, up to 255 bytes; type_at is 2 */
    ndef_size data_at, data_length; /* the carrier data, which begin where the type ends */
    uint32_t format;                /* the carrier type format, 0 to 7: what kind of name the carrier type is */
} ndef_carrier_parts;

/* Says where the parts of the carrier lie in the payload of a Handover Carrier record (`Hc`). Reserved bits are
 * ignored.
 * NDEF_OK, NDEF_REFUSED. */
uint32_t ndef_carrier(const uint8_t *payload, ndef_size length, ndef_carrier_parts *out, ndef_checked *refusal)
                      NDEF_ANSWERS(3, 4);

/* Writes the payload of a Handover Carrier record (`Hc`) to the buffer, with reserved bits 0.
 * NDEF_OK, NDEF_BUFFER_TOO_SMALL.
 * NDEF_BAD_ARGUMENT: the format is above 7; the type has more than 255 bytes; the payload would have more than
 *   4294967295 bytes. */
uint32_t ndef_write_carrier(uint32_t format, const uint8_t *type, ndef_size type_length, const uint8_t *data,
                            ndef_size data_length, uint8_t *buffer, ndef_size capacity, ndef_size *count)
                            NDEF_ANSWERS(8);

/* An alternative carrier of a handover. */
typedef struct ndef_alternative_parts {
    uint32_t power;      /* the power state of the carrier: 0 inactive, 1 active, 2 activating, 3 unknown */
    uint32_t references; /* the number of references, 1 to 256: the carrier data reference and the auxiliary ones */
} ndef_alternative_parts;

/* Gives the power state and the number of references in the payload of an Alternative Carrier record (`ac`).
 * Reserved bits are ignored. Such records are in the message within a handover request or select.
 * NDEF_OK, NDEF_REFUSED. */
uint32_t ndef_alternative(const uint8_t *payload, ndef_size length, ndef_alternative_parts *out, ndef_checked *refusal)
                          NDEF_ANSWERS(3, 4);

/* A part of an array of bytes. An empty part, too, has the offset at which its bytes would begin. */
typedef struct ndef_part {
    ndef_size at, length;
} ndef_part;

/* Says where a reference lies in the payload of an Alternative Carrier record (`ac`). Index 0 is the carrier data
 * reference, which is the id of the record that describes the carrier; the auxiliary references begin at index 1.
 * NDEF_OK. NDEF_END: there are no more references. NDEF_BAD_ARGUMENT: it is no such payload. */
uint32_t ndef_reference(const uint8_t *payload, ndef_size length, ndef_size index, ndef_part *out) NDEF_ANSWERS(4);

/* Writes the payload of an Alternative Carrier record (`ac`) to the buffer, with reserved bits 0. Each reference is a
 * part of `bytes`: the first part is the carrier data reference, and the others are the auxiliary references.
 * NDEF_OK, NDEF_BUFFER_TOO_SMALL.
 * NDEF_BAD_ARGUMENT: the power state is above 3; there are no parts, or more than 256; a part reaches beyond the
 *   bytes, or has more than 255 bytes. */
uint32_t ndef_write_alternative(uint32_t power, const uint8_t *bytes, ndef_size length, const ndef_part *parts,
                                ndef_size parts_count, uint8_t *buffer, ndef_size capacity, ndef_size *count)
                                NDEF_ANSWERS(8);

/* A handover request. */
typedef struct ndef_request_parts {
    ndef_size carriers;    /* the number of its alternative carriers; ndef_link_at gives each */
    uint32_t major, minor; /* its version: major is 1, minor 0 to 15 */
    uint32_t collision;    /* the random number of its Collision Resolution record, the first of its records */
} ndef_request_parts;

/* Gives the version, the random number and the number of alternative carriers in the payload of a Handover Request
 * record (`Hr`). The payload is a version byte and then a message; pass what follows the version byte to
 * ndef_record_at to reach its records. Flags: NDEF_STANDARD reads the reserved type name format 7 and URI codes above
 * 0x23 as the standards say; without it they are refused.
 * NDEF_OK, NDEF_REFUSED. NDEF_BAD_ARGUMENT: an unknown flag is set. */
uint32_t ndef_request(const uint8_t *payload, ndef_size length, uint32_t flags, ndef_request_parts *out,
                      ndef_checked *refusal) NDEF_ANSWERS(4, 5);

/* A handover select. */
typedef struct ndef_select_parts {
    ndef_size carriers;                 /* the number of its alternative carriers; ndef_link_at gives each */
    ndef_size detail_at, detail_length; /* where the data of its first error lie, in the payload; 0 and 0 without one */
    uint32_t major, minor;              /* its version: major is 1, minor 0 to 15 */
    uint32_t has_error, error;          /* 1 and the reason of its error (the standard defines 1 to 3), or 0 and 0 */
} ndef_select_parts;

/* Gives the version, the first error and the number of alternative carriers in the payload of a Handover Select
 * record (`Hs`). The payload is a version byte, alone or followed by a message; pass what follows the version byte
 * to ndef_record_at to reach its records. Flags: as ndef_request.
 * NDEF_OK, NDEF_REFUSED. NDEF_BAD_ARGUMENT: an unknown flag is set. */
uint32_t ndef_select(const uint8_t *payload, ndef_size length, uint32_t flags, ndef_select_parts *out,
                     ndef_checked *refusal) NDEF_ANSWERS(4, 5);

/* A link of a message: an alternative carrier of its handover, and the record that it refers to. */
typedef struct ndef_link {
    ndef_size carrier_at, carrier_length; /* where the payload of the carrier's record lies in that of the handover */
    ndef_size record_index, record_at;    /* the index of the record in the message, from 0, and where it begins */
    uint32_t has_record;                  /* 1; or 0 if it refers to no record, and then index and offset are 0 */
} ndef_link;

/* Gives one link: the alternative carrier with an index, from 0, and the first record of the message whose id
 * equals the carrier data reference. There is no such record if the reference is empty or no record has that id.
 * The bytes begin with the message, and other bytes may follow it. The payload is that of its Handover Request or
 * Handover Select record, its chunks joined, as ndef_payload writes it. Each call reads the whole payload and the
 * message from its start; ndef_links reads the payload once.
 * NDEF_OK. NDEF_END: the handover has no alternative carrier with that index.
 * NDEF_BAD_ARGUMENT: the payload is neither a request nor a select, with reserved values treated as the standard
 *   says; or the bytes don't begin with whole records up to one that is the last. */
uint32_t ndef_link_at(const uint8_t *bytes, ndef_size length, const uint8_t *payload, ndef_size payload_length,
                      ndef_size index, ndef_link *out) NDEF_ANSWERS(6);

/* A smart poster. */
typedef struct ndef_poster_parts {
    ndef_size uri_at, uri_length; /* where the payload of its URI record lies, for ndef_uri */
    uint32_t has_action, action;  /* 1 and the action (0 do, 1 save, 2 open, others are reserved), or 0 and 0 */
    uint32_t has_size, size;      /* 1 and the size in bytes of what the URI leads to, or 0 and 0 */
} ndef_poster_parts;

/* Gives the URI, the first action and the first size in the payload of a Smart Poster record (`Sp`). The payload is
 * a message; pass it to ndef_record_at to reach its records. Flags: as ndef_request.
 * NDEF_OK, NDEF_REFUSED. NDEF_BAD_ARGUMENT: an unknown flag is set. */
uint32_t ndef_poster(const uint8_t *payload, ndef_size length, uint32_t flags, ndef_poster_parts *out,
                     ndef_checked *refusal) NDEF_ANSWERS(4, 5);

/* ---- payloads of handovers, and of the records within smart posters and handovers */

/* Writes the payload of an Action record (`act`) of a smart poster to the buffer, 1 byte.
 * NDEF_OK, NDEF_BUFFER_TOO_SMALL. NDEF_BAD_ARGUMENT: the action is above 255. */
uint32_t ndef_write_action(uint32_t action, uint8_t *buffer, ndef_size capacity, ndef_size *count) NDEF_ANSWERS(4);

/* Writes the payload of a Size record (`s`) of a smart poster to the buffer, 4 bytes: the size in bytes of what the
 * URI leads to.
 * NDEF_OK, NDEF_BUFFER_TOO_SMALL. */
uint32_t ndef_write_size(uint32_t bytes, uint8_t *buffer, ndef_size capacity, ndef_size *count) NDEF_ANSWERS(4);

/* Writes the payload of a Collision Resolution record (`cr`), the first record of a handover request, to the
 * buffer, 2 bytes.
 * NDEF_OK, NDEF_BUFFER_TOO_SMALL. NDEF_BAD_ARGUMENT: the number is above 65535. */
uint32_t ndef_write_collision(uint32_t number, uint8_t *buffer, ndef_size capacity, ndef_size *count) NDEF_ANSWERS(4);

/* Gives the number in the payload of an Action record (`act`, 1 byte), a Size record (`s`, 4 bytes) or a Collision
 * Resolution record (`cr`, 2 bytes): what ndef_write_action, ndef_write_size and ndef_write_collision write. `kind` is
 * NDEF_KIND_ACTION, NDEF_KIND_SIZE or NDEF_KIND_COLLISION.
 * NDEF_OK. NDEF_REFUSED: the payload has more or fewer bytes, so refusal->place is 0 and refusal->reason is
 *   NDEF_REASON_DOES_NOT_FIT. NDEF_BAD_ARGUMENT: `kind` is another. */
uint32_t ndef_number(uint32_t kind, const uint8_t *payload, ndef_size length, uint32_t *out, ndef_checked *refusal)
                     NDEF_ANSWERS(4, 5);

/* A handover error. */
typedef struct ndef_error_parts {
    ndef_size data_at, data_length; /* where its data lie in the payload; data_at is 1, also if they are empty */
    uint32_t reason;                /* 0 to 255; the standard defines 1 to 3 */
    uint32_t has_number, number;    /* with the reasons 1 to 3, 1 and the number that the data hold; else 0 and 0 */
} ndef_error_parts;

/* Gives the reason, the data and the number of the error in the payload of an Error record (`err`) of a handover
 * select.
 * NDEF_OK, NDEF_REFUSED. */
uint32_t ndef_error(const uint8_t *payload, ndef_size length, ndef_error_parts *out, ndef_checked *refusal)
                    NDEF_ANSWERS(3, 4);

/* Writes the payload of an Error record (`err`) of a handover select to the buffer: its reason and its data.
 * NDEF_OK, NDEF_BUFFER_TOO_SMALL.
 * NDEF_BAD_ARGUMENT: the reason is above 255; the reason is 1 or 3 and the data don't have 1 byte; the reason is 2
 *   and the data don't have 4 bytes; the payload would have more than 4294967295 bytes. */
uint32_t ndef_write_error(uint32_t reason, const uint8_t *data, ndef_size length, uint8_t *buffer, ndef_size capacity,
                          ndef_size *count) NDEF_ANSWERS(6);

/* Writes the same payload for the reasons 1 to 3, whose data are a number.
 * NDEF_OK, NDEF_BUFFER_TOO_SMALL.
 * NDEF_BAD_ARGUMENT: the reason is not 1, 2 or 3; the reason is 1 or 3 and the number is above 255. */
uint32_t ndef_write_error_number(uint32_t reason, uint32_t number, uint8_t *buffer, ndef_size capacity,
                                 ndef_size *count) NDEF_ANSWERS(5);

/* Writes the payload of a Handover Request record (`Hr`) or a Handover Select record (`Hs`) to the buffer: a version
 * byte and then the message. A select may have no message; then `length` is 0.
 * NDEF_OK, NDEF_BUFFER_TOO_SMALL.
 * NDEF_BAD_ARGUMENT: `handover` is not an ndef_handover; the major version is not 1; the minor version is above 15;
 *   the payload would have more than 4294967295 bytes; or ndef_check without flags would refuse the payload: the
 *   bytes are not a message of at most 65535 records, none of them chunked; the payload of an `ac`, of a `cr` in a
 *   request or of an `err` in a select is not one of its type; or the first record of a request is not a `cr`. */
uint32_t ndef_write_handover(uint32_t handover, uint32_t major, uint32_t minor, const uint8_t *message,
                             ndef_size length, uint8_t *buffer, ndef_size capacity, ndef_size *count) NDEF_ANSWERS(8);
enum ndef_handover { NDEF_REQUEST = 0, NDEF_SELECT = 1 };

/* What a field of a layout holds. */
enum ndef_layout_form {
    NDEF_LAYOUT_OCTETS = 1,  /* `least` octets */
    NDEF_LAYOUT_WITHIN = 2,  /* one octet, from `least` to `most` */
    NDEF_LAYOUT_COUNTED = 3, /* octets after their number, which is one octet */
    NDEF_LAYOUT_UTF8 = 4,    /* a text in UTF-8, up to the end of the payload */
    NDEF_LAYOUT_REST = 5     /* any octets, up to the end of the payload */
};

/* ---- arrays
 *
 * These calls fill an array of the caller, `capacity` elements long, from its front. They put the number of elements
 * they wrote into *count. Where the array is too small, the answer is NDEF_BUFFER_TOO_SMALL, *count has the size that
 * is needed, and the array is unchanged: so an array of 0 elements asks for the size. Elements after *count are
 * unchanged. */

/* Says where the payload of each chunk lies, of the record that begins at an offset. The parts are in the order of the
 * chunks, so their bytes, joined, are what ndef_payload writes; a record that is not chunked has one.
 * NDEF_OK, NDEF_BUFFER_TOO_SMALL. NDEF_BAD_ARGUMENT: no record begins at `at`, or `at` is `length`. */
uint32_t ndef_chunks(const uint8_t *bytes, ndef_size length, ndef_size at, ndef_part *parts, ndef_size capacity,
                     ndef_size *count) NDEF_ANSWERS(6);

/* Says where each reference lies in the payload of an Alternative Carrier record (`ac`): for each index what
 * ndef_reference gives, the carrier data reference first. ndef_write_alternative takes such parts.
 * NDEF_OK, NDEF_BUFFER_TOO_SMALL. NDEF_BAD_ARGUMENT: it is no such payload. */
uint32_t ndef_references(const uint8_t *payload, ndef_size length, ndef_part *parts, ndef_size capacity,
                         ndef_size *count) NDEF_ANSWERS(5);

/* Gives the links of a message: for each index what ndef_link_at gives for the same message and payload. The payload is
 * read once. Each alternative carrier is compared with the records up to its own, so the time grows with carriers times
 * records: for bytes that you don't trust, have ndef_check take the message with limits first, or use
 * ndef_handover_items.
 * NDEF_OK, NDEF_BUFFER_TOO_SMALL. NDEF_BAD_ARGUMENT: as ndef_link_at answers it. */
uint32_t ndef_links(const uint8_t *bytes, ndef_size length, const uint8_t *payload, ndef_size payload_length,
                    ndef_link *links, ndef_size capacity, ndef_size *count) NDEF_ANSWERS(7);

/* ---- find records */

/* Gives the first record of a type, from the record that begins at an offset on, up to the last of its message. The
 * type name format is an ndef_tnf; types are equal where their bytes are. To find the next one, ask again with its
 * `end`, unless it was the last: what follows the last is another message.
 * NDEF_OK: `out` is what ndef_record_at gives for that record. NDEF_END: none of these records has the type, or
 *   `at` is `length`. NDEF_BAD_ARGUMENT: no record begins at `at`; or, before a record that has the type or is
 *   the last, no whole record begins where the one before it ends. */
uint32_t ndef_find_type(const uint8_t *bytes, ndef_size length, ndef_size at, uint32_t tnf, const uint8_t *type,
                        ndef_size type_length, ndef_record *out) NDEF_ANSWERS(7);

/* Gives the first record with an id, in the same way. No record has the empty id.
 * NDEF_OK, NDEF_END, NDEF_BAD_ARGUMENT: as ndef_find_type. */
uint32_t ndef_find_id(const uint8_t *bytes, ndef_size length, ndef_size at, const uint8_t *id, ndef_size id_length,
                      ndef_record *out) NDEF_ANSWERS(6);

/* ---- fields
 *
 * Each byte of a message belongs to a field: a part of the head of a record, or of a payload that the standards
 * define. The fields follow one another without a gap from the first byte to the last. A message within a
 * payload has fields of its own, with depth 1. The payload of a chunk is one field.
 *
 * The calls with a `refusal` write to it what ndef_check says of the bytes: where refusal->reason is 0, the fields are
 * those of the message with which the bytes begin, refusal->place bytes; otherwise those of the bytes before the
 * refused one, at refusal->place, and the last of them ends there, so that bytes of it may be missing. They look into
 * payloads: NDEF_BAD_ARGUMENT also answers the flag NDEF_OPAQUE. */

/* A field: at least one byte. */
typedef struct ndef_field {
    ndef_size at, length; /* where it begins, and its bytes */
    uint32_t depth;       /* 0 in the message itself, 1 in a message within a payload */
    uint32_t name;        /* one of ndef_field_names, such as NDEF_FIELD_TYPE */
} ndef_field;

/* Fills the array with the fields, in order. It has `capacity` elements; *count is the number of the fields.
 * NDEF_OK: they are those of the message. NDEF_REFUSED: they are those before the refused byte. Elements after *count
 *   are unchanged.
 * NDEF_BUFFER_TOO_SMALL: the array is too small, whether the bytes are refused or not: *count has the size that is
 *   needed, *refusal says the rest, and the array is unchanged.
 * NDEF_BAD_ARGUMENT: a limit is out of range, NDEF_OPAQUE or an unknown flag is set. */
uint32_t ndef_fields(const uint8_t *bytes, ndef_size length, const ndef_limits *limits, ndef_field *fields,
                     ndef_size capacity, ndef_size *count, ndef_checked *refusal) NDEF_ANSWERS(3, 6, 7);

/* Gives the field to which the byte at `place` belongs. Each call looks at the message from its start.
 * NDEF_OK: `out` is that field.
 * NDEF_END: `place` is after the message. NDEF_REFUSED: the bytes are refused, and `place` is the offset of the refused
 *   byte or after it. After either, `out` is unchanged.
 * NDEF_BAD_ARGUMENT: as ndef_fields answers it. */
uint32_t ndef_field_at(const uint8_t *bytes, ndef_size length, const ndef_limits *limits, ndef_size place,
                       ndef_field *out, ndef_checked *refusal) NDEF_ANSWERS(3, 5, 6);

/* Steps to the next field: replaces the field by the one that holds the byte after it. Before the first one the field
 * has `at` and `length` 0. Each call looks at the message from its start, so all fields of a message take time that
 * grows with the square of its length; ndef_fields gives them all in one walk.
 * NDEF_OK: there is one. NDEF_END: it was the last of the message. NDEF_REFUSED: it was the last before the refused
 *   byte. After either, the field is unchanged.
 * NDEF_BAD_ARGUMENT: as ndef_fields answers it. */
uint32_t ndef_next_field(const uint8_t *bytes, ndef_size length, const ndef_limits *limits, ndef_field *field,
                         ndef_checked *refusal) NDEF_ANSWERS(3, 4, 5);

/* Fills the array with the fields of a payload, its chunks joined, of a record with this type name format (an ndef_tnf)
 * and this type: as ndef_fields does, but offsets count from the first byte of the payload. Whatever bytes it has, each
 * of them belongs to a field; where it is cut, bytes of the last field are missing.
 * NDEF_OK, NDEF_BUFFER_TOO_SMALL. NDEF_BAD_ARGUMENT: the type name format is above 5. */
uint32_t ndef_payload_fields(uint32_t tnf, const uint8_t *type, ndef_size type_length, const uint8_t *payload,
                             ndef_size length, ndef_field *fields, ndef_size capacity, ndef_size *count)
                             NDEF_ANSWERS(8);

/* Writes the name of a field to the buffer, in ASCII, at most 31 bytes: such as "PAYLOAD_LENGTH" for
 * NDEF_FIELD_PAYLOAD_LENGTH.
 * NDEF_OK, NDEF_BUFFER_TOO_SMALL. NDEF_BAD_ARGUMENT: there is no such name. */
uint32_t ndef_field_name(uint32_t name, uint8_t *buffer, ndef_size capacity, ndef_size *count) NDEF_ANSWERS(4);

/* ---- what is strange in a message that is accepted */

/* Writes what is strange in a field of a message that ndef_check accepts to the buffer: a sentence of ASCII, at most
 * 192 bytes, as ndef-explain prints it. `octets` are the bytes of the field, `name` is its name.
 * NDEF_OK, NDEF_BUFFER_TOO_SMALL. NDEF_END: nothing is known to be strange. NDEF_BAD_ARGUMENT: there is no such name.
 *   After these two the buffer and *count are unchanged. */
uint32_t ndef_field_warning(uint32_t name, const uint8_t *octets, ndef_size octets_length, uint8_t *buffer,
                            ndef_size capacity, ndef_size *count) NDEF_ANSWERS(6);

/* Writes what is strange in a record beside the others to the buffer, as ndef_field_warning does: two titles in one
 * language, a request without an alternative carrier or with a second collision record, a reference to no record, a
 * text that may be little-endian; or else an id that another record has too. `bytes` begin with a message that
 * ndef_check accepts; the record with `index` 0 is its first. Messages of more than 64 records are not looked through.
 * NDEF_OK, NDEF_BUFFER_TOO_SMALL. NDEF_END: nothing is known to be strange, or there is no such record. */
uint32_t ndef_record_warning(const uint8_t *bytes, ndef_size length, ndef_size index, uint8_t *buffer,
                             ndef_size capacity, ndef_size *count) NDEF_ANSWERS(6);

/* ---- names */

/* The version of the library, as the file VERSION has it: 65536 times the first number, 256 times the second, and the
 * third. */
uint32_t ndef_version(void);

/* Writes the name of an ndef_status to the buffer, in ASCII, at most 14 bytes: such as "BufferTooSmall" for
 * NDEF_BUFFER_TOO_SMALL.
 * NDEF_OK, NDEF_BUFFER_TOO_SMALL. NDEF_BAD_ARGUMENT: there is no such status. */
uint32_t ndef_status_name(uint32_t status, uint8_t *buffer, ndef_size capacity, ndef_size *count) NDEF_ANSWERS(4);

/* ---- URIs where they lie */

/* A URI: the prefix of a code, and after it the rest, which lies in the payload. */
typedef struct ndef_uri_parts {
    ndef_size rest_at, rest_length; /* the rest, in UTF-8 */
    uint32_t code;                  /* 0 to 255; ndef_uri_prefix writes its prefix */
} ndef_uri_parts;

/* Gives the code and where the rest lies in the payload of a URI record (`U`). The URI that ndef_uri writes is the
 * prefix of the code and then the rest. Flags: as ndef_uri.
 * NDEF_OK, NDEF_REFUSED. NDEF_BAD_ARGUMENT: an unknown flag is set. */
uint32_t ndef_split_uri(const uint8_t *payload, ndef_size length, uint32_t flags, ndef_uri_parts *out,
                        ndef_checked *refusal) NDEF_ANSWERS(4, 5);

/* Writes the prefix of a code to the buffer, in ASCII, at most 26 bytes. Code 0 and the reserved codes, 36 to 255, have
 * the empty prefix.
 * NDEF_OK, NDEF_BUFFER_TOO_SMALL. NDEF_BAD_ARGUMENT: the code is above 255. */
uint32_t ndef_uri_prefix(uint32_t code, uint8_t *buffer, ndef_size capacity, ndef_size *count) NDEF_ANSWERS(4);

/* ---- build a message */

/* What is known of a message that is being built in a buffer. All 0: it has no record yet. */
typedef struct ndef_message_builder {
    ndef_size length;  /* its bytes, from the front of the buffer */
    ndef_size last_at; /* where the last chunk of its last record begins */
    uint32_t records; /* the number of its records */
} ndef_message_builder;

/* Appends a record to the message that the buffer begins with, and writes to `builder` what is known of the message
 * then. The buffer holds a whole message after each call: the record that was the last says so no longer. The record is
 * written as ndef_write_record writes it; the only flag is NDEF_WRITE_LONG, since the call knows which record is
 * first and which is last. `builder` and the buffer are as the call before left them; for the first record all of
 * `builder` is 0. *count has the length of the message with the record. Bytes of the buffer after it are unchanged.
 * NDEF_OK. NDEF_BUFFER_TOO_SMALL: the buffer and `builder` are unchanged.
 * NDEF_BAD_ARGUMENT: another flag is set; what ndef_write_record answers so; or `builder` does not fit the buffer: its
 *   length is above `capacity`; the last bytes of the message, from last_at on, are not the chunk that ends a message;
 *   it has 4294967295 records; or its length is 0 and the other members are not. */
uint32_t ndef_append(ndef_message_builder *builder, const uint8_t *type, ndef_size type_length, const uint8_t *id,
                     ndef_size id_length, const uint8_t *payload, ndef_size payload_length, const ndef_writing *how,
                     uint8_t *buffer, ndef_size capacity, ndef_size *count) NDEF_ANSWERS(1, 8, 11);

/* Appends the record of a text (`T`), whose payload is written where it belongs, so it needs no buffer of its own. The
 * text is given in UTF-8. Flags: as ndef_write_text. The record is written in one chunk, with no id where the id has
 * length 0. *count, `builder` and the buffer: as ndef_append.
 * NDEF_OK. NDEF_BUFFER_TOO_SMALL: the buffer and `builder` are unchanged.
 * NDEF_BAD_ARGUMENT: what ndef_write_text answers so; the id has more than 255 bytes; or `builder` does not fit the
 *   buffer, as with ndef_append. */
uint32_t ndef_append_text(ndef_message_builder *builder, const uint8_t *id, ndef_size id_length,
                          const uint8_t *language, ndef_size language_length, const uint8_t *text,
                          ndef_size text_length, uint32_t flags, uint8_t *buffer, ndef_size capacity, ndef_size *count)
                          NDEF_ANSWERS(1, 11);

/* Appends the record of a URI (`U`) in the same way.
 * NDEF_OK. NDEF_BUFFER_TOO_SMALL: the buffer and `builder` are unchanged.
 * NDEF_BAD_ARGUMENT: what ndef_write_uri answers so; the id has more than 255 bytes; or `builder` does not fit the
 *   buffer, as with ndef_append. */
uint32_t ndef_append_uri(ndef_message_builder *builder, const uint8_t *id, ndef_size id_length, const uint8_t *uri,
                         ndef_size uri_length, uint8_t *buffer, ndef_size capacity, ndef_size *count)
                         NDEF_ANSWERS(1, 8);

/* ---- titles, media types and icons of smart posters
 *
 * The payload is that of a Smart Poster record (`Sp`), its chunks joined. Reserved values are treated as the standard
 * says. Offsets count from the front of this payload. */

/* Gives the titles of a smart poster, one text in each of several languages: where the parts of each lie, in the order
 * of their records. It fills the array as the calls above do.
 * NDEF_OK, NDEF_BUFFER_TOO_SMALL. NDEF_BAD_ARGUMENT: it is no such payload; ndef_poster with NDEF_STANDARD says where
 *   and why. */
uint32_t ndef_poster_titles(const uint8_t *payload, ndef_size length, ndef_text_parts *titles, ndef_size capacity,
                            ndef_size *count) NDEF_ANSWERS(5);

/* Gives the first title in a language, such as "en". Upper and lower case are the same in the language code.
 * NDEF_OK. NDEF_END: the poster has no title in the language. NDEF_BAD_ARGUMENT: it is no such payload. */
uint32_t ndef_title(const uint8_t *payload, ndef_size length, const uint8_t *language, ndef_size language_length,
                    ndef_text_parts *out) NDEF_ANSWERS(5);

/* Says where the media type (`t`) of what the URI leads to lies, such as "text/html", in UTF-8; of several the first.
 * NDEF_OK. NDEF_END: the poster has none. NDEF_BAD_ARGUMENT: it is no such payload. */
uint32_t ndef_poster_media_type(const uint8_t *payload, ndef_size length, ndef_part *out) NDEF_ANSWERS(3);

/* Where an icon of a smart poster lies: its type, and after the id of its record the data. */
typedef struct ndef_icon {
    ndef_part media_type; /* such as "image/png" */
    ndef_part data;       /* the bytes of the image */
} ndef_icon;

/* Gives the icons of a smart poster: where the media type and the bytes of each lie, in the order of their records. It
 * fills the array as the calls above do. Each record of a media type (NDEF_TNF_MEDIA) counts as an icon. The standard
 * asks for types that begin with "image/" or "video/", and the call does not look at that: look at the type before you
 * use the data.
 * NDEF_OK, NDEF_BUFFER_TOO_SMALL. NDEF_BAD_ARGUMENT: it is no such payload. */
uint32_t ndef_poster_icons(const uint8_t *payload, ndef_size length, ndef_icon *icons, ndef_size capacity,
                           ndef_size *count) NDEF_ANSWERS(5);

/* ---- a message written again */

/* Writes the message that the bytes begin with again, each record in one chunk. Other bytes may follow the message.
 * Without a flag that is its shortest spelling: payload lengths below 256 in one byte, and no empty ids. Flags:
 * NDEF_WRITE_LONG: all payload lengths in four bytes.
 * NDEF_OK, NDEF_BUFFER_TOO_SMALL.
 * NDEF_BAD_ARGUMENT: another flag is set; the bytes don't begin with whole records up to one that is the last; one of
 *   the records can't be written so, as ndef_write_record would refuse it; or the length would need more than 64
 *   bits. */
uint32_t ndef_normalize(const uint8_t *bytes, ndef_size length, uint32_t flags, uint8_t *buffer, ndef_size capacity,
                        ndef_size *count) NDEF_ANSWERS(6);

/* ---- smart posters written in one call */

/* A title of a smart poster that is written. */
typedef struct ndef_title_writing {
    ndef_part language; /* its language code, such as "en": ASCII, at most 63 bytes */
    ndef_part text;     /* the title, in UTF-8 */
    uint32_t utf16;     /* 1 to write it in UTF-16, 0 to write it in UTF-8 */
} ndef_title_writing;

/* An icon of a smart poster that is written. */
typedef struct ndef_icon_writing {
    ndef_part media_type; /* such as "image/png", 1 to 255 bytes */
    ndef_part data;       /* the bytes of the image */
} ndef_icon_writing;

/* What else a smart poster that is written says. What isn't there doesn't matter: `media_type` where has_media_type is
 * 0, `action` where has_action is 0, `size` where has_size is 0. */
typedef struct ndef_poster_writing {
    ndef_part uri;               /* the URI itself, in UTF-8 */
    ndef_part media_type;        /* the media type of what the URI leads to, in UTF-8 */
    uint32_t has_media_type;     /* 1 or 0 */
    uint32_t has_action, action; /* 1 and the action (0 do, 1 save, 2 open, 3 to 255 are reserved), or 0 */
    uint32_t has_size, size;     /* 1 and the size in bytes of what the URI leads to, or 0 */
} ndef_poster_writing;

/* Writes the payload of a Smart Poster record (`Sp`) to the buffer: a message of the URI record (`U`), the titles
 * (`T`), the action (`act`), the size (`s`), the media type (`t`) and the icons, in this order. Each part lies in
 * `bytes`, and parts may overlap. The records have no ids, and each is written in one chunk, as ndef_write_record
 * writes it without NDEF_WRITE_LONG. An icon is a record of its media type (NDEF_TNF_MEDIA). Give each title a language
 * of its own, and icons a type that begins with "image/" or "video/": the standard asks for that, and the call does not
 * look at it.
 * NDEF_OK, NDEF_BUFFER_TOO_SMALL.
 * NDEF_BAD_ARGUMENT: a part does not lie within `bytes`; the URI or the media type is not UTF-8; what ndef_write_text
 *   answers so for a title; the media type of an icon has no bytes or more than 255; has_media_type, has_action or
 *   has_size is neither 0 nor 1; the action is above 255; there would be more than 65535 records; or a payload would
 *   have more than 4294967295 bytes. */
uint32_t ndef_write_poster(const uint8_t *bytes, ndef_size length, const ndef_poster_writing *how,
                           const ndef_title_writing *titles, ndef_size titles_count, const ndef_icon_writing *icons,
                           ndef_size icons_count, uint8_t *buffer, ndef_size capacity, ndef_size *count)
                           NDEF_ANSWERS(3, 10);

/* ---- handovers written in one call */

/* An alternative carrier of a handover that is written. Its references are some of an array of parts, one after
 * another: the carrier data reference, which is the id of the record that describes the carrier, and then the auxiliary
 * references. */
typedef struct ndef_alternative_writing {
    ndef_size first;      /* which of the parts is the carrier data reference, counted from 0 */
    ndef_size references; /* the number of its references, 1 to 256 */
    uint32_t power;       /* the power state of the carrier: 0 inactive, 1 active, 2 activating, 3 unknown */
} ndef_alternative_writing;

/* Writes the payload of a Handover Request record (`Hr`) of version 1.minor to the buffer: a Collision Resolution
 * record (`cr`) with a random number, and then an Alternative Carrier record (`ac`) for each alternative carrier, in
 * their order. Each reference is a part of `bytes`. The records have no ids, and each is written in one chunk, as
 * ndef_write_record writes it without NDEF_WRITE_LONG.
 * NDEF_OK, NDEF_BUFFER_TOO_SMALL.
 * NDEF_BAD_ARGUMENT: the minor version is above 15; the number is above 65535; the references of an alternative carrier
 *   are not all among the parts; what ndef_write_alternative answers so for its power state and its references; there
 *   would be more than 65535 records; or the payload would have more than 4294967295 bytes. */
uint32_t ndef_write_request(uint32_t minor, uint32_t collision, const uint8_t *bytes, ndef_size length,
                            const ndef_part *references, ndef_size references_count,
                            const ndef_alternative_writing *alternatives, ndef_size alternatives_count, uint8_t *buffer,
                            ndef_size capacity, ndef_size *count) NDEF_ANSWERS(11);

/* What else a handover select that is written says. Where has_error is 0, `data` and `reason` don't matter. */
typedef struct ndef_select_writing {
    ndef_part data;             /* the data of the error */
    uint32_t minor;             /* the minor version, 0 to 15; the major version is 1 */
    uint32_t has_error, reason; /* 1 and the reason of the error, or 0 */
} ndef_select_writing;

/* Writes the payload of a Handover Select record (`Hs`) in the same way: an Alternative Carrier record (`ac`) for each
 * alternative carrier, in their order, and then an Error record (`err`) where has_error is 1. Without any of them it is
 * the version alone, which selects no carrier. The data of the error are a part of `bytes`.
 * NDEF_OK, NDEF_BUFFER_TOO_SMALL.
 * NDEF_BAD_ARGUMENT: the minor version is above 15; has_error is neither 0 nor 1; the data do not lie within `bytes`;
 *   what ndef_write_error answers so for the error; or what ndef_write_request answers so for the alternative carriers,
 *   the records and the payload. */
uint32_t ndef_write_select(const ndef_select_writing *how, const uint8_t *bytes, ndef_size length,
                           const ndef_part *references, ndef_size references_count,
                           const ndef_alternative_writing *alternatives, ndef_size alternatives_count, uint8_t *buffer,
                           ndef_size capacity, ndef_size *count) NDEF_ANSWERS(1, 10);

/* ---- a message and all its records, in one call */

/* A record, in numbers of 32 bits: offsets and lengths in the bytes. Its id lies between its type and its payload, so
 * at payload_at - id_length. */
typedef struct ndef_item {
    uint32_t at;              /* where it begins */
    uint32_t end;             /* where the next one begins */
    uint32_t tnf;             /* the type name format, 0 to 5 */
    uint32_t kind;            /* the number of its kind, which ndef_kind says of a record in this message */
    uint32_t type_at;         /* where its type begins */
    uint32_t type_length;     /* the bytes of its type, at most 255 */
    uint32_t id_length;       /* the bytes of its id, at most 255 */
    uint32_t payload_at;      /* where the payload of its first chunk begins */
    uint32_t payload_length;  /* the bytes of its payload, its chunks joined */
    uint32_t chunks;          /* the number of chunks; 1 if the record is not chunked */
    /* 1 for a text in UTF-8, 2 for one in UTF-16, 3 for a URI. 0 for any other record, for one in several chunks, and
     * under NDEF_OPAQUE: then the members after it are 0 */
    uint32_t form;
    uint32_t number;          /* the code of the prefix of a URI, else 0 */
    uint32_t language_at;     /* where the language code of a text begins, else 0 */
    uint32_t language_length; /* the bytes of the language code of a text, at most 63, else 0 */
    uint32_t text_at;         /* where the text or the rest of the URI begins */
    uint32_t text_length;     /* the bytes of the text or of the rest of the URI */
} ndef_item;

/* Checks the message with which the bytes begin, and gives all its records. `out` becomes what ndef_check makes of
 * it. Each item has what ndef_record_at gives at its `at`, and the kind that ndef_kind says with `within` 0. A text and
 * a URI in one chunk have the parts that ndef_text and ndef_split_uri give, as offsets in these bytes.
 * NDEF_OK: the first out->records items are the records of the message, in order; those after them are unchanged.
 * NDEF_BUFFER_TOO_SMALL: the message is accepted, and `capacity` is less than out->records; the items are unchanged.
 * NDEF_REFUSED: as ndef_check answers it; the items are unchanged. ndef_record_at gives the records before that offset.
 * NDEF_BAD_ARGUMENT: a limit is out of range, an unknown flag is set, or `length` is above 4294967295; nothing is
 *   written. */
uint32_t ndef_items(const uint8_t *bytes, ndef_size length, const ndef_limits *limits, ndef_checked *out,
                    ndef_item *items, ndef_size capacity) NDEF_ANSWERS(3, 4);

/* Checks the payload of a record that holds a message, and gives all records of that message. The items are as
 * ndef_items gives them, but offsets count from the first byte of the payload, and kinds are what ndef_kind says with
 * `within` as `kind`: so the URI and the titles of a poster have their parts. `kind` is NDEF_KIND_SMART_POSTER,
 * NDEF_KIND_REQUEST or NDEF_KIND_SELECT; in a request and a select the message follows the version byte, and a select
 * may have no record. Flags: as ndef_request. The payload is read three times, however many records it has.
 * NDEF_OK: the first out->records items are the records, in order; those after them are unchanged. out->place is
 *   `length`.
 * NDEF_BUFFER_TOO_SMALL: the payload is accepted, and `capacity` is less than out->records; the items are unchanged.
 * NDEF_REFUSED: `out` has what ndef_poster, ndef_request or ndef_select answers of it; the items are unchanged.
 * NDEF_BAD_ARGUMENT: `kind` is another, or an unknown flag is set; nothing is written. */
uint32_t ndef_items_within(uint32_t kind, const uint8_t *payload, ndef_size length, uint32_t flags, ndef_checked *out,
                           ndef_item *items, ndef_size capacity) NDEF_ANSWERS(5);

/* ---- payloads of a layout that a program gives */

/* A field of the layout of a payload. */
typedef struct ndef_layout_field {
    uint32_t form;  /* what it holds, one of ndef_layout_form */
    uint32_t least; /* its number of octets, or the least octet; else it isn't read */
    uint32_t most;  /* the greatest octet, at most 255; else it isn't read */
} ndef_layout_field;

/* What a check of a payload by its layout answers. */
typedef struct ndef_laid_out {
    uint64_t place;       /* the length of the payload, or the offset of the refused octet */
    uint32_t reason;      /* 0, or the number of the reason */
    uint32_t length_fits; /* 1, or 0 where no payload of the layout has the length of this one */
} ndef_laid_out;

/* Checks a payload by a layout, for a record type of the program's own: the fields of the layout follow one another
 * up to the end of the payload. A text in UTF-8 or any octets can be the last field alone. `out->place` becomes the
 * length of the payload, or the offset of the first octet after which no payload of the same length is one of the
 * layout. No payload of more than 4294967295 bytes is one.
 * NDEF_OK: the payload is one of the layout; `out->reason` is 0 and `out->length_fits` is 1.
 * NDEF_REFUSED: it is none; `out->reason` says why. Where no payload of the layout has its length, `out->place` and
 *   `out->length_fits` are 0.
 * NDEF_BAD_ARGUMENT: there are more than 255 fields; the form of a field is unknown; the bounds of an octet are in
 *   the wrong order or above 255; or a field follows a text or any octets. Nothing is written. */
uint32_t ndef_check_layout(const uint8_t *payload, ndef_size length, const ndef_layout_field *fields,
                           ndef_size fields_count, ndef_laid_out *out) NDEF_ANSWERS(5);

/* ---- a handover and all its references, in one call */

/* A handover request or a select: what ndef_request and ndef_select give of it, and the number of its references. */
typedef struct ndef_handover_parts {
    ndef_size carriers;      /* its alternative carriers */
    ndef_size references;    /* the references of all of them */
    ndef_size detail_at;     /* where the data of the error of a select begin in the payload, else 0 */
    ndef_size detail_length; /* the bytes of that data, else 0 */
    uint32_t major;          /* the major version, which is 1 */
    uint32_t minor;          /* the minor version, 0 to 15 */
    uint32_t collision;      /* the random number of a request, 0 to 65535; 0 for a select */
    uint32_t has_error;      /* 1 for a select with an error, else 0 */
    uint32_t error;          /* the reason of its first error, 0 to 255, else 0 */
} ndef_handover_parts;

/* A reference of an alternative carrier, and the record to which it refers. */
typedef struct ndef_reference_item {
    ndef_size carrier;        /* the index of its alternative carrier, from 0 */
    ndef_size number;         /* 0 for the carrier data reference, 1 to 255 for the auxiliary ones */
    ndef_size carrier_at;     /* where the payload of its Alternative Carrier record (`ac`) begins in this payload */
    ndef_size carrier_length; /* the bytes of that payload */
    ndef_size at;             /* where the reference begins in this payload, also if it is empty */
    ndef_size length;         /* its bytes, at most 255 */
    ndef_size record_index;   /* the index of the record in the message, from 0 */
    ndef_size record_at;      /* where the record begins in the message, for ndef_record_at */
    uint32_t power;           /* the power state of the carrier: 0 inactive, 1 active, 2 activating, 3 unknown */
    uint32_t has_record;      /* 1; or 0 if it refers to no record, and then index and offset are 0 */
} ndef_reference_item;

/* Gives all references of a handover, and the records to which they refer. The payload is that of a Handover Request
 * record (`Hr`, kind NDEF_KIND_REQUEST) or of a Handover Select record (`Hs`, NDEF_KIND_SELECT), its chunks joined. The
 * references of the first alternative carrier come first, and of each carrier its carrier data reference before its
 * auxiliary ones, as ndef_references gives them, but as offsets in this payload. Each refers to the first record of the
 * message whose id equals it; an empty one refers to none. The message is that with which `bytes` begin, and other
 * bytes may follow it. With `length` 0 there is no message, and no reference has a record. Flags: as ndef_request.
 * The time grows with the references and records times the logarithm of the number of references, whatever the ids
 * are. Their order in `items` changes while the call runs.
 * NDEF_OK: the first out->references items are the references; those after them are unchanged.
 * NDEF_BUFFER_TOO_SMALL: `capacity` is less than out->references; the items are unchanged.
 * NDEF_REFUSED: `refusal` has what ndef_request or ndef_select answers; the items are unchanged.
 * NDEF_BAD_ARGUMENT: `kind` is another; an unknown flag is set; or `length` is not 0, and the bytes don't begin with
 *   whole records up to one that is the last. Nothing is written. */
uint32_t ndef_handover_items(uint32_t kind, const uint8_t *payload, ndef_size payload_length, uint32_t flags,
                             const uint8_t *bytes, ndef_size length, ndef_handover_parts *out, ndef_checked *refusal,
                             ndef_reference_item *items, ndef_size capacity) NDEF_ANSWERS(7, 8);

#include "ndef_names.h"

#ifdef __cplusplus
}
#endif
#endif
