/* The names of fields, lists of constants, and the names of ndef.h as strings of C. They lie in ndef_names.h, which ndef.h
 * includes; in a release they lie in ndef.h itself. Include ndef.h.
 *
 * The functions here are compiled into the program that calls them, and a program that calls none has none of these
 * texts. Each returns a string that ends with NUL and stays valid as long as the program runs; it never returns NULL.
 * The strings are what ndef_reason_name, ndef_reason_sentence, ndef_status_name and ndef_field_name of the library
 * write to a buffer; those calls serve programs that don't read this header. */
#ifndef NDEF_NAMES_H
#define NDEF_NAMES_H

#ifdef __cplusplus
#define NDEF_INLINE inline
#else
#define NDEF_INLINE static inline
#endif

/* ---- names of fields */

/* The names of fields. ndef_field_name gives each as text. */
enum ndef_field_names {
    NDEF_FIELD_HEADER = 1,               /* the header byte: MB, ME, CF, SR, IL and TNF */
    NDEF_FIELD_TYPE_LENGTH = 2,
    NDEF_FIELD_PAYLOAD_LENGTH = 3,       /* 1 byte in a short record, else 4 */
    NDEF_FIELD_ID_LENGTH = 4,            /* only where IL is set */
    NDEF_FIELD_TYPE = 5,
    NDEF_FIELD_ID = 6,
    NDEF_FIELD_PAYLOAD = 7,              /* a payload of another type, or a chunk */
    NDEF_FIELD_STATUS = 8,               /* of a text */
    NDEF_FIELD_LANGUAGE = 9,             /* of a text */
    NDEF_FIELD_MARK = 10,                /* of a text in UTF-16 */
    NDEF_FIELD_TEXT = 11,
    NDEF_FIELD_URI_CODE = 12,            /* of a URI */
    NDEF_FIELD_URI_REST = 13,            /* after the prefix of the code */
    NDEF_FIELD_ACTION = 14,              /* of a smart poster */
    NDEF_FIELD_SIZE = 15,                /* of a smart poster */
    NDEF_FIELD_MEDIA_TYPE = 16,          /* of a smart poster */
    NDEF_FIELD_VERSION = 17,             /* of a handover */
    NDEF_FIELD_COLLISION = 18,           /* of a collision resolution */
    NDEF_FIELD_POWER = 19,               /* of an alternative carrier, like the next six */
    NDEF_FIELD_REFERENCE_LENGTH = 20,
    NDEF_FIELD_REFERENCE = 21,
    NDEF_FIELD_AUXILIARY_COUNT = 22,
    NDEF_FIELD_AUXILIARY_LENGTH = 23,
    NDEF_FIELD_AUXILIARY = 24,
    NDEF_FIELD_AFTER_AUXILIARY = 25,     /* the bytes after the references */
    NDEF_FIELD_ERROR_REASON = 26,        /* of a handover's error */
    NDEF_FIELD_ERROR_DATA = 27,
    NDEF_FIELD_CARRIER_FORMAT = 28,      /* of a handover carrier, like the next three */
    NDEF_FIELD_CARRIER_TYPE_LENGTH = 29, NDEF_FIELD_CARRIER_TYPE = 30, NDEF_FIELD_CARRIER_DATA = 31
};

/* ---- lists */

/* The list of reasons, for tables of your own: NDEF_REASONS(X) is X(number, name, text) for each, without a separator.
 * NDEF_REASON_ and the name make the constant; the text is what ndef_reason_name writes. So a table of texts is
 *     #define TEXT(number, name, text) [number] = text,
 *     static const char *const texts[] = { NDEF_REASONS(TEXT) }; */
#define NDEF_REASONS(X) \
    X(1, RESERVED_TNF, "ReservedTnf") X(2, BEGIN_MISSING, "BeginMissing") X(3, BEGIN_AGAIN, "BeginAgain") \
    X(4, UNCHANGED_OUTSIDE, "UnchangedOutside") X(5, CHANGED_INSIDE, "ChangedInside") X(6, ID_INSIDE, "IdInside") \
    X(7, CHUNK_AT_END, "ChunkAtEnd") X(8, CHUNK_OF_EMPTY, "ChunkOfEmpty") X(9, TOO_MANY_PIECES, "TooManyPieces") \
    X(10, TOO_MANY_RECORDS, "TooManyRecords") X(11, TYPE_NOT_EMPTY, "TypeNotEmpty") X(12, TYPE_EMPTY, "TypeEmpty") \
    X(13, EMPTY_NOT_EMPTY, "EmptyNotEmpty") X(14, PAYLOAD_TOO_LARGE, "PayloadTooLarge") X(15, TEXT_BIT, "TextBit") \
    X(16, LANGUAGE, "Language") X(17, UTF8, "Utf8") X(18, UTF16, "Utf16") X(19, URI_CODE, "UriCode") \
    X(20, URI_MISSING, "UriMissing") X(21, URI_AGAIN, "UriAgain") X(22, VERSION, "Version") \
    X(23, DOES_NOT_FIT, "DoesNotFit") X(24, END_OF_INPUT, "EndOfInput") X(25, COLLISION_MISSING, "CollisionMissing")

/* The list of what most calls return, as NDEF_REASONS: NDEF_STATUSES(X) is X(number, name, text) for each. */
#define NDEF_STATUSES(X) \
    X(0, OK, "Ok") X(1, REFUSED, "Refused") X(2, BUFFER_TOO_SMALL, "BufferTooSmall") \
    X(3, BAD_ARGUMENT, "BadArgument") X(4, END, "End") X(5, MORE, "More")

/* The list of what reasons mean: NDEF_SENTENCES(X) is X(number, name, sentence) for each. ndef-explain prints these. */
#define NDEF_SENTENCES(X) \
    X(1, RESERVED_TNF, "The type name format 7 is reserved.") \
    X(2, BEGIN_MISSING, "The first record of a message has to have MB set.") \
    X(3, BEGIN_AGAIN, "MB is set again, though the message has begun.") \
    X(4, UNCHANGED_OUTSIDE, "The type name format 6 (unchanged) may only continue a chunked record.") \
    X(5, CHANGED_INSIDE, "A chunked record goes on with the type name format 6 (unchanged).") \
    X(6, ID_INSIDE, "Only the first chunk of a record may have an id.") \
    X(7, CHUNK_AT_END, "The last record of a message (ME) has to end: CF must be clear.") \
    X(8, CHUNK_OF_EMPTY, "An empty record cannot be chunked.") \
    X(9, TOO_MANY_PIECES, "The record has more chunks than the limit or a nested message allows.") \
    X(10, TOO_MANY_RECORDS, "The message has more records than the limit allows.") \
    X(11, TYPE_NOT_EMPTY, "This type name format has no type: TYPE_LENGTH has to be 0.") \
    X(12, TYPE_EMPTY, "This type name format needs a type: TYPE_LENGTH must not be 0.") \
    X(13, EMPTY_NOT_EMPTY, "An empty record has only lengths of 0.") \
    X(14, PAYLOAD_TOO_LARGE, "The payload is longer than the limit allows.") \
    X(15, TEXT_BIT, "Bit 6 of the status octet of a text is reserved: it has to be 0.") \
    X(16, LANGUAGE, "The language code of a text has to be ASCII.") X(17, UTF8, "The text is not UTF-8.") \
    X(18, UTF16, "The text is not UTF-16.") \
    X(19, URI_CODE, "The URI identifier codes from 24 to FF (hexadecimal) are reserved.") \
    X(20, URI_MISSING, "A smart poster has to have a URI record.") \
    X(21, URI_AGAIN, "A smart poster has only one URI record.") \
    X(22, VERSION, "The handover has another major version than 1.") \
    X(23, DOES_NOT_FIT, "Nothing that could follow this byte fits the lengths given so far.") \
    X(24, END_OF_INPUT, "The input ends within a message.") \
    X(25, COLLISION_MISSING, "A handover request has to begin with a collision resolution record.")

/* The list of names of fields, as NDEF_REASONS: NDEF_FIELDS(X) is X(number, name, text) for each. */
#define NDEF_FIELDS(X) \
    X(1, HEADER, "header") X(2, TYPE_LENGTH, "TYPE_LENGTH") X(3, PAYLOAD_LENGTH, "PAYLOAD_LENGTH") \
    X(4, ID_LENGTH, "ID_LENGTH") X(5, TYPE, "TYPE") X(6, ID, "ID") X(7, PAYLOAD, "PAYLOAD") X(8, STATUS, "status") \
    X(9, LANGUAGE, "language code") X(10, MARK, "byte order mark") X(11, TEXT, "text") \
    X(12, URI_CODE, "identifier code") X(13, URI_REST, "URI") X(14, ACTION, "action") X(15, SIZE, "size") \
    X(16, MEDIA_TYPE, "media type") X(17, VERSION, "version") X(18, COLLISION, "random number") \
    X(19, POWER, "carrier power state") X(20, REFERENCE_LENGTH, "carrier data reference length") \
    X(21, REFERENCE, "carrier data reference") X(22, AUXILIARY_COUNT, "auxiliary data reference count") \
    X(23, AUXILIARY_LENGTH, "auxiliary data reference length") X(24, AUXILIARY, "auxiliary data reference") \
    X(25, AFTER_AUXILIARY, "reserved") X(26, ERROR_REASON, "error reason") X(27, ERROR_DATA, "error data") \
    X(28, CARRIER_FORMAT, "carrier type format") X(29, CARRIER_TYPE_LENGTH, "carrier type length") \
    X(30, CARRIER_TYPE, "carrier type") X(31, CARRIER_DATA, "carrier data")

/* ---- names as text */

#define NDEF_TEXT_CASE(number, name, text) case number: return text;

/* Returns the name of an ndef_reason, such as "TextBit", or "unknown" for another number. */
NDEF_INLINE const char *ndef_reason_text(uint32_t reason) {
    switch (reason) { NDEF_REASONS(NDEF_TEXT_CASE) default: return "unknown"; }
}

/* Returns what an ndef_reason means, in a sentence of English, or "unknown" for another number. */
NDEF_INLINE const char *ndef_sentence_text(uint32_t reason) {
    switch (reason) { NDEF_SENTENCES(NDEF_TEXT_CASE) default: return "unknown"; }
}

/* Returns the name of an ndef_status, such as "BufferTooSmall", or "unknown" for another number. */
NDEF_INLINE const char *ndef_status_text(uint32_t status) {
    switch (status) { NDEF_STATUSES(NDEF_TEXT_CASE) default: return "unknown"; }
}

/* Returns the name of a field, one of ndef_field_names, such as "PAYLOAD_LENGTH", or "unknown" for another number. */
NDEF_INLINE const char *ndef_field_text(uint32_t name) {
    switch (name) { NDEF_FIELDS(NDEF_TEXT_CASE) default: return "unknown"; }
}

/* The version of this header as text: NDEF_VERSION_STRING is "1.1.0.dev". ndef_version_string returns it, and ndef_version
 * gives the version of the library, which is another where the program runs with another shared library. */
#define NDEF_DIGITS(number) #number
#define NDEF_VERSION_TEXT(major, minor, patch) NDEF_DIGITS(major) "." NDEF_DIGITS(minor) "." NDEF_DIGITS(patch)
#define NDEF_VERSION_STRING NDEF_VERSION_TEXT(NDEF_VERSION_MAJOR, NDEF_VERSION_MINOR, NDEF_VERSION_PATCH)
NDEF_INLINE const char *ndef_version_string(void) { return NDEF_VERSION_STRING; }

#endif
