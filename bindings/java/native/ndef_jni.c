/* ndef_jni.c: the calls of include/ndef.h as native methods of the class org.simbegyor.ndef.Library.
 *
 * It has no rule of the format. Each method takes arrays of Java, calls the library, and answers with an array of Java.
 * The bounds are those of the Java arrays. While an array is held (GetPrimitiveArrayCritical) nothing but the library
 * runs: no function of JNI, and no malloc. What it runs looks at each byte a fixed number of times. ndef_links, whose
 * time may grow faster, gets copies, and a short message is copied, which takes less time. Each answer of JNI that may be
 * an exception is looked at. */
#include <jni.h>
#include <limits.h>
#include <stdlib.h>

#include "ndef.h"

#if NDEF_VERSION_MAJOR != 1
#error "the module for Java needs the library of version 1.0.0, or a later 1: the version of ndef.h is another"
#endif

#define METHOD(answer, name) JNIEXPORT answer JNICALL Java_org_simbegyor_ndef_Library_##name

/* What `bytes` is asked for; the class Library has the same numbers. */
enum {
    READ_PAYLOAD, READ_URI, READ_TEXT, WRITE_URI, WRITE_TEXT, WRITE_CARRIER, WRITE_ACTION, WRITE_SIZE, WRITE_COLLISION,
    WRITE_ERROR, WRITE_ERROR_NUMBER, WRITE_HANDOVER, WRITE_ALTERNATIVE, WHY, HINT,
    FIELD_WARNING, RECORD_WARNING
};
/* What `list` and `name` are asked for. */
enum { RECORDS, REFERENCES, ICONS, TITLE, MEDIA_TYPE, LINKS, FIELDS };
enum { REASON_NAME, REASON_SENTENCE, FIELD_NAME, URI_PREFIX };
enum { CHECKER_WORDS = sizeof(ndef_checker) / sizeof(uint64_t) };

/* ---- exceptions */

static void raise(JNIEnv *env, const char *name, const char *text) {
    if ((*env)->ExceptionCheck(env)) return;
    jclass type = (*env)->FindClass(env, name);
    if (type != NULL) (*env)->ThrowNew(env, type, text);
}

static void raise_no_memory(JNIEnv *env) { raise(env, "java/lang/OutOfMemoryError", "no memory for NDEF"); }

/* ---- arrays of Java while they are held */

typedef struct span {
    jbyteArray array;
    jbyte *held;
    const uint8_t *bytes;
    ndef_size at, length;
    int is_copied; /* whether the bytes are copied instead, so that the array isn't held */
} span;

/* Some bytes of an array. Where the array doesn't have them, it raises an exception and answers 0. */
static int find_part(JNIEnv *env, span *to, jbyteArray array, jint at, jint length) {
    jsize all = array != NULL ? (*env)->GetArrayLength(env, array) : 0;
    if (at < 0 || length < 0 || at > all || length > all - at) {
        raise(env, "java/lang/IndexOutOfBoundsException", "the array has fewer bytes");
        return 0;
    }
    *to = (span){ array, NULL, NULL, (ndef_size)at, (ndef_size)length, 0 };
    return 1;
}

/* All bytes of an array; none, where it is null. */
static span find_all(JNIEnv *env, jbyteArray array) {
    return (span){ array, NULL, NULL, 0, array != NULL ? (ndef_size)(*env)->GetArrayLength(env, array) : 0, 0 };
}

static void release(JNIEnv *env, span *spans, int count, jint mode) {
    while (count-- > 0) {
        span *it = &spans[count];
        if (it->held == NULL) continue;
        if (it->is_copied) (*env)->ReleaseByteArrayElements(env, it->array, it->held, mode);
        else (*env)->ReleasePrimitiveArrayCritical(env, it->array, it->held, mode);
        it->held = NULL;
    }
}

/* Holds arrays until they are released. Where that fails it raises an exception and answers 0. */
static int hold(JNIEnv *env, span *spans, int count) {
    for (int i = 0; i < count; i++) {
        span *it = &spans[i];
        if (it->length == 0) continue;
        it->held = it->is_copied ? (*env)->GetByteArrayElements(env, it->array, NULL)
                                 : (*env)->GetPrimitiveArrayCritical(env, it->array, NULL);
        if (it->held == NULL) {
            release(env, spans, i, JNI_ABORT);
            raise_no_memory(env);
            return 0;
        }
        it->bytes = (const uint8_t *)it->held + it->at;
    }
    return 1;
}

/* ---- numbers */

/* Writes the offset, the reason and the number of records to an array of Java. */
static void give_checked(JNIEnv *env, jlongArray to, const ndef_checked *checked) {
    const jlong numbers[] = { (jlong)checked->place, (jlong)checked->reason, (jlong)checked->records };
    (*env)->SetLongArrayRegion(env, to, 0, 3, numbers);
}

static int get_limits(JNIEnv *env, jintArray from, ndef_limits *limits) {
    jint words[4];
    (*env)->GetIntArrayRegion(env, from, 0, 4, words);
    *limits = (ndef_limits){ (uint32_t)words[0], (uint32_t)words[1], (uint32_t)words[2], (uint32_t)words[3] };
    return !(*env)->ExceptionCheck(env);
}

/* ---- lists: records, references, icons, links and fields */

typedef struct question {
    jint call;
    ndef_limits limits;
} question;

/* The records from the front of the bytes on, up to the last of the message, in an array as calls of the library fill
 * one. */
static uint32_t walk(const uint8_t *bytes, ndef_size length, ndef_record *records, ndef_size size, ndef_size *count) {
    ndef_record record = { .last = length == 0 };
    for (*count = 0; !record.last; ++*count) {
        uint32_t status = ndef_record_at(bytes, length, record.end, &record);
        if (status != NDEF_OK) return NDEF_BAD_ARGUMENT;
        if (*count < size) records[*count] = record;
    }
    return *count > size ? NDEF_BUFFER_TOO_SMALL : NDEF_OK;
}

/* A part, if there is one, as an array. */
static uint32_t list_part(uint32_t status, ndef_size at, ndef_size length, ndef_part *parts, ndef_size *count) {
    *count = status == NDEF_OK;
    if (status == NDEF_OK) *parts = (ndef_part){ at, length };
    return status == NDEF_END ? (uint32_t)NDEF_OK : status;
}

static uint32_t list_items(const question *what, const span *in, void *items, ndef_size size, ndef_size *count,
                           ndef_checked *why) {
    const uint8_t *bytes = in[0].bytes, *more = in[1].bytes;
    ndef_size length = in[0].length, more_length = in[1].length;
    ndef_text_parts title = { 0 };
    ndef_part part = { 0, 0 };
    uint32_t status;
    switch (what->call) {
        case RECORDS: return walk(bytes, length, items, size, count);
        case REFERENCES: return ndef_references(bytes, length, items, size, count);
        case ICONS: return ndef_poster_icons(bytes, length, items, size, count);
        case LINKS: return ndef_links(bytes, length, more, more_length, items, size, count);
        case FIELDS: return ndef_fields(bytes, length, &what->limits, items, size, count, why);
        case TITLE:
            status = ndef_title(bytes, length, more, more_length, &title);
            return list_part(status, title.text_at, title.text_length, items, count);
        case MEDIA_TYPE:
            status = ndef_poster_media_type(bytes, length, &part);
            return list_part(status, part.at, part.length, items, count);
        default: return NDEF_BAD_ARGUMENT;
    }
}

/* The size of an item in memory, at most that of a record. */
static size_t item_size(jint call) {
    switch (call) {
        case RECORDS: return sizeof(ndef_record);
        case ICONS: return sizeof(ndef_icon);
        case LINKS: return sizeof(ndef_link);
        case FIELDS: return sizeof(ndef_field);
        default: return sizeof(ndef_part);
    }
}

enum { MOST_COLUMNS = 7, FEW = 24 };

/* How many numbers an item has for Java. */
static int columns(jint call) {
    switch (call) {
        case RECORDS: return MOST_COLUMNS;
        case ICONS: case LINKS: case FIELDS: return 4;
        default: return 2;
    }
}

static void record_row(const ndef_record *it, ndef_size base, jint *row) {
    row[0] = (jint)(base + it->at), row[1] = (jint)it->tnf;
    row[2] = (jint)(base + it->type_at), row[3] = (jint)it->type_length, row[4] = (jint)it->id_length;
    row[5] = (jint)it->payload_length, row[6] = (jint)it->chunks;
}

static void part_row(const ndef_part *it, jint *row) { row[0] = (jint)it->at, row[1] = (jint)it->length; }

static void link_row(const ndef_link *it, jint *row) {
    row[0] = (jint)it->carrier_at, row[1] = (jint)it->carrier_length;
    row[2] = (jint)it->record_index, row[3] = (jint)it->has_record;
}

static void field_row(const ndef_field *it, jint *row) {
    row[0] = (jint)it->at, row[1] = (jint)it->length, row[2] = (jint)it->depth, row[3] = (jint)it->name;
}

/* The numbers of an item for Java. */
static void item_row(jint call, const void *items, ndef_size index, ndef_size base, jint *row) {
    switch (call) {
        case RECORDS: record_row((const ndef_record *)items + index, base, row); break;
        case ICONS:
            part_row(&((const ndef_icon *)items)[index].media_type, row);
            part_row(&((const ndef_icon *)items)[index].data, row + 2);
            break;
        case LINKS: link_row((const ndef_link *)items + index, row); break;
        case FIELDS: field_row((const ndef_field *)items + index, row); break;
        default: part_row((const ndef_part *)items + index, row); break;
    }
}

/* The items as rows of numbers, one after another. */
static jintArray give_rows(JNIEnv *env, jint call, const void *items, ndef_size count, ndef_size base) {
    jint some[FEW * MOST_COLUMNS];
    int width = columns(call), filled = 0;
    if (count > INT_MAX / MOST_COLUMNS) {
        raise_no_memory(env);
        return NULL;
    }
    jintArray rows = (*env)->NewIntArray(env, (jsize)count * width);
    for (ndef_size i = 0; rows != NULL && i < count; i++) {
        item_row(call, items, i, base, some + filled);
        filled += width;
        if (i + 1 < count && filled < FEW * width) continue;
        (*env)->SetIntArrayRegion(env, rows, (jsize)(i + 1) * width - filled, filled, some);
        if ((*env)->ExceptionCheck(env)) return NULL;
        filled = 0;
    }
    return rows;
}

/* Asks the library; where the buffer is too small, once more with memory. The items are then in `*items`. */
static uint32_t ask(JNIEnv *env, const question *what, span *in, void **items, ndef_size size, ndef_size *count,
                    ndef_checked *why) {
    void *few = *items;
    for (;;) {
        if (!hold(env, in, 2)) return NDEF_BAD_ARGUMENT;
        uint32_t status = list_items(what, in, *items, size, count, why);
        release(env, in, 2, JNI_ABORT);
        if (status != NDEF_BUFFER_TOO_SMALL || *items != few) return status;
        size = *count;
        *items = size > SIZE_MAX / sizeof(ndef_record) ? NULL : malloc((size_t)size * item_size(what->call));
        if (*items == NULL) {
            raise_no_memory(env);
            return NDEF_BAD_ARGUMENT;
        }
    }
}

METHOD(jintArray, list)(JNIEnv *env, jclass type, jint call, jbyteArray one, jbyteArray two, jint at, jint length,
                        jintArray limits, jlongArray why) {
    ndef_record few[FEW];
    void *items = few;
    question what = { call, { 0, 0, 0, 0 } };
    ndef_checked said = { 0, 0, 0 };
    ndef_size count = 0;
    span in[2];
    jintArray rows = NULL;
    (void)type;
    if (limits != NULL && !get_limits(env, limits, &what.limits)) return NULL;
    if (!find_part(env, &in[0], one, at, length)) return NULL;
    in[1] = find_all(env, two);
    in[0].is_copied = in[1].is_copied = call == LINKS;
    uint32_t status = ask(env, &what, in, &items, FEW, &count, &said);
    if (why != NULL && !(*env)->ExceptionCheck(env)) give_checked(env, why, &said);
    if ((status == NDEF_OK || (status == NDEF_REFUSED && call == FIELDS)) && !(*env)->ExceptionCheck(env))
        rows = give_rows(env, call, items, count, in[0].at);
    if (items != few) free(items);
    return rows;
}

/* ---- a message and all its records */

enum { HEAD = 4, SHORT = 512 };

/* A buffer of Java, an array of ints: what a check says, and the items of the records. */
typedef struct read_buffer {
    jint head[HEAD];
    ndef_item items[FEW];
} read_buffer;

static void give_head(jint *head, uint32_t status, const ndef_checked *said) {
    head[0] = (jint)status, head[1] = (jint)said->place, head[2] = (jint)said->reason, head[3] = (jint)said->records;
}

/* Reads a short message into the buffer, if it has few records. */
static uint32_t read_short(JNIEnv *env, const span *in, const ndef_limits *limits, jintArray buffer, jsize size) {
    uint8_t bytes[SHORT];
    read_buffer few;
    ndef_checked said = { 0, 0, 0 };
    (*env)->GetByteArrayRegion(env, in->array, (jsize)in->at, (jsize)in->length, (jbyte *)bytes);
    uint32_t status = ndef_items(bytes, in->length, limits, &said, few.items, (ndef_size)(size < FEW ? size : FEW));
    jsize count = status == NDEF_OK ? (jsize)said.records : 0;
    give_head(few.head, status, &said);
    (*env)->SetIntArrayRegion(env, buffer, 0, HEAD + count * (jsize)(sizeof(ndef_item) / sizeof(jint)), few.head);
    return status;
}

/* Reads any message into the buffer, while that and the bytes are held. */
static void read_long(JNIEnv *env, span *in, const ndef_limits *limits, jintArray buffer, jsize size) {
    ndef_checked said = { 0, 0, 0 };
    if (!hold(env, in, 1)) return;
    read_buffer *held = (*env)->GetPrimitiveArrayCritical(env, buffer, NULL);
    if (held != NULL) {
        uint32_t status = ndef_items(in->bytes, in->length, limits, &said, held->items, (ndef_size)size);
        give_head(held->head, status, &said);
        (*env)->ReleasePrimitiveArrayCritical(env, buffer, held, 0);
    }
    release(env, in, 1, JNI_ABORT);
    if (held == NULL) raise_no_memory(env);
}

/* Reads the message with which the bytes begin into a buffer for `size` records. It has then the status, the place, the
 * reason, the number of records, and their items, if there is room for them. */
METHOD(void, read)(JNIEnv *env, jclass type, jbyteArray bytes, jint at, jint length, jint payload, jint records,
                   jint chunks, jint flags, jintArray buffer, jint size) {
    const ndef_limits limits = { (uint32_t)payload, (uint32_t)records, (uint32_t)chunks, (uint32_t)flags };
    span in;
    (void)type;
    if (!find_part(env, &in, bytes, at, length)) return;
    if (length <= SHORT && (read_short(env, &in, &limits, buffer, size) != NDEF_BUFFER_TOO_SMALL || size <= FEW)) return;
    if (!(*env)->ExceptionCheck(env)) read_long(env, &in, &limits, buffer, size);
}

/* ---- records */

METHOD(jint, kind)(JNIEnv *env, jclass type, jint tnf, jbyteArray name, jint within) {
    span input = find_all(env, name);
    (void)type;
    if (!hold(env, &input, 1)) return NDEF_KIND_OTHER;
    const ndef_record record = { .type_length = input.length, .tnf = (uint32_t)tnf };
    uint32_t kind = ndef_kind(input.bytes, input.length, &record, (uint32_t)within);
    release(env, &input, 1, JNI_ABORT);
    return (jint)kind;
}

/* Writes a record to the buffer from an offset on, and answers the bytes that it has; without a buffer it asks for them
 * alone. -1: it is no record. */
METHOD(jlong, record)(JNIEnv *env, jclass type, jintArray how, jbyteArray name, jbyteArray id, jbyteArray payload,
                      jbyteArray buffer, jint at) {
    jint words[3];
    ndef_size count = 0;
    span in[3] = { find_all(env, name), find_all(env, id), find_all(env, payload) }, to = find_all(env, buffer);
    (void)type;
    if (buffer != NULL && !find_part(env, &to, buffer, at, (jint)to.length - at)) return -1;
    (*env)->GetIntArrayRegion(env, how, 0, 3, words);
    if ((*env)->ExceptionCheck(env) || !hold(env, in, 3)) return -1;
    if (!hold(env, &to, 1)) {
        release(env, in, 3, JNI_ABORT);
        return -1;
    }
    const ndef_writing writing = { (uint32_t)words[0], (uint32_t)words[1], (uint32_t)words[2] };
    uint32_t status = ndef_write_record(in[0].bytes, in[0].length, in[1].bytes, in[1].length, in[2].bytes, in[2].length,
                                        &writing, (uint8_t *)(uintptr_t)to.bytes, to.length, &count);
    release(env, &to, 1, 0);
    release(env, in, 3, JNI_ABORT);
    return status == NDEF_OK || status == NDEF_BUFFER_TOO_SMALL ? (jlong)count : -1;
}

/* ---- records in steps */

enum { WRITER_WORDS = sizeof(ndef_writer) / sizeof(uint32_t) };

/* A state, as the words that Java keeps. */
typedef union writer_words {
    ndef_writer writer;
    jint words[WRITER_WORDS];
} writer_words;

METHOD(jboolean, beginRecord)(JNIEnv *env, jclass type, jintArray how, jint name, jint id, jlong payload, jintArray state) {
    jint words[3];
    writer_words begun;
    (void)type;
    (*env)->GetIntArrayRegion(env, how, 0, 3, words);
    if ((*env)->ExceptionCheck(env)) return JNI_FALSE;
    const ndef_writing writing = { (uint32_t)words[0], (uint32_t)words[1], (uint32_t)words[2] };
    if (ndef_writer_begin(&begun.writer, (ndef_size)name, (ndef_size)id, (ndef_size)payload, &writing) != NDEF_OK) return JNI_FALSE;
    (*env)->SetIntArrayRegion(env, state, 0, WRITER_WORDS, begun.words);
    return JNI_TRUE;
}

/* Writes the next bytes of a record to some of the buffer, and answers how many; -1: the record is whole. */
METHOD(jint, nextBytes)(JNIEnv *env, jclass type, jintArray state, jbyteArray name, jbyteArray id, jbyteArray part, jint at,
                        jint length, jbyteArray buffer, jint from, jint size) {
    writer_words now;
    ndef_size count = 0;
    span in[3] = { find_all(env, name), find_all(env, id) }, to;
    (void)type;
    if (!find_part(env, &in[2], part, at, length) || !find_part(env, &to, buffer, from, size)) return -1;
    (*env)->GetIntArrayRegion(env, state, 0, WRITER_WORDS, now.words);
    if ((*env)->ExceptionCheck(env) || !hold(env, in, 3)) return -1;
    if (!hold(env, &to, 1)) {
        release(env, in, 3, JNI_ABORT);
        return -1;
    }
    uint32_t status = ndef_writer_next(&now.writer, in[0].bytes, in[0].length, in[1].bytes, in[1].length, in[2].bytes,
                                       in[2].length, (uint8_t *)(uintptr_t)to.bytes, to.length, &count);
    release(env, &to, 1, 0);
    release(env, in, 3, JNI_ABORT);
    if (status == NDEF_END) return -1;
    if (status != NDEF_OK) raise(env, "java/lang/IllegalStateException", "another thread reads the stream");
    else (*env)->SetIntArrayRegion(env, state, 0, WRITER_WORDS, now.words);
    return (jint)count;
}

/* ---- what is written to a buffer */

typedef struct asked {
    jint call;
    uint32_t first, second;
    const ndef_part *parts;
    ndef_size parts_count;
    ndef_limits limits;
} asked;

static uint32_t call_library(const asked *what, const span *in, uint8_t *buffer, ndef_size size, ndef_size *count,
                             ndef_checked *why) {
    const uint8_t *bytes = in[0].bytes, *more = in[1].bytes;
    ndef_size length = in[0].length, more_length = in[1].length;
    uint32_t first = what->first, second = what->second;
    switch (what->call) {
        case READ_PAYLOAD: return ndef_payload(bytes, length, first, buffer, size, count);
        case READ_URI: return ndef_uri(bytes, length, first, buffer, size, count, why);
        case READ_TEXT: return ndef_text_in_utf8(bytes, length, buffer, size, count, why);
        case WRITE_URI: return ndef_write_uri(bytes, length, buffer, size, count);
        case WRITE_TEXT: return ndef_write_text(bytes, length, more, more_length, first, buffer, size, count);
        case WRITE_CARRIER: return ndef_write_carrier(first, bytes, length, more, more_length, buffer, size, count);
        case WRITE_ACTION: return ndef_write_action(first, buffer, size, count);
        case WRITE_SIZE: return ndef_write_size(first, buffer, size, count);
        case WRITE_COLLISION: return ndef_write_collision(first, buffer, size, count);
        case WRITE_ERROR: return ndef_write_error(first, bytes, length, buffer, size, count);
        case WRITE_ERROR_NUMBER: return ndef_write_error_number(first, second, buffer, size, count);
        case WRITE_HANDOVER: return ndef_write_handover(first, 1, second, bytes, length, buffer, size, count);
        case WRITE_ALTERNATIVE:
            return ndef_write_alternative(first, bytes, length, what->parts, what->parts_count, buffer, size, count);
        case WHY: return ndef_refusal_message(bytes, length, &what->limits, buffer, size, count);
        case HINT: return ndef_hint(bytes, length, &what->limits, buffer, size, count);
        case FIELD_WARNING: return ndef_field_warning(first, bytes, length, buffer, size, count);
        case RECORD_WARNING: return ndef_record_warning(bytes, length, first, buffer, size, count);
        default: return NDEF_BAD_ARGUMENT;
    }
}

/* Calls again with a buffer of the size that is needed. */
static jbyteArray make_larger(JNIEnv *env, const asked *what, const span *in, ndef_size count) {
    ndef_checked why = { 0, 0, 0 };
    if (count > INT_MAX) {
        raise_no_memory(env);
        return NULL;
    }
    jbyteArray made = (*env)->NewByteArray(env, (jsize)count);
    if (made == NULL) return NULL;
    span all[3] = { in[0], in[1], find_all(env, made) };
    if (!hold(env, all, 3)) return NULL;
    uint32_t status = call_library(what, all, (uint8_t *)all[2].held, all[2].length, &count, &why);
    release(env, all + 2, 1, 0);
    release(env, all, 2, JNI_ABORT);
    return status == NDEF_OK ? made : NULL;
}

/* What the call writes, as an array of Java; NULL where it answers otherwise, and then `why` has what it says. */
static jbyteArray make(JNIEnv *env, const asked *what, span *in, jlongArray why) {
    uint8_t buffer[512];
    ndef_size count = 0;
    ndef_checked said = { 0, 0, 0 };
    if (!hold(env, in, 2)) return NULL;
    uint32_t status = call_library(what, in, buffer, sizeof buffer, &count, &said);
    release(env, in, 2, JNI_ABORT);
    if (status == NDEF_BUFFER_TOO_SMALL) return make_larger(env, what, in, count);
    if (status != NDEF_OK) {
        if (why != NULL) give_checked(env, why, &said);
        return NULL;
    }
    jbyteArray made = (*env)->NewByteArray(env, (jsize)count);
    if (made != NULL) (*env)->SetByteArrayRegion(env, made, 0, (jsize)count, (const jbyte *)buffer);
    return (*env)->ExceptionCheck(env) ? NULL : made;
}

METHOD(jbyteArray, bytes)(JNIEnv *env, jclass type, jint call, jbyteArray one, jbyteArray two, jint first, jint second,
                          jlongArray why) {
    const asked what = { call, (uint32_t)first, (uint32_t)second, NULL, 0, { 0, 0, 0, 0 } };
    span in[2] = { find_all(env, one), find_all(env, two) };
    (void)type;
    return make(env, &what, in, why);
}

/* The payload of an alternative carrier, whose references follow one another in the bytes and have these lengths. */
METHOD(jbyteArray, alternative)(JNIEnv *env, jclass type, jint power, jbyteArray bytes, jintArray lengths) {
    enum { MOST = 257 }; /* one more than the library takes */
    ndef_part parts[MOST];
    jint words[MOST];
    jsize given = (*env)->GetArrayLength(env, lengths), count = given < MOST ? given : MOST;
    span in[2] = { find_all(env, bytes), find_all(env, NULL) };
    (void)type;
    (*env)->GetIntArrayRegion(env, lengths, 0, count, words);
    if ((*env)->ExceptionCheck(env)) return NULL;
    ndef_size at = 0;
    for (jsize i = 0; i < count; i++) {
        parts[i] = (ndef_part){ at, (ndef_size)words[i] };
        at += parts[i].length;
    }
    const asked what = { WRITE_ALTERNATIVE, (uint32_t)power, 0, parts, (ndef_size)count, { 0, 0, 0, 0 } };
    return make(env, &what, in, NULL);
}

/* The sentence that the call writes of the bytes, in ASCII; NULL where it writes none. */
METHOD(jbyteArray, sentence)(JNIEnv *env, jclass type, jint call, jbyteArray bytes, jintArray limits) {
    asked what = { call, 0, 0, NULL, 0, { 0, 0, 0, 0 } };
    span in[2] = { find_all(env, bytes), find_all(env, NULL) };
    (void)type;
    return get_limits(env, limits, &what.limits) ? make(env, &what, in, NULL) : NULL;
}

/* The sentence that the call writes of the field with these bytes and this number of a name, or of the record with this
 * index; NULL where it writes none. */
METHOD(jbyteArray, warning)(JNIEnv *env, jclass type, jint call, jbyteArray bytes, jint number) {
    const asked what = { call, (uint32_t)number, 0, NULL, 0, { 0, 0, 0, 0 } };
    span in[2] = { find_all(env, bytes), find_all(env, NULL) };
    (void)type;
    return make(env, &what, in, NULL);
}

/* What may help where the bytes are refused: the number of the hint, the place and the length; NULL where nothing is known to. */
METHOD(jintArray, hint)(JNIEnv *env, jclass type, jbyteArray bytes, jintArray words) {
    ndef_limits limits;
    ndef_found found;
    span in = find_all(env, bytes);
    (void)type;
    if (!get_limits(env, words, &limits) || !hold(env, &in, 1)) return NULL;
    uint32_t status = ndef_find_hint(in.bytes, in.length, &limits, &found);
    release(env, &in, 1, JNI_ABORT);
    if (status != NDEF_OK) return NULL;
    const jint numbers[] = { (jint)found.hint, (jint)found.at, (jint)found.length };
    jintArray array = (*env)->NewIntArray(env, 3);
    if (array != NULL) (*env)->SetIntArrayRegion(env, array, 0, 3, numbers);
    return array;
}

/* ---- what payloads say */

static int read_simple(jint kind, const span *in, jint *out, uint32_t *status, ndef_checked *why) {
    ndef_text_parts text = { 0 };
    ndef_carrier_parts carrier = { 0 };
    ndef_alternative_parts alternative = { 0 };
    ndef_error_parts error = { 0 };
    switch (kind) {
        case NDEF_KIND_TEXT:
            *status = ndef_text(in->bytes, in->length, &text, why);
            out[0] = (jint)text.language_at, out[1] = (jint)text.language_length, out[2] = (jint)text.utf16;
            out[3] = (jint)text.text_at, out[4] = (jint)text.text_length;
            return 5;
        case NDEF_KIND_CARRIER:
            *status = ndef_carrier(in->bytes, in->length, &carrier, why);
            out[0] = (jint)carrier.type_at, out[1] = (jint)carrier.type_length;
            out[2] = (jint)carrier.data_at, out[3] = (jint)carrier.data_length, out[4] = (jint)carrier.format;
            return 5;
        case NDEF_KIND_ALTERNATIVE:
            *status = ndef_alternative(in->bytes, in->length, &alternative, why);
            out[0] = (jint)alternative.power;
            return 1;
        case NDEF_KIND_ERROR:
            *status = ndef_error(in->bytes, in->length, &error, why);
            out[0] = (jint)error.data_at, out[1] = (jint)error.data_length, out[2] = (jint)error.reason;
            out[3] = (jint)error.has_number, out[4] = (jint)error.number;
            return 5;
        default: *status = NDEF_BAD_ARGUMENT; return 0;
    }
}

static int read_nested(jint kind, const span *in, uint32_t flags, jint *out, uint32_t *status, ndef_checked *why) {
    ndef_poster_parts poster = { 0 };
    ndef_request_parts request = { 0 };
    ndef_select_parts select = { 0 };
    switch (kind) {
        case NDEF_KIND_SMART_POSTER:
            *status = ndef_poster(in->bytes, in->length, flags, &poster, why);
            out[0] = (jint)poster.uri_at, out[1] = (jint)poster.uri_length;
            out[2] = (jint)poster.has_action, out[3] = (jint)poster.action;
            out[4] = (jint)poster.has_size, out[5] = (jint)poster.size;
            return 6;
        case NDEF_KIND_REQUEST:
            *status = ndef_request(in->bytes, in->length, flags, &request, why);
            out[0] = (jint)request.major, out[1] = (jint)request.minor, out[2] = (jint)request.collision;
            return 3;
        case NDEF_KIND_SELECT:
            *status = ndef_select(in->bytes, in->length, flags, &select, why);
            out[0] = (jint)select.major, out[1] = (jint)select.minor;
            return 2;
        default: return read_simple(kind, in, out, status, why);
    }
}

METHOD(jintArray, numbers)(JNIEnv *env, jclass type, jint kind, jbyteArray payload, jint flags, jlongArray why) {
    jint out[6];
    uint32_t status;
    ndef_checked said = { 0, 0, 0 };
    span in = find_all(env, payload);
    (void)type;
    if (!hold(env, &in, 1)) return NULL;
    int count = read_nested(kind, &in, (uint32_t)flags, out, &status, &said);
    release(env, &in, 1, JNI_ABORT);
    if (status != NDEF_OK) {
        give_checked(env, why, &said);
        return NULL;
    }
    jintArray array = (*env)->NewIntArray(env, count);
    if (array != NULL) (*env)->SetIntArrayRegion(env, array, 0, count, out);
    return (*env)->ExceptionCheck(env) ? NULL : array;
}

/* ---- checks of bytes that arrive in parts */

METHOD(jint, begin)(JNIEnv *env, jclass type, jintArray limits, jlongArray state) {
    ndef_limits within;
    ndef_checker checker;
    (void)type;
    if (!get_limits(env, limits, &within)) return NDEF_BAD_ARGUMENT;
    uint32_t status = ndef_begin(&within, &checker);
    (*env)->SetLongArrayRegion(env, state, 0, CHECKER_WORDS, (const jlong *)checker.words);
    return (jint)status;
}

/* Feeds bytes that don't move, or those of the span. */
static jint feed(JNIEnv *env, jlongArray state, const uint8_t *bytes, ndef_size length, span *input, jlongArray checked) {
    ndef_checker checker;
    ndef_checked out = { 0, 0, 0 };
    (*env)->GetLongArrayRegion(env, state, 0, CHECKER_WORDS, (jlong *)checker.words);
    if ((*env)->ExceptionCheck(env)) return NDEF_BAD_ARGUMENT;
    if (input != NULL && !hold(env, input, 1)) return NDEF_BAD_ARGUMENT;
    uint32_t status = ndef_feed(&checker, input != NULL ? input->bytes : bytes, length, &out);
    if (input != NULL) release(env, input, 1, JNI_ABORT);
    (*env)->SetLongArrayRegion(env, state, 0, CHECKER_WORDS, (const jlong *)checker.words);
    if ((*env)->ExceptionCheck(env)) return NDEF_BAD_ARGUMENT;
    give_checked(env, checked, &out);
    return (jint)status;
}

METHOD(jint, feed)(JNIEnv *env, jclass type, jlongArray state, jbyteArray bytes, jint at, jint length,
                   jlongArray checked) {
    span input;
    (void)type;
    if (!find_part(env, &input, bytes, at, length)) return NDEF_BAD_ARGUMENT;
    return feed(env, state, NULL, input.length, &input, checked);
}

METHOD(jint, feedDirect)(JNIEnv *env, jclass type, jlongArray state, jobject buffer, jint at, jint length,
                         jlongArray checked) {
    const uint8_t *bytes = (*env)->GetDirectBufferAddress(env, buffer);
    jlong capacity = (*env)->GetDirectBufferCapacity(env, buffer);
    (void)type;
    if (at < 0 || length < 0 || at > capacity || length > capacity - at || (bytes == NULL && length > 0)) {
        raise(env, "java/lang/IndexOutOfBoundsException", "the buffer has fewer bytes");
        return NDEF_BAD_ARGUMENT;
    }
    return feed(env, state, bytes != NULL ? bytes + at : NULL, (ndef_size)length, NULL, checked);
}

/* ---- names */

METHOD(jstring, name)(JNIEnv *env, jclass type, jint list, jint number) {
    uint8_t buffer[80];
    ndef_size count = 0;
    uint32_t status = NDEF_BAD_ARGUMENT, of = (uint32_t)number;
    (void)type;
    if (list == REASON_NAME) status = ndef_reason_name(of, buffer, sizeof buffer - 1, &count);
    if (list == REASON_SENTENCE) status = ndef_reason_sentence(of, buffer, sizeof buffer - 1, &count);
    if (list == FIELD_NAME) status = ndef_field_name(of, buffer, sizeof buffer - 1, &count);
    if (list == URI_PREFIX) status = ndef_uri_prefix(of, buffer, sizeof buffer - 1, &count);
    if (status != NDEF_OK) return NULL;
    buffer[count] = 0;
    return (*env)->NewStringUTF(env, (const char *)buffer);
}
