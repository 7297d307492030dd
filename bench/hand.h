/* A checker of NDEF messages as one writes it by hand in C. It accepts what ndef_check accepts in the strict profile, and refuses the rest at the same
 * offset for the same reason; but of a payload in chunks that is checked the offset is that of its end, and in a nested message a head that fits no
 * continuation may be refused some octets later. The limit of a payload is at most
 * JOINED. A program includes ndef.h first. */
enum { MESSAGE, POSTER, REQUEST, SELECT, JOINED = 1 << 21 };
typedef struct { const uint8_t *at; size_t have, length; } octets; /* `have` of them have come */
typedef struct { const uint8_t *at; uint32_t reason; } fault;
typedef struct { octets left; uint32_t records; int has_wanted, is_whole; } reading; /* records that were read, and what follows them */

static uint32_t refused(const uint8_t *at, uint32_t reason, fault *f) { f->at = at; f->reason = reason; return NDEF_REFUSED; }

static octets after(octets o, size_t count) {
    octets rest = {o.at + count, o.have > count ? o.have - count : 0, o.length - count};
    return rest;
}

static uint32_t check_utf8(octets o, fault *f) {
    size_t i = 0, k, count;
    while (i < o.have) {
        uint8_t first = o.at[i], least = 0x80, most = 0xBF;
        uint64_t word = ~(uint64_t)0;
        if (o.have - i >= 8) memcpy(&word, o.at + i, 8);
        if (!(word & 0x8080808080808080u)) { i += 8; continue; }
        if (first < 0x80) { i++; continue; }
        if (first < 0xC2 || first > 0xF4) return refused(o.at + i, NDEF_REASON_UTF8, f);
        count = first < 0xE0 ? 2 : first < 0xF0 ? 3 : 4;
        if (count > o.length - i) return refused(o.at + i, NDEF_REASON_DOES_NOT_FIT, f);
        if (first == 0xE0) least = 0xA0;
        if (first == 0xED) most = 0x9F;
        if (first == 0xF0) least = 0x90;
        if (first == 0xF4) most = 0x8F;
        for (k = 1; k < count && i + k < o.have; k++, least = 0x80, most = 0xBF)
            if (o.at[i + k] < least || o.at[i + k] > most) return refused(o.at + i + k, NDEF_REASON_UTF8, f);
        i += count;
    }
    return NDEF_OK;
}

static uint32_t check_utf16(octets o, fault *f) {
    size_t is_little = o.have >= 2 && o.at[0] == 0xFF && o.at[1] == 0xFE, i;
    int is_low_next = 0;
    for (i = is_little ? 2 : 0; i + is_little < o.have; i += 2) {
        const uint8_t *top = o.at + i + is_little;
        if ((*top >> 2 == 0x37) != is_low_next) return refused(top, NDEF_REASON_UTF16, f);
        is_low_next = *top >> 2 == 0x36;
        if (is_low_next && o.length - i <= 2) return refused(top, NDEF_REASON_DOES_NOT_FIT, f);
    }
    return NDEF_OK;
}

static uint32_t check_text(octets o, fault *f) {
    size_t language, i;
    if (o.have == 0) return NDEF_OK;
    language = o.at[0] & 63;
    if (o.at[0] & 64) return refused(o.at, NDEF_REASON_TEXT_BIT, f);
    if (language > o.length - 1 || (o.at[0] & 128 && (o.length - 1 - language) & 1)) return refused(o.at, NDEF_REASON_DOES_NOT_FIT, f);
    for (i = 1; i <= language && i < o.have; i++) if (o.at[i] > 127) return refused(o.at + i, NDEF_REASON_LANGUAGE, f);
    return (o.at[0] & 128 ? check_utf16 : check_utf8)(after(o, 1 + language), f);
}

static uint32_t check_uri(octets o, fault *f) {
    if (o.have == 0) return NDEF_OK;
    return o.at[0] > 0x23 ? refused(o.at, NDEF_REASON_URI_CODE, f) : check_utf8(after(o, 1), f);
}

/* A power octet, a reference, the number of others and these, each after its length. */
static uint32_t check_alternative(octets o, fault *f) {
    size_t at, left;
    if (o.have < 2) return NDEF_OK;
    if (o.at[1] + 3u > o.length) return refused(o.at + 1, NDEF_REASON_DOES_NOT_FIT, f);
    at = 2u + o.at[1];
    if (at >= o.have) return NDEF_OK;
    left = o.at[at];
    if (left > o.length - at - 1) return refused(o.at + at, NDEF_REASON_DOES_NOT_FIT, f);
    for (at++; left > 0 && at < o.have; left--, at += 1u + o.at[at])
        if (o.at[at] + left > o.length - at) return refused(o.at + at, NDEF_REASON_DOES_NOT_FIT, f);
    return NDEF_OK;
}

static uint32_t check_error(octets o, fault *f) {
    int fits = o.have == 0 || o.at[0] == 0 || o.at[0] > 3 || o.length == (o.at[0] == 2 ? 5 : 2);
    return fits ? NDEF_OK : refused(o.at, NDEF_REASON_DOES_NOT_FIT, f);
}

static uint32_t check_carrier(octets o, fault *f) {
    return o.have < 2 || 2u + o.at[1] <= o.length ? NDEF_OK : refused(o.at + 1, NDEF_REASON_DOES_NOT_FIT, f);
}

static int is(const uint8_t *type, const char *name, size_t length) { return memcmp(type, name, length) == 0; }

/* What a well-known type is in a message of this kind, as ndef_kind says it. */
static uint32_t kind_of(int message, const uint8_t *type, size_t length) {
    int is_handover = message >= REQUEST;
    if (length == 1 && !is_handover) {
        if (*type == 'T') return NDEF_KIND_TEXT;
        if (*type == 'U') return NDEF_KIND_URI;
        if (message == POSTER && *type == 's') return NDEF_KIND_SIZE;
        if (message == POSTER && *type == 't') return NDEF_KIND_MEDIA_TYPE;
    } else if (length == 2 && message == MESSAGE) {
        if (is(type, "Sp", 2)) return NDEF_KIND_SMART_POSTER;
        if (is(type, "Hr", 2)) return NDEF_KIND_REQUEST;
        if (is(type, "Hs", 2)) return NDEF_KIND_SELECT;
        if (is(type, "Hc", 2)) return NDEF_KIND_CARRIER;
    } else if (length == 2 && is_handover) {
        if (is(type, "ac", 2)) return NDEF_KIND_ALTERNATIVE;
        if (message == REQUEST && is(type, "cr", 2)) return NDEF_KIND_COLLISION;
    } else if (length == 3) {
        if (message == POSTER && is(type, "act", 3)) return NDEF_KIND_ACTION;
        if (message == SELECT && is(type, "err", 3)) return NDEF_KIND_ERROR;
    }
    return NDEF_KIND_OTHER;
}

/* Whether a payload of the kind may have this length. */
static int has_length(uint32_t kind, size_t length) {
    static const size_t least[] = {0, 1, 1, 5, 8, 1, 2, 1, 4, 0, 3, 2, 1};
    if (kind == NDEF_KIND_ACTION || kind == NDEF_KIND_SIZE || kind == NDEF_KIND_COLLISION) return length == least[kind];
    return length >= least[kind] && (kind != NDEF_KIND_SELECT || length == 1 || length >= 4);
}

static uint32_t check_nested(int message, octets o, const ndef_limits *limits, fault *f);

static uint32_t check_handover(int message, octets o, const ndef_limits *limits, fault *f) {
    if (o.have == 0) return NDEF_OK;
    if (o.at[0] >> 4 != 1) return refused(o.at, NDEF_REASON_VERSION, f);
    return o.length == 1 ? NDEF_OK : check_nested(message, after(o, 1), limits, f);
}

static uint32_t payload_of(uint32_t kind, octets o, const ndef_limits *limits, fault *f) {
    switch (kind) {
    case NDEF_KIND_TEXT: return check_text(o, f);
    case NDEF_KIND_URI: return check_uri(o, f);
    case NDEF_KIND_SMART_POSTER: return check_nested(POSTER, o, limits, f);
    case NDEF_KIND_REQUEST: return check_handover(REQUEST, o, limits, f);
    case NDEF_KIND_SELECT: return check_handover(SELECT, o, limits, f);
    case NDEF_KIND_CARRIER: return check_carrier(o, f);
    case NDEF_KIND_MEDIA_TYPE: return check_utf8(o, f);
    case NDEF_KIND_ALTERNATIVE: return check_alternative(o, f);
    case NDEF_KIND_ERROR: return check_error(o, f);
    default: return NDEF_OK;
    }
}

/* The reason for which a header octet is refused, or 0. */
static uint32_t reason_of_header(unsigned header, int message, uint32_t records, uint32_t chunks, const ndef_limits *limits) {
    unsigned tnf = header & 7, is_chunk = header & 32;
    if (tnf == 7) return NDEF_REASON_RESERVED_TNF;
    if ((records == 0 && chunks == 0) != header >> 7) return header & 128 ? NDEF_REASON_BEGIN_AGAIN : NDEF_REASON_BEGIN_MISSING;
    if (chunks == 0 && tnf == 6) return NDEF_REASON_UNCHANGED_OUTSIDE;
    if (chunks != 0 && tnf != 6) return NDEF_REASON_CHANGED_INSIDE;
    if (chunks != 0 && header & 8) return NDEF_REASON_ID_INSIDE;
    if (is_chunk && header & 64) return NDEF_REASON_CHUNK_AT_END;
    if (is_chunk && tnf == 0) return NDEF_REASON_CHUNK_OF_EMPTY;
    if (is_chunk && (message != MESSAGE || chunks + 1 >= limits->chunks)) return NDEF_REASON_TOO_MANY_PIECES;
    if (!is_chunk && !(header & 64) && records + 1 >= limits->records) return NDEF_REASON_TOO_MANY_RECORDS;
    return 0;
}

static uint32_t reason_of_type_length(unsigned tnf, unsigned length) {
    if (!length == (tnf < 1 || tnf > 4)) return 0;
    return tnf == 0 ? NDEF_REASON_EMPTY_NOT_EMPTY : length ? NDEF_REASON_TYPE_NOT_EMPTY : NDEF_REASON_TYPE_EMPTY;
}

/* The head of a record or a chunk, up to its type: where that begins, the type that the record must have (or NULL), and what of it may come later. */
typedef struct { size_t type, id, payload, at, later; uint32_t chunks; const char *wanted; } head;

/* Whether what is known of a head fits the octets of a nested message; of its last record, whether that ends with them. */
static uint32_t fits(int message, octets o, const head *h, size_t at, int is_all, fault *f) {
    size_t least = h->type + h->id + h->payload + h->later, is_last = o.at[0] & 64;
    if (message == MESSAGE || (is_last && is_all ? least == o.length : least <= o.length)) return NDEF_OK;
    return refused(o.at + at, NDEF_REASON_DOES_NOT_FIT, f);
}

/* A request that doesn't begin with its collision record, or a poster that ends without a URI. */
static uint32_t lacks_wanted(int message, const uint8_t *at, fault *f) {
    return refused(at, message == REQUEST ? NDEF_REASON_COLLISION_MISSING : NDEF_REASON_URI_MISSING, f);
}

static uint32_t header(int message, octets o, const ndef_limits *limits, const reading *r, head *h, fault *f) {
    unsigned tnf = o.at[0] & 7;
    int is_last = o.at[0] >> 6 & 1;
    uint32_t reason = reason_of_header(o.at[0], message, r->records, h->chunks, limits);
    if (reason) return refused(o.at, reason, f);
    h->wanted = message == MESSAGE || r->has_wanted ? NULL : message == REQUEST ? "cr" : is_last ? "U" : NULL;
    if (h->wanted && tnf != 1) return lacks_wanted(message, o.at, f);
    h->at = o.at[0] & 16 ? 3 : 6;
    h->type = tnf >= 1 && tnf <= 4;
    h->id = h->payload = 0;
    h->later = h->at + (o.at[0] >> 3 & 1) + (is_last ? 0 : 3);
    if (h->wanted) h->payload = strlen(h->wanted), h->type = h->payload;
    return fits(message, o, h, 0, tnf == 0, f);
}

/* Reads most heads: of a record in one chunk and the short form, with a type and without an id, which has come and is right. */
static int quick_head(int message, octets o, const ndef_limits *limits, const reading *r, head *h) {
    unsigned first;
    if (o.have < 3 || h->chunks != 0) return 0;
    first = o.at[0];
    if ((first & 56) != 16 || (first & 7) - 1 > 3 || (r->records == 0) != first >> 7 || o.at[1] == 0) return 0;
    h->at = 3;
    h->type = o.at[1];
    h->id = h->later = 0;
    h->payload = o.at[2];
    h->wanted = NULL;
    if (!(first & 64) && (r->records + 1 >= limits->records || h->type + h->payload + 6 > o.length)) return 0;
    return message == MESSAGE ? h->payload <= limits->payload : r->has_wanted && (!(first & 64) || h->type + h->payload + 3 == o.length);
}

/* Reads the octets before the type. */
static uint32_t lengths(int message, octets o, const ndef_limits *limits, const reading *r, size_t joined, head *h, fault *f) {
    uint32_t reason, status;
    size_t at, end, payload = 0, least;
    if (o.have == 0) return NDEF_MORE;
    if ((status = header(message, o, limits, r, h, f)) != NDEF_OK) return status;
    if (o.have == 1) return NDEF_MORE;
    reason = reason_of_type_length(o.at[0] & 7, o.at[1]);
    if (reason) return refused(o.at + 1, reason, f);
    if (h->wanted && o.at[1] != h->type) return lacks_wanted(message, o.at + 1, f);
    h->type = o.at[1];
    if ((status = fits(message, o, h, 1, 0, f)) != NDEF_OK) return status;
    for (at = 2, end = h->at, least = h->payload; at < end; at++) {
        if (at == o.have) return NDEF_MORE;
        payload |= (size_t)o.at[at] << 8 * (end - 1 - at);
        if (payload && (o.at[0] & 7) == 0) return refused(o.at + at, NDEF_REASON_EMPTY_NOT_EMPTY, f);
        if (message == MESSAGE && payload > limits->payload - joined) return refused(o.at + at, NDEF_REASON_PAYLOAD_TOO_LARGE, f);
        h->payload = payload > least ? payload : least;
        if ((status = fits(message, o, h, at, at + 1 == end && !(o.at[0] & 8), f)) != NDEF_OK) return status;
    }
    if (payload < least) return refused(o.at + end - 1, NDEF_REASON_DOES_NOT_FIT, f);
    if (!(o.at[0] & 8)) return NDEF_OK;
    if (at == o.have) return NDEF_MORE;
    h->id = o.at[h->at++];
    if ((o.at[0] & 7) == 0 && h->id) return refused(o.at + at, NDEF_REASON_EMPTY_NOT_EMPTY, f);
    return fits(message, o, h, at, 1, f);
}

/* Checks what has come of a payload, or of one in chunks all of it where its last one ends. */
static uint32_t check_payload(uint32_t kind, octets p, int is_only, int is_end, size_t before, const ndef_limits *limits, fault *f) {
    static uint8_t joined[JOINED];
    octets all = {joined, before + p.length, before + p.length};
    if (kind == NDEF_KIND_OTHER) return NDEF_OK;
    if (is_only) return payload_of(kind, p, limits, f);
    memcpy(joined + before, p.at, p.have);
    if (!is_end || p.have < p.length || (has_length(kind, all.length) && payload_of(kind, all, limits, f) == NDEF_OK)) return NDEF_OK;
    return refused(p.at + p.length, NDEF_REASON_DOES_NOT_FIT, f);
}

/* Reads a record, and of its payload what has come. */
static uint32_t read_record(int message, const ndef_limits *limits, reading *r, fault *f) {
    octets o = r->left, p;
    size_t count = 0, i;
    uint32_t kind = NDEF_KIND_OTHER, status;
    int is_end, is_only, is_last;
    head h;
    h.chunks = 0;
    do {
        if (!quick_head(message, o, limits, r, &h) && (status = lengths(message, o, limits, r, count, &h, f)) != NDEF_OK) return status;
        is_end = !(o.at[0] & 32);
        is_last = o.at[0] >> 6 & 1;
        is_only = is_end && h.chunks == 0;
        for (i = 0; h.wanted && i < h.type && h.at + i < o.have; i++)
            if (o.at[h.at + i] != (uint8_t)h.wanted[i]) return lacks_wanted(message, o.at + h.at + i, f);
        if (h.at + h.type > o.have) return NDEF_MORE;
        if ((o.at[0] & 7) == 1) kind = kind_of(message, o.at + h.at, h.type);
        if (message == POSTER && kind == NDEF_KIND_URI && r->has_wanted) return refused(o.at + h.at, NDEF_REASON_URI_AGAIN, f);
        if (is_only && !has_length(kind, h.payload)) return refused(o.at + h.at + h.type - 1, NDEF_REASON_DOES_NOT_FIT, f);
        if (h.at + h.type + h.id > o.have) return NDEF_MORE;
        p = after(o, h.at + h.type + h.id);
        o = after(p, h.payload);
        p.length = h.payload;
        if (p.have > p.length) p.have = p.length;
        if (check_payload(kind, p, is_only, is_end, count, limits, f) != NDEF_OK) return NDEF_REFUSED;
        if (p.have < p.length) return NDEF_MORE;
        count += h.payload;
        h.chunks++;
    } while (!is_end);
    r->left = o;
    r->records++;
    r->has_wanted |= message == REQUEST || kind == NDEF_KIND_URI;
    r->is_whole = is_last;
    return NDEF_OK;
}

static uint32_t read_all(int message, const ndef_limits *limits, reading *r, fault *f) {
    uint32_t status;
    do status = read_record(message, limits, r, f);
    while (status == NDEF_OK && !r->is_whole);
    return status;
}

static uint32_t check_nested(int message, octets o, const ndef_limits *limits, fault *f) {
    reading r = {o, 0, message == SELECT, 0};
    if (read_all(message, limits, &r, f) != NDEF_MORE) return r.is_whole ? NDEF_OK : NDEF_REFUSED;
    return o.have < o.length ? NDEF_OK : refused(o.at + o.length - 1, NDEF_REASON_DOES_NOT_FIT, f);
}

/* Begins with the record in which a reading of fewer of the same octets stopped. */
static uint32_t hand_read(const uint8_t *at, size_t length, const ndef_limits *limits, reading *r, ndef_checked *out) {
    fault f = {at + length, NDEF_REASON_END_OF_INPUT};
    uint32_t status;
    r->left.have = r->left.length = (size_t)(f.at - r->left.at);
    status = read_all(MESSAGE, limits, r, &f);
    out->place = (ndef_size)((status == NDEF_OK ? r->left.at : f.at) - at);
    out->reason = status == NDEF_OK ? 0 : f.reason;
    out->records = status == NDEF_OK ? r->records : 0;
    return status;
}

static uint32_t hand_check(const uint8_t *at, size_t length, const ndef_limits *limits, ndef_checked *out) {
    reading r = {{at, 0, 0}, 0, 1, 0};
    return hand_read(at, length, limits, &r, out) == NDEF_OK ? NDEF_OK : NDEF_REFUSED;
}
