/* reference.h: what docs/FORMAT.md says of a message, one byte at a time, written by hand from that page: the verdict, the place of the first
 * byte after which no continuation is a message, and the reason. It knows nothing of how the library works. As C99 it is a checker; in the
 * engine (IN_ENGINE) its numbers are those of all inputs of a path.
 *
 * After each byte it asks one question: is there a number of bytes, of those the lengths allow, with which what was read can be completed?
 * A payload's rules answer that by a set of lengths: least..most in steps (for a nested message one or two such sets). */
#ifdef IN_ENGINE
typedef U8 r8; typedef U32 r32; typedef U64 r64; typedef P rbytes;
#define AT(b, i) nd_load_8((b) + (i))
#else
#include <stdint.h>
typedef uint8_t r8; typedef uint32_t r32; typedef uint64_t r64; typedef const uint8_t *rbytes;
#define AT(b, i) ((b)[i])
#endif
#define HUGE_LENGTH 0x4000000000000000ULL

typedef struct { r32 status, records, reason; r64 place; } ref_answer;
typedef struct { r64 payload; r32 records, chunks; int standard, opaque; } ref_limits;

enum { R_OTHER, R_TEXT, R_URI, R_MEDIA, R_ACTION, R_SIZE, R_COLLISION, R_ALTERNATIVE, R_ERROR, R_CARRIER, R_POSTER, R_REQUEST, R_SELECT };

/* The kind of a well-known type, by its first three octets. */
static int ref_kind(int well_known, int length, r8 a, r8 b, r8 c) {
    if (!well_known) return R_OTHER;
    if (length == 1) {
        if (a == 'T') return R_TEXT;
        if (a == 'U') return R_URI;
        if (a == 's') return R_SIZE;
        if (a == 't') return R_MEDIA;
    }
    if (length == 2) {
        if (a == 'S' && b == 'p') return R_POSTER;
        if (a == 'H' && b == 'r') return R_REQUEST;
        if (a == 'H' && b == 's') return R_SELECT;
        if (a == 'H' && b == 'c') return R_CARRIER;
        if (a == 'a' && b == 'c') return R_ALTERNATIVE;
        if (a == 'c' && b == 'r') return R_COLLISION;
    }
    if (length == 3) {
        if (a == 'a' && b == 'c' && c == 't') return R_ACTION;
        if (a == 'e' && b == 'r' && c == 'r') return R_ERROR;
    }
    return R_OTHER;
}

/* ---- a payload that is no message */

typedef struct {
    int kind, phase, order, high, middle, pairs;   /* order: 0 open, 1 big, 2 little; high: a high surrogate waits; pairs: UTF-16 */
    r64 left, more;                                /* octets that must come; further ones that must come after them */
    r8 low, top, first;                            /* the bounds of the next octet of UTF-8; the first octet of a unit */
    int need;
} ref_leaf;

static void leaf_begin(ref_leaf *s, int kind) {
    s->kind = kind; s->phase = 0; s->order = 0; s->high = 0; s->middle = 0; s->need = 0; s->pairs = 0; s->left = 0; s->more = 0;
    s->low = 0x80; s->top = 0xBF; s->first = 0;
    if (kind == R_ACTION) s->left = 1;
    if (kind == R_SIZE) s->left = 4;
    if (kind == R_COLLISION) s->left = 2;
}

static int utf8_step(ref_leaf *s, r8 c) {
    if (s->need) {
        if (c < s->low || c > s->top) return 17;
        s->need--; s->low = 0x80; s->top = 0xBF;
        return 0;
    }
    if (c < 0x80) return 0;
    if (c < 0xC2 || c > 0xF4) return 17;
    if (c < 0xE0) { s->need = 1; return 0; }
    if (c < 0xF0) {
        s->need = 2;
        if (c == 0xE0) s->low = 0xA0;
        if (c == 0xED) s->top = 0x9F;
        return 0;
    }
    s->need = 3;
    if (c == 0xF0) s->low = 0x90;
    if (c == 0xF4) s->top = 0x8F;
    return 0;
}

static int utf16_step(ref_leaf *s, r8 c) {
    if (!s->middle) {
        s->middle = 1; s->first = c;
        if (s->order == 0 && (c == 0xFE || c == 0xFF)) return 0;      /* a mark, or the front of a unit */
        if (s->order == 0) s->order = 1;
        if (s->order == 2) return 0;
    } else {
        s->middle = 0;
        if (s->order == 0) {
            if (s->first == 0xFF && c == 0xFE) { s->order = 2; return 0; }
            s->order = 1;
            return 0;                                                 /* FE FF is the mark, and no other unit of FE or FF is a surrogate */
        }
        if (s->order == 1) return 0;
    }
    /* c is the high octet of a unit */
    if (c >= 0xDC && c <= 0xDF) { if (!s->high) return 18; s->high = 0; return 0; }
    if (s->high) return 18;
    if (c >= 0xD8 && c <= 0xDB) s->high = 1;
    return 0;
}

/* Takes an octet: 0, or the reason. */
static int leaf_step(ref_leaf *s, r8 c, int standard) {
    switch (s->kind) {
    case R_TEXT:
        if (s->phase == 0) { s->phase = 1; if ((c & 0x40) != 0) return 15; s->left = c & 0x3F; if ((c & 0x80) != 0) s->pairs = 1; return 0; }
        if (s->left != 0) { if (c > 0x7F) return 16; s->left = s->left - 1; return 0; }
        return s->pairs ? utf16_step(s, c) : utf8_step(s, c);
    case R_URI:
        if (s->phase == 0) { s->phase = 1; if (c > 0x23 && !standard) return 19; return 0; }
        return utf8_step(s, c);
    case R_MEDIA: return utf8_step(s, c);
    case R_ACTION: case R_SIZE: case R_COLLISION:
        if (s->left == 0) return 23;
        s->left = s->left - 1; return 0;
    case R_ERROR:
        if (s->phase == 0) {
            s->phase = 1;
            if (c == 1 || c == 3) { s->left = 1; return 0; }
            if (c == 2) { s->left = 4; return 0; }
            s->phase = 2; return 0;
        }
        if (s->phase == 1) { if (s->left == 0) return 23; s->left = s->left - 1; }
        return 0;
    case R_CARRIER:
        if (s->phase == 0) { s->phase = 1; return 0; }
        if (s->phase == 1) { s->phase = 2; s->left = c; return 0; }
        if (s->left != 0) s->left = s->left - 1;
        return 0;
    case R_ALTERNATIVE:        /* power, length, reference, count, each length and reference, any */
        if (s->phase == 0) { s->phase = 1; return 0; }
        if (s->phase == 1) { s->phase = 2; s->left = c; return 0; }
        if (s->left != 0) { s->left = s->left - 1; return 0; }
        if (s->phase == 2) { s->phase = 3; s->more = c; return 0; }
        if (s->more != 0) { s->more = s->more - 1; s->left = c; }
        return 0;
    default: return 0;
    }
}

/* With how many octets more it can be whole: least, least + step, .. up to most. */
static void leaf_lengths(const ref_leaf *s, r64 *least, r64 *most, int *step) {
    *step = 1; *most = HUGE_LENGTH; *least = 0;
    switch (s->kind) {
    case R_TEXT: case R_URI: case R_MEDIA:
        if (s->phase == 0 && s->kind != R_MEDIA) { *least = 1; return; }
        if (s->pairs) {                                   /* in the middle of a little-endian unit the high surrogate is the unit before */
            *step = 2; *least = s->left + (unsigned)(s->middle + (s->high && !(s->order == 2 && s->middle) ? 2 : 0));
            return;
        }
        *least = s->left + (unsigned)s->need; return;
    case R_ACTION: case R_SIZE: case R_COLLISION: *least = s->left; *most = s->left; return;
    case R_ERROR:
        if (s->phase == 0) *least = 1;
        if (s->phase == 1) { *least = s->left; *most = s->left; }
        return;
    case R_CARRIER: if (s->phase == 2) *least = s->left; else *least = (unsigned)(2 - s->phase); return;
    case R_ALTERNATIVE:
        if (s->phase < 2) *least = (unsigned)(3 - s->phase);
        else if (s->phase == 2) *least = s->left + 1U;
        else *least = s->left + s->more;
        return;
    default: return;
    }
}

static int some(r64 least, r64 most, int step, r64 low, r64 high) {
    r64 x = low;
    if (least >= low) x = least;
    else if (step == 2 && ((low - least) & 1) != 0) x = low + 1U;
    return x <= high && x <= most ? 1 : 0;
}
static int leaf_fits(const ref_leaf *s, r64 low, r64 high) {
    r64 least, most; int step;
    leaf_lengths(s, &least, &most, &step);
    return some(least, most, step, low, high);
}

/* ---- a head */

typedef struct {
    int end, chunk, small, ident, tnf0, tnf5, tnf1;       /* tnf0: Empty; tnf5: no type (5, 6, 7); tnf1: well-known */
    int type_known, octets, id_known;                     /* what has been read; octets: of PAYLOAD_LENGTH */
    r64 type, length, id;
} ref_head;

static int head_step(ref_head *h, r8 c, int first, int open, int last_chunk, int last_record, int standard) {
    r8 tnf = c & 7;
    int end = (c & 0x40) != 0 ? 1 : 0, chunk = (c & 0x20) != 0 ? 1 : 0, ident = (c & 8) != 0 ? 1 : 0, begin = (c & 0x80) != 0 ? 1 : 0;
    if (tnf == 7 && !standard) return 1;
    if (first && !begin) return 2;
    if (!first && begin) return 3;
    if (!open && tnf == 6) return 4;
    if (open && tnf != 6) return 5;
    if (open && ident) return 6;
    if (chunk && end) return 7;
    if (!open && chunk && tnf == 0) return 8;
    if (chunk && last_chunk) return 9;
    if (!chunk && !end && last_record) return 10;
    h->end = end; h->chunk = chunk; h->ident = ident; h->small = (c & 0x10) != 0 ? 1 : 0;
    h->tnf0 = tnf == 0 ? 1 : 0; h->tnf5 = tnf >= 5 ? 1 : 0; h->tnf1 = tnf == 1 ? 1 : 0;
    h->type_known = 0; h->octets = 0; h->id_known = !ident; h->type = 0; h->length = 0; h->id = 0;
    return 0;
}
static int type_length_step(ref_head *h, r8 c) {
    h->type_known = 1; h->type = c;
    if (h->tnf5 && c != 0) return 11;
    if (!h->tnf5 && !h->tnf0 && c == 0) return 12;
    if (h->tnf0 && c != 0) return 13;
    return 0;
}
static int all_octets(const ref_head *h) { return h->small ? 1 : 4; }
static r64 length_least(const ref_head *h) { return h->length << (8 * (all_octets(h) - h->octets)); }
static r64 length_most(const ref_head *h) { return length_least(h) + ((1ULL << (8 * (all_octets(h) - h->octets))) - 1U); }

/* ---- a message in a payload */

enum { AT_VERSION, AT_HEADER, AT_TYPE_LENGTH, AT_LENGTH, AT_ID_LENGTH, AT_TYPE, AT_ID, AT_PAYLOAD, AT_END };
typedef struct {
    int table, phase, seen_uri, is_uri, started, read;    /* read: octets of the type */
    r32 done, records;
    ref_head h; r8 t0, t1, t2; ref_leaf leaf; r64 id_left, left;
    int standard;
} ref_nested;

static void nested_begin(ref_nested *m, int table, r32 records, int standard) {
    m->table = table; m->phase = table == R_POSTER ? AT_HEADER : AT_VERSION; m->seen_uri = 0; m->is_uri = 0; m->started = 0; m->read = 0;
    m->done = 0; m->records = records; m->standard = standard; m->t0 = 0; m->t1 = 0; m->t2 = 0; m->id_left = 0; m->left = 0;
}
static int in_table(int table, int kind) {
    if (table == R_POSTER) return kind == R_TEXT || kind == R_URI || kind == R_ACTION || kind == R_SIZE || kind == R_MEDIA;
    if (table == R_REQUEST) return kind == R_COLLISION || kind == R_ALTERNATIVE;
    return kind == R_ALTERNATIVE || kind == R_ERROR;
}
static int must_be_uri(const ref_nested *m) { return m->table == R_POSTER && m->h.end && !m->seen_uri; }
static int must_be_collision(const ref_nested *m) { return m->table == R_REQUEST && m->done == 0 ? 1 : 0; }

static int after_field(ref_nested *m, int why);
static int begin_leaf(ref_nested *m) {
    int kind = R_OTHER;
    if (m->h.tnf1 && m->read <= 3) kind = ref_kind(1, m->read, m->t0, m->t1, m->t2);
    m->is_uri = m->table == R_POSTER && kind == R_URI;
    leaf_begin(&m->leaf, in_table(m->table, kind) ? kind : R_OTHER);
    m->started = 1;
    return after_field(m, 0);
}
static int after_field(ref_nested *m, int why) {          /* the record's type is known */
    if (!leaf_fits(&m->leaf, m->left, m->left)) return why ? why : 23;
    if (m->id_left != 0) m->phase = AT_ID;
    else if (m->left != 0) m->phase = AT_PAYLOAD;
    else {
        m->done = m->done + 1U; m->started = 0;
        if (m->is_uri) m->seen_uri = 1;
        m->phase = m->h.end ? AT_END : AT_HEADER;
    }
    return 0;
}
static int after_head(ref_nested *m) {
    if (m->h.octets < all_octets(&m->h)) m->phase = AT_LENGTH;
    else if (!m->h.id_known) m->phase = AT_ID_LENGTH;
    else {
        m->id_left = m->h.id; m->left = m->h.length;
        if (m->h.type != 0) m->phase = AT_TYPE; else return begin_leaf(m);
    }
    return 0;
}
static int least_of(int a, int b) { return a == 0 ? b : b == 0 ? a : (a == 23 ? 100 : a) < (b == 23 ? 100 : b) ? a : b; }

static int nested_step(ref_nested *m, r8 c) {
    int why = 0, expected = 1;
    switch (m->phase) {
    case AT_VERSION: m->phase = AT_HEADER; return (c >> 4) != 1 ? 22 : 0;
    case AT_HEADER:
        m->started = 0; m->read = 0; m->is_uri = 0; m->t0 = 0; m->t1 = 0; m->t2 = 0;
        why = head_step(&m->h, c, m->done == 0 ? 1 : 0, 0, 1, m->done + 1U == m->records ? 1 : 0, m->standard);
        if (why) return why;                              /* 1 to 10 come before 20 and 25 */
        expected = m->h.tnf1;
        m->phase = AT_TYPE_LENGTH;
        break;
    case AT_TYPE_LENGTH:
        why = type_length_step(&m->h, c);
        expected = c == (m->table == R_REQUEST ? 2 : 1) ? 1 : 0;
        m->phase = AT_LENGTH;
        break;
    case AT_LENGTH:
        if (m->h.tnf0 && c != 0) return 13;
        m->h.length = m->h.length << 8 | c; m->h.octets++;
        return after_head(m);
    case AT_ID_LENGTH:
        if (m->h.tnf0 && c != 0) return 13;
        m->h.id = c; m->h.id_known = 1;
        return after_head(m);
    case AT_TYPE:
        if (m->read == 0) m->t0 = c; else if (m->read == 1) m->t1 = c; else if (m->read == 2) m->t2 = c;
        if (m->table == R_POSTER) expected = m->read == 0 && c == 'U' ? 1 : 0;
        else expected = (m->read == 0 && c == 'c') || (m->read == 1 && c == 'r') ? 1 : 0;
        if (m->table == R_POSTER && m->seen_uri && m->h.tnf1 && m->h.type == 1 && c == 'U') why = 21;
        m->read++;
        break;
    case AT_ID: m->id_left = m->id_left - 1U; return after_field(m, 0);
    case AT_PAYLOAD: m->left = m->left - 1U; why = leaf_step(&m->leaf, c, m->standard); if (why) return why; return after_field(m, 0);
    default: return 23;
    }
    if (!expected && must_be_uri(m)) why = least_of(why, 20);
    if (!expected && must_be_collision(m)) why = least_of(why, 25);
    if (why) return why;
    if (m->phase == AT_TYPE && m->h.type == (unsigned)m->read) return begin_leaf(m);
    return 0;
}

/* The rest of the present record, if its type has type_low to type_high octets and its payload low to high. */
static int rest_of(const ref_nested *m, unsigned type_low, unsigned type_high, r64 low, r64 high, unsigned id_most, int named, r64 *least, r64 *most) {
    const ref_head *h = &m->h;
    r64 from = length_least(h), to = length_most(h), a, z;
    if (named && !h->tnf1) return 0;
    if (named && h->type_known && h->type != type_low) return 0;
    if (named && m->read > 0 && type_low == 1 && m->t0 != 'U') return 0;
    if (named && m->read > 0 && type_low == 2 && m->t0 != 'c') return 0;
    if (named && m->read > 1 && type_low == 2 && m->t1 != 'r') return 0;
    if (from > low) low = from;
    if (to < high) high = to;
    if (low > high) return 0;
    if (!h->type_known) { a = 1U + type_low; z = 1U + type_high; } else { a = h->type - (unsigned)m->read; z = a; }
    a = a + (unsigned)(all_octets(h) - h->octets); z = z + (unsigned)(all_octets(h) - h->octets);
    if (!h->id_known) { a = a + 1U; z = z + 1U + id_most; } else { a = a + h->id; z = z + h->id; }
    *least = a + low; *most = z + high;
    return 1;
}
/* The same with the records after it: those need 3 octets, or 5 where a URI must still come. */
static int rest_fits(const ref_nested *m, r64 least, r64 most, int uri, r64 low, r64 high) {
    if (m->h.end) return some(least, most, 1, low, high);
    return some(least + (m->table == R_POSTER && !m->seen_uri && !uri ? 5U : 3U), HUGE_LENGTH, 1, low, high);
}
static int nested_fits(const ref_nested *m, r64 low, r64 high) {
    r64 least, most; unsigned one = m->phase == AT_VERSION ? 1 : 0;
    const r64 MOST = 0xFFFFFFFFULL;
    if (m->phase == AT_END) return low == 0 ? 1 : 0;
    if (m->phase == AT_VERSION || m->phase == AT_HEADER) {
        if (m->table == R_POSTER) return some(m->seen_uri ? 3U : 5U, HUGE_LENGTH, 1, low, high);
        if (m->done == 0) {
            if (m->table == R_REQUEST) return some(7U + one, m->records == 1U ? (r64)(266U + one) : (r64)HUGE_LENGTH, 1, low, high);
            if (some(one, one, 1, low, high)) return 1;
        }
        return some(3U + one, HUGE_LENGTH, 1, low, high);
    }
    if (m->started) return rest_fits(m, m->id_left + m->left, m->id_left + m->left, m->is_uri, low, high);
    if (must_be_collision(m)) return rest_of(m, 2, 2, 2, 2, 255, 1, &least, &most) && rest_fits(m, least, most, 0, low, high);
    if (must_be_uri(m)) return rest_of(m, 1, 1, 1, MOST, 255, 1, &least, &most) && rest_fits(m, least, most, 1, low, high);
    if (m->h.tnf0 ? rest_of(m, 0, 0, 0, 0, 0, 0, &least, &most) : m->h.tnf5 ? rest_of(m, 0, 0, 0, MOST, 255, 0, &least, &most)
        : rest_of(m, 1, 255, 0, MOST, 255, 0, &least, &most))
        if (rest_fits(m, least, most, 0, low, high)) return 1;
    return m->table == R_POSTER && !m->seen_uri && rest_of(m, 1, 1, 1, MOST, 255, 1, &least, &most) && rest_fits(m, least, most, 1, low, high);
}

/* ---- a message */

static ref_answer ref_refused(r64 place, int reason) { ref_answer a; a.status = 1; a.records = 0; a.reason = (unsigned)reason; a.place = place; return a; }

static ref_answer ref_check(rbytes b, r64 n, r32 payload_limit, r32 record_limit, r32 chunk_limit, unsigned flags) {
    int standard = flags & 1, opaque = (flags >> 1) & 1;
    r32 records = 0; r64 at = 0;
    for (;;) {                                            /* a record */
        r32 chunks = 0; r64 taken = 0; int open = 0, known = 0, kind = R_OTHER, why = 0, is_nested = 0;
        ref_leaf leaf; ref_nested nested; ref_head h;
        leaf_begin(&leaf, R_OTHER);
        for (;;) {                                        /* a chunk */
            int phase = AT_HEADER, read = 0, well_known = 0; r8 t0 = 0, t1 = 0, t2 = 0; r64 left = 0, id_left = 0;
            for (;;) {                                    /* an octet */
                r8 c; int fed = 0; r64 low, high, space;
                if (at == n) return ref_refused(n, 24);
                c = AT(b, at); why = 0;
                if (phase == AT_HEADER) {
                    why = head_step(&h, c, records == 0 && !open ? 1 : 0, open, chunks + 1U == chunk_limit ? 1 : 0, records + 1U == record_limit ? 1 : 0, standard);
                    if (why) return ref_refused(at, why);
                    well_known = h.tnf1;
                } else if (phase == AT_TYPE_LENGTH) why = type_length_step(&h, c);
                else if (phase == AT_LENGTH) {
                    h.length = h.length << 8 | c; h.octets++;
                    if (h.tnf0 && c != 0) why = 13;
                    else if (taken + length_least(&h) > payload_limit) why = 14;
                } else if (phase == AT_ID_LENGTH) { h.id = c; h.id_known = 1; if (h.tnf0 && c != 0) why = 13; }
                else if (phase == AT_TYPE) {
                    if (read == 0) t0 = c; else if (read == 1) t1 = c; else if (read == 2) t2 = c;
                    read++;
                    if (h.type == (unsigned)read) {
                        kind = opaque || read > 3 ? R_OTHER : ref_kind(well_known, read, t0, t1, t2);
                        known = 1;
                        is_nested = kind == R_POSTER || kind == R_REQUEST || kind == R_SELECT;
                        if (is_nested) nested_begin(&nested, kind, record_limit, standard);
                        else leaf_begin(&leaf, kind == R_TEXT || kind == R_URI || kind == R_CARRIER ? kind : R_OTHER);
                    }
                } else if (phase == AT_ID) id_left = id_left - 1U;
                else { left = left - 1U; taken = taken + 1U; fed = is_nested ? nested_step(&nested, c) : leaf_step(&leaf, c, standard); }
                if (why) return ref_refused(at, why);
                if (fed) return ref_refused(at, fed);
                /* Can the payload still have a length that its rules allow? */
                space = payload_limit - taken;
                if (phase <= AT_ID_LENGTH) { low = length_least(&h); high = length_most(&h); }
                else if (phase == AT_TYPE || phase == AT_ID) { low = h.length; high = h.length; }
                else { low = left; high = left; }
                if (h.chunk) high = space; else if (space < high) high = space;
                if (low > high) return ref_refused(at, 23);
                if (known && !(is_nested ? nested_fits(&nested, low, high) : leaf_fits(&leaf, low, high))) return ref_refused(at, 23);
                at = at + 1U;
                /* the next field */
                if (phase == AT_HEADER) { phase = AT_TYPE_LENGTH; continue; }
                if (phase <= AT_ID_LENGTH) {
                    if (h.octets < all_octets(&h)) { phase = AT_LENGTH; continue; }
                    if (!h.id_known) { phase = AT_ID_LENGTH; continue; }
                    left = h.length; id_left = h.id;
                    if (h.type == 0) known = 1;
                }
                if (h.type != (unsigned)read) phase = AT_TYPE;
                else if (id_left != 0) phase = AT_ID;
                else if (left != 0) phase = AT_PAYLOAD;
                else break;
            }
            chunks = chunks + 1U; open = h.chunk;
            if (!open) break;
        }
        records = records + 1U;
        if (h.end) { ref_answer a; a.status = 0; a.records = records; a.reason = 0; a.place = at; return a; }
    }
}
