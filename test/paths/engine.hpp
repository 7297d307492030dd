// engine.hpp: runs the text of dist/ndef.c on bytes of which nothing is known, and finds all paths.
//
// Each value V of the C code is a concrete number, and beside it the term (Node) over the input's bytes that it was
// computed by. A branch on such a term is an event. When a run has ended, each event is turned round where the solver
// finds bytes that lead there, and the run is made again, until no event is left: then every input of that length
// took one of the paths that were run. On each path are checked:
//   - each load and store lies within one object (its provenance, not only its address), and addresses that depend
//     on the input are run for each value;
//   - pointer arithmetic that C counts (not that on uintptr_t) stays within its object or one past it;
//   - no branch, address or answer depends on memory that was never written;
//   - sums of `int` don't overflow, and no shift is by as many bits as the type has;
//   - what the harness claims by must().
// The rules of C99 for promotions and conversions are those of an LP64 machine, as 6.3.1 has them.
#pragma once
#include <cstdint>
#include <cstddef>
#include <cstdio>
#include <cstdlib>
#include <cstring>
#include <vector>
#include <map>
#include <unordered_map>
#include <string>
#include <type_traits>
#include <z3.h>

namespace sym {

typedef unsigned char octet;
enum Op : uint8_t { INPUT, CONST, UNINIT, ADD, SUB, MUL, UDIV, UREM, AND, OR, XOR, SHL, LSHR, ASHR, EQ, ULT, SLT, ITE, ZEXT, SEXT,
                    EXTRACT, CONCAT };

struct Node {
    Op op; uint8_t bits; bool open;      // open: depends on memory that was never written
    uint8_t low;                         // EXTRACT: the lowest bit; CONCAT: the number of kids
    uint64_t val, hash, deps;            // the value in this run; what it is made of; the bytes it depends on
    Node *child[3]; Node **children;           // CONCAT: least significant first
    uint64_t seen, memo;                 // eval
};

struct Set { uint64_t w[4];
    bool has(unsigned i) const { return w[i >> 6] >> (i & 63) & 1; }
    bool empty() const { return !(w[0] | w[1] | w[2] | w[3]); }
    Set operator&(const Set &o) const { return {{w[0] & o.w[0], w[1] & o.w[1], w[2] & o.w[2], w[3] & o.w[3]}}; }
    Set operator~() const { return {{~w[0], ~w[1], ~w[2], ~w[3]}}; }
    bool operator==(const Set &o) const { return !memcmp(w, o.w, sizeof w); }
    int first() const { for (int i = 0; i < 256; i++) if (has(i)) return i; return -1; }
};

static const int MOST = 64;
static octet input[MOST];
static int input_size;

// ---- memory of nodes, for one run
static std::vector<char *> slabs; static size_t slab_at, slab_used;
static void *allocate(size_t size) {
    const size_t SLAB = 1 << 20;
    size = (size + 7) & ~size_t(7);
    if (slabs.empty() || slab_used + size > SLAB) {
        if (!slabs.empty()) slab_at++;
        if (slab_at >= slabs.size()) slabs.push_back((char *)malloc(SLAB)), slab_at = slabs.size() - 1;
        slab_used = 0;
    }
    void *p = slabs[slab_at] + slab_used; slab_used += size; return p;
}
static void forget() { slab_at = 0; slab_used = 0; }

static inline uint64_t mask(unsigned bits) { return bits >= 64 ? ~0ull : (1ull << bits) - 1; }
static inline uint64_t mix(uint64_t a, uint64_t b) { a ^= b + 0x9E3779B97F4A7C15ull + (a << 6) + (a >> 2); a *= 0xff51afd7ed558ccdull; a ^= a >> 33; return a; }
static inline int64_t sx(uint64_t v, unsigned bits) { return bits >= 64 ? (int64_t)v : (int64_t)(v << (64 - bits)) >> (64 - bits); }

static Node *node(Op op, unsigned bits, uint64_t val, Node *a = nullptr, Node *b = nullptr, Node *c = nullptr, unsigned low = 0) {
    Node *n = (Node *)allocate(sizeof(Node));
    n->op = op; n->bits = bits; n->low = low; n->val = val & mask(bits); n->child[0] = a; n->child[1] = b; n->child[2] = c; n->children = nullptr;
    n->open = false; n->deps = 0; n->seen = 0;
    uint64_t h = mix(op * 1315423911u + bits, low);
    for (Node *k : {a, b, c}) if (k) { n->open |= k->open; n->deps |= k->deps; h = mix(h, k->hash); }
    if (op == CONST) h = mix(h, n->val);
    n->hash = h;
    return n;
}
static Node *constant(uint64_t v, unsigned bits) { return node(CONST, bits, v); }
static Node *never() { Node *n = node(UNINIT, 8, 0xAA); n->open = true; return n; }
static Node *byte_of_input(int i) { Node *n = node(INPUT, 8, input[i], nullptr, nullptr, nullptr, i); n->deps = 1ull << i; return n; }

static uint64_t epoch;
static uint64_t apply(const Node *n, uint64_t a, uint64_t b, uint64_t c) {
    unsigned bits = n->bits, from = n->child[0] ? n->child[0]->bits : 0;
    switch (n->op) {
    case ADD: return (a + b) & mask(bits);
    case SUB: return (a - b) & mask(bits);
    case MUL: return (a * b) & mask(bits);
    case UDIV: return b ? a / b : mask(bits);
    case UREM: return b ? a % b : a;
    case AND: return a & b;
    case OR: return a | b;
    case XOR: return a ^ b;
    case SHL: return b >= bits ? 0 : (a << b) & mask(bits);
    case LSHR: return b >= bits ? 0 : a >> b;
    case ASHR: return (uint64_t)(sx(a, bits) >> (b >= bits ? bits - 1 : b)) & mask(bits);
    case EQ: return a == b;
    case ULT: return a < b;
    case SLT: return sx(a, from) < sx(b, from);
    case ITE: return a ? b : c;
    case ZEXT: return a;
    case SEXT: return (uint64_t)sx(a, from) & mask(bits);
    case EXTRACT: return (a >> n->low) & mask(bits);
    default: abort();
    }
}
static uint64_t eval(Node *n, const octet *bytes) {
    if (n->op == INPUT) return bytes[n->low];
    if (!n->deps) return n->val;
    if (n->seen == epoch) return n->memo;
    uint64_t v = 0;
    if (n->op == CONCAT) { for (int i = 0; i < n->low; i++) v |= eval(n->children[i], bytes) << (8 * i); }
    else v = apply(n, eval(n->child[0], bytes), n->child[1] ? eval(n->child[1], bytes) : 0, n->child[2] ? eval(n->child[2], bytes) : 0);
    n->seen = epoch; n->memo = v;
    return v;
}

// ---- objects and failures
struct Obj { octet *base; size_t size; Node **shadow; Obj **owner; const char *name; bool readonly; };
struct Failure { std::string what; };
[[noreturn]] static void fail(const char *what) { throw Failure{what}; }

// ---- branches
struct Event { Node *n; bool taken; int at; Set set; };      // at: the one byte that is open, whose set the way taken allows; or -1
static std::vector<Event> events;
static Set domain[MOST];                              // what the events so far leave to each byte
static uint64_t pins;                                 // bytes that have one value left
static std::unordered_map<uint64_t, Set> truths;      // of conditions on one byte
static std::unordered_map<uint64_t, bool> known;      // of conditions on several, in this run
static uint64_t steps, most_steps = 50000000;
static bool single(const Set &s) { return __builtin_popcountll(s.w[0]) + __builtin_popcountll(s.w[1]) + __builtin_popcountll(s.w[2]) + __builtin_popcountll(s.w[3]) == 1; }

// The values of the byte for which the condition holds, where the others of the condition are pinned.
static const Set &truth(Node *n, int at) {
    uint64_t key = mix(n->hash, at);
    for (uint64_t d = n->deps & ~(1ull << at); d; d &= d - 1) key = mix(key, input[__builtin_ctzll(d)] + 1);
    auto found = truths.find(key);
    if (found != truths.end()) return found->second;
    Set s = {{0, 0, 0, 0}};
    octet bytes[MOST]; memcpy(bytes, input, sizeof bytes);
    for (int v = 0; v < 256; v++) { bytes[at] = v; epoch++; if (eval(n, bytes)) s.w[v >> 6] |= 1ull << (v & 63); }
    return truths[key] = s;
}

// The least and the greatest value that a term can have, by what is left to each byte: never too narrow.
struct Range { uint64_t lo, hi; };
static std::unordered_map<uint64_t, std::vector<uint64_t>> tables;      // the values of a term on one byte
static bool replayed;                                  // the values of the terms are those of the domains' pins
static Range range(Node *n) {
    uint64_t m = mask(n->bits);
    Range full = {0, m};
    if (!n->deps || (replayed && !(n->deps & ~pins))) return {n->val, n->val};
    if (n->op != INPUT && n->op != ZEXT && (n->deps & (n->deps - 1)) == 0) {
        int at = __builtin_ctzll(n->deps);
        std::vector<uint64_t> &t = tables[n->hash];
        if (t.empty()) { t.resize(256); octet bytes[MOST]; memset(bytes, 0, sizeof bytes); for (int v = 0; v < 256; v++) { bytes[at] = v; epoch++; t[v] = eval(n, bytes); } }
        Range r = {~0ull, 0};
        for (int k = 0; k < 4; k++) for (uint64_t w = domain[at].w[k]; w; w &= w - 1) { uint64_t v = t[64 * k + __builtin_ctzll(w)]; if (v < r.lo) r.lo = v; if (v > r.hi) r.hi = v; }
        return r;
    }
    if (n->op == INPUT) { const Set &s = domain[n->low]; int lo = s.first(), hi = 255; while (hi > lo && !s.has(hi)) hi--; return {(uint64_t)lo, (uint64_t)hi}; }
    if (n->op == CONCAT) {
        Range r = {0, 0};
        for (int i = 0; i < n->low; i++) { Range k = range(n->children[i]); r.lo |= k.lo << (8 * i); r.hi |= k.hi << (8 * i); }
        return r;
    }
    Range a = range(n->child[0]), b = n->child[1] ? range(n->child[1]) : Range{0, 0};
    unsigned from = n->child[0]->bits;
    if (n->op != ITE && a.lo == a.hi && b.lo == b.hi) { uint64_t v = apply(n, a.lo, b.lo, 0); return {v, v}; }
    switch (n->op) {
    case ADD: { unsigned __int128 x = (unsigned __int128)a.lo + b.lo, y = (unsigned __int128)a.hi + b.hi;
                return (x >> n->bits) == (y >> n->bits) ? Range{(uint64_t)x & m, (uint64_t)y & m} : full; }
    case SUB: if (a.lo >= b.hi) return {a.lo - b.hi, a.hi - b.lo};
              if (a.hi < b.lo) return {(a.lo - b.hi) & m, (a.hi - b.lo) & m};
              return full;
    case AND: if (n->bits == 1) return {a.lo & b.lo, a.hi & b.hi};
              return {0, a.hi < b.hi ? a.hi : b.hi};
    case OR: { uint64_t top = a.hi | b.hi; for (int k = 1; k < 64; k *= 2) top |= top >> k; return {a.lo > b.lo ? a.lo : b.lo, top}; }
    case XOR: if (n->bits == 1 && b.lo == 1 && b.hi == 1) return {1 - a.hi, 1 - a.lo}; else { uint64_t top = a.hi | b.hi; for (int k = 1; k < 64; k *= 2) top |= top >> k; return {0, top}; }
    case SHL: if (b.lo == b.hi && b.lo < n->bits && (a.hi << b.lo >> b.lo) == a.hi && (a.hi << b.lo) <= m) return {a.lo << b.lo, a.hi << b.lo}; return full;
    case LSHR: if (b.lo == b.hi && b.lo < n->bits) return {a.lo >> b.lo, a.hi >> b.lo}; return {0, a.hi};
    case EQ: if (a.lo == a.hi && b.lo == b.hi && a.lo == b.lo) return {1, 1}; if (a.hi < b.lo || b.hi < a.lo) return {0, 0}; return {0, 1};
    case SLT: { uint64_t half = 1ull << (from - 1);      // both of one sign each
                if ((a.lo & half) != (a.hi & half) || (b.lo & half) != (b.hi & half)) return {0, 1};
                if ((a.lo & half) != (b.lo & half)) return (a.lo & half) ? Range{1, 1} : Range{0, 0};
              } // one sign: as unsigned
              [[fallthrough]];
    case ULT: if (a.hi < b.lo) return {1, 1}; if (a.lo >= b.hi) return {0, 0}; return {0, 1};
    case ITE: { Range c = range(n->child[2]); if (a.lo == a.hi) return a.lo ? b : c; return {b.lo < c.lo ? b.lo : c.lo, b.hi > c.hi ? b.hi : c.hi}; }
    case ZEXT: return a;
    case SEXT: { uint64_t half = 1ull << (from - 1); if (a.hi < half) return a; if (a.lo >= half) return {a.lo | (m & ~mask(from)), a.hi | (m & ~mask(from))}; return full; }
    case EXTRACT: if (n->low == 0 && a.hi <= m) return a; if (a.lo == a.hi) return {(a.lo >> n->low) & m, (a.lo >> n->low) & m}; return full;
    default: return full;
    }
}
static bool decide(Node *n, bool value) {      // a condition of this run
    const bool answer = value;
    for (;;) {                                     // the plainest form of it
        if (n->op == ZEXT || n->op == SEXT) n = n->child[0];
        else if (n->bits == 1 && n->op == XOR && !n->child[1]->deps && n->child[1]->val == 1) { n = n->child[0]; value = !value; }
        else if (n->op == EQ && n->child[0]->op == ZEXT && n->child[0]->child[0]->bits == 1 && !n->child[1]->deps && n->child[1]->val == 0) { n = n->child[0]->child[0]; value = !value; }
        else if (n->op == EXTRACT && n->low == 0 && n->child[0]->op == ZEXT && n->child[0]->child[0]->bits <= n->bits) n = n->child[0]->child[0];
        else break;
    }
    if (n->open) fail("a branch on memory that was never written");
    if (!n->deps) return answer;
    if (++steps > most_steps) fail("too many steps");
    uint64_t left = n->deps & ~pins;
    if (!left) return answer;
    if ((left & (left - 1)) == 0) {
        int at = __builtin_ctzll(left);
        Set s = truth(n, at); if (!value) s = ~s;
        Set now = domain[at] & s;
        if (now == domain[at]) return answer;
        domain[at] = now; events.push_back({n, value, at, s});
        if (single(now)) pins |= 1ull << at;
        return answer;
    }
    if (known.count(n->hash)) return answer;
    replayed = true;
    Range r = range(n);
    if (r.hi == 0 || r.lo > 0) return answer;
    known[n->hash] = value;
    events.push_back({n, value, -1, {}});
    return answer;
}

// ---- values
enum Type : uint8_t { u8 = 8, u16 = 16, u32 = 32, u64 = 64, i8 = 8 | 128, i16 = 16 | 128, i32 = 32 | 128, i64 = 64 | 128 };
static inline unsigned bits_of(uint8_t t) { return t & 127; }
static inline bool signed_of(uint8_t t) { return t & 128; }

struct V {
    uint64_t c; Node *e; Obj *o; uint8_t t; bool p;      // the bits, the term (or none), what a pointer points into; p: a pointer of C
    V() : c(0), e(nullptr), o(nullptr), t(u64), p(false) {}
    V(uint64_t c, Node *e, Obj *o, uint8_t t, bool p = false) : c(c), e(e), o(o), t(t), p(p) {}
    V(int v) : c((uint32_t)v), e(nullptr), o(nullptr), t(i32), p(false) {}
    V(unsigned v) : c(v), e(nullptr), o(nullptr), t(u32), p(false) {}
    V(long v) : c(v), e(nullptr), o(nullptr), t(i64), p(false) {}
    V(unsigned long v) : c(v), e(nullptr), o(nullptr), t(u64), p(false) {}
    V(unsigned long long v) : c(v), e(nullptr), o(nullptr), t(u64), p(false) {}
    explicit operator bool() const { return e ? decide(e, c != 0) : c != 0; }
    Node *term() const { return e ? e : constant(c, bits_of(t)); }
};

static V cast(const V &v, uint8_t t) {
    unsigned from = bits_of(v.t), to = bits_of(t);
    if (from == to) return V(v.c, v.e, v.o, t);
    if (to < from) {
        Node *e = v.e;
        if (e) {
            if (e->op == CONCAT) {
                unsigned count = to / 8;
                if (count == 1) e = e->children[0];
                else { Node *n = node(CONCAT, to, v.c, nullptr, nullptr, nullptr, count); n->children = e->children; n->hash = 77;
                       for (unsigned i = 0; i < count; i++) { n->deps |= e->children[i]->deps; n->open |= e->children[i]->open; n->hash = mix(n->hash, e->children[i]->hash); } e = n; }
            } else if ((e->op == ZEXT || e->op == SEXT) && e->child[0]->bits == to) e = e->child[0];
            else e = node(EXTRACT, to, v.c, e);
        }
        return V(v.c & mask(to), e, nullptr, t);
    }
    bool s = signed_of(v.t);
    uint64_t c = s ? (uint64_t)sx(v.c, from) & mask(to) : v.c;
    Node *e = v.e;
    if (e) e = e->op == ZEXT && !(s && e->child[0]->bits == from) ? node(ZEXT, to, c, e->child[0]) : node(s ? SEXT : ZEXT, to, c, e);
    return V(c, e, v.o, t);
}
static V promoted(const V &v) { return bits_of(v.t) < 32 ? cast(v, i32) : v; }
static uint8_t common(uint8_t a, uint8_t b) {      // both promoted
    if (a == b) return a;
    unsigned x = bits_of(a), y = bits_of(b);
    if (x == y) return x;                           // one of them is unsigned
    return x > y ? a : b;                           // the wider one has all values of the narrower
}
static bool is_small(const V &v) { return bits_of(v.t) < 32; }
static V truth_value(bool c, Node *cond) { return V(c, cond ? node(ZEXT, 32, c, cond) : nullptr, nullptr, i32); }

// The octets that a term is made of, where it is no more than octets side by side.
static bool lanes(const V &v, Node **out) {
    unsigned count = bits_of(v.t) / 8;
    if (!v.e || !v.e->deps) { if (v.e && v.e->open) return false; for (unsigned i = 0; i < count; i++) out[i] = constant(v.c >> (8 * i), 8); return true; }
    Node *n = v.e;
    while (n->op == ZEXT && n->bits > 8) n = n->child[0];
    if (n->bits == 8) out[0] = n;
    else if (n->op == CONCAT) for (unsigned i = 0; i < n->low; i++) out[i] = n->children[i];
    else return false;
    for (unsigned i = n->bits / 8; i < count; i++) out[i] = constant(0, 8);
    return true;
}
static bool is_zero(Node *n) { return !n->deps && !n->open && n->val == 0; }
static Node *side_by_side(Node **of, unsigned bits, uint64_t val) {
    unsigned count = bits / 8, used = count;
    while (used > 1 && is_zero(of[used - 1])) used--;
    if (used == 1) return node(ZEXT, bits, val, of[0]);
    Node *e = node(CONCAT, bits, val, nullptr, nullptr, nullptr, count);
    e->children = (Node **)allocate(count * sizeof(Node *)); e->hash = 77;
    for (unsigned i = 0; i < count; i++) { e->children[i] = of[i]; e->deps |= of[i]->deps; e->open |= of[i]->open; e->hash = mix(e->hash, of[i]->hash); }
    return e;
}
static Node *octets_of(Op op, const V &a, const V &b, uint64_t val) {      // both of one type; b of a shift is a number
    unsigned bits = bits_of(a.t), count = bits / 8;
    Node *x[8], *y[8], *r[8];
    if (bits < 32 || !lanes(a, x)) return nullptr;
    if (op == SHL || op == LSHR) {
        if (b.e || b.c % 8 || b.c >= bits) return nullptr;
        unsigned by = b.c / 8;
        for (unsigned i = 0; i < count; i++) r[i] = op == SHL ? (i >= by ? x[i - by] : constant(0, 8)) : (i + by < count ? x[i + by] : constant(0, 8));
        return side_by_side(r, bits, val);
    }
    if (!lanes(b, y)) return nullptr;
    for (unsigned i = 0; i < count; i++) {
        Node *p = x[i], *q = y[i];
        if (p->open || q->open) return nullptr;
        if (!p->deps) { p = y[i]; q = x[i]; }
        uint64_t v = op == OR ? p->val | q->val : op == AND ? p->val & q->val : p->val ^ q->val;
        if (!p->deps) r[i] = constant(v, 8);
        else if (!q->deps && q->val == (op == AND ? 255u : 0u)) r[i] = p;
        else if (!q->deps && op == AND && q->val == 0) r[i] = q;
        else if (!q->deps && op == OR && q->val == 255) r[i] = q;
        else r[i] = node(op, 8, v, p, q);
    }
    return side_by_side(r, bits, val);
}
static V binary(Op op, const V &a0, const V &b0) {
    V a = promoted(a0), b = promoted(b0);
    uint8_t t = common(a.t, b.t);
    unsigned bits = bits_of(t);
    a = cast(a, t); b = cast(b, t);
    if (signed_of(t) && (op == ADD || op == SUB || op == MUL)) {
        bool fine = op == MUL ? bits_of(a0.t) + bits_of(b0.t) < 32 : (is_small(a0) || !a.e) && (is_small(b0) || !b.e);
        int64_t r; bool over = op == ADD ? __builtin_add_overflow(sx(a.c, bits), sx(b.c, bits), &r)
            : op == SUB ? __builtin_sub_overflow(sx(a.c, bits), sx(b.c, bits), &r) : __builtin_mul_overflow(sx(a.c, bits), sx(b.c, bits), &r);
        if (over || sx((uint64_t)r & mask(bits), bits) != r) fail("a signed overflow");
        if (!fine && (a.e || b.e) && bits < 64) {   // no input of this path may overflow: ask in 64 bits
            Node *wide = node(op, 64, (uint64_t)r, cast(a, i64).term(), cast(b, i64).term());
            Node *back = node(SEXT, 64, (uint64_t)r, node(EXTRACT, bits, (uint64_t)r, wide));
            decide(node(EQ, 1, 1, wide, back), true);
        } else if (!fine && (a.e || b.e)) {            // the bounds that this path leaves to each
            replayed = true;
            Range x = a.e ? range(a.e) : Range{a.c, a.c}, y = b.e ? range(b.e) : Range{b.c, b.c};
            const uint64_t half = 1ull << 63;
            bool no = x.hi < half && y.hi < half && (op == SUB || (op == ADD && x.hi + y.hi < half) || (op == MUL && (unsigned __int128)x.hi * y.hi < half));
            if (!no) fail("a signed sum of 64 bits of the input, which may overflow");
        }
    }
    if ((op == UDIV || op == UREM)) { if (b.e) fail("a divisor of the input"); if (!b.c) fail("a division by zero"); if (signed_of(t)) { if (sx(a.c, bits) < 0 || sx(b.c, bits) < 0) fail("a signed division"); } }
    Obj *o = nullptr;
    if (op == ADD || op == SUB) { if (a.o && !b.o) o = a.o; else if (b.o && !a.o && op == ADD) o = b.o; }
    Node shape; shape.op = op; shape.bits = bits; shape.child[0] = nullptr;
    uint64_t c = apply(&shape, a.c, b.c, 0);
    Node *e = nullptr;
    if (a.e || b.e) {
        if (op == AND && ((!a.e && a.c == 0) || (!b.e && b.c == 0))) return V(0, nullptr, o, t);
        if (!b.e && ((b.c == 0 && (op == ADD || op == SUB || op == OR || op == XOR)) || (op == AND && b.c == mask(bits)) || (op == MUL && b.c == 1))) e = a.e;
        else if (!a.e && a.c == 0 && (op == ADD || op == OR || op == XOR)) e = b.e;
        else if (!((op == OR || op == AND || op == XOR) && (e = octets_of(op, a, b, c)))) e = node(op, bits, c, a.term(), b.term());
        if (e && !e->deps && !e->open) e = nullptr;
    }
    return V(c, e, o, t);
}
static V shift(Op op, const V &a0, const V &b0) {
    V a = promoted(a0), b = promoted(b0);
    unsigned bits = bits_of(a.t);
    if (b.c >= bits) fail("a shift by too many bits");
    if (b.e) { Node *in = node(ULT, 1, 1, cast(b, u64).term(), constant(bits, 64)); decide(in, true); }
    if (op == LSHR && signed_of(a.t)) op = ASHR;
    if (op == SHL && signed_of(a.t)) {
        if (b.e || a.e ? bits_of(a0.t) + (b.e ? 32 : b.c) > 31 : (sx(a.c, bits) < 0 || (a.c << b.c) > 0x7fffffff)) fail("a signed shift that may overflow");
    }
    if (!b.e && b.c == 0) return a;
    b = cast(b, a.t);
    Node shape; shape.op = op; shape.bits = bits; shape.child[0] = nullptr;
    uint64_t c = apply(&shape, a.c, b.c, 0);
    Node *e = nullptr;
    if (a.e || b.e) {
        if (op != ASHR && !b.e) e = octets_of(op, a, b, c);
        if (!e) e = node(op, bits, c, a.term(), b.term());
        if (!e->deps && !e->open) e = nullptr;
    }
    return V(c, e, nullptr, a.t);
}
static V compare(Op op, const V &a0, const V &b0, bool swapped, bool negated) {
    V a = promoted(swapped ? b0 : a0), b = promoted(swapped ? a0 : b0);
    uint8_t t = common(a.t, b.t);
    a = cast(a, t); b = cast(b, t);
    if (op == ULT && signed_of(t)) op = SLT;
    unsigned bits = bits_of(t);
    bool c = op == EQ ? a.c == b.c : op == ULT ? a.c < b.c : sx(a.c, bits) < sx(b.c, bits);
    Node *e = nullptr;
    if (a.e || b.e) {
        Node *x = a.term(), *y = b.term();
        Node *k[8], *l[8];
        if (x->hash == y->hash && x->deps && !x->open) { e = nullptr; } else
        if (op == EQ && bits >= 32 && lanes(a, k) && lanes(b, l)) {      // octet for octet
            e = nullptr; bool never_equal = false;
            for (unsigned i = 0; i < bits / 8; i++) {
                if (!k[i]->deps && !l[i]->deps && !k[i]->open && !l[i]->open) { never_equal |= k[i]->val != l[i]->val; continue; }
                Node *q = node(EQ, 1, k[i]->val == l[i]->val, k[i], l[i]);
                e = e ? node(AND, 1, e->val & q->val, e, q) : q;
            }
            if (never_equal) e = nullptr;
        } else e = node(op, 1, c, x, y);
        if (e && !negated && e->val != c) abort();
        if (!e) e = constant(c, 1);
        if (!e->deps && !e->open) e = nullptr;
    }
    if (negated) { c = !c; if (e) e = node(XOR, 1, c, e, constant(1, 1)); }
    return truth_value(c, e);
}

// C's own arithmetic on pointers: the sum stays within the object, or one past its end.
static V moved(const V &p, const V &by, bool minus) {
    V n = cast(promoted(by), i64);
    V a(p.c, p.e, nullptr, u64), b(n.c, n.e, nullptr, u64);
    V sum = minus ? binary(SUB, a, b) : binary(ADD, a, b);
    sum.o = p.o; sum.p = true;
    if (!p.o) { if (sum.e || sum.c != p.c) fail("arithmetic on a pointer to nothing"); return sum; }
    uint64_t at = sum.c - (uint64_t)p.o->base;
    if (at > p.o->size) fail("a pointer counted out of its object");
    if (sum.e) {
        V off = binary(SUB, V(sum.c, sum.e, nullptr, u64), V((unsigned long)p.o->base));
        Node *in = node(ULT, 1, 1, off.term(), constant(p.o->size + 1, 64));
        decide(in, true);
    }
    return sum;
}

// Pins a number to the value of this run; the other values are other paths. It asks for halves of what is left, in an order that does not depend on the
// value of this run, so that each value has a path.
static uint64_t pinned(const V &v) {
    if (!v.e) return v.c;
    if (v.e->open) fail("an address or a size of memory that was never written");
    replayed = true;
    for (Range r = range(v.e); r.lo != r.hi;) {
        uint64_t mid = r.lo + (r.hi - r.lo) / 2 + 1;
        if (decide(node(ULT, 1, v.c < mid, v.e, constant(mid, bits_of(v.t))), v.c < mid)) r.hi = mid - 1; else r.lo = mid;
        replayed = true;
        Range now = range(v.e);
        if (now.lo > r.lo) r.lo = now.lo;
        if (now.hi < r.hi) r.hi = now.hi;
    }
    return v.c;
}

template <uint8_t T> struct N : V {
    N() : V(0, nullptr, nullptr, T) {}
    N(const V &v) : V(cast(v, T)) {}
    N(int v) : V(cast(V(v), T)) {}
    N(unsigned v) : V(cast(V(v), T)) {}
    N(long v) : V(cast(V(v), T)) {}
    N(unsigned long v) : V(cast(V(v), T)) {}
    N(unsigned long long v) : V(cast(V(v), T)) {}
    N &operator+=(const V &b) { return *this = N(binary(ADD, *this, b)); }
    N &operator-=(const V &b) { return *this = N(binary(SUB, *this, b)); }
    N &operator|=(const V &b) { return *this = N(binary(OR, *this, b)); }
    N &operator>>=(const V &b) { return *this = N(shift(LSHR, *this, b)); }
    N operator++(int) { N old = *this; *this = N(binary(ADD, *this, V(1))); return old; }
    N operator--(int) { N old = *this; *this = N(binary(SUB, *this, V(1))); return old; }
};

static std::map<octet *, Obj *> statics;
static Obj *static_at(uint64_t at) {
    auto it = statics.upper_bound((octet *)at);
    if (it == statics.begin()) return nullptr;
    Obj *o = (--it)->second;
    return at <= (uint64_t)o->base + o->size ? o : nullptr;
}
static void is_static(const void *at, size_t size, const char *name) {
    Obj *o = new Obj{(octet *)at, size, nullptr, nullptr, name, true};
    statics[o->base] = o;
}

struct P : V {
    P() : V(0, nullptr, nullptr, u64, true) {}
    P(const V &v) : V(v.c, v.e, v.o, u64, true) { if (bits_of(v.t) != 64) *this = P(cast(v, u64)); }
    P(int v) : V((uint64_t)v, nullptr, nullptr, u64, true) {}
    template <class T, typename = typename std::enable_if<std::is_pointer<T>::value || std::is_array<T>::value>::type>
    P(const T &at) : V((uint64_t)(const void *)at, nullptr, static_at((uint64_t)(const void *)at), u64, true) {}
};

#define SYM_OP(sign, call) static inline V operator sign(const V &a, const V &b) { return call; } \
    template <class T, typename = typename std::enable_if<std::is_integral<T>::value>::type> static inline V operator sign(const V &a, T b) { return a sign V(b); } \
    template <class T, typename = typename std::enable_if<std::is_integral<T>::value>::type> static inline V operator sign(T a, const V &b) { return V(a) sign b; }
SYM_OP(+, a.p ? moved(a, b, false) : binary(ADD, a, b))
SYM_OP(-, a.p ? moved(a, b, true) : binary(SUB, a, b))
SYM_OP(*, binary(MUL, a, b))
SYM_OP(/, binary(UDIV, a, b))
SYM_OP(%, binary(UREM, a, b))
SYM_OP(&, binary(AND, a, b))
SYM_OP(|, binary(OR, a, b))
SYM_OP(^, binary(XOR, a, b))
SYM_OP(<<, shift(SHL, a, b))
SYM_OP(>>, shift(LSHR, a, b))
SYM_OP(==, compare(EQ, a, b, false, false))
SYM_OP(!=, compare(EQ, a, b, false, true))
SYM_OP(<, compare(ULT, a, b, false, false))
SYM_OP(>, compare(ULT, a, b, true, false))
SYM_OP(<=, compare(ULT, a, b, true, true))
SYM_OP(>=, compare(ULT, a, b, false, true))
static inline V operator!(const V &a) { return compare(EQ, a, V(0), false, false); }
static inline V operator~(const V &a0) { V a = promoted(a0); return binary(XOR, a, V(mask(bits_of(a.t)), nullptr, nullptr, a.t)); }

// (c ? a : b), whose sides have no effect: one term.
static V select(const V &c, const V &a0, const V &b0) {
    if (!c.e) return c.c ? a0 : b0;
    if (c.e->open) fail("a choice by memory that was never written");
    if (a0.p || b0.p || a0.o != b0.o) return (bool)c ? a0 : b0;
    V a = promoted(a0), b = promoted(b0);
    uint8_t t = a0.t == b0.t ? a0.t : common(a.t, b.t);
    a = cast(a0, t); b = cast(b0, t);
    if (!a.e && !b.e && a.c == b.c) return a;
    if (a.e && b.e && a.e->hash == b.e->hash && a.e->bits == b.e->bits) return a;
    Node *bit;
    if (c.e->op == ZEXT && c.e->child[0]->bits == 1) bit = c.e->child[0];
    else { V cond = compare(EQ, c, V(0), false, true); if (!cond.e) return cond.c ? a : b; bit = cond.e->child[0]; }
    V r = bit->val ? a : b;
    return V(r.c, node(ITE, bits_of(t), r.c, bit, a.term(), b.term()), r.o, t);
}

// ---- memory
static Obj *place(const V &p, uint64_t size, uint64_t &at, bool writes) {
    uint64_t a = pinned(p);
    Obj *o = p.o;
    if (!o) fail("a load or store by a pointer to nothing");
    at = a - (uint64_t)o->base;
    if (at > o->size || size > o->size - at) fail("a load or store out of its object");
    if (writes && o->readonly) fail("a store to a constant");
    return o;
}
static Node *octet_at(Obj *o, uint64_t at) { return o->shadow ? o->shadow[at] : nullptr; }

static V load(const V &p, unsigned size, uint8_t t) {
    uint64_t at; Obj *o = place(p, size, at, false);
    uint64_t c = 0; memcpy(&c, o->base + at, size);
    Node *e = nullptr; bool any = false;
    if (o->shadow) for (unsigned i = 0; i < size; i++) any |= o->shadow[at + i] != nullptr;
    if (any) {
        if (size == 1) e = o->shadow[at];
        else {
            Node *first = o->shadow[at], *whole = first && first->op == EXTRACT && first->low == 0 && first->child[0]->bits == size * 8 ? first->child[0] : nullptr;
            for (unsigned i = 1; whole && i < size; i++) { Node *n = o->shadow[at + i]; if (!n || n->op != EXTRACT || n->child[0] != whole || n->low != 8 * i) whole = nullptr; }
            if (whole) e = whole;
            else {
                e = node(CONCAT, size * 8, c, nullptr, nullptr, nullptr, size);
                e->children = (Node **)allocate(size * sizeof(Node *)); e->hash = 77;
                for (unsigned i = 0; i < size; i++) {
                    Node *n = o->shadow[at + i]; if (!n) n = constant(o->base[at + i], 8);
                    e->children[i] = n; e->deps |= n->deps; e->open |= n->open; e->hash = mix(e->hash, n->hash);
                }
            }
        }
    }
    return V(c, e, size == 8 && o->owner ? o->owner[at] : nullptr, t);
}
static void store(const V &p, const V &v, unsigned size) {
    uint64_t at; Obj *o = place(p, size, at, true);
    memcpy(o->base + at, &v.c, size);
    for (unsigned i = 0; i < size; i++) {
        Node *n = nullptr;
        if (v.e) {
            if (size == 1) n = v.e;
            else if (v.e->op == CONCAT) n = v.e->children[i];
            else n = node(EXTRACT, 8, v.c >> (8 * i), v.e, nullptr, nullptr, 8 * i);
            if (!n->deps && !n->open) n = nullptr;
        }
        o->shadow[at + i] = n; o->owner[at + i] = nullptr;
    }
    if (size == 8) o->owner[at] = v.o;
}
static void copy(const V &to, const V &from, const V &size0, bool may_overlap) {
    uint64_t size = pinned(size0), a, b;
    if (!size) return;
    Obj *x = place(to, size, a, true), *y = place(from, size, b, false);
    if (x == y && !may_overlap && a < b + size && b < a + size) fail("memcpy of memory that overlaps");
    memmove(x->base + a, y->base + b, size);
    if (y->shadow) { memmove(x->shadow + a, y->shadow + b, size * sizeof(Node *)); memmove(x->owner + a, y->owner + b, size * sizeof(Obj *)); }
    else for (uint64_t i = 0; i < size; i++) x->shadow[a + i] = nullptr, x->owner[a + i] = nullptr;
}
static void fill(const V &to, const V &v, const V &size0) {
    uint64_t size = pinned(size0), a;
    if (!size) return;
    Obj *x = place(to, size, a, true);
    V b = cast(v, u8);
    for (uint64_t i = 0; i < size; i++) x->base[a + i] = b.c, x->shadow[a + i] = b.e, x->owner[a + i] = nullptr;
}

// Memory of a call, or of the harness.
struct Memory {
    Obj obj; P b;
    explicit Memory(size_t size, const char *name = "") {
        octet *at = (octet *)allocate(size + 8 + size * 2 * sizeof(void *));
        obj = Obj{at, size, (Node **)(at + ((size + 7) & ~size_t(7))), nullptr, name, false};
        obj.owner = (Obj **)(obj.shadow + size);
        Node *n = never();
        for (size_t i = 0; i < size; i++) { at[i] = 0xAA; obj.shadow[i] = n; obj.owner[i] = nullptr; }
        b.c = (uint64_t)at; b.o = &obj;
    }
    Memory(const Memory &) = delete;
};
template <size_t SIZE> struct Local : Memory { Local() : Memory(SIZE, "room") {} };

// ---- the solver
static void show(Node *n) {
    static const char *names[] = {"in", "const", "uninit", "+", "-", "*", "/", "%", "&", "|", "^", "<<", ">>", ">>s", "==", "<", "<s", "ite", "z", "s", "part", "cat"};
    if (n->op == INPUT) { printf("b%d", n->low); return; }
    if (!n->deps) { printf("%lx", (unsigned long)n->val); return; }
    printf("(%s%d", names[n->op], n->bits);
    if (n->op == EXTRACT) printf("@%d", n->low);
    if (n->op == CONCAT) for (int i = 0; i < n->low; i++) printf(" "), show(n->children[i]);
    else for (Node *k : n->child) if (k) printf(" "), show(k);
    printf(")");
}
static Z3_context z3c; static Z3_solver z3s; static std::unordered_map<uint64_t, Z3_ast> asts;
static uint64_t z3_asked, z3_no, searched, guessed, cached, tried_all;
static Z3_ast bv(uint64_t v, unsigned bits) { return Z3_mk_unsigned_int64(z3c, v, Z3_mk_bv_sort(z3c, bits)); }
static Z3_ast bit(Z3_ast b) { return Z3_mk_ite(z3c, b, bv(1, 1), bv(0, 1)); }
static Z3_ast ast(Node *n) {
    if (n->op == CONST || !n->deps) return bv(n->val, n->bits);
    auto f = asts.find(n->hash); if (f != asts.end()) return f->second;
    Z3_ast r, a = n->child[0] ? ast(n->child[0]) : nullptr, b = n->child[1] ? ast(n->child[1]) : nullptr;
    switch (n->op) {
    case INPUT: { char name[16]; snprintf(name, sizeof name, "b%d", n->low); r = Z3_mk_const(z3c, Z3_mk_string_symbol(z3c, name), Z3_mk_bv_sort(z3c, 8)); break; }
    case ADD: r = Z3_mk_bvadd(z3c, a, b); break;   case SUB: r = Z3_mk_bvsub(z3c, a, b); break;
    case MUL: r = Z3_mk_bvmul(z3c, a, b); break;   case UDIV: r = Z3_mk_bvudiv(z3c, a, b); break;
    case UREM: r = Z3_mk_bvurem(z3c, a, b); break; case AND: r = Z3_mk_bvand(z3c, a, b); break;
    case OR: r = Z3_mk_bvor(z3c, a, b); break;     case XOR: r = Z3_mk_bvxor(z3c, a, b); break;
    case SHL: r = Z3_mk_bvshl(z3c, a, b); break;   case LSHR: r = Z3_mk_bvlshr(z3c, a, b); break;
    case ASHR: r = Z3_mk_bvashr(z3c, a, b); break; case EQ: r = bit(Z3_mk_eq(z3c, a, b)); break;
    case ULT: r = bit(Z3_mk_bvult(z3c, a, b)); break; case SLT: r = bit(Z3_mk_bvslt(z3c, a, b)); break;
    case ITE: r = Z3_mk_ite(z3c, Z3_mk_eq(z3c, a, bv(1, 1)), b, ast(n->child[2])); break;
    case ZEXT: r = Z3_mk_zero_ext(z3c, n->bits - n->child[0]->bits, a); break;
    case SEXT: r = Z3_mk_sign_ext(z3c, n->bits - n->child[0]->bits, a); break;
    case EXTRACT: r = Z3_mk_extract(z3c, n->low + n->bits - 1, n->low, a); break;
    case CONCAT: r = ast(n->children[0]); for (int i = 1; i < n->low; i++) r = Z3_mk_concat(z3c, ast(n->children[i]), r); break;
    default: abort();
    }
    return asts[n->hash] = r;
}
static Z3_ast within(int at, const Set &s) {      // the byte's value is in the set
    Node in; in.op = INPUT; in.low = at; in.bits = 8; in.deps = 1ull << at; in.child[0] = in.child[1] = nullptr; in.hash = mix(0x1234567, at);
    Z3_ast b = ast(&in); std::vector<Z3_ast> parts;
    for (int v = 0; v < 256;) {
        if (!s.has(v)) { v++; continue; }
        int w = v; while (w < 255 && s.has(w + 1)) w++;
        Z3_ast two[2] = {Z3_mk_bvuge(z3c, b, bv(v, 8)), Z3_mk_bvule(z3c, b, bv(w, 8))};
        parts.push_back(Z3_mk_and(z3c, 2, two)); v = w + 1;
    }
    return Z3_mk_or(z3c, parts.size(), parts.data());
}
struct Answer { bool sat; octet bytes[MOST]; };
static std::unordered_map<uint64_t, Answer> answers;
static uint64_t random_state = 88172645463325252ull;
static uint64_t rnd() { random_state ^= random_state << 13; random_state ^= random_state >> 7; random_state ^= random_state << 17; return random_state; }

// Halves the bytes' sets until the constraints hold for all that is left (1), or for none of it (0); -1: too long.
static int halves(const std::vector<Event> &cs, int &budget) {
    if (--budget < 0) return -1;
    Node *next = nullptr; int fewest = 99;
    for (auto &c : cs) {
        Range r = range(c.n);
        if (c.taken ? r.hi == 0 : r.lo > 0) return 0;
        if (c.taken ? r.lo > 0 : r.hi == 0) continue;
        int open = 0; for (uint64_t d = c.n->deps; d; d &= d - 1) open += !single(domain[__builtin_ctzll(d)]);
        if (open < fewest) fewest = open, next = c.n;
    }
    if (!next) return 1;
    int at = -1, least = 999;
    for (uint64_t d = next->deps; d; d &= d - 1) {
        int i = __builtin_ctzll(d), k = 0; for (uint64_t w : domain[i].w) k += __builtin_popcountll(w);
        if (k > 1 && k < least) least = k, at = i;
    }
    if (at < 0) return -1;
    Set whole = domain[at], low = {{0, 0, 0, 0}};
    int half = least / 2;
    for (int v = 0; half; v++) if (whole.has(v)) { low.w[v >> 6] |= 1ull << (v & 63); half--; }
    for (const Set &s : {low, whole & ~low}) { domain[at] = s; int r = halves(cs, budget); if (r) { if (r < 0) domain[at] = whole; return r; } }
    domain[at] = whole;
    return 0;
}

// Bytes that the constraints allow, each byte within its set; those outside of the component stay as they are.
static bool solve(const std::vector<Event> &cs, uint64_t vars, const Set *dom, octet *bytes) {
    uint64_t key = 99;
    for (auto &c : cs) key += mix(c.n->hash, c.taken);      // in any order
    for (int i = 0; i < input_size; i++) if (vars >> i & 1) for (uint64_t w : dom[i].w) key = mix(key, w + i);
    auto f = answers.find(key);
    if (f != answers.end()) { cached++; if (f->second.sat) for (int i = 0; i < input_size; i++) if (vars >> i & 1) bytes[i] = f->second.bytes[i]; return f->second.sat; }
    Answer &a = answers[key];
    octet trial[MOST]; memcpy(trial, bytes, sizeof trial);
    auto holds = [&]() { epoch++; for (size_t i = cs.size(); i--;) if ((eval(cs[i].n, trial) != 0) != cs[i].taken) return false; return true; };
    std::vector<int> at; for (int i = 0; i < input_size; i++) if (vars >> i & 1) { at.push_back(i); if (!dom[i].has(trial[i])) trial[i] = dom[i].first(); }
    searched++;
    bool found = holds();
    for (size_t k = 0; !found && k < at.size(); k++) {
        octet old = trial[at[k]];
        for (int v = 0; !found && v < 256; v++) if (dom[at[k]].has(v)) { trial[at[k]] = v; found = holds(); }
        if (!found) trial[at[k]] = old;
    }
    bool done = found;
    if (!found) {
        Set kept[MOST]; memcpy(kept, domain, sizeof kept); for (int i = 0; i < input_size; i++) domain[i] = dom[i];
        replayed = false;
        int budget = 4000, r = halves(cs, budget);
        if (r == 1) { for (int i : at) trial[i] = domain[i].first(); if (!holds()) { fprintf(stderr, "the halves don't hold\n"); exit(2); } }
        if (r >= 0) { done = true; found = r; tried_all++; }
        memcpy(domain, kept, sizeof kept);
    }
    if (!done) {
        z3_asked++;
        Z3_solver_push(z3c, z3s);
        for (int i : at) Z3_solver_assert(z3c, z3s, within(i, dom[i]));
        for (auto &c : cs) { Z3_ast t = Z3_mk_eq(z3c, ast(c.n), bv(0, c.n->bits)); Z3_solver_assert(z3c, z3s, c.taken ? Z3_mk_not(z3c, t) : t); }
        Z3_lbool r = Z3_solver_check(z3c, z3s);
        if (r == Z3_L_UNDEF) { fprintf(stderr, "the solver gave up\n"); exit(2); }
        if (r == Z3_L_TRUE) {
            Z3_model m = Z3_solver_get_model(z3c, z3s);
            for (int i : at) {
                Node in; in.op = INPUT; in.low = i; in.bits = 8; in.deps = 1ull << i; in.child[0] = in.child[1] = nullptr; in.hash = mix(0x1234567, i);
                Z3_ast v; uint64_t n = 0; Z3_model_eval(z3c, m, ast(&in), true, &v); Z3_get_numeral_uint64(z3c, v, &n); trial[i] = n;
            }
            if (!holds()) { fprintf(stderr, "the solver's bytes don't hold\n"); exit(2); }
            found = true;
        } else { z3_no++; if (getenv("SHOW_NO")) { printf("NO:"); show(cs[0].n); printf(" %d  of %zu, open", cs[0].taken, cs.size()); for (int i : at) { int k = 0; for (uint64_t w : dom[i].w) k += __builtin_popcountll(w); printf(" b%d:%d", i, k); } printf("\n"); for (auto &c : cs) { printf("    "); show(c.n); printf(" %d\n", c.taken); } } }
        Z3_solver_pop(z3c, z3s, 1);
    } else guessed++;
    a.sat = found; memcpy(a.bytes, trial, sizeof trial);
    if (found) for (int i : at) bytes[i] = trial[i];
    return found;
}

static void must(const V &v, const char *what) { if (!(bool)v) fail(what); }

struct Item { octet bytes[MOST]; uint32_t bound; };
static uint64_t paths, failures, all_events;
static std::map<std::string, uint64_t> failed;

// Runs `body` on every path of inputs of this size. `each` is called after each path, with its bytes.
template <class Body, class Each> static bool explore(int size, const Set *start, Body body, Each each, double seconds, double (*now)()) {
    if (!z3c) {
        Z3_config cfg = Z3_mk_config(); z3c = Z3_mk_context(cfg);
        z3s = Z3_mk_solver_for_logic(z3c, Z3_mk_string_symbol(z3c, "QF_BV")); Z3_solver_inc_ref(z3c, z3s);
    }
    input_size = size;
    std::vector<Item> todo; Item first; memset(&first, 0, sizeof first);
    for (int i = 0; i < size; i++) first.bytes[i] = start[i].first();
    todo.push_back(first);
    double begun = now();
    while (!todo.empty()) {
        if (now() - begun > seconds) return false;
        Item it = todo.back(); todo.pop_back();
        forget(); events.clear(); known.clear(); steps = 0;
        memcpy(input, it.bytes, sizeof input);
        pins = 0; for (int i = 0; i < size; i++) { domain[i] = start[i]; if (single(start[i])) pins |= 1ull << i; }
        bool ok = true; std::string what;
        try { body(); } catch (Failure &f) { ok = false; what = f.what; }
        paths++; all_events += events.size();
        each(it.bytes, size, ok);
        if (!ok) {
            failures++;
            if (!failed[what]++) { printf("FAILED %s:", what.c_str()); for (int i = 0; i < size; i++) printf(" %02x", it.bytes[i]); printf("\n"); fflush(stdout); }
        }
        if (events.size() < it.bound) { fprintf(stderr, "a run took another way than the one it was made for\n"); exit(2); }
        // Turn each new event round.
        Set dom[MOST]; for (int i = 0; i < size; i++) dom[i] = start[i];
        std::vector<size_t> several;
        for (size_t k = 0; k < events.size(); k++) {
            const Event &ev = events[k]; Node *n = ev.n; bool one = ev.at >= 0;
            if (k >= it.bound) {
                Item next; memcpy(next.bytes, it.bytes, sizeof next.bytes); next.bound = k + 1;
                uint64_t vars = one ? 1ull << ev.at : n->deps; std::vector<Event> cs; std::vector<bool> used(several.size());
                if (!one) cs.push_back({n, !ev.taken, -1, {}});
                for (bool more = true; more;) {
                    more = false;
                    for (size_t j = 0; j < several.size(); j++) if (!used[j] && events[several[j]].n->deps & vars) {
                        used[j] = more = true; vars |= events[several[j]].n->deps; cs.push_back(events[several[j]]);
                    }
                }
                Set kept; if (one) { kept = dom[ev.at]; dom[ev.at] = dom[ev.at] & ~ev.set; }
                bool sat;
                if (one && dom[ev.at].empty()) sat = false;
                else if (cs.empty()) { sat = true; next.bytes[ev.at] = dom[ev.at].first(); }
                else sat = solve(cs, vars, dom, next.bytes);
                if (one) dom[ev.at] = kept;
                if (sat) todo.push_back(next);
            }
            if (one) dom[ev.at] = dom[ev.at] & ev.set; else several.push_back(k);
        }
    }
    return true;
}
}
