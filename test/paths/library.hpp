// library.hpp: dist/ndef.c on the values of engine.hpp (ndef.inc, which to_cpp.py writes).
#pragma once
#include "engine.hpp"
using sym::P;
typedef sym::N<sym::u8> U8; typedef sym::N<sym::u16> U16; typedef sym::N<sym::u32> U32; typedef sym::N<sym::u64> U64;
typedef sym::N<sym::i8> I8; typedef sym::N<sym::i16> I16; typedef sym::N<sym::i32> I32; typedef sym::N<sym::i64> I64;
#define nd_stop() sym::fail("what the proofs say is never reached")
#define ND_ROOM(size) union { unsigned char b[size]; uint64_t a; }
#define ND_POINTER union { const unsigned char *p; uint64_t a; }
static U8 nd_load_8(const sym::V &p) { return sym::load(p, 1, sym::u8); }
static U16 nd_load_16(const sym::V &p) { return sym::load(p, 2, sym::u16); }
static U32 nd_load_32(const sym::V &p) { return sym::load(p, 4, sym::u32); }
static U64 nd_load_64(const sym::V &p) {
    sym::V v = sym::load(p, 8, sym::u64);
    if (!v.o && p.o && p.o->readonly) v.o = sym::static_at(v.c);      // a table of pointers to constants
    return v;
}
static U64 nd_load_part(const sym::V &p, int size) { return sym::cast(sym::load(p, size, (uint8_t)(size * 8)), sym::u64); }
static void nd_store_8(const sym::V &p, const U8 &v) { sym::store(p, v, 1); }
static void nd_store_16(const sym::V &p, const U16 &v) { sym::store(p, v, 2); }
static void nd_store_32(const sym::V &p, const U32 &v) { sym::store(p, v, 4); }
static void nd_store_64(const sym::V &p, const U64 &v) { sym::store(p, v, 8); }
static void nd_store_part(const sym::V &p, const U64 &v, int size) { sym::store(p, v, size); }
static void nd_copy(const sym::V &to, const sym::V &from, const sym::V &size) { sym::copy(to, from, size, false); }
static void nd_move(const sym::V &to, const sym::V &from, const sym::V &size) { sym::copy(to, from, size, true); }
static void nd_fill(const sym::V &to, const sym::V &v, const sym::V &size) { sym::fill(to, v, size); }
static void nd_memcpy(const sym::V &to, const sym::V &from, const sym::V &size) { sym::copy(to, from, size, false); }
static void nd_memmove(const sym::V &to, const sym::V &from, const sym::V &size) { sym::copy(to, from, size, true); }
static void nd_memset(const sym::V &to, const sym::V &v, const sym::V &size) { sym::fill(to, v, size); }
#include LIBRARY
