//go:build !ndef_installed

/* The library of Simbegyor for C, in one file of C99: ndef.h documents its calls. Compile it with your program, with
 * ndef.h and ndef_names.h beside it; of the C library it needs memcpy, memmove and memset alone. ndef.c is the fast form of
 * the library, and ndef_small.c the small one: take one of the two.
 *
 * Made by `make amalgamation` of the crates with the hash 188c680bb25d45bb92cfa07375e241bb555f9df330aa84e7be0be6dd5e2229d8
 * (packaging/tree_hash prints that of a checkout). The crates are proved. This file is their LLVM module, optimised by
 * clang and translated by ports/translate.py: that is tested, and not proved.
 *
 * License: MIT or Apache-2.0, as the project's. */
#include "ndef.h"
#include <limits.h>
#include <stddef.h>
#include <stdint.h>

#if CHAR_BIT != 8
#error "ndef.c needs bytes of 8 bits"
#endif
#if defined(__BYTE_ORDER__) && defined(__ORDER_LITTLE_ENDIAN__)
#if __BYTE_ORDER__ != __ORDER_LITTLE_ENDIAN__
#error "ndef.c needs a little-endian machine"
#endif
#elif defined(__BIG_ENDIAN__) || defined(_BIG_ENDIAN) || defined(__ARMEB__) || defined(__MIPSEB__) || defined(__s390__)
#error "ndef.c needs a little-endian machine"
#endif

#if defined(__STDC_HOSTED__) && __STDC_HOSTED__ == 0
void *memcpy(void *to, const void *from, size_t size);
void *memmove(void *to, const void *from, size_t size);
void *memset(void *to, int octet, size_t size);
#else
#include <string.h>
#endif
/* By these names a compiler knows them even where it is told that there is no C library: most calls become a load or a store. */
#if defined(__GNUC__) && !defined(__TINYC__)
#define nd_memcpy __builtin_memcpy
#define nd_memmove __builtin_memmove
#define nd_memset __builtin_memset
#else
#define nd_memcpy memcpy
#define nd_memmove memmove
#define nd_memset memset
#endif

/* What the proofs say is never reached. */
#if defined(__GNUC__)
#define nd_stop() __builtin_trap()
#else
#define nd_stop() do { } while (1)
#endif

/* Memory of a call, aligned for a number of 64 bits. */
#define ND_ROOM(size) union { unsigned char b[size]; uint64_t a; }
/* A pointer in a constant: 8 bytes on every machine. */
#define ND_POINTER union { const unsigned char *p; uint64_t a; }

static uint8_t nd_load_8(const unsigned char *from) {
    uint8_t v;
    nd_memcpy(&v, from, sizeof v);
    return v;
}
static uint16_t nd_load_16(const unsigned char *from) {
    uint16_t v;
    nd_memcpy(&v, from, sizeof v);
    return v;
}
static uint32_t nd_load_32(const unsigned char *from) {
    uint32_t v;
    nd_memcpy(&v, from, sizeof v);
    return v;
}
static uint64_t nd_load_64(const unsigned char *from) {
    uint64_t v;
    nd_memcpy(&v, from, sizeof v);
    return v;
}
static void nd_store_8(unsigned char *to, uint8_t v) { nd_memcpy(to, &v, sizeof v); }
static void nd_store_16(unsigned char *to, uint16_t v) { nd_memcpy(to, &v, sizeof v); }
static void nd_store_32(unsigned char *to, uint32_t v) { nd_memcpy(to, &v, sizeof v); }
static void nd_store_64(unsigned char *to, uint64_t v) { nd_memcpy(to, &v, sizeof v); }
static uint32_t nd_umin_i32(uint32_t a, uint32_t b) { return a < b ? a : b; }
static uint64_t nd_umin_i64(uint64_t a, uint64_t b) { return a < b ? a : b; }
static uint64_t nd_umax_i64(uint64_t a, uint64_t b) { return a > b ? a : b; }
static uint32_t nd_usub_sat_i32(uint32_t a, uint32_t b) { return (uint32_t)(a > b ? a - b : 0); }
static uint64_t nd_usub_sat_i64(uint64_t a, uint64_t b) { return (uint64_t)(a > b ? a - b : 0); }
static uint64_t nd_uadd_sat_i64(uint64_t a, uint64_t b) {
    uint64_t sum = (uint64_t)(a + b);
    return sum < a ? (uint64_t)-1 : sum;
}
static uint64_t nd_cttz_i64(uint64_t v) {
    uint64_t count = 0;
    if (!v) return 64;
    while (!(v & 1)) { v >>= 1; count++; }
    return count;
}
static uint16_t nd_bswap_i16(uint16_t v) { return (uint16_t)(v << 8 | v >> 8); }
static uint32_t nd_bswap_i32(uint32_t v) {
    return v << 24 | (v & 0xFF00U) << 8 | (v >> 8 & 0xFF00U) | v >> 24;
}
#if UINTPTR_MAX == UINT64_MAX
static unsigned char *nd_load_ptr(const unsigned char *from) { unsigned char *p; nd_memcpy(&p, from, 8); return p; }
#else
static unsigned char *nd_load_ptr(const unsigned char *from) { return (unsigned char *)(uintptr_t)nd_load_64(from); }
#endif
#if defined(__GNUC__) && __GNUC__ >= 11
/* It reads no byte at the address, which may be that of memory to be written. */
__attribute__((access(none, 2))) static void nd_store_ptr(unsigned char *to, const unsigned char *p);
#endif
#if UINTPTR_MAX == UINT64_MAX
static void nd_store_ptr(unsigned char *to, const unsigned char *p) { nd_memcpy(to, &p, 8); }
#else
static void nd_store_ptr(unsigned char *to, const unsigned char *p) { nd_store_64(to, (uintptr_t)p); }
#endif
static void nd_copy(unsigned char *to, const unsigned char *from, uint64_t size) {
    size_t count = (size_t)size;
    if (count - 1 < (size_t)PTRDIFF_MAX) nd_memcpy(to, from, count);
}
static void nd_move(unsigned char *to, const unsigned char *from, uint64_t size) {
    size_t count = (size_t)size;
    if (count - 1 < (size_t)PTRDIFF_MAX) nd_memmove(to, from, count);
}
static void nd_fill(unsigned char *to, uint8_t octet, uint64_t size) {
    if (size) nd_memset(to, octet, (size_t)size);
}

struct nd_64_64 { uint64_t f0; uint64_t f1; };
struct nd_8_64 { uint8_t f0; uint64_t f1; };

/* The header's structs have to be laid out as the module's are: numbers of 64 bits at multiples of 8 bytes. */
struct nd_layout { char c; ndef_size size; };
typedef char nd_layout_is_known[offsetof(struct nd_layout, size) == 8 && sizeof(struct nd_layout) == 16 ? 1 : -1];

static const unsigned char nd_data_static_0[6] = { 104, 101, 97, 100, 101, 114 };
static const unsigned char nd_data_static_1[11] = { 84, 89, 80, 69, 95, 76, 69, 78, 71, 84, 72 };
static const unsigned char nd_data_static_2[14] = { 80, 65, 89, 76, 79, 65, 68, 95, 76, 69, 78, 71, 84, 72 };
static const unsigned char nd_data_static_3[9] = { 73, 68, 95, 76, 69, 78, 71, 84, 72 };
static const unsigned char nd_data_static_4[4] = { 84, 89, 80, 69 };
static const unsigned char nd_data_static_5[2] = { 73, 68 };
static const unsigned char nd_data_static_6[7] = { 80, 65, 89, 76, 79, 65, 68 };
static const unsigned char nd_data_static_7[6] = { 115, 116, 97, 116, 117, 115 };
static const unsigned char nd_data_static_8[13] = { 108, 97, 110, 103, 117, 97, 103, 101, 32, 99, 111, 100, 101 };
static const unsigned char nd_data_static_9[15] = { 98, 121, 116, 101, 32, 111, 114, 100, 101, 114, 32, 109, 97, 114, 107 };
static const unsigned char nd_data_static_10[4] = { 116, 101, 120, 116 };
static const unsigned char nd_data_static_11[15] = { 105, 100, 101, 110, 116, 105, 102, 105, 101, 114, 32, 99, 111, 100, 101 };
static const unsigned char nd_data_static_12[3] = { 85, 82, 73 };
static const unsigned char nd_data_static_13[6] = { 97, 99, 116, 105, 111, 110 };
static const unsigned char nd_data_static_14[4] = { 115, 105, 122, 101 };
static const unsigned char nd_data_static_15[10] = { 109, 101, 100, 105, 97, 32, 116, 121, 112, 101 };
static const unsigned char nd_data_static_16[7] = { 118, 101, 114, 115, 105, 111, 110 };
static const unsigned char nd_data_static_17[13] = { 114, 97, 110, 100, 111, 109, 32, 110, 117, 109, 98, 101, 114 };
static const unsigned char nd_data_static_18[19] = { 99, 97, 114, 114, 105, 101, 114, 32, 112, 111, 119, 101, 114, 32, 115, 116, 97, 116, 101 };
static const unsigned char nd_data_static_19[29] = { 99, 97, 114, 114, 105, 101, 114, 32, 100, 97, 116, 97, 32, 114, 101, 102, 101, 114, 101, 110, 99, 101, 32, 108, 101, 110, 103, 116, 104 };
static const unsigned char nd_data_static_20[22] = { 99, 97, 114, 114, 105, 101, 114, 32, 100, 97, 116, 97, 32, 114, 101, 102, 101, 114, 101, 110, 99, 101 };
static const unsigned char nd_data_static_21[30] = { 97, 117, 120, 105, 108, 105, 97, 114, 121, 32, 100, 97, 116, 97, 32, 114, 101, 102, 101, 114, 101, 110, 99, 101, 32, 99, 111, 117, 110, 116 };
static const unsigned char nd_data_static_22[31] = { 97, 117, 120, 105, 108, 105, 97, 114, 121, 32, 100, 97, 116, 97, 32, 114, 101, 102, 101, 114, 101, 110, 99, 101, 32, 108, 101, 110, 103, 116, 104 };
static const unsigned char nd_data_static_23[24] = { 97, 117, 120, 105, 108, 105, 97, 114, 121, 32, 100, 97, 116, 97, 32, 114, 101, 102, 101, 114, 101, 110, 99, 101 };
static const unsigned char nd_data_static_24[8] = { 114, 101, 115, 101, 114, 118, 101, 100 };
static const unsigned char nd_data_static_25[12] = { 101, 114, 114, 111, 114, 32, 114, 101, 97, 115, 111, 110 };
static const unsigned char nd_data_static_26[10] = { 101, 114, 114, 111, 114, 32, 100, 97, 116, 97 };
static const unsigned char nd_data_static_27[19] = { 99, 97, 114, 114, 105, 101, 114, 32, 116, 121, 112, 101, 32, 102, 111, 114, 109, 97, 116 };
static const unsigned char nd_data_static_28[19] = { 99, 97, 114, 114, 105, 101, 114, 32, 116, 121, 112, 101, 32, 108, 101, 110, 103, 116, 104 };
static const unsigned char nd_data_static_29[12] = { 99, 97, 114, 114, 105, 101, 114, 32, 116, 121, 112, 101 };
static const unsigned char nd_data_static_30[12] = { 99, 97, 114, 114, 105, 101, 114, 32, 100, 97, 116, 97 };
static const unsigned char nd_data_static_31[20] = { 84, 104, 101, 32, 105, 100, 101, 110, 116, 105, 102, 105, 101, 114, 32, 99, 111, 100, 101, 32 };
static const unsigned char nd_data_static_32[62] = { 32, 105, 115, 32, 114, 101, 115, 101, 114, 118, 101, 100, 44, 32, 97, 110, 100, 32, 114, 101, 97, 100, 32, 97, 115, 32, 48, 58, 32, 119, 97, 115, 32, 116, 104, 101, 32, 105, 100, 101, 110, 116, 105, 102, 105, 101, 114, 32, 99, 111, 100, 101, 32, 108, 101, 102, 116, 32, 111, 117, 116, 63 };
static const unsigned char nd_data_static_33[11] = { 84, 104, 101, 32, 97, 99, 116, 105, 111, 110, 32 };
static const unsigned char nd_data_static_34[13] = { 32, 105, 115, 32, 114, 101, 115, 101, 114, 118, 101, 100, 46 };
static const unsigned char nd_data_static_35[17] = { 84, 104, 101, 32, 101, 114, 114, 111, 114, 32, 114, 101, 97, 115, 111, 110, 32 };
static const unsigned char nd_data_static_36[24] = { 84, 104, 101, 32, 99, 97, 114, 114, 105, 101, 114, 32, 116, 121, 112, 101, 32, 102, 111, 114, 109, 97, 116, 32 };
static const unsigned char nd_data_static_37[10] = { 84, 104, 101, 32, 111, 99, 116, 101, 116, 32 };
static const unsigned char nd_data_static_38[50] = { 32, 111, 102, 32, 116, 104, 101, 32, 99, 97, 114, 114, 105, 101, 114, 32, 112, 111, 119, 101, 114, 32, 115, 116, 97, 116, 101, 32, 104, 97, 115, 32, 114, 101, 115, 101, 114, 118, 101, 100, 32, 98, 105, 116, 115, 32, 115, 101, 116, 46 };
static const unsigned char nd_data_static_39[19] = { 84, 104, 101, 32, 112, 97, 121, 108, 111, 97, 100, 32, 108, 101, 110, 103, 116, 104, 32 };
static const unsigned char nd_data_static_40[59] = { 32, 102, 105, 116, 115, 32, 111, 110, 101, 32, 111, 99, 116, 101, 116, 32, 40, 83, 82, 41, 58, 32, 116, 104, 101, 32, 109, 101, 115, 115, 97, 103, 101, 32, 99, 111, 117, 108, 100, 32, 98, 101, 32, 51, 32, 98, 121, 116, 101, 115, 32, 115, 104, 111, 114, 116, 101, 114, 46 };
static const unsigned char nd_data_static_41[200] = { 48, 48, 48, 49, 48, 50, 48, 51, 48, 52, 48, 53, 48, 54, 48, 55, 48, 56, 48, 57, 49, 48, 49, 49, 49, 50, 49, 51, 49, 52, 49, 53, 49, 54, 49, 55, 49, 56, 49, 57, 50, 48, 50, 49, 50, 50, 50, 51, 50, 52, 50, 53, 50, 54, 50, 55, 50, 56, 50, 57, 51, 48, 51, 49, 51, 50, 51, 51, 51, 52, 51, 53, 51, 54, 51, 55, 51, 56, 51, 57, 52, 48, 52, 49, 52, 50, 52, 51, 52, 52, 52, 53, 52, 54, 52, 55, 52, 56, 52, 57,
    53, 48, 53, 49, 53, 50, 53, 51, 53, 52, 53, 53, 53, 54, 53, 55, 53, 56, 53, 57, 54, 48, 54, 49, 54, 50, 54, 51, 54, 52, 54, 53, 54, 54, 54, 55, 54, 56, 54, 57, 55, 48, 55, 49, 55, 50, 55, 51, 55, 52, 55, 53, 55, 54, 55, 55, 55, 56, 55, 57, 56, 48, 56, 49, 56, 50, 56, 51, 56, 52, 56, 53, 56, 54, 56, 55, 56, 56, 56, 57, 57, 48, 57, 49, 57, 50, 57, 51, 57, 52, 57, 53, 57, 54, 57, 55, 57, 56, 57, 57 };
static const unsigned char nd_data_static_42[32] = { 84, 104, 101, 32, 85, 82, 73, 32, 104, 97, 115, 32, 97, 32, 99, 111, 110, 116, 114, 111, 108, 32, 99, 104, 97, 114, 97, 99, 116, 101, 114, 46 };
static const unsigned char nd_data_static_43[76] = { 84, 104, 101, 32, 105, 100, 32, 105, 115, 32, 101, 109, 112, 116, 121, 58, 32, 119, 105, 116, 104, 111, 117, 116, 32, 73, 68, 95, 76, 69, 78, 71, 84, 72, 32, 40, 73, 76, 41, 32, 116, 104, 101, 32, 109, 101, 115, 115, 97, 103, 101, 32, 99, 111, 117, 108, 100, 32, 98, 101, 32, 49, 32, 98, 121, 116, 101, 32, 115, 104, 111, 114, 116, 101, 114, 46 };
static const unsigned char nd_data_static_44[88] = { 69, 118, 101, 114, 121, 32, 115, 101, 99, 111, 110, 100, 32, 111, 99, 116, 101, 116, 32, 111, 102, 32, 116, 104, 101, 32, 116, 101, 120, 116, 32, 105, 115, 32, 48, 58, 32, 105, 116, 32, 109, 97, 121, 32, 98, 101, 32, 108, 105, 116, 116, 108, 101, 45, 101, 110, 100, 105, 97, 110, 44, 32, 119, 105, 116, 104, 111, 117, 116, 32, 97, 32, 98, 121, 116, 101, 32, 111, 114, 100, 101, 114, 32, 109, 97, 114, 107, 46 };
static const unsigned char nd_data_static_45[31] = { 65, 110, 111, 116, 104, 101, 114, 32, 114, 101, 99, 111, 114, 100, 32, 104, 97, 115, 32, 116, 104, 101, 32, 115, 97, 109, 101, 32, 105, 100, 46 };
static const unsigned char nd_data_static_46[54] = { 84, 119, 111, 32, 116, 105, 116, 108, 101, 115, 32, 111, 102, 32, 116, 104, 101, 32, 115, 109, 97, 114, 116, 32, 112, 111, 115, 116, 101, 114, 32, 104, 97, 118, 101, 32, 116, 104, 101, 32, 115, 97, 109, 101, 32, 108, 97, 110, 103, 117, 97, 103, 101, 46 };
static const unsigned char nd_data_static_47[46] = { 84, 104, 101, 32, 114, 101, 113, 117, 101, 115, 116, 32, 104, 97, 115, 32, 110, 111, 32, 97, 108, 116, 101, 114, 110, 97, 116, 105, 118, 101, 32, 99, 97, 114, 114, 105, 101, 114, 32, 40, 96, 97, 99, 96, 41, 46 };
static const unsigned char nd_data_static_48[49] = { 84, 104, 101, 32, 114, 101, 113, 117, 101, 115, 116, 32, 104, 97, 115, 32, 97, 32, 115, 101, 99, 111, 110, 100, 32, 99, 111, 108, 108, 105, 115, 105, 111, 110, 32, 114, 101, 99, 111, 114, 100, 32, 40, 96, 99, 114, 96, 41, 46 };
static const unsigned char nd_data_static_49[76] = { 65, 32, 114, 101, 102, 101, 114, 101, 110, 99, 101, 32, 111, 102, 32, 97, 110, 32, 97, 108, 116, 101, 114, 110, 97, 116, 105, 118, 101, 32, 99, 97, 114, 114, 105, 101, 114, 32, 40, 96, 97, 99, 96, 41, 32, 105, 115, 32, 116, 111, 32, 110, 111, 32, 114, 101, 99, 111, 114, 100, 32, 111, 102, 32, 116, 104, 101, 32, 109, 101, 115, 115, 97, 103, 101, 46 };
static const unsigned char nd_data_static_50[1] = { 0 };
static const unsigned char nd_data_static_51[11] = { 104, 116, 116, 112, 58, 47, 47, 119, 119, 119, 46 };
static const unsigned char nd_data_static_52[12] = { 104, 116, 116, 112, 115, 58, 47, 47, 119, 119, 119, 46 };
static const unsigned char nd_data_static_53[7] = { 104, 116, 116, 112, 58, 47, 47 };
static const unsigned char nd_data_static_54[8] = { 104, 116, 116, 112, 115, 58, 47, 47 };
static const unsigned char nd_data_static_55[4] = { 116, 101, 108, 58 };
static const unsigned char nd_data_static_56[7] = { 109, 97, 105, 108, 116, 111, 58 };
static const unsigned char nd_data_static_57[26] = { 102, 116, 112, 58, 47, 47, 97, 110, 111, 110, 121, 109, 111, 117, 115, 58, 97, 110, 111, 110, 121, 109, 111, 117, 115, 64 };
static const unsigned char nd_data_static_58[10] = { 102, 116, 112, 58, 47, 47, 102, 116, 112, 46 };
static const unsigned char nd_data_static_59[7] = { 102, 116, 112, 115, 58, 47, 47 };
static const unsigned char nd_data_static_60[7] = { 115, 102, 116, 112, 58, 47, 47 };
static const unsigned char nd_data_static_61[6] = { 115, 109, 98, 58, 47, 47 };
static const unsigned char nd_data_static_62[6] = { 110, 102, 115, 58, 47, 47 };
static const unsigned char nd_data_static_63[6] = { 102, 116, 112, 58, 47, 47 };
static const unsigned char nd_data_static_64[6] = { 100, 97, 118, 58, 47, 47 };
static const unsigned char nd_data_static_65[5] = { 110, 101, 119, 115, 58 };
static const unsigned char nd_data_static_66[9] = { 116, 101, 108, 110, 101, 116, 58, 47, 47 };
static const unsigned char nd_data_static_67[5] = { 105, 109, 97, 112, 58 };
static const unsigned char nd_data_static_68[7] = { 114, 116, 115, 112, 58, 47, 47 };
static const unsigned char nd_data_static_69[4] = { 117, 114, 110, 58 };
static const unsigned char nd_data_static_70[4] = { 112, 111, 112, 58 };
static const unsigned char nd_data_static_71[4] = { 115, 105, 112, 58 };
static const unsigned char nd_data_static_72[5] = { 115, 105, 112, 115, 58 };
static const unsigned char nd_data_static_73[5] = { 116, 102, 116, 112, 58 };
static const unsigned char nd_data_static_74[8] = { 98, 116, 115, 112, 112, 58, 47, 47 };
static const unsigned char nd_data_static_75[10] = { 98, 116, 108, 50, 99, 97, 112, 58, 47, 47 };
static const unsigned char nd_data_static_76[9] = { 98, 116, 103, 111, 101, 112, 58, 47, 47 };
static const unsigned char nd_data_static_77[10] = { 116, 99, 112, 111, 98, 101, 120, 58, 47, 47 };
static const unsigned char nd_data_static_78[11] = { 105, 114, 100, 97, 111, 98, 101, 120, 58, 47, 47 };
static const unsigned char nd_data_static_79[7] = { 102, 105, 108, 101, 58, 47, 47 };
static const unsigned char nd_data_static_80[11] = { 117, 114, 110, 58, 101, 112, 99, 58, 105, 100, 58 };
static const unsigned char nd_data_static_81[12] = { 117, 114, 110, 58, 101, 112, 99, 58, 116, 97, 103, 58 };
static const unsigned char nd_data_static_82[12] = { 117, 114, 110, 58, 101, 112, 99, 58, 112, 97, 116, 58 };
static const unsigned char nd_data_static_83[12] = { 117, 114, 110, 58, 101, 112, 99, 58, 114, 97, 119, 58 };
static const unsigned char nd_data_static_84[8] = { 117, 114, 110, 58, 101, 112, 99, 58 };
static const unsigned char nd_data_static_85[8] = { 117, 114, 110, 58, 110, 102, 99, 58 };
static const unsigned char nd_data_static_88[2] = { 254, 255 };
static const unsigned char nd_data_static_89[11] = { 82, 101, 115, 101, 114, 118, 101, 100, 84, 110, 102 };
static const unsigned char nd_data_static_90[12] = { 66, 101, 103, 105, 110, 77, 105, 115, 115, 105, 110, 103 };
static const unsigned char nd_data_static_91[10] = { 66, 101, 103, 105, 110, 65, 103, 97, 105, 110 };
static const unsigned char nd_data_static_92[16] = { 85, 110, 99, 104, 97, 110, 103, 101, 100, 79, 117, 116, 115, 105, 100, 101 };
static const unsigned char nd_data_static_93[13] = { 67, 104, 97, 110, 103, 101, 100, 73, 110, 115, 105, 100, 101 };
static const unsigned char nd_data_static_94[8] = { 73, 100, 73, 110, 115, 105, 100, 101 };
static const unsigned char nd_data_static_95[10] = { 67, 104, 117, 110, 107, 65, 116, 69, 110, 100 };
static const unsigned char nd_data_static_96[12] = { 67, 104, 117, 110, 107, 79, 102, 69, 109, 112, 116, 121 };
static const unsigned char nd_data_static_97[13] = { 84, 111, 111, 77, 97, 110, 121, 80, 105, 101, 99, 101, 115 };
static const unsigned char nd_data_static_98[14] = { 84, 111, 111, 77, 97, 110, 121, 82, 101, 99, 111, 114, 100, 115 };
static const unsigned char nd_data_static_99[12] = { 84, 121, 112, 101, 78, 111, 116, 69, 109, 112, 116, 121 };
static const unsigned char nd_data_static_100[9] = { 84, 121, 112, 101, 69, 109, 112, 116, 121 };
static const unsigned char nd_data_static_101[13] = { 69, 109, 112, 116, 121, 78, 111, 116, 69, 109, 112, 116, 121 };
static const unsigned char nd_data_static_102[15] = { 80, 97, 121, 108, 111, 97, 100, 84, 111, 111, 76, 97, 114, 103, 101 };
static const unsigned char nd_data_static_103[7] = { 84, 101, 120, 116, 66, 105, 116 };
static const unsigned char nd_data_static_104[8] = { 76, 97, 110, 103, 117, 97, 103, 101 };
static const unsigned char nd_data_static_105[4] = { 85, 116, 102, 56 };
static const unsigned char nd_data_static_106[5] = { 85, 116, 102, 49, 54 };
static const unsigned char nd_data_static_107[7] = { 85, 114, 105, 67, 111, 100, 101 };
static const unsigned char nd_data_static_108[10] = { 85, 114, 105, 77, 105, 115, 115, 105, 110, 103 };
static const unsigned char nd_data_static_109[8] = { 85, 114, 105, 65, 103, 97, 105, 110 };
static const unsigned char nd_data_static_110[7] = { 86, 101, 114, 115, 105, 111, 110 };
static const unsigned char nd_data_static_111[16] = { 67, 111, 108, 108, 105, 115, 105, 111, 110, 77, 105, 115, 115, 105, 110, 103 };
static const unsigned char nd_data_static_112[10] = { 68, 111, 101, 115, 78, 111, 116, 70, 105, 116 };
static const unsigned char nd_data_static_113[10] = { 69, 110, 100, 79, 102, 73, 110, 112, 117, 116 };
static const unsigned char nd_data_static_114[35] = { 84, 104, 101, 32, 116, 121, 112, 101, 32, 110, 97, 109, 101, 32, 102, 111, 114, 109, 97, 116, 32, 55, 32, 105, 115, 32, 114, 101, 115, 101, 114, 118, 101, 100, 46 };
static const unsigned char nd_data_static_115[49] = { 84, 104, 101, 32, 102, 105, 114, 115, 116, 32, 114, 101, 99, 111, 114, 100, 32, 111, 102, 32, 97, 32, 109, 101, 115, 115, 97, 103, 101, 32, 104, 97, 115, 32, 116, 111, 32, 104, 97, 118, 101, 32, 77, 66, 32, 115, 101, 116, 46 };
static const unsigned char nd_data_static_116[46] = { 77, 66, 32, 105, 115, 32, 115, 101, 116, 32, 97, 103, 97, 105, 110, 44, 32, 116, 104, 111, 117, 103, 104, 32, 116, 104, 101, 32, 109, 101, 115, 115, 97, 103, 101, 32, 104, 97, 115, 32, 98, 101, 103, 117, 110, 46 };
static const unsigned char nd_data_static_117[70] = { 84, 104, 101, 32, 116, 121, 112, 101, 32, 110, 97, 109, 101, 32, 102, 111, 114, 109, 97, 116, 32, 54, 32, 40, 117, 110, 99, 104, 97, 110, 103, 101, 100, 41, 32, 109, 97, 121, 32, 111, 110, 108, 121, 32, 99, 111, 110, 116, 105, 110, 117, 101, 32, 97, 32, 99, 104, 117, 110, 107, 101, 100, 32, 114, 101, 99, 111, 114, 100, 46 };
static const unsigned char nd_data_static_118[65] = { 65, 32, 99, 104, 117, 110, 107, 101, 100, 32, 114, 101, 99, 111, 114, 100, 32, 103, 111, 101, 115, 32, 111, 110, 32, 119, 105, 116, 104, 32, 116, 104, 101, 32, 116, 121, 112, 101, 32, 110, 97, 109, 101, 32, 102, 111, 114, 109, 97, 116, 32, 54, 32, 40, 117, 110, 99, 104, 97, 110, 103, 101, 100, 41, 46 };
static const unsigned char nd_data_static_119[48] = { 79, 110, 108, 121, 32, 116, 104, 101, 32, 102, 105, 114, 115, 116, 32, 99, 104, 117, 110, 107, 32, 111, 102, 32, 97, 32, 114, 101, 99, 111, 114, 100, 32, 109, 97, 121, 32, 104, 97, 118, 101, 32, 97, 110, 32, 105, 100, 46 };
static const unsigned char nd_data_static_120[63] = { 84, 104, 101, 32, 108, 97, 115, 116, 32, 114, 101, 99, 111, 114, 100, 32, 111, 102, 32, 97, 32, 109, 101, 115, 115, 97, 103, 101, 32, 40, 77, 69, 41, 32, 104, 97, 115, 32, 116, 111, 32, 101, 110, 100, 58, 32, 67, 70, 32, 109, 117, 115, 116, 32, 98, 101, 32, 99, 108, 101, 97, 114, 46 };
static const unsigned char nd_data_static_121[34] = { 65, 110, 32, 101, 109, 112, 116, 121, 32, 114, 101, 99, 111, 114, 100, 32, 99, 97, 110, 110, 111, 116, 32, 98, 101, 32, 99, 104, 117, 110, 107, 101, 100, 46 };
static const unsigned char nd_data_static_122[69] = { 84, 104, 101, 32, 114, 101, 99, 111, 114, 100, 32, 104, 97, 115, 32, 109, 111, 114, 101, 32, 99, 104, 117, 110, 107, 115, 32, 116, 104, 97, 110, 32, 116, 104, 101, 32, 108, 105, 109, 105, 116, 32, 111, 114, 32, 97, 32, 110, 101, 115, 116, 101, 100, 32, 109, 101, 115, 115, 97, 103, 101, 32, 97, 108, 108, 111, 119, 115, 46 };
static const unsigned char nd_data_static_123[51] = { 84, 104, 101, 32, 109, 101, 115, 115, 97, 103, 101, 32, 104, 97, 115, 32, 109, 111, 114, 101, 32, 114, 101, 99, 111, 114, 100, 115, 32, 116, 104, 97, 110, 32, 116, 104, 101, 32, 108, 105, 109, 105, 116, 32, 97, 108, 108, 111, 119, 115, 46 };
static const unsigned char nd_data_static_124[59] = { 84, 104, 105, 115, 32, 116, 121, 112, 101, 32, 110, 97, 109, 101, 32, 102, 111, 114, 109, 97, 116, 32, 104, 97, 115, 32, 110, 111, 32, 116, 121, 112, 101, 58, 32, 84, 89, 80, 69, 95, 76, 69, 78, 71, 84, 72, 32, 104, 97, 115, 32, 116, 111, 32, 98, 101, 32, 48, 46 };
static const unsigned char nd_data_static_125[62] = { 84, 104, 105, 115, 32, 116, 121, 112, 101, 32, 110, 97, 109, 101, 32, 102, 111, 114, 109, 97, 116, 32, 110, 101, 101, 100, 115, 32, 97, 32, 116, 121, 112, 101, 58, 32, 84, 89, 80, 69, 95, 76, 69, 78, 71, 84, 72, 32, 109, 117, 115, 116, 32, 110, 111, 116, 32, 98, 101, 32, 48, 46 };
static const unsigned char nd_data_static_126[38] = { 65, 110, 32, 101, 109, 112, 116, 121, 32, 114, 101, 99, 111, 114, 100, 32, 104, 97, 115, 32, 111, 110, 108, 121, 32, 108, 101, 110, 103, 116, 104, 115, 32, 111, 102, 32, 48, 46 };
static const unsigned char nd_data_static_127[44] = { 84, 104, 101, 32, 112, 97, 121, 108, 111, 97, 100, 32, 105, 115, 32, 108, 111, 110, 103, 101, 114, 32, 116, 104, 97, 110, 32, 116, 104, 101, 32, 108, 105, 109, 105, 116, 32, 97, 108, 108, 111, 119, 115, 46 };
static const unsigned char nd_data_static_128[64] = { 66, 105, 116, 32, 54, 32, 111, 102, 32, 116, 104, 101, 32, 115, 116, 97, 116, 117, 115, 32, 111, 99, 116, 101, 116, 32, 111, 102, 32, 97, 32, 116, 101, 120, 116, 32, 105, 115, 32, 114, 101, 115, 101, 114, 118, 101, 100, 58, 32, 105, 116, 32, 104, 97, 115, 32, 116, 111, 32, 98, 101, 32, 48, 46 };
static const unsigned char nd_data_static_129[44] = { 84, 104, 101, 32, 108, 97, 110, 103, 117, 97, 103, 101, 32, 99, 111, 100, 101, 32, 111, 102, 32, 97, 32, 116, 101, 120, 116, 32, 104, 97, 115, 32, 116, 111, 32, 98, 101, 32, 65, 83, 67, 73, 73, 46 };
static const unsigned char nd_data_static_130[22] = { 84, 104, 101, 32, 116, 101, 120, 116, 32, 105, 115, 32, 110, 111, 116, 32, 85, 84, 70, 45, 56, 46 };
static const unsigned char nd_data_static_131[23] = { 84, 104, 101, 32, 116, 101, 120, 116, 32, 105, 115, 32, 110, 111, 116, 32, 85, 84, 70, 45, 49, 54, 46 };
static const unsigned char nd_data_static_132[66] = { 84, 104, 101, 32, 85, 82, 73, 32, 105, 100, 101, 110, 116, 105, 102, 105, 101, 114, 32, 99, 111, 100, 101, 115, 32, 102, 114, 111, 109, 32, 50, 52, 32, 116, 111, 32, 70, 70, 32, 40, 104, 101, 120, 97, 100, 101, 99, 105, 109, 97, 108, 41, 32, 97, 114, 101, 32, 114, 101, 115, 101, 114, 118, 101, 100, 46 };
static const unsigned char nd_data_static_133[40] = { 65, 32, 115, 109, 97, 114, 116, 32, 112, 111, 115, 116, 101, 114, 32, 104, 97, 115, 32, 116, 111, 32, 104, 97, 118, 101, 32, 97, 32, 85, 82, 73, 32, 114, 101, 99, 111, 114, 100, 46 };
static const unsigned char nd_data_static_134[39] = { 65, 32, 115, 109, 97, 114, 116, 32, 112, 111, 115, 116, 101, 114, 32, 104, 97, 115, 32, 111, 110, 108, 121, 32, 111, 110, 101, 32, 85, 82, 73, 32, 114, 101, 99, 111, 114, 100, 46 };
static const unsigned char nd_data_static_135[46] = { 84, 104, 101, 32, 104, 97, 110, 100, 111, 118, 101, 114, 32, 104, 97, 115, 32, 97, 110, 111, 116, 104, 101, 114, 32, 109, 97, 106, 111, 114, 32, 118, 101, 114, 115, 105, 111, 110, 32, 116, 104, 97, 110, 32, 49, 46 };
static const unsigned char nd_data_static_136[67] = { 65, 32, 104, 97, 110, 100, 111, 118, 101, 114, 32, 114, 101, 113, 117, 101, 115, 116, 32, 104, 97, 115, 32, 116, 111, 32, 98, 101, 103, 105, 110, 32, 119, 105, 116, 104, 32, 97, 32, 99, 111, 108, 108, 105, 115, 105, 111, 110, 32, 114, 101, 115, 111, 108, 117, 116, 105, 111, 110, 32, 114, 101, 99, 111, 114, 100, 46 };
static const unsigned char nd_data_static_137[66] = { 78, 111, 116, 104, 105, 110, 103, 32, 116, 104, 97, 116, 32, 99, 111, 117, 108, 100, 32, 102, 111, 108, 108, 111, 119, 32, 116, 104, 105, 115, 32, 98, 121, 116, 101, 32, 102, 105, 116, 115, 32, 116, 104, 101, 32, 108, 101, 110, 103, 116, 104, 115, 32, 103, 105, 118, 101, 110, 32, 115, 111, 32, 102, 97, 114, 46 };
static const unsigned char nd_data_static_138[32] = { 84, 104, 101, 32, 105, 110, 112, 117, 116, 32, 101, 110, 100, 115, 32, 119, 105, 116, 104, 105, 110, 32, 97, 32, 109, 101, 115, 115, 97, 103, 101, 46 };
static const unsigned char nd_data_static_139[1] = { 85 };
static const unsigned char nd_data_static_140[1] = { 84 };
static const unsigned char nd_data_static_141[2] = { 79, 107 };
static const unsigned char nd_data_static_142[7] = { 82, 101, 102, 117, 115, 101, 100 };
static const unsigned char nd_data_static_143[14] = { 66, 117, 102, 102, 101, 114, 84, 111, 111, 83, 109, 97, 108, 108 };
static const unsigned char nd_data_static_144[11] = { 66, 97, 100, 65, 114, 103, 117, 109, 101, 110, 116 };
static const unsigned char nd_data_static_145[3] = { 69, 110, 100 };
static const unsigned char nd_data_static_146[4] = { 77, 111, 114, 101 };
static const unsigned char nd_data_static_147[10] = { 48, 48, 48, 48, 48, 48, 48, 48, 58, 32 };
static const unsigned char nd_data_static_148[10] = { 48, 48, 48, 48, 48, 48, 48, 48, 32, 32 };
static const unsigned char nd_data_static_150[17] = { 70, 105, 108, 101, 116, 121, 112, 101, 58, 32, 70, 108, 105, 112, 112, 101, 114 };
static const unsigned char nd_data_static_154[81] = { 70, 69, 32, 40, 104, 101, 120, 97, 100, 101, 99, 105, 109, 97, 108, 41, 32, 101, 110, 100, 115, 32, 116, 104, 101, 32, 84, 76, 86, 32, 98, 108, 111, 99, 107, 115, 32, 111, 102, 32, 97, 32, 116, 97, 103, 59, 32, 119, 104, 97, 116, 32, 99, 111, 109, 101, 115, 32, 97, 102, 116, 101, 114, 32, 105, 116, 32, 105, 115, 32, 110, 111, 32, 109, 101, 115, 115, 97, 103, 101, 46 };
static const unsigned char nd_data_static_155[67] = { 54, 56, 32, 40, 104, 101, 120, 97, 100, 101, 99, 105, 109, 97, 108, 41, 32, 105, 115, 32, 116, 104, 101, 32, 108, 101, 116, 116, 101, 114, 32, 104, 58, 32, 119, 97, 115, 32, 116, 104, 101, 32, 105, 100, 101, 110, 116, 105, 102, 105, 101, 114, 32, 99, 111, 100, 101, 32, 108, 101, 102, 116, 32, 111, 117, 116, 63 };
static const unsigned char nd_data_static_156[75] = { 84, 104, 101, 32, 115, 116, 97, 110, 100, 97, 114, 100, 32, 112, 114, 111, 102, 105, 108, 101, 32, 114, 101, 97, 100, 115, 32, 116, 104, 105, 115, 32, 40, 96, 45, 45, 112, 114, 111, 102, 105, 108, 101, 32, 115, 116, 97, 110, 100, 97, 114, 100, 96, 44, 32, 105, 110, 32, 67, 32, 78, 68, 69, 70, 95, 83, 84, 65, 78, 68, 65, 82, 68, 41, 46 };
static const unsigned char nd_data_static_157[49] = { 84, 104, 105, 115, 32, 116, 97, 103, 32, 105, 115, 32, 101, 109, 112, 116, 121, 58, 32, 105, 116, 32, 104, 97, 115, 32, 110, 111, 32, 98, 121, 116, 101, 115, 32, 102, 111, 114, 32, 97, 32, 109, 101, 115, 115, 97, 103, 101, 46 };
static const unsigned char nd_data_static_158[20] = { 65, 32, 109, 101, 115, 115, 97, 103, 101, 32, 111, 102, 32, 108, 101, 110, 103, 116, 104, 32 };
static const unsigned char nd_data_static_159[19] = { 32, 109, 97, 121, 32, 98, 101, 103, 105, 110, 32, 97, 116, 32, 98, 121, 116, 101, 32 };
static const unsigned char nd_data_static_160[12] = { 58, 32, 96, 116, 97, 105, 108, 32, 45, 99, 32, 43 };
static const unsigned char nd_data_static_161[25] = { 44, 32, 105, 110, 32, 97, 110, 32, 78, 68, 69, 70, 32, 84, 76, 86, 32, 111, 102, 32, 97, 32, 116, 97, 103 };
static const unsigned char nd_data_static_162[43] = { 44, 32, 97, 102, 116, 101, 114, 32, 116, 104, 101, 32, 97, 116, 116, 114, 105, 98, 117, 116, 101, 32, 98, 108, 111, 99, 107, 32, 111, 102, 32, 97, 32, 84, 121, 112, 101, 32, 51, 32, 84, 97, 103 };
static const unsigned char nd_data_static_163[48] = { 44, 32, 97, 102, 116, 101, 114, 32, 105, 116, 115, 32, 108, 101, 110, 103, 116, 104, 44, 32, 97, 115, 32, 105, 110, 32, 97, 32, 102, 105, 108, 101, 32, 111, 102, 32, 97, 32, 84, 121, 112, 101, 32, 52, 32, 84, 97, 103 };
static const unsigned char nd_data_static_164[11] = { 32, 124, 32, 104, 101, 97, 100, 32, 45, 99, 32 };
static const unsigned char nd_data_static_165[2] = { 96, 46 };
static const unsigned char nd_data_static_166[80] = { 84, 104, 101, 115, 101, 32, 97, 114, 101, 32, 104, 101, 120, 97, 100, 101, 99, 105, 109, 97, 108, 32, 100, 105, 103, 105, 116, 115, 44, 32, 110, 111, 116, 32, 116, 104, 101, 32, 98, 121, 116, 101, 115, 32, 116, 104, 97, 116, 32, 116, 104, 101, 121, 32, 115, 112, 101, 108, 108, 59, 32, 96, 45, 45, 104, 101, 120, 96, 32, 114, 101, 97, 100, 115, 32, 116, 104, 101, 109, 46 };
static const unsigned char nd_data_static_167[70] = { 84, 104, 105, 115, 32, 105, 115, 32, 97, 32, 100, 117, 109, 112, 32, 98, 121, 32, 120, 120, 100, 44, 32, 110, 111, 116, 32, 116, 104, 101, 32, 98, 121, 116, 101, 115, 32, 116, 104, 97, 116, 32, 105, 116, 32, 115, 112, 101, 108, 108, 115, 59, 32, 96, 45, 45, 104, 101, 120, 96, 32, 114, 101, 97, 100, 115, 32, 105, 116, 46 };
static const unsigned char nd_data_static_168[74] = { 84, 104, 105, 115, 32, 105, 115, 32, 97, 32, 100, 117, 109, 112, 32, 98, 121, 32, 104, 101, 120, 100, 117, 109, 112, 44, 32, 110, 111, 116, 32, 116, 104, 101, 32, 98, 121, 116, 101, 115, 32, 116, 104, 97, 116, 32, 105, 116, 32, 115, 112, 101, 108, 108, 115, 59, 32, 96, 45, 45, 104, 101, 120, 96, 32, 114, 101, 97, 100, 115, 32, 105, 116, 46 };
static const unsigned char nd_data_static_169[92] = { 84, 104, 105, 115, 32, 105, 115, 32, 97, 32, 100, 117, 109, 112, 32, 98, 121, 32, 111, 100, 32, 111, 114, 32, 104, 101, 120, 100, 117, 109, 112, 44, 32, 110, 111, 116, 32, 116, 104, 101, 32, 98, 121, 116, 101, 115, 59, 32, 96, 45, 45, 104, 101, 120, 96, 32, 114, 101, 97, 100, 115, 32, 116, 104, 111, 115, 101, 32, 111, 102, 32, 96, 104, 101, 120, 100, 117, 109, 112, 32, 45, 67, 96, 32, 97, 110, 100, 32, 120, 120, 100, 46 };
static const unsigned char nd_data_static_170[92] = { 84, 104, 105, 115, 32, 105, 115, 32, 97, 32, 102, 105, 108, 101, 32, 111, 102, 32, 97, 32, 70, 108, 105, 112, 112, 101, 114, 59, 32, 96, 45, 45, 104, 101, 120, 96, 32, 114, 101, 97, 100, 115, 32, 119, 104, 97, 116, 32, 96, 115, 101, 100, 32, 45, 110, 32, 39, 115, 47, 94, 80, 97, 103, 101, 32, 91, 48, 45, 57, 93, 42, 58, 32, 47, 47, 112, 39, 96, 32, 108, 101, 97, 118, 101, 115, 32, 111, 102, 32, 105, 116, 46 };
static const unsigned char nd_data_static_171[86] = { 84, 104, 105, 115, 32, 105, 115, 32, 119, 104, 97, 116, 32, 97, 32, 80, 114, 111, 120, 109, 97, 114, 107, 32, 112, 114, 105, 110, 116, 115, 44, 32, 110, 111, 116, 32, 116, 104, 101, 32, 98, 121, 116, 101, 115, 59, 32, 96, 45, 45, 104, 101, 120, 96, 32, 114, 101, 97, 100, 115, 32, 116, 104, 101, 32, 100, 105, 103, 105, 116, 115, 32, 111, 102, 32, 105, 116, 115, 32, 98, 108, 111, 99, 107, 115, 46 };
static const unsigned char nd_data_static_172[73] = { 84, 104, 105, 115, 32, 109, 97, 121, 32, 98, 101, 32, 98, 97, 115, 101, 54, 52, 44, 32, 110, 111, 116, 32, 116, 104, 101, 32, 98, 121, 116, 101, 115, 32, 116, 104, 97, 116, 32, 105, 116, 32, 115, 112, 101, 108, 108, 115, 59, 32, 96, 98, 97, 115, 101, 54, 52, 32, 45, 100, 96, 32, 103, 105, 118, 101, 115, 32, 116, 104, 101, 109, 46 };
static const unsigned char nd_data_static_173[85] = { 84, 104, 101, 32, 98, 121, 116, 101, 115, 32, 109, 97, 121, 32, 98, 101, 103, 105, 110, 32, 119, 105, 116, 104, 32, 119, 104, 97, 116, 32, 115, 117, 114, 114, 111, 117, 110, 100, 115, 32, 97, 32, 109, 101, 115, 115, 97, 103, 101, 32, 111, 110, 32, 97, 32, 116, 97, 103, 59, 32, 97, 32, 109, 101, 115, 115, 97, 103, 101, 32, 98, 101, 103, 105, 110, 115, 32, 97, 116, 32, 98, 121, 116, 101, 32 };
static const unsigned char nd_data_static_175[45] = { 65, 32, 109, 101, 115, 115, 97, 103, 101, 32, 105, 115, 32, 109, 105, 115, 115, 105, 110, 103, 58, 32, 116, 104, 101, 32, 105, 110, 112, 117, 116, 32, 104, 97, 115, 32, 110, 111, 32, 98, 121, 116, 101, 115, 46 };
static const unsigned char nd_data_static_176[59] = { 65, 110, 111, 116, 104, 101, 114, 32, 114, 101, 99, 111, 114, 100, 32, 105, 115, 32, 109, 105, 115, 115, 105, 110, 103, 58, 32, 110, 111, 110, 101, 32, 111, 102, 32, 116, 104, 111, 115, 101, 32, 98, 101, 102, 111, 114, 101, 32, 104, 97, 115, 32, 77, 69, 32, 115, 101, 116, 46 };
static const unsigned char nd_data_static_177[64] = { 65, 110, 111, 116, 104, 101, 114, 32, 99, 104, 117, 110, 107, 32, 111, 102, 32, 116, 104, 101, 32, 114, 101, 99, 111, 114, 100, 32, 105, 115, 32, 109, 105, 115, 115, 105, 110, 103, 58, 32, 116, 104, 101, 32, 108, 97, 115, 116, 32, 111, 110, 101, 32, 104, 97, 115, 32, 67, 70, 32, 115, 101, 116, 46 };
static const unsigned char nd_data_static_178[47] = { 84, 104, 101, 32, 116, 101, 120, 116, 32, 105, 110, 32, 85, 84, 70, 45, 49, 54, 32, 104, 97, 115, 32, 97, 110, 32, 111, 100, 100, 32, 110, 117, 109, 98, 101, 114, 32, 111, 102, 32, 111, 99, 116, 101, 116, 115, 46 };
static const unsigned char nd_data_static_179[48] = { 84, 104, 101, 32, 112, 97, 121, 108, 111, 97, 100, 32, 101, 110, 100, 115, 32, 119, 105, 116, 104, 105, 110, 32, 97, 32, 99, 104, 97, 114, 97, 99, 116, 101, 114, 32, 111, 102, 32, 116, 104, 101, 32, 116, 101, 120, 116, 46 };
static const unsigned char nd_data_static_180[71] = { 84, 104, 101, 32, 97, 108, 116, 101, 114, 110, 97, 116, 105, 118, 101, 32, 99, 97, 114, 114, 105, 101, 114, 32, 101, 110, 100, 115, 32, 98, 101, 102, 111, 114, 101, 32, 105, 116, 115, 32, 110, 117, 109, 98, 101, 114, 32, 111, 102, 32, 97, 117, 120, 105, 108, 105, 97, 114, 121, 32, 114, 101, 102, 101, 114, 101, 110, 99, 101, 115, 46 };
static const unsigned char nd_data_static_181[84] = { 84, 104, 105, 115, 32, 114, 101, 113, 117, 101, 115, 116, 32, 109, 117, 115, 116, 32, 98, 101, 103, 105, 110, 32, 119, 105, 116, 104, 32, 97, 32, 99, 111, 108, 108, 105, 115, 105, 111, 110, 32, 114, 101, 99, 111, 114, 100, 32, 40, 96, 99, 114, 96, 41, 59, 32, 105, 116, 115, 32, 102, 105, 114, 115, 116, 32, 114, 101, 99, 111, 114, 100, 32, 105, 115, 32, 97, 110, 111, 116, 104, 101, 114, 46 };
static const unsigned char nd_data_static_183[12] = { 32, 105, 115, 32, 109, 105, 115, 115, 105, 110, 103, 46 };
static const unsigned char nd_data_static_184[13] = { 32, 97, 114, 101, 32, 109, 105, 115, 115, 105, 110, 103, 46 };
static const unsigned char nd_data_static_185[6] = { 32, 111, 99, 116, 101, 116 };
static const unsigned char nd_data_static_186[7] = { 32, 111, 99, 116, 101, 116, 115 };
static const unsigned char nd_data_static_187[11] = { 116, 104, 101, 32, 112, 97, 121, 108, 111, 97, 100 };
static const unsigned char nd_data_static_188[5] = { 32, 104, 97, 115, 32 };
static const unsigned char nd_data_static_190[3] = { 32, 40, 96 };
static const unsigned char nd_data_static_191[2] = { 96, 41 };
static const unsigned char nd_data_static_192[6] = { 65, 32, 116, 101, 120, 116 };
static const unsigned char nd_data_static_193[5] = { 65, 32, 85, 82, 73 };
static const unsigned char nd_data_static_194[14] = { 65, 32, 115, 109, 97, 114, 116, 32, 112, 111, 115, 116, 101, 114 };
static const unsigned char nd_data_static_195[18] = { 65, 32, 104, 97, 110, 100, 111, 118, 101, 114, 32, 114, 101, 113, 117, 101, 115, 116 };
static const unsigned char nd_data_static_196[17] = { 65, 32, 104, 97, 110, 100, 111, 118, 101, 114, 32, 115, 101, 108, 101, 99, 116 };
static const unsigned char nd_data_static_197[18] = { 65, 32, 104, 97, 110, 100, 111, 118, 101, 114, 32, 99, 97, 114, 114, 105, 101, 114 };
static const unsigned char nd_data_static_198[9] = { 65, 110, 32, 97, 99, 116, 105, 111, 110 };
static const unsigned char nd_data_static_199[6] = { 65, 32, 115, 105, 122, 101 };
static const unsigned char nd_data_static_200[12] = { 65, 32, 109, 101, 100, 105, 97, 32, 116, 121, 112, 101 };
static const unsigned char nd_data_static_201[22] = { 65, 110, 32, 97, 108, 116, 101, 114, 110, 97, 116, 105, 118, 101, 32, 99, 97, 114, 114, 105, 101, 114 };
static const unsigned char nd_data_static_202[18] = { 65, 32, 99, 111, 108, 108, 105, 115, 105, 111, 110, 32, 114, 101, 99, 111, 114, 100 };
static const unsigned char nd_data_static_203[8] = { 65, 110, 32, 101, 114, 114, 111, 114 };
static const unsigned char nd_data_static_204[9] = { 65, 32, 112, 97, 121, 108, 111, 97, 100 };
static const unsigned char nd_data_static_205[2] = { 83, 112 };
static const unsigned char nd_data_static_206[2] = { 72, 114 };
static const unsigned char nd_data_static_207[2] = { 72, 115 };
static const unsigned char nd_data_static_208[2] = { 72, 99 };
static const unsigned char nd_data_static_209[3] = { 97, 99, 116 };
static const unsigned char nd_data_static_210[1] = { 115 };
static const unsigned char nd_data_static_211[1] = { 116 };
static const unsigned char nd_data_static_212[2] = { 97, 99 };
static const unsigned char nd_data_static_213[2] = { 99, 114 };
static const unsigned char nd_data_static_214[3] = { 101, 114, 114 };
static const unsigned char nd_data_static_215[11] = { 32, 119, 97, 115, 32, 103, 105, 118, 101, 110, 46 };
static const unsigned char nd_data_static_216[12] = { 32, 119, 101, 114, 101, 32, 103, 105, 118, 101, 110, 46 };
static const unsigned char nd_data_static_217[14] = { 32, 104, 97, 115, 32, 97, 116, 32, 108, 101, 97, 115, 116, 32 };
static const unsigned char nd_data_static_218[53] = { 65, 32, 104, 97, 110, 100, 111, 118, 101, 114, 32, 115, 101, 108, 101, 99, 116, 32, 40, 96, 72, 115, 96, 41, 32, 104, 97, 115, 32, 49, 32, 111, 99, 116, 101, 116, 44, 32, 111, 114, 32, 97, 116, 32, 108, 101, 97, 115, 116, 32, 52, 59, 32 };
static const unsigned char nd_data_static_219[25] = { 84, 104, 101, 32, 100, 97, 116, 97, 32, 111, 102, 32, 101, 114, 114, 111, 114, 32, 114, 101, 97, 115, 111, 110, 32 };
static const unsigned char nd_data_static_221[24] = { 32, 105, 115, 32, 108, 101, 102, 116, 32, 105, 110, 32, 116, 104, 101, 32, 112, 97, 121, 108, 111, 97, 100, 46 };
static const unsigned char nd_data_static_222[25] = { 32, 97, 114, 101, 32, 108, 101, 102, 116, 32, 105, 110, 32, 116, 104, 101, 32, 112, 97, 121, 108, 111, 97, 100, 46 };
static const unsigned char nd_data_static_223[24] = { 32, 97, 117, 120, 105, 108, 105, 97, 114, 121, 32, 114, 101, 102, 101, 114, 101, 110, 99, 101, 32, 104, 97, 115 };
static const unsigned char nd_data_static_224[26] = { 32, 97, 117, 120, 105, 108, 105, 97, 114, 121, 32, 114, 101, 102, 101, 114, 101, 110, 99, 101, 115, 32, 104, 97, 118, 101 };
static const unsigned char nd_data_static_225[10] = { 32, 97, 116, 32, 108, 101, 97, 115, 116, 32 };
static const unsigned char nd_data_static_226[25] = { 84, 104, 105, 115, 32, 114, 101, 99, 111, 114, 100, 32, 104, 97, 115, 32, 97, 116, 32, 108, 101, 97, 115, 116, 32 };
static const unsigned char nd_data_static_227[37] = { 84, 104, 105, 115, 32, 114, 101, 99, 111, 114, 100, 32, 105, 115, 32, 116, 104, 101, 32, 108, 97, 115, 116, 32, 40, 77, 69, 41, 32, 97, 110, 100, 32, 104, 97, 115, 32 };
static const unsigned char nd_data_static_228[64] = { 65, 110, 111, 116, 104, 101, 114, 32, 114, 101, 99, 111, 114, 100, 32, 104, 97, 115, 32, 116, 111, 32, 102, 111, 108, 108, 111, 119, 32, 40, 77, 69, 32, 105, 115, 32, 99, 108, 101, 97, 114, 41, 44, 32, 111, 102, 32, 97, 116, 32, 108, 101, 97, 115, 116, 32, 51, 32, 111, 99, 116, 101, 116, 115 };
static const unsigned char nd_data_static_229[7] = { 82, 101, 99, 111, 114, 100, 32 };
static const unsigned char nd_data_static_230[59] = { 32, 105, 115, 32, 116, 104, 101, 32, 108, 97, 115, 116, 32, 111, 102, 32, 116, 104, 105, 115, 32, 115, 109, 97, 114, 116, 32, 112, 111, 115, 116, 101, 114, 44, 32, 97, 110, 100, 32, 110, 111, 110, 101, 32, 105, 115, 32, 97, 32, 85, 82, 73, 32, 40, 96, 85, 96, 41, 46 };
static const unsigned char nd_data_static_231[73] = { 84, 104, 101, 32, 108, 97, 115, 116, 32, 114, 101, 99, 111, 114, 100, 32, 40, 77, 69, 41, 32, 111, 102, 32, 116, 104, 105, 115, 32, 112, 111, 115, 116, 101, 114, 32, 104, 97, 115, 32, 116, 111, 32, 98, 101, 32, 105, 116, 115, 32, 85, 82, 73, 32, 40, 96, 85, 96, 41, 44, 32, 111, 102, 32, 97, 116, 32, 108, 101, 97, 115, 116, 32 };
static const unsigned char nd_data_static_232[98] = { 84, 104, 101, 32, 85, 82, 73, 32, 40, 96, 85, 96, 41, 32, 111, 102, 32, 116, 104, 105, 115, 32, 115, 109, 97, 114, 116, 32, 112, 111, 115, 116, 101, 114, 32, 104, 97, 115, 32, 116, 111, 32, 102, 111, 108, 108, 111, 119, 32, 40, 77, 69, 32, 105, 115, 32, 99, 108, 101, 97, 114, 41, 44, 32, 105, 110, 32, 97, 32, 114, 101, 99, 111, 114, 100, 32, 111, 102, 32, 97, 116, 32, 108, 101, 97, 115, 116, 32, 53, 32, 111, 99, 116, 101, 116, 115, 59, 32 };
static const unsigned char nd_data_static_233[44] = { 32, 105, 115, 32, 97, 32, 115, 101, 99, 111, 110, 100, 32, 85, 82, 73, 32, 40, 96, 85, 96, 41, 32, 105, 110, 32, 116, 104, 105, 115, 32, 115, 109, 97, 114, 116, 32, 112, 111, 115, 116, 101, 114, 46 };
static const unsigned char nd_data_static_234[47] = { 65, 32, 114, 101, 113, 117, 101, 115, 116, 32, 98, 101, 103, 105, 110, 115, 32, 119, 105, 116, 104, 32, 97, 32, 99, 111, 108, 108, 105, 115, 105, 111, 110, 32, 114, 101, 99, 111, 114, 100, 32, 40, 96, 99, 114, 96, 41 };
static const unsigned char nd_data_static_235[14] = { 32, 111, 102, 32, 50, 32, 111, 99, 116, 101, 116, 115, 59, 32 };
static const unsigned char nd_data_static_236[19] = { 44, 32, 104, 101, 114, 101, 32, 111, 102, 32, 97, 116, 32, 108, 101, 97, 115, 116, 32 };
static const unsigned char nd_data_static_237[29] = { 44, 32, 119, 104, 105, 99, 104, 32, 97, 115, 32, 116, 104, 101, 32, 108, 97, 115, 116, 32, 40, 77, 69, 41, 32, 104, 97, 115, 32 };
static const unsigned char nd_data_static_238[100] = { 65, 102, 116, 101, 114, 32, 105, 116, 115, 32, 99, 111, 108, 108, 105, 115, 105, 111, 110, 32, 114, 101, 99, 111, 114, 100, 32, 40, 96, 99, 114, 96, 41, 32, 97, 110, 111, 116, 104, 101, 114, 32, 114, 101, 99, 111, 114, 100, 32, 104, 97, 115, 32, 116, 111, 32, 102, 111, 108, 108, 111, 119, 32, 40, 77, 69, 32, 105, 115, 32, 99, 108, 101, 97, 114, 41, 44, 32, 111, 102, 32, 97, 116, 32, 108, 101, 97, 115, 116, 32, 51, 32, 111, 99, 116, 101, 116, 115, 59, 32 };
static const uint64_t nd_data_switch_table_ndef_c_warnings_give_remark[14] = { 32ULL, 0ULL, 0ULL, 0ULL, 0ULL, 0ULL, 0ULL, 76ULL, 88ULL, 31ULL, 54ULL, 46ULL, 49ULL, 76ULL };
static const uint64_t nd_data_switch_table_ndef_lang_leaf_Leaf_lengths[9] = { 2ULL, 2ULL, 2ULL, 2ULL, 2ULL, 2ULL, 2ULL, 2ULL, 0ULL };
static const uint64_t nd_data_switch_table_ndef_nest_phase_NestPhase_span_5[4] = { 3ULL, 3ULL, 5ULL, 7ULL };
static const uint64_t nd_data_switch_table_ndef_lang_utf8_Utf8Lang_take[9] = { 0ULL, 1ULL, 2ULL, 3ULL, 2ULL, 2ULL, 3ULL, 3ULL, 0ULL };
static const unsigned char nd_data_switch_table_ndef_c_kinds_ndef_kind[13] = { 0, 1, 2, 0, 0, 0, 0, 7, 8, 9, 0, 0, 0 };
static const unsigned char nd_data_switch_table_ndef_c_kinds_ndef_kind_8[13] = { 0, 0, 0, 0, 0, 0, 0, 0, 0, 0, 10, 0, 12 };
static const unsigned char nd_data_switch_table_ndef_fields_begun_begin_with[13] = { 6, 6, 6, 6, 6, 6, 27, 6, 6, 6, 18, 6, 6 };
static const uint32_t nd_data_switch_table_ndef_fields_begun_begin_with_9[13] = { 0U, 0U, 0U, 0U, 0U, 0U, 1U, 1U, 4U, 0U, 1U, 2U, 0U };
static const unsigned char nd_data_switch_table_ndef_fields_begun_begin_with_10[13] = { 1, 4, 5, 1, 1, 1, 7, 0, 0, 2, 8, 0, 6 };
static const unsigned char nd_data_switch_table_ndef_fields_begun_begin_with_11[13] = { 0, 0, 1, 0, 0, 0, 0, 0, 0, 0, 0, 0, 0 };
static const unsigned char nd_data_switch_table_ndef_fields_begun_begin_with_12[13] = { 6, 6, 6, 6, 6, 6, 6, 13, 14, 15, 6, 17, 6 };
static const uint32_t nd_data_switch_table_ndef_diagnostics_length_mismatch_length_mismatch[3] = { 1U, 4U, 1U };
static const uint64_t nd_data_switch_table_ndef_diagnostics_sentence_Sentence_push_kind[13] = { 9ULL, 6ULL, 5ULL, 14ULL, 18ULL, 17ULL, 18ULL, 9ULL, 6ULL, 12ULL, 22ULL, 18ULL, 8ULL };
static const uint64_t nd_data_switch_table_ndef_field_name[31] = { 6ULL, 11ULL, 14ULL, 9ULL, 4ULL, 2ULL, 7ULL, 6ULL, 13ULL, 15ULL, 4ULL, 15ULL, 3ULL, 6ULL, 4ULL, 10ULL, 7ULL, 13ULL, 19ULL, 29ULL, 22ULL, 30ULL, 31ULL, 24ULL, 8ULL, 12ULL, 10ULL, 19ULL, 19ULL, 12ULL, 12ULL };
static const uint64_t nd_data_switch_table_ndef_reason_name[25] = { 11ULL, 12ULL, 10ULL, 16ULL, 13ULL, 8ULL, 10ULL, 12ULL, 13ULL, 14ULL, 12ULL, 9ULL, 13ULL, 15ULL, 7ULL, 8ULL, 4ULL, 5ULL, 7ULL, 10ULL, 8ULL, 7ULL, 10ULL, 10ULL, 16ULL };
static const uint64_t nd_data_switch_table_ndef_reason_sentence[25] = { 35ULL, 49ULL, 46ULL, 70ULL, 65ULL, 48ULL, 63ULL, 34ULL, 69ULL, 51ULL, 59ULL, 62ULL, 38ULL, 44ULL, 64ULL, 44ULL, 22ULL, 23ULL, 66ULL, 40ULL, 39ULL, 46ULL, 66ULL, 32ULL, 67ULL };
static const uint64_t nd_data_switch_table_ndef_uri[35] = { 11ULL, 12ULL, 7ULL, 8ULL, 4ULL, 7ULL, 26ULL, 10ULL, 7ULL, 7ULL, 6ULL, 6ULL, 6ULL, 6ULL, 5ULL, 9ULL, 5ULL, 7ULL, 4ULL, 4ULL, 4ULL, 5ULL, 5ULL, 8ULL, 10ULL, 9ULL, 10ULL, 11ULL, 7ULL, 11ULL, 12ULL, 12ULL, 12ULL, 8ULL, 8ULL };
static const uint64_t nd_data_switch_table_ndef_status_name[6] = { 2ULL, 7ULL, 14ULL, 11ULL, 3ULL, 4ULL };
static const uint64_t nd_data_switch_table_ndef_hint[3] = { 25ULL, 43ULL, 48ULL };
static const uint64_t nd_data_switch_table_ndef_refusal_message_21[31] = { 6ULL, 11ULL, 14ULL, 9ULL, 4ULL, 2ULL, 11ULL, 6ULL, 13ULL, 15ULL, 4ULL, 15ULL, 3ULL, 6ULL, 4ULL, 10ULL, 7ULL, 13ULL, 19ULL, 29ULL, 22ULL, 30ULL, 31ULL, 24ULL, 8ULL, 12ULL, 10ULL, 19ULL, 19ULL, 12ULL, 12ULL };
static const uint32_t nd_data_switch_table_ndef_items[25] = { 1U, 2U, 3U, 4U, 5U, 6U, 7U, 8U, 9U, 10U, 11U, 12U, 13U, 14U, 15U, 16U, 17U, 18U, 19U, 20U, 21U, 22U, 25U, 23U, 24U };
static const struct { ND_POINTER p0; ND_POINTER p1; ND_POINTER p2; ND_POINTER p3; ND_POINTER p4; ND_POINTER p5; ND_POINTER p6; ND_POINTER p7; ND_POINTER p8; ND_POINTER p9; ND_POINTER p10; ND_POINTER p11; ND_POINTER p12; ND_POINTER p13; } nd_data_switch_table_ndef_c_warnings_give_remark_1 = { { (const unsigned char *)nd_data_static_42 }, { (const unsigned char *)nd_data_static_50 }, { (const unsigned char *)nd_data_static_50 }, { (const unsigned char *)nd_data_static_50 }, { (const unsigned char *)nd_data_static_50 }, { (const unsigned char *)nd_data_static_50 }, { (const unsigned char *)nd_data_static_50 }, { (const unsigned char *)nd_data_static_43 }, { (const unsigned char *)nd_data_static_44 }, { (const unsigned char *)nd_data_static_45 }, { (const unsigned char *)nd_data_static_46 }, { (const unsigned char *)nd_data_static_47 }, { (const unsigned char *)nd_data_static_48 }, { (const unsigned char *)nd_data_static_49 } };
static const struct { ND_POINTER p0; ND_POINTER p1; ND_POINTER p2; ND_POINTER p3; ND_POINTER p4; ND_POINTER p5; ND_POINTER p6; ND_POINTER p7; ND_POINTER p8; ND_POINTER p9; ND_POINTER p10; ND_POINTER p11; ND_POINTER p12; } nd_data_switch_table_ndef_diagnostics_sentence_Sentence_push_kind_13 = { { (const unsigned char *)nd_data_static_204 }, { (const unsigned char *)nd_data_static_192 }, { (const unsigned char *)nd_data_static_193 }, { (const unsigned char *)nd_data_static_194 }, { (const unsigned char *)nd_data_static_195 }, { (const unsigned char *)nd_data_static_196 }, { (const unsigned char *)nd_data_static_197 }, { (const unsigned char *)nd_data_static_198 }, { (const unsigned char *)nd_data_static_199 }, { (const unsigned char *)nd_data_static_200 }, { (const unsigned char *)nd_data_static_201 }, { (const unsigned char *)nd_data_static_202 }, { (const unsigned char *)nd_data_static_203 } };
static const struct { ND_POINTER p0; ND_POINTER p1; ND_POINTER p2; ND_POINTER p3; ND_POINTER p4; ND_POINTER p5; ND_POINTER p6; ND_POINTER p7; ND_POINTER p8; ND_POINTER p9; ND_POINTER p10; ND_POINTER p11; ND_POINTER p12; ND_POINTER p13; ND_POINTER p14; ND_POINTER p15; ND_POINTER p16; ND_POINTER p17; ND_POINTER p18; ND_POINTER p19; ND_POINTER p20; ND_POINTER p21; ND_POINTER p22; ND_POINTER p23; ND_POINTER p24; ND_POINTER p25; ND_POINTER p26; ND_POINTER p27; ND_POINTER p28; ND_POINTER p29; ND_POINTER p30; } nd_data_switch_table_ndef_field_name_14 = { { (const unsigned char *)nd_data_static_0 }, { (const unsigned char *)nd_data_static_1 }, { (const unsigned char *)nd_data_static_2 }, { (const unsigned char *)nd_data_static_3 }, { (const unsigned char *)nd_data_static_4 }, { (const unsigned char *)nd_data_static_5 }, { (const unsigned char *)nd_data_static_6 }, { (const unsigned char *)nd_data_static_7 }, { (const unsigned char *)nd_data_static_8 }, { (const unsigned char *)nd_data_static_9 }, { (const unsigned char *)nd_data_static_10 }, { (const unsigned char *)nd_data_static_11 }, { (const unsigned char *)nd_data_static_12 }, { (const unsigned char *)nd_data_static_13 }, { (const unsigned char *)nd_data_static_14 }, { (const unsigned char *)nd_data_static_15 }, { (const unsigned char *)nd_data_static_16 }, { (const unsigned char *)nd_data_static_17 }, { (const unsigned char *)nd_data_static_18 }, { (const unsigned char *)nd_data_static_19 }, { (const unsigned char *)nd_data_static_20 }, { (const unsigned char *)nd_data_static_21 }, { (const unsigned char *)nd_data_static_22 }, { (const unsigned char *)nd_data_static_23 }, { (const unsigned char *)nd_data_static_24 }, { (const unsigned char *)nd_data_static_25 }, { (const unsigned char *)nd_data_static_26 }, { (const unsigned char *)nd_data_static_27 }, { (const unsigned char *)nd_data_static_28 }, { (const unsigned char *)nd_data_static_29 }, { (const unsigned char *)nd_data_static_30 } };
static const struct { ND_POINTER p0; ND_POINTER p1; ND_POINTER p2; ND_POINTER p3; ND_POINTER p4; ND_POINTER p5; ND_POINTER p6; ND_POINTER p7; ND_POINTER p8; ND_POINTER p9; ND_POINTER p10; ND_POINTER p11; ND_POINTER p12; ND_POINTER p13; ND_POINTER p14; ND_POINTER p15; ND_POINTER p16; ND_POINTER p17; ND_POINTER p18; ND_POINTER p19; ND_POINTER p20; ND_POINTER p21; ND_POINTER p22; ND_POINTER p23; ND_POINTER p24; } nd_data_switch_table_ndef_reason_name_16 = { { (const unsigned char *)nd_data_static_89 }, { (const unsigned char *)nd_data_static_90 }, { (const unsigned char *)nd_data_static_91 }, { (const unsigned char *)nd_data_static_92 }, { (const unsigned char *)nd_data_static_93 }, { (const unsigned char *)nd_data_static_94 }, { (const unsigned char *)nd_data_static_95 }, { (const unsigned char *)nd_data_static_96 }, { (const unsigned char *)nd_data_static_97 }, { (const unsigned char *)nd_data_static_98 }, { (const unsigned char *)nd_data_static_99 }, { (const unsigned char *)nd_data_static_100 }, { (const unsigned char *)nd_data_static_101 }, { (const unsigned char *)nd_data_static_102 }, { (const unsigned char *)nd_data_static_103 }, { (const unsigned char *)nd_data_static_104 }, { (const unsigned char *)nd_data_static_105 }, { (const unsigned char *)nd_data_static_106 }, { (const unsigned char *)nd_data_static_107 }, { (const unsigned char *)nd_data_static_108 }, { (const unsigned char *)nd_data_static_109 }, { (const unsigned char *)nd_data_static_110 }, { (const unsigned char *)nd_data_static_112 }, { (const unsigned char *)nd_data_static_113 }, { (const unsigned char *)nd_data_static_111 } };
static const struct { ND_POINTER p0; ND_POINTER p1; ND_POINTER p2; ND_POINTER p3; ND_POINTER p4; ND_POINTER p5; ND_POINTER p6; ND_POINTER p7; ND_POINTER p8; ND_POINTER p9; ND_POINTER p10; ND_POINTER p11; ND_POINTER p12; ND_POINTER p13; ND_POINTER p14; ND_POINTER p15; ND_POINTER p16; ND_POINTER p17; ND_POINTER p18; ND_POINTER p19; ND_POINTER p20; ND_POINTER p21; ND_POINTER p22; ND_POINTER p23; ND_POINTER p24; } nd_data_switch_table_ndef_reason_sentence_17 = { { (const unsigned char *)nd_data_static_114 }, { (const unsigned char *)nd_data_static_115 }, { (const unsigned char *)nd_data_static_116 }, { (const unsigned char *)nd_data_static_117 }, { (const unsigned char *)nd_data_static_118 }, { (const unsigned char *)nd_data_static_119 }, { (const unsigned char *)nd_data_static_120 }, { (const unsigned char *)nd_data_static_121 }, { (const unsigned char *)nd_data_static_122 }, { (const unsigned char *)nd_data_static_123 }, { (const unsigned char *)nd_data_static_124 }, { (const unsigned char *)nd_data_static_125 }, { (const unsigned char *)nd_data_static_126 }, { (const unsigned char *)nd_data_static_127 }, { (const unsigned char *)nd_data_static_128 }, { (const unsigned char *)nd_data_static_129 }, { (const unsigned char *)nd_data_static_130 }, { (const unsigned char *)nd_data_static_131 }, { (const unsigned char *)nd_data_static_132 }, { (const unsigned char *)nd_data_static_133 }, { (const unsigned char *)nd_data_static_134 }, { (const unsigned char *)nd_data_static_135 }, { (const unsigned char *)nd_data_static_137 }, { (const unsigned char *)nd_data_static_138 }, { (const unsigned char *)nd_data_static_136 } };
static const struct { ND_POINTER p0; ND_POINTER p1; ND_POINTER p2; ND_POINTER p3; ND_POINTER p4; ND_POINTER p5; ND_POINTER p6; ND_POINTER p7; ND_POINTER p8; ND_POINTER p9; ND_POINTER p10; ND_POINTER p11; ND_POINTER p12; ND_POINTER p13; ND_POINTER p14; ND_POINTER p15; ND_POINTER p16; ND_POINTER p17; ND_POINTER p18; ND_POINTER p19; ND_POINTER p20; ND_POINTER p21; ND_POINTER p22; ND_POINTER p23; ND_POINTER p24; ND_POINTER p25; ND_POINTER p26; ND_POINTER p27; ND_POINTER p28; ND_POINTER p29; ND_POINTER p30; ND_POINTER p31; ND_POINTER p32; ND_POINTER p33; ND_POINTER p34; } nd_data_switch_table_ndef_uri_18 = { { (const unsigned char *)nd_data_static_51 }, { (const unsigned char *)nd_data_static_52 }, { (const unsigned char *)nd_data_static_53 }, { (const unsigned char *)nd_data_static_54 }, { (const unsigned char *)nd_data_static_55 }, { (const unsigned char *)nd_data_static_56 }, { (const unsigned char *)nd_data_static_57 }, { (const unsigned char *)nd_data_static_58 }, { (const unsigned char *)nd_data_static_59 }, { (const unsigned char *)nd_data_static_60 }, { (const unsigned char *)nd_data_static_61 }, { (const unsigned char *)nd_data_static_62 }, { (const unsigned char *)nd_data_static_63 }, { (const unsigned char *)nd_data_static_64 }, { (const unsigned char *)nd_data_static_65 }, { (const unsigned char *)nd_data_static_66 }, { (const unsigned char *)nd_data_static_67 }, { (const unsigned char *)nd_data_static_68 }, { (const unsigned char *)nd_data_static_69 }, { (const unsigned char *)nd_data_static_70 }, { (const unsigned char *)nd_data_static_71 }, { (const unsigned char *)nd_data_static_72 }, { (const unsigned char *)nd_data_static_73 }, { (const unsigned char *)nd_data_static_74 }, { (const unsigned char *)nd_data_static_75 }, { (const unsigned char *)nd_data_static_76 }, { (const unsigned char *)nd_data_static_77 }, { (const unsigned char *)nd_data_static_78 }, { (const unsigned char *)nd_data_static_79 }, { (const unsigned char *)nd_data_static_80 }, { (const unsigned char *)nd_data_static_81 }, { (const unsigned char *)nd_data_static_82 }, { (const unsigned char *)nd_data_static_83 }, { (const unsigned char *)nd_data_static_84 }, { (const unsigned char *)nd_data_static_85 } };
static const struct { ND_POINTER p0; ND_POINTER p1; ND_POINTER p2; ND_POINTER p3; ND_POINTER p4; ND_POINTER p5; } nd_data_switch_table_ndef_status_name_19 = { { (const unsigned char *)nd_data_static_141 }, { (const unsigned char *)nd_data_static_142 }, { (const unsigned char *)nd_data_static_143 }, { (const unsigned char *)nd_data_static_144 }, { (const unsigned char *)nd_data_static_145 }, { (const unsigned char *)nd_data_static_146 } };
static const struct { ND_POINTER p0; ND_POINTER p1; ND_POINTER p2; } nd_data_switch_table_ndef_hint_20 = { { (const unsigned char *)nd_data_static_161 }, { (const unsigned char *)nd_data_static_162 }, { (const unsigned char *)nd_data_static_163 } };
static const struct { ND_POINTER p0; ND_POINTER p1; ND_POINTER p2; ND_POINTER p3; ND_POINTER p4; ND_POINTER p5; ND_POINTER p6; ND_POINTER p7; ND_POINTER p8; ND_POINTER p9; ND_POINTER p10; ND_POINTER p11; ND_POINTER p12; ND_POINTER p13; ND_POINTER p14; ND_POINTER p15; ND_POINTER p16; ND_POINTER p17; ND_POINTER p18; ND_POINTER p19; ND_POINTER p20; ND_POINTER p21; ND_POINTER p22; ND_POINTER p23; ND_POINTER p24; ND_POINTER p25; ND_POINTER p26; ND_POINTER p27; ND_POINTER p28; ND_POINTER p29; ND_POINTER p30; } nd_data_switch_table_ndef_refusal_message = { { (const unsigned char *)nd_data_static_0 }, { (const unsigned char *)nd_data_static_1 }, { (const unsigned char *)nd_data_static_2 }, { (const unsigned char *)nd_data_static_3 }, { (const unsigned char *)nd_data_static_4 }, { (const unsigned char *)nd_data_static_5 }, { (const unsigned char *)nd_data_static_187 }, { (const unsigned char *)nd_data_static_7 }, { (const unsigned char *)nd_data_static_8 }, { (const unsigned char *)nd_data_static_9 }, { (const unsigned char *)nd_data_static_10 }, { (const unsigned char *)nd_data_static_11 }, { (const unsigned char *)nd_data_static_12 }, { (const unsigned char *)nd_data_static_13 }, { (const unsigned char *)nd_data_static_14 }, { (const unsigned char *)nd_data_static_15 }, { (const unsigned char *)nd_data_static_16 }, { (const unsigned char *)nd_data_static_17 }, { (const unsigned char *)nd_data_static_18 }, { (const unsigned char *)nd_data_static_19 }, { (const unsigned char *)nd_data_static_20 }, { (const unsigned char *)nd_data_static_21 }, { (const unsigned char *)nd_data_static_22 }, { (const unsigned char *)nd_data_static_23 }, { (const unsigned char *)nd_data_static_24 }, { (const unsigned char *)nd_data_static_25 }, { (const unsigned char *)nd_data_static_26 }, { (const unsigned char *)nd_data_static_27 }, { (const unsigned char *)nd_data_static_28 }, { (const unsigned char *)nd_data_static_29 }, { (const unsigned char *)nd_data_static_30 } };

static uint32_t nd_ndef_c_warnings_give_remark(unsigned char *v1, unsigned char *v2, uint64_t v3, unsigned char *v4);
static void nd_ndef_diagnostics_sentence_Sentence_push_number(unsigned char *v1, uint64_t v2);
static void nd_ndef_nest_typed_TypedRecordLanguage_start(unsigned char *v1, uint8_t v2, unsigned char *v3, uint64_t v4, uint32_t v5, uint8_t v6);
static uint8_t nd_ndef_format_kind_of_two(uint8_t v1, uint8_t v2);
static void nd_ndef_nest_nest_Nest_stepped(unsigned char *v1, unsigned char *v2, uint8_t v3);
static void nd_ndef_nest_nest_Nest_at_head(unsigned char *v1, unsigned char *v2, uint8_t v3);
static void nd_ndef_piece_head_reader_HeadReader_step(unsigned char *v1, unsigned char *v2, uint8_t v3);
static void nd_ndef_piece_head_reader_HeadReader_bounds(unsigned char *v1, unsigned char *v2);
static void nd_ndef_nest_phase_Name_settled(unsigned char *v1, unsigned char *v2, unsigned char *v3);
static uint8_t nd_ndef_lang_kind_KindReader_kind(unsigned char *v1);
static void nd_ndef_nest_phase_Name_entered(unsigned char *v1, unsigned char *v2, unsigned char *v3, uint8_t v4);
static void nd_ndef_lang_leaf_Leaf_lengths(unsigned char *v1, unsigned char *v2);
static void nd_ndef_lang_leaf_Leaf_after(unsigned char *v1, unsigned char *v2, uint8_t v3);
static void nd_ndef_lang_leaf_Stage_after(unsigned char *v1, uint8_t v2, uint8_t v3, uint8_t v4);
static uint8_t nd_ndef_nest_nest_NestLanguage_fits(unsigned char *v1, uint64_t v2, uint64_t v3);
static struct nd_64_64 nd_ndef_nest_span_OpenRecord_span(unsigned char *v1, uint8_t v2);
static struct nd_64_64 nd_ndef_nest_phase_NestPhase_span(unsigned char *v1, unsigned char *v2);
static uint64_t nd_ndef_nest_nest_NestLanguage_step_all(unsigned char *v1, unsigned char *v2, uint64_t v3, uint64_t v4, uint64_t v5);
static uint64_t nd_ndef_lang_leaf_LeafLanguage_step_all(unsigned char *v1, unsigned char *v2, uint64_t v3, uint64_t v4, uint64_t v5);
static uint8_t nd_ndef_lang_leaf_Class_has_all(uint8_t v1, unsigned char *v2, uint64_t v3);
static uint8_t nd_ndef_lang_ascii_are_many(unsigned char *v1, uint64_t v2);
static uint64_t nd_ndef_lang_utf8_Utf8Lang_take(unsigned char *v1, unsigned char *v2, uint64_t v3, uint64_t v4, uint64_t v5);
static void nd_core_str_utf8_from_utf8(unsigned char *v1, unsigned char *v2, uint64_t v3);
static uint64_t nd_core_slice_words_first(unsigned char *v1, uint64_t v2, uint64_t v3);
static uint64_t nd_core_slice_words_skip_far(unsigned char *v1, uint64_t v2, uint64_t v3);
static uint64_t nd_ndef_lang_utf8_Utf8Lang_take_each(unsigned char *v1, unsigned char *v2, uint64_t v3, uint64_t v4, uint64_t v5);
static void nd_ndef_piece_head_reader_HeadReader_whole_head(unsigned char *v1, unsigned char *v2, unsigned char *v3, uint64_t v4);
static uint8_t nd_ndef_lang_member_is_coded_text(uint64_t v1, uint8_t v2, unsigned char *v3, uint64_t v4);
static uint8_t nd_ndef_lang_member_is_utf16(unsigned char *v1, uint64_t v2);
static uint8_t nd_ndef_lang_member_is_long_utf8(unsigned char *v1, uint64_t v2);
static uint8_t nd_ndef_lang_leaf_Leaf_is_completed_by(unsigned char *v1, unsigned char *v2, uint64_t v3);
static void nd_ndef_c_run_first_run(unsigned char *v1, unsigned char *v2, uint64_t v3);
static void nd_ndef_c_chunks_PiecesIterator_next(unsigned char *v1, unsigned char *v2);
static uint32_t nd_ndef_c_content_give_content(unsigned char *v1, unsigned char *v2, uint64_t v3, unsigned char *v4);
static struct nd_8_64 nd_ndef_c_content_content_length(unsigned char *v1);
static void nd_ndef_c_utf16_put_units(unsigned char *v1, unsigned char *v2, uint64_t v3);
static void nd_ndef_types_prefixes_split(unsigned char *v1, unsigned char *v2, uint64_t v3);
static void nd_ndef_lang_place_refusal_of(unsigned char *v1, uint8_t v2, uint8_t v3, unsigned char *v4, uint64_t v5);
static void nd_ndef_message_message_viewing_view(unsigned char *v1, unsigned char *v2, uint64_t v3, unsigned char *v4);
static uint8_t nd_ndef_nest_member_is_nested(uint8_t v1, uint32_t v2, uint8_t v3, unsigned char *v4, uint64_t v5);
static uint8_t nd_ndef_nest_member_are_records(uint8_t v1, uint32_t v2, uint8_t v3, unsigned char *v4, uint64_t v5);
static uint8_t nd_ndef_format_table_Table_kind(uint8_t v1, uint8_t v2, unsigned char *v3, uint64_t v4);
static void nd_ndef_message_judging_judge(unsigned char *v1, unsigned char *v2, unsigned char *v3, uint64_t v4);
static void nd_ndef_message_checker_Checker_feed_tried(unsigned char *v1, unsigned char *v2, unsigned char *v3, uint64_t v4, uint8_t v5);
static uint64_t nd_ndef_message_state_State_take_chunks(unsigned char *v1, unsigned char *v2, unsigned char *v3, uint64_t v4);
static void nd_ndef_message_accepted_accepted_chunks(unsigned char *v1, unsigned char *v2, unsigned char *v3, uint64_t v4);
static void nd_ndef_message_accepted_accepted_run(unsigned char *v1, unsigned char *v2, unsigned char *v3, unsigned char *v4, uint64_t v5);
static uint64_t nd_ndef_message_checker_Checker_step(unsigned char *v1, unsigned char *v2, uint64_t v3);
static uint8_t nd_ndef_nest_typed_TypedRecordLanguage_fits(unsigned char *v1, uint64_t v2, uint64_t v3);
static void nd_ndef_message_state_State_advance_field(unsigned char *v1, unsigned char *v2, unsigned char *v3, uint8_t v4, uint32_t v5);
static uint32_t nd_ndef_c_checking_check_in(unsigned char *v1, uint64_t v2, unsigned char *v3, unsigned char *v4);
static void nd_ndef_message_judging_judge_2(unsigned char *v1, unsigned char *v2, unsigned char *v3, uint64_t v4);
static void nd_ndef_message_checker_Checker_feed_tried_2(unsigned char *v1, unsigned char *v2, unsigned char *v3, uint64_t v4, uint8_t v5);
static uint64_t nd_ndef_message_state_State_take_chunks_2(unsigned char *v1, unsigned char *v2, unsigned char *v3, uint64_t v4);
static uint64_t nd_ndef_message_checker_Checker_step_2(unsigned char *v1, unsigned char *v2, uint64_t v3);
static void nd_ndef_message_state_State_advance_field_2(unsigned char *v1, unsigned char *v2, unsigned char *v3, uint8_t v4, uint32_t v5);
static void nd_ndef_diagnostics_few_small_message(unsigned char *v1, unsigned char *v2, uint64_t v3);
static void nd_ndef_message_judging_judge_3(unsigned char *v1, unsigned char *v2, unsigned char *v3, uint64_t v4);
static uint64_t nd_ndef_message_state_State_take_chunks_3(unsigned char *v1, unsigned char *v2, unsigned char *v3, uint64_t v4);
static uint64_t nd_ndef_message_checker_Checker_step_3(unsigned char *v1, unsigned char *v2, uint64_t v3);
static void nd_ndef_message_state_State_advance_field_3(unsigned char *v1, unsigned char *v2, unsigned char *v3, uint8_t v4, uint32_t v5);
static void nd_ndef_message_items_ItemsIterator_next(unsigned char *v1, unsigned char *v2);
static uint8_t nd_ndef_message_item_Item_tnf(unsigned char *v1);
static void nd_ndef_diagnostics_record_remark_held_remark(unsigned char *v1, uint8_t v2, unsigned char *v3, uint64_t v4, unsigned char *v5);
static uint8_t nd_ndef_diagnostics_poster_remark_is_title(unsigned char *v1);
static uint8_t nd_ndef_diagnostics_handover_remark_is_carrier(unsigned char *v1);
static void nd_ndef_diagnostics_handover_remark_reference_remark(unsigned char *v1, unsigned char *v2, unsigned char *v3);
static uint64_t nd_ndef_diagnostics_few_count_id(unsigned char *v1, unsigned char *v2, uint64_t v3);
static uint8_t nd_core_cmp_slices_groups_equal(unsigned char *v1, uint64_t v2, unsigned char *v3);
static uint8_t nd_ndef_c_building_may_grow(unsigned char *v1, uint64_t v2, unsigned char *v3);
static uint32_t nd_ndef_c_building_append_pending_record(unsigned char *v1, uint64_t v2, unsigned char *v3, unsigned char *v4, unsigned char *v5);
static void nd_ndef_c_text_text_content(unsigned char *v1, unsigned char *v2, uint64_t v3, unsigned char *v4, uint64_t v5, uint32_t v6);
static uint8_t nd_core_slice_words_any_by_first(unsigned char *v1, uint64_t v2);
static uint32_t nd_ndef_c_kinds_ndef_kind(unsigned char *v1, uint64_t v2, unsigned char *v3, uint32_t v4);
static uint32_t nd_ndef_c_finding_find(unsigned char *v1, uint64_t v2, uint64_t v3, unsigned char *v4, unsigned char *v5);
static uint32_t nd_ndef_c_fields_ndef_field_at(unsigned char *v1, uint64_t v2, unsigned char *v3, uint64_t v4, unsigned char *v5, unsigned char *v6);
static void nd_ndef_fields_report_fields_before(unsigned char *v1, unsigned char *v2, uint64_t v3);
static void nd_ndef_fields_begun_begin_with(unsigned char *v1, uint64_t v2, uint64_t v3, unsigned char *v4, unsigned char *v5);
static void nd_ndef_fields_message_fields_FieldsIterator_next(unsigned char *v1, unsigned char *v2);
static void nd_ndef_fields_cursor_tell(unsigned char *v1, unsigned char *v2);
static void nd_ndef_c_hints_hint_of(unsigned char *v1, unsigned char *v2, uint64_t v3, unsigned char *v4);
static uint8_t nd_core_slice_reads_slice_T_starts_with(unsigned char *v1, uint64_t v2, unsigned char *v3, uint64_t v4);
static uint8_t nd_ndef_diagnostics_dump_text_may_be_base64(unsigned char *v1, uint64_t v2);
static void nd_ndef_diagnostics_tag_memory_in_other(unsigned char *v1, unsigned char *v2, uint64_t v3);
static uint8_t nd_ndef_diagnostics_hint_begins(unsigned char *v1, uint64_t v2, unsigned char *v3);
static void nd_ndef_message_judging_judge_4(unsigned char *v1, unsigned char *v2, unsigned char *v3, uint64_t v4);
static uint64_t nd_ndef_message_state_State_take_chunks_4(unsigned char *v1, unsigned char *v2, unsigned char *v3, uint64_t v4);
static uint64_t nd_ndef_message_checker_Checker_step_4(unsigned char *v1, unsigned char *v2, uint64_t v3);
static void nd_ndef_message_state_State_advance_field_4(unsigned char *v1, unsigned char *v2, unsigned char *v3, uint8_t v4, uint32_t v5);
static uint8_t nd_ndef_diagnostics_expecting_kind_begun(unsigned char *v1, uint64_t v2);
static void nd_ndef_diagnostics_length_mismatch_length_mismatch(unsigned char *v1, uint8_t v2, uint64_t v3, unsigned char *v4, uint64_t v5);
static void nd_ndef_diagnostics_sentence_Sentence_push_kind(unsigned char *v1, uint8_t v2);
static void nd_ndef_c_utf16_put_in_utf8(unsigned char *v1, uint8_t v2, unsigned char *v3, uint64_t v4);
static void nd_ndef_c_poster_writing_media_octets(unsigned char *v1, unsigned char *v2);
static uint32_t nd_ndef_c_series_writing_give_message(unsigned char *v1, uint64_t v2, unsigned char *v3, uint64_t v4, unsigned char *v5, uint64_t v6, unsigned char *v7);
static uint8_t nd_ndef_c_series_writing_put_message(unsigned char *v1, unsigned char *v2, uint64_t v3, unsigned char *v4, uint64_t v5, uint64_t v6);
static uint8_t nd_ndef_c_handover_is_handover(unsigned char *v1, uint64_t v2);
static void nd_ndef_c_links_LinksRecordQuery_given(unsigned char *v1, unsigned char *v2, unsigned char *v3);
static void nd_ndef_fields_report_payload_fields(unsigned char *v1, uint8_t v2, unsigned char *v3, uint64_t v4);
static void nd_ndef_default_limits(unsigned char *v1);
static uint32_t nd_ndef_field_name(uint32_t v1, unsigned char *v2, uint64_t v3, unsigned char *v4);
static uint32_t nd_ndef_field_warning(uint32_t v1, unsigned char *v2, uint64_t v3, unsigned char *v4, uint64_t v5, unsigned char *v6);
static uint32_t nd_ndef_uri_prefix(uint32_t v1, unsigned char *v2, uint64_t v3, unsigned char *v4);
static uint32_t nd_ndef_version(void);
static uint32_t nd_ndef_write_action(uint32_t v1, unsigned char *v2, uint64_t v3, unsigned char *v4);
static uint32_t nd_ndef_write_collision(uint32_t v1, unsigned char *v2, uint64_t v3, unsigned char *v4);
static uint32_t nd_ndef_write_size(uint32_t v1, unsigned char *v2, uint64_t v3, unsigned char *v4);
static uint32_t nd_ndef_begin(unsigned char *v1, unsigned char *v2);
static uint32_t nd_ndef_write_carrier(uint32_t v1, unsigned char *v2, uint64_t v3, unsigned char *v4, uint64_t v5, unsigned char *v6, uint64_t v7, unsigned char *v8);
static uint32_t nd_ndef_write_error(uint32_t v1, unsigned char *v2, uint64_t v3, unsigned char *v4, uint64_t v5, unsigned char *v6);
static uint32_t nd_ndef_write_error_number(uint32_t v1, uint32_t v2, unsigned char *v3, uint64_t v4, unsigned char *v5);
static uint32_t nd_ndef_write_handover(uint32_t v1, uint32_t v2, uint32_t v3, unsigned char *v4, uint64_t v5, unsigned char *v6, uint64_t v7, unsigned char *v8);
static uint32_t nd_ndef_normalize(unsigned char *v1, uint64_t v2, uint32_t v3, unsigned char *v4, uint64_t v5, unsigned char *v6);
static uint32_t nd_ndef_write_alternative(uint32_t v1, unsigned char *v2, uint64_t v3, unsigned char *v4, uint64_t v5, unsigned char *v6, uint64_t v7, unsigned char *v8);
static uint32_t nd_ndef_write_uri(unsigned char *v1, uint64_t v2, unsigned char *v3, uint64_t v4, unsigned char *v5);
static uint32_t nd_ndef_reason_name(uint32_t v1, unsigned char *v2, uint64_t v3, unsigned char *v4);
static uint32_t nd_ndef_reason_sentence(uint32_t v1, unsigned char *v2, uint64_t v3, unsigned char *v4);
static uint32_t nd_ndef_payload(unsigned char *v1, uint64_t v2, uint64_t v3, unsigned char *v4, uint64_t v5, unsigned char *v6);
static uint32_t nd_ndef_record_at(unsigned char *v1, uint64_t v2, uint64_t v3, unsigned char *v4);
static uint32_t nd_ndef_reference(unsigned char *v1, uint64_t v2, uint64_t v3, unsigned char *v4);
static uint32_t nd_ndef_alternative(unsigned char *v1, uint64_t v2, unsigned char *v3, unsigned char *v4);
static uint32_t nd_ndef_carrier(unsigned char *v1, uint64_t v2, unsigned char *v3, unsigned char *v4);
static uint32_t nd_ndef_check(unsigned char *v1, uint64_t v2, unsigned char *v3, unsigned char *v4);
static uint32_t nd_ndef_feed(unsigned char *v1, unsigned char *v2, uint64_t v3, unsigned char *v4);
static uint32_t nd_ndef_uri(unsigned char *v1, uint64_t v2, uint32_t v3, unsigned char *v4, uint64_t v5, unsigned char *v6, unsigned char *v7);
static uint32_t nd_ndef_record_warning(unsigned char *v1, uint64_t v2, uint64_t v3, unsigned char *v4, uint64_t v5, unsigned char *v6);
static uint32_t nd_ndef_append_uri(unsigned char *v1, unsigned char *v2, uint64_t v3, unsigned char *v4, uint64_t v5, unsigned char *v6, uint64_t v7, unsigned char *v8);
static uint32_t nd_ndef_error(unsigned char *v1, uint64_t v2, unsigned char *v3, unsigned char *v4);
static uint32_t nd_ndef_chunks(unsigned char *v1, uint64_t v2, uint64_t v3, unsigned char *v4, uint64_t v5, unsigned char *v6);
static uint32_t nd_ndef_references(unsigned char *v1, uint64_t v2, unsigned char *v3, uint64_t v4, unsigned char *v5);
static uint32_t nd_ndef_append_text(unsigned char *v1, unsigned char *v2, uint64_t v3, unsigned char *v4, uint64_t v5, unsigned char *v6, uint64_t v7, uint32_t v8, unsigned char *v9, uint64_t v10, unsigned char *v11);
static uint32_t nd_ndef_write_text(unsigned char *v1, uint64_t v2, unsigned char *v3, uint64_t v4, uint32_t v5, unsigned char *v6, uint64_t v7, unsigned char *v8);
static uint32_t nd_ndef_status_name(uint32_t v1, unsigned char *v2, uint64_t v3, unsigned char *v4);
static uint32_t nd_ndef_check_layout(unsigned char *v1, uint64_t v2, unsigned char *v3, uint64_t v4, unsigned char *v5);
static uint32_t nd_ndef_kind(unsigned char *v1, uint64_t v2, unsigned char *v3, uint32_t v4);
static uint32_t nd_ndef_find_id(unsigned char *v1, uint64_t v2, uint64_t v3, unsigned char *v4, uint64_t v5, unsigned char *v6);
static uint32_t nd_ndef_find_type(unsigned char *v1, uint64_t v2, uint64_t v3, uint32_t v4, unsigned char *v5, uint64_t v6, unsigned char *v7);
static uint32_t nd_ndef_poster_media_type(unsigned char *v1, uint64_t v2, unsigned char *v3);
static uint32_t nd_ndef_field_at(unsigned char *v1, uint64_t v2, unsigned char *v3, uint64_t v4, unsigned char *v5, unsigned char *v6);
static uint32_t nd_ndef_find_hint(unsigned char *v1, uint64_t v2, unsigned char *v3, unsigned char *v4);
static uint32_t nd_ndef_hint(unsigned char *v1, uint64_t v2, unsigned char *v3, unsigned char *v4, uint64_t v5, unsigned char *v6);
static uint32_t nd_ndef_next_field(unsigned char *v1, uint64_t v2, unsigned char *v3, unsigned char *v4, unsigned char *v5);
static uint32_t nd_ndef_refusal_message(unsigned char *v1, uint64_t v2, unsigned char *v3, unsigned char *v4, uint64_t v5, unsigned char *v6);
static uint32_t nd_ndef_text_in_utf8(unsigned char *v1, uint64_t v2, unsigned char *v3, uint64_t v4, unsigned char *v5, unsigned char *v6);
static uint32_t nd_ndef_split_uri(unsigned char *v1, uint64_t v2, uint32_t v3, unsigned char *v4, unsigned char *v5);
static uint32_t nd_ndef_write_poster(unsigned char *v1, uint64_t v2, unsigned char *v3, unsigned char *v4, uint64_t v5, unsigned char *v6, uint64_t v7, unsigned char *v8, uint64_t v9, unsigned char *v10);
static uint32_t nd_ndef_poster(unsigned char *v1, uint64_t v2, uint32_t v3, unsigned char *v4, unsigned char *v5);
static uint32_t nd_ndef_text(unsigned char *v1, uint64_t v2, unsigned char *v3, unsigned char *v4);
static uint32_t nd_ndef_title(unsigned char *v1, uint64_t v2, unsigned char *v3, uint64_t v4, unsigned char *v5);
static uint32_t nd_ndef_items(unsigned char *v1, uint64_t v2, unsigned char *v3, unsigned char *v4, unsigned char *v5, uint64_t v6);
static uint32_t nd_ndef_write_request(uint32_t v1, uint32_t v2, unsigned char *v3, uint64_t v4, unsigned char *v5, uint64_t v6, unsigned char *v7, uint64_t v8, unsigned char *v9, uint64_t v10, unsigned char *v11);
static uint32_t nd_ndef_write_select(unsigned char *v1, unsigned char *v2, uint64_t v3, unsigned char *v4, uint64_t v5, unsigned char *v6, uint64_t v7, unsigned char *v8, uint64_t v9, unsigned char *v10);
static uint32_t nd_ndef_link_at(unsigned char *v1, uint64_t v2, unsigned char *v3, uint64_t v4, uint64_t v5, unsigned char *v6);
static uint32_t nd_ndef_request(unsigned char *v1, uint64_t v2, uint32_t v3, unsigned char *v4, unsigned char *v5);
static uint32_t nd_ndef_select(unsigned char *v1, uint64_t v2, uint32_t v3, unsigned char *v4, unsigned char *v5);
static uint32_t nd_ndef_links(unsigned char *v1, uint64_t v2, unsigned char *v3, uint64_t v4, unsigned char *v5, uint64_t v6, unsigned char *v7);
static uint32_t nd_ndef_poster_icons(unsigned char *v1, uint64_t v2, unsigned char *v3, uint64_t v4, unsigned char *v5);
static uint32_t nd_ndef_poster_titles(unsigned char *v1, uint64_t v2, unsigned char *v3, uint64_t v4, unsigned char *v5);
static uint32_t nd_ndef_append(unsigned char *v1, unsigned char *v2, uint64_t v3, unsigned char *v4, uint64_t v5, unsigned char *v6, uint64_t v7, unsigned char *v8, unsigned char *v9, uint64_t v10, unsigned char *v11);
static uint32_t nd_ndef_write_record(unsigned char *v1, uint64_t v2, unsigned char *v3, uint64_t v4, unsigned char *v5, uint64_t v6, unsigned char *v7, unsigned char *v8, uint64_t v9, unsigned char *v10);
static uint32_t nd_ndef_writer_begin(unsigned char *v1, uint64_t v2, uint64_t v3, uint64_t v4, unsigned char *v5);
static uint32_t nd_ndef_writer_next(unsigned char *v1, unsigned char *v2, uint64_t v3, unsigned char *v4, uint64_t v5, unsigned char *v6, uint64_t v7, unsigned char *v8, uint64_t v9, unsigned char *v10);
static uint32_t nd_ndef_fields(unsigned char *v1, uint64_t v2, unsigned char *v3, unsigned char *v4, uint64_t v5, unsigned char *v6, unsigned char *v7);
static uint32_t nd_ndef_payload_fields(uint32_t v1, unsigned char *v2, uint64_t v3, unsigned char *v4, uint64_t v5, unsigned char *v6, uint64_t v7, unsigned char *v8);

static uint32_t nd_ndef_c_warnings_give_remark(unsigned char *v1, unsigned char *v2, uint64_t v3, unsigned char *v4) {
    uint8_t v14, v16;
    unsigned char *v19, *v27, *v35, *v43, *v51, *v59, *v72;
    uint64_t v22, v30, v38, v46, v54, v62, v69, v75;
    uint32_t v77;
    ND_ROOM(200) v5, v6, v7, v8, v9, v10, v11, v17;
    v14 = nd_load_8(((unsigned char *)((uintptr_t)v1 + 1)));
    v16 = nd_load_8(((unsigned char *)((uintptr_t)v1 + 2)));
    if (!(nd_load_8(v1) == 1)) { v77 = 4U; goto L24; }
    switch (v14) {
    case 1: goto L2;
    case 2: goto L5;
    case 3: goto L8;
    case 4: goto L11;
    case 5: goto L14;
    case 6: goto L17;
    case 0: goto L20;
    case 7: goto L20;
    case 8: goto L20;
    case 9: goto L20;
    case 10: goto L20;
    case 11: goto L20;
    case 12: goto L20;
    case 13: goto L20;
    default: goto L21; }
L2:;
    v19 = v11.b + 192;
    nd_memset((v11.b + 20), 0, 172);
    nd_memcpy(v11.b, (unsigned char *)nd_data_static_31, 20);
    nd_store_64(v19, 20ULL);
    nd_ndef_diagnostics_sentence_Sentence_push_number(v11.b, (uint64_t)v16);
    v22 = nd_load_64(v19);
    if (!((v22 + 18446744073709551485ULL) < 62ULL)) goto L4;
    nd_stop();
L4:;
    nd_memcpy(((unsigned char *)((uintptr_t)v11.b + (uintptr_t)v22)), (unsigned char *)nd_data_static_32, 62);
    nd_store_64(v19, (v22 + 62ULL));
    nd_memcpy(v5.b, v11.b, 200);
    goto L22;
L5:;
    v27 = v10.b + 192;
    nd_memset((v10.b + 11), 0, 181);
    nd_memcpy(v10.b, (unsigned char *)nd_data_static_33, 11);
    nd_store_64(v27, 11ULL);
    nd_ndef_diagnostics_sentence_Sentence_push_number(v10.b, (uint64_t)v16);
    v30 = nd_load_64(v27);
    if (!((v30 + 18446744073709551436ULL) < 13ULL)) goto L7;
    nd_stop();
L7:;
    nd_memcpy(((unsigned char *)((uintptr_t)v10.b + (uintptr_t)v30)), (unsigned char *)nd_data_static_34, 13);
    nd_store_64(v27, (v30 + 13ULL));
    nd_memcpy(v5.b, v10.b, 200);
    goto L22;
L8:;
    v35 = v9.b + 192;
    nd_memset((v9.b + 17), 0, 175);
    nd_memcpy(v9.b, (unsigned char *)nd_data_static_35, 17);
    nd_store_64(v35, 17ULL);
    nd_ndef_diagnostics_sentence_Sentence_push_number(v9.b, (uint64_t)v16);
    v38 = nd_load_64(v35);
    if (!((v38 + 18446744073709551436ULL) < 13ULL)) goto L10;
    nd_stop();
L10:;
    nd_memcpy(((unsigned char *)((uintptr_t)v9.b + (uintptr_t)v38)), (unsigned char *)nd_data_static_34, 13);
    nd_store_64(v35, (v38 + 13ULL));
    nd_memcpy(v5.b, v9.b, 200);
    goto L22;
L11:;
    v43 = v8.b + 192;
    nd_memset((v8.b + 24), 0, 168);
    nd_memcpy(v8.b, (unsigned char *)nd_data_static_36, 24);
    nd_store_64(v43, 24ULL);
    nd_ndef_diagnostics_sentence_Sentence_push_number(v8.b, (uint64_t)v16);
    v46 = nd_load_64(v43);
    if (!((v46 + 18446744073709551436ULL) < 13ULL)) goto L13;
    nd_stop();
L13:;
    nd_memcpy(((unsigned char *)((uintptr_t)v8.b + (uintptr_t)v46)), (unsigned char *)nd_data_static_34, 13);
    nd_store_64(v43, (v46 + 13ULL));
    nd_memcpy(v5.b, v8.b, 200);
    goto L22;
L14:;
    v51 = v7.b + 192;
    nd_memset((v7.b + 10), 0, 182);
    nd_memcpy(v7.b, (unsigned char *)nd_data_static_37, 10);
    nd_store_64(v51, 10ULL);
    nd_ndef_diagnostics_sentence_Sentence_push_number(v7.b, (uint64_t)v16);
    v54 = nd_load_64(v51);
    if (!((v54 + 18446744073709551473ULL) < 50ULL)) goto L16;
    nd_stop();
L16:;
    nd_memcpy(((unsigned char *)((uintptr_t)v7.b + (uintptr_t)v54)), (unsigned char *)nd_data_static_38, 50);
    nd_store_64(v51, (v54 + 50ULL));
    nd_memcpy(v5.b, v7.b, 200);
    goto L22;
L17:;
    v59 = v6.b + 192;
    nd_memset((v6.b + 19), 0, 173);
    nd_memcpy(v6.b, (unsigned char *)nd_data_static_39, 19);
    nd_store_64(v59, 19ULL);
    nd_ndef_diagnostics_sentence_Sentence_push_number(v6.b, (uint64_t)v16);
    v62 = nd_load_64(v59);
    if (!((v62 + 18446744073709551482ULL) < 59ULL)) goto L19;
    nd_stop();
L19:;
    nd_memcpy(((unsigned char *)((uintptr_t)v6.b + (uintptr_t)v62)), (unsigned char *)nd_data_static_40, 59);
    nd_store_64(v59, (v62 + 59ULL));
    nd_memcpy(v5.b, v6.b, 200);
    goto L22;
L20:;
    v69 = nd_load_64(((unsigned char *)nd_data_switch_table_ndef_c_warnings_give_remark + (ptrdiff_t)(uint64_t)v14 * 8));
    v72 = nd_load_ptr(((unsigned char *)&nd_data_switch_table_ndef_c_warnings_give_remark_1 + (ptrdiff_t)(uint64_t)v14 * 8));
    nd_memset(v5.b, 0, 192);
    nd_copy(v5.b, v72, v69);
    nd_store_64((v5.b + 192), v69);
    goto L22;
L21:;
    nd_stop();
L22:;
    nd_memcpy(v17.b, v5.b, 200);
    v75 = nd_load_64((v17.b + 192));
    nd_store_64(v4, v75);
    if (v3 < v75) { v77 = 2U; goto L24; }
    nd_copy(v2, v17.b, v75);
    v77 = 0U;
L24:;
    return v77;
}

static void nd_ndef_diagnostics_sentence_Sentence_push_number(unsigned char *v1, uint64_t v2) {
    uint64_t v5, v6, v7, v8, v24, v34, v35, v40, v42, v66, v68, v77, v78, v80;
    uint16_t v11, v12, v50, v51;
    unsigned char *v17, *v21, *v27, *v31, *v44, *v48, *v56, *v60, *v71, *v75, *v79;
    uint8_t v20, v30, v47, v59, v74;
    ND_ROOM(40) v3;
    nd_memset(v3.b, 0, 40);
    if (v2 > 9999ULL) { v5 = v2; v6 = 40ULL; goto L1; }
    v34 = 40ULL;
    v35 = v2;
    goto L2;
L1:;
    v7 = v5;
    v8 = v7 / 10000ULL;
    v11 = (uint16_t)(v7 - (v8 * 10000ULL));
    v12 = (uint16_t)(v11 / 100);
    v17 = (unsigned char *)nd_data_static_41 + (ptrdiff_t)(uint64_t)(uint16_t)((uint32_t)(uint16_t)(v11 - (uint16_t)((uint32_t)v12 * 100)) << 1);
    v20 = nd_load_8((v17 + 1));
    v21 = (unsigned char *)((uintptr_t)v3.b + (uintptr_t)v6);
    nd_store_8(((unsigned char *)((uintptr_t)v21 - 2)), nd_load_8(v17));
    nd_store_8(((unsigned char *)((uintptr_t)v21 - 1)), v20);
    v24 = v6 + 18446744073709551612ULL;
    v27 = (unsigned char *)nd_data_static_41 + (ptrdiff_t)(uint64_t)(uint16_t)((uint32_t)v12 << 1);
    v30 = nd_load_8((v27 + 1));
    v31 = v3.b + (ptrdiff_t)v24;
    nd_store_8(v31, nd_load_8(v27));
    nd_store_8(((unsigned char *)((uintptr_t)v31 + 1)), v30);
    if (v5 > 99999999ULL) { v5 = v8; v6 = v24; goto L1; }
    v34 = v24;
    v35 = v8;
L2:;
    if (!(v35 < 100ULL)) goto L6;
    if (!(v35 < 10ULL)) goto L5;
    v40 = v34 + 18446744073709551615ULL;
    nd_store_8((v3.b + (ptrdiff_t)v40), (uint8_t)((uint8_t)v35 | 48));
    v77 = v40;
    goto L9;
L5:;
    v42 = v34 + 18446744073709551614ULL;
    v44 = (unsigned char *)nd_data_static_41 + (ptrdiff_t)(v35 << 1);
    v47 = nd_load_8((v44 + 1));
    v48 = v3.b + (ptrdiff_t)v42;
    nd_store_8(v48, nd_load_8(v44));
    nd_store_8(((unsigned char *)((uintptr_t)v48 + 1)), v47);
    v77 = v42;
    goto L9;
L6:;
    v50 = (uint16_t)v35;
    v51 = (uint16_t)(v50 / 100);
    v56 = (unsigned char *)nd_data_static_41 + (ptrdiff_t)(uint64_t)(uint16_t)((uint32_t)(uint16_t)(v50 - (uint16_t)((uint32_t)v51 * 100)) << 1);
    v59 = nd_load_8((v56 + 1));
    v60 = (unsigned char *)((uintptr_t)v3.b + (uintptr_t)v34);
    nd_store_8(((unsigned char *)((uintptr_t)v60 - 2)), nd_load_8(v56));
    nd_store_8(((unsigned char *)((uintptr_t)v60 - 1)), v59);
    if (!(v35 < 1000ULL)) goto L8;
    v66 = v34 + 18446744073709551613ULL;
    nd_store_8((v3.b + (ptrdiff_t)v66), (uint8_t)((uint8_t)v51 | 48));
    v77 = v66;
    goto L9;
L8:;
    v68 = v34 + 18446744073709551612ULL;
    v71 = (unsigned char *)nd_data_static_41 + (ptrdiff_t)(uint64_t)(uint16_t)((uint32_t)v51 << 1);
    v74 = nd_load_8((v71 + 1));
    v75 = v3.b + (ptrdiff_t)v68;
    nd_store_8(v75, nd_load_8(v71));
    nd_store_8(((unsigned char *)((uintptr_t)v75 + 1)), v74);
    v77 = v68;
L9:;
    v78 = 40ULL - v77;
    v79 = (unsigned char *)((uintptr_t)v1 + 192);
    v80 = nd_load_64(v79);
    if ((192ULL - v80) < v78) goto L11;
    nd_copy(((unsigned char *)((uintptr_t)v1 + (uintptr_t)v80)), ((unsigned char *)((uintptr_t)v3.b + (uintptr_t)v77)), v78);
    nd_store_64(v79, (v80 + v78));
    return;
L11:;
    nd_stop();
}

static void nd_ndef_nest_typed_TypedRecordLanguage_start(unsigned char *v1, uint8_t v2, unsigned char *v3, uint64_t v4, uint32_t v5, uint8_t v6) {
    uint8_t v16, v21, v29, v30, v37, v59, v62, v64, v65, v68;
    uint32_t v38, v66, v67;
    uint64_t v39, v40, v49, v60, v61, v63;
    ND_ROOM(3) v7, v11;
    ND_ROOM(36) v8, v12;
    ND_ROOM(20) v9, v13;
    ND_ROOM(7) v10, v14;
    nd_memset(v11.b, 0, 3);
    nd_memset(v12.b, 0, 36);
    nd_memset(v13.b, 0, 20);
    nd_memset(v14.b, 0, 7);
    if (!(v2 == 1)) { v37 = 0; goto L21; }
    v16 = (uint8_t)v4;
    switch (v16) {
    case 0: { v37 = v16; goto L21; }
    case 1: goto L2;
    default: goto L7; }
L2:;
    switch (nd_load_8(v3)) {
    case 84: { v37 = 1; goto L21; }
    case 85: goto L3;
    case 115: goto L4;
    case 116: goto L5;
    default: goto L6; }
L3:;
    v37 = 2;
    goto L21;
L4:;
    v37 = 8;
    goto L21;
L5:;
    v37 = 9;
    goto L21;
L6:;
    v37 = 0;
    goto L21;
L7:;
    if (!(v4 < 3ULL)) goto L16;
    v21 = nd_load_8(((unsigned char *)((uintptr_t)v3 + 1)));
    switch (nd_load_8(v3)) {
    case 83: goto L9;
    case 72: goto L10;
    case 97: goto L13;
    case 99: goto L14;
    default: goto L15; }
L9:;
    if (v21 == 112) { v37 = 3; goto L21; }
    goto L15;
L10:;
    switch (v21) {
    case 114: { v37 = 4; goto L21; }
    case 115: goto L11;
    case 99: goto L12;
    default: goto L15; }
L11:;
    v37 = 5;
    goto L21;
L12:;
    v37 = 6;
    goto L21;
L13:;
    if (v21 == 99) { v37 = 10; goto L21; }
    goto L15;
L14:;
    if (v21 == 114) { v37 = 11; goto L21; }
L15:;
    v37 = 0;
    goto L21;
L16:;
    if (!(v4 == 3ULL)) { v37 = 0; goto L21; }
    v29 = nd_load_8(((unsigned char *)((uintptr_t)v3 + 1)));
    v30 = nd_load_8(((unsigned char *)((uintptr_t)v3 + 2)));
    switch (nd_load_8(v3)) {
    case 97: goto L18;
    case 101: goto L19;
    default: goto L20; }
L18:;
    if ((v29 == 99) & (int)(v30 == 116)) { v37 = 7; goto L21; }
    goto L20;
L19:;
    if ((v29 == 114) & (int)(v30 == 114)) { v37 = 12; goto L21; }
L20:;
    v37 = 0;
L21:;
    nd_memset(v7.b, 0, 3);
    nd_memset(v8.b, 0, 36);
    nd_memset(v9.b, 0, 20);
    nd_memset(v10.b, 0, 7);
    switch (v37) {
    case 3: goto L22;
    case 4: { v38 = 0U; v39 = 256ULL; v40 = 196608ULL; goto L25; }
    case 5: goto L24;
    case 0: goto L26;
    case 1: goto L26;
    case 2: goto L26;
    case 6: goto L26;
    case 7: goto L26;
    case 8: goto L26;
    case 9: goto L26;
    case 10: goto L26;
    case 11: goto L26;
    case 12: goto L26;
    default: goto L23; }
L22:;
    v38 = 1U;
    v39 = 0ULL;
    v40 = 131072ULL;
    goto L25;
L23:;
    nd_stop();
L24:;
    v38 = 0U;
    v39 = 512ULL;
    v40 = 0ULL;
L25:;
    nd_memset(v8.b, 0, 36);
    nd_memset(v10.b, 0, 7);
    v49 = (uint64_t)v5 << 32;
    v59 = 1;
    v60 = ((v39 | (uint64_t)v6) | v40) | ((uint64_t)(v5 & 255U) << 32);
    v61 = v49 & 280375465082880ULL;
    v62 = (uint8_t)(v5 >> 16);
    v63 = v49 & 18374686479671623680ULL;
    v64 = v6;
    v65 = (uint8_t)(v5 == 1U);
    v66 = 4294967295U;
    v67 = v38;
    v68 = 23;
    goto L31;
L26:;
    switch ((uint8_t)(((uint8_t)(v37 + 255) < 6) ? v37 : 0)) {
    case 1: { v59 = 0; v60 = 0ULL; v61 = 4398046511104ULL; v62 = 0; v63 = 0ULL; v64 = 0; v65 = 0; v66 = 0U; v67 = 0U; v68 = 0; goto L31; }
    case 2: goto L27;
    case 5: goto L29;
    case 4: goto L29;
    case 3: goto L29;
    case 0: goto L29;
    case 6: goto L28;
    default: goto L30; }
L27:;
    v59 = 0;
    v60 = 0ULL;
    v61 = 5497558138880ULL;
    v62 = v6;
    v63 = 0ULL;
    v64 = 0;
    v65 = 0;
    v66 = 0U;
    v67 = 0U;
    v68 = 0;
    goto L31;
L28:;
    v59 = 0;
    v60 = 1ULL;
    v61 = 7696581394432ULL;
    v62 = 0;
    v63 = 0ULL;
    v64 = 0;
    v65 = 0;
    v66 = 0U;
    v67 = 0U;
    v68 = 0;
    goto L31;
L29:;
    v59 = 0;
    v60 = 0ULL;
    v61 = 1099511627776ULL;
    v62 = 0;
    v63 = 0ULL;
    v64 = 0;
    v65 = 0;
    v66 = 0U;
    v67 = 0U;
    v68 = 0;
    goto L31;
L30:;
    nd_stop();
L31:;
    nd_memcpy(v11.b, v7.b, 3);
    nd_memcpy(v12.b, v8.b, 36);
    nd_memcpy(v13.b, v9.b, 20);
    nd_memcpy(v14.b, v10.b, 7);
    nd_store_32(v1, (uint32_t)v59);
    nd_store_32(((unsigned char *)((uintptr_t)v1 + 4)), 0U);
    nd_store_64(((unsigned char *)((uintptr_t)v1 + 8)), (v60 | ((((uint64_t)v62 << 48) | v63) | v61)));
    nd_store_8(((unsigned char *)((uintptr_t)v1 + 16)), v64);
    nd_store_8(((unsigned char *)((uintptr_t)v1 + 17)), v59);
    nd_store_8(((unsigned char *)((uintptr_t)v1 + 18)), 0);
    nd_store_8(((unsigned char *)((uintptr_t)v1 + 19)), v59);
    nd_store_8(((unsigned char *)((uintptr_t)v1 + 20)), v65);
    nd_memcpy(((unsigned char *)((uintptr_t)v1 + 21)), v11.b, 3);
    nd_store_32(((unsigned char *)((uintptr_t)v1 + 24)), v66);
    nd_memcpy(((unsigned char *)((uintptr_t)v1 + 28)), v12.b, 36);
    nd_store_32(((unsigned char *)((uintptr_t)v1 + 64)), v67);
    nd_memcpy(((unsigned char *)((uintptr_t)v1 + 68)), v13.b, 20);
    nd_store_8(((unsigned char *)((uintptr_t)v1 + 88)), v68);
    nd_memcpy(((unsigned char *)((uintptr_t)v1 + 89)), v14.b, 7);
    return;
}

static uint8_t nd_ndef_format_kind_of_two(uint8_t v1, uint8_t v2) {
    uint8_t v6;
    switch (v1) {
    case 83: goto L1;
    case 72: goto L2;
    case 97: goto L5;
    case 99: goto L6;
    default: goto L7; }
L1:;
    if (v2 == 112) { v6 = 3; goto L8; }
    goto L7;
L2:;
    switch (v2) {
    case 114: { v6 = 4; goto L8; }
    case 115: goto L3;
    case 99: goto L4;
    default: goto L7; }
L3:;
    v6 = 5;
    goto L8;
L4:;
    v6 = 6;
    goto L8;
L5:;
    if (v2 == 99) { v6 = 10; goto L8; }
    goto L7;
L6:;
    if (v2 == 114) { v6 = 11; goto L8; }
L7:;
    v6 = 0;
L8:;
    return v6;
}

static void nd_ndef_nest_nest_Nest_stepped(unsigned char *v1, unsigned char *v2, uint8_t v3) {
    unsigned char *v15, *v37, *v52, *v54, *v56, *v57, *v73, *v90, *v92, *v94, *v96, *v98, *v100, *v102, *v104, *v106, *v107, *v109, *v111, *v112, *v120, *v139, *v166;
    uint8_t v18, v38, v41, v43, v45, v47, v49, v53, v55, v58, v59, v60, v61, v66, v71, v74, v75, v76, v77, v85, v87, v91, v93, v95, v97, v101, v103, v105, v108, v110, v115, v146, v148, v151, v153, v158, v160, v162, v185, v186, v187, v188, v190, v191, v192, v193, v194, v200, v203, v204, v205, v206, v207, v209, v210, v211, v212, v213, v215;
    uint64_t v23, v129, v175;
    uint32_t v40, v51, v99, v113, v156, v163, v189, v208, v214;
    ND_ROOM(24) v4, v8;
    ND_ROOM(12) v5, v6, v7, v9, v11;
    ND_ROOM(28) v10;
    ND_ROOM(5) v12;
    ND_ROOM(48) v13;
    ND_ROOM(20) v14;
    nd_memset(v13.b, 0, 48);
    nd_memset(v14.b, 0, 20);
    v15 = (unsigned char *)((uintptr_t)v2 + 56);
    switch (nd_load_8(v15)) {
    case 0: goto L1;
    case 1: goto L2;
    case 2: goto L3;
    case 3: goto L4;
    case 4: goto L21;
    case 5: goto L55;
    case 6: goto L55;
    default: goto L57; }
L1:;
    v18 = (uint8_t)(v3 & 240) == 16;
    nd_store_32(v15, (v18 ? 1U : 6U));
    nd_memset(((unsigned char *)((uintptr_t)v2 + 60)), 0, 20);
    nd_store_8(((unsigned char *)((uintptr_t)v2 + 80)), (uint8_t)(v18 ? 23 : 21));
    nd_store_64(v13.b, 0ULL);
    goto L56;
L2:;
    v23 = nd_load_64(v2);
    nd_store_8(((unsigned char *)((uintptr_t)v2 + 8)), (uint8_t)v23);
    nd_store_8(((unsigned char *)((uintptr_t)v2 + 9)), 1);
    nd_store_8(((unsigned char *)((uintptr_t)v2 + 10)), 0);
    nd_store_8(((unsigned char *)((uintptr_t)v2 + 11)), 1);
    nd_store_8(((unsigned char *)((uintptr_t)v2 + 12)), (uint8_t)((v23 & 18446744069414584320ULL) == 4294967296ULL));
    nd_memset(((unsigned char *)((uintptr_t)v2 + 13)), 0, 3);
    nd_store_32(((unsigned char *)((uintptr_t)v2 + 16)), 4294967295U);
    nd_memset(((unsigned char *)((uintptr_t)v2 + 20)), 0, 36);
    nd_store_32(v15, 2U);
    nd_memset(((unsigned char *)((uintptr_t)v2 + 60)), 0, 20);
    nd_ndef_nest_nest_Nest_at_head(v13.b, v2, v3);
    goto L56;
L3:;
    nd_ndef_nest_nest_Nest_at_head(v13.b, v2, v3);
    goto L56;
L4:;
    v37 = (unsigned char *)((uintptr_t)v2 + 60);
    v38 = nd_load_8(v37);
    v40 = nd_load_32(((unsigned char *)((uintptr_t)v2 + 61)));
    v41 = (uint8_t)v40;
    v43 = (uint8_t)(v40 >> 8);
    v45 = (uint8_t)(v40 >> 16);
    v47 = nd_load_8(((unsigned char *)((uintptr_t)v2 + 65)));
    v49 = nd_load_8(((unsigned char *)((uintptr_t)v2 + 66)));
    v51 = nd_load_32(((unsigned char *)((uintptr_t)v2 + 68)));
    v52 = (unsigned char *)((uintptr_t)v2 + 2);
    v53 = nd_load_8(v52);
    v54 = v12.b + 1;
    v55 = (uint8_t)(v38 + 255);
    nd_store_8(v12.b, v55);
    v56 = v12.b + 2;
    v57 = v12.b + 3;
    switch (v41) {
    case 0: { v58 = 1; v59 = v3; v60 = v41; v61 = v41; goto L9; }
    case 1: goto L5;
    case 2: goto L6;
    case 3: goto L7;
    case 4: goto L7;
    default: goto L8; }
L5:;
    v58 = 2;
    v59 = v43;
    v60 = v3;
    v61 = 0;
    goto L9;
L6:;
    v58 = 3;
    v59 = v43;
    v60 = v45;
    v61 = v3;
    goto L9;
L7:;
    v58 = 4;
    v59 = 0;
    v60 = 0;
    v61 = 0;
    goto L9;
L8:;
    nd_stop();
L9:;
    nd_store_8(v54, v58);
    nd_store_8(v56, v59);
    nd_store_8(v57, v60);
    nd_store_8((v12.b + 4), v61);
    switch (v53) {
    case 2: goto L10;
    case 1: goto L11;
    case 3: goto L12;
    case 0: goto L13;
    default: goto L14; }
L10:;
    if ((v3 != 85) & (int)(uint8_t)(v47 & 1)) { v71 = 19; goto L15; }
    goto L13;
L11:;
    v66 = nd_ndef_lang_kind_KindReader_kind(v12.b);
    if (v66 == 2) { v71 = 20; goto L15; }
    goto L13;
L12:;
    if (!(v3 == (uint8_t)((v38 == 2) ? 99 : 114))) { v71 = 22; goto L15; }
L13:;
    v71 = 23;
    goto L15;
L14:;
    nd_stop();
L15:;
    nd_store_8(((unsigned char *)((uintptr_t)v2 + 80)), v71);
    nd_memset(v10.b, 0, 28);
    v73 = v11.b + 4;
    nd_store_32(v73, 0U);
    switch (v41) {
    case 0: { v74 = 1; v75 = v3; v76 = v41; v77 = v41; goto L20; }
    case 1: goto L16;
    case 2: goto L17;
    case 3: goto L18;
    case 4: goto L18;
    default: goto L19; }
L16:;
    v74 = 2;
    v75 = v43;
    v76 = v3;
    v77 = 0;
    goto L20;
L17:;
    v74 = 3;
    v75 = v43;
    v76 = v45;
    v77 = v3;
    goto L20;
L18:;
    v74 = 4;
    v75 = 0;
    v76 = 0;
    v77 = 0;
    goto L20;
L19:;
    nd_stop();
L20:;
    nd_store_8(v11.b, v55);
    nd_store_8((v11.b + 1), v74);
    nd_store_8((v11.b + 2), v75);
    nd_store_8((v11.b + 3), v76);
    nd_store_8(v73, v77);
    nd_store_8((v11.b + 5), (uint8_t)(v47 & 1));
    nd_store_8((v11.b + 6), v49);
    nd_store_32((v11.b + 8), v51);
    nd_ndef_nest_phase_Name_settled(v10.b, v11.b, v2);
    v85 = nd_load_8(v10.b);
    v87 = nd_load_8((v10.b + 4));
    nd_memcpy(v14.b, (v10.b + 8), 20);
    nd_store_8(v52, v85);
    nd_store_32(v15, (uint32_t)v87);
    nd_memcpy(v37, v14.b, 20);
    nd_store_64(v13.b, 0ULL);
    goto L56;
L21:;
    v90 = (unsigned char *)((uintptr_t)v2 + 60);
    v91 = nd_load_8(v90);
    v92 = (unsigned char *)((uintptr_t)v2 + 61);
    v93 = nd_load_8(v92);
    v94 = (unsigned char *)((uintptr_t)v2 + 62);
    v95 = nd_load_8(v94);
    v96 = (unsigned char *)((uintptr_t)v2 + 63);
    v97 = nd_load_8(v96);
    v98 = (unsigned char *)((uintptr_t)v2 + 64);
    v99 = nd_load_32(v98);
    v100 = (unsigned char *)((uintptr_t)v2 + 68);
    v101 = nd_load_8(v100);
    v102 = (unsigned char *)((uintptr_t)v2 + 69);
    v103 = nd_load_8(v102);
    v104 = (unsigned char *)((uintptr_t)v2 + 70);
    v105 = nd_load_8(v104);
    v106 = (unsigned char *)((uintptr_t)v2 + 71);
    v107 = (unsigned char *)((uintptr_t)v2 + 72);
    v108 = nd_load_8(v107);
    v109 = (unsigned char *)((uintptr_t)v2 + 73);
    v110 = nd_load_8(v109);
    v111 = (unsigned char *)((uintptr_t)v2 + 74);
    v112 = (unsigned char *)((uintptr_t)v2 + 76);
    v113 = nd_load_32(v112);
    if (v110 == 0) goto L32;
    v115 = (uint8_t)(v110 + 255);
    if (!((v113 | (uint32_t)v115) == 0U)) { v203 = 4; v204 = v91; v205 = v93; v206 = v95; v207 = v97; v208 = v99; v209 = v101; v210 = v103; v211 = v105; v212 = (uint8_t)(v108 & 1); v213 = v115; v214 = v113; v215 = 23; goto L54; }
    nd_memset(v8.b, 0, 24);
    v120 = v9.b + 8;
    nd_store_32(v120, 0U);
    nd_store_8(v9.b, v91);
    nd_store_8((v9.b + 1), v93);
    nd_store_8((v9.b + 2), v95);
    nd_store_8((v9.b + 3), v97);
    nd_store_32((v9.b + 4), v99);
    nd_store_8(v120, v101);
    nd_store_8((v9.b + 9), v103);
    nd_store_8((v9.b + 10), v105);
    nd_ndef_lang_leaf_Leaf_lengths(v8.b, v9.b);
    v129 = nd_load_64((v8.b + 8));
    switch (nd_load_8(v8.b)) {
    case 0: goto L24;
    case 1: goto L29;
    case 2: goto L25;
    case 3: goto L26;
    case 4: goto L27;
    default: goto L28; }
L24:;
    v203 = 6;
    v204 = 0;
    v205 = 0;
    v206 = 0;
    v207 = 0;
    v208 = 0U;
    v209 = 0;
    v210 = 0;
    v211 = 0;
    v212 = 0;
    v213 = 0;
    v214 = 0U;
    v215 = 23;
    goto L54;
L25:;
    if (v129 == 0ULL) goto L30;
    v203 = 6;
    v204 = 0;
    v205 = 0;
    v206 = 0;
    v207 = 0;
    v208 = 0U;
    v209 = 0;
    v210 = 0;
    v211 = 0;
    v212 = 0;
    v213 = 0;
    v214 = 0U;
    v215 = 23;
    goto L54;
L26:;
    if (v129 == 0ULL) goto L30;
    v203 = 6;
    v204 = 0;
    v205 = 0;
    v206 = 0;
    v207 = 0;
    v208 = 0U;
    v209 = 0;
    v210 = 0;
    v211 = 0;
    v212 = 0;
    v213 = 0;
    v214 = 0U;
    v215 = 23;
    goto L54;
L27:;
    if (v129 == 0ULL) goto L30;
    v203 = 6;
    v204 = 0;
    v205 = 0;
    v206 = 0;
    v207 = 0;
    v208 = 0U;
    v209 = 0;
    v210 = 0;
    v211 = 0;
    v212 = 0;
    v213 = 0;
    v214 = 0U;
    v215 = 23;
    goto L54;
L28:;
    nd_stop();
L29:;
    if (!(v129 == 0ULL)) { v203 = 6; v204 = 0; v205 = 0; v206 = 0; v207 = 0; v208 = 0U; v209 = 0; v210 = 0; v211 = 0; v212 = 0; v213 = 0; v214 = 0U; v215 = 23; goto L54; }
L30:;
    if (!(uint8_t)(v108 & 1)) { v203 = 2; v204 = 0; v205 = 0; v206 = 0; v207 = 0; v208 = 0U; v209 = 0; v210 = 0; v211 = 0; v212 = 0; v213 = 0; v214 = 0U; v215 = 23; goto L54; }
    v203 = (uint8_t)((nd_load_8(((unsigned char *)((uintptr_t)v2 + 2))) < 2) ? 5 : 6);
    v204 = 0;
    v205 = 0;
    v206 = 0;
    v207 = 0;
    v208 = 0U;
    v209 = 0;
    v210 = 0;
    v211 = 0;
    v212 = 0;
    v213 = 0;
    v214 = 0U;
    v215 = 23;
    goto L54;
L32:;
    nd_memset(v6.b, 0, 12);
    v139 = v7.b + 8;
    nd_store_32(v139, 0U);
    nd_store_8(v7.b, v91);
    nd_store_8((v7.b + 1), v93);
    nd_store_8((v7.b + 2), v95);
    nd_store_8((v7.b + 3), v97);
    nd_store_32((v7.b + 4), v99);
    nd_store_8(v139, v101);
    nd_store_8((v7.b + 9), v103);
    nd_store_8((v7.b + 10), v105);
    nd_ndef_lang_leaf_Leaf_after(v6.b, v7.b, v3);
    v146 = nd_load_8(v6.b);
    v148 = nd_load_8((v6.b + 1));
    v151 = nd_load_8((v6.b + 2));
    v153 = nd_load_8((v6.b + 3));
    v156 = nd_load_32((v6.b + 4));
    v158 = nd_load_8((v6.b + 8));
    v160 = nd_load_8((v6.b + 9));
    v162 = nd_load_8((v6.b + 10));
    v163 = v113 + 4294967295U;
    if (!(v163 == 0U)) { v185 = v146; v186 = v148; v187 = v151; v188 = v153; v189 = v156; v190 = v158; v191 = v160; v192 = v162; v193 = (uint8_t)(v108 & 1); v194 = 4; goto L42; }
    nd_memset(v4.b, 0, 24);
    v166 = v5.b + 8;
    nd_store_32(v166, 0U);
    nd_store_8(v5.b, v146);
    nd_store_8((v5.b + 1), v148);
    nd_store_8((v5.b + 2), v151);
    nd_store_8((v5.b + 3), v153);
    nd_store_32((v5.b + 4), v156);
    nd_store_8(v166, v158);
    nd_store_8((v5.b + 9), v160);
    nd_store_8((v5.b + 10), v162);
    nd_ndef_lang_leaf_Leaf_lengths(v4.b, v5.b);
    v175 = nd_load_64((v4.b + 8));
    switch (nd_load_8(v4.b)) {
    case 0: goto L34;
    case 1: goto L39;
    case 2: goto L35;
    case 3: goto L36;
    case 4: goto L37;
    default: goto L38; }
L34:;
    v185 = 0;
    v186 = 0;
    v187 = 0;
    v188 = 0;
    v189 = 0U;
    v190 = 0;
    v191 = 0;
    v192 = 0;
    v193 = 0;
    v194 = 6;
    goto L42;
L35:;
    if (v175 == 0ULL) goto L40;
    v185 = 0;
    v186 = 0;
    v187 = 0;
    v188 = 0;
    v189 = 0U;
    v190 = 0;
    v191 = 0;
    v192 = 0;
    v193 = 0;
    v194 = 6;
    goto L42;
L36:;
    if (v175 == 0ULL) goto L40;
    v185 = 0;
    v186 = 0;
    v187 = 0;
    v188 = 0;
    v189 = 0U;
    v190 = 0;
    v191 = 0;
    v192 = 0;
    v193 = 0;
    v194 = 6;
    goto L42;
L37:;
    if (v175 == 0ULL) goto L40;
    v185 = 0;
    v186 = 0;
    v187 = 0;
    v188 = 0;
    v189 = 0U;
    v190 = 0;
    v191 = 0;
    v192 = 0;
    v193 = 0;
    v194 = 6;
    goto L42;
L38:;
    nd_stop();
L39:;
    if (!(v175 == 0ULL)) { v185 = 0; v186 = 0; v187 = 0; v188 = 0; v189 = 0U; v190 = 0; v191 = 0; v192 = 0; v193 = 0; v194 = 6; goto L42; }
L40:;
    if (!(uint8_t)(v108 & 1)) { v185 = 0; v186 = 0; v187 = 0; v188 = 0; v189 = 0U; v190 = 0; v191 = 0; v192 = 0; v193 = 0; v194 = 2; goto L42; }
    v185 = 0;
    v186 = 0;
    v187 = 0;
    v188 = 0;
    v189 = 0U;
    v190 = 0;
    v191 = 0;
    v192 = 0;
    v193 = 0;
    v194 = (uint8_t)((nd_load_8(((unsigned char *)((uintptr_t)v2 + 2))) < 2) ? 5 : 6);
L42:;
    switch (v146) {
    case 0: { v203 = v194; v204 = v185; v205 = v186; v206 = v187; v207 = v188; v208 = v189; v209 = v190; v210 = v191; v211 = v192; v212 = v193; v213 = v146; v214 = v163; v215 = 23; goto L54; }
    case 1: goto L43;
    case 2: goto L44;
    case 3: goto L52;
    default: goto L53; }
L43:;
    v203 = v194;
    v204 = v185;
    v205 = v186;
    v206 = v187;
    v207 = v188;
    v208 = v189;
    v209 = v190;
    v210 = v191;
    v211 = v192;
    v212 = v193;
    v213 = 0;
    v214 = v163;
    v215 = (uint8_t)((v148 == 8) ? 16 : 23);
    goto L54;
L44:;
    switch (v148) {
    case 0: { v203 = v194; v204 = v185; v205 = v186; v206 = v187; v207 = v188; v208 = v189; v209 = v190; v210 = v191; v211 = v192; v212 = v193; v213 = 0; v214 = v163; v215 = 23; goto L54; }
    case 2: { v203 = v194; v204 = v185; v205 = v186; v206 = v187; v207 = v188; v208 = v189; v209 = v190; v210 = v191; v211 = v192; v212 = v193; v213 = 0; v214 = v163; v215 = 23; goto L54; }
    case 1: goto L50;
    case 3: goto L45;
    case 4: goto L51;
    default: goto L49; }
L45:;
    if ((uint8_t)(v151 & 1)) { v203 = v194; v204 = v185; v205 = v186; v206 = v187; v207 = v188; v208 = v189; v209 = v190; v210 = v191; v211 = v192; v212 = v193; v213 = 0; v214 = v163; v215 = 23; goto L54; }
    v200 = (v156 & 252U) == 220U;
    if (!(uint8_t)(v153 & 1)) goto L48;
    if (v200) { v203 = v194; v204 = v185; v205 = v186; v206 = v187; v207 = v188; v208 = v189; v209 = v190; v210 = v191; v211 = v192; v212 = v193; v213 = 0; v214 = v163; v215 = 23; goto L54; }
    goto L51;
L48:;
    if (v200) goto L51;
    v203 = v194;
    v204 = v185;
    v205 = v186;
    v206 = v187;
    v207 = v188;
    v208 = v189;
    v209 = v190;
    v210 = v191;
    v211 = v192;
    v212 = v193;
    v213 = 0;
    v214 = v163;
    v215 = 23;
    goto L54;
L49:;
    nd_stop();
L50:;
    if (!((uint8_t)(v151 & 252) == 220)) { v203 = v194; v204 = v185; v205 = v186; v206 = v187; v207 = v188; v208 = v189; v209 = v190; v210 = v191; v211 = v192; v212 = v193; v213 = 0; v214 = v163; v215 = 23; goto L54; }
L51:;
    v203 = v194;
    v204 = v185;
    v205 = v186;
    v206 = v187;
    v207 = v188;
    v208 = v189;
    v209 = v190;
    v210 = v191;
    v211 = v192;
    v212 = v193;
    v213 = 0;
    v214 = v163;
    v215 = 17;
    goto L54;
L52:;
    v203 = v194;
    v204 = v185;
    v205 = v186;
    v206 = v187;
    v207 = v188;
    v208 = v189;
    v209 = v190;
    v210 = v191;
    v211 = v192;
    v212 = v193;
    v213 = 0;
    v214 = v163;
    v215 = v148;
    goto L54;
L53:;
    nd_stop();
L54:;
    nd_store_32(v15, (uint32_t)v203);
    nd_store_8(v90, v204);
    nd_store_8(v92, v205);
    nd_store_8(v94, v206);
    nd_store_8(v96, v207);
    nd_store_32(v98, v208);
    nd_store_8(v100, v209);
    nd_store_8(v102, v210);
    nd_store_8(v104, v211);
    nd_store_8(v106, 0);
    nd_store_8(v107, v212);
    nd_store_8(v109, v213);
    nd_store_16(v111, 0);
    nd_store_32(v112, v214);
    nd_store_8(((unsigned char *)((uintptr_t)v2 + 80)), v215);
    nd_store_64(v13.b, 0ULL);
    goto L56;
L55:;
    nd_store_32(v15, 6U);
    nd_memset(((unsigned char *)((uintptr_t)v2 + 60)), 0, 20);
    nd_store_8(((unsigned char *)((uintptr_t)v2 + 80)), 23);
L56:;
    nd_store_64(v1, (uint64_t)nd_load_8(v13.b));
    nd_memcpy(((unsigned char *)((uintptr_t)v1 + 8)), (v13.b + 8), 40);
    return;
L57:;
    nd_stop();
}

static void nd_ndef_nest_nest_Nest_at_head(unsigned char *v1, unsigned char *v2, uint8_t v3) {
    unsigned char *v10, *v51;
    uint8_t v12, v15, v17, v19, v35, v40, v42, v44, v46, v48, v78, v80, v88;
    uint32_t v50;
    uint64_t v54, v89, v104;
    ND_ROOM(28) v4;
    ND_ROOM(12) v5;
    ND_ROOM(48) v6;
    ND_ROOM(16) v7;
    ND_ROOM(40) v8;
    ND_ROOM(20) v9;
    nd_memset(v6.b, 0, 48);
    nd_memset(v7.b, 0, 16);
    nd_memset(v8.b, 0, 40);
    v10 = (unsigned char *)((uintptr_t)v2 + 8);
    nd_ndef_piece_head_reader_HeadReader_step(v7.b, v10, v3);
    switch (nd_load_8(v7.b)) {
    case 0: goto L1;
    case 1: goto L10;
    case 2: goto L11;
    default: goto L13; }
L1:;
    nd_ndef_piece_head_reader_HeadReader_bounds(v6.b, v10);
    v12 = nd_load_8(v6.b);
    if (!(v12 == 1)) goto L9;
    v15 = nd_load_8((v6.b + 10));
    v17 = nd_load_8((v6.b + 24));
    v19 = nd_load_8((v6.b + 25));
    switch (nd_load_8(((unsigned char *)((uintptr_t)v2 + 2)))) {
    case 2: goto L3;
    case 3: goto L5;
    case 0: goto L6;
    case 1: goto L6;
    default: goto L7; }
L3:;
    if (!(uint8_t)(nd_load_8((v6.b + 8)) & 1)) goto L6;
    if ((uint8_t)((uint8_t)((v15 != 1) ? 1 : (v17 > 1)) ? 1 : (v19 == 0))) { v35 = 19; goto L8; }
    goto L6;
L5:;
    if (!(uint8_t)((uint8_t)((v15 == 1) ? (v17 < 3) : 0) ? (v19 > 1) : 0)) { v35 = 22; goto L8; }
L6:;
    v35 = 23;
    goto L8;
L7:;
    nd_stop();
L8:;
    nd_store_8(((unsigned char *)((uintptr_t)v2 + 80)), v35);
L9:;
    nd_memcpy(v8.b, (v6.b + 8), 40);
    v104 = (uint64_t)v12;
    goto L12;
L10:;
    v40 = nd_load_8((v7.b + 5));
    v42 = nd_load_8((v7.b + 8));
    v44 = nd_load_8((v7.b + 9));
    v46 = nd_load_8((v7.b + 10));
    v48 = nd_load_8((v7.b + 11));
    v50 = nd_load_32((v7.b + 12));
    v51 = (unsigned char *)((uintptr_t)v2 + 4);
    nd_store_32(v51, (nd_load_32(v51) + 4294967295U));
    v54 = nd_load_64(v2);
    nd_store_8(v10, (uint8_t)v54);
    nd_store_8(((unsigned char *)((uintptr_t)v2 + 9)), 0);
    nd_store_8(((unsigned char *)((uintptr_t)v2 + 10)), 0);
    nd_store_8(((unsigned char *)((uintptr_t)v2 + 11)), 1);
    nd_store_8(((unsigned char *)((uintptr_t)v2 + 12)), (uint8_t)((v54 & 18446744069414584320ULL) == 4294967296ULL));
    nd_memset(((unsigned char *)((uintptr_t)v2 + 13)), 0, 3);
    nd_store_32(((unsigned char *)((uintptr_t)v2 + 16)), 4294967295U);
    nd_memset(((unsigned char *)((uintptr_t)v2 + 20)), 0, 36);
    nd_memset(v4.b, 0, 28);
    nd_store_8(v5.b, v44);
    nd_store_8((v5.b + 1), (uint8_t)((v42 == 1) ? 0 : 4));
    nd_store_8((v5.b + 2), 0);
    nd_store_8((v5.b + 3), 0);
    nd_store_8((v5.b + 4), 0);
    nd_store_8((v5.b + 5), v40);
    nd_store_8((v5.b + 6), (uint8_t)((v46 == 1) ? v48 : 0));
    nd_store_8((v5.b + 7), 0);
    nd_store_32((v5.b + 8), v50);
    nd_ndef_nest_phase_Name_settled(v4.b, v5.b, v2);
    v78 = nd_load_8(v4.b);
    v80 = nd_load_8((v4.b + 4));
    nd_memcpy(v9.b, (v4.b + 8), 20);
    nd_store_8(((unsigned char *)((uintptr_t)v2 + 2)), v78);
    nd_store_32(((unsigned char *)((uintptr_t)v2 + 56)), (uint32_t)v80);
    nd_memcpy(((unsigned char *)((uintptr_t)v2 + 60)), v9.b, 20);
    nd_store_8(((unsigned char *)((uintptr_t)v2 + 80)), 23);
    v104 = 0ULL;
    goto L12;
L11:;
    v88 = nd_load_8((v7.b + 1));
    v89 = nd_load_64(v2);
    nd_store_8(v10, (uint8_t)v89);
    nd_store_8(((unsigned char *)((uintptr_t)v2 + 9)), 0);
    nd_store_8(((unsigned char *)((uintptr_t)v2 + 10)), 0);
    nd_store_8(((unsigned char *)((uintptr_t)v2 + 11)), 1);
    nd_store_8(((unsigned char *)((uintptr_t)v2 + 12)), (uint8_t)((v89 & 18446744069414584320ULL) == 4294967296ULL));
    nd_memset(((unsigned char *)((uintptr_t)v2 + 13)), 0, 3);
    nd_store_32(((unsigned char *)((uintptr_t)v2 + 16)), 4294967295U);
    nd_memset(((unsigned char *)((uintptr_t)v2 + 20)), 0, 36);
    nd_store_32(((unsigned char *)((uintptr_t)v2 + 56)), 6U);
    nd_memset(((unsigned char *)((uintptr_t)v2 + 60)), 0, 20);
    nd_store_8(((unsigned char *)((uintptr_t)v2 + 80)), v88);
    v104 = 0ULL;
L12:;
    nd_store_64(v1, v104);
    nd_memcpy(((unsigned char *)((uintptr_t)v1 + 8)), v8.b, 40);
    return;
L13:;
    nd_stop();
}

static void nd_ndef_piece_head_reader_HeadReader_step(unsigned char *v1, unsigned char *v2, uint8_t v3) {
    unsigned char *v5, *v8, *v9, *v58, *v126, *v145, *v146, *v207, *v221;
    uint8_t v6, v11, v12, v14, v16, v23, v28, v29, v30, v48, v50, v60, v62, v65, v109, v117, v118, v119, v179, v181, v187, v188, v195, v196, v197, v198, v199, v200, v201, v202, v203, v204, v222, v223;
    uint64_t v10, v128, v129;
    uint32_t v69, v77, v88, v104, v111, v113, v132, v143, v157, v173, v174, v205;
    ND_ROOM(14) v4;
    nd_memset(v4.b, 0, 14);
    v5 = (unsigned char *)((uintptr_t)v2 + 32);
    v6 = nd_load_8(v5);
    if (!(v6 == 0)) goto L41;
    v8 = (unsigned char *)((uintptr_t)v2 + 12);
    v9 = (unsigned char *)((uintptr_t)v2 + 24);
    v10 = nd_load_64(v9);
    switch (v10) {
    case 0ULL: goto L2;
    case 1ULL: goto L15;
    default: goto L18; }
L2:;
    v11 = (uint8_t)(v3 & 7);
    v12 = (int8_t)v3 > (int8_t)255;
    v14 = (uint8_t)(v3 & 64) == 0;
    v16 = (uint8_t)(v3 & 32) == 0;
    if ((v11 == 7) & (int)(nd_load_8(v2) == 0)) { v109 = 0; goto L27; }
    v23 = (uint8_t)(nd_load_8(((unsigned char *)((uintptr_t)v2 + 1))) & 1);
    if (v12 & v23) { v109 = 1; goto L27; }
    if (!(v12 | v23)) { v109 = 2; goto L27; }
    v28 = (uint8_t)(nd_load_8(((unsigned char *)((uintptr_t)v2 + 2))) & 1);
    v29 = v28 ^ 1;
    v30 = v11 == 6;
    if (v30 & v29) { v109 = 3; goto L27; }
    if (!(v30 | v29)) { v109 = 4; goto L27; }
    if (((uint8_t)(v3 & 8) != 0) & v28) { v109 = 5; goto L27; }
    if ((uint8_t)(v3 & 96) == 96) { v109 = 6; goto L27; }
    if (!(((uint8_t)(v3 & 39) != 32) | v28)) { v109 = 7; goto L27; }
    if (v16) goto L12;
    if ((uint8_t)(nd_load_8(((unsigned char *)((uintptr_t)v2 + 3))) & 1)) { v109 = 8; goto L27; }
    goto L14;
L12:;
    if (!v14) goto L14;
    if ((uint8_t)(nd_load_8(((unsigned char *)((uintptr_t)v2 + 4))) & 1)) { v109 = 9; goto L27; }
L14:;
    nd_store_8(v8, v3);
    goto L29;
L15:;
    v48 = (uint8_t)(nd_load_8(v8) & 7);
    v50 = v3 == 0;
    if (!(v50 | (int)(v48 < 5))) { v109 = 10; goto L27; }
    if (v50 & (int)((uint8_t)(v48 + 255) < 4)) { v109 = 11; goto L27; }
    nd_store_8(((unsigned char *)((uintptr_t)v2 + 13)), v3);
    if (v50 | (int)(v48 != 0)) goto L29;
    v195 = 2;
    v196 = 12;
    v197 = 0;
    v198 = 0;
    v199 = 0;
    v200 = 0;
    v201 = 0;
    v202 = 0;
    v203 = 0;
    v204 = 0;
    v205 = 0U;
    goto L40;
L18:;
    v58 = (unsigned char *)((uintptr_t)v2 + 14);
    v60 = nd_load_8(v8);
    v62 = (uint8_t)(v60 & 16) == 0;
    v65 = (uint8_t)(v60 & 7);
    if (!((v10 + 18446744073709551614ULL) < (v62 ? 4ULL : 1ULL))) goto L26;
    if (!((v3 == 0) | (int)(v65 != 0))) { v109 = 12; goto L27; }
    switch (v10) {
    case 2ULL: goto L21;
    case 3ULL: goto L22;
    case 5ULL: goto L25;
    case 4ULL: goto L24;
    default: goto L23; }
L21:;
    v69 = (uint32_t)v3;
    v111 = v62 ? (v69 << 24) : v69;
    goto L28;
L22:;
    v77 = nd_bswap_i32((((uint32_t)v3 << 8) | (uint32_t)nd_load_8(v58)));
    v111 = v77;
    goto L28;
L23:;
    nd_stop();
L24:;
    v88 = nd_bswap_i32(((((uint32_t)nd_load_8(((unsigned char *)((uintptr_t)v2 + 15))) << 8) | ((uint32_t)v3 << 16)) | (uint32_t)nd_load_8(v58)));
    v111 = v88;
    goto L28;
L25:;
    v104 = nd_bswap_i32((((((uint32_t)nd_load_8(((unsigned char *)((uintptr_t)v2 + 16))) << 16) | ((uint32_t)v3 << 24)) | ((uint32_t)nd_load_8(((unsigned char *)((uintptr_t)v2 + 15))) << 8)) | (uint32_t)nd_load_8(v58)));
    v111 = v104;
    goto L28;
L26:;
    nd_store_8((v8 + (ptrdiff_t)v10), v3);
    if ((v3 != 0) & (int)(v65 == 0)) { v195 = 2; v196 = 12; v197 = 0; v198 = 0; v199 = 0; v200 = 0; v201 = 0; v202 = 0; v203 = 0; v204 = 0; v205 = 0U; goto L40; }
    goto L29;
L27:;
    nd_store_8((v8 + (ptrdiff_t)v10), v3);
    v195 = 2;
    v196 = v109;
    v197 = 0;
    v198 = 0;
    v199 = 0;
    v200 = 0;
    v201 = 0;
    v202 = 0;
    v203 = 0;
    v204 = 0;
    v205 = 0U;
    goto L40;
L28:;
    v113 = nd_load_32(((unsigned char *)((uintptr_t)v2 + 8)));
    nd_store_8((v8 + (ptrdiff_t)v10), v3);
    if (v113 < v111) { v195 = 2; v196 = 13; v197 = 0; v198 = 0; v199 = 0; v200 = 0; v201 = 0; v202 = 0; v203 = 0; v204 = 0; v205 = 0U; goto L40; }
L29:;
    v117 = nd_load_8(v8);
    v118 = (uint8_t)(v117 & 16);
    v119 = v118 == 0;
    if (!((v10 + 1ULL) == ((v119 ? 6ULL : 3ULL) + (uint64_t)(uint8_t)((uint8_t)(v117 >> 3) & 1)))) { v195 = 0; v196 = 0; v197 = 0; v198 = 0; v199 = 0; v200 = 0; v201 = 0; v202 = 0; v203 = 0; v204 = 0; v205 = 0U; goto L40; }
    v126 = (unsigned char *)((uintptr_t)v2 + 14);
    v128 = v119 ? 4ULL : 1ULL;
    v129 = nd_umin_i64((v10 + 18446744073709551615ULL), v128);
    if (!(v129 == 1ULL)) goto L32;
    v132 = (uint32_t)nd_load_8(v126);
    v174 = v119 ? (v132 << 24) : v132;
    goto L37;
L32:;
    if (!(v129 < 3ULL)) goto L34;
    v143 = nd_bswap_i32((((uint32_t)nd_load_8(((unsigned char *)((uintptr_t)v2 + 15))) << 8) | (uint32_t)nd_load_8(v126)));
    v174 = v143;
    goto L37;
L34:;
    v145 = (unsigned char *)((uintptr_t)v2 + 15);
    v146 = (unsigned char *)((uintptr_t)v2 + 16);
    if (!(v129 == 3ULL)) goto L36;
    v157 = nd_bswap_i32(((((uint32_t)nd_load_8(v145) << 8) | (uint32_t)nd_load_8(v126)) | ((uint32_t)nd_load_8(v146) << 16)));
    v174 = v157;
    goto L37;
L36:;
    v173 = nd_bswap_i32((((((uint32_t)nd_load_8(v145) << 8) | (uint32_t)nd_load_8(v126)) | ((uint32_t)nd_load_8(v146) << 16)) | ((uint32_t)nd_load_8(((unsigned char *)((uintptr_t)v2 + 17))) << 24)));
    v174 = v173;
L37:;
    v179 = (uint8_t)(361982334838374656ULL >> ((uint64_t)(uint8_t)((uint8_t)((uint32_t)v117 << 3) & 56) & 63));
    v181 = nd_load_8(((unsigned char *)((uintptr_t)v2 + 13)));
    if ((uint8_t)(v117 & 8) == 0) { v187 = 0; v188 = 0; goto L39; }
    v187 = 1;
    v188 = nd_load_8(((v8 + (ptrdiff_t)v128) + 2));
L39:;
    v195 = 1;
    v196 = 0;
    v197 = (uint8_t)(v117 >> 7);
    v198 = (uint8_t)((uint8_t)(v117 >> 6) & 1);
    v199 = (uint8_t)((uint8_t)(v117 >> 5) & 1);
    v200 = (uint8_t)(v118 >> 4);
    v201 = v179;
    v202 = v181;
    v203 = v187;
    v204 = v188;
    v205 = v174;
L40:;
    nd_store_8(v5, v195);
    nd_store_8(((unsigned char *)((uintptr_t)v2 + 33)), v196);
    v207 = (unsigned char *)((uintptr_t)v2 + 36);
    nd_store_8(v207, v197);
    nd_store_8(((unsigned char *)((uintptr_t)v2 + 37)), v198);
    nd_store_8(((unsigned char *)((uintptr_t)v2 + 38)), v199);
    nd_store_8(((unsigned char *)((uintptr_t)v2 + 39)), v200);
    nd_store_8(((unsigned char *)((uintptr_t)v2 + 40)), v201);
    nd_store_8(((unsigned char *)((uintptr_t)v2 + 41)), v202);
    nd_store_8(((unsigned char *)((uintptr_t)v2 + 42)), v203);
    nd_store_8(((unsigned char *)((uintptr_t)v2 + 43)), v204);
    nd_store_32(((unsigned char *)((uintptr_t)v2 + 44)), v205);
    nd_store_64(v9, (nd_load_64(v9) + 1ULL));
    v221 = v207;
    v222 = v195;
    v223 = v196;
    goto L42;
L41:;
    v221 = (unsigned char *)((uintptr_t)v2 + 36);
    v222 = v6;
    v223 = nd_load_8(((unsigned char *)((uintptr_t)v2 + 33)));
L42:;
    nd_memcpy((v4.b + 2), v221, 12);
    nd_store_8(v1, v222);
    nd_store_8(((unsigned char *)((uintptr_t)v1 + 1)), v223);
    nd_memcpy(((unsigned char *)((uintptr_t)v1 + 4)), (v4.b + 2), 12);
    return;
}

static void nd_ndef_piece_head_reader_HeadReader_bounds(unsigned char *v1, unsigned char *v2) {
    uint64_t v7, v21, v77, v78, v89, v104, v108, v112, v113, v130, v131, v135, v140, v141;
    uint32_t v9, v24, v27, v35, v36, v38, v51, v52, v54, v70, v71, v72, v73, v74, v75;
    uint8_t v12, v13, v15, v16, v76, v80, v82, v92, v96, v97, v98, v105, v106, v107, v109, v110, v111, v121, v129, v132, v133, v134, v136, v137, v138, v139;
    unsigned char *v18, *v40, *v41;
    ND_ROOM(5) v3;
    nd_memset(v3.b, 0, 5);
    switch (nd_load_8(((unsigned char *)((uintptr_t)v2 + 32)))) {
    case 0: goto L1;
    case 1: goto L20;
    case 2: { v131 = 0ULL; v132 = 0; v133 = 0; v134 = 0; v135 = 0ULL; v136 = 0; v137 = 0; v138 = 0; v139 = 0; v140 = 0ULL; v141 = 0ULL; goto L21; }
    default: goto L22; }
L1:;
    v7 = nd_load_64(((unsigned char *)((uintptr_t)v2 + 24)));
    v9 = nd_load_32(((unsigned char *)((uintptr_t)v2 + 8)));
    if (v7 == 0ULL) { v104 = 0ULL; v105 = 0; v106 = 0; v107 = 0; v108 = 0ULL; v109 = 0; v110 = 0; v111 = 0; v112 = 0ULL; v113 = 0ULL; goto L19; }
    v12 = nd_load_8(((unsigned char *)((uintptr_t)v2 + 12)));
    v13 = (uint8_t)(v12 & 7);
    v15 = (uint8_t)(v12 & 16);
    if (v13 == 0) { v74 = 0U; v75 = 0U; v76 = 0; goto L15; }
    v16 = v15 == 0;
    if (v7 == 1ULL) goto L5;
    v18 = (unsigned char *)((uintptr_t)v2 + 14);
    v21 = nd_umin_i64((v7 + 18446744073709551614ULL), (v16 ? 4ULL : 1ULL));
    switch (v21) {
    case 0ULL: goto L5;
    case 1ULL: goto L6;
    default: goto L8; }
L5:;
    v71 = v16 ? 4294967295U : 255U;
    v72 = 0U;
    goto L13;
L6:;
    v24 = (uint32_t)nd_load_8(v18);
    if (!v16) { v71 = v24; v72 = v24; goto L13; }
    v27 = nd_bswap_i32((v24 | 4294967040U));
    v71 = v27;
    v72 = v24 << 24;
    goto L13;
L8:;
    if (!(v21 < 3ULL)) goto L10;
    v35 = ((uint32_t)nd_load_8(((unsigned char *)((uintptr_t)v2 + 15))) << 8) | (uint32_t)nd_load_8(v18);
    v36 = nd_bswap_i32(v35);
    v38 = nd_bswap_i32((v35 | 4294901760U));
    v71 = v38;
    v72 = v36;
    goto L13;
L10:;
    v40 = (unsigned char *)((uintptr_t)v2 + 15);
    v41 = (unsigned char *)((uintptr_t)v2 + 16);
    if (!(v21 == 3ULL)) goto L12;
    v51 = (((uint32_t)nd_load_8(v40) << 8) | (uint32_t)nd_load_8(v18)) | ((uint32_t)nd_load_8(v41) << 16);
    v52 = nd_bswap_i32(v51);
    v54 = nd_bswap_i32((v51 | 4278190080U));
    v71 = v54;
    v72 = v52;
    goto L13;
L12:;
    v70 = nd_bswap_i32((((((uint32_t)nd_load_8(v40) << 8) | (uint32_t)nd_load_8(v18)) | ((uint32_t)nd_load_8(v41) << 16)) | ((uint32_t)nd_load_8(((unsigned char *)((uintptr_t)v2 + 17))) << 24)));
    v71 = v70;
    v72 = v70;
L13:;
    v73 = nd_umin_i32(v9, v71);
    switch (v13) {
    case 6: { v74 = v72; v75 = v73; v76 = v13; goto L15; }
    case 1: { v74 = v72; v75 = v73; v76 = v13; goto L15; }
    case 2: { v74 = v72; v75 = v73; v76 = v13; goto L15; }
    case 3: { v74 = v72; v75 = v73; v76 = v13; goto L15; }
    case 4: { v74 = v72; v75 = v73; v76 = v13; goto L15; }
    default: goto L14; }
L14:;
    v74 = v72;
    v75 = v73;
    v76 = 5;
L15:;
    v77 = (uint64_t)v75;
    v78 = (uint64_t)v74;
    v80 = (uint8_t)((uint8_t)(v12 >> 6) & 1);
    v82 = (uint8_t)((uint8_t)(v12 >> 5) & 1);
    v89 = ((uint64_t)(uint8_t)((uint8_t)(v12 >> 3) & 1) - v7) + ((v15 == 0) ? 6ULL : 3ULL);
    if (!(v7 == 1ULL)) goto L17;
    v92 = (uint8_t)(v13 + 255) < 4;
    v97 = (uint8_t)v92;
    v98 = (uint8_t)(0 - (uint64_t)v92);
    goto L18;
L17:;
    v96 = nd_load_8(((unsigned char *)((uintptr_t)v2 + 13)));
    v97 = v96;
    v98 = v96;
L18:;
    v104 = 1ULL;
    v105 = v80;
    v106 = v82;
    v107 = v76;
    v108 = v89;
    v109 = v97;
    v110 = v98;
    v111 = (uint8_t)(0 - (uint64_t)((v13 != 0) & (int)((uint8_t)(v12 & 8) != 0)));
    v112 = v77;
    v113 = v78;
L19:;
    nd_memset(v3.b, 0, 5);
    v131 = v104;
    v132 = v105;
    v133 = v106;
    v134 = v107;
    v135 = v108;
    v136 = v109;
    v137 = v110;
    v138 = 0;
    v139 = v111;
    v140 = v113;
    v141 = v112;
    goto L21;
L20:;
    v121 = nd_load_8(((unsigned char *)((uintptr_t)v2 + 41)));
    v129 = (uint8_t)((nd_load_8(((unsigned char *)((uintptr_t)v2 + 42))) == 1) ? nd_load_8(((unsigned char *)((uintptr_t)v2 + 43))) : 0);
    v130 = (uint64_t)nd_load_32(((unsigned char *)((uintptr_t)v2 + 44)));
    v131 = 1ULL;
    v132 = nd_load_8(((unsigned char *)((uintptr_t)v2 + 37)));
    v133 = nd_load_8(((unsigned char *)((uintptr_t)v2 + 38)));
    v134 = nd_load_8(((unsigned char *)((uintptr_t)v2 + 40)));
    v135 = 0ULL;
    v136 = v121;
    v137 = v121;
    v138 = v129;
    v139 = v129;
    v140 = v130;
    v141 = v130;
L21:;
    nd_store_64(v1, v131);
    nd_store_8(((unsigned char *)((uintptr_t)v1 + 8)), v132);
    nd_store_8(((unsigned char *)((uintptr_t)v1 + 9)), v133);
    nd_store_8(((unsigned char *)((uintptr_t)v1 + 10)), v134);
    nd_memcpy(((unsigned char *)((uintptr_t)v1 + 11)), v3.b, 5);
    nd_store_64(((unsigned char *)((uintptr_t)v1 + 16)), v135);
    nd_store_8(((unsigned char *)((uintptr_t)v1 + 24)), v136);
    nd_store_8(((unsigned char *)((uintptr_t)v1 + 25)), v137);
    nd_store_8(((unsigned char *)((uintptr_t)v1 + 26)), v138);
    nd_store_8(((unsigned char *)((uintptr_t)v1 + 27)), v139);
    nd_store_32(((unsigned char *)((uintptr_t)v1 + 28)), 0U);
    nd_store_64(((unsigned char *)((uintptr_t)v1 + 32)), v140);
    nd_store_64(((unsigned char *)((uintptr_t)v1 + 40)), v141);
    return;
L22:;
    nd_stop();
}

static void nd_ndef_nest_phase_Name_settled(unsigned char *v1, unsigned char *v2, unsigned char *v3) {
    uint8_t v11, v16, v17, v22;
    ND_ROOM(28) v4;
    ND_ROOM(12) v5, v6, v7;
    nd_memset(v4.b, 0, 28);
    nd_memcpy(v5.b, v2, 12);
    if (nd_load_8(v5.b) == 0) goto L3;
    goto L2;
L1:;
    return;
L2:;
    v11 = nd_load_8(((unsigned char *)((uintptr_t)v3 + 2)));
    nd_memcpy(v6.b, v2, 12);
    nd_store_8(v1, v11);
    nd_store_32(((unsigned char *)((uintptr_t)v1 + 4)), 3U);
    nd_memcpy(((unsigned char *)((uintptr_t)v1 + 8)), v6.b, 12);
    nd_store_64(((unsigned char *)((uintptr_t)v1 + 20)), 0ULL);
    goto L1;
L3:;
    v16 = nd_load_8(((unsigned char *)((uintptr_t)v3 + 1)));
    v17 = nd_ndef_lang_kind_KindReader_kind(v5.b);
    switch (v17) {
    case 2: goto L4;
    case 1: goto L4;
    case 7: goto L4;
    case 8: goto L4;
    case 9: goto L4;
    case 11: goto L8;
    case 10: goto L5;
    case 12: goto L6;
    case 3: { v22 = 0; goto L10; }
    case 4: { v22 = 0; goto L10; }
    case 5: { v22 = 0; goto L10; }
    case 6: { v22 = 0; goto L10; }
    case 0: { v22 = 0; goto L10; }
    default: goto L7; }
L4:;
    if (v16 == 0) goto L9;
    v22 = 0;
    goto L10;
L5:;
    if (v16 == 0) { v22 = 0; goto L10; }
    goto L9;
L6:;
    if (v16 == 2) goto L9;
    v22 = 0;
    goto L10;
L7:;
    nd_stop();
L8:;
    if (!(v16 == 1)) { v22 = 0; goto L10; }
L9:;
    v22 = v17;
L10:;
    nd_memcpy(v7.b, v2, 12);
    nd_ndef_nest_phase_Name_entered(v4.b, v7.b, v3, v22);
    nd_store_8(v1, nd_load_8(v4.b));
    nd_store_32(((unsigned char *)((uintptr_t)v1 + 4)), (uint32_t)nd_load_8((v4.b + 4)));
    nd_memcpy(((unsigned char *)((uintptr_t)v1 + 8)), (v4.b + 8), 20);
    goto L1;
}

static uint8_t nd_ndef_lang_kind_KindReader_kind(unsigned char *v1) {
    uint8_t v7, v9, v11, v21;
    if (!(nd_load_8(v1) == 0)) { v21 = 0; goto L20; }
    v7 = nd_load_8(((unsigned char *)((uintptr_t)v1 + 2)));
    v9 = nd_load_8(((unsigned char *)((uintptr_t)v1 + 3)));
    v11 = nd_load_8(((unsigned char *)((uintptr_t)v1 + 4)));
    switch (nd_load_8(((unsigned char *)((uintptr_t)v1 + 1)))) {
    case 0: { v21 = 0; goto L20; }
    case 4: { v21 = 0; goto L20; }
    case 1: goto L2;
    case 2: goto L7;
    case 3: goto L15;
    default: goto L19; }
L2:;
    switch (v7) {
    case 84: { v21 = 1; goto L20; }
    case 85: goto L3;
    case 115: goto L4;
    case 116: goto L5;
    default: goto L6; }
L3:;
    v21 = 2;
    goto L20;
L4:;
    v21 = 8;
    goto L20;
L5:;
    v21 = 9;
    goto L20;
L6:;
    v21 = 0;
    goto L20;
L7:;
    switch (v7) {
    case 83: goto L8;
    case 72: goto L9;
    case 97: goto L12;
    case 99: goto L13;
    default: goto L14; }
L8:;
    if (v9 == 112) { v21 = 3; goto L20; }
    goto L14;
L9:;
    switch (v9) {
    case 114: { v21 = 4; goto L20; }
    case 115: goto L10;
    case 99: goto L11;
    default: goto L14; }
L10:;
    v21 = 5;
    goto L20;
L11:;
    v21 = 6;
    goto L20;
L12:;
    if (v9 == 99) { v21 = 10; goto L20; }
    goto L14;
L13:;
    if (v9 == 114) { v21 = 11; goto L20; }
L14:;
    v21 = 0;
    goto L20;
L15:;
    switch (v7) {
    case 97: goto L16;
    case 101: goto L17;
    default: goto L18; }
L16:;
    if ((v9 == 99) & (int)(v11 == 116)) { v21 = 7; goto L20; }
    goto L18;
L17:;
    if ((v9 == 114) & (int)(v11 == 114)) { v21 = 12; goto L20; }
L18:;
    v21 = 0;
    goto L20;
L19:;
    nd_stop();
L20:;
    return v21;
}

static void nd_ndef_nest_phase_Name_entered(unsigned char *v1, unsigned char *v2, unsigned char *v3, uint8_t v4) {
    uint8_t v8, v10, v14, v20, v21, v22, v43, v44, v45, v46;
    uint32_t v12, v23, v42, v47, v48;
    uint64_t v34;
    ND_ROOM(24) v5;
    ND_ROOM(12) v6;
    v8 = nd_load_8((v2 + 5));
    v10 = nd_load_8((v2 + 6));
    v12 = nd_load_32((v2 + 8));
    v14 = nd_load_8(((unsigned char *)((uintptr_t)v3 + 2)));
    switch (v14) {
    case 3: goto L1;
    case 1: goto L3;
    case 2: goto L6;
    case 0: goto L8;
    default: goto L2; }
L1:;
    if (v4 == 11) { v20 = 0; v21 = 0; v22 = 0; v23 = 2U; goto L19; }
    goto L5;
L2:;
    nd_stop();
L3:;
    switch (v4) {
    case 2: goto L5;
    case 1: { v20 = v4; v21 = 0; v22 = 4; v23 = 0U; goto L19; }
    case 9: goto L10;
    case 7: goto L11;
    case 8: goto L12;
    case 11: goto L13;
    case 10: goto L14;
    case 12: goto L15;
    case 6: goto L16;
    case 0: goto L17;
    case 3: goto L17;
    case 4: goto L17;
    case 5: goto L17;
    default: goto L18; }
L4:;
    return;
L5:;
    nd_store_8(v1, v14);
    nd_store_32(((unsigned char *)((uintptr_t)v1 + 4)), 6U);
    nd_memset(((unsigned char *)((uintptr_t)v1 + 8)), 0, 20);
    goto L4;
L6:;
    switch (v4) {
    case 2: goto L7;
    case 1: { v20 = 2; v21 = 0; v22 = 4; v23 = 0U; goto L19; }
    case 9: goto L10;
    case 7: goto L11;
    case 8: goto L12;
    case 11: goto L13;
    case 10: goto L14;
    case 12: goto L15;
    case 6: goto L16;
    case 0: goto L17;
    case 3: goto L17;
    case 4: goto L17;
    case 5: goto L17;
    default: goto L18; }
L7:;
    v20 = 1;
    v21 = nd_load_8(v3);
    v22 = 5;
    v23 = 0U;
    goto L19;
L8:;
    switch (v4) {
    case 1: { v20 = 0; v21 = 0; v22 = 4; v23 = 0U; goto L19; }
    case 2: goto L9;
    case 9: goto L10;
    case 7: goto L11;
    case 8: goto L12;
    case 11: goto L13;
    case 10: goto L14;
    case 12: goto L15;
    case 6: goto L16;
    case 0: goto L17;
    case 3: goto L17;
    case 4: goto L17;
    case 5: goto L17;
    default: goto L18; }
L9:;
    v20 = 0;
    v21 = nd_load_8(v3);
    v22 = 5;
    v23 = 0U;
    goto L19;
L10:;
    v20 = v14;
    v21 = 0;
    v22 = 2;
    v23 = 0U;
    goto L19;
L11:;
    v20 = v14;
    v21 = 0;
    v22 = 0;
    v23 = 1U;
    goto L19;
L12:;
    v20 = v14;
    v21 = 0;
    v22 = 0;
    v23 = 4U;
    goto L19;
L13:;
    v20 = v14;
    v21 = 0;
    v22 = 0;
    v23 = 2U;
    goto L19;
L14:;
    v20 = v14;
    v21 = 0;
    v22 = 8;
    v23 = 1U;
    goto L19;
L15:;
    v20 = v14;
    v21 = 0;
    v22 = 6;
    v23 = 0U;
    goto L19;
L16:;
    v20 = v14;
    v21 = 0;
    v22 = 7;
    v23 = 1U;
    goto L19;
L17:;
    v20 = v14;
    v21 = 0;
    v22 = 1;
    v23 = 0U;
    goto L19;
L18:;
    nd_stop();
L19:;
    if (!((v12 | (uint32_t)v10) == 0U)) { v42 = v23; v43 = v22; v44 = v21; v45 = (uint8_t)(v8 & 1); v46 = v10; v47 = v12; v48 = 4U; goto L29; }
    nd_memset(v5.b, 0, 24);
    nd_store_32((v6.b + 8), 0U);
    nd_store_32(v6.b, 0U);
    nd_store_32((v6.b + 4), v23);
    nd_store_8((v6.b + 9), v22);
    nd_store_8((v6.b + 10), v21);
    nd_ndef_lang_leaf_Leaf_lengths(v5.b, v6.b);
    v34 = nd_load_64((v5.b + 8));
    switch (nd_load_8(v5.b)) {
    case 0: goto L21;
    case 1: goto L26;
    case 2: goto L22;
    case 3: goto L23;
    case 4: goto L24;
    default: goto L25; }
L21:;
    v42 = 0U;
    v43 = 0;
    v44 = 0;
    v45 = 0;
    v46 = 0;
    v47 = 0U;
    v48 = 6U;
    goto L29;
L22:;
    if (v34 == 0ULL) goto L27;
    v42 = 0U;
    v43 = 0;
    v44 = 0;
    v45 = 0;
    v46 = 0;
    v47 = 0U;
    v48 = 6U;
    goto L29;
L23:;
    if (v34 == 0ULL) goto L27;
    v42 = 0U;
    v43 = 0;
    v44 = 0;
    v45 = 0;
    v46 = 0;
    v47 = 0U;
    v48 = 6U;
    goto L29;
L24:;
    if (v34 == 0ULL) goto L27;
    v42 = 0U;
    v43 = 0;
    v44 = 0;
    v45 = 0;
    v46 = 0;
    v47 = 0U;
    v48 = 6U;
    goto L29;
L25:;
    nd_stop();
L26:;
    if (!(v34 == 0ULL)) { v42 = 0U; v43 = 0; v44 = 0; v45 = 0; v46 = 0; v47 = 0U; v48 = 6U; goto L29; }
L27:;
    if (!(uint8_t)(v8 & 1)) { v42 = 0U; v43 = 0; v44 = 0; v45 = 0; v46 = 0; v47 = 0U; v48 = 2U; goto L29; }
    v42 = 0U;
    v43 = 0;
    v44 = 0;
    v45 = 0;
    v46 = 0;
    v47 = 0U;
    v48 = (v20 < 2) ? 5U : 6U;
L29:;
    nd_store_8(v1, v20);
    nd_store_32(((unsigned char *)((uintptr_t)v1 + 4)), v48);
    nd_store_32(((unsigned char *)((uintptr_t)v1 + 8)), 0U);
    nd_store_32(((unsigned char *)((uintptr_t)v1 + 12)), v42);
    nd_store_8(((unsigned char *)((uintptr_t)v1 + 16)), 0);
    nd_store_8(((unsigned char *)((uintptr_t)v1 + 17)), v43);
    nd_store_8(((unsigned char *)((uintptr_t)v1 + 18)), v44);
    nd_store_8(((unsigned char *)((uintptr_t)v1 + 19)), 0);
    nd_store_8(((unsigned char *)((uintptr_t)v1 + 20)), v45);
    nd_store_8(((unsigned char *)((uintptr_t)v1 + 21)), v46);
    nd_store_16(((unsigned char *)((uintptr_t)v1 + 22)), 0);
    nd_store_32(((unsigned char *)((uintptr_t)v1 + 24)), v47);
    goto L4;
}

static void nd_ndef_lang_leaf_Leaf_lengths(unsigned char *v1, unsigned char *v2) {
    uint8_t v5, v7, v9, v13, v21, v24, v25, v26, v34;
    uint32_t v11;
    uint64_t v16, v42, v43;
    v5 = nd_load_8(((unsigned char *)((uintptr_t)v2 + 1)));
    v7 = nd_load_8(((unsigned char *)((uintptr_t)v2 + 2)));
    v9 = nd_load_8(((unsigned char *)((uintptr_t)v2 + 3)));
    v11 = nd_load_32(((unsigned char *)((uintptr_t)v2 + 4)));
    v13 = nd_load_8(((unsigned char *)((uintptr_t)v2 + 10)));
    switch (nd_load_8(v2)) {
    case 0: goto L1;
    case 1: goto L18;
    case 2: goto L7;
    case 3: { v42 = 0ULL; v43 = 0ULL; goto L19; }
    default: goto L20; }
L1:;
    v16 = (uint64_t)v11;
    switch (nd_load_8(((unsigned char *)((uintptr_t)v2 + 9)))) {
    case 0: { v42 = 1ULL; v43 = v16; goto L19; }
    case 1: goto L2;
    case 2: goto L2;
    case 3: goto L3;
    case 4: goto L4;
    case 5: goto L4;
    case 6: goto L4;
    case 7: goto L4;
    case 9: goto L4;
    case 8: goto L5;
    case 10: goto L6;
    default: goto L20; }
L2:;
    v42 = 2ULL;
    v43 = v16;
    goto L19;
L3:;
    v42 = 3ULL;
    v43 = v16;
    goto L19;
L4:;
    v42 = 2ULL;
    v43 = v16 + 1ULL;
    goto L19;
L5:;
    v42 = 2ULL;
    v43 = v16 + 2ULL;
    goto L19;
L6:;
    v42 = 2ULL;
    v43 = (uint64_t)v13 + v16;
    goto L19;
L7:;
    v21 = (uint8_t)v11;
    switch (v5) {
    case 4: { v42 = 0ULL; v43 = 0ULL; goto L19; }
    case 3: goto L8;
    case 1: goto L13;
    case 0: { v34 = v5; goto L17; }
    case 2: goto L15;
    default: goto L12; }
L8:;
    if ((uint8_t)(v7 & 1)) { v34 = 1; goto L17; }
    v24 = (uint8_t)(v21 & 252);
    v25 = v24 == 220;
    if (!(uint8_t)(v9 & 1)) goto L11;
    if (v25) { v34 = 1; goto L17; }
    v42 = 0ULL;
    v43 = 0ULL;
    goto L19;
L11:;
    if (v25) { v42 = 0ULL; v43 = 0ULL; goto L19; }
    goto L16;
L12:;
    nd_stop();
L13:;
    v26 = (uint8_t)(v7 & 252);
    if (v26 == 220) { v42 = 0ULL; v43 = 0ULL; goto L19; }
    v34 = (uint8_t)((v26 == 216) ? 3 : 1);
    goto L17;
L15:;
    v34 = (uint8_t)((uint8_t)((uint32_t)v9 << 1) & 2);
    goto L17;
L16:;
    v34 = (uint8_t)((v24 == 216) ? 3 : 1);
L17:;
    v42 = 3ULL;
    v43 = (uint64_t)v34;
    goto L19;
L18:;
    v42 = nd_load_64(((unsigned char *)nd_data_switch_table_ndef_lang_leaf_Leaf_lengths + (ptrdiff_t)(uint64_t)v5 * 8));
    v43 = nd_load_64(((unsigned char *)nd_data_switch_table_ndef_lang_utf8_Utf8Lang_take + (ptrdiff_t)(uint64_t)v5 * 8));
L19:;
    nd_store_64(v1, v42);
    nd_store_64(((unsigned char *)((uintptr_t)v1 + 8)), v43);
    nd_store_64(((unsigned char *)((uintptr_t)v1 + 16)), 0ULL);
    return;
L20:;
    nd_stop();
}

static void nd_ndef_lang_leaf_Leaf_after(unsigned char *v1, unsigned char *v2, uint8_t v3) {
    uint8_t v4, v6, v8, v10, v14, v16, v18, v62, v69, v77, v78, v83, v84, v85, v87, v92, v93, v94, v95, v97, v98, v99;
    uint32_t v12, v96;
    ND_ROOM(12) v19;
    v4 = nd_load_8(v2);
    v6 = nd_load_8(((unsigned char *)((uintptr_t)v2 + 1)));
    v8 = nd_load_8(((unsigned char *)((uintptr_t)v2 + 2)));
    v10 = nd_load_8(((unsigned char *)((uintptr_t)v2 + 3)));
    v12 = nd_load_32(((unsigned char *)((uintptr_t)v2 + 4)));
    v14 = nd_load_8(((unsigned char *)((uintptr_t)v2 + 8)));
    v16 = nd_load_8(((unsigned char *)((uintptr_t)v2 + 9)));
    v18 = nd_load_8(((unsigned char *)((uintptr_t)v2 + 10)));
    nd_memset(v19.b, 0, 12);
    switch (v4) {
    case 0: goto L1;
    case 1: goto L5;
    case 2: goto L23;
    case 3: { v92 = v4; v93 = v6; v94 = 0; v95 = 0; v96 = 0U; v97 = 0; v98 = 0; v99 = 0; goto L41; }
    default: goto L42; }
L1:;
    if (!(v12 == 0U)) goto L3;
    nd_ndef_lang_leaf_Stage_after(v19.b, v16, v18, v3);
    v92 = nd_load_8(v19.b);
    v93 = nd_load_8((v19.b + 1));
    v94 = nd_load_8((v19.b + 2));
    v95 = nd_load_8((v19.b + 3));
    v96 = nd_load_32((v19.b + 4));
    v97 = nd_load_8((v19.b + 8));
    v98 = nd_load_8((v19.b + 9));
    v99 = nd_load_8((v19.b + 10));
    goto L41;
L3:;
    if (!(((int8_t)v3 > (int8_t)255) | (int)(v14 == 0))) { v92 = 3; v93 = 15; v94 = 0; v95 = 0; v96 = 0U; v97 = 0; v98 = 0; v99 = 0; goto L41; }
    v92 = 0;
    v93 = 0;
    v94 = 0;
    v95 = 0;
    v96 = v12 + 4294967295U;
    v97 = v14;
    v98 = v16;
    v99 = v18;
    goto L41;
L5:;
    switch (v6) {
    case 0: goto L6;
    case 1: goto L15;
    case 2: goto L16;
    case 3: goto L17;
    case 4: goto L18;
    case 5: goto L19;
    case 6: goto L20;
    case 7: goto L21;
    case 8: { v92 = 1; v93 = v6; v94 = 0; v95 = 0; v96 = 0U; v97 = 0; v98 = 0; v99 = 0; goto L41; }
    default: goto L22; }
L6:;
    switch (v3) {
    case 224: { v92 = 1; v93 = 4; v94 = 0; v95 = 0; v96 = 0U; v97 = 0; v98 = 0; v99 = 0; goto L41; }
    case 237: goto L7;
    case 240: goto L8;
    case 244: goto L9;
    default: goto L10; }
L7:;
    v92 = 1;
    v93 = 5;
    v94 = 0;
    v95 = 0;
    v96 = 0U;
    v97 = 0;
    v98 = 0;
    v99 = 0;
    goto L41;
L8:;
    v92 = 1;
    v93 = 6;
    v94 = 0;
    v95 = 0;
    v96 = 0U;
    v97 = 0;
    v98 = 0;
    v99 = 0;
    goto L41;
L9:;
    v92 = 1;
    v93 = 7;
    v94 = 0;
    v95 = 0;
    v96 = 0U;
    v97 = 0;
    v98 = 0;
    v99 = 0;
    goto L41;
L10:;
    if ((int8_t)v3 > (int8_t)255) { v92 = 1; v93 = 0; v94 = 0; v95 = 0; v96 = 0U; v97 = 0; v98 = 0; v99 = 0; goto L41; }
    if (v3 < 194) { v92 = 1; v93 = 8; v94 = 0; v95 = 0; v96 = 0U; v97 = 0; v98 = 0; v99 = 0; goto L41; }
    if (v3 < 224) { v92 = 1; v93 = 1; v94 = 0; v95 = 0; v96 = 0U; v97 = 0; v98 = 0; v99 = 0; goto L41; }
    if (v3 < 240) { v92 = 1; v93 = 2; v94 = 0; v95 = 0; v96 = 0U; v97 = 0; v98 = 0; v99 = 0; goto L41; }
    v92 = 1;
    v93 = (uint8_t)((v3 < 244) ? 3 : 8);
    v94 = 0;
    v95 = 0;
    v96 = 0U;
    v97 = 0;
    v98 = 0;
    v99 = 0;
    goto L41;
L15:;
    v92 = 1;
    v93 = (uint8_t)(((int8_t)v3 > (int8_t)191) ? 8 : 0);
    v94 = 0;
    v95 = 0;
    v96 = 0U;
    v97 = 0;
    v98 = 0;
    v99 = 0;
    goto L41;
L16:;
    v92 = 1;
    v93 = (uint8_t)(((int8_t)v3 > (int8_t)191) ? 8 : 1);
    v94 = 0;
    v95 = 0;
    v96 = 0U;
    v97 = 0;
    v98 = 0;
    v99 = 0;
    goto L41;
L17:;
    v92 = 1;
    v93 = (uint8_t)(((int8_t)v3 > (int8_t)191) ? 8 : 2);
    v94 = 0;
    v95 = 0;
    v96 = 0U;
    v97 = 0;
    v98 = 0;
    v99 = 0;
    goto L41;
L18:;
    v92 = 1;
    v93 = (uint8_t)(((uint8_t)(v3 + 64) < 224) ? 8 : 1);
    v94 = 0;
    v95 = 0;
    v96 = 0U;
    v97 = 0;
    v98 = 0;
    v99 = 0;
    goto L41;
L19:;
    v92 = 1;
    v93 = (uint8_t)(((int8_t)v3 > (int8_t)159) ? 8 : 1);
    v94 = 0;
    v95 = 0;
    v96 = 0U;
    v97 = 0;
    v98 = 0;
    v99 = 0;
    goto L41;
L20:;
    v92 = 1;
    v93 = (uint8_t)(((uint8_t)(v3 + 64) < 208) ? 8 : 2);
    v94 = 0;
    v95 = 0;
    v96 = 0U;
    v97 = 0;
    v98 = 0;
    v99 = 0;
    goto L41;
L21:;
    v92 = 1;
    v93 = (uint8_t)(((int8_t)v3 > (int8_t)143) ? 8 : 2);
    v94 = 0;
    v95 = 0;
    v96 = 0U;
    v97 = 0;
    v98 = 0;
    v99 = 0;
    goto L41;
L22:;
    nd_stop();
L23:;
    v62 = (uint8_t)v12;
    switch (v6) {
    case 0: { v92 = 2; v93 = 1; v94 = v3; v95 = v6; v96 = 0U; v97 = v6; v98 = v6; v99 = v6; goto L41; }
    case 1: goto L24;
    case 2: goto L28;
    case 3: goto L29;
    case 4: goto L39;
    default: goto L40; }
L24:;
    if ((v3 == 255) & (int)(v8 == 254)) { v92 = 2; v93 = 2; v94 = 0; v95 = 0; v96 = 0U; v97 = 0; v98 = 0; v99 = 0; goto L41; }
    if ((v3 == 254) & (int)(v8 == 255)) { v92 = 2; v93 = 2; v94 = 1; v95 = 0; v96 = 0U; v97 = 0; v98 = 0; v99 = 0; goto L41; }
    v69 = (uint8_t)(v8 & 252);
    if (v69 == 220) { v92 = 2; v93 = 4; v94 = 0; v95 = 0; v96 = 0U; v97 = 0; v98 = 0; v99 = 0; goto L41; }
    v92 = 2;
    v93 = 2;
    v94 = 0;
    v95 = (uint8_t)(v69 == 216);
    v96 = 0U;
    v97 = 0;
    v98 = 0;
    v99 = 0;
    goto L41;
L28:;
    v92 = 2;
    v93 = 3;
    v94 = (uint8_t)(v8 & 1);
    v95 = (uint8_t)(v10 & 1);
    v96 = (uint32_t)v3;
    v97 = 0;
    v98 = 0;
    v99 = 0;
    goto L41;
L29:;
    v77 = (uint8_t)(v10 & 1);
    if (!(uint8_t)(v8 & 1)) goto L35;
    v78 = (uint8_t)(v3 & 252);
    if (!(v78 == 220)) goto L32;
    v83 = 0;
    v84 = v77;
    v85 = (uint8_t)(v77 ? 2 : 4);
    goto L34;
L32:;
    if (v77) { v83 = 0; v84 = 0; v85 = 4; goto L34; }
    v83 = (uint8_t)(v78 == 216);
    v84 = 1;
    v85 = 2;
L34:;
    v92 = 2;
    v93 = v85;
    v94 = (uint8_t)v84;
    v95 = v83;
    v96 = 0U;
    v97 = 0;
    v98 = 0;
    v99 = 0;
    goto L41;
L35:;
    v87 = (uint8_t)(v62 & 252);
    if (!(v87 == 220)) goto L37;
    v92 = 2;
    v93 = (uint8_t)(v77 ? 2 : 4);
    v94 = 0;
    v95 = 0;
    v96 = 0U;
    v97 = 0;
    v98 = 0;
    v99 = 0;
    goto L41;
L37:;
    if (v77) { v92 = 2; v93 = 4; v94 = 0; v95 = 0; v96 = 0U; v97 = 0; v98 = 0; v99 = 0; goto L41; }
    v92 = 2;
    v93 = 2;
    v94 = 0;
    v95 = (uint8_t)(v87 == 216);
    v96 = 0U;
    v97 = 0;
    v98 = 0;
    v99 = 0;
    goto L41;
L39:;
    v92 = 2;
    v93 = v6;
    v94 = 0;
    v95 = 0;
    v96 = 0U;
    v97 = 0;
    v98 = 0;
    v99 = 0;
    goto L41;
L40:;
    nd_stop();
L41:;
    nd_store_8(v1, v92);
    nd_store_8(((unsigned char *)((uintptr_t)v1 + 1)), v93);
    nd_store_8(((unsigned char *)((uintptr_t)v1 + 2)), v94);
    nd_store_8(((unsigned char *)((uintptr_t)v1 + 3)), v95);
    nd_store_32(((unsigned char *)((uintptr_t)v1 + 4)), v96);
    nd_store_8(((unsigned char *)((uintptr_t)v1 + 8)), v97);
    nd_store_8(((unsigned char *)((uintptr_t)v1 + 9)), v98);
    nd_store_8(((unsigned char *)((uintptr_t)v1 + 10)), v99);
    return;
L42:;
    nd_stop();
}

static void nd_ndef_lang_leaf_Stage_after(unsigned char *v1, uint8_t v2, uint8_t v3, uint8_t v4) {
    uint8_t v30, v31, v32, v33, v34, v35, v36;
    switch (v2) {
    case 0: { v30 = 3; v31 = 23; v32 = v2; v33 = v2; v34 = v2; v35 = v2; v36 = v2; goto L23; }
    case 2: goto L1;
    case 3: goto L10;
    case 4: goto L11;
    case 5: goto L13;
    case 10: goto L19;
    case 1: goto L21;
    case 6: goto L15;
    case 7: goto L16;
    case 8: goto L17;
    case 9: goto L18;
    default: goto L24; }
L1:;
    switch (v4) {
    case 224: { v30 = 1; v31 = 4; v32 = 0; v33 = 0; v34 = 0; v35 = 0; v36 = 0; goto L23; }
    case 237: goto L2;
    case 240: goto L3;
    case 244: goto L4;
    default: goto L5; }
L2:;
    v30 = 1;
    v31 = 5;
    v32 = 0;
    v33 = 0;
    v34 = 0;
    v35 = 0;
    v36 = 0;
    goto L23;
L3:;
    v30 = 1;
    v31 = 6;
    v32 = 0;
    v33 = 0;
    v34 = 0;
    v35 = 0;
    v36 = 0;
    goto L23;
L4:;
    v30 = 1;
    v31 = 7;
    v32 = 0;
    v33 = 0;
    v34 = 0;
    v35 = 0;
    v36 = 0;
    goto L23;
L5:;
    if ((int8_t)v4 > (int8_t)255) { v30 = 1; v31 = 0; v32 = 0; v33 = 0; v34 = 0; v35 = 0; v36 = 0; goto L23; }
    if (v4 < 194) { v30 = 1; v31 = 8; v32 = 0; v33 = 0; v34 = 0; v35 = 0; v36 = 0; goto L23; }
    if (v4 < 224) { v30 = 1; v31 = 1; v32 = 0; v33 = 0; v34 = 0; v35 = 0; v36 = 0; goto L23; }
    if (v4 < 240) { v30 = 1; v31 = 2; v32 = 0; v33 = 0; v34 = 0; v35 = 0; v36 = 0; goto L23; }
    v30 = 1;
    v31 = (uint8_t)((v4 < 244) ? 3 : 8);
    v32 = 0;
    v33 = 0;
    v34 = 0;
    v35 = 0;
    v36 = 0;
    goto L23;
L10:;
    v30 = 2;
    v31 = 1;
    v32 = v4;
    v33 = 0;
    v34 = 0;
    v35 = 0;
    v36 = 0;
    goto L23;
L11:;
    if (!((uint8_t)(v4 & 64) == 0)) { v30 = 3; v31 = 14; v32 = 0; v33 = 0; v34 = 0; v35 = 0; v36 = 0; goto L23; }
    v30 = 0;
    v31 = 0;
    v32 = 0;
    v33 = (uint8_t)(v4 & 63);
    v34 = 1;
    v35 = (uint8_t)(((int8_t)v4 < (int8_t)0) ? 3 : 2);
    v36 = 0;
    goto L23;
L13:;
    if ((v3 == 0) & (int)(v4 > 35)) { v30 = 3; v31 = 18; v32 = 0; v33 = 0; v34 = 0; v35 = 0; v36 = 0; goto L23; }
    v30 = 0;
    v31 = 0;
    v32 = 0;
    v33 = 0;
    v34 = 0;
    v35 = 2;
    v36 = 0;
    goto L23;
L15:;
    if (v4 < 4) goto L22;
    v30 = 0;
    v31 = 0;
    v32 = 0;
    v33 = 0;
    v34 = 0;
    v35 = 1;
    v36 = 0;
    goto L23;
L16:;
    v30 = 0;
    v31 = 0;
    v32 = 0;
    v33 = v4;
    v34 = 0;
    v35 = 1;
    v36 = 0;
    goto L23;
L17:;
    v30 = 0;
    v31 = 0;
    v32 = 0;
    v33 = v4;
    v34 = 0;
    v35 = 9;
    v36 = 0;
    goto L23;
L18:;
    v30 = 0;
    v31 = 0;
    v32 = 0;
    v33 = 0;
    v34 = 0;
    v35 = 10;
    v36 = v4;
    goto L23;
L19:;
    if (v3 == 0) { v30 = 0; v31 = 0; v32 = 0; v33 = 0; v34 = 0; v35 = 1; v36 = 0; goto L23; }
    v30 = 0;
    v31 = 0;
    v32 = 0;
    v33 = v4;
    v34 = 0;
    v35 = 10;
    v36 = (uint8_t)(v3 + 255);
    goto L23;
L21:;
    v30 = 0;
    v31 = 0;
    v32 = 0;
    v33 = 0;
    v34 = 0;
    v35 = v2;
    v36 = v3;
    goto L23;
L22:;
    v30 = 0;
    v31 = 0;
    v32 = 0;
    v33 = (uint8_t)(17039616U >> ((uint32_t)(uint8_t)((uint32_t)v4 << 3) & 31));
    v34 = 0;
    v35 = (uint8_t)(1U >> ((uint32_t)(uint8_t)((uint32_t)v4 << 3) & 31));
    v36 = 0;
L23:;
    nd_store_8(v1, v30);
    nd_store_8(((unsigned char *)((uintptr_t)v1 + 1)), v31);
    nd_store_8(((unsigned char *)((uintptr_t)v1 + 2)), v32);
    nd_store_8(((unsigned char *)((uintptr_t)v1 + 3)), 0);
    nd_store_32(((unsigned char *)((uintptr_t)v1 + 4)), (uint32_t)v33);
    nd_store_8(((unsigned char *)((uintptr_t)v1 + 8)), v34);
    nd_store_8(((unsigned char *)((uintptr_t)v1 + 9)), v35);
    nd_store_8(((unsigned char *)((uintptr_t)v1 + 10)), v36);
    return;
L24:;
    nd_stop();
}

static uint8_t nd_ndef_nest_nest_NestLanguage_fits(unsigned char *v1, uint64_t v2, uint64_t v3) {
    uint8_t v8, v18, v37, v55, v57, v65, v68, v69, v82, v105;
    uint64_t v16, v28, v29, v47, v48, v59, v102, v103;
    uint32_t v23, v42;
    uint16_t v61, v63;
    struct nd_64_64 v80, v94, v98, v99;
    ND_ROOM(48) v4, v5;
    ND_ROOM(24) v6;
    v8 = nd_load_8(((unsigned char *)((uintptr_t)v1 + 56)));
    switch (v8) {
    case 0: goto L1;
    case 1: goto L4;
    case 2: goto L6;
    case 3: goto L6;
    case 4: goto L6;
    case 5: goto L6;
    case 6: goto L6;
    default: goto L19; }
L1:;
    if (v3 == 0ULL) { v105 = 0; goto L18; }
    if ((v2 < 2ULL) & (int)(nd_load_8(((unsigned char *)((uintptr_t)v1 + 1))) == 2)) { v105 = 1; goto L18; }
    v16 = nd_usub_sat_i64(v2, 1ULL);
    v18 = nd_load_8(((unsigned char *)((uintptr_t)v1 + 2)));
    v23 = nd_load_32(((unsigned char *)((uintptr_t)v1 + 4)));
    v28 = nd_umax_i64(v16, nd_load_64(((unsigned char *)nd_data_switch_table_ndef_nest_phase_NestPhase_span_5 + (ptrdiff_t)(uint64_t)v18 * 8)));
    v29 = nd_umin_i64((v3 + 18446744073709551615ULL), (((v18 == 3) & (int)(v23 == 1U)) ? 266ULL : 4294967295ULL));
    v105 = v28 <= v29;
    goto L18;
L4:;
    if ((v2 == 0ULL) & (int)(nd_load_8(((unsigned char *)((uintptr_t)v1 + 1))) == 2)) { v105 = 1; goto L18; }
    v37 = nd_load_8(((unsigned char *)((uintptr_t)v1 + 2)));
    v42 = nd_load_32(((unsigned char *)((uintptr_t)v1 + 4)));
    v47 = nd_umax_i64(v2, nd_load_64(((unsigned char *)nd_data_switch_table_ndef_nest_phase_NestPhase_span_5 + (ptrdiff_t)(uint64_t)v37 * 8)));
    v48 = nd_umin_i64(v3, (((v37 == 3) & (int)(v42 == 1U)) ? 266ULL : 4294967295ULL));
    v105 = v47 <= v48;
    goto L18;
L6:;
    if (!(v8 == 2)) goto L16;
    nd_memset(v5.b, 0, 48);
    nd_ndef_piece_head_reader_HeadReader_bounds(v5.b, ((unsigned char *)((uintptr_t)v1 + 8)));
    if (!(nd_load_8(v5.b) == 1)) goto L14;
    v55 = nd_load_8((v5.b + 8));
    v57 = nd_load_8((v5.b + 10));
    v59 = nd_load_64((v5.b + 16));
    v61 = nd_load_16((v5.b + 24));
    v63 = nd_load_16((v5.b + 26));
    v65 = nd_load_8(((unsigned char *)((uintptr_t)v1 + 2)));
    switch (v65) {
    case 2: goto L9;
    case 3: goto L10;
    case 0: goto L11;
    case 1: goto L11;
    default: goto L12; }
L9:;
    if (v57 == 1) { v68 = 1; v69 = 1; goto L13; }
    goto L11;
L10:;
    if (v57 == 1) { v68 = 1; v69 = 2; goto L13; }
L11:;
    v68 = 0;
    v69 = 0;
    goto L13;
L12:;
    nd_stop();
L13:;
    nd_store_8(v4.b, v55);
    nd_memset((v4.b + 1), 0, 7);
    nd_store_64((v4.b + 8), v59);
    nd_store_16((v4.b + 16), v61);
    nd_store_16((v4.b + 18), v63);
    nd_store_32((v4.b + 20), 0U);
    nd_memcpy((v4.b + 24), (v5.b + 32), 16);
    nd_store_8((v4.b + 40), v68);
    nd_store_8((v4.b + 41), v69);
    nd_memset((v4.b + 42), 0, 6);
    v80 = nd_ndef_nest_span_OpenRecord_span(v4.b, v65);
    v94 = v80;
    goto L15;
L14:;
    v82 = nd_load_8(((unsigned char *)((uintptr_t)v1 + 2)));
    v94 = (struct nd_64_64) { nd_load_64(((unsigned char *)nd_data_switch_table_ndef_nest_phase_NestPhase_span_5 + (ptrdiff_t)(uint64_t)v82 * 8)), (((v82 == 3) & (int)(nd_load_32(((unsigned char *)((uintptr_t)v1 + 4))) == 1U)) ? 266ULL : 4294967295ULL) };
L15:;
    v99 = v94;
    goto L17;
L16:;
    nd_store_32(v6.b, (uint32_t)v8);
    nd_memcpy((v6.b + 4), ((unsigned char *)((uintptr_t)v1 + 60)), 20);
    v98 = nd_ndef_nest_phase_NestPhase_span(v6.b, v1);
    v99 = v98;
L17:;
    v102 = nd_umax_i64(v2, v99.f0);
    v103 = nd_umin_i64(v3, v99.f1);
    v105 = v102 <= v103;
L18:;
    return v105;
L19:;
    nd_stop();
}

static struct nd_64_64 nd_ndef_nest_span_OpenRecord_span(unsigned char *v1, uint8_t v2) {
    uint64_t v4, v15, v31, v37, v40, v45, v46, v47, v58, v61, v64, v66, v73, v74, v75, v90, v93, v100, v103, v112, v113;
    uint8_t v33, v44, v51, v80;
    switch (v2) {
    case 0: goto L1;
    case 1: goto L1;
    case 2: goto L4;
    case 3: goto L11;
    default: goto L19; }
L1:;
    v4 = nd_load_64(((unsigned char *)((uintptr_t)v1 + 8)));
    v15 = ((v4 + (uint64_t)nd_load_8(((unsigned char *)((uintptr_t)v1 + 16)))) + (uint64_t)nd_load_8(((unsigned char *)((uintptr_t)v1 + 18)))) + nd_load_64(((unsigned char *)((uintptr_t)v1 + 24)));
    if (!(uint8_t)(nd_load_8(v1) & 1)) goto L3;
    v112 = v15;
    v113 = ((v4 + (uint64_t)nd_load_8(((unsigned char *)((uintptr_t)v1 + 17)))) + (uint64_t)nd_load_8(((unsigned char *)((uintptr_t)v1 + 19)))) + nd_load_64(((unsigned char *)((uintptr_t)v1 + 32)));
    goto L18;
L3:;
    v112 = v15 + 3ULL;
    v113 = 4294967295ULL;
    goto L18;
L4:;
    v31 = nd_load_64(((unsigned char *)((uintptr_t)v1 + 8)));
    v33 = nd_load_8(((unsigned char *)((uintptr_t)v1 + 16)));
    v37 = nd_load_64(((unsigned char *)((uintptr_t)v1 + 24)));
    v40 = (uint64_t)nd_load_8(((unsigned char *)((uintptr_t)v1 + 18)));
    v44 = (uint8_t)(nd_load_8(v1) & 1);
    v45 = (((v31 + (uint64_t)v33) + v40) + v37) + 5ULL;
    v46 = v44 ? 0ULL : 4294967295ULL;
    v47 = v44 ? 1ULL : v45;
    v51 = nd_load_8(((unsigned char *)((uintptr_t)v1 + 41)));
    if ((uint8_t)((nd_load_8(((unsigned char *)((uintptr_t)v1 + 40))) != 1) ? 1 : (v33 > v51))) { v112 = v47; v113 = v46; goto L18; }
    if (v51 > nd_load_8(((unsigned char *)((uintptr_t)v1 + 17)))) { v112 = v47; v113 = v46; goto L18; }
    v58 = nd_umax_i64(v37, 1ULL);
    v61 = nd_umin_i64(nd_load_64(((unsigned char *)((uintptr_t)v1 + 32))), 4294967295ULL);
    if (v58 > v61) { v112 = v47; v113 = v46; goto L18; }
    v64 = v31 + (uint64_t)v51;
    v66 = (v58 + v40) + v64;
    if (!v44) goto L9;
    v73 = (v61 + v64) + (uint64_t)nd_load_8(((unsigned char *)((uintptr_t)v1 + 19)));
    v74 = v66;
    goto L10;
L9:;
    v73 = 4294967295ULL;
    v74 = v66 + 3ULL;
L10:;
    v75 = nd_umin_i64(v45, v74);
    v112 = v44 ? v74 : v75;
    v113 = v73;
    goto L18;
L11:;
    v80 = nd_load_8(((unsigned char *)((uintptr_t)v1 + 41)));
    if (!(nd_load_8(((unsigned char *)((uintptr_t)v1 + 40))) == 1)) { v112 = 1ULL; v113 = 0ULL; goto L18; }
    if (nd_load_8(((unsigned char *)((uintptr_t)v1 + 16))) > v80) { v112 = 1ULL; v113 = 0ULL; goto L18; }
    if (v80 > nd_load_8(((unsigned char *)((uintptr_t)v1 + 17)))) { v112 = 1ULL; v113 = 0ULL; goto L18; }
    v90 = nd_umax_i64(nd_load_64(((unsigned char *)((uintptr_t)v1 + 24))), 2ULL);
    v93 = nd_umin_i64(nd_load_64(((unsigned char *)((uintptr_t)v1 + 32))), 2ULL);
    if (v90 > v93) { v112 = 1ULL; v113 = 0ULL; goto L18; }
    v100 = nd_load_64(((unsigned char *)((uintptr_t)v1 + 8))) + (uint64_t)v80;
    v103 = (v100 + 2ULL) + (uint64_t)nd_load_8(((unsigned char *)((uintptr_t)v1 + 18)));
    if (!(uint8_t)(nd_load_8(v1) & 1)) goto L17;
    v112 = v103;
    v113 = (v100 + 2ULL) + (uint64_t)nd_load_8(((unsigned char *)((uintptr_t)v1 + 19)));
    goto L18;
L17:;
    v112 = v103 + 3ULL;
    v113 = 4294967295ULL;
L18:;
    return (struct nd_64_64) { v112, v113 };
L19:;
    nd_stop();
}

static struct nd_64_64 nd_ndef_nest_phase_NestPhase_span(unsigned char *v1, unsigned char *v2) {
    uint8_t v7, v9, v14, v16, v19, v31, v33, v35, v37, v39, v41, v45, v46, v47, v48, v50, v54, v55, v56, v57, v59, v63, v64, v65, v66, v68, v70, v71, v94, v96, v98, v129;
    uint32_t v12, v29, v100;
    unsigned char *v36, *v43, *v44, *v52, *v53, *v61, *v62, *v102;
    uint64_t v72, v101, v111, v120, v121, v122, v126, v141, v142, v145, v146;
    struct nd_64_64 v84;
    ND_ROOM(24) v3;
    ND_ROOM(12) v4;
    ND_ROOM(5) v5;
    ND_ROOM(7) v6;
    ND_ROOM(48) v17;
    v7 = nd_load_8(v1);
    v9 = nd_load_8(((unsigned char *)((uintptr_t)v1 + 4)));
    nd_memcpy(v6.b, ((unsigned char *)((uintptr_t)v1 + 5)), 7);
    v12 = nd_load_32(((unsigned char *)((uintptr_t)v1 + 12)));
    v14 = nd_load_8(((unsigned char *)((uintptr_t)v1 + 16)));
    v16 = nd_load_8(((unsigned char *)((uintptr_t)v1 + 17)));
    switch (v7) {
    case 0: { v145 = 1ULL; v146 = 0ULL; goto L37; }
    case 1: { v145 = 1ULL; v146 = 0ULL; goto L37; }
    case 6: { v145 = 1ULL; v146 = 0ULL; goto L37; }
    case 2: goto L1;
    case 3: goto L2;
    case 4: goto L25;
    case 5: goto L36;
    default: goto L38; }
L1:;
    v19 = nd_load_8(((unsigned char *)((uintptr_t)v2 + 2)));
    v145 = nd_load_64(((unsigned char *)nd_data_switch_table_ndef_nest_phase_NestPhase_span_5 + (ptrdiff_t)(uint64_t)v19 * 8));
    v146 = ((v19 == 3) & (int)(nd_load_32(((unsigned char *)((uintptr_t)v2 + 4))) == 1U)) ? 266ULL : 4294967295ULL;
    goto L37;
L2:;
    v29 = nd_load_32(v6.b);
    v31 = nd_load_8((v6.b + 4));
    v33 = nd_load_8((v6.b + 5));
    v35 = nd_load_8(((unsigned char *)((uintptr_t)v2 + 2)));
    nd_store_8(v5.b, 0);
    v36 = v5.b + 1;
    nd_store_32(v36, v29);
    v37 = (uint8_t)v29;
    v39 = (uint8_t)(v29 >> 8);
    v41 = (uint8_t)(v29 >> 16);
    switch (v35) {
    case 2: goto L3;
    case 3: goto L10;
    case 0: goto L22;
    case 1: goto L22;
    default: goto L23; }
L3:;
    if (!(v9 == 1)) goto L22;
    v43 = v5.b + 2;
    v44 = v5.b + 3;
    switch (v37) {
    case 0: { v45 = 1; v46 = 85; v47 = v37; v48 = v37; goto L9; }
    case 1: goto L5;
    case 2: goto L6;
    case 3: goto L7;
    case 4: goto L7;
    default: goto L8; }
L5:;
    v45 = 2;
    v46 = v39;
    v47 = 85;
    v48 = 0;
    goto L9;
L6:;
    v45 = 3;
    v46 = v39;
    v47 = v41;
    v48 = 85;
    goto L9;
L7:;
    v45 = 4;
    v46 = 0;
    v47 = 0;
    v48 = 0;
    goto L9;
L8:;
    nd_stop();
L9:;
    nd_store_8(v36, v45);
    nd_store_8(v43, v46);
    nd_store_8(v44, v47);
    nd_store_8((v5.b + 4), v48);
    v50 = nd_ndef_lang_kind_KindReader_kind(v5.b);
    if (v50 == 2) { v70 = 1; v71 = 1; goto L24; }
    goto L22;
L10:;
    switch (v9) {
    case 1: goto L11;
    case 2: goto L17;
    default: goto L22; }
L11:;
    v52 = v5.b + 2;
    v53 = v5.b + 3;
    switch (v37) {
    case 0: { v54 = 1; v55 = 114; v56 = v37; v57 = v37; goto L16; }
    case 1: goto L12;
    case 2: goto L13;
    case 3: goto L14;
    case 4: goto L14;
    default: goto L15; }
L12:;
    v54 = 2;
    v55 = v39;
    v56 = 114;
    v57 = 0;
    goto L16;
L13:;
    v54 = 3;
    v55 = v39;
    v56 = v41;
    v57 = 114;
    goto L16;
L14:;
    v54 = 4;
    v55 = 0;
    v56 = 0;
    v57 = 0;
    goto L16;
L15:;
    nd_stop();
L16:;
    nd_store_8(v36, v54);
    nd_store_8(v52, v55);
    nd_store_8(v53, v56);
    nd_store_8((v5.b + 4), v57);
    v59 = nd_ndef_lang_kind_KindReader_kind(v5.b);
    if (v59 == 11) { v70 = 1; v71 = 1; goto L24; }
    goto L22;
L17:;
    v61 = v5.b + 2;
    v62 = v5.b + 3;
    switch (v37) {
    case 0: { v63 = 2; v64 = 99; v65 = 114; v66 = v37; goto L21; }
    case 1: goto L19;
    case 2: goto L20;
    case 3: goto L20;
    case 4: goto L20;
    default: goto L18; }
L18:;
    nd_stop();
L19:;
    v63 = 3;
    v64 = v39;
    v65 = 99;
    v66 = 114;
    goto L21;
L20:;
    v63 = 4;
    v64 = 0;
    v65 = 0;
    v66 = 0;
L21:;
    nd_store_8(v36, v63);
    nd_store_8(v61, v64);
    nd_store_8(v62, v65);
    nd_store_8((v5.b + 4), v66);
    v68 = nd_ndef_lang_kind_KindReader_kind(v5.b);
    if (v68 == 11) { v70 = 1; v71 = 2; goto L24; }
L22:;
    v70 = 0;
    v71 = 0;
    goto L24;
L23:;
    nd_stop();
L24:;
    v72 = (uint64_t)v12;
    nd_store_8(v17.b, v31);
    nd_memset((v17.b + 1), 0, 15);
    nd_store_8((v17.b + 16), v9);
    nd_store_8((v17.b + 17), v9);
    nd_store_8((v17.b + 18), v33);
    nd_store_8((v17.b + 19), v33);
    nd_store_32((v17.b + 20), 0U);
    nd_store_64((v17.b + 24), v72);
    nd_store_64((v17.b + 32), v72);
    nd_store_8((v17.b + 40), v70);
    nd_store_8((v17.b + 41), v71);
    nd_memset((v17.b + 42), 0, 6);
    v84 = nd_ndef_nest_span_OpenRecord_span(v17.b, v35);
    v145 = v84.f0;
    v146 = v84.f1;
    goto L37;
L25:;
    v94 = nd_load_8(v6.b);
    v96 = nd_load_8((v6.b + 1));
    v98 = nd_load_8((v6.b + 2));
    v100 = nd_load_32((v6.b + 3));
    v101 = (uint64_t)nd_load_32(((unsigned char *)((uintptr_t)v1 + 20)));
    nd_memset(v3.b, 0, 24);
    v102 = v4.b + 8;
    nd_store_32(v102, 0U);
    nd_store_8(v4.b, v9);
    nd_store_8((v4.b + 1), v94);
    nd_store_8((v4.b + 2), v96);
    nd_store_8((v4.b + 3), v98);
    nd_store_32((v4.b + 4), v100);
    nd_store_8(v102, (uint8_t)v12);
    nd_store_8((v4.b + 9), (uint8_t)(v12 >> 8));
    nd_store_8((v4.b + 10), (uint8_t)(v12 >> 16));
    nd_ndef_lang_leaf_Leaf_lengths(v3.b, v4.b);
    v111 = nd_load_64((v3.b + 8));
    switch (nd_load_8(v3.b)) {
    case 0: goto L26;
    case 1: goto L31;
    case 2: goto L27;
    case 3: goto L28;
    case 4: goto L29;
    default: goto L30; }
L26:;
    v145 = 1ULL;
    v146 = 0ULL;
    goto L37;
L27:;
    if (v111 > v101) { v145 = 1ULL; v146 = 0ULL; goto L37; }
    goto L32;
L28:;
    if ((uint8_t)((v111 <= v101) ? ((v101 - ((v101 - v111) & 1ULL)) >= v101) : 0)) goto L32;
    v145 = 1ULL;
    v146 = 0ULL;
    goto L37;
L29:;
    v120 = nd_load_64((v3.b + 16));
    v121 = nd_umax_i64(v111, v101);
    v122 = nd_umin_i64(v120, v101);
    if (v121 > v122) { v145 = 1ULL; v146 = 0ULL; goto L37; }
    goto L32;
L30:;
    nd_stop();
L31:;
    if (!(v111 == v101)) { v145 = 1ULL; v146 = 0ULL; goto L37; }
L32:;
    v126 = v101 + (uint64_t)v16;
    v129 = nd_load_8(((unsigned char *)((uintptr_t)v2 + 2)));
    if ((uint8_t)(v14 & 1)) goto L34;
    v141 = ((v129 == 3) & (int)(nd_load_32(((unsigned char *)((uintptr_t)v2 + 4))) == 1U)) ? 266ULL : 4294967295ULL;
    v142 = nd_load_64(((unsigned char *)nd_data_switch_table_ndef_nest_phase_NestPhase_span_5 + (ptrdiff_t)(uint64_t)v129 * 8));
    goto L35;
L34:;
    v141 = 0ULL;
    v142 = (uint64_t)(v129 > 1);
L35:;
    v145 = v142 + v126;
    v146 = v141 + v126;
    goto L37;
L36:;
    v145 = 0ULL;
    v146 = 0ULL;
L37:;
    return (struct nd_64_64) { v145, v146 };
L38:;
    nd_stop();
}

static uint64_t nd_ndef_nest_nest_NestLanguage_step_all(unsigned char *v1, unsigned char *v2, uint64_t v3, uint64_t v4, uint64_t v5) {
    unsigned char *v32, *v33, *v34, *v35, *v36, *v37, *v38, *v39, *v40, *v41, *v42, *v43, *v44, *v45, *v46, *v47, *v48, *v49, *v50, *v51, *v52, *v53, *v54, *v55, *v56, *v57, *v58, *v59, *v60, *v61, *v62, *v63, *v64, *v65, *v66, *v67, *v68, *v69, *v70, *v71, *v72, *v73, *v74, *v75, *v76, *v77, *v78, *v79, *v80, *v81, *v82, *v83, *v84, *v85, *v86, *v87, *v88, *v89, *v90, *v91, *v92, *v93, *v94, *v95, *v96, *v97, *v98, *v99, *v100, *v101, *v102, *v103, *v104, *v105, *v106, *v107, *v108, *v109, *v110, *v111, *v112, *v113, *v114, *v115, *v116, *v117, *v118, *v119, *v120, *v121, *v122, *v123, *v124, *v125, *v126, *v127, *v128, *v129, *v130, *v131, *v132, *v133, *v134, *v135, *v136, *v137, *v138, *v139, *v140, *v141, *v142, *v143, *v145, *v246, *v264, *v317, *v319, *v352, *v380, *v429, *v471, *v499, *v527, *v576, *v640, *v668, *v717, *v759;
    uint64_t v144, v146, v147, v148, v163, v164, v165, v167, v183, v212, v220, v241, v255, v259, v261, v265, v266, v267, v268, v270, v271, v283, v320, v323, v472, v776, v777, v820, v821, v831, v832, v835, v846, v847, v851, v863, v864, v869, v870, v871, v873, v875, v876;
    uint8_t v149, v151, v152, v153, v154, v156, v157, v158, v159, v160, v170, v171, v173, v174, v177, v178, v179, v192, v193, v194, v195, v197, v198, v199, v200, v207, v210, v214, v229, v230, v231, v232, v234, v235, v236, v237, v238, v249, v251, v257, v258, v277, v279, v280, v288, v299, v300, v309, v311, v312, v313, v321, v328, v389, v536, v617, v677, v758, v761, v762, v763, v764, v767, v779, v785, v796, v797, v806, v808, v809, v810, v811, v812, v823, v825, v836, v849, v850, v855, v858, v859, v866, v867;
    uint32_t v155, v161, v168, v169, v176, v196, v201, v233, v239, v240, v254, v282, v760, v768, v770, v814, v827, v834;
    struct nd_64_64 v773, v817, v828, v860;
    uint16_t v852, v853;
    ND_ROOM(48) v6, v21, v29;
    ND_ROOM(24) v7, v11, v15, v24, v26;
    ND_ROOM(8) v8, v12, v16, v22;
    ND_ROOM(28) v9, v13;
    ND_ROOM(12) v10, v14, v17, v25, v27, v28;
    ND_ROOM(20) v18, v19, v23, v30;
    ND_ROOM(32) v20;
    if (v3 == 0ULL) { v873 = 0ULL; goto L176; }
    v32 = (unsigned char *)((uintptr_t)v1 + 56);
    v33 = (unsigned char *)((uintptr_t)v1 + 8);
    v34 = v21.b + 1;
    v35 = v21.b + 2;
    v36 = v21.b + 3;
    v37 = v21.b + 4;
    v38 = v21.b + 5;
    v39 = v21.b + 8;
    v40 = v21.b + 12;
    v41 = v20.b + 9;
    v42 = v20.b + 12;
    v43 = v20.b + 13;
    v44 = v20.b + 14;
    v45 = v20.b + 15;
    v46 = v20.b + 16;
    v47 = v20.b + 24;
    v48 = v17.b + 8;
    v49 = v17.b + 4;
    v50 = v17.b + 9;
    v51 = v17.b + 10;
    v52 = v15.b + 4;
    v53 = v16.b + 1;
    v54 = v16.b + 2;
    v55 = v16.b + 4;
    v56 = v14.b + 1;
    v57 = v14.b + 2;
    v58 = v14.b + 3;
    v59 = v14.b + 4;
    v60 = v14.b + 5;
    v61 = v14.b + 6;
    v62 = v14.b + 7;
    v63 = v14.b + 8;
    v64 = v13.b + 4;
    v65 = v13.b + 8;
    v66 = v11.b + 4;
    v67 = v12.b + 1;
    v68 = v12.b + 2;
    v69 = v12.b + 4;
    v70 = v10.b + 1;
    v71 = v10.b + 2;
    v72 = v10.b + 3;
    v73 = v10.b + 4;
    v74 = v10.b + 5;
    v75 = v10.b + 6;
    v76 = v10.b + 7;
    v77 = v10.b + 8;
    v78 = v9.b + 4;
    v79 = v9.b + 8;
    v80 = v7.b + 4;
    v81 = v8.b + 1;
    v82 = v8.b + 2;
    v83 = v8.b + 4;
    v84 = (unsigned char *)((uintptr_t)v1 + 9);
    v85 = (unsigned char *)((uintptr_t)v1 + 10);
    v86 = (unsigned char *)((uintptr_t)v1 + 11);
    v87 = (unsigned char *)((uintptr_t)v1 + 12);
    v88 = (unsigned char *)((uintptr_t)v1 + 13);
    v89 = (unsigned char *)((uintptr_t)v1 + 16);
    v90 = (unsigned char *)((uintptr_t)v1 + 20);
    v91 = (unsigned char *)((uintptr_t)v1 + 60);
    v92 = v29.b + 8;
    v93 = v29.b + 10;
    v94 = v29.b + 16;
    v95 = v29.b + 24;
    v96 = v29.b + 26;
    v97 = (unsigned char *)((uintptr_t)v1 + 2);
    v98 = v6.b + 1;
    v99 = v6.b + 8;
    v100 = v6.b + 16;
    v101 = v6.b + 18;
    v102 = v6.b + 20;
    v103 = v6.b + 24;
    v104 = v29.b + 32;
    v105 = v6.b + 40;
    v106 = v6.b + 41;
    v107 = v6.b + 42;
    v108 = (unsigned char *)((uintptr_t)v1 + 61);
    v109 = (unsigned char *)((uintptr_t)v1 + 62);
    v110 = (unsigned char *)((uintptr_t)v1 + 63);
    v111 = (unsigned char *)((uintptr_t)v1 + 64);
    v112 = (unsigned char *)((uintptr_t)v1 + 68);
    v113 = (unsigned char *)((uintptr_t)v1 + 69);
    v114 = (unsigned char *)((uintptr_t)v1 + 70);
    v115 = (unsigned char *)((uintptr_t)v1 + 71);
    v116 = (unsigned char *)((uintptr_t)v1 + 72);
    v117 = (unsigned char *)((uintptr_t)v1 + 73);
    v118 = (unsigned char *)((uintptr_t)v1 + 74);
    v119 = (unsigned char *)((uintptr_t)v1 + 76);
    v120 = v25.b + 8;
    v121 = v25.b + 1;
    v122 = v25.b + 2;
    v123 = v25.b + 3;
    v124 = v25.b + 4;
    v125 = v25.b + 9;
    v126 = v25.b + 10;
    v127 = v24.b + 8;
    v128 = v28.b + 8;
    v129 = v28.b + 1;
    v130 = v28.b + 2;
    v131 = v28.b + 3;
    v132 = v28.b + 4;
    v133 = v28.b + 9;
    v134 = v28.b + 10;
    v135 = v27.b + 8;
    v136 = v27.b + 1;
    v137 = v27.b + 2;
    v138 = v27.b + 3;
    v139 = v27.b + 4;
    v140 = v27.b + 9;
    v141 = v27.b + 10;
    v142 = v26.b + 8;
    v143 = (unsigned char *)((uintptr_t)v1 + 80);
    v144 = 0ULL;
L2:;
    v145 = (unsigned char *)((uintptr_t)v2 + (uintptr_t)v144);
    v146 = v3 - v144;
    v147 = v4 - v144;
    v148 = v5 - v144;
    nd_memset(v29.b, 0, 48);
    nd_memset(v30.b, 0, 20);
    v149 = nd_load_8(v32);
    if (!(v149 == 4)) goto L38;
    v151 = nd_load_8(v91);
    v152 = nd_load_8(v108);
    v153 = nd_load_8(v109);
    v154 = nd_load_8(v110);
    v155 = nd_load_32(v111);
    v156 = nd_load_8(v112);
    v157 = nd_load_8(v113);
    v158 = nd_load_8(v114);
    v159 = nd_load_8(v116);
    v160 = nd_load_8(v117);
    v161 = nd_load_32(v119);
    if (!(v160 == 0)) goto L27;
    v163 = (uint64_t)v161;
    v164 = nd_umin_i64(v163, v146);
    nd_store_32(v128, 0U);
    nd_store_8(v28.b, v151);
    nd_store_8(v129, v152);
    nd_store_8(v130, v153);
    nd_store_8(v131, v154);
    nd_store_32(v132, v155);
    nd_store_8(v128, v156);
    nd_store_8(v133, v157);
    nd_store_8(v134, v158);
    v165 = nd_ndef_lang_leaf_LeafLanguage_step_all(v28.b, v145, v164, v163, v163);
    v167 = nd_umin_i64((v165 + 1ULL), v164);
    v168 = (uint32_t)v167;
    v169 = v161 - v168;
    v170 = nd_load_8(v28.b);
    v171 = nd_load_8(v129);
    v173 = nd_load_8(v130);
    v174 = nd_load_8(v131);
    v176 = nd_load_32(v132);
    v177 = nd_load_8(v128);
    v178 = nd_load_8(v133);
    v179 = nd_load_8(v134);
    if (!(v161 == v168)) { v192 = v170; v193 = v171; v194 = v173; v195 = v174; v196 = v176; v197 = v177; v198 = v178; v199 = v179; v200 = (uint8_t)(v159 & 1); v201 = 4U; goto L14; }
    nd_memset(v26.b, 0, 24);
    nd_store_32(v135, 0U);
    nd_store_8(v27.b, v170);
    nd_store_8(v136, v171);
    nd_store_8(v137, v173);
    nd_store_8(v138, v174);
    nd_store_32(v139, v176);
    nd_store_8(v135, v177);
    nd_store_8(v140, v178);
    nd_store_8(v141, v179);
    nd_ndef_lang_leaf_Leaf_lengths(v26.b, v27.b);
    v183 = nd_load_64(v142);
    switch (nd_load_8(v26.b)) {
    case 0: goto L6;
    case 1: goto L11;
    case 2: goto L7;
    case 3: goto L8;
    case 4: goto L9;
    default: goto L10; }
L6:;
    v192 = 0;
    v193 = 0;
    v194 = 0;
    v195 = 0;
    v196 = 0U;
    v197 = 0;
    v198 = 0;
    v199 = 0;
    v200 = 0;
    v201 = 6U;
    goto L14;
L7:;
    if (v183 == 0ULL) goto L12;
    v192 = 0;
    v193 = 0;
    v194 = 0;
    v195 = 0;
    v196 = 0U;
    v197 = 0;
    v198 = 0;
    v199 = 0;
    v200 = 0;
    v201 = 6U;
    goto L14;
L8:;
    if (v183 == 0ULL) goto L12;
    v192 = 0;
    v193 = 0;
    v194 = 0;
    v195 = 0;
    v196 = 0U;
    v197 = 0;
    v198 = 0;
    v199 = 0;
    v200 = 0;
    v201 = 6U;
    goto L14;
L9:;
    if (v183 == 0ULL) goto L12;
    v192 = 0;
    v193 = 0;
    v194 = 0;
    v195 = 0;
    v196 = 0U;
    v197 = 0;
    v198 = 0;
    v199 = 0;
    v200 = 0;
    v201 = 6U;
    goto L14;
L10:;
    nd_stop();
L11:;
    if (!(v183 == 0ULL)) { v192 = 0; v193 = 0; v194 = 0; v195 = 0; v196 = 0U; v197 = 0; v198 = 0; v199 = 0; v200 = 0; v201 = 6U; goto L14; }
L12:;
    if (!(uint8_t)(v159 & 1)) { v192 = 0; v193 = 0; v194 = 0; v195 = 0; v196 = 0U; v197 = 0; v198 = 0; v199 = 0; v200 = 0; v201 = 2U; goto L14; }
    v192 = 0;
    v193 = 0;
    v194 = 0;
    v195 = 0;
    v196 = 0U;
    v197 = 0;
    v198 = 0;
    v199 = 0;
    v200 = 0;
    v201 = (nd_load_8(v97) < 2) ? 5U : 6U;
L14:;
    switch (v170) {
    case 0: { v210 = 23; goto L26; }
    case 1: goto L15;
    case 2: goto L16;
    case 3: goto L24;
    default: goto L25; }
L15:;
    v210 = (uint8_t)((v171 == 8) ? 16 : 23);
    goto L26;
L16:;
    switch (v171) {
    case 0: { v210 = 23; goto L26; }
    case 2: { v210 = 23; goto L26; }
    case 1: goto L22;
    case 3: goto L17;
    case 4: goto L23;
    default: goto L21; }
L17:;
    if ((uint8_t)(v173 & 1)) { v210 = 23; goto L26; }
    v207 = (v176 & 252U) == 220U;
    if (!(uint8_t)(v174 & 1)) goto L20;
    if (v207) { v210 = 23; goto L26; }
    goto L23;
L20:;
    if (v207) goto L23;
    v210 = 23;
    goto L26;
L21:;
    nd_stop();
L22:;
    if (!((uint8_t)(v173 & 252) == 220)) { v210 = 23; goto L26; }
L23:;
    v210 = 17;
    goto L26;
L24:;
    v210 = v171;
    goto L26;
L25:;
    nd_stop();
L26:;
    nd_store_32(v32, v201);
    nd_store_8(v91, v192);
    nd_store_8(v108, v193);
    nd_store_8(v109, v194);
    nd_store_8(v110, v195);
    nd_store_32(v111, v196);
    nd_store_8(v112, v197);
    nd_store_8(v113, v198);
    nd_store_8(v114, v199);
    nd_store_8(v115, 0);
    nd_store_8(v116, v200);
    nd_store_8(v117, 0);
    nd_store_16(v118, 0);
    nd_store_32(v119, v169);
    nd_store_8(v143, v210);
    v870 = v165;
    v871 = v164;
    goto L175;
L27:;
    v212 = nd_umin_i64((uint64_t)v160, v146);
    v214 = (uint8_t)(v160 - (uint8_t)v212);
    if (!((v161 | (uint32_t)v214) == 0U)) { v229 = v151; v230 = v152; v231 = v153; v232 = v154; v233 = v155; v234 = v156; v235 = v157; v236 = v158; v237 = (uint8_t)(v159 & 1); v238 = v214; v239 = v161; v240 = 4U; goto L37; }
    nd_memset(v24.b, 0, 24);
    nd_store_32(v120, 0U);
    nd_store_8(v25.b, v151);
    nd_store_8(v121, v152);
    nd_store_8(v122, v153);
    nd_store_8(v123, v154);
    nd_store_32(v124, v155);
    nd_store_8(v120, v156);
    nd_store_8(v125, v157);
    nd_store_8(v126, v158);
    nd_ndef_lang_leaf_Leaf_lengths(v24.b, v25.b);
    v220 = nd_load_64(v127);
    switch (nd_load_8(v24.b)) {
    case 0: goto L29;
    case 1: goto L34;
    case 2: goto L30;
    case 3: goto L31;
    case 4: goto L32;
    default: goto L33; }
L29:;
    v229 = 0;
    v230 = 0;
    v231 = 0;
    v232 = 0;
    v233 = 0U;
    v234 = 0;
    v235 = 0;
    v236 = 0;
    v237 = 0;
    v238 = 0;
    v239 = 0U;
    v240 = 6U;
    goto L37;
L30:;
    if (v220 == 0ULL) goto L35;
    v229 = 0;
    v230 = 0;
    v231 = 0;
    v232 = 0;
    v233 = 0U;
    v234 = 0;
    v235 = 0;
    v236 = 0;
    v237 = 0;
    v238 = 0;
    v239 = 0U;
    v240 = 6U;
    goto L37;
L31:;
    if (v220 == 0ULL) goto L35;
    v229 = 0;
    v230 = 0;
    v231 = 0;
    v232 = 0;
    v233 = 0U;
    v234 = 0;
    v235 = 0;
    v236 = 0;
    v237 = 0;
    v238 = 0;
    v239 = 0U;
    v240 = 6U;
    goto L37;
L32:;
    if (v220 == 0ULL) goto L35;
    v229 = 0;
    v230 = 0;
    v231 = 0;
    v232 = 0;
    v233 = 0U;
    v234 = 0;
    v235 = 0;
    v236 = 0;
    v237 = 0;
    v238 = 0;
    v239 = 0U;
    v240 = 6U;
    goto L37;
L33:;
    nd_stop();
L34:;
    if (!(v220 == 0ULL)) { v229 = 0; v230 = 0; v231 = 0; v232 = 0; v233 = 0U; v234 = 0; v235 = 0; v236 = 0; v237 = 0; v238 = 0; v239 = 0U; v240 = 6U; goto L37; }
L35:;
    if (!(uint8_t)(v159 & 1)) { v229 = 0; v230 = 0; v231 = 0; v232 = 0; v233 = 0U; v234 = 0; v235 = 0; v236 = 0; v237 = 0; v238 = 0; v239 = 0U; v240 = 2U; goto L37; }
    v229 = 0;
    v230 = 0;
    v231 = 0;
    v232 = 0;
    v233 = 0U;
    v234 = 0;
    v235 = 0;
    v236 = 0;
    v237 = 0;
    v238 = 0;
    v239 = 0U;
    v240 = (nd_load_8(v97) < 2) ? 5U : 6U;
L37:;
    nd_store_32(v32, v240);
    nd_store_8(v91, v229);
    nd_store_8(v108, v230);
    nd_store_8(v109, v231);
    nd_store_8(v110, v232);
    nd_store_32(v111, v233);
    nd_store_8(v112, v234);
    nd_store_8(v113, v235);
    nd_store_8(v114, v236);
    nd_store_8(v115, 0);
    nd_store_8(v116, v237);
    nd_store_8(v117, v238);
    nd_store_16(v118, 0);
    nd_store_32(v119, v239);
    v869 = v212;
    goto L174;
L38:;
    nd_memset(v23.b, 0, 20);
    nd_memset(v20.b, 0, 32);
    switch (v149) {
    case 1: goto L39;
    case 2: { v246 = v33; goto L42; }
    case 0: goto L41;
    case 3: goto L41;
    case 6: goto L41;
    case 5: goto L41;
    default: goto L40; }
L39:;
    v241 = nd_load_64(v1);
    nd_store_8(v21.b, (uint8_t)v241);
    nd_store_8(v34, 1);
    nd_store_8(v35, 0);
    nd_store_8(v36, 1);
    nd_store_8(v37, (uint8_t)((v241 & 18446744069414584320ULL) == 4294967296ULL));
    nd_memset(v38, 0, 3);
    nd_store_32(v39, 4294967295U);
    nd_memset(v40, 0, 36);
    v246 = v21.b;
    goto L42;
L40:;
    nd_stop();
L41:;
    goto L165;
L42:;
    nd_ndef_piece_head_reader_HeadReader_whole_head(v20.b, v246, v145, v146);
    v249 = nd_load_8(v41);
    v251 = nd_load_8(v43);
    v254 = nd_load_32(v46);
    v255 = nd_load_64(v47);
    v257 = (uint8_t)((nd_load_8(v44) == 1) ? nd_load_8(v45) : 0);
    v258 = nd_load_8(v42) == 1;
    if (!(nd_load_8(v20.b) == 1)) goto L165;
    v259 = nd_load_64(v1);
    v261 = (v259 & 18446744069414584320ULL) + 18446744069414584320ULL;
    nd_store_64(v22.b, (v261 | (v259 & 16777215ULL)));
    v264 = (unsigned char *)((uintptr_t)v145 + (uintptr_t)v255);
    v265 = v146 - v255;
    v266 = v147 - v255;
    v267 = v148 - v255;
    nd_memset(v18.b, 0, 20);
    nd_memset(v19.b, 0, 20);
    v268 = (uint64_t)v251;
    v270 = (uint64_t)v257 + v268;
    v271 = (uint64_t)v254;
    v277 = (uint8_t)(v259 >> 8);
    v279 = (uint8_t)(v259 >> 16);
    v280 = (uint8_t)v259;
    v282 = (uint32_t)(v261 >> 32);
    if ((uint8_t)((v265 < v270) ? 1 : ((v265 - v270) < v271))) { v779 = v251; goto L142; }
    v283 = v270 + v271;
    if (!v258) { v312 = v251; v313 = 0; goto L60; }
    switch (v251) {
    case 0: { v312 = v251; v313 = v251; goto L60; }
    case 1: goto L46;
    default: goto L50; }
L46:;
    switch (nd_load_8(v264)) {
    case 84: { v309 = 1; goto L58; }
    case 85: goto L47;
    case 115: goto L48;
    case 116: goto L49;
    default: { v312 = 1; v313 = 0; goto L60; } }
L47:;
    v309 = 2;
    goto L58;
L48:;
    v309 = 8;
    goto L58;
L49:;
    v309 = 9;
    goto L58;
L50:;
    if (!(v251 < 3)) goto L54;
    v288 = nd_load_8(((unsigned char *)((uintptr_t)v264 + 1)));
    switch (nd_load_8(v264)) {
    case 99: goto L53;
    case 97: goto L52;
    default: { v312 = 2; v313 = 0; goto L60; } }
L52:;
    if ((uint8_t)((v288 != 99) ? 1 : (v277 == 0))) { v312 = 2; v313 = 0; goto L60; }
    v311 = 10;
    goto L59;
L53:;
    if ((uint8_t)((v288 == 114) ? (v277 == 1) : 0)) { v311 = 11; goto L59; }
    v312 = 2;
    v313 = 0;
    goto L60;
L54:;
    if (!(v251 == 3)) { v312 = v251; v313 = 0; goto L60; }
    v299 = nd_load_8(((unsigned char *)((uintptr_t)v264 + 1)));
    v300 = nd_load_8(((unsigned char *)((uintptr_t)v264 + 2)));
    switch (nd_load_8(v264)) {
    case 97: goto L56;
    case 101: goto L57;
    default: { v312 = 3; v313 = 0; goto L60; } }
L56:;
    if ((v299 == 99) & (int)(v300 == 116)) { v309 = 7; goto L58; }
    v312 = 3;
    v313 = 0;
    goto L60;
L57:;
    if ((uint8_t)(((v299 == 114) & (int)(v300 == 114)) ? (v277 == 2) : 0)) { v311 = 12; goto L59; }
    v312 = 3;
    v313 = 0;
    goto L60;
L58:;
    if (v277 == 0) { v311 = v309; goto L59; }
    v312 = v251;
    v313 = 0;
    goto L60;
L59:;
    v312 = v251;
    v313 = v311;
L60:;
    switch (v279) {
    case 0: goto L65;
    case 2: goto L65;
    case 1: goto L64;
    case 3: goto L61;
    default: goto L63; }
L61:;
    if (!(v313 == 11)) { v779 = v312; goto L142; }
    nd_store_32(v48, 0U);
    v759 = (unsigned char *)((uintptr_t)v264 + (uintptr_t)v270);
    v760 = 2U;
    v761 = 0;
    goto L131;
L63:;
    nd_stop();
L64:;
    if (v313 == 2) { v779 = v312; goto L142; }
L65:;
    v317 = (unsigned char *)((uintptr_t)v264 + (uintptr_t)v270);
    nd_store_32(v48, 0U);
    switch (v313) {
    case 1: goto L66;
    case 2: goto L86;
    case 9: goto L107;
    case 0: goto L133;
    case 3: goto L133;
    case 4: goto L133;
    case 5: goto L133;
    case 6: goto L130;
    case 12: goto L129;
    case 7: { v759 = v317; v760 = 1U; v761 = 0; goto L131; }
    case 8: goto L126;
    case 11: goto L127;
    case 10: goto L128;
    default: goto L132; }
L66:;
    if (v254 == 0U) goto L134;
    v319 = (unsigned char *)((uintptr_t)v317 + 1);
    v320 = v271 + 18446744073709551615ULL;
    v321 = nd_load_8(v317);
    v323 = (uint64_t)(uint8_t)(v321 & 63);
    if (((uint8_t)(v321 & 64) != 0) | (int)(v320 < v323)) goto L134;
    v328 = (int8_t)v321 < (int8_t)0;
    if ((v254 > 64U) | v328) goto L135;
    if (!(v254 < 9U)) goto L80;
    if (v254 < 5U) goto L73;
    if (!(((((((uint32_t)nd_load_8(((unsigned char *)((uintptr_t)v317 + 2))) << 8) | (uint32_t)nd_load_8(v319)) | ((uint32_t)nd_load_8(((unsigned char *)((uintptr_t)v317 + 3))) << 16)) | ((uint32_t)nd_load_8(((unsigned char *)((uintptr_t)v317 + 4))) << 24)) & 2155905152U) == 0U)) goto L135;
    v352 = (unsigned char *)((uintptr_t)v317 + (uintptr_t)v271);
    if (((((((uint32_t)nd_load_8(((unsigned char *)((uintptr_t)v352 - 3))) << 8) | (uint32_t)nd_load_8(((unsigned char *)((uintptr_t)v352 - 4)))) | ((uint32_t)nd_load_8(((unsigned char *)((uintptr_t)v352 - 2))) << 16)) | ((uint32_t)nd_load_8(((unsigned char *)((uintptr_t)v352 - 1))) << 24)) & 2155905152U) == 0U) goto L133;
    goto L135;
L73:;
    switch (v254) {
    case 1U: goto L133;
    case 2U: goto L74;
    case 4U: goto L77;
    default: goto L75; }
L74:;
    if ((int8_t)nd_load_8(v319) > (int8_t)255) goto L133;
    goto L135;
L75:;
    if (!((int8_t)nd_load_8(v319) > (int8_t)255)) goto L135;
    if ((int8_t)nd_load_8(((unsigned char *)((uintptr_t)v317 + 2))) > (int8_t)255) goto L133;
    goto L135;
L77:;
    v380 = (unsigned char *)((uintptr_t)v317 + 3);
    if (!((int8_t)nd_load_8(v319) > (int8_t)255)) goto L135;
    if (!((int8_t)nd_load_8(((unsigned char *)((uintptr_t)v317 + 2))) > (int8_t)255)) goto L135;
    if ((int8_t)nd_load_8(v380) > (int8_t)255) goto L133;
    goto L135;
L80:;
    if (!(v254 > 17U)) goto L82;
    v389 = nd_ndef_lang_ascii_are_many(v319, v320);
    if (v389) goto L133;
    goto L135;
L82:;
    if (!(((((((uint32_t)nd_load_8(((unsigned char *)((uintptr_t)v317 + 2))) << 8) | (uint32_t)nd_load_8(v319)) | ((uint32_t)nd_load_8(((unsigned char *)((uintptr_t)v317 + 3))) << 16)) | ((uint32_t)nd_load_8(((unsigned char *)((uintptr_t)v317 + 4))) << 24)) & 2155905152U) == 0U)) goto L135;
    if (!(((((((uint32_t)nd_load_8(((unsigned char *)((uintptr_t)v317 + 6))) << 8) | (uint32_t)nd_load_8(((unsigned char *)((uintptr_t)v317 + 5)))) | ((uint32_t)nd_load_8(((unsigned char *)((uintptr_t)v317 + 7))) << 16)) | ((uint32_t)nd_load_8(((unsigned char *)((uintptr_t)v317 + 8))) << 24)) & 2155905152U) == 0U)) goto L135;
    v429 = (unsigned char *)((uintptr_t)v317 + (uintptr_t)v271);
    if (!(((((((uint32_t)nd_load_8(((unsigned char *)((uintptr_t)v429 - 7))) << 8) | (uint32_t)nd_load_8(((unsigned char *)((uintptr_t)v429 - 8)))) | ((uint32_t)nd_load_8(((unsigned char *)((uintptr_t)v429 - 6))) << 16)) | ((uint32_t)nd_load_8(((unsigned char *)((uintptr_t)v429 - 5))) << 24)) & 2155905152U) == 0U)) goto L135;
    if (((((((uint32_t)nd_load_8(((unsigned char *)((uintptr_t)v429 - 3))) << 8) | (uint32_t)nd_load_8(((unsigned char *)((uintptr_t)v429 - 4)))) | ((uint32_t)nd_load_8(((unsigned char *)((uintptr_t)v429 - 2))) << 16)) | ((uint32_t)nd_load_8(((unsigned char *)((uintptr_t)v429 - 1))) << 24)) & 2155905152U) == 0U) goto L133;
    goto L135;
L86:;
    if (v254 == 0U) goto L134;
    v471 = (unsigned char *)((uintptr_t)v317 + 1);
    v472 = v271 + 18446744073709551615ULL;
    if (!(uint8_t)((nd_load_8(v317) < 36) ? 1 : (v280 == 1))) goto L134;
    if (!(v254 < 65U)) goto L106;
    if (!(v254 < 9U)) goto L100;
    if (v254 < 5U) goto L93;
    if (!(((((((uint32_t)nd_load_8(((unsigned char *)((uintptr_t)v317 + 2))) << 8) | (uint32_t)nd_load_8(v471)) | ((uint32_t)nd_load_8(((unsigned char *)((uintptr_t)v317 + 3))) << 16)) | ((uint32_t)nd_load_8(((unsigned char *)((uintptr_t)v317 + 4))) << 24)) & 2155905152U) == 0U)) goto L106;
    v499 = (unsigned char *)((uintptr_t)v317 + (uintptr_t)v271);
    if (((((((uint32_t)nd_load_8(((unsigned char *)((uintptr_t)v499 - 3))) << 8) | (uint32_t)nd_load_8(((unsigned char *)((uintptr_t)v499 - 4)))) | ((uint32_t)nd_load_8(((unsigned char *)((uintptr_t)v499 - 2))) << 16)) | ((uint32_t)nd_load_8(((unsigned char *)((uintptr_t)v499 - 1))) << 24)) & 2155905152U) == 0U) goto L133;
    goto L106;
L93:;
    switch (v254) {
    case 1U: goto L133;
    case 2U: goto L94;
    case 4U: goto L97;
    default: goto L95; }
L94:;
    if ((int8_t)nd_load_8(v471) > (int8_t)255) goto L133;
    goto L106;
L95:;
    if (!((int8_t)nd_load_8(v471) > (int8_t)255)) goto L106;
    if ((int8_t)nd_load_8(((unsigned char *)((uintptr_t)v317 + 2))) > (int8_t)255) goto L133;
    goto L106;
L97:;
    v527 = (unsigned char *)((uintptr_t)v317 + 3);
    if (!((int8_t)nd_load_8(v471) > (int8_t)255)) goto L106;
    if (!((int8_t)nd_load_8(((unsigned char *)((uintptr_t)v317 + 2))) > (int8_t)255)) goto L106;
    if ((int8_t)nd_load_8(v527) > (int8_t)255) goto L133;
    goto L106;
L100:;
    if (!(v254 > 17U)) goto L102;
    v536 = nd_ndef_lang_ascii_are_many(v471, v472);
    if (v536) goto L133;
    goto L106;
L102:;
    if (!(((((((uint32_t)nd_load_8(((unsigned char *)((uintptr_t)v317 + 2))) << 8) | (uint32_t)nd_load_8(v471)) | ((uint32_t)nd_load_8(((unsigned char *)((uintptr_t)v317 + 3))) << 16)) | ((uint32_t)nd_load_8(((unsigned char *)((uintptr_t)v317 + 4))) << 24)) & 2155905152U) == 0U)) goto L106;
    if (!(((((((uint32_t)nd_load_8(((unsigned char *)((uintptr_t)v317 + 6))) << 8) | (uint32_t)nd_load_8(((unsigned char *)((uintptr_t)v317 + 5)))) | ((uint32_t)nd_load_8(((unsigned char *)((uintptr_t)v317 + 7))) << 16)) | ((uint32_t)nd_load_8(((unsigned char *)((uintptr_t)v317 + 8))) << 24)) & 2155905152U) == 0U)) goto L106;
    v576 = (unsigned char *)((uintptr_t)v317 + (uintptr_t)v271);
    if (!(((((((uint32_t)nd_load_8(((unsigned char *)((uintptr_t)v576 - 7))) << 8) | (uint32_t)nd_load_8(((unsigned char *)((uintptr_t)v576 - 8)))) | ((uint32_t)nd_load_8(((unsigned char *)((uintptr_t)v576 - 6))) << 16)) | ((uint32_t)nd_load_8(((unsigned char *)((uintptr_t)v576 - 5))) << 24)) & 2155905152U) == 0U)) goto L106;
    if (((((((uint32_t)nd_load_8(((unsigned char *)((uintptr_t)v576 - 3))) << 8) | (uint32_t)nd_load_8(((unsigned char *)((uintptr_t)v576 - 4)))) | ((uint32_t)nd_load_8(((unsigned char *)((uintptr_t)v576 - 2))) << 16)) | ((uint32_t)nd_load_8(((unsigned char *)((uintptr_t)v576 - 1))) << 24)) & 2155905152U) == 0U) goto L133;
L106:;
    v617 = nd_ndef_lang_member_is_long_utf8(v471, v472);
    if (v617) goto L136;
    v779 = v312;
    goto L142;
L107:;
    if (!(v254 < 64U)) goto L125;
    if (!(v254 < 8U)) goto L119;
    if (v254 < 4U) goto L112;
    if (!(((((((uint32_t)nd_load_8(((unsigned char *)((uintptr_t)v317 + 1))) << 8) | (uint32_t)nd_load_8(v317)) | ((uint32_t)nd_load_8(((unsigned char *)((uintptr_t)v317 + 2))) << 16)) | ((uint32_t)nd_load_8(((unsigned char *)((uintptr_t)v317 + 3))) << 24)) & 2155905152U) == 0U)) goto L125;
    v640 = (unsigned char *)((uintptr_t)v317 + (uintptr_t)v271);
    if (((((((uint32_t)nd_load_8(((unsigned char *)((uintptr_t)v640 - 3))) << 8) | (uint32_t)nd_load_8(((unsigned char *)((uintptr_t)v640 - 4)))) | ((uint32_t)nd_load_8(((unsigned char *)((uintptr_t)v640 - 2))) << 16)) | ((uint32_t)nd_load_8(((unsigned char *)((uintptr_t)v640 - 1))) << 24)) & 2155905152U) == 0U) goto L133;
    goto L125;
L112:;
    switch (v254) {
    case 0U: goto L133;
    case 1U: goto L113;
    case 3U: goto L116;
    default: goto L114; }
L113:;
    if ((int8_t)nd_load_8(v317) > (int8_t)255) goto L133;
    goto L125;
L114:;
    if (!((int8_t)nd_load_8(v317) > (int8_t)255)) goto L125;
    if ((int8_t)nd_load_8(((unsigned char *)((uintptr_t)v317 + 1))) > (int8_t)255) goto L133;
    goto L125;
L116:;
    v668 = (unsigned char *)((uintptr_t)v317 + 2);
    if (!((int8_t)nd_load_8(v317) > (int8_t)255)) goto L125;
    if (!((int8_t)nd_load_8(((unsigned char *)((uintptr_t)v317 + 1))) > (int8_t)255)) goto L125;
    if ((int8_t)nd_load_8(v668) > (int8_t)255) goto L133;
    goto L125;
L119:;
    if (!(v254 > 16U)) goto L121;
    v677 = nd_ndef_lang_ascii_are_many(v317, v271);
    if (v677) goto L133;
    goto L125;
L121:;
    if (!(((((((uint32_t)nd_load_8(((unsigned char *)((uintptr_t)v317 + 1))) << 8) | (uint32_t)nd_load_8(v317)) | ((uint32_t)nd_load_8(((unsigned char *)((uintptr_t)v317 + 2))) << 16)) | ((uint32_t)nd_load_8(((unsigned char *)((uintptr_t)v317 + 3))) << 24)) & 2155905152U) == 0U)) goto L125;
    if (!(((((((uint32_t)nd_load_8(((unsigned char *)((uintptr_t)v317 + 5))) << 8) | (uint32_t)nd_load_8(((unsigned char *)((uintptr_t)v317 + 4)))) | ((uint32_t)nd_load_8(((unsigned char *)((uintptr_t)v317 + 6))) << 16)) | ((uint32_t)nd_load_8(((unsigned char *)((uintptr_t)v317 + 7))) << 24)) & 2155905152U) == 0U)) goto L125;
    v717 = (unsigned char *)((uintptr_t)v317 + (uintptr_t)v271);
    if (!(((((((uint32_t)nd_load_8(((unsigned char *)((uintptr_t)v717 - 7))) << 8) | (uint32_t)nd_load_8(((unsigned char *)((uintptr_t)v717 - 8)))) | ((uint32_t)nd_load_8(((unsigned char *)((uintptr_t)v717 - 6))) << 16)) | ((uint32_t)nd_load_8(((unsigned char *)((uintptr_t)v717 - 5))) << 24)) & 2155905152U) == 0U)) goto L125;
    if (((((((uint32_t)nd_load_8(((unsigned char *)((uintptr_t)v717 - 3))) << 8) | (uint32_t)nd_load_8(((unsigned char *)((uintptr_t)v717 - 4)))) | ((uint32_t)nd_load_8(((unsigned char *)((uintptr_t)v717 - 2))) << 16)) | ((uint32_t)nd_load_8(((unsigned char *)((uintptr_t)v717 - 1))) << 24)) & 2155905152U) == 0U) goto L133;
L125:;
    v758 = nd_ndef_lang_member_is_long_utf8(v317, v271);
    if (v758) goto L136;
    v779 = v312;
    goto L142;
L126:;
    v759 = v317;
    v760 = 4U;
    v761 = 0;
    goto L131;
L127:;
    v759 = v317;
    v760 = 2U;
    v761 = 0;
    goto L131;
L128:;
    v759 = v317;
    v760 = 1U;
    v761 = 8;
    goto L131;
L129:;
    v759 = v317;
    v760 = 0U;
    v761 = 6;
    goto L131;
L130:;
    v759 = v317;
    v760 = 1U;
    v761 = 7;
L131:;
    nd_store_32(v17.b, 0U);
    nd_store_32(v49, v760);
    nd_store_8(v48, 0);
    nd_store_8(v50, v761);
    nd_store_8(v51, 0);
    v762 = nd_ndef_lang_leaf_Leaf_is_completed_by(v17.b, v759, v271);
    if (v762) goto L136;
    v779 = v312;
    goto L142;
L132:;
    nd_stop();
L133:;
    goto L136;
L134:;
    v779 = v312;
    goto L142;
L135:;
    v763 = nd_ndef_lang_member_is_coded_text(v323, v328, v319, v320);
    if (!v763) { v779 = v312; goto L142; }
L136:;
    switch (v279) {
    case 2: goto L137;
    case 3: { v767 = 0; v768 = 5U; goto L140; }
    case 0: goto L139;
    case 1: goto L139;
    default: goto L138; }
L137:;
    v764 = v313 == 2;
    v767 = (uint8_t)(v764 ? 1 : 2);
    v768 = v764 ? 5U : 6U;
    goto L140;
L138:;
    nd_stop();
L139:;
    v767 = v279;
    v768 = 5U;
L140:;
    v770 = (uint8_t)(v249 & 1) ? v768 : 2U;
    nd_store_32(v15.b, v770);
    nd_memset(v52, 0, 20);
    nd_store_64(v16.b, 0ULL);
    nd_store_8(v16.b, v280);
    nd_store_8(v53, v277);
    nd_store_8(v54, v767);
    nd_store_32(v55, v282);
    v773 = nd_ndef_nest_phase_NestPhase_span(v15.b, v16.b);
    v776 = nd_umax_i64((v266 - v283), v773.f0);
    v777 = nd_umin_i64((v267 - v283), v773.f1);
    if (v776 > v777) { v779 = v312; goto L142; }
    nd_memset(v23.b, 0, 20);
    v834 = v770;
    v835 = v283;
    v836 = v767;
    goto L164;
L142:;
    if (v265 < v268) { v823 = v779; goto L161; }
    nd_memset(v13.b, 0, 28);
    if (!v258) { v809 = v779; v810 = 4; v811 = 0; goto L159; }
    switch (v779) {
    case 0: { v809 = v779; v810 = v779; v811 = v779; goto L159; }
    case 1: goto L145;
    default: goto L149; }
L145:;
    switch (nd_load_8(v264)) {
    case 84: { v806 = 1; goto L157; }
    case 85: goto L146;
    case 115: goto L147;
    case 116: goto L148;
    default: { v809 = 1; v810 = 0; v811 = 0; goto L159; } }
L146:;
    v806 = 2;
    goto L157;
L147:;
    v806 = 8;
    goto L157;
L148:;
    v806 = 9;
    goto L157;
L149:;
    if (!(v779 < 3)) goto L153;
    v785 = nd_load_8(((unsigned char *)((uintptr_t)v264 + 1)));
    switch (nd_load_8(v264)) {
    case 99: goto L152;
    case 97: goto L151;
    default: { v809 = 2; v810 = 0; v811 = 0; goto L159; } }
L151:;
    if ((uint8_t)((v785 != 99) ? 1 : (v277 == 0))) { v809 = 2; v810 = 0; v811 = 0; goto L159; }
    v808 = 10;
    goto L158;
L152:;
    if ((uint8_t)((v785 == 114) ? (v277 == 1) : 0)) { v808 = 11; goto L158; }
    v809 = 2;
    v810 = 0;
    v811 = 0;
    goto L159;
L153:;
    if (!(v779 == 3)) { v809 = v779; v810 = 0; v811 = 0; goto L159; }
    v796 = nd_load_8(((unsigned char *)((uintptr_t)v264 + 1)));
    v797 = nd_load_8(((unsigned char *)((uintptr_t)v264 + 2)));
    switch (nd_load_8(v264)) {
    case 97: goto L155;
    case 101: goto L156;
    default: { v809 = 3; v810 = 0; v811 = 0; goto L159; } }
L155:;
    if ((v796 == 99) & (int)(v797 == 116)) { v806 = 7; goto L157; }
    v809 = 3;
    v810 = 0;
    v811 = 0;
    goto L159;
L156:;
    if ((uint8_t)(((v796 == 114) & (int)(v797 == 114)) ? (v277 == 2) : 0)) { v808 = 12; goto L158; }
    v809 = 3;
    v810 = 0;
    v811 = 0;
    goto L159;
L157:;
    if (v277 == 0) { v808 = v806; goto L158; }
    v809 = v779;
    v810 = 0;
    v811 = 0;
    goto L159;
L158:;
    v809 = v779;
    v810 = 0;
    v811 = v808;
L159:;
    nd_store_8(v14.b, v809);
    nd_store_8(v56, v810);
    nd_store_8(v57, 0);
    nd_store_8(v58, 0);
    nd_store_8(v59, 0);
    nd_store_8(v60, v249);
    nd_store_8(v61, v257);
    nd_store_8(v62, 0);
    nd_store_32(v63, v254);
    nd_ndef_nest_phase_Name_entered(v13.b, v14.b, v22.b, v811);
    v812 = nd_load_8(v13.b);
    v814 = (uint32_t)nd_load_8(v64);
    nd_memcpy(v18.b, v65, 20);
    nd_store_32(v11.b, v814);
    nd_memcpy(v66, v18.b, 20);
    nd_store_64(v12.b, 0ULL);
    nd_store_8(v12.b, v280);
    nd_store_8(v67, v277);
    nd_store_8(v68, v812);
    nd_store_32(v69, v282);
    v817 = nd_ndef_nest_phase_NestPhase_span(v11.b, v12.b);
    v820 = nd_umax_i64((v266 - v268), v817.f0);
    v821 = nd_umin_i64((v267 - v268), v817.f1);
    if (v820 > v821) { v823 = v809; goto L161; }
    nd_memcpy(v23.b, v18.b, 20);
    v834 = v814;
    v835 = v268;
    v836 = v812;
    goto L164;
L161:;
    nd_memset(v9.b, 0, 28);
    nd_store_8(v10.b, v823);
    nd_store_8(v70, (uint8_t)(v258 ? 0 : 4));
    nd_store_8(v71, 0);
    nd_store_8(v72, 0);
    nd_store_8(v73, 0);
    nd_store_8(v74, v249);
    nd_store_8(v75, v257);
    nd_store_8(v76, 0);
    nd_store_32(v77, v254);
    nd_ndef_nest_phase_Name_settled(v9.b, v10.b, v22.b);
    v825 = nd_load_8(v9.b);
    v827 = (uint32_t)nd_load_8(v78);
    nd_memcpy(v19.b, v79, 20);
    nd_store_32(v7.b, v827);
    nd_memcpy(v80, v19.b, 20);
    nd_store_64(v8.b, 0ULL);
    nd_store_8(v8.b, v280);
    nd_store_8(v81, v277);
    nd_store_8(v82, v825);
    nd_store_32(v83, v282);
    v828 = nd_ndef_nest_phase_NestPhase_span(v7.b, v8.b);
    v831 = nd_umax_i64(v266, v828.f0);
    v832 = nd_umin_i64(v267, v828.f1);
    if (v831 > v832) goto L163;
    nd_memcpy(v23.b, v19.b, 20);
    v834 = v827;
    v835 = 0ULL;
    v836 = v825;
    goto L164;
L163:;
    goto L165;
L164:;
    nd_memcpy(v30.b, v23.b, 20);
    nd_store_64(v1, ((((uint64_t)v836 << 16) | (v259 & 65535ULL)) | v261));
    nd_store_8(v33, v280);
    nd_store_8(v84, 0);
    nd_store_8(v85, 0);
    nd_store_8(v86, 1);
    nd_store_8(v87, (uint8_t)(v261 == 4294967296ULL));
    nd_memset(v88, 0, 3);
    nd_store_32(v89, 4294967295U);
    nd_memset(v90, 0, 36);
    nd_store_32(v32, v834);
    nd_memcpy(v91, v30.b, 20);
    v869 = v835 + v255;
    goto L174;
L165:;
    nd_ndef_nest_nest_Nest_stepped(v29.b, v1, nd_load_8(v145));
    v846 = v147 + 18446744073709551615ULL;
    v847 = v148 + 18446744073709551615ULL;
    v849 = nd_load_8(v92);
    v850 = nd_load_8(v93);
    v851 = nd_load_64(v94);
    v852 = nd_load_16(v95);
    v853 = nd_load_16(v96);
    if (!(nd_load_8(v29.b) == 1)) goto L172;
    v855 = nd_load_8(v97);
    switch (v855) {
    case 2: goto L167;
    case 3: goto L168;
    case 0: goto L169;
    case 1: goto L169;
    default: goto L170; }
L167:;
    if (v850 == 1) { v858 = 1; v859 = 1; goto L171; }
    goto L169;
L168:;
    if (v850 == 1) { v858 = 1; v859 = 2; goto L171; }
L169:;
    v858 = 0;
    v859 = 0;
    goto L171;
L170:;
    nd_stop();
L171:;
    nd_store_8(v6.b, v849);
    nd_memset(v98, 0, 7);
    nd_store_64(v99, v851);
    nd_store_16(v100, v852);
    nd_store_16(v101, v853);
    nd_store_32(v102, 0U);
    nd_memcpy(v103, v104, 16);
    nd_store_8(v105, v858);
    nd_store_8(v106, v859);
    nd_memset(v107, 0, 6);
    v860 = nd_ndef_nest_span_OpenRecord_span(v6.b, v855);
    v863 = nd_umax_i64(v846, v860.f0);
    v864 = nd_umin_i64(v847, v860.f1);
    v867 = v863 <= v864;
    goto L173;
L172:;
    v866 = nd_ndef_nest_nest_NestLanguage_fits(v1, v846, v847);
    v867 = v866;
L173:;
    v870 = (uint64_t)v867;
    v871 = 1ULL;
    goto L175;
L174:;
    v875 = v869;
    goto L178;
L175:;
    if (v870 < v871) goto L177;
    v875 = v871;
    goto L178;
L176:;
    return v873;
L177:;
    v873 = v870 + v144;
    goto L176;
L178:;
    v876 = v875 + v144;
    if (v876 < v3) { v144 = v876; goto L2; }
    v873 = v876;
    goto L176;
}

static uint64_t nd_ndef_lang_leaf_LeafLanguage_step_all(unsigned char *v1, unsigned char *v2, uint64_t v3, uint64_t v4, uint64_t v5) {
    unsigned char *v10, *v12, *v13, *v14, *v15, *v16, *v17, *v18, *v19, *v20, *v21, *v22, *v23, *v24, *v25, *v26, *v27, *v28, *v29, *v30, *v31, *v32, *v33, *v37, *v62;
    uint8_t v35, v44, v47, v50, v51, v55, v58, v61, v65, v71, v77, v80, v82, v85, v86, v87, v90, v94, v95, v96, v98, v99, v100, v104, v110, v114;
    uint64_t v36, v38, v46, v59, v60, v76, v78, v79, v81, v88, v91, v92, v109, v122, v123, v124, v126, v136, v137, v138, v144;
    uint32_t v39, v97;
    ND_ROOM(1) v6;
    ND_ROOM(12) v7, v8;
    ND_ROOM(24) v9;
    v10 = v7.b + 8;
    nd_store_32(v10, 0U);
    nd_memset(v8.b, 0, 12);
    nd_memset(v9.b, 0, 24);
    if (v3 == 0ULL) { v144 = 0ULL; goto L34; }
    v12 = (unsigned char *)((uintptr_t)v1 + 1);
    v13 = (unsigned char *)((uintptr_t)v1 + 3);
    v14 = (unsigned char *)((uintptr_t)v1 + 4);
    v15 = (unsigned char *)((uintptr_t)v1 + 2);
    v16 = (unsigned char *)((uintptr_t)v1 + 8);
    v17 = (unsigned char *)((uintptr_t)v1 + 9);
    v18 = (unsigned char *)((uintptr_t)v1 + 10);
    v19 = v7.b + 1;
    v20 = v7.b + 2;
    v21 = v7.b + 3;
    v22 = v7.b + 4;
    v23 = v7.b + 9;
    v24 = v7.b + 10;
    v25 = v8.b + 1;
    v26 = v8.b + 2;
    v27 = v8.b + 3;
    v28 = v8.b + 4;
    v29 = v8.b + 8;
    v30 = v8.b + 9;
    v31 = v8.b + 10;
    v32 = v9.b + 8;
    v33 = v9.b + 16;
    v35 = nd_load_8(v1);
    v36 = 0ULL;
L2:;
    v37 = (unsigned char *)((uintptr_t)v2 + (uintptr_t)v36);
    v38 = v3 - v36;
    switch (v35) {
    case 0: goto L3;
    case 2: goto L7;
    case 1: { v90 = v35; v91 = 0ULL; goto L22; }
    case 3: { v90 = v35; v91 = 0ULL; goto L22; }
    default: goto L21; }
L3:;
    v39 = nd_load_32(v14);
    if (!(v39 == 0U)) goto L5;
    v90 = 0;
    v91 = (nd_load_8(v17) == 1) ? v38 : 0ULL;
    goto L22;
L5:;
    v44 = nd_load_8(v16);
    v46 = nd_umin_i64((uint64_t)v39, v38);
    v47 = nd_ndef_lang_leaf_Class_has_all(v44, v37, v46);
    if (!v47) { v90 = 0; v91 = 0ULL; goto L22; }
    nd_store_32(v1, 0U);
    nd_store_32(v14, (v39 - (uint32_t)v46));
    v90 = 0;
    v91 = v46;
    goto L22;
L7:;
    v50 = nd_load_8(v12);
    v51 = nd_load_8(v13);
    if (!(v50 == 2)) { v85 = nd_load_8(v14); v86 = v51; v87 = v50; v88 = 0ULL; goto L20; }
    v55 = (uint8_t)(nd_load_8(v15) & 1);
    if (!(v38 > 1ULL)) { v85 = 0; v86 = v51; v87 = 2; v88 = 0ULL; goto L20; }
    v58 = v51;
    v59 = 0ULL;
    v60 = 0ULL;
    v61 = (uint8_t)(v51 & 1);
L10:;
    v62 = v37 + (ptrdiff_t)v60;
    if (!v55) goto L13;
    v65 = (uint8_t)(nd_load_8((v62 + 1)) & 252);
    if (v65 == 220) goto L15;
    if (v61) { v85 = 0; v86 = v58; v87 = 2; v88 = v59; goto L20; }
    v77 = (v65 == 216) & (int)(v61 ^ 1);
    goto L17;
L13:;
    v71 = (uint8_t)(nd_load_8(v62) & 252);
    if (v71 == 220) goto L15;
    if (v61) { v85 = 0; v86 = v58; v87 = 2; v88 = v59; goto L20; }
    v77 = (v71 == 216) & (int)(v61 ^ 1);
    goto L17;
L15:;
    if (!v61) { v85 = 0; v86 = v58; v87 = 2; v88 = v59; goto L20; }
    v76 = v60 + 2ULL;
    v79 = v76;
    v80 = 0;
    v81 = v76;
    v82 = 0;
    goto L19;
L17:;
    v78 = v60 + 2ULL;
    if (v77) { v79 = v59; v80 = 1; v81 = v78; v82 = v58; goto L19; }
    v79 = v78;
    v80 = 0;
    v81 = v78;
    v82 = 0;
L19:;
    if ((v38 - v81) > 1ULL) { v58 = v82; v59 = v79; v60 = v81; v61 = v80; goto L10; }
    v85 = 0;
    v86 = v82;
    v87 = 2;
    v88 = v79;
L20:;
    nd_store_8(v1, 2);
    nd_store_8(v12, v87);
    nd_store_8(v13, v86);
    nd_store_32(v14, (uint32_t)v85);
    nd_store_8(v16, 0);
    nd_store_8(v17, 0);
    nd_store_8(v18, 0);
    v90 = 2;
    v91 = v88;
    goto L22;
L21:;
    nd_stop();
L22:;
    v92 = v91 + v36;
    if (v92 == v3) { v144 = v3; goto L34; }
    nd_store_8(v7.b, v90);
    v94 = nd_load_8(v12);
    nd_store_8(v19, v94);
    v95 = nd_load_8(v15);
    nd_store_8(v20, v95);
    v96 = nd_load_8(v13);
    nd_store_8(v21, v96);
    v97 = nd_load_32(v14);
    nd_store_32(v22, v97);
    v98 = nd_load_8(v16);
    nd_store_8(v10, v98);
    v99 = nd_load_8(v17);
    nd_store_8(v23, v99);
    v100 = nd_load_8(v18);
    nd_store_8(v24, v100);
    switch (v90) {
    case 1: { v104 = v94; goto L26; }
    case 0: goto L24;
    case 2: goto L27;
    case 3: goto L27;
    default: goto L25; }
L24:;
    if ((uint8_t)((v97 == 0U) ? (v99 == 2) : 0)) { v104 = 0; goto L26; }
    goto L27;
L25:;
    nd_stop();
L26:;
    nd_store_8(v6.b, v104);
    v109 = nd_ndef_lang_utf8_Utf8Lang_take(v6.b, ((unsigned char *)((uintptr_t)v2 + (uintptr_t)v92)), (v3 - v92), (v4 - v92), (v5 - v92));
    v110 = nd_load_8(v6.b);
    nd_store_8(v1, 1);
    nd_store_8(v12, v110);
    nd_memset(v15, 0, 9);
    v144 = v109 + v92;
    goto L34;
L27:;
    nd_store_8(v8.b, v90);
    nd_store_8(v25, v94);
    nd_store_8(v26, v95);
    nd_store_8(v27, v96);
    nd_store_32(v28, v97);
    nd_store_8(v29, v98);
    nd_store_8(v30, v99);
    nd_store_8(v31, v100);
    nd_ndef_lang_leaf_Leaf_after(v7.b, v8.b, nd_load_8((v2 + (ptrdiff_t)v92)));
    v114 = nd_load_8(v7.b);
    nd_store_8(v1, v114);
    nd_store_8(v12, nd_load_8(v19));
    nd_store_8(v15, nd_load_8(v20));
    nd_store_8(v13, nd_load_8(v21));
    nd_store_32(v14, nd_load_32(v22));
    nd_store_8(v16, nd_load_8(v10));
    nd_store_8(v17, nd_load_8(v23));
    nd_store_8(v18, nd_load_8(v24));
    v122 = v92 + 1ULL;
    nd_ndef_lang_leaf_Leaf_lengths(v9.b, v7.b);
    v123 = v4 - v122;
    v124 = v5 - v122;
    v126 = nd_load_64(v32);
    switch (nd_load_8(v9.b)) {
    case 0: { v144 = v92; goto L34; }
    case 1: goto L32;
    case 2: goto L28;
    case 3: goto L29;
    case 4: goto L30;
    default: goto L31; }
L28:;
    if ((uint8_t)((v123 <= v124) ? (v126 <= v124) : 0)) goto L33;
    v144 = v92;
    goto L34;
L29:;
    if ((uint8_t)((v126 <= v124) ? (v123 <= (v124 - ((v124 - v126) & 1ULL))) : 0)) goto L33;
    v144 = v92;
    goto L34;
L30:;
    v136 = nd_load_64(v33);
    v137 = nd_umax_i64(v126, v123);
    v138 = nd_umin_i64(v136, v124);
    if (v137 > v138) { v144 = v92; goto L34; }
    goto L33;
L31:;
    nd_stop();
L32:;
    if (!((v123 <= v126) & (int)(v126 <= v124))) { v144 = v92; goto L34; }
L33:;
    if (v122 < v3) { v35 = v114; v36 = v122; goto L2; }
    v144 = v122;
L34:;
    return v144;
}

static uint8_t nd_ndef_lang_leaf_Class_has_all(uint8_t v1, unsigned char *v2, uint64_t v3) {
    unsigned char *v26, *v54, *v103;
    uint8_t v63, v144;
    if (v1 == 0) { v144 = 1; goto L18; }
    if (!(v3 < 8ULL)) goto L12;
    if (v3 < 4ULL) goto L5;
    if (!(((((((uint32_t)nd_load_8(((unsigned char *)((uintptr_t)v2 + 1))) << 8) | (uint32_t)nd_load_8(v2)) | ((uint32_t)nd_load_8(((unsigned char *)((uintptr_t)v2 + 2))) << 16)) | ((uint32_t)nd_load_8(((unsigned char *)((uintptr_t)v2 + 3))) << 24)) & 2155905152U) == 0U)) { v144 = 0; goto L18; }
    v26 = (unsigned char *)((uintptr_t)v2 + (uintptr_t)v3);
    v144 = ((((((uint32_t)nd_load_8(((unsigned char *)((uintptr_t)v26 - 3))) << 8) | (uint32_t)nd_load_8(((unsigned char *)((uintptr_t)v26 - 4)))) | ((uint32_t)nd_load_8(((unsigned char *)((uintptr_t)v26 - 2))) << 16)) | ((uint32_t)nd_load_8(((unsigned char *)((uintptr_t)v26 - 1))) << 24)) & 2155905152U) == 0U;
    goto L18;
L5:;
    switch (v3) {
    case 0ULL: { v144 = 1; goto L18; }
    case 1ULL: goto L6;
    case 3ULL: goto L9;
    default: goto L7; }
L6:;
    v144 = (int8_t)nd_load_8(v2) > (int8_t)255;
    goto L18;
L7:;
    if (!((int8_t)nd_load_8(v2) > (int8_t)255)) { v144 = 0; goto L18; }
    v144 = (int8_t)nd_load_8(((unsigned char *)((uintptr_t)v2 + 1))) > (int8_t)255;
    goto L18;
L9:;
    v54 = (unsigned char *)((uintptr_t)v2 + 2);
    if (!((int8_t)nd_load_8(v2) > (int8_t)255)) { v144 = 0; goto L18; }
    if (!((int8_t)nd_load_8(((unsigned char *)((uintptr_t)v2 + 1))) > (int8_t)255)) { v144 = 0; goto L18; }
    v144 = (int8_t)nd_load_8(v54) > (int8_t)255;
    goto L18;
L12:;
    if (!(v3 > 16ULL)) goto L14;
    v63 = nd_ndef_lang_ascii_are_many(v2, v3);
    v144 = v63;
    goto L18;
L14:;
    if (!(((((((uint32_t)nd_load_8(((unsigned char *)((uintptr_t)v2 + 1))) << 8) | (uint32_t)nd_load_8(v2)) | ((uint32_t)nd_load_8(((unsigned char *)((uintptr_t)v2 + 2))) << 16)) | ((uint32_t)nd_load_8(((unsigned char *)((uintptr_t)v2 + 3))) << 24)) & 2155905152U) == 0U)) { v144 = 0; goto L18; }
    if (!(((((((uint32_t)nd_load_8(((unsigned char *)((uintptr_t)v2 + 5))) << 8) | (uint32_t)nd_load_8(((unsigned char *)((uintptr_t)v2 + 4)))) | ((uint32_t)nd_load_8(((unsigned char *)((uintptr_t)v2 + 6))) << 16)) | ((uint32_t)nd_load_8(((unsigned char *)((uintptr_t)v2 + 7))) << 24)) & 2155905152U) == 0U)) { v144 = 0; goto L18; }
    v103 = (unsigned char *)((uintptr_t)v2 + (uintptr_t)v3);
    if (!(((((((uint32_t)nd_load_8(((unsigned char *)((uintptr_t)v103 - 7))) << 8) | (uint32_t)nd_load_8(((unsigned char *)((uintptr_t)v103 - 8)))) | ((uint32_t)nd_load_8(((unsigned char *)((uintptr_t)v103 - 6))) << 16)) | ((uint32_t)nd_load_8(((unsigned char *)((uintptr_t)v103 - 5))) << 24)) & 2155905152U) == 0U)) { v144 = 0; goto L18; }
    v144 = ((((((uint32_t)nd_load_8(((unsigned char *)((uintptr_t)v103 - 3))) << 8) | (uint32_t)nd_load_8(((unsigned char *)((uintptr_t)v103 - 4)))) | ((uint32_t)nd_load_8(((unsigned char *)((uintptr_t)v103 - 2))) << 16)) | ((uint32_t)nd_load_8(((unsigned char *)((uintptr_t)v103 - 1))) << 24)) & 2155905152U) == 0U;
L18:;
    return v144;
}

static uint8_t nd_ndef_lang_ascii_are_many(unsigned char *v1, uint64_t v2) {
    unsigned char *v5, *v6, *v48, *v90;
    uint64_t v7, v49;
    uint8_t v47;
    v5 = (unsigned char *)((uintptr_t)v1 + (uintptr_t)((v2 + 18446744073709551599ULL) & 18446744073709551608ULL));
    v6 = v1;
    v7 = v2;
L1:;
    if (!(((((((uint32_t)nd_load_8(((unsigned char *)((uintptr_t)v6 + 1))) << 8) | (uint32_t)nd_load_8(v6)) | ((uint32_t)nd_load_8(((unsigned char *)((uintptr_t)v6 + 2))) << 16)) | ((uint32_t)nd_load_8(((unsigned char *)((uintptr_t)v6 + 3))) << 24)) & 2155905152U) == 0U)) { v47 = 0; goto L3; }
    if (((((((uint32_t)nd_load_8(((unsigned char *)((uintptr_t)v6 + 5))) << 8) | (uint32_t)nd_load_8(((unsigned char *)((uintptr_t)v6 + 4)))) | ((uint32_t)nd_load_8(((unsigned char *)((uintptr_t)v6 + 6))) << 16)) | ((uint32_t)nd_load_8(((unsigned char *)((uintptr_t)v6 + 7))) << 24)) & 2155905152U) == 0U) goto L4;
    v47 = 0;
L3:;
    return v47;
L4:;
    v48 = (unsigned char *)((uintptr_t)v6 + 8);
    v49 = v7 + 18446744073709551608ULL;
    if (v49 > 16ULL) { v6 = v48; v7 = v49; goto L1; }
    if (!(((((((uint32_t)nd_load_8(((unsigned char *)((uintptr_t)v5 + 9))) << 8) | (uint32_t)nd_load_8(v48)) | ((uint32_t)nd_load_8(((unsigned char *)((uintptr_t)v5 + 10))) << 16)) | ((uint32_t)nd_load_8(((unsigned char *)((uintptr_t)v5 + 11))) << 24)) & 2155905152U) == 0U)) { v47 = 0; goto L3; }
    if (!(((((((uint32_t)nd_load_8(((unsigned char *)((uintptr_t)v5 + 13))) << 8) | (uint32_t)nd_load_8(((unsigned char *)((uintptr_t)v5 + 12)))) | ((uint32_t)nd_load_8(((unsigned char *)((uintptr_t)v5 + 14))) << 16)) | ((uint32_t)nd_load_8(((unsigned char *)((uintptr_t)v5 + 15))) << 24)) & 2155905152U) == 0U)) { v47 = 0; goto L3; }
    v90 = (unsigned char *)((uintptr_t)v1 + (uintptr_t)v2);
    if (!(((((((uint32_t)nd_load_8(((unsigned char *)((uintptr_t)v90 - 7))) << 8) | (uint32_t)nd_load_8(((unsigned char *)((uintptr_t)v90 - 8)))) | ((uint32_t)nd_load_8(((unsigned char *)((uintptr_t)v90 - 6))) << 16)) | ((uint32_t)nd_load_8(((unsigned char *)((uintptr_t)v90 - 5))) << 24)) & 2155905152U) == 0U)) { v47 = 0; goto L3; }
    v47 = ((((((uint32_t)nd_load_8(((unsigned char *)((uintptr_t)v90 - 3))) << 8) | (uint32_t)nd_load_8(((unsigned char *)((uintptr_t)v90 - 4)))) | ((uint32_t)nd_load_8(((unsigned char *)((uintptr_t)v90 - 2))) << 16)) | ((uint32_t)nd_load_8(((unsigned char *)((uintptr_t)v90 - 1))) << 24)) & 2155905152U) == 0U;
    goto L3;
}

static uint64_t nd_ndef_lang_utf8_Utf8Lang_take(unsigned char *v1, unsigned char *v2, uint64_t v3, uint64_t v4, uint64_t v5) {
    uint64_t v14, v15, v17, v21, v28, v30, v31, v33, v37, v42, v48, v60, v62, v63, v68;
    unsigned char *v20, *v29;
    uint8_t v35, v39, v52;
    ND_ROOM(24) v6, v7, v8, v9;
    v14 = nd_umin_i64(nd_load_64(((unsigned char *)nd_data_switch_table_ndef_lang_utf8_Utf8Lang_take + (ptrdiff_t)(uint64_t)nd_load_8(v1) * 8)), v3);
    v15 = nd_ndef_lang_utf8_Utf8Lang_take_each(v1, v2, v14, v4, v5);
    if (v15 < v14) { v17 = v15; goto L1; }
    goto L2;
L1:;
    return v17;
L2:;
    if (!(nd_load_8(v1) == 0)) { v62 = 0ULL; goto L17; }
    v20 = (unsigned char *)((uintptr_t)v2 + (uintptr_t)v14);
    v21 = v3 - v14;
    if (!(v21 < 64ULL)) { v28 = 0ULL; goto L5; }
    nd_memset(v9.b, 0, 24);
    nd_core_str_utf8_from_utf8(v9.b, v20, v21);
    v62 = (nd_load_8(v9.b) == 0) ? v21 : nd_load_64((v9.b + 8));
    goto L17;
L5:;
    v29 = (unsigned char *)((uintptr_t)v20 + (uintptr_t)v28);
    v30 = v21 - v28;
    v31 = nd_umin_i64(v30, 4096ULL);
    if (!(v30 > 3ULL)) { v48 = v31; goto L11; }
    v33 = v31 + 18446744073709551615ULL;
    v35 = nd_load_8((v29 + (ptrdiff_t)v33));
    if (v35 > 191) { v48 = v33; goto L11; }
    goto L10;
L7:;
    v37 = v31 + 18446744073709551614ULL;
    v39 = nd_load_8((v29 + (ptrdiff_t)v37));
    if (v39 > 191) { v48 = v37; goto L11; }
    if ((int8_t)v39 > (int8_t)255) { v48 = v31; goto L11; }
    v42 = v31 + 18446744073709551613ULL;
    v48 = (nd_load_8((v29 + (ptrdiff_t)v42)) > 191) ? v42 : v31;
    goto L11;
L10:;
    if ((int8_t)v35 > (int8_t)255) { v48 = v31; goto L11; }
    goto L7;
L11:;
    nd_memset(v8.b, 0, 24);
    if (!(v48 < 64ULL)) goto L13;
    nd_core_str_utf8_from_utf8(v8.b, v29, v48);
    v52 = nd_load_8(v8.b);
    goto L14;
L13:;
    nd_core_str_utf8_from_utf8(v7.b, v29, v48);
    v52 = nd_load_8(v7.b);
L14:;
    if (v52 == 0) goto L16;
    nd_memset(v6.b, 0, 24);
    nd_core_str_utf8_from_utf8(v6.b, v29, v48);
    v62 = ((nd_load_8(v6.b) == 0) ? v48 : nd_load_64((v6.b + 8))) + v28;
    goto L17;
L16:;
    v60 = v48 + v28;
    if (v60 < v21) { v28 = v60; goto L5; }
    v62 = v60;
L17:;
    v63 = v62 + v14;
    v68 = nd_ndef_lang_utf8_Utf8Lang_take_each(v1, ((unsigned char *)((uintptr_t)v2 + (uintptr_t)v63)), (v3 - v63), (v4 - v63), (v5 - v63));
    v17 = v63 + v68;
    goto L1;
}

static void nd_core_str_utf8_from_utf8(unsigned char *v1, unsigned char *v2, uint64_t v3) {
    unsigned char *v6, *v8;
    uint64_t v7, v11, v17, v18, v64, v66, v67, v68, v93;
    uint8_t v9, v10, v24, v29, v46, v75;
    uint32_t v39, v60;
    ND_ROOM(16) v4;
    if (v3 == 0ULL) goto L29;
    v6 = v4.b + 8;
    v7 = 0ULL;
L2:;
    v8 = v2 + (ptrdiff_t)v7;
    v9 = nd_load_8(v8);
    v10 = (int8_t)v9 > (int8_t)255;
    v11 = v3 - v7;
    if (!((v11 > 1ULL) & v10)) goto L6;
    if (!((int8_t)nd_load_8(((unsigned char *)((uintptr_t)v8 + 1))) > (int8_t)255)) { v93 = 1ULL; goto L28; }
    nd_store_ptr(v4.b, v2);
    nd_store_64(v6, v3);
    v17 = nd_core_slice_words_first(v4.b, v7, v3);
    v18 = v17;
L5:;
    if (v18 < v3) { v7 = v18; goto L2; }
    goto L29;
L6:;
    if (v10) { v93 = 1ULL; goto L28; }
    if (v9 < 194) { v66 = 1ULL; v67 = v7; v68 = 257ULL; goto L20; }
    if (!(v9 < 224)) goto L11;
    if (v11 < 2ULL) { v66 = 1ULL; v67 = v7; v68 = 0ULL; goto L20; }
    v24 = nd_load_8(((unsigned char *)((uintptr_t)v8 + 1)));
    if ((int8_t)v24 > (int8_t)191) { v75 = v24; goto L24; }
    v93 = 2ULL;
    goto L28;
L11:;
    if (!(v9 < 240)) goto L16;
    if (v11 < 3ULL) goto L22;
    v29 = nd_load_8(((unsigned char *)((uintptr_t)v8 + 1)));
    if (((int8_t)v29 > (int8_t)191) | (int)((int8_t)nd_load_8(((unsigned char *)((uintptr_t)v8 + 2))) > (int8_t)191)) { v75 = v29; goto L24; }
    v39 = (((uint32_t)v9 << 6) + 4294952832U) + (uint32_t)v29;
    if (v39 < 32U) { v75 = v29; goto L24; }
    if (v39 < 864U) { v93 = 3ULL; goto L28; }
    v64 = (v39 < 896U) ? 0ULL : 3ULL;
    goto L19;
L16:;
    if (v11 < 4ULL) goto L21;
    v46 = nd_load_8(((unsigned char *)((uintptr_t)v8 + 1)));
    if ((((int8_t)v46 > (int8_t)191) | (int)((int8_t)nd_load_8(((unsigned char *)((uintptr_t)v8 + 2))) > (int8_t)191)) | (int)((int8_t)nd_load_8(((unsigned char *)((uintptr_t)v8 + 3))) > (int8_t)191)) goto L21;
    v60 = (((uint32_t)v9 << 6) + 4294951808U) + (uint32_t)v46;
    if (v60 < 16U) goto L21;
    v64 = (v60 < 272U) ? 4ULL : 0ULL;
L19:;
    if (v64 == 0ULL) goto L21;
    v93 = v64;
    goto L28;
L20:;
    nd_store_64(v1, v66);
    nd_store_64(((unsigned char *)((uintptr_t)v1 + 8)), v67);
    nd_store_64(((unsigned char *)((uintptr_t)v1 + 16)), v68);
    return;
L21:;
    if (!(v9 < 245)) { v66 = 1ULL; v67 = v7; v68 = 257ULL; goto L20; }
L22:;
    if (v11 < 2ULL) { v66 = 1ULL; v67 = v7; v68 = 0ULL; goto L20; }
    v75 = nd_load_8((v8 + 1));
L24:;
    if (!(((uint8_t)((v9 == 224) ? 160 : (uint8_t)((v9 == 240) ? 144 : 128)) <= v75) & (int)(v75 <= (uint8_t)((v9 == 237) ? 159 : (uint8_t)((v9 == 244) ? 143 : 191))))) { v66 = 1ULL; v67 = v7; v68 = 257ULL; goto L20; }
    if (v11 == 2ULL) { v66 = 1ULL; v67 = v7; v68 = 0ULL; goto L20; }
    if (!((int8_t)nd_load_8((v8 + 2)) < (int8_t)192)) { v66 = 1ULL; v67 = v7; v68 = 513ULL; goto L20; }
    v66 = 1ULL;
    v67 = v7;
    v68 = (v11 > 3ULL) ? 769ULL : 0ULL;
    goto L20;
L28:;
    v18 = v93 + v7;
    goto L5;
L29:;
    v66 = 0ULL;
    v67 = (uint64_t)(uintptr_t)v2;
    v68 = v3;
    goto L20;
}

static uint64_t nd_core_slice_words_first(unsigned char *v1, uint64_t v2, uint64_t v3) {
    uint64_t v6, v9, v13, v18, v21, v23, v26, v29, v44, v47, v48, v53, v55, v56, v60, v61, v63, v66, v68;
    unsigned char *v8, *v15, *v30;
    if ((v3 - v2) < 8ULL) goto L2;
    goto L6;
L1:;
    return v6;
L2:;
    if (!(v2 < v3)) { v6 = v3; goto L1; }
    v8 = nd_load_ptr(v1);
    v9 = v2;
L4:;
    if ((int8_t)nd_load_8((v8 + (ptrdiff_t)v9)) < (int8_t)0) { v6 = v9; goto L1; }
    v13 = v9 + 1ULL;
    if (v13 == v3) { v6 = v3; goto L1; }
    v9 = v13;
    goto L4;
L6:;
    v15 = nd_load_ptr(v1);
    v18 = nd_load_64((v15 + (ptrdiff_t)v2)) & 9259542123273814144ULL;
    if (!(v18 == 0ULL)) goto L8;
    v26 = v2 + 8ULL;
    goto L9;
L8:;
    v21 = nd_cttz_i64(v18);
    v23 = (v21 >> 3) + v2;
    if (v23 < (v2 + 8ULL)) { v6 = v23; goto L1; }
    v26 = v23;
L9:;
    if ((v3 - v26) > 31ULL) { v29 = v26; goto L10; }
    v47 = v26;
    goto L12;
L10:;
    v30 = (unsigned char *)((uintptr_t)v15 + (uintptr_t)v29);
    if (!(((((nd_load_64(((unsigned char *)((uintptr_t)v30 + 8))) | nd_load_64(v30)) | nd_load_64(((unsigned char *)((uintptr_t)v30 + 16)))) | nd_load_64(((unsigned char *)((uintptr_t)v30 + 24)))) & 9259542123273814144ULL) == 0ULL)) { v47 = v29; goto L12; }
    v44 = nd_core_slice_words_skip_far(v1, (v29 + 32ULL), v3);
    if ((v3 - v44) > 31ULL) { v29 = v44; goto L10; }
    v47 = v44;
L12:;
    v48 = v47;
L13:;
    if (!((v3 - v48) > 8ULL)) goto L18;
    v53 = nd_load_64((v15 + (ptrdiff_t)v48)) & 9259542123273814144ULL;
    if (!(v53 == 0ULL)) goto L16;
    v55 = v48 + 8ULL;
    v60 = v55;
    v61 = v55;
    goto L17;
L16:;
    v56 = nd_cttz_i64(v53);
    v60 = v48 + 8ULL;
    v61 = (v56 >> 3) + v48;
L17:;
    if (v61 < v60) { v6 = v61; goto L1; }
    v48 = v60;
    goto L13;
L18:;
    v63 = v3 + 18446744073709551608ULL;
    v66 = nd_load_64((v15 + (ptrdiff_t)v63)) & 9259542123273814144ULL;
    if (v66 == 0ULL) { v6 = v3; goto L1; }
    v68 = nd_cttz_i64(v66);
    v6 = (v68 >> 3) + v63;
    goto L1;
}

static uint64_t nd_core_slice_words_skip_far(unsigned char *v1, uint64_t v2, uint64_t v3) {
    unsigned char *v6, *v8;
    uint64_t v7, v33, v36;
    if (!((v3 - v2) > 63ULL)) { v36 = v2; goto L4; }
    v6 = nd_load_ptr(v1);
    v7 = v2;
L2:;
    v8 = (unsigned char *)((uintptr_t)v6 + (uintptr_t)v7);
    if (!(((((((((nd_load_64(((unsigned char *)((uintptr_t)v8 + 16))) | nd_load_64(v8)) | nd_load_64(((unsigned char *)((uintptr_t)v8 + 32)))) | nd_load_64(((unsigned char *)((uintptr_t)v8 + 48)))) | nd_load_64(((unsigned char *)((uintptr_t)v8 + 8)))) | nd_load_64(((unsigned char *)((uintptr_t)v8 + 24)))) | nd_load_64(((unsigned char *)((uintptr_t)v8 + 40)))) | nd_load_64(((unsigned char *)((uintptr_t)v8 + 56)))) & 9259542123273814144ULL) == 0ULL)) { v36 = v7; goto L4; }
    v33 = v7 + 64ULL;
    if ((v3 - v33) > 63ULL) { v7 = v33; goto L2; }
    v36 = v33;
L4:;
    return v36;
}

static uint64_t nd_ndef_lang_utf8_Utf8Lang_take_each(unsigned char *v1, unsigned char *v2, uint64_t v3, uint64_t v4, uint64_t v5) {
    uint64_t v6, v26, v27, v29, v33;
    uint8_t v10, v25;
    v6 = 0ULL;
L1:;
    if (v6 == v3) { v33 = v3; goto L22; }
    v10 = nd_load_8(((unsigned char *)((uintptr_t)v2 + (uintptr_t)v6)));
    switch (nd_load_8(v1)) {
    case 0: goto L3;
    case 1: goto L11;
    case 2: goto L12;
    case 3: goto L13;
    case 4: goto L14;
    case 5: goto L15;
    case 6: goto L16;
    case 7: goto L17;
    case 8: goto L20;
    default: goto L18; }
L3:;
    switch (v10) {
    case 224: { v25 = 4; v26 = 2ULL; goto L21; }
    case 237: goto L4;
    case 240: goto L19;
    case 244: goto L5;
    default: goto L6; }
L4:;
    v25 = 5;
    v26 = 2ULL;
    goto L21;
L5:;
    v25 = 7;
    v26 = 3ULL;
    goto L21;
L6:;
    if ((int8_t)v10 > (int8_t)255) { v25 = 0; v26 = 0ULL; goto L21; }
    if (v10 < 194) goto L20;
    if (v10 < 224) { v25 = 1; v26 = 1ULL; goto L21; }
    if (v10 < 240) { v25 = 2; v26 = 2ULL; goto L21; }
    if (v10 < 244) { v25 = 3; v26 = 3ULL; goto L21; }
    goto L20;
L11:;
    if ((int8_t)v10 > (int8_t)191) goto L20;
    v25 = 0;
    v26 = 0ULL;
    goto L21;
L12:;
    if ((int8_t)v10 > (int8_t)191) goto L20;
    v25 = 1;
    v26 = 1ULL;
    goto L21;
L13:;
    if ((int8_t)v10 > (int8_t)191) goto L20;
    v25 = 2;
    v26 = 2ULL;
    goto L21;
L14:;
    if ((uint8_t)(v10 + 64) < 224) goto L20;
    v25 = 1;
    v26 = 1ULL;
    goto L21;
L15:;
    if ((int8_t)v10 > (int8_t)159) goto L20;
    v25 = 1;
    v26 = 1ULL;
    goto L21;
L16:;
    if ((uint8_t)(v10 + 64) < 208) goto L20;
    v25 = 2;
    v26 = 2ULL;
    goto L21;
L17:;
    if ((int8_t)v10 > (int8_t)143) goto L20;
    v25 = 2;
    v26 = 2ULL;
    goto L21;
L18:;
    nd_stop();
L19:;
    v25 = 6;
    v26 = 3ULL;
    goto L21;
L20:;
    nd_store_8(v1, 8);
    v33 = v6;
    goto L22;
L21:;
    nd_store_8(v1, v25);
    v27 = v6 + 1ULL;
    v29 = v5 - v27;
    if (((v4 - v27) <= v29) & (int)(v26 <= v29)) { v6 = v27; goto L1; }
    v33 = v6;
L22:;
    return v33;
}

static void nd_ndef_piece_head_reader_HeadReader_whole_head(unsigned char *v1, unsigned char *v2, unsigned char *v3, uint64_t v4) {
    unsigned char *v9, *v10, *v42;
    uint64_t v11, v43, v50, v122, v132;
    uint8_t v12, v13, v44, v49, v51, v60, v79, v81, v83, v99, v114, v115, v123, v124, v125, v126, v127, v128, v129, v130;
    uint32_t v40, v41, v131;
    if (nd_load_64(((unsigned char *)((uintptr_t)v2 + 24))) == 0ULL) goto L3;
    goto L2;
L1:;
    return;
L2:;
    nd_memset(v1, 0, 32);
    goto L1;
L3:;
    if (v4 < 2ULL) { v122 = 0ULL; v123 = 0; v124 = 0; v125 = 0; v126 = 0; v127 = 0; v128 = 0; v129 = 0; v130 = 0; v131 = 0U; v132 = 0ULL; goto L40; }
    v9 = (unsigned char *)((uintptr_t)v3 + 1);
    v10 = (unsigned char *)((uintptr_t)v3 + 2);
    v11 = v4 + 18446744073709551614ULL;
    v12 = nd_load_8(v3);
    v13 = (uint8_t)(v12 & 16);
    if (v13 == 0) goto L7;
    if (v11 == 0ULL) { v122 = 0ULL; v123 = 0; v124 = 0; v125 = 0; v126 = 0; v127 = 0; v128 = 0; v129 = 0; v130 = 0; v131 = 0U; v132 = 0ULL; goto L40; }
    v41 = (uint32_t)nd_load_8(v10);
    v42 = (unsigned char *)((uintptr_t)v3 + 3);
    v43 = v4 + 18446744073709551613ULL;
    goto L9;
L7:;
    if (v11 < 4ULL) { v122 = 0ULL; v123 = 0; v124 = 0; v125 = 0; v126 = 0; v127 = 0; v128 = 0; v129 = 0; v130 = 0; v131 = 0U; v132 = 0ULL; goto L40; }
    v40 = nd_bswap_i32((((((uint32_t)nd_load_8(((unsigned char *)((uintptr_t)v3 + 3))) << 8) | (uint32_t)nd_load_8(v10)) | ((uint32_t)nd_load_8(((unsigned char *)((uintptr_t)v3 + 4))) << 16)) | ((uint32_t)nd_load_8(((unsigned char *)((uintptr_t)v3 + 5))) << 24)));
    v41 = v40;
    v42 = (unsigned char *)((uintptr_t)v3 + 6);
    v43 = v4 + 18446744073709551610ULL;
L9:;
    v44 = (uint8_t)(v12 & 8);
    if (v44 == 0) { v49 = 0; v50 = v43; goto L12; }
    if (v43 == 0ULL) { v122 = 0ULL; v123 = 0; v124 = 0; v125 = 0; v126 = 0; v127 = 0; v128 = 0; v129 = 0; v130 = 0; v131 = 0U; v132 = 0ULL; goto L40; }
    v49 = nd_load_8(v42);
    v50 = v43 + 18446744073709551615ULL;
L12:;
    v51 = nd_load_8(v9);
    if (!(uint8_t)(nd_load_8(((unsigned char *)((uintptr_t)v2 + 2))) & 1)) goto L22;
    if (!(((uint8_t)(v12 & 15) == 6) & (int)(v51 == 0))) { v122 = 0ULL; v123 = 0; v124 = 0; v125 = 0; v126 = 0; v127 = 0; v128 = 0; v129 = 0; v130 = 0; v131 = 0U; v132 = 0ULL; goto L40; }
    v60 = (uint8_t)(v12 & 64) == 0;
    if ((uint8_t)(v12 & 32) == 0) goto L17;
    if (!v60) { v122 = 0ULL; v123 = 0; v124 = 0; v125 = 0; v126 = 0; v127 = 0; v128 = 0; v129 = 0; v130 = 0; v131 = 0U; v132 = 0ULL; goto L40; }
    if ((uint8_t)(nd_load_8(((unsigned char *)((uintptr_t)v2 + 3))) & 1)) { v122 = 0ULL; v123 = 0; v124 = 0; v125 = 0; v126 = 0; v127 = 0; v128 = 0; v129 = 0; v130 = 0; v131 = 0U; v132 = 0ULL; goto L40; }
    goto L19;
L17:;
    if (!v60) goto L19;
    if ((uint8_t)(nd_load_8(((unsigned char *)((uintptr_t)v2 + 4))) & 1)) { v122 = 0ULL; v123 = 0; v124 = 0; v125 = 0; v126 = 0; v127 = 0; v128 = 0; v129 = 0; v130 = 0; v131 = 0U; v132 = 0ULL; goto L40; }
L19:;
    if (!(((int8_t)v12 > (int8_t)255) ^ (int)(uint8_t)(nd_load_8(((unsigned char *)((uintptr_t)v2 + 1))) & 1))) { v122 = 0ULL; v123 = 0; v124 = 0; v125 = 0; v126 = 0; v127 = 0; v128 = 0; v129 = 0; v130 = 0; v131 = 0U; v132 = 0ULL; goto L40; }
    if (v41 > nd_load_32(((unsigned char *)((uintptr_t)v2 + 8)))) { v122 = 0ULL; v123 = 0; v124 = 0; v125 = 0; v126 = 0; v127 = 0; v128 = 0; v129 = 0; v130 = 0; v131 = 0U; v132 = 0ULL; goto L40; }
    v114 = (uint8_t)((uint8_t)(v12 >> 5) & 1);
    v115 = 6;
    goto L39;
L22:;
    v79 = (uint8_t)(v12 & 7);
    v81 = (uint8_t)(v12 & 64) == 0;
    v83 = (uint8_t)(v12 & 32) == 0;
    if (v83) goto L25;
    if (!v81) { v122 = 0ULL; v123 = 0; v124 = 0; v125 = 0; v126 = 0; v127 = 0; v128 = 0; v129 = 0; v130 = 0; v131 = 0U; v132 = 0ULL; goto L40; }
    if ((uint8_t)(nd_load_8(((unsigned char *)((uintptr_t)v2 + 3))) & 1)) { v122 = 0ULL; v123 = 0; v124 = 0; v125 = 0; v126 = 0; v127 = 0; v128 = 0; v129 = 0; v130 = 0; v131 = 0U; v132 = 0ULL; goto L40; }
    goto L27;
L25:;
    if (!v81) goto L27;
    if ((uint8_t)(nd_load_8(((unsigned char *)((uintptr_t)v2 + 4))) & 1)) { v122 = 0ULL; v123 = 0; v124 = 0; v125 = 0; v126 = 0; v127 = 0; v128 = 0; v129 = 0; v130 = 0; v131 = 0U; v132 = 0ULL; goto L40; }
L27:;
    if (!(((int8_t)v12 > (int8_t)255) ^ (int)(uint8_t)(nd_load_8(((unsigned char *)((uintptr_t)v2 + 1))) & 1))) { v122 = 0ULL; v123 = 0; v124 = 0; v125 = 0; v126 = 0; v127 = 0; v128 = 0; v129 = 0; v130 = 0; v131 = 0U; v132 = 0ULL; goto L40; }
    if (v41 > nd_load_32(((unsigned char *)((uintptr_t)v2 + 8)))) { v122 = 0ULL; v123 = 0; v124 = 0; v125 = 0; v126 = 0; v127 = 0; v128 = 0; v129 = 0; v130 = 0; v131 = 0U; v132 = 0ULL; goto L40; }
    if (!(v79 == 0)) goto L31;
    if (v83) goto L34;
    v122 = 0ULL;
    v123 = 0;
    v124 = 0;
    v125 = 0;
    v126 = 0;
    v127 = 0;
    v128 = 0;
    v129 = 0;
    v130 = 0;
    v131 = 0U;
    v132 = 0ULL;
    goto L40;
L31:;
    v99 = nd_load_8(v2);
    if (!(v79 < 5)) goto L33;
    if (v51 == 0) { v122 = 0ULL; v123 = 0; v124 = 0; v125 = 0; v126 = 0; v127 = 0; v128 = 0; v129 = 0; v130 = 0; v131 = 0U; v132 = 0ULL; goto L40; }
    goto L38;
L33:;
    switch (v79) {
    case 7: goto L36;
    case 5: goto L35;
    default: { v122 = 0ULL; v123 = 0; v124 = 0; v125 = 0; v126 = 0; v127 = 0; v128 = 0; v129 = 0; v130 = 0; v131 = 0U; v132 = 0ULL; goto L40; } }
L34:;
    if ((v41 | (uint32_t)(uint8_t)(v51 | v49)) == 0U) { v114 = 0; v115 = 0; goto L39; }
    v122 = 0ULL;
    v123 = 0;
    v124 = 0;
    v125 = 0;
    v126 = 0;
    v127 = 0;
    v128 = 0;
    v129 = 0;
    v130 = 0;
    v131 = 0U;
    v132 = 0ULL;
    goto L40;
L35:;
    if (v51 == 0) goto L37;
    v122 = 0ULL;
    v123 = 0;
    v124 = 0;
    v125 = 0;
    v126 = 0;
    v127 = 0;
    v128 = 0;
    v129 = 0;
    v130 = 0;
    v131 = 0U;
    v132 = 0ULL;
    goto L40;
L36:;
    if (!((v51 == 0) & (int)(v99 == 1))) { v122 = 0ULL; v123 = 0; v124 = 0; v125 = 0; v126 = 0; v127 = 0; v128 = 0; v129 = 0; v130 = 0; v131 = 0U; v132 = 0ULL; goto L40; }
L37:;
    v114 = (uint8_t)((uint8_t)(v12 >> 5) & 1);
    v115 = 5;
    goto L39;
L38:;
    v114 = (uint8_t)((uint8_t)(v12 >> 5) & 1);
    v115 = v79;
L39:;
    v122 = 1ULL;
    v123 = (uint8_t)(v12 >> 7);
    v124 = (uint8_t)((uint8_t)(v12 >> 6) & 1);
    v125 = v114;
    v126 = (uint8_t)(v13 >> 4);
    v127 = v115;
    v128 = v51;
    v129 = (uint8_t)(v44 >> 3);
    v130 = v49;
    v131 = v41;
    v132 = v4 - v50;
L40:;
    nd_store_64(v1, v122);
    nd_store_8(((unsigned char *)((uintptr_t)v1 + 8)), v123);
    nd_store_8(((unsigned char *)((uintptr_t)v1 + 9)), v124);
    nd_store_8(((unsigned char *)((uintptr_t)v1 + 10)), v125);
    nd_store_8(((unsigned char *)((uintptr_t)v1 + 11)), v126);
    nd_store_8(((unsigned char *)((uintptr_t)v1 + 12)), v127);
    nd_store_8(((unsigned char *)((uintptr_t)v1 + 13)), v128);
    nd_store_8(((unsigned char *)((uintptr_t)v1 + 14)), v129);
    nd_store_8(((unsigned char *)((uintptr_t)v1 + 15)), v130);
    nd_store_32(((unsigned char *)((uintptr_t)v1 + 16)), v131);
    nd_store_32(((unsigned char *)((uintptr_t)v1 + 20)), 0U);
    nd_store_64(((unsigned char *)((uintptr_t)v1 + 24)), v132);
    goto L1;
}

static uint8_t nd_ndef_lang_member_is_coded_text(uint64_t v1, uint8_t v2, unsigned char *v3, uint64_t v4) {
    unsigned char *v5, *v55, *v167, *v195, *v244;
    uint64_t v6;
    uint8_t v143, v144, v204, v285, v286;
    v5 = (unsigned char *)((uintptr_t)v3 + (uintptr_t)v1);
    v6 = v4 - v1;
    if (!(v1 < 8ULL)) goto L11;
    if (v1 < 4ULL) goto L4;
    if (!(((((((uint32_t)nd_load_8(((unsigned char *)((uintptr_t)v3 + 1))) << 8) | (uint32_t)nd_load_8(v3)) | ((uint32_t)nd_load_8(((unsigned char *)((uintptr_t)v3 + 2))) << 16)) | ((uint32_t)nd_load_8(((unsigned char *)((uintptr_t)v3 + 3))) << 24)) & 2155905152U) == 0U)) { v286 = 0; goto L38; }
    if (((((((uint32_t)nd_load_8(((unsigned char *)((uintptr_t)v5 - 3))) << 8) | (uint32_t)nd_load_8(((unsigned char *)((uintptr_t)v5 - 4)))) | ((uint32_t)nd_load_8(((unsigned char *)((uintptr_t)v5 - 2))) << 16)) | ((uint32_t)nd_load_8(((unsigned char *)((uintptr_t)v5 - 1))) << 24)) & 2155905152U) == 0U) goto L17;
    v286 = 0;
    goto L38;
L4:;
    switch (v1) {
    case 0ULL: goto L17;
    case 1ULL: goto L5;
    case 3ULL: goto L8;
    default: goto L6; }
L5:;
    if ((int8_t)nd_load_8(v3) > (int8_t)255) goto L17;
    v286 = 0;
    goto L38;
L6:;
    if (!((int8_t)nd_load_8(v3) > (int8_t)255)) { v286 = 0; goto L38; }
    if ((int8_t)nd_load_8(((unsigned char *)((uintptr_t)v3 + 1))) > (int8_t)255) goto L17;
    v286 = 0;
    goto L38;
L8:;
    v55 = (unsigned char *)((uintptr_t)v3 + 2);
    if (!((int8_t)nd_load_8(v3) > (int8_t)255)) { v286 = 0; goto L38; }
    if (!((int8_t)nd_load_8(((unsigned char *)((uintptr_t)v3 + 1))) > (int8_t)255)) { v286 = 0; goto L38; }
    if ((int8_t)nd_load_8(v55) > (int8_t)255) goto L17;
    v286 = 0;
    goto L38;
L11:;
    if (v1 > 16ULL) goto L16;
    if (!(((((((uint32_t)nd_load_8(((unsigned char *)((uintptr_t)v3 + 1))) << 8) | (uint32_t)nd_load_8(v3)) | ((uint32_t)nd_load_8(((unsigned char *)((uintptr_t)v3 + 2))) << 16)) | ((uint32_t)nd_load_8(((unsigned char *)((uintptr_t)v3 + 3))) << 24)) & 2155905152U) == 0U)) { v286 = 0; goto L38; }
    if (!(((((((uint32_t)nd_load_8(((unsigned char *)((uintptr_t)v3 + 5))) << 8) | (uint32_t)nd_load_8(((unsigned char *)((uintptr_t)v3 + 4)))) | ((uint32_t)nd_load_8(((unsigned char *)((uintptr_t)v3 + 6))) << 16)) | ((uint32_t)nd_load_8(((unsigned char *)((uintptr_t)v3 + 7))) << 24)) & 2155905152U) == 0U)) { v286 = 0; goto L38; }
    if (!(((((((uint32_t)nd_load_8(((unsigned char *)((uintptr_t)v5 - 7))) << 8) | (uint32_t)nd_load_8(((unsigned char *)((uintptr_t)v5 - 8)))) | ((uint32_t)nd_load_8(((unsigned char *)((uintptr_t)v5 - 6))) << 16)) | ((uint32_t)nd_load_8(((unsigned char *)((uintptr_t)v5 - 5))) << 24)) & 2155905152U) == 0U)) { v286 = 0; goto L38; }
    if (((((((uint32_t)nd_load_8(((unsigned char *)((uintptr_t)v5 - 3))) << 8) | (uint32_t)nd_load_8(((unsigned char *)((uintptr_t)v5 - 4)))) | ((uint32_t)nd_load_8(((unsigned char *)((uintptr_t)v5 - 2))) << 16)) | ((uint32_t)nd_load_8(((unsigned char *)((uintptr_t)v5 - 1))) << 24)) & 2155905152U) == 0U) goto L17;
    v286 = 0;
    goto L38;
L16:;
    v143 = nd_ndef_lang_ascii_are_many(v3, v1);
    if (!v143) { v286 = 0; goto L38; }
L17:;
    if (!v2) goto L19;
    v144 = nd_ndef_lang_member_is_utf16(v5, v6);
    v286 = v144;
    goto L38;
L19:;
    if (!(v6 < 64ULL)) goto L37;
    if (!(v6 < 8ULL)) goto L31;
    if (v6 < 4ULL) goto L24;
    if (!(((((((uint32_t)nd_load_8(((unsigned char *)((uintptr_t)v5 + 1))) << 8) | (uint32_t)nd_load_8(v5)) | ((uint32_t)nd_load_8(((unsigned char *)((uintptr_t)v5 + 2))) << 16)) | ((uint32_t)nd_load_8(((unsigned char *)((uintptr_t)v5 + 3))) << 24)) & 2155905152U) == 0U)) goto L37;
    v167 = (unsigned char *)((uintptr_t)v3 + (uintptr_t)v4);
    if (((((((uint32_t)nd_load_8(((unsigned char *)((uintptr_t)v167 - 3))) << 8) | (uint32_t)nd_load_8(((unsigned char *)((uintptr_t)v167 - 4)))) | ((uint32_t)nd_load_8(((unsigned char *)((uintptr_t)v167 - 2))) << 16)) | ((uint32_t)nd_load_8(((unsigned char *)((uintptr_t)v167 - 1))) << 24)) & 2155905152U) == 0U) { v286 = 1; goto L38; }
    goto L37;
L24:;
    switch (v6) {
    case 0ULL: { v286 = 1; goto L38; }
    case 1ULL: goto L25;
    case 3ULL: goto L28;
    default: goto L26; }
L25:;
    if ((int8_t)nd_load_8(v5) > (int8_t)255) { v286 = 1; goto L38; }
    goto L37;
L26:;
    if (!((int8_t)nd_load_8(v5) > (int8_t)255)) goto L37;
    if ((int8_t)nd_load_8(((unsigned char *)((uintptr_t)v5 + 1))) > (int8_t)255) { v286 = 1; goto L38; }
    goto L37;
L28:;
    v195 = (unsigned char *)((uintptr_t)v5 + 2);
    if (!((int8_t)nd_load_8(v5) > (int8_t)255)) goto L37;
    if (!((int8_t)nd_load_8(((unsigned char *)((uintptr_t)v5 + 1))) > (int8_t)255)) goto L37;
    if ((int8_t)nd_load_8(v195) > (int8_t)255) { v286 = 1; goto L38; }
    goto L37;
L31:;
    if (!(v6 > 16ULL)) goto L33;
    v204 = nd_ndef_lang_ascii_are_many(v5, v6);
    if (v204) { v286 = 1; goto L38; }
    goto L37;
L33:;
    if (!(((((((uint32_t)nd_load_8(((unsigned char *)((uintptr_t)v5 + 1))) << 8) | (uint32_t)nd_load_8(v5)) | ((uint32_t)nd_load_8(((unsigned char *)((uintptr_t)v5 + 2))) << 16)) | ((uint32_t)nd_load_8(((unsigned char *)((uintptr_t)v5 + 3))) << 24)) & 2155905152U) == 0U)) goto L37;
    if (!(((((((uint32_t)nd_load_8(((unsigned char *)((uintptr_t)v5 + 5))) << 8) | (uint32_t)nd_load_8(((unsigned char *)((uintptr_t)v5 + 4)))) | ((uint32_t)nd_load_8(((unsigned char *)((uintptr_t)v5 + 6))) << 16)) | ((uint32_t)nd_load_8(((unsigned char *)((uintptr_t)v5 + 7))) << 24)) & 2155905152U) == 0U)) goto L37;
    v244 = (unsigned char *)((uintptr_t)v3 + (uintptr_t)v4);
    if (!(((((((uint32_t)nd_load_8(((unsigned char *)((uintptr_t)v244 - 7))) << 8) | (uint32_t)nd_load_8(((unsigned char *)((uintptr_t)v244 - 8)))) | ((uint32_t)nd_load_8(((unsigned char *)((uintptr_t)v244 - 6))) << 16)) | ((uint32_t)nd_load_8(((unsigned char *)((uintptr_t)v244 - 5))) << 24)) & 2155905152U) == 0U)) goto L37;
    if (((((((uint32_t)nd_load_8(((unsigned char *)((uintptr_t)v244 - 3))) << 8) | (uint32_t)nd_load_8(((unsigned char *)((uintptr_t)v244 - 4)))) | ((uint32_t)nd_load_8(((unsigned char *)((uintptr_t)v244 - 2))) << 16)) | ((uint32_t)nd_load_8(((unsigned char *)((uintptr_t)v244 - 1))) << 24)) & 2155905152U) == 0U) { v286 = 1; goto L38; }
L37:;
    v285 = nd_ndef_lang_member_is_long_utf8(v5, v6);
    v286 = v285;
L38:;
    return v286;
}

static uint8_t nd_ndef_lang_member_is_utf16(unsigned char *v1, uint64_t v2) {
    uint64_t v8, v12, v14, v26, v29, v34, v38, v40, v54, v57, v60, v62, v74, v77;
    unsigned char *v11, *v13, *v27, *v37, *v55, *v59, *v61, *v75;
    uint8_t v15, v42, v63, v79;
    if (v2 < 2ULL) { v77 = v2; goto L23; }
    switch (nd_load_8(v1)) {
    case 254: goto L2;
    case 255: goto L11;
    default: goto L3; }
L2:;
    if (nd_load_8((v1 + 1)) == 255) goto L4;
L3:;
    v59 = v1;
    v60 = v2;
    goto L19;
L4:;
    v8 = v2 + 18446744073709551614ULL;
    if (v8 < 2ULL) { v29 = v8; goto L10; }
    v11 = (unsigned char *)((uintptr_t)v1 + 2);
    v12 = v8;
L6:;
    v13 = (unsigned char *)((uintptr_t)v11 + 2);
    v14 = v12 + 18446744073709551614ULL;
    v15 = nd_load_8(v11);
    if ((uint8_t)(v15 + 32) < 248) { v26 = v14; v27 = v13; goto L9; }
    if (v14 < 2ULL) { v79 = 0; goto L24; }
    if ((v15 > 219) | (int)((uint8_t)(nd_load_8(v13) + 32) < 252)) { v79 = 0; goto L24; }
    v26 = v12 + 18446744073709551612ULL;
    v27 = (unsigned char *)((uintptr_t)v11 + 4);
L9:;
    if (v26 < 2ULL) { v29 = v26; goto L10; }
    v11 = v27;
    v12 = v26;
    goto L6;
L10:;
    v79 = v29 == 0ULL;
    goto L24;
L11:;
    if (!(nd_load_8((v1 + 1)) == 254)) goto L3;
    v34 = v2 + 18446744073709551614ULL;
    if (v34 < 2ULL) { v57 = v34; goto L18; }
    v37 = (unsigned char *)((uintptr_t)v1 + 2);
    v38 = v34;
L14:;
    v40 = v38 + 18446744073709551614ULL;
    v42 = nd_load_8(((unsigned char *)((uintptr_t)v37 + 1)));
    if ((uint8_t)(v42 + 32) < 248) { v54 = v40; v55 = (unsigned char *)((uintptr_t)v37 + 2); goto L17; }
    if (v40 < 2ULL) { v79 = 0; goto L24; }
    if ((v42 > 219) | (int)((uint8_t)(nd_load_8(((unsigned char *)((uintptr_t)v37 + 3))) + 32) < 252)) { v79 = 0; goto L24; }
    v54 = v38 + 18446744073709551612ULL;
    v55 = (unsigned char *)((uintptr_t)v37 + 4);
L17:;
    if (v54 < 2ULL) { v57 = v54; goto L18; }
    v37 = v55;
    v38 = v54;
    goto L14;
L18:;
    v79 = v57 == 0ULL;
    goto L24;
L19:;
    v61 = (unsigned char *)((uintptr_t)v59 + 2);
    v62 = v60 + 18446744073709551614ULL;
    v63 = nd_load_8(v59);
    if ((uint8_t)(v63 + 32) < 248) { v74 = v62; v75 = v61; goto L22; }
    if (v62 < 2ULL) { v79 = 0; goto L24; }
    if ((v63 > 219) | (int)((uint8_t)(nd_load_8(v61) + 32) < 252)) { v79 = 0; goto L24; }
    v74 = v60 + 18446744073709551612ULL;
    v75 = (unsigned char *)((uintptr_t)v59 + 4);
L22:;
    if (v74 < 2ULL) { v77 = v74; goto L23; }
    v59 = v75;
    v60 = v74;
    goto L19;
L23:;
    v79 = v77 == 0ULL;
L24:;
    return v79;
}

static uint8_t nd_ndef_lang_member_is_long_utf8(unsigned char *v1, uint64_t v2) {
    uint8_t v9, v11;
    ND_ROOM(24) v3, v4;
    if (!(v2 < 16385ULL)) { v11 = 0; goto L5; }
    nd_memset(v4.b, 0, 24);
    if (!(v2 < 64ULL)) goto L3;
    nd_core_str_utf8_from_utf8(v4.b, v1, v2);
    v9 = nd_load_8(v4.b);
    goto L4;
L3:;
    nd_core_str_utf8_from_utf8(v3.b, v1, v2);
    v9 = nd_load_8(v3.b);
L4:;
    v11 = v9 == 0;
L5:;
    return v11;
}

static uint8_t nd_ndef_lang_leaf_Leaf_is_completed_by(unsigned char *v1, unsigned char *v2, uint64_t v3) {
    uint8_t v4, v8, v10, v12, v31, v35, v36, v40, v102, v183, v184;
    uint32_t v6;
    unsigned char *v15, *v16, *v17, *v18, *v34, *v38, *v65, *v93, *v142;
    uint64_t v21, v24, v29, v32, v33, v39;
    ND_ROOM(12) v13;
    v4 = nd_load_8(v1);
    v6 = nd_load_32(((unsigned char *)((uintptr_t)v1 + 4)));
    v8 = nd_load_8(((unsigned char *)((uintptr_t)v1 + 8)));
    v10 = nd_load_8(((unsigned char *)((uintptr_t)v1 + 9)));
    v12 = nd_load_8(((unsigned char *)((uintptr_t)v1 + 10)));
    nd_store_32((v13.b + 8), 0U);
    nd_store_8(v13.b, v4);
    v15 = v13.b + 4;
    nd_store_32(v15, v6);
    v16 = v13.b + 8;
    nd_store_8(v16, v8);
    v17 = v13.b + 9;
    nd_store_8(v17, v10);
    v18 = v13.b + 10;
    nd_store_8(v18, v12);
    v21 = (uint64_t)nd_load_32(v15);
    if ((uint8_t)((v4 != 0) ? 1 : (v3 < v21))) { v31 = 0; goto L2; }
    v32 = v21;
    v33 = v3;
    v34 = v2;
    v35 = v10;
    v36 = v12;
    goto L3;
L1:;
    v24 = v39 + 18446744073709551615ULL;
    v29 = (uint64_t)nd_load_32(v15);
    if (v24 < v29) { v31 = 0; goto L2; }
    v32 = v29;
    v33 = v24;
    v34 = (unsigned char *)((uintptr_t)v38 + 1);
    v35 = nd_load_8(v17);
    v36 = nd_load_8(v18);
    goto L3;
L2:;
    return v31;
L3:;
    v38 = (unsigned char *)((uintptr_t)v34 + (uintptr_t)v32);
    v39 = v33 - v32;
    v40 = nd_ndef_lang_leaf_Class_has_all(nd_load_8(v16), v34, v32);
    if (!v40) { v31 = 0; goto L2; }
    switch (v35) {
    case 1: { v31 = 1; goto L2; }
    case 10: goto L6;
    case 0: goto L7;
    case 2: goto L8;
    case 3: goto L27;
    case 4: goto L28;
    case 5: goto L28;
    case 6: goto L28;
    case 7: goto L28;
    case 8: goto L28;
    case 9: goto L28;
    default: goto L5; }
L5:;
    nd_stop();
L6:;
    if (v36 == 0) { v31 = 1; goto L2; }
    goto L28;
L7:;
    v31 = v33 == v32;
    goto L2;
L8:;
    if (!(v39 < 64ULL)) goto L26;
    if (!(v39 < 8ULL)) goto L20;
    if (v39 < 4ULL) goto L13;
    if (!(((((((uint32_t)nd_load_8(((unsigned char *)((uintptr_t)v38 + 1))) << 8) | (uint32_t)nd_load_8(v38)) | ((uint32_t)nd_load_8(((unsigned char *)((uintptr_t)v38 + 2))) << 16)) | ((uint32_t)nd_load_8(((unsigned char *)((uintptr_t)v38 + 3))) << 24)) & 2155905152U) == 0U)) goto L26;
    v65 = (unsigned char *)((uintptr_t)v34 + (uintptr_t)v33);
    if (((((((uint32_t)nd_load_8(((unsigned char *)((uintptr_t)v65 - 3))) << 8) | (uint32_t)nd_load_8(((unsigned char *)((uintptr_t)v65 - 4)))) | ((uint32_t)nd_load_8(((unsigned char *)((uintptr_t)v65 - 2))) << 16)) | ((uint32_t)nd_load_8(((unsigned char *)((uintptr_t)v65 - 1))) << 24)) & 2155905152U) == 0U) { v31 = 1; goto L2; }
    goto L26;
L13:;
    switch (v39) {
    case 0ULL: { v31 = 1; goto L2; }
    case 1ULL: goto L14;
    case 3ULL: goto L17;
    default: goto L15; }
L14:;
    if ((int8_t)nd_load_8(v38) > (int8_t)255) { v31 = 1; goto L2; }
    goto L26;
L15:;
    if (!((int8_t)nd_load_8(v38) > (int8_t)255)) goto L26;
    if ((int8_t)nd_load_8(((unsigned char *)((uintptr_t)v38 + 1))) > (int8_t)255) { v31 = 1; goto L2; }
    goto L26;
L17:;
    v93 = (unsigned char *)((uintptr_t)v38 + 2);
    if (!((int8_t)nd_load_8(v38) > (int8_t)255)) goto L26;
    if (!((int8_t)nd_load_8(((unsigned char *)((uintptr_t)v38 + 1))) > (int8_t)255)) goto L26;
    if ((int8_t)nd_load_8(v93) > (int8_t)255) { v31 = 1; goto L2; }
    goto L26;
L20:;
    if (!(v39 > 16ULL)) goto L22;
    v102 = nd_ndef_lang_ascii_are_many(v38, v39);
    if (v102) { v31 = 1; goto L2; }
    goto L26;
L22:;
    if (!(((((((uint32_t)nd_load_8(((unsigned char *)((uintptr_t)v38 + 1))) << 8) | (uint32_t)nd_load_8(v38)) | ((uint32_t)nd_load_8(((unsigned char *)((uintptr_t)v38 + 2))) << 16)) | ((uint32_t)nd_load_8(((unsigned char *)((uintptr_t)v38 + 3))) << 24)) & 2155905152U) == 0U)) goto L26;
    if (!(((((((uint32_t)nd_load_8(((unsigned char *)((uintptr_t)v38 + 5))) << 8) | (uint32_t)nd_load_8(((unsigned char *)((uintptr_t)v38 + 4)))) | ((uint32_t)nd_load_8(((unsigned char *)((uintptr_t)v38 + 6))) << 16)) | ((uint32_t)nd_load_8(((unsigned char *)((uintptr_t)v38 + 7))) << 24)) & 2155905152U) == 0U)) goto L26;
    v142 = (unsigned char *)((uintptr_t)v34 + (uintptr_t)v33);
    if (!(((((((uint32_t)nd_load_8(((unsigned char *)((uintptr_t)v142 - 7))) << 8) | (uint32_t)nd_load_8(((unsigned char *)((uintptr_t)v142 - 8)))) | ((uint32_t)nd_load_8(((unsigned char *)((uintptr_t)v142 - 6))) << 16)) | ((uint32_t)nd_load_8(((unsigned char *)((uintptr_t)v142 - 5))) << 24)) & 2155905152U) == 0U)) goto L26;
    if (((((((uint32_t)nd_load_8(((unsigned char *)((uintptr_t)v142 - 3))) << 8) | (uint32_t)nd_load_8(((unsigned char *)((uintptr_t)v142 - 4)))) | ((uint32_t)nd_load_8(((unsigned char *)((uintptr_t)v142 - 2))) << 16)) | ((uint32_t)nd_load_8(((unsigned char *)((uintptr_t)v142 - 1))) << 24)) & 2155905152U) == 0U) { v31 = 1; goto L2; }
L26:;
    v183 = nd_ndef_lang_member_is_long_utf8(v38, v39);
    v31 = v183;
    goto L2;
L27:;
    v184 = nd_ndef_lang_member_is_utf16(v38, v39);
    v31 = v184;
    goto L2;
L28:;
    if (v33 == v32) { v31 = 0; goto L2; }
    nd_ndef_lang_leaf_Stage_after(v13.b, v35, v36, nd_load_8(v38));
    if (nd_load_8(v13.b) == 0) goto L1;
    v31 = 0;
    goto L2;
}

static void nd_ndef_c_run_first_run(unsigned char *v1, unsigned char *v2, uint64_t v3) {
    unsigned char *v5, *v6, *v38, *v48, *v53, *v59, *v60, *v70, *v72, *v73, *v105, *v115, *v120, *v132, *v138;
    uint64_t v7, v39, v47, v49, v51, v54, v56, v57, v61, v67, v68, v69, v74, v106, v114, v116, v118, v121, v123, v124, v130, v133, v134, v139, v140, v141;
    uint8_t v8, v75, v117, v137;
    uint32_t v36, v37, v103, v104;
    if (v3 < 2ULL) goto L15;
    v5 = (unsigned char *)((uintptr_t)v2 + 1);
    v6 = (unsigned char *)((uintptr_t)v2 + 2);
    v7 = v3 + 18446744073709551614ULL;
    v8 = nd_load_8(v2);
    if ((uint8_t)(v8 & 16) == 0) goto L4;
    if (v7 == 0ULL) goto L15;
    v37 = (uint32_t)nd_load_8(v6);
    v38 = (unsigned char *)((uintptr_t)v2 + 3);
    v39 = v3 + 18446744073709551613ULL;
    goto L6;
L4:;
    if (v7 < 4ULL) goto L15;
    v36 = nd_bswap_i32((((((uint32_t)nd_load_8(((unsigned char *)((uintptr_t)v2 + 3))) << 8) | (uint32_t)nd_load_8(v6)) | ((uint32_t)nd_load_8(((unsigned char *)((uintptr_t)v2 + 4))) << 16)) | ((uint32_t)nd_load_8(((unsigned char *)((uintptr_t)v2 + 5))) << 24)));
    v37 = v36;
    v38 = (unsigned char *)((uintptr_t)v2 + 6);
    v39 = v3 + 18446744073709551610ULL;
L6:;
    if ((uint8_t)(v8 & 8) == 0) { v47 = 0ULL; v48 = v38; v49 = v39; goto L9; }
    if (v39 == 0ULL) goto L15;
    v47 = (uint64_t)nd_load_8(v38);
    v48 = (unsigned char *)((uintptr_t)v38 + 1);
    v49 = v39 + 18446744073709551615ULL;
L9:;
    v51 = (uint64_t)nd_load_8(v5);
    if (v49 < v51) goto L15;
    v53 = (unsigned char *)((uintptr_t)v48 + (uintptr_t)v51);
    v54 = v49 - v51;
    if (v54 < v47) goto L15;
    v56 = v54 - v47;
    v57 = (uint64_t)v37;
    if (v56 < v57) goto L15;
    v59 = (unsigned char *)((uintptr_t)v53 + (uintptr_t)v47);
    v60 = (unsigned char *)((uintptr_t)v59 + (uintptr_t)v57);
    v61 = v56 - v57;
    switch ((uint8_t)(v8 & 7)) {
    case 6: goto L16;
    case 0: goto L13;
    default: goto L17; }
L13:;
    if ((uint8_t)(v8 & 32) == 0) { v137 = v8; v138 = v60; v139 = v61; v140 = 1ULL; v141 = v57; goto L34; }
    goto L16;
L14:;
    return;
L15:;
    nd_memset(v1, 0, 120);
    goto L14;
L16:;
    nd_memset(v1, 0, 120);
    goto L14;
L17:;
    if ((uint8_t)(v8 & 32) == 0) { v137 = v8; v138 = v60; v139 = v61; v140 = 1ULL; v141 = v57; goto L34; }
    v67 = v57;
    v68 = 1ULL;
    v69 = v61;
    v70 = v60;
L18:;
    if (v69 < 2ULL) goto L31;
    v72 = (unsigned char *)((uintptr_t)v70 + 1);
    v73 = (unsigned char *)((uintptr_t)v70 + 2);
    v74 = v69 + 18446744073709551614ULL;
    v75 = nd_load_8(v70);
    if ((uint8_t)(v75 & 16) == 0) goto L22;
    if (v74 == 0ULL) goto L31;
    v104 = (uint32_t)nd_load_8(v73);
    v105 = (unsigned char *)((uintptr_t)v70 + 3);
    v106 = v69 + 18446744073709551613ULL;
    goto L24;
L22:;
    if (v74 < 4ULL) goto L31;
    v103 = nd_bswap_i32((((((uint32_t)nd_load_8(((unsigned char *)((uintptr_t)v70 + 3))) << 8) | (uint32_t)nd_load_8(v73)) | ((uint32_t)nd_load_8(((unsigned char *)((uintptr_t)v70 + 4))) << 16)) | ((uint32_t)nd_load_8(((unsigned char *)((uintptr_t)v70 + 5))) << 24)));
    v104 = v103;
    v105 = (unsigned char *)((uintptr_t)v70 + 6);
    v106 = v69 + 18446744073709551610ULL;
L24:;
    if ((uint8_t)(v75 & 8) == 0) { v114 = 0ULL; v115 = v105; v116 = v106; goto L27; }
    if (v106 == 0ULL) goto L31;
    v114 = (uint64_t)nd_load_8(v105);
    v115 = (unsigned char *)((uintptr_t)v105 + 1);
    v116 = v106 + 18446744073709551615ULL;
L27:;
    v117 = nd_load_8(v72);
    v118 = (uint64_t)v117;
    if (v116 < v118) goto L31;
    v120 = (unsigned char *)((uintptr_t)v115 + (uintptr_t)v118);
    v121 = v116 - v118;
    if (v121 < v114) goto L31;
    v123 = v121 - v114;
    v124 = (uint64_t)v104;
    if (v123 < v124) goto L31;
    if (((uint8_t)(v75 & 15) == 6) & (int)(v117 == 0)) goto L33;
    goto L32;
L31:;
    nd_memset(v1, 0, 120);
    goto L14;
L32:;
    nd_memset(v1, 0, 120);
    goto L14;
L33:;
    v130 = v123 - v124;
    v132 = (unsigned char *)((uintptr_t)((unsigned char *)((uintptr_t)v120 + (uintptr_t)v114)) + (uintptr_t)v124);
    v133 = v67 + v124;
    v134 = v68 + 1ULL;
    if ((uint8_t)(v75 & 32) == 0) { v137 = v75; v138 = v132; v139 = v130; v140 = v134; v141 = v133; goto L34; }
    v67 = v133;
    v68 = v134;
    v69 = v130;
    v70 = v132;
    goto L18;
L34:;
    nd_store_64(v1, 1ULL);
    nd_store_8(((unsigned char *)((uintptr_t)v1 + 8)), v8);
    nd_memset(((unsigned char *)((uintptr_t)v1 + 9)), 0, 7);
    nd_store_ptr(((unsigned char *)((uintptr_t)v1 + 16)), v48);
    nd_store_64(((unsigned char *)((uintptr_t)v1 + 24)), v51);
    nd_store_ptr(((unsigned char *)((uintptr_t)v1 + 32)), v53);
    nd_store_64(((unsigned char *)((uintptr_t)v1 + 40)), v47);
    nd_store_ptr(((unsigned char *)((uintptr_t)v1 + 48)), v59);
    nd_store_64(((unsigned char *)((uintptr_t)v1 + 56)), v57);
    nd_store_ptr(((unsigned char *)((uintptr_t)v1 + 64)), v60);
    nd_store_64(((unsigned char *)((uintptr_t)v1 + 72)), v61);
    nd_store_64(((unsigned char *)((uintptr_t)v1 + 80)), v141);
    nd_store_64(((unsigned char *)((uintptr_t)v1 + 88)), v140);
    nd_store_8(((unsigned char *)((uintptr_t)v1 + 96)), (uint8_t)((uint8_t)(v137 >> 6) & 1));
    nd_memset(((unsigned char *)((uintptr_t)v1 + 97)), 0, 7);
    nd_store_ptr(((unsigned char *)((uintptr_t)v1 + 104)), v138);
    nd_store_64(((unsigned char *)((uintptr_t)v1 + 112)), v139);
    goto L14;
}

static void nd_ndef_c_chunks_PiecesIterator_next(unsigned char *v1, unsigned char *v2) {
    unsigned char *v3, *v6, *v12, *v15, *v16, *v48;
    uint64_t v7, v9, v13, v17, v49, v56, v57, v59, v61, v63, v64, v67;
    uint8_t v18;
    uint32_t v46, v47;
    v3 = (unsigned char *)((uintptr_t)v2 + 24);
    if (!(uint8_t)(nd_load_8(v3) & 1)) goto L3;
    v6 = (unsigned char *)((uintptr_t)v2 + 16);
    v7 = nd_load_64(v6);
    v9 = nd_load_64(((unsigned char *)((uintptr_t)v2 + 8)));
    if (v9 < v7) goto L3;
    goto L4;
L2:;
    return;
L3:;
    nd_memset(v1, 0, 24);
    goto L2;
L4:;
    v12 = (unsigned char *)((uintptr_t)nd_load_ptr(v2) + (uintptr_t)v7);
    v13 = v9 - v7;
    if (v13 < 2ULL) goto L17;
    v15 = (unsigned char *)((uintptr_t)v12 + 1);
    v16 = (unsigned char *)((uintptr_t)v12 + 2);
    v17 = v13 + 18446744073709551614ULL;
    v18 = nd_load_8(v12);
    if ((uint8_t)(v18 & 16) == 0) goto L8;
    if (v17 == 0ULL) goto L17;
    v47 = (uint32_t)nd_load_8(v16);
    v48 = (unsigned char *)((uintptr_t)v12 + 3);
    v49 = v13 + 18446744073709551613ULL;
    goto L10;
L8:;
    if (v17 < 4ULL) goto L17;
    v46 = nd_bswap_i32((((((uint32_t)nd_load_8(((unsigned char *)((uintptr_t)v12 + 3))) << 8) | (uint32_t)nd_load_8(v16)) | ((uint32_t)nd_load_8(((unsigned char *)((uintptr_t)v12 + 4))) << 16)) | ((uint32_t)nd_load_8(((unsigned char *)((uintptr_t)v12 + 5))) << 24)));
    v47 = v46;
    v48 = (unsigned char *)((uintptr_t)v12 + 6);
    v49 = v13 + 18446744073709551610ULL;
L10:;
    if ((uint8_t)(v18 & 8) == 0) { v56 = 0ULL; v57 = v49; goto L13; }
    if (v49 == 0ULL) goto L17;
    v56 = (uint64_t)nd_load_8(v48);
    v57 = v49 + 18446744073709551615ULL;
L13:;
    v59 = (uint64_t)nd_load_8(v15);
    if (v57 < v59) goto L17;
    v61 = v57 - v59;
    if (v61 < v56) goto L17;
    v63 = v61 - v56;
    v64 = (uint64_t)v47;
    if (v63 < v64) goto L17;
    v67 = (v64 - v63) + v9;
    nd_store_64(v6, v67);
    nd_store_8(v3, (uint8_t)((uint8_t)(v18 >> 5) & 1));
    nd_store_64(v1, 1ULL);
    nd_store_64(((unsigned char *)((uintptr_t)v1 + 8)), (v67 - v64));
    nd_store_64(((unsigned char *)((uintptr_t)v1 + 16)), v64);
    goto L2;
L17:;
    nd_memset(v1, 0, 24);
    goto L2;
}

static uint32_t nd_ndef_c_content_give_content(unsigned char *v1, unsigned char *v2, uint64_t v3, unsigned char *v4) {
    struct nd_8_64 v7;
    uint64_t v10, v19, v23, v26, v33, v37, v39, v46, v50, v53, v57, v61, v68, v72, v74, v82, v86, v93, v97, v104, v117, v118, v125, v129, v131, v136, v137, v141, v148, v149, v156, v160, v162, v165, v169, v176, v180, v183, v189, v193;
    uint32_t v12;
    unsigned char *v14, *v17, *v21, *v28, *v41, *v55, *v63, *v76, *v88, *v100, *v102, *v109, *v114, *v116, *v120, *v139, *v140, *v147, *v151, *v171;
    ND_ROOM(24) v5;
    nd_store_64((v5.b + 16), 0ULL);
    v7 = nd_ndef_c_content_content_length(v1);
    if (!(v7.f0 == 1)) { v12 = 3U; goto L2; }
    v10 = v7.f1;
    nd_store_64(v4, v10);
    if (v3 < v10) { v12 = 2U; goto L2; }
    goto L3;
L2:;
    return v12;
L3:;
    nd_store_ptr(v5.b, v2);
    nd_store_64((v5.b + 8), v3);
    v14 = v5.b + 16;
    v17 = nd_load_ptr(((unsigned char *)((uintptr_t)v1 + 8)));
    switch (nd_load_8(v1)) {
    case 0: goto L4;
    case 1: goto L14;
    case 2: goto L25;
    case 3: goto L31;
    case 4: goto L49;
    case 5: goto L55;
    default: goto L59; }
L4:;
    v19 = nd_load_64(((unsigned char *)((uintptr_t)v1 + 16)));
    v21 = nd_load_ptr(((unsigned char *)((uintptr_t)v1 + 24)));
    v23 = nd_load_64(((unsigned char *)((uintptr_t)v1 + 32)));
    if (v3 == 0ULL) goto L6;
    nd_store_8(v2, (uint8_t)v19);
L6:;
    v26 = nd_uadd_sat_i64(v19, 1ULL);
    if (v26 > v3) goto L10;
    v28 = (unsigned char *)((uintptr_t)v2 + 1);
    if (((uint64_t)(uintptr_t)v28 - (uint64_t)(uintptr_t)v17) < v19) { v33 = 0ULL; goto L9; }
    nd_move(v28, v17, v19);
    goto L10;
L9:;
    nd_store_8((v28 + (ptrdiff_t)v33), nd_load_8((v17 + (ptrdiff_t)v33)));
    v37 = v33 + 1ULL;
    if (!(v37 == v19)) { v33 = v37; goto L9; }
L10:;
    v39 = nd_uadd_sat_i64(v23, v26);
    if (v39 > v3) { v12 = 0U; goto L2; }
    v41 = (unsigned char *)((uintptr_t)v2 + (uintptr_t)v26);
    if (((uint64_t)(uintptr_t)v41 - (uint64_t)(uintptr_t)v21) < v23) { v46 = 0ULL; goto L13; }
    nd_move(v41, v21, v23);
    v12 = 0U;
    goto L2;
L13:;
    nd_store_8((v41 + (ptrdiff_t)v46), nd_load_8((v21 + (ptrdiff_t)v46)));
    v50 = v46 + 1ULL;
    if (v50 == v23) { v12 = 0U; goto L2; }
    v46 = v50;
    goto L13;
L14:;
    v53 = nd_load_64(((unsigned char *)((uintptr_t)v1 + 16)));
    v55 = nd_load_ptr(((unsigned char *)((uintptr_t)v1 + 24)));
    v57 = nd_load_64(((unsigned char *)((uintptr_t)v1 + 32)));
    if (v3 == 0ULL) goto L16;
    nd_store_8(v2, (uint8_t)((uint8_t)v53 ^ 128));
L16:;
    v61 = nd_uadd_sat_i64(v53, 1ULL);
    if (v61 > v3) goto L20;
    v63 = (unsigned char *)((uintptr_t)v2 + 1);
    if (((uint64_t)(uintptr_t)v63 - (uint64_t)(uintptr_t)v17) < v53) { v68 = 0ULL; goto L19; }
    nd_move(v63, v17, v53);
    goto L20;
L19:;
    nd_store_8((v63 + (ptrdiff_t)v68), nd_load_8((v17 + (ptrdiff_t)v68)));
    v72 = v68 + 1ULL;
    if (!(v72 == v53)) { v68 = v72; goto L19; }
L20:;
    v74 = nd_uadd_sat_i64(v53, 3ULL);
    if (v74 > v3) goto L24;
    v76 = (unsigned char *)((uintptr_t)v2 + (uintptr_t)v61);
    if (!(((uint64_t)(uintptr_t)v76 - (uint64_t)(uintptr_t)(unsigned char *)nd_data_static_88) < 2ULL)) goto L23;
    nd_store_8(v76, 254);
    nd_store_8((v76 + 1), 255);
    goto L24;
L23:;
    nd_store_16(v76, 65534);
L24:;
    nd_store_64(v14, v74);
    nd_ndef_c_utf16_put_units(v5.b, v55, v57);
    v12 = 0U;
    goto L2;
L25:;
    v82 = nd_load_64(((unsigned char *)((uintptr_t)v1 + 16)));
    if (v3 == 0ULL) goto L27;
    nd_store_8(v2, nd_load_8(((unsigned char *)((uintptr_t)v1 + 1))));
L27:;
    v86 = nd_uadd_sat_i64(v82, 1ULL);
    if (v86 > v3) { v12 = 0U; goto L2; }
    v88 = (unsigned char *)((uintptr_t)v2 + 1);
    if (((uint64_t)(uintptr_t)v88 - (uint64_t)(uintptr_t)v17) < v82) { v93 = 0ULL; goto L30; }
    nd_move(v88, v17, v82);
    v12 = 0U;
    goto L2;
L30:;
    nd_store_8((v88 + (ptrdiff_t)v93), nd_load_8((v17 + (ptrdiff_t)v93)));
    v97 = v93 + 1ULL;
    if (v97 == v82) { v12 = 0U; goto L2; }
    v93 = v97;
    goto L30;
L31:;
    v100 = nd_load_ptr(((unsigned char *)((uintptr_t)v1 + 24)));
    v102 = nd_load_ptr(((unsigned char *)((uintptr_t)v1 + 32)));
    v104 = nd_load_64(((unsigned char *)((uintptr_t)v1 + 40)));
    if (!(v3 == 0ULL)) goto L33;
    v114 = (unsigned char *)((uintptr_t)v100 + 8);
    goto L35;
L33:;
    nd_store_8(v2, nd_load_8(((unsigned char *)((uintptr_t)v1 + 1))));
    v109 = (unsigned char *)((uintptr_t)v100 + 8);
    if (v3 == 1ULL) { v114 = v109; goto L35; }
    nd_store_8(((unsigned char *)((uintptr_t)v2 + 1)), (uint8_t)nd_load_64(v109));
    v114 = v109;
L35:;
    v116 = (unsigned char *)((uintptr_t)v17 + (uintptr_t)nd_load_64(v100));
    v117 = nd_load_64(v114);
    v118 = nd_uadd_sat_i64(v117, 2ULL);
    if (v118 > v3) goto L39;
    v120 = (unsigned char *)((uintptr_t)v2 + 2);
    if (((uint64_t)(uintptr_t)v120 - (uint64_t)(uintptr_t)v116) < v117) { v125 = 0ULL; goto L38; }
    nd_move(v120, v116, v117);
    goto L39;
L38:;
    nd_store_8((v120 + (ptrdiff_t)v125), nd_load_8((v116 + (ptrdiff_t)v125)));
    v129 = v125 + 1ULL;
    if (!(v129 == v117)) { v125 = v129; goto L38; }
L39:;
    v131 = nd_uadd_sat_i64(v117, 3ULL);
    if (v131 > v3) goto L41;
    nd_store_8(((unsigned char *)((uintptr_t)v2 + (uintptr_t)v118)), (uint8_t)v104);
L41:;
    if (v104 == 0ULL) { v12 = 0U; goto L2; }
    v136 = v131;
    v137 = 0ULL;
L42:;
    v139 = (unsigned char *)((uintptr_t)v102 + (uintptr_t)(v137 << 4));
    v140 = (unsigned char *)((uintptr_t)v139 + 8);
    v141 = nd_uadd_sat_i64(v136, 1ULL);
    if (v141 > v3) goto L44;
    nd_store_8(((unsigned char *)((uintptr_t)v2 + (uintptr_t)v136)), (uint8_t)nd_load_64(v140));
L44:;
    v147 = (unsigned char *)((uintptr_t)v17 + (uintptr_t)nd_load_64(v139));
    v148 = nd_load_64(v140);
    v149 = nd_uadd_sat_i64(v148, v141);
    if (v149 > v3) goto L48;
    v151 = (unsigned char *)((uintptr_t)v2 + (uintptr_t)v141);
    if (((uint64_t)(uintptr_t)v151 - (uint64_t)(uintptr_t)v147) < v148) { v156 = 0ULL; goto L47; }
    nd_move(v151, v147, v148);
    goto L48;
L47:;
    nd_store_8((v151 + (ptrdiff_t)v156), nd_load_8((v147 + (ptrdiff_t)v156)));
    v160 = v156 + 1ULL;
    if (!(v160 == v148)) { v156 = v160; goto L47; }
L48:;
    v162 = v137 + 1ULL;
    if (v162 == v104) { v12 = 0U; goto L2; }
    v136 = v149;
    v137 = v162;
    goto L42;
L49:;
    v165 = nd_load_64(((unsigned char *)((uintptr_t)v1 + 16)));
    if (v3 == 0ULL) goto L51;
    nd_store_8(v2, nd_load_8(((unsigned char *)((uintptr_t)v1 + 1))));
L51:;
    v169 = nd_uadd_sat_i64(v165, 1ULL);
    if (v169 > v3) { v12 = 0U; goto L2; }
    v171 = (unsigned char *)((uintptr_t)v2 + 1);
    if (((uint64_t)(uintptr_t)v171 - (uint64_t)(uintptr_t)v17) < v165) { v176 = 0ULL; goto L54; }
    nd_move(v171, v17, v165);
    v12 = 0U;
    goto L2;
L54:;
    nd_store_8((v171 + (ptrdiff_t)v176), nd_load_8((v17 + (ptrdiff_t)v176)));
    v180 = v176 + 1ULL;
    if (v180 == v165) { v12 = 0U; goto L2; }
    v176 = v180;
    goto L54;
L55:;
    v183 = nd_load_64(((unsigned char *)((uintptr_t)v1 + 16)));
    if (v183 > v3) { v12 = 0U; goto L2; }
    if (((uint64_t)(uintptr_t)v2 - (uint64_t)(uintptr_t)v17) < v183) { v189 = 0ULL; goto L58; }
    nd_move(v2, v17, v183);
    v12 = 0U;
    goto L2;
L58:;
    nd_store_8((v2 + (ptrdiff_t)v189), nd_load_8((v17 + (ptrdiff_t)v189)));
    v193 = v189 + 1ULL;
    if (v193 == v183) { v12 = 0U; goto L2; }
    v189 = v193;
    goto L58;
L59:;
    nd_stop();
}

static struct nd_8_64 nd_ndef_c_content_content_length(unsigned char *v1) {
    uint64_t v9, v10, v11, v18, v19, v23, v29, v32, v34, v35, v39, v41, v42, v46, v49;
    unsigned char *v12, *v16, *v27;
    uint8_t v50;
    ND_ROOM(1) v2;
    ND_ROOM(24) v3;
    nd_store_ptr(v3.b, v2.b);
    nd_store_64((v3.b + 8), 0ULL);
    switch (nd_load_8(v1)) {
    case 0: goto L1;
    case 1: goto L2;
    case 2: goto L3;
    case 3: goto L4;
    case 4: goto L6;
    case 5: goto L7;
    default: goto L8; }
L1:;
    v9 = nd_load_64(((unsigned char *)((uintptr_t)v1 + 32)));
    v10 = nd_uadd_sat_i64(nd_load_64(((unsigned char *)((uintptr_t)v1 + 16))), 1ULL);
    v11 = nd_uadd_sat_i64(v9, v10);
    v49 = v11;
    goto L9;
L2:;
    v12 = v3.b + 16;
    v16 = nd_load_ptr(((unsigned char *)((uintptr_t)v1 + 24)));
    v18 = nd_load_64(((unsigned char *)((uintptr_t)v1 + 32)));
    v19 = nd_uadd_sat_i64(nd_load_64(((unsigned char *)((uintptr_t)v1 + 16))), 3ULL);
    nd_store_64(v12, v19);
    nd_ndef_c_utf16_put_units(v3.b, v16, v18);
    v49 = nd_load_64(v12);
    goto L9;
L3:;
    v23 = nd_uadd_sat_i64(nd_load_64(((unsigned char *)((uintptr_t)v1 + 16))), 1ULL);
    v49 = v23;
    goto L9;
L4:;
    v27 = nd_load_ptr(((unsigned char *)((uintptr_t)v1 + 32)));
    v29 = nd_load_64(((unsigned char *)((uintptr_t)v1 + 40)));
    v32 = nd_uadd_sat_i64(nd_load_64(((unsigned char *)((uintptr_t)nd_load_ptr(((unsigned char *)((uintptr_t)v1 + 24))) + 8))), 3ULL);
    if (v29 == 0ULL) { v49 = v32; goto L9; }
    v34 = v32;
    v35 = 0ULL;
L5:;
    v39 = nd_uadd_sat_i64(v34, 1ULL);
    v41 = nd_uadd_sat_i64(nd_load_64(((unsigned char *)((uintptr_t)((unsigned char *)((uintptr_t)v27 + (uintptr_t)(v35 << 4))) + 8))), v39);
    v42 = v35 + 1ULL;
    if (v42 == v29) { v49 = v41; goto L9; }
    v34 = v41;
    v35 = v42;
    goto L5;
L6:;
    v46 = nd_uadd_sat_i64(nd_load_64(((unsigned char *)((uintptr_t)v1 + 16))), 1ULL);
    v49 = v46;
    goto L9;
L7:;
    v49 = nd_load_64(((unsigned char *)((uintptr_t)v1 + 16)));
    goto L9;
L8:;
    nd_stop();
L9:;
    v50 = v49 < 4294967296ULL;
    return (struct nd_8_64) { (uint8_t)v50, (v50 ? v49 : 0ULL) };
}

static void nd_ndef_c_utf16_put_units(unsigned char *v1, unsigned char *v2, uint64_t v3) {
    unsigned char *v6, *v7, *v8, *v10, *v47, *v51, *v61;
    uint64_t v9, v32, v48, v50, v60, v63, v65, v66, v67, v76;
    uint8_t v11;
    uint32_t v12, v17, v25, v33, v43, v45, v46, v52;
    uint16_t v62, v73;
    ND_ROOM(4) v4;
    if (v3 == 0ULL) goto L16;
    v6 = v4.b + 2;
    v7 = (unsigned char *)((uintptr_t)v1 + 16);
    v8 = (unsigned char *)((uintptr_t)v1 + 8);
    v9 = v3;
    v10 = v2;
L2:;
    v11 = nd_load_8(v10);
    v12 = (uint32_t)v11;
    if ((int8_t)v11 > (int8_t)255) { v32 = 1ULL; v33 = v12; goto L7; }
    v17 = (uint32_t)(uint8_t)(nd_load_8((v10 + 1)) & 63);
    if (!(v11 < 224)) goto L5;
    v32 = 2ULL;
    v33 = ((v12 << 6) & 1984U) | v17;
    goto L7;
L5:;
    v25 = (uint32_t)(uint8_t)(nd_load_8((v10 + 2)) & 63);
    if (!(v11 < 240)) goto L8;
    v32 = 3ULL;
    v33 = ((v17 << 6) | ((v12 << 12) & 61440U)) | v25;
L7:;
    nd_store_32(v4.b, 0U);
    v50 = v9 - v32;
    v51 = (unsigned char *)((uintptr_t)v10 + (uintptr_t)v32);
    v52 = v33;
    goto L9;
L8:;
    v43 = (v17 << 12) | ((v12 << 18) & 1835008U);
    v45 = (v25 << 6) | (uint32_t)(uint8_t)(nd_load_8((v10 + 3)) & 63);
    v46 = v45 | v43;
    v47 = (unsigned char *)((uintptr_t)v10 + 4);
    v48 = v9 + 18446744073709551612ULL;
    nd_store_32(v4.b, 0U);
    if (v43 < 65536U) { v50 = v48; v51 = v47; v52 = v46; goto L9; }
    goto L10;
L9:;
    v60 = v50;
    v61 = v51;
    v62 = (uint16_t)v52;
    v63 = 1ULL;
    goto L11;
L10:;
    nd_store_16(v6, (uint16_t)((uint16_t)v45 | 56320));
    v60 = v48;
    v61 = v47;
    v62 = (uint16_t)((uint16_t)((v46 + 67043328U) >> 10) + 55296);
    v63 = 2ULL;
L11:;
    nd_store_16(v4.b, v62);
    v65 = nd_load_64(v7);
    v66 = 0ULL;
L12:;
    v67 = nd_uadd_sat_i64(v65, 2ULL);
    if (v67 > nd_load_64(v8)) goto L14;
    v73 = nd_bswap_i16(nd_load_16(((unsigned char *)((uintptr_t)v4.b + (uintptr_t)(v66 << 1)))));
    nd_store_16(((unsigned char *)((uintptr_t)nd_load_ptr(v1) + (uintptr_t)v65)), v73);
L14:;
    nd_store_64(v7, v67);
    v76 = v66 + 1ULL;
    if (!(v76 == v63)) { v65 = v67; v66 = v76; goto L12; }
    if (!(v60 == 0ULL)) { v9 = v60; v10 = v61; goto L2; }
L16:;
    return;
}

static void nd_ndef_types_prefixes_split(unsigned char *v1, unsigned char *v2, uint64_t v3) {
    uint8_t v4, v8, v9, v10, v13, v87, v114, v126, v129;
    unsigned char *v5, *v6, *v7, *v12, *v29, *v64;
    uint64_t v11, v27, v28, v89, v90, v91, v93, v95, v97, v100, v119, v134;
    v4 = v3 == 0ULL;
    v5 = v2 + 1;
    v6 = v2 + 2;
    v7 = v2 + 3;
    v8 = 0;
    v9 = 1;
L1:;
    switch (v9) {
    case 35: goto L35;
    case 1: { v10 = 0; v11 = 11ULL; v12 = (unsigned char *)nd_data_static_51; goto L36; }
    case 2: goto L2;
    case 3: goto L3;
    case 4: goto L4;
    case 5: goto L5;
    case 6: goto L6;
    case 7: goto L7;
    case 8: goto L8;
    case 9: goto L9;
    case 10: goto L10;
    case 11: goto L11;
    case 12: goto L12;
    case 13: goto L13;
    case 14: goto L14;
    case 15: goto L15;
    case 16: goto L16;
    case 17: goto L17;
    case 18: goto L18;
    case 19: goto L19;
    case 20: goto L20;
    case 21: goto L21;
    case 22: goto L22;
    case 23: goto L23;
    case 24: goto L24;
    case 25: goto L25;
    case 26: goto L26;
    case 27: goto L27;
    case 28: goto L28;
    case 29: goto L29;
    case 30: goto L30;
    case 31: goto L31;
    case 32: goto L32;
    case 33: goto L33;
    case 34: goto L34;
    default: goto L41; }
L2:;
    v10 = 0;
    v11 = 12ULL;
    v12 = (unsigned char *)nd_data_static_52;
    goto L36;
L3:;
    v10 = 1;
    v11 = 7ULL;
    v12 = (unsigned char *)nd_data_static_53;
    goto L36;
L4:;
    v10 = 0;
    v11 = 8ULL;
    v12 = (unsigned char *)nd_data_static_54;
    goto L36;
L5:;
    v10 = 1;
    v11 = 4ULL;
    v12 = (unsigned char *)nd_data_static_55;
    goto L36;
L6:;
    v10 = 1;
    v11 = 7ULL;
    v12 = (unsigned char *)nd_data_static_56;
    goto L36;
L7:;
    v10 = 0;
    v11 = 26ULL;
    v12 = (unsigned char *)nd_data_static_57;
    goto L36;
L8:;
    v10 = 0;
    v11 = 10ULL;
    v12 = (unsigned char *)nd_data_static_58;
    goto L36;
L9:;
    v10 = 1;
    v11 = 7ULL;
    v12 = (unsigned char *)nd_data_static_59;
    goto L36;
L10:;
    v10 = 1;
    v11 = 7ULL;
    v12 = (unsigned char *)nd_data_static_60;
    goto L36;
L11:;
    v10 = 1;
    v11 = 6ULL;
    v12 = (unsigned char *)nd_data_static_61;
    goto L36;
L12:;
    v10 = 1;
    v11 = 6ULL;
    v12 = (unsigned char *)nd_data_static_62;
    goto L36;
L13:;
    v10 = 1;
    v11 = 6ULL;
    v12 = (unsigned char *)nd_data_static_63;
    goto L36;
L14:;
    v10 = 1;
    v11 = 6ULL;
    v12 = (unsigned char *)nd_data_static_64;
    goto L36;
L15:;
    v10 = 1;
    v11 = 5ULL;
    v12 = (unsigned char *)nd_data_static_65;
    goto L36;
L16:;
    v10 = 0;
    v11 = 9ULL;
    v12 = (unsigned char *)nd_data_static_66;
    goto L36;
L17:;
    v10 = 1;
    v11 = 5ULL;
    v12 = (unsigned char *)nd_data_static_67;
    goto L36;
L18:;
    v10 = 1;
    v11 = 7ULL;
    v12 = (unsigned char *)nd_data_static_68;
    goto L36;
L19:;
    v10 = 1;
    v11 = 4ULL;
    v12 = (unsigned char *)nd_data_static_69;
    goto L36;
L20:;
    v10 = 1;
    v11 = 4ULL;
    v12 = (unsigned char *)nd_data_static_70;
    goto L36;
L21:;
    v10 = 1;
    v11 = 4ULL;
    v12 = (unsigned char *)nd_data_static_71;
    goto L36;
L22:;
    v10 = 1;
    v11 = 5ULL;
    v12 = (unsigned char *)nd_data_static_72;
    goto L36;
L23:;
    v10 = 1;
    v11 = 5ULL;
    v12 = (unsigned char *)nd_data_static_73;
    goto L36;
L24:;
    v10 = 0;
    v11 = 8ULL;
    v12 = (unsigned char *)nd_data_static_74;
    goto L36;
L25:;
    v10 = 0;
    v11 = 10ULL;
    v12 = (unsigned char *)nd_data_static_75;
    goto L36;
L26:;
    v10 = 0;
    v11 = 9ULL;
    v12 = (unsigned char *)nd_data_static_76;
    goto L36;
L27:;
    v10 = 0;
    v11 = 10ULL;
    v12 = (unsigned char *)nd_data_static_77;
    goto L36;
L28:;
    v10 = 0;
    v11 = 11ULL;
    v12 = (unsigned char *)nd_data_static_78;
    goto L36;
L29:;
    v10 = 1;
    v11 = 7ULL;
    v12 = (unsigned char *)nd_data_static_79;
    goto L36;
L30:;
    v10 = 0;
    v11 = 11ULL;
    v12 = (unsigned char *)nd_data_static_80;
    goto L36;
L31:;
    v10 = 0;
    v11 = 12ULL;
    v12 = (unsigned char *)nd_data_static_81;
    goto L36;
L32:;
    v10 = 0;
    v11 = 12ULL;
    v12 = (unsigned char *)nd_data_static_82;
    goto L36;
L33:;
    v10 = 0;
    v11 = 12ULL;
    v12 = (unsigned char *)nd_data_static_83;
    goto L36;
L34:;
    v10 = 0;
    v11 = 8ULL;
    v12 = (unsigned char *)nd_data_static_84;
    goto L36;
L35:;
    v10 = 0;
    v11 = 8ULL;
    v12 = (unsigned char *)nd_data_static_85;
L36:;
    if (v4) { v126 = v8; goto L45; }
    v13 = nd_load_8(v2);
    if ((v3 < v11) | (int)(v13 != nd_load_8(v12))) { v126 = v8; goto L45; }
    if (!v10) goto L40;
    v27 = (uint64_t)v13;
    v28 = v11 + 18446744073709551612ULL;
    v29 = v2 + (ptrdiff_t)v28;
    v64 = v12 + (ptrdiff_t)v28;
    v87 = (((((((((uint64_t)nd_load_8(v5) << 8) | ((uint64_t)nd_load_8(v6) << 16)) | ((uint64_t)nd_load_8(v7) << 24)) | ((uint64_t)nd_load_8(v29) << 32)) | ((uint64_t)nd_load_8((v29 + 1)) << 40)) | ((uint64_t)nd_load_8((v29 + 2)) << 48)) | ((uint64_t)nd_load_8((v29 + 3)) << 56)) | v27) == (((((((((uint64_t)nd_load_8((v12 + 1)) << 8) | ((uint64_t)nd_load_8((v12 + 2)) << 16)) | ((uint64_t)nd_load_8((v12 + 3)) << 24)) | ((uint64_t)nd_load_8(v64) << 32)) | ((uint64_t)nd_load_8((v64 + 1)) << 40)) | ((uint64_t)nd_load_8((v64 + 2)) << 48)) | ((uint64_t)nd_load_8((v64 + 3)) << 56)) | v27);
    if (v87) goto L42;
    v126 = v8;
    goto L45;
L40:;
    v89 = v11 + 18446744073709551608ULL;
    v90 = nd_load_64(v2);
    v91 = nd_load_64(v12);
    v93 = nd_umin_i64(v89, 8ULL);
    v95 = nd_load_64((v2 + (ptrdiff_t)v93));
    v97 = nd_load_64((v12 + (ptrdiff_t)v93));
    v100 = nd_umin_i64(v89, 16ULL);
    if ((((v90 == v91) & (int)(v95 == v97)) & (int)(nd_load_64((v2 + (ptrdiff_t)v100)) == nd_load_64((v12 + (ptrdiff_t)v100)))) & (int)(nd_load_64((v2 + (ptrdiff_t)v89)) == nd_load_64((v12 + (ptrdiff_t)v89)))) goto L42;
    v126 = v8;
    goto L45;
L41:;
    nd_stop();
L42:;
    v114 = (uint8_t)(v8 + 255);
    if (!(v114 < 35)) { v119 = 0ULL; goto L44; }
    v119 = nd_load_64(((unsigned char *)nd_data_switch_table_ndef_uri + (ptrdiff_t)(uint64_t)v114 * 8));
L44:;
    v126 = (uint8_t)((v119 < nd_load_64(((unsigned char *)((uintptr_t)((unsigned char *)((uintptr_t)(unsigned char *)nd_data_switch_table_ndef_uri + (uintptr_t)(uint64_t)v9 * 8)) - 8)))) ? v9 : v8);
L45:;
    if (v9 < 35) { v8 = v126; v9 = (uint8_t)(v9 + 1); goto L1; }
    v129 = (uint8_t)(v126 + 255);
    if (!(v129 < 35)) { v134 = 0ULL; goto L48; }
    v134 = nd_load_64(((unsigned char *)nd_data_switch_table_ndef_uri + (ptrdiff_t)(uint64_t)v129 * 8));
L48:;
    nd_store_8(v1, v126);
    nd_memset((v1 + 1), 0, 7);
    nd_store_ptr((v1 + 8), ((unsigned char *)((uintptr_t)v2 + (uintptr_t)v134)));
    nd_store_64((v1 + 16), (v3 - v134));
    return;
}

static void nd_ndef_lang_place_refusal_of(unsigned char *v1, uint8_t v2, uint8_t v3, unsigned char *v4, uint64_t v5) {
    uint32_t v10, v51;
    uint8_t v11, v12, v45, v46, v52, v56, v59;
    unsigned char *v13, *v14, *v15, *v16;
    uint64_t v25, v34, v35, v36, v42;
    ND_ROOM(24) v6;
    ND_ROOM(12) v7, v8;
    nd_store_32((v8.b + 8), 0U);
    switch (v2) {
    case 1: { v10 = 0U; v11 = 4; v12 = 0; goto L11; }
    case 2: goto L1;
    case 9: goto L2;
    case 7: goto L3;
    case 8: goto L4;
    case 11: goto L5;
    case 10: goto L6;
    case 12: goto L7;
    case 6: goto L8;
    case 5: goto L9;
    case 3: goto L9;
    case 4: goto L9;
    default: goto L10; }
L1:;
    v10 = 0U;
    v11 = 5;
    v12 = v3;
    goto L11;
L2:;
    v10 = 0U;
    v11 = 2;
    v12 = 0;
    goto L11;
L3:;
    v10 = 1U;
    v11 = 0;
    v12 = 0;
    goto L11;
L4:;
    v10 = 4U;
    v11 = 0;
    v12 = 0;
    goto L11;
L5:;
    v10 = 2U;
    v11 = 0;
    v12 = 0;
    goto L11;
L6:;
    v10 = 1U;
    v11 = 8;
    v12 = 0;
    goto L11;
L7:;
    v10 = 0U;
    v11 = 6;
    v12 = 0;
    goto L11;
L8:;
    v10 = 1U;
    v11 = 7;
    v12 = 0;
    goto L11;
L9:;
    v10 = 0U;
    v11 = 1;
    v12 = 0;
    goto L11;
L10:;
    nd_stop();
L11:;
    v13 = v8.b + 1;
    v14 = v8.b + 2;
    v15 = v8.b + 3;
    v16 = v8.b + 4;
    nd_store_32(v8.b, 0U);
    nd_store_32(v16, v10);
    nd_store_8((v8.b + 9), v11);
    nd_store_8((v8.b + 10), v12);
    nd_memset(v6.b, 0, 24);
    nd_store_32((v7.b + 8), 0U);
    nd_store_32(v7.b, 0U);
    nd_store_32((v7.b + 4), v10);
    nd_store_8((v7.b + 9), v11);
    nd_store_8((v7.b + 10), v12);
    nd_ndef_lang_leaf_Leaf_lengths(v6.b, v7.b);
    v25 = nd_load_64((v6.b + 8));
    switch (nd_load_8(v6.b)) {
    case 0: goto L12;
    case 1: goto L17;
    case 2: goto L13;
    case 3: goto L14;
    case 4: goto L15;
    default: goto L16; }
L12:;
    goto L19;
L13:;
    if (v25 > v5) goto L19;
    goto L20;
L14:;
    if ((uint8_t)((v25 <= v5) ? (v5 <= (v5 - ((v5 - v25) & 1ULL))) : 0)) goto L20;
    goto L19;
L15:;
    v34 = nd_load_64((v6.b + 16));
    v35 = nd_umax_i64(v25, v5);
    v36 = nd_umin_i64(v34, v5);
    if (v35 > v36) goto L19;
    goto L20;
L16:;
    nd_stop();
L17:;
    if (v25 == v5) goto L20;
    goto L19;
L18:;
    return;
L19:;
    nd_store_64(v1, 1ULL);
    nd_store_64(((unsigned char *)((uintptr_t)v1 + 8)), 0ULL);
    nd_store_8(((unsigned char *)((uintptr_t)v1 + 16)), 23);
    nd_memset(((unsigned char *)((uintptr_t)v1 + 17)), 0, 7);
    goto L18;
L20:;
    v42 = nd_ndef_lang_leaf_LeafLanguage_step_all(v8.b, v4, v5, v5, v5);
    if (!(v42 < v5)) goto L34;
    v45 = nd_load_8(v13);
    v46 = nd_load_8(v15);
    switch (nd_load_8(v8.b)) {
    case 0: { v59 = 23; goto L33; }
    case 1: goto L22;
    case 2: goto L23;
    case 3: goto L31;
    default: goto L32; }
L22:;
    v59 = (uint8_t)((v45 == 8) ? 16 : 23);
    goto L33;
L23:;
    v51 = nd_load_32(v16);
    v52 = nd_load_8(v14);
    switch (v45) {
    case 0: { v59 = 23; goto L33; }
    case 2: { v59 = 23; goto L33; }
    case 1: goto L29;
    case 3: goto L24;
    case 4: goto L30;
    default: goto L28; }
L24:;
    if ((uint8_t)(v52 & 1)) { v59 = 23; goto L33; }
    v56 = (v51 & 252U) == 220U;
    if (!(uint8_t)(v46 & 1)) goto L27;
    if (v56) { v59 = 23; goto L33; }
    goto L30;
L27:;
    if (v56) goto L30;
    v59 = 23;
    goto L33;
L28:;
    nd_stop();
L29:;
    if (!((uint8_t)(v52 & 252) == 220)) { v59 = 23; goto L33; }
L30:;
    v59 = 17;
    goto L33;
L31:;
    v59 = v45;
    goto L33;
L32:;
    nd_stop();
L33:;
    nd_store_64(v1, 1ULL);
    nd_store_64(((unsigned char *)((uintptr_t)v1 + 8)), v42);
    nd_store_8(((unsigned char *)((uintptr_t)v1 + 16)), v59);
    nd_memset(((unsigned char *)((uintptr_t)v1 + 17)), 0, 7);
    goto L18;
L34:;
    nd_memset(v1, 0, 24);
    goto L18;
}

static void nd_ndef_message_message_viewing_view(unsigned char *v1, unsigned char *v2, uint64_t v3, unsigned char *v4) {
    uint32_t v6, v8, v10, v54, v55, v430, v433;
    uint8_t v12, v19, v68, v80, v101, v102, v109, v116, v177, v324, v405, v410, v411, v412, v413, v425, v434;
    unsigned char *v24, *v25, *v56, *v66, *v71, *v77, *v107, *v140, *v168, *v217, *v259, *v287, *v315, *v364, *v427, *v432;
    uint64_t v26, v57, v65, v67, v69, v72, v74, v75, v108, v111, v260, v429;
    ND_ROOM(12) v5;
    ND_ROOM(3) v14, v17;
    ND_ROOM(24) v15;
    ND_ROOM(16) v16;
    v6 = nd_load_32(v4);
    v8 = nd_load_32((v4 + 4));
    v10 = nd_load_32((v4 + 8));
    v12 = nd_load_8((v4 + 12));
    nd_memset(v15.b, 0, 24);
    nd_memset(v16.b, 0, 16);
    nd_memset(v17.b, 0, 3);
    nd_memcpy(v14.b, (v4 + 13), 3);
    if (v3 == 0ULL) goto L82;
    v19 = nd_load_8(v2);
    if ((v3 == 1ULL) | (int)((uint8_t)(v19 & 64) == 0)) goto L82;
    v24 = (unsigned char *)((uintptr_t)v2 + 1);
    v25 = (unsigned char *)((uintptr_t)v2 + 2);
    v26 = v3 + 18446744073709551614ULL;
    if ((uint8_t)(v19 & 16) == 0) goto L5;
    if (v26 == 0ULL) goto L82;
    v55 = (uint32_t)nd_load_8(v25);
    v56 = (unsigned char *)((uintptr_t)v2 + 3);
    v57 = v3 + 18446744073709551613ULL;
    goto L7;
L5:;
    if (v26 < 4ULL) goto L82;
    v54 = nd_bswap_i32((((((uint32_t)nd_load_8(((unsigned char *)((uintptr_t)v2 + 3))) << 8) | (uint32_t)nd_load_8(v25)) | ((uint32_t)nd_load_8(((unsigned char *)((uintptr_t)v2 + 4))) << 16)) | ((uint32_t)nd_load_8(((unsigned char *)((uintptr_t)v2 + 5))) << 24)));
    v55 = v54;
    v56 = (unsigned char *)((uintptr_t)v2 + 6);
    v57 = v3 + 18446744073709551610ULL;
L7:;
    if ((uint8_t)(v19 & 8) == 0) { v65 = 0ULL; v66 = v56; v67 = v57; goto L10; }
    if (v57 == 0ULL) goto L82;
    v65 = (uint64_t)nd_load_8(v56);
    v66 = (unsigned char *)((uintptr_t)v56 + 1);
    v67 = v57 + 18446744073709551615ULL;
L10:;
    v68 = nd_load_8(v24);
    v69 = (uint64_t)v68;
    if (v67 < v69) goto L82;
    v71 = (unsigned char *)((uintptr_t)v66 + (uintptr_t)v69);
    v72 = v67 - v69;
    if (v72 < v65) goto L82;
    v74 = v72 - v65;
    v75 = (uint64_t)v55;
    if (v74 < v75) goto L82;
    v77 = (unsigned char *)((uintptr_t)v71 + (uintptr_t)v65);
    if (!((uint8_t)(v19 & 32) == 0)) goto L82;
    v80 = (uint8_t)(v19 & 7);
    if (((int8_t)v19 > (int8_t)255) | (int)(v55 > v6)) goto L82;
    if (v80 == 0) goto L21;
    if (!(v80 < 5)) goto L18;
    if (v68 == 0) goto L82;
    goto L22;
L18:;
    switch (v80) {
    case 7: goto L20;
    case 5: goto L19;
    default: goto L82; }
L19:;
    if (v68 == 0) goto L31;
    goto L82;
L20:;
    if ((v12 == 1) & (int)(v68 == 0)) goto L31;
    goto L82;
L21:;
    if (((v65 | v75) | v69) == 0ULL) goto L31;
    goto L82;
L22:;
    if (!(v80 == 1)) goto L31;
    if (!(v68 == 1)) goto L26;
    switch (nd_load_8(v66)) {
    case 84: { v102 = 1; goto L32; }
    case 85: goto L25;
    default: goto L31; }
L25:;
    v102 = 2;
    goto L32;
L26:;
    if (!(v68 < 3)) goto L31;
    v101 = nd_ndef_format_kind_of_two(nd_load_8(v66), nd_load_8(((unsigned char *)((uintptr_t)v66 + 1))));
    switch (v101) {
    case 3: { v412 = 0; goto L79; }
    case 4: goto L28;
    case 5: goto L29;
    case 0: { v102 = v101; goto L32; }
    case 1: { v102 = v101; goto L32; }
    case 2: { v102 = v101; goto L32; }
    case 6: { v102 = v101; goto L32; }
    case 7: { v102 = v101; goto L32; }
    case 8: { v102 = v101; goto L32; }
    case 9: { v102 = v101; goto L32; }
    case 10: { v102 = v101; goto L32; }
    case 11: { v102 = v101; goto L32; }
    default: goto L30; }
L28:;
    v412 = 1;
    goto L79;
L29:;
    v412 = 2;
    goto L79;
L30:;
    nd_stop();
L31:;
    goto L76;
L32:;
    nd_memset(v5.b, 0, 12);
    switch ((uint8_t)(((uint8_t)(v102 + 255) < 6) ? v102 : 0)) {
    case 1: goto L33;
    case 2: goto L53;
    case 6: goto L74;
    case 0: goto L76;
    case 3: goto L76;
    case 4: goto L76;
    case 5: goto L76;
    default: goto L75; }
L33:;
    if (v55 == 0U) goto L77;
    v107 = (unsigned char *)((uintptr_t)v77 + 1);
    v108 = v75 + 18446744073709551615ULL;
    v109 = nd_load_8(v77);
    v111 = (uint64_t)(uint8_t)(v109 & 63);
    if (((uint8_t)(v109 & 64) != 0) | (int)(v108 < v111)) goto L77;
    v116 = (int8_t)v109 < (int8_t)0;
    if ((v55 > 64U) | v116) goto L78;
    if (!(v55 < 9U)) goto L47;
    if (v55 < 5U) goto L40;
    if (!(((((((uint32_t)nd_load_8(((unsigned char *)((uintptr_t)v77 + 2))) << 8) | (uint32_t)nd_load_8(v107)) | ((uint32_t)nd_load_8(((unsigned char *)((uintptr_t)v77 + 3))) << 16)) | ((uint32_t)nd_load_8(((unsigned char *)((uintptr_t)v77 + 4))) << 24)) & 2155905152U) == 0U)) goto L78;
    v140 = (unsigned char *)((uintptr_t)v77 + (uintptr_t)v75);
    if (((((((uint32_t)nd_load_8(((unsigned char *)((uintptr_t)v140 - 3))) << 8) | (uint32_t)nd_load_8(((unsigned char *)((uintptr_t)v140 - 4)))) | ((uint32_t)nd_load_8(((unsigned char *)((uintptr_t)v140 - 2))) << 16)) | ((uint32_t)nd_load_8(((unsigned char *)((uintptr_t)v140 - 1))) << 24)) & 2155905152U) == 0U) goto L76;
    goto L78;
L40:;
    switch (v55) {
    case 1U: goto L76;
    case 2U: goto L41;
    case 4U: goto L44;
    default: goto L42; }
L41:;
    if ((int8_t)nd_load_8(v107) > (int8_t)255) goto L76;
    goto L78;
L42:;
    if (!((int8_t)nd_load_8(v107) > (int8_t)255)) goto L78;
    if ((int8_t)nd_load_8(((unsigned char *)((uintptr_t)v77 + 2))) > (int8_t)255) goto L76;
    goto L78;
L44:;
    v168 = (unsigned char *)((uintptr_t)v77 + 3);
    if (!((int8_t)nd_load_8(v107) > (int8_t)255)) goto L78;
    if (!((int8_t)nd_load_8(((unsigned char *)((uintptr_t)v77 + 2))) > (int8_t)255)) goto L78;
    if ((int8_t)nd_load_8(v168) > (int8_t)255) goto L76;
    goto L78;
L47:;
    if (!(v55 > 17U)) goto L49;
    v177 = nd_ndef_lang_ascii_are_many(v107, v108);
    if (v177) goto L76;
    goto L78;
L49:;
    if (!(((((((uint32_t)nd_load_8(((unsigned char *)((uintptr_t)v77 + 2))) << 8) | (uint32_t)nd_load_8(v107)) | ((uint32_t)nd_load_8(((unsigned char *)((uintptr_t)v77 + 3))) << 16)) | ((uint32_t)nd_load_8(((unsigned char *)((uintptr_t)v77 + 4))) << 24)) & 2155905152U) == 0U)) goto L78;
    if (!(((((((uint32_t)nd_load_8(((unsigned char *)((uintptr_t)v77 + 6))) << 8) | (uint32_t)nd_load_8(((unsigned char *)((uintptr_t)v77 + 5)))) | ((uint32_t)nd_load_8(((unsigned char *)((uintptr_t)v77 + 7))) << 16)) | ((uint32_t)nd_load_8(((unsigned char *)((uintptr_t)v77 + 8))) << 24)) & 2155905152U) == 0U)) goto L78;
    v217 = (unsigned char *)((uintptr_t)v77 + (uintptr_t)v75);
    if (!(((((((uint32_t)nd_load_8(((unsigned char *)((uintptr_t)v217 - 7))) << 8) | (uint32_t)nd_load_8(((unsigned char *)((uintptr_t)v217 - 8)))) | ((uint32_t)nd_load_8(((unsigned char *)((uintptr_t)v217 - 6))) << 16)) | ((uint32_t)nd_load_8(((unsigned char *)((uintptr_t)v217 - 5))) << 24)) & 2155905152U) == 0U)) goto L78;
    if (((((((uint32_t)nd_load_8(((unsigned char *)((uintptr_t)v217 - 3))) << 8) | (uint32_t)nd_load_8(((unsigned char *)((uintptr_t)v217 - 4)))) | ((uint32_t)nd_load_8(((unsigned char *)((uintptr_t)v217 - 2))) << 16)) | ((uint32_t)nd_load_8(((unsigned char *)((uintptr_t)v217 - 1))) << 24)) & 2155905152U) == 0U) goto L76;
    goto L78;
L53:;
    if (v55 == 0U) goto L77;
    v259 = (unsigned char *)((uintptr_t)v77 + 1);
    v260 = v75 + 18446744073709551615ULL;
    if (!(uint8_t)((nd_load_8(v77) < 36) ? 1 : (v12 == 1))) goto L77;
    if (!(v55 < 65U)) goto L73;
    if (!(v55 < 9U)) goto L67;
    if (v55 < 5U) goto L60;
    if (!(((((((uint32_t)nd_load_8(((unsigned char *)((uintptr_t)v77 + 2))) << 8) | (uint32_t)nd_load_8(v259)) | ((uint32_t)nd_load_8(((unsigned char *)((uintptr_t)v77 + 3))) << 16)) | ((uint32_t)nd_load_8(((unsigned char *)((uintptr_t)v77 + 4))) << 24)) & 2155905152U) == 0U)) goto L73;
    v287 = (unsigned char *)((uintptr_t)v77 + (uintptr_t)v75);
    if (((((((uint32_t)nd_load_8(((unsigned char *)((uintptr_t)v287 - 3))) << 8) | (uint32_t)nd_load_8(((unsigned char *)((uintptr_t)v287 - 4)))) | ((uint32_t)nd_load_8(((unsigned char *)((uintptr_t)v287 - 2))) << 16)) | ((uint32_t)nd_load_8(((unsigned char *)((uintptr_t)v287 - 1))) << 24)) & 2155905152U) == 0U) goto L76;
    goto L73;
L60:;
    switch (v55) {
    case 1U: goto L76;
    case 2U: goto L61;
    case 4U: goto L64;
    default: goto L62; }
L61:;
    if ((int8_t)nd_load_8(v259) > (int8_t)255) goto L76;
    goto L73;
L62:;
    if (!((int8_t)nd_load_8(v259) > (int8_t)255)) goto L73;
    if ((int8_t)nd_load_8(((unsigned char *)((uintptr_t)v77 + 2))) > (int8_t)255) goto L76;
    goto L73;
L64:;
    v315 = (unsigned char *)((uintptr_t)v77 + 3);
    if (!((int8_t)nd_load_8(v259) > (int8_t)255)) goto L73;
    if (!((int8_t)nd_load_8(((unsigned char *)((uintptr_t)v77 + 2))) > (int8_t)255)) goto L73;
    if ((int8_t)nd_load_8(v315) > (int8_t)255) goto L76;
    goto L73;
L67:;
    if (!(v55 > 17U)) goto L69;
    v324 = nd_ndef_lang_ascii_are_many(v259, v260);
    if (v324) goto L76;
    goto L73;
L69:;
    if (!(((((((uint32_t)nd_load_8(((unsigned char *)((uintptr_t)v77 + 2))) << 8) | (uint32_t)nd_load_8(v259)) | ((uint32_t)nd_load_8(((unsigned char *)((uintptr_t)v77 + 3))) << 16)) | ((uint32_t)nd_load_8(((unsigned char *)((uintptr_t)v77 + 4))) << 24)) & 2155905152U) == 0U)) goto L73;
    if (!(((((((uint32_t)nd_load_8(((unsigned char *)((uintptr_t)v77 + 6))) << 8) | (uint32_t)nd_load_8(((unsigned char *)((uintptr_t)v77 + 5)))) | ((uint32_t)nd_load_8(((unsigned char *)((uintptr_t)v77 + 7))) << 16)) | ((uint32_t)nd_load_8(((unsigned char *)((uintptr_t)v77 + 8))) << 24)) & 2155905152U) == 0U)) goto L73;
    v364 = (unsigned char *)((uintptr_t)v77 + (uintptr_t)v75);
    if (!(((((((uint32_t)nd_load_8(((unsigned char *)((uintptr_t)v364 - 7))) << 8) | (uint32_t)nd_load_8(((unsigned char *)((uintptr_t)v364 - 8)))) | ((uint32_t)nd_load_8(((unsigned char *)((uintptr_t)v364 - 6))) << 16)) | ((uint32_t)nd_load_8(((unsigned char *)((uintptr_t)v364 - 5))) << 24)) & 2155905152U) == 0U)) goto L73;
    if (((((((uint32_t)nd_load_8(((unsigned char *)((uintptr_t)v364 - 3))) << 8) | (uint32_t)nd_load_8(((unsigned char *)((uintptr_t)v364 - 4)))) | ((uint32_t)nd_load_8(((unsigned char *)((uintptr_t)v364 - 2))) << 16)) | ((uint32_t)nd_load_8(((unsigned char *)((uintptr_t)v364 - 1))) << 24)) & 2155905152U) == 0U) goto L76;
L73:;
    v405 = nd_ndef_lang_member_is_long_utf8(v259, v260);
    if (v405) goto L81;
    goto L82;
L74:;
    nd_store_32((v5.b + 4), 1U);
    nd_store_8((v5.b + 8), 0);
    nd_store_8((v5.b + 9), 7);
    nd_store_8((v5.b + 10), 0);
    v410 = nd_ndef_lang_leaf_Leaf_is_completed_by(v5.b, v77, v75);
    if (v410) goto L81;
    goto L82;
L75:;
    nd_stop();
L76:;
    goto L81;
L77:;
    goto L82;
L78:;
    v411 = nd_ndef_lang_member_is_coded_text(v111, v116, v107, v108);
    if (v411) goto L81;
    goto L82;
L79:;
    v413 = nd_ndef_nest_member_is_nested(v412, v8, v12, v77, v75);
    if (v413) goto L81;
    goto L82;
L80:;
    return;
L81:;
    nd_store_64(v1, 0ULL);
    nd_store_ptr(((unsigned char *)((uintptr_t)v1 + 8)), v2);
    nd_store_64(((unsigned char *)((uintptr_t)v1 + 16)), ((v3 + v75) - v74));
    nd_store_32(((unsigned char *)((uintptr_t)v1 + 24)), 1U);
    nd_store_8(((unsigned char *)((uintptr_t)v1 + 28)), v12);
    nd_memset(((unsigned char *)((uintptr_t)v1 + 29)), 0, 3);
    goto L80;
L82:;
    nd_store_32(v16.b, v6);
    nd_store_32((v16.b + 4), v8);
    nd_store_32((v16.b + 8), v10);
    nd_store_8((v16.b + 12), v12);
    nd_memcpy((v16.b + 13), v14.b, 3);
    nd_ndef_message_judging_judge(v15.b, v16.b, v2, v3);
    v425 = nd_load_8(v15.b);
    v427 = v15.b + 8;
    v429 = nd_load_64((v15.b + 16));
    if (!(v425 == 0)) goto L84;
    v430 = nd_load_32(v427);
    nd_memset(v17.b, 0, 3);
    v432 = v2;
    v433 = v430;
    v434 = v12;
    goto L85;
L84:;
    v432 = nd_load_ptr(v427);
    v433 = 0U;
    v434 = 0;
L85:;
    nd_store_64(v1, (uint64_t)v425);
    nd_store_ptr(((unsigned char *)((uintptr_t)v1 + 8)), v432);
    nd_store_64(((unsigned char *)((uintptr_t)v1 + 16)), v429);
    nd_store_32(((unsigned char *)((uintptr_t)v1 + 24)), v433);
    nd_store_8(((unsigned char *)((uintptr_t)v1 + 28)), v434);
    nd_memcpy(((unsigned char *)((uintptr_t)v1 + 29)), v17.b, 3);
    goto L80;
}

static uint8_t nd_ndef_nest_member_is_nested(uint8_t v1, uint32_t v2, uint8_t v3, unsigned char *v4, uint64_t v5) {
    uint8_t v7, v8, v18;
    unsigned char *v10;
    uint64_t v11;
    if (v1 == 0) goto L2;
    goto L3;
L1:;
    return v7;
L2:;
    v8 = nd_ndef_nest_member_are_records(0, v2, v3, v4, v5);
    v7 = v8;
    goto L1;
L3:;
    if (v5 == 0ULL) { v7 = 0; goto L1; }
    v10 = (unsigned char *)((uintptr_t)v4 + 1);
    v11 = v5 + 18446744073709551615ULL;
    if (!((uint8_t)(nd_load_8(v4) & 240) == 16)) { v7 = 0; goto L1; }
    if ((v1 == 2) & (int)(v11 == 0ULL)) { v7 = 1; goto L1; }
    v18 = nd_ndef_nest_member_are_records(v1, v2, v3, v10, v11);
    v7 = v18;
    goto L1;
}

static uint8_t nd_ndef_nest_member_are_records(uint8_t v1, uint32_t v2, uint8_t v3, unsigned char *v4, uint64_t v5) {
    uint8_t v14, v26, v27, v31, v73, v88, v89, v104, v105, v111, v118, v178, v322, v402, v461, v542, v544, v545, v546, v548, v550;
    unsigned char *v15, *v16, *v17, *v18, *v25, *v28, *v29, *v61, *v71, *v76, *v82, *v83, *v109, *v169, *v259, *v313, *v452;
    uint32_t v19, v23, v59, v60, v543;
    uint64_t v24, v30, v62, v70, v72, v74, v77, v79, v80, v84, v110, v113, v260, v541;
    ND_ROOM(12) v6;
    if ((v2 == 0U) | (int)(v5 < 2ULL)) { v550 = 0; goto L102; }
    goto L2;
L1:;
    nd_stop();
L2:;
    v14 = v3 == 1;
    v15 = v6.b + 8;
    v16 = v6.b + 4;
    v17 = v6.b + 9;
    v18 = v6.b + 10;
    v23 = v2;
    v24 = v5;
    v25 = v4;
    v26 = 1;
    v27 = (uint8_t)(uint32_t)((770U >> ((uint32_t)(uint8_t)((uint32_t)v1 << 3) & 31)) & 16777215U);
    goto L4;
L3:;
    v19 = v23 + 4294967295U;
    if ((uint8_t)((v19 == 0U) ? 1 : (v84 < 2ULL))) { v550 = 0; goto L102; }
    v23 = v19;
    v24 = v84;
    v25 = v83;
    v26 = 0;
    v27 = v548;
L4:;
    v28 = (unsigned char *)((uintptr_t)v25 + 1);
    v29 = (unsigned char *)((uintptr_t)v25 + 2);
    v30 = v24 + 18446744073709551614ULL;
    v31 = nd_load_8(v25);
    if ((uint8_t)(v31 & 16) == 0) goto L7;
    if (v30 == 0ULL) { v550 = 0; goto L102; }
    v60 = (uint32_t)nd_load_8(v29);
    v61 = (unsigned char *)((uintptr_t)v25 + 3);
    v62 = v24 + 18446744073709551613ULL;
    goto L9;
L7:;
    if (v30 < 4ULL) { v550 = 0; goto L102; }
    v59 = nd_bswap_i32((((((uint32_t)nd_load_8(((unsigned char *)((uintptr_t)v25 + 3))) << 8) | (uint32_t)nd_load_8(v29)) | ((uint32_t)nd_load_8(((unsigned char *)((uintptr_t)v25 + 4))) << 16)) | ((uint32_t)nd_load_8(((unsigned char *)((uintptr_t)v25 + 5))) << 24)));
    v60 = v59;
    v61 = (unsigned char *)((uintptr_t)v25 + 6);
    v62 = v24 + 18446744073709551610ULL;
L9:;
    if ((uint8_t)(v31 & 8) == 0) { v70 = 0ULL; v71 = v61; v72 = v62; goto L12; }
    if (v62 == 0ULL) { v550 = 0; goto L102; }
    v70 = (uint64_t)nd_load_8(v61);
    v71 = (unsigned char *)((uintptr_t)v61 + 1);
    v72 = v62 + 18446744073709551615ULL;
L12:;
    v73 = nd_load_8(v28);
    v74 = (uint64_t)v73;
    if (v72 < v74) { v550 = 0; goto L102; }
    v76 = (unsigned char *)((uintptr_t)v71 + (uintptr_t)v74);
    v77 = v72 - v74;
    if (v77 < v70) { v550 = 0; goto L102; }
    v79 = v77 - v70;
    v80 = (uint64_t)v60;
    if (v79 < v80) { v550 = 0; goto L102; }
    v82 = (unsigned char *)((uintptr_t)v76 + (uintptr_t)v70);
    v83 = (unsigned char *)((uintptr_t)v82 + (uintptr_t)v80);
    v84 = v79 - v80;
    if (!((uint8_t)(v31 & 32) == 0)) { v550 = 0; goto L102; }
    v88 = (uint8_t)(v31 & 7);
    v89 = (uint8_t)(v31 & 64);
    if (!((v26 ^ (int)((int8_t)v31 > (int8_t)255)) & (int)((v23 != 1U) | (int)(v89 != 0)))) { v550 = 0; goto L102; }
    if (v88 == 0) goto L23;
    if (!(v88 < 5)) goto L20;
    if (v73 == 0) { v550 = 0; goto L102; }
    v104 = v88;
    goto L24;
L20:;
    switch (v88) {
    case 7: goto L22;
    case 5: goto L21;
    default: { v550 = 0; goto L102; } }
L21:;
    if (v73 == 0) { v104 = 5; goto L24; }
    v550 = 0;
    goto L102;
L22:;
    if (v14 & (int)(v73 == 0)) { v104 = 5; goto L24; }
    v550 = 0;
    goto L102;
L23:;
    if (((v70 | v80) | v74) == 0ULL) { v104 = 0; goto L24; }
    v550 = 0;
    goto L102;
L24:;
    v105 = nd_ndef_format_table_Table_kind(v1, v104, v71, v74);
    switch (v27) {
    case 0: goto L28;
    case 2: goto L28;
    case 1: goto L27;
    case 3: goto L25;
    default: goto L1; }
L25:;
    if (!(v105 == 11)) { v550 = 0; goto L102; }
    nd_store_32(v15, 0U);
    goto L90;
L27:;
    if (v105 == 2) { v550 = 0; goto L102; }
L28:;
    nd_memset(v6.b, 0, 12);
    switch (v105) {
    case 1: goto L29;
    case 2: goto L49;
    case 9: goto L70;
    case 0: goto L95;
    case 3: goto L95;
    case 4: goto L95;
    case 5: goto L95;
    case 6: goto L93;
    case 12: goto L92;
    case 7: { v543 = 1U; v544 = 0; goto L94; }
    case 8: goto L89;
    case 11: goto L90;
    case 10: goto L91;
    default: goto L1; }
L29:;
    if (v60 == 0U) goto L96;
    v109 = (unsigned char *)((uintptr_t)v82 + 1);
    v110 = v80 + 18446744073709551615ULL;
    v111 = nd_load_8(v82);
    v113 = (uint64_t)(uint8_t)(v111 & 63);
    if (((uint8_t)(v111 & 64) != 0) | (int)(v110 < v113)) goto L96;
    v118 = (int8_t)v111 < (int8_t)0;
    if ((v60 > 64U) | v118) goto L97;
    if (!(v60 < 9U)) goto L43;
    if (v60 < 5U) goto L36;
    if (!(((((((uint32_t)nd_load_8(((unsigned char *)((uintptr_t)v82 + 2))) << 8) | (uint32_t)nd_load_8(v109)) | ((uint32_t)nd_load_8(((unsigned char *)((uintptr_t)v82 + 3))) << 16)) | ((uint32_t)nd_load_8(((unsigned char *)((uintptr_t)v82 + 4))) << 24)) & 2155905152U) == 0U)) goto L97;
    if (((((((uint32_t)nd_load_8(((unsigned char *)((uintptr_t)v83 - 3))) << 8) | (uint32_t)nd_load_8(((unsigned char *)((uintptr_t)v83 - 4)))) | ((uint32_t)nd_load_8(((unsigned char *)((uintptr_t)v83 - 2))) << 16)) | ((uint32_t)nd_load_8(((unsigned char *)((uintptr_t)v83 - 1))) << 24)) & 2155905152U) == 0U) goto L95;
    goto L97;
L36:;
    switch (v60) {
    case 1U: goto L95;
    case 2U: goto L37;
    case 4U: goto L40;
    default: goto L38; }
L37:;
    if ((int8_t)nd_load_8(v109) > (int8_t)255) goto L95;
    goto L97;
L38:;
    if (!((int8_t)nd_load_8(v109) > (int8_t)255)) goto L97;
    if ((int8_t)nd_load_8(((unsigned char *)((uintptr_t)v82 + 2))) > (int8_t)255) goto L95;
    goto L97;
L40:;
    v169 = (unsigned char *)((uintptr_t)v82 + 3);
    if (!((int8_t)nd_load_8(v109) > (int8_t)255)) goto L97;
    if (!((int8_t)nd_load_8(((unsigned char *)((uintptr_t)v82 + 2))) > (int8_t)255)) goto L97;
    if ((int8_t)nd_load_8(v169) > (int8_t)255) goto L95;
    goto L97;
L43:;
    if (!(v60 > 17U)) goto L45;
    v178 = nd_ndef_lang_ascii_are_many(v109, v110);
    if (v178) goto L95;
    goto L97;
L45:;
    if (!(((((((uint32_t)nd_load_8(((unsigned char *)((uintptr_t)v82 + 2))) << 8) | (uint32_t)nd_load_8(v109)) | ((uint32_t)nd_load_8(((unsigned char *)((uintptr_t)v82 + 3))) << 16)) | ((uint32_t)nd_load_8(((unsigned char *)((uintptr_t)v82 + 4))) << 24)) & 2155905152U) == 0U)) goto L97;
    if (!(((((((uint32_t)nd_load_8(((unsigned char *)((uintptr_t)v82 + 6))) << 8) | (uint32_t)nd_load_8(((unsigned char *)((uintptr_t)v82 + 5)))) | ((uint32_t)nd_load_8(((unsigned char *)((uintptr_t)v82 + 7))) << 16)) | ((uint32_t)nd_load_8(((unsigned char *)((uintptr_t)v82 + 8))) << 24)) & 2155905152U) == 0U)) goto L97;
    if (!(((((((uint32_t)nd_load_8(((unsigned char *)((uintptr_t)v83 - 7))) << 8) | (uint32_t)nd_load_8(((unsigned char *)((uintptr_t)v83 - 8)))) | ((uint32_t)nd_load_8(((unsigned char *)((uintptr_t)v83 - 6))) << 16)) | ((uint32_t)nd_load_8(((unsigned char *)((uintptr_t)v83 - 5))) << 24)) & 2155905152U) == 0U)) goto L97;
    if (((((((uint32_t)nd_load_8(((unsigned char *)((uintptr_t)v83 - 3))) << 8) | (uint32_t)nd_load_8(((unsigned char *)((uintptr_t)v83 - 4)))) | ((uint32_t)nd_load_8(((unsigned char *)((uintptr_t)v83 - 2))) << 16)) | ((uint32_t)nd_load_8(((unsigned char *)((uintptr_t)v83 - 1))) << 24)) & 2155905152U) == 0U) goto L95;
    goto L97;
L49:;
    if (v60 == 0U) goto L96;
    v259 = (unsigned char *)((uintptr_t)v82 + 1);
    v260 = v80 + 18446744073709551615ULL;
    if (!(v14 | (int)(nd_load_8(v82) < 36))) goto L96;
    if (!(v60 < 65U)) goto L69;
    if (!(v60 < 9U)) goto L63;
    if (v60 < 5U) goto L56;
    if (!(((((((uint32_t)nd_load_8(((unsigned char *)((uintptr_t)v82 + 2))) << 8) | (uint32_t)nd_load_8(v259)) | ((uint32_t)nd_load_8(((unsigned char *)((uintptr_t)v82 + 3))) << 16)) | ((uint32_t)nd_load_8(((unsigned char *)((uintptr_t)v82 + 4))) << 24)) & 2155905152U) == 0U)) goto L69;
    if (((((((uint32_t)nd_load_8(((unsigned char *)((uintptr_t)v83 - 3))) << 8) | (uint32_t)nd_load_8(((unsigned char *)((uintptr_t)v83 - 4)))) | ((uint32_t)nd_load_8(((unsigned char *)((uintptr_t)v83 - 2))) << 16)) | ((uint32_t)nd_load_8(((unsigned char *)((uintptr_t)v83 - 1))) << 24)) & 2155905152U) == 0U) goto L95;
    goto L69;
L56:;
    switch (v60) {
    case 1U: goto L95;
    case 2U: goto L57;
    case 4U: goto L60;
    default: goto L58; }
L57:;
    if ((int8_t)nd_load_8(v259) > (int8_t)255) goto L95;
    goto L69;
L58:;
    if (!((int8_t)nd_load_8(v259) > (int8_t)255)) goto L69;
    if ((int8_t)nd_load_8(((unsigned char *)((uintptr_t)v82 + 2))) > (int8_t)255) goto L95;
    goto L69;
L60:;
    v313 = (unsigned char *)((uintptr_t)v82 + 3);
    if (!((int8_t)nd_load_8(v259) > (int8_t)255)) goto L69;
    if (!((int8_t)nd_load_8(((unsigned char *)((uintptr_t)v82 + 2))) > (int8_t)255)) goto L69;
    if ((int8_t)nd_load_8(v313) > (int8_t)255) goto L95;
    goto L69;
L63:;
    if (!(v60 > 17U)) goto L65;
    v322 = nd_ndef_lang_ascii_are_many(v259, v260);
    if (v322) goto L95;
    goto L69;
L65:;
    if (!(((((((uint32_t)nd_load_8(((unsigned char *)((uintptr_t)v82 + 2))) << 8) | (uint32_t)nd_load_8(v259)) | ((uint32_t)nd_load_8(((unsigned char *)((uintptr_t)v82 + 3))) << 16)) | ((uint32_t)nd_load_8(((unsigned char *)((uintptr_t)v82 + 4))) << 24)) & 2155905152U) == 0U)) goto L69;
    if (!(((((((uint32_t)nd_load_8(((unsigned char *)((uintptr_t)v82 + 6))) << 8) | (uint32_t)nd_load_8(((unsigned char *)((uintptr_t)v82 + 5)))) | ((uint32_t)nd_load_8(((unsigned char *)((uintptr_t)v82 + 7))) << 16)) | ((uint32_t)nd_load_8(((unsigned char *)((uintptr_t)v82 + 8))) << 24)) & 2155905152U) == 0U)) goto L69;
    if (!(((((((uint32_t)nd_load_8(((unsigned char *)((uintptr_t)v83 - 7))) << 8) | (uint32_t)nd_load_8(((unsigned char *)((uintptr_t)v83 - 8)))) | ((uint32_t)nd_load_8(((unsigned char *)((uintptr_t)v83 - 6))) << 16)) | ((uint32_t)nd_load_8(((unsigned char *)((uintptr_t)v83 - 5))) << 24)) & 2155905152U) == 0U)) goto L69;
    if (((((((uint32_t)nd_load_8(((unsigned char *)((uintptr_t)v83 - 3))) << 8) | (uint32_t)nd_load_8(((unsigned char *)((uintptr_t)v83 - 4)))) | ((uint32_t)nd_load_8(((unsigned char *)((uintptr_t)v83 - 2))) << 16)) | ((uint32_t)nd_load_8(((unsigned char *)((uintptr_t)v83 - 1))) << 24)) & 2155905152U) == 0U) goto L95;
L69:;
    v402 = nd_ndef_lang_member_is_long_utf8(v259, v260);
    if (v402) goto L98;
    v550 = 0;
    goto L102;
L70:;
    if (!(v60 < 64U)) { v541 = v80; goto L88; }
    if (!(v60 < 8U)) goto L82;
    if (v60 < 4U) goto L75;
    if (!(((((((uint32_t)nd_load_8(((unsigned char *)((uintptr_t)v82 + 1))) << 8) | (uint32_t)nd_load_8(v82)) | ((uint32_t)nd_load_8(((unsigned char *)((uintptr_t)v82 + 2))) << 16)) | ((uint32_t)nd_load_8(((unsigned char *)((uintptr_t)v82 + 3))) << 24)) & 2155905152U) == 0U)) { v541 = v80; goto L88; }
    if (((((((uint32_t)nd_load_8(((unsigned char *)((uintptr_t)v83 - 3))) << 8) | (uint32_t)nd_load_8(((unsigned char *)((uintptr_t)v83 - 4)))) | ((uint32_t)nd_load_8(((unsigned char *)((uintptr_t)v83 - 2))) << 16)) | ((uint32_t)nd_load_8(((unsigned char *)((uintptr_t)v83 - 1))) << 24)) & 2155905152U) == 0U) goto L95;
    v541 = v80;
    goto L88;
L75:;
    switch (v60) {
    case 0U: goto L95;
    case 1U: goto L76;
    case 3U: goto L79;
    default: goto L77; }
L76:;
    if ((int8_t)nd_load_8(v82) > (int8_t)255) goto L95;
    v541 = 1ULL;
    goto L88;
L77:;
    if (!((int8_t)nd_load_8(v82) > (int8_t)255)) { v541 = 2ULL; goto L88; }
    if ((int8_t)nd_load_8(((unsigned char *)((uintptr_t)v82 + 1))) > (int8_t)255) goto L95;
    v541 = 2ULL;
    goto L88;
L79:;
    v452 = (unsigned char *)((uintptr_t)v82 + 2);
    if (!((int8_t)nd_load_8(v82) > (int8_t)255)) { v541 = 3ULL; goto L88; }
    if (!((int8_t)nd_load_8(((unsigned char *)((uintptr_t)v82 + 1))) > (int8_t)255)) { v541 = 3ULL; goto L88; }
    if ((int8_t)nd_load_8(v452) > (int8_t)255) goto L95;
    v541 = 3ULL;
    goto L88;
L82:;
    if (!(v60 > 16U)) goto L84;
    v461 = nd_ndef_lang_ascii_are_many(v82, v80);
    if (v461) goto L95;
    v541 = v80;
    goto L88;
L84:;
    if (!(((((((uint32_t)nd_load_8(((unsigned char *)((uintptr_t)v82 + 1))) << 8) | (uint32_t)nd_load_8(v82)) | ((uint32_t)nd_load_8(((unsigned char *)((uintptr_t)v82 + 2))) << 16)) | ((uint32_t)nd_load_8(((unsigned char *)((uintptr_t)v82 + 3))) << 24)) & 2155905152U) == 0U)) { v541 = v80; goto L88; }
    if (!(((((((uint32_t)nd_load_8(((unsigned char *)((uintptr_t)v82 + 5))) << 8) | (uint32_t)nd_load_8(((unsigned char *)((uintptr_t)v82 + 4)))) | ((uint32_t)nd_load_8(((unsigned char *)((uintptr_t)v82 + 6))) << 16)) | ((uint32_t)nd_load_8(((unsigned char *)((uintptr_t)v82 + 7))) << 24)) & 2155905152U) == 0U)) { v541 = v80; goto L88; }
    if (!(((((((uint32_t)nd_load_8(((unsigned char *)((uintptr_t)v83 - 7))) << 8) | (uint32_t)nd_load_8(((unsigned char *)((uintptr_t)v83 - 8)))) | ((uint32_t)nd_load_8(((unsigned char *)((uintptr_t)v83 - 6))) << 16)) | ((uint32_t)nd_load_8(((unsigned char *)((uintptr_t)v83 - 5))) << 24)) & 2155905152U) == 0U)) { v541 = v80; goto L88; }
    if (((((((uint32_t)nd_load_8(((unsigned char *)((uintptr_t)v83 - 3))) << 8) | (uint32_t)nd_load_8(((unsigned char *)((uintptr_t)v83 - 4)))) | ((uint32_t)nd_load_8(((unsigned char *)((uintptr_t)v83 - 2))) << 16)) | ((uint32_t)nd_load_8(((unsigned char *)((uintptr_t)v83 - 1))) << 24)) & 2155905152U) == 0U) goto L95;
    v541 = v80;
L88:;
    v542 = nd_ndef_lang_member_is_long_utf8(v82, v541);
    if (v542) goto L98;
    v550 = 0;
    goto L102;
L89:;
    v543 = 4U;
    v544 = 0;
    goto L94;
L90:;
    v543 = 2U;
    v544 = 0;
    goto L94;
L91:;
    v543 = 1U;
    v544 = 8;
    goto L94;
L92:;
    v543 = 0U;
    v544 = 6;
    goto L94;
L93:;
    v543 = 1U;
    v544 = 7;
L94:;
    nd_store_32(v6.b, 0U);
    nd_store_32(v16, v543);
    nd_store_8(v15, 0);
    nd_store_8(v17, v544);
    nd_store_8(v18, 0);
    v545 = nd_ndef_lang_leaf_Leaf_is_completed_by(v6.b, v82, v80);
    if (v545) goto L98;
    v550 = 0;
    goto L102;
L95:;
    goto L98;
L96:;
    v550 = 0;
    goto L102;
L97:;
    v546 = nd_ndef_lang_member_is_coded_text(v113, v118, v109, v110);
    if (!v546) { v550 = 0; goto L102; }
L98:;
    switch (v27) {
    case 2: goto L99;
    case 3: { v548 = 0; goto L101; }
    case 0: goto L100;
    case 1: goto L100;
    default: goto L1; }
L99:;
    if (v105 == 2) { v548 = 1; goto L101; }
L100:;
    v548 = v27;
L101:;
    if (v89 == 0) goto L3;
    goto L103;
L102:;
    return v550;
L103:;
    v550 = (uint8_t)((v548 < 2) ? (v84 == 0ULL) : 0);
    goto L102;
}

static uint8_t nd_ndef_format_table_Table_kind(uint8_t v1, uint8_t v2, unsigned char *v3, uint64_t v4) {
    uint8_t v10, v21, v22, v31, v33, v34;
    if (!(v2 == 1)) { v34 = 0; goto L16; }
    switch (v4) {
    case 0ULL: { v34 = 0; goto L16; }
    case 1ULL: goto L2;
    default: goto L6; }
L2:;
    switch (nd_load_8(v3)) {
    case 84: { v31 = 1; goto L14; }
    case 85: goto L3;
    case 115: goto L4;
    case 116: goto L5;
    default: { v34 = 0; goto L16; } }
L3:;
    v31 = 2;
    goto L14;
L4:;
    v31 = 8;
    goto L14;
L5:;
    v31 = 9;
    goto L14;
L6:;
    if (!(v4 < 3ULL)) goto L10;
    v10 = nd_load_8(((unsigned char *)((uintptr_t)v3 + 1)));
    switch (nd_load_8(v3)) {
    case 99: goto L9;
    case 97: goto L8;
    default: { v34 = 0; goto L16; } }
L8:;
    if ((v1 == 0) | (int)(v10 != 99)) { v34 = 0; goto L16; }
    v33 = 10;
    goto L15;
L9:;
    if ((v1 == 1) & (int)(v10 == 114)) { v33 = 11; goto L15; }
    v34 = 0;
    goto L16;
L10:;
    if (!(v4 == 3ULL)) { v34 = 0; goto L16; }
    v21 = nd_load_8(((unsigned char *)((uintptr_t)v3 + 1)));
    v22 = nd_load_8(((unsigned char *)((uintptr_t)v3 + 2)));
    switch (nd_load_8(v3)) {
    case 97: goto L12;
    case 101: goto L13;
    default: { v34 = 0; goto L16; } }
L12:;
    if ((v21 == 99) & (int)(v22 == 116)) { v31 = 7; goto L14; }
    v34 = 0;
    goto L16;
L13:;
    if ((v1 == 2) & (int)((v21 == 114) & (int)(v22 == 114))) { v33 = 12; goto L15; }
    v34 = 0;
    goto L16;
L14:;
    if (v1 == 0) { v33 = v31; goto L15; }
    v34 = 0;
    goto L16;
L15:;
    v34 = v33;
L16:;
    return v34;
}

static void nd_ndef_message_judging_judge(unsigned char *v1, unsigned char *v2, unsigned char *v3, uint64_t v4) {
    uint32_t v5, v7, v9, v86, v90, v92;
    uint8_t v11, v15, v16, v17, v18, v19, v22, v24, v27, v69;
    unsigned char *v12, *v46, *v53;
    uint64_t v37, v39, v79, v80, v83, v94;
    ND_ROOM(464) v13;
    ND_ROOM(24) v14;
    v5 = nd_load_32(v2);
    v7 = nd_load_32((v2 + 4));
    v9 = nd_load_32((v2 + 8));
    v11 = nd_load_8((v2 + 12));
    v12 = v2 + 13;
    nd_memset(v14.b, 0, 24);
    v15 = v4 == 0ULL;
    if (v15) goto L10;
    v16 = v9 == 1U;
    v17 = v7 != 1U;
    v18 = nd_load_8(v3);
    v19 = (uint8_t)(v18 & 7);
    v22 = (uint8_t)(v18 & 64) != 0;
    v24 = (uint8_t)(v18 & 32) == 0;
    v27 = (v11 == 0) & (int)(v19 == 7);
    if (((int8_t)v18 > (int8_t)255) | v27) { v39 = (uint64_t)(v27 ^ 1); goto L9; }
    if (v19 == 6) { v39 = 3ULL; goto L9; }
    if ((uint8_t)(v18 & 96) == 96) { v39 = 6ULL; goto L9; }
    if ((uint8_t)(v18 & 39) == 32) { v39 = 7ULL; goto L9; }
    if (v24) goto L7;
    if (v16) { v39 = 8ULL; goto L9; }
    goto L10;
L7:;
    if (v17 | v22) goto L10;
    v39 = 9ULL;
    goto L9;
L8:;
    nd_store_64(((unsigned char *)((uintptr_t)v1 + 16)), v37);
    return;
L9:;
    nd_store_64(v1, 1ULL);
    nd_store_32(((unsigned char *)((uintptr_t)v1 + 8)), 0U);
    nd_store_32(((unsigned char *)((uintptr_t)v1 + 12)), 0U);
    v37 = v39;
    goto L8;
L10:;
    nd_store_32(v13.b, v5);
    v46 = v13.b + 4;
    nd_store_32(v46, v7);
    nd_store_32((v13.b + 8), v9);
    nd_store_8((v13.b + 12), v11);
    nd_memcpy((v13.b + 13), v12, 3);
    nd_store_8((v13.b + 16), 1);
    nd_store_8((v13.b + 17), 0);
    nd_store_16((v13.b + 18), 0);
    v53 = v13.b + 20;
    nd_store_32(v53, v7);
    nd_store_32((v13.b + 24), v9);
    nd_store_32((v13.b + 28), v5);
    nd_store_8((v13.b + 32), v11);
    nd_store_8((v13.b + 33), 1);
    nd_store_8((v13.b + 34), 0);
    nd_store_8((v13.b + 35), (uint8_t)(v9 == 1U));
    nd_store_8((v13.b + 36), (uint8_t)(v7 == 1U));
    nd_memset((v13.b + 37), 0, 3);
    nd_store_32((v13.b + 40), v5);
    nd_memset((v13.b + 44), 0, 44);
    nd_store_64((v13.b + 88), 1099511627776ULL);
    nd_memset((v13.b + 96), 0, 368);
    if (v15) { v69 = 0; goto L12; }
    v69 = (uint8_t)(nd_load_8(v3) & 64) != 0;
L12:;
    nd_ndef_message_checker_Checker_feed_tried(v14.b, v13.b, v3, v4, v69);
    switch (nd_load_8(v14.b)) {
    case 0: goto L13;
    case 1: goto L19;
    case 2: goto L20;
    default: goto L21; }
L13:;
    switch (nd_load_8((v13.b + 176))) {
    case 4: goto L17;
    case 5: goto L14;
    case 0: goto L15;
    case 1: goto L15;
    case 2: goto L15;
    case 3: goto L15;
    default: goto L16; }
L14:;
    v79 = nd_load_64((v13.b + 184));
    v80 = nd_load_64((v13.b + 192));
    goto L18;
L15:;
    v79 = nd_load_64((v13.b + 456));
    v80 = 24ULL;
    goto L18;
L16:;
    nd_stop();
L17:;
    nd_stop();
L18:;
    nd_store_64(v1, 1ULL);
    nd_store_64(((unsigned char *)((uintptr_t)v1 + 8)), v79);
    v37 = v80;
    goto L8;
L19:;
    v83 = nd_load_64((v14.b + 8));
    v86 = nd_usub_sat_i32(nd_load_32(v46), nd_load_32(v53));
    nd_store_64(v1, 0ULL);
    nd_store_32(((unsigned char *)((uintptr_t)v1 + 8)), v86);
    nd_store_32(((unsigned char *)((uintptr_t)v1 + 12)), 0U);
    v37 = v83;
    goto L8;
L20:;
    v90 = nd_load_32((v14.b + 8));
    v92 = nd_load_32((v14.b + 12));
    v94 = nd_load_64((v14.b + 16));
    nd_store_64(v1, 1ULL);
    nd_store_32(((unsigned char *)((uintptr_t)v1 + 8)), v90);
    nd_store_32(((unsigned char *)((uintptr_t)v1 + 12)), v92);
    v37 = v94;
    goto L8;
L21:;
    nd_stop();
}

static void nd_ndef_message_checker_Checker_feed_tried(unsigned char *v1, unsigned char *v2, unsigned char *v3, uint64_t v4, uint8_t v5) {
    unsigned char *v10, *v11, *v12, *v13, *v14, *v15, *v16, *v17, *v18, *v19, *v20, *v21, *v22, *v23, *v24, *v25, *v26, *v27, *v28, *v29, *v30, *v31, *v32, *v33, *v34, *v35, *v36, *v37, *v38, *v39, *v52, *v70, *v73, *v74, *v106, *v116, *v121, *v127, *v128, *v165, *v225, *v315, *v370;
    uint8_t v40, v42, v69, v76, v118, v133, v134, v137, v138, v139, v141, v162, v167, v174, v234, v379, v459, v460, v461, v462, v463, v469, v490, v497, v510, v515, v530;
    uint64_t v41, v47, v48, v49, v53, v64, v71, v75, v107, v115, v117, v119, v122, v124, v125, v129, v130, v166, v169, v316, v464, v500, v507, v509, v525, v529, v531, v532, v540, v541, v542;
    uint32_t v65, v66, v67, v104, v105, v156, v465, v466, v467, v492, v493, v501, v502, v503, v504, v505, v506, v512, v513, v514, v522;
    uint16_t v68, v511;
    ND_ROOM(12) v6;
    ND_ROOM(16) v7;
    ND_ROOM(24) v8;
    if (v4 == 0ULL) goto L113;
    v10 = (unsigned char *)((uintptr_t)v2 + 176);
    v11 = (unsigned char *)((uintptr_t)v2 + 16);
    v12 = (unsigned char *)((uintptr_t)v2 + 17);
    v13 = (unsigned char *)((uintptr_t)v2 + 56);
    v14 = (unsigned char *)((uintptr_t)v2 + 18);
    v15 = (unsigned char *)((uintptr_t)v2 + 20);
    v16 = (unsigned char *)((uintptr_t)v2 + 24);
    v17 = (unsigned char *)((uintptr_t)v2 + 28);
    v18 = (unsigned char *)((uintptr_t)v2 + 12);
    v19 = v7.b + 1;
    v20 = v7.b + 2;
    v21 = v7.b + 4;
    v22 = v7.b + 8;
    v23 = v7.b + 12;
    v24 = v8.b + 8;
    v25 = v8.b + 16;
    v26 = (unsigned char *)((uintptr_t)v2 + 4);
    v27 = v6.b + 4;
    v28 = v6.b + 9;
    v29 = (unsigned char *)((uintptr_t)v2 + 8);
    v30 = (unsigned char *)((uintptr_t)v2 + 32);
    v31 = (unsigned char *)((uintptr_t)v2 + 33);
    v32 = (unsigned char *)((uintptr_t)v2 + 34);
    v33 = (unsigned char *)((uintptr_t)v2 + 35);
    v34 = (unsigned char *)((uintptr_t)v2 + 36);
    v35 = (unsigned char *)((uintptr_t)v2 + 37);
    v36 = (unsigned char *)((uintptr_t)v2 + 40);
    v37 = (unsigned char *)((uintptr_t)v2 + 44);
    v38 = (unsigned char *)((uintptr_t)v2 + 180);
    v39 = (unsigned char *)((uintptr_t)v2 + 456);
    v40 = v5;
    v41 = 0ULL;
L2:;
    v42 = nd_load_8(v10);
    switch (v42) {
    case 4: { v47 = 1ULL; v48 = v41; v49 = 0ULL; goto L5; }
    case 5: goto L3;
    case 0: goto L6;
    case 1: goto L6;
    case 2: goto L6;
    case 3: goto L6;
    default: goto L4; }
L3:;
    v47 = 2ULL;
    v48 = nd_load_64(((unsigned char *)((uintptr_t)v2 + 184)));
    v49 = nd_load_64(((unsigned char *)((uintptr_t)v2 + 192)));
    goto L5;
L4:;
    nd_stop();
L5:;
    nd_store_64(v1, v47);
    nd_store_64(((unsigned char *)((uintptr_t)v1 + 8)), v48);
    nd_store_64(((unsigned char *)((uintptr_t)v1 + 16)), v49);
    return;
L6:;
    v52 = (unsigned char *)((uintptr_t)v3 + (uintptr_t)v41);
    v53 = v4 - v41;
    if (v40) goto L111;
    if ((uint8_t)(nd_load_8(v12) & 1)) goto L110;
    if (!(v42 == 0)) goto L111;
    if (!(nd_load_64(v13) == 0ULL)) goto L111;
    v64 = 0ULL;
    v65 = nd_load_32(v17);
    v66 = nd_load_32(v16);
    v67 = nd_load_32(v15);
    v68 = nd_load_16(v14);
    v69 = nd_load_8(v11);
L11:;
    v70 = (unsigned char *)((uintptr_t)v52 + (uintptr_t)v64);
    v71 = v53 - v64;
    nd_memset(v7.b, 0, 16);
    nd_memset(v8.b, 0, 24);
    if (v71 < 2ULL) goto L104;
    v73 = (unsigned char *)((uintptr_t)v70 + 1);
    v74 = (unsigned char *)((uintptr_t)v70 + 2);
    v75 = v71 + 18446744073709551614ULL;
    v76 = nd_load_8(v70);
    if ((uint8_t)(v76 & 16) == 0) goto L15;
    if (v75 == 0ULL) goto L104;
    v105 = (uint32_t)nd_load_8(v74);
    v106 = (unsigned char *)((uintptr_t)v70 + 3);
    v107 = v71 + 18446744073709551613ULL;
    goto L17;
L15:;
    if (v75 < 4ULL) goto L104;
    v104 = nd_bswap_i32((((((uint32_t)nd_load_8(((unsigned char *)((uintptr_t)v70 + 3))) << 8) | (uint32_t)nd_load_8(v74)) | ((uint32_t)nd_load_8(((unsigned char *)((uintptr_t)v70 + 4))) << 16)) | ((uint32_t)nd_load_8(((unsigned char *)((uintptr_t)v70 + 5))) << 24)));
    v105 = v104;
    v106 = (unsigned char *)((uintptr_t)v70 + 6);
    v107 = v71 + 18446744073709551610ULL;
L17:;
    if ((uint8_t)(v76 & 8) == 0) { v115 = 0ULL; v116 = v106; v117 = v107; goto L20; }
    if (v107 == 0ULL) goto L104;
    v115 = (uint64_t)nd_load_8(v106);
    v116 = (unsigned char *)((uintptr_t)v106 + 1);
    v117 = v107 + 18446744073709551615ULL;
L20:;
    v118 = nd_load_8(v73);
    v119 = (uint64_t)v118;
    if (v117 < v119) goto L104;
    v121 = (unsigned char *)((uintptr_t)v116 + (uintptr_t)v119);
    v122 = v117 - v119;
    if (v122 < v115) goto L104;
    v124 = v122 - v115;
    v125 = (uint64_t)v105;
    if (v124 < v125) goto L104;
    v127 = (unsigned char *)((uintptr_t)v121 + (uintptr_t)v115);
    v128 = (unsigned char *)((uintptr_t)v127 + (uintptr_t)v125);
    v129 = v124 - v125;
    v130 = v71 - v129;
    v133 = nd_load_8(v18);
    v134 = (uint8_t)(v76 & 64);
    v137 = ((int8_t)v76 < (int8_t)0) ^ (int)(uint8_t)(v69 & 1);
    v138 = v105 > v65;
    if (!((uint8_t)(v76 & 32) == 0)) goto L88;
    v139 = (uint8_t)(v76 & 7);
    v141 = v134 == 0;
    if ((uint8_t)(((v67 == 1U) & v141) ? 1 : v137) | v138) goto L104;
    if (v139 == 0) goto L31;
    if (!(v139 < 5)) goto L28;
    if (v118 == 0) goto L104;
    goto L32;
L28:;
    switch (v139) {
    case 7: goto L30;
    case 5: goto L29;
    default: goto L104; }
L29:;
    if (v118 == 0) goto L82;
    goto L104;
L30:;
    if ((v118 == 0) & (int)(v133 == 1)) goto L82;
    goto L104;
L31:;
    if (((v115 | v125) | v119) == 0ULL) goto L82;
    goto L104;
L32:;
    if (!(v139 == 1)) goto L82;
    v156 = nd_load_32(v26);
    if (!(v118 == 1)) goto L35;
    switch (nd_load_8(v116)) {
    case 84: goto L40;
    case 85: goto L60;
    default: goto L82; }
L35:;
    if (!(v118 < 3)) goto L82;
    v162 = nd_load_8(((unsigned char *)((uintptr_t)v116 + 1)));
    switch (nd_load_8(v116)) {
    case 83: goto L37;
    case 72: goto L38;
    default: goto L82; }
L37:;
    if (v162 == 112) { v462 = 0; goto L86; }
    goto L82;
L38:;
    switch (v162) {
    case 114: { v462 = 1; goto L86; }
    case 115: goto L39;
    case 99: goto L81;
    default: goto L82; }
L39:;
    v462 = 2;
    goto L86;
L40:;
    nd_memset(v6.b, 0, 12);
    if (v105 == 0U) goto L84;
    v165 = (unsigned char *)((uintptr_t)v127 + 1);
    v166 = v125 + 18446744073709551615ULL;
    v167 = nd_load_8(v127);
    v169 = (uint64_t)(uint8_t)(v167 & 63);
    if (((uint8_t)(v167 & 64) != 0) | (int)(v166 < v169)) goto L84;
    v174 = (int8_t)v167 < (int8_t)0;
    if ((v105 > 64U) | v174) goto L85;
    if (!(v105 < 9U)) goto L54;
    if (v105 < 5U) goto L47;
    if (!(((((((uint32_t)nd_load_8(((unsigned char *)((uintptr_t)v127 + 2))) << 8) | (uint32_t)nd_load_8(v165)) | ((uint32_t)nd_load_8(((unsigned char *)((uintptr_t)v127 + 3))) << 16)) | ((uint32_t)nd_load_8(((unsigned char *)((uintptr_t)v127 + 4))) << 24)) & 2155905152U) == 0U)) goto L85;
    if (((((((uint32_t)nd_load_8(((unsigned char *)((uintptr_t)v128 - 3))) << 8) | (uint32_t)nd_load_8(((unsigned char *)((uintptr_t)v128 - 4)))) | ((uint32_t)nd_load_8(((unsigned char *)((uintptr_t)v128 - 2))) << 16)) | ((uint32_t)nd_load_8(((unsigned char *)((uintptr_t)v128 - 1))) << 24)) & 2155905152U) == 0U) goto L83;
    goto L85;
L47:;
    switch (v105) {
    case 1U: goto L83;
    case 2U: goto L48;
    case 4U: goto L51;
    default: goto L49; }
L48:;
    if ((int8_t)nd_load_8(v165) > (int8_t)255) goto L83;
    goto L85;
L49:;
    if (!((int8_t)nd_load_8(v165) > (int8_t)255)) goto L85;
    if ((int8_t)nd_load_8(((unsigned char *)((uintptr_t)v127 + 2))) > (int8_t)255) goto L83;
    goto L85;
L51:;
    v225 = (unsigned char *)((uintptr_t)v127 + 3);
    if (!((int8_t)nd_load_8(v165) > (int8_t)255)) goto L85;
    if (!((int8_t)nd_load_8(((unsigned char *)((uintptr_t)v127 + 2))) > (int8_t)255)) goto L85;
    if ((int8_t)nd_load_8(v225) > (int8_t)255) goto L83;
    goto L85;
L54:;
    if (!(v105 > 17U)) goto L56;
    v234 = nd_ndef_lang_ascii_are_many(v165, v166);
    if (v234) goto L83;
    goto L85;
L56:;
    if (!(((((((uint32_t)nd_load_8(((unsigned char *)((uintptr_t)v127 + 2))) << 8) | (uint32_t)nd_load_8(v165)) | ((uint32_t)nd_load_8(((unsigned char *)((uintptr_t)v127 + 3))) << 16)) | ((uint32_t)nd_load_8(((unsigned char *)((uintptr_t)v127 + 4))) << 24)) & 2155905152U) == 0U)) goto L85;
    if (!(((((((uint32_t)nd_load_8(((unsigned char *)((uintptr_t)v127 + 6))) << 8) | (uint32_t)nd_load_8(((unsigned char *)((uintptr_t)v127 + 5)))) | ((uint32_t)nd_load_8(((unsigned char *)((uintptr_t)v127 + 7))) << 16)) | ((uint32_t)nd_load_8(((unsigned char *)((uintptr_t)v127 + 8))) << 24)) & 2155905152U) == 0U)) goto L85;
    if (!(((((((uint32_t)nd_load_8(((unsigned char *)((uintptr_t)v128 - 7))) << 8) | (uint32_t)nd_load_8(((unsigned char *)((uintptr_t)v128 - 8)))) | ((uint32_t)nd_load_8(((unsigned char *)((uintptr_t)v128 - 6))) << 16)) | ((uint32_t)nd_load_8(((unsigned char *)((uintptr_t)v128 - 5))) << 24)) & 2155905152U) == 0U)) goto L85;
    if (((((((uint32_t)nd_load_8(((unsigned char *)((uintptr_t)v128 - 3))) << 8) | (uint32_t)nd_load_8(((unsigned char *)((uintptr_t)v128 - 4)))) | ((uint32_t)nd_load_8(((unsigned char *)((uintptr_t)v128 - 2))) << 16)) | ((uint32_t)nd_load_8(((unsigned char *)((uintptr_t)v128 - 1))) << 24)) & 2155905152U) == 0U) goto L83;
    goto L85;
L60:;
    nd_memset(v6.b, 0, 12);
    if (v105 == 0U) goto L84;
    v315 = (unsigned char *)((uintptr_t)v127 + 1);
    v316 = v125 + 18446744073709551615ULL;
    if (!(uint8_t)((nd_load_8(v127) < 36) ? 1 : (v133 == 1))) goto L84;
    if (!(v105 < 65U)) goto L80;
    if (!(v105 < 9U)) goto L74;
    if (v105 < 5U) goto L67;
    if (!(((((((uint32_t)nd_load_8(((unsigned char *)((uintptr_t)v127 + 2))) << 8) | (uint32_t)nd_load_8(v315)) | ((uint32_t)nd_load_8(((unsigned char *)((uintptr_t)v127 + 3))) << 16)) | ((uint32_t)nd_load_8(((unsigned char *)((uintptr_t)v127 + 4))) << 24)) & 2155905152U) == 0U)) goto L80;
    if (((((((uint32_t)nd_load_8(((unsigned char *)((uintptr_t)v128 - 3))) << 8) | (uint32_t)nd_load_8(((unsigned char *)((uintptr_t)v128 - 4)))) | ((uint32_t)nd_load_8(((unsigned char *)((uintptr_t)v128 - 2))) << 16)) | ((uint32_t)nd_load_8(((unsigned char *)((uintptr_t)v128 - 1))) << 24)) & 2155905152U) == 0U) goto L83;
    goto L80;
L67:;
    switch (v105) {
    case 1U: goto L83;
    case 2U: goto L68;
    case 4U: goto L71;
    default: goto L69; }
L68:;
    if ((int8_t)nd_load_8(v315) > (int8_t)255) goto L83;
    goto L80;
L69:;
    if (!((int8_t)nd_load_8(v315) > (int8_t)255)) goto L80;
    if ((int8_t)nd_load_8(((unsigned char *)((uintptr_t)v127 + 2))) > (int8_t)255) goto L83;
    goto L80;
L71:;
    v370 = (unsigned char *)((uintptr_t)v127 + 3);
    if (!((int8_t)nd_load_8(v315) > (int8_t)255)) goto L80;
    if (!((int8_t)nd_load_8(((unsigned char *)((uintptr_t)v127 + 2))) > (int8_t)255)) goto L80;
    if ((int8_t)nd_load_8(v370) > (int8_t)255) goto L83;
    goto L80;
L74:;
    if (!(v105 > 17U)) goto L76;
    v379 = nd_ndef_lang_ascii_are_many(v315, v316);
    if (v379) goto L83;
    goto L80;
L76:;
    if (!(((((((uint32_t)nd_load_8(((unsigned char *)((uintptr_t)v127 + 2))) << 8) | (uint32_t)nd_load_8(v315)) | ((uint32_t)nd_load_8(((unsigned char *)((uintptr_t)v127 + 3))) << 16)) | ((uint32_t)nd_load_8(((unsigned char *)((uintptr_t)v127 + 4))) << 24)) & 2155905152U) == 0U)) goto L80;
    if (!(((((((uint32_t)nd_load_8(((unsigned char *)((uintptr_t)v127 + 6))) << 8) | (uint32_t)nd_load_8(((unsigned char *)((uintptr_t)v127 + 5)))) | ((uint32_t)nd_load_8(((unsigned char *)((uintptr_t)v127 + 7))) << 16)) | ((uint32_t)nd_load_8(((unsigned char *)((uintptr_t)v127 + 8))) << 24)) & 2155905152U) == 0U)) goto L80;
    if (!(((((((uint32_t)nd_load_8(((unsigned char *)((uintptr_t)v128 - 7))) << 8) | (uint32_t)nd_load_8(((unsigned char *)((uintptr_t)v128 - 8)))) | ((uint32_t)nd_load_8(((unsigned char *)((uintptr_t)v128 - 6))) << 16)) | ((uint32_t)nd_load_8(((unsigned char *)((uintptr_t)v128 - 5))) << 24)) & 2155905152U) == 0U)) goto L80;
    if (((((((uint32_t)nd_load_8(((unsigned char *)((uintptr_t)v128 - 3))) << 8) | (uint32_t)nd_load_8(((unsigned char *)((uintptr_t)v128 - 4)))) | ((uint32_t)nd_load_8(((unsigned char *)((uintptr_t)v128 - 2))) << 16)) | ((uint32_t)nd_load_8(((unsigned char *)((uintptr_t)v128 - 1))) << 24)) & 2155905152U) == 0U) goto L83;
L80:;
    v459 = nd_ndef_lang_member_is_long_utf8(v315, v316);
    if (v459) goto L87;
    goto L104;
L81:;
    nd_memset(v6.b, 0, 12);
    nd_store_32(v27, 1U);
    nd_store_8(v28, 7);
    v460 = nd_ndef_lang_leaf_Leaf_is_completed_by(v6.b, v127, v125);
    if (v460) goto L87;
    goto L104;
L82:;
L83:;
    goto L87;
L84:;
    goto L104;
L85:;
    v461 = nd_ndef_lang_member_is_coded_text(v169, v174, v165, v166);
    if (v461) goto L87;
    goto L104;
L86:;
    v463 = nd_ndef_nest_member_is_nested(v462, v156, v133, v127, v125);
    if (!v463) goto L104;
L87:;
    v464 = v130 + v64;
    v465 = nd_usub_sat_i32(v67, 1U);
    v466 = nd_load_32(v29);
    v467 = nd_load_32(v2);
    if (v141) { v504 = v465; v505 = v466; v506 = v467; v507 = v464; goto L103; }
    v509 = v464;
    v510 = 0;
    v511 = 0;
    v512 = v465;
    v513 = v466;
    v514 = v467;
    v515 = 1;
    goto L105;
L88:;
    v469 = (uint8_t)(v76 & 7);
    if (((v469 == 0) | (int)(uint8_t)(((v66 == 1U) | (int)(v134 != 0)) ? 1 : v137)) | v138) goto L104;
    if (!(v469 < 5)) goto L91;
    if (v118 == 0) goto L104;
    goto L94;
L91:;
    switch (v469) {
    case 7: goto L92;
    case 5: goto L93;
    default: goto L104; }
L92:;
    if ((v118 == 0) & (int)(v133 == 1)) goto L101;
    goto L104;
L93:;
    if (v118 == 0) goto L101;
    goto L104;
L94:;
    if (!(v469 == 1)) goto L101;
    if (!(v118 == 1)) goto L97;
    if ((uint8_t)(nd_load_8(v116) & 254) == 84) goto L104;
    goto L101;
L97:;
    if (!(v118 < 3)) goto L101;
    v490 = nd_load_8(((unsigned char *)((uintptr_t)v116 + 1)));
    switch (nd_load_8(v116)) {
    case 83: goto L99;
    case 72: goto L100;
    default: goto L101; }
L99:;
    if (v490 == 112) goto L104;
    goto L101;
L100:;
    switch (v490) {
    case 114: goto L104;
    case 115: goto L104;
    case 99: goto L104;
    default: goto L101; }
L101:;
    v492 = nd_usub_sat_i32(v66, 1U);
    v493 = nd_usub_sat_i32(v65, v105);
    nd_store_8(v19, 1);
    nd_store_16(v20, 0);
    nd_store_32(v21, v67);
    nd_store_32(v22, v492);
    nd_store_32(v23, v493);
    nd_ndef_message_accepted_accepted_run(v8.b, v2, v7.b, v128, v129);
    if (!(nd_load_8(v8.b) == 1)) goto L104;
    v497 = nd_load_8(v25);
    v500 = (v130 + v64) + nd_load_64(v24);
    v501 = nd_usub_sat_i32(v67, 1U);
    v502 = nd_load_32(v29);
    v503 = nd_load_32(v2);
    if ((uint8_t)(v497 & 1)) { v509 = v500; v510 = 0; v511 = 0; v512 = v501; v513 = v502; v514 = v503; v515 = 1; goto L105; }
    v504 = v501;
    v505 = v502;
    v506 = v503;
    v507 = v500;
L103:;
    if (v507 < v53) { v64 = v507; v65 = v506; v66 = v505; v67 = v504; v68 = 0; v69 = 0; goto L11; }
    v509 = v507;
    v510 = 0;
    v511 = 0;
    v512 = v504;
    v513 = v505;
    v514 = v506;
    v515 = 0;
    goto L105;
L104:;
    v509 = v64;
    v510 = v69;
    v511 = v68;
    v512 = v67;
    v513 = v66;
    v514 = v65;
    v515 = 0;
L105:;
    if (v509 == 0ULL) goto L111;
    nd_store_8(v11, v510);
    nd_store_8(v12, 0);
    nd_store_16(v14, v511);
    nd_store_32(v15, v512);
    nd_store_32(v16, v513);
    nd_store_32(v17, v514);
    if (!v515) goto L108;
    nd_memset(v38, 0, 20);
    v522 = 4U;
    goto L109;
L108:;
    nd_store_8(v30, nd_load_8(v18));
    nd_store_8(v31, v510);
    nd_store_8(v32, 0);
    nd_store_8(v33, (uint8_t)(v513 == 1U));
    nd_store_8(v34, (uint8_t)(v512 == 1U));
    nd_memset(v35, 0, 3);
    nd_store_32(v36, v514);
    nd_memset(v38, 0, 20);
    nd_memset(v37, 0, 36);
    v522 = 0U;
L109:;
    nd_store_32(v10, v522);
    nd_store_64(v39, (nd_load_64(v39) + v509));
    v530 = 1;
    v531 = v509;
    goto L112;
L110:;
    v525 = nd_ndef_message_state_State_take_chunks(v11, v2, v52, v53);
    nd_store_64(v39, (nd_load_64(v39) + v525));
    if (!(v525 == 0ULL)) { v530 = 1; v531 = v525; goto L112; }
L111:;
    v529 = nd_ndef_message_checker_Checker_step(v2, v52, v53);
    v530 = 0;
    v531 = v529;
L112:;
    v532 = v531 + v41;
    if (v532 < v4) { v40 = v530; v41 = v532; goto L2; }
L113:;
    switch (nd_load_8(((unsigned char *)((uintptr_t)v2 + 176)))) {
    case 4: { v540 = 1ULL; v541 = v4; v542 = 0ULL; goto L116; }
    case 5: goto L114;
    case 0: { v47 = 0ULL; v48 = 0ULL; v49 = 0ULL; goto L5; }
    case 1: { v47 = 0ULL; v48 = 0ULL; v49 = 0ULL; goto L5; }
    case 2: { v47 = 0ULL; v48 = 0ULL; v49 = 0ULL; goto L5; }
    case 3: { v47 = 0ULL; v48 = 0ULL; v49 = 0ULL; goto L5; }
    default: goto L115; }
L114:;
    v540 = 2ULL;
    v541 = nd_load_64(((unsigned char *)((uintptr_t)v2 + 184)));
    v542 = nd_load_64(((unsigned char *)((uintptr_t)v2 + 192)));
    goto L116;
L115:;
    nd_stop();
L116:;
    v47 = v540;
    v48 = v541;
    v49 = v542;
    goto L5;
}

static uint64_t nd_ndef_message_state_State_take_chunks(unsigned char *v1, unsigned char *v2, unsigned char *v3, uint64_t v4) {
    unsigned char *v10;
    uint64_t v29, v30;
    uint32_t v33, v36, v38;
    uint16_t v40;
    uint8_t v42, v43;
    ND_ROOM(24) v5;
    ND_ROOM(16) v6;
    nd_memset(v5.b, 0, 24);
    if (!(nd_load_8(((unsigned char *)((uintptr_t)v1 + 160))) == 0)) { v29 = 0ULL; goto L6; }
    v10 = (unsigned char *)((uintptr_t)v1 + 1);
    if (!(uint8_t)(nd_load_8(v10) & 1)) { v29 = 0ULL; goto L6; }
    if (!(nd_load_64(((unsigned char *)((uintptr_t)v1 + 40))) == 0ULL)) { v29 = 0ULL; goto L6; }
    if (!(nd_load_8(((unsigned char *)((uintptr_t)v1 + 64))) == 0)) { v29 = 0ULL; goto L6; }
    if (!(nd_load_8(((unsigned char *)((uintptr_t)v1 + 68))) == 0)) { v29 = 0ULL; goto L6; }
    if ((uint8_t)((nd_load_32(((unsigned char *)((uintptr_t)v1 + 72))) == 0U) ? (nd_load_8(((unsigned char *)((uintptr_t)v1 + 77))) == 1) : 0)) goto L7;
    v29 = 0ULL;
L6:;
    return v29;
L7:;
    nd_memcpy(v6.b, v1, 16);
    nd_ndef_message_accepted_accepted_chunks(v5.b, v6.b, v3, v4);
    v30 = nd_load_64(v5.b);
    if (v30 == 0ULL) { v29 = 0ULL; goto L6; }
    v33 = nd_load_32((v5.b + 20));
    v36 = nd_load_32((v5.b + 16));
    v38 = nd_load_32((v5.b + 12));
    v40 = nd_load_16((v5.b + 10));
    v42 = nd_load_8((v5.b + 9));
    v43 = nd_load_8((v5.b + 8));
    nd_store_8(v1, v43);
    nd_store_8(v10, v42);
    nd_store_16((v1 + 2), v40);
    nd_store_32((v1 + 4), v38);
    nd_store_32((v1 + 8), v36);
    nd_store_32((v1 + 12), v33);
    nd_store_8(((unsigned char *)((uintptr_t)v1 + 16)), nd_load_8(((unsigned char *)((uintptr_t)v2 + 12))));
    nd_store_8(((unsigned char *)((uintptr_t)v1 + 17)), v43);
    nd_store_8(((unsigned char *)((uintptr_t)v1 + 18)), v42);
    nd_store_8(((unsigned char *)((uintptr_t)v1 + 19)), (uint8_t)(v36 == 1U));
    nd_store_8(((unsigned char *)((uintptr_t)v1 + 20)), (uint8_t)(v38 == 1U));
    nd_memset(((unsigned char *)((uintptr_t)v1 + 21)), 0, 3);
    nd_store_32(((unsigned char *)((uintptr_t)v1 + 24)), v33);
    nd_memset(((unsigned char *)((uintptr_t)v1 + 28)), 0, 36);
    v29 = v30;
    goto L6;
}

static void nd_ndef_message_accepted_accepted_chunks(unsigned char *v1, unsigned char *v2, unsigned char *v3, uint64_t v4) {
    uint8_t v5, v7, v20, v62, v97, v139, v165, v166;
    uint16_t v9, v167;
    uint32_t v11, v13, v15, v48, v49, v87, v88, v92, v93, v125, v126, v162, v163, v168, v169;
    unsigned char *v17, *v18, *v50, *v60, *v65, *v72, *v90, *v94, *v95, *v127, *v137, *v142, *v149;
    uint64_t v19, v51, v59, v61, v63, v66, v68, v69, v73, v91, v96, v128, v136, v138, v140, v143, v145, v146, v150, v170;
    v5 = nd_load_8(v2);
    v7 = nd_load_8((v2 + 1));
    v9 = nd_load_16((v2 + 2));
    v11 = nd_load_32((v2 + 4));
    v13 = nd_load_32((v2 + 8));
    v15 = nd_load_32((v2 + 12));
    if (v4 < 2ULL) { v165 = v5; v166 = v7; v167 = v9; v168 = v13; v169 = v15; v170 = v4; goto L29; }
    v17 = (unsigned char *)((uintptr_t)v3 + 1);
    v18 = (unsigned char *)((uintptr_t)v3 + 2);
    v19 = v4 + 18446744073709551614ULL;
    v20 = nd_load_8(v3);
    if ((uint8_t)(v20 & 16) == 0) goto L4;
    if (v19 == 0ULL) { v165 = v5; v166 = v7; v167 = v9; v168 = v13; v169 = v15; v170 = 2ULL; goto L29; }
    v49 = (uint32_t)nd_load_8(v18);
    v50 = (unsigned char *)((uintptr_t)v3 + 3);
    v51 = v4 + 18446744073709551613ULL;
    goto L6;
L4:;
    if (v19 < 4ULL) { v165 = v5; v166 = v7; v167 = v9; v168 = v13; v169 = v15; v170 = v4; goto L29; }
    v48 = nd_bswap_i32((((((uint32_t)nd_load_8(((unsigned char *)((uintptr_t)v3 + 3))) << 8) | (uint32_t)nd_load_8(v18)) | ((uint32_t)nd_load_8(((unsigned char *)((uintptr_t)v3 + 4))) << 16)) | ((uint32_t)nd_load_8(((unsigned char *)((uintptr_t)v3 + 5))) << 24)));
    v49 = v48;
    v50 = (unsigned char *)((uintptr_t)v3 + 6);
    v51 = v4 + 18446744073709551610ULL;
L6:;
    if ((uint8_t)(v20 & 8) == 0) { v59 = 0ULL; v60 = v50; v61 = v51; goto L9; }
    if (v51 == 0ULL) { v165 = v5; v166 = v7; v167 = v9; v168 = v13; v169 = v15; v170 = v4; goto L29; }
    v59 = (uint64_t)nd_load_8(v50);
    v60 = (unsigned char *)((uintptr_t)v50 + 1);
    v61 = v51 + 18446744073709551615ULL;
L9:;
    v62 = nd_load_8(v17);
    v63 = (uint64_t)v62;
    if (v61 < v63) { v165 = v5; v166 = v7; v167 = v9; v168 = v13; v169 = v15; v170 = v4; goto L29; }
    v65 = (unsigned char *)((uintptr_t)v60 + (uintptr_t)v63);
    v66 = v61 - v63;
    if (v66 < v59) { v165 = v5; v166 = v7; v167 = v9; v168 = v13; v169 = v15; v170 = v4; goto L29; }
    v68 = v66 - v59;
    v69 = (uint64_t)v49;
    if (v68 < v69) { v165 = v5; v166 = v7; v167 = v9; v168 = v13; v169 = v15; v170 = v4; goto L29; }
    v72 = (unsigned char *)((uintptr_t)((unsigned char *)((uintptr_t)v65 + (uintptr_t)v59)) + (uintptr_t)v69);
    v73 = v68 - v69;
    if (!((uint8_t)(v20 & 39) == 38)) { v165 = v5; v166 = v7; v167 = v9; v168 = v13; v169 = v15; v170 = v4; goto L29; }
    if (!((v49 <= v15) & (int)(uint8_t)(((v13 != 1U) & (int)((uint8_t)(v62 | (uint8_t)(v20 & 72)) == 0)) ? (((int8_t)v20 > (int8_t)255) ^ (int)(uint8_t)(v5 & 1)) : 0))) { v165 = v5; v166 = v7; v167 = v9; v168 = v13; v169 = v15; v170 = v4; goto L29; }
    v87 = nd_usub_sat_i32(v13, 1U);
    v88 = v15 - v49;
    if (v73 < 2ULL) { v165 = 0; v166 = 1; v167 = 0; v168 = v87; v169 = v88; v170 = v73; goto L29; }
    v90 = v72;
    v91 = v73;
    v92 = v88;
    v93 = v87;
L15:;
    v94 = (unsigned char *)((uintptr_t)v90 + 1);
    v95 = (unsigned char *)((uintptr_t)v90 + 2);
    v96 = v91 + 18446744073709551614ULL;
    v97 = nd_load_8(v90);
    if ((uint8_t)(v97 & 16) == 0) goto L18;
    if (v96 == 0ULL) { v165 = 0; v166 = 1; v167 = 0; v168 = v93; v169 = v92; v170 = 2ULL; goto L29; }
    v126 = (uint32_t)nd_load_8(v95);
    v127 = (unsigned char *)((uintptr_t)v90 + 3);
    v128 = v91 + 18446744073709551613ULL;
    goto L20;
L18:;
    if (v96 < 4ULL) { v165 = 0; v166 = 1; v167 = 0; v168 = v93; v169 = v92; v170 = v91; goto L29; }
    v125 = nd_bswap_i32((((((uint32_t)nd_load_8(((unsigned char *)((uintptr_t)v90 + 3))) << 8) | (uint32_t)nd_load_8(v95)) | ((uint32_t)nd_load_8(((unsigned char *)((uintptr_t)v90 + 4))) << 16)) | ((uint32_t)nd_load_8(((unsigned char *)((uintptr_t)v90 + 5))) << 24)));
    v126 = v125;
    v127 = (unsigned char *)((uintptr_t)v90 + 6);
    v128 = v91 + 18446744073709551610ULL;
L20:;
    if ((uint8_t)(v97 & 8) == 0) { v136 = 0ULL; v137 = v127; v138 = v128; goto L23; }
    if (v128 == 0ULL) { v165 = 0; v166 = 1; v167 = 0; v168 = v93; v169 = v92; v170 = v91; goto L29; }
    v136 = (uint64_t)nd_load_8(v127);
    v137 = (unsigned char *)((uintptr_t)v127 + 1);
    v138 = v128 + 18446744073709551615ULL;
L23:;
    v139 = nd_load_8(v94);
    v140 = (uint64_t)v139;
    if (v138 < v140) { v165 = 0; v166 = 1; v167 = 0; v168 = v93; v169 = v92; v170 = v91; goto L29; }
    v142 = (unsigned char *)((uintptr_t)v137 + (uintptr_t)v140);
    v143 = v138 - v140;
    if (v143 < v136) { v165 = 0; v166 = 1; v167 = 0; v168 = v93; v169 = v92; v170 = v91; goto L29; }
    v145 = v143 - v136;
    v146 = (uint64_t)v126;
    if (v145 < v146) { v165 = 0; v166 = 1; v167 = 0; v168 = v93; v169 = v92; v170 = v91; goto L29; }
    v149 = (unsigned char *)((uintptr_t)((unsigned char *)((uintptr_t)v142 + (uintptr_t)v136)) + (uintptr_t)v146);
    v150 = v145 - v146;
    if (!((uint8_t)(v97 & 39) == 38)) { v165 = 0; v166 = 1; v167 = 0; v168 = v93; v169 = v92; v170 = v91; goto L29; }
    if (!((v126 <= v92) & (int)(((v93 != 1U) & (int)((uint8_t)(v139 | (uint8_t)(v97 & 72)) == 0)) & (int)((int8_t)v97 > (int8_t)255)))) { v165 = 0; v166 = 1; v167 = 0; v168 = v93; v169 = v92; v170 = v91; goto L29; }
    v162 = nd_usub_sat_i32(v93, 1U);
    v163 = v92 - v126;
    if (v150 < 2ULL) { v165 = 0; v166 = 1; v167 = 0; v168 = v162; v169 = v163; v170 = v150; goto L29; }
    v90 = v149;
    v91 = v150;
    v92 = v163;
    v93 = v162;
    goto L15;
L29:;
    nd_store_64(v1, (v4 - v170));
    nd_store_8((v1 + 8), v165);
    nd_store_8((v1 + 9), v166);
    nd_store_16((v1 + 10), v167);
    nd_store_32((v1 + 12), v11);
    nd_store_32((v1 + 16), v168);
    nd_store_32((v1 + 20), v169);
    return;
}

static void nd_ndef_message_accepted_accepted_run(unsigned char *v1, unsigned char *v2, unsigned char *v3, unsigned char *v4, uint64_t v5) {
    uint32_t v7, v10, v12, v50, v51, v91, v96, v97, v98, v131, v132, v170, v172, v188, v190;
    uint8_t v16, v17, v22, v54, v64, v76, v83, v103, v135, v145, v157, v164, v168, v171, v173;
    unsigned char *v19, *v20, *v52, *v62, *v67, *v74, *v94, *v100, *v101, *v133, *v143, *v148, *v155;
    uint64_t v21, v53, v61, v63, v65, v68, v70, v71, v75, v95, v102, v134, v142, v144, v146, v149, v151, v152, v156, v169;
    v7 = nd_load_32(((unsigned char *)((uintptr_t)v2 + 8)));
    if (v7 == 0U) goto L41;
    v10 = nd_load_32((v3 + 12));
    v12 = nd_load_32((v3 + 8));
    v16 = (uint8_t)(nd_load_8(v3) & 1);
    v17 = nd_load_32((v3 + 4)) != 1U;
    if (v5 < 2ULL) goto L37;
    v19 = (unsigned char *)((uintptr_t)v4 + 1);
    v20 = (unsigned char *)((uintptr_t)v4 + 2);
    v21 = v5 + 18446744073709551614ULL;
    v22 = nd_load_8(v4);
    if ((uint8_t)(v22 & 16) == 0) goto L5;
    if (v21 == 0ULL) goto L37;
    v51 = (uint32_t)nd_load_8(v20);
    v52 = (unsigned char *)((uintptr_t)v4 + 3);
    v53 = v5 + 18446744073709551613ULL;
    goto L7;
L5:;
    if (v21 < 4ULL) goto L37;
    v50 = nd_bswap_i32((((((uint32_t)nd_load_8(((unsigned char *)((uintptr_t)v4 + 3))) << 8) | (uint32_t)nd_load_8(v20)) | ((uint32_t)nd_load_8(((unsigned char *)((uintptr_t)v4 + 4))) << 16)) | ((uint32_t)nd_load_8(((unsigned char *)((uintptr_t)v4 + 5))) << 24)));
    v51 = v50;
    v52 = (unsigned char *)((uintptr_t)v4 + 6);
    v53 = v5 + 18446744073709551610ULL;
L7:;
    v54 = (uint8_t)(v22 & 8);
    if (v54 == 0) { v61 = 0ULL; v62 = v52; v63 = v53; goto L10; }
    if (v53 == 0ULL) goto L37;
    v61 = (uint64_t)nd_load_8(v52);
    v62 = (unsigned char *)((uintptr_t)v52 + 1);
    v63 = v53 + 18446744073709551615ULL;
L10:;
    v64 = nd_load_8(v19);
    v65 = (uint64_t)v64;
    if (v63 < v65) goto L37;
    v67 = (unsigned char *)((uintptr_t)v62 + (uintptr_t)v65);
    v68 = v63 - v65;
    if (v68 < v61) goto L37;
    v70 = v68 - v61;
    v71 = (uint64_t)v51;
    if (v70 < v71) goto L37;
    v74 = (unsigned char *)((uintptr_t)((unsigned char *)((uintptr_t)v67 + (uintptr_t)v61)) + (uintptr_t)v71);
    v75 = v70 - v71;
    v76 = v12 == 1U;
    if (!(((uint8_t)(v22 & 7) == 6) & (int)((uint8_t)(v64 | v54) == 0))) goto L38;
    v83 = (uint8_t)(v22 & 64) != 0;
    if ((uint8_t)(v22 & 32) == 0) { v168 = v83; v169 = v75; v170 = v51; v171 = v22; v172 = v10; v173 = v16; goto L33; }
    if ((uint8_t)(v83 ? 1 : v76)) goto L38;
    if (!(uint8_t)((((int8_t)v22 > (int8_t)255) ^ v16) ? (v51 <= v10) : 0)) goto L38;
    v91 = nd_usub_sat_i32(v12, 1U);
    if (v7 == 1U) goto L41;
    v94 = v74;
    v95 = v75;
    v96 = 1U;
    v97 = v10 - v51;
    v98 = v91;
L18:;
    if (v95 < 2ULL) goto L37;
    v100 = (unsigned char *)((uintptr_t)v94 + 1);
    v101 = (unsigned char *)((uintptr_t)v94 + 2);
    v102 = v95 + 18446744073709551614ULL;
    v103 = nd_load_8(v94);
    if ((uint8_t)(v103 & 16) == 0) goto L22;
    if (v102 == 0ULL) goto L37;
    v132 = (uint32_t)nd_load_8(v101);
    v133 = (unsigned char *)((uintptr_t)v94 + 3);
    v134 = v95 + 18446744073709551613ULL;
    goto L24;
L22:;
    if (v102 < 4ULL) goto L37;
    v131 = nd_bswap_i32((((((uint32_t)nd_load_8(((unsigned char *)((uintptr_t)v94 + 3))) << 8) | (uint32_t)nd_load_8(v101)) | ((uint32_t)nd_load_8(((unsigned char *)((uintptr_t)v94 + 4))) << 16)) | ((uint32_t)nd_load_8(((unsigned char *)((uintptr_t)v94 + 5))) << 24)));
    v132 = v131;
    v133 = (unsigned char *)((uintptr_t)v94 + 6);
    v134 = v95 + 18446744073709551610ULL;
L24:;
    v135 = (uint8_t)(v103 & 8);
    if (v135 == 0) { v142 = 0ULL; v143 = v133; v144 = v134; goto L27; }
    if (v134 == 0ULL) goto L37;
    v142 = (uint64_t)nd_load_8(v133);
    v143 = (unsigned char *)((uintptr_t)v133 + 1);
    v144 = v134 + 18446744073709551615ULL;
L27:;
    v145 = nd_load_8(v100);
    v146 = (uint64_t)v145;
    if (v144 < v146) goto L37;
    v148 = (unsigned char *)((uintptr_t)v143 + (uintptr_t)v146);
    v149 = v144 - v146;
    if (v149 < v142) goto L37;
    v151 = v149 - v142;
    v152 = (uint64_t)v132;
    if (v151 < v152) goto L37;
    v155 = (unsigned char *)((uintptr_t)((unsigned char *)((uintptr_t)v148 + (uintptr_t)v142)) + (uintptr_t)v152);
    v156 = v151 - v152;
    v157 = v98 == 1U;
    if (!(((uint8_t)(v103 & 7) == 6) & (int)((uint8_t)(v145 | v135) == 0))) goto L38;
    v164 = (uint8_t)(v103 & 64) != 0;
    if ((uint8_t)(v103 & 32) == 0) { v168 = v164; v169 = v156; v170 = v132; v171 = v103; v172 = v97; v173 = 0; goto L33; }
    if (v164 | v157) goto L38;
    goto L35;
L33:;
    if (!(uint8_t)(v168 ? 1 : v17)) goto L38;
    if ((uint8_t)((v173 ^ (int)((int8_t)v171 > (int8_t)255)) ? (v170 <= v172) : 0)) goto L39;
    goto L38;
L35:;
    if ((uint8_t)(((int8_t)v103 > (int8_t)255) ? (v132 <= v97) : 0)) goto L40;
    goto L38;
L36:;
    return;
L37:;
    nd_memset(v1, 0, 24);
    goto L36;
L38:;
    nd_memset(v1, 0, 24);
    goto L36;
L39:;
    nd_store_64(v1, 1ULL);
    nd_store_64(((unsigned char *)((uintptr_t)v1 + 8)), (v5 - v169));
    nd_store_8(((unsigned char *)((uintptr_t)v1 + 16)), (uint8_t)((uint8_t)(v171 >> 6) & 1));
    nd_memset(((unsigned char *)((uintptr_t)v1 + 17)), 0, 7);
    goto L36;
L40:;
    v188 = nd_usub_sat_i32(v98, 1U);
    v190 = v96 + 1U;
    if (!(v190 == v7)) { v94 = v155; v95 = v156; v96 = v190; v97 = v97 - v132; v98 = v188; goto L18; }
L41:;
    nd_memset(v1, 0, 24);
    goto L36;
}

static uint64_t nd_ndef_message_checker_Checker_step(unsigned char *v1, unsigned char *v2, uint64_t v3) {
    unsigned char *v13, *v15, *v16, *v18, *v27, *v32, *v73, *v85, *v136, *v139, *v142, *v163, *v175, *v226, *v232, *v242, *v246, *v248, *v271, *v318, *v320, *v322, *v324, *v325, *v327, *v338, *v380;
    uint64_t v14, v31, v56, v62, v117, v123, v125, v143, v150, v244, v245, v251, v258, v289, v292, v299, v313, v329, v330, v337, v342, v344, v345, v347, v417, v418;
    uint8_t v22, v24, v26, v40, v55, v64, v82, v107, v115, v127, v135, v144, v151, v153, v172, v205, v221, v229, v231, v233, v235, v237, v239, v243, v250, v257, v291, v300, v311, v319, v321, v323, v331, v353, v355, v363, v367, v372, v392;
    uint32_t v29, v59, v74, v77, v79, v83, v84, v86, v138, v147, v164, v167, v169, v173, v174, v176, v241, v296, v326, v328, v334, v362, v376, v381, v384, v387, v388, v393, v394, v395;
    uint16_t v133, v227;
    ND_ROOM(5) v4;
    ND_ROOM(12) v5, v6, v8, v11;
    ND_ROOM(96) v7;
    ND_ROOM(48) v9;
    ND_ROOM(16) v10;
    ND_ROOM(32) v12;
    v13 = (unsigned char *)((uintptr_t)v1 + 456);
    v14 = nd_load_64(v13);
    v15 = (unsigned char *)((uintptr_t)v1 + 16);
    v16 = (unsigned char *)((uintptr_t)v1 + 176);
    switch (nd_load_8(v16)) {
    case 0: goto L1;
    case 1: goto L42;
    case 2: goto L54;
    case 3: goto L55;
    case 4: { v418 = 1ULL; goto L84; }
    case 5: { v418 = 1ULL; goto L84; }
    default: goto L83; }
L1:;
    nd_memset(v12.b, 0, 32);
    v18 = (unsigned char *)((uintptr_t)v1 + 32);
    nd_ndef_piece_head_reader_HeadReader_whole_head(v12.b, v18, v2, v3);
    if (!(nd_load_8(v12.b) == 1)) goto L17;
    v22 = nd_load_8((v12.b + 8));
    v24 = nd_load_8((v12.b + 9));
    v26 = nd_load_8((v12.b + 10));
    v27 = v12.b + 11;
    v29 = nd_load_32((v12.b + 16));
    v31 = nd_load_64((v12.b + 24));
    v32 = (unsigned char *)((uintptr_t)v1 + 17);
    if ((uint8_t)(nd_load_8(v32) & 1)) goto L7;
    nd_store_8(v11.b, v22);
    nd_store_8((v11.b + 1), v24);
    nd_store_8((v11.b + 2), v26);
    nd_memcpy((v11.b + 3), v27, 5);
    nd_store_32((v11.b + 8), v29);
    v40 = nd_load_8((v11.b + 5));
    if (v40 == 0) goto L5;
    nd_store_8(((unsigned char *)((uintptr_t)v1 + 455)), 0);
    nd_store_32(v16, 1U);
    nd_memcpy(((unsigned char *)((uintptr_t)v1 + 180)), v11.b, 12);
    nd_store_8(((unsigned char *)((uintptr_t)v1 + 192)), v40);
    nd_memset(((unsigned char *)((uintptr_t)v1 + 193)), 0, 7);
    goto L6;
L5:;
    nd_store_64(((unsigned char *)((uintptr_t)v1 + 80)), 0ULL);
    nd_store_64(((unsigned char *)((uintptr_t)v1 + 88)), 1099511627776ULL);
    nd_memset(((unsigned char *)((uintptr_t)v1 + 96)), 0, 80);
    nd_ndef_message_state_State_advance_field(v15, v1, v11.b, (uint8_t)((nd_load_8((v11.b + 6)) == 1) ? nd_load_8((v11.b + 7)) : 0), v29);
L6:;
    goto L16;
L7:;
    v55 = (uint8_t)(v26 & 1);
    v56 = (uint64_t)v29;
    if (!v55) { v62 = v56; goto L9; }
    v59 = nd_usub_sat_i32(nd_load_32(((unsigned char *)((uintptr_t)v1 + 28))), v29);
    v62 = (uint64_t)v59 + v56;
L9:;
    v64 = nd_ndef_nest_typed_TypedRecordLanguage_fits(((unsigned char *)((uintptr_t)v1 + 80)), v56, v62);
    if (!v64) goto L17;
    if (v29 == 0U) goto L12;
    nd_store_32(v16, 3U);
    nd_store_8(((unsigned char *)((uintptr_t)v1 + 180)), v22);
    nd_store_8(((unsigned char *)((uintptr_t)v1 + 181)), v24);
    nd_store_8(((unsigned char *)((uintptr_t)v1 + 182)), v26);
    nd_memcpy(((unsigned char *)((uintptr_t)v1 + 183)), v27, 5);
    nd_store_32(((unsigned char *)((uintptr_t)v1 + 188)), v29);
    nd_store_32(((unsigned char *)((uintptr_t)v1 + 192)), v29);
    nd_store_32(((unsigned char *)((uintptr_t)v1 + 196)), 0U);
    goto L16;
L12:;
    v73 = (unsigned char *)((uintptr_t)v1 + 20);
    v74 = nd_load_32(v73);
    if (!v55) goto L14;
    v77 = nd_usub_sat_i32(nd_load_32(((unsigned char *)((uintptr_t)v1 + 24))), 1U);
    v82 = 1;
    v83 = v74;
    v84 = v77;
    v85 = (unsigned char *)((uintptr_t)v1 + 28);
    goto L15;
L14:;
    v79 = nd_usub_sat_i32(v74, 1U);
    v82 = 0;
    v83 = v79;
    v84 = nd_load_32(((unsigned char *)((uintptr_t)v1 + 8)));
    v85 = v1;
L15:;
    v86 = nd_load_32(v85);
    nd_store_8(v15, 0);
    nd_store_8(v32, v82);
    nd_store_16(((unsigned char *)((uintptr_t)v1 + 18)), 0);
    nd_store_32(v73, v83);
    nd_store_32(((unsigned char *)((uintptr_t)v1 + 24)), v84);
    nd_store_32(((unsigned char *)((uintptr_t)v1 + 28)), v86);
    nd_store_8(v18, nd_load_8(((unsigned char *)((uintptr_t)v1 + 12))));
    nd_store_8(((unsigned char *)((uintptr_t)v1 + 33)), 0);
    nd_store_8(((unsigned char *)((uintptr_t)v1 + 34)), v82);
    nd_store_8(((unsigned char *)((uintptr_t)v1 + 35)), (uint8_t)(v84 == 1U));
    nd_store_8(((unsigned char *)((uintptr_t)v1 + 36)), (uint8_t)(v83 == 1U));
    nd_memset(((unsigned char *)((uintptr_t)v1 + 37)), 0, 3);
    nd_store_32(((unsigned char *)((uintptr_t)v1 + 40)), v86);
    nd_memset(((unsigned char *)((uintptr_t)v1 + 44)), 0, 36);
    nd_store_32(v16, (v55 ? 0U : (uint32_t)(uint8_t)((uint32_t)v24 << 2)));
    nd_memset(((unsigned char *)((uintptr_t)v1 + 180)), 0, 20);
L16:;
    v418 = v31;
    goto L84;
L17:;
    v107 = nd_load_8(v2);
    nd_memset(v10.b, 0, 16);
    nd_ndef_piece_head_reader_HeadReader_step(v10.b, v18, v107);
    switch (nd_load_8(v10.b)) {
    case 0: goto L18;
    case 1: goto L24;
    case 2: goto L39;
    default: goto L40; }
L18:;
    nd_memset(v9.b, 0, 48);
    if ((uint8_t)(nd_load_8(((unsigned char *)((uintptr_t)v1 + 17))) & 1)) goto L20;
    goto L41;
L20:;
    nd_ndef_piece_head_reader_HeadReader_bounds(v9.b, v18);
    if (nd_load_8(v9.b) == 1) goto L22;
    goto L23;
L22:;
    v115 = nd_load_8((v9.b + 9));
    v117 = nd_load_64((v9.b + 32));
    v123 = (uint64_t)nd_load_32(((unsigned char *)((uintptr_t)v1 + 28)));
    v125 = nd_umin_i64(nd_load_64((v9.b + 40)), v123);
    v127 = nd_ndef_nest_typed_TypedRecordLanguage_fits(((unsigned char *)((uintptr_t)v1 + 80)), v117, ((uint8_t)(v115 & 1) ? v123 : v125));
    if (v127) goto L41;
L23:;
    nd_store_32(v16, 5U);
    nd_store_32(((unsigned char *)((uintptr_t)v1 + 180)), 0U);
    nd_store_64(((unsigned char *)((uintptr_t)v1 + 184)), v14);
    nd_store_8(((unsigned char *)((uintptr_t)v1 + 192)), 23);
    nd_memset(((unsigned char *)((uintptr_t)v1 + 193)), 0, 7);
    goto L41;
L24:;
    v133 = nd_load_16((v10.b + 4));
    v135 = nd_load_8((v10.b + 6));
    v136 = v10.b + 7;
    v138 = nd_load_32((v10.b + 12));
    v139 = (unsigned char *)((uintptr_t)v1 + 17);
    if (!(uint8_t)(nd_load_8(v139) & 1)) goto L35;
    v142 = (unsigned char *)((uintptr_t)v1 + 80);
    v143 = (uint64_t)v138;
    v144 = (uint8_t)(v135 & 1);
    if (!v144) { v150 = v143; goto L27; }
    v147 = nd_usub_sat_i32(nd_load_32(((unsigned char *)((uintptr_t)v1 + 28))), v138);
    v150 = (uint64_t)v147 + v143;
L27:;
    v151 = nd_ndef_nest_typed_TypedRecordLanguage_fits(v142, v143, v150);
    if (!v151) goto L34;
    v153 = (uint8_t)(uint16_t)(v133 >> 8);
    if (v138 == 0U) goto L30;
    nd_store_32(v16, 3U);
    nd_store_8(((unsigned char *)((uintptr_t)v1 + 180)), (uint8_t)v133);
    nd_store_8(((unsigned char *)((uintptr_t)v1 + 181)), v153);
    nd_store_8(((unsigned char *)((uintptr_t)v1 + 182)), v135);
    nd_memcpy(((unsigned char *)((uintptr_t)v1 + 183)), v136, 5);
    nd_store_32(((unsigned char *)((uintptr_t)v1 + 188)), v138);
    nd_store_32(((unsigned char *)((uintptr_t)v1 + 192)), v138);
    nd_store_32(((unsigned char *)((uintptr_t)v1 + 196)), 0U);
    goto L41;
L30:;
    v163 = (unsigned char *)((uintptr_t)v1 + 20);
    v164 = nd_load_32(v163);
    if (!v144) goto L32;
    v167 = nd_usub_sat_i32(nd_load_32(((unsigned char *)((uintptr_t)v1 + 24))), 1U);
    v172 = 1;
    v173 = v164;
    v174 = v167;
    v175 = (unsigned char *)((uintptr_t)v1 + 28);
    goto L33;
L32:;
    v169 = nd_usub_sat_i32(v164, 1U);
    v172 = 0;
    v173 = v169;
    v174 = nd_load_32(((unsigned char *)((uintptr_t)v1 + 8)));
    v175 = v1;
L33:;
    v176 = nd_load_32(v175);
    nd_store_8(v15, 0);
    nd_store_8(v139, v172);
    nd_store_16(((unsigned char *)((uintptr_t)v1 + 18)), 0);
    nd_store_32(v163, v173);
    nd_store_32(((unsigned char *)((uintptr_t)v1 + 24)), v174);
    nd_store_32(((unsigned char *)((uintptr_t)v1 + 28)), v176);
    nd_store_8(v18, nd_load_8(((unsigned char *)((uintptr_t)v1 + 12))));
    nd_store_8(((unsigned char *)((uintptr_t)v1 + 33)), 0);
    nd_store_8(((unsigned char *)((uintptr_t)v1 + 34)), v172);
    nd_store_8(((unsigned char *)((uintptr_t)v1 + 35)), (uint8_t)(v174 == 1U));
    nd_store_8(((unsigned char *)((uintptr_t)v1 + 36)), (uint8_t)(v173 == 1U));
    nd_memset(((unsigned char *)((uintptr_t)v1 + 37)), 0, 3);
    nd_store_32(((unsigned char *)((uintptr_t)v1 + 40)), v176);
    nd_memset(((unsigned char *)((uintptr_t)v1 + 44)), 0, 36);
    nd_store_32(v16, (v144 ? 0U : (uint32_t)(uint8_t)((uint32_t)v153 << 2)));
    nd_memset(((unsigned char *)((uintptr_t)v1 + 180)), 0, 20);
    goto L41;
L34:;
    nd_store_32(v16, 5U);
    nd_store_32(((unsigned char *)((uintptr_t)v1 + 180)), 0U);
    nd_store_64(((unsigned char *)((uintptr_t)v1 + 184)), v14);
    nd_store_8(((unsigned char *)((uintptr_t)v1 + 192)), 23);
    nd_memset(((unsigned char *)((uintptr_t)v1 + 193)), 0, 7);
    goto L41;
L35:;
    nd_store_16(v8.b, v133);
    nd_store_8((v8.b + 2), v135);
    nd_memcpy((v8.b + 3), v136, 5);
    nd_store_32((v8.b + 8), v138);
    v205 = nd_load_8((v8.b + 5));
    if (v205 == 0) goto L37;
    nd_store_8(((unsigned char *)((uintptr_t)v1 + 455)), 0);
    nd_store_32(v16, 1U);
    nd_memcpy(((unsigned char *)((uintptr_t)v1 + 180)), v8.b, 12);
    nd_store_8(((unsigned char *)((uintptr_t)v1 + 192)), v205);
    nd_memset(((unsigned char *)((uintptr_t)v1 + 193)), 0, 7);
    goto L38;
L37:;
    nd_store_64(((unsigned char *)((uintptr_t)v1 + 80)), 0ULL);
    nd_store_64(((unsigned char *)((uintptr_t)v1 + 88)), 1099511627776ULL);
    nd_memset(((unsigned char *)((uintptr_t)v1 + 96)), 0, 80);
    nd_ndef_message_state_State_advance_field(v15, v1, v8.b, (uint8_t)((nd_load_8((v8.b + 6)) == 1) ? nd_load_8((v8.b + 7)) : 0), v138);
L38:;
    goto L41;
L39:;
    v221 = nd_load_8((v10.b + 1));
    nd_store_32(v16, 5U);
    nd_store_32(((unsigned char *)((uintptr_t)v1 + 180)), 0U);
    nd_store_64(((unsigned char *)((uintptr_t)v1 + 184)), v14);
    nd_store_8(((unsigned char *)((uintptr_t)v1 + 192)), v221);
    nd_memset(((unsigned char *)((uintptr_t)v1 + 193)), 0, 7);
    goto L41;
L40:;
    nd_stop();
L41:;
    v418 = 1ULL;
    goto L84;
L42:;
    v226 = (unsigned char *)((uintptr_t)v1 + 180);
    v227 = nd_load_16(v226);
    v229 = nd_load_8(((unsigned char *)((uintptr_t)v1 + 182)));
    v231 = nd_load_8(((unsigned char *)((uintptr_t)v1 + 183)));
    v232 = (unsigned char *)((uintptr_t)v1 + 184);
    v233 = nd_load_8(v232);
    v235 = nd_load_8(((unsigned char *)((uintptr_t)v1 + 185)));
    v237 = nd_load_8(((unsigned char *)((uintptr_t)v1 + 186)));
    v239 = nd_load_8(((unsigned char *)((uintptr_t)v1 + 187)));
    v241 = nd_load_32(((unsigned char *)((uintptr_t)v1 + 188)));
    v242 = (unsigned char *)((uintptr_t)v1 + 192);
    v243 = nd_load_8(v242);
    v244 = (uint64_t)v243;
    v245 = nd_umin_i64(v244, v3);
    nd_memset(v7.b, 0, 96);
    v246 = (unsigned char *)((uintptr_t)v1 + 200);
    if (v245 == 0ULL) goto L45;
    v248 = (unsigned char *)((uintptr_t)v1 + 455);
    v250 = nd_load_8(v248);
    v251 = 0ULL;
L44:;
    nd_store_8((v246 + (ptrdiff_t)(uint64_t)v250), nd_load_8(((unsigned char *)((uintptr_t)v2 + (uintptr_t)v251))));
    v257 = (uint8_t)(nd_load_8(v248) + 1);
    nd_store_8(v248, v257);
    v258 = v251 + 1ULL;
    if (!(v258 == v245)) { v250 = v257; v251 = v258; goto L44; }
L45:;
    if (!(v3 < v244)) goto L47;
    nd_store_32(v16, 1U);
    nd_store_8(v242, (uint8_t)(v243 - (uint8_t)v245));
    nd_memset(((unsigned char *)((uintptr_t)v1 + 193)), 0, 7);
    goto L53;
L47:;
    nd_ndef_nest_typed_TypedRecordLanguage_start(v7.b, v233, v246, (uint64_t)nd_load_8(((unsigned char *)((uintptr_t)v1 + 455))), nd_load_32(((unsigned char *)((uintptr_t)v1 + 4))), nd_load_8(((unsigned char *)((uintptr_t)v1 + 12))));
    v271 = (unsigned char *)((uintptr_t)v1 + 80);
    nd_store_32(v271, (uint32_t)nd_load_8(v7.b));
    nd_store_8(((unsigned char *)((uintptr_t)v1 + 84)), nd_load_8((v7.b + 4)));
    nd_store_8(((unsigned char *)((uintptr_t)v1 + 85)), nd_load_8((v7.b + 5)));
    nd_store_8(((unsigned char *)((uintptr_t)v1 + 86)), nd_load_8((v7.b + 6)));
    nd_store_8(((unsigned char *)((uintptr_t)v1 + 87)), nd_load_8((v7.b + 7)));
    nd_memcpy(((unsigned char *)((uintptr_t)v1 + 88)), (v7.b + 8), 88);
    v289 = (v14 + 18446744073709551615ULL) + v245;
    v291 = (uint8_t)((v237 == 1) ? v239 : 0);
    v292 = (uint64_t)v241;
    if (!(uint8_t)(v229 & 1)) { v299 = v292; goto L49; }
    v296 = nd_usub_sat_i32(nd_load_32(((unsigned char *)((uintptr_t)v1 + 28))), v241);
    v299 = (uint64_t)v296 + v292;
L49:;
    v300 = nd_ndef_nest_typed_TypedRecordLanguage_fits(v271, v292, v299);
    if (!v300) goto L51;
    nd_store_16(v6.b, v227);
    nd_store_8((v6.b + 2), v229);
    nd_store_8((v6.b + 3), v231);
    nd_store_8((v6.b + 4), v233);
    nd_store_8((v6.b + 5), v235);
    nd_store_8((v6.b + 6), v237);
    nd_store_8((v6.b + 7), v239);
    nd_store_32((v6.b + 8), v241);
    nd_ndef_message_state_State_advance_field(v15, v1, v6.b, v291, v241);
    goto L52;
L51:;
    nd_store_32(v16, 5U);
    nd_store_32(v226, 0U);
    nd_store_64(v232, v289);
    nd_store_8(v242, 23);
    nd_memset(((unsigned char *)((uintptr_t)v1 + 193)), 0, 7);
L52:;
L53:;
    v418 = v245;
    goto L84;
L54:;
    v311 = nd_load_8(((unsigned char *)((uintptr_t)v1 + 192)));
    v313 = nd_umin_i64((uint64_t)v311, v3);
    nd_memcpy(v5.b, ((unsigned char *)((uintptr_t)v1 + 180)), 12);
    nd_ndef_message_state_State_advance_field(v15, v1, v5.b, (uint8_t)(v311 - (uint8_t)v313), nd_load_32((v5.b + 8)));
    v418 = v313;
    goto L84;
L55:;
    v318 = (unsigned char *)((uintptr_t)v1 + 180);
    v319 = nd_load_8(v318);
    v320 = (unsigned char *)((uintptr_t)v1 + 181);
    v321 = nd_load_8(v320);
    v322 = (unsigned char *)((uintptr_t)v1 + 182);
    v323 = nd_load_8(v322);
    v324 = (unsigned char *)((uintptr_t)v1 + 183);
    v325 = (unsigned char *)((uintptr_t)v1 + 188);
    v326 = nd_load_32(v325);
    v327 = (unsigned char *)((uintptr_t)v1 + 192);
    v328 = nd_load_32(v327);
    v329 = (uint64_t)v328;
    v330 = nd_umin_i64(v329, v3);
    nd_memcpy(v4.b, v324, 5);
    v331 = (uint8_t)(v323 & 1);
    if (!v331) { v337 = v329; goto L57; }
    v334 = nd_usub_sat_i32(nd_load_32(((unsigned char *)((uintptr_t)v1 + 28))), v326);
    v337 = (uint64_t)v334 + v329;
L57:;
    v338 = (unsigned char *)((uintptr_t)v1 + 80);
    if (!(nd_load_8(v338) == 0)) goto L59;
    v342 = nd_ndef_lang_leaf_LeafLanguage_step_all(((unsigned char *)((uintptr_t)v1 + 84)), v2, v330, v329, v337);
    v345 = v342;
    goto L60;
L59:;
    v344 = nd_ndef_nest_nest_NestLanguage_step_all(((unsigned char *)((uintptr_t)v1 + 88)), v2, v330, v329, v337);
    v345 = v344;
L60:;
    if (!(v345 < v330)) goto L76;
    v347 = v345 + v14;
    if (!(nd_load_8(v338) == 0)) goto L74;
    v353 = nd_load_8(((unsigned char *)((uintptr_t)v1 + 85)));
    v355 = nd_load_8(((unsigned char *)((uintptr_t)v1 + 87)));
    switch (nd_load_8(((unsigned char *)((uintptr_t)v1 + 84)))) {
    case 0: { v372 = 23; goto L75; }
    case 1: goto L63;
    case 2: goto L64;
    case 3: goto L72;
    default: goto L73; }
L63:;
    v372 = (uint8_t)((v353 == 8) ? 16 : 23);
    goto L75;
L64:;
    v362 = nd_load_32(((unsigned char *)((uintptr_t)v1 + 88)));
    v363 = nd_load_8(((unsigned char *)((uintptr_t)v1 + 86)));
    switch (v353) {
    case 0: { v372 = 23; goto L75; }
    case 2: { v372 = 23; goto L75; }
    case 1: goto L70;
    case 3: goto L65;
    case 4: goto L71;
    default: goto L69; }
L65:;
    if ((uint8_t)(v363 & 1)) { v372 = 23; goto L75; }
    v367 = (v362 & 252U) == 220U;
    if (!(uint8_t)(v355 & 1)) goto L68;
    if (v367) { v372 = 23; goto L75; }
    goto L71;
L68:;
    if (v367) goto L71;
    v372 = 23;
    goto L75;
L69:;
    nd_stop();
L70:;
    if (!((uint8_t)(v363 & 252) == 220)) { v372 = 23; goto L75; }
L71:;
    v372 = 17;
    goto L75;
L72:;
    v372 = v353;
    goto L75;
L73:;
    nd_stop();
L74:;
    v372 = nd_load_8(((unsigned char *)((uintptr_t)v1 + 168)));
L75:;
    nd_store_32(v16, 5U);
    nd_store_32(v318, 0U);
    nd_store_64(((unsigned char *)((uintptr_t)v1 + 184)), v347);
    nd_store_8(v327, v372);
    nd_memset(((unsigned char *)((uintptr_t)v1 + 193)), 0, 7);
    v417 = v345 + 1ULL;
    goto L82;
L76:;
    v376 = (uint32_t)v345;
    if (v328 == v376) goto L78;
    nd_store_32(v16, 3U);
    nd_store_8(v318, v319);
    nd_store_8(v320, v321);
    nd_store_8(v322, v323);
    nd_memcpy(v324, v4.b, 5);
    nd_store_32(v325, v326);
    nd_store_32(v327, (v328 - v376));
    nd_store_32(((unsigned char *)((uintptr_t)v1 + 196)), 0U);
    v417 = v345;
    goto L82;
L78:;
    v380 = (unsigned char *)((uintptr_t)v1 + 20);
    v381 = nd_load_32(v380);
    if (!v331) goto L80;
    v384 = nd_usub_sat_i32(nd_load_32(((unsigned char *)((uintptr_t)v1 + 24))), 1U);
    v387 = nd_usub_sat_i32(nd_load_32(((unsigned char *)((uintptr_t)v1 + 28))), v326);
    v392 = 1;
    v393 = v381;
    v394 = v384;
    v395 = v387;
    goto L81;
L80:;
    v388 = nd_usub_sat_i32(v381, 1U);
    v392 = 0;
    v393 = v388;
    v394 = nd_load_32(((unsigned char *)((uintptr_t)v1 + 8)));
    v395 = nd_load_32(v1);
L81:;
    nd_store_8(v15, 0);
    nd_store_8(((unsigned char *)((uintptr_t)v1 + 17)), v392);
    nd_store_16(((unsigned char *)((uintptr_t)v1 + 18)), 0);
    nd_store_32(v380, v393);
    nd_store_32(((unsigned char *)((uintptr_t)v1 + 24)), v394);
    nd_store_32(((unsigned char *)((uintptr_t)v1 + 28)), v395);
    nd_store_8(((unsigned char *)((uintptr_t)v1 + 32)), nd_load_8(((unsigned char *)((uintptr_t)v1 + 12))));
    nd_store_8(((unsigned char *)((uintptr_t)v1 + 33)), 0);
    nd_store_8(((unsigned char *)((uintptr_t)v1 + 34)), v392);
    nd_store_8(((unsigned char *)((uintptr_t)v1 + 35)), (uint8_t)(v394 == 1U));
    nd_store_8(((unsigned char *)((uintptr_t)v1 + 36)), (uint8_t)(v393 == 1U));
    nd_memset(((unsigned char *)((uintptr_t)v1 + 37)), 0, 3);
    nd_store_32(((unsigned char *)((uintptr_t)v1 + 40)), v395);
    nd_memset(((unsigned char *)((uintptr_t)v1 + 44)), 0, 36);
    nd_store_32(v16, (v331 ? 0U : (uint32_t)(uint8_t)((uint32_t)v321 << 2)));
    nd_memset(v318, 0, 20);
    v417 = v345;
L82:;
    v418 = v417;
    goto L84;
L83:;
    nd_stop();
L84:;
    nd_store_64(v13, (v418 + v14));
    return v418;
}

static uint8_t nd_ndef_nest_typed_TypedRecordLanguage_fits(unsigned char *v1, uint64_t v2, uint64_t v3) {
    unsigned char *v9;
    uint64_t v33, v47, v48, v49;
    uint8_t v51, v53, v54;
    ND_ROOM(24) v4;
    ND_ROOM(12) v5;
    if (!(nd_load_8(v1) == 0)) goto L8;
    nd_memset(v4.b, 0, 24);
    v9 = v5.b + 8;
    nd_store_32(v9, 0U);
    nd_store_8(v5.b, nd_load_8(((unsigned char *)((uintptr_t)v1 + 4))));
    nd_store_8((v5.b + 1), nd_load_8(((unsigned char *)((uintptr_t)v1 + 5))));
    nd_store_8((v5.b + 2), nd_load_8(((unsigned char *)((uintptr_t)v1 + 6))));
    nd_store_8((v5.b + 3), nd_load_8(((unsigned char *)((uintptr_t)v1 + 7))));
    nd_store_32((v5.b + 4), nd_load_32(((unsigned char *)((uintptr_t)v1 + 8))));
    nd_store_8(v9, nd_load_8(((unsigned char *)((uintptr_t)v1 + 12))));
    nd_store_8((v5.b + 9), nd_load_8(((unsigned char *)((uintptr_t)v1 + 13))));
    nd_store_8((v5.b + 10), nd_load_8(((unsigned char *)((uintptr_t)v1 + 14))));
    nd_ndef_lang_leaf_Leaf_lengths(v4.b, v5.b);
    v33 = nd_load_64((v4.b + 8));
    switch (nd_load_8(v4.b)) {
    case 0: { v51 = 0; goto L7; }
    case 1: goto L2;
    case 2: goto L3;
    case 3: goto L4;
    case 4: goto L5;
    default: goto L6; }
L2:;
    v51 = (v2 <= v33) & (int)(v33 <= v3);
    goto L7;
L3:;
    v51 = (uint8_t)((v2 <= v3) ? (v33 <= v3) : 0);
    goto L7;
L4:;
    v51 = (uint8_t)((v33 <= v3) ? (v2 <= (v3 - ((v3 - v33) & 1ULL))) : 0);
    goto L7;
L5:;
    v47 = nd_load_64((v4.b + 16));
    v48 = nd_umax_i64(v33, v2);
    v49 = nd_umin_i64(v47, v3);
    v51 = v48 <= v49;
    goto L7;
L6:;
    nd_stop();
L7:;
    v54 = v51;
    goto L9;
L8:;
    v53 = nd_ndef_nest_nest_NestLanguage_fits(((unsigned char *)((uintptr_t)v1 + 8)), v2, v3);
    v54 = v53;
L9:;
    return v54;
}

static void nd_ndef_message_state_State_advance_field(unsigned char *v1, unsigned char *v2, unsigned char *v3, uint8_t v4, uint32_t v5) {
    uint8_t v6, v8, v10, v34, v47;
    unsigned char *v11;
    uint32_t v13, v36, v39, v42, v43, v48, v49, v50;
    ND_ROOM(5) v14, v15;
    v6 = nd_load_8(v3);
    v8 = nd_load_8((v3 + 1));
    v10 = nd_load_8((v3 + 2));
    v11 = v3 + 3;
    v13 = nd_load_32((v3 + 8));
    if (v4 == 0) goto L3;
    goto L2;
L1:;
    return;
L2:;
    nd_memcpy(v14.b, v11, 5);
    nd_store_32(((unsigned char *)((uintptr_t)v1 + 160)), 2U);
    nd_store_8(((unsigned char *)((uintptr_t)v1 + 164)), v6);
    nd_store_8(((unsigned char *)((uintptr_t)v1 + 165)), v8);
    nd_store_8(((unsigned char *)((uintptr_t)v1 + 166)), v10);
    nd_memcpy(((unsigned char *)((uintptr_t)v1 + 167)), v14.b, 5);
    nd_store_32(((unsigned char *)((uintptr_t)v1 + 172)), v13);
    nd_store_8(((unsigned char *)((uintptr_t)v1 + 176)), v4);
    nd_memset(((unsigned char *)((uintptr_t)v1 + 177)), 0, 7);
    goto L1;
L3:;
    if (v5 == 0U) goto L5;
    nd_memcpy(v15.b, v11, 5);
    nd_store_32(((unsigned char *)((uintptr_t)v1 + 160)), 3U);
    nd_store_8(((unsigned char *)((uintptr_t)v1 + 164)), v6);
    nd_store_8(((unsigned char *)((uintptr_t)v1 + 165)), v8);
    nd_store_8(((unsigned char *)((uintptr_t)v1 + 166)), v10);
    nd_memcpy(((unsigned char *)((uintptr_t)v1 + 167)), v15.b, 5);
    nd_store_32(((unsigned char *)((uintptr_t)v1 + 172)), v13);
    nd_store_32(((unsigned char *)((uintptr_t)v1 + 176)), v5);
    nd_store_32(((unsigned char *)((uintptr_t)v1 + 180)), 0U);
    goto L1;
L5:;
    v34 = (uint8_t)(v10 & 1);
    v36 = nd_load_32(((unsigned char *)((uintptr_t)v1 + 4)));
    if (!v34) goto L7;
    v39 = nd_usub_sat_i32(nd_load_32(((unsigned char *)((uintptr_t)v1 + 8))), 1U);
    v42 = nd_usub_sat_i32(nd_load_32(((unsigned char *)((uintptr_t)v1 + 12))), v13);
    v47 = 1;
    v48 = v36;
    v49 = v39;
    v50 = v42;
    goto L8;
L7:;
    v43 = nd_usub_sat_i32(v36, 1U);
    v47 = 0;
    v48 = v43;
    v49 = nd_load_32(((unsigned char *)((uintptr_t)v2 + 8)));
    v50 = nd_load_32(v2);
L8:;
    nd_store_8(v1, 0);
    nd_store_8((v1 + 1), v47);
    nd_store_16((v1 + 2), 0);
    nd_store_32((v1 + 4), v48);
    nd_store_32((v1 + 8), v49);
    nd_store_32((v1 + 12), v50);
    nd_store_8(((unsigned char *)((uintptr_t)v1 + 16)), nd_load_8(((unsigned char *)((uintptr_t)v2 + 12))));
    nd_store_8(((unsigned char *)((uintptr_t)v1 + 17)), 0);
    nd_store_8(((unsigned char *)((uintptr_t)v1 + 18)), v47);
    nd_store_8(((unsigned char *)((uintptr_t)v1 + 19)), (uint8_t)(v49 == 1U));
    nd_store_8(((unsigned char *)((uintptr_t)v1 + 20)), (uint8_t)(v48 == 1U));
    nd_memset(((unsigned char *)((uintptr_t)v1 + 21)), 0, 3);
    nd_store_32(((unsigned char *)((uintptr_t)v1 + 24)), v50);
    nd_memset(((unsigned char *)((uintptr_t)v1 + 28)), 0, 36);
    nd_store_32(((unsigned char *)((uintptr_t)v1 + 160)), (v34 ? 0U : (uint32_t)(uint8_t)((uint32_t)v8 << 2)));
    nd_memset(((unsigned char *)((uintptr_t)v1 + 164)), 0, 20);
    goto L1;
}

static uint32_t nd_ndef_c_checking_check_in(unsigned char *v1, uint64_t v2, unsigned char *v3, unsigned char *v4) {
    uint32_t v7, v49, v50, v97, v103, v104, v105;
    uint64_t v9, v21, v52, v59, v60, v62, v64, v66, v67, v95, v98, v100, v102;
    uint8_t v11, v14, v61, v72;
    unsigned char *v12, *v19, *v20, *v51, *v93;
    ND_ROOM(24) v5;
    ND_ROOM(16) v6;
    v7 = nd_load_32(v3);
    v9 = nd_load_64((v3 + 4));
    v11 = nd_load_8((v3 + 12));
    v12 = v3 + 13;
    nd_memset(v5.b, 0, 24);
    if (v2 == 0ULL) goto L22;
    v14 = nd_load_8(v1);
    if ((v2 == 1ULL) | (int)((uint8_t)(v14 & 64) == 0)) goto L22;
    v19 = (unsigned char *)((uintptr_t)v1 + 1);
    v20 = (unsigned char *)((uintptr_t)v1 + 2);
    v21 = v2 + 18446744073709551614ULL;
    if ((uint8_t)(v14 & 16) == 0) goto L5;
    if (v21 == 0ULL) goto L22;
    v50 = (uint32_t)nd_load_8(v20);
    v51 = (unsigned char *)((uintptr_t)v1 + 3);
    v52 = v2 + 18446744073709551613ULL;
    goto L7;
L5:;
    if (v21 < 4ULL) goto L22;
    v49 = nd_bswap_i32((((((uint32_t)nd_load_8(((unsigned char *)((uintptr_t)v1 + 3))) << 8) | (uint32_t)nd_load_8(v20)) | ((uint32_t)nd_load_8(((unsigned char *)((uintptr_t)v1 + 4))) << 16)) | ((uint32_t)nd_load_8(((unsigned char *)((uintptr_t)v1 + 5))) << 24)));
    v50 = v49;
    v51 = (unsigned char *)((uintptr_t)v1 + 6);
    v52 = v2 + 18446744073709551610ULL;
L7:;
    if ((uint8_t)(v14 & 8) == 0) { v59 = 0ULL; v60 = v52; goto L10; }
    if (v52 == 0ULL) goto L22;
    v59 = (uint64_t)nd_load_8(v51);
    v60 = v52 + 18446744073709551615ULL;
L10:;
    v61 = nd_load_8(v19);
    v62 = (uint64_t)v61;
    if (v60 < v62) goto L22;
    v64 = v60 - v62;
    if (v64 < v59) goto L22;
    v66 = v64 - v59;
    v67 = (uint64_t)v50;
    if (!(((uint8_t)(v14 & 32) == 0) & (int)(v66 >= v67))) goto L22;
    v72 = (uint8_t)(v14 & 7);
    if (((int8_t)v14 > (int8_t)255) | (int)(v50 > v7)) goto L22;
    if (v72 == 0) goto L20;
    if (!(v72 < 5)) goto L17;
    if (v61 == 0) goto L22;
    goto L21;
L17:;
    switch (v72) {
    case 7: goto L19;
    case 5: goto L18;
    default: goto L22; }
L18:;
    if (v61 == 0) goto L21;
    goto L22;
L19:;
    if ((v11 == 1) & (int)(v61 == 0)) goto L21;
    goto L22;
L20:;
    if (!(((v59 | v67) | v62) == 0ULL)) goto L22;
L21:;
    v97 = 1U;
    v98 = (v2 + v67) - v66;
    goto L24;
L22:;
    nd_store_32(v6.b, v7);
    nd_store_64((v6.b + 4), v9);
    nd_store_8((v6.b + 12), v11);
    nd_memcpy((v6.b + 13), v12, 3);
    nd_ndef_message_judging_judge_2(v5.b, v6.b, v1, v2);
    v93 = v5.b + 8;
    v95 = nd_load_64((v5.b + 16));
    if (!(nd_load_8(v5.b) == 0)) goto L25;
    v97 = nd_load_32(v93);
    v98 = v95;
L24:;
    v102 = v98;
    v103 = v97;
    v104 = 0U;
    v105 = 0U;
    goto L51;
L25:;
    v100 = (uint64_t)(uintptr_t)nd_load_ptr(v93);
    switch ((uint8_t)v95) {
    case 0: { v102 = v100; v103 = 0U; v104 = 1U; v105 = 1U; goto L51; }
    case 1: goto L26;
    case 2: goto L27;
    case 3: goto L28;
    case 4: goto L29;
    case 5: goto L30;
    case 6: goto L31;
    case 7: goto L32;
    case 8: goto L33;
    case 9: goto L34;
    case 10: goto L35;
    case 11: goto L36;
    case 12: goto L37;
    case 13: goto L38;
    case 14: goto L39;
    case 15: goto L40;
    case 16: goto L41;
    case 17: goto L42;
    case 18: goto L43;
    case 19: goto L44;
    case 20: goto L45;
    case 21: goto L46;
    case 22: goto L47;
    case 23: goto L48;
    case 24: goto L49;
    default: goto L50; }
L26:;
    v102 = v100;
    v103 = 0U;
    v104 = 2U;
    v105 = 1U;
    goto L51;
L27:;
    v102 = v100;
    v103 = 0U;
    v104 = 3U;
    v105 = 1U;
    goto L51;
L28:;
    v102 = v100;
    v103 = 0U;
    v104 = 4U;
    v105 = 1U;
    goto L51;
L29:;
    v102 = v100;
    v103 = 0U;
    v104 = 5U;
    v105 = 1U;
    goto L51;
L30:;
    v102 = v100;
    v103 = 0U;
    v104 = 6U;
    v105 = 1U;
    goto L51;
L31:;
    v102 = v100;
    v103 = 0U;
    v104 = 7U;
    v105 = 1U;
    goto L51;
L32:;
    v102 = v100;
    v103 = 0U;
    v104 = 8U;
    v105 = 1U;
    goto L51;
L33:;
    v102 = v100;
    v103 = 0U;
    v104 = 9U;
    v105 = 1U;
    goto L51;
L34:;
    v102 = v100;
    v103 = 0U;
    v104 = 10U;
    v105 = 1U;
    goto L51;
L35:;
    v102 = v100;
    v103 = 0U;
    v104 = 11U;
    v105 = 1U;
    goto L51;
L36:;
    v102 = v100;
    v103 = 0U;
    v104 = 12U;
    v105 = 1U;
    goto L51;
L37:;
    v102 = v100;
    v103 = 0U;
    v104 = 13U;
    v105 = 1U;
    goto L51;
L38:;
    v102 = v100;
    v103 = 0U;
    v104 = 14U;
    v105 = 1U;
    goto L51;
L39:;
    v102 = v100;
    v103 = 0U;
    v104 = 15U;
    v105 = 1U;
    goto L51;
L40:;
    v102 = v100;
    v103 = 0U;
    v104 = 16U;
    v105 = 1U;
    goto L51;
L41:;
    v102 = v100;
    v103 = 0U;
    v104 = 17U;
    v105 = 1U;
    goto L51;
L42:;
    v102 = v100;
    v103 = 0U;
    v104 = 18U;
    v105 = 1U;
    goto L51;
L43:;
    v102 = v100;
    v103 = 0U;
    v104 = 19U;
    v105 = 1U;
    goto L51;
L44:;
    v102 = v100;
    v103 = 0U;
    v104 = 20U;
    v105 = 1U;
    goto L51;
L45:;
    v102 = v100;
    v103 = 0U;
    v104 = 21U;
    v105 = 1U;
    goto L51;
L46:;
    v102 = v100;
    v103 = 0U;
    v104 = 22U;
    v105 = 1U;
    goto L51;
L47:;
    v102 = v100;
    v103 = 0U;
    v104 = 25U;
    v105 = 1U;
    goto L51;
L48:;
    v102 = v100;
    v103 = 0U;
    v104 = 23U;
    v105 = 1U;
    goto L51;
L49:;
    v102 = v100;
    v103 = 0U;
    v104 = 24U;
    v105 = 1U;
    goto L51;
L50:;
    nd_stop();
L51:;
    nd_store_64(v4, v102);
    nd_store_32((v4 + 8), v103);
    nd_store_32((v4 + 12), v104);
    return v105;
}

static void nd_ndef_message_judging_judge_2(unsigned char *v1, unsigned char *v2, unsigned char *v3, uint64_t v4) {
    uint32_t v5, v7, v9, v84, v88, v90;
    uint8_t v11, v15, v16, v17, v18, v19, v22, v24, v27, v67;
    unsigned char *v12, *v46, *v53;
    uint64_t v37, v39, v77, v78, v81, v92;
    ND_ROOM(368) v13;
    ND_ROOM(24) v14;
    v5 = nd_load_32(v2);
    v7 = nd_load_32((v2 + 4));
    v9 = nd_load_32((v2 + 8));
    v11 = nd_load_8((v2 + 12));
    v12 = v2 + 13;
    nd_memset(v14.b, 0, 24);
    v15 = v4 == 0ULL;
    if (v15) goto L10;
    v16 = v9 == 1U;
    v17 = v7 != 1U;
    v18 = nd_load_8(v3);
    v19 = (uint8_t)(v18 & 7);
    v22 = (uint8_t)(v18 & 64) != 0;
    v24 = (uint8_t)(v18 & 32) == 0;
    v27 = (v11 == 0) & (int)(v19 == 7);
    if (((int8_t)v18 > (int8_t)255) | v27) { v39 = (uint64_t)(v27 ^ 1); goto L9; }
    if (v19 == 6) { v39 = 3ULL; goto L9; }
    if ((uint8_t)(v18 & 96) == 96) { v39 = 6ULL; goto L9; }
    if ((uint8_t)(v18 & 39) == 32) { v39 = 7ULL; goto L9; }
    if (v24) goto L7;
    if (v16) { v39 = 8ULL; goto L9; }
    goto L10;
L7:;
    if (v17 | v22) goto L10;
    v39 = 9ULL;
    goto L9;
L8:;
    nd_store_64(((unsigned char *)((uintptr_t)v1 + 16)), v37);
    return;
L9:;
    nd_store_64(v1, 1ULL);
    nd_store_32(((unsigned char *)((uintptr_t)v1 + 8)), 0U);
    nd_store_32(((unsigned char *)((uintptr_t)v1 + 12)), 0U);
    v37 = v39;
    goto L8;
L10:;
    nd_store_32(v13.b, v5);
    v46 = v13.b + 4;
    nd_store_32(v46, v7);
    nd_store_32((v13.b + 8), v9);
    nd_store_8((v13.b + 12), v11);
    nd_memcpy((v13.b + 13), v12, 3);
    nd_store_8((v13.b + 16), 1);
    nd_store_8((v13.b + 17), 0);
    nd_store_16((v13.b + 18), 0);
    v53 = v13.b + 20;
    nd_store_32(v53, v7);
    nd_store_32((v13.b + 24), v9);
    nd_store_32((v13.b + 28), v5);
    nd_store_8((v13.b + 32), v11);
    nd_store_8((v13.b + 33), 1);
    nd_store_8((v13.b + 34), 0);
    nd_store_8((v13.b + 35), (uint8_t)(v9 == 1U));
    nd_store_8((v13.b + 36), (uint8_t)(v7 == 1U));
    nd_memset((v13.b + 37), 0, 3);
    nd_store_32((v13.b + 40), v5);
    nd_memset((v13.b + 44), 0, 324);
    if (v15) { v67 = 0; goto L12; }
    v67 = (uint8_t)(nd_load_8(v3) & 64) != 0;
L12:;
    nd_ndef_message_checker_Checker_feed_tried_2(v14.b, v13.b, v3, v4, v67);
    switch (nd_load_8(v14.b)) {
    case 0: goto L13;
    case 1: goto L19;
    case 2: goto L20;
    default: goto L21; }
L13:;
    switch (nd_load_8((v13.b + 80))) {
    case 4: goto L17;
    case 5: goto L14;
    case 0: goto L15;
    case 1: goto L15;
    case 2: goto L15;
    case 3: goto L15;
    default: goto L16; }
L14:;
    v77 = nd_load_64((v13.b + 88));
    v78 = nd_load_64((v13.b + 96));
    goto L18;
L15:;
    v77 = nd_load_64((v13.b + 360));
    v78 = 24ULL;
    goto L18;
L16:;
    nd_stop();
L17:;
    nd_stop();
L18:;
    nd_store_64(v1, 1ULL);
    nd_store_64(((unsigned char *)((uintptr_t)v1 + 8)), v77);
    v37 = v78;
    goto L8;
L19:;
    v81 = nd_load_64((v14.b + 8));
    v84 = nd_usub_sat_i32(nd_load_32(v46), nd_load_32(v53));
    nd_store_64(v1, 0ULL);
    nd_store_32(((unsigned char *)((uintptr_t)v1 + 8)), v84);
    nd_store_32(((unsigned char *)((uintptr_t)v1 + 12)), 0U);
    v37 = v81;
    goto L8;
L20:;
    v88 = nd_load_32((v14.b + 8));
    v90 = nd_load_32((v14.b + 12));
    v92 = nd_load_64((v14.b + 16));
    nd_store_64(v1, 1ULL);
    nd_store_32(((unsigned char *)((uintptr_t)v1 + 8)), v88);
    nd_store_32(((unsigned char *)((uintptr_t)v1 + 12)), v90);
    v37 = v92;
    goto L8;
L21:;
    nd_stop();
}

static void nd_ndef_message_checker_Checker_feed_tried_2(unsigned char *v1, unsigned char *v2, unsigned char *v3, uint64_t v4, uint8_t v5) {
    unsigned char *v9, *v10, *v11, *v12, *v13, *v14, *v15, *v16, *v17, *v18, *v19, *v20, *v21, *v22, *v23, *v24, *v25, *v26, *v27, *v28, *v29, *v30, *v31, *v32, *v33, *v34, *v35, *v48, *v67, *v74, *v75, *v107, *v117, *v122, *v129;
    uint8_t v36, v38, v61, v68, v77, v119, v134, v135, v138, v139, v140, v142, v161, v179, v196, v198, v203, v218;
    uint64_t v37, v43, v44, v45, v49, v64, v66, v73, v76, v108, v116, v118, v120, v123, v125, v126, v130, v131, v156, v182, v189, v191, v197, v213, v217, v219, v220, v228, v229, v230;
    uint32_t v57, v58, v59, v70, v71, v72, v105, v106, v157, v158, v159, v174, v175, v183, v184, v185, v186, v187, v188, v192, v193, v194, v200, v201, v202, v210;
    uint16_t v60, v69, v195, v199;
    ND_ROOM(16) v6;
    ND_ROOM(24) v7;
    if (v4 == 0ULL) goto L51;
    v9 = (unsigned char *)((uintptr_t)v2 + 80);
    v10 = (unsigned char *)((uintptr_t)v2 + 16);
    v11 = (unsigned char *)((uintptr_t)v2 + 17);
    v12 = (unsigned char *)((uintptr_t)v2 + 56);
    v13 = (unsigned char *)((uintptr_t)v2 + 18);
    v14 = (unsigned char *)((uintptr_t)v2 + 20);
    v15 = (unsigned char *)((uintptr_t)v2 + 24);
    v16 = (unsigned char *)((uintptr_t)v2 + 28);
    v17 = (unsigned char *)((uintptr_t)v2 + 12);
    v18 = v6.b + 1;
    v19 = v6.b + 2;
    v20 = v6.b + 4;
    v21 = v6.b + 8;
    v22 = v6.b + 12;
    v23 = v7.b + 8;
    v24 = v7.b + 16;
    v25 = (unsigned char *)((uintptr_t)v2 + 8);
    v26 = (unsigned char *)((uintptr_t)v2 + 32);
    v27 = (unsigned char *)((uintptr_t)v2 + 33);
    v28 = (unsigned char *)((uintptr_t)v2 + 34);
    v29 = (unsigned char *)((uintptr_t)v2 + 35);
    v30 = (unsigned char *)((uintptr_t)v2 + 36);
    v31 = (unsigned char *)((uintptr_t)v2 + 37);
    v32 = (unsigned char *)((uintptr_t)v2 + 40);
    v33 = (unsigned char *)((uintptr_t)v2 + 44);
    v34 = (unsigned char *)((uintptr_t)v2 + 84);
    v35 = (unsigned char *)((uintptr_t)v2 + 360);
    v36 = v5;
    v37 = 0ULL;
L2:;
    v38 = nd_load_8(v9);
    switch (v38) {
    case 4: { v43 = 1ULL; v44 = v37; v45 = 0ULL; goto L5; }
    case 5: goto L3;
    case 0: goto L6;
    case 1: goto L6;
    case 2: goto L6;
    case 3: goto L6;
    default: goto L4; }
L3:;
    v43 = 2ULL;
    v44 = nd_load_64(((unsigned char *)((uintptr_t)v2 + 88)));
    v45 = nd_load_64(((unsigned char *)((uintptr_t)v2 + 96)));
    goto L5;
L4:;
    nd_stop();
L5:;
    nd_store_64(v1, v43);
    nd_store_64(((unsigned char *)((uintptr_t)v1 + 8)), v44);
    nd_store_64(((unsigned char *)((uintptr_t)v1 + 16)), v45);
    return;
L6:;
    v48 = (unsigned char *)((uintptr_t)v3 + (uintptr_t)v37);
    v49 = v4 - v37;
    if (v36) goto L49;
    if ((uint8_t)(nd_load_8(v11) & 1)) goto L48;
    if (!(v38 == 0)) goto L49;
    if ((nd_load_64(v12) != 0ULL) | (int)(v49 == 0ULL)) goto L49;
    v57 = nd_load_32(v16);
    v58 = nd_load_32(v15);
    v59 = nd_load_32(v14);
    v60 = nd_load_16(v13);
    v61 = nd_load_8(v10);
    nd_memset(v7.b, 0, 24);
    if (v49 == 1ULL) { v191 = 0ULL; v192 = v57; v193 = v58; v194 = v59; v195 = v60; v196 = v61; goto L42; }
    v66 = v49;
    v67 = v48;
    v68 = v61;
    v69 = v60;
    v70 = v59;
    v71 = v58;
    v72 = v57;
    v73 = 0ULL;
    goto L12;
L11:;
    v64 = v49 - v189;
    nd_memset(v7.b, 0, 24);
    if (v64 < 2ULL) { v191 = v189; v192 = v188; v193 = v187; v194 = v186; v195 = 0; v196 = 0; goto L42; }
    v66 = v64;
    v67 = (unsigned char *)((uintptr_t)v48 + (uintptr_t)v189);
    v68 = 0;
    v69 = 0;
    v70 = v186;
    v71 = v187;
    v72 = v188;
    v73 = v189;
L12:;
    v74 = (unsigned char *)((uintptr_t)v67 + 1);
    v75 = (unsigned char *)((uintptr_t)v67 + 2);
    v76 = v66 + 18446744073709551614ULL;
    v77 = nd_load_8(v67);
    if ((uint8_t)(v77 & 16) == 0) goto L15;
    if (v76 == 0ULL) { v191 = v73; v192 = v72; v193 = v71; v194 = v70; v195 = v69; v196 = v68; goto L42; }
    v106 = (uint32_t)nd_load_8(v75);
    v107 = (unsigned char *)((uintptr_t)v67 + 3);
    v108 = v66 + 18446744073709551613ULL;
    goto L17;
L15:;
    if (v76 < 4ULL) { v191 = v73; v192 = v72; v193 = v71; v194 = v70; v195 = v69; v196 = v68; goto L42; }
    v105 = nd_bswap_i32((((((uint32_t)nd_load_8(((unsigned char *)((uintptr_t)v67 + 3))) << 8) | (uint32_t)nd_load_8(v75)) | ((uint32_t)nd_load_8(((unsigned char *)((uintptr_t)v67 + 4))) << 16)) | ((uint32_t)nd_load_8(((unsigned char *)((uintptr_t)v67 + 5))) << 24)));
    v106 = v105;
    v107 = (unsigned char *)((uintptr_t)v67 + 6);
    v108 = v66 + 18446744073709551610ULL;
L17:;
    if ((uint8_t)(v77 & 8) == 0) { v116 = 0ULL; v117 = v107; v118 = v108; goto L20; }
    if (v108 == 0ULL) { v191 = v73; v192 = v72; v193 = v71; v194 = v70; v195 = v69; v196 = v68; goto L42; }
    v116 = (uint64_t)nd_load_8(v107);
    v117 = (unsigned char *)((uintptr_t)v107 + 1);
    v118 = v108 + 18446744073709551615ULL;
L20:;
    v119 = nd_load_8(v74);
    v120 = (uint64_t)v119;
    if (v118 < v120) { v191 = v73; v192 = v72; v193 = v71; v194 = v70; v195 = v69; v196 = v68; goto L42; }
    v122 = (unsigned char *)((uintptr_t)v117 + (uintptr_t)v120);
    v123 = v118 - v120;
    if (v123 < v116) { v191 = v73; v192 = v72; v193 = v71; v194 = v70; v195 = v69; v196 = v68; goto L42; }
    v125 = v123 - v116;
    v126 = (uint64_t)v106;
    if (v125 < v126) { v191 = v73; v192 = v72; v193 = v71; v194 = v70; v195 = v69; v196 = v68; goto L42; }
    v129 = (unsigned char *)((uintptr_t)((unsigned char *)((uintptr_t)v122 + (uintptr_t)v116)) + (uintptr_t)v126);
    v130 = v125 - v126;
    v131 = v66 - v130;
    v134 = nd_load_8(v17);
    v135 = (uint8_t)(v77 & 64);
    v138 = ((int8_t)v77 < (int8_t)0) ^ (int)(uint8_t)(v68 & 1);
    v139 = v106 > v72;
    if (!((uint8_t)(v77 & 32) == 0)) goto L33;
    v140 = (uint8_t)(v77 & 7);
    v142 = v135 == 0;
    if ((uint8_t)(((v70 == 1U) & v142) ? 1 : v138) | v139) { v191 = v73; v192 = v72; v193 = v71; v194 = v70; v195 = v69; v196 = v68; goto L42; }
    if (v140 == 0) goto L31;
    if (!(v140 < 5)) goto L28;
    if (v119 == 0) { v191 = v73; v192 = v72; v193 = v71; v194 = v70; v195 = v69; v196 = v68; goto L42; }
    goto L32;
L28:;
    switch (v140) {
    case 7: goto L30;
    case 5: goto L29;
    default: { v191 = v73; v192 = v72; v193 = v71; v194 = v70; v195 = v69; v196 = v68; goto L42; } }
L29:;
    if (v119 == 0) goto L32;
    v191 = v73;
    v192 = v72;
    v193 = v71;
    v194 = v70;
    v195 = v69;
    v196 = v68;
    goto L42;
L30:;
    if ((v119 == 0) & (int)(v134 == 1)) goto L32;
    v191 = v73;
    v192 = v72;
    v193 = v71;
    v194 = v70;
    v195 = v69;
    v196 = v68;
    goto L42;
L31:;
    if (!(((v116 | v126) | v120) == 0ULL)) { v191 = v73; v192 = v72; v193 = v71; v194 = v70; v195 = v69; v196 = v68; goto L42; }
L32:;
    v156 = v131 + v73;
    v157 = nd_usub_sat_i32(v70, 1U);
    v158 = nd_load_32(v25);
    v159 = nd_load_32(v2);
    if (v142) { v186 = v157; v187 = v158; v188 = v159; v189 = v156; goto L41; }
    v197 = v156;
    v198 = 0;
    v199 = 0;
    v200 = v157;
    v201 = v158;
    v202 = v159;
    v203 = 1;
    goto L43;
L33:;
    v161 = (uint8_t)(v77 & 7);
    if (((v161 == 0) | (int)(uint8_t)(((v71 == 1U) | (int)(v135 != 0)) ? 1 : v138)) | v139) { v191 = v73; v192 = v72; v193 = v71; v194 = v70; v195 = v69; v196 = v68; goto L42; }
    if (!(v161 < 5)) goto L36;
    if (v119 == 0) { v191 = v73; v192 = v72; v193 = v71; v194 = v70; v195 = v69; v196 = v68; goto L42; }
    goto L39;
L36:;
    switch (v161) {
    case 7: goto L37;
    case 5: goto L38;
    default: { v191 = v73; v192 = v72; v193 = v71; v194 = v70; v195 = v69; v196 = v68; goto L42; } }
L37:;
    if ((v119 == 0) & (int)(v134 == 1)) goto L39;
    v191 = v73;
    v192 = v72;
    v193 = v71;
    v194 = v70;
    v195 = v69;
    v196 = v68;
    goto L42;
L38:;
    if (!(v119 == 0)) { v191 = v73; v192 = v72; v193 = v71; v194 = v70; v195 = v69; v196 = v68; goto L42; }
L39:;
    v174 = nd_usub_sat_i32(v71, 1U);
    v175 = nd_usub_sat_i32(v72, v106);
    nd_store_8(v6.b, 0);
    nd_store_8(v18, 1);
    nd_store_16(v19, 0);
    nd_store_32(v20, v70);
    nd_store_32(v21, v174);
    nd_store_32(v22, v175);
    nd_ndef_message_accepted_accepted_run(v7.b, v2, v6.b, v129, v130);
    if (!(nd_load_8(v7.b) == 1)) { v191 = v73; v192 = v72; v193 = v71; v194 = v70; v195 = v69; v196 = v68; goto L42; }
    v179 = nd_load_8(v24);
    v182 = (v131 + v73) + nd_load_64(v23);
    v183 = nd_usub_sat_i32(v70, 1U);
    v184 = nd_load_32(v25);
    v185 = nd_load_32(v2);
    if ((uint8_t)(v179 & 1)) { v197 = v182; v198 = 0; v199 = 0; v200 = v183; v201 = v184; v202 = v185; v203 = 1; goto L43; }
    v186 = v183;
    v187 = v184;
    v188 = v185;
    v189 = v182;
L41:;
    if (v189 < v49) goto L11;
    v197 = v189;
    v198 = 0;
    v199 = 0;
    v200 = v186;
    v201 = v187;
    v202 = v188;
    v203 = 0;
    goto L43;
L42:;
    v197 = v191;
    v198 = v196;
    v199 = v195;
    v200 = v194;
    v201 = v193;
    v202 = v192;
    v203 = 0;
L43:;
    if (v197 == 0ULL) goto L49;
    nd_store_8(v10, v198);
    nd_store_8(v11, 0);
    nd_store_16(v13, v199);
    nd_store_32(v14, v200);
    nd_store_32(v15, v201);
    nd_store_32(v16, v202);
    if (!v203) goto L46;
    nd_memset(v34, 0, 20);
    v210 = 4U;
    goto L47;
L46:;
    nd_store_8(v26, nd_load_8(v17));
    nd_store_8(v27, v198);
    nd_store_8(v28, 0);
    nd_store_8(v29, (uint8_t)(v201 == 1U));
    nd_store_8(v30, (uint8_t)(v200 == 1U));
    nd_memset(v31, 0, 3);
    nd_store_32(v32, v202);
    nd_memset(v34, 0, 20);
    nd_memset(v33, 0, 36);
    v210 = 0U;
L47:;
    nd_store_32(v9, v210);
    nd_store_64(v35, (nd_load_64(v35) + v197));
    v218 = 1;
    v219 = v197;
    goto L50;
L48:;
    v213 = nd_ndef_message_state_State_take_chunks_2(v10, v2, v48, v49);
    nd_store_64(v35, (nd_load_64(v35) + v213));
    if (!(v213 == 0ULL)) { v218 = 1; v219 = v213; goto L50; }
L49:;
    v217 = nd_ndef_message_checker_Checker_step_2(v2, v48, v49);
    v218 = 0;
    v219 = v217;
L50:;
    v220 = v219 + v37;
    if (v220 < v4) { v36 = v218; v37 = v220; goto L2; }
L51:;
    switch (nd_load_8(((unsigned char *)((uintptr_t)v2 + 80)))) {
    case 4: { v228 = 1ULL; v229 = v4; v230 = 0ULL; goto L54; }
    case 5: goto L52;
    case 0: { v43 = 0ULL; v44 = 0ULL; v45 = 0ULL; goto L5; }
    case 1: { v43 = 0ULL; v44 = 0ULL; v45 = 0ULL; goto L5; }
    case 2: { v43 = 0ULL; v44 = 0ULL; v45 = 0ULL; goto L5; }
    case 3: { v43 = 0ULL; v44 = 0ULL; v45 = 0ULL; goto L5; }
    default: goto L53; }
L52:;
    v228 = 2ULL;
    v229 = nd_load_64(((unsigned char *)((uintptr_t)v2 + 88)));
    v230 = nd_load_64(((unsigned char *)((uintptr_t)v2 + 96)));
    goto L54;
L53:;
    nd_stop();
L54:;
    v43 = v228;
    v44 = v229;
    v45 = v230;
    goto L5;
}

static uint64_t nd_ndef_message_state_State_take_chunks_2(unsigned char *v1, unsigned char *v2, unsigned char *v3, uint64_t v4) {
    unsigned char *v10;
    uint64_t v16, v17;
    uint32_t v20, v23, v25;
    uint16_t v27;
    uint8_t v29, v30;
    ND_ROOM(24) v5;
    ND_ROOM(16) v6;
    nd_memset(v5.b, 0, 24);
    if (!(nd_load_8(((unsigned char *)((uintptr_t)v1 + 64))) == 0)) { v16 = 0ULL; goto L3; }
    v10 = (unsigned char *)((uintptr_t)v1 + 1);
    if (!(uint8_t)(nd_load_8(v10) & 1)) { v16 = 0ULL; goto L3; }
    if (nd_load_64(((unsigned char *)((uintptr_t)v1 + 40))) == 0ULL) goto L4;
    v16 = 0ULL;
L3:;
    return v16;
L4:;
    nd_memcpy(v6.b, v1, 16);
    nd_ndef_message_accepted_accepted_chunks(v5.b, v6.b, v3, v4);
    v17 = nd_load_64(v5.b);
    if (v17 == 0ULL) { v16 = 0ULL; goto L3; }
    v20 = nd_load_32((v5.b + 20));
    v23 = nd_load_32((v5.b + 16));
    v25 = nd_load_32((v5.b + 12));
    v27 = nd_load_16((v5.b + 10));
    v29 = nd_load_8((v5.b + 9));
    v30 = nd_load_8((v5.b + 8));
    nd_store_8(v1, v30);
    nd_store_8(v10, v29);
    nd_store_16((v1 + 2), v27);
    nd_store_32((v1 + 4), v25);
    nd_store_32((v1 + 8), v23);
    nd_store_32((v1 + 12), v20);
    nd_store_8(((unsigned char *)((uintptr_t)v1 + 16)), nd_load_8(((unsigned char *)((uintptr_t)v2 + 12))));
    nd_store_8(((unsigned char *)((uintptr_t)v1 + 17)), v30);
    nd_store_8(((unsigned char *)((uintptr_t)v1 + 18)), v29);
    nd_store_8(((unsigned char *)((uintptr_t)v1 + 19)), (uint8_t)(v23 == 1U));
    nd_store_8(((unsigned char *)((uintptr_t)v1 + 20)), (uint8_t)(v25 == 1U));
    nd_memset(((unsigned char *)((uintptr_t)v1 + 21)), 0, 3);
    nd_store_32(((unsigned char *)((uintptr_t)v1 + 24)), v20);
    nd_memset(((unsigned char *)((uintptr_t)v1 + 28)), 0, 36);
    v16 = v17;
    goto L3;
}

static uint64_t nd_ndef_message_checker_Checker_step_2(unsigned char *v1, unsigned char *v2, uint64_t v3) {
    unsigned char *v11, *v13, *v14, *v16, *v25, *v30, *v59, *v65, *v70, *v74, *v124, *v127, *v142, *v154, *v214, *v218, *v220, *v254, *v261, *v270, *v278, *v284;
    uint64_t v12, v29, v106, v111, v113, v216, v217, v223, v230, v249, v264, v310;
    uint8_t v20, v22, v24, v38, v50, v51, v71, v96, v104, v123, v131, v141, v151, v180, v193, v201, v203, v205, v207, v209, v211, v215, v222, v229, v247, v256, v258, v265, v268, v285;
    uint32_t v27, v60, v63, v67, v72, v73, v75, v126, v143, v146, v148, v152, v153, v155, v213, v260, v262, v266, v267, v271, v274, v277, v280, v286, v287, v288;
    uint16_t v121, v199;
    ND_ROOM(12) v4, v5, v6, v9;
    ND_ROOM(48) v7;
    ND_ROOM(16) v8;
    ND_ROOM(32) v10;
    v11 = (unsigned char *)((uintptr_t)v1 + 360);
    v12 = nd_load_64(v11);
    v13 = (unsigned char *)((uintptr_t)v1 + 16);
    v14 = (unsigned char *)((uintptr_t)v1 + 80);
    switch (nd_load_8(v14)) {
    case 0: goto L1;
    case 1: goto L36;
    case 2: goto L42;
    case 3: goto L43;
    case 4: { v310 = 1ULL; goto L51; }
    case 5: { v310 = 1ULL; goto L51; }
    default: goto L50; }
L1:;
    nd_memset(v10.b, 0, 32);
    v16 = (unsigned char *)((uintptr_t)v1 + 32);
    nd_ndef_piece_head_reader_HeadReader_whole_head(v10.b, v16, v2, v3);
    if (!(nd_load_8(v10.b) == 1)) goto L15;
    v20 = nd_load_8((v10.b + 8));
    v22 = nd_load_8((v10.b + 9));
    v24 = nd_load_8((v10.b + 10));
    v25 = v10.b + 11;
    v27 = nd_load_32((v10.b + 16));
    v29 = nd_load_64((v10.b + 24));
    v30 = (unsigned char *)((uintptr_t)v1 + 17);
    if ((uint8_t)(nd_load_8(v30) & 1)) goto L7;
    nd_store_8(v9.b, v20);
    nd_store_8((v9.b + 1), v22);
    nd_store_8((v9.b + 2), v24);
    nd_memcpy((v9.b + 3), v25, 5);
    nd_store_32((v9.b + 8), v27);
    v38 = nd_load_8((v9.b + 5));
    if (v38 == 0) goto L5;
    nd_store_8(((unsigned char *)((uintptr_t)v1 + 359)), 0);
    nd_store_32(v14, 1U);
    nd_memcpy(((unsigned char *)((uintptr_t)v1 + 84)), v9.b, 12);
    nd_store_8(((unsigned char *)((uintptr_t)v1 + 96)), v38);
    nd_memset(((unsigned char *)((uintptr_t)v1 + 97)), 0, 7);
    goto L6;
L5:;
    nd_ndef_message_state_State_advance_field_2(v13, v1, v9.b, (uint8_t)((nd_load_8((v9.b + 6)) == 1) ? nd_load_8((v9.b + 7)) : 0), v27);
L6:;
    goto L14;
L7:;
    v50 = (uint8_t)(v24 & 1);
    v51 = v27 == 0U;
    if (!v50) goto L9;
    if (v51) goto L11;
    goto L10;
L9:;
    if (v51) goto L12;
L10:;
    nd_store_32(v14, 3U);
    nd_store_8(((unsigned char *)((uintptr_t)v1 + 84)), v20);
    nd_store_8(((unsigned char *)((uintptr_t)v1 + 85)), v22);
    nd_store_8(((unsigned char *)((uintptr_t)v1 + 86)), v24);
    nd_memcpy(((unsigned char *)((uintptr_t)v1 + 87)), v25, 5);
    nd_store_32(((unsigned char *)((uintptr_t)v1 + 92)), v27);
    nd_store_32(((unsigned char *)((uintptr_t)v1 + 96)), v27);
    nd_store_32(((unsigned char *)((uintptr_t)v1 + 100)), 0U);
    goto L14;
L11:;
    v59 = (unsigned char *)((uintptr_t)v1 + 20);
    v60 = nd_load_32(v59);
    v63 = nd_usub_sat_i32(nd_load_32(((unsigned char *)((uintptr_t)v1 + 24))), 1U);
    v70 = v59;
    v71 = 1;
    v72 = v60;
    v73 = v63;
    v74 = (unsigned char *)((uintptr_t)v1 + 28);
    goto L13;
L12:;
    v65 = (unsigned char *)((uintptr_t)v1 + 20);
    v67 = nd_usub_sat_i32(nd_load_32(v65), 1U);
    v70 = v65;
    v71 = 0;
    v72 = v67;
    v73 = nd_load_32(((unsigned char *)((uintptr_t)v1 + 8)));
    v74 = v1;
L13:;
    v75 = nd_load_32(v74);
    nd_store_8(v13, 0);
    nd_store_8(v30, v71);
    nd_store_16(((unsigned char *)((uintptr_t)v1 + 18)), 0);
    nd_store_32(v70, v72);
    nd_store_32(((unsigned char *)((uintptr_t)v1 + 24)), v73);
    nd_store_32(((unsigned char *)((uintptr_t)v1 + 28)), v75);
    nd_store_8(v16, nd_load_8(((unsigned char *)((uintptr_t)v1 + 12))));
    nd_store_8(((unsigned char *)((uintptr_t)v1 + 33)), 0);
    nd_store_8(((unsigned char *)((uintptr_t)v1 + 34)), v71);
    nd_store_8(((unsigned char *)((uintptr_t)v1 + 35)), (uint8_t)(v73 == 1U));
    nd_store_8(((unsigned char *)((uintptr_t)v1 + 36)), (uint8_t)(v72 == 1U));
    nd_memset(((unsigned char *)((uintptr_t)v1 + 37)), 0, 3);
    nd_store_32(((unsigned char *)((uintptr_t)v1 + 40)), v75);
    nd_memset(((unsigned char *)((uintptr_t)v1 + 44)), 0, 36);
    nd_store_32(v14, (v50 ? 0U : (uint32_t)(uint8_t)((uint32_t)v22 << 2)));
    nd_memset(((unsigned char *)((uintptr_t)v1 + 84)), 0, 20);
L14:;
    v310 = v29;
    goto L51;
L15:;
    v96 = nd_load_8(v2);
    nd_memset(v8.b, 0, 16);
    nd_ndef_piece_head_reader_HeadReader_step(v8.b, v16, v96);
    switch (nd_load_8(v8.b)) {
    case 0: goto L16;
    case 1: goto L22;
    case 2: goto L33;
    default: goto L34; }
L16:;
    nd_memset(v7.b, 0, 48);
    if ((uint8_t)(nd_load_8(((unsigned char *)((uintptr_t)v1 + 17))) & 1)) goto L18;
    goto L35;
L18:;
    nd_ndef_piece_head_reader_HeadReader_bounds(v7.b, v16);
    if (nd_load_8(v7.b) == 1) goto L20;
    goto L21;
L20:;
    v104 = nd_load_8((v7.b + 9));
    v106 = nd_load_64((v7.b + 32));
    v111 = (uint64_t)nd_load_32(((unsigned char *)((uintptr_t)v1 + 28)));
    v113 = nd_umin_i64(nd_load_64((v7.b + 40)), v111);
    if (!(v106 > ((uint8_t)(v104 & 1) ? v111 : v113))) goto L35;
L21:;
    nd_store_32(v14, 5U);
    nd_store_32(((unsigned char *)((uintptr_t)v1 + 84)), 0U);
    nd_store_64(((unsigned char *)((uintptr_t)v1 + 88)), v12);
    nd_store_8(((unsigned char *)((uintptr_t)v1 + 96)), 23);
    nd_memset(((unsigned char *)((uintptr_t)v1 + 97)), 0, 7);
    goto L35;
L22:;
    v121 = nd_load_16((v8.b + 4));
    v123 = nd_load_8((v8.b + 6));
    v124 = v8.b + 7;
    v126 = nd_load_32((v8.b + 12));
    v127 = (unsigned char *)((uintptr_t)v1 + 17);
    if (!(uint8_t)(nd_load_8(v127) & 1)) goto L29;
    v131 = (uint8_t)(uint16_t)(v121 >> 8);
    if (v126 == 0U) goto L25;
    nd_store_32(v14, 3U);
    nd_store_8(((unsigned char *)((uintptr_t)v1 + 84)), (uint8_t)v121);
    nd_store_8(((unsigned char *)((uintptr_t)v1 + 85)), v131);
    nd_store_8(((unsigned char *)((uintptr_t)v1 + 86)), v123);
    nd_memcpy(((unsigned char *)((uintptr_t)v1 + 87)), v124, 5);
    nd_store_32(((unsigned char *)((uintptr_t)v1 + 92)), v126);
    nd_store_32(((unsigned char *)((uintptr_t)v1 + 96)), v126);
    nd_store_32(((unsigned char *)((uintptr_t)v1 + 100)), 0U);
    goto L35;
L25:;
    v141 = (uint8_t)(v123 & 1);
    v142 = (unsigned char *)((uintptr_t)v1 + 20);
    v143 = nd_load_32(v142);
    if (!v141) goto L27;
    v146 = nd_usub_sat_i32(nd_load_32(((unsigned char *)((uintptr_t)v1 + 24))), 1U);
    v151 = 1;
    v152 = v143;
    v153 = v146;
    v154 = (unsigned char *)((uintptr_t)v1 + 28);
    goto L28;
L27:;
    v148 = nd_usub_sat_i32(v143, 1U);
    v151 = 0;
    v152 = v148;
    v153 = nd_load_32(((unsigned char *)((uintptr_t)v1 + 8)));
    v154 = v1;
L28:;
    v155 = nd_load_32(v154);
    nd_store_8(v13, 0);
    nd_store_8(v127, v151);
    nd_store_16(((unsigned char *)((uintptr_t)v1 + 18)), 0);
    nd_store_32(v142, v152);
    nd_store_32(((unsigned char *)((uintptr_t)v1 + 24)), v153);
    nd_store_32(((unsigned char *)((uintptr_t)v1 + 28)), v155);
    nd_store_8(v16, nd_load_8(((unsigned char *)((uintptr_t)v1 + 12))));
    nd_store_8(((unsigned char *)((uintptr_t)v1 + 33)), 0);
    nd_store_8(((unsigned char *)((uintptr_t)v1 + 34)), v151);
    nd_store_8(((unsigned char *)((uintptr_t)v1 + 35)), (uint8_t)(v153 == 1U));
    nd_store_8(((unsigned char *)((uintptr_t)v1 + 36)), (uint8_t)(v152 == 1U));
    nd_memset(((unsigned char *)((uintptr_t)v1 + 37)), 0, 3);
    nd_store_32(((unsigned char *)((uintptr_t)v1 + 40)), v155);
    nd_memset(((unsigned char *)((uintptr_t)v1 + 44)), 0, 36);
    nd_store_32(v14, (v141 ? 0U : (uint32_t)(uint8_t)((uint32_t)v131 << 2)));
    nd_memset(((unsigned char *)((uintptr_t)v1 + 84)), 0, 20);
    goto L35;
L29:;
    nd_store_16(v6.b, v121);
    nd_store_8((v6.b + 2), v123);
    nd_memcpy((v6.b + 3), v124, 5);
    nd_store_32((v6.b + 8), v126);
    v180 = nd_load_8((v6.b + 5));
    if (v180 == 0) goto L31;
    nd_store_8(((unsigned char *)((uintptr_t)v1 + 359)), 0);
    nd_store_32(v14, 1U);
    nd_memcpy(((unsigned char *)((uintptr_t)v1 + 84)), v6.b, 12);
    nd_store_8(((unsigned char *)((uintptr_t)v1 + 96)), v180);
    nd_memset(((unsigned char *)((uintptr_t)v1 + 97)), 0, 7);
    goto L32;
L31:;
    nd_ndef_message_state_State_advance_field_2(v13, v1, v6.b, (uint8_t)((nd_load_8((v6.b + 6)) == 1) ? nd_load_8((v6.b + 7)) : 0), v126);
L32:;
    goto L35;
L33:;
    v193 = nd_load_8((v8.b + 1));
    nd_store_32(v14, 5U);
    nd_store_32(((unsigned char *)((uintptr_t)v1 + 84)), 0U);
    nd_store_64(((unsigned char *)((uintptr_t)v1 + 88)), v12);
    nd_store_8(((unsigned char *)((uintptr_t)v1 + 96)), v193);
    nd_memset(((unsigned char *)((uintptr_t)v1 + 97)), 0, 7);
    goto L35;
L34:;
    nd_stop();
L35:;
    v310 = 1ULL;
    goto L51;
L36:;
    v199 = nd_load_16(((unsigned char *)((uintptr_t)v1 + 84)));
    v201 = nd_load_8(((unsigned char *)((uintptr_t)v1 + 86)));
    v203 = nd_load_8(((unsigned char *)((uintptr_t)v1 + 87)));
    v205 = nd_load_8(((unsigned char *)((uintptr_t)v1 + 88)));
    v207 = nd_load_8(((unsigned char *)((uintptr_t)v1 + 89)));
    v209 = nd_load_8(((unsigned char *)((uintptr_t)v1 + 90)));
    v211 = nd_load_8(((unsigned char *)((uintptr_t)v1 + 91)));
    v213 = nd_load_32(((unsigned char *)((uintptr_t)v1 + 92)));
    v214 = (unsigned char *)((uintptr_t)v1 + 96);
    v215 = nd_load_8(v214);
    v216 = (uint64_t)v215;
    v217 = nd_umin_i64(v216, v3);
    v218 = (unsigned char *)((uintptr_t)v1 + 104);
    if (v217 == 0ULL) goto L39;
    v220 = (unsigned char *)((uintptr_t)v1 + 359);
    v222 = nd_load_8(v220);
    v223 = 0ULL;
L38:;
    nd_store_8((v218 + (ptrdiff_t)(uint64_t)v222), nd_load_8(((unsigned char *)((uintptr_t)v2 + (uintptr_t)v223))));
    v229 = (uint8_t)(nd_load_8(v220) + 1);
    nd_store_8(v220, v229);
    v230 = v223 + 1ULL;
    if (!(v230 == v217)) { v222 = v229; v223 = v230; goto L38; }
L39:;
    if (!(v3 < v216)) goto L41;
    nd_store_32(v14, 1U);
    nd_store_8(v214, (uint8_t)(v215 - (uint8_t)v217));
    nd_memset(((unsigned char *)((uintptr_t)v1 + 97)), 0, 7);
    v310 = v217;
    goto L51;
L41:;
    nd_store_8((v5.b + 3), v203);
    nd_store_8((v5.b + 4), v205);
    nd_store_8((v5.b + 5), v207);
    nd_store_8((v5.b + 6), v209);
    nd_store_8((v5.b + 7), v211);
    nd_store_16(v5.b, v199);
    nd_store_8((v5.b + 2), v201);
    nd_store_32((v5.b + 8), v213);
    nd_ndef_message_state_State_advance_field_2(v13, v1, v5.b, (uint8_t)((v209 == 1) ? v211 : 0), v213);
    v310 = v217;
    goto L51;
L42:;
    v247 = nd_load_8(((unsigned char *)((uintptr_t)v1 + 96)));
    v249 = nd_umin_i64((uint64_t)v247, v3);
    nd_memcpy(v4.b, ((unsigned char *)((uintptr_t)v1 + 84)), 12);
    nd_ndef_message_state_State_advance_field_2(v13, v1, v4.b, (uint8_t)(v247 - (uint8_t)v249), nd_load_32((v4.b + 8)));
    v310 = v249;
    goto L51;
L43:;
    v254 = (unsigned char *)((uintptr_t)v1 + 84);
    v256 = nd_load_8(((unsigned char *)((uintptr_t)v1 + 85)));
    v258 = nd_load_8(((unsigned char *)((uintptr_t)v1 + 86)));
    v260 = nd_load_32(((unsigned char *)((uintptr_t)v1 + 92)));
    v261 = (unsigned char *)((uintptr_t)v1 + 96);
    v262 = nd_load_32(v261);
    v264 = nd_umin_i64((uint64_t)v262, v3);
    v265 = (uint8_t)(v258 & 1);
    v266 = (uint32_t)v264;
    v267 = v262 - v266;
    v268 = v262 == v266;
    if (!v265) goto L45;
    if (v268) goto L47;
    goto L46;
L45:;
    if (v268) goto L48;
L46:;
    nd_store_32(v14, 3U);
    nd_store_32(v261, v267);
    nd_store_32(((unsigned char *)((uintptr_t)v1 + 100)), 0U);
    v310 = v264;
    goto L51;
L47:;
    v270 = (unsigned char *)((uintptr_t)v1 + 20);
    v271 = nd_load_32(v270);
    v274 = nd_usub_sat_i32(nd_load_32(((unsigned char *)((uintptr_t)v1 + 24))), 1U);
    v277 = nd_usub_sat_i32(nd_load_32(((unsigned char *)((uintptr_t)v1 + 28))), v260);
    v284 = v270;
    v285 = 1;
    v286 = v271;
    v287 = v274;
    v288 = v277;
    goto L49;
L48:;
    v278 = (unsigned char *)((uintptr_t)v1 + 20);
    v280 = nd_usub_sat_i32(nd_load_32(v278), 1U);
    v284 = v278;
    v285 = 0;
    v286 = v280;
    v287 = nd_load_32(((unsigned char *)((uintptr_t)v1 + 8)));
    v288 = nd_load_32(v1);
L49:;
    nd_store_8(v13, 0);
    nd_store_8(((unsigned char *)((uintptr_t)v1 + 17)), v285);
    nd_store_16(((unsigned char *)((uintptr_t)v1 + 18)), 0);
    nd_store_32(v284, v286);
    nd_store_32(((unsigned char *)((uintptr_t)v1 + 24)), v287);
    nd_store_32(((unsigned char *)((uintptr_t)v1 + 28)), v288);
    nd_store_8(((unsigned char *)((uintptr_t)v1 + 32)), nd_load_8(((unsigned char *)((uintptr_t)v1 + 12))));
    nd_store_8(((unsigned char *)((uintptr_t)v1 + 33)), 0);
    nd_store_8(((unsigned char *)((uintptr_t)v1 + 34)), v285);
    nd_store_8(((unsigned char *)((uintptr_t)v1 + 35)), (uint8_t)(v287 == 1U));
    nd_store_8(((unsigned char *)((uintptr_t)v1 + 36)), (uint8_t)(v286 == 1U));
    nd_memset(((unsigned char *)((uintptr_t)v1 + 37)), 0, 3);
    nd_store_32(((unsigned char *)((uintptr_t)v1 + 40)), v288);
    nd_memset(((unsigned char *)((uintptr_t)v1 + 44)), 0, 36);
    nd_store_32(v14, (v265 ? 0U : (uint32_t)(uint8_t)((uint32_t)v256 << 2)));
    nd_memset(v254, 0, 20);
    v310 = v264;
    goto L51;
L50:;
    nd_stop();
L51:;
    nd_store_64(v11, (v310 + v12));
    return v310;
}

static void nd_ndef_message_state_State_advance_field_2(unsigned char *v1, unsigned char *v2, unsigned char *v3, uint8_t v4, uint32_t v5) {
    uint8_t v6, v8, v10, v34, v47;
    unsigned char *v11;
    uint32_t v13, v36, v39, v42, v43, v48, v49, v50;
    ND_ROOM(5) v14, v15;
    v6 = nd_load_8(v3);
    v8 = nd_load_8((v3 + 1));
    v10 = nd_load_8((v3 + 2));
    v11 = v3 + 3;
    v13 = nd_load_32((v3 + 8));
    if (v4 == 0) goto L3;
    goto L2;
L1:;
    return;
L2:;
    nd_memcpy(v14.b, v11, 5);
    nd_store_32(((unsigned char *)((uintptr_t)v1 + 64)), 2U);
    nd_store_8(((unsigned char *)((uintptr_t)v1 + 68)), v6);
    nd_store_8(((unsigned char *)((uintptr_t)v1 + 69)), v8);
    nd_store_8(((unsigned char *)((uintptr_t)v1 + 70)), v10);
    nd_memcpy(((unsigned char *)((uintptr_t)v1 + 71)), v14.b, 5);
    nd_store_32(((unsigned char *)((uintptr_t)v1 + 76)), v13);
    nd_store_8(((unsigned char *)((uintptr_t)v1 + 80)), v4);
    nd_memset(((unsigned char *)((uintptr_t)v1 + 81)), 0, 7);
    goto L1;
L3:;
    if (v5 == 0U) goto L5;
    nd_memcpy(v15.b, v11, 5);
    nd_store_32(((unsigned char *)((uintptr_t)v1 + 64)), 3U);
    nd_store_8(((unsigned char *)((uintptr_t)v1 + 68)), v6);
    nd_store_8(((unsigned char *)((uintptr_t)v1 + 69)), v8);
    nd_store_8(((unsigned char *)((uintptr_t)v1 + 70)), v10);
    nd_memcpy(((unsigned char *)((uintptr_t)v1 + 71)), v15.b, 5);
    nd_store_32(((unsigned char *)((uintptr_t)v1 + 76)), v13);
    nd_store_32(((unsigned char *)((uintptr_t)v1 + 80)), v5);
    nd_store_32(((unsigned char *)((uintptr_t)v1 + 84)), 0U);
    goto L1;
L5:;
    v34 = (uint8_t)(v10 & 1);
    v36 = nd_load_32(((unsigned char *)((uintptr_t)v1 + 4)));
    if (!v34) goto L7;
    v39 = nd_usub_sat_i32(nd_load_32(((unsigned char *)((uintptr_t)v1 + 8))), 1U);
    v42 = nd_usub_sat_i32(nd_load_32(((unsigned char *)((uintptr_t)v1 + 12))), v13);
    v47 = 1;
    v48 = v36;
    v49 = v39;
    v50 = v42;
    goto L8;
L7:;
    v43 = nd_usub_sat_i32(v36, 1U);
    v47 = 0;
    v48 = v43;
    v49 = nd_load_32(((unsigned char *)((uintptr_t)v2 + 8)));
    v50 = nd_load_32(v2);
L8:;
    nd_store_8(v1, 0);
    nd_store_8((v1 + 1), v47);
    nd_store_16((v1 + 2), 0);
    nd_store_32((v1 + 4), v48);
    nd_store_32((v1 + 8), v49);
    nd_store_32((v1 + 12), v50);
    nd_store_8(((unsigned char *)((uintptr_t)v1 + 16)), nd_load_8(((unsigned char *)((uintptr_t)v2 + 12))));
    nd_store_8(((unsigned char *)((uintptr_t)v1 + 17)), 0);
    nd_store_8(((unsigned char *)((uintptr_t)v1 + 18)), v47);
    nd_store_8(((unsigned char *)((uintptr_t)v1 + 19)), (uint8_t)(v49 == 1U));
    nd_store_8(((unsigned char *)((uintptr_t)v1 + 20)), (uint8_t)(v48 == 1U));
    nd_memset(((unsigned char *)((uintptr_t)v1 + 21)), 0, 3);
    nd_store_32(((unsigned char *)((uintptr_t)v1 + 24)), v50);
    nd_memset(((unsigned char *)((uintptr_t)v1 + 28)), 0, 36);
    nd_store_32(((unsigned char *)((uintptr_t)v1 + 64)), (v34 ? 0U : (uint32_t)(uint8_t)((uint32_t)v8 << 2)));
    nd_memset(((unsigned char *)((uintptr_t)v1 + 68)), 0, 20);
    goto L1;
}

static void nd_ndef_diagnostics_few_small_message(unsigned char *v1, unsigned char *v2, uint64_t v3) {
    uint8_t v9, v56, v67, v93;
    unsigned char *v14, *v15, *v46, *v90;
    uint64_t v16, v47, v54, v55, v57, v59, v61, v62, v89, v91, v94;
    uint32_t v44, v45, v88, v92;
    ND_ROOM(24) v4;
    ND_ROOM(16) v5;
    ND_ROOM(3) v6, v7;
    nd_memset(v7.b, 0, 3);
    nd_memset(v4.b, 0, 24);
    if (v3 == 0ULL) goto L22;
    v9 = nd_load_8(v2);
    if ((v3 == 1ULL) | (int)((uint8_t)(v9 & 64) == 0)) goto L22;
    v14 = (unsigned char *)((uintptr_t)v2 + 1);
    v15 = (unsigned char *)((uintptr_t)v2 + 2);
    v16 = v3 + 18446744073709551614ULL;
    if ((uint8_t)(v9 & 16) == 0) goto L5;
    if (v16 == 0ULL) goto L22;
    v45 = (uint32_t)nd_load_8(v15);
    v46 = (unsigned char *)((uintptr_t)v2 + 3);
    v47 = v3 + 18446744073709551613ULL;
    goto L7;
L5:;
    if (v16 < 4ULL) goto L22;
    v44 = nd_bswap_i32((((((uint32_t)nd_load_8(((unsigned char *)((uintptr_t)v2 + 3))) << 8) | (uint32_t)nd_load_8(v15)) | ((uint32_t)nd_load_8(((unsigned char *)((uintptr_t)v2 + 4))) << 16)) | ((uint32_t)nd_load_8(((unsigned char *)((uintptr_t)v2 + 5))) << 24)));
    v45 = v44;
    v46 = (unsigned char *)((uintptr_t)v2 + 6);
    v47 = v3 + 18446744073709551610ULL;
L7:;
    if ((uint8_t)(v9 & 8) == 0) { v54 = 0ULL; v55 = v47; goto L10; }
    if (v47 == 0ULL) goto L22;
    v54 = (uint64_t)nd_load_8(v46);
    v55 = v47 + 18446744073709551615ULL;
L10:;
    v56 = nd_load_8(v14);
    v57 = (uint64_t)v56;
    if (v55 < v57) goto L22;
    v59 = v55 - v57;
    if (v59 < v54) goto L22;
    v61 = v59 - v54;
    v62 = (uint64_t)v45;
    if (!(((uint8_t)(v9 & 32) == 0) & (int)(v61 >= v62))) goto L22;
    v67 = (uint8_t)(v9 & 7);
    if ((int8_t)v9 > (int8_t)255) goto L22;
    if (v67 == 0) goto L20;
    if (!(v67 < 5)) goto L17;
    if (v56 == 0) goto L22;
    goto L21;
L17:;
    switch (v67) {
    case 7: goto L19;
    case 5: goto L18;
    default: goto L22; }
L18:;
    if (v56 == 0) goto L21;
    goto L22;
L19:;
    if (v56 == 0) goto L21;
    goto L22;
L20:;
    if (!(((v54 | v62) | v57) == 0ULL)) goto L22;
L21:;
    v88 = 1U;
    v89 = (v3 + v62) - v61;
    goto L25;
L22:;
    nd_store_32(v5.b, 4294967295U);
    nd_store_64((v5.b + 4), 281470681743424ULL);
    nd_store_8((v5.b + 12), 1);
    nd_memset((v5.b + 13), 0, 3);
    nd_ndef_message_judging_judge_3(v4.b, v5.b, v2, v3);
    if (!(nd_load_8(v4.b) == 0)) goto L24;
    v88 = nd_load_32((v4.b + 8));
    v89 = nd_load_64((v4.b + 16));
    goto L25;
L24:;
    v90 = (unsigned char *)0;
    v91 = 0ULL;
    v92 = 0U;
    v93 = 0;
    v94 = 0ULL;
    goto L26;
L25:;
    nd_memset(v6.b, 0, 3);
    nd_memcpy(v7.b, v6.b, 3);
    v90 = v2;
    v91 = v89;
    v92 = v88;
    v93 = 1;
    v94 = 1ULL;
L26:;
    nd_store_64(v1, v94);
    nd_store_ptr(((unsigned char *)((uintptr_t)v1 + 8)), v90);
    nd_store_64(((unsigned char *)((uintptr_t)v1 + 16)), v91);
    nd_store_32(((unsigned char *)((uintptr_t)v1 + 24)), v92);
    nd_store_8(((unsigned char *)((uintptr_t)v1 + 28)), v93);
    nd_memcpy(((unsigned char *)((uintptr_t)v1 + 29)), v7.b, 3);
    return;
}

static void nd_ndef_message_judging_judge_3(unsigned char *v1, unsigned char *v2, unsigned char *v3, uint64_t v4) {
    uint32_t v7, v9, v11, v91, v92, v93, v99, v100, v108, v109, v110, v143, v144, v193, v207, v208, v216, v217, v221, v222, v223, v229, v230, v231, v239, v259;
    uint8_t v13, v16, v17, v18, v19, v20, v23, v25, v28, v79, v81, v95, v98, v106, v115, v157, v172, v175, v176, v177, v179, v195, v212, v225, v227, v232, v247;
    unsigned char *v14, *v47, *v48, *v49, *v51, *v52, *v53, *v54, *v55, *v56, *v57, *v58, *v59, *v60, *v61, *v62, *v63, *v64, *v68, *v69, *v70, *v71, *v72, *v73, *v74, *v75, *v76, *v77, *v78, *v82, *v105, *v112, *v113, *v145, *v155, *v160, *v167;
    uint64_t v38, v40, v80, v83, v102, v104, v111, v114, v146, v154, v156, v158, v161, v163, v164, v168, v169, v192, v215, v218, v220, v226, v242, v246, v248, v249, v254, v256, v263, v265;
    uint16_t v94, v107, v224, v228;
    ND_ROOM(16) v5;
    ND_ROOM(24) v6;
    ND_ROOM(368) v15;
    v7 = nd_load_32(v2);
    v9 = nd_load_32((v2 + 4));
    v11 = nd_load_32((v2 + 8));
    v13 = nd_load_8((v2 + 12));
    v14 = v2 + 13;
    v16 = v4 == 0ULL;
    if (v16) goto L10;
    v17 = v11 == 1U;
    v18 = v9 != 1U;
    v19 = nd_load_8(v3);
    v20 = (uint8_t)(v19 & 7);
    v23 = (uint8_t)(v19 & 64) != 0;
    v25 = (uint8_t)(v19 & 32) == 0;
    v28 = (v13 == 0) & (int)(v20 == 7);
    if (((int8_t)v19 > (int8_t)255) | v28) { v40 = (uint64_t)(v28 ^ 1); goto L9; }
    if (v20 == 6) { v40 = 3ULL; goto L9; }
    if ((uint8_t)(v19 & 96) == 96) { v40 = 6ULL; goto L9; }
    if ((uint8_t)(v19 & 39) == 32) { v40 = 7ULL; goto L9; }
    if (v25) goto L7;
    if (v17) { v40 = 8ULL; goto L9; }
    goto L10;
L7:;
    if (v18 | v23) goto L10;
    v40 = 9ULL;
    goto L9;
L8:;
    nd_store_64(((unsigned char *)((uintptr_t)v1 + 16)), v38);
    return;
L9:;
    nd_store_64(v1, 1ULL);
    nd_store_32(((unsigned char *)((uintptr_t)v1 + 8)), 0U);
    nd_store_32(((unsigned char *)((uintptr_t)v1 + 12)), 0U);
    v38 = v40;
    goto L8;
L10:;
    nd_store_32(v15.b, v7);
    v47 = v15.b + 4;
    nd_store_32(v47, v9);
    v48 = v15.b + 8;
    nd_store_32(v48, v11);
    v49 = v15.b + 12;
    nd_store_8(v49, v13);
    nd_memcpy((v15.b + 13), v14, 3);
    v51 = v15.b + 16;
    nd_store_8(v51, 1);
    v52 = v15.b + 17;
    nd_store_8(v52, 0);
    v53 = v15.b + 18;
    nd_store_16(v53, 0);
    v54 = v15.b + 20;
    nd_store_32(v54, v9);
    v55 = v15.b + 24;
    nd_store_32(v55, v11);
    v56 = v15.b + 28;
    nd_store_32(v56, v7);
    v57 = v15.b + 32;
    nd_store_8(v57, v13);
    v58 = v15.b + 33;
    nd_store_8(v58, 1);
    v59 = v15.b + 34;
    nd_store_8(v59, 0);
    v60 = v15.b + 35;
    nd_store_8(v60, (uint8_t)(v11 == 1U));
    v61 = v15.b + 36;
    nd_store_8(v61, (uint8_t)(v9 == 1U));
    v62 = v15.b + 37;
    nd_memset(v62, 0, 3);
    v63 = v15.b + 40;
    nd_store_32(v63, v7);
    v64 = v15.b + 44;
    nd_memset(v64, 0, 324);
    if (v16) goto L60;
    v68 = v15.b + 80;
    v69 = v15.b + 56;
    v70 = v5.b + 1;
    v71 = v5.b + 2;
    v72 = v5.b + 4;
    v73 = v5.b + 8;
    v74 = v5.b + 12;
    v75 = v6.b + 8;
    v76 = v6.b + 16;
    v77 = v15.b + 84;
    v78 = v15.b + 360;
    v79 = (uint8_t)(nd_load_8(v3) & 64) != 0;
    v80 = 0ULL;
L12:;
    v81 = nd_load_8(v68);
    switch (v81) {
    case 4: { v256 = v80; goto L63; }
    case 5: goto L64;
    case 0: goto L14;
    case 1: goto L14;
    case 2: goto L14;
    case 3: goto L14;
    default: goto L13; }
L13:;
    nd_stop();
L14:;
    v82 = (unsigned char *)((uintptr_t)v3 + (uintptr_t)v80);
    v83 = v4 - v80;
    if (v79) goto L58;
    if ((uint8_t)(nd_load_8(v52) & 1)) goto L57;
    if (!(v81 == 0)) goto L58;
    if ((v83 == 0ULL) | (int)(nd_load_64(v69) != 0ULL)) goto L58;
    v91 = nd_load_32(v56);
    v92 = nd_load_32(v55);
    v93 = nd_load_32(v54);
    v94 = nd_load_16(v53);
    v95 = nd_load_8(v51);
    nd_memset(v6.b, 0, 24);
    if (v83 == 1ULL) { v220 = 0ULL; v221 = v91; v222 = v92; v223 = v93; v224 = v94; v225 = v95; goto L51; }
    v98 = nd_load_8(v49) == 1;
    v99 = nd_load_32(v48);
    v100 = nd_load_32(v15.b);
    v104 = v83;
    v105 = v82;
    v106 = v95;
    v107 = v94;
    v108 = v93;
    v109 = v92;
    v110 = v91;
    v111 = 0ULL;
    goto L21;
L20:;
    v102 = v83 - v218;
    nd_memset(v6.b, 0, 24);
    if (v102 < 2ULL) { v220 = v218; v221 = v100; v222 = v99; v223 = v217; v224 = 0; v225 = 0; goto L51; }
    v104 = v102;
    v105 = (unsigned char *)((uintptr_t)v82 + (uintptr_t)v218);
    v106 = 0;
    v107 = 0;
    v108 = v217;
    v109 = v99;
    v110 = v100;
    v111 = v218;
L21:;
    v112 = (unsigned char *)((uintptr_t)v105 + 1);
    v113 = (unsigned char *)((uintptr_t)v105 + 2);
    v114 = v104 + 18446744073709551614ULL;
    v115 = nd_load_8(v105);
    if ((uint8_t)(v115 & 16) == 0) goto L24;
    if (v114 == 0ULL) { v220 = v111; v221 = v110; v222 = v109; v223 = v108; v224 = v107; v225 = v106; goto L51; }
    v144 = (uint32_t)nd_load_8(v113);
    v145 = (unsigned char *)((uintptr_t)v105 + 3);
    v146 = v104 + 18446744073709551613ULL;
    goto L26;
L24:;
    if (v114 < 4ULL) { v220 = v111; v221 = v110; v222 = v109; v223 = v108; v224 = v107; v225 = v106; goto L51; }
    v143 = nd_bswap_i32((((((uint32_t)nd_load_8(((unsigned char *)((uintptr_t)v105 + 3))) << 8) | (uint32_t)nd_load_8(v113)) | ((uint32_t)nd_load_8(((unsigned char *)((uintptr_t)v105 + 4))) << 16)) | ((uint32_t)nd_load_8(((unsigned char *)((uintptr_t)v105 + 5))) << 24)));
    v144 = v143;
    v145 = (unsigned char *)((uintptr_t)v105 + 6);
    v146 = v104 + 18446744073709551610ULL;
L26:;
    if ((uint8_t)(v115 & 8) == 0) { v154 = 0ULL; v155 = v145; v156 = v146; goto L29; }
    if (v146 == 0ULL) { v220 = v111; v221 = v110; v222 = v109; v223 = v108; v224 = v107; v225 = v106; goto L51; }
    v154 = (uint64_t)nd_load_8(v145);
    v155 = (unsigned char *)((uintptr_t)v145 + 1);
    v156 = v146 + 18446744073709551615ULL;
L29:;
    v157 = nd_load_8(v112);
    v158 = (uint64_t)v157;
    if (v156 < v158) { v220 = v111; v221 = v110; v222 = v109; v223 = v108; v224 = v107; v225 = v106; goto L51; }
    v160 = (unsigned char *)((uintptr_t)v155 + (uintptr_t)v158);
    v161 = v156 - v158;
    if (v161 < v154) { v220 = v111; v221 = v110; v222 = v109; v223 = v108; v224 = v107; v225 = v106; goto L51; }
    v163 = v161 - v154;
    v164 = (uint64_t)v144;
    if (v163 < v164) { v220 = v111; v221 = v110; v222 = v109; v223 = v108; v224 = v107; v225 = v106; goto L51; }
    v167 = (unsigned char *)((uintptr_t)((unsigned char *)((uintptr_t)v160 + (uintptr_t)v154)) + (uintptr_t)v164);
    v168 = v163 - v164;
    v169 = v104 - v168;
    v172 = (uint8_t)(v115 & 64);
    v175 = ((int8_t)v115 < (int8_t)0) ^ (int)(uint8_t)(v106 & 1);
    v176 = v144 > v110;
    if (!((uint8_t)(v115 & 32) == 0)) goto L42;
    v177 = (uint8_t)(v115 & 7);
    v179 = v172 == 0;
    if ((uint8_t)(((v108 == 1U) & v179) ? 1 : v175) | v176) { v220 = v111; v221 = v110; v222 = v109; v223 = v108; v224 = v107; v225 = v106; goto L51; }
    if (v177 == 0) goto L40;
    if (!(v177 < 5)) goto L37;
    if (v157 == 0) { v220 = v111; v221 = v110; v222 = v109; v223 = v108; v224 = v107; v225 = v106; goto L51; }
    goto L41;
L37:;
    switch (v177) {
    case 7: goto L39;
    case 5: goto L38;
    default: { v220 = v111; v221 = v110; v222 = v109; v223 = v108; v224 = v107; v225 = v106; goto L51; } }
L38:;
    if (v157 == 0) goto L41;
    v220 = v111;
    v221 = v110;
    v222 = v109;
    v223 = v108;
    v224 = v107;
    v225 = v106;
    goto L51;
L39:;
    if ((v157 == 0) & v98) goto L41;
    v220 = v111;
    v221 = v110;
    v222 = v109;
    v223 = v108;
    v224 = v107;
    v225 = v106;
    goto L51;
L40:;
    if (!(((v154 | v164) | v158) == 0ULL)) { v220 = v111; v221 = v110; v222 = v109; v223 = v108; v224 = v107; v225 = v106; goto L51; }
L41:;
    v192 = v169 + v111;
    v193 = nd_usub_sat_i32(v108, 1U);
    if (v179) { v217 = v193; v218 = v192; goto L50; }
    v226 = v192;
    v227 = 0;
    v228 = 0;
    v229 = v193;
    v230 = v99;
    v231 = v100;
    v232 = 1;
    goto L52;
L42:;
    v195 = (uint8_t)(v115 & 7);
    if (((v195 == 0) | (int)(uint8_t)(((v109 == 1U) | (int)(v172 != 0)) ? 1 : v175)) | v176) { v220 = v111; v221 = v110; v222 = v109; v223 = v108; v224 = v107; v225 = v106; goto L51; }
    if (!(v195 < 5)) goto L45;
    if (v157 == 0) { v220 = v111; v221 = v110; v222 = v109; v223 = v108; v224 = v107; v225 = v106; goto L51; }
    goto L48;
L45:;
    switch (v195) {
    case 7: goto L46;
    case 5: goto L47;
    default: { v220 = v111; v221 = v110; v222 = v109; v223 = v108; v224 = v107; v225 = v106; goto L51; } }
L46:;
    if ((v157 == 0) & v98) goto L48;
    v220 = v111;
    v221 = v110;
    v222 = v109;
    v223 = v108;
    v224 = v107;
    v225 = v106;
    goto L51;
L47:;
    if (!(v157 == 0)) { v220 = v111; v221 = v110; v222 = v109; v223 = v108; v224 = v107; v225 = v106; goto L51; }
L48:;
    v207 = nd_usub_sat_i32(v109, 1U);
    v208 = nd_usub_sat_i32(v110, v144);
    nd_store_8(v5.b, 0);
    nd_store_8(v70, 1);
    nd_store_16(v71, 0);
    nd_store_32(v72, v108);
    nd_store_32(v73, v207);
    nd_store_32(v74, v208);
    nd_ndef_message_accepted_accepted_run(v6.b, v15.b, v5.b, v167, v168);
    if (!(nd_load_8(v6.b) == 1)) { v220 = v111; v221 = v110; v222 = v109; v223 = v108; v224 = v107; v225 = v106; goto L51; }
    v212 = nd_load_8(v76);
    v215 = (v169 + v111) + nd_load_64(v75);
    v216 = nd_usub_sat_i32(v108, 1U);
    if ((uint8_t)(v212 & 1)) { v226 = v215; v227 = 0; v228 = 0; v229 = v216; v230 = v99; v231 = v100; v232 = 1; goto L52; }
    v217 = v216;
    v218 = v215;
L50:;
    if (v218 < v83) goto L20;
    v226 = v218;
    v227 = 0;
    v228 = 0;
    v229 = v217;
    v230 = v99;
    v231 = v100;
    v232 = 0;
    goto L52;
L51:;
    v226 = v220;
    v227 = v225;
    v228 = v224;
    v229 = v223;
    v230 = v222;
    v231 = v221;
    v232 = 0;
L52:;
    if (v226 == 0ULL) goto L58;
    nd_store_8(v51, v227);
    nd_store_8(v52, 0);
    nd_store_16(v53, v228);
    nd_store_32(v54, v229);
    nd_store_32(v55, v230);
    nd_store_32(v56, v231);
    if (!v232) goto L55;
    nd_memset(v77, 0, 20);
    v239 = 4U;
    goto L56;
L55:;
    nd_store_8(v57, nd_load_8(v49));
    nd_store_8(v58, v227);
    nd_store_8(v59, 0);
    nd_store_8(v60, (uint8_t)(v230 == 1U));
    nd_store_8(v61, (uint8_t)(v229 == 1U));
    nd_memset(v62, 0, 3);
    nd_store_32(v63, v231);
    nd_memset(v77, 0, 20);
    nd_memset(v64, 0, 36);
    v239 = 0U;
L56:;
    nd_store_32(v68, v239);
    nd_store_64(v78, (nd_load_64(v78) + v226));
    v247 = 1;
    v248 = v226;
    goto L59;
L57:;
    v242 = nd_ndef_message_state_State_take_chunks_3(v51, v15.b, v82, v83);
    nd_store_64(v78, (nd_load_64(v78) + v242));
    if (!(v242 == 0ULL)) { v247 = 1; v248 = v242; goto L59; }
L58:;
    v246 = nd_ndef_message_checker_Checker_step_3(v15.b, v82, v83);
    v247 = 0;
    v248 = v246;
L59:;
    v249 = v248 + v80;
    if (v249 < v4) { v79 = v247; v80 = v249; goto L12; }
L60:;
    switch (nd_load_8((v15.b + 80))) {
    case 4: { v256 = v4; goto L63; }
    case 5: goto L64;
    case 0: goto L62;
    case 1: goto L62;
    case 2: goto L62;
    case 3: goto L62;
    default: goto L61; }
L61:;
    nd_stop();
L62:;
    v254 = nd_load_64((v15.b + 360));
    nd_store_64(v1, 1ULL);
    nd_store_64(((unsigned char *)((uintptr_t)v1 + 8)), v254);
    v38 = 24ULL;
    goto L8;
L63:;
    v259 = nd_usub_sat_i32(nd_load_32(v47), nd_load_32(v54));
    nd_store_64(v1, 0ULL);
    nd_store_32(((unsigned char *)((uintptr_t)v1 + 8)), v259);
    nd_store_32(((unsigned char *)((uintptr_t)v1 + 12)), 0U);
    v38 = v256;
    goto L8;
L64:;
    v263 = nd_load_64((v15.b + 88));
    v265 = nd_load_64((v15.b + 96));
    nd_store_64(v1, 1ULL);
    nd_store_64(((unsigned char *)((uintptr_t)v1 + 8)), v263);
    v38 = v265;
    goto L8;
}

static uint64_t nd_ndef_message_state_State_take_chunks_3(unsigned char *v1, unsigned char *v2, unsigned char *v3, uint64_t v4) {
    unsigned char *v10;
    uint64_t v16, v17;
    uint32_t v20, v23, v25;
    uint16_t v27;
    uint8_t v29, v30;
    ND_ROOM(24) v5;
    ND_ROOM(16) v6;
    nd_memset(v5.b, 0, 24);
    if (!(nd_load_8(((unsigned char *)((uintptr_t)v1 + 64))) == 0)) { v16 = 0ULL; goto L3; }
    v10 = (unsigned char *)((uintptr_t)v1 + 1);
    if (!(uint8_t)(nd_load_8(v10) & 1)) { v16 = 0ULL; goto L3; }
    if (nd_load_64(((unsigned char *)((uintptr_t)v1 + 40))) == 0ULL) goto L4;
    v16 = 0ULL;
L3:;
    return v16;
L4:;
    nd_memcpy(v6.b, v1, 16);
    nd_ndef_message_accepted_accepted_chunks(v5.b, v6.b, v3, v4);
    v17 = nd_load_64(v5.b);
    if (v17 == 0ULL) { v16 = 0ULL; goto L3; }
    v20 = nd_load_32((v5.b + 20));
    v23 = nd_load_32((v5.b + 16));
    v25 = nd_load_32((v5.b + 12));
    v27 = nd_load_16((v5.b + 10));
    v29 = nd_load_8((v5.b + 9));
    v30 = nd_load_8((v5.b + 8));
    nd_store_8(v1, v30);
    nd_store_8(v10, v29);
    nd_store_16((v1 + 2), v27);
    nd_store_32((v1 + 4), v25);
    nd_store_32((v1 + 8), v23);
    nd_store_32((v1 + 12), v20);
    nd_store_8(((unsigned char *)((uintptr_t)v1 + 16)), nd_load_8(((unsigned char *)((uintptr_t)v2 + 12))));
    nd_store_8(((unsigned char *)((uintptr_t)v1 + 17)), v30);
    nd_store_8(((unsigned char *)((uintptr_t)v1 + 18)), v29);
    nd_store_8(((unsigned char *)((uintptr_t)v1 + 19)), (uint8_t)(v23 == 1U));
    nd_store_8(((unsigned char *)((uintptr_t)v1 + 20)), (uint8_t)(v25 == 1U));
    nd_memset(((unsigned char *)((uintptr_t)v1 + 21)), 0, 3);
    nd_store_32(((unsigned char *)((uintptr_t)v1 + 24)), v20);
    nd_memset(((unsigned char *)((uintptr_t)v1 + 28)), 0, 36);
    v16 = v17;
    goto L3;
}

static uint64_t nd_ndef_message_checker_Checker_step_3(unsigned char *v1, unsigned char *v2, uint64_t v3) {
    unsigned char *v11, *v13, *v14, *v16, *v25, *v30, *v59, *v65, *v70, *v74, *v124, *v127, *v142, *v154, *v214, *v218, *v220, *v254, *v261, *v270, *v278, *v284;
    uint64_t v12, v29, v106, v111, v113, v216, v217, v223, v230, v249, v264, v310;
    uint8_t v20, v22, v24, v38, v50, v51, v71, v96, v104, v123, v131, v141, v151, v180, v193, v201, v203, v205, v207, v209, v211, v215, v222, v229, v247, v256, v258, v265, v268, v285;
    uint32_t v27, v60, v63, v67, v72, v73, v75, v126, v143, v146, v148, v152, v153, v155, v213, v260, v262, v266, v267, v271, v274, v277, v280, v286, v287, v288;
    uint16_t v121, v199;
    ND_ROOM(12) v4, v5, v6, v9;
    ND_ROOM(48) v7;
    ND_ROOM(16) v8;
    ND_ROOM(32) v10;
    v11 = (unsigned char *)((uintptr_t)v1 + 360);
    v12 = nd_load_64(v11);
    v13 = (unsigned char *)((uintptr_t)v1 + 16);
    v14 = (unsigned char *)((uintptr_t)v1 + 80);
    switch (nd_load_8(v14)) {
    case 0: goto L1;
    case 1: goto L36;
    case 2: goto L42;
    case 3: goto L43;
    case 4: { v310 = 1ULL; goto L51; }
    case 5: { v310 = 1ULL; goto L51; }
    default: goto L50; }
L1:;
    nd_memset(v10.b, 0, 32);
    v16 = (unsigned char *)((uintptr_t)v1 + 32);
    nd_ndef_piece_head_reader_HeadReader_whole_head(v10.b, v16, v2, v3);
    if (!(nd_load_8(v10.b) == 1)) goto L15;
    v20 = nd_load_8((v10.b + 8));
    v22 = nd_load_8((v10.b + 9));
    v24 = nd_load_8((v10.b + 10));
    v25 = v10.b + 11;
    v27 = nd_load_32((v10.b + 16));
    v29 = nd_load_64((v10.b + 24));
    v30 = (unsigned char *)((uintptr_t)v1 + 17);
    if ((uint8_t)(nd_load_8(v30) & 1)) goto L7;
    nd_store_8(v9.b, v20);
    nd_store_8((v9.b + 1), v22);
    nd_store_8((v9.b + 2), v24);
    nd_memcpy((v9.b + 3), v25, 5);
    nd_store_32((v9.b + 8), v27);
    v38 = nd_load_8((v9.b + 5));
    if (v38 == 0) goto L5;
    nd_store_8(((unsigned char *)((uintptr_t)v1 + 359)), 0);
    nd_store_32(v14, 1U);
    nd_memcpy(((unsigned char *)((uintptr_t)v1 + 84)), v9.b, 12);
    nd_store_8(((unsigned char *)((uintptr_t)v1 + 96)), v38);
    nd_memset(((unsigned char *)((uintptr_t)v1 + 97)), 0, 7);
    goto L6;
L5:;
    nd_ndef_message_state_State_advance_field_3(v13, v1, v9.b, (uint8_t)((nd_load_8((v9.b + 6)) == 1) ? nd_load_8((v9.b + 7)) : 0), v27);
L6:;
    goto L14;
L7:;
    v50 = (uint8_t)(v24 & 1);
    v51 = v27 == 0U;
    if (!v50) goto L9;
    if (v51) goto L11;
    goto L10;
L9:;
    if (v51) goto L12;
L10:;
    nd_store_32(v14, 3U);
    nd_store_8(((unsigned char *)((uintptr_t)v1 + 84)), v20);
    nd_store_8(((unsigned char *)((uintptr_t)v1 + 85)), v22);
    nd_store_8(((unsigned char *)((uintptr_t)v1 + 86)), v24);
    nd_memcpy(((unsigned char *)((uintptr_t)v1 + 87)), v25, 5);
    nd_store_32(((unsigned char *)((uintptr_t)v1 + 92)), v27);
    nd_store_32(((unsigned char *)((uintptr_t)v1 + 96)), v27);
    nd_store_32(((unsigned char *)((uintptr_t)v1 + 100)), 0U);
    goto L14;
L11:;
    v59 = (unsigned char *)((uintptr_t)v1 + 20);
    v60 = nd_load_32(v59);
    v63 = nd_usub_sat_i32(nd_load_32(((unsigned char *)((uintptr_t)v1 + 24))), 1U);
    v70 = v59;
    v71 = 1;
    v72 = v60;
    v73 = v63;
    v74 = (unsigned char *)((uintptr_t)v1 + 28);
    goto L13;
L12:;
    v65 = (unsigned char *)((uintptr_t)v1 + 20);
    v67 = nd_usub_sat_i32(nd_load_32(v65), 1U);
    v70 = v65;
    v71 = 0;
    v72 = v67;
    v73 = nd_load_32(((unsigned char *)((uintptr_t)v1 + 8)));
    v74 = v1;
L13:;
    v75 = nd_load_32(v74);
    nd_store_8(v13, 0);
    nd_store_8(v30, v71);
    nd_store_16(((unsigned char *)((uintptr_t)v1 + 18)), 0);
    nd_store_32(v70, v72);
    nd_store_32(((unsigned char *)((uintptr_t)v1 + 24)), v73);
    nd_store_32(((unsigned char *)((uintptr_t)v1 + 28)), v75);
    nd_store_8(v16, nd_load_8(((unsigned char *)((uintptr_t)v1 + 12))));
    nd_store_8(((unsigned char *)((uintptr_t)v1 + 33)), 0);
    nd_store_8(((unsigned char *)((uintptr_t)v1 + 34)), v71);
    nd_store_8(((unsigned char *)((uintptr_t)v1 + 35)), (uint8_t)(v73 == 1U));
    nd_store_8(((unsigned char *)((uintptr_t)v1 + 36)), (uint8_t)(v72 == 1U));
    nd_memset(((unsigned char *)((uintptr_t)v1 + 37)), 0, 3);
    nd_store_32(((unsigned char *)((uintptr_t)v1 + 40)), v75);
    nd_memset(((unsigned char *)((uintptr_t)v1 + 44)), 0, 36);
    nd_store_32(v14, (v50 ? 0U : (uint32_t)(uint8_t)((uint32_t)v22 << 2)));
    nd_memset(((unsigned char *)((uintptr_t)v1 + 84)), 0, 20);
L14:;
    v310 = v29;
    goto L51;
L15:;
    v96 = nd_load_8(v2);
    nd_memset(v8.b, 0, 16);
    nd_ndef_piece_head_reader_HeadReader_step(v8.b, v16, v96);
    switch (nd_load_8(v8.b)) {
    case 0: goto L16;
    case 1: goto L22;
    case 2: goto L33;
    default: goto L34; }
L16:;
    nd_memset(v7.b, 0, 48);
    if ((uint8_t)(nd_load_8(((unsigned char *)((uintptr_t)v1 + 17))) & 1)) goto L18;
    goto L35;
L18:;
    nd_ndef_piece_head_reader_HeadReader_bounds(v7.b, v16);
    if (nd_load_8(v7.b) == 1) goto L20;
    goto L21;
L20:;
    v104 = nd_load_8((v7.b + 9));
    v106 = nd_load_64((v7.b + 32));
    v111 = (uint64_t)nd_load_32(((unsigned char *)((uintptr_t)v1 + 28)));
    v113 = nd_umin_i64(nd_load_64((v7.b + 40)), v111);
    if (!(v106 > ((uint8_t)(v104 & 1) ? v111 : v113))) goto L35;
L21:;
    nd_store_32(v14, 5U);
    nd_store_32(((unsigned char *)((uintptr_t)v1 + 84)), 0U);
    nd_store_64(((unsigned char *)((uintptr_t)v1 + 88)), v12);
    nd_store_8(((unsigned char *)((uintptr_t)v1 + 96)), 23);
    nd_memset(((unsigned char *)((uintptr_t)v1 + 97)), 0, 7);
    goto L35;
L22:;
    v121 = nd_load_16((v8.b + 4));
    v123 = nd_load_8((v8.b + 6));
    v124 = v8.b + 7;
    v126 = nd_load_32((v8.b + 12));
    v127 = (unsigned char *)((uintptr_t)v1 + 17);
    if (!(uint8_t)(nd_load_8(v127) & 1)) goto L29;
    v131 = (uint8_t)(uint16_t)(v121 >> 8);
    if (v126 == 0U) goto L25;
    nd_store_32(v14, 3U);
    nd_store_8(((unsigned char *)((uintptr_t)v1 + 84)), (uint8_t)v121);
    nd_store_8(((unsigned char *)((uintptr_t)v1 + 85)), v131);
    nd_store_8(((unsigned char *)((uintptr_t)v1 + 86)), v123);
    nd_memcpy(((unsigned char *)((uintptr_t)v1 + 87)), v124, 5);
    nd_store_32(((unsigned char *)((uintptr_t)v1 + 92)), v126);
    nd_store_32(((unsigned char *)((uintptr_t)v1 + 96)), v126);
    nd_store_32(((unsigned char *)((uintptr_t)v1 + 100)), 0U);
    goto L35;
L25:;
    v141 = (uint8_t)(v123 & 1);
    v142 = (unsigned char *)((uintptr_t)v1 + 20);
    v143 = nd_load_32(v142);
    if (!v141) goto L27;
    v146 = nd_usub_sat_i32(nd_load_32(((unsigned char *)((uintptr_t)v1 + 24))), 1U);
    v151 = 1;
    v152 = v143;
    v153 = v146;
    v154 = (unsigned char *)((uintptr_t)v1 + 28);
    goto L28;
L27:;
    v148 = nd_usub_sat_i32(v143, 1U);
    v151 = 0;
    v152 = v148;
    v153 = nd_load_32(((unsigned char *)((uintptr_t)v1 + 8)));
    v154 = v1;
L28:;
    v155 = nd_load_32(v154);
    nd_store_8(v13, 0);
    nd_store_8(v127, v151);
    nd_store_16(((unsigned char *)((uintptr_t)v1 + 18)), 0);
    nd_store_32(v142, v152);
    nd_store_32(((unsigned char *)((uintptr_t)v1 + 24)), v153);
    nd_store_32(((unsigned char *)((uintptr_t)v1 + 28)), v155);
    nd_store_8(v16, nd_load_8(((unsigned char *)((uintptr_t)v1 + 12))));
    nd_store_8(((unsigned char *)((uintptr_t)v1 + 33)), 0);
    nd_store_8(((unsigned char *)((uintptr_t)v1 + 34)), v151);
    nd_store_8(((unsigned char *)((uintptr_t)v1 + 35)), (uint8_t)(v153 == 1U));
    nd_store_8(((unsigned char *)((uintptr_t)v1 + 36)), (uint8_t)(v152 == 1U));
    nd_memset(((unsigned char *)((uintptr_t)v1 + 37)), 0, 3);
    nd_store_32(((unsigned char *)((uintptr_t)v1 + 40)), v155);
    nd_memset(((unsigned char *)((uintptr_t)v1 + 44)), 0, 36);
    nd_store_32(v14, (v141 ? 0U : (uint32_t)(uint8_t)((uint32_t)v131 << 2)));
    nd_memset(((unsigned char *)((uintptr_t)v1 + 84)), 0, 20);
    goto L35;
L29:;
    nd_store_16(v6.b, v121);
    nd_store_8((v6.b + 2), v123);
    nd_memcpy((v6.b + 3), v124, 5);
    nd_store_32((v6.b + 8), v126);
    v180 = nd_load_8((v6.b + 5));
    if (v180 == 0) goto L31;
    nd_store_8(((unsigned char *)((uintptr_t)v1 + 359)), 0);
    nd_store_32(v14, 1U);
    nd_memcpy(((unsigned char *)((uintptr_t)v1 + 84)), v6.b, 12);
    nd_store_8(((unsigned char *)((uintptr_t)v1 + 96)), v180);
    nd_memset(((unsigned char *)((uintptr_t)v1 + 97)), 0, 7);
    goto L32;
L31:;
    nd_ndef_message_state_State_advance_field_3(v13, v1, v6.b, (uint8_t)((nd_load_8((v6.b + 6)) == 1) ? nd_load_8((v6.b + 7)) : 0), v126);
L32:;
    goto L35;
L33:;
    v193 = nd_load_8((v8.b + 1));
    nd_store_32(v14, 5U);
    nd_store_32(((unsigned char *)((uintptr_t)v1 + 84)), 0U);
    nd_store_64(((unsigned char *)((uintptr_t)v1 + 88)), v12);
    nd_store_8(((unsigned char *)((uintptr_t)v1 + 96)), v193);
    nd_memset(((unsigned char *)((uintptr_t)v1 + 97)), 0, 7);
    goto L35;
L34:;
    nd_stop();
L35:;
    v310 = 1ULL;
    goto L51;
L36:;
    v199 = nd_load_16(((unsigned char *)((uintptr_t)v1 + 84)));
    v201 = nd_load_8(((unsigned char *)((uintptr_t)v1 + 86)));
    v203 = nd_load_8(((unsigned char *)((uintptr_t)v1 + 87)));
    v205 = nd_load_8(((unsigned char *)((uintptr_t)v1 + 88)));
    v207 = nd_load_8(((unsigned char *)((uintptr_t)v1 + 89)));
    v209 = nd_load_8(((unsigned char *)((uintptr_t)v1 + 90)));
    v211 = nd_load_8(((unsigned char *)((uintptr_t)v1 + 91)));
    v213 = nd_load_32(((unsigned char *)((uintptr_t)v1 + 92)));
    v214 = (unsigned char *)((uintptr_t)v1 + 96);
    v215 = nd_load_8(v214);
    v216 = (uint64_t)v215;
    v217 = nd_umin_i64(v216, v3);
    v218 = (unsigned char *)((uintptr_t)v1 + 104);
    if (v217 == 0ULL) goto L39;
    v220 = (unsigned char *)((uintptr_t)v1 + 359);
    v222 = nd_load_8(v220);
    v223 = 0ULL;
L38:;
    nd_store_8((v218 + (ptrdiff_t)(uint64_t)v222), nd_load_8(((unsigned char *)((uintptr_t)v2 + (uintptr_t)v223))));
    v229 = (uint8_t)(nd_load_8(v220) + 1);
    nd_store_8(v220, v229);
    v230 = v223 + 1ULL;
    if (!(v230 == v217)) { v222 = v229; v223 = v230; goto L38; }
L39:;
    if (!(v3 < v216)) goto L41;
    nd_store_32(v14, 1U);
    nd_store_8(v214, (uint8_t)(v215 - (uint8_t)v217));
    nd_memset(((unsigned char *)((uintptr_t)v1 + 97)), 0, 7);
    v310 = v217;
    goto L51;
L41:;
    nd_store_8((v5.b + 3), v203);
    nd_store_8((v5.b + 4), v205);
    nd_store_8((v5.b + 5), v207);
    nd_store_8((v5.b + 6), v209);
    nd_store_8((v5.b + 7), v211);
    nd_store_16(v5.b, v199);
    nd_store_8((v5.b + 2), v201);
    nd_store_32((v5.b + 8), v213);
    nd_ndef_message_state_State_advance_field_3(v13, v1, v5.b, (uint8_t)((v209 == 1) ? v211 : 0), v213);
    v310 = v217;
    goto L51;
L42:;
    v247 = nd_load_8(((unsigned char *)((uintptr_t)v1 + 96)));
    v249 = nd_umin_i64((uint64_t)v247, v3);
    nd_memcpy(v4.b, ((unsigned char *)((uintptr_t)v1 + 84)), 12);
    nd_ndef_message_state_State_advance_field_3(v13, v1, v4.b, (uint8_t)(v247 - (uint8_t)v249), nd_load_32((v4.b + 8)));
    v310 = v249;
    goto L51;
L43:;
    v254 = (unsigned char *)((uintptr_t)v1 + 84);
    v256 = nd_load_8(((unsigned char *)((uintptr_t)v1 + 85)));
    v258 = nd_load_8(((unsigned char *)((uintptr_t)v1 + 86)));
    v260 = nd_load_32(((unsigned char *)((uintptr_t)v1 + 92)));
    v261 = (unsigned char *)((uintptr_t)v1 + 96);
    v262 = nd_load_32(v261);
    v264 = nd_umin_i64((uint64_t)v262, v3);
    v265 = (uint8_t)(v258 & 1);
    v266 = (uint32_t)v264;
    v267 = v262 - v266;
    v268 = v262 == v266;
    if (!v265) goto L45;
    if (v268) goto L47;
    goto L46;
L45:;
    if (v268) goto L48;
L46:;
    nd_store_32(v14, 3U);
    nd_store_32(v261, v267);
    nd_store_32(((unsigned char *)((uintptr_t)v1 + 100)), 0U);
    v310 = v264;
    goto L51;
L47:;
    v270 = (unsigned char *)((uintptr_t)v1 + 20);
    v271 = nd_load_32(v270);
    v274 = nd_usub_sat_i32(nd_load_32(((unsigned char *)((uintptr_t)v1 + 24))), 1U);
    v277 = nd_usub_sat_i32(nd_load_32(((unsigned char *)((uintptr_t)v1 + 28))), v260);
    v284 = v270;
    v285 = 1;
    v286 = v271;
    v287 = v274;
    v288 = v277;
    goto L49;
L48:;
    v278 = (unsigned char *)((uintptr_t)v1 + 20);
    v280 = nd_usub_sat_i32(nd_load_32(v278), 1U);
    v284 = v278;
    v285 = 0;
    v286 = v280;
    v287 = nd_load_32(((unsigned char *)((uintptr_t)v1 + 8)));
    v288 = nd_load_32(v1);
L49:;
    nd_store_8(v13, 0);
    nd_store_8(((unsigned char *)((uintptr_t)v1 + 17)), v285);
    nd_store_16(((unsigned char *)((uintptr_t)v1 + 18)), 0);
    nd_store_32(v284, v286);
    nd_store_32(((unsigned char *)((uintptr_t)v1 + 24)), v287);
    nd_store_32(((unsigned char *)((uintptr_t)v1 + 28)), v288);
    nd_store_8(((unsigned char *)((uintptr_t)v1 + 32)), nd_load_8(((unsigned char *)((uintptr_t)v1 + 12))));
    nd_store_8(((unsigned char *)((uintptr_t)v1 + 33)), 0);
    nd_store_8(((unsigned char *)((uintptr_t)v1 + 34)), v285);
    nd_store_8(((unsigned char *)((uintptr_t)v1 + 35)), (uint8_t)(v287 == 1U));
    nd_store_8(((unsigned char *)((uintptr_t)v1 + 36)), (uint8_t)(v286 == 1U));
    nd_memset(((unsigned char *)((uintptr_t)v1 + 37)), 0, 3);
    nd_store_32(((unsigned char *)((uintptr_t)v1 + 40)), v288);
    nd_memset(((unsigned char *)((uintptr_t)v1 + 44)), 0, 36);
    nd_store_32(v14, (v265 ? 0U : (uint32_t)(uint8_t)((uint32_t)v256 << 2)));
    nd_memset(v254, 0, 20);
    v310 = v264;
    goto L51;
L50:;
    nd_stop();
L51:;
    nd_store_64(v11, (v310 + v12));
    return v310;
}

static void nd_ndef_message_state_State_advance_field_3(unsigned char *v1, unsigned char *v2, unsigned char *v3, uint8_t v4, uint32_t v5) {
    uint8_t v6, v8, v10, v34, v47;
    unsigned char *v11;
    uint32_t v13, v36, v39, v42, v43, v48, v49, v50;
    ND_ROOM(5) v14, v15;
    v6 = nd_load_8(v3);
    v8 = nd_load_8((v3 + 1));
    v10 = nd_load_8((v3 + 2));
    v11 = v3 + 3;
    v13 = nd_load_32((v3 + 8));
    if (v4 == 0) goto L3;
    goto L2;
L1:;
    return;
L2:;
    nd_memcpy(v14.b, v11, 5);
    nd_store_32(((unsigned char *)((uintptr_t)v1 + 64)), 2U);
    nd_store_8(((unsigned char *)((uintptr_t)v1 + 68)), v6);
    nd_store_8(((unsigned char *)((uintptr_t)v1 + 69)), v8);
    nd_store_8(((unsigned char *)((uintptr_t)v1 + 70)), v10);
    nd_memcpy(((unsigned char *)((uintptr_t)v1 + 71)), v14.b, 5);
    nd_store_32(((unsigned char *)((uintptr_t)v1 + 76)), v13);
    nd_store_8(((unsigned char *)((uintptr_t)v1 + 80)), v4);
    nd_memset(((unsigned char *)((uintptr_t)v1 + 81)), 0, 7);
    goto L1;
L3:;
    if (v5 == 0U) goto L5;
    nd_memcpy(v15.b, v11, 5);
    nd_store_32(((unsigned char *)((uintptr_t)v1 + 64)), 3U);
    nd_store_8(((unsigned char *)((uintptr_t)v1 + 68)), v6);
    nd_store_8(((unsigned char *)((uintptr_t)v1 + 69)), v8);
    nd_store_8(((unsigned char *)((uintptr_t)v1 + 70)), v10);
    nd_memcpy(((unsigned char *)((uintptr_t)v1 + 71)), v15.b, 5);
    nd_store_32(((unsigned char *)((uintptr_t)v1 + 76)), v13);
    nd_store_32(((unsigned char *)((uintptr_t)v1 + 80)), v5);
    nd_store_32(((unsigned char *)((uintptr_t)v1 + 84)), 0U);
    goto L1;
L5:;
    v34 = (uint8_t)(v10 & 1);
    v36 = nd_load_32(((unsigned char *)((uintptr_t)v1 + 4)));
    if (!v34) goto L7;
    v39 = nd_usub_sat_i32(nd_load_32(((unsigned char *)((uintptr_t)v1 + 8))), 1U);
    v42 = nd_usub_sat_i32(nd_load_32(((unsigned char *)((uintptr_t)v1 + 12))), v13);
    v47 = 1;
    v48 = v36;
    v49 = v39;
    v50 = v42;
    goto L8;
L7:;
    v43 = nd_usub_sat_i32(v36, 1U);
    v47 = 0;
    v48 = v43;
    v49 = nd_load_32(((unsigned char *)((uintptr_t)v2 + 8)));
    v50 = nd_load_32(v2);
L8:;
    nd_store_8(v1, 0);
    nd_store_8((v1 + 1), v47);
    nd_store_16((v1 + 2), 0);
    nd_store_32((v1 + 4), v48);
    nd_store_32((v1 + 8), v49);
    nd_store_32((v1 + 12), v50);
    nd_store_8(((unsigned char *)((uintptr_t)v1 + 16)), nd_load_8(((unsigned char *)((uintptr_t)v2 + 12))));
    nd_store_8(((unsigned char *)((uintptr_t)v1 + 17)), 0);
    nd_store_8(((unsigned char *)((uintptr_t)v1 + 18)), v47);
    nd_store_8(((unsigned char *)((uintptr_t)v1 + 19)), (uint8_t)(v49 == 1U));
    nd_store_8(((unsigned char *)((uintptr_t)v1 + 20)), (uint8_t)(v48 == 1U));
    nd_memset(((unsigned char *)((uintptr_t)v1 + 21)), 0, 3);
    nd_store_32(((unsigned char *)((uintptr_t)v1 + 24)), v50);
    nd_memset(((unsigned char *)((uintptr_t)v1 + 28)), 0, 36);
    nd_store_32(((unsigned char *)((uintptr_t)v1 + 64)), (v34 ? 0U : (uint32_t)(uint8_t)((uint32_t)v8 << 2)));
    nd_memset(((unsigned char *)((uintptr_t)v1 + 68)), 0, 20);
    goto L1;
}

static void nd_ndef_message_items_ItemsIterator_next(unsigned char *v1, unsigned char *v2) {
    unsigned char *v3, *v6, *v9, *v11, *v12, *v44, *v54;
    uint64_t v4, v8, v13, v45, v53, v55, v57, v59, v61, v62, v67, v71;
    uint32_t v7, v42, v43, v68;
    uint8_t v14;
    v3 = v2 + 8;
    v4 = nd_load_64(v3);
    if (v4 == 0ULL) goto L2;
    goto L3;
L1:;
    return;
L2:;
    nd_memset(v1, 0, 32);
    goto L1;
L3:;
    v6 = nd_load_ptr(v2);
    v7 = 0U;
    v8 = v4;
    v9 = v6;
L4:;
    if (v8 < 2ULL) goto L16;
    v11 = (unsigned char *)((uintptr_t)v9 + 1);
    v12 = (unsigned char *)((uintptr_t)v9 + 2);
    v13 = v8 + 18446744073709551614ULL;
    v14 = nd_load_8(v9);
    if ((uint8_t)(v14 & 16) == 0) goto L8;
    if (v13 == 0ULL) goto L16;
    v43 = (uint32_t)nd_load_8(v12);
    v44 = (unsigned char *)((uintptr_t)v9 + 3);
    v45 = v8 + 18446744073709551613ULL;
    goto L10;
L8:;
    if (v13 < 4ULL) goto L16;
    v42 = nd_bswap_i32((((((uint32_t)nd_load_8(((unsigned char *)((uintptr_t)v9 + 3))) << 8) | (uint32_t)nd_load_8(v12)) | ((uint32_t)nd_load_8(((unsigned char *)((uintptr_t)v9 + 4))) << 16)) | ((uint32_t)nd_load_8(((unsigned char *)((uintptr_t)v9 + 5))) << 24)));
    v43 = v42;
    v44 = (unsigned char *)((uintptr_t)v9 + 6);
    v45 = v8 + 18446744073709551610ULL;
L10:;
    if ((uint8_t)(v14 & 8) == 0) { v53 = 0ULL; v54 = v44; v55 = v45; goto L13; }
    if (v45 == 0ULL) goto L16;
    v53 = (uint64_t)nd_load_8(v44);
    v54 = (unsigned char *)((uintptr_t)v44 + 1);
    v55 = v45 + 18446744073709551615ULL;
L13:;
    v57 = (uint64_t)nd_load_8(v11);
    if (v55 < v57) goto L16;
    v59 = v55 - v57;
    if (v59 < v53) goto L16;
    v61 = v59 - v53;
    v62 = (uint64_t)v43;
    if (!(v61 < v62)) goto L17;
L16:;
    nd_stop();
L17:;
    v67 = v61 - v62;
    v68 = v43 + v7;
    if (!((uint8_t)(v14 & 32) == 0)) { v7 = v68; v8 = v67; v9 = (unsigned char *)((uintptr_t)((unsigned char *)((uintptr_t)((unsigned char *)((uintptr_t)v54 + (uintptr_t)v57)) + (uintptr_t)v53)) + (uintptr_t)v62); goto L4; }
    v71 = v4 - v67;
    nd_store_ptr(v2, ((unsigned char *)((uintptr_t)v6 + (uintptr_t)v71)));
    nd_store_64(v3, v67);
    nd_store_64(v1, 1ULL);
    nd_store_ptr(((unsigned char *)((uintptr_t)v1 + 8)), v6);
    nd_store_64(((unsigned char *)((uintptr_t)v1 + 16)), v71);
    nd_store_32(((unsigned char *)((uintptr_t)v1 + 24)), v68);
    nd_store_32(((unsigned char *)((uintptr_t)v1 + 28)), 0U);
    goto L1;
}

static uint8_t nd_ndef_message_item_Item_tnf(unsigned char *v1) {
    unsigned char *v2, *v6, *v7, *v39;
    uint64_t v4, v8, v40, v47, v48, v50, v52;
    uint8_t v9;
    uint32_t v37, v38;
    v2 = nd_load_ptr(v1);
    v4 = nd_load_64((v1 + 8));
    if (v4 < 2ULL) goto L12;
    v6 = (unsigned char *)((uintptr_t)v2 + 1);
    v7 = (unsigned char *)((uintptr_t)v2 + 2);
    v8 = v4 + 18446744073709551614ULL;
    v9 = nd_load_8(v2);
    if ((uint8_t)(v9 & 16) == 0) goto L4;
    if (v8 == 0ULL) goto L12;
    v38 = (uint32_t)nd_load_8(v7);
    v39 = (unsigned char *)((uintptr_t)v2 + 3);
    v40 = v4 + 18446744073709551613ULL;
    goto L6;
L4:;
    if (v8 < 4ULL) goto L12;
    v37 = nd_bswap_i32((((((uint32_t)nd_load_8(((unsigned char *)((uintptr_t)v2 + 3))) << 8) | (uint32_t)nd_load_8(v7)) | ((uint32_t)nd_load_8(((unsigned char *)((uintptr_t)v2 + 4))) << 16)) | ((uint32_t)nd_load_8(((unsigned char *)((uintptr_t)v2 + 5))) << 24)));
    v38 = v37;
    v39 = (unsigned char *)((uintptr_t)v2 + 6);
    v40 = v4 + 18446744073709551610ULL;
L6:;
    if ((uint8_t)(v9 & 8) == 0) { v47 = 0ULL; v48 = v40; goto L9; }
    if (v40 == 0ULL) goto L12;
    v47 = (uint64_t)nd_load_8(v39);
    v48 = v40 + 18446744073709551615ULL;
L9:;
    v50 = (uint64_t)nd_load_8(v6);
    if (v48 < v50) goto L12;
    v52 = v48 - v50;
    if (v52 < v47) goto L12;
    if (!((v52 - v47) < (uint64_t)v38)) goto L13;
L12:;
    nd_stop();
L13:;
    return (uint8_t)(361982334838374656ULL >> ((uint64_t)(uint8_t)((uint8_t)((uint32_t)v9 << 3) & 56) & 63));
}

static void nd_ndef_diagnostics_record_remark_held_remark(unsigned char *v1, uint8_t v2, unsigned char *v3, uint64_t v4, unsigned char *v5) {
    uint64_t v20, v28, v38, v43, v75, v83, v85, v87, v89, v92, v99, v104, v106, v109, v113, v115, v120, v152, v160, v162, v164, v166, v169, v176, v181, v183, v186, v188, v190, v205, v217, v220, v229, v231, v236, v268, v276, v278, v280, v282, v297;
    unsigned char *v25, *v26, *v32, *v33, *v34, *v35, *v36, *v37, *v41, *v42, *v74, *v84, *v98, *v107, *v114, *v118, *v119, *v151, *v161, *v175, *v184, *v216, *v227, *v228, *v230, *v234, *v235, *v267, *v277;
    uint8_t v39, v44, v97, v112, v116, v121, v174, v192, v194, v211, v212, v218, v232, v237, v279, v306, v307, v308, v314, v315, v316, v317, v318, v319;
    uint32_t v72, v73, v149, v150, v265, v266;
    ND_ROOM(16) v6, v8, v11, v13;
    ND_ROOM(32) v7, v9, v12, v14, v16;
    ND_ROOM(3) v10, v15;
    v20 = (uint64_t)((v2 != 3) & (int)(v4 != 0ULL));
    nd_ndef_diagnostics_few_small_message(v16.b, ((unsigned char *)((uintptr_t)v3 + (uintptr_t)v20)), (v4 - v20));
    if (!(nd_load_8(v16.b) == 1)) { v317 = 0; v318 = 0; v319 = 0; goto L79; }
    v25 = v16.b + 8;
    v26 = nd_load_ptr(v25);
    v28 = nd_load_64((v16.b + 16));
    nd_memset(v15.b, 0, 3);
    switch (v2) {
    case 3: goto L2;
    case 4: goto L48;
    case 5: goto L76;
    default: goto L77; }
L2:;
    nd_memset(v14.b, 0, 32);
    nd_store_ptr(v13.b, v26);
    nd_store_64((v13.b + 8), v28);
    nd_ndef_message_items_ItemsIterator_next(v14.b, v13.b);
    if (!(nd_load_8(v14.b) == 1)) { v211 = 0; v212 = 0; goto L47; }
    v32 = v14.b + 8;
    v33 = v11.b + 8;
    v34 = v12.b + 8;
    v35 = v12.b + 16;
    v36 = v14.b + 16;
L4:;
    v37 = nd_load_ptr(v32);
    v38 = nd_load_64(v36);
    v39 = nd_ndef_diagnostics_poster_remark_is_title(v32);
    if (!v39) goto L45;
    if (v38 < 2ULL) goto L17;
    v41 = (unsigned char *)((uintptr_t)v37 + 1);
    v42 = (unsigned char *)((uintptr_t)v37 + 2);
    v43 = v38 + 18446744073709551614ULL;
    v44 = nd_load_8(v37);
    if ((uint8_t)(v44 & 16) == 0) goto L9;
    if (v43 == 0ULL) goto L17;
    v73 = (uint32_t)nd_load_8(v42);
    v74 = (unsigned char *)((uintptr_t)v37 + 3);
    v75 = v38 + 18446744073709551613ULL;
    goto L11;
L9:;
    if (v43 < 4ULL) goto L17;
    v72 = nd_bswap_i32((((((uint32_t)nd_load_8(((unsigned char *)((uintptr_t)v37 + 3))) << 8) | (uint32_t)nd_load_8(v42)) | ((uint32_t)nd_load_8(((unsigned char *)((uintptr_t)v37 + 4))) << 16)) | ((uint32_t)nd_load_8(((unsigned char *)((uintptr_t)v37 + 5))) << 24)));
    v73 = v72;
    v74 = (unsigned char *)((uintptr_t)v37 + 6);
    v75 = v38 + 18446744073709551610ULL;
L11:;
    if ((uint8_t)(v44 & 8) == 0) { v83 = 0ULL; v84 = v74; v85 = v75; goto L14; }
    if (v75 == 0ULL) goto L17;
    v83 = (uint64_t)nd_load_8(v74);
    v84 = (unsigned char *)((uintptr_t)v74 + 1);
    v85 = v75 + 18446744073709551615ULL;
L14:;
    v87 = (uint64_t)nd_load_8(v41);
    if (v85 < v87) goto L17;
    v89 = v85 - v87;
    if (v89 < v83) goto L17;
    v92 = (uint64_t)v73;
    if (!((v89 - v83) < v92)) goto L18;
L17:;
    nd_stop();
L18:;
    v97 = (uint8_t)(v44 & 32) == 0;
    v98 = v97 ? ((unsigned char *)((uintptr_t)((unsigned char *)((uintptr_t)v84 + (uintptr_t)v87)) + (uintptr_t)v83)) : (unsigned char *)nd_data_static_50;
    v99 = v97 ? v92 : 0ULL;
    if (v99 == 0ULL) { v104 = 0ULL; goto L20; }
    v104 = (uint64_t)(uint8_t)(nd_load_8(v98) & 63);
L20:;
    v106 = (uint64_t)(v99 != 0ULL);
    v107 = (unsigned char *)((uintptr_t)v98 + (uintptr_t)v106);
    v109 = nd_umin_i64((v99 - v106), v104);
    nd_memset(v12.b, 0, 32);
    nd_store_ptr(v11.b, v26);
    nd_store_64(v33, v28);
    nd_ndef_message_items_ItemsIterator_next(v12.b, v11.b);
    if (!(nd_load_8(v12.b) == 1)) goto L46;
    v112 = v109 == 0ULL;
    v113 = 0ULL;
L22:;
    v114 = nd_load_ptr(v34);
    v115 = nd_load_64(v35);
    v116 = nd_ndef_diagnostics_poster_remark_is_title(v34);
    if (!v116) { v205 = v113; goto L43; }
    if (v115 < 2ULL) goto L35;
    v118 = (unsigned char *)((uintptr_t)v114 + 1);
    v119 = (unsigned char *)((uintptr_t)v114 + 2);
    v120 = v115 + 18446744073709551614ULL;
    v121 = nd_load_8(v114);
    if ((uint8_t)(v121 & 16) == 0) goto L27;
    if (v120 == 0ULL) goto L35;
    v150 = (uint32_t)nd_load_8(v119);
    v151 = (unsigned char *)((uintptr_t)v114 + 3);
    v152 = v115 + 18446744073709551613ULL;
    goto L29;
L27:;
    if (v120 < 4ULL) goto L35;
    v149 = nd_bswap_i32((((((uint32_t)nd_load_8(((unsigned char *)((uintptr_t)v114 + 3))) << 8) | (uint32_t)nd_load_8(v119)) | ((uint32_t)nd_load_8(((unsigned char *)((uintptr_t)v114 + 4))) << 16)) | ((uint32_t)nd_load_8(((unsigned char *)((uintptr_t)v114 + 5))) << 24)));
    v150 = v149;
    v151 = (unsigned char *)((uintptr_t)v114 + 6);
    v152 = v115 + 18446744073709551610ULL;
L29:;
    if ((uint8_t)(v121 & 8) == 0) { v160 = 0ULL; v161 = v151; v162 = v152; goto L32; }
    if (v152 == 0ULL) goto L35;
    v160 = (uint64_t)nd_load_8(v151);
    v161 = (unsigned char *)((uintptr_t)v151 + 1);
    v162 = v152 + 18446744073709551615ULL;
L32:;
    v164 = (uint64_t)nd_load_8(v118);
    if (v162 < v164) goto L35;
    v166 = v162 - v164;
    if (v166 < v160) goto L35;
    v169 = (uint64_t)v150;
    if (!((v166 - v160) < v169)) goto L36;
L35:;
    nd_stop();
L36:;
    v174 = (uint8_t)(v121 & 32) == 0;
    v175 = v174 ? ((unsigned char *)((uintptr_t)((unsigned char *)((uintptr_t)v161 + (uintptr_t)v164)) + (uintptr_t)v160)) : (unsigned char *)nd_data_static_50;
    v176 = v174 ? v169 : 0ULL;
    if (v176 == 0ULL) { v181 = 0ULL; goto L38; }
    v181 = (uint64_t)(uint8_t)(nd_load_8(v175) & 63);
L38:;
    v183 = (uint64_t)(v176 != 0ULL);
    v184 = (unsigned char *)((uintptr_t)v175 + (uintptr_t)v183);
    v186 = nd_umin_i64((v176 - v183), v181);
    if (!(v186 == v109)) { v205 = v113; goto L43; }
    if (v112) goto L42;
    v190 = 0ULL;
    goto L41;
L40:;
    v188 = v190 + 1ULL;
    if (v188 == v109) goto L42;
    v190 = v188;
L41:;
    v192 = nd_load_8((v184 + (ptrdiff_t)v190));
    v194 = nd_load_8((v107 + (ptrdiff_t)v190));
    if ((uint8_t)(((uint8_t)(v192 + 191) < 26) ? (uint8_t)(v192 + 32) : v192) == (uint8_t)(((uint8_t)(v194 + 191) < 26) ? (uint8_t)(v194 + 32) : v194)) goto L40;
    v205 = v113;
    goto L43;
L42:;
    v205 = v113 + 1ULL;
L43:;
    nd_ndef_message_items_ItemsIterator_next(v12.b, v11.b);
    if (nd_load_8(v12.b) == 1) { v113 = v205; goto L22; }
    if (v205 > 1ULL) { v211 = 1; v212 = 10; goto L47; }
L45:;
    nd_ndef_message_items_ItemsIterator_next(v14.b, v13.b);
    if (nd_load_8(v14.b) == 1) goto L4;
    v211 = 0;
    v212 = 0;
    goto L47;
L46:;
    goto L45;
L47:;
    v314 = 0;
    v315 = v212;
    v316 = v211;
    goto L78;
L48:;
    nd_memset(v10.b, 0, 3);
    nd_memset(v9.b, 0, 32);
    nd_store_ptr(v8.b, v26);
    nd_store_64((v8.b + 8), v28);
    nd_ndef_message_items_ItemsIterator_next(v9.b, v8.b);
    if (nd_load_8(v9.b) == 1) goto L50;
    v306 = 0;
    v307 = 11;
    v308 = 1;
    goto L75;
L50:;
    v216 = v9.b + 8;
    v217 = 0ULL;
L51:;
    v218 = nd_ndef_diagnostics_handover_remark_is_carrier(v216);
    v220 = v217 + (uint64_t)v218;
    nd_ndef_message_items_ItemsIterator_next(v9.b, v8.b);
    if (nd_load_8(v9.b) == 1) { v217 = v220; goto L51; }
    if (v220 == 0ULL) { v306 = 0; v307 = 11; v308 = 1; goto L75; }
    nd_memset(v7.b, 0, 32);
    nd_store_ptr(v6.b, v26);
    nd_store_64((v6.b + 8), v28);
    nd_ndef_message_items_ItemsIterator_next(v7.b, v6.b);
    if (nd_load_8(v7.b) == 1) goto L55;
    goto L74;
L55:;
    v227 = v7.b + 8;
    v228 = v7.b + 16;
    v229 = 0ULL;
L56:;
    v230 = nd_load_ptr(v227);
    v231 = nd_load_64(v228);
    v232 = nd_ndef_message_item_Item_tnf(v227);
    if (v231 < 2ULL) goto L68;
    v234 = (unsigned char *)((uintptr_t)v230 + 1);
    v235 = (unsigned char *)((uintptr_t)v230 + 2);
    v236 = v231 + 18446744073709551614ULL;
    v237 = nd_load_8(v230);
    if ((uint8_t)(v237 & 16) == 0) goto L60;
    if (v236 == 0ULL) goto L68;
    v266 = (uint32_t)nd_load_8(v235);
    v267 = (unsigned char *)((uintptr_t)v230 + 3);
    v268 = v231 + 18446744073709551613ULL;
    goto L62;
L60:;
    if (v236 < 4ULL) goto L68;
    v265 = nd_bswap_i32((((((uint32_t)nd_load_8(((unsigned char *)((uintptr_t)v230 + 3))) << 8) | (uint32_t)nd_load_8(v235)) | ((uint32_t)nd_load_8(((unsigned char *)((uintptr_t)v230 + 4))) << 16)) | ((uint32_t)nd_load_8(((unsigned char *)((uintptr_t)v230 + 5))) << 24)));
    v266 = v265;
    v267 = (unsigned char *)((uintptr_t)v230 + 6);
    v268 = v231 + 18446744073709551610ULL;
L62:;
    if ((uint8_t)(v237 & 8) == 0) { v276 = 0ULL; v277 = v267; v278 = v268; goto L65; }
    if (v268 == 0ULL) goto L68;
    v276 = (uint64_t)nd_load_8(v267);
    v277 = (unsigned char *)((uintptr_t)v267 + 1);
    v278 = v268 + 18446744073709551615ULL;
L65:;
    v279 = nd_load_8(v234);
    v280 = (uint64_t)v279;
    if (v278 < v280) goto L68;
    v282 = v278 - v280;
    if (v282 < v276) goto L68;
    if (!((v282 - v276) < (uint64_t)v266)) goto L69;
L68:;
    nd_stop();
L69:;
    if (!((v232 == 1) & (int)(v279 == 2))) { v297 = v229; goto L72; }
    if (!(nd_load_8(v277) == 99)) { v297 = v229; goto L72; }
    v297 = v229 + (uint64_t)(nd_load_8(((unsigned char *)((uintptr_t)v277 + 1))) == 114);
L72:;
    nd_ndef_message_items_ItemsIterator_next(v7.b, v6.b);
    if (nd_load_8(v7.b) == 1) { v229 = v297; goto L56; }
    if (v297 > 1ULL) { v306 = 0; v307 = 12; v308 = 1; goto L75; }
L74:;
    nd_ndef_diagnostics_handover_remark_reference_remark(v10.b, v25, v5);
    v306 = nd_load_8((v10.b + 2));
    v307 = nd_load_8((v10.b + 1));
    v308 = nd_load_8(v10.b);
L75:;
    v314 = v306;
    v315 = v307;
    v316 = v308;
    goto L78;
L76:;
    nd_ndef_diagnostics_handover_remark_reference_remark(v15.b, v25, v5);
    v314 = nd_load_8((v15.b + 2));
    v315 = nd_load_8((v15.b + 1));
    v316 = nd_load_8(v15.b);
    goto L78;
L77:;
    nd_stop();
L78:;
    v317 = v316;
    v318 = v315;
    v319 = v314;
L79:;
    nd_store_8(v1, v317);
    nd_store_8(((unsigned char *)((uintptr_t)v1 + 1)), v318);
    nd_store_8(((unsigned char *)((uintptr_t)v1 + 2)), v319);
    return;
}

static uint8_t nd_ndef_diagnostics_poster_remark_is_title(unsigned char *v1) {
    uint8_t v2, v10, v52, v64, v71;
    unsigned char *v3, *v7, *v8, *v40, *v50;
    uint64_t v5, v9, v41, v49, v51, v53, v55;
    uint32_t v38, v39;
    v2 = nd_ndef_message_item_Item_tnf(v1);
    v3 = nd_load_ptr(v1);
    v5 = nd_load_64((v1 + 8));
    if (v5 < 2ULL) goto L12;
    v7 = (unsigned char *)((uintptr_t)v3 + 1);
    v8 = (unsigned char *)((uintptr_t)v3 + 2);
    v9 = v5 + 18446744073709551614ULL;
    v10 = nd_load_8(v3);
    if ((uint8_t)(v10 & 16) == 0) goto L4;
    if (v9 == 0ULL) goto L12;
    v39 = (uint32_t)nd_load_8(v8);
    v40 = (unsigned char *)((uintptr_t)v3 + 3);
    v41 = v5 + 18446744073709551613ULL;
    goto L6;
L4:;
    if (v9 < 4ULL) goto L12;
    v38 = nd_bswap_i32((((((uint32_t)nd_load_8(((unsigned char *)((uintptr_t)v3 + 3))) << 8) | (uint32_t)nd_load_8(v8)) | ((uint32_t)nd_load_8(((unsigned char *)((uintptr_t)v3 + 4))) << 16)) | ((uint32_t)nd_load_8(((unsigned char *)((uintptr_t)v3 + 5))) << 24)));
    v39 = v38;
    v40 = (unsigned char *)((uintptr_t)v3 + 6);
    v41 = v5 + 18446744073709551610ULL;
L6:;
    if ((uint8_t)(v10 & 8) == 0) { v49 = 0ULL; v50 = v40; v51 = v41; goto L9; }
    if (v41 == 0ULL) goto L12;
    v49 = (uint64_t)nd_load_8(v40);
    v50 = (unsigned char *)((uintptr_t)v40 + 1);
    v51 = v41 + 18446744073709551615ULL;
L9:;
    v52 = nd_load_8(v7);
    v53 = (uint64_t)v52;
    if (v51 < v53) goto L12;
    v55 = v51 - v53;
    if (v55 < v49) goto L12;
    if (!((v55 - v49) < (uint64_t)v39)) goto L13;
L12:;
    nd_stop();
L13:;
    if (!((v2 == 1) & (int)(v52 == 1))) { v71 = 0; goto L16; }
    v64 = (uint8_t)(nd_load_8(v50) + 172);
    if (!(v64 < 33)) { v71 = 0; goto L16; }
    v71 = (uint8_t)((uint8_t)((6442450947ULL >> ((uint64_t)v64 & 63)) & 1) ? (v64 == 0) : 0);
L16:;
    return v71;
}

static uint8_t nd_ndef_diagnostics_handover_remark_is_carrier(unsigned char *v1) {
    uint8_t v2, v10, v52, v65, v68, v69;
    unsigned char *v3, *v7, *v8, *v40, *v50;
    uint64_t v5, v9, v41, v49, v51, v53, v55;
    uint32_t v38, v39;
    v2 = nd_ndef_message_item_Item_tnf(v1);
    v3 = nd_load_ptr(v1);
    v5 = nd_load_64((v1 + 8));
    if (v5 < 2ULL) goto L12;
    v7 = (unsigned char *)((uintptr_t)v3 + 1);
    v8 = (unsigned char *)((uintptr_t)v3 + 2);
    v9 = v5 + 18446744073709551614ULL;
    v10 = nd_load_8(v3);
    if ((uint8_t)(v10 & 16) == 0) goto L4;
    if (v9 == 0ULL) goto L12;
    v39 = (uint32_t)nd_load_8(v8);
    v40 = (unsigned char *)((uintptr_t)v3 + 3);
    v41 = v5 + 18446744073709551613ULL;
    goto L6;
L4:;
    if (v9 < 4ULL) goto L12;
    v38 = nd_bswap_i32((((((uint32_t)nd_load_8(((unsigned char *)((uintptr_t)v3 + 3))) << 8) | (uint32_t)nd_load_8(v8)) | ((uint32_t)nd_load_8(((unsigned char *)((uintptr_t)v3 + 4))) << 16)) | ((uint32_t)nd_load_8(((unsigned char *)((uintptr_t)v3 + 5))) << 24)));
    v39 = v38;
    v40 = (unsigned char *)((uintptr_t)v3 + 6);
    v41 = v5 + 18446744073709551610ULL;
L6:;
    if ((uint8_t)(v10 & 8) == 0) { v49 = 0ULL; v50 = v40; v51 = v41; goto L9; }
    if (v41 == 0ULL) goto L12;
    v49 = (uint64_t)nd_load_8(v40);
    v50 = (unsigned char *)((uintptr_t)v40 + 1);
    v51 = v41 + 18446744073709551615ULL;
L9:;
    v52 = nd_load_8(v7);
    v53 = (uint64_t)v52;
    if (v51 < v53) goto L12;
    v55 = v51 - v53;
    if (v55 < v49) goto L12;
    if (!((v55 - v49) < (uint64_t)v39)) goto L13;
L12:;
    nd_stop();
L13:;
    if (!((v2 == 1) & (int)(v52 == 2))) { v69 = 0; goto L18; }
    v65 = nd_load_8(((unsigned char *)((uintptr_t)v50 + 1)));
    switch (nd_load_8(v50)) {
    case 99: goto L16;
    case 97: goto L15;
    default: { v69 = 0; goto L18; } }
L15:;
    if (v65 == 99) { v68 = 1; goto L17; }
    v69 = 0;
    goto L18;
L16:;
    if (v65 == 114) { v68 = 0; goto L17; }
    v69 = 0;
    goto L18;
L17:;
    v69 = v68;
L18:;
    return v69;
}

static void nd_ndef_diagnostics_handover_remark_reference_remark(unsigned char *v1, unsigned char *v2, unsigned char *v3) {
    uint64_t v8, v15, v20, v52, v60, v62, v64, v66, v69, v76, v81, v82, v88, v93, v98, v100, v104, v108, v112, v117, v121, v123, v125, v128, v131;
    unsigned char *v12, *v13, *v14, *v18, *v19, *v51, *v61, *v75, *v90, *v92, *v97, *v115;
    uint8_t v16, v21, v74, v77, v87, v94, v99, v116, v134, v138, v139;
    uint32_t v49, v50;
    ND_ROOM(16) v4;
    ND_ROOM(32) v5;
    nd_memset(v5.b, 0, 32);
    v8 = nd_load_64((v2 + 8));
    nd_store_ptr(v4.b, nd_load_ptr(v2));
    nd_store_64((v4.b + 8), v8);
    nd_ndef_message_items_ItemsIterator_next(v5.b, v4.b);
    if (!(nd_load_8(v5.b) == 1)) { v138 = 0; v139 = 0; goto L32; }
    v12 = v5.b + 8;
    v13 = v5.b + 16;
L2:;
    v14 = nd_load_ptr(v12);
    v15 = nd_load_64(v13);
    v16 = nd_ndef_diagnostics_handover_remark_is_carrier(v12);
    if (!v16) goto L31;
    if (v15 < 2ULL) goto L15;
    v18 = (unsigned char *)((uintptr_t)v14 + 1);
    v19 = (unsigned char *)((uintptr_t)v14 + 2);
    v20 = v15 + 18446744073709551614ULL;
    v21 = nd_load_8(v14);
    if ((uint8_t)(v21 & 16) == 0) goto L7;
    if (v20 == 0ULL) goto L15;
    v50 = (uint32_t)nd_load_8(v19);
    v51 = (unsigned char *)((uintptr_t)v14 + 3);
    v52 = v15 + 18446744073709551613ULL;
    goto L9;
L7:;
    if (v20 < 4ULL) goto L15;
    v49 = nd_bswap_i32((((((uint32_t)nd_load_8(((unsigned char *)((uintptr_t)v14 + 3))) << 8) | (uint32_t)nd_load_8(v19)) | ((uint32_t)nd_load_8(((unsigned char *)((uintptr_t)v14 + 4))) << 16)) | ((uint32_t)nd_load_8(((unsigned char *)((uintptr_t)v14 + 5))) << 24)));
    v50 = v49;
    v51 = (unsigned char *)((uintptr_t)v14 + 6);
    v52 = v15 + 18446744073709551610ULL;
L9:;
    if ((uint8_t)(v21 & 8) == 0) { v60 = 0ULL; v61 = v51; v62 = v52; goto L12; }
    if (v52 == 0ULL) goto L15;
    v60 = (uint64_t)nd_load_8(v51);
    v61 = (unsigned char *)((uintptr_t)v51 + 1);
    v62 = v52 + 18446744073709551615ULL;
L12:;
    v64 = (uint64_t)nd_load_8(v18);
    if (v62 < v64) goto L15;
    v66 = v62 - v64;
    if (v66 < v60) goto L15;
    v69 = (uint64_t)v50;
    if (!((v66 - v60) < v69)) goto L16;
L15:;
    nd_stop();
L16:;
    v74 = (uint8_t)(v21 & 32) == 0;
    v75 = v74 ? ((unsigned char *)((uintptr_t)((unsigned char *)((uintptr_t)v61 + (uintptr_t)v64)) + (uintptr_t)v60)) : (unsigned char *)nd_data_static_50;
    v76 = v74 ? v69 : 0ULL;
    v77 = v76 > 1ULL;
    if (!v77) { v81 = 0ULL; goto L18; }
    v81 = (uint64_t)nd_load_8((v75 + 1));
L18:;
    v82 = v81 + 2ULL;
    if (!(v76 > v82)) goto L20;
    v92 = (unsigned char *)((uintptr_t)v75 + 1);
    v93 = 18446744073709551615ULL;
    v94 = nd_load_8(((unsigned char *)((uintptr_t)v75 + (uintptr_t)v82)));
    goto L21;
L20:;
    v87 = v76 != 0ULL;
    v88 = (uint64_t)(0 - (uint64_t)v87);
    v90 = (unsigned char *)((uintptr_t)v75 + (uintptr_t)(uint64_t)v87);
    if (v76 < 2ULL) { v97 = v90; v98 = v88; v99 = 0; v100 = 0ULL; goto L22; }
    v92 = v90;
    v93 = v88;
    v94 = 0;
L21:;
    v97 = v92;
    v98 = v93;
    v99 = v94;
    v100 = (uint64_t)nd_load_8(v92);
L22:;
    v104 = nd_umin_i64(((v76 + (uint64_t)(0 - (uint64_t)v77)) + v98), v100);
    if (v104 == 0ULL) { v138 = 1; v139 = 13; goto L32; }
    v108 = nd_ndef_diagnostics_few_count_id(v3, ((unsigned char *)((uintptr_t)v97 + (uintptr_t)(uint64_t)v77)), v104);
    if (v108 == 0ULL) { v138 = 1; v139 = 13; goto L32; }
    if (v99 == 0) goto L31;
    v112 = nd_umin_i64(v76, (v81 + 3ULL));
    v115 = (unsigned char *)((uintptr_t)v75 + (uintptr_t)v112);
    v116 = v99;
    v117 = v76 - v112;
L26:;
    if (v117 == 0ULL) { v121 = 0ULL; goto L28; }
    v121 = (uint64_t)nd_load_8(v115);
L28:;
    v123 = (uint64_t)(v117 != 0ULL);
    v125 = nd_umin_i64((v117 - v123), v121);
    if (v125 == 0ULL) { v138 = 1; v139 = 13; goto L32; }
    v128 = nd_ndef_diagnostics_few_count_id(v3, ((unsigned char *)((uintptr_t)v115 + (uintptr_t)v123)), v125);
    if (v128 == 0ULL) { v138 = 1; v139 = 13; goto L32; }
    v131 = nd_umin_i64(v117, (v121 + 1ULL));
    v134 = (uint8_t)(v116 + 255);
    if (!(v134 == 0)) { v115 = (unsigned char *)((uintptr_t)v115 + (uintptr_t)v131); v116 = v134; v117 = v117 - v131; goto L26; }
L31:;
    nd_ndef_message_items_ItemsIterator_next(v5.b, v4.b);
    if (nd_load_8(v5.b) == 1) goto L2;
    v138 = 0;
    v139 = 0;
L32:;
    nd_store_8(v1, v138);
    nd_store_8(((unsigned char *)((uintptr_t)v1 + 1)), v139);
    nd_store_8(((unsigned char *)((uintptr_t)v1 + 2)), 0);
    return;
}

static uint64_t nd_ndef_diagnostics_few_count_id(unsigned char *v1, unsigned char *v2, uint64_t v3) {
    uint64_t v8, v19, v21, v25, v57, v65, v67, v69, v71, v96, v102, v107, v110;
    unsigned char *v12, *v13, *v15, *v16, *v17, *v20, *v23, *v24, *v56, *v66, *v76;
    uint8_t v14, v18, v26, v105;
    uint32_t v54, v55;
    ND_ROOM(16) v4;
    ND_ROOM(32) v5;
    nd_memset(v5.b, 0, 32);
    v8 = nd_load_64((v1 + 8));
    nd_store_ptr(v4.b, nd_load_ptr(v1));
    nd_store_64((v4.b + 8), v8);
    nd_ndef_message_items_ItemsIterator_next(v5.b, v4.b);
    if (!(nd_load_8(v5.b) == 1)) { v110 = 0ULL; goto L25; }
    v12 = v5.b + 8;
    v13 = v5.b + 16;
    v14 = v3 < 4ULL;
    v15 = (unsigned char *)((uintptr_t)v2 + 1);
    v16 = (unsigned char *)((uintptr_t)v2 + 2);
    v17 = (unsigned char *)((uintptr_t)v2 + 3);
    v18 = v3 == 0ULL;
    v19 = 0ULL;
L2:;
    v20 = nd_load_ptr(v12);
    v21 = nd_load_64(v13);
    if (v21 < 2ULL) goto L14;
    v23 = (unsigned char *)((uintptr_t)v20 + 1);
    v24 = (unsigned char *)((uintptr_t)v20 + 2);
    v25 = v21 + 18446744073709551614ULL;
    v26 = nd_load_8(v20);
    if ((uint8_t)(v26 & 16) == 0) goto L6;
    if (v25 == 0ULL) goto L14;
    v55 = (uint32_t)nd_load_8(v24);
    v56 = (unsigned char *)((uintptr_t)v20 + 3);
    v57 = v21 + 18446744073709551613ULL;
    goto L8;
L6:;
    if (v25 < 4ULL) goto L14;
    v54 = nd_bswap_i32((((((uint32_t)nd_load_8(((unsigned char *)((uintptr_t)v20 + 3))) << 8) | (uint32_t)nd_load_8(v24)) | ((uint32_t)nd_load_8(((unsigned char *)((uintptr_t)v20 + 4))) << 16)) | ((uint32_t)nd_load_8(((unsigned char *)((uintptr_t)v20 + 5))) << 24)));
    v55 = v54;
    v56 = (unsigned char *)((uintptr_t)v20 + 6);
    v57 = v21 + 18446744073709551610ULL;
L8:;
    if ((uint8_t)(v26 & 8) == 0) { v65 = 0ULL; v66 = v56; v67 = v57; goto L11; }
    if (v57 == 0ULL) goto L14;
    v65 = (uint64_t)nd_load_8(v56);
    v66 = (unsigned char *)((uintptr_t)v56 + 1);
    v67 = v57 + 18446744073709551615ULL;
L11:;
    v69 = (uint64_t)nd_load_8(v23);
    if (v67 < v69) goto L14;
    v71 = v67 - v69;
    if (v71 < v65) goto L14;
    if (!((v71 - v65) < (uint64_t)v55)) goto L15;
L14:;
    nd_stop();
L15:;
    v76 = (unsigned char *)((uintptr_t)v66 + (uintptr_t)v69);
    if (!(v65 == v3)) { v107 = v19; goto L24; }
    if (v14) goto L18;
    if ((((nd_load_8(v76) != nd_load_8(v2)) | (int)(nd_load_8(((unsigned char *)((uintptr_t)v76 + 1))) != nd_load_8(v15))) | (int)(nd_load_8(((unsigned char *)((uintptr_t)v76 + 2))) != nd_load_8(v16))) | (int)(nd_load_8(((unsigned char *)((uintptr_t)v76 + 3))) != nd_load_8(v17))) { v107 = v19; goto L24; }
    goto L22;
L18:;
    if (v18) goto L23;
    v96 = 0ULL;
L19:;
    if (!(nd_load_8(((unsigned char *)((uintptr_t)v76 + (uintptr_t)v96))) == nd_load_8(((unsigned char *)((uintptr_t)v2 + (uintptr_t)v96))))) goto L21;
    v102 = v96 + 1ULL;
    if (v102 == v3) goto L23;
    v96 = v102;
    goto L19;
L21:;
    if (v96 < v3) { v107 = v19; goto L24; }
    goto L23;
L22:;
    v105 = nd_core_cmp_slices_groups_equal(v76, v3, v2);
    if (!v105) { v107 = v19; goto L24; }
L23:;
    v107 = v19 + 1ULL;
L24:;
    nd_ndef_message_items_ItemsIterator_next(v5.b, v4.b);
    if (nd_load_8(v5.b) == 1) { v19 = v107; goto L2; }
    v110 = v107;
L25:;
    return v110;
}

static uint8_t nd_core_cmp_slices_groups_equal(unsigned char *v1, uint64_t v2, unsigned char *v3) {
    uint64_t v19, v25, v32, v39, v85, v86, v91, v96, v101, v106, v111, v116, v121, v126, v131, v136, v141, v146, v151, v156, v161, v171, v178, v185, v192, v199, v206, v213, v269, v271, v278, v280, v282, v283, v290, v293, v295, v296, v303, v305, v308, v311, v313, v314, v321, v323, v328, v330, v331, v338;
    uint8_t v55, v56, v59, v60, v63, v64, v67, v68, v71, v72, v75, v76, v79, v80, v83, v84, v89, v90, v94, v95, v99, v100, v104, v105, v109, v110, v114, v115, v119, v120, v124, v125, v267, v270, v277, v281, v289, v294, v302, v312, v320, v329, v337, v340;
    if (!(v2 < 9ULL)) goto L2;
    v19 = v2 + 18446744073709551612ULL;
    v25 = v2 + 18446744073709551613ULL;
    v32 = v2 + 18446744073709551614ULL;
    v39 = v2 + 18446744073709551615ULL;
    v340 = ((((nd_load_8(v1) != nd_load_8(v3)) | (int)(nd_load_8(((unsigned char *)((uintptr_t)v1 + 1))) != nd_load_8(((unsigned char *)((uintptr_t)v3 + 1))))) | (int)(nd_load_8(((unsigned char *)((uintptr_t)v1 + 2))) != nd_load_8(((unsigned char *)((uintptr_t)v3 + 2))))) | (int)(nd_load_8(((unsigned char *)((uintptr_t)v1 + 3))) != nd_load_8(((unsigned char *)((uintptr_t)v3 + 3))))) | (int)((((nd_load_8(((unsigned char *)((uintptr_t)v1 + (uintptr_t)v19))) != nd_load_8(((unsigned char *)((uintptr_t)v3 + (uintptr_t)v19)))) | (int)(nd_load_8(((unsigned char *)((uintptr_t)v1 + (uintptr_t)v25))) != nd_load_8(((unsigned char *)((uintptr_t)v3 + (uintptr_t)v25))))) | (int)(nd_load_8(((unsigned char *)((uintptr_t)v1 + (uintptr_t)v32))) != nd_load_8(((unsigned char *)((uintptr_t)v3 + (uintptr_t)v32))))) | (int)(nd_load_8(((unsigned char *)((uintptr_t)v1 + (uintptr_t)v39))) != nd_load_8(((unsigned char *)((uintptr_t)v3 + (uintptr_t)v39)))));
    goto L22;
L2:;
    if (!(v2 < 33ULL)) goto L4;
    v55 = nd_load_8(v1);
    v56 = nd_load_8(v3);
    v59 = nd_load_8(((unsigned char *)((uintptr_t)v1 + 1)));
    v60 = nd_load_8(((unsigned char *)((uintptr_t)v3 + 1)));
    v63 = nd_load_8(((unsigned char *)((uintptr_t)v1 + 2)));
    v64 = nd_load_8(((unsigned char *)((uintptr_t)v3 + 2)));
    v67 = nd_load_8(((unsigned char *)((uintptr_t)v1 + 3)));
    v68 = nd_load_8(((unsigned char *)((uintptr_t)v3 + 3)));
    v71 = nd_load_8(((unsigned char *)((uintptr_t)v1 + 4)));
    v72 = nd_load_8(((unsigned char *)((uintptr_t)v3 + 4)));
    v75 = nd_load_8(((unsigned char *)((uintptr_t)v1 + 5)));
    v76 = nd_load_8(((unsigned char *)((uintptr_t)v3 + 5)));
    v79 = nd_load_8(((unsigned char *)((uintptr_t)v1 + 6)));
    v80 = nd_load_8(((unsigned char *)((uintptr_t)v3 + 6)));
    v83 = nd_load_8(((unsigned char *)((uintptr_t)v1 + 7)));
    v84 = nd_load_8(((unsigned char *)((uintptr_t)v3 + 7)));
    v85 = v2 + 18446744073709551608ULL;
    v86 = nd_umin_i64(v85, 8ULL);
    v89 = nd_load_8(((unsigned char *)((uintptr_t)v1 + (uintptr_t)v86)));
    v90 = nd_load_8(((unsigned char *)((uintptr_t)v3 + (uintptr_t)v86)));
    v91 = v86 + 1ULL;
    v94 = nd_load_8(((unsigned char *)((uintptr_t)v1 + (uintptr_t)v91)));
    v95 = nd_load_8(((unsigned char *)((uintptr_t)v3 + (uintptr_t)v91)));
    v96 = v86 + 2ULL;
    v99 = nd_load_8(((unsigned char *)((uintptr_t)v1 + (uintptr_t)v96)));
    v100 = nd_load_8(((unsigned char *)((uintptr_t)v3 + (uintptr_t)v96)));
    v101 = v86 + 3ULL;
    v104 = nd_load_8(((unsigned char *)((uintptr_t)v1 + (uintptr_t)v101)));
    v105 = nd_load_8(((unsigned char *)((uintptr_t)v3 + (uintptr_t)v101)));
    v106 = v86 + 4ULL;
    v109 = nd_load_8(((unsigned char *)((uintptr_t)v1 + (uintptr_t)v106)));
    v110 = nd_load_8(((unsigned char *)((uintptr_t)v3 + (uintptr_t)v106)));
    v111 = v86 + 5ULL;
    v114 = nd_load_8(((unsigned char *)((uintptr_t)v1 + (uintptr_t)v111)));
    v115 = nd_load_8(((unsigned char *)((uintptr_t)v3 + (uintptr_t)v111)));
    v116 = v86 + 6ULL;
    v119 = nd_load_8(((unsigned char *)((uintptr_t)v1 + (uintptr_t)v116)));
    v120 = nd_load_8(((unsigned char *)((uintptr_t)v3 + (uintptr_t)v116)));
    v121 = v86 + 7ULL;
    v124 = nd_load_8(((unsigned char *)((uintptr_t)v1 + (uintptr_t)v121)));
    v125 = nd_load_8(((unsigned char *)((uintptr_t)v3 + (uintptr_t)v121)));
    v126 = nd_umin_i64(v85, 16ULL);
    v131 = v126 + 1ULL;
    v136 = v126 + 2ULL;
    v141 = v126 + 3ULL;
    v146 = v126 + 4ULL;
    v151 = v126 + 5ULL;
    v156 = v126 + 6ULL;
    v161 = v126 + 7ULL;
    v171 = v2 + 18446744073709551609ULL;
    v178 = v2 + 18446744073709551610ULL;
    v185 = v2 + 18446744073709551611ULL;
    v192 = v2 + 18446744073709551612ULL;
    v199 = v2 + 18446744073709551613ULL;
    v206 = v2 + 18446744073709551614ULL;
    v213 = v2 + 18446744073709551615ULL;
    v267 = ((((((((((v55 != v56) | (int)(v59 != v60)) | (int)(v63 != v64)) | (int)(v67 != v68)) | (int)(v71 != v72)) | (int)(v75 != v76)) | (int)(v79 != v80)) | (int)(v83 != v84)) | (int)((((((((v89 != v90) | (int)(v94 != v95)) | (int)(v99 != v100)) | (int)(v104 != v105)) | (int)(v109 != v110)) | (int)(v114 != v115)) | (int)(v119 != v120)) | (int)(v124 != v125))) | (int)((((((((nd_load_8(((unsigned char *)((uintptr_t)v1 + (uintptr_t)v126))) != nd_load_8(((unsigned char *)((uintptr_t)v3 + (uintptr_t)v126)))) | (int)(nd_load_8(((unsigned char *)((uintptr_t)v1 + (uintptr_t)v131))) != nd_load_8(((unsigned char *)((uintptr_t)v3 + (uintptr_t)v131))))) | (int)(nd_load_8(((unsigned char *)((uintptr_t)v1 + (uintptr_t)v136))) != nd_load_8(((unsigned char *)((uintptr_t)v3 + (uintptr_t)v136))))) | (int)(nd_load_8(((unsigned char *)((uintptr_t)v1 + (uintptr_t)v141))) != nd_load_8(((unsigned char *)((uintptr_t)v3 + (uintptr_t)v141))))) | (int)(nd_load_8(((unsigned char *)((uintptr_t)v1 + (uintptr_t)v146))) != nd_load_8(((unsigned char *)((uintptr_t)v3 + (uintptr_t)v146))))) | (int)(nd_load_8(((unsigned char *)((uintptr_t)v1 + (uintptr_t)v151))) != nd_load_8(((unsigned char *)((uintptr_t)v3 + (uintptr_t)v151))))) | (int)(nd_load_8(((unsigned char *)((uintptr_t)v1 + (uintptr_t)v156))) != nd_load_8(((unsigned char *)((uintptr_t)v3 + (uintptr_t)v156))))) | (int)(nd_load_8(((unsigned char *)((uintptr_t)v1 + (uintptr_t)v161))) != nd_load_8(((unsigned char *)((uintptr_t)v3 + (uintptr_t)v161)))))) | (int)((((((((nd_load_8(((unsigned char *)((uintptr_t)v1 + (uintptr_t)v85))) != nd_load_8(((unsigned char *)((uintptr_t)v3 + (uintptr_t)v85)))) | (int)(nd_load_8(((unsigned char *)((uintptr_t)v1 + (uintptr_t)v171))) != nd_load_8(((unsigned char *)((uintptr_t)v3 + (uintptr_t)v171))))) | (int)(nd_load_8(((unsigned char *)((uintptr_t)v1 + (uintptr_t)v178))) != nd_load_8(((unsigned char *)((uintptr_t)v3 + (uintptr_t)v178))))) | (int)(nd_load_8(((unsigned char *)((uintptr_t)v1 + (uintptr_t)v185))) != nd_load_8(((unsigned char *)((uintptr_t)v3 + (uintptr_t)v185))))) | (int)(nd_load_8(((unsigned char *)((uintptr_t)v1 + (uintptr_t)v192))) != nd_load_8(((unsigned char *)((uintptr_t)v3 + (uintptr_t)v192))))) | (int)(nd_load_8(((unsigned char *)((uintptr_t)v1 + (uintptr_t)v199))) != nd_load_8(((unsigned char *)((uintptr_t)v3 + (uintptr_t)v199))))) | (int)(nd_load_8(((unsigned char *)((uintptr_t)v1 + (uintptr_t)v206))) != nd_load_8(((unsigned char *)((uintptr_t)v3 + (uintptr_t)v206))))) | (int)(nd_load_8(((unsigned char *)((uintptr_t)v1 + (uintptr_t)v213))) != nd_load_8(((unsigned char *)((uintptr_t)v3 + (uintptr_t)v213)))));
    v340 = v267;
    goto L22;
L4:;
    if (v2 < 65ULL) { v270 = 0; v271 = 0ULL; goto L6; }
    v269 = v2 & 18446744073709551552ULL;
    v293 = 0ULL;
    goto L10;
L6:;
    v277 = v270 | (int)(nd_load_8(((unsigned char *)((uintptr_t)v1 + (uintptr_t)v271))) != nd_load_8(((unsigned char *)((uintptr_t)v3 + (uintptr_t)v271))));
    v278 = v271 + 1ULL;
    if (!(v278 == 32ULL)) { v270 = v277; v271 = v278; goto L6; }
    v280 = v2 + 18446744073709551584ULL;
    v281 = 0;
    v282 = 0ULL;
L8:;
    v283 = v280 + v282;
    v289 = v281 | (int)(nd_load_8(((unsigned char *)((uintptr_t)v1 + (uintptr_t)v283))) != nd_load_8(((unsigned char *)((uintptr_t)v3 + (uintptr_t)v283))));
    v290 = v282 + 1ULL;
    if (!(v290 == 32ULL)) { v281 = v289; v282 = v290; goto L8; }
    v340 = v277 | v289;
    goto L22;
L10:;
    v294 = 0;
    v295 = 0ULL;
L11:;
    v296 = v295 + v293;
    v302 = v294 | (int)(nd_load_8(((unsigned char *)((uintptr_t)v1 + (uintptr_t)v296))) != nd_load_8(((unsigned char *)((uintptr_t)v3 + (uintptr_t)v296))));
    v303 = v295 + 1ULL;
    if (!(v303 == 64ULL)) { v294 = v302; v295 = v303; goto L11; }
    if (v302) { v308 = v293; goto L14; }
    v305 = v293 + 64ULL;
    if ((v2 - v305) > 63ULL) { v293 = v305; goto L10; }
    v308 = v269;
L14:;
    if ((v2 - v308) > 31ULL) { v311 = v308; goto L15; }
    goto L20;
L15:;
    v312 = 0;
    v313 = 0ULL;
L16:;
    v314 = v313 + v311;
    v320 = v312 | (int)(nd_load_8(((unsigned char *)((uintptr_t)v1 + (uintptr_t)v314))) != nd_load_8(((unsigned char *)((uintptr_t)v3 + (uintptr_t)v314))));
    v321 = v313 + 1ULL;
    if (!(v321 == 32ULL)) { v312 = v320; v313 = v321; goto L16; }
    if (v320) goto L19;
    v323 = v311 + 32ULL;
    if ((v2 - v323) > 31ULL) { v311 = v323; goto L15; }
    goto L20;
L19:;
    if ((v2 - v311) > 31ULL) { v340 = 1; goto L22; }
L20:;
    v328 = v2 + 18446744073709551584ULL;
    v329 = 0;
    v330 = 0ULL;
L21:;
    v331 = v328 + v330;
    v337 = v329 | (int)(nd_load_8(((unsigned char *)((uintptr_t)v1 + (uintptr_t)v331))) != nd_load_8(((unsigned char *)((uintptr_t)v3 + (uintptr_t)v331))));
    v338 = v330 + 1ULL;
    if (v338 == 32ULL) { v340 = v337; goto L22; }
    v329 = v337;
    v330 = v338;
    goto L21;
L22:;
    return v340 ^ 1;
}

static uint8_t nd_ndef_c_building_may_grow(unsigned char *v1, uint64_t v2, unsigned char *v3) {
    uint64_t v4, v18, v21, v25, v57, v64, v65, v67, v69;
    uint8_t v12, v26;
    unsigned char *v20, *v23, *v24, *v56;
    uint32_t v54, v55;
    v4 = nd_load_64(v3);
    if (!(v4 == 0ULL)) goto L4;
    if (!(nd_load_64(((unsigned char *)((uintptr_t)v3 + 8))) == 0ULL)) { v12 = 0; goto L3; }
    v12 = nd_load_32(((unsigned char *)((uintptr_t)v3 + 16))) == 0U;
L3:;
    return v12;
L4:;
    if (v2 < v4) { v12 = 0; goto L3; }
    if (nd_load_32(((unsigned char *)((uintptr_t)v3 + 16))) == 4294967295U) { v12 = 0; goto L3; }
    v18 = nd_load_64(((unsigned char *)((uintptr_t)v3 + 8)));
    if (v4 < v18) { v12 = 0; goto L3; }
    v20 = (unsigned char *)((uintptr_t)v1 + (uintptr_t)v18);
    v21 = v4 - v18;
    if (v21 < 2ULL) { v12 = 0; goto L3; }
    v23 = (unsigned char *)((uintptr_t)v20 + 1);
    v24 = (unsigned char *)((uintptr_t)v20 + 2);
    v25 = v21 + 18446744073709551614ULL;
    v26 = nd_load_8(v20);
    if ((uint8_t)(v26 & 16) == 0) goto L11;
    if (v25 == 0ULL) { v12 = 0; goto L3; }
    v55 = (uint32_t)nd_load_8(v24);
    v56 = (unsigned char *)((uintptr_t)v20 + 3);
    v57 = v21 + 18446744073709551613ULL;
    goto L13;
L11:;
    if (v25 < 4ULL) { v12 = 0; goto L3; }
    v54 = nd_bswap_i32((((((uint32_t)nd_load_8(((unsigned char *)((uintptr_t)v20 + 3))) << 8) | (uint32_t)nd_load_8(v24)) | ((uint32_t)nd_load_8(((unsigned char *)((uintptr_t)v20 + 4))) << 16)) | ((uint32_t)nd_load_8(((unsigned char *)((uintptr_t)v20 + 5))) << 24)));
    v55 = v54;
    v56 = (unsigned char *)((uintptr_t)v20 + 6);
    v57 = v21 + 18446744073709551610ULL;
L13:;
    if ((uint8_t)(v26 & 8) == 0) { v64 = 0ULL; v65 = v57; goto L16; }
    if (v57 == 0ULL) { v12 = 0; goto L3; }
    v64 = (uint64_t)nd_load_8(v56);
    v65 = v57 + 18446744073709551615ULL;
L16:;
    v67 = (uint64_t)nd_load_8(v23);
    if (v65 < v67) { v12 = 0; goto L3; }
    v69 = v65 - v67;
    if (v69 < v64) { v12 = 0; goto L3; }
    v12 = ((uint8_t)(v26 & 96) == 64) & (int)((v69 - v64) == (uint64_t)v55);
    goto L3;
}

static uint32_t nd_ndef_c_building_append_pending_record(unsigned char *v1, uint64_t v2, unsigned char *v3, unsigned char *v4, unsigned char *v5) {
    uint64_t v13, v18, v20, v30, v34, v35, v36, v37, v41, v42, v45, v46, v50, v51, v54, v55, v57, v60, v64, v67, v70, v71, v73, v74, v78, v79, v80, v81, v83, v86, v89, v90, v103, v104, v105, v125, v127, v128, v131, v138, v142, v144, v151, v155, v161, v165, v166, v170, v177, v181, v183, v190, v194, v197, v201, v202, v207, v214, v218, v220, v228, v229, v234, v241, v245, v252, v253, v259, v266, v267, v274, v278, v280, v285, v286, v290, v297, v298, v305, v309, v311, v314, v315, v320, v327, v331, v334, v335, v342, v346;
    unsigned char *v16, *v17, *v19, *v21, *v25, *v26, *v28, *v29, *v38, *v48, *v62, *v66, *v97, *v101, *v110, *v111, *v124, *v133, *v146, *v159, *v163, *v172, *v185, *v199, *v209, *v222, *v236, *v248, *v250, *v258, *v265, *v269, *v288, *v289, *v296, *v300, *v322, *v337, *v349;
    uint8_t v23, v27, v102, v106, v107, v108;
    uint32_t v92, v122, v350;
    ND_ROOM(1) v6, v8, v9;
    ND_ROOM(7) v7;
    ND_ROOM(24) v10, v11;
    nd_store_64((v10.b + 16), 0ULL);
    nd_memset(v11.b, 0, 24);
    v13 = nd_load_64(v3);
    nd_store_ptr(v10.b, v6.b);
    nd_store_64((v10.b + 8), 0ULL);
    v16 = v10.b + 16;
    v17 = (unsigned char *)((uintptr_t)v4 + 16);
    v18 = nd_load_64(v17);
    v19 = (unsigned char *)((uintptr_t)v4 + 32);
    v20 = nd_load_64(v19);
    v21 = (unsigned char *)((uintptr_t)v4 + 88);
    v23 = nd_load_64(v21) < 256ULL;
    v25 = (unsigned char *)((uintptr_t)v4 + 8);
    v26 = (unsigned char *)((uintptr_t)v4 + 24);
    v27 = (uint8_t)((v13 == 0ULL) ? 192 : 64);
    v28 = v7.b + 3;
    v29 = v7.b + 6;
    v30 = v23 ? 3ULL : 6ULL;
    if (v20 == 0ULL) { v34 = v30; goto L2; }
    nd_store_8((v23 ? v8.b : v9.b), (uint8_t)v20);
    v34 = v30 + 1ULL;
L2:;
    v35 = nd_uadd_sat_i64(v34, v13);
    v36 = nd_uadd_sat_i64(v18, v35);
    v37 = nd_uadd_sat_i64(v20, v36);
    v38 = (unsigned char *)((uintptr_t)v4 + 40);
    switch (nd_load_8(v38)) {
    case 0: goto L3;
    case 1: goto L4;
    case 2: goto L5;
    case 3: goto L6;
    case 4: goto L9;
    case 5: goto L10;
    default: goto L11; }
L3:;
    v41 = nd_load_64(((unsigned char *)((uintptr_t)v4 + 72)));
    v42 = nd_uadd_sat_i64(v37, 1ULL);
    v45 = nd_uadd_sat_i64(nd_load_64(((unsigned char *)((uintptr_t)v4 + 56))), v42);
    v46 = nd_uadd_sat_i64(v41, v45);
    nd_store_64(v16, v46);
    v90 = v46;
    goto L12;
L4:;
    v48 = nd_load_ptr(((unsigned char *)((uintptr_t)v4 + 64)));
    v50 = nd_load_64(((unsigned char *)((uintptr_t)v4 + 72)));
    v51 = nd_uadd_sat_i64(v37, 1ULL);
    v54 = nd_uadd_sat_i64(nd_load_64(((unsigned char *)((uintptr_t)v4 + 56))), v51);
    v55 = nd_uadd_sat_i64(v54, 2ULL);
    nd_store_64(v16, v55);
    nd_ndef_c_utf16_put_units(v10.b, v48, v50);
    v90 = nd_load_64(v16);
    goto L12;
L5:;
    v57 = nd_uadd_sat_i64(v37, 1ULL);
    v60 = nd_uadd_sat_i64(nd_load_64(((unsigned char *)((uintptr_t)v4 + 56))), v57);
    nd_store_64(v16, v60);
    v90 = v60;
    goto L12;
L6:;
    v62 = nd_load_ptr(((unsigned char *)((uintptr_t)v4 + 72)));
    v64 = nd_load_64(((unsigned char *)((uintptr_t)v4 + 80)));
    v66 = nd_load_ptr(((unsigned char *)((uintptr_t)v4 + 64)));
    v67 = nd_uadd_sat_i64(v37, 2ULL);
    v70 = nd_uadd_sat_i64(nd_load_64(((unsigned char *)((uintptr_t)v66 + 8))), v67);
    v71 = nd_uadd_sat_i64(v70, 1ULL);
    nd_store_64(v16, v71);
    if (v64 == 0ULL) { v90 = v71; goto L12; }
    v73 = v71;
    v74 = 0ULL;
L7:;
    v78 = nd_load_64(((unsigned char *)((uintptr_t)((unsigned char *)((uintptr_t)v62 + (uintptr_t)(v74 << 4))) + 8)));
    v79 = nd_uadd_sat_i64(v73, 1ULL);
    v80 = nd_uadd_sat_i64(v78, v79);
    v81 = v74 + 1ULL;
    if (!(v81 == v64)) { v73 = v80; v74 = v81; goto L7; }
    nd_store_64(v16, v80);
    v90 = v80;
    goto L12;
L9:;
    v83 = nd_uadd_sat_i64(v37, 1ULL);
    v86 = nd_uadd_sat_i64(nd_load_64(((unsigned char *)((uintptr_t)v4 + 56))), v83);
    nd_store_64(v16, v86);
    v90 = v86;
    goto L12;
L10:;
    v89 = nd_uadd_sat_i64(nd_load_64(((unsigned char *)((uintptr_t)v4 + 56))), v37);
    nd_store_64(v16, v89);
    v90 = v89;
    goto L12;
L11:;
    nd_stop();
L12:;
    nd_store_64(v5, v90);
    if (v2 < v90) { v92 = 2U; goto L13; }
    goto L14;
L13:;
    return v92;
L14:;
    if (nd_load_64(v3) == 0ULL) goto L16;
    v97 = v1 + (ptrdiff_t)nd_load_64(((unsigned char *)((uintptr_t)v3 + 8)));
    nd_store_8(v97, (uint8_t)(nd_load_8(v97) + 192));
L16:;
    nd_store_ptr(v11.b, v1);
    nd_store_64((v11.b + 8), v2);
    v101 = v11.b + 16;
    v102 = nd_load_8(v4);
    v103 = nd_load_64(v17);
    v104 = nd_load_64(v19);
    v105 = nd_load_64(v21);
    v106 = v105 < 256ULL;
    v107 = v104 == 0ULL;
    v108 = (uint8_t)v104;
    v110 = nd_load_ptr(v25);
    v111 = nd_load_ptr(v26);
    nd_memset((v7.b + 2), 0, 5);
    nd_store_8(v7.b, (uint8_t)((uint8_t)((uint8_t)(v102 | (uint8_t)(v107 ? 0 : 8)) | (uint8_t)(v106 ? 16 : 0)) | v27));
    nd_store_8((v7.b + 1), (uint8_t)v103);
    if (!v106) goto L18;
    nd_store_8((v7.b + 2), (uint8_t)v105);
    v124 = v28;
    v125 = 3ULL;
    goto L19;
L18:;
    v122 = nd_bswap_i32((uint32_t)v105);
    nd_store_32((v7.b + 2), v122);
    v124 = v29;
    v125 = 6ULL;
L19:;
    if (v107) { v127 = v125; goto L21; }
    nd_store_8(v124, v108);
    v127 = v125 + 1ULL;
L21:;
    v128 = nd_uadd_sat_i64(v127, v13);
    if (v128 > v2) goto L23;
    nd_copy(((unsigned char *)((uintptr_t)v1 + (uintptr_t)v13)), v7.b, v127);
L23:;
    nd_store_64(v101, v128);
    v131 = nd_uadd_sat_i64(v103, v128);
    if (v131 > v2) goto L27;
    v133 = (unsigned char *)((uintptr_t)v1 + (uintptr_t)v128);
    if (((uint64_t)(uintptr_t)v133 - (uint64_t)(uintptr_t)v110) < v103) { v138 = 0ULL; goto L26; }
    nd_move(v133, v110, v103);
    goto L27;
L26:;
    nd_store_8((v133 + (ptrdiff_t)v138), nd_load_8((v110 + (ptrdiff_t)v138)));
    v142 = v138 + 1ULL;
    if (!(v142 == v103)) { v138 = v142; goto L26; }
L27:;
    v144 = nd_uadd_sat_i64(v104, v131);
    if (v144 > v2) goto L31;
    v146 = (unsigned char *)((uintptr_t)v1 + (uintptr_t)v131);
    if (((uint64_t)(uintptr_t)v146 - (uint64_t)(uintptr_t)v111) < v104) { v151 = 0ULL; goto L30; }
    nd_move(v146, v111, v104);
    goto L31;
L30:;
    nd_store_8((v146 + (ptrdiff_t)v151), nd_load_8((v111 + (ptrdiff_t)v151)));
    v155 = v151 + 1ULL;
    if (!(v155 == v104)) { v151 = v155; goto L30; }
L31:;
    v159 = nd_load_ptr(((unsigned char *)((uintptr_t)v4 + 48)));
    switch (nd_load_8(v38)) {
    case 0: goto L32;
    case 1: goto L42;
    case 2: goto L53;
    case 3: goto L59;
    case 4: goto L77;
    case 5: goto L83;
    default: goto L87; }
L32:;
    v161 = nd_load_64(((unsigned char *)((uintptr_t)v4 + 56)));
    v163 = nd_load_ptr(((unsigned char *)((uintptr_t)v4 + 64)));
    v165 = nd_load_64(((unsigned char *)((uintptr_t)v4 + 72)));
    v166 = nd_uadd_sat_i64(v144, 1ULL);
    if (v166 > v2) goto L34;
    nd_store_8(((unsigned char *)((uintptr_t)v1 + (uintptr_t)v144)), (uint8_t)v161);
L34:;
    v170 = nd_uadd_sat_i64(v161, v166);
    if (v170 > v2) goto L38;
    v172 = (unsigned char *)((uintptr_t)v1 + (uintptr_t)v166);
    if (((uint64_t)(uintptr_t)v172 - (uint64_t)(uintptr_t)v159) < v161) { v177 = 0ULL; goto L37; }
    nd_move(v172, v159, v161);
    goto L38;
L37:;
    nd_store_8((v172 + (ptrdiff_t)v177), nd_load_8((v159 + (ptrdiff_t)v177)));
    v181 = v177 + 1ULL;
    if (!(v181 == v161)) { v177 = v181; goto L37; }
L38:;
    v183 = nd_uadd_sat_i64(v165, v170);
    if (v183 > v2) goto L88;
    v185 = (unsigned char *)((uintptr_t)v1 + (uintptr_t)v170);
    if (((uint64_t)(uintptr_t)v185 - (uint64_t)(uintptr_t)v163) < v165) { v190 = 0ULL; goto L41; }
    nd_move(v185, v163, v165);
    goto L88;
L41:;
    nd_store_8((v185 + (ptrdiff_t)v190), nd_load_8((v163 + (ptrdiff_t)v190)));
    v194 = v190 + 1ULL;
    if (v194 == v165) goto L88;
    v190 = v194;
    goto L41;
L42:;
    v197 = nd_load_64(((unsigned char *)((uintptr_t)v4 + 56)));
    v199 = nd_load_ptr(((unsigned char *)((uintptr_t)v4 + 64)));
    v201 = nd_load_64(((unsigned char *)((uintptr_t)v4 + 72)));
    v202 = nd_uadd_sat_i64(v144, 1ULL);
    if (v202 > v2) goto L44;
    nd_store_8(((unsigned char *)((uintptr_t)v1 + (uintptr_t)v144)), (uint8_t)((uint8_t)v197 ^ 128));
L44:;
    v207 = nd_uadd_sat_i64(v197, v202);
    if (v207 > v2) goto L48;
    v209 = (unsigned char *)((uintptr_t)v1 + (uintptr_t)v202);
    if (((uint64_t)(uintptr_t)v209 - (uint64_t)(uintptr_t)v159) < v197) { v214 = 0ULL; goto L47; }
    nd_move(v209, v159, v197);
    goto L48;
L47:;
    nd_store_8((v209 + (ptrdiff_t)v214), nd_load_8((v159 + (ptrdiff_t)v214)));
    v218 = v214 + 1ULL;
    if (!(v218 == v197)) { v214 = v218; goto L47; }
L48:;
    v220 = nd_uadd_sat_i64(v207, 2ULL);
    if (v220 > v2) goto L52;
    v222 = (unsigned char *)((uintptr_t)v1 + (uintptr_t)v207);
    if (!(((uint64_t)(uintptr_t)v222 - (uint64_t)(uintptr_t)(unsigned char *)nd_data_static_88) < 2ULL)) goto L51;
    nd_store_8(v222, 254);
    nd_store_8((v222 + 1), 255);
    goto L52;
L51:;
    nd_store_16(v222, 65534);
L52:;
    nd_store_64(v101, v220);
    nd_ndef_c_utf16_put_units(v11.b, v199, v201);
    goto L88;
L53:;
    v228 = nd_load_64(((unsigned char *)((uintptr_t)v4 + 56)));
    v229 = nd_uadd_sat_i64(v144, 1ULL);
    if (v229 > v2) goto L55;
    nd_store_8(((unsigned char *)((uintptr_t)v1 + (uintptr_t)v144)), nd_load_8(((unsigned char *)((uintptr_t)v4 + 41))));
L55:;
    v234 = nd_uadd_sat_i64(v228, v229);
    if (v234 > v2) goto L88;
    v236 = (unsigned char *)((uintptr_t)v1 + (uintptr_t)v229);
    if (((uint64_t)(uintptr_t)v236 - (uint64_t)(uintptr_t)v159) < v228) { v241 = 0ULL; goto L58; }
    nd_move(v236, v159, v228);
    goto L88;
L58:;
    nd_store_8((v236 + (ptrdiff_t)v241), nd_load_8((v159 + (ptrdiff_t)v241)));
    v245 = v241 + 1ULL;
    if (v245 == v228) goto L88;
    v241 = v245;
    goto L58;
L59:;
    v248 = nd_load_ptr(((unsigned char *)((uintptr_t)v4 + 64)));
    v250 = nd_load_ptr(((unsigned char *)((uintptr_t)v4 + 72)));
    v252 = nd_load_64(((unsigned char *)((uintptr_t)v4 + 80)));
    v253 = nd_uadd_sat_i64(v144, 1ULL);
    if (v253 > v2) goto L61;
    nd_store_8(((unsigned char *)((uintptr_t)v1 + (uintptr_t)v144)), nd_load_8(((unsigned char *)((uintptr_t)v4 + 41))));
L61:;
    v258 = (unsigned char *)((uintptr_t)v248 + 8);
    v259 = nd_uadd_sat_i64(v144, 2ULL);
    if (v259 > v2) goto L63;
    nd_store_8(((unsigned char *)((uintptr_t)v1 + (uintptr_t)v253)), (uint8_t)nd_load_64(v258));
L63:;
    v265 = (unsigned char *)((uintptr_t)v159 + (uintptr_t)nd_load_64(v248));
    v266 = nd_load_64(v258);
    v267 = nd_uadd_sat_i64(v266, v259);
    if (v267 > v2) goto L67;
    v269 = (unsigned char *)((uintptr_t)v1 + (uintptr_t)v259);
    if (((uint64_t)(uintptr_t)v269 - (uint64_t)(uintptr_t)v265) < v266) { v274 = 0ULL; goto L66; }
    nd_move(v269, v265, v266);
    goto L67;
L66:;
    nd_store_8((v269 + (ptrdiff_t)v274), nd_load_8((v265 + (ptrdiff_t)v274)));
    v278 = v274 + 1ULL;
    if (!(v278 == v266)) { v274 = v278; goto L66; }
L67:;
    v280 = nd_uadd_sat_i64(v267, 1ULL);
    if (v280 > v2) goto L69;
    nd_store_8(((unsigned char *)((uintptr_t)v1 + (uintptr_t)v267)), (uint8_t)v252);
L69:;
    if (v252 == 0ULL) goto L88;
    v285 = v280;
    v286 = 0ULL;
L70:;
    v288 = (unsigned char *)((uintptr_t)v250 + (uintptr_t)(v286 << 4));
    v289 = (unsigned char *)((uintptr_t)v288 + 8);
    v290 = nd_uadd_sat_i64(v285, 1ULL);
    if (v290 > v2) goto L72;
    nd_store_8(((unsigned char *)((uintptr_t)v1 + (uintptr_t)v285)), (uint8_t)nd_load_64(v289));
L72:;
    v296 = (unsigned char *)((uintptr_t)v159 + (uintptr_t)nd_load_64(v288));
    v297 = nd_load_64(v289);
    v298 = nd_uadd_sat_i64(v297, v290);
    if (v298 > v2) goto L76;
    v300 = (unsigned char *)((uintptr_t)v1 + (uintptr_t)v290);
    if (((uint64_t)(uintptr_t)v300 - (uint64_t)(uintptr_t)v296) < v297) { v305 = 0ULL; goto L75; }
    nd_move(v300, v296, v297);
    goto L76;
L75:;
    nd_store_8((v300 + (ptrdiff_t)v305), nd_load_8((v296 + (ptrdiff_t)v305)));
    v309 = v305 + 1ULL;
    if (!(v309 == v297)) { v305 = v309; goto L75; }
L76:;
    v311 = v286 + 1ULL;
    if (v311 == v252) goto L88;
    v285 = v298;
    v286 = v311;
    goto L70;
L77:;
    v314 = nd_load_64(((unsigned char *)((uintptr_t)v4 + 56)));
    v315 = nd_uadd_sat_i64(v144, 1ULL);
    if (v315 > v2) goto L79;
    nd_store_8(((unsigned char *)((uintptr_t)v1 + (uintptr_t)v144)), nd_load_8(((unsigned char *)((uintptr_t)v4 + 41))));
L79:;
    v320 = nd_uadd_sat_i64(v314, v315);
    if (v320 > v2) goto L88;
    v322 = (unsigned char *)((uintptr_t)v1 + (uintptr_t)v315);
    if (((uint64_t)(uintptr_t)v322 - (uint64_t)(uintptr_t)v159) < v314) { v327 = 0ULL; goto L82; }
    nd_move(v322, v159, v314);
    goto L88;
L82:;
    nd_store_8((v322 + (ptrdiff_t)v327), nd_load_8((v159 + (ptrdiff_t)v327)));
    v331 = v327 + 1ULL;
    if (v331 == v314) goto L88;
    v327 = v331;
    goto L82;
L83:;
    v334 = nd_load_64(((unsigned char *)((uintptr_t)v4 + 56)));
    v335 = nd_uadd_sat_i64(v334, v144);
    if (v335 > v2) goto L88;
    v337 = (unsigned char *)((uintptr_t)v1 + (uintptr_t)v144);
    if (((uint64_t)(uintptr_t)v337 - (uint64_t)(uintptr_t)v159) < v334) { v342 = 0ULL; goto L86; }
    nd_move(v337, v159, v334);
    goto L88;
L86:;
    nd_store_8((v337 + (ptrdiff_t)v342), nd_load_8((v159 + (ptrdiff_t)v342)));
    v346 = v342 + 1ULL;
    if (v346 == v334) goto L88;
    v342 = v346;
    goto L86;
L87:;
    nd_stop();
L88:;
    v349 = (unsigned char *)((uintptr_t)v3 + 16);
    v350 = nd_load_32(v349);
    nd_store_64(v3, nd_load_64(v5));
    nd_store_64((v3 + 8), v13);
    nd_store_32(v349, (v350 + 1U));
    nd_store_32((v3 + 20), 0U);
    v92 = 0U;
    goto L13;
}

static void nd_ndef_c_text_text_content(unsigned char *v1, unsigned char *v2, uint64_t v3, unsigned char *v4, uint64_t v5, uint32_t v6) {
    uint64_t v16, v20, v47, v48, v49, v51, v53, v60, v76;
    unsigned char *v31, *v77;
    uint8_t v63;
    ND_ROOM(24) v7, v8;
    ND_ROOM(16) v9;
    if ((v3 > 63ULL) | (int)(v6 > 1U)) goto L12;
    nd_store_ptr(v9.b, v2);
    nd_store_64((v9.b + 8), v3);
    if (!(v3 < 8ULL)) goto L6;
    if (v3 == 0ULL) goto L13;
    v16 = 0ULL;
L3:;
    if ((int8_t)nd_load_8((v2 + (ptrdiff_t)v16)) < (int8_t)0) goto L5;
    v20 = v16 + 1ULL;
    if (v20 == v3) goto L13;
    v16 = v20;
    goto L3;
L5:;
    if (v16 < v3) goto L12;
    goto L14;
L6:;
    if (!(v3 > 31ULL)) goto L8;
    v31 = (unsigned char *)((uintptr_t)v2 + (uintptr_t)v3);
    v60 = ((((((nd_load_64(((unsigned char *)((uintptr_t)v2 + 8))) | nd_load_64(v2)) | nd_load_64(((unsigned char *)((uintptr_t)v2 + 16)))) | nd_load_64(((unsigned char *)((uintptr_t)v2 + 24)))) | nd_load_64(((unsigned char *)((uintptr_t)v31 - 32)))) | nd_load_64(((unsigned char *)((uintptr_t)v31 - 24)))) | nd_load_64(((unsigned char *)((uintptr_t)v31 - 16)))) | nd_load_64(((unsigned char *)((uintptr_t)v31 - 8)));
    goto L9;
L8:;
    v47 = v3 + 18446744073709551608ULL;
    v48 = nd_load_64(v2);
    v49 = nd_umin_i64(v47, 8ULL);
    v51 = nd_load_64((v2 + (ptrdiff_t)v49));
    v53 = nd_umin_i64(v47, 16ULL);
    v60 = ((v51 | v48) | nd_load_64((v2 + (ptrdiff_t)v53))) | nd_load_64((v2 + (ptrdiff_t)v47));
L9:;
    if ((v60 & 9259542123273814144ULL) == 0ULL) goto L13;
    v63 = nd_core_slice_words_any_by_first(v9.b, v3);
    if (v63) goto L12;
    goto L14;
L11:;
    return;
L12:;
    nd_store_64(v1, 0ULL);
    nd_store_8(((unsigned char *)((uintptr_t)v1 + 8)), 0);
    nd_store_8(((unsigned char *)((uintptr_t)v1 + 9)), 0);
    nd_memset(((unsigned char *)((uintptr_t)v1 + 16)), 0, 40);
    goto L11;
L13:;
L14:;
    nd_memset(v8.b, 0, 24);
    if (!(v5 < 64ULL)) goto L16;
    nd_core_str_utf8_from_utf8(v8.b, v4, v5);
    if (nd_load_8(v8.b) == 0) { v76 = nd_load_64((v8.b + 16)); v77 = nd_load_ptr((v8.b + 8)); goto L17; }
    goto L18;
L16:;
    nd_core_str_utf8_from_utf8(v7.b, v4, v5);
    if (nd_load_8(v7.b) == 0) { v76 = v5; v77 = v4; goto L17; }
    goto L18;
L17:;
    nd_store_64(v1, 1ULL);
    nd_store_8(((unsigned char *)((uintptr_t)v1 + 8)), (uint8_t)v6);
    nd_store_8(((unsigned char *)((uintptr_t)v1 + 9)), 0);
    nd_store_ptr(((unsigned char *)((uintptr_t)v1 + 16)), v2);
    nd_store_64(((unsigned char *)((uintptr_t)v1 + 24)), v3);
    nd_store_ptr(((unsigned char *)((uintptr_t)v1 + 32)), v77);
    nd_store_64(((unsigned char *)((uintptr_t)v1 + 40)), v76);
    nd_store_64(((unsigned char *)((uintptr_t)v1 + 48)), 0ULL);
    goto L11;
L18:;
    nd_store_64(v1, 0ULL);
    nd_store_8(((unsigned char *)((uintptr_t)v1 + 8)), 0);
    nd_store_8(((unsigned char *)((uintptr_t)v1 + 9)), 0);
    nd_memset(((unsigned char *)((uintptr_t)v1 + 16)), 0, 40);
    goto L11;
}

static uint8_t nd_core_slice_words_any_by_first(unsigned char *v1, uint64_t v2) {
    uint64_t v3;
    v3 = nd_core_slice_words_first(v1, 0ULL, v2);
    return v3 < v2;
}

static uint32_t nd_ndef_c_kinds_ndef_kind(unsigned char *v1, uint64_t v2, unsigned char *v3, uint32_t v4) {
    uint64_t v6, v8;
    uint32_t v10, v53;
    unsigned char *v16;
    uint8_t v22, v30, v31, v38, v51;
    v6 = nd_load_64(((unsigned char *)((uintptr_t)v3 + 16)));
    v8 = nd_load_64(((unsigned char *)((uintptr_t)v3 + 24)));
    v10 = nd_load_32(((unsigned char *)((uintptr_t)v3 + 80)));
    if ((uint8_t)((v2 < v6) ? 1 : ((v2 - v6) < v8))) { v53 = 0U; goto L29; }
    v16 = (unsigned char *)((uintptr_t)v1 + (uintptr_t)v6);
    if (!(v10 < 6U)) { v53 = 0U; goto L29; }
    if (!(v10 == 1U)) { v38 = 0; goto L23; }
    switch (v8) {
    case 0ULL: { v38 = 0; goto L23; }
    case 1ULL: goto L4;
    default: goto L9; }
L4:;
    switch (nd_load_8(v16)) {
    case 84: { v38 = 1; goto L23; }
    case 85: goto L5;
    case 115: goto L6;
    case 116: goto L7;
    default: goto L8; }
L5:;
    v38 = 2;
    goto L23;
L6:;
    v38 = 8;
    goto L23;
L7:;
    v38 = 9;
    goto L23;
L8:;
    v38 = 0;
    goto L23;
L9:;
    if (!(v8 < 3ULL)) goto L18;
    v22 = nd_load_8(((unsigned char *)((uintptr_t)v16 + 1)));
    switch (nd_load_8(v16)) {
    case 83: goto L11;
    case 72: goto L12;
    case 97: goto L15;
    case 99: goto L16;
    default: goto L17; }
L11:;
    if (v22 == 112) { v38 = 3; goto L23; }
    goto L17;
L12:;
    switch (v22) {
    case 114: { v38 = 4; goto L23; }
    case 115: goto L13;
    case 99: goto L14;
    default: goto L17; }
L13:;
    v38 = 5;
    goto L23;
L14:;
    v38 = 6;
    goto L23;
L15:;
    if (v22 == 99) { v38 = 10; goto L23; }
    goto L17;
L16:;
    if (v22 == 114) { v38 = 11; goto L23; }
L17:;
    v38 = 0;
    goto L23;
L18:;
    if (!(v8 == 3ULL)) { v38 = 0; goto L23; }
    v30 = nd_load_8(((unsigned char *)((uintptr_t)v16 + 1)));
    v31 = nd_load_8(((unsigned char *)((uintptr_t)v16 + 2)));
    switch (nd_load_8(v16)) {
    case 97: goto L20;
    case 101: goto L21;
    default: goto L22; }
L20:;
    if ((v30 == 99) & (int)(v31 == 116)) { v38 = 7; goto L23; }
    goto L22;
L21:;
    if ((v30 == 114) & (int)(v31 == 114)) { v38 = 12; goto L23; }
L22:;
    v38 = 0;
L23:;
    switch (v4) {
    case 0U: goto L24;
    case 3U: goto L26;
    case 4U: goto L25;
    case 5U: goto L27;
    default: { v51 = 0; goto L28; } }
L24:;
    v51 = (uint8_t)(((uint8_t)(v38 + 255) < 6) ? v38 : 0);
    goto L28;
L25:;
    v51 = (uint8_t)(((uint8_t)(v38 & 14) == 10) ? v38 : 0);
    goto L28;
L26:;
    v51 = nd_load_8(((unsigned char *)nd_data_switch_table_ndef_c_kinds_ndef_kind + (ptrdiff_t)(uint64_t)v38));
    goto L28;
L27:;
    v51 = nd_load_8(((unsigned char *)nd_data_switch_table_ndef_c_kinds_ndef_kind_8 + (ptrdiff_t)(uint64_t)v38));
L28:;
    v53 = (uint32_t)v51;
L29:;
    return v53;
}

static uint32_t nd_ndef_c_finding_find(unsigned char *v1, uint64_t v2, uint64_t v3, unsigned char *v4, unsigned char *v5) {
    unsigned char *v8, *v9, *v10, *v11, *v12, *v13, *v14, *v15, *v16, *v17, *v18, *v19, *v50, *v53, *v87, *v90;
    uint32_t v20, v45;
    uint64_t v21, v29, v30, v31, v33, v34, v38, v39, v40, v41, v78, v84, v88, v114, v120, v125;
    uint8_t v22, v35, v42, v46, v86, v123;
    ND_ROOM(120) v6;
    if (v3 == v2) { v20 = 4U; goto L2; }
    v8 = v6.b + 8;
    v9 = v6.b + 24;
    v10 = v6.b + 40;
    v11 = v6.b + 56;
    v12 = v6.b + 72;
    v13 = v6.b + 80;
    v14 = v6.b + 88;
    v15 = v6.b + 96;
    v16 = v6.b + 112;
    v17 = (unsigned char *)((uintptr_t)v4 + 8);
    v18 = (unsigned char *)((uintptr_t)v4 + 16);
    v19 = (unsigned char *)((uintptr_t)v4 + 4);
    v21 = v3;
    v22 = 0;
    goto L3;
L2:;
    return v20;
L3:;
    if (v22) { v20 = 3U; goto L2; }
    nd_memset(v6.b, 0, 120);
    if (v2 < v21) goto L6;
    nd_ndef_c_run_first_run(v6.b, ((unsigned char *)((uintptr_t)v1 + (uintptr_t)v21)), (v2 - v21));
    if (nd_load_8(v6.b) == 1) goto L7;
L6:;
    v20 = 3U;
    goto L2;
L7:;
    v29 = nd_load_64(v9);
    v30 = nd_load_64(v10);
    v31 = nd_load_64(v11);
    v33 = nd_load_64(v13);
    v34 = nd_load_64(v14);
    v35 = nd_load_8(v15);
    v38 = v2 - (v31 + nd_load_64(v12));
    v39 = v38 - v30;
    v40 = v2 - nd_load_64(v16);
    v41 = v39 - v29;
    v42 = (uint8_t)(nd_load_8(v8) & 7);
    v45 = (uint32_t)(uint8_t)((v42 == 7) ? 5 : v42);
    v46 = (uint8_t)(v35 & 1);
    if (!(nd_load_8(v4) == 0)) goto L16;
    v50 = nd_load_ptr(v17);
    if (!(nd_load_32(v19) == v45)) goto L26;
    v53 = (unsigned char *)((uintptr_t)v1 + (uintptr_t)v41);
    if (!(v29 == nd_load_64(v18))) goto L26;
    if (v29 < 4ULL) goto L12;
    if ((((nd_load_8(v53) != nd_load_8(v50)) | (int)(nd_load_8(((unsigned char *)((uintptr_t)v53 + 1))) != nd_load_8(((unsigned char *)((uintptr_t)v50 + 1))))) | (int)(nd_load_8(((unsigned char *)((uintptr_t)v53 + 2))) != nd_load_8(((unsigned char *)((uintptr_t)v50 + 2))))) | (int)(nd_load_8(((unsigned char *)((uintptr_t)v53 + 3))) != nd_load_8(((unsigned char *)((uintptr_t)v50 + 3))))) goto L26;
    goto L15;
L12:;
    if (v29 == 0ULL) { v125 = 0ULL; goto L25; }
    v78 = 0ULL;
L13:;
    if (!(nd_load_8(((unsigned char *)((uintptr_t)v53 + (uintptr_t)v78))) == nd_load_8(((unsigned char *)((uintptr_t)v50 + (uintptr_t)v78))))) goto L24;
    v84 = v78 + 1ULL;
    if (v84 == v29) { v125 = v29; goto L25; }
    v78 = v84;
    goto L13;
L15:;
    v86 = nd_core_cmp_slices_groups_equal(v53, v29, v50);
    if (v86) { v125 = v29; goto L25; }
    goto L26;
L16:;
    v87 = nd_load_ptr(v17);
    v88 = nd_load_64(v18);
    if (v88 == 0ULL) goto L26;
    v90 = (unsigned char *)((uintptr_t)v1 + (uintptr_t)v39);
    if (!(v30 == v88)) goto L26;
    if (v30 < 4ULL) { v114 = 0ULL; goto L20; }
    if ((((nd_load_8(v90) != nd_load_8(v87)) | (int)(nd_load_8(((unsigned char *)((uintptr_t)v90 + 1))) != nd_load_8(((unsigned char *)((uintptr_t)v87 + 1))))) | (int)(nd_load_8(((unsigned char *)((uintptr_t)v90 + 2))) != nd_load_8(((unsigned char *)((uintptr_t)v87 + 2))))) | (int)(nd_load_8(((unsigned char *)((uintptr_t)v90 + 3))) != nd_load_8(((unsigned char *)((uintptr_t)v87 + 3))))) goto L26;
    goto L23;
L20:;
    if (!(nd_load_8(((unsigned char *)((uintptr_t)v90 + (uintptr_t)v114))) == nd_load_8(((unsigned char *)((uintptr_t)v87 + (uintptr_t)v114))))) goto L22;
    v120 = v114 + 1ULL;
    if (v120 == v30) { v125 = v29; goto L25; }
    v114 = v120;
    goto L20;
L22:;
    if (v114 < v30) goto L26;
    v125 = v29;
    goto L25;
L23:;
    v123 = nd_core_cmp_slices_groups_equal(v90, v30, v87);
    if (v123) { v125 = v29; goto L25; }
    goto L26;
L24:;
    if (v78 < v29) goto L26;
    v125 = v29;
L25:;
    nd_store_64(v5, v21);
    nd_store_64((v5 + 8), v40);
    nd_store_64((v5 + 16), v41);
    nd_store_64((v5 + 24), v125);
    nd_store_64((v5 + 32), v39);
    nd_store_64((v5 + 40), v30);
    nd_store_64((v5 + 48), v38);
    nd_store_64((v5 + 56), v31);
    nd_store_64((v5 + 64), v33);
    nd_store_64((v5 + 72), v34);
    nd_store_32((v5 + 80), v45);
    nd_store_32((v5 + 84), (uint32_t)v46);
    v20 = 0U;
    goto L2;
L26:;
    if (v46 == 0) { v21 = v40; v22 = (uint8_t)(v35 & 1); goto L3; }
    v20 = 4U;
    goto L2;
}

static uint32_t nd_ndef_c_fields_ndef_field_at(unsigned char *v1, uint64_t v2, unsigned char *v3, uint64_t v4, unsigned char *v5, unsigned char *v6) {
    uint32_t v12, v14, v16, v18, v44, v45, v46, v59, v67, v68;
    uint64_t v36, v43, v53, v54;
    unsigned char *v49, *v50;
    ND_ROOM(32) v7, v10;
    ND_ROOM(576) v8;
    ND_ROOM(16) v9;
    v12 = nd_load_32(((unsigned char *)((uintptr_t)v3 + 12)));
    if (v12 > 3U) { v68 = 3U; goto L36; }
    v14 = nd_load_32(v3);
    v16 = nd_load_32(((unsigned char *)((uintptr_t)v3 + 4)));
    v18 = nd_load_32(((unsigned char *)((uintptr_t)v3 + 8)));
    if (!(uint8_t)((((v14 != 0U) & (int)((v16 + 4294967295U) < 65535U)) & (int)((v18 + 4294967295U) < 65535U)) ? (v12 < 2U) : 0)) { v68 = 3U; goto L36; }
    nd_store_32(v9.b, v14);
    nd_store_32((v9.b + 4), v16);
    nd_store_32((v9.b + 8), v18);
    nd_store_8((v9.b + 12), (uint8_t)v12);
    nd_memset((v9.b + 13), 0, 3);
    nd_memset(v10.b, 0, 32);
    nd_ndef_message_message_viewing_view(v10.b, v1, v2, v9.b);
    if (nd_load_8(v10.b) == 0) goto L29;
    v36 = nd_load_64((v10.b + 8));
    switch (nd_load_8((v10.b + 16))) {
    case 0: { v43 = v36; v44 = 0U; v45 = 1U; v46 = 1U; goto L30; }
    case 1: goto L4;
    case 2: goto L5;
    case 3: goto L6;
    case 4: goto L7;
    case 5: goto L8;
    case 6: goto L9;
    case 7: goto L10;
    case 8: goto L11;
    case 9: goto L12;
    case 10: goto L13;
    case 11: goto L14;
    case 12: goto L15;
    case 13: goto L16;
    case 14: goto L17;
    case 15: goto L18;
    case 16: goto L19;
    case 17: goto L20;
    case 18: goto L21;
    case 19: goto L22;
    case 20: goto L23;
    case 21: goto L24;
    case 22: goto L25;
    case 23: goto L26;
    case 24: goto L27;
    default: goto L28; }
L4:;
    v43 = v36;
    v44 = 0U;
    v45 = 2U;
    v46 = 1U;
    goto L30;
L5:;
    v43 = v36;
    v44 = 0U;
    v45 = 3U;
    v46 = 1U;
    goto L30;
L6:;
    v43 = v36;
    v44 = 0U;
    v45 = 4U;
    v46 = 1U;
    goto L30;
L7:;
    v43 = v36;
    v44 = 0U;
    v45 = 5U;
    v46 = 1U;
    goto L30;
L8:;
    v43 = v36;
    v44 = 0U;
    v45 = 6U;
    v46 = 1U;
    goto L30;
L9:;
    v43 = v36;
    v44 = 0U;
    v45 = 7U;
    v46 = 1U;
    goto L30;
L10:;
    v43 = v36;
    v44 = 0U;
    v45 = 8U;
    v46 = 1U;
    goto L30;
L11:;
    v43 = v36;
    v44 = 0U;
    v45 = 9U;
    v46 = 1U;
    goto L30;
L12:;
    v43 = v36;
    v44 = 0U;
    v45 = 10U;
    v46 = 1U;
    goto L30;
L13:;
    v43 = v36;
    v44 = 0U;
    v45 = 11U;
    v46 = 1U;
    goto L30;
L14:;
    v43 = v36;
    v44 = 0U;
    v45 = 12U;
    v46 = 1U;
    goto L30;
L15:;
    v43 = v36;
    v44 = 0U;
    v45 = 13U;
    v46 = 1U;
    goto L30;
L16:;
    v43 = v36;
    v44 = 0U;
    v45 = 14U;
    v46 = 1U;
    goto L30;
L17:;
    v43 = v36;
    v44 = 0U;
    v45 = 15U;
    v46 = 1U;
    goto L30;
L18:;
    v43 = v36;
    v44 = 0U;
    v45 = 16U;
    v46 = 1U;
    goto L30;
L19:;
    v43 = v36;
    v44 = 0U;
    v45 = 17U;
    v46 = 1U;
    goto L30;
L20:;
    v43 = v36;
    v44 = 0U;
    v45 = 18U;
    v46 = 1U;
    goto L30;
L21:;
    v43 = v36;
    v44 = 0U;
    v45 = 19U;
    v46 = 1U;
    goto L30;
L22:;
    v43 = v36;
    v44 = 0U;
    v45 = 20U;
    v46 = 1U;
    goto L30;
L23:;
    v43 = v36;
    v44 = 0U;
    v45 = 21U;
    v46 = 1U;
    goto L30;
L24:;
    v43 = v36;
    v44 = 0U;
    v45 = 22U;
    v46 = 1U;
    goto L30;
L25:;
    v43 = v36;
    v44 = 0U;
    v45 = 25U;
    v46 = 1U;
    goto L30;
L26:;
    v43 = v36;
    v44 = 0U;
    v45 = 23U;
    v46 = 1U;
    goto L30;
L27:;
    v43 = v36;
    v44 = 0U;
    v45 = 24U;
    v46 = 1U;
    goto L30;
L28:;
    nd_stop();
L29:;
    v43 = nd_load_64((v10.b + 16));
    v44 = nd_load_32((v10.b + 24));
    v45 = 0U;
    v46 = 4U;
L30:;
    nd_store_64(v6, v43);
    nd_store_32((v6 + 8), v44);
    nd_store_32((v6 + 12), v45);
    nd_memset(v8.b, 0, 576);
    nd_ndef_fields_report_fields_before(v8.b, v1, v43);
    v49 = v7.b + 8;
    v50 = v7.b + 16;
L31:;
    nd_ndef_fields_message_fields_FieldsIterator_next(v7.b, v8.b);
    if (!(nd_load_8(v7.b) == 1)) goto L33;
    v53 = nd_load_64(v49);
    v54 = nd_load_64(v50);
    if ((v4 - v53) < v54) goto L34;
    goto L31;
L33:;
    v67 = v46;
    goto L35;
L34:;
    v59 = (uint32_t)nd_load_64((v7.b + 24));
    nd_store_64(v5, v53);
    nd_store_64((v5 + 8), v54);
    nd_store_32((v5 + 16), (v59 & 255U));
    nd_store_32((v5 + 20), (((v59 >> 8) & 255U) + 1U));
    v67 = 0U;
L35:;
    v68 = v67;
L36:;
    return v68;
}

static void nd_ndef_fields_report_fields_before(unsigned char *v1, unsigned char *v2, uint64_t v3) {
    uint64_t v11, v15, v47, v55, v57, v59, v62, v64, v65, v69, v73, v74, v76, v77, v80, v81, v84, v86, v89, v91, v96, v104, v107, v109, v111, v112, v114, v116, v126, v128, v138, v141, v143, v145, v147;
    unsigned char *v12, *v13, *v14, *v46, *v56, *v61, *v68, *v72, *v78, *v82, *v85, *v92, *v110, *v115, *v140;
    uint8_t v16, v83, v119, v124, v127, v132, v133, v134, v135, v136, v137, v139;
    uint32_t v44, v45, v131;
    ND_ROOM(384) v4, v7;
    ND_ROOM(136) v5;
    ND_ROOM(56) v6;
    ND_ROOM(192) v8, v9;
    nd_memset(v8.b, 0, 192);
    nd_memset(v9.b, 0, 192);
    nd_memset(v7.b, 0, 384);
    if (v3 < 2ULL) { v72 = v2; v73 = v3; goto L14; }
    v11 = v3;
    v12 = v2;
L1:;
    v13 = (unsigned char *)((uintptr_t)v12 + 1);
    v14 = (unsigned char *)((uintptr_t)v12 + 2);
    v15 = v11 + 18446744073709551614ULL;
    v16 = nd_load_8(v12);
    if ((uint8_t)(v16 & 16) == 0) goto L4;
    if (v15 == 0ULL) goto L13;
    v45 = (uint32_t)nd_load_8(v14);
    v46 = (unsigned char *)((uintptr_t)v12 + 3);
    v47 = v11 + 18446744073709551613ULL;
    goto L6;
L4:;
    if (v15 < 4ULL) goto L13;
    v44 = nd_bswap_i32((((((uint32_t)nd_load_8(((unsigned char *)((uintptr_t)v12 + 3))) << 8) | (uint32_t)nd_load_8(v14)) | ((uint32_t)nd_load_8(((unsigned char *)((uintptr_t)v12 + 4))) << 16)) | ((uint32_t)nd_load_8(((unsigned char *)((uintptr_t)v12 + 5))) << 24)));
    v45 = v44;
    v46 = (unsigned char *)((uintptr_t)v12 + 6);
    v47 = v11 + 18446744073709551610ULL;
L6:;
    if ((uint8_t)(v16 & 8) == 0) { v55 = 0ULL; v56 = v46; v57 = v47; goto L9; }
    if (v47 == 0ULL) goto L13;
    v55 = (uint64_t)nd_load_8(v46);
    v56 = (unsigned char *)((uintptr_t)v46 + 1);
    v57 = v47 + 18446744073709551615ULL;
L9:;
    v59 = (uint64_t)nd_load_8(v13);
    if (v57 < v59) goto L13;
    v61 = (unsigned char *)((uintptr_t)v56 + (uintptr_t)v59);
    v62 = v57 - v59;
    if (v62 < v55) goto L13;
    v64 = v62 - v55;
    v65 = (uint64_t)v45;
    if (v64 < v65) goto L13;
    v68 = (unsigned char *)((uintptr_t)((unsigned char *)((uintptr_t)v61 + (uintptr_t)v55)) + (uintptr_t)v65);
    v69 = v64 - v65;
    if (v69 < 2ULL) { v72 = v68; v73 = v69; goto L14; }
    v11 = v69;
    v12 = v68;
    goto L1;
L13:;
    nd_memset(v4.b, 0, 384);
    v76 = v3 - v11;
    v77 = v11;
    v78 = v12;
    goto L15;
L14:;
    v74 = v3 - v73;
    nd_memset(v4.b, 0, 384);
    if (v73 == 0ULL) { v80 = v74; v81 = 0ULL; v82 = v72; v83 = 0; goto L16; }
    v76 = v74;
    v77 = 1ULL;
    v78 = v72;
L15:;
    v80 = v76;
    v81 = v77;
    v82 = v78;
    v83 = nd_load_8(v78);
L16:;
    v84 = nd_umin_i64(v81, 2ULL);
    v85 = (unsigned char *)((uintptr_t)v82 + (uintptr_t)v84);
    v86 = v81 - v84;
    v89 = ((uint8_t)(v83 & 16) == 0) ? 4ULL : 1ULL;
    v91 = (uint64_t)(v81 != 0ULL);
    v92 = (unsigned char *)((uintptr_t)v82 + (uintptr_t)v91);
    if (v81 < 2ULL) { v96 = 0ULL; goto L18; }
    v96 = (uint64_t)nd_load_8(v92);
L18:;
    if (!(((uint8_t)(v83 & 8) != 0) & (int)(v89 < v86))) { v104 = 0ULL; goto L20; }
    v104 = (uint64_t)nd_load_8((v85 + (ptrdiff_t)v89));
L20:;
    v107 = (uint64_t)(uint8_t)((uint8_t)(v83 >> 3) & 1);
    v109 = nd_umin_i64(v86, (v89 + v107));
    v110 = (unsigned char *)((uintptr_t)v85 + (uintptr_t)v109);
    v111 = v86 - v109;
    v112 = nd_umin_i64(v111, v96);
    v114 = nd_umin_i64(v111, (v104 + v96));
    v115 = (unsigned char *)((uintptr_t)v110 + (uintptr_t)v114);
    v116 = v111 - v114;
    if (!((uint8_t)(v83 & 39) == 1)) { v131 = 0U; v132 = 3; v133 = 0; v134 = 6; v135 = 1; v136 = 0; v137 = 6; v138 = v116; v139 = 0; v140 = (unsigned char *)nd_data_static_50; v141 = 0ULL; goto L32; }
    v119 = (uint8_t)v112;
    switch (v119) {
    case 0: { v131 = 0U; v132 = 3; v133 = v119; v134 = 6; v135 = 1; v136 = v119; v137 = 6; v138 = v116; v139 = v119; v140 = (unsigned char *)nd_data_static_50; v141 = 0ULL; goto L32; }
    case 1: goto L22;
    default: goto L24; }
L22:;
    switch (nd_load_8(v110)) {
    case 84: goto L31;
    case 85: goto L23;
    default: { v131 = 0U; v132 = 3; v133 = 0; v134 = 6; v135 = 1; v136 = 0; v137 = 6; v138 = v116; v139 = 0; v140 = (unsigned char *)nd_data_static_50; v141 = 0ULL; goto L32; } }
L23:;
    v131 = 0U;
    v132 = 3;
    v133 = 0;
    v134 = 6;
    v135 = 5;
    v136 = 1;
    v137 = 6;
    v138 = v116;
    v139 = 0;
    v140 = (unsigned char *)nd_data_static_50;
    v141 = 0ULL;
    goto L32;
L24:;
    if (!(v112 < 3ULL)) { v131 = 0U; v132 = 3; v133 = 0; v134 = 6; v135 = 1; v136 = 0; v137 = 6; v138 = v116; v139 = 0; v140 = (unsigned char *)nd_data_static_50; v141 = 0ULL; goto L32; }
    v124 = nd_load_8(((unsigned char *)((uintptr_t)v110 + 1)));
    switch (nd_load_8(v110)) {
    case 83: goto L26;
    case 72: goto L27;
    default: { v131 = 0U; v132 = 3; v133 = 0; v134 = 6; v135 = 1; v136 = 0; v137 = 6; v138 = v116; v139 = 0; v140 = (unsigned char *)nd_data_static_50; v141 = 0ULL; goto L32; } }
L26:;
    if (v124 == 112) { v126 = 0ULL; v127 = 0; goto L29; }
    v131 = 0U;
    v132 = 3;
    v133 = 0;
    v134 = 6;
    v135 = 1;
    v136 = 0;
    v137 = 6;
    v138 = v116;
    v139 = 0;
    v140 = (unsigned char *)nd_data_static_50;
    v141 = 0ULL;
    goto L32;
L27:;
    switch (v124) {
    case 114: { v126 = 1ULL; v127 = 1; goto L29; }
    case 115: goto L28;
    case 99: goto L30;
    default: { v131 = 0U; v132 = 3; v133 = 0; v134 = 6; v135 = 1; v136 = 0; v137 = 6; v138 = v116; v139 = 0; v140 = (unsigned char *)nd_data_static_50; v141 = 0ULL; goto L32; } }
L28:;
    v126 = 1ULL;
    v127 = 2;
L29:;
    v128 = nd_umin_i64(v116, v126);
    v131 = 0U;
    v132 = 1;
    v133 = 16;
    v134 = 0;
    v135 = 0;
    v136 = 0;
    v137 = 0;
    v138 = v128;
    v139 = v127;
    v140 = (unsigned char *)((uintptr_t)v115 + (uintptr_t)v128);
    v141 = v116 - v128;
    goto L32;
L30:;
    v131 = 1U;
    v132 = 3;
    v133 = 0;
    v134 = 27;
    v135 = 7;
    v136 = 0;
    v137 = 6;
    v138 = v116;
    v139 = 0;
    v140 = (unsigned char *)nd_data_static_50;
    v141 = 0ULL;
    goto L32;
L31:;
    v131 = 0U;
    v132 = 3;
    v133 = 0;
    v134 = 6;
    v135 = 4;
    v136 = 0;
    v137 = 6;
    v138 = v116;
    v139 = 0;
    v140 = (unsigned char *)nd_data_static_50;
    v141 = 0ULL;
L32:;
    v143 = nd_umin_i64((v111 - v112), v104);
    v145 = nd_umin_i64(v86, v89);
    v147 = nd_umin_i64((v86 - v145), v107);
    nd_store_64(v5.b, 0ULL);
    nd_store_ptr((v5.b + 8), v82);
    nd_store_64((v5.b + 16), v91);
    nd_store_ptr((v5.b + 24), v92);
    nd_store_64((v5.b + 32), (uint64_t)(v81 > 1ULL));
    nd_store_ptr((v5.b + 40), v85);
    nd_store_64((v5.b + 48), v145);
    nd_store_ptr((v5.b + 56), ((unsigned char *)((uintptr_t)v85 + (uintptr_t)v145)));
    nd_store_64((v5.b + 64), v147);
    nd_store_ptr((v5.b + 72), v110);
    nd_store_64((v5.b + 80), v112);
    nd_store_ptr((v5.b + 88), ((unsigned char *)((uintptr_t)v110 + (uintptr_t)v112)));
    nd_store_64((v5.b + 96), v143);
    nd_store_8((v5.b + 104), v132);
    nd_store_8((v5.b + 105), v133);
    nd_store_16((v5.b + 106), 0);
    nd_store_32((v5.b + 108), v131);
    nd_store_8((v5.b + 112), v134);
    nd_store_8((v5.b + 113), v135);
    nd_store_8((v5.b + 114), v136);
    nd_store_8((v5.b + 115), v137);
    nd_store_32((v5.b + 116), 0U);
    nd_store_ptr((v5.b + 120), v115);
    nd_store_64((v5.b + 128), v138);
    nd_store_8(v6.b, v132);
    nd_store_8((v6.b + 1), v133);
    nd_store_16((v6.b + 2), 0);
    nd_store_32((v6.b + 4), v131);
    nd_store_8((v6.b + 8), v134);
    nd_store_8((v6.b + 9), v135);
    nd_store_8((v6.b + 10), v136);
    nd_store_8((v6.b + 11), v137);
    nd_store_32((v6.b + 12), 0U);
    nd_store_ptr((v6.b + 16), v115);
    nd_store_64((v6.b + 24), v138);
    nd_store_8((v6.b + 32), v139);
    nd_memset((v6.b + 33), 0, 7);
    nd_store_ptr((v6.b + 40), v140);
    nd_store_64((v6.b + 48), v141);
    nd_ndef_fields_begun_begin_with(v4.b, v80, v3, v5.b, v6.b);
    nd_memcpy(v7.b, v4.b, 384);
    nd_memcpy(v8.b, v7.b, 192);
    nd_memcpy(v9.b, (v7.b + 192), 192);
    nd_memset(v1, 0, 16);
    nd_store_64((v1 + 16), 6ULL);
    nd_memset((v1 + 24), 0, 16);
    nd_store_ptr((v1 + 40), (unsigned char *)nd_data_static_50);
    nd_memset((v1 + 48), 0, 112);
    nd_store_ptr((v1 + 160), (unsigned char *)nd_data_static_50);
    nd_store_64((v1 + 168), 0ULL);
    nd_store_ptr((v1 + 176), v2);
    nd_store_64((v1 + 184), v80);
    nd_memcpy((v1 + 192), v8.b, 192);
    nd_memcpy((v1 + 384), v9.b, 192);
    return;
}

static void nd_ndef_fields_begun_begin_with(unsigned char *v1, uint64_t v2, uint64_t v3, unsigned char *v4, unsigned char *v5) {
    uint8_t v8, v10, v21, v80, v115, v118, v124, v127, v130;
    unsigned char *v12, *v17, *v18, *v19, *v51, *v61, *v66, *v73, *v76, *v82, *v89, *v107;
    uint64_t v14, v16, v20, v52, v60, v62, v64, v67, v69, v70, v74, v77, v81, v83, v86, v88, v93, v101, v104, v106, v108, v109, v137, v141, v143, v145;
    uint32_t v49, v50, v121;
    ND_ROOM(96) v6;
    ND_ROOM(32) v7;
    v8 = nd_load_8(v4);
    v10 = nd_load_8((v5 + 32));
    v12 = nd_load_ptr((v5 + 40));
    v14 = nd_load_64((v5 + 48));
    nd_memset(v6.b, 0, 96);
    nd_memset(v7.b, 0, 32);
    if (v14 < 2ULL) { v76 = v12; v77 = v14; goto L13; }
    v16 = v14;
    v17 = v12;
L1:;
    v18 = (unsigned char *)((uintptr_t)v17 + 1);
    v19 = (unsigned char *)((uintptr_t)v17 + 2);
    v20 = v16 + 18446744073709551614ULL;
    v21 = nd_load_8(v17);
    if ((uint8_t)(v21 & 16) == 0) goto L4;
    if (v20 == 0ULL) { v76 = v17; v77 = 2ULL; goto L13; }
    v50 = (uint32_t)nd_load_8(v19);
    v51 = (unsigned char *)((uintptr_t)v17 + 3);
    v52 = v16 + 18446744073709551613ULL;
    goto L6;
L4:;
    if (v20 < 4ULL) { v76 = v17; v77 = v16; goto L13; }
    v49 = nd_bswap_i32((((((uint32_t)nd_load_8(((unsigned char *)((uintptr_t)v17 + 3))) << 8) | (uint32_t)nd_load_8(v19)) | ((uint32_t)nd_load_8(((unsigned char *)((uintptr_t)v17 + 4))) << 16)) | ((uint32_t)nd_load_8(((unsigned char *)((uintptr_t)v17 + 5))) << 24)));
    v50 = v49;
    v51 = (unsigned char *)((uintptr_t)v17 + 6);
    v52 = v16 + 18446744073709551610ULL;
L6:;
    if ((uint8_t)(v21 & 8) == 0) { v60 = 0ULL; v61 = v51; v62 = v52; goto L9; }
    if (v52 == 0ULL) { v76 = v17; v77 = v16; goto L13; }
    v60 = (uint64_t)nd_load_8(v51);
    v61 = (unsigned char *)((uintptr_t)v51 + 1);
    v62 = v52 + 18446744073709551615ULL;
L9:;
    v64 = (uint64_t)nd_load_8(v18);
    if (v62 < v64) { v76 = v17; v77 = v16; goto L13; }
    v66 = (unsigned char *)((uintptr_t)v61 + (uintptr_t)v64);
    v67 = v62 - v64;
    if (v67 < v60) { v76 = v17; v77 = v16; goto L13; }
    v69 = v67 - v60;
    v70 = (uint64_t)v50;
    if (v69 < v70) { v76 = v17; v77 = v16; goto L13; }
    v73 = (unsigned char *)((uintptr_t)((unsigned char *)((uintptr_t)v66 + (uintptr_t)v60)) + (uintptr_t)v70);
    v74 = v69 - v70;
    if (v74 < 2ULL) { v76 = v73; v77 = v74; goto L13; }
    v16 = v74;
    v17 = v73;
    goto L1;
L13:;
    if (v77 == 0ULL) { v80 = 0; goto L15; }
    v80 = nd_load_8(v76);
L15:;
    v81 = nd_umin_i64(v77, 2ULL);
    v82 = (unsigned char *)((uintptr_t)v76 + (uintptr_t)v81);
    v83 = v77 - v81;
    v86 = ((uint8_t)(v80 & 16) == 0) ? 4ULL : 1ULL;
    v88 = (uint64_t)(v77 != 0ULL);
    v89 = (unsigned char *)((uintptr_t)v76 + (uintptr_t)v88);
    if (v77 < 2ULL) { v93 = 0ULL; goto L17; }
    v93 = (uint64_t)nd_load_8(v89);
L17:;
    if (!(((uint8_t)(v80 & 8) != 0) & (int)(v86 < v83))) { v101 = 0ULL; goto L19; }
    v101 = (uint64_t)nd_load_8((v82 + (ptrdiff_t)v86));
L19:;
    v104 = (uint64_t)(uint8_t)((uint8_t)(v80 >> 3) & 1);
    v106 = nd_umin_i64(v83, (v86 + v104));
    v107 = (unsigned char *)((uintptr_t)v82 + (uintptr_t)v106);
    v108 = v83 - v106;
    v109 = nd_umin_i64(v108, v93);
    v115 = nd_ndef_format_table_Table_kind(v10, (uint8_t)(361982334838374656ULL >> ((uint64_t)(uint8_t)((uint8_t)((uint32_t)v80 << 3) & 56) & 63)), v107, v109);
    v118 = nd_load_8(((unsigned char *)nd_data_switch_table_ndef_fields_begun_begin_with + (ptrdiff_t)(uint64_t)v115));
    v121 = nd_load_32(((unsigned char *)nd_data_switch_table_ndef_fields_begun_begin_with_9 + (ptrdiff_t)(uint64_t)v115 * 4));
    v124 = nd_load_8(((unsigned char *)nd_data_switch_table_ndef_fields_begun_begin_with_10 + (ptrdiff_t)(uint64_t)v115));
    v127 = nd_load_8(((unsigned char *)nd_data_switch_table_ndef_fields_begun_begin_with_11 + (ptrdiff_t)(uint64_t)v115));
    v130 = nd_load_8(((unsigned char *)nd_data_switch_table_ndef_fields_begun_begin_with_12 + (ptrdiff_t)(uint64_t)v115));
    v137 = nd_umin_i64(v108, (v101 + v93));
    v141 = nd_umin_i64((v108 - v109), v101);
    v143 = nd_umin_i64(v83, v86);
    v145 = nd_umin_i64((v83 - v143), v104);
    nd_memcpy(v6.b, ((unsigned char *)((uintptr_t)v4 + 8)), 96);
    nd_memcpy(v7.b, ((unsigned char *)((uintptr_t)v4 + 104)), 32);
    nd_store_64(v1, v2);
    nd_store_64((v1 + 8), 0ULL);
    nd_store_64((v1 + 16), (uint64_t)v8);
    nd_memcpy((v1 + 24), v6.b, 96);
    nd_memcpy((v1 + 120), v7.b, 32);
    nd_store_8((v1 + 152), v10);
    nd_memset((v1 + 153), 0, 7);
    nd_store_ptr((v1 + 160), v12);
    nd_store_64((v1 + 168), (v14 - v77));
    nd_store_ptr((v1 + 176), (unsigned char *)nd_data_static_50);
    nd_store_64((v1 + 184), 0ULL);
    nd_store_64((v1 + 192), (v3 - v77));
    nd_store_8((v1 + 200), 1);
    nd_memset((v1 + 201), 0, 15);
    nd_store_ptr((v1 + 216), v76);
    nd_store_64((v1 + 224), v88);
    nd_store_ptr((v1 + 232), v89);
    nd_store_64((v1 + 240), (uint64_t)(v77 > 1ULL));
    nd_store_ptr((v1 + 248), v82);
    nd_store_64((v1 + 256), v143);
    nd_store_ptr((v1 + 264), ((unsigned char *)((uintptr_t)v82 + (uintptr_t)v143)));
    nd_store_64((v1 + 272), v145);
    nd_store_ptr((v1 + 280), v107);
    nd_store_64((v1 + 288), v109);
    nd_store_ptr((v1 + 296), ((unsigned char *)((uintptr_t)v107 + (uintptr_t)v109)));
    nd_store_64((v1 + 304), v141);
    nd_store_8((v1 + 312), 3);
    nd_store_8((v1 + 313), 0);
    nd_store_16((v1 + 314), 0);
    nd_store_32((v1 + 316), v121);
    nd_store_8((v1 + 320), v118);
    nd_store_8((v1 + 321), v124);
    nd_store_8((v1 + 322), v127);
    nd_store_8((v1 + 323), v130);
    nd_store_32((v1 + 324), 0U);
    nd_store_ptr((v1 + 328), ((unsigned char *)((uintptr_t)v107 + (uintptr_t)v137)));
    nd_store_64((v1 + 336), (v108 - v137));
    nd_store_8((v1 + 344), v10);
    nd_memset((v1 + 345), 0, 7);
    nd_store_ptr((v1 + 352), (unsigned char *)nd_data_static_50);
    nd_store_64((v1 + 360), 0ULL);
    nd_store_ptr((v1 + 368), (unsigned char *)nd_data_static_50);
    nd_store_64((v1 + 376), 0ULL);
    return;
}

static void nd_ndef_fields_message_fields_FieldsIterator_next(unsigned char *v1, unsigned char *v2) {
    unsigned char *v14, *v20;
    uint8_t v21;
    ND_ROOM(223) v3, v7;
    ND_ROOM(224) v4, v6, v8;
    ND_ROOM(192) v5;
    nd_memset(v4.b, 0, 224);
    nd_memset(v6.b, 0, 224);
    nd_memset(v8.b, 0, 224);
    nd_memcpy(v5.b, v2, 192);
    nd_ndef_fields_cursor_tell(v4.b, v5.b);
    if (nd_load_8(v4.b) == 1) goto L2;
    goto L3;
L1:;
    return;
L2:;
    nd_memcpy(v2, (v4.b + 32), 192);
    nd_store_64(v1, 1ULL);
    nd_memcpy(((unsigned char *)((uintptr_t)v1 + 8)), (v4.b + 8), 24);
    goto L1;
L3:;
    v14 = (unsigned char *)((uintptr_t)v2 + 192);
    nd_memcpy(v5.b, v14, 192);
    nd_ndef_fields_cursor_tell(v6.b, v5.b);
    if (!(nd_load_8(v6.b) == 1)) goto L5;
    nd_memcpy(v14, (v6.b + 32), 192);
    nd_store_64(v1, 1ULL);
    nd_memcpy(((unsigned char *)((uintptr_t)v1 + 8)), (v6.b + 8), 24);
    goto L1;
L5:;
    v20 = (unsigned char *)((uintptr_t)v2 + 384);
    nd_memcpy(v5.b, v20, 192);
    nd_ndef_fields_cursor_tell(v8.b, v5.b);
    v21 = nd_load_8(v8.b);
    nd_memset(v3.b, 0, 7);
    if (!(v21 == 1)) goto L7;
    nd_memcpy((v3.b + 7), (v8.b + 8), 216);
    nd_memcpy(v7.b, v3.b, 223);
    nd_memcpy(v20, (v7.b + 31), 192);
    nd_store_64(v1, 1ULL);
    nd_memcpy(((unsigned char *)((uintptr_t)v1 + 8)), (v7.b + 7), 24);
    goto L1;
L7:;
    nd_memset(v1, 0, 32);
    goto L1;
}

static void nd_ndef_fields_cursor_tell(unsigned char *v1, unsigned char *v2) {
    uint64_t v3, v8, v10, v12, v14, v16, v18, v20, v22, v24, v26, v28, v30, v32, v54, v61, v65, v79, v86, v87, v88, v89, v90, v91, v92, v93, v94, v105, v108, v110, v111, v131, v132, v133, v134, v135, v136, v137, v138, v139, v150, v151, v153, v158, v166, v170, v195, v225, v226, v227, v241, v242, v243, v244, v245, v246, v247, v248, v249, v251, v263, v264, v332, v364, v372, v374, v376, v379, v381, v382, v386, v387, v394, v397, v399, v401, v402, v405, v406, v409, v419, v451, v459, v461, v463, v466, v468, v469, v473, v474, v481, v484, v486, v488, v489, v492, v493, v496, v505, v507, v514, v516, v518, v520, v529, v532, v534;
    uint8_t v5, v34, v36, v42, v44, v46, v48, v56, v80, v81, v82, v83, v95, v96, v99, v100, v101, v102, v106, v112, v113, v121, v122, v125, v126, v127, v128, v140, v141, v144, v145, v146, v147, v152, v171, v196, v197, v200, v213, v214, v215, v218, v219, v220, v221, v223, v224, v231, v232, v235, v236, v237, v238, v250, v252, v253, v254, v257, v258, v259, v260, v333, v335, v365, v415, v420, v422, v452, v462, v503, v506, v510, v521, v522, v524, v525, v526, v527, v530;
    uint16_t v38, v97, v123, v142, v233, v255;
    uint32_t v40, v50, v84, v98, v103, v124, v129, v143, v148, v193, v222, v234, v239, v256, v261, v361, v362, v448, v449, v523;
    unsigned char *v52, *v59, *v63, *v85, *v104, *v107, *v109, *v130, *v149, *v240, *v262, *v330, *v331, *v363, *v373, *v378, *v384, *v385, *v400, *v403, *v407, *v417, *v418, *v450, *v460, *v465, *v471, *v472, *v487, *v490, *v494, *v511, *v512, *v513, *v515, *v517, *v519, *v528, *v531, *v533;
    ND_ROOM(7) v66, v67;
    v3 = nd_load_64(v2);
    v5 = nd_load_8((v2 + 8));
    v8 = nd_load_64((v2 + 16));
    v10 = nd_load_64((v2 + 24));
    v12 = nd_load_64((v2 + 32));
    v14 = nd_load_64((v2 + 40));
    v16 = nd_load_64((v2 + 48));
    v18 = nd_load_64((v2 + 56));
    v20 = nd_load_64((v2 + 64));
    v22 = nd_load_64((v2 + 72));
    v24 = nd_load_64((v2 + 80));
    v26 = nd_load_64((v2 + 88));
    v28 = nd_load_64((v2 + 96));
    v30 = nd_load_64((v2 + 104));
    v32 = nd_load_64((v2 + 112));
    v34 = nd_load_8((v2 + 120));
    v36 = nd_load_8((v2 + 121));
    v38 = nd_load_16((v2 + 122));
    v40 = nd_load_32((v2 + 124));
    v42 = nd_load_8((v2 + 128));
    v44 = nd_load_8((v2 + 129));
    v46 = nd_load_8((v2 + 130));
    v48 = nd_load_8((v2 + 131));
    v50 = nd_load_32((v2 + 132));
    v52 = nd_load_ptr((v2 + 136));
    v54 = nd_load_64((v2 + 144));
    v56 = nd_load_8((v2 + 152));
    v59 = nd_load_ptr((v2 + 160));
    v61 = nd_load_64((v2 + 168));
    v63 = nd_load_ptr((v2 + 176));
    v65 = nd_load_64((v2 + 184));
    nd_memcpy(v66.b, (v2 + 9), 7);
    nd_memcpy(v67.b, (v2 + 153), 7);
    v79 = v10;
    v80 = (uint8_t)v12;
    v81 = (uint8_t)(v12 >> 8);
    v82 = (uint8_t)(v12 >> 16);
    v83 = (uint8_t)(v12 >> 24);
    v84 = (uint32_t)(v12 >> 32);
    v85 = (unsigned char *)(uintptr_t)v14;
    v86 = v16;
    v87 = v18;
    v88 = v20;
    v89 = v22;
    v90 = v24;
    v91 = v26;
    v92 = v28;
    v93 = v30;
    v94 = v32;
    v95 = v34;
    v96 = v36;
    v97 = v38;
    v98 = v40;
    v99 = v42;
    v100 = v44;
    v101 = v46;
    v102 = v48;
    v103 = v50;
    v104 = v52;
    v105 = v54;
    v106 = v56;
    v107 = v59;
    v108 = v61;
    v109 = v63;
    v110 = v65;
    v111 = v3;
    v112 = v5;
    v113 = (uint8_t)v8;
L1:;
    v121 = (uint8_t)v79;
    v122 = (uint8_t)(v79 >> 8);
    v123 = (uint16_t)(v79 >> 16);
    v124 = (uint32_t)(v79 >> 32);
    v125 = v80;
    v126 = v81;
    v127 = v82;
    v128 = v83;
    v129 = v84;
    v130 = v85;
    v131 = v86;
    v132 = v87;
    v133 = v88;
    v134 = v89;
    v135 = v90;
    v136 = v91;
    v137 = v92;
    v138 = v93;
    v139 = v94;
    v140 = v95;
    v141 = v96;
    v142 = v97;
    v143 = v98;
    v144 = v99;
    v145 = v100;
    v146 = v101;
    v147 = v102;
    v148 = v103;
    v149 = v104;
    v150 = v105;
    v151 = v111;
    v152 = v113;
L2:;
    v153 = (uint64_t)v124;
    v158 = ((uint64_t)v129 << 32) | ((uint64_t)v128 << 24);
    v166 = v158 | ((((uint64_t)v127 << 16) | (uint64_t)v125) | ((uint64_t)v126 << 8));
    switch (v152) {
    case 0: goto L3;
    case 1: goto L4;
    case 2: goto L5;
    case 3: goto L6;
    case 4: goto L7;
    case 5: { v231 = 0; v232 = 0; v233 = 0; v234 = 0U; v235 = 0; v236 = 0; v237 = 0; v238 = 0; v239 = 0U; v240 = (unsigned char *)0; v241 = 0ULL; v242 = 0ULL; v243 = 0ULL; v244 = 0ULL; v245 = 0ULL; v246 = 0ULL; v247 = 0ULL; v248 = 0ULL; v249 = 0ULL; v250 = v152; v251 = v139; v252 = 6; v253 = v140; v254 = v141; v255 = v142; v256 = v143; v257 = v144; v258 = v145; v259 = v146; v260 = v147; v261 = v148; v262 = v149; v263 = v150; goto L47; }
    case 6: goto L8;
    default: goto L46; }
L3:;
    v231 = v140;
    v232 = v141;
    v233 = v142;
    v234 = v143;
    v235 = v144;
    v236 = v145;
    v237 = v146;
    v238 = v147;
    v239 = v148;
    v240 = v149;
    v241 = v150;
    v242 = v132;
    v243 = v133;
    v244 = v134;
    v245 = v135;
    v246 = v136;
    v247 = v137;
    v248 = v138;
    v249 = v139;
    v250 = 0;
    v251 = v166;
    v252 = 1;
    v253 = v121;
    v254 = v122;
    v255 = v123;
    v256 = v124;
    v257 = v125;
    v258 = v126;
    v259 = v127;
    v260 = v128;
    v261 = v129;
    v262 = v130;
    v263 = v131;
    goto L47;
L4:;
    v231 = v140;
    v232 = v141;
    v233 = v142;
    v234 = v143;
    v235 = v144;
    v236 = v145;
    v237 = v146;
    v238 = v147;
    v239 = v148;
    v240 = v149;
    v241 = v150;
    v242 = v132;
    v243 = v133;
    v244 = v134;
    v245 = v135;
    v246 = v136;
    v247 = v137;
    v248 = v138;
    v249 = v139;
    v250 = 1;
    v251 = v131;
    v252 = 2;
    v253 = v121;
    v254 = v122;
    v255 = v123;
    v256 = v124;
    v257 = v125;
    v258 = v126;
    v259 = v127;
    v260 = v128;
    v261 = v129;
    v262 = v130;
    v263 = v131;
    goto L47;
L5:;
    v231 = v140;
    v232 = v141;
    v233 = v142;
    v234 = v143;
    v235 = v144;
    v236 = v145;
    v237 = v146;
    v238 = v147;
    v239 = v148;
    v240 = v149;
    v241 = v150;
    v242 = v132;
    v243 = v133;
    v244 = v134;
    v245 = v135;
    v246 = v136;
    v247 = v137;
    v248 = v138;
    v249 = v139;
    v250 = 2;
    v251 = v133;
    v252 = 3;
    v253 = v121;
    v254 = v122;
    v255 = v123;
    v256 = v124;
    v257 = v125;
    v258 = v126;
    v259 = v127;
    v260 = v128;
    v261 = v129;
    v262 = v130;
    v263 = v131;
    goto L47;
L6:;
    v231 = v140;
    v232 = v141;
    v233 = v142;
    v234 = v143;
    v235 = v144;
    v236 = v145;
    v237 = v146;
    v238 = v147;
    v239 = v148;
    v240 = v149;
    v241 = v150;
    v242 = v132;
    v243 = v133;
    v244 = v134;
    v245 = v135;
    v246 = v136;
    v247 = v137;
    v248 = v138;
    v249 = v139;
    v250 = 3;
    v251 = v135;
    v252 = 4;
    v253 = v121;
    v254 = v122;
    v255 = v123;
    v256 = v124;
    v257 = v125;
    v258 = v126;
    v259 = v127;
    v260 = v128;
    v261 = v129;
    v262 = v130;
    v263 = v131;
    goto L47;
L7:;
    v231 = v140;
    v232 = v141;
    v233 = v142;
    v234 = v143;
    v235 = v144;
    v236 = v145;
    v237 = v146;
    v238 = v147;
    v239 = v148;
    v240 = v149;
    v241 = v150;
    v242 = v132;
    v243 = v133;
    v244 = v134;
    v245 = v135;
    v246 = v136;
    v247 = v137;
    v248 = v138;
    v249 = v139;
    v250 = 4;
    v251 = v137;
    v252 = 5;
    v253 = v121;
    v254 = v122;
    v255 = v123;
    v256 = v124;
    v257 = v125;
    v258 = v126;
    v259 = v127;
    v260 = v128;
    v261 = v129;
    v262 = v130;
    v263 = v131;
    goto L47;
L8:;
    v170 = v158 >> 24;
    v171 = (uint8_t)v170;
    switch (v121) {
    case 0: goto L50;
    case 3: goto L14;
    case 1: { v218 = 0; v219 = 0; v220 = 0; v221 = 0; v222 = 0U; v223 = 0; v224 = 0; v225 = v131; v226 = (v153 << 24) | (uint64_t)v122; goto L45; }
    case 2: goto L9;
    default: goto L44; }
L9:;
    if (v131 < 2ULL) goto L13;
    switch (nd_load_8(v130)) {
    case 254: goto L11;
    case 255: goto L12;
    default: goto L13; }
L11:;
    if (nd_load_8((v130 + 1)) == 255) { v218 = 0; v219 = 0; v220 = 0; v221 = 0; v222 = 0U; v223 = 10; v224 = 1; v225 = 2ULL; v226 = 9ULL; goto L45; }
    goto L13;
L12:;
    if (nd_load_8((v130 + 1)) == 254) { v218 = 0; v219 = 0; v220 = 0; v221 = 0; v222 = 0U; v223 = 10; v224 = 1; v225 = 2ULL; v226 = 9ULL; goto L45; }
L13:;
    v218 = 0;
    v219 = 0;
    v220 = 0;
    v221 = 0;
    v222 = 0U;
    v223 = 10;
    v224 = 1;
    v225 = 0ULL;
    v226 = 9ULL;
    goto L45;
L14:;
    if (!(v124 == 0U)) goto L42;
    switch (v126) {
    case 0: { v218 = 0; v219 = 0; v220 = 0; v221 = 0; v222 = 0U; v223 = 0; v224 = 0; v225 = v131; v226 = v170; goto L45; }
    case 1: { v218 = 0; v219 = 0; v220 = 0; v221 = 0; v222 = 0U; v223 = 0; v224 = 0; v225 = v131; v226 = v170; goto L45; }
    case 2: { v218 = 0; v219 = 0; v220 = 0; v221 = 0; v222 = 0U; v223 = 0; v224 = 0; v225 = v131; v226 = v170; goto L45; }
    case 3: goto L16;
    case 10: goto L21;
    case 4: { v195 = 7ULL; v196 = 8; v197 = 10; goto L30; }
    case 5: goto L25;
    case 6: goto L26;
    case 7: goto L27;
    case 8: goto L28;
    case 9: goto L29;
    default: goto L41; }
L16:;
    if (v131 < 2ULL) goto L20;
    switch (nd_load_8(v130)) {
    case 254: goto L18;
    case 255: goto L19;
    default: goto L20; }
L18:;
    if (nd_load_8((v130 + 1)) == 255) { v218 = 0; v219 = 0; v220 = 0; v221 = 0; v222 = 0U; v223 = 10; v224 = 1; v225 = 2ULL; v226 = 9ULL; goto L45; }
    goto L20;
L19:;
    if (nd_load_8((v130 + 1)) == 254) { v218 = 0; v219 = 0; v220 = 0; v221 = 0; v222 = 0U; v223 = 10; v224 = 1; v225 = 2ULL; v226 = 9ULL; goto L45; }
L20:;
    v218 = 0;
    v219 = 0;
    v220 = 0;
    v221 = 0;
    v222 = 0U;
    v223 = 10;
    v224 = 1;
    v225 = 0ULL;
    v226 = 9ULL;
    goto L45;
L21:;
    if (v127 == 0) { v218 = 0; v219 = 0; v220 = 0; v221 = 0; v222 = 0U; v223 = 0; v224 = 0; v225 = v131; v226 = 24ULL; goto L45; }
    if (v131 == 0ULL) { v193 = 0U; goto L24; }
    v193 = (uint32_t)nd_load_8(v130);
L24:;
    v218 = 24;
    v219 = (uint8_t)(v127 + 255);
    v220 = 10;
    v221 = 23;
    v222 = v193;
    v223 = 0;
    v224 = 3;
    v225 = 1ULL;
    v226 = 22ULL;
    goto L45;
L25:;
    v195 = 11ULL;
    v196 = 12;
    v197 = 12;
    goto L30;
L26:;
    v195 = 25ULL;
    v196 = 26;
    v197 = 26;
    goto L30;
L27:;
    v195 = 28ULL;
    v196 = 29;
    v197 = 30;
    goto L30;
L28:;
    v195 = 19ULL;
    v196 = 20;
    v197 = 24;
    goto L30;
L29:;
    v195 = 21ULL;
    v196 = 23;
    v197 = 24;
L30:;
    if (v131 == 0ULL) { v200 = 0; goto L32; }
    v200 = nd_load_8(v130);
L32:;
    switch (v126) {
    case 6: goto L34;
    case 9: goto L37;
    case 8: goto L36;
    case 7: goto L35;
    case 4: goto L33;
    case 5: { v213 = 0; v214 = 2; v215 = 0; goto L40; }
    default: goto L38; }
L33:;
    v213 = (uint8_t)(v200 & 63);
    v214 = (uint8_t)(((int8_t)v200 < (int8_t)0) ? 3 : 2);
    v215 = 0;
    goto L40;
L34:;
    if (v200 < 4) goto L39;
    v213 = 0;
    v214 = 1;
    v215 = 0;
    goto L40;
L35:;
    v213 = v200;
    v214 = 1;
    v215 = 0;
    goto L40;
L36:;
    v213 = v200;
    v214 = 9;
    v215 = 0;
    goto L40;
L37:;
    v213 = 0;
    v214 = 10;
    v215 = v200;
    goto L40;
L38:;
    nd_stop();
L39:;
    v213 = (uint8_t)(17039616U >> ((uint32_t)(uint8_t)((uint32_t)v200 << 3) & 31));
    v214 = (uint8_t)(1U >> ((uint32_t)(uint8_t)((uint32_t)v200 << 3) & 31));
    v215 = 0;
L40:;
    v218 = v197;
    v219 = v215;
    v220 = v214;
    v221 = v196;
    v222 = (uint32_t)v213;
    v223 = 0;
    v224 = 3;
    v225 = 1ULL;
    v226 = v195;
    goto L45;
L41:;
    nd_stop();
L42:;
    if (v126 == 0) { v218 = 0; v219 = 0; v220 = 0; v221 = 0; v222 = 0U; v223 = 0; v224 = 0; v225 = v131; v226 = v170; goto L45; }
    v218 = v171;
    v219 = v127;
    v220 = v126;
    v221 = v125;
    v222 = 0U;
    v223 = 0;
    v224 = 3;
    v225 = v153;
    v226 = v166;
    goto L45;
L44:;
    nd_stop();
L45:;
    v227 = nd_umin_i64(v131, v225);
    v231 = 0;
    v232 = 0;
    v233 = 0;
    v234 = 0U;
    v235 = 0;
    v236 = 0;
    v237 = 0;
    v238 = 0;
    v239 = 0U;
    v240 = (unsigned char *)0;
    v241 = 0ULL;
    v242 = 0ULL;
    v243 = 0ULL;
    v244 = 0ULL;
    v245 = 0ULL;
    v246 = 0ULL;
    v247 = 0ULL;
    v248 = 0ULL;
    v249 = 0ULL;
    v250 = (uint8_t)v226;
    v251 = v227;
    v252 = 6;
    v253 = v224;
    v254 = v223;
    v255 = 0;
    v256 = v222;
    v257 = v221;
    v258 = v220;
    v259 = v219;
    v260 = v218;
    v261 = 0U;
    v262 = (unsigned char *)((uintptr_t)v130 + (uintptr_t)v227);
    v263 = v131 - v227;
    goto L47;
L46:;
    nd_stop();
L47:;
    v264 = v251 + v151;
    if (v251 == 0ULL) { v121 = v253; v122 = v254; v123 = v255; v124 = v256; v125 = v257; v126 = v258; v127 = v259; v128 = v260; v129 = v261; v130 = v262; v131 = v263; v132 = v242; v133 = v243; v134 = v244; v135 = v245; v136 = v246; v137 = v247; v138 = v248; v139 = v249; v140 = v231; v141 = v232; v142 = v233; v143 = v234; v144 = v235; v145 = v236; v146 = v237; v147 = v238; v148 = v239; v149 = v240; v150 = v241; v151 = v264; v152 = v252; goto L2; }
    goto L49;
L48:;
    return;
L49:;
    nd_store_64(v1, 1ULL);
    nd_store_64((v1 + 8), v151);
    nd_store_64((v1 + 16), v251);
    nd_store_8((v1 + 24), v112);
    nd_store_8((v1 + 25), v250);
    nd_memset((v1 + 26), 0, 6);
    nd_store_64((v1 + 32), v264);
    nd_store_8((v1 + 40), v112);
    nd_memcpy((v1 + 41), v66.b, 7);
    nd_store_64((v1 + 48), (uint64_t)v252);
    nd_store_64((v1 + 56), (((((uint64_t)v256 << 32) | ((uint64_t)v255 << 16)) | ((uint64_t)v254 << 8)) | (uint64_t)v253));
    nd_store_64((v1 + 64), ((((((uint64_t)v261 << 32) | ((uint64_t)v260 << 24)) | ((uint64_t)v259 << 16)) | ((uint64_t)v258 << 8)) | (uint64_t)v257));
    nd_store_64((v1 + 72), (uint64_t)(uintptr_t)v262);
    nd_store_64((v1 + 80), v263);
    nd_store_64((v1 + 88), v242);
    nd_store_64((v1 + 96), v243);
    nd_store_64((v1 + 104), v244);
    nd_store_64((v1 + 112), v245);
    nd_store_64((v1 + 120), v246);
    nd_store_64((v1 + 128), v247);
    nd_store_64((v1 + 136), v248);
    nd_store_64((v1 + 144), v249);
    nd_store_8((v1 + 152), v231);
    nd_store_8((v1 + 153), v232);
    nd_store_16((v1 + 154), v233);
    nd_store_32((v1 + 156), v234);
    nd_store_8((v1 + 160), v235);
    nd_store_8((v1 + 161), v236);
    nd_store_8((v1 + 162), v237);
    nd_store_8((v1 + 163), v238);
    nd_store_32((v1 + 164), v239);
    nd_store_ptr((v1 + 168), v240);
    nd_store_64((v1 + 176), v241);
    nd_store_8((v1 + 184), v106);
    nd_memcpy((v1 + 185), v67.b, 7);
    nd_store_ptr((v1 + 192), v107);
    nd_store_64((v1 + 200), v108);
    nd_store_ptr((v1 + 208), v109);
    nd_store_64((v1 + 216), v110);
    goto L48;
L50:;
    if (v108 < 2ULL) goto L75;
    v330 = (unsigned char *)((uintptr_t)v107 + 1);
    v331 = (unsigned char *)((uintptr_t)v107 + 2);
    v332 = v108 + 18446744073709551614ULL;
    v333 = nd_load_8(v107);
    v335 = (uint8_t)(v333 & 16) == 0;
    if (v335) goto L54;
    if (v332 == 0ULL) goto L75;
    v362 = (uint32_t)nd_load_8(v331);
    v363 = (unsigned char *)((uintptr_t)v107 + 3);
    v364 = v108 + 18446744073709551613ULL;
    goto L56;
L54:;
    if (v332 < 4ULL) goto L75;
    v361 = nd_bswap_i32((((((uint32_t)nd_load_8(((unsigned char *)((uintptr_t)v107 + 3))) << 8) | (uint32_t)nd_load_8(v331)) | ((uint32_t)nd_load_8(((unsigned char *)((uintptr_t)v107 + 4))) << 16)) | ((uint32_t)nd_load_8(((unsigned char *)((uintptr_t)v107 + 5))) << 24)));
    v362 = v361;
    v363 = (unsigned char *)((uintptr_t)v107 + 6);
    v364 = v108 + 18446744073709551610ULL;
L56:;
    v365 = (uint8_t)(v333 & 8);
    if (v365 == 0) { v372 = 0ULL; v373 = v363; v374 = v364; goto L59; }
    if (v364 == 0ULL) goto L75;
    v372 = (uint64_t)nd_load_8(v363);
    v373 = (unsigned char *)((uintptr_t)v363 + 1);
    v374 = v364 + 18446744073709551615ULL;
L59:;
    v376 = (uint64_t)nd_load_8(v330);
    if (v374 < v376) goto L75;
    v378 = (unsigned char *)((uintptr_t)v373 + (uintptr_t)v376);
    v379 = v374 - v376;
    if (v379 < v372) goto L75;
    v381 = v379 - v372;
    v382 = (uint64_t)v362;
    if (v381 < v382) goto L75;
    v384 = (unsigned char *)((uintptr_t)v378 + (uintptr_t)v372);
    v385 = (unsigned char *)((uintptr_t)v384 + (uintptr_t)v382);
    v386 = v381 - v382;
    v387 = v335 ? 4ULL : 1ULL;
    if (!((v365 != 0) & (int)(v387 < v332))) { v394 = 0ULL; goto L64; }
    v394 = (uint64_t)nd_load_8((v331 + (ptrdiff_t)v387));
L64:;
    v397 = (uint64_t)(uint8_t)((uint8_t)(v333 >> 3) & 1);
    v399 = nd_umin_i64(v332, (v387 + v397));
    v400 = (unsigned char *)((uintptr_t)v331 + (uintptr_t)v399);
    v401 = v332 - v399;
    v402 = nd_umin_i64(v332, v387);
    v403 = (unsigned char *)((uintptr_t)v331 + (uintptr_t)v402);
    v405 = nd_umin_i64((v332 - v402), v397);
    v406 = nd_umin_i64(v401, v376);
    v407 = (unsigned char *)((uintptr_t)v400 + (uintptr_t)v406);
    v409 = nd_umin_i64((v401 - v406), v394);
    v415 = nd_ndef_format_table_Table_kind(v106, (uint8_t)(361982334838374656ULL >> ((uint64_t)(uint8_t)((uint8_t)((uint32_t)v333 << 3) & 56) & 63)), v373, v376);
    switch (v415) {
    case 1: goto L73;
    case 2: goto L65;
    case 9: goto L66;
    case 7: goto L67;
    case 8: goto L68;
    case 11: goto L69;
    case 10: { v510 = 1; v511 = v107; v512 = v330; v513 = v331; v514 = v402; v515 = v403; v516 = v405; v517 = v400; v518 = v406; v519 = v407; v520 = v409; v521 = 3; v522 = 0; v523 = 1U; v524 = 18; v525 = 8; v526 = 0; v527 = 6; v528 = v384; v529 = v382; v530 = v106; v531 = v385; v532 = v386; v533 = v109; v534 = v110; goto L101; }
    case 12: goto L70;
    case 6: goto L71;
    case 0: goto L74;
    case 3: goto L74;
    case 4: goto L74;
    case 5: goto L74;
    default: goto L72; }
L65:;
    v510 = 1;
    v511 = v107;
    v512 = v330;
    v513 = v331;
    v514 = v402;
    v515 = v403;
    v516 = v405;
    v517 = v400;
    v518 = v406;
    v519 = v407;
    v520 = v409;
    v521 = 3;
    v522 = 0;
    v523 = 0U;
    v524 = 6;
    v525 = 5;
    v526 = 1;
    v527 = 6;
    v528 = v384;
    v529 = v382;
    v530 = v106;
    v531 = v385;
    v532 = v386;
    v533 = v109;
    v534 = v110;
    goto L101;
L66:;
    v510 = 1;
    v511 = v107;
    v512 = v330;
    v513 = v331;
    v514 = v402;
    v515 = v403;
    v516 = v405;
    v517 = v400;
    v518 = v406;
    v519 = v407;
    v520 = v409;
    v521 = 3;
    v522 = 0;
    v523 = 0U;
    v524 = 6;
    v525 = 2;
    v526 = 0;
    v527 = 15;
    v528 = v384;
    v529 = v382;
    v530 = v106;
    v531 = v385;
    v532 = v386;
    v533 = v109;
    v534 = v110;
    goto L101;
L67:;
    v510 = 1;
    v511 = v107;
    v512 = v330;
    v513 = v331;
    v514 = v402;
    v515 = v403;
    v516 = v405;
    v517 = v400;
    v518 = v406;
    v519 = v407;
    v520 = v409;
    v521 = 3;
    v522 = 0;
    v523 = 1U;
    v524 = 6;
    v525 = 0;
    v526 = 0;
    v527 = 13;
    v528 = v384;
    v529 = v382;
    v530 = v106;
    v531 = v385;
    v532 = v386;
    v533 = v109;
    v534 = v110;
    goto L101;
L68:;
    v510 = 1;
    v511 = v107;
    v512 = v330;
    v513 = v331;
    v514 = v402;
    v515 = v403;
    v516 = v405;
    v517 = v400;
    v518 = v406;
    v519 = v407;
    v520 = v409;
    v521 = 3;
    v522 = 0;
    v523 = 4U;
    v524 = 6;
    v525 = 0;
    v526 = 0;
    v527 = 14;
    v528 = v384;
    v529 = v382;
    v530 = v106;
    v531 = v385;
    v532 = v386;
    v533 = v109;
    v534 = v110;
    goto L101;
L69:;
    v510 = 1;
    v511 = v107;
    v512 = v330;
    v513 = v331;
    v514 = v402;
    v515 = v403;
    v516 = v405;
    v517 = v400;
    v518 = v406;
    v519 = v407;
    v520 = v409;
    v521 = 3;
    v522 = 0;
    v523 = 2U;
    v524 = 6;
    v525 = 0;
    v526 = 0;
    v527 = 17;
    v528 = v384;
    v529 = v382;
    v530 = v106;
    v531 = v385;
    v532 = v386;
    v533 = v109;
    v534 = v110;
    goto L101;
L70:;
    v510 = 1;
    v511 = v107;
    v512 = v330;
    v513 = v331;
    v514 = v402;
    v515 = v403;
    v516 = v405;
    v517 = v400;
    v518 = v406;
    v519 = v407;
    v520 = v409;
    v521 = 3;
    v522 = 0;
    v523 = 0U;
    v524 = 6;
    v525 = 6;
    v526 = 0;
    v527 = 6;
    v528 = v384;
    v529 = v382;
    v530 = v106;
    v531 = v385;
    v532 = v386;
    v533 = v109;
    v534 = v110;
    goto L101;
L71:;
    v510 = 1;
    v511 = v107;
    v512 = v330;
    v513 = v331;
    v514 = v402;
    v515 = v403;
    v516 = v405;
    v517 = v400;
    v518 = v406;
    v519 = v407;
    v520 = v409;
    v521 = 3;
    v522 = 0;
    v523 = 1U;
    v524 = 27;
    v525 = 7;
    v526 = 0;
    v527 = 6;
    v528 = v384;
    v529 = v382;
    v530 = v106;
    v531 = v385;
    v532 = v386;
    v533 = v109;
    v534 = v110;
    goto L101;
L72:;
    nd_stop();
L73:;
    v510 = 1;
    v511 = v107;
    v512 = v330;
    v513 = v331;
    v514 = v402;
    v515 = v403;
    v516 = v405;
    v517 = v400;
    v518 = v406;
    v519 = v407;
    v520 = v409;
    v521 = 3;
    v522 = 0;
    v523 = 0U;
    v524 = 6;
    v525 = 4;
    v526 = 0;
    v527 = 6;
    v528 = v384;
    v529 = v382;
    v530 = v106;
    v531 = v385;
    v532 = v386;
    v533 = v109;
    v534 = v110;
    goto L101;
L74:;
    v510 = 1;
    v511 = v107;
    v512 = v330;
    v513 = v331;
    v514 = v402;
    v515 = v403;
    v516 = v405;
    v517 = v400;
    v518 = v406;
    v519 = v407;
    v520 = v409;
    v521 = 3;
    v522 = 0;
    v523 = 0U;
    v524 = 6;
    v525 = 1;
    v526 = 0;
    v527 = 6;
    v528 = v384;
    v529 = v382;
    v530 = v106;
    v531 = v385;
    v532 = v386;
    v533 = v109;
    v534 = v110;
    goto L101;
L75:;
    if (v110 < 2ULL) goto L102;
    v417 = (unsigned char *)((uintptr_t)v109 + 1);
    v418 = (unsigned char *)((uintptr_t)v109 + 2);
    v419 = v110 + 18446744073709551614ULL;
    v420 = nd_load_8(v109);
    v422 = (uint8_t)(v420 & 16) == 0;
    if (v422) goto L79;
    if (v419 == 0ULL) goto L102;
    v449 = (uint32_t)nd_load_8(v418);
    v450 = (unsigned char *)((uintptr_t)v109 + 3);
    v451 = v110 + 18446744073709551613ULL;
    goto L81;
L79:;
    if (v419 < 4ULL) goto L102;
    v448 = nd_bswap_i32((((((uint32_t)nd_load_8(((unsigned char *)((uintptr_t)v109 + 3))) << 8) | (uint32_t)nd_load_8(v418)) | ((uint32_t)nd_load_8(((unsigned char *)((uintptr_t)v109 + 4))) << 16)) | ((uint32_t)nd_load_8(((unsigned char *)((uintptr_t)v109 + 5))) << 24)));
    v449 = v448;
    v450 = (unsigned char *)((uintptr_t)v109 + 6);
    v451 = v110 + 18446744073709551610ULL;
L81:;
    v452 = (uint8_t)(v420 & 8);
    if (v452 == 0) { v459 = 0ULL; v460 = v450; v461 = v451; goto L84; }
    if (v451 == 0ULL) goto L102;
    v459 = (uint64_t)nd_load_8(v450);
    v460 = (unsigned char *)((uintptr_t)v450 + 1);
    v461 = v451 + 18446744073709551615ULL;
L84:;
    v462 = nd_load_8(v417);
    v463 = (uint64_t)v462;
    if (v461 < v463) goto L102;
    v465 = (unsigned char *)((uintptr_t)v460 + (uintptr_t)v463);
    v466 = v461 - v463;
    if (v466 < v459) goto L102;
    v468 = v466 - v459;
    v469 = (uint64_t)v449;
    if (v468 < v469) goto L102;
    v471 = (unsigned char *)((uintptr_t)v465 + (uintptr_t)v459);
    v472 = (unsigned char *)((uintptr_t)v471 + (uintptr_t)v469);
    v473 = v468 - v469;
    v474 = v422 ? 4ULL : 1ULL;
    if (!((v452 != 0) & (int)(v474 < v419))) { v481 = 0ULL; goto L89; }
    v481 = (uint64_t)nd_load_8((v418 + (ptrdiff_t)v474));
L89:;
    v484 = (uint64_t)(uint8_t)((uint8_t)(v420 >> 3) & 1);
    v486 = nd_umin_i64(v419, (v474 + v484));
    v487 = (unsigned char *)((uintptr_t)v418 + (uintptr_t)v486);
    v488 = v419 - v486;
    v489 = nd_umin_i64(v419, v474);
    v490 = (unsigned char *)((uintptr_t)v418 + (uintptr_t)v489);
    v492 = nd_umin_i64((v419 - v489), v484);
    v493 = nd_umin_i64(v488, v463);
    v494 = (unsigned char *)((uintptr_t)v487 + (uintptr_t)v493);
    v496 = nd_umin_i64((v488 - v493), v481);
    if (!((uint8_t)(v420 & 39) == 1)) { v510 = 0; v511 = v109; v512 = v417; v513 = v418; v514 = v489; v515 = v490; v516 = v492; v517 = v487; v518 = v493; v519 = v494; v520 = v496; v521 = 3; v522 = 0; v523 = 0U; v524 = 6; v525 = 1; v526 = 0; v527 = 6; v528 = v471; v529 = v469; v530 = 0; v531 = (unsigned char *)nd_data_static_50; v532 = 0ULL; v533 = v472; v534 = v473; goto L101; }
    switch (v462) {
    case 0: { v510 = v462; v511 = v109; v512 = v417; v513 = v418; v514 = v489; v515 = v490; v516 = v492; v517 = v487; v518 = v493; v519 = v494; v520 = v496; v521 = 3; v522 = v462; v523 = 0U; v524 = 6; v525 = 1; v526 = v462; v527 = 6; v528 = v471; v529 = v469; v530 = v462; v531 = (unsigned char *)nd_data_static_50; v532 = 0ULL; v533 = v472; v534 = v473; goto L101; }
    case 1: goto L91;
    default: goto L93; }
L91:;
    switch (nd_load_8(v460)) {
    case 84: goto L100;
    case 85: goto L92;
    default: { v510 = 0; v511 = v109; v512 = v417; v513 = v418; v514 = v489; v515 = v490; v516 = v492; v517 = v487; v518 = v493; v519 = v494; v520 = v496; v521 = 3; v522 = 0; v523 = 0U; v524 = 6; v525 = 1; v526 = 0; v527 = 6; v528 = v471; v529 = v469; v530 = 0; v531 = (unsigned char *)nd_data_static_50; v532 = 0ULL; v533 = v472; v534 = v473; goto L101; } }
L92:;
    v510 = 0;
    v511 = v109;
    v512 = v417;
    v513 = v418;
    v514 = v489;
    v515 = v490;
    v516 = v492;
    v517 = v487;
    v518 = v493;
    v519 = v494;
    v520 = v496;
    v521 = 3;
    v522 = 0;
    v523 = 0U;
    v524 = 6;
    v525 = 5;
    v526 = 1;
    v527 = 6;
    v528 = v471;
    v529 = v469;
    v530 = 0;
    v531 = (unsigned char *)nd_data_static_50;
    v532 = 0ULL;
    v533 = v472;
    v534 = v473;
    goto L101;
L93:;
    if (!(v462 < 3)) { v510 = 0; v511 = v109; v512 = v417; v513 = v418; v514 = v489; v515 = v490; v516 = v492; v517 = v487; v518 = v493; v519 = v494; v520 = v496; v521 = 3; v522 = 0; v523 = 0U; v524 = 6; v525 = 1; v526 = 0; v527 = 6; v528 = v471; v529 = v469; v530 = 0; v531 = (unsigned char *)nd_data_static_50; v532 = 0ULL; v533 = v472; v534 = v473; goto L101; }
    v503 = nd_load_8(((unsigned char *)((uintptr_t)v460 + 1)));
    switch (nd_load_8(v460)) {
    case 83: goto L95;
    case 72: goto L96;
    default: { v510 = 0; v511 = v109; v512 = v417; v513 = v418; v514 = v489; v515 = v490; v516 = v492; v517 = v487; v518 = v493; v519 = v494; v520 = v496; v521 = 3; v522 = 0; v523 = 0U; v524 = 6; v525 = 1; v526 = 0; v527 = 6; v528 = v471; v529 = v469; v530 = 0; v531 = (unsigned char *)nd_data_static_50; v532 = 0ULL; v533 = v472; v534 = v473; goto L101; } }
L95:;
    if (v503 == 112) { v505 = 0ULL; v506 = 0; goto L98; }
    v510 = 0;
    v511 = v109;
    v512 = v417;
    v513 = v418;
    v514 = v489;
    v515 = v490;
    v516 = v492;
    v517 = v487;
    v518 = v493;
    v519 = v494;
    v520 = v496;
    v521 = 3;
    v522 = 0;
    v523 = 0U;
    v524 = 6;
    v525 = 1;
    v526 = 0;
    v527 = 6;
    v528 = v471;
    v529 = v469;
    v530 = 0;
    v531 = (unsigned char *)nd_data_static_50;
    v532 = 0ULL;
    v533 = v472;
    v534 = v473;
    goto L101;
L96:;
    switch (v503) {
    case 114: { v505 = 1ULL; v506 = 1; goto L98; }
    case 115: goto L97;
    case 99: goto L99;
    default: { v510 = 0; v511 = v109; v512 = v417; v513 = v418; v514 = v489; v515 = v490; v516 = v492; v517 = v487; v518 = v493; v519 = v494; v520 = v496; v521 = 3; v522 = 0; v523 = 0U; v524 = 6; v525 = 1; v526 = 0; v527 = 6; v528 = v471; v529 = v469; v530 = 0; v531 = (unsigned char *)nd_data_static_50; v532 = 0ULL; v533 = v472; v534 = v473; goto L101; } }
L97:;
    v505 = 1ULL;
    v506 = 2;
L98:;
    v507 = nd_umin_i64(v469, v505);
    v510 = 0;
    v511 = v109;
    v512 = v417;
    v513 = v418;
    v514 = v489;
    v515 = v490;
    v516 = v492;
    v517 = v487;
    v518 = v493;
    v519 = v494;
    v520 = v496;
    v521 = 1;
    v522 = 16;
    v523 = 0U;
    v524 = 0;
    v525 = 0;
    v526 = 0;
    v527 = 0;
    v528 = v471;
    v529 = v507;
    v530 = v506;
    v531 = (unsigned char *)((uintptr_t)v471 + (uintptr_t)v507);
    v532 = v469 - v507;
    v533 = v472;
    v534 = v473;
    goto L101;
L99:;
    v510 = 0;
    v511 = v109;
    v512 = v417;
    v513 = v418;
    v514 = v489;
    v515 = v490;
    v516 = v492;
    v517 = v487;
    v518 = v493;
    v519 = v494;
    v520 = v496;
    v521 = 3;
    v522 = 0;
    v523 = 1U;
    v524 = 27;
    v525 = 7;
    v526 = 0;
    v527 = 6;
    v528 = v471;
    v529 = v469;
    v530 = 0;
    v531 = (unsigned char *)nd_data_static_50;
    v532 = 0ULL;
    v533 = v472;
    v534 = v473;
    goto L101;
L100:;
    v510 = 0;
    v511 = v109;
    v512 = v417;
    v513 = v418;
    v514 = v489;
    v515 = v490;
    v516 = v492;
    v517 = v487;
    v518 = v493;
    v519 = v494;
    v520 = v496;
    v521 = 3;
    v522 = 0;
    v523 = 0U;
    v524 = 6;
    v525 = 4;
    v526 = 0;
    v527 = 6;
    v528 = v471;
    v529 = v469;
    v530 = 0;
    v531 = (unsigned char *)nd_data_static_50;
    v532 = 0ULL;
    v533 = v472;
    v534 = v473;
L101:;
    nd_memset(v66.b, 0, 7);
    nd_memset(v67.b, 0, 7);
    v79 = (uint64_t)(uintptr_t)v511;
    v80 = 1;
    v81 = 0;
    v82 = 0;
    v83 = 0;
    v84 = 0U;
    v85 = v512;
    v86 = 1ULL;
    v87 = (uint64_t)(uintptr_t)v513;
    v88 = v514;
    v89 = (uint64_t)(uintptr_t)v515;
    v90 = v516;
    v91 = (uint64_t)(uintptr_t)v517;
    v92 = v518;
    v93 = (uint64_t)(uintptr_t)v519;
    v94 = v520;
    v95 = v521;
    v96 = v522;
    v97 = 0;
    v98 = v523;
    v99 = v524;
    v100 = v525;
    v101 = v526;
    v102 = v527;
    v103 = 0U;
    v104 = v528;
    v105 = v529;
    v106 = v530;
    v107 = v531;
    v108 = v532;
    v109 = v533;
    v110 = v534;
    v111 = v151;
    v112 = v510;
    v113 = 0;
    goto L1;
L102:;
    nd_memset(v1, 0, 224);
    goto L48;
}

static void nd_ndef_c_hints_hint_of(unsigned char *v1, unsigned char *v2, uint64_t v3, unsigned char *v4) {
    uint32_t v11, v13, v15, v17, v170, v179, v203, v211, v218, v227, v228, v229, v236, v270;
    uint8_t v21, v22, v28, v31, v32, v64, v67, v69, v72, v73, v95, v116, v127, v160, v161, v193, v194, v230, v237, v241, v242, v250, v254, v266, v268, v269;
    uint64_t v24, v27, v94, v111, v115, v124, v128, v129, v134, v139, v150, v152, v156, v163, v164, v171, v178, v182, v184, v189, v196, v197, v204, v217, v246, v247, v251, v267, v271;
    unsigned char *v93, *v114;
    ND_ROOM(16) v5, v6, v7, v8, v9;
    ND_ROOM(32) v10;
    v11 = nd_load_32(v4);
    v13 = nd_load_32((v4 + 4));
    v15 = nd_load_32((v4 + 8));
    v17 = nd_load_32((v4 + 12));
    nd_store_32(v9.b, v11);
    nd_store_32((v9.b + 4), v13);
    nd_store_32((v9.b + 8), v15);
    nd_store_32((v9.b + 12), v17);
    nd_memset(v10.b, 0, 32);
    nd_ndef_message_message_viewing_view(v10.b, v2, v3, v9.b);
    v21 = nd_load_8(v10.b);
    v22 = v21 == 0;
    v24 = nd_load_64((v10.b + 8));
    v27 = v22 ? 0ULL : v24;
    v28 = (uint8_t)(v22 ? 0 : nd_load_8((v10.b + 16)));
    if (!(v21 == 1)) { v267 = 0ULL; v268 = 0; v269 = 0; v270 = 0U; v271 = 0ULL; goto L89; }
    if (!(v24 == 0ULL)) goto L81;
    v31 = nd_core_slice_reads_slice_T_starts_with(v2, v3, (unsigned char *)nd_data_static_147, 10ULL);
    if (v31) { v267 = 1ULL; v268 = 1; v269 = 1; v270 = 0U; v271 = 0ULL; goto L89; }
    v32 = nd_core_slice_reads_slice_T_starts_with(v2, v3, (unsigned char *)nd_data_static_148, 10ULL);
    if (v32) { v267 = 1ULL; v268 = 1; v269 = 2; v270 = 0U; v271 = 0ULL; goto L89; }
    if (v3 < 8ULL) goto L6;
    if (((((nd_load_8(((unsigned char *)((uintptr_t)v2 + 1))) == 48) & (int)(nd_load_8(v2) == 48)) & (int)(nd_load_8(((unsigned char *)((uintptr_t)v2 + 2))) == 48)) & (int)(nd_load_8(((unsigned char *)((uintptr_t)v2 + 3))) == 48)) & (int)((((nd_load_8(((unsigned char *)((uintptr_t)v2 + 4))) == 48) & (int)(nd_load_8(((unsigned char *)((uintptr_t)v2 + 5))) == 48)) & (int)(nd_load_8(((unsigned char *)((uintptr_t)v2 + 6))) == 48)) & (int)(nd_load_8(((unsigned char *)((uintptr_t)v2 + 7))) == 32))) { v267 = 1ULL; v268 = 1; v269 = 3; v270 = 0U; v271 = 0ULL; goto L89; }
L6:;
    v64 = nd_core_slice_reads_slice_T_starts_with(v2, v3, (unsigned char *)nd_data_static_150, 17ULL);
    if (v64) { v267 = 1ULL; v268 = 1; v269 = 4; v270 = 0U; v271 = 0ULL; goto L89; }
    if (v3 < 3ULL) goto L12;
    v67 = nd_load_8(((unsigned char *)((uintptr_t)v2 + 1)));
    v69 = nd_load_8(v2) == 91;
    v72 = nd_load_8(((unsigned char *)((uintptr_t)v2 + 2)));
    v73 = v72 == 93;
    if (((v67 == 61) & v69) & v73) { v267 = 1ULL; v268 = 1; v269 = 5; v270 = 0U; v271 = 0ULL; goto L89; }
    if (((v67 == 43) & v69) & v73) { v267 = 1ULL; v268 = 1; v269 = 5; v270 = 0U; v271 = 0ULL; goto L89; }
    if (v3 < 5ULL) goto L13;
    if (v69 & (int)((nd_load_8(((unsigned char *)((uintptr_t)v2 + 3))) == 98) & (int)((v67 == 117) & (int)((v72 == 115) & (int)(nd_load_8(((unsigned char *)((uintptr_t)v2 + 4))) == 93))))) { v267 = 1ULL; v268 = 1; v269 = 5; v270 = 0U; v271 = 0ULL; goto L89; }
    goto L13;
L12:;
    if (v3 == 0ULL) goto L28;
L13:;
    v93 = v2;
    v94 = v3;
L14:;
    v95 = nd_load_8(v93);
    if (v95 < 48) goto L18;
    if (v95 < 58) goto L22;
    if (v95 < 65) goto L18;
    if ((v95 < 71) | (int)((uint8_t)(v95 + 159) < 6)) goto L22;
L18:;
    switch (v95) {
    case 13: goto L22;
    case 32: goto L22;
    case 58: goto L22;
    default: goto L19; }
L19:;
    if (v95 < 9) goto L21;
    if ((v95 < 11) | (int)((uint8_t)(v95 & 254) == 44)) goto L22;
L21:;
    if (!((uint8_t)((uint8_t)(v95 + 168) & 223) == 0)) goto L28;
L22:;
    v111 = v94 + 18446744073709551615ULL;
    if (v111 == 0ULL) { v114 = v2; v115 = v3; goto L23; }
    v93 = (unsigned char *)((uintptr_t)v93 + 1);
    v94 = v111;
    goto L14;
L23:;
    v116 = nd_load_8(v114);
    if (v116 < 48) goto L27;
    if (v116 < 58) { v267 = 1ULL; v268 = 1; v269 = 0; v270 = 0U; v271 = 0ULL; goto L89; }
    if (v116 < 65) goto L27;
    if ((v116 < 71) | (int)((uint8_t)(v116 + 159) < 6)) { v267 = 1ULL; v268 = 1; v269 = 0; v270 = 0U; v271 = 0ULL; goto L89; }
L27:;
    v124 = v115 + 18446744073709551615ULL;
    if (!(v124 == 0ULL)) { v114 = (unsigned char *)((uintptr_t)v114 + 1); v115 = v124; goto L23; }
L28:;
    v127 = nd_ndef_diagnostics_dump_text_may_be_base64(v2, v3);
    if (v127) { v267 = 1ULL; v268 = 1; v269 = 6; v270 = 0U; v271 = 0ULL; goto L89; }
    v128 = nd_umin_i64(v3, 16777216ULL);
    v129 = 0ULL;
L30:;
    if (!(v129 < v128)) goto L34;
    if (!(nd_load_8((v2 + (ptrdiff_t)v129)) == 225)) goto L34;
    v134 = v129 + 1ULL;
    if (!(v134 < v128)) goto L34;
    if (nd_load_8((v2 + (ptrdiff_t)v134)) == 16) goto L36;
L34:;
    v139 = v129 + 1ULL;
    if (!(v139 == 17ULL)) { v129 = v139; goto L30; }
    if (v3 == 0ULL) { v150 = 0ULL; goto L41; }
    goto L37;
L36:;
    v150 = v129 + 4ULL;
    goto L41;
L37:;
    if (!((uint8_t)(nd_load_8(v2) + 31) < 2)) { v150 = 0ULL; goto L41; }
    if (!(v3 > 2ULL)) goto L40;
    if (!(nd_load_8((v2 + 2)) == 0)) { v150 = 4ULL; goto L41; }
L40:;
    v150 = 8ULL;
L41:;
    if (v150 < v128) { v152 = v150; goto L42; }
    v184 = v150;
    goto L54;
L42:;
    switch (nd_load_8((v2 + (ptrdiff_t)v152))) {
    case 0: goto L43;
    case 1: goto L44;
    case 2: goto L44;
    case 253: goto L44;
    default: { v184 = v152; goto L54; } }
L43:;
    v182 = v152 + 1ULL;
    goto L53;
L44:;
    v156 = v152 + 1ULL;
    if (v156 < v128) goto L46;
    v178 = v152 + 2ULL;
    v179 = 0U;
    goto L52;
L46:;
    v160 = nd_load_8((v2 + (ptrdiff_t)v156));
    v161 = v160 == 255;
    v163 = (v161 ? 4ULL : 2ULL) + v152;
    if (!v161) goto L51;
    v164 = v152 + 2ULL;
    if (!(v164 < v128)) { v170 = 0U; goto L49; }
    v170 = (uint32_t)nd_load_8((v2 + (ptrdiff_t)v164)) << 8;
L49:;
    v171 = v152 + 3ULL;
    if (!(v171 < v128)) { v178 = v163; v179 = v170; goto L52; }
    v178 = v163;
    v179 = v170 | (uint32_t)nd_load_8((v2 + (ptrdiff_t)v171));
    goto L52;
L51:;
    v178 = v163;
    v179 = (uint32_t)v160;
L52:;
    v182 = v178 + (uint64_t)v179;
L53:;
    if (v182 < v128) { v152 = v182; goto L42; }
    v184 = v182;
L54:;
    if (!(v184 < v128)) goto L70;
    if (!(nd_load_8((v2 + (ptrdiff_t)v184)) == 3)) goto L70;
    nd_memset(v8.b, 0, 16);
    v189 = v184 + 1ULL;
    if (v189 < v128) goto L58;
    v217 = v184 + 2ULL;
    v218 = 0U;
    goto L67;
L58:;
    v193 = nd_load_8((v2 + (ptrdiff_t)v189));
    v194 = v193 == 255;
    v196 = (v194 ? 4ULL : 2ULL) + v184;
    if (!v194) goto L63;
    v197 = v184 + 2ULL;
    if (!(v197 < v128)) { v203 = 0U; goto L61; }
    v203 = (uint32_t)nd_load_8((v2 + (ptrdiff_t)v197)) << 8;
L61:;
    v204 = v184 + 3ULL;
    if (!(v204 < v128)) { v211 = v203; goto L64; }
    v211 = v203 | (uint32_t)nd_load_8((v2 + (ptrdiff_t)v204));
    goto L64;
L63:;
    v211 = (uint32_t)v193;
L64:;
    if (v211 == 0U) { v217 = v196; v218 = 0U; goto L67; }
    if (!(v196 < v128)) goto L68;
    if ((int8_t)nd_load_8((v2 + (ptrdiff_t)v196)) < (int8_t)0) { v217 = v196; v218 = v211; goto L67; }
    goto L68;
L67:;
    nd_ndef_diagnostics_tag_memory_in_other(v8.b, v2, v128);
    v227 = v218;
    v228 = (uint32_t)v217;
    v229 = 0U;
    v230 = 1;
    goto L69;
L68:;
    nd_ndef_diagnostics_tag_memory_in_other(v8.b, v2, v128);
    v227 = nd_load_32((v8.b + 12));
    v228 = nd_load_32((v8.b + 8));
    v229 = nd_load_32((v8.b + 4));
    v230 = nd_load_8(v8.b);
L69:;
    nd_store_32((v7.b + 8), v228);
    nd_store_32((v7.b + 12), v227);
    v236 = v229;
    v237 = v230;
    goto L71;
L70:;
    nd_memset(v7.b, 0, 16);
    nd_ndef_diagnostics_tag_memory_in_other(v7.b, v2, v128);
    v236 = nd_load_32((v7.b + 4));
    v237 = nd_load_8(v7.b);
L71:;
    if (v237 == 1) { v267 = 1ULL; v268 = 0; v269 = 0; v270 = v236; v271 = nd_load_64((v7.b + 8)); goto L89; }
    v241 = v3 == 0ULL;
    if (v241) goto L74;
    v242 = nd_load_8(v2);
    switch (v242) {
    case 3: goto L74;
    case 1: goto L74;
    case 0: goto L74;
    default: { v254 = v242; goto L80; } }
L74:;
    nd_store_32(v6.b, v11);
    nd_store_32((v6.b + 4), v13);
    nd_store_32((v6.b + 8), v15);
    nd_store_32((v6.b + 12), v17);
    v246 = 1ULL;
L75:;
    v247 = nd_umin_i64(v3, v246);
    v250 = nd_ndef_diagnostics_hint_begins(((unsigned char *)((uintptr_t)v2 + (uintptr_t)v247)), (v3 - v247), v6.b);
    if (v250) goto L77;
    v251 = v246 + 1ULL;
    if (v251 == 17ULL) goto L78;
    v246 = v251;
    goto L75;
L77:;
    v267 = 1ULL;
    v268 = 2;
    v269 = 0;
    v270 = 0U;
    v271 = v246;
    goto L89;
L78:;
    if (v241) goto L81;
    v254 = nd_load_8(v2);
L80:;
    if (v254 == 254) { v267 = 1ULL; v268 = 3; v269 = 0; v270 = 0U; v271 = 0ULL; goto L89; }
L81:;
    if (!((v27 < v3) & (int)(v28 == 18))) goto L84;
    if (nd_load_8((v2 + (ptrdiff_t)v27)) == 104) { v267 = 1ULL; v268 = 4; v269 = 0; v270 = 0U; v271 = 0ULL; goto L89; }
    goto L87;
L84:;
    switch (v28) {
    case 0: goto L87;
    case 18: goto L87;
    case 1: goto L86;
    case 2: goto L86;
    case 3: goto L86;
    case 4: goto L86;
    case 5: goto L86;
    case 6: goto L86;
    case 7: goto L86;
    case 8: goto L86;
    case 9: goto L86;
    case 10: goto L86;
    case 11: goto L86;
    case 12: goto L86;
    case 13: goto L86;
    case 14: goto L86;
    case 15: goto L86;
    case 16: goto L86;
    case 17: goto L86;
    case 19: goto L86;
    case 20: goto L86;
    case 21: goto L86;
    case 22: goto L86;
    case 23: goto L86;
    case 24: goto L86;
    default: goto L85; }
L85:;
    nd_stop();
L86:;
    goto L88;
L87:;
    nd_store_32(v5.b, v11);
    nd_store_32((v5.b + 4), v13);
    nd_store_32((v5.b + 8), v15);
    nd_store_8((v5.b + 12), 1);
    nd_memset((v5.b + 13), 0, 3);
    v266 = nd_ndef_diagnostics_hint_begins(v2, v3, v5.b);
    if (v266) { v267 = 1ULL; v268 = 5; v269 = 0; v270 = 0U; v271 = 0ULL; goto L89; }
L88:;
    v267 = 0ULL;
    v268 = 0;
    v269 = 0;
    v270 = 0U;
    v271 = 0ULL;
L89:;
    nd_store_64(v1, v267);
    nd_store_8(((unsigned char *)((uintptr_t)v1 + 8)), v268);
    nd_store_8(((unsigned char *)((uintptr_t)v1 + 9)), v269);
    nd_store_32(((unsigned char *)((uintptr_t)v1 + 12)), v270);
    nd_store_64(((unsigned char *)((uintptr_t)v1 + 16)), v271);
    return;
}

static uint8_t nd_core_slice_reads_slice_T_starts_with(unsigned char *v1, uint64_t v2, unsigned char *v3, uint64_t v4) {
    uint8_t v6, v10, v11, v24, v25, v28, v29, v32, v33, v36, v37, v40, v41, v44, v45, v48, v49, v176, v212;
    uint64_t v50, v51, v56, v61, v66, v71, v76, v81, v86, v95, v100, v105, v110, v115, v120, v125, v177, v183, v190, v197;
    if (v2 < v4) { v6 = 0; goto L1; }
    goto L2;
L1:;
    return v6;
L2:;
    v10 = nd_load_8(((unsigned char *)((uintptr_t)v3 + 1)));
    v11 = nd_load_8(((unsigned char *)((uintptr_t)v1 + 1)));
    if (!(v4 < 4ULL)) goto L4;
    v212 = ((v10 != v11) | (int)(nd_load_8(v3) != nd_load_8(v1))) | (int)(nd_load_8(((unsigned char *)((uintptr_t)v3 + 2))) != nd_load_8(((unsigned char *)((uintptr_t)v1 + 2))));
    goto L7;
L4:;
    v24 = nd_load_8(v3);
    v25 = nd_load_8(v1);
    v28 = nd_load_8(((unsigned char *)((uintptr_t)v3 + 2)));
    v29 = nd_load_8(((unsigned char *)((uintptr_t)v1 + 2)));
    v32 = nd_load_8(((unsigned char *)((uintptr_t)v3 + 3)));
    v33 = nd_load_8(((unsigned char *)((uintptr_t)v1 + 3)));
    if (v4 < 9ULL) goto L6;
    v36 = nd_load_8(((unsigned char *)((uintptr_t)v3 + 4)));
    v37 = nd_load_8(((unsigned char *)((uintptr_t)v1 + 4)));
    v40 = nd_load_8(((unsigned char *)((uintptr_t)v3 + 5)));
    v41 = nd_load_8(((unsigned char *)((uintptr_t)v1 + 5)));
    v44 = nd_load_8(((unsigned char *)((uintptr_t)v3 + 6)));
    v45 = nd_load_8(((unsigned char *)((uintptr_t)v1 + 6)));
    v48 = nd_load_8(((unsigned char *)((uintptr_t)v3 + 7)));
    v49 = nd_load_8(((unsigned char *)((uintptr_t)v1 + 7)));
    v50 = v4 + 18446744073709551608ULL;
    v51 = nd_umin_i64(v50, 8ULL);
    v56 = v51 + 1ULL;
    v61 = v51 + 2ULL;
    v66 = v51 + 3ULL;
    v71 = v51 + 4ULL;
    v76 = v51 + 5ULL;
    v81 = v51 + 6ULL;
    v86 = v51 + 7ULL;
    v95 = v4 + 18446744073709551609ULL;
    v100 = v4 + 18446744073709551610ULL;
    v105 = v4 + 18446744073709551611ULL;
    v110 = v4 + 18446744073709551612ULL;
    v115 = v4 + 18446744073709551613ULL;
    v120 = v4 + 18446744073709551614ULL;
    v125 = v4 + 18446744073709551615ULL;
    v176 = (((((((((v10 != v11) | (int)(v24 != v25)) | (int)(v28 != v29)) | (int)(v32 != v33)) | (int)(v36 != v37)) | (int)(v40 != v41)) | (int)(v44 != v45)) | (int)(v48 != v49)) | (int)((((((((nd_load_8(((unsigned char *)((uintptr_t)v3 + (uintptr_t)v51))) != nd_load_8(((unsigned char *)((uintptr_t)v1 + (uintptr_t)v51)))) | (int)(nd_load_8(((unsigned char *)((uintptr_t)v3 + (uintptr_t)v56))) != nd_load_8(((unsigned char *)((uintptr_t)v1 + (uintptr_t)v56))))) | (int)(nd_load_8(((unsigned char *)((uintptr_t)v3 + (uintptr_t)v61))) != nd_load_8(((unsigned char *)((uintptr_t)v1 + (uintptr_t)v61))))) | (int)(nd_load_8(((unsigned char *)((uintptr_t)v3 + (uintptr_t)v66))) != nd_load_8(((unsigned char *)((uintptr_t)v1 + (uintptr_t)v66))))) | (int)(nd_load_8(((unsigned char *)((uintptr_t)v3 + (uintptr_t)v71))) != nd_load_8(((unsigned char *)((uintptr_t)v1 + (uintptr_t)v71))))) | (int)(nd_load_8(((unsigned char *)((uintptr_t)v3 + (uintptr_t)v76))) != nd_load_8(((unsigned char *)((uintptr_t)v1 + (uintptr_t)v76))))) | (int)(nd_load_8(((unsigned char *)((uintptr_t)v3 + (uintptr_t)v81))) != nd_load_8(((unsigned char *)((uintptr_t)v1 + (uintptr_t)v81))))) | (int)(nd_load_8(((unsigned char *)((uintptr_t)v3 + (uintptr_t)v86))) != nd_load_8(((unsigned char *)((uintptr_t)v1 + (uintptr_t)v86)))))) | (int)((((((((nd_load_8(((unsigned char *)((uintptr_t)v3 + (uintptr_t)v50))) != nd_load_8(((unsigned char *)((uintptr_t)v1 + (uintptr_t)v50)))) | (int)(nd_load_8(((unsigned char *)((uintptr_t)v3 + (uintptr_t)v95))) != nd_load_8(((unsigned char *)((uintptr_t)v1 + (uintptr_t)v95))))) | (int)(nd_load_8(((unsigned char *)((uintptr_t)v3 + (uintptr_t)v100))) != nd_load_8(((unsigned char *)((uintptr_t)v1 + (uintptr_t)v100))))) | (int)(nd_load_8(((unsigned char *)((uintptr_t)v3 + (uintptr_t)v105))) != nd_load_8(((unsigned char *)((uintptr_t)v1 + (uintptr_t)v105))))) | (int)(nd_load_8(((unsigned char *)((uintptr_t)v3 + (uintptr_t)v110))) != nd_load_8(((unsigned char *)((uintptr_t)v1 + (uintptr_t)v110))))) | (int)(nd_load_8(((unsigned char *)((uintptr_t)v3 + (uintptr_t)v115))) != nd_load_8(((unsigned char *)((uintptr_t)v1 + (uintptr_t)v115))))) | (int)(nd_load_8(((unsigned char *)((uintptr_t)v3 + (uintptr_t)v120))) != nd_load_8(((unsigned char *)((uintptr_t)v1 + (uintptr_t)v120))))) | (int)(nd_load_8(((unsigned char *)((uintptr_t)v3 + (uintptr_t)v125))) != nd_load_8(((unsigned char *)((uintptr_t)v1 + (uintptr_t)v125)))));
    v212 = v176;
    goto L7;
L6:;
    v177 = v4 + 18446744073709551612ULL;
    v183 = v4 + 18446744073709551613ULL;
    v190 = v4 + 18446744073709551614ULL;
    v197 = v4 + 18446744073709551615ULL;
    v212 = ((((v10 != v11) | (int)(v24 != v25)) | (int)(v28 != v29)) | (int)(v32 != v33)) | (int)((((nd_load_8(((unsigned char *)((uintptr_t)v3 + (uintptr_t)v177))) != nd_load_8(((unsigned char *)((uintptr_t)v1 + (uintptr_t)v177)))) | (int)(nd_load_8(((unsigned char *)((uintptr_t)v3 + (uintptr_t)v183))) != nd_load_8(((unsigned char *)((uintptr_t)v1 + (uintptr_t)v183))))) | (int)(nd_load_8(((unsigned char *)((uintptr_t)v3 + (uintptr_t)v190))) != nd_load_8(((unsigned char *)((uintptr_t)v1 + (uintptr_t)v190))))) | (int)(nd_load_8(((unsigned char *)((uintptr_t)v3 + (uintptr_t)v197))) != nd_load_8(((unsigned char *)((uintptr_t)v1 + (uintptr_t)v197)))));
L7:;
    v6 = v212 ^ 1;
    goto L1;
}

static uint8_t nd_ndef_diagnostics_dump_text_may_be_base64(unsigned char *v1, uint64_t v2) {
    uint8_t v4, v16, v26;
    uint64_t v11, v14, v24;
    unsigned char *v13, *v15;
    if (v2 == 0ULL) { v26 = 0; goto L11; }
    v4 = nd_load_8(v1);
    if (v4 == 43) goto L4;
    if (v4 < 47) { v26 = 0; goto L11; }
    if (!((v4 < 58) | (int)((uint8_t)(v4 + 153) < 20))) { v26 = 0; goto L11; }
L4:;
    v11 = v2 + 18446744073709551615ULL;
    if (v11 == 0ULL) { v26 = 1; goto L11; }
    v13 = v1;
    v14 = v11;
L5:;
    v15 = (unsigned char *)((uintptr_t)v13 + 1);
    v16 = nd_load_8(v15);
    switch (v16) {
    case 10: goto L10;
    case 13: goto L10;
    case 43: goto L10;
    case 61: goto L10;
    default: goto L6; }
L6:;
    if (v16 < 47) { v26 = 0; goto L11; }
    if (v16 < 58) goto L10;
    if (v16 < 65) { v26 = 0; goto L11; }
    if (!((v16 < 91) | (int)((uint8_t)(v16 + 159) < 26))) { v26 = 0; goto L11; }
L10:;
    v24 = v14 + 18446744073709551615ULL;
    if (v24 == 0ULL) { v26 = 1; goto L11; }
    v13 = v15;
    v14 = v24;
    goto L5;
L11:;
    return v26;
}

static void nd_ndef_diagnostics_tag_memory_in_other(unsigned char *v1, unsigned char *v2, uint64_t v3) {
    uint8_t v5;
    uint64_t v7, v9, v12;
    uint32_t v8, v15, v21, v27, v42, v47, v49, v50, v55, v56, v59, v61, v66, v74, v75, v76, v77;
    unsigned char *v10;
    if (v3 == 0ULL) goto L20;
    v5 = nd_load_8(v2);
    if (!(v5 == 16)) goto L15;
    v7 = nd_umin_i64(v3, 14ULL);
    v8 = 0U;
    v9 = v7;
    v10 = v2;
L3:;
    v12 = v9 + 18446744073709551615ULL;
    v15 = v8 + (uint32_t)nd_load_8(v10);
    if (!(v12 == 0ULL)) { v8 = v15; v9 = v12; v10 = (unsigned char *)((uintptr_t)v10 + 1); goto L3; }
    if (!(v3 > 14ULL)) { v27 = 0U; goto L7; }
    v21 = (uint32_t)nd_load_8((v2 + 14)) << 8;
    if (v3 == 15ULL) goto L8;
    v27 = v21 | (uint32_t)nd_load_8((v2 + 15));
L7:;
    if (v15 == v27) goto L10;
    goto L15;
L8:;
    if (!(v15 == v21)) { v61 = 4096U; goto L16; }
    v49 = (uint32_t)nd_load_8((v2 + 12)) << 8;
    v50 = (uint32_t)nd_load_8((v2 + 11)) << 16;
    goto L13;
L10:;
    if (!(v3 > 11ULL)) { v55 = 0U; v56 = 0U; goto L14; }
    v42 = (uint32_t)nd_load_8((v2 + 11)) << 16;
    if (v3 == 12ULL) { v55 = v42; v56 = 0U; goto L14; }
    v47 = (uint32_t)nd_load_8((v2 + 12)) << 8;
    if (v3 > 13ULL) { v49 = v47; v50 = v42; goto L13; }
    v55 = v42;
    v56 = v47;
    goto L14;
L13:;
    v55 = v50;
    v56 = v49 | (uint32_t)nd_load_8((v2 + 13));
L14:;
    v74 = 1U;
    v75 = 1U;
    v76 = 16U;
    v77 = v56 | v55;
    goto L21;
L15:;
    v59 = (uint32_t)v5 << 8;
    if (v3 == 1ULL) { v66 = v59; goto L17; }
    v61 = v59;
L16:;
    v66 = v61 | (uint32_t)nd_load_8((v2 + 1));
L17:;
    if (v66 == 0U) goto L20;
    if (v3 < (uint64_t)(v66 + 2U)) goto L20;
    if ((int8_t)nd_load_8((v2 + 2)) < (int8_t)0) { v74 = 1U; v75 = 2U; v76 = 2U; v77 = v66; goto L21; }
L20:;
    v74 = 0U;
    v75 = 0U;
    v76 = 0U;
    v77 = 0U;
L21:;
    nd_store_32(v1, v74);
    nd_store_32(((unsigned char *)((uintptr_t)v1 + 4)), v75);
    nd_store_32(((unsigned char *)((uintptr_t)v1 + 8)), v76);
    nd_store_32(((unsigned char *)((uintptr_t)v1 + 12)), v77);
    return;
}

static uint8_t nd_ndef_diagnostics_hint_begins(unsigned char *v1, uint64_t v2, unsigned char *v3) {
    uint32_t v8, v10, v12, v52, v53;
    uint8_t v14, v17, v66, v78, v99, v100, v107, v114, v175, v322, v403, v408, v409, v410, v411, v418;
    unsigned char *v22, *v23, *v54, *v64, *v69, *v75, *v105, *v138, *v166, *v215, *v257, *v285, *v313, *v362;
    uint64_t v24, v55, v63, v65, v67, v70, v73, v106, v109, v258;
    ND_ROOM(12) v4;
    ND_ROOM(3) v5;
    ND_ROOM(24) v6;
    ND_ROOM(16) v7;
    v8 = nd_load_32(v3);
    v10 = nd_load_32((v3 + 4));
    v12 = nd_load_32((v3 + 8));
    v14 = nd_load_8((v3 + 12));
    nd_memcpy(v5.b, (v3 + 13), 3);
    nd_memset(v6.b, 0, 24);
    nd_memset(v7.b, 0, 16);
    if (v2 == 0ULL) goto L80;
    v17 = nd_load_8(v1);
    if ((v2 == 1ULL) | (int)((uint8_t)(v17 & 64) == 0)) goto L80;
    v22 = (unsigned char *)((uintptr_t)v1 + 1);
    v23 = (unsigned char *)((uintptr_t)v1 + 2);
    v24 = v2 + 18446744073709551614ULL;
    if ((uint8_t)(v17 & 16) == 0) goto L5;
    if (v24 == 0ULL) goto L80;
    v53 = (uint32_t)nd_load_8(v23);
    v54 = (unsigned char *)((uintptr_t)v1 + 3);
    v55 = v2 + 18446744073709551613ULL;
    goto L7;
L5:;
    if (v24 < 4ULL) goto L80;
    v52 = nd_bswap_i32((((((uint32_t)nd_load_8(((unsigned char *)((uintptr_t)v1 + 3))) << 8) | (uint32_t)nd_load_8(v23)) | ((uint32_t)nd_load_8(((unsigned char *)((uintptr_t)v1 + 4))) << 16)) | ((uint32_t)nd_load_8(((unsigned char *)((uintptr_t)v1 + 5))) << 24)));
    v53 = v52;
    v54 = (unsigned char *)((uintptr_t)v1 + 6);
    v55 = v2 + 18446744073709551610ULL;
L7:;
    if ((uint8_t)(v17 & 8) == 0) { v63 = 0ULL; v64 = v54; v65 = v55; goto L10; }
    if (v55 == 0ULL) goto L80;
    v63 = (uint64_t)nd_load_8(v54);
    v64 = (unsigned char *)((uintptr_t)v54 + 1);
    v65 = v55 + 18446744073709551615ULL;
L10:;
    v66 = nd_load_8(v22);
    v67 = (uint64_t)v66;
    if (v65 < v67) goto L80;
    v69 = (unsigned char *)((uintptr_t)v64 + (uintptr_t)v67);
    v70 = v65 - v67;
    if (v70 < v63) goto L80;
    v73 = (uint64_t)v53;
    if ((v70 - v63) < v73) goto L80;
    v75 = (unsigned char *)((uintptr_t)v69 + (uintptr_t)v63);
    if (!((uint8_t)(v17 & 32) == 0)) goto L80;
    v78 = (uint8_t)(v17 & 7);
    if (((int8_t)v17 > (int8_t)255) | (int)(v53 > v8)) goto L80;
    if (v78 == 0) goto L21;
    if (!(v78 < 5)) goto L18;
    if (v66 == 0) goto L80;
    goto L22;
L18:;
    switch (v78) {
    case 7: goto L20;
    case 5: goto L19;
    default: goto L80; }
L19:;
    if (v66 == 0) goto L31;
    goto L80;
L20:;
    if ((v14 == 1) & (int)(v66 == 0)) goto L31;
    goto L80;
L21:;
    if (((v63 | v73) | v67) == 0ULL) goto L31;
    goto L80;
L22:;
    if (!(v78 == 1)) goto L31;
    if (!(v66 == 1)) goto L26;
    switch (nd_load_8(v64)) {
    case 84: { v100 = 1; goto L32; }
    case 85: goto L25;
    default: goto L31; }
L25:;
    v100 = 2;
    goto L32;
L26:;
    if (!(v66 < 3)) goto L31;
    v99 = nd_ndef_format_kind_of_two(nd_load_8(v64), nd_load_8(((unsigned char *)((uintptr_t)v64 + 1))));
    switch (v99) {
    case 3: { v410 = 0; goto L79; }
    case 4: goto L28;
    case 5: goto L29;
    case 0: { v100 = v99; goto L32; }
    case 1: { v100 = v99; goto L32; }
    case 2: { v100 = v99; goto L32; }
    case 6: { v100 = v99; goto L32; }
    case 7: { v100 = v99; goto L32; }
    case 8: { v100 = v99; goto L32; }
    case 9: { v100 = v99; goto L32; }
    case 10: { v100 = v99; goto L32; }
    case 11: { v100 = v99; goto L32; }
    default: goto L30; }
L28:;
    v410 = 1;
    goto L79;
L29:;
    v410 = 2;
    goto L79;
L30:;
    nd_stop();
L31:;
    goto L76;
L32:;
    nd_memset(v4.b, 0, 12);
    switch ((uint8_t)(((uint8_t)(v100 + 255) < 6) ? v100 : 0)) {
    case 1: goto L33;
    case 2: goto L53;
    case 6: goto L74;
    case 0: goto L76;
    case 3: goto L76;
    case 4: goto L76;
    case 5: goto L76;
    default: goto L75; }
L33:;
    if (v53 == 0U) goto L77;
    v105 = (unsigned char *)((uintptr_t)v75 + 1);
    v106 = v73 + 18446744073709551615ULL;
    v107 = nd_load_8(v75);
    v109 = (uint64_t)(uint8_t)(v107 & 63);
    if (((uint8_t)(v107 & 64) != 0) | (int)(v106 < v109)) goto L77;
    v114 = (int8_t)v107 < (int8_t)0;
    if ((v53 > 64U) | v114) goto L78;
    if (!(v53 < 9U)) goto L47;
    if (v53 < 5U) goto L40;
    if (!(((((((uint32_t)nd_load_8(((unsigned char *)((uintptr_t)v75 + 2))) << 8) | (uint32_t)nd_load_8(v105)) | ((uint32_t)nd_load_8(((unsigned char *)((uintptr_t)v75 + 3))) << 16)) | ((uint32_t)nd_load_8(((unsigned char *)((uintptr_t)v75 + 4))) << 24)) & 2155905152U) == 0U)) goto L78;
    v138 = (unsigned char *)((uintptr_t)v75 + (uintptr_t)v73);
    if (((((((uint32_t)nd_load_8(((unsigned char *)((uintptr_t)v138 - 3))) << 8) | (uint32_t)nd_load_8(((unsigned char *)((uintptr_t)v138 - 4)))) | ((uint32_t)nd_load_8(((unsigned char *)((uintptr_t)v138 - 2))) << 16)) | ((uint32_t)nd_load_8(((unsigned char *)((uintptr_t)v138 - 1))) << 24)) & 2155905152U) == 0U) goto L76;
    goto L78;
L40:;
    switch (v53) {
    case 1U: goto L76;
    case 2U: goto L41;
    case 4U: goto L44;
    default: goto L42; }
L41:;
    if ((int8_t)nd_load_8(v105) > (int8_t)255) goto L76;
    goto L78;
L42:;
    if (!((int8_t)nd_load_8(v105) > (int8_t)255)) goto L78;
    if ((int8_t)nd_load_8(((unsigned char *)((uintptr_t)v75 + 2))) > (int8_t)255) goto L76;
    goto L78;
L44:;
    v166 = (unsigned char *)((uintptr_t)v75 + 3);
    if (!((int8_t)nd_load_8(v105) > (int8_t)255)) goto L78;
    if (!((int8_t)nd_load_8(((unsigned char *)((uintptr_t)v75 + 2))) > (int8_t)255)) goto L78;
    if ((int8_t)nd_load_8(v166) > (int8_t)255) goto L76;
    goto L78;
L47:;
    if (!(v53 > 17U)) goto L49;
    v175 = nd_ndef_lang_ascii_are_many(v105, v106);
    if (v175) goto L76;
    goto L78;
L49:;
    if (!(((((((uint32_t)nd_load_8(((unsigned char *)((uintptr_t)v75 + 2))) << 8) | (uint32_t)nd_load_8(v105)) | ((uint32_t)nd_load_8(((unsigned char *)((uintptr_t)v75 + 3))) << 16)) | ((uint32_t)nd_load_8(((unsigned char *)((uintptr_t)v75 + 4))) << 24)) & 2155905152U) == 0U)) goto L78;
    if (!(((((((uint32_t)nd_load_8(((unsigned char *)((uintptr_t)v75 + 6))) << 8) | (uint32_t)nd_load_8(((unsigned char *)((uintptr_t)v75 + 5)))) | ((uint32_t)nd_load_8(((unsigned char *)((uintptr_t)v75 + 7))) << 16)) | ((uint32_t)nd_load_8(((unsigned char *)((uintptr_t)v75 + 8))) << 24)) & 2155905152U) == 0U)) goto L78;
    v215 = (unsigned char *)((uintptr_t)v75 + (uintptr_t)v73);
    if (!(((((((uint32_t)nd_load_8(((unsigned char *)((uintptr_t)v215 - 7))) << 8) | (uint32_t)nd_load_8(((unsigned char *)((uintptr_t)v215 - 8)))) | ((uint32_t)nd_load_8(((unsigned char *)((uintptr_t)v215 - 6))) << 16)) | ((uint32_t)nd_load_8(((unsigned char *)((uintptr_t)v215 - 5))) << 24)) & 2155905152U) == 0U)) goto L78;
    if (((((((uint32_t)nd_load_8(((unsigned char *)((uintptr_t)v215 - 3))) << 8) | (uint32_t)nd_load_8(((unsigned char *)((uintptr_t)v215 - 4)))) | ((uint32_t)nd_load_8(((unsigned char *)((uintptr_t)v215 - 2))) << 16)) | ((uint32_t)nd_load_8(((unsigned char *)((uintptr_t)v215 - 1))) << 24)) & 2155905152U) == 0U) goto L76;
    goto L78;
L53:;
    if (v53 == 0U) goto L77;
    v257 = (unsigned char *)((uintptr_t)v75 + 1);
    v258 = v73 + 18446744073709551615ULL;
    if (!(uint8_t)((nd_load_8(v75) < 36) ? 1 : (v14 == 1))) goto L77;
    if (!(v53 < 65U)) goto L73;
    if (!(v53 < 9U)) goto L67;
    if (v53 < 5U) goto L60;
    if (!(((((((uint32_t)nd_load_8(((unsigned char *)((uintptr_t)v75 + 2))) << 8) | (uint32_t)nd_load_8(v257)) | ((uint32_t)nd_load_8(((unsigned char *)((uintptr_t)v75 + 3))) << 16)) | ((uint32_t)nd_load_8(((unsigned char *)((uintptr_t)v75 + 4))) << 24)) & 2155905152U) == 0U)) goto L73;
    v285 = (unsigned char *)((uintptr_t)v75 + (uintptr_t)v73);
    if (((((((uint32_t)nd_load_8(((unsigned char *)((uintptr_t)v285 - 3))) << 8) | (uint32_t)nd_load_8(((unsigned char *)((uintptr_t)v285 - 4)))) | ((uint32_t)nd_load_8(((unsigned char *)((uintptr_t)v285 - 2))) << 16)) | ((uint32_t)nd_load_8(((unsigned char *)((uintptr_t)v285 - 1))) << 24)) & 2155905152U) == 0U) goto L76;
    goto L73;
L60:;
    switch (v53) {
    case 1U: goto L76;
    case 2U: goto L61;
    case 4U: goto L64;
    default: goto L62; }
L61:;
    if ((int8_t)nd_load_8(v257) > (int8_t)255) goto L76;
    goto L73;
L62:;
    if (!((int8_t)nd_load_8(v257) > (int8_t)255)) goto L73;
    if ((int8_t)nd_load_8(((unsigned char *)((uintptr_t)v75 + 2))) > (int8_t)255) goto L76;
    goto L73;
L64:;
    v313 = (unsigned char *)((uintptr_t)v75 + 3);
    if (!((int8_t)nd_load_8(v257) > (int8_t)255)) goto L73;
    if (!((int8_t)nd_load_8(((unsigned char *)((uintptr_t)v75 + 2))) > (int8_t)255)) goto L73;
    if ((int8_t)nd_load_8(v313) > (int8_t)255) goto L76;
    goto L73;
L67:;
    if (!(v53 > 17U)) goto L69;
    v322 = nd_ndef_lang_ascii_are_many(v257, v258);
    if (v322) goto L76;
    goto L73;
L69:;
    if (!(((((((uint32_t)nd_load_8(((unsigned char *)((uintptr_t)v75 + 2))) << 8) | (uint32_t)nd_load_8(v257)) | ((uint32_t)nd_load_8(((unsigned char *)((uintptr_t)v75 + 3))) << 16)) | ((uint32_t)nd_load_8(((unsigned char *)((uintptr_t)v75 + 4))) << 24)) & 2155905152U) == 0U)) goto L73;
    if (!(((((((uint32_t)nd_load_8(((unsigned char *)((uintptr_t)v75 + 6))) << 8) | (uint32_t)nd_load_8(((unsigned char *)((uintptr_t)v75 + 5)))) | ((uint32_t)nd_load_8(((unsigned char *)((uintptr_t)v75 + 7))) << 16)) | ((uint32_t)nd_load_8(((unsigned char *)((uintptr_t)v75 + 8))) << 24)) & 2155905152U) == 0U)) goto L73;
    v362 = (unsigned char *)((uintptr_t)v75 + (uintptr_t)v73);
    if (!(((((((uint32_t)nd_load_8(((unsigned char *)((uintptr_t)v362 - 7))) << 8) | (uint32_t)nd_load_8(((unsigned char *)((uintptr_t)v362 - 8)))) | ((uint32_t)nd_load_8(((unsigned char *)((uintptr_t)v362 - 6))) << 16)) | ((uint32_t)nd_load_8(((unsigned char *)((uintptr_t)v362 - 5))) << 24)) & 2155905152U) == 0U)) goto L73;
    if (((((((uint32_t)nd_load_8(((unsigned char *)((uintptr_t)v362 - 3))) << 8) | (uint32_t)nd_load_8(((unsigned char *)((uintptr_t)v362 - 4)))) | ((uint32_t)nd_load_8(((unsigned char *)((uintptr_t)v362 - 2))) << 16)) | ((uint32_t)nd_load_8(((unsigned char *)((uintptr_t)v362 - 1))) << 24)) & 2155905152U) == 0U) goto L76;
L73:;
    v403 = nd_ndef_lang_member_is_long_utf8(v257, v258);
    if (v403) { v418 = 1; goto L81; }
    goto L80;
L74:;
    nd_store_32((v4.b + 4), 1U);
    nd_store_8((v4.b + 8), 0);
    nd_store_8((v4.b + 9), 7);
    nd_store_8((v4.b + 10), 0);
    v408 = nd_ndef_lang_leaf_Leaf_is_completed_by(v4.b, v75, v73);
    if (v408) { v418 = 1; goto L81; }
    goto L80;
L75:;
    nd_stop();
L76:;
    v418 = 1;
    goto L81;
L77:;
    goto L80;
L78:;
    v409 = nd_ndef_lang_member_is_coded_text(v109, v114, v105, v106);
    if (v409) { v418 = 1; goto L81; }
    goto L80;
L79:;
    v411 = nd_ndef_nest_member_is_nested(v410, v10, v14, v75, v73);
    if (v411) { v418 = 1; goto L81; }
L80:;
    nd_store_32(v7.b, v8);
    nd_store_32((v7.b + 4), v10);
    nd_store_32((v7.b + 8), v12);
    nd_store_8((v7.b + 12), v14);
    nd_memcpy((v7.b + 13), v5.b, 3);
    nd_ndef_message_judging_judge_4(v6.b, v7.b, v1, v2);
    v418 = nd_load_8(v6.b) == 0;
L81:;
    return v418;
}

static void nd_ndef_message_judging_judge_4(unsigned char *v1, unsigned char *v2, unsigned char *v3, uint64_t v4) {
    uint32_t v8, v10, v12, v101, v102, v103, v140, v141, v192, v501, v502, v503, v528, v529, v537, v538, v539, v540, v541, v542, v548, v549, v550, v558, v578;
    uint8_t v14, v17, v18, v19, v20, v21, v24, v26, v29, v84, v86, v105, v112, v154, v169, v170, v173, v174, v175, v177, v198, v203, v210, v270, v415, v495, v496, v497, v498, v499, v505, v526, v533, v546, v551, v566;
    unsigned char *v15, *v48, *v49, *v50, *v52, *v53, *v54, *v55, *v56, *v57, *v58, *v59, *v60, *v61, *v62, *v63, *v64, *v65, *v71, *v72, *v73, *v74, *v75, *v76, *v77, *v78, *v79, *v80, *v81, *v82, *v83, *v87, *v106, *v109, *v110, *v142, *v152, *v157, *v163, *v164, *v201, *v261, *v351, *v406;
    uint64_t v39, v41, v85, v88, v100, v107, v111, v143, v151, v153, v155, v158, v160, v161, v165, v166, v202, v205, v352, v500, v536, v543, v545, v561, v565, v567, v568, v573, v575, v582, v584;
    uint16_t v104, v547;
    ND_ROOM(12) v5;
    ND_ROOM(16) v6;
    ND_ROOM(24) v7;
    ND_ROOM(464) v16;
    v8 = nd_load_32(v2);
    v10 = nd_load_32((v2 + 4));
    v12 = nd_load_32((v2 + 8));
    v14 = nd_load_8((v2 + 12));
    v15 = v2 + 13;
    v17 = v4 == 0ULL;
    if (v17) goto L10;
    v18 = v12 == 1U;
    v19 = v10 != 1U;
    v20 = nd_load_8(v3);
    v21 = (uint8_t)(v20 & 7);
    v24 = (uint8_t)(v20 & 64) != 0;
    v26 = (uint8_t)(v20 & 32) == 0;
    v29 = (v14 == 0) & (int)(v21 == 7);
    if (((int8_t)v20 > (int8_t)255) | v29) { v41 = (uint64_t)(v29 ^ 1); goto L9; }
    if (v21 == 6) { v41 = 3ULL; goto L9; }
    if ((uint8_t)(v20 & 96) == 96) { v41 = 6ULL; goto L9; }
    if ((uint8_t)(v20 & 39) == 32) { v41 = 7ULL; goto L9; }
    if (v26) goto L7;
    if (v18) { v41 = 8ULL; goto L9; }
    goto L10;
L7:;
    if (v19 | v24) goto L10;
    v41 = 9ULL;
    goto L9;
L8:;
    nd_store_64(((unsigned char *)((uintptr_t)v1 + 16)), v39);
    return;
L9:;
    nd_store_64(v1, 1ULL);
    nd_store_32(((unsigned char *)((uintptr_t)v1 + 8)), 0U);
    nd_store_32(((unsigned char *)((uintptr_t)v1 + 12)), 0U);
    v39 = v41;
    goto L8;
L10:;
    nd_store_32(v16.b, v8);
    v48 = v16.b + 4;
    nd_store_32(v48, v10);
    v49 = v16.b + 8;
    nd_store_32(v49, v12);
    v50 = v16.b + 12;
    nd_store_8(v50, v14);
    nd_memcpy((v16.b + 13), v15, 3);
    v52 = v16.b + 16;
    nd_store_8(v52, 1);
    v53 = v16.b + 17;
    nd_store_8(v53, 0);
    v54 = v16.b + 18;
    nd_store_16(v54, 0);
    v55 = v16.b + 20;
    nd_store_32(v55, v10);
    v56 = v16.b + 24;
    nd_store_32(v56, v12);
    v57 = v16.b + 28;
    nd_store_32(v57, v8);
    v58 = v16.b + 32;
    nd_store_8(v58, v14);
    v59 = v16.b + 33;
    nd_store_8(v59, 1);
    v60 = v16.b + 34;
    nd_store_8(v60, 0);
    v61 = v16.b + 35;
    nd_store_8(v61, (uint8_t)(v12 == 1U));
    v62 = v16.b + 36;
    nd_store_8(v62, (uint8_t)(v10 == 1U));
    v63 = v16.b + 37;
    nd_memset(v63, 0, 3);
    v64 = v16.b + 40;
    nd_store_32(v64, v8);
    v65 = v16.b + 44;
    nd_memset(v65, 0, 44);
    nd_store_64((v16.b + 88), 1099511627776ULL);
    nd_memset((v16.b + 96), 0, 368);
    if (v17) goto L120;
    v71 = v16.b + 176;
    v72 = v16.b + 56;
    v73 = v6.b + 1;
    v74 = v6.b + 2;
    v75 = v6.b + 4;
    v76 = v6.b + 8;
    v77 = v6.b + 12;
    v78 = v7.b + 8;
    v79 = v7.b + 16;
    v80 = v5.b + 4;
    v81 = v5.b + 9;
    v82 = v16.b + 180;
    v83 = v16.b + 456;
    v84 = (uint8_t)(nd_load_8(v3) & 64) != 0;
    v85 = 0ULL;
L12:;
    v86 = nd_load_8(v71);
    switch (v86) {
    case 4: { v575 = v85; goto L123; }
    case 5: goto L124;
    case 0: goto L14;
    case 1: goto L14;
    case 2: goto L14;
    case 3: goto L14;
    default: goto L13; }
L13:;
    nd_stop();
L14:;
    v87 = (unsigned char *)((uintptr_t)v3 + (uintptr_t)v85);
    v88 = v4 - v85;
    if (v84) goto L118;
    if ((uint8_t)(nd_load_8(v53) & 1)) goto L117;
    if (!(uint8_t)((v86 == 0) ? (nd_load_64(v72) == 0ULL) : 0)) goto L118;
    v100 = 0ULL;
    v101 = nd_load_32(v57);
    v102 = nd_load_32(v56);
    v103 = nd_load_32(v55);
    v104 = nd_load_16(v54);
    v105 = nd_load_8(v52);
L18:;
    v106 = (unsigned char *)((uintptr_t)v87 + (uintptr_t)v100);
    v107 = v88 - v100;
    nd_memset(v6.b, 0, 16);
    nd_memset(v7.b, 0, 24);
    if (v107 < 2ULL) goto L111;
    v109 = (unsigned char *)((uintptr_t)v106 + 1);
    v110 = (unsigned char *)((uintptr_t)v106 + 2);
    v111 = v107 + 18446744073709551614ULL;
    v112 = nd_load_8(v106);
    if ((uint8_t)(v112 & 16) == 0) goto L22;
    if (v111 == 0ULL) goto L111;
    v141 = (uint32_t)nd_load_8(v110);
    v142 = (unsigned char *)((uintptr_t)v106 + 3);
    v143 = v107 + 18446744073709551613ULL;
    goto L24;
L22:;
    if (v111 < 4ULL) goto L111;
    v140 = nd_bswap_i32((((((uint32_t)nd_load_8(((unsigned char *)((uintptr_t)v106 + 3))) << 8) | (uint32_t)nd_load_8(v110)) | ((uint32_t)nd_load_8(((unsigned char *)((uintptr_t)v106 + 4))) << 16)) | ((uint32_t)nd_load_8(((unsigned char *)((uintptr_t)v106 + 5))) << 24)));
    v141 = v140;
    v142 = (unsigned char *)((uintptr_t)v106 + 6);
    v143 = v107 + 18446744073709551610ULL;
L24:;
    if ((uint8_t)(v112 & 8) == 0) { v151 = 0ULL; v152 = v142; v153 = v143; goto L27; }
    if (v143 == 0ULL) goto L111;
    v151 = (uint64_t)nd_load_8(v142);
    v152 = (unsigned char *)((uintptr_t)v142 + 1);
    v153 = v143 + 18446744073709551615ULL;
L27:;
    v154 = nd_load_8(v109);
    v155 = (uint64_t)v154;
    if (v153 < v155) goto L111;
    v157 = (unsigned char *)((uintptr_t)v152 + (uintptr_t)v155);
    v158 = v153 - v155;
    if (v158 < v151) goto L111;
    v160 = v158 - v151;
    v161 = (uint64_t)v141;
    if (v160 < v161) goto L111;
    v163 = (unsigned char *)((uintptr_t)v157 + (uintptr_t)v151);
    v164 = (unsigned char *)((uintptr_t)v163 + (uintptr_t)v161);
    v165 = v160 - v161;
    v166 = v107 - v165;
    v169 = nd_load_8(v50);
    v170 = (uint8_t)(v112 & 64);
    v173 = ((int8_t)v112 < (int8_t)0) ^ (int)(uint8_t)(v105 & 1);
    v174 = v141 > v101;
    if (!((uint8_t)(v112 & 32) == 0)) goto L95;
    v175 = (uint8_t)(v112 & 7);
    v177 = v170 == 0;
    if ((uint8_t)(((v103 == 1U) & v177) ? 1 : v173) | v174) goto L111;
    if (v175 == 0) goto L38;
    if (!(v175 < 5)) goto L35;
    if (v154 == 0) goto L111;
    goto L39;
L35:;
    switch (v175) {
    case 7: goto L37;
    case 5: goto L36;
    default: goto L111; }
L36:;
    if (v154 == 0) goto L89;
    goto L111;
L37:;
    if ((v154 == 0) & (int)(v169 == 1)) goto L89;
    goto L111;
L38:;
    if (((v151 | v161) | v155) == 0ULL) goto L89;
    goto L111;
L39:;
    if (!(v175 == 1)) goto L89;
    v192 = nd_load_32(v48);
    if (!(v154 == 1)) goto L42;
    switch (nd_load_8(v152)) {
    case 84: goto L47;
    case 85: goto L67;
    default: goto L89; }
L42:;
    if (!(v154 < 3)) goto L89;
    v198 = nd_load_8(((unsigned char *)((uintptr_t)v152 + 1)));
    switch (nd_load_8(v152)) {
    case 83: goto L44;
    case 72: goto L45;
    default: goto L89; }
L44:;
    if (v198 == 112) { v498 = 0; goto L93; }
    goto L89;
L45:;
    switch (v198) {
    case 114: { v498 = 1; goto L93; }
    case 115: goto L46;
    case 99: goto L88;
    default: goto L89; }
L46:;
    v498 = 2;
    goto L93;
L47:;
    nd_memset(v5.b, 0, 12);
    if (v141 == 0U) goto L91;
    v201 = (unsigned char *)((uintptr_t)v163 + 1);
    v202 = v161 + 18446744073709551615ULL;
    v203 = nd_load_8(v163);
    v205 = (uint64_t)(uint8_t)(v203 & 63);
    if (((uint8_t)(v203 & 64) != 0) | (int)(v202 < v205)) goto L91;
    v210 = (int8_t)v203 < (int8_t)0;
    if ((v141 > 64U) | v210) goto L92;
    if (!(v141 < 9U)) goto L61;
    if (v141 < 5U) goto L54;
    if (!(((((((uint32_t)nd_load_8(((unsigned char *)((uintptr_t)v163 + 2))) << 8) | (uint32_t)nd_load_8(v201)) | ((uint32_t)nd_load_8(((unsigned char *)((uintptr_t)v163 + 3))) << 16)) | ((uint32_t)nd_load_8(((unsigned char *)((uintptr_t)v163 + 4))) << 24)) & 2155905152U) == 0U)) goto L92;
    if (((((((uint32_t)nd_load_8(((unsigned char *)((uintptr_t)v164 - 3))) << 8) | (uint32_t)nd_load_8(((unsigned char *)((uintptr_t)v164 - 4)))) | ((uint32_t)nd_load_8(((unsigned char *)((uintptr_t)v164 - 2))) << 16)) | ((uint32_t)nd_load_8(((unsigned char *)((uintptr_t)v164 - 1))) << 24)) & 2155905152U) == 0U) goto L90;
    goto L92;
L54:;
    switch (v141) {
    case 1U: goto L90;
    case 2U: goto L55;
    case 4U: goto L58;
    default: goto L56; }
L55:;
    if ((int8_t)nd_load_8(v201) > (int8_t)255) goto L90;
    goto L92;
L56:;
    if (!((int8_t)nd_load_8(v201) > (int8_t)255)) goto L92;
    if ((int8_t)nd_load_8(((unsigned char *)((uintptr_t)v163 + 2))) > (int8_t)255) goto L90;
    goto L92;
L58:;
    v261 = (unsigned char *)((uintptr_t)v163 + 3);
    if (!((int8_t)nd_load_8(v201) > (int8_t)255)) goto L92;
    if (!((int8_t)nd_load_8(((unsigned char *)((uintptr_t)v163 + 2))) > (int8_t)255)) goto L92;
    if ((int8_t)nd_load_8(v261) > (int8_t)255) goto L90;
    goto L92;
L61:;
    if (!(v141 > 17U)) goto L63;
    v270 = nd_ndef_lang_ascii_are_many(v201, v202);
    if (v270) goto L90;
    goto L92;
L63:;
    if (!(((((((uint32_t)nd_load_8(((unsigned char *)((uintptr_t)v163 + 2))) << 8) | (uint32_t)nd_load_8(v201)) | ((uint32_t)nd_load_8(((unsigned char *)((uintptr_t)v163 + 3))) << 16)) | ((uint32_t)nd_load_8(((unsigned char *)((uintptr_t)v163 + 4))) << 24)) & 2155905152U) == 0U)) goto L92;
    if (!(((((((uint32_t)nd_load_8(((unsigned char *)((uintptr_t)v163 + 6))) << 8) | (uint32_t)nd_load_8(((unsigned char *)((uintptr_t)v163 + 5)))) | ((uint32_t)nd_load_8(((unsigned char *)((uintptr_t)v163 + 7))) << 16)) | ((uint32_t)nd_load_8(((unsigned char *)((uintptr_t)v163 + 8))) << 24)) & 2155905152U) == 0U)) goto L92;
    if (!(((((((uint32_t)nd_load_8(((unsigned char *)((uintptr_t)v164 - 7))) << 8) | (uint32_t)nd_load_8(((unsigned char *)((uintptr_t)v164 - 8)))) | ((uint32_t)nd_load_8(((unsigned char *)((uintptr_t)v164 - 6))) << 16)) | ((uint32_t)nd_load_8(((unsigned char *)((uintptr_t)v164 - 5))) << 24)) & 2155905152U) == 0U)) goto L92;
    if (((((((uint32_t)nd_load_8(((unsigned char *)((uintptr_t)v164 - 3))) << 8) | (uint32_t)nd_load_8(((unsigned char *)((uintptr_t)v164 - 4)))) | ((uint32_t)nd_load_8(((unsigned char *)((uintptr_t)v164 - 2))) << 16)) | ((uint32_t)nd_load_8(((unsigned char *)((uintptr_t)v164 - 1))) << 24)) & 2155905152U) == 0U) goto L90;
    goto L92;
L67:;
    nd_memset(v5.b, 0, 12);
    if (v141 == 0U) goto L91;
    v351 = (unsigned char *)((uintptr_t)v163 + 1);
    v352 = v161 + 18446744073709551615ULL;
    if (!(uint8_t)((nd_load_8(v163) < 36) ? 1 : (v169 == 1))) goto L91;
    if (!(v141 < 65U)) goto L87;
    if (!(v141 < 9U)) goto L81;
    if (v141 < 5U) goto L74;
    if (!(((((((uint32_t)nd_load_8(((unsigned char *)((uintptr_t)v163 + 2))) << 8) | (uint32_t)nd_load_8(v351)) | ((uint32_t)nd_load_8(((unsigned char *)((uintptr_t)v163 + 3))) << 16)) | ((uint32_t)nd_load_8(((unsigned char *)((uintptr_t)v163 + 4))) << 24)) & 2155905152U) == 0U)) goto L87;
    if (((((((uint32_t)nd_load_8(((unsigned char *)((uintptr_t)v164 - 3))) << 8) | (uint32_t)nd_load_8(((unsigned char *)((uintptr_t)v164 - 4)))) | ((uint32_t)nd_load_8(((unsigned char *)((uintptr_t)v164 - 2))) << 16)) | ((uint32_t)nd_load_8(((unsigned char *)((uintptr_t)v164 - 1))) << 24)) & 2155905152U) == 0U) goto L90;
    goto L87;
L74:;
    switch (v141) {
    case 1U: goto L90;
    case 2U: goto L75;
    case 4U: goto L78;
    default: goto L76; }
L75:;
    if ((int8_t)nd_load_8(v351) > (int8_t)255) goto L90;
    goto L87;
L76:;
    if (!((int8_t)nd_load_8(v351) > (int8_t)255)) goto L87;
    if ((int8_t)nd_load_8(((unsigned char *)((uintptr_t)v163 + 2))) > (int8_t)255) goto L90;
    goto L87;
L78:;
    v406 = (unsigned char *)((uintptr_t)v163 + 3);
    if (!((int8_t)nd_load_8(v351) > (int8_t)255)) goto L87;
    if (!((int8_t)nd_load_8(((unsigned char *)((uintptr_t)v163 + 2))) > (int8_t)255)) goto L87;
    if ((int8_t)nd_load_8(v406) > (int8_t)255) goto L90;
    goto L87;
L81:;
    if (!(v141 > 17U)) goto L83;
    v415 = nd_ndef_lang_ascii_are_many(v351, v352);
    if (v415) goto L90;
    goto L87;
L83:;
    if (!(((((((uint32_t)nd_load_8(((unsigned char *)((uintptr_t)v163 + 2))) << 8) | (uint32_t)nd_load_8(v351)) | ((uint32_t)nd_load_8(((unsigned char *)((uintptr_t)v163 + 3))) << 16)) | ((uint32_t)nd_load_8(((unsigned char *)((uintptr_t)v163 + 4))) << 24)) & 2155905152U) == 0U)) goto L87;
    if (!(((((((uint32_t)nd_load_8(((unsigned char *)((uintptr_t)v163 + 6))) << 8) | (uint32_t)nd_load_8(((unsigned char *)((uintptr_t)v163 + 5)))) | ((uint32_t)nd_load_8(((unsigned char *)((uintptr_t)v163 + 7))) << 16)) | ((uint32_t)nd_load_8(((unsigned char *)((uintptr_t)v163 + 8))) << 24)) & 2155905152U) == 0U)) goto L87;
    if (!(((((((uint32_t)nd_load_8(((unsigned char *)((uintptr_t)v164 - 7))) << 8) | (uint32_t)nd_load_8(((unsigned char *)((uintptr_t)v164 - 8)))) | ((uint32_t)nd_load_8(((unsigned char *)((uintptr_t)v164 - 6))) << 16)) | ((uint32_t)nd_load_8(((unsigned char *)((uintptr_t)v164 - 5))) << 24)) & 2155905152U) == 0U)) goto L87;
    if (((((((uint32_t)nd_load_8(((unsigned char *)((uintptr_t)v164 - 3))) << 8) | (uint32_t)nd_load_8(((unsigned char *)((uintptr_t)v164 - 4)))) | ((uint32_t)nd_load_8(((unsigned char *)((uintptr_t)v164 - 2))) << 16)) | ((uint32_t)nd_load_8(((unsigned char *)((uintptr_t)v164 - 1))) << 24)) & 2155905152U) == 0U) goto L90;
L87:;
    v495 = nd_ndef_lang_member_is_long_utf8(v351, v352);
    if (v495) goto L94;
    goto L111;
L88:;
    nd_memset(v5.b, 0, 12);
    nd_store_32(v80, 1U);
    nd_store_8(v81, 7);
    v496 = nd_ndef_lang_leaf_Leaf_is_completed_by(v5.b, v163, v161);
    if (v496) goto L94;
    goto L111;
L89:;
L90:;
    goto L94;
L91:;
    goto L111;
L92:;
    v497 = nd_ndef_lang_member_is_coded_text(v205, v210, v201, v202);
    if (v497) goto L94;
    goto L111;
L93:;
    v499 = nd_ndef_nest_member_is_nested(v498, v192, v169, v163, v161);
    if (!v499) goto L111;
L94:;
    v500 = v166 + v100;
    v501 = nd_usub_sat_i32(v103, 1U);
    v502 = nd_load_32(v49);
    v503 = nd_load_32(v16.b);
    if (v177) { v540 = v501; v541 = v502; v542 = v503; v543 = v500; goto L110; }
    v545 = v500;
    v546 = 0;
    v547 = 0;
    v548 = v501;
    v549 = v502;
    v550 = v503;
    v551 = 1;
    goto L112;
L95:;
    v505 = (uint8_t)(v112 & 7);
    if (((v505 == 0) | (int)(uint8_t)(((v102 == 1U) | (int)(v170 != 0)) ? 1 : v173)) | v174) goto L111;
    if (!(v505 < 5)) goto L98;
    if (v154 == 0) goto L111;
    goto L101;
L98:;
    switch (v505) {
    case 7: goto L99;
    case 5: goto L100;
    default: goto L111; }
L99:;
    if ((v154 == 0) & (int)(v169 == 1)) goto L108;
    goto L111;
L100:;
    if (v154 == 0) goto L108;
    goto L111;
L101:;
    if (!(v505 == 1)) goto L108;
    if (!(v154 == 1)) goto L104;
    if ((uint8_t)(nd_load_8(v152) & 254) == 84) goto L111;
    goto L108;
L104:;
    if (!(v154 < 3)) goto L108;
    v526 = nd_load_8(((unsigned char *)((uintptr_t)v152 + 1)));
    switch (nd_load_8(v152)) {
    case 83: goto L106;
    case 72: goto L107;
    default: goto L108; }
L106:;
    if (v526 == 112) goto L111;
    goto L108;
L107:;
    switch (v526) {
    case 114: goto L111;
    case 115: goto L111;
    case 99: goto L111;
    default: goto L108; }
L108:;
    v528 = nd_usub_sat_i32(v102, 1U);
    v529 = nd_usub_sat_i32(v101, v141);
    nd_store_8(v73, 1);
    nd_store_16(v74, 0);
    nd_store_32(v75, v103);
    nd_store_32(v76, v528);
    nd_store_32(v77, v529);
    nd_ndef_message_accepted_accepted_run(v7.b, v16.b, v6.b, v164, v165);
    if (!(nd_load_8(v7.b) == 1)) goto L111;
    v533 = nd_load_8(v79);
    v536 = (v166 + v100) + nd_load_64(v78);
    v537 = nd_usub_sat_i32(v103, 1U);
    v538 = nd_load_32(v49);
    v539 = nd_load_32(v16.b);
    if ((uint8_t)(v533 & 1)) { v545 = v536; v546 = 0; v547 = 0; v548 = v537; v549 = v538; v550 = v539; v551 = 1; goto L112; }
    v540 = v537;
    v541 = v538;
    v542 = v539;
    v543 = v536;
L110:;
    if (v543 < v88) { v100 = v543; v101 = v542; v102 = v541; v103 = v540; v104 = 0; v105 = 0; goto L18; }
    v545 = v543;
    v546 = 0;
    v547 = 0;
    v548 = v540;
    v549 = v541;
    v550 = v542;
    v551 = 0;
    goto L112;
L111:;
    v545 = v100;
    v546 = v105;
    v547 = v104;
    v548 = v103;
    v549 = v102;
    v550 = v101;
    v551 = 0;
L112:;
    if (v545 == 0ULL) goto L118;
    nd_store_8(v52, v546);
    nd_store_8(v53, 0);
    nd_store_16(v54, v547);
    nd_store_32(v55, v548);
    nd_store_32(v56, v549);
    nd_store_32(v57, v550);
    if (!v551) goto L115;
    nd_memset(v82, 0, 20);
    v558 = 4U;
    goto L116;
L115:;
    nd_store_8(v58, nd_load_8(v50));
    nd_store_8(v59, v546);
    nd_store_8(v60, 0);
    nd_store_8(v61, (uint8_t)(v549 == 1U));
    nd_store_8(v62, (uint8_t)(v548 == 1U));
    nd_memset(v63, 0, 3);
    nd_store_32(v64, v550);
    nd_memset(v82, 0, 20);
    nd_memset(v65, 0, 36);
    v558 = 0U;
L116:;
    nd_store_32(v71, v558);
    nd_store_64(v83, (nd_load_64(v83) + v545));
    v566 = 1;
    v567 = v545;
    goto L119;
L117:;
    v561 = nd_ndef_message_state_State_take_chunks_4(v52, v16.b, v87, v88);
    nd_store_64(v83, (nd_load_64(v83) + v561));
    if (!(v561 == 0ULL)) { v566 = 1; v567 = v561; goto L119; }
L118:;
    v565 = nd_ndef_message_checker_Checker_step_4(v16.b, v87, v88);
    v566 = 0;
    v567 = v565;
L119:;
    v568 = v567 + v85;
    if (v568 < v4) { v84 = v566; v85 = v568; goto L12; }
L120:;
    switch (nd_load_8((v16.b + 176))) {
    case 4: { v575 = v4; goto L123; }
    case 5: goto L124;
    case 0: goto L122;
    case 1: goto L122;
    case 2: goto L122;
    case 3: goto L122;
    default: goto L121; }
L121:;
    nd_stop();
L122:;
    v573 = nd_load_64((v16.b + 456));
    nd_store_64(v1, 1ULL);
    nd_store_64(((unsigned char *)((uintptr_t)v1 + 8)), v573);
    v39 = 24ULL;
    goto L8;
L123:;
    v578 = nd_usub_sat_i32(nd_load_32(v48), nd_load_32(v55));
    nd_store_64(v1, 0ULL);
    nd_store_32(((unsigned char *)((uintptr_t)v1 + 8)), v578);
    nd_store_32(((unsigned char *)((uintptr_t)v1 + 12)), 0U);
    v39 = v575;
    goto L8;
L124:;
    v582 = nd_load_64((v16.b + 184));
    v584 = nd_load_64((v16.b + 192));
    nd_store_64(v1, 1ULL);
    nd_store_64(((unsigned char *)((uintptr_t)v1 + 8)), v582);
    v39 = v584;
    goto L8;
}

static uint64_t nd_ndef_message_state_State_take_chunks_4(unsigned char *v1, unsigned char *v2, unsigned char *v3, uint64_t v4) {
    unsigned char *v10;
    uint64_t v29, v30;
    uint32_t v33, v36, v38;
    uint16_t v40;
    uint8_t v42, v43;
    ND_ROOM(24) v5;
    ND_ROOM(16) v6;
    nd_memset(v5.b, 0, 24);
    if (!(nd_load_8(((unsigned char *)((uintptr_t)v1 + 160))) == 0)) { v29 = 0ULL; goto L6; }
    v10 = (unsigned char *)((uintptr_t)v1 + 1);
    if (!(uint8_t)(nd_load_8(v10) & 1)) { v29 = 0ULL; goto L6; }
    if (!(nd_load_64(((unsigned char *)((uintptr_t)v1 + 40))) == 0ULL)) { v29 = 0ULL; goto L6; }
    if (!(nd_load_8(((unsigned char *)((uintptr_t)v1 + 64))) == 0)) { v29 = 0ULL; goto L6; }
    if (!(nd_load_8(((unsigned char *)((uintptr_t)v1 + 68))) == 0)) { v29 = 0ULL; goto L6; }
    if ((uint8_t)((nd_load_32(((unsigned char *)((uintptr_t)v1 + 72))) == 0U) ? (nd_load_8(((unsigned char *)((uintptr_t)v1 + 77))) == 1) : 0)) goto L7;
    v29 = 0ULL;
L6:;
    return v29;
L7:;
    nd_memcpy(v6.b, v1, 16);
    nd_ndef_message_accepted_accepted_chunks(v5.b, v6.b, v3, v4);
    v30 = nd_load_64(v5.b);
    if (v30 == 0ULL) { v29 = 0ULL; goto L6; }
    v33 = nd_load_32((v5.b + 20));
    v36 = nd_load_32((v5.b + 16));
    v38 = nd_load_32((v5.b + 12));
    v40 = nd_load_16((v5.b + 10));
    v42 = nd_load_8((v5.b + 9));
    v43 = nd_load_8((v5.b + 8));
    nd_store_8(v1, v43);
    nd_store_8(v10, v42);
    nd_store_16((v1 + 2), v40);
    nd_store_32((v1 + 4), v38);
    nd_store_32((v1 + 8), v36);
    nd_store_32((v1 + 12), v33);
    nd_store_8(((unsigned char *)((uintptr_t)v1 + 16)), nd_load_8(((unsigned char *)((uintptr_t)v2 + 12))));
    nd_store_8(((unsigned char *)((uintptr_t)v1 + 17)), v43);
    nd_store_8(((unsigned char *)((uintptr_t)v1 + 18)), v42);
    nd_store_8(((unsigned char *)((uintptr_t)v1 + 19)), (uint8_t)(v36 == 1U));
    nd_store_8(((unsigned char *)((uintptr_t)v1 + 20)), (uint8_t)(v38 == 1U));
    nd_memset(((unsigned char *)((uintptr_t)v1 + 21)), 0, 3);
    nd_store_32(((unsigned char *)((uintptr_t)v1 + 24)), v33);
    nd_memset(((unsigned char *)((uintptr_t)v1 + 28)), 0, 36);
    v29 = v30;
    goto L6;
}

static uint64_t nd_ndef_message_checker_Checker_step_4(unsigned char *v1, unsigned char *v2, uint64_t v3) {
    unsigned char *v13, *v15, *v16, *v18, *v27, *v32, *v73, *v85, *v136, *v139, *v142, *v163, *v175, *v226, *v232, *v242, *v246, *v248, *v271, *v318, *v320, *v322, *v324, *v325, *v327, *v338, *v380;
    uint64_t v14, v31, v56, v62, v117, v123, v125, v143, v150, v244, v245, v251, v258, v289, v292, v299, v313, v329, v330, v337, v342, v344, v345, v347, v417, v418;
    uint8_t v22, v24, v26, v40, v55, v64, v82, v107, v115, v127, v135, v144, v151, v153, v172, v205, v221, v229, v231, v233, v235, v237, v239, v243, v250, v257, v291, v300, v311, v319, v321, v323, v331, v353, v355, v363, v367, v372, v392;
    uint32_t v29, v59, v74, v77, v79, v83, v84, v86, v138, v147, v164, v167, v169, v173, v174, v176, v241, v296, v326, v328, v334, v362, v376, v381, v384, v387, v388, v393, v394, v395;
    uint16_t v133, v227;
    ND_ROOM(5) v4;
    ND_ROOM(12) v5, v6, v8, v11;
    ND_ROOM(96) v7;
    ND_ROOM(48) v9;
    ND_ROOM(16) v10;
    ND_ROOM(32) v12;
    v13 = (unsigned char *)((uintptr_t)v1 + 456);
    v14 = nd_load_64(v13);
    v15 = (unsigned char *)((uintptr_t)v1 + 16);
    v16 = (unsigned char *)((uintptr_t)v1 + 176);
    switch (nd_load_8(v16)) {
    case 0: goto L1;
    case 1: goto L42;
    case 2: goto L54;
    case 3: goto L55;
    case 4: { v418 = 1ULL; goto L84; }
    case 5: { v418 = 1ULL; goto L84; }
    default: goto L83; }
L1:;
    nd_memset(v12.b, 0, 32);
    v18 = (unsigned char *)((uintptr_t)v1 + 32);
    nd_ndef_piece_head_reader_HeadReader_whole_head(v12.b, v18, v2, v3);
    if (!(nd_load_8(v12.b) == 1)) goto L17;
    v22 = nd_load_8((v12.b + 8));
    v24 = nd_load_8((v12.b + 9));
    v26 = nd_load_8((v12.b + 10));
    v27 = v12.b + 11;
    v29 = nd_load_32((v12.b + 16));
    v31 = nd_load_64((v12.b + 24));
    v32 = (unsigned char *)((uintptr_t)v1 + 17);
    if ((uint8_t)(nd_load_8(v32) & 1)) goto L7;
    nd_store_8(v11.b, v22);
    nd_store_8((v11.b + 1), v24);
    nd_store_8((v11.b + 2), v26);
    nd_memcpy((v11.b + 3), v27, 5);
    nd_store_32((v11.b + 8), v29);
    v40 = nd_load_8((v11.b + 5));
    if (v40 == 0) goto L5;
    nd_store_8(((unsigned char *)((uintptr_t)v1 + 455)), 0);
    nd_store_32(v16, 1U);
    nd_memcpy(((unsigned char *)((uintptr_t)v1 + 180)), v11.b, 12);
    nd_store_8(((unsigned char *)((uintptr_t)v1 + 192)), v40);
    nd_memset(((unsigned char *)((uintptr_t)v1 + 193)), 0, 7);
    goto L6;
L5:;
    nd_store_64(((unsigned char *)((uintptr_t)v1 + 80)), 0ULL);
    nd_store_64(((unsigned char *)((uintptr_t)v1 + 88)), 1099511627776ULL);
    nd_memset(((unsigned char *)((uintptr_t)v1 + 96)), 0, 80);
    nd_ndef_message_state_State_advance_field_4(v15, v1, v11.b, (uint8_t)((nd_load_8((v11.b + 6)) == 1) ? nd_load_8((v11.b + 7)) : 0), v29);
L6:;
    goto L16;
L7:;
    v55 = (uint8_t)(v26 & 1);
    v56 = (uint64_t)v29;
    if (!v55) { v62 = v56; goto L9; }
    v59 = nd_usub_sat_i32(nd_load_32(((unsigned char *)((uintptr_t)v1 + 28))), v29);
    v62 = (uint64_t)v59 + v56;
L9:;
    v64 = nd_ndef_nest_typed_TypedRecordLanguage_fits(((unsigned char *)((uintptr_t)v1 + 80)), v56, v62);
    if (!v64) goto L17;
    if (v29 == 0U) goto L12;
    nd_store_32(v16, 3U);
    nd_store_8(((unsigned char *)((uintptr_t)v1 + 180)), v22);
    nd_store_8(((unsigned char *)((uintptr_t)v1 + 181)), v24);
    nd_store_8(((unsigned char *)((uintptr_t)v1 + 182)), v26);
    nd_memcpy(((unsigned char *)((uintptr_t)v1 + 183)), v27, 5);
    nd_store_32(((unsigned char *)((uintptr_t)v1 + 188)), v29);
    nd_store_32(((unsigned char *)((uintptr_t)v1 + 192)), v29);
    nd_store_32(((unsigned char *)((uintptr_t)v1 + 196)), 0U);
    goto L16;
L12:;
    v73 = (unsigned char *)((uintptr_t)v1 + 20);
    v74 = nd_load_32(v73);
    if (!v55) goto L14;
    v77 = nd_usub_sat_i32(nd_load_32(((unsigned char *)((uintptr_t)v1 + 24))), 1U);
    v82 = 1;
    v83 = v74;
    v84 = v77;
    v85 = (unsigned char *)((uintptr_t)v1 + 28);
    goto L15;
L14:;
    v79 = nd_usub_sat_i32(v74, 1U);
    v82 = 0;
    v83 = v79;
    v84 = nd_load_32(((unsigned char *)((uintptr_t)v1 + 8)));
    v85 = v1;
L15:;
    v86 = nd_load_32(v85);
    nd_store_8(v15, 0);
    nd_store_8(v32, v82);
    nd_store_16(((unsigned char *)((uintptr_t)v1 + 18)), 0);
    nd_store_32(v73, v83);
    nd_store_32(((unsigned char *)((uintptr_t)v1 + 24)), v84);
    nd_store_32(((unsigned char *)((uintptr_t)v1 + 28)), v86);
    nd_store_8(v18, nd_load_8(((unsigned char *)((uintptr_t)v1 + 12))));
    nd_store_8(((unsigned char *)((uintptr_t)v1 + 33)), 0);
    nd_store_8(((unsigned char *)((uintptr_t)v1 + 34)), v82);
    nd_store_8(((unsigned char *)((uintptr_t)v1 + 35)), (uint8_t)(v84 == 1U));
    nd_store_8(((unsigned char *)((uintptr_t)v1 + 36)), (uint8_t)(v83 == 1U));
    nd_memset(((unsigned char *)((uintptr_t)v1 + 37)), 0, 3);
    nd_store_32(((unsigned char *)((uintptr_t)v1 + 40)), v86);
    nd_memset(((unsigned char *)((uintptr_t)v1 + 44)), 0, 36);
    nd_store_32(v16, (v55 ? 0U : (uint32_t)(uint8_t)((uint32_t)v24 << 2)));
    nd_memset(((unsigned char *)((uintptr_t)v1 + 180)), 0, 20);
L16:;
    v418 = v31;
    goto L84;
L17:;
    v107 = nd_load_8(v2);
    nd_memset(v10.b, 0, 16);
    nd_ndef_piece_head_reader_HeadReader_step(v10.b, v18, v107);
    switch (nd_load_8(v10.b)) {
    case 0: goto L18;
    case 1: goto L24;
    case 2: goto L39;
    default: goto L40; }
L18:;
    nd_memset(v9.b, 0, 48);
    if ((uint8_t)(nd_load_8(((unsigned char *)((uintptr_t)v1 + 17))) & 1)) goto L20;
    goto L41;
L20:;
    nd_ndef_piece_head_reader_HeadReader_bounds(v9.b, v18);
    if (nd_load_8(v9.b) == 1) goto L22;
    goto L23;
L22:;
    v115 = nd_load_8((v9.b + 9));
    v117 = nd_load_64((v9.b + 32));
    v123 = (uint64_t)nd_load_32(((unsigned char *)((uintptr_t)v1 + 28)));
    v125 = nd_umin_i64(nd_load_64((v9.b + 40)), v123);
    v127 = nd_ndef_nest_typed_TypedRecordLanguage_fits(((unsigned char *)((uintptr_t)v1 + 80)), v117, ((uint8_t)(v115 & 1) ? v123 : v125));
    if (v127) goto L41;
L23:;
    nd_store_32(v16, 5U);
    nd_store_32(((unsigned char *)((uintptr_t)v1 + 180)), 0U);
    nd_store_64(((unsigned char *)((uintptr_t)v1 + 184)), v14);
    nd_store_8(((unsigned char *)((uintptr_t)v1 + 192)), 23);
    nd_memset(((unsigned char *)((uintptr_t)v1 + 193)), 0, 7);
    goto L41;
L24:;
    v133 = nd_load_16((v10.b + 4));
    v135 = nd_load_8((v10.b + 6));
    v136 = v10.b + 7;
    v138 = nd_load_32((v10.b + 12));
    v139 = (unsigned char *)((uintptr_t)v1 + 17);
    if (!(uint8_t)(nd_load_8(v139) & 1)) goto L35;
    v142 = (unsigned char *)((uintptr_t)v1 + 80);
    v143 = (uint64_t)v138;
    v144 = (uint8_t)(v135 & 1);
    if (!v144) { v150 = v143; goto L27; }
    v147 = nd_usub_sat_i32(nd_load_32(((unsigned char *)((uintptr_t)v1 + 28))), v138);
    v150 = (uint64_t)v147 + v143;
L27:;
    v151 = nd_ndef_nest_typed_TypedRecordLanguage_fits(v142, v143, v150);
    if (!v151) goto L34;
    v153 = (uint8_t)(uint16_t)(v133 >> 8);
    if (v138 == 0U) goto L30;
    nd_store_32(v16, 3U);
    nd_store_8(((unsigned char *)((uintptr_t)v1 + 180)), (uint8_t)v133);
    nd_store_8(((unsigned char *)((uintptr_t)v1 + 181)), v153);
    nd_store_8(((unsigned char *)((uintptr_t)v1 + 182)), v135);
    nd_memcpy(((unsigned char *)((uintptr_t)v1 + 183)), v136, 5);
    nd_store_32(((unsigned char *)((uintptr_t)v1 + 188)), v138);
    nd_store_32(((unsigned char *)((uintptr_t)v1 + 192)), v138);
    nd_store_32(((unsigned char *)((uintptr_t)v1 + 196)), 0U);
    goto L41;
L30:;
    v163 = (unsigned char *)((uintptr_t)v1 + 20);
    v164 = nd_load_32(v163);
    if (!v144) goto L32;
    v167 = nd_usub_sat_i32(nd_load_32(((unsigned char *)((uintptr_t)v1 + 24))), 1U);
    v172 = 1;
    v173 = v164;
    v174 = v167;
    v175 = (unsigned char *)((uintptr_t)v1 + 28);
    goto L33;
L32:;
    v169 = nd_usub_sat_i32(v164, 1U);
    v172 = 0;
    v173 = v169;
    v174 = nd_load_32(((unsigned char *)((uintptr_t)v1 + 8)));
    v175 = v1;
L33:;
    v176 = nd_load_32(v175);
    nd_store_8(v15, 0);
    nd_store_8(v139, v172);
    nd_store_16(((unsigned char *)((uintptr_t)v1 + 18)), 0);
    nd_store_32(v163, v173);
    nd_store_32(((unsigned char *)((uintptr_t)v1 + 24)), v174);
    nd_store_32(((unsigned char *)((uintptr_t)v1 + 28)), v176);
    nd_store_8(v18, nd_load_8(((unsigned char *)((uintptr_t)v1 + 12))));
    nd_store_8(((unsigned char *)((uintptr_t)v1 + 33)), 0);
    nd_store_8(((unsigned char *)((uintptr_t)v1 + 34)), v172);
    nd_store_8(((unsigned char *)((uintptr_t)v1 + 35)), (uint8_t)(v174 == 1U));
    nd_store_8(((unsigned char *)((uintptr_t)v1 + 36)), (uint8_t)(v173 == 1U));
    nd_memset(((unsigned char *)((uintptr_t)v1 + 37)), 0, 3);
    nd_store_32(((unsigned char *)((uintptr_t)v1 + 40)), v176);
    nd_memset(((unsigned char *)((uintptr_t)v1 + 44)), 0, 36);
    nd_store_32(v16, (v144 ? 0U : (uint32_t)(uint8_t)((uint32_t)v153 << 2)));
    nd_memset(((unsigned char *)((uintptr_t)v1 + 180)), 0, 20);
    goto L41;
L34:;
    nd_store_32(v16, 5U);
    nd_store_32(((unsigned char *)((uintptr_t)v1 + 180)), 0U);
    nd_store_64(((unsigned char *)((uintptr_t)v1 + 184)), v14);
    nd_store_8(((unsigned char *)((uintptr_t)v1 + 192)), 23);
    nd_memset(((unsigned char *)((uintptr_t)v1 + 193)), 0, 7);
    goto L41;
L35:;
    nd_store_16(v8.b, v133);
    nd_store_8((v8.b + 2), v135);
    nd_memcpy((v8.b + 3), v136, 5);
    nd_store_32((v8.b + 8), v138);
    v205 = nd_load_8((v8.b + 5));
    if (v205 == 0) goto L37;
    nd_store_8(((unsigned char *)((uintptr_t)v1 + 455)), 0);
    nd_store_32(v16, 1U);
    nd_memcpy(((unsigned char *)((uintptr_t)v1 + 180)), v8.b, 12);
    nd_store_8(((unsigned char *)((uintptr_t)v1 + 192)), v205);
    nd_memset(((unsigned char *)((uintptr_t)v1 + 193)), 0, 7);
    goto L38;
L37:;
    nd_store_64(((unsigned char *)((uintptr_t)v1 + 80)), 0ULL);
    nd_store_64(((unsigned char *)((uintptr_t)v1 + 88)), 1099511627776ULL);
    nd_memset(((unsigned char *)((uintptr_t)v1 + 96)), 0, 80);
    nd_ndef_message_state_State_advance_field_4(v15, v1, v8.b, (uint8_t)((nd_load_8((v8.b + 6)) == 1) ? nd_load_8((v8.b + 7)) : 0), v138);
L38:;
    goto L41;
L39:;
    v221 = nd_load_8((v10.b + 1));
    nd_store_32(v16, 5U);
    nd_store_32(((unsigned char *)((uintptr_t)v1 + 180)), 0U);
    nd_store_64(((unsigned char *)((uintptr_t)v1 + 184)), v14);
    nd_store_8(((unsigned char *)((uintptr_t)v1 + 192)), v221);
    nd_memset(((unsigned char *)((uintptr_t)v1 + 193)), 0, 7);
    goto L41;
L40:;
    nd_stop();
L41:;
    v418 = 1ULL;
    goto L84;
L42:;
    v226 = (unsigned char *)((uintptr_t)v1 + 180);
    v227 = nd_load_16(v226);
    v229 = nd_load_8(((unsigned char *)((uintptr_t)v1 + 182)));
    v231 = nd_load_8(((unsigned char *)((uintptr_t)v1 + 183)));
    v232 = (unsigned char *)((uintptr_t)v1 + 184);
    v233 = nd_load_8(v232);
    v235 = nd_load_8(((unsigned char *)((uintptr_t)v1 + 185)));
    v237 = nd_load_8(((unsigned char *)((uintptr_t)v1 + 186)));
    v239 = nd_load_8(((unsigned char *)((uintptr_t)v1 + 187)));
    v241 = nd_load_32(((unsigned char *)((uintptr_t)v1 + 188)));
    v242 = (unsigned char *)((uintptr_t)v1 + 192);
    v243 = nd_load_8(v242);
    v244 = (uint64_t)v243;
    v245 = nd_umin_i64(v244, v3);
    nd_memset(v7.b, 0, 96);
    v246 = (unsigned char *)((uintptr_t)v1 + 200);
    if (v245 == 0ULL) goto L45;
    v248 = (unsigned char *)((uintptr_t)v1 + 455);
    v250 = nd_load_8(v248);
    v251 = 0ULL;
L44:;
    nd_store_8((v246 + (ptrdiff_t)(uint64_t)v250), nd_load_8(((unsigned char *)((uintptr_t)v2 + (uintptr_t)v251))));
    v257 = (uint8_t)(nd_load_8(v248) + 1);
    nd_store_8(v248, v257);
    v258 = v251 + 1ULL;
    if (!(v258 == v245)) { v250 = v257; v251 = v258; goto L44; }
L45:;
    if (!(v3 < v244)) goto L47;
    nd_store_32(v16, 1U);
    nd_store_8(v242, (uint8_t)(v243 - (uint8_t)v245));
    nd_memset(((unsigned char *)((uintptr_t)v1 + 193)), 0, 7);
    goto L53;
L47:;
    nd_ndef_nest_typed_TypedRecordLanguage_start(v7.b, v233, v246, (uint64_t)nd_load_8(((unsigned char *)((uintptr_t)v1 + 455))), nd_load_32(((unsigned char *)((uintptr_t)v1 + 4))), nd_load_8(((unsigned char *)((uintptr_t)v1 + 12))));
    v271 = (unsigned char *)((uintptr_t)v1 + 80);
    nd_store_32(v271, (uint32_t)nd_load_8(v7.b));
    nd_store_8(((unsigned char *)((uintptr_t)v1 + 84)), nd_load_8((v7.b + 4)));
    nd_store_8(((unsigned char *)((uintptr_t)v1 + 85)), nd_load_8((v7.b + 5)));
    nd_store_8(((unsigned char *)((uintptr_t)v1 + 86)), nd_load_8((v7.b + 6)));
    nd_store_8(((unsigned char *)((uintptr_t)v1 + 87)), nd_load_8((v7.b + 7)));
    nd_memcpy(((unsigned char *)((uintptr_t)v1 + 88)), (v7.b + 8), 88);
    v289 = (v14 + 18446744073709551615ULL) + v245;
    v291 = (uint8_t)((v237 == 1) ? v239 : 0);
    v292 = (uint64_t)v241;
    if (!(uint8_t)(v229 & 1)) { v299 = v292; goto L49; }
    v296 = nd_usub_sat_i32(nd_load_32(((unsigned char *)((uintptr_t)v1 + 28))), v241);
    v299 = (uint64_t)v296 + v292;
L49:;
    v300 = nd_ndef_nest_typed_TypedRecordLanguage_fits(v271, v292, v299);
    if (!v300) goto L51;
    nd_store_16(v6.b, v227);
    nd_store_8((v6.b + 2), v229);
    nd_store_8((v6.b + 3), v231);
    nd_store_8((v6.b + 4), v233);
    nd_store_8((v6.b + 5), v235);
    nd_store_8((v6.b + 6), v237);
    nd_store_8((v6.b + 7), v239);
    nd_store_32((v6.b + 8), v241);
    nd_ndef_message_state_State_advance_field_4(v15, v1, v6.b, v291, v241);
    goto L52;
L51:;
    nd_store_32(v16, 5U);
    nd_store_32(v226, 0U);
    nd_store_64(v232, v289);
    nd_store_8(v242, 23);
    nd_memset(((unsigned char *)((uintptr_t)v1 + 193)), 0, 7);
L52:;
L53:;
    v418 = v245;
    goto L84;
L54:;
    v311 = nd_load_8(((unsigned char *)((uintptr_t)v1 + 192)));
    v313 = nd_umin_i64((uint64_t)v311, v3);
    nd_memcpy(v5.b, ((unsigned char *)((uintptr_t)v1 + 180)), 12);
    nd_ndef_message_state_State_advance_field_4(v15, v1, v5.b, (uint8_t)(v311 - (uint8_t)v313), nd_load_32((v5.b + 8)));
    v418 = v313;
    goto L84;
L55:;
    v318 = (unsigned char *)((uintptr_t)v1 + 180);
    v319 = nd_load_8(v318);
    v320 = (unsigned char *)((uintptr_t)v1 + 181);
    v321 = nd_load_8(v320);
    v322 = (unsigned char *)((uintptr_t)v1 + 182);
    v323 = nd_load_8(v322);
    v324 = (unsigned char *)((uintptr_t)v1 + 183);
    v325 = (unsigned char *)((uintptr_t)v1 + 188);
    v326 = nd_load_32(v325);
    v327 = (unsigned char *)((uintptr_t)v1 + 192);
    v328 = nd_load_32(v327);
    v329 = (uint64_t)v328;
    v330 = nd_umin_i64(v329, v3);
    nd_memcpy(v4.b, v324, 5);
    v331 = (uint8_t)(v323 & 1);
    if (!v331) { v337 = v329; goto L57; }
    v334 = nd_usub_sat_i32(nd_load_32(((unsigned char *)((uintptr_t)v1 + 28))), v326);
    v337 = (uint64_t)v334 + v329;
L57:;
    v338 = (unsigned char *)((uintptr_t)v1 + 80);
    if (!(nd_load_8(v338) == 0)) goto L59;
    v342 = nd_ndef_lang_leaf_LeafLanguage_step_all(((unsigned char *)((uintptr_t)v1 + 84)), v2, v330, v329, v337);
    v345 = v342;
    goto L60;
L59:;
    v344 = nd_ndef_nest_nest_NestLanguage_step_all(((unsigned char *)((uintptr_t)v1 + 88)), v2, v330, v329, v337);
    v345 = v344;
L60:;
    if (!(v345 < v330)) goto L76;
    v347 = v345 + v14;
    if (!(nd_load_8(v338) == 0)) goto L74;
    v353 = nd_load_8(((unsigned char *)((uintptr_t)v1 + 85)));
    v355 = nd_load_8(((unsigned char *)((uintptr_t)v1 + 87)));
    switch (nd_load_8(((unsigned char *)((uintptr_t)v1 + 84)))) {
    case 0: { v372 = 23; goto L75; }
    case 1: goto L63;
    case 2: goto L64;
    case 3: goto L72;
    default: goto L73; }
L63:;
    v372 = (uint8_t)((v353 == 8) ? 16 : 23);
    goto L75;
L64:;
    v362 = nd_load_32(((unsigned char *)((uintptr_t)v1 + 88)));
    v363 = nd_load_8(((unsigned char *)((uintptr_t)v1 + 86)));
    switch (v353) {
    case 0: { v372 = 23; goto L75; }
    case 2: { v372 = 23; goto L75; }
    case 1: goto L70;
    case 3: goto L65;
    case 4: goto L71;
    default: goto L69; }
L65:;
    if ((uint8_t)(v363 & 1)) { v372 = 23; goto L75; }
    v367 = (v362 & 252U) == 220U;
    if (!(uint8_t)(v355 & 1)) goto L68;
    if (v367) { v372 = 23; goto L75; }
    goto L71;
L68:;
    if (v367) goto L71;
    v372 = 23;
    goto L75;
L69:;
    nd_stop();
L70:;
    if (!((uint8_t)(v363 & 252) == 220)) { v372 = 23; goto L75; }
L71:;
    v372 = 17;
    goto L75;
L72:;
    v372 = v353;
    goto L75;
L73:;
    nd_stop();
L74:;
    v372 = nd_load_8(((unsigned char *)((uintptr_t)v1 + 168)));
L75:;
    nd_store_32(v16, 5U);
    nd_store_32(v318, 0U);
    nd_store_64(((unsigned char *)((uintptr_t)v1 + 184)), v347);
    nd_store_8(v327, v372);
    nd_memset(((unsigned char *)((uintptr_t)v1 + 193)), 0, 7);
    v417 = v345 + 1ULL;
    goto L82;
L76:;
    v376 = (uint32_t)v345;
    if (v328 == v376) goto L78;
    nd_store_32(v16, 3U);
    nd_store_8(v318, v319);
    nd_store_8(v320, v321);
    nd_store_8(v322, v323);
    nd_memcpy(v324, v4.b, 5);
    nd_store_32(v325, v326);
    nd_store_32(v327, (v328 - v376));
    nd_store_32(((unsigned char *)((uintptr_t)v1 + 196)), 0U);
    v417 = v345;
    goto L82;
L78:;
    v380 = (unsigned char *)((uintptr_t)v1 + 20);
    v381 = nd_load_32(v380);
    if (!v331) goto L80;
    v384 = nd_usub_sat_i32(nd_load_32(((unsigned char *)((uintptr_t)v1 + 24))), 1U);
    v387 = nd_usub_sat_i32(nd_load_32(((unsigned char *)((uintptr_t)v1 + 28))), v326);
    v392 = 1;
    v393 = v381;
    v394 = v384;
    v395 = v387;
    goto L81;
L80:;
    v388 = nd_usub_sat_i32(v381, 1U);
    v392 = 0;
    v393 = v388;
    v394 = nd_load_32(((unsigned char *)((uintptr_t)v1 + 8)));
    v395 = nd_load_32(v1);
L81:;
    nd_store_8(v15, 0);
    nd_store_8(((unsigned char *)((uintptr_t)v1 + 17)), v392);
    nd_store_16(((unsigned char *)((uintptr_t)v1 + 18)), 0);
    nd_store_32(v380, v393);
    nd_store_32(((unsigned char *)((uintptr_t)v1 + 24)), v394);
    nd_store_32(((unsigned char *)((uintptr_t)v1 + 28)), v395);
    nd_store_8(((unsigned char *)((uintptr_t)v1 + 32)), nd_load_8(((unsigned char *)((uintptr_t)v1 + 12))));
    nd_store_8(((unsigned char *)((uintptr_t)v1 + 33)), 0);
    nd_store_8(((unsigned char *)((uintptr_t)v1 + 34)), v392);
    nd_store_8(((unsigned char *)((uintptr_t)v1 + 35)), (uint8_t)(v394 == 1U));
    nd_store_8(((unsigned char *)((uintptr_t)v1 + 36)), (uint8_t)(v393 == 1U));
    nd_memset(((unsigned char *)((uintptr_t)v1 + 37)), 0, 3);
    nd_store_32(((unsigned char *)((uintptr_t)v1 + 40)), v395);
    nd_memset(((unsigned char *)((uintptr_t)v1 + 44)), 0, 36);
    nd_store_32(v16, (v331 ? 0U : (uint32_t)(uint8_t)((uint32_t)v321 << 2)));
    nd_memset(v318, 0, 20);
    v417 = v345;
L82:;
    v418 = v417;
    goto L84;
L83:;
    nd_stop();
L84:;
    nd_store_64(v13, (v418 + v14));
    return v418;
}

static void nd_ndef_message_state_State_advance_field_4(unsigned char *v1, unsigned char *v2, unsigned char *v3, uint8_t v4, uint32_t v5) {
    uint8_t v6, v8, v10, v34, v47;
    unsigned char *v11;
    uint32_t v13, v36, v39, v42, v43, v48, v49, v50;
    ND_ROOM(5) v14, v15;
    v6 = nd_load_8(v3);
    v8 = nd_load_8((v3 + 1));
    v10 = nd_load_8((v3 + 2));
    v11 = v3 + 3;
    v13 = nd_load_32((v3 + 8));
    if (v4 == 0) goto L3;
    goto L2;
L1:;
    return;
L2:;
    nd_memcpy(v14.b, v11, 5);
    nd_store_32(((unsigned char *)((uintptr_t)v1 + 160)), 2U);
    nd_store_8(((unsigned char *)((uintptr_t)v1 + 164)), v6);
    nd_store_8(((unsigned char *)((uintptr_t)v1 + 165)), v8);
    nd_store_8(((unsigned char *)((uintptr_t)v1 + 166)), v10);
    nd_memcpy(((unsigned char *)((uintptr_t)v1 + 167)), v14.b, 5);
    nd_store_32(((unsigned char *)((uintptr_t)v1 + 172)), v13);
    nd_store_8(((unsigned char *)((uintptr_t)v1 + 176)), v4);
    nd_memset(((unsigned char *)((uintptr_t)v1 + 177)), 0, 7);
    goto L1;
L3:;
    if (v5 == 0U) goto L5;
    nd_memcpy(v15.b, v11, 5);
    nd_store_32(((unsigned char *)((uintptr_t)v1 + 160)), 3U);
    nd_store_8(((unsigned char *)((uintptr_t)v1 + 164)), v6);
    nd_store_8(((unsigned char *)((uintptr_t)v1 + 165)), v8);
    nd_store_8(((unsigned char *)((uintptr_t)v1 + 166)), v10);
    nd_memcpy(((unsigned char *)((uintptr_t)v1 + 167)), v15.b, 5);
    nd_store_32(((unsigned char *)((uintptr_t)v1 + 172)), v13);
    nd_store_32(((unsigned char *)((uintptr_t)v1 + 176)), v5);
    nd_store_32(((unsigned char *)((uintptr_t)v1 + 180)), 0U);
    goto L1;
L5:;
    v34 = (uint8_t)(v10 & 1);
    v36 = nd_load_32(((unsigned char *)((uintptr_t)v1 + 4)));
    if (!v34) goto L7;
    v39 = nd_usub_sat_i32(nd_load_32(((unsigned char *)((uintptr_t)v1 + 8))), 1U);
    v42 = nd_usub_sat_i32(nd_load_32(((unsigned char *)((uintptr_t)v1 + 12))), v13);
    v47 = 1;
    v48 = v36;
    v49 = v39;
    v50 = v42;
    goto L8;
L7:;
    v43 = nd_usub_sat_i32(v36, 1U);
    v47 = 0;
    v48 = v43;
    v49 = nd_load_32(((unsigned char *)((uintptr_t)v2 + 8)));
    v50 = nd_load_32(v2);
L8:;
    nd_store_8(v1, 0);
    nd_store_8((v1 + 1), v47);
    nd_store_16((v1 + 2), 0);
    nd_store_32((v1 + 4), v48);
    nd_store_32((v1 + 8), v49);
    nd_store_32((v1 + 12), v50);
    nd_store_8(((unsigned char *)((uintptr_t)v1 + 16)), nd_load_8(((unsigned char *)((uintptr_t)v2 + 12))));
    nd_store_8(((unsigned char *)((uintptr_t)v1 + 17)), 0);
    nd_store_8(((unsigned char *)((uintptr_t)v1 + 18)), v47);
    nd_store_8(((unsigned char *)((uintptr_t)v1 + 19)), (uint8_t)(v49 == 1U));
    nd_store_8(((unsigned char *)((uintptr_t)v1 + 20)), (uint8_t)(v48 == 1U));
    nd_memset(((unsigned char *)((uintptr_t)v1 + 21)), 0, 3);
    nd_store_32(((unsigned char *)((uintptr_t)v1 + 24)), v50);
    nd_memset(((unsigned char *)((uintptr_t)v1 + 28)), 0, 36);
    nd_store_32(((unsigned char *)((uintptr_t)v1 + 160)), (v34 ? 0U : (uint32_t)(uint8_t)((uint32_t)v8 << 2)));
    nd_memset(((unsigned char *)((uintptr_t)v1 + 164)), 0, 20);
    goto L1;
}

static uint8_t nd_ndef_diagnostics_expecting_kind_begun(unsigned char *v1, uint64_t v2) {
    uint8_t v5, v27, v32, v40, v41, v48;
    uint64_t v6, v8, v11, v16, v21, v24;
    unsigned char *v7, *v22;
    if (v2 == 0ULL) { v5 = 0; goto L2; }
    v5 = nd_load_8(v1);
L2:;
    v6 = nd_umin_i64(v2, 2ULL);
    v7 = (unsigned char *)((uintptr_t)v1 + (uintptr_t)v6);
    v8 = v2 - v6;
    v11 = ((uint8_t)(v5 & 16) == 0) ? 4ULL : 1ULL;
    if (v2 < 2ULL) { v16 = 0ULL; goto L4; }
    v16 = (uint64_t)nd_load_8(((unsigned char *)((uintptr_t)v1 + 1)));
L4:;
    v21 = nd_umin_i64(v8, (v11 + (uint64_t)(uint8_t)((uint8_t)(v5 >> 3) & 1)));
    v22 = (unsigned char *)((uintptr_t)v7 + (uintptr_t)v21);
    v24 = nd_umin_i64((v8 - v21), v16);
    if (!((uint8_t)(v5 & 39) == 1)) { v48 = 0; goto L25; }
    v27 = (uint8_t)v24;
    switch (v27) {
    case 0: { v48 = v27; goto L25; }
    case 1: goto L6;
    default: goto L11; }
L6:;
    switch (nd_load_8(v22)) {
    case 84: { v48 = 1; goto L25; }
    case 85: goto L7;
    case 115: goto L8;
    case 116: goto L9;
    default: goto L10; }
L7:;
    v48 = 2;
    goto L25;
L8:;
    v48 = 8;
    goto L25;
L9:;
    v48 = 9;
    goto L25;
L10:;
    v48 = 0;
    goto L25;
L11:;
    if (!(v24 < 3ULL)) goto L20;
    v32 = nd_load_8(((unsigned char *)((uintptr_t)v22 + 1)));
    switch (nd_load_8(v22)) {
    case 83: goto L13;
    case 72: goto L14;
    case 97: goto L17;
    case 99: goto L18;
    default: goto L19; }
L13:;
    if (v32 == 112) { v48 = 3; goto L25; }
    goto L19;
L14:;
    switch (v32) {
    case 114: { v48 = 4; goto L25; }
    case 115: goto L15;
    case 99: goto L16;
    default: goto L19; }
L15:;
    v48 = 5;
    goto L25;
L16:;
    v48 = 6;
    goto L25;
L17:;
    if (v32 == 99) { v48 = 10; goto L25; }
    goto L19;
L18:;
    if (v32 == 114) { v48 = 11; goto L25; }
L19:;
    v48 = 0;
    goto L25;
L20:;
    if (!(v24 == 3ULL)) { v48 = 0; goto L25; }
    v40 = nd_load_8(((unsigned char *)((uintptr_t)v22 + 1)));
    v41 = nd_load_8(((unsigned char *)((uintptr_t)v22 + 2)));
    switch (nd_load_8(v22)) {
    case 97: goto L22;
    case 101: goto L23;
    default: goto L24; }
L22:;
    if ((v40 == 99) & (int)(v41 == 116)) { v48 = 7; goto L25; }
    goto L24;
L23:;
    if ((v40 == 114) & (int)(v41 == 114)) { v48 = 12; goto L25; }
L24:;
    v48 = 0;
L25:;
    return v48;
}

static void nd_ndef_diagnostics_length_mismatch_length_mismatch(unsigned char *v1, uint8_t v2, uint64_t v3, unsigned char *v4, uint64_t v5) {
    uint8_t v11, v13, v21, v29, v42, v43, v47, v52, v53, v63, v64, v65, v67, v73, v87, v88, v89, v90, v99, v100, v103, v118, v119, v120, v123, v124, v126, v127;
    uint32_t v12, v48, v54, v72, v122;
    uint64_t v19, v26, v27, v49, v51, v56, v57, v61, v78, v91, v93, v97, v101, v102, v128, v129;
    unsigned char *v50, *v55, *v62;
    ND_ROOM(24) v6, v9;
    ND_ROOM(12) v7, v8;
    nd_store_32((v8.b + 8), 0U);
    nd_memset(v9.b, 0, 24);
    switch (v2) {
    case 1: { v11 = 1; v12 = 0U; v13 = 4; goto L11; }
    case 2: goto L1;
    case 9: goto L2;
    case 7: goto L3;
    case 8: goto L4;
    case 11: goto L5;
    case 10: goto L6;
    case 12: goto L7;
    case 6: goto L8;
    case 0: goto L9;
    case 3: goto L9;
    case 4: goto L9;
    case 5: goto L9;
    default: goto L10; }
L1:;
    v11 = 1;
    v12 = 0U;
    v13 = 5;
    goto L11;
L2:;
    v11 = 1;
    v12 = 0U;
    v13 = 2;
    goto L11;
L3:;
    v11 = 0;
    v12 = 1U;
    v13 = 0;
    goto L11;
L4:;
    v11 = 0;
    v12 = 4U;
    v13 = 0;
    goto L11;
L5:;
    v11 = 0;
    v12 = 2U;
    v13 = 0;
    goto L11;
L6:;
    v11 = 0;
    v12 = 1U;
    v13 = 8;
    goto L11;
L7:;
    v11 = 1;
    v12 = 0U;
    v13 = 6;
    goto L11;
L8:;
    v11 = 0;
    v12 = 1U;
    v13 = 7;
    goto L11;
L9:;
    v11 = 1;
    v12 = 0U;
    v13 = 1;
    goto L11;
L10:;
    nd_stop();
L11:;
    nd_store_32(v8.b, 0U);
    nd_store_32((v8.b + 4), v12);
    nd_store_8((v8.b + 9), v13);
    if (!(v5 == 0ULL)) goto L17;
    nd_ndef_lang_leaf_Leaf_lengths(v9.b, v8.b);
    v19 = nd_load_64((v9.b + 8));
    switch (nd_load_8(v9.b)) {
    case 1: goto L13;
    case 2: goto L14;
    case 0: goto L15;
    case 3: goto L15;
    case 4: goto L15;
    default: goto L16; }
L13:;
    if (v3 == v19) goto L15;
    v126 = 5;
    v127 = v2;
    v128 = v19;
    v129 = v3;
    goto L66;
L14:;
    v21 = v3 < v19;
    v126 = (uint8_t)(v21 ? 6 : 0);
    v127 = (uint8_t)(v21 ? v2 : 0);
    v128 = v21 ? v19 : 0ULL;
    v129 = v21 ? v3 : 0ULL;
    goto L66;
L15:;
    v126 = 0;
    v127 = 0;
    v128 = 0ULL;
    v129 = 0ULL;
    goto L66;
L16:;
    nd_stop();
L17:;
    v26 = v5 + 18446744073709551615ULL;
    v27 = nd_usub_sat_i64(v3, 1ULL);
    if (!v11) goto L27;
    if (v26 == 0ULL) { v61 = v27; v62 = v4; v63 = 0; v64 = v13; goto L32; }
    v29 = nd_load_8(v4);
    switch (v13) {
    case 0: { v42 = 0; v43 = v13; goto L26; }
    case 1: { v42 = 0; v43 = v13; goto L26; }
    case 2: { v42 = 0; v43 = v13; goto L26; }
    case 3: { v42 = 0; v43 = v13; goto L26; }
    case 4: goto L24;
    case 5: goto L23;
    case 6: goto L22;
    case 7: goto L21;
    case 8: goto L20;
    default: goto L10; }
L20:;
    v42 = v29;
    v43 = 9;
    goto L26;
L21:;
    v42 = v29;
    v43 = 1;
    goto L26;
L22:;
    if (v29 < 4) goto L25;
    v42 = 0;
    v43 = 1;
    goto L26;
L23:;
    v42 = 0;
    v43 = 2;
    goto L26;
L24:;
    v42 = (uint8_t)(v29 & 63);
    v43 = (uint8_t)(((int8_t)v29 < (int8_t)0) ? 3 : 2);
    goto L26;
L25:;
    v42 = (uint8_t)(17039616U >> ((uint32_t)(uint8_t)((uint32_t)v29 << 3) & 31));
    v43 = (uint8_t)(1U >> ((uint32_t)(uint8_t)((uint32_t)v29 << 3) & 31));
L26:;
    v47 = v43;
    v48 = (uint32_t)v42;
    goto L28;
L27:;
    if (v26 == 0ULL) { v126 = 0; v127 = 0; v128 = 0ULL; v129 = 0ULL; goto L66; }
    v47 = v13;
    v48 = v12 + 4294967295U;
L28:;
    v49 = v27;
    v50 = v4;
    v51 = v26;
    v52 = 0;
    v53 = v47;
    v54 = v48;
L29:;
    v55 = (unsigned char *)((uintptr_t)v50 + 1);
    v56 = v51 + 18446744073709551615ULL;
    v57 = nd_usub_sat_i64(v49, 1ULL);
    if (v54 == 0U) goto L31;
    v122 = v54 + 4294967295U;
    v123 = v53;
    v124 = v52;
    goto L65;
L31:;
    if (v56 == 0ULL) { v61 = v57; v62 = v55; v63 = v52; v64 = v53; goto L32; }
    goto L53;
L32:;
    v65 = nd_load_8(v62);
    nd_memset(v6.b, 0, 24);
    nd_store_32((v7.b + 8), 0U);
    switch (v64) {
    case 2: { v99 = 11; v100 = 0; v101 = 0ULL; v102 = 0ULL; goto L52; }
    case 3: { v99 = 11; v100 = 0; v101 = 0ULL; v102 = 0ULL; goto L52; }
    case 6: goto L33;
    case 4: goto L37;
    case 7: goto L39;
    case 8: goto L40;
    case 0: { v87 = 23; v88 = 0; v89 = v64; v90 = v63; goto L44; }
    case 1: { v87 = 23; v88 = 0; v89 = v64; v90 = v63; goto L44; }
    case 5: goto L38;
    case 9: goto L41;
    case 10: goto L42;
    default: goto L51; }
L33:;
    v67 = (uint8_t)(v65 + 255);
    if (!(v67 < 3)) { v72 = 0U; v73 = 1; goto L35; }
    v72 = nd_load_32(((unsigned char *)nd_data_switch_table_ndef_diagnostics_length_mismatch_length_mismatch + (ptrdiff_t)(uint64_t)v67 * 4));
    v73 = 0;
L35:;
    nd_store_32(v7.b, 0U);
    nd_store_32((v7.b + 4), v72);
    nd_store_8((v7.b + 9), v73);
    nd_ndef_lang_leaf_Leaf_lengths(v6.b, v7.b);
    v78 = nd_load_64((v6.b + 8));
    if (!(uint8_t)((nd_load_8(v6.b) != 1) ? 1 : (v61 == v78))) { v99 = 8; v100 = v65; v101 = v78; v102 = v61; goto L52; }
    v99 = 0;
    v100 = 0;
    v101 = 0ULL;
    v102 = 0ULL;
    goto L52;
L37:;
    v87 = 8;
    v88 = (uint8_t)(v65 & 63);
    v89 = (uint8_t)(((int8_t)v65 < (int8_t)0) ? 3 : 2);
    v90 = 0;
    goto L44;
L38:;
    v87 = 23;
    v88 = 0;
    v89 = 2;
    v90 = 0;
    goto L44;
L39:;
    v87 = 29;
    v88 = v65;
    v89 = 1;
    v90 = 0;
    goto L44;
L40:;
    v87 = 20;
    v88 = v65;
    v89 = 9;
    v90 = 0;
    goto L44;
L41:;
    v87 = 23;
    v88 = 0;
    v89 = 10;
    v90 = v65;
    goto L44;
L42:;
    if (v63 == 0) { v87 = 23; v88 = 0; v89 = 1; v90 = 0; goto L44; }
    v87 = 23;
    v88 = v65;
    v89 = 10;
    v90 = (uint8_t)(v63 + 255);
L44:;
    v91 = (uint64_t)v88;
    if (v61 < v91) { v99 = 9; v100 = v87; v101 = v91; v102 = v61; goto L52; }
    v93 = v61 - v91;
    switch (v89) {
    case 3: goto L46;
    case 9: goto L47;
    case 10: goto L48;
    case 0: goto L49;
    case 1: goto L49;
    case 2: goto L49;
    case 4: goto L49;
    case 5: goto L49;
    case 6: goto L49;
    case 7: goto L49;
    case 8: goto L49;
    default: goto L50; }
L46:;
    if ((v93 & 1ULL) == 0ULL) goto L49;
    v99 = 10;
    v100 = 0;
    v101 = 0ULL;
    v102 = 0ULL;
    goto L52;
L47:;
    if (v93 == 0ULL) { v99 = 12; v100 = 0; v101 = 0ULL; v102 = 0ULL; goto L52; }
    goto L49;
L48:;
    v97 = (uint64_t)v90;
    if (v93 < v97) { v99 = 13; v100 = 0; v101 = v97; v102 = v93; goto L52; }
L49:;
    v99 = 0;
    v100 = 0;
    v101 = 0ULL;
    v102 = 0ULL;
    goto L52;
L50:;
    nd_stop();
L51:;
    nd_stop();
L52:;
    v126 = v99;
    v127 = v100;
    v128 = v101;
    v129 = v102;
    goto L66;
L53:;
    v103 = nd_load_8(v55);
    switch (v53) {
    case 0: { v118 = 0; v119 = v53; v120 = v52; goto L64; }
    case 1: { v118 = 0; v119 = v53; v120 = v52; goto L64; }
    case 2: { v118 = 0; v119 = v53; v120 = v52; goto L64; }
    case 3: { v118 = 0; v119 = v53; v120 = v52; goto L64; }
    case 4: goto L54;
    case 5: goto L55;
    case 6: goto L56;
    case 7: goto L57;
    case 8: goto L58;
    case 9: goto L59;
    case 10: goto L60;
    default: goto L62; }
L54:;
    v118 = (uint8_t)(v103 & 63);
    v119 = (uint8_t)(((int8_t)v103 < (int8_t)0) ? 3 : 2);
    v120 = 0;
    goto L64;
L55:;
    v118 = 0;
    v119 = 2;
    v120 = 0;
    goto L64;
L56:;
    if (v103 < 4) goto L63;
    v118 = 0;
    v119 = 1;
    v120 = 0;
    goto L64;
L57:;
    v118 = v103;
    v119 = 1;
    v120 = 0;
    goto L64;
L58:;
    v118 = v103;
    v119 = 9;
    v120 = 0;
    goto L64;
L59:;
    v118 = 0;
    v119 = 10;
    v120 = v103;
    goto L64;
L60:;
    if (v52 == 0) { v118 = 0; v119 = 1; v120 = 0; goto L64; }
    v118 = v103;
    v119 = 10;
    v120 = (uint8_t)(v52 + 255);
    goto L64;
L62:;
    nd_stop();
L63:;
    v118 = (uint8_t)(17039616U >> ((uint32_t)(uint8_t)((uint32_t)v103 << 3) & 31));
    v119 = (uint8_t)(1U >> ((uint32_t)(uint8_t)((uint32_t)v103 << 3) & 31));
    v120 = 0;
L64:;
    v122 = (uint32_t)v118;
    v123 = v119;
    v124 = v120;
L65:;
    if (v56 == 0ULL) { v126 = 0; v127 = 0; v128 = 0ULL; v129 = 0ULL; goto L66; }
    v49 = v57;
    v50 = v55;
    v51 = v56;
    v52 = v124;
    v53 = v123;
    v54 = v122;
    goto L29;
L66:;
    nd_store_8(v1, v126);
    nd_store_8(((unsigned char *)((uintptr_t)v1 + 1)), v127);
    nd_store_64(((unsigned char *)((uintptr_t)v1 + 8)), v128);
    nd_store_64(((unsigned char *)((uintptr_t)v1 + 16)), v129);
    return;
}

static void nd_ndef_diagnostics_sentence_Sentence_push_kind(unsigned char *v1, uint8_t v2) {
    uint64_t v5, v10, v18, v22, v24, v33, v35, v45, v47, v51, v53, v54;
    unsigned char *v8, *v9, *v13, *v27, *v36, *v39, *v44, *v46, *v57;
    v5 = nd_load_64(((unsigned char *)nd_data_switch_table_ndef_diagnostics_sentence_Sentence_push_kind + (ptrdiff_t)(uint64_t)v2 * 8));
    v8 = nd_load_ptr(((unsigned char *)&nd_data_switch_table_ndef_diagnostics_sentence_Sentence_push_kind_13 + (ptrdiff_t)(uint64_t)v2 * 8));
    v9 = (unsigned char *)((uintptr_t)v1 + 192);
    v10 = nd_load_64(v9);
    if ((192ULL - v10) < v5) goto L4;
    v13 = (unsigned char *)((uintptr_t)v1 + (uintptr_t)v10);
    if (((uint64_t)(uintptr_t)v13 - (uint64_t)(uintptr_t)v8) < v5) { v18 = 0ULL; goto L3; }
    nd_move(v13, v8, v5);
    goto L5;
L3:;
    nd_store_8((v13 + (ptrdiff_t)v18), nd_load_8((v8 + (ptrdiff_t)v18)));
    v22 = v18 + 1ULL;
    if (v22 == v5) goto L5;
    v18 = v22;
    goto L3;
L4:;
    nd_stop();
L5:;
    v24 = v10 + v5;
    if ((v24 + 18446744073709551426ULL) < 3ULL) goto L9;
    v27 = (unsigned char *)((uintptr_t)v1 + (uintptr_t)v24);
    if (!(((uint64_t)(uintptr_t)v27 - (uint64_t)(uintptr_t)(unsigned char *)nd_data_static_190) < 3ULL)) goto L8;
    nd_store_8(v27, 32);
    nd_store_8((v27 + 1), 40);
    nd_store_8((v27 + 2), 96);
    goto L10;
L8:;
    nd_memcpy(v27, (unsigned char *)nd_data_static_190, 3);
    goto L10;
L9:;
    nd_stop();
L10:;
    v33 = v24 + 3ULL;
    nd_store_64(v9, v33);
    switch (v2) {
    case 0: goto L11;
    case 1: { v35 = 1ULL; v36 = (unsigned char *)nd_data_static_140; goto L24; }
    case 2: goto L12;
    case 3: goto L13;
    case 4: goto L14;
    case 5: goto L15;
    case 6: goto L16;
    case 7: goto L17;
    case 8: goto L18;
    case 9: goto L19;
    case 10: goto L20;
    case 11: goto L21;
    case 12: goto L22;
    default: goto L23; }
L11:;
    v44 = (unsigned char *)((uintptr_t)v1 + (uintptr_t)v33);
    v45 = 0ULL;
    v46 = (unsigned char *)nd_data_static_50;
    goto L26;
L12:;
    v35 = 1ULL;
    v36 = (unsigned char *)nd_data_static_139;
    goto L24;
L13:;
    v35 = 2ULL;
    v36 = (unsigned char *)nd_data_static_205;
    goto L24;
L14:;
    v35 = 2ULL;
    v36 = (unsigned char *)nd_data_static_206;
    goto L24;
L15:;
    v35 = 2ULL;
    v36 = (unsigned char *)nd_data_static_207;
    goto L24;
L16:;
    v35 = 2ULL;
    v36 = (unsigned char *)nd_data_static_208;
    goto L24;
L17:;
    v35 = 3ULL;
    v36 = (unsigned char *)nd_data_static_209;
    goto L24;
L18:;
    v35 = 1ULL;
    v36 = (unsigned char *)nd_data_static_210;
    goto L24;
L19:;
    v35 = 1ULL;
    v36 = (unsigned char *)nd_data_static_211;
    goto L24;
L20:;
    v35 = 2ULL;
    v36 = (unsigned char *)nd_data_static_212;
    goto L24;
L21:;
    v35 = 2ULL;
    v36 = (unsigned char *)nd_data_static_213;
    goto L24;
L22:;
    v35 = 3ULL;
    v36 = (unsigned char *)nd_data_static_214;
    goto L24;
L23:;
    nd_stop();
L24:;
    if ((189ULL - v24) < v35) goto L28;
    v39 = (unsigned char *)((uintptr_t)v1 + (uintptr_t)v33);
    if (((uint64_t)(uintptr_t)v39 - (uint64_t)(uintptr_t)v36) < v35) { v47 = 0ULL; goto L27; }
    v44 = v39;
    v45 = v35;
    v46 = v36;
L26:;
    nd_move(v44, v46, v45);
    v53 = v45;
    goto L29;
L27:;
    nd_store_8((v39 + (ptrdiff_t)v47), nd_load_8((v36 + (ptrdiff_t)v47)));
    v51 = v47 + 1ULL;
    if (v51 == v35) { v53 = v35; goto L29; }
    v47 = v51;
    goto L27;
L28:;
    nd_stop();
L29:;
    v54 = v53 + v33;
    if ((v54 + 18446744073709551425ULL) < 2ULL) goto L33;
    v57 = (unsigned char *)((uintptr_t)v1 + (uintptr_t)v54);
    if (!(((uint64_t)(uintptr_t)v57 - (uint64_t)(uintptr_t)(unsigned char *)nd_data_static_191) < 2ULL)) goto L32;
    nd_store_8(v57, 96);
    nd_store_8((v57 + 1), 41);
    goto L34;
L32:;
    nd_store_16(v57, 10592);
    goto L34;
L33:;
    nd_stop();
L34:;
    nd_store_64(v9, (v54 + 2ULL));
    return;
}

static void nd_ndef_c_utf16_put_in_utf8(unsigned char *v1, uint8_t v2, unsigned char *v3, uint64_t v4) {
    unsigned char *v7, *v8, *v9, *v10, *v11, *v12, *v13, *v14, *v15, *v18, *v60, *v63, *v90;
    uint64_t v16, v30, v59, v62, v89, v91, v92, v93;
    uint32_t v21, v22, v27, v36, v37, v42, v44, v58, v64;
    ND_ROOM(4) v5;
    nd_store_32(v5.b, 0U);
    if (v4 == 0ULL) goto L17;
    v7 = (unsigned char *)((uintptr_t)v1 + 16);
    v8 = (unsigned char *)((uintptr_t)v1 + 8);
    v9 = v5.b + 1;
    v10 = v5.b + 1;
    v11 = v5.b + 2;
    v12 = v5.b + 3;
    v13 = v5.b + 1;
    v14 = v5.b + 2;
    v15 = v3;
    v16 = v4;
L2:;
    v18 = (unsigned char *)((uintptr_t)v15 + 2);
    v21 = (uint32_t)nd_load_8(v15);
    v22 = (uint32_t)nd_load_8(((unsigned char *)((uintptr_t)v15 + 1)));
    v27 = v2 ? ((v22 << 8) | v21) : ((v21 << 8) | v22);
    if ((v27 & 63488U) == 55296U) goto L5;
    v30 = v16 + 18446744073709551614ULL;
    if ((v27 + 4294909952U) < 4294965248U) goto L7;
    nd_stop();
L5:;
    v36 = (uint32_t)nd_load_8(v18);
    v37 = (uint32_t)nd_load_8(((unsigned char *)((uintptr_t)v15 + 3)));
    v42 = v2 ? ((v37 << 8) | v36) : ((v36 << 8) | v37);
    v44 = v42 + (v27 << 10);
    if ((v44 < 56669184U) | (int)((v44 + 4238296064U) < 1056768U)) goto L11;
    nd_stop();
L7:;
    nd_store_32(v5.b, 0U);
    if (!(v27 < 128U)) goto L9;
    nd_store_8(v5.b, (uint8_t)v27);
    v89 = v30;
    v90 = v18;
    v91 = 1ULL;
    goto L14;
L9:;
    if (!(v27 < 2048U)) { v62 = v30; v63 = v18; v64 = v27; goto L12; }
    nd_store_8(v5.b, (uint8_t)((uint8_t)(v27 >> 6) | 192));
    nd_store_8(v9, (uint8_t)((uint8_t)((uint8_t)v27 & 63) | 128));
    v89 = v30;
    v90 = v18;
    v91 = 2ULL;
    goto L14;
L11:;
    v58 = v44 + 4238353408U;
    v59 = v16 + 18446744073709551612ULL;
    v60 = (unsigned char *)((uintptr_t)v15 + 4);
    nd_store_32(v5.b, 0U);
    if (v44 < 56679424U) { v62 = v59; v63 = v60; v64 = v58; goto L12; }
    goto L13;
L12:;
    nd_store_8(v5.b, (uint8_t)((uint8_t)(v64 >> 12) | 224));
    nd_store_8(v13, (uint8_t)((uint8_t)((uint8_t)(v64 >> 6) & 63) | 128));
    nd_store_8(v14, (uint8_t)((uint8_t)((uint8_t)v64 & 63) | 128));
    v89 = v62;
    v90 = v63;
    v91 = 3ULL;
    goto L14;
L13:;
    nd_store_8(v5.b, (uint8_t)((uint8_t)(v58 >> 18) + 240));
    nd_store_8(v10, (uint8_t)((uint8_t)((uint8_t)(v58 >> 12) & 63) | 128));
    nd_store_8(v11, (uint8_t)((uint8_t)((uint8_t)(v58 >> 6) & 63) | 128));
    nd_store_8(v12, (uint8_t)((uint8_t)((uint8_t)v42 & 63) | 128));
    v89 = v59;
    v90 = v60;
    v91 = 4ULL;
L14:;
    v92 = nd_load_64(v7);
    v93 = nd_uadd_sat_i64(v91, v92);
    if (v93 > nd_load_64(v8)) goto L16;
    nd_copy(((unsigned char *)((uintptr_t)nd_load_ptr(v1) + (uintptr_t)v92)), v5.b, v91);
L16:;
    nd_store_64(v7, v93);
    if (!(v89 == 0ULL)) { v15 = v90; v16 = v89; goto L2; }
L17:;
    return;
}

static void nd_ndef_c_poster_writing_media_octets(unsigned char *v1, unsigned char *v2) {
    unsigned char *v6, *v12, *v22;
    uint64_t v14, v16, v19;
    uint8_t v26, v27;
    ND_ROOM(24) v3, v4;
    v6 = nd_load_ptr(((unsigned char *)((uintptr_t)v2 + 16)));
    if (nd_load_32(((unsigned char *)((uintptr_t)v6 + 32))) == 0U) goto L2;
    goto L3;
L1:;
    return;
L2:;
    nd_store_64(v1, 1ULL);
    nd_store_ptr(((unsigned char *)((uintptr_t)v1 + 8)), (unsigned char *)nd_data_static_50);
    nd_store_64(((unsigned char *)((uintptr_t)v1 + 16)), 0ULL);
    goto L1;
L3:;
    v12 = nd_load_ptr(v2);
    v14 = nd_load_64((v2 + 8));
    v16 = nd_load_64(((unsigned char *)((uintptr_t)v6 + 16)));
    if (v14 < v16) goto L9;
    v19 = nd_load_64(((unsigned char *)((uintptr_t)v6 + 24)));
    if ((v14 - v16) < v19) goto L9;
    v22 = (unsigned char *)((uintptr_t)v12 + (uintptr_t)v16);
    nd_memset(v4.b, 0, 24);
    if (!(v19 < 64ULL)) goto L7;
    nd_core_str_utf8_from_utf8(v4.b, v22, v19);
    v26 = nd_load_8(v4.b);
    goto L8;
L7:;
    nd_core_str_utf8_from_utf8(v3.b, v22, v19);
    v26 = nd_load_8(v3.b);
L8:;
    v27 = v26 == 0;
    nd_store_64(v1, (uint64_t)v27);
    nd_store_ptr(((unsigned char *)((uintptr_t)v1 + 8)), (v27 ? v22 : (unsigned char *)0));
    nd_store_64(((unsigned char *)((uintptr_t)v1 + 16)), (v27 ? v19 : 0ULL));
    goto L1;
L9:;
    nd_memset(v1, 0, 24);
    goto L1;
}

static uint32_t nd_ndef_c_series_writing_give_message(unsigned char *v1, uint64_t v2, unsigned char *v3, uint64_t v4, unsigned char *v5, uint64_t v6, unsigned char *v7) {
    uint64_t v11, v12, v22, v23, v24, v32;
    unsigned char *v14;
    uint32_t v27;
    uint8_t v29;
    ND_ROOM(1) v8;
    ND_ROOM(24) v9, v10;
    v11 = 0ULL;
    v12 = 0ULL;
L1:;
    v14 = (unsigned char *)((uintptr_t)v3 + (uintptr_t)(v12 * 104ULL));
    switch (nd_load_8(v14)) {
    case 0: { v22 = 0ULL; goto L7; }
    case 1: goto L2;
    case 2: goto L3;
    case 3: goto L4;
    case 4: goto L5;
    default: goto L6; }
L2:;
    v22 = 1ULL;
    goto L7;
L3:;
    v22 = nd_load_64(((unsigned char *)((uintptr_t)v14 + 32)));
    goto L7;
L4:;
    v22 = nd_load_64(((unsigned char *)((uintptr_t)v14 + 32)));
    goto L7;
L5:;
    v22 = nd_load_64(((unsigned char *)((uintptr_t)v14 + 48)));
    goto L7;
L6:;
    nd_stop();
L7:;
    v23 = nd_uadd_sat_i64(v22, v11);
    v24 = v12 + 1ULL;
    if (!(v24 == v4)) { v11 = v23; v12 = v24; goto L1; }
    if (v23 > 65535ULL) { v27 = 3U; goto L9; }
    goto L10;
L9:;
    return v27;
L10:;
    nd_store_ptr(v9.b, v8.b);
    nd_memset((v9.b + 8), 0, 16);
    v29 = nd_ndef_c_series_writing_put_message(v9.b, v1, v2, v3, v4, v23);
    if (!(uint8_t)(v29 & 1)) { v27 = 3U; goto L9; }
    v32 = nd_load_64((v9.b + 16));
    if (v32 > 4294967295ULL) { v27 = 3U; goto L9; }
    nd_store_64(v7, v32);
    if (v6 < v32) { v27 = 2U; goto L9; }
    nd_store_ptr(v10.b, v5);
    nd_store_64((v10.b + 8), v6);
    nd_store_64((v10.b + 16), 0ULL);
    nd_ndef_c_series_writing_put_message(v10.b, v1, v2, v3, v4, v23);
    v27 = 0U;
    goto L9;
}

static uint8_t nd_ndef_c_series_writing_put_message(unsigned char *v1, unsigned char *v2, uint64_t v3, unsigned char *v4, uint64_t v5, uint64_t v6) {
    unsigned char *v11, *v14, *v18, *v24, *v25, *v26, *v27, *v28, *v29, *v30, *v31, *v32, *v33, *v34, *v35, *v36, *v37, *v38, *v43, *v50, *v51, *v52, *v53, *v54, *v55, *v56, *v57, *v58, *v59, *v60, *v61, *v62, *v82, *v86, *v93, *v110, *v118, *v134, *v138, *v160, *v162, *v166, *v174, *v178, *v187, *v220, *v226, *v228, *v230, *v246, *v261, *v276, *v298, *v312, *v334, *v348, *v362, *v372, *v379, *v389, *v394, *v415, *v416, *v427, *v432, *v454, *v467;
    uint64_t v12, v13, v39, v41, v45, v47, v49, v64, v66, v83, v87, v90, v95, v98, v108, v109, v111, v112, v113, v114, v115, v117, v121, v123, v124, v128, v130, v131, v133, v135, v139, v142, v146, v150, v161, v163, v167, v170, v179, v183, v185, v189, v191, v197, v200, v202, v203, v207, v209, v210, v212, v215, v217, v218, v219, v221, v222, v225, v227, v247, v249, v250, v251, v252, v257, v258, v266, v270, v272, v281, v285, v287, v288, v294, v295, v302, v306, v308, v317, v321, v323, v330, v331, v338, v342, v344, v353, v358, v359, v366, v370, v373, v378, v380, v387, v390, v391, v399, v403, v405, v412, v413, v417, v418, v425, v428, v429, v437, v441, v443, v445, v450, v451, v458, v462, v464, v471, v475, v477, v478, v481, v482;
    uint8_t v40, v65, v105, v106, v196, v223, v224, v229, v232, v233, v234, v480, v484;
    uint32_t v176, v245;
    ND_ROOM(1) v7;
    ND_ROOM(7) v8;
    ND_ROOM(24) v9;
    ND_ROOM(56) v10;
    v11 = (unsigned char *)((uintptr_t)v1 + 16);
    v12 = nd_load_64(v11);
    v13 = nd_uadd_sat_i64(v3, v12);
    v14 = (unsigned char *)((uintptr_t)v1 + 8);
    if (v13 > nd_load_64(v14)) goto L4;
    v18 = (unsigned char *)((uintptr_t)nd_load_ptr(v1) + (uintptr_t)v12);
    if (!(((uint64_t)(uintptr_t)v18 - (uint64_t)(uintptr_t)v2) < v3)) goto L3;
    nd_store_8(v18, nd_load_8(v2));
    goto L4;
L3:;
    nd_move(v18, v2, v3);
L4:;
    nd_store_64(v11, v13);
    v24 = v10.b + 8;
    v25 = v10.b + 9;
    v26 = v10.b + 32;
    v27 = v10.b + 16;
    v28 = v10.b + 24;
    v29 = v10.b + 40;
    v30 = v10.b + 48;
    v31 = v9.b + 8;
    v32 = v9.b + 16;
    v33 = v8.b + 6;
    v34 = v8.b + 3;
    v35 = v8.b + 2;
    v36 = v8.b + 1;
    v37 = v8.b + 2;
    v38 = v8.b + 2;
    v39 = 0ULL;
    v40 = 1;
    v41 = v6;
L5:;
    v43 = (unsigned char *)((uintptr_t)v4 + (uintptr_t)(v39 * 104ULL));
    switch (nd_load_8(v43)) {
    case 0: { v480 = v40; v481 = v41; goto L120; }
    case 1: { v49 = 1ULL; goto L9; }
    case 2: { v45 = 32ULL; goto L8; }
    case 3: { v45 = 32ULL; goto L8; }
    case 4: goto L6;
    default: goto L7; }
L6:;
    v45 = 48ULL;
    goto L8;
L7:;
    nd_stop();
L8:;
    v47 = nd_load_64(((unsigned char *)((uintptr_t)v43 + (uintptr_t)v45)));
    if (v47 == 0ULL) { v480 = v40; v481 = v41; goto L120; }
    v49 = v47;
L9:;
    v50 = (unsigned char *)((uintptr_t)v43 + 8);
    v51 = (unsigned char *)((uintptr_t)v43 + 16);
    v52 = (unsigned char *)((uintptr_t)v43 + 24);
    v53 = (unsigned char *)((uintptr_t)v43 + 32);
    v54 = (unsigned char *)((uintptr_t)v43 + 40);
    v55 = (unsigned char *)((uintptr_t)v43 + 48);
    v56 = (unsigned char *)((uintptr_t)v43 + 49);
    v57 = (unsigned char *)((uintptr_t)v43 + 56);
    v58 = (unsigned char *)((uintptr_t)v43 + 64);
    v59 = (unsigned char *)((uintptr_t)v43 + 72);
    v60 = (unsigned char *)((uintptr_t)v43 + 80);
    v61 = (unsigned char *)((uintptr_t)v43 + 88);
    v62 = (unsigned char *)((uintptr_t)v43 + 96);
    v64 = v41;
    v65 = (uint8_t)((uint32_t)v40 << 7);
    v66 = 0ULL;
L10:;
    switch (nd_load_8(v43)) {
    case 0: goto L11;
    case 1: goto L12;
    case 2: goto L13;
    case 3: goto L26;
    case 4: goto L30;
    default: goto L40; }
L11:;
    nd_stop();
L12:;
    v217 = nd_load_64(v62);
    v218 = nd_load_64(v61);
    v219 = nd_load_64(v60);
    v220 = nd_load_ptr(v59);
    v221 = nd_load_64(v58);
    v222 = nd_load_64(v57);
    v223 = nd_load_8(v56);
    v224 = nd_load_8(v55);
    v225 = nd_load_64(v54);
    v226 = nd_load_ptr(v53);
    v227 = nd_load_64(v52);
    v228 = nd_load_ptr(v51);
    v229 = (uint8_t)nd_load_64(v50);
    goto L43;
L13:;
    v82 = nd_load_ptr(v50);
    v83 = nd_load_64(v51);
    v86 = (unsigned char *)((uintptr_t)nd_load_ptr(v52) + (uintptr_t)(v66 * 40ULL));
    nd_memset(v10.b, 0, 56);
    v87 = nd_load_64(v86);
    if (v83 < v87) goto L41;
    v90 = nd_load_64(((unsigned char *)((uintptr_t)v86 + 8)));
    if ((v83 - v87) < v90) goto L41;
    v93 = (unsigned char *)((uintptr_t)v82 + (uintptr_t)v87);
    v95 = nd_load_64(((unsigned char *)((uintptr_t)v86 + 16)));
    if (v83 < v95) goto L41;
    v98 = nd_load_64(((unsigned char *)((uintptr_t)v86 + 24)));
    if ((v83 - v95) < v98) goto L41;
    nd_ndef_c_text_text_content(v10.b, v93, v90, ((unsigned char *)((uintptr_t)v82 + (uintptr_t)v95)), v98, nd_load_32(((unsigned char *)((uintptr_t)v86 + 32))));
    v105 = nd_load_8(v24);
    v106 = nd_load_8(v25);
    if (!(nd_load_8(v10.b) == 1)) goto L41;
    v108 = nd_load_64(v27);
    v109 = nd_load_64(v28);
    v110 = nd_load_ptr(v26);
    v111 = nd_load_64(v29);
    v112 = nd_load_64(v30);
    nd_store_ptr(v9.b, v7.b);
    nd_store_64(v31, 0ULL);
    switch (v105) {
    case 0: goto L19;
    case 1: goto L20;
    case 2: goto L21;
    case 3: goto L22;
    case 4: goto L24;
    case 5: { v215 = v109; goto L42; }
    default: goto L25; }
L19:;
    v113 = nd_uadd_sat_i64(v109, 1ULL);
    v114 = nd_uadd_sat_i64(v111, v113);
    v215 = v114;
    goto L42;
L20:;
    v115 = nd_uadd_sat_i64(v109, 3ULL);
    nd_store_64(v32, v115);
    nd_ndef_c_utf16_put_units(v9.b, v110, v111);
    v215 = nd_load_64(v32);
    goto L42;
L21:;
    v117 = nd_uadd_sat_i64(v109, 1ULL);
    v215 = v117;
    goto L42;
L22:;
    v118 = (unsigned char *)(uintptr_t)v111;
    v121 = nd_uadd_sat_i64(nd_load_64(((unsigned char *)((uintptr_t)v110 + 8))), 3ULL);
    if (v112 == 0ULL) { v215 = v121; goto L42; }
    v123 = v121;
    v124 = 0ULL;
L23:;
    v128 = nd_uadd_sat_i64(v123, 1ULL);
    v130 = nd_uadd_sat_i64(nd_load_64(((unsigned char *)((uintptr_t)((unsigned char *)((uintptr_t)v118 + (uintptr_t)(v124 << 4))) + 8))), v128);
    v131 = v124 + 1ULL;
    if (v131 == v112) { v215 = v130; goto L42; }
    v123 = v130;
    v124 = v131;
    goto L23;
L24:;
    v133 = nd_uadd_sat_i64(v109, 1ULL);
    v215 = v133;
    goto L42;
L25:;
    nd_stop();
L26:;
    v134 = nd_load_ptr(v50);
    v135 = nd_load_64(v51);
    v138 = (unsigned char *)((uintptr_t)nd_load_ptr(v52) + (uintptr_t)(v66 << 5));
    v139 = nd_load_64(v138);
    if (v135 < v139) { v484 = 0; goto L121; }
    v142 = nd_load_64(((unsigned char *)((uintptr_t)v138 + 8)));
    if ((v135 - v139) < v142) { v484 = 0; goto L121; }
    v146 = nd_load_64(((unsigned char *)((uintptr_t)v138 + 16)));
    if (v135 < v146) { v484 = 0; goto L121; }
    v150 = nd_load_64(((unsigned char *)((uintptr_t)v138 + 24)));
    if ((v150 < 4294967296ULL) & (int)(((v142 + 18446744073709551615ULL) < 255ULL) & (int)((v135 - v146) >= v150))) { v217 = v150; v218 = 0ULL; v219 = 0ULL; v220 = (unsigned char *)0; v221 = v150; v222 = (uint64_t)(uintptr_t)((unsigned char *)((uintptr_t)v134 + (uintptr_t)v146)); v223 = 0; v224 = 5; v225 = 0ULL; v226 = (unsigned char *)nd_data_static_50; v227 = v142; v228 = (unsigned char *)((uintptr_t)v134 + (uintptr_t)v139); v229 = 2; goto L43; }
    v484 = 0;
    goto L121;
L30:;
    v160 = nd_load_ptr(v50);
    v161 = nd_load_64(v51);
    v162 = nd_load_ptr(v52);
    v163 = nd_load_64(v53);
    v166 = (unsigned char *)((uintptr_t)nd_load_ptr(v54) + (uintptr_t)(v66 * 24ULL));
    v167 = nd_load_64(v166);
    if (v163 < v167) { v484 = 0; goto L121; }
    v170 = nd_load_64(((unsigned char *)((uintptr_t)v166 + 8)));
    if ((v163 - v167) < v170) { v484 = 0; goto L121; }
    v174 = (unsigned char *)((uintptr_t)v162 + (uintptr_t)(v167 << 4));
    v176 = nd_load_32(((unsigned char *)((uintptr_t)v166 + 16)));
    if (v170 == 0ULL) { v484 = 0; goto L121; }
    v178 = (unsigned char *)((uintptr_t)v174 + 16);
    v179 = v170 + 18446744073709551615ULL;
    if ((v179 > 255ULL) | (int)(v176 > 3U)) { v484 = 0; goto L121; }
    v185 = 0ULL;
    goto L35;
L34:;
    v183 = v185 + 1ULL;
    if (v183 == v170) goto L37;
    v185 = v183;
L35:;
    v187 = (unsigned char *)((uintptr_t)v174 + (uintptr_t)(v185 << 4));
    v189 = nd_load_64(((unsigned char *)((uintptr_t)v187 + 8)));
    if (!(v189 < 256ULL)) { v484 = 0; goto L121; }
    v191 = nd_load_64(v187);
    if ((uint8_t)((v191 <= v161) ? (v189 <= (v161 - v191)) : 0)) goto L34;
    v484 = 0;
    goto L121;
L37:;
    v196 = (uint8_t)v176;
    v197 = (uint64_t)(uintptr_t)v178;
    v200 = nd_uadd_sat_i64(nd_load_64(((unsigned char *)((uintptr_t)v174 + 8))), 3ULL);
    if (v179 == 0ULL) { v212 = v200; goto L39; }
    v202 = v200;
    v203 = 0ULL;
L38:;
    v207 = nd_uadd_sat_i64(v202, 1ULL);
    v209 = nd_uadd_sat_i64(nd_load_64(((unsigned char *)((uintptr_t)((unsigned char *)((uintptr_t)v178 + (uintptr_t)(v203 << 4))) + 8))), v207);
    v210 = v203 + 1ULL;
    if (v210 == v179) { v212 = v209; goto L39; }
    v202 = v209;
    v203 = v210;
    goto L38;
L39:;
    if (v212 < 4294967296ULL) { v217 = v212; v218 = v179; v219 = v197; v220 = v174; v221 = v161; v222 = (uint64_t)(uintptr_t)v160; v223 = v196; v224 = 3; v225 = 0ULL; v226 = (unsigned char *)nd_data_static_50; v227 = 2ULL; v228 = (unsigned char *)nd_data_static_212; v229 = 1; goto L43; }
    v484 = 0;
    goto L121;
L40:;
    nd_stop();
L41:;
    v484 = 0;
    goto L121;
L42:;
    if (v215 < 4294967296ULL) { v217 = v215; v218 = v112; v219 = v111; v220 = v110; v221 = v109; v222 = v108; v223 = v106; v224 = v105; v225 = 0ULL; v226 = (unsigned char *)nd_data_static_50; v227 = 1ULL; v228 = (unsigned char *)nd_data_static_140; v229 = 1; goto L43; }
    v484 = 0;
    goto L121;
L43:;
    v230 = (unsigned char *)(uintptr_t)v222;
    v232 = v217 < 256ULL;
    v233 = v225 == 0ULL;
    v234 = (uint8_t)v225;
    nd_memset(v35, 0, 5);
    nd_store_8(v8.b, (uint8_t)((uint8_t)((uint8_t)((uint8_t)((uint8_t)((v64 == 1ULL) ? 64 : 0) | v65) | (uint8_t)(v232 ? 16 : 0)) | (uint8_t)(v233 ? 0 : 8)) + v229));
    nd_store_8(v36, (uint8_t)v227);
    if (!v232) goto L45;
    nd_store_8(v38, (uint8_t)v217);
    v246 = v34;
    v247 = 3ULL;
    goto L46;
L45:;
    v245 = nd_bswap_i32((uint32_t)v217);
    nd_store_32(v37, v245);
    v246 = v33;
    v247 = 6ULL;
L46:;
    if (v233) { v249 = v247; goto L48; }
    nd_store_8(v246, v234);
    v249 = v247 + 1ULL;
L48:;
    v250 = nd_load_64(v11);
    v251 = nd_uadd_sat_i64(v249, v250);
    v252 = nd_load_64(v14);
    if (v251 > v252) { v257 = v252; goto L50; }
    nd_copy(((unsigned char *)((uintptr_t)nd_load_ptr(v1) + (uintptr_t)v250)), v8.b, v249);
    v257 = nd_load_64(v14);
L50:;
    nd_store_64(v11, v251);
    v258 = nd_uadd_sat_i64(v227, v251);
    if (v258 > v257) goto L54;
    v261 = (unsigned char *)((uintptr_t)nd_load_ptr(v1) + (uintptr_t)v251);
    if (((uint64_t)(uintptr_t)v261 - (uint64_t)(uintptr_t)v228) < v227) { v266 = 0ULL; goto L53; }
    nd_move(v261, v228, v227);
    goto L54;
L53:;
    nd_store_8((v261 + (ptrdiff_t)v266), nd_load_8((v228 + (ptrdiff_t)v266)));
    v270 = v266 + 1ULL;
    if (!(v270 == v227)) { v266 = v270; goto L53; }
L54:;
    nd_store_64(v11, v258);
    v272 = nd_uadd_sat_i64(v225, v258);
    if (v272 > nd_load_64(v14)) goto L58;
    v276 = (unsigned char *)((uintptr_t)nd_load_ptr(v1) + (uintptr_t)v258);
    if (((uint64_t)(uintptr_t)v276 - (uint64_t)(uintptr_t)v226) < v225) { v281 = 0ULL; goto L57; }
    nd_move(v276, v226, v225);
    goto L58;
L57:;
    nd_store_8((v276 + (ptrdiff_t)v281), nd_load_8((v226 + (ptrdiff_t)v281)));
    v285 = v281 + 1ULL;
    if (!(v285 == v225)) { v281 = v285; goto L57; }
L58:;
    v287 = nd_load_64(v14);
    nd_store_64(v11, v272);
    switch (v224) {
    case 0: goto L59;
    case 1: goto L70;
    case 2: goto L81;
    case 3: goto L88;
    case 4: goto L106;
    case 5: goto L113;
    default: goto L118; }
L59:;
    v288 = nd_uadd_sat_i64(v272, 1ULL);
    if (v288 > v287) { v294 = v287; goto L61; }
    nd_store_8(((unsigned char *)((uintptr_t)nd_load_ptr(v1) + (uintptr_t)v272)), (uint8_t)v221);
    v294 = nd_load_64(v14);
L61:;
    nd_store_64(v11, v288);
    v295 = nd_uadd_sat_i64(v221, v288);
    if (v295 > v294) goto L65;
    v298 = (unsigned char *)((uintptr_t)nd_load_ptr(v1) + (uintptr_t)v288);
    if (((uint64_t)(uintptr_t)v298 - v222) < v221) { v302 = 0ULL; goto L64; }
    nd_move(v298, v230, v221);
    goto L65;
L64:;
    nd_store_8((v298 + (ptrdiff_t)v302), nd_load_8((v230 + (ptrdiff_t)v302)));
    v306 = v302 + 1ULL;
    if (!(v306 == v221)) { v302 = v306; goto L64; }
L65:;
    nd_store_64(v11, v295);
    v308 = nd_uadd_sat_i64(v219, v295);
    if (v308 > nd_load_64(v14)) goto L69;
    v312 = (unsigned char *)((uintptr_t)nd_load_ptr(v1) + (uintptr_t)v295);
    if (((uint64_t)(uintptr_t)v312 - (uint64_t)(uintptr_t)v220) < v219) { v317 = 0ULL; goto L68; }
    nd_move(v312, v220, v219);
    goto L69;
L68:;
    nd_store_8((v312 + (ptrdiff_t)v317), nd_load_8((v220 + (ptrdiff_t)v317)));
    v321 = v317 + 1ULL;
    if (!(v321 == v219)) { v317 = v321; goto L68; }
L69:;
    nd_store_64(v11, v308);
    goto L119;
L70:;
    v323 = nd_uadd_sat_i64(v272, 1ULL);
    if (v323 > v287) { v330 = v287; goto L72; }
    nd_store_8(((unsigned char *)((uintptr_t)nd_load_ptr(v1) + (uintptr_t)v272)), (uint8_t)((uint8_t)v221 ^ 128));
    v330 = nd_load_64(v14);
L72:;
    nd_store_64(v11, v323);
    v331 = nd_uadd_sat_i64(v221, v323);
    if (v331 > v330) goto L76;
    v334 = (unsigned char *)((uintptr_t)nd_load_ptr(v1) + (uintptr_t)v323);
    if (((uint64_t)(uintptr_t)v334 - v222) < v221) { v338 = 0ULL; goto L75; }
    nd_move(v334, v230, v221);
    goto L76;
L75:;
    nd_store_8((v334 + (ptrdiff_t)v338), nd_load_8((v230 + (ptrdiff_t)v338)));
    v342 = v338 + 1ULL;
    if (!(v342 == v221)) { v338 = v342; goto L75; }
L76:;
    v344 = nd_uadd_sat_i64(v331, 2ULL);
    if (v344 > nd_load_64(v14)) goto L80;
    v348 = (unsigned char *)((uintptr_t)nd_load_ptr(v1) + (uintptr_t)v331);
    if (!(((uint64_t)(uintptr_t)v348 - (uint64_t)(uintptr_t)(unsigned char *)nd_data_static_88) < 2ULL)) goto L79;
    nd_store_8(v348, 254);
    nd_store_8((v348 + 1), 255);
    goto L80;
L79:;
    nd_store_16(v348, 65534);
L80:;
    nd_store_64(v11, v344);
    nd_ndef_c_utf16_put_units(v1, v220, v219);
    goto L119;
L81:;
    v353 = nd_uadd_sat_i64(v272, 1ULL);
    if (v353 > v287) { v358 = v287; goto L83; }
    nd_store_8(((unsigned char *)((uintptr_t)nd_load_ptr(v1) + (uintptr_t)v272)), v223);
    v358 = nd_load_64(v14);
L83:;
    nd_store_64(v11, v353);
    v359 = nd_uadd_sat_i64(v221, v353);
    if (v359 > v358) goto L87;
    v362 = (unsigned char *)((uintptr_t)nd_load_ptr(v1) + (uintptr_t)v353);
    if (((uint64_t)(uintptr_t)v362 - v222) < v221) { v366 = 0ULL; goto L86; }
    nd_move(v362, v230, v221);
    goto L87;
L86:;
    nd_store_8((v362 + (ptrdiff_t)v366), nd_load_8((v230 + (ptrdiff_t)v366)));
    v370 = v366 + 1ULL;
    if (!(v370 == v221)) { v366 = v370; goto L86; }
L87:;
    nd_store_64(v11, v359);
    goto L119;
L88:;
    v372 = (unsigned char *)(uintptr_t)v219;
    v373 = nd_uadd_sat_i64(v272, 1ULL);
    if (v373 > v287) { v378 = v287; goto L90; }
    nd_store_8(((unsigned char *)((uintptr_t)nd_load_ptr(v1) + (uintptr_t)v272)), v223);
    v378 = nd_load_64(v14);
L90:;
    nd_store_64(v11, v373);
    v379 = (unsigned char *)((uintptr_t)v220 + 8);
    v380 = nd_uadd_sat_i64(v272, 2ULL);
    if (v380 > v378) { v387 = v378; goto L92; }
    nd_store_8(((unsigned char *)((uintptr_t)nd_load_ptr(v1) + (uintptr_t)v373)), (uint8_t)nd_load_64(v379));
    v387 = nd_load_64(v14);
L92:;
    nd_store_64(v11, v380);
    v389 = (unsigned char *)((uintptr_t)v230 + (uintptr_t)nd_load_64(v220));
    v390 = nd_load_64(v379);
    v391 = nd_uadd_sat_i64(v390, v380);
    if (v391 > v387) goto L96;
    v394 = (unsigned char *)((uintptr_t)nd_load_ptr(v1) + (uintptr_t)v380);
    if (((uint64_t)(uintptr_t)v394 - (uint64_t)(uintptr_t)v389) < v390) { v399 = 0ULL; goto L95; }
    nd_move(v394, v389, v390);
    goto L96;
L95:;
    nd_store_8((v394 + (ptrdiff_t)v399), nd_load_8((v389 + (ptrdiff_t)v399)));
    v403 = v399 + 1ULL;
    if (!(v403 == v390)) { v399 = v403; goto L95; }
L96:;
    v405 = nd_uadd_sat_i64(v391, 1ULL);
    if (v405 > nd_load_64(v14)) goto L98;
    nd_store_8(((unsigned char *)((uintptr_t)nd_load_ptr(v1) + (uintptr_t)v391)), (uint8_t)v218);
L98:;
    nd_store_64(v11, v405);
    if (v218 == 0ULL) goto L119;
    v412 = v405;
    v413 = 0ULL;
L99:;
    v415 = (unsigned char *)((uintptr_t)v372 + (uintptr_t)(v413 << 4));
    v416 = (unsigned char *)((uintptr_t)v415 + 8);
    v417 = nd_uadd_sat_i64(v412, 1ULL);
    v418 = nd_load_64(v14);
    if (v417 > v418) { v425 = v418; goto L101; }
    nd_store_8(((unsigned char *)((uintptr_t)nd_load_ptr(v1) + (uintptr_t)v412)), (uint8_t)nd_load_64(v416));
    v425 = nd_load_64(v14);
L101:;
    nd_store_64(v11, v417);
    v427 = (unsigned char *)((uintptr_t)v230 + (uintptr_t)nd_load_64(v415));
    v428 = nd_load_64(v416);
    v429 = nd_uadd_sat_i64(v428, v417);
    if (v429 > v425) goto L105;
    v432 = (unsigned char *)((uintptr_t)nd_load_ptr(v1) + (uintptr_t)v417);
    if (((uint64_t)(uintptr_t)v432 - (uint64_t)(uintptr_t)v427) < v428) { v437 = 0ULL; goto L104; }
    nd_move(v432, v427, v428);
    goto L105;
L104:;
    nd_store_8((v432 + (ptrdiff_t)v437), nd_load_8((v427 + (ptrdiff_t)v437)));
    v441 = v437 + 1ULL;
    if (!(v441 == v428)) { v437 = v441; goto L104; }
L105:;
    nd_store_64(v11, v429);
    v443 = v413 + 1ULL;
    if (v443 == v218) goto L119;
    v412 = v429;
    v413 = v443;
    goto L99;
L106:;
    v445 = nd_uadd_sat_i64(v272, 1ULL);
    if (v445 > v287) { v450 = v287; goto L108; }
    nd_store_8(((unsigned char *)((uintptr_t)nd_load_ptr(v1) + (uintptr_t)v272)), v223);
    v450 = nd_load_64(v14);
L108:;
    nd_store_64(v11, v445);
    v451 = nd_uadd_sat_i64(v221, v445);
    if (v451 > v450) goto L112;
    v454 = (unsigned char *)((uintptr_t)nd_load_ptr(v1) + (uintptr_t)v445);
    if (((uint64_t)(uintptr_t)v454 - v222) < v221) { v458 = 0ULL; goto L111; }
    nd_move(v454, v230, v221);
    goto L112;
L111:;
    nd_store_8((v454 + (ptrdiff_t)v458), nd_load_8((v230 + (ptrdiff_t)v458)));
    v462 = v458 + 1ULL;
    if (!(v462 == v221)) { v458 = v462; goto L111; }
L112:;
    nd_store_64(v11, v451);
    goto L119;
L113:;
    v464 = nd_uadd_sat_i64(v221, v272);
    if (v464 > v287) goto L117;
    v467 = (unsigned char *)((uintptr_t)nd_load_ptr(v1) + (uintptr_t)v272);
    if (((uint64_t)(uintptr_t)v467 - v222) < v221) { v471 = 0ULL; goto L116; }
    nd_move(v467, v230, v221);
    goto L117;
L116:;
    nd_store_8((v467 + (ptrdiff_t)v471), nd_load_8((v230 + (ptrdiff_t)v471)));
    v475 = v471 + 1ULL;
    if (!(v475 == v221)) { v471 = v475; goto L116; }
L117:;
    nd_store_64(v11, v464);
    goto L119;
L118:;
    nd_stop();
L119:;
    v477 = v64 + 18446744073709551615ULL;
    v478 = v66 + 1ULL;
    if (v478 == v49) { v480 = 0; v481 = v477; goto L120; }
    v64 = v477;
    v65 = 0;
    v66 = v478;
    goto L10;
L120:;
    v482 = v39 + 1ULL;
    if (v482 == v5) { v484 = 1; goto L121; }
    v39 = v482;
    v40 = v480;
    v41 = v481;
    goto L5;
L121:;
    return v484;
}

static uint8_t nd_ndef_c_handover_is_handover(unsigned char *v1, uint64_t v2) {
    uint8_t v6, v16, v19, v29, v32, v33;
    uint64_t v17, v30;
    ND_ROOM(88) v3, v4;
    if (v2 > 4294967295ULL) { v33 = 0; goto L10; }
    v6 = nd_ndef_nest_member_is_nested(2, 65535U, 1, v1, v2);
    if (v6) { v33 = 1; goto L10; }
    nd_store_64(v4.b, 281470681743873ULL);
    nd_store_8((v4.b + 8), 1);
    nd_store_8((v4.b + 9), 1);
    nd_store_8((v4.b + 10), 0);
    nd_store_8((v4.b + 11), 1);
    nd_store_32((v4.b + 12), 0U);
    nd_store_32((v4.b + 16), 4294967295U);
    nd_memset((v4.b + 20), 0, 60);
    nd_store_8((v4.b + 80), 23);
    nd_memset((v4.b + 81), 0, 7);
    v16 = nd_ndef_nest_nest_NestLanguage_fits(v4.b, v2, v2);
    if (!v16) goto L5;
    v17 = nd_ndef_nest_nest_NestLanguage_step_all(v4.b, v1, v2, v2, v2);
    if (v17 < v2) goto L5;
    v33 = 1;
    goto L10;
L5:;
    v19 = nd_ndef_nest_member_is_nested(1, 65535U, 1, v1, v2);
    if (v19) { v33 = 1; goto L10; }
    nd_store_64(v3.b, 281470681940225ULL);
    nd_store_8((v3.b + 8), 1);
    nd_store_8((v3.b + 9), 1);
    nd_store_8((v3.b + 10), 0);
    nd_store_8((v3.b + 11), 1);
    nd_store_32((v3.b + 12), 0U);
    nd_store_32((v3.b + 16), 4294967295U);
    nd_memset((v3.b + 20), 0, 60);
    nd_store_8((v3.b + 80), 23);
    nd_memset((v3.b + 81), 0, 7);
    v29 = nd_ndef_nest_nest_NestLanguage_fits(v3.b, v2, v2);
    if (!v29) goto L8;
    v30 = nd_ndef_nest_nest_NestLanguage_step_all(v3.b, v1, v2, v2, v2);
    if (!(v30 < v2)) { v32 = 1; goto L9; }
L8:;
    v32 = 0;
L9:;
    v33 = v32;
L10:;
    return v33;
}

static void nd_ndef_c_links_LinksRecordQuery_given(unsigned char *v1, unsigned char *v2, unsigned char *v3) {
    uint64_t v9, v11, v15, v19, v30, v31, v37, v45, v66, v72, v79, v80;
    unsigned char *v12, *v13, *v17, *v21, *v22, *v23, *v24, *v25, *v27, *v28, *v29, *v46;
    uint8_t v18, v26, v40, v75;
    uint32_t v78;
    ND_ROOM(120) v4;
    v9 = nd_load_64(((unsigned char *)((uintptr_t)v3 + 48)));
    v11 = nd_load_64(((unsigned char *)((uintptr_t)v3 + 56)));
    v12 = (unsigned char *)((uintptr_t)((unsigned char *)((uintptr_t)nd_load_ptr(((unsigned char *)((uintptr_t)v2 + 16))) + 1)) + (uintptr_t)v9);
    v13 = nd_load_ptr(v2);
    v15 = nd_load_64((v2 + 8));
    v17 = (unsigned char *)((uintptr_t)v12 + 2);
    v18 = nd_load_8(((unsigned char *)((uintptr_t)v12 + 1)));
    v19 = (uint64_t)v18;
    if (v18 == 0) { v78 = 0U; v79 = 0ULL; v80 = 0ULL; goto L13; }
    v21 = v4.b + 40;
    v22 = v4.b + 56;
    v23 = v4.b + 72;
    v24 = v4.b + 96;
    v25 = v4.b + 112;
    v26 = v18 < 4;
    v27 = (unsigned char *)((uintptr_t)v12 + 3);
    v28 = (unsigned char *)((uintptr_t)v12 + 4);
    v29 = (unsigned char *)((uintptr_t)v12 + 5);
    v30 = 0ULL;
    v31 = 0ULL;
L2:;
    nd_memset(v4.b, 0, 120);
    if (v15 < v31) goto L4;
    nd_ndef_c_run_first_run(v4.b, ((unsigned char *)((uintptr_t)v13 + (uintptr_t)v31)), (v15 - v31));
    if (nd_load_8(v4.b) == 1) goto L5;
L4:;
    v78 = 0U;
    v79 = 0ULL;
    v80 = 0ULL;
    goto L13;
L5:;
    v37 = nd_load_64(v21);
    v40 = nd_load_8(v24);
    v45 = v15 - nd_load_64(v25);
    v46 = (unsigned char *)((uintptr_t)v13 + (uintptr_t)(v15 - ((v37 + nd_load_64(v22)) + nd_load_64(v23))));
    if (!(v37 == v19)) goto L12;
    if (v26) { v66 = 0ULL; goto L8; }
    if ((((nd_load_8(v46) != nd_load_8(v17)) | (int)(nd_load_8(((unsigned char *)((uintptr_t)v46 + 1))) != nd_load_8(v27))) | (int)(nd_load_8(((unsigned char *)((uintptr_t)v46 + 2))) != nd_load_8(v28))) | (int)(nd_load_8(((unsigned char *)((uintptr_t)v46 + 3))) != nd_load_8(v29))) goto L12;
    goto L11;
L8:;
    if (!(nd_load_8(((unsigned char *)((uintptr_t)v46 + (uintptr_t)v66))) == nd_load_8(((unsigned char *)((uintptr_t)v17 + (uintptr_t)v66))))) goto L10;
    v72 = v66 + 1ULL;
    if (v72 == v19) { v78 = 1U; v79 = v30; v80 = v31; goto L13; }
    v66 = v72;
    goto L8;
L10:;
    if (v66 < v19) goto L12;
    v78 = 1U;
    v79 = v30;
    v80 = v31;
    goto L13;
L11:;
    v75 = nd_core_cmp_slices_groups_equal(v46, v19, v17);
    if (v75) { v78 = 1U; v79 = v30; v80 = v31; goto L13; }
L12:;
    if ((uint8_t)(v40 & 1)) { v78 = 0U; v79 = 0ULL; v80 = 0ULL; goto L13; }
    v30 = v30 + 1ULL;
    v31 = v45;
    goto L2;
L13:;
    nd_store_64(v1, (v9 + 1ULL));
    nd_store_64((v1 + 8), v11);
    nd_store_64((v1 + 16), v79);
    nd_store_64((v1 + 24), v80);
    nd_store_32((v1 + 32), v78);
    nd_store_32((v1 + 36), 0U);
    return;
}

static void nd_ndef_fields_report_payload_fields(unsigned char *v1, uint8_t v2, unsigned char *v3, uint64_t v4) {
    uint64_t v10, v12, v25, v28;
    uint8_t v11, v19, v20, v21, v22, v23, v24, v26;
    uint32_t v18;
    unsigned char *v27;
    ND_ROOM(384) v5;
    ND_ROOM(136) v6;
    ND_ROOM(56) v7;
    ND_ROOM(192) v8, v9;
    nd_memset(v5.b, 0, 384);
    switch (v2) {
    case 3: { v10 = 0ULL; v11 = 0; goto L4; }
    case 4: goto L1;
    case 5: goto L2;
    case 0: goto L5;
    case 1: goto L5;
    case 2: goto L5;
    case 6: goto L5;
    case 7: goto L5;
    case 8: goto L5;
    case 9: goto L5;
    case 10: goto L5;
    case 11: goto L5;
    case 12: goto L5;
    default: goto L3; }
L1:;
    v10 = 1ULL;
    v11 = 1;
    goto L4;
L2:;
    v10 = 1ULL;
    v11 = 2;
    goto L4;
L3:;
    nd_stop();
L4:;
    v12 = nd_umin_i64(v4, v10);
    v18 = 0U;
    v19 = 1;
    v20 = 16;
    v21 = 0;
    v22 = 0;
    v23 = 0;
    v24 = 0;
    v25 = v12;
    v26 = v11;
    v27 = (unsigned char *)((uintptr_t)v3 + (uintptr_t)v12);
    v28 = v4 - v12;
    goto L10;
L5:;
    switch ((uint8_t)(((uint8_t)(v2 + 255) < 6) ? v2 : 0)) {
    case 1: goto L8;
    case 2: { v18 = 0U; v19 = 3; v20 = 0; v21 = 6; v22 = 5; v23 = 1; v24 = 6; v25 = v4; v26 = 0; v27 = (unsigned char *)nd_data_static_50; v28 = 0ULL; goto L10; }
    case 5: goto L9;
    case 4: goto L9;
    case 3: goto L9;
    case 0: goto L9;
    case 6: goto L6;
    default: goto L7; }
L6:;
    v18 = 1U;
    v19 = 3;
    v20 = 0;
    v21 = 27;
    v22 = 7;
    v23 = 0;
    v24 = 6;
    v25 = v4;
    v26 = 0;
    v27 = (unsigned char *)nd_data_static_50;
    v28 = 0ULL;
    goto L10;
L7:;
    nd_stop();
L8:;
    v18 = 0U;
    v19 = 3;
    v20 = 0;
    v21 = 6;
    v22 = 4;
    v23 = 0;
    v24 = 6;
    v25 = v4;
    v26 = 0;
    v27 = (unsigned char *)nd_data_static_50;
    v28 = 0ULL;
    goto L10;
L9:;
    v18 = 0U;
    v19 = 3;
    v20 = 0;
    v21 = 6;
    v22 = 1;
    v23 = 0;
    v24 = 6;
    v25 = v4;
    v26 = 0;
    v27 = (unsigned char *)nd_data_static_50;
    v28 = 0ULL;
L10:;
    nd_store_64(v6.b, 6ULL);
    nd_store_8((v6.b + 8), v19);
    nd_store_8((v6.b + 9), v20);
    nd_store_16((v6.b + 10), 0);
    nd_store_32((v6.b + 12), v18);
    nd_store_8((v6.b + 16), v21);
    nd_store_8((v6.b + 17), v22);
    nd_store_8((v6.b + 18), v23);
    nd_store_8((v6.b + 19), v24);
    nd_store_32((v6.b + 20), 0U);
    nd_store_ptr((v6.b + 24), v3);
    nd_store_64((v6.b + 32), v25);
    nd_memset((v6.b + 40), 0, 96);
    nd_store_8(v7.b, v19);
    nd_store_8((v7.b + 1), v20);
    nd_store_16((v7.b + 2), 0);
    nd_store_32((v7.b + 4), v18);
    nd_store_8((v7.b + 8), v21);
    nd_store_8((v7.b + 9), v22);
    nd_store_8((v7.b + 10), v23);
    nd_store_8((v7.b + 11), v24);
    nd_store_32((v7.b + 12), 0U);
    nd_store_ptr((v7.b + 16), v3);
    nd_store_64((v7.b + 24), v25);
    nd_store_8((v7.b + 32), v26);
    nd_memset((v7.b + 33), 0, 7);
    nd_store_ptr((v7.b + 40), v27);
    nd_store_64((v7.b + 48), v28);
    nd_ndef_fields_begun_begin_with(v5.b, 0ULL, v4, v6.b, v7.b);
    nd_memcpy(v8.b, v5.b, 192);
    nd_memcpy(v9.b, (v5.b + 192), 192);
    nd_memset(v1, 0, 16);
    nd_store_64((v1 + 16), 6ULL);
    nd_memset((v1 + 24), 0, 16);
    nd_store_ptr((v1 + 40), (unsigned char *)nd_data_static_50);
    nd_memset((v1 + 48), 0, 112);
    nd_store_ptr((v1 + 160), (unsigned char *)nd_data_static_50);
    nd_store_64((v1 + 168), 0ULL);
    nd_store_ptr((v1 + 176), (unsigned char *)nd_data_static_50);
    nd_store_64((v1 + 184), 0ULL);
    nd_memcpy((v1 + 192), v8.b, 192);
    nd_memcpy((v1 + 384), v9.b, 192);
    return;
}

static void nd_ndef_default_limits(unsigned char *v1) {
    nd_store_32(v1, 1048576U);
    nd_store_32((v1 + 4), 1024U);
    nd_store_32((v1 + 8), 4096U);
    nd_store_32((v1 + 12), 0U);
    return;
}

static uint32_t nd_ndef_field_name(uint32_t v1, unsigned char *v2, uint64_t v3, unsigned char *v4) {
    unsigned char *v7, *v15;
    uint32_t v8, v27;
    uint64_t v13, v21, v25;
    v7 = (unsigned char *)((uintptr_t)v2 + (uintptr_t)((v2 == (unsigned char *)0) ? 4096ULL : 0ULL));
    v8 = v1 + 4294967295U;
    if (!(v8 < 31U)) { v27 = 3U; goto L5; }
    v13 = nd_load_64(((unsigned char *)nd_data_switch_table_ndef_field_name + (ptrdiff_t)(uint64_t)v8 * 8));
    v15 = nd_load_ptr(((unsigned char *)&nd_data_switch_table_ndef_field_name_14 + (ptrdiff_t)(uint64_t)v8 * 8));
    nd_store_64(v4, v13);
    if (v3 < v13) { v27 = 2U; goto L5; }
    if (((uint64_t)(uintptr_t)v7 - (uint64_t)(uintptr_t)v15) < v13) { v21 = 0ULL; goto L4; }
    nd_move(v7, v15, v13);
    v27 = 0U;
    goto L5;
L4:;
    nd_store_8((v7 + (ptrdiff_t)v21), nd_load_8((v15 + (ptrdiff_t)v21)));
    v25 = v21 + 1ULL;
    if (v25 == v13) { v27 = 0U; goto L5; }
    v21 = v25;
    goto L4;
L5:;
    return v27;
}

static uint32_t nd_ndef_field_warning(uint32_t v1, unsigned char *v2, uint64_t v3, unsigned char *v4, uint64_t v5, unsigned char *v6) {
    unsigned char *v10, *v13;
    uint32_t v14, v79, v80;
    uint64_t v18, v20;
    uint8_t v22, v38, v39, v40, v43, v44, v49, v51, v57, v59, v64, v65, v71, v74, v75, v76;
    ND_ROOM(3) v7;
    v10 = (unsigned char *)((uintptr_t)v2 + (uintptr_t)((v2 == (unsigned char *)0) ? 4096ULL : 0ULL));
    v13 = (unsigned char *)((uintptr_t)v4 + (uintptr_t)((v4 == (unsigned char *)0) ? 4096ULL : 0ULL));
    v14 = v1 + 4294967295U;
    if (!(v14 < 31U)) { v80 = 3U; goto L24; }
    switch ((uint8_t)v14) {
    case 12: goto L2;
    case 2: goto L5;
    case 11: goto L10;
    case 13: goto L12;
    case 25: goto L14;
    case 27: goto L16;
    case 18: goto L18;
    case 3: goto L20;
    case 0: { v74 = 0; v75 = 0; v76 = 0; goto L23; }
    case 1: { v74 = 0; v75 = 0; v76 = 0; goto L23; }
    case 4: { v74 = 0; v75 = 0; v76 = 0; goto L23; }
    case 5: { v74 = 0; v75 = 0; v76 = 0; goto L23; }
    case 6: { v74 = 0; v75 = 0; v76 = 0; goto L23; }
    case 7: { v74 = 0; v75 = 0; v76 = 0; goto L23; }
    case 8: { v74 = 0; v75 = 0; v76 = 0; goto L23; }
    case 9: { v74 = 0; v75 = 0; v76 = 0; goto L23; }
    case 10: { v74 = 0; v75 = 0; v76 = 0; goto L23; }
    case 14: { v74 = 0; v75 = 0; v76 = 0; goto L23; }
    case 15: { v74 = 0; v75 = 0; v76 = 0; goto L23; }
    case 16: { v74 = 0; v75 = 0; v76 = 0; goto L23; }
    case 17: { v74 = 0; v75 = 0; v76 = 0; goto L23; }
    case 19: { v74 = 0; v75 = 0; v76 = 0; goto L23; }
    case 20: { v74 = 0; v75 = 0; v76 = 0; goto L23; }
    case 21: { v74 = 0; v75 = 0; v76 = 0; goto L23; }
    case 22: { v74 = 0; v75 = 0; v76 = 0; goto L23; }
    case 23: { v74 = 0; v75 = 0; v76 = 0; goto L23; }
    case 24: { v74 = 0; v75 = 0; v76 = 0; goto L23; }
    case 26: { v74 = 0; v75 = 0; v76 = 0; goto L23; }
    case 28: { v74 = 0; v75 = 0; v76 = 0; goto L23; }
    case 29: { v74 = 0; v75 = 0; v76 = 0; goto L23; }
    case 30: { v74 = 0; v75 = 0; v76 = 0; goto L23; }
    default: goto L22; }
L2:;
    if (v3 == 0ULL) { v74 = 0; v75 = 0; v76 = 0; goto L23; }
    v20 = 0ULL;
    goto L4;
L3:;
    v18 = v20 + 1ULL;
    if (v18 == v3) { v74 = 0; v75 = 0; v76 = 0; goto L23; }
    v20 = v18;
L4:;
    v22 = nd_load_8(((unsigned char *)((uintptr_t)v10 + (uintptr_t)v20)));
    if ((v22 < 32) | (int)(v22 == 127)) { v74 = 1; v75 = 0; v76 = 0; goto L23; }
    goto L3;
L5:;
    if (!(v3 == 4ULL)) { v74 = 0; v75 = 0; v76 = 0; goto L23; }
    if (!(nd_load_8(v10) == 0)) { v74 = 0; v75 = 0; v76 = 0; goto L23; }
    if (!(nd_load_8((v10 + 1)) == 0)) { v74 = 0; v75 = 0; v76 = 0; goto L23; }
    if (!(nd_load_8((v10 + 2)) == 0)) { v74 = 0; v75 = 0; v76 = 0; goto L23; }
    v74 = 1;
    v75 = 6;
    v76 = nd_load_8(((unsigned char *)((uintptr_t)v10 + 3)));
    goto L23;
L10:;
    if (!(v3 == 1ULL)) { v74 = 0; v75 = 0; v76 = 0; goto L23; }
    v38 = nd_load_8(v10);
    v39 = v38 > 35;
    v40 = (uint8_t)v39;
    v74 = v40;
    v75 = v40;
    v76 = (uint8_t)(v39 ? v38 : 0);
    goto L23;
L12:;
    if (!(v3 == 1ULL)) { v74 = 0; v75 = 0; v76 = 0; goto L23; }
    v43 = nd_load_8(v10);
    v44 = v43 > 2;
    v74 = (uint8_t)v44;
    v75 = (uint8_t)(v44 ? 2 : 0);
    v76 = (uint8_t)(v44 ? v43 : 0);
    goto L23;
L14:;
    if (!(v3 == 1ULL)) { v74 = 0; v75 = 0; v76 = 0; goto L23; }
    v49 = nd_load_8(v10);
    v51 = (uint8_t)(v49 + 252) < 253;
    v74 = (uint8_t)v51;
    v75 = (uint8_t)(v51 ? 3 : 0);
    v76 = (uint8_t)(v51 ? v49 : 0);
    goto L23;
L16:;
    if (!(v3 == 1ULL)) { v74 = 0; v75 = 0; v76 = 0; goto L23; }
    v57 = (uint8_t)(nd_load_8(v10) & 7);
    v59 = (uint8_t)(v57 + 251) < 252;
    v74 = (uint8_t)v59;
    v75 = (uint8_t)(v59 ? 4 : 0);
    v76 = (uint8_t)(v59 ? v57 : 0);
    goto L23;
L18:;
    if (!(v3 == 1ULL)) { v74 = 0; v75 = 0; v76 = 0; goto L23; }
    v64 = nd_load_8(v10);
    v65 = v64 > 3;
    v74 = (uint8_t)v65;
    v75 = (uint8_t)(v65 ? 5 : 0);
    v76 = (uint8_t)(v65 ? v64 : 0);
    goto L23;
L20:;
    if (!(v3 == 1ULL)) { v74 = 0; v75 = 0; v76 = 0; goto L23; }
    v71 = nd_load_8(v10) == 0;
    v74 = (uint8_t)v71;
    v75 = (uint8_t)(v71 ? 7 : 0);
    v76 = 0;
    goto L23;
L22:;
    nd_stop();
L23:;
    nd_store_8(v7.b, v74);
    nd_store_8((v7.b + 1), v75);
    nd_store_8((v7.b + 2), v76);
    v79 = nd_ndef_c_warnings_give_remark(v7.b, v13, v5, v6);
    v80 = v79;
L24:;
    return v80;
}

static uint32_t nd_ndef_uri_prefix(uint32_t v1, unsigned char *v2, uint64_t v3, unsigned char *v4) {
    unsigned char *v7, *v17, *v24;
    uint8_t v10;
    uint64_t v14, v23, v25, v29;
    uint32_t v31;
    v7 = (unsigned char *)((uintptr_t)v2 + (uintptr_t)((v2 == (unsigned char *)0) ? 4096ULL : 0ULL));
    if (v1 > 255U) { v31 = 3U; goto L7; }
    v10 = (uint8_t)((uint8_t)v1 + 255);
    if (v10 < 35) goto L3;
    nd_store_64(v4, 0ULL);
    v23 = 0ULL;
    v24 = (unsigned char *)nd_data_static_50;
    goto L5;
L3:;
    v14 = nd_load_64(((unsigned char *)nd_data_switch_table_ndef_uri + (ptrdiff_t)(uint64_t)v10 * 8));
    v17 = nd_load_ptr(((unsigned char *)&nd_data_switch_table_ndef_uri_18 + (ptrdiff_t)(uint64_t)v10 * 8));
    nd_store_64(v4, v14);
    if (v3 < v14) { v31 = 2U; goto L7; }
    if (((uint64_t)(uintptr_t)v7 - (uint64_t)(uintptr_t)v17) < v14) { v25 = 0ULL; goto L6; }
    v23 = v14;
    v24 = v17;
L5:;
    nd_move(v7, v24, v23);
    v31 = 0U;
    goto L7;
L6:;
    nd_store_8((v7 + (ptrdiff_t)v25), nd_load_8((v17 + (ptrdiff_t)v25)));
    v29 = v25 + 1ULL;
    if (v29 == v14) { v31 = 0U; goto L7; }
    v25 = v29;
    goto L6;
L7:;
    return v31;
}

static uint32_t nd_ndef_version(void) {
    return 65536U;
}

static uint32_t nd_ndef_write_action(uint32_t v1, unsigned char *v2, uint64_t v3, unsigned char *v4) {
    unsigned char *v7;
    uint32_t v11;
    v7 = (unsigned char *)((uintptr_t)v2 + (uintptr_t)((v2 == (unsigned char *)0) ? 4096ULL : 0ULL));
    if (v1 > 255U) { v11 = 3U; goto L3; }
    goto L2;
L1:;
    nd_store_8(v7, (uint8_t)v1);
    v11 = 0U;
    goto L3;
L2:;
    nd_store_64(v4, 1ULL);
    if (v3 == 0ULL) { v11 = 2U; goto L3; }
    goto L1;
L3:;
    return v11;
}

static uint32_t nd_ndef_write_collision(uint32_t v1, unsigned char *v2, uint64_t v3, unsigned char *v4) {
    unsigned char *v7;
    uint16_t v11;
    uint32_t v12;
    v7 = (unsigned char *)((uintptr_t)v2 + (uintptr_t)((v2 == (unsigned char *)0) ? 4096ULL : 0ULL));
    if (v1 > 65535U) { v12 = 3U; goto L3; }
    nd_store_64(v4, 2ULL);
    if (v3 < 2ULL) { v12 = 2U; goto L3; }
    v11 = nd_bswap_i16((uint16_t)v1);
    nd_store_16(v7, v11);
    v12 = 0U;
L3:;
    return v12;
}

static uint32_t nd_ndef_write_size(uint32_t v1, unsigned char *v2, uint64_t v3, unsigned char *v4) {
    uint32_t v6, v10;
    nd_store_64(v4, 4ULL);
    if (v3 < 4ULL) { v10 = 2U; goto L2; }
    v6 = nd_bswap_i32(v1);
    nd_store_32(((unsigned char *)((uintptr_t)v2 + (uintptr_t)((v2 == (unsigned char *)0) ? 4096ULL : 0ULL))), v6);
    v10 = 0U;
L2:;
    return v10;
}

static uint32_t nd_ndef_begin(unsigned char *v1, unsigned char *v2) {
    unsigned char *v5;
    uint32_t v6, v8, v10, v12, v25, v26, v27, v72;
    uint8_t v21, v23, v24, v28, v29, v30, v31;
    uint64_t v32, v33;
    ND_ROOM(3) v3;
    ND_ROOM(368) v4;
    nd_memset(v3.b, 0, 3);
    nd_memset(v4.b, 0, 368);
    v5 = (unsigned char *)((uintptr_t)v1 + 12);
    v6 = nd_load_32(v5);
    if (v6 > 3U) { v25 = 0U; v26 = 0U; v27 = 0U; v28 = 0; v29 = 0; v30 = 0; v31 = 0; v32 = 0ULL; v33 = 0ULL; goto L4; }
    v8 = nd_load_32(v1);
    v10 = nd_load_32(((unsigned char *)((uintptr_t)v1 + 4)));
    v12 = nd_load_32(((unsigned char *)((uintptr_t)v1 + 8)));
    if (!(((v8 != 0U) & (int)((v10 + 4294967295U) < 65535U)) & (int)((v12 + 4294967295U) < 65535U))) { v25 = 0U; v26 = 0U; v27 = 0U; v28 = 0; v29 = 0; v30 = 0; v31 = 0; v32 = 0ULL; v33 = 0ULL; goto L4; }
    v21 = (uint8_t)((uint8_t)v6 & 1);
    v23 = v12 == 1U;
    v24 = v10 == 1U;
    if (v6 < 2U) { v25 = v8; v26 = v10; v27 = v12; v28 = v21; v29 = 1; v30 = v23; v31 = v24; v32 = 1099511627776ULL; v33 = 1ULL; goto L4; }
    nd_memset(v4.b, 0, 272);
    v25 = v8;
    v26 = v10;
    v27 = v12;
    v28 = v21;
    v29 = 1;
    v30 = v23;
    v31 = v24;
    v32 = 0ULL;
    v33 = 2ULL;
L4:;
    nd_store_64(v2, v33);
    nd_store_32(((unsigned char *)((uintptr_t)v2 + 8)), v25);
    nd_store_32(((unsigned char *)((uintptr_t)v2 + 12)), v26);
    nd_store_32(((unsigned char *)((uintptr_t)v2 + 16)), v27);
    nd_store_8(((unsigned char *)((uintptr_t)v2 + 20)), v28);
    nd_memset(((unsigned char *)((uintptr_t)v2 + 21)), 0, 3);
    nd_store_8(((unsigned char *)((uintptr_t)v2 + 24)), v29);
    nd_store_8(((unsigned char *)((uintptr_t)v2 + 25)), 0);
    nd_store_16(((unsigned char *)((uintptr_t)v2 + 26)), 0);
    nd_store_32(((unsigned char *)((uintptr_t)v2 + 28)), v26);
    nd_store_32(((unsigned char *)((uintptr_t)v2 + 32)), v27);
    nd_store_32(((unsigned char *)((uintptr_t)v2 + 36)), v25);
    nd_store_8(((unsigned char *)((uintptr_t)v2 + 40)), v28);
    nd_store_8(((unsigned char *)((uintptr_t)v2 + 41)), v29);
    nd_store_8(((unsigned char *)((uintptr_t)v2 + 42)), 0);
    nd_store_8(((unsigned char *)((uintptr_t)v2 + 43)), (uint8_t)v30);
    nd_store_8(((unsigned char *)((uintptr_t)v2 + 44)), (uint8_t)v31);
    nd_memcpy(((unsigned char *)((uintptr_t)v2 + 45)), v3.b, 3);
    nd_store_32(((unsigned char *)((uintptr_t)v2 + 48)), v25);
    nd_memset(((unsigned char *)((uintptr_t)v2 + 52)), 0, 44);
    nd_store_64(((unsigned char *)((uintptr_t)v2 + 96)), v32);
    nd_memcpy(((unsigned char *)((uintptr_t)v2 + 104)), v4.b, 368);
    if (nd_load_32(v5) > 3U) { v72 = 3U; goto L6; }
    v72 = (((nd_load_32(v1) != 0U) & (int)((nd_load_32(((unsigned char *)((uintptr_t)v1 + 4))) + 4294967295U) < 65535U)) & (int)((nd_load_32(((unsigned char *)((uintptr_t)v1 + 8))) + 4294967295U) < 65535U)) ? 0U : 3U;
L6:;
    return v72;
}

static uint32_t nd_ndef_write_carrier(uint32_t v1, unsigned char *v2, uint64_t v3, unsigned char *v4, uint64_t v5, unsigned char *v6, uint64_t v7, unsigned char *v8) {
    unsigned char *v11, *v14, *v17, *v31, *v42;
    uint64_t v24, v25, v36, v40, v47, v51;
    uint32_t v53;
    v11 = (unsigned char *)((uintptr_t)v2 + (uintptr_t)((v2 == (unsigned char *)0) ? 4096ULL : 0ULL));
    v14 = (unsigned char *)((uintptr_t)v4 + (uintptr_t)((v4 == (unsigned char *)0) ? 4096ULL : 0ULL));
    v17 = (unsigned char *)((uintptr_t)v6 + (uintptr_t)((v6 == (unsigned char *)0) ? 4096ULL : 0ULL));
    if (!(((v1 < 8U) & (int)(v3 < 256ULL)) & (int)(v5 <= (4294967293ULL - v3)))) { v53 = 3U; goto L8; }
    v24 = v3 + 2ULL;
    v25 = nd_uadd_sat_i64(v5, v24);
    nd_store_64(v8, v25);
    if (v7 < v25) { v53 = 2U; goto L8; }
    nd_store_16(v17, (uint16_t)((uint16_t)((uint32_t)(uint16_t)v3 << 8) | (uint16_t)v1));
    v31 = (unsigned char *)((uintptr_t)v17 + 2);
    if (((uint64_t)(uintptr_t)v31 - (uint64_t)(uintptr_t)v11) < v3) { v36 = 0ULL; goto L4; }
    nd_move(v31, v11, v3);
    goto L5;
L4:;
    nd_store_8((v31 + (ptrdiff_t)v36), nd_load_8((v11 + (ptrdiff_t)v36)));
    v40 = v36 + 1ULL;
    if (!(v40 == v3)) { v36 = v40; goto L4; }
L5:;
    v42 = (unsigned char *)((uintptr_t)v17 + (uintptr_t)v24);
    if (((uint64_t)(uintptr_t)v42 - (uint64_t)(uintptr_t)v14) < v5) { v47 = 0ULL; goto L7; }
    nd_move(v42, v14, v5);
    v53 = 0U;
    goto L8;
L7:;
    nd_store_8((v42 + (ptrdiff_t)v47), nd_load_8((v14 + (ptrdiff_t)v47)));
    v51 = v47 + 1ULL;
    if (v51 == v5) { v53 = 0U; goto L8; }
    v47 = v51;
    goto L7;
L8:;
    return v53;
}

static uint32_t nd_ndef_write_error(uint32_t v1, unsigned char *v2, uint64_t v3, unsigned char *v4, uint64_t v5, unsigned char *v6) {
    unsigned char *v9, *v12, *v20;
    uint8_t v14;
    uint64_t v25, v29;
    uint32_t v31;
    v9 = (unsigned char *)((uintptr_t)v2 + (uintptr_t)((v2 == (unsigned char *)0) ? 4096ULL : 0ULL));
    v12 = (unsigned char *)((uintptr_t)v4 + (uintptr_t)((v4 == (unsigned char *)0) ? 4096ULL : 0ULL));
    if (!(v1 < 256U)) { v31 = 3U; goto L9; }
    v14 = (uint8_t)v1;
    switch (v14) {
    case 1: goto L2;
    case 3: goto L2;
    case 2: goto L3;
    default: goto L4; }
L2:;
    if (v3 == 1ULL) goto L5;
    v31 = 3U;
    goto L9;
L3:;
    if (v3 == 4ULL) goto L5;
    v31 = 3U;
    goto L9;
L4:;
    if (!(v3 < 4294967295ULL)) { v31 = 3U; goto L9; }
L5:;
    nd_store_64(v6, (v3 + 1ULL));
    if (!(v5 > v3)) { v31 = 2U; goto L9; }
    nd_store_8(v12, v14);
    v20 = (unsigned char *)((uintptr_t)v12 + 1);
    if (((uint64_t)(uintptr_t)v20 - (uint64_t)(uintptr_t)v9) < v3) { v25 = 0ULL; goto L8; }
    nd_move(v20, v9, v3);
    v31 = 0U;
    goto L9;
L8:;
    nd_store_8((v20 + (ptrdiff_t)v25), nd_load_8((v9 + (ptrdiff_t)v25)));
    v29 = v25 + 1ULL;
    if (v29 == v3) { v31 = 0U; goto L9; }
    v25 = v29;
    goto L8;
L9:;
    return v31;
}

static uint32_t nd_ndef_write_error_number(uint32_t v1, uint32_t v2, unsigned char *v3, uint64_t v4, unsigned char *v5) {
    unsigned char *v8;
    uint32_t v16, v18;
    v8 = (unsigned char *)((uintptr_t)v3 + (uintptr_t)((v3 == (unsigned char *)0) ? 4096ULL : 0ULL));
    switch (v1) {
    case 1U: goto L1;
    case 3U: goto L1;
    case 2U: goto L4;
    default: { v18 = 3U; goto L6; } }
L1:;
    if (!(v2 < 256U)) { v18 = 3U; goto L6; }
    nd_store_64(v5, 2ULL);
    if (v4 < 2ULL) { v18 = 2U; goto L6; }
    nd_store_16(v8, (uint16_t)((uint16_t)((uint32_t)(uint16_t)v2 << 8) | (uint16_t)v1));
    v18 = 0U;
    goto L6;
L4:;
    nd_store_64(v5, 5ULL);
    if (v4 < 5ULL) { v18 = 2U; goto L6; }
    v16 = nd_bswap_i32(v2);
    nd_store_8(v8, 2);
    nd_store_32(((unsigned char *)((uintptr_t)v8 + 1)), v16);
    v18 = 0U;
L6:;
    return v18;
}

static uint32_t nd_ndef_write_handover(uint32_t v1, uint32_t v2, uint32_t v3, unsigned char *v4, uint64_t v5, unsigned char *v6, uint64_t v7, unsigned char *v8) {
    unsigned char *v13, *v16, *v39;
    uint64_t v17, v35, v44, v48;
    uint8_t v24, v34;
    uint32_t v50;
    ND_ROOM(48) v9;
    ND_ROOM(88) v10;
    v13 = (unsigned char *)((uintptr_t)v4 + (uintptr_t)((v4 == (unsigned char *)0) ? 4096ULL : 0ULL));
    v16 = (unsigned char *)((uintptr_t)v6 + (uintptr_t)((v6 == (unsigned char *)0) ? 4096ULL : 0ULL));
    switch (v1) {
    case 0U: { v17 = 281470681940224ULL; goto L2; }
    case 1U: goto L1;
    default: { v50 = 3U; goto L10; } }
L1:;
    v17 = 281470681743872ULL;
L2:;
    if (((v3 | v2) > 15U) | (int)(v5 > 4294967294ULL)) { v50 = 3U; goto L10; }
    v24 = (uint8_t)((v2 << 4) | v3);
    nd_store_64(v10.b, v17);
    nd_store_8((v10.b + 8), 0);
    nd_store_8((v10.b + 9), 1);
    nd_store_8((v10.b + 10), 0);
    nd_store_8((v10.b + 11), 1);
    nd_store_32((v10.b + 12), 0U);
    nd_store_32((v10.b + 16), 4294967295U);
    nd_memset((v10.b + 20), 0, 60);
    nd_store_8((v10.b + 80), 23);
    nd_memset((v10.b + 81), 0, 7);
    nd_ndef_nest_nest_Nest_stepped(v9.b, v10.b, v24);
    v34 = nd_ndef_nest_nest_NestLanguage_fits(v10.b, v5, v5);
    if (v34) goto L5;
    v50 = 3U;
    goto L10;
L5:;
    v35 = nd_ndef_nest_nest_NestLanguage_step_all(v10.b, v13, v5, v5, v5);
    if (!(v35 == v5)) { v50 = 3U; goto L10; }
    nd_store_64(v8, (v5 + 1ULL));
    if (!(v7 > v5)) { v50 = 2U; goto L10; }
    nd_store_8(v16, v24);
    v39 = (unsigned char *)((uintptr_t)v16 + 1);
    if (((uint64_t)(uintptr_t)v39 - (uint64_t)(uintptr_t)v13) < v5) { v44 = 0ULL; goto L9; }
    nd_move(v39, v13, v5);
    v50 = 0U;
    goto L10;
L9:;
    nd_store_8((v39 + (ptrdiff_t)v44), nd_load_8((v13 + (ptrdiff_t)v44)));
    v48 = v44 + 1ULL;
    if (v48 == v5) { v50 = 0U; goto L10; }
    v44 = v48;
    goto L9;
L10:;
    return v50;
}

static uint32_t nd_ndef_normalize(unsigned char *v1, uint64_t v2, uint32_t v3, unsigned char *v4, uint64_t v5, unsigned char *v6) {
    unsigned char *v17, *v20, *v21, *v22, *v24, *v25, *v39, *v40, *v41, *v42, *v43, *v44, *v45, *v46, *v47, *v48, *v49, *v50, *v53, *v61, *v94, *v95, *v96, *v97, *v98, *v99, *v100, *v101, *v102, *v103, *v104, *v105, *v106, *v107, *v108, *v109, *v110, *v111, *v112, *v116, *v120, *v122, *v126, *v159, *v168, *v181, *v197, *v200;
    uint8_t v23, v27, v33, v60, v114, v125, v128, v145, v146, v147;
    uint64_t v26, v51, v52, v57, v58, v59, v62, v81, v82, v83, v86, v88, v91, v113, v115, v121, v123, v124, v127, v160, v162, v163, v166, v173, v177, v179, v186, v190, v194, v196, v198, v205, v209, v213;
    uint32_t v158, v215;
    ND_ROOM(120) v7, v13, v14;
    ND_ROOM(32) v8, v10;
    ND_ROOM(24) v9, v11;
    ND_ROOM(7) v12;
    v17 = (unsigned char *)((uintptr_t)v1 + (uintptr_t)((v1 == (unsigned char *)0) ? 4096ULL : 0ULL));
    v20 = (unsigned char *)((uintptr_t)v4 + (uintptr_t)((v4 == (unsigned char *)0) ? 4096ULL : 0ULL));
    v21 = v12.b + 3;
    v22 = v12.b + 6;
    switch (v3) {
    case 0U: { v23 = 1; goto L2; }
    case 4U: goto L1;
    default: { v215 = 3U; goto L52; } }
L1:;
    v23 = 0;
L2:;
    v24 = v7.b + 96;
    v25 = v7.b + 112;
    v26 = 0ULL;
    v27 = 0;
L3:;
    if (v27) { v215 = 3U; goto L52; }
    nd_memset(v7.b, 0, 120);
    if (v2 < v26) goto L6;
    nd_ndef_c_run_first_run(v7.b, ((unsigned char *)((uintptr_t)v17 + (uintptr_t)v26)), (v2 - v26));
    if (nd_load_8(v7.b) == 1) goto L7;
L6:;
    v215 = 3U;
    goto L52;
L7:;
    v33 = nd_load_8(v24);
    if ((uint8_t)(v33 & 1) == 0) { v26 = v2 - nd_load_64(v25); v27 = (uint8_t)(v33 & 1); goto L3; }
    nd_memset(v14.b, 0, 120);
    v39 = v14.b + 8;
    v40 = v14.b + 24;
    v41 = v14.b + 40;
    v42 = v14.b + 80;
    v43 = v14.b + 96;
    v44 = v14.b + 104;
    v45 = v14.b + 112;
    v46 = v8.b + 8;
    v47 = v8.b + 16;
    v48 = v8.b + 24;
    v49 = v8.b + 25;
    v50 = v9.b + 16;
    v51 = 0ULL;
    v52 = v2;
    v53 = v17;
L9:;
    nd_ndef_c_run_first_run(v14.b, v53, v52);
    if (!(nd_load_8(v14.b) == 1)) goto L15;
    v57 = nd_load_64(v40);
    v58 = nd_load_64(v41);
    v59 = nd_load_64(v42);
    v60 = nd_load_8(v43);
    v61 = nd_load_ptr(v44);
    v62 = nd_load_64(v45);
    switch ((uint8_t)(nd_load_8(v39) & 7)) {
    case 0: goto L11;
    case 1: goto L13;
    case 2: goto L13;
    case 3: goto L13;
    case 4: goto L13;
    case 6: goto L19;
    default: goto L12; }
L11:;
    if ((v57 < 256ULL) & (int)(((v58 | v57) | v59) == 0ULL)) goto L14;
    goto L19;
L12:;
    if (v57 == 0ULL) goto L14;
    goto L19;
L13:;
    if (!((v57 + 18446744073709551615ULL) < 255ULL)) goto L19;
L14:;
    if ((v58 < 256ULL) & (int)(v59 < 4294967296ULL)) goto L16;
    goto L19;
L15:;
    nd_stop();
L16:;
    v81 = nd_uadd_sat_i64((((v23 & (int)(v59 < 256ULL)) ? 3ULL : 6ULL) + (uint64_t)(v58 != 0ULL)), v51);
    v82 = nd_uadd_sat_i64(v57, v81);
    v83 = nd_uadd_sat_i64(v58, v82);
    nd_memset(v49, 0, 7);
    nd_store_ptr(v8.b, v53);
    nd_store_64(v46, v52);
    nd_store_64(v47, 0ULL);
    nd_store_8(v48, 1);
    nd_ndef_c_chunks_PiecesIterator_next(v9.b, v8.b);
    if (nd_load_8(v9.b) == 1) { v86 = v83; goto L17; }
    v91 = v83;
    goto L18;
L17:;
    v88 = nd_uadd_sat_i64(nd_load_64(v50), v86);
    nd_ndef_c_chunks_PiecesIterator_next(v9.b, v8.b);
    if (nd_load_8(v9.b) == 1) { v86 = v88; goto L17; }
    v91 = v88;
L18:;
    if ((uint8_t)(v60 & 1)) goto L20;
    v51 = v91;
    v52 = v62;
    v53 = v61;
    goto L9;
L19:;
    v215 = 3U;
    goto L52;
L20:;
    nd_store_64(v6, v91);
    if (v5 < v91) { v215 = 2U; goto L52; }
    nd_memset(v13.b, 0, 120);
    v94 = v13.b + 8;
    v95 = v13.b + 16;
    v96 = v13.b + 24;
    v97 = v13.b + 32;
    v98 = v13.b + 40;
    v99 = v13.b + 80;
    v100 = v13.b + 96;
    v101 = v13.b + 104;
    v102 = v13.b + 112;
    v103 = v10.b + 8;
    v104 = v10.b + 16;
    v105 = v10.b + 24;
    v106 = v10.b + 25;
    v107 = v11.b + 8;
    v108 = v11.b + 16;
    v109 = v12.b + 2;
    v110 = v12.b + 1;
    v111 = v12.b + 2;
    v112 = v12.b + 2;
    v113 = 0ULL;
    v114 = 128;
    v115 = v2;
    v116 = v17;
L22:;
    nd_ndef_c_run_first_run(v13.b, v116, v115);
    if (!(nd_load_8(v13.b) == 1)) goto L28;
    v120 = nd_load_ptr(v95);
    v121 = nd_load_64(v96);
    v122 = nd_load_ptr(v97);
    v123 = nd_load_64(v98);
    v124 = nd_load_64(v99);
    v125 = nd_load_8(v100);
    v126 = nd_load_ptr(v101);
    v127 = nd_load_64(v102);
    v128 = (uint8_t)(nd_load_8(v94) & 7);
    switch (v128) {
    case 0: goto L24;
    case 1: goto L26;
    case 2: goto L26;
    case 3: goto L26;
    case 4: goto L26;
    case 6: goto L51;
    default: goto L25; }
L24:;
    if ((v121 < 256ULL) & (int)(((v123 | v121) | v124) == 0ULL)) goto L27;
    goto L51;
L25:;
    if (v121 == 0ULL) goto L27;
    goto L51;
L26:;
    if (!((v121 + 18446744073709551615ULL) < 255ULL)) goto L51;
L27:;
    if ((v123 < 256ULL) & (int)(v124 < 4294967296ULL)) goto L29;
    goto L51;
L28:;
    nd_stop();
L29:;
    v145 = v23 & (int)(v124 < 256ULL);
    v146 = v123 == 0ULL;
    v147 = (uint8_t)v123;
    nd_memset(v109, 0, 5);
    nd_store_8(v12.b, (uint8_t)((uint8_t)((uint8_t)((uint8_t)((uint8_t)((uint32_t)v125 << 6) | v114) | (uint8_t)(v145 ? 16 : 0)) | (uint8_t)(361982334838374656ULL >> ((uint64_t)(uint8_t)((uint32_t)v128 << 3) & 63))) | (uint8_t)(v146 ? 0 : 8)));
    nd_store_8(v110, (uint8_t)v121);
    if (!v145) goto L31;
    nd_store_8(v112, (uint8_t)v124);
    v159 = v21;
    v160 = 3ULL;
    goto L32;
L31:;
    v158 = nd_bswap_i32((uint32_t)v124);
    nd_store_32(v111, v158);
    v159 = v22;
    v160 = 6ULL;
L32:;
    if (v146) { v162 = v160; goto L34; }
    nd_store_8(v159, v147);
    v162 = v160 + 1ULL;
L34:;
    v163 = nd_uadd_sat_i64(v162, v113);
    if (v163 > v5) goto L36;
    nd_copy(((unsigned char *)((uintptr_t)v20 + (uintptr_t)v113)), v12.b, v162);
L36:;
    v166 = nd_uadd_sat_i64(v121, v163);
    if (v166 > v5) goto L40;
    v168 = (unsigned char *)((uintptr_t)v20 + (uintptr_t)v163);
    if (((uint64_t)(uintptr_t)v168 - (uint64_t)(uintptr_t)v120) < v121) { v173 = 0ULL; goto L39; }
    nd_move(v168, v120, v121);
    goto L40;
L39:;
    nd_store_8((v168 + (ptrdiff_t)v173), nd_load_8((v120 + (ptrdiff_t)v173)));
    v177 = v173 + 1ULL;
    if (!(v177 == v121)) { v173 = v177; goto L39; }
L40:;
    v179 = nd_uadd_sat_i64(v123, v166);
    if (v179 > v5) goto L44;
    v181 = (unsigned char *)((uintptr_t)v20 + (uintptr_t)v166);
    if (((uint64_t)(uintptr_t)v181 - (uint64_t)(uintptr_t)v122) < v123) { v186 = 0ULL; goto L43; }
    nd_move(v181, v122, v123);
    goto L44;
L43:;
    nd_store_8((v181 + (ptrdiff_t)v186), nd_load_8((v122 + (ptrdiff_t)v186)));
    v190 = v186 + 1ULL;
    if (!(v190 == v123)) { v186 = v190; goto L43; }
L44:;
    nd_memset(v106, 0, 7);
    nd_store_ptr(v10.b, v116);
    nd_store_64(v103, v115);
    nd_store_64(v104, 0ULL);
    nd_store_8(v105, 1);
    nd_ndef_c_chunks_PiecesIterator_next(v11.b, v10.b);
    if (nd_load_8(v11.b) == 1) { v194 = v179; goto L45; }
    v213 = v179;
    goto L50;
L45:;
    v196 = nd_load_64(v108);
    v197 = (unsigned char *)((uintptr_t)v116 + (uintptr_t)nd_load_64(v107));
    v198 = nd_uadd_sat_i64(v196, v194);
    if (v198 > v5) goto L49;
    v200 = (unsigned char *)((uintptr_t)v20 + (uintptr_t)v194);
    if (((uint64_t)(uintptr_t)v200 - (uint64_t)(uintptr_t)v197) < v196) { v205 = 0ULL; goto L48; }
    nd_move(v200, v197, v196);
    goto L49;
L48:;
    nd_store_8((v200 + (ptrdiff_t)v205), nd_load_8((v197 + (ptrdiff_t)v205)));
    v209 = v205 + 1ULL;
    if (!(v209 == v196)) { v205 = v209; goto L48; }
L49:;
    nd_ndef_c_chunks_PiecesIterator_next(v11.b, v10.b);
    if (nd_load_8(v11.b) == 1) { v194 = v198; goto L45; }
    v213 = v198;
L50:;
    if (!(uint8_t)(v125 & 1)) { v113 = v213; v114 = 0; v115 = v127; v116 = v126; goto L22; }
L51:;
    v215 = 0U;
L52:;
    return v215;
}

static uint32_t nd_ndef_write_alternative(uint32_t v1, unsigned char *v2, uint64_t v3, unsigned char *v4, uint64_t v5, unsigned char *v6, uint64_t v7, unsigned char *v8) {
    unsigned char *v12, *v15, *v18, *v20, *v29;
    uint64_t v21, v25, v27, v31, v33;
    uint32_t v45, v46;
    ND_ROOM(48) v9;
    v12 = (unsigned char *)((uintptr_t)v2 + (uintptr_t)((v2 == (unsigned char *)0) ? 4096ULL : 0ULL));
    v15 = (unsigned char *)((uintptr_t)v4 + (uintptr_t)((v4 == (unsigned char *)0) ? 4096ULL : 0ULL));
    v18 = (unsigned char *)((uintptr_t)v6 + (uintptr_t)((v6 == (unsigned char *)0) ? 4096ULL : 0ULL));
    nd_store_64(v9.b, 3ULL);
    if (v5 == 0ULL) { v46 = 3U; goto L6; }
    v20 = (unsigned char *)((uintptr_t)v15 + 16);
    v21 = v5 + 18446744073709551615ULL;
    if ((v1 > 3U) | (int)(v21 > 255ULL)) { v46 = 3U; goto L6; }
    v27 = 0ULL;
    goto L3;
L2:;
    v25 = v27 + 1ULL;
    if (v25 == v5) goto L5;
    v27 = v25;
L3:;
    v29 = (unsigned char *)((uintptr_t)v15 + (uintptr_t)(v27 << 4));
    v31 = nd_load_64(((unsigned char *)((uintptr_t)v29 + 8)));
    if (!(v31 < 256ULL)) { v46 = 3U; goto L6; }
    v33 = nd_load_64(v29);
    if ((uint8_t)((v33 <= v3) ? (v31 <= (v3 - v33)) : 0)) goto L2;
    v46 = 3U;
    goto L6;
L5:;
    nd_store_8((v9.b + 1), (uint8_t)v1);
    nd_store_ptr((v9.b + 8), v12);
    nd_store_64((v9.b + 16), v3);
    nd_store_ptr((v9.b + 24), v15);
    nd_store_ptr((v9.b + 32), v20);
    nd_store_64((v9.b + 40), v21);
    v45 = nd_ndef_c_content_give_content(v9.b, v18, v7, v8);
    v46 = v45;
L6:;
    return v46;
}

static uint32_t nd_ndef_write_uri(unsigned char *v1, uint64_t v2, unsigned char *v3, uint64_t v4, unsigned char *v5) {
    unsigned char *v12, *v15, *v26;
    uint64_t v25;
    uint32_t v32, v33;
    ND_ROOM(24) v6, v7, v8;
    ND_ROOM(48) v9;
    v12 = (unsigned char *)((uintptr_t)v1 + (uintptr_t)((v1 == (unsigned char *)0) ? 4096ULL : 0ULL));
    v15 = (unsigned char *)((uintptr_t)v3 + (uintptr_t)((v3 == (unsigned char *)0) ? 4096ULL : 0ULL));
    nd_memset(v8.b, 0, 24);
    nd_store_64(v9.b, 2ULL);
    nd_memset(v7.b, 0, 24);
    if (!(v2 < 64ULL)) goto L2;
    nd_core_str_utf8_from_utf8(v7.b, v12, v2);
    if (nd_load_8(v7.b) == 0) { v25 = nd_load_64((v7.b + 16)); v26 = nd_load_ptr((v7.b + 8)); goto L3; }
    v33 = 3U;
    goto L4;
L2:;
    nd_core_str_utf8_from_utf8(v6.b, v12, v2);
    if (nd_load_8(v6.b) == 0) { v25 = v2; v26 = v12; goto L3; }
    v33 = 3U;
    goto L4;
L3:;
    nd_ndef_types_prefixes_split(v8.b, v26, v25);
    nd_store_8((v9.b + 1), nd_load_8(v8.b));
    nd_memcpy((v9.b + 8), (v8.b + 8), 16);
    nd_memset((v9.b + 24), 0, 24);
    v32 = nd_ndef_c_content_give_content(v9.b, v15, v4, v5);
    v33 = v32;
L4:;
    return v33;
}

static uint32_t nd_ndef_reason_name(uint32_t v1, unsigned char *v2, uint64_t v3, unsigned char *v4) {
    unsigned char *v7, *v15;
    uint32_t v8, v27;
    uint64_t v12, v21, v25;
    v7 = (unsigned char *)((uintptr_t)v2 + (uintptr_t)((v2 == (unsigned char *)0) ? 4096ULL : 0ULL));
    v8 = v1 + 4294967295U;
    if (!(v8 < 25U)) { v27 = 3U; goto L5; }
    v12 = nd_load_64(((unsigned char *)nd_data_switch_table_ndef_reason_name + (ptrdiff_t)(uint64_t)v8 * 8));
    v15 = nd_load_ptr(((unsigned char *)&nd_data_switch_table_ndef_reason_name_16 + (ptrdiff_t)(uint64_t)v8 * 8));
    nd_store_64(v4, v12);
    if (v3 < v12) { v27 = 2U; goto L5; }
    if (((uint64_t)(uintptr_t)v7 - (uint64_t)(uintptr_t)v15) < v12) { v21 = 0ULL; goto L4; }
    nd_move(v7, v15, v12);
    v27 = 0U;
    goto L5;
L4:;
    nd_store_8((v7 + (ptrdiff_t)v21), nd_load_8((v15 + (ptrdiff_t)v21)));
    v25 = v21 + 1ULL;
    if (v25 == v12) { v27 = 0U; goto L5; }
    v21 = v25;
    goto L4;
L5:;
    return v27;
}

static uint32_t nd_ndef_reason_sentence(uint32_t v1, unsigned char *v2, uint64_t v3, unsigned char *v4) {
    unsigned char *v7, *v15;
    uint32_t v8, v27;
    uint64_t v12, v21, v25;
    v7 = (unsigned char *)((uintptr_t)v2 + (uintptr_t)((v2 == (unsigned char *)0) ? 4096ULL : 0ULL));
    v8 = v1 + 4294967295U;
    if (!(v8 < 25U)) { v27 = 3U; goto L5; }
    v12 = nd_load_64(((unsigned char *)nd_data_switch_table_ndef_reason_sentence + (ptrdiff_t)(uint64_t)v8 * 8));
    v15 = nd_load_ptr(((unsigned char *)&nd_data_switch_table_ndef_reason_sentence_17 + (ptrdiff_t)(uint64_t)v8 * 8));
    nd_store_64(v4, v12);
    if (v3 < v12) { v27 = 2U; goto L5; }
    if (((uint64_t)(uintptr_t)v7 - (uint64_t)(uintptr_t)v15) < v12) { v21 = 0ULL; goto L4; }
    nd_move(v7, v15, v12);
    v27 = 0U;
    goto L5;
L4:;
    nd_store_8((v7 + (ptrdiff_t)v21), nd_load_8((v15 + (ptrdiff_t)v21)));
    v25 = v21 + 1ULL;
    if (v25 == v12) { v27 = 0U; goto L5; }
    v21 = v25;
    goto L4;
L5:;
    return v27;
}

static uint32_t nd_ndef_payload(unsigned char *v1, uint64_t v2, uint64_t v3, unsigned char *v4, uint64_t v5, unsigned char *v6) {
    unsigned char *v12, *v17, *v30, *v31, *v35, *v38;
    uint64_t v18, v22, v32, v34, v36, v43, v47;
    uint32_t v51;
    ND_ROOM(120) v7;
    ND_ROOM(32) v8;
    ND_ROOM(24) v9;
    v12 = (unsigned char *)((uintptr_t)v4 + (uintptr_t)((v4 == (unsigned char *)0) ? 4096ULL : 0ULL));
    nd_memset(v7.b, 0, 120);
    if (v2 < v3) goto L2;
    v17 = (unsigned char *)((uintptr_t)((unsigned char *)((uintptr_t)v1 + (uintptr_t)((v1 == (unsigned char *)0) ? 4096ULL : 0ULL))) + (uintptr_t)v3);
    v18 = v2 - v3;
    nd_ndef_c_run_first_run(v7.b, v17, v18);
    if (nd_load_8(v7.b) == 1) goto L3;
L2:;
    v51 = 3U;
    goto L12;
L3:;
    v22 = nd_load_64((v7.b + 80));
    nd_store_64(v6, v22);
    if (v5 < v22) { v51 = 2U; goto L12; }
    nd_memset((v8.b + 25), 0, 7);
    nd_store_ptr(v8.b, v17);
    nd_store_64((v8.b + 8), v18);
    nd_store_64((v8.b + 16), 0ULL);
    nd_store_8((v8.b + 24), 1);
    nd_ndef_c_chunks_PiecesIterator_next(v9.b, v8.b);
    if (!(nd_load_8(v9.b) == 1)) goto L11;
    v30 = v9.b + 8;
    v31 = v9.b + 16;
    v32 = 0ULL;
L6:;
    v34 = nd_load_64(v31);
    v35 = (unsigned char *)((uintptr_t)v17 + (uintptr_t)nd_load_64(v30));
    v36 = nd_uadd_sat_i64(v34, v32);
    if (v36 > v5) goto L10;
    v38 = (unsigned char *)((uintptr_t)v12 + (uintptr_t)v32);
    if (((uint64_t)(uintptr_t)v38 - (uint64_t)(uintptr_t)v35) < v34) { v43 = 0ULL; goto L9; }
    nd_move(v38, v35, v34);
    goto L10;
L9:;
    nd_store_8((v38 + (ptrdiff_t)v43), nd_load_8((v35 + (ptrdiff_t)v43)));
    v47 = v43 + 1ULL;
    if (!(v47 == v34)) { v43 = v47; goto L9; }
L10:;
    nd_ndef_c_chunks_PiecesIterator_next(v9.b, v8.b);
    if (nd_load_8(v9.b) == 1) { v32 = v36; goto L6; }
L11:;
    v51 = 0U;
L12:;
    return v51;
}

static uint32_t nd_ndef_record_at(unsigned char *v1, uint64_t v2, uint64_t v3, unsigned char *v4) {
    unsigned char *v8;
    uint64_t v18, v20, v22, v26, v28, v32, v34, v35;
    uint8_t v30, v38;
    uint32_t v55;
    ND_ROOM(120) v5;
    v8 = (unsigned char *)((uintptr_t)v1 + (uintptr_t)((v1 == (unsigned char *)0) ? 4096ULL : 0ULL));
    if (v3 == v2) { v55 = 4U; goto L5; }
    nd_memset(v5.b, 0, 120);
    if (v2 < v3) goto L3;
    nd_ndef_c_run_first_run(v5.b, ((unsigned char *)((uintptr_t)v8 + (uintptr_t)v3)), (v2 - v3));
    if (nd_load_8(v5.b) == 1) goto L4;
L3:;
    v55 = 3U;
    goto L5;
L4:;
    v18 = nd_load_64((v5.b + 24));
    v20 = nd_load_64((v5.b + 40));
    v22 = nd_load_64((v5.b + 56));
    v26 = nd_load_64((v5.b + 80));
    v28 = nd_load_64((v5.b + 88));
    v30 = nd_load_8((v5.b + 96));
    v32 = nd_load_64((v5.b + 112));
    v34 = v2 - (v22 + nd_load_64((v5.b + 72)));
    v35 = v34 - v20;
    v38 = (uint8_t)(nd_load_8((v5.b + 8)) & 7);
    nd_store_64(v4, v3);
    nd_store_64((v4 + 8), (v2 - v32));
    nd_store_64((v4 + 16), (v35 - v18));
    nd_store_64((v4 + 24), v18);
    nd_store_64((v4 + 32), v35);
    nd_store_64((v4 + 40), v20);
    nd_store_64((v4 + 48), v34);
    nd_store_64((v4 + 56), v22);
    nd_store_64((v4 + 64), v26);
    nd_store_64((v4 + 72), v28);
    nd_store_32((v4 + 80), (uint32_t)(uint8_t)((v38 == 7) ? 5 : v38));
    nd_store_32((v4 + 84), (uint32_t)(uint8_t)(v30 & 1));
    v55 = 0U;
L5:;
    return v55;
}

static uint32_t nd_ndef_reference(unsigned char *v1, uint64_t v2, uint64_t v3, unsigned char *v4) {
    unsigned char *v9;
    uint8_t v13;
    uint64_t v19, v25, v26, v28, v29, v34, v35, v37, v42, v43;
    uint32_t v45;
    ND_ROOM(12) v5;
    ND_ROOM(24) v6;
    v9 = (unsigned char *)((uintptr_t)v1 + (uintptr_t)((v1 == (unsigned char *)0) ? 4096ULL : 0ULL));
    nd_memset(v6.b, 0, 24);
    if (!(v2 > 4294967295ULL)) goto L2;
    v45 = 3U;
    goto L11;
L2:;
    nd_memset(v5.b, 0, 12);
    nd_store_32((v5.b + 4), 1U);
    nd_store_8((v5.b + 9), 8);
    v13 = nd_ndef_lang_leaf_Leaf_is_completed_by(v5.b, v9, v2);
    if (!v13) goto L4;
    goto L5;
L4:;
    nd_ndef_lang_place_refusal_of(v6.b, 10, 0, v9, v2);
    if (!(nd_load_8(v6.b) == 0)) { v45 = 3U; goto L11; }
L5:;
    v19 = (uint64_t)nd_load_8((v9 + 1));
    if (v3 == 0ULL) { v42 = 2ULL; v43 = v19; goto L10; }
    if (v3 > (uint64_t)nd_load_8(((v9 + (ptrdiff_t)v19) + 2))) { v45 = 4U; goto L11; }
    v25 = v3 + 18446744073709551615ULL;
    v26 = v19 + 3ULL;
    if (v25 == 0ULL) { v37 = v26; goto L9; }
    v28 = v26;
    v29 = 0ULL;
L8:;
    v34 = (v28 + 1ULL) + (uint64_t)nd_load_8((v9 + (ptrdiff_t)v28));
    v35 = v29 + 1ULL;
    if (v35 == v25) { v37 = v34; goto L9; }
    v28 = v34;
    v29 = v35;
    goto L8;
L9:;
    v42 = v37 + 1ULL;
    v43 = (uint64_t)nd_load_8((v9 + (ptrdiff_t)v37));
L10:;
    nd_store_64(v4, v42);
    nd_store_64((v4 + 8), v43);
    v45 = 0U;
L11:;
    return v45;
}

static uint32_t nd_ndef_alternative(unsigned char *v1, uint64_t v2, unsigned char *v3, unsigned char *v4) {
    unsigned char *v9;
    uint8_t v13, v14, v25;
    uint64_t v30, v33;
    uint32_t v34, v37;
    ND_ROOM(12) v5;
    ND_ROOM(24) v6;
    v9 = (unsigned char *)((uintptr_t)v1 + (uintptr_t)((v1 == (unsigned char *)0) ? 4096ULL : 0ULL));
    nd_memset(v6.b, 0, 24);
    if (!(v2 > 4294967295ULL)) goto L2;
    v33 = 0ULL;
    v34 = 23U;
    goto L33;
L2:;
    nd_memset(v5.b, 0, 12);
    nd_store_32((v5.b + 4), 1U);
    nd_store_8((v5.b + 9), 8);
    v13 = nd_ndef_lang_leaf_Leaf_is_completed_by(v5.b, v9, v2);
    if (!v13) goto L4;
    goto L6;
L4:;
    nd_ndef_lang_place_refusal_of(v6.b, 10, 0, v9, v2);
    v14 = nd_load_8(v6.b);
    if (v14 == 1) goto L7;
    if (!(v14 == 0)) { v33 = 0ULL; v34 = 1U; goto L33; }
L6:;
    v25 = nd_load_8(((unsigned char *)((uintptr_t)((unsigned char *)((uintptr_t)v9 + 2)) + (uintptr_t)(uint64_t)nd_load_8(((unsigned char *)((uintptr_t)v9 + 1))))));
    nd_store_32(v3, (uint32_t)(uint8_t)(nd_load_8(v9) & 3));
    nd_store_32((v3 + 4), ((uint32_t)v25 + 1U));
    v37 = 0U;
    goto L34;
L7:;
    v30 = nd_load_64((v6.b + 8));
    switch (nd_load_8((v6.b + 16))) {
    case 0: { v33 = v30; v34 = 1U; goto L33; }
    case 1: goto L8;
    case 2: goto L9;
    case 3: goto L10;
    case 4: goto L11;
    case 5: goto L12;
    case 6: goto L13;
    case 7: goto L14;
    case 8: goto L15;
    case 9: goto L16;
    case 10: goto L17;
    case 11: goto L18;
    case 12: goto L19;
    case 13: goto L20;
    case 14: goto L21;
    case 15: goto L22;
    case 16: goto L23;
    case 17: goto L24;
    case 18: goto L25;
    case 19: goto L26;
    case 20: goto L27;
    case 21: goto L28;
    case 22: goto L29;
    case 23: goto L30;
    case 24: goto L31;
    default: goto L32; }
L8:;
    v33 = v30;
    v34 = 2U;
    goto L33;
L9:;
    v33 = v30;
    v34 = 3U;
    goto L33;
L10:;
    v33 = v30;
    v34 = 4U;
    goto L33;
L11:;
    v33 = v30;
    v34 = 5U;
    goto L33;
L12:;
    v33 = v30;
    v34 = 6U;
    goto L33;
L13:;
    v33 = v30;
    v34 = 7U;
    goto L33;
L14:;
    v33 = v30;
    v34 = 8U;
    goto L33;
L15:;
    v33 = v30;
    v34 = 9U;
    goto L33;
L16:;
    v33 = v30;
    v34 = 10U;
    goto L33;
L17:;
    v33 = v30;
    v34 = 11U;
    goto L33;
L18:;
    v33 = v30;
    v34 = 12U;
    goto L33;
L19:;
    v33 = v30;
    v34 = 13U;
    goto L33;
L20:;
    v33 = v30;
    v34 = 14U;
    goto L33;
L21:;
    v33 = v30;
    v34 = 15U;
    goto L33;
L22:;
    v33 = v30;
    v34 = 16U;
    goto L33;
L23:;
    v33 = v30;
    v34 = 17U;
    goto L33;
L24:;
    v33 = v30;
    v34 = 18U;
    goto L33;
L25:;
    v33 = v30;
    v34 = 19U;
    goto L33;
L26:;
    v33 = v30;
    v34 = 20U;
    goto L33;
L27:;
    v33 = v30;
    v34 = 21U;
    goto L33;
L28:;
    v33 = v30;
    v34 = 22U;
    goto L33;
L29:;
    v33 = v30;
    v34 = 25U;
    goto L33;
L30:;
    v33 = v30;
    v34 = 23U;
    goto L33;
L31:;
    v33 = v30;
    v34 = 24U;
    goto L33;
L32:;
    nd_stop();
L33:;
    nd_store_64(v4, v33);
    nd_store_32((v4 + 8), 0U);
    nd_store_32((v4 + 12), v34);
    v37 = 1U;
L34:;
    return v37;
}

static uint32_t nd_ndef_carrier(unsigned char *v1, uint64_t v2, unsigned char *v3, unsigned char *v4) {
    unsigned char *v9;
    uint8_t v13, v14, v24;
    uint64_t v19, v33, v36;
    uint32_t v37, v40;
    ND_ROOM(12) v5;
    ND_ROOM(24) v6;
    v9 = (unsigned char *)((uintptr_t)v1 + (uintptr_t)((v1 == (unsigned char *)0) ? 4096ULL : 0ULL));
    nd_memset(v6.b, 0, 24);
    if (!(v2 > 4294967295ULL)) goto L2;
    v36 = 0ULL;
    v37 = 23U;
    goto L33;
L2:;
    nd_memset(v5.b, 0, 12);
    nd_store_32((v5.b + 4), 1U);
    nd_store_8((v5.b + 9), 7);
    v13 = nd_ndef_lang_leaf_Leaf_is_completed_by(v5.b, v9, v2);
    if (!v13) goto L4;
    goto L6;
L4:;
    nd_ndef_lang_place_refusal_of(v6.b, 6, 0, v9, v2);
    v14 = nd_load_8(v6.b);
    if (v14 == 1) goto L7;
    if (!(v14 == 0)) { v36 = 0ULL; v37 = 1U; goto L33; }
L6:;
    v19 = (uint64_t)nd_load_8(((unsigned char *)((uintptr_t)v9 + 1)));
    v24 = nd_load_8(v9);
    nd_store_64(v3, 2ULL);
    nd_store_64((v3 + 8), v19);
    nd_store_64((v3 + 16), (v19 + 2ULL));
    nd_store_64((v3 + 24), ((v2 + 18446744073709551615ULL) + (v19 ^ 18446744073709551615ULL)));
    nd_store_32((v3 + 32), (uint32_t)(uint8_t)(v24 & 7));
    nd_store_32((v3 + 36), 0U);
    v40 = 0U;
    goto L34;
L7:;
    v33 = nd_load_64((v6.b + 8));
    switch (nd_load_8((v6.b + 16))) {
    case 0: { v36 = v33; v37 = 1U; goto L33; }
    case 1: goto L8;
    case 2: goto L9;
    case 3: goto L10;
    case 4: goto L11;
    case 5: goto L12;
    case 6: goto L13;
    case 7: goto L14;
    case 8: goto L15;
    case 9: goto L16;
    case 10: goto L17;
    case 11: goto L18;
    case 12: goto L19;
    case 13: goto L20;
    case 14: goto L21;
    case 15: goto L22;
    case 16: goto L23;
    case 17: goto L24;
    case 18: goto L25;
    case 19: goto L26;
    case 20: goto L27;
    case 21: goto L28;
    case 22: goto L29;
    case 23: goto L30;
    case 24: goto L31;
    default: goto L32; }
L8:;
    v36 = v33;
    v37 = 2U;
    goto L33;
L9:;
    v36 = v33;
    v37 = 3U;
    goto L33;
L10:;
    v36 = v33;
    v37 = 4U;
    goto L33;
L11:;
    v36 = v33;
    v37 = 5U;
    goto L33;
L12:;
    v36 = v33;
    v37 = 6U;
    goto L33;
L13:;
    v36 = v33;
    v37 = 7U;
    goto L33;
L14:;
    v36 = v33;
    v37 = 8U;
    goto L33;
L15:;
    v36 = v33;
    v37 = 9U;
    goto L33;
L16:;
    v36 = v33;
    v37 = 10U;
    goto L33;
L17:;
    v36 = v33;
    v37 = 11U;
    goto L33;
L18:;
    v36 = v33;
    v37 = 12U;
    goto L33;
L19:;
    v36 = v33;
    v37 = 13U;
    goto L33;
L20:;
    v36 = v33;
    v37 = 14U;
    goto L33;
L21:;
    v36 = v33;
    v37 = 15U;
    goto L33;
L22:;
    v36 = v33;
    v37 = 16U;
    goto L33;
L23:;
    v36 = v33;
    v37 = 17U;
    goto L33;
L24:;
    v36 = v33;
    v37 = 18U;
    goto L33;
L25:;
    v36 = v33;
    v37 = 19U;
    goto L33;
L26:;
    v36 = v33;
    v37 = 20U;
    goto L33;
L27:;
    v36 = v33;
    v37 = 21U;
    goto L33;
L28:;
    v36 = v33;
    v37 = 22U;
    goto L33;
L29:;
    v36 = v33;
    v37 = 25U;
    goto L33;
L30:;
    v36 = v33;
    v37 = 23U;
    goto L33;
L31:;
    v36 = v33;
    v37 = 24U;
    goto L33;
L32:;
    nd_stop();
L33:;
    nd_store_64(v4, v36);
    nd_store_32((v4 + 8), 0U);
    nd_store_32((v4 + 12), v37);
    v40 = 1U;
L34:;
    return v40;
}

static uint32_t nd_ndef_check(unsigned char *v1, uint64_t v2, unsigned char *v3, unsigned char *v4) {
    unsigned char *v9;
    uint32_t v11, v13, v15, v17, v43, v44, v45, v48, v49;
    uint64_t v39, v42;
    ND_ROOM(32) v5;
    ND_ROOM(16) v6;
    v9 = (unsigned char *)((uintptr_t)v1 + (uintptr_t)((v1 == (unsigned char *)0) ? 4096ULL : 0ULL));
    v11 = nd_load_32(((unsigned char *)((uintptr_t)v3 + 12)));
    if (v11 > 3U) { v49 = 3U; goto L33; }
    v13 = nd_load_32(v3);
    v15 = nd_load_32(((unsigned char *)((uintptr_t)v3 + 4)));
    v17 = nd_load_32(((unsigned char *)((uintptr_t)v3 + 8)));
    if (!(((v13 != 0U) & (int)((v15 + 4294967295U) < 65535U)) & (int)((v17 + 4294967295U) < 65535U))) { v49 = 3U; goto L33; }
    nd_store_32(v6.b, v13);
    nd_store_32((v6.b + 4), v15);
    nd_store_32((v6.b + 8), v17);
    nd_store_8((v6.b + 12), (uint8_t)((uint8_t)v11 & 1));
    nd_memset((v6.b + 13), 0, 3);
    if (!(v11 < 2U)) goto L32;
    nd_memset(v5.b, 0, 32);
    nd_ndef_message_message_viewing_view(v5.b, v9, v2, v6.b);
    if (!(nd_load_8(v5.b) == 0)) goto L5;
    v42 = nd_load_64((v5.b + 16));
    v43 = nd_load_32((v5.b + 24));
    v44 = 0U;
    v45 = 0U;
    goto L31;
L5:;
    v39 = nd_load_64((v5.b + 8));
    switch (nd_load_8((v5.b + 16))) {
    case 0: { v42 = v39; v43 = 0U; v44 = 1U; v45 = 1U; goto L31; }
    case 1: goto L6;
    case 2: goto L7;
    case 3: goto L8;
    case 4: goto L9;
    case 5: goto L10;
    case 6: goto L11;
    case 7: goto L12;
    case 8: goto L13;
    case 9: goto L14;
    case 10: goto L15;
    case 11: goto L16;
    case 12: goto L17;
    case 13: goto L18;
    case 14: goto L19;
    case 15: goto L20;
    case 16: goto L21;
    case 17: goto L22;
    case 18: goto L23;
    case 19: goto L24;
    case 20: goto L25;
    case 21: goto L26;
    case 22: goto L27;
    case 23: goto L28;
    case 24: goto L29;
    default: goto L30; }
L6:;
    v42 = v39;
    v43 = 0U;
    v44 = 2U;
    v45 = 1U;
    goto L31;
L7:;
    v42 = v39;
    v43 = 0U;
    v44 = 3U;
    v45 = 1U;
    goto L31;
L8:;
    v42 = v39;
    v43 = 0U;
    v44 = 4U;
    v45 = 1U;
    goto L31;
L9:;
    v42 = v39;
    v43 = 0U;
    v44 = 5U;
    v45 = 1U;
    goto L31;
L10:;
    v42 = v39;
    v43 = 0U;
    v44 = 6U;
    v45 = 1U;
    goto L31;
L11:;
    v42 = v39;
    v43 = 0U;
    v44 = 7U;
    v45 = 1U;
    goto L31;
L12:;
    v42 = v39;
    v43 = 0U;
    v44 = 8U;
    v45 = 1U;
    goto L31;
L13:;
    v42 = v39;
    v43 = 0U;
    v44 = 9U;
    v45 = 1U;
    goto L31;
L14:;
    v42 = v39;
    v43 = 0U;
    v44 = 10U;
    v45 = 1U;
    goto L31;
L15:;
    v42 = v39;
    v43 = 0U;
    v44 = 11U;
    v45 = 1U;
    goto L31;
L16:;
    v42 = v39;
    v43 = 0U;
    v44 = 12U;
    v45 = 1U;
    goto L31;
L17:;
    v42 = v39;
    v43 = 0U;
    v44 = 13U;
    v45 = 1U;
    goto L31;
L18:;
    v42 = v39;
    v43 = 0U;
    v44 = 14U;
    v45 = 1U;
    goto L31;
L19:;
    v42 = v39;
    v43 = 0U;
    v44 = 15U;
    v45 = 1U;
    goto L31;
L20:;
    v42 = v39;
    v43 = 0U;
    v44 = 16U;
    v45 = 1U;
    goto L31;
L21:;
    v42 = v39;
    v43 = 0U;
    v44 = 17U;
    v45 = 1U;
    goto L31;
L22:;
    v42 = v39;
    v43 = 0U;
    v44 = 18U;
    v45 = 1U;
    goto L31;
L23:;
    v42 = v39;
    v43 = 0U;
    v44 = 19U;
    v45 = 1U;
    goto L31;
L24:;
    v42 = v39;
    v43 = 0U;
    v44 = 20U;
    v45 = 1U;
    goto L31;
L25:;
    v42 = v39;
    v43 = 0U;
    v44 = 21U;
    v45 = 1U;
    goto L31;
L26:;
    v42 = v39;
    v43 = 0U;
    v44 = 22U;
    v45 = 1U;
    goto L31;
L27:;
    v42 = v39;
    v43 = 0U;
    v44 = 25U;
    v45 = 1U;
    goto L31;
L28:;
    v42 = v39;
    v43 = 0U;
    v44 = 23U;
    v45 = 1U;
    goto L31;
L29:;
    v42 = v39;
    v43 = 0U;
    v44 = 24U;
    v45 = 1U;
    goto L31;
L30:;
    nd_stop();
L31:;
    nd_store_64(v4, v42);
    nd_store_32((v4 + 8), v43);
    nd_store_32((v4 + 12), v44);
    v49 = v45;
    goto L33;
L32:;
    v48 = nd_ndef_c_checking_check_in(v9, v2, v6.b, v4);
    v49 = v48;
L33:;
    return v49;
}

static uint32_t nd_ndef_feed(unsigned char *v1, unsigned char *v2, uint64_t v3, unsigned char *v4) {
    unsigned char *v9, *v11, *v34;
    uint64_t v14, v28, v37, v51, v57;
    uint8_t v16, v39;
    uint32_t v33, v56, v58, v59, v60, v63;
    ND_ROOM(24) v5, v6;
    v9 = (unsigned char *)((uintptr_t)v2 + (uintptr_t)((v2 == (unsigned char *)0) ? 4096ULL : 0ULL));
    switch (nd_load_8(v1)) {
    case 0: { v63 = 3U; goto L63; }
    case 1: goto L1;
    case 2: goto L31;
    default: goto L62; }
L1:;
    v11 = (unsigned char *)((uintptr_t)v1 + 8);
    nd_memset(v6.b, 0, 24);
    nd_ndef_message_checker_Checker_feed_tried(v6.b, v11, v9, v3, 0);
    v14 = nd_load_64((v6.b + 8));
    v16 = nd_load_8((v6.b + 16));
    switch (nd_load_8(v6.b)) {
    case 0: goto L2;
    case 1: goto L3;
    case 2: goto L4;
    default: goto L30; }
L2:;
    v57 = nd_load_64(((unsigned char *)((uintptr_t)v11 + (uintptr_t)((nd_load_8(((unsigned char *)((uintptr_t)v1 + 184))) == 5) ? 184ULL : 456ULL))));
    v58 = 0U;
    v59 = 24U;
    v60 = 5U;
    goto L61;
L3:;
    v28 = nd_load_64(((unsigned char *)((uintptr_t)v11 + (uintptr_t)((nd_load_8(((unsigned char *)((uintptr_t)v1 + 184))) == 5) ? 184ULL : 456ULL))));
    v33 = nd_usub_sat_i32(nd_load_32(((unsigned char *)((uintptr_t)v1 + 12))), nd_load_32(((unsigned char *)((uintptr_t)v1 + 28))));
    v57 = v28;
    v58 = v33;
    v59 = 0U;
    v60 = 0U;
    goto L61;
L4:;
    switch (v16) {
    case 0: { v57 = v14; v58 = 0U; v59 = 1U; v60 = 1U; goto L61; }
    case 1: goto L5;
    case 2: goto L6;
    case 3: goto L7;
    case 4: goto L8;
    case 5: goto L9;
    case 6: goto L10;
    case 7: goto L11;
    case 8: goto L12;
    case 9: goto L13;
    case 10: goto L14;
    case 11: goto L15;
    case 12: goto L16;
    case 13: goto L17;
    case 14: goto L18;
    case 15: goto L19;
    case 16: goto L20;
    case 17: goto L21;
    case 18: goto L22;
    case 19: goto L23;
    case 20: goto L24;
    case 21: goto L25;
    case 22: goto L26;
    case 23: goto L27;
    case 24: goto L28;
    default: goto L29; }
L5:;
    v57 = v14;
    v58 = 0U;
    v59 = 2U;
    v60 = 1U;
    goto L61;
L6:;
    v57 = v14;
    v58 = 0U;
    v59 = 3U;
    v60 = 1U;
    goto L61;
L7:;
    v57 = v14;
    v58 = 0U;
    v59 = 4U;
    v60 = 1U;
    goto L61;
L8:;
    v57 = v14;
    v58 = 0U;
    v59 = 5U;
    v60 = 1U;
    goto L61;
L9:;
    v57 = v14;
    v58 = 0U;
    v59 = 6U;
    v60 = 1U;
    goto L61;
L10:;
    v57 = v14;
    v58 = 0U;
    v59 = 7U;
    v60 = 1U;
    goto L61;
L11:;
    v57 = v14;
    v58 = 0U;
    v59 = 8U;
    v60 = 1U;
    goto L61;
L12:;
    v57 = v14;
    v58 = 0U;
    v59 = 9U;
    v60 = 1U;
    goto L61;
L13:;
    v57 = v14;
    v58 = 0U;
    v59 = 10U;
    v60 = 1U;
    goto L61;
L14:;
    v57 = v14;
    v58 = 0U;
    v59 = 11U;
    v60 = 1U;
    goto L61;
L15:;
    v57 = v14;
    v58 = 0U;
    v59 = 12U;
    v60 = 1U;
    goto L61;
L16:;
    v57 = v14;
    v58 = 0U;
    v59 = 13U;
    v60 = 1U;
    goto L61;
L17:;
    v57 = v14;
    v58 = 0U;
    v59 = 14U;
    v60 = 1U;
    goto L61;
L18:;
    v57 = v14;
    v58 = 0U;
    v59 = 15U;
    v60 = 1U;
    goto L61;
L19:;
    v57 = v14;
    v58 = 0U;
    v59 = 16U;
    v60 = 1U;
    goto L61;
L20:;
    v57 = v14;
    v58 = 0U;
    v59 = 17U;
    v60 = 1U;
    goto L61;
L21:;
    v57 = v14;
    v58 = 0U;
    v59 = 18U;
    v60 = 1U;
    goto L61;
L22:;
    v57 = v14;
    v58 = 0U;
    v59 = 19U;
    v60 = 1U;
    goto L61;
L23:;
    v57 = v14;
    v58 = 0U;
    v59 = 20U;
    v60 = 1U;
    goto L61;
L24:;
    v57 = v14;
    v58 = 0U;
    v59 = 21U;
    v60 = 1U;
    goto L61;
L25:;
    v57 = v14;
    v58 = 0U;
    v59 = 22U;
    v60 = 1U;
    goto L61;
L26:;
    v57 = v14;
    v58 = 0U;
    v59 = 25U;
    v60 = 1U;
    goto L61;
L27:;
    v57 = v14;
    v58 = 0U;
    v59 = 23U;
    v60 = 1U;
    goto L61;
L28:;
    v57 = v14;
    v58 = 0U;
    v59 = 24U;
    v60 = 1U;
    goto L61;
L29:;
    nd_stop();
L30:;
    nd_stop();
L31:;
    v34 = (unsigned char *)((uintptr_t)v1 + 8);
    nd_memset(v5.b, 0, 24);
    nd_ndef_message_checker_Checker_feed_tried_2(v5.b, v34, v9, v3, 0);
    v37 = nd_load_64((v5.b + 8));
    v39 = nd_load_8((v5.b + 16));
    switch (nd_load_8(v5.b)) {
    case 0: goto L32;
    case 1: goto L33;
    case 2: goto L34;
    default: goto L60; }
L32:;
    v57 = nd_load_64(((unsigned char *)((uintptr_t)v34 + (uintptr_t)((nd_load_8(((unsigned char *)((uintptr_t)v1 + 88))) == 5) ? 88ULL : 360ULL))));
    v58 = 0U;
    v59 = 24U;
    v60 = 5U;
    goto L61;
L33:;
    v51 = nd_load_64(((unsigned char *)((uintptr_t)v34 + (uintptr_t)((nd_load_8(((unsigned char *)((uintptr_t)v1 + 88))) == 5) ? 88ULL : 360ULL))));
    v56 = nd_usub_sat_i32(nd_load_32(((unsigned char *)((uintptr_t)v1 + 12))), nd_load_32(((unsigned char *)((uintptr_t)v1 + 28))));
    v57 = v51;
    v58 = v56;
    v59 = 0U;
    v60 = 0U;
    goto L61;
L34:;
    switch (v39) {
    case 0: { v57 = v37; v58 = 0U; v59 = 1U; v60 = 1U; goto L61; }
    case 1: goto L35;
    case 2: goto L36;
    case 3: goto L37;
    case 4: goto L38;
    case 5: goto L39;
    case 6: goto L40;
    case 7: goto L41;
    case 8: goto L42;
    case 9: goto L43;
    case 10: goto L44;
    case 11: goto L45;
    case 12: goto L46;
    case 13: goto L47;
    case 14: goto L48;
    case 15: goto L49;
    case 16: goto L50;
    case 17: goto L51;
    case 18: goto L52;
    case 19: goto L53;
    case 20: goto L54;
    case 21: goto L55;
    case 22: goto L56;
    case 23: goto L57;
    case 24: goto L58;
    default: goto L59; }
L35:;
    v57 = v37;
    v58 = 0U;
    v59 = 2U;
    v60 = 1U;
    goto L61;
L36:;
    v57 = v37;
    v58 = 0U;
    v59 = 3U;
    v60 = 1U;
    goto L61;
L37:;
    v57 = v37;
    v58 = 0U;
    v59 = 4U;
    v60 = 1U;
    goto L61;
L38:;
    v57 = v37;
    v58 = 0U;
    v59 = 5U;
    v60 = 1U;
    goto L61;
L39:;
    v57 = v37;
    v58 = 0U;
    v59 = 6U;
    v60 = 1U;
    goto L61;
L40:;
    v57 = v37;
    v58 = 0U;
    v59 = 7U;
    v60 = 1U;
    goto L61;
L41:;
    v57 = v37;
    v58 = 0U;
    v59 = 8U;
    v60 = 1U;
    goto L61;
L42:;
    v57 = v37;
    v58 = 0U;
    v59 = 9U;
    v60 = 1U;
    goto L61;
L43:;
    v57 = v37;
    v58 = 0U;
    v59 = 10U;
    v60 = 1U;
    goto L61;
L44:;
    v57 = v37;
    v58 = 0U;
    v59 = 11U;
    v60 = 1U;
    goto L61;
L45:;
    v57 = v37;
    v58 = 0U;
    v59 = 12U;
    v60 = 1U;
    goto L61;
L46:;
    v57 = v37;
    v58 = 0U;
    v59 = 13U;
    v60 = 1U;
    goto L61;
L47:;
    v57 = v37;
    v58 = 0U;
    v59 = 14U;
    v60 = 1U;
    goto L61;
L48:;
    v57 = v37;
    v58 = 0U;
    v59 = 15U;
    v60 = 1U;
    goto L61;
L49:;
    v57 = v37;
    v58 = 0U;
    v59 = 16U;
    v60 = 1U;
    goto L61;
L50:;
    v57 = v37;
    v58 = 0U;
    v59 = 17U;
    v60 = 1U;
    goto L61;
L51:;
    v57 = v37;
    v58 = 0U;
    v59 = 18U;
    v60 = 1U;
    goto L61;
L52:;
    v57 = v37;
    v58 = 0U;
    v59 = 19U;
    v60 = 1U;
    goto L61;
L53:;
    v57 = v37;
    v58 = 0U;
    v59 = 20U;
    v60 = 1U;
    goto L61;
L54:;
    v57 = v37;
    v58 = 0U;
    v59 = 21U;
    v60 = 1U;
    goto L61;
L55:;
    v57 = v37;
    v58 = 0U;
    v59 = 22U;
    v60 = 1U;
    goto L61;
L56:;
    v57 = v37;
    v58 = 0U;
    v59 = 25U;
    v60 = 1U;
    goto L61;
L57:;
    v57 = v37;
    v58 = 0U;
    v59 = 23U;
    v60 = 1U;
    goto L61;
L58:;
    v57 = v37;
    v58 = 0U;
    v59 = 24U;
    v60 = 1U;
    goto L61;
L59:;
    nd_stop();
L60:;
    nd_stop();
L61:;
    nd_store_64(v4, v57);
    nd_store_32((v4 + 8), v58);
    nd_store_32((v4 + 12), v59);
    v63 = v60;
    goto L63;
L62:;
    nd_stop();
L63:;
    return v63;
}

static uint32_t nd_ndef_uri(unsigned char *v1, uint64_t v2, uint32_t v3, unsigned char *v4, uint64_t v5, unsigned char *v6, unsigned char *v7) {
    unsigned char *v11, *v14, *v19, *v47, *v77, *v126, *v173, *v184, *v197;
    uint8_t v16, v86, v167, v168, v175;
    uint64_t v20, v172, v183, v185, v191, v195, v202, v206, v209, v212;
    uint32_t v213, v216;
    ND_ROOM(24) v8;
    v11 = (unsigned char *)((uintptr_t)v1 + (uintptr_t)((v1 == (unsigned char *)0) ? 4096ULL : 0ULL));
    v14 = (unsigned char *)((uintptr_t)v4 + (uintptr_t)((v4 == (unsigned char *)0) ? 4096ULL : 0ULL));
    if (v3 > 1U) { v216 = 3U; goto L65; }
    v16 = (uint8_t)v3;
    nd_memset(v8.b, 0, 24);
    if (!(v2 > 4294967295ULL)) goto L3;
    v212 = 0ULL;
    v213 = 23U;
    goto L64;
L3:;
    if (v2 == 0ULL) goto L26;
    v19 = (unsigned char *)((uintptr_t)v11 + 1);
    v20 = v2 + 18446744073709551615ULL;
    if (!((v3 == 1U) | (int)(nd_load_8(v11) < 36))) goto L26;
    if (!(v2 < 65ULL)) goto L24;
    if (!(v2 < 9ULL)) goto L18;
    if (v2 < 5ULL) goto L10;
    if (!(((((((uint32_t)nd_load_8(((unsigned char *)((uintptr_t)v11 + 2))) << 8) | (uint32_t)nd_load_8(v19)) | ((uint32_t)nd_load_8(((unsigned char *)((uintptr_t)v11 + 3))) << 16)) | ((uint32_t)nd_load_8(((unsigned char *)((uintptr_t)v11 + 4))) << 24)) & 2155905152U) == 0U)) goto L24;
    v47 = (unsigned char *)((uintptr_t)v11 + (uintptr_t)v2);
    if (((((((uint32_t)nd_load_8(((unsigned char *)((uintptr_t)v47 - 3))) << 8) | (uint32_t)nd_load_8(((unsigned char *)((uintptr_t)v47 - 4)))) | ((uint32_t)nd_load_8(((unsigned char *)((uintptr_t)v47 - 2))) << 16)) | ((uint32_t)nd_load_8(((unsigned char *)((uintptr_t)v47 - 1))) << 24)) & 2155905152U) == 0U) goto L25;
    goto L24;
L10:;
    switch ((uint32_t)v2) {
    case 1U: goto L25;
    case 2U: goto L11;
    default: goto L12; }
L11:;
    if ((int8_t)nd_load_8(v19) > (int8_t)255) goto L25;
    goto L24;
L12:;
    if (v2 == 4ULL) goto L15;
    if (!((int8_t)nd_load_8(v19) > (int8_t)255)) goto L24;
    if ((int8_t)nd_load_8(((unsigned char *)((uintptr_t)v11 + 2))) > (int8_t)255) goto L25;
    goto L24;
L15:;
    v77 = (unsigned char *)((uintptr_t)v11 + 3);
    if (!((int8_t)nd_load_8(v19) > (int8_t)255)) goto L24;
    if (!((int8_t)nd_load_8(((unsigned char *)((uintptr_t)v11 + 2))) > (int8_t)255)) goto L24;
    if ((int8_t)nd_load_8(v77) > (int8_t)255) goto L25;
    goto L24;
L18:;
    if (!(v2 > 17ULL)) goto L20;
    v86 = nd_ndef_lang_ascii_are_many(v19, v20);
    if (v86) goto L25;
    goto L24;
L20:;
    if (!(((((((uint32_t)nd_load_8(((unsigned char *)((uintptr_t)v11 + 2))) << 8) | (uint32_t)nd_load_8(v19)) | ((uint32_t)nd_load_8(((unsigned char *)((uintptr_t)v11 + 3))) << 16)) | ((uint32_t)nd_load_8(((unsigned char *)((uintptr_t)v11 + 4))) << 24)) & 2155905152U) == 0U)) goto L24;
    if (!(((((((uint32_t)nd_load_8(((unsigned char *)((uintptr_t)v11 + 6))) << 8) | (uint32_t)nd_load_8(((unsigned char *)((uintptr_t)v11 + 5)))) | ((uint32_t)nd_load_8(((unsigned char *)((uintptr_t)v11 + 7))) << 16)) | ((uint32_t)nd_load_8(((unsigned char *)((uintptr_t)v11 + 8))) << 24)) & 2155905152U) == 0U)) goto L24;
    v126 = (unsigned char *)((uintptr_t)v11 + (uintptr_t)v2);
    if (!(((((((uint32_t)nd_load_8(((unsigned char *)((uintptr_t)v126 - 7))) << 8) | (uint32_t)nd_load_8(((unsigned char *)((uintptr_t)v126 - 8)))) | ((uint32_t)nd_load_8(((unsigned char *)((uintptr_t)v126 - 6))) << 16)) | ((uint32_t)nd_load_8(((unsigned char *)((uintptr_t)v126 - 5))) << 24)) & 2155905152U) == 0U)) goto L24;
    if (((((((uint32_t)nd_load_8(((unsigned char *)((uintptr_t)v126 - 3))) << 8) | (uint32_t)nd_load_8(((unsigned char *)((uintptr_t)v126 - 4)))) | ((uint32_t)nd_load_8(((unsigned char *)((uintptr_t)v126 - 2))) << 16)) | ((uint32_t)nd_load_8(((unsigned char *)((uintptr_t)v126 - 1))) << 24)) & 2155905152U) == 0U) goto L25;
L24:;
    v167 = nd_ndef_lang_member_is_long_utf8(v19, v20);
    if (!v167) goto L26;
L25:;
    v172 = v20;
    goto L29;
L26:;
    nd_ndef_lang_place_refusal_of(v8.b, 2, v16, v11, v2);
    v168 = nd_load_8(v8.b);
    if (v168 == 1) goto L38;
    if (!(v168 == 0)) { v212 = 0ULL; v213 = 1U; goto L64; }
    v172 = v2 + 18446744073709551615ULL;
L29:;
    v173 = (unsigned char *)((uintptr_t)v11 + 1);
    v175 = (uint8_t)(nd_load_8(v11) + 255);
    if (!(v175 < 35)) { v183 = 0ULL; v184 = (unsigned char *)nd_data_static_50; goto L31; }
    v183 = nd_load_64(((unsigned char *)nd_data_switch_table_ndef_uri + (ptrdiff_t)(uint64_t)v175 * 8));
    v184 = nd_load_ptr(((unsigned char *)&nd_data_switch_table_ndef_uri_18 + (ptrdiff_t)(uint64_t)v175 * 8));
L31:;
    v185 = nd_uadd_sat_i64(v172, v183);
    nd_store_64(v6, v185);
    if (v5 < v185) { v216 = 2U; goto L65; }
    if (((uint64_t)(uintptr_t)v14 - (uint64_t)(uintptr_t)v184) < v183) { v191 = 0ULL; goto L34; }
    nd_move(v14, v184, v183);
    goto L35;
L34:;
    nd_store_8((v14 + (ptrdiff_t)v191), nd_load_8((v184 + (ptrdiff_t)v191)));
    v195 = v191 + 1ULL;
    if (!(v195 == v183)) { v191 = v195; goto L34; }
L35:;
    v197 = (unsigned char *)((uintptr_t)v14 + (uintptr_t)v183);
    if (((uint64_t)(uintptr_t)v197 - (uint64_t)(uintptr_t)v173) < v172) { v202 = 0ULL; goto L37; }
    nd_move(v197, v173, v172);
    v216 = 0U;
    goto L65;
L37:;
    nd_store_8((v197 + (ptrdiff_t)v202), nd_load_8((v173 + (ptrdiff_t)v202)));
    v206 = v202 + 1ULL;
    if (v206 == v172) { v216 = 0U; goto L65; }
    v202 = v206;
    goto L37;
L38:;
    v209 = nd_load_64((v8.b + 8));
    switch (nd_load_8((v8.b + 16))) {
    case 0: { v212 = v209; v213 = 1U; goto L64; }
    case 1: goto L39;
    case 2: goto L40;
    case 3: goto L41;
    case 4: goto L42;
    case 5: goto L43;
    case 6: goto L44;
    case 7: goto L45;
    case 8: goto L46;
    case 9: goto L47;
    case 10: goto L48;
    case 11: goto L49;
    case 12: goto L50;
    case 13: goto L51;
    case 14: goto L52;
    case 15: goto L53;
    case 16: goto L54;
    case 17: goto L55;
    case 18: goto L56;
    case 19: goto L57;
    case 20: goto L58;
    case 21: goto L59;
    case 22: goto L60;
    case 23: goto L61;
    case 24: goto L62;
    default: goto L63; }
L39:;
    v212 = v209;
    v213 = 2U;
    goto L64;
L40:;
    v212 = v209;
    v213 = 3U;
    goto L64;
L41:;
    v212 = v209;
    v213 = 4U;
    goto L64;
L42:;
    v212 = v209;
    v213 = 5U;
    goto L64;
L43:;
    v212 = v209;
    v213 = 6U;
    goto L64;
L44:;
    v212 = v209;
    v213 = 7U;
    goto L64;
L45:;
    v212 = v209;
    v213 = 8U;
    goto L64;
L46:;
    v212 = v209;
    v213 = 9U;
    goto L64;
L47:;
    v212 = v209;
    v213 = 10U;
    goto L64;
L48:;
    v212 = v209;
    v213 = 11U;
    goto L64;
L49:;
    v212 = v209;
    v213 = 12U;
    goto L64;
L50:;
    v212 = v209;
    v213 = 13U;
    goto L64;
L51:;
    v212 = v209;
    v213 = 14U;
    goto L64;
L52:;
    v212 = v209;
    v213 = 15U;
    goto L64;
L53:;
    v212 = v209;
    v213 = 16U;
    goto L64;
L54:;
    v212 = v209;
    v213 = 17U;
    goto L64;
L55:;
    v212 = v209;
    v213 = 18U;
    goto L64;
L56:;
    v212 = v209;
    v213 = 19U;
    goto L64;
L57:;
    v212 = v209;
    v213 = 20U;
    goto L64;
L58:;
    v212 = v209;
    v213 = 21U;
    goto L64;
L59:;
    v212 = v209;
    v213 = 22U;
    goto L64;
L60:;
    v212 = v209;
    v213 = 25U;
    goto L64;
L61:;
    v212 = v209;
    v213 = 23U;
    goto L64;
L62:;
    v212 = v209;
    v213 = 24U;
    goto L64;
L63:;
    nd_stop();
L64:;
    nd_store_64(v7, v212);
    nd_store_32((v7 + 8), 0U);
    nd_store_32((v7 + 12), v213);
    v216 = 1U;
L65:;
    return v216;
}

static uint32_t nd_ndef_record_warning(unsigned char *v1, uint64_t v2, uint64_t v3, unsigned char *v4, uint64_t v5, unsigned char *v6) {
    uint64_t v24, v32, v36, v41, v74, v82, v84, v86, v88, v140, v146, v148, v150, v153, v160, v163, v168, v170, v181, v185, v190, v244, v252, v254, v256, v258, v265;
    unsigned char *v28, *v34, *v39, *v40, *v73, *v83, *v139, *v147, *v159, *v169, *v180, *v243, *v253;
    uint8_t v37, v42, v44, v48, v56, v71, v76, v85, v98, v106, v107, v114, v158, v164, v201, v202, v203, v213, v267, v268, v269;
    uint32_t v70, v72, v137, v138, v241, v242, v275;
    ND_ROOM(3) v7, v9, v15;
    ND_ROOM(32) v8, v11, v13;
    ND_ROOM(16) v10;
    ND_ROOM(24) v12, v14;
    nd_memset(v15.b, 0, 3);
    nd_ndef_diagnostics_few_small_message(v13.b, ((unsigned char *)((uintptr_t)v1 + (uintptr_t)((v1 == (unsigned char *)0) ? 4096ULL : 0ULL))), v2);
    if (!(nd_load_8(v13.b) == 1)) { v267 = 0; v268 = 0; v269 = 0; goto L87; }
    nd_memcpy(v12.b, (v13.b + 8), 24);
    nd_memset(v11.b, 0, 32);
    v24 = nd_load_64((v12.b + 8));
    nd_store_ptr(v10.b, nd_load_ptr(v12.b));
    nd_store_64((v10.b + 8), v24);
    nd_ndef_message_items_ItemsIterator_next(v11.b, v10.b);
    if (!(nd_load_8(v11.b) == 1)) goto L86;
    v28 = v11.b + 8;
    v32 = v3;
    goto L4;
L3:;
    nd_ndef_message_items_ItemsIterator_next(v11.b, v10.b);
    if (nd_load_8(v11.b) == 1) { v32 = v32 + 18446744073709551615ULL; goto L4; }
    goto L86;
L4:;
    if (!(v32 == 0ULL)) goto L3;
    nd_memcpy(v14.b, v28, 24);
    v34 = nd_load_ptr(v14.b);
    v36 = nd_load_64((v14.b + 8));
    v37 = nd_ndef_message_item_Item_tnf(v14.b);
    if (v36 < 2ULL) goto L17;
    v39 = (unsigned char *)((uintptr_t)v34 + 1);
    v40 = (unsigned char *)((uintptr_t)v34 + 2);
    v41 = v36 + 18446744073709551614ULL;
    v42 = nd_load_8(v34);
    v44 = (uint8_t)(v42 & 16) == 0;
    if (v44) goto L9;
    if (v41 == 0ULL) goto L17;
    v48 = nd_load_8(v40);
    v71 = v48;
    v72 = (uint32_t)v48;
    v73 = (unsigned char *)((uintptr_t)v34 + 3);
    v74 = v36 + 18446744073709551613ULL;
    goto L11;
L9:;
    if (v41 < 4ULL) goto L17;
    v56 = nd_load_8(v40);
    v70 = nd_bswap_i32((((((uint32_t)nd_load_8(((unsigned char *)((uintptr_t)v34 + 3))) << 8) | (uint32_t)v56) | ((uint32_t)nd_load_8(((unsigned char *)((uintptr_t)v34 + 4))) << 16)) | ((uint32_t)nd_load_8(((unsigned char *)((uintptr_t)v34 + 5))) << 24)));
    v71 = v56;
    v72 = v70;
    v73 = (unsigned char *)((uintptr_t)v34 + 6);
    v74 = v36 + 18446744073709551610ULL;
L11:;
    v76 = (uint8_t)(v42 & 8) == 0;
    if (v76) { v82 = 0ULL; v83 = v73; v84 = v74; goto L14; }
    if (v74 == 0ULL) goto L17;
    v82 = (uint64_t)nd_load_8(v73);
    v83 = (unsigned char *)((uintptr_t)v73 + 1);
    v84 = v74 + 18446744073709551615ULL;
L14:;
    v85 = nd_load_8(v39);
    v86 = (uint64_t)v85;
    if (v84 < v86) goto L17;
    v88 = v84 - v86;
    if (v88 < v82) goto L17;
    if (!((v88 - v82) < (uint64_t)v72)) goto L18;
L17:;
    nd_stop();
L18:;
    if (!(v37 == 1)) { v114 = 0; goto L39; }
    switch (v85) {
    case 0: { v114 = v85; goto L39; }
    case 1: goto L20;
    default: goto L25; }
L20:;
    switch (nd_load_8(v83)) {
    case 84: { v114 = 1; goto L39; }
    case 85: goto L21;
    case 115: goto L22;
    case 116: goto L23;
    default: goto L24; }
L21:;
    v114 = 2;
    goto L39;
L22:;
    v114 = 8;
    goto L39;
L23:;
    v114 = 9;
    goto L39;
L24:;
    v114 = 0;
    goto L39;
L25:;
    if (!(v85 < 3)) goto L34;
    v98 = nd_load_8(((unsigned char *)((uintptr_t)v83 + 1)));
    switch (nd_load_8(v83)) {
    case 83: goto L27;
    case 72: goto L28;
    case 97: goto L31;
    case 99: goto L32;
    default: goto L33; }
L27:;
    if (v98 == 112) { v114 = 3; goto L39; }
    goto L33;
L28:;
    switch (v98) {
    case 114: { v114 = 4; goto L39; }
    case 115: goto L29;
    case 99: goto L30;
    default: goto L33; }
L29:;
    v114 = 5;
    goto L39;
L30:;
    v114 = 6;
    goto L39;
L31:;
    if (v98 == 99) { v114 = 10; goto L39; }
    goto L33;
L32:;
    if (v98 == 114) { v114 = 11; goto L39; }
L33:;
    v114 = 0;
    goto L39;
L34:;
    if (!(v85 == 3)) { v114 = 0; goto L39; }
    v106 = nd_load_8(((unsigned char *)((uintptr_t)v83 + 1)));
    v107 = nd_load_8(((unsigned char *)((uintptr_t)v83 + 2)));
    switch (nd_load_8(v83)) {
    case 97: goto L36;
    case 101: goto L37;
    default: goto L38; }
L36:;
    if ((v106 == 99) & (int)(v107 == 116)) { v114 = 7; goto L39; }
    goto L38;
L37:;
    if ((v106 == 114) & (int)(v107 == 114)) { v114 = 12; goto L39; }
L38:;
    v114 = 0;
L39:;
    if (v44) goto L41;
    v138 = (uint32_t)v71;
    v139 = (unsigned char *)((uintptr_t)v34 + 3);
    v140 = v36 + 18446744073709551613ULL;
    goto L43;
L41:;
    if (v41 < 4ULL) goto L49;
    v137 = nd_bswap_i32((((((uint32_t)nd_load_8(((unsigned char *)((uintptr_t)v34 + 3))) << 8) | (uint32_t)v71) | ((uint32_t)nd_load_8(((unsigned char *)((uintptr_t)v34 + 4))) << 16)) | ((uint32_t)nd_load_8(((unsigned char *)((uintptr_t)v34 + 5))) << 24)));
    v138 = v137;
    v139 = (unsigned char *)((uintptr_t)v34 + 6);
    v140 = v36 + 18446744073709551610ULL;
L43:;
    if (v76) { v146 = 0ULL; v147 = v139; v148 = v140; goto L46; }
    if (v140 == 0ULL) goto L49;
    v146 = (uint64_t)nd_load_8(v139);
    v147 = (unsigned char *)((uintptr_t)v139 + 1);
    v148 = v140 + 18446744073709551615ULL;
L46:;
    if (v148 < v86) goto L49;
    v150 = v148 - v86;
    if (v150 < v146) goto L49;
    v153 = (uint64_t)v138;
    if (!((v150 - v146) < v153)) goto L50;
L49:;
    nd_stop();
L50:;
    v158 = (uint8_t)(v42 & 32) == 0;
    v159 = v158 ? ((unsigned char *)((uintptr_t)((unsigned char *)((uintptr_t)v147 + (uintptr_t)v86)) + (uintptr_t)v146)) : (unsigned char *)nd_data_static_50;
    v160 = v158 ? v153 : 0ULL;
    nd_memset(v9.b, 0, 3);
    switch (v114) {
    case 1: goto L51;
    case 3: goto L61;
    case 4: goto L62;
    case 5: goto L63;
    case 2: goto L67;
    case 6: goto L67;
    case 7: goto L67;
    case 8: goto L67;
    case 9: goto L67;
    case 10: goto L67;
    case 11: goto L67;
    case 12: goto L67;
    case 0: goto L67;
    default: goto L66; }
L51:;
    if (v160 == 0ULL) goto L68;
    v163 = v160 + 18446744073709551615ULL;
    v164 = nd_load_8(v159);
    v168 = nd_umin_i64(v163, (uint64_t)(uint8_t)(v164 & 63));
    v169 = (unsigned char *)((uintptr_t)((unsigned char *)((uintptr_t)v159 + 1)) + (uintptr_t)v168);
    v170 = v163 - v168;
    if (!(((int8_t)v164 < (int8_t)0) & (int)(v170 > 1ULL))) goto L68;
    switch (nd_load_8(v169)) {
    case 254: goto L54;
    case 255: goto L55;
    default: goto L56; }
L54:;
    if (nd_load_8((v169 + 1)) == 255) goto L68;
    goto L56;
L55:;
    if (nd_load_8((v169 + 1)) == 254) goto L68;
L56:;
    v180 = v169;
    v181 = v170;
L57:;
    if (!(nd_load_8(((unsigned char *)((uintptr_t)v180 + 1))) == 0)) goto L68;
    v185 = v181 + 18446744073709551614ULL;
    if (!(v185 < 2ULL)) { v180 = (unsigned char *)((uintptr_t)v180 + 2); v181 = v185; goto L57; }
    if (!(v185 == 0ULL)) goto L68;
    v267 = 1;
    v268 = 8;
    v269 = 0;
    goto L87;
L61:;
    nd_ndef_diagnostics_record_remark_held_remark(v9.b, 3, v159, v160, v12.b);
    goto L69;
L62:;
    nd_ndef_diagnostics_record_remark_held_remark(v9.b, 4, v159, v160, v12.b);
    goto L69;
L63:;
    v190 = (uint64_t)(v160 != 0ULL);
    nd_ndef_diagnostics_few_small_message(v8.b, ((unsigned char *)((uintptr_t)v159 + (uintptr_t)v190)), (v160 - v190));
    if (!(nd_load_8(v8.b) == 1)) { v201 = 0; v202 = 0; v203 = 0; goto L65; }
    nd_memset(v7.b, 0, 3);
    nd_ndef_diagnostics_handover_remark_reference_remark(v7.b, (v8.b + 8), v12.b);
    v201 = nd_load_8(v7.b);
    v202 = nd_load_8((v7.b + 1));
    v203 = nd_load_8((v7.b + 2));
L65:;
    nd_store_8(v9.b, v201);
    nd_store_8((v9.b + 1), v202);
    nd_store_8((v9.b + 2), v203);
    goto L69;
L66:;
    nd_stop();
L67:;
    v213 = v42;
    goto L71;
L68:;
    v213 = v42;
    goto L71;
L69:;
    if (nd_load_8(v9.b) == 1) { v267 = 1; v268 = nd_load_8((v9.b + 1)); v269 = nd_load_8((v9.b + 2)); goto L87; }
    v213 = nd_load_8(v34);
L71:;
    if ((uint8_t)(v213 & 16) == 0) goto L74;
    if (v41 == 0ULL) goto L82;
    v242 = (uint32_t)nd_load_8(v40);
    v243 = (unsigned char *)((uintptr_t)v34 + 3);
    v244 = v36 + 18446744073709551613ULL;
    goto L76;
L74:;
    if (v41 < 4ULL) goto L82;
    v241 = nd_bswap_i32((((((uint32_t)nd_load_8(((unsigned char *)((uintptr_t)v34 + 3))) << 8) | (uint32_t)nd_load_8(v40)) | ((uint32_t)nd_load_8(((unsigned char *)((uintptr_t)v34 + 4))) << 16)) | ((uint32_t)nd_load_8(((unsigned char *)((uintptr_t)v34 + 5))) << 24)));
    v242 = v241;
    v243 = (unsigned char *)((uintptr_t)v34 + 6);
    v244 = v36 + 18446744073709551610ULL;
L76:;
    if ((uint8_t)(v213 & 8) == 0) { v252 = 0ULL; v253 = v243; v254 = v244; goto L79; }
    if (v244 == 0ULL) goto L82;
    v252 = (uint64_t)nd_load_8(v243);
    v253 = (unsigned char *)((uintptr_t)v243 + 1);
    v254 = v244 + 18446744073709551615ULL;
L79:;
    v256 = (uint64_t)nd_load_8(v39);
    if (v254 < v256) goto L82;
    v258 = v254 - v256;
    if (v258 < v252) goto L82;
    if (!((v258 - v252) < (uint64_t)v242)) goto L83;
L82:;
    nd_stop();
L83:;
    if (v252 == 0ULL) goto L85;
    v265 = nd_ndef_diagnostics_few_count_id(v12.b, ((unsigned char *)((uintptr_t)v253 + (uintptr_t)v256)), v252);
    if (v265 > 1ULL) { v267 = 1; v268 = 9; v269 = 0; goto L87; }
L85:;
    v267 = 0;
    v268 = 0;
    v269 = 0;
    goto L87;
L86:;
    v267 = 0;
    v268 = 0;
    v269 = 0;
L87:;
    nd_store_8(v15.b, v267);
    nd_store_8((v15.b + 1), v268);
    nd_store_8((v15.b + 2), v269);
    v275 = nd_ndef_c_warnings_give_remark(v15.b, ((unsigned char *)((uintptr_t)v4 + (uintptr_t)((v4 == (unsigned char *)0) ? 4096ULL : 0ULL))), v5, v6);
    return v275;
}

static uint32_t nd_ndef_append_uri(unsigned char *v1, unsigned char *v2, uint64_t v3, unsigned char *v4, uint64_t v5, unsigned char *v6, uint64_t v7, unsigned char *v8) {
    unsigned char *v15, *v18, *v21, *v32;
    uint64_t v31, v35, v37, v38;
    uint8_t v33, v42;
    uint32_t v53, v54;
    ND_ROOM(24) v9, v10, v12;
    ND_ROOM(96) v11;
    v15 = (unsigned char *)((uintptr_t)v2 + (uintptr_t)((v2 == (unsigned char *)0) ? 4096ULL : 0ULL));
    v18 = (unsigned char *)((uintptr_t)v4 + (uintptr_t)((v4 == (unsigned char *)0) ? 4096ULL : 0ULL));
    v21 = (unsigned char *)((uintptr_t)v6 + (uintptr_t)((v6 == (unsigned char *)0) ? 4096ULL : 0ULL));
    nd_memset(v11.b, 0, 48);
    nd_memset(v12.b, 0, 24);
    nd_memset(v10.b, 0, 24);
    if (!(v5 < 64ULL)) goto L2;
    nd_core_str_utf8_from_utf8(v10.b, v18, v5);
    if (nd_load_8(v10.b) == 0) { v31 = nd_load_64((v10.b + 16)); v32 = nd_load_ptr((v10.b + 8)); goto L3; }
    v54 = 3U;
    goto L6;
L2:;
    nd_core_str_utf8_from_utf8(v9.b, v18, v5);
    if (nd_load_8(v9.b) == 0) { v31 = v5; v32 = v18; goto L3; }
    v54 = 3U;
    goto L6;
L3:;
    nd_ndef_types_prefixes_split(v12.b, v32, v31);
    v33 = nd_load_8(v12.b);
    v35 = nd_load_64((v12.b + 8));
    v37 = nd_load_64((v12.b + 16));
    v38 = nd_uadd_sat_i64(v37, 1ULL);
    if (!((v3 < 256ULL) & (int)(v38 < 4294967296ULL))) { v54 = 3U; goto L6; }
    v42 = nd_ndef_c_building_may_grow(v21, v7, v1);
    if (!v42) { v54 = 3U; goto L6; }
    nd_store_8(v11.b, 1);
    nd_store_ptr((v11.b + 8), (unsigned char *)nd_data_static_139);
    nd_store_64((v11.b + 16), 1ULL);
    nd_store_ptr((v11.b + 24), v15);
    nd_store_64((v11.b + 32), v3);
    nd_store_8((v11.b + 40), 2);
    nd_store_8((v11.b + 41), v33);
    nd_store_64((v11.b + 48), v35);
    nd_store_64((v11.b + 56), v37);
    nd_memset((v11.b + 64), 0, 24);
    nd_store_64((v11.b + 88), v38);
    v53 = nd_ndef_c_building_append_pending_record(v21, v7, v1, v11.b, v8);
    v54 = v53;
L6:;
    return v54;
}

static uint32_t nd_ndef_error(unsigned char *v1, uint64_t v2, unsigned char *v3, unsigned char *v4) {
    unsigned char *v9, *v17;
    uint8_t v12, v13, v16, v42;
    uint64_t v18, v53, v56;
    uint32_t v40, v41, v57, v60;
    ND_ROOM(12) v5;
    ND_ROOM(24) v6;
    v9 = (unsigned char *)((uintptr_t)v1 + (uintptr_t)((v1 == (unsigned char *)0) ? 4096ULL : 0ULL));
    nd_memset(v6.b, 0, 24);
    if (!(v2 > 4294967295ULL)) goto L2;
    v56 = 0ULL;
    v57 = 23U;
    goto L38;
L2:;
    nd_memset(v5.b, 0, 12);
    nd_store_8((v5.b + 9), 6);
    v12 = nd_ndef_lang_leaf_Leaf_is_completed_by(v5.b, v9, v2);
    if (!v12) goto L4;
    goto L6;
L4:;
    nd_ndef_lang_place_refusal_of(v6.b, 12, 0, v9, v2);
    v13 = nd_load_8(v6.b);
    if (v13 == 1) goto L12;
    if (!(v13 == 0)) { v56 = 0ULL; v57 = 1U; goto L38; }
L6:;
    v16 = nd_load_8(v9);
    v17 = (unsigned char *)((uintptr_t)v9 + 1);
    v18 = v2 + 18446744073709551615ULL;
    switch (v16) {
    case 1: goto L7;
    case 3: goto L7;
    case 2: goto L9;
    default: { v41 = 0U; v42 = 0; goto L11; } }
L7:;
    if (!(v18 == 1ULL)) { v41 = 0U; v42 = 0; goto L11; }
    v41 = (uint32_t)nd_load_8(v17);
    v42 = 1;
    goto L11;
L9:;
    if (!(v18 == 4ULL)) { v41 = 0U; v42 = 0; goto L11; }
    v40 = nd_bswap_i32((((((uint32_t)nd_load_8(((unsigned char *)((uintptr_t)v9 + 2))) << 8) | (uint32_t)nd_load_8(v17)) | ((uint32_t)nd_load_8(((unsigned char *)((uintptr_t)v9 + 3))) << 16)) | ((uint32_t)nd_load_8(((unsigned char *)((uintptr_t)v9 + 4))) << 24)));
    v41 = v40;
    v42 = 1;
L11:;
    nd_store_64(v3, 1ULL);
    nd_store_64((v3 + 8), v18);
    nd_store_32((v3 + 16), (uint32_t)v16);
    nd_store_32((v3 + 20), (uint32_t)v42);
    nd_store_32((v3 + 24), ((uint8_t)(v42 & 1) ? v41 : 0U));
    nd_store_32((v3 + 28), 0U);
    v60 = 0U;
    goto L39;
L12:;
    v53 = nd_load_64((v6.b + 8));
    switch (nd_load_8((v6.b + 16))) {
    case 0: { v56 = v53; v57 = 1U; goto L38; }
    case 1: goto L13;
    case 2: goto L14;
    case 3: goto L15;
    case 4: goto L16;
    case 5: goto L17;
    case 6: goto L18;
    case 7: goto L19;
    case 8: goto L20;
    case 9: goto L21;
    case 10: goto L22;
    case 11: goto L23;
    case 12: goto L24;
    case 13: goto L25;
    case 14: goto L26;
    case 15: goto L27;
    case 16: goto L28;
    case 17: goto L29;
    case 18: goto L30;
    case 19: goto L31;
    case 20: goto L32;
    case 21: goto L33;
    case 22: goto L34;
    case 23: goto L35;
    case 24: goto L36;
    default: goto L37; }
L13:;
    v56 = v53;
    v57 = 2U;
    goto L38;
L14:;
    v56 = v53;
    v57 = 3U;
    goto L38;
L15:;
    v56 = v53;
    v57 = 4U;
    goto L38;
L16:;
    v56 = v53;
    v57 = 5U;
    goto L38;
L17:;
    v56 = v53;
    v57 = 6U;
    goto L38;
L18:;
    v56 = v53;
    v57 = 7U;
    goto L38;
L19:;
    v56 = v53;
    v57 = 8U;
    goto L38;
L20:;
    v56 = v53;
    v57 = 9U;
    goto L38;
L21:;
    v56 = v53;
    v57 = 10U;
    goto L38;
L22:;
    v56 = v53;
    v57 = 11U;
    goto L38;
L23:;
    v56 = v53;
    v57 = 12U;
    goto L38;
L24:;
    v56 = v53;
    v57 = 13U;
    goto L38;
L25:;
    v56 = v53;
    v57 = 14U;
    goto L38;
L26:;
    v56 = v53;
    v57 = 15U;
    goto L38;
L27:;
    v56 = v53;
    v57 = 16U;
    goto L38;
L28:;
    v56 = v53;
    v57 = 17U;
    goto L38;
L29:;
    v56 = v53;
    v57 = 18U;
    goto L38;
L30:;
    v56 = v53;
    v57 = 19U;
    goto L38;
L31:;
    v56 = v53;
    v57 = 20U;
    goto L38;
L32:;
    v56 = v53;
    v57 = 21U;
    goto L38;
L33:;
    v56 = v53;
    v57 = 22U;
    goto L38;
L34:;
    v56 = v53;
    v57 = 25U;
    goto L38;
L35:;
    v56 = v53;
    v57 = 23U;
    goto L38;
L36:;
    v56 = v53;
    v57 = 24U;
    goto L38;
L37:;
    nd_stop();
L38:;
    nd_store_64(v4, v56);
    nd_store_32((v4 + 8), 0U);
    nd_store_32((v4 + 12), v57);
    v60 = 1U;
L39:;
    return v60;
}

static uint32_t nd_ndef_chunks(unsigned char *v1, uint64_t v2, uint64_t v3, unsigned char *v4, uint64_t v5, unsigned char *v6) {
    unsigned char *v12, *v15, *v30;
    uint64_t v22, v31;
    uint32_t v37;
    ND_ROOM(32) v7;
    ND_ROOM(24) v8;
    ND_ROOM(120) v9;
    v12 = (unsigned char *)((uintptr_t)v1 + (uintptr_t)((v1 == (unsigned char *)0) ? 4096ULL : 0ULL));
    v15 = (unsigned char *)((uintptr_t)v4 + (uintptr_t)((v4 == (unsigned char *)0) ? 4096ULL : 0ULL));
    nd_memset(v9.b, 0, 120);
    if (v2 < v3) goto L2;
    nd_ndef_c_run_first_run(v9.b, ((unsigned char *)((uintptr_t)v12 + (uintptr_t)v3)), (v2 - v3));
    if (nd_load_8(v9.b) == 1) goto L3;
L2:;
    v37 = 3U;
    goto L8;
L3:;
    v22 = nd_load_64((v9.b + 88));
    nd_store_64(v6, v22);
    if (v5 < v22) { v37 = 2U; goto L8; }
    nd_memset((v7.b + 25), 0, 7);
    nd_store_ptr(v7.b, v12);
    nd_store_64((v7.b + 8), v2);
    nd_store_64((v7.b + 16), v3);
    nd_store_8((v7.b + 24), 1);
    nd_ndef_c_chunks_PiecesIterator_next(v8.b, v7.b);
    if (!(nd_load_8(v8.b) == 1)) goto L7;
    v30 = v8.b + 8;
    v31 = 0ULL;
L6:;
    nd_memcpy((v15 + (ptrdiff_t)(v31 << 4)), v30, 16);
    nd_ndef_c_chunks_PiecesIterator_next(v8.b, v7.b);
    if (nd_load_8(v8.b) == 1) { v31 = v31 + 1ULL; goto L6; }
L7:;
    v37 = 0U;
L8:;
    return v37;
}

static uint32_t nd_ndef_references(unsigned char *v1, uint64_t v2, unsigned char *v3, uint64_t v4, unsigned char *v5) {
    unsigned char *v10, *v13, *v20, *v47;
    uint8_t v17, v33;
    uint64_t v26, v30, v34, v38, v39, v40, v43, v45;
    uint32_t v50;
    ND_ROOM(12) v6;
    ND_ROOM(24) v7;
    v10 = (unsigned char *)((uintptr_t)v1 + (uintptr_t)((v1 == (unsigned char *)0) ? 4096ULL : 0ULL));
    v13 = (unsigned char *)((uintptr_t)v3 + (uintptr_t)((v3 == (unsigned char *)0) ? 4096ULL : 0ULL));
    nd_memset(v7.b, 0, 24);
    if (!(v2 > 4294967295ULL)) goto L2;
    v50 = 3U;
    goto L9;
L2:;
    nd_memset(v6.b, 0, 12);
    nd_store_32((v6.b + 4), 1U);
    nd_store_8((v6.b + 9), 8);
    v17 = nd_ndef_lang_leaf_Leaf_is_completed_by(v6.b, v10, v2);
    if (!v17) goto L4;
    goto L5;
L4:;
    nd_ndef_lang_place_refusal_of(v7.b, 10, 0, v10, v2);
    if (!(nd_load_8(v7.b) == 0)) { v50 = 3U; goto L9; }
L5:;
    v20 = v10 + 1;
    v26 = (uint64_t)nd_load_8(((v10 + (ptrdiff_t)(uint64_t)nd_load_8(v20)) + 2));
    nd_store_64(v5, (v26 + 1ULL));
    if (!(v4 > v26)) { v50 = 2U; goto L9; }
    v30 = (uint64_t)nd_load_8(v20);
    v33 = nd_load_8(((v10 + (ptrdiff_t)v30) + 2));
    v34 = (uint64_t)v33;
    nd_store_64(v13, 2ULL);
    nd_store_64((v13 + 8), v30);
    if (v33 == 0) { v50 = 0U; goto L9; }
    v38 = v30 + 3ULL;
    v39 = 0ULL;
L8:;
    v40 = v38 + 1ULL;
    v43 = (uint64_t)nd_load_8((v10 + (ptrdiff_t)v38));
    v45 = v39 + 1ULL;
    v47 = v13 + (ptrdiff_t)(v45 << 4);
    nd_store_64(v47, v40);
    nd_store_64((v47 + 8), v43);
    if (v45 == v34) { v50 = 0U; goto L9; }
    v38 = v40 + v43;
    v39 = v45;
    goto L8;
L9:;
    return v50;
}

static uint32_t nd_ndef_append_text(unsigned char *v1, unsigned char *v2, uint64_t v3, unsigned char *v4, uint64_t v5, unsigned char *v6, uint64_t v7, uint32_t v8, unsigned char *v9, uint64_t v10, unsigned char *v11) {
    unsigned char *v18, *v27, *v39, *v47, *v51;
    uint8_t v31, v33, v71;
    uint64_t v35, v37, v41, v43, v45, v46, v48, v50, v54, v56, v57, v61, v63, v64, v66, v67;
    uint32_t v84, v85;
    ND_ROOM(1) v12;
    ND_ROOM(24) v13;
    ND_ROOM(96) v14;
    ND_ROOM(56) v15;
    v18 = (unsigned char *)((uintptr_t)v2 + (uintptr_t)((v2 == (unsigned char *)0) ? 4096ULL : 0ULL));
    v27 = (unsigned char *)((uintptr_t)v9 + (uintptr_t)((v9 == (unsigned char *)0) ? 4096ULL : 0ULL));
    nd_memset(v14.b, 0, 48);
    nd_memset(v15.b, 0, 56);
    nd_ndef_c_text_text_content(v15.b, ((unsigned char *)((uintptr_t)v4 + (uintptr_t)((v4 == (unsigned char *)0) ? 4096ULL : 0ULL))), v5, ((unsigned char *)((uintptr_t)v6 + (uintptr_t)((v6 == (unsigned char *)0) ? 4096ULL : 0ULL))), v7, v8);
    if (!(nd_load_8(v15.b) == 1)) { v85 = 3U; goto L12; }
    v31 = nd_load_8((v15.b + 8));
    v33 = nd_load_8((v15.b + 9));
    v35 = nd_load_64((v15.b + 16));
    v37 = nd_load_64((v15.b + 24));
    v39 = nd_load_ptr((v15.b + 32));
    v41 = nd_load_64((v15.b + 40));
    v43 = nd_load_64((v15.b + 48));
    nd_store_ptr(v13.b, v12.b);
    nd_store_64((v13.b + 8), 0ULL);
    switch (v31) {
    case 0: goto L2;
    case 1: goto L3;
    case 2: goto L4;
    case 3: goto L5;
    case 4: goto L7;
    case 5: { v67 = v37; goto L9; }
    default: goto L8; }
L2:;
    v45 = nd_uadd_sat_i64(v37, 1ULL);
    v46 = nd_uadd_sat_i64(v41, v45);
    v67 = v46;
    goto L9;
L3:;
    v47 = v13.b + 16;
    v48 = nd_uadd_sat_i64(v37, 3ULL);
    nd_store_64(v47, v48);
    nd_ndef_c_utf16_put_units(v13.b, v39, v41);
    v67 = nd_load_64(v47);
    goto L9;
L4:;
    v50 = nd_uadd_sat_i64(v37, 1ULL);
    v67 = v50;
    goto L9;
L5:;
    v51 = (unsigned char *)(uintptr_t)v41;
    v54 = nd_uadd_sat_i64(nd_load_64(((unsigned char *)((uintptr_t)v39 + 8))), 3ULL);
    if (v43 == 0ULL) { v67 = v54; goto L9; }
    v56 = v54;
    v57 = 0ULL;
L6:;
    v61 = nd_uadd_sat_i64(v56, 1ULL);
    v63 = nd_uadd_sat_i64(nd_load_64(((unsigned char *)((uintptr_t)((unsigned char *)((uintptr_t)v51 + (uintptr_t)(v57 << 4))) + 8))), v61);
    v64 = v57 + 1ULL;
    if (v64 == v43) { v67 = v63; goto L9; }
    v56 = v63;
    v57 = v64;
    goto L6;
L7:;
    v66 = nd_uadd_sat_i64(v37, 1ULL);
    v67 = v66;
    goto L9;
L8:;
    nd_stop();
L9:;
    if (!((v3 < 256ULL) & (int)(v67 < 4294967296ULL))) { v85 = 3U; goto L12; }
    v71 = nd_ndef_c_building_may_grow(v27, v10, v1);
    if (!v71) { v85 = 3U; goto L12; }
    nd_store_8(v14.b, 1);
    nd_store_ptr((v14.b + 8), (unsigned char *)nd_data_static_140);
    nd_store_64((v14.b + 16), 1ULL);
    nd_store_ptr((v14.b + 24), v18);
    nd_store_64((v14.b + 32), v3);
    nd_store_8((v14.b + 40), v31);
    nd_store_8((v14.b + 41), v33);
    nd_store_64((v14.b + 48), v35);
    nd_store_64((v14.b + 56), v37);
    nd_store_ptr((v14.b + 64), v39);
    nd_store_64((v14.b + 72), v41);
    nd_store_64((v14.b + 80), v43);
    nd_store_64((v14.b + 88), v67);
    v84 = nd_ndef_c_building_append_pending_record(v27, v10, v1, v14.b, v11);
    v85 = v84;
L12:;
    return v85;
}

static uint32_t nd_ndef_write_text(unsigned char *v1, uint64_t v2, unsigned char *v3, uint64_t v4, uint32_t v5, unsigned char *v6, uint64_t v7, unsigned char *v8) {
    uint32_t v31, v32;
    ND_ROOM(48) v9;
    ND_ROOM(56) v10;
    nd_store_64(v9.b, 0ULL);
    nd_memset(v10.b, 0, 56);
    nd_ndef_c_text_text_content(v10.b, ((unsigned char *)((uintptr_t)v1 + (uintptr_t)((v1 == (unsigned char *)0) ? 4096ULL : 0ULL))), v2, ((unsigned char *)((uintptr_t)v3 + (uintptr_t)((v3 == (unsigned char *)0) ? 4096ULL : 0ULL))), v4, v5);
    if (!(nd_load_8(v10.b) == 1)) { v32 = 3U; goto L2; }
    nd_store_8(v9.b, nd_load_8((v10.b + 8)));
    nd_store_8((v9.b + 1), nd_load_8((v10.b + 9)));
    nd_memcpy((v9.b + 8), (v10.b + 16), 16);
    nd_memcpy((v9.b + 24), (v10.b + 32), 24);
    v31 = nd_ndef_c_content_give_content(v9.b, ((unsigned char *)((uintptr_t)v6 + (uintptr_t)((v6 == (unsigned char *)0) ? 4096ULL : 0ULL))), v7, v8);
    v32 = v31;
L2:;
    return v32;
}

static uint32_t nd_ndef_status_name(uint32_t v1, unsigned char *v2, uint64_t v3, unsigned char *v4) {
    unsigned char *v7, *v14;
    uint64_t v12, v20, v24;
    uint32_t v26;
    v7 = (unsigned char *)((uintptr_t)v2 + (uintptr_t)((v2 == (unsigned char *)0) ? 4096ULL : 0ULL));
    if (!(v1 < 6U)) { v26 = 3U; goto L5; }
    v12 = nd_load_64(((unsigned char *)nd_data_switch_table_ndef_status_name + (ptrdiff_t)(uint64_t)v1 * 8));
    v14 = nd_load_ptr(((unsigned char *)&nd_data_switch_table_ndef_status_name_19 + (ptrdiff_t)(uint64_t)v1 * 8));
    nd_store_64(v4, v12);
    if (v3 < v12) { v26 = 2U; goto L5; }
    if (((uint64_t)(uintptr_t)v7 - (uint64_t)(uintptr_t)v14) < v12) { v20 = 0ULL; goto L4; }
    nd_copy(v7, v14, v12);
    v26 = 0U;
    goto L5;
L4:;
    nd_store_8((v7 + (ptrdiff_t)v20), nd_load_8((v14 + (ptrdiff_t)v20)));
    v24 = v20 + 1ULL;
    if (v24 == v12) { v26 = 0U; goto L5; }
    v20 = v24;
    goto L4;
L5:;
    return v26;
}

static uint32_t nd_ndef_check_layout(unsigned char *v1, uint64_t v2, unsigned char *v3, uint64_t v4, unsigned char *v5) {
    unsigned char *v9, *v12, *v15, *v17, *v37, *v42, *v67, *v69, *v96, *v99, *v104, *v109, *v138, *v139;
    uint64_t v16, v18, v29, v38, v39, v40, v43, v47, v56, v57, v58, v59, v66, v68, v82, v95, v98, v100, v102, v105, v106, v107, v110, v114, v123, v124, v125, v126, v131, v137, v140, v143;
    uint32_t v23, v30, v31, v32, v51, v72, v74, v118, v150;
    uint8_t v41, v55, v60, v87, v108, v122, v127, v130, v132, v145;
    ND_ROOM(1) v6;
    v9 = (unsigned char *)((uintptr_t)v1 + (uintptr_t)((v1 == (unsigned char *)0) ? 4096ULL : 0ULL));
    v12 = (unsigned char *)((uintptr_t)v3 + (uintptr_t)((v3 == (unsigned char *)0) ? 4096ULL : 0ULL));
    if (v4 > 255ULL) { v150 = 3U; goto L38; }
    if (v4 == 0ULL) goto L8;
    v15 = v12;
    v16 = v4;
L2:;
    v17 = (unsigned char *)((uintptr_t)v15 + 12);
    v18 = v16 + 18446744073709551615ULL;
    switch (nd_load_32(v15)) {
    case 1U: goto L5;
    case 2U: goto L3;
    case 3U: goto L5;
    case 4U: goto L4;
    case 5U: goto L4;
    default: { v150 = 3U; goto L38; } }
L3:;
    v23 = nd_load_32(((unsigned char *)((uintptr_t)v15 + 8)));
    if ((nd_load_32(((unsigned char *)((uintptr_t)v15 + 4))) <= v23) & (int)(v23 < 256U)) goto L5;
    v150 = 3U;
    goto L38;
L4:;
    if (v18 == 0ULL) goto L7;
    v150 = 3U;
    goto L38;
L5:;
    if (v18 == 0ULL) goto L7;
    v15 = v17;
    v16 = v18;
    goto L2;
L6:;
    nd_store_64(v5, v29);
    nd_store_32((v5 + 8), v30);
    nd_store_32((v5 + 12), v31);
    v150 = v32;
    goto L38;
L7:;
    if (v2 > 4294967295ULL) { v29 = 0ULL; v30 = 23U; v31 = 0U; v32 = 1U; goto L6; }
    v37 = v12;
    v38 = v4;
    v39 = 0ULL;
    v40 = 0ULL;
    v41 = 0;
    goto L9;
L8:;
    if (v2 == 0ULL) goto L37;
    v29 = 0ULL;
    v30 = 23U;
    v31 = 0U;
    v32 = 1U;
    goto L6;
L9:;
    v42 = (unsigned char *)((uintptr_t)v37 + 12);
    v43 = v38 + 18446744073709551615ULL;
    switch (nd_load_32(v37)) {
    case 1U: goto L10;
    case 2U: goto L11;
    case 3U: { v55 = 0; v56 = 1ULL; v57 = 256ULL; goto L13; }
    case 4U: goto L12;
    case 5U: goto L12;
    default: goto L14; }
L10:;
    v47 = (uint64_t)nd_load_32(((unsigned char *)((uintptr_t)v37 + 4)));
    v55 = 0;
    v56 = v47;
    v57 = v47;
    goto L13;
L11:;
    v51 = nd_load_32(((unsigned char *)((uintptr_t)v37 + 8)));
    if ((nd_load_32(((unsigned char *)((uintptr_t)v37 + 4))) <= v51) & (int)(v51 < 256U)) { v55 = 0; v56 = 1ULL; v57 = 1ULL; goto L13; }
    goto L14;
L12:;
    v55 = 1;
    v56 = 0ULL;
    v57 = 0ULL;
L13:;
    v58 = v56 + v39;
    v59 = v57 + v40;
    v60 = v41 | v55;
    if (v43 == 0ULL) goto L15;
    v37 = v42;
    v38 = v43;
    v39 = v58;
    v40 = v59;
    v41 = v60;
    goto L9;
L14:;
    nd_stop();
L15:;
    if ((uint8_t)((v58 <= v2) ? (uint8_t)(v60 ? 1 : (v2 <= v59)) : 0)) { v66 = v2; v67 = v9; v68 = v4; v69 = v12; goto L16; }
    v29 = 0ULL;
    v30 = 23U;
    v31 = 0U;
    v32 = 1U;
    goto L6;
L16:;
    switch (nd_load_32(v69)) {
    case 1U: goto L19;
    case 2U: goto L17;
    case 3U: goto L22;
    case 4U: goto L35;
    case 5U: goto L37;
    default: goto L18; }
L17:;
    v72 = nd_load_32(((unsigned char *)((uintptr_t)v69 + 4)));
    v74 = nd_load_32(((unsigned char *)((uintptr_t)v69 + 8)));
    if ((v72 <= v74) & (int)(v74 < 256U)) goto L20;
L18:;
    nd_stop();
L19:;
    v82 = (uint64_t)nd_load_32(((unsigned char *)((uintptr_t)v69 + 4)));
    v137 = v68 + 18446744073709551615ULL;
    v138 = (unsigned char *)((uintptr_t)v69 + 12);
    v139 = (unsigned char *)((uintptr_t)v67 + (uintptr_t)v82);
    v140 = v66 - v82;
    goto L33;
L20:;
    v87 = nd_load_8(v67);
    if ((uint8_t)((v87 < (uint8_t)v72) ? 1 : (v87 > (uint8_t)v74))) goto L34;
    v137 = v68 + 18446744073709551615ULL;
    v138 = (unsigned char *)((uintptr_t)v69 + 12);
    v139 = (unsigned char *)((uintptr_t)v67 + 1);
    v140 = v66 + 18446744073709551615ULL;
    goto L33;
L22:;
    v95 = v68 + 18446744073709551615ULL;
    v96 = (unsigned char *)((uintptr_t)v69 + 12);
    v98 = (uint64_t)nd_load_8(v67);
    v99 = (unsigned char *)((uintptr_t)v67 + 1);
    v100 = v66 + 18446744073709551615ULL;
    if (v100 < v98) goto L34;
    v102 = v100 - v98;
    if (v95 == 0ULL) { v130 = 0; v131 = 0ULL; v132 = 1; goto L31; }
    v104 = v96;
    v105 = v95;
    v106 = 0ULL;
    v107 = 0ULL;
    v108 = 0;
L24:;
    v109 = (unsigned char *)((uintptr_t)v104 + 12);
    v110 = v105 + 18446744073709551615ULL;
    switch (nd_load_32(v104)) {
    case 1U: goto L25;
    case 2U: goto L26;
    case 3U: { v122 = 0; v123 = 1ULL; v124 = 256ULL; goto L28; }
    case 4U: goto L27;
    case 5U: goto L27;
    default: goto L29; }
L25:;
    v114 = (uint64_t)nd_load_32(((unsigned char *)((uintptr_t)v104 + 4)));
    v122 = 0;
    v123 = v114;
    v124 = v114;
    goto L28;
L26:;
    v118 = nd_load_32(((unsigned char *)((uintptr_t)v104 + 8)));
    if ((nd_load_32(((unsigned char *)((uintptr_t)v104 + 4))) <= v118) & (int)(v118 < 256U)) { v122 = 0; v123 = 1ULL; v124 = 1ULL; goto L28; }
    goto L29;
L27:;
    v122 = 1;
    v123 = 0ULL;
    v124 = 0ULL;
L28:;
    v125 = v123 + v106;
    v126 = v124 + v107;
    v127 = v108 | v122;
    if (v110 == 0ULL) goto L30;
    v104 = v109;
    v105 = v110;
    v106 = v125;
    v107 = v126;
    v108 = v127;
    goto L24;
L29:;
    nd_stop();
L30:;
    v130 = v127;
    v131 = v126;
    v132 = v125 <= v102;
L31:;
    if (!(uint8_t)(v132 ? (uint8_t)(v130 ? 1 : (v102 <= v131)) : 0)) goto L34;
    v137 = v95;
    v138 = v96;
    v139 = (unsigned char *)((uintptr_t)v99 + (uintptr_t)v98);
    v140 = v102;
L33:;
    if (v137 == 0ULL) goto L37;
    v66 = v140;
    v67 = v139;
    v68 = v137;
    v69 = v138;
    goto L16;
L34:;
    v29 = v2 - v66;
    v30 = 23U;
    v31 = 1U;
    v32 = 1U;
    goto L6;
L35:;
    nd_store_8(v6.b, 0);
    v143 = nd_ndef_lang_utf8_Utf8Lang_take(v6.b, v67, v66, v66, v66);
    v145 = nd_load_8(v6.b);
    if (v143 == v66) goto L37;
    v29 = (v2 - v66) + v143;
    v30 = (v145 == 8) ? 17U : 23U;
    v31 = 1U;
    v32 = 1U;
    goto L6;
L37:;
    v29 = v2;
    v30 = 0U;
    v31 = 1U;
    v32 = 0U;
    goto L6;
L38:;
    return v150;
}

static uint32_t nd_ndef_kind(unsigned char *v1, uint64_t v2, unsigned char *v3, uint32_t v4) {
    uint32_t v8;
    v8 = nd_ndef_c_kinds_ndef_kind(((unsigned char *)((uintptr_t)v1 + (uintptr_t)((v1 == (unsigned char *)0) ? 4096ULL : 0ULL))), v2, v3, v4);
    return v8;
}

static uint32_t nd_ndef_find_id(unsigned char *v1, uint64_t v2, uint64_t v3, unsigned char *v4, uint64_t v5, unsigned char *v6) {
    uint32_t v17;
    ND_ROOM(24) v7;
    nd_store_32(v7.b, 1U);
    nd_store_32((v7.b + 4), 0U);
    nd_store_ptr((v7.b + 8), ((unsigned char *)((uintptr_t)v4 + (uintptr_t)((v4 == (unsigned char *)0) ? 4096ULL : 0ULL))));
    nd_store_64((v7.b + 16), v5);
    v17 = nd_ndef_c_finding_find(((unsigned char *)((uintptr_t)v1 + (uintptr_t)((v1 == (unsigned char *)0) ? 4096ULL : 0ULL))), v2, v3, v7.b, v6);
    return v17;
}

static uint32_t nd_ndef_find_type(unsigned char *v1, uint64_t v2, uint64_t v3, uint32_t v4, unsigned char *v5, uint64_t v6, unsigned char *v7) {
    uint32_t v18;
    ND_ROOM(24) v8;
    nd_store_32(v8.b, 0U);
    nd_store_32((v8.b + 4), v4);
    nd_store_ptr((v8.b + 8), ((unsigned char *)((uintptr_t)v5 + (uintptr_t)((v5 == (unsigned char *)0) ? 4096ULL : 0ULL))));
    nd_store_64((v8.b + 16), v6);
    v18 = nd_ndef_c_finding_find(((unsigned char *)((uintptr_t)v1 + (uintptr_t)((v1 == (unsigned char *)0) ? 4096ULL : 0ULL))), v2, v3, v8.b, v7);
    return v18;
}

static uint32_t nd_ndef_poster_media_type(unsigned char *v1, uint64_t v2, unsigned char *v3) {
    unsigned char *v8, *v25, *v26, *v27, *v28, *v29, *v30, *v31;
    uint8_t v10, v22, v43, v45, v47;
    uint64_t v23, v32, v39, v40, v41, v42, v44, v49, v54;
    uint32_t v62;
    ND_ROOM(120) v4;
    ND_ROOM(88) v5;
    v8 = (unsigned char *)((uintptr_t)v1 + (uintptr_t)((v1 == (unsigned char *)0) ? 4096ULL : 0ULL));
    if (v2 > 4294967295ULL) { v62 = 3U; goto L16; }
    v10 = nd_ndef_nest_member_is_nested(0, 65535U, 1, v8, v2);
    if (v10) goto L6;
    nd_store_64(v5.b, 281470681874433ULL);
    nd_store_8((v5.b + 8), 1);
    nd_store_8((v5.b + 9), 1);
    nd_store_8((v5.b + 10), 0);
    nd_store_8((v5.b + 11), 1);
    nd_store_32((v5.b + 12), 0U);
    nd_store_32((v5.b + 16), 4294967295U);
    nd_memset((v5.b + 20), 0, 36);
    nd_store_32((v5.b + 56), 1U);
    nd_memset((v5.b + 60), 0, 20);
    nd_store_8((v5.b + 80), 23);
    nd_memset((v5.b + 81), 0, 7);
    v22 = nd_ndef_nest_nest_NestLanguage_fits(v5.b, v2, v2);
    if (!v22) goto L5;
    v23 = nd_ndef_nest_nest_NestLanguage_step_all(v5.b, v8, v2, v2, v2);
    if (v23 < v2) goto L5;
    goto L6;
L5:;
    v62 = 3U;
    goto L16;
L6:;
    v25 = v4.b + 8;
    v26 = v4.b + 24;
    v27 = v4.b + 40;
    v28 = v4.b + 56;
    v29 = v4.b + 72;
    v30 = v4.b + 96;
    v31 = v4.b + 112;
    v32 = 0ULL;
L7:;
    nd_memset(v4.b, 0, 120);
    if (v2 < v32) goto L9;
    nd_ndef_c_run_first_run(v4.b, ((unsigned char *)((uintptr_t)v8 + (uintptr_t)v32)), (v2 - v32));
    if (nd_load_8(v4.b) == 1) goto L10;
L9:;
    v62 = 4U;
    goto L16;
L10:;
    v39 = nd_load_64(v26);
    v40 = nd_load_64(v27);
    v41 = nd_load_64(v28);
    v42 = nd_load_64(v29);
    v43 = nd_load_8(v30);
    v44 = nd_load_64(v31);
    v45 = (uint8_t)(nd_load_8(v25) & 7);
    v47 = (uint8_t)((v45 == 7) ? 5 : v45);
    if (v47 < 6) goto L12;
    nd_stop();
L12:;
    v49 = v2 - v44;
    if (!(uint8_t)((v47 == 1) ? (v39 == 1ULL) : 0)) goto L15;
    v54 = v2 - (v41 + v42);
    if (!(nd_load_8(((unsigned char *)((uintptr_t)((unsigned char *)((uintptr_t)v8 + (uintptr_t)v54)) + (uintptr_t)(v40 ^ 18446744073709551615ULL)))) == 116)) goto L15;
    nd_store_64(v3, v54);
    nd_store_64((v3 + 8), v41);
    v62 = 0U;
    goto L16;
L15:;
    if ((uint8_t)(v43 & 1)) { v62 = 4U; goto L16; }
    v32 = v49;
    goto L7;
L16:;
    return v62;
}

static uint32_t nd_ndef_field_at(unsigned char *v1, uint64_t v2, unsigned char *v3, uint64_t v4, unsigned char *v5, unsigned char *v6) {
    uint32_t v10;
    v10 = nd_ndef_c_fields_ndef_field_at(((unsigned char *)((uintptr_t)v1 + (uintptr_t)((v1 == (unsigned char *)0) ? 4096ULL : 0ULL))), v2, v3, v4, v5, v6);
    return v10;
}

static uint32_t nd_ndef_find_hint(unsigned char *v1, uint64_t v2, unsigned char *v3, unsigned char *v4) {
    unsigned char *v9;
    uint32_t v11, v13, v15, v17, v49, v54;
    uint64_t v37, v48, v50;
    ND_ROOM(16) v5;
    ND_ROOM(24) v6;
    v9 = (unsigned char *)((uintptr_t)v1 + (uintptr_t)((v1 == (unsigned char *)0) ? 4096ULL : 0ULL));
    nd_memset(v6.b, 0, 24);
    v11 = nd_load_32(((unsigned char *)((uintptr_t)v3 + 12)));
    if (v11 > 3U) { v54 = 3U; goto L11; }
    v13 = nd_load_32(v3);
    v15 = nd_load_32(((unsigned char *)((uintptr_t)v3 + 4)));
    v17 = nd_load_32(((unsigned char *)((uintptr_t)v3 + 8)));
    if (!(uint8_t)((((v13 != 0U) & (int)((v15 + 4294967295U) < 65535U)) & (int)((v17 + 4294967295U) < 65535U)) ? (v11 < 2U) : 0)) { v54 = 3U; goto L11; }
    nd_store_32(v5.b, v13);
    nd_store_32((v5.b + 4), v15);
    nd_store_32((v5.b + 8), v17);
    nd_store_8((v5.b + 12), (uint8_t)v11);
    nd_memset((v5.b + 13), 0, 3);
    nd_ndef_c_hints_hint_of(v6.b, v9, v2, v5.b);
    if (!(nd_load_8(v6.b) == 1)) { v54 = 4U; goto L11; }
    v37 = nd_load_64((v6.b + 16));
    switch (nd_load_8((v6.b + 8))) {
    case 0: goto L9;
    case 2: { v48 = v37; v49 = 4U; v50 = 0ULL; goto L10; }
    case 3: goto L4;
    case 1: goto L5;
    case 4: goto L6;
    case 5: goto L7;
    default: goto L8; }
L4:;
    v48 = 0ULL;
    v49 = 5U;
    v50 = 0ULL;
    goto L10;
L5:;
    v48 = 0ULL;
    v49 = (uint32_t)nd_load_8((v6.b + 9)) + 6U;
    v50 = 0ULL;
    goto L10;
L6:;
    v48 = 0ULL;
    v49 = 13U;
    v50 = 0ULL;
    goto L10;
L7:;
    v48 = 0ULL;
    v49 = 14U;
    v50 = 0ULL;
    goto L10;
L8:;
    nd_stop();
L9:;
    v48 = v37 & 4294967295ULL;
    v49 = (uint32_t)nd_load_8((v6.b + 12)) + 1U;
    v50 = v37 >> 32;
L10:;
    nd_store_32(v4, v49);
    nd_store_32((v4 + 4), 0U);
    nd_store_64((v4 + 8), v48);
    nd_store_64((v4 + 16), v50);
    v54 = 0U;
L11:;
    return v54;
}

static uint32_t nd_ndef_hint(unsigned char *v1, uint64_t v2, unsigned char *v3, unsigned char *v4, uint64_t v5, unsigned char *v6) {
    unsigned char *v18, *v21, *v54, *v55, *v56, *v57, *v58, *v63, *v67, *v98, *v106, *v126, *v144, *v150, *v153, *v155, *v157;
    uint32_t v23, v25, v27, v29, v51, v169, v170;
    uint8_t v49;
    uint64_t v53, v59, v64, v90, v94, v99, v103, v123, v141, v151, v154, v159, v166;
    ND_ROOM(192) v7, v10, v11;
    ND_ROOM(200) v8, v9, v12, v14;
    ND_ROOM(16) v13;
    ND_ROOM(24) v15;
    v18 = (unsigned char *)((uintptr_t)v1 + (uintptr_t)((v1 == (unsigned char *)0) ? 4096ULL : 0ULL));
    v21 = (unsigned char *)((uintptr_t)v4 + (uintptr_t)((v4 == (unsigned char *)0) ? 4096ULL : 0ULL));
    v23 = nd_load_32(((unsigned char *)((uintptr_t)v3 + 12)));
    if (v23 > 3U) { v170 = 3U; goto L49; }
    v25 = nd_load_32(v3);
    v27 = nd_load_32(((unsigned char *)((uintptr_t)v3 + 4)));
    v29 = nd_load_32(((unsigned char *)((uintptr_t)v3 + 8)));
    if (!(uint8_t)((((v25 != 0U) & (int)((v27 + 4294967295U) < 65535U)) & (int)((v29 + 4294967295U) < 65535U)) ? (v23 < 2U) : 0)) { v170 = 3U; goto L49; }
    nd_store_32(v13.b, v25);
    nd_store_32((v13.b + 4), v27);
    nd_store_32((v13.b + 8), v29);
    nd_store_8((v13.b + 12), (uint8_t)v23);
    nd_memset((v13.b + 13), 0, 3);
    nd_memset(v15.b, 0, 24);
    nd_ndef_c_hints_hint_of(v15.b, v18, v2, v13.b);
    if (!(nd_load_8(v15.b) == 1)) { v169 = 4U; goto L48; }
    v49 = nd_load_8((v15.b + 9));
    v51 = nd_load_32((v15.b + 12));
    v53 = nd_load_64((v15.b + 16));
    v54 = v9.b + 73;
    v55 = v9.b + 70;
    v56 = v9.b + 74;
    v57 = v9.b + 92;
    v58 = v9.b + 86;
    switch (nd_load_8((v15.b + 8))) {
    case 0: goto L4;
    case 1: goto L30;
    case 2: goto L39;
    case 3: goto L42;
    case 4: goto L43;
    case 5: goto L44;
    default: goto L45; }
L4:;
    v59 = v53 >> 32;
    if (!(v59 == 0ULL)) goto L6;
    nd_memset((v11.b + 49), 0, 143);
    nd_memcpy(v11.b, (unsigned char *)nd_data_static_157, 49);
    v150 = v11.b;
    v151 = 49ULL;
    goto L29;
L6:;
    nd_memset((v10.b + 20), 0, 172);
    nd_memcpy(v10.b, (unsigned char *)nd_data_static_158, 20);
    nd_memcpy(v12.b, v10.b, 192);
    v63 = v12.b + 192;
    nd_store_64(v63, 20ULL);
    nd_ndef_diagnostics_sentence_Sentence_push_number(v12.b, v59);
    v64 = nd_load_64(v63);
    if ((v64 + 18446744073709551442ULL) < 19ULL) goto L10;
    v67 = (unsigned char *)((uintptr_t)v12.b + (uintptr_t)v64);
    if (!(((uint64_t)(uintptr_t)v67 - (uint64_t)(uintptr_t)(unsigned char *)nd_data_static_159) < 19ULL)) goto L9;
    nd_store_8(v67, 32);
    nd_store_8((v67 + 1), 109);
    nd_store_8((v67 + 2), 97);
    nd_store_8((v67 + 3), 121);
    nd_store_8((v67 + 4), 32);
    nd_store_8((v67 + 5), 98);
    nd_store_8((v67 + 6), 101);
    nd_store_8((v67 + 7), 103);
    nd_store_8((v67 + 8), 105);
    nd_store_8((v67 + 9), 110);
    nd_store_8((v67 + 10), 32);
    nd_store_8((v67 + 11), 97);
    nd_store_8((v67 + 12), 116);
    nd_store_8((v67 + 13), 32);
    nd_store_8((v67 + 14), 98);
    nd_store_8((v67 + 15), 121);
    nd_store_8((v67 + 16), 116);
    nd_store_8((v67 + 17), 101);
    nd_store_8((v67 + 18), 32);
    goto L11;
L9:;
    nd_memcpy(v67, (unsigned char *)nd_data_static_159, 19);
    goto L11;
L10:;
    nd_stop();
L11:;
    nd_store_64(v63, (v64 + 19ULL));
    v90 = v53 & 4294967295ULL;
    v94 = nd_load_64(((unsigned char *)nd_data_switch_table_ndef_hint + (ptrdiff_t)(uint64_t)(v51 & 255U) * 8));
    v98 = nd_load_ptr(((unsigned char *)&nd_data_switch_table_ndef_hint_20 + (ptrdiff_t)(uint64_t)(v51 & 255U) * 8));
    nd_ndef_diagnostics_sentence_Sentence_push_number(v12.b, v90);
    v99 = nd_load_64(v63);
    if ((192ULL - v99) < v94) goto L13;
    nd_copy(((unsigned char *)((uintptr_t)v12.b + (uintptr_t)v99)), v98, v94);
    v103 = v99 + v94;
    if ((v103 + 18446744073709551435ULL) < 12ULL) goto L17;
    goto L14;
L13:;
    nd_stop();
L14:;
    v106 = (unsigned char *)((uintptr_t)v12.b + (uintptr_t)v103);
    if (!(((uint64_t)(uintptr_t)v106 - (uint64_t)(uintptr_t)(unsigned char *)nd_data_static_160) < 12ULL)) goto L16;
    nd_store_8(v106, 58);
    nd_store_8((v106 + 1), 32);
    nd_store_8((v106 + 2), 96);
    nd_store_8((v106 + 3), 116);
    nd_store_8((v106 + 4), 97);
    nd_store_8((v106 + 5), 105);
    nd_store_8((v106 + 6), 108);
    nd_store_8((v106 + 7), 32);
    nd_store_8((v106 + 8), 45);
    nd_store_8((v106 + 9), 99);
    nd_store_8((v106 + 10), 32);
    nd_store_8((v106 + 11), 43);
    goto L18;
L16:;
    nd_memcpy(v106, (unsigned char *)nd_data_static_160, 12);
    goto L18;
L17:;
    nd_stop();
L18:;
    nd_store_64(v63, (v103 + 12ULL));
    nd_ndef_diagnostics_sentence_Sentence_push_number(v12.b, (v90 + 1ULL));
    v123 = nd_load_64(v63);
    if ((v123 + 18446744073709551434ULL) < 11ULL) goto L22;
    v126 = (unsigned char *)((uintptr_t)v12.b + (uintptr_t)v123);
    if (!(((uint64_t)(uintptr_t)v126 - (uint64_t)(uintptr_t)(unsigned char *)nd_data_static_164) < 11ULL)) goto L21;
    nd_store_8(v126, 32);
    nd_store_8((v126 + 1), 124);
    nd_store_8((v126 + 2), 32);
    nd_store_8((v126 + 3), 104);
    nd_store_8((v126 + 4), 101);
    nd_store_8((v126 + 5), 97);
    nd_store_8((v126 + 6), 100);
    nd_store_8((v126 + 7), 32);
    nd_store_8((v126 + 8), 45);
    nd_store_8((v126 + 9), 99);
    nd_store_8((v126 + 10), 32);
    goto L23;
L21:;
    nd_memcpy(v126, (unsigned char *)nd_data_static_164, 11);
    goto L23;
L22:;
    nd_stop();
L23:;
    nd_store_64(v63, (v123 + 11ULL));
    nd_ndef_diagnostics_sentence_Sentence_push_number(v12.b, v59);
    v141 = nd_load_64(v63);
    if ((v141 + 18446744073709551425ULL) < 2ULL) goto L27;
    v144 = (unsigned char *)((uintptr_t)v12.b + (uintptr_t)v141);
    if (!(((uint64_t)(uintptr_t)v144 - (uint64_t)(uintptr_t)(unsigned char *)nd_data_static_165) < 2ULL)) goto L26;
    nd_store_8(v144, 96);
    nd_store_8((v144 + 1), 46);
    goto L28;
L26:;
    nd_store_16(v144, 11872);
    goto L28;
L27:;
    nd_stop();
L28:;
    v150 = v12.b;
    v151 = v141 + 2ULL;
L29:;
    nd_memcpy(v7.b, v150, 192);
    v166 = v151;
    goto L46;
L30:;
    switch (v49) {
    case 0: { v153 = v9.b + 80; v154 = 80ULL; v155 = (unsigned char *)nd_data_static_166; goto L38; }
    case 1: goto L31;
    case 2: goto L32;
    case 3: goto L33;
    case 4: goto L34;
    case 5: goto L35;
    case 6: goto L36;
    default: goto L37; }
L31:;
    v153 = v55;
    v154 = 70ULL;
    v155 = (unsigned char *)nd_data_static_167;
    goto L38;
L32:;
    v153 = v56;
    v154 = 74ULL;
    v155 = (unsigned char *)nd_data_static_168;
    goto L38;
L33:;
    v153 = v57;
    v154 = 92ULL;
    v155 = (unsigned char *)nd_data_static_169;
    goto L38;
L34:;
    v153 = v57;
    v154 = 92ULL;
    v155 = (unsigned char *)nd_data_static_170;
    goto L38;
L35:;
    v153 = v58;
    v154 = 86ULL;
    v155 = (unsigned char *)nd_data_static_171;
    goto L38;
L36:;
    v153 = v54;
    v154 = 73ULL;
    v155 = (unsigned char *)nd_data_static_172;
    goto L38;
L37:;
    nd_stop();
L38:;
    nd_fill(v153, 0, (200ULL - v154));
    nd_copy(v9.b, v155, v154);
    nd_memcpy(v7.b, v9.b, 192);
    v166 = v154;
    goto L46;
L39:;
    v157 = v8.b + 192;
    nd_memset((v8.b + 85), 0, 107);
    nd_memcpy(v8.b, (unsigned char *)nd_data_static_173, 85);
    nd_store_64(v157, 85ULL);
    nd_ndef_diagnostics_sentence_Sentence_push_number(v8.b, v53);
    v159 = nd_load_64(v157);
    if (!(v159 == 192ULL)) goto L41;
    nd_stop();
L41:;
    nd_store_8(((unsigned char *)((uintptr_t)v8.b + (uintptr_t)v159)), 46);
    nd_memcpy(v7.b, v8.b, 192);
    v166 = v159 + 1ULL;
    goto L46;
L42:;
    nd_memset((v7.b + 81), 0, 111);
    nd_memcpy(v7.b, (unsigned char *)nd_data_static_154, 81);
    v166 = 81ULL;
    goto L46;
L43:;
    nd_memset((v7.b + 67), 0, 125);
    nd_memcpy(v7.b, (unsigned char *)nd_data_static_155, 67);
    v166 = 67ULL;
    goto L46;
L44:;
    nd_memset((v7.b + 75), 0, 117);
    nd_memcpy(v7.b, (unsigned char *)nd_data_static_156, 75);
    v166 = 75ULL;
    goto L46;
L45:;
    nd_stop();
L46:;
    nd_memcpy(v14.b, v7.b, 192);
    nd_store_64((v14.b + 192), v166);
    nd_store_64(v6, v166);
    if (v5 < v166) { v169 = 2U; goto L48; }
    nd_copy(v21, v14.b, v166);
    v169 = 0U;
L48:;
    v170 = v169;
L49:;
    return v170;
}

static uint32_t nd_ndef_next_field(unsigned char *v1, uint64_t v2, unsigned char *v3, unsigned char *v4, unsigned char *v5) {
    uint64_t v12;
    uint32_t v13;
    v12 = nd_uadd_sat_i64(nd_load_64(((unsigned char *)((uintptr_t)v4 + 8))), nd_load_64(v4));
    v13 = nd_ndef_c_fields_ndef_field_at(((unsigned char *)((uintptr_t)v1 + (uintptr_t)((v1 == (unsigned char *)0) ? 4096ULL : 0ULL))), v2, v3, v12, v4, v5);
    return v13;
}

static uint32_t nd_ndef_refusal_message(unsigned char *v1, uint64_t v2, unsigned char *v3, unsigned char *v4, uint64_t v5, unsigned char *v6) {
    unsigned char *v48, *v51, *v76, *v77, *v78, *v79, *v80, *v81, *v82, *v83, *v84, *v85, *v86, *v87, *v88, *v89, *v90, *v91, *v92, *v93, *v94, *v95, *v96, *v97, *v107, *v108, *v109, *v141, *v151, *v156, *v163, *v168, *v175, *v210, *v236, *v298, *v318, *v319, *v320, *v352, *v362, *v367, *v414, *v441, *v565, *v640, *v693, *v747, *v809, *v840, *v861, *v866, *v912, *v937, *v1012, *v1013, *v1014, *v1015, *v1016, *v1017, *v1018, *v1019, *v1020, *v1021, *v1022, *v1023, *v1024, *v1025, *v1026, *v1027, *v1028, *v1029, *v1030, *v1031, *v1033, *v1069, *v1095, *v1121, *v1131, *v1159, *v1160, *v1162, *v1190, *v1220, *v1242, *v1264, *v1265, *v1275, *v1283, *v1305, *v1315, *v1324, *v1335, *v1358, *v1381;
    uint32_t v53, v55, v57, v59, v139, v140, v350, v351, v1393, v1394;
    uint8_t v74, v101, v105, v111, v166, v170, v173, v177, v179, v235, v238, v252, v269, v270, v271, v272, v273, v276, v284, v297, v322, v416, v417, v422, v436, v438, v470, v479, v499, v509, v510, v517, v522, v525, v528, v529, v537, v543, v551, v561, v563, v599, v612, v613, v618, v623, v626, v632, v636, v638, v721, v731, v735, v743, v773, v786, v794, v804, v807, v836, v839, v843, v873, v904, v905, v916, v921, v932, v933, v935, v976, v1004, v1005, v1006, v1008, v1009, v1039, v1040, v1075, v1087, v1101, v1113, v1123, v1139, v1151, v1165, v1177, v1188, v1212, v1222, v1234, v1244, v1256, v1266, v1284, v1296, v1306, v1326, v1337, v1349, v1360, v1372, v1382;
    uint64_t v99, v103, v106, v110, v142, v150, v152, v154, v157, v159, v160, v164, v169, v174, v180, v181, v188, v193, v204, v205, v208, v209, v230, v232, v237, v245, v251, v255, v259, v265, v266, v274, v277, v280, v289, v293, v294, v295, v302, v303, v304, v306, v307, v310, v311, v316, v317, v321, v353, v361, v363, v365, v368, v370, v371, v375, v376, v378, v379, v380, v381, v382, v404, v405, v406, v407, v408, v409, v410, v411, v412, v413, v415, v423, v440, v443, v465, v466, v478, v482, v486, v492, v493, v498, v508, v521, v536, v542, v547, v549, v550, v553, v559, v560, v562, v566, v588, v598, v622, v627, v628, v637, v639, v642, v664, v680, v683, v684, v691, v692, v694, v716, v717, v718, v749, v771, v780, v785, v790, v792, v793, v796, v802, v803, v805, v806, v810, v832, v833, v835, v841, v844, v847, v855, v860, v862, v863, v865, v867, v874, v896, v906, v907, v908, v909, v910, v911, v913, v922, v936, v938, v939, v961, v964, v972, v975, v985, v986, v988, v1002, v1003, v1007, v1010, v1011, v1032, v1038, v1041, v1043, v1048, v1054, v1060, v1062, v1063, v1070, v1076, v1077, v1082, v1088, v1089, v1096, v1102, v1103, v1108, v1114, v1115, v1124, v1125, v1134, v1140, v1141, v1146, v1152, v1153, v1161, v1166, v1167, v1172, v1178, v1179, v1189, v1191, v1196, v1201, v1202, v1207, v1213, v1214, v1223, v1224, v1229, v1235, v1236, v1245, v1246, v1251, v1257, v1258, v1267, v1268, v1274, v1277, v1285, v1286, v1291, v1297, v1298, v1307, v1308, v1314, v1317, v1327, v1328, v1338, v1339, v1344, v1350, v1351, v1361, v1362, v1367, v1373, v1374, v1383, v1384, v1390;
    ND_ROOM(192) v7, v9, v11, v13, v15, v17, v19, v26, v27, v28, v35, v36, v37, v39, v45;
    ND_ROOM(200) v8, v10, v12, v14, v16, v18, v20, v21, v22, v23, v24, v25, v29, v30, v31, v32, v33, v34, v38, v44;
    ND_ROOM(24) v40, v41;
    ND_ROOM(16) v42;
    ND_ROOM(32) v43;
    v48 = (unsigned char *)((uintptr_t)v1 + (uintptr_t)((v1 == (unsigned char *)0) ? 4096ULL : 0ULL));
    v51 = (unsigned char *)((uintptr_t)v4 + (uintptr_t)((v4 == (unsigned char *)0) ? 4096ULL : 0ULL));
    v53 = nd_load_32(((unsigned char *)((uintptr_t)v3 + 12)));
    if (v53 > 3U) { v1394 = 3U; goto L385; }
    v55 = nd_load_32(v3);
    v57 = nd_load_32(((unsigned char *)((uintptr_t)v3 + 4)));
    v59 = nd_load_32(((unsigned char *)((uintptr_t)v3 + 8)));
    if (!(uint8_t)((((v55 != 0U) & (int)((v57 + 4294967295U) < 65535U)) & (int)((v59 + 4294967295U) < 65535U)) ? (v53 < 2U) : 0)) { v1394 = 3U; goto L385; }
    nd_store_32(v42.b, v55);
    nd_store_32((v42.b + 4), v57);
    nd_store_32((v42.b + 8), v59);
    nd_store_8((v42.b + 12), (uint8_t)v53);
    nd_memset((v42.b + 13), 0, 3);
    nd_memset(v44.b, 0, 200);
    nd_memset(v45.b, 0, 192);
    nd_memset(v43.b, 0, 32);
    nd_ndef_message_message_viewing_view(v43.b, v48, v2, v42.b);
    v74 = nd_load_8(v43.b);
    v76 = v38.b + 32;
    v77 = v38.b + 49;
    v78 = v38.b + 46;
    v79 = v38.b + 70;
    v80 = v38.b + 65;
    v81 = v38.b + 48;
    v82 = v38.b + 63;
    v83 = v38.b + 34;
    v84 = v38.b + 69;
    v85 = v38.b + 51;
    v86 = v38.b + 59;
    v87 = v38.b + 62;
    v88 = v38.b + 38;
    v89 = v38.b + 44;
    v90 = v38.b + 64;
    v91 = v38.b + 22;
    v92 = v38.b + 23;
    v93 = v38.b + 66;
    v94 = v38.b + 40;
    v95 = v38.b + 39;
    v96 = v38.b + 67;
    v97 = v38.b + 35;
    if (!(v74 == 0)) goto L4;
    v1393 = 4U;
    goto L384;
L4:;
    v99 = nd_load_64((v43.b + 8));
    v101 = nd_load_8((v43.b + 16));
    if (!(v74 == 1)) { v1393 = 4U; goto L384; }
    v103 = nd_umin_i64(v2, v99);
    if (v103 < 2ULL) { v168 = v48; v169 = v103; v170 = 0; goto L18; }
    v105 = 0;
    v106 = v103;
    v107 = v48;
L6:;
    v108 = (unsigned char *)((uintptr_t)v107 + 1);
    v109 = (unsigned char *)((uintptr_t)v107 + 2);
    v110 = v106 + 18446744073709551614ULL;
    v111 = nd_load_8(v107);
    if ((uint8_t)(v111 & 16) == 0) goto L9;
    if (v110 == 0ULL) goto L19;
    v140 = (uint32_t)nd_load_8(v109);
    v141 = (unsigned char *)((uintptr_t)v107 + 3);
    v142 = v106 + 18446744073709551613ULL;
    goto L11;
L9:;
    if (v110 < 4ULL) { v168 = v107; v169 = v106; v170 = v105; goto L18; }
    v139 = nd_bswap_i32((((((uint32_t)nd_load_8(((unsigned char *)((uintptr_t)v107 + 3))) << 8) | (uint32_t)nd_load_8(v109)) | ((uint32_t)nd_load_8(((unsigned char *)((uintptr_t)v107 + 4))) << 16)) | ((uint32_t)nd_load_8(((unsigned char *)((uintptr_t)v107 + 5))) << 24)));
    v140 = v139;
    v141 = (unsigned char *)((uintptr_t)v107 + 6);
    v142 = v106 + 18446744073709551610ULL;
L11:;
    if ((uint8_t)(v111 & 8) == 0) { v150 = 0ULL; v151 = v141; v152 = v142; goto L14; }
    if (v142 == 0ULL) { v168 = v107; v169 = v106; v170 = v105; goto L18; }
    v150 = (uint64_t)nd_load_8(v141);
    v151 = (unsigned char *)((uintptr_t)v141 + 1);
    v152 = v142 + 18446744073709551615ULL;
L14:;
    v154 = (uint64_t)nd_load_8(v108);
    if (v152 < v154) { v168 = v107; v169 = v106; v170 = v105; goto L18; }
    v156 = (unsigned char *)((uintptr_t)v151 + (uintptr_t)v154);
    v157 = v152 - v154;
    if (v157 < v150) { v168 = v107; v169 = v106; v170 = v105; goto L18; }
    v159 = v157 - v150;
    v160 = (uint64_t)v140;
    if (v159 < v160) { v168 = v107; v169 = v106; v170 = v105; goto L18; }
    v163 = (unsigned char *)((uintptr_t)((unsigned char *)((uintptr_t)v156 + (uintptr_t)v150)) + (uintptr_t)v160);
    v164 = v159 - v160;
    v166 = (uint8_t)(v111 & 32) != 0;
    if (v164 < 2ULL) { v168 = v163; v169 = v164; v170 = v166; goto L18; }
    v105 = v166;
    v106 = v164;
    v107 = v163;
    goto L6;
L18:;
    if (v101 == 24) { v173 = v170; v174 = v169; v175 = v168; goto L20; }
    goto L36;
L19:;
    if (v101 == 24) { v173 = v105; v174 = 2ULL; v175 = v107; goto L20; }
    v235 = 0;
    v236 = v107;
    v237 = 2ULL;
    v238 = v111;
    goto L38;
L20:;
    if (!(v103 == 0ULL)) goto L22;
    goto L232;
L22:;
    switch (v174) {
    case 0ULL: goto L23;
    case 1ULL: { v1006 = 1; v1007 = v174; goto L203; }
    default: goto L24; }
L23:;
    if (v173) goto L234;
    goto L233;
L24:;
    v177 = nd_load_8(v175);
    v179 = (uint8_t)(v177 & 16) == 0;
    v180 = v179 ? 4ULL : 1ULL;
    v181 = v180 | 2ULL;
    if (!(v174 < v181)) goto L26;
    v1006 = 2;
    v1007 = v181 - v174;
    goto L203;
L26:;
    v188 = (v179 ? 6ULL : 3ULL) + (uint64_t)(uint8_t)((uint8_t)(v177 >> 3) & 1);
    if (v174 < v188) { v1006 = 3; v1007 = 1ULL; goto L203; }
    v193 = v188 + (uint64_t)nd_load_8((v175 + 1));
    if (!(v174 < v193)) goto L29;
    v1006 = 4;
    v1007 = v193 - v174;
    goto L203;
L29:;
    if (!(((uint8_t)(v177 & 8) != 0) & (int)(v180 < (v174 + 18446744073709551614ULL)))) { v208 = 0ULL; goto L32; }
    v204 = (uint64_t)nd_load_8((((unsigned char *)((uintptr_t)v175 + 2)) + (ptrdiff_t)v180));
    v205 = v193 + v204;
    if (!(v174 < v205)) { v208 = v204; goto L32; }
    v1006 = 5;
    v1007 = v205 - v174;
    goto L203;
L32:;
    v209 = v208 + v193;
    v210 = (unsigned char *)((uintptr_t)v175 + 2);
    if (v179) goto L34;
    v230 = (uint64_t)nd_load_8(v210);
    goto L35;
L34:;
    v230 = ((((uint64_t)nd_load_8(((unsigned char *)((uintptr_t)v175 + 3))) << 16) | ((uint64_t)nd_load_8(v210) << 24)) | ((uint64_t)nd_load_8(((unsigned char *)((uintptr_t)v175 + 4))) << 8)) | (uint64_t)nd_load_8(((unsigned char *)((uintptr_t)v175 + 5)));
L35:;
    v232 = nd_usub_sat_i64((v209 + v230), v174);
    v1006 = 6;
    v1007 = v232;
    goto L203;
L36:;
    if (v169 == 0ULL) { v235 = 1; v236 = v168; v237 = 0ULL; v238 = 0; goto L38; }
    v235 = 0;
    v236 = v168;
    v237 = v169;
    v238 = nd_load_8(v168);
L38:;
    v245 = (((uint8_t)(v238 & 16) == 0) ? 6ULL : 3ULL) + (uint64_t)(uint8_t)((uint8_t)(v238 >> 3) & 1);
    if (!(v237 > 1ULL)) goto L40;
    v251 = v245 + (uint64_t)nd_load_8((v236 + 1));
    goto L41;
L40:;
    if (v235) { v265 = v245; v266 = 0ULL; goto L44; }
    v251 = v245;
L41:;
    v252 = nd_load_8(v236);
    if ((uint8_t)(v252 & 8) == 0) { v265 = v251; v266 = 0ULL; goto L44; }
    v255 = nd_umin_i64(v237, 2ULL);
    v259 = ((uint8_t)(v252 & 16) == 0) ? 4ULL : 1ULL;
    if (!(v259 < (v237 - v255))) { v265 = v251; v266 = 0ULL; goto L44; }
    v265 = v251;
    v266 = (uint64_t)nd_load_8((((unsigned char *)((uintptr_t)v236 + (uintptr_t)v255)) + (ptrdiff_t)v259));
L44:;
    if ((v266 + v265) > v237) goto L184;
    v269 = nd_ndef_diagnostics_expecting_kind_begun(v236, v237);
    switch (v269) {
    case 3: { v270 = 1; v271 = 1; v272 = 0; goto L50; }
    case 4: goto L46;
    case 5: goto L47;
    case 0: goto L48;
    case 1: goto L48;
    case 2: goto L48;
    case 6: goto L48;
    case 7: goto L48;
    case 8: goto L48;
    case 9: goto L48;
    case 10: goto L48;
    case 11: goto L48;
    case 12: goto L48;
    default: goto L49; }
L46:;
    v270 = 1;
    v271 = 0;
    v272 = 1;
    goto L50;
L47:;
    v270 = 1;
    v271 = 0;
    v272 = 2;
    goto L50;
L48:;
    v270 = 0;
    v271 = 1;
    v272 = 0;
    goto L50;
L49:;
    nd_stop();
L50:;
    v273 = nd_load_8(v236);
    v274 = v237 + 18446744073709551614ULL;
    v276 = (uint8_t)(v273 & 16) == 0;
    v277 = v276 ? 4ULL : 1ULL;
    v280 = (uint64_t)nd_load_8(((unsigned char *)((uintptr_t)v236 + 1)));
    v284 = ((uint8_t)(v273 & 8) != 0) & (int)(v277 < v274);
    if (!v284) { v289 = 0ULL; goto L52; }
    v289 = (uint64_t)nd_load_8((((unsigned char *)((uintptr_t)v236 + 2)) + (ptrdiff_t)v277));
L52:;
    v293 = v277 + (uint64_t)(uint8_t)((uint8_t)(v273 >> 3) & 1);
    v294 = nd_usub_sat_i64(v274, v293);
    v295 = v289 + v280;
    if (!v270) goto L184;
    if (v271) { v297 = 0; goto L55; }
    if (v294 > v295) { v297 = v272; goto L55; }
    goto L184;
L55:;
    v298 = (unsigned char *)((uintptr_t)v236 + 2);
    if (!v284) { v302 = 0ULL; goto L57; }
    v302 = (uint64_t)nd_load_8((v298 + (ptrdiff_t)v277));
L57:;
    v303 = nd_umin_i64(v274, v293);
    v304 = v274 - v303;
    v306 = nd_umin_i64(v304, (v302 + v280));
    v307 = v304 - v306;
    v310 = nd_umin_i64(v307, (uint64_t)(v297 != 0));
    v311 = v307 - v310;
    if (v311 < 2ULL) { v380 = 0ULL; v381 = v311; goto L72; }
    v316 = 0ULL;
    v317 = v311;
    v318 = (unsigned char *)((uintptr_t)((unsigned char *)((uintptr_t)((unsigned char *)((uintptr_t)v298 + (uintptr_t)v303)) + (uintptr_t)v306)) + (uintptr_t)v310);
L59:;
    v319 = (unsigned char *)((uintptr_t)v318 + 1);
    v320 = (unsigned char *)((uintptr_t)v318 + 2);
    v321 = v317 + 18446744073709551614ULL;
    v322 = nd_load_8(v318);
    if ((uint8_t)(v322 & 16) == 0) goto L62;
    if (v321 == 0ULL) { v378 = 2ULL; v379 = v316; goto L71; }
    v351 = (uint32_t)nd_load_8(v320);
    v352 = (unsigned char *)((uintptr_t)v318 + 3);
    v353 = v317 + 18446744073709551613ULL;
    goto L64;
L62:;
    if (v321 < 4ULL) { v378 = v317; v379 = v316; goto L71; }
    v350 = nd_bswap_i32((((((uint32_t)nd_load_8(((unsigned char *)((uintptr_t)v318 + 3))) << 8) | (uint32_t)nd_load_8(v320)) | ((uint32_t)nd_load_8(((unsigned char *)((uintptr_t)v318 + 4))) << 16)) | ((uint32_t)nd_load_8(((unsigned char *)((uintptr_t)v318 + 5))) << 24)));
    v351 = v350;
    v352 = (unsigned char *)((uintptr_t)v318 + 6);
    v353 = v317 + 18446744073709551610ULL;
L64:;
    if ((uint8_t)(v322 & 8) == 0) { v361 = 0ULL; v362 = v352; v363 = v353; goto L67; }
    if (v353 == 0ULL) { v378 = v317; v379 = v316; goto L71; }
    v361 = (uint64_t)nd_load_8(v352);
    v362 = (unsigned char *)((uintptr_t)v352 + 1);
    v363 = v353 + 18446744073709551615ULL;
L67:;
    v365 = (uint64_t)nd_load_8(v319);
    if (v363 < v365) { v378 = v317; v379 = v316; goto L71; }
    v367 = (unsigned char *)((uintptr_t)v362 + (uintptr_t)v365);
    v368 = v363 - v365;
    if (v368 < v361) { v378 = v317; v379 = v316; goto L71; }
    v370 = v368 - v361;
    v371 = (uint64_t)v351;
    if (v370 < v371) { v378 = v317; v379 = v316; goto L71; }
    v375 = v370 - v371;
    v376 = v316 + 1ULL;
    if (v375 < 2ULL) { v378 = v375; v379 = v376; goto L71; }
    v316 = v376;
    v317 = v375;
    v318 = (unsigned char *)((uintptr_t)((unsigned char *)((uintptr_t)v367 + (uintptr_t)v361)) + (uintptr_t)v371);
    goto L59;
L71:;
    if (v235) { v404 = v379; v405 = v378; v406 = 0ULL; goto L77; }
    v380 = v379;
    v381 = v378;
L72:;
    v382 = nd_umin_i64(v274, v277);
    if (v276) goto L75;
    if (!(v382 == 1ULL)) { v404 = v380; v405 = v381; v406 = 0ULL; goto L77; }
    v404 = v380;
    v405 = v381;
    v406 = (uint64_t)nd_load_8(v298);
    goto L77;
L75:;
    if (!(v382 == 4ULL)) { v404 = v380; v405 = v381; v406 = 0ULL; goto L77; }
    v404 = v380;
    v405 = v381;
    v406 = ((((uint64_t)nd_load_8(((unsigned char *)((uintptr_t)v236 + 3))) << 16) | ((uint64_t)nd_load_8(v298) << 24)) | ((uint64_t)nd_load_8(((unsigned char *)((uintptr_t)v236 + 4))) << 8)) | (uint64_t)nd_load_8(((unsigned char *)((uintptr_t)v236 + 5)));
L77:;
    v407 = nd_usub_sat_i64(v406, v307);
    v408 = v407 + v405;
    v409 = v404 + 1ULL;
    v410 = nd_uadd_sat_i64(v99, 1ULL);
    v411 = nd_umin_i64(v2, v410);
    v412 = nd_usub_sat_i64(v103, v405);
    v413 = nd_umin_i64(v411, v412);
    v414 = (unsigned char *)((uintptr_t)v48 + (uintptr_t)v413);
    v415 = v411 - v413;
    switch (v101) {
    case 23: goto L79;
    case 19: goto L78;
    case 20: goto L181;
    case 22: goto L182;
    case 0: goto L205;
    case 1: goto L205;
    case 2: goto L205;
    case 3: goto L205;
    case 4: goto L205;
    case 5: goto L205;
    case 6: goto L205;
    case 7: goto L205;
    case 8: goto L205;
    case 9: goto L205;
    case 10: goto L205;
    case 11: goto L205;
    case 12: goto L205;
    case 13: goto L205;
    case 14: goto L205;
    case 15: goto L205;
    case 16: goto L205;
    case 17: goto L205;
    case 18: goto L205;
    case 21: goto L205;
    case 24: goto L205;
    default: goto L183; }
L78:;
    v1274 = v409;
    goto L344;
L79:;
    nd_memset(v41.b, 0, 24);
    v416 = v411 <= v412;
    if (v416) { v422 = 0; v423 = 0ULL; goto L82; }
    v417 = nd_load_8(v414);
    if (v415 == 1ULL) { v422 = v417; v423 = 0ULL; goto L82; }
    v422 = v417;
    v423 = (uint64_t)nd_load_8((v414 + 1));
L82:;
    if (!(((v423 + (uint64_t)(uint8_t)((uint8_t)(v422 >> 3) & 1)) + (((uint8_t)(v422 & 16) == 0) ? 6ULL : 3ULL)) > v415)) goto L172;
    if (!((v297 == 1) & (int)(v404 == 0ULL))) goto L102;
    if (v416) { v470 = 0; goto L91; }
    v436 = nd_load_8(v414);
    v438 = (uint8_t)(v436 & 16) == 0;
    v440 = nd_umin_i64(v415, 2ULL);
    v441 = (unsigned char *)((uintptr_t)v414 + (uintptr_t)v440);
    v443 = nd_umin_i64((v415 - v440), (v438 ? 4ULL : 1ULL));
    if (v438) goto L88;
    if (!(v443 == 1ULL)) { v465 = 3ULL; v466 = 0ULL; goto L90; }
    v465 = 3ULL;
    v466 = (uint64_t)nd_load_8(v441);
    goto L90;
L88:;
    if (!(v443 == 4ULL)) { v465 = 6ULL; v466 = 0ULL; goto L90; }
    v465 = 6ULL;
    v466 = ((((uint64_t)nd_load_8(((unsigned char *)((uintptr_t)v441 + 1))) << 16) | ((uint64_t)nd_load_8(v441) << 24)) | ((uint64_t)nd_load_8(((unsigned char *)((uintptr_t)v441 + 2))) << 8)) | (uint64_t)nd_load_8(((unsigned char *)((uintptr_t)v441 + 3)));
L90:;
    if ((v465 > v415) | (int)(v466 == 2ULL)) { v470 = v436; goto L91; }
    v904 = 22;
    v905 = 0;
    v906 = v466;
    v907 = 0ULL;
    goto L180;
L91:;
    v478 = (((uint8_t)(v470 & 16) == 0) ? 6ULL : 3ULL) + (uint64_t)(uint8_t)((uint8_t)((uint8_t)(v470 >> 3) & 1) | 4);
    if (v416) goto L96;
    v479 = nd_load_8(v414);
    if ((uint8_t)(v479 & 8) == 0) { v492 = 0ULL; goto L95; }
    v482 = nd_umin_i64(v415, 2ULL);
    v486 = ((uint8_t)(v479 & 16) == 0) ? 4ULL : 1ULL;
    if (!(v486 < (v415 - v482))) { v492 = 0ULL; goto L95; }
    v492 = (uint64_t)nd_load_8((((unsigned char *)((uintptr_t)v414 + (uintptr_t)v482)) + (ptrdiff_t)v486));
L95:;
    v493 = v492 + v478;
    if ((uint8_t)(v470 & 8) == 0) { v508 = v493; v509 = 1; goto L98; }
    v498 = v493;
    v499 = v479;
    goto L97;
L96:;
    if ((uint8_t)(v470 & 8) == 0) { v508 = v478; v509 = 1; goto L98; }
    v498 = v478;
    v499 = 0;
L97:;
    v508 = v498;
    v509 = ((((uint8_t)(v499 & 16) == 0) ? 6ULL : 3ULL) + (uint64_t)(uint8_t)((uint8_t)(v499 >> 3) & 1)) <= v415;
L98:;
    v510 = v408 >= v508;
    if (!(v509 & v510)) { v904 = (uint8_t)(v510 ? 0 : 23); v905 = 0; v906 = v510 ? 0ULL : v508; v907 = v510 ? 0ULL : v408; goto L180; }
    if ((uint8_t)(v470 & 64) == 0) goto L101;
    v517 = v508 == v408;
    v904 = (uint8_t)(v517 ? 0 : 24);
    v905 = 0;
    v906 = v517 ? 0ULL : v508;
    v907 = v517 ? 0ULL : v408;
    goto L180;
L101:;
    v521 = nd_usub_sat_i64(v408, v508);
    v522 = v521 < 3ULL;
    v904 = (uint8_t)(v522 ? 25 : 0);
    v905 = 0;
    v906 = v522 ? v521 : 0ULL;
    v907 = 0ULL;
    goto L180;
L102:;
    if (v416) { v528 = 0; v529 = 0; goto L104; }
    v525 = nd_load_8(v414);
    v528 = (uint8_t)(v525 & 64) != 0;
    v529 = v525;
L104:;
    v536 = (((uint8_t)(v529 & 16) == 0) ? 6ULL : 3ULL) + (uint64_t)(uint8_t)((uint8_t)(v529 >> 3) & 1);
    v537 = v415 > 1ULL;
    if (!v537) goto L106;
    v542 = v536 + (uint64_t)nd_load_8((v414 + 1));
    goto L107;
L106:;
    if (v416) { v598 = v536; v599 = 0; goto L117; }
    v542 = v536;
L107:;
    v543 = nd_load_8(v414);
    if (!((uint8_t)(v543 & 8) == 0)) goto L109;
    v547 = nd_umin_i64(v415, 2ULL);
    v559 = v415 - v547;
    v560 = v547;
    v561 = (uint8_t)(v543 & 16);
    v562 = 0ULL;
    goto L111;
L109:;
    v549 = nd_umin_i64(v415, 2ULL);
    v550 = v415 - v549;
    v551 = (uint8_t)(v543 & 16);
    v553 = (v551 == 0) ? 4ULL : 1ULL;
    if (!(v553 < v550)) { v559 = v550; v560 = v549; v561 = v551; v562 = 0ULL; goto L111; }
    v559 = v550;
    v560 = v549;
    v561 = v551;
    v562 = (uint64_t)nd_load_8((((unsigned char *)((uintptr_t)v414 + (uintptr_t)v549)) + (ptrdiff_t)v553));
L111:;
    v563 = v561 == 0;
    v565 = (unsigned char *)((uintptr_t)v414 + (uintptr_t)v560);
    v566 = nd_umin_i64(v559, (v563 ? 4ULL : 1ULL));
    if (v563) goto L114;
    if (!(v566 == 1ULL)) { v588 = 0ULL; goto L116; }
    v588 = (uint64_t)nd_load_8(v565);
    goto L116;
L114:;
    if (!(v566 == 4ULL)) { v588 = 0ULL; goto L116; }
    v588 = ((((uint64_t)nd_load_8(((unsigned char *)((uintptr_t)v565 + 1))) << 16) | ((uint64_t)nd_load_8(v565) << 24)) | ((uint64_t)nd_load_8(((unsigned char *)((uintptr_t)v565 + 2))) << 8)) | (uint64_t)nd_load_8(((unsigned char *)((uintptr_t)v565 + 3)));
L116:;
    v598 = ((v542 + (uint64_t)(uint8_t)((v415 == 1ULL) ? ((uint8_t)((uint8_t)(v543 & 7) + 255) < 4) : 0)) + v562) + v588;
    v599 = v543;
L117:;
    if (v416 | (int)(((((uint8_t)(v599 & 16) == 0) ? 6ULL : 3ULL) + (uint64_t)(uint8_t)((uint8_t)(v599 >> 3) & 1)) <= v415)) { v612 = 1; goto L119; }
    v612 = (uint8_t)(nd_load_8(v414) & 7) == 0;
L119:;
    v613 = v408 >= v598;
    if (!(v613 & v612)) { v626 = (uint8_t)(v613 ? 0 : 14); v627 = v613 ? 0ULL : v598; v628 = v613 ? 0ULL : v408; goto L123; }
    if (!v528) goto L122;
    v618 = v598 == v408;
    v626 = (uint8_t)(v618 ? 0 : 15);
    v627 = v618 ? 0ULL : v598;
    v628 = v618 ? 0ULL : v408;
    goto L123;
L122:;
    v622 = nd_usub_sat_i64(v408, v598);
    v623 = v622 < 3ULL;
    v626 = (uint8_t)(v623 ? 16 : 0);
    v627 = v623 ? v622 : 0ULL;
    v628 = 0ULL;
L123:;
    if (!(uint8_t)((v297 == 0) ? (v626 == 0) : 0)) { v904 = v626; v905 = 0; v906 = v627; v907 = v628; goto L180; }
    if (v416) { v721 = 0; goto L145; }
    v632 = nd_load_8(v414);
    if ((uint8_t)(v632 & 64) == 0) { v721 = v632; goto L145; }
    v636 = (uint8_t)(v632 & 16) == 0;
    v637 = v636 ? 6ULL : 3ULL;
    v638 = v637 > v415;
    v639 = v636 ? 4ULL : 1ULL;
    if (v638) goto L134;
    v640 = (unsigned char *)((uintptr_t)v414 + 2);
    v642 = nd_umin_i64((v415 + 18446744073709551614ULL), v639);
    if (v636) goto L130;
    if (!(v642 == 1ULL)) goto L133;
    v664 = (uint64_t)nd_load_8(v640);
    goto L132;
L130:;
    if (!(v642 == 4ULL)) goto L133;
    v664 = ((((uint64_t)nd_load_8(((unsigned char *)((uintptr_t)v414 + 3))) << 16) | ((uint64_t)nd_load_8(v640) << 24)) | ((uint64_t)nd_load_8(((unsigned char *)((uintptr_t)v414 + 4))) << 8)) | (uint64_t)nd_load_8(((unsigned char *)((uintptr_t)v414 + 5)));
L132:;
    if (!(v664 == 0ULL)) goto L134;
L133:;
    if (!(v408 > ((((uint64_t)(uint8_t)((uint8_t)(v632 >> 3) & 1) + 255ULL) + v637) + (uint64_t)nd_load_8((v414 + 1))))) { v904 = 6; v905 = 2; v906 = 1ULL; v907 = 0ULL; goto L180; }
L134:;
    v680 = v637 + (uint64_t)(uint8_t)((uint8_t)((uint8_t)(v632 >> 3) & 1) + 1);
    v683 = nd_umin_i64(v415, 2ULL);
    v684 = v415 - v683;
    if (!(((uint8_t)(v632 & 8) != 0) & (int)(v639 < v684))) { v691 = 0ULL; goto L136; }
    v691 = (uint64_t)nd_load_8((((unsigned char *)((uintptr_t)v414 + (uintptr_t)v683)) + (ptrdiff_t)v639));
L136:;
    v692 = v680 + v691;
    v693 = (unsigned char *)((uintptr_t)v414 + (uintptr_t)v683);
    v694 = nd_umin_i64(v684, v639);
    if (v636) goto L139;
    if (!(v694 == 1ULL)) { v716 = 0ULL; goto L141; }
    v716 = (uint64_t)nd_load_8(v693);
    goto L141;
L139:;
    if (!(v694 == 4ULL)) { v716 = 0ULL; goto L141; }
    v716 = ((((uint64_t)nd_load_8(((unsigned char *)((uintptr_t)v693 + 1))) << 16) | ((uint64_t)nd_load_8(v693) << 24)) | ((uint64_t)nd_load_8(((unsigned char *)((uintptr_t)v693 + 2))) << 8)) | (uint64_t)nd_load_8(((unsigned char *)((uintptr_t)v693 + 3)));
L141:;
    v717 = nd_umax_i64(v716, 1ULL);
    v718 = v692 + v717;
    if (!(v408 < v718)) goto L144;
    if (v415 < 3ULL) { v904 = 18; v905 = 0; v906 = v718; v907 = v408; goto L180; }
    if (!v638) { v904 = 18; v905 = 0; v906 = v718; v907 = v408; goto L180; }
L144:;
    v904 = 0;
    v905 = 0;
    v906 = 0ULL;
    v907 = 0ULL;
    goto L180;
L145:;
    if (v416 | (int)(((((uint8_t)(v721 & 16) == 0) ? 6ULL : 3ULL) + (uint64_t)(uint8_t)((uint8_t)(v721 >> 3) & 1)) <= v415)) goto L147;
    v731 = nd_load_8(v414);
    if ((uint8_t)(v731 & 7) == 0) { v735 = v731; goto L149; }
    v904 = 0;
    v905 = 0;
    v906 = 0ULL;
    v907 = 0ULL;
    goto L180;
L147:;
    if (v416) { v773 = 0; goto L159; }
    v735 = nd_load_8(v414);
L149:;
    if (!((uint8_t)(v735 & 7) == 1)) { v773 = v735; goto L159; }
    if (v415 == 1ULL) goto L152;
    if (!(nd_load_8((v414 + 1)) == 1)) { v773 = v735; goto L159; }
L152:;
    v743 = (uint8_t)(v735 & 16) == 0;
    if ((v743 ? 6ULL : 3ULL) > v415) { v904 = 0; v905 = 0; v906 = 0ULL; v907 = 0ULL; goto L180; }
    v747 = (unsigned char *)((uintptr_t)v414 + 2);
    v749 = nd_umin_i64((v415 + 18446744073709551614ULL), (v743 ? 4ULL : 1ULL));
    if (v743) goto L156;
    if (!(v749 == 1ULL)) { v773 = v735; goto L159; }
    v771 = (uint64_t)nd_load_8(v747);
    goto L158;
L156:;
    if (!(v749 == 4ULL)) { v773 = v735; goto L159; }
    v771 = ((((uint64_t)nd_load_8(((unsigned char *)((uintptr_t)v414 + 3))) << 16) | ((uint64_t)nd_load_8(v747) << 24)) | ((uint64_t)nd_load_8(((unsigned char *)((uintptr_t)v414 + 4))) << 8)) | (uint64_t)nd_load_8(((unsigned char *)((uintptr_t)v414 + 5)));
L158:;
    if (v771 == 0ULL) { v773 = v735; goto L159; }
    v904 = 0;
    v905 = 0;
    v906 = 0ULL;
    v907 = 0ULL;
    goto L180;
L159:;
    v780 = (((uint8_t)(v773 & 16) == 0) ? 6ULL : 3ULL) + (uint64_t)(uint8_t)((uint8_t)(v773 >> 3) & 1);
    if (!v537) goto L161;
    v785 = v780 + (uint64_t)nd_load_8((v414 + 1));
    goto L162;
L161:;
    if (v416) { v832 = v780; v833 = 0ULL; goto L171; }
    v785 = v780;
L162:;
    v786 = nd_load_8(v414);
    if (!((uint8_t)(v786 & 8) == 0)) goto L164;
    v790 = nd_umin_i64(v415, 2ULL);
    v802 = v415 - v790;
    v803 = v790;
    v804 = (uint8_t)(v786 & 16);
    v805 = 0ULL;
    goto L166;
L164:;
    v792 = nd_umin_i64(v415, 2ULL);
    v793 = v415 - v792;
    v794 = (uint8_t)(v786 & 16);
    v796 = (v794 == 0) ? 4ULL : 1ULL;
    if (!(v796 < v793)) { v802 = v793; v803 = v792; v804 = v794; v805 = 0ULL; goto L166; }
    v802 = v793;
    v803 = v792;
    v804 = v794;
    v805 = (uint64_t)nd_load_8((((unsigned char *)((uintptr_t)v414 + (uintptr_t)v792)) + (ptrdiff_t)v796));
L166:;
    v806 = v805 + v785;
    v807 = v804 == 0;
    v809 = (unsigned char *)((uintptr_t)v414 + (uintptr_t)v803);
    v810 = nd_umin_i64(v802, (v807 ? 4ULL : 1ULL));
    if (v807) goto L169;
    if (!(v810 == 1ULL)) { v832 = v806; v833 = 0ULL; goto L171; }
    v832 = v806;
    v833 = (uint64_t)nd_load_8(v809);
    goto L171;
L169:;
    if (!(v810 == 4ULL)) { v832 = v806; v833 = 0ULL; goto L171; }
    v832 = v806;
    v833 = ((((uint64_t)nd_load_8(((unsigned char *)((uintptr_t)v809 + 1))) << 16) | ((uint64_t)nd_load_8(v809) << 24)) | ((uint64_t)nd_load_8(((unsigned char *)((uintptr_t)v809 + 2))) << 8)) | (uint64_t)nd_load_8(((unsigned char *)((uintptr_t)v809 + 3)));
L171:;
    v835 = nd_usub_sat_i64(v408, (v833 + v832));
    v836 = v835 < 5ULL;
    v904 = (uint8_t)(v836 ? 19 : 0);
    v905 = 0;
    v906 = v836 ? v835 : 0ULL;
    v907 = 0ULL;
    goto L180;
L172:;
    v839 = nd_load_8(v414);
    v840 = (unsigned char *)((uintptr_t)v414 + 2);
    v841 = v415 + 18446744073709551614ULL;
    v843 = (uint8_t)(v839 & 16) == 0;
    v844 = v843 ? 4ULL : 1ULL;
    v847 = (uint64_t)nd_load_8(((unsigned char *)((uintptr_t)v414 + 1)));
    if (!(((uint8_t)(v839 & 8) != 0) & (int)(v844 < v841))) { v855 = 0ULL; goto L174; }
    v855 = (uint64_t)nd_load_8((v840 + (ptrdiff_t)v844));
L174:;
    v860 = nd_umin_i64(v841, (v844 + (uint64_t)(uint8_t)((uint8_t)(v839 >> 3) & 1)));
    v861 = (unsigned char *)((uintptr_t)v840 + (uintptr_t)v860);
    v862 = v841 - v860;
    v863 = nd_umin_i64(v862, v847);
    v865 = nd_umin_i64(v862, (v855 + v847));
    v866 = (unsigned char *)((uintptr_t)v861 + (uintptr_t)v865);
    v867 = v862 - v865;
    v873 = nd_ndef_format_table_Table_kind(v297, (uint8_t)(361982334838374656ULL >> ((uint64_t)(uint8_t)((uint8_t)((uint32_t)v839 << 3) & 56) & 63)), v861, v863);
    v874 = nd_umin_i64(v841, v844);
    if (v843) goto L177;
    if (!(v874 == 1ULL)) { v896 = 0ULL; goto L179; }
    v896 = (uint64_t)nd_load_8(v840);
    goto L179;
L177:;
    if (!(v874 == 4ULL)) { v896 = 0ULL; goto L179; }
    v896 = ((((uint64_t)nd_load_8(((unsigned char *)((uintptr_t)v414 + 3))) << 16) | ((uint64_t)nd_load_8(v840) << 24)) | ((uint64_t)nd_load_8(((unsigned char *)((uintptr_t)v414 + 4))) << 8)) | (uint64_t)nd_load_8(((unsigned char *)((uintptr_t)v414 + 5)));
L179:;
    nd_ndef_diagnostics_length_mismatch_length_mismatch(v41.b, v873, v896, v866, v867);
    v904 = nd_load_8(v41.b);
    v905 = nd_load_8((v41.b + 1));
    v906 = nd_load_64((v41.b + 8));
    v907 = nd_load_64((v41.b + 16));
L180:;
    v1008 = v904;
    v1009 = v905;
    v1010 = v906;
    v1011 = v907;
    goto L204;
L181:;
    v1314 = v409;
    goto L357;
L182:;
    goto L360;
L183:;
    nd_stop();
L184:;
    v908 = nd_uadd_sat_i64(v99, 1ULL);
    v909 = nd_umin_i64(v2, v908);
    v910 = nd_usub_sat_i64(v103, v237);
    v911 = nd_umin_i64(v909, v910);
    v912 = (unsigned char *)((uintptr_t)v48 + (uintptr_t)v911);
    v913 = v909 - v911;
    if (!(v101 == 23)) goto L205;
    if (!(v909 > v910)) { v921 = 0; v922 = 0ULL; goto L188; }
    v916 = nd_load_8(v912);
    if (v913 == 1ULL) { v921 = v916; v922 = 0ULL; goto L188; }
    v921 = v916;
    v922 = (uint64_t)nd_load_8((v912 + 1));
L188:;
    if (!(((v922 + (uint64_t)(uint8_t)((uint8_t)(v921 >> 3) & 1)) + (((uint8_t)(v921 & 16) == 0) ? 6ULL : 3ULL)) > v913)) goto L190;
    goto L228;
L190:;
    v932 = nd_ndef_diagnostics_expecting_kind_begun(v912, v913);
    v933 = nd_load_8(v912);
    v935 = (uint8_t)(v933 & 16) == 0;
    v936 = v935 ? 4ULL : 1ULL;
    v937 = (unsigned char *)((uintptr_t)v912 + 2);
    v938 = v913 + 18446744073709551614ULL;
    v939 = nd_umin_i64(v938, v936);
    if (v935) goto L193;
    if (!(v939 == 1ULL)) { v961 = 0ULL; goto L195; }
    v961 = (uint64_t)nd_load_8(v937);
    goto L195;
L193:;
    if (!(v939 == 4ULL)) { v961 = 0ULL; goto L195; }
    v961 = ((((uint64_t)nd_load_8(((unsigned char *)((uintptr_t)v912 + 3))) << 16) | ((uint64_t)nd_load_8(v937) << 24)) | ((uint64_t)nd_load_8(((unsigned char *)((uintptr_t)v912 + 4))) << 8)) | (uint64_t)nd_load_8(((unsigned char *)((uintptr_t)v912 + 5)));
L195:;
    v964 = (uint64_t)nd_load_8(((unsigned char *)((uintptr_t)v912 + 1)));
    if (!(((uint8_t)(v933 & 8) != 0) & (int)(v936 < v938))) { v972 = 0ULL; goto L197; }
    v972 = (uint64_t)nd_load_8((v937 + (ptrdiff_t)v936));
L197:;
    nd_memset(v40.b, 0, 24);
    switch (v932) {
    case 3: goto L198;
    case 4: { v975 = 8ULL; goto L200; }
    case 5: goto L199;
    case 0: goto L201;
    case 1: goto L201;
    case 2: goto L201;
    case 6: goto L201;
    case 7: goto L201;
    case 8: goto L201;
    case 9: goto L201;
    case 10: goto L201;
    case 11: goto L201;
    case 12: goto L201;
    default: goto L49; }
L198:;
    v975 = 5ULL;
    goto L200;
L199:;
    if ((v961 & 4294967294ULL) == 2ULL) { v1002 = 0ULL; v1003 = v961; v1004 = 0; v1005 = 7; goto L202; }
    v975 = 1ULL;
L200:;
    v976 = v961 < v975;
    v1002 = v976 ? v961 : 0ULL;
    v1003 = v976 ? v975 : 0ULL;
    v1004 = (uint8_t)(v976 ? v932 : 0);
    v1005 = (uint8_t)(v976 ? 6 : 0);
    goto L202;
L201:;
    v985 = nd_umin_i64(v938, (v936 + (uint64_t)(uint8_t)((uint8_t)(v933 >> 3) & 1)));
    v986 = v938 - v985;
    v988 = nd_umin_i64(v986, (v972 + v964));
    nd_ndef_diagnostics_length_mismatch_length_mismatch(v40.b, (uint8_t)(((uint8_t)(v932 + 255) < 6) ? v932 : 0), v961, ((unsigned char *)((uintptr_t)((unsigned char *)((uintptr_t)v937 + (uintptr_t)v985)) + (uintptr_t)v988)), (v986 - v988));
    v1002 = nd_load_64((v40.b + 16));
    v1003 = nd_load_64((v40.b + 8));
    v1004 = nd_load_8((v40.b + 1));
    v1005 = nd_load_8(v40.b);
L202:;
    v1008 = v1005;
    v1009 = v1004;
    v1010 = v1003;
    v1011 = v1002;
    goto L204;
L203:;
    v1038 = v1007;
    v1039 = v1006;
    goto L235;
L204:;
    nd_memset(v39.b, 0, 192);
    v1012 = v29.b + 12;
    v1013 = v29.b + 11;
    v1014 = v29.b + 14;
    v1015 = v29.b + 9;
    v1016 = v29.b + 4;
    v1017 = v29.b + 2;
    v1018 = v29.b + 7;
    v1019 = v29.b + 6;
    v1020 = v29.b + 13;
    v1021 = v29.b + 15;
    v1022 = v29.b + 3;
    v1023 = v29.b + 10;
    v1024 = v29.b + 19;
    v1025 = v29.b + 29;
    v1026 = v29.b + 22;
    v1027 = v29.b + 30;
    v1028 = v29.b + 31;
    v1029 = v29.b + 24;
    v1030 = v29.b + 8;
    switch (v1008) {
    case 0: goto L228;
    case 1: goto L232;
    case 2: goto L233;
    case 3: goto L234;
    case 4: { v1038 = v1010; v1039 = v1009; goto L235; }
    case 5: goto L244;
    case 6: goto L253;
    case 7: goto L262;
    case 8: goto L265;
    case 9: goto L274;
    case 10: goto L313;
    case 11: goto L314;
    case 12: goto L315;
    case 13: goto L316;
    case 14: goto L327;
    case 15: goto L334;
    case 16: goto L341;
    case 17: { v1274 = v1010; goto L344; }
    case 18: goto L347;
    case 19: goto L354;
    case 20: { v1314 = v1010; goto L357; }
    case 21: goto L360;
    case 22: goto L361;
    case 23: goto L364;
    case 24: goto L371;
    case 25: goto L378;
    default: goto L381; }
L205:;
    switch (v101) {
    case 0: { v1031 = v97; v1032 = 35ULL; v1033 = (unsigned char *)nd_data_static_114; goto L231; }
    case 1: goto L206;
    case 2: goto L207;
    case 3: goto L208;
    case 4: goto L209;
    case 5: goto L210;
    case 6: goto L211;
    case 7: goto L212;
    case 8: goto L213;
    case 9: goto L214;
    case 10: goto L215;
    case 11: goto L216;
    case 12: goto L217;
    case 13: goto L218;
    case 14: goto L219;
    case 15: goto L220;
    case 16: goto L221;
    case 17: goto L222;
    case 18: goto L223;
    case 19: goto L224;
    case 20: goto L225;
    case 21: goto L226;
    case 22: goto L227;
    case 23: goto L228;
    case 24: goto L229;
    default: goto L230; }
L206:;
    v1031 = v77;
    v1032 = 49ULL;
    v1033 = (unsigned char *)nd_data_static_115;
    goto L231;
L207:;
    v1031 = v78;
    v1032 = 46ULL;
    v1033 = (unsigned char *)nd_data_static_116;
    goto L231;
L208:;
    v1031 = v79;
    v1032 = 70ULL;
    v1033 = (unsigned char *)nd_data_static_117;
    goto L231;
L209:;
    v1031 = v80;
    v1032 = 65ULL;
    v1033 = (unsigned char *)nd_data_static_118;
    goto L231;
L210:;
    v1031 = v81;
    v1032 = 48ULL;
    v1033 = (unsigned char *)nd_data_static_119;
    goto L231;
L211:;
    v1031 = v82;
    v1032 = 63ULL;
    v1033 = (unsigned char *)nd_data_static_120;
    goto L231;
L212:;
    v1031 = v83;
    v1032 = 34ULL;
    v1033 = (unsigned char *)nd_data_static_121;
    goto L231;
L213:;
    v1031 = v84;
    v1032 = 69ULL;
    v1033 = (unsigned char *)nd_data_static_122;
    goto L231;
L214:;
    v1031 = v85;
    v1032 = 51ULL;
    v1033 = (unsigned char *)nd_data_static_123;
    goto L231;
L215:;
    v1031 = v86;
    v1032 = 59ULL;
    v1033 = (unsigned char *)nd_data_static_124;
    goto L231;
L216:;
    v1031 = v87;
    v1032 = 62ULL;
    v1033 = (unsigned char *)nd_data_static_125;
    goto L231;
L217:;
    v1031 = v88;
    v1032 = 38ULL;
    v1033 = (unsigned char *)nd_data_static_126;
    goto L231;
L218:;
    v1031 = v89;
    v1032 = 44ULL;
    v1033 = (unsigned char *)nd_data_static_127;
    goto L231;
L219:;
    v1031 = v90;
    v1032 = 64ULL;
    v1033 = (unsigned char *)nd_data_static_128;
    goto L231;
L220:;
    v1031 = v89;
    v1032 = 44ULL;
    v1033 = (unsigned char *)nd_data_static_129;
    goto L231;
L221:;
    v1031 = v91;
    v1032 = 22ULL;
    v1033 = (unsigned char *)nd_data_static_130;
    goto L231;
L222:;
    v1031 = v92;
    v1032 = 23ULL;
    v1033 = (unsigned char *)nd_data_static_131;
    goto L231;
L223:;
    v1031 = v93;
    v1032 = 66ULL;
    v1033 = (unsigned char *)nd_data_static_132;
    goto L231;
L224:;
    v1031 = v94;
    v1032 = 40ULL;
    v1033 = (unsigned char *)nd_data_static_133;
    goto L231;
L225:;
    v1031 = v95;
    v1032 = 39ULL;
    v1033 = (unsigned char *)nd_data_static_134;
    goto L231;
L226:;
    v1031 = v78;
    v1032 = 46ULL;
    v1033 = (unsigned char *)nd_data_static_135;
    goto L231;
L227:;
    v1031 = v96;
    v1032 = 67ULL;
    v1033 = (unsigned char *)nd_data_static_136;
    goto L231;
L228:;
    v1031 = v93;
    v1032 = 66ULL;
    v1033 = (unsigned char *)nd_data_static_137;
    goto L231;
L229:;
    v1031 = v76;
    v1032 = 32ULL;
    v1033 = (unsigned char *)nd_data_static_138;
    goto L231;
L230:;
    nd_stop();
L231:;
    nd_fill(v1031, 0, (200ULL - v1032));
    nd_copy(v38.b, v1033, v1032);
    nd_memcpy(v39.b, v38.b, 192);
    v1390 = v1032;
    goto L382;
L232:;
    nd_memset((v37.b + 45), 0, 147);
    nd_memcpy(v37.b, (unsigned char *)nd_data_static_175, 45);
    nd_memcpy(v39.b, v37.b, 192);
    v1390 = 45ULL;
    goto L382;
L233:;
    nd_memset((v36.b + 59), 0, 133);
    nd_memcpy(v36.b, (unsigned char *)nd_data_static_176, 59);
    nd_memcpy(v39.b, v36.b, 192);
    v1390 = 59ULL;
    goto L382;
L234:;
    nd_memset((v35.b + 64), 0, 128);
    nd_memcpy(v35.b, (unsigned char *)nd_data_static_177, 64);
    nd_memcpy(v39.b, v35.b, 192);
    v1390 = 64ULL;
    goto L382;
L235:;
    nd_memset(v34.b, 0, 200);
    nd_ndef_diagnostics_sentence_Sentence_push_number(v34.b, v1038);
    v1040 = v1038 == 1ULL;
    v1041 = v1040 ? 6ULL : 7ULL;
    v1043 = nd_load_64((v34.b + 192));
    if ((192ULL - v1043) < v1041) goto L237;
    nd_copy(((unsigned char *)((uintptr_t)v34.b + (uintptr_t)v1043)), (v1040 ? (unsigned char *)nd_data_static_185 : (unsigned char *)nd_data_static_186), v1041);
    v1048 = v1043 + v1041;
    if ((v1048 + 18446744073709551427ULL) < 4ULL) goto L239;
    goto L238;
L237:;
    nd_stop();
L238:;
    nd_store_32(((unsigned char *)((uintptr_t)v34.b + (uintptr_t)v1048)), 543584032U);
    v1054 = nd_load_64(((unsigned char *)nd_data_switch_table_ndef_refusal_message_21 + (ptrdiff_t)(uint64_t)v1039 * 8));
    if ((188ULL - v1048) < v1054) goto L241;
    goto L240;
L239:;
    nd_stop();
L240:;
    v1060 = v1048 + 4ULL;
    nd_copy(((unsigned char *)((uintptr_t)v34.b + (uintptr_t)v1060)), nd_load_ptr(((unsigned char *)&nd_data_switch_table_ndef_refusal_message + (ptrdiff_t)(uint64_t)v1039 * 8)), v1054);
    v1062 = v1054 + v1060;
    v1063 = v1040 ? 12ULL : 13ULL;
    if ((192ULL - v1062) < v1063) goto L242;
    goto L243;
L241:;
    nd_stop();
L242:;
    nd_stop();
L243:;
    nd_copy(((unsigned char *)((uintptr_t)v34.b + (uintptr_t)v1062)), (v1040 ? (unsigned char *)nd_data_static_183 : (unsigned char *)nd_data_static_184), v1063);
    nd_memcpy(v39.b, v34.b, 192);
    v1390 = v1062 + v1063;
    goto L382;
L244:;
    nd_memset(v33.b, 0, 200);
    nd_ndef_diagnostics_sentence_Sentence_push_kind(v33.b, v1009);
    v1069 = v33.b + 192;
    v1070 = nd_load_64(v1069);
    if ((v1070 + 18446744073709551428ULL) < 5ULL) goto L246;
    nd_memcpy(((unsigned char *)((uintptr_t)v33.b + (uintptr_t)v1070)), (unsigned char *)nd_data_static_188, 5);
    nd_store_64(v1069, (v1070 + 5ULL));
    nd_ndef_diagnostics_sentence_Sentence_push_number(v33.b, v1010);
    v1075 = v1010 == 1ULL;
    v1076 = v1075 ? 6ULL : 7ULL;
    v1077 = nd_load_64(v1069);
    if ((192ULL - v1077) < v1076) goto L248;
    goto L247;
L246:;
    nd_stop();
L247:;
    nd_copy(((unsigned char *)((uintptr_t)v33.b + (uintptr_t)v1077)), (v1075 ? (unsigned char *)nd_data_static_185 : (unsigned char *)nd_data_static_186), v1076);
    v1082 = v1077 + v1076;
    if ((v1082 + 18446744073709551425ULL) < 2ULL) goto L250;
    goto L249;
L248:;
    nd_stop();
L249:;
    nd_store_16(((unsigned char *)((uintptr_t)v33.b + (uintptr_t)v1082)), 8251);
    nd_store_64(v1069, (v1082 + 2ULL));
    nd_ndef_diagnostics_sentence_Sentence_push_number(v33.b, v1011);
    v1087 = v1011 == 1ULL;
    v1088 = v1087 ? 11ULL : 12ULL;
    v1089 = nd_load_64(v1069);
    if ((192ULL - v1089) < v1088) goto L251;
    goto L252;
L250:;
    nd_stop();
L251:;
    nd_stop();
L252:;
    nd_copy(((unsigned char *)((uintptr_t)v33.b + (uintptr_t)v1089)), (v1087 ? (unsigned char *)nd_data_static_215 : (unsigned char *)nd_data_static_216), v1088);
    nd_memcpy(v39.b, v33.b, 192);
    v1390 = v1089 + v1088;
    goto L382;
L253:;
    nd_memset(v32.b, 0, 200);
    nd_ndef_diagnostics_sentence_Sentence_push_kind(v32.b, v1009);
    v1095 = v32.b + 192;
    v1096 = nd_load_64(v1095);
    if ((v1096 + 18446744073709551437ULL) < 14ULL) goto L255;
    nd_memcpy(((unsigned char *)((uintptr_t)v32.b + (uintptr_t)v1096)), (unsigned char *)nd_data_static_217, 14);
    nd_store_64(v1095, (v1096 + 14ULL));
    nd_ndef_diagnostics_sentence_Sentence_push_number(v32.b, v1010);
    v1101 = v1010 == 1ULL;
    v1102 = v1101 ? 6ULL : 7ULL;
    v1103 = nd_load_64(v1095);
    if ((192ULL - v1103) < v1102) goto L257;
    goto L256;
L255:;
    nd_stop();
L256:;
    nd_copy(((unsigned char *)((uintptr_t)v32.b + (uintptr_t)v1103)), (v1101 ? (unsigned char *)nd_data_static_185 : (unsigned char *)nd_data_static_186), v1102);
    v1108 = v1103 + v1102;
    if ((v1108 + 18446744073709551425ULL) < 2ULL) goto L259;
    goto L258;
L257:;
    nd_stop();
L258:;
    nd_store_16(((unsigned char *)((uintptr_t)v32.b + (uintptr_t)v1108)), 8251);
    nd_store_64(v1095, (v1108 + 2ULL));
    nd_ndef_diagnostics_sentence_Sentence_push_number(v32.b, v1011);
    v1113 = v1011 == 1ULL;
    v1114 = v1113 ? 11ULL : 12ULL;
    v1115 = nd_load_64(v1095);
    if ((192ULL - v1115) < v1114) goto L260;
    goto L261;
L259:;
    nd_stop();
L260:;
    nd_stop();
L261:;
    nd_copy(((unsigned char *)((uintptr_t)v32.b + (uintptr_t)v1115)), (v1113 ? (unsigned char *)nd_data_static_215 : (unsigned char *)nd_data_static_216), v1114);
    nd_memcpy(v39.b, v32.b, 192);
    v1390 = v1115 + v1114;
    goto L382;
L262:;
    v1121 = v31.b + 192;
    nd_memset((v31.b + 53), 0, 139);
    nd_memcpy(v31.b, (unsigned char *)nd_data_static_218, 53);
    nd_store_64(v1121, 53ULL);
    nd_ndef_diagnostics_sentence_Sentence_push_number(v31.b, v1010);
    v1123 = v1010 == 1ULL;
    v1124 = v1123 ? 11ULL : 12ULL;
    v1125 = nd_load_64(v1121);
    if (!((192ULL - v1125) < v1124)) goto L264;
    nd_stop();
L264:;
    nd_copy(((unsigned char *)((uintptr_t)v31.b + (uintptr_t)v1125)), (v1123 ? (unsigned char *)nd_data_static_215 : (unsigned char *)nd_data_static_216), v1124);
    nd_memcpy(v39.b, v31.b, 192);
    v1390 = v1125 + v1124;
    goto L382;
L265:;
    v1131 = v30.b + 192;
    nd_memset((v30.b + 25), 0, 167);
    nd_memcpy(v30.b, (unsigned char *)nd_data_static_219, 25);
    nd_store_64(v1131, 25ULL);
    nd_ndef_diagnostics_sentence_Sentence_push_number(v30.b, (uint64_t)v1009);
    v1134 = nd_load_64(v1131);
    if ((v1134 + 18446744073709551428ULL) < 5ULL) goto L267;
    nd_memcpy(((unsigned char *)((uintptr_t)v30.b + (uintptr_t)v1134)), (unsigned char *)nd_data_static_188, 5);
    nd_store_64(v1131, (v1134 + 5ULL));
    nd_ndef_diagnostics_sentence_Sentence_push_number(v30.b, v1010);
    v1139 = v1010 == 1ULL;
    v1140 = v1139 ? 6ULL : 7ULL;
    v1141 = nd_load_64(v1131);
    if ((192ULL - v1141) < v1140) goto L269;
    goto L268;
L267:;
    nd_stop();
L268:;
    nd_copy(((unsigned char *)((uintptr_t)v30.b + (uintptr_t)v1141)), (v1139 ? (unsigned char *)nd_data_static_185 : (unsigned char *)nd_data_static_186), v1140);
    v1146 = v1141 + v1140;
    if ((v1146 + 18446744073709551425ULL) < 2ULL) goto L271;
    goto L270;
L269:;
    nd_stop();
L270:;
    nd_store_16(((unsigned char *)((uintptr_t)v30.b + (uintptr_t)v1146)), 8251);
    nd_store_64(v1131, (v1146 + 2ULL));
    nd_ndef_diagnostics_sentence_Sentence_push_number(v30.b, v1011);
    v1151 = v1011 == 1ULL;
    v1152 = v1151 ? 11ULL : 12ULL;
    v1153 = nd_load_64(v1131);
    if ((192ULL - v1153) < v1152) goto L272;
    goto L273;
L271:;
    nd_stop();
L272:;
    nd_stop();
L273:;
    nd_copy(((unsigned char *)((uintptr_t)v30.b + (uintptr_t)v1153)), (v1151 ? (unsigned char *)nd_data_static_215 : (unsigned char *)nd_data_static_216), v1152);
    nd_memcpy(v39.b, v30.b, 192);
    v1390 = v1153 + v1152;
    goto L382;
L274:;
    nd_memset(v29.b, 0, 192);
    v1159 = v29.b + 192;
    nd_store_32(v29.b, 543516756U);
    switch (v1009) {
    case 0: { v1160 = v1019; v1161 = 6ULL; v1162 = (unsigned char *)nd_data_static_0; goto L306; }
    case 1: goto L275;
    case 2: goto L276;
    case 3: goto L277;
    case 4: goto L278;
    case 5: goto L279;
    case 6: goto L280;
    case 7: goto L281;
    case 8: goto L282;
    case 9: goto L283;
    case 10: goto L284;
    case 11: goto L285;
    case 12: goto L286;
    case 13: goto L287;
    case 14: goto L288;
    case 15: goto L289;
    case 16: goto L290;
    case 17: goto L291;
    case 18: goto L292;
    case 19: goto L293;
    case 20: goto L294;
    case 21: goto L295;
    case 22: goto L296;
    case 23: goto L297;
    case 24: goto L298;
    case 25: goto L299;
    case 26: goto L300;
    case 27: goto L301;
    case 28: goto L302;
    case 29: goto L303;
    case 30: goto L304;
    default: goto L305; }
L275:;
    v1160 = v1013;
    v1161 = 11ULL;
    v1162 = (unsigned char *)nd_data_static_1;
    goto L306;
L276:;
    v1160 = v1014;
    v1161 = 14ULL;
    v1162 = (unsigned char *)nd_data_static_2;
    goto L306;
L277:;
    v1160 = v1015;
    v1161 = 9ULL;
    v1162 = (unsigned char *)nd_data_static_3;
    goto L306;
L278:;
    v1160 = v1016;
    v1161 = 4ULL;
    v1162 = (unsigned char *)nd_data_static_4;
    goto L306;
L279:;
    v1160 = v1017;
    v1161 = 2ULL;
    v1162 = (unsigned char *)nd_data_static_5;
    goto L306;
L280:;
    v1160 = v1018;
    v1161 = 7ULL;
    v1162 = (unsigned char *)nd_data_static_6;
    goto L306;
L281:;
    v1160 = v1019;
    v1161 = 6ULL;
    v1162 = (unsigned char *)nd_data_static_7;
    goto L306;
L282:;
    v1160 = v1020;
    v1161 = 13ULL;
    v1162 = (unsigned char *)nd_data_static_8;
    goto L306;
L283:;
    v1160 = v1021;
    v1161 = 15ULL;
    v1162 = (unsigned char *)nd_data_static_9;
    goto L306;
L284:;
    v1160 = v1016;
    v1161 = 4ULL;
    v1162 = (unsigned char *)nd_data_static_10;
    goto L306;
L285:;
    v1160 = v1021;
    v1161 = 15ULL;
    v1162 = (unsigned char *)nd_data_static_11;
    goto L306;
L286:;
    v1160 = v1022;
    v1161 = 3ULL;
    v1162 = (unsigned char *)nd_data_static_12;
    goto L306;
L287:;
    v1160 = v1019;
    v1161 = 6ULL;
    v1162 = (unsigned char *)nd_data_static_13;
    goto L306;
L288:;
    v1160 = v1016;
    v1161 = 4ULL;
    v1162 = (unsigned char *)nd_data_static_14;
    goto L306;
L289:;
    v1160 = v1023;
    v1161 = 10ULL;
    v1162 = (unsigned char *)nd_data_static_15;
    goto L306;
L290:;
    v1160 = v1018;
    v1161 = 7ULL;
    v1162 = (unsigned char *)nd_data_static_16;
    goto L306;
L291:;
    v1160 = v1020;
    v1161 = 13ULL;
    v1162 = (unsigned char *)nd_data_static_17;
    goto L306;
L292:;
    v1160 = v1024;
    v1161 = 19ULL;
    v1162 = (unsigned char *)nd_data_static_18;
    goto L306;
L293:;
    v1160 = v1025;
    v1161 = 29ULL;
    v1162 = (unsigned char *)nd_data_static_19;
    goto L306;
L294:;
    v1160 = v1026;
    v1161 = 22ULL;
    v1162 = (unsigned char *)nd_data_static_20;
    goto L306;
L295:;
    v1160 = v1027;
    v1161 = 30ULL;
    v1162 = (unsigned char *)nd_data_static_21;
    goto L306;
L296:;
    v1160 = v1028;
    v1161 = 31ULL;
    v1162 = (unsigned char *)nd_data_static_22;
    goto L306;
L297:;
    v1160 = v1029;
    v1161 = 24ULL;
    v1162 = (unsigned char *)nd_data_static_23;
    goto L306;
L298:;
    v1160 = v1030;
    v1161 = 8ULL;
    v1162 = (unsigned char *)nd_data_static_24;
    goto L306;
L299:;
    v1160 = v1012;
    v1161 = 12ULL;
    v1162 = (unsigned char *)nd_data_static_25;
    goto L306;
L300:;
    v1160 = v1023;
    v1161 = 10ULL;
    v1162 = (unsigned char *)nd_data_static_26;
    goto L306;
L301:;
    v1160 = v1024;
    v1161 = 19ULL;
    v1162 = (unsigned char *)nd_data_static_27;
    goto L306;
L302:;
    v1160 = v1024;
    v1161 = 19ULL;
    v1162 = (unsigned char *)nd_data_static_28;
    goto L306;
L303:;
    v1160 = v1012;
    v1161 = 12ULL;
    v1162 = (unsigned char *)nd_data_static_29;
    goto L306;
L304:;
    v1160 = v1012;
    v1161 = 12ULL;
    v1162 = (unsigned char *)nd_data_static_30;
    goto L306;
L305:;
    nd_stop();
L306:;
    nd_copy(v1016, v1162, v1161);
    nd_memcpy(((unsigned char *)((uintptr_t)v1160 + 4)), (unsigned char *)nd_data_static_188, 5);
    nd_store_64(v1159, (v1161 + 9ULL));
    nd_ndef_diagnostics_sentence_Sentence_push_number(v29.b, v1010);
    v1165 = v1010 == 1ULL;
    v1166 = v1165 ? 6ULL : 7ULL;
    v1167 = nd_load_64(v1159);
    if ((192ULL - v1167) < v1166) goto L308;
    nd_copy(((unsigned char *)((uintptr_t)v29.b + (uintptr_t)v1167)), (v1165 ? (unsigned char *)nd_data_static_185 : (unsigned char *)nd_data_static_186), v1166);
    v1172 = v1167 + v1166;
    if ((v1172 + 18446744073709551425ULL) < 2ULL) goto L310;
    goto L309;
L308:;
    nd_stop();
L309:;
    nd_store_16(((unsigned char *)((uintptr_t)v29.b + (uintptr_t)v1172)), 8251);
    nd_store_64(v1159, (v1172 + 2ULL));
    nd_ndef_diagnostics_sentence_Sentence_push_number(v29.b, v1011);
    v1177 = v1011 == 1ULL;
    v1178 = v1177 ? 24ULL : 25ULL;
    v1179 = nd_load_64(v1159);
    if ((192ULL - v1179) < v1178) goto L311;
    goto L312;
L310:;
    nd_stop();
L311:;
    nd_stop();
L312:;
    nd_copy(((unsigned char *)((uintptr_t)v29.b + (uintptr_t)v1179)), (v1177 ? (unsigned char *)nd_data_static_221 : (unsigned char *)nd_data_static_222), v1178);
    nd_memcpy(v39.b, v29.b, 192);
    v1390 = v1179 + v1178;
    goto L382;
L313:;
    nd_memset((v28.b + 47), 0, 145);
    nd_memcpy(v28.b, (unsigned char *)nd_data_static_178, 47);
    nd_memcpy(v39.b, v28.b, 192);
    v1390 = 47ULL;
    goto L382;
L314:;
    nd_memset((v27.b + 48), 0, 144);
    nd_memcpy(v27.b, (unsigned char *)nd_data_static_179, 48);
    nd_memcpy(v39.b, v27.b, 192);
    v1390 = 48ULL;
    goto L382;
L315:;
    nd_memset((v26.b + 71), 0, 121);
    nd_memcpy(v26.b, (unsigned char *)nd_data_static_180, 71);
    nd_memcpy(v39.b, v26.b, 192);
    v1390 = 71ULL;
    goto L382;
L316:;
    nd_memset(v25.b, 0, 200);
    nd_ndef_diagnostics_sentence_Sentence_push_number(v25.b, v1010);
    v1188 = v1010 == 1ULL;
    v1189 = v1188 ? 24ULL : 26ULL;
    v1190 = v25.b + 192;
    v1191 = nd_load_64(v1190);
    if ((192ULL - v1191) < v1189) goto L318;
    nd_copy(((unsigned char *)((uintptr_t)v25.b + (uintptr_t)v1191)), (v1188 ? (unsigned char *)nd_data_static_223 : (unsigned char *)nd_data_static_224), v1189);
    v1196 = v1191 + v1189;
    if ((v1196 + 18446744073709551433ULL) < 10ULL) goto L320;
    goto L319;
L318:;
    nd_stop();
L319:;
    nd_memcpy(((unsigned char *)((uintptr_t)v25.b + (uintptr_t)v1196)), (unsigned char *)nd_data_static_225, 10);
    nd_store_64(v1190, (v1196 + 10ULL));
    nd_ndef_diagnostics_sentence_Sentence_push_number(v25.b, v1010);
    v1201 = v1188 ? 6ULL : 7ULL;
    v1202 = nd_load_64(v1190);
    if ((192ULL - v1202) < v1201) goto L322;
    goto L321;
L320:;
    nd_stop();
L321:;
    nd_copy(((unsigned char *)((uintptr_t)v25.b + (uintptr_t)v1202)), (v1188 ? (unsigned char *)nd_data_static_185 : (unsigned char *)nd_data_static_186), v1201);
    v1207 = v1202 + v1201;
    if ((v1207 + 18446744073709551425ULL) < 2ULL) goto L324;
    goto L323;
L322:;
    nd_stop();
L323:;
    nd_store_16(((unsigned char *)((uintptr_t)v25.b + (uintptr_t)v1207)), 8251);
    nd_store_64(v1190, (v1207 + 2ULL));
    nd_ndef_diagnostics_sentence_Sentence_push_number(v25.b, v1011);
    v1212 = v1011 == 1ULL;
    v1213 = v1212 ? 24ULL : 25ULL;
    v1214 = nd_load_64(v1190);
    if ((192ULL - v1214) < v1213) goto L325;
    goto L326;
L324:;
    nd_stop();
L325:;
    nd_stop();
L326:;
    nd_copy(((unsigned char *)((uintptr_t)v25.b + (uintptr_t)v1214)), (v1212 ? (unsigned char *)nd_data_static_221 : (unsigned char *)nd_data_static_222), v1213);
    nd_memcpy(v39.b, v25.b, 192);
    v1390 = v1214 + v1213;
    goto L382;
L327:;
    v1220 = v24.b + 192;
    nd_memset((v24.b + 25), 0, 167);
    nd_memcpy(v24.b, (unsigned char *)nd_data_static_226, 25);
    nd_store_64(v1220, 25ULL);
    nd_ndef_diagnostics_sentence_Sentence_push_number(v24.b, v1010);
    v1222 = v1010 == 1ULL;
    v1223 = v1222 ? 6ULL : 7ULL;
    v1224 = nd_load_64(v1220);
    if ((192ULL - v1224) < v1223) goto L329;
    nd_copy(((unsigned char *)((uintptr_t)v24.b + (uintptr_t)v1224)), (v1222 ? (unsigned char *)nd_data_static_185 : (unsigned char *)nd_data_static_186), v1223);
    v1229 = v1224 + v1223;
    if ((v1229 + 18446744073709551425ULL) < 2ULL) goto L331;
    goto L330;
L329:;
    nd_stop();
L330:;
    nd_store_16(((unsigned char *)((uintptr_t)v24.b + (uintptr_t)v1229)), 8251);
    nd_store_64(v1220, (v1229 + 2ULL));
    nd_ndef_diagnostics_sentence_Sentence_push_number(v24.b, v1011);
    v1234 = v1011 == 1ULL;
    v1235 = v1234 ? 24ULL : 25ULL;
    v1236 = nd_load_64(v1220);
    if ((192ULL - v1236) < v1235) goto L332;
    goto L333;
L331:;
    nd_stop();
L332:;
    nd_stop();
L333:;
    nd_copy(((unsigned char *)((uintptr_t)v24.b + (uintptr_t)v1236)), (v1234 ? (unsigned char *)nd_data_static_221 : (unsigned char *)nd_data_static_222), v1235);
    nd_memcpy(v39.b, v24.b, 192);
    v1390 = v1236 + v1235;
    goto L382;
L334:;
    v1242 = v23.b + 192;
    nd_memset((v23.b + 37), 0, 155);
    nd_memcpy(v23.b, (unsigned char *)nd_data_static_227, 37);
    nd_store_64(v1242, 37ULL);
    nd_ndef_diagnostics_sentence_Sentence_push_number(v23.b, v1010);
    v1244 = v1010 == 1ULL;
    v1245 = v1244 ? 6ULL : 7ULL;
    v1246 = nd_load_64(v1242);
    if ((192ULL - v1246) < v1245) goto L336;
    nd_copy(((unsigned char *)((uintptr_t)v23.b + (uintptr_t)v1246)), (v1244 ? (unsigned char *)nd_data_static_185 : (unsigned char *)nd_data_static_186), v1245);
    v1251 = v1246 + v1245;
    if ((v1251 + 18446744073709551425ULL) < 2ULL) goto L338;
    goto L337;
L336:;
    nd_stop();
L337:;
    nd_store_16(((unsigned char *)((uintptr_t)v23.b + (uintptr_t)v1251)), 8251);
    nd_store_64(v1242, (v1251 + 2ULL));
    nd_ndef_diagnostics_sentence_Sentence_push_number(v23.b, v1011);
    v1256 = v1011 == 1ULL;
    v1257 = v1256 ? 24ULL : 25ULL;
    v1258 = nd_load_64(v1242);
    if ((192ULL - v1258) < v1257) goto L339;
    goto L340;
L338:;
    nd_stop();
L339:;
    nd_stop();
L340:;
    nd_copy(((unsigned char *)((uintptr_t)v23.b + (uintptr_t)v1258)), (v1256 ? (unsigned char *)nd_data_static_221 : (unsigned char *)nd_data_static_222), v1257);
    nd_memcpy(v39.b, v23.b, 192);
    v1390 = v1258 + v1257;
    goto L382;
L341:;
    v1264 = v22.b + 192;
    v1265 = v22.b + 64;
    nd_memset(v1265, 0, 128);
    nd_memcpy(v22.b, (unsigned char *)nd_data_static_228, 64);
    nd_store_16(v1265, 8251);
    nd_store_64(v1264, 66ULL);
    nd_ndef_diagnostics_sentence_Sentence_push_number(v22.b, v1010);
    v1266 = v1010 == 1ULL;
    v1267 = v1266 ? 24ULL : 25ULL;
    v1268 = nd_load_64(v1264);
    if (!((192ULL - v1268) < v1267)) goto L343;
    nd_stop();
L343:;
    nd_copy(((unsigned char *)((uintptr_t)v22.b + (uintptr_t)v1268)), (v1266 ? (unsigned char *)nd_data_static_221 : (unsigned char *)nd_data_static_222), v1267);
    nd_memcpy(v39.b, v22.b, 192);
    v1390 = v1268 + v1267;
    goto L382;
L344:;
    v1275 = v21.b + 192;
    nd_memset((v21.b + 7), 0, 185);
    nd_memcpy(v21.b, (unsigned char *)nd_data_static_229, 7);
    nd_store_64(v1275, 7ULL);
    nd_ndef_diagnostics_sentence_Sentence_push_number(v21.b, v1274);
    v1277 = nd_load_64(v1275);
    if (!((v1277 + 18446744073709551482ULL) < 59ULL)) goto L346;
    nd_stop();
L346:;
    nd_memcpy(((unsigned char *)((uintptr_t)v21.b + (uintptr_t)v1277)), (unsigned char *)nd_data_static_230, 59);
    nd_memcpy(v39.b, v21.b, 192);
    v1390 = v1277 + 59ULL;
    goto L382;
L347:;
    nd_memset((v19.b + 73), 0, 119);
    nd_memcpy(v19.b, (unsigned char *)nd_data_static_231, 73);
    nd_memcpy(v20.b, v19.b, 192);
    v1283 = v20.b + 192;
    nd_store_64(v1283, 73ULL);
    nd_ndef_diagnostics_sentence_Sentence_push_number(v20.b, v1010);
    v1284 = v1010 == 1ULL;
    v1285 = v1284 ? 6ULL : 7ULL;
    v1286 = nd_load_64(v1283);
    if ((192ULL - v1286) < v1285) goto L349;
    nd_copy(((unsigned char *)((uintptr_t)v20.b + (uintptr_t)v1286)), (v1284 ? (unsigned char *)nd_data_static_185 : (unsigned char *)nd_data_static_186), v1285);
    v1291 = v1286 + v1285;
    if ((v1291 + 18446744073709551425ULL) < 2ULL) goto L351;
    goto L350;
L349:;
    nd_stop();
L350:;
    nd_store_16(((unsigned char *)((uintptr_t)v20.b + (uintptr_t)v1291)), 8251);
    nd_store_64(v1283, (v1291 + 2ULL));
    nd_ndef_diagnostics_sentence_Sentence_push_number(v20.b, v1011);
    v1296 = v1011 == 1ULL;
    v1297 = v1296 ? 24ULL : 25ULL;
    v1298 = nd_load_64(v1283);
    if ((192ULL - v1298) < v1297) goto L352;
    goto L353;
L351:;
    nd_stop();
L352:;
    nd_stop();
L353:;
    nd_copy(((unsigned char *)((uintptr_t)v20.b + (uintptr_t)v1298)), (v1296 ? (unsigned char *)nd_data_static_221 : (unsigned char *)nd_data_static_222), v1297);
    nd_memcpy(v39.b, v20.b, 192);
    v1390 = v1298 + v1297;
    goto L382;
L354:;
    nd_memset((v17.b + 98), 0, 94);
    nd_memcpy(v17.b, (unsigned char *)nd_data_static_232, 98);
    nd_memcpy(v18.b, v17.b, 192);
    v1305 = v18.b + 192;
    nd_store_64(v1305, 98ULL);
    nd_ndef_diagnostics_sentence_Sentence_push_number(v18.b, v1010);
    v1306 = v1010 == 1ULL;
    v1307 = v1306 ? 24ULL : 25ULL;
    v1308 = nd_load_64(v1305);
    if (!((192ULL - v1308) < v1307)) goto L356;
    nd_stop();
L356:;
    nd_copy(((unsigned char *)((uintptr_t)v18.b + (uintptr_t)v1308)), (v1306 ? (unsigned char *)nd_data_static_221 : (unsigned char *)nd_data_static_222), v1307);
    nd_memcpy(v39.b, v18.b, 192);
    v1390 = v1308 + v1307;
    goto L382;
L357:;
    v1315 = v16.b + 192;
    nd_memset((v16.b + 7), 0, 185);
    nd_memcpy(v16.b, (unsigned char *)nd_data_static_229, 7);
    nd_store_64(v1315, 7ULL);
    nd_ndef_diagnostics_sentence_Sentence_push_number(v16.b, v1314);
    v1317 = nd_load_64(v1315);
    if (!((v1317 + 18446744073709551467ULL) < 44ULL)) goto L359;
    nd_stop();
L359:;
    nd_memcpy(((unsigned char *)((uintptr_t)v16.b + (uintptr_t)v1317)), (unsigned char *)nd_data_static_233, 44);
    nd_memcpy(v39.b, v16.b, 192);
    v1390 = v1317 + 44ULL;
    goto L382;
L360:;
    nd_memset((v15.b + 84), 0, 108);
    nd_memcpy(v15.b, (unsigned char *)nd_data_static_181, 84);
    nd_memcpy(v39.b, v15.b, 192);
    v1390 = 84ULL;
    goto L382;
L361:;
    nd_memset((v13.b + 47), 0, 145);
    nd_memcpy(v13.b, (unsigned char *)nd_data_static_234, 47);
    nd_memcpy(v14.b, v13.b, 192);
    v1324 = v14.b + 192;
    nd_memcpy((v14.b + 47), (unsigned char *)nd_data_static_235, 14);
    nd_store_64(v1324, 61ULL);
    nd_ndef_diagnostics_sentence_Sentence_push_number(v14.b, v1010);
    v1326 = v1010 == 1ULL;
    v1327 = v1326 ? 11ULL : 12ULL;
    v1328 = nd_load_64(v1324);
    if (!((192ULL - v1328) < v1327)) goto L363;
    nd_stop();
L363:;
    nd_copy(((unsigned char *)((uintptr_t)v14.b + (uintptr_t)v1328)), (v1326 ? (unsigned char *)nd_data_static_215 : (unsigned char *)nd_data_static_216), v1327);
    nd_memcpy(v39.b, v14.b, 192);
    v1390 = v1328 + v1327;
    goto L382;
L364:;
    nd_memset((v11.b + 47), 0, 145);
    nd_memcpy(v11.b, (unsigned char *)nd_data_static_234, 47);
    nd_memcpy(v12.b, v11.b, 192);
    v1335 = v12.b + 192;
    nd_memcpy((v12.b + 47), (unsigned char *)nd_data_static_236, 19);
    nd_store_64(v1335, 66ULL);
    nd_ndef_diagnostics_sentence_Sentence_push_number(v12.b, v1010);
    v1337 = v1010 == 1ULL;
    v1338 = v1337 ? 6ULL : 7ULL;
    v1339 = nd_load_64(v1335);
    if ((192ULL - v1339) < v1338) goto L366;
    nd_copy(((unsigned char *)((uintptr_t)v12.b + (uintptr_t)v1339)), (v1337 ? (unsigned char *)nd_data_static_185 : (unsigned char *)nd_data_static_186), v1338);
    v1344 = v1339 + v1338;
    if ((v1344 + 18446744073709551425ULL) < 2ULL) goto L368;
    goto L367;
L366:;
    nd_stop();
L367:;
    nd_store_16(((unsigned char *)((uintptr_t)v12.b + (uintptr_t)v1344)), 8251);
    nd_store_64(v1335, (v1344 + 2ULL));
    nd_ndef_diagnostics_sentence_Sentence_push_number(v12.b, v1011);
    v1349 = v1011 == 1ULL;
    v1350 = v1349 ? 24ULL : 25ULL;
    v1351 = nd_load_64(v1335);
    if ((192ULL - v1351) < v1350) goto L369;
    goto L370;
L368:;
    nd_stop();
L369:;
    nd_stop();
L370:;
    nd_copy(((unsigned char *)((uintptr_t)v12.b + (uintptr_t)v1351)), (v1349 ? (unsigned char *)nd_data_static_221 : (unsigned char *)nd_data_static_222), v1350);
    nd_memcpy(v39.b, v12.b, 192);
    v1390 = v1351 + v1350;
    goto L382;
L371:;
    nd_memset((v9.b + 47), 0, 145);
    nd_memcpy(v9.b, (unsigned char *)nd_data_static_234, 47);
    nd_memcpy(v10.b, v9.b, 192);
    v1358 = v10.b + 192;
    nd_memcpy((v10.b + 47), (unsigned char *)nd_data_static_237, 29);
    nd_store_64(v1358, 76ULL);
    nd_ndef_diagnostics_sentence_Sentence_push_number(v10.b, v1010);
    v1360 = v1010 == 1ULL;
    v1361 = v1360 ? 6ULL : 7ULL;
    v1362 = nd_load_64(v1358);
    if ((192ULL - v1362) < v1361) goto L373;
    nd_copy(((unsigned char *)((uintptr_t)v10.b + (uintptr_t)v1362)), (v1360 ? (unsigned char *)nd_data_static_185 : (unsigned char *)nd_data_static_186), v1361);
    v1367 = v1362 + v1361;
    if ((v1367 + 18446744073709551425ULL) < 2ULL) goto L375;
    goto L374;
L373:;
    nd_stop();
L374:;
    nd_store_16(((unsigned char *)((uintptr_t)v10.b + (uintptr_t)v1367)), 8251);
    nd_store_64(v1358, (v1367 + 2ULL));
    nd_ndef_diagnostics_sentence_Sentence_push_number(v10.b, v1011);
    v1372 = v1011 == 1ULL;
    v1373 = v1372 ? 24ULL : 25ULL;
    v1374 = nd_load_64(v1358);
    if ((192ULL - v1374) < v1373) goto L376;
    goto L377;
L375:;
    nd_stop();
L376:;
    nd_stop();
L377:;
    nd_copy(((unsigned char *)((uintptr_t)v10.b + (uintptr_t)v1374)), (v1372 ? (unsigned char *)nd_data_static_221 : (unsigned char *)nd_data_static_222), v1373);
    nd_memcpy(v39.b, v10.b, 192);
    v1390 = v1374 + v1373;
    goto L382;
L378:;
    nd_memset((v7.b + 100), 0, 92);
    nd_memcpy(v7.b, (unsigned char *)nd_data_static_238, 100);
    nd_memcpy(v8.b, v7.b, 192);
    v1381 = v8.b + 192;
    nd_store_64(v1381, 100ULL);
    nd_ndef_diagnostics_sentence_Sentence_push_number(v8.b, v1010);
    v1382 = v1010 == 1ULL;
    v1383 = v1382 ? 24ULL : 25ULL;
    v1384 = nd_load_64(v1381);
    if (!((192ULL - v1384) < v1383)) goto L380;
    nd_stop();
L380:;
    nd_copy(((unsigned char *)((uintptr_t)v8.b + (uintptr_t)v1384)), (v1382 ? (unsigned char *)nd_data_static_221 : (unsigned char *)nd_data_static_222), v1383);
    nd_memcpy(v39.b, v8.b, 192);
    v1390 = v1384 + v1383;
    goto L382;
L381:;
    nd_stop();
L382:;
    nd_memcpy(v45.b, v39.b, 192);
    nd_memcpy(v44.b, v45.b, 192);
    nd_store_64((v44.b + 192), v1390);
    nd_store_64(v6, v1390);
    if (v5 < v1390) { v1393 = 2U; goto L384; }
    nd_copy(v51, v44.b, v1390);
    v1393 = 0U;
L384:;
    v1394 = v1393;
L385:;
    return v1394;
}

static uint32_t nd_ndef_text_in_utf8(unsigned char *v1, uint64_t v2, unsigned char *v3, uint64_t v4, unsigned char *v5, unsigned char *v6) {
    unsigned char *v13, *v16, *v19, *v52, *v82, *v131, *v181, *v209;
    uint64_t v20, v23, v180, v183, v189, v193, v208, v212, v218, v221;
    uint8_t v21, v28, v91, v172, v173, v176, v207;
    uint32_t v216, v222, v225;
    ND_ROOM(1) v7;
    ND_ROOM(24) v8, v9, v10;
    v13 = (unsigned char *)((uintptr_t)v1 + (uintptr_t)((v1 == (unsigned char *)0) ? 4096ULL : 0ULL));
    v16 = (unsigned char *)((uintptr_t)v3 + (uintptr_t)((v3 == (unsigned char *)0) ? 4096ULL : 0ULL));
    nd_memset(v10.b, 0, 24);
    if (!(v2 > 4294967295ULL)) goto L2;
    v221 = 0ULL;
    v222 = 23U;
    goto L67;
L2:;
    if (v2 == 0ULL) goto L25;
    v19 = (unsigned char *)((uintptr_t)v13 + 1);
    v20 = v2 + 18446744073709551615ULL;
    v21 = nd_load_8(v13);
    v23 = (uint64_t)(uint8_t)(v21 & 63);
    if (((uint8_t)(v21 & 64) != 0) | (int)(v20 < v23)) goto L25;
    v28 = (int8_t)v21 < (int8_t)0;
    if ((v2 > 64ULL) | v28) goto L23;
    if (!(v2 < 9ULL)) goto L17;
    if (v2 < 5ULL) goto L9;
    if (!(((((((uint32_t)nd_load_8(((unsigned char *)((uintptr_t)v13 + 2))) << 8) | (uint32_t)nd_load_8(v19)) | ((uint32_t)nd_load_8(((unsigned char *)((uintptr_t)v13 + 3))) << 16)) | ((uint32_t)nd_load_8(((unsigned char *)((uintptr_t)v13 + 4))) << 24)) & 2155905152U) == 0U)) goto L23;
    v52 = (unsigned char *)((uintptr_t)v13 + (uintptr_t)v2);
    if (((((((uint32_t)nd_load_8(((unsigned char *)((uintptr_t)v52 - 3))) << 8) | (uint32_t)nd_load_8(((unsigned char *)((uintptr_t)v52 - 4)))) | ((uint32_t)nd_load_8(((unsigned char *)((uintptr_t)v52 - 2))) << 16)) | ((uint32_t)nd_load_8(((unsigned char *)((uintptr_t)v52 - 1))) << 24)) & 2155905152U) == 0U) goto L24;
    goto L23;
L9:;
    switch ((uint32_t)v2) {
    case 1U: goto L24;
    case 2U: goto L10;
    default: goto L11; }
L10:;
    if ((int8_t)nd_load_8(v19) > (int8_t)255) goto L24;
    goto L23;
L11:;
    if (v2 == 4ULL) goto L14;
    if (!((int8_t)nd_load_8(v19) > (int8_t)255)) goto L23;
    if ((int8_t)nd_load_8(((unsigned char *)((uintptr_t)v13 + 2))) > (int8_t)255) goto L24;
    goto L23;
L14:;
    v82 = (unsigned char *)((uintptr_t)v13 + 3);
    if (!((int8_t)nd_load_8(v19) > (int8_t)255)) goto L23;
    if (!((int8_t)nd_load_8(((unsigned char *)((uintptr_t)v13 + 2))) > (int8_t)255)) goto L23;
    if ((int8_t)nd_load_8(v82) > (int8_t)255) goto L24;
    goto L23;
L17:;
    if (!(v2 > 17ULL)) goto L19;
    v91 = nd_ndef_lang_ascii_are_many(v19, v20);
    if (v91) goto L24;
    goto L23;
L19:;
    if (!(((((((uint32_t)nd_load_8(((unsigned char *)((uintptr_t)v13 + 2))) << 8) | (uint32_t)nd_load_8(v19)) | ((uint32_t)nd_load_8(((unsigned char *)((uintptr_t)v13 + 3))) << 16)) | ((uint32_t)nd_load_8(((unsigned char *)((uintptr_t)v13 + 4))) << 24)) & 2155905152U) == 0U)) goto L23;
    if (!(((((((uint32_t)nd_load_8(((unsigned char *)((uintptr_t)v13 + 6))) << 8) | (uint32_t)nd_load_8(((unsigned char *)((uintptr_t)v13 + 5)))) | ((uint32_t)nd_load_8(((unsigned char *)((uintptr_t)v13 + 7))) << 16)) | ((uint32_t)nd_load_8(((unsigned char *)((uintptr_t)v13 + 8))) << 24)) & 2155905152U) == 0U)) goto L23;
    v131 = (unsigned char *)((uintptr_t)v13 + (uintptr_t)v2);
    if (!(((((((uint32_t)nd_load_8(((unsigned char *)((uintptr_t)v131 - 7))) << 8) | (uint32_t)nd_load_8(((unsigned char *)((uintptr_t)v131 - 8)))) | ((uint32_t)nd_load_8(((unsigned char *)((uintptr_t)v131 - 6))) << 16)) | ((uint32_t)nd_load_8(((unsigned char *)((uintptr_t)v131 - 5))) << 24)) & 2155905152U) == 0U)) goto L23;
    if (((((((uint32_t)nd_load_8(((unsigned char *)((uintptr_t)v131 - 3))) << 8) | (uint32_t)nd_load_8(((unsigned char *)((uintptr_t)v131 - 4)))) | ((uint32_t)nd_load_8(((unsigned char *)((uintptr_t)v131 - 2))) << 16)) | ((uint32_t)nd_load_8(((unsigned char *)((uintptr_t)v131 - 1))) << 24)) & 2155905152U) == 0U) goto L24;
L23:;
    v172 = nd_ndef_lang_member_is_coded_text(v23, v28, v19, v20);
    if (!v172) goto L25;
L24:;
    goto L27;
L25:;
    nd_ndef_lang_place_refusal_of(v10.b, 1, 0, v13, v2);
    v173 = nd_load_8(v10.b);
    if (v173 == 1) goto L41;
    if (!(v173 == 0)) { v221 = 0ULL; v222 = 1U; goto L67; }
L27:;
    v176 = nd_load_8(v13);
    v180 = (uint64_t)(uint8_t)(v176 & 63);
    v181 = (unsigned char *)((uintptr_t)((unsigned char *)((uintptr_t)v13 + 1)) + (uintptr_t)v180);
    v183 = v2 + (v180 ^ 18446744073709551615ULL);
    if (!((int8_t)v176 > (int8_t)255)) goto L32;
    nd_store_64(v5, v183);
    if (v4 < v183) { v225 = 2U; goto L68; }
    if (((uint64_t)(uintptr_t)v16 - (uint64_t)(uintptr_t)v181) < v183) { v189 = 0ULL; goto L31; }
    nd_move(v16, v181, v183);
    v225 = 0U;
    goto L68;
L31:;
    nd_store_8((v16 + (ptrdiff_t)v189), nd_load_8((v181 + (ptrdiff_t)v189)));
    v193 = v189 + 1ULL;
    if (v193 == v183) { v225 = 0U; goto L68; }
    v189 = v193;
    goto L31;
L32:;
    if (v183 < 2ULL) { v207 = 0; v208 = v183; v209 = v181; goto L38; }
    switch (nd_load_8(v181)) {
    case 254: goto L34;
    case 255: goto L36;
    default: { v207 = 0; v208 = v183; v209 = v181; goto L38; } }
L34:;
    if (!(nd_load_8((v181 + 1)) == 255)) { v207 = 0; v208 = v183; v209 = v181; goto L38; }
    v207 = 0;
    v208 = v183 + 18446744073709551614ULL;
    v209 = (unsigned char *)((uintptr_t)v181 + 2);
    goto L38;
L36:;
    if (!(nd_load_8((v181 + 1)) == 254)) { v207 = 0; v208 = v183; v209 = v181; goto L38; }
    v207 = 1;
    v208 = v183 + 18446744073709551614ULL;
    v209 = (unsigned char *)((uintptr_t)v181 + 2);
L38:;
    nd_store_ptr(v8.b, v7.b);
    nd_memset((v8.b + 8), 0, 16);
    nd_ndef_c_utf16_put_in_utf8(v8.b, v207, v209, v208);
    v212 = nd_load_64((v8.b + 16));
    nd_store_64(v5, v212);
    if (v4 < v212) { v216 = 2U; goto L40; }
    nd_store_ptr(v9.b, v16);
    nd_store_64((v9.b + 8), v4);
    nd_store_64((v9.b + 16), 0ULL);
    nd_ndef_c_utf16_put_in_utf8(v9.b, v207, v209, v208);
    v216 = 0U;
L40:;
    v225 = v216;
    goto L68;
L41:;
    v218 = nd_load_64((v10.b + 8));
    switch (nd_load_8((v10.b + 16))) {
    case 0: { v221 = v218; v222 = 1U; goto L67; }
    case 1: goto L42;
    case 2: goto L43;
    case 3: goto L44;
    case 4: goto L45;
    case 5: goto L46;
    case 6: goto L47;
    case 7: goto L48;
    case 8: goto L49;
    case 9: goto L50;
    case 10: goto L51;
    case 11: goto L52;
    case 12: goto L53;
    case 13: goto L54;
    case 14: goto L55;
    case 15: goto L56;
    case 16: goto L57;
    case 17: goto L58;
    case 18: goto L59;
    case 19: goto L60;
    case 20: goto L61;
    case 21: goto L62;
    case 22: goto L63;
    case 23: goto L64;
    case 24: goto L65;
    default: goto L66; }
L42:;
    v221 = v218;
    v222 = 2U;
    goto L67;
L43:;
    v221 = v218;
    v222 = 3U;
    goto L67;
L44:;
    v221 = v218;
    v222 = 4U;
    goto L67;
L45:;
    v221 = v218;
    v222 = 5U;
    goto L67;
L46:;
    v221 = v218;
    v222 = 6U;
    goto L67;
L47:;
    v221 = v218;
    v222 = 7U;
    goto L67;
L48:;
    v221 = v218;
    v222 = 8U;
    goto L67;
L49:;
    v221 = v218;
    v222 = 9U;
    goto L67;
L50:;
    v221 = v218;
    v222 = 10U;
    goto L67;
L51:;
    v221 = v218;
    v222 = 11U;
    goto L67;
L52:;
    v221 = v218;
    v222 = 12U;
    goto L67;
L53:;
    v221 = v218;
    v222 = 13U;
    goto L67;
L54:;
    v221 = v218;
    v222 = 14U;
    goto L67;
L55:;
    v221 = v218;
    v222 = 15U;
    goto L67;
L56:;
    v221 = v218;
    v222 = 16U;
    goto L67;
L57:;
    v221 = v218;
    v222 = 17U;
    goto L67;
L58:;
    v221 = v218;
    v222 = 18U;
    goto L67;
L59:;
    v221 = v218;
    v222 = 19U;
    goto L67;
L60:;
    v221 = v218;
    v222 = 20U;
    goto L67;
L61:;
    v221 = v218;
    v222 = 21U;
    goto L67;
L62:;
    v221 = v218;
    v222 = 22U;
    goto L67;
L63:;
    v221 = v218;
    v222 = 25U;
    goto L67;
L64:;
    v221 = v218;
    v222 = 23U;
    goto L67;
L65:;
    v221 = v218;
    v222 = 24U;
    goto L67;
L66:;
    nd_stop();
L67:;
    nd_store_64(v6, v221);
    nd_store_32((v6 + 8), 0U);
    nd_store_32((v6 + 12), v222);
    v225 = 1U;
L68:;
    return v225;
}

static uint32_t nd_ndef_split_uri(unsigned char *v1, uint64_t v2, uint32_t v3, unsigned char *v4, unsigned char *v5) {
    unsigned char *v9, *v14, *v42, *v72, *v121;
    uint8_t v11, v81, v162, v163, v168;
    uint64_t v15, v167, v174, v177;
    uint32_t v178, v181;
    ND_ROOM(24) v6;
    v9 = (unsigned char *)((uintptr_t)v1 + (uintptr_t)((v1 == (unsigned char *)0) ? 4096ULL : 0ULL));
    if (v3 > 1U) { v181 = 3U; goto L57; }
    v11 = (uint8_t)v3;
    nd_memset(v6.b, 0, 24);
    if (!(v2 > 4294967295ULL)) goto L3;
    v177 = 0ULL;
    v178 = 23U;
    goto L56;
L3:;
    if (v2 == 0ULL) goto L26;
    v14 = (unsigned char *)((uintptr_t)v9 + 1);
    v15 = v2 + 18446744073709551615ULL;
    if (!((v3 == 1U) | (int)(nd_load_8(v9) < 36))) goto L26;
    if (!(v2 < 65ULL)) goto L24;
    if (!(v2 < 9ULL)) goto L18;
    if (v2 < 5ULL) goto L10;
    if (!(((((((uint32_t)nd_load_8(((unsigned char *)((uintptr_t)v9 + 2))) << 8) | (uint32_t)nd_load_8(v14)) | ((uint32_t)nd_load_8(((unsigned char *)((uintptr_t)v9 + 3))) << 16)) | ((uint32_t)nd_load_8(((unsigned char *)((uintptr_t)v9 + 4))) << 24)) & 2155905152U) == 0U)) goto L24;
    v42 = (unsigned char *)((uintptr_t)v9 + (uintptr_t)v2);
    if (((((((uint32_t)nd_load_8(((unsigned char *)((uintptr_t)v42 - 3))) << 8) | (uint32_t)nd_load_8(((unsigned char *)((uintptr_t)v42 - 4)))) | ((uint32_t)nd_load_8(((unsigned char *)((uintptr_t)v42 - 2))) << 16)) | ((uint32_t)nd_load_8(((unsigned char *)((uintptr_t)v42 - 1))) << 24)) & 2155905152U) == 0U) goto L25;
    goto L24;
L10:;
    switch ((uint32_t)v2) {
    case 1U: goto L25;
    case 2U: goto L11;
    default: goto L12; }
L11:;
    if ((int8_t)nd_load_8(v14) > (int8_t)255) goto L25;
    goto L24;
L12:;
    if (v2 == 4ULL) goto L15;
    if (!((int8_t)nd_load_8(v14) > (int8_t)255)) goto L24;
    if ((int8_t)nd_load_8(((unsigned char *)((uintptr_t)v9 + 2))) > (int8_t)255) goto L25;
    goto L24;
L15:;
    v72 = (unsigned char *)((uintptr_t)v9 + 3);
    if (!((int8_t)nd_load_8(v14) > (int8_t)255)) goto L24;
    if (!((int8_t)nd_load_8(((unsigned char *)((uintptr_t)v9 + 2))) > (int8_t)255)) goto L24;
    if ((int8_t)nd_load_8(v72) > (int8_t)255) goto L25;
    goto L24;
L18:;
    if (!(v2 > 17ULL)) goto L20;
    v81 = nd_ndef_lang_ascii_are_many(v14, v15);
    if (v81) goto L25;
    goto L24;
L20:;
    if (!(((((((uint32_t)nd_load_8(((unsigned char *)((uintptr_t)v9 + 2))) << 8) | (uint32_t)nd_load_8(v14)) | ((uint32_t)nd_load_8(((unsigned char *)((uintptr_t)v9 + 3))) << 16)) | ((uint32_t)nd_load_8(((unsigned char *)((uintptr_t)v9 + 4))) << 24)) & 2155905152U) == 0U)) goto L24;
    if (!(((((((uint32_t)nd_load_8(((unsigned char *)((uintptr_t)v9 + 6))) << 8) | (uint32_t)nd_load_8(((unsigned char *)((uintptr_t)v9 + 5)))) | ((uint32_t)nd_load_8(((unsigned char *)((uintptr_t)v9 + 7))) << 16)) | ((uint32_t)nd_load_8(((unsigned char *)((uintptr_t)v9 + 8))) << 24)) & 2155905152U) == 0U)) goto L24;
    v121 = (unsigned char *)((uintptr_t)v9 + (uintptr_t)v2);
    if (!(((((((uint32_t)nd_load_8(((unsigned char *)((uintptr_t)v121 - 7))) << 8) | (uint32_t)nd_load_8(((unsigned char *)((uintptr_t)v121 - 8)))) | ((uint32_t)nd_load_8(((unsigned char *)((uintptr_t)v121 - 6))) << 16)) | ((uint32_t)nd_load_8(((unsigned char *)((uintptr_t)v121 - 5))) << 24)) & 2155905152U) == 0U)) goto L24;
    if (((((((uint32_t)nd_load_8(((unsigned char *)((uintptr_t)v121 - 3))) << 8) | (uint32_t)nd_load_8(((unsigned char *)((uintptr_t)v121 - 4)))) | ((uint32_t)nd_load_8(((unsigned char *)((uintptr_t)v121 - 2))) << 16)) | ((uint32_t)nd_load_8(((unsigned char *)((uintptr_t)v121 - 1))) << 24)) & 2155905152U) == 0U) goto L25;
L24:;
    v162 = nd_ndef_lang_member_is_long_utf8(v14, v15);
    if (!v162) goto L26;
L25:;
    v167 = v15;
    goto L29;
L26:;
    nd_ndef_lang_place_refusal_of(v6.b, 2, v11, v9, v2);
    v163 = nd_load_8(v6.b);
    if (v163 == 1) goto L30;
    if (!(v163 == 0)) { v177 = 0ULL; v178 = 1U; goto L56; }
    v167 = v2 + 18446744073709551615ULL;
L29:;
    v168 = nd_load_8(v9);
    nd_store_64(v4, 1ULL);
    nd_store_64((v4 + 8), v167);
    nd_store_32((v4 + 16), (uint32_t)v168);
    nd_store_32((v4 + 20), 0U);
    v181 = 0U;
    goto L57;
L30:;
    v174 = nd_load_64((v6.b + 8));
    switch (nd_load_8((v6.b + 16))) {
    case 0: { v177 = v174; v178 = 1U; goto L56; }
    case 1: goto L31;
    case 2: goto L32;
    case 3: goto L33;
    case 4: goto L34;
    case 5: goto L35;
    case 6: goto L36;
    case 7: goto L37;
    case 8: goto L38;
    case 9: goto L39;
    case 10: goto L40;
    case 11: goto L41;
    case 12: goto L42;
    case 13: goto L43;
    case 14: goto L44;
    case 15: goto L45;
    case 16: goto L46;
    case 17: goto L47;
    case 18: goto L48;
    case 19: goto L49;
    case 20: goto L50;
    case 21: goto L51;
    case 22: goto L52;
    case 23: goto L53;
    case 24: goto L54;
    default: goto L55; }
L31:;
    v177 = v174;
    v178 = 2U;
    goto L56;
L32:;
    v177 = v174;
    v178 = 3U;
    goto L56;
L33:;
    v177 = v174;
    v178 = 4U;
    goto L56;
L34:;
    v177 = v174;
    v178 = 5U;
    goto L56;
L35:;
    v177 = v174;
    v178 = 6U;
    goto L56;
L36:;
    v177 = v174;
    v178 = 7U;
    goto L56;
L37:;
    v177 = v174;
    v178 = 8U;
    goto L56;
L38:;
    v177 = v174;
    v178 = 9U;
    goto L56;
L39:;
    v177 = v174;
    v178 = 10U;
    goto L56;
L40:;
    v177 = v174;
    v178 = 11U;
    goto L56;
L41:;
    v177 = v174;
    v178 = 12U;
    goto L56;
L42:;
    v177 = v174;
    v178 = 13U;
    goto L56;
L43:;
    v177 = v174;
    v178 = 14U;
    goto L56;
L44:;
    v177 = v174;
    v178 = 15U;
    goto L56;
L45:;
    v177 = v174;
    v178 = 16U;
    goto L56;
L46:;
    v177 = v174;
    v178 = 17U;
    goto L56;
L47:;
    v177 = v174;
    v178 = 18U;
    goto L56;
L48:;
    v177 = v174;
    v178 = 19U;
    goto L56;
L49:;
    v177 = v174;
    v178 = 20U;
    goto L56;
L50:;
    v177 = v174;
    v178 = 21U;
    goto L56;
L51:;
    v177 = v174;
    v178 = 22U;
    goto L56;
L52:;
    v177 = v174;
    v178 = 25U;
    goto L56;
L53:;
    v177 = v174;
    v178 = 23U;
    goto L56;
L54:;
    v177 = v174;
    v178 = 24U;
    goto L56;
L55:;
    nd_stop();
L56:;
    nd_store_64(v5, v177);
    nd_store_32((v5 + 8), 0U);
    nd_store_32((v5 + 12), v178);
    v181 = 1U;
L57:;
    return v181;
}

static uint32_t nd_ndef_write_poster(unsigned char *v1, uint64_t v2, unsigned char *v3, unsigned char *v4, uint64_t v5, unsigned char *v6, uint64_t v7, unsigned char *v8, uint64_t v9, unsigned char *v10) {
    unsigned char *v20, *v23, *v26, *v29, *v42, *v43, *v54, *v65, *v76, *v78, *v80, *v84, *v85, *v87, *v99, *v100, *v102;
    uint32_t v37, v41, v90, v164, v165;
    uint64_t v48, v51, v64, v68, v70, v71, v73, v75, v77, v83, v88, v94, v98, v103;
    uint8_t v66, v72, v79, v86, v101;
    ND_ROOM(24) v11, v12, v13, v14;
    ND_ROOM(56) v15;
    ND_ROOM(5) v16;
    ND_ROOM(624) v17;
    v20 = (unsigned char *)((uintptr_t)v1 + (uintptr_t)((v1 == (unsigned char *)0) ? 4096ULL : 0ULL));
    v23 = (unsigned char *)((uintptr_t)v4 + (uintptr_t)((v4 == (unsigned char *)0) ? 4096ULL : 0ULL));
    v26 = (unsigned char *)((uintptr_t)v6 + (uintptr_t)((v6 == (unsigned char *)0) ? 4096ULL : 0ULL));
    v29 = (unsigned char *)((uintptr_t)v8 + (uintptr_t)((v8 == (unsigned char *)0) ? 4096ULL : 0ULL));
    nd_memset(v17.b, 0, 624);
    nd_store_ptr(v15.b, v20);
    nd_store_64((v15.b + 8), v2);
    nd_store_ptr((v15.b + 16), v3);
    nd_store_ptr((v15.b + 24), v23);
    nd_store_64((v15.b + 32), v5);
    nd_store_ptr((v15.b + 40), v26);
    nd_store_64((v15.b + 48), v7);
    v37 = nd_load_32(((unsigned char *)((uintptr_t)v3 + 40)));
    v41 = nd_bswap_i32(nd_load_32(((unsigned char *)((uintptr_t)v3 + 48))));
    nd_store_8(v16.b, (uint8_t)v37);
    v42 = v16.b + 1;
    nd_store_32(v42, v41);
    v43 = (unsigned char *)((uintptr_t)v3 + 36);
    if (!((v37 < 256U) | (int)(nd_load_32(v43) != 1U))) goto L15;
    v48 = nd_load_64(v3);
    if (v2 < v48) goto L15;
    v51 = nd_load_64(((unsigned char *)((uintptr_t)v3 + 8)));
    if ((v2 - v48) < v51) goto L15;
    v54 = (unsigned char *)((uintptr_t)v20 + (uintptr_t)v48);
    nd_memset(v13.b, 0, 24);
    nd_memset(v12.b, 0, 24);
    if (!(v51 < 64ULL)) goto L5;
    nd_core_str_utf8_from_utf8(v12.b, v54, v51);
    if (nd_load_8(v12.b) == 0) { v64 = nd_load_64((v12.b + 16)); v65 = nd_load_ptr((v12.b + 8)); goto L6; }
    goto L7;
L5:;
    nd_core_str_utf8_from_utf8(v11.b, v54, v51);
    if (nd_load_8(v11.b) == 0) { v64 = v51; v65 = v54; goto L6; }
    goto L7;
L6:;
    nd_ndef_types_prefixes_split(v13.b, v65, v64);
    v66 = nd_load_8(v13.b);
    v68 = nd_load_64((v13.b + 8));
    v70 = nd_load_64((v13.b + 16));
    v71 = nd_uadd_sat_i64(v70, 1ULL);
    v72 = v71 < 4294967296ULL;
    v73 = (uint64_t)v72;
    if (v72) goto L8;
    goto L15;
L7:;
    goto L15;
L8:;
    switch (nd_load_32(v43)) {
    case 0U: { v75 = 0ULL; v76 = (unsigned char *)0; v77 = 0ULL; v78 = (unsigned char *)0; v79 = 0; v80 = (unsigned char *)0; goto L10; }
    case 1U: goto L9;
    default: goto L15; }
L9:;
    v75 = 1ULL;
    v76 = (unsigned char *)nd_data_static_209;
    v77 = 3ULL;
    v78 = (unsigned char *)nd_data_static_50;
    v79 = 5;
    v80 = v16.b;
L10:;
    switch (nd_load_32(((unsigned char *)((uintptr_t)v3 + 44)))) {
    case 0U: { v83 = 0ULL; v84 = (unsigned char *)0; v85 = (unsigned char *)0; v86 = 0; v87 = (unsigned char *)0; v88 = 0ULL; goto L12; }
    case 1U: goto L11;
    default: goto L15; }
L11:;
    v83 = 1ULL;
    v84 = (unsigned char *)nd_data_static_210;
    v85 = (unsigned char *)nd_data_static_50;
    v86 = 5;
    v87 = v42;
    v88 = 4ULL;
L12:;
    v90 = nd_load_32(((unsigned char *)((uintptr_t)v3 + 32)));
    nd_ndef_c_poster_writing_media_octets(v14.b, v15.b);
    if (!(nd_load_8(v14.b) == 1)) goto L15;
    switch (v90) {
    case 0U: { v98 = 0ULL; v99 = (unsigned char *)0; v100 = (unsigned char *)0; v101 = 0; v102 = (unsigned char *)0; v103 = 0ULL; goto L16; }
    case 1U: goto L14;
    default: goto L15; }
L14:;
    v94 = nd_load_64((v14.b + 16));
    if (v94 < 4294967296ULL) { v98 = 1ULL; v99 = (unsigned char *)nd_data_static_211; v100 = (unsigned char *)nd_data_static_50; v101 = 5; v102 = nd_load_ptr((v14.b + 8)); v103 = v94; goto L16; }
L15:;
    v165 = 3U;
    goto L17;
L16:;
    nd_store_64(v17.b, 1ULL);
    nd_store_64((v17.b + 8), v73);
    nd_store_ptr((v17.b + 16), (unsigned char *)nd_data_static_139);
    nd_store_64((v17.b + 24), v73);
    nd_store_ptr((v17.b + 32), (unsigned char *)nd_data_static_50);
    nd_store_64((v17.b + 40), 0ULL);
    nd_store_8((v17.b + 48), 2);
    nd_store_8((v17.b + 49), v66);
    nd_memset((v17.b + 50), 0, 6);
    nd_store_64((v17.b + 56), v68);
    nd_store_64((v17.b + 64), v70);
    nd_memset((v17.b + 72), 0, 24);
    nd_store_64((v17.b + 96), v71);
    nd_store_64((v17.b + 104), 2ULL);
    nd_store_ptr((v17.b + 112), v20);
    nd_store_64((v17.b + 120), v2);
    nd_store_ptr((v17.b + 128), v23);
    nd_store_64((v17.b + 136), v5);
    nd_memset((v17.b + 144), 0, 64);
    nd_store_64((v17.b + 208), v75);
    nd_store_64((v17.b + 216), v75);
    nd_store_ptr((v17.b + 224), v76);
    nd_store_64((v17.b + 232), v77);
    nd_store_ptr((v17.b + 240), v78);
    nd_store_64((v17.b + 248), 0ULL);
    nd_store_8((v17.b + 256), v79);
    nd_memset((v17.b + 257), 0, 7);
    nd_store_ptr((v17.b + 264), v80);
    nd_store_64((v17.b + 272), v75);
    nd_memset((v17.b + 280), 0, 24);
    nd_store_64((v17.b + 304), v75);
    nd_store_64((v17.b + 312), v83);
    nd_store_64((v17.b + 320), v83);
    nd_store_ptr((v17.b + 328), v84);
    nd_store_64((v17.b + 336), v83);
    nd_store_ptr((v17.b + 344), v85);
    nd_store_64((v17.b + 352), 0ULL);
    nd_store_8((v17.b + 360), v86);
    nd_memset((v17.b + 361), 0, 7);
    nd_store_ptr((v17.b + 368), v87);
    nd_store_64((v17.b + 376), v88);
    nd_memset((v17.b + 384), 0, 24);
    nd_store_64((v17.b + 408), v88);
    nd_store_64((v17.b + 416), v98);
    nd_store_64((v17.b + 424), v98);
    nd_store_ptr((v17.b + 432), v99);
    nd_store_64((v17.b + 440), v98);
    nd_store_ptr((v17.b + 448), v100);
    nd_store_64((v17.b + 456), 0ULL);
    nd_store_8((v17.b + 464), v101);
    nd_memset((v17.b + 465), 0, 7);
    nd_store_ptr((v17.b + 472), v102);
    nd_store_64((v17.b + 480), v103);
    nd_memset((v17.b + 488), 0, 24);
    nd_store_64((v17.b + 512), v103);
    nd_store_64((v17.b + 520), 3ULL);
    nd_store_ptr((v17.b + 528), v20);
    nd_store_64((v17.b + 536), v2);
    nd_store_ptr((v17.b + 544), v26);
    nd_store_64((v17.b + 552), v7);
    nd_memset((v17.b + 560), 0, 64);
    v164 = nd_ndef_c_series_writing_give_message((unsigned char *)nd_data_static_50, 0ULL, v17.b, 6ULL, v29, v9, v10);
    v165 = v164;
L17:;
    return v165;
}

static uint32_t nd_ndef_poster(unsigned char *v1, uint64_t v2, uint32_t v3, unsigned char *v4, unsigned char *v5) {
    unsigned char *v12, *v28, *v33, *v34, *v35, *v36, *v37, *v38, *v39, *v69, *v70, *v71, *v72, *v73, *v74, *v75, *v98, *v117, *v118, *v119, *v120, *v121, *v122, *v123, *v148;
    uint8_t v14, v16, v30, v51, v53, v55, v87, v89, v91, v115, v135, v137, v139, v172;
    uint64_t v31, v40, v47, v48, v49, v50, v52, v57, v62, v76, v83, v84, v85, v86, v88, v94, v97, v124, v131, v132, v133, v134, v136, v141, v186;
    uint32_t v116, v171, v173, v187, v190;
    ND_ROOM(120) v6, v7, v8;
    ND_ROOM(88) v9;
    v12 = (unsigned char *)((uintptr_t)v1 + (uintptr_t)((v1 == (unsigned char *)0) ? 4096ULL : 0ULL));
    if (v3 > 1U) { v190 = 3U; goto L68; }
    v14 = (uint8_t)v3;
    if (v2 > 4294967295ULL) { v186 = 0ULL; v187 = 23U; goto L67; }
    v16 = nd_ndef_nest_member_is_nested(0, 65535U, v14, v12, v2);
    if (v16) goto L7;
    nd_store_64(v9.b, ((uint64_t)v3 | 281470681874432ULL));
    nd_store_8((v9.b + 8), v14);
    nd_store_8((v9.b + 9), 1);
    nd_store_8((v9.b + 10), 0);
    nd_store_8((v9.b + 11), 1);
    nd_store_32((v9.b + 12), 0U);
    nd_store_32((v9.b + 16), 4294967295U);
    nd_memset((v9.b + 20), 0, 36);
    nd_store_32((v9.b + 56), 1U);
    nd_memset((v9.b + 60), 0, 20);
    v28 = v9.b + 80;
    nd_store_8(v28, 23);
    nd_memset((v9.b + 81), 0, 7);
    v30 = nd_ndef_nest_nest_NestLanguage_fits(v9.b, v2, v2);
    if (v30) goto L5;
    v186 = 0ULL;
    v187 = 23U;
    goto L67;
L5:;
    v31 = nd_ndef_nest_nest_NestLanguage_step_all(v9.b, v12, v2, v2, v2);
    if (v31 < v2) goto L41;
L7:;
    v33 = v8.b + 8;
    v34 = v8.b + 24;
    v35 = v8.b + 40;
    v36 = v8.b + 56;
    v37 = v8.b + 72;
    v38 = v8.b + 96;
    v39 = v8.b + 112;
    v40 = 0ULL;
L8:;
    nd_memset(v8.b, 0, 120);
    if (v2 < v40) goto L10;
    nd_ndef_c_run_first_run(v8.b, ((unsigned char *)((uintptr_t)v12 + (uintptr_t)v40)), (v2 - v40));
    if (nd_load_8(v8.b) == 1) goto L11;
L10:;
    goto L16;
L11:;
    v47 = nd_load_64(v34);
    v48 = nd_load_64(v35);
    v49 = nd_load_64(v36);
    v50 = nd_load_64(v37);
    v51 = nd_load_8(v38);
    v52 = nd_load_64(v39);
    v53 = (uint8_t)(nd_load_8(v33) & 7);
    v55 = (uint8_t)((v53 == 7) ? 5 : v53);
    if (v55 < 6) goto L13;
    nd_stop();
L13:;
    v57 = v2 - v52;
    if (!(uint8_t)((v55 == 1) ? (v47 == 1ULL) : 0)) goto L15;
    v62 = v2 - (v49 + v50);
    if (nd_load_8(((unsigned char *)((uintptr_t)((unsigned char *)((uintptr_t)v12 + (uintptr_t)v62)) + (uintptr_t)(v48 ^ 18446744073709551615ULL)))) == 85) goto L17;
L15:;
    if (!(uint8_t)(v51 & 1)) { v40 = v57; goto L8; }
L16:;
    nd_stop();
L17:;
    v69 = v7.b + 8;
    v70 = v7.b + 24;
    v71 = v7.b + 40;
    v72 = v7.b + 56;
    v73 = v7.b + 72;
    v74 = v7.b + 96;
    v75 = v7.b + 112;
    v76 = 0ULL;
L18:;
    nd_memset(v7.b, 0, 120);
    if (v2 < v76) goto L20;
    nd_ndef_c_run_first_run(v7.b, ((unsigned char *)((uintptr_t)v12 + (uintptr_t)v76)), (v2 - v76));
    if (nd_load_8(v7.b) == 1) goto L21;
L20:;
    v115 = 0;
    v116 = 0U;
    goto L28;
L21:;
    v83 = nd_load_64(v70);
    v84 = nd_load_64(v71);
    v85 = nd_load_64(v72);
    v86 = nd_load_64(v73);
    v87 = nd_load_8(v74);
    v88 = nd_load_64(v75);
    v89 = (uint8_t)(nd_load_8(v69) & 7);
    v91 = (uint8_t)((v89 == 7) ? 5 : v89);
    if (v91 < 6) goto L23;
    nd_stop();
L23:;
    v94 = v2 - (v85 + v86);
    v97 = v2 - v88;
    v98 = (unsigned char *)((uintptr_t)v12 + (uintptr_t)(v94 - (v84 + v83)));
    if (!(uint8_t)((v91 == 1) ? (v83 == 3ULL) : 0)) goto L26;
    if (!(nd_load_8(v98) == 97)) goto L26;
    if ((nd_load_8(((unsigned char *)((uintptr_t)v98 + 2))) == 116) & (int)(nd_load_8(((unsigned char *)((uintptr_t)v98 + 1))) == 99)) goto L27;
L26:;
    if ((uint8_t)(v87 & 1)) { v115 = 0; v116 = 0U; goto L28; }
    v76 = v97;
    goto L18;
L27:;
    v115 = 1;
    v116 = (uint32_t)nd_load_8(((unsigned char *)((uintptr_t)v12 + (uintptr_t)v94)));
L28:;
    v117 = v6.b + 8;
    v118 = v6.b + 24;
    v119 = v6.b + 40;
    v120 = v6.b + 56;
    v121 = v6.b + 72;
    v122 = v6.b + 96;
    v123 = v6.b + 112;
    v124 = 0ULL;
L29:;
    nd_memset(v6.b, 0, 120);
    if (v2 < v124) goto L31;
    nd_ndef_c_run_first_run(v6.b, ((unsigned char *)((uintptr_t)v12 + (uintptr_t)v124)), (v2 - v124));
    if (nd_load_8(v6.b) == 1) goto L32;
L31:;
    v172 = 0;
    v173 = 0U;
    goto L40;
L32:;
    v131 = nd_load_64(v118);
    v132 = nd_load_64(v119);
    v133 = nd_load_64(v120);
    v134 = nd_load_64(v121);
    v135 = nd_load_8(v122);
    v136 = nd_load_64(v123);
    v137 = (uint8_t)(nd_load_8(v117) & 7);
    v139 = (uint8_t)((v137 == 7) ? 5 : v137);
    if (v139 < 6) goto L34;
    nd_stop();
L34:;
    v141 = v2 - v136;
    if (!(uint8_t)((v139 == 1) ? (v131 == 1ULL) : 0)) goto L37;
    v148 = (unsigned char *)((uintptr_t)v12 + (uintptr_t)(v2 - (v133 + v134)));
    if (!(nd_load_8(((unsigned char *)((uintptr_t)v148 + (uintptr_t)(v132 ^ 18446744073709551615ULL)))) == 115)) goto L37;
    if (v133 == 4ULL) goto L39;
    goto L38;
L37:;
    if ((uint8_t)(v135 & 1)) { v172 = 0; v173 = 0U; goto L40; }
    v124 = v141;
    goto L29;
L38:;
    nd_stop();
L39:;
    v171 = nd_bswap_i32((((((uint32_t)nd_load_8(((unsigned char *)((uintptr_t)v148 + 1))) << 8) | (uint32_t)nd_load_8(v148)) | ((uint32_t)nd_load_8(((unsigned char *)((uintptr_t)v148 + 2))) << 16)) | ((uint32_t)nd_load_8(((unsigned char *)((uintptr_t)v148 + 3))) << 24)));
    v172 = 1;
    v173 = v171;
L40:;
    nd_store_64(v4, v62);
    nd_store_64((v4 + 8), v49);
    nd_store_32((v4 + 16), (uint32_t)v115);
    nd_store_32((v4 + 20), ((uint8_t)(v115 & 1) ? v116 : 0U));
    nd_store_32((v4 + 24), (uint32_t)v172);
    nd_store_32((v4 + 28), ((uint8_t)(v172 & 1) ? v173 : 0U));
    v190 = 0U;
    goto L68;
L41:;
    switch (nd_load_8(v28)) {
    case 0: { v186 = v31; v187 = 1U; goto L67; }
    case 1: goto L42;
    case 2: goto L43;
    case 3: goto L44;
    case 4: goto L45;
    case 5: goto L46;
    case 6: goto L47;
    case 7: goto L48;
    case 8: goto L49;
    case 9: goto L50;
    case 10: goto L51;
    case 11: goto L52;
    case 12: goto L53;
    case 13: goto L54;
    case 14: goto L55;
    case 15: goto L56;
    case 16: goto L57;
    case 17: goto L58;
    case 18: goto L59;
    case 19: goto L60;
    case 20: goto L61;
    case 21: goto L62;
    case 22: goto L63;
    case 23: goto L64;
    case 24: goto L65;
    default: goto L66; }
L42:;
    v186 = v31;
    v187 = 2U;
    goto L67;
L43:;
    v186 = v31;
    v187 = 3U;
    goto L67;
L44:;
    v186 = v31;
    v187 = 4U;
    goto L67;
L45:;
    v186 = v31;
    v187 = 5U;
    goto L67;
L46:;
    v186 = v31;
    v187 = 6U;
    goto L67;
L47:;
    v186 = v31;
    v187 = 7U;
    goto L67;
L48:;
    v186 = v31;
    v187 = 8U;
    goto L67;
L49:;
    v186 = v31;
    v187 = 9U;
    goto L67;
L50:;
    v186 = v31;
    v187 = 10U;
    goto L67;
L51:;
    v186 = v31;
    v187 = 11U;
    goto L67;
L52:;
    v186 = v31;
    v187 = 12U;
    goto L67;
L53:;
    v186 = v31;
    v187 = 13U;
    goto L67;
L54:;
    v186 = v31;
    v187 = 14U;
    goto L67;
L55:;
    v186 = v31;
    v187 = 15U;
    goto L67;
L56:;
    v186 = v31;
    v187 = 16U;
    goto L67;
L57:;
    v186 = v31;
    v187 = 17U;
    goto L67;
L58:;
    v186 = v31;
    v187 = 18U;
    goto L67;
L59:;
    v186 = v31;
    v187 = 19U;
    goto L67;
L60:;
    v186 = v31;
    v187 = 20U;
    goto L67;
L61:;
    v186 = v31;
    v187 = 21U;
    goto L67;
L62:;
    v186 = v31;
    v187 = 22U;
    goto L67;
L63:;
    v186 = v31;
    v187 = 25U;
    goto L67;
L64:;
    v186 = v31;
    v187 = 23U;
    goto L67;
L65:;
    v186 = v31;
    v187 = 24U;
    goto L67;
L66:;
    nd_stop();
L67:;
    nd_store_64(v5, v186);
    nd_store_32((v5 + 8), 0U);
    nd_store_32((v5 + 12), v187);
    v190 = 1U;
L68:;
    return v190;
}

static uint32_t nd_ndef_text(unsigned char *v1, uint64_t v2, unsigned char *v3, unsigned char *v4) {
    unsigned char *v8, *v11, *v44, *v74, *v123;
    uint64_t v12, v15, v170, v182, v185;
    uint8_t v13, v20, v83, v164, v165, v168;
    uint32_t v186, v189;
    ND_ROOM(24) v5;
    v8 = (unsigned char *)((uintptr_t)v1 + (uintptr_t)((v1 == (unsigned char *)0) ? 4096ULL : 0ULL));
    nd_memset(v5.b, 0, 24);
    if (!(v2 > 4294967295ULL)) goto L2;
    v185 = 0ULL;
    v186 = 23U;
    goto L54;
L2:;
    if (v2 == 0ULL) goto L25;
    v11 = (unsigned char *)((uintptr_t)v8 + 1);
    v12 = v2 + 18446744073709551615ULL;
    v13 = nd_load_8(v8);
    v15 = (uint64_t)(uint8_t)(v13 & 63);
    if (((uint8_t)(v13 & 64) != 0) | (int)(v12 < v15)) goto L25;
    v20 = (int8_t)v13 < (int8_t)0;
    if ((v2 > 64ULL) | v20) goto L23;
    if (!(v2 < 9ULL)) goto L17;
    if (v2 < 5ULL) goto L9;
    if (!(((((((uint32_t)nd_load_8(((unsigned char *)((uintptr_t)v8 + 2))) << 8) | (uint32_t)nd_load_8(v11)) | ((uint32_t)nd_load_8(((unsigned char *)((uintptr_t)v8 + 3))) << 16)) | ((uint32_t)nd_load_8(((unsigned char *)((uintptr_t)v8 + 4))) << 24)) & 2155905152U) == 0U)) goto L23;
    v44 = (unsigned char *)((uintptr_t)v8 + (uintptr_t)v2);
    if (((((((uint32_t)nd_load_8(((unsigned char *)((uintptr_t)v44 - 3))) << 8) | (uint32_t)nd_load_8(((unsigned char *)((uintptr_t)v44 - 4)))) | ((uint32_t)nd_load_8(((unsigned char *)((uintptr_t)v44 - 2))) << 16)) | ((uint32_t)nd_load_8(((unsigned char *)((uintptr_t)v44 - 1))) << 24)) & 2155905152U) == 0U) goto L24;
    goto L23;
L9:;
    switch ((uint32_t)v2) {
    case 1U: goto L24;
    case 2U: goto L10;
    default: goto L11; }
L10:;
    if ((int8_t)nd_load_8(v11) > (int8_t)255) goto L24;
    goto L23;
L11:;
    if (v2 == 4ULL) goto L14;
    if (!((int8_t)nd_load_8(v11) > (int8_t)255)) goto L23;
    if ((int8_t)nd_load_8(((unsigned char *)((uintptr_t)v8 + 2))) > (int8_t)255) goto L24;
    goto L23;
L14:;
    v74 = (unsigned char *)((uintptr_t)v8 + 3);
    if (!((int8_t)nd_load_8(v11) > (int8_t)255)) goto L23;
    if (!((int8_t)nd_load_8(((unsigned char *)((uintptr_t)v8 + 2))) > (int8_t)255)) goto L23;
    if ((int8_t)nd_load_8(v74) > (int8_t)255) goto L24;
    goto L23;
L17:;
    if (!(v2 > 17ULL)) goto L19;
    v83 = nd_ndef_lang_ascii_are_many(v11, v12);
    if (v83) goto L24;
    goto L23;
L19:;
    if (!(((((((uint32_t)nd_load_8(((unsigned char *)((uintptr_t)v8 + 2))) << 8) | (uint32_t)nd_load_8(v11)) | ((uint32_t)nd_load_8(((unsigned char *)((uintptr_t)v8 + 3))) << 16)) | ((uint32_t)nd_load_8(((unsigned char *)((uintptr_t)v8 + 4))) << 24)) & 2155905152U) == 0U)) goto L23;
    if (!(((((((uint32_t)nd_load_8(((unsigned char *)((uintptr_t)v8 + 6))) << 8) | (uint32_t)nd_load_8(((unsigned char *)((uintptr_t)v8 + 5)))) | ((uint32_t)nd_load_8(((unsigned char *)((uintptr_t)v8 + 7))) << 16)) | ((uint32_t)nd_load_8(((unsigned char *)((uintptr_t)v8 + 8))) << 24)) & 2155905152U) == 0U)) goto L23;
    v123 = (unsigned char *)((uintptr_t)v8 + (uintptr_t)v2);
    if (!(((((((uint32_t)nd_load_8(((unsigned char *)((uintptr_t)v123 - 7))) << 8) | (uint32_t)nd_load_8(((unsigned char *)((uintptr_t)v123 - 8)))) | ((uint32_t)nd_load_8(((unsigned char *)((uintptr_t)v123 - 6))) << 16)) | ((uint32_t)nd_load_8(((unsigned char *)((uintptr_t)v123 - 5))) << 24)) & 2155905152U) == 0U)) goto L23;
    if (((((((uint32_t)nd_load_8(((unsigned char *)((uintptr_t)v123 - 3))) << 8) | (uint32_t)nd_load_8(((unsigned char *)((uintptr_t)v123 - 4)))) | ((uint32_t)nd_load_8(((unsigned char *)((uintptr_t)v123 - 2))) << 16)) | ((uint32_t)nd_load_8(((unsigned char *)((uintptr_t)v123 - 1))) << 24)) & 2155905152U) == 0U) goto L24;
L23:;
    v164 = nd_ndef_lang_member_is_coded_text(v15, v20, v11, v12);
    if (!v164) goto L25;
L24:;
    goto L27;
L25:;
    nd_ndef_lang_place_refusal_of(v5.b, 1, 0, v8, v2);
    v165 = nd_load_8(v5.b);
    if (v165 == 1) goto L28;
    if (!(v165 == 0)) { v185 = 0ULL; v186 = 1U; goto L54; }
L27:;
    v168 = nd_load_8(v8);
    v170 = (uint64_t)(uint8_t)(v168 & 63);
    nd_store_64(v3, 1ULL);
    nd_store_64((v3 + 8), v170);
    nd_store_64((v3 + 16), (v170 + 1ULL));
    nd_store_64((v3 + 24), (v2 + (v170 ^ 18446744073709551615ULL)));
    nd_store_32((v3 + 32), (uint32_t)(uint8_t)(v168 >> 7));
    nd_store_32((v3 + 36), 0U);
    v189 = 0U;
    goto L55;
L28:;
    v182 = nd_load_64((v5.b + 8));
    switch (nd_load_8((v5.b + 16))) {
    case 0: { v185 = v182; v186 = 1U; goto L54; }
    case 1: goto L29;
    case 2: goto L30;
    case 3: goto L31;
    case 4: goto L32;
    case 5: goto L33;
    case 6: goto L34;
    case 7: goto L35;
    case 8: goto L36;
    case 9: goto L37;
    case 10: goto L38;
    case 11: goto L39;
    case 12: goto L40;
    case 13: goto L41;
    case 14: goto L42;
    case 15: goto L43;
    case 16: goto L44;
    case 17: goto L45;
    case 18: goto L46;
    case 19: goto L47;
    case 20: goto L48;
    case 21: goto L49;
    case 22: goto L50;
    case 23: goto L51;
    case 24: goto L52;
    default: goto L53; }
L29:;
    v185 = v182;
    v186 = 2U;
    goto L54;
L30:;
    v185 = v182;
    v186 = 3U;
    goto L54;
L31:;
    v185 = v182;
    v186 = 4U;
    goto L54;
L32:;
    v185 = v182;
    v186 = 5U;
    goto L54;
L33:;
    v185 = v182;
    v186 = 6U;
    goto L54;
L34:;
    v185 = v182;
    v186 = 7U;
    goto L54;
L35:;
    v185 = v182;
    v186 = 8U;
    goto L54;
L36:;
    v185 = v182;
    v186 = 9U;
    goto L54;
L37:;
    v185 = v182;
    v186 = 10U;
    goto L54;
L38:;
    v185 = v182;
    v186 = 11U;
    goto L54;
L39:;
    v185 = v182;
    v186 = 12U;
    goto L54;
L40:;
    v185 = v182;
    v186 = 13U;
    goto L54;
L41:;
    v185 = v182;
    v186 = 14U;
    goto L54;
L42:;
    v185 = v182;
    v186 = 15U;
    goto L54;
L43:;
    v185 = v182;
    v186 = 16U;
    goto L54;
L44:;
    v185 = v182;
    v186 = 17U;
    goto L54;
L45:;
    v185 = v182;
    v186 = 18U;
    goto L54;
L46:;
    v185 = v182;
    v186 = 19U;
    goto L54;
L47:;
    v185 = v182;
    v186 = 20U;
    goto L54;
L48:;
    v185 = v182;
    v186 = 21U;
    goto L54;
L49:;
    v185 = v182;
    v186 = 22U;
    goto L54;
L50:;
    v185 = v182;
    v186 = 25U;
    goto L54;
L51:;
    v185 = v182;
    v186 = 23U;
    goto L54;
L52:;
    v185 = v182;
    v186 = 24U;
    goto L54;
L53:;
    nd_stop();
L54:;
    nd_store_64(v4, v185);
    nd_store_32((v4 + 8), 0U);
    nd_store_32((v4 + 12), v186);
    v189 = 1U;
L55:;
    return v189;
}

static uint32_t nd_ndef_title(unsigned char *v1, uint64_t v2, unsigned char *v3, uint64_t v4, unsigned char *v5) {
    unsigned char *v10, *v13, *v30, *v31, *v32, *v33, *v34, *v35, *v36, *v62, *v70;
    uint8_t v15, v27, v37, v49, v54, v56, v66, v76, v78;
    uint64_t v28, v38, v45, v46, v47, v52, v53, v69, v72, v74;
    uint32_t v99;
    ND_ROOM(120) v6;
    ND_ROOM(88) v7;
    v10 = (unsigned char *)((uintptr_t)v1 + (uintptr_t)((v1 == (unsigned char *)0) ? 4096ULL : 0ULL));
    v13 = (unsigned char *)((uintptr_t)v3 + (uintptr_t)((v3 == (unsigned char *)0) ? 4096ULL : 0ULL));
    if (v2 > 4294967295ULL) { v99 = 3U; goto L20; }
    v15 = nd_ndef_nest_member_is_nested(0, 65535U, 1, v10, v2);
    if (v15) goto L6;
    nd_store_64(v7.b, 281470681874433ULL);
    nd_store_8((v7.b + 8), 1);
    nd_store_8((v7.b + 9), 1);
    nd_store_8((v7.b + 10), 0);
    nd_store_8((v7.b + 11), 1);
    nd_store_32((v7.b + 12), 0U);
    nd_store_32((v7.b + 16), 4294967295U);
    nd_memset((v7.b + 20), 0, 36);
    nd_store_32((v7.b + 56), 1U);
    nd_memset((v7.b + 60), 0, 20);
    nd_store_8((v7.b + 80), 23);
    nd_memset((v7.b + 81), 0, 7);
    v27 = nd_ndef_nest_nest_NestLanguage_fits(v7.b, v2, v2);
    if (!v27) goto L5;
    v28 = nd_ndef_nest_nest_NestLanguage_step_all(v7.b, v10, v2, v2, v2);
    if (v28 < v2) goto L5;
    goto L6;
L5:;
    v99 = 3U;
    goto L20;
L6:;
    v30 = v6.b + 8;
    v31 = v6.b + 24;
    v32 = v6.b + 40;
    v33 = v6.b + 56;
    v34 = v6.b + 72;
    v35 = v6.b + 96;
    v36 = v6.b + 112;
    v37 = v4 == 0ULL;
    v38 = 0ULL;
L7:;
    nd_memset(v6.b, 0, 120);
    if (v2 < v38) goto L9;
    nd_ndef_c_run_first_run(v6.b, ((unsigned char *)((uintptr_t)v10 + (uintptr_t)v38)), (v2 - v38));
    if (nd_load_8(v6.b) == 1) goto L10;
L9:;
    v99 = 4U;
    goto L20;
L10:;
    v45 = nd_load_64(v31);
    v46 = nd_load_64(v32);
    v47 = nd_load_64(v33);
    v49 = nd_load_8(v35);
    v52 = v2 - (v47 + nd_load_64(v34));
    v53 = v2 - nd_load_64(v36);
    v54 = (uint8_t)(nd_load_8(v30) & 7);
    v56 = (uint8_t)((v54 == 7) ? 5 : v54);
    if (v56 < 6) goto L12;
    nd_stop();
L12:;
    if (!(uint8_t)((v56 == 1) ? (v45 == 1ULL) : 0)) goto L18;
    v62 = (unsigned char *)((uintptr_t)v10 + (uintptr_t)v52);
    if (!(nd_load_8(((unsigned char *)((uintptr_t)v62 + (uintptr_t)(v46 ^ 18446744073709551615ULL)))) == 84)) goto L18;
    v66 = nd_load_8(v62);
    v69 = v52 + 1ULL;
    v70 = (unsigned char *)((uintptr_t)v10 + (uintptr_t)v69);
    if (!(v4 == (uint64_t)(uint8_t)(v66 & 63))) goto L18;
    if (v37) goto L19;
    v74 = 0ULL;
    goto L17;
L16:;
    v72 = v74 + 1ULL;
    if (v72 == v4) goto L19;
    v74 = v72;
L17:;
    v76 = nd_load_8((v70 + (ptrdiff_t)v74));
    v78 = nd_load_8((v13 + (ptrdiff_t)v74));
    if ((uint8_t)(((uint8_t)(v76 + 191) < 26) ? (uint8_t)(v76 + 32) : v76) == (uint8_t)(((uint8_t)(v78 + 191) < 26) ? (uint8_t)(v78 + 32) : v78)) goto L16;
L18:;
    if ((uint8_t)(v49 & 1)) { v99 = 4U; goto L20; }
    v38 = v53;
    goto L7;
L19:;
    nd_store_64(v5, v69);
    nd_store_64((v5 + 8), v4);
    nd_store_64((v5 + 16), (v69 + v4));
    nd_store_64((v5 + 24), (v47 + (v4 ^ 18446744073709551615ULL)));
    nd_store_32((v5 + 32), (uint32_t)(uint8_t)(v66 >> 7));
    nd_store_32((v5 + 36), 0U);
    v99 = 0U;
L20:;
    return v99;
}

static uint32_t nd_ndef_items(unsigned char *v1, uint64_t v2, unsigned char *v3, unsigned char *v4, unsigned char *v5, uint64_t v6) {
    unsigned char *v16, *v19, *v63, *v64, *v65, *v66, *v67, *v68, *v69, *v70, *v71, *v72, *v73, *v74, *v75, *v76, *v77, *v78, *v79, *v80, *v81, *v82, *v112, *v149, *v178, *v179, *v180, *v181, *v182, *v183, *v184, *v185, *v186, *v187, *v188, *v189, *v190, *v191, *v192, *v193, *v194, *v195, *v196, *v197, *v235;
    uint32_t v22, v24, v26, v28, v51, v57, v107, v110, v134, v135, v136, v137, v138, v139, v171, v174, v222, v225, v248, v249;
    uint8_t v37, v97, v104, v113, v114, v212, v219;
    uint64_t v60, v83, v84, v91, v92, v93, v95, v96, v100, v101, v102, v103, v115, v165, v175, v198, v199, v206, v207, v208, v210, v211, v215, v216, v217, v218, v246;
    ND_ROOM(120) v7, v10;
    ND_ROOM(88) v8, v11;
    ND_ROOM(16) v9, v12;
    ND_ROOM(32) v13;
    v16 = (unsigned char *)((uintptr_t)v1 + (uintptr_t)((v1 == (unsigned char *)0) ? 4096ULL : 0ULL));
    v19 = (unsigned char *)((uintptr_t)v5 + (uintptr_t)((v5 == (unsigned char *)0) ? 4096ULL : 0ULL));
    if (v2 > 4294967295ULL) { v249 = 3U; goto L28; }
    v22 = nd_load_32(((unsigned char *)((uintptr_t)v3 + 12)));
    if (v22 > 3U) { v249 = 3U; goto L28; }
    v24 = nd_load_32(v3);
    v26 = nd_load_32(((unsigned char *)((uintptr_t)v3 + 4)));
    v28 = nd_load_32(((unsigned char *)((uintptr_t)v3 + 8)));
    if (!(((v24 != 0U) & (int)((v26 + 4294967295U) < 65535U)) & (int)((v28 + 4294967295U) < 65535U))) { v249 = 3U; goto L28; }
    v37 = (uint8_t)((uint8_t)v22 & 1);
    if (!(v22 < 2U)) goto L18;
    nd_store_32(v12.b, v24);
    nd_store_32((v12.b + 4), v26);
    nd_store_32((v12.b + 8), v28);
    nd_store_8((v12.b + 12), v37);
    nd_memset((v12.b + 13), 0, 3);
    nd_memset(v13.b, 0, 32);
    nd_ndef_message_message_viewing_view(v13.b, v16, v2, v12.b);
    if (nd_load_8(v13.b) == 0) goto L6;
    v51 = nd_load_32(((unsigned char *)nd_data_switch_table_ndef_items + (ptrdiff_t)(uint64_t)nd_load_8((v13.b + 16)) * 4));
    nd_store_64(v4, nd_load_64((v13.b + 8)));
    nd_store_32((v4 + 8), 0U);
    nd_store_32((v4 + 12), v51);
    v249 = 1U;
    goto L28;
L6:;
    v57 = nd_load_32((v13.b + 24));
    nd_store_64(v4, nd_load_64((v13.b + 16)));
    nd_store_32((v4 + 8), v57);
    nd_store_32((v4 + 12), 0U);
    v60 = (uint64_t)v57;
    if (v6 < v60) { v249 = 2U; goto L28; }
    if (v57 == 0U) goto L17;
    v63 = v10.b + 8;
    v64 = v10.b + 24;
    v65 = v10.b + 40;
    v66 = v10.b + 56;
    v67 = v10.b + 72;
    v68 = v10.b + 80;
    v69 = v10.b + 88;
    v70 = v10.b + 96;
    v71 = v10.b + 112;
    v72 = v11.b + 8;
    v73 = v11.b + 16;
    v74 = v11.b + 24;
    v75 = v11.b + 32;
    v76 = v11.b + 40;
    v77 = v11.b + 48;
    v78 = v11.b + 56;
    v79 = v11.b + 64;
    v80 = v11.b + 72;
    v81 = v11.b + 80;
    v82 = v11.b + 84;
    v83 = 0ULL;
    v84 = 0ULL;
L9:;
    nd_memset(v10.b, 0, 120);
    if (v2 < v83) goto L16;
    nd_ndef_c_run_first_run(v10.b, ((unsigned char *)((uintptr_t)v16 + (uintptr_t)v83)), (v2 - v83));
    if (!(nd_load_8(v10.b) == 1)) goto L16;
    v91 = nd_load_64(v64);
    v92 = nd_load_64(v65);
    v93 = nd_load_64(v66);
    v95 = nd_load_64(v68);
    v96 = nd_load_64(v69);
    v97 = nd_load_8(v70);
    v100 = v2 - (v93 + nd_load_64(v67));
    v101 = v100 - v92;
    v102 = v2 - nd_load_64(v71);
    v103 = v101 - v91;
    v104 = (uint8_t)(nd_load_8(v63) & 7);
    v107 = (uint32_t)(uint8_t)((v104 == 7) ? 5 : v104);
    nd_store_64(v11.b, v83);
    nd_store_64(v72, v102);
    nd_store_64(v73, v103);
    nd_store_64(v74, v91);
    nd_store_64(v75, v101);
    nd_store_64(v76, v92);
    nd_store_64(v77, v100);
    nd_store_64(v78, v93);
    nd_store_64(v79, v95);
    nd_store_64(v80, v96);
    nd_store_32(v81, v107);
    nd_store_32(v82, (uint32_t)(uint8_t)(v97 & 1));
    v110 = nd_ndef_c_kinds_ndef_kind(v16, v2, v11.b, 0U);
    if (!(v96 == 1ULL)) { v134 = 0U; v135 = 0U; v136 = 0U; v137 = 0U; v138 = 0U; v139 = 0U; goto L15; }
    v112 = (unsigned char *)((uintptr_t)v16 + (uintptr_t)v100);
    switch (v110) {
    case 1U: goto L13;
    case 2U: goto L14;
    default: { v134 = 0U; v135 = 0U; v136 = 0U; v137 = 0U; v138 = 0U; v139 = 0U; goto L15; } }
L13:;
    v113 = nd_load_8(v112);
    v114 = (uint8_t)(v113 & 63);
    v115 = (uint64_t)v114;
    v134 = (uint32_t)(uint8_t)((uint8_t)(v113 >> 7) + 1);
    v135 = 0U;
    v136 = (uint32_t)v100 + 1U;
    v137 = (uint32_t)v114;
    v138 = (uint32_t)((v100 + 1ULL) + v115);
    v139 = (uint32_t)(v93 + (v115 ^ 18446744073709551615ULL));
    goto L15;
L14:;
    v134 = 3U;
    v135 = (uint32_t)nd_load_8(v112);
    v136 = 0U;
    v137 = 0U;
    v138 = (uint32_t)v100 + 1U;
    v139 = (uint32_t)v93 + 4294967295U;
L15:;
    v149 = v19 + (ptrdiff_t)(v84 << 6);
    nd_store_32(v149, (uint32_t)v83);
    nd_store_32((v149 + 4), (uint32_t)v102);
    nd_store_32((v149 + 8), v107);
    nd_store_32((v149 + 12), v110);
    nd_store_32((v149 + 16), (uint32_t)v103);
    nd_store_32((v149 + 20), (uint32_t)v91);
    nd_store_32((v149 + 24), (uint32_t)v92);
    nd_store_32((v149 + 28), (uint32_t)v100);
    nd_store_32((v149 + 32), (uint32_t)v95);
    nd_store_32((v149 + 36), (uint32_t)v96);
    nd_store_32((v149 + 40), v134);
    nd_store_32((v149 + 44), v135);
    nd_store_32((v149 + 48), v136);
    nd_store_32((v149 + 52), v137);
    nd_store_32((v149 + 56), v138);
    nd_store_32((v149 + 60), v139);
    v165 = v84 + 1ULL;
    if (v165 == v60) goto L17;
    v83 = v102;
    v84 = v165;
    goto L9;
L16:;
    nd_stop();
L17:;
    v249 = 0U;
    goto L28;
L18:;
    nd_store_32(v9.b, v24);
    nd_store_32((v9.b + 4), v26);
    nd_store_32((v9.b + 8), v28);
    nd_store_8((v9.b + 12), v37);
    nd_memset((v9.b + 13), 0, 3);
    v171 = nd_ndef_c_checking_check_in(v16, v2, v9.b, v4);
    if (!(v171 == 0U)) { v248 = 1U; goto L27; }
    v174 = nd_load_32(((unsigned char *)((uintptr_t)v4 + 8)));
    v175 = (uint64_t)v174;
    if (v6 < v175) { v248 = 2U; goto L27; }
    if (v174 == 0U) goto L26;
    v178 = v7.b + 8;
    v179 = v7.b + 24;
    v180 = v7.b + 40;
    v181 = v7.b + 56;
    v182 = v7.b + 72;
    v183 = v7.b + 80;
    v184 = v7.b + 88;
    v185 = v7.b + 96;
    v186 = v7.b + 112;
    v187 = v8.b + 8;
    v188 = v8.b + 16;
    v189 = v8.b + 24;
    v190 = v8.b + 32;
    v191 = v8.b + 40;
    v192 = v8.b + 48;
    v193 = v8.b + 56;
    v194 = v8.b + 64;
    v195 = v8.b + 72;
    v196 = v8.b + 80;
    v197 = v8.b + 84;
    v198 = 0ULL;
    v199 = 0ULL;
L22:;
    nd_memset(v7.b, 0, 120);
    if (v2 < v198) goto L25;
    nd_ndef_c_run_first_run(v7.b, ((unsigned char *)((uintptr_t)v16 + (uintptr_t)v198)), (v2 - v198));
    if (!(nd_load_8(v7.b) == 1)) goto L25;
    v206 = nd_load_64(v179);
    v207 = nd_load_64(v180);
    v208 = nd_load_64(v181);
    v210 = nd_load_64(v183);
    v211 = nd_load_64(v184);
    v212 = nd_load_8(v185);
    v215 = v2 - (v208 + nd_load_64(v182));
    v216 = v215 - v207;
    v217 = v2 - nd_load_64(v186);
    v218 = v216 - v206;
    v219 = (uint8_t)(nd_load_8(v178) & 7);
    v222 = (uint32_t)(uint8_t)((v219 == 7) ? 5 : v219);
    nd_store_64(v8.b, v198);
    nd_store_64(v187, v217);
    nd_store_64(v188, v218);
    nd_store_64(v189, v206);
    nd_store_64(v190, v216);
    nd_store_64(v191, v207);
    nd_store_64(v192, v215);
    nd_store_64(v193, v208);
    nd_store_64(v194, v210);
    nd_store_64(v195, v211);
    nd_store_32(v196, v222);
    nd_store_32(v197, (uint32_t)(uint8_t)(v212 & 1));
    v225 = nd_ndef_c_kinds_ndef_kind(v16, v2, v8.b, 0U);
    v235 = v19 + (ptrdiff_t)(v199 << 6);
    nd_store_32(v235, (uint32_t)v198);
    nd_store_32((v235 + 4), (uint32_t)v217);
    nd_store_32((v235 + 8), v222);
    nd_store_32((v235 + 12), v225);
    nd_store_32((v235 + 16), (uint32_t)v218);
    nd_store_32((v235 + 20), (uint32_t)v206);
    nd_store_32((v235 + 24), (uint32_t)v207);
    nd_store_32((v235 + 28), (uint32_t)v215);
    nd_store_32((v235 + 32), (uint32_t)v210);
    nd_store_32((v235 + 36), (uint32_t)v211);
    v246 = v199 + 1ULL;
    nd_memset((v235 + 40), 0, 24);
    if (v246 == v175) goto L26;
    v198 = v217;
    v199 = v246;
    goto L22;
L25:;
    nd_stop();
L26:;
    v248 = 0U;
L27:;
    v249 = v248;
L28:;
    return v249;
}

static uint32_t nd_ndef_write_request(uint32_t v1, uint32_t v2, unsigned char *v3, uint64_t v4, unsigned char *v5, uint64_t v6, unsigned char *v7, uint64_t v8, unsigned char *v9, uint64_t v10, unsigned char *v11) {
    uint16_t v31;
    uint32_t v53, v54;
    ND_ROOM(2) v12;
    ND_ROOM(208) v13;
    ND_ROOM(1) v14;
    if ((v1 > 15U) | (int)(v2 > 65535U)) { v54 = 3U; goto L2; }
    v31 = nd_bswap_i16((uint16_t)v2);
    nd_store_16(v12.b, v31);
    nd_store_64(v13.b, 1ULL);
    nd_store_64((v13.b + 8), 1ULL);
    nd_store_ptr((v13.b + 16), (unsigned char *)nd_data_static_213);
    nd_store_64((v13.b + 24), 2ULL);
    nd_store_ptr((v13.b + 32), (unsigned char *)nd_data_static_50);
    nd_store_64((v13.b + 40), 0ULL);
    nd_store_8((v13.b + 48), 5);
    nd_memset((v13.b + 49), 0, 7);
    nd_store_ptr((v13.b + 56), v12.b);
    nd_store_64((v13.b + 64), 2ULL);
    nd_memset((v13.b + 72), 0, 24);
    nd_store_64((v13.b + 96), 2ULL);
    nd_store_64((v13.b + 104), 4ULL);
    nd_store_ptr((v13.b + 112), ((unsigned char *)((uintptr_t)v3 + (uintptr_t)((v3 == (unsigned char *)0) ? 4096ULL : 0ULL))));
    nd_store_64((v13.b + 120), v4);
    nd_store_ptr((v13.b + 128), ((unsigned char *)((uintptr_t)v5 + (uintptr_t)((v5 == (unsigned char *)0) ? 4096ULL : 0ULL))));
    nd_store_64((v13.b + 136), v6);
    nd_store_ptr((v13.b + 144), ((unsigned char *)((uintptr_t)v7 + (uintptr_t)((v7 == (unsigned char *)0) ? 4096ULL : 0ULL))));
    nd_store_64((v13.b + 152), v8);
    nd_memset((v13.b + 160), 0, 48);
    nd_store_8(v14.b, (uint8_t)((uint8_t)v1 | 16));
    v53 = nd_ndef_c_series_writing_give_message(v14.b, 1ULL, v13.b, 2ULL, ((unsigned char *)((uintptr_t)v9 + (uintptr_t)((v9 == (unsigned char *)0) ? 4096ULL : 0ULL))), v10, v11);
    v54 = v53;
L2:;
    return v54;
}

static uint32_t nd_ndef_write_select(unsigned char *v1, unsigned char *v2, uint64_t v3, unsigned char *v4, uint64_t v5, unsigned char *v6, uint64_t v7, unsigned char *v8, uint64_t v9, unsigned char *v10) {
    unsigned char *v15, *v18, *v21, *v24, *v36, *v46, *v48, *v51;
    uint32_t v26, v38, v76, v77;
    uint64_t v30, v33, v45, v47, v52, v53;
    uint8_t v40, v49, v50;
    ND_ROOM(1) v11;
    ND_ROOM(208) v12;
    v15 = (unsigned char *)((uintptr_t)v2 + (uintptr_t)((v2 == (unsigned char *)0) ? 4096ULL : 0ULL));
    v18 = (unsigned char *)((uintptr_t)v4 + (uintptr_t)((v4 == (unsigned char *)0) ? 4096ULL : 0ULL));
    v21 = (unsigned char *)((uintptr_t)v6 + (uintptr_t)((v6 == (unsigned char *)0) ? 4096ULL : 0ULL));
    v24 = (unsigned char *)((uintptr_t)v8 + (uintptr_t)((v8 == (unsigned char *)0) ? 4096ULL : 0ULL));
    v26 = nd_load_32(((unsigned char *)((uintptr_t)v1 + 16)));
    if (v26 > 15U) { v77 = 3U; goto L11; }
    switch (nd_load_32(((unsigned char *)((uintptr_t)v1 + 20)))) {
    case 0U: { v45 = 0ULL; v46 = (unsigned char *)0; v47 = 0ULL; v48 = (unsigned char *)0; v49 = 0; v50 = 0; v51 = (unsigned char *)0; v52 = 0ULL; v53 = 0ULL; goto L10; }
    case 1U: goto L2;
    default: { v77 = 3U; goto L11; } }
L2:;
    v30 = nd_load_64(v1);
    if (v3 < v30) { v77 = 3U; goto L11; }
    v33 = nd_load_64(((unsigned char *)((uintptr_t)v1 + 8)));
    if ((v3 - v30) < v33) { v77 = 3U; goto L11; }
    v36 = (unsigned char *)((uintptr_t)v15 + (uintptr_t)v30);
    v38 = nd_load_32(((unsigned char *)((uintptr_t)v1 + 24)));
    if (!(v38 < 256U)) { v77 = 3U; goto L11; }
    v40 = (uint8_t)v38;
    switch (v40) {
    case 1: goto L6;
    case 3: goto L6;
    case 2: goto L7;
    default: goto L8; }
L6:;
    if (v33 == 1ULL) goto L9;
    v77 = 3U;
    goto L11;
L7:;
    if (v33 == 4ULL) goto L9;
    v77 = 3U;
    goto L11;
L8:;
    if (!(v33 < 4294967295ULL)) { v77 = 3U; goto L11; }
L9:;
    v45 = 1ULL;
    v46 = (unsigned char *)nd_data_static_214;
    v47 = 3ULL;
    v48 = (unsigned char *)nd_data_static_50;
    v49 = 4;
    v50 = v40;
    v51 = v36;
    v52 = v33;
    v53 = v33 + 1ULL;
L10:;
    nd_store_8(v11.b, (uint8_t)((uint8_t)v26 | 16));
    nd_store_64(v12.b, 4ULL);
    nd_store_ptr((v12.b + 8), v15);
    nd_store_64((v12.b + 16), v3);
    nd_store_ptr((v12.b + 24), v18);
    nd_store_64((v12.b + 32), v5);
    nd_store_ptr((v12.b + 40), v21);
    nd_store_64((v12.b + 48), v7);
    nd_memset((v12.b + 56), 0, 48);
    nd_store_64((v12.b + 104), v45);
    nd_store_64((v12.b + 112), v45);
    nd_store_ptr((v12.b + 120), v46);
    nd_store_64((v12.b + 128), v47);
    nd_store_ptr((v12.b + 136), v48);
    nd_store_64((v12.b + 144), 0ULL);
    nd_store_8((v12.b + 152), v49);
    nd_store_8((v12.b + 153), v50);
    nd_memset((v12.b + 154), 0, 6);
    nd_store_ptr((v12.b + 160), v51);
    nd_store_64((v12.b + 168), v52);
    nd_memset((v12.b + 176), 0, 24);
    nd_store_64((v12.b + 200), v53);
    v76 = nd_ndef_c_series_writing_give_message(v11.b, 1ULL, v12.b, 2ULL, v24, v9, v10);
    v77 = v76;
L11:;
    return v77;
}

static uint32_t nd_ndef_link_at(unsigned char *v1, uint64_t v2, unsigned char *v3, uint64_t v4, uint64_t v5, unsigned char *v6) {
    unsigned char *v14, *v17, *v19, *v20, *v37, *v39, *v40, *v41, *v42, *v43, *v44, *v45, *v46, *v47, *v48, *v49, *v50, *v51, *v52, *v53, *v54, *v55, *v56, *v57, *v58, *v87;
    uint8_t v18, v22, v28, v73, v80, v82;
    uint64_t v21, v38, v59, v60, v67, v68, v69, v71, v72, v76, v77, v78, v79, v98;
    uint32_t v100, v101;
    ND_ROOM(120) v7, v11;
    ND_ROOM(88) v8;
    ND_ROOM(40) v9;
    ND_ROOM(32) v10;
    v14 = (unsigned char *)((uintptr_t)v1 + (uintptr_t)((v1 == (unsigned char *)0) ? 4096ULL : 0ULL));
    v17 = (unsigned char *)((uintptr_t)v3 + (uintptr_t)((v3 == (unsigned char *)0) ? 4096ULL : 0ULL));
    v18 = nd_ndef_c_handover_is_handover(v17, v4);
    if (!v18) { v101 = 3U; goto L20; }
    v19 = v11.b + 96;
    v20 = v11.b + 112;
    v21 = 0ULL;
    v22 = 0;
L2:;
    if (v22) { v101 = 3U; goto L20; }
    nd_memset(v11.b, 0, 120);
    if (v2 < v21) goto L5;
    nd_ndef_c_run_first_run(v11.b, ((unsigned char *)((uintptr_t)v14 + (uintptr_t)v21)), (v2 - v21));
    if (nd_load_8(v11.b) == 1) goto L6;
L5:;
    v101 = 3U;
    goto L20;
L6:;
    v28 = nd_load_8(v19);
    if ((uint8_t)(v28 & 1) == 0) { v21 = v2 - nd_load_64(v20); v22 = (uint8_t)(v28 & 1); goto L2; }
    nd_store_ptr(v10.b, v14);
    nd_store_64((v10.b + 8), v2);
    nd_store_ptr((v10.b + 16), v17);
    nd_store_64((v10.b + 24), v4);
    nd_memset(v9.b, 0, 40);
    v37 = (unsigned char *)((uintptr_t)v17 + 1);
    v38 = v4 + 18446744073709551615ULL;
    v39 = v7.b + 8;
    v40 = v7.b + 24;
    v41 = v7.b + 40;
    v42 = v7.b + 56;
    v43 = v7.b + 72;
    v44 = v7.b + 80;
    v45 = v7.b + 88;
    v46 = v7.b + 96;
    v47 = v7.b + 112;
    v48 = v8.b + 8;
    v49 = v8.b + 16;
    v50 = v8.b + 24;
    v51 = v8.b + 32;
    v52 = v8.b + 40;
    v53 = v8.b + 48;
    v54 = v8.b + 56;
    v55 = v8.b + 64;
    v56 = v8.b + 72;
    v57 = v8.b + 80;
    v58 = v8.b + 84;
    v59 = 0ULL;
    v60 = v5;
L8:;
    nd_memset(v7.b, 0, 120);
    if (v38 < v59) goto L10;
    nd_ndef_c_run_first_run(v7.b, ((unsigned char *)((uintptr_t)v37 + (uintptr_t)v59)), (v38 - v59));
    if (nd_load_8(v7.b) == 1) goto L11;
L10:;
    v100 = 4U;
    goto L19;
L11:;
    v67 = nd_load_64(v40);
    v68 = nd_load_64(v41);
    v69 = nd_load_64(v42);
    v71 = nd_load_64(v44);
    v72 = nd_load_64(v45);
    v73 = nd_load_8(v46);
    v76 = v38 - (v69 + nd_load_64(v43));
    v77 = v76 - v68;
    v78 = v38 - nd_load_64(v47);
    v79 = v77 - v67;
    v80 = (uint8_t)(nd_load_8(v39) & 7);
    v82 = (uint8_t)((v80 == 7) ? 5 : v80);
    if (v82 < 6) goto L13;
    nd_stop();
L13:;
    if (!((v67 == 2ULL) & (int)(v82 == 1))) { v98 = v60; goto L18; }
    v87 = (unsigned char *)((uintptr_t)v37 + (uintptr_t)v79);
    if (!((nd_load_8(v87) == 97) & (int)(nd_load_8(((unsigned char *)((uintptr_t)v87 + 1))) == 99))) { v98 = v60; goto L18; }
    if (!(v60 == 0ULL)) goto L17;
    nd_store_64(v48, v78);
    nd_store_64(v49, v79);
    nd_store_64(v50, 2ULL);
    nd_store_64(v51, v77);
    nd_store_64(v52, v68);
    nd_store_64(v53, v76);
    nd_store_64(v54, v69);
    nd_store_64(v55, v71);
    nd_store_64(v56, v72);
    nd_store_32(v57, 1U);
    nd_store_32(v58, (uint32_t)(uint8_t)(v73 & 1));
    nd_store_64(v8.b, v59);
    nd_ndef_c_links_LinksRecordQuery_given(v9.b, v10.b, v8.b);
    nd_memcpy(v6, v9.b, 40);
    v100 = 0U;
    goto L19;
L17:;
    v98 = v60 + 18446744073709551615ULL;
L18:;
    if ((uint8_t)(v73 & 1)) { v100 = 4U; goto L19; }
    v59 = v78;
    v60 = v98;
    goto L8;
L19:;
    v101 = v100;
L20:;
    return v101;
}

static uint32_t nd_ndef_request(unsigned char *v1, uint64_t v2, uint32_t v3, unsigned char *v4, unsigned char *v5) {
    unsigned char *v11, *v25, *v30, *v33, *v34, *v35, *v36, *v37, *v38, *v39, *v66, *v77, *v78, *v79, *v80, *v81, *v82, *v83, *v108, *v121;
    uint8_t v13, v15, v27, v32, v52, v59, v61, v95, v97, v99, v123, v124;
    uint64_t v28, v31, v40, v41, v48, v54, v58, v74, v76, v84, v91, v92, v93, v94, v96, v101, v106, v134;
    uint32_t v118, v135, v138;
    ND_ROOM(120) v6, v7;
    ND_ROOM(88) v8;
    v11 = (unsigned char *)((uintptr_t)v1 + (uintptr_t)((v1 == (unsigned char *)0) ? 4096ULL : 0ULL));
    if (v3 > 1U) { v138 = 3U; goto L57; }
    v13 = (uint8_t)v3;
    if (v2 > 4294967295ULL) { v134 = 0ULL; v135 = 23U; goto L56; }
    v15 = nd_ndef_nest_member_is_nested(1, 65535U, v13, v11, v2);
    if (v15) goto L7;
    nd_store_64(v8.b, ((uint64_t)v3 | 281470681940224ULL));
    nd_store_8((v8.b + 8), v13);
    nd_store_8((v8.b + 9), 1);
    nd_store_8((v8.b + 10), 0);
    nd_store_8((v8.b + 11), 1);
    nd_store_32((v8.b + 12), 0U);
    nd_store_32((v8.b + 16), 4294967295U);
    v25 = v8.b + 80;
    nd_memset((v8.b + 20), 0, 60);
    nd_store_8(v25, 23);
    nd_memset((v8.b + 81), 0, 7);
    v27 = nd_ndef_nest_nest_NestLanguage_fits(v8.b, v2, v2);
    if (v27) goto L5;
    v134 = 0ULL;
    v135 = 23U;
    goto L56;
L5:;
    v28 = nd_ndef_nest_nest_NestLanguage_step_all(v8.b, v11, v2, v2, v2);
    if (v28 < v2) goto L30;
L7:;
    v30 = (unsigned char *)((uintptr_t)v11 + 1);
    v31 = v2 + 18446744073709551615ULL;
    v32 = nd_load_8(v11);
    v33 = v7.b + 8;
    v34 = v7.b + 24;
    v35 = v7.b + 40;
    v36 = v7.b + 56;
    v37 = v7.b + 72;
    v38 = v7.b + 96;
    v39 = v7.b + 112;
    v40 = 0ULL;
    v41 = 0ULL;
L8:;
    nd_memset(v7.b, 0, 120);
    if (v31 < v41) goto L10;
    nd_ndef_c_run_first_run(v7.b, ((unsigned char *)((uintptr_t)v30 + (uintptr_t)v41)), (v31 - v41));
    if (nd_load_8(v7.b) == 1) goto L11;
L10:;
    v76 = v40;
    goto L17;
L11:;
    v48 = nd_load_64(v34);
    v52 = nd_load_8(v38);
    v54 = v31 - nd_load_64(v39);
    v58 = v31 - (((v48 + nd_load_64(v35)) + nd_load_64(v36)) + nd_load_64(v37));
    v59 = (uint8_t)(nd_load_8(v33) & 7);
    v61 = (uint8_t)((v59 == 7) ? 5 : v59);
    if (v61 < 6) goto L13;
    nd_stop();
L13:;
    if (!((v48 == 2ULL) & (int)(v61 == 1))) { v74 = v40; goto L16; }
    v66 = (unsigned char *)((uintptr_t)v30 + (uintptr_t)v58);
    if (!(nd_load_8(v66) == 97)) { v74 = v40; goto L16; }
    v74 = v40 + (uint64_t)(nd_load_8(((unsigned char *)((uintptr_t)v66 + 1))) == 99);
L16:;
    if ((uint8_t)(v52 & 1)) { v76 = v74; goto L17; }
    v40 = v74;
    v41 = v54;
    goto L8;
L17:;
    v77 = v6.b + 8;
    v78 = v6.b + 24;
    v79 = v6.b + 40;
    v80 = v6.b + 56;
    v81 = v6.b + 72;
    v82 = v6.b + 96;
    v83 = v6.b + 112;
    v84 = 0ULL;
L18:;
    nd_memset(v6.b, 0, 120);
    if (v31 < v84) goto L20;
    nd_ndef_c_run_first_run(v6.b, ((unsigned char *)((uintptr_t)v30 + (uintptr_t)v84)), (v31 - v84));
    if (nd_load_8(v6.b) == 1) goto L21;
L20:;
    goto L28;
L21:;
    v91 = nd_load_64(v78);
    v92 = nd_load_64(v79);
    v93 = nd_load_64(v80);
    v94 = nd_load_64(v81);
    v95 = nd_load_8(v82);
    v96 = nd_load_64(v83);
    v97 = (uint8_t)(nd_load_8(v77) & 7);
    v99 = (uint8_t)((v97 == 7) ? 5 : v97);
    if (v99 < 6) goto L23;
    nd_stop();
L23:;
    v101 = v31 - v96;
    if (!(uint8_t)((v99 == 1) ? (v91 == 2ULL) : 0)) goto L25;
    v106 = v31 - (v93 + v94);
    v108 = (unsigned char *)((uintptr_t)v30 + (uintptr_t)(v106 - v92));
    if ((nd_load_8(((unsigned char *)((uintptr_t)v108 - 2))) == 99) & (int)(nd_load_8(((unsigned char *)((uintptr_t)v108 - 1))) == 114)) goto L26;
L25:;
    if ((uint8_t)(v95 & 1)) goto L28;
    v84 = v101;
    goto L18;
L26:;
    if (v93 == 2ULL) goto L29;
    nd_stop();
L28:;
    nd_stop();
L29:;
    v118 = (uint32_t)v32;
    v121 = (unsigned char *)((uintptr_t)v30 + (uintptr_t)v106);
    v123 = nd_load_8(v121);
    v124 = nd_load_8(((unsigned char *)((uintptr_t)v121 + 1)));
    nd_store_64(v4, v76);
    nd_store_32((v4 + 8), (v118 >> 4));
    nd_store_32((v4 + 12), (v118 & 15U));
    nd_store_32((v4 + 16), (((uint32_t)v123 << 8) | (uint32_t)v124));
    nd_store_32((v4 + 20), 0U);
    v138 = 0U;
    goto L57;
L30:;
    switch (nd_load_8(v25)) {
    case 0: { v134 = v28; v135 = 1U; goto L56; }
    case 1: goto L31;
    case 2: goto L32;
    case 3: goto L33;
    case 4: goto L34;
    case 5: goto L35;
    case 6: goto L36;
    case 7: goto L37;
    case 8: goto L38;
    case 9: goto L39;
    case 10: goto L40;
    case 11: goto L41;
    case 12: goto L42;
    case 13: goto L43;
    case 14: goto L44;
    case 15: goto L45;
    case 16: goto L46;
    case 17: goto L47;
    case 18: goto L48;
    case 19: goto L49;
    case 20: goto L50;
    case 21: goto L51;
    case 22: goto L52;
    case 23: goto L53;
    case 24: goto L54;
    default: goto L55; }
L31:;
    v134 = v28;
    v135 = 2U;
    goto L56;
L32:;
    v134 = v28;
    v135 = 3U;
    goto L56;
L33:;
    v134 = v28;
    v135 = 4U;
    goto L56;
L34:;
    v134 = v28;
    v135 = 5U;
    goto L56;
L35:;
    v134 = v28;
    v135 = 6U;
    goto L56;
L36:;
    v134 = v28;
    v135 = 7U;
    goto L56;
L37:;
    v134 = v28;
    v135 = 8U;
    goto L56;
L38:;
    v134 = v28;
    v135 = 9U;
    goto L56;
L39:;
    v134 = v28;
    v135 = 10U;
    goto L56;
L40:;
    v134 = v28;
    v135 = 11U;
    goto L56;
L41:;
    v134 = v28;
    v135 = 12U;
    goto L56;
L42:;
    v134 = v28;
    v135 = 13U;
    goto L56;
L43:;
    v134 = v28;
    v135 = 14U;
    goto L56;
L44:;
    v134 = v28;
    v135 = 15U;
    goto L56;
L45:;
    v134 = v28;
    v135 = 16U;
    goto L56;
L46:;
    v134 = v28;
    v135 = 17U;
    goto L56;
L47:;
    v134 = v28;
    v135 = 18U;
    goto L56;
L48:;
    v134 = v28;
    v135 = 19U;
    goto L56;
L49:;
    v134 = v28;
    v135 = 20U;
    goto L56;
L50:;
    v134 = v28;
    v135 = 21U;
    goto L56;
L51:;
    v134 = v28;
    v135 = 22U;
    goto L56;
L52:;
    v134 = v28;
    v135 = 25U;
    goto L56;
L53:;
    v134 = v28;
    v135 = 23U;
    goto L56;
L54:;
    v134 = v28;
    v135 = 24U;
    goto L56;
L55:;
    nd_stop();
L56:;
    nd_store_64(v5, v134);
    nd_store_32((v5 + 8), 0U);
    nd_store_32((v5 + 12), v135);
    v138 = 1U;
L57:;
    return v138;
}

static uint32_t nd_ndef_select(unsigned char *v1, uint64_t v2, uint32_t v3, unsigned char *v4, unsigned char *v5) {
    unsigned char *v11, *v25, *v31, *v33, *v34, *v35, *v36, *v37, *v38, *v39, *v62, *v85, *v86, *v87, *v88, *v89, *v90, *v91, *v118;
    uint8_t v13, v15, v27, v30, v51, v53, v55, v104, v111, v113;
    uint64_t v28, v32, v40, v47, v48, v49, v50, v52, v58, v61, v83, v84, v92, v93, v100, v106, v110, v126, v128, v139;
    uint32_t v81, v82, v129, v140, v143;
    ND_ROOM(120) v6, v7;
    ND_ROOM(88) v8;
    v11 = (unsigned char *)((uintptr_t)v1 + (uintptr_t)((v1 == (unsigned char *)0) ? 4096ULL : 0ULL));
    if (v3 > 1U) { v143 = 3U; goto L56; }
    v13 = (uint8_t)v3;
    if (v2 > 4294967295ULL) { v139 = 0ULL; v140 = 23U; goto L55; }
    v15 = nd_ndef_nest_member_is_nested(2, 65535U, v13, v11, v2);
    if (v15) goto L7;
    nd_store_64(v8.b, ((uint64_t)v3 | 281470681743872ULL));
    nd_store_8((v8.b + 8), v13);
    nd_store_8((v8.b + 9), 1);
    nd_store_8((v8.b + 10), 0);
    nd_store_8((v8.b + 11), 1);
    nd_store_32((v8.b + 12), 0U);
    nd_store_32((v8.b + 16), 4294967295U);
    v25 = v8.b + 80;
    nd_memset((v8.b + 20), 0, 60);
    nd_store_8(v25, 23);
    nd_memset((v8.b + 81), 0, 7);
    v27 = nd_ndef_nest_nest_NestLanguage_fits(v8.b, v2, v2);
    if (v27) goto L5;
    v139 = 0ULL;
    v140 = 23U;
    goto L55;
L5:;
    v28 = nd_ndef_nest_nest_NestLanguage_step_all(v8.b, v11, v2, v2, v2);
    if (v28 < v2) goto L29;
L7:;
    v30 = nd_load_8(v11);
    v31 = (unsigned char *)((uintptr_t)v11 + 1);
    v32 = v2 + 18446744073709551615ULL;
    v33 = v7.b + 8;
    v34 = v7.b + 24;
    v35 = v7.b + 40;
    v36 = v7.b + 56;
    v37 = v7.b + 72;
    v38 = v7.b + 96;
    v39 = v7.b + 112;
    v40 = 0ULL;
L8:;
    nd_memset(v7.b, 0, 120);
    if (v32 < v40) goto L10;
    nd_ndef_c_run_first_run(v7.b, ((unsigned char *)((uintptr_t)v31 + (uintptr_t)v40)), (v32 - v40));
    if (nd_load_8(v7.b) == 1) goto L11;
L10:;
    v81 = 0U;
    v82 = 0U;
    v83 = 0ULL;
    v84 = 0ULL;
    goto L18;
L11:;
    v47 = nd_load_64(v34);
    v48 = nd_load_64(v35);
    v49 = nd_load_64(v36);
    v50 = nd_load_64(v37);
    v51 = nd_load_8(v38);
    v52 = nd_load_64(v39);
    v53 = (uint8_t)(nd_load_8(v33) & 7);
    v55 = (uint8_t)((v53 == 7) ? 5 : v53);
    if (v55 < 6) goto L13;
    nd_stop();
L13:;
    v58 = v32 - (v49 + v50);
    v61 = v32 - v52;
    v62 = (unsigned char *)((uintptr_t)v31 + (uintptr_t)(v58 - (v48 + v47)));
    if (!(uint8_t)((v55 == 1) ? (v47 == 3ULL) : 0)) goto L16;
    if (!(nd_load_8(v62) == 101)) goto L16;
    if ((nd_load_8(((unsigned char *)((uintptr_t)v62 + 2))) == 114) & (int)(nd_load_8(((unsigned char *)((uintptr_t)v62 + 1))) == 114)) goto L17;
L16:;
    if ((uint8_t)(v51 & 1)) { v81 = 0U; v82 = 0U; v83 = 0ULL; v84 = 0ULL; goto L18; }
    v40 = v61;
    goto L8;
L17:;
    v81 = 1U;
    v82 = (uint32_t)nd_load_8(((unsigned char *)((uintptr_t)v31 + (uintptr_t)v58)));
    v83 = v58 + 2ULL;
    v84 = v49 + 18446744073709551615ULL;
L18:;
    v85 = v6.b + 8;
    v86 = v6.b + 24;
    v87 = v6.b + 40;
    v88 = v6.b + 56;
    v89 = v6.b + 72;
    v90 = v6.b + 96;
    v91 = v6.b + 112;
    v92 = 0ULL;
    v93 = 0ULL;
L19:;
    nd_memset(v6.b, 0, 120);
    if (v32 < v93) goto L21;
    nd_ndef_c_run_first_run(v6.b, ((unsigned char *)((uintptr_t)v31 + (uintptr_t)v93)), (v32 - v93));
    if (nd_load_8(v6.b) == 1) goto L22;
L21:;
    v128 = v92;
    goto L28;
L22:;
    v100 = nd_load_64(v86);
    v104 = nd_load_8(v90);
    v106 = v32 - nd_load_64(v91);
    v110 = v32 - (((v100 + nd_load_64(v87)) + nd_load_64(v88)) + nd_load_64(v89));
    v111 = (uint8_t)(nd_load_8(v85) & 7);
    v113 = (uint8_t)((v111 == 7) ? 5 : v111);
    if (v113 < 6) goto L24;
    nd_stop();
L24:;
    if (!((v100 == 2ULL) & (int)(v113 == 1))) { v126 = v92; goto L27; }
    v118 = (unsigned char *)((uintptr_t)v31 + (uintptr_t)v110);
    if (!(nd_load_8(v118) == 97)) { v126 = v92; goto L27; }
    v126 = v92 + (uint64_t)(nd_load_8(((unsigned char *)((uintptr_t)v118 + 1))) == 99);
L27:;
    if ((uint8_t)(v104 & 1)) { v128 = v126; goto L28; }
    v92 = v126;
    v93 = v106;
    goto L19;
L28:;
    v129 = (uint32_t)v30;
    nd_store_64(v4, v128);
    nd_store_64((v4 + 8), v83);
    nd_store_64((v4 + 16), v84);
    nd_store_32((v4 + 24), (v129 >> 4));
    nd_store_32((v4 + 28), (v129 & 15U));
    nd_store_32((v4 + 32), v81);
    nd_store_32((v4 + 36), v82);
    v143 = 0U;
    goto L56;
L29:;
    switch (nd_load_8(v25)) {
    case 0: { v139 = v28; v140 = 1U; goto L55; }
    case 1: goto L30;
    case 2: goto L31;
    case 3: goto L32;
    case 4: goto L33;
    case 5: goto L34;
    case 6: goto L35;
    case 7: goto L36;
    case 8: goto L37;
    case 9: goto L38;
    case 10: goto L39;
    case 11: goto L40;
    case 12: goto L41;
    case 13: goto L42;
    case 14: goto L43;
    case 15: goto L44;
    case 16: goto L45;
    case 17: goto L46;
    case 18: goto L47;
    case 19: goto L48;
    case 20: goto L49;
    case 21: goto L50;
    case 22: goto L51;
    case 23: goto L52;
    case 24: goto L53;
    default: goto L54; }
L30:;
    v139 = v28;
    v140 = 2U;
    goto L55;
L31:;
    v139 = v28;
    v140 = 3U;
    goto L55;
L32:;
    v139 = v28;
    v140 = 4U;
    goto L55;
L33:;
    v139 = v28;
    v140 = 5U;
    goto L55;
L34:;
    v139 = v28;
    v140 = 6U;
    goto L55;
L35:;
    v139 = v28;
    v140 = 7U;
    goto L55;
L36:;
    v139 = v28;
    v140 = 8U;
    goto L55;
L37:;
    v139 = v28;
    v140 = 9U;
    goto L55;
L38:;
    v139 = v28;
    v140 = 10U;
    goto L55;
L39:;
    v139 = v28;
    v140 = 11U;
    goto L55;
L40:;
    v139 = v28;
    v140 = 12U;
    goto L55;
L41:;
    v139 = v28;
    v140 = 13U;
    goto L55;
L42:;
    v139 = v28;
    v140 = 14U;
    goto L55;
L43:;
    v139 = v28;
    v140 = 15U;
    goto L55;
L44:;
    v139 = v28;
    v140 = 16U;
    goto L55;
L45:;
    v139 = v28;
    v140 = 17U;
    goto L55;
L46:;
    v139 = v28;
    v140 = 18U;
    goto L55;
L47:;
    v139 = v28;
    v140 = 19U;
    goto L55;
L48:;
    v139 = v28;
    v140 = 20U;
    goto L55;
L49:;
    v139 = v28;
    v140 = 21U;
    goto L55;
L50:;
    v139 = v28;
    v140 = 22U;
    goto L55;
L51:;
    v139 = v28;
    v140 = 25U;
    goto L55;
L52:;
    v139 = v28;
    v140 = 23U;
    goto L55;
L53:;
    v139 = v28;
    v140 = 24U;
    goto L55;
L54:;
    nd_stop();
L55:;
    nd_store_64(v5, v139);
    nd_store_32((v5 + 8), 0U);
    nd_store_32((v5 + 12), v140);
    v143 = 1U;
L56:;
    return v143;
}

static uint32_t nd_ndef_links(unsigned char *v1, uint64_t v2, unsigned char *v3, uint64_t v4, unsigned char *v5, uint64_t v6, unsigned char *v7) {
    unsigned char *v16, *v19, *v22, *v24, *v25, *v42, *v44, *v45, *v46, *v47, *v48, *v49, *v50, *v77, *v89, *v90, *v91, *v92, *v93, *v94, *v95, *v96, *v97, *v98, *v99, *v100, *v101, *v102, *v103, *v104, *v105, *v106, *v107, *v108, *v140;
    uint8_t v23, v27, v33, v63, v70, v72, v123, v130, v132;
    uint64_t v26, v43, v51, v52, v59, v65, v69, v85, v87, v109, v110, v117, v118, v119, v121, v122, v126, v127, v128, v129, v150;
    uint32_t v152, v153;
    ND_ROOM(120) v8, v11, v13;
    ND_ROOM(88) v9;
    ND_ROOM(40) v10;
    ND_ROOM(32) v12;
    v16 = (unsigned char *)((uintptr_t)v1 + (uintptr_t)((v1 == (unsigned char *)0) ? 4096ULL : 0ULL));
    v19 = (unsigned char *)((uintptr_t)v3 + (uintptr_t)((v3 == (unsigned char *)0) ? 4096ULL : 0ULL));
    v22 = (unsigned char *)((uintptr_t)v5 + (uintptr_t)((v5 == (unsigned char *)0) ? 4096ULL : 0ULL));
    v23 = nd_ndef_c_handover_is_handover(v19, v4);
    if (!v23) { v153 = 3U; goto L30; }
    v24 = v13.b + 96;
    v25 = v13.b + 112;
    v26 = 0ULL;
    v27 = 0;
L2:;
    if (v27) { v153 = 3U; goto L30; }
    nd_memset(v13.b, 0, 120);
    if (v2 < v26) goto L5;
    nd_ndef_c_run_first_run(v13.b, ((unsigned char *)((uintptr_t)v16 + (uintptr_t)v26)), (v2 - v26));
    if (nd_load_8(v13.b) == 1) goto L6;
L5:;
    v153 = 3U;
    goto L30;
L6:;
    v33 = nd_load_8(v24);
    if ((uint8_t)(v33 & 1) == 0) { v26 = v2 - nd_load_64(v25); v27 = (uint8_t)(v33 & 1); goto L2; }
    nd_store_ptr(v12.b, v16);
    nd_store_64((v12.b + 8), v2);
    nd_store_ptr((v12.b + 16), v19);
    nd_store_64((v12.b + 24), v4);
    v42 = (unsigned char *)((uintptr_t)v19 + 1);
    v43 = v4 + 18446744073709551615ULL;
    v44 = v11.b + 8;
    v45 = v11.b + 24;
    v46 = v11.b + 40;
    v47 = v11.b + 56;
    v48 = v11.b + 72;
    v49 = v11.b + 96;
    v50 = v11.b + 112;
    v51 = 0ULL;
    v52 = 0ULL;
L8:;
    nd_memset(v11.b, 0, 120);
    if (v43 < v52) goto L10;
    nd_ndef_c_run_first_run(v11.b, ((unsigned char *)((uintptr_t)v42 + (uintptr_t)v52)), (v43 - v52));
    if (nd_load_8(v11.b) == 1) goto L11;
L10:;
    v87 = v51;
    goto L17;
L11:;
    v59 = nd_load_64(v45);
    v63 = nd_load_8(v49);
    v65 = v43 - nd_load_64(v50);
    v69 = v43 - (((v59 + nd_load_64(v46)) + nd_load_64(v47)) + nd_load_64(v48));
    v70 = (uint8_t)(nd_load_8(v44) & 7);
    v72 = (uint8_t)((v70 == 7) ? 5 : v70);
    if (v72 < 6) goto L13;
    nd_stop();
L13:;
    if (!((v59 == 2ULL) & (int)(v72 == 1))) { v85 = v51; goto L16; }
    v77 = (unsigned char *)((uintptr_t)v42 + (uintptr_t)v69);
    if (!(nd_load_8(v77) == 97)) { v85 = v51; goto L16; }
    v85 = v51 + (uint64_t)(nd_load_8(((unsigned char *)((uintptr_t)v77 + 1))) == 99);
L16:;
    if ((uint8_t)(v63 & 1)) { v87 = v85; goto L17; }
    v51 = v85;
    v52 = v65;
    goto L8;
L17:;
    nd_store_64(v7, v87);
    if (v6 < v87) { v152 = 2U; goto L29; }
    nd_memset(v10.b, 0, 40);
    v89 = v8.b + 8;
    v90 = v8.b + 24;
    v91 = v8.b + 40;
    v92 = v8.b + 56;
    v93 = v8.b + 72;
    v94 = v8.b + 80;
    v95 = v8.b + 88;
    v96 = v8.b + 96;
    v97 = v8.b + 112;
    v98 = v9.b + 8;
    v99 = v9.b + 16;
    v100 = v9.b + 24;
    v101 = v9.b + 32;
    v102 = v9.b + 40;
    v103 = v9.b + 48;
    v104 = v9.b + 56;
    v105 = v9.b + 64;
    v106 = v9.b + 72;
    v107 = v9.b + 80;
    v108 = v9.b + 84;
    v109 = 0ULL;
    v110 = 0ULL;
L19:;
    nd_memset(v8.b, 0, 120);
    if (v43 < v110) goto L21;
    nd_ndef_c_run_first_run(v8.b, ((unsigned char *)((uintptr_t)v42 + (uintptr_t)v110)), (v43 - v110));
    if (nd_load_8(v8.b) == 1) goto L22;
L21:;
    goto L28;
L22:;
    v117 = nd_load_64(v90);
    v118 = nd_load_64(v91);
    v119 = nd_load_64(v92);
    v121 = nd_load_64(v94);
    v122 = nd_load_64(v95);
    v123 = nd_load_8(v96);
    v126 = v43 - (v119 + nd_load_64(v93));
    v127 = v126 - v118;
    v128 = v43 - nd_load_64(v97);
    v129 = v127 - v117;
    v130 = (uint8_t)(nd_load_8(v89) & 7);
    v132 = (uint8_t)((v130 == 7) ? 5 : v130);
    nd_store_64(v9.b, v110);
    nd_store_64(v98, v128);
    nd_store_64(v99, v129);
    nd_store_64(v100, v117);
    nd_store_64(v101, v127);
    nd_store_64(v102, v118);
    nd_store_64(v103, v126);
    nd_store_64(v104, v119);
    nd_store_64(v105, v121);
    nd_store_64(v106, v122);
    nd_store_32(v107, (uint32_t)v132);
    nd_store_32(v108, (uint32_t)(uint8_t)(v123 & 1));
    if (v132 < 6) goto L24;
    nd_stop();
L24:;
    if (!((v117 == 2ULL) & (int)(v132 == 1))) { v150 = v109; goto L27; }
    v140 = (unsigned char *)((uintptr_t)v42 + (uintptr_t)v129);
    if (!((nd_load_8(v140) == 97) & (int)(nd_load_8(((unsigned char *)((uintptr_t)v140 + 1))) == 99))) { v150 = v109; goto L27; }
    nd_ndef_c_links_LinksRecordQuery_given(v10.b, v12.b, v9.b);
    nd_memcpy((v22 + (ptrdiff_t)(v109 * 40ULL)), v10.b, 40);
    v150 = v109 + 1ULL;
L27:;
    if (!(uint8_t)(v123 & 1)) { v109 = v150; v110 = v128; goto L19; }
L28:;
    v152 = 0U;
L29:;
    v153 = v152;
L30:;
    return v153;
}

static uint32_t nd_ndef_poster_icons(unsigned char *v1, uint64_t v2, unsigned char *v3, uint64_t v4, unsigned char *v5) {
    unsigned char *v11, *v14, *v31, *v32, *v33, *v55, *v56, *v57, *v58, *v59, *v60, *v61, *v87;
    uint8_t v16, v28, v42, v44, v46, v74, v81, v83;
    uint64_t v29, v34, v35, v43, v51, v53, v62, v63, v70, v72, v77, v78, v80, v92;
    uint32_t v94;
    ND_ROOM(120) v6, v7;
    ND_ROOM(88) v8;
    v11 = (unsigned char *)((uintptr_t)v1 + (uintptr_t)((v1 == (unsigned char *)0) ? 4096ULL : 0ULL));
    v14 = (unsigned char *)((uintptr_t)v3 + (uintptr_t)((v3 == (unsigned char *)0) ? 4096ULL : 0ULL));
    if (v2 > 4294967295ULL) { v94 = 3U; goto L23; }
    v16 = nd_ndef_nest_member_is_nested(0, 65535U, 1, v11, v2);
    if (v16) goto L6;
    nd_store_64(v8.b, 281470681874433ULL);
    nd_store_8((v8.b + 8), 1);
    nd_store_8((v8.b + 9), 1);
    nd_store_8((v8.b + 10), 0);
    nd_store_8((v8.b + 11), 1);
    nd_store_32((v8.b + 12), 0U);
    nd_store_32((v8.b + 16), 4294967295U);
    nd_memset((v8.b + 20), 0, 36);
    nd_store_32((v8.b + 56), 1U);
    nd_memset((v8.b + 60), 0, 20);
    nd_store_8((v8.b + 80), 23);
    nd_memset((v8.b + 81), 0, 7);
    v28 = nd_ndef_nest_nest_NestLanguage_fits(v8.b, v2, v2);
    if (!v28) goto L5;
    v29 = nd_ndef_nest_nest_NestLanguage_step_all(v8.b, v11, v2, v2, v2);
    if (v29 < v2) goto L5;
    goto L6;
L5:;
    v94 = 3U;
    goto L23;
L6:;
    v31 = v7.b + 8;
    v32 = v7.b + 96;
    v33 = v7.b + 112;
    v34 = 0ULL;
    v35 = 0ULL;
L7:;
    nd_memset(v7.b, 0, 120);
    if (v2 < v35) goto L9;
    nd_ndef_c_run_first_run(v7.b, ((unsigned char *)((uintptr_t)v11 + (uintptr_t)v35)), (v2 - v35));
    if (nd_load_8(v7.b) == 1) goto L10;
L9:;
    v53 = v34;
    goto L13;
L10:;
    v42 = nd_load_8(v32);
    v43 = nd_load_64(v33);
    v44 = (uint8_t)(nd_load_8(v31) & 7);
    v46 = (uint8_t)((v44 == 7) ? 5 : v44);
    if (v46 < 6) goto L12;
    nd_stop();
L12:;
    v51 = v34 + (uint64_t)(v46 == 2);
    if ((uint8_t)(v42 & 1)) { v53 = v51; goto L13; }
    v34 = v51;
    v35 = v2 - v43;
    goto L7;
L13:;
    nd_store_64(v5, v53);
    if (v4 < v53) { v94 = 2U; goto L23; }
    v55 = v6.b + 8;
    v56 = v6.b + 24;
    v57 = v6.b + 40;
    v58 = v6.b + 56;
    v59 = v6.b + 72;
    v60 = v6.b + 96;
    v61 = v6.b + 112;
    v62 = 0ULL;
    v63 = 0ULL;
L15:;
    nd_memset(v6.b, 0, 120);
    if (v2 < v63) goto L17;
    nd_ndef_c_run_first_run(v6.b, ((unsigned char *)((uintptr_t)v11 + (uintptr_t)v63)), (v2 - v63));
    if (nd_load_8(v6.b) == 1) goto L18;
L17:;
    v94 = 0U;
    goto L23;
L18:;
    v70 = nd_load_64(v56);
    v72 = nd_load_64(v58);
    v74 = nd_load_8(v60);
    v77 = v2 - (v72 + nd_load_64(v59));
    v78 = v2 - nd_load_64(v61);
    v80 = v77 - (nd_load_64(v57) + v70);
    v81 = (uint8_t)(nd_load_8(v55) & 7);
    v83 = (uint8_t)((v81 == 7) ? 5 : v81);
    if (v83 < 6) goto L20;
    nd_stop();
L20:;
    if (!(v83 == 2)) { v92 = v62; goto L22; }
    v87 = v14 + (ptrdiff_t)(v62 << 5);
    nd_store_64(v87, v80);
    nd_store_64((v87 + 8), v70);
    nd_store_64((v87 + 16), v77);
    nd_store_64((v87 + 24), v72);
    v92 = v62 + 1ULL;
L22:;
    if ((uint8_t)(v74 & 1)) { v94 = 0U; goto L23; }
    v62 = v92;
    v63 = v78;
    goto L15;
L23:;
    return v94;
}

static uint32_t nd_ndef_poster_titles(unsigned char *v1, uint64_t v2, unsigned char *v3, uint64_t v4, unsigned char *v5) {
    unsigned char *v11, *v14, *v31, *v32, *v33, *v34, *v35, *v36, *v37, *v73, *v74, *v75, *v76, *v77, *v78, *v79, *v105, *v119;
    uint8_t v16, v28, v50, v53, v55, v92, v97, v99, v109;
    uint64_t v29, v38, v39, v46, v47, v48, v49, v52, v69, v71, v80, v81, v88, v89, v90, v95, v96, v111, v116, v126;
    uint32_t v128;
    ND_ROOM(120) v6, v7;
    ND_ROOM(88) v8;
    v11 = (unsigned char *)((uintptr_t)v1 + (uintptr_t)((v1 == (unsigned char *)0) ? 4096ULL : 0ULL));
    v14 = (unsigned char *)((uintptr_t)v3 + (uintptr_t)((v3 == (unsigned char *)0) ? 4096ULL : 0ULL));
    if (v2 > 4294967295ULL) { v128 = 3U; goto L26; }
    v16 = nd_ndef_nest_member_is_nested(0, 65535U, 1, v11, v2);
    if (v16) goto L6;
    nd_store_64(v8.b, 281470681874433ULL);
    nd_store_8((v8.b + 8), 1);
    nd_store_8((v8.b + 9), 1);
    nd_store_8((v8.b + 10), 0);
    nd_store_8((v8.b + 11), 1);
    nd_store_32((v8.b + 12), 0U);
    nd_store_32((v8.b + 16), 4294967295U);
    nd_memset((v8.b + 20), 0, 36);
    nd_store_32((v8.b + 56), 1U);
    nd_memset((v8.b + 60), 0, 20);
    nd_store_8((v8.b + 80), 23);
    nd_memset((v8.b + 81), 0, 7);
    v28 = nd_ndef_nest_nest_NestLanguage_fits(v8.b, v2, v2);
    if (!v28) goto L5;
    v29 = nd_ndef_nest_nest_NestLanguage_step_all(v8.b, v11, v2, v2, v2);
    if (v29 < v2) goto L5;
    goto L6;
L5:;
    v128 = 3U;
    goto L26;
L6:;
    v31 = v7.b + 8;
    v32 = v7.b + 24;
    v33 = v7.b + 40;
    v34 = v7.b + 56;
    v35 = v7.b + 72;
    v36 = v7.b + 96;
    v37 = v7.b + 112;
    v38 = 0ULL;
    v39 = 0ULL;
L7:;
    nd_memset(v7.b, 0, 120);
    if (v2 < v39) goto L9;
    nd_ndef_c_run_first_run(v7.b, ((unsigned char *)((uintptr_t)v11 + (uintptr_t)v39)), (v2 - v39));
    if (nd_load_8(v7.b) == 1) goto L10;
L9:;
    v71 = v38;
    goto L15;
L10:;
    v46 = nd_load_64(v32);
    v47 = nd_load_64(v33);
    v48 = nd_load_64(v34);
    v49 = nd_load_64(v35);
    v50 = nd_load_8(v36);
    v52 = v2 - nd_load_64(v37);
    v53 = (uint8_t)(nd_load_8(v31) & 7);
    v55 = (uint8_t)((v53 == 7) ? 5 : v53);
    if (v55 < 6) goto L12;
    nd_stop();
L12:;
    if (!(uint8_t)((v55 == 1) ? (v46 == 1ULL) : 0)) { v69 = v38; goto L14; }
    v69 = v38 + (uint64_t)(nd_load_8(((unsigned char *)((uintptr_t)v11 + (uintptr_t)((v2 + (v47 ^ 18446744073709551615ULL)) - (v48 + v49))))) == 84);
L14:;
    if ((uint8_t)(v50 & 1)) { v71 = v69; goto L15; }
    v38 = v69;
    v39 = v52;
    goto L7;
L15:;
    nd_store_64(v5, v71);
    if (v4 < v71) { v128 = 2U; goto L26; }
    v73 = v6.b + 8;
    v74 = v6.b + 24;
    v75 = v6.b + 40;
    v76 = v6.b + 56;
    v77 = v6.b + 72;
    v78 = v6.b + 96;
    v79 = v6.b + 112;
    v80 = 0ULL;
    v81 = 0ULL;
L17:;
    nd_memset(v6.b, 0, 120);
    if (v2 < v81) goto L19;
    nd_ndef_c_run_first_run(v6.b, ((unsigned char *)((uintptr_t)v11 + (uintptr_t)v81)), (v2 - v81));
    if (nd_load_8(v6.b) == 1) goto L20;
L19:;
    v128 = 0U;
    goto L26;
L20:;
    v88 = nd_load_64(v74);
    v89 = nd_load_64(v75);
    v90 = nd_load_64(v76);
    v92 = nd_load_8(v78);
    v95 = v2 - (v90 + nd_load_64(v77));
    v96 = v2 - nd_load_64(v79);
    v97 = (uint8_t)(nd_load_8(v73) & 7);
    v99 = (uint8_t)((v97 == 7) ? 5 : v97);
    if (v99 < 6) goto L22;
    nd_stop();
L22:;
    if (!(uint8_t)((v99 == 1) ? (v88 == 1ULL) : 0)) { v126 = v80; goto L25; }
    v105 = (unsigned char *)((uintptr_t)v11 + (uintptr_t)v95);
    if (!(nd_load_8(((unsigned char *)((uintptr_t)v105 + (uintptr_t)(v89 ^ 18446744073709551615ULL)))) == 84)) { v126 = v80; goto L25; }
    v109 = nd_load_8(v105);
    v111 = (uint64_t)(uint8_t)(v109 & 63);
    v116 = v95 + 1ULL;
    v119 = v14 + (ptrdiff_t)(v80 * 40ULL);
    nd_store_64(v119, v116);
    nd_store_64((v119 + 8), v111);
    nd_store_64((v119 + 16), (v116 + v111));
    nd_store_64((v119 + 24), (v90 + (v111 ^ 18446744073709551615ULL)));
    nd_store_32((v119 + 32), (uint32_t)(uint8_t)(v109 >> 7));
    nd_store_32((v119 + 36), 0U);
    v126 = v80 + 1ULL;
L25:;
    if ((uint8_t)(v92 & 1)) { v128 = 0U; goto L26; }
    v80 = v126;
    v81 = v96;
    goto L17;
L26:;
    return v128;
}

static uint32_t nd_ndef_append(unsigned char *v1, unsigned char *v2, uint64_t v3, unsigned char *v4, uint64_t v5, unsigned char *v6, uint64_t v7, unsigned char *v8, unsigned char *v9, uint64_t v10, unsigned char *v11) {
    unsigned char *v16, *v19, *v22, *v25, *v67, *v68, *v93, *v96, *v115, *v124, *v137, *v150, *v161, *v162, *v163, *v164, *v165, *v169, *v188, *v200;
    uint32_t v27, v31, v54, v113, v181, v201, v205;
    uint8_t v30, v33, v52, v62, v64, v65, v66, v97, v171, v173;
    uint64_t v34, v57, v58, v60, v61, v72, v73, v74, v75, v76, v77, v78, v79, v83, v84, v86, v87, v116, v118, v119, v122, v129, v133, v135, v142, v146, v148, v155, v159, v166, v167, v168, v170, v182, v183, v186, v193, v197;
    ND_ROOM(7) v12, v13;
    v16 = (unsigned char *)((uintptr_t)v2 + (uintptr_t)((v2 == (unsigned char *)0) ? 4096ULL : 0ULL));
    v19 = (unsigned char *)((uintptr_t)v4 + (uintptr_t)((v4 == (unsigned char *)0) ? 4096ULL : 0ULL));
    v22 = (unsigned char *)((uintptr_t)v6 + (uintptr_t)((v6 == (unsigned char *)0) ? 4096ULL : 0ULL));
    v25 = (unsigned char *)((uintptr_t)v9 + (uintptr_t)((v9 == (unsigned char *)0) ? 4096ULL : 0ULL));
    v27 = nd_load_32(((unsigned char *)((uintptr_t)v8 + 4)));
    if (!((v27 & 4294967291U) == 0U)) { v205 = 3U; goto L45; }
    v30 = nd_ndef_c_building_may_grow(v25, v10, v1);
    if (!v30) { v205 = 3U; goto L45; }
    v31 = nd_load_32(v8);
    v33 = (uint8_t)v31;
    if (v31 > 5U) { v205 = 3U; goto L45; }
    switch (v33) {
    case 0: goto L4;
    case 1: goto L7;
    case 2: goto L7;
    case 3: goto L7;
    case 4: goto L7;
    case 5: goto L5;
    default: goto L6; }
L4:;
    v34 = v5 | v3;
    if ((v7 < 4294967296ULL) & (int)((v34 < 256ULL) & (int)((v7 | v34) == 0ULL))) goto L8;
    v205 = 3U;
    goto L45;
L5:;
    if (((v3 == 0ULL) & (int)(v5 < 256ULL)) & (int)(v7 < 4294967296ULL)) goto L8;
    v205 = 3U;
    goto L45;
L6:;
    nd_stop();
L7:;
    if (!((((v3 + 18446744073709551615ULL) < 255ULL) & (int)(v5 < 256ULL)) & (int)(v7 < 4294967296ULL))) { v205 = 3U; goto L45; }
L8:;
    v52 = v27 < 4U;
    v54 = nd_load_32(((unsigned char *)((uintptr_t)v8 + 8)));
    v57 = (uint64_t)((v54 == 0U) ? 4294967295U : v54);
    v58 = nd_load_64(v1);
    v60 = nd_umin_i64(v57, v7);
    v61 = v7 - v60;
    v62 = v61 == 0ULL;
    v64 = v52 & (int)(v60 < 256ULL);
    v65 = v5 != 0ULL;
    v66 = (uint8_t)((v58 == 0ULL) ? 128 : 0);
    v67 = v12.b + 3;
    v68 = v12.b + 6;
    v72 = nd_uadd_sat_i64(((v64 ? 3ULL : 6ULL) + (uint64_t)v65), v58);
    v73 = nd_uadd_sat_i64(v3, v72);
    v74 = nd_uadd_sat_i64(v5, v73);
    v75 = nd_uadd_sat_i64(v60, v74);
    if (v62) { v86 = v75; v87 = v58; goto L10; }
    v76 = v61;
    v77 = v75;
L9:;
    v78 = nd_umin_i64(v57, v76);
    v79 = v76 - v78;
    v83 = nd_uadd_sat_i64(((v52 & (int)(v78 < 256ULL)) ? 3ULL : 6ULL), v77);
    v84 = nd_uadd_sat_i64(v78, v83);
    if (v79 == 0ULL) { v86 = v84; v87 = v77; goto L10; }
    v76 = v79;
    v77 = v84;
    goto L9;
L10:;
    nd_store_64(v11, v86);
    if (v10 < v86) { v205 = 2U; goto L45; }
    if (nd_load_64(v1) == 0ULL) goto L13;
    v93 = v25 + (ptrdiff_t)nd_load_64(((unsigned char *)((uintptr_t)v1 + 8)));
    nd_store_8(v93, (uint8_t)(nd_load_8(v93) + 192));
L13:;
    v96 = (unsigned char *)((uintptr_t)v22 + (uintptr_t)v60);
    v97 = (uint8_t)v5;
    nd_memset((v12.b + 2), 0, 5);
    nd_store_8(v12.b, (uint8_t)((uint8_t)((uint8_t)((uint8_t)((uint8_t)((uint8_t)(v65 ? 8 : 0) | v66) | (uint8_t)(v64 ? 16 : 0)) | (uint8_t)(v62 ? 0 : 32)) | (uint8_t)(v62 ? 64 : 0)) | v33));
    nd_store_8((v12.b + 1), (uint8_t)v3);
    if (!v64) goto L15;
    nd_store_8((v12.b + 2), (uint8_t)v60);
    v115 = v67;
    v116 = 3ULL;
    goto L16;
L15:;
    v113 = nd_bswap_i32((uint32_t)v60);
    nd_store_32((v12.b + 2), v113);
    v115 = v68;
    v116 = 6ULL;
L16:;
    if (!v65) { v118 = v116; goto L18; }
    nd_store_8(v115, v97);
    v118 = v116 + 1ULL;
L18:;
    v119 = nd_uadd_sat_i64(v118, v58);
    if (v119 > v10) goto L20;
    nd_copy(((unsigned char *)((uintptr_t)v25 + (uintptr_t)v58)), v12.b, v118);
L20:;
    v122 = nd_uadd_sat_i64(v3, v119);
    if (v122 > v10) goto L24;
    v124 = (unsigned char *)((uintptr_t)v25 + (uintptr_t)v119);
    if (((uint64_t)(uintptr_t)v124 - (uint64_t)(uintptr_t)v16) < v3) { v129 = 0ULL; goto L23; }
    nd_move(v124, v16, v3);
    goto L24;
L23:;
    nd_store_8((v124 + (ptrdiff_t)v129), nd_load_8((v16 + (ptrdiff_t)v129)));
    v133 = v129 + 1ULL;
    if (!(v133 == v3)) { v129 = v133; goto L23; }
L24:;
    v135 = nd_uadd_sat_i64(v5, v122);
    if (v135 > v10) goto L28;
    v137 = (unsigned char *)((uintptr_t)v25 + (uintptr_t)v122);
    if (((uint64_t)(uintptr_t)v137 - (uint64_t)(uintptr_t)v19) < v5) { v142 = 0ULL; goto L27; }
    nd_move(v137, v19, v5);
    goto L28;
L27:;
    nd_store_8((v137 + (ptrdiff_t)v142), nd_load_8((v19 + (ptrdiff_t)v142)));
    v146 = v142 + 1ULL;
    if (!(v146 == v5)) { v142 = v146; goto L27; }
L28:;
    v148 = nd_uadd_sat_i64(v60, v135);
    if (v148 > v10) goto L32;
    v150 = (unsigned char *)((uintptr_t)v25 + (uintptr_t)v135);
    if (((uint64_t)(uintptr_t)v150 - (uint64_t)(uintptr_t)v22) < v60) { v155 = 0ULL; goto L31; }
    nd_move(v150, v22, v60);
    goto L32;
L31:;
    nd_store_8((v150 + (ptrdiff_t)v155), nd_load_8((v22 + (ptrdiff_t)v155)));
    v159 = v155 + 1ULL;
    if (!(v159 == v60)) { v155 = v159; goto L31; }
L32:;
    if (v62) goto L44;
    v161 = v13.b + 2;
    v162 = v13.b + 1;
    v163 = v13.b + 2;
    v164 = v13.b + 2;
    v165 = v96;
    v166 = v61;
    v167 = v148;
L34:;
    v168 = nd_umin_i64(v57, v166);
    v169 = (unsigned char *)((uintptr_t)v165 + (uintptr_t)v168);
    v170 = v166 - v168;
    v171 = v170 == 0ULL;
    v173 = v52 & (int)(v168 < 256ULL);
    nd_memset(v161, 0, 5);
    nd_store_8(v13.b, (uint8_t)((uint8_t)((uint8_t)(v171 ? 6 : 38) | (uint8_t)(v173 ? 16 : 0)) | (uint8_t)(v171 ? 64 : 0)));
    nd_store_8(v162, 0);
    if (!v173) goto L36;
    nd_store_8(v164, (uint8_t)v168);
    v182 = 3ULL;
    goto L37;
L36:;
    v181 = nd_bswap_i32((uint32_t)v168);
    nd_store_32(v163, v181);
    v182 = 6ULL;
L37:;
    v183 = nd_uadd_sat_i64(v182, v167);
    if (v183 > v10) goto L39;
    nd_copy(((unsigned char *)((uintptr_t)v25 + (uintptr_t)v167)), v13.b, v182);
L39:;
    v186 = nd_uadd_sat_i64(v168, v183);
    if (v186 > v10) goto L43;
    v188 = (unsigned char *)((uintptr_t)v25 + (uintptr_t)v183);
    if (((uint64_t)(uintptr_t)v188 - (uint64_t)(uintptr_t)v165) < v168) { v193 = 0ULL; goto L42; }
    nd_move(v188, v165, v168);
    goto L43;
L42:;
    nd_store_8((v188 + (ptrdiff_t)v193), nd_load_8((v165 + (ptrdiff_t)v193)));
    v197 = v193 + 1ULL;
    if (!(v197 == v168)) { v193 = v197; goto L42; }
L43:;
    if (!v171) { v165 = v169; v166 = v170; v167 = v186; goto L34; }
L44:;
    v200 = (unsigned char *)((uintptr_t)v1 + 16);
    v201 = nd_load_32(v200);
    nd_store_64(v1, nd_load_64(v11));
    nd_store_64((v1 + 8), v87);
    nd_store_32(v200, (v201 + 1U));
    nd_store_32((v1 + 20), 0U);
    v205 = 0U;
L45:;
    return v205;
}

static uint32_t nd_ndef_write_record(unsigned char *v1, uint64_t v2, unsigned char *v3, uint64_t v4, unsigned char *v5, uint64_t v6, unsigned char *v7, unsigned char *v8, uint64_t v9, unsigned char *v10) {
    unsigned char *v15, *v18, *v21, *v24, *v28, *v29, *v59, *v105, *v112, *v125, *v138, *v149, *v150, *v151, *v152, *v153, *v157, *v177;
    uint32_t v25, v31, v53, v69, v103, v170, v188;
    uint8_t v27, v51, v57, v62, v63, v66, v67, v68, v70, v80, v159, v162;
    uint64_t v33, v56, v58, v60, v86, v87, v88, v89, v90, v94, v95, v97, v106, v108, v110, v117, v121, v123, v130, v134, v136, v143, v147, v154, v155, v156, v158, v171, v172, v175, v182, v186;
    ND_ROOM(7) v11, v12;
    v15 = (unsigned char *)((uintptr_t)v1 + (uintptr_t)((v1 == (unsigned char *)0) ? 4096ULL : 0ULL));
    v18 = (unsigned char *)((uintptr_t)v3 + (uintptr_t)((v3 == (unsigned char *)0) ? 4096ULL : 0ULL));
    v21 = (unsigned char *)((uintptr_t)v5 + (uintptr_t)((v5 == (unsigned char *)0) ? 4096ULL : 0ULL));
    v24 = (unsigned char *)((uintptr_t)v8 + (uintptr_t)((v8 == (unsigned char *)0) ? 4096ULL : 0ULL));
    v25 = nd_load_32(v7);
    v27 = (uint8_t)v25;
    v28 = v11.b + 3;
    v29 = v11.b + 6;
    if (!(v25 < 6U)) { v188 = 3U; goto L41; }
    v31 = nd_load_32(((unsigned char *)((uintptr_t)v7 + 4)));
    if (v31 > 7U) { v188 = 3U; goto L41; }
    switch (v27) {
    case 0: goto L3;
    case 1: goto L6;
    case 2: goto L6;
    case 3: goto L6;
    case 4: goto L6;
    case 5: goto L4;
    default: goto L5; }
L3:;
    v33 = v4 | v2;
    if ((v6 < 4294967296ULL) & (int)((v33 < 256ULL) & (int)((v6 | v33) == 0ULL))) goto L7;
    v188 = 3U;
    goto L41;
L4:;
    if (((v2 == 0ULL) & (int)(v4 < 256ULL)) & (int)(v6 < 4294967296ULL)) goto L7;
    v188 = 3U;
    goto L41;
L5:;
    nd_stop();
L6:;
    if (!((((v2 + 18446744073709551615ULL) < 255ULL) & (int)(v4 < 256ULL)) & (int)(v6 < 4294967296ULL))) { v188 = 3U; goto L41; }
L7:;
    v51 = v31 < 4U;
    v53 = nd_load_32(((unsigned char *)((uintptr_t)v7 + 8)));
    v56 = (uint64_t)((v53 == 0U) ? 4294967295U : v53);
    v57 = (uint8_t)v31;
    v58 = nd_umin_i64(v56, v6);
    v59 = (unsigned char *)((uintptr_t)v21 + (uintptr_t)v58);
    v60 = v6 - v58;
    v62 = (uint8_t)(v57 & 2) != 0;
    v63 = v60 == 0ULL;
    v66 = v51 & (int)(v58 < 256ULL);
    v67 = v4 != 0ULL;
    v68 = (uint8_t)v4;
    v69 = (uint32_t)v58;
    v70 = (uint8_t)v2;
    v80 = (uint8_t)((uint8_t)((uint8_t)((uint8_t)((uint8_t)((uint8_t)((v62 & v63) ? 64 : 0) | (uint8_t)((uint32_t)v57 << 7)) | (uint8_t)(v63 ? 0 : 32)) | (uint8_t)(v66 ? 16 : 0)) | (uint8_t)(v67 ? 8 : 0)) | v27);
    v86 = (((v4 + v2) + (uint64_t)v67) + v58) + (v66 ? 3ULL : 6ULL);
    if (v63) { v97 = v86; goto L9; }
    v87 = v60;
    v88 = v86;
L8:;
    v89 = nd_umin_i64(v56, v87);
    v90 = v87 - v89;
    v94 = nd_uadd_sat_i64(((v51 & (int)(v89 < 256ULL)) ? 3ULL : 6ULL), v88);
    v95 = nd_uadd_sat_i64(v89, v94);
    if (v90 == 0ULL) { v97 = v95; goto L9; }
    v87 = v90;
    v88 = v95;
    goto L8;
L9:;
    nd_store_64(v10, v97);
    if (v9 < v97) { v188 = 2U; goto L41; }
    nd_memset((v11.b + 2), 0, 5);
    nd_store_8(v11.b, v80);
    nd_store_8((v11.b + 1), v70);
    if (!v66) goto L12;
    nd_store_8((v11.b + 2), (uint8_t)v58);
    v105 = v28;
    v106 = 3ULL;
    goto L13;
L12:;
    v103 = nd_bswap_i32(v69);
    nd_store_32((v11.b + 2), v103);
    v105 = v29;
    v106 = 6ULL;
L13:;
    if (!v67) { v108 = v106; goto L15; }
    nd_store_8(v105, v68);
    v108 = v106 + 1ULL;
L15:;
    if (v108 > v9) goto L17;
    nd_copy(v24, v11.b, v108);
L17:;
    v110 = v108 + v2;
    if (v110 > v9) goto L21;
    v112 = (unsigned char *)((uintptr_t)v24 + (uintptr_t)v108);
    if (((uint64_t)(uintptr_t)v112 - (uint64_t)(uintptr_t)v15) < v2) { v117 = 0ULL; goto L20; }
    nd_move(v112, v15, v2);
    goto L21;
L20:;
    nd_store_8((v112 + (ptrdiff_t)v117), nd_load_8((v15 + (ptrdiff_t)v117)));
    v121 = v117 + 1ULL;
    if (!(v121 == v2)) { v117 = v121; goto L20; }
L21:;
    v123 = v110 + v4;
    if (v123 > v9) goto L25;
    v125 = (unsigned char *)((uintptr_t)v24 + (uintptr_t)v110);
    if (((uint64_t)(uintptr_t)v125 - (uint64_t)(uintptr_t)v18) < v4) { v130 = 0ULL; goto L24; }
    nd_move(v125, v18, v4);
    goto L25;
L24:;
    nd_store_8((v125 + (ptrdiff_t)v130), nd_load_8((v18 + (ptrdiff_t)v130)));
    v134 = v130 + 1ULL;
    if (!(v134 == v4)) { v130 = v134; goto L24; }
L25:;
    v136 = v123 + v58;
    if (v136 > v9) goto L29;
    v138 = (unsigned char *)((uintptr_t)v24 + (uintptr_t)v123);
    if (((uint64_t)(uintptr_t)v138 - (uint64_t)(uintptr_t)v21) < v58) { v143 = 0ULL; goto L28; }
    nd_move(v138, v21, v58);
    goto L29;
L28:;
    nd_store_8((v138 + (ptrdiff_t)v143), nd_load_8((v21 + (ptrdiff_t)v143)));
    v147 = v143 + 1ULL;
    if (!(v147 == v58)) { v143 = v147; goto L28; }
L29:;
    if (v63) { v188 = 0U; goto L41; }
    v149 = v12.b + 2;
    v150 = v12.b + 1;
    v151 = v12.b + 2;
    v152 = v12.b + 2;
    v153 = v59;
    v154 = v60;
    v155 = v136;
L31:;
    v156 = nd_umin_i64(v56, v154);
    v157 = (unsigned char *)((uintptr_t)v153 + (uintptr_t)v156);
    v158 = v154 - v156;
    v159 = v158 == 0ULL;
    v162 = v51 & (int)(v156 < 256ULL);
    nd_memset(v149, 0, 5);
    nd_store_8(v12.b, (uint8_t)((uint8_t)((uint8_t)(v159 ? 6 : 38) | (uint8_t)(v162 ? 16 : 0)) | (uint8_t)((v62 & v159) ? 64 : 0)));
    nd_store_8(v150, 0);
    if (!v162) goto L33;
    nd_store_8(v152, (uint8_t)v156);
    v171 = 3ULL;
    goto L34;
L33:;
    v170 = nd_bswap_i32((uint32_t)v156);
    nd_store_32(v151, v170);
    v171 = 6ULL;
L34:;
    v172 = nd_uadd_sat_i64(v171, v155);
    if (v172 > v9) goto L36;
    nd_copy(((unsigned char *)((uintptr_t)v24 + (uintptr_t)v155)), v12.b, v171);
L36:;
    v175 = nd_uadd_sat_i64(v156, v172);
    if (v175 > v9) goto L40;
    v177 = (unsigned char *)((uintptr_t)v24 + (uintptr_t)v172);
    if (((uint64_t)(uintptr_t)v177 - (uint64_t)(uintptr_t)v153) < v156) { v182 = 0ULL; goto L39; }
    nd_move(v177, v153, v156);
    goto L40;
L39:;
    nd_store_8((v177 + (ptrdiff_t)v182), nd_load_8((v153 + (ptrdiff_t)v182)));
    v186 = v182 + 1ULL;
    if (!(v186 == v156)) { v182 = v186; goto L39; }
L40:;
    if (v159) { v188 = 0U; goto L41; }
    v153 = v157;
    v154 = v158;
    v155 = v175;
    goto L31;
L41:;
    return v188;
}

static uint32_t nd_ndef_writer_begin(unsigned char *v1, uint64_t v2, uint64_t v3, uint64_t v4, unsigned char *v5) {
    uint32_t v6, v34;
    v6 = nd_load_32(v5);
    if (!(v6 < 6U)) { v34 = 3U; goto L8; }
    if (nd_load_32(((unsigned char *)((uintptr_t)v5 + 4))) > 7U) { v34 = 3U; goto L8; }
    switch ((uint8_t)v6) {
    case 0: goto L3;
    case 1: goto L5;
    case 2: goto L5;
    case 3: goto L5;
    case 4: goto L5;
    case 5: goto L4;
    default: goto L6; }
L3:;
    if (((v3 | v2) | v4) == 0ULL) goto L7;
    v34 = 3U;
    goto L8;
L4:;
    if (((v2 == 0ULL) & (int)(v3 < 256ULL)) & (int)(v4 < 4294967296ULL)) goto L7;
    v34 = 3U;
    goto L8;
L5:;
    if ((((v2 + 18446744073709551615ULL) < 255ULL) & (int)(v3 < 256ULL)) & (int)(v4 < 4294967296ULL)) goto L7;
    v34 = 3U;
    goto L8;
L6:;
    nd_stop();
L7:;
    nd_memmove(v1, v5, 12);
    nd_store_32((v1 + 12), (uint32_t)v2);
    nd_store_32((v1 + 16), (uint32_t)v3);
    nd_store_32((v1 + 20), (uint32_t)v4);
    nd_store_32((v1 + 24), 0U);
    nd_store_32((v1 + 28), 0U);
    v34 = 0U;
L8:;
    return v34;
}

static uint32_t nd_ndef_writer_next(unsigned char *v1, unsigned char *v2, uint64_t v3, unsigned char *v4, uint64_t v5, unsigned char *v6, uint64_t v7, unsigned char *v8, uint64_t v9, unsigned char *v10) {
    unsigned char *v14, *v17, *v20, *v23, *v44, *v47, *v118, *v119, *v120, *v121, *v140, *v167, *v179, *v184, *v197, *v202, *v222;
    uint32_t v25, v28, v31, v33, v36, v40, v45, v48, v72, v74, v166, v250, v251, v253;
    uint64_t v26, v29, v32, v46, v49, v69, v70, v71, v78, v89, v96, v97, v98, v107, v108, v109, v124, v131, v133, v134, v135, v139, v141, v142, v143, v144, v145, v168, v170, v171, v175, v177, v178, v181, v183, v189, v193, v195, v196, v199, v201, v207, v211, v215, v216, v218, v219, v221, v227, v231, v234, v237, v241, v242, v243, v245, v246, v247, v252;
    uint8_t v38, v41, v42, v43, v81, v110, v122, v126, v127, v128, v129, v130, v146, v147, v149, v150, v151, v152, v153, v154, v155, v156, v157, v158;
    ND_ROOM(7) v11;
    v14 = (unsigned char *)((uintptr_t)v2 + (uintptr_t)((v2 == (unsigned char *)0) ? 4096ULL : 0ULL));
    v17 = (unsigned char *)((uintptr_t)v4 + (uintptr_t)((v4 == (unsigned char *)0) ? 4096ULL : 0ULL));
    v20 = (unsigned char *)((uintptr_t)v6 + (uintptr_t)((v6 == (unsigned char *)0) ? 4096ULL : 0ULL));
    v23 = (unsigned char *)((uintptr_t)v8 + (uintptr_t)((v8 == (unsigned char *)0) ? 4096ULL : 0ULL));
    v25 = nd_load_32(((unsigned char *)((uintptr_t)v1 + 12)));
    v26 = (uint64_t)v25;
    v28 = nd_load_32(((unsigned char *)((uintptr_t)v1 + 16)));
    v29 = (uint64_t)v28;
    v31 = nd_load_32(((unsigned char *)((uintptr_t)v1 + 20)));
    v32 = (uint64_t)v31;
    v33 = nd_load_32(v1);
    if (!(v33 < 6U)) { v253 = 3U; goto L47; }
    v36 = nd_load_32(((unsigned char *)((uintptr_t)v1 + 4)));
    if (v36 > 7U) { v253 = 3U; goto L47; }
    v38 = v36 > 3U;
    v40 = nd_load_32(((unsigned char *)((uintptr_t)v1 + 8)));
    v41 = v40 == 0U;
    v42 = (uint8_t)v36;
    v43 = (uint8_t)v33;
    v44 = (unsigned char *)((uintptr_t)v1 + 24);
    v45 = nd_load_32(v44);
    v46 = (uint64_t)v45;
    v47 = (unsigned char *)((uintptr_t)v1 + 28);
    v48 = nd_load_32(v47);
    v49 = (uint64_t)v48;
    switch (v43) {
    case 0: goto L3;
    case 1: goto L5;
    case 2: goto L5;
    case 3: goto L5;
    case 4: goto L5;
    case 5: goto L4;
    default: goto L6; }
L3:;
    if ((((v28 | v25) | v31) != 0U) | (int)(v31 < v45)) { v253 = 3U; goto L47; }
    v69 = 0ULL;
    v70 = 0ULL;
    v71 = 0ULL;
    goto L8;
L4:;
    if (((v25 != 0U) | (int)(v28 > 255U)) | (int)(v31 < v45)) { v253 = 3U; goto L47; }
    goto L7;
L5:;
    if ((((v25 + 4294967040U) < 4294967041U) | (int)(v28 > 255U)) | (int)(v31 < v45)) { v253 = 3U; goto L47; }
    goto L7;
L6:;
    nd_stop();
L7:;
    if ((v31 != 0U) & (int)(v45 == v31)) goto L12;
    v69 = v32;
    v70 = v29;
    v71 = v26;
L8:;
    v72 = v41 ? 4294967295U : v40;
    v74 = v45 % v72;
    v78 = nd_umin_i64((uint64_t)v72, ((v69 - v46) + (uint64_t)v74));
    v81 = v38 | (int)(v78 > 255ULL);
    if (!(v45 == v74)) goto L10;
    v89 = ((v71 + v70) + (uint64_t)(v70 != 0ULL)) + (v81 ? 6ULL : 3ULL);
    goto L11;
L10:;
    v89 = v81 ? 6ULL : 3ULL;
L11:;
    if ((uint8_t)((v74 == 0U) ? (v89 >= v49) : (v89 == v49))) goto L13;
    v253 = 3U;
    goto L47;
L12:;
    if (v48 == 0U) { v96 = v26; v97 = v29; v98 = v32; goto L14; }
    v253 = 3U;
    goto L47;
L13:;
    if (v69 == 0ULL) goto L15;
    v96 = v71;
    v97 = v70;
    v98 = v69;
L14:;
    v107 = v96;
    v108 = v97;
    v109 = v98;
    v110 = v98 == v46;
    goto L16;
L15:;
    v107 = v71;
    v108 = v70;
    v109 = 0ULL;
    v110 = (((v71 + v70) + (v38 ? 6ULL : 3ULL)) + (uint64_t)(v70 != 0ULL)) == v49;
L16:;
    if (((v3 != v107) | (int)(v5 != v108)) | (int)((v109 - v46) < v7)) { v253 = 3U; goto L47; }
    if (v9 == 0ULL) { v250 = v45; v251 = v48; v252 = 0ULL; goto L45; }
    v118 = v11.b + 3;
    v119 = v11.b + 6;
    v120 = v11.b + 2;
    v121 = v11.b + 1;
    v122 = v109 != 0ULL;
    v124 = (uint64_t)(v41 ? 4294967295U : v40);
    v126 = (uint8_t)((uint8_t)((uint32_t)v42 << 5) & 64);
    v127 = v5 == 0ULL;
    v128 = (uint8_t)v5;
    v129 = (uint8_t)v3;
    v130 = (uint8_t)((uint32_t)v42 << 7);
    v133 = 0ULL;
    v134 = v49;
    v135 = v46;
    goto L20;
L19:;
    v131 = v243 + v133;
    if (v131 < v9) { v133 = v131; v134 = v242; v135 = v241; goto L20; }
    v245 = v241;
    v246 = v242;
    v247 = v131;
    goto L44;
L20:;
    if (v122 & (int)(v135 == v109)) { v245 = v109; v246 = v134; v247 = v133; goto L44; }
    v139 = nd_umin_i64(v7, (v135 - v46));
    v140 = (unsigned char *)((uintptr_t)v20 + (uintptr_t)v139);
    v141 = v7 - v139;
    v142 = v135 % v124;
    v143 = v135 - v142;
    v144 = v109 - v143;
    v145 = nd_umin_i64(v124, v144);
    v146 = v144 > v124;
    v147 = v135 == v142;
    nd_memset(v120, 0, 5);
    v149 = v38 | (int)(v145 > 255ULL);
    v150 = (uint8_t)(v146 ? 0 : v126);
    v151 = (uint8_t)(v146 ? 32 : 0);
    v152 = (uint8_t)(v149 ? 0 : 16);
    if (!v147) { v153 = 0; v154 = 1; v155 = 0; v156 = 6; v157 = 0; v158 = 0; goto L24; }
    if (!v127) { v153 = v128; v154 = 0; v155 = v129; v156 = v43; v157 = v130; v158 = 8; goto L24; }
    v153 = 0;
    v154 = 1;
    v155 = v129;
    v156 = v43;
    v157 = v130;
    v158 = 0;
L24:;
    nd_store_8(v11.b, (uint8_t)((uint8_t)((uint8_t)((uint8_t)((uint8_t)(v151 | v152) | v150) + v156) + v157) + v158));
    nd_store_8(v121, v155);
    if (v149) goto L26;
    nd_store_8(v120, (uint8_t)v145);
    v167 = v118;
    v168 = 3ULL;
    goto L27;
L26:;
    v166 = nd_bswap_i32((uint32_t)v145);
    nd_store_32(v120, v166);
    v167 = v119;
    v168 = 6ULL;
L27:;
    if (v154) { v170 = v168; goto L29; }
    nd_store_8(v167, v153);
    v170 = v168 + 1ULL;
L29:;
    v171 = nd_umin_i64(v170, v134);
    v175 = nd_umin_i64((v9 - v133), (v170 - v171));
    nd_copy(((unsigned char *)((uintptr_t)v23 + (uintptr_t)v133)), ((unsigned char *)((uintptr_t)v11.b + (uintptr_t)v171)), v175);
    if (!v147) { v215 = v175; goto L37; }
    v177 = nd_usub_sat_i64(v134, v170);
    v178 = nd_umin_i64(v3, v177);
    v179 = (unsigned char *)((uintptr_t)v14 + (uintptr_t)v178);
    v181 = v175 + v133;
    v183 = nd_umin_i64((v9 - v181), (v3 - v178));
    v184 = (unsigned char *)((uintptr_t)v23 + (uintptr_t)v181);
    if (((uint64_t)(uintptr_t)v184 - (uint64_t)(uintptr_t)v179) < v183) { v189 = 0ULL; goto L32; }
    nd_move(v184, v179, v183);
    goto L33;
L32:;
    nd_store_8((v184 + (ptrdiff_t)v189), nd_load_8((v179 + (ptrdiff_t)v189)));
    v193 = v189 + 1ULL;
    if (!(v193 == v183)) { v189 = v193; goto L32; }
L33:;
    v195 = nd_usub_sat_i64(v177, v3);
    v196 = nd_umin_i64(v5, v195);
    v197 = (unsigned char *)((uintptr_t)v17 + (uintptr_t)v196);
    v199 = v183 + v181;
    v201 = nd_umin_i64((v9 - v199), (v5 - v196));
    v202 = (unsigned char *)((uintptr_t)v23 + (uintptr_t)v199);
    if (((uint64_t)(uintptr_t)v202 - (uint64_t)(uintptr_t)v197) < v201) { v207 = 0ULL; goto L35; }
    nd_move(v202, v197, v201);
    goto L36;
L35:;
    nd_store_8((v202 + (ptrdiff_t)v207), nd_load_8((v197 + (ptrdiff_t)v207)));
    v211 = v207 + 1ULL;
    if (!(v211 == v201)) { v207 = v211; goto L35; }
L36:;
    v215 = (v183 + v175) + v201;
L37:;
    v216 = v145 + v143;
    v218 = nd_umin_i64((v216 - v135), v141);
    v219 = v215 + v133;
    v221 = nd_umin_i64((v9 - v219), v218);
    v222 = (unsigned char *)((uintptr_t)v23 + (uintptr_t)v219);
    if (((uint64_t)(uintptr_t)v222 - (uint64_t)(uintptr_t)v140) < v221) { v227 = 0ULL; goto L38; }
    goto L40;
L38:;
    nd_store_8((v222 + (ptrdiff_t)v227), nd_load_8((v140 + (ptrdiff_t)v227)));
    v231 = v227 + 1ULL;
    if (!(v231 == v221)) { v227 = v231; goto L38; }
    v237 = v221 + v135;
    goto L42;
L40:;
    nd_move(v222, v140, v221);
    v234 = v221 + v135;
    if (!(v221 == 0ULL)) { v237 = v234; goto L42; }
    v241 = v234;
    v242 = v215 + v134;
    goto L43;
L42:;
    v241 = v237;
    v242 = (v237 == v216) ? 0ULL : (v215 + v134);
L43:;
    v243 = v221 + v215;
    if (v243 == 0ULL) { v245 = v135; v246 = v134; v247 = v133; goto L44; }
    goto L19;
L44:;
    v250 = (uint32_t)v245;
    v251 = (uint32_t)v246;
    v252 = v247;
L45:;
    if (v110) { v253 = 4U; goto L47; }
    nd_store_64(v10, v252);
    nd_store_32(v44, v250);
    nd_store_32(v47, v251);
    v253 = 0U;
L47:;
    return v253;
}

static uint32_t nd_ndef_fields(unsigned char *v1, uint64_t v2, unsigned char *v3, unsigned char *v4, uint64_t v5, unsigned char *v6, unsigned char *v7) {
    unsigned char *v18, *v21, *v68, *v69, *v70, *v71, *v81;
    uint32_t v23, v25, v27, v29, v55, v56, v57, v89, v90;
    uint64_t v51, v54, v61, v72, v74, v85, v88;
    uint8_t v75, v76;
    ND_ROOM(576) v8, v10, v12, v13;
    ND_ROOM(32) v9, v11, v15;
    ND_ROOM(16) v14;
    v18 = (unsigned char *)((uintptr_t)v1 + (uintptr_t)((v1 == (unsigned char *)0) ? 4096ULL : 0ULL));
    v21 = (unsigned char *)((uintptr_t)v4 + (uintptr_t)((v4 == (unsigned char *)0) ? 4096ULL : 0ULL));
    v23 = nd_load_32(((unsigned char *)((uintptr_t)v3 + 12)));
    if (v23 > 3U) { v90 = 3U; goto L39; }
    v25 = nd_load_32(v3);
    v27 = nd_load_32(((unsigned char *)((uintptr_t)v3 + 4)));
    v29 = nd_load_32(((unsigned char *)((uintptr_t)v3 + 8)));
    if (!(uint8_t)((((v25 != 0U) & (int)((v27 + 4294967295U) < 65535U)) & (int)((v29 + 4294967295U) < 65535U)) ? (v23 < 2U) : 0)) { v90 = 3U; goto L39; }
    nd_store_32(v14.b, v25);
    nd_store_32((v14.b + 4), v27);
    nd_store_32((v14.b + 8), v29);
    nd_store_8((v14.b + 12), (uint8_t)v23);
    nd_memset((v14.b + 13), 0, 3);
    nd_memset(v15.b, 0, 32);
    nd_ndef_message_message_viewing_view(v15.b, v18, v2, v14.b);
    if (!(nd_load_8(v15.b) == 0)) goto L4;
    v54 = nd_load_64((v15.b + 16));
    v55 = nd_load_32((v15.b + 24));
    v56 = 0U;
    v57 = 0U;
    goto L30;
L4:;
    v51 = nd_load_64((v15.b + 8));
    switch (nd_load_8((v15.b + 16))) {
    case 0: { v54 = v51; v55 = 0U; v56 = 1U; v57 = 1U; goto L30; }
    case 1: goto L5;
    case 2: goto L6;
    case 3: goto L7;
    case 4: goto L8;
    case 5: goto L9;
    case 6: goto L10;
    case 7: goto L11;
    case 8: goto L12;
    case 9: goto L13;
    case 10: goto L14;
    case 11: goto L15;
    case 12: goto L16;
    case 13: goto L17;
    case 14: goto L18;
    case 15: goto L19;
    case 16: goto L20;
    case 17: goto L21;
    case 18: goto L22;
    case 19: goto L23;
    case 20: goto L24;
    case 21: goto L25;
    case 22: goto L26;
    case 23: goto L27;
    case 24: goto L28;
    default: goto L29; }
L5:;
    v54 = v51;
    v55 = 0U;
    v56 = 2U;
    v57 = 1U;
    goto L30;
L6:;
    v54 = v51;
    v55 = 0U;
    v56 = 3U;
    v57 = 1U;
    goto L30;
L7:;
    v54 = v51;
    v55 = 0U;
    v56 = 4U;
    v57 = 1U;
    goto L30;
L8:;
    v54 = v51;
    v55 = 0U;
    v56 = 5U;
    v57 = 1U;
    goto L30;
L9:;
    v54 = v51;
    v55 = 0U;
    v56 = 6U;
    v57 = 1U;
    goto L30;
L10:;
    v54 = v51;
    v55 = 0U;
    v56 = 7U;
    v57 = 1U;
    goto L30;
L11:;
    v54 = v51;
    v55 = 0U;
    v56 = 8U;
    v57 = 1U;
    goto L30;
L12:;
    v54 = v51;
    v55 = 0U;
    v56 = 9U;
    v57 = 1U;
    goto L30;
L13:;
    v54 = v51;
    v55 = 0U;
    v56 = 10U;
    v57 = 1U;
    goto L30;
L14:;
    v54 = v51;
    v55 = 0U;
    v56 = 11U;
    v57 = 1U;
    goto L30;
L15:;
    v54 = v51;
    v55 = 0U;
    v56 = 12U;
    v57 = 1U;
    goto L30;
L16:;
    v54 = v51;
    v55 = 0U;
    v56 = 13U;
    v57 = 1U;
    goto L30;
L17:;
    v54 = v51;
    v55 = 0U;
    v56 = 14U;
    v57 = 1U;
    goto L30;
L18:;
    v54 = v51;
    v55 = 0U;
    v56 = 15U;
    v57 = 1U;
    goto L30;
L19:;
    v54 = v51;
    v55 = 0U;
    v56 = 16U;
    v57 = 1U;
    goto L30;
L20:;
    v54 = v51;
    v55 = 0U;
    v56 = 17U;
    v57 = 1U;
    goto L30;
L21:;
    v54 = v51;
    v55 = 0U;
    v56 = 18U;
    v57 = 1U;
    goto L30;
L22:;
    v54 = v51;
    v55 = 0U;
    v56 = 19U;
    v57 = 1U;
    goto L30;
L23:;
    v54 = v51;
    v55 = 0U;
    v56 = 20U;
    v57 = 1U;
    goto L30;
L24:;
    v54 = v51;
    v55 = 0U;
    v56 = 21U;
    v57 = 1U;
    goto L30;
L25:;
    v54 = v51;
    v55 = 0U;
    v56 = 22U;
    v57 = 1U;
    goto L30;
L26:;
    v54 = v51;
    v55 = 0U;
    v56 = 25U;
    v57 = 1U;
    goto L30;
L27:;
    v54 = v51;
    v55 = 0U;
    v56 = 23U;
    v57 = 1U;
    goto L30;
L28:;
    v54 = v51;
    v55 = 0U;
    v56 = 24U;
    v57 = 1U;
    goto L30;
L29:;
    nd_stop();
L30:;
    nd_store_64(v7, v54);
    nd_store_32((v7 + 8), v55);
    nd_store_32((v7 + 12), v56);
    nd_memset(v12.b, 0, 576);
    nd_memset(v13.b, 0, 576);
    if (!(v5 < v54)) goto L34;
    nd_ndef_fields_report_fields_before(v12.b, v18, v54);
    nd_memcpy(v10.b, v12.b, 576);
    v61 = 0ULL;
L32:;
    nd_ndef_fields_message_fields_FieldsIterator_next(v11.b, v10.b);
    if (nd_load_8(v11.b) == 1) { v61 = v61 + 1ULL; goto L32; }
    nd_store_64(v6, v61);
    if (v5 < v61) { v89 = 2U; goto L38; }
L34:;
    nd_ndef_fields_report_fields_before(v13.b, v18, v54);
    nd_memcpy(v8.b, v13.b, 576);
    nd_ndef_fields_message_fields_FieldsIterator_next(v9.b, v8.b);
    if (!(nd_load_8(v9.b) == 1)) { v88 = 0ULL; goto L37; }
    v68 = v9.b + 8;
    v69 = v9.b + 16;
    v70 = v9.b + 24;
    v71 = v9.b + 25;
    v72 = 0ULL;
L36:;
    v74 = nd_load_64(v69);
    v75 = nd_load_8(v70);
    v76 = nd_load_8(v71);
    v81 = v21 + (ptrdiff_t)(v72 * 24ULL);
    nd_store_64(v81, nd_load_64(v68));
    nd_store_64((v81 + 8), v74);
    nd_store_32((v81 + 16), (uint32_t)v75);
    nd_store_32((v81 + 20), ((uint32_t)v76 + 1U));
    v85 = v72 + 1ULL;
    nd_ndef_fields_message_fields_FieldsIterator_next(v9.b, v8.b);
    if (nd_load_8(v9.b) == 1) { v72 = v85; goto L36; }
    v88 = v85;
L37:;
    nd_store_64(v6, v88);
    v89 = v57;
L38:;
    v90 = v89;
L39:;
    return v90;
}

static uint32_t nd_ndef_payload_fields(uint32_t v1, unsigned char *v2, uint64_t v3, unsigned char *v4, uint64_t v5, unsigned char *v6, uint64_t v7, unsigned char *v8) {
    unsigned char *v17, *v20, *v23, *v55, *v56, *v57, *v58, *v68;
    uint8_t v30, v38, v39, v46, v62, v63;
    uint64_t v48, v59, v61, v72, v75;
    uint32_t v76, v77;
    ND_ROOM(576) v9, v11, v13, v14;
    ND_ROOM(32) v10, v12;
    v17 = (unsigned char *)((uintptr_t)v2 + (uintptr_t)((v2 == (unsigned char *)0) ? 4096ULL : 0ULL));
    v20 = (unsigned char *)((uintptr_t)v4 + (uintptr_t)((v4 == (unsigned char *)0) ? 4096ULL : 0ULL));
    v23 = (unsigned char *)((uintptr_t)v6 + (uintptr_t)((v6 == (unsigned char *)0) ? 4096ULL : 0ULL));
    if (!(v1 < 6U)) { v77 = 3U; goto L31; }
    if (!(v1 == 1U)) { v46 = 0; goto L22; }
    switch (v3) {
    case 0ULL: { v46 = 0; goto L22; }
    case 1ULL: goto L3;
    default: goto L8; }
L3:;
    switch (nd_load_8(v17)) {
    case 84: { v46 = 1; goto L22; }
    case 85: goto L4;
    case 115: goto L5;
    case 116: goto L6;
    default: goto L7; }
L4:;
    v46 = 2;
    goto L22;
L5:;
    v46 = 8;
    goto L22;
L6:;
    v46 = 9;
    goto L22;
L7:;
    v46 = 0;
    goto L22;
L8:;
    if (!(v3 < 3ULL)) goto L17;
    v30 = nd_load_8(((unsigned char *)((uintptr_t)v17 + 1)));
    switch (nd_load_8(v17)) {
    case 83: goto L10;
    case 72: goto L11;
    case 97: goto L14;
    case 99: goto L15;
    default: goto L16; }
L10:;
    if (v30 == 112) { v46 = 3; goto L22; }
    goto L16;
L11:;
    switch (v30) {
    case 114: { v46 = 4; goto L22; }
    case 115: goto L12;
    case 99: goto L13;
    default: goto L16; }
L12:;
    v46 = 5;
    goto L22;
L13:;
    v46 = 6;
    goto L22;
L14:;
    if (v30 == 99) { v46 = 10; goto L22; }
    goto L16;
L15:;
    if (v30 == 114) { v46 = 11; goto L22; }
L16:;
    v46 = 0;
    goto L22;
L17:;
    if (!(v3 == 3ULL)) { v46 = 0; goto L22; }
    v38 = nd_load_8(((unsigned char *)((uintptr_t)v17 + 1)));
    v39 = nd_load_8(((unsigned char *)((uintptr_t)v17 + 2)));
    switch (nd_load_8(v17)) {
    case 97: goto L19;
    case 101: goto L20;
    default: goto L21; }
L19:;
    if ((v38 == 99) & (int)(v39 == 116)) { v46 = 7; goto L22; }
    goto L21;
L20:;
    if ((v38 == 114) & (int)(v39 == 114)) { v46 = 12; goto L22; }
L21:;
    v46 = 0;
L22:;
    nd_memset(v13.b, 0, 576);
    nd_memset(v14.b, 0, 576);
    if (!(v7 < v5)) goto L26;
    nd_ndef_fields_report_payload_fields(v13.b, v46, v20, v5);
    nd_memcpy(v11.b, v13.b, 576);
    v48 = 0ULL;
L24:;
    nd_ndef_fields_message_fields_FieldsIterator_next(v12.b, v11.b);
    if (nd_load_8(v12.b) == 1) { v48 = v48 + 1ULL; goto L24; }
    nd_store_64(v8, v48);
    if (v7 < v48) { v76 = 2U; goto L30; }
L26:;
    nd_ndef_fields_report_payload_fields(v14.b, v46, v20, v5);
    nd_memcpy(v9.b, v14.b, 576);
    nd_ndef_fields_message_fields_FieldsIterator_next(v10.b, v9.b);
    if (!(nd_load_8(v10.b) == 1)) { v75 = 0ULL; goto L29; }
    v55 = v10.b + 8;
    v56 = v10.b + 16;
    v57 = v10.b + 24;
    v58 = v10.b + 25;
    v59 = 0ULL;
L28:;
    v61 = nd_load_64(v56);
    v62 = nd_load_8(v57);
    v63 = nd_load_8(v58);
    v68 = v23 + (ptrdiff_t)(v59 * 24ULL);
    nd_store_64(v68, nd_load_64(v55));
    nd_store_64((v68 + 8), v61);
    nd_store_32((v68 + 16), (uint32_t)v62);
    nd_store_32((v68 + 20), ((uint32_t)v63 + 1U));
    v72 = v59 + 1ULL;
    nd_ndef_fields_message_fields_FieldsIterator_next(v10.b, v9.b);
    if (nd_load_8(v10.b) == 1) { v59 = v72; goto L28; }
    v75 = v72;
L29:;
    nd_store_64(v8, v75);
    v76 = 0U;
L30:;
    v77 = v76;
L31:;
    return v77;
}

void ndef_default_limits(ndef_limits *out) {
    nd_ndef_default_limits((unsigned char *)out);
}

uint32_t ndef_field_name(uint32_t name, uint8_t *buffer, ndef_size capacity, ndef_size *count) {
    return nd_ndef_field_name(name, (unsigned char *)buffer, capacity, (unsigned char *)count);
}

uint32_t ndef_field_warning(uint32_t name, const uint8_t *octets, ndef_size octets_length, uint8_t *buffer, ndef_size capacity, ndef_size *count) {
    return nd_ndef_field_warning(name, (unsigned char *)octets, octets_length, (unsigned char *)buffer, capacity, (unsigned char *)count);
}

uint32_t ndef_uri_prefix(uint32_t code, uint8_t *buffer, ndef_size capacity, ndef_size *count) {
    return nd_ndef_uri_prefix(code, (unsigned char *)buffer, capacity, (unsigned char *)count);
}

uint32_t ndef_version(void) {
    return nd_ndef_version();
}

uint32_t ndef_write_action(uint32_t action, uint8_t *buffer, ndef_size capacity, ndef_size *count) {
    return nd_ndef_write_action(action, (unsigned char *)buffer, capacity, (unsigned char *)count);
}

uint32_t ndef_write_collision(uint32_t number, uint8_t *buffer, ndef_size capacity, ndef_size *count) {
    return nd_ndef_write_collision(number, (unsigned char *)buffer, capacity, (unsigned char *)count);
}

uint32_t ndef_write_size(uint32_t bytes, uint8_t *buffer, ndef_size capacity, ndef_size *count) {
    return nd_ndef_write_size(bytes, (unsigned char *)buffer, capacity, (unsigned char *)count);
}

uint32_t ndef_begin(const ndef_limits *limits, ndef_checker *checker) {
    return nd_ndef_begin((unsigned char *)limits, (unsigned char *)checker);
}

uint32_t ndef_write_carrier(uint32_t format, const uint8_t *type, ndef_size type_length, const uint8_t *data, ndef_size data_length, uint8_t *buffer, ndef_size capacity, ndef_size *count) {
    return nd_ndef_write_carrier(format, (unsigned char *)type, type_length, (unsigned char *)data, data_length, (unsigned char *)buffer, capacity, (unsigned char *)count);
}

uint32_t ndef_write_error(uint32_t reason, const uint8_t *data, ndef_size length, uint8_t *buffer, ndef_size capacity, ndef_size *count) {
    return nd_ndef_write_error(reason, (unsigned char *)data, length, (unsigned char *)buffer, capacity, (unsigned char *)count);
}

uint32_t ndef_write_error_number(uint32_t reason, uint32_t number, uint8_t *buffer, ndef_size capacity, ndef_size *count) {
    return nd_ndef_write_error_number(reason, number, (unsigned char *)buffer, capacity, (unsigned char *)count);
}

uint32_t ndef_write_handover(uint32_t handover, uint32_t major, uint32_t minor, const uint8_t *message, ndef_size length, uint8_t *buffer, ndef_size capacity, ndef_size *count) {
    return nd_ndef_write_handover(handover, major, minor, (unsigned char *)message, length, (unsigned char *)buffer, capacity, (unsigned char *)count);
}

uint32_t ndef_normalize(const uint8_t *bytes, ndef_size length, uint32_t flags, uint8_t *buffer, ndef_size capacity, ndef_size *count) {
    return nd_ndef_normalize((unsigned char *)bytes, length, flags, (unsigned char *)buffer, capacity, (unsigned char *)count);
}

uint32_t ndef_write_alternative(uint32_t power, const uint8_t *bytes, ndef_size length, const ndef_part *parts, ndef_size parts_count, uint8_t *buffer, ndef_size capacity, ndef_size *count) {
    return nd_ndef_write_alternative(power, (unsigned char *)bytes, length, (unsigned char *)parts, parts_count, (unsigned char *)buffer, capacity, (unsigned char *)count);
}

uint32_t ndef_write_uri(const uint8_t *uri, ndef_size length, uint8_t *buffer, ndef_size capacity, ndef_size *count) {
    return nd_ndef_write_uri((unsigned char *)uri, length, (unsigned char *)buffer, capacity, (unsigned char *)count);
}

uint32_t ndef_reason_name(uint32_t reason, uint8_t *buffer, ndef_size capacity, ndef_size *count) {
    return nd_ndef_reason_name(reason, (unsigned char *)buffer, capacity, (unsigned char *)count);
}

uint32_t ndef_reason_sentence(uint32_t reason, uint8_t *buffer, ndef_size capacity, ndef_size *count) {
    return nd_ndef_reason_sentence(reason, (unsigned char *)buffer, capacity, (unsigned char *)count);
}

uint32_t ndef_payload(const uint8_t *bytes, ndef_size length, ndef_size at, uint8_t *buffer, ndef_size capacity, ndef_size *count) {
    return nd_ndef_payload((unsigned char *)bytes, length, at, (unsigned char *)buffer, capacity, (unsigned char *)count);
}

uint32_t ndef_record_at(const uint8_t *bytes, ndef_size length, ndef_size at, ndef_record *out) {
    return nd_ndef_record_at((unsigned char *)bytes, length, at, (unsigned char *)out);
}

uint32_t ndef_reference(const uint8_t *payload, ndef_size length, ndef_size index, ndef_part *out) {
    return nd_ndef_reference((unsigned char *)payload, length, index, (unsigned char *)out);
}

uint32_t ndef_alternative(const uint8_t *payload, ndef_size length, ndef_alternative_parts *out, ndef_checked *refusal) {
    return nd_ndef_alternative((unsigned char *)payload, length, (unsigned char *)out, (unsigned char *)refusal);
}

uint32_t ndef_carrier(const uint8_t *payload, ndef_size length, ndef_carrier_parts *out, ndef_checked *refusal) {
    return nd_ndef_carrier((unsigned char *)payload, length, (unsigned char *)out, (unsigned char *)refusal);
}

uint32_t ndef_check(const uint8_t *bytes, ndef_size length, const ndef_limits *limits, ndef_checked *out) {
    return nd_ndef_check((unsigned char *)bytes, length, (unsigned char *)limits, (unsigned char *)out);
}

uint32_t ndef_feed(ndef_checker *checker, const uint8_t *bytes, ndef_size length, ndef_checked *out) {
    return nd_ndef_feed((unsigned char *)checker, (unsigned char *)bytes, length, (unsigned char *)out);
}

uint32_t ndef_uri(const uint8_t *payload, ndef_size length, uint32_t flags, uint8_t *buffer, ndef_size capacity, ndef_size *count, ndef_checked *refusal) {
    return nd_ndef_uri((unsigned char *)payload, length, flags, (unsigned char *)buffer, capacity, (unsigned char *)count, (unsigned char *)refusal);
}

uint32_t ndef_record_warning(const uint8_t *bytes, ndef_size length, ndef_size index, uint8_t *buffer, ndef_size capacity, ndef_size *count) {
    return nd_ndef_record_warning((unsigned char *)bytes, length, index, (unsigned char *)buffer, capacity, (unsigned char *)count);
}

uint32_t ndef_append_uri(ndef_message_builder *builder, const uint8_t *id, ndef_size id_length, const uint8_t *uri, ndef_size uri_length, uint8_t *buffer, ndef_size capacity, ndef_size *count) {
    return nd_ndef_append_uri((unsigned char *)builder, (unsigned char *)id, id_length, (unsigned char *)uri, uri_length, (unsigned char *)buffer, capacity, (unsigned char *)count);
}

uint32_t ndef_error(const uint8_t *payload, ndef_size length, ndef_error_parts *out, ndef_checked *refusal) {
    return nd_ndef_error((unsigned char *)payload, length, (unsigned char *)out, (unsigned char *)refusal);
}

uint32_t ndef_chunks(const uint8_t *bytes, ndef_size length, ndef_size at, ndef_part *parts, ndef_size capacity, ndef_size *count) {
    return nd_ndef_chunks((unsigned char *)bytes, length, at, (unsigned char *)parts, capacity, (unsigned char *)count);
}

uint32_t ndef_references(const uint8_t *payload, ndef_size length, ndef_part *parts, ndef_size capacity, ndef_size *count) {
    return nd_ndef_references((unsigned char *)payload, length, (unsigned char *)parts, capacity, (unsigned char *)count);
}

uint32_t ndef_append_text(ndef_message_builder *builder, const uint8_t *id, ndef_size id_length, const uint8_t *language, ndef_size language_length, const uint8_t *text, ndef_size text_length, uint32_t flags, uint8_t *buffer, ndef_size capacity, ndef_size *count) {
    return nd_ndef_append_text((unsigned char *)builder, (unsigned char *)id, id_length, (unsigned char *)language, language_length, (unsigned char *)text, text_length, flags, (unsigned char *)buffer, capacity, (unsigned char *)count);
}

uint32_t ndef_write_text(const uint8_t *language, ndef_size language_length, const uint8_t *text, ndef_size text_length, uint32_t flags, uint8_t *buffer, ndef_size capacity, ndef_size *count) {
    return nd_ndef_write_text((unsigned char *)language, language_length, (unsigned char *)text, text_length, flags, (unsigned char *)buffer, capacity, (unsigned char *)count);
}

uint32_t ndef_status_name(uint32_t status, uint8_t *buffer, ndef_size capacity, ndef_size *count) {
    return nd_ndef_status_name(status, (unsigned char *)buffer, capacity, (unsigned char *)count);
}

uint32_t ndef_check_layout(const uint8_t *payload, ndef_size length, const ndef_layout_field *fields, ndef_size fields_count, ndef_laid_out *out) {
    return nd_ndef_check_layout((unsigned char *)payload, length, (unsigned char *)fields, fields_count, (unsigned char *)out);
}

uint32_t ndef_kind(const uint8_t *bytes, ndef_size length, const ndef_record *record, uint32_t within) {
    return nd_ndef_kind((unsigned char *)bytes, length, (unsigned char *)record, within);
}

uint32_t ndef_find_id(const uint8_t *bytes, ndef_size length, ndef_size at, const uint8_t *id, ndef_size id_length, ndef_record *out) {
    return nd_ndef_find_id((unsigned char *)bytes, length, at, (unsigned char *)id, id_length, (unsigned char *)out);
}

uint32_t ndef_find_type(const uint8_t *bytes, ndef_size length, ndef_size at, uint32_t tnf, const uint8_t *type, ndef_size type_length, ndef_record *out) {
    return nd_ndef_find_type((unsigned char *)bytes, length, at, tnf, (unsigned char *)type, type_length, (unsigned char *)out);
}

uint32_t ndef_poster_media_type(const uint8_t *payload, ndef_size length, ndef_part *out) {
    return nd_ndef_poster_media_type((unsigned char *)payload, length, (unsigned char *)out);
}

uint32_t ndef_field_at(const uint8_t *bytes, ndef_size length, const ndef_limits *limits, ndef_size place, ndef_field *out, ndef_checked *refusal) {
    return nd_ndef_field_at((unsigned char *)bytes, length, (unsigned char *)limits, place, (unsigned char *)out, (unsigned char *)refusal);
}

uint32_t ndef_find_hint(const uint8_t *bytes, ndef_size length, const ndef_limits *limits, ndef_found *out) {
    return nd_ndef_find_hint((unsigned char *)bytes, length, (unsigned char *)limits, (unsigned char *)out);
}

uint32_t ndef_hint(const uint8_t *bytes, ndef_size length, const ndef_limits *limits, uint8_t *buffer, ndef_size capacity, ndef_size *count) {
    return nd_ndef_hint((unsigned char *)bytes, length, (unsigned char *)limits, (unsigned char *)buffer, capacity, (unsigned char *)count);
}

uint32_t ndef_next_field(const uint8_t *bytes, ndef_size length, const ndef_limits *limits, ndef_field *field, ndef_checked *refusal) {
    return nd_ndef_next_field((unsigned char *)bytes, length, (unsigned char *)limits, (unsigned char *)field, (unsigned char *)refusal);
}

uint32_t ndef_refusal_message(const uint8_t *bytes, ndef_size length, const ndef_limits *limits, uint8_t *buffer, ndef_size capacity, ndef_size *count) {
    return nd_ndef_refusal_message((unsigned char *)bytes, length, (unsigned char *)limits, (unsigned char *)buffer, capacity, (unsigned char *)count);
}

uint32_t ndef_text_in_utf8(const uint8_t *payload, ndef_size length, uint8_t *buffer, ndef_size capacity, ndef_size *count, ndef_checked *refusal) {
    return nd_ndef_text_in_utf8((unsigned char *)payload, length, (unsigned char *)buffer, capacity, (unsigned char *)count, (unsigned char *)refusal);
}

uint32_t ndef_split_uri(const uint8_t *payload, ndef_size length, uint32_t flags, ndef_uri_parts *out, ndef_checked *refusal) {
    return nd_ndef_split_uri((unsigned char *)payload, length, flags, (unsigned char *)out, (unsigned char *)refusal);
}

uint32_t ndef_write_poster(const uint8_t *bytes, ndef_size length, const ndef_poster_writing *how, const ndef_title_writing *titles, ndef_size titles_count, const ndef_icon_writing *icons, ndef_size icons_count, uint8_t *buffer, ndef_size capacity, ndef_size *count) {
    return nd_ndef_write_poster((unsigned char *)bytes, length, (unsigned char *)how, (unsigned char *)titles, titles_count, (unsigned char *)icons, icons_count, (unsigned char *)buffer, capacity, (unsigned char *)count);
}

uint32_t ndef_poster(const uint8_t *payload, ndef_size length, uint32_t flags, ndef_poster_parts *out, ndef_checked *refusal) {
    return nd_ndef_poster((unsigned char *)payload, length, flags, (unsigned char *)out, (unsigned char *)refusal);
}

uint32_t ndef_text(const uint8_t *payload, ndef_size length, ndef_text_parts *out, ndef_checked *refusal) {
    return nd_ndef_text((unsigned char *)payload, length, (unsigned char *)out, (unsigned char *)refusal);
}

uint32_t ndef_title(const uint8_t *payload, ndef_size length, const uint8_t *language, ndef_size language_length, ndef_text_parts *out) {
    return nd_ndef_title((unsigned char *)payload, length, (unsigned char *)language, language_length, (unsigned char *)out);
}

uint32_t ndef_items(const uint8_t *bytes, ndef_size length, const ndef_limits *limits, ndef_checked *out, ndef_item *items, ndef_size capacity) {
    return nd_ndef_items((unsigned char *)bytes, length, (unsigned char *)limits, (unsigned char *)out, (unsigned char *)items, capacity);
}

uint32_t ndef_write_request(uint32_t minor, uint32_t collision, const uint8_t *bytes, ndef_size length, const ndef_part *references, ndef_size references_count, const ndef_alternative_writing *alternatives, ndef_size alternatives_count, uint8_t *buffer, ndef_size capacity, ndef_size *count) {
    return nd_ndef_write_request(minor, collision, (unsigned char *)bytes, length, (unsigned char *)references, references_count, (unsigned char *)alternatives, alternatives_count, (unsigned char *)buffer, capacity, (unsigned char *)count);
}

uint32_t ndef_write_select(const ndef_select_writing *how, const uint8_t *bytes, ndef_size length, const ndef_part *references, ndef_size references_count, const ndef_alternative_writing *alternatives, ndef_size alternatives_count, uint8_t *buffer, ndef_size capacity, ndef_size *count) {
    return nd_ndef_write_select((unsigned char *)how, (unsigned char *)bytes, length, (unsigned char *)references, references_count, (unsigned char *)alternatives, alternatives_count, (unsigned char *)buffer, capacity, (unsigned char *)count);
}

uint32_t ndef_link_at(const uint8_t *bytes, ndef_size length, const uint8_t *payload, ndef_size payload_length, ndef_size index, ndef_link *out) {
    return nd_ndef_link_at((unsigned char *)bytes, length, (unsigned char *)payload, payload_length, index, (unsigned char *)out);
}

uint32_t ndef_request(const uint8_t *payload, ndef_size length, uint32_t flags, ndef_request_parts *out, ndef_checked *refusal) {
    return nd_ndef_request((unsigned char *)payload, length, flags, (unsigned char *)out, (unsigned char *)refusal);
}

uint32_t ndef_select(const uint8_t *payload, ndef_size length, uint32_t flags, ndef_select_parts *out, ndef_checked *refusal) {
    return nd_ndef_select((unsigned char *)payload, length, flags, (unsigned char *)out, (unsigned char *)refusal);
}

uint32_t ndef_links(const uint8_t *bytes, ndef_size length, const uint8_t *payload, ndef_size payload_length, ndef_link *links, ndef_size capacity, ndef_size *count) {
    return nd_ndef_links((unsigned char *)bytes, length, (unsigned char *)payload, payload_length, (unsigned char *)links, capacity, (unsigned char *)count);
}

uint32_t ndef_poster_icons(const uint8_t *payload, ndef_size length, ndef_icon *icons, ndef_size capacity, ndef_size *count) {
    return nd_ndef_poster_icons((unsigned char *)payload, length, (unsigned char *)icons, capacity, (unsigned char *)count);
}

uint32_t ndef_poster_titles(const uint8_t *payload, ndef_size length, ndef_text_parts *titles, ndef_size capacity, ndef_size *count) {
    return nd_ndef_poster_titles((unsigned char *)payload, length, (unsigned char *)titles, capacity, (unsigned char *)count);
}

uint32_t ndef_append(ndef_message_builder *builder, const uint8_t *type, ndef_size type_length, const uint8_t *id, ndef_size id_length, const uint8_t *payload, ndef_size payload_length, const ndef_writing *how, uint8_t *buffer, ndef_size capacity, ndef_size *count) {
    return nd_ndef_append((unsigned char *)builder, (unsigned char *)type, type_length, (unsigned char *)id, id_length, (unsigned char *)payload, payload_length, (unsigned char *)how, (unsigned char *)buffer, capacity, (unsigned char *)count);
}

uint32_t ndef_write_record(const uint8_t *type, ndef_size type_length, const uint8_t *id, ndef_size id_length, const uint8_t *payload, ndef_size payload_length, const ndef_writing *how, uint8_t *buffer, ndef_size capacity, ndef_size *count) {
    return nd_ndef_write_record((unsigned char *)type, type_length, (unsigned char *)id, id_length, (unsigned char *)payload, payload_length, (unsigned char *)how, (unsigned char *)buffer, capacity, (unsigned char *)count);
}

uint32_t ndef_writer_begin(ndef_writer *writer, ndef_size type_length, ndef_size id_length, ndef_size payload_length, const ndef_writing *how) {
    return nd_ndef_writer_begin((unsigned char *)writer, type_length, id_length, payload_length, (unsigned char *)how);
}

uint32_t ndef_writer_next(ndef_writer *writer, const uint8_t *type, ndef_size type_length, const uint8_t *id, ndef_size id_length, const uint8_t *part, ndef_size part_length, uint8_t *buffer, ndef_size capacity, ndef_size *count) {
    return nd_ndef_writer_next((unsigned char *)writer, (unsigned char *)type, type_length, (unsigned char *)id, id_length, (unsigned char *)part, part_length, (unsigned char *)buffer, capacity, (unsigned char *)count);
}

uint32_t ndef_fields(const uint8_t *bytes, ndef_size length, const ndef_limits *limits, ndef_field *fields, ndef_size capacity, ndef_size *count, ndef_checked *refusal) {
    return nd_ndef_fields((unsigned char *)bytes, length, (unsigned char *)limits, (unsigned char *)fields, capacity, (unsigned char *)count, (unsigned char *)refusal);
}

uint32_t ndef_payload_fields(uint32_t tnf, const uint8_t *type, ndef_size type_length, const uint8_t *payload, ndef_size length, ndef_field *fields, ndef_size capacity, ndef_size *count) {
    return nd_ndef_payload_fields(tnf, (unsigned char *)type, type_length, (unsigned char *)payload, length, (unsigned char *)fields, capacity, (unsigned char *)count);
}
