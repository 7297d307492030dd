/* The library of Simbegyor for C, in one file of C99: ndef.h documents its calls. Compile it with your program, with
 * ndef.h and ndef_names.h beside it; of the C library it needs memcpy, memmove and memset alone. ndef.c is the fast form of
 * the library, and ndef_small.c the small one: take one of the two.
 *
 * Made by `make amalgamation` of the crates with the hash 188c680bb25d45bb92cfa07375e241bb555f9df330aa84e7be0be6dd5e2229d8
 * (packaging/tree_hash prints that of a checkout). The crates are proved. This file is their LLVM module, optimised by
 * clang and translated by ports/translate.py: that is tested, and not proved.
 *
 * License: MIT or Apache-2.0, as the project's. */
#include "ndef.h"
#include <limits.h>
#include <stddef.h>
#include <stdint.h>

#if CHAR_BIT != 8
#error "ndef_small.c needs bytes of 8 bits"
#endif
#if defined(__BYTE_ORDER__) && defined(__ORDER_LITTLE_ENDIAN__)
#if __BYTE_ORDER__ != __ORDER_LITTLE_ENDIAN__
#error "ndef_small.c needs a little-endian machine"
#endif
#elif defined(__BIG_ENDIAN__) || defined(_BIG_ENDIAN) || defined(__ARMEB__) || defined(__MIPSEB__) || defined(__s390__)
#error "ndef_small.c needs a little-endian machine"
#endif

#if defined(__STDC_HOSTED__) && __STDC_HOSTED__ == 0
void *memcpy(void *to, const void *from, size_t size);
void *memmove(void *to, const void *from, size_t size);
void *memset(void *to, int octet, size_t size);
#else
#include <string.h>
#endif
/* By these names a compiler knows them even where it is told that there is no C library: most calls become a load or a store. */
#if defined(__GNUC__) && !defined(__TINYC__)
#define nd_memcpy __builtin_memcpy
#define nd_memmove __builtin_memmove
#define nd_memset __builtin_memset
#else
#define nd_memcpy memcpy
#define nd_memmove memmove
#define nd_memset memset
#endif

/* What the proofs say is never reached. */
#if defined(__GNUC__)
#define nd_stop() __builtin_trap()
#else
#define nd_stop() do { } while (1)
#endif

/* Memory of a call, aligned for a number of 64 bits. */
#define ND_ROOM(size) union { unsigned char b[size]; uint64_t a; }
/* A pointer in a constant: 8 bytes on every machine. */
#define ND_POINTER union { const unsigned char *p; uint64_t a; }

static uint8_t nd_load_8(const unsigned char *from) {
    uint8_t v;
    nd_memcpy(&v, from, sizeof v);
    return v;
}
static uint16_t nd_load_16(const unsigned char *from) {
    uint16_t v;
    nd_memcpy(&v, from, sizeof v);
    return v;
}
static uint32_t nd_load_32(const unsigned char *from) {
    uint32_t v;
    nd_memcpy(&v, from, sizeof v);
    return v;
}
static uint64_t nd_load_64(const unsigned char *from) {
    uint64_t v;
    nd_memcpy(&v, from, sizeof v);
    return v;
}
static void nd_store_8(unsigned char *to, uint8_t v) { nd_memcpy(to, &v, sizeof v); }
static void nd_store_16(unsigned char *to, uint16_t v) { nd_memcpy(to, &v, sizeof v); }
static void nd_store_32(unsigned char *to, uint32_t v) { nd_memcpy(to, &v, sizeof v); }
static void nd_store_64(unsigned char *to, uint64_t v) { nd_memcpy(to, &v, sizeof v); }
static uint32_t nd_umin_i32(uint32_t a, uint32_t b) { return a < b ? a : b; }
static uint64_t nd_umin_i64(uint64_t a, uint64_t b) { return a < b ? a : b; }
static uint64_t nd_umax_i64(uint64_t a, uint64_t b) { return a > b ? a : b; }
static uint32_t nd_usub_sat_i32(uint32_t a, uint32_t b) { return (uint32_t)(a > b ? a - b : 0); }
static uint64_t nd_usub_sat_i64(uint64_t a, uint64_t b) { return (uint64_t)(a > b ? a - b : 0); }
static uint64_t nd_uadd_sat_i64(uint64_t a, uint64_t b) {
    uint64_t sum = (uint64_t)(a + b);
    return sum < a ? (uint64_t)-1 : sum;
}
static uint64_t nd_cttz_i64(uint64_t v) {
    uint64_t count = 0;
    if (!v) return 64;
    while (!(v & 1)) { v >>= 1; count++; }
    return count;
}
static uint16_t nd_bswap_i16(uint16_t v) { return (uint16_t)(v << 8 | v >> 8); }
static uint32_t nd_bswap_i32(uint32_t v) {
    return v << 24 | (v & 0xFF00U) << 8 | (v >> 8 & 0xFF00U) | v >> 24;
}
#if UINTPTR_MAX == UINT64_MAX
static unsigned char *nd_load_ptr(const unsigned char *from) { unsigned char *p; nd_memcpy(&p, from, 8); return p; }
#else
static unsigned char *nd_load_ptr(const unsigned char *from) { return (unsigned char *)(uintptr_t)nd_load_64(from); }
#endif
#if defined(__GNUC__) && __GNUC__ >= 11
/* It reads no byte at the address, which may be that of memory to be written. */
__attribute__((access(none, 2))) static void nd_store_ptr(unsigned char *to, const unsigned char *p);
#endif
#if UINTPTR_MAX == UINT64_MAX
static void nd_store_ptr(unsigned char *to, const unsigned char *p) { nd_memcpy(to, &p, 8); }
#else
static void nd_store_ptr(unsigned char *to, const unsigned char *p) { nd_store_64(to, (uintptr_t)p); }
#endif
static void nd_move(unsigned char *to, const unsigned char *from, uint64_t size) {
    size_t count = (size_t)size;
    if (count - 1 < (size_t)PTRDIFF_MAX) nd_memmove(to, from, count);
}

struct nd_ptr_64 { unsigned char *f0; uint64_t f1; };
struct nd_8_8 { uint8_t f0; uint8_t f1; };
struct nd_32_32 { uint32_t f0; uint32_t f1; };
struct nd_64_64 { uint64_t f0; uint64_t f1; };
struct nd_8_64 { uint8_t f0; uint64_t f1; };

/* The header's structs have to be laid out as the module's are: numbers of 64 bits at multiples of 8 bytes. */
struct nd_layout { char c; ndef_size size; };
typedef char nd_layout_is_known[offsetof(struct nd_layout, size) == 8 && sizeof(struct nd_layout) == 16 ? 1 : -1];

static const unsigned char nd_data_static_0[6] = { 104, 101, 97, 100, 101, 114 };
static const unsigned char nd_data_static_1[11] = { 84, 89, 80, 69, 95, 76, 69, 78, 71, 84, 72 };
static const unsigned char nd_data_static_2[14] = { 80, 65, 89, 76, 79, 65, 68, 95, 76, 69, 78, 71, 84, 72 };
static const unsigned char nd_data_static_3[9] = { 73, 68, 95, 76, 69, 78, 71, 84, 72 };
static const unsigned char nd_data_static_4[4] = { 84, 89, 80, 69 };
static const unsigned char nd_data_static_5[2] = { 73, 68 };
static const unsigned char nd_data_static_6[7] = { 80, 65, 89, 76, 79, 65, 68 };
static const unsigned char nd_data_static_7[6] = { 115, 116, 97, 116, 117, 115 };
static const unsigned char nd_data_static_8[13] = { 108, 97, 110, 103, 117, 97, 103, 101, 32, 99, 111, 100, 101 };
static const unsigned char nd_data_static_9[15] = { 98, 121, 116, 101, 32, 111, 114, 100, 101, 114, 32, 109, 97, 114, 107 };
static const unsigned char nd_data_static_10[4] = { 116, 101, 120, 116 };
static const unsigned char nd_data_static_11[15] = { 105, 100, 101, 110, 116, 105, 102, 105, 101, 114, 32, 99, 111, 100, 101 };
static const unsigned char nd_data_static_12[3] = { 85, 82, 73 };
static const unsigned char nd_data_static_13[6] = { 97, 99, 116, 105, 111, 110 };
static const unsigned char nd_data_static_14[4] = { 115, 105, 122, 101 };
static const unsigned char nd_data_static_15[10] = { 109, 101, 100, 105, 97, 32, 116, 121, 112, 101 };
static const unsigned char nd_data_static_16[7] = { 118, 101, 114, 115, 105, 111, 110 };
static const unsigned char nd_data_static_17[13] = { 114, 97, 110, 100, 111, 109, 32, 110, 117, 109, 98, 101, 114 };
static const unsigned char nd_data_static_18[19] = { 99, 97, 114, 114, 105, 101, 114, 32, 112, 111, 119, 101, 114, 32, 115, 116, 97, 116, 101 };
static const unsigned char nd_data_static_19[29] = { 99, 97, 114, 114, 105, 101, 114, 32, 100, 97, 116, 97, 32, 114, 101, 102, 101, 114, 101, 110, 99, 101, 32, 108, 101, 110, 103, 116, 104 };
static const unsigned char nd_data_static_20[22] = { 99, 97, 114, 114, 105, 101, 114, 32, 100, 97, 116, 97, 32, 114, 101, 102, 101, 114, 101, 110, 99, 101 };
static const unsigned char nd_data_static_21[30] = { 97, 117, 120, 105, 108, 105, 97, 114, 121, 32, 100, 97, 116, 97, 32, 114, 101, 102, 101, 114, 101, 110, 99, 101, 32, 99, 111, 117, 110, 116 };
static const unsigned char nd_data_static_22[31] = { 97, 117, 120, 105, 108, 105, 97, 114, 121, 32, 100, 97, 116, 97, 32, 114, 101, 102, 101, 114, 101, 110, 99, 101, 32, 108, 101, 110, 103, 116, 104 };
static const unsigned char nd_data_static_23[24] = { 97, 117, 120, 105, 108, 105, 97, 114, 121, 32, 100, 97, 116, 97, 32, 114, 101, 102, 101, 114, 101, 110, 99, 101 };
static const unsigned char nd_data_static_24[8] = { 114, 101, 115, 101, 114, 118, 101, 100 };
static const unsigned char nd_data_static_25[12] = { 101, 114, 114, 111, 114, 32, 114, 101, 97, 115, 111, 110 };
static const unsigned char nd_data_static_26[10] = { 101, 114, 114, 111, 114, 32, 100, 97, 116, 97 };
static const unsigned char nd_data_static_27[19] = { 99, 97, 114, 114, 105, 101, 114, 32, 116, 121, 112, 101, 32, 102, 111, 114, 109, 97, 116 };
static const unsigned char nd_data_static_28[19] = { 99, 97, 114, 114, 105, 101, 114, 32, 116, 121, 112, 101, 32, 108, 101, 110, 103, 116, 104 };
static const unsigned char nd_data_static_29[12] = { 99, 97, 114, 114, 105, 101, 114, 32, 116, 121, 112, 101 };
static const unsigned char nd_data_static_30[12] = { 99, 97, 114, 114, 105, 101, 114, 32, 100, 97, 116, 97 };
static const unsigned char nd_data_static_31[20] = { 84, 104, 101, 32, 105, 100, 101, 110, 116, 105, 102, 105, 101, 114, 32, 99, 111, 100, 101, 32 };
static const unsigned char nd_data_static_32[62] = { 32, 105, 115, 32, 114, 101, 115, 101, 114, 118, 101, 100, 44, 32, 97, 110, 100, 32, 114, 101, 97, 100, 32, 97, 115, 32, 48, 58, 32, 119, 97, 115, 32, 116, 104, 101, 32, 105, 100, 101, 110, 116, 105, 102, 105, 101, 114, 32, 99, 111, 100, 101, 32, 108, 101, 102, 116, 32, 111, 117, 116, 63 };
static const unsigned char nd_data_static_33[11] = { 84, 104, 101, 32, 97, 99, 116, 105, 111, 110, 32 };
static const unsigned char nd_data_static_34[13] = { 32, 105, 115, 32, 114, 101, 115, 101, 114, 118, 101, 100, 46 };
static const unsigned char nd_data_static_35[17] = { 84, 104, 101, 32, 101, 114, 114, 111, 114, 32, 114, 101, 97, 115, 111, 110, 32 };
static const unsigned char nd_data_static_36[24] = { 84, 104, 101, 32, 99, 97, 114, 114, 105, 101, 114, 32, 116, 121, 112, 101, 32, 102, 111, 114, 109, 97, 116, 32 };
static const unsigned char nd_data_static_37[10] = { 84, 104, 101, 32, 111, 99, 116, 101, 116, 32 };
static const unsigned char nd_data_static_38[50] = { 32, 111, 102, 32, 116, 104, 101, 32, 99, 97, 114, 114, 105, 101, 114, 32, 112, 111, 119, 101, 114, 32, 115, 116, 97, 116, 101, 32, 104, 97, 115, 32, 114, 101, 115, 101, 114, 118, 101, 100, 32, 98, 105, 116, 115, 32, 115, 101, 116, 46 };
static const unsigned char nd_data_static_39[19] = { 84, 104, 101, 32, 112, 97, 121, 108, 111, 97, 100, 32, 108, 101, 110, 103, 116, 104, 32 };
static const unsigned char nd_data_static_40[59] = { 32, 102, 105, 116, 115, 32, 111, 110, 101, 32, 111, 99, 116, 101, 116, 32, 40, 83, 82, 41, 58, 32, 116, 104, 101, 32, 109, 101, 115, 115, 97, 103, 101, 32, 99, 111, 117, 108, 100, 32, 98, 101, 32, 51, 32, 98, 121, 116, 101, 115, 32, 115, 104, 111, 114, 116, 101, 114, 46 };
static const unsigned char nd_data_static_41[200] = { 48, 48, 48, 49, 48, 50, 48, 51, 48, 52, 48, 53, 48, 54, 48, 55, 48, 56, 48, 57, 49, 48, 49, 49, 49, 50, 49, 51, 49, 52, 49, 53, 49, 54, 49, 55, 49, 56, 49, 57, 50, 48, 50, 49, 50, 50, 50, 51, 50, 52, 50, 53, 50, 54, 50, 55, 50, 56, 50, 57, 51, 48, 51, 49, 51, 50, 51, 51, 51, 52, 51, 53, 51, 54, 51, 55, 51, 56, 51, 57, 52, 48, 52, 49, 52, 50, 52, 51, 52, 52, 52, 53, 52, 54, 52, 55, 52, 56, 52, 57,
    53, 48, 53, 49, 53, 50, 53, 51, 53, 52, 53, 53, 53, 54, 53, 55, 53, 56, 53, 57, 54, 48, 54, 49, 54, 50, 54, 51, 54, 52, 54, 53, 54, 54, 54, 55, 54, 56, 54, 57, 55, 48, 55, 49, 55, 50, 55, 51, 55, 52, 55, 53, 55, 54, 55, 55, 55, 56, 55, 57, 56, 48, 56, 49, 56, 50, 56, 51, 56, 52, 56, 53, 56, 54, 56, 55, 56, 56, 56, 57, 57, 48, 57, 49, 57, 50, 57, 51, 57, 52, 57, 53, 57, 54, 57, 55, 57, 56, 57, 57 };
static const unsigned char nd_data_static_42[32] = { 84, 104, 101, 32, 85, 82, 73, 32, 104, 97, 115, 32, 97, 32, 99, 111, 110, 116, 114, 111, 108, 32, 99, 104, 97, 114, 97, 99, 116, 101, 114, 46 };
static const unsigned char nd_data_static_43[76] = { 84, 104, 101, 32, 105, 100, 32, 105, 115, 32, 101, 109, 112, 116, 121, 58, 32, 119, 105, 116, 104, 111, 117, 116, 32, 73, 68, 95, 76, 69, 78, 71, 84, 72, 32, 40, 73, 76, 41, 32, 116, 104, 101, 32, 109, 101, 115, 115, 97, 103, 101, 32, 99, 111, 117, 108, 100, 32, 98, 101, 32, 49, 32, 98, 121, 116, 101, 32, 115, 104, 111, 114, 116, 101, 114, 46 };
static const unsigned char nd_data_static_44[88] = { 69, 118, 101, 114, 121, 32, 115, 101, 99, 111, 110, 100, 32, 111, 99, 116, 101, 116, 32, 111, 102, 32, 116, 104, 101, 32, 116, 101, 120, 116, 32, 105, 115, 32, 48, 58, 32, 105, 116, 32, 109, 97, 121, 32, 98, 101, 32, 108, 105, 116, 116, 108, 101, 45, 101, 110, 100, 105, 97, 110, 44, 32, 119, 105, 116, 104, 111, 117, 116, 32, 97, 32, 98, 121, 116, 101, 32, 111, 114, 100, 101, 114, 32, 109, 97, 114, 107, 46 };
static const unsigned char nd_data_static_45[31] = { 65, 110, 111, 116, 104, 101, 114, 32, 114, 101, 99, 111, 114, 100, 32, 104, 97, 115, 32, 116, 104, 101, 32, 115, 97, 109, 101, 32, 105, 100, 46 };
static const unsigned char nd_data_static_46[54] = { 84, 119, 111, 32, 116, 105, 116, 108, 101, 115, 32, 111, 102, 32, 116, 104, 101, 32, 115, 109, 97, 114, 116, 32, 112, 111, 115, 116, 101, 114, 32, 104, 97, 118, 101, 32, 116, 104, 101, 32, 115, 97, 109, 101, 32, 108, 97, 110, 103, 117, 97, 103, 101, 46 };
static const unsigned char nd_data_static_47[46] = { 84, 104, 101, 32, 114, 101, 113, 117, 101, 115, 116, 32, 104, 97, 115, 32, 110, 111, 32, 97, 108, 116, 101, 114, 110, 97, 116, 105, 118, 101, 32, 99, 97, 114, 114, 105, 101, 114, 32, 40, 96, 97, 99, 96, 41, 46 };
static const unsigned char nd_data_static_48[49] = { 84, 104, 101, 32, 114, 101, 113, 117, 101, 115, 116, 32, 104, 97, 115, 32, 97, 32, 115, 101, 99, 111, 110, 100, 32, 99, 111, 108, 108, 105, 115, 105, 111, 110, 32, 114, 101, 99, 111, 114, 100, 32, 40, 96, 99, 114, 96, 41, 46 };
static const unsigned char nd_data_static_49[76] = { 65, 32, 114, 101, 102, 101, 114, 101, 110, 99, 101, 32, 111, 102, 32, 97, 110, 32, 97, 108, 116, 101, 114, 110, 97, 116, 105, 118, 101, 32, 99, 97, 114, 114, 105, 101, 114, 32, 40, 96, 97, 99, 96, 41, 32, 105, 115, 32, 116, 111, 32, 110, 111, 32, 114, 101, 99, 111, 114, 100, 32, 111, 102, 32, 116, 104, 101, 32, 109, 101, 115, 115, 97, 103, 101, 46 };
static const unsigned char nd_data_static_50[1] = { 0 };
static const unsigned char nd_data_static_51[11] = { 104, 116, 116, 112, 58, 47, 47, 119, 119, 119, 46 };
static const unsigned char nd_data_static_52[12] = { 104, 116, 116, 112, 115, 58, 47, 47, 119, 119, 119, 46 };
static const unsigned char nd_data_static_53[7] = { 104, 116, 116, 112, 58, 47, 47 };
static const unsigned char nd_data_static_54[8] = { 104, 116, 116, 112, 115, 58, 47, 47 };
static const unsigned char nd_data_static_55[4] = { 116, 101, 108, 58 };
static const unsigned char nd_data_static_56[7] = { 109, 97, 105, 108, 116, 111, 58 };
static const unsigned char nd_data_static_57[26] = { 102, 116, 112, 58, 47, 47, 97, 110, 111, 110, 121, 109, 111, 117, 115, 58, 97, 110, 111, 110, 121, 109, 111, 117, 115, 64 };
static const unsigned char nd_data_static_58[10] = { 102, 116, 112, 58, 47, 47, 102, 116, 112, 46 };
static const unsigned char nd_data_static_59[7] = { 102, 116, 112, 115, 58, 47, 47 };
static const unsigned char nd_data_static_60[7] = { 115, 102, 116, 112, 58, 47, 47 };
static const unsigned char nd_data_static_61[6] = { 115, 109, 98, 58, 47, 47 };
static const unsigned char nd_data_static_62[6] = { 110, 102, 115, 58, 47, 47 };
static const unsigned char nd_data_static_63[6] = { 102, 116, 112, 58, 47, 47 };
static const unsigned char nd_data_static_64[6] = { 100, 97, 118, 58, 47, 47 };
static const unsigned char nd_data_static_65[5] = { 110, 101, 119, 115, 58 };
static const unsigned char nd_data_static_66[9] = { 116, 101, 108, 110, 101, 116, 58, 47, 47 };
static const unsigned char nd_data_static_67[5] = { 105, 109, 97, 112, 58 };
static const unsigned char nd_data_static_68[7] = { 114, 116, 115, 112, 58, 47, 47 };
static const unsigned char nd_data_static_69[4] = { 117, 114, 110, 58 };
static const unsigned char nd_data_static_70[4] = { 112, 111, 112, 58 };
static const unsigned char nd_data_static_71[4] = { 115, 105, 112, 58 };
static const unsigned char nd_data_static_72[5] = { 115, 105, 112, 115, 58 };
static const unsigned char nd_data_static_73[5] = { 116, 102, 116, 112, 58 };
static const unsigned char nd_data_static_74[8] = { 98, 116, 115, 112, 112, 58, 47, 47 };
static const unsigned char nd_data_static_75[10] = { 98, 116, 108, 50, 99, 97, 112, 58, 47, 47 };
static const unsigned char nd_data_static_76[9] = { 98, 116, 103, 111, 101, 112, 58, 47, 47 };
static const unsigned char nd_data_static_77[10] = { 116, 99, 112, 111, 98, 101, 120, 58, 47, 47 };
static const unsigned char nd_data_static_78[11] = { 105, 114, 100, 97, 111, 98, 101, 120, 58, 47, 47 };
static const unsigned char nd_data_static_79[7] = { 102, 105, 108, 101, 58, 47, 47 };
static const unsigned char nd_data_static_80[11] = { 117, 114, 110, 58, 101, 112, 99, 58, 105, 100, 58 };
static const unsigned char nd_data_static_81[12] = { 117, 114, 110, 58, 101, 112, 99, 58, 116, 97, 103, 58 };
static const unsigned char nd_data_static_82[12] = { 117, 114, 110, 58, 101, 112, 99, 58, 112, 97, 116, 58 };
static const unsigned char nd_data_static_83[12] = { 117, 114, 110, 58, 101, 112, 99, 58, 114, 97, 119, 58 };
static const unsigned char nd_data_static_84[8] = { 117, 114, 110, 58, 101, 112, 99, 58 };
static const unsigned char nd_data_static_85[8] = { 117, 114, 110, 58, 110, 102, 99, 58 };
static const unsigned char nd_data_static_86[1] = { 2 };
static const unsigned char nd_data_static_88[2] = { 254, 255 };
static const unsigned char nd_data_static_89[11] = { 82, 101, 115, 101, 114, 118, 101, 100, 84, 110, 102 };
static const unsigned char nd_data_static_90[12] = { 66, 101, 103, 105, 110, 77, 105, 115, 115, 105, 110, 103 };
static const unsigned char nd_data_static_91[10] = { 66, 101, 103, 105, 110, 65, 103, 97, 105, 110 };
static const unsigned char nd_data_static_92[16] = { 85, 110, 99, 104, 97, 110, 103, 101, 100, 79, 117, 116, 115, 105, 100, 101 };
static const unsigned char nd_data_static_93[13] = { 67, 104, 97, 110, 103, 101, 100, 73, 110, 115, 105, 100, 101 };
static const unsigned char nd_data_static_94[8] = { 73, 100, 73, 110, 115, 105, 100, 101 };
static const unsigned char nd_data_static_95[10] = { 67, 104, 117, 110, 107, 65, 116, 69, 110, 100 };
static const unsigned char nd_data_static_96[12] = { 67, 104, 117, 110, 107, 79, 102, 69, 109, 112, 116, 121 };
static const unsigned char nd_data_static_97[13] = { 84, 111, 111, 77, 97, 110, 121, 80, 105, 101, 99, 101, 115 };
static const unsigned char nd_data_static_98[14] = { 84, 111, 111, 77, 97, 110, 121, 82, 101, 99, 111, 114, 100, 115 };
static const unsigned char nd_data_static_99[12] = { 84, 121, 112, 101, 78, 111, 116, 69, 109, 112, 116, 121 };
static const unsigned char nd_data_static_100[9] = { 84, 121, 112, 101, 69, 109, 112, 116, 121 };
static const unsigned char nd_data_static_101[13] = { 69, 109, 112, 116, 121, 78, 111, 116, 69, 109, 112, 116, 121 };
static const unsigned char nd_data_static_102[15] = { 80, 97, 121, 108, 111, 97, 100, 84, 111, 111, 76, 97, 114, 103, 101 };
static const unsigned char nd_data_static_103[7] = { 84, 101, 120, 116, 66, 105, 116 };
static const unsigned char nd_data_static_104[8] = { 76, 97, 110, 103, 117, 97, 103, 101 };
static const unsigned char nd_data_static_105[4] = { 85, 116, 102, 56 };
static const unsigned char nd_data_static_106[5] = { 85, 116, 102, 49, 54 };
static const unsigned char nd_data_static_107[7] = { 85, 114, 105, 67, 111, 100, 101 };
static const unsigned char nd_data_static_108[10] = { 85, 114, 105, 77, 105, 115, 115, 105, 110, 103 };
static const unsigned char nd_data_static_109[8] = { 85, 114, 105, 65, 103, 97, 105, 110 };
static const unsigned char nd_data_static_110[7] = { 86, 101, 114, 115, 105, 111, 110 };
static const unsigned char nd_data_static_111[16] = { 67, 111, 108, 108, 105, 115, 105, 111, 110, 77, 105, 115, 115, 105, 110, 103 };
static const unsigned char nd_data_static_112[10] = { 68, 111, 101, 115, 78, 111, 116, 70, 105, 116 };
static const unsigned char nd_data_static_113[10] = { 69, 110, 100, 79, 102, 73, 110, 112, 117, 116 };
static const unsigned char nd_data_static_114[35] = { 84, 104, 101, 32, 116, 121, 112, 101, 32, 110, 97, 109, 101, 32, 102, 111, 114, 109, 97, 116, 32, 55, 32, 105, 115, 32, 114, 101, 115, 101, 114, 118, 101, 100, 46 };
static const unsigned char nd_data_static_115[49] = { 84, 104, 101, 32, 102, 105, 114, 115, 116, 32, 114, 101, 99, 111, 114, 100, 32, 111, 102, 32, 97, 32, 109, 101, 115, 115, 97, 103, 101, 32, 104, 97, 115, 32, 116, 111, 32, 104, 97, 118, 101, 32, 77, 66, 32, 115, 101, 116, 46 };
static const unsigned char nd_data_static_116[46] = { 77, 66, 32, 105, 115, 32, 115, 101, 116, 32, 97, 103, 97, 105, 110, 44, 32, 116, 104, 111, 117, 103, 104, 32, 116, 104, 101, 32, 109, 101, 115, 115, 97, 103, 101, 32, 104, 97, 115, 32, 98, 101, 103, 117, 110, 46 };
static const unsigned char nd_data_static_117[70] = { 84, 104, 101, 32, 116, 121, 112, 101, 32, 110, 97, 109, 101, 32, 102, 111, 114, 109, 97, 116, 32, 54, 32, 40, 117, 110, 99, 104, 97, 110, 103, 101, 100, 41, 32, 109, 97, 121, 32, 111, 110, 108, 121, 32, 99, 111, 110, 116, 105, 110, 117, 101, 32, 97, 32, 99, 104, 117, 110, 107, 101, 100, 32, 114, 101, 99, 111, 114, 100, 46 };
static const unsigned char nd_data_static_118[65] = { 65, 32, 99, 104, 117, 110, 107, 101, 100, 32, 114, 101, 99, 111, 114, 100, 32, 103, 111, 101, 115, 32, 111, 110, 32, 119, 105, 116, 104, 32, 116, 104, 101, 32, 116, 121, 112, 101, 32, 110, 97, 109, 101, 32, 102, 111, 114, 109, 97, 116, 32, 54, 32, 40, 117, 110, 99, 104, 97, 110, 103, 101, 100, 41, 46 };
static const unsigned char nd_data_static_119[48] = { 79, 110, 108, 121, 32, 116, 104, 101, 32, 102, 105, 114, 115, 116, 32, 99, 104, 117, 110, 107, 32, 111, 102, 32, 97, 32, 114, 101, 99, 111, 114, 100, 32, 109, 97, 121, 32, 104, 97, 118, 101, 32, 97, 110, 32, 105, 100, 46 };
static const unsigned char nd_data_static_120[63] = { 84, 104, 101, 32, 108, 97, 115, 116, 32, 114, 101, 99, 111, 114, 100, 32, 111, 102, 32, 97, 32, 109, 101, 115, 115, 97, 103, 101, 32, 40, 77, 69, 41, 32, 104, 97, 115, 32, 116, 111, 32, 101, 110, 100, 58, 32, 67, 70, 32, 109, 117, 115, 116, 32, 98, 101, 32, 99, 108, 101, 97, 114, 46 };
static const unsigned char nd_data_static_121[34] = { 65, 110, 32, 101, 109, 112, 116, 121, 32, 114, 101, 99, 111, 114, 100, 32, 99, 97, 110, 110, 111, 116, 32, 98, 101, 32, 99, 104, 117, 110, 107, 101, 100, 46 };
static const unsigned char nd_data_static_122[69] = { 84, 104, 101, 32, 114, 101, 99, 111, 114, 100, 32, 104, 97, 115, 32, 109, 111, 114, 101, 32, 99, 104, 117, 110, 107, 115, 32, 116, 104, 97, 110, 32, 116, 104, 101, 32, 108, 105, 109, 105, 116, 32, 111, 114, 32, 97, 32, 110, 101, 115, 116, 101, 100, 32, 109, 101, 115, 115, 97, 103, 101, 32, 97, 108, 108, 111, 119, 115, 46 };
static const unsigned char nd_data_static_123[51] = { 84, 104, 101, 32, 109, 101, 115, 115, 97, 103, 101, 32, 104, 97, 115, 32, 109, 111, 114, 101, 32, 114, 101, 99, 111, 114, 100, 115, 32, 116, 104, 97, 110, 32, 116, 104, 101, 32, 108, 105, 109, 105, 116, 32, 97, 108, 108, 111, 119, 115, 46 };
static const unsigned char nd_data_static_124[59] = { 84, 104, 105, 115, 32, 116, 121, 112, 101, 32, 110, 97, 109, 101, 32, 102, 111, 114, 109, 97, 116, 32, 104, 97, 115, 32, 110, 111, 32, 116, 121, 112, 101, 58, 32, 84, 89, 80, 69, 95, 76, 69, 78, 71, 84, 72, 32, 104, 97, 115, 32, 116, 111, 32, 98, 101, 32, 48, 46 };
static const unsigned char nd_data_static_125[62] = { 84, 104, 105, 115, 32, 116, 121, 112, 101, 32, 110, 97, 109, 101, 32, 102, 111, 114, 109, 97, 116, 32, 110, 101, 101, 100, 115, 32, 97, 32, 116, 121, 112, 101, 58, 32, 84, 89, 80, 69, 95, 76, 69, 78, 71, 84, 72, 32, 109, 117, 115, 116, 32, 110, 111, 116, 32, 98, 101, 32, 48, 46 };
static const unsigned char nd_data_static_126[38] = { 65, 110, 32, 101, 109, 112, 116, 121, 32, 114, 101, 99, 111, 114, 100, 32, 104, 97, 115, 32, 111, 110, 108, 121, 32, 108, 101, 110, 103, 116, 104, 115, 32, 111, 102, 32, 48, 46 };
static const unsigned char nd_data_static_127[44] = { 84, 104, 101, 32, 112, 97, 121, 108, 111, 97, 100, 32, 105, 115, 32, 108, 111, 110, 103, 101, 114, 32, 116, 104, 97, 110, 32, 116, 104, 101, 32, 108, 105, 109, 105, 116, 32, 97, 108, 108, 111, 119, 115, 46 };
static const unsigned char nd_data_static_128[64] = { 66, 105, 116, 32, 54, 32, 111, 102, 32, 116, 104, 101, 32, 115, 116, 97, 116, 117, 115, 32, 111, 99, 116, 101, 116, 32, 111, 102, 32, 97, 32, 116, 101, 120, 116, 32, 105, 115, 32, 114, 101, 115, 101, 114, 118, 101, 100, 58, 32, 105, 116, 32, 104, 97, 115, 32, 116, 111, 32, 98, 101, 32, 48, 46 };
static const unsigned char nd_data_static_129[44] = { 84, 104, 101, 32, 108, 97, 110, 103, 117, 97, 103, 101, 32, 99, 111, 100, 101, 32, 111, 102, 32, 97, 32, 116, 101, 120, 116, 32, 104, 97, 115, 32, 116, 111, 32, 98, 101, 32, 65, 83, 67, 73, 73, 46 };
static const unsigned char nd_data_static_130[22] = { 84, 104, 101, 32, 116, 101, 120, 116, 32, 105, 115, 32, 110, 111, 116, 32, 85, 84, 70, 45, 56, 46 };
static const unsigned char nd_data_static_131[23] = { 84, 104, 101, 32, 116, 101, 120, 116, 32, 105, 115, 32, 110, 111, 116, 32, 85, 84, 70, 45, 49, 54, 46 };
static const unsigned char nd_data_static_132[66] = { 84, 104, 101, 32, 85, 82, 73, 32, 105, 100, 101, 110, 116, 105, 102, 105, 101, 114, 32, 99, 111, 100, 101, 115, 32, 102, 114, 111, 109, 32, 50, 52, 32, 116, 111, 32, 70, 70, 32, 40, 104, 101, 120, 97, 100, 101, 99, 105, 109, 97, 108, 41, 32, 97, 114, 101, 32, 114, 101, 115, 101, 114, 118, 101, 100, 46 };
static const unsigned char nd_data_static_133[40] = { 65, 32, 115, 109, 97, 114, 116, 32, 112, 111, 115, 116, 101, 114, 32, 104, 97, 115, 32, 116, 111, 32, 104, 97, 118, 101, 32, 97, 32, 85, 82, 73, 32, 114, 101, 99, 111, 114, 100, 46 };
static const unsigned char nd_data_static_134[39] = { 65, 32, 115, 109, 97, 114, 116, 32, 112, 111, 115, 116, 101, 114, 32, 104, 97, 115, 32, 111, 110, 108, 121, 32, 111, 110, 101, 32, 85, 82, 73, 32, 114, 101, 99, 111, 114, 100, 46 };
static const unsigned char nd_data_static_135[46] = { 84, 104, 101, 32, 104, 97, 110, 100, 111, 118, 101, 114, 32, 104, 97, 115, 32, 97, 110, 111, 116, 104, 101, 114, 32, 109, 97, 106, 111, 114, 32, 118, 101, 114, 115, 105, 111, 110, 32, 116, 104, 97, 110, 32, 49, 46 };
static const unsigned char nd_data_static_136[67] = { 65, 32, 104, 97, 110, 100, 111, 118, 101, 114, 32, 114, 101, 113, 117, 101, 115, 116, 32, 104, 97, 115, 32, 116, 111, 32, 98, 101, 103, 105, 110, 32, 119, 105, 116, 104, 32, 97, 32, 99, 111, 108, 108, 105, 115, 105, 111, 110, 32, 114, 101, 115, 111, 108, 117, 116, 105, 111, 110, 32, 114, 101, 99, 111, 114, 100, 46 };
static const unsigned char nd_data_static_137[66] = { 78, 111, 116, 104, 105, 110, 103, 32, 116, 104, 97, 116, 32, 99, 111, 117, 108, 100, 32, 102, 111, 108, 108, 111, 119, 32, 116, 104, 105, 115, 32, 98, 121, 116, 101, 32, 102, 105, 116, 115, 32, 116, 104, 101, 32, 108, 101, 110, 103, 116, 104, 115, 32, 103, 105, 118, 101, 110, 32, 115, 111, 32, 102, 97, 114, 46 };
static const unsigned char nd_data_static_138[32] = { 84, 104, 101, 32, 105, 110, 112, 117, 116, 32, 101, 110, 100, 115, 32, 119, 105, 116, 104, 105, 110, 32, 97, 32, 109, 101, 115, 115, 97, 103, 101, 46 };
static const unsigned char nd_data_static_139[1] = { 85 };
static const unsigned char nd_data_static_140[1] = { 84 };
static const unsigned char nd_data_static_141[2] = { 79, 107 };
static const unsigned char nd_data_static_142[7] = { 82, 101, 102, 117, 115, 101, 100 };
static const unsigned char nd_data_static_143[14] = { 66, 117, 102, 102, 101, 114, 84, 111, 111, 83, 109, 97, 108, 108 };
static const unsigned char nd_data_static_144[11] = { 66, 97, 100, 65, 114, 103, 117, 109, 101, 110, 116 };
static const unsigned char nd_data_static_145[3] = { 69, 110, 100 };
static const unsigned char nd_data_static_146[4] = { 77, 111, 114, 101 };
static const unsigned char nd_data_static_147[10] = { 48, 48, 48, 48, 48, 48, 48, 48, 58, 32 };
static const unsigned char nd_data_static_148[10] = { 48, 48, 48, 48, 48, 48, 48, 48, 32, 32 };
static const unsigned char nd_data_static_149[8] = { 48, 48, 48, 48, 48, 48, 48, 32 };
static const unsigned char nd_data_static_150[17] = { 70, 105, 108, 101, 116, 121, 112, 101, 58, 32, 70, 108, 105, 112, 112, 101, 114 };
static const unsigned char nd_data_static_151[3] = { 91, 61, 93 };
static const unsigned char nd_data_static_152[3] = { 91, 43, 93 };
static const unsigned char nd_data_static_153[5] = { 91, 117, 115, 98, 93 };
static const unsigned char nd_data_static_154[81] = { 70, 69, 32, 40, 104, 101, 120, 97, 100, 101, 99, 105, 109, 97, 108, 41, 32, 101, 110, 100, 115, 32, 116, 104, 101, 32, 84, 76, 86, 32, 98, 108, 111, 99, 107, 115, 32, 111, 102, 32, 97, 32, 116, 97, 103, 59, 32, 119, 104, 97, 116, 32, 99, 111, 109, 101, 115, 32, 97, 102, 116, 101, 114, 32, 105, 116, 32, 105, 115, 32, 110, 111, 32, 109, 101, 115, 115, 97, 103, 101, 46 };
static const unsigned char nd_data_static_155[67] = { 54, 56, 32, 40, 104, 101, 120, 97, 100, 101, 99, 105, 109, 97, 108, 41, 32, 105, 115, 32, 116, 104, 101, 32, 108, 101, 116, 116, 101, 114, 32, 104, 58, 32, 119, 97, 115, 32, 116, 104, 101, 32, 105, 100, 101, 110, 116, 105, 102, 105, 101, 114, 32, 99, 111, 100, 101, 32, 108, 101, 102, 116, 32, 111, 117, 116, 63 };
static const unsigned char nd_data_static_156[75] = { 84, 104, 101, 32, 115, 116, 97, 110, 100, 97, 114, 100, 32, 112, 114, 111, 102, 105, 108, 101, 32, 114, 101, 97, 100, 115, 32, 116, 104, 105, 115, 32, 40, 96, 45, 45, 112, 114, 111, 102, 105, 108, 101, 32, 115, 116, 97, 110, 100, 97, 114, 100, 96, 44, 32, 105, 110, 32, 67, 32, 78, 68, 69, 70, 95, 83, 84, 65, 78, 68, 65, 82, 68, 41, 46 };
static const unsigned char nd_data_static_157[49] = { 84, 104, 105, 115, 32, 116, 97, 103, 32, 105, 115, 32, 101, 109, 112, 116, 121, 58, 32, 105, 116, 32, 104, 97, 115, 32, 110, 111, 32, 98, 121, 116, 101, 115, 32, 102, 111, 114, 32, 97, 32, 109, 101, 115, 115, 97, 103, 101, 46 };
static const unsigned char nd_data_static_158[20] = { 65, 32, 109, 101, 115, 115, 97, 103, 101, 32, 111, 102, 32, 108, 101, 110, 103, 116, 104, 32 };
static const unsigned char nd_data_static_159[19] = { 32, 109, 97, 121, 32, 98, 101, 103, 105, 110, 32, 97, 116, 32, 98, 121, 116, 101, 32 };
static const unsigned char nd_data_static_160[12] = { 58, 32, 96, 116, 97, 105, 108, 32, 45, 99, 32, 43 };
static const unsigned char nd_data_static_161[25] = { 44, 32, 105, 110, 32, 97, 110, 32, 78, 68, 69, 70, 32, 84, 76, 86, 32, 111, 102, 32, 97, 32, 116, 97, 103 };
static const unsigned char nd_data_static_162[43] = { 44, 32, 97, 102, 116, 101, 114, 32, 116, 104, 101, 32, 97, 116, 116, 114, 105, 98, 117, 116, 101, 32, 98, 108, 111, 99, 107, 32, 111, 102, 32, 97, 32, 84, 121, 112, 101, 32, 51, 32, 84, 97, 103 };
static const unsigned char nd_data_static_163[48] = { 44, 32, 97, 102, 116, 101, 114, 32, 105, 116, 115, 32, 108, 101, 110, 103, 116, 104, 44, 32, 97, 115, 32, 105, 110, 32, 97, 32, 102, 105, 108, 101, 32, 111, 102, 32, 97, 32, 84, 121, 112, 101, 32, 52, 32, 84, 97, 103 };
static const unsigned char nd_data_static_164[11] = { 32, 124, 32, 104, 101, 97, 100, 32, 45, 99, 32 };
static const unsigned char nd_data_static_165[2] = { 96, 46 };
static const unsigned char nd_data_static_166[80] = { 84, 104, 101, 115, 101, 32, 97, 114, 101, 32, 104, 101, 120, 97, 100, 101, 99, 105, 109, 97, 108, 32, 100, 105, 103, 105, 116, 115, 44, 32, 110, 111, 116, 32, 116, 104, 101, 32, 98, 121, 116, 101, 115, 32, 116, 104, 97, 116, 32, 116, 104, 101, 121, 32, 115, 112, 101, 108, 108, 59, 32, 96, 45, 45, 104, 101, 120, 96, 32, 114, 101, 97, 100, 115, 32, 116, 104, 101, 109, 46 };
static const unsigned char nd_data_static_167[70] = { 84, 104, 105, 115, 32, 105, 115, 32, 97, 32, 100, 117, 109, 112, 32, 98, 121, 32, 120, 120, 100, 44, 32, 110, 111, 116, 32, 116, 104, 101, 32, 98, 121, 116, 101, 115, 32, 116, 104, 97, 116, 32, 105, 116, 32, 115, 112, 101, 108, 108, 115, 59, 32, 96, 45, 45, 104, 101, 120, 96, 32, 114, 101, 97, 100, 115, 32, 105, 116, 46 };
static const unsigned char nd_data_static_168[74] = { 84, 104, 105, 115, 32, 105, 115, 32, 97, 32, 100, 117, 109, 112, 32, 98, 121, 32, 104, 101, 120, 100, 117, 109, 112, 44, 32, 110, 111, 116, 32, 116, 104, 101, 32, 98, 121, 116, 101, 115, 32, 116, 104, 97, 116, 32, 105, 116, 32, 115, 112, 101, 108, 108, 115, 59, 32, 96, 45, 45, 104, 101, 120, 96, 32, 114, 101, 97, 100, 115, 32, 105, 116, 46 };
static const unsigned char nd_data_static_169[92] = { 84, 104, 105, 115, 32, 105, 115, 32, 97, 32, 100, 117, 109, 112, 32, 98, 121, 32, 111, 100, 32, 111, 114, 32, 104, 101, 120, 100, 117, 109, 112, 44, 32, 110, 111, 116, 32, 116, 104, 101, 32, 98, 121, 116, 101, 115, 59, 32, 96, 45, 45, 104, 101, 120, 96, 32, 114, 101, 97, 100, 115, 32, 116, 104, 111, 115, 101, 32, 111, 102, 32, 96, 104, 101, 120, 100, 117, 109, 112, 32, 45, 67, 96, 32, 97, 110, 100, 32, 120, 120, 100, 46 };
static const unsigned char nd_data_static_170[92] = { 84, 104, 105, 115, 32, 105, 115, 32, 97, 32, 102, 105, 108, 101, 32, 111, 102, 32, 97, 32, 70, 108, 105, 112, 112, 101, 114, 59, 32, 96, 45, 45, 104, 101, 120, 96, 32, 114, 101, 97, 100, 115, 32, 119, 104, 97, 116, 32, 96, 115, 101, 100, 32, 45, 110, 32, 39, 115, 47, 94, 80, 97, 103, 101, 32, 91, 48, 45, 57, 93, 42, 58, 32, 47, 47, 112, 39, 96, 32, 108, 101, 97, 118, 101, 115, 32, 111, 102, 32, 105, 116, 46 };
static const unsigned char nd_data_static_171[86] = { 84, 104, 105, 115, 32, 105, 115, 32, 119, 104, 97, 116, 32, 97, 32, 80, 114, 111, 120, 109, 97, 114, 107, 32, 112, 114, 105, 110, 116, 115, 44, 32, 110, 111, 116, 32, 116, 104, 101, 32, 98, 121, 116, 101, 115, 59, 32, 96, 45, 45, 104, 101, 120, 96, 32, 114, 101, 97, 100, 115, 32, 116, 104, 101, 32, 100, 105, 103, 105, 116, 115, 32, 111, 102, 32, 105, 116, 115, 32, 98, 108, 111, 99, 107, 115, 46 };
static const unsigned char nd_data_static_172[73] = { 84, 104, 105, 115, 32, 109, 97, 121, 32, 98, 101, 32, 98, 97, 115, 101, 54, 52, 44, 32, 110, 111, 116, 32, 116, 104, 101, 32, 98, 121, 116, 101, 115, 32, 116, 104, 97, 116, 32, 105, 116, 32, 115, 112, 101, 108, 108, 115, 59, 32, 96, 98, 97, 115, 101, 54, 52, 32, 45, 100, 96, 32, 103, 105, 118, 101, 115, 32, 116, 104, 101, 109, 46 };
static const unsigned char nd_data_static_173[85] = { 84, 104, 101, 32, 98, 121, 116, 101, 115, 32, 109, 97, 121, 32, 98, 101, 103, 105, 110, 32, 119, 105, 116, 104, 32, 119, 104, 97, 116, 32, 115, 117, 114, 114, 111, 117, 110, 100, 115, 32, 97, 32, 109, 101, 115, 115, 97, 103, 101, 32, 111, 110, 32, 97, 32, 116, 97, 103, 59, 32, 97, 32, 109, 101, 115, 115, 97, 103, 101, 32, 98, 101, 103, 105, 110, 115, 32, 97, 116, 32, 98, 121, 116, 101, 32 };
static const unsigned char nd_data_static_174[1] = { 46 };
static const unsigned char nd_data_static_175[45] = { 65, 32, 109, 101, 115, 115, 97, 103, 101, 32, 105, 115, 32, 109, 105, 115, 115, 105, 110, 103, 58, 32, 116, 104, 101, 32, 105, 110, 112, 117, 116, 32, 104, 97, 115, 32, 110, 111, 32, 98, 121, 116, 101, 115, 46 };
static const unsigned char nd_data_static_176[59] = { 65, 110, 111, 116, 104, 101, 114, 32, 114, 101, 99, 111, 114, 100, 32, 105, 115, 32, 109, 105, 115, 115, 105, 110, 103, 58, 32, 110, 111, 110, 101, 32, 111, 102, 32, 116, 104, 111, 115, 101, 32, 98, 101, 102, 111, 114, 101, 32, 104, 97, 115, 32, 77, 69, 32, 115, 101, 116, 46 };
static const unsigned char nd_data_static_177[64] = { 65, 110, 111, 116, 104, 101, 114, 32, 99, 104, 117, 110, 107, 32, 111, 102, 32, 116, 104, 101, 32, 114, 101, 99, 111, 114, 100, 32, 105, 115, 32, 109, 105, 115, 115, 105, 110, 103, 58, 32, 116, 104, 101, 32, 108, 97, 115, 116, 32, 111, 110, 101, 32, 104, 97, 115, 32, 67, 70, 32, 115, 101, 116, 46 };
static const unsigned char nd_data_static_178[47] = { 84, 104, 101, 32, 116, 101, 120, 116, 32, 105, 110, 32, 85, 84, 70, 45, 49, 54, 32, 104, 97, 115, 32, 97, 110, 32, 111, 100, 100, 32, 110, 117, 109, 98, 101, 114, 32, 111, 102, 32, 111, 99, 116, 101, 116, 115, 46 };
static const unsigned char nd_data_static_179[48] = { 84, 104, 101, 32, 112, 97, 121, 108, 111, 97, 100, 32, 101, 110, 100, 115, 32, 119, 105, 116, 104, 105, 110, 32, 97, 32, 99, 104, 97, 114, 97, 99, 116, 101, 114, 32, 111, 102, 32, 116, 104, 101, 32, 116, 101, 120, 116, 46 };
static const unsigned char nd_data_static_180[71] = { 84, 104, 101, 32, 97, 108, 116, 101, 114, 110, 97, 116, 105, 118, 101, 32, 99, 97, 114, 114, 105, 101, 114, 32, 101, 110, 100, 115, 32, 98, 101, 102, 111, 114, 101, 32, 105, 116, 115, 32, 110, 117, 109, 98, 101, 114, 32, 111, 102, 32, 97, 117, 120, 105, 108, 105, 97, 114, 121, 32, 114, 101, 102, 101, 114, 101, 110, 99, 101, 115, 46 };
static const unsigned char nd_data_static_181[84] = { 84, 104, 105, 115, 32, 114, 101, 113, 117, 101, 115, 116, 32, 109, 117, 115, 116, 32, 98, 101, 103, 105, 110, 32, 119, 105, 116, 104, 32, 97, 32, 99, 111, 108, 108, 105, 115, 105, 111, 110, 32, 114, 101, 99, 111, 114, 100, 32, 40, 96, 99, 114, 96, 41, 59, 32, 105, 116, 115, 32, 102, 105, 114, 115, 116, 32, 114, 101, 99, 111, 114, 100, 32, 105, 115, 32, 97, 110, 111, 116, 104, 101, 114, 46 };
static const unsigned char nd_data_static_182[4] = { 32, 111, 102, 32 };
static const unsigned char nd_data_static_183[12] = { 32, 105, 115, 32, 109, 105, 115, 115, 105, 110, 103, 46 };
static const unsigned char nd_data_static_184[13] = { 32, 97, 114, 101, 32, 109, 105, 115, 115, 105, 110, 103, 46 };
static const unsigned char nd_data_static_185[6] = { 32, 111, 99, 116, 101, 116 };
static const unsigned char nd_data_static_186[7] = { 32, 111, 99, 116, 101, 116, 115 };
static const unsigned char nd_data_static_187[11] = { 116, 104, 101, 32, 112, 97, 121, 108, 111, 97, 100 };
static const unsigned char nd_data_static_188[5] = { 32, 104, 97, 115, 32 };
static const unsigned char nd_data_static_189[2] = { 59, 32 };
static const unsigned char nd_data_static_190[3] = { 32, 40, 96 };
static const unsigned char nd_data_static_191[2] = { 96, 41 };
static const unsigned char nd_data_static_192[6] = { 65, 32, 116, 101, 120, 116 };
static const unsigned char nd_data_static_193[5] = { 65, 32, 85, 82, 73 };
static const unsigned char nd_data_static_194[14] = { 65, 32, 115, 109, 97, 114, 116, 32, 112, 111, 115, 116, 101, 114 };
static const unsigned char nd_data_static_195[18] = { 65, 32, 104, 97, 110, 100, 111, 118, 101, 114, 32, 114, 101, 113, 117, 101, 115, 116 };
static const unsigned char nd_data_static_196[17] = { 65, 32, 104, 97, 110, 100, 111, 118, 101, 114, 32, 115, 101, 108, 101, 99, 116 };
static const unsigned char nd_data_static_197[18] = { 65, 32, 104, 97, 110, 100, 111, 118, 101, 114, 32, 99, 97, 114, 114, 105, 101, 114 };
static const unsigned char nd_data_static_198[9] = { 65, 110, 32, 97, 99, 116, 105, 111, 110 };
static const unsigned char nd_data_static_199[6] = { 65, 32, 115, 105, 122, 101 };
static const unsigned char nd_data_static_200[12] = { 65, 32, 109, 101, 100, 105, 97, 32, 116, 121, 112, 101 };
static const unsigned char nd_data_static_201[22] = { 65, 110, 32, 97, 108, 116, 101, 114, 110, 97, 116, 105, 118, 101, 32, 99, 97, 114, 114, 105, 101, 114 };
static const unsigned char nd_data_static_202[18] = { 65, 32, 99, 111, 108, 108, 105, 115, 105, 111, 110, 32, 114, 101, 99, 111, 114, 100 };
static const unsigned char nd_data_static_203[8] = { 65, 110, 32, 101, 114, 114, 111, 114 };
static const unsigned char nd_data_static_204[9] = { 65, 32, 112, 97, 121, 108, 111, 97, 100 };
static const unsigned char nd_data_static_205[2] = { 83, 112 };
static const unsigned char nd_data_static_206[2] = { 72, 114 };
static const unsigned char nd_data_static_207[2] = { 72, 115 };
static const unsigned char nd_data_static_208[2] = { 72, 99 };
static const unsigned char nd_data_static_209[3] = { 97, 99, 116 };
static const unsigned char nd_data_static_210[1] = { 115 };
static const unsigned char nd_data_static_211[1] = { 116 };
static const unsigned char nd_data_static_212[2] = { 97, 99 };
static const unsigned char nd_data_static_213[2] = { 99, 114 };
static const unsigned char nd_data_static_214[3] = { 101, 114, 114 };
static const unsigned char nd_data_static_215[11] = { 32, 119, 97, 115, 32, 103, 105, 118, 101, 110, 46 };
static const unsigned char nd_data_static_216[12] = { 32, 119, 101, 114, 101, 32, 103, 105, 118, 101, 110, 46 };
static const unsigned char nd_data_static_217[14] = { 32, 104, 97, 115, 32, 97, 116, 32, 108, 101, 97, 115, 116, 32 };
static const unsigned char nd_data_static_218[53] = { 65, 32, 104, 97, 110, 100, 111, 118, 101, 114, 32, 115, 101, 108, 101, 99, 116, 32, 40, 96, 72, 115, 96, 41, 32, 104, 97, 115, 32, 49, 32, 111, 99, 116, 101, 116, 44, 32, 111, 114, 32, 97, 116, 32, 108, 101, 97, 115, 116, 32, 52, 59, 32 };
static const unsigned char nd_data_static_219[25] = { 84, 104, 101, 32, 100, 97, 116, 97, 32, 111, 102, 32, 101, 114, 114, 111, 114, 32, 114, 101, 97, 115, 111, 110, 32 };
static const unsigned char nd_data_static_220[4] = { 84, 104, 101, 32 };
static const unsigned char nd_data_static_221[24] = { 32, 105, 115, 32, 108, 101, 102, 116, 32, 105, 110, 32, 116, 104, 101, 32, 112, 97, 121, 108, 111, 97, 100, 46 };
static const unsigned char nd_data_static_222[25] = { 32, 97, 114, 101, 32, 108, 101, 102, 116, 32, 105, 110, 32, 116, 104, 101, 32, 112, 97, 121, 108, 111, 97, 100, 46 };
static const unsigned char nd_data_static_223[24] = { 32, 97, 117, 120, 105, 108, 105, 97, 114, 121, 32, 114, 101, 102, 101, 114, 101, 110, 99, 101, 32, 104, 97, 115 };
static const unsigned char nd_data_static_224[26] = { 32, 97, 117, 120, 105, 108, 105, 97, 114, 121, 32, 114, 101, 102, 101, 114, 101, 110, 99, 101, 115, 32, 104, 97, 118, 101 };
static const unsigned char nd_data_static_225[10] = { 32, 97, 116, 32, 108, 101, 97, 115, 116, 32 };
static const unsigned char nd_data_static_226[25] = { 84, 104, 105, 115, 32, 114, 101, 99, 111, 114, 100, 32, 104, 97, 115, 32, 97, 116, 32, 108, 101, 97, 115, 116, 32 };
static const unsigned char nd_data_static_227[37] = { 84, 104, 105, 115, 32, 114, 101, 99, 111, 114, 100, 32, 105, 115, 32, 116, 104, 101, 32, 108, 97, 115, 116, 32, 40, 77, 69, 41, 32, 97, 110, 100, 32, 104, 97, 115, 32 };
static const unsigned char nd_data_static_228[64] = { 65, 110, 111, 116, 104, 101, 114, 32, 114, 101, 99, 111, 114, 100, 32, 104, 97, 115, 32, 116, 111, 32, 102, 111, 108, 108, 111, 119, 32, 40, 77, 69, 32, 105, 115, 32, 99, 108, 101, 97, 114, 41, 44, 32, 111, 102, 32, 97, 116, 32, 108, 101, 97, 115, 116, 32, 51, 32, 111, 99, 116, 101, 116, 115 };
static const unsigned char nd_data_static_229[7] = { 82, 101, 99, 111, 114, 100, 32 };
static const unsigned char nd_data_static_230[59] = { 32, 105, 115, 32, 116, 104, 101, 32, 108, 97, 115, 116, 32, 111, 102, 32, 116, 104, 105, 115, 32, 115, 109, 97, 114, 116, 32, 112, 111, 115, 116, 101, 114, 44, 32, 97, 110, 100, 32, 110, 111, 110, 101, 32, 105, 115, 32, 97, 32, 85, 82, 73, 32, 40, 96, 85, 96, 41, 46 };
static const unsigned char nd_data_static_231[73] = { 84, 104, 101, 32, 108, 97, 115, 116, 32, 114, 101, 99, 111, 114, 100, 32, 40, 77, 69, 41, 32, 111, 102, 32, 116, 104, 105, 115, 32, 112, 111, 115, 116, 101, 114, 32, 104, 97, 115, 32, 116, 111, 32, 98, 101, 32, 105, 116, 115, 32, 85, 82, 73, 32, 40, 96, 85, 96, 41, 44, 32, 111, 102, 32, 97, 116, 32, 108, 101, 97, 115, 116, 32 };
static const unsigned char nd_data_static_232[98] = { 84, 104, 101, 32, 85, 82, 73, 32, 40, 96, 85, 96, 41, 32, 111, 102, 32, 116, 104, 105, 115, 32, 115, 109, 97, 114, 116, 32, 112, 111, 115, 116, 101, 114, 32, 104, 97, 115, 32, 116, 111, 32, 102, 111, 108, 108, 111, 119, 32, 40, 77, 69, 32, 105, 115, 32, 99, 108, 101, 97, 114, 41, 44, 32, 105, 110, 32, 97, 32, 114, 101, 99, 111, 114, 100, 32, 111, 102, 32, 97, 116, 32, 108, 101, 97, 115, 116, 32, 53, 32, 111, 99, 116, 101, 116, 115, 59, 32 };
static const unsigned char nd_data_static_233[44] = { 32, 105, 115, 32, 97, 32, 115, 101, 99, 111, 110, 100, 32, 85, 82, 73, 32, 40, 96, 85, 96, 41, 32, 105, 110, 32, 116, 104, 105, 115, 32, 115, 109, 97, 114, 116, 32, 112, 111, 115, 116, 101, 114, 46 };
static const unsigned char nd_data_static_234[47] = { 65, 32, 114, 101, 113, 117, 101, 115, 116, 32, 98, 101, 103, 105, 110, 115, 32, 119, 105, 116, 104, 32, 97, 32, 99, 111, 108, 108, 105, 115, 105, 111, 110, 32, 114, 101, 99, 111, 114, 100, 32, 40, 96, 99, 114, 96, 41 };
static const unsigned char nd_data_static_235[14] = { 32, 111, 102, 32, 50, 32, 111, 99, 116, 101, 116, 115, 59, 32 };
static const unsigned char nd_data_static_236[19] = { 44, 32, 104, 101, 114, 101, 32, 111, 102, 32, 97, 116, 32, 108, 101, 97, 115, 116, 32 };
static const unsigned char nd_data_static_237[29] = { 44, 32, 119, 104, 105, 99, 104, 32, 97, 115, 32, 116, 104, 101, 32, 108, 97, 115, 116, 32, 40, 77, 69, 41, 32, 104, 97, 115, 32 };
static const unsigned char nd_data_static_238[100] = { 65, 102, 116, 101, 114, 32, 105, 116, 115, 32, 99, 111, 108, 108, 105, 115, 105, 111, 110, 32, 114, 101, 99, 111, 114, 100, 32, 40, 96, 99, 114, 96, 41, 32, 97, 110, 111, 116, 104, 101, 114, 32, 114, 101, 99, 111, 114, 100, 32, 104, 97, 115, 32, 116, 111, 32, 102, 111, 108, 108, 111, 119, 32, 40, 77, 69, 32, 105, 115, 32, 99, 108, 101, 97, 114, 41, 44, 32, 111, 102, 32, 97, 116, 32, 108, 101, 97, 115, 116, 32, 51, 32, 111, 99, 116, 101, 116, 115, 59, 32 };
static const uint64_t nd_data_switch_table_ndef_fields_name_FieldName_text[31] = { 6ULL, 11ULL, 14ULL, 9ULL, 4ULL, 2ULL, 7ULL, 6ULL, 13ULL, 15ULL, 4ULL, 15ULL, 3ULL, 6ULL, 4ULL, 10ULL, 7ULL, 13ULL, 19ULL, 29ULL, 22ULL, 30ULL, 31ULL, 24ULL, 8ULL, 12ULL, 10ULL, 19ULL, 19ULL, 12ULL, 12ULL };
static const uint64_t nd_data_switch_table_ndef_c_warnings_give_remark[14] = { 32ULL, 0ULL, 0ULL, 0ULL, 0ULL, 0ULL, 0ULL, 76ULL, 88ULL, 31ULL, 54ULL, 46ULL, 49ULL, 76ULL };
static const uint64_t nd_data_switch_table_ndef_types_prefixes_prefix[35] = { 11ULL, 12ULL, 7ULL, 8ULL, 4ULL, 7ULL, 26ULL, 10ULL, 7ULL, 7ULL, 6ULL, 6ULL, 6ULL, 6ULL, 5ULL, 9ULL, 5ULL, 7ULL, 4ULL, 4ULL, 4ULL, 5ULL, 5ULL, 8ULL, 10ULL, 9ULL, 10ULL, 11ULL, 7ULL, 11ULL, 12ULL, 12ULL, 12ULL, 8ULL, 8ULL };
static const uint64_t nd_data_switch_table_ndef_nest_nest_Nest_new[3] = { 131072ULL, 196608ULL, 0ULL };
static const uint64_t nd_data_switch_table_ndef_lang_utf8_Utf8Lang_lengths[9] = { 2ULL, 2ULL, 2ULL, 2ULL, 2ULL, 2ULL, 2ULL, 2ULL, 0ULL };
static const uint64_t nd_data_switch_table_ndef_nest_span_least[4] = { 3ULL, 3ULL, 5ULL, 7ULL };
static const uint64_t nd_data_switch_table_ndef_lang_utf8_Utf8Lang_take[9] = { 0ULL, 1ULL, 2ULL, 3ULL, 2ULL, 2ULL, 3ULL, 3ULL, 0ULL };
static const unsigned char nd_data_switch_table_ndef_c_reasons_reason_of[25] = { 0, 1, 2, 3, 4, 5, 6, 7, 8, 9, 10, 11, 12, 13, 14, 15, 16, 17, 18, 19, 20, 21, 23, 24, 22 };
static const uint64_t nd_data_switch_table_ndef_format_reason_Reason_sentence[25] = { 35ULL, 49ULL, 46ULL, 70ULL, 65ULL, 48ULL, 63ULL, 34ULL, 69ULL, 51ULL, 59ULL, 62ULL, 38ULL, 44ULL, 64ULL, 44ULL, 22ULL, 23ULL, 66ULL, 40ULL, 39ULL, 46ULL, 67ULL, 66ULL, 32ULL };
static const unsigned char nd_data_switch_table_ndef_format_reason_Reason_number[25] = { 1, 2, 3, 4, 5, 6, 7, 8, 9, 10, 11, 12, 13, 14, 15, 16, 17, 18, 19, 20, 21, 22, 25, 23, 24 };
static const unsigned char nd_data_switch_table_ndef_fields_stage_Stage_of[13] = { 6, 6, 6, 6, 6, 6, 27, 6, 6, 6, 18, 6, 6 };
static const unsigned char nd_data_switch_table_ndef_fields_stage_Stage_of_8[13] = { 0, 0, 1, 0, 0, 0, 0, 0, 0, 0, 0, 0, 0 };
static const unsigned char nd_data_switch_table_ndef_fields_stage_Stage_of_9[13] = { 6, 6, 6, 6, 6, 6, 6, 13, 14, 15, 6, 17, 6 };
static const unsigned char nd_data_switch_table_ndef_fields_stage_cut_octet[11] = { 6, 6, 6, 6, 7, 11, 25, 28, 19, 21, 22 };
static const unsigned char nd_data_switch_table_ndef_fields_stage_cut_octet_10[11] = { 6, 6, 6, 6, 8, 12, 26, 29, 20, 23, 23 };
static const unsigned char nd_data_switch_table_ndef_fields_stage_cut_octet_11[11] = { 6, 6, 6, 6, 10, 12, 26, 30, 24, 24, 24 };
static const uint32_t nd_data_switch_table_ndef_diagnostics_length_mismatch_length_mismatch[13] = { 0U, 0U, 0U, 0U, 0U, 0U, 1U, 1U, 4U, 0U, 1U, 2U, 0U };
static const unsigned char nd_data_switch_table_ndef_diagnostics_length_mismatch_length_mismatch_12[13] = { 1, 4, 5, 1, 1, 1, 7, 0, 0, 2, 8, 0, 6 };
static const uint32_t nd_data_switch_table_ndef_diagnostics_length_mismatch_length_mismatch_13[3] = { 1U, 4U, 1U };
static const uint64_t nd_data_switch_table_ndef_diagnostics_sentence_Sentence_push_kind[13] = { 9ULL, 6ULL, 5ULL, 14ULL, 18ULL, 17ULL, 18ULL, 9ULL, 6ULL, 12ULL, 22ULL, 18ULL, 8ULL };
static const uint64_t nd_data_switch_table_ndef_format_kind_Kind_name[13] = { 0ULL, 1ULL, 1ULL, 2ULL, 2ULL, 2ULL, 2ULL, 3ULL, 1ULL, 1ULL, 2ULL, 2ULL, 3ULL };
static const uint64_t nd_data_switch_table_ndef_reason_name[25] = { 11ULL, 12ULL, 10ULL, 16ULL, 13ULL, 8ULL, 10ULL, 12ULL, 13ULL, 14ULL, 12ULL, 9ULL, 13ULL, 15ULL, 7ULL, 8ULL, 4ULL, 5ULL, 7ULL, 10ULL, 8ULL, 7ULL, 16ULL, 10ULL, 10ULL };
static const uint64_t nd_data_switch_table_ndef_status_name[6] = { 2ULL, 7ULL, 14ULL, 11ULL, 3ULL, 4ULL };
static const uint64_t nd_data_switch_table_ndef_hint[3] = { 25ULL, 43ULL, 48ULL };
static const uint64_t nd_data_switch_table_ndef_hint_19[7] = { 80ULL, 70ULL, 74ULL, 92ULL, 92ULL, 86ULL, 73ULL };
static const struct { ND_POINTER p0; ND_POINTER p1; ND_POINTER p2; ND_POINTER p3; ND_POINTER p4; ND_POINTER p5; ND_POINTER p6; ND_POINTER p7; ND_POINTER p8; ND_POINTER p9; ND_POINTER p10; ND_POINTER p11; ND_POINTER p12; ND_POINTER p13; ND_POINTER p14; ND_POINTER p15; ND_POINTER p16; ND_POINTER p17; ND_POINTER p18; ND_POINTER p19; ND_POINTER p20; ND_POINTER p21; ND_POINTER p22; ND_POINTER p23; ND_POINTER p24; ND_POINTER p25; ND_POINTER p26; ND_POINTER p27; ND_POINTER p28; ND_POINTER p29; ND_POINTER p30; } nd_data_switch_table_ndef_fields_name_FieldName_text_1 = { { (const unsigned char *)nd_data_static_0 }, { (const unsigned char *)nd_data_static_1 }, { (const unsigned char *)nd_data_static_2 }, { (const unsigned char *)nd_data_static_3 }, { (const unsigned char *)nd_data_static_4 }, { (const unsigned char *)nd_data_static_5 }, { (const unsigned char *)nd_data_static_6 }, { (const unsigned char *)nd_data_static_7 }, { (const unsigned char *)nd_data_static_8 }, { (const unsigned char *)nd_data_static_9 }, { (const unsigned char *)nd_data_static_10 }, { (const unsigned char *)nd_data_static_11 }, { (const unsigned char *)nd_data_static_12 }, { (const unsigned char *)nd_data_static_13 }, { (const unsigned char *)nd_data_static_14 }, { (const unsigned char *)nd_data_static_15 }, { (const unsigned char *)nd_data_static_16 }, { (const unsigned char *)nd_data_static_17 }, { (const unsigned char *)nd_data_static_18 }, { (const unsigned char *)nd_data_static_19 }, { (const unsigned char *)nd_data_static_20 }, { (const unsigned char *)nd_data_static_21 }, { (const unsigned char *)nd_data_static_22 }, { (const unsigned char *)nd_data_static_23 }, { (const unsigned char *)nd_data_static_24 }, { (const unsigned char *)nd_data_static_25 }, { (const unsigned char *)nd_data_static_26 }, { (const unsigned char *)nd_data_static_27 }, { (const unsigned char *)nd_data_static_28 }, { (const unsigned char *)nd_data_static_29 }, { (const unsigned char *)nd_data_static_30 } };
static const struct { ND_POINTER p0; ND_POINTER p1; ND_POINTER p2; ND_POINTER p3; ND_POINTER p4; ND_POINTER p5; ND_POINTER p6; ND_POINTER p7; ND_POINTER p8; ND_POINTER p9; ND_POINTER p10; ND_POINTER p11; ND_POINTER p12; ND_POINTER p13; } nd_data_switch_table_ndef_c_warnings_give_remark_2 = { { (const unsigned char *)nd_data_static_42 }, { (const unsigned char *)nd_data_static_50 }, { (const unsigned char *)nd_data_static_50 }, { (const unsigned char *)nd_data_static_50 }, { (const unsigned char *)nd_data_static_50 }, { (const unsigned char *)nd_data_static_50 }, { (const unsigned char *)nd_data_static_50 }, { (const unsigned char *)nd_data_static_43 }, { (const unsigned char *)nd_data_static_44 }, { (const unsigned char *)nd_data_static_45 }, { (const unsigned char *)nd_data_static_46 }, { (const unsigned char *)nd_data_static_47 }, { (const unsigned char *)nd_data_static_48 }, { (const unsigned char *)nd_data_static_49 } };
static const struct { ND_POINTER p0; ND_POINTER p1; ND_POINTER p2; ND_POINTER p3; ND_POINTER p4; ND_POINTER p5; ND_POINTER p6; ND_POINTER p7; ND_POINTER p8; ND_POINTER p9; ND_POINTER p10; ND_POINTER p11; ND_POINTER p12; ND_POINTER p13; ND_POINTER p14; ND_POINTER p15; ND_POINTER p16; ND_POINTER p17; ND_POINTER p18; ND_POINTER p19; ND_POINTER p20; ND_POINTER p21; ND_POINTER p22; ND_POINTER p23; ND_POINTER p24; ND_POINTER p25; ND_POINTER p26; ND_POINTER p27; ND_POINTER p28; ND_POINTER p29; ND_POINTER p30; ND_POINTER p31; ND_POINTER p32; ND_POINTER p33; ND_POINTER p34; } nd_data_switch_table_ndef_types_prefixes_prefix_3 = { { (const unsigned char *)nd_data_static_51 }, { (const unsigned char *)nd_data_static_52 }, { (const unsigned char *)nd_data_static_53 }, { (const unsigned char *)nd_data_static_54 }, { (const unsigned char *)nd_data_static_55 }, { (const unsigned char *)nd_data_static_56 }, { (const unsigned char *)nd_data_static_57 }, { (const unsigned char *)nd_data_static_58 }, { (const unsigned char *)nd_data_static_59 }, { (const unsigned char *)nd_data_static_60 }, { (const unsigned char *)nd_data_static_61 }, { (const unsigned char *)nd_data_static_62 }, { (const unsigned char *)nd_data_static_63 }, { (const unsigned char *)nd_data_static_64 }, { (const unsigned char *)nd_data_static_65 }, { (const unsigned char *)nd_data_static_66 }, { (const unsigned char *)nd_data_static_67 }, { (const unsigned char *)nd_data_static_68 }, { (const unsigned char *)nd_data_static_69 }, { (const unsigned char *)nd_data_static_70 }, { (const unsigned char *)nd_data_static_71 }, { (const unsigned char *)nd_data_static_72 }, { (const unsigned char *)nd_data_static_73 }, { (const unsigned char *)nd_data_static_74 }, { (const unsigned char *)nd_data_static_75 }, { (const unsigned char *)nd_data_static_76 }, { (const unsigned char *)nd_data_static_77 }, { (const unsigned char *)nd_data_static_78 }, { (const unsigned char *)nd_data_static_79 }, { (const unsigned char *)nd_data_static_80 }, { (const unsigned char *)nd_data_static_81 }, { (const unsigned char *)nd_data_static_82 }, { (const unsigned char *)nd_data_static_83 }, { (const unsigned char *)nd_data_static_84 }, { (const unsigned char *)nd_data_static_85 } };
static const struct { ND_POINTER p0; ND_POINTER p1; ND_POINTER p2; ND_POINTER p3; ND_POINTER p4; ND_POINTER p5; ND_POINTER p6; ND_POINTER p7; ND_POINTER p8; ND_POINTER p9; ND_POINTER p10; ND_POINTER p11; ND_POINTER p12; ND_POINTER p13; ND_POINTER p14; ND_POINTER p15; ND_POINTER p16; ND_POINTER p17; ND_POINTER p18; ND_POINTER p19; ND_POINTER p20; ND_POINTER p21; ND_POINTER p22; ND_POINTER p23; ND_POINTER p24; } nd_data_switch_table_ndef_format_reason_Reason_sentence_5 = { { (const unsigned char *)nd_data_static_114 }, { (const unsigned char *)nd_data_static_115 }, { (const unsigned char *)nd_data_static_116 }, { (const unsigned char *)nd_data_static_117 }, { (const unsigned char *)nd_data_static_118 }, { (const unsigned char *)nd_data_static_119 }, { (const unsigned char *)nd_data_static_120 }, { (const unsigned char *)nd_data_static_121 }, { (const unsigned char *)nd_data_static_122 }, { (const unsigned char *)nd_data_static_123 }, { (const unsigned char *)nd_data_static_124 }, { (const unsigned char *)nd_data_static_125 }, { (const unsigned char *)nd_data_static_126 }, { (const unsigned char *)nd_data_static_127 }, { (const unsigned char *)nd_data_static_128 }, { (const unsigned char *)nd_data_static_129 }, { (const unsigned char *)nd_data_static_130 }, { (const unsigned char *)nd_data_static_131 }, { (const unsigned char *)nd_data_static_132 }, { (const unsigned char *)nd_data_static_133 }, { (const unsigned char *)nd_data_static_134 }, { (const unsigned char *)nd_data_static_135 }, { (const unsigned char *)nd_data_static_136 }, { (const unsigned char *)nd_data_static_137 }, { (const unsigned char *)nd_data_static_138 } };
static const struct { ND_POINTER p0; ND_POINTER p1; ND_POINTER p2; ND_POINTER p3; ND_POINTER p4; ND_POINTER p5; ND_POINTER p6; ND_POINTER p7; ND_POINTER p8; ND_POINTER p9; ND_POINTER p10; ND_POINTER p11; ND_POINTER p12; } nd_data_switch_table_ndef_diagnostics_sentence_Sentence_push_kind_14 = { { (const unsigned char *)nd_data_static_204 }, { (const unsigned char *)nd_data_static_192 }, { (const unsigned char *)nd_data_static_193 }, { (const unsigned char *)nd_data_static_194 }, { (const unsigned char *)nd_data_static_195 }, { (const unsigned char *)nd_data_static_196 }, { (const unsigned char *)nd_data_static_197 }, { (const unsigned char *)nd_data_static_198 }, { (const unsigned char *)nd_data_static_199 }, { (const unsigned char *)nd_data_static_200 }, { (const unsigned char *)nd_data_static_201 }, { (const unsigned char *)nd_data_static_202 }, { (const unsigned char *)nd_data_static_203 } };
static const struct { ND_POINTER p0; ND_POINTER p1; ND_POINTER p2; ND_POINTER p3; ND_POINTER p4; ND_POINTER p5; ND_POINTER p6; ND_POINTER p7; ND_POINTER p8; ND_POINTER p9; ND_POINTER p10; ND_POINTER p11; ND_POINTER p12; } nd_data_switch_table_ndef_format_kind_Kind_name_15 = { { (const unsigned char *)nd_data_static_50 }, { (const unsigned char *)nd_data_static_140 }, { (const unsigned char *)nd_data_static_139 }, { (const unsigned char *)nd_data_static_205 }, { (const unsigned char *)nd_data_static_206 }, { (const unsigned char *)nd_data_static_207 }, { (const unsigned char *)nd_data_static_208 }, { (const unsigned char *)nd_data_static_209 }, { (const unsigned char *)nd_data_static_210 }, { (const unsigned char *)nd_data_static_211 }, { (const unsigned char *)nd_data_static_212 }, { (const unsigned char *)nd_data_static_213 }, { (const unsigned char *)nd_data_static_214 } };
static const struct { ND_POINTER p0; ND_POINTER p1; ND_POINTER p2; ND_POINTER p3; ND_POINTER p4; ND_POINTER p5; ND_POINTER p6; ND_POINTER p7; ND_POINTER p8; ND_POINTER p9; ND_POINTER p10; ND_POINTER p11; ND_POINTER p12; ND_POINTER p13; ND_POINTER p14; ND_POINTER p15; ND_POINTER p16; ND_POINTER p17; ND_POINTER p18; ND_POINTER p19; ND_POINTER p20; ND_POINTER p21; ND_POINTER p22; ND_POINTER p23; ND_POINTER p24; } nd_data_switch_table_ndef_reason_name_16 = { { (const unsigned char *)nd_data_static_89 }, { (const unsigned char *)nd_data_static_90 }, { (const unsigned char *)nd_data_static_91 }, { (const unsigned char *)nd_data_static_92 }, { (const unsigned char *)nd_data_static_93 }, { (const unsigned char *)nd_data_static_94 }, { (const unsigned char *)nd_data_static_95 }, { (const unsigned char *)nd_data_static_96 }, { (const unsigned char *)nd_data_static_97 }, { (const unsigned char *)nd_data_static_98 }, { (const unsigned char *)nd_data_static_99 }, { (const unsigned char *)nd_data_static_100 }, { (const unsigned char *)nd_data_static_101 }, { (const unsigned char *)nd_data_static_102 }, { (const unsigned char *)nd_data_static_103 }, { (const unsigned char *)nd_data_static_104 }, { (const unsigned char *)nd_data_static_105 }, { (const unsigned char *)nd_data_static_106 }, { (const unsigned char *)nd_data_static_107 }, { (const unsigned char *)nd_data_static_108 }, { (const unsigned char *)nd_data_static_109 }, { (const unsigned char *)nd_data_static_110 }, { (const unsigned char *)nd_data_static_111 }, { (const unsigned char *)nd_data_static_112 }, { (const unsigned char *)nd_data_static_113 } };
static const struct { ND_POINTER p0; ND_POINTER p1; ND_POINTER p2; ND_POINTER p3; ND_POINTER p4; ND_POINTER p5; } nd_data_switch_table_ndef_status_name_17 = { { (const unsigned char *)nd_data_static_141 }, { (const unsigned char *)nd_data_static_142 }, { (const unsigned char *)nd_data_static_143 }, { (const unsigned char *)nd_data_static_144 }, { (const unsigned char *)nd_data_static_145 }, { (const unsigned char *)nd_data_static_146 } };
static const struct { ND_POINTER p0; ND_POINTER p1; ND_POINTER p2; } nd_data_switch_table_ndef_hint_18 = { { (const unsigned char *)nd_data_static_161 }, { (const unsigned char *)nd_data_static_162 }, { (const unsigned char *)nd_data_static_163 } };
static const struct { ND_POINTER p0; ND_POINTER p1; ND_POINTER p2; ND_POINTER p3; ND_POINTER p4; ND_POINTER p5; ND_POINTER p6; } nd_data_switch_table_ndef_hint_20 = { { (const unsigned char *)nd_data_static_166 }, { (const unsigned char *)nd_data_static_167 }, { (const unsigned char *)nd_data_static_168 }, { (const unsigned char *)nd_data_static_169 }, { (const unsigned char *)nd_data_static_170 }, { (const unsigned char *)nd_data_static_171 }, { (const unsigned char *)nd_data_static_172 } };

static struct nd_ptr_64 nd_ndef_fields_name_FieldName_text(uint8_t v1);
static uint32_t nd_ndef_c_buffer_give(unsigned char *v1, uint64_t v2, unsigned char *v3, uint64_t v4, unsigned char *v5);
static void nd_core_slice_edits_slice_T_copy_from_slice(unsigned char *v1, unsigned char *v2, uint64_t v3);
static uint32_t nd_ndef_c_warnings_give_remark(unsigned char *v1, unsigned char *v2, uint64_t v3, unsigned char *v4);
static void nd_ndef_diagnostics_remark_numbered(unsigned char *v1, unsigned char *v2, uint64_t v3, uint8_t v4, unsigned char *v5, uint64_t v6);
static void nd_ndef_diagnostics_sentence_Sentence_new(unsigned char *v1);
static void nd_ndef_diagnostics_sentence_Sentence_push_number(unsigned char *v1, uint64_t v2);
static void nd_ndef_diagnostics_sentence_Sentence_push(unsigned char *v1, unsigned char *v2, uint64_t v3);
static void nd_ndef_diagnostics_sentence_Sentence_of(unsigned char *v1, unsigned char *v2, uint64_t v3);
static struct nd_ptr_64 nd_ndef_types_prefixes_prefix(uint8_t v1);
static void nd_ndef_c_limits_limits_of(unsigned char *v1, unsigned char *v2);
static void nd_ndef_value_limits_Limits_new(unsigned char *v1, uint32_t v2, uint32_t v3, uint32_t v4);
static void nd_ndef_message_checker_Checker_start(unsigned char *v1, unsigned char *v2);
static void nd_ndef_message_phase_Place_spot(unsigned char *v1, unsigned char *v2, uint8_t v3);
static void nd_ndef_piece_head_reader_HeadReader_new(unsigned char *v1, unsigned char *v2);
static void nd_ndef_nest_typed_TypedRecordLanguage_start(unsigned char *v1, uint8_t v2, unsigned char *v3, uint64_t v4, uint32_t v5, uint8_t v6);
static uint8_t nd_ndef_format_kind_of_one(uint8_t v1);
static uint8_t nd_ndef_format_kind_of_two(uint8_t v1, uint8_t v2);
static uint8_t nd_ndef_format_kind_of_three(uint8_t v1, uint8_t v2, uint8_t v3);
static void nd_ndef_nest_nest_Nest_new(unsigned char *v1, uint8_t v2, uint32_t v3, uint8_t v4);
static void nd_ndef_message_checker_Checker_start_2(unsigned char *v1, unsigned char *v2);
static uint32_t nd_ndef_c_buffer_give_parts(unsigned char *v1, uint64_t v2, unsigned char *v3, uint64_t v4, unsigned char *v5, uint64_t v6, unsigned char *v7, uint64_t v8, unsigned char *v9);
static uint8_t nd_ndef_c_error_writing_may_be_error(uint32_t v1, uint64_t v2);
static void nd_ndef_nest_nest_NestLanguage_start(unsigned char *v1, uint8_t v2, uint8_t v3);
static void nd_ndef_nest_nest_Nest_stepped(unsigned char *v1, unsigned char *v2, uint8_t v3);
static void nd_ndef_nest_nest_Nest_at_head(unsigned char *v1, unsigned char *v2, uint8_t v3);
static void nd_ndef_piece_head_reader_HeadReader_step(unsigned char *v1, unsigned char *v2, uint8_t v3);
static struct nd_8_8 nd_ndef_piece_conditions_header_reason(unsigned char *v1, uint8_t v2);
static uint64_t nd_ndef_piece_header_size(uint8_t v1);
static struct nd_ptr_64 nd_ndef_piece_payload_length_length_front(unsigned char *v1, uint64_t v2);
static struct nd_32_32 nd_ndef_piece_payload_length_least_and_greatest(uint64_t v1, unsigned char *v2, uint64_t v3);
static uint8_t nd_ndef_piece_header_tnf_of(uint8_t v1);
static void nd_ndef_piece_head_reader_HeadReader_bounds(unsigned char *v1, unsigned char *v2);
static void nd_ndef_nest_phase_headed(unsigned char *v1, unsigned char *v2, unsigned char *v3);
static void nd_ndef_nest_phase_Name_new(unsigned char *v1, unsigned char *v2);
static void nd_ndef_nest_phase_Name_settled(unsigned char *v1, unsigned char *v2, unsigned char *v3);
static uint8_t nd_ndef_lang_kind_KindReader_kind(unsigned char *v1);
static uint8_t nd_ndef_format_table_Table_checked(uint8_t v1, uint8_t v2);
static void nd_ndef_nest_phase_Name_entered(unsigned char *v1, unsigned char *v2, unsigned char *v3, uint8_t v4);
static uint8_t nd_ndef_nest_demand_Demand_allows(uint8_t v1, uint8_t v2);
static uint8_t nd_ndef_nest_demand_Demand_after(uint8_t v1, uint8_t v2);
static void nd_ndef_nest_phase_Body_settled(unsigned char *v1, unsigned char *v2, unsigned char *v3);
static uint8_t nd_ndef_lang_leaf_LeafLanguage_fits(unsigned char *v1, uint64_t v2, uint64_t v3);
static void nd_ndef_lang_leaf_Leaf_lengths(unsigned char *v1, unsigned char *v2);
static void nd_ndef_lang_utf8_Utf8Lang_lengths(unsigned char *v1, uint8_t v2);
static uint8_t nd_ndef_lang_utf16_Utf16State_is_refused(unsigned char *v1);
static uint8_t nd_ndef_lang_lengths_Lengths_meet(unsigned char *v1, uint64_t v2, uint64_t v3);
static void nd_ndef_lang_kind_KindReader_step(unsigned char *v1, uint8_t v2);
static void nd_ndef_lang_leaf_Leaf_after(unsigned char *v1, unsigned char *v2, uint8_t v3);
static void nd_ndef_lang_leaf_Stage_after(unsigned char *v1, uint8_t v2, uint8_t v3, uint8_t v4);
static void nd_ndef_lang_leaf_Stage_field_after(unsigned char *v1, uint8_t v2, uint8_t v3, uint8_t v4);
static uint8_t nd_ndef_lang_utf8_Utf8Lang_after(uint8_t v1, uint8_t v2);
static void nd_ndef_lang_utf16_Utf16State_after(unsigned char *v1, unsigned char *v2, uint8_t v3);
static uint8_t nd_ndef_lang_leaf_LeafLanguage_reason(unsigned char *v1);
static uint8_t nd_ndef_nest_nest_NestLanguage_fits(unsigned char *v1, uint64_t v2, uint64_t v3);
static uint8_t nd_ndef_nest_nest_start_fits(unsigned char *v1, uint64_t v2, uint64_t v3);
static struct nd_64_64 nd_ndef_nest_phase_records_span(unsigned char *v1);
static uint64_t nd_ndef_nest_span_least(uint8_t v1);
static struct nd_64_64 nd_ndef_nest_nest_Nest_bounded_span(unsigned char *v1, unsigned char *v2);
static struct nd_64_64 nd_ndef_nest_span_OpenRecord_span(unsigned char *v1, uint8_t v2);
static struct nd_64_64 nd_ndef_nest_span_OpenRecord_plain(unsigned char *v1, uint8_t v2);
static void nd_ndef_nest_span_OpenRecord_expected(unsigned char *v1, unsigned char *v2, uint64_t v3, uint64_t v4);
static struct nd_64_64 nd_ndef_nest_phase_NestPhase_span(unsigned char *v1, unsigned char *v2);
static uint64_t nd_ndef_nest_nest_NestLanguage_step_all(unsigned char *v1, unsigned char *v2, uint64_t v3, uint64_t v4, uint64_t v5);
static uint64_t nd_ndef_lang_leaf_LeafLanguage_step_all(unsigned char *v1, unsigned char *v2, uint64_t v3, uint64_t v4, uint64_t v5);
static uint8_t nd_ndef_lang_leaf_Class_has_all(uint8_t v1, unsigned char *v2, uint64_t v3);
static uint8_t nd_ndef_lang_ascii_are_many(unsigned char *v1, uint64_t v2);
static uint64_t nd_ndef_lang_utf8_Utf8Lang_take(unsigned char *v1, unsigned char *v2, uint64_t v3, uint64_t v4, uint64_t v5);
static uint8_t nd_ndef_lang_utf8_is_utf8(unsigned char *v1, uint64_t v2);
static void nd_simdutf8_basic_from_utf8(unsigned char *v1, unsigned char *v2, uint64_t v3);
static void nd_core_str_utf8_from_utf8(unsigned char *v1, unsigned char *v2, uint64_t v3);
static uint64_t nd_core_slice_words_first(unsigned char *v1, uint64_t v2, uint64_t v3);
static uint64_t nd_core_slice_scan_first_by_one(unsigned char *v1, uint64_t v2, uint64_t v3);
static uint8_t nd_core_slice_words_none_in_four(unsigned char *v1, uint64_t v2);
static uint64_t nd_core_slice_words_skip_far(unsigned char *v1, uint64_t v2, uint64_t v3);
static uint64_t nd_core_slice_words_first_in_word(unsigned char *v1, uint64_t v2);
static uint64_t nd_ndef_lang_utf8_valid_front(unsigned char *v1, uint64_t v2);
static uint64_t nd_ndef_lang_utf8_Utf8Lang_take_each(unsigned char *v1, unsigned char *v2, uint64_t v3, uint64_t v4, uint64_t v5);
static void nd_ndef_piece_head_reader_HeadReader_whole_head(unsigned char *v1, unsigned char *v2, unsigned char *v3, uint64_t v4);
static void nd_ndef_piece_whole_payload_length_at(unsigned char *v1, uint8_t v2, unsigned char *v3, uint64_t v4);
static uint8_t nd_ndef_piece_standing_suits(unsigned char *v1, uint8_t v2, uint64_t v3);
static uint8_t nd_ndef_piece_standing_opens(unsigned char *v1, uint8_t v2, uint64_t v3, uint64_t v4, uint64_t v5);
static uint8_t nd_ndef_piece_header_header_tnf(uint8_t v1);
static uint8_t nd_ndef_lang_member_is_coded_text(uint64_t v1, uint8_t v2, unsigned char *v3, uint64_t v4);
static uint8_t nd_ndef_lang_member_is_utf16(unsigned char *v1, uint64_t v2);
static uint8_t nd_ndef_lang_member_are_units(unsigned char *v1, uint64_t v2, uint8_t v3);
static uint8_t nd_ndef_lang_member_is_long_utf8(unsigned char *v1, uint64_t v2);
static uint8_t nd_ndef_lang_leaf_Leaf_is_completed_by(unsigned char *v1, unsigned char *v2, uint64_t v3);
static uint8_t nd_ndef_nest_whole_fits_after(unsigned char *v1, uint8_t v2, unsigned char *v3, uint64_t v4, uint64_t v5);
static uint8_t nd_ndef_c_message_has_message(unsigned char *v1, uint64_t v2);
static void nd_ndef_c_walk_WalkIterator_next(unsigned char *v1, unsigned char *v2);
static void nd_ndef_c_record_record_at(unsigned char *v1, unsigned char *v2, uint64_t v3, uint64_t v4);
static void nd_ndef_c_run_first_run(unsigned char *v1, unsigned char *v2, uint64_t v3);
static void nd_ndef_piece_whole_whole_piece(unsigned char *v1, unsigned char *v2, uint64_t v3);
static uint8_t nd_ndef_piece_whole_WholePiece_tnf(unsigned char *v1);
static uint8_t nd_ndef_c_normalizing_is_writable(unsigned char *v1);
static uint8_t nd_ndef_c_writing_has_shape(uint8_t v1, uint64_t v2, uint64_t v3, uint64_t v4);
static void nd_ndef_c_normalizing_head_of(unsigned char *v1, unsigned char *v2, uint8_t v3, uint8_t v4);
static uint64_t nd_ndef_piece_write_write_head(unsigned char *v1, unsigned char *v2);
static void nd_ndef_c_chunks_PiecesIterator_next(unsigned char *v1, unsigned char *v2);
static void nd_ndef_c_alternative_writing_alternative_content(unsigned char *v1, uint32_t v2, unsigned char *v3, uint64_t v4, unsigned char *v5, uint64_t v6);
static uint32_t nd_ndef_c_content_give_content(unsigned char *v1, unsigned char *v2, uint64_t v3, unsigned char *v4);
static struct nd_8_64 nd_ndef_c_content_content_length(unsigned char *v1);
static void nd_ndef_c_utf16_put_units(unsigned char *v1, unsigned char *v2, uint64_t v3);
static void nd_ndef_c_alternative_writing_put_references(unsigned char *v1, unsigned char *v2, unsigned char *v3, uint64_t v4);
static void nd_ndef_types_prefixes_split(unsigned char *v1, unsigned char *v2, uint64_t v3);
static uint64_t nd_core_cmp_bytes_read_u32_be(unsigned char *v1, uint64_t v2);
static struct nd_8_8 nd_ndef_c_reasons_reason_of(uint32_t v1);
static struct nd_ptr_64 nd_ndef_format_reason_Reason_sentence(uint8_t v1);
static void nd_ndef_lang_place_refusal_of(unsigned char *v1, uint8_t v2, uint8_t v3, unsigned char *v4, uint64_t v5);
static void nd_ndef_c_refusal_refuse(uint64_t v1, uint8_t v2, unsigned char *v3);
static uint8_t nd_ndef_format_reason_Reason_number(uint8_t v1);
static uint32_t nd_ndef_c_checking_check_in(unsigned char *v1, uint64_t v2, unsigned char *v3, unsigned char *v4);
static void nd_ndef_message_message_viewing_view(unsigned char *v1, unsigned char *v2, uint64_t v3, unsigned char *v4);
static uint8_t nd_ndef_piece_whole_WholePiece_is_record_at(unsigned char *v1, unsigned char *v2);
static uint8_t nd_ndef_piece_whole_WholePiece_opens_at(unsigned char *v1, unsigned char *v2);
static uint8_t nd_ndef_nest_member_is_nested(uint8_t v1, uint32_t v2, uint8_t v3, unsigned char *v4, uint64_t v5);
static uint8_t nd_ndef_nest_member_are_records(uint8_t v1, uint32_t v2, uint8_t v3, unsigned char *v4, uint64_t v5);
static uint8_t nd_ndef_format_table_Table_kind(uint8_t v1, uint8_t v2, unsigned char *v3, uint64_t v4);
static void nd_ndef_message_judging_judge(unsigned char *v1, unsigned char *v2, unsigned char *v3, uint64_t v4);
static struct nd_8_8 nd_ndef_piece_conditions_first_reason(unsigned char *v1, uint8_t v2);
static void nd_ndef_message_checker_Checker_feed_tried(unsigned char *v1, unsigned char *v2, unsigned char *v3, uint64_t v4, uint8_t v5);
static uint64_t nd_ndef_message_state_State_take_chunks(unsigned char *v1, unsigned char *v2, unsigned char *v3, uint64_t v4);
static uint8_t nd_ndef_nest_typed_TypedRecordLanguage_is_open(unsigned char *v1);
static void nd_ndef_message_accepted_accepted_chunks(unsigned char *v1, unsigned char *v2, unsigned char *v3, unsigned char *v4, uint64_t v5);
static uint8_t nd_ndef_piece_whole_WholePiece_goes_on_at(unsigned char *v1, unsigned char *v2);
static uint8_t nd_ndef_nest_typed_TypedRecordLanguage_takes_all(uint8_t v1, unsigned char *v2, uint64_t v3);
static void nd_ndef_message_accepted_accepted_run(unsigned char *v1, unsigned char *v2, unsigned char *v3, unsigned char *v4, uint64_t v5);
static uint64_t nd_ndef_message_checker_Checker_step(unsigned char *v1, unsigned char *v2, uint64_t v3);
static void nd_ndef_message_state_State_begin_record(unsigned char *v1, unsigned char *v2, unsigned char *v3);
static uint8_t nd_ndef_nest_typed_TypedRecordLanguage_fits(unsigned char *v1, uint64_t v2, uint64_t v3);
static void nd_ndef_message_state_State_advance_field(unsigned char *v1, unsigned char *v2, unsigned char *v3, uint8_t v4, uint32_t v5);
static void nd_ndef_message_phase_Place_after(unsigned char *v1, unsigned char *v2, unsigned char *v3, unsigned char *v4);
static void nd_ndef_message_state_State_start_body(unsigned char *v1, unsigned char *v2, uint64_t v3, unsigned char *v4, uint8_t v5, uint32_t v6);
static void nd_ndef_lang_type_name_TypeName_push_all(unsigned char *v1, unsigned char *v2, uint64_t v3);
static uint64_t nd_ndef_nest_typed_TypedRecordLanguage_step_all(unsigned char *v1, unsigned char *v2, uint64_t v3, uint64_t v4, uint64_t v5);
static uint8_t nd_ndef_nest_typed_TypedRecordLanguage_reason(unsigned char *v1);
static uint32_t nd_ndef_c_checking_check_in_2(unsigned char *v1, uint64_t v2, unsigned char *v3, unsigned char *v4);
static void nd_ndef_message_judging_judge_2(unsigned char *v1, unsigned char *v2, unsigned char *v3, uint64_t v4);
static void nd_ndef_message_checker_Checker_feed_tried_2(unsigned char *v1, unsigned char *v2, unsigned char *v3, uint64_t v4, uint8_t v5);
static uint64_t nd_ndef_message_state_State_take_chunks_2(unsigned char *v1, unsigned char *v2, unsigned char *v3, uint64_t v4);
static uint64_t nd_ndef_message_checker_Checker_step_2(unsigned char *v1, unsigned char *v2, uint64_t v3);
static void nd_ndef_message_state_State_begin_record_2(unsigned char *v1, unsigned char *v2, unsigned char *v3);
static uint8_t nd_ndef_lang_opaque_OpaqueRecordLanguage_fits(uint64_t v1, uint64_t v2);
static void nd_ndef_message_state_State_advance_field_2(unsigned char *v1, unsigned char *v2, unsigned char *v3, uint8_t v4, uint32_t v5);
static void nd_ndef_message_state_State_start_body_2(unsigned char *v1, unsigned char *v2, uint64_t v3, unsigned char *v4, uint8_t v5, uint32_t v6);
static void nd_ndef_diagnostics_few_small_message(unsigned char *v1, unsigned char *v2, uint64_t v3);
static void nd_ndef_message_judging_judge_3(unsigned char *v1, unsigned char *v2, unsigned char *v3, uint64_t v4);
static uint64_t nd_ndef_message_state_State_take_chunks_3(unsigned char *v1, unsigned char *v2, unsigned char *v3, uint64_t v4);
static uint64_t nd_ndef_message_checker_Checker_step_3(unsigned char *v1, unsigned char *v2, uint64_t v3);
static void nd_ndef_message_state_State_begin_record_3(unsigned char *v1, unsigned char *v2, unsigned char *v3);
static void nd_ndef_message_state_State_advance_field_3(unsigned char *v1, unsigned char *v2, unsigned char *v3, uint8_t v4, uint32_t v5);
static void nd_ndef_message_state_State_start_body_3(unsigned char *v1, unsigned char *v2, uint64_t v3, unsigned char *v4, uint8_t v5, uint32_t v6);
static void nd_ndef_message_items_ItemsIterator_next(unsigned char *v1, unsigned char *v2);
static void nd_ndef_message_checked_bytes_first_piece(unsigned char *v1, unsigned char *v2, uint64_t v3);
static uint8_t nd_ndef_message_item_Item_tnf(unsigned char *v1);
static void nd_ndef_message_item_Item_first(unsigned char *v1, unsigned char *v2);
static struct nd_ptr_64 nd_ndef_message_item_Item_kind(unsigned char *v1);
static struct nd_ptr_64 nd_ndef_diagnostics_few_whole_payload(unsigned char *v1);
static void nd_ndef_diagnostics_record_remark_held_remark(unsigned char *v1, uint8_t v2, unsigned char *v3, uint64_t v4, unsigned char *v5);
static uint8_t nd_ndef_diagnostics_poster_remark_is_title(unsigned char *v1);
static struct nd_ptr_64 nd_ndef_diagnostics_poster_remark_language_of(unsigned char *v1, uint64_t v2);
static uint8_t nd_core_str_ascii_slice_u8_eq_ignore_ascii_case(unsigned char *v1, uint64_t v2, unsigned char *v3, uint64_t v4);
static uint8_t nd_ndef_diagnostics_handover_remark_is_carrier(unsigned char *v1);
static void nd_ndef_diagnostics_handover_remark_reference_remark(unsigned char *v1, unsigned char *v2, unsigned char *v3);
static uint8_t nd_ndef_diagnostics_handover_remark_has_dangling(uint8_t v1, unsigned char *v2, uint64_t v3, unsigned char *v4);
static uint64_t nd_ndef_diagnostics_few_count_id(unsigned char *v1, unsigned char *v2, uint64_t v3);
static struct nd_ptr_64 nd_ndef_message_item_Item_id(unsigned char *v1);
static uint8_t nd_core_slice_scan_any_in_quarters(unsigned char *v1, uint64_t v2, uint64_t v3);
static uint8_t nd_core_slice_scan_any_in_ends(unsigned char *v1, uint64_t v2, uint64_t v3);
static uint64_t nd_core_slice_scan_skip_groups(unsigned char *v1, uint64_t v2, uint64_t v3, uint64_t v4);
static uint8_t nd_core_slice_scan_any_by_one(unsigned char *v1, uint64_t v2);
static uint8_t nd_core_slice_scan_any_in_run(unsigned char *v1, uint64_t v2, uint64_t v3);
static uint8_t nd_core_cmp_slices_groups_equal(unsigned char *v1, uint64_t v2, unsigned char *v3, uint64_t v4);
static uint8_t nd_ndef_c_appending_may_join(unsigned char *v1, uint64_t v2, unsigned char *v3, uint64_t v4);
static uint8_t nd_ndef_c_building_may_grow(unsigned char *v1, uint64_t v2, unsigned char *v3);
static uint32_t nd_ndef_c_building_append_pending_record(unsigned char *v1, uint64_t v2, unsigned char *v3, unsigned char *v4, unsigned char *v5);
static void nd_ndef_c_text_text_content(unsigned char *v1, unsigned char *v2, uint64_t v3, unsigned char *v4, uint64_t v5, uint32_t v6);
static uint8_t nd_core_slice_words_any_by_first(unsigned char *v1, uint64_t v2);
static void nd_ndef_c_layout_field_of(unsigned char *v1, unsigned char *v2);
static uint8_t nd_ndef_c_layout_fits(unsigned char *v1, uint64_t v2, uint64_t v3);
static uint32_t nd_ndef_c_kinds_ndef_kind(unsigned char *v1, uint64_t v2, unsigned char *v3, uint32_t v4);
static uint32_t nd_ndef_c_finding_find(unsigned char *v1, uint64_t v2, uint64_t v3, unsigned char *v4, unsigned char *v5);
static uint8_t nd_ndef_c_titles_is_poster(unsigned char *v1, uint64_t v2);
static uint8_t nd_ndef_c_handover_is_nest(uint8_t v1, unsigned char *v2, uint64_t v3);
static void nd_ndef_lang_place_refusal_of_2(unsigned char *v1, uint8_t v2, uint8_t v3, unsigned char *v4, uint64_t v5);
static void nd_ndef_c_nested_first_of(unsigned char *v1, uint8_t v2, unsigned char *v3, uint64_t v4, uint8_t v5);
static uint32_t nd_ndef_c_fields_ndef_field_at(unsigned char *v1, uint64_t v2, unsigned char *v3, uint64_t v4, unsigned char *v5, unsigned char *v6);
static void nd_ndef_c_fields_typed_limits(unsigned char *v1, unsigned char *v2);
static void nd_ndef_c_fields_checked_front(unsigned char *v1, unsigned char *v2, uint64_t v3, unsigned char *v4, unsigned char *v5);
static void nd_ndef_fields_report_fields_before(unsigned char *v1, unsigned char *v2, uint64_t v3);
static struct nd_ptr_64 nd_ndef_fields_heads_after_pieces(unsigned char *v1, uint64_t v2);
static void nd_ndef_fields_front_piece_front(unsigned char *v1, unsigned char *v2, uint64_t v3);
static void nd_ndef_fields_payload_contents_of(unsigned char *v1, uint8_t v2, unsigned char *v3, uint64_t v4);
static void nd_ndef_fields_stage_Stage_of(unsigned char *v1, uint8_t v2);
static void nd_ndef_fields_begun_begin_with(unsigned char *v1, uint64_t v2, uint64_t v3, unsigned char *v4, unsigned char *v5);
static void nd_ndef_fields_message_fields_FieldsIterator_next(unsigned char *v1, unsigned char *v2);
static void nd_ndef_fields_cursor_tell(unsigned char *v1, unsigned char *v2);
static uint64_t nd_ndef_fields_stage_mark_length(unsigned char *v1, uint64_t v2);
static void nd_ndef_fields_stage_cut_octet(unsigned char *v1, uint8_t v2, uint8_t v3, unsigned char *v4, uint64_t v5);
static void nd_ndef_c_hints_hint_of(unsigned char *v1, unsigned char *v2, uint64_t v3, unsigned char *v4);
static void nd_ndef_c_refusal_message_refusal_of(unsigned char *v1, unsigned char *v2, uint64_t v3, unsigned char *v4);
static uint8_t nd_core_slice_reads_slice_T_starts_with(unsigned char *v1, uint64_t v2, unsigned char *v3, uint64_t v4);
static uint8_t nd_ndef_diagnostics_dump_text_is_digit(uint8_t v1);
static uint8_t nd_ndef_diagnostics_dump_text_may_be_base64(unsigned char *v1, uint64_t v2);
static uint64_t nd_ndef_diagnostics_tag_memory_value_at(unsigned char *v1, uint64_t v2, uint64_t v3);
static uint32_t nd_ndef_diagnostics_tag_memory_value_length(unsigned char *v1, uint64_t v2, uint64_t v3);
static uint32_t nd_ndef_diagnostics_tag_memory_two_octets(unsigned char *v1, uint64_t v2, uint64_t v3);
static void nd_ndef_diagnostics_tag_memory_in_other(unsigned char *v1, unsigned char *v2, uint64_t v3);
static uint8_t nd_ndef_diagnostics_hint_begins(unsigned char *v1, uint64_t v2, unsigned char *v3);
static void nd_ndef_message_judging_judge_4(unsigned char *v1, unsigned char *v2, unsigned char *v3, uint64_t v4);
static uint64_t nd_ndef_message_state_State_take_chunks_4(unsigned char *v1, unsigned char *v2, unsigned char *v3, uint64_t v4);
static uint64_t nd_ndef_message_checker_Checker_step_4(unsigned char *v1, unsigned char *v2, uint64_t v3);
static void nd_ndef_message_state_State_begin_record_4(unsigned char *v1, unsigned char *v2, unsigned char *v3);
static void nd_ndef_message_state_State_advance_field_4(unsigned char *v1, unsigned char *v2, unsigned char *v3, uint8_t v4, uint32_t v5);
static void nd_ndef_message_state_State_start_body_4(unsigned char *v1, unsigned char *v2, uint64_t v3, unsigned char *v4, uint8_t v5, uint32_t v6);
static void nd_ndef_diagnostics_hint_wording_push_both(unsigned char *v1, uint64_t v2, unsigned char *v3, uint64_t v4);
static void nd_ndef_fields_heads_whole_pieces(unsigned char *v1, unsigned char *v2, uint64_t v3);
static uint64_t nd_ndef_diagnostics_begun_head_length(unsigned char *v1, uint64_t v2);
static uint64_t nd_ndef_diagnostics_begun_before_payload(unsigned char *v1, uint64_t v2);
static uint8_t nd_ndef_diagnostics_begun_id_length(unsigned char *v1, uint64_t v2);
static uint64_t nd_ndef_diagnostics_begun_least_record(unsigned char *v1, uint64_t v2);
static uint64_t nd_ndef_diagnostics_begun_payload_length(unsigned char *v1, uint64_t v2);
static uint8_t nd_ndef_diagnostics_expecting_kind_begun(unsigned char *v1, uint64_t v2);
static uint8_t nd_ndef_diagnostics_begun_is_kind_whole(unsigned char *v1, uint64_t v2);
static uint8_t nd_ndef_diagnostics_begun_is_lengths_whole(unsigned char *v1, uint64_t v2);
static uint8_t nd_ndef_diagnostics_begun_is_size_known(unsigned char *v1, uint64_t v2);
static uint8_t nd_ndef_diagnostics_poster_heads_has_no_payload(unsigned char *v1, uint64_t v2);
static void nd_ndef_diagnostics_length_mismatch_length_mismatch(unsigned char *v1, uint8_t v2, uint64_t v3, unsigned char *v4, uint64_t v5);
static void nd_ndef_diagnostics_sentence_Sentence_push_octets(unsigned char *v1, uint64_t v2);
static void nd_ndef_diagnostics_sentence_Sentence_push_kind(unsigned char *v1, uint8_t v2);
static struct nd_ptr_64 nd_ndef_format_kind_Kind_name(uint8_t v1);
static void nd_ndef_diagnostics_sentence_Sentence_push_given(unsigned char *v1, uint64_t v2);
static void nd_ndef_diagnostics_sentence_Sentence_push_left(unsigned char *v1, uint64_t v2);
static struct nd_ptr_64 nd_ndef_types_text_TextParts_octets(unsigned char *v1);
static void nd_ndef_types_text_TextParts_split(unsigned char *v1, unsigned char *v2);
static void nd_ndef_c_utf16_put_in_utf8(unsigned char *v1, uint8_t v2, unsigned char *v3, uint64_t v4);
static void nd_ndef_c_poster_parts_known_made(unsigned char *v1, uint8_t v2, unsigned char *v3);
static void nd_ndef_c_poster_writing_media_octets(unsigned char *v1, unsigned char *v2);
static void nd_ndef_c_poster_writing_asked_series(unsigned char *v1, uint32_t v2, uint8_t v3, unsigned char *v4, uint64_t v5);
static uint32_t nd_ndef_c_series_writing_give_message(unsigned char *v1, uint64_t v2, unsigned char *v3, uint64_t v4, unsigned char *v5, uint64_t v6, unsigned char *v7);
static uint64_t nd_ndef_c_record_list_series_count(unsigned char *v1);
static uint8_t nd_ndef_c_series_writing_put_message(unsigned char *v1, unsigned char *v2, uint64_t v3, unsigned char *v4, uint64_t v5, uint64_t v6);
static void nd_core_option_OptionTry_branch(unsigned char *v1, unsigned char *v2);
static void nd_ndef_c_text_text_at(unsigned char *v1, unsigned char *v2, uint64_t v3);
static uint8_t nd_ndef_c_titles_is_title(uint8_t v1, unsigned char *v2, uint64_t v3);
static void nd_ndef_c_titles_text_of(unsigned char *v1, unsigned char *v2, unsigned char *v3);
static void nd_ndef_c_items_item_of(unsigned char *v1, unsigned char *v2, uint64_t v3, unsigned char *v4, uint8_t v5);
static uint8_t nd_ndef_c_handover_is_handover(unsigned char *v1, uint64_t v2);
static uint8_t nd_ndef_c_query_wants(unsigned char *v1, unsigned char *v2);
static uint8_t nd_ndef_c_nested_is_alternative(uint8_t v1, unsigned char *v2, uint64_t v3);
static void nd_ndef_c_links_LinksRecordQuery_given(unsigned char *v1, unsigned char *v2, unsigned char *v3);
static uint64_t nd_ndef_c_nested_alternatives_in(unsigned char *v1, uint64_t v2);
static uint8_t nd_ndef_c_query_wants_2(unsigned char *v1, unsigned char *v2);
static void nd_ndef_c_writing_asked_parts(unsigned char *v1, unsigned char *v2, uint64_t v3, unsigned char *v4, uint64_t v5, unsigned char *v6, uint64_t v7, unsigned char *v8);
static void nd_ndef_c_writing_way_of(unsigned char *v1, unsigned char *v2);
static void nd_ndef_c_writer_plan_of(unsigned char *v1, unsigned char *v2, uint64_t v3, uint64_t v4, uint64_t v5);
static uint8_t nd_ndef_message_stepping_can_be_written(unsigned char *v1);
static void nd_ndef_message_stepping_chunk_at(unsigned char *v1, unsigned char *v2, uint64_t v3);
static uint64_t nd_ndef_message_stepping_front_length(unsigned char *v1, unsigned char *v2);
static void nd_ndef_message_stepping_head_of(unsigned char *v1, unsigned char *v2, unsigned char *v3);
static uint64_t nd_ndef_message_stepping_put_front(unsigned char *v1, uint64_t v2, unsigned char *v3, uint64_t v4, unsigned char *v5, uint64_t v6, uint64_t v7, unsigned char *v8, uint64_t v9, uint64_t v10);
static uint64_t nd_ndef_message_stepping_put(unsigned char *v1, uint64_t v2, unsigned char *v3, uint64_t v4, uint64_t v5);
static uint64_t nd_ndef_c_fields_count_of(unsigned char *v1);
static uint64_t nd_ndef_c_fields_write_fields(unsigned char *v1, unsigned char *v2);
static void nd_ndef_fields_report_payload_fields(unsigned char *v1, uint8_t v2, unsigned char *v3, uint64_t v4);
static void nd_ndef_default_limits(unsigned char *v1);
static uint32_t nd_ndef_field_name(uint32_t v1, unsigned char *v2, uint64_t v3, unsigned char *v4);
static uint32_t nd_ndef_field_warning(uint32_t v1, unsigned char *v2, uint64_t v3, unsigned char *v4, uint64_t v5, unsigned char *v6);
static uint32_t nd_ndef_uri_prefix(uint32_t v1, unsigned char *v2, uint64_t v3, unsigned char *v4);
static uint32_t nd_ndef_version(void);
static uint32_t nd_ndef_write_action(uint32_t v1, unsigned char *v2, uint64_t v3, unsigned char *v4);
static uint32_t nd_ndef_write_collision(uint32_t v1, unsigned char *v2, uint64_t v3, unsigned char *v4);
static uint32_t nd_ndef_write_size(uint32_t v1, unsigned char *v2, uint64_t v3, unsigned char *v4);
static uint32_t nd_ndef_begin(unsigned char *v1, unsigned char *v2);
static uint32_t nd_ndef_write_carrier(uint32_t v1, unsigned char *v2, uint64_t v3, unsigned char *v4, uint64_t v5, unsigned char *v6, uint64_t v7, unsigned char *v8);
static uint32_t nd_ndef_write_error(uint32_t v1, unsigned char *v2, uint64_t v3, unsigned char *v4, uint64_t v5, unsigned char *v6);
static uint32_t nd_ndef_write_error_number(uint32_t v1, uint32_t v2, unsigned char *v3, uint64_t v4, unsigned char *v5);
static uint32_t nd_ndef_write_handover(uint32_t v1, uint32_t v2, uint32_t v3, unsigned char *v4, uint64_t v5, unsigned char *v6, uint64_t v7, unsigned char *v8);
static uint32_t nd_ndef_normalize(unsigned char *v1, uint64_t v2, uint32_t v3, unsigned char *v4, uint64_t v5, unsigned char *v6);
static uint32_t nd_ndef_write_alternative(uint32_t v1, unsigned char *v2, uint64_t v3, unsigned char *v4, uint64_t v5, unsigned char *v6, uint64_t v7, unsigned char *v8);
static uint32_t nd_ndef_write_uri(unsigned char *v1, uint64_t v2, unsigned char *v3, uint64_t v4, unsigned char *v5);
static uint32_t nd_ndef_reason_name(uint32_t v1, unsigned char *v2, uint64_t v3, unsigned char *v4);
static uint32_t nd_ndef_reason_sentence(uint32_t v1, unsigned char *v2, uint64_t v3, unsigned char *v4);
static uint32_t nd_ndef_payload(unsigned char *v1, uint64_t v2, uint64_t v3, unsigned char *v4, uint64_t v5, unsigned char *v6);
static uint32_t nd_ndef_record_at(unsigned char *v1, uint64_t v2, uint64_t v3, unsigned char *v4);
static uint32_t nd_ndef_reference(unsigned char *v1, uint64_t v2, uint64_t v3, unsigned char *v4);
static uint32_t nd_ndef_alternative(unsigned char *v1, uint64_t v2, unsigned char *v3, unsigned char *v4);
static uint32_t nd_ndef_carrier(unsigned char *v1, uint64_t v2, unsigned char *v3, unsigned char *v4);
static uint32_t nd_ndef_check(unsigned char *v1, uint64_t v2, unsigned char *v3, unsigned char *v4);
static uint32_t nd_ndef_feed(unsigned char *v1, unsigned char *v2, uint64_t v3, unsigned char *v4);
static uint32_t nd_ndef_uri(unsigned char *v1, uint64_t v2, uint32_t v3, unsigned char *v4, uint64_t v5, unsigned char *v6, unsigned char *v7);
static uint32_t nd_ndef_record_warning(unsigned char *v1, uint64_t v2, uint64_t v3, unsigned char *v4, uint64_t v5, unsigned char *v6);
static uint32_t nd_ndef_append_uri(unsigned char *v1, unsigned char *v2, uint64_t v3, unsigned char *v4, uint64_t v5, unsigned char *v6, uint64_t v7, unsigned char *v8);
static uint32_t nd_ndef_error(unsigned char *v1, uint64_t v2, unsigned char *v3, unsigned char *v4);
static uint32_t nd_ndef_chunks(unsigned char *v1, uint64_t v2, uint64_t v3, unsigned char *v4, uint64_t v5, unsigned char *v6);
static uint32_t nd_ndef_references(unsigned char *v1, uint64_t v2, unsigned char *v3, uint64_t v4, unsigned char *v5);
static uint32_t nd_ndef_append_text(unsigned char *v1, unsigned char *v2, uint64_t v3, unsigned char *v4, uint64_t v5, unsigned char *v6, uint64_t v7, uint32_t v8, unsigned char *v9, uint64_t v10, unsigned char *v11);
static uint32_t nd_ndef_write_text(unsigned char *v1, uint64_t v2, unsigned char *v3, uint64_t v4, uint32_t v5, unsigned char *v6, uint64_t v7, unsigned char *v8);
static uint32_t nd_ndef_status_name(uint32_t v1, unsigned char *v2, uint64_t v3, unsigned char *v4);
static uint32_t nd_ndef_check_layout(unsigned char *v1, uint64_t v2, unsigned char *v3, uint64_t v4, unsigned char *v5);
static uint32_t nd_ndef_kind(unsigned char *v1, uint64_t v2, unsigned char *v3, uint32_t v4);
static uint32_t nd_ndef_find_id(unsigned char *v1, uint64_t v2, uint64_t v3, unsigned char *v4, uint64_t v5, unsigned char *v6);
static uint32_t nd_ndef_find_type(unsigned char *v1, uint64_t v2, uint64_t v3, uint32_t v4, unsigned char *v5, uint64_t v6, unsigned char *v7);
static uint32_t nd_ndef_poster_media_type(unsigned char *v1, uint64_t v2, unsigned char *v3);
static uint32_t nd_ndef_field_at(unsigned char *v1, uint64_t v2, unsigned char *v3, uint64_t v4, unsigned char *v5, unsigned char *v6);
static uint32_t nd_ndef_find_hint(unsigned char *v1, uint64_t v2, unsigned char *v3, unsigned char *v4);
static uint32_t nd_ndef_hint(unsigned char *v1, uint64_t v2, unsigned char *v3, unsigned char *v4, uint64_t v5, unsigned char *v6);
static uint32_t nd_ndef_next_field(unsigned char *v1, uint64_t v2, unsigned char *v3, unsigned char *v4, unsigned char *v5);
static uint32_t nd_ndef_refusal_message(unsigned char *v1, uint64_t v2, unsigned char *v3, unsigned char *v4, uint64_t v5, unsigned char *v6);
static uint32_t nd_ndef_text_in_utf8(unsigned char *v1, uint64_t v2, unsigned char *v3, uint64_t v4, unsigned char *v5, unsigned char *v6);
static uint32_t nd_ndef_split_uri(unsigned char *v1, uint64_t v2, uint32_t v3, unsigned char *v4, unsigned char *v5);
static uint32_t nd_ndef_write_poster(unsigned char *v1, uint64_t v2, unsigned char *v3, unsigned char *v4, uint64_t v5, unsigned char *v6, uint64_t v7, unsigned char *v8, uint64_t v9, unsigned char *v10);
static uint32_t nd_ndef_poster(unsigned char *v1, uint64_t v2, uint32_t v3, unsigned char *v4, unsigned char *v5);
static uint32_t nd_ndef_text(unsigned char *v1, uint64_t v2, unsigned char *v3, unsigned char *v4);
static uint32_t nd_ndef_title(unsigned char *v1, uint64_t v2, unsigned char *v3, uint64_t v4, unsigned char *v5);
static uint32_t nd_ndef_items(unsigned char *v1, uint64_t v2, unsigned char *v3, unsigned char *v4, unsigned char *v5, uint64_t v6);
static uint32_t nd_ndef_write_request(uint32_t v1, uint32_t v2, unsigned char *v3, uint64_t v4, unsigned char *v5, uint64_t v6, unsigned char *v7, uint64_t v8, unsigned char *v9, uint64_t v10, unsigned char *v11);
static uint32_t nd_ndef_write_select(unsigned char *v1, unsigned char *v2, uint64_t v3, unsigned char *v4, uint64_t v5, unsigned char *v6, uint64_t v7, unsigned char *v8, uint64_t v9, unsigned char *v10);
static uint32_t nd_ndef_link_at(unsigned char *v1, uint64_t v2, unsigned char *v3, uint64_t v4, uint64_t v5, unsigned char *v6);
static uint32_t nd_ndef_request(unsigned char *v1, uint64_t v2, uint32_t v3, unsigned char *v4, unsigned char *v5);
static uint32_t nd_ndef_select(unsigned char *v1, uint64_t v2, uint32_t v3, unsigned char *v4, unsigned char *v5);
static uint32_t nd_ndef_links(unsigned char *v1, uint64_t v2, unsigned char *v3, uint64_t v4, unsigned char *v5, uint64_t v6, unsigned char *v7);
static uint32_t nd_ndef_poster_icons(unsigned char *v1, uint64_t v2, unsigned char *v3, uint64_t v4, unsigned char *v5);
static uint32_t nd_ndef_poster_titles(unsigned char *v1, uint64_t v2, unsigned char *v3, uint64_t v4, unsigned char *v5);
static uint32_t nd_ndef_append(unsigned char *v1, unsigned char *v2, uint64_t v3, unsigned char *v4, uint64_t v5, unsigned char *v6, uint64_t v7, unsigned char *v8, unsigned char *v9, uint64_t v10, unsigned char *v11);
static uint32_t nd_ndef_write_record(unsigned char *v1, uint64_t v2, unsigned char *v3, uint64_t v4, unsigned char *v5, uint64_t v6, unsigned char *v7, unsigned char *v8, uint64_t v9, unsigned char *v10);
static uint32_t nd_ndef_writer_begin(unsigned char *v1, uint64_t v2, uint64_t v3, uint64_t v4, unsigned char *v5);
static uint32_t nd_ndef_writer_next(unsigned char *v1, unsigned char *v2, uint64_t v3, unsigned char *v4, uint64_t v5, unsigned char *v6, uint64_t v7, unsigned char *v8, uint64_t v9, unsigned char *v10);
static uint32_t nd_ndef_fields(unsigned char *v1, uint64_t v2, unsigned char *v3, unsigned char *v4, uint64_t v5, unsigned char *v6, unsigned char *v7);
static uint32_t nd_ndef_payload_fields(uint32_t v1, unsigned char *v2, uint64_t v3, unsigned char *v4, uint64_t v5, unsigned char *v6, uint64_t v7, unsigned char *v8);

static struct nd_ptr_64 nd_ndef_fields_name_FieldName_text(uint8_t v1) {
    return (struct nd_ptr_64) { nd_load_ptr(((unsigned char *)&nd_data_switch_table_ndef_fields_name_FieldName_text_1 + (ptrdiff_t)(uint64_t)v1 * 8)), nd_load_64(((unsigned char *)nd_data_switch_table_ndef_fields_name_FieldName_text + (ptrdiff_t)(uint64_t)v1 * 8)) };
}

static uint32_t nd_ndef_c_buffer_give(unsigned char *v1, uint64_t v2, unsigned char *v3, uint64_t v4, unsigned char *v5) {
    uint32_t v7;
    nd_store_64(v5, v2);
    if (v4 < v2) { v7 = 2U; goto L1; }
    goto L2;
L1:;
    return v7;
L2:;
    nd_core_slice_edits_slice_T_copy_from_slice(v3, v1, v2);
    v7 = 0U;
    goto L1;
}

static void nd_core_slice_edits_slice_T_copy_from_slice(unsigned char *v1, unsigned char *v2, uint64_t v3) {
    uint64_t v8;
    if (((uint64_t)(uintptr_t)v1 - (uint64_t)(uintptr_t)v2) < v3) { v8 = 0ULL; goto L2; }
    nd_move(v1, v2, v3);
    goto L4;
L2:;
    if (v8 == v3) goto L4;
    nd_store_8((v1 + (ptrdiff_t)v8), nd_load_8((v2 + (ptrdiff_t)v8)));
    v8 = v8 + 1ULL;
    goto L2;
L4:;
    return;
}

static uint32_t nd_ndef_c_warnings_give_remark(unsigned char *v1, unsigned char *v2, uint64_t v3, unsigned char *v4) {
    uint8_t v8, v10;
    uint32_t v22, v23;
    ND_ROOM(200) v5, v11, v12;
    v8 = nd_load_8(((unsigned char *)((uintptr_t)v1 + 1)));
    v10 = nd_load_8(((unsigned char *)((uintptr_t)v1 + 2)));
    if (!(nd_load_8(v1) == 1)) { v23 = 4U; goto L11; }
    nd_memset(v5.b, 0, 200);
    switch (v8) {
    case 1: goto L2;
    case 2: goto L3;
    case 3: goto L4;
    case 4: goto L5;
    case 5: goto L6;
    case 6: goto L7;
    case 0: goto L8;
    case 7: goto L8;
    case 8: goto L8;
    case 9: goto L8;
    case 10: goto L8;
    case 11: goto L8;
    case 12: goto L8;
    case 13: goto L8;
    default: goto L9; }
L2:;
    nd_ndef_diagnostics_remark_numbered(v5.b, (unsigned char *)nd_data_static_31, 20ULL, v10, (unsigned char *)nd_data_static_32, 62ULL);
    goto L10;
L3:;
    nd_ndef_diagnostics_remark_numbered(v5.b, (unsigned char *)nd_data_static_33, 11ULL, v10, (unsigned char *)nd_data_static_34, 13ULL);
    goto L10;
L4:;
    nd_ndef_diagnostics_remark_numbered(v5.b, (unsigned char *)nd_data_static_35, 17ULL, v10, (unsigned char *)nd_data_static_34, 13ULL);
    goto L10;
L5:;
    nd_ndef_diagnostics_remark_numbered(v5.b, (unsigned char *)nd_data_static_36, 24ULL, v10, (unsigned char *)nd_data_static_34, 13ULL);
    goto L10;
L6:;
    nd_ndef_diagnostics_remark_numbered(v5.b, (unsigned char *)nd_data_static_37, 10ULL, v10, (unsigned char *)nd_data_static_38, 50ULL);
    goto L10;
L7:;
    nd_ndef_diagnostics_remark_numbered(v5.b, (unsigned char *)nd_data_static_39, 19ULL, v10, (unsigned char *)nd_data_static_40, 59ULL);
    goto L10;
L8:;
    nd_ndef_diagnostics_sentence_Sentence_of(v5.b, nd_load_ptr(((unsigned char *)&nd_data_switch_table_ndef_c_warnings_give_remark_2 + (ptrdiff_t)(uint64_t)v8 * 8)), nd_load_64(((unsigned char *)nd_data_switch_table_ndef_c_warnings_give_remark + (ptrdiff_t)(uint64_t)v8 * 8)));
    goto L10;
L9:;
    nd_stop();
L10:;
    nd_memcpy(v12.b, v5.b, 200);
    nd_memcpy(v11.b, v12.b, 200);
    v22 = nd_ndef_c_buffer_give(v11.b, nd_load_64((v11.b + 192)), v2, v3, v4);
    v23 = v22;
L11:;
    return v23;
}

static void nd_ndef_diagnostics_remark_numbered(unsigned char *v1, unsigned char *v2, uint64_t v3, uint8_t v4, unsigned char *v5, uint64_t v6) {
    ND_ROOM(200) v7;
    nd_memset(v7.b, 0, 200);
    nd_ndef_diagnostics_sentence_Sentence_new(v7.b);
    nd_ndef_diagnostics_sentence_Sentence_push(v7.b, v2, v3);
    nd_ndef_diagnostics_sentence_Sentence_push_number(v7.b, (uint64_t)v4);
    nd_ndef_diagnostics_sentence_Sentence_push(v7.b, v5, v6);
    nd_memcpy(v1, v7.b, 200);
    return;
}

static void nd_ndef_diagnostics_sentence_Sentence_new(unsigned char *v1) {
    uint64_t v4;
    ND_ROOM(192) v2, v3;
    nd_memset(v2.b, 0, 192);
    v4 = 0ULL;
L1:;
    if (v4 == 192ULL) goto L3;
    nd_store_8((v2.b + (ptrdiff_t)v4), 0);
    v4 = v4 + 1ULL;
    goto L1;
L3:;
    nd_memcpy(v3.b, v2.b, 192);
    nd_memcpy(v1, v3.b, 192);
    nd_store_64((v1 + 192), 0ULL);
    return;
}

static void nd_ndef_diagnostics_sentence_Sentence_push_number(unsigned char *v1, uint64_t v2) {
    uint64_t v4, v5, v7, v8, v24, v37, v39, v63, v65, v74;
    uint16_t v11, v12, v47, v48;
    unsigned char *v17, *v21, *v27, *v31, *v41, *v45, *v53, *v57, *v68, *v72;
    uint8_t v20, v30, v44, v56, v71;
    ND_ROOM(40) v3;
    nd_memset(v3.b, 0, 40);
    v4 = 40ULL;
    v5 = v2;
L1:;
    if (!(v5 > 9999ULL)) goto L3;
    v7 = v5;
    v8 = v7 / 10000ULL;
    v11 = (uint16_t)(v7 - (v8 * 10000ULL));
    v12 = (uint16_t)(v11 / 100);
    v17 = (unsigned char *)nd_data_static_41 + (ptrdiff_t)(uint64_t)(uint16_t)((uint32_t)(uint16_t)(v11 - (uint16_t)((uint32_t)v12 * 100)) << 1);
    v20 = nd_load_8((v17 + 1));
    v21 = (unsigned char *)((uintptr_t)v3.b + (uintptr_t)v4);
    nd_store_8(((unsigned char *)((uintptr_t)v21 - 2)), nd_load_8(v17));
    nd_store_8(((unsigned char *)((uintptr_t)v21 - 1)), v20);
    v24 = v4 + 18446744073709551612ULL;
    v27 = (unsigned char *)nd_data_static_41 + (ptrdiff_t)(uint64_t)(uint16_t)((uint32_t)v12 << 1);
    v30 = nd_load_8((v27 + 1));
    v31 = v3.b + (ptrdiff_t)v24;
    nd_store_8(v31, nd_load_8(v27));
    nd_store_8(((unsigned char *)((uintptr_t)v31 + 1)), v30);
    v4 = v24;
    v5 = v8;
    goto L1;
L3:;
    if (!(v5 < 100ULL)) goto L7;
    if (!(v5 < 10ULL)) goto L6;
    v37 = v4 + 18446744073709551615ULL;
    nd_store_8((v3.b + (ptrdiff_t)v37), (uint8_t)((uint8_t)v5 | 48));
    v74 = v37;
    goto L10;
L6:;
    v39 = v4 + 18446744073709551614ULL;
    v41 = (unsigned char *)nd_data_static_41 + (ptrdiff_t)(v5 << 1);
    v44 = nd_load_8((v41 + 1));
    v45 = v3.b + (ptrdiff_t)v39;
    nd_store_8(v45, nd_load_8(v41));
    nd_store_8(((unsigned char *)((uintptr_t)v45 + 1)), v44);
    v74 = v39;
    goto L10;
L7:;
    v47 = (uint16_t)v5;
    v48 = (uint16_t)(v47 / 100);
    v53 = (unsigned char *)nd_data_static_41 + (ptrdiff_t)(uint64_t)(uint16_t)((uint32_t)(uint16_t)(v47 - (uint16_t)((uint32_t)v48 * 100)) << 1);
    v56 = nd_load_8((v53 + 1));
    v57 = (unsigned char *)((uintptr_t)v3.b + (uintptr_t)v4);
    nd_store_8(((unsigned char *)((uintptr_t)v57 - 2)), nd_load_8(v53));
    nd_store_8(((unsigned char *)((uintptr_t)v57 - 1)), v56);
    if (!(v5 < 1000ULL)) goto L9;
    v63 = v4 + 18446744073709551613ULL;
    nd_store_8((v3.b + (ptrdiff_t)v63), (uint8_t)((uint8_t)v48 | 48));
    v74 = v63;
    goto L10;
L9:;
    v65 = v4 + 18446744073709551612ULL;
    v68 = (unsigned char *)nd_data_static_41 + (ptrdiff_t)(uint64_t)(uint16_t)((uint32_t)v48 << 1);
    v71 = nd_load_8((v68 + 1));
    v72 = v3.b + (ptrdiff_t)v65;
    nd_store_8(v72, nd_load_8(v68));
    nd_store_8(((unsigned char *)((uintptr_t)v72 + 1)), v71);
    v74 = v65;
L10:;
    nd_ndef_diagnostics_sentence_Sentence_push(v1, ((unsigned char *)((uintptr_t)v3.b + (uintptr_t)v74)), (40ULL - v74));
    return;
}

static void nd_ndef_diagnostics_sentence_Sentence_push(unsigned char *v1, unsigned char *v2, uint64_t v3) {
    unsigned char *v4;
    uint64_t v5;
    v4 = (unsigned char *)((uintptr_t)v1 + 192);
    v5 = nd_load_64(v4);
    if (!((192ULL - v5) < v3)) goto L2;
    nd_stop();
L2:;
    nd_core_slice_edits_slice_T_copy_from_slice(((unsigned char *)((uintptr_t)v1 + (uintptr_t)v5)), v2, v3);
    nd_store_64(v4, (v5 + v3));
    return;
}

static void nd_ndef_diagnostics_sentence_Sentence_of(unsigned char *v1, unsigned char *v2, uint64_t v3) {
    ND_ROOM(200) v4;
    nd_memset(v4.b, 0, 200);
    nd_ndef_diagnostics_sentence_Sentence_new(v4.b);
    nd_ndef_diagnostics_sentence_Sentence_push(v4.b, v2, v3);
    nd_memcpy(v1, v4.b, 200);
    return;
}

static struct nd_ptr_64 nd_ndef_types_prefixes_prefix(uint8_t v1) {
    uint8_t v2;
    uint64_t v10;
    unsigned char *v11;
    v2 = (uint8_t)(v1 + 255);
    if (!(v2 < 35)) { v10 = 0ULL; v11 = (unsigned char *)nd_data_static_50; goto L2; }
    v10 = nd_load_64(((unsigned char *)nd_data_switch_table_ndef_types_prefixes_prefix + (ptrdiff_t)(uint64_t)v2 * 8));
    v11 = nd_load_ptr(((unsigned char *)&nd_data_switch_table_ndef_types_prefixes_prefix_3 + (ptrdiff_t)(uint64_t)v2 * 8));
L2:;
    return (struct nd_ptr_64) { v11, v10 };
}

static void nd_ndef_c_limits_limits_of(unsigned char *v1, unsigned char *v2) {
    uint32_t v5, v15, v17, v19;
    ND_ROOM(20) v3;
    nd_memset(v3.b, 0, 20);
    v5 = nd_load_32(((unsigned char *)((uintptr_t)v2 + 12)));
    if (v5 > 3U) goto L2;
    goto L3;
L1:;
    return;
L2:;
    nd_memset(v1, 0, 24);
    goto L1;
L3:;
    nd_ndef_value_limits_Limits_new(v3.b, nd_load_32(v2), nd_load_32(((unsigned char *)((uintptr_t)v2 + 4))), nd_load_32(((unsigned char *)((uintptr_t)v2 + 8))));
    if (!(nd_load_8(v3.b) == 0)) goto L5;
    v15 = nd_load_32((v3.b + 4));
    v17 = nd_load_32((v3.b + 8));
    v19 = nd_load_32((v3.b + 12));
    nd_store_32(v1, 1U);
    nd_store_32(((unsigned char *)((uintptr_t)v1 + 4)), v15);
    nd_store_32(((unsigned char *)((uintptr_t)v1 + 8)), v17);
    nd_store_32(((unsigned char *)((uintptr_t)v1 + 12)), v19);
    nd_store_8(((unsigned char *)((uintptr_t)v1 + 16)), (uint8_t)((uint8_t)v5 & 1));
    nd_memset(((unsigned char *)((uintptr_t)v1 + 17)), 0, 3);
    nd_store_8(((unsigned char *)((uintptr_t)v1 + 20)), (uint8_t)(v5 < 2U));
    nd_memset(((unsigned char *)((uintptr_t)v1 + 21)), 0, 3);
    goto L1;
L5:;
    nd_memset(v1, 0, 24);
    goto L1;
}

static void nd_ndef_value_limits_Limits_new(unsigned char *v1, uint32_t v2, uint32_t v3, uint32_t v4) {
    uint8_t v11;
    v11 = ((v2 == 0U) | (int)((v3 + 4294901760U) < 4294901761U)) | (int)((v4 + 4294901760U) < 4294901761U);
    nd_memset(((unsigned char *)((uintptr_t)v1 + 17)), 0, 3);
    nd_store_8(v1, (uint8_t)v11);
    nd_store_32(((unsigned char *)((uintptr_t)v1 + 4)), (v11 ? 0U : v2));
    nd_store_32(((unsigned char *)((uintptr_t)v1 + 8)), (v11 ? 0U : v3));
    nd_store_32(((unsigned char *)((uintptr_t)v1 + 12)), (v11 ? 0U : v4));
    nd_store_8(((unsigned char *)((uintptr_t)v1 + 16)), 0);
    return;
}

static void nd_ndef_message_checker_Checker_start(unsigned char *v1, unsigned char *v2) {
    uint32_t v4, v6, v8;
    uint8_t v10;
    ND_ROOM(3) v3;
    ND_ROOM(48) v12;
    ND_ROOM(12) v13;
    v4 = nd_load_32(v2);
    v6 = nd_load_32((v2 + 4));
    v8 = nd_load_32((v2 + 8));
    v10 = nd_load_8((v2 + 12));
    nd_memcpy(v3.b, (v2 + 13), 3);
    nd_store_8(v13.b, v10);
    nd_store_8((v13.b + 1), 1);
    nd_store_8((v13.b + 2), 0);
    nd_store_8((v13.b + 3), (uint8_t)(v8 == 1U));
    nd_store_8((v13.b + 4), (uint8_t)(v6 == 1U));
    nd_memset((v13.b + 5), 0, 3);
    nd_store_32((v13.b + 8), v4);
    nd_ndef_piece_head_reader_HeadReader_new(v12.b, v13.b);
    nd_store_32(v1, v4);
    nd_store_32((v1 + 4), v6);
    nd_store_32((v1 + 8), v8);
    nd_store_8((v1 + 12), v10);
    nd_memcpy((v1 + 13), v3.b, 3);
    nd_store_8((v1 + 16), 1);
    nd_store_8((v1 + 17), 0);
    nd_store_16((v1 + 18), 0);
    nd_store_32((v1 + 20), v6);
    nd_store_32((v1 + 24), v8);
    nd_store_32((v1 + 28), v4);
    nd_memcpy((v1 + 32), v12.b, 48);
    nd_memset((v1 + 80), 0, 13);
    nd_store_8((v1 + 93), 1);
    nd_memset((v1 + 94), 0, 370);
    return;
}

static void nd_ndef_message_phase_Place_spot(unsigned char *v1, unsigned char *v2, uint8_t v3) {
    uint8_t v4, v6;
    uint32_t v8, v12, v16;
    v4 = nd_load_8(v2);
    v6 = nd_load_8(((unsigned char *)((uintptr_t)v2 + 1)));
    v8 = nd_load_32(((unsigned char *)((uintptr_t)v2 + 8)));
    v12 = nd_load_32(((unsigned char *)((uintptr_t)v2 + 4)));
    v16 = nd_load_32(((unsigned char *)((uintptr_t)v2 + 12)));
    nd_store_8(v1, v3);
    nd_store_8((v1 + 1), v4);
    nd_store_8((v1 + 2), v6);
    nd_store_8((v1 + 3), (uint8_t)(v8 == 1U));
    nd_store_8((v1 + 4), (uint8_t)(v12 == 1U));
    nd_memset((v1 + 5), 0, 3);
    nd_store_32((v1 + 8), v16);
    return;
}

static void nd_ndef_piece_head_reader_HeadReader_new(unsigned char *v1, unsigned char *v2) {
    ND_ROOM(24) v3;
    ND_ROOM(12) v4;
    nd_memcpy(v3.b, v2, 12);
    nd_memset((v3.b + 12), 0, 12);
    nd_memset(v4.b, 0, 12);
    nd_memcpy(v1, v3.b, 24);
    nd_store_64((v1 + 24), 0ULL);
    nd_store_8((v1 + 32), 0);
    nd_store_8((v1 + 33), 0);
    nd_store_16((v1 + 34), 0);
    nd_memcpy((v1 + 36), v4.b, 12);
    return;
}

static void nd_ndef_nest_typed_TypedRecordLanguage_start(unsigned char *v1, uint8_t v2, unsigned char *v3, uint64_t v4, uint32_t v5, uint8_t v6) {
    uint8_t v13, v18, v25, v26, v27, v30, v32, v34, v41, v42, v43;
    uint32_t v28, v39, v40;
    ND_ROOM(81) v7, v9;
    ND_ROOM(88) v8;
    if (!(v2 == 1)) goto L7;
    switch ((uint8_t)v4) {
    case 0: goto L7;
    case 1: goto L2;
    default: goto L3; }
L2:;
    v13 = nd_ndef_format_kind_of_one(nd_load_8(v3));
    v26 = v13;
    goto L8;
L3:;
    if (!(v4 < 3ULL)) goto L5;
    v18 = nd_ndef_format_kind_of_two(nd_load_8(v3), nd_load_8(((unsigned char *)((uintptr_t)v3 + 1))));
    v26 = v18;
    goto L8;
L5:;
    if (!(v4 == 3ULL)) goto L7;
    v25 = nd_ndef_format_kind_of_three(nd_load_8(v3), nd_load_8(((unsigned char *)((uintptr_t)v3 + 1))), nd_load_8(((unsigned char *)((uintptr_t)v3 + 2))));
    v26 = v25;
    goto L8;
L7:;
    nd_memset(v7.b, 0, 81);
    v39 = 0U;
    v40 = 0U;
    v41 = 0;
    v42 = 1;
    v43 = 0;
    goto L18;
L8:;
    nd_memset(v7.b, 0, 81);
    nd_memset(v8.b, 0, 88);
    switch (v26) {
    case 3: { v27 = 0; goto L12; }
    case 4: goto L9;
    case 5: goto L10;
    case 0: goto L13;
    case 1: goto L13;
    case 2: goto L13;
    case 6: goto L13;
    case 7: goto L13;
    case 8: goto L13;
    case 9: goto L13;
    case 10: goto L13;
    case 11: goto L13;
    case 12: goto L13;
    default: goto L11; }
L9:;
    v27 = 1;
    goto L12;
L10:;
    v27 = 2;
    goto L12;
L11:;
    nd_stop();
L12:;
    nd_ndef_nest_nest_Nest_new(v8.b, v27, v5, v6);
    v28 = nd_load_32(v8.b);
    v30 = nd_load_8((v8.b + 4));
    v32 = nd_load_8((v8.b + 5));
    v34 = nd_load_8((v8.b + 6));
    nd_memcpy(v7.b, (v8.b + 7), 81);
    v39 = 1U;
    v40 = v28;
    v41 = v30;
    v42 = v32;
    v43 = v34;
    goto L18;
L13:;
    switch ((uint8_t)(((uint8_t)(v26 + 255) < 6) ? v26 : 0)) {
    case 1: { v39 = 0U; v40 = 0U; v41 = 0; v42 = 4; v43 = 0; goto L18; }
    case 2: goto L14;
    case 5: goto L16;
    case 4: goto L16;
    case 3: goto L16;
    case 0: goto L16;
    case 6: goto L15;
    default: goto L17; }
L14:;
    v39 = 0U;
    v40 = 0U;
    v41 = 0;
    v42 = 5;
    v43 = v6;
    goto L18;
L15:;
    v39 = 0U;
    v40 = 1U;
    v41 = 0;
    v42 = 7;
    v43 = 0;
    goto L18;
L16:;
    v39 = 0U;
    v40 = 0U;
    v41 = 0;
    v42 = 1;
    v43 = 0;
    goto L18;
L17:;
    nd_stop();
L18:;
    nd_memcpy(v9.b, v7.b, 81);
    nd_store_32(v1, v39);
    nd_store_32(((unsigned char *)((uintptr_t)v1 + 4)), 0U);
    nd_store_32(((unsigned char *)((uintptr_t)v1 + 8)), v40);
    nd_store_8(((unsigned char *)((uintptr_t)v1 + 12)), v41);
    nd_store_8(((unsigned char *)((uintptr_t)v1 + 13)), v42);
    nd_store_8(((unsigned char *)((uintptr_t)v1 + 14)), v43);
    nd_memcpy(((unsigned char *)((uintptr_t)v1 + 15)), v9.b, 81);
    return;
}

static uint8_t nd_ndef_format_kind_of_one(uint8_t v1) {
    uint8_t v2;
    switch (v1) {
    case 84: { v2 = 1; goto L5; }
    case 85: goto L1;
    case 115: goto L2;
    case 116: goto L3;
    default: goto L4; }
L1:;
    v2 = 2;
    goto L5;
L2:;
    v2 = 8;
    goto L5;
L3:;
    v2 = 9;
    goto L5;
L4:;
    v2 = 0;
L5:;
    return v2;
}

static uint8_t nd_ndef_format_kind_of_two(uint8_t v1, uint8_t v2) {
    uint8_t v6;
    switch (v1) {
    case 83: goto L1;
    case 72: goto L2;
    case 97: goto L5;
    case 99: goto L6;
    default: goto L7; }
L1:;
    if (v2 == 112) { v6 = 3; goto L8; }
    goto L7;
L2:;
    switch (v2) {
    case 114: { v6 = 4; goto L8; }
    case 115: goto L3;
    case 99: goto L4;
    default: goto L7; }
L3:;
    v6 = 5;
    goto L8;
L4:;
    v6 = 6;
    goto L8;
L5:;
    if (v2 == 99) { v6 = 10; goto L8; }
    goto L7;
L6:;
    if (v2 == 114) { v6 = 11; goto L8; }
L7:;
    v6 = 0;
L8:;
    return v6;
}

static uint8_t nd_ndef_format_kind_of_three(uint8_t v1, uint8_t v2, uint8_t v3) {
    uint8_t v10;
    switch (v1) {
    case 97: goto L1;
    case 101: goto L2;
    default: goto L3; }
L1:;
    if ((v2 == 99) & (int)(v3 == 116)) { v10 = 7; goto L4; }
    goto L3;
L2:;
    if ((v2 == 114) & (int)(v3 == 114)) { v10 = 12; goto L4; }
L3:;
    v10 = 0;
L4:;
    return v10;
}

static void nd_ndef_nest_nest_Nest_new(unsigned char *v1, uint8_t v2, uint32_t v3, uint8_t v4) {
    uint64_t v9;
    ND_ROOM(48) v5;
    ND_ROOM(12) v6;
    v9 = nd_load_64(((unsigned char *)nd_data_switch_table_ndef_nest_nest_Nest_new + (ptrdiff_t)(uint64_t)v2 * 8));
    nd_store_8(v6.b, v4);
    nd_store_8((v6.b + 1), 1);
    nd_store_8((v6.b + 2), 0);
    nd_store_8((v6.b + 3), 1);
    nd_store_8((v6.b + 4), (uint8_t)(v3 == 1U));
    nd_memset((v6.b + 5), 0, 3);
    nd_store_32((v6.b + 8), 4294967295U);
    nd_ndef_piece_head_reader_HeadReader_new(v5.b, v6.b);
    nd_store_64(v1, (((v9 | ((uint64_t)v3 << 32)) | ((uint64_t)v2 << 8)) | (uint64_t)v4));
    nd_memcpy((v1 + 8), v5.b, 48);
    nd_store_32((v1 + 56), (uint32_t)(v2 == 0));
    nd_memset((v1 + 60), 0, 20);
    nd_store_8((v1 + 80), 23);
    nd_memset((v1 + 81), 0, 7);
    return;
}

static void nd_ndef_message_checker_Checker_start_2(unsigned char *v1, unsigned char *v2) {
    uint32_t v4, v6, v8;
    uint8_t v10;
    ND_ROOM(3) v3;
    ND_ROOM(48) v12;
    ND_ROOM(12) v13;
    v4 = nd_load_32(v2);
    v6 = nd_load_32((v2 + 4));
    v8 = nd_load_32((v2 + 8));
    v10 = nd_load_8((v2 + 12));
    nd_memcpy(v3.b, (v2 + 13), 3);
    nd_store_8(v13.b, v10);
    nd_store_8((v13.b + 1), 1);
    nd_store_8((v13.b + 2), 0);
    nd_store_8((v13.b + 3), (uint8_t)(v8 == 1U));
    nd_store_8((v13.b + 4), (uint8_t)(v6 == 1U));
    nd_memset((v13.b + 5), 0, 3);
    nd_store_32((v13.b + 8), v4);
    nd_ndef_piece_head_reader_HeadReader_new(v12.b, v13.b);
    nd_store_32(v1, v4);
    nd_store_32((v1 + 4), v6);
    nd_store_32((v1 + 8), v8);
    nd_store_8((v1 + 12), v10);
    nd_memcpy((v1 + 13), v3.b, 3);
    nd_store_8((v1 + 16), 1);
    nd_store_8((v1 + 17), 0);
    nd_store_16((v1 + 18), 0);
    nd_store_32((v1 + 20), v6);
    nd_store_32((v1 + 24), v8);
    nd_store_32((v1 + 28), v4);
    nd_memcpy((v1 + 32), v12.b, 48);
    nd_memset((v1 + 80), 0, 288);
    return;
}

static uint32_t nd_ndef_c_buffer_give_parts(unsigned char *v1, uint64_t v2, unsigned char *v3, uint64_t v4, unsigned char *v5, uint64_t v6, unsigned char *v7, uint64_t v8, unsigned char *v9) {
    uint64_t v12, v15;
    uint32_t v19;
    ND_ROOM(1) v10;
    if (!(v2 == 0ULL)) goto L2;
    nd_core_slice_edits_slice_T_copy_from_slice(v10.b, v1, 0ULL);
L2:;
    v12 = nd_uadd_sat_i64(v4, v2);
    if (!(v12 == 0ULL)) goto L4;
    nd_core_slice_edits_slice_T_copy_from_slice(((unsigned char *)((uintptr_t)v10.b + (uintptr_t)v2)), v3, v4);
L4:;
    v15 = nd_uadd_sat_i64(v6, v12);
    if (!(v15 == 0ULL)) goto L6;
    nd_core_slice_edits_slice_T_copy_from_slice(((unsigned char *)((uintptr_t)v10.b + (uintptr_t)v12)), v5, v6);
L6:;
    nd_store_64(v9, v15);
    if (v8 < v15) { v19 = 2U; goto L7; }
    goto L8;
L7:;
    return v19;
L8:;
    nd_core_slice_edits_slice_T_copy_from_slice(v7, v1, v2);
    nd_core_slice_edits_slice_T_copy_from_slice(((unsigned char *)((uintptr_t)v7 + (uintptr_t)v2)), v3, v4);
    nd_core_slice_edits_slice_T_copy_from_slice(((unsigned char *)((uintptr_t)v7 + (uintptr_t)v12)), v5, v6);
    v19 = 0U;
    goto L7;
}

static uint8_t nd_ndef_c_error_writing_may_be_error(uint32_t v1, uint64_t v2) {
    uint8_t v8;
    if (!(v1 < 256U)) { v8 = 0; goto L5; }
    switch ((uint8_t)v1) {
    case 1: goto L2;
    case 3: goto L2;
    case 2: goto L3;
    default: goto L4; }
L2:;
    if (v2 == 1ULL) goto L4;
    v8 = 0;
    goto L5;
L3:;
    if (!(v2 == 4ULL)) { v8 = 0; goto L5; }
L4:;
    v8 = v2 < 4294967295ULL;
L5:;
    return v8;
}

static void nd_ndef_nest_nest_NestLanguage_start(unsigned char *v1, uint8_t v2, uint8_t v3) {
    ND_ROOM(88) v4;
    nd_memset(v4.b, 0, 88);
    nd_ndef_nest_nest_Nest_new(v4.b, (uint8_t)(v2 + 253), 65535U, v3);
    nd_memcpy(v1, v4.b, 88);
    return;
}

static void nd_ndef_nest_nest_Nest_stepped(unsigned char *v1, unsigned char *v2, uint8_t v3) {
    unsigned char *v20, *v22, *v23, *v42, *v52, *v76, *v98, *v99, *v100, *v119, *v152, *v153;
    uint8_t v25, v43, v47, v49, v53, v58, v63, v71, v73, v77, v79, v81, v83, v87, v89, v91, v93, v95, v126, v128, v130, v132, v136, v138, v140, v151, v154, v155;
    uint64_t v30;
    uint32_t v45, v51, v85, v97, v134;
    ND_ROOM(12) v4, v5, v7, v13, v17;
    ND_ROOM(20) v6, v8, v18, v19;
    ND_ROOM(24) v9, v10;
    ND_ROOM(28) v11;
    ND_ROOM(5) v12, v14;
    ND_ROOM(48) v15, v16;
    nd_memset(v15.b, 0, 48);
    nd_memset(v16.b, 0, 48);
    nd_memset(v17.b, 0, 12);
    nd_memset(v18.b, 0, 20);
    nd_memset(v19.b, 0, 20);
    v20 = (unsigned char *)((uintptr_t)v2 + 56);
    v22 = v10.b + 4;
    v23 = v9.b + 4;
    switch (nd_load_8(v20)) {
    case 0: goto L1;
    case 1: goto L2;
    case 2: goto L3;
    case 3: goto L4;
    case 4: goto L11;
    case 5: goto L15;
    case 6: goto L15;
    default: goto L17; }
L1:;
    v25 = (uint8_t)(v3 & 240) == 16;
    nd_store_32(v20, (v25 ? 1U : 6U));
    nd_memset(((unsigned char *)((uintptr_t)v2 + 60)), 0, 20);
    nd_store_8(((unsigned char *)((uintptr_t)v2 + 80)), (uint8_t)(v25 ? 23 : 21));
    nd_store_64(v15.b, 0ULL);
    goto L16;
L2:;
    v30 = nd_load_64(v2);
    nd_store_8(v17.b, (uint8_t)v30);
    nd_store_8((v17.b + 1), 1);
    nd_store_8((v17.b + 3), 1);
    nd_store_8((v17.b + 4), (uint8_t)((v30 & 18446744069414584320ULL) == 4294967296ULL));
    nd_memset((v17.b + 5), 0, 3);
    nd_store_32((v17.b + 8), 4294967295U);
    nd_ndef_piece_head_reader_HeadReader_new(v16.b, v17.b);
    nd_memcpy(((unsigned char *)((uintptr_t)v2 + 8)), v16.b, 48);
    nd_store_32(v20, 2U);
    nd_memset(((unsigned char *)((uintptr_t)v2 + 60)), 0, 20);
    nd_ndef_nest_nest_Nest_at_head(v15.b, v2, v3);
    goto L16;
L3:;
    nd_ndef_nest_nest_Nest_at_head(v15.b, v2, v3);
    goto L16;
L4:;
    v42 = (unsigned char *)((uintptr_t)v2 + 60);
    v43 = nd_load_8(v42);
    v45 = nd_load_32(((unsigned char *)((uintptr_t)v2 + 61)));
    v47 = nd_load_8(((unsigned char *)((uintptr_t)v2 + 65)));
    v49 = nd_load_8(((unsigned char *)((uintptr_t)v2 + 66)));
    v51 = nd_load_32(((unsigned char *)((uintptr_t)v2 + 68)));
    v52 = (unsigned char *)((uintptr_t)v2 + 2);
    v53 = nd_load_8(v52);
    nd_store_8(v14.b, v43);
    nd_store_32((v14.b + 1), v45);
    nd_ndef_lang_kind_KindReader_step(v14.b, v3);
    switch (v53) {
    case 2: goto L5;
    case 1: goto L6;
    case 3: goto L7;
    case 0: goto L8;
    default: goto L9; }
L5:;
    if ((v3 != 85) & (int)(uint8_t)(v47 & 1)) { v63 = 19; goto L10; }
    goto L8;
L6:;
    v58 = nd_ndef_lang_kind_KindReader_kind(v14.b);
    if (v58 == 2) { v63 = 20; goto L10; }
    goto L8;
L7:;
    if (!(v3 == (uint8_t)((v43 == 2) ? 99 : 114))) { v63 = 22; goto L10; }
L8:;
    v63 = 23;
    goto L10;
L9:;
    nd_stop();
L10:;
    nd_store_8(((unsigned char *)((uintptr_t)v2 + 80)), v63);
    nd_memset(v11.b, 0, 28);
    nd_store_8(v12.b, v43);
    nd_store_32((v12.b + 1), v45);
    nd_ndef_lang_kind_KindReader_step(v12.b, v3);
    nd_store_8((v13.b + 7), 0);
    nd_memcpy(v13.b, v12.b, 5);
    nd_store_8((v13.b + 5), (uint8_t)(v47 & 1));
    nd_store_8((v13.b + 6), v49);
    nd_store_32((v13.b + 8), v51);
    nd_ndef_nest_phase_Name_settled(v11.b, v13.b, v2);
    v71 = nd_load_8(v11.b);
    v73 = nd_load_8((v11.b + 4));
    nd_memcpy(v18.b, (v11.b + 8), 20);
    nd_store_8(v52, v71);
    nd_store_32(v20, (uint32_t)v73);
    nd_memcpy(v42, v18.b, 20);
    nd_store_64(v15.b, 0ULL);
    goto L16;
L11:;
    v76 = (unsigned char *)((uintptr_t)v2 + 60);
    v77 = nd_load_8(v76);
    v79 = nd_load_8(((unsigned char *)((uintptr_t)v2 + 61)));
    v81 = nd_load_8(((unsigned char *)((uintptr_t)v2 + 62)));
    v83 = nd_load_8(((unsigned char *)((uintptr_t)v2 + 63)));
    v85 = nd_load_32(((unsigned char *)((uintptr_t)v2 + 64)));
    v87 = nd_load_8(((unsigned char *)((uintptr_t)v2 + 68)));
    v89 = nd_load_8(((unsigned char *)((uintptr_t)v2 + 69)));
    v91 = nd_load_8(((unsigned char *)((uintptr_t)v2 + 70)));
    v93 = nd_load_8(((unsigned char *)((uintptr_t)v2 + 72)));
    v95 = nd_load_8(((unsigned char *)((uintptr_t)v2 + 73)));
    v97 = nd_load_32(((unsigned char *)((uintptr_t)v2 + 76)));
    v98 = v6.b + 8;
    nd_store_64(v98, 0ULL);
    v99 = v7.b + 8;
    nd_store_32(v99, 0U);
    v100 = v8.b + 8;
    nd_store_64(v100, 0ULL);
    if (v95 == 0) goto L13;
    nd_store_8(v6.b, v77);
    nd_store_8((v6.b + 1), v79);
    nd_store_8((v6.b + 2), v81);
    nd_store_8((v6.b + 3), v83);
    nd_store_32((v6.b + 4), v85);
    nd_store_8(v98, v87);
    nd_store_8((v6.b + 9), v89);
    nd_store_8((v6.b + 10), v91);
    nd_store_8((v6.b + 12), (uint8_t)(v93 & 1));
    nd_store_8((v6.b + 13), (uint8_t)(v95 + 255));
    nd_store_32((v6.b + 16), v97);
    nd_ndef_nest_phase_Body_settled(v9.b, v6.b, v2);
    v152 = v23;
    v153 = v9.b;
    v154 = 23;
    goto L14;
L13:;
    nd_memset(v4.b, 0, 12);
    v119 = v5.b + 8;
    nd_store_32(v119, 0U);
    nd_store_8(v5.b, v77);
    nd_store_8((v5.b + 1), v79);
    nd_store_8((v5.b + 2), v81);
    nd_store_8((v5.b + 3), v83);
    nd_store_32((v5.b + 4), v85);
    nd_store_8(v119, v87);
    nd_store_8((v5.b + 9), v89);
    nd_store_8((v5.b + 10), v91);
    nd_ndef_lang_leaf_Leaf_after(v4.b, v5.b, v3);
    v126 = nd_load_8(v4.b);
    nd_store_8(v7.b, v126);
    v128 = nd_load_8((v4.b + 1));
    nd_store_8((v7.b + 1), v128);
    v130 = nd_load_8((v4.b + 2));
    nd_store_8((v7.b + 2), v130);
    v132 = nd_load_8((v4.b + 3));
    nd_store_8((v7.b + 3), v132);
    v134 = nd_load_32((v4.b + 4));
    nd_store_32((v7.b + 4), v134);
    v136 = nd_load_8((v4.b + 8));
    nd_store_8(v99, v136);
    v138 = nd_load_8((v4.b + 9));
    nd_store_8((v7.b + 9), v138);
    v140 = nd_load_8((v4.b + 10));
    nd_store_8((v7.b + 10), v140);
    nd_store_8(v8.b, v126);
    nd_store_8((v8.b + 1), v128);
    nd_store_8((v8.b + 2), v130);
    nd_store_8((v8.b + 3), v132);
    nd_store_32((v8.b + 4), v134);
    nd_store_8(v100, v136);
    nd_store_8((v8.b + 9), v138);
    nd_store_8((v8.b + 10), v140);
    nd_store_8((v8.b + 12), (uint8_t)(v93 & 1));
    nd_store_32((v8.b + 16), (v97 + 4294967295U));
    nd_ndef_nest_phase_Body_settled(v10.b, v8.b, v2);
    v151 = nd_ndef_lang_leaf_LeafLanguage_reason(v7.b);
    v152 = v22;
    v153 = v10.b;
    v154 = v151;
L14:;
    v155 = nd_load_8(v153);
    nd_memcpy(v19.b, v152, 20);
    nd_store_32(v20, (uint32_t)v155);
    nd_memcpy(v76, v19.b, 20);
    nd_store_8(((unsigned char *)((uintptr_t)v2 + 80)), v154);
    nd_store_64(v15.b, 0ULL);
    goto L16;
L15:;
    nd_store_32(v20, 6U);
    nd_memset(((unsigned char *)((uintptr_t)v2 + 60)), 0, 20);
    nd_store_8(((unsigned char *)((uintptr_t)v2 + 80)), 23);
L16:;
    nd_store_64(v1, (uint64_t)nd_load_8(v15.b));
    nd_memcpy(((unsigned char *)((uintptr_t)v1 + 8)), (v15.b + 8), 40);
    return;
L17:;
    nd_stop();
}

static void nd_ndef_nest_nest_Nest_at_head(unsigned char *v1, unsigned char *v2, uint8_t v3) {
    unsigned char *v12, *v42;
    uint8_t v14, v17, v19, v21, v37, v58, v66;
    uint64_t v45, v67, v81;
    ND_ROOM(48) v4, v7, v10;
    ND_ROOM(16) v5;
    ND_ROOM(40) v6;
    ND_ROOM(12) v8, v11;
    ND_ROOM(28) v9;
    nd_memset(v4.b, 0, 48);
    nd_memset(v5.b, 0, 16);
    nd_memset(v6.b, 0, 40);
    nd_memset(v9.b, 0, 28);
    v12 = (unsigned char *)((uintptr_t)v2 + 8);
    nd_ndef_piece_head_reader_HeadReader_step(v5.b, v12, v3);
    switch (nd_load_8(v5.b)) {
    case 0: goto L1;
    case 1: goto L10;
    case 2: goto L11;
    default: goto L13; }
L1:;
    nd_ndef_piece_head_reader_HeadReader_bounds(v4.b, v12);
    v14 = nd_load_8(v4.b);
    if (!(v14 == 1)) goto L9;
    v17 = nd_load_8((v4.b + 10));
    v19 = nd_load_8((v4.b + 24));
    v21 = nd_load_8((v4.b + 25));
    switch (nd_load_8(((unsigned char *)((uintptr_t)v2 + 2)))) {
    case 2: goto L3;
    case 3: goto L5;
    case 0: goto L6;
    case 1: goto L6;
    default: goto L7; }
L3:;
    if (!(uint8_t)(nd_load_8((v4.b + 8)) & 1)) goto L6;
    if ((uint8_t)((uint8_t)((v17 == 1) ? (v19 < 2) : 0) ? (v21 != 0) : 0)) goto L6;
    v37 = 19;
    goto L8;
L5:;
    if (!(uint8_t)((uint8_t)((v17 == 1) ? (v19 < 3) : 0) ? (v21 > 1) : 0)) { v37 = 22; goto L8; }
L6:;
    v37 = 23;
    goto L8;
L7:;
    nd_stop();
L8:;
    nd_store_8(((unsigned char *)((uintptr_t)v2 + 80)), v37);
L9:;
    nd_memcpy(v6.b, (v4.b + 8), 40);
    v81 = (uint64_t)v14;
    goto L12;
L10:;
    v42 = (unsigned char *)((uintptr_t)v2 + 4);
    nd_store_32(v42, (nd_load_32(v42) + 4294967295U));
    v45 = nd_load_64(v2);
    nd_store_8(v8.b, (uint8_t)v45);
    nd_store_8((v8.b + 1), 0);
    nd_store_8((v8.b + 2), 0);
    nd_store_8((v8.b + 3), 1);
    nd_store_8((v8.b + 4), (uint8_t)((v45 & 18446744069414584320ULL) == 4294967296ULL));
    nd_memset((v8.b + 5), 0, 3);
    nd_store_32((v8.b + 8), 4294967295U);
    nd_ndef_piece_head_reader_HeadReader_new(v7.b, v8.b);
    nd_memcpy(v12, v7.b, 48);
    nd_ndef_nest_phase_headed(v9.b, v2, (v5.b + 4));
    v58 = nd_load_8((v9.b + 4));
    nd_store_8(((unsigned char *)((uintptr_t)v2 + 2)), nd_load_8(v9.b));
    nd_store_32(((unsigned char *)((uintptr_t)v2 + 56)), (uint32_t)v58);
    nd_memcpy(((unsigned char *)((uintptr_t)v2 + 60)), (v9.b + 8), 20);
    nd_store_8(((unsigned char *)((uintptr_t)v2 + 80)), 23);
    v81 = 0ULL;
    goto L12;
L11:;
    v66 = nd_load_8((v5.b + 1));
    v67 = nd_load_64(v2);
    nd_store_8(v11.b, (uint8_t)v67);
    nd_store_8((v11.b + 1), 0);
    nd_store_8((v11.b + 2), 0);
    nd_store_8((v11.b + 3), 1);
    nd_store_8((v11.b + 4), (uint8_t)((v67 & 18446744069414584320ULL) == 4294967296ULL));
    nd_memset((v11.b + 5), 0, 3);
    nd_store_32((v11.b + 8), 4294967295U);
    nd_ndef_piece_head_reader_HeadReader_new(v10.b, v11.b);
    nd_memcpy(v12, v10.b, 48);
    nd_store_32(((unsigned char *)((uintptr_t)v2 + 56)), 6U);
    nd_memset(((unsigned char *)((uintptr_t)v2 + 60)), 0, 20);
    nd_store_8(((unsigned char *)((uintptr_t)v2 + 80)), v66);
    v81 = 0ULL;
L12:;
    nd_store_64(v1, v81);
    nd_memcpy(((unsigned char *)((uintptr_t)v1 + 8)), v6.b, 40);
    return;
L13:;
    nd_stop();
}

static void nd_ndef_piece_head_reader_HeadReader_step(unsigned char *v1, unsigned char *v2, uint8_t v3) {
    unsigned char *v5, *v8, *v9, *v29, *v139, *v153;
    uint8_t v6, v13, v15, v21, v25, v26, v31, v33, v36, v79, v82, v83, v88, v99, v102, v110, v116, v117, v119, v127, v128, v129, v130, v131, v132, v133, v134, v135, v136, v154, v155;
    uint64_t v10, v98, v100, v104;
    struct nd_8_8 v11, v93;
    uint32_t v40, v48, v59, v75, v76, v137;
    struct nd_ptr_64 v105;
    struct nd_32_32 v108;
    ND_ROOM(14) v4;
    nd_memset(v4.b, 0, 14);
    v5 = (unsigned char *)((uintptr_t)v2 + 32);
    v6 = nd_load_8(v5);
    if (!(v6 == 0)) goto L25;
    v8 = (unsigned char *)((uintptr_t)v2 + 12);
    v9 = (unsigned char *)((uintptr_t)v2 + 24);
    v10 = nd_load_64(v9);
    switch (v10) {
    case 0ULL: goto L2;
    case 1ULL: goto L3;
    default: goto L7; }
L2:;
    v11 = nd_ndef_piece_conditions_header_reason(v2, v3);
    v93 = v11;
    goto L18;
L3:;
    v13 = (uint8_t)(nd_load_8(v8) & 7);
    v15 = v3 == 0;
    if (!(v15 | (int)(v13 < 5))) { v25 = 10; v26 = 1; goto L6; }
    if (v15 & (int)((uint8_t)(v13 + 255) < 4)) { v25 = 11; v26 = 1; goto L6; }
    v21 = v15 | (int)(v13 != 0);
    v25 = (uint8_t)(v21 ? 0 : 12);
    v26 = (uint8_t)(v21 ^ 1);
L6:;
    v93 = (struct nd_8_8) { v26, v25 };
    goto L18;
L7:;
    v29 = (unsigned char *)((uintptr_t)v2 + 14);
    v31 = nd_load_8(v8);
    v33 = (uint8_t)(v31 & 16) == 0;
    v36 = (uint8_t)(v31 & 7);
    if (!((v10 + 18446744073709551614ULL) < (v33 ? 4ULL : 1ULL))) goto L17;
    if (!((v3 == 0) | (int)(v36 != 0))) { v82 = 12; v83 = 1; goto L16; }
    switch (v10) {
    case 2ULL: goto L10;
    case 3ULL: goto L11;
    case 5ULL: goto L14;
    case 4ULL: goto L13;
    default: goto L12; }
L10:;
    v40 = (uint32_t)v3;
    v76 = v33 ? (v40 << 24) : v40;
    goto L15;
L11:;
    v48 = nd_bswap_i32((((uint32_t)v3 << 8) | (uint32_t)nd_load_8(v29)));
    v76 = v48;
    goto L15;
L12:;
    nd_stop();
L13:;
    v59 = nd_bswap_i32(((((uint32_t)nd_load_8(((unsigned char *)((uintptr_t)v2 + 15))) << 8) | ((uint32_t)v3 << 16)) | (uint32_t)nd_load_8(v29)));
    v76 = v59;
    goto L15;
L14:;
    v75 = nd_bswap_i32((((((uint32_t)nd_load_8(((unsigned char *)((uintptr_t)v2 + 16))) << 16) | ((uint32_t)v3 << 24)) | ((uint32_t)nd_load_8(((unsigned char *)((uintptr_t)v2 + 15))) << 8)) | (uint32_t)nd_load_8(v29)));
    v76 = v75;
L15:;
    v79 = nd_load_32(((unsigned char *)((uintptr_t)v2 + 8))) < v76;
    v82 = (uint8_t)(v79 ? 13 : 0);
    v83 = (uint8_t)v79;
L16:;
    v93 = (struct nd_8_8) { v83, v82 };
    goto L18;
L17:;
    v88 = (v3 != 0) & (int)(v36 == 0);
    v93 = (struct nd_8_8) { (uint8_t)v88, (uint8_t)(v88 ? 12 : 0) };
L18:;
    nd_store_8((v8 + (ptrdiff_t)v10), v3);
    if (!(v93.f0 == 1)) goto L20;
    v127 = 2;
    v128 = v93.f1;
    v129 = 0;
    v130 = 0;
    v131 = 0;
    v132 = 0;
    v133 = 0;
    v134 = 0;
    v135 = 0;
    v136 = 0;
    v137 = 0U;
    goto L24;
L20:;
    v98 = v10 + 1ULL;
    v99 = nd_load_8(v8);
    v100 = nd_ndef_piece_header_size(v99);
    if (!(v98 == v100)) { v127 = 0; v128 = 0; v129 = 0; v130 = 0; v131 = 0; v132 = 0; v133 = 0; v134 = 0; v135 = 0; v136 = 0; v137 = 0U; goto L24; }
    v102 = (uint8_t)(v99 & 16);
    v104 = (v102 == 0) ? 4ULL : 1ULL;
    v105 = nd_ndef_piece_payload_length_length_front(v8, v98);
    v108 = nd_ndef_piece_payload_length_least_and_greatest(v104, v105.f0, v105.f1);
    v110 = nd_load_8(((unsigned char *)((uintptr_t)v2 + 13)));
    if ((uint8_t)(v99 & 8) == 0) { v116 = 0; v117 = 0; goto L23; }
    v116 = 1;
    v117 = nd_load_8(((v8 + (ptrdiff_t)v104) + 2));
L23:;
    v119 = nd_ndef_piece_header_tnf_of((uint8_t)(v99 & 7));
    v127 = 1;
    v128 = 0;
    v129 = (uint8_t)(v99 >> 7);
    v130 = (uint8_t)((uint8_t)(v99 >> 6) & 1);
    v131 = (uint8_t)((uint8_t)(v99 >> 5) & 1);
    v132 = (uint8_t)(v102 >> 4);
    v133 = v119;
    v134 = v110;
    v135 = v116;
    v136 = v117;
    v137 = v108.f0;
L24:;
    nd_store_8(v5, v127);
    nd_store_8(((unsigned char *)((uintptr_t)v2 + 33)), v128);
    v139 = (unsigned char *)((uintptr_t)v2 + 36);
    nd_store_8(v139, v129);
    nd_store_8(((unsigned char *)((uintptr_t)v2 + 37)), v130);
    nd_store_8(((unsigned char *)((uintptr_t)v2 + 38)), v131);
    nd_store_8(((unsigned char *)((uintptr_t)v2 + 39)), v132);
    nd_store_8(((unsigned char *)((uintptr_t)v2 + 40)), v133);
    nd_store_8(((unsigned char *)((uintptr_t)v2 + 41)), v134);
    nd_store_8(((unsigned char *)((uintptr_t)v2 + 42)), v135);
    nd_store_8(((unsigned char *)((uintptr_t)v2 + 43)), v136);
    nd_store_32(((unsigned char *)((uintptr_t)v2 + 44)), v137);
    nd_store_64(v9, (nd_load_64(v9) + 1ULL));
    v153 = v139;
    v154 = v127;
    v155 = v128;
    goto L26;
L25:;
    v153 = (unsigned char *)((uintptr_t)v2 + 36);
    v154 = v6;
    v155 = nd_load_8(((unsigned char *)((uintptr_t)v2 + 33)));
L26:;
    nd_memcpy((v4.b + 2), v153, 12);
    nd_store_8(v1, v154);
    nd_store_8(((unsigned char *)((uintptr_t)v1 + 1)), v155);
    nd_memcpy(((unsigned char *)((uintptr_t)v1 + 4)), (v4.b + 2), 12);
    return;
}

static struct nd_8_8 nd_ndef_piece_conditions_header_reason(unsigned char *v1, uint8_t v2) {
    uint8_t v3, v4, v6, v8, v15, v20, v21, v22, v39, v40;
    v3 = (uint8_t)(v2 & 7);
    v4 = (int8_t)v2 > (int8_t)255;
    v6 = (uint8_t)(v2 & 64) == 0;
    v8 = (uint8_t)(v2 & 32) == 0;
    if ((v3 == 7) & (int)(nd_load_8(v1) == 0)) { v39 = 0; v40 = 1; goto L13; }
    v15 = (uint8_t)(nd_load_8(((unsigned char *)((uintptr_t)v1 + 1))) & 1);
    if (v4 & v15) { v39 = 1; v40 = 1; goto L13; }
    if (!(v4 | v15)) { v39 = 2; v40 = 1; goto L13; }
    v20 = (uint8_t)(nd_load_8(((unsigned char *)((uintptr_t)v1 + 2))) & 1);
    v21 = v20 ^ 1;
    v22 = v3 == 6;
    if (v22 & v21) { v39 = 3; v40 = 1; goto L13; }
    if (!(v22 | v21)) { v39 = 4; v40 = 1; goto L13; }
    if (((uint8_t)(v2 & 8) != 0) & v20) { v39 = 5; v40 = 1; goto L13; }
    if ((uint8_t)(v2 & 96) == 96) { v39 = 6; v40 = 1; goto L13; }
    if (!(((uint8_t)(v2 & 39) != 32) | v20)) { v39 = 7; v40 = 1; goto L13; }
    if (v8) goto L10;
    if ((uint8_t)(nd_load_8(((unsigned char *)((uintptr_t)v1 + 3))) & 1)) { v39 = 8; v40 = 1; goto L13; }
    goto L12;
L10:;
    if (!v6) goto L12;
    if ((uint8_t)(nd_load_8(((unsigned char *)((uintptr_t)v1 + 4))) & 1)) { v39 = 9; v40 = 1; goto L13; }
L12:;
    v39 = 0;
    v40 = 0;
L13:;
    return (struct nd_8_8) { v40, v39 };
}

static uint64_t nd_ndef_piece_header_size(uint8_t v1) {
    return (((uint8_t)(v1 & 16) == 0) ? 6ULL : 3ULL) + (uint64_t)(uint8_t)((uint8_t)(v1 >> 3) & 1);
}

static struct nd_ptr_64 nd_ndef_piece_payload_length_length_front(unsigned char *v1, uint64_t v2) {
    uint64_t v10, v11;
    unsigned char *v12;
    if (v2 < 2ULL) { v11 = 0ULL; v12 = (unsigned char *)nd_data_static_50; goto L2; }
    v10 = nd_umin_i64((v2 + 18446744073709551614ULL), (((uint8_t)(nd_load_8(v1) & 16) == 0) ? 4ULL : 1ULL));
    v11 = v10;
    v12 = (unsigned char *)((uintptr_t)v1 + 2);
L2:;
    return (struct nd_ptr_64) { v12, v11 };
}

static struct nd_32_32 nd_ndef_piece_payload_length_least_and_greatest(uint64_t v1, unsigned char *v2, uint64_t v3) {
    uint32_t v8, v11, v19, v20, v22, v35, v36, v38, v54, v55, v56;
    unsigned char *v24, *v25;
    switch (v3) {
    case 0ULL: goto L1;
    case 1ULL: goto L2;
    default: goto L4; }
L1:;
    v55 = (v1 == 1ULL) ? 255U : 4294967295U;
    v56 = 0U;
    goto L9;
L2:;
    v8 = (uint32_t)nd_load_8(v2);
    if (v1 == 1ULL) { v55 = v8; v56 = v8; goto L9; }
    v11 = nd_bswap_i32((v8 | 4294967040U));
    v55 = v11;
    v56 = v8 << 24;
    goto L9;
L4:;
    if (!(v3 < 3ULL)) goto L6;
    v19 = ((uint32_t)nd_load_8((v2 + 1)) << 8) | (uint32_t)nd_load_8(v2);
    v20 = nd_bswap_i32(v19);
    v22 = nd_bswap_i32((v19 | 4294901760U));
    v55 = v22;
    v56 = v20;
    goto L9;
L6:;
    v24 = v2 + 1;
    v25 = v2 + 2;
    if (!(v3 == 3ULL)) goto L8;
    v35 = (((uint32_t)nd_load_8(v24) << 8) | (uint32_t)nd_load_8(v2)) | ((uint32_t)nd_load_8(v25) << 16);
    v36 = nd_bswap_i32(v35);
    v38 = nd_bswap_i32((v35 | 4278190080U));
    v55 = v38;
    v56 = v36;
    goto L9;
L8:;
    v54 = nd_bswap_i32((((((uint32_t)nd_load_8(v24) << 8) | (uint32_t)nd_load_8(v2)) | ((uint32_t)nd_load_8(v25) << 16)) | ((uint32_t)nd_load_8((v2 + 3)) << 24)));
    v55 = v54;
    v56 = v54;
L9:;
    return (struct nd_32_32) { v56, v55 };
}

static uint8_t nd_ndef_piece_header_tnf_of(uint8_t v1) {
    return (uint8_t)(361982334838374656ULL >> ((uint64_t)(uint8_t)((uint32_t)v1 << 3) & 63));
}

static void nd_ndef_piece_head_reader_HeadReader_bounds(unsigned char *v1, unsigned char *v2) {
    uint64_t v7, v27, v28, v34, v35, v50, v54, v58, v59, v76, v77, v81, v86, v87;
    unsigned char *v8;
    uint32_t v10, v25;
    uint8_t v12, v13, v30, v32, v33, v38, v42, v43, v44, v51, v52, v53, v55, v56, v57, v67, v75, v78, v79, v80, v82, v83, v84, v85;
    struct nd_ptr_64 v18;
    struct nd_32_32 v21;
    ND_ROOM(5) v3;
    nd_memset(v3.b, 0, 5);
    switch (nd_load_8(((unsigned char *)((uintptr_t)v2 + 32)))) {
    case 0: goto L1;
    case 1: goto L9;
    case 2: { v77 = 0ULL; v78 = 0; v79 = 0; v80 = 0; v81 = 0ULL; v82 = 0; v83 = 0; v84 = 0; v85 = 0; v86 = 0ULL; v87 = 0ULL; goto L10; }
    default: goto L11; }
L1:;
    v7 = nd_load_64(((unsigned char *)((uintptr_t)v2 + 24)));
    v8 = (unsigned char *)((uintptr_t)v2 + 12);
    v10 = nd_load_32(((unsigned char *)((uintptr_t)v2 + 8)));
    if (v7 == 0ULL) { v50 = 0ULL; v51 = 0; v52 = 0; v53 = 0; v54 = 0ULL; v55 = 0; v56 = 0; v57 = 0; v58 = 0ULL; v59 = 0ULL; goto L8; }
    v12 = nd_load_8(v8);
    v13 = (uint8_t)(v12 & 7);
    if (v13 == 0) { v27 = 0ULL; v28 = 0ULL; goto L4; }
    v18 = nd_ndef_piece_payload_length_length_front(v8, v7);
    v21 = nd_ndef_piece_payload_length_least_and_greatest((((uint8_t)(v12 & 16) == 0) ? 4ULL : 1ULL), v18.f0, v18.f1);
    v25 = nd_umin_i32(v10, v21.f1);
    v27 = (uint64_t)v25;
    v28 = (uint64_t)v21.f0;
L4:;
    v30 = (uint8_t)((uint8_t)(v12 >> 6) & 1);
    v32 = (uint8_t)((uint8_t)(v12 >> 5) & 1);
    v33 = nd_ndef_piece_header_tnf_of(v13);
    v34 = nd_ndef_piece_header_size(v12);
    v35 = v34 - v7;
    if (!(v7 == 1ULL)) goto L6;
    v38 = (uint8_t)(v13 + 255) < 4;
    v43 = (uint8_t)v38;
    v44 = (uint8_t)(0 - (uint64_t)v38);
    goto L7;
L6:;
    v42 = nd_load_8(((unsigned char *)((uintptr_t)v2 + 13)));
    v43 = v42;
    v44 = v42;
L7:;
    v50 = 1ULL;
    v51 = v30;
    v52 = v32;
    v53 = v33;
    v54 = v35;
    v55 = v43;
    v56 = v44;
    v57 = (uint8_t)(0 - (uint64_t)((v13 != 0) & (int)((uint8_t)(v12 & 8) != 0)));
    v58 = v27;
    v59 = v28;
L8:;
    nd_memset(v3.b, 0, 5);
    v77 = v50;
    v78 = v51;
    v79 = v52;
    v80 = v53;
    v81 = v54;
    v82 = v55;
    v83 = v56;
    v84 = 0;
    v85 = v57;
    v86 = v59;
    v87 = v58;
    goto L10;
L9:;
    v67 = nd_load_8(((unsigned char *)((uintptr_t)v2 + 41)));
    v75 = (uint8_t)((nd_load_8(((unsigned char *)((uintptr_t)v2 + 42))) == 1) ? nd_load_8(((unsigned char *)((uintptr_t)v2 + 43))) : 0);
    v76 = (uint64_t)nd_load_32(((unsigned char *)((uintptr_t)v2 + 44)));
    v77 = 1ULL;
    v78 = nd_load_8(((unsigned char *)((uintptr_t)v2 + 37)));
    v79 = nd_load_8(((unsigned char *)((uintptr_t)v2 + 38)));
    v80 = nd_load_8(((unsigned char *)((uintptr_t)v2 + 40)));
    v81 = 0ULL;
    v82 = v67;
    v83 = v67;
    v84 = v75;
    v85 = v75;
    v86 = v76;
    v87 = v76;
L10:;
    nd_store_64(v1, v77);
    nd_store_8(((unsigned char *)((uintptr_t)v1 + 8)), v78);
    nd_store_8(((unsigned char *)((uintptr_t)v1 + 9)), v79);
    nd_store_8(((unsigned char *)((uintptr_t)v1 + 10)), v80);
    nd_memcpy(((unsigned char *)((uintptr_t)v1 + 11)), v3.b, 5);
    nd_store_64(((unsigned char *)((uintptr_t)v1 + 16)), v81);
    nd_store_8(((unsigned char *)((uintptr_t)v1 + 24)), v82);
    nd_store_8(((unsigned char *)((uintptr_t)v1 + 25)), v83);
    nd_store_8(((unsigned char *)((uintptr_t)v1 + 26)), v84);
    nd_store_8(((unsigned char *)((uintptr_t)v1 + 27)), v85);
    nd_store_32(((unsigned char *)((uintptr_t)v1 + 28)), 0U);
    nd_store_64(((unsigned char *)((uintptr_t)v1 + 32)), v86);
    nd_store_64(((unsigned char *)((uintptr_t)v1 + 40)), v87);
    return;
L11:;
    nd_stop();
}

static void nd_ndef_nest_phase_headed(unsigned char *v1, unsigned char *v2, unsigned char *v3) {
    ND_ROOM(28) v4;
    ND_ROOM(12) v5;
    nd_memset(v4.b, 0, 28);
    nd_ndef_nest_phase_Name_new(v5.b, v3);
    nd_ndef_nest_phase_Name_settled(v4.b, v5.b, v2);
    nd_store_8(v1, nd_load_8(v4.b));
    nd_store_32(((unsigned char *)((uintptr_t)v1 + 4)), (uint32_t)nd_load_8((v4.b + 4)));
    nd_memcpy(((unsigned char *)((uintptr_t)v1 + 8)), (v4.b + 8), 20);
    return;
}

static void nd_ndef_nest_phase_Name_new(unsigned char *v1, unsigned char *v2) {
    uint8_t v4, v10, v12, v14;
    uint32_t v18;
    v4 = nd_load_8(((unsigned char *)((uintptr_t)v2 + 4)));
    v10 = nd_load_8(((unsigned char *)((uintptr_t)v2 + 1)));
    v12 = nd_load_8(((unsigned char *)((uintptr_t)v2 + 6)));
    v14 = nd_load_8(((unsigned char *)((uintptr_t)v2 + 7)));
    v18 = nd_load_32(((unsigned char *)((uintptr_t)v2 + 8)));
    nd_store_8(v1, nd_load_8(((unsigned char *)((uintptr_t)v2 + 5))));
    nd_store_8((v1 + 1), (uint8_t)((v4 == 1) ? 0 : 4));
    nd_store_8((v1 + 2), 0);
    nd_store_8((v1 + 3), 0);
    nd_store_8((v1 + 4), 0);
    nd_store_8((v1 + 5), v10);
    nd_store_8((v1 + 6), (uint8_t)((v12 == 1) ? v14 : 0));
    nd_store_8((v1 + 7), 0);
    nd_store_32((v1 + 8), v18);
    return;
}

static void nd_ndef_nest_phase_Name_settled(unsigned char *v1, unsigned char *v2, unsigned char *v3) {
    uint8_t v10, v14, v18, v19, v20, v21, v23;
    uint32_t v11;
    ND_ROOM(28) v4;
    ND_ROOM(12) v5, v6, v7;
    nd_memset(v4.b, 0, 28);
    nd_memcpy(v5.b, v2, 12);
    if (nd_load_8(v5.b) == 0) goto L3;
    goto L2;
L1:;
    nd_store_8(v1, v10);
    nd_store_32(((unsigned char *)((uintptr_t)v1 + 4)), v11);
    return;
L2:;
    v14 = nd_load_8(((unsigned char *)((uintptr_t)v3 + 2)));
    nd_memcpy(v6.b, v2, 12);
    nd_memcpy(((unsigned char *)((uintptr_t)v1 + 8)), v6.b, 12);
    nd_store_64(((unsigned char *)((uintptr_t)v1 + 20)), 0ULL);
    v10 = v14;
    v11 = 3U;
    goto L1;
L3:;
    v18 = nd_load_8(((unsigned char *)((uintptr_t)v3 + 1)));
    v19 = nd_ndef_lang_kind_KindReader_kind(v5.b);
    v20 = nd_ndef_format_table_Table_checked(v18, v19);
    nd_memcpy(v7.b, v2, 12);
    nd_ndef_nest_phase_Name_entered(v4.b, v7.b, v3, v20);
    v21 = nd_load_8(v4.b);
    v23 = nd_load_8((v4.b + 4));
    nd_memcpy(((unsigned char *)((uintptr_t)v1 + 8)), (v4.b + 8), 20);
    v10 = v21;
    v11 = (uint32_t)v23;
    goto L1;
}

static uint8_t nd_ndef_lang_kind_KindReader_kind(unsigned char *v1) {
    uint8_t v7, v9, v10, v11, v14, v15;
    if (!(nd_load_8(v1) == 0)) { v15 = 0; goto L6; }
    v7 = nd_load_8(((unsigned char *)((uintptr_t)v1 + 2)));
    v9 = nd_load_8(((unsigned char *)((uintptr_t)v1 + 3)));
    switch (nd_load_8(((unsigned char *)((uintptr_t)v1 + 1)))) {
    case 0: { v15 = 0; goto L6; }
    case 4: { v15 = 0; goto L6; }
    case 1: goto L2;
    case 2: goto L3;
    case 3: goto L4;
    default: goto L5; }
L2:;
    v10 = nd_ndef_format_kind_of_one(v7);
    v15 = v10;
    goto L6;
L3:;
    v11 = nd_ndef_format_kind_of_two(v7, v9);
    v15 = v11;
    goto L6;
L4:;
    v14 = nd_ndef_format_kind_of_three(v7, v9, nd_load_8(((unsigned char *)((uintptr_t)v1 + 4))));
    v15 = v14;
    goto L6;
L5:;
    nd_stop();
L6:;
    return v15;
}

static uint8_t nd_ndef_format_table_Table_checked(uint8_t v1, uint8_t v2) {
    uint8_t v7;
    switch (v2) {
    case 2: goto L1;
    case 1: goto L1;
    case 7: goto L1;
    case 8: goto L1;
    case 9: goto L1;
    case 11: goto L5;
    case 10: goto L2;
    case 12: goto L3;
    case 3: { v7 = 0; goto L7; }
    case 4: { v7 = 0; goto L7; }
    case 5: { v7 = 0; goto L7; }
    case 6: { v7 = 0; goto L7; }
    case 0: { v7 = 0; goto L7; }
    default: goto L4; }
L1:;
    if (v1 == 0) goto L6;
    v7 = 0;
    goto L7;
L2:;
    if (v1 == 0) { v7 = 0; goto L7; }
    goto L6;
L3:;
    if (v1 == 2) goto L6;
    v7 = 0;
    goto L7;
L4:;
    nd_stop();
L5:;
    if (!(v1 == 1)) { v7 = 0; goto L7; }
L6:;
    v7 = v2;
L7:;
    return v7;
}

static void nd_ndef_nest_phase_Name_entered(unsigned char *v1, unsigned char *v2, unsigned char *v3, uint8_t v4) {
    uint8_t v6, v8, v16, v17, v20, v21, v23, v30, v31, v39;
    uint32_t v10, v25, v29;
    ND_ROOM(8) v11;
    ND_ROOM(20) v12;
    ND_ROOM(24) v13;
    v6 = nd_load_8((v2 + 5));
    v8 = nd_load_8((v2 + 6));
    v10 = nd_load_32((v2 + 8));
    nd_store_64(v11.b, 0ULL);
    nd_store_64((v12.b + 8), 0ULL);
    v16 = nd_load_8(((unsigned char *)((uintptr_t)v3 + 2)));
    v17 = nd_ndef_nest_demand_Demand_allows(v16, v4);
    if (v17) goto L3;
    goto L2;
L1:;
    return;
L2:;
    nd_store_8(v1, v16);
    nd_store_32(((unsigned char *)((uintptr_t)v1 + 4)), 6U);
    nd_memset(((unsigned char *)((uintptr_t)v1 + 8)), 0, 20);
    goto L1;
L3:;
    v20 = nd_ndef_nest_demand_Demand_after(v16, v4);
    v21 = nd_load_8(v3);
    v23 = nd_load_8(((unsigned char *)((uintptr_t)v3 + 1)));
    v25 = nd_load_32(((unsigned char *)((uintptr_t)v3 + 4)));
    nd_store_8(v11.b, v21);
    nd_store_8((v11.b + 1), v23);
    nd_store_8((v11.b + 2), v20);
    nd_store_32((v11.b + 4), v25);
    switch (v4) {
    case 1: { v29 = 0U; v30 = 4; v31 = 0; goto L14; }
    case 2: goto L4;
    case 9: goto L5;
    case 7: goto L6;
    case 8: goto L7;
    case 11: goto L8;
    case 10: goto L9;
    case 12: goto L10;
    case 6: goto L11;
    case 0: goto L12;
    case 3: goto L12;
    case 4: goto L12;
    case 5: goto L12;
    default: goto L13; }
L4:;
    v29 = 0U;
    v30 = 5;
    v31 = v21;
    goto L14;
L5:;
    v29 = 0U;
    v30 = 2;
    v31 = 0;
    goto L14;
L6:;
    v29 = 1U;
    v30 = 0;
    v31 = 0;
    goto L14;
L7:;
    v29 = 4U;
    v30 = 0;
    v31 = 0;
    goto L14;
L8:;
    v29 = 2U;
    v30 = 0;
    v31 = 0;
    goto L14;
L9:;
    v29 = 1U;
    v30 = 8;
    v31 = 0;
    goto L14;
L10:;
    v29 = 0U;
    v30 = 6;
    v31 = 0;
    goto L14;
L11:;
    v29 = 1U;
    v30 = 7;
    v31 = 0;
    goto L14;
L12:;
    v29 = 0U;
    v30 = 1;
    v31 = 0;
    goto L14;
L13:;
    nd_stop();
L14:;
    nd_store_32(v12.b, 0U);
    nd_store_32((v12.b + 4), v29);
    nd_store_8((v12.b + 9), v30);
    nd_store_8((v12.b + 10), v31);
    nd_store_8((v12.b + 12), (uint8_t)(v6 & 1));
    nd_store_8((v12.b + 13), v8);
    nd_store_32((v12.b + 16), v10);
    nd_ndef_nest_phase_Body_settled(v13.b, v12.b, v11.b);
    v39 = nd_load_8(v13.b);
    nd_store_8(v1, v20);
    nd_store_32(((unsigned char *)((uintptr_t)v1 + 4)), (uint32_t)v39);
    nd_memcpy(((unsigned char *)((uintptr_t)v1 + 8)), (v13.b + 4), 20);
    goto L1;
}

static uint8_t nd_ndef_nest_demand_Demand_allows(uint8_t v1, uint8_t v2) {
    uint8_t v5;
    switch (v1) {
    case 0: { v5 = 1; goto L3; }
    case 2: { v5 = 1; goto L3; }
    case 1: goto L1;
    case 3: goto L2;
    default: goto L4; }
L1:;
    v5 = v2 != 2;
    goto L3;
L2:;
    v5 = v2 == 11;
L3:;
    return v5;
L4:;
    nd_stop();
}

static uint8_t nd_ndef_nest_demand_Demand_after(uint8_t v1, uint8_t v2) {
    uint8_t v4;
    switch (v1) {
    case 2: goto L1;
    case 3: { v4 = 0; goto L3; }
    case 0: goto L2;
    case 1: goto L2;
    default: goto L4; }
L1:;
    if (v2 == 2) { v4 = 1; goto L3; }
L2:;
    v4 = v1;
L3:;
    return v4;
L4:;
    nd_stop();
}

static void nd_ndef_nest_phase_Body_settled(unsigned char *v1, unsigned char *v2, unsigned char *v3) {
    uint8_t v14;
    uint32_t v22, v24;
    unsigned char *v23;
    ND_ROOM(20) v4, v5, v6;
    nd_memset(v6.b, 0, 20);
    nd_memcpy(v4.b, v2, 20);
    if (!((nd_load_32((v4.b + 16)) | (uint32_t)nd_load_8((v4.b + 13))) == 0U)) { v23 = v2; v24 = 4U; goto L5; }
    v14 = nd_ndef_lang_leaf_LeafLanguage_fits(v4.b, 0ULL, 0ULL);
    if (!v14) { v23 = v6.b; v24 = 6U; goto L5; }
    if (!(uint8_t)(nd_load_8((v4.b + 12)) & 1)) { v22 = 2U; goto L4; }
    v22 = (nd_load_8(((unsigned char *)((uintptr_t)v3 + 2))) < 2) ? 5U : 6U;
L4:;
    nd_memset(v6.b, 0, 20);
    v23 = v6.b;
    v24 = v22;
L5:;
    nd_memcpy(v5.b, v23, 20);
    nd_store_32(v1, v24);
    nd_memcpy(((unsigned char *)((uintptr_t)v1 + 4)), v5.b, 20);
    return;
}

static uint8_t nd_ndef_lang_leaf_LeafLanguage_fits(unsigned char *v1, uint64_t v2, uint64_t v3) {
    uint8_t v29;
    ND_ROOM(24) v4;
    ND_ROOM(12) v5;
    nd_memset(v4.b, 0, 24);
    nd_store_32((v5.b + 8), 0U);
    nd_store_8(v5.b, nd_load_8(v1));
    nd_store_8((v5.b + 1), nd_load_8(((unsigned char *)((uintptr_t)v1 + 1))));
    nd_store_8((v5.b + 2), nd_load_8(((unsigned char *)((uintptr_t)v1 + 2))));
    nd_store_8((v5.b + 3), nd_load_8(((unsigned char *)((uintptr_t)v1 + 3))));
    nd_store_32((v5.b + 4), nd_load_32(((unsigned char *)((uintptr_t)v1 + 4))));
    nd_store_8((v5.b + 8), nd_load_8(((unsigned char *)((uintptr_t)v1 + 8))));
    nd_store_8((v5.b + 9), nd_load_8(((unsigned char *)((uintptr_t)v1 + 9))));
    nd_store_8((v5.b + 10), nd_load_8(((unsigned char *)((uintptr_t)v1 + 10))));
    nd_ndef_lang_leaf_Leaf_lengths(v4.b, v5.b);
    v29 = nd_ndef_lang_lengths_Lengths_meet(v4.b, v2, v3);
    return v29;
}

static void nd_ndef_lang_leaf_Leaf_lengths(unsigned char *v1, unsigned char *v2) {
    uint8_t v4, v6, v8, v10, v14, v16, v28, v32, v44, v46, v50;
    uint32_t v12;
    uint64_t v18, v47, v48, v49;
    ND_ROOM(4) v3;
    ND_ROOM(24) v17;
    v4 = nd_load_8(v2);
    v6 = nd_load_8(((unsigned char *)((uintptr_t)v2 + 1)));
    v8 = nd_load_8(((unsigned char *)((uintptr_t)v2 + 2)));
    v10 = nd_load_8(((unsigned char *)((uintptr_t)v2 + 3)));
    v12 = nd_load_32(((unsigned char *)((uintptr_t)v2 + 4)));
    v14 = nd_load_8(((unsigned char *)((uintptr_t)v2 + 9)));
    v16 = nd_load_8(((unsigned char *)((uintptr_t)v2 + 10)));
    nd_memset(v17.b, 0, 24);
    switch (v4) {
    case 0: goto L1;
    case 1: goto L7;
    case 2: goto L8;
    case 3: { v48 = 0ULL; v49 = 0ULL; v50 = 0; goto L17; }
    default: goto L18; }
L1:;
    v18 = (uint64_t)v12;
    switch (v14) {
    case 0: { v48 = 0ULL; v49 = v18; v50 = 1; goto L17; }
    case 1: goto L2;
    case 2: goto L2;
    case 3: goto L3;
    case 4: goto L4;
    case 5: goto L4;
    case 6: goto L4;
    case 7: goto L4;
    case 9: goto L4;
    case 8: goto L5;
    case 10: goto L6;
    default: goto L18; }
L2:;
    v48 = 0ULL;
    v49 = v18;
    v50 = 2;
    goto L17;
L3:;
    v48 = 0ULL;
    v49 = v18;
    v50 = 3;
    goto L17;
L4:;
    v48 = 0ULL;
    v49 = v18 + 1ULL;
    v50 = 2;
    goto L17;
L5:;
    v48 = 0ULL;
    v49 = v18 + 2ULL;
    v50 = 2;
    goto L17;
L6:;
    v48 = 0ULL;
    v49 = (uint64_t)v16 + v18;
    v50 = 2;
    goto L17;
L7:;
    nd_ndef_lang_utf8_Utf8Lang_lengths(v17.b, v6);
    v48 = nd_load_64((v17.b + 16));
    v49 = nd_load_64((v17.b + 8));
    v50 = nd_load_8(v17.b);
    goto L17;
L8:;
    v28 = (uint8_t)v12;
    nd_store_8(v3.b, v6);
    nd_store_8((v3.b + 1), v8);
    nd_store_8((v3.b + 2), v10);
    nd_store_8((v3.b + 3), v28);
    v32 = nd_ndef_lang_utf16_Utf16State_is_refused(v3.b);
    if (v32) { v46 = 0; v47 = 0ULL; goto L16; }
    switch (v6) {
    case 0: { v44 = 0; goto L15; }
    case 4: { v44 = 0; goto L15; }
    case 1: goto L10;
    case 2: goto L11;
    case 3: goto L12;
    default: goto L14; }
L10:;
    v44 = (uint8_t)(((uint8_t)(v8 & 252) == 216) ? 3 : 1);
    goto L15;
L11:;
    v44 = (uint8_t)((uint8_t)((uint32_t)v10 << 1) & 2);
    goto L15;
L12:;
    if ((uint8_t)((uint8_t)(v8 & 1) ? 1 : (uint8_t)(v10 & 1))) { v44 = 1; goto L15; }
    v44 = (uint8_t)(((uint8_t)(v28 & 252) == 216) ? 3 : 1);
    goto L15;
L14:;
    nd_stop();
L15:;
    v46 = 3;
    v47 = (uint64_t)v44;
L16:;
    v48 = 0ULL;
    v49 = v47;
    v50 = v46;
L17:;
    nd_store_64(v1, (uint64_t)v50);
    nd_store_64(((unsigned char *)((uintptr_t)v1 + 8)), v49);
    nd_store_64(((unsigned char *)((uintptr_t)v1 + 16)), v48);
    return;
L18:;
    nd_stop();
}

static void nd_ndef_lang_utf8_Utf8Lang_lengths(unsigned char *v1, uint8_t v2) {
    uint64_t v8;
    v8 = nd_load_64(((unsigned char *)nd_data_switch_table_ndef_lang_utf8_Utf8Lang_take + (ptrdiff_t)(uint64_t)v2 * 8));
    nd_store_64(v1, nd_load_64(((unsigned char *)nd_data_switch_table_ndef_lang_utf8_Utf8Lang_lengths + (ptrdiff_t)(uint64_t)v2 * 8)));
    nd_store_64(((unsigned char *)((uintptr_t)v1 + 8)), v8);
    nd_store_64(((unsigned char *)((uintptr_t)v1 + 16)), 0ULL);
    return;
}

static uint8_t nd_ndef_lang_utf16_Utf16State_is_refused(unsigned char *v1) {
    uint8_t v4, v13, v16;
    v4 = nd_load_8(((unsigned char *)((uintptr_t)v1 + 1)));
    switch (nd_load_8(v1)) {
    case 0: { v16 = 0; goto L7; }
    case 2: { v16 = 0; goto L7; }
    case 1: goto L1;
    case 3: goto L2;
    case 4: goto L6;
    default: goto L8; }
L1:;
    v16 = (uint8_t)(v4 & 252) == 220;
    goto L7;
L2:;
    if ((uint8_t)(v4 & 1)) { v16 = 0; goto L7; }
    v13 = (uint8_t)(nd_load_8(((unsigned char *)((uintptr_t)v1 + 3))) & 252);
    if (!(uint8_t)(nd_load_8(((unsigned char *)((uintptr_t)v1 + 2))) & 1)) goto L5;
    v16 = v13 != 220;
    goto L7;
L5:;
    v16 = v13 == 220;
    goto L7;
L6:;
    v16 = 1;
L7:;
    return v16;
L8:;
    nd_stop();
}

static uint8_t nd_ndef_lang_lengths_Lengths_meet(unsigned char *v1, uint64_t v2, uint64_t v3) {
    uint64_t v6, v20, v21, v22;
    uint8_t v24;
    v6 = nd_load_64(((unsigned char *)((uintptr_t)v1 + 8)));
    switch (nd_load_8(v1)) {
    case 0: { v24 = 0; goto L5; }
    case 1: goto L1;
    case 2: goto L2;
    case 3: goto L3;
    case 4: goto L4;
    default: goto L6; }
L1:;
    v24 = (v2 <= v6) & (int)(v6 <= v3);
    goto L5;
L2:;
    v24 = (uint8_t)((v2 <= v3) ? (v6 <= v3) : 0);
    goto L5;
L3:;
    v24 = (uint8_t)((v6 <= v3) ? (v2 <= (v3 - ((v3 - v6) & 1ULL))) : 0);
    goto L5;
L4:;
    v20 = nd_load_64(((unsigned char *)((uintptr_t)v1 + 16)));
    v21 = nd_umax_i64(v6, v2);
    v22 = nd_umin_i64(v20, v3);
    v24 = v21 <= v22;
L5:;
    return v24;
L6:;
    nd_stop();
}

static void nd_ndef_lang_kind_KindReader_step(unsigned char *v1, uint8_t v2) {
    unsigned char *v5, *v7, *v9;
    uint8_t v6, v8, v11, v12, v13, v14;
    nd_store_8(v1, (uint8_t)(nd_load_8(v1) + 255));
    v5 = (unsigned char *)((uintptr_t)v1 + 1);
    v6 = nd_load_8(v5);
    v7 = (unsigned char *)((uintptr_t)v1 + 2);
    v8 = nd_load_8(v7);
    v9 = (unsigned char *)((uintptr_t)v1 + 3);
    switch (v6) {
    case 0: { v11 = 1; v12 = v2; v13 = v6; v14 = v6; goto L5; }
    case 1: goto L1;
    case 2: goto L2;
    case 3: goto L3;
    case 4: goto L3;
    default: goto L4; }
L1:;
    v11 = 2;
    v12 = v8;
    v13 = v2;
    v14 = 0;
    goto L5;
L2:;
    v11 = 3;
    v12 = v8;
    v13 = nd_load_8(v9);
    v14 = v2;
    goto L5;
L3:;
    v11 = 4;
    v12 = 0;
    v13 = 0;
    v14 = 0;
    goto L5;
L4:;
    nd_stop();
L5:;
    nd_store_8(v5, v11);
    nd_store_8(v7, v12);
    nd_store_8(v9, v13);
    nd_store_8(((unsigned char *)((uintptr_t)v1 + 4)), v14);
    return;
}

static void nd_ndef_lang_leaf_Leaf_after(unsigned char *v1, unsigned char *v2, uint8_t v3) {
    uint8_t v4, v6, v8, v10, v14, v16, v18, v42, v55, v56, v57, v58, v60, v61, v62;
    uint32_t v12, v59;
    ND_ROOM(4) v19, v21;
    ND_ROOM(12) v20;
    v4 = nd_load_8(v2);
    v6 = nd_load_8(((unsigned char *)((uintptr_t)v2 + 1)));
    v8 = nd_load_8(((unsigned char *)((uintptr_t)v2 + 2)));
    v10 = nd_load_8(((unsigned char *)((uintptr_t)v2 + 3)));
    v12 = nd_load_32(((unsigned char *)((uintptr_t)v2 + 4)));
    v14 = nd_load_8(((unsigned char *)((uintptr_t)v2 + 8)));
    v16 = nd_load_8(((unsigned char *)((uintptr_t)v2 + 9)));
    v18 = nd_load_8(((unsigned char *)((uintptr_t)v2 + 10)));
    nd_memset(v20.b, 0, 12);
    nd_store_32(v21.b, 0U);
    switch (v4) {
    case 0: goto L1;
    case 1: goto L5;
    case 2: goto L6;
    case 3: { v55 = v4; v56 = v6; v57 = 0; v58 = 0; v59 = 0U; v60 = 0; v61 = 0; v62 = 0; goto L7; }
    default: goto L8; }
L1:;
    if (!(v12 == 0U)) goto L3;
    nd_ndef_lang_leaf_Stage_after(v20.b, v16, v18, v3);
    v55 = nd_load_8(v20.b);
    v56 = nd_load_8((v20.b + 1));
    v57 = nd_load_8((v20.b + 2));
    v58 = nd_load_8((v20.b + 3));
    v59 = nd_load_32((v20.b + 4));
    v60 = nd_load_8((v20.b + 8));
    v61 = nd_load_8((v20.b + 9));
    v62 = nd_load_8((v20.b + 10));
    goto L7;
L3:;
    if (!(((int8_t)v3 > (int8_t)255) | (int)(v14 == 0))) { v55 = 3; v56 = 15; v57 = 0; v58 = 0; v59 = 0U; v60 = 0; v61 = 0; v62 = 0; goto L7; }
    v55 = 0;
    v56 = 0;
    v57 = 0;
    v58 = 0;
    v59 = v12 + 4294967295U;
    v60 = v14;
    v61 = v16;
    v62 = v18;
    goto L7;
L5:;
    v42 = nd_ndef_lang_utf8_Utf8Lang_after(v6, v3);
    v55 = 1;
    v56 = v42;
    v57 = 0;
    v58 = 0;
    v59 = 0U;
    v60 = 0;
    v61 = 0;
    v62 = 0;
    goto L7;
L6:;
    nd_store_8(v19.b, v6);
    nd_store_8((v19.b + 1), v8);
    nd_store_8((v19.b + 2), v10);
    nd_store_8((v19.b + 3), (uint8_t)v12);
    nd_ndef_lang_utf16_Utf16State_after(v21.b, v19.b, v3);
    v55 = 2;
    v56 = nd_load_8(v21.b);
    v57 = nd_load_8((v21.b + 1));
    v58 = nd_load_8((v21.b + 2));
    v59 = (uint32_t)nd_load_8((v21.b + 3));
    v60 = 0;
    v61 = 0;
    v62 = 0;
L7:;
    nd_store_8(v1, v55);
    nd_store_8(((unsigned char *)((uintptr_t)v1 + 1)), v56);
    nd_store_8(((unsigned char *)((uintptr_t)v1 + 2)), v57);
    nd_store_8(((unsigned char *)((uintptr_t)v1 + 3)), v58);
    nd_store_32(((unsigned char *)((uintptr_t)v1 + 4)), v59);
    nd_store_8(((unsigned char *)((uintptr_t)v1 + 8)), v60);
    nd_store_8(((unsigned char *)((uintptr_t)v1 + 9)), v61);
    nd_store_8(((unsigned char *)((uintptr_t)v1 + 10)), v62);
    return;
L8:;
    nd_stop();
}

static void nd_ndef_lang_leaf_Stage_after(unsigned char *v1, uint8_t v2, uint8_t v3, uint8_t v4) {
    uint8_t v8, v9, v11, v13, v23, v24, v26, v27, v31, v49, v50, v51, v52, v53, v54, v55;
    uint32_t v25, v57;
    ND_ROOM(12) v5;
    ND_ROOM(4) v6, v7;
    nd_memset(v5.b, 0, 12);
    nd_store_32(v6.b, 0U);
    nd_store_32(v7.b, 0U);
    switch (v2) {
    case 0: { v49 = v2; v50 = v2; v51 = v2; v52 = v2; v53 = v2; v54 = 23; v55 = 3; goto L8; }
    case 2: goto L1;
    case 3: goto L2;
    case 4: goto L3;
    case 5: goto L6;
    case 1: goto L7;
    case 6: goto L7;
    case 7: goto L7;
    case 8: goto L7;
    case 9: goto L7;
    case 10: goto L7;
    default: goto L9; }
L1:;
    v8 = nd_ndef_lang_utf8_Utf8Lang_after(0, v4);
    v49 = 0;
    v50 = 0;
    v51 = 0;
    v52 = 0;
    v53 = 0;
    v54 = v8;
    v55 = 1;
    goto L8;
L2:;
    nd_ndef_lang_utf16_Utf16State_after(v6.b, v7.b, v4);
    v9 = nd_load_8(v6.b);
    v11 = nd_load_8((v6.b + 1));
    v13 = nd_load_8((v6.b + 2));
    nd_store_8((v5.b + 4), nd_load_8((v6.b + 3)));
    v49 = 0;
    v50 = 0;
    v51 = 0;
    v52 = v13;
    v53 = v11;
    v54 = v9;
    v55 = 2;
    goto L8;
L3:;
    if (!((uint8_t)(v4 & 64) == 0)) { v23 = 3; v24 = 14; v25 = 0U; v26 = 0; v27 = 0; goto L5; }
    v23 = 0;
    v24 = 0;
    v25 = (uint32_t)(uint8_t)(v4 & 63);
    v26 = 1;
    v27 = (uint8_t)(((int8_t)v4 < (int8_t)0) ? 3 : 2);
L5:;
    nd_store_32((v5.b + 4), v25);
    v49 = 0;
    v50 = v27;
    v51 = v26;
    v52 = 0;
    v53 = 0;
    v54 = v24;
    v55 = v23;
    goto L8;
L6:;
    v31 = (v3 == 0) & (int)(v4 > 35);
    nd_memset((v5.b + 2), 0, 7);
    v49 = 0;
    v50 = (uint8_t)(v31 ? 0 : 2);
    v51 = 0;
    v52 = 0;
    v53 = 0;
    v54 = (uint8_t)(v31 ? 18 : 0);
    v55 = (uint8_t)(v31 ? 3 : 0);
    goto L8;
L7:;
    nd_ndef_lang_leaf_Stage_field_after(v5.b, v2, v3, v4);
    v49 = nd_load_8((v5.b + 10));
    v50 = nd_load_8((v5.b + 9));
    v51 = nd_load_8((v5.b + 8));
    v52 = nd_load_8((v5.b + 3));
    v53 = nd_load_8((v5.b + 2));
    v54 = nd_load_8((v5.b + 1));
    v55 = nd_load_8(v5.b);
L8:;
    v57 = nd_load_32((v5.b + 4));
    nd_store_8(v1, v55);
    nd_store_8(((unsigned char *)((uintptr_t)v1 + 1)), v54);
    nd_store_8(((unsigned char *)((uintptr_t)v1 + 2)), v53);
    nd_store_8(((unsigned char *)((uintptr_t)v1 + 3)), v52);
    nd_store_32(((unsigned char *)((uintptr_t)v1 + 4)), v57);
    nd_store_8(((unsigned char *)((uintptr_t)v1 + 8)), v51);
    nd_store_8(((unsigned char *)((uintptr_t)v1 + 9)), v50);
    nd_store_8(((unsigned char *)((uintptr_t)v1 + 10)), v49);
    return;
L9:;
    nd_stop();
}

static void nd_ndef_lang_leaf_Stage_field_after(unsigned char *v1, uint8_t v2, uint8_t v3, uint8_t v4) {
    uint8_t v19, v20, v21, v22;
    switch (v2) {
    case 0: { v19 = 0; v20 = 0; v21 = v2; v22 = v3; goto L10; }
    case 1: { v19 = 0; v20 = 0; v21 = v2; v22 = v3; goto L10; }
    case 2: { v19 = 0; v20 = 0; v21 = v2; v22 = v3; goto L10; }
    case 3: { v19 = 0; v20 = 0; v21 = v2; v22 = v3; goto L10; }
    case 4: goto L1;
    case 5: goto L2;
    case 6: goto L3;
    case 7: goto L4;
    case 8: goto L5;
    case 9: goto L6;
    case 10: goto L7;
    default: goto L11; }
L1:;
    v19 = (uint8_t)(v4 & 63);
    v20 = 1;
    v21 = (uint8_t)(((int8_t)v4 < (int8_t)0) ? 3 : 2);
    v22 = 0;
    goto L10;
L2:;
    v19 = 0;
    v20 = 0;
    v21 = 2;
    v22 = 0;
    goto L10;
L3:;
    if (v4 < 4) goto L9;
    v19 = 0;
    v20 = 0;
    v21 = 1;
    v22 = 0;
    goto L10;
L4:;
    v19 = v4;
    v20 = 0;
    v21 = 1;
    v22 = 0;
    goto L10;
L5:;
    v19 = v4;
    v20 = 0;
    v21 = 9;
    v22 = 0;
    goto L10;
L6:;
    v19 = 0;
    v20 = 0;
    v21 = 10;
    v22 = v4;
    goto L10;
L7:;
    if (v3 == 0) { v19 = 0; v20 = 0; v21 = 1; v22 = 0; goto L10; }
    v19 = v4;
    v20 = 0;
    v21 = 10;
    v22 = (uint8_t)(v3 + 255);
    goto L10;
L9:;
    v19 = (uint8_t)(17039616U >> ((uint32_t)(uint8_t)((uint32_t)v4 << 3) & 31));
    v20 = 0;
    v21 = (uint8_t)(1U >> ((uint32_t)(uint8_t)((uint32_t)v4 << 3) & 31));
    v22 = 0;
L10:;
    nd_store_32(v1, 0U);
    nd_store_32(((unsigned char *)((uintptr_t)v1 + 4)), (uint32_t)v19);
    nd_store_8(((unsigned char *)((uintptr_t)v1 + 8)), v20);
    nd_store_8(((unsigned char *)((uintptr_t)v1 + 9)), v21);
    nd_store_8(((unsigned char *)((uintptr_t)v1 + 10)), v22);
    return;
L11:;
    nd_stop();
}

static uint8_t nd_ndef_lang_utf8_Utf8Lang_after(uint8_t v1, uint8_t v2) {
    uint8_t v25;
    switch (v1) {
    case 0: goto L1;
    case 1: goto L10;
    case 2: goto L11;
    case 3: goto L12;
    case 4: goto L13;
    case 5: goto L14;
    case 6: goto L15;
    case 7: goto L16;
    case 8: { v25 = v1; goto L17; }
    default: goto L18; }
L1:;
    switch (v2) {
    case 224: { v25 = 4; goto L17; }
    case 237: goto L2;
    case 240: goto L3;
    case 244: goto L4;
    default: goto L5; }
L2:;
    v25 = 5;
    goto L17;
L3:;
    v25 = 6;
    goto L17;
L4:;
    v25 = 7;
    goto L17;
L5:;
    if ((int8_t)v2 > (int8_t)255) { v25 = 0; goto L17; }
    if (v2 < 194) { v25 = 8; goto L17; }
    if (v2 < 224) { v25 = 1; goto L17; }
    if (v2 < 240) { v25 = 2; goto L17; }
    v25 = (uint8_t)((v2 < 244) ? 3 : 8);
    goto L17;
L10:;
    v25 = (uint8_t)(((int8_t)v2 > (int8_t)191) ? 8 : 0);
    goto L17;
L11:;
    v25 = (uint8_t)(((int8_t)v2 > (int8_t)191) ? 8 : 1);
    goto L17;
L12:;
    v25 = (uint8_t)(((int8_t)v2 > (int8_t)191) ? 8 : 2);
    goto L17;
L13:;
    v25 = (uint8_t)(((uint8_t)(v2 + 64) < 224) ? 8 : 1);
    goto L17;
L14:;
    v25 = (uint8_t)(((int8_t)v2 > (int8_t)159) ? 8 : 1);
    goto L17;
L15:;
    v25 = (uint8_t)(((uint8_t)(v2 + 64) < 208) ? 8 : 2);
    goto L17;
L16:;
    v25 = (uint8_t)(((int8_t)v2 > (int8_t)143) ? 8 : 2);
L17:;
    return v25;
L18:;
    nd_stop();
}

static void nd_ndef_lang_utf16_Utf16State_after(unsigned char *v1, unsigned char *v2, uint8_t v3) {
    uint8_t v4, v6, v8, v10, v17, v24, v25, v30, v31, v32, v34, v39, v40, v41, v42;
    v4 = nd_load_8(v2);
    v6 = nd_load_8(((unsigned char *)((uintptr_t)v2 + 1)));
    v8 = nd_load_8(((unsigned char *)((uintptr_t)v2 + 2)));
    v10 = nd_load_8(((unsigned char *)((uintptr_t)v2 + 3)));
    switch (v4) {
    case 0: { v39 = v4; v40 = v4; v41 = v3; v42 = 1; goto L17; }
    case 1: goto L1;
    case 2: goto L5;
    case 3: goto L6;
    case 4: goto L16;
    default: goto L18; }
L1:;
    if ((v3 == 255) & (int)(v6 == 254)) { v39 = 0; v40 = 0; v41 = 0; v42 = 2; goto L17; }
    if ((v3 == 254) & (int)(v6 == 255)) { v39 = 0; v40 = 0; v41 = 1; v42 = 2; goto L17; }
    v17 = (uint8_t)(v6 & 252);
    if (v17 == 220) { v39 = 0; v40 = 0; v41 = 0; v42 = 4; goto L17; }
    v39 = 0;
    v40 = (uint8_t)(v17 == 216);
    v41 = 0;
    v42 = 2;
    goto L17;
L5:;
    v39 = v3;
    v40 = (uint8_t)(v8 & 1);
    v41 = (uint8_t)(v6 & 1);
    v42 = 3;
    goto L17;
L6:;
    v24 = (uint8_t)(v8 & 1);
    if (!(uint8_t)(v6 & 1)) goto L12;
    v25 = (uint8_t)(v3 & 252);
    if (!(v25 == 220)) goto L9;
    v30 = 0;
    v31 = v24;
    v32 = (uint8_t)(v24 ? 2 : 4);
    goto L11;
L9:;
    if (v24) { v30 = 0; v31 = 0; v32 = 4; goto L11; }
    v30 = (uint8_t)(v25 == 216);
    v31 = 1;
    v32 = 2;
L11:;
    v39 = 0;
    v40 = v30;
    v41 = (uint8_t)v31;
    v42 = v32;
    goto L17;
L12:;
    v34 = (uint8_t)(v10 & 252);
    if (!(v34 == 220)) goto L14;
    v39 = 0;
    v40 = 0;
    v41 = 0;
    v42 = (uint8_t)(v24 ? 2 : 4);
    goto L17;
L14:;
    if (v24) { v39 = 0; v40 = 0; v41 = 0; v42 = 4; goto L17; }
    v39 = 0;
    v40 = (uint8_t)(v34 == 216);
    v41 = 0;
    v42 = 2;
    goto L17;
L16:;
    v39 = 0;
    v40 = 0;
    v41 = 0;
    v42 = 4;
L17:;
    nd_store_8(v1, v42);
    nd_store_8(((unsigned char *)((uintptr_t)v1 + 1)), v41);
    nd_store_8(((unsigned char *)((uintptr_t)v1 + 2)), v40);
    nd_store_8(((unsigned char *)((uintptr_t)v1 + 3)), v39);
    return;
L18:;
    nd_stop();
}

static uint8_t nd_ndef_lang_leaf_LeafLanguage_reason(unsigned char *v1) {
    uint8_t v5, v11, v13, v18, v20;
    uint32_t v9;
    ND_ROOM(4) v2;
    v5 = nd_load_8(((unsigned char *)((uintptr_t)v1 + 1)));
    switch (nd_load_8(v1)) {
    case 0: { v20 = 23; goto L5; }
    case 1: goto L1;
    case 2: goto L2;
    case 3: goto L3;
    default: goto L4; }
L1:;
    v20 = (uint8_t)((v5 == 8) ? 16 : 23);
    goto L5;
L2:;
    v9 = nd_load_32(((unsigned char *)((uintptr_t)v1 + 4)));
    v11 = nd_load_8(((unsigned char *)((uintptr_t)v1 + 3)));
    v13 = nd_load_8(((unsigned char *)((uintptr_t)v1 + 2)));
    nd_store_8(v2.b, v5);
    nd_store_8((v2.b + 1), v13);
    nd_store_8((v2.b + 2), v11);
    nd_store_8((v2.b + 3), (uint8_t)v9);
    v18 = nd_ndef_lang_utf16_Utf16State_is_refused(v2.b);
    v20 = (uint8_t)(v18 ? 17 : 23);
    goto L5;
L3:;
    v20 = v5;
    goto L5;
L4:;
    nd_stop();
L5:;
    return v20;
}

static uint8_t nd_ndef_nest_nest_NestLanguage_fits(unsigned char *v1, uint64_t v2, uint64_t v3) {
    uint8_t v7, v11, v12, v31;
    uint64_t v9, v28, v29;
    struct nd_64_64 v18, v19, v20, v24, v25;
    ND_ROOM(48) v4;
    ND_ROOM(24) v5;
    v7 = nd_load_8(((unsigned char *)((uintptr_t)v1 + 56)));
    switch (v7) {
    case 0: goto L1;
    case 1: goto L3;
    case 2: goto L4;
    case 3: goto L4;
    case 4: goto L4;
    case 5: goto L4;
    case 6: goto L4;
    default: goto L12; }
L1:;
    if (v3 == 0ULL) { v31 = 0; goto L11; }
    v9 = nd_usub_sat_i64(v2, 1ULL);
    v11 = nd_ndef_nest_nest_start_fits(v1, v9, (v3 + 18446744073709551615ULL));
    v31 = v11;
    goto L11;
L3:;
    v12 = nd_ndef_nest_nest_start_fits(v1, v2, v3);
    v31 = v12;
    goto L11;
L4:;
    if (!(v7 == 2)) goto L9;
    nd_memset(v4.b, 0, 48);
    nd_ndef_piece_head_reader_HeadReader_bounds(v4.b, ((unsigned char *)((uintptr_t)v1 + 8)));
    if (!(nd_load_8(v4.b) == 1)) goto L7;
    v18 = nd_ndef_nest_nest_Nest_bounded_span(v1, (v4.b + 8));
    v20 = v18;
    goto L8;
L7:;
    v19 = nd_ndef_nest_phase_records_span(v1);
    v20 = v19;
L8:;
    v25 = v20;
    goto L10;
L9:;
    nd_store_32(v5.b, (uint32_t)v7);
    nd_memcpy((v5.b + 4), ((unsigned char *)((uintptr_t)v1 + 60)), 20);
    v24 = nd_ndef_nest_phase_NestPhase_span(v5.b, v1);
    v25 = v24;
L10:;
    v28 = nd_umax_i64(v2, v25.f0);
    v29 = nd_umin_i64(v3, v25.f1);
    v31 = v28 <= v29;
L11:;
    return v31;
L12:;
    nd_stop();
}

static uint8_t nd_ndef_nest_nest_start_fits(unsigned char *v1, uint64_t v2, uint64_t v3) {
    struct nd_64_64 v9;
    uint64_t v12, v13;
    uint8_t v15;
    if ((v2 == 0ULL) & (int)(nd_load_8(((unsigned char *)((uintptr_t)v1 + 1))) == 2)) { v15 = 1; goto L2; }
    v9 = nd_ndef_nest_phase_records_span(v1);
    v12 = nd_umax_i64(v2, v9.f0);
    v13 = nd_umin_i64(v3, v9.f1);
    v15 = v12 <= v13;
L2:;
    return v15;
}

static struct nd_64_64 nd_ndef_nest_phase_records_span(unsigned char *v1) {
    uint8_t v3;
    uint64_t v4;
    v3 = nd_load_8(((unsigned char *)((uintptr_t)v1 + 2)));
    v4 = nd_ndef_nest_span_least(v3);
    return (struct nd_64_64) { v4, (((v3 == 3) & (int)(nd_load_32(((unsigned char *)((uintptr_t)v1 + 4))) == 1U)) ? 266ULL : 4294967295ULL) };
}

static uint64_t nd_ndef_nest_span_least(uint8_t v1) {
    return nd_load_64(((unsigned char *)nd_data_switch_table_ndef_nest_span_least + (ptrdiff_t)(uint64_t)v1 * 8));
}

static struct nd_64_64 nd_ndef_nest_nest_Nest_bounded_span(unsigned char *v1, unsigned char *v2) {
    uint8_t v5, v7, v10, v11;
    uint64_t v14;
    uint16_t v16, v18;
    struct nd_64_64 v29;
    ND_ROOM(48) v3;
    v5 = nd_load_8(((unsigned char *)((uintptr_t)v1 + 2)));
    v7 = nd_load_8(((unsigned char *)((uintptr_t)v2 + 2)));
    switch (v5) {
    case 2: goto L1;
    case 3: goto L2;
    case 0: goto L3;
    case 1: goto L3;
    default: goto L4; }
L1:;
    if (v7 == 1) { v10 = 1; v11 = 1; goto L5; }
    goto L3;
L2:;
    if (v7 == 1) { v10 = 1; v11 = 2; goto L5; }
L3:;
    v10 = 0;
    v11 = 0;
    goto L5;
L4:;
    nd_stop();
L5:;
    v14 = nd_load_64(((unsigned char *)((uintptr_t)v2 + 8)));
    v16 = nd_load_16(((unsigned char *)((uintptr_t)v2 + 16)));
    v18 = nd_load_16(((unsigned char *)((uintptr_t)v2 + 18)));
    nd_store_8(v3.b, nd_load_8(v2));
    nd_memset((v3.b + 1), 0, 7);
    nd_store_64((v3.b + 8), v14);
    nd_store_16((v3.b + 16), v16);
    nd_store_16((v3.b + 18), v18);
    nd_store_32((v3.b + 20), 0U);
    nd_memcpy((v3.b + 24), ((unsigned char *)((uintptr_t)v2 + 24)), 16);
    nd_store_8((v3.b + 40), v10);
    nd_store_8((v3.b + 41), v11);
    nd_memset((v3.b + 42), 0, 6);
    v29 = nd_ndef_nest_span_OpenRecord_span(v3.b, v5);
    return v29;
}

static struct nd_64_64 nd_ndef_nest_span_OpenRecord_span(unsigned char *v1, uint8_t v2) {
    struct nd_64_64 v5, v6, v36;
    uint64_t v7, v16, v18, v19, v22, v23;
    uint8_t v9, v27;
    ND_ROOM(24) v3, v4;
    switch (v2) {
    case 0: goto L1;
    case 1: goto L1;
    case 2: goto L2;
    case 3: goto L6;
    default: goto L8; }
L1:;
    v5 = nd_ndef_nest_span_OpenRecord_plain(v1, v2);
    v36 = v5;
    goto L7;
L2:;
    v6 = nd_ndef_nest_span_OpenRecord_plain(v1, 2);
    v7 = v6.f0;
    v9 = (uint8_t)(nd_load_8(v1) & 1);
    nd_ndef_nest_span_OpenRecord_expected(v3.b, v1, 1ULL, 4294967295ULL);
    if (!(nd_load_8(v3.b) == 0)) goto L4;
    v22 = v9 ? 1ULL : v7;
    v23 = v9 ? 0ULL : v6.f1;
    goto L5;
L4:;
    v16 = nd_load_64((v3.b + 16));
    v18 = nd_load_64((v3.b + 8));
    v19 = nd_umin_i64(v7, v18);
    v22 = v9 ? v18 : v19;
    v23 = v9 ? v16 : 4294967295ULL;
L5:;
    v36 = (struct nd_64_64) { v22, v23 };
    goto L7;
L6:;
    nd_ndef_nest_span_OpenRecord_expected(v4.b, v1, 2ULL, 2ULL);
    v27 = nd_load_8(v4.b) == 1;
    v36 = (struct nd_64_64) { (v27 ? nd_load_64((v4.b + 8)) : 1ULL), (v27 ? nd_load_64((v4.b + 16)) : 0ULL) };
L7:;
    return v36;
L8:;
    nd_stop();
}

static struct nd_64_64 nd_ndef_nest_span_OpenRecord_plain(unsigned char *v1, uint8_t v2) {
    uint64_t v4, v15, v29, v31, v32;
    v4 = nd_load_64(((unsigned char *)((uintptr_t)v1 + 8)));
    v15 = ((v4 + (uint64_t)nd_load_8(((unsigned char *)((uintptr_t)v1 + 16)))) + (uint64_t)nd_load_8(((unsigned char *)((uintptr_t)v1 + 18)))) + nd_load_64(((unsigned char *)((uintptr_t)v1 + 24)));
    if (!(uint8_t)(nd_load_8(v1) & 1)) goto L2;
    v31 = ((v4 + (uint64_t)nd_load_8(((unsigned char *)((uintptr_t)v1 + 17)))) + (uint64_t)nd_load_8(((unsigned char *)((uintptr_t)v1 + 19)))) + nd_load_64(((unsigned char *)((uintptr_t)v1 + 32)));
    v32 = v15;
    goto L3;
L2:;
    v29 = nd_ndef_nest_span_least(v2);
    v31 = 4294967295ULL;
    v32 = v29 + v15;
L3:;
    return (struct nd_64_64) { v32, v31 };
}

static void nd_ndef_nest_span_OpenRecord_expected(unsigned char *v1, unsigned char *v2, uint64_t v3, uint64_t v4) {
    uint8_t v8;
    uint64_t v18, v21, v28, v31, v40, v41, v42;
    v8 = nd_load_8(((unsigned char *)((uintptr_t)v2 + 41)));
    if (!(nd_load_8(((unsigned char *)((uintptr_t)v2 + 40))) == 1)) goto L3;
    if (nd_load_8(((unsigned char *)((uintptr_t)v2 + 16))) > v8) { v40 = 0ULL; v41 = 0ULL; v42 = 0ULL; goto L9; }
    goto L4;
L2:;
    return;
L3:;
    nd_memset(v1, 0, 24);
    goto L2;
L4:;
    if (v8 > nd_load_8(((unsigned char *)((uintptr_t)v2 + 17)))) { v40 = 0ULL; v41 = 0ULL; v42 = 0ULL; goto L9; }
    v18 = nd_umax_i64(v3, nd_load_64(((unsigned char *)((uintptr_t)v2 + 24))));
    v21 = nd_umin_i64(v4, nd_load_64(((unsigned char *)((uintptr_t)v2 + 32))));
    if (v18 > v21) { v40 = 0ULL; v41 = 0ULL; v42 = 0ULL; goto L9; }
    v28 = nd_load_64(((unsigned char *)((uintptr_t)v2 + 8))) + (uint64_t)v8;
    v31 = (v28 + v18) + (uint64_t)nd_load_8(((unsigned char *)((uintptr_t)v2 + 18)));
    if (!(uint8_t)(nd_load_8(v2) & 1)) goto L8;
    v40 = (v28 + v21) + (uint64_t)nd_load_8(((unsigned char *)((uintptr_t)v2 + 19)));
    v41 = v31;
    v42 = 1ULL;
    goto L9;
L8:;
    v40 = 4294967295ULL;
    v41 = v31 + 3ULL;
    v42 = 1ULL;
L9:;
    nd_store_64(v1, v42);
    nd_store_64(((unsigned char *)((uintptr_t)v1 + 8)), v41);
    nd_store_64(((unsigned char *)((uintptr_t)v1 + 16)), v40);
    goto L2;
}

static struct nd_64_64 nd_ndef_nest_phase_NestPhase_span(unsigned char *v1, unsigned char *v2) {
    uint8_t v7, v11, v13, v23, v26, v28, v30, v32, v33, v50, v58, v64;
    uint32_t v9, v15, v66;
    uint64_t v17, v34, v57, v61, v67, v74, v75, v78, v79, v80, v81;
    struct nd_64_64 v19, v46;
    ND_ROOM(20) v3;
    ND_ROOM(5) v4;
    ND_ROOM(48) v18;
    v7 = nd_load_8(((unsigned char *)((uintptr_t)v1 + 4)));
    v9 = nd_load_32(((unsigned char *)((uintptr_t)v1 + 5)));
    v11 = nd_load_8(((unsigned char *)((uintptr_t)v1 + 9)));
    v13 = nd_load_8(((unsigned char *)((uintptr_t)v1 + 10)));
    v15 = nd_load_32(((unsigned char *)((uintptr_t)v1 + 12)));
    v17 = nd_load_64(((unsigned char *)((uintptr_t)v1 + 16)));
    switch (nd_load_8(v1)) {
    case 0: { v80 = 1ULL; v81 = 0ULL; goto L18; }
    case 1: { v80 = 1ULL; v81 = 0ULL; goto L18; }
    case 6: { v80 = 1ULL; v81 = 0ULL; goto L18; }
    case 2: goto L1;
    case 3: goto L2;
    case 4: goto L11;
    case 5: goto L17;
    default: goto L19; }
L1:;
    v19 = nd_ndef_nest_phase_records_span(v2);
    v80 = v19.f0;
    v81 = v19.f1;
    goto L18;
L2:;
    v23 = nd_load_8(((unsigned char *)((uintptr_t)v2 + 2)));
    nd_store_8(v4.b, v7);
    nd_store_32((v4.b + 1), v9);
    switch (v23) {
    case 2: goto L3;
    case 3: goto L5;
    case 0: goto L8;
    case 1: goto L8;
    default: goto L9; }
L3:;
    if (!(v7 == 1)) goto L8;
    nd_ndef_lang_kind_KindReader_step(v4.b, 85);
    v26 = nd_ndef_lang_kind_KindReader_kind(v4.b);
    if (v26 == 2) { v32 = 1; v33 = 1; goto L10; }
    goto L8;
L5:;
    switch (v7) {
    case 1: goto L6;
    case 2: goto L7;
    default: goto L8; }
L6:;
    nd_ndef_lang_kind_KindReader_step(v4.b, 114);
    v28 = nd_ndef_lang_kind_KindReader_kind(v4.b);
    if (v28 == 11) { v32 = 1; v33 = 1; goto L10; }
    goto L8;
L7:;
    nd_ndef_lang_kind_KindReader_step(v4.b, 99);
    nd_ndef_lang_kind_KindReader_step(v4.b, 114);
    v30 = nd_ndef_lang_kind_KindReader_kind(v4.b);
    if (v30 == 11) { v32 = 1; v33 = 2; goto L10; }
L8:;
    v32 = 0;
    v33 = 0;
    goto L10;
L9:;
    nd_stop();
L10:;
    v34 = (uint64_t)v15;
    nd_store_8(v18.b, v11);
    nd_memset((v18.b + 1), 0, 15);
    nd_store_8((v18.b + 16), v7);
    nd_store_8((v18.b + 17), v7);
    nd_store_8((v18.b + 18), v13);
    nd_store_8((v18.b + 19), v13);
    nd_store_32((v18.b + 20), 0U);
    nd_store_64((v18.b + 24), v34);
    nd_store_64((v18.b + 32), v34);
    nd_store_8((v18.b + 40), v32);
    nd_store_8((v18.b + 41), v33);
    nd_memset((v18.b + 42), 0, 6);
    v46 = nd_ndef_nest_span_OpenRecord_span(v18.b, v23);
    v80 = v46.f0;
    v81 = v46.f1;
    goto L18;
L11:;
    v50 = nd_load_8(((unsigned char *)((uintptr_t)v1 + 11)));
    nd_store_8(v3.b, v7);
    nd_store_32((v3.b + 1), v9);
    nd_store_8((v3.b + 5), v11);
    nd_store_8((v3.b + 6), v13);
    nd_store_8((v3.b + 7), v50);
    nd_store_32((v3.b + 8), v15);
    nd_store_64((v3.b + 12), v17);
    v57 = v17 >> 32;
    v58 = nd_ndef_lang_leaf_LeafLanguage_fits(v3.b, v57, v57);
    if (!v58) { v78 = 0ULL; v79 = 1ULL; goto L16; }
    v61 = ((v17 >> 8) & 255ULL) + v57;
    v64 = nd_load_8(((unsigned char *)((uintptr_t)v2 + 2)));
    if ((uint8_t)(v17 & 1)) goto L14;
    v66 = nd_load_32(((unsigned char *)((uintptr_t)v2 + 4)));
    v67 = nd_ndef_nest_span_least(v64);
    v74 = ((v64 == 3) & (int)(v66 == 1U)) ? 266ULL : 4294967295ULL;
    v75 = v67;
    goto L15;
L14:;
    v74 = 0ULL;
    v75 = (uint64_t)(v64 > 1);
L15:;
    v78 = v74 + v61;
    v79 = v75 + v61;
L16:;
    v80 = v79;
    v81 = v78;
    goto L18;
L17:;
    v80 = 0ULL;
    v81 = 0ULL;
L18:;
    return (struct nd_64_64) { v80, v81 };
L19:;
    nd_stop();
}

static uint64_t nd_ndef_nest_nest_NestLanguage_step_all(unsigned char *v1, unsigned char *v2, uint64_t v3, uint64_t v4, uint64_t v5) {
    unsigned char *v32, *v33, *v34, *v35, *v36, *v37, *v38, *v39, *v40, *v41, *v42, *v43, *v44, *v45, *v46, *v47, *v48, *v49, *v50, *v51, *v52, *v53, *v54, *v55, *v56, *v57, *v58, *v59, *v60, *v61, *v62, *v63, *v64, *v65, *v66, *v67, *v68, *v69, *v70, *v71, *v72, *v73, *v74, *v75, *v76, *v77, *v78, *v79, *v80, *v81, *v82, *v83, *v84, *v85, *v86, *v87, *v88, *v89, *v90, *v91, *v92, *v93, *v94, *v95, *v96, *v97, *v98, *v99, *v100, *v101, *v102, *v103, *v104, *v105, *v106, *v107, *v108, *v109, *v110, *v111, *v112, *v115, *v164, *v173, *v215, *v217, *v250, *v278, *v327, *v369, *v398, *v426, *v475, *v539, *v567, *v616, *v729;
    uint64_t v113, v116, v117, v118, v133, v134, v135, v137, v153, v159, v167, v168, v170, v174, v175, v176, v178, v184, v186, v195, v218, v221, v370, v703, v715, v716, v722, v723, v730, v731, v732, v734, v736;
    uint8_t v119, v121, v122, v123, v124, v126, v127, v128, v129, v130, v141, v142, v143, v145, v146, v147, v149, v150, v157, v165, v177, v182, v192, v194, v199, v204, v211, v212, v213, v214, v219, v226, v287, v435, v516, v576, v657, v659, v660, v661, v662, v670, v675, v680, v687, v688, v689, v690, v691, v692, v697, v698, v701, v704, v725, v726;
    uint32_t v125, v131, v144, v185, v658, v667, v694, v700, v702, v728;
    struct nd_64_64 v719;
    ND_ROOM(28) v6, v13;
    ND_ROOM(12) v7, v8, v16, v17, v23, v31;
    ND_ROOM(24) v9, v10, v11, v21, v25;
    ND_ROOM(20) v12, v20, v22, v24, v27, v28, v29;
    ND_ROOM(32) v14;
    ND_ROOM(48) v15, v26, v30;
    ND_ROOM(8) v18;
    ND_ROOM(16) v19;
    v32 = (unsigned char *)((uintptr_t)v1 + 56);
    v33 = (unsigned char *)((uintptr_t)v1 + 8);
    v34 = v16.b + 1;
    v35 = v16.b + 2;
    v36 = v16.b + 3;
    v37 = v16.b + 4;
    v38 = v16.b + 5;
    v39 = v16.b + 8;
    v40 = v14.b + 24;
    v41 = v14.b + 8;
    v42 = v17.b + 5;
    v43 = v17.b + 6;
    v44 = v17.b + 7;
    v45 = v17.b + 8;
    v46 = v17.b + 4;
    v47 = v8.b + 8;
    v48 = v8.b + 4;
    v49 = v8.b + 9;
    v50 = v17.b + 1;
    v51 = v9.b + 4;
    v52 = v7.b + 1;
    v53 = v7.b + 2;
    v54 = v7.b + 3;
    v55 = v7.b + 4;
    v56 = v7.b + 5;
    v57 = v7.b + 6;
    v58 = v7.b + 7;
    v59 = v7.b + 8;
    v60 = v6.b + 4;
    v61 = v6.b + 8;
    v62 = v10.b + 4;
    v63 = v13.b + 4;
    v64 = v11.b + 4;
    v65 = v13.b + 8;
    v66 = v26.b + 8;
    v67 = v31.b + 1;
    v68 = v31.b + 2;
    v69 = v31.b + 3;
    v70 = v31.b + 4;
    v71 = v31.b + 5;
    v72 = v31.b + 8;
    v73 = (unsigned char *)((uintptr_t)v1 + 60);
    v74 = (unsigned char *)((uintptr_t)v1 + 61);
    v75 = (unsigned char *)((uintptr_t)v1 + 62);
    v76 = (unsigned char *)((uintptr_t)v1 + 63);
    v77 = (unsigned char *)((uintptr_t)v1 + 64);
    v78 = (unsigned char *)((uintptr_t)v1 + 68);
    v79 = (unsigned char *)((uintptr_t)v1 + 69);
    v80 = (unsigned char *)((uintptr_t)v1 + 70);
    v81 = (unsigned char *)((uintptr_t)v1 + 72);
    v82 = (unsigned char *)((uintptr_t)v1 + 73);
    v83 = (unsigned char *)((uintptr_t)v1 + 76);
    v84 = v22.b + 8;
    v85 = v22.b + 1;
    v86 = v22.b + 2;
    v87 = v22.b + 3;
    v88 = v22.b + 4;
    v89 = v22.b + 9;
    v90 = v22.b + 10;
    v91 = v22.b + 12;
    v92 = v22.b + 13;
    v93 = v22.b + 16;
    v94 = v21.b + 4;
    v95 = v23.b + 8;
    v96 = v24.b + 8;
    v97 = v23.b + 1;
    v98 = v23.b + 2;
    v99 = v23.b + 3;
    v100 = v23.b + 4;
    v101 = v23.b + 9;
    v102 = v23.b + 10;
    v103 = v24.b + 1;
    v104 = v24.b + 2;
    v105 = v24.b + 3;
    v106 = v24.b + 4;
    v107 = v24.b + 9;
    v108 = v24.b + 10;
    v109 = v24.b + 12;
    v110 = v24.b + 16;
    v111 = v25.b + 4;
    v112 = (unsigned char *)((uintptr_t)v1 + 80);
    v113 = 0ULL;
L1:;
    if (!(v113 < v3)) { v734 = v113; goto L113; }
    v115 = (unsigned char *)((uintptr_t)v2 + (uintptr_t)v113);
    v116 = v3 - v113;
    v117 = v4 - v113;
    v118 = v5 - v113;
    nd_memset(v26.b, 0, 48);
    nd_memset(v27.b, 0, 20);
    nd_memset(v28.b, 0, 20);
    nd_memset(v29.b, 0, 20);
    nd_memset(v30.b, 0, 48);
    nd_memset(v31.b, 0, 12);
    v119 = nd_load_8(v32);
    if (!(v119 == 4)) goto L6;
    v121 = nd_load_8(v73);
    v122 = nd_load_8(v74);
    v123 = nd_load_8(v75);
    v124 = nd_load_8(v76);
    v125 = nd_load_32(v77);
    v126 = nd_load_8(v78);
    v127 = nd_load_8(v79);
    v128 = nd_load_8(v80);
    v129 = nd_load_8(v81);
    v130 = nd_load_8(v82);
    v131 = nd_load_32(v83);
    if (!(v130 == 0)) goto L5;
    v133 = (uint64_t)v131;
    v134 = nd_umin_i64(v133, v116);
    nd_store_32(v95, 0U);
    nd_store_64(v96, 0ULL);
    nd_store_8(v23.b, v121);
    nd_store_8(v97, v122);
    nd_store_8(v98, v123);
    nd_store_8(v99, v124);
    nd_store_32(v100, v125);
    nd_store_8(v95, v126);
    nd_store_8(v101, v127);
    nd_store_8(v102, v128);
    v135 = nd_ndef_lang_leaf_LeafLanguage_step_all(v23.b, v115, v134, v133, v133);
    v137 = nd_umin_i64((v135 + 1ULL), v134);
    v141 = nd_load_8(v97);
    v142 = nd_load_8(v98);
    v143 = nd_load_8(v99);
    v144 = nd_load_32(v100);
    v145 = nd_load_8(v95);
    v146 = nd_load_8(v101);
    v147 = nd_load_8(v102);
    nd_store_8(v24.b, nd_load_8(v23.b));
    nd_store_8(v103, v141);
    nd_store_8(v104, v142);
    nd_store_8(v105, v143);
    nd_store_32(v106, v144);
    nd_store_8(v96, v145);
    nd_store_8(v107, v146);
    nd_store_8(v108, v147);
    nd_store_8(v109, (uint8_t)(v129 & 1));
    nd_store_32(v110, (v131 - (uint32_t)v137));
    nd_ndef_nest_phase_Body_settled(v25.b, v24.b, v1);
    v149 = nd_ndef_lang_leaf_LeafLanguage_reason(v23.b);
    v150 = nd_load_8(v25.b);
    nd_memcpy(v27.b, v111, 20);
    nd_store_32(v32, (uint32_t)v150);
    nd_memcpy(v73, v27.b, 20);
    nd_store_8(v112, v149);
    v731 = v135;
    v732 = v134;
    goto L112;
L5:;
    v153 = nd_umin_i64((uint64_t)v130, v116);
    nd_store_64(v84, 0ULL);
    nd_store_8(v22.b, v121);
    nd_store_8(v85, v122);
    nd_store_8(v86, v123);
    nd_store_8(v87, v124);
    nd_store_32(v88, v125);
    nd_store_8(v84, v126);
    nd_store_8(v89, v127);
    nd_store_8(v90, v128);
    nd_store_8(v91, (uint8_t)(v129 & 1));
    nd_store_8(v92, (uint8_t)(v130 - (uint8_t)v153));
    nd_store_32(v93, v131);
    nd_ndef_nest_phase_Body_settled(v21.b, v22.b, v1);
    v157 = nd_load_8(v21.b);
    nd_memcpy(v28.b, v94, 20);
    v728 = (uint32_t)v157;
    v729 = v28.b;
    v730 = v153;
    goto L111;
L6:;
    nd_memset(v20.b, 0, 20);
    switch (v119) {
    case 1: goto L7;
    case 2: { v164 = v33; goto L10; }
    case 0: goto L9;
    case 3: goto L9;
    case 6: goto L9;
    case 5: goto L9;
    default: goto L8; }
L7:;
    v159 = nd_load_64(v1);
    nd_store_8(v16.b, (uint8_t)v159);
    nd_store_8(v34, 1);
    nd_store_8(v35, 0);
    nd_store_8(v36, 1);
    nd_store_8(v37, (uint8_t)((v159 & 18446744069414584320ULL) == 4294967296ULL));
    nd_memset(v38, 0, 3);
    nd_store_32(v39, 4294967295U);
    nd_ndef_piece_head_reader_HeadReader_new(v15.b, v16.b);
    v164 = v15.b;
    goto L10;
L8:;
    nd_stop();
L9:;
    goto L107;
L10:;
    nd_ndef_piece_head_reader_HeadReader_whole_head(v14.b, v164, v115, v116);
    v165 = nd_load_8(v14.b);
    v167 = nd_load_64(v40);
    nd_memcpy(v19.b, v41, 16);
    if (!(v165 == 1)) goto L107;
    nd_memcpy(v17.b, v19.b, 12);
    v168 = nd_load_64(v1);
    v170 = (v168 & 18446744069414584320ULL) + 18446744069414584320ULL;
    nd_store_64(v18.b, (v170 | (v168 & 16777215ULL)));
    v173 = (unsigned char *)((uintptr_t)v115 + (uintptr_t)v167);
    v174 = v116 - v167;
    v175 = v117 - v167;
    v176 = v118 - v167;
    nd_memset(v9.b, 0, 24);
    nd_memset(v10.b, 0, 24);
    nd_memset(v11.b, 0, 24);
    nd_memset(v12.b, 0, 20);
    nd_memset(v13.b, 0, 28);
    v177 = nd_load_8(v42);
    v178 = (uint64_t)v177;
    v182 = (uint8_t)((nd_load_8(v43) == 1) ? nd_load_8(v44) : 0);
    v184 = (uint64_t)v182 + v178;
    v185 = nd_load_32(v45);
    v186 = (uint64_t)v185;
    v192 = (uint8_t)(v168 >> 8);
    v194 = (uint8_t)(v168 >> 16);
    if ((uint8_t)((v174 < v184) ? 1 : ((v174 - v184) < v186))) goto L93;
    v195 = v184 + v186;
    if (!(nd_load_8(v46) == 1)) { v212 = 0; goto L19; }
    switch (v177) {
    case 0: { v212 = v177; goto L19; }
    case 1: goto L14;
    default: goto L15; }
L14:;
    v199 = nd_ndef_format_kind_of_one(nd_load_8(v173));
    v212 = v199;
    goto L19;
L15:;
    if (!(v177 < 3)) goto L17;
    v204 = nd_ndef_format_kind_of_two(nd_load_8(v173), nd_load_8(((unsigned char *)((uintptr_t)v173 + 1))));
    v212 = v204;
    goto L19;
L17:;
    if (!(v177 == 3)) { v212 = 0; goto L19; }
    v211 = nd_ndef_format_kind_of_three(nd_load_8(v173), nd_load_8(((unsigned char *)((uintptr_t)v173 + 1))), nd_load_8(((unsigned char *)((uintptr_t)v173 + 2))));
    v212 = v211;
L19:;
    v213 = nd_ndef_format_table_Table_checked(v192, v212);
    v214 = nd_ndef_nest_demand_Demand_allows(v194, v213);
    if (!v214) goto L93;
    v215 = (unsigned char *)((uintptr_t)v173 + (uintptr_t)v184);
    nd_store_32(v47, 0U);
    switch (v213) {
    case 1: goto L21;
    case 2: goto L41;
    case 9: goto L62;
    case 0: goto L88;
    case 3: goto L88;
    case 4: goto L88;
    case 5: goto L88;
    case 6: goto L85;
    case 12: goto L84;
    case 7: { v658 = 1U; v659 = 0; goto L86; }
    case 8: goto L81;
    case 11: goto L82;
    case 10: goto L83;
    default: goto L87; }
L21:;
    if (v185 == 0U) goto L89;
    v217 = (unsigned char *)((uintptr_t)v215 + 1);
    v218 = v186 + 18446744073709551615ULL;
    v219 = nd_load_8(v215);
    v221 = (uint64_t)(uint8_t)(v219 & 63);
    if (((uint8_t)(v219 & 64) != 0) | (int)(v218 < v221)) goto L89;
    v226 = (int8_t)v219 < (int8_t)0;
    if ((v185 > 64U) | v226) goto L90;
    if (!(v185 < 9U)) goto L35;
    if (v185 < 5U) goto L28;
    if (!(((((((uint32_t)nd_load_8(((unsigned char *)((uintptr_t)v215 + 2))) << 8) | (uint32_t)nd_load_8(v217)) | ((uint32_t)nd_load_8(((unsigned char *)((uintptr_t)v215 + 3))) << 16)) | ((uint32_t)nd_load_8(((unsigned char *)((uintptr_t)v215 + 4))) << 24)) & 2155905152U) == 0U)) goto L90;
    v250 = (unsigned char *)((uintptr_t)v215 + (uintptr_t)v186);
    if (((((((uint32_t)nd_load_8(((unsigned char *)((uintptr_t)v250 - 3))) << 8) | (uint32_t)nd_load_8(((unsigned char *)((uintptr_t)v250 - 4)))) | ((uint32_t)nd_load_8(((unsigned char *)((uintptr_t)v250 - 2))) << 16)) | ((uint32_t)nd_load_8(((unsigned char *)((uintptr_t)v250 - 1))) << 24)) & 2155905152U) == 0U) goto L88;
    goto L90;
L28:;
    switch (v185) {
    case 1U: goto L88;
    case 2U: goto L29;
    case 4U: goto L32;
    default: goto L30; }
L29:;
    if ((int8_t)nd_load_8(v217) > (int8_t)255) goto L88;
    goto L90;
L30:;
    if (!((int8_t)nd_load_8(v217) > (int8_t)255)) goto L90;
    if ((int8_t)nd_load_8(((unsigned char *)((uintptr_t)v215 + 2))) > (int8_t)255) goto L88;
    goto L90;
L32:;
    v278 = (unsigned char *)((uintptr_t)v215 + 3);
    if (!((int8_t)nd_load_8(v217) > (int8_t)255)) goto L90;
    if (!((int8_t)nd_load_8(((unsigned char *)((uintptr_t)v215 + 2))) > (int8_t)255)) goto L90;
    if ((int8_t)nd_load_8(v278) > (int8_t)255) goto L88;
    goto L90;
L35:;
    if (!(v185 > 17U)) goto L37;
    v287 = nd_ndef_lang_ascii_are_many(v217, v218);
    if (v287) goto L88;
    goto L90;
L37:;
    if (!(((((((uint32_t)nd_load_8(((unsigned char *)((uintptr_t)v215 + 2))) << 8) | (uint32_t)nd_load_8(v217)) | ((uint32_t)nd_load_8(((unsigned char *)((uintptr_t)v215 + 3))) << 16)) | ((uint32_t)nd_load_8(((unsigned char *)((uintptr_t)v215 + 4))) << 24)) & 2155905152U) == 0U)) goto L90;
    if (!(((((((uint32_t)nd_load_8(((unsigned char *)((uintptr_t)v215 + 6))) << 8) | (uint32_t)nd_load_8(((unsigned char *)((uintptr_t)v215 + 5)))) | ((uint32_t)nd_load_8(((unsigned char *)((uintptr_t)v215 + 7))) << 16)) | ((uint32_t)nd_load_8(((unsigned char *)((uintptr_t)v215 + 8))) << 24)) & 2155905152U) == 0U)) goto L90;
    v327 = (unsigned char *)((uintptr_t)v215 + (uintptr_t)v186);
    if (!(((((((uint32_t)nd_load_8(((unsigned char *)((uintptr_t)v327 - 7))) << 8) | (uint32_t)nd_load_8(((unsigned char *)((uintptr_t)v327 - 8)))) | ((uint32_t)nd_load_8(((unsigned char *)((uintptr_t)v327 - 6))) << 16)) | ((uint32_t)nd_load_8(((unsigned char *)((uintptr_t)v327 - 5))) << 24)) & 2155905152U) == 0U)) goto L90;
    if (((((((uint32_t)nd_load_8(((unsigned char *)((uintptr_t)v327 - 3))) << 8) | (uint32_t)nd_load_8(((unsigned char *)((uintptr_t)v327 - 4)))) | ((uint32_t)nd_load_8(((unsigned char *)((uintptr_t)v327 - 2))) << 16)) | ((uint32_t)nd_load_8(((unsigned char *)((uintptr_t)v327 - 1))) << 24)) & 2155905152U) == 0U) goto L88;
    goto L90;
L41:;
    if (v185 == 0U) goto L89;
    v369 = (unsigned char *)((uintptr_t)v215 + 1);
    v370 = v186 + 18446744073709551615ULL;
    if (!(uint8_t)((nd_load_8(v215) < 36) ? 1 : ((v168 & 255ULL) == 1ULL))) goto L89;
    if (!(v185 < 65U)) goto L61;
    if (!(v185 < 9U)) goto L55;
    if (v185 < 5U) goto L48;
    if (!(((((((uint32_t)nd_load_8(((unsigned char *)((uintptr_t)v215 + 2))) << 8) | (uint32_t)nd_load_8(v369)) | ((uint32_t)nd_load_8(((unsigned char *)((uintptr_t)v215 + 3))) << 16)) | ((uint32_t)nd_load_8(((unsigned char *)((uintptr_t)v215 + 4))) << 24)) & 2155905152U) == 0U)) goto L61;
    v398 = (unsigned char *)((uintptr_t)v215 + (uintptr_t)v186);
    if (((((((uint32_t)nd_load_8(((unsigned char *)((uintptr_t)v398 - 3))) << 8) | (uint32_t)nd_load_8(((unsigned char *)((uintptr_t)v398 - 4)))) | ((uint32_t)nd_load_8(((unsigned char *)((uintptr_t)v398 - 2))) << 16)) | ((uint32_t)nd_load_8(((unsigned char *)((uintptr_t)v398 - 1))) << 24)) & 2155905152U) == 0U) goto L88;
    goto L61;
L48:;
    switch (v185) {
    case 1U: goto L88;
    case 2U: goto L49;
    case 4U: goto L52;
    default: goto L50; }
L49:;
    if ((int8_t)nd_load_8(v369) > (int8_t)255) goto L88;
    goto L61;
L50:;
    if (!((int8_t)nd_load_8(v369) > (int8_t)255)) goto L61;
    if ((int8_t)nd_load_8(((unsigned char *)((uintptr_t)v215 + 2))) > (int8_t)255) goto L88;
    goto L61;
L52:;
    v426 = (unsigned char *)((uintptr_t)v215 + 3);
    if (!((int8_t)nd_load_8(v369) > (int8_t)255)) goto L61;
    if (!((int8_t)nd_load_8(((unsigned char *)((uintptr_t)v215 + 2))) > (int8_t)255)) goto L61;
    if ((int8_t)nd_load_8(v426) > (int8_t)255) goto L88;
    goto L61;
L55:;
    if (!(v185 > 17U)) goto L57;
    v435 = nd_ndef_lang_ascii_are_many(v369, v370);
    if (v435) goto L88;
    goto L61;
L57:;
    if (!(((((((uint32_t)nd_load_8(((unsigned char *)((uintptr_t)v215 + 2))) << 8) | (uint32_t)nd_load_8(v369)) | ((uint32_t)nd_load_8(((unsigned char *)((uintptr_t)v215 + 3))) << 16)) | ((uint32_t)nd_load_8(((unsigned char *)((uintptr_t)v215 + 4))) << 24)) & 2155905152U) == 0U)) goto L61;
    if (!(((((((uint32_t)nd_load_8(((unsigned char *)((uintptr_t)v215 + 6))) << 8) | (uint32_t)nd_load_8(((unsigned char *)((uintptr_t)v215 + 5)))) | ((uint32_t)nd_load_8(((unsigned char *)((uintptr_t)v215 + 7))) << 16)) | ((uint32_t)nd_load_8(((unsigned char *)((uintptr_t)v215 + 8))) << 24)) & 2155905152U) == 0U)) goto L61;
    v475 = (unsigned char *)((uintptr_t)v215 + (uintptr_t)v186);
    if (!(((((((uint32_t)nd_load_8(((unsigned char *)((uintptr_t)v475 - 7))) << 8) | (uint32_t)nd_load_8(((unsigned char *)((uintptr_t)v475 - 8)))) | ((uint32_t)nd_load_8(((unsigned char *)((uintptr_t)v475 - 6))) << 16)) | ((uint32_t)nd_load_8(((unsigned char *)((uintptr_t)v475 - 5))) << 24)) & 2155905152U) == 0U)) goto L61;
    if (((((((uint32_t)nd_load_8(((unsigned char *)((uintptr_t)v475 - 3))) << 8) | (uint32_t)nd_load_8(((unsigned char *)((uintptr_t)v475 - 4)))) | ((uint32_t)nd_load_8(((unsigned char *)((uintptr_t)v475 - 2))) << 16)) | ((uint32_t)nd_load_8(((unsigned char *)((uintptr_t)v475 - 1))) << 24)) & 2155905152U) == 0U) goto L88;
L61:;
    v516 = nd_ndef_lang_member_is_long_utf8(v369, v370);
    if (v516) goto L91;
    goto L93;
L62:;
    if (!(v185 < 64U)) goto L80;
    if (!(v185 < 8U)) goto L74;
    if (v185 < 4U) goto L67;
    if (!(((((((uint32_t)nd_load_8(((unsigned char *)((uintptr_t)v215 + 1))) << 8) | (uint32_t)nd_load_8(v215)) | ((uint32_t)nd_load_8(((unsigned char *)((uintptr_t)v215 + 2))) << 16)) | ((uint32_t)nd_load_8(((unsigned char *)((uintptr_t)v215 + 3))) << 24)) & 2155905152U) == 0U)) goto L80;
    v539 = (unsigned char *)((uintptr_t)v215 + (uintptr_t)v186);
    if (((((((uint32_t)nd_load_8(((unsigned char *)((uintptr_t)v539 - 3))) << 8) | (uint32_t)nd_load_8(((unsigned char *)((uintptr_t)v539 - 4)))) | ((uint32_t)nd_load_8(((unsigned char *)((uintptr_t)v539 - 2))) << 16)) | ((uint32_t)nd_load_8(((unsigned char *)((uintptr_t)v539 - 1))) << 24)) & 2155905152U) == 0U) goto L88;
    goto L80;
L67:;
    switch (v185) {
    case 0U: goto L88;
    case 1U: goto L68;
    case 3U: goto L71;
    default: goto L69; }
L68:;
    if ((int8_t)nd_load_8(v215) > (int8_t)255) goto L88;
    goto L80;
L69:;
    if (!((int8_t)nd_load_8(v215) > (int8_t)255)) goto L80;
    if ((int8_t)nd_load_8(((unsigned char *)((uintptr_t)v215 + 1))) > (int8_t)255) goto L88;
    goto L80;
L71:;
    v567 = (unsigned char *)((uintptr_t)v215 + 2);
    if (!((int8_t)nd_load_8(v215) > (int8_t)255)) goto L80;
    if (!((int8_t)nd_load_8(((unsigned char *)((uintptr_t)v215 + 1))) > (int8_t)255)) goto L80;
    if ((int8_t)nd_load_8(v567) > (int8_t)255) goto L88;
    goto L80;
L74:;
    if (!(v185 > 16U)) goto L76;
    v576 = nd_ndef_lang_ascii_are_many(v215, v186);
    if (v576) goto L88;
    goto L80;
L76:;
    if (!(((((((uint32_t)nd_load_8(((unsigned char *)((uintptr_t)v215 + 1))) << 8) | (uint32_t)nd_load_8(v215)) | ((uint32_t)nd_load_8(((unsigned char *)((uintptr_t)v215 + 2))) << 16)) | ((uint32_t)nd_load_8(((unsigned char *)((uintptr_t)v215 + 3))) << 24)) & 2155905152U) == 0U)) goto L80;
    if (!(((((((uint32_t)nd_load_8(((unsigned char *)((uintptr_t)v215 + 5))) << 8) | (uint32_t)nd_load_8(((unsigned char *)((uintptr_t)v215 + 4)))) | ((uint32_t)nd_load_8(((unsigned char *)((uintptr_t)v215 + 6))) << 16)) | ((uint32_t)nd_load_8(((unsigned char *)((uintptr_t)v215 + 7))) << 24)) & 2155905152U) == 0U)) goto L80;
    v616 = (unsigned char *)((uintptr_t)v215 + (uintptr_t)v186);
    if (!(((((((uint32_t)nd_load_8(((unsigned char *)((uintptr_t)v616 - 7))) << 8) | (uint32_t)nd_load_8(((unsigned char *)((uintptr_t)v616 - 8)))) | ((uint32_t)nd_load_8(((unsigned char *)((uintptr_t)v616 - 6))) << 16)) | ((uint32_t)nd_load_8(((unsigned char *)((uintptr_t)v616 - 5))) << 24)) & 2155905152U) == 0U)) goto L80;
    if (((((((uint32_t)nd_load_8(((unsigned char *)((uintptr_t)v616 - 3))) << 8) | (uint32_t)nd_load_8(((unsigned char *)((uintptr_t)v616 - 4)))) | ((uint32_t)nd_load_8(((unsigned char *)((uintptr_t)v616 - 2))) << 16)) | ((uint32_t)nd_load_8(((unsigned char *)((uintptr_t)v616 - 1))) << 24)) & 2155905152U) == 0U) goto L88;
L80:;
    v657 = nd_ndef_lang_member_is_long_utf8(v215, v186);
    if (v657) goto L91;
    goto L93;
L81:;
    v658 = 4U;
    v659 = 0;
    goto L86;
L82:;
    v658 = 2U;
    v659 = 0;
    goto L86;
L83:;
    v658 = 1U;
    v659 = 8;
    goto L86;
L84:;
    v658 = 0U;
    v659 = 6;
    goto L86;
L85:;
    v658 = 1U;
    v659 = 7;
L86:;
    nd_store_32(v8.b, 0U);
    nd_store_32(v48, v658);
    nd_store_8(v49, v659);
    v660 = nd_ndef_lang_leaf_Leaf_is_completed_by(v8.b, v215, v186);
    if (v660) goto L91;
    goto L93;
L87:;
    nd_stop();
L88:;
    goto L91;
L89:;
    goto L93;
L90:;
    v661 = nd_ndef_lang_member_is_coded_text(v221, v226, v217, v218);
    if (!v661) goto L93;
L91:;
    v662 = nd_ndef_nest_demand_Demand_after(v194, v213);
    v667 = (uint8_t)(nd_load_8(v50) & 1) ? ((v662 < 2) ? 5U : 6U) : 2U;
    nd_store_32(v9.b, v667);
    nd_memset(v51, 0, 20);
    v670 = nd_ndef_nest_whole_fits_after(v18.b, v662, v9.b, (v175 - v195), (v176 - v195));
    if (!v670) goto L93;
    nd_memset(v20.b, 0, 20);
    v702 = v667;
    v703 = v195;
    v704 = v662;
    goto L106;
L93:;
    if (v174 < v178) goto L103;
    nd_memset(v6.b, 0, 28);
    if (!(nd_load_8(v46) == 1)) { v688 = 4; v689 = 0; goto L101; }
    switch (v177) {
    case 0: { v688 = v177; v689 = v177; goto L101; }
    case 1: goto L96;
    default: goto L97; }
L96:;
    v675 = nd_ndef_format_kind_of_one(nd_load_8(v173));
    v688 = 0;
    v689 = v675;
    goto L101;
L97:;
    if (!(v177 < 3)) goto L99;
    v680 = nd_ndef_format_kind_of_two(nd_load_8(v173), nd_load_8(((unsigned char *)((uintptr_t)v173 + 1))));
    v688 = 0;
    v689 = v680;
    goto L101;
L99:;
    if (!(v177 == 3)) { v688 = 0; v689 = 0; goto L101; }
    v687 = nd_ndef_format_kind_of_three(nd_load_8(v173), nd_load_8(((unsigned char *)((uintptr_t)v173 + 1))), nd_load_8(((unsigned char *)((uintptr_t)v173 + 2))));
    v688 = 0;
    v689 = v687;
L101:;
    v690 = nd_ndef_format_table_Table_checked(v192, v689);
    v691 = nd_load_8(v50);
    nd_store_8(v7.b, v177);
    nd_store_8(v52, v688);
    nd_store_8(v53, 0);
    nd_store_8(v54, 0);
    nd_store_8(v55, 0);
    nd_store_8(v56, v691);
    nd_store_8(v57, v182);
    nd_store_8(v58, 0);
    nd_store_32(v59, v185);
    nd_ndef_nest_phase_Name_entered(v6.b, v7.b, v18.b, v690);
    v692 = nd_load_8(v6.b);
    v694 = (uint32_t)nd_load_8(v60);
    nd_memcpy(v12.b, v61, 20);
    nd_store_32(v10.b, v694);
    nd_memcpy(v62, v12.b, 20);
    v697 = nd_ndef_nest_whole_fits_after(v18.b, v692, v10.b, (v175 - v178), (v176 - v178));
    if (!v697) goto L103;
    nd_memcpy(v20.b, v12.b, 20);
    v702 = v694;
    v703 = v178;
    v704 = v692;
    goto L106;
L103:;
    nd_ndef_nest_phase_headed(v13.b, v18.b, v17.b);
    v698 = nd_load_8(v13.b);
    v700 = (uint32_t)nd_load_8(v63);
    nd_store_32(v11.b, v700);
    nd_memcpy(v64, v65, 20);
    v701 = nd_ndef_nest_whole_fits_after(v18.b, v698, v11.b, v175, v176);
    if (!v701) goto L105;
    nd_memcpy(v20.b, v65, 20);
    v702 = v700;
    v703 = 0ULL;
    v704 = v698;
    goto L106;
L105:;
    goto L107;
L106:;
    nd_memcpy(v29.b, v20.b, 20);
    nd_store_64(v1, ((((uint64_t)v704 << 16) | (v168 & 65535ULL)) | v170));
    nd_store_8(v31.b, (uint8_t)v168);
    nd_store_8(v67, 0);
    nd_store_8(v68, 0);
    nd_store_8(v69, 1);
    nd_store_8(v70, (uint8_t)(v170 == 4294967296ULL));
    nd_memset(v71, 0, 3);
    nd_store_32(v72, 4294967295U);
    nd_ndef_piece_head_reader_HeadReader_new(v30.b, v31.b);
    nd_memcpy(v33, v30.b, 48);
    v728 = v702;
    v729 = v29.b;
    v730 = v703 + v167;
    goto L111;
L107:;
    nd_ndef_nest_nest_Nest_stepped(v26.b, v1, nd_load_8(v115));
    v715 = v117 + 18446744073709551615ULL;
    v716 = v118 + 18446744073709551615ULL;
    if (!(nd_load_8(v26.b) == 1)) goto L109;
    v719 = nd_ndef_nest_nest_Nest_bounded_span(v1, v66);
    v722 = nd_umax_i64(v715, v719.f0);
    v723 = nd_umin_i64(v716, v719.f1);
    v726 = v722 <= v723;
    goto L110;
L109:;
    v725 = nd_ndef_nest_nest_NestLanguage_fits(v1, v715, v716);
    v726 = v725;
L110:;
    v731 = (uint64_t)v726;
    v732 = 1ULL;
    goto L112;
L111:;
    nd_store_32(v32, v728);
    nd_memcpy(v73, v729, 20);
    v736 = v730;
    goto L115;
L112:;
    if (v731 < v732) goto L114;
    v736 = v732;
    goto L115;
L113:;
    return v734;
L114:;
    v734 = v731 + v113;
    goto L113;
L115:;
    v113 = v736 + v113;
    goto L1;
}

static uint64_t nd_ndef_lang_leaf_LeafLanguage_step_all(unsigned char *v1, unsigned char *v2, uint64_t v3, uint64_t v4, uint64_t v5) {
    unsigned char *v10, *v11, *v12, *v13, *v14, *v15, *v16, *v17, *v18, *v19, *v20, *v21, *v22, *v23, *v24, *v25, *v26, *v27, *v28, *v29, *v30, *v33, *v59, *v77, *v78;
    uint64_t v31, v34, v43, v55, v74, v86, v88, v92, v95, v96, v113, v126, v130;
    uint8_t v35, v41, v44, v47, v48, v52, v54, v56, v61, v68, v73, v85, v89, v90, v91, v94, v98, v99, v100, v102, v103, v104, v108, v114, v129;
    uint32_t v36, v101;
    ND_ROOM(1) v6;
    ND_ROOM(12) v7, v8;
    ND_ROOM(24) v9;
    nd_store_8(v6.b, 0);
    v10 = v7.b + 8;
    nd_store_32(v10, 0U);
    nd_memset(v8.b, 0, 12);
    nd_memset(v9.b, 0, 24);
    v11 = (unsigned char *)((uintptr_t)v1 + 1);
    v12 = (unsigned char *)((uintptr_t)v1 + 3);
    v13 = (unsigned char *)((uintptr_t)v1 + 4);
    v14 = (unsigned char *)((uintptr_t)v1 + 2);
    v15 = (unsigned char *)((uintptr_t)v1 + 8);
    v16 = (unsigned char *)((uintptr_t)v1 + 9);
    v17 = (unsigned char *)((uintptr_t)v1 + 10);
    v18 = v7.b + 1;
    v19 = v7.b + 2;
    v20 = v7.b + 3;
    v21 = v7.b + 4;
    v22 = v7.b + 9;
    v23 = v7.b + 10;
    v24 = v8.b + 1;
    v25 = v8.b + 2;
    v26 = v8.b + 3;
    v27 = v8.b + 4;
    v28 = v8.b + 8;
    v29 = v8.b + 9;
    v30 = v8.b + 10;
    v31 = 0ULL;
L1:;
    if (!(v31 < v3)) { v130 = v31; goto L31; }
    v33 = (unsigned char *)((uintptr_t)v2 + (uintptr_t)v31);
    v34 = v3 - v31;
    v35 = nd_load_8(v1);
    switch (v35) {
    case 0: goto L3;
    case 2: goto L7;
    case 1: { v94 = v35; v95 = 0ULL; goto L25; }
    case 3: { v94 = v35; v95 = 0ULL; goto L25; }
    default: goto L24; }
L3:;
    v36 = nd_load_32(v13);
    if (!(v36 == 0U)) goto L5;
    v94 = 0;
    v95 = (nd_load_8(v16) == 1) ? v34 : 0ULL;
    goto L25;
L5:;
    v41 = nd_load_8(v15);
    v43 = nd_umin_i64((uint64_t)v36, v34);
    v44 = nd_ndef_lang_leaf_Class_has_all(v41, v33, v43);
    if (!v44) { v94 = 0; v95 = 0ULL; goto L25; }
    nd_store_32(v1, 0U);
    nd_store_32(v13, (v36 - (uint32_t)v43));
    v94 = 0;
    v95 = v43;
    goto L25;
L7:;
    v47 = nd_load_8(v11);
    v48 = nd_load_8(v12);
    if (!(v47 == 2)) { v89 = nd_load_8(v13); v90 = v48; v91 = v47; v92 = 0ULL; goto L23; }
    v52 = (uint8_t)(nd_load_8(v14) & 1);
    v54 = (uint8_t)(v48 & 1);
    v55 = 0ULL;
    v56 = v48;
L9:;
    if (!((v34 - v55) > 1ULL)) { v89 = 0; v90 = v56; v91 = 2; v92 = v55; goto L23; }
    v59 = v33 + (ptrdiff_t)v55;
    if (v52) goto L13;
    v61 = (uint8_t)(nd_load_8(v59) & 252);
    if (v61 == 220) { v85 = v54; v86 = v55; goto L20; }
    if (v54) { v89 = 0; v90 = v56; v91 = 2; v92 = v55; goto L23; }
    v73 = (v61 == 216) & (int)(v54 ^ 1);
    goto L15;
L13:;
    v68 = (uint8_t)(nd_load_8((v59 + 1)) & 252);
    if (v68 == 220) { v85 = v54; v86 = v55; goto L20; }
    if (v54) { v89 = 0; v90 = v56; v91 = 2; v92 = v55; goto L23; }
    v73 = (v68 == 216) & (int)(v54 ^ 1);
L15:;
    v74 = v55 + 2ULL;
    if (!v73) { v88 = v74; goto L22; }
    v77 = v33 + (ptrdiff_t)v74;
    v78 = v77 + 1;
    if (!((v34 - v74) > 1ULL)) { v89 = 0; v90 = v56; v91 = 2; v92 = v55; goto L23; }
    if (!v52) goto L19;
    if ((uint8_t)(nd_load_8(v78) & 252) == 220) { v85 = 1; v86 = v74; goto L20; }
    v89 = 0;
    v90 = v56;
    v91 = 2;
    v92 = v55;
    goto L23;
L19:;
    if ((uint8_t)(nd_load_8(v77) & 252) == 220) { v85 = 1; v86 = v74; goto L20; }
    v89 = 0;
    v90 = v56;
    v91 = 2;
    v92 = v55;
    goto L23;
L20:;
    if (!v85) { v89 = 0; v90 = v56; v91 = 2; v92 = v55; goto L23; }
    v88 = v86 + 2ULL;
L22:;
    v54 = 0;
    v55 = v88;
    v56 = 0;
    goto L9;
L23:;
    nd_store_8(v1, 2);
    nd_store_8(v11, v91);
    nd_store_8(v12, v90);
    nd_store_32(v13, (uint32_t)v89);
    nd_store_8(v15, 0);
    nd_store_8(v16, 0);
    nd_store_8(v17, 0);
    v94 = 2;
    v95 = v92;
    goto L25;
L24:;
    nd_stop();
L25:;
    v96 = v95 + v31;
    if (v96 == v3) { v130 = v3; goto L31; }
    nd_store_8(v7.b, v94);
    v98 = nd_load_8(v11);
    nd_store_8(v18, v98);
    v99 = nd_load_8(v14);
    nd_store_8(v19, v99);
    v100 = nd_load_8(v12);
    nd_store_8(v20, v100);
    v101 = nd_load_32(v13);
    nd_store_32(v21, v101);
    v102 = nd_load_8(v15);
    nd_store_8(v10, v102);
    v103 = nd_load_8(v16);
    nd_store_8(v22, v103);
    v104 = nd_load_8(v17);
    nd_store_8(v23, v104);
    switch (v94) {
    case 1: { v108 = v98; goto L29; }
    case 0: goto L27;
    case 2: goto L30;
    case 3: goto L30;
    default: goto L28; }
L27:;
    if ((uint8_t)((v101 == 0U) ? (v103 == 2) : 0)) { v108 = 0; goto L29; }
    goto L30;
L28:;
    nd_stop();
L29:;
    nd_store_8(v6.b, v108);
    v113 = nd_ndef_lang_utf8_Utf8Lang_take(v6.b, ((unsigned char *)((uintptr_t)v2 + (uintptr_t)v96)), (v3 - v96), (v4 - v96), (v5 - v96));
    v114 = nd_load_8(v6.b);
    nd_store_8(v1, 1);
    nd_store_8(v11, v114);
    nd_memset(v14, 0, 9);
    v130 = v113 + v96;
    goto L31;
L30:;
    nd_store_8(v8.b, v94);
    nd_store_8(v24, v98);
    nd_store_8(v25, v99);
    nd_store_8(v26, v100);
    nd_store_32(v27, v101);
    nd_store_8(v28, v102);
    nd_store_8(v29, v103);
    nd_store_8(v30, v104);
    nd_ndef_lang_leaf_Leaf_after(v7.b, v8.b, nd_load_8((v2 + (ptrdiff_t)v96)));
    nd_store_8(v1, nd_load_8(v7.b));
    nd_store_8(v11, nd_load_8(v18));
    nd_store_8(v14, nd_load_8(v19));
    nd_store_8(v12, nd_load_8(v20));
    nd_store_32(v13, nd_load_32(v21));
    nd_store_8(v15, nd_load_8(v10));
    nd_store_8(v16, nd_load_8(v22));
    nd_store_8(v17, nd_load_8(v23));
    v126 = v96 + 1ULL;
    nd_ndef_lang_leaf_Leaf_lengths(v9.b, v7.b);
    v129 = nd_ndef_lang_lengths_Lengths_meet(v9.b, (v4 - v126), (v5 - v126));
    if (v129) { v31 = v126; goto L1; }
    v130 = v96;
L31:;
    return v130;
}

static uint8_t nd_ndef_lang_leaf_Class_has_all(uint8_t v1, unsigned char *v2, uint64_t v3) {
    unsigned char *v26, *v54, *v103;
    uint8_t v63, v144;
    if (v1 == 0) { v144 = 1; goto L18; }
    if (!(v3 < 8ULL)) goto L12;
    if (v3 < 4ULL) goto L5;
    if (!(((((((uint32_t)nd_load_8(((unsigned char *)((uintptr_t)v2 + 1))) << 8) | (uint32_t)nd_load_8(v2)) | ((uint32_t)nd_load_8(((unsigned char *)((uintptr_t)v2 + 2))) << 16)) | ((uint32_t)nd_load_8(((unsigned char *)((uintptr_t)v2 + 3))) << 24)) & 2155905152U) == 0U)) { v144 = 0; goto L18; }
    v26 = (unsigned char *)((uintptr_t)v2 + (uintptr_t)v3);
    v144 = ((((((uint32_t)nd_load_8(((unsigned char *)((uintptr_t)v26 - 3))) << 8) | (uint32_t)nd_load_8(((unsigned char *)((uintptr_t)v26 - 4)))) | ((uint32_t)nd_load_8(((unsigned char *)((uintptr_t)v26 - 2))) << 16)) | ((uint32_t)nd_load_8(((unsigned char *)((uintptr_t)v26 - 1))) << 24)) & 2155905152U) == 0U;
    goto L18;
L5:;
    switch (v3) {
    case 0ULL: { v144 = 1; goto L18; }
    case 1ULL: goto L6;
    case 3ULL: goto L9;
    default: goto L7; }
L6:;
    v144 = (int8_t)nd_load_8(v2) > (int8_t)255;
    goto L18;
L7:;
    if (!((int8_t)nd_load_8(v2) > (int8_t)255)) { v144 = 0; goto L18; }
    v144 = (int8_t)nd_load_8(((unsigned char *)((uintptr_t)v2 + 1))) > (int8_t)255;
    goto L18;
L9:;
    v54 = (unsigned char *)((uintptr_t)v2 + 2);
    if (!((int8_t)nd_load_8(v2) > (int8_t)255)) { v144 = 0; goto L18; }
    if (!((int8_t)nd_load_8(((unsigned char *)((uintptr_t)v2 + 1))) > (int8_t)255)) { v144 = 0; goto L18; }
    v144 = (int8_t)nd_load_8(v54) > (int8_t)255;
    goto L18;
L12:;
    if (!(v3 > 16ULL)) goto L14;
    v63 = nd_ndef_lang_ascii_are_many(v2, v3);
    v144 = v63;
    goto L18;
L14:;
    if (!(((((((uint32_t)nd_load_8(((unsigned char *)((uintptr_t)v2 + 1))) << 8) | (uint32_t)nd_load_8(v2)) | ((uint32_t)nd_load_8(((unsigned char *)((uintptr_t)v2 + 2))) << 16)) | ((uint32_t)nd_load_8(((unsigned char *)((uintptr_t)v2 + 3))) << 24)) & 2155905152U) == 0U)) { v144 = 0; goto L18; }
    if (!(((((((uint32_t)nd_load_8(((unsigned char *)((uintptr_t)v2 + 5))) << 8) | (uint32_t)nd_load_8(((unsigned char *)((uintptr_t)v2 + 4)))) | ((uint32_t)nd_load_8(((unsigned char *)((uintptr_t)v2 + 6))) << 16)) | ((uint32_t)nd_load_8(((unsigned char *)((uintptr_t)v2 + 7))) << 24)) & 2155905152U) == 0U)) { v144 = 0; goto L18; }
    v103 = (unsigned char *)((uintptr_t)v2 + (uintptr_t)v3);
    if (!(((((((uint32_t)nd_load_8(((unsigned char *)((uintptr_t)v103 - 7))) << 8) | (uint32_t)nd_load_8(((unsigned char *)((uintptr_t)v103 - 8)))) | ((uint32_t)nd_load_8(((unsigned char *)((uintptr_t)v103 - 6))) << 16)) | ((uint32_t)nd_load_8(((unsigned char *)((uintptr_t)v103 - 5))) << 24)) & 2155905152U) == 0U)) { v144 = 0; goto L18; }
    v144 = ((((((uint32_t)nd_load_8(((unsigned char *)((uintptr_t)v103 - 3))) << 8) | (uint32_t)nd_load_8(((unsigned char *)((uintptr_t)v103 - 4)))) | ((uint32_t)nd_load_8(((unsigned char *)((uintptr_t)v103 - 2))) << 16)) | ((uint32_t)nd_load_8(((unsigned char *)((uintptr_t)v103 - 1))) << 24)) & 2155905152U) == 0U;
L18:;
    return v144;
}

static uint8_t nd_ndef_lang_ascii_are_many(unsigned char *v1, uint64_t v2) {
    unsigned char *v5, *v7, *v90;
    uint64_t v6;
    uint8_t v48;
    v5 = (unsigned char *)((uintptr_t)v1 + (uintptr_t)((v2 + 18446744073709551607ULL) & 18446744073709551608ULL));
    v6 = v2;
    v7 = v1;
L1:;
    if (!(v6 > 16ULL)) goto L6;
    if (!(((((((uint32_t)nd_load_8(((unsigned char *)((uintptr_t)v7 + 1))) << 8) | (uint32_t)nd_load_8(v7)) | ((uint32_t)nd_load_8(((unsigned char *)((uintptr_t)v7 + 2))) << 16)) | ((uint32_t)nd_load_8(((unsigned char *)((uintptr_t)v7 + 3))) << 24)) & 2155905152U) == 0U)) { v48 = 0; goto L4; }
    if (((((((uint32_t)nd_load_8(((unsigned char *)((uintptr_t)v7 + 5))) << 8) | (uint32_t)nd_load_8(((unsigned char *)((uintptr_t)v7 + 4)))) | ((uint32_t)nd_load_8(((unsigned char *)((uintptr_t)v7 + 6))) << 16)) | ((uint32_t)nd_load_8(((unsigned char *)((uintptr_t)v7 + 7))) << 24)) & 2155905152U) == 0U) goto L5;
    v48 = 0;
L4:;
    return v48;
L5:;
    v6 = v6 + 18446744073709551608ULL;
    v7 = (unsigned char *)((uintptr_t)v7 + 8);
    goto L1;
L6:;
    if (!(((((((uint32_t)nd_load_8(((unsigned char *)((uintptr_t)v5 + 1))) << 8) | (uint32_t)nd_load_8(v5)) | ((uint32_t)nd_load_8(((unsigned char *)((uintptr_t)v5 + 2))) << 16)) | ((uint32_t)nd_load_8(((unsigned char *)((uintptr_t)v5 + 3))) << 24)) & 2155905152U) == 0U)) { v48 = 0; goto L4; }
    if (!(((((((uint32_t)nd_load_8(((unsigned char *)((uintptr_t)v5 + 5))) << 8) | (uint32_t)nd_load_8(((unsigned char *)((uintptr_t)v5 + 4)))) | ((uint32_t)nd_load_8(((unsigned char *)((uintptr_t)v5 + 6))) << 16)) | ((uint32_t)nd_load_8(((unsigned char *)((uintptr_t)v5 + 7))) << 24)) & 2155905152U) == 0U)) { v48 = 0; goto L4; }
    v90 = (unsigned char *)((uintptr_t)v1 + (uintptr_t)v2);
    if (!(((((((uint32_t)nd_load_8(((unsigned char *)((uintptr_t)v90 - 7))) << 8) | (uint32_t)nd_load_8(((unsigned char *)((uintptr_t)v90 - 8)))) | ((uint32_t)nd_load_8(((unsigned char *)((uintptr_t)v90 - 6))) << 16)) | ((uint32_t)nd_load_8(((unsigned char *)((uintptr_t)v90 - 5))) << 24)) & 2155905152U) == 0U)) { v48 = 0; goto L4; }
    v48 = ((((((uint32_t)nd_load_8(((unsigned char *)((uintptr_t)v90 - 3))) << 8) | (uint32_t)nd_load_8(((unsigned char *)((uintptr_t)v90 - 4)))) | ((uint32_t)nd_load_8(((unsigned char *)((uintptr_t)v90 - 2))) << 16)) | ((uint32_t)nd_load_8(((unsigned char *)((uintptr_t)v90 - 1))) << 24)) & 2155905152U) == 0U;
    goto L4;
}

static uint64_t nd_ndef_lang_utf8_Utf8Lang_take(unsigned char *v1, unsigned char *v2, uint64_t v3, uint64_t v4, uint64_t v5) {
    uint64_t v10, v11, v13, v17, v19, v20, v23, v24, v26, v31, v36, v41, v43, v46, v47, v52;
    unsigned char *v16, *v22;
    uint8_t v28, v33, v42;
    v10 = nd_umin_i64(nd_load_64(((unsigned char *)nd_data_switch_table_ndef_lang_utf8_Utf8Lang_take + (ptrdiff_t)(uint64_t)nd_load_8(v1) * 8)), v3);
    v11 = nd_ndef_lang_utf8_Utf8Lang_take_each(v1, v2, v10, v4, v5);
    if (v11 < v10) { v13 = v11; goto L1; }
    goto L2;
L1:;
    return v13;
L2:;
    if (!(nd_load_8(v1) == 0)) { v46 = 0ULL; goto L15; }
    v16 = (unsigned char *)((uintptr_t)v2 + (uintptr_t)v10);
    v17 = v3 - v10;
    if (!(v17 < 64ULL)) { v20 = 0ULL; goto L5; }
    v19 = nd_ndef_lang_utf8_valid_front(v16, v17);
    v46 = v19;
    goto L15;
L5:;
    if (!(v20 < v17)) { v46 = v20; goto L15; }
    v22 = (unsigned char *)((uintptr_t)v16 + (uintptr_t)v20);
    v23 = v17 - v20;
    v24 = nd_umin_i64(v23, 4096ULL);
    if (!(v23 > 3ULL)) { v41 = v24; goto L12; }
    v26 = v24 + 18446744073709551615ULL;
    v28 = nd_load_8((v22 + (ptrdiff_t)v26));
    if (v28 > 191) { v41 = v26; goto L12; }
    if ((int8_t)v28 > (int8_t)255) { v41 = v24; goto L12; }
    v31 = v24 + 18446744073709551614ULL;
    v33 = nd_load_8((v22 + (ptrdiff_t)v31));
    if (v33 > 191) { v41 = v31; goto L12; }
    if ((int8_t)v33 > (int8_t)255) { v41 = v24; goto L12; }
    v36 = v24 + 18446744073709551613ULL;
    v41 = (nd_load_8((v22 + (ptrdiff_t)v36)) > 191) ? v36 : v24;
L12:;
    v42 = nd_ndef_lang_utf8_is_utf8(v22, v41);
    if (v42) goto L14;
    v43 = nd_ndef_lang_utf8_valid_front(v22, v41);
    v46 = v43 + v20;
    goto L15;
L14:;
    v20 = v41 + v20;
    goto L5;
L15:;
    v47 = v46 + v10;
    v52 = nd_ndef_lang_utf8_Utf8Lang_take_each(v1, ((unsigned char *)((uintptr_t)v2 + (uintptr_t)v47)), (v3 - v47), (v4 - v47), (v5 - v47));
    v13 = v47 + v52;
    goto L1;
}

static uint8_t nd_ndef_lang_utf8_is_utf8(unsigned char *v1, uint64_t v2) {
    ND_ROOM(24) v3;
    nd_memset(v3.b, 0, 24);
    nd_simdutf8_basic_from_utf8(v3.b, v1, v2);
    return nd_load_8(v3.b) == 0;
}

static void nd_simdutf8_basic_from_utf8(unsigned char *v1, unsigned char *v2, uint64_t v3) {
    uint8_t v7, v8, v15, v21;
    unsigned char *v16;
    uint64_t v17;
    ND_ROOM(24) v4, v5;
    nd_memset(v5.b, 0, 24);
    if (!(v3 < 64ULL)) goto L3;
    nd_core_str_utf8_from_utf8(v5.b, v2, v3);
    v7 = nd_load_8(v5.b);
    v8 = v7 == 0;
    v15 = v7;
    v16 = v8 ? nd_load_ptr((v5.b + 8)) : (unsigned char *)0;
    v17 = v8 ? nd_load_64((v5.b + 16)) : 0ULL;
L2:;
    nd_store_8(v1, v15);
    nd_store_ptr(((unsigned char *)((uintptr_t)v1 + 8)), v16);
    nd_store_64(((unsigned char *)((uintptr_t)v1 + 16)), v17);
    return;
L3:;
    nd_core_str_utf8_from_utf8(v4.b, v2, v3);
    v21 = nd_load_8(v4.b) != 0;
    v15 = (uint8_t)v21;
    v16 = v21 ? (unsigned char *)0 : v2;
    v17 = v21 ? 0ULL : v3;
    goto L2;
}

static void nd_core_str_utf8_from_utf8(unsigned char *v1, unsigned char *v2, uint64_t v3) {
    unsigned char *v5, *v8;
    uint64_t v6, v11, v17, v18, v63, v65, v66, v67, v92;
    uint8_t v9, v10, v23, v28, v45, v74;
    uint32_t v38, v59;
    ND_ROOM(16) v4;
    v5 = v4.b + 8;
    v6 = 0ULL;
L1:;
    if (!(v6 < v3)) goto L29;
    v8 = v2 + (ptrdiff_t)v6;
    v9 = nd_load_8(v8);
    v10 = (int8_t)v9 > (int8_t)255;
    v11 = v3 - v6;
    if (!((v11 > 1ULL) & v10)) goto L6;
    if (!((int8_t)nd_load_8(((unsigned char *)((uintptr_t)v8 + 1))) > (int8_t)255)) { v92 = 1ULL; goto L28; }
    nd_store_ptr(v4.b, v2);
    nd_store_64(v5, v3);
    v17 = nd_core_slice_words_first(v4.b, v6, v3);
    v18 = v17;
L5:;
    v6 = v18;
    goto L1;
L6:;
    if (v10) { v92 = 1ULL; goto L28; }
    if (v9 < 194) { v65 = 1ULL; v66 = v6; v67 = 257ULL; goto L20; }
    if (!(v9 < 224)) goto L11;
    if (v11 < 2ULL) { v65 = 1ULL; v66 = v6; v67 = 0ULL; goto L20; }
    v23 = nd_load_8(((unsigned char *)((uintptr_t)v8 + 1)));
    if ((int8_t)v23 > (int8_t)191) { v74 = v23; goto L24; }
    v92 = 2ULL;
    goto L28;
L11:;
    if (!(v9 < 240)) goto L16;
    if (v11 < 3ULL) goto L22;
    v28 = nd_load_8(((unsigned char *)((uintptr_t)v8 + 1)));
    if (((int8_t)v28 > (int8_t)191) | (int)((int8_t)nd_load_8(((unsigned char *)((uintptr_t)v8 + 2))) > (int8_t)191)) { v74 = v28; goto L24; }
    v38 = (((uint32_t)v9 << 6) + 4294952832U) + (uint32_t)v28;
    if (v38 < 32U) { v74 = v28; goto L24; }
    if (v38 < 864U) { v92 = 3ULL; goto L28; }
    v63 = (v38 < 896U) ? 0ULL : 3ULL;
    goto L19;
L16:;
    if (v11 < 4ULL) goto L21;
    v45 = nd_load_8(((unsigned char *)((uintptr_t)v8 + 1)));
    if ((((int8_t)v45 > (int8_t)191) | (int)((int8_t)nd_load_8(((unsigned char *)((uintptr_t)v8 + 2))) > (int8_t)191)) | (int)((int8_t)nd_load_8(((unsigned char *)((uintptr_t)v8 + 3))) > (int8_t)191)) goto L21;
    v59 = (((uint32_t)v9 << 6) + 4294951808U) + (uint32_t)v45;
    if (v59 < 16U) goto L21;
    v63 = (v59 < 272U) ? 4ULL : 0ULL;
L19:;
    if (v63 == 0ULL) goto L21;
    v92 = v63;
    goto L28;
L20:;
    nd_store_64(v1, v65);
    nd_store_64(((unsigned char *)((uintptr_t)v1 + 8)), v66);
    nd_store_64(((unsigned char *)((uintptr_t)v1 + 16)), v67);
    return;
L21:;
    if (!(v9 < 245)) { v65 = 1ULL; v66 = v6; v67 = 257ULL; goto L20; }
L22:;
    if (v11 < 2ULL) { v65 = 1ULL; v66 = v6; v67 = 0ULL; goto L20; }
    v74 = nd_load_8((v8 + 1));
L24:;
    if (!(((uint8_t)((v9 == 224) ? 160 : (uint8_t)((v9 == 240) ? 144 : 128)) <= v74) & (int)(v74 <= (uint8_t)((v9 == 237) ? 159 : (uint8_t)((v9 == 244) ? 143 : 191))))) { v65 = 1ULL; v66 = v6; v67 = 257ULL; goto L20; }
    if (v11 == 2ULL) { v65 = 1ULL; v66 = v6; v67 = 0ULL; goto L20; }
    if (!((int8_t)nd_load_8((v8 + 2)) < (int8_t)192)) { v65 = 1ULL; v66 = v6; v67 = 513ULL; goto L20; }
    v65 = 1ULL;
    v66 = v6;
    v67 = (v11 > 3ULL) ? 769ULL : 0ULL;
    goto L20;
L28:;
    v18 = v92 + v6;
    goto L5;
L29:;
    v65 = 0ULL;
    v66 = (uint64_t)(uintptr_t)v2;
    v67 = v3;
    goto L20;
}

static uint64_t nd_core_slice_words_first(unsigned char *v1, uint64_t v2, uint64_t v3) {
    uint64_t v6, v7, v8, v11, v16, v17, v20, v21, v24;
    uint8_t v14;
    if ((v3 - v2) < 8ULL) goto L2;
    goto L3;
L1:;
    return v6;
L2:;
    v7 = nd_core_slice_scan_first_by_one(v1, v2, v3);
    v6 = v7;
    goto L1;
L3:;
    v8 = nd_core_slice_words_first_in_word(v1, v2);
    if (v8 < (v2 + 8ULL)) { v6 = v8; goto L1; }
    v11 = v8;
L4:;
    if (!((v3 - v11) > 31ULL)) goto L6;
    v14 = nd_core_slice_words_none_in_four(v1, v11);
    if (v14) goto L7;
L6:;
    v17 = v11;
    goto L8;
L7:;
    v16 = nd_core_slice_words_skip_far(v1, (v11 + 32ULL), v3);
    v11 = v16;
    goto L4;
L8:;
    if (!((v3 - v17) > 8ULL)) goto L10;
    v20 = nd_core_slice_words_first_in_word(v1, v17);
    v21 = v17 + 8ULL;
    if (v20 < v21) { v6 = v20; goto L1; }
    v17 = v21;
    goto L8;
L10:;
    v24 = nd_core_slice_words_first_in_word(v1, (v3 + 18446744073709551608ULL));
    v6 = v24;
    goto L1;
}

static uint64_t nd_core_slice_scan_first_by_one(unsigned char *v1, uint64_t v2, uint64_t v3) {
    uint64_t v4, v5, v11;
    v4 = nd_umax_i64(v3, v2);
    v5 = v2;
L1:;
    if (v5 == v4) { v11 = v3; goto L3; }
    if ((int8_t)nd_load_8((nd_load_ptr(v1) + (ptrdiff_t)v5)) < (int8_t)0) { v11 = v5; goto L3; }
    goto L4;
L3:;
    return v11;
L4:;
    v5 = v5 + 1ULL;
    goto L1;
}

static uint8_t nd_core_slice_words_none_in_four(unsigned char *v1, uint64_t v2) {
    unsigned char *v4;
    v4 = (unsigned char *)((uintptr_t)nd_load_ptr(v1) + (uintptr_t)v2);
    return ((((nd_load_64(((unsigned char *)((uintptr_t)v4 + 8))) | nd_load_64(v4)) | nd_load_64(((unsigned char *)((uintptr_t)v4 + 16)))) | nd_load_64(((unsigned char *)((uintptr_t)v4 + 24)))) & 9259542123273814144ULL) == 0ULL;
}

static uint64_t nd_core_slice_words_skip_far(unsigned char *v1, uint64_t v2, uint64_t v3) {
    uint64_t v4;
    unsigned char *v8;
    v4 = v2;
L1:;
    if (!((v3 - v4) > 63ULL)) goto L4;
    v8 = (unsigned char *)((uintptr_t)nd_load_ptr(v1) + (uintptr_t)v4);
    if (!(((((((((nd_load_64(((unsigned char *)((uintptr_t)v8 + 16))) | nd_load_64(v8)) | nd_load_64(((unsigned char *)((uintptr_t)v8 + 32)))) | nd_load_64(((unsigned char *)((uintptr_t)v8 + 48)))) | nd_load_64(((unsigned char *)((uintptr_t)v8 + 8)))) | nd_load_64(((unsigned char *)((uintptr_t)v8 + 24)))) | nd_load_64(((unsigned char *)((uintptr_t)v8 + 40)))) | nd_load_64(((unsigned char *)((uintptr_t)v8 + 56)))) & 9259542123273814144ULL) == 0ULL)) goto L4;
    v4 = v4 + 64ULL;
    goto L1;
L4:;
    return v4;
}

static uint64_t nd_core_slice_words_first_in_word(unsigned char *v1, uint64_t v2) {
    uint64_t v6, v8, v10;
    v6 = nd_load_64((nd_load_ptr(v1) + (ptrdiff_t)v2)) & 9259542123273814144ULL;
    if (v6 == 0ULL) goto L2;
    goto L3;
L1:;
    return v8;
L2:;
    v8 = v2 + 8ULL;
    goto L1;
L3:;
    v10 = nd_cttz_i64(v6);
    v8 = (v10 >> 3) + v2;
    goto L1;
}

static uint64_t nd_ndef_lang_utf8_valid_front(unsigned char *v1, uint64_t v2) {
    ND_ROOM(24) v3;
    nd_memset(v3.b, 0, 24);
    nd_core_str_utf8_from_utf8(v3.b, v1, v2);
    return (nd_load_8(v3.b) == 0) ? v2 : nd_load_64((v3.b + 8));
}

static uint64_t nd_ndef_lang_utf8_Utf8Lang_take_each(unsigned char *v1, unsigned char *v2, uint64_t v3, uint64_t v4, uint64_t v5) {
    uint64_t v7, v13, v17;
    uint8_t v12, v16;
    ND_ROOM(24) v6;
    nd_memset(v6.b, 0, 24);
    v7 = 0ULL;
L1:;
    if (v7 == v3) { v17 = v3; goto L3; }
    v12 = nd_ndef_lang_utf8_Utf8Lang_after(nd_load_8(v1), nd_load_8(((unsigned char *)((uintptr_t)v2 + (uintptr_t)v7))));
    nd_store_8(v1, v12);
    v13 = v7 + 1ULL;
    nd_ndef_lang_utf8_Utf8Lang_lengths(v6.b, v12);
    v16 = nd_ndef_lang_lengths_Lengths_meet(v6.b, (v4 - v13), (v5 - v13));
    if (v16) { v7 = v13; goto L1; }
    v17 = v7;
L3:;
    return v17;
}

static void nd_ndef_piece_head_reader_HeadReader_whole_head(unsigned char *v1, unsigned char *v2, unsigned char *v3, uint64_t v4) {
    unsigned char *v10, *v19;
    uint32_t v17, v62;
    uint64_t v21, v29, v31, v53, v63;
    uint8_t v22, v23, v28, v30, v41, v42, v50, v54, v55, v56, v57, v58, v59, v60, v61;
    ND_ROOM(32) v5;
    if (nd_load_64(((unsigned char *)((uintptr_t)v2 + 24))) == 0ULL) goto L3;
    goto L2;
L1:;
    return;
L2:;
    nd_memset(v1, 0, 32);
    goto L1;
L3:;
    if (v4 < 2ULL) { v53 = 0ULL; v54 = 0; v55 = 0; v56 = 0; v57 = 0; v58 = 0; v59 = 0; v60 = 0; v61 = 0; v62 = 0U; v63 = 0ULL; goto L13; }
    v10 = (unsigned char *)((uintptr_t)v3 + 1);
    nd_ndef_piece_whole_payload_length_at(v5.b, nd_load_8(v3), ((unsigned char *)((uintptr_t)v3 + 2)), (v4 + 18446744073709551614ULL));
    if (!(nd_load_8(v5.b) == 1)) { v53 = 0ULL; v54 = 0; v55 = 0; v56 = 0; v57 = 0; v58 = 0; v59 = 0; v60 = 0; v61 = 0; v62 = 0U; v63 = 0ULL; goto L13; }
    v17 = nd_load_32((v5.b + 8));
    v19 = nd_load_ptr((v5.b + 16));
    v21 = nd_load_64((v5.b + 24));
    v22 = nd_load_8(v3);
    v23 = (uint8_t)(v22 & 8);
    if (v23 == 0) { v28 = 0; v29 = v21; goto L8; }
    if (v21 == 0ULL) { v53 = 0ULL; v54 = 0; v55 = 0; v56 = 0; v57 = 0; v58 = 0; v59 = 0; v60 = 0; v61 = 0; v62 = 0U; v63 = 0ULL; goto L13; }
    v28 = nd_load_8(v19);
    v29 = v21 + 18446744073709551615ULL;
L8:;
    v30 = nd_load_8(v10);
    v31 = (uint64_t)v17;
    if (!(uint8_t)(nd_load_8(((unsigned char *)((uintptr_t)v2 + 2))) & 1)) goto L10;
    if (((uint8_t)(v22 & 15) == 6) & (int)(v30 == 0)) goto L11;
    v53 = 0ULL;
    v54 = 0;
    v55 = 0;
    v56 = 0;
    v57 = 0;
    v58 = 0;
    v59 = 0;
    v60 = 0;
    v61 = 0;
    v62 = 0U;
    v63 = 0ULL;
    goto L13;
L10:;
    v41 = nd_ndef_piece_standing_opens(v2, v22, (uint64_t)v30, (uint64_t)v28, v31);
    if (v41) goto L12;
    v53 = 0ULL;
    v54 = 0;
    v55 = 0;
    v56 = 0;
    v57 = 0;
    v58 = 0;
    v59 = 0;
    v60 = 0;
    v61 = 0;
    v62 = 0U;
    v63 = 0ULL;
    goto L13;
L11:;
    v42 = nd_ndef_piece_standing_suits(v2, v22, v31);
    if (!v42) { v53 = 0ULL; v54 = 0; v55 = 0; v56 = 0; v57 = 0; v58 = 0; v59 = 0; v60 = 0; v61 = 0; v62 = 0U; v63 = 0ULL; goto L13; }
L12:;
    v50 = nd_ndef_piece_header_header_tnf(v22);
    v53 = 1ULL;
    v54 = (uint8_t)(v22 >> 7);
    v55 = (uint8_t)((uint8_t)(v22 >> 6) & 1);
    v56 = (uint8_t)((uint8_t)(v22 >> 5) & 1);
    v57 = (uint8_t)((uint8_t)(v22 >> 4) & 1);
    v58 = v50;
    v59 = v30;
    v60 = (uint8_t)(v23 >> 3);
    v61 = v28;
    v62 = v17;
    v63 = v4 - v29;
L13:;
    nd_store_64(v1, v53);
    nd_store_8(((unsigned char *)((uintptr_t)v1 + 8)), v54);
    nd_store_8(((unsigned char *)((uintptr_t)v1 + 9)), v55);
    nd_store_8(((unsigned char *)((uintptr_t)v1 + 10)), v56);
    nd_store_8(((unsigned char *)((uintptr_t)v1 + 11)), v57);
    nd_store_8(((unsigned char *)((uintptr_t)v1 + 12)), v58);
    nd_store_8(((unsigned char *)((uintptr_t)v1 + 13)), v59);
    nd_store_8(((unsigned char *)((uintptr_t)v1 + 14)), v60);
    nd_store_8(((unsigned char *)((uintptr_t)v1 + 15)), v61);
    nd_store_32(((unsigned char *)((uintptr_t)v1 + 16)), v62);
    nd_store_32(((unsigned char *)((uintptr_t)v1 + 20)), 0U);
    nd_store_64(((unsigned char *)((uintptr_t)v1 + 24)), v63);
    goto L1;
}

static void nd_ndef_piece_whole_payload_length_at(unsigned char *v1, uint8_t v2, unsigned char *v3, uint64_t v4) {
    uint32_t v32, v33;
    uint64_t v34;
    unsigned char *v35;
    if ((uint8_t)(v2 & 16) == 0) goto L5;
    if (v4 == 0ULL) goto L3;
    goto L4;
L2:;
    return;
L3:;
    nd_memset(v1, 0, 32);
    goto L2;
L4:;
    v33 = (uint32_t)nd_load_8(v3);
    v34 = v4 + 18446744073709551615ULL;
    v35 = (unsigned char *)((uintptr_t)v3 + 1);
    goto L8;
L5:;
    if (!(v4 < 4ULL)) goto L7;
    nd_memset(v1, 0, 32);
    goto L2;
L7:;
    v32 = nd_bswap_i32((((((uint32_t)nd_load_8(((unsigned char *)((uintptr_t)v3 + 1))) << 8) | (uint32_t)nd_load_8(v3)) | ((uint32_t)nd_load_8(((unsigned char *)((uintptr_t)v3 + 2))) << 16)) | ((uint32_t)nd_load_8(((unsigned char *)((uintptr_t)v3 + 3))) << 24)));
    v33 = v32;
    v34 = v4 + 18446744073709551612ULL;
    v35 = (unsigned char *)((uintptr_t)v3 + 4);
L8:;
    nd_store_64(v1, 1ULL);
    nd_store_32(((unsigned char *)((uintptr_t)v1 + 8)), v33);
    nd_store_32(((unsigned char *)((uintptr_t)v1 + 12)), 0U);
    nd_store_ptr(((unsigned char *)((uintptr_t)v1 + 16)), v35);
    nd_store_64(((unsigned char *)((uintptr_t)v1 + 24)), v34);
    goto L2;
}

static uint8_t nd_ndef_piece_standing_suits(unsigned char *v1, uint8_t v2, uint64_t v3) {
    uint8_t v5, v23;
    v5 = (uint8_t)(v2 & 64) == 0;
    if ((uint8_t)(v2 & 32) == 0) goto L3;
    if (!v5) { v23 = 0; goto L7; }
    if ((uint8_t)(nd_load_8(((unsigned char *)((uintptr_t)v1 + 3))) & 1)) { v23 = 0; goto L7; }
    goto L5;
L3:;
    if (!v5) goto L5;
    if ((uint8_t)(nd_load_8(((unsigned char *)((uintptr_t)v1 + 4))) & 1)) { v23 = 0; goto L7; }
L5:;
    if (!(((int8_t)v2 > (int8_t)255) ^ (int)(uint8_t)(nd_load_8(((unsigned char *)((uintptr_t)v1 + 1))) & 1))) { v23 = 0; goto L7; }
    v23 = v3 <= (uint64_t)nd_load_32(((unsigned char *)((uintptr_t)v1 + 8)));
L7:;
    return v23;
}

static uint8_t nd_ndef_piece_standing_opens(unsigned char *v1, uint8_t v2, uint64_t v3, uint64_t v4, uint64_t v5) {
    uint8_t v6, v10, v14, v24;
    v6 = (uint8_t)(v2 & 7);
    if ((uint8_t)(nd_load_8(((unsigned char *)((uintptr_t)v1 + 2))) & 1)) { v24 = 0; goto L10; }
    v10 = nd_ndef_piece_standing_suits(v1, v2, v5);
    if (!v10) { v24 = 0; goto L10; }
    if (!(v6 == 0)) goto L4;
    if ((uint8_t)(v2 & 32) == 0) goto L7;
    v24 = 0;
    goto L10;
L4:;
    v14 = nd_load_8(v1);
    if (!(v6 < 5)) goto L6;
    v24 = v3 != 0ULL;
    goto L10;
L6:;
    switch (v6) {
    case 7: goto L9;
    case 5: goto L8;
    default: { v24 = 0; goto L10; } }
L7:;
    v24 = ((v4 | v3) | v5) == 0ULL;
    goto L10;
L8:;
    v24 = v3 == 0ULL;
    goto L10;
L9:;
    v24 = (v3 == 0ULL) & (int)(v14 == 1);
L10:;
    return v24;
}

static uint8_t nd_ndef_piece_header_header_tnf(uint8_t v1) {
    uint8_t v3;
    v3 = nd_ndef_piece_header_tnf_of((uint8_t)(v1 & 7));
    return v3;
}

static uint8_t nd_ndef_lang_member_is_coded_text(uint64_t v1, uint8_t v2, unsigned char *v3, uint64_t v4) {
    unsigned char *v5, *v55, *v167, *v195, *v244;
    uint64_t v6;
    uint8_t v143, v144, v204, v285, v286;
    v5 = (unsigned char *)((uintptr_t)v3 + (uintptr_t)v1);
    v6 = v4 - v1;
    if (!(v1 < 8ULL)) goto L11;
    if (v1 < 4ULL) goto L4;
    if (!(((((((uint32_t)nd_load_8(((unsigned char *)((uintptr_t)v3 + 1))) << 8) | (uint32_t)nd_load_8(v3)) | ((uint32_t)nd_load_8(((unsigned char *)((uintptr_t)v3 + 2))) << 16)) | ((uint32_t)nd_load_8(((unsigned char *)((uintptr_t)v3 + 3))) << 24)) & 2155905152U) == 0U)) { v286 = 0; goto L38; }
    if (((((((uint32_t)nd_load_8(((unsigned char *)((uintptr_t)v5 - 3))) << 8) | (uint32_t)nd_load_8(((unsigned char *)((uintptr_t)v5 - 4)))) | ((uint32_t)nd_load_8(((unsigned char *)((uintptr_t)v5 - 2))) << 16)) | ((uint32_t)nd_load_8(((unsigned char *)((uintptr_t)v5 - 1))) << 24)) & 2155905152U) == 0U) goto L17;
    v286 = 0;
    goto L38;
L4:;
    switch (v1) {
    case 0ULL: goto L17;
    case 1ULL: goto L5;
    case 3ULL: goto L8;
    default: goto L6; }
L5:;
    if ((int8_t)nd_load_8(v3) > (int8_t)255) goto L17;
    v286 = 0;
    goto L38;
L6:;
    if (!((int8_t)nd_load_8(v3) > (int8_t)255)) { v286 = 0; goto L38; }
    if ((int8_t)nd_load_8(((unsigned char *)((uintptr_t)v3 + 1))) > (int8_t)255) goto L17;
    v286 = 0;
    goto L38;
L8:;
    v55 = (unsigned char *)((uintptr_t)v3 + 2);
    if (!((int8_t)nd_load_8(v3) > (int8_t)255)) { v286 = 0; goto L38; }
    if (!((int8_t)nd_load_8(((unsigned char *)((uintptr_t)v3 + 1))) > (int8_t)255)) { v286 = 0; goto L38; }
    if ((int8_t)nd_load_8(v55) > (int8_t)255) goto L17;
    v286 = 0;
    goto L38;
L11:;
    if (v1 > 16ULL) goto L16;
    if (!(((((((uint32_t)nd_load_8(((unsigned char *)((uintptr_t)v3 + 1))) << 8) | (uint32_t)nd_load_8(v3)) | ((uint32_t)nd_load_8(((unsigned char *)((uintptr_t)v3 + 2))) << 16)) | ((uint32_t)nd_load_8(((unsigned char *)((uintptr_t)v3 + 3))) << 24)) & 2155905152U) == 0U)) { v286 = 0; goto L38; }
    if (!(((((((uint32_t)nd_load_8(((unsigned char *)((uintptr_t)v3 + 5))) << 8) | (uint32_t)nd_load_8(((unsigned char *)((uintptr_t)v3 + 4)))) | ((uint32_t)nd_load_8(((unsigned char *)((uintptr_t)v3 + 6))) << 16)) | ((uint32_t)nd_load_8(((unsigned char *)((uintptr_t)v3 + 7))) << 24)) & 2155905152U) == 0U)) { v286 = 0; goto L38; }
    if (!(((((((uint32_t)nd_load_8(((unsigned char *)((uintptr_t)v5 - 7))) << 8) | (uint32_t)nd_load_8(((unsigned char *)((uintptr_t)v5 - 8)))) | ((uint32_t)nd_load_8(((unsigned char *)((uintptr_t)v5 - 6))) << 16)) | ((uint32_t)nd_load_8(((unsigned char *)((uintptr_t)v5 - 5))) << 24)) & 2155905152U) == 0U)) { v286 = 0; goto L38; }
    if (((((((uint32_t)nd_load_8(((unsigned char *)((uintptr_t)v5 - 3))) << 8) | (uint32_t)nd_load_8(((unsigned char *)((uintptr_t)v5 - 4)))) | ((uint32_t)nd_load_8(((unsigned char *)((uintptr_t)v5 - 2))) << 16)) | ((uint32_t)nd_load_8(((unsigned char *)((uintptr_t)v5 - 1))) << 24)) & 2155905152U) == 0U) goto L17;
    v286 = 0;
    goto L38;
L16:;
    v143 = nd_ndef_lang_ascii_are_many(v3, v1);
    if (!v143) { v286 = 0; goto L38; }
L17:;
    if (!v2) goto L19;
    v144 = nd_ndef_lang_member_is_utf16(v5, v6);
    v286 = v144;
    goto L38;
L19:;
    if (!(v6 < 64ULL)) goto L37;
    if (!(v6 < 8ULL)) goto L31;
    if (v6 < 4ULL) goto L24;
    if (!(((((((uint32_t)nd_load_8(((unsigned char *)((uintptr_t)v5 + 1))) << 8) | (uint32_t)nd_load_8(v5)) | ((uint32_t)nd_load_8(((unsigned char *)((uintptr_t)v5 + 2))) << 16)) | ((uint32_t)nd_load_8(((unsigned char *)((uintptr_t)v5 + 3))) << 24)) & 2155905152U) == 0U)) goto L37;
    v167 = (unsigned char *)((uintptr_t)v3 + (uintptr_t)v4);
    if (((((((uint32_t)nd_load_8(((unsigned char *)((uintptr_t)v167 - 3))) << 8) | (uint32_t)nd_load_8(((unsigned char *)((uintptr_t)v167 - 4)))) | ((uint32_t)nd_load_8(((unsigned char *)((uintptr_t)v167 - 2))) << 16)) | ((uint32_t)nd_load_8(((unsigned char *)((uintptr_t)v167 - 1))) << 24)) & 2155905152U) == 0U) { v286 = 1; goto L38; }
    goto L37;
L24:;
    switch (v6) {
    case 0ULL: { v286 = 1; goto L38; }
    case 1ULL: goto L25;
    case 3ULL: goto L28;
    default: goto L26; }
L25:;
    if ((int8_t)nd_load_8(v5) > (int8_t)255) { v286 = 1; goto L38; }
    goto L37;
L26:;
    if (!((int8_t)nd_load_8(v5) > (int8_t)255)) goto L37;
    if ((int8_t)nd_load_8(((unsigned char *)((uintptr_t)v5 + 1))) > (int8_t)255) { v286 = 1; goto L38; }
    goto L37;
L28:;
    v195 = (unsigned char *)((uintptr_t)v5 + 2);
    if (!((int8_t)nd_load_8(v5) > (int8_t)255)) goto L37;
    if (!((int8_t)nd_load_8(((unsigned char *)((uintptr_t)v5 + 1))) > (int8_t)255)) goto L37;
    if ((int8_t)nd_load_8(v195) > (int8_t)255) { v286 = 1; goto L38; }
    goto L37;
L31:;
    if (!(v6 > 16ULL)) goto L33;
    v204 = nd_ndef_lang_ascii_are_many(v5, v6);
    if (v204) { v286 = 1; goto L38; }
    goto L37;
L33:;
    if (!(((((((uint32_t)nd_load_8(((unsigned char *)((uintptr_t)v5 + 1))) << 8) | (uint32_t)nd_load_8(v5)) | ((uint32_t)nd_load_8(((unsigned char *)((uintptr_t)v5 + 2))) << 16)) | ((uint32_t)nd_load_8(((unsigned char *)((uintptr_t)v5 + 3))) << 24)) & 2155905152U) == 0U)) goto L37;
    if (!(((((((uint32_t)nd_load_8(((unsigned char *)((uintptr_t)v5 + 5))) << 8) | (uint32_t)nd_load_8(((unsigned char *)((uintptr_t)v5 + 4)))) | ((uint32_t)nd_load_8(((unsigned char *)((uintptr_t)v5 + 6))) << 16)) | ((uint32_t)nd_load_8(((unsigned char *)((uintptr_t)v5 + 7))) << 24)) & 2155905152U) == 0U)) goto L37;
    v244 = (unsigned char *)((uintptr_t)v3 + (uintptr_t)v4);
    if (!(((((((uint32_t)nd_load_8(((unsigned char *)((uintptr_t)v244 - 7))) << 8) | (uint32_t)nd_load_8(((unsigned char *)((uintptr_t)v244 - 8)))) | ((uint32_t)nd_load_8(((unsigned char *)((uintptr_t)v244 - 6))) << 16)) | ((uint32_t)nd_load_8(((unsigned char *)((uintptr_t)v244 - 5))) << 24)) & 2155905152U) == 0U)) goto L37;
    if (((((((uint32_t)nd_load_8(((unsigned char *)((uintptr_t)v244 - 3))) << 8) | (uint32_t)nd_load_8(((unsigned char *)((uintptr_t)v244 - 4)))) | ((uint32_t)nd_load_8(((unsigned char *)((uintptr_t)v244 - 2))) << 16)) | ((uint32_t)nd_load_8(((unsigned char *)((uintptr_t)v244 - 1))) << 24)) & 2155905152U) == 0U) { v286 = 1; goto L38; }
L37:;
    v285 = nd_ndef_lang_member_is_long_utf8(v5, v6);
    v286 = v285;
L38:;
    return v286;
}

static uint8_t nd_ndef_lang_member_is_utf16(unsigned char *v1, uint64_t v2) {
    uint8_t v10, v16, v17, v18;
    if (v2 < 2ULL) goto L6;
    switch (nd_load_8(v1)) {
    case 254: goto L2;
    case 255: goto L4;
    default: goto L6; }
L2:;
    if (!(nd_load_8((v1 + 1)) == 255)) goto L6;
    v10 = nd_ndef_lang_member_are_units(((unsigned char *)((uintptr_t)v1 + 2)), (v2 + 18446744073709551614ULL), 0);
    v18 = v10;
    goto L7;
L4:;
    if (!(nd_load_8((v1 + 1)) == 254)) goto L6;
    v16 = nd_ndef_lang_member_are_units(((unsigned char *)((uintptr_t)v1 + 2)), (v2 + 18446744073709551614ULL), 1);
    v18 = v16;
    goto L7;
L6:;
    v17 = nd_ndef_lang_member_are_units(v1, v2, 0);
    v18 = v17;
L7:;
    return v18;
}

static uint8_t nd_ndef_lang_member_are_units(unsigned char *v1, uint64_t v2, uint8_t v3) {
    uint64_t v4, v5, v9, v25;
    unsigned char *v6, *v8, *v26;
    uint8_t v11, v15;
    v4 = (uint64_t)v3;
    v5 = v2;
    v6 = v1;
L1:;
    if (v5 < 2ULL) goto L7;
    v8 = (unsigned char *)((uintptr_t)v6 + 2);
    v9 = v5 + 18446744073709551614ULL;
    v11 = nd_load_8(((unsigned char *)((uintptr_t)v6 + (uintptr_t)v4)));
    if ((uint8_t)(v11 + 32) < 248) { v25 = v9; v26 = v8; goto L6; }
    if (v9 < 2ULL) { v15 = 0; goto L4; }
    goto L5;
L4:;
    return v15;
L5:;
    if ((v11 > 219) | (int)((uint8_t)(nd_load_8((v3 ? ((unsigned char *)((uintptr_t)v6 + 3)) : v8)) + 32) < 252)) { v15 = 0; goto L4; }
    v25 = v5 + 18446744073709551612ULL;
    v26 = (unsigned char *)((uintptr_t)v6 + 4);
L6:;
    v5 = v25;
    v6 = v26;
    goto L1;
L7:;
    v15 = v5 == 0ULL;
    goto L4;
}

static uint8_t nd_ndef_lang_member_is_long_utf8(unsigned char *v1, uint64_t v2) {
    uint8_t v4, v5;
    if (!(v2 < 16385ULL)) { v5 = 0; goto L2; }
    v4 = nd_ndef_lang_utf8_is_utf8(v1, v2);
    v5 = v4;
L2:;
    return v5;
}

static uint8_t nd_ndef_lang_leaf_Leaf_is_completed_by(unsigned char *v1, unsigned char *v2, uint64_t v3) {
    uint8_t v4, v8, v10, v12, v19, v24, v25, v28, v32, v94, v175, v176;
    uint32_t v6;
    unsigned char *v15, *v16, *v17, *v18, *v21, *v30, *v57, *v85, *v134;
    uint64_t v20, v26, v31;
    ND_ROOM(12) v13;
    v4 = nd_load_8(v1);
    v6 = nd_load_32(((unsigned char *)((uintptr_t)v1 + 4)));
    v8 = nd_load_8(((unsigned char *)((uintptr_t)v1 + 8)));
    v10 = nd_load_8(((unsigned char *)((uintptr_t)v1 + 9)));
    v12 = nd_load_8(((unsigned char *)((uintptr_t)v1 + 10)));
    nd_store_32((v13.b + 8), 0U);
    nd_store_8(v13.b, v4);
    v15 = v13.b + 4;
    nd_store_32(v15, v6);
    v16 = v13.b + 8;
    nd_store_8(v16, v8);
    v17 = v13.b + 9;
    nd_store_8(v17, v10);
    v18 = v13.b + 10;
    nd_store_8(v18, v12);
    v19 = v4;
    v20 = v3;
    v21 = v2;
L1:;
    if (!(v19 == 0)) { v28 = 0; goto L3; }
    v24 = nd_load_8(v17);
    v25 = nd_load_8(v18);
    v26 = (uint64_t)nd_load_32(v15);
    if (v20 < v26) { v28 = 0; goto L3; }
    goto L4;
L3:;
    return v28;
L4:;
    v30 = (unsigned char *)((uintptr_t)v21 + (uintptr_t)v26);
    v31 = v20 - v26;
    v32 = nd_ndef_lang_leaf_Class_has_all(nd_load_8(v16), v21, v26);
    if (!v32) { v28 = 0; goto L3; }
    switch (v24) {
    case 1: { v28 = 1; goto L3; }
    case 10: goto L7;
    case 0: goto L8;
    case 2: goto L9;
    case 3: goto L28;
    case 4: goto L29;
    case 5: goto L29;
    case 6: goto L29;
    case 7: goto L29;
    case 8: goto L29;
    case 9: goto L29;
    default: goto L6; }
L6:;
    nd_stop();
L7:;
    if (v25 == 0) { v28 = 1; goto L3; }
    goto L29;
L8:;
    v28 = v20 == v26;
    goto L3;
L9:;
    if (!(v31 < 64ULL)) goto L27;
    if (!(v31 < 8ULL)) goto L21;
    if (v31 < 4ULL) goto L14;
    if (!(((((((uint32_t)nd_load_8(((unsigned char *)((uintptr_t)v30 + 1))) << 8) | (uint32_t)nd_load_8(v30)) | ((uint32_t)nd_load_8(((unsigned char *)((uintptr_t)v30 + 2))) << 16)) | ((uint32_t)nd_load_8(((unsigned char *)((uintptr_t)v30 + 3))) << 24)) & 2155905152U) == 0U)) goto L27;
    v57 = (unsigned char *)((uintptr_t)v21 + (uintptr_t)v20);
    if (((((((uint32_t)nd_load_8(((unsigned char *)((uintptr_t)v57 - 3))) << 8) | (uint32_t)nd_load_8(((unsigned char *)((uintptr_t)v57 - 4)))) | ((uint32_t)nd_load_8(((unsigned char *)((uintptr_t)v57 - 2))) << 16)) | ((uint32_t)nd_load_8(((unsigned char *)((uintptr_t)v57 - 1))) << 24)) & 2155905152U) == 0U) { v28 = 1; goto L3; }
    goto L27;
L14:;
    switch (v31) {
    case 0ULL: { v28 = 1; goto L3; }
    case 1ULL: goto L15;
    case 3ULL: goto L18;
    default: goto L16; }
L15:;
    if ((int8_t)nd_load_8(v30) > (int8_t)255) { v28 = 1; goto L3; }
    goto L27;
L16:;
    if (!((int8_t)nd_load_8(v30) > (int8_t)255)) goto L27;
    if ((int8_t)nd_load_8(((unsigned char *)((uintptr_t)v30 + 1))) > (int8_t)255) { v28 = 1; goto L3; }
    goto L27;
L18:;
    v85 = (unsigned char *)((uintptr_t)v30 + 2);
    if (!((int8_t)nd_load_8(v30) > (int8_t)255)) goto L27;
    if (!((int8_t)nd_load_8(((unsigned char *)((uintptr_t)v30 + 1))) > (int8_t)255)) goto L27;
    if ((int8_t)nd_load_8(v85) > (int8_t)255) { v28 = 1; goto L3; }
    goto L27;
L21:;
    if (!(v31 > 16ULL)) goto L23;
    v94 = nd_ndef_lang_ascii_are_many(v30, v31);
    if (v94) { v28 = 1; goto L3; }
    goto L27;
L23:;
    if (!(((((((uint32_t)nd_load_8(((unsigned char *)((uintptr_t)v30 + 1))) << 8) | (uint32_t)nd_load_8(v30)) | ((uint32_t)nd_load_8(((unsigned char *)((uintptr_t)v30 + 2))) << 16)) | ((uint32_t)nd_load_8(((unsigned char *)((uintptr_t)v30 + 3))) << 24)) & 2155905152U) == 0U)) goto L27;
    if (!(((((((uint32_t)nd_load_8(((unsigned char *)((uintptr_t)v30 + 5))) << 8) | (uint32_t)nd_load_8(((unsigned char *)((uintptr_t)v30 + 4)))) | ((uint32_t)nd_load_8(((unsigned char *)((uintptr_t)v30 + 6))) << 16)) | ((uint32_t)nd_load_8(((unsigned char *)((uintptr_t)v30 + 7))) << 24)) & 2155905152U) == 0U)) goto L27;
    v134 = (unsigned char *)((uintptr_t)v21 + (uintptr_t)v20);
    if (!(((((((uint32_t)nd_load_8(((unsigned char *)((uintptr_t)v134 - 7))) << 8) | (uint32_t)nd_load_8(((unsigned char *)((uintptr_t)v134 - 8)))) | ((uint32_t)nd_load_8(((unsigned char *)((uintptr_t)v134 - 6))) << 16)) | ((uint32_t)nd_load_8(((unsigned char *)((uintptr_t)v134 - 5))) << 24)) & 2155905152U) == 0U)) goto L27;
    if (((((((uint32_t)nd_load_8(((unsigned char *)((uintptr_t)v134 - 3))) << 8) | (uint32_t)nd_load_8(((unsigned char *)((uintptr_t)v134 - 4)))) | ((uint32_t)nd_load_8(((unsigned char *)((uintptr_t)v134 - 2))) << 16)) | ((uint32_t)nd_load_8(((unsigned char *)((uintptr_t)v134 - 1))) << 24)) & 2155905152U) == 0U) { v28 = 1; goto L3; }
L27:;
    v175 = nd_ndef_lang_member_is_long_utf8(v30, v31);
    v28 = v175;
    goto L3;
L28:;
    v176 = nd_ndef_lang_member_is_utf16(v30, v31);
    v28 = v176;
    goto L3;
L29:;
    if (v20 == v26) { v28 = 0; goto L3; }
    nd_ndef_lang_leaf_Stage_after(v13.b, v24, v25, nd_load_8(v30));
    v19 = nd_load_8(v13.b);
    v20 = v31 + 18446744073709551615ULL;
    v21 = (unsigned char *)((uintptr_t)v30 + 1);
    goto L1;
}

static uint8_t nd_ndef_nest_whole_fits_after(unsigned char *v1, uint8_t v2, unsigned char *v3, uint64_t v4, uint64_t v5) {
    uint8_t v14;
    uint32_t v16;
    struct nd_64_64 v20;
    uint64_t v23, v24;
    ND_ROOM(24) v6;
    ND_ROOM(8) v11;
    nd_store_32(v6.b, (uint32_t)nd_load_8(v3));
    nd_memcpy((v6.b + 4), ((unsigned char *)((uintptr_t)v3 + 4)), 20);
    nd_store_64(v11.b, 0ULL);
    v14 = nd_load_8(((unsigned char *)((uintptr_t)v1 + 1)));
    v16 = nd_load_32(((unsigned char *)((uintptr_t)v1 + 4)));
    nd_store_8(v11.b, nd_load_8(v1));
    nd_store_8((v11.b + 1), v14);
    nd_store_8((v11.b + 2), v2);
    nd_store_32((v11.b + 4), v16);
    v20 = nd_ndef_nest_phase_NestPhase_span(v6.b, v11.b);
    v23 = nd_umax_i64(v4, v20.f0);
    v24 = nd_umin_i64(v5, v20.f1);
    return v23 <= v24;
}

static uint8_t nd_ndef_c_message_has_message(unsigned char *v1, uint64_t v2) {
    unsigned char *v7;
    uint8_t v9;
    ND_ROOM(32) v3;
    ND_ROOM(96) v4;
    nd_store_ptr(v3.b, v1);
    nd_store_64((v3.b + 8), v2);
    v7 = v4.b + 92;
    nd_memset((v3.b + 16), 0, 16);
L1:;
    nd_ndef_c_walk_WalkIterator_next(v4.b, v3.b);
    v9 = nd_load_8(v4.b) == 1;
    if ((uint8_t)(v9 ? (nd_load_32(v7) != 1U) : 0)) goto L1;
    return v9;
}

static void nd_ndef_c_walk_WalkIterator_next(unsigned char *v1, unsigned char *v2) {
    unsigned char *v4, *v10;
    uint64_t v15, v17;
    uint32_t v20;
    ND_ROOM(96) v3;
    v4 = (unsigned char *)((uintptr_t)v2 + 24);
    if ((uint8_t)(nd_load_8(v4) & 1)) goto L2;
    goto L3;
L1:;
    return;
L2:;
    nd_memset(v1, 0, 96);
    goto L1;
L3:;
    v10 = (unsigned char *)((uintptr_t)v2 + 16);
    nd_ndef_c_record_record_at(v3.b, nd_load_ptr(v2), nd_load_64((v2 + 8)), nd_load_64(v10));
    if (!(nd_load_8(v3.b) == 1)) goto L5;
    v15 = nd_load_64((v3.b + 8));
    v17 = nd_load_64((v3.b + 16));
    v20 = nd_load_32((v3.b + 92));
    nd_store_64(v10, v17);
    nd_store_8(v4, (uint8_t)(v20 == 1U));
    nd_store_64(v1, 1ULL);
    nd_store_64(((unsigned char *)((uintptr_t)v1 + 8)), v15);
    nd_store_64(((unsigned char *)((uintptr_t)v1 + 16)), v17);
    nd_memcpy(((unsigned char *)((uintptr_t)v1 + 24)), (v3.b + 24), 68);
    nd_store_32(((unsigned char *)((uintptr_t)v1 + 92)), v20);
    goto L1;
L5:;
    nd_memset(v1, 0, 96);
    goto L1;
}

static void nd_ndef_c_record_record_at(unsigned char *v1, unsigned char *v2, uint64_t v3, uint64_t v4) {
    uint64_t v13, v15, v19, v21, v23, v25, v29, v30;
    uint8_t v17, v33;
    ND_ROOM(120) v5;
    nd_memset(v5.b, 0, 120);
    if (v3 < v4) goto L2;
    goto L3;
L1:;
    return;
L2:;
    nd_memset(v1, 0, 96);
    goto L1;
L3:;
    nd_ndef_c_run_first_run(v5.b, ((unsigned char *)((uintptr_t)v2 + (uintptr_t)v4)), (v3 - v4));
    if (!(nd_load_8(v5.b) == 1)) goto L5;
    v13 = nd_load_64((v5.b + 80));
    v15 = nd_load_64((v5.b + 88));
    v17 = nd_load_8((v5.b + 96));
    v19 = nd_load_64((v5.b + 112));
    v21 = nd_load_64((v5.b + 24));
    v23 = nd_load_64((v5.b + 40));
    v25 = nd_load_64((v5.b + 56));
    v29 = v3 - (nd_load_64((v5.b + 72)) + v25);
    v30 = v29 - v23;
    v33 = nd_ndef_piece_whole_WholePiece_tnf((v5.b + 8));
    nd_store_64(v1, 1ULL);
    nd_store_64(((unsigned char *)((uintptr_t)v1 + 8)), v4);
    nd_store_64(((unsigned char *)((uintptr_t)v1 + 16)), (v3 - v19));
    nd_store_64(((unsigned char *)((uintptr_t)v1 + 24)), (v30 - v21));
    nd_store_64(((unsigned char *)((uintptr_t)v1 + 32)), v21);
    nd_store_64(((unsigned char *)((uintptr_t)v1 + 40)), v30);
    nd_store_64(((unsigned char *)((uintptr_t)v1 + 48)), v23);
    nd_store_64(((unsigned char *)((uintptr_t)v1 + 56)), v29);
    nd_store_64(((unsigned char *)((uintptr_t)v1 + 64)), v25);
    nd_store_64(((unsigned char *)((uintptr_t)v1 + 72)), v13);
    nd_store_64(((unsigned char *)((uintptr_t)v1 + 80)), v15);
    nd_store_32(((unsigned char *)((uintptr_t)v1 + 88)), (uint32_t)v33);
    nd_store_32(((unsigned char *)((uintptr_t)v1 + 92)), (uint32_t)(uint8_t)(v17 & 1));
    goto L1;
L5:;
    nd_memset(v1, 0, 96);
    goto L1;
}

static void nd_ndef_c_run_first_run(unsigned char *v1, unsigned char *v2, uint64_t v3) {
    uint8_t v9, v28, v37;
    unsigned char *v10, *v13, *v17, *v23, *v24, *v25, *v26, *v27, *v29;
    uint64_t v12, v15, v19, v30, v31, v32;
    ND_ROOM(80) v4, v5;
    nd_ndef_piece_whole_whole_piece(v4.b, v2, v3);
    if (!(nd_load_8(v4.b) == 1)) goto L4;
    v9 = nd_load_8((v4.b + 8));
    v10 = v4.b + 9;
    v12 = nd_load_64((v4.b + 24));
    v13 = v4.b + 32;
    v15 = nd_load_64((v4.b + 56));
    v17 = nd_load_ptr((v4.b + 64));
    v19 = nd_load_64((v4.b + 72));
    switch ((uint8_t)(v9 & 7)) {
    case 6: goto L5;
    case 0: goto L2;
    default: goto L6; }
L2:;
    if ((uint8_t)(v9 & 32) == 0) goto L6;
    goto L5;
L3:;
    return;
L4:;
    nd_memset(v1, 0, 120);
    goto L3;
L5:;
    nd_memset(v1, 0, 120);
    goto L3;
L6:;
    v23 = v5.b + 8;
    v24 = v5.b + 24;
    v25 = v5.b + 72;
    v26 = v5.b + 64;
    v27 = v5.b + 56;
    v28 = v9;
    v29 = v17;
    v30 = v19;
    v31 = 1ULL;
    v32 = v15;
L7:;
    if ((uint8_t)(v28 & 32) == 0) goto L13;
    nd_ndef_piece_whole_whole_piece(v5.b, v29, v30);
    if (!(nd_load_8(v5.b) == 1)) goto L10;
    v37 = nd_load_8(v23);
    if ((uint8_t)(((uint8_t)(v37 & 15) == 6) ? (nd_load_64(v24) == 0ULL) : 0)) goto L12;
    goto L11;
L10:;
    nd_memset(v1, 0, 120);
    goto L3;
L11:;
    nd_memset(v1, 0, 120);
    goto L3;
L12:;
    v28 = v37;
    v29 = nd_load_ptr(v26);
    v30 = nd_load_64(v25);
    v31 = v31 + 1ULL;
    v32 = nd_load_64(v27) + v32;
    goto L7;
L13:;
    nd_store_64(v1, 1ULL);
    nd_store_8(((unsigned char *)((uintptr_t)v1 + 8)), v9);
    nd_memcpy(((unsigned char *)((uintptr_t)v1 + 9)), v10, 15);
    nd_store_64(((unsigned char *)((uintptr_t)v1 + 24)), v12);
    nd_memcpy(((unsigned char *)((uintptr_t)v1 + 32)), v13, 24);
    nd_store_64(((unsigned char *)((uintptr_t)v1 + 56)), v15);
    nd_store_ptr(((unsigned char *)((uintptr_t)v1 + 64)), v17);
    nd_store_64(((unsigned char *)((uintptr_t)v1 + 72)), v19);
    nd_store_64(((unsigned char *)((uintptr_t)v1 + 80)), v32);
    nd_store_64(((unsigned char *)((uintptr_t)v1 + 88)), v31);
    nd_store_8(((unsigned char *)((uintptr_t)v1 + 96)), (uint8_t)((uint8_t)(v28 >> 6) & 1));
    nd_memset(((unsigned char *)((uintptr_t)v1 + 97)), 0, 7);
    nd_store_ptr(((unsigned char *)((uintptr_t)v1 + 104)), v29);
    nd_store_64(((unsigned char *)((uintptr_t)v1 + 112)), v30);
    goto L3;
}

static void nd_ndef_piece_whole_whole_piece(unsigned char *v1, unsigned char *v2, uint64_t v3) {
    unsigned char *v6, *v15, *v27, *v32, *v38;
    uint32_t v13;
    uint64_t v17, v26, v28, v30, v33, v35, v36;
    uint8_t v18;
    ND_ROOM(32) v4;
    if (v3 < 2ULL) goto L2;
    goto L3;
L1:;
    return;
L2:;
    nd_memset(v1, 0, 80);
    goto L1;
L3:;
    v6 = (unsigned char *)((uintptr_t)v2 + 1);
    nd_ndef_piece_whole_payload_length_at(v4.b, nd_load_8(v2), ((unsigned char *)((uintptr_t)v2 + 2)), (v3 + 18446744073709551614ULL));
    if (!(nd_load_8(v4.b) == 1)) goto L7;
    v13 = nd_load_32((v4.b + 8));
    v15 = nd_load_ptr((v4.b + 16));
    v17 = nd_load_64((v4.b + 24));
    v18 = nd_load_8(v2);
    if ((uint8_t)(v18 & 8) == 0) { v26 = 0ULL; v27 = v15; v28 = v17; goto L8; }
    if (v17 == 0ULL) goto L9;
    v26 = (uint64_t)nd_load_8(v15);
    v27 = (unsigned char *)((uintptr_t)v15 + 1);
    v28 = v17 + 18446744073709551615ULL;
    goto L8;
L7:;
    nd_memset(v1, 0, 80);
    goto L1;
L8:;
    v30 = (uint64_t)nd_load_8(v6);
    if (v28 < v30) goto L11;
    goto L10;
L9:;
    nd_memset(v1, 0, 80);
    goto L1;
L10:;
    v32 = (unsigned char *)((uintptr_t)v27 + (uintptr_t)v30);
    v33 = v28 - v30;
    if (v33 < v26) goto L13;
    goto L12;
L11:;
    nd_memset(v1, 0, 80);
    goto L1;
L12:;
    v35 = v33 - v26;
    v36 = (uint64_t)v13;
    if (v35 < v36) goto L15;
    goto L14;
L13:;
    nd_memset(v1, 0, 80);
    goto L1;
L14:;
    v38 = (unsigned char *)((uintptr_t)v32 + (uintptr_t)v26);
    nd_store_64(v1, 1ULL);
    nd_store_8(((unsigned char *)((uintptr_t)v1 + 8)), v18);
    nd_memset(((unsigned char *)((uintptr_t)v1 + 9)), 0, 7);
    nd_store_ptr(((unsigned char *)((uintptr_t)v1 + 16)), v27);
    nd_store_64(((unsigned char *)((uintptr_t)v1 + 24)), v30);
    nd_store_ptr(((unsigned char *)((uintptr_t)v1 + 32)), v32);
    nd_store_64(((unsigned char *)((uintptr_t)v1 + 40)), v26);
    nd_store_ptr(((unsigned char *)((uintptr_t)v1 + 48)), v38);
    nd_store_64(((unsigned char *)((uintptr_t)v1 + 56)), v36);
    nd_store_ptr(((unsigned char *)((uintptr_t)v1 + 64)), ((unsigned char *)((uintptr_t)v38 + (uintptr_t)v36)));
    nd_store_64(((unsigned char *)((uintptr_t)v1 + 72)), (v35 - v36));
    goto L1;
L15:;
    nd_memset(v1, 0, 80);
    goto L1;
}

static uint8_t nd_ndef_piece_whole_WholePiece_tnf(unsigned char *v1) {
    uint8_t v3;
    v3 = nd_ndef_piece_header_header_tnf(nd_load_8(v1));
    return v3;
}

static uint8_t nd_ndef_c_normalizing_is_writable(unsigned char *v1) {
    uint64_t v3, v5, v8;
    uint8_t v6, v9;
    v3 = nd_load_64(((unsigned char *)((uintptr_t)v1 + 16)));
    v5 = nd_load_64(((unsigned char *)((uintptr_t)v1 + 32)));
    v6 = nd_ndef_piece_whole_WholePiece_tnf(v1);
    v8 = nd_load_64(((unsigned char *)((uintptr_t)v1 + 72)));
    v9 = nd_ndef_c_writing_has_shape(v6, v3, v5, v8);
    return (v8 < 4294967296ULL) & (int)(((v5 | v3) < 256ULL) & v9);
}

static uint8_t nd_ndef_c_writing_has_shape(uint8_t v1, uint64_t v2, uint64_t v3, uint64_t v4) {
    uint8_t v10;
    switch (v1) {
    case 0: goto L1;
    case 1: goto L2;
    case 2: goto L2;
    case 3: goto L2;
    case 4: goto L2;
    case 5: goto L3;
    case 6: { v10 = 0; goto L4; }
    default: goto L5; }
L1:;
    v10 = ((v3 | v4) | v2) == 0ULL;
    goto L4;
L2:;
    v10 = v2 != 0ULL;
    goto L4;
L3:;
    v10 = v2 == 0ULL;
L4:;
    return v10;
L5:;
    nd_stop();
}

static void nd_ndef_c_normalizing_head_of(unsigned char *v1, unsigned char *v2, uint8_t v3, uint8_t v4) {
    uint8_t v6, v8;
    uint64_t v10, v12, v14;
    v6 = nd_load_8(((unsigned char *)((uintptr_t)v2 + 88)));
    v8 = nd_ndef_piece_whole_WholePiece_tnf(v2);
    v10 = nd_load_64(((unsigned char *)((uintptr_t)v2 + 16)));
    v12 = nd_load_64(((unsigned char *)((uintptr_t)v2 + 32)));
    v14 = nd_load_64(((unsigned char *)((uintptr_t)v2 + 72)));
    nd_store_8(v1, (uint8_t)v3);
    nd_store_8((v1 + 1), v6);
    nd_store_8((v1 + 2), 0);
    nd_store_8((v1 + 3), (uint8_t)((v4 == 0) & (int)(v14 < 256ULL)));
    nd_store_8((v1 + 4), v8);
    nd_store_8((v1 + 5), (uint8_t)v10);
    nd_store_8((v1 + 6), (uint8_t)(v12 != 0ULL));
    nd_store_8((v1 + 7), (uint8_t)v12);
    nd_store_32((v1 + 8), (uint32_t)v14);
    return;
}

static uint64_t nd_ndef_piece_write_write_head(unsigned char *v1, unsigned char *v2) {
    unsigned char *v14, *v18;
    uint32_t v38;
    uint64_t v39, v46;
    ND_ROOM(4) v3;
    v14 = (unsigned char *)((uintptr_t)v1 + 3);
    v18 = (unsigned char *)((uintptr_t)v1 + 6);
    nd_store_8(v2, (uint8_t)((uint8_t)((uint8_t)((uint8_t)((uint8_t)((uint8_t)((uint32_t)nd_load_8(((unsigned char *)((uintptr_t)v1 + 1))) << 6) | (uint8_t)((uint32_t)nd_load_8(v1) << 7)) | (uint8_t)((uint32_t)nd_load_8(((unsigned char *)((uintptr_t)v1 + 2))) << 5)) | (uint8_t)((uint32_t)nd_load_8(v14) << 4)) | nd_load_8(((unsigned char *)((uintptr_t)v1 + 4)))) | (uint8_t)((nd_load_8(v18) == 1) ? 8 : 0)));
    nd_store_8((v2 + 1), nd_load_8(((unsigned char *)((uintptr_t)v1 + 5))));
    if (!(uint8_t)(nd_load_8(v14) & 1)) goto L2;
    nd_store_8((v2 + 2), (uint8_t)nd_load_32(((unsigned char *)((uintptr_t)v1 + 8))));
    v39 = 3ULL;
    goto L3;
L2:;
    v38 = nd_bswap_i32(nd_load_32(((unsigned char *)((uintptr_t)v1 + 8))));
    nd_store_32(v3.b, v38);
    nd_core_slice_edits_slice_T_copy_from_slice(((unsigned char *)((uintptr_t)v2 + 2)), v3.b, 4ULL);
    v39 = 6ULL;
L3:;
    if (!(nd_load_8(v18) == 1)) { v46 = v39; goto L5; }
    nd_store_8((v2 + (ptrdiff_t)v39), nd_load_8(((unsigned char *)((uintptr_t)v1 + 7))));
    v46 = v39 + 1ULL;
L5:;
    return v46;
}

static void nd_ndef_c_chunks_PiecesIterator_next(unsigned char *v1, unsigned char *v2) {
    unsigned char *v4, *v7, *v9;
    uint64_t v8, v10, v20, v24;
    uint8_t v18;
    ND_ROOM(80) v3;
    v4 = (unsigned char *)((uintptr_t)v2 + 24);
    if (!(uint8_t)(nd_load_8(v4) & 1)) goto L3;
    v7 = (unsigned char *)((uintptr_t)v2 + 16);
    v8 = nd_load_64(v7);
    v9 = (unsigned char *)((uintptr_t)v2 + 8);
    v10 = nd_load_64(v9);
    if (v10 < v8) goto L3;
    goto L4;
L2:;
    return;
L3:;
    nd_memset(v1, 0, 24);
    goto L2;
L4:;
    nd_ndef_piece_whole_whole_piece(v3.b, ((unsigned char *)((uintptr_t)nd_load_ptr(v2) + (uintptr_t)v8)), (v10 - v8));
    if (!(nd_load_8(v3.b) == 1)) goto L6;
    v18 = nd_load_8((v3.b + 8));
    v20 = nd_load_64((v3.b + 56));
    v24 = nd_load_64(v9) - nd_load_64((v3.b + 72));
    nd_store_64(v7, v24);
    nd_store_8(v4, (uint8_t)((uint8_t)(v18 >> 5) & 1));
    nd_store_64(v1, 1ULL);
    nd_store_64(((unsigned char *)((uintptr_t)v1 + 8)), (v24 - v20));
    nd_store_64(((unsigned char *)((uintptr_t)v1 + 16)), v20);
    goto L2;
L6:;
    nd_memset(v1, 0, 24);
    goto L2;
}

static void nd_ndef_c_alternative_writing_alternative_content(unsigned char *v1, uint32_t v2, unsigned char *v3, uint64_t v4, unsigned char *v5, uint64_t v6) {
    unsigned char *v11, *v19;
    uint64_t v12, v16, v21, v23;
    if (v6 == 0ULL) goto L2;
    goto L3;
L1:;
    return;
L2:;
    nd_store_64(v1, 0ULL);
    nd_store_8(((unsigned char *)((uintptr_t)v1 + 8)), 0);
    nd_store_8(((unsigned char *)((uintptr_t)v1 + 9)), 0);
    nd_memset(((unsigned char *)((uintptr_t)v1 + 16)), 0, 40);
    goto L1;
L3:;
    v11 = (unsigned char *)((uintptr_t)v5 + 16);
    v12 = v6 + 18446744073709551615ULL;
    if ((v2 > 3U) | (int)(v12 > 255ULL)) goto L8;
    v16 = 0ULL;
L4:;
    if (v16 == v6) goto L9;
    v19 = (unsigned char *)((uintptr_t)v5 + (uintptr_t)(v16 << 4));
    v21 = nd_load_64(((unsigned char *)((uintptr_t)v19 + 8)));
    if (!(v21 < 256ULL)) goto L7;
    v23 = nd_load_64(v19);
    if ((uint8_t)((v23 <= v4) ? (v21 <= (v4 - v23)) : 0)) { v16 = v16 + 1ULL; goto L4; }
L7:;
    if (!(v16 < v6)) goto L9;
L8:;
    nd_store_64(v1, 0ULL);
    nd_store_8(((unsigned char *)((uintptr_t)v1 + 8)), 0);
    nd_store_8(((unsigned char *)((uintptr_t)v1 + 9)), 0);
    nd_memset(((unsigned char *)((uintptr_t)v1 + 16)), 0, 40);
    goto L1;
L9:;
    nd_store_64(v1, 1ULL);
    nd_store_8(((unsigned char *)((uintptr_t)v1 + 8)), 3);
    nd_store_8(((unsigned char *)((uintptr_t)v1 + 9)), (uint8_t)v2);
    nd_store_ptr(((unsigned char *)((uintptr_t)v1 + 16)), v3);
    nd_store_64(((unsigned char *)((uintptr_t)v1 + 24)), v4);
    nd_store_ptr(((unsigned char *)((uintptr_t)v1 + 32)), v5);
    nd_store_ptr(((unsigned char *)((uintptr_t)v1 + 40)), v11);
    nd_store_64(((unsigned char *)((uintptr_t)v1 + 48)), v12);
    goto L1;
}

static uint32_t nd_ndef_c_content_give_content(unsigned char *v1, unsigned char *v2, uint64_t v3, unsigned char *v4) {
    struct nd_8_64 v14;
    uint64_t v17, v26, v30, v33, v36, v42, v46, v50, v53, v61, v63, v76, v79, v84, v85, v91, v99, v101, v106;
    uint32_t v19;
    unsigned char *v21, *v24, *v28, *v40, *v44, *v59, *v70, *v72, *v74, *v78, *v97;
    ND_ROOM(1) v5, v6, v7, v8, v9, v10, v11;
    ND_ROOM(24) v12;
    nd_store_64((v12.b + 16), 0ULL);
    v14 = nd_ndef_c_content_content_length(v1);
    if (!(v14.f0 == 1)) { v19 = 3U; goto L2; }
    v17 = v14.f1;
    nd_store_64(v4, v17);
    if (v3 < v17) { v19 = 2U; goto L2; }
    goto L3;
L2:;
    return v19;
L3:;
    nd_store_ptr(v12.b, v2);
    nd_store_64((v12.b + 8), v3);
    v21 = v12.b + 16;
    switch (nd_load_8(v1)) {
    case 0: goto L4;
    case 1: goto L10;
    case 2: goto L17;
    case 3: goto L21;
    case 4: goto L31;
    case 5: goto L35;
    default: goto L37; }
L4:;
    v24 = nd_load_ptr(((unsigned char *)((uintptr_t)v1 + 8)));
    v26 = nd_load_64(((unsigned char *)((uintptr_t)v1 + 16)));
    v28 = nd_load_ptr(((unsigned char *)((uintptr_t)v1 + 24)));
    v30 = nd_load_64(((unsigned char *)((uintptr_t)v1 + 32)));
    nd_store_8(v8.b, (uint8_t)v26);
    if (v3 == 0ULL) goto L6;
    nd_core_slice_edits_slice_T_copy_from_slice(v2, v8.b, 1ULL);
L6:;
    v33 = nd_uadd_sat_i64(v26, 1ULL);
    if (v33 > v3) goto L8;
    nd_core_slice_edits_slice_T_copy_from_slice(((unsigned char *)((uintptr_t)v2 + 1)), v24, v26);
L8:;
    v36 = nd_uadd_sat_i64(v30, v33);
    if (v36 > v3) goto L38;
    nd_core_slice_edits_slice_T_copy_from_slice(((unsigned char *)((uintptr_t)v2 + (uintptr_t)v33)), v28, v30);
    goto L38;
L10:;
    v40 = nd_load_ptr(((unsigned char *)((uintptr_t)v1 + 8)));
    v42 = nd_load_64(((unsigned char *)((uintptr_t)v1 + 16)));
    v44 = nd_load_ptr(((unsigned char *)((uintptr_t)v1 + 24)));
    v46 = nd_load_64(((unsigned char *)((uintptr_t)v1 + 32)));
    nd_store_8(v9.b, (uint8_t)((uint8_t)v42 ^ 128));
    if (v3 == 0ULL) goto L12;
    nd_core_slice_edits_slice_T_copy_from_slice(v2, v9.b, 1ULL);
L12:;
    v50 = nd_uadd_sat_i64(v42, 1ULL);
    if (v50 > v3) goto L14;
    nd_core_slice_edits_slice_T_copy_from_slice(((unsigned char *)((uintptr_t)v2 + 1)), v40, v42);
L14:;
    v53 = nd_uadd_sat_i64(v42, 3ULL);
    if (v53 > v3) goto L16;
    nd_core_slice_edits_slice_T_copy_from_slice(((unsigned char *)((uintptr_t)v2 + (uintptr_t)v50)), (unsigned char *)nd_data_static_88, 2ULL);
L16:;
    nd_store_64(v21, v53);
    nd_ndef_c_utf16_put_units(v12.b, v44, v46);
    goto L38;
L17:;
    v59 = nd_load_ptr(((unsigned char *)((uintptr_t)v1 + 8)));
    v61 = nd_load_64(((unsigned char *)((uintptr_t)v1 + 16)));
    nd_store_8(v10.b, nd_load_8(((unsigned char *)((uintptr_t)v1 + 1))));
    if (v3 == 0ULL) goto L19;
    nd_core_slice_edits_slice_T_copy_from_slice(v2, v10.b, 1ULL);
L19:;
    v63 = nd_uadd_sat_i64(v61, 1ULL);
    if (v63 > v3) goto L38;
    nd_core_slice_edits_slice_T_copy_from_slice(((unsigned char *)((uintptr_t)v2 + 1)), v59, v61);
    nd_core_slice_edits_slice_T_copy_from_slice(((unsigned char *)((uintptr_t)v2 + (uintptr_t)v63)), (unsigned char *)nd_data_static_50, 0ULL);
    goto L38;
L21:;
    v70 = nd_load_ptr(((unsigned char *)((uintptr_t)v1 + 8)));
    v72 = nd_load_ptr(((unsigned char *)((uintptr_t)v1 + 24)));
    v74 = nd_load_ptr(((unsigned char *)((uintptr_t)v1 + 32)));
    v76 = nd_load_64(((unsigned char *)((uintptr_t)v1 + 40)));
    nd_store_8(v6.b, nd_load_8(((unsigned char *)((uintptr_t)v1 + 1))));
    v78 = (unsigned char *)((uintptr_t)v72 + 8);
    if (!(v3 == 0ULL)) goto L23;
    nd_store_64(v21, 1ULL);
    goto L25;
L23:;
    nd_core_slice_edits_slice_T_copy_from_slice(v2, v6.b, 1ULL);
    v79 = nd_load_64(v78);
    nd_store_8(v5.b, (uint8_t)v79);
    if (v3 == 1ULL) { v84 = v79; goto L26; }
    nd_core_slice_edits_slice_T_copy_from_slice(((unsigned char *)((uintptr_t)v2 + 1)), v5.b, 1ULL);
L25:;
    v84 = nd_load_64(v78);
L26:;
    v85 = nd_uadd_sat_i64(v84, 2ULL);
    if (v85 > v3) goto L28;
    nd_core_slice_edits_slice_T_copy_from_slice(((unsigned char *)((uintptr_t)v2 + 2)), ((unsigned char *)((uintptr_t)v70 + (uintptr_t)nd_load_64(v72))), v84);
L28:;
    nd_store_8(v7.b, (uint8_t)v76);
    v91 = nd_uadd_sat_i64(v84, 3ULL);
    if (v91 > v3) goto L30;
    nd_core_slice_edits_slice_T_copy_from_slice(((unsigned char *)((uintptr_t)v2 + (uintptr_t)v85)), v7.b, 1ULL);
L30:;
    nd_store_64(v21, v91);
    nd_ndef_c_alternative_writing_put_references(v12.b, v70, v74, v76);
    goto L38;
L31:;
    v97 = nd_load_ptr(((unsigned char *)((uintptr_t)v1 + 8)));
    v99 = nd_load_64(((unsigned char *)((uintptr_t)v1 + 16)));
    nd_store_8(v11.b, nd_load_8(((unsigned char *)((uintptr_t)v1 + 1))));
    if (v3 == 0ULL) goto L33;
    nd_core_slice_edits_slice_T_copy_from_slice(v2, v11.b, 1ULL);
L33:;
    v101 = nd_uadd_sat_i64(v99, 1ULL);
    if (v101 > v3) goto L38;
    nd_core_slice_edits_slice_T_copy_from_slice(((unsigned char *)((uintptr_t)v2 + 1)), v97, v99);
    nd_core_slice_edits_slice_T_copy_from_slice(((unsigned char *)((uintptr_t)v2 + (uintptr_t)v101)), (unsigned char *)nd_data_static_50, 0ULL);
    goto L38;
L35:;
    v106 = nd_load_64(((unsigned char *)((uintptr_t)v1 + 16)));
    if (v106 > v3) goto L38;
    nd_core_slice_edits_slice_T_copy_from_slice(v2, nd_load_ptr(((unsigned char *)((uintptr_t)v1 + 8))), v106);
    goto L38;
L37:;
    nd_stop();
L38:;
    v19 = 0U;
    goto L2;
}

static struct nd_8_64 nd_ndef_c_content_content_length(unsigned char *v1) {
    unsigned char *v5, *v16, *v24, *v28;
    uint64_t v10, v11, v12, v18, v19, v22, v30, v33, v36, v38, v42;
    uint8_t v43;
    ND_ROOM(1) v2;
    ND_ROOM(24) v3;
    nd_store_ptr(v3.b, v2.b);
    v5 = v3.b + 16;
    nd_memset((v3.b + 8), 0, 16);
    switch (nd_load_8(v1)) {
    case 0: goto L1;
    case 1: goto L2;
    case 2: goto L3;
    case 3: goto L4;
    case 4: goto L5;
    case 5: goto L6;
    default: goto L9; }
L1:;
    v10 = nd_load_64(((unsigned char *)((uintptr_t)v1 + 32)));
    v11 = nd_uadd_sat_i64(nd_load_64(((unsigned char *)((uintptr_t)v1 + 16))), 1ULL);
    v12 = nd_uadd_sat_i64(v10, v11);
    nd_store_64(v5, v12);
    goto L10;
L2:;
    v16 = nd_load_ptr(((unsigned char *)((uintptr_t)v1 + 24)));
    v18 = nd_load_64(((unsigned char *)((uintptr_t)v1 + 32)));
    v19 = nd_uadd_sat_i64(nd_load_64(((unsigned char *)((uintptr_t)v1 + 16))), 3ULL);
    nd_store_64(v5, v19);
    nd_ndef_c_utf16_put_units(v3.b, v16, v18);
    goto L10;
L3:;
    v22 = nd_uadd_sat_i64(nd_load_64(((unsigned char *)((uintptr_t)v1 + 16))), 1ULL);
    nd_store_64(v5, v22);
    goto L10;
L4:;
    v24 = nd_load_ptr(((unsigned char *)((uintptr_t)v1 + 8)));
    v28 = nd_load_ptr(((unsigned char *)((uintptr_t)v1 + 32)));
    v30 = nd_load_64(((unsigned char *)((uintptr_t)v1 + 40)));
    v33 = nd_uadd_sat_i64(nd_load_64(((unsigned char *)((uintptr_t)nd_load_ptr(((unsigned char *)((uintptr_t)v1 + 24))) + 8))), 3ULL);
    nd_store_64(v5, v33);
    nd_ndef_c_alternative_writing_put_references(v3.b, v24, v28, v30);
    goto L10;
L5:;
    v36 = nd_uadd_sat_i64(nd_load_64(((unsigned char *)((uintptr_t)v1 + 16))), 1ULL);
    nd_store_64(v5, v36);
    goto L10;
L6:;
    v38 = nd_load_64(((unsigned char *)((uintptr_t)v1 + 16)));
    if (!(v38 == 0ULL)) goto L8;
    nd_core_slice_edits_slice_T_copy_from_slice(v2.b, nd_load_ptr(((unsigned char *)((uintptr_t)v1 + 8))), 0ULL);
L8:;
    nd_store_64(v5, v38);
    goto L10;
L9:;
    nd_stop();
L10:;
    v42 = nd_load_64(v5);
    v43 = v42 < 4294967296ULL;
    return (struct nd_8_64) { (uint8_t)v43, (v43 ? v42 : 0ULL) };
}

static void nd_ndef_c_utf16_put_units(unsigned char *v1, unsigned char *v2, uint64_t v3) {
    unsigned char *v6, *v7, *v8, *v9, *v48, *v52, *v62;
    uint64_t v10, v33, v49, v51, v61, v64, v65, v71, v72;
    uint8_t v12;
    uint32_t v13, v18, v26, v34, v44, v46, v47, v53;
    uint16_t v63, v70;
    ND_ROOM(4) v4;
    ND_ROOM(2) v5;
    v6 = v4.b + 2;
    v7 = (unsigned char *)((uintptr_t)v1 + 16);
    v8 = (unsigned char *)((uintptr_t)v1 + 8);
    v9 = v2;
    v10 = v3;
L1:;
    if (v10 == 0ULL) goto L17;
    v12 = nd_load_8(v9);
    v13 = (uint32_t)v12;
    if ((int8_t)v12 > (int8_t)255) { v33 = 1ULL; v34 = v13; goto L7; }
    v18 = (uint32_t)(uint8_t)(nd_load_8((v9 + 1)) & 63);
    if (!(v12 < 224)) goto L5;
    v33 = 2ULL;
    v34 = ((v13 << 6) & 1984U) | v18;
    goto L7;
L5:;
    v26 = (uint32_t)(uint8_t)(nd_load_8((v9 + 2)) & 63);
    if (!(v12 < 240)) goto L8;
    v33 = 3ULL;
    v34 = ((v18 << 6) | ((v13 << 12) & 61440U)) | v26;
L7:;
    nd_store_32(v4.b, 0U);
    v51 = v10 - v33;
    v52 = (unsigned char *)((uintptr_t)v9 + (uintptr_t)v33);
    v53 = v34;
    goto L9;
L8:;
    v44 = (v18 << 12) | ((v13 << 18) & 1835008U);
    v46 = (v26 << 6) | (uint32_t)(uint8_t)(nd_load_8((v9 + 3)) & 63);
    v47 = v46 | v44;
    v48 = (unsigned char *)((uintptr_t)v9 + 4);
    v49 = v10 + 18446744073709551612ULL;
    nd_store_32(v4.b, 0U);
    if (v44 < 65536U) { v51 = v49; v52 = v48; v53 = v47; goto L9; }
    goto L10;
L9:;
    v61 = v51;
    v62 = v52;
    v63 = (uint16_t)v53;
    v64 = 1ULL;
    goto L11;
L10:;
    nd_store_16(v6, (uint16_t)((uint16_t)v46 | 56320));
    v61 = v49;
    v62 = v48;
    v63 = (uint16_t)((uint16_t)((v47 + 67043328U) >> 10) + 55296);
    v64 = 2ULL;
L11:;
    nd_store_16(v4.b, v63);
    v65 = 0ULL;
L12:;
    if (v65 == v64) goto L16;
    v70 = nd_bswap_i16(nd_load_16(((unsigned char *)((uintptr_t)v4.b + (uintptr_t)(v65 << 1)))));
    nd_store_16(v5.b, v70);
    v71 = nd_load_64(v7);
    v72 = nd_uadd_sat_i64(v71, 2ULL);
    if (v72 > nd_load_64(v8)) goto L15;
    nd_core_slice_edits_slice_T_copy_from_slice(((unsigned char *)((uintptr_t)nd_load_ptr(v1) + (uintptr_t)v71)), v5.b, 2ULL);
L15:;
    nd_store_64(v7, v72);
    v65 = v65 + 1ULL;
    goto L12;
L16:;
    v9 = v62;
    v10 = v61;
    goto L1;
L17:;
    return;
}

static void nd_ndef_c_alternative_writing_put_references(unsigned char *v1, unsigned char *v2, unsigned char *v3, uint64_t v4) {
    unsigned char *v6, *v7, *v11, *v12;
    uint64_t v8, v15, v16, v17, v22, v23, v24;
    ND_ROOM(1) v5;
    v6 = (unsigned char *)((uintptr_t)v1 + 16);
    v7 = (unsigned char *)((uintptr_t)v1 + 8);
    v8 = 0ULL;
L1:;
    if (v8 == v4) goto L7;
    v11 = (unsigned char *)((uintptr_t)v3 + (uintptr_t)(v8 << 4));
    v12 = (unsigned char *)((uintptr_t)v11 + 8);
    nd_store_8(v5.b, (uint8_t)nd_load_64(v12));
    v15 = nd_load_64(v6);
    v16 = nd_uadd_sat_i64(v15, 1ULL);
    v17 = nd_load_64(v7);
    if (v16 > v17) { v22 = v17; goto L4; }
    nd_core_slice_edits_slice_T_copy_from_slice(((unsigned char *)((uintptr_t)nd_load_ptr(v1) + (uintptr_t)v15)), v5.b, 1ULL);
    v22 = nd_load_64(v7);
L4:;
    nd_store_64(v6, v16);
    v23 = nd_load_64(v12);
    v24 = nd_uadd_sat_i64(v23, v16);
    if (v24 > v22) goto L6;
    nd_core_slice_edits_slice_T_copy_from_slice(((unsigned char *)((uintptr_t)nd_load_ptr(v1) + (uintptr_t)v16)), ((unsigned char *)((uintptr_t)v2 + (uintptr_t)nd_load_64(v11))), v23);
L6:;
    nd_store_64(v6, v24);
    v8 = v8 + 1ULL;
    goto L1;
L7:;
    return;
}

static void nd_ndef_types_prefixes_split(unsigned char *v1, unsigned char *v2, uint64_t v3) {
    uint8_t v4, v5, v6, v11, v89;
    struct nd_ptr_64 v8, v85, v91;
    unsigned char *v9;
    uint64_t v10, v21, v23, v24, v26, v28, v32, v39, v56, v57, v58, v60, v62, v64, v67, v81, v82, v92;
    v4 = v3 == 0ULL;
    v5 = 1;
    v6 = 0;
L1:;
    if (!(v5 < 36)) goto L14;
    v8 = nd_ndef_types_prefixes_prefix(v5);
    v9 = v8.f0;
    v10 = v8.f1;
    v11 = v10 == 0ULL;
    if (v4 | v11) goto L4;
    if ((v3 < v10) | (int)(nd_load_8(v2) != nd_load_8(v9))) { v89 = v6; goto L13; }
    goto L5;
L4:;
    if (v3 < v10) { v89 = v6; goto L13; }
L5:;
    if (!(v10 < 8ULL)) goto L10;
    if (!(v10 > 3ULL)) goto L8;
    v21 = nd_core_cmp_bytes_read_u32_be(v2, 0ULL);
    v23 = v10 + 18446744073709551612ULL;
    v24 = nd_core_cmp_bytes_read_u32_be(v2, v23);
    v26 = nd_core_cmp_bytes_read_u32_be(v9, 0ULL);
    v28 = nd_core_cmp_bytes_read_u32_be(v9, v23);
    v81 = (v26 << 32) | v28;
    v82 = (v21 << 32) | v24;
    goto L11;
L8:;
    if (v11) goto L12;
    v32 = v10 >> 1;
    v39 = v10 + 18446744073709551615ULL;
    v81 = (((uint64_t)nd_load_8((v9 + (ptrdiff_t)v32)) << 8) | ((uint64_t)nd_load_8(v9) << 16)) | (uint64_t)nd_load_8((v9 + (ptrdiff_t)v39));
    v82 = (((uint64_t)nd_load_8((v2 + (ptrdiff_t)v32)) << 8) | ((uint64_t)nd_load_8(v2) << 16)) | (uint64_t)nd_load_8((v2 + (ptrdiff_t)v39));
    goto L11;
L10:;
    v56 = v10 + 18446744073709551608ULL;
    v57 = nd_load_64(v2);
    v58 = nd_load_64(v9);
    v60 = nd_umin_i64(v56, 8ULL);
    v62 = nd_load_64((v2 + (ptrdiff_t)v60));
    v64 = nd_load_64((v9 + (ptrdiff_t)v60));
    v67 = nd_umin_i64(v56, 16ULL);
    if ((((v57 == v58) & (int)(v62 == v64)) & (int)(nd_load_64((v2 + (ptrdiff_t)v67)) == nd_load_64((v9 + (ptrdiff_t)v67)))) & (int)(nd_load_64((v2 + (ptrdiff_t)v56)) == nd_load_64((v9 + (ptrdiff_t)v56)))) goto L12;
    v89 = v6;
    goto L13;
L11:;
    if (!(v82 == v81)) { v89 = v6; goto L13; }
L12:;
    v85 = nd_ndef_types_prefixes_prefix(v6);
    v89 = (uint8_t)((v85.f1 < v10) ? v5 : v6);
L13:;
    v5 = (uint8_t)(v5 + 1);
    v6 = v89;
    goto L1;
L14:;
    v91 = nd_ndef_types_prefixes_prefix(v6);
    v92 = v91.f1;
    nd_store_8(v1, v6);
    nd_memset((v1 + 1), 0, 7);
    nd_store_ptr((v1 + 8), ((unsigned char *)((uintptr_t)v2 + (uintptr_t)v92)));
    nd_store_64((v1 + 16), (v3 - v92));
    return;
}

static uint64_t nd_core_cmp_bytes_read_u32_be(unsigned char *v1, uint64_t v2) {
    unsigned char *v3;
    uint32_t v21;
    v3 = v1 + (ptrdiff_t)v2;
    v21 = nd_bswap_i32((((((uint32_t)nd_load_8((v3 + 1)) << 8) | (uint32_t)nd_load_8(v3)) | ((uint32_t)nd_load_8((v3 + 2)) << 16)) | ((uint32_t)nd_load_8((v3 + 3)) << 24)));
    return (uint64_t)v21;
}

static struct nd_8_8 nd_ndef_c_reasons_reason_of(uint32_t v1) {
    uint32_t v2;
    uint8_t v7, v8;
    v2 = v1 + 4294967295U;
    if (!(v2 < 25U)) { v7 = 0; v8 = 0; goto L2; }
    v7 = 1;
    v8 = nd_load_8(((unsigned char *)nd_data_switch_table_ndef_c_reasons_reason_of + (ptrdiff_t)(uint64_t)v2));
L2:;
    return (struct nd_8_8) { v7, v8 };
}

static struct nd_ptr_64 nd_ndef_format_reason_Reason_sentence(uint8_t v1) {
    return (struct nd_ptr_64) { nd_load_ptr(((unsigned char *)&nd_data_switch_table_ndef_format_reason_Reason_sentence_5 + (ptrdiff_t)(uint64_t)v1 * 8)), nd_load_64(((unsigned char *)nd_data_switch_table_ndef_format_reason_Reason_sentence + (ptrdiff_t)(uint64_t)v1 * 8)) };
}

static void nd_ndef_lang_place_refusal_of(unsigned char *v1, uint8_t v2, uint8_t v3, unsigned char *v4, uint64_t v5) {
    uint32_t v8;
    uint8_t v9, v10, v14, v20;
    uint64_t v18;
    ND_ROOM(12) v6;
    nd_store_32((v6.b + 8), 0U);
    switch (v2) {
    case 1: { v8 = 0U; v9 = 4; v10 = 0; goto L11; }
    case 2: goto L1;
    case 9: goto L2;
    case 7: goto L3;
    case 8: goto L4;
    case 11: goto L5;
    case 10: goto L6;
    case 12: goto L7;
    case 6: goto L8;
    case 5: goto L9;
    case 3: goto L9;
    case 4: goto L9;
    default: goto L10; }
L1:;
    v8 = 0U;
    v9 = 5;
    v10 = v3;
    goto L11;
L2:;
    v8 = 0U;
    v9 = 2;
    v10 = 0;
    goto L11;
L3:;
    v8 = 1U;
    v9 = 0;
    v10 = 0;
    goto L11;
L4:;
    v8 = 4U;
    v9 = 0;
    v10 = 0;
    goto L11;
L5:;
    v8 = 2U;
    v9 = 0;
    v10 = 0;
    goto L11;
L6:;
    v8 = 1U;
    v9 = 8;
    v10 = 0;
    goto L11;
L7:;
    v8 = 0U;
    v9 = 6;
    v10 = 0;
    goto L11;
L8:;
    v8 = 1U;
    v9 = 7;
    v10 = 0;
    goto L11;
L9:;
    v8 = 0U;
    v9 = 1;
    v10 = 0;
    goto L11;
L10:;
    nd_stop();
L11:;
    nd_store_32(v6.b, 0U);
    nd_store_32((v6.b + 4), v8);
    nd_store_8((v6.b + 9), v9);
    nd_store_8((v6.b + 10), v10);
    v14 = nd_ndef_lang_leaf_LeafLanguage_fits(v6.b, v5, v5);
    if (v14) goto L14;
    goto L13;
L12:;
    return;
L13:;
    nd_store_64(v1, 1ULL);
    nd_store_64(((unsigned char *)((uintptr_t)v1 + 8)), 0ULL);
    nd_store_8(((unsigned char *)((uintptr_t)v1 + 16)), 23);
    nd_memset(((unsigned char *)((uintptr_t)v1 + 17)), 0, 7);
    goto L12;
L14:;
    v18 = nd_ndef_lang_leaf_LeafLanguage_step_all(v6.b, v4, v5, v5, v5);
    if (!(v18 < v5)) goto L16;
    v20 = nd_ndef_lang_leaf_LeafLanguage_reason(v6.b);
    nd_store_64(v1, 1ULL);
    nd_store_64(((unsigned char *)((uintptr_t)v1 + 8)), v18);
    nd_store_8(((unsigned char *)((uintptr_t)v1 + 16)), v20);
    nd_memset(((unsigned char *)((uintptr_t)v1 + 17)), 0, 7);
    goto L12;
L16:;
    nd_memset(v1, 0, 24);
    goto L12;
}

static void nd_ndef_c_refusal_refuse(uint64_t v1, uint8_t v2, unsigned char *v3) {
    uint8_t v4;
    v4 = nd_ndef_format_reason_Reason_number(v2);
    nd_store_64(v3, v1);
    nd_store_32((v3 + 8), 0U);
    nd_store_32((v3 + 12), (uint32_t)v4);
    return;
}

static uint8_t nd_ndef_format_reason_Reason_number(uint8_t v1) {
    return nd_load_8(((unsigned char *)nd_data_switch_table_ndef_format_reason_Reason_number + (ptrdiff_t)(uint64_t)v1));
}

static uint32_t nd_ndef_c_checking_check_in(unsigned char *v1, uint64_t v2, unsigned char *v3, unsigned char *v4) {
    uint32_t v12, v19;
    ND_ROOM(16) v5;
    ND_ROOM(32) v6;
    nd_memcpy(v5.b, v3, 16);
    nd_memset(v6.b, 0, 32);
    nd_ndef_message_message_viewing_view(v6.b, v1, v2, v5.b);
    if (!(nd_load_8(v6.b) == 0)) goto L2;
    v12 = nd_load_32((v6.b + 24));
    nd_store_64(v4, nd_load_64((v6.b + 16)));
    nd_store_32((v4 + 8), v12);
    nd_store_32((v4 + 12), 0U);
    v19 = 0U;
    goto L3;
L2:;
    nd_ndef_c_refusal_refuse(nd_load_64((v6.b + 8)), nd_load_8((v6.b + 16)), v4);
    v19 = 1U;
L3:;
    return v19;
}

static void nd_ndef_message_message_viewing_view(unsigned char *v1, unsigned char *v2, uint64_t v3, unsigned char *v4) {
    uint32_t v9, v11, v13, v393, v396;
    uint8_t v15, v41, v42, v53, v58, v65, v66, v74, v81, v142, v223, v290, v371, v373, v374, v375, v388, v397;
    unsigned char *v44, *v48, *v72, *v105, *v133, *v182, *v225, *v253, *v281, *v330, *v390, *v395;
    uint64_t v46, v50, v73, v76, v226, v377, v392;
    ND_ROOM(12) v5, v6;
    ND_ROOM(72) v7;
    ND_ROOM(80) v8;
    ND_ROOM(3) v17, v20;
    ND_ROOM(24) v18;
    ND_ROOM(16) v19;
    v9 = nd_load_32(v4);
    v11 = nd_load_32((v4 + 4));
    v13 = nd_load_32((v4 + 8));
    v15 = nd_load_8((v4 + 12));
    nd_memset(v18.b, 0, 24);
    nd_memset(v20.b, 0, 3);
    nd_memcpy(v17.b, (v4 + 13), 3);
    if (v3 == 0ULL) goto L68;
    if ((uint8_t)(nd_load_8(v2) & 64) == 0) goto L68;
    nd_ndef_piece_whole_whole_piece(v8.b, v2, v3);
    if (!(nd_load_8(v8.b) == 1)) goto L68;
    nd_memcpy(v7.b, (v8.b + 8), 72);
    if ((uint8_t)(nd_load_8(v7.b) & 64) == 0) goto L68;
    nd_store_8(v6.b, v15);
    nd_store_8((v6.b + 1), 1);
    nd_store_8((v6.b + 2), 0);
    nd_store_8((v6.b + 3), (uint8_t)(v13 == 1U));
    nd_store_8((v6.b + 4), (uint8_t)(v11 == 1U));
    nd_memset((v6.b + 5), 0, 3);
    nd_store_32((v6.b + 8), v9);
    v41 = nd_ndef_piece_whole_WholePiece_is_record_at(v7.b, v6.b);
    if (!v41) goto L67;
    v42 = nd_ndef_piece_whole_WholePiece_tnf(v7.b);
    v44 = nd_load_ptr((v7.b + 8));
    v46 = nd_load_64((v7.b + 16));
    v48 = nd_load_ptr((v7.b + 40));
    v50 = nd_load_64((v7.b + 48));
    if (!(v42 == 1)) goto L12;
    switch (v46) {
    case 0ULL: goto L12;
    case 1ULL: goto L7;
    default: goto L8; }
L7:;
    v53 = nd_ndef_format_kind_of_one(nd_load_8(v44));
    v66 = v53;
    goto L13;
L8:;
    if (!(v46 < 3ULL)) goto L10;
    v58 = nd_ndef_format_kind_of_two(nd_load_8(v44), nd_load_8(((unsigned char *)((uintptr_t)v44 + 1))));
    v66 = v58;
    goto L13;
L10:;
    if (!(v46 == 3ULL)) goto L12;
    v65 = nd_ndef_format_kind_of_three(nd_load_8(v44), nd_load_8(((unsigned char *)((uintptr_t)v44 + 1))), nd_load_8(((unsigned char *)((uintptr_t)v44 + 2))));
    v66 = v65;
    goto L13;
L12:;
    goto L62;
L13:;
    switch (v66) {
    case 3: { v374 = 0; goto L64; }
    case 4: goto L14;
    case 5: goto L15;
    case 0: goto L17;
    case 1: goto L17;
    case 2: goto L17;
    case 6: goto L17;
    case 7: goto L17;
    case 8: goto L17;
    case 9: goto L17;
    case 10: goto L17;
    case 11: goto L17;
    case 12: goto L17;
    default: goto L16; }
L14:;
    v374 = 1;
    goto L64;
L15:;
    v374 = 2;
    goto L64;
L16:;
    nd_stop();
L17:;
    nd_store_32((v5.b + 8), 1792U);
    switch ((uint8_t)(((uint8_t)(v66 + 255) < 6) ? v66 : 0)) {
    case 1: goto L18;
    case 2: goto L39;
    case 6: goto L60;
    case 0: goto L62;
    case 3: goto L62;
    case 4: goto L62;
    case 5: goto L62;
    default: goto L61; }
L18:;
    if (v50 == 0ULL) goto L63;
    v72 = (unsigned char *)((uintptr_t)v48 + 1);
    v73 = v50 + 18446744073709551615ULL;
    v74 = nd_load_8(v48);
    v76 = (uint64_t)(uint8_t)(v74 & 63);
    if (((uint8_t)(v74 & 64) != 0) | (int)(v73 < v76)) goto L63;
    v81 = (int8_t)v74 < (int8_t)0;
    if ((v50 > 64ULL) | v81) goto L38;
    if (!(v50 < 9ULL)) goto L32;
    if (v50 < 5ULL) goto L25;
    if (!(((((((uint32_t)nd_load_8(((unsigned char *)((uintptr_t)v48 + 2))) << 8) | (uint32_t)nd_load_8(v72)) | ((uint32_t)nd_load_8(((unsigned char *)((uintptr_t)v48 + 3))) << 16)) | ((uint32_t)nd_load_8(((unsigned char *)((uintptr_t)v48 + 4))) << 24)) & 2155905152U) == 0U)) goto L38;
    v105 = (unsigned char *)((uintptr_t)v48 + (uintptr_t)v50);
    if (((((((uint32_t)nd_load_8(((unsigned char *)((uintptr_t)v105 - 3))) << 8) | (uint32_t)nd_load_8(((unsigned char *)((uintptr_t)v105 - 4)))) | ((uint32_t)nd_load_8(((unsigned char *)((uintptr_t)v105 - 2))) << 16)) | ((uint32_t)nd_load_8(((unsigned char *)((uintptr_t)v105 - 1))) << 24)) & 2155905152U) == 0U) goto L62;
    goto L38;
L25:;
    switch (v50) {
    case 1ULL: goto L62;
    case 2ULL: goto L26;
    case 4ULL: goto L29;
    default: goto L27; }
L26:;
    if ((int8_t)nd_load_8(v72) > (int8_t)255) goto L62;
    goto L38;
L27:;
    if (!((int8_t)nd_load_8(v72) > (int8_t)255)) goto L38;
    if ((int8_t)nd_load_8(((unsigned char *)((uintptr_t)v48 + 2))) > (int8_t)255) goto L62;
    goto L38;
L29:;
    v133 = (unsigned char *)((uintptr_t)v48 + 3);
    if (!((int8_t)nd_load_8(v72) > (int8_t)255)) goto L38;
    if (!((int8_t)nd_load_8(((unsigned char *)((uintptr_t)v48 + 2))) > (int8_t)255)) goto L38;
    if ((int8_t)nd_load_8(v133) > (int8_t)255) goto L62;
    goto L38;
L32:;
    if (!(v73 > 16ULL)) goto L34;
    v142 = nd_ndef_lang_ascii_are_many(v72, v73);
    if (v142) goto L62;
    goto L38;
L34:;
    if (!(((((((uint32_t)nd_load_8(((unsigned char *)((uintptr_t)v48 + 2))) << 8) | (uint32_t)nd_load_8(v72)) | ((uint32_t)nd_load_8(((unsigned char *)((uintptr_t)v48 + 3))) << 16)) | ((uint32_t)nd_load_8(((unsigned char *)((uintptr_t)v48 + 4))) << 24)) & 2155905152U) == 0U)) goto L38;
    if (!(((((((uint32_t)nd_load_8(((unsigned char *)((uintptr_t)v48 + 6))) << 8) | (uint32_t)nd_load_8(((unsigned char *)((uintptr_t)v48 + 5)))) | ((uint32_t)nd_load_8(((unsigned char *)((uintptr_t)v48 + 7))) << 16)) | ((uint32_t)nd_load_8(((unsigned char *)((uintptr_t)v48 + 8))) << 24)) & 2155905152U) == 0U)) goto L38;
    v182 = (unsigned char *)((uintptr_t)v48 + (uintptr_t)v50);
    if (!(((((((uint32_t)nd_load_8(((unsigned char *)((uintptr_t)v182 - 7))) << 8) | (uint32_t)nd_load_8(((unsigned char *)((uintptr_t)v182 - 8)))) | ((uint32_t)nd_load_8(((unsigned char *)((uintptr_t)v182 - 6))) << 16)) | ((uint32_t)nd_load_8(((unsigned char *)((uintptr_t)v182 - 5))) << 24)) & 2155905152U) == 0U)) goto L38;
    if (((((((uint32_t)nd_load_8(((unsigned char *)((uintptr_t)v182 - 3))) << 8) | (uint32_t)nd_load_8(((unsigned char *)((uintptr_t)v182 - 4)))) | ((uint32_t)nd_load_8(((unsigned char *)((uintptr_t)v182 - 2))) << 16)) | ((uint32_t)nd_load_8(((unsigned char *)((uintptr_t)v182 - 1))) << 24)) & 2155905152U) == 0U) goto L62;
L38:;
    v223 = nd_ndef_lang_member_is_coded_text(v76, v81, v72, v73);
    if (v223) goto L66;
    goto L68;
L39:;
    if (v50 == 0ULL) goto L63;
    v225 = (unsigned char *)((uintptr_t)v48 + 1);
    v226 = v50 + 18446744073709551615ULL;
    if (!(uint8_t)((nd_load_8(v48) < 36) ? 1 : (v15 == 1))) goto L63;
    if (!(v50 < 65ULL)) goto L59;
    if (!(v50 < 9ULL)) goto L53;
    if (v50 < 5ULL) goto L46;
    if (!(((((((uint32_t)nd_load_8(((unsigned char *)((uintptr_t)v48 + 2))) << 8) | (uint32_t)nd_load_8(v225)) | ((uint32_t)nd_load_8(((unsigned char *)((uintptr_t)v48 + 3))) << 16)) | ((uint32_t)nd_load_8(((unsigned char *)((uintptr_t)v48 + 4))) << 24)) & 2155905152U) == 0U)) goto L59;
    v253 = (unsigned char *)((uintptr_t)v48 + (uintptr_t)v50);
    if (((((((uint32_t)nd_load_8(((unsigned char *)((uintptr_t)v253 - 3))) << 8) | (uint32_t)nd_load_8(((unsigned char *)((uintptr_t)v253 - 4)))) | ((uint32_t)nd_load_8(((unsigned char *)((uintptr_t)v253 - 2))) << 16)) | ((uint32_t)nd_load_8(((unsigned char *)((uintptr_t)v253 - 1))) << 24)) & 2155905152U) == 0U) goto L62;
    goto L59;
L46:;
    switch (v50) {
    case 1ULL: goto L62;
    case 2ULL: goto L47;
    case 4ULL: goto L50;
    default: goto L48; }
L47:;
    if ((int8_t)nd_load_8(v225) > (int8_t)255) goto L62;
    goto L59;
L48:;
    if (!((int8_t)nd_load_8(v225) > (int8_t)255)) goto L59;
    if ((int8_t)nd_load_8(((unsigned char *)((uintptr_t)v48 + 2))) > (int8_t)255) goto L62;
    goto L59;
L50:;
    v281 = (unsigned char *)((uintptr_t)v48 + 3);
    if (!((int8_t)nd_load_8(v225) > (int8_t)255)) goto L59;
    if (!((int8_t)nd_load_8(((unsigned char *)((uintptr_t)v48 + 2))) > (int8_t)255)) goto L59;
    if ((int8_t)nd_load_8(v281) > (int8_t)255) goto L62;
    goto L59;
L53:;
    if (!(v226 > 16ULL)) goto L55;
    v290 = nd_ndef_lang_ascii_are_many(v225, v226);
    if (v290) goto L62;
    goto L59;
L55:;
    if (!(((((((uint32_t)nd_load_8(((unsigned char *)((uintptr_t)v48 + 2))) << 8) | (uint32_t)nd_load_8(v225)) | ((uint32_t)nd_load_8(((unsigned char *)((uintptr_t)v48 + 3))) << 16)) | ((uint32_t)nd_load_8(((unsigned char *)((uintptr_t)v48 + 4))) << 24)) & 2155905152U) == 0U)) goto L59;
    if (!(((((((uint32_t)nd_load_8(((unsigned char *)((uintptr_t)v48 + 6))) << 8) | (uint32_t)nd_load_8(((unsigned char *)((uintptr_t)v48 + 5)))) | ((uint32_t)nd_load_8(((unsigned char *)((uintptr_t)v48 + 7))) << 16)) | ((uint32_t)nd_load_8(((unsigned char *)((uintptr_t)v48 + 8))) << 24)) & 2155905152U) == 0U)) goto L59;
    v330 = (unsigned char *)((uintptr_t)v48 + (uintptr_t)v50);
    if (!(((((((uint32_t)nd_load_8(((unsigned char *)((uintptr_t)v330 - 7))) << 8) | (uint32_t)nd_load_8(((unsigned char *)((uintptr_t)v330 - 8)))) | ((uint32_t)nd_load_8(((unsigned char *)((uintptr_t)v330 - 6))) << 16)) | ((uint32_t)nd_load_8(((unsigned char *)((uintptr_t)v330 - 5))) << 24)) & 2155905152U) == 0U)) goto L59;
    if (((((((uint32_t)nd_load_8(((unsigned char *)((uintptr_t)v330 - 3))) << 8) | (uint32_t)nd_load_8(((unsigned char *)((uintptr_t)v330 - 4)))) | ((uint32_t)nd_load_8(((unsigned char *)((uintptr_t)v330 - 2))) << 16)) | ((uint32_t)nd_load_8(((unsigned char *)((uintptr_t)v330 - 1))) << 24)) & 2155905152U) == 0U) goto L62;
L59:;
    v371 = nd_ndef_lang_member_is_long_utf8(v225, v226);
    if (v371) goto L66;
    goto L68;
L60:;
    nd_store_32(v5.b, 0U);
    nd_store_32((v5.b + 4), 1U);
    v373 = nd_ndef_lang_leaf_Leaf_is_completed_by(v5.b, v48, v50);
    if (v373) goto L66;
    goto L68;
L61:;
    nd_stop();
L62:;
    goto L66;
L63:;
    goto L67;
L64:;
    v375 = nd_ndef_nest_member_is_nested(v374, v11, v15, v48, v50);
    if (v375) goto L66;
    goto L68;
L65:;
    return;
L66:;
    v377 = nd_load_64((v7.b + 64));
    nd_store_64(v1, 0ULL);
    nd_store_ptr(((unsigned char *)((uintptr_t)v1 + 8)), v2);
    nd_store_64(((unsigned char *)((uintptr_t)v1 + 16)), (v3 - v377));
    nd_store_32(((unsigned char *)((uintptr_t)v1 + 24)), 1U);
    nd_store_8(((unsigned char *)((uintptr_t)v1 + 28)), v15);
    nd_memset(((unsigned char *)((uintptr_t)v1 + 29)), 0, 3);
    goto L65;
L67:;
L68:;
    nd_store_32(v19.b, v9);
    nd_store_32((v19.b + 4), v11);
    nd_store_32((v19.b + 8), v13);
    nd_store_8((v19.b + 12), v15);
    nd_memcpy((v19.b + 13), v17.b, 3);
    nd_ndef_message_judging_judge(v18.b, v19.b, v2, v3);
    v388 = nd_load_8(v18.b);
    v390 = v18.b + 8;
    v392 = nd_load_64((v18.b + 16));
    if (!(v388 == 0)) goto L70;
    v393 = nd_load_32(v390);
    nd_memset(v20.b, 0, 3);
    v395 = v2;
    v396 = v393;
    v397 = v15;
    goto L71;
L70:;
    v395 = nd_load_ptr(v390);
    v396 = 0U;
    v397 = 0;
L71:;
    nd_store_64(v1, (uint64_t)v388);
    nd_store_ptr(((unsigned char *)((uintptr_t)v1 + 8)), v395);
    nd_store_64(((unsigned char *)((uintptr_t)v1 + 16)), v392);
    nd_store_32(((unsigned char *)((uintptr_t)v1 + 24)), v396);
    nd_store_8(((unsigned char *)((uintptr_t)v1 + 28)), v397);
    nd_memcpy(((unsigned char *)((uintptr_t)v1 + 29)), v20.b, 3);
    goto L65;
}

static uint8_t nd_ndef_piece_whole_WholePiece_is_record_at(unsigned char *v1, unsigned char *v2) {
    uint8_t v6, v7;
    if (!((uint8_t)(nd_load_8(v1) & 32) == 0)) { v7 = 0; goto L2; }
    v6 = nd_ndef_piece_whole_WholePiece_opens_at(v1, v2);
    v7 = v6;
L2:;
    return v7;
}

static uint8_t nd_ndef_piece_whole_WholePiece_opens_at(unsigned char *v1, unsigned char *v2) {
    uint8_t v10;
    v10 = nd_ndef_piece_standing_opens(v2, nd_load_8(v1), nd_load_64(((unsigned char *)((uintptr_t)v1 + 16))), nd_load_64(((unsigned char *)((uintptr_t)v1 + 32))), nd_load_64(((unsigned char *)((uintptr_t)v1 + 48))));
    return v10;
}

static uint8_t nd_ndef_nest_member_is_nested(uint8_t v1, uint32_t v2, uint8_t v3, unsigned char *v4, uint64_t v5) {
    uint8_t v7, v8, v18;
    unsigned char *v10;
    uint64_t v11;
    if (v1 == 0) goto L2;
    goto L3;
L1:;
    return v7;
L2:;
    v8 = nd_ndef_nest_member_are_records(0, v2, v3, v4, v5);
    v7 = v8;
    goto L1;
L3:;
    if (v5 == 0ULL) { v7 = 0; goto L1; }
    v10 = (unsigned char *)((uintptr_t)v4 + 1);
    v11 = v5 + 18446744073709551615ULL;
    if (!((uint8_t)(nd_load_8(v4) & 240) == 16)) { v7 = 0; goto L1; }
    if ((v1 == 2) & (int)(v11 == 0ULL)) { v7 = 1; goto L1; }
    v18 = nd_ndef_nest_member_are_records(v1, v2, v3, v10, v11);
    v7 = v18;
    goto L1;
}

static uint8_t nd_ndef_nest_member_are_records(uint8_t v1, uint32_t v2, uint8_t v3, unsigned char *v4, uint64_t v5) {
    unsigned char *v14, *v15, *v16, *v17, *v18, *v19, *v20, *v21, *v22, *v23, *v24, *v25, *v26, *v27, *v29, *v30, *v33, *v48, *v51, *v84, *v113, *v162, *v204, *v231, *v259, *v308, *v372, *v400, *v449;
    uint8_t v28, v31, v32, v42, v43, v46, v47, v53, v60, v122, v268, v349, v409, v490, v492, v493, v494, v495, v502;
    uint64_t v34, v49, v52, v55, v205, v498;
    uint32_t v35, v491;
    ND_ROOM(12) v6, v9;
    ND_ROOM(72) v7;
    ND_ROOM(80) v8;
    v14 = v8.b + 8;
    v15 = v9.b + 1;
    v16 = v9.b + 2;
    v17 = v9.b + 3;
    v18 = v9.b + 4;
    v19 = v9.b + 5;
    v20 = v9.b + 8;
    v21 = v7.b + 8;
    v22 = v7.b + 16;
    v23 = v7.b + 40;
    v24 = v7.b + 48;
    v25 = v6.b + 8;
    v26 = v6.b + 4;
    v27 = v6.b + 9;
    v28 = v3 == 1;
    v29 = v7.b + 56;
    v30 = v7.b + 64;
    v31 = (uint8_t)(uint32_t)((770U >> ((uint32_t)(uint8_t)((uint32_t)v1 << 3) & 31)) & 16777215U);
    v32 = 1;
    v33 = v4;
    v34 = v5;
    v35 = v2;
    goto L2;
L1:;
    nd_stop();
L2:;
    if (v35 == 0U) { v502 = 0; goto L79; }
    nd_ndef_piece_whole_whole_piece(v8.b, v33, v34);
    if (!(nd_load_8(v8.b) == 1)) goto L77;
    nd_memcpy(v7.b, v14, 72);
    nd_store_8(v9.b, v3);
    nd_store_8(v15, (uint8_t)v32);
    nd_store_8(v16, 0);
    nd_store_8(v17, 1);
    nd_store_8(v18, (uint8_t)(v35 == 1U));
    nd_memset(v19, 0, 3);
    nd_store_32(v20, 4294967295U);
    v42 = nd_ndef_piece_whole_WholePiece_is_record_at(v14, v9.b);
    if (!v42) goto L77;
    v43 = nd_ndef_piece_whole_WholePiece_tnf(v7.b);
    v46 = nd_ndef_format_table_Table_kind(v1, v43, nd_load_ptr(v21), nd_load_64(v22));
    v47 = nd_ndef_nest_demand_Demand_allows(v31, v46);
    if (!v47) goto L77;
    v48 = nd_load_ptr(v23);
    v49 = nd_load_64(v24);
    nd_store_32(v25, 0U);
    switch (v46) {
    case 1: goto L7;
    case 2: goto L28;
    case 9: goto L49;
    case 0: goto L74;
    case 3: goto L74;
    case 4: goto L74;
    case 5: goto L74;
    case 6: goto L72;
    case 12: goto L71;
    case 7: { v491 = 1U; v492 = 0; goto L73; }
    case 8: goto L68;
    case 11: goto L69;
    case 10: goto L70;
    default: goto L1; }
L7:;
    if (v49 == 0ULL) goto L75;
    v51 = (unsigned char *)((uintptr_t)v48 + 1);
    v52 = v49 + 18446744073709551615ULL;
    v53 = nd_load_8(v48);
    v55 = (uint64_t)(uint8_t)(v53 & 63);
    if (((uint8_t)(v53 & 64) != 0) | (int)(v52 < v55)) goto L75;
    v60 = (int8_t)v53 < (int8_t)0;
    if ((v52 > 63ULL) | v60) goto L76;
    if (!(v49 < 9ULL)) goto L22;
    if (v49 < 5ULL) goto L14;
    if (!(((((((uint32_t)nd_load_8(((unsigned char *)((uintptr_t)v48 + 2))) << 8) | (uint32_t)nd_load_8(v51)) | ((uint32_t)nd_load_8(((unsigned char *)((uintptr_t)v48 + 3))) << 16)) | ((uint32_t)nd_load_8(((unsigned char *)((uintptr_t)v48 + 4))) << 24)) & 2155905152U) == 0U)) goto L76;
    v84 = (unsigned char *)((uintptr_t)v48 + (uintptr_t)v49);
    if (((((((uint32_t)nd_load_8(((unsigned char *)((uintptr_t)v84 - 3))) << 8) | (uint32_t)nd_load_8(((unsigned char *)((uintptr_t)v84 - 4)))) | ((uint32_t)nd_load_8(((unsigned char *)((uintptr_t)v84 - 2))) << 16)) | ((uint32_t)nd_load_8(((unsigned char *)((uintptr_t)v84 - 1))) << 24)) & 2155905152U) == 0U) goto L74;
    goto L76;
L14:;
    switch (v49) {
    case 1ULL: goto L74;
    case 2ULL: goto L15;
    default: goto L16; }
L15:;
    if ((int8_t)nd_load_8(v51) > (int8_t)255) goto L74;
    goto L76;
L16:;
    if (v52 == 3ULL) goto L19;
    if (!((int8_t)nd_load_8(v51) > (int8_t)255)) goto L76;
    if ((int8_t)nd_load_8(((unsigned char *)((uintptr_t)v48 + 2))) > (int8_t)255) goto L74;
    goto L76;
L19:;
    v113 = (unsigned char *)((uintptr_t)v48 + 3);
    if (!((int8_t)nd_load_8(v51) > (int8_t)255)) goto L76;
    if (!((int8_t)nd_load_8(((unsigned char *)((uintptr_t)v48 + 2))) > (int8_t)255)) goto L76;
    if ((int8_t)nd_load_8(v113) > (int8_t)255) goto L74;
    goto L76;
L22:;
    if (!(v52 > 16ULL)) goto L24;
    v122 = nd_ndef_lang_ascii_are_many(v51, v52);
    if (v122) goto L74;
    goto L76;
L24:;
    if (!(((((((uint32_t)nd_load_8(((unsigned char *)((uintptr_t)v48 + 2))) << 8) | (uint32_t)nd_load_8(v51)) | ((uint32_t)nd_load_8(((unsigned char *)((uintptr_t)v48 + 3))) << 16)) | ((uint32_t)nd_load_8(((unsigned char *)((uintptr_t)v48 + 4))) << 24)) & 2155905152U) == 0U)) goto L76;
    if (!(((((((uint32_t)nd_load_8(((unsigned char *)((uintptr_t)v48 + 6))) << 8) | (uint32_t)nd_load_8(((unsigned char *)((uintptr_t)v48 + 5)))) | ((uint32_t)nd_load_8(((unsigned char *)((uintptr_t)v48 + 7))) << 16)) | ((uint32_t)nd_load_8(((unsigned char *)((uintptr_t)v48 + 8))) << 24)) & 2155905152U) == 0U)) goto L76;
    v162 = (unsigned char *)((uintptr_t)v48 + (uintptr_t)v49);
    if (!(((((((uint32_t)nd_load_8(((unsigned char *)((uintptr_t)v162 - 7))) << 8) | (uint32_t)nd_load_8(((unsigned char *)((uintptr_t)v162 - 8)))) | ((uint32_t)nd_load_8(((unsigned char *)((uintptr_t)v162 - 6))) << 16)) | ((uint32_t)nd_load_8(((unsigned char *)((uintptr_t)v162 - 5))) << 24)) & 2155905152U) == 0U)) goto L76;
    if (((((((uint32_t)nd_load_8(((unsigned char *)((uintptr_t)v162 - 3))) << 8) | (uint32_t)nd_load_8(((unsigned char *)((uintptr_t)v162 - 4)))) | ((uint32_t)nd_load_8(((unsigned char *)((uintptr_t)v162 - 2))) << 16)) | ((uint32_t)nd_load_8(((unsigned char *)((uintptr_t)v162 - 1))) << 24)) & 2155905152U) == 0U) goto L74;
    goto L76;
L28:;
    if (v49 == 0ULL) goto L75;
    v204 = (unsigned char *)((uintptr_t)v48 + 1);
    v205 = v49 + 18446744073709551615ULL;
    if (!(v28 | (int)(nd_load_8(v48) < 36))) goto L75;
    if (!(v49 < 65ULL)) goto L48;
    if (!(v49 < 9ULL)) goto L42;
    if (v49 < 5ULL) goto L35;
    if (!(((((((uint32_t)nd_load_8(((unsigned char *)((uintptr_t)v48 + 2))) << 8) | (uint32_t)nd_load_8(v204)) | ((uint32_t)nd_load_8(((unsigned char *)((uintptr_t)v48 + 3))) << 16)) | ((uint32_t)nd_load_8(((unsigned char *)((uintptr_t)v48 + 4))) << 24)) & 2155905152U) == 0U)) goto L48;
    v231 = (unsigned char *)((uintptr_t)v48 + (uintptr_t)v49);
    if (((((((uint32_t)nd_load_8(((unsigned char *)((uintptr_t)v231 - 3))) << 8) | (uint32_t)nd_load_8(((unsigned char *)((uintptr_t)v231 - 4)))) | ((uint32_t)nd_load_8(((unsigned char *)((uintptr_t)v231 - 2))) << 16)) | ((uint32_t)nd_load_8(((unsigned char *)((uintptr_t)v231 - 1))) << 24)) & 2155905152U) == 0U) goto L74;
    goto L48;
L35:;
    switch (v49) {
    case 1ULL: goto L74;
    case 2ULL: goto L36;
    case 4ULL: goto L39;
    default: goto L37; }
L36:;
    if ((int8_t)nd_load_8(v204) > (int8_t)255) goto L74;
    goto L48;
L37:;
    if (!((int8_t)nd_load_8(v204) > (int8_t)255)) goto L48;
    if ((int8_t)nd_load_8(((unsigned char *)((uintptr_t)v48 + 2))) > (int8_t)255) goto L74;
    goto L48;
L39:;
    v259 = (unsigned char *)((uintptr_t)v48 + 3);
    if (!((int8_t)nd_load_8(v204) > (int8_t)255)) goto L48;
    if (!((int8_t)nd_load_8(((unsigned char *)((uintptr_t)v48 + 2))) > (int8_t)255)) goto L48;
    if ((int8_t)nd_load_8(v259) > (int8_t)255) goto L74;
    goto L48;
L42:;
    if (!(v205 > 16ULL)) goto L44;
    v268 = nd_ndef_lang_ascii_are_many(v204, v205);
    if (v268) goto L74;
    goto L48;
L44:;
    if (!(((((((uint32_t)nd_load_8(((unsigned char *)((uintptr_t)v48 + 2))) << 8) | (uint32_t)nd_load_8(v204)) | ((uint32_t)nd_load_8(((unsigned char *)((uintptr_t)v48 + 3))) << 16)) | ((uint32_t)nd_load_8(((unsigned char *)((uintptr_t)v48 + 4))) << 24)) & 2155905152U) == 0U)) goto L48;
    if (!(((((((uint32_t)nd_load_8(((unsigned char *)((uintptr_t)v48 + 6))) << 8) | (uint32_t)nd_load_8(((unsigned char *)((uintptr_t)v48 + 5)))) | ((uint32_t)nd_load_8(((unsigned char *)((uintptr_t)v48 + 7))) << 16)) | ((uint32_t)nd_load_8(((unsigned char *)((uintptr_t)v48 + 8))) << 24)) & 2155905152U) == 0U)) goto L48;
    v308 = (unsigned char *)((uintptr_t)v48 + (uintptr_t)v49);
    if (!(((((((uint32_t)nd_load_8(((unsigned char *)((uintptr_t)v308 - 7))) << 8) | (uint32_t)nd_load_8(((unsigned char *)((uintptr_t)v308 - 8)))) | ((uint32_t)nd_load_8(((unsigned char *)((uintptr_t)v308 - 6))) << 16)) | ((uint32_t)nd_load_8(((unsigned char *)((uintptr_t)v308 - 5))) << 24)) & 2155905152U) == 0U)) goto L48;
    if (((((((uint32_t)nd_load_8(((unsigned char *)((uintptr_t)v308 - 3))) << 8) | (uint32_t)nd_load_8(((unsigned char *)((uintptr_t)v308 - 4)))) | ((uint32_t)nd_load_8(((unsigned char *)((uintptr_t)v308 - 2))) << 16)) | ((uint32_t)nd_load_8(((unsigned char *)((uintptr_t)v308 - 1))) << 24)) & 2155905152U) == 0U) goto L74;
L48:;
    v349 = nd_ndef_lang_member_is_long_utf8(v204, v205);
    if (v349) goto L78;
    goto L77;
L49:;
    if (!(v49 < 64ULL)) goto L67;
    if (!(v49 < 8ULL)) goto L61;
    if (v49 < 4ULL) goto L54;
    if (!(((((((uint32_t)nd_load_8(((unsigned char *)((uintptr_t)v48 + 1))) << 8) | (uint32_t)nd_load_8(v48)) | ((uint32_t)nd_load_8(((unsigned char *)((uintptr_t)v48 + 2))) << 16)) | ((uint32_t)nd_load_8(((unsigned char *)((uintptr_t)v48 + 3))) << 24)) & 2155905152U) == 0U)) goto L67;
    v372 = (unsigned char *)((uintptr_t)v48 + (uintptr_t)v49);
    if (((((((uint32_t)nd_load_8(((unsigned char *)((uintptr_t)v372 - 3))) << 8) | (uint32_t)nd_load_8(((unsigned char *)((uintptr_t)v372 - 4)))) | ((uint32_t)nd_load_8(((unsigned char *)((uintptr_t)v372 - 2))) << 16)) | ((uint32_t)nd_load_8(((unsigned char *)((uintptr_t)v372 - 1))) << 24)) & 2155905152U) == 0U) goto L74;
    goto L67;
L54:;
    switch (v49) {
    case 0ULL: goto L74;
    case 1ULL: goto L55;
    case 3ULL: goto L58;
    default: goto L56; }
L55:;
    if ((int8_t)nd_load_8(v48) > (int8_t)255) goto L74;
    goto L67;
L56:;
    if (!((int8_t)nd_load_8(v48) > (int8_t)255)) goto L67;
    if ((int8_t)nd_load_8(((unsigned char *)((uintptr_t)v48 + 1))) > (int8_t)255) goto L74;
    goto L67;
L58:;
    v400 = (unsigned char *)((uintptr_t)v48 + 2);
    if (!((int8_t)nd_load_8(v48) > (int8_t)255)) goto L67;
    if (!((int8_t)nd_load_8(((unsigned char *)((uintptr_t)v48 + 1))) > (int8_t)255)) goto L67;
    if ((int8_t)nd_load_8(v400) > (int8_t)255) goto L74;
    goto L67;
L61:;
    if (!(v49 > 16ULL)) goto L63;
    v409 = nd_ndef_lang_ascii_are_many(v48, v49);
    if (v409) goto L74;
    goto L67;
L63:;
    if (!(((((((uint32_t)nd_load_8(((unsigned char *)((uintptr_t)v48 + 1))) << 8) | (uint32_t)nd_load_8(v48)) | ((uint32_t)nd_load_8(((unsigned char *)((uintptr_t)v48 + 2))) << 16)) | ((uint32_t)nd_load_8(((unsigned char *)((uintptr_t)v48 + 3))) << 24)) & 2155905152U) == 0U)) goto L67;
    if (!(((((((uint32_t)nd_load_8(((unsigned char *)((uintptr_t)v48 + 5))) << 8) | (uint32_t)nd_load_8(((unsigned char *)((uintptr_t)v48 + 4)))) | ((uint32_t)nd_load_8(((unsigned char *)((uintptr_t)v48 + 6))) << 16)) | ((uint32_t)nd_load_8(((unsigned char *)((uintptr_t)v48 + 7))) << 24)) & 2155905152U) == 0U)) goto L67;
    v449 = (unsigned char *)((uintptr_t)v48 + (uintptr_t)v49);
    if (!(((((((uint32_t)nd_load_8(((unsigned char *)((uintptr_t)v449 - 7))) << 8) | (uint32_t)nd_load_8(((unsigned char *)((uintptr_t)v449 - 8)))) | ((uint32_t)nd_load_8(((unsigned char *)((uintptr_t)v449 - 6))) << 16)) | ((uint32_t)nd_load_8(((unsigned char *)((uintptr_t)v449 - 5))) << 24)) & 2155905152U) == 0U)) goto L67;
    if (((((((uint32_t)nd_load_8(((unsigned char *)((uintptr_t)v449 - 3))) << 8) | (uint32_t)nd_load_8(((unsigned char *)((uintptr_t)v449 - 4)))) | ((uint32_t)nd_load_8(((unsigned char *)((uintptr_t)v449 - 2))) << 16)) | ((uint32_t)nd_load_8(((unsigned char *)((uintptr_t)v449 - 1))) << 24)) & 2155905152U) == 0U) goto L74;
L67:;
    v490 = nd_ndef_lang_member_is_long_utf8(v48, v49);
    if (v490) goto L78;
    goto L77;
L68:;
    v491 = 4U;
    v492 = 0;
    goto L73;
L69:;
    v491 = 2U;
    v492 = 0;
    goto L73;
L70:;
    v491 = 1U;
    v492 = 8;
    goto L73;
L71:;
    v491 = 0U;
    v492 = 6;
    goto L73;
L72:;
    v491 = 1U;
    v492 = 7;
L73:;
    nd_store_32(v6.b, 0U);
    nd_store_32(v26, v491);
    nd_store_8(v27, v492);
    v493 = nd_ndef_lang_leaf_Leaf_is_completed_by(v6.b, v48, v49);
    if (v493) goto L78;
    goto L77;
L74:;
    goto L78;
L75:;
    goto L77;
L76:;
    v494 = nd_ndef_lang_member_is_coded_text(v55, v60, v51, v52);
    if (v494) goto L78;
L77:;
    v502 = 0;
    goto L79;
L78:;
    v495 = nd_ndef_nest_demand_Demand_after(v31, v46);
    v498 = nd_load_64(v30);
    if ((uint8_t)(nd_load_8(v7.b) & 64) == 0) { v31 = v495; v32 = 0; v33 = nd_load_ptr(v29); v34 = v498; v35 = v35 + 4294967295U; goto L2; }
    goto L80;
L79:;
    return v502;
L80:;
    v502 = (uint8_t)((v495 < 2) ? (v498 == 0ULL) : 0);
    goto L79;
}

static uint8_t nd_ndef_format_table_Table_kind(uint8_t v1, uint8_t v2, unsigned char *v3, uint64_t v4) {
    uint8_t v7, v12, v19, v20, v21;
    if (!(v2 == 1)) { v20 = 0; goto L7; }
    switch (v4) {
    case 0ULL: { v20 = 0; goto L7; }
    case 1ULL: goto L2;
    default: goto L3; }
L2:;
    v7 = nd_ndef_format_kind_of_one(nd_load_8(v3));
    v20 = v7;
    goto L7;
L3:;
    if (!(v4 < 3ULL)) goto L5;
    v12 = nd_ndef_format_kind_of_two(nd_load_8(v3), nd_load_8(((unsigned char *)((uintptr_t)v3 + 1))));
    v20 = v12;
    goto L7;
L5:;
    if (!(v4 == 3ULL)) { v20 = 0; goto L7; }
    v19 = nd_ndef_format_kind_of_three(nd_load_8(v3), nd_load_8(((unsigned char *)((uintptr_t)v3 + 1))), nd_load_8(((unsigned char *)((uintptr_t)v3 + 2))));
    v20 = v19;
L7:;
    v21 = nd_ndef_format_table_Table_checked(v1, v20);
    return v21;
}

static void nd_ndef_message_judging_judge(unsigned char *v1, unsigned char *v2, unsigned char *v3, uint64_t v4) {
    uint32_t v6, v8, v10, v65, v69, v71;
    uint8_t v12, v18, v46;
    unsigned char *v13;
    struct nd_8_8 v30;
    uint64_t v33, v56, v57, v60, v73;
    ND_ROOM(12) v5;
    ND_ROOM(464) v14, v15;
    ND_ROOM(16) v16;
    ND_ROOM(24) v17;
    v6 = nd_load_32(v2);
    v8 = nd_load_32((v2 + 4));
    v10 = nd_load_32((v2 + 8));
    v12 = nd_load_8((v2 + 12));
    v13 = v2 + 13;
    nd_memset(v17.b, 0, 24);
    v18 = v4 == 0ULL;
    if (v18) goto L4;
    nd_store_8(v5.b, v12);
    nd_store_8((v5.b + 1), 1);
    nd_store_8((v5.b + 2), 0);
    nd_store_8((v5.b + 3), (uint8_t)(v10 == 1U));
    nd_store_8((v5.b + 4), (uint8_t)(v8 == 1U));
    nd_memset((v5.b + 5), 0, 3);
    nd_store_32((v5.b + 8), v6);
    v30 = nd_ndef_piece_conditions_first_reason(v5.b, nd_load_8(v3));
    if ((uint8_t)(v30.f0 & 1)) goto L3;
    goto L4;
L2:;
    nd_store_64(((unsigned char *)((uintptr_t)v1 + 16)), v33);
    return;
L3:;
    nd_store_64(v1, 1ULL);
    nd_store_32(((unsigned char *)((uintptr_t)v1 + 8)), 0U);
    nd_store_32(((unsigned char *)((uintptr_t)v1 + 12)), 0U);
    v33 = (uint64_t)v30.f1;
    goto L2;
L4:;
    nd_store_32(v16.b, v6);
    nd_store_32((v16.b + 4), v8);
    nd_store_32((v16.b + 8), v10);
    nd_store_8((v16.b + 12), v12);
    nd_memcpy((v16.b + 13), v13, 3);
    nd_ndef_message_checker_Checker_start(v15.b, v16.b);
    nd_memcpy(v14.b, v15.b, 464);
    if (v18) { v46 = 0; goto L6; }
    v46 = (uint8_t)(nd_load_8(v3) & 64) != 0;
L6:;
    nd_ndef_message_checker_Checker_feed_tried(v17.b, v14.b, v3, v4, v46);
    switch (nd_load_8(v17.b)) {
    case 0: goto L7;
    case 1: goto L13;
    case 2: goto L14;
    default: goto L15; }
L7:;
    switch (nd_load_8((v14.b + 176))) {
    case 4: goto L11;
    case 5: goto L8;
    case 0: goto L9;
    case 1: goto L9;
    case 2: goto L9;
    case 3: goto L9;
    default: goto L10; }
L8:;
    v56 = nd_load_64((v14.b + 184));
    v57 = nd_load_64((v14.b + 192));
    goto L12;
L9:;
    v56 = nd_load_64((v14.b + 456));
    v57 = 24ULL;
    goto L12;
L10:;
    nd_stop();
L11:;
    nd_stop();
L12:;
    nd_store_64(v1, 1ULL);
    nd_store_64(((unsigned char *)((uintptr_t)v1 + 8)), v56);
    v33 = v57;
    goto L2;
L13:;
    v60 = nd_load_64((v17.b + 8));
    v65 = nd_usub_sat_i32(nd_load_32((v14.b + 4)), nd_load_32((v14.b + 20)));
    nd_store_64(v1, 0ULL);
    nd_store_32(((unsigned char *)((uintptr_t)v1 + 8)), v65);
    nd_store_32(((unsigned char *)((uintptr_t)v1 + 12)), 0U);
    v33 = v60;
    goto L2;
L14:;
    v69 = nd_load_32((v17.b + 8));
    v71 = nd_load_32((v17.b + 12));
    v73 = nd_load_64((v17.b + 16));
    nd_store_64(v1, 1ULL);
    nd_store_32(((unsigned char *)((uintptr_t)v1 + 8)), v69);
    nd_store_32(((unsigned char *)((uintptr_t)v1 + 12)), v71);
    v33 = v73;
    goto L2;
L15:;
    nd_stop();
}

static struct nd_8_8 nd_ndef_piece_conditions_first_reason(unsigned char *v1, uint8_t v2) {
    struct nd_8_8 v3;
    v3 = nd_ndef_piece_conditions_header_reason(v1, v2);
    return v3;
}

static void nd_ndef_message_checker_Checker_feed_tried(unsigned char *v1, unsigned char *v2, unsigned char *v3, uint64_t v4, uint8_t v5) {
    unsigned char *v15, *v16, *v17, *v18, *v19, *v20, *v21, *v22, *v23, *v24, *v25, *v26, *v27, *v28, *v29, *v30, *v31, *v32, *v33, *v34, *v35, *v36, *v37, *v38, *v39, *v40, *v41, *v42, *v43, *v44, *v45, *v46, *v47, *v48, *v49, *v50, *v51, *v52, *v53, *v54, *v55, *v56, *v57, *v58, *v59, *v60, *v61, *v62, *v76, *v111, *v114, *v136, *v169, *v197, *v246, *v289, *v317, *v345, *v394;
    uint64_t v63, v71, v72, v73, v77, v93, v96, v99, v100, v112, v115, v137, v140, v290, v441, v450, v461, v468, v469, v485, v489, v491, v497, v498, v499;
    uint8_t v64, v66, v88, v94, v101, v104, v106, v108, v109, v110, v118, v123, v130, v131, v138, v145, v206, v287, v354, v435, v436, v437, v438, v445, v446, v449, v458, v470, v475, v490;
    uint16_t v89, v471;
    uint32_t v90, v91, v92, v113, v442, v443, v444, v452, v453, v462, v463, v464, v465, v466, v467, v472, v473, v474, v482;
    ND_ROOM(48) v6;
    ND_ROOM(12) v7, v8, v9, v13;
    ND_ROOM(72) v10;
    ND_ROOM(16) v11;
    ND_ROOM(80) v12;
    ND_ROOM(24) v14;
    v15 = (unsigned char *)((uintptr_t)v2 + 176);
    v16 = (unsigned char *)((uintptr_t)v2 + 16);
    v17 = (unsigned char *)((uintptr_t)v2 + 17);
    v18 = (unsigned char *)((uintptr_t)v2 + 56);
    v19 = (unsigned char *)((uintptr_t)v2 + 18);
    v20 = (unsigned char *)((uintptr_t)v2 + 20);
    v21 = (unsigned char *)((uintptr_t)v2 + 24);
    v22 = (unsigned char *)((uintptr_t)v2 + 28);
    v23 = v12.b + 8;
    v24 = v10.b + 56;
    v25 = v10.b + 64;
    v26 = (unsigned char *)((uintptr_t)v2 + 12);
    v27 = v13.b + 1;
    v28 = v13.b + 2;
    v29 = v13.b + 3;
    v30 = v13.b + 4;
    v31 = v13.b + 5;
    v32 = v13.b + 8;
    v33 = v10.b + 8;
    v34 = v10.b + 16;
    v35 = v10.b + 48;
    v36 = v11.b + 1;
    v37 = v11.b + 2;
    v38 = v11.b + 4;
    v39 = v11.b + 8;
    v40 = v11.b + 12;
    v41 = v14.b + 8;
    v42 = v14.b + 16;
    v43 = v9.b + 1;
    v44 = v9.b + 2;
    v45 = v9.b + 3;
    v46 = v9.b + 4;
    v47 = v9.b + 5;
    v48 = v9.b + 8;
    v49 = (unsigned char *)((uintptr_t)v2 + 4);
    v50 = v10.b + 40;
    v51 = v8.b + 8;
    v52 = v8.b + 4;
    v53 = (unsigned char *)((uintptr_t)v2 + 8);
    v54 = v7.b + 1;
    v55 = v7.b + 2;
    v56 = v7.b + 3;
    v57 = v7.b + 4;
    v58 = v7.b + 5;
    v59 = v7.b + 8;
    v60 = (unsigned char *)((uintptr_t)v2 + 32);
    v61 = (unsigned char *)((uintptr_t)v2 + 180);
    v62 = (unsigned char *)((uintptr_t)v2 + 456);
    v63 = 0ULL;
    v64 = v5;
L1:;
    v66 = nd_load_8(v15);
    if (!(v63 < v4)) goto L89;
    switch (v66) {
    case 4: { v71 = 1ULL; v72 = v63; v73 = 0ULL; goto L5; }
    case 5: goto L3;
    case 0: goto L6;
    case 1: goto L6;
    case 2: goto L6;
    case 3: goto L6;
    default: goto L4; }
L3:;
    v71 = 2ULL;
    v72 = nd_load_64(((unsigned char *)((uintptr_t)v2 + 184)));
    v73 = nd_load_64(((unsigned char *)((uintptr_t)v2 + 192)));
    goto L5;
L4:;
    nd_stop();
L5:;
    nd_store_64(v1, v71);
    nd_store_64(((unsigned char *)((uintptr_t)v1 + 8)), v72);
    nd_store_64(((unsigned char *)((uintptr_t)v1 + 16)), v73);
    return;
L6:;
    v76 = (unsigned char *)((uintptr_t)v3 + (uintptr_t)v63);
    v77 = v4 - v63;
    if (v64) goto L87;
    if ((uint8_t)(nd_load_8(v17) & 1)) goto L86;
    if (!(v66 == 0)) goto L87;
    if (!(nd_load_64(v18) == 0ULL)) goto L87;
    v88 = nd_load_8(v16);
    v89 = nd_load_16(v19);
    v90 = nd_load_32(v20);
    v91 = nd_load_32(v21);
    v92 = nd_load_32(v22);
    v93 = 0ULL;
L11:;
    v94 = v93 < v77;
    if (!v94) { v469 = v93; v470 = v88; v471 = v89; v472 = v90; v473 = v91; v474 = v92; v475 = v94; goto L82; }
    v96 = v77 - v93;
    nd_memset(v14.b, 0, 24);
    nd_ndef_piece_whole_whole_piece(v12.b, ((unsigned char *)((uintptr_t)v76 + (uintptr_t)v93)), v96);
    if (!(nd_load_8(v12.b) == 1)) goto L81;
    nd_memcpy(v10.b, v23, 72);
    v99 = nd_load_64(v25);
    v100 = v96 - v99;
    v101 = nd_load_8(v10.b);
    v104 = nd_load_8(v26);
    v106 = (uint8_t)(v91 == 1U);
    v108 = (uint8_t)(v90 == 1U);
    if (!((uint8_t)(v101 & 32) == 0)) goto L76;
    nd_store_8(v9.b, v104);
    nd_store_8(v43, v88);
    nd_store_8(v44, 0);
    nd_store_8(v45, v106);
    nd_store_8(v46, v108);
    nd_memset(v47, 0, 3);
    nd_store_32(v48, v92);
    v109 = nd_ndef_piece_whole_WholePiece_is_record_at(v10.b, v9.b);
    if (!v109) goto L81;
    v110 = nd_ndef_piece_whole_WholePiece_tnf(v10.b);
    v111 = nd_load_ptr(v33);
    v112 = nd_load_64(v34);
    v113 = nd_load_32(v49);
    v114 = nd_load_ptr(v50);
    v115 = nd_load_64(v35);
    if (!(v110 == 1)) goto L22;
    switch (v112) {
    case 0ULL: goto L22;
    case 1ULL: goto L17;
    default: goto L18; }
L17:;
    v118 = nd_ndef_format_kind_of_one(nd_load_8(v111));
    v131 = v118;
    goto L23;
L18:;
    if (!(v112 < 3ULL)) goto L20;
    v123 = nd_ndef_format_kind_of_two(nd_load_8(v111), nd_load_8(((unsigned char *)((uintptr_t)v111 + 1))));
    v131 = v123;
    goto L23;
L20:;
    if (!(v112 == 3ULL)) goto L22;
    v130 = nd_ndef_format_kind_of_three(nd_load_8(v111), nd_load_8(((unsigned char *)((uintptr_t)v111 + 1))), nd_load_8(((unsigned char *)((uintptr_t)v111 + 2))));
    v131 = v130;
    goto L23;
L22:;
    goto L72;
L23:;
    switch (v131) {
    case 3: { v437 = 0; goto L74; }
    case 4: goto L24;
    case 5: goto L25;
    case 0: goto L27;
    case 1: goto L27;
    case 2: goto L27;
    case 6: goto L27;
    case 7: goto L27;
    case 8: goto L27;
    case 9: goto L27;
    case 10: goto L27;
    case 11: goto L27;
    case 12: goto L27;
    default: goto L26; }
L24:;
    v437 = 1;
    goto L74;
L25:;
    v437 = 2;
    goto L74;
L26:;
    nd_stop();
L27:;
    nd_store_32(v51, 1792U);
    switch ((uint8_t)(((uint8_t)(v131 + 255) < 6) ? v131 : 0)) {
    case 1: goto L28;
    case 2: goto L49;
    case 6: goto L70;
    case 0: goto L72;
    case 3: goto L72;
    case 4: goto L72;
    case 5: goto L72;
    default: goto L71; }
L28:;
    if (v115 == 0ULL) goto L73;
    v136 = (unsigned char *)((uintptr_t)v114 + 1);
    v137 = v115 + 18446744073709551615ULL;
    v138 = nd_load_8(v114);
    v140 = (uint64_t)(uint8_t)(v138 & 63);
    if (((uint8_t)(v138 & 64) != 0) | (int)(v137 < v140)) goto L73;
    v145 = (int8_t)v138 < (int8_t)0;
    if ((v115 > 64ULL) | v145) goto L48;
    if (!(v115 < 9ULL)) goto L42;
    if (v115 < 5ULL) goto L35;
    if (!(((((((uint32_t)nd_load_8(((unsigned char *)((uintptr_t)v114 + 2))) << 8) | (uint32_t)nd_load_8(v136)) | ((uint32_t)nd_load_8(((unsigned char *)((uintptr_t)v114 + 3))) << 16)) | ((uint32_t)nd_load_8(((unsigned char *)((uintptr_t)v114 + 4))) << 24)) & 2155905152U) == 0U)) goto L48;
    v169 = (unsigned char *)((uintptr_t)v114 + (uintptr_t)v115);
    if (((((((uint32_t)nd_load_8(((unsigned char *)((uintptr_t)v169 - 3))) << 8) | (uint32_t)nd_load_8(((unsigned char *)((uintptr_t)v169 - 4)))) | ((uint32_t)nd_load_8(((unsigned char *)((uintptr_t)v169 - 2))) << 16)) | ((uint32_t)nd_load_8(((unsigned char *)((uintptr_t)v169 - 1))) << 24)) & 2155905152U) == 0U) goto L72;
    goto L48;
L35:;
    switch (v115) {
    case 1ULL: goto L72;
    case 2ULL: goto L36;
    case 4ULL: goto L39;
    default: goto L37; }
L36:;
    if ((int8_t)nd_load_8(v136) > (int8_t)255) goto L72;
    goto L48;
L37:;
    if (!((int8_t)nd_load_8(v136) > (int8_t)255)) goto L48;
    if ((int8_t)nd_load_8(((unsigned char *)((uintptr_t)v114 + 2))) > (int8_t)255) goto L72;
    goto L48;
L39:;
    v197 = (unsigned char *)((uintptr_t)v114 + 3);
    if (!((int8_t)nd_load_8(v136) > (int8_t)255)) goto L48;
    if (!((int8_t)nd_load_8(((unsigned char *)((uintptr_t)v114 + 2))) > (int8_t)255)) goto L48;
    if ((int8_t)nd_load_8(v197) > (int8_t)255) goto L72;
    goto L48;
L42:;
    if (!(v137 > 16ULL)) goto L44;
    v206 = nd_ndef_lang_ascii_are_many(v136, v137);
    if (v206) goto L72;
    goto L48;
L44:;
    if (!(((((((uint32_t)nd_load_8(((unsigned char *)((uintptr_t)v114 + 2))) << 8) | (uint32_t)nd_load_8(v136)) | ((uint32_t)nd_load_8(((unsigned char *)((uintptr_t)v114 + 3))) << 16)) | ((uint32_t)nd_load_8(((unsigned char *)((uintptr_t)v114 + 4))) << 24)) & 2155905152U) == 0U)) goto L48;
    if (!(((((((uint32_t)nd_load_8(((unsigned char *)((uintptr_t)v114 + 6))) << 8) | (uint32_t)nd_load_8(((unsigned char *)((uintptr_t)v114 + 5)))) | ((uint32_t)nd_load_8(((unsigned char *)((uintptr_t)v114 + 7))) << 16)) | ((uint32_t)nd_load_8(((unsigned char *)((uintptr_t)v114 + 8))) << 24)) & 2155905152U) == 0U)) goto L48;
    v246 = (unsigned char *)((uintptr_t)v114 + (uintptr_t)v115);
    if (!(((((((uint32_t)nd_load_8(((unsigned char *)((uintptr_t)v246 - 7))) << 8) | (uint32_t)nd_load_8(((unsigned char *)((uintptr_t)v246 - 8)))) | ((uint32_t)nd_load_8(((unsigned char *)((uintptr_t)v246 - 6))) << 16)) | ((uint32_t)nd_load_8(((unsigned char *)((uintptr_t)v246 - 5))) << 24)) & 2155905152U) == 0U)) goto L48;
    if (((((((uint32_t)nd_load_8(((unsigned char *)((uintptr_t)v246 - 3))) << 8) | (uint32_t)nd_load_8(((unsigned char *)((uintptr_t)v246 - 4)))) | ((uint32_t)nd_load_8(((unsigned char *)((uintptr_t)v246 - 2))) << 16)) | ((uint32_t)nd_load_8(((unsigned char *)((uintptr_t)v246 - 1))) << 24)) & 2155905152U) == 0U) goto L72;
L48:;
    v287 = nd_ndef_lang_member_is_coded_text(v140, v145, v136, v137);
    if (v287) goto L75;
    goto L81;
L49:;
    if (v115 == 0ULL) goto L73;
    v289 = (unsigned char *)((uintptr_t)v114 + 1);
    v290 = v115 + 18446744073709551615ULL;
    if (!((v104 == 1) | (int)(nd_load_8(v114) < 36))) goto L73;
    if (!(v115 < 65ULL)) goto L69;
    if (!(v115 < 9ULL)) goto L63;
    if (v115 < 5ULL) goto L56;
    if (!(((((((uint32_t)nd_load_8(((unsigned char *)((uintptr_t)v114 + 2))) << 8) | (uint32_t)nd_load_8(v289)) | ((uint32_t)nd_load_8(((unsigned char *)((uintptr_t)v114 + 3))) << 16)) | ((uint32_t)nd_load_8(((unsigned char *)((uintptr_t)v114 + 4))) << 24)) & 2155905152U) == 0U)) goto L69;
    v317 = (unsigned char *)((uintptr_t)v114 + (uintptr_t)v115);
    if (((((((uint32_t)nd_load_8(((unsigned char *)((uintptr_t)v317 - 3))) << 8) | (uint32_t)nd_load_8(((unsigned char *)((uintptr_t)v317 - 4)))) | ((uint32_t)nd_load_8(((unsigned char *)((uintptr_t)v317 - 2))) << 16)) | ((uint32_t)nd_load_8(((unsigned char *)((uintptr_t)v317 - 1))) << 24)) & 2155905152U) == 0U) goto L72;
    goto L69;
L56:;
    switch (v115) {
    case 1ULL: goto L72;
    case 2ULL: goto L57;
    case 4ULL: goto L60;
    default: goto L58; }
L57:;
    if ((int8_t)nd_load_8(v289) > (int8_t)255) goto L72;
    goto L69;
L58:;
    if (!((int8_t)nd_load_8(v289) > (int8_t)255)) goto L69;
    if ((int8_t)nd_load_8(((unsigned char *)((uintptr_t)v114 + 2))) > (int8_t)255) goto L72;
    goto L69;
L60:;
    v345 = (unsigned char *)((uintptr_t)v114 + 3);
    if (!((int8_t)nd_load_8(v289) > (int8_t)255)) goto L69;
    if (!((int8_t)nd_load_8(((unsigned char *)((uintptr_t)v114 + 2))) > (int8_t)255)) goto L69;
    if ((int8_t)nd_load_8(v345) > (int8_t)255) goto L72;
    goto L69;
L63:;
    if (!(v290 > 16ULL)) goto L65;
    v354 = nd_ndef_lang_ascii_are_many(v289, v290);
    if (v354) goto L72;
    goto L69;
L65:;
    if (!(((((((uint32_t)nd_load_8(((unsigned char *)((uintptr_t)v114 + 2))) << 8) | (uint32_t)nd_load_8(v289)) | ((uint32_t)nd_load_8(((unsigned char *)((uintptr_t)v114 + 3))) << 16)) | ((uint32_t)nd_load_8(((unsigned char *)((uintptr_t)v114 + 4))) << 24)) & 2155905152U) == 0U)) goto L69;
    if (!(((((((uint32_t)nd_load_8(((unsigned char *)((uintptr_t)v114 + 6))) << 8) | (uint32_t)nd_load_8(((unsigned char *)((uintptr_t)v114 + 5)))) | ((uint32_t)nd_load_8(((unsigned char *)((uintptr_t)v114 + 7))) << 16)) | ((uint32_t)nd_load_8(((unsigned char *)((uintptr_t)v114 + 8))) << 24)) & 2155905152U) == 0U)) goto L69;
    v394 = (unsigned char *)((uintptr_t)v114 + (uintptr_t)v115);
    if (!(((((((uint32_t)nd_load_8(((unsigned char *)((uintptr_t)v394 - 7))) << 8) | (uint32_t)nd_load_8(((unsigned char *)((uintptr_t)v394 - 8)))) | ((uint32_t)nd_load_8(((unsigned char *)((uintptr_t)v394 - 6))) << 16)) | ((uint32_t)nd_load_8(((unsigned char *)((uintptr_t)v394 - 5))) << 24)) & 2155905152U) == 0U)) goto L69;
    if (((((((uint32_t)nd_load_8(((unsigned char *)((uintptr_t)v394 - 3))) << 8) | (uint32_t)nd_load_8(((unsigned char *)((uintptr_t)v394 - 4)))) | ((uint32_t)nd_load_8(((unsigned char *)((uintptr_t)v394 - 2))) << 16)) | ((uint32_t)nd_load_8(((unsigned char *)((uintptr_t)v394 - 1))) << 24)) & 2155905152U) == 0U) goto L72;
L69:;
    v435 = nd_ndef_lang_member_is_long_utf8(v289, v290);
    if (v435) goto L75;
    goto L81;
L70:;
    nd_store_32(v8.b, 0U);
    nd_store_32(v52, 1U);
    v436 = nd_ndef_lang_leaf_Leaf_is_completed_by(v8.b, v114, v115);
    if (v436) goto L75;
    goto L81;
L71:;
    nd_stop();
L72:;
    goto L75;
L73:;
    goto L81;
L74:;
    v438 = nd_ndef_nest_member_is_nested(v437, v113, v104, v114, v115);
    if (!v438) goto L81;
L75:;
    v441 = v100 + v93;
    v442 = nd_usub_sat_i32(v90, 1U);
    v443 = nd_load_32(v53);
    v444 = nd_load_32(v2);
    if ((uint8_t)(v101 & 64) == 0) { v465 = v442; v466 = v443; v467 = v444; v468 = v441; goto L80; }
    v469 = v441;
    v470 = 0;
    v471 = 0;
    v472 = v442;
    v473 = v443;
    v474 = v444;
    v475 = v94;
    goto L82;
L76:;
    nd_store_8(v13.b, v104);
    nd_store_8(v27, v88);
    nd_store_8(v28, 0);
    nd_store_8(v29, v106);
    nd_store_8(v30, v108);
    nd_memset(v31, 0, 3);
    nd_store_32(v32, v92);
    v445 = nd_ndef_piece_whole_WholePiece_opens_at(v10.b, v13.b);
    if (!v445) goto L81;
    v446 = nd_ndef_piece_whole_WholePiece_tnf(v10.b);
    v449 = nd_ndef_nest_typed_TypedRecordLanguage_takes_all(v446, nd_load_ptr(v33), nd_load_64(v34));
    if (!v449) goto L81;
    v450 = nd_load_64(v35);
    v452 = nd_usub_sat_i32(v91, 1U);
    v453 = nd_usub_sat_i32(v92, (uint32_t)v450);
    nd_store_8(v11.b, 0);
    nd_store_8(v36, 1);
    nd_store_16(v37, 0);
    nd_store_32(v38, v90);
    nd_store_32(v39, v452);
    nd_store_32(v40, v453);
    nd_ndef_message_accepted_accepted_run(v14.b, v2, v11.b, nd_load_ptr(v24), v99);
    if (!(nd_load_8(v14.b) == 1)) goto L81;
    v458 = nd_load_8(v42);
    v461 = (v100 + v93) + nd_load_64(v41);
    v462 = nd_usub_sat_i32(v90, 1U);
    v463 = nd_load_32(v53);
    v464 = nd_load_32(v2);
    if ((uint8_t)(v458 & 1)) { v469 = v461; v470 = 0; v471 = 0; v472 = v462; v473 = v463; v474 = v464; v475 = v94; goto L82; }
    v465 = v462;
    v466 = v463;
    v467 = v464;
    v468 = v461;
L80:;
    v88 = 0;
    v89 = 0;
    v90 = v465;
    v91 = v466;
    v92 = v467;
    v93 = v468;
    goto L11;
L81:;
    v469 = v93;
    v470 = v88;
    v471 = v89;
    v472 = v90;
    v473 = v91;
    v474 = v92;
    v475 = 0;
L82:;
    if (v469 == 0ULL) goto L87;
    nd_store_8(v16, v470);
    nd_store_8(v17, 0);
    nd_store_16(v19, v471);
    nd_store_32(v20, v472);
    nd_store_32(v21, v473);
    nd_store_32(v22, v474);
    if (v475) { v482 = 4U; goto L85; }
    nd_store_8(v7.b, nd_load_8(v26));
    nd_store_8(v54, v470);
    nd_store_8(v55, 0);
    nd_store_8(v56, (uint8_t)(v473 == 1U));
    nd_store_8(v57, (uint8_t)(v472 == 1U));
    nd_memset(v58, 0, 3);
    nd_store_32(v59, v474);
    nd_ndef_piece_head_reader_HeadReader_new(v6.b, v7.b);
    nd_memcpy(v60, v6.b, 48);
    v482 = 0U;
L85:;
    nd_memset(v61, 0, 20);
    nd_store_32(v15, v482);
    nd_store_64(v62, (nd_load_64(v62) + v469));
    v490 = 1;
    v491 = v469;
    goto L88;
L86:;
    v485 = nd_ndef_message_state_State_take_chunks(v16, v2, v76, v77);
    nd_store_64(v62, (nd_load_64(v62) + v485));
    if (!(v485 == 0ULL)) { v490 = 1; v491 = v485; goto L88; }
L87:;
    v489 = nd_ndef_message_checker_Checker_step(v2, v76, v77);
    v490 = 0;
    v491 = v489;
L88:;
    v63 = v491 + v63;
    v64 = v490;
    goto L1;
L89:;
    switch (v66) {
    case 4: { v497 = 1ULL; v498 = v4; v499 = 0ULL; goto L92; }
    case 5: goto L90;
    case 0: { v71 = 0ULL; v72 = 0ULL; v73 = 0ULL; goto L5; }
    case 1: { v71 = 0ULL; v72 = 0ULL; v73 = 0ULL; goto L5; }
    case 2: { v71 = 0ULL; v72 = 0ULL; v73 = 0ULL; goto L5; }
    case 3: { v71 = 0ULL; v72 = 0ULL; v73 = 0ULL; goto L5; }
    default: goto L91; }
L90:;
    v497 = 2ULL;
    v498 = nd_load_64(((unsigned char *)((uintptr_t)v2 + 184)));
    v499 = nd_load_64(((unsigned char *)((uintptr_t)v2 + 192)));
    goto L92;
L91:;
    nd_stop();
L92:;
    v71 = v497;
    v72 = v498;
    v73 = v499;
    goto L5;
}

static uint64_t nd_ndef_message_state_State_take_chunks(unsigned char *v1, unsigned char *v2, unsigned char *v3, uint64_t v4) {
    unsigned char *v12;
    uint8_t v19, v33, v34;
    uint64_t v20, v21;
    uint32_t v24, v27, v29;
    uint16_t v31;
    ND_ROOM(48) v5;
    ND_ROOM(12) v6;
    ND_ROOM(24) v7;
    ND_ROOM(16) v8;
    nd_memset(v7.b, 0, 24);
    if (!(nd_load_8(((unsigned char *)((uintptr_t)v1 + 160))) == 0)) { v20 = 0ULL; goto L4; }
    v12 = (unsigned char *)((uintptr_t)v1 + 1);
    if (!(uint8_t)(nd_load_8(v12) & 1)) { v20 = 0ULL; goto L4; }
    if (!(nd_load_64(((unsigned char *)((uintptr_t)v1 + 40))) == 0ULL)) { v20 = 0ULL; goto L4; }
    v19 = nd_ndef_nest_typed_TypedRecordLanguage_is_open(((unsigned char *)((uintptr_t)v1 + 64)));
    if (v19) goto L5;
    v20 = 0ULL;
L4:;
    return v20;
L5:;
    nd_memcpy(v8.b, v1, 16);
    nd_ndef_message_accepted_accepted_chunks(v7.b, v2, v8.b, v3, v4);
    v21 = nd_load_64(v7.b);
    if (v21 == 0ULL) { v20 = 0ULL; goto L4; }
    v24 = nd_load_32((v7.b + 20));
    v27 = nd_load_32((v7.b + 16));
    v29 = nd_load_32((v7.b + 12));
    v31 = nd_load_16((v7.b + 10));
    v33 = nd_load_8((v7.b + 9));
    v34 = nd_load_8((v7.b + 8));
    nd_store_8(v1, v34);
    nd_store_8(v12, v33);
    nd_store_16((v1 + 2), v31);
    nd_store_32((v1 + 4), v29);
    nd_store_32((v1 + 8), v27);
    nd_store_32((v1 + 12), v24);
    nd_store_8(v6.b, nd_load_8(((unsigned char *)((uintptr_t)v2 + 12))));
    nd_store_8((v6.b + 1), v34);
    nd_store_8((v6.b + 2), v33);
    nd_store_8((v6.b + 3), (uint8_t)(v27 == 1U));
    nd_store_8((v6.b + 4), (uint8_t)(v29 == 1U));
    nd_memset((v6.b + 5), 0, 3);
    nd_store_32((v6.b + 8), v24);
    nd_ndef_piece_head_reader_HeadReader_new(v5.b, v6.b);
    nd_memcpy(((unsigned char *)((uintptr_t)v1 + 16)), v5.b, 48);
    v20 = v21;
    goto L4;
}

static uint8_t nd_ndef_nest_typed_TypedRecordLanguage_is_open(unsigned char *v1) {
    uint8_t v14;
    if (!(nd_load_8(v1) == 0)) { v14 = 0; goto L4; }
    if (!(nd_load_8(((unsigned char *)((uintptr_t)v1 + 4))) == 0)) goto L3;
    if ((uint8_t)((nd_load_32(((unsigned char *)((uintptr_t)v1 + 8))) == 0U) ? (nd_load_8(((unsigned char *)((uintptr_t)v1 + 13))) == 1) : 0)) { v14 = 1; goto L4; }
L3:;
    v14 = 0;
L4:;
    return v14;
}

static void nd_ndef_message_accepted_accepted_chunks(unsigned char *v1, unsigned char *v2, unsigned char *v3, unsigned char *v4, uint64_t v5) {
    uint8_t v9, v11, v23, v41, v58, v59, v60;
    uint16_t v13, v61;
    uint32_t v15, v17, v19, v42, v43, v48, v49, v62, v63;
    unsigned char *v20, *v21, *v24, *v25, *v26, *v27, *v28, *v29, *v30, *v31, *v32, *v45;
    uint64_t v44, v46, v64;
    ND_ROOM(72) v6;
    ND_ROOM(80) v7;
    ND_ROOM(12) v8;
    v9 = nd_load_8(v3);
    v11 = nd_load_8((v3 + 1));
    v13 = nd_load_16((v3 + 2));
    v15 = nd_load_32((v3 + 4));
    v17 = nd_load_32((v3 + 8));
    v19 = nd_load_32((v3 + 12));
    v20 = v7.b + 8;
    v21 = (unsigned char *)((uintptr_t)v2 + 12);
    v23 = (uint8_t)(v15 == 1U);
    v24 = v8.b + 1;
    v25 = v8.b + 2;
    v26 = v8.b + 3;
    v27 = v8.b + 4;
    v28 = v8.b + 5;
    v29 = v8.b + 8;
    v30 = v7.b + 56;
    v31 = v7.b + 64;
    v32 = v7.b + 72;
    nd_ndef_piece_whole_whole_piece(v7.b, v4, v5);
    if (!(nd_load_8(v7.b) == 1)) { v59 = v9; v60 = v11; v61 = v13; v62 = v17; v63 = v19; v64 = v5; goto L6; }
    nd_memcpy(v6.b, v20, 72);
    if ((uint8_t)(nd_load_8(v6.b) & 32) == 0) { v59 = v9; v60 = v11; v61 = v13; v62 = v17; v63 = v19; v64 = v5; goto L6; }
    nd_store_8(v8.b, nd_load_8(v21));
    nd_store_8(v24, v9);
    nd_store_8(v25, v11);
    nd_store_8(v26, (uint8_t)(v17 == 1U));
    nd_store_8(v27, v23);
    nd_memset(v28, 0, 3);
    nd_store_32(v29, v19);
    v41 = nd_ndef_piece_whole_WholePiece_goes_on_at(v6.b, v8.b);
    if (v41) { v42 = v17; v43 = v19; goto L3; }
    v59 = v9;
    v60 = v11;
    v61 = v13;
    v62 = v17;
    v63 = v19;
    v64 = v5;
    goto L6;
L3:;
    v44 = nd_load_64(v30);
    v45 = nd_load_ptr(v31);
    v46 = nd_load_64(v32);
    v48 = nd_usub_sat_i32(v42, 1U);
    v49 = nd_usub_sat_i32(v43, (uint32_t)v44);
    nd_ndef_piece_whole_whole_piece(v7.b, v45, v46);
    if (!(nd_load_8(v7.b) == 1)) { v59 = 0; v60 = 1; v61 = 0; v62 = v48; v63 = v49; v64 = v46; goto L6; }
    nd_memcpy(v6.b, v20, 72);
    if ((uint8_t)(nd_load_8(v6.b) & 32) == 0) { v59 = 0; v60 = 1; v61 = 0; v62 = v48; v63 = v49; v64 = v46; goto L6; }
    nd_store_8(v8.b, nd_load_8(v21));
    nd_store_8(v24, 0);
    nd_store_8(v25, 1);
    nd_store_8(v26, (uint8_t)(v48 == 1U));
    nd_store_8(v27, v23);
    nd_memset(v28, 0, 3);
    nd_store_32(v29, v49);
    v58 = nd_ndef_piece_whole_WholePiece_goes_on_at(v6.b, v8.b);
    if (v58) { v42 = v48; v43 = v49; goto L3; }
    v59 = 0;
    v60 = 1;
    v61 = 0;
    v62 = v48;
    v63 = v49;
    v64 = v46;
L6:;
    nd_store_64(v1, (v5 - v64));
    nd_store_8((v1 + 8), v59);
    nd_store_8((v1 + 9), v60);
    nd_store_16((v1 + 10), v61);
    nd_store_32((v1 + 12), v15);
    nd_store_32((v1 + 16), v62);
    nd_store_32((v1 + 20), v63);
    return;
}

static uint8_t nd_ndef_piece_whole_WholePiece_goes_on_at(unsigned char *v1, unsigned char *v2) {
    uint8_t v3, v14, v15;
    v3 = nd_load_8(v1);
    if (!((uint8_t)(v3 & 7) == 6)) { v15 = 0; goto L3; }
    if (!(((uint8_t)(v3 & 8) == 0) & (int)(nd_load_64(((unsigned char *)((uintptr_t)v1 + 16))) == 0ULL))) { v15 = 0; goto L3; }
    v14 = nd_ndef_piece_standing_suits(v2, v3, nd_load_64(((unsigned char *)((uintptr_t)v1 + 48))));
    v15 = v14;
L3:;
    return v15;
}

static uint8_t nd_ndef_nest_typed_TypedRecordLanguage_takes_all(uint8_t v1, unsigned char *v2, uint64_t v3) {
    uint8_t v6, v11, v18, v19, v28;
    if (!(v1 == 1)) { v28 = 1; goto L9; }
    switch (v3) {
    case 0ULL: { v28 = 1; goto L9; }
    case 1ULL: goto L2;
    default: goto L3; }
L2:;
    v6 = nd_ndef_format_kind_of_one(nd_load_8(v2));
    v19 = v6;
    goto L7;
L3:;
    if (!(v3 < 3ULL)) goto L5;
    v11 = nd_ndef_format_kind_of_two(nd_load_8(v2), nd_load_8(((unsigned char *)((uintptr_t)v2 + 1))));
    v19 = v11;
    goto L7;
L5:;
    if (!(v3 == 3ULL)) { v28 = 1; goto L9; }
    v18 = nd_ndef_format_kind_of_three(nd_load_8(v2), nd_load_8(((unsigned char *)((uintptr_t)v2 + 1))), nd_load_8(((unsigned char *)((uintptr_t)v2 + 2))));
    v19 = v18;
L7:;
    if ((uint8_t)(v19 + 253) < 3) { v28 = 0; goto L9; }
    v28 = (uint8_t)((uint8_t)((57 >> ((uint8_t)((uint8_t)(((uint8_t)(v19 + 255) < 6) ? v19 : 0) & 127) & 7)) & 127) & 1);
L9:;
    return v28;
}

static void nd_ndef_message_accepted_accepted_run(unsigned char *v1, unsigned char *v2, unsigned char *v3, unsigned char *v4, uint64_t v5) {
    uint8_t v6, v8, v18, v23, v33, v42, v59, v65, v69;
    uint32_t v12, v14, v20, v46, v47, v51, v52, v53, v77, v78;
    unsigned char *v21, *v24, *v25, *v26, *v27, *v28, *v29, *v37, *v48, *v49, *v50, *v55, *v61;
    uint64_t v35, v39, v54, v60, v62, v68;
    ND_ROOM(80) v15;
    ND_ROOM(12) v16;
    v6 = nd_load_8(v3);
    v8 = nd_load_8((v3 + 1));
    v12 = nd_load_32((v3 + 8));
    v14 = nd_load_32((v3 + 12));
    v18 = nd_load_8(((unsigned char *)((uintptr_t)v2 + 12)));
    v20 = nd_load_32(((unsigned char *)((uintptr_t)v2 + 8)));
    v21 = v15.b + 8;
    v23 = (uint8_t)(nd_load_32((v3 + 4)) == 1U);
    v24 = v16.b + 1;
    v25 = v16.b + 2;
    v26 = v16.b + 3;
    v27 = v16.b + 4;
    v28 = v16.b + 5;
    v29 = v16.b + 8;
    if (v20 == 0U) goto L14;
    nd_ndef_piece_whole_whole_piece(v15.b, v4, v5);
    if (!(nd_load_8(v15.b) == 1)) goto L9;
    v33 = nd_load_8(v21);
    v35 = nd_load_64((v15.b + 56));
    v37 = nd_load_ptr((v15.b + 64));
    v39 = nd_load_64((v15.b + 72));
    nd_store_8(v16.b, v18);
    nd_store_8(v24, v6);
    nd_store_8(v25, v8);
    nd_store_8(v26, (uint8_t)(v12 == 1U));
    nd_store_8(v27, v23);
    nd_memset(v28, 0, 3);
    nd_store_32(v29, v14);
    v42 = nd_ndef_piece_whole_WholePiece_goes_on_at(v21, v16.b);
    if (!v42) goto L10;
    if ((uint8_t)(v33 & 32) == 0) { v68 = v39; v69 = v33; goto L12; }
    v46 = nd_usub_sat_i32(v12, 1U);
    v47 = nd_usub_sat_i32(v14, (uint32_t)v35);
    v48 = v15.b + 56;
    v49 = v15.b + 64;
    v50 = v15.b + 72;
    v51 = v46;
    v52 = v47;
    v53 = 1U;
    v54 = v39;
    v55 = v37;
L5:;
    if (v53 == v20) goto L14;
    nd_ndef_piece_whole_whole_piece(v15.b, v55, v54);
    if (!(nd_load_8(v15.b) == 1)) goto L9;
    v59 = nd_load_8(v21);
    v60 = nd_load_64(v48);
    v61 = nd_load_ptr(v49);
    v62 = nd_load_64(v50);
    nd_store_8(v16.b, v18);
    nd_store_8(v24, 0);
    nd_store_8(v25, 1);
    nd_store_8(v26, (uint8_t)(v51 == 1U));
    nd_store_8(v27, v23);
    nd_memset(v28, 0, 3);
    nd_store_32(v29, v52);
    v65 = nd_ndef_piece_whole_WholePiece_goes_on_at(v21, v16.b);
    if (v65) goto L11;
    goto L10;
L8:;
    return;
L9:;
    nd_memset(v1, 0, 24);
    goto L8;
L10:;
    nd_memset(v1, 0, 24);
    goto L8;
L11:;
    if ((uint8_t)(v59 & 32) == 0) { v68 = v62; v69 = v59; goto L12; }
    goto L13;
L12:;
    nd_store_64(v1, 1ULL);
    nd_store_64(((unsigned char *)((uintptr_t)v1 + 8)), (v5 - v68));
    nd_store_8(((unsigned char *)((uintptr_t)v1 + 16)), (uint8_t)((uint8_t)(v69 >> 6) & 1));
    nd_memset(((unsigned char *)((uintptr_t)v1 + 17)), 0, 7);
    goto L8;
L13:;
    v77 = nd_usub_sat_i32(v51, 1U);
    v78 = nd_usub_sat_i32(v52, (uint32_t)v60);
    v51 = v77;
    v52 = v78;
    v53 = v53 + 1U;
    v54 = v62;
    v55 = v61;
    goto L5;
L14:;
    nd_memset(v1, 0, 24);
    goto L8;
}

static uint64_t nd_ndef_message_checker_Checker_step(unsigned char *v1, unsigned char *v2, uint64_t v3) {
    unsigned char *v14, *v16, *v17, *v19, *v26, *v75, *v87, *v88, *v92, *v142, *v149, *v160;
    uint64_t v15, v30, v38, v44, v60, v66, v68, v90, v91, v137, v151, v152, v159, v161, v173, v174;
    uint16_t v23, v143;
    uint8_t v25, v46, v50, v58, v70, v82, v89, v135, v145, v164;
    uint32_t v28, v41, v148, v150, v156;
    ND_ROOM(5) v4;
    ND_ROOM(12) v5, v6, v7, v12, v13;
    ND_ROOM(96) v8;
    ND_ROOM(48) v9;
    ND_ROOM(16) v10;
    ND_ROOM(32) v11;
    v14 = (unsigned char *)((uintptr_t)v1 + 456);
    v15 = nd_load_64(v14);
    v16 = (unsigned char *)((uintptr_t)v1 + 16);
    v17 = (unsigned char *)((uintptr_t)v1 + 176);
    switch (nd_load_8(v17)) {
    case 0: goto L1;
    case 1: goto L22;
    case 2: goto L26;
    case 3: goto L27;
    case 4: { v174 = 1ULL; goto L34; }
    case 5: { v174 = 1ULL; goto L34; }
    default: goto L33; }
L1:;
    v19 = (unsigned char *)((uintptr_t)v1 + 32);
    nd_ndef_piece_head_reader_HeadReader_whole_head(v11.b, v19, v2, v3);
    if (!(nd_load_8(v11.b) == 1)) goto L9;
    v23 = nd_load_16((v11.b + 8));
    v25 = nd_load_8((v11.b + 10));
    v26 = v11.b + 11;
    v28 = nd_load_32((v11.b + 16));
    v30 = nd_load_64((v11.b + 24));
    if ((uint8_t)(nd_load_8(((unsigned char *)((uintptr_t)v1 + 17))) & 1)) goto L4;
    nd_store_16(v12.b, v23);
    nd_store_8((v12.b + 2), v25);
    nd_memcpy((v12.b + 3), v26, 5);
    nd_store_32((v12.b + 8), v28);
    nd_ndef_message_state_State_begin_record(v16, v1, v12.b);
    goto L8;
L4:;
    v38 = (uint64_t)v28;
    if (!(uint8_t)(v25 & 1)) { v44 = v38; goto L6; }
    v41 = nd_usub_sat_i32(nd_load_32(((unsigned char *)((uintptr_t)v1 + 28))), v28);
    v44 = (uint64_t)v41 + v38;
L6:;
    v46 = nd_ndef_nest_typed_TypedRecordLanguage_fits(((unsigned char *)((uintptr_t)v1 + 80)), v38, v44);
    if (!v46) goto L9;
    nd_store_16(v13.b, v23);
    nd_store_8((v13.b + 2), v25);
    nd_memcpy((v13.b + 3), v26, 5);
    nd_store_32((v13.b + 8), v28);
    nd_ndef_message_state_State_advance_field(v16, v1, v13.b, 0, v28);
L8:;
    v174 = v30;
    goto L34;
L9:;
    v50 = nd_load_8(v2);
    nd_memset(v10.b, 0, 16);
    nd_ndef_piece_head_reader_HeadReader_step(v10.b, v19, v50);
    switch (nd_load_8(v10.b)) {
    case 0: goto L10;
    case 1: goto L16;
    case 2: goto L19;
    default: goto L20; }
L10:;
    nd_memset(v9.b, 0, 48);
    if ((uint8_t)(nd_load_8(((unsigned char *)((uintptr_t)v1 + 17))) & 1)) goto L12;
    goto L21;
L12:;
    nd_ndef_piece_head_reader_HeadReader_bounds(v9.b, v19);
    if (nd_load_8(v9.b) == 1) goto L14;
    goto L15;
L14:;
    v58 = nd_load_8((v9.b + 9));
    v60 = nd_load_64((v9.b + 32));
    v66 = (uint64_t)nd_load_32(((unsigned char *)((uintptr_t)v1 + 28)));
    v68 = nd_umin_i64(nd_load_64((v9.b + 40)), v66);
    v70 = nd_ndef_nest_typed_TypedRecordLanguage_fits(((unsigned char *)((uintptr_t)v1 + 80)), v60, ((uint8_t)(v58 & 1) ? v66 : v68));
    if (v70) goto L21;
L15:;
    nd_store_32(v17, 5U);
    nd_store_32(((unsigned char *)((uintptr_t)v1 + 180)), 0U);
    nd_store_64(((unsigned char *)((uintptr_t)v1 + 184)), v15);
    nd_store_8(((unsigned char *)((uintptr_t)v1 + 192)), 23);
    nd_memset(((unsigned char *)((uintptr_t)v1 + 193)), 0, 7);
    goto L21;
L16:;
    v75 = v10.b + 4;
    if (!(uint8_t)(nd_load_8(((unsigned char *)((uintptr_t)v1 + 17))) & 1)) goto L18;
    nd_ndef_message_state_State_start_body(v16, v1, v15, v75, 0, nd_load_32((v10.b + 12)));
    goto L21;
L18:;
    nd_ndef_message_state_State_begin_record(v16, v1, v75);
    goto L21;
L19:;
    v82 = nd_load_8((v10.b + 1));
    nd_store_32(v17, 5U);
    nd_store_32(((unsigned char *)((uintptr_t)v1 + 180)), 0U);
    nd_store_64(((unsigned char *)((uintptr_t)v1 + 184)), v15);
    nd_store_8(((unsigned char *)((uintptr_t)v1 + 192)), v82);
    nd_memset(((unsigned char *)((uintptr_t)v1 + 193)), 0, 7);
    goto L21;
L20:;
    nd_stop();
L21:;
    v174 = 1ULL;
    goto L34;
L22:;
    v87 = (unsigned char *)((uintptr_t)v1 + 180);
    v88 = (unsigned char *)((uintptr_t)v1 + 192);
    v89 = nd_load_8(v88);
    v90 = (uint64_t)v89;
    v91 = nd_umin_i64(v90, v3);
    nd_memcpy(v7.b, v87, 12);
    nd_memset(v8.b, 0, 96);
    v92 = (unsigned char *)((uintptr_t)v1 + 200);
    nd_ndef_lang_type_name_TypeName_push_all(v92, v2, v91);
    if (!(v3 < v90)) goto L24;
    nd_store_32(v17, 1U);
    nd_memcpy(v87, v7.b, 12);
    nd_store_8(v88, (uint8_t)(v89 - (uint8_t)v91));
    nd_memset(((unsigned char *)((uintptr_t)v1 + 193)), 0, 7);
    goto L25;
L24:;
    nd_ndef_nest_typed_TypedRecordLanguage_start(v8.b, nd_load_8((v7.b + 4)), v92, (uint64_t)nd_load_8(((unsigned char *)((uintptr_t)v1 + 455))), nd_load_32(((unsigned char *)((uintptr_t)v1 + 4))), nd_load_8(((unsigned char *)((uintptr_t)v1 + 12))));
    nd_store_32(((unsigned char *)((uintptr_t)v1 + 80)), (uint32_t)nd_load_8(v8.b));
    nd_store_8(((unsigned char *)((uintptr_t)v1 + 84)), nd_load_8((v8.b + 4)));
    nd_store_8(((unsigned char *)((uintptr_t)v1 + 85)), nd_load_8((v8.b + 5)));
    nd_store_8(((unsigned char *)((uintptr_t)v1 + 86)), nd_load_8((v8.b + 6)));
    nd_store_8(((unsigned char *)((uintptr_t)v1 + 87)), nd_load_8((v8.b + 7)));
    nd_memcpy(((unsigned char *)((uintptr_t)v1 + 88)), (v8.b + 8), 88);
    nd_ndef_message_state_State_start_body(v16, v1, ((v15 + 18446744073709551615ULL) + v91), v7.b, (uint8_t)((nd_load_8((v7.b + 6)) == 1) ? nd_load_8((v7.b + 7)) : 0), nd_load_32((v7.b + 8)));
L25:;
    v174 = v91;
    goto L34;
L26:;
    v135 = nd_load_8(((unsigned char *)((uintptr_t)v1 + 192)));
    v137 = nd_umin_i64((uint64_t)v135, v3);
    nd_memcpy(v6.b, ((unsigned char *)((uintptr_t)v1 + 180)), 12);
    nd_ndef_message_state_State_advance_field(v16, v1, v6.b, (uint8_t)(v135 - (uint8_t)v137), nd_load_32((v6.b + 8)));
    v174 = v137;
    goto L34;
L27:;
    v142 = (unsigned char *)((uintptr_t)v1 + 180);
    v143 = nd_load_16(v142);
    v145 = nd_load_8(((unsigned char *)((uintptr_t)v1 + 182)));
    v148 = nd_load_32(((unsigned char *)((uintptr_t)v1 + 188)));
    v149 = (unsigned char *)((uintptr_t)v1 + 192);
    v150 = nd_load_32(v149);
    v151 = (uint64_t)v150;
    v152 = nd_umin_i64(v151, v3);
    nd_memcpy(v4.b, ((unsigned char *)((uintptr_t)v1 + 183)), 5);
    if (!(uint8_t)(v145 & 1)) { v159 = v151; goto L29; }
    v156 = nd_usub_sat_i32(nd_load_32(((unsigned char *)((uintptr_t)v1 + 28))), v148);
    v159 = (uint64_t)v156 + v151;
L29:;
    v160 = (unsigned char *)((uintptr_t)v1 + 80);
    v161 = nd_ndef_nest_typed_TypedRecordLanguage_step_all(v160, v2, v152, v151, v159);
    if (!(v161 < v152)) goto L31;
    v164 = nd_ndef_nest_typed_TypedRecordLanguage_reason(v160);
    nd_store_32(v17, 5U);
    nd_store_32(v142, 0U);
    nd_store_64(((unsigned char *)((uintptr_t)v1 + 184)), (v161 + v15));
    nd_store_8(v149, v164);
    nd_memset(((unsigned char *)((uintptr_t)v1 + 193)), 0, 7);
    v173 = v161 + 1ULL;
    goto L32;
L31:;
    nd_store_16(v5.b, v143);
    nd_store_8((v5.b + 2), v145);
    nd_memcpy((v5.b + 3), v4.b, 5);
    nd_store_32((v5.b + 8), v148);
    nd_ndef_message_state_State_advance_field(v16, v1, v5.b, 0, (v150 - (uint32_t)v161));
    v173 = v161;
L32:;
    v174 = v173;
    goto L34;
L33:;
    nd_stop();
L34:;
    nd_store_64(v14, (v174 + v15));
    return v174;
}

static void nd_ndef_message_state_State_begin_record(unsigned char *v1, unsigned char *v2, unsigned char *v3) {
    uint8_t v6;
    ND_ROOM(12) v4;
    nd_memcpy(v4.b, v3, 12);
    v6 = nd_load_8((v4.b + 5));
    if (v6 == 0) goto L3;
    goto L2;
L1:;
    return;
L2:;
    nd_store_8(((unsigned char *)((uintptr_t)v1 + 439)), 0);
    nd_store_32(((unsigned char *)((uintptr_t)v1 + 160)), 1U);
    nd_memcpy(((unsigned char *)((uintptr_t)v1 + 164)), v4.b, 12);
    nd_store_8(((unsigned char *)((uintptr_t)v1 + 176)), v6);
    nd_memset(((unsigned char *)((uintptr_t)v1 + 177)), 0, 7);
    goto L1;
L3:;
    nd_memset(((unsigned char *)((uintptr_t)v1 + 64)), 0, 13);
    nd_store_8(((unsigned char *)((uintptr_t)v1 + 77)), 1);
    nd_memset(((unsigned char *)((uintptr_t)v1 + 78)), 0, 82);
    nd_ndef_message_state_State_advance_field(v1, v2, v4.b, (uint8_t)((nd_load_8((v4.b + 6)) == 1) ? nd_load_8((v4.b + 7)) : 0), nd_load_32((v4.b + 8)));
    goto L1;
}

static uint8_t nd_ndef_nest_typed_TypedRecordLanguage_fits(unsigned char *v1, uint64_t v2, uint64_t v3) {
    uint8_t v7, v9, v10;
    if (!(nd_load_8(v1) == 0)) goto L2;
    v7 = nd_ndef_lang_leaf_LeafLanguage_fits(((unsigned char *)((uintptr_t)v1 + 4)), v2, v3);
    v10 = v7;
    goto L3;
L2:;
    v9 = nd_ndef_nest_nest_NestLanguage_fits(((unsigned char *)((uintptr_t)v1 + 8)), v2, v3);
    v10 = v9;
L3:;
    return v10;
}

static void nd_ndef_message_state_State_advance_field(unsigned char *v1, unsigned char *v2, unsigned char *v3, uint8_t v4, uint32_t v5) {
    ND_ROOM(12) v6, v7, v8, v11;
    ND_ROOM(16) v9;
    ND_ROOM(48) v10;
    nd_memcpy(v6.b, v3, 12);
    if (v4 == 0) goto L3;
    goto L2;
L1:;
    return;
L2:;
    nd_memcpy(v7.b, v3, 12);
    nd_store_32(((unsigned char *)((uintptr_t)v1 + 160)), 2U);
    nd_memcpy(((unsigned char *)((uintptr_t)v1 + 164)), v7.b, 12);
    nd_store_8(((unsigned char *)((uintptr_t)v1 + 176)), v4);
    nd_memset(((unsigned char *)((uintptr_t)v1 + 177)), 0, 7);
    goto L1;
L3:;
    if (v5 == 0U) goto L5;
    nd_memcpy(v8.b, v3, 12);
    nd_store_32(((unsigned char *)((uintptr_t)v1 + 160)), 3U);
    nd_memcpy(((unsigned char *)((uintptr_t)v1 + 164)), v8.b, 12);
    nd_store_32(((unsigned char *)((uintptr_t)v1 + 176)), v5);
    nd_store_32(((unsigned char *)((uintptr_t)v1 + 180)), 0U);
    goto L1;
L5:;
    nd_ndef_message_phase_Place_after(v9.b, v1, v2, v6.b);
    nd_memcpy(v1, v9.b, 16);
    nd_ndef_message_phase_Place_spot(v11.b, v1, nd_load_8(((unsigned char *)((uintptr_t)v2 + 12))));
    nd_ndef_piece_head_reader_HeadReader_new(v10.b, v11.b);
    nd_memcpy(((unsigned char *)((uintptr_t)v1 + 16)), v10.b, 48);
    nd_store_32(((unsigned char *)((uintptr_t)v1 + 160)), ((uint8_t)(nd_load_8((v6.b + 2)) & 1) ? 0U : (uint32_t)(uint8_t)((uint32_t)nd_load_8((v6.b + 1)) << 2)));
    nd_memset(((unsigned char *)((uintptr_t)v1 + 164)), 0, 20);
    goto L1;
}

static void nd_ndef_message_phase_Place_after(unsigned char *v1, unsigned char *v2, unsigned char *v3, unsigned char *v4) {
    uint32_t v9, v11, v14, v17, v20, v25, v26, v27;
    uint8_t v24;
    if (!(uint8_t)(nd_load_8(((unsigned char *)((uintptr_t)v4 + 2))) & 1)) goto L2;
    v9 = nd_load_32(((unsigned char *)((uintptr_t)v4 + 8)));
    v11 = nd_load_32(((unsigned char *)((uintptr_t)v2 + 4)));
    v14 = nd_usub_sat_i32(nd_load_32(((unsigned char *)((uintptr_t)v2 + 8))), 1U);
    v17 = nd_usub_sat_i32(nd_load_32(((unsigned char *)((uintptr_t)v2 + 12))), v9);
    v24 = 1;
    v25 = v11;
    v26 = v14;
    v27 = v17;
    goto L3;
L2:;
    v20 = nd_usub_sat_i32(nd_load_32(((unsigned char *)((uintptr_t)v2 + 4))), 1U);
    v24 = 0;
    v25 = v20;
    v26 = nd_load_32(((unsigned char *)((uintptr_t)v3 + 8)));
    v27 = nd_load_32(v3);
L3:;
    nd_store_8(v1, 0);
    nd_store_8((v1 + 1), v24);
    nd_store_16((v1 + 2), 0);
    nd_store_32((v1 + 4), v25);
    nd_store_32((v1 + 8), v26);
    nd_store_32((v1 + 12), v27);
    return;
}

static void nd_ndef_message_state_State_start_body(unsigned char *v1, unsigned char *v2, uint64_t v3, unsigned char *v4, uint8_t v5, uint32_t v6) {
    uint16_t v7;
    uint8_t v9, v24;
    uint32_t v12, v20;
    unsigned char *v15;
    uint64_t v16, v23;
    ND_ROOM(5) v13;
    ND_ROOM(12) v14;
    v7 = nd_load_16(v4);
    v9 = nd_load_8((v4 + 2));
    v12 = nd_load_32((v4 + 8));
    nd_memcpy(v13.b, (v4 + 3), 5);
    v15 = (unsigned char *)((uintptr_t)v1 + 64);
    v16 = (uint64_t)v6;
    if (!(uint8_t)(v9 & 1)) { v23 = v16; goto L2; }
    v20 = nd_usub_sat_i32(nd_load_32(((unsigned char *)((uintptr_t)v1 + 12))), v12);
    v23 = (uint64_t)v20 + v16;
L2:;
    v24 = nd_ndef_nest_typed_TypedRecordLanguage_fits(v15, v16, v23);
    if (!v24) goto L4;
    nd_store_16(v14.b, v7);
    nd_store_8((v14.b + 2), v9);
    nd_memcpy((v14.b + 3), v13.b, 5);
    nd_store_32((v14.b + 8), v12);
    nd_ndef_message_state_State_advance_field(v1, v2, v14.b, v5, v6);
    goto L5;
L4:;
    nd_store_32(((unsigned char *)((uintptr_t)v1 + 160)), 5U);
    nd_store_32(((unsigned char *)((uintptr_t)v1 + 164)), 0U);
    nd_store_64(((unsigned char *)((uintptr_t)v1 + 168)), v3);
    nd_store_8(((unsigned char *)((uintptr_t)v1 + 176)), 23);
    nd_memset(((unsigned char *)((uintptr_t)v1 + 177)), 0, 7);
L5:;
    return;
}

static void nd_ndef_lang_type_name_TypeName_push_all(unsigned char *v1, unsigned char *v2, uint64_t v3) {
    unsigned char *v4;
    uint64_t v5;
    v4 = (unsigned char *)((uintptr_t)v1 + 255);
    v5 = 0ULL;
L1:;
    if (v5 == v3) goto L3;
    nd_store_8((v1 + (ptrdiff_t)(uint64_t)nd_load_8(v4)), nd_load_8(((unsigned char *)((uintptr_t)v2 + (uintptr_t)v5))));
    nd_store_8(v4, (uint8_t)(nd_load_8(v4) + 1));
    v5 = v5 + 1ULL;
    goto L1;
L3:;
    return;
}

static uint64_t nd_ndef_nest_typed_TypedRecordLanguage_step_all(unsigned char *v1, unsigned char *v2, uint64_t v3, uint64_t v4, uint64_t v5) {
    uint64_t v9, v11, v12;
    if (!(nd_load_8(v1) == 0)) goto L2;
    v9 = nd_ndef_lang_leaf_LeafLanguage_step_all(((unsigned char *)((uintptr_t)v1 + 4)), v2, v3, v4, v5);
    v12 = v9;
    goto L3;
L2:;
    v11 = nd_ndef_nest_nest_NestLanguage_step_all(((unsigned char *)((uintptr_t)v1 + 8)), v2, v3, v4, v5);
    v12 = v11;
L3:;
    return v12;
}

static uint8_t nd_ndef_nest_typed_TypedRecordLanguage_reason(unsigned char *v1) {
    uint8_t v5, v8;
    if (!(nd_load_8(v1) == 0)) goto L2;
    v5 = nd_ndef_lang_leaf_LeafLanguage_reason(((unsigned char *)((uintptr_t)v1 + 4)));
    v8 = v5;
    goto L3;
L2:;
    v8 = nd_load_8(((unsigned char *)((uintptr_t)v1 + 88)));
L3:;
    return v8;
}

static uint32_t nd_ndef_c_checking_check_in_2(unsigned char *v1, uint64_t v2, unsigned char *v3, unsigned char *v4) {
    uint32_t v11, v13, v15, v53, v60;
    uint8_t v17, v39;
    unsigned char *v49;
    uint64_t v51, v54;
    ND_ROOM(12) v5;
    ND_ROOM(72) v6;
    ND_ROOM(80) v7;
    ND_ROOM(3) v8;
    ND_ROOM(24) v9;
    ND_ROOM(16) v10;
    v11 = nd_load_32(v3);
    v13 = nd_load_32((v3 + 4));
    v15 = nd_load_32((v3 + 8));
    v17 = nd_load_8((v3 + 12));
    nd_memcpy(v8.b, (v3 + 13), 3);
    nd_memset(v9.b, 0, 24);
    if (v2 == 0ULL) goto L6;
    if ((uint8_t)(nd_load_8(v1) & 64) == 0) goto L6;
    nd_ndef_piece_whole_whole_piece(v7.b, v1, v2);
    if (!(nd_load_8(v7.b) == 1)) goto L6;
    nd_memcpy(v6.b, (v7.b + 8), 72);
    if ((uint8_t)(nd_load_8(v6.b) & 64) == 0) goto L6;
    nd_store_8(v5.b, v17);
    nd_store_8((v5.b + 1), 1);
    nd_store_8((v5.b + 2), 0);
    nd_store_8((v5.b + 3), (uint8_t)(v15 == 1U));
    nd_store_8((v5.b + 4), (uint8_t)(v13 == 1U));
    nd_memset((v5.b + 5), 0, 3);
    nd_store_32((v5.b + 8), v11);
    v39 = nd_ndef_piece_whole_WholePiece_is_record_at(v6.b, v5.b);
    if (!v39) goto L6;
    v53 = 1U;
    v54 = v2 - nd_load_64((v6.b + 64));
    goto L8;
L6:;
    nd_store_32(v10.b, v11);
    nd_store_32((v10.b + 4), v13);
    nd_store_32((v10.b + 8), v15);
    nd_store_8((v10.b + 12), v17);
    nd_memcpy((v10.b + 13), v8.b, 3);
    nd_ndef_message_judging_judge_2(v9.b, v10.b, v1, v2);
    v49 = v9.b + 8;
    v51 = nd_load_64((v9.b + 16));
    if (!(nd_load_8(v9.b) == 0)) goto L9;
    v53 = nd_load_32(v49);
    v54 = v51;
L8:;
    nd_store_64(v4, v54);
    nd_store_32((v4 + 8), v53);
    nd_store_32((v4 + 12), 0U);
    v60 = 0U;
    goto L10;
L9:;
    nd_ndef_c_refusal_refuse((uint64_t)(uintptr_t)nd_load_ptr(v49), (uint8_t)v51, v4);
    v60 = 1U;
L10:;
    return v60;
}

static void nd_ndef_message_judging_judge_2(unsigned char *v1, unsigned char *v2, unsigned char *v3, uint64_t v4) {
    uint32_t v6, v8, v10, v65, v69, v71;
    uint8_t v12, v18, v46;
    unsigned char *v13;
    struct nd_8_8 v30;
    uint64_t v33, v56, v57, v60, v73;
    ND_ROOM(12) v5;
    ND_ROOM(368) v14, v15;
    ND_ROOM(16) v16;
    ND_ROOM(24) v17;
    v6 = nd_load_32(v2);
    v8 = nd_load_32((v2 + 4));
    v10 = nd_load_32((v2 + 8));
    v12 = nd_load_8((v2 + 12));
    v13 = v2 + 13;
    nd_memset(v17.b, 0, 24);
    v18 = v4 == 0ULL;
    if (v18) goto L4;
    nd_store_8(v5.b, v12);
    nd_store_8((v5.b + 1), 1);
    nd_store_8((v5.b + 2), 0);
    nd_store_8((v5.b + 3), (uint8_t)(v10 == 1U));
    nd_store_8((v5.b + 4), (uint8_t)(v8 == 1U));
    nd_memset((v5.b + 5), 0, 3);
    nd_store_32((v5.b + 8), v6);
    v30 = nd_ndef_piece_conditions_first_reason(v5.b, nd_load_8(v3));
    if ((uint8_t)(v30.f0 & 1)) goto L3;
    goto L4;
L2:;
    nd_store_64(((unsigned char *)((uintptr_t)v1 + 16)), v33);
    return;
L3:;
    nd_store_64(v1, 1ULL);
    nd_store_32(((unsigned char *)((uintptr_t)v1 + 8)), 0U);
    nd_store_32(((unsigned char *)((uintptr_t)v1 + 12)), 0U);
    v33 = (uint64_t)v30.f1;
    goto L2;
L4:;
    nd_store_32(v16.b, v6);
    nd_store_32((v16.b + 4), v8);
    nd_store_32((v16.b + 8), v10);
    nd_store_8((v16.b + 12), v12);
    nd_memcpy((v16.b + 13), v13, 3);
    nd_ndef_message_checker_Checker_start_2(v15.b, v16.b);
    nd_memcpy(v14.b, v15.b, 368);
    if (v18) { v46 = 0; goto L6; }
    v46 = (uint8_t)(nd_load_8(v3) & 64) != 0;
L6:;
    nd_ndef_message_checker_Checker_feed_tried_2(v17.b, v14.b, v3, v4, v46);
    switch (nd_load_8(v17.b)) {
    case 0: goto L7;
    case 1: goto L13;
    case 2: goto L14;
    default: goto L15; }
L7:;
    switch (nd_load_8((v14.b + 80))) {
    case 4: goto L11;
    case 5: goto L8;
    case 0: goto L9;
    case 1: goto L9;
    case 2: goto L9;
    case 3: goto L9;
    default: goto L10; }
L8:;
    v56 = nd_load_64((v14.b + 88));
    v57 = nd_load_64((v14.b + 96));
    goto L12;
L9:;
    v56 = nd_load_64((v14.b + 360));
    v57 = 24ULL;
    goto L12;
L10:;
    nd_stop();
L11:;
    nd_stop();
L12:;
    nd_store_64(v1, 1ULL);
    nd_store_64(((unsigned char *)((uintptr_t)v1 + 8)), v56);
    v33 = v57;
    goto L2;
L13:;
    v60 = nd_load_64((v17.b + 8));
    v65 = nd_usub_sat_i32(nd_load_32((v14.b + 4)), nd_load_32((v14.b + 20)));
    nd_store_64(v1, 0ULL);
    nd_store_32(((unsigned char *)((uintptr_t)v1 + 8)), v65);
    nd_store_32(((unsigned char *)((uintptr_t)v1 + 12)), 0U);
    v33 = v60;
    goto L2;
L14:;
    v69 = nd_load_32((v17.b + 8));
    v71 = nd_load_32((v17.b + 12));
    v73 = nd_load_64((v17.b + 16));
    nd_store_64(v1, 1ULL);
    nd_store_32(((unsigned char *)((uintptr_t)v1 + 8)), v69);
    nd_store_32(((unsigned char *)((uintptr_t)v1 + 12)), v71);
    v33 = v73;
    goto L2;
L15:;
    nd_stop();
}

static void nd_ndef_message_checker_Checker_feed_tried_2(unsigned char *v1, unsigned char *v2, unsigned char *v3, uint64_t v4, uint8_t v5) {
    unsigned char *v14, *v15, *v16, *v17, *v18, *v19, *v20, *v21, *v22, *v23, *v24, *v25, *v26, *v27, *v28, *v29, *v30, *v31, *v32, *v33, *v34, *v35, *v36, *v37, *v38, *v39, *v40, *v41, *v42, *v43, *v44, *v45, *v46, *v47, *v48, *v49, *v50, *v51, *v52, *v53, *v54, *v55, *v69;
    uint64_t v56, v64, v65, v66, v70, v86, v89, v92, v93, v105, v110, v121, v128, v129, v145, v149, v151, v157, v158, v159;
    uint8_t v57, v59, v81, v87, v94, v97, v99, v101, v102, v109, v118, v130, v135, v150;
    uint16_t v82, v131;
    uint32_t v83, v84, v85, v106, v107, v108, v112, v113, v122, v123, v124, v125, v126, v127, v132, v133, v134, v142;
    ND_ROOM(48) v6;
    ND_ROOM(12) v7, v8, v12;
    ND_ROOM(72) v9;
    ND_ROOM(16) v10;
    ND_ROOM(80) v11;
    ND_ROOM(24) v13;
    v14 = (unsigned char *)((uintptr_t)v2 + 80);
    v15 = (unsigned char *)((uintptr_t)v2 + 16);
    v16 = (unsigned char *)((uintptr_t)v2 + 17);
    v17 = (unsigned char *)((uintptr_t)v2 + 56);
    v18 = (unsigned char *)((uintptr_t)v2 + 18);
    v19 = (unsigned char *)((uintptr_t)v2 + 20);
    v20 = (unsigned char *)((uintptr_t)v2 + 24);
    v21 = (unsigned char *)((uintptr_t)v2 + 28);
    v22 = v11.b + 8;
    v23 = v9.b + 56;
    v24 = v9.b + 64;
    v25 = (unsigned char *)((uintptr_t)v2 + 12);
    v26 = v12.b + 1;
    v27 = v12.b + 2;
    v28 = v12.b + 3;
    v29 = v12.b + 4;
    v30 = v12.b + 5;
    v31 = v12.b + 8;
    v32 = v9.b + 48;
    v33 = v10.b + 1;
    v34 = v10.b + 2;
    v35 = v10.b + 4;
    v36 = v10.b + 8;
    v37 = v10.b + 12;
    v38 = v13.b + 8;
    v39 = v13.b + 16;
    v40 = v8.b + 1;
    v41 = v8.b + 2;
    v42 = v8.b + 3;
    v43 = v8.b + 4;
    v44 = v8.b + 5;
    v45 = v8.b + 8;
    v46 = (unsigned char *)((uintptr_t)v2 + 8);
    v47 = v7.b + 1;
    v48 = v7.b + 2;
    v49 = v7.b + 3;
    v50 = v7.b + 4;
    v51 = v7.b + 5;
    v52 = v7.b + 8;
    v53 = (unsigned char *)((uintptr_t)v2 + 32);
    v54 = (unsigned char *)((uintptr_t)v2 + 84);
    v55 = (unsigned char *)((uintptr_t)v2 + 360);
    v56 = 0ULL;
    v57 = v5;
L1:;
    v59 = nd_load_8(v14);
    if (!(v56 < v4)) goto L28;
    switch (v59) {
    case 4: { v64 = 1ULL; v65 = v56; v66 = 0ULL; goto L5; }
    case 5: goto L3;
    case 0: goto L6;
    case 1: goto L6;
    case 2: goto L6;
    case 3: goto L6;
    default: goto L4; }
L3:;
    v64 = 2ULL;
    v65 = nd_load_64(((unsigned char *)((uintptr_t)v2 + 88)));
    v66 = nd_load_64(((unsigned char *)((uintptr_t)v2 + 96)));
    goto L5;
L4:;
    nd_stop();
L5:;
    nd_store_64(v1, v64);
    nd_store_64(((unsigned char *)((uintptr_t)v1 + 8)), v65);
    nd_store_64(((unsigned char *)((uintptr_t)v1 + 16)), v66);
    return;
L6:;
    v69 = (unsigned char *)((uintptr_t)v3 + (uintptr_t)v56);
    v70 = v4 - v56;
    if (v57) goto L26;
    if ((uint8_t)(nd_load_8(v16) & 1)) goto L25;
    if (!(v59 == 0)) goto L26;
    if (!(nd_load_64(v17) == 0ULL)) goto L26;
    v81 = nd_load_8(v15);
    v82 = nd_load_16(v18);
    v83 = nd_load_32(v19);
    v84 = nd_load_32(v20);
    v85 = nd_load_32(v21);
    v86 = 0ULL;
L11:;
    v87 = v86 < v70;
    if (!v87) { v129 = v86; v130 = v81; v131 = v82; v132 = v83; v133 = v84; v134 = v85; v135 = v87; goto L21; }
    v89 = v70 - v86;
    nd_memset(v13.b, 0, 24);
    nd_ndef_piece_whole_whole_piece(v11.b, ((unsigned char *)((uintptr_t)v69 + (uintptr_t)v86)), v89);
    if (!(nd_load_8(v11.b) == 1)) goto L20;
    nd_memcpy(v9.b, v22, 72);
    v92 = nd_load_64(v24);
    v93 = v89 - v92;
    v94 = nd_load_8(v9.b);
    v97 = nd_load_8(v25);
    v99 = (uint8_t)(v84 == 1U);
    v101 = (uint8_t)(v83 == 1U);
    if (!((uint8_t)(v94 & 32) == 0)) goto L16;
    nd_store_8(v8.b, v97);
    nd_store_8(v40, v81);
    nd_store_8(v41, 0);
    nd_store_8(v42, v99);
    nd_store_8(v43, v101);
    nd_memset(v44, 0, 3);
    nd_store_32(v45, v85);
    v102 = nd_ndef_piece_whole_WholePiece_is_record_at(v9.b, v8.b);
    if (!v102) goto L20;
    v105 = v93 + v86;
    v106 = nd_usub_sat_i32(v83, 1U);
    v107 = nd_load_32(v46);
    v108 = nd_load_32(v2);
    if ((uint8_t)(v94 & 64) == 0) { v125 = v106; v126 = v107; v127 = v108; v128 = v105; goto L19; }
    v129 = v105;
    v130 = 0;
    v131 = 0;
    v132 = v106;
    v133 = v107;
    v134 = v108;
    v135 = v87;
    goto L21;
L16:;
    nd_store_8(v12.b, v97);
    nd_store_8(v26, v81);
    nd_store_8(v27, 0);
    nd_store_8(v28, v99);
    nd_store_8(v29, v101);
    nd_memset(v30, 0, 3);
    nd_store_32(v31, v85);
    v109 = nd_ndef_piece_whole_WholePiece_opens_at(v9.b, v12.b);
    if (!v109) goto L20;
    v110 = nd_load_64(v32);
    v112 = nd_usub_sat_i32(v84, 1U);
    v113 = nd_usub_sat_i32(v85, (uint32_t)v110);
    nd_store_8(v10.b, 0);
    nd_store_8(v33, 1);
    nd_store_16(v34, 0);
    nd_store_32(v35, v83);
    nd_store_32(v36, v112);
    nd_store_32(v37, v113);
    nd_ndef_message_accepted_accepted_run(v13.b, v2, v10.b, nd_load_ptr(v23), v92);
    if (!(nd_load_8(v13.b) == 1)) goto L20;
    v118 = nd_load_8(v39);
    v121 = (v93 + v86) + nd_load_64(v38);
    v122 = nd_usub_sat_i32(v83, 1U);
    v123 = nd_load_32(v46);
    v124 = nd_load_32(v2);
    if ((uint8_t)(v118 & 1)) { v129 = v121; v130 = 0; v131 = 0; v132 = v122; v133 = v123; v134 = v124; v135 = v87; goto L21; }
    v125 = v122;
    v126 = v123;
    v127 = v124;
    v128 = v121;
L19:;
    v81 = 0;
    v82 = 0;
    v83 = v125;
    v84 = v126;
    v85 = v127;
    v86 = v128;
    goto L11;
L20:;
    v129 = v86;
    v130 = v81;
    v131 = v82;
    v132 = v83;
    v133 = v84;
    v134 = v85;
    v135 = 0;
L21:;
    if (v129 == 0ULL) goto L26;
    nd_store_8(v15, v130);
    nd_store_8(v16, 0);
    nd_store_16(v18, v131);
    nd_store_32(v19, v132);
    nd_store_32(v20, v133);
    nd_store_32(v21, v134);
    if (v135) { v142 = 4U; goto L24; }
    nd_store_8(v7.b, nd_load_8(v25));
    nd_store_8(v47, v130);
    nd_store_8(v48, 0);
    nd_store_8(v49, (uint8_t)(v133 == 1U));
    nd_store_8(v50, (uint8_t)(v132 == 1U));
    nd_memset(v51, 0, 3);
    nd_store_32(v52, v134);
    nd_ndef_piece_head_reader_HeadReader_new(v6.b, v7.b);
    nd_memcpy(v53, v6.b, 48);
    v142 = 0U;
L24:;
    nd_memset(v54, 0, 20);
    nd_store_32(v14, v142);
    nd_store_64(v55, (nd_load_64(v55) + v129));
    v150 = 1;
    v151 = v129;
    goto L27;
L25:;
    v145 = nd_ndef_message_state_State_take_chunks_2(v15, v2, v69, v70);
    nd_store_64(v55, (nd_load_64(v55) + v145));
    if (!(v145 == 0ULL)) { v150 = 1; v151 = v145; goto L27; }
L26:;
    v149 = nd_ndef_message_checker_Checker_step_2(v2, v69, v70);
    v150 = 0;
    v151 = v149;
L27:;
    v56 = v151 + v56;
    v57 = v150;
    goto L1;
L28:;
    switch (v59) {
    case 4: { v157 = 1ULL; v158 = v4; v159 = 0ULL; goto L31; }
    case 5: goto L29;
    case 0: { v64 = 0ULL; v65 = 0ULL; v66 = 0ULL; goto L5; }
    case 1: { v64 = 0ULL; v65 = 0ULL; v66 = 0ULL; goto L5; }
    case 2: { v64 = 0ULL; v65 = 0ULL; v66 = 0ULL; goto L5; }
    case 3: { v64 = 0ULL; v65 = 0ULL; v66 = 0ULL; goto L5; }
    default: goto L30; }
L29:;
    v157 = 2ULL;
    v158 = nd_load_64(((unsigned char *)((uintptr_t)v2 + 88)));
    v159 = nd_load_64(((unsigned char *)((uintptr_t)v2 + 96)));
    goto L31;
L30:;
    nd_stop();
L31:;
    v64 = v157;
    v65 = v158;
    v66 = v159;
    goto L5;
}

static uint64_t nd_ndef_message_state_State_take_chunks_2(unsigned char *v1, unsigned char *v2, unsigned char *v3, uint64_t v4) {
    unsigned char *v12;
    uint64_t v18, v19;
    uint32_t v22, v25, v27;
    uint16_t v29;
    uint8_t v31, v32;
    ND_ROOM(48) v5;
    ND_ROOM(12) v6;
    ND_ROOM(24) v7;
    ND_ROOM(16) v8;
    nd_memset(v7.b, 0, 24);
    if (!(nd_load_8(((unsigned char *)((uintptr_t)v1 + 64))) == 0)) { v18 = 0ULL; goto L3; }
    v12 = (unsigned char *)((uintptr_t)v1 + 1);
    if (!(uint8_t)(nd_load_8(v12) & 1)) { v18 = 0ULL; goto L3; }
    if (nd_load_64(((unsigned char *)((uintptr_t)v1 + 40))) == 0ULL) goto L4;
    v18 = 0ULL;
L3:;
    return v18;
L4:;
    nd_memcpy(v8.b, v1, 16);
    nd_ndef_message_accepted_accepted_chunks(v7.b, v2, v8.b, v3, v4);
    v19 = nd_load_64(v7.b);
    if (v19 == 0ULL) { v18 = 0ULL; goto L3; }
    v22 = nd_load_32((v7.b + 20));
    v25 = nd_load_32((v7.b + 16));
    v27 = nd_load_32((v7.b + 12));
    v29 = nd_load_16((v7.b + 10));
    v31 = nd_load_8((v7.b + 9));
    v32 = nd_load_8((v7.b + 8));
    nd_store_8(v1, v32);
    nd_store_8(v12, v31);
    nd_store_16((v1 + 2), v29);
    nd_store_32((v1 + 4), v27);
    nd_store_32((v1 + 8), v25);
    nd_store_32((v1 + 12), v22);
    nd_store_8(v6.b, nd_load_8(((unsigned char *)((uintptr_t)v2 + 12))));
    nd_store_8((v6.b + 1), v32);
    nd_store_8((v6.b + 2), v31);
    nd_store_8((v6.b + 3), (uint8_t)(v25 == 1U));
    nd_store_8((v6.b + 4), (uint8_t)(v27 == 1U));
    nd_memset((v6.b + 5), 0, 3);
    nd_store_32((v6.b + 8), v22);
    nd_ndef_piece_head_reader_HeadReader_new(v5.b, v6.b);
    nd_memcpy(((unsigned char *)((uintptr_t)v1 + 16)), v5.b, 48);
    v18 = v19;
    goto L3;
}

static uint64_t nd_ndef_message_checker_Checker_step_2(unsigned char *v1, unsigned char *v2, uint64_t v3) {
    unsigned char *v12, *v14, *v15, *v17, *v24, *v71, *v83, *v84;
    uint64_t v13, v28, v36, v42, v57, v62, v64, v86, v87, v107, v122, v128;
    uint16_t v21, v113;
    uint8_t v23, v43, v47, v55, v66, v78, v85, v105, v115;
    uint32_t v26, v39, v118, v120;
    ND_ROOM(12) v4, v5, v6, v10, v11;
    ND_ROOM(48) v7;
    ND_ROOM(16) v8;
    ND_ROOM(32) v9;
    v12 = (unsigned char *)((uintptr_t)v1 + 360);
    v13 = nd_load_64(v12);
    v14 = (unsigned char *)((uintptr_t)v1 + 16);
    v15 = (unsigned char *)((uintptr_t)v1 + 80);
    switch (nd_load_8(v15)) {
    case 0: goto L1;
    case 1: goto L22;
    case 2: goto L26;
    case 3: goto L27;
    case 4: { v128 = 1ULL; goto L29; }
    case 5: { v128 = 1ULL; goto L29; }
    default: goto L28; }
L1:;
    v17 = (unsigned char *)((uintptr_t)v1 + 32);
    nd_ndef_piece_head_reader_HeadReader_whole_head(v9.b, v17, v2, v3);
    if (!(nd_load_8(v9.b) == 1)) goto L9;
    v21 = nd_load_16((v9.b + 8));
    v23 = nd_load_8((v9.b + 10));
    v24 = v9.b + 11;
    v26 = nd_load_32((v9.b + 16));
    v28 = nd_load_64((v9.b + 24));
    if ((uint8_t)(nd_load_8(((unsigned char *)((uintptr_t)v1 + 17))) & 1)) goto L4;
    nd_store_16(v10.b, v21);
    nd_store_8((v10.b + 2), v23);
    nd_memcpy((v10.b + 3), v24, 5);
    nd_store_32((v10.b + 8), v26);
    nd_ndef_message_state_State_begin_record_2(v14, v1, v10.b);
    goto L8;
L4:;
    v36 = (uint64_t)v26;
    if (!(uint8_t)(v23 & 1)) { v42 = v36; goto L6; }
    v39 = nd_usub_sat_i32(nd_load_32(((unsigned char *)((uintptr_t)v1 + 28))), v26);
    v42 = (uint64_t)v39 + v36;
L6:;
    v43 = nd_ndef_lang_opaque_OpaqueRecordLanguage_fits(v36, v42);
    if (!v43) goto L9;
    nd_store_16(v11.b, v21);
    nd_store_8((v11.b + 2), v23);
    nd_memcpy((v11.b + 3), v24, 5);
    nd_store_32((v11.b + 8), v26);
    nd_ndef_message_state_State_advance_field_2(v14, v1, v11.b, 0, v26);
L8:;
    v128 = v28;
    goto L29;
L9:;
    v47 = nd_load_8(v2);
    nd_memset(v8.b, 0, 16);
    nd_ndef_piece_head_reader_HeadReader_step(v8.b, v17, v47);
    switch (nd_load_8(v8.b)) {
    case 0: goto L10;
    case 1: goto L16;
    case 2: goto L19;
    default: goto L20; }
L10:;
    nd_memset(v7.b, 0, 48);
    if ((uint8_t)(nd_load_8(((unsigned char *)((uintptr_t)v1 + 17))) & 1)) goto L12;
    goto L21;
L12:;
    nd_ndef_piece_head_reader_HeadReader_bounds(v7.b, v17);
    if (nd_load_8(v7.b) == 1) goto L14;
    goto L15;
L14:;
    v55 = nd_load_8((v7.b + 9));
    v57 = nd_load_64((v7.b + 32));
    v62 = (uint64_t)nd_load_32(((unsigned char *)((uintptr_t)v1 + 28)));
    v64 = nd_umin_i64(nd_load_64((v7.b + 40)), v62);
    v66 = nd_ndef_lang_opaque_OpaqueRecordLanguage_fits(v57, ((uint8_t)(v55 & 1) ? v62 : v64));
    if (v66) goto L21;
L15:;
    nd_store_32(v15, 5U);
    nd_store_32(((unsigned char *)((uintptr_t)v1 + 84)), 0U);
    nd_store_64(((unsigned char *)((uintptr_t)v1 + 88)), v13);
    nd_store_8(((unsigned char *)((uintptr_t)v1 + 96)), 23);
    nd_memset(((unsigned char *)((uintptr_t)v1 + 97)), 0, 7);
    goto L21;
L16:;
    v71 = v8.b + 4;
    if (!(uint8_t)(nd_load_8(((unsigned char *)((uintptr_t)v1 + 17))) & 1)) goto L18;
    nd_ndef_message_state_State_start_body_2(v14, v1, v13, v71, 0, nd_load_32((v8.b + 12)));
    goto L21;
L18:;
    nd_ndef_message_state_State_begin_record_2(v14, v1, v71);
    goto L21;
L19:;
    v78 = nd_load_8((v8.b + 1));
    nd_store_32(v15, 5U);
    nd_store_32(((unsigned char *)((uintptr_t)v1 + 84)), 0U);
    nd_store_64(((unsigned char *)((uintptr_t)v1 + 88)), v13);
    nd_store_8(((unsigned char *)((uintptr_t)v1 + 96)), v78);
    nd_memset(((unsigned char *)((uintptr_t)v1 + 97)), 0, 7);
    goto L21;
L20:;
    nd_stop();
L21:;
    v128 = 1ULL;
    goto L29;
L22:;
    v83 = (unsigned char *)((uintptr_t)v1 + 84);
    v84 = (unsigned char *)((uintptr_t)v1 + 96);
    v85 = nd_load_8(v84);
    v86 = (uint64_t)v85;
    v87 = nd_umin_i64(v86, v3);
    nd_memcpy(v6.b, v83, 12);
    nd_ndef_lang_type_name_TypeName_push_all(((unsigned char *)((uintptr_t)v1 + 104)), v2, v87);
    if (!(v3 < v86)) goto L24;
    nd_store_32(v15, 1U);
    nd_memcpy(v83, v6.b, 12);
    nd_store_8(v84, (uint8_t)(v85 - (uint8_t)v87));
    nd_memset(((unsigned char *)((uintptr_t)v1 + 97)), 0, 7);
    goto L25;
L24:;
    nd_ndef_message_state_State_start_body_2(v14, v1, ((v13 + 18446744073709551615ULL) + v87), v6.b, (uint8_t)((nd_load_8((v6.b + 6)) == 1) ? nd_load_8((v6.b + 7)) : 0), nd_load_32((v6.b + 8)));
L25:;
    v128 = v87;
    goto L29;
L26:;
    v105 = nd_load_8(((unsigned char *)((uintptr_t)v1 + 96)));
    v107 = nd_umin_i64((uint64_t)v105, v3);
    nd_memcpy(v5.b, ((unsigned char *)((uintptr_t)v1 + 84)), 12);
    nd_ndef_message_state_State_advance_field_2(v14, v1, v5.b, (uint8_t)(v105 - (uint8_t)v107), nd_load_32((v5.b + 8)));
    v128 = v107;
    goto L29;
L27:;
    v113 = nd_load_16(((unsigned char *)((uintptr_t)v1 + 84)));
    v115 = nd_load_8(((unsigned char *)((uintptr_t)v1 + 86)));
    v118 = nd_load_32(((unsigned char *)((uintptr_t)v1 + 92)));
    v120 = nd_load_32(((unsigned char *)((uintptr_t)v1 + 96)));
    v122 = nd_umin_i64((uint64_t)v120, v3);
    nd_memcpy((v4.b + 3), ((unsigned char *)((uintptr_t)v1 + 87)), 5);
    nd_store_16(v4.b, v113);
    nd_store_8((v4.b + 2), v115);
    nd_store_32((v4.b + 8), v118);
    nd_ndef_message_state_State_advance_field_2(v14, v1, v4.b, 0, (v120 - (uint32_t)v122));
    v128 = v122;
    goto L29;
L28:;
    nd_stop();
L29:;
    nd_store_64(v12, (v128 + v13));
    return v128;
}

static void nd_ndef_message_state_State_begin_record_2(unsigned char *v1, unsigned char *v2, unsigned char *v3) {
    uint8_t v6;
    ND_ROOM(12) v4;
    nd_memcpy(v4.b, v3, 12);
    v6 = nd_load_8((v4.b + 5));
    if (v6 == 0) goto L3;
    goto L2;
L1:;
    return;
L2:;
    nd_store_8(((unsigned char *)((uintptr_t)v1 + 343)), 0);
    nd_store_32(((unsigned char *)((uintptr_t)v1 + 64)), 1U);
    nd_memcpy(((unsigned char *)((uintptr_t)v1 + 68)), v4.b, 12);
    nd_store_8(((unsigned char *)((uintptr_t)v1 + 80)), v6);
    nd_memset(((unsigned char *)((uintptr_t)v1 + 81)), 0, 7);
    goto L1;
L3:;
    nd_ndef_message_state_State_advance_field_2(v1, v2, v4.b, (uint8_t)((nd_load_8((v4.b + 6)) == 1) ? nd_load_8((v4.b + 7)) : 0), nd_load_32((v4.b + 8)));
    goto L1;
}

static uint8_t nd_ndef_lang_opaque_OpaqueRecordLanguage_fits(uint64_t v1, uint64_t v2) {
    uint8_t v6;
    ND_ROOM(24) v3;
    nd_store_64((v3.b + 16), 0ULL);
    nd_store_64(v3.b, 2ULL);
    nd_store_64((v3.b + 8), 0ULL);
    v6 = nd_ndef_lang_lengths_Lengths_meet(v3.b, v1, v2);
    return v6;
}

static void nd_ndef_message_state_State_advance_field_2(unsigned char *v1, unsigned char *v2, unsigned char *v3, uint8_t v4, uint32_t v5) {
    ND_ROOM(12) v6, v7, v8, v11;
    ND_ROOM(16) v9;
    ND_ROOM(48) v10;
    nd_memcpy(v6.b, v3, 12);
    if (v4 == 0) goto L3;
    goto L2;
L1:;
    return;
L2:;
    nd_memcpy(v7.b, v3, 12);
    nd_store_32(((unsigned char *)((uintptr_t)v1 + 64)), 2U);
    nd_memcpy(((unsigned char *)((uintptr_t)v1 + 68)), v7.b, 12);
    nd_store_8(((unsigned char *)((uintptr_t)v1 + 80)), v4);
    nd_memset(((unsigned char *)((uintptr_t)v1 + 81)), 0, 7);
    goto L1;
L3:;
    if (v5 == 0U) goto L5;
    nd_memcpy(v8.b, v3, 12);
    nd_store_32(((unsigned char *)((uintptr_t)v1 + 64)), 3U);
    nd_memcpy(((unsigned char *)((uintptr_t)v1 + 68)), v8.b, 12);
    nd_store_32(((unsigned char *)((uintptr_t)v1 + 80)), v5);
    nd_store_32(((unsigned char *)((uintptr_t)v1 + 84)), 0U);
    goto L1;
L5:;
    nd_ndef_message_phase_Place_after(v9.b, v1, v2, v6.b);
    nd_memcpy(v1, v9.b, 16);
    nd_ndef_message_phase_Place_spot(v11.b, v1, nd_load_8(((unsigned char *)((uintptr_t)v2 + 12))));
    nd_ndef_piece_head_reader_HeadReader_new(v10.b, v11.b);
    nd_memcpy(((unsigned char *)((uintptr_t)v1 + 16)), v10.b, 48);
    nd_store_32(((unsigned char *)((uintptr_t)v1 + 64)), ((uint8_t)(nd_load_8((v6.b + 2)) & 1) ? 0U : (uint32_t)(uint8_t)((uint32_t)nd_load_8((v6.b + 1)) << 2)));
    nd_memset(((unsigned char *)((uintptr_t)v1 + 68)), 0, 20);
    goto L1;
}

static void nd_ndef_message_state_State_start_body_2(unsigned char *v1, unsigned char *v2, uint64_t v3, unsigned char *v4, uint8_t v5, uint32_t v6) {
    uint16_t v7;
    uint8_t v9, v23;
    unsigned char *v10, *v14;
    uint32_t v12, v19;
    uint64_t v15, v22;
    ND_ROOM(12) v13;
    v7 = nd_load_16(v4);
    v9 = nd_load_8((v4 + 2));
    v10 = v4 + 3;
    v12 = nd_load_32((v4 + 8));
    v14 = (unsigned char *)((uintptr_t)v1 + 64);
    v15 = (uint64_t)v6;
    if (!(uint8_t)(v9 & 1)) { v22 = v15; goto L2; }
    v19 = nd_usub_sat_i32(nd_load_32(((unsigned char *)((uintptr_t)v1 + 12))), v12);
    v22 = (uint64_t)v19 + v15;
L2:;
    v23 = nd_ndef_lang_opaque_OpaqueRecordLanguage_fits(v15, v22);
    if (!v23) goto L4;
    nd_store_16(v13.b, v7);
    nd_store_8((v13.b + 2), v9);
    nd_memcpy((v13.b + 3), v10, 5);
    nd_store_32((v13.b + 8), v12);
    nd_ndef_message_state_State_advance_field_2(v1, v2, v13.b, v5, v6);
    goto L5;
L4:;
    nd_store_32(v14, 5U);
    nd_store_32(((unsigned char *)((uintptr_t)v1 + 68)), 0U);
    nd_store_64(((unsigned char *)((uintptr_t)v1 + 72)), v3);
    nd_store_8(((unsigned char *)((uintptr_t)v1 + 80)), 23);
    nd_memset(((unsigned char *)((uintptr_t)v1 + 81)), 0, 7);
L5:;
    return;
}

static void nd_ndef_diagnostics_few_small_message(unsigned char *v1, unsigned char *v2, uint64_t v3) {
    uint8_t v24, v43;
    uint32_t v38, v42;
    uint64_t v39, v41, v44;
    unsigned char *v40;
    ND_ROOM(12) v4;
    ND_ROOM(72) v5;
    ND_ROOM(80) v6;
    ND_ROOM(24) v7;
    ND_ROOM(16) v8;
    ND_ROOM(3) v9, v10;
    nd_memset(v9.b, 0, 3);
    nd_memset(v10.b, 0, 3);
    nd_memset(v7.b, 0, 24);
    if (v3 == 0ULL) goto L6;
    if ((uint8_t)(nd_load_8(v2) & 64) == 0) goto L6;
    nd_ndef_piece_whole_whole_piece(v6.b, v2, v3);
    if (!(nd_load_8(v6.b) == 1)) goto L6;
    nd_memcpy(v5.b, (v6.b + 8), 72);
    if ((uint8_t)(nd_load_8(v5.b) & 64) == 0) goto L6;
    nd_store_8(v4.b, 1);
    nd_store_8((v4.b + 1), 1);
    nd_memset((v4.b + 2), 0, 6);
    nd_store_32((v4.b + 8), 4294967295U);
    v24 = nd_ndef_piece_whole_WholePiece_is_record_at(v5.b, v4.b);
    if (!v24) goto L6;
    v38 = 1U;
    v39 = v3 - nd_load_64((v5.b + 64));
    goto L9;
L6:;
    nd_store_32(v8.b, 4294967295U);
    nd_store_32((v8.b + 4), 64U);
    nd_store_32((v8.b + 8), 65535U);
    nd_store_8((v8.b + 12), 1);
    nd_memset((v8.b + 13), 0, 3);
    nd_ndef_message_judging_judge_3(v7.b, v8.b, v2, v3);
    if (!(nd_load_8(v7.b) == 0)) goto L8;
    v38 = nd_load_32((v7.b + 8));
    v39 = nd_load_64((v7.b + 16));
    goto L9;
L8:;
    v40 = (unsigned char *)0;
    v41 = 0ULL;
    v42 = 0U;
    v43 = 0;
    v44 = 0ULL;
    goto L10;
L9:;
    nd_memset(v9.b, 0, 3);
    nd_memcpy(v10.b, v9.b, 3);
    v40 = v2;
    v41 = v39;
    v42 = v38;
    v43 = 1;
    v44 = 1ULL;
L10:;
    nd_store_64(v1, v44);
    nd_store_ptr(((unsigned char *)((uintptr_t)v1 + 8)), v40);
    nd_store_64(((unsigned char *)((uintptr_t)v1 + 16)), v41);
    nd_store_32(((unsigned char *)((uintptr_t)v1 + 24)), v42);
    nd_store_8(((unsigned char *)((uintptr_t)v1 + 28)), v43);
    nd_memcpy(((unsigned char *)((uintptr_t)v1 + 29)), v10.b, 3);
    return;
}

static void nd_ndef_message_judging_judge_3(unsigned char *v1, unsigned char *v2, unsigned char *v3, uint64_t v4) {
    uint32_t v14, v16, v18, v122, v123, v124, v145, v146, v147, v151, v152, v161, v162, v163, v164, v165, v166, v171, v172, v173, v181, v197;
    uint8_t v20, v24, v70, v104, v106, v120, v126, v133, v136, v138, v140, v141, v148, v157, v169, v174, v189;
    unsigned char *v21, *v55, *v56, *v57, *v59, *v60, *v61, *v62, *v63, *v64, *v65, *v66, *v71, *v72, *v73, *v74, *v75, *v76, *v77, *v78, *v79, *v80, *v81, *v82, *v83, *v84, *v85, *v86, *v87, *v88, *v89, *v90, *v91, *v92, *v93, *v94, *v95, *v96, *v97, *v98, *v99, *v100, *v101, *v102, *v107;
    struct nd_8_8 v36;
    uint64_t v39, v103, v108, v125, v128, v131, v132, v144, v149, v160, v167, v168, v184, v188, v190, v192, v194, v201, v203;
    uint16_t v121, v170;
    ND_ROOM(12) v5, v6, v10, v12, v13;
    ND_ROOM(72) v7;
    ND_ROOM(16) v8;
    ND_ROOM(80) v9;
    ND_ROOM(24) v11;
    ND_ROOM(368) v22;
    ND_ROOM(48) v23;
    v14 = nd_load_32(v2);
    v16 = nd_load_32((v2 + 4));
    v18 = nd_load_32((v2 + 8));
    v20 = nd_load_8((v2 + 12));
    v21 = v2 + 13;
    v24 = v4 == 0ULL;
    if (v24) goto L4;
    nd_store_8(v13.b, v20);
    nd_store_8((v13.b + 1), 1);
    nd_store_8((v13.b + 2), 0);
    nd_store_8((v13.b + 3), (uint8_t)(v18 == 1U));
    nd_store_8((v13.b + 4), (uint8_t)(v16 == 1U));
    nd_memset((v13.b + 5), 0, 3);
    nd_store_32((v13.b + 8), v14);
    v36 = nd_ndef_piece_conditions_first_reason(v13.b, nd_load_8(v3));
    if ((uint8_t)(v36.f0 & 1)) goto L3;
    goto L4;
L2:;
    nd_store_64(((unsigned char *)((uintptr_t)v1 + 16)), v39);
    return;
L3:;
    nd_store_64(v1, 1ULL);
    nd_store_32(((unsigned char *)((uintptr_t)v1 + 8)), 0U);
    nd_store_32(((unsigned char *)((uintptr_t)v1 + 12)), 0U);
    v39 = (uint64_t)v36.f1;
    goto L2;
L4:;
    nd_store_8(v12.b, v20);
    nd_store_8((v12.b + 1), 1);
    nd_store_8((v12.b + 2), 0);
    nd_store_8((v12.b + 3), (uint8_t)(v18 == 1U));
    nd_store_8((v12.b + 4), (uint8_t)(v16 == 1U));
    nd_memset((v12.b + 5), 0, 3);
    nd_store_32((v12.b + 8), v14);
    nd_ndef_piece_head_reader_HeadReader_new(v23.b, v12.b);
    nd_store_32(v22.b, v14);
    v55 = v22.b + 4;
    nd_store_32(v55, v16);
    v56 = v22.b + 8;
    nd_store_32(v56, v18);
    v57 = v22.b + 12;
    nd_store_8(v57, v20);
    nd_memcpy((v22.b + 13), v21, 3);
    v59 = v22.b + 16;
    nd_store_8(v59, 1);
    v60 = v22.b + 17;
    nd_store_8(v60, 0);
    v61 = v22.b + 18;
    nd_store_16(v61, 0);
    v62 = v22.b + 20;
    nd_store_32(v62, v16);
    v63 = v22.b + 24;
    nd_store_32(v63, v18);
    v64 = v22.b + 28;
    nd_store_32(v64, v14);
    v65 = v22.b + 32;
    nd_memcpy(v65, v23.b, 48);
    v66 = v22.b + 80;
    nd_memset(v66, 0, 288);
    if (v24) { v70 = 0; goto L6; }
    v70 = (uint8_t)(nd_load_8(v3) & 64) != 0;
L6:;
    v71 = v22.b + 56;
    v72 = v9.b + 8;
    v73 = v7.b + 56;
    v74 = v7.b + 64;
    v75 = v10.b + 1;
    v76 = v10.b + 2;
    v77 = v10.b + 3;
    v78 = v10.b + 4;
    v79 = v10.b + 5;
    v80 = v10.b + 8;
    v81 = v7.b + 48;
    v82 = v8.b + 1;
    v83 = v8.b + 2;
    v84 = v8.b + 4;
    v85 = v8.b + 8;
    v86 = v8.b + 12;
    v87 = v11.b + 8;
    v88 = v11.b + 16;
    v89 = v6.b + 1;
    v90 = v6.b + 2;
    v91 = v6.b + 3;
    v92 = v6.b + 4;
    v93 = v6.b + 5;
    v94 = v6.b + 8;
    v95 = v5.b + 1;
    v96 = v5.b + 2;
    v97 = v5.b + 3;
    v98 = v5.b + 4;
    v99 = v5.b + 5;
    v100 = v5.b + 8;
    v101 = v22.b + 84;
    v102 = v22.b + 360;
    v103 = 0ULL;
    v104 = v70;
L7:;
    v106 = nd_load_8(v66);
    if (!(v103 < v4)) goto L31;
    switch (v106) {
    case 4: { v194 = v103; goto L34; }
    case 5: goto L35;
    case 0: goto L10;
    case 1: goto L10;
    case 2: goto L10;
    case 3: goto L10;
    default: goto L9; }
L9:;
    nd_stop();
L10:;
    v107 = (unsigned char *)((uintptr_t)v3 + (uintptr_t)v103);
    v108 = v4 - v103;
    if (v104) goto L29;
    if ((uint8_t)(nd_load_8(v60) & 1)) goto L28;
    if (!(uint8_t)((v106 == 0) ? (nd_load_64(v71) == 0ULL) : 0)) goto L29;
    v120 = nd_load_8(v59);
    v121 = nd_load_16(v61);
    v122 = nd_load_32(v62);
    v123 = nd_load_32(v63);
    v124 = nd_load_32(v64);
    v125 = 0ULL;
L14:;
    v126 = v125 < v108;
    if (!v126) { v168 = v125; v169 = v120; v170 = v121; v171 = v122; v172 = v123; v173 = v124; v174 = v126; goto L24; }
    v128 = v108 - v125;
    nd_memset(v11.b, 0, 24);
    nd_ndef_piece_whole_whole_piece(v9.b, ((unsigned char *)((uintptr_t)v107 + (uintptr_t)v125)), v128);
    if (!(nd_load_8(v9.b) == 1)) goto L23;
    nd_memcpy(v7.b, v72, 72);
    v131 = nd_load_64(v74);
    v132 = v128 - v131;
    v133 = nd_load_8(v7.b);
    v136 = nd_load_8(v57);
    v138 = (uint8_t)(v123 == 1U);
    v140 = (uint8_t)(v122 == 1U);
    if (!((uint8_t)(v133 & 32) == 0)) goto L19;
    nd_store_8(v6.b, v136);
    nd_store_8(v89, v120);
    nd_store_8(v90, 0);
    nd_store_8(v91, v138);
    nd_store_8(v92, v140);
    nd_memset(v93, 0, 3);
    nd_store_32(v94, v124);
    v141 = nd_ndef_piece_whole_WholePiece_is_record_at(v7.b, v6.b);
    if (!v141) goto L23;
    v144 = v132 + v125;
    v145 = nd_usub_sat_i32(v122, 1U);
    v146 = nd_load_32(v56);
    v147 = nd_load_32(v22.b);
    if ((uint8_t)(v133 & 64) == 0) { v164 = v145; v165 = v146; v166 = v147; v167 = v144; goto L22; }
    v168 = v144;
    v169 = 0;
    v170 = 0;
    v171 = v145;
    v172 = v146;
    v173 = v147;
    v174 = v126;
    goto L24;
L19:;
    nd_store_8(v10.b, v136);
    nd_store_8(v75, v120);
    nd_store_8(v76, 0);
    nd_store_8(v77, v138);
    nd_store_8(v78, v140);
    nd_memset(v79, 0, 3);
    nd_store_32(v80, v124);
    v148 = nd_ndef_piece_whole_WholePiece_opens_at(v7.b, v10.b);
    if (!v148) goto L23;
    v149 = nd_load_64(v81);
    v151 = nd_usub_sat_i32(v123, 1U);
    v152 = nd_usub_sat_i32(v124, (uint32_t)v149);
    nd_store_8(v8.b, 0);
    nd_store_8(v82, 1);
    nd_store_16(v83, 0);
    nd_store_32(v84, v122);
    nd_store_32(v85, v151);
    nd_store_32(v86, v152);
    nd_ndef_message_accepted_accepted_run(v11.b, v22.b, v8.b, nd_load_ptr(v73), v131);
    if (!(nd_load_8(v11.b) == 1)) goto L23;
    v157 = nd_load_8(v88);
    v160 = (v132 + v125) + nd_load_64(v87);
    v161 = nd_usub_sat_i32(v122, 1U);
    v162 = nd_load_32(v56);
    v163 = nd_load_32(v22.b);
    if ((uint8_t)(v157 & 1)) { v168 = v160; v169 = 0; v170 = 0; v171 = v161; v172 = v162; v173 = v163; v174 = v126; goto L24; }
    v164 = v161;
    v165 = v162;
    v166 = v163;
    v167 = v160;
L22:;
    v120 = 0;
    v121 = 0;
    v122 = v164;
    v123 = v165;
    v124 = v166;
    v125 = v167;
    goto L14;
L23:;
    v168 = v125;
    v169 = v120;
    v170 = v121;
    v171 = v122;
    v172 = v123;
    v173 = v124;
    v174 = 0;
L24:;
    if (v168 == 0ULL) goto L29;
    nd_store_8(v59, v169);
    nd_store_8(v60, 0);
    nd_store_16(v61, v170);
    nd_store_32(v62, v171);
    nd_store_32(v63, v172);
    nd_store_32(v64, v173);
    if (v174) { v181 = 4U; goto L27; }
    nd_store_8(v5.b, nd_load_8(v57));
    nd_store_8(v95, v169);
    nd_store_8(v96, 0);
    nd_store_8(v97, (uint8_t)(v172 == 1U));
    nd_store_8(v98, (uint8_t)(v171 == 1U));
    nd_memset(v99, 0, 3);
    nd_store_32(v100, v173);
    nd_ndef_piece_head_reader_HeadReader_new(v65, v5.b);
    v181 = 0U;
L27:;
    nd_memset(v101, 0, 20);
    nd_store_32(v66, v181);
    nd_store_64(v102, (nd_load_64(v102) + v168));
    v189 = 1;
    v190 = v168;
    goto L30;
L28:;
    v184 = nd_ndef_message_state_State_take_chunks_3(v59, v22.b, v107, v108);
    nd_store_64(v102, (nd_load_64(v102) + v184));
    if (!(v184 == 0ULL)) { v189 = 1; v190 = v184; goto L30; }
L29:;
    v188 = nd_ndef_message_checker_Checker_step_3(v22.b, v107, v108);
    v189 = 0;
    v190 = v188;
L30:;
    v103 = v190 + v103;
    v104 = v189;
    goto L7;
L31:;
    switch (v106) {
    case 4: { v194 = v4; goto L34; }
    case 5: goto L35;
    case 0: goto L33;
    case 1: goto L33;
    case 2: goto L33;
    case 3: goto L33;
    default: goto L32; }
L32:;
    nd_stop();
L33:;
    v192 = nd_load_64(v102);
    nd_store_64(v1, 1ULL);
    nd_store_64(((unsigned char *)((uintptr_t)v1 + 8)), v192);
    v39 = 24ULL;
    goto L2;
L34:;
    v197 = nd_usub_sat_i32(nd_load_32(v55), nd_load_32(v62));
    nd_store_64(v1, 0ULL);
    nd_store_32(((unsigned char *)((uintptr_t)v1 + 8)), v197);
    nd_store_32(((unsigned char *)((uintptr_t)v1 + 12)), 0U);
    v39 = v194;
    goto L2;
L35:;
    v201 = nd_load_64((v22.b + 88));
    v203 = nd_load_64((v22.b + 96));
    nd_store_64(v1, 1ULL);
    nd_store_64(((unsigned char *)((uintptr_t)v1 + 8)), v201);
    v39 = v203;
    goto L2;
}

static uint64_t nd_ndef_message_state_State_take_chunks_3(unsigned char *v1, unsigned char *v2, unsigned char *v3, uint64_t v4) {
    unsigned char *v12;
    uint64_t v18, v19;
    uint32_t v22, v25, v27;
    uint16_t v29;
    uint8_t v31, v32;
    ND_ROOM(48) v5;
    ND_ROOM(12) v6;
    ND_ROOM(24) v7;
    ND_ROOM(16) v8;
    nd_memset(v7.b, 0, 24);
    if (!(nd_load_8(((unsigned char *)((uintptr_t)v1 + 64))) == 0)) { v18 = 0ULL; goto L3; }
    v12 = (unsigned char *)((uintptr_t)v1 + 1);
    if (!(uint8_t)(nd_load_8(v12) & 1)) { v18 = 0ULL; goto L3; }
    if (nd_load_64(((unsigned char *)((uintptr_t)v1 + 40))) == 0ULL) goto L4;
    v18 = 0ULL;
L3:;
    return v18;
L4:;
    nd_memcpy(v8.b, v1, 16);
    nd_ndef_message_accepted_accepted_chunks(v7.b, v2, v8.b, v3, v4);
    v19 = nd_load_64(v7.b);
    if (v19 == 0ULL) { v18 = 0ULL; goto L3; }
    v22 = nd_load_32((v7.b + 20));
    v25 = nd_load_32((v7.b + 16));
    v27 = nd_load_32((v7.b + 12));
    v29 = nd_load_16((v7.b + 10));
    v31 = nd_load_8((v7.b + 9));
    v32 = nd_load_8((v7.b + 8));
    nd_store_8(v1, v32);
    nd_store_8(v12, v31);
    nd_store_16((v1 + 2), v29);
    nd_store_32((v1 + 4), v27);
    nd_store_32((v1 + 8), v25);
    nd_store_32((v1 + 12), v22);
    nd_store_8(v6.b, nd_load_8(((unsigned char *)((uintptr_t)v2 + 12))));
    nd_store_8((v6.b + 1), v32);
    nd_store_8((v6.b + 2), v31);
    nd_store_8((v6.b + 3), (uint8_t)(v25 == 1U));
    nd_store_8((v6.b + 4), (uint8_t)(v27 == 1U));
    nd_memset((v6.b + 5), 0, 3);
    nd_store_32((v6.b + 8), v22);
    nd_ndef_piece_head_reader_HeadReader_new(v5.b, v6.b);
    nd_memcpy(((unsigned char *)((uintptr_t)v1 + 16)), v5.b, 48);
    v18 = v19;
    goto L3;
}

static uint64_t nd_ndef_message_checker_Checker_step_3(unsigned char *v1, unsigned char *v2, uint64_t v3) {
    unsigned char *v12, *v14, *v15, *v17, *v24, *v71, *v83, *v84;
    uint64_t v13, v28, v36, v42, v57, v62, v64, v86, v87, v107, v122, v128;
    uint16_t v21, v113;
    uint8_t v23, v43, v47, v55, v66, v78, v85, v105, v115;
    uint32_t v26, v39, v118, v120;
    ND_ROOM(12) v4, v5, v6, v10, v11;
    ND_ROOM(48) v7;
    ND_ROOM(16) v8;
    ND_ROOM(32) v9;
    v12 = (unsigned char *)((uintptr_t)v1 + 360);
    v13 = nd_load_64(v12);
    v14 = (unsigned char *)((uintptr_t)v1 + 16);
    v15 = (unsigned char *)((uintptr_t)v1 + 80);
    switch (nd_load_8(v15)) {
    case 0: goto L1;
    case 1: goto L22;
    case 2: goto L26;
    case 3: goto L27;
    case 4: { v128 = 1ULL; goto L29; }
    case 5: { v128 = 1ULL; goto L29; }
    default: goto L28; }
L1:;
    v17 = (unsigned char *)((uintptr_t)v1 + 32);
    nd_ndef_piece_head_reader_HeadReader_whole_head(v9.b, v17, v2, v3);
    if (!(nd_load_8(v9.b) == 1)) goto L9;
    v21 = nd_load_16((v9.b + 8));
    v23 = nd_load_8((v9.b + 10));
    v24 = v9.b + 11;
    v26 = nd_load_32((v9.b + 16));
    v28 = nd_load_64((v9.b + 24));
    if ((uint8_t)(nd_load_8(((unsigned char *)((uintptr_t)v1 + 17))) & 1)) goto L4;
    nd_store_16(v10.b, v21);
    nd_store_8((v10.b + 2), v23);
    nd_memcpy((v10.b + 3), v24, 5);
    nd_store_32((v10.b + 8), v26);
    nd_ndef_message_state_State_begin_record_3(v14, v1, v10.b);
    goto L8;
L4:;
    v36 = (uint64_t)v26;
    if (!(uint8_t)(v23 & 1)) { v42 = v36; goto L6; }
    v39 = nd_usub_sat_i32(nd_load_32(((unsigned char *)((uintptr_t)v1 + 28))), v26);
    v42 = (uint64_t)v39 + v36;
L6:;
    v43 = nd_ndef_lang_opaque_OpaqueRecordLanguage_fits(v36, v42);
    if (!v43) goto L9;
    nd_store_16(v11.b, v21);
    nd_store_8((v11.b + 2), v23);
    nd_memcpy((v11.b + 3), v24, 5);
    nd_store_32((v11.b + 8), v26);
    nd_ndef_message_state_State_advance_field_3(v14, v1, v11.b, 0, v26);
L8:;
    v128 = v28;
    goto L29;
L9:;
    v47 = nd_load_8(v2);
    nd_memset(v8.b, 0, 16);
    nd_ndef_piece_head_reader_HeadReader_step(v8.b, v17, v47);
    switch (nd_load_8(v8.b)) {
    case 0: goto L10;
    case 1: goto L16;
    case 2: goto L19;
    default: goto L20; }
L10:;
    nd_memset(v7.b, 0, 48);
    if ((uint8_t)(nd_load_8(((unsigned char *)((uintptr_t)v1 + 17))) & 1)) goto L12;
    goto L21;
L12:;
    nd_ndef_piece_head_reader_HeadReader_bounds(v7.b, v17);
    if (nd_load_8(v7.b) == 1) goto L14;
    goto L15;
L14:;
    v55 = nd_load_8((v7.b + 9));
    v57 = nd_load_64((v7.b + 32));
    v62 = (uint64_t)nd_load_32(((unsigned char *)((uintptr_t)v1 + 28)));
    v64 = nd_umin_i64(nd_load_64((v7.b + 40)), v62);
    v66 = nd_ndef_lang_opaque_OpaqueRecordLanguage_fits(v57, ((uint8_t)(v55 & 1) ? v62 : v64));
    if (v66) goto L21;
L15:;
    nd_store_32(v15, 5U);
    nd_store_32(((unsigned char *)((uintptr_t)v1 + 84)), 0U);
    nd_store_64(((unsigned char *)((uintptr_t)v1 + 88)), v13);
    nd_store_8(((unsigned char *)((uintptr_t)v1 + 96)), 23);
    nd_memset(((unsigned char *)((uintptr_t)v1 + 97)), 0, 7);
    goto L21;
L16:;
    v71 = v8.b + 4;
    if (!(uint8_t)(nd_load_8(((unsigned char *)((uintptr_t)v1 + 17))) & 1)) goto L18;
    nd_ndef_message_state_State_start_body_3(v14, v1, v13, v71, 0, nd_load_32((v8.b + 12)));
    goto L21;
L18:;
    nd_ndef_message_state_State_begin_record_3(v14, v1, v71);
    goto L21;
L19:;
    v78 = nd_load_8((v8.b + 1));
    nd_store_32(v15, 5U);
    nd_store_32(((unsigned char *)((uintptr_t)v1 + 84)), 0U);
    nd_store_64(((unsigned char *)((uintptr_t)v1 + 88)), v13);
    nd_store_8(((unsigned char *)((uintptr_t)v1 + 96)), v78);
    nd_memset(((unsigned char *)((uintptr_t)v1 + 97)), 0, 7);
    goto L21;
L20:;
    nd_stop();
L21:;
    v128 = 1ULL;
    goto L29;
L22:;
    v83 = (unsigned char *)((uintptr_t)v1 + 84);
    v84 = (unsigned char *)((uintptr_t)v1 + 96);
    v85 = nd_load_8(v84);
    v86 = (uint64_t)v85;
    v87 = nd_umin_i64(v86, v3);
    nd_memcpy(v6.b, v83, 12);
    nd_ndef_lang_type_name_TypeName_push_all(((unsigned char *)((uintptr_t)v1 + 104)), v2, v87);
    if (!(v3 < v86)) goto L24;
    nd_store_32(v15, 1U);
    nd_memcpy(v83, v6.b, 12);
    nd_store_8(v84, (uint8_t)(v85 - (uint8_t)v87));
    nd_memset(((unsigned char *)((uintptr_t)v1 + 97)), 0, 7);
    goto L25;
L24:;
    nd_ndef_message_state_State_start_body_3(v14, v1, ((v13 + 18446744073709551615ULL) + v87), v6.b, (uint8_t)((nd_load_8((v6.b + 6)) == 1) ? nd_load_8((v6.b + 7)) : 0), nd_load_32((v6.b + 8)));
L25:;
    v128 = v87;
    goto L29;
L26:;
    v105 = nd_load_8(((unsigned char *)((uintptr_t)v1 + 96)));
    v107 = nd_umin_i64((uint64_t)v105, v3);
    nd_memcpy(v5.b, ((unsigned char *)((uintptr_t)v1 + 84)), 12);
    nd_ndef_message_state_State_advance_field_3(v14, v1, v5.b, (uint8_t)(v105 - (uint8_t)v107), nd_load_32((v5.b + 8)));
    v128 = v107;
    goto L29;
L27:;
    v113 = nd_load_16(((unsigned char *)((uintptr_t)v1 + 84)));
    v115 = nd_load_8(((unsigned char *)((uintptr_t)v1 + 86)));
    v118 = nd_load_32(((unsigned char *)((uintptr_t)v1 + 92)));
    v120 = nd_load_32(((unsigned char *)((uintptr_t)v1 + 96)));
    v122 = nd_umin_i64((uint64_t)v120, v3);
    nd_memcpy((v4.b + 3), ((unsigned char *)((uintptr_t)v1 + 87)), 5);
    nd_store_16(v4.b, v113);
    nd_store_8((v4.b + 2), v115);
    nd_store_32((v4.b + 8), v118);
    nd_ndef_message_state_State_advance_field_3(v14, v1, v4.b, 0, (v120 - (uint32_t)v122));
    v128 = v122;
    goto L29;
L28:;
    nd_stop();
L29:;
    nd_store_64(v12, (v128 + v13));
    return v128;
}

static void nd_ndef_message_state_State_begin_record_3(unsigned char *v1, unsigned char *v2, unsigned char *v3) {
    uint8_t v6;
    ND_ROOM(12) v4;
    nd_memcpy(v4.b, v3, 12);
    v6 = nd_load_8((v4.b + 5));
    if (v6 == 0) goto L3;
    goto L2;
L1:;
    return;
L2:;
    nd_store_8(((unsigned char *)((uintptr_t)v1 + 343)), 0);
    nd_store_32(((unsigned char *)((uintptr_t)v1 + 64)), 1U);
    nd_memcpy(((unsigned char *)((uintptr_t)v1 + 68)), v4.b, 12);
    nd_store_8(((unsigned char *)((uintptr_t)v1 + 80)), v6);
    nd_memset(((unsigned char *)((uintptr_t)v1 + 81)), 0, 7);
    goto L1;
L3:;
    nd_ndef_message_state_State_advance_field_3(v1, v2, v4.b, (uint8_t)((nd_load_8((v4.b + 6)) == 1) ? nd_load_8((v4.b + 7)) : 0), nd_load_32((v4.b + 8)));
    goto L1;
}

static void nd_ndef_message_state_State_advance_field_3(unsigned char *v1, unsigned char *v2, unsigned char *v3, uint8_t v4, uint32_t v5) {
    ND_ROOM(12) v6, v7, v8, v11;
    ND_ROOM(16) v9;
    ND_ROOM(48) v10;
    nd_memcpy(v6.b, v3, 12);
    if (v4 == 0) goto L3;
    goto L2;
L1:;
    return;
L2:;
    nd_memcpy(v7.b, v3, 12);
    nd_store_32(((unsigned char *)((uintptr_t)v1 + 64)), 2U);
    nd_memcpy(((unsigned char *)((uintptr_t)v1 + 68)), v7.b, 12);
    nd_store_8(((unsigned char *)((uintptr_t)v1 + 80)), v4);
    nd_memset(((unsigned char *)((uintptr_t)v1 + 81)), 0, 7);
    goto L1;
L3:;
    if (v5 == 0U) goto L5;
    nd_memcpy(v8.b, v3, 12);
    nd_store_32(((unsigned char *)((uintptr_t)v1 + 64)), 3U);
    nd_memcpy(((unsigned char *)((uintptr_t)v1 + 68)), v8.b, 12);
    nd_store_32(((unsigned char *)((uintptr_t)v1 + 80)), v5);
    nd_store_32(((unsigned char *)((uintptr_t)v1 + 84)), 0U);
    goto L1;
L5:;
    nd_ndef_message_phase_Place_after(v9.b, v1, v2, v6.b);
    nd_memcpy(v1, v9.b, 16);
    nd_ndef_message_phase_Place_spot(v11.b, v1, nd_load_8(((unsigned char *)((uintptr_t)v2 + 12))));
    nd_ndef_piece_head_reader_HeadReader_new(v10.b, v11.b);
    nd_memcpy(((unsigned char *)((uintptr_t)v1 + 16)), v10.b, 48);
    nd_store_32(((unsigned char *)((uintptr_t)v1 + 64)), ((uint8_t)(nd_load_8((v6.b + 2)) & 1) ? 0U : (uint32_t)(uint8_t)((uint32_t)nd_load_8((v6.b + 1)) << 2)));
    nd_memset(((unsigned char *)((uintptr_t)v1 + 68)), 0, 20);
    goto L1;
}

static void nd_ndef_message_state_State_start_body_3(unsigned char *v1, unsigned char *v2, uint64_t v3, unsigned char *v4, uint8_t v5, uint32_t v6) {
    uint16_t v7;
    uint8_t v9, v23;
    unsigned char *v10, *v14;
    uint32_t v12, v19;
    uint64_t v15, v22;
    ND_ROOM(12) v13;
    v7 = nd_load_16(v4);
    v9 = nd_load_8((v4 + 2));
    v10 = v4 + 3;
    v12 = nd_load_32((v4 + 8));
    v14 = (unsigned char *)((uintptr_t)v1 + 64);
    v15 = (uint64_t)v6;
    if (!(uint8_t)(v9 & 1)) { v22 = v15; goto L2; }
    v19 = nd_usub_sat_i32(nd_load_32(((unsigned char *)((uintptr_t)v1 + 12))), v12);
    v22 = (uint64_t)v19 + v15;
L2:;
    v23 = nd_ndef_lang_opaque_OpaqueRecordLanguage_fits(v15, v22);
    if (!v23) goto L4;
    nd_store_16(v13.b, v7);
    nd_store_8((v13.b + 2), v9);
    nd_memcpy((v13.b + 3), v10, 5);
    nd_store_32((v13.b + 8), v12);
    nd_ndef_message_state_State_advance_field_3(v1, v2, v13.b, v5, v6);
    goto L5;
L4:;
    nd_store_32(v14, 5U);
    nd_store_32(((unsigned char *)((uintptr_t)v1 + 68)), 0U);
    nd_store_64(((unsigned char *)((uintptr_t)v1 + 72)), v3);
    nd_store_8(((unsigned char *)((uintptr_t)v1 + 80)), 23);
    nd_memset(((unsigned char *)((uintptr_t)v1 + 81)), 0, 7);
L5:;
    return;
}

static void nd_ndef_message_items_ItemsIterator_next(unsigned char *v1, unsigned char *v2) {
    unsigned char *v4, *v7, *v8, *v9, *v10, *v13;
    uint64_t v5, v12, v17, v22;
    uint32_t v11, v19;
    ND_ROOM(72) v3;
    v4 = v2 + 8;
    v5 = nd_load_64(v4);
    if (v5 == 0ULL) goto L2;
    goto L3;
L1:;
    return;
L2:;
    nd_memset(v1, 0, 32);
    goto L1;
L3:;
    v7 = nd_load_ptr(v2);
    nd_memset(v3.b, 0, 72);
    v8 = v3.b + 48;
    v9 = v3.b + 56;
    v10 = v3.b + 64;
    v11 = 0U;
    v12 = v5;
    v13 = v7;
L4:;
    nd_ndef_message_checked_bytes_first_piece(v3.b, v13, v12);
    v17 = nd_load_64(v10);
    v19 = v11 + (uint32_t)nd_load_64(v8);
    if (!((uint8_t)(nd_load_8(v3.b) & 32) == 0)) { v11 = v19; v12 = v17; v13 = nd_load_ptr(v9); goto L4; }
    v22 = v5 - v17;
    nd_store_ptr(v2, ((unsigned char *)((uintptr_t)v7 + (uintptr_t)v22)));
    nd_store_64(v4, v17);
    nd_store_64(v1, 1ULL);
    nd_store_ptr(((unsigned char *)((uintptr_t)v1 + 8)), v7);
    nd_store_64(((unsigned char *)((uintptr_t)v1 + 16)), v22);
    nd_store_32(((unsigned char *)((uintptr_t)v1 + 24)), v19);
    nd_store_32(((unsigned char *)((uintptr_t)v1 + 28)), 0U);
    goto L1;
}

static void nd_ndef_message_checked_bytes_first_piece(unsigned char *v1, unsigned char *v2, uint64_t v3) {
    ND_ROOM(80) v4;
    nd_ndef_piece_whole_whole_piece(v4.b, v2, v3);
    if (!(nd_load_8(v4.b) == 1)) goto L2;
    nd_memcpy(v1, (v4.b + 8), 72);
    return;
L2:;
    nd_stop();
}

static uint8_t nd_ndef_message_item_Item_tnf(unsigned char *v1) {
    uint8_t v3;
    ND_ROOM(72) v2;
    nd_ndef_message_item_Item_first(v2.b, v1);
    v3 = nd_ndef_piece_whole_WholePiece_tnf(v2.b);
    return v3;
}

static void nd_ndef_message_item_Item_first(unsigned char *v1, unsigned char *v2) {
    ND_ROOM(72) v3;
    nd_memset(v3.b, 0, 72);
    nd_ndef_message_checked_bytes_first_piece(v3.b, nd_load_ptr(v2), nd_load_64((v2 + 8)));
    nd_memcpy(v1, v3.b, 72);
    return;
}

static struct nd_ptr_64 nd_ndef_message_item_Item_kind(unsigned char *v1) {
    ND_ROOM(72) v2;
    nd_ndef_message_item_Item_first(v2.b, v1);
    return (struct nd_ptr_64) { nd_load_ptr((v2.b + 8)), nd_load_64((v2.b + 16)) };
}

static struct nd_ptr_64 nd_ndef_diagnostics_few_whole_payload(unsigned char *v1) {
    uint8_t v9;
    ND_ROOM(72) v2;
    nd_ndef_message_item_Item_first(v2.b, v1);
    v9 = (uint8_t)(nd_load_8(v2.b) & 32) == 0;
    return (struct nd_ptr_64) { (v9 ? nd_load_ptr((v2.b + 40)) : (unsigned char *)nd_data_static_50), (v9 ? nd_load_64((v2.b + 48)) : 0ULL) };
}

static void nd_ndef_diagnostics_record_remark_held_remark(unsigned char *v1, uint8_t v2, unsigned char *v3, uint64_t v4, unsigned char *v5) {
    uint64_t v20, v28, v41, v42, v60, v69;
    unsigned char *v25, *v26, *v30, *v31, *v32, *v40, *v59, *v68;
    uint8_t v34, v35, v45, v52, v56, v63, v72, v76, v86, v87, v88, v94, v95, v96, v97, v98, v99;
    struct nd_ptr_64 v36, v39, v46, v49, v73;
    ND_ROOM(16) v6, v8, v11, v13;
    ND_ROOM(32) v7, v9, v12, v14, v16;
    ND_ROOM(3) v10, v15;
    v20 = (uint64_t)((v2 != 3) & (int)(v4 != 0ULL));
    nd_ndef_diagnostics_few_small_message(v16.b, ((unsigned char *)((uintptr_t)v3 + (uintptr_t)v20)), (v4 - v20));
    if (!(nd_load_8(v16.b) == 1)) { v97 = 0; v98 = 0; v99 = 0; goto L26; }
    v25 = v16.b + 8;
    v26 = nd_load_ptr(v25);
    v28 = nd_load_64((v16.b + 16));
    nd_memset(v15.b, 0, 3);
    switch (v2) {
    case 3: goto L2;
    case 4: goto L13;
    case 5: goto L23;
    default: goto L24; }
L2:;
    nd_memset(v14.b, 0, 32);
    nd_store_ptr(v13.b, v26);
    nd_store_64((v13.b + 8), v28);
    v30 = v14.b + 8;
    v31 = v11.b + 8;
    v32 = v12.b + 8;
L3:;
    nd_ndef_message_items_ItemsIterator_next(v14.b, v13.b);
    v34 = nd_load_8(v14.b) == 1;
    if (!v34) { v56 = 0; goto L12; }
    v35 = nd_ndef_diagnostics_poster_remark_is_title(v30);
    if (!v35) goto L11;
    v36 = nd_ndef_diagnostics_few_whole_payload(v30);
    v39 = nd_ndef_diagnostics_poster_remark_language_of(v36.f0, v36.f1);
    v40 = v39.f0;
    v41 = v39.f1;
    nd_memset(v12.b, 0, 32);
    nd_store_ptr(v11.b, v26);
    nd_store_64(v31, v28);
    v42 = 0ULL;
L6:;
L7:;
    nd_ndef_message_items_ItemsIterator_next(v12.b, v11.b);
    if (!(nd_load_8(v12.b) == 1)) goto L10;
    v45 = nd_ndef_diagnostics_poster_remark_is_title(v32);
    if (!v45) goto L7;
    v46 = nd_ndef_diagnostics_few_whole_payload(v32);
    v49 = nd_ndef_diagnostics_poster_remark_language_of(v46.f0, v46.f1);
    v52 = nd_core_str_ascii_slice_u8_eq_ignore_ascii_case(v49.f0, v49.f1, v40, v41);
    v42 = v42 + (uint64_t)v52;
    goto L6;
L10:;
    if (v42 > 1ULL) { v56 = 10; goto L12; }
L11:;
    goto L3;
L12:;
    v94 = 0;
    v95 = v56;
    v96 = (uint8_t)v34;
    goto L25;
L13:;
    nd_memset(v10.b, 0, 3);
    nd_memset(v9.b, 0, 32);
    nd_store_ptr(v8.b, v26);
    nd_store_64((v8.b + 8), v28);
    v59 = v9.b + 8;
    v60 = 0ULL;
L14:;
    nd_ndef_message_items_ItemsIterator_next(v9.b, v8.b);
    if (!(nd_load_8(v9.b) == 1)) goto L16;
    v63 = nd_ndef_diagnostics_handover_remark_is_carrier(v59);
    v60 = v60 + (uint64_t)v63;
    goto L14;
L16:;
    if (v60 == 0ULL) { v86 = 0; v87 = 11; v88 = 1; goto L22; }
    nd_memset(v7.b, 0, 32);
    nd_store_ptr(v6.b, v26);
    nd_store_64((v6.b + 8), v28);
    v68 = v7.b + 8;
    v69 = 0ULL;
L18:;
    nd_ndef_message_items_ItemsIterator_next(v7.b, v6.b);
    if (!(nd_load_8(v7.b) == 1)) goto L20;
    v72 = nd_ndef_message_item_Item_tnf(v68);
    v73 = nd_ndef_message_item_Item_kind(v68);
    v76 = nd_ndef_format_table_Table_kind(1, v72, v73.f0, v73.f1);
    v69 = v69 + (uint64_t)(v76 == 11);
    goto L18;
L20:;
    if (v69 > 1ULL) { v86 = 0; v87 = 12; v88 = 1; goto L22; }
    nd_ndef_diagnostics_handover_remark_reference_remark(v10.b, v25, v5);
    v86 = nd_load_8((v10.b + 2));
    v87 = nd_load_8((v10.b + 1));
    v88 = nd_load_8(v10.b);
L22:;
    v94 = v86;
    v95 = v87;
    v96 = v88;
    goto L25;
L23:;
    nd_ndef_diagnostics_handover_remark_reference_remark(v15.b, v25, v5);
    v94 = nd_load_8((v15.b + 2));
    v95 = nd_load_8((v15.b + 1));
    v96 = nd_load_8(v15.b);
    goto L25;
L24:;
    nd_stop();
L25:;
    v97 = v96;
    v98 = v95;
    v99 = v94;
L26:;
    nd_store_8(v1, v97);
    nd_store_8(((unsigned char *)((uintptr_t)v1 + 1)), v98);
    nd_store_8(((unsigned char *)((uintptr_t)v1 + 2)), v99);
    return;
}

static uint8_t nd_ndef_diagnostics_poster_remark_is_title(unsigned char *v1) {
    uint8_t v2, v6;
    struct nd_ptr_64 v3;
    v2 = nd_ndef_message_item_Item_tnf(v1);
    v3 = nd_ndef_message_item_Item_kind(v1);
    v6 = nd_ndef_format_table_Table_kind(0, v2, v3.f0, v3.f1);
    return v6 == 1;
}

static struct nd_ptr_64 nd_ndef_diagnostics_poster_remark_language_of(unsigned char *v1, uint64_t v2) {
    uint64_t v7, v9, v13;
    if (v2 == 0ULL) { v7 = 0ULL; goto L2; }
    v7 = (uint64_t)(uint8_t)(nd_load_8(v1) & 63);
L2:;
    v9 = (uint64_t)(v2 != 0ULL);
    v13 = nd_umin_i64((v2 - v9), v7);
    return (struct nd_ptr_64) { ((unsigned char *)((uintptr_t)v1 + (uintptr_t)v9)), v13 };
}

static uint8_t nd_core_str_ascii_slice_u8_eq_ignore_ascii_case(unsigned char *v1, uint64_t v2, unsigned char *v3, uint64_t v4) {
    uint8_t v6, v8, v10, v12;
    uint64_t v7;
    if (v2 == v4) { v7 = 0ULL; goto L2; }
    v6 = 0;
L1:;
    return v6;
L2:;
    v8 = v7 == v2;
    if (v8) { v6 = v8; goto L1; }
    v10 = nd_load_8((v1 + (ptrdiff_t)v7));
    v12 = nd_load_8((v3 + (ptrdiff_t)v7));
    if ((uint8_t)(((uint8_t)(v10 + 191) < 26) ? (uint8_t)(v10 + 32) : v10) == (uint8_t)(((uint8_t)(v12 + 191) < 26) ? (uint8_t)(v12 + 32) : v12)) { v7 = v7 + 1ULL; goto L2; }
    v6 = v8;
    goto L1;
}

static uint8_t nd_ndef_diagnostics_handover_remark_is_carrier(unsigned char *v1) {
    uint8_t v2, v6;
    struct nd_ptr_64 v3;
    v2 = nd_ndef_message_item_Item_tnf(v1);
    v3 = nd_ndef_message_item_Item_kind(v1);
    v6 = nd_ndef_format_table_Table_kind(1, v2, v3.f0, v3.f1);
    return v6 == 10;
}

static void nd_ndef_diagnostics_handover_remark_reference_remark(unsigned char *v1, unsigned char *v2, unsigned char *v3) {
    uint64_t v8, v16, v21, v22, v28, v33;
    unsigned char *v10, *v15;
    uint8_t v12, v13, v26, v31, v36, v37;
    struct nd_ptr_64 v14;
    ND_ROOM(16) v4;
    ND_ROOM(32) v5;
    nd_memset(v5.b, 0, 32);
    v8 = nd_load_64((v2 + 8));
    nd_store_ptr(v4.b, nd_load_ptr(v2));
    nd_store_64((v4.b + 8), v8);
    v10 = v5.b + 8;
L1:;
    nd_ndef_message_items_ItemsIterator_next(v5.b, v4.b);
    v12 = nd_load_8(v5.b) == 1;
    if (!v12) { v37 = 0; goto L10; }
    v13 = nd_ndef_diagnostics_handover_remark_is_carrier(v10);
    if (!v13) goto L9;
    v14 = nd_ndef_diagnostics_few_whole_payload(v10);
    v15 = v14.f0;
    v16 = v14.f1;
    if (!(v16 > 1ULL)) { v21 = 0ULL; goto L5; }
    v21 = (uint64_t)nd_load_8((v15 + 1));
L5:;
    v22 = v21 + 2ULL;
    if (!(v16 > v22)) { v26 = 0; goto L7; }
    v26 = nd_load_8(((unsigned char *)((uintptr_t)v15 + (uintptr_t)v22)));
L7:;
    v28 = (uint64_t)(v16 != 0ULL);
    v31 = nd_ndef_diagnostics_handover_remark_has_dangling(1, ((unsigned char *)((uintptr_t)v15 + (uintptr_t)v28)), (v16 - v28), v3);
    if (v31) { v37 = 13; goto L10; }
    v33 = nd_umin_i64(v16, (v21 + 3ULL));
    v36 = nd_ndef_diagnostics_handover_remark_has_dangling(v26, ((unsigned char *)((uintptr_t)v15 + (uintptr_t)v33)), (v16 - v33), v3);
    if (v36) { v37 = 13; goto L10; }
L9:;
    goto L1;
L10:;
    nd_store_8(v1, (uint8_t)v12);
    nd_store_8(((unsigned char *)((uintptr_t)v1 + 1)), v37);
    nd_store_8(((unsigned char *)((uintptr_t)v1 + 2)), 0);
    return;
}

static uint8_t nd_ndef_diagnostics_handover_remark_has_dangling(uint8_t v1, unsigned char *v2, uint64_t v3, unsigned char *v4) {
    uint64_t v5, v12, v14, v16, v19, v22;
    uint8_t v6, v8;
    unsigned char *v7;
    v5 = v3;
    v6 = v1;
    v7 = v2;
L1:;
    v8 = v6 != 0;
    if (!v8) goto L6;
    if (v5 == 0ULL) { v12 = 0ULL; goto L4; }
    v12 = (uint64_t)nd_load_8(v7);
L4:;
    v14 = (uint64_t)(v5 != 0ULL);
    v16 = nd_umin_i64((v5 - v14), v12);
    if (v16 == 0ULL) goto L6;
    v19 = nd_ndef_diagnostics_few_count_id(v4, ((unsigned char *)((uintptr_t)v7 + (uintptr_t)v14)), v16);
    if (!(v19 == 0ULL)) goto L7;
L6:;
    return v8;
L7:;
    v22 = nd_umin_i64(v5, (v12 + 1ULL));
    v5 = v5 - v22;
    v6 = (uint8_t)(v6 + 255);
    v7 = (unsigned char *)((uintptr_t)v7 + (uintptr_t)v22);
    goto L1;
}

static uint64_t nd_ndef_diagnostics_few_count_id(unsigned char *v1, unsigned char *v2, uint64_t v3) {
    uint64_t v9, v16;
    unsigned char *v11, *v12, *v13, *v14, *v20;
    uint8_t v15, v23, v24, v25;
    struct nd_ptr_64 v19;
    ND_ROOM(32) v4, v6;
    ND_ROOM(16) v5;
    nd_memset(v6.b, 0, 32);
    v9 = nd_load_64((v1 + 8));
    nd_store_ptr(v5.b, nd_load_ptr(v1));
    nd_store_64((v5.b + 8), v9);
    v11 = v6.b + 8;
    v12 = v4.b + 8;
    v13 = v4.b + 16;
    v14 = v4.b + 24;
    v15 = v3 < 4ULL;
    v16 = 0ULL;
L1:;
L2:;
    nd_ndef_message_items_ItemsIterator_next(v6.b, v5.b);
    if (!(nd_load_8(v6.b) == 1)) goto L11;
    v19 = nd_ndef_message_item_Item_id(v11);
    v20 = v19.f0;
    if (!(v19.f1 == v3)) goto L8;
    nd_store_ptr(v4.b, v20);
    nd_store_64(v12, v3);
    nd_store_ptr(v13, v2);
    nd_store_64(v14, v3);
    if (!v15) goto L7;
    v23 = nd_core_slice_scan_any_by_one(v4.b, v3);
    if (!v23) goto L10;
L6:;
    goto L2;
L7:;
    v24 = nd_core_slice_scan_any_in_run(v4.b, 0ULL, 4ULL);
    if (!v24) goto L9;
L8:;
    goto L6;
L9:;
    v25 = nd_core_cmp_slices_groups_equal(v20, v3, v2, v3);
    if (!v25) goto L6;
L10:;
    v16 = v16 + 1ULL;
    goto L1;
L11:;
    return v16;
}

static struct nd_ptr_64 nd_ndef_message_item_Item_id(unsigned char *v1) {
    ND_ROOM(72) v2;
    nd_ndef_message_item_Item_first(v2.b, v1);
    return (struct nd_ptr_64) { nd_load_ptr((v2.b + 24)), nd_load_64((v2.b + 32)) };
}

static uint8_t nd_core_slice_scan_any_in_quarters(unsigned char *v1, uint64_t v2, uint64_t v3) {
    uint64_t v4, v6, v10;
    uint8_t v5, v7, v11, v13;
    v4 = v2 - v3;
    v5 = nd_core_slice_scan_any_in_run(v1, 0ULL, v3);
    v6 = nd_umin_i64(v4, v3);
    v7 = nd_core_slice_scan_any_in_run(v1, v6, v3);
    v10 = nd_umin_i64(v4, (v3 << 1));
    v11 = nd_core_slice_scan_any_in_run(v1, v10, v3);
    v13 = nd_core_slice_scan_any_in_run(v1, v4, v3);
    return ((v5 | v7) | v11) | v13;
}

static uint8_t nd_core_slice_scan_any_in_ends(unsigned char *v1, uint64_t v2, uint64_t v3) {
    uint8_t v4, v6;
    v4 = nd_core_slice_scan_any_in_run(v1, 0ULL, v3);
    v6 = nd_core_slice_scan_any_in_run(v1, (v2 - v3), v3);
    return v4 | v6;
}

static uint64_t nd_core_slice_scan_skip_groups(unsigned char *v1, uint64_t v2, uint64_t v3, uint64_t v4) {
    uint64_t v5, v6;
    uint8_t v9;
    v5 = v4 + 18446744073709551615ULL;
    v6 = v2;
L1:;
    if (!(v5 < (v3 - v6))) goto L4;
    v9 = nd_core_slice_scan_any_in_run(v1, v6, v4);
    if (v9) goto L4;
    v6 = v6 + v4;
    goto L1;
L4:;
    return v6;
}

static uint8_t nd_core_slice_scan_any_by_one(unsigned char *v1, uint64_t v2) {
    unsigned char *v3;
    uint64_t v4, v14;
    v3 = (unsigned char *)((uintptr_t)v1 + 16);
    v4 = 0ULL;
L1:;
    if (v4 == v2) { v14 = v2; goto L4; }
    if (!(nd_load_8(((unsigned char *)((uintptr_t)nd_load_ptr(v1) + (uintptr_t)v4))) == nd_load_8(((unsigned char *)((uintptr_t)nd_load_ptr(v3) + (uintptr_t)v4))))) { v14 = v4; goto L4; }
    v4 = v4 + 1ULL;
    goto L1;
L4:;
    return v14 < v2;
}

static uint8_t nd_core_slice_scan_any_in_run(unsigned char *v1, uint64_t v2, uint64_t v3) {
    unsigned char *v4, *v6;
    uint64_t v7, v10;
    uint8_t v8;
    v4 = nd_load_ptr(v1);
    v6 = nd_load_ptr(((unsigned char *)((uintptr_t)v1 + 16)));
    v7 = 0ULL;
    v8 = 0;
L1:;
    if (v7 == v3) goto L3;
    v10 = v7 + v2;
    v7 = v7 + 1ULL;
    v8 = v8 | (int)(nd_load_8(((unsigned char *)((uintptr_t)v4 + (uintptr_t)v10))) != nd_load_8(((unsigned char *)((uintptr_t)v6 + (uintptr_t)v10))));
    goto L1;
L3:;
    return v8;
}

static uint8_t nd_core_cmp_slices_groups_equal(unsigned char *v1, uint64_t v2, unsigned char *v3, uint64_t v4) {
    uint8_t v10, v12, v14, v20, v21;
    uint64_t v15, v16;
    ND_ROOM(32) v5;
    nd_store_ptr(v5.b, v1);
    nd_store_64((v5.b + 8), v2);
    nd_store_ptr((v5.b + 16), v3);
    nd_store_64((v5.b + 24), v4);
    if (!(v2 < 9ULL)) goto L2;
    v10 = nd_core_slice_scan_any_in_ends(v5.b, v2, 4ULL);
    v21 = v10;
    goto L8;
L2:;
    if (!(v2 < 33ULL)) goto L4;
    v12 = nd_core_slice_scan_any_in_quarters(v5.b, v2, 8ULL);
    v21 = v12;
    goto L8;
L4:;
    if (!(v2 < 65ULL)) goto L6;
    v14 = nd_core_slice_scan_any_in_ends(v5.b, v2, 32ULL);
    v21 = v14;
    goto L8;
L6:;
    v15 = nd_core_slice_scan_skip_groups(v5.b, 0ULL, v2, 64ULL);
    v16 = nd_core_slice_scan_skip_groups(v5.b, v15, v2, 32ULL);
    if ((v2 - v16) > 31ULL) { v21 = 1; goto L8; }
    v20 = nd_core_slice_scan_any_in_run(v5.b, (v2 + 18446744073709551584ULL), 32ULL);
    v21 = v20;
L8:;
    return v21 ^ 1;
}

static uint8_t nd_ndef_c_appending_may_join(unsigned char *v1, uint64_t v2, unsigned char *v3, uint64_t v4) {
    uint8_t v6, v7;
    if (!(v4 < 256ULL)) { v7 = 0; goto L2; }
    v6 = nd_ndef_c_building_may_grow(v1, v2, v3);
    v7 = v6;
L2:;
    return v7;
}

static uint8_t nd_ndef_c_building_may_grow(unsigned char *v1, uint64_t v2, unsigned char *v3) {
    uint64_t v5, v19;
    uint8_t v13, v32;
    ND_ROOM(80) v4;
    v5 = nd_load_64(v3);
    if (!(v5 == 0ULL)) goto L4;
    if (!(nd_load_64(((unsigned char *)((uintptr_t)v3 + 8))) == 0ULL)) { v13 = 0; goto L3; }
    v13 = nd_load_32(((unsigned char *)((uintptr_t)v3 + 16))) == 0U;
L3:;
    return v13;
L4:;
    if (v2 < v5) { v13 = 0; goto L3; }
    if (nd_load_32(((unsigned char *)((uintptr_t)v3 + 16))) == 4294967295U) { v13 = 0; goto L3; }
    v19 = nd_load_64(((unsigned char *)((uintptr_t)v3 + 8)));
    if (v5 < v19) { v32 = 0; goto L10; }
    nd_ndef_piece_whole_whole_piece(v4.b, ((unsigned char *)((uintptr_t)v1 + (uintptr_t)v19)), (v5 - v19));
    if (!(nd_load_8(v4.b) == 1)) { v32 = 0; goto L10; }
    if (!((uint8_t)(nd_load_8((v4.b + 8)) & 96) == 64)) { v32 = 0; goto L10; }
    v32 = nd_load_64((v4.b + 72)) == 0ULL;
L10:;
    v13 = v32;
    goto L3;
}

static uint32_t nd_ndef_c_building_append_pending_record(unsigned char *v1, uint64_t v2, unsigned char *v3, unsigned char *v4, unsigned char *v5) {
    uint64_t v21, v28, v30, v32, v51, v52, v53, v54, v58, v59, v62, v63, v67, v68, v71, v72, v73, v76, v82, v85, v88, v89, v90, v93, v96, v97, v110, v111, v112, v131, v132, v135, v138, v146, v150, v152, v155, v158, v164, v168, v171, v174, v177, v185, v186, v189, v202, v203, v207, v209, v213, v214, v220, v228, v229, v232, v237, v238;
    uint8_t v23, v26, v109;
    unsigned char *v25, *v27, *v29, *v31, *v48, *v49, *v55, *v65, *v78, *v80, *v84, *v104, *v108, *v128, *v129, *v144, *v148, *v162, *v166, *v183, *v196, *v198, *v200, *v206, *v226, *v244;
    uint32_t v99, v245;
    ND_ROOM(1) v6, v7, v8, v9, v10, v11, v12, v13;
    ND_ROOM(7) v14, v16;
    ND_ROOM(12) v15, v17;
    ND_ROOM(24) v18, v19;
    nd_store_64((v18.b + 16), 0ULL);
    nd_memset(v19.b, 0, 24);
    v21 = nd_load_64(v3);
    v23 = (uint8_t)(v21 == 0ULL);
    nd_store_ptr(v18.b, v6.b);
    nd_store_64((v18.b + 8), 0ULL);
    v25 = v18.b + 16;
    v26 = nd_load_8(v4);
    v27 = (unsigned char *)((uintptr_t)v4 + 16);
    v28 = nd_load_64(v27);
    v29 = (unsigned char *)((uintptr_t)v4 + 32);
    v30 = nd_load_64(v29);
    v31 = (unsigned char *)((uintptr_t)v4 + 88);
    v32 = nd_load_64(v31);
    nd_store_8(v17.b, v23);
    nd_store_8((v17.b + 1), 1);
    nd_store_8((v17.b + 2), 0);
    nd_store_8((v17.b + 3), (uint8_t)(v32 < 256ULL));
    nd_store_8((v17.b + 4), v26);
    nd_store_8((v17.b + 5), (uint8_t)v28);
    nd_store_8((v17.b + 6), (uint8_t)(v30 != 0ULL));
    nd_store_8((v17.b + 7), (uint8_t)v30);
    nd_store_32((v17.b + 8), (uint32_t)v32);
    v48 = (unsigned char *)((uintptr_t)v4 + 8);
    v49 = (unsigned char *)((uintptr_t)v4 + 24);
    nd_memset((v16.b + 2), 0, 5);
    v51 = nd_ndef_piece_write_write_head(v17.b, v16.b);
    v52 = nd_uadd_sat_i64(v51, v21);
    v53 = nd_uadd_sat_i64(v28, v52);
    v54 = nd_uadd_sat_i64(v30, v53);
    v55 = (unsigned char *)((uintptr_t)v4 + 40);
    switch (nd_load_8(v55)) {
    case 0: goto L1;
    case 1: goto L2;
    case 2: goto L3;
    case 3: goto L4;
    case 4: goto L5;
    case 5: goto L6;
    default: goto L7; }
L1:;
    v58 = nd_load_64(((unsigned char *)((uintptr_t)v4 + 72)));
    v59 = nd_uadd_sat_i64(v54, 1ULL);
    v62 = nd_uadd_sat_i64(nd_load_64(((unsigned char *)((uintptr_t)v4 + 56))), v59);
    v63 = nd_uadd_sat_i64(v58, v62);
    nd_store_64(v25, v63);
    goto L8;
L2:;
    v65 = nd_load_ptr(((unsigned char *)((uintptr_t)v4 + 64)));
    v67 = nd_load_64(((unsigned char *)((uintptr_t)v4 + 72)));
    v68 = nd_uadd_sat_i64(v54, 1ULL);
    v71 = nd_uadd_sat_i64(nd_load_64(((unsigned char *)((uintptr_t)v4 + 56))), v68);
    v72 = nd_uadd_sat_i64(v71, 2ULL);
    nd_store_64(v25, v72);
    nd_ndef_c_utf16_put_units(v18.b, v65, v67);
    goto L8;
L3:;
    v73 = nd_uadd_sat_i64(v54, 1ULL);
    v76 = nd_uadd_sat_i64(nd_load_64(((unsigned char *)((uintptr_t)v4 + 56))), v73);
    nd_store_64(v25, v76);
    goto L8;
L4:;
    v78 = nd_load_ptr(((unsigned char *)((uintptr_t)v4 + 48)));
    v80 = nd_load_ptr(((unsigned char *)((uintptr_t)v4 + 72)));
    v82 = nd_load_64(((unsigned char *)((uintptr_t)v4 + 80)));
    v84 = nd_load_ptr(((unsigned char *)((uintptr_t)v4 + 64)));
    v85 = nd_uadd_sat_i64(v54, 2ULL);
    v88 = nd_uadd_sat_i64(nd_load_64(((unsigned char *)((uintptr_t)v84 + 8))), v85);
    v89 = nd_uadd_sat_i64(v88, 1ULL);
    nd_store_64(v25, v89);
    nd_ndef_c_alternative_writing_put_references(v18.b, v78, v80, v82);
    goto L8;
L5:;
    v90 = nd_uadd_sat_i64(v54, 1ULL);
    v93 = nd_uadd_sat_i64(nd_load_64(((unsigned char *)((uintptr_t)v4 + 56))), v90);
    nd_store_64(v25, v93);
    goto L8;
L6:;
    v96 = nd_uadd_sat_i64(nd_load_64(((unsigned char *)((uintptr_t)v4 + 56))), v54);
    nd_store_64(v25, v96);
    goto L8;
L7:;
    nd_stop();
L8:;
    v97 = nd_load_64(v25);
    nd_store_64(v5, v97);
    if (v2 < v97) { v99 = 2U; goto L9; }
    goto L10;
L9:;
    return v99;
L10:;
    if (nd_load_64(v3) == 0ULL) goto L12;
    v104 = v1 + (ptrdiff_t)nd_load_64(((unsigned char *)((uintptr_t)v3 + 8)));
    nd_store_8(v104, (uint8_t)(nd_load_8(v104) + 192));
L12:;
    nd_store_ptr(v19.b, v1);
    nd_store_64((v19.b + 8), v2);
    v108 = v19.b + 16;
    v109 = nd_load_8(v4);
    v110 = nd_load_64(v27);
    v111 = nd_load_64(v29);
    v112 = nd_load_64(v31);
    nd_store_8(v15.b, v23);
    nd_store_8((v15.b + 1), 1);
    nd_store_8((v15.b + 2), 0);
    nd_store_8((v15.b + 3), (uint8_t)(v112 < 256ULL));
    nd_store_8((v15.b + 4), v109);
    nd_store_8((v15.b + 5), (uint8_t)v110);
    nd_store_8((v15.b + 6), (uint8_t)(v111 != 0ULL));
    nd_store_8((v15.b + 7), (uint8_t)v111);
    nd_store_32((v15.b + 8), (uint32_t)v112);
    v128 = nd_load_ptr(v48);
    v129 = nd_load_ptr(v49);
    nd_memset((v14.b + 2), 0, 5);
    v131 = nd_ndef_piece_write_write_head(v15.b, v14.b);
    v132 = nd_uadd_sat_i64(v131, v21);
    if (v132 > v2) goto L14;
    nd_core_slice_edits_slice_T_copy_from_slice(((unsigned char *)((uintptr_t)v1 + (uintptr_t)v21)), v14.b, v131);
L14:;
    nd_store_64(v108, v132);
    v135 = nd_uadd_sat_i64(v110, v132);
    if (v135 > v2) goto L16;
    nd_core_slice_edits_slice_T_copy_from_slice(((unsigned char *)((uintptr_t)v1 + (uintptr_t)v132)), v128, v110);
L16:;
    v138 = nd_uadd_sat_i64(v111, v135);
    if (v138 > v2) goto L18;
    nd_core_slice_edits_slice_T_copy_from_slice(((unsigned char *)((uintptr_t)v1 + (uintptr_t)v135)), v129, v111);
    nd_store_64(v108, v138);
    nd_core_slice_edits_slice_T_copy_from_slice(((unsigned char *)((uintptr_t)v1 + (uintptr_t)v138)), (unsigned char *)nd_data_static_50, 0ULL);
L18:;
    switch (nd_load_8(v55)) {
    case 0: goto L19;
    case 1: goto L25;
    case 2: goto L32;
    case 3: goto L36;
    case 4: goto L45;
    case 5: goto L49;
    default: goto L51; }
L19:;
    v144 = nd_load_ptr(((unsigned char *)((uintptr_t)v4 + 48)));
    v146 = nd_load_64(((unsigned char *)((uintptr_t)v4 + 56)));
    v148 = nd_load_ptr(((unsigned char *)((uintptr_t)v4 + 64)));
    v150 = nd_load_64(((unsigned char *)((uintptr_t)v4 + 72)));
    nd_store_8(v10.b, (uint8_t)v146);
    v152 = nd_uadd_sat_i64(v138, 1ULL);
    if (v152 > v2) goto L21;
    nd_core_slice_edits_slice_T_copy_from_slice(((unsigned char *)((uintptr_t)v1 + (uintptr_t)v138)), v10.b, 1ULL);
L21:;
    v155 = nd_uadd_sat_i64(v146, v152);
    if (v155 > v2) goto L23;
    nd_core_slice_edits_slice_T_copy_from_slice(((unsigned char *)((uintptr_t)v1 + (uintptr_t)v152)), v144, v146);
L23:;
    v158 = nd_uadd_sat_i64(v150, v155);
    if (v158 > v2) goto L52;
    nd_core_slice_edits_slice_T_copy_from_slice(((unsigned char *)((uintptr_t)v1 + (uintptr_t)v155)), v148, v150);
    goto L52;
L25:;
    v162 = nd_load_ptr(((unsigned char *)((uintptr_t)v4 + 48)));
    v164 = nd_load_64(((unsigned char *)((uintptr_t)v4 + 56)));
    v166 = nd_load_ptr(((unsigned char *)((uintptr_t)v4 + 64)));
    v168 = nd_load_64(((unsigned char *)((uintptr_t)v4 + 72)));
    nd_store_8(v11.b, (uint8_t)((uint8_t)v164 ^ 128));
    v171 = nd_uadd_sat_i64(v138, 1ULL);
    if (v171 > v2) goto L27;
    nd_core_slice_edits_slice_T_copy_from_slice(((unsigned char *)((uintptr_t)v1 + (uintptr_t)v138)), v11.b, 1ULL);
L27:;
    v174 = nd_uadd_sat_i64(v164, v171);
    if (v174 > v2) goto L29;
    nd_core_slice_edits_slice_T_copy_from_slice(((unsigned char *)((uintptr_t)v1 + (uintptr_t)v171)), v162, v164);
L29:;
    v177 = nd_uadd_sat_i64(v174, 2ULL);
    if (v177 > v2) goto L31;
    nd_core_slice_edits_slice_T_copy_from_slice(((unsigned char *)((uintptr_t)v1 + (uintptr_t)v174)), (unsigned char *)nd_data_static_88, 2ULL);
L31:;
    nd_store_64(v108, v177);
    nd_ndef_c_utf16_put_units(v19.b, v166, v168);
    goto L52;
L32:;
    v183 = nd_load_ptr(((unsigned char *)((uintptr_t)v4 + 48)));
    v185 = nd_load_64(((unsigned char *)((uintptr_t)v4 + 56)));
    nd_store_8(v12.b, nd_load_8(((unsigned char *)((uintptr_t)v4 + 41))));
    v186 = nd_uadd_sat_i64(v138, 1ULL);
    if (v186 > v2) goto L34;
    nd_core_slice_edits_slice_T_copy_from_slice(((unsigned char *)((uintptr_t)v1 + (uintptr_t)v138)), v12.b, 1ULL);
L34:;
    v189 = nd_uadd_sat_i64(v185, v186);
    if (v189 > v2) goto L52;
    nd_core_slice_edits_slice_T_copy_from_slice(((unsigned char *)((uintptr_t)v1 + (uintptr_t)v186)), v183, v185);
    nd_core_slice_edits_slice_T_copy_from_slice(((unsigned char *)((uintptr_t)v1 + (uintptr_t)v189)), (unsigned char *)nd_data_static_50, 0ULL);
    goto L52;
L36:;
    v196 = nd_load_ptr(((unsigned char *)((uintptr_t)v4 + 48)));
    v198 = nd_load_ptr(((unsigned char *)((uintptr_t)v4 + 64)));
    v200 = nd_load_ptr(((unsigned char *)((uintptr_t)v4 + 72)));
    v202 = nd_load_64(((unsigned char *)((uintptr_t)v4 + 80)));
    nd_store_8(v8.b, nd_load_8(((unsigned char *)((uintptr_t)v4 + 41))));
    v203 = nd_uadd_sat_i64(v138, 1ULL);
    if (v203 > v2) goto L38;
    nd_core_slice_edits_slice_T_copy_from_slice(((unsigned char *)((uintptr_t)v1 + (uintptr_t)v138)), v8.b, 1ULL);
L38:;
    v206 = (unsigned char *)((uintptr_t)v198 + 8);
    v207 = nd_load_64(v206);
    nd_store_8(v7.b, (uint8_t)v207);
    v209 = nd_uadd_sat_i64(v138, 2ULL);
    if (v209 > v2) { v213 = v207; goto L40; }
    nd_core_slice_edits_slice_T_copy_from_slice(((unsigned char *)((uintptr_t)v1 + (uintptr_t)v203)), v7.b, 1ULL);
    v213 = nd_load_64(v206);
L40:;
    v214 = nd_uadd_sat_i64(v213, v209);
    if (v214 > v2) goto L42;
    nd_core_slice_edits_slice_T_copy_from_slice(((unsigned char *)((uintptr_t)v1 + (uintptr_t)v209)), ((unsigned char *)((uintptr_t)v196 + (uintptr_t)nd_load_64(v198))), v213);
L42:;
    nd_store_8(v9.b, (uint8_t)v202);
    v220 = nd_uadd_sat_i64(v214, 1ULL);
    if (v220 > v2) goto L44;
    nd_core_slice_edits_slice_T_copy_from_slice(((unsigned char *)((uintptr_t)v1 + (uintptr_t)v214)), v9.b, 1ULL);
L44:;
    nd_store_64(v108, v220);
    nd_ndef_c_alternative_writing_put_references(v19.b, v196, v200, v202);
    goto L52;
L45:;
    v226 = nd_load_ptr(((unsigned char *)((uintptr_t)v4 + 48)));
    v228 = nd_load_64(((unsigned char *)((uintptr_t)v4 + 56)));
    nd_store_8(v13.b, nd_load_8(((unsigned char *)((uintptr_t)v4 + 41))));
    v229 = nd_uadd_sat_i64(v138, 1ULL);
    if (v229 > v2) goto L47;
    nd_core_slice_edits_slice_T_copy_from_slice(((unsigned char *)((uintptr_t)v1 + (uintptr_t)v138)), v13.b, 1ULL);
L47:;
    v232 = nd_uadd_sat_i64(v228, v229);
    if (v232 > v2) goto L52;
    nd_core_slice_edits_slice_T_copy_from_slice(((unsigned char *)((uintptr_t)v1 + (uintptr_t)v229)), v226, v228);
    nd_core_slice_edits_slice_T_copy_from_slice(((unsigned char *)((uintptr_t)v1 + (uintptr_t)v232)), (unsigned char *)nd_data_static_50, 0ULL);
    goto L52;
L49:;
    v237 = nd_load_64(((unsigned char *)((uintptr_t)v4 + 56)));
    v238 = nd_uadd_sat_i64(v237, v138);
    if (v238 > v2) goto L52;
    nd_core_slice_edits_slice_T_copy_from_slice(((unsigned char *)((uintptr_t)v1 + (uintptr_t)v138)), nd_load_ptr(((unsigned char *)((uintptr_t)v4 + 48))), v237);
    goto L52;
L51:;
    nd_stop();
L52:;
    v244 = (unsigned char *)((uintptr_t)v3 + 16);
    v245 = nd_load_32(v244);
    nd_store_64(v3, nd_load_64(v5));
    nd_store_64((v3 + 8), v21);
    nd_store_32(v244, (v245 + 1U));
    nd_store_32((v3 + 20), 0U);
    v99 = 0U;
    goto L9;
}

static void nd_ndef_c_text_text_content(unsigned char *v1, unsigned char *v2, uint64_t v3, unsigned char *v4, uint64_t v5, uint32_t v6) {
    uint64_t v19, v31, v32, v33, v35, v37;
    uint8_t v27, v29, v46;
    unsigned char *v54;
    ND_ROOM(16) v7;
    ND_ROOM(24) v8, v9, v10, v11;
    nd_memset(v8.b, 0, 24);
    nd_store_64((v10.b + 16), 0ULL);
    nd_store_64((v11.b + 16), 0ULL);
    if ((v3 > 63ULL) | (int)(v6 > 1U)) goto L11;
    nd_store_ptr(v7.b, v2);
    nd_store_64((v7.b + 8), v3);
    if (v3 < 8ULL) { v19 = 0ULL; goto L2; }
    goto L6;
L2:;
    if (v19 == v3) goto L12;
    if ((int8_t)nd_load_8((v2 + (ptrdiff_t)v19)) < (int8_t)0) goto L5;
    v19 = v19 + 1ULL;
    goto L2;
L5:;
    if (v19 < v3) goto L11;
    goto L13;
L6:;
    if (!(v3 > 31ULL)) goto L8;
    v27 = nd_core_slice_words_none_in_four(v7.b, 0ULL);
    v29 = nd_core_slice_words_none_in_four(v7.b, (v3 + 18446744073709551584ULL));
    if (v27 & v29) goto L12;
    goto L9;
L8:;
    v31 = v3 + 18446744073709551608ULL;
    v32 = nd_load_64(v2);
    v33 = nd_umin_i64(v31, 8ULL);
    v35 = nd_load_64((v2 + (ptrdiff_t)v33));
    v37 = nd_umin_i64(v31, 16ULL);
    if (((((v35 | v32) | nd_load_64((v2 + (ptrdiff_t)v37))) | nd_load_64((v2 + (ptrdiff_t)v31))) & 9259542123273814144ULL) == 0ULL) goto L12;
L9:;
    v46 = nd_core_slice_words_any_by_first(v7.b, v3);
    if (v46) goto L11;
    goto L13;
L10:;
    return;
L11:;
    nd_store_64(v1, 0ULL);
    nd_store_8(((unsigned char *)((uintptr_t)v1 + 8)), 0);
    nd_store_8(((unsigned char *)((uintptr_t)v1 + 9)), 0);
    nd_memset(((unsigned char *)((uintptr_t)v1 + 16)), 0, 40);
    goto L10;
L12:;
L13:;
    nd_simdutf8_basic_from_utf8(v8.b, v4, v5);
    if (!(nd_load_8(v8.b) == 0)) goto L15;
    v54 = (v6 == 0U) ? v10.b : v11.b;
    nd_memcpy(v54, (v8.b + 8), 16);
    nd_memcpy(v9.b, v54, 24);
    nd_store_64(v1, 1ULL);
    nd_store_8(((unsigned char *)((uintptr_t)v1 + 8)), (uint8_t)v6);
    nd_store_8(((unsigned char *)((uintptr_t)v1 + 9)), 0);
    nd_store_ptr(((unsigned char *)((uintptr_t)v1 + 16)), v2);
    nd_store_64(((unsigned char *)((uintptr_t)v1 + 24)), v3);
    nd_memcpy(((unsigned char *)((uintptr_t)v1 + 32)), v9.b, 24);
    goto L10;
L15:;
    nd_store_64(v1, 0ULL);
    nd_store_8(((unsigned char *)((uintptr_t)v1 + 8)), 0);
    nd_store_8(((unsigned char *)((uintptr_t)v1 + 9)), 0);
    nd_memset(((unsigned char *)((uintptr_t)v1 + 16)), 0, 40);
    goto L10;
}

static uint8_t nd_core_slice_words_any_by_first(unsigned char *v1, uint64_t v2) {
    uint64_t v3;
    v3 = nd_core_slice_words_first(v1, 0ULL, v2);
    return v3 < v2;
}

static void nd_ndef_c_layout_field_of(unsigned char *v1, unsigned char *v2) {
    uint32_t v7, v9, v19, v23;
    uint8_t v12, v20, v21, v22;
    switch (nd_load_32(v2)) {
    case 1U: goto L1;
    case 2U: goto L2;
    case 3U: { v19 = 0U; v20 = 0; v21 = 0; v22 = 2; v23 = 1U; goto L6; }
    case 4U: goto L3;
    case 5U: goto L4;
    default: goto L5; }
L1:;
    v19 = nd_load_32(((unsigned char *)((uintptr_t)v2 + 4)));
    v20 = 0;
    v21 = 0;
    v22 = 0;
    v23 = 1U;
    goto L6;
L2:;
    v7 = nd_load_32(((unsigned char *)((uintptr_t)v2 + 4)));
    v9 = nd_load_32(((unsigned char *)((uintptr_t)v2 + 8)));
    v12 = (v7 <= v9) & (int)(v9 < 256U);
    v19 = 0U;
    v20 = (uint8_t)(v12 ? (uint8_t)v9 : 0);
    v21 = (uint8_t)(v12 ? (uint8_t)v7 : 0);
    v22 = (uint8_t)v12;
    v23 = (uint32_t)v12;
    goto L6;
L3:;
    v19 = 0U;
    v20 = 0;
    v21 = 0;
    v22 = 3;
    v23 = 1U;
    goto L6;
L4:;
    v19 = 0U;
    v20 = 0;
    v21 = 0;
    v22 = 4;
    v23 = 1U;
    goto L6;
L5:;
    v19 = 0U;
    v20 = 0;
    v21 = 0;
    v22 = 0;
    v23 = 0U;
L6:;
    nd_store_32(v1, v23);
    nd_store_8(((unsigned char *)((uintptr_t)v1 + 4)), v22);
    nd_store_8(((unsigned char *)((uintptr_t)v1 + 5)), v21);
    nd_store_8(((unsigned char *)((uintptr_t)v1 + 6)), v20);
    nd_store_32(((unsigned char *)((uintptr_t)v1 + 8)), v19);
    return;
}

static uint8_t nd_ndef_c_layout_fits(unsigned char *v1, uint64_t v2, uint64_t v3) {
    unsigned char *v6, *v7, *v12, *v14;
    uint8_t v8, v18;
    uint64_t v9, v10, v11, v15, v20, v21, v22;
    ND_ROOM(12) v4;
    nd_store_64((v4.b + 4), 0ULL);
    v6 = v4.b + 4;
    v7 = v4.b + 8;
    v8 = 0;
    v9 = 0ULL;
    v10 = 0ULL;
    v11 = v2;
    v12 = v1;
L1:;
    if (v11 == 0ULL) goto L10;
    v14 = (unsigned char *)((uintptr_t)v12 + 12);
    v15 = v11 + 18446744073709551615ULL;
    nd_ndef_c_layout_field_of(v4.b, v12);
    if (!(nd_load_8(v4.b) == 1)) goto L9;
    v18 = nd_load_8(v6);
    switch (v18) {
    case 0: goto L4;
    case 1: { v21 = 1ULL; v22 = 1ULL; goto L8; }
    case 2: goto L5;
    case 3: goto L6;
    case 4: goto L6;
    default: goto L7; }
L4:;
    v20 = (uint64_t)nd_load_32(v7);
    v21 = v20;
    v22 = v20;
    goto L8;
L5:;
    v21 = 1ULL;
    v22 = 256ULL;
    goto L8;
L6:;
    v21 = 0ULL;
    v22 = 0ULL;
    goto L8;
L7:;
    nd_stop();
L8:;
    v8 = (uint8_t)(v8 ? 1 : ((uint8_t)(v18 + 253) < 2));
    v9 = v22 + v9;
    v10 = v21 + v10;
    v11 = v15;
    v12 = v14;
    goto L1;
L9:;
    nd_stop();
L10:;
    return (uint8_t)((v10 <= v3) ? (uint8_t)(v8 ? 1 : (v3 <= v9)) : 0);
}

static uint32_t nd_ndef_c_kinds_ndef_kind(unsigned char *v1, uint64_t v2, unsigned char *v3, uint32_t v4) {
    uint64_t v6, v8;
    uint32_t v10, v41;
    unsigned char *v16;
    uint8_t v19, v24, v31, v32, v36, v37, v38, v39;
    v6 = nd_load_64(((unsigned char *)((uintptr_t)v3 + 16)));
    v8 = nd_load_64(((unsigned char *)((uintptr_t)v3 + 24)));
    v10 = nd_load_32(((unsigned char *)((uintptr_t)v3 + 80)));
    if ((uint8_t)((v2 < v6) ? 1 : ((v2 - v6) < v8))) { v41 = 0U; goto L15; }
    v16 = (unsigned char *)((uintptr_t)v1 + (uintptr_t)v6);
    if (!(v10 < 6U)) { v41 = 0U; goto L15; }
    if (!(v10 == 1U)) { v32 = 0; goto L9; }
    switch (v8) {
    case 0ULL: { v32 = 0; goto L9; }
    case 1ULL: goto L4;
    default: goto L5; }
L4:;
    v19 = nd_ndef_format_kind_of_one(nd_load_8(v16));
    v32 = v19;
    goto L9;
L5:;
    if (!(v8 < 3ULL)) goto L7;
    v24 = nd_ndef_format_kind_of_two(nd_load_8(v16), nd_load_8(((unsigned char *)((uintptr_t)v16 + 1))));
    v32 = v24;
    goto L9;
L7:;
    if (!(v8 == 3ULL)) { v32 = 0; goto L9; }
    v31 = nd_ndef_format_kind_of_three(nd_load_8(v16), nd_load_8(((unsigned char *)((uintptr_t)v16 + 1))), nd_load_8(((unsigned char *)((uintptr_t)v16 + 2))));
    v32 = v31;
L9:;
    switch (v4) {
    case 0U: goto L10;
    case 3U: goto L11;
    case 4U: goto L12;
    case 5U: goto L13;
    default: { v39 = 0; goto L14; } }
L10:;
    v39 = (uint8_t)(((uint8_t)(v32 + 255) < 6) ? v32 : 0);
    goto L14;
L11:;
    v36 = nd_ndef_format_table_Table_checked(0, v32);
    v39 = v36;
    goto L14;
L12:;
    v37 = nd_ndef_format_table_Table_checked(1, v32);
    v39 = v37;
    goto L14;
L13:;
    v38 = nd_ndef_format_table_Table_checked(2, v32);
    v39 = v38;
L14:;
    v41 = (uint32_t)v39;
L15:;
    return v41;
}

static uint32_t nd_ndef_c_finding_find(unsigned char *v1, uint64_t v2, uint64_t v3, unsigned char *v4, unsigned char *v5) {
    uint32_t v11, v38, v39;
    unsigned char *v15, *v16, *v17, *v18, *v19, *v20, *v21, *v22, *v23, *v24, *v25, *v26, *v27, *v28, *v29, *v30, *v31, *v43, *v46, *v51, *v54;
    uint64_t v34, v35, v36, v37, v52;
    uint8_t v49, v50, v57, v58, v59, v60;
    ND_ROOM(32) v6, v7, v8;
    ND_ROOM(96) v9;
    if (v3 == v2) { v11 = 4U; goto L1; }
    goto L2;
L1:;
    return v11;
L2:;
    nd_store_ptr(v8.b, v1);
    nd_store_64((v8.b + 8), v2);
    nd_store_64((v8.b + 16), v3);
    nd_store_64((v8.b + 24), 0ULL);
    v15 = v9.b + 8;
    v16 = v9.b + 24;
    v17 = v9.b + 32;
    v18 = v9.b + 40;
    v19 = v9.b + 48;
    v20 = v9.b + 56;
    v21 = v9.b + 88;
    v22 = v9.b + 92;
    v23 = (unsigned char *)((uintptr_t)v4 + 8);
    v24 = (unsigned char *)((uintptr_t)v4 + 16);
    v25 = v6.b + 8;
    v26 = v6.b + 16;
    v27 = v6.b + 24;
    v28 = (unsigned char *)((uintptr_t)v4 + 4);
    v29 = v7.b + 8;
    v30 = v7.b + 16;
    v31 = v7.b + 24;
L3:;
    nd_ndef_c_walk_WalkIterator_next(v9.b, v8.b);
    if (!(nd_load_8(v9.b) == 1)) { v11 = 3U; goto L1; }
    v34 = nd_load_64(v16);
    v35 = nd_load_64(v17);
    v36 = nd_load_64(v18);
    v37 = nd_load_64(v19);
    v38 = nd_load_32(v21);
    v39 = nd_load_32(v22);
    if (!(nd_load_8(v4) == 0)) goto L10;
    v43 = nd_load_ptr(v23);
    if (!(v38 == nd_load_32(v28))) goto L20;
    v46 = (unsigned char *)((uintptr_t)v1 + (uintptr_t)v34);
    if (!(v35 == nd_load_64(v24))) goto L17;
    nd_store_ptr(v7.b, v46);
    nd_store_64(v29, v35);
    nd_store_ptr(v30, v43);
    nd_store_64(v31, v35);
    if (!(v35 < 4ULL)) goto L9;
    v49 = nd_core_slice_scan_any_by_one(v7.b, v35);
    if (v49) goto L20;
    goto L19;
L9:;
    v50 = nd_core_slice_scan_any_in_run(v7.b, 0ULL, 4ULL);
    if (v50) goto L17;
    goto L18;
L10:;
    v51 = nd_load_ptr(v23);
    v52 = nd_load_64(v24);
    if (v52 == 0ULL) goto L20;
    v54 = (unsigned char *)((uintptr_t)v1 + (uintptr_t)v36);
    if (!(v37 == v52)) goto L15;
    nd_store_ptr(v6.b, v54);
    nd_store_64(v25, v37);
    nd_store_ptr(v26, v51);
    nd_store_64(v27, v37);
    if (!(v37 < 4ULL)) goto L14;
    v57 = nd_core_slice_scan_any_by_one(v6.b, v37);
    if (v57) goto L20;
    goto L19;
L14:;
    v58 = nd_core_slice_scan_any_in_run(v6.b, 0ULL, 4ULL);
    if (!v58) goto L16;
L15:;
    goto L20;
L16:;
    v59 = nd_core_cmp_slices_groups_equal(v54, v37, v51, v37);
    if (v59) goto L19;
    goto L20;
L17:;
    goto L20;
L18:;
    v60 = nd_core_cmp_slices_groups_equal(v46, v35, v43, v35);
    if (!v60) goto L20;
L19:;
    nd_memcpy(v5, v15, 16);
    nd_store_64((v5 + 16), v34);
    nd_store_64((v5 + 24), v35);
    nd_store_64((v5 + 32), v36);
    nd_store_64((v5 + 40), v37);
    nd_memcpy((v5 + 48), v20, 32);
    nd_store_32((v5 + 80), v38);
    nd_store_32((v5 + 84), v39);
    v11 = 0U;
    goto L1;
L20:;
    if (v39 == 1U) { v11 = 4U; goto L1; }
    goto L3;
}

static uint8_t nd_ndef_c_titles_is_poster(unsigned char *v1, uint64_t v2) {
    uint8_t v3;
    v3 = nd_ndef_c_handover_is_nest(3, v1, v2);
    return v3;
}

static uint8_t nd_ndef_c_handover_is_nest(uint8_t v1, unsigned char *v2, uint64_t v3) {
    uint8_t v7, v10;
    ND_ROOM(24) v4;
    if (v3 > 4294967295ULL) { v10 = 0; goto L3; }
    v7 = nd_ndef_nest_member_is_nested((uint8_t)(v1 + 253), 65535U, 1, v2, v3);
    if (v7) { v10 = 1; goto L3; }
    nd_ndef_lang_place_refusal_of_2(v4.b, v1, 1, v2, v3);
    v10 = nd_load_8(v4.b) == 0;
L3:;
    return v10;
}

static void nd_ndef_lang_place_refusal_of_2(unsigned char *v1, uint8_t v2, uint8_t v3, unsigned char *v4, uint64_t v5) {
    uint8_t v8, v15;
    uint64_t v12;
    ND_ROOM(88) v6, v7;
    nd_ndef_nest_nest_NestLanguage_start(v7.b, v2, v3);
    nd_memcpy(v6.b, v7.b, 88);
    v8 = nd_ndef_nest_nest_NestLanguage_fits(v6.b, v5, v5);
    if (v8) goto L3;
    goto L2;
L1:;
    return;
L2:;
    nd_store_64(v1, 1ULL);
    nd_store_64(((unsigned char *)((uintptr_t)v1 + 8)), 0ULL);
    nd_store_8(((unsigned char *)((uintptr_t)v1 + 16)), 23);
    nd_memset(((unsigned char *)((uintptr_t)v1 + 17)), 0, 7);
    goto L1;
L3:;
    v12 = nd_ndef_nest_nest_NestLanguage_step_all(v6.b, v4, v5, v5, v5);
    if (!(v12 < v5)) goto L5;
    v15 = nd_load_8((v6.b + 80));
    nd_store_64(v1, 1ULL);
    nd_store_64(((unsigned char *)((uintptr_t)v1 + 8)), v12);
    nd_store_8(((unsigned char *)((uintptr_t)v1 + 16)), v15);
    nd_memset(((unsigned char *)((uintptr_t)v1 + 17)), 0, 7);
    goto L1;
L5:;
    nd_memset(v1, 0, 24);
    goto L1;
}

static void nd_ndef_c_nested_first_of(unsigned char *v1, uint8_t v2, unsigned char *v3, uint64_t v4, uint8_t v5) {
    unsigned char *v10, *v11, *v12, *v13, *v14;
    uint32_t v17;
    uint8_t v23;
    uint64_t v25, v26;
    ND_ROOM(32) v6;
    ND_ROOM(96) v7;
    nd_store_ptr(v6.b, v3);
    nd_store_64((v6.b + 8), v4);
    v10 = v7.b + 56;
    v11 = v7.b + 64;
    v12 = v7.b + 88;
    v13 = v7.b + 32;
    v14 = v7.b + 24;
    nd_memset((v6.b + 16), 0, 16);
L1:;
    nd_ndef_c_walk_WalkIterator_next(v7.b, v6.b);
    if (!(nd_load_8(v7.b) == 1)) goto L7;
    v17 = nd_load_32(v12);
    if (v17 < 6U) goto L4;
    nd_stop();
L4:;
    v23 = nd_ndef_format_table_Table_kind(v2, (uint8_t)v17, ((unsigned char *)((uintptr_t)v3 + (uintptr_t)nd_load_64(v14))), nd_load_64(v13));
    if (v23 == v5) goto L6;
    goto L1;
L5:;
    return;
L6:;
    v25 = nd_load_64(v11);
    v26 = nd_load_64(v10);
    nd_store_64(v1, 1ULL);
    nd_store_64(((unsigned char *)((uintptr_t)v1 + 8)), v26);
    nd_store_ptr(((unsigned char *)((uintptr_t)v1 + 16)), ((unsigned char *)((uintptr_t)v3 + (uintptr_t)v26)));
    nd_store_64(((unsigned char *)((uintptr_t)v1 + 24)), v25);
    goto L5;
L7:;
    nd_memset(v1, 0, 32);
    goto L5;
}

static uint32_t nd_ndef_c_fields_ndef_field_at(unsigned char *v1, uint64_t v2, unsigned char *v3, uint64_t v4, unsigned char *v5, unsigned char *v6) {
    uint32_t v18, v20, v31, v39, v40;
    unsigned char *v21, *v22;
    uint64_t v25, v26;
    ND_ROOM(32) v7;
    ND_ROOM(576) v8;
    ND_ROOM(20) v9;
    ND_ROOM(24) v10;
    nd_ndef_c_fields_typed_limits(v9.b, v3);
    if (!(nd_load_8(v9.b) == 1)) { v40 = 3U; goto L7; }
    nd_ndef_c_fields_checked_front(v10.b, v1, v2, (v9.b + 4), v6);
    v18 = nd_load_32((v10.b + 16));
    v20 = (v18 == 0U) ? 4U : v18;
    nd_ndef_fields_report_fields_before(v8.b, nd_load_ptr(v10.b), nd_load_64((v10.b + 8)));
    v21 = v7.b + 8;
    v22 = v7.b + 16;
L2:;
    nd_ndef_fields_message_fields_FieldsIterator_next(v7.b, v8.b);
    if (!(nd_load_8(v7.b) == 1)) goto L4;
    v25 = nd_load_64(v21);
    v26 = nd_load_64(v22);
    if ((v4 - v25) < v26) goto L5;
    goto L2;
L4:;
    v39 = v20;
    goto L6;
L5:;
    v31 = (uint32_t)nd_load_64((v7.b + 24));
    nd_store_64(v5, v25);
    nd_store_64((v5 + 8), v26);
    nd_store_32((v5 + 16), (v31 & 255U));
    nd_store_32((v5 + 20), (((v31 >> 8) & 255U) + 1U));
    v39 = 0U;
L6:;
    v40 = v39;
L7:;
    return v40;
}

static void nd_ndef_c_fields_typed_limits(unsigned char *v1, unsigned char *v2) {
    uint32_t v12;
    ND_ROOM(24) v3;
    ND_ROOM(16) v4;
    nd_memset(v4.b, 0, 16);
    nd_ndef_c_limits_limits_of(v3.b, v2);
    if (!(uint8_t)((nd_load_8(v3.b) == 1) ? (uint8_t)(nd_load_8((v3.b + 20)) & 1) : 0)) { v12 = 0U; goto L2; }
    nd_memcpy(v4.b, (v3.b + 4), 16);
    v12 = 1U;
L2:;
    nd_store_32(v1, v12);
    nd_memcpy(((unsigned char *)((uintptr_t)v1 + 4)), v4.b, 16);
    return;
}

static void nd_ndef_c_fields_checked_front(unsigned char *v1, unsigned char *v2, uint64_t v3, unsigned char *v4, unsigned char *v5) {
    uint32_t v7;
    uint64_t v8;
    ND_ROOM(16) v6;
    nd_memcpy(v6.b, v4, 16);
    v7 = nd_ndef_c_checking_check_in(v2, v3, v6.b, v5);
    v8 = nd_load_64(v5);
    nd_store_ptr(v1, v2);
    nd_store_64((v1 + 8), v8);
    nd_store_32((v1 + 16), v7);
    nd_store_32((v1 + 20), 0U);
    return;
}

static void nd_ndef_fields_report_fields_before(unsigned char *v1, unsigned char *v2, uint64_t v3) {
    struct nd_ptr_64 v10;
    uint64_t v12, v17, v21, v41;
    uint8_t v13, v24, v27, v32, v39, v40;
    unsigned char *v15, *v19;
    ND_ROOM(56) v4;
    ND_ROOM(120) v5;
    ND_ROOM(136) v6;
    ND_ROOM(384) v7;
    ND_ROOM(192) v8, v9;
    v10 = nd_ndef_fields_heads_after_pieces(v2, v3);
    v12 = v10.f1;
    nd_memset(v4.b, 0, 56);
    nd_ndef_fields_front_piece_front(v5.b, v10.f0, v12);
    v13 = nd_load_8(v5.b);
    v15 = nd_load_ptr((v5.b + 72));
    v17 = nd_load_64((v5.b + 80));
    v19 = nd_load_ptr((v5.b + 104));
    v21 = nd_load_64((v5.b + 112));
    if (!((uint8_t)(v13 & 32) == 0)) { v40 = 0; goto L8; }
    v24 = nd_ndef_piece_header_header_tnf(v13);
    if (!(v24 == 1)) { v40 = 0; goto L8; }
    switch (v17) {
    case 0ULL: { v40 = 0; goto L8; }
    case 1ULL: goto L3;
    default: goto L4; }
L3:;
    v27 = nd_ndef_format_kind_of_one(nd_load_8(v15));
    v40 = v27;
    goto L8;
L4:;
    if (!(v17 < 3ULL)) goto L6;
    v32 = nd_ndef_format_kind_of_two(nd_load_8(v15), nd_load_8(((unsigned char *)((uintptr_t)v15 + 1))));
    v40 = v32;
    goto L8;
L6:;
    if (!(v17 == 3ULL)) { v40 = 0; goto L8; }
    v39 = nd_ndef_format_kind_of_three(nd_load_8(v15), nd_load_8(((unsigned char *)((uintptr_t)v15 + 1))), nd_load_8(((unsigned char *)((uintptr_t)v15 + 2))));
    v40 = v39;
L8:;
    v41 = v3 - v12;
    nd_ndef_fields_payload_contents_of(v4.b, v40, v19, v21);
    nd_store_64(v6.b, 0ULL);
    nd_memcpy((v6.b + 8), (v5.b + 8), 64);
    nd_store_ptr((v6.b + 72), v15);
    nd_store_64((v6.b + 80), v17);
    nd_memcpy((v6.b + 88), (v5.b + 88), 16);
    nd_memcpy((v6.b + 104), v4.b, 32);
    nd_ndef_fields_begun_begin_with(v7.b, v41, v3, v6.b, v4.b);
    nd_memcpy(v8.b, v7.b, 192);
    nd_memcpy(v9.b, (v7.b + 192), 192);
    nd_memset(v1, 0, 16);
    nd_store_64((v1 + 16), 6ULL);
    nd_memset((v1 + 24), 0, 16);
    nd_store_ptr((v1 + 40), (unsigned char *)nd_data_static_50);
    nd_memset((v1 + 48), 0, 112);
    nd_store_ptr((v1 + 160), (unsigned char *)nd_data_static_50);
    nd_store_64((v1 + 168), 0ULL);
    nd_store_ptr((v1 + 176), v2);
    nd_store_64((v1 + 184), v41);
    nd_memcpy((v1 + 192), v8.b, 192);
    nd_memcpy((v1 + 384), v9.b, 192);
    return;
}

static struct nd_ptr_64 nd_ndef_fields_heads_after_pieces(unsigned char *v1, uint64_t v2) {
    unsigned char *v4, *v5, *v6;
    uint64_t v7;
    ND_ROOM(80) v3;
    v4 = v3.b + 64;
    v5 = v3.b + 72;
    v6 = v1;
    v7 = v2;
L1:;
    nd_ndef_piece_whole_whole_piece(v3.b, v6, v7);
    if (!(nd_load_8(v3.b) == 1)) goto L3;
    v6 = nd_load_ptr(v4);
    v7 = nd_load_64(v5);
    goto L1;
L3:;
    return (struct nd_ptr_64) { v6, v7 };
}

static void nd_ndef_fields_front_piece_front(unsigned char *v1, unsigned char *v2, uint64_t v3) {
    uint8_t v6;
    uint64_t v7, v9, v12, v14, v19, v27, v30, v32, v34, v37, v40, v41, v44, v46;
    unsigned char *v8, *v15, *v33;
    if (v3 == 0ULL) { v6 = 0; goto L2; }
    v6 = nd_load_8(v2);
L2:;
    v7 = nd_umin_i64(v3, 2ULL);
    v8 = (unsigned char *)((uintptr_t)v2 + (uintptr_t)v7);
    v9 = v3 - v7;
    v12 = ((uint8_t)(v6 & 16) == 0) ? 4ULL : 1ULL;
    v14 = (uint64_t)(v3 != 0ULL);
    v15 = (unsigned char *)((uintptr_t)v2 + (uintptr_t)v14);
    if (v3 < 2ULL) { v19 = 0ULL; goto L4; }
    v19 = (uint64_t)nd_load_8(v15);
L4:;
    if (!(((uint8_t)(v6 & 8) != 0) & (int)(v12 < v9))) { v27 = 0ULL; goto L6; }
    v27 = (uint64_t)nd_load_8((v8 + (ptrdiff_t)v12));
L6:;
    v30 = (uint64_t)(uint8_t)((uint8_t)(v6 >> 3) & 1);
    v32 = nd_umin_i64(v9, (v12 + v30));
    v33 = (unsigned char *)((uintptr_t)v8 + (uintptr_t)v32);
    v34 = v9 - v32;
    v37 = nd_umin_i64(v9, v12);
    v40 = nd_umin_i64((v9 - v37), v30);
    v41 = nd_umin_i64(v34, v19);
    v44 = nd_umin_i64((v34 - v41), v27);
    v46 = nd_umin_i64(v34, (v27 + v19));
    nd_store_8(v1, v6);
    nd_memset((v1 + 1), 0, 7);
    nd_store_ptr((v1 + 8), v2);
    nd_store_64((v1 + 16), v14);
    nd_store_ptr((v1 + 24), v15);
    nd_store_64((v1 + 32), (uint64_t)(v3 > 1ULL));
    nd_store_ptr((v1 + 40), v8);
    nd_store_64((v1 + 48), v37);
    nd_store_ptr((v1 + 56), ((unsigned char *)((uintptr_t)v8 + (uintptr_t)v37)));
    nd_store_64((v1 + 64), v40);
    nd_store_ptr((v1 + 72), v33);
    nd_store_64((v1 + 80), v41);
    nd_store_ptr((v1 + 88), ((unsigned char *)((uintptr_t)v33 + (uintptr_t)v41)));
    nd_store_64((v1 + 96), v44);
    nd_store_ptr((v1 + 104), ((unsigned char *)((uintptr_t)v33 + (uintptr_t)v46)));
    nd_store_64((v1 + 112), (v34 - v46));
    return;
}

static void nd_ndef_fields_payload_contents_of(unsigned char *v1, uint8_t v2, unsigned char *v3, uint64_t v4) {
    uint64_t v6, v8, v34, v37;
    uint8_t v7, v28, v29, v30, v31, v32, v33, v35;
    uint32_t v27;
    unsigned char *v36;
    ND_ROOM(12) v5;
    switch (v2) {
    case 3: { v6 = 0ULL; v7 = 0; goto L4; }
    case 4: goto L1;
    case 5: goto L2;
    case 0: goto L5;
    case 1: goto L5;
    case 2: goto L5;
    case 6: goto L5;
    case 7: goto L5;
    case 8: goto L5;
    case 9: goto L5;
    case 10: goto L5;
    case 11: goto L5;
    case 12: goto L5;
    default: goto L3; }
L1:;
    v6 = 1ULL;
    v7 = 1;
    goto L4;
L2:;
    v6 = 1ULL;
    v7 = 2;
    goto L4;
L3:;
    nd_stop();
L4:;
    v8 = nd_umin_i64(v4, v6);
    v27 = 0U;
    v28 = 1;
    v29 = 16;
    v30 = 0;
    v31 = 0;
    v32 = 0;
    v33 = 0;
    v34 = v8;
    v35 = v7;
    v36 = (unsigned char *)((uintptr_t)v3 + (uintptr_t)v8);
    v37 = v4 - v8;
    goto L6;
L5:;
    nd_memset(v5.b, 0, 12);
    nd_ndef_fields_stage_Stage_of(v5.b, (uint8_t)(((uint8_t)(v2 + 255) < 6) ? v2 : 0));
    v27 = nd_load_32((v5.b + 4));
    v28 = nd_load_8(v5.b);
    v29 = nd_load_8((v5.b + 1));
    v30 = nd_load_8((v5.b + 8));
    v31 = nd_load_8((v5.b + 9));
    v32 = nd_load_8((v5.b + 10));
    v33 = nd_load_8((v5.b + 11));
    v34 = v4;
    v35 = 0;
    v36 = (unsigned char *)nd_data_static_50;
    v37 = 0ULL;
L6:;
    nd_store_8(v1, v28);
    nd_store_8((v1 + 1), v29);
    nd_store_16((v1 + 2), 0);
    nd_store_32((v1 + 4), v27);
    nd_store_8((v1 + 8), v30);
    nd_store_8((v1 + 9), v31);
    nd_store_8((v1 + 10), v32);
    nd_store_8((v1 + 11), v33);
    nd_store_32((v1 + 12), 0U);
    nd_store_ptr((v1 + 16), v3);
    nd_store_64((v1 + 24), v34);
    nd_store_8((v1 + 32), v35);
    nd_memset((v1 + 33), 0, 7);
    nd_store_ptr((v1 + 40), v36);
    nd_store_64((v1 + 48), v37);
    return;
}

static void nd_ndef_fields_stage_Stage_of(unsigned char *v1, uint8_t v2) {
    uint8_t v5, v11, v14, v17;
    uint32_t v8;
    v5 = nd_load_8(((unsigned char *)nd_data_switch_table_ndef_fields_stage_Stage_of + (ptrdiff_t)(uint64_t)v2));
    v8 = nd_load_32(((unsigned char *)nd_data_switch_table_ndef_diagnostics_length_mismatch_length_mismatch + (ptrdiff_t)(uint64_t)v2 * 4));
    v11 = nd_load_8(((unsigned char *)nd_data_switch_table_ndef_diagnostics_length_mismatch_length_mismatch_12 + (ptrdiff_t)(uint64_t)v2));
    v14 = nd_load_8(((unsigned char *)nd_data_switch_table_ndef_fields_stage_Stage_of_8 + (ptrdiff_t)(uint64_t)v2));
    v17 = nd_load_8(((unsigned char *)nd_data_switch_table_ndef_fields_stage_Stage_of_9 + (ptrdiff_t)(uint64_t)v2));
    nd_store_8(v1, 3);
    nd_store_8(((unsigned char *)((uintptr_t)v1 + 1)), 0);
    nd_store_32(((unsigned char *)((uintptr_t)v1 + 4)), v8);
    nd_store_8(((unsigned char *)((uintptr_t)v1 + 8)), v5);
    nd_store_8(((unsigned char *)((uintptr_t)v1 + 9)), v11);
    nd_store_8(((unsigned char *)((uintptr_t)v1 + 10)), v14);
    nd_store_8(((unsigned char *)((uintptr_t)v1 + 11)), v17);
    return;
}

static void nd_ndef_fields_begun_begin_with(unsigned char *v1, uint64_t v2, uint64_t v3, unsigned char *v4, unsigned char *v5) {
    uint8_t v12, v17, v28, v34, v36, v38, v42, v44, v46, v48;
    unsigned char *v19;
    uint64_t v21, v24;
    struct nd_ptr_64 v22;
    uint32_t v40;
    ND_ROOM(120) v6;
    ND_ROOM(12) v7;
    ND_ROOM(96) v8, v10;
    ND_ROOM(32) v9;
    ND_ROOM(16) v11;
    v12 = nd_load_8(v4);
    nd_memcpy(v8.b, ((unsigned char *)((uintptr_t)v4 + 8)), 96);
    nd_memcpy(v9.b, ((unsigned char *)((uintptr_t)v4 + 104)), 32);
    v17 = nd_load_8((v5 + 32));
    v19 = nd_load_ptr((v5 + 40));
    v21 = nd_load_64((v5 + 48));
    v22 = nd_ndef_fields_heads_after_pieces(v19, v21);
    v24 = v22.f1;
    nd_memset(v7.b, 0, 12);
    nd_ndef_fields_front_piece_front(v6.b, v22.f0, v24);
    v28 = nd_ndef_piece_header_header_tnf(nd_load_8(v6.b));
    v34 = nd_ndef_format_table_Table_kind(v17, v28, nd_load_ptr((v6.b + 72)), nd_load_64((v6.b + 80)));
    nd_ndef_fields_stage_Stage_of(v7.b, v34);
    v36 = nd_load_8(v7.b);
    v38 = nd_load_8((v7.b + 1));
    v40 = nd_load_32((v7.b + 4));
    v42 = nd_load_8((v7.b + 8));
    v44 = nd_load_8((v7.b + 9));
    v46 = nd_load_8((v7.b + 10));
    v48 = nd_load_8((v7.b + 11));
    nd_memcpy(v11.b, (v6.b + 104), 16);
    nd_memcpy(v10.b, (v6.b + 8), 96);
    nd_store_64(v1, v2);
    nd_store_64((v1 + 8), 0ULL);
    nd_store_64((v1 + 16), (uint64_t)v12);
    nd_memcpy((v1 + 24), v8.b, 96);
    nd_memcpy((v1 + 120), v9.b, 32);
    nd_store_8((v1 + 152), v17);
    nd_memset((v1 + 153), 0, 7);
    nd_store_ptr((v1 + 160), v19);
    nd_store_64((v1 + 168), (v21 - v24));
    nd_store_ptr((v1 + 176), (unsigned char *)nd_data_static_50);
    nd_store_64((v1 + 184), 0ULL);
    nd_store_64((v1 + 192), (v3 - v24));
    nd_store_8((v1 + 200), 1);
    nd_memset((v1 + 201), 0, 15);
    nd_memcpy((v1 + 216), v10.b, 96);
    nd_store_8((v1 + 312), v36);
    nd_store_8((v1 + 313), v38);
    nd_store_16((v1 + 314), 0);
    nd_store_32((v1 + 316), v40);
    nd_store_8((v1 + 320), v42);
    nd_store_8((v1 + 321), v44);
    nd_store_8((v1 + 322), v46);
    nd_store_8((v1 + 323), v48);
    nd_store_32((v1 + 324), 0U);
    nd_memcpy((v1 + 328), v11.b, 16);
    nd_store_8((v1 + 344), v17);
    nd_memset((v1 + 345), 0, 7);
    nd_store_ptr((v1 + 352), (unsigned char *)nd_data_static_50);
    nd_store_64((v1 + 360), 0ULL);
    nd_store_ptr((v1 + 368), (unsigned char *)nd_data_static_50);
    nd_store_64((v1 + 376), 0ULL);
    return;
}

static void nd_ndef_fields_message_fields_FieldsIterator_next(unsigned char *v1, unsigned char *v2) {
    unsigned char *v14, *v20;
    uint8_t v21;
    ND_ROOM(223) v3, v7;
    ND_ROOM(224) v4, v6, v8;
    ND_ROOM(192) v5;
    nd_memset(v4.b, 0, 224);
    nd_memset(v6.b, 0, 224);
    nd_memset(v8.b, 0, 224);
    nd_memcpy(v5.b, v2, 192);
    nd_ndef_fields_cursor_tell(v4.b, v5.b);
    if (nd_load_8(v4.b) == 1) goto L2;
    goto L3;
L1:;
    return;
L2:;
    nd_memcpy(v2, (v4.b + 32), 192);
    nd_store_64(v1, 1ULL);
    nd_memcpy(((unsigned char *)((uintptr_t)v1 + 8)), (v4.b + 8), 24);
    goto L1;
L3:;
    v14 = (unsigned char *)((uintptr_t)v2 + 192);
    nd_memcpy(v5.b, v14, 192);
    nd_ndef_fields_cursor_tell(v6.b, v5.b);
    if (!(nd_load_8(v6.b) == 1)) goto L5;
    nd_memcpy(v14, (v6.b + 32), 192);
    nd_store_64(v1, 1ULL);
    nd_memcpy(((unsigned char *)((uintptr_t)v1 + 8)), (v6.b + 8), 24);
    goto L1;
L5:;
    v20 = (unsigned char *)((uintptr_t)v2 + 384);
    nd_memcpy(v5.b, v20, 192);
    nd_ndef_fields_cursor_tell(v8.b, v5.b);
    v21 = nd_load_8(v8.b);
    nd_memset(v3.b, 0, 7);
    if (!(v21 == 1)) goto L7;
    nd_memcpy((v3.b + 7), (v8.b + 8), 216);
    nd_memcpy(v7.b, v3.b, 223);
    nd_memcpy(v20, (v7.b + 31), 192);
    nd_store_64(v1, 1ULL);
    nd_memcpy(((unsigned char *)((uintptr_t)v1 + 8)), (v7.b + 7), 24);
    goto L1;
L7:;
    nd_memset(v1, 0, 32);
    goto L1;
}

static void nd_ndef_fields_cursor_tell(unsigned char *v1, unsigned char *v2) {
    uint64_t v14, v19, v21, v23, v25, v27, v29, v31, v33, v35, v37, v39, v41, v43, v65, v72, v76, v152, v153, v154, v155, v156, v157, v158, v159, v160, v161, v162, v163, v174, v177, v179, v180, v210, v211, v212, v213, v214, v215, v216, v217, v218, v229, v230, v232, v246, v248, v267, v269, v282, v283, v284, v285, v286, v287, v288, v289, v290, v292, v304, v305, v373, v375, v386, v387, v388, v389, v390, v391, v392, v393, v394, v395, v396, v397, v398, v406, v427, v429, v453, v454, v455, v456, v457, v458, v459, v460, v461, v462, v463, v464, v466, v477, v478, v481, v482, v483, v484, v485, v486, v487, v488, v489, v490, v491, v492, v493, v495, v507, v509, v512;
    uint8_t v16, v45, v47, v53, v55, v57, v59, v67, v164, v165, v168, v169, v170, v171, v175, v181, v182, v200, v201, v204, v205, v206, v207, v219, v220, v223, v224, v225, v226, v231, v260, v261, v262, v263, v265, v266, v268, v272, v273, v276, v277, v278, v279, v291, v293, v294, v295, v298, v299, v300, v301, v376, v377, v378, v379, v381, v382, v383, v384, v400, v404, v409, v414, v421, v422, v425, v468, v469, v472, v473, v474, v475, v479, v497, v498, v499, v502, v503, v504, v505, v508, v510;
    uint16_t v49, v166, v202, v221, v274, v296, v470, v500;
    uint32_t v51, v61, v167, v172, v203, v208, v222, v227, v264, v275, v280, v297, v302, v380, v467, v471, v496, v501;
    unsigned char *v63, *v70, *v74, *v83, *v84, *v85, *v86, *v87, *v88, *v89, *v90, *v91, *v92, *v93, *v94, *v95, *v96, *v97, *v98, *v99, *v100, *v101, *v102, *v103, *v104, *v105, *v106, *v107, *v108, *v109, *v110, *v111, *v112, *v113, *v114, *v115, *v116, *v117, *v118, *v119, *v120, *v121, *v122, *v123, *v124, *v125, *v126, *v127, *v128, *v129, *v130, *v131, *v132, *v133, *v134, *v135, *v136, *v137, *v138, *v139, *v140, *v141, *v142, *v143, *v144, *v145, *v146, *v147, *v148, *v149, *v150, *v151, *v173, *v176, *v178, *v209, *v228, *v281, *v303, *v372, *v374, *v385, *v405, *v426, *v428, *v465, *v476, *v480, *v494, *v506, *v511;
    ND_ROOM(72) v3;
    ND_ROOM(56) v4;
    ND_ROOM(80) v5, v7;
    ND_ROOM(120) v6, v8;
    ND_ROOM(12) v9;
    ND_ROOM(7) v10, v11, v77, v78, v80, v81;
    ND_ROOM(32) v12, v13;
    ND_ROOM(6) v79;
    v14 = nd_load_64(v2);
    v16 = nd_load_8((v2 + 8));
    v19 = nd_load_64((v2 + 16));
    v21 = nd_load_64((v2 + 24));
    v23 = nd_load_64((v2 + 32));
    v25 = nd_load_64((v2 + 40));
    v27 = nd_load_64((v2 + 48));
    v29 = nd_load_64((v2 + 56));
    v31 = nd_load_64((v2 + 64));
    v33 = nd_load_64((v2 + 72));
    v35 = nd_load_64((v2 + 80));
    v37 = nd_load_64((v2 + 88));
    v39 = nd_load_64((v2 + 96));
    v41 = nd_load_64((v2 + 104));
    v43 = nd_load_64((v2 + 112));
    v45 = nd_load_8((v2 + 120));
    v47 = nd_load_8((v2 + 121));
    v49 = nd_load_16((v2 + 122));
    v51 = nd_load_32((v2 + 124));
    v53 = nd_load_8((v2 + 128));
    v55 = nd_load_8((v2 + 129));
    v57 = nd_load_8((v2 + 130));
    v59 = nd_load_8((v2 + 131));
    v61 = nd_load_32((v2 + 132));
    v63 = nd_load_ptr((v2 + 136));
    v65 = nd_load_64((v2 + 144));
    v67 = nd_load_8((v2 + 152));
    v70 = nd_load_ptr((v2 + 160));
    v72 = nd_load_64((v2 + 168));
    v74 = nd_load_ptr((v2 + 176));
    v76 = nd_load_64((v2 + 184));
    nd_memset(v79.b, 0, 6);
    nd_memset(v80.b, 0, 7);
    nd_memset(v81.b, 0, 7);
    nd_memcpy(v77.b, (v2 + 9), 7);
    nd_memcpy(v78.b, (v2 + 153), 7);
    v83 = v13.b + 1;
    v84 = v13.b + 8;
    v85 = v13.b + 16;
    v86 = v12.b + 8;
    v87 = v12.b + 16;
    v88 = v12.b + 17;
    v89 = v12.b + 18;
    v90 = v12.b + 20;
    v91 = v12.b + 24;
    v92 = v12.b + 25;
    v93 = v12.b + 26;
    v94 = v12.b + 27;
    v95 = v5.b + 8;
    v96 = v6.b + 8;
    v97 = v3.b + 8;
    v98 = v3.b + 16;
    v99 = v3.b + 40;
    v100 = v3.b + 48;
    v101 = v4.b + 32;
    v102 = v4.b + 40;
    v103 = v3.b + 56;
    v104 = v3.b + 64;
    v105 = v4.b + 48;
    v106 = v6.b + 16;
    v107 = v6.b + 24;
    v108 = v6.b + 32;
    v109 = v6.b + 40;
    v110 = v6.b + 48;
    v111 = v6.b + 56;
    v112 = v6.b + 64;
    v113 = v6.b + 72;
    v114 = v6.b + 80;
    v115 = v6.b + 88;
    v116 = v6.b + 96;
    v117 = v4.b + 1;
    v118 = v4.b + 2;
    v119 = v4.b + 4;
    v120 = v4.b + 8;
    v121 = v4.b + 9;
    v122 = v4.b + 10;
    v123 = v4.b + 11;
    v124 = v4.b + 12;
    v125 = v4.b + 16;
    v126 = v4.b + 24;
    v127 = v7.b + 8;
    v128 = v7.b + 16;
    v129 = v7.b + 24;
    v130 = v7.b + 64;
    v131 = v7.b + 72;
    v132 = v8.b + 8;
    v133 = v7.b + 48;
    v134 = v9.b + 1;
    v135 = v9.b + 4;
    v136 = v9.b + 8;
    v137 = v9.b + 9;
    v138 = v9.b + 10;
    v139 = v9.b + 11;
    v140 = v7.b + 56;
    v141 = v8.b + 16;
    v142 = v8.b + 24;
    v143 = v8.b + 32;
    v144 = v8.b + 40;
    v145 = v8.b + 48;
    v146 = v8.b + 56;
    v147 = v8.b + 64;
    v148 = v8.b + 72;
    v149 = v8.b + 80;
    v150 = v8.b + 88;
    v151 = v8.b + 96;
    v152 = v21;
    v153 = v23;
    v154 = v25;
    v155 = v27;
    v156 = v29;
    v157 = v31;
    v158 = v33;
    v159 = v35;
    v160 = v37;
    v161 = v39;
    v162 = v41;
    v163 = v43;
    v164 = v45;
    v165 = v47;
    v166 = v49;
    v167 = v51;
    v168 = v53;
    v169 = v55;
    v170 = v57;
    v171 = v59;
    v172 = v61;
    v173 = v63;
    v174 = v65;
    v175 = v67;
    v176 = v70;
    v177 = v72;
    v178 = v74;
    v179 = v76;
    v180 = v14;
    v181 = v16;
    v182 = (uint8_t)v19;
L1:;
    v200 = (uint8_t)v152;
    v201 = (uint8_t)(v152 >> 8);
    v202 = (uint16_t)(v152 >> 16);
    v203 = (uint32_t)(v152 >> 32);
    v204 = (uint8_t)v153;
    v205 = (uint8_t)(v153 >> 8);
    v206 = (uint8_t)(v153 >> 16);
    v207 = (uint8_t)(v153 >> 24);
    v208 = (uint32_t)(v153 >> 32);
    v209 = (unsigned char *)(uintptr_t)v154;
    v210 = v155;
    v211 = v156;
    v212 = v157;
    v213 = v158;
    v214 = v159;
    v215 = v160;
    v216 = v161;
    v217 = v162;
    v218 = v163;
    v219 = v164;
    v220 = v165;
    v221 = v166;
    v222 = v167;
    v223 = v168;
    v224 = v169;
    v225 = v170;
    v226 = v171;
    v227 = v172;
    v228 = v173;
    v229 = v174;
    v230 = v180;
    v231 = v182;
L2:;
    v232 = (uint64_t)v203;
    switch (v231) {
    case 0: goto L3;
    case 1: goto L4;
    case 2: goto L5;
    case 3: goto L6;
    case 4: goto L7;
    case 5: { v272 = 0; v273 = 0; v274 = 0; v275 = 0U; v276 = 0; v277 = 0; v278 = 0; v279 = 0; v280 = 0U; v281 = (unsigned char *)0; v282 = 0ULL; v283 = 0ULL; v284 = 0ULL; v285 = 0ULL; v286 = 0ULL; v287 = 0ULL; v288 = 0ULL; v289 = 0ULL; v290 = 0ULL; v291 = v231; v292 = v218; v293 = 6; v294 = v219; v295 = v220; v296 = v221; v297 = v222; v298 = v223; v299 = v224; v300 = v225; v301 = v226; v302 = v227; v303 = v228; v304 = v229; goto L26; }
    case 6: goto L8;
    default: goto L25; }
L3:;
    v272 = v219;
    v273 = v220;
    v274 = v221;
    v275 = v222;
    v276 = v223;
    v277 = v224;
    v278 = v225;
    v279 = v226;
    v280 = v227;
    v281 = v228;
    v282 = v229;
    v283 = v211;
    v284 = v212;
    v285 = v213;
    v286 = v214;
    v287 = v215;
    v288 = v216;
    v289 = v217;
    v290 = v218;
    v291 = 0;
    v292 = ((((uint64_t)v208 << 32) | ((uint64_t)v206 << 16)) | ((uint64_t)v207 << 24)) | (((uint64_t)v205 << 8) | (uint64_t)v204);
    v293 = 1;
    v294 = v200;
    v295 = v201;
    v296 = v202;
    v297 = v203;
    v298 = v204;
    v299 = v205;
    v300 = v206;
    v301 = v207;
    v302 = v208;
    v303 = v209;
    v304 = v210;
    goto L26;
L4:;
    v272 = v219;
    v273 = v220;
    v274 = v221;
    v275 = v222;
    v276 = v223;
    v277 = v224;
    v278 = v225;
    v279 = v226;
    v280 = v227;
    v281 = v228;
    v282 = v229;
    v283 = v211;
    v284 = v212;
    v285 = v213;
    v286 = v214;
    v287 = v215;
    v288 = v216;
    v289 = v217;
    v290 = v218;
    v291 = 1;
    v292 = v210;
    v293 = 2;
    v294 = v200;
    v295 = v201;
    v296 = v202;
    v297 = v203;
    v298 = v204;
    v299 = v205;
    v300 = v206;
    v301 = v207;
    v302 = v208;
    v303 = v209;
    v304 = v210;
    goto L26;
L5:;
    v272 = v219;
    v273 = v220;
    v274 = v221;
    v275 = v222;
    v276 = v223;
    v277 = v224;
    v278 = v225;
    v279 = v226;
    v280 = v227;
    v281 = v228;
    v282 = v229;
    v283 = v211;
    v284 = v212;
    v285 = v213;
    v286 = v214;
    v287 = v215;
    v288 = v216;
    v289 = v217;
    v290 = v218;
    v291 = 2;
    v292 = v212;
    v293 = 3;
    v294 = v200;
    v295 = v201;
    v296 = v202;
    v297 = v203;
    v298 = v204;
    v299 = v205;
    v300 = v206;
    v301 = v207;
    v302 = v208;
    v303 = v209;
    v304 = v210;
    goto L26;
L6:;
    v272 = v219;
    v273 = v220;
    v274 = v221;
    v275 = v222;
    v276 = v223;
    v277 = v224;
    v278 = v225;
    v279 = v226;
    v280 = v227;
    v281 = v228;
    v282 = v229;
    v283 = v211;
    v284 = v212;
    v285 = v213;
    v286 = v214;
    v287 = v215;
    v288 = v216;
    v289 = v217;
    v290 = v218;
    v291 = 3;
    v292 = v214;
    v293 = 4;
    v294 = v200;
    v295 = v201;
    v296 = v202;
    v297 = v203;
    v298 = v204;
    v299 = v205;
    v300 = v206;
    v301 = v207;
    v302 = v208;
    v303 = v209;
    v304 = v210;
    goto L26;
L7:;
    v272 = v219;
    v273 = v220;
    v274 = v221;
    v275 = v222;
    v276 = v223;
    v277 = v224;
    v278 = v225;
    v279 = v226;
    v280 = v227;
    v281 = v228;
    v282 = v229;
    v283 = v211;
    v284 = v212;
    v285 = v213;
    v286 = v214;
    v287 = v215;
    v288 = v216;
    v289 = v217;
    v290 = v218;
    v291 = 4;
    v292 = v216;
    v293 = 5;
    v294 = v200;
    v295 = v201;
    v296 = v202;
    v297 = v203;
    v298 = v204;
    v299 = v205;
    v300 = v206;
    v301 = v207;
    v302 = v208;
    v303 = v209;
    v304 = v210;
    goto L26;
L8:;
    switch (v200) {
    case 0: goto L29;
    case 3: goto L10;
    case 1: { v260 = 0; v261 = 0; v262 = 0; v263 = 0; v264 = 0U; v265 = 0; v266 = 0; v267 = v210; v268 = v201; goto L24; }
    case 2: goto L9;
    default: goto L23; }
L9:;
    v246 = nd_ndef_fields_stage_mark_length(v209, v210);
    v260 = 0;
    v261 = 0;
    v262 = 0;
    v263 = 0;
    v264 = 0U;
    v265 = 10;
    v266 = 1;
    v267 = v246;
    v268 = 9;
    goto L24;
L10:;
    if (!(v203 == 0U)) goto L21;
    nd_memset(v12.b, 0, 32);
    nd_memset(v13.b, 0, 32);
    switch (v205) {
    case 0: goto L12;
    case 1: goto L12;
    case 2: goto L12;
    case 3: goto L13;
    case 10: goto L14;
    case 4: goto L18;
    case 5: goto L18;
    case 6: goto L18;
    case 7: goto L18;
    case 8: goto L18;
    case 9: goto L18;
    default: goto L19; }
L12:;
    nd_store_8(v12.b, v207);
    nd_store_64(v86, v210);
    nd_memset(v87, 0, 16);
    goto L20;
L13:;
    v248 = nd_ndef_fields_stage_mark_length(v209, v210);
    nd_store_8(v12.b, 9);
    nd_store_64(v86, v248);
    nd_store_8(v87, 1);
    nd_store_8(v88, 10);
    nd_memset(v89, 0, 14);
    goto L20;
L14:;
    if (!(v206 == 0)) goto L16;
    nd_store_8(v13.b, 24);
    nd_memset(v83, 0, 7);
    nd_store_64(v84, v210);
    nd_memset(v85, 0, 16);
    goto L17;
L16:;
    nd_ndef_fields_stage_cut_octet(v13.b, 10, v206, v209, v210);
L17:;
    nd_memcpy(v12.b, v13.b, 32);
    goto L20;
L18:;
    nd_ndef_fields_stage_cut_octet(v12.b, v205, v206, v209, v210);
    goto L20;
L19:;
    nd_stop();
L20:;
    v260 = nd_load_8(v94);
    v261 = nd_load_8(v93);
    v262 = nd_load_8(v92);
    v263 = nd_load_8(v91);
    v264 = nd_load_32(v90);
    v265 = nd_load_8(v88);
    v266 = nd_load_8(v87);
    v267 = nd_load_64(v86);
    v268 = nd_load_8(v12.b);
    goto L24;
L21:;
    if (v205 == 0) { v260 = 0; v261 = 0; v262 = 0; v263 = 0; v264 = 0U; v265 = 0; v266 = 0; v267 = v210; v268 = v207; goto L24; }
    v260 = v207;
    v261 = v206;
    v262 = v205;
    v263 = v204;
    v264 = 0U;
    v265 = 0;
    v266 = 3;
    v267 = v232;
    v268 = v204;
    goto L24;
L23:;
    nd_stop();
L24:;
    v269 = nd_umin_i64(v210, v267);
    v272 = 0;
    v273 = 0;
    v274 = 0;
    v275 = 0U;
    v276 = 0;
    v277 = 0;
    v278 = 0;
    v279 = 0;
    v280 = 0U;
    v281 = (unsigned char *)0;
    v282 = 0ULL;
    v283 = 0ULL;
    v284 = 0ULL;
    v285 = 0ULL;
    v286 = 0ULL;
    v287 = 0ULL;
    v288 = 0ULL;
    v289 = 0ULL;
    v290 = 0ULL;
    v291 = v268;
    v292 = v269;
    v293 = 6;
    v294 = v266;
    v295 = v265;
    v296 = 0;
    v297 = v264;
    v298 = v263;
    v299 = v262;
    v300 = v261;
    v301 = v260;
    v302 = 0U;
    v303 = (unsigned char *)((uintptr_t)v209 + (uintptr_t)v269);
    v304 = v210 - v269;
    goto L26;
L25:;
    nd_stop();
L26:;
    v305 = v292 + v230;
    if (v292 == 0ULL) { v200 = v294; v201 = v295; v202 = v296; v203 = v297; v204 = v298; v205 = v299; v206 = v300; v207 = v301; v208 = v302; v209 = v303; v210 = v304; v211 = v283; v212 = v284; v213 = v285; v214 = v286; v215 = v287; v216 = v288; v217 = v289; v218 = v290; v219 = v272; v220 = v273; v221 = v274; v222 = v275; v223 = v276; v224 = v277; v225 = v278; v226 = v279; v227 = v280; v228 = v281; v229 = v282; v230 = v305; v231 = v293; goto L2; }
    goto L28;
L27:;
    return;
L28:;
    nd_store_64(v1, 1ULL);
    nd_store_64((v1 + 8), v230);
    nd_store_64((v1 + 16), v292);
    nd_store_8((v1 + 24), v181);
    nd_store_8((v1 + 25), v291);
    nd_memcpy((v1 + 26), v79.b, 6);
    nd_store_64((v1 + 32), v305);
    nd_store_8((v1 + 40), v181);
    nd_memcpy((v1 + 41), v77.b, 7);
    nd_store_64((v1 + 48), (uint64_t)v293);
    nd_store_64((v1 + 56), (((((uint64_t)v297 << 32) | ((uint64_t)v296 << 16)) | ((uint64_t)v295 << 8)) | (uint64_t)v294));
    nd_store_64((v1 + 64), ((((((uint64_t)v302 << 32) | ((uint64_t)v301 << 24)) | ((uint64_t)v300 << 16)) | ((uint64_t)v299 << 8)) | (uint64_t)v298));
    nd_store_64((v1 + 72), (uint64_t)(uintptr_t)v303);
    nd_store_64((v1 + 80), v304);
    nd_store_64((v1 + 88), v283);
    nd_store_64((v1 + 96), v284);
    nd_store_64((v1 + 104), v285);
    nd_store_64((v1 + 112), v286);
    nd_store_64((v1 + 120), v287);
    nd_store_64((v1 + 128), v288);
    nd_store_64((v1 + 136), v289);
    nd_store_64((v1 + 144), v290);
    nd_store_8((v1 + 152), v272);
    nd_store_8((v1 + 153), v273);
    nd_store_16((v1 + 154), v274);
    nd_store_32((v1 + 156), v275);
    nd_store_8((v1 + 160), v276);
    nd_store_8((v1 + 161), v277);
    nd_store_8((v1 + 162), v278);
    nd_store_8((v1 + 163), v279);
    nd_store_32((v1 + 164), v280);
    nd_store_ptr((v1 + 168), v281);
    nd_store_64((v1 + 176), v282);
    nd_store_8((v1 + 184), v175);
    nd_memcpy((v1 + 185), v78.b, 7);
    nd_store_ptr((v1 + 192), v176);
    nd_store_64((v1 + 200), v177);
    nd_store_ptr((v1 + 208), v178);
    nd_store_64((v1 + 216), v179);
    goto L27;
L29:;
    nd_memset(v9.b, 0, 12);
    nd_ndef_piece_whole_whole_piece(v7.b, v176, v177);
    if (!(nd_load_8(v7.b) == 1)) goto L31;
    v372 = nd_load_ptr(v128);
    v373 = nd_load_64(v129);
    v374 = nd_load_ptr(v130);
    v375 = nd_load_64(v131);
    nd_ndef_fields_front_piece_front(v8.b, v176, v177);
    v376 = nd_ndef_piece_whole_WholePiece_tnf(v127);
    v377 = nd_ndef_format_table_Table_kind(v175, v376, v372, v373);
    nd_ndef_fields_stage_Stage_of(v9.b, v377);
    v378 = nd_load_8(v9.b);
    v379 = nd_load_8(v134);
    v380 = nd_load_32(v135);
    v381 = nd_load_8(v136);
    v382 = nd_load_8(v137);
    v383 = nd_load_8(v138);
    v384 = nd_load_8(v139);
    v385 = nd_load_ptr(v133);
    v386 = nd_load_64(v140);
    v387 = nd_load_64(v132);
    v388 = nd_load_64(v141);
    v389 = nd_load_64(v142);
    v390 = nd_load_64(v143);
    v391 = nd_load_64(v144);
    v392 = nd_load_64(v145);
    v393 = nd_load_64(v146);
    v394 = nd_load_64(v147);
    v395 = nd_load_64(v148);
    v396 = nd_load_64(v149);
    v397 = nd_load_64(v150);
    v398 = nd_load_64(v151);
    nd_memset(v10.b, 0, 7);
    nd_memset(v11.b, 0, 7);
    v482 = v387;
    v483 = v388;
    v484 = v389;
    v485 = v390;
    v486 = v391;
    v487 = v392;
    v488 = v393;
    v489 = v394;
    v490 = v395;
    v491 = v396;
    v492 = v397;
    v493 = v398;
    v494 = v385;
    v495 = v386;
    v496 = 0U;
    v497 = 1;
    v498 = v378;
    v499 = v379;
    v500 = 0;
    v501 = v380;
    v502 = v381;
    v503 = v382;
    v504 = v383;
    v505 = v384;
    v506 = v374;
    v507 = v375;
    v508 = 1;
    v509 = v230;
    v510 = v175;
    v511 = v178;
    v512 = v179;
    goto L43;
L31:;
    nd_memset(v4.b, 0, 56);
    nd_ndef_piece_whole_whole_piece(v5.b, v178, v179);
    v400 = nd_load_8(v5.b) == 1;
    if (!v400) goto L41;
    nd_memcpy(v3.b, v95, 72);
    nd_ndef_fields_front_piece_front(v6.b, v178, v179);
    if (!((uint8_t)(nd_load_8(v3.b) & 32) == 0)) { v422 = 0; goto L40; }
    v404 = nd_ndef_piece_whole_WholePiece_tnf(v3.b);
    v405 = nd_load_ptr(v97);
    v406 = nd_load_64(v98);
    if (!(v404 == 1)) { v422 = 0; goto L40; }
    switch (v406) {
    case 0ULL: { v422 = 0; goto L40; }
    case 1ULL: goto L35;
    default: goto L36; }
L35:;
    v409 = nd_ndef_format_kind_of_one(nd_load_8(v405));
    v422 = v409;
    goto L40;
L36:;
    if (!(v406 < 3ULL)) goto L38;
    v414 = nd_ndef_format_kind_of_two(nd_load_8(v405), nd_load_8(((unsigned char *)((uintptr_t)v405 + 1))));
    v422 = v414;
    goto L40;
L38:;
    if (!(v406 == 3ULL)) { v422 = 0; goto L40; }
    v421 = nd_ndef_format_kind_of_three(nd_load_8(v405), nd_load_8(((unsigned char *)((uintptr_t)v405 + 1))), nd_load_8(((unsigned char *)((uintptr_t)v405 + 2))));
    v422 = v421;
L40:;
    nd_ndef_fields_payload_contents_of(v4.b, v422, nd_load_ptr(v99), nd_load_64(v100));
    v425 = nd_load_8(v101);
    v426 = nd_load_ptr(v103);
    v427 = nd_load_64(v104);
    v428 = nd_load_ptr(v102);
    v429 = nd_load_64(v105);
    nd_memset(v10.b, 0, 7);
    v453 = nd_load_64(v96);
    v454 = nd_load_64(v106);
    v455 = nd_load_64(v107);
    v456 = nd_load_64(v108);
    v457 = nd_load_64(v109);
    v458 = nd_load_64(v110);
    v459 = nd_load_64(v111);
    v460 = nd_load_64(v112);
    v461 = nd_load_64(v113);
    v462 = nd_load_64(v114);
    v463 = nd_load_64(v115);
    v464 = nd_load_64(v116);
    v465 = nd_load_ptr(v125);
    v466 = nd_load_64(v126);
    v467 = nd_load_32(v124);
    v468 = nd_load_8(v4.b);
    v469 = nd_load_8(v117);
    v470 = nd_load_16(v118);
    v471 = nd_load_32(v119);
    v472 = nd_load_8(v120);
    v473 = nd_load_8(v121);
    v474 = nd_load_8(v122);
    v475 = nd_load_8(v123);
    v476 = v428;
    v477 = v429;
    v478 = v230;
    v479 = v425;
    v480 = v426;
    v481 = v427;
    goto L42;
L41:;
    nd_memset(v10.b, 0, 7);
    v453 = 0ULL;
    v454 = 0ULL;
    v455 = 0ULL;
    v456 = 0ULL;
    v457 = 0ULL;
    v458 = 0ULL;
    v459 = 0ULL;
    v460 = 0ULL;
    v461 = 0ULL;
    v462 = 0ULL;
    v463 = 0ULL;
    v464 = 0ULL;
    v465 = (unsigned char *)0;
    v466 = 0ULL;
    v467 = 0U;
    v468 = 0;
    v469 = 0;
    v470 = 0;
    v471 = 0U;
    v472 = 0;
    v473 = 0;
    v474 = 0;
    v475 = 0;
    v476 = (unsigned char *)0;
    v477 = 0ULL;
    v478 = 0ULL;
    v479 = 0;
    v480 = (unsigned char *)0;
    v481 = 0ULL;
L42:;
    nd_memset(v11.b, 0, 7);
    v482 = v453;
    v483 = v454;
    v484 = v455;
    v485 = v456;
    v486 = v457;
    v487 = v458;
    v488 = v459;
    v489 = v460;
    v490 = v461;
    v491 = v462;
    v492 = v463;
    v493 = v464;
    v494 = v465;
    v495 = v466;
    v496 = v467;
    v497 = 0;
    v498 = v468;
    v499 = v469;
    v500 = v470;
    v501 = v471;
    v502 = v472;
    v503 = v473;
    v504 = v474;
    v505 = v475;
    v506 = v476;
    v507 = v477;
    v508 = v400;
    v509 = v478;
    v510 = v479;
    v511 = v480;
    v512 = v481;
L43:;
    nd_memcpy(v80.b, v10.b, 7);
    nd_memcpy(v81.b, v11.b, 7);
    if (!v508) goto L45;
    nd_memcpy(v77.b, v80.b, 7);
    nd_memcpy(v78.b, v81.b, 7);
    v152 = v482;
    v153 = v483;
    v154 = v484;
    v155 = v485;
    v156 = v486;
    v157 = v487;
    v158 = v488;
    v159 = v489;
    v160 = v490;
    v161 = v491;
    v162 = v492;
    v163 = v493;
    v164 = v498;
    v165 = v499;
    v166 = v500;
    v167 = v501;
    v168 = v502;
    v169 = v503;
    v170 = v504;
    v171 = v505;
    v172 = v496;
    v173 = v494;
    v174 = v495;
    v175 = v510;
    v176 = v506;
    v177 = v507;
    v178 = v511;
    v179 = v512;
    v180 = v509;
    v181 = v497;
    v182 = 0;
    goto L1;
L45:;
    nd_memset(v1, 0, 224);
    goto L27;
}

static uint64_t nd_ndef_fields_stage_mark_length(unsigned char *v1, uint64_t v2) {
    uint64_t v11;
    if (v2 < 2ULL) goto L4;
    switch (nd_load_8(v1)) {
    case 254: goto L2;
    case 255: goto L3;
    default: goto L4; }
L2:;
    if (nd_load_8((v1 + 1)) == 255) { v11 = 2ULL; goto L5; }
    goto L4;
L3:;
    if (nd_load_8((v1 + 1)) == 254) { v11 = 2ULL; goto L5; }
L4:;
    v11 = 0ULL;
L5:;
    return v11;
}

static void nd_ndef_fields_stage_cut_octet(unsigned char *v1, uint8_t v2, uint8_t v3, unsigned char *v4, uint64_t v5) {
    uint8_t v9, v12, v15, v18, v23, v25, v26;
    uint32_t v21;
    ND_ROOM(12) v6;
    nd_memset(v6.b, 0, 12);
    v9 = nd_load_8(((unsigned char *)nd_data_switch_table_ndef_fields_stage_cut_octet + (ptrdiff_t)(uint64_t)v2));
    v12 = nd_load_8(((unsigned char *)nd_data_switch_table_ndef_fields_stage_cut_octet_10 + (ptrdiff_t)(uint64_t)v2));
    v15 = nd_load_8(((unsigned char *)nd_data_switch_table_ndef_fields_stage_cut_octet_11 + (ptrdiff_t)(uint64_t)v2));
    if (v5 == 0ULL) { v18 = 0; goto L2; }
    v18 = nd_load_8(v4);
L2:;
    nd_ndef_lang_leaf_Stage_field_after(v6.b, v2, v3, v18);
    v21 = nd_load_32((v6.b + 4));
    v23 = nd_load_8((v6.b + 9));
    v25 = nd_load_8((v6.b + 10));
    v26 = nd_load_8(v6.b) == 0;
    nd_store_8(v1, v9);
    nd_memset((v1 + 1), 0, 7);
    nd_store_64((v1 + 8), 1ULL);
    nd_store_8((v1 + 16), (uint8_t)(v26 ? 3 : 1));
    nd_store_8((v1 + 17), (uint8_t)(v26 ? 0 : v15));
    nd_store_16((v1 + 18), 0);
    nd_store_32((v1 + 20), (v26 ? v21 : 0U));
    nd_store_8((v1 + 24), (uint8_t)(v26 ? v12 : 0));
    nd_store_8((v1 + 25), (uint8_t)(v26 ? v23 : 0));
    nd_store_8((v1 + 26), (uint8_t)(v26 ? v25 : 0));
    nd_store_8((v1 + 27), (uint8_t)(v26 ? v15 : 0));
    nd_store_32((v1 + 28), 0U);
    return;
}

static void nd_ndef_c_hints_hint_of(unsigned char *v1, unsigned char *v2, uint64_t v3, unsigned char *v4) {
    uint64_t v14, v32, v47, v55, v56, v62, v77, v78, v83, v87, v88, v122, v124, v143, v147;
    uint8_t v16, v25, v26, v27, v28, v29, v30, v31, v35, v36, v51, v54, v106, v113, v117, v118, v127, v130, v142, v144, v145;
    uint32_t v17, v19, v21, v23, v84, v89, v103, v104, v105, v112, v146;
    unsigned char *v33, *v48;
    ND_ROOM(16) v5, v6, v7, v8, v9;
    ND_ROOM(24) v10;
    nd_memcpy(v9.b, v4, 16);
    nd_ndef_c_refusal_message_refusal_of(v10.b, v2, v3, v9.b);
    if (!(nd_load_8(v10.b) == 1)) { v143 = 0ULL; v144 = 0; v145 = 0; v146 = 0U; v147 = 0ULL; goto L65; }
    v14 = nd_load_64((v10.b + 8));
    v16 = nd_load_8((v10.b + 16));
    v17 = nd_load_32(v9.b);
    v19 = nd_load_32((v9.b + 4));
    v21 = nd_load_32((v9.b + 8));
    v23 = nd_load_32((v9.b + 12));
    if (!(v14 == 0ULL)) goto L57;
    v25 = nd_core_slice_reads_slice_T_starts_with(v2, v3, (unsigned char *)nd_data_static_147, 10ULL);
    if (v25) { v143 = 1ULL; v144 = 1; v145 = 1; v146 = 0U; v147 = 0ULL; goto L65; }
    v26 = nd_core_slice_reads_slice_T_starts_with(v2, v3, (unsigned char *)nd_data_static_148, 10ULL);
    if (v26) { v143 = 1ULL; v144 = 1; v145 = 2; v146 = 0U; v147 = 0ULL; goto L65; }
    v27 = nd_core_slice_reads_slice_T_starts_with(v2, v3, (unsigned char *)nd_data_static_149, 8ULL);
    if (v27) { v143 = 1ULL; v144 = 1; v145 = 3; v146 = 0U; v147 = 0ULL; goto L65; }
    v28 = nd_core_slice_reads_slice_T_starts_with(v2, v3, (unsigned char *)nd_data_static_150, 17ULL);
    if (v28) { v143 = 1ULL; v144 = 1; v145 = 4; v146 = 0U; v147 = 0ULL; goto L65; }
    v29 = nd_core_slice_reads_slice_T_starts_with(v2, v3, (unsigned char *)nd_data_static_151, 3ULL);
    if (v29) { v143 = 1ULL; v144 = 1; v145 = 5; v146 = 0U; v147 = 0ULL; goto L65; }
    v30 = nd_core_slice_reads_slice_T_starts_with(v2, v3, (unsigned char *)nd_data_static_152, 3ULL);
    if (v30) { v143 = 1ULL; v144 = 1; v145 = 5; v146 = 0U; v147 = 0ULL; goto L65; }
    v31 = nd_core_slice_reads_slice_T_starts_with(v2, v3, (unsigned char *)nd_data_static_153, 5ULL);
    if (v31) { v143 = 1ULL; v144 = 1; v145 = 5; v146 = 0U; v147 = 0ULL; goto L65; }
    v32 = v3;
    v33 = v2;
L9:;
    if (v32 == 0ULL) { v47 = v3; v48 = v2; goto L16; }
    v35 = nd_load_8(v33);
    v36 = nd_ndef_diagnostics_dump_text_is_digit(v35);
    if (v36) goto L15;
    switch (v35) {
    case 13: goto L15;
    case 32: goto L15;
    case 58: goto L15;
    default: goto L12; }
L12:;
    if (v35 < 9) goto L14;
    if ((v35 < 11) | (int)((uint8_t)(v35 & 254) == 44)) goto L15;
L14:;
    if (!((uint8_t)((uint8_t)(v35 + 168) & 223) == 0)) goto L19;
L15:;
    v32 = v32 + 18446744073709551615ULL;
    v33 = (unsigned char *)((uintptr_t)v33 + 1);
    goto L9;
L16:;
    if (v47 == 0ULL) goto L19;
    v51 = nd_ndef_diagnostics_dump_text_is_digit(nd_load_8(v48));
    if (v51) { v143 = 1ULL; v144 = 1; v145 = 0; v146 = 0U; v147 = 0ULL; goto L65; }
    v47 = v47 + 18446744073709551615ULL;
    v48 = (unsigned char *)((uintptr_t)v48 + 1);
    goto L16;
L19:;
    v54 = nd_ndef_diagnostics_dump_text_may_be_base64(v2, v3);
    if (v54) { v143 = 1ULL; v144 = 1; v145 = 6; v146 = 0U; v147 = 0ULL; goto L65; }
    v55 = nd_umin_i64(v3, 16777216ULL);
    v56 = 0ULL;
L21:;
    if (v56 == 17ULL) goto L27;
    if (!(v56 < v55)) goto L26;
    if (!(nd_load_8((v2 + (ptrdiff_t)v56)) == 225)) goto L26;
    v62 = v56 + 1ULL;
    if (!(v62 < v55)) goto L26;
    if (nd_load_8((v2 + (ptrdiff_t)v62)) == 16) goto L28;
L26:;
    v56 = v56 + 1ULL;
    goto L21;
L27:;
    if (v3 == 0ULL) { v77 = 0ULL; goto L33; }
    goto L29;
L28:;
    v77 = v56 + 4ULL;
    goto L33;
L29:;
    if (!((uint8_t)(nd_load_8(v2) + 31) < 2)) { v77 = 0ULL; goto L33; }
    if (!(v3 > 2ULL)) goto L32;
    if (!(nd_load_8((v2 + 2)) == 0)) { v77 = 4ULL; goto L33; }
L32:;
    v77 = 8ULL;
L33:;
    v78 = v77;
L34:;
    if (!(v78 < v55)) goto L45;
    switch (nd_load_8((v2 + (ptrdiff_t)v78))) {
    case 0: goto L36;
    case 1: goto L37;
    case 2: goto L37;
    case 253: goto L37;
    case 3: goto L39;
    default: goto L45; }
L36:;
    v87 = v78 + 1ULL;
    goto L38;
L37:;
    v83 = nd_ndef_diagnostics_tag_memory_value_at(v2, v55, v78);
    v84 = nd_ndef_diagnostics_tag_memory_value_length(v2, v55, v78);
    v87 = v83 + (uint64_t)v84;
L38:;
    v78 = v87;
    goto L34;
L39:;
    nd_memset(v8.b, 0, 16);
    v88 = nd_ndef_diagnostics_tag_memory_value_at(v2, v55, v78);
    v89 = nd_ndef_diagnostics_tag_memory_value_length(v2, v55, v78);
    if (v89 == 0U) goto L42;
    if (!(v88 < v55)) goto L43;
    if (!((int8_t)nd_load_8((v2 + (ptrdiff_t)v88)) < (int8_t)0)) goto L43;
L42:;
    nd_ndef_diagnostics_tag_memory_in_other(v8.b, v2, v55);
    v103 = v89;
    v104 = (uint32_t)v88;
    v105 = 0U;
    v106 = 1;
    goto L44;
L43:;
    nd_ndef_diagnostics_tag_memory_in_other(v8.b, v2, v55);
    v103 = nd_load_32((v8.b + 12));
    v104 = nd_load_32((v8.b + 8));
    v105 = nd_load_32((v8.b + 4));
    v106 = nd_load_8(v8.b);
L44:;
    nd_store_32((v7.b + 8), v104);
    nd_store_32((v7.b + 12), v103);
    v112 = v105;
    v113 = v106;
    goto L46;
L45:;
    nd_memset(v7.b, 0, 16);
    nd_ndef_diagnostics_tag_memory_in_other(v7.b, v2, v55);
    v112 = nd_load_32((v7.b + 4));
    v113 = nd_load_8(v7.b);
L46:;
    if (v113 == 1) { v143 = 1ULL; v144 = 0; v145 = 0; v146 = v112; v147 = nd_load_64((v7.b + 8)); goto L65; }
    v117 = v3 == 0ULL;
    if (v117) goto L49;
    v118 = nd_load_8(v2);
    switch (v118) {
    case 3: goto L49;
    case 1: goto L49;
    case 0: goto L49;
    default: { v130 = v118; goto L56; } }
L49:;
    nd_store_32(v6.b, v17);
    nd_store_32((v6.b + 4), v19);
    nd_store_32((v6.b + 8), v21);
    nd_store_32((v6.b + 12), v23);
    v122 = 1ULL;
L50:;
    if (v122 == 17ULL) goto L54;
    v124 = nd_umin_i64(v3, v122);
    v127 = nd_ndef_diagnostics_hint_begins(((unsigned char *)((uintptr_t)v2 + (uintptr_t)v124)), (v3 - v124), v6.b);
    if (v127) goto L53;
    v122 = v122 + 1ULL;
    goto L50;
L53:;
    v143 = 1ULL;
    v144 = 2;
    v145 = 0;
    v146 = 0U;
    v147 = v122;
    goto L65;
L54:;
    if (v117) goto L57;
    v130 = nd_load_8(v2);
L56:;
    if (v130 == 254) { v143 = 1ULL; v144 = 3; v145 = 0; v146 = 0U; v147 = 0ULL; goto L65; }
L57:;
    if (!((v14 < v3) & (int)(v16 == 18))) goto L60;
    if (nd_load_8((v2 + (ptrdiff_t)v14)) == 104) { v143 = 1ULL; v144 = 4; v145 = 0; v146 = 0U; v147 = 0ULL; goto L65; }
    goto L63;
L60:;
    switch (v16) {
    case 0: goto L63;
    case 18: goto L63;
    case 1: goto L62;
    case 2: goto L62;
    case 3: goto L62;
    case 4: goto L62;
    case 5: goto L62;
    case 6: goto L62;
    case 7: goto L62;
    case 8: goto L62;
    case 9: goto L62;
    case 10: goto L62;
    case 11: goto L62;
    case 12: goto L62;
    case 13: goto L62;
    case 14: goto L62;
    case 15: goto L62;
    case 16: goto L62;
    case 17: goto L62;
    case 19: goto L62;
    case 20: goto L62;
    case 21: goto L62;
    case 22: goto L62;
    case 23: goto L62;
    case 24: goto L62;
    default: goto L61; }
L61:;
    nd_stop();
L62:;
    goto L64;
L63:;
    nd_store_32(v5.b, v17);
    nd_store_32((v5.b + 4), v19);
    nd_store_32((v5.b + 8), v21);
    nd_store_8((v5.b + 12), 1);
    nd_memset((v5.b + 13), 0, 3);
    v142 = nd_ndef_diagnostics_hint_begins(v2, v3, v5.b);
    if (v142) { v143 = 1ULL; v144 = 5; v145 = 0; v146 = 0U; v147 = 0ULL; goto L65; }
L64:;
    v143 = 0ULL;
    v144 = 0;
    v145 = 0;
    v146 = 0U;
    v147 = 0ULL;
L65:;
    nd_store_64(v1, v143);
    nd_store_8(((unsigned char *)((uintptr_t)v1 + 8)), v144);
    nd_store_8(((unsigned char *)((uintptr_t)v1 + 9)), v145);
    nd_store_32(((unsigned char *)((uintptr_t)v1 + 12)), v146);
    nd_store_64(((unsigned char *)((uintptr_t)v1 + 16)), v147);
    return;
}

static void nd_ndef_c_refusal_message_refusal_of(unsigned char *v1, unsigned char *v2, uint64_t v3, unsigned char *v4) {
    uint8_t v8;
    ND_ROOM(16) v5, v7;
    ND_ROOM(32) v6;
    nd_memcpy(v5.b, v4, 16);
    nd_memset(v6.b, 0, 32);
    nd_memset(v7.b, 0, 16);
    nd_ndef_message_message_viewing_view(v6.b, v2, v3, v5.b);
    v8 = nd_load_8(v6.b);
    if (v8 == 0) goto L2;
    nd_memcpy(v7.b, (v6.b + 8), 16);
L2:;
    nd_store_64(v1, (uint64_t)v8);
    nd_memcpy(((unsigned char *)((uintptr_t)v1 + 8)), v7.b, 16);
    return;
}

static uint8_t nd_core_slice_reads_slice_T_starts_with(unsigned char *v1, uint64_t v2, unsigned char *v3, uint64_t v4) {
    uint8_t v7, v12, v13, v15, v18, v19, v20;
    ND_ROOM(32) v5;
    if (v2 < v4) { v7 = 0; goto L1; }
    goto L2;
L1:;
    return v7;
L2:;
    nd_store_ptr(v5.b, v3);
    nd_store_64((v5.b + 8), v4);
    nd_store_ptr((v5.b + 16), v1);
    nd_store_64((v5.b + 24), v4);
    if (!(v4 < 4ULL)) goto L4;
    v12 = nd_core_slice_scan_any_in_run(v5.b, 0ULL, 1ULL);
    v13 = nd_core_slice_scan_any_in_run(v5.b, 1ULL, 1ULL);
    v15 = nd_core_slice_scan_any_in_run(v5.b, 2ULL, 1ULL);
    v20 = (v12 | v13) | v15;
    goto L7;
L4:;
    if (!(v4 < 9ULL)) goto L6;
    v18 = nd_core_slice_scan_any_in_ends(v5.b, v4, 4ULL);
    v20 = v18;
    goto L7;
L6:;
    v19 = nd_core_slice_scan_any_in_quarters(v5.b, v4, 8ULL);
    v20 = v19;
L7:;
    v7 = v20 ^ 1;
    goto L1;
}

static uint8_t nd_ndef_diagnostics_dump_text_is_digit(uint8_t v1) {
    uint8_t v9;
    if (v1 < 48) goto L4;
    if (v1 < 58) { v9 = 1; goto L5; }
    if (v1 < 65) goto L4;
    if ((v1 < 71) | (int)((uint8_t)(v1 + 159) < 6)) { v9 = 1; goto L5; }
L4:;
    v9 = 0;
L5:;
    return v9;
}

static uint8_t nd_ndef_diagnostics_dump_text_may_be_base64(unsigned char *v1, uint64_t v2) {
    uint8_t v4, v15, v16, v24;
    uint64_t v11, v14;
    unsigned char *v12, *v13;
    if (v2 == 0ULL) { v24 = 0; goto L12; }
    v4 = nd_load_8(v1);
    if (v4 == 43) goto L4;
    if (v4 < 47) { v24 = 0; goto L12; }
    if (!((v4 < 58) | (int)((uint8_t)(v4 + 153) < 20))) { v24 = 0; goto L12; }
L4:;
    v11 = v2;
    v12 = v1;
L5:;
    v13 = (unsigned char *)((uintptr_t)v12 + 1);
    v14 = v11 + 18446744073709551615ULL;
    v15 = v14 == 0ULL;
    if (v15) { v24 = v15; goto L12; }
    v16 = nd_load_8(v13);
    switch (v16) {
    case 10: goto L11;
    case 13: goto L11;
    case 43: goto L11;
    case 61: goto L11;
    default: goto L7; }
L7:;
    if (v16 < 47) { v24 = v15; goto L12; }
    if (v16 < 58) goto L11;
    if (v16 < 65) { v24 = v15; goto L12; }
    if (!((v16 < 91) | (int)((uint8_t)(v16 + 159) < 26))) { v24 = v15; goto L12; }
L11:;
    v11 = v14;
    v12 = v13;
    goto L5;
L12:;
    return v24;
}

static uint64_t nd_ndef_diagnostics_tag_memory_value_at(unsigned char *v1, uint64_t v2, uint64_t v3) {
    uint64_t v4, v12;
    v4 = v3 + 1ULL;
    if (v4 < v2) goto L2;
    v12 = v3 + 2ULL;
    goto L3;
L2:;
    v12 = ((nd_load_8((v1 + (ptrdiff_t)v4)) == 255) ? 4ULL : 2ULL) + v3;
L3:;
    return v12;
}

static uint32_t nd_ndef_diagnostics_tag_memory_value_length(unsigned char *v1, uint64_t v2, uint64_t v3) {
    uint64_t v4;
    uint8_t v7;
    uint32_t v10, v12;
    v4 = v3 + 1ULL;
    if (!(v4 < v2)) { v12 = 0U; goto L4; }
    v7 = nd_load_8((v1 + (ptrdiff_t)v4));
    if (!(v7 == 255)) goto L3;
    v10 = nd_ndef_diagnostics_tag_memory_two_octets(v1, v2, (v3 + 2ULL));
    v12 = v10;
    goto L4;
L3:;
    v12 = (uint32_t)v7;
L4:;
    return v12;
}

static uint32_t nd_ndef_diagnostics_tag_memory_two_octets(unsigned char *v1, uint64_t v2, uint64_t v3) {
    uint32_t v9, v16;
    uint64_t v10;
    if (!(v3 < v2)) { v9 = 0U; goto L2; }
    v9 = (uint32_t)nd_load_8((v1 + (ptrdiff_t)v3)) << 8;
L2:;
    v10 = v3 + 1ULL;
    if (!(v10 < v2)) { v16 = v9; goto L4; }
    v16 = v9 | (uint32_t)nd_load_8((v1 + (ptrdiff_t)v10));
L4:;
    return v16;
}

static void nd_ndef_diagnostics_tag_memory_in_other(unsigned char *v1, unsigned char *v2, uint64_t v3) {
    uint8_t v5;
    uint64_t v7, v9;
    unsigned char *v8;
    uint32_t v10, v21, v27, v42, v47, v49, v50, v55, v56, v59, v61, v66, v74, v75, v76, v77;
    if (v3 == 0ULL) goto L21;
    v5 = nd_load_8(v2);
    if (!(v5 == 16)) goto L16;
    v7 = nd_umin_i64(v3, 14ULL);
    v8 = v2;
    v9 = v7;
    v10 = 0U;
L3:;
    if (v9 == 0ULL) goto L5;
    { unsigned char *t0 = ((unsigned char *)((uintptr_t)v8 + 1)); uint64_t t1 = (v9 + 18446744073709551615ULL); uint32_t t2 = (v10 + (uint32_t)nd_load_8(v8)); v8 = t0; v9 = t1; v10 = t2; goto L3; }
L5:;
    if (!(v3 > 14ULL)) { v27 = 0U; goto L8; }
    v21 = (uint32_t)nd_load_8((v2 + 14)) << 8;
    if (v3 == 15ULL) goto L9;
    v27 = v21 | (uint32_t)nd_load_8((v2 + 15));
L8:;
    if (v10 == v27) goto L11;
    goto L16;
L9:;
    if (!(v10 == v21)) { v61 = 4096U; goto L17; }
    v49 = (uint32_t)nd_load_8((v2 + 12)) << 8;
    v50 = (uint32_t)nd_load_8((v2 + 11)) << 16;
    goto L14;
L11:;
    if (!(v3 > 11ULL)) { v55 = 0U; v56 = 0U; goto L15; }
    v42 = (uint32_t)nd_load_8((v2 + 11)) << 16;
    if (v3 == 12ULL) { v55 = v42; v56 = 0U; goto L15; }
    v47 = (uint32_t)nd_load_8((v2 + 12)) << 8;
    if (v3 > 13ULL) { v49 = v47; v50 = v42; goto L14; }
    v55 = v42;
    v56 = v47;
    goto L15;
L14:;
    v55 = v50;
    v56 = v49 | (uint32_t)nd_load_8((v2 + 13));
L15:;
    v74 = 1U;
    v75 = 1U;
    v76 = 16U;
    v77 = v56 | v55;
    goto L22;
L16:;
    v59 = (uint32_t)v5 << 8;
    if (v3 == 1ULL) { v66 = v59; goto L18; }
    v61 = v59;
L17:;
    v66 = v61 | (uint32_t)nd_load_8((v2 + 1));
L18:;
    if (v66 == 0U) goto L21;
    if (v3 < (uint64_t)(v66 + 2U)) goto L21;
    if ((int8_t)nd_load_8((v2 + 2)) < (int8_t)0) { v74 = 1U; v75 = 2U; v76 = 2U; v77 = v66; goto L22; }
L21:;
    v74 = 0U;
    v75 = 0U;
    v76 = 0U;
    v77 = 0U;
L22:;
    nd_store_32(v1, v74);
    nd_store_32(((unsigned char *)((uintptr_t)v1 + 4)), v75);
    nd_store_32(((unsigned char *)((uintptr_t)v1 + 8)), v76);
    nd_store_32(((unsigned char *)((uintptr_t)v1 + 12)), v77);
    return;
}

static uint8_t nd_ndef_diagnostics_hint_begins(unsigned char *v1, uint64_t v2, unsigned char *v3) {
    uint32_t v11, v13, v15;
    uint8_t v17, v39, v40, v51, v56, v63, v64, v72, v79, v140, v221, v288, v369, v371, v372, v373, v380;
    unsigned char *v42, *v46, *v70, *v103, *v131, *v180, *v223, *v251, *v279, *v328;
    uint64_t v44, v48, v71, v74, v224;
    ND_ROOM(12) v4, v5;
    ND_ROOM(72) v6;
    ND_ROOM(80) v7;
    ND_ROOM(3) v8;
    ND_ROOM(24) v9;
    ND_ROOM(16) v10;
    v11 = nd_load_32(v3);
    v13 = nd_load_32((v3 + 4));
    v15 = nd_load_32((v3 + 8));
    v17 = nd_load_8((v3 + 12));
    nd_memcpy(v8.b, (v3 + 13), 3);
    nd_memset(v9.b, 0, 24);
    if (v2 == 0ULL) goto L67;
    if ((uint8_t)(nd_load_8(v1) & 64) == 0) goto L67;
    nd_ndef_piece_whole_whole_piece(v7.b, v1, v2);
    if (!(nd_load_8(v7.b) == 1)) goto L67;
    nd_memcpy(v6.b, (v7.b + 8), 72);
    if ((uint8_t)(nd_load_8(v6.b) & 64) == 0) goto L67;
    nd_store_8(v5.b, v17);
    nd_store_8((v5.b + 1), 1);
    nd_store_8((v5.b + 2), 0);
    nd_store_8((v5.b + 3), (uint8_t)(v15 == 1U));
    nd_store_8((v5.b + 4), (uint8_t)(v13 == 1U));
    nd_memset((v5.b + 5), 0, 3);
    nd_store_32((v5.b + 8), v11);
    v39 = nd_ndef_piece_whole_WholePiece_is_record_at(v6.b, v5.b);
    if (!v39) goto L66;
    v40 = nd_ndef_piece_whole_WholePiece_tnf(v6.b);
    v42 = nd_load_ptr((v6.b + 8));
    v44 = nd_load_64((v6.b + 16));
    v46 = nd_load_ptr((v6.b + 40));
    v48 = nd_load_64((v6.b + 48));
    if (!(v40 == 1)) goto L12;
    switch (v44) {
    case 0ULL: goto L12;
    case 1ULL: goto L7;
    default: goto L8; }
L7:;
    v51 = nd_ndef_format_kind_of_one(nd_load_8(v42));
    v64 = v51;
    goto L13;
L8:;
    if (!(v44 < 3ULL)) goto L10;
    v56 = nd_ndef_format_kind_of_two(nd_load_8(v42), nd_load_8(((unsigned char *)((uintptr_t)v42 + 1))));
    v64 = v56;
    goto L13;
L10:;
    if (!(v44 == 3ULL)) goto L12;
    v63 = nd_ndef_format_kind_of_three(nd_load_8(v42), nd_load_8(((unsigned char *)((uintptr_t)v42 + 1))), nd_load_8(((unsigned char *)((uintptr_t)v42 + 2))));
    v64 = v63;
    goto L13;
L12:;
    goto L62;
L13:;
    switch (v64) {
    case 3: { v372 = 0; goto L64; }
    case 4: goto L14;
    case 5: goto L15;
    case 0: goto L17;
    case 1: goto L17;
    case 2: goto L17;
    case 6: goto L17;
    case 7: goto L17;
    case 8: goto L17;
    case 9: goto L17;
    case 10: goto L17;
    case 11: goto L17;
    case 12: goto L17;
    default: goto L16; }
L14:;
    v372 = 1;
    goto L64;
L15:;
    v372 = 2;
    goto L64;
L16:;
    nd_stop();
L17:;
    nd_store_32((v4.b + 8), 1792U);
    switch ((uint8_t)(((uint8_t)(v64 + 255) < 6) ? v64 : 0)) {
    case 1: goto L18;
    case 2: goto L39;
    case 6: goto L60;
    case 0: goto L62;
    case 3: goto L62;
    case 4: goto L62;
    case 5: goto L62;
    default: goto L61; }
L18:;
    if (v48 == 0ULL) goto L63;
    v70 = (unsigned char *)((uintptr_t)v46 + 1);
    v71 = v48 + 18446744073709551615ULL;
    v72 = nd_load_8(v46);
    v74 = (uint64_t)(uint8_t)(v72 & 63);
    if (((uint8_t)(v72 & 64) != 0) | (int)(v71 < v74)) goto L63;
    v79 = (int8_t)v72 < (int8_t)0;
    if ((v48 > 64ULL) | v79) goto L38;
    if (!(v48 < 9ULL)) goto L32;
    if (v48 < 5ULL) goto L25;
    if (!(((((((uint32_t)nd_load_8(((unsigned char *)((uintptr_t)v46 + 2))) << 8) | (uint32_t)nd_load_8(v70)) | ((uint32_t)nd_load_8(((unsigned char *)((uintptr_t)v46 + 3))) << 16)) | ((uint32_t)nd_load_8(((unsigned char *)((uintptr_t)v46 + 4))) << 24)) & 2155905152U) == 0U)) goto L38;
    v103 = (unsigned char *)((uintptr_t)v46 + (uintptr_t)v48);
    if (((((((uint32_t)nd_load_8(((unsigned char *)((uintptr_t)v103 - 3))) << 8) | (uint32_t)nd_load_8(((unsigned char *)((uintptr_t)v103 - 4)))) | ((uint32_t)nd_load_8(((unsigned char *)((uintptr_t)v103 - 2))) << 16)) | ((uint32_t)nd_load_8(((unsigned char *)((uintptr_t)v103 - 1))) << 24)) & 2155905152U) == 0U) goto L62;
    goto L38;
L25:;
    switch (v48) {
    case 1ULL: goto L62;
    case 2ULL: goto L26;
    case 4ULL: goto L29;
    default: goto L27; }
L26:;
    if ((int8_t)nd_load_8(v70) > (int8_t)255) goto L62;
    goto L38;
L27:;
    if (!((int8_t)nd_load_8(v70) > (int8_t)255)) goto L38;
    if ((int8_t)nd_load_8(((unsigned char *)((uintptr_t)v46 + 2))) > (int8_t)255) goto L62;
    goto L38;
L29:;
    v131 = (unsigned char *)((uintptr_t)v46 + 3);
    if (!((int8_t)nd_load_8(v70) > (int8_t)255)) goto L38;
    if (!((int8_t)nd_load_8(((unsigned char *)((uintptr_t)v46 + 2))) > (int8_t)255)) goto L38;
    if ((int8_t)nd_load_8(v131) > (int8_t)255) goto L62;
    goto L38;
L32:;
    if (!(v71 > 16ULL)) goto L34;
    v140 = nd_ndef_lang_ascii_are_many(v70, v71);
    if (v140) goto L62;
    goto L38;
L34:;
    if (!(((((((uint32_t)nd_load_8(((unsigned char *)((uintptr_t)v46 + 2))) << 8) | (uint32_t)nd_load_8(v70)) | ((uint32_t)nd_load_8(((unsigned char *)((uintptr_t)v46 + 3))) << 16)) | ((uint32_t)nd_load_8(((unsigned char *)((uintptr_t)v46 + 4))) << 24)) & 2155905152U) == 0U)) goto L38;
    if (!(((((((uint32_t)nd_load_8(((unsigned char *)((uintptr_t)v46 + 6))) << 8) | (uint32_t)nd_load_8(((unsigned char *)((uintptr_t)v46 + 5)))) | ((uint32_t)nd_load_8(((unsigned char *)((uintptr_t)v46 + 7))) << 16)) | ((uint32_t)nd_load_8(((unsigned char *)((uintptr_t)v46 + 8))) << 24)) & 2155905152U) == 0U)) goto L38;
    v180 = (unsigned char *)((uintptr_t)v46 + (uintptr_t)v48);
    if (!(((((((uint32_t)nd_load_8(((unsigned char *)((uintptr_t)v180 - 7))) << 8) | (uint32_t)nd_load_8(((unsigned char *)((uintptr_t)v180 - 8)))) | ((uint32_t)nd_load_8(((unsigned char *)((uintptr_t)v180 - 6))) << 16)) | ((uint32_t)nd_load_8(((unsigned char *)((uintptr_t)v180 - 5))) << 24)) & 2155905152U) == 0U)) goto L38;
    if (((((((uint32_t)nd_load_8(((unsigned char *)((uintptr_t)v180 - 3))) << 8) | (uint32_t)nd_load_8(((unsigned char *)((uintptr_t)v180 - 4)))) | ((uint32_t)nd_load_8(((unsigned char *)((uintptr_t)v180 - 2))) << 16)) | ((uint32_t)nd_load_8(((unsigned char *)((uintptr_t)v180 - 1))) << 24)) & 2155905152U) == 0U) goto L62;
L38:;
    v221 = nd_ndef_lang_member_is_coded_text(v74, v79, v70, v71);
    if (v221) goto L65;
    goto L67;
L39:;
    if (v48 == 0ULL) goto L63;
    v223 = (unsigned char *)((uintptr_t)v46 + 1);
    v224 = v48 + 18446744073709551615ULL;
    if (!(uint8_t)((nd_load_8(v46) < 36) ? 1 : (v17 == 1))) goto L63;
    if (!(v48 < 65ULL)) goto L59;
    if (!(v48 < 9ULL)) goto L53;
    if (v48 < 5ULL) goto L46;
    if (!(((((((uint32_t)nd_load_8(((unsigned char *)((uintptr_t)v46 + 2))) << 8) | (uint32_t)nd_load_8(v223)) | ((uint32_t)nd_load_8(((unsigned char *)((uintptr_t)v46 + 3))) << 16)) | ((uint32_t)nd_load_8(((unsigned char *)((uintptr_t)v46 + 4))) << 24)) & 2155905152U) == 0U)) goto L59;
    v251 = (unsigned char *)((uintptr_t)v46 + (uintptr_t)v48);
    if (((((((uint32_t)nd_load_8(((unsigned char *)((uintptr_t)v251 - 3))) << 8) | (uint32_t)nd_load_8(((unsigned char *)((uintptr_t)v251 - 4)))) | ((uint32_t)nd_load_8(((unsigned char *)((uintptr_t)v251 - 2))) << 16)) | ((uint32_t)nd_load_8(((unsigned char *)((uintptr_t)v251 - 1))) << 24)) & 2155905152U) == 0U) goto L62;
    goto L59;
L46:;
    switch (v48) {
    case 1ULL: goto L62;
    case 2ULL: goto L47;
    case 4ULL: goto L50;
    default: goto L48; }
L47:;
    if ((int8_t)nd_load_8(v223) > (int8_t)255) goto L62;
    goto L59;
L48:;
    if (!((int8_t)nd_load_8(v223) > (int8_t)255)) goto L59;
    if ((int8_t)nd_load_8(((unsigned char *)((uintptr_t)v46 + 2))) > (int8_t)255) goto L62;
    goto L59;
L50:;
    v279 = (unsigned char *)((uintptr_t)v46 + 3);
    if (!((int8_t)nd_load_8(v223) > (int8_t)255)) goto L59;
    if (!((int8_t)nd_load_8(((unsigned char *)((uintptr_t)v46 + 2))) > (int8_t)255)) goto L59;
    if ((int8_t)nd_load_8(v279) > (int8_t)255) goto L62;
    goto L59;
L53:;
    if (!(v224 > 16ULL)) goto L55;
    v288 = nd_ndef_lang_ascii_are_many(v223, v224);
    if (v288) goto L62;
    goto L59;
L55:;
    if (!(((((((uint32_t)nd_load_8(((unsigned char *)((uintptr_t)v46 + 2))) << 8) | (uint32_t)nd_load_8(v223)) | ((uint32_t)nd_load_8(((unsigned char *)((uintptr_t)v46 + 3))) << 16)) | ((uint32_t)nd_load_8(((unsigned char *)((uintptr_t)v46 + 4))) << 24)) & 2155905152U) == 0U)) goto L59;
    if (!(((((((uint32_t)nd_load_8(((unsigned char *)((uintptr_t)v46 + 6))) << 8) | (uint32_t)nd_load_8(((unsigned char *)((uintptr_t)v46 + 5)))) | ((uint32_t)nd_load_8(((unsigned char *)((uintptr_t)v46 + 7))) << 16)) | ((uint32_t)nd_load_8(((unsigned char *)((uintptr_t)v46 + 8))) << 24)) & 2155905152U) == 0U)) goto L59;
    v328 = (unsigned char *)((uintptr_t)v46 + (uintptr_t)v48);
    if (!(((((((uint32_t)nd_load_8(((unsigned char *)((uintptr_t)v328 - 7))) << 8) | (uint32_t)nd_load_8(((unsigned char *)((uintptr_t)v328 - 8)))) | ((uint32_t)nd_load_8(((unsigned char *)((uintptr_t)v328 - 6))) << 16)) | ((uint32_t)nd_load_8(((unsigned char *)((uintptr_t)v328 - 5))) << 24)) & 2155905152U) == 0U)) goto L59;
    if (((((((uint32_t)nd_load_8(((unsigned char *)((uintptr_t)v328 - 3))) << 8) | (uint32_t)nd_load_8(((unsigned char *)((uintptr_t)v328 - 4)))) | ((uint32_t)nd_load_8(((unsigned char *)((uintptr_t)v328 - 2))) << 16)) | ((uint32_t)nd_load_8(((unsigned char *)((uintptr_t)v328 - 1))) << 24)) & 2155905152U) == 0U) goto L62;
L59:;
    v369 = nd_ndef_lang_member_is_long_utf8(v223, v224);
    if (v369) goto L65;
    goto L67;
L60:;
    nd_store_32(v4.b, 0U);
    nd_store_32((v4.b + 4), 1U);
    v371 = nd_ndef_lang_leaf_Leaf_is_completed_by(v4.b, v46, v48);
    if (v371) goto L65;
    goto L67;
L61:;
    nd_stop();
L62:;
    goto L65;
L63:;
    goto L66;
L64:;
    v373 = nd_ndef_nest_member_is_nested(v372, v13, v17, v46, v48);
    if (!v373) goto L67;
L65:;
    v380 = 1;
    goto L68;
L66:;
L67:;
    nd_store_32(v10.b, v11);
    nd_store_32((v10.b + 4), v13);
    nd_store_32((v10.b + 8), v15);
    nd_store_8((v10.b + 12), v17);
    nd_memcpy((v10.b + 13), v8.b, 3);
    nd_ndef_message_judging_judge_4(v9.b, v10.b, v1, v2);
    v380 = nd_load_8(v9.b) == 0;
L68:;
    return v380;
}

static void nd_ndef_message_judging_judge_4(unsigned char *v1, unsigned char *v2, unsigned char *v3, uint64_t v4) {
    uint32_t v15, v17, v19, v131, v132, v133, v154, v483, v484, v485, v493, v494, v503, v504, v505, v506, v507, v508, v513, v514, v515, v523, v539;
    uint8_t v21, v25, v73, v113, v115, v129, v135, v142, v145, v147, v149, v150, v151, v159, v164, v171, v172, v179, v186, v247, v328, v395, v476, v477, v478, v479, v486, v487, v490, v499, v511, v516, v531;
    unsigned char *v22, *v56, *v57, *v58, *v60, *v61, *v62, *v63, *v64, *v65, *v66, *v74, *v75, *v76, *v77, *v78, *v79, *v80, *v81, *v82, *v83, *v84, *v85, *v86, *v87, *v88, *v89, *v90, *v91, *v92, *v93, *v94, *v95, *v96, *v97, *v98, *v99, *v100, *v101, *v102, *v103, *v104, *v105, *v106, *v107, *v108, *v109, *v110, *v111, *v116, *v152, *v155, *v177, *v210, *v238, *v287, *v330, *v358, *v386, *v435;
    struct nd_8_8 v37;
    uint64_t v40, v112, v117, v134, v137, v140, v141, v153, v156, v178, v181, v331, v482, v491, v502, v509, v510, v526, v530, v532, v534, v536, v543, v545;
    uint16_t v130, v512;
    ND_ROOM(12) v5, v6, v7, v11, v13, v14;
    ND_ROOM(72) v8;
    ND_ROOM(16) v9;
    ND_ROOM(80) v10;
    ND_ROOM(24) v12;
    ND_ROOM(464) v23;
    ND_ROOM(48) v24;
    v15 = nd_load_32(v2);
    v17 = nd_load_32((v2 + 4));
    v19 = nd_load_32((v2 + 8));
    v21 = nd_load_8((v2 + 12));
    v22 = v2 + 13;
    v25 = v4 == 0ULL;
    if (v25) goto L4;
    nd_store_8(v14.b, v21);
    nd_store_8((v14.b + 1), 1);
    nd_store_8((v14.b + 2), 0);
    nd_store_8((v14.b + 3), (uint8_t)(v19 == 1U));
    nd_store_8((v14.b + 4), (uint8_t)(v17 == 1U));
    nd_memset((v14.b + 5), 0, 3);
    nd_store_32((v14.b + 8), v15);
    v37 = nd_ndef_piece_conditions_first_reason(v14.b, nd_load_8(v3));
    if ((uint8_t)(v37.f0 & 1)) goto L3;
    goto L4;
L2:;
    nd_store_64(((unsigned char *)((uintptr_t)v1 + 16)), v40);
    return;
L3:;
    nd_store_64(v1, 1ULL);
    nd_store_32(((unsigned char *)((uintptr_t)v1 + 8)), 0U);
    nd_store_32(((unsigned char *)((uintptr_t)v1 + 12)), 0U);
    v40 = (uint64_t)v37.f1;
    goto L2;
L4:;
    nd_store_8(v13.b, v21);
    nd_store_8((v13.b + 1), 1);
    nd_store_8((v13.b + 2), 0);
    nd_store_8((v13.b + 3), (uint8_t)(v19 == 1U));
    nd_store_8((v13.b + 4), (uint8_t)(v17 == 1U));
    nd_memset((v13.b + 5), 0, 3);
    nd_store_32((v13.b + 8), v15);
    nd_ndef_piece_head_reader_HeadReader_new(v24.b, v13.b);
    nd_store_32(v23.b, v15);
    v56 = v23.b + 4;
    nd_store_32(v56, v17);
    v57 = v23.b + 8;
    nd_store_32(v57, v19);
    v58 = v23.b + 12;
    nd_store_8(v58, v21);
    nd_memcpy((v23.b + 13), v22, 3);
    v60 = v23.b + 16;
    nd_store_8(v60, 1);
    v61 = v23.b + 17;
    nd_store_8(v61, 0);
    v62 = v23.b + 18;
    nd_store_16(v62, 0);
    v63 = v23.b + 20;
    nd_store_32(v63, v17);
    v64 = v23.b + 24;
    nd_store_32(v64, v19);
    v65 = v23.b + 28;
    nd_store_32(v65, v15);
    v66 = v23.b + 32;
    nd_memcpy(v66, v24.b, 48);
    nd_memset((v23.b + 80), 0, 13);
    nd_store_8((v23.b + 93), 1);
    nd_memset((v23.b + 94), 0, 370);
    if (v25) { v73 = 0; goto L6; }
    v73 = (uint8_t)(nd_load_8(v3) & 64) != 0;
L6:;
    v74 = v23.b + 176;
    v75 = v23.b + 56;
    v76 = v10.b + 8;
    v77 = v8.b + 56;
    v78 = v8.b + 64;
    v79 = v11.b + 1;
    v80 = v11.b + 2;
    v81 = v11.b + 3;
    v82 = v11.b + 4;
    v83 = v11.b + 5;
    v84 = v11.b + 8;
    v85 = v8.b + 8;
    v86 = v8.b + 16;
    v87 = v8.b + 48;
    v88 = v9.b + 1;
    v89 = v9.b + 2;
    v90 = v9.b + 4;
    v91 = v9.b + 8;
    v92 = v9.b + 12;
    v93 = v12.b + 8;
    v94 = v12.b + 16;
    v95 = v7.b + 1;
    v96 = v7.b + 2;
    v97 = v7.b + 3;
    v98 = v7.b + 4;
    v99 = v7.b + 5;
    v100 = v7.b + 8;
    v101 = v8.b + 40;
    v102 = v6.b + 8;
    v103 = v6.b + 4;
    v104 = v5.b + 1;
    v105 = v5.b + 2;
    v106 = v5.b + 3;
    v107 = v5.b + 4;
    v108 = v5.b + 5;
    v109 = v5.b + 8;
    v110 = v23.b + 180;
    v111 = v23.b + 456;
    v112 = 0ULL;
    v113 = v73;
L7:;
    v115 = nd_load_8(v74);
    if (!(v112 < v4)) goto L92;
    switch (v115) {
    case 4: { v536 = v112; goto L95; }
    case 5: goto L96;
    case 0: goto L10;
    case 1: goto L10;
    case 2: goto L10;
    case 3: goto L10;
    default: goto L9; }
L9:;
    nd_stop();
L10:;
    v116 = (unsigned char *)((uintptr_t)v3 + (uintptr_t)v112);
    v117 = v4 - v112;
    if (v113) goto L90;
    if ((uint8_t)(nd_load_8(v61) & 1)) goto L89;
    if (!(uint8_t)((v115 == 0) ? (nd_load_64(v75) == 0ULL) : 0)) goto L90;
    v129 = nd_load_8(v60);
    v130 = nd_load_16(v62);
    v131 = nd_load_32(v63);
    v132 = nd_load_32(v64);
    v133 = nd_load_32(v65);
    v134 = 0ULL;
L14:;
    v135 = v134 < v117;
    if (!v135) { v510 = v134; v511 = v129; v512 = v130; v513 = v131; v514 = v132; v515 = v133; v516 = v135; goto L85; }
    v137 = v117 - v134;
    nd_memset(v12.b, 0, 24);
    nd_ndef_piece_whole_whole_piece(v10.b, ((unsigned char *)((uintptr_t)v116 + (uintptr_t)v134)), v137);
    if (!(nd_load_8(v10.b) == 1)) goto L84;
    nd_memcpy(v8.b, v76, 72);
    v140 = nd_load_64(v78);
    v141 = v137 - v140;
    v142 = nd_load_8(v8.b);
    v145 = nd_load_8(v58);
    v147 = (uint8_t)(v132 == 1U);
    v149 = (uint8_t)(v131 == 1U);
    if (!((uint8_t)(v142 & 32) == 0)) goto L79;
    nd_store_8(v7.b, v145);
    nd_store_8(v95, v129);
    nd_store_8(v96, 0);
    nd_store_8(v97, v147);
    nd_store_8(v98, v149);
    nd_memset(v99, 0, 3);
    nd_store_32(v100, v133);
    v150 = nd_ndef_piece_whole_WholePiece_is_record_at(v8.b, v7.b);
    if (!v150) goto L84;
    v151 = nd_ndef_piece_whole_WholePiece_tnf(v8.b);
    v152 = nd_load_ptr(v85);
    v153 = nd_load_64(v86);
    v154 = nd_load_32(v56);
    v155 = nd_load_ptr(v101);
    v156 = nd_load_64(v87);
    if (!(v151 == 1)) goto L25;
    switch (v153) {
    case 0ULL: goto L25;
    case 1ULL: goto L20;
    default: goto L21; }
L20:;
    v159 = nd_ndef_format_kind_of_one(nd_load_8(v152));
    v172 = v159;
    goto L26;
L21:;
    if (!(v153 < 3ULL)) goto L23;
    v164 = nd_ndef_format_kind_of_two(nd_load_8(v152), nd_load_8(((unsigned char *)((uintptr_t)v152 + 1))));
    v172 = v164;
    goto L26;
L23:;
    if (!(v153 == 3ULL)) goto L25;
    v171 = nd_ndef_format_kind_of_three(nd_load_8(v152), nd_load_8(((unsigned char *)((uintptr_t)v152 + 1))), nd_load_8(((unsigned char *)((uintptr_t)v152 + 2))));
    v172 = v171;
    goto L26;
L25:;
    goto L75;
L26:;
    switch (v172) {
    case 3: { v478 = 0; goto L77; }
    case 4: goto L27;
    case 5: goto L28;
    case 0: goto L30;
    case 1: goto L30;
    case 2: goto L30;
    case 6: goto L30;
    case 7: goto L30;
    case 8: goto L30;
    case 9: goto L30;
    case 10: goto L30;
    case 11: goto L30;
    case 12: goto L30;
    default: goto L29; }
L27:;
    v478 = 1;
    goto L77;
L28:;
    v478 = 2;
    goto L77;
L29:;
    nd_stop();
L30:;
    nd_store_32(v102, 1792U);
    switch ((uint8_t)(((uint8_t)(v172 + 255) < 6) ? v172 : 0)) {
    case 1: goto L31;
    case 2: goto L52;
    case 6: goto L73;
    case 0: goto L75;
    case 3: goto L75;
    case 4: goto L75;
    case 5: goto L75;
    default: goto L74; }
L31:;
    if (v156 == 0ULL) goto L76;
    v177 = (unsigned char *)((uintptr_t)v155 + 1);
    v178 = v156 + 18446744073709551615ULL;
    v179 = nd_load_8(v155);
    v181 = (uint64_t)(uint8_t)(v179 & 63);
    if (((uint8_t)(v179 & 64) != 0) | (int)(v178 < v181)) goto L76;
    v186 = (int8_t)v179 < (int8_t)0;
    if ((v156 > 64ULL) | v186) goto L51;
    if (!(v156 < 9ULL)) goto L45;
    if (v156 < 5ULL) goto L38;
    if (!(((((((uint32_t)nd_load_8(((unsigned char *)((uintptr_t)v155 + 2))) << 8) | (uint32_t)nd_load_8(v177)) | ((uint32_t)nd_load_8(((unsigned char *)((uintptr_t)v155 + 3))) << 16)) | ((uint32_t)nd_load_8(((unsigned char *)((uintptr_t)v155 + 4))) << 24)) & 2155905152U) == 0U)) goto L51;
    v210 = (unsigned char *)((uintptr_t)v155 + (uintptr_t)v156);
    if (((((((uint32_t)nd_load_8(((unsigned char *)((uintptr_t)v210 - 3))) << 8) | (uint32_t)nd_load_8(((unsigned char *)((uintptr_t)v210 - 4)))) | ((uint32_t)nd_load_8(((unsigned char *)((uintptr_t)v210 - 2))) << 16)) | ((uint32_t)nd_load_8(((unsigned char *)((uintptr_t)v210 - 1))) << 24)) & 2155905152U) == 0U) goto L75;
    goto L51;
L38:;
    switch (v156) {
    case 1ULL: goto L75;
    case 2ULL: goto L39;
    case 4ULL: goto L42;
    default: goto L40; }
L39:;
    if ((int8_t)nd_load_8(v177) > (int8_t)255) goto L75;
    goto L51;
L40:;
    if (!((int8_t)nd_load_8(v177) > (int8_t)255)) goto L51;
    if ((int8_t)nd_load_8(((unsigned char *)((uintptr_t)v155 + 2))) > (int8_t)255) goto L75;
    goto L51;
L42:;
    v238 = (unsigned char *)((uintptr_t)v155 + 3);
    if (!((int8_t)nd_load_8(v177) > (int8_t)255)) goto L51;
    if (!((int8_t)nd_load_8(((unsigned char *)((uintptr_t)v155 + 2))) > (int8_t)255)) goto L51;
    if ((int8_t)nd_load_8(v238) > (int8_t)255) goto L75;
    goto L51;
L45:;
    if (!(v178 > 16ULL)) goto L47;
    v247 = nd_ndef_lang_ascii_are_many(v177, v178);
    if (v247) goto L75;
    goto L51;
L47:;
    if (!(((((((uint32_t)nd_load_8(((unsigned char *)((uintptr_t)v155 + 2))) << 8) | (uint32_t)nd_load_8(v177)) | ((uint32_t)nd_load_8(((unsigned char *)((uintptr_t)v155 + 3))) << 16)) | ((uint32_t)nd_load_8(((unsigned char *)((uintptr_t)v155 + 4))) << 24)) & 2155905152U) == 0U)) goto L51;
    if (!(((((((uint32_t)nd_load_8(((unsigned char *)((uintptr_t)v155 + 6))) << 8) | (uint32_t)nd_load_8(((unsigned char *)((uintptr_t)v155 + 5)))) | ((uint32_t)nd_load_8(((unsigned char *)((uintptr_t)v155 + 7))) << 16)) | ((uint32_t)nd_load_8(((unsigned char *)((uintptr_t)v155 + 8))) << 24)) & 2155905152U) == 0U)) goto L51;
    v287 = (unsigned char *)((uintptr_t)v155 + (uintptr_t)v156);
    if (!(((((((uint32_t)nd_load_8(((unsigned char *)((uintptr_t)v287 - 7))) << 8) | (uint32_t)nd_load_8(((unsigned char *)((uintptr_t)v287 - 8)))) | ((uint32_t)nd_load_8(((unsigned char *)((uintptr_t)v287 - 6))) << 16)) | ((uint32_t)nd_load_8(((unsigned char *)((uintptr_t)v287 - 5))) << 24)) & 2155905152U) == 0U)) goto L51;
    if (((((((uint32_t)nd_load_8(((unsigned char *)((uintptr_t)v287 - 3))) << 8) | (uint32_t)nd_load_8(((unsigned char *)((uintptr_t)v287 - 4)))) | ((uint32_t)nd_load_8(((unsigned char *)((uintptr_t)v287 - 2))) << 16)) | ((uint32_t)nd_load_8(((unsigned char *)((uintptr_t)v287 - 1))) << 24)) & 2155905152U) == 0U) goto L75;
L51:;
    v328 = nd_ndef_lang_member_is_coded_text(v181, v186, v177, v178);
    if (v328) goto L78;
    goto L84;
L52:;
    if (v156 == 0ULL) goto L76;
    v330 = (unsigned char *)((uintptr_t)v155 + 1);
    v331 = v156 + 18446744073709551615ULL;
    if (!((v145 == 1) | (int)(nd_load_8(v155) < 36))) goto L76;
    if (!(v156 < 65ULL)) goto L72;
    if (!(v156 < 9ULL)) goto L66;
    if (v156 < 5ULL) goto L59;
    if (!(((((((uint32_t)nd_load_8(((unsigned char *)((uintptr_t)v155 + 2))) << 8) | (uint32_t)nd_load_8(v330)) | ((uint32_t)nd_load_8(((unsigned char *)((uintptr_t)v155 + 3))) << 16)) | ((uint32_t)nd_load_8(((unsigned char *)((uintptr_t)v155 + 4))) << 24)) & 2155905152U) == 0U)) goto L72;
    v358 = (unsigned char *)((uintptr_t)v155 + (uintptr_t)v156);
    if (((((((uint32_t)nd_load_8(((unsigned char *)((uintptr_t)v358 - 3))) << 8) | (uint32_t)nd_load_8(((unsigned char *)((uintptr_t)v358 - 4)))) | ((uint32_t)nd_load_8(((unsigned char *)((uintptr_t)v358 - 2))) << 16)) | ((uint32_t)nd_load_8(((unsigned char *)((uintptr_t)v358 - 1))) << 24)) & 2155905152U) == 0U) goto L75;
    goto L72;
L59:;
    switch (v156) {
    case 1ULL: goto L75;
    case 2ULL: goto L60;
    case 4ULL: goto L63;
    default: goto L61; }
L60:;
    if ((int8_t)nd_load_8(v330) > (int8_t)255) goto L75;
    goto L72;
L61:;
    if (!((int8_t)nd_load_8(v330) > (int8_t)255)) goto L72;
    if ((int8_t)nd_load_8(((unsigned char *)((uintptr_t)v155 + 2))) > (int8_t)255) goto L75;
    goto L72;
L63:;
    v386 = (unsigned char *)((uintptr_t)v155 + 3);
    if (!((int8_t)nd_load_8(v330) > (int8_t)255)) goto L72;
    if (!((int8_t)nd_load_8(((unsigned char *)((uintptr_t)v155 + 2))) > (int8_t)255)) goto L72;
    if ((int8_t)nd_load_8(v386) > (int8_t)255) goto L75;
    goto L72;
L66:;
    if (!(v331 > 16ULL)) goto L68;
    v395 = nd_ndef_lang_ascii_are_many(v330, v331);
    if (v395) goto L75;
    goto L72;
L68:;
    if (!(((((((uint32_t)nd_load_8(((unsigned char *)((uintptr_t)v155 + 2))) << 8) | (uint32_t)nd_load_8(v330)) | ((uint32_t)nd_load_8(((unsigned char *)((uintptr_t)v155 + 3))) << 16)) | ((uint32_t)nd_load_8(((unsigned char *)((uintptr_t)v155 + 4))) << 24)) & 2155905152U) == 0U)) goto L72;
    if (!(((((((uint32_t)nd_load_8(((unsigned char *)((uintptr_t)v155 + 6))) << 8) | (uint32_t)nd_load_8(((unsigned char *)((uintptr_t)v155 + 5)))) | ((uint32_t)nd_load_8(((unsigned char *)((uintptr_t)v155 + 7))) << 16)) | ((uint32_t)nd_load_8(((unsigned char *)((uintptr_t)v155 + 8))) << 24)) & 2155905152U) == 0U)) goto L72;
    v435 = (unsigned char *)((uintptr_t)v155 + (uintptr_t)v156);
    if (!(((((((uint32_t)nd_load_8(((unsigned char *)((uintptr_t)v435 - 7))) << 8) | (uint32_t)nd_load_8(((unsigned char *)((uintptr_t)v435 - 8)))) | ((uint32_t)nd_load_8(((unsigned char *)((uintptr_t)v435 - 6))) << 16)) | ((uint32_t)nd_load_8(((unsigned char *)((uintptr_t)v435 - 5))) << 24)) & 2155905152U) == 0U)) goto L72;
    if (((((((uint32_t)nd_load_8(((unsigned char *)((uintptr_t)v435 - 3))) << 8) | (uint32_t)nd_load_8(((unsigned char *)((uintptr_t)v435 - 4)))) | ((uint32_t)nd_load_8(((unsigned char *)((uintptr_t)v435 - 2))) << 16)) | ((uint32_t)nd_load_8(((unsigned char *)((uintptr_t)v435 - 1))) << 24)) & 2155905152U) == 0U) goto L75;
L72:;
    v476 = nd_ndef_lang_member_is_long_utf8(v330, v331);
    if (v476) goto L78;
    goto L84;
L73:;
    nd_store_32(v6.b, 0U);
    nd_store_32(v103, 1U);
    v477 = nd_ndef_lang_leaf_Leaf_is_completed_by(v6.b, v155, v156);
    if (v477) goto L78;
    goto L84;
L74:;
    nd_stop();
L75:;
    goto L78;
L76:;
    goto L84;
L77:;
    v479 = nd_ndef_nest_member_is_nested(v478, v154, v145, v155, v156);
    if (!v479) goto L84;
L78:;
    v482 = v141 + v134;
    v483 = nd_usub_sat_i32(v131, 1U);
    v484 = nd_load_32(v57);
    v485 = nd_load_32(v23.b);
    if ((uint8_t)(v142 & 64) == 0) { v506 = v483; v507 = v484; v508 = v485; v509 = v482; goto L83; }
    v510 = v482;
    v511 = 0;
    v512 = 0;
    v513 = v483;
    v514 = v484;
    v515 = v485;
    v516 = v135;
    goto L85;
L79:;
    nd_store_8(v11.b, v145);
    nd_store_8(v79, v129);
    nd_store_8(v80, 0);
    nd_store_8(v81, v147);
    nd_store_8(v82, v149);
    nd_memset(v83, 0, 3);
    nd_store_32(v84, v133);
    v486 = nd_ndef_piece_whole_WholePiece_opens_at(v8.b, v11.b);
    if (!v486) goto L84;
    v487 = nd_ndef_piece_whole_WholePiece_tnf(v8.b);
    v490 = nd_ndef_nest_typed_TypedRecordLanguage_takes_all(v487, nd_load_ptr(v85), nd_load_64(v86));
    if (!v490) goto L84;
    v491 = nd_load_64(v87);
    v493 = nd_usub_sat_i32(v132, 1U);
    v494 = nd_usub_sat_i32(v133, (uint32_t)v491);
    nd_store_8(v9.b, 0);
    nd_store_8(v88, 1);
    nd_store_16(v89, 0);
    nd_store_32(v90, v131);
    nd_store_32(v91, v493);
    nd_store_32(v92, v494);
    nd_ndef_message_accepted_accepted_run(v12.b, v23.b, v9.b, nd_load_ptr(v77), v140);
    if (!(nd_load_8(v12.b) == 1)) goto L84;
    v499 = nd_load_8(v94);
    v502 = (v141 + v134) + nd_load_64(v93);
    v503 = nd_usub_sat_i32(v131, 1U);
    v504 = nd_load_32(v57);
    v505 = nd_load_32(v23.b);
    if ((uint8_t)(v499 & 1)) { v510 = v502; v511 = 0; v512 = 0; v513 = v503; v514 = v504; v515 = v505; v516 = v135; goto L85; }
    v506 = v503;
    v507 = v504;
    v508 = v505;
    v509 = v502;
L83:;
    v129 = 0;
    v130 = 0;
    v131 = v506;
    v132 = v507;
    v133 = v508;
    v134 = v509;
    goto L14;
L84:;
    v510 = v134;
    v511 = v129;
    v512 = v130;
    v513 = v131;
    v514 = v132;
    v515 = v133;
    v516 = 0;
L85:;
    if (v510 == 0ULL) goto L90;
    nd_store_8(v60, v511);
    nd_store_8(v61, 0);
    nd_store_16(v62, v512);
    nd_store_32(v63, v513);
    nd_store_32(v64, v514);
    nd_store_32(v65, v515);
    if (v516) { v523 = 4U; goto L88; }
    nd_store_8(v5.b, nd_load_8(v58));
    nd_store_8(v104, v511);
    nd_store_8(v105, 0);
    nd_store_8(v106, (uint8_t)(v514 == 1U));
    nd_store_8(v107, (uint8_t)(v513 == 1U));
    nd_memset(v108, 0, 3);
    nd_store_32(v109, v515);
    nd_ndef_piece_head_reader_HeadReader_new(v66, v5.b);
    v523 = 0U;
L88:;
    nd_memset(v110, 0, 20);
    nd_store_32(v74, v523);
    nd_store_64(v111, (nd_load_64(v111) + v510));
    v531 = 1;
    v532 = v510;
    goto L91;
L89:;
    v526 = nd_ndef_message_state_State_take_chunks_4(v60, v23.b, v116, v117);
    nd_store_64(v111, (nd_load_64(v111) + v526));
    if (!(v526 == 0ULL)) { v531 = 1; v532 = v526; goto L91; }
L90:;
    v530 = nd_ndef_message_checker_Checker_step_4(v23.b, v116, v117);
    v531 = 0;
    v532 = v530;
L91:;
    v112 = v532 + v112;
    v113 = v531;
    goto L7;
L92:;
    switch (v115) {
    case 4: { v536 = v4; goto L95; }
    case 5: goto L96;
    case 0: goto L94;
    case 1: goto L94;
    case 2: goto L94;
    case 3: goto L94;
    default: goto L93; }
L93:;
    nd_stop();
L94:;
    v534 = nd_load_64(v111);
    nd_store_64(v1, 1ULL);
    nd_store_64(((unsigned char *)((uintptr_t)v1 + 8)), v534);
    v40 = 24ULL;
    goto L2;
L95:;
    v539 = nd_usub_sat_i32(nd_load_32(v56), nd_load_32(v63));
    nd_store_64(v1, 0ULL);
    nd_store_32(((unsigned char *)((uintptr_t)v1 + 8)), v539);
    nd_store_32(((unsigned char *)((uintptr_t)v1 + 12)), 0U);
    v40 = v536;
    goto L2;
L96:;
    v543 = nd_load_64((v23.b + 184));
    v545 = nd_load_64((v23.b + 192));
    nd_store_64(v1, 1ULL);
    nd_store_64(((unsigned char *)((uintptr_t)v1 + 8)), v543);
    v40 = v545;
    goto L2;
}

static uint64_t nd_ndef_message_state_State_take_chunks_4(unsigned char *v1, unsigned char *v2, unsigned char *v3, uint64_t v4) {
    unsigned char *v12;
    uint8_t v19, v33, v34;
    uint64_t v20, v21;
    uint32_t v24, v27, v29;
    uint16_t v31;
    ND_ROOM(48) v5;
    ND_ROOM(12) v6;
    ND_ROOM(24) v7;
    ND_ROOM(16) v8;
    nd_memset(v7.b, 0, 24);
    if (!(nd_load_8(((unsigned char *)((uintptr_t)v1 + 160))) == 0)) { v20 = 0ULL; goto L4; }
    v12 = (unsigned char *)((uintptr_t)v1 + 1);
    if (!(uint8_t)(nd_load_8(v12) & 1)) { v20 = 0ULL; goto L4; }
    if (!(nd_load_64(((unsigned char *)((uintptr_t)v1 + 40))) == 0ULL)) { v20 = 0ULL; goto L4; }
    v19 = nd_ndef_nest_typed_TypedRecordLanguage_is_open(((unsigned char *)((uintptr_t)v1 + 64)));
    if (v19) goto L5;
    v20 = 0ULL;
L4:;
    return v20;
L5:;
    nd_memcpy(v8.b, v1, 16);
    nd_ndef_message_accepted_accepted_chunks(v7.b, v2, v8.b, v3, v4);
    v21 = nd_load_64(v7.b);
    if (v21 == 0ULL) { v20 = 0ULL; goto L4; }
    v24 = nd_load_32((v7.b + 20));
    v27 = nd_load_32((v7.b + 16));
    v29 = nd_load_32((v7.b + 12));
    v31 = nd_load_16((v7.b + 10));
    v33 = nd_load_8((v7.b + 9));
    v34 = nd_load_8((v7.b + 8));
    nd_store_8(v1, v34);
    nd_store_8(v12, v33);
    nd_store_16((v1 + 2), v31);
    nd_store_32((v1 + 4), v29);
    nd_store_32((v1 + 8), v27);
    nd_store_32((v1 + 12), v24);
    nd_store_8(v6.b, nd_load_8(((unsigned char *)((uintptr_t)v2 + 12))));
    nd_store_8((v6.b + 1), v34);
    nd_store_8((v6.b + 2), v33);
    nd_store_8((v6.b + 3), (uint8_t)(v27 == 1U));
    nd_store_8((v6.b + 4), (uint8_t)(v29 == 1U));
    nd_memset((v6.b + 5), 0, 3);
    nd_store_32((v6.b + 8), v24);
    nd_ndef_piece_head_reader_HeadReader_new(v5.b, v6.b);
    nd_memcpy(((unsigned char *)((uintptr_t)v1 + 16)), v5.b, 48);
    v20 = v21;
    goto L4;
}

static uint64_t nd_ndef_message_checker_Checker_step_4(unsigned char *v1, unsigned char *v2, uint64_t v3) {
    unsigned char *v14, *v16, *v17, *v19, *v26, *v75, *v87, *v88, *v92, *v142, *v149, *v160;
    uint64_t v15, v30, v38, v44, v60, v66, v68, v90, v91, v137, v151, v152, v159, v161, v173, v174;
    uint16_t v23, v143;
    uint8_t v25, v46, v50, v58, v70, v82, v89, v135, v145, v164;
    uint32_t v28, v41, v148, v150, v156;
    ND_ROOM(5) v4;
    ND_ROOM(12) v5, v6, v7, v12, v13;
    ND_ROOM(96) v8;
    ND_ROOM(48) v9;
    ND_ROOM(16) v10;
    ND_ROOM(32) v11;
    v14 = (unsigned char *)((uintptr_t)v1 + 456);
    v15 = nd_load_64(v14);
    v16 = (unsigned char *)((uintptr_t)v1 + 16);
    v17 = (unsigned char *)((uintptr_t)v1 + 176);
    switch (nd_load_8(v17)) {
    case 0: goto L1;
    case 1: goto L22;
    case 2: goto L26;
    case 3: goto L27;
    case 4: { v174 = 1ULL; goto L34; }
    case 5: { v174 = 1ULL; goto L34; }
    default: goto L33; }
L1:;
    v19 = (unsigned char *)((uintptr_t)v1 + 32);
    nd_ndef_piece_head_reader_HeadReader_whole_head(v11.b, v19, v2, v3);
    if (!(nd_load_8(v11.b) == 1)) goto L9;
    v23 = nd_load_16((v11.b + 8));
    v25 = nd_load_8((v11.b + 10));
    v26 = v11.b + 11;
    v28 = nd_load_32((v11.b + 16));
    v30 = nd_load_64((v11.b + 24));
    if ((uint8_t)(nd_load_8(((unsigned char *)((uintptr_t)v1 + 17))) & 1)) goto L4;
    nd_store_16(v12.b, v23);
    nd_store_8((v12.b + 2), v25);
    nd_memcpy((v12.b + 3), v26, 5);
    nd_store_32((v12.b + 8), v28);
    nd_ndef_message_state_State_begin_record_4(v16, v1, v12.b);
    goto L8;
L4:;
    v38 = (uint64_t)v28;
    if (!(uint8_t)(v25 & 1)) { v44 = v38; goto L6; }
    v41 = nd_usub_sat_i32(nd_load_32(((unsigned char *)((uintptr_t)v1 + 28))), v28);
    v44 = (uint64_t)v41 + v38;
L6:;
    v46 = nd_ndef_nest_typed_TypedRecordLanguage_fits(((unsigned char *)((uintptr_t)v1 + 80)), v38, v44);
    if (!v46) goto L9;
    nd_store_16(v13.b, v23);
    nd_store_8((v13.b + 2), v25);
    nd_memcpy((v13.b + 3), v26, 5);
    nd_store_32((v13.b + 8), v28);
    nd_ndef_message_state_State_advance_field_4(v16, v1, v13.b, 0, v28);
L8:;
    v174 = v30;
    goto L34;
L9:;
    v50 = nd_load_8(v2);
    nd_memset(v10.b, 0, 16);
    nd_ndef_piece_head_reader_HeadReader_step(v10.b, v19, v50);
    switch (nd_load_8(v10.b)) {
    case 0: goto L10;
    case 1: goto L16;
    case 2: goto L19;
    default: goto L20; }
L10:;
    nd_memset(v9.b, 0, 48);
    if ((uint8_t)(nd_load_8(((unsigned char *)((uintptr_t)v1 + 17))) & 1)) goto L12;
    goto L21;
L12:;
    nd_ndef_piece_head_reader_HeadReader_bounds(v9.b, v19);
    if (nd_load_8(v9.b) == 1) goto L14;
    goto L15;
L14:;
    v58 = nd_load_8((v9.b + 9));
    v60 = nd_load_64((v9.b + 32));
    v66 = (uint64_t)nd_load_32(((unsigned char *)((uintptr_t)v1 + 28)));
    v68 = nd_umin_i64(nd_load_64((v9.b + 40)), v66);
    v70 = nd_ndef_nest_typed_TypedRecordLanguage_fits(((unsigned char *)((uintptr_t)v1 + 80)), v60, ((uint8_t)(v58 & 1) ? v66 : v68));
    if (v70) goto L21;
L15:;
    nd_store_32(v17, 5U);
    nd_store_32(((unsigned char *)((uintptr_t)v1 + 180)), 0U);
    nd_store_64(((unsigned char *)((uintptr_t)v1 + 184)), v15);
    nd_store_8(((unsigned char *)((uintptr_t)v1 + 192)), 23);
    nd_memset(((unsigned char *)((uintptr_t)v1 + 193)), 0, 7);
    goto L21;
L16:;
    v75 = v10.b + 4;
    if (!(uint8_t)(nd_load_8(((unsigned char *)((uintptr_t)v1 + 17))) & 1)) goto L18;
    nd_ndef_message_state_State_start_body_4(v16, v1, v15, v75, 0, nd_load_32((v10.b + 12)));
    goto L21;
L18:;
    nd_ndef_message_state_State_begin_record_4(v16, v1, v75);
    goto L21;
L19:;
    v82 = nd_load_8((v10.b + 1));
    nd_store_32(v17, 5U);
    nd_store_32(((unsigned char *)((uintptr_t)v1 + 180)), 0U);
    nd_store_64(((unsigned char *)((uintptr_t)v1 + 184)), v15);
    nd_store_8(((unsigned char *)((uintptr_t)v1 + 192)), v82);
    nd_memset(((unsigned char *)((uintptr_t)v1 + 193)), 0, 7);
    goto L21;
L20:;
    nd_stop();
L21:;
    v174 = 1ULL;
    goto L34;
L22:;
    v87 = (unsigned char *)((uintptr_t)v1 + 180);
    v88 = (unsigned char *)((uintptr_t)v1 + 192);
    v89 = nd_load_8(v88);
    v90 = (uint64_t)v89;
    v91 = nd_umin_i64(v90, v3);
    nd_memcpy(v7.b, v87, 12);
    nd_memset(v8.b, 0, 96);
    v92 = (unsigned char *)((uintptr_t)v1 + 200);
    nd_ndef_lang_type_name_TypeName_push_all(v92, v2, v91);
    if (!(v3 < v90)) goto L24;
    nd_store_32(v17, 1U);
    nd_memcpy(v87, v7.b, 12);
    nd_store_8(v88, (uint8_t)(v89 - (uint8_t)v91));
    nd_memset(((unsigned char *)((uintptr_t)v1 + 193)), 0, 7);
    goto L25;
L24:;
    nd_ndef_nest_typed_TypedRecordLanguage_start(v8.b, nd_load_8((v7.b + 4)), v92, (uint64_t)nd_load_8(((unsigned char *)((uintptr_t)v1 + 455))), nd_load_32(((unsigned char *)((uintptr_t)v1 + 4))), nd_load_8(((unsigned char *)((uintptr_t)v1 + 12))));
    nd_store_32(((unsigned char *)((uintptr_t)v1 + 80)), (uint32_t)nd_load_8(v8.b));
    nd_store_8(((unsigned char *)((uintptr_t)v1 + 84)), nd_load_8((v8.b + 4)));
    nd_store_8(((unsigned char *)((uintptr_t)v1 + 85)), nd_load_8((v8.b + 5)));
    nd_store_8(((unsigned char *)((uintptr_t)v1 + 86)), nd_load_8((v8.b + 6)));
    nd_store_8(((unsigned char *)((uintptr_t)v1 + 87)), nd_load_8((v8.b + 7)));
    nd_memcpy(((unsigned char *)((uintptr_t)v1 + 88)), (v8.b + 8), 88);
    nd_ndef_message_state_State_start_body_4(v16, v1, ((v15 + 18446744073709551615ULL) + v91), v7.b, (uint8_t)((nd_load_8((v7.b + 6)) == 1) ? nd_load_8((v7.b + 7)) : 0), nd_load_32((v7.b + 8)));
L25:;
    v174 = v91;
    goto L34;
L26:;
    v135 = nd_load_8(((unsigned char *)((uintptr_t)v1 + 192)));
    v137 = nd_umin_i64((uint64_t)v135, v3);
    nd_memcpy(v6.b, ((unsigned char *)((uintptr_t)v1 + 180)), 12);
    nd_ndef_message_state_State_advance_field_4(v16, v1, v6.b, (uint8_t)(v135 - (uint8_t)v137), nd_load_32((v6.b + 8)));
    v174 = v137;
    goto L34;
L27:;
    v142 = (unsigned char *)((uintptr_t)v1 + 180);
    v143 = nd_load_16(v142);
    v145 = nd_load_8(((unsigned char *)((uintptr_t)v1 + 182)));
    v148 = nd_load_32(((unsigned char *)((uintptr_t)v1 + 188)));
    v149 = (unsigned char *)((uintptr_t)v1 + 192);
    v150 = nd_load_32(v149);
    v151 = (uint64_t)v150;
    v152 = nd_umin_i64(v151, v3);
    nd_memcpy(v4.b, ((unsigned char *)((uintptr_t)v1 + 183)), 5);
    if (!(uint8_t)(v145 & 1)) { v159 = v151; goto L29; }
    v156 = nd_usub_sat_i32(nd_load_32(((unsigned char *)((uintptr_t)v1 + 28))), v148);
    v159 = (uint64_t)v156 + v151;
L29:;
    v160 = (unsigned char *)((uintptr_t)v1 + 80);
    v161 = nd_ndef_nest_typed_TypedRecordLanguage_step_all(v160, v2, v152, v151, v159);
    if (!(v161 < v152)) goto L31;
    v164 = nd_ndef_nest_typed_TypedRecordLanguage_reason(v160);
    nd_store_32(v17, 5U);
    nd_store_32(v142, 0U);
    nd_store_64(((unsigned char *)((uintptr_t)v1 + 184)), (v161 + v15));
    nd_store_8(v149, v164);
    nd_memset(((unsigned char *)((uintptr_t)v1 + 193)), 0, 7);
    v173 = v161 + 1ULL;
    goto L32;
L31:;
    nd_store_16(v5.b, v143);
    nd_store_8((v5.b + 2), v145);
    nd_memcpy((v5.b + 3), v4.b, 5);
    nd_store_32((v5.b + 8), v148);
    nd_ndef_message_state_State_advance_field_4(v16, v1, v5.b, 0, (v150 - (uint32_t)v161));
    v173 = v161;
L32:;
    v174 = v173;
    goto L34;
L33:;
    nd_stop();
L34:;
    nd_store_64(v14, (v174 + v15));
    return v174;
}

static void nd_ndef_message_state_State_begin_record_4(unsigned char *v1, unsigned char *v2, unsigned char *v3) {
    uint8_t v6;
    ND_ROOM(12) v4;
    nd_memcpy(v4.b, v3, 12);
    v6 = nd_load_8((v4.b + 5));
    if (v6 == 0) goto L3;
    goto L2;
L1:;
    return;
L2:;
    nd_store_8(((unsigned char *)((uintptr_t)v1 + 439)), 0);
    nd_store_32(((unsigned char *)((uintptr_t)v1 + 160)), 1U);
    nd_memcpy(((unsigned char *)((uintptr_t)v1 + 164)), v4.b, 12);
    nd_store_8(((unsigned char *)((uintptr_t)v1 + 176)), v6);
    nd_memset(((unsigned char *)((uintptr_t)v1 + 177)), 0, 7);
    goto L1;
L3:;
    nd_memset(((unsigned char *)((uintptr_t)v1 + 64)), 0, 13);
    nd_store_8(((unsigned char *)((uintptr_t)v1 + 77)), 1);
    nd_memset(((unsigned char *)((uintptr_t)v1 + 78)), 0, 82);
    nd_ndef_message_state_State_advance_field_4(v1, v2, v4.b, (uint8_t)((nd_load_8((v4.b + 6)) == 1) ? nd_load_8((v4.b + 7)) : 0), nd_load_32((v4.b + 8)));
    goto L1;
}

static void nd_ndef_message_state_State_advance_field_4(unsigned char *v1, unsigned char *v2, unsigned char *v3, uint8_t v4, uint32_t v5) {
    ND_ROOM(12) v6, v7, v8, v11;
    ND_ROOM(16) v9;
    ND_ROOM(48) v10;
    nd_memcpy(v6.b, v3, 12);
    if (v4 == 0) goto L3;
    goto L2;
L1:;
    return;
L2:;
    nd_memcpy(v7.b, v3, 12);
    nd_store_32(((unsigned char *)((uintptr_t)v1 + 160)), 2U);
    nd_memcpy(((unsigned char *)((uintptr_t)v1 + 164)), v7.b, 12);
    nd_store_8(((unsigned char *)((uintptr_t)v1 + 176)), v4);
    nd_memset(((unsigned char *)((uintptr_t)v1 + 177)), 0, 7);
    goto L1;
L3:;
    if (v5 == 0U) goto L5;
    nd_memcpy(v8.b, v3, 12);
    nd_store_32(((unsigned char *)((uintptr_t)v1 + 160)), 3U);
    nd_memcpy(((unsigned char *)((uintptr_t)v1 + 164)), v8.b, 12);
    nd_store_32(((unsigned char *)((uintptr_t)v1 + 176)), v5);
    nd_store_32(((unsigned char *)((uintptr_t)v1 + 180)), 0U);
    goto L1;
L5:;
    nd_ndef_message_phase_Place_after(v9.b, v1, v2, v6.b);
    nd_memcpy(v1, v9.b, 16);
    nd_ndef_message_phase_Place_spot(v11.b, v1, nd_load_8(((unsigned char *)((uintptr_t)v2 + 12))));
    nd_ndef_piece_head_reader_HeadReader_new(v10.b, v11.b);
    nd_memcpy(((unsigned char *)((uintptr_t)v1 + 16)), v10.b, 48);
    nd_store_32(((unsigned char *)((uintptr_t)v1 + 160)), ((uint8_t)(nd_load_8((v6.b + 2)) & 1) ? 0U : (uint32_t)(uint8_t)((uint32_t)nd_load_8((v6.b + 1)) << 2)));
    nd_memset(((unsigned char *)((uintptr_t)v1 + 164)), 0, 20);
    goto L1;
}

static void nd_ndef_message_state_State_start_body_4(unsigned char *v1, unsigned char *v2, uint64_t v3, unsigned char *v4, uint8_t v5, uint32_t v6) {
    uint16_t v7;
    uint8_t v9, v24;
    uint32_t v12, v20;
    unsigned char *v15;
    uint64_t v16, v23;
    ND_ROOM(5) v13;
    ND_ROOM(12) v14;
    v7 = nd_load_16(v4);
    v9 = nd_load_8((v4 + 2));
    v12 = nd_load_32((v4 + 8));
    nd_memcpy(v13.b, (v4 + 3), 5);
    v15 = (unsigned char *)((uintptr_t)v1 + 64);
    v16 = (uint64_t)v6;
    if (!(uint8_t)(v9 & 1)) { v23 = v16; goto L2; }
    v20 = nd_usub_sat_i32(nd_load_32(((unsigned char *)((uintptr_t)v1 + 12))), v12);
    v23 = (uint64_t)v20 + v16;
L2:;
    v24 = nd_ndef_nest_typed_TypedRecordLanguage_fits(v15, v16, v23);
    if (!v24) goto L4;
    nd_store_16(v14.b, v7);
    nd_store_8((v14.b + 2), v9);
    nd_memcpy((v14.b + 3), v13.b, 5);
    nd_store_32((v14.b + 8), v12);
    nd_ndef_message_state_State_advance_field_4(v1, v2, v14.b, v5, v6);
    goto L5;
L4:;
    nd_store_32(((unsigned char *)((uintptr_t)v1 + 160)), 5U);
    nd_store_32(((unsigned char *)((uintptr_t)v1 + 164)), 0U);
    nd_store_64(((unsigned char *)((uintptr_t)v1 + 168)), v3);
    nd_store_8(((unsigned char *)((uintptr_t)v1 + 176)), 23);
    nd_memset(((unsigned char *)((uintptr_t)v1 + 177)), 0, 7);
L5:;
    return;
}

static void nd_ndef_diagnostics_hint_wording_push_both(unsigned char *v1, uint64_t v2, unsigned char *v3, uint64_t v4) {
    nd_ndef_diagnostics_sentence_Sentence_push_number(v1, v2);
    nd_ndef_diagnostics_sentence_Sentence_push(v1, v3, v4);
    return;
}

static void nd_ndef_fields_heads_whole_pieces(unsigned char *v1, unsigned char *v2, uint64_t v3) {
    unsigned char *v5, *v6, *v7, *v8;
    uint64_t v9, v10;
    uint8_t v11;
    ND_ROOM(80) v4;
    v5 = v4.b + 8;
    v6 = v4.b + 64;
    v7 = v4.b + 72;
    v8 = v2;
    v9 = v3;
    v10 = 0ULL;
    v11 = 0;
L1:;
    nd_ndef_piece_whole_whole_piece(v4.b, v8, v9);
    if (!(nd_load_8(v4.b) == 1)) goto L3;
    v8 = nd_load_ptr(v6);
    v9 = nd_load_64(v7);
    v10 = v10 + 1ULL;
    v11 = (uint8_t)(nd_load_8(v5) & 32) != 0;
    goto L1;
L3:;
    nd_store_64(v1, v10);
    nd_store_8((v1 + 8), (uint8_t)v11);
    nd_memset((v1 + 9), 0, 7);
    nd_store_ptr((v1 + 16), v8);
    nd_store_64((v1 + 24), v9);
    return;
}

static uint64_t nd_ndef_diagnostics_begun_head_length(unsigned char *v1, uint64_t v2) {
    uint8_t v5;
    if (v2 == 0ULL) { v5 = 0; goto L2; }
    v5 = nd_load_8(v1);
L2:;
    return (((uint8_t)(v5 & 16) == 0) ? 6ULL : 3ULL) + (uint64_t)(uint8_t)((uint8_t)(v5 >> 3) & 1);
}

static uint64_t nd_ndef_diagnostics_begun_before_payload(unsigned char *v1, uint64_t v2) {
    uint64_t v3, v8;
    uint8_t v10;
    v3 = nd_ndef_diagnostics_begun_head_length(v1, v2);
    if (!(v2 > 1ULL)) { v8 = 0ULL; goto L2; }
    v8 = (uint64_t)nd_load_8((v1 + 1));
L2:;
    v10 = nd_ndef_diagnostics_begun_id_length(v1, v2);
    return (v8 + v3) + (uint64_t)v10;
}

static uint8_t nd_ndef_diagnostics_begun_id_length(unsigned char *v1, uint64_t v2) {
    uint8_t v4, v16;
    uint64_t v7, v11;
    if (v2 == 0ULL) { v16 = 0; goto L4; }
    v4 = nd_load_8(v1);
    if ((uint8_t)(v4 & 8) == 0) { v16 = 0; goto L4; }
    v7 = nd_umin_i64(v2, 2ULL);
    v11 = ((uint8_t)(v4 & 16) == 0) ? 4ULL : 1ULL;
    if (!(v11 < (v2 - v7))) { v16 = 0; goto L4; }
    v16 = nd_load_8((((unsigned char *)((uintptr_t)v1 + (uintptr_t)v7)) + (ptrdiff_t)v11));
L4:;
    return v16;
}

static uint64_t nd_ndef_diagnostics_begun_least_record(unsigned char *v1, uint64_t v2) {
    uint64_t v3, v4;
    v3 = nd_ndef_diagnostics_begun_before_payload(v1, v2);
    v4 = nd_ndef_diagnostics_begun_payload_length(v1, v2);
    return v4 + v3;
}

static uint64_t nd_ndef_diagnostics_begun_payload_length(unsigned char *v1, uint64_t v2) {
    uint8_t v9;
    unsigned char *v13, *v20;
    uint64_t v15, v19, v39;
    ND_ROOM(120) v3;
    nd_memset(v3.b, 0, 120);
    if (!(v2 == 0ULL)) goto L2;
    nd_ndef_fields_front_piece_front(v3.b, v1, v2);
    v19 = nd_load_64((v3.b + 48));
    v20 = nd_load_ptr((v3.b + 40));
    goto L5;
L2:;
    v9 = nd_load_8(v1);
    nd_ndef_fields_front_piece_front(v3.b, v1, v2);
    v13 = nd_load_ptr((v3.b + 40));
    v15 = nd_load_64((v3.b + 48));
    if ((uint8_t)(v9 & 16) == 0) { v19 = v15; v20 = v13; goto L5; }
    if (!(v15 == 1ULL)) { v39 = 0ULL; goto L7; }
    v39 = (uint64_t)nd_load_8(v13);
    goto L7;
L5:;
    if (!(v19 == 4ULL)) { v39 = 0ULL; goto L7; }
    v39 = ((((uint64_t)nd_load_8(((unsigned char *)((uintptr_t)v20 + 1))) << 16) | ((uint64_t)nd_load_8(v20) << 24)) | ((uint64_t)nd_load_8(((unsigned char *)((uintptr_t)v20 + 2))) << 8)) | (uint64_t)nd_load_8(((unsigned char *)((uintptr_t)v20 + 3)));
L7:;
    return v39;
}

static uint8_t nd_ndef_diagnostics_expecting_kind_begun(unsigned char *v1, uint64_t v2) {
    uint8_t v4, v7, v14, v19, v26, v27;
    unsigned char *v9;
    uint64_t v11;
    ND_ROOM(120) v3;
    nd_ndef_fields_front_piece_front(v3.b, v1, v2);
    v4 = nd_load_8(v3.b);
    if (!((uint8_t)(v4 & 32) == 0)) { v27 = 0; goto L8; }
    v7 = nd_ndef_piece_header_header_tnf(v4);
    v9 = nd_load_ptr((v3.b + 72));
    v11 = nd_load_64((v3.b + 80));
    if (!(v7 == 1)) { v27 = 0; goto L8; }
    switch (v11) {
    case 0ULL: { v27 = 0; goto L8; }
    case 1ULL: goto L3;
    default: goto L4; }
L3:;
    v14 = nd_ndef_format_kind_of_one(nd_load_8(v9));
    v27 = v14;
    goto L8;
L4:;
    if (!(v11 < 3ULL)) goto L6;
    v19 = nd_ndef_format_kind_of_two(nd_load_8(v9), nd_load_8(((unsigned char *)((uintptr_t)v9 + 1))));
    v27 = v19;
    goto L8;
L6:;
    if (!(v11 == 3ULL)) { v27 = 0; goto L8; }
    v26 = nd_ndef_format_kind_of_three(nd_load_8(v9), nd_load_8(((unsigned char *)((uintptr_t)v9 + 1))), nd_load_8(((unsigned char *)((uintptr_t)v9 + 2))));
    v27 = v26;
L8:;
    return v27;
}

static uint8_t nd_ndef_diagnostics_begun_is_kind_whole(unsigned char *v1, uint64_t v2) {
    uint64_t v3, v8;
    v3 = nd_ndef_diagnostics_begun_head_length(v1, v2);
    if (!(v2 > 1ULL)) { v8 = 0ULL; goto L2; }
    v8 = (uint64_t)nd_load_8((v1 + 1));
L2:;
    return (v8 + v3) <= v2;
}

static uint8_t nd_ndef_diagnostics_begun_is_lengths_whole(unsigned char *v1, uint64_t v2) {
    uint64_t v3;
    v3 = nd_ndef_diagnostics_begun_head_length(v1, v2);
    return v3 <= v2;
}

static uint8_t nd_ndef_diagnostics_begun_is_size_known(unsigned char *v1, uint64_t v2) {
    uint8_t v3, v6, v7, v9;
    v3 = nd_ndef_diagnostics_begun_is_lengths_whole(v1, v2);
    if (v3) { v9 = 1; goto L4; }
    if (v2 == 0ULL) { v6 = 0; goto L3; }
    v6 = nd_load_8(v1);
L3:;
    v7 = nd_ndef_piece_header_header_tnf(v6);
    v9 = v7 == 0;
L4:;
    return v9;
}

static uint8_t nd_ndef_diagnostics_poster_heads_has_no_payload(unsigned char *v1, uint64_t v2) {
    uint64_t v9;
    uint8_t v11;
    if (v2 == 0ULL) { v11 = 0; goto L3; }
    if ((((uint8_t)(nd_load_8(v1) & 16) == 0) ? 6ULL : 3ULL) > v2) { v11 = 0; goto L3; }
    v9 = nd_ndef_diagnostics_begun_payload_length(v1, v2);
    v11 = v9 == 0ULL;
L3:;
    return v11;
}

static void nd_ndef_diagnostics_length_mismatch_length_mismatch(unsigned char *v1, uint8_t v2, uint64_t v3, unsigned char *v4, uint64_t v5) {
    uint32_t v15, v43, v57;
    uint8_t v18, v26, v44, v45, v50, v52, v58, v67, v70, v72, v84, v85, v88, v89, v92, v93;
    uint64_t v24, v35, v37, v40, v46, v63, v76, v78, v82, v86, v87, v90, v91, v94, v95;
    unsigned char *v32, *v33, *v34, *v36, *v39;
    ND_ROOM(24) v6, v11;
    ND_ROOM(12) v7, v8, v9, v10;
    nd_store_32((v10.b + 8), 0U);
    nd_memset(v11.b, 0, 24);
    v15 = nd_load_32(((unsigned char *)nd_data_switch_table_ndef_diagnostics_length_mismatch_length_mismatch + (ptrdiff_t)(uint64_t)v2 * 4));
    v18 = nd_load_8(((unsigned char *)nd_data_switch_table_ndef_diagnostics_length_mismatch_length_mismatch_12 + (ptrdiff_t)(uint64_t)v2));
    nd_store_32(v10.b, 0U);
    nd_store_32((v10.b + 4), v15);
    nd_store_8((v10.b + 9), v18);
    if (!(v5 == 0ULL)) goto L6;
    nd_ndef_lang_leaf_Leaf_lengths(v11.b, v10.b);
    v24 = nd_load_64((v11.b + 8));
    switch (nd_load_8(v11.b)) {
    case 1: goto L2;
    case 2: goto L3;
    case 0: goto L4;
    case 3: goto L4;
    case 4: goto L4;
    default: goto L5; }
L2:;
    if (v3 == v24) goto L4;
    v92 = 5;
    v93 = v2;
    v94 = v24;
    v95 = v3;
    goto L33;
L3:;
    v26 = v3 < v24;
    v92 = (uint8_t)(v26 ? 6 : 0);
    v93 = (uint8_t)(v26 ? v2 : 0);
    v94 = v26 ? v24 : 0ULL;
    v95 = v26 ? v3 : 0ULL;
    goto L33;
L4:;
    v92 = 0;
    v93 = 0;
    v94 = 0ULL;
    v95 = 0ULL;
    goto L33;
L5:;
    nd_stop();
L6:;
    nd_store_32((v9.b + 8), 0U);
    nd_store_8(v9.b, 0);
    v32 = v9.b + 4;
    nd_store_32(v32, v15);
    v33 = v9.b + 9;
    nd_store_8(v33, v18);
    v34 = v9.b + 10;
    v35 = v5;
    v36 = v4;
    v37 = v3;
L7:;
    if (v35 == 0ULL) { v88 = 0; v89 = 0; v90 = 0ULL; v91 = 0ULL; goto L32; }
    v39 = (unsigned char *)((uintptr_t)v36 + 1);
    v40 = v35 + 18446744073709551615ULL;
    if (!(nd_load_8(v9.b) == 0)) { v88 = 0; v89 = 0; v90 = 0ULL; v91 = 0ULL; goto L32; }
    v43 = nd_load_32(v32);
    v44 = nd_load_8(v33);
    v45 = nd_load_8(v34);
    v46 = nd_usub_sat_i64(v37, 1ULL);
    if (v43 == 0U) goto L11;
    nd_store_8(v9.b, 0);
    nd_store_32(v32, (v43 + 4294967295U));
    goto L31;
L11:;
    v50 = nd_load_8(v36);
    if (!(v40 == 0ULL)) goto L30;
    nd_memset(v6.b, 0, 24);
    nd_store_32((v7.b + 8), 0U);
    nd_memset(v8.b, 0, 12);
    switch (v44) {
    case 2: { v84 = 11; v85 = 0; v86 = 0ULL; v87 = 0ULL; goto L29; }
    case 3: { v84 = 11; v85 = 0; v86 = 0ULL; v87 = 0ULL; goto L29; }
    case 6: goto L13;
    case 4: { v67 = 8; goto L20; }
    case 7: goto L17;
    case 8: goto L18;
    case 0: goto L19;
    case 1: goto L19;
    case 5: goto L19;
    case 9: goto L19;
    case 10: goto L19;
    default: goto L28; }
L13:;
    v52 = (uint8_t)(v50 + 255);
    if (!(v52 < 3)) { v57 = 0U; v58 = 1; goto L15; }
    v57 = nd_load_32(((unsigned char *)nd_data_switch_table_ndef_diagnostics_length_mismatch_length_mismatch_13 + (ptrdiff_t)(uint64_t)v52 * 4));
    v58 = 0;
L15:;
    nd_store_32(v7.b, 0U);
    nd_store_32((v7.b + 4), v57);
    nd_store_8((v7.b + 9), v58);
    nd_ndef_lang_leaf_Leaf_lengths(v6.b, v7.b);
    v63 = nd_load_64((v6.b + 8));
    if (!(uint8_t)((nd_load_8(v6.b) != 1) ? 1 : (v46 == v63))) { v84 = 8; v85 = v50; v86 = v63; v87 = v46; goto L29; }
    v84 = 0;
    v85 = 0;
    v86 = 0ULL;
    v87 = 0ULL;
    goto L29;
L17:;
    v67 = 29;
    goto L20;
L18:;
    v67 = 20;
    goto L20;
L19:;
    v67 = 23;
L20:;
    nd_ndef_lang_leaf_Stage_field_after(v8.b, v44, v45, v50);
    v70 = nd_load_8((v8.b + 9));
    v72 = nd_load_8((v8.b + 10));
    if (!(nd_load_8(v8.b) == 0)) { v84 = 0; v85 = 0; v86 = 0ULL; v87 = 0ULL; goto L29; }
    v76 = (uint64_t)nd_load_32((v8.b + 4));
    if (v46 < v76) { v84 = 9; v85 = v67; v86 = v76; v87 = v46; goto L29; }
    v78 = v46 - v76;
    switch (v70) {
    case 3: goto L23;
    case 9: goto L24;
    case 10: goto L25;
    case 0: goto L26;
    case 1: goto L26;
    case 2: goto L26;
    case 4: goto L26;
    case 5: goto L26;
    case 6: goto L26;
    case 7: goto L26;
    case 8: goto L26;
    default: goto L27; }
L23:;
    if ((v78 & 1ULL) == 0ULL) goto L26;
    v84 = 10;
    v85 = 0;
    v86 = 0ULL;
    v87 = 0ULL;
    goto L29;
L24:;
    if (v78 == 0ULL) { v84 = 12; v85 = 0; v86 = 0ULL; v87 = 0ULL; goto L29; }
    goto L26;
L25:;
    v82 = (uint64_t)v72;
    if (v78 < v82) { v84 = 13; v85 = 0; v86 = v82; v87 = v78; goto L29; }
L26:;
    v84 = 0;
    v85 = 0;
    v86 = 0ULL;
    v87 = 0ULL;
    goto L29;
L27:;
    nd_stop();
L28:;
    nd_stop();
L29:;
    v88 = v84;
    v89 = v85;
    v90 = v86;
    v91 = v87;
    goto L32;
L30:;
    nd_ndef_lang_leaf_Stage_field_after(v9.b, v44, v45, v50);
L31:;
    v35 = v40;
    v36 = v39;
    v37 = v46;
    goto L7;
L32:;
    v92 = v88;
    v93 = v89;
    v94 = v90;
    v95 = v91;
L33:;
    nd_store_8(v1, v92);
    nd_store_8(((unsigned char *)((uintptr_t)v1 + 1)), v93);
    nd_store_64(((unsigned char *)((uintptr_t)v1 + 8)), v94);
    nd_store_64(((unsigned char *)((uintptr_t)v1 + 16)), v95);
    return;
}

static void nd_ndef_diagnostics_sentence_Sentence_push_octets(unsigned char *v1, uint64_t v2) {
    uint8_t v3;
    nd_ndef_diagnostics_sentence_Sentence_push_number(v1, v2);
    v3 = v2 == 1ULL;
    nd_ndef_diagnostics_sentence_Sentence_push(v1, (v3 ? (unsigned char *)nd_data_static_185 : (unsigned char *)nd_data_static_186), (v3 ? 6ULL : 7ULL));
    return;
}

static void nd_ndef_diagnostics_sentence_Sentence_push_kind(unsigned char *v1, uint8_t v2) {
    struct nd_ptr_64 v9;
    nd_ndef_diagnostics_sentence_Sentence_push(v1, nd_load_ptr(((unsigned char *)&nd_data_switch_table_ndef_diagnostics_sentence_Sentence_push_kind_14 + (ptrdiff_t)(uint64_t)v2 * 8)), nd_load_64(((unsigned char *)nd_data_switch_table_ndef_diagnostics_sentence_Sentence_push_kind + (ptrdiff_t)(uint64_t)v2 * 8)));
    nd_ndef_diagnostics_sentence_Sentence_push(v1, (unsigned char *)nd_data_static_190, 3ULL);
    v9 = nd_ndef_format_kind_Kind_name(v2);
    nd_ndef_diagnostics_sentence_Sentence_push(v1, v9.f0, v9.f1);
    nd_ndef_diagnostics_sentence_Sentence_push(v1, (unsigned char *)nd_data_static_191, 2ULL);
    return;
}

static struct nd_ptr_64 nd_ndef_format_kind_Kind_name(uint8_t v1) {
    return (struct nd_ptr_64) { nd_load_ptr(((unsigned char *)&nd_data_switch_table_ndef_format_kind_Kind_name_15 + (ptrdiff_t)(uint64_t)v1 * 8)), nd_load_64(((unsigned char *)nd_data_switch_table_ndef_format_kind_Kind_name + (ptrdiff_t)(uint64_t)v1 * 8)) };
}

static void nd_ndef_diagnostics_sentence_Sentence_push_given(unsigned char *v1, uint64_t v2) {
    uint8_t v3;
    nd_ndef_diagnostics_sentence_Sentence_push_number(v1, v2);
    v3 = v2 == 1ULL;
    nd_ndef_diagnostics_sentence_Sentence_push(v1, (v3 ? (unsigned char *)nd_data_static_215 : (unsigned char *)nd_data_static_216), (v3 ? 11ULL : 12ULL));
    return;
}

static void nd_ndef_diagnostics_sentence_Sentence_push_left(unsigned char *v1, uint64_t v2) {
    uint8_t v3;
    nd_ndef_diagnostics_sentence_Sentence_push_number(v1, v2);
    v3 = v2 == 1ULL;
    nd_ndef_diagnostics_sentence_Sentence_push(v1, (v3 ? (unsigned char *)nd_data_static_221 : (unsigned char *)nd_data_static_222), (v3 ? 24ULL : 25ULL));
    return;
}

static struct nd_ptr_64 nd_ndef_types_text_TextParts_octets(unsigned char *v1) {
    ND_ROOM(32) v2;
    nd_ndef_types_text_TextParts_split(v2.b, v1);
    return (struct nd_ptr_64) { nd_load_ptr((v2.b + 16)), nd_load_64((v2.b + 24)) };
}

static void nd_ndef_types_text_TextParts_split(unsigned char *v1, unsigned char *v2) {
    unsigned char *v3, *v6;
    uint64_t v5, v9;
    v3 = nd_load_ptr(v2);
    v5 = nd_load_64((v2 + 8));
    v6 = (unsigned char *)((uintptr_t)v3 + 1);
    v9 = (uint64_t)(uint8_t)(nd_load_8(v3) & 63);
    nd_store_ptr(v1, v6);
    nd_store_64((v1 + 8), v9);
    nd_store_ptr((v1 + 16), ((unsigned char *)((uintptr_t)v6 + (uintptr_t)v9)));
    nd_store_64((v1 + 24), (v5 + (v9 ^ 18446744073709551615ULL)));
    return;
}

static void nd_ndef_c_utf16_put_in_utf8(unsigned char *v1, uint8_t v2, unsigned char *v3, uint64_t v4) {
    unsigned char *v6, *v7, *v8, *v9, *v10, *v12, *v15, *v57, *v60, *v87;
    uint64_t v11, v27, v56, v59, v86, v88, v89, v90;
    uint32_t v18, v19, v24, v33, v34, v39, v41, v55, v61;
    ND_ROOM(4) v5;
    nd_store_32(v5.b, 0U);
    v6 = v5.b + 1;
    v7 = v5.b + 2;
    v8 = v5.b + 3;
    v9 = (unsigned char *)((uintptr_t)v1 + 16);
    v10 = (unsigned char *)((uintptr_t)v1 + 8);
    v11 = v4;
    v12 = v3;
L1:;
    if (v11 == 0ULL) goto L17;
    v15 = (unsigned char *)((uintptr_t)v12 + 2);
    v18 = (uint32_t)nd_load_8(v12);
    v19 = (uint32_t)nd_load_8(((unsigned char *)((uintptr_t)v12 + 1)));
    v24 = v2 ? ((v19 << 8) | v18) : ((v18 << 8) | v19);
    if ((v24 & 63488U) == 55296U) goto L5;
    v27 = v11 + 18446744073709551614ULL;
    if ((v24 + 4294909952U) < 4294965248U) goto L7;
    nd_stop();
L5:;
    v33 = (uint32_t)nd_load_8(v15);
    v34 = (uint32_t)nd_load_8(((unsigned char *)((uintptr_t)v12 + 3)));
    v39 = v2 ? ((v34 << 8) | v33) : ((v33 << 8) | v34);
    v41 = v39 + (v24 << 10);
    if ((v41 < 56669184U) | (int)((v41 + 4238296064U) < 1056768U)) goto L11;
    nd_stop();
L7:;
    nd_store_32(v5.b, 0U);
    if (!(v24 < 128U)) goto L9;
    nd_store_8(v5.b, (uint8_t)v24);
    v86 = v27;
    v87 = v15;
    v88 = 1ULL;
    goto L14;
L9:;
    if (!(v24 < 2048U)) { v59 = v27; v60 = v15; v61 = v24; goto L12; }
    nd_store_8(v5.b, (uint8_t)((uint8_t)(v24 >> 6) | 192));
    nd_store_8(v6, (uint8_t)((uint8_t)((uint8_t)v24 & 63) | 128));
    v86 = v27;
    v87 = v15;
    v88 = 2ULL;
    goto L14;
L11:;
    v55 = v41 + 4238353408U;
    v56 = v11 + 18446744073709551612ULL;
    v57 = (unsigned char *)((uintptr_t)v12 + 4);
    nd_store_32(v5.b, 0U);
    if (v41 < 56679424U) { v59 = v56; v60 = v57; v61 = v55; goto L12; }
    goto L13;
L12:;
    nd_store_8(v5.b, (uint8_t)((uint8_t)(v61 >> 12) | 224));
    nd_store_8(v6, (uint8_t)((uint8_t)((uint8_t)(v61 >> 6) & 63) | 128));
    nd_store_8(v7, (uint8_t)((uint8_t)((uint8_t)v61 & 63) | 128));
    v86 = v59;
    v87 = v60;
    v88 = 3ULL;
    goto L14;
L13:;
    nd_store_8(v5.b, (uint8_t)((uint8_t)(v55 >> 18) + 240));
    nd_store_8(v6, (uint8_t)((uint8_t)((uint8_t)(v55 >> 12) & 63) | 128));
    nd_store_8(v7, (uint8_t)((uint8_t)((uint8_t)(v55 >> 6) & 63) | 128));
    nd_store_8(v8, (uint8_t)((uint8_t)((uint8_t)v39 & 63) | 128));
    v86 = v56;
    v87 = v57;
    v88 = 4ULL;
L14:;
    v89 = nd_load_64(v9);
    v90 = nd_uadd_sat_i64(v88, v89);
    if (v90 > nd_load_64(v10)) goto L16;
    nd_core_slice_edits_slice_T_copy_from_slice(((unsigned char *)((uintptr_t)nd_load_ptr(v1) + (uintptr_t)v89)), v5.b, v88);
L16:;
    nd_store_64(v9, v90);
    v11 = v86;
    v12 = v87;
    goto L1;
L17:;
    return;
}

static void nd_ndef_c_poster_parts_known_made(unsigned char *v1, uint8_t v2, unsigned char *v3) {
    struct nd_8_64 v6;
    struct nd_ptr_64 v10;
    uint8_t v13, v15, v25, v26;
    uint64_t v21, v23, v27;
    unsigned char *v22, *v24;
    ND_ROOM(24) v4;
    ND_ROOM(22) v5;
    nd_memset(v5.b, 0, 6);
    v6 = nd_ndef_c_content_content_length(v3);
    if (!(uint8_t)(v6.f0 & 1)) goto L3;
    v10 = nd_ndef_format_kind_Kind_name(v2);
    v13 = nd_load_8(v3);
    v15 = nd_load_8(((unsigned char *)((uintptr_t)v3 + 1)));
    nd_memcpy((v5.b + 6), ((unsigned char *)((uintptr_t)v3 + 8)), 16);
    nd_memcpy(v4.b, ((unsigned char *)((uintptr_t)v3 + 24)), 24);
    nd_memcpy(((unsigned char *)((uintptr_t)v1 + 50)), v5.b, 22);
    nd_memcpy(((unsigned char *)((uintptr_t)v1 + 72)), v4.b, 24);
    v21 = 1ULL;
    v22 = v10.f0;
    v23 = v10.f1;
    v24 = (unsigned char *)nd_data_static_50;
    v25 = v13;
    v26 = v15;
    v27 = v6.f1;
L2:;
    nd_store_64(v1, v21);
    nd_store_64(((unsigned char *)((uintptr_t)v1 + 8)), v21);
    nd_store_ptr(((unsigned char *)((uintptr_t)v1 + 16)), v22);
    nd_store_64(((unsigned char *)((uintptr_t)v1 + 24)), v23);
    nd_store_ptr(((unsigned char *)((uintptr_t)v1 + 32)), v24);
    nd_store_64(((unsigned char *)((uintptr_t)v1 + 40)), 0ULL);
    nd_store_8(((unsigned char *)((uintptr_t)v1 + 48)), v25);
    nd_store_8(((unsigned char *)((uintptr_t)v1 + 49)), v26);
    nd_store_64(((unsigned char *)((uintptr_t)v1 + 96)), v27);
    return;
L3:;
    nd_memset(((unsigned char *)((uintptr_t)v1 + 50)), 0, 46);
    v21 = 0ULL;
    v22 = (unsigned char *)0;
    v23 = 0ULL;
    v24 = (unsigned char *)0;
    v25 = 0;
    v26 = 0;
    v27 = 0ULL;
    goto L2;
}

static void nd_ndef_c_poster_writing_media_octets(unsigned char *v1, unsigned char *v2) {
    unsigned char *v5, *v11, *v21;
    uint64_t v13, v15, v18;
    uint8_t v23;
    ND_ROOM(24) v3;
    nd_memset(v3.b, 0, 24);
    v5 = nd_load_ptr(((unsigned char *)((uintptr_t)v2 + 16)));
    if (nd_load_32(((unsigned char *)((uintptr_t)v5 + 32))) == 0U) goto L2;
    goto L3;
L1:;
    return;
L2:;
    nd_store_64(v1, 1ULL);
    nd_store_ptr(((unsigned char *)((uintptr_t)v1 + 8)), (unsigned char *)nd_data_static_50);
    nd_store_64(((unsigned char *)((uintptr_t)v1 + 16)), 0ULL);
    goto L1;
L3:;
    v11 = nd_load_ptr(v2);
    v13 = nd_load_64((v2 + 8));
    v15 = nd_load_64(((unsigned char *)((uintptr_t)v5 + 16)));
    if (v13 < v15) goto L6;
    v18 = nd_load_64(((unsigned char *)((uintptr_t)v5 + 24)));
    if ((v13 - v15) < v18) goto L6;
    v21 = (unsigned char *)((uintptr_t)v11 + (uintptr_t)v15);
    nd_simdutf8_basic_from_utf8(v3.b, v21, v18);
    v23 = nd_load_8(v3.b) == 0;
    nd_store_64(v1, (uint64_t)v23);
    nd_store_ptr(((unsigned char *)((uintptr_t)v1 + 8)), (v23 ? v21 : (unsigned char *)0));
    nd_store_64(((unsigned char *)((uintptr_t)v1 + 16)), (v23 ? v18 : 0ULL));
    goto L1;
L6:;
    nd_memset(v1, 0, 24);
    goto L1;
}

static void nd_ndef_c_poster_writing_asked_series(unsigned char *v1, uint32_t v2, uint8_t v3, unsigned char *v4, uint64_t v5) {
    uint64_t v15, v16;
    ND_ROOM(96) v6;
    ND_ROOM(104) v7;
    ND_ROOM(48) v8;
    nd_memset(v6.b, 0, 96);
    nd_store_64(v8.b, 0ULL);
    switch (v2) {
    case 0U: goto L1;
    case 1U: goto L2;
    default: { v15 = 0ULL; v16 = 0ULL; goto L6; } }
L1:;
    nd_memset(v6.b, 0, 96);
    v15 = 1ULL;
    v16 = 0ULL;
    goto L6;
L2:;
    nd_store_8(v8.b, 5);
    nd_store_ptr((v8.b + 8), v4);
    nd_store_64((v8.b + 16), v5);
    nd_memset((v8.b + 24), 0, 24);
    nd_ndef_c_poster_parts_known_made(v7.b, v3, v8.b);
    if (!(nd_load_8(v7.b) == 1)) goto L5;
    nd_memcpy(v6.b, (v7.b + 8), 96);
    v15 = 1ULL;
    v16 = 1ULL;
    goto L6;
L4:;
    return;
L5:;
    nd_memset(v1, 0, 112);
    goto L4;
L6:;
    nd_store_64(v1, v15);
    nd_store_64(((unsigned char *)((uintptr_t)v1 + 8)), v16);
    nd_memcpy(((unsigned char *)((uintptr_t)v1 + 16)), v6.b, 96);
    goto L4;
}

static uint32_t nd_ndef_c_series_writing_give_message(unsigned char *v1, uint64_t v2, unsigned char *v3, uint64_t v4, unsigned char *v5, uint64_t v6, unsigned char *v7) {
    uint64_t v11, v12, v16, v17, v25;
    uint32_t v20;
    uint8_t v22;
    ND_ROOM(1) v8;
    ND_ROOM(24) v9, v10;
    v11 = 0ULL;
    v12 = 0ULL;
L1:;
    if (v11 == v4) goto L3;
    v16 = nd_ndef_c_record_list_series_count(((unsigned char *)((uintptr_t)v3 + (uintptr_t)(v11 * 104ULL))));
    v17 = nd_uadd_sat_i64(v16, v12);
    v11 = v11 + 1ULL;
    v12 = v17;
    goto L1;
L3:;
    if (v12 > 65535ULL) { v20 = 3U; goto L4; }
    goto L5;
L4:;
    return v20;
L5:;
    nd_store_ptr(v9.b, v8.b);
    nd_memset((v9.b + 8), 0, 16);
    v22 = nd_ndef_c_series_writing_put_message(v9.b, v1, v2, v3, v4, v12);
    if (!(uint8_t)(v22 & 1)) { v20 = 3U; goto L4; }
    v25 = nd_load_64((v9.b + 16));
    if (v25 > 4294967295ULL) { v20 = 3U; goto L4; }
    nd_store_64(v7, v25);
    if (v6 < v25) { v20 = 2U; goto L4; }
    nd_store_ptr(v10.b, v5);
    nd_store_64((v10.b + 8), v6);
    nd_store_64((v10.b + 16), 0ULL);
    nd_ndef_c_series_writing_put_message(v10.b, v1, v2, v3, v4, v12);
    v20 = 0U;
    goto L4;
}

static uint64_t nd_ndef_c_record_list_series_count(unsigned char *v1) {
    uint64_t v9;
    switch (nd_load_8(v1)) {
    case 0: { v9 = 0ULL; goto L5; }
    case 1: goto L1;
    case 2: goto L2;
    case 3: goto L3;
    case 4: goto L4;
    default: goto L6; }
L1:;
    v9 = 1ULL;
    goto L5;
L2:;
    v9 = nd_load_64(((unsigned char *)((uintptr_t)v1 + 32)));
    goto L5;
L3:;
    v9 = nd_load_64(((unsigned char *)((uintptr_t)v1 + 32)));
    goto L5;
L4:;
    v9 = nd_load_64(((unsigned char *)((uintptr_t)v1 + 48)));
L5:;
    return v9;
L6:;
    nd_stop();
}

static uint8_t nd_ndef_c_series_writing_put_message(unsigned char *v1, unsigned char *v2, uint64_t v3, unsigned char *v4, uint64_t v5, uint64_t v6) {
    unsigned char *v25, *v28, *v33, *v34, *v35, *v36, *v37, *v38, *v39, *v40, *v41, *v42, *v43, *v44, *v45, *v46, *v47, *v48, *v49, *v50, *v51, *v52, *v53, *v54, *v55, *v56, *v57, *v58, *v59, *v60, *v61, *v62, *v63, *v64, *v65, *v66, *v67, *v68, *v69, *v70, *v71, *v72, *v73, *v74, *v75, *v76, *v77, *v78, *v79, *v80, *v81, *v82, *v83, *v84, *v90, *v92, *v93, *v94, *v95, *v96, *v97, *v98, *v99, *v100, *v101, *v102, *v103, *v104, *v123, *v127, *v134, *v163, *v165, *v170, *v172, *v177, *v181, *v188, *v199, *v204, *v208, *v210, *v213, *v215, *v219, *v248, *v250, *v255, *v257, *v262, *v264, *v269, *v271, *v281, *v283, *v287, *v289, *v375, *v383;
    uint64_t v26, v27, v85, v87, v91, v105, v107, v124, v128, v131, v136, v139, v164, v166, v167, v169, v171, v173, v176, v178, v182, v185, v190, v193, v205, v207, v209, v212, v214, v216, v220, v223, v249, v251, v252, v254, v256, v258, v261, v263, v265, v266, v268, v270, v272, v275, v277, v280, v282, v284, v285, v286, v288, v300, v301, v302, v303, v308, v309, v314, v315, v319, v324, v325, v330, v331, v336, v337, v343, v344, v349, v350, v355, v356, v360, v361, v366, v367, v371, v376, v377, v382, v386, v391, v392, v393, v400, v402, v406, v407, v412, v413, v417, v421;
    uint8_t v86, v106, v148, v168, v174, v175, v206, v211, v233, v253, v259, v260, v267, v273, v274, v278, v279, v429;
    struct nd_8_64 v200;
    ND_ROOM(1) v7, v8, v9, v10, v11, v12, v13;
    ND_ROOM(7) v14;
    ND_ROOM(12) v15;
    ND_ROOM(104) v16, v21;
    ND_ROOM(48) v17, v20, v22;
    ND_ROOM(56) v18, v19, v23, v24;
    v25 = (unsigned char *)((uintptr_t)v1 + 16);
    v26 = nd_load_64(v25);
    v27 = nd_uadd_sat_i64(v3, v26);
    v28 = (unsigned char *)((uintptr_t)v1 + 8);
    if (v27 > nd_load_64(v28)) goto L2;
    nd_core_slice_edits_slice_T_copy_from_slice(((unsigned char *)((uintptr_t)nd_load_ptr(v1) + (uintptr_t)v26)), v2, v3);
L2:;
    nd_store_64(v25, v27);
    v33 = v18.b + 8;
    v34 = v18.b + 9;
    v35 = v18.b + 16;
    v36 = v18.b + 32;
    v37 = v17.b + 1;
    v38 = v17.b + 8;
    v39 = v17.b + 24;
    v40 = v16.b + 8;
    v41 = v16.b + 16;
    v42 = v16.b + 24;
    v43 = v16.b + 32;
    v44 = v16.b + 40;
    v45 = v16.b + 48;
    v46 = v16.b + 49;
    v47 = v16.b + 56;
    v48 = v16.b + 64;
    v49 = v16.b + 72;
    v50 = v16.b + 80;
    v51 = v16.b + 88;
    v52 = v16.b + 96;
    v53 = v20.b + 8;
    v54 = v20.b + 16;
    v55 = v20.b + 24;
    v56 = v23.b + 8;
    v57 = v23.b + 9;
    v58 = v23.b + 16;
    v59 = v23.b + 32;
    v60 = v22.b + 1;
    v61 = v22.b + 8;
    v62 = v22.b + 24;
    v63 = v21.b + 8;
    v64 = v21.b + 16;
    v65 = v21.b + 24;
    v66 = v21.b + 32;
    v67 = v21.b + 40;
    v68 = v21.b + 48;
    v69 = v21.b + 49;
    v70 = v21.b + 56;
    v71 = v21.b + 64;
    v72 = v21.b + 72;
    v73 = v21.b + 80;
    v74 = v21.b + 88;
    v75 = v21.b + 96;
    v76 = v15.b + 1;
    v77 = v15.b + 2;
    v78 = v15.b + 3;
    v79 = v15.b + 4;
    v80 = v15.b + 5;
    v81 = v15.b + 6;
    v82 = v15.b + 7;
    v83 = v15.b + 8;
    v84 = v14.b + 2;
    v85 = v6;
    v86 = 1;
    v87 = 0ULL;
L3:;
    if (v87 == v5) { v429 = 1; goto L79; }
    v90 = (unsigned char *)((uintptr_t)v4 + (uintptr_t)(v87 * 104ULL));
    v91 = nd_ndef_c_record_list_series_count(v90);
    v92 = (unsigned char *)((uintptr_t)v90 + 8);
    v93 = (unsigned char *)((uintptr_t)v90 + 16);
    v94 = (unsigned char *)((uintptr_t)v90 + 24);
    v95 = (unsigned char *)((uintptr_t)v90 + 32);
    v96 = (unsigned char *)((uintptr_t)v90 + 40);
    v97 = (unsigned char *)((uintptr_t)v90 + 48);
    v98 = (unsigned char *)((uintptr_t)v90 + 49);
    v99 = (unsigned char *)((uintptr_t)v90 + 96);
    v100 = (unsigned char *)((uintptr_t)v90 + 56);
    v101 = (unsigned char *)((uintptr_t)v90 + 64);
    v102 = (unsigned char *)((uintptr_t)v90 + 72);
    v103 = (unsigned char *)((uintptr_t)v90 + 80);
    v104 = (unsigned char *)((uintptr_t)v90 + 88);
    v105 = 0ULL;
    v106 = v86;
    v107 = v85;
L5:;
    if (v105 == v91) goto L78;
    switch (nd_load_8(v90)) {
    case 0: goto L7;
    case 1: goto L8;
    case 2: goto L9;
    case 3: goto L16;
    case 4: goto L23;
    default: goto L28; }
L7:;
    nd_stop();
L8:;
    v277 = nd_load_64(v99);
    v278 = nd_load_8(v98);
    v279 = nd_load_8(v97);
    v280 = nd_load_64(v96);
    v281 = nd_load_ptr(v95);
    v282 = nd_load_64(v94);
    v283 = nd_load_ptr(v93);
    v284 = nd_load_64(v92);
    v285 = nd_load_64(v104);
    v286 = nd_load_64(v103);
    v287 = nd_load_ptr(v102);
    v288 = nd_load_64(v101);
    v289 = nd_load_ptr(v100);
    goto L30;
L9:;
    v123 = nd_load_ptr(v92);
    v124 = nd_load_64(v93);
    v127 = (unsigned char *)((uintptr_t)nd_load_ptr(v94) + (uintptr_t)(v105 * 40ULL));
    nd_store_64(v22.b, 0ULL);
    nd_memset(v23.b, 0, 56);
    nd_memset(v24.b, 0, 56);
    v128 = nd_load_64(v127);
    if (v124 < v128) { v163 = (unsigned char *)0; v164 = 0ULL; v165 = (unsigned char *)0; v166 = 0ULL; v167 = 0ULL; v168 = 0; v169 = 0ULL; v170 = (unsigned char *)0; v171 = 0ULL; v172 = (unsigned char *)0; v173 = 0ULL; v174 = 0; v175 = 0; v176 = 0ULL; goto L15; }
    v131 = nd_load_64(((unsigned char *)((uintptr_t)v127 + 8)));
    if ((v124 - v128) < v131) { v163 = (unsigned char *)0; v164 = 0ULL; v165 = (unsigned char *)0; v166 = 0ULL; v167 = 0ULL; v168 = 0; v169 = 0ULL; v170 = (unsigned char *)0; v171 = 0ULL; v172 = (unsigned char *)0; v173 = 0ULL; v174 = 0; v175 = 0; v176 = 0ULL; goto L15; }
    v134 = (unsigned char *)((uintptr_t)v123 + (uintptr_t)v128);
    v136 = nd_load_64(((unsigned char *)((uintptr_t)v127 + 16)));
    if (v124 < v136) { v163 = (unsigned char *)0; v164 = 0ULL; v165 = (unsigned char *)0; v166 = 0ULL; v167 = 0ULL; v168 = 0; v169 = 0ULL; v170 = (unsigned char *)0; v171 = 0ULL; v172 = (unsigned char *)0; v173 = 0ULL; v174 = 0; v175 = 0; v176 = 0ULL; goto L15; }
    v139 = nd_load_64(((unsigned char *)((uintptr_t)v127 + 24)));
    if ((v124 - v136) < v139) { v163 = (unsigned char *)0; v164 = 0ULL; v165 = (unsigned char *)0; v166 = 0ULL; v167 = 0ULL; v168 = 0; v169 = 0ULL; v170 = (unsigned char *)0; v171 = 0ULL; v172 = (unsigned char *)0; v173 = 0ULL; v174 = 0; v175 = 0; v176 = 0ULL; goto L15; }
    nd_ndef_c_text_text_content(v24.b, v134, v131, ((unsigned char *)((uintptr_t)v123 + (uintptr_t)v136)), v139, nd_load_32(((unsigned char *)((uintptr_t)v127 + 32))));
    nd_core_option_OptionTry_branch(v23.b, v24.b);
    if (!(nd_load_8(v23.b) == 0)) { v163 = (unsigned char *)0; v164 = 0ULL; v165 = (unsigned char *)0; v166 = 0ULL; v167 = 0ULL; v168 = 0; v169 = 0ULL; v170 = (unsigned char *)0; v171 = 0ULL; v172 = (unsigned char *)0; v173 = 0ULL; v174 = 0; v175 = 0; v176 = 0ULL; goto L15; }
    v148 = nd_load_8(v57);
    nd_store_8(v22.b, nd_load_8(v56));
    nd_store_8(v60, v148);
    nd_memcpy(v61, v58, 16);
    nd_memcpy(v62, v59, 24);
    nd_ndef_c_poster_parts_known_made(v21.b, 1, v22.b);
    v163 = nd_load_ptr(v70);
    v164 = nd_load_64(v71);
    v165 = nd_load_ptr(v72);
    v166 = nd_load_64(v73);
    v167 = nd_load_64(v74);
    v168 = nd_load_8(v21.b);
    v169 = nd_load_64(v63);
    v170 = nd_load_ptr(v64);
    v171 = nd_load_64(v65);
    v172 = nd_load_ptr(v66);
    v173 = nd_load_64(v67);
    v174 = nd_load_8(v68);
    v175 = nd_load_8(v69);
    v176 = nd_load_64(v75);
L15:;
    v262 = v163;
    v263 = v164;
    v264 = v165;
    v265 = v166;
    v266 = v167;
    v267 = v168;
    v268 = v169;
    v269 = v170;
    v270 = v171;
    v271 = v172;
    v272 = v173;
    v273 = v174;
    v274 = v175;
    v275 = v176;
    goto L29;
L16:;
    v177 = nd_load_ptr(v92);
    v178 = nd_load_64(v93);
    v181 = (unsigned char *)((uintptr_t)nd_load_ptr(v94) + (uintptr_t)(v105 << 5));
    nd_store_64(v20.b, 5ULL);
    v182 = nd_load_64(v181);
    if (v178 < v182) { v204 = (unsigned char *)0; v205 = 0ULL; v206 = 0; v207 = 0ULL; v208 = (unsigned char *)0; v209 = 0ULL; v210 = (unsigned char *)0; v211 = 0; v212 = 0ULL; goto L22; }
    v185 = nd_load_64(((unsigned char *)((uintptr_t)v181 + 8)));
    if ((v178 - v182) < v185) { v204 = (unsigned char *)0; v205 = 0ULL; v206 = 0; v207 = 0ULL; v208 = (unsigned char *)0; v209 = 0ULL; v210 = (unsigned char *)0; v211 = 0; v212 = 0ULL; goto L22; }
    v188 = (unsigned char *)((uintptr_t)v177 + (uintptr_t)v182);
    v190 = nd_load_64(((unsigned char *)((uintptr_t)v181 + 16)));
    if (v178 < v190) { v204 = (unsigned char *)0; v205 = 0ULL; v206 = 0; v207 = 0ULL; v208 = (unsigned char *)0; v209 = 0ULL; v210 = (unsigned char *)0; v211 = 0; v212 = 0ULL; goto L22; }
    v193 = nd_load_64(((unsigned char *)((uintptr_t)v181 + 24)));
    if (((v185 + 18446744073709551360ULL) < 18446744073709551361ULL) | (int)((v178 - v190) < v193)) { v204 = (unsigned char *)0; v205 = 0ULL; v206 = 0; v207 = 0ULL; v208 = (unsigned char *)0; v209 = 0ULL; v210 = (unsigned char *)0; v211 = 0; v212 = 0ULL; goto L22; }
    v199 = (unsigned char *)((uintptr_t)v177 + (uintptr_t)v190);
    nd_store_ptr(v53, v199);
    nd_store_64(v54, v193);
    nd_memset(v55, 0, 24);
    v200 = nd_ndef_c_content_content_length(v20.b);
    if (!(uint8_t)(v200.f0 & 1)) { v204 = (unsigned char *)0; v205 = 0ULL; v206 = 0; v207 = 0ULL; v208 = (unsigned char *)0; v209 = 0ULL; v210 = (unsigned char *)0; v211 = 0; v212 = 0ULL; goto L22; }
    v204 = v199;
    v205 = v193;
    v206 = 1;
    v207 = 2ULL;
    v208 = v188;
    v209 = v185;
    v210 = (unsigned char *)nd_data_static_50;
    v211 = 5;
    v212 = v200.f1;
L22:;
    v262 = v204;
    v263 = v205;
    v264 = (unsigned char *)0;
    v265 = 0ULL;
    v266 = 0ULL;
    v267 = v206;
    v268 = v207;
    v269 = v208;
    v270 = v209;
    v271 = v210;
    v272 = 0ULL;
    v273 = v211;
    v274 = 0;
    v275 = v212;
    goto L29;
L23:;
    v213 = nd_load_ptr(v92);
    v214 = nd_load_64(v93);
    v215 = nd_load_ptr(v94);
    v216 = nd_load_64(v95);
    v219 = (unsigned char *)((uintptr_t)nd_load_ptr(v96) + (uintptr_t)(v105 * 24ULL));
    nd_store_64(v17.b, 0ULL);
    nd_memset(v18.b, 0, 56);
    nd_memset(v19.b, 0, 56);
    v220 = nd_load_64(v219);
    if (v216 < v220) { v248 = (unsigned char *)0; v249 = 0ULL; v250 = (unsigned char *)0; v251 = 0ULL; v252 = 0ULL; v253 = 0; v254 = 0ULL; v255 = (unsigned char *)0; v256 = 0ULL; v257 = (unsigned char *)0; v258 = 0ULL; v259 = 0; v260 = 0; v261 = 0ULL; goto L27; }
    v223 = nd_load_64(((unsigned char *)((uintptr_t)v219 + 8)));
    if ((v216 - v220) < v223) { v248 = (unsigned char *)0; v249 = 0ULL; v250 = (unsigned char *)0; v251 = 0ULL; v252 = 0ULL; v253 = 0; v254 = 0ULL; v255 = (unsigned char *)0; v256 = 0ULL; v257 = (unsigned char *)0; v258 = 0ULL; v259 = 0; v260 = 0; v261 = 0ULL; goto L27; }
    nd_ndef_c_alternative_writing_alternative_content(v19.b, nd_load_32(((unsigned char *)((uintptr_t)v219 + 16))), v213, v214, ((unsigned char *)((uintptr_t)v215 + (uintptr_t)(v220 << 4))), v223);
    nd_core_option_OptionTry_branch(v18.b, v19.b);
    if (!(nd_load_8(v18.b) == 0)) { v248 = (unsigned char *)0; v249 = 0ULL; v250 = (unsigned char *)0; v251 = 0ULL; v252 = 0ULL; v253 = 0; v254 = 0ULL; v255 = (unsigned char *)0; v256 = 0ULL; v257 = (unsigned char *)0; v258 = 0ULL; v259 = 0; v260 = 0; v261 = 0ULL; goto L27; }
    v233 = nd_load_8(v34);
    nd_store_8(v17.b, nd_load_8(v33));
    nd_store_8(v37, v233);
    nd_memcpy(v38, v35, 16);
    nd_memcpy(v39, v36, 24);
    nd_ndef_c_poster_parts_known_made(v16.b, 10, v17.b);
    v248 = nd_load_ptr(v47);
    v249 = nd_load_64(v48);
    v250 = nd_load_ptr(v49);
    v251 = nd_load_64(v50);
    v252 = nd_load_64(v51);
    v253 = nd_load_8(v16.b);
    v254 = nd_load_64(v40);
    v255 = nd_load_ptr(v41);
    v256 = nd_load_64(v42);
    v257 = nd_load_ptr(v43);
    v258 = nd_load_64(v44);
    v259 = nd_load_8(v45);
    v260 = nd_load_8(v46);
    v261 = nd_load_64(v52);
L27:;
    v262 = v248;
    v263 = v249;
    v264 = v250;
    v265 = v251;
    v266 = v252;
    v267 = v253;
    v268 = v254;
    v269 = v255;
    v270 = v256;
    v271 = v257;
    v272 = v258;
    v273 = v259;
    v274 = v260;
    v275 = v261;
    goto L29;
L28:;
    nd_stop();
L29:;
    if (v267 == 1) { v277 = v275; v278 = v274; v279 = v273; v280 = v272; v281 = v271; v282 = v270; v283 = v269; v284 = v268; v285 = v266; v286 = v265; v287 = v264; v288 = v263; v289 = v262; goto L30; }
    v429 = 0;
    goto L79;
L30:;
    nd_store_8(v15.b, v106);
    nd_store_8(v76, (uint8_t)(v107 == 1ULL));
    nd_store_8(v77, 0);
    nd_store_8(v78, (uint8_t)(v277 < 256ULL));
    nd_store_8(v79, (uint8_t)v284);
    nd_store_8(v80, (uint8_t)v282);
    nd_store_8(v81, (uint8_t)(v280 != 0ULL));
    nd_store_8(v82, (uint8_t)v280);
    nd_store_32(v83, (uint32_t)v277);
    nd_memset(v84, 0, 5);
    v300 = nd_ndef_piece_write_write_head(v15.b, v14.b);
    v301 = nd_load_64(v25);
    v302 = nd_uadd_sat_i64(v300, v301);
    v303 = nd_load_64(v28);
    if (v302 > v303) { v308 = v303; goto L32; }
    nd_core_slice_edits_slice_T_copy_from_slice(((unsigned char *)((uintptr_t)nd_load_ptr(v1) + (uintptr_t)v301)), v14.b, v300);
    v308 = nd_load_64(v28);
L32:;
    nd_store_64(v25, v302);
    v309 = nd_uadd_sat_i64(v282, v302);
    if (v309 > v308) { v314 = v308; goto L34; }
    nd_core_slice_edits_slice_T_copy_from_slice(((unsigned char *)((uintptr_t)nd_load_ptr(v1) + (uintptr_t)v302)), v283, v282);
    v314 = nd_load_64(v28);
L34:;
    nd_store_64(v25, v309);
    v315 = nd_uadd_sat_i64(v280, v309);
    if (v315 > v314) goto L37;
    nd_core_slice_edits_slice_T_copy_from_slice(((unsigned char *)((uintptr_t)nd_load_ptr(v1) + (uintptr_t)v309)), v281, v280);
    v319 = nd_load_64(v28);
    nd_store_64(v25, v315);
    if (v315 > v319) goto L37;
    nd_core_slice_edits_slice_T_copy_from_slice(((unsigned char *)((uintptr_t)nd_load_ptr(v1) + (uintptr_t)v315)), (unsigned char *)nd_data_static_50, 0ULL);
L37:;
    nd_store_64(v25, v315);
    switch (v279) {
    case 0: goto L38;
    case 1: goto L45;
    case 2: goto L52;
    case 3: goto L58;
    case 4: goto L67;
    case 5: goto L73;
    default: goto L76; }
L38:;
    nd_store_8(v10.b, (uint8_t)v288);
    v324 = nd_uadd_sat_i64(v315, 1ULL);
    v325 = nd_load_64(v28);
    if (v324 > v325) { v330 = v325; goto L40; }
    nd_core_slice_edits_slice_T_copy_from_slice(((unsigned char *)((uintptr_t)nd_load_ptr(v1) + (uintptr_t)v315)), v10.b, 1ULL);
    v330 = nd_load_64(v28);
L40:;
    nd_store_64(v25, v324);
    v331 = nd_uadd_sat_i64(v288, v324);
    if (v331 > v330) { v336 = v330; goto L42; }
    nd_core_slice_edits_slice_T_copy_from_slice(((unsigned char *)((uintptr_t)nd_load_ptr(v1) + (uintptr_t)v324)), v289, v288);
    v336 = nd_load_64(v28);
L42:;
    nd_store_64(v25, v331);
    v337 = nd_uadd_sat_i64(v286, v331);
    if (v337 > v336) goto L44;
    nd_core_slice_edits_slice_T_copy_from_slice(((unsigned char *)((uintptr_t)nd_load_ptr(v1) + (uintptr_t)v331)), v287, v286);
L44:;
    nd_store_64(v25, v337);
    goto L77;
L45:;
    nd_store_8(v11.b, (uint8_t)((uint8_t)v288 ^ 128));
    v343 = nd_uadd_sat_i64(v315, 1ULL);
    v344 = nd_load_64(v28);
    if (v343 > v344) { v349 = v344; goto L47; }
    nd_core_slice_edits_slice_T_copy_from_slice(((unsigned char *)((uintptr_t)nd_load_ptr(v1) + (uintptr_t)v315)), v11.b, 1ULL);
    v349 = nd_load_64(v28);
L47:;
    nd_store_64(v25, v343);
    v350 = nd_uadd_sat_i64(v288, v343);
    if (v350 > v349) { v355 = v349; goto L49; }
    nd_core_slice_edits_slice_T_copy_from_slice(((unsigned char *)((uintptr_t)nd_load_ptr(v1) + (uintptr_t)v343)), v289, v288);
    v355 = nd_load_64(v28);
L49:;
    nd_store_64(v25, v350);
    v356 = nd_uadd_sat_i64(v350, 2ULL);
    if (v356 > v355) goto L51;
    nd_core_slice_edits_slice_T_copy_from_slice(((unsigned char *)((uintptr_t)nd_load_ptr(v1) + (uintptr_t)v350)), (unsigned char *)nd_data_static_88, 2ULL);
L51:;
    nd_store_64(v25, v356);
    nd_ndef_c_utf16_put_units(v1, v287, v286);
    goto L77;
L52:;
    nd_store_8(v12.b, v278);
    v360 = nd_uadd_sat_i64(v315, 1ULL);
    v361 = nd_load_64(v28);
    if (v360 > v361) { v366 = v361; goto L54; }
    nd_core_slice_edits_slice_T_copy_from_slice(((unsigned char *)((uintptr_t)nd_load_ptr(v1) + (uintptr_t)v315)), v12.b, 1ULL);
    v366 = nd_load_64(v28);
L54:;
    nd_store_64(v25, v360);
    v367 = nd_uadd_sat_i64(v288, v360);
    if (v367 > v366) goto L57;
    nd_core_slice_edits_slice_T_copy_from_slice(((unsigned char *)((uintptr_t)nd_load_ptr(v1) + (uintptr_t)v360)), v289, v288);
    v371 = nd_load_64(v28);
    nd_store_64(v25, v367);
    if (v367 > v371) goto L57;
    nd_core_slice_edits_slice_T_copy_from_slice(((unsigned char *)((uintptr_t)nd_load_ptr(v1) + (uintptr_t)v367)), (unsigned char *)nd_data_static_50, 0ULL);
L57:;
    nd_store_64(v25, v367);
    goto L77;
L58:;
    v375 = (unsigned char *)(uintptr_t)v286;
    nd_store_8(v9.b, 0);
    nd_store_8(v8.b, v278);
    v376 = nd_uadd_sat_i64(v315, 1ULL);
    v377 = nd_load_64(v28);
    if (v376 > v377) { v382 = v377; goto L60; }
    nd_core_slice_edits_slice_T_copy_from_slice(((unsigned char *)((uintptr_t)nd_load_ptr(v1) + (uintptr_t)v315)), v8.b, 1ULL);
    v382 = nd_load_64(v28);
L60:;
    nd_store_64(v25, v376);
    v383 = (unsigned char *)((uintptr_t)v287 + 8);
    nd_store_8(v7.b, (uint8_t)nd_load_64(v383));
    v386 = nd_uadd_sat_i64(v315, 2ULL);
    if (v386 > v382) { v391 = v382; goto L62; }
    nd_core_slice_edits_slice_T_copy_from_slice(((unsigned char *)((uintptr_t)nd_load_ptr(v1) + (uintptr_t)v376)), v7.b, 1ULL);
    v391 = nd_load_64(v28);
L62:;
    nd_store_64(v25, v386);
    v392 = nd_load_64(v383);
    v393 = nd_uadd_sat_i64(v392, v386);
    if (v393 > v391) { v400 = v391; goto L64; }
    nd_core_slice_edits_slice_T_copy_from_slice(((unsigned char *)((uintptr_t)nd_load_ptr(v1) + (uintptr_t)v386)), ((unsigned char *)((uintptr_t)v289 + (uintptr_t)nd_load_64(v287))), v392);
    v400 = nd_load_64(v28);
L64:;
    nd_store_64(v25, v393);
    nd_store_8(v9.b, (uint8_t)v285);
    v402 = nd_uadd_sat_i64(v393, 1ULL);
    if (v402 > v400) goto L66;
    nd_core_slice_edits_slice_T_copy_from_slice(((unsigned char *)((uintptr_t)nd_load_ptr(v1) + (uintptr_t)v393)), v9.b, 1ULL);
L66:;
    nd_store_64(v25, v402);
    nd_ndef_c_alternative_writing_put_references(v1, v289, v375, v285);
    goto L77;
L67:;
    nd_store_8(v13.b, v278);
    v406 = nd_uadd_sat_i64(v315, 1ULL);
    v407 = nd_load_64(v28);
    if (v406 > v407) { v412 = v407; goto L69; }
    nd_core_slice_edits_slice_T_copy_from_slice(((unsigned char *)((uintptr_t)nd_load_ptr(v1) + (uintptr_t)v315)), v13.b, 1ULL);
    v412 = nd_load_64(v28);
L69:;
    nd_store_64(v25, v406);
    v413 = nd_uadd_sat_i64(v288, v406);
    if (v413 > v412) goto L72;
    nd_core_slice_edits_slice_T_copy_from_slice(((unsigned char *)((uintptr_t)nd_load_ptr(v1) + (uintptr_t)v406)), v289, v288);
    v417 = nd_load_64(v28);
    nd_store_64(v25, v413);
    if (v413 > v417) goto L72;
    nd_core_slice_edits_slice_T_copy_from_slice(((unsigned char *)((uintptr_t)nd_load_ptr(v1) + (uintptr_t)v413)), (unsigned char *)nd_data_static_50, 0ULL);
L72:;
    nd_store_64(v25, v413);
    goto L77;
L73:;
    v421 = nd_uadd_sat_i64(v288, v315);
    if (v421 > nd_load_64(v28)) goto L75;
    nd_core_slice_edits_slice_T_copy_from_slice(((unsigned char *)((uintptr_t)nd_load_ptr(v1) + (uintptr_t)v315)), v289, v288);
L75:;
    nd_store_64(v25, v421);
    goto L77;
L76:;
    nd_stop();
L77:;
    v105 = v105 + 1ULL;
    v106 = 0;
    v107 = v107 + 18446744073709551615ULL;
    goto L5;
L78:;
    v85 = v107;
    v86 = v106;
    v87 = v87 + 1ULL;
    goto L3;
L79:;
    return v429;
}

static void nd_core_option_OptionTry_branch(unsigned char *v1, unsigned char *v2) {
    uint8_t v3, v5, v7, v14, v15, v16;
    ND_ROOM(22) v8;
    ND_ROOM(24) v9;
    v3 = nd_load_8(v2);
    v5 = nd_load_8(((unsigned char *)((uintptr_t)v2 + 8)));
    v7 = nd_load_8(((unsigned char *)((uintptr_t)v2 + 9)));
    nd_memset(v8.b, 0, 22);
    nd_memset(v9.b, 0, 24);
    if (!(v3 == 1)) { v14 = 1; v15 = 0; v16 = 0; goto L2; }
    nd_memcpy((v8.b + 6), ((unsigned char *)((uintptr_t)v2 + 16)), 16);
    nd_memcpy(v9.b, ((unsigned char *)((uintptr_t)v2 + 32)), 24);
    v14 = 0;
    v15 = v5;
    v16 = v7;
L2:;
    nd_store_8(v1, v14);
    nd_store_8(((unsigned char *)((uintptr_t)v1 + 8)), v15);
    nd_store_8(((unsigned char *)((uintptr_t)v1 + 9)), v16);
    nd_memcpy(((unsigned char *)((uintptr_t)v1 + 16)), (v8.b + 6), 16);
    nd_memcpy(((unsigned char *)((uintptr_t)v1 + 32)), v9.b, 24);
    return;
}

static void nd_ndef_c_text_text_at(unsigned char *v1, unsigned char *v2, uint64_t v3) {
    uint8_t v6;
    uint64_t v8;
    struct nd_ptr_64 v10;
    ND_ROOM(16) v4;
    nd_store_ptr(v4.b, v2);
    nd_store_64((v4.b + 8), v3);
    v6 = nd_load_8(v2);
    v8 = (uint64_t)(uint8_t)(v6 & 63);
    v10 = nd_ndef_types_text_TextParts_octets(v4.b);
    nd_store_64(v1, 1ULL);
    nd_store_64((v1 + 8), v8);
    nd_store_64((v1 + 16), (v8 + 1ULL));
    nd_store_64((v1 + 24), v10.f1);
    nd_store_32((v1 + 32), (uint32_t)(uint8_t)(v6 >> 7));
    nd_store_32((v1 + 36), 0U);
    return;
}

static uint8_t nd_ndef_c_titles_is_title(uint8_t v1, unsigned char *v2, uint64_t v3) {
    uint8_t v4;
    v4 = nd_ndef_format_table_Table_kind(0, v1, v2, v3);
    return v4 == 1;
}

static void nd_ndef_c_titles_text_of(unsigned char *v1, unsigned char *v2, unsigned char *v3) {
    unsigned char *v5;
    uint64_t v10, v14, v17, v19;
    uint32_t v21;
    ND_ROOM(40) v4;
    v5 = (unsigned char *)((uintptr_t)v3 + 48);
    nd_ndef_c_text_text_at(v4.b, ((unsigned char *)((uintptr_t)v2 + (uintptr_t)nd_load_64(v5))), nd_load_64(((unsigned char *)((uintptr_t)v3 + 56))));
    v10 = nd_load_64(v5);
    v14 = nd_load_64((v4.b + 16));
    v17 = nd_load_64((v4.b + 8));
    v19 = nd_load_64((v4.b + 24));
    v21 = nd_load_32((v4.b + 32));
    nd_store_64(v1, (nd_load_64(v4.b) + v10));
    nd_store_64((v1 + 8), v17);
    nd_store_64((v1 + 16), (v14 + v10));
    nd_store_64((v1 + 24), v19);
    nd_store_32((v1 + 32), v21);
    nd_store_32((v1 + 36), 0U);
    return;
}

static void nd_ndef_c_items_item_of(unsigned char *v1, unsigned char *v2, uint64_t v3, unsigned char *v4, uint8_t v5) {
    uint32_t v7, v38, v39, v40, v41, v42, v43, v50;
    uint64_t v12, v15, v47, v52, v55, v58, v61, v64, v67;
    unsigned char *v13;
    ND_ROOM(40) v6;
    v7 = nd_ndef_c_kinds_ndef_kind(v2, v3, v4, 0U);
    if (!v5) { v38 = 0U; v39 = 0U; v40 = 0U; v41 = 0U; v42 = 0U; v43 = 0U; goto L5; }
    if (!(nd_load_64(((unsigned char *)((uintptr_t)v4 + 72))) == 1ULL)) { v38 = 0U; v39 = 0U; v40 = 0U; v41 = 0U; v42 = 0U; v43 = 0U; goto L5; }
    v12 = nd_load_64(((unsigned char *)((uintptr_t)v4 + 48)));
    v13 = (unsigned char *)((uintptr_t)v2 + (uintptr_t)v12);
    v15 = nd_load_64(((unsigned char *)((uintptr_t)v4 + 56)));
    switch (v7) {
    case 1U: goto L3;
    case 2U: goto L4;
    default: { v38 = 0U; v39 = 0U; v40 = 0U; v41 = 0U; v42 = 0U; v43 = 0U; goto L5; } }
L3:;
    nd_ndef_c_text_text_at(v6.b, v13, v15);
    v38 = nd_load_32((v6.b + 32)) + 1U;
    v39 = 0U;
    v40 = (uint32_t)(nd_load_64(v6.b) + v12);
    v41 = (uint32_t)nd_load_64((v6.b + 8));
    v42 = (uint32_t)(nd_load_64((v6.b + 16)) + v12);
    v43 = (uint32_t)nd_load_64((v6.b + 24));
    goto L5;
L4:;
    v38 = 3U;
    v39 = (uint32_t)nd_load_8(v13);
    v40 = 0U;
    v41 = 0U;
    v42 = (uint32_t)v12 + 1U;
    v43 = (uint32_t)v15 + 4294967295U;
L5:;
    v47 = nd_load_64(((unsigned char *)((uintptr_t)v4 + 8)));
    v50 = nd_load_32(((unsigned char *)((uintptr_t)v4 + 80)));
    v52 = nd_load_64(((unsigned char *)((uintptr_t)v4 + 16)));
    v55 = nd_load_64(((unsigned char *)((uintptr_t)v4 + 24)));
    v58 = nd_load_64(((unsigned char *)((uintptr_t)v4 + 40)));
    v61 = nd_load_64(((unsigned char *)((uintptr_t)v4 + 48)));
    v64 = nd_load_64(((unsigned char *)((uintptr_t)v4 + 64)));
    v67 = nd_load_64(((unsigned char *)((uintptr_t)v4 + 72)));
    nd_store_32(v1, (uint32_t)nd_load_64(v4));
    nd_store_32((v1 + 4), (uint32_t)v47);
    nd_store_32((v1 + 8), v50);
    nd_store_32((v1 + 12), v7);
    nd_store_32((v1 + 16), (uint32_t)v52);
    nd_store_32((v1 + 20), (uint32_t)v55);
    nd_store_32((v1 + 24), (uint32_t)v58);
    nd_store_32((v1 + 28), (uint32_t)v61);
    nd_store_32((v1 + 32), (uint32_t)v64);
    nd_store_32((v1 + 36), (uint32_t)v67);
    nd_store_32((v1 + 40), v38);
    nd_store_32((v1 + 44), v39);
    nd_store_32((v1 + 48), v40);
    nd_store_32((v1 + 52), v41);
    nd_store_32((v1 + 56), v42);
    nd_store_32((v1 + 60), v43);
    return;
}

static uint8_t nd_ndef_c_handover_is_handover(unsigned char *v1, uint64_t v2) {
    uint8_t v3, v4, v5;
    v3 = nd_ndef_c_handover_is_nest(5, v1, v2);
    if (v3) { v5 = 1; goto L2; }
    v4 = nd_ndef_c_handover_is_nest(4, v1, v2);
    v5 = v4;
L2:;
    return v5;
}

static uint8_t nd_ndef_c_query_wants(unsigned char *v1, unsigned char *v2) {
    uint32_t v4;
    uint8_t v12;
    v4 = nd_load_32(((unsigned char *)((uintptr_t)v2 + 80)));
    if (v4 < 6U) goto L2;
    nd_stop();
L2:;
    v12 = nd_ndef_c_nested_is_alternative((uint8_t)v4, ((unsigned char *)((uintptr_t)v1 + (uintptr_t)nd_load_64(((unsigned char *)((uintptr_t)v2 + 16))))), nd_load_64(((unsigned char *)((uintptr_t)v2 + 24))));
    return v12;
}

static uint8_t nd_ndef_c_nested_is_alternative(uint8_t v1, unsigned char *v2, uint64_t v3) {
    uint8_t v6, v11, v18, v19;
    if (!(v1 == 1)) { v19 = 0; goto L7; }
    switch (v3) {
    case 0ULL: { v19 = 0; goto L7; }
    case 1ULL: goto L2;
    default: goto L3; }
L2:;
    v6 = nd_ndef_format_kind_of_one(nd_load_8(v2));
    v19 = v6;
    goto L7;
L3:;
    if (!(v3 < 3ULL)) goto L5;
    v11 = nd_ndef_format_kind_of_two(nd_load_8(v2), nd_load_8(((unsigned char *)((uintptr_t)v2 + 1))));
    v19 = v11;
    goto L7;
L5:;
    if (!(v3 == 3ULL)) { v19 = 0; goto L7; }
    v18 = nd_ndef_format_kind_of_three(nd_load_8(v2), nd_load_8(((unsigned char *)((uintptr_t)v2 + 1))), nd_load_8(((unsigned char *)((uintptr_t)v2 + 2))));
    v19 = v18;
L7:;
    return v19 == 10;
}

static void nd_ndef_c_links_LinksRecordQuery_given(unsigned char *v1, unsigned char *v2, unsigned char *v3) {
    uint64_t v11, v13, v17, v21, v32, v35, v45, v46;
    unsigned char *v14, *v15, *v19, *v25, *v26, *v27, *v28, *v29, *v30, *v38;
    uint8_t v20, v31, v40, v41, v42;
    uint32_t v44;
    ND_ROOM(32) v4, v5;
    ND_ROOM(96) v6;
    v11 = nd_load_64(((unsigned char *)((uintptr_t)v3 + 48)));
    v13 = nd_load_64(((unsigned char *)((uintptr_t)v3 + 56)));
    v14 = (unsigned char *)((uintptr_t)((unsigned char *)((uintptr_t)nd_load_ptr(((unsigned char *)((uintptr_t)v2 + 16))) + 1)) + (uintptr_t)v11);
    v15 = nd_load_ptr(v2);
    v17 = nd_load_64((v2 + 8));
    v19 = (unsigned char *)((uintptr_t)v14 + 2);
    v20 = nd_load_8(((unsigned char *)((uintptr_t)v14 + 1)));
    v21 = (uint64_t)v20;
    if (v20 == 0) { v44 = 0U; v45 = 0ULL; v46 = 0ULL; goto L10; }
    nd_store_ptr(v5.b, v15);
    nd_store_64((v5.b + 8), v17);
    v25 = v6.b + 8;
    v26 = v6.b + 40;
    v27 = v6.b + 48;
    v28 = v4.b + 8;
    v29 = v4.b + 16;
    v30 = v4.b + 24;
    nd_memset((v5.b + 16), 0, 16);
    v31 = v20 < 4;
    v32 = 0ULL;
L2:;
    nd_ndef_c_walk_WalkIterator_next(v6.b, v5.b);
    if (!(nd_load_8(v6.b) == 1)) { v44 = 0U; v45 = 0ULL; v46 = 0ULL; goto L10; }
    v35 = nd_load_64(v25);
    v38 = (unsigned char *)((uintptr_t)v15 + (uintptr_t)nd_load_64(v26));
    if (!(nd_load_64(v27) == v21)) goto L7;
    nd_store_ptr(v4.b, v38);
    nd_store_64(v28, v21);
    nd_store_ptr(v29, v19);
    nd_store_64(v30, v21);
    if (!v31) goto L6;
    v40 = nd_core_slice_scan_any_by_one(v4.b, v21);
    if (v40) goto L9;
    v44 = 1U;
    v45 = v32;
    v46 = v35;
    goto L10;
L6:;
    v41 = nd_core_slice_scan_any_in_run(v4.b, 0ULL, 4ULL);
    if (!v41) goto L8;
L7:;
    goto L9;
L8:;
    v42 = nd_core_cmp_slices_groups_equal(v38, v21, v19, v21);
    if (v42) { v44 = 1U; v45 = v32; v46 = v35; goto L10; }
L9:;
    v32 = v32 + 1ULL;
    goto L2;
L10:;
    nd_store_64(v1, (v11 + 1ULL));
    nd_store_64((v1 + 8), v13);
    nd_store_64((v1 + 16), v45);
    nd_store_64((v1 + 24), v46);
    nd_store_32((v1 + 32), v44);
    nd_store_32((v1 + 36), 0U);
    return;
}

static uint64_t nd_ndef_c_nested_alternatives_in(unsigned char *v1, uint64_t v2) {
    unsigned char *v7, *v8, *v9;
    uint64_t v10;
    uint32_t v13;
    uint8_t v19;
    ND_ROOM(32) v3;
    ND_ROOM(96) v4;
    nd_store_ptr(v3.b, v1);
    nd_store_64((v3.b + 8), v2);
    v7 = v4.b + 88;
    v8 = v4.b + 32;
    v9 = v4.b + 24;
    nd_memset((v3.b + 16), 0, 16);
    v10 = 0ULL;
L1:;
    nd_ndef_c_walk_WalkIterator_next(v4.b, v3.b);
    if (!(nd_load_8(v4.b) == 1)) goto L5;
    v13 = nd_load_32(v7);
    if (v13 < 6U) goto L4;
    nd_stop();
L4:;
    v19 = nd_ndef_c_nested_is_alternative((uint8_t)v13, ((unsigned char *)((uintptr_t)v1 + (uintptr_t)nd_load_64(v9))), nd_load_64(v8));
    v10 = v10 + (uint64_t)v19;
    goto L1;
L5:;
    return v10;
}

static uint8_t nd_ndef_c_query_wants_2(unsigned char *v1, unsigned char *v2) {
    uint32_t v4;
    uint8_t v12;
    v4 = nd_load_32(((unsigned char *)((uintptr_t)v2 + 80)));
    if (v4 < 6U) goto L2;
    nd_stop();
L2:;
    v12 = nd_ndef_c_titles_is_title((uint8_t)v4, ((unsigned char *)((uintptr_t)v1 + (uintptr_t)nd_load_64(((unsigned char *)((uintptr_t)v2 + 16))))), nd_load_64(((unsigned char *)((uintptr_t)v2 + 24))));
    return v12;
}

static void nd_ndef_c_writing_asked_parts(unsigned char *v1, unsigned char *v2, uint64_t v3, unsigned char *v4, uint64_t v5, unsigned char *v6, uint64_t v7, unsigned char *v8) {
    uint32_t v9;
    uint8_t v11, v15;
    v9 = nd_load_32(v8);
    v11 = (uint8_t)v9;
    if (!(v9 < 6U)) goto L3;
    if (nd_load_32(((unsigned char *)((uintptr_t)v8 + 4))) > 7U) goto L5;
    goto L4;
L2:;
    return;
L3:;
    nd_memset(v1, 0, 64);
    goto L2;
L4:;
    v15 = nd_ndef_c_writing_has_shape(v11, v3, v5, v7);
    if ((v7 < 4294967296ULL) & (int)(((v5 | v3) < 256ULL) & v15)) goto L6;
L5:;
    nd_memset(v1, 0, 64);
    goto L2;
L6:;
    nd_store_64(v1, 1ULL);
    nd_store_8(((unsigned char *)((uintptr_t)v1 + 8)), v11);
    nd_memset(((unsigned char *)((uintptr_t)v1 + 9)), 0, 7);
    nd_store_ptr(((unsigned char *)((uintptr_t)v1 + 16)), v2);
    nd_store_64(((unsigned char *)((uintptr_t)v1 + 24)), v3);
    nd_store_ptr(((unsigned char *)((uintptr_t)v1 + 32)), v4);
    nd_store_64(((unsigned char *)((uintptr_t)v1 + 40)), v5);
    nd_store_ptr(((unsigned char *)((uintptr_t)v1 + 48)), v6);
    nd_store_64(((unsigned char *)((uintptr_t)v1 + 56)), v7);
    goto L2;
}

static void nd_ndef_c_writing_way_of(unsigned char *v1, unsigned char *v2) {
    uint32_t v4, v8;
    uint8_t v12;
    v4 = nd_load_32(((unsigned char *)((uintptr_t)v2 + 4)));
    v8 = nd_load_32(((unsigned char *)((uintptr_t)v2 + 8)));
    v12 = (uint8_t)v4;
    nd_store_8(v1, (uint8_t)(v12 & 1));
    nd_store_8((v1 + 1), (uint8_t)((uint8_t)(v12 >> 1) & 1));
    nd_store_8((v1 + 2), (uint8_t)(v4 > 3U));
    nd_memset((v1 + 3), 0, 5);
    nd_store_64((v1 + 8), (uint64_t)((v8 == 0U) ? 4294967295U : v8));
    return;
}

static void nd_ndef_c_writer_plan_of(unsigned char *v1, unsigned char *v2, uint64_t v3, uint64_t v4, uint64_t v5) {
    uint32_t v7, v19;
    uint64_t v9;
    uint8_t v13, v15, v17;
    ND_ROOM(16) v6;
    v7 = nd_load_32(v2);
    v9 = (uint64_t)v7;
    if (!(v7 < 6U)) goto L3;
    if (nd_load_32(((unsigned char *)((uintptr_t)v2 + 4))) > 7U) goto L4;
    goto L5;
L2:;
    return;
L3:;
    nd_memset(v1, 0, 56);
    goto L2;
L4:;
    nd_memset(v1, 0, 56);
    goto L2;
L5:;
    nd_ndef_c_writing_way_of(v6.b, v2);
    v13 = nd_load_8(v6.b);
    v15 = nd_load_8((v6.b + 1));
    v17 = nd_load_8((v6.b + 2));
    v19 = nd_load_32(((unsigned char *)((uintptr_t)v2 + 8)));
    nd_store_64(v1, 1ULL);
    nd_store_64(((unsigned char *)((uintptr_t)v1 + 8)), v9);
    nd_store_64(((unsigned char *)((uintptr_t)v1 + 16)), v3);
    nd_store_64(((unsigned char *)((uintptr_t)v1 + 24)), v4);
    nd_store_64(((unsigned char *)((uintptr_t)v1 + 32)), v5);
    nd_store_8(((unsigned char *)((uintptr_t)v1 + 40)), v13);
    nd_store_8(((unsigned char *)((uintptr_t)v1 + 41)), v15);
    nd_store_8(((unsigned char *)((uintptr_t)v1 + 42)), v17);
    nd_store_8(((unsigned char *)((uintptr_t)v1 + 43)), 0);
    nd_store_32(((unsigned char *)((uintptr_t)v1 + 44)), (uint32_t)(v19 != 0U));
    nd_store_32(((unsigned char *)((uintptr_t)v1 + 48)), v19);
    nd_store_32(((unsigned char *)((uintptr_t)v1 + 52)), 0U);
    goto L2;
}

static uint8_t nd_ndef_message_stepping_can_be_written(unsigned char *v1) {
    uint8_t v25;
    switch (nd_load_8(v1)) {
    case 0: goto L1;
    case 1: goto L5;
    case 2: goto L5;
    case 3: goto L5;
    case 4: goto L5;
    case 5: goto L4;
    case 6: { v25 = 0; goto L8; }
    default: goto L9; }
L1:;
    if (!(nd_load_64(((unsigned char *)((uintptr_t)v1 + 8))) == 0ULL)) { v25 = 0; goto L8; }
    if (!(nd_load_64(((unsigned char *)((uintptr_t)v1 + 16))) == 0ULL)) { v25 = 0; goto L8; }
    if (nd_load_64(((unsigned char *)((uintptr_t)v1 + 24))) == 0ULL) goto L6;
    v25 = 0;
    goto L8;
L4:;
    if (nd_load_64(((unsigned char *)((uintptr_t)v1 + 8))) == 0ULL) goto L6;
    v25 = 0;
    goto L8;
L5:;
    if (!((nd_load_64(((unsigned char *)((uintptr_t)v1 + 8))) + 18446744073709551615ULL) < 255ULL)) { v25 = 0; goto L8; }
L6:;
    if (!(nd_load_64(((unsigned char *)((uintptr_t)v1 + 16))) < 256ULL)) { v25 = 0; goto L8; }
    v25 = nd_load_64(((unsigned char *)((uintptr_t)v1 + 24))) < 4294967296ULL;
L8:;
    return v25;
L9:;
    nd_stop();
}

static void nd_ndef_message_stepping_chunk_at(unsigned char *v1, unsigned char *v2, uint64_t v3) {
    uint32_t v9;
    uint64_t v11, v13, v16, v17;
    v9 = (nd_load_8(((unsigned char *)((uintptr_t)v2 + 36))) == 1) ? nd_load_32(((unsigned char *)((uintptr_t)v2 + 40))) : 4294967295U;
    if (v9 == 0U) goto L2;
    v11 = (uint64_t)v9;
    v13 = v3 - (v3 % v11);
    v16 = nd_load_64(((unsigned char *)((uintptr_t)v2 + 24))) - v13;
    v17 = nd_umin_i64(v11, v16);
    nd_store_64(v1, v13);
    nd_store_64((v1 + 8), v17);
    nd_store_8((v1 + 16), (uint8_t)(v16 <= v11));
    nd_memset((v1 + 17), 0, 7);
    return;
L2:;
    nd_stop();
}

static uint64_t nd_ndef_message_stepping_front_length(unsigned char *v1, unsigned char *v2) {
    uint64_t v7, v16;
    ND_ROOM(24) v3;
    ND_ROOM(12) v4;
    ND_ROOM(7) v5;
    nd_memcpy(v3.b, v2, 24);
    nd_ndef_message_stepping_head_of(v4.b, v1, v3.b);
    nd_memset((v5.b + 2), 0, 5);
    v7 = nd_ndef_piece_write_write_head(v4.b, v5.b);
    if (!(nd_load_64(v3.b) == 0ULL)) { v16 = v7; goto L2; }
    v16 = (nd_load_64(((unsigned char *)((uintptr_t)v1 + 8))) + v7) + nd_load_64(((unsigned char *)((uintptr_t)v1 + 16)));
L2:;
    return v16;
}

static void nd_ndef_message_stepping_head_of(unsigned char *v1, unsigned char *v2, unsigned char *v3) {
    uint64_t v6, v16;
    uint8_t v8, v33, v34, v35, v36, v37, v38, v39, v41;
    v6 = nd_load_64((v3 + 8));
    v8 = nd_load_8((v3 + 16));
    if (!(nd_load_64(v3) == 0ULL)) goto L2;
    v16 = nd_load_64(((unsigned char *)((uintptr_t)v2 + 16)));
    v33 = nd_load_8(((unsigned char *)((uintptr_t)v2 + 32)));
    v34 = (uint8_t)(v8 & 1);
    v35 = (v6 < 256ULL) & (int)(nd_load_8(((unsigned char *)((uintptr_t)v2 + 34))) == 0);
    v36 = nd_load_8(v2);
    v37 = (uint8_t)nd_load_64(((unsigned char *)((uintptr_t)v2 + 8)));
    v38 = (uint8_t)(v16 != 0ULL);
    v39 = (uint8_t)v16;
    goto L3;
L2:;
    v33 = 0;
    v34 = (uint8_t)(v8 & 1);
    v35 = (v6 < 256ULL) & (int)(nd_load_8(((unsigned char *)((uintptr_t)v2 + 34))) == 0);
    v36 = 6;
    v37 = 0;
    v38 = 0;
    v39 = 0;
L3:;
    v41 = nd_load_8(((unsigned char *)((uintptr_t)v2 + 33)));
    nd_store_8(v1, v33);
    nd_store_8((v1 + 1), (uint8_t)(v41 & v8));
    nd_store_8((v1 + 2), (uint8_t)(v34 ^ 1));
    nd_store_8((v1 + 3), (uint8_t)v35);
    nd_store_8((v1 + 4), v36);
    nd_store_8((v1 + 5), v37);
    nd_store_8((v1 + 6), v38);
    nd_store_8((v1 + 7), v39);
    nd_store_32((v1 + 8), (uint32_t)v6);
    return;
}

static uint64_t nd_ndef_message_stepping_put_front(unsigned char *v1, uint64_t v2, unsigned char *v3, uint64_t v4, unsigned char *v5, uint64_t v6, uint64_t v7, unsigned char *v8, uint64_t v9, uint64_t v10) {
    uint64_t v11, v14, v15, v16, v19, v20, v21, v22, v26;
    v11 = nd_umin_i64(v2, v7);
    v14 = nd_ndef_message_stepping_put(((unsigned char *)((uintptr_t)v1 + (uintptr_t)v11)), (v2 - v11), v8, v9, v10);
    v15 = nd_usub_sat_i64(v7, v2);
    v16 = nd_umin_i64(v4, v15);
    v19 = v14 + v10;
    v20 = nd_ndef_message_stepping_put(((unsigned char *)((uintptr_t)v3 + (uintptr_t)v16)), (v4 - v16), v8, v9, v19);
    v21 = nd_usub_sat_i64(v15, v4);
    v22 = nd_umin_i64(v6, v21);
    v26 = nd_ndef_message_stepping_put(((unsigned char *)((uintptr_t)v5 + (uintptr_t)v22)), (v6 - v22), v8, v9, (v19 + v20));
    return (v20 + v14) + v26;
}

static uint64_t nd_ndef_message_stepping_put(unsigned char *v1, uint64_t v2, unsigned char *v3, uint64_t v4, uint64_t v5) {
    uint64_t v7;
    v7 = nd_umin_i64((v4 - v5), v2);
    nd_core_slice_edits_slice_T_copy_from_slice(((unsigned char *)((uintptr_t)v3 + (uintptr_t)v5)), v1, v7);
    return v7;
}

static uint64_t nd_ndef_c_fields_count_of(unsigned char *v1) {
    uint64_t v4;
    ND_ROOM(576) v2;
    ND_ROOM(32) v3;
    nd_memcpy(v2.b, v1, 576);
    v4 = 0ULL;
L1:;
    nd_ndef_fields_message_fields_FieldsIterator_next(v3.b, v2.b);
    if (nd_load_8(v3.b) == 1) { v4 = v4 + 1ULL; goto L1; }
    return v4;
}

static uint64_t nd_ndef_c_fields_write_fields(unsigned char *v1, unsigned char *v2) {
    unsigned char *v5, *v6, *v7, *v8, *v20;
    uint64_t v9, v13;
    uint8_t v14, v15;
    ND_ROOM(576) v3;
    ND_ROOM(32) v4;
    nd_memcpy(v3.b, v1, 576);
    v5 = v4.b + 8;
    v6 = v4.b + 16;
    v7 = v4.b + 24;
    v8 = v4.b + 25;
    v9 = 0ULL;
L1:;
    nd_ndef_fields_message_fields_FieldsIterator_next(v4.b, v3.b);
    if (!(nd_load_8(v4.b) == 1)) goto L3;
    v13 = nd_load_64(v6);
    v14 = nd_load_8(v7);
    v15 = nd_load_8(v8);
    v20 = v2 + (ptrdiff_t)(v9 * 24ULL);
    nd_store_64(v20, nd_load_64(v5));
    nd_store_64((v20 + 8), v13);
    nd_store_32((v20 + 16), (uint32_t)v14);
    nd_store_32((v20 + 20), ((uint32_t)v15 + 1U));
    v9 = v9 + 1ULL;
    goto L1;
L3:;
    return v9;
}

static void nd_ndef_fields_report_payload_fields(unsigned char *v1, uint8_t v2, unsigned char *v3, uint64_t v4) {
    ND_ROOM(56) v5;
    ND_ROOM(96) v6;
    ND_ROOM(384) v7;
    ND_ROOM(136) v8;
    ND_ROOM(192) v9, v10;
    nd_memset(v5.b, 0, 56);
    nd_ndef_fields_payload_contents_of(v5.b, v2, v3, v4);
    nd_memcpy(v6.b, v5.b, 32);
    nd_memset((v6.b + 32), 0, 64);
    nd_store_64(v8.b, 6ULL);
    nd_memcpy((v8.b + 8), v6.b, 96);
    nd_memset((v8.b + 104), 0, 32);
    nd_ndef_fields_begun_begin_with(v7.b, 0ULL, v4, v8.b, v5.b);
    nd_memcpy(v9.b, v7.b, 192);
    nd_memcpy(v10.b, (v7.b + 192), 192);
    nd_memset(v1, 0, 16);
    nd_store_64((v1 + 16), 6ULL);
    nd_memset((v1 + 24), 0, 16);
    nd_store_ptr((v1 + 40), (unsigned char *)nd_data_static_50);
    nd_memset((v1 + 48), 0, 112);
    nd_store_ptr((v1 + 160), (unsigned char *)nd_data_static_50);
    nd_store_64((v1 + 168), 0ULL);
    nd_store_ptr((v1 + 176), (unsigned char *)nd_data_static_50);
    nd_store_64((v1 + 184), 0ULL);
    nd_memcpy((v1 + 192), v9.b, 192);
    nd_memcpy((v1 + 384), v10.b, 192);
    return;
}

static void nd_ndef_default_limits(unsigned char *v1) {
    nd_store_32(v1, 1048576U);
    nd_store_32((v1 + 4), 1024U);
    nd_store_32((v1 + 8), 4096U);
    nd_store_32((v1 + 12), 0U);
    return;
}

static uint32_t nd_ndef_field_name(uint32_t v1, unsigned char *v2, uint64_t v3, unsigned char *v4) {
    uint32_t v5, v14, v15;
    struct nd_ptr_64 v11;
    v5 = v1 + 4294967295U;
    if (!(v5 < 31U)) { v15 = 3U; goto L2; }
    v11 = nd_ndef_fields_name_FieldName_text((uint8_t)v5);
    v14 = nd_ndef_c_buffer_give(v11.f0, v11.f1, ((unsigned char *)((uintptr_t)v2 + (uintptr_t)((v2 == (unsigned char *)0) ? 4096ULL : 0ULL))), v3, v4);
    v15 = v14;
L2:;
    return v15;
}

static uint32_t nd_ndef_field_warning(uint32_t v1, unsigned char *v2, uint64_t v3, unsigned char *v4, uint64_t v5, unsigned char *v6) {
    unsigned char *v10, *v13;
    uint32_t v14, v81, v82;
    uint64_t v17, v25;
    uint8_t v20, v40, v41, v42, v45, v46, v51, v53, v59, v61, v66, v67, v73, v76, v77, v78;
    ND_ROOM(3) v7;
    v10 = (unsigned char *)((uintptr_t)v2 + (uintptr_t)((v2 == (unsigned char *)0) ? 4096ULL : 0ULL));
    v13 = (unsigned char *)((uintptr_t)v4 + (uintptr_t)((v4 == (unsigned char *)0) ? 4096ULL : 0ULL));
    v14 = v1 + 4294967295U;
    if (!(v14 < 31U)) { v82 = 3U; goto L24; }
    switch ((uint8_t)v14) {
    case 12: { v17 = 0ULL; goto L2; }
    case 2: goto L5;
    case 11: goto L10;
    case 13: goto L12;
    case 25: goto L14;
    case 27: goto L16;
    case 18: goto L18;
    case 3: goto L20;
    case 0: { v76 = 0; v77 = 0; v78 = 0; goto L23; }
    case 1: { v76 = 0; v77 = 0; v78 = 0; goto L23; }
    case 4: { v76 = 0; v77 = 0; v78 = 0; goto L23; }
    case 5: { v76 = 0; v77 = 0; v78 = 0; goto L23; }
    case 6: { v76 = 0; v77 = 0; v78 = 0; goto L23; }
    case 7: { v76 = 0; v77 = 0; v78 = 0; goto L23; }
    case 8: { v76 = 0; v77 = 0; v78 = 0; goto L23; }
    case 9: { v76 = 0; v77 = 0; v78 = 0; goto L23; }
    case 10: { v76 = 0; v77 = 0; v78 = 0; goto L23; }
    case 14: { v76 = 0; v77 = 0; v78 = 0; goto L23; }
    case 15: { v76 = 0; v77 = 0; v78 = 0; goto L23; }
    case 16: { v76 = 0; v77 = 0; v78 = 0; goto L23; }
    case 17: { v76 = 0; v77 = 0; v78 = 0; goto L23; }
    case 19: { v76 = 0; v77 = 0; v78 = 0; goto L23; }
    case 20: { v76 = 0; v77 = 0; v78 = 0; goto L23; }
    case 21: { v76 = 0; v77 = 0; v78 = 0; goto L23; }
    case 22: { v76 = 0; v77 = 0; v78 = 0; goto L23; }
    case 23: { v76 = 0; v77 = 0; v78 = 0; goto L23; }
    case 24: { v76 = 0; v77 = 0; v78 = 0; goto L23; }
    case 26: { v76 = 0; v77 = 0; v78 = 0; goto L23; }
    case 28: { v76 = 0; v77 = 0; v78 = 0; goto L23; }
    case 29: { v76 = 0; v77 = 0; v78 = 0; goto L23; }
    case 30: { v76 = 0; v77 = 0; v78 = 0; goto L23; }
    default: goto L22; }
L2:;
    if (v17 == v3) { v25 = v3; goto L4; }
    v20 = nd_load_8(((unsigned char *)((uintptr_t)v10 + (uintptr_t)v17)));
    if ((v20 < 32) | (int)(v20 == 127)) { v25 = v17; goto L4; }
    v17 = v17 + 1ULL;
    goto L2;
L4:;
    v76 = (uint8_t)(v25 < v3);
    v77 = 0;
    v78 = 0;
    goto L23;
L5:;
    if (!(v3 == 4ULL)) { v76 = 0; v77 = 0; v78 = 0; goto L23; }
    if (!(nd_load_8(v10) == 0)) { v76 = 0; v77 = 0; v78 = 0; goto L23; }
    if (!(nd_load_8((v10 + 1)) == 0)) { v76 = 0; v77 = 0; v78 = 0; goto L23; }
    if (!(nd_load_8((v10 + 2)) == 0)) { v76 = 0; v77 = 0; v78 = 0; goto L23; }
    v76 = 1;
    v77 = 6;
    v78 = nd_load_8(((unsigned char *)((uintptr_t)v10 + 3)));
    goto L23;
L10:;
    if (!(v3 == 1ULL)) { v76 = 0; v77 = 0; v78 = 0; goto L23; }
    v40 = nd_load_8(v10);
    v41 = v40 > 35;
    v42 = (uint8_t)v41;
    v76 = v42;
    v77 = v42;
    v78 = (uint8_t)(v41 ? v40 : 0);
    goto L23;
L12:;
    if (!(v3 == 1ULL)) { v76 = 0; v77 = 0; v78 = 0; goto L23; }
    v45 = nd_load_8(v10);
    v46 = v45 > 2;
    v76 = (uint8_t)v46;
    v77 = (uint8_t)(v46 ? 2 : 0);
    v78 = (uint8_t)(v46 ? v45 : 0);
    goto L23;
L14:;
    if (!(v3 == 1ULL)) { v76 = 0; v77 = 0; v78 = 0; goto L23; }
    v51 = nd_load_8(v10);
    v53 = (uint8_t)(v51 + 252) < 253;
    v76 = (uint8_t)v53;
    v77 = (uint8_t)(v53 ? 3 : 0);
    v78 = (uint8_t)(v53 ? v51 : 0);
    goto L23;
L16:;
    if (!(v3 == 1ULL)) { v76 = 0; v77 = 0; v78 = 0; goto L23; }
    v59 = (uint8_t)(nd_load_8(v10) & 7);
    v61 = (uint8_t)(v59 + 251) < 252;
    v76 = (uint8_t)v61;
    v77 = (uint8_t)(v61 ? 4 : 0);
    v78 = (uint8_t)(v61 ? v59 : 0);
    goto L23;
L18:;
    if (!(v3 == 1ULL)) { v76 = 0; v77 = 0; v78 = 0; goto L23; }
    v66 = nd_load_8(v10);
    v67 = v66 > 3;
    v76 = (uint8_t)v67;
    v77 = (uint8_t)(v67 ? 5 : 0);
    v78 = (uint8_t)(v67 ? v66 : 0);
    goto L23;
L20:;
    if (!(v3 == 1ULL)) { v76 = 0; v77 = 0; v78 = 0; goto L23; }
    v73 = nd_load_8(v10) == 0;
    v76 = (uint8_t)v73;
    v77 = (uint8_t)(v73 ? 7 : 0);
    v78 = 0;
    goto L23;
L22:;
    nd_stop();
L23:;
    nd_store_8(v7.b, v76);
    nd_store_8((v7.b + 1), v77);
    nd_store_8((v7.b + 2), v78);
    v81 = nd_ndef_c_warnings_give_remark(v7.b, v13, v5, v6);
    v82 = v81;
L24:;
    return v82;
}

static uint32_t nd_ndef_uri_prefix(uint32_t v1, unsigned char *v2, uint64_t v3, unsigned char *v4) {
    struct nd_ptr_64 v10;
    uint32_t v13, v14;
    if (v1 > 255U) { v14 = 3U; goto L2; }
    v10 = nd_ndef_types_prefixes_prefix((uint8_t)v1);
    v13 = nd_ndef_c_buffer_give(v10.f0, v10.f1, ((unsigned char *)((uintptr_t)v2 + (uintptr_t)((v2 == (unsigned char *)0) ? 4096ULL : 0ULL))), v3, v4);
    v14 = v13;
L2:;
    return v14;
}

static uint32_t nd_ndef_version(void) {
    return 65536U;
}

static uint32_t nd_ndef_write_action(uint32_t v1, unsigned char *v2, uint64_t v3, unsigned char *v4) {
    uint32_t v11, v12;
    ND_ROOM(1) v5;
    if (v1 > 255U) { v12 = 3U; goto L2; }
    nd_store_8(v5.b, (uint8_t)v1);
    v11 = nd_ndef_c_buffer_give(v5.b, 1ULL, ((unsigned char *)((uintptr_t)v2 + (uintptr_t)((v2 == (unsigned char *)0) ? 4096ULL : 0ULL))), v3, v4);
    v12 = v11;
L2:;
    return v12;
}

static uint32_t nd_ndef_write_collision(uint32_t v1, unsigned char *v2, uint64_t v3, unsigned char *v4) {
    uint16_t v11;
    uint32_t v12, v13;
    ND_ROOM(2) v5;
    if (v1 > 65535U) { v13 = 3U; goto L2; }
    v11 = nd_bswap_i16((uint16_t)v1);
    nd_store_16(v5.b, v11);
    v12 = nd_ndef_c_buffer_give(v5.b, 2ULL, ((unsigned char *)((uintptr_t)v2 + (uintptr_t)((v2 == (unsigned char *)0) ? 4096ULL : 0ULL))), v3, v4);
    v13 = v12;
L2:;
    return v13;
}

static uint32_t nd_ndef_write_size(uint32_t v1, unsigned char *v2, uint64_t v3, unsigned char *v4) {
    uint32_t v9, v10;
    ND_ROOM(4) v5;
    v9 = nd_bswap_i32(v1);
    nd_store_32(v5.b, v9);
    v10 = nd_ndef_c_buffer_give(v5.b, 4ULL, ((unsigned char *)((uintptr_t)v2 + (uintptr_t)((v2 == (unsigned char *)0) ? 4096ULL : 0ULL))), v3, v4);
    return v10;
}

static uint32_t nd_ndef_begin(unsigned char *v1, unsigned char *v2) {
    unsigned char *v8;
    uint64_t v12;
    ND_ROOM(24) v3, v4;
    ND_ROOM(464) v5;
    nd_memset(v5.b, 0, 464);
    nd_ndef_c_limits_limits_of(v4.b, v1);
    if (nd_load_8(v4.b) == 0) { v12 = 0ULL; goto L4; }
    v8 = v4.b + 4;
    if (!(uint8_t)(nd_load_8((v4.b + 20)) & 1)) goto L3;
    nd_ndef_message_checker_Checker_start(v5.b, v8);
    v12 = 1ULL;
    goto L4;
L3:;
    nd_ndef_message_checker_Checker_start_2(v5.b, v8);
    v12 = 2ULL;
L4:;
    nd_store_64(v2, v12);
    nd_memcpy(((unsigned char *)((uintptr_t)v2 + 8)), v5.b, 464);
    nd_ndef_c_limits_limits_of(v3.b, v1);
    return (nd_load_8(v3.b) == 1) ? 0U : 3U;
}

static uint32_t nd_ndef_write_carrier(uint32_t v1, unsigned char *v2, uint64_t v3, unsigned char *v4, uint64_t v5, unsigned char *v6, uint64_t v7, unsigned char *v8) {
    uint32_t v28, v29;
    ND_ROOM(2) v9;
    if (!(((v1 < 8U) & (int)(v3 < 256ULL)) & (int)(v5 <= (4294967293ULL - v3)))) { v29 = 3U; goto L2; }
    nd_store_8(v9.b, (uint8_t)v1);
    nd_store_8((v9.b + 1), (uint8_t)v3);
    v28 = nd_ndef_c_buffer_give_parts(v9.b, 2ULL, ((unsigned char *)((uintptr_t)v2 + (uintptr_t)((v2 == (unsigned char *)0) ? 4096ULL : 0ULL))), v3, ((unsigned char *)((uintptr_t)v4 + (uintptr_t)((v4 == (unsigned char *)0) ? 4096ULL : 0ULL))), v5, ((unsigned char *)((uintptr_t)v6 + (uintptr_t)((v6 == (unsigned char *)0) ? 4096ULL : 0ULL))), v7, v8);
    v29 = v28;
L2:;
    return v29;
}

static uint32_t nd_ndef_write_error(uint32_t v1, unsigned char *v2, uint64_t v3, unsigned char *v4, uint64_t v5, unsigned char *v6) {
    uint8_t v8;
    uint32_t v16, v17;
    ND_ROOM(1) v7;
    v8 = nd_ndef_c_error_writing_may_be_error(v1, v3);
    if (!v8) { v17 = 3U; goto L2; }
    nd_store_8(v7.b, (uint8_t)v1);
    v16 = nd_ndef_c_buffer_give_parts((unsigned char *)nd_data_static_50, 0ULL, v7.b, 1ULL, ((unsigned char *)((uintptr_t)v2 + (uintptr_t)((v2 == (unsigned char *)0) ? 4096ULL : 0ULL))), v3, ((unsigned char *)((uintptr_t)v4 + (uintptr_t)((v4 == (unsigned char *)0) ? 4096ULL : 0ULL))), v5, v6);
    v17 = v16;
L2:;
    return v17;
}

static uint32_t nd_ndef_write_error_number(uint32_t v1, uint32_t v2, unsigned char *v3, uint64_t v4, unsigned char *v5) {
    unsigned char *v10;
    uint32_t v15, v16, v17, v18;
    ND_ROOM(2) v6;
    ND_ROOM(4) v7;
    v10 = (unsigned char *)((uintptr_t)v3 + (uintptr_t)((v3 == (unsigned char *)0) ? 4096ULL : 0ULL));
    switch (v1) {
    case 1U: goto L1;
    case 3U: goto L1;
    case 2U: goto L3;
    default: { v18 = 3U; goto L4; } }
L1:;
    if (!(v2 < 256U)) { v18 = 3U; goto L4; }
    nd_store_8(v6.b, (uint8_t)v1);
    nd_store_8((v6.b + 1), (uint8_t)v2);
    v15 = nd_ndef_c_buffer_give(v6.b, 2ULL, v10, v4, v5);
    v18 = v15;
    goto L4;
L3:;
    v16 = nd_bswap_i32(v2);
    nd_store_32(v7.b, v16);
    v17 = nd_ndef_c_buffer_give_parts((unsigned char *)nd_data_static_50, 0ULL, (unsigned char *)nd_data_static_86, 1ULL, v7.b, 4ULL, v10, v4, v5);
    v18 = v17;
L4:;
    return v18;
}

static uint32_t nd_ndef_write_handover(uint32_t v1, uint32_t v2, uint32_t v3, unsigned char *v4, uint64_t v5, unsigned char *v6, uint64_t v7, unsigned char *v8) {
    unsigned char *v14, *v17;
    uint8_t v18, v25, v26;
    uint64_t v27;
    uint32_t v29, v30;
    ND_ROOM(48) v9;
    ND_ROOM(88) v10;
    ND_ROOM(1) v11;
    v14 = (unsigned char *)((uintptr_t)v4 + (uintptr_t)((v4 == (unsigned char *)0) ? 4096ULL : 0ULL));
    v17 = (unsigned char *)((uintptr_t)v6 + (uintptr_t)((v6 == (unsigned char *)0) ? 4096ULL : 0ULL));
    switch (v1) {
    case 0U: { v18 = 4; goto L2; }
    case 1U: goto L1;
    default: { v30 = 3U; goto L7; } }
L1:;
    v18 = 5;
L2:;
    if (((v3 | v2) > 15U) | (int)(v5 > 4294967294ULL)) { v30 = 3U; goto L7; }
    v25 = (uint8_t)((v2 << 4) | v3);
    nd_ndef_nest_nest_NestLanguage_start(v10.b, v18, 0);
    nd_ndef_nest_nest_Nest_stepped(v9.b, v10.b, v25);
    v26 = nd_ndef_nest_nest_NestLanguage_fits(v10.b, v5, v5);
    if (v26) goto L5;
    v30 = 3U;
    goto L7;
L5:;
    v27 = nd_ndef_nest_nest_NestLanguage_step_all(v10.b, v14, v5, v5, v5);
    if (!(v27 == v5)) { v30 = 3U; goto L7; }
    nd_store_8(v11.b, v25);
    v29 = nd_ndef_c_buffer_give_parts((unsigned char *)nd_data_static_50, 0ULL, v11.b, 1ULL, v14, v5, v17, v7, v8);
    v30 = v29;
L7:;
    return v30;
}

static uint32_t nd_ndef_normalize(unsigned char *v1, uint64_t v2, uint32_t v3, unsigned char *v4, uint64_t v5, unsigned char *v6) {
    unsigned char *v19, *v22, *v25, *v26, *v27, *v28, *v29, *v30, *v31, *v32, *v33, *v34, *v35, *v36, *v40, *v44, *v60, *v61, *v62, *v63, *v64, *v65, *v66, *v67, *v68, *v69, *v70, *v71, *v72, *v73, *v74, *v78, *v81, *v83, *v86;
    uint8_t v23, v24, v38, v43, v46, v76, v85, v88;
    uint64_t v37, v39, v45, v47, v48, v49, v50, v51, v52, v53, v57, v75, v77, v82, v84, v87, v89, v90, v93, v96, v100, v103, v104;
    uint32_t v110;
    ND_ROOM(32) v7, v9;
    ND_ROOM(24) v8, v10;
    ND_ROOM(7) v11, v12;
    ND_ROOM(120) v13, v15;
    ND_ROOM(12) v14, v16;
    v19 = (unsigned char *)((uintptr_t)v1 + (uintptr_t)((v1 == (unsigned char *)0) ? 4096ULL : 0ULL));
    v22 = (unsigned char *)((uintptr_t)v4 + (uintptr_t)((v4 == (unsigned char *)0) ? 4096ULL : 0ULL));
    switch (v3) {
    case 0U: { v23 = 0; goto L2; }
    case 4U: goto L1;
    default: { v110 = 3U; goto L30; } }
L1:;
    v23 = 1;
L2:;
    v24 = nd_ndef_c_message_has_message(v19, v2);
    if (!v24) { v110 = 3U; goto L30; }
    nd_memset(v15.b, 0, 120);
    v25 = v15.b + 8;
    v26 = v7.b + 8;
    v27 = v7.b + 16;
    v28 = v7.b + 24;
    v29 = v7.b + 25;
    v30 = v8.b + 16;
    v31 = v11.b + 2;
    v32 = v15.b + 96;
    v33 = v15.b + 104;
    v34 = v15.b + 112;
    v35 = v15.b + 40;
    v36 = v15.b + 24;
    v37 = 0ULL;
    v38 = 1;
    v39 = v2;
    v40 = v19;
L4:;
    nd_ndef_c_run_first_run(v15.b, v40, v39);
    if (!(nd_load_8(v15.b) == 1)) goto L6;
    v43 = nd_load_8(v32);
    v44 = nd_load_ptr(v33);
    v45 = nd_load_64(v34);
    v46 = nd_ndef_c_normalizing_is_writable(v25);
    if (v46) goto L7;
    goto L11;
L6:;
    nd_stop();
L7:;
    v47 = nd_load_64(v35);
    v48 = nd_load_64(v36);
    nd_ndef_c_normalizing_head_of(v16.b, v25, v38, v23);
    nd_memset(v31, 0, 5);
    v49 = nd_ndef_piece_write_write_head(v16.b, v11.b);
    v50 = nd_uadd_sat_i64(v49, v37);
    v51 = nd_uadd_sat_i64(v48, v50);
    v52 = nd_uadd_sat_i64(v47, v51);
    nd_memset(v29, 0, 7);
    nd_store_ptr(v7.b, v40);
    nd_store_64(v26, v39);
    nd_store_64(v27, 0ULL);
    nd_store_8(v28, 1);
    v53 = v52;
L8:;
    nd_ndef_c_chunks_PiecesIterator_next(v8.b, v7.b);
    if (!(nd_load_8(v8.b) == 1)) goto L10;
    v57 = nd_uadd_sat_i64(nd_load_64(v30), v53);
    v53 = v57;
    goto L8;
L10:;
    if ((uint8_t)(v43 & 1)) goto L12;
    v37 = v53;
    v38 = 0;
    v39 = v45;
    v40 = v44;
    goto L4;
L11:;
    v110 = 3U;
    goto L30;
L12:;
    nd_store_64(v6, v53);
    if (v5 < v53) { v110 = 2U; goto L30; }
    nd_memset(v13.b, 0, 120);
    v60 = v13.b + 8;
    v61 = v9.b + 8;
    v62 = v9.b + 16;
    v63 = v9.b + 24;
    v64 = v9.b + 25;
    v65 = v10.b + 16;
    v66 = v10.b + 8;
    v67 = v12.b + 2;
    v68 = v13.b + 16;
    v69 = v13.b + 24;
    v70 = v13.b + 32;
    v71 = v13.b + 40;
    v72 = v13.b + 96;
    v73 = v13.b + 104;
    v74 = v13.b + 112;
    v75 = 0ULL;
    v76 = 1;
    v77 = v2;
    v78 = v19;
L14:;
    nd_ndef_c_run_first_run(v13.b, v78, v77);
    if (!(nd_load_8(v13.b) == 1)) goto L16;
    v81 = nd_load_ptr(v68);
    v82 = nd_load_64(v69);
    v83 = nd_load_ptr(v70);
    v84 = nd_load_64(v71);
    v85 = nd_load_8(v72);
    v86 = nd_load_ptr(v73);
    v87 = nd_load_64(v74);
    v88 = nd_ndef_c_normalizing_is_writable(v60);
    if (v88) goto L17;
    goto L29;
L16:;
    nd_stop();
L17:;
    nd_ndef_c_normalizing_head_of(v14.b, v60, v76, v23);
    nd_memset(v67, 0, 5);
    v89 = nd_ndef_piece_write_write_head(v14.b, v12.b);
    v90 = nd_uadd_sat_i64(v89, v75);
    if (v90 > v5) goto L19;
    nd_core_slice_edits_slice_T_copy_from_slice(((unsigned char *)((uintptr_t)v22 + (uintptr_t)v75)), v12.b, v89);
L19:;
    v93 = nd_uadd_sat_i64(v82, v90);
    if (v93 > v5) goto L21;
    nd_core_slice_edits_slice_T_copy_from_slice(((unsigned char *)((uintptr_t)v22 + (uintptr_t)v90)), v81, v82);
L21:;
    v96 = nd_uadd_sat_i64(v84, v93);
    if (v96 > v5) goto L23;
    nd_core_slice_edits_slice_T_copy_from_slice(((unsigned char *)((uintptr_t)v22 + (uintptr_t)v93)), v83, v84);
    nd_core_slice_edits_slice_T_copy_from_slice(((unsigned char *)((uintptr_t)v22 + (uintptr_t)v96)), (unsigned char *)nd_data_static_50, 0ULL);
L23:;
    nd_memset(v64, 0, 7);
    nd_store_ptr(v9.b, v78);
    nd_store_64(v61, v77);
    nd_store_64(v62, 0ULL);
    nd_store_8(v63, 1);
    v100 = v96;
L24:;
    nd_ndef_c_chunks_PiecesIterator_next(v10.b, v9.b);
    if (!(nd_load_8(v10.b) == 1)) goto L28;
    v103 = nd_load_64(v65);
    v104 = nd_uadd_sat_i64(v103, v100);
    if (v104 > v5) goto L27;
    nd_core_slice_edits_slice_T_copy_from_slice(((unsigned char *)((uintptr_t)v22 + (uintptr_t)v100)), ((unsigned char *)((uintptr_t)v78 + (uintptr_t)nd_load_64(v66))), v103);
L27:;
    v100 = v104;
    goto L24;
L28:;
    if (!(uint8_t)(v85 & 1)) { v75 = v100; v76 = 0; v77 = v87; v78 = v86; goto L14; }
L29:;
    v110 = 0U;
L30:;
    return v110;
}

static uint32_t nd_ndef_write_alternative(uint32_t v1, unsigned char *v2, uint64_t v3, unsigned char *v4, uint64_t v5, unsigned char *v6, uint64_t v7, unsigned char *v8) {
    uint32_t v31, v32;
    ND_ROOM(48) v9;
    ND_ROOM(56) v10;
    nd_store_64(v9.b, 0ULL);
    nd_memset(v10.b, 0, 56);
    nd_ndef_c_alternative_writing_alternative_content(v10.b, v1, ((unsigned char *)((uintptr_t)v2 + (uintptr_t)((v2 == (unsigned char *)0) ? 4096ULL : 0ULL))), v3, ((unsigned char *)((uintptr_t)v4 + (uintptr_t)((v4 == (unsigned char *)0) ? 4096ULL : 0ULL))), v5);
    if (!(nd_load_8(v10.b) == 1)) { v32 = 3U; goto L2; }
    nd_store_8(v9.b, nd_load_8((v10.b + 8)));
    nd_store_8((v9.b + 1), nd_load_8((v10.b + 9)));
    nd_memcpy((v9.b + 8), (v10.b + 16), 16);
    nd_memcpy((v9.b + 24), (v10.b + 32), 24);
    v31 = nd_ndef_c_content_give_content(v9.b, ((unsigned char *)((uintptr_t)v6 + (uintptr_t)((v6 == (unsigned char *)0) ? 4096ULL : 0ULL))), v7, v8);
    v32 = v31;
L2:;
    return v32;
}

static uint32_t nd_ndef_write_uri(unsigned char *v1, uint64_t v2, unsigned char *v3, uint64_t v4, unsigned char *v5) {
    uint32_t v26, v27;
    ND_ROOM(24) v6, v7;
    ND_ROOM(48) v8;
    nd_memset(v6.b, 0, 24);
    nd_memset(v7.b, 0, 24);
    nd_store_64(v8.b, 2ULL);
    nd_simdutf8_basic_from_utf8(v6.b, ((unsigned char *)((uintptr_t)v1 + (uintptr_t)((v1 == (unsigned char *)0) ? 4096ULL : 0ULL))), v2);
    if (!(nd_load_8(v6.b) == 0)) { v27 = 3U; goto L2; }
    nd_ndef_types_prefixes_split(v7.b, nd_load_ptr((v6.b + 8)), nd_load_64((v6.b + 16)));
    nd_store_8((v8.b + 1), nd_load_8(v7.b));
    nd_memcpy((v8.b + 8), (v7.b + 8), 16);
    nd_memset((v8.b + 24), 0, 24);
    v26 = nd_ndef_c_content_give_content(v8.b, ((unsigned char *)((uintptr_t)v3 + (uintptr_t)((v3 == (unsigned char *)0) ? 4096ULL : 0ULL))), v4, v5);
    v27 = v26;
L2:;
    return v27;
}

static uint32_t nd_ndef_reason_name(uint32_t v1, unsigned char *v2, uint64_t v3, unsigned char *v4) {
    struct nd_8_8 v5;
    uint8_t v11;
    uint32_t v18, v19;
    v5 = nd_ndef_c_reasons_reason_of(v1);
    if (!(v5.f0 == 1)) { v19 = 3U; goto L2; }
    v11 = v5.f1;
    v18 = nd_ndef_c_buffer_give(nd_load_ptr(((unsigned char *)&nd_data_switch_table_ndef_reason_name_16 + (ptrdiff_t)(uint64_t)v11 * 8)), nd_load_64(((unsigned char *)nd_data_switch_table_ndef_reason_name + (ptrdiff_t)(uint64_t)v11 * 8)), ((unsigned char *)((uintptr_t)v2 + (uintptr_t)((v2 == (unsigned char *)0) ? 4096ULL : 0ULL))), v3, v4);
    v19 = v18;
L2:;
    return v19;
}

static uint32_t nd_ndef_reason_sentence(uint32_t v1, unsigned char *v2, uint64_t v3, unsigned char *v4) {
    struct nd_8_8 v5;
    struct nd_ptr_64 v12;
    uint32_t v15, v16;
    v5 = nd_ndef_c_reasons_reason_of(v1);
    if (!(v5.f0 == 1)) { v16 = 3U; goto L2; }
    v12 = nd_ndef_format_reason_Reason_sentence(v5.f1);
    v15 = nd_ndef_c_buffer_give(v12.f0, v12.f1, ((unsigned char *)((uintptr_t)v2 + (uintptr_t)((v2 == (unsigned char *)0) ? 4096ULL : 0ULL))), v3, v4);
    v16 = v15;
L2:;
    return v16;
}

static uint32_t nd_ndef_payload(unsigned char *v1, uint64_t v2, uint64_t v3, unsigned char *v4, uint64_t v5, unsigned char *v6) {
    unsigned char *v12, *v15, *v21, *v27, *v28;
    uint64_t v19, v29, v32, v33;
    uint32_t v38;
    ND_ROOM(32) v7;
    ND_ROOM(24) v8;
    ND_ROOM(96) v9;
    v12 = (unsigned char *)((uintptr_t)v1 + (uintptr_t)((v1 == (unsigned char *)0) ? 4096ULL : 0ULL));
    v15 = (unsigned char *)((uintptr_t)v4 + (uintptr_t)((v4 == (unsigned char *)0) ? 4096ULL : 0ULL));
    nd_ndef_c_record_record_at(v9.b, v12, v2, v3);
    if (!(nd_load_8(v9.b) == 1)) { v38 = 3U; goto L8; }
    v19 = nd_load_64((v9.b + 72));
    nd_store_64(v6, v19);
    if (v5 < v19) { v38 = 2U; goto L8; }
    v21 = (unsigned char *)((uintptr_t)v12 + (uintptr_t)v3);
    nd_memset((v7.b + 25), 0, 7);
    nd_store_ptr(v7.b, v21);
    nd_store_64((v7.b + 8), (v2 - v3));
    nd_store_64((v7.b + 16), 0ULL);
    nd_store_8((v7.b + 24), 1);
    v27 = v8.b + 16;
    v28 = v8.b + 8;
    v29 = 0ULL;
L3:;
    nd_ndef_c_chunks_PiecesIterator_next(v8.b, v7.b);
    if (!(nd_load_8(v8.b) == 1)) goto L7;
    v32 = nd_load_64(v27);
    v33 = nd_uadd_sat_i64(v32, v29);
    if (v33 > v5) goto L6;
    nd_core_slice_edits_slice_T_copy_from_slice(((unsigned char *)((uintptr_t)v15 + (uintptr_t)v29)), ((unsigned char *)((uintptr_t)v21 + (uintptr_t)nd_load_64(v28))), v32);
L6:;
    v29 = v33;
    goto L3;
L7:;
    v38 = 0U;
L8:;
    return v38;
}

static uint32_t nd_ndef_record_at(unsigned char *v1, uint64_t v2, uint64_t v3, unsigned char *v4) {
    uint32_t v13;
    ND_ROOM(96) v5;
    if (v3 == v2) { v13 = 4U; goto L3; }
    nd_ndef_c_record_record_at(v5.b, ((unsigned char *)((uintptr_t)v1 + (uintptr_t)((v1 == (unsigned char *)0) ? 4096ULL : 0ULL))), v2, v3);
    if (!(nd_load_8(v5.b) == 1)) { v13 = 3U; goto L3; }
    nd_memcpy(v4, (v5.b + 8), 88);
    v13 = 0U;
L3:;
    return v13;
}

static uint32_t nd_ndef_reference(unsigned char *v1, uint64_t v2, uint64_t v3, unsigned char *v4) {
    unsigned char *v9;
    uint8_t v13;
    uint64_t v19, v25, v27, v28, v40, v41;
    uint32_t v43;
    ND_ROOM(12) v5;
    ND_ROOM(24) v6;
    v9 = (unsigned char *)((uintptr_t)v1 + (uintptr_t)((v1 == (unsigned char *)0) ? 4096ULL : 0ULL));
    nd_memset(v6.b, 0, 24);
    if (!(v2 > 4294967295ULL)) goto L2;
    v43 = 3U;
    goto L12;
L2:;
    nd_memset(v5.b, 0, 12);
    nd_store_32((v5.b + 4), 1U);
    nd_store_8((v5.b + 9), 8);
    v13 = nd_ndef_lang_leaf_Leaf_is_completed_by(v5.b, v9, v2);
    if (!v13) goto L4;
    goto L5;
L4:;
    nd_ndef_lang_place_refusal_of(v6.b, 10, 0, v9, v2);
    if (!(nd_load_8(v6.b) == 0)) { v43 = 3U; goto L12; }
L5:;
    v19 = (uint64_t)nd_load_8((v9 + 1));
    if (v3 == 0ULL) { v40 = 2ULL; v41 = v19; goto L11; }
    if (v3 > (uint64_t)nd_load_8(((v9 + (ptrdiff_t)v19) + 2))) { v43 = 4U; goto L12; }
    v25 = v3 + 18446744073709551615ULL;
    v27 = 0ULL;
    v28 = v19 + 3ULL;
L8:;
    if (v27 == v25) goto L10;
    v27 = v27 + 1ULL;
    v28 = (v28 + 1ULL) + (uint64_t)nd_load_8((v9 + (ptrdiff_t)v28));
    goto L8;
L10:;
    v40 = v28 + 1ULL;
    v41 = (uint64_t)nd_load_8((v9 + (ptrdiff_t)v28));
L11:;
    nd_store_64(v4, v40);
    nd_store_64((v4 + 8), v41);
    v43 = 0U;
L12:;
    return v43;
}

static uint32_t nd_ndef_alternative(unsigned char *v1, uint64_t v2, unsigned char *v3, unsigned char *v4) {
    unsigned char *v9;
    uint8_t v13, v14, v29, v33, v35;
    uint64_t v34, v36;
    uint32_t v37;
    ND_ROOM(12) v5;
    ND_ROOM(24) v6;
    v9 = (unsigned char *)((uintptr_t)v1 + (uintptr_t)((v1 == (unsigned char *)0) ? 4096ULL : 0ULL));
    nd_memset(v6.b, 0, 24);
    if (v2 > 4294967295ULL) { v33 = 23; v34 = 0ULL; goto L7; }
    nd_memset(v5.b, 0, 12);
    nd_store_32((v5.b + 4), 1U);
    nd_store_8((v5.b + 9), 8);
    v13 = nd_ndef_lang_leaf_Leaf_is_completed_by(v5.b, v9, v2);
    if (!v13) goto L3;
    goto L6;
L3:;
    nd_ndef_lang_place_refusal_of(v6.b, 10, 0, v9, v2);
    v14 = nd_load_8(v6.b);
    if (!(v14 == 1)) goto L5;
    v33 = nd_load_8((v6.b + 16));
    v34 = nd_load_64((v6.b + 8));
    goto L7;
L5:;
    if (!(v14 == 0)) { v35 = 0; v36 = 0ULL; goto L8; }
L6:;
    v29 = nd_load_8(((unsigned char *)((uintptr_t)((unsigned char *)((uintptr_t)v9 + 2)) + (uintptr_t)(uint64_t)nd_load_8(((unsigned char *)((uintptr_t)v9 + 1))))));
    nd_store_32(v3, (uint32_t)(uint8_t)(nd_load_8(v9) & 3));
    nd_store_32((v3 + 4), ((uint32_t)v29 + 1U));
    v37 = 0U;
    goto L9;
L7:;
    v35 = v33;
    v36 = v34;
L8:;
    nd_ndef_c_refusal_refuse(v36, v35, v4);
    v37 = 1U;
L9:;
    return v37;
}

static uint32_t nd_ndef_carrier(unsigned char *v1, uint64_t v2, unsigned char *v3, unsigned char *v4) {
    unsigned char *v9;
    uint8_t v13, v14, v28, v36, v38;
    uint64_t v23, v37, v39;
    uint32_t v40;
    ND_ROOM(12) v5;
    ND_ROOM(24) v6;
    v9 = (unsigned char *)((uintptr_t)v1 + (uintptr_t)((v1 == (unsigned char *)0) ? 4096ULL : 0ULL));
    nd_memset(v6.b, 0, 24);
    if (v2 > 4294967295ULL) { v36 = 23; v37 = 0ULL; goto L7; }
    nd_memset(v5.b, 0, 12);
    nd_store_32((v5.b + 4), 1U);
    nd_store_8((v5.b + 9), 7);
    v13 = nd_ndef_lang_leaf_Leaf_is_completed_by(v5.b, v9, v2);
    if (!v13) goto L3;
    goto L6;
L3:;
    nd_ndef_lang_place_refusal_of(v6.b, 6, 0, v9, v2);
    v14 = nd_load_8(v6.b);
    if (!(v14 == 1)) goto L5;
    v36 = nd_load_8((v6.b + 16));
    v37 = nd_load_64((v6.b + 8));
    goto L7;
L5:;
    if (!(v14 == 0)) { v38 = 0; v39 = 0ULL; goto L8; }
L6:;
    v23 = (uint64_t)nd_load_8(((unsigned char *)((uintptr_t)v9 + 1)));
    v28 = nd_load_8(v9);
    nd_store_64(v3, 2ULL);
    nd_store_64((v3 + 8), v23);
    nd_store_64((v3 + 16), (v23 + 2ULL));
    nd_store_64((v3 + 24), ((v2 + 18446744073709551615ULL) + (v23 ^ 18446744073709551615ULL)));
    nd_store_32((v3 + 32), (uint32_t)(uint8_t)(v28 & 7));
    nd_store_32((v3 + 36), 0U);
    v40 = 0U;
    goto L9;
L7:;
    v38 = v36;
    v39 = v37;
L8:;
    nd_ndef_c_refusal_refuse(v39, v38, v4);
    v40 = 1U;
L9:;
    return v40;
}

static uint32_t nd_ndef_check(unsigned char *v1, uint64_t v2, unsigned char *v3, unsigned char *v4) {
    unsigned char *v8, *v11;
    uint32_t v15, v16, v17;
    ND_ROOM(24) v5;
    v8 = (unsigned char *)((uintptr_t)v1 + (uintptr_t)((v1 == (unsigned char *)0) ? 4096ULL : 0ULL));
    nd_ndef_c_limits_limits_of(v5.b, v3);
    if (!(nd_load_8(v5.b) == 1)) { v17 = 3U; goto L4; }
    v11 = v5.b + 4;
    if (!(uint8_t)(nd_load_8((v5.b + 20)) & 1)) goto L3;
    v15 = nd_ndef_c_checking_check_in(v8, v2, v11, v4);
    v17 = v15;
    goto L4;
L3:;
    v16 = nd_ndef_c_checking_check_in_2(v8, v2, v11, v4);
    v17 = v16;
L4:;
    return v17;
}

static uint32_t nd_ndef_feed(unsigned char *v1, unsigned char *v2, uint64_t v3, unsigned char *v4) {
    unsigned char *v9, *v11, *v38;
    uint64_t v14, v30, v41, v57;
    uint8_t v16, v43;
    uint32_t v35, v62, v65;
    ND_ROOM(24) v5, v6;
    v9 = (unsigned char *)((uintptr_t)v2 + (uintptr_t)((v2 == (unsigned char *)0) ? 4096ULL : 0ULL));
    switch (nd_load_8(v1)) {
    case 0: { v65 = 3U; goto L12; }
    case 1: goto L1;
    case 2: goto L6;
    default: goto L11; }
L1:;
    v11 = (unsigned char *)((uintptr_t)v1 + 8);
    nd_memset(v6.b, 0, 24);
    nd_ndef_message_checker_Checker_feed_tried(v6.b, v11, v9, v3, 0);
    v14 = nd_load_64((v6.b + 8));
    v16 = nd_load_8((v6.b + 16));
    switch (nd_load_8(v6.b)) {
    case 0: goto L2;
    case 1: goto L3;
    case 2: goto L4;
    default: goto L5; }
L2:;
    nd_store_64(v4, nd_load_64(((unsigned char *)((uintptr_t)v11 + (uintptr_t)((nd_load_8(((unsigned char *)((uintptr_t)v1 + 184))) == 5) ? 184ULL : 456ULL)))));
    nd_store_32((v4 + 8), 0U);
    nd_store_32((v4 + 12), 24U);
    v65 = 5U;
    goto L12;
L3:;
    v30 = nd_load_64(((unsigned char *)((uintptr_t)v11 + (uintptr_t)((nd_load_8(((unsigned char *)((uintptr_t)v1 + 184))) == 5) ? 184ULL : 456ULL))));
    v35 = nd_usub_sat_i32(nd_load_32(((unsigned char *)((uintptr_t)v1 + 12))), nd_load_32(((unsigned char *)((uintptr_t)v1 + 28))));
    nd_store_64(v4, v30);
    nd_store_32((v4 + 8), v35);
    nd_store_32((v4 + 12), 0U);
    v65 = 0U;
    goto L12;
L4:;
    nd_ndef_c_refusal_refuse(v14, v16, v4);
    v65 = 1U;
    goto L12;
L5:;
    nd_stop();
L6:;
    v38 = (unsigned char *)((uintptr_t)v1 + 8);
    nd_memset(v5.b, 0, 24);
    nd_ndef_message_checker_Checker_feed_tried_2(v5.b, v38, v9, v3, 0);
    v41 = nd_load_64((v5.b + 8));
    v43 = nd_load_8((v5.b + 16));
    switch (nd_load_8(v5.b)) {
    case 0: goto L7;
    case 1: goto L8;
    case 2: goto L9;
    default: goto L10; }
L7:;
    nd_store_64(v4, nd_load_64(((unsigned char *)((uintptr_t)v38 + (uintptr_t)((nd_load_8(((unsigned char *)((uintptr_t)v1 + 88))) == 5) ? 88ULL : 360ULL)))));
    nd_store_32((v4 + 8), 0U);
    nd_store_32((v4 + 12), 24U);
    v65 = 5U;
    goto L12;
L8:;
    v57 = nd_load_64(((unsigned char *)((uintptr_t)v38 + (uintptr_t)((nd_load_8(((unsigned char *)((uintptr_t)v1 + 88))) == 5) ? 88ULL : 360ULL))));
    v62 = nd_usub_sat_i32(nd_load_32(((unsigned char *)((uintptr_t)v1 + 12))), nd_load_32(((unsigned char *)((uintptr_t)v1 + 28))));
    nd_store_64(v4, v57);
    nd_store_32((v4 + 8), v62);
    nd_store_32((v4 + 12), 0U);
    v65 = 0U;
    goto L12;
L9:;
    nd_ndef_c_refusal_refuse(v41, v43, v4);
    v65 = 1U;
    goto L12;
L10:;
    nd_stop();
L11:;
    nd_stop();
L12:;
    return v65;
}

static uint32_t nd_ndef_uri(unsigned char *v1, uint64_t v2, uint32_t v3, unsigned char *v4, uint64_t v5, unsigned char *v6, unsigned char *v7) {
    unsigned char *v11, *v14, *v19, *v47, *v77, *v126;
    uint8_t v16, v86, v167, v168, v183, v185;
    uint64_t v20, v176, v184, v186;
    struct nd_ptr_64 v179;
    uint32_t v182, v187;
    ND_ROOM(24) v8;
    v11 = (unsigned char *)((uintptr_t)v1 + (uintptr_t)((v1 == (unsigned char *)0) ? 4096ULL : 0ULL));
    v14 = (unsigned char *)((uintptr_t)v4 + (uintptr_t)((v4 == (unsigned char *)0) ? 4096ULL : 0ULL));
    if (v3 > 1U) { v187 = 3U; goto L32; }
    v16 = (uint8_t)v3;
    nd_memset(v8.b, 0, 24);
    if (v2 > 4294967295ULL) { v183 = 23; v184 = 0ULL; goto L30; }
    if (v2 == 0ULL) goto L25;
    v19 = (unsigned char *)((uintptr_t)v11 + 1);
    v20 = v2 + 18446744073709551615ULL;
    if (!((v3 == 1U) | (int)(nd_load_8(v11) < 36))) goto L25;
    if (!(v2 < 65ULL)) goto L23;
    if (!(v2 < 9ULL)) goto L17;
    if (v2 < 5ULL) goto L9;
    if (!(((((((uint32_t)nd_load_8(((unsigned char *)((uintptr_t)v11 + 2))) << 8) | (uint32_t)nd_load_8(v19)) | ((uint32_t)nd_load_8(((unsigned char *)((uintptr_t)v11 + 3))) << 16)) | ((uint32_t)nd_load_8(((unsigned char *)((uintptr_t)v11 + 4))) << 24)) & 2155905152U) == 0U)) goto L23;
    v47 = (unsigned char *)((uintptr_t)v11 + (uintptr_t)v2);
    if (((((((uint32_t)nd_load_8(((unsigned char *)((uintptr_t)v47 - 3))) << 8) | (uint32_t)nd_load_8(((unsigned char *)((uintptr_t)v47 - 4)))) | ((uint32_t)nd_load_8(((unsigned char *)((uintptr_t)v47 - 2))) << 16)) | ((uint32_t)nd_load_8(((unsigned char *)((uintptr_t)v47 - 1))) << 24)) & 2155905152U) == 0U) goto L24;
    goto L23;
L9:;
    switch ((uint32_t)v2) {
    case 1U: goto L24;
    case 2U: goto L10;
    default: goto L11; }
L10:;
    if ((int8_t)nd_load_8(v19) > (int8_t)255) goto L24;
    goto L23;
L11:;
    if (v2 == 4ULL) goto L14;
    if (!((int8_t)nd_load_8(v19) > (int8_t)255)) goto L23;
    if ((int8_t)nd_load_8(((unsigned char *)((uintptr_t)v11 + 2))) > (int8_t)255) goto L24;
    goto L23;
L14:;
    v77 = (unsigned char *)((uintptr_t)v11 + 3);
    if (!((int8_t)nd_load_8(v19) > (int8_t)255)) goto L23;
    if (!((int8_t)nd_load_8(((unsigned char *)((uintptr_t)v11 + 2))) > (int8_t)255)) goto L23;
    if ((int8_t)nd_load_8(v77) > (int8_t)255) goto L24;
    goto L23;
L17:;
    if (!(v2 > 17ULL)) goto L19;
    v86 = nd_ndef_lang_ascii_are_many(v19, v20);
    if (v86) goto L24;
    goto L23;
L19:;
    if (!(((((((uint32_t)nd_load_8(((unsigned char *)((uintptr_t)v11 + 2))) << 8) | (uint32_t)nd_load_8(v19)) | ((uint32_t)nd_load_8(((unsigned char *)((uintptr_t)v11 + 3))) << 16)) | ((uint32_t)nd_load_8(((unsigned char *)((uintptr_t)v11 + 4))) << 24)) & 2155905152U) == 0U)) goto L23;
    if (!(((((((uint32_t)nd_load_8(((unsigned char *)((uintptr_t)v11 + 6))) << 8) | (uint32_t)nd_load_8(((unsigned char *)((uintptr_t)v11 + 5)))) | ((uint32_t)nd_load_8(((unsigned char *)((uintptr_t)v11 + 7))) << 16)) | ((uint32_t)nd_load_8(((unsigned char *)((uintptr_t)v11 + 8))) << 24)) & 2155905152U) == 0U)) goto L23;
    v126 = (unsigned char *)((uintptr_t)v11 + (uintptr_t)v2);
    if (!(((((((uint32_t)nd_load_8(((unsigned char *)((uintptr_t)v126 - 7))) << 8) | (uint32_t)nd_load_8(((unsigned char *)((uintptr_t)v126 - 8)))) | ((uint32_t)nd_load_8(((unsigned char *)((uintptr_t)v126 - 6))) << 16)) | ((uint32_t)nd_load_8(((unsigned char *)((uintptr_t)v126 - 5))) << 24)) & 2155905152U) == 0U)) goto L23;
    if (((((((uint32_t)nd_load_8(((unsigned char *)((uintptr_t)v126 - 3))) << 8) | (uint32_t)nd_load_8(((unsigned char *)((uintptr_t)v126 - 4)))) | ((uint32_t)nd_load_8(((unsigned char *)((uintptr_t)v126 - 2))) << 16)) | ((uint32_t)nd_load_8(((unsigned char *)((uintptr_t)v126 - 1))) << 24)) & 2155905152U) == 0U) goto L24;
L23:;
    v167 = nd_ndef_lang_member_is_long_utf8(v19, v20);
    if (!v167) goto L25;
L24:;
    v176 = v20;
    goto L29;
L25:;
    nd_ndef_lang_place_refusal_of(v8.b, 2, v16, v11, v2);
    v168 = nd_load_8(v8.b);
    if (!(v168 == 1)) goto L27;
    v183 = nd_load_8((v8.b + 16));
    v184 = nd_load_64((v8.b + 8));
    goto L30;
L27:;
    if (!(v168 == 0)) { v185 = 0; v186 = 0ULL; goto L31; }
    v176 = v2 + 18446744073709551615ULL;
L29:;
    v179 = nd_ndef_types_prefixes_prefix(nd_load_8(v11));
    v182 = nd_ndef_c_buffer_give_parts((unsigned char *)nd_data_static_50, 0ULL, v179.f0, v179.f1, ((unsigned char *)((uintptr_t)v11 + 1)), v176, v14, v5, v6);
    v187 = v182;
    goto L32;
L30:;
    v185 = v183;
    v186 = v184;
L31:;
    nd_ndef_c_refusal_refuse(v186, v185, v7);
    v187 = 1U;
L32:;
    return v187;
}

static uint32_t nd_ndef_record_warning(unsigned char *v1, uint64_t v2, uint64_t v3, unsigned char *v4, uint64_t v5, unsigned char *v6) {
    unsigned char *v18, *v19, *v23, *v31, *v51, *v61, *v74;
    uint64_t v21, v24, v32, v52, v55, v60, v62, v73, v89, v92;
    uint8_t v29, v35, v40, v47, v49, v56, v94, v95, v96;
    struct nd_ptr_64 v30, v50, v88;
    uint32_t v102;
    ND_ROOM(3) v7, v12;
    ND_ROOM(16) v8;
    ND_ROOM(32) v9, v10;
    ND_ROOM(24) v11;
    nd_ndef_diagnostics_few_small_message(v10.b, ((unsigned char *)((uintptr_t)v1 + (uintptr_t)((v1 == (unsigned char *)0) ? 4096ULL : 0ULL))), v2);
    if (!(nd_load_8(v10.b) == 1)) { v94 = 0; v95 = 0; v96 = 0; goto L32; }
    v18 = v10.b + 8;
    v19 = nd_load_ptr(v18);
    v21 = nd_load_64((v10.b + 16));
    nd_memset(v9.b, 0, 32);
    nd_store_ptr(v8.b, v19);
    nd_store_64((v8.b + 8), v21);
    v23 = v9.b + 8;
    v24 = v3;
L2:;
    nd_ndef_message_items_ItemsIterator_next(v9.b, v8.b);
    if (!(nd_load_8(v9.b) == 1)) goto L31;
    if (!(v24 == 0ULL)) { v24 = v24 + 18446744073709551615ULL; goto L2; }
    nd_memcpy(v11.b, v23, 24);
    v29 = nd_ndef_message_item_Item_tnf(v11.b);
    v30 = nd_ndef_message_item_Item_kind(v11.b);
    v31 = v30.f0;
    v32 = v30.f1;
    if (!(v29 == 1)) goto L11;
    switch (v32) {
    case 0ULL: goto L11;
    case 1ULL: goto L6;
    default: goto L7; }
L6:;
    v35 = nd_ndef_format_kind_of_one(nd_load_8(v31));
    v49 = v35;
    goto L12;
L7:;
    if (!(v32 < 3ULL)) goto L9;
    v40 = nd_ndef_format_kind_of_two(nd_load_8(v31), nd_load_8(((unsigned char *)((uintptr_t)v31 + 1))));
    v49 = v40;
    goto L12;
L9:;
    if (!(v32 == 3ULL)) goto L11;
    v47 = nd_ndef_format_kind_of_three(nd_load_8(v31), nd_load_8(((unsigned char *)((uintptr_t)v31 + 1))), nd_load_8(((unsigned char *)((uintptr_t)v31 + 2))));
    v49 = v47;
    goto L12;
L11:;
    nd_ndef_diagnostics_few_whole_payload(v11.b);
    goto L27;
L12:;
    v50 = nd_ndef_diagnostics_few_whole_payload(v11.b);
    v51 = v50.f0;
    v52 = v50.f1;
    nd_memset(v7.b, 0, 3);
    switch (v49) {
    case 1: goto L13;
    case 3: goto L26;
    case 4: goto L26;
    case 5: goto L26;
    case 2: goto L27;
    case 6: goto L27;
    case 7: goto L27;
    case 8: goto L27;
    case 9: goto L27;
    case 10: goto L27;
    case 11: goto L27;
    case 12: goto L27;
    case 0: goto L27;
    default: goto L25; }
L13:;
    if (v52 == 0ULL) goto L27;
    v55 = v52 + 18446744073709551615ULL;
    v56 = nd_load_8(v51);
    v60 = nd_umin_i64(v55, (uint64_t)(uint8_t)(v56 & 63));
    v61 = (unsigned char *)((uintptr_t)((unsigned char *)((uintptr_t)v51 + 1)) + (uintptr_t)v60);
    v62 = v55 - v60;
    if (!(((int8_t)v56 < (int8_t)0) & (int)(v62 != 0ULL))) goto L27;
    if (v62 < 2ULL) goto L19;
    switch (nd_load_8(v61)) {
    case 254: goto L17;
    case 255: goto L18;
    default: goto L19; }
L17:;
    if (nd_load_8((v61 + 1)) == 255) goto L27;
    goto L19;
L18:;
    if (nd_load_8((v61 + 1)) == 254) goto L27;
L19:;
    v73 = v62;
    v74 = v61;
L20:;
    if (v73 < 2ULL) goto L23;
    if (!(nd_load_8(((unsigned char *)((uintptr_t)v74 + 1))) == 0)) goto L27;
    v73 = v73 + 18446744073709551614ULL;
    v74 = (unsigned char *)((uintptr_t)v74 + 2);
    goto L20;
L23:;
    if (!(v73 == 0ULL)) goto L27;
    v94 = 1;
    v95 = 8;
    v96 = 0;
    goto L32;
L25:;
    nd_stop();
L26:;
    nd_ndef_diagnostics_record_remark_held_remark(v7.b, v49, v51, v52, v18);
    if (nd_load_8(v7.b) == 1) { v94 = 1; v95 = nd_load_8((v7.b + 1)); v96 = nd_load_8((v7.b + 2)); goto L32; }
    goto L28;
L27:;
L28:;
    v88 = nd_ndef_message_item_Item_id(v11.b);
    v89 = v88.f1;
    if (v89 == 0ULL) goto L30;
    v92 = nd_ndef_diagnostics_few_count_id(v18, v88.f0, v89);
    if (v92 > 1ULL) { v94 = 1; v95 = 9; v96 = 0; goto L32; }
L30:;
    v94 = 0;
    v95 = 0;
    v96 = 0;
    goto L32;
L31:;
    v94 = 0;
    v95 = 0;
    v96 = 0;
L32:;
    nd_store_8(v12.b, v94);
    nd_store_8((v12.b + 1), v95);
    nd_store_8((v12.b + 2), v96);
    v102 = nd_ndef_c_warnings_give_remark(v12.b, ((unsigned char *)((uintptr_t)v4 + (uintptr_t)((v4 == (unsigned char *)0) ? 4096ULL : 0ULL))), v5, v6);
    return v102;
}

static uint32_t nd_ndef_append_uri(unsigned char *v1, unsigned char *v2, uint64_t v3, unsigned char *v4, uint64_t v5, unsigned char *v6, uint64_t v7, unsigned char *v8) {
    unsigned char *v15, *v21, *v29;
    uint8_t v28, v36;
    struct nd_8_64 v32;
    uint64_t v34;
    uint32_t v46, v47;
    ND_ROOM(48) v9;
    ND_ROOM(96) v10;
    ND_ROOM(24) v11, v12;
    v15 = (unsigned char *)((uintptr_t)v2 + (uintptr_t)((v2 == (unsigned char *)0) ? 4096ULL : 0ULL));
    v21 = (unsigned char *)((uintptr_t)v6 + (uintptr_t)((v6 == (unsigned char *)0) ? 4096ULL : 0ULL));
    nd_memset(v9.b, 0, 48);
    nd_memset(v10.b, 0, 48);
    nd_memset(v11.b, 0, 24);
    nd_memset(v12.b, 0, 24);
    nd_simdutf8_basic_from_utf8(v11.b, ((unsigned char *)((uintptr_t)v4 + (uintptr_t)((v4 == (unsigned char *)0) ? 4096ULL : 0ULL))), v5);
    if (!(nd_load_8(v11.b) == 0)) { v47 = 3U; goto L4; }
    nd_ndef_types_prefixes_split(v12.b, nd_load_ptr((v11.b + 8)), nd_load_64((v11.b + 16)));
    v28 = nd_load_8(v12.b);
    v29 = v12.b + 8;
    nd_store_8(v9.b, 2);
    nd_store_8((v9.b + 1), v28);
    nd_memcpy((v9.b + 8), v29, 16);
    v32 = nd_ndef_c_content_content_length(v9.b);
    v34 = v32.f1;
    if (!(v32.f0 == 1)) { v47 = 3U; goto L4; }
    v36 = nd_ndef_c_appending_may_join(v21, v7, v1, v3);
    if (!v36) { v47 = 3U; goto L4; }
    nd_store_8(v10.b, 1);
    nd_store_ptr((v10.b + 8), (unsigned char *)nd_data_static_139);
    nd_store_64((v10.b + 16), 1ULL);
    nd_store_ptr((v10.b + 24), v15);
    nd_store_64((v10.b + 32), v3);
    nd_store_8((v10.b + 40), 2);
    nd_store_8((v10.b + 41), v28);
    nd_memcpy((v10.b + 48), v29, 16);
    nd_memset((v10.b + 64), 0, 24);
    nd_store_64((v10.b + 88), v34);
    v46 = nd_ndef_c_building_append_pending_record(v21, v7, v1, v10.b, v8);
    v47 = v46;
L4:;
    return v47;
}

static uint32_t nd_ndef_error(unsigned char *v1, uint64_t v2, unsigned char *v3, unsigned char *v4) {
    unsigned char *v9, *v21;
    uint8_t v12, v13, v20, v46, v56, v58;
    uint64_t v22, v57, v59;
    uint32_t v44, v45, v60;
    ND_ROOM(12) v5;
    ND_ROOM(24) v6;
    v9 = (unsigned char *)((uintptr_t)v1 + (uintptr_t)((v1 == (unsigned char *)0) ? 4096ULL : 0ULL));
    nd_memset(v6.b, 0, 24);
    if (v2 > 4294967295ULL) { v56 = 23; v57 = 0ULL; goto L12; }
    nd_memset(v5.b, 0, 12);
    nd_store_8((v5.b + 9), 6);
    v12 = nd_ndef_lang_leaf_Leaf_is_completed_by(v5.b, v9, v2);
    if (!v12) goto L3;
    goto L6;
L3:;
    nd_ndef_lang_place_refusal_of(v6.b, 12, 0, v9, v2);
    v13 = nd_load_8(v6.b);
    if (!(v13 == 1)) goto L5;
    v56 = nd_load_8((v6.b + 16));
    v57 = nd_load_64((v6.b + 8));
    goto L12;
L5:;
    if (!(v13 == 0)) { v58 = 0; v59 = 0ULL; goto L13; }
L6:;
    v20 = nd_load_8(v9);
    v21 = (unsigned char *)((uintptr_t)v9 + 1);
    v22 = v2 + 18446744073709551615ULL;
    switch (v20) {
    case 1: goto L7;
    case 3: goto L7;
    case 2: goto L9;
    default: { v45 = 0U; v46 = 0; goto L11; } }
L7:;
    if (!(v22 == 1ULL)) { v45 = 0U; v46 = 0; goto L11; }
    v45 = (uint32_t)nd_load_8(v21);
    v46 = 1;
    goto L11;
L9:;
    if (!(v22 == 4ULL)) { v45 = 0U; v46 = 0; goto L11; }
    v44 = nd_bswap_i32((((((uint32_t)nd_load_8(((unsigned char *)((uintptr_t)v9 + 2))) << 8) | (uint32_t)nd_load_8(v21)) | ((uint32_t)nd_load_8(((unsigned char *)((uintptr_t)v9 + 3))) << 16)) | ((uint32_t)nd_load_8(((unsigned char *)((uintptr_t)v9 + 4))) << 24)));
    v45 = v44;
    v46 = 1;
L11:;
    nd_store_64(v3, 1ULL);
    nd_store_64((v3 + 8), v22);
    nd_store_32((v3 + 16), (uint32_t)v20);
    nd_store_32((v3 + 20), (uint32_t)v46);
    nd_store_32((v3 + 24), ((uint8_t)(v46 & 1) ? v45 : 0U));
    nd_store_32((v3 + 28), 0U);
    v60 = 0U;
    goto L14;
L12:;
    v58 = v56;
    v59 = v57;
L13:;
    nd_ndef_c_refusal_refuse(v59, v58, v4);
    v60 = 1U;
L14:;
    return v60;
}

static uint32_t nd_ndef_chunks(unsigned char *v1, uint64_t v2, uint64_t v3, unsigned char *v4, uint64_t v5, unsigned char *v6) {
    unsigned char *v12, *v15, *v25;
    uint64_t v19, v26;
    uint32_t v32;
    ND_ROOM(32) v7;
    ND_ROOM(24) v8;
    ND_ROOM(96) v9;
    v12 = (unsigned char *)((uintptr_t)v1 + (uintptr_t)((v1 == (unsigned char *)0) ? 4096ULL : 0ULL));
    v15 = (unsigned char *)((uintptr_t)v4 + (uintptr_t)((v4 == (unsigned char *)0) ? 4096ULL : 0ULL));
    nd_ndef_c_record_record_at(v9.b, v12, v2, v3);
    if (!(nd_load_8(v9.b) == 1)) { v32 = 3U; goto L6; }
    v19 = nd_load_64((v9.b + 80));
    nd_store_64(v6, v19);
    if (v5 < v19) { v32 = 2U; goto L6; }
    nd_memset((v7.b + 25), 0, 7);
    nd_store_ptr(v7.b, v12);
    nd_store_64((v7.b + 8), v2);
    nd_store_64((v7.b + 16), v3);
    nd_store_8((v7.b + 24), 1);
    v25 = v8.b + 8;
    v26 = 0ULL;
L3:;
    nd_ndef_c_chunks_PiecesIterator_next(v8.b, v7.b);
    if (!(nd_load_8(v8.b) == 1)) goto L5;
    nd_memcpy((v15 + (ptrdiff_t)(v26 << 4)), v25, 16);
    v26 = v26 + 1ULL;
    goto L3;
L5:;
    v32 = 0U;
L6:;
    return v32;
}

static uint32_t nd_ndef_references(unsigned char *v1, uint64_t v2, unsigned char *v3, uint64_t v4, unsigned char *v5) {
    unsigned char *v10, *v13, *v20, *v36, *v49;
    uint8_t v17;
    uint64_t v26, v30, v34, v37, v38, v39, v42, v45, v47;
    uint32_t v50;
    ND_ROOM(12) v6;
    ND_ROOM(24) v7;
    v10 = (unsigned char *)((uintptr_t)v1 + (uintptr_t)((v1 == (unsigned char *)0) ? 4096ULL : 0ULL));
    v13 = (unsigned char *)((uintptr_t)v3 + (uintptr_t)((v3 == (unsigned char *)0) ? 4096ULL : 0ULL));
    nd_memset(v7.b, 0, 24);
    if (!(v2 > 4294967295ULL)) goto L2;
    v50 = 3U;
    goto L9;
L2:;
    nd_memset(v6.b, 0, 12);
    nd_store_32((v6.b + 4), 1U);
    nd_store_8((v6.b + 9), 8);
    v17 = nd_ndef_lang_leaf_Leaf_is_completed_by(v6.b, v10, v2);
    if (!v17) goto L4;
    goto L5;
L4:;
    nd_ndef_lang_place_refusal_of(v7.b, 10, 0, v10, v2);
    if (!(nd_load_8(v7.b) == 0)) { v50 = 3U; goto L9; }
L5:;
    v20 = v10 + 1;
    v26 = (uint64_t)nd_load_8(((v10 + (ptrdiff_t)(uint64_t)nd_load_8(v20)) + 2));
    nd_store_64(v5, (v26 + 1ULL));
    if (!(v4 > v26)) { v50 = 2U; goto L9; }
    v30 = (uint64_t)nd_load_8(v20);
    v34 = (uint64_t)nd_load_8(((v10 + (ptrdiff_t)v30) + 2));
    nd_store_64(v13, 2ULL);
    v36 = v13;
    v37 = v30;
    v38 = 0ULL;
    v39 = v30 + 3ULL;
L7:;
    nd_store_64((v36 + 8), v37);
    if (v38 == v34) { v50 = 0U; goto L9; }
    v42 = v39 + 1ULL;
    v45 = (uint64_t)nd_load_8((v10 + (ptrdiff_t)v39));
    v47 = v38 + 1ULL;
    v49 = v13 + (ptrdiff_t)(v47 << 4);
    nd_store_64(v49, v42);
    v36 = v49;
    v37 = v45;
    v38 = v47;
    v39 = v42 + v45;
    goto L7;
L9:;
    return v50;
}

static uint32_t nd_ndef_append_text(unsigned char *v1, unsigned char *v2, uint64_t v3, unsigned char *v4, uint64_t v5, unsigned char *v6, uint64_t v7, uint32_t v8, unsigned char *v9, uint64_t v10, unsigned char *v11) {
    unsigned char *v17, *v26, *v35, *v37;
    uint8_t v30, v33, v42;
    struct nd_8_64 v38;
    uint64_t v40;
    uint32_t v52, v53;
    ND_ROOM(48) v12;
    ND_ROOM(96) v13;
    ND_ROOM(56) v14;
    v17 = (unsigned char *)((uintptr_t)v2 + (uintptr_t)((v2 == (unsigned char *)0) ? 4096ULL : 0ULL));
    v26 = (unsigned char *)((uintptr_t)v9 + (uintptr_t)((v9 == (unsigned char *)0) ? 4096ULL : 0ULL));
    nd_store_64(v12.b, 0ULL);
    nd_memset(v13.b, 0, 48);
    nd_memset(v14.b, 0, 56);
    nd_ndef_c_text_text_content(v14.b, ((unsigned char *)((uintptr_t)v4 + (uintptr_t)((v4 == (unsigned char *)0) ? 4096ULL : 0ULL))), v5, ((unsigned char *)((uintptr_t)v6 + (uintptr_t)((v6 == (unsigned char *)0) ? 4096ULL : 0ULL))), v7, v8);
    if (!(nd_load_8(v14.b) == 1)) { v53 = 3U; goto L4; }
    v30 = nd_load_8((v14.b + 8));
    nd_store_8(v12.b, v30);
    v33 = nd_load_8((v14.b + 9));
    nd_store_8((v12.b + 1), v33);
    v35 = v14.b + 16;
    nd_memcpy((v12.b + 8), v35, 16);
    v37 = v14.b + 32;
    nd_memcpy((v12.b + 24), v37, 24);
    v38 = nd_ndef_c_content_content_length(v12.b);
    v40 = v38.f1;
    if (!(v38.f0 == 1)) { v53 = 3U; goto L4; }
    v42 = nd_ndef_c_appending_may_join(v26, v10, v1, v3);
    if (!v42) { v53 = 3U; goto L4; }
    nd_store_8(v13.b, 1);
    nd_store_ptr((v13.b + 8), (unsigned char *)nd_data_static_140);
    nd_store_64((v13.b + 16), 1ULL);
    nd_store_ptr((v13.b + 24), v17);
    nd_store_64((v13.b + 32), v3);
    nd_store_8((v13.b + 40), v30);
    nd_store_8((v13.b + 41), v33);
    nd_memcpy((v13.b + 48), v35, 16);
    nd_memcpy((v13.b + 64), v37, 24);
    nd_store_64((v13.b + 88), v40);
    v52 = nd_ndef_c_building_append_pending_record(v26, v10, v1, v13.b, v11);
    v53 = v52;
L4:;
    return v53;
}

static uint32_t nd_ndef_write_text(unsigned char *v1, uint64_t v2, unsigned char *v3, uint64_t v4, uint32_t v5, unsigned char *v6, uint64_t v7, unsigned char *v8) {
    uint32_t v31, v32;
    ND_ROOM(48) v9;
    ND_ROOM(56) v10;
    nd_store_64(v9.b, 0ULL);
    nd_memset(v10.b, 0, 56);
    nd_ndef_c_text_text_content(v10.b, ((unsigned char *)((uintptr_t)v1 + (uintptr_t)((v1 == (unsigned char *)0) ? 4096ULL : 0ULL))), v2, ((unsigned char *)((uintptr_t)v3 + (uintptr_t)((v3 == (unsigned char *)0) ? 4096ULL : 0ULL))), v4, v5);
    if (!(nd_load_8(v10.b) == 1)) { v32 = 3U; goto L2; }
    nd_store_8(v9.b, nd_load_8((v10.b + 8)));
    nd_store_8((v9.b + 1), nd_load_8((v10.b + 9)));
    nd_memcpy((v9.b + 8), (v10.b + 16), 16);
    nd_memcpy((v9.b + 24), (v10.b + 32), 24);
    v31 = nd_ndef_c_content_give_content(v9.b, ((unsigned char *)((uintptr_t)v6 + (uintptr_t)((v6 == (unsigned char *)0) ? 4096ULL : 0ULL))), v7, v8);
    v32 = v31;
L2:;
    return v32;
}

static uint32_t nd_ndef_status_name(uint32_t v1, unsigned char *v2, uint64_t v3, unsigned char *v4) {
    uint32_t v15, v16;
    if (!(v1 < 6U)) { v16 = 3U; goto L2; }
    v15 = nd_ndef_c_buffer_give(nd_load_ptr(((unsigned char *)&nd_data_switch_table_ndef_status_name_17 + (ptrdiff_t)(uint64_t)v1 * 8)), nd_load_64(((unsigned char *)nd_data_switch_table_ndef_status_name + (ptrdiff_t)(uint64_t)v1 * 8)), ((unsigned char *)((uintptr_t)v2 + (uintptr_t)((v2 == (unsigned char *)0) ? 4096ULL : 0ULL))), v3, v4);
    v16 = v15;
L2:;
    return v16;
}

static uint32_t nd_ndef_check_layout(unsigned char *v1, uint64_t v2, unsigned char *v3, uint64_t v4, unsigned char *v5) {
    unsigned char *v11, *v14, *v15, *v18, *v33, *v34, *v35, *v36, *v37, *v39, *v45, *v61, *v67;
    uint64_t v17, v22, v38, v40, v44, v50, v60, v62, v64, v68, v71, v78;
    uint8_t v30, v47, v48, v53, v65, v77, v79;
    uint32_t v49, v85;
    ND_ROOM(1) v6;
    ND_ROOM(12) v7, v8;
    v11 = (unsigned char *)((uintptr_t)v1 + (uintptr_t)((v1 == (unsigned char *)0) ? 4096ULL : 0ULL));
    v14 = (unsigned char *)((uintptr_t)v3 + (uintptr_t)((v3 == (unsigned char *)0) ? 4096ULL : 0ULL));
    v15 = v8.b + 4;
    nd_store_64(v15, 0ULL);
    if (v4 > 255ULL) goto L4;
    v17 = v4;
    v18 = v14;
L1:;
    if (v17 == 0ULL) goto L5;
    nd_ndef_c_layout_field_of(v8.b, v18);
    if (!(nd_load_8(v8.b) == 1)) goto L4;
    v22 = v17 + 18446744073709551615ULL;
    if ((uint8_t)(((uint8_t)(nd_load_8(v15) + 251) < 254) ? 1 : (v22 == 0ULL))) { v17 = v22; v18 = (unsigned char *)((uintptr_t)v18 + 12); goto L1; }
L4:;
    v85 = 3U;
    goto L26;
L5:;
    if (v2 > 4294967295ULL) goto L7;
    v30 = nd_ndef_c_layout_fits(v14, v4, v2);
    if (v30) goto L8;
L7:;
    nd_store_64(v5, 0ULL);
    nd_store_32((v5 + 8), 23U);
    nd_store_32((v5 + 12), 0U);
    v85 = 1U;
    goto L26;
L8:;
    v33 = v7.b + 4;
    v34 = v7.b + 5;
    v35 = v7.b + 6;
    v36 = v7.b + 8;
    v37 = v14;
    v38 = v4;
    v39 = v11;
    v40 = v2;
L9:;
    nd_store_64(v33, 0ULL);
    if (v38 == 0ULL) goto L21;
    nd_ndef_c_layout_field_of(v7.b, v37);
    if (nd_load_8(v7.b) == 1) goto L12;
    nd_stop();
L12:;
    v44 = v38 + 18446744073709551615ULL;
    v45 = (unsigned char *)((uintptr_t)v37 + 12);
    v47 = nd_load_8(v34);
    v48 = nd_load_8(v35);
    v49 = nd_load_32(v36);
    switch (nd_load_8(v33)) {
    case 4: goto L25;
    case 3: goto L23;
    case 0: goto L13;
    case 1: goto L14;
    case 2: goto L16;
    default: goto L22; }
L13:;
    v50 = (uint64_t)v49;
    v67 = (unsigned char *)((uintptr_t)v39 + (uintptr_t)v50);
    v68 = v40 - v50;
    goto L19;
L14:;
    v53 = nd_load_8(v39);
    if ((uint8_t)((v53 < v47) ? 1 : (v48 < v53))) goto L20;
    v67 = (unsigned char *)((uintptr_t)v39 + 1);
    v68 = v40 + 18446744073709551615ULL;
    goto L19;
L16:;
    v60 = (uint64_t)nd_load_8(v39);
    v61 = (unsigned char *)((uintptr_t)v39 + 1);
    v62 = v40 + 18446744073709551615ULL;
    if (v62 < v60) goto L20;
    v64 = v62 - v60;
    v65 = nd_ndef_c_layout_fits(v45, v44, v64);
    if (!v65) goto L20;
    v67 = (unsigned char *)((uintptr_t)v61 + (uintptr_t)v60);
    v68 = v64;
L19:;
    v37 = v45;
    v38 = v44;
    v39 = v67;
    v40 = v68;
    goto L9;
L20:;
    v77 = 23;
    v78 = v2 - v40;
    goto L24;
L21:;
    goto L25;
L22:;
    nd_stop();
L23:;
    nd_store_8(v6.b, 0);
    v71 = nd_ndef_lang_utf8_Utf8Lang_take(v6.b, v39, v40, v40, v40);
    if (v71 == v40) goto L25;
    v77 = (uint8_t)((nd_load_8(v6.b) == 8) ? 16 : 23);
    v78 = (v2 - v40) + v71;
L24:;
    v79 = nd_ndef_format_reason_Reason_number(v77);
    nd_store_64(v5, v78);
    nd_store_32((v5 + 8), (uint32_t)v79);
    nd_store_32((v5 + 12), 1U);
    v85 = 1U;
    goto L26;
L25:;
    nd_store_64(v5, v2);
    nd_store_32((v5 + 8), 0U);
    nd_store_32((v5 + 12), 1U);
    v85 = 0U;
L26:;
    return v85;
}

static uint32_t nd_ndef_kind(unsigned char *v1, uint64_t v2, unsigned char *v3, uint32_t v4) {
    uint32_t v8;
    v8 = nd_ndef_c_kinds_ndef_kind(((unsigned char *)((uintptr_t)v1 + (uintptr_t)((v1 == (unsigned char *)0) ? 4096ULL : 0ULL))), v2, v3, v4);
    return v8;
}

static uint32_t nd_ndef_find_id(unsigned char *v1, uint64_t v2, uint64_t v3, unsigned char *v4, uint64_t v5, unsigned char *v6) {
    uint32_t v17;
    ND_ROOM(24) v7;
    nd_store_32(v7.b, 1U);
    nd_store_32((v7.b + 4), 0U);
    nd_store_ptr((v7.b + 8), ((unsigned char *)((uintptr_t)v4 + (uintptr_t)((v4 == (unsigned char *)0) ? 4096ULL : 0ULL))));
    nd_store_64((v7.b + 16), v5);
    v17 = nd_ndef_c_finding_find(((unsigned char *)((uintptr_t)v1 + (uintptr_t)((v1 == (unsigned char *)0) ? 4096ULL : 0ULL))), v2, v3, v7.b, v6);
    return v17;
}

static uint32_t nd_ndef_find_type(unsigned char *v1, uint64_t v2, uint64_t v3, uint32_t v4, unsigned char *v5, uint64_t v6, unsigned char *v7) {
    uint32_t v18;
    ND_ROOM(24) v8;
    nd_store_32(v8.b, 0U);
    nd_store_32((v8.b + 4), v4);
    nd_store_ptr((v8.b + 8), ((unsigned char *)((uintptr_t)v5 + (uintptr_t)((v5 == (unsigned char *)0) ? 4096ULL : 0ULL))));
    nd_store_64((v8.b + 16), v6);
    v18 = nd_ndef_c_finding_find(((unsigned char *)((uintptr_t)v1 + (uintptr_t)((v1 == (unsigned char *)0) ? 4096ULL : 0ULL))), v2, v3, v8.b, v7);
    return v18;
}

static uint32_t nd_ndef_poster_media_type(unsigned char *v1, uint64_t v2, unsigned char *v3) {
    unsigned char *v7;
    uint8_t v8;
    uint64_t v14;
    uint32_t v16;
    ND_ROOM(32) v4;
    v7 = (unsigned char *)((uintptr_t)v1 + (uintptr_t)((v1 == (unsigned char *)0) ? 4096ULL : 0ULL));
    nd_memset(v4.b, 0, 32);
    v8 = nd_ndef_c_titles_is_poster(v7, v2);
    if (!v8) { v16 = 3U; goto L3; }
    nd_ndef_c_nested_first_of(v4.b, 0, v7, v2, 9);
    if (!(nd_load_8(v4.b) == 1)) { v16 = 4U; goto L3; }
    v14 = nd_load_64((v4.b + 24));
    nd_store_64(v3, nd_load_64((v4.b + 8)));
    nd_store_64((v3 + 8), v14);
    v16 = 0U;
L3:;
    return v16;
}

static uint32_t nd_ndef_field_at(unsigned char *v1, uint64_t v2, unsigned char *v3, uint64_t v4, unsigned char *v5, unsigned char *v6) {
    uint32_t v10;
    v10 = nd_ndef_c_fields_ndef_field_at(((unsigned char *)((uintptr_t)v1 + (uintptr_t)((v1 == (unsigned char *)0) ? 4096ULL : 0ULL))), v2, v3, v4, v5, v6);
    return v10;
}

static uint32_t nd_ndef_find_hint(unsigned char *v1, uint64_t v2, unsigned char *v3, unsigned char *v4) {
    uint64_t v18, v29, v31;
    uint32_t v30, v35;
    ND_ROOM(20) v5;
    ND_ROOM(24) v6;
    nd_memset(v6.b, 0, 24);
    nd_ndef_c_fields_typed_limits(v5.b, v3);
    if (!(nd_load_8(v5.b) == 1)) { v35 = 3U; goto L10; }
    nd_ndef_c_hints_hint_of(v6.b, ((unsigned char *)((uintptr_t)v1 + (uintptr_t)((v1 == (unsigned char *)0) ? 4096ULL : 0ULL))), v2, (v5.b + 4));
    if (!(nd_load_8(v6.b) == 1)) { v35 = 4U; goto L10; }
    v18 = nd_load_64((v6.b + 16));
    switch (nd_load_8((v6.b + 8))) {
    case 0: goto L8;
    case 2: { v29 = v18; v30 = 4U; v31 = 0ULL; goto L9; }
    case 3: goto L3;
    case 1: goto L4;
    case 4: goto L5;
    case 5: goto L6;
    default: goto L7; }
L3:;
    v29 = 0ULL;
    v30 = 5U;
    v31 = 0ULL;
    goto L9;
L4:;
    v29 = 0ULL;
    v30 = (uint32_t)nd_load_8((v6.b + 9)) + 6U;
    v31 = 0ULL;
    goto L9;
L5:;
    v29 = 0ULL;
    v30 = 13U;
    v31 = 0ULL;
    goto L9;
L6:;
    v29 = 0ULL;
    v30 = 14U;
    v31 = 0ULL;
    goto L9;
L7:;
    nd_stop();
L8:;
    v29 = v18 & 4294967295ULL;
    v30 = (uint32_t)nd_load_8((v6.b + 12)) + 1U;
    v31 = v18 >> 32;
L9:;
    nd_store_32(v4, v30);
    nd_store_32((v4 + 4), 0U);
    nd_store_64((v4 + 8), v29);
    nd_store_64((v4 + 16), v31);
    v35 = 0U;
L10:;
    return v35;
}

static uint32_t nd_ndef_hint(unsigned char *v1, uint64_t v2, unsigned char *v3, unsigned char *v4, uint64_t v5, unsigned char *v6) {
    unsigned char *v16, *v45;
    uint8_t v26, v28;
    uint32_t v30, v54, v55, v56;
    uint64_t v32, v33, v43;
    ND_ROOM(200) v7, v8, v9, v10, v11;
    ND_ROOM(24) v12;
    ND_ROOM(20) v13;
    v16 = (unsigned char *)((uintptr_t)v4 + (uintptr_t)((v4 == (unsigned char *)0) ? 4096ULL : 0ULL));
    nd_ndef_c_fields_typed_limits(v13.b, v3);
    if (!(nd_load_8(v13.b) == 1)) { v56 = 3U; goto L15; }
    nd_memset(v12.b, 0, 24);
    nd_ndef_c_hints_hint_of(v12.b, ((unsigned char *)((uintptr_t)v1 + (uintptr_t)((v1 == (unsigned char *)0) ? 4096ULL : 0ULL))), v2, (v13.b + 4));
    if (!(nd_load_8(v12.b) == 1)) { v55 = 4U; goto L14; }
    v26 = nd_load_8((v12.b + 8));
    v28 = nd_load_8((v12.b + 9));
    v30 = nd_load_32((v12.b + 12));
    v32 = nd_load_64((v12.b + 16));
    nd_memset(v10.b, 0, 200);
    switch (v26) {
    case 0: goto L3;
    case 1: goto L7;
    case 2: goto L8;
    case 3: goto L9;
    case 4: goto L10;
    case 5: goto L11;
    default: goto L12; }
L3:;
    v33 = v32 >> 32;
    if (!(v33 == 0ULL)) goto L5;
    nd_ndef_diagnostics_sentence_Sentence_of(v8.b, (unsigned char *)nd_data_static_157, 49ULL);
    v45 = v8.b;
    goto L6;
L5:;
    nd_ndef_diagnostics_sentence_Sentence_of(v9.b, (unsigned char *)nd_data_static_158, 20ULL);
    nd_ndef_diagnostics_hint_wording_push_both(v9.b, v33, (unsigned char *)nd_data_static_159, 19ULL);
    v43 = v32 & 4294967295ULL;
    nd_ndef_diagnostics_hint_wording_push_both(v9.b, v43, nd_load_ptr(((unsigned char *)&nd_data_switch_table_ndef_hint_18 + (ptrdiff_t)(uint64_t)(v30 & 255U) * 8)), nd_load_64(((unsigned char *)nd_data_switch_table_ndef_hint + (ptrdiff_t)(uint64_t)(v30 & 255U) * 8)));
    nd_ndef_diagnostics_sentence_Sentence_push(v9.b, (unsigned char *)nd_data_static_160, 12ULL);
    nd_ndef_diagnostics_hint_wording_push_both(v9.b, (v43 + 1ULL), (unsigned char *)nd_data_static_164, 11ULL);
    nd_ndef_diagnostics_hint_wording_push_both(v9.b, v33, (unsigned char *)nd_data_static_165, 2ULL);
    v45 = v9.b;
L6:;
    nd_memcpy(v10.b, v45, 200);
    goto L13;
L7:;
    nd_ndef_diagnostics_sentence_Sentence_of(v10.b, nd_load_ptr(((unsigned char *)&nd_data_switch_table_ndef_hint_20 + (ptrdiff_t)(uint64_t)v28 * 8)), nd_load_64(((unsigned char *)nd_data_switch_table_ndef_hint_19 + (ptrdiff_t)(uint64_t)v28 * 8)));
    goto L13;
L8:;
    nd_memset(v7.b, 0, 200);
    nd_ndef_diagnostics_sentence_Sentence_new(v7.b);
    nd_ndef_diagnostics_sentence_Sentence_push(v7.b, (unsigned char *)nd_data_static_173, 85ULL);
    nd_ndef_diagnostics_sentence_Sentence_push_number(v7.b, v32);
    nd_ndef_diagnostics_sentence_Sentence_push(v7.b, (unsigned char *)nd_data_static_174, 1ULL);
    nd_memcpy(v10.b, v7.b, 200);
    goto L13;
L9:;
    nd_ndef_diagnostics_sentence_Sentence_of(v10.b, (unsigned char *)nd_data_static_154, 81ULL);
    goto L13;
L10:;
    nd_ndef_diagnostics_sentence_Sentence_of(v10.b, (unsigned char *)nd_data_static_155, 67ULL);
    goto L13;
L11:;
    nd_ndef_diagnostics_sentence_Sentence_of(v10.b, (unsigned char *)nd_data_static_156, 75ULL);
    goto L13;
L12:;
    nd_stop();
L13:;
    nd_memcpy(v11.b, v10.b, 200);
    v54 = nd_ndef_c_buffer_give(v11.b, nd_load_64((v11.b + 192)), v16, v5, v6);
    v55 = v54;
L14:;
    v56 = v55;
L15:;
    return v56;
}

static uint32_t nd_ndef_next_field(unsigned char *v1, uint64_t v2, unsigned char *v3, unsigned char *v4, unsigned char *v5) {
    uint64_t v12;
    uint32_t v13;
    v12 = nd_uadd_sat_i64(nd_load_64(((unsigned char *)((uintptr_t)v4 + 8))), nd_load_64(v4));
    v13 = nd_ndef_c_fields_ndef_field_at(((unsigned char *)((uintptr_t)v1 + (uintptr_t)((v1 == (unsigned char *)0) ? 4096ULL : 0ULL))), v2, v3, v12, v4, v5);
    return v13;
}

static uint32_t nd_ndef_refusal_message(unsigned char *v1, uint64_t v2, unsigned char *v3, unsigned char *v4, uint64_t v5, unsigned char *v6) {
    unsigned char *v40, *v43, *v57, *v91, *v110, *v257, *v264, *v308;
    uint64_t v50, v53, v59, v66, v69, v74, v77, v80, v81, v82, v93, v96, v99, v100, v102, v103, v104, v105, v106, v107, v108, v109, v111, v116, v126, v130, v146, v151, v155, v162, v164, v165, v176, v181, v182, v189, v194, v198, v203, v204, v205, v221, v222, v233, v247, v248, v251, v252, v253, v254, v255, v256, v258, v262, v266, v269, v285, v286, v291, v292, v294, v297, v298, v302, v309;
    uint8_t v52, v55, v84, v85, v89, v112, v118, v125, v128, v133, v134, v135, v142, v147, v150, v154, v158, v163, v166, v167, v172, v177, v180, v185, v188, v200, v213, v220, v223, v227, v232, v245, v246, v249, v250, v260, v261, v270, v287, v288, v289, v290, v293, v295, v296, v303, v310, v317;
    struct nd_ptr_64 v299, v305, v314;
    uint32_t v322, v323, v324;
    ND_ROOM(200) v7, v8, v9, v10, v11, v12, v13, v14, v15, v16, v17, v18, v19, v20, v21, v22, v23, v24, v25, v34, v36;
    ND_ROOM(24) v26, v28, v35;
    ND_ROOM(120) v27, v29, v31, v32;
    ND_ROOM(32) v30, v33;
    ND_ROOM(20) v37;
    v40 = (unsigned char *)((uintptr_t)v1 + (uintptr_t)((v1 == (unsigned char *)0) ? 4096ULL : 0ULL));
    v43 = (unsigned char *)((uintptr_t)v4 + (uintptr_t)((v4 == (unsigned char *)0) ? 4096ULL : 0ULL));
    nd_ndef_c_fields_typed_limits(v37.b, v3);
    if (!(nd_load_8(v37.b) == 1)) { v324 = 3U; goto L109; }
    nd_memset(v34.b, 0, 200);
    nd_memset(v36.b, 0, 200);
    nd_ndef_c_refusal_message_refusal_of(v35.b, v40, v2, (v37.b + 4));
    if (!(nd_load_8(v35.b) == 1)) { v323 = 4U; goto L108; }
    v50 = nd_load_64((v35.b + 8));
    v52 = nd_load_8((v35.b + 16));
    nd_memset(v33.b, 0, 32);
    v53 = nd_umin_i64(v2, v50);
    nd_ndef_fields_heads_whole_pieces(v33.b, v40, v53);
    v55 = nd_load_8((v33.b + 8));
    v57 = nd_load_ptr((v33.b + 16));
    v59 = nd_load_64((v33.b + 24));
    if (!(v52 == 24)) goto L15;
    if (!(v53 == 0ULL)) goto L5;
    goto L79;
L5:;
    switch (v59) {
    case 0ULL: goto L6;
    case 1ULL: { v293 = 1; v294 = v59; goto L76; }
    default: goto L7; }
L6:;
    v295 = (uint8_t)(v55 | 2);
    v296 = 0;
    v297 = 0ULL;
    v298 = 0ULL;
    goto L77;
L7:;
    v66 = ((uint8_t)(nd_load_8(v57) & 16) == 0) ? 6ULL : 3ULL;
    if (!(v59 < v66)) goto L9;
    v293 = 2;
    v294 = v66 - v59;
    goto L76;
L9:;
    v69 = nd_ndef_diagnostics_begun_head_length(v57, v59);
    if (v59 < v69) { v293 = 3; v294 = 1ULL; goto L76; }
    v74 = v69 + (uint64_t)nd_load_8((v57 + 1));
    if (!(v59 < v74)) goto L12;
    v293 = 4;
    v294 = v74 - v59;
    goto L76;
L12:;
    v77 = nd_ndef_diagnostics_begun_before_payload(v57, v59);
    if (!(v59 < v77)) goto L14;
    v293 = 5;
    v294 = v77 - v59;
    goto L76;
L14:;
    v80 = nd_ndef_diagnostics_begun_least_record(v57, v59);
    v81 = nd_usub_sat_i64(v80, v59);
    v293 = 6;
    v294 = v81;
    goto L76;
L15:;
    v82 = nd_ndef_diagnostics_begun_before_payload(v57, v59);
    if (v82 > v59) goto L66;
    v84 = nd_ndef_diagnostics_expecting_kind_begun(v57, v59);
    switch (v84) {
    case 3: goto L20;
    case 4: { v85 = 1; goto L21; }
    case 5: goto L17;
    case 0: goto L19;
    case 1: goto L19;
    case 2: goto L19;
    case 6: goto L19;
    case 7: goto L19;
    case 8: goto L19;
    case 9: goto L19;
    case 10: goto L19;
    case 11: goto L19;
    case 12: goto L19;
    default: goto L18; }
L17:;
    v85 = 2;
    goto L21;
L18:;
    nd_stop();
L19:;
    nd_ndef_fields_front_piece_front(v32.b, v57, v59);
    goto L66;
L20:;
    nd_ndef_fields_front_piece_front(v32.b, v57, v59);
    v89 = 0;
    goto L22;
L21:;
    nd_ndef_fields_front_piece_front(v32.b, v57, v59);
    if (nd_load_64((v32.b + 112)) == 0ULL) goto L66;
    v89 = v85;
L22:;
    nd_memset(v30.b, 0, 32);
    nd_ndef_fields_front_piece_front(v31.b, v57, v59);
    v91 = nd_load_ptr((v31.b + 104));
    v93 = nd_load_64((v31.b + 112));
    v96 = nd_umin_i64(v93, (uint64_t)(v89 != 0));
    nd_ndef_fields_heads_whole_pieces(v30.b, ((unsigned char *)((uintptr_t)v91 + (uintptr_t)v96)), (v93 - v96));
    v99 = nd_ndef_diagnostics_begun_payload_length(v57, v59);
    v100 = nd_usub_sat_i64(v99, v93);
    v102 = nd_load_64((v30.b + 24));
    v103 = v100 + v102;
    v104 = nd_load_64(v30.b);
    v105 = v104 + 1ULL;
    v106 = nd_uadd_sat_i64(v50, 1ULL);
    v107 = nd_umin_i64(v2, v106);
    v108 = nd_usub_sat_i64(v53, v102);
    v109 = nd_umin_i64(v107, v108);
    v110 = (unsigned char *)((uintptr_t)v40 + (uintptr_t)v109);
    v111 = v107 - v109;
    switch (v52) {
    case 23: goto L23;
    case 19: { v249 = 17; v250 = 0; v251 = v105; v252 = 0ULL; goto L65; }
    case 20: goto L61;
    case 22: goto L62;
    case 0: goto L63;
    case 1: goto L63;
    case 2: goto L63;
    case 3: goto L63;
    case 4: goto L63;
    case 5: goto L63;
    case 6: goto L63;
    case 7: goto L63;
    case 8: goto L63;
    case 9: goto L63;
    case 10: goto L63;
    case 11: goto L63;
    case 12: goto L63;
    case 13: goto L63;
    case 14: goto L63;
    case 15: goto L63;
    case 16: goto L63;
    case 17: goto L63;
    case 18: goto L63;
    case 21: goto L63;
    default: goto L64; }
L23:;
    nd_memset(v28.b, 0, 24);
    v112 = nd_ndef_diagnostics_begun_is_kind_whole(v110, v111);
    if (v112) goto L59;
    if (!((v89 == 1) & (int)(v104 == 0ULL))) goto L33;
    v116 = nd_ndef_diagnostics_begun_payload_length(v110, v111);
    if (!(v107 > v108)) { v125 = 0; goto L27; }
    v118 = nd_load_8(v110);
    if ((v116 == 2ULL) | (int)((((uint8_t)(v118 & 16) == 0) ? 6ULL : 3ULL) > v111)) { v125 = v118; goto L27; }
    v245 = 22;
    v246 = 0;
    v247 = v116;
    v248 = 0ULL;
    goto L60;
L27:;
    v126 = nd_ndef_diagnostics_begun_head_length(v110, v111);
    v128 = nd_ndef_diagnostics_begun_id_length(v110, v111);
    v130 = (v126 + 4ULL) + (uint64_t)v128;
    if ((uint8_t)(v125 & 8) == 0) { v134 = 1; goto L29; }
    v133 = nd_ndef_diagnostics_begun_is_lengths_whole(v110, v111);
    v134 = v133;
L29:;
    v135 = v103 >= v130;
    if (!(v135 & v134)) { v245 = (uint8_t)(v135 ? 0 : 23); v246 = 0; v247 = v135 ? 0ULL : v130; v248 = v135 ? 0ULL : v103; goto L60; }
    if ((uint8_t)(v125 & 64) == 0) goto L32;
    v142 = v130 == v103;
    v245 = (uint8_t)(v142 ? 0 : 24);
    v246 = 0;
    v247 = v142 ? 0ULL : v130;
    v248 = v142 ? 0ULL : v103;
    goto L60;
L32:;
    v146 = nd_usub_sat_i64(v103, v130);
    v147 = v146 < 3ULL;
    v245 = (uint8_t)(v147 ? 25 : 0);
    v246 = 0;
    v247 = v147 ? v146 : 0ULL;
    v248 = 0ULL;
    goto L60;
L33:;
    v150 = v107 > v108;
    if (v150) goto L35;
    v151 = nd_ndef_diagnostics_begun_least_record(v110, 0ULL);
    v162 = v151;
    v163 = 1;
    v164 = 0ULL;
    goto L37;
L35:;
    v154 = (uint8_t)(nd_load_8(v110) & 64) == 0;
    v155 = nd_ndef_diagnostics_begun_least_record(v110, v111);
    if (!(v111 == 1ULL)) { v162 = v155; v163 = v154; v164 = 0ULL; goto L37; }
    v158 = nd_ndef_piece_header_header_tnf(nd_load_8(v110));
    v162 = v155;
    v163 = v154;
    v164 = (uint64_t)((uint8_t)(v158 + 255) < 4);
L37:;
    v165 = v164 + v162;
    v166 = nd_ndef_diagnostics_begun_is_size_known(v110, v111);
    v167 = v103 >= v165;
    if (!(v166 & v167)) { v180 = (uint8_t)(v167 ? 0 : 14); v181 = v167 ? 0ULL : v165; v182 = v167 ? 0ULL : v103; goto L41; }
    if (v163) goto L40;
    v172 = v165 == v103;
    v180 = (uint8_t)(v172 ? 0 : 15);
    v181 = v172 ? 0ULL : v165;
    v182 = v172 ? 0ULL : v103;
    goto L41;
L40:;
    v176 = nd_usub_sat_i64(v103, v165);
    v177 = v176 < 3ULL;
    v180 = (uint8_t)(v177 ? 16 : 0);
    v181 = v177 ? v176 : 0ULL;
    v182 = 0ULL;
L41:;
    if (!((uint8_t)(v180 | v89) == 0)) { v245 = v180; v246 = 0; v247 = v181; v248 = v182; goto L60; }
    if (!v150) goto L53;
    v185 = nd_load_8(v110);
    if ((uint8_t)(v185 & 64) == 0) goto L52;
    v188 = nd_ndef_diagnostics_poster_heads_has_no_payload(v110, v111);
    if (!v188) goto L48;
    v189 = nd_ndef_diagnostics_begun_head_length(v110, v111);
    if (v111 == 1ULL) { v194 = 0ULL; goto L47; }
    v194 = (uint64_t)nd_load_8((v110 + 1));
L47:;
    if (!(v103 > ((v189 + 255ULL) + v194))) { v245 = 6; v246 = 2; v247 = 1ULL; v248 = 0ULL; goto L60; }
L48:;
    v198 = nd_ndef_diagnostics_begun_head_length(v110, v111);
    v200 = nd_ndef_diagnostics_begun_id_length(v110, v111);
    v203 = nd_ndef_diagnostics_begun_payload_length(v110, v111);
    v204 = nd_umax_i64(v203, 1ULL);
    v205 = ((v198 + 1ULL) + (uint64_t)v200) + v204;
    if (!(v103 < v205)) goto L51;
    if (v111 < 3ULL) { v245 = 18; v246 = 0; v247 = v205; v248 = v103; goto L60; }
    if (!((((uint8_t)(nd_load_8(v110) & 16) == 0) ? 6ULL : 3ULL) > v111)) { v245 = 18; v246 = 0; v247 = v205; v248 = v103; goto L60; }
L51:;
    v245 = 0;
    v246 = 0;
    v247 = 0ULL;
    v248 = 0ULL;
    goto L60;
L52:;
    if (v166) goto L54;
    v245 = 0;
    v246 = 0;
    v247 = 0ULL;
    v248 = 0ULL;
    goto L60;
L53:;
    v213 = nd_ndef_diagnostics_begun_is_size_known(v110, 0ULL);
    if (v213) goto L58;
    v245 = 0;
    v246 = 0;
    v247 = 0ULL;
    v248 = 0ULL;
    goto L60;
L54:;
    if (!((uint8_t)(v185 & 7) == 1)) goto L58;
    if (v111 == 1ULL) goto L57;
    if (!(nd_load_8((v110 + 1)) == 1)) goto L58;
L57:;
    v220 = nd_ndef_diagnostics_poster_heads_has_no_payload(v110, v111);
    if (!v220) { v245 = 0; v246 = 0; v247 = 0ULL; v248 = 0ULL; goto L60; }
L58:;
    v221 = nd_ndef_diagnostics_begun_least_record(v110, v111);
    v222 = nd_usub_sat_i64(v103, v221);
    v223 = v222 < 5ULL;
    v245 = (uint8_t)(v223 ? 19 : 0);
    v246 = 0;
    v247 = v223 ? v222 : 0ULL;
    v248 = 0ULL;
    goto L60;
L59:;
    nd_ndef_fields_front_piece_front(v29.b, v110, v111);
    v227 = nd_ndef_piece_header_header_tnf(nd_load_8(v29.b));
    v232 = nd_ndef_format_table_Table_kind(v89, v227, nd_load_ptr((v29.b + 72)), nd_load_64((v29.b + 80)));
    v233 = nd_ndef_diagnostics_begun_payload_length(v110, v111);
    nd_ndef_diagnostics_length_mismatch_length_mismatch(v28.b, v232, v233, nd_load_ptr((v29.b + 104)), nd_load_64((v29.b + 112)));
    v245 = nd_load_8(v28.b);
    v246 = nd_load_8((v28.b + 1));
    v247 = nd_load_64((v28.b + 8));
    v248 = nd_load_64((v28.b + 16));
L60:;
    v249 = v245;
    v250 = v246;
    v251 = v247;
    v252 = v248;
    goto L65;
L61:;
    v249 = 20;
    v250 = 0;
    v251 = v105;
    v252 = 0ULL;
    goto L65;
L62:;
    v249 = 21;
    v250 = 0;
    v251 = 0ULL;
    v252 = 0ULL;
    goto L65;
L63:;
    v249 = 0;
    v250 = 0;
    v251 = 0ULL;
    v252 = 0ULL;
    goto L65;
L64:;
    nd_stop();
L65:;
    v295 = v249;
    v296 = v250;
    v297 = v251;
    v298 = v252;
    goto L77;
L66:;
    v253 = nd_uadd_sat_i64(v50, 1ULL);
    v254 = nd_umin_i64(v2, v253);
    v255 = nd_usub_sat_i64(v53, v59);
    v256 = nd_umin_i64(v254, v255);
    v257 = (unsigned char *)((uintptr_t)v40 + (uintptr_t)v256);
    v258 = v254 - v256;
    if (v52 == 23) goto L68;
    goto L78;
L68:;
    v260 = nd_ndef_diagnostics_begun_is_kind_whole(v257, v258);
    if (!v260) { v289 = 0; v290 = 0; v291 = 0ULL; v292 = 0ULL; goto L75; }
    v261 = nd_ndef_diagnostics_expecting_kind_begun(v257, v258);
    v262 = nd_ndef_diagnostics_begun_payload_length(v257, v258);
    nd_ndef_fields_front_piece_front(v27.b, v257, v258);
    v264 = nd_load_ptr((v27.b + 104));
    v266 = nd_load_64((v27.b + 112));
    nd_memset(v26.b, 0, 24);
    switch (v261) {
    case 3: goto L70;
    case 4: { v269 = 8ULL; goto L72; }
    case 5: goto L71;
    case 0: goto L73;
    case 1: goto L73;
    case 2: goto L73;
    case 6: goto L73;
    case 7: goto L73;
    case 8: goto L73;
    case 9: goto L73;
    case 10: goto L73;
    case 11: goto L73;
    case 12: goto L73;
    default: goto L18; }
L70:;
    v269 = 5ULL;
    goto L72;
L71:;
    if ((v262 & 4294967294ULL) == 2ULL) { v285 = 0ULL; v286 = v262; v287 = 0; v288 = 7; goto L74; }
    v269 = 1ULL;
L72:;
    v270 = v262 < v269;
    v285 = v270 ? v262 : 0ULL;
    v286 = v270 ? v269 : 0ULL;
    v287 = (uint8_t)(v270 ? v261 : 0);
    v288 = (uint8_t)(v270 ? 6 : 0);
    goto L74;
L73:;
    nd_ndef_diagnostics_length_mismatch_length_mismatch(v26.b, (uint8_t)(((uint8_t)(v261 + 255) < 6) ? v261 : 0), v262, v264, v266);
    v285 = nd_load_64((v26.b + 16));
    v286 = nd_load_64((v26.b + 8));
    v287 = nd_load_8((v26.b + 1));
    v288 = nd_load_8(v26.b);
L74:;
    v289 = v288;
    v290 = v287;
    v291 = v286;
    v292 = v285;
L75:;
    v295 = v289;
    v296 = v290;
    v297 = v291;
    v298 = v292;
    goto L77;
L76:;
    v302 = v294;
    v303 = v293;
    goto L82;
L77:;
    nd_memset(v25.b, 0, 200);
    switch (v295) {
    case 0: goto L78;
    case 1: goto L79;
    case 2: goto L80;
    case 3: goto L81;
    case 4: { v302 = v297; v303 = v296; goto L82; }
    case 5: goto L85;
    case 6: goto L86;
    case 7: goto L87;
    case 8: goto L88;
    case 9: goto L89;
    case 10: goto L90;
    case 11: goto L91;
    case 12: goto L92;
    case 13: goto L93;
    case 14: goto L94;
    case 15: goto L95;
    case 16: goto L96;
    case 17: goto L97;
    case 18: goto L98;
    case 19: goto L99;
    case 20: goto L100;
    case 21: goto L101;
    case 22: goto L102;
    case 23: goto L103;
    case 24: goto L104;
    case 25: goto L105;
    default: goto L106; }
L78:;
    v299 = nd_ndef_format_reason_Reason_sentence(v52);
    nd_ndef_diagnostics_sentence_Sentence_of(v25.b, v299.f0, v299.f1);
    goto L107;
L79:;
    nd_ndef_diagnostics_sentence_Sentence_of(v25.b, (unsigned char *)nd_data_static_175, 45ULL);
    goto L107;
L80:;
    nd_ndef_diagnostics_sentence_Sentence_of(v25.b, (unsigned char *)nd_data_static_176, 59ULL);
    goto L107;
L81:;
    nd_ndef_diagnostics_sentence_Sentence_of(v25.b, (unsigned char *)nd_data_static_177, 64ULL);
    goto L107;
L82:;
    nd_memset(v24.b, 0, 200);
    nd_ndef_diagnostics_sentence_Sentence_new(v24.b);
    nd_ndef_diagnostics_sentence_Sentence_push_octets(v24.b, v302);
    nd_ndef_diagnostics_sentence_Sentence_push(v24.b, (unsigned char *)nd_data_static_182, 4ULL);
    if (v303 == 6) { v308 = (unsigned char *)nd_data_static_187; v309 = 11ULL; goto L84; }
    v305 = nd_ndef_fields_name_FieldName_text(v303);
    v308 = v305.f0;
    v309 = v305.f1;
L84:;
    nd_ndef_diagnostics_sentence_Sentence_push(v24.b, v308, v309);
    v310 = v302 == 1ULL;
    nd_ndef_diagnostics_sentence_Sentence_push(v24.b, (v310 ? (unsigned char *)nd_data_static_183 : (unsigned char *)nd_data_static_184), (v310 ? 12ULL : 13ULL));
    nd_memcpy(v25.b, v24.b, 200);
    goto L107;
L85:;
    nd_memset(v23.b, 0, 200);
    nd_ndef_diagnostics_sentence_Sentence_new(v23.b);
    nd_ndef_diagnostics_sentence_Sentence_push_kind(v23.b, v296);
    nd_ndef_diagnostics_sentence_Sentence_push(v23.b, (unsigned char *)nd_data_static_188, 5ULL);
    nd_ndef_diagnostics_sentence_Sentence_push_octets(v23.b, v297);
    nd_ndef_diagnostics_sentence_Sentence_push(v23.b, (unsigned char *)nd_data_static_189, 2ULL);
    nd_ndef_diagnostics_sentence_Sentence_push_given(v23.b, v298);
    nd_memcpy(v25.b, v23.b, 200);
    goto L107;
L86:;
    nd_memset(v22.b, 0, 200);
    nd_ndef_diagnostics_sentence_Sentence_new(v22.b);
    nd_ndef_diagnostics_sentence_Sentence_push_kind(v22.b, v296);
    nd_ndef_diagnostics_sentence_Sentence_push(v22.b, (unsigned char *)nd_data_static_217, 14ULL);
    nd_ndef_diagnostics_sentence_Sentence_push_octets(v22.b, v297);
    nd_ndef_diagnostics_sentence_Sentence_push(v22.b, (unsigned char *)nd_data_static_189, 2ULL);
    nd_ndef_diagnostics_sentence_Sentence_push_given(v22.b, v298);
    nd_memcpy(v25.b, v22.b, 200);
    goto L107;
L87:;
    nd_memset(v21.b, 0, 200);
    nd_ndef_diagnostics_sentence_Sentence_new(v21.b);
    nd_ndef_diagnostics_sentence_Sentence_push(v21.b, (unsigned char *)nd_data_static_218, 53ULL);
    nd_ndef_diagnostics_sentence_Sentence_push_given(v21.b, v297);
    nd_memcpy(v25.b, v21.b, 200);
    goto L107;
L88:;
    nd_memset(v20.b, 0, 200);
    nd_ndef_diagnostics_sentence_Sentence_new(v20.b);
    nd_ndef_diagnostics_sentence_Sentence_push(v20.b, (unsigned char *)nd_data_static_219, 25ULL);
    nd_ndef_diagnostics_sentence_Sentence_push_number(v20.b, (uint64_t)v296);
    nd_ndef_diagnostics_sentence_Sentence_push(v20.b, (unsigned char *)nd_data_static_188, 5ULL);
    nd_ndef_diagnostics_sentence_Sentence_push_octets(v20.b, v297);
    nd_ndef_diagnostics_sentence_Sentence_push(v20.b, (unsigned char *)nd_data_static_189, 2ULL);
    nd_ndef_diagnostics_sentence_Sentence_push_given(v20.b, v298);
    nd_memcpy(v25.b, v20.b, 200);
    goto L107;
L89:;
    nd_memset(v19.b, 0, 200);
    nd_ndef_diagnostics_sentence_Sentence_new(v19.b);
    nd_ndef_diagnostics_sentence_Sentence_push(v19.b, (unsigned char *)nd_data_static_220, 4ULL);
    v314 = nd_ndef_fields_name_FieldName_text(v296);
    nd_ndef_diagnostics_sentence_Sentence_push(v19.b, v314.f0, v314.f1);
    nd_ndef_diagnostics_sentence_Sentence_push(v19.b, (unsigned char *)nd_data_static_188, 5ULL);
    nd_ndef_diagnostics_sentence_Sentence_push_octets(v19.b, v297);
    nd_ndef_diagnostics_sentence_Sentence_push(v19.b, (unsigned char *)nd_data_static_189, 2ULL);
    nd_ndef_diagnostics_sentence_Sentence_push_left(v19.b, v298);
    nd_memcpy(v25.b, v19.b, 200);
    goto L107;
L90:;
    nd_ndef_diagnostics_sentence_Sentence_of(v25.b, (unsigned char *)nd_data_static_178, 47ULL);
    goto L107;
L91:;
    nd_ndef_diagnostics_sentence_Sentence_of(v25.b, (unsigned char *)nd_data_static_179, 48ULL);
    goto L107;
L92:;
    nd_ndef_diagnostics_sentence_Sentence_of(v25.b, (unsigned char *)nd_data_static_180, 71ULL);
    goto L107;
L93:;
    nd_memset(v18.b, 0, 200);
    nd_ndef_diagnostics_sentence_Sentence_new(v18.b);
    nd_ndef_diagnostics_sentence_Sentence_push_number(v18.b, v297);
    v317 = v297 == 1ULL;
    nd_ndef_diagnostics_sentence_Sentence_push(v18.b, (v317 ? (unsigned char *)nd_data_static_223 : (unsigned char *)nd_data_static_224), (v317 ? 24ULL : 26ULL));
    nd_ndef_diagnostics_sentence_Sentence_push(v18.b, (unsigned char *)nd_data_static_225, 10ULL);
    nd_ndef_diagnostics_sentence_Sentence_push_octets(v18.b, v297);
    nd_ndef_diagnostics_sentence_Sentence_push(v18.b, (unsigned char *)nd_data_static_189, 2ULL);
    nd_ndef_diagnostics_sentence_Sentence_push_left(v18.b, v298);
    nd_memcpy(v25.b, v18.b, 200);
    goto L107;
L94:;
    nd_memset(v17.b, 0, 200);
    nd_ndef_diagnostics_sentence_Sentence_new(v17.b);
    nd_ndef_diagnostics_sentence_Sentence_push(v17.b, (unsigned char *)nd_data_static_226, 25ULL);
    nd_ndef_diagnostics_sentence_Sentence_push_octets(v17.b, v297);
    nd_ndef_diagnostics_sentence_Sentence_push(v17.b, (unsigned char *)nd_data_static_189, 2ULL);
    nd_ndef_diagnostics_sentence_Sentence_push_left(v17.b, v298);
    nd_memcpy(v25.b, v17.b, 200);
    goto L107;
L95:;
    nd_memset(v16.b, 0, 200);
    nd_ndef_diagnostics_sentence_Sentence_new(v16.b);
    nd_ndef_diagnostics_sentence_Sentence_push(v16.b, (unsigned char *)nd_data_static_227, 37ULL);
    nd_ndef_diagnostics_sentence_Sentence_push_octets(v16.b, v297);
    nd_ndef_diagnostics_sentence_Sentence_push(v16.b, (unsigned char *)nd_data_static_189, 2ULL);
    nd_ndef_diagnostics_sentence_Sentence_push_left(v16.b, v298);
    nd_memcpy(v25.b, v16.b, 200);
    goto L107;
L96:;
    nd_memset(v15.b, 0, 200);
    nd_ndef_diagnostics_sentence_Sentence_new(v15.b);
    nd_ndef_diagnostics_sentence_Sentence_push(v15.b, (unsigned char *)nd_data_static_228, 64ULL);
    nd_ndef_diagnostics_sentence_Sentence_push(v15.b, (unsigned char *)nd_data_static_189, 2ULL);
    nd_ndef_diagnostics_sentence_Sentence_push_left(v15.b, v297);
    nd_memcpy(v25.b, v15.b, 200);
    goto L107;
L97:;
    nd_memset(v14.b, 0, 200);
    nd_ndef_diagnostics_sentence_Sentence_new(v14.b);
    nd_ndef_diagnostics_sentence_Sentence_push(v14.b, (unsigned char *)nd_data_static_229, 7ULL);
    nd_ndef_diagnostics_sentence_Sentence_push_number(v14.b, v297);
    nd_ndef_diagnostics_sentence_Sentence_push(v14.b, (unsigned char *)nd_data_static_230, 59ULL);
    nd_memcpy(v25.b, v14.b, 200);
    goto L107;
L98:;
    nd_ndef_diagnostics_sentence_Sentence_of(v13.b, (unsigned char *)nd_data_static_231, 73ULL);
    nd_ndef_diagnostics_sentence_Sentence_push_octets(v13.b, v297);
    nd_ndef_diagnostics_sentence_Sentence_push(v13.b, (unsigned char *)nd_data_static_189, 2ULL);
    nd_ndef_diagnostics_sentence_Sentence_push_left(v13.b, v298);
    nd_memcpy(v25.b, v13.b, 200);
    goto L107;
L99:;
    nd_ndef_diagnostics_sentence_Sentence_of(v12.b, (unsigned char *)nd_data_static_232, 98ULL);
    nd_ndef_diagnostics_sentence_Sentence_push_left(v12.b, v297);
    nd_memcpy(v25.b, v12.b, 200);
    goto L107;
L100:;
    nd_memset(v11.b, 0, 200);
    nd_ndef_diagnostics_sentence_Sentence_new(v11.b);
    nd_ndef_diagnostics_sentence_Sentence_push(v11.b, (unsigned char *)nd_data_static_229, 7ULL);
    nd_ndef_diagnostics_sentence_Sentence_push_number(v11.b, v297);
    nd_ndef_diagnostics_sentence_Sentence_push(v11.b, (unsigned char *)nd_data_static_233, 44ULL);
    nd_memcpy(v25.b, v11.b, 200);
    goto L107;
L101:;
    nd_ndef_diagnostics_sentence_Sentence_of(v25.b, (unsigned char *)nd_data_static_181, 84ULL);
    goto L107;
L102:;
    nd_ndef_diagnostics_sentence_Sentence_of(v10.b, (unsigned char *)nd_data_static_234, 47ULL);
    nd_ndef_diagnostics_sentence_Sentence_push(v10.b, (unsigned char *)nd_data_static_235, 14ULL);
    nd_ndef_diagnostics_sentence_Sentence_push_given(v10.b, v297);
    nd_memcpy(v25.b, v10.b, 200);
    goto L107;
L103:;
    nd_ndef_diagnostics_sentence_Sentence_of(v9.b, (unsigned char *)nd_data_static_234, 47ULL);
    nd_ndef_diagnostics_sentence_Sentence_push(v9.b, (unsigned char *)nd_data_static_236, 19ULL);
    nd_ndef_diagnostics_sentence_Sentence_push_octets(v9.b, v297);
    nd_ndef_diagnostics_sentence_Sentence_push(v9.b, (unsigned char *)nd_data_static_189, 2ULL);
    nd_ndef_diagnostics_sentence_Sentence_push_left(v9.b, v298);
    nd_memcpy(v25.b, v9.b, 200);
    goto L107;
L104:;
    nd_ndef_diagnostics_sentence_Sentence_of(v8.b, (unsigned char *)nd_data_static_234, 47ULL);
    nd_ndef_diagnostics_sentence_Sentence_push(v8.b, (unsigned char *)nd_data_static_237, 29ULL);
    nd_ndef_diagnostics_sentence_Sentence_push_octets(v8.b, v297);
    nd_ndef_diagnostics_sentence_Sentence_push(v8.b, (unsigned char *)nd_data_static_189, 2ULL);
    nd_ndef_diagnostics_sentence_Sentence_push_left(v8.b, v298);
    nd_memcpy(v25.b, v8.b, 200);
    goto L107;
L105:;
    nd_ndef_diagnostics_sentence_Sentence_of(v7.b, (unsigned char *)nd_data_static_238, 100ULL);
    nd_ndef_diagnostics_sentence_Sentence_push_left(v7.b, v297);
    nd_memcpy(v25.b, v7.b, 200);
    goto L107;
L106:;
    nd_stop();
L107:;
    nd_memcpy(v36.b, v25.b, 200);
    nd_memcpy(v34.b, v36.b, 200);
    v322 = nd_ndef_c_buffer_give(v34.b, nd_load_64((v34.b + 192)), v43, v5, v6);
    v323 = v322;
L108:;
    v324 = v323;
L109:;
    return v324;
}

static uint32_t nd_ndef_text_in_utf8(unsigned char *v1, uint64_t v2, unsigned char *v3, uint64_t v4, unsigned char *v5, unsigned char *v6) {
    unsigned char *v14, *v17, *v20, *v53, *v83, *v132, *v185, *v202;
    uint64_t v21, v24, v186, v201, v205, v212, v214;
    uint8_t v22, v29, v92, v173, v174, v182, v200, v211, v213;
    struct nd_ptr_64 v184;
    uint32_t v187, v209, v210, v215;
    ND_ROOM(1) v7;
    ND_ROOM(24) v8, v9, v11;
    ND_ROOM(16) v10;
    v14 = (unsigned char *)((uintptr_t)v1 + (uintptr_t)((v1 == (unsigned char *)0) ? 4096ULL : 0ULL));
    v17 = (unsigned char *)((uintptr_t)v3 + (uintptr_t)((v3 == (unsigned char *)0) ? 4096ULL : 0ULL));
    nd_memset(v11.b, 0, 24);
    if (v2 > 4294967295ULL) { v211 = 23; v212 = 0ULL; goto L39; }
    if (v2 == 0ULL) goto L24;
    v20 = (unsigned char *)((uintptr_t)v14 + 1);
    v21 = v2 + 18446744073709551615ULL;
    v22 = nd_load_8(v14);
    v24 = (uint64_t)(uint8_t)(v22 & 63);
    if (((uint8_t)(v22 & 64) != 0) | (int)(v21 < v24)) goto L24;
    v29 = (int8_t)v22 < (int8_t)0;
    if ((v2 > 64ULL) | v29) goto L22;
    if (!(v2 < 9ULL)) goto L16;
    if (v2 < 5ULL) goto L8;
    if (!(((((((uint32_t)nd_load_8(((unsigned char *)((uintptr_t)v14 + 2))) << 8) | (uint32_t)nd_load_8(v20)) | ((uint32_t)nd_load_8(((unsigned char *)((uintptr_t)v14 + 3))) << 16)) | ((uint32_t)nd_load_8(((unsigned char *)((uintptr_t)v14 + 4))) << 24)) & 2155905152U) == 0U)) goto L22;
    v53 = (unsigned char *)((uintptr_t)v14 + (uintptr_t)v2);
    if (((((((uint32_t)nd_load_8(((unsigned char *)((uintptr_t)v53 - 3))) << 8) | (uint32_t)nd_load_8(((unsigned char *)((uintptr_t)v53 - 4)))) | ((uint32_t)nd_load_8(((unsigned char *)((uintptr_t)v53 - 2))) << 16)) | ((uint32_t)nd_load_8(((unsigned char *)((uintptr_t)v53 - 1))) << 24)) & 2155905152U) == 0U) goto L23;
    goto L22;
L8:;
    switch ((uint32_t)v2) {
    case 1U: goto L23;
    case 2U: goto L9;
    default: goto L10; }
L9:;
    if ((int8_t)nd_load_8(v20) > (int8_t)255) goto L23;
    goto L22;
L10:;
    if (v2 == 4ULL) goto L13;
    if (!((int8_t)nd_load_8(v20) > (int8_t)255)) goto L22;
    if ((int8_t)nd_load_8(((unsigned char *)((uintptr_t)v14 + 2))) > (int8_t)255) goto L23;
    goto L22;
L13:;
    v83 = (unsigned char *)((uintptr_t)v14 + 3);
    if (!((int8_t)nd_load_8(v20) > (int8_t)255)) goto L22;
    if (!((int8_t)nd_load_8(((unsigned char *)((uintptr_t)v14 + 2))) > (int8_t)255)) goto L22;
    if ((int8_t)nd_load_8(v83) > (int8_t)255) goto L23;
    goto L22;
L16:;
    if (!(v2 > 17ULL)) goto L18;
    v92 = nd_ndef_lang_ascii_are_many(v20, v21);
    if (v92) goto L23;
    goto L22;
L18:;
    if (!(((((((uint32_t)nd_load_8(((unsigned char *)((uintptr_t)v14 + 2))) << 8) | (uint32_t)nd_load_8(v20)) | ((uint32_t)nd_load_8(((unsigned char *)((uintptr_t)v14 + 3))) << 16)) | ((uint32_t)nd_load_8(((unsigned char *)((uintptr_t)v14 + 4))) << 24)) & 2155905152U) == 0U)) goto L22;
    if (!(((((((uint32_t)nd_load_8(((unsigned char *)((uintptr_t)v14 + 6))) << 8) | (uint32_t)nd_load_8(((unsigned char *)((uintptr_t)v14 + 5)))) | ((uint32_t)nd_load_8(((unsigned char *)((uintptr_t)v14 + 7))) << 16)) | ((uint32_t)nd_load_8(((unsigned char *)((uintptr_t)v14 + 8))) << 24)) & 2155905152U) == 0U)) goto L22;
    v132 = (unsigned char *)((uintptr_t)v14 + (uintptr_t)v2);
    if (!(((((((uint32_t)nd_load_8(((unsigned char *)((uintptr_t)v132 - 7))) << 8) | (uint32_t)nd_load_8(((unsigned char *)((uintptr_t)v132 - 8)))) | ((uint32_t)nd_load_8(((unsigned char *)((uintptr_t)v132 - 6))) << 16)) | ((uint32_t)nd_load_8(((unsigned char *)((uintptr_t)v132 - 5))) << 24)) & 2155905152U) == 0U)) goto L22;
    if (((((((uint32_t)nd_load_8(((unsigned char *)((uintptr_t)v132 - 3))) << 8) | (uint32_t)nd_load_8(((unsigned char *)((uintptr_t)v132 - 4)))) | ((uint32_t)nd_load_8(((unsigned char *)((uintptr_t)v132 - 2))) << 16)) | ((uint32_t)nd_load_8(((unsigned char *)((uintptr_t)v132 - 1))) << 24)) & 2155905152U) == 0U) goto L23;
L22:;
    v173 = nd_ndef_lang_member_is_coded_text(v24, v29, v20, v21);
    if (!v173) goto L24;
L23:;
    goto L27;
L24:;
    nd_ndef_lang_place_refusal_of(v11.b, 1, 0, v14, v2);
    v174 = nd_load_8(v11.b);
    if (!(v174 == 1)) goto L26;
    v211 = nd_load_8((v11.b + 16));
    v212 = nd_load_64((v11.b + 8));
    goto L39;
L26:;
    if (!(v174 == 0)) { v213 = 0; v214 = 0ULL; goto L40; }
L27:;
    nd_store_ptr(v10.b, v14);
    nd_store_64((v10.b + 8), v2);
    v182 = nd_load_8(v14);
    v184 = nd_ndef_types_text_TextParts_octets(v10.b);
    v185 = v184.f0;
    v186 = v184.f1;
    if (!((int8_t)v182 > (int8_t)255)) goto L29;
    v187 = nd_ndef_c_buffer_give(v185, v186, v17, v4, v5);
    v210 = v187;
    goto L38;
L29:;
    if (v186 < 2ULL) { v200 = 0; v201 = v186; v202 = v185; goto L35; }
    switch (nd_load_8(v185)) {
    case 254: goto L31;
    case 255: goto L33;
    default: { v200 = 0; v201 = v186; v202 = v185; goto L35; } }
L31:;
    if (!(nd_load_8((v185 + 1)) == 255)) { v200 = 0; v201 = v186; v202 = v185; goto L35; }
    v200 = 0;
    v201 = v186 + 18446744073709551614ULL;
    v202 = (unsigned char *)((uintptr_t)v185 + 2);
    goto L35;
L33:;
    if (!(nd_load_8((v185 + 1)) == 254)) { v200 = 0; v201 = v186; v202 = v185; goto L35; }
    v200 = 1;
    v201 = v186 + 18446744073709551614ULL;
    v202 = (unsigned char *)((uintptr_t)v185 + 2);
L35:;
    nd_store_ptr(v8.b, v7.b);
    nd_memset((v8.b + 8), 0, 16);
    nd_ndef_c_utf16_put_in_utf8(v8.b, v200, v202, v201);
    v205 = nd_load_64((v8.b + 16));
    nd_store_64(v5, v205);
    if (v4 < v205) { v209 = 2U; goto L37; }
    nd_store_ptr(v9.b, v17);
    nd_store_64((v9.b + 8), v4);
    nd_store_64((v9.b + 16), 0ULL);
    nd_ndef_c_utf16_put_in_utf8(v9.b, v200, v202, v201);
    v209 = 0U;
L37:;
    v210 = v209;
L38:;
    v215 = v210;
    goto L41;
L39:;
    v213 = v211;
    v214 = v212;
L40:;
    nd_ndef_c_refusal_refuse(v214, v213, v6);
    v215 = 1U;
L41:;
    return v215;
}

static uint32_t nd_ndef_split_uri(unsigned char *v1, uint64_t v2, uint32_t v3, unsigned char *v4, unsigned char *v5) {
    unsigned char *v9, *v14, *v42, *v72, *v121;
    uint8_t v11, v81, v162, v163, v172, v177, v179;
    uint64_t v15, v171, v178, v180;
    uint32_t v181;
    ND_ROOM(24) v6;
    v9 = (unsigned char *)((uintptr_t)v1 + (uintptr_t)((v1 == (unsigned char *)0) ? 4096ULL : 0ULL));
    if (v3 > 1U) { v181 = 3U; goto L32; }
    v11 = (uint8_t)v3;
    nd_memset(v6.b, 0, 24);
    if (v2 > 4294967295ULL) { v177 = 23; v178 = 0ULL; goto L30; }
    if (v2 == 0ULL) goto L25;
    v14 = (unsigned char *)((uintptr_t)v9 + 1);
    v15 = v2 + 18446744073709551615ULL;
    if (!((v3 == 1U) | (int)(nd_load_8(v9) < 36))) goto L25;
    if (!(v2 < 65ULL)) goto L23;
    if (!(v2 < 9ULL)) goto L17;
    if (v2 < 5ULL) goto L9;
    if (!(((((((uint32_t)nd_load_8(((unsigned char *)((uintptr_t)v9 + 2))) << 8) | (uint32_t)nd_load_8(v14)) | ((uint32_t)nd_load_8(((unsigned char *)((uintptr_t)v9 + 3))) << 16)) | ((uint32_t)nd_load_8(((unsigned char *)((uintptr_t)v9 + 4))) << 24)) & 2155905152U) == 0U)) goto L23;
    v42 = (unsigned char *)((uintptr_t)v9 + (uintptr_t)v2);
    if (((((((uint32_t)nd_load_8(((unsigned char *)((uintptr_t)v42 - 3))) << 8) | (uint32_t)nd_load_8(((unsigned char *)((uintptr_t)v42 - 4)))) | ((uint32_t)nd_load_8(((unsigned char *)((uintptr_t)v42 - 2))) << 16)) | ((uint32_t)nd_load_8(((unsigned char *)((uintptr_t)v42 - 1))) << 24)) & 2155905152U) == 0U) goto L24;
    goto L23;
L9:;
    switch ((uint32_t)v2) {
    case 1U: goto L24;
    case 2U: goto L10;
    default: goto L11; }
L10:;
    if ((int8_t)nd_load_8(v14) > (int8_t)255) goto L24;
    goto L23;
L11:;
    if (v2 == 4ULL) goto L14;
    if (!((int8_t)nd_load_8(v14) > (int8_t)255)) goto L23;
    if ((int8_t)nd_load_8(((unsigned char *)((uintptr_t)v9 + 2))) > (int8_t)255) goto L24;
    goto L23;
L14:;
    v72 = (unsigned char *)((uintptr_t)v9 + 3);
    if (!((int8_t)nd_load_8(v14) > (int8_t)255)) goto L23;
    if (!((int8_t)nd_load_8(((unsigned char *)((uintptr_t)v9 + 2))) > (int8_t)255)) goto L23;
    if ((int8_t)nd_load_8(v72) > (int8_t)255) goto L24;
    goto L23;
L17:;
    if (!(v2 > 17ULL)) goto L19;
    v81 = nd_ndef_lang_ascii_are_many(v14, v15);
    if (v81) goto L24;
    goto L23;
L19:;
    if (!(((((((uint32_t)nd_load_8(((unsigned char *)((uintptr_t)v9 + 2))) << 8) | (uint32_t)nd_load_8(v14)) | ((uint32_t)nd_load_8(((unsigned char *)((uintptr_t)v9 + 3))) << 16)) | ((uint32_t)nd_load_8(((unsigned char *)((uintptr_t)v9 + 4))) << 24)) & 2155905152U) == 0U)) goto L23;
    if (!(((((((uint32_t)nd_load_8(((unsigned char *)((uintptr_t)v9 + 6))) << 8) | (uint32_t)nd_load_8(((unsigned char *)((uintptr_t)v9 + 5)))) | ((uint32_t)nd_load_8(((unsigned char *)((uintptr_t)v9 + 7))) << 16)) | ((uint32_t)nd_load_8(((unsigned char *)((uintptr_t)v9 + 8))) << 24)) & 2155905152U) == 0U)) goto L23;
    v121 = (unsigned char *)((uintptr_t)v9 + (uintptr_t)v2);
    if (!(((((((uint32_t)nd_load_8(((unsigned char *)((uintptr_t)v121 - 7))) << 8) | (uint32_t)nd_load_8(((unsigned char *)((uintptr_t)v121 - 8)))) | ((uint32_t)nd_load_8(((unsigned char *)((uintptr_t)v121 - 6))) << 16)) | ((uint32_t)nd_load_8(((unsigned char *)((uintptr_t)v121 - 5))) << 24)) & 2155905152U) == 0U)) goto L23;
    if (((((((uint32_t)nd_load_8(((unsigned char *)((uintptr_t)v121 - 3))) << 8) | (uint32_t)nd_load_8(((unsigned char *)((uintptr_t)v121 - 4)))) | ((uint32_t)nd_load_8(((unsigned char *)((uintptr_t)v121 - 2))) << 16)) | ((uint32_t)nd_load_8(((unsigned char *)((uintptr_t)v121 - 1))) << 24)) & 2155905152U) == 0U) goto L24;
L23:;
    v162 = nd_ndef_lang_member_is_long_utf8(v14, v15);
    if (!v162) goto L25;
L24:;
    v171 = v15;
    goto L29;
L25:;
    nd_ndef_lang_place_refusal_of(v6.b, 2, v11, v9, v2);
    v163 = nd_load_8(v6.b);
    if (!(v163 == 1)) goto L27;
    v177 = nd_load_8((v6.b + 16));
    v178 = nd_load_64((v6.b + 8));
    goto L30;
L27:;
    if (!(v163 == 0)) { v179 = 0; v180 = 0ULL; goto L31; }
    v171 = v2 + 18446744073709551615ULL;
L29:;
    v172 = nd_load_8(v9);
    nd_store_64(v4, 1ULL);
    nd_store_64((v4 + 8), v171);
    nd_store_32((v4 + 16), (uint32_t)v172);
    nd_store_32((v4 + 20), 0U);
    v181 = 0U;
    goto L32;
L30:;
    v179 = v177;
    v180 = v178;
L31:;
    nd_ndef_c_refusal_refuse(v180, v179, v5);
    v181 = 1U;
L32:;
    return v181;
}

static uint32_t nd_ndef_write_poster(unsigned char *v1, uint64_t v2, unsigned char *v3, unsigned char *v4, uint64_t v5, unsigned char *v6, uint64_t v7, unsigned char *v8, uint64_t v9, unsigned char *v10) {
    unsigned char *v29, *v32, *v35, *v38, *v51, *v52, *v83, *v90;
    uint32_t v46, v50, v92, v126, v127;
    uint64_t v57, v60;
    uint8_t v75, v82, v89, v102;
    ND_ROOM(104) v11;
    ND_ROOM(24) v12, v13, v19;
    ND_ROOM(48) v14;
    ND_ROOM(96) v15, v23, v24, v25, v26;
    ND_ROOM(112) v16, v17, v18;
    ND_ROOM(56) v20;
    ND_ROOM(5) v21;
    ND_ROOM(624) v22;
    v29 = (unsigned char *)((uintptr_t)v1 + (uintptr_t)((v1 == (unsigned char *)0) ? 4096ULL : 0ULL));
    v32 = (unsigned char *)((uintptr_t)v4 + (uintptr_t)((v4 == (unsigned char *)0) ? 4096ULL : 0ULL));
    v35 = (unsigned char *)((uintptr_t)v6 + (uintptr_t)((v6 == (unsigned char *)0) ? 4096ULL : 0ULL));
    v38 = (unsigned char *)((uintptr_t)v8 + (uintptr_t)((v8 == (unsigned char *)0) ? 4096ULL : 0ULL));
    nd_memset(v22.b, 0, 624);
    nd_memset(v23.b, 0, 96);
    nd_memset(v24.b, 0, 96);
    nd_memset(v25.b, 0, 96);
    nd_memset(v26.b, 0, 96);
    nd_store_ptr(v20.b, v29);
    nd_store_64((v20.b + 8), v2);
    nd_store_ptr((v20.b + 16), v3);
    nd_store_ptr((v20.b + 24), v32);
    nd_store_64((v20.b + 32), v5);
    nd_store_ptr((v20.b + 40), v35);
    nd_store_64((v20.b + 48), v7);
    v46 = nd_load_32(((unsigned char *)((uintptr_t)v3 + 40)));
    v50 = nd_bswap_i32(nd_load_32(((unsigned char *)((uintptr_t)v3 + 48))));
    nd_store_8(v21.b, (uint8_t)v46);
    v51 = v21.b + 1;
    nd_store_32(v51, v50);
    nd_memset(v16.b, 0, 112);
    nd_memset(v17.b, 0, 112);
    nd_memset(v18.b, 0, 112);
    nd_memset(v19.b, 0, 24);
    v52 = (unsigned char *)((uintptr_t)v3 + 36);
    if (!((v46 < 256U) | (int)(nd_load_32(v52) != 1U))) goto L10;
    v57 = nd_load_64(v3);
    if (v2 < v57) goto L10;
    v60 = nd_load_64(((unsigned char *)((uintptr_t)v3 + 8)));
    if ((v2 - v57) < v60) goto L10;
    nd_memset(v12.b, 0, 24);
    nd_memset(v13.b, 0, 24);
    nd_store_64(v14.b, 2ULL);
    nd_simdutf8_basic_from_utf8(v12.b, ((unsigned char *)((uintptr_t)v29 + (uintptr_t)v57)), v60);
    if (nd_load_8(v12.b) == 0) goto L5;
    goto L10;
L5:;
    nd_ndef_types_prefixes_split(v13.b, nd_load_ptr((v12.b + 8)), nd_load_64((v12.b + 16)));
    nd_store_8((v14.b + 1), nd_load_8(v13.b));
    nd_memcpy((v14.b + 8), (v13.b + 8), 16);
    nd_memset((v14.b + 24), 0, 24);
    nd_ndef_c_poster_parts_known_made(v11.b, 2, v14.b);
    v75 = nd_load_8(v11.b);
    nd_memcpy(v15.b, (v11.b + 8), 96);
    if (!(v75 == 1)) goto L10;
    nd_ndef_c_poster_writing_asked_series(v16.b, nd_load_32(v52), 7, v21.b, 1ULL);
    if (!(nd_load_8(v16.b) == 1)) goto L10;
    v82 = nd_load_8((v16.b + 8));
    v83 = v16.b + 16;
    nd_ndef_c_poster_writing_asked_series(v17.b, nd_load_32(((unsigned char *)((uintptr_t)v3 + 44))), 8, v51, 4ULL);
    if (!(nd_load_8(v17.b) == 1)) goto L10;
    v89 = nd_load_8((v17.b + 8));
    v90 = v17.b + 16;
    v92 = nd_load_32(((unsigned char *)((uintptr_t)v3 + 32)));
    nd_ndef_c_poster_writing_media_octets(v19.b, v20.b);
    if (!(nd_load_8(v19.b) == 1)) goto L10;
    nd_ndef_c_poster_writing_asked_series(v18.b, v92, 9, nd_load_ptr((v19.b + 8)), nd_load_64((v19.b + 16)));
    if (nd_load_8(v18.b) == 1) goto L11;
L10:;
    v127 = 3U;
    goto L12;
L11:;
    v102 = nd_load_8((v18.b + 8));
    nd_memcpy(v23.b, v15.b, 96);
    nd_memcpy(v24.b, v83, 96);
    nd_memcpy(v25.b, v90, 96);
    nd_memcpy(v26.b, (v18.b + 16), 96);
    nd_store_64(v22.b, 1ULL);
    nd_memcpy((v22.b + 8), v23.b, 96);
    nd_store_64((v22.b + 104), 2ULL);
    nd_store_ptr((v22.b + 112), v29);
    nd_store_64((v22.b + 120), v2);
    nd_store_ptr((v22.b + 128), v32);
    nd_store_64((v22.b + 136), v5);
    nd_memset((v22.b + 144), 0, 64);
    nd_store_64((v22.b + 208), (uint64_t)v82);
    nd_memcpy((v22.b + 216), v24.b, 96);
    nd_store_64((v22.b + 312), (uint64_t)v89);
    nd_memcpy((v22.b + 320), v25.b, 96);
    nd_store_64((v22.b + 416), (uint64_t)v102);
    nd_memcpy((v22.b + 424), v26.b, 96);
    nd_store_64((v22.b + 520), 3ULL);
    nd_store_ptr((v22.b + 528), v29);
    nd_store_64((v22.b + 536), v2);
    nd_store_ptr((v22.b + 544), v35);
    nd_store_64((v22.b + 552), v7);
    nd_memset((v22.b + 560), 0, 64);
    v126 = nd_ndef_c_series_writing_give_message((unsigned char *)nd_data_static_50, 0ULL, v22.b, 6ULL, v38, v9, v10);
    v127 = v126;
L12:;
    return v127;
}

static uint32_t nd_ndef_poster(unsigned char *v1, uint64_t v2, uint32_t v3, unsigned char *v4, unsigned char *v5) {
    unsigned char *v12, *v43;
    uint8_t v14, v16, v17, v30, v37, v74, v76;
    uint64_t v27, v29, v75, v77;
    uint32_t v36, v61, v62, v78;
    ND_ROOM(32) v6, v7, v8;
    ND_ROOM(24) v9;
    v12 = (unsigned char *)((uintptr_t)v1 + (uintptr_t)((v1 == (unsigned char *)0) ? 4096ULL : 0ULL));
    if (v3 > 1U) { v78 = 3U; goto L18; }
    v14 = (uint8_t)v3;
    if (v2 > 4294967295ULL) { v74 = 23; v75 = 0ULL; goto L16; }
    v16 = nd_ndef_nest_member_is_nested(0, 65535U, v14, v12, v2);
    if (!v16) goto L4;
    goto L7;
L4:;
    nd_ndef_lang_place_refusal_of_2(v9.b, 3, v14, v12, v2);
    v17 = nd_load_8(v9.b);
    if (!(v17 == 1)) goto L6;
    v74 = nd_load_8((v9.b + 16));
    v75 = nd_load_64((v9.b + 8));
    goto L16;
L6:;
    if (!(v17 == 0)) { v76 = 0; v77 = 0ULL; goto L17; }
L7:;
    nd_memset(v8.b, 0, 32);
    nd_ndef_c_nested_first_of(v8.b, 0, v12, v2, 2);
    if (nd_load_8(v8.b) == 1) goto L9;
    nd_stop();
L9:;
    v27 = nd_load_64((v8.b + 8));
    v29 = nd_load_64((v8.b + 24));
    nd_memset(v7.b, 0, 32);
    nd_ndef_c_nested_first_of(v7.b, 0, v12, v2, 7);
    v30 = nd_load_8(v7.b);
    if (!(v30 == 1)) { v36 = 0U; goto L11; }
    v36 = (uint32_t)nd_load_8(nd_load_ptr((v7.b + 16)));
L11:;
    nd_memset(v6.b, 0, 32);
    nd_ndef_c_nested_first_of(v6.b, 0, v12, v2, 8);
    v37 = nd_load_8(v6.b);
    if (!(v37 == 1)) { v62 = 0U; goto L15; }
    if (nd_load_64((v6.b + 24)) == 4ULL) goto L14;
    nd_stop();
L14:;
    v43 = nd_load_ptr((v6.b + 16));
    v61 = nd_bswap_i32((((((uint32_t)nd_load_8(((unsigned char *)((uintptr_t)v43 + 1))) << 8) | (uint32_t)nd_load_8(v43)) | ((uint32_t)nd_load_8(((unsigned char *)((uintptr_t)v43 + 2))) << 16)) | ((uint32_t)nd_load_8(((unsigned char *)((uintptr_t)v43 + 3))) << 24)));
    v62 = v61;
L15:;
    nd_store_64(v4, v27);
    nd_store_64((v4 + 8), v29);
    nd_store_32((v4 + 16), (uint32_t)v30);
    nd_store_32((v4 + 20), ((uint8_t)(v30 & 1) ? v36 : 0U));
    nd_store_32((v4 + 24), (uint32_t)v37);
    nd_store_32((v4 + 28), ((uint8_t)(v37 & 1) ? v62 : 0U));
    v78 = 0U;
    goto L18;
L16:;
    v76 = v74;
    v77 = v75;
L17:;
    nd_ndef_c_refusal_refuse(v77, v76, v5);
    v78 = 1U;
L18:;
    return v78;
}

static uint32_t nd_ndef_text(unsigned char *v1, uint64_t v2, unsigned char *v3, unsigned char *v4) {
    unsigned char *v9, *v12, *v45, *v75, *v124;
    uint64_t v13, v16, v174, v176;
    uint8_t v14, v21, v84, v165, v166, v173, v175;
    uint32_t v177;
    ND_ROOM(24) v5;
    ND_ROOM(40) v6;
    v9 = (unsigned char *)((uintptr_t)v1 + (uintptr_t)((v1 == (unsigned char *)0) ? 4096ULL : 0ULL));
    nd_memset(v5.b, 0, 24);
    if (v2 > 4294967295ULL) { v173 = 23; v174 = 0ULL; goto L28; }
    if (v2 == 0ULL) goto L24;
    v12 = (unsigned char *)((uintptr_t)v9 + 1);
    v13 = v2 + 18446744073709551615ULL;
    v14 = nd_load_8(v9);
    v16 = (uint64_t)(uint8_t)(v14 & 63);
    if (((uint8_t)(v14 & 64) != 0) | (int)(v13 < v16)) goto L24;
    v21 = (int8_t)v14 < (int8_t)0;
    if ((v2 > 64ULL) | v21) goto L22;
    if (!(v2 < 9ULL)) goto L16;
    if (v2 < 5ULL) goto L8;
    if (!(((((((uint32_t)nd_load_8(((unsigned char *)((uintptr_t)v9 + 2))) << 8) | (uint32_t)nd_load_8(v12)) | ((uint32_t)nd_load_8(((unsigned char *)((uintptr_t)v9 + 3))) << 16)) | ((uint32_t)nd_load_8(((unsigned char *)((uintptr_t)v9 + 4))) << 24)) & 2155905152U) == 0U)) goto L22;
    v45 = (unsigned char *)((uintptr_t)v9 + (uintptr_t)v2);
    if (((((((uint32_t)nd_load_8(((unsigned char *)((uintptr_t)v45 - 3))) << 8) | (uint32_t)nd_load_8(((unsigned char *)((uintptr_t)v45 - 4)))) | ((uint32_t)nd_load_8(((unsigned char *)((uintptr_t)v45 - 2))) << 16)) | ((uint32_t)nd_load_8(((unsigned char *)((uintptr_t)v45 - 1))) << 24)) & 2155905152U) == 0U) goto L23;
    goto L22;
L8:;
    switch ((uint32_t)v2) {
    case 1U: goto L23;
    case 2U: goto L9;
    default: goto L10; }
L9:;
    if ((int8_t)nd_load_8(v12) > (int8_t)255) goto L23;
    goto L22;
L10:;
    if (v2 == 4ULL) goto L13;
    if (!((int8_t)nd_load_8(v12) > (int8_t)255)) goto L22;
    if ((int8_t)nd_load_8(((unsigned char *)((uintptr_t)v9 + 2))) > (int8_t)255) goto L23;
    goto L22;
L13:;
    v75 = (unsigned char *)((uintptr_t)v9 + 3);
    if (!((int8_t)nd_load_8(v12) > (int8_t)255)) goto L22;
    if (!((int8_t)nd_load_8(((unsigned char *)((uintptr_t)v9 + 2))) > (int8_t)255)) goto L22;
    if ((int8_t)nd_load_8(v75) > (int8_t)255) goto L23;
    goto L22;
L16:;
    if (!(v2 > 17ULL)) goto L18;
    v84 = nd_ndef_lang_ascii_are_many(v12, v13);
    if (v84) goto L23;
    goto L22;
L18:;
    if (!(((((((uint32_t)nd_load_8(((unsigned char *)((uintptr_t)v9 + 2))) << 8) | (uint32_t)nd_load_8(v12)) | ((uint32_t)nd_load_8(((unsigned char *)((uintptr_t)v9 + 3))) << 16)) | ((uint32_t)nd_load_8(((unsigned char *)((uintptr_t)v9 + 4))) << 24)) & 2155905152U) == 0U)) goto L22;
    if (!(((((((uint32_t)nd_load_8(((unsigned char *)((uintptr_t)v9 + 6))) << 8) | (uint32_t)nd_load_8(((unsigned char *)((uintptr_t)v9 + 5)))) | ((uint32_t)nd_load_8(((unsigned char *)((uintptr_t)v9 + 7))) << 16)) | ((uint32_t)nd_load_8(((unsigned char *)((uintptr_t)v9 + 8))) << 24)) & 2155905152U) == 0U)) goto L22;
    v124 = (unsigned char *)((uintptr_t)v9 + (uintptr_t)v2);
    if (!(((((((uint32_t)nd_load_8(((unsigned char *)((uintptr_t)v124 - 7))) << 8) | (uint32_t)nd_load_8(((unsigned char *)((uintptr_t)v124 - 8)))) | ((uint32_t)nd_load_8(((unsigned char *)((uintptr_t)v124 - 6))) << 16)) | ((uint32_t)nd_load_8(((unsigned char *)((uintptr_t)v124 - 5))) << 24)) & 2155905152U) == 0U)) goto L22;
    if (((((((uint32_t)nd_load_8(((unsigned char *)((uintptr_t)v124 - 3))) << 8) | (uint32_t)nd_load_8(((unsigned char *)((uintptr_t)v124 - 4)))) | ((uint32_t)nd_load_8(((unsigned char *)((uintptr_t)v124 - 2))) << 16)) | ((uint32_t)nd_load_8(((unsigned char *)((uintptr_t)v124 - 1))) << 24)) & 2155905152U) == 0U) goto L23;
L22:;
    v165 = nd_ndef_lang_member_is_coded_text(v16, v21, v12, v13);
    if (!v165) goto L24;
L23:;
    goto L27;
L24:;
    nd_ndef_lang_place_refusal_of(v5.b, 1, 0, v9, v2);
    v166 = nd_load_8(v5.b);
    if (!(v166 == 1)) goto L26;
    v173 = nd_load_8((v5.b + 16));
    v174 = nd_load_64((v5.b + 8));
    goto L28;
L26:;
    if (!(v166 == 0)) { v175 = 0; v176 = 0ULL; goto L29; }
L27:;
    nd_ndef_c_text_text_at(v6.b, v9, v2);
    nd_memcpy(v3, v6.b, 40);
    v177 = 0U;
    goto L30;
L28:;
    v175 = v173;
    v176 = v174;
L29:;
    nd_ndef_c_refusal_refuse(v176, v175, v4);
    v177 = 1U;
L30:;
    return v177;
}

static uint32_t nd_ndef_title(unsigned char *v1, uint64_t v2, unsigned char *v3, uint64_t v4, unsigned char *v5) {
    unsigned char *v12, *v15, *v19, *v20, *v21, *v22, *v23, *v24;
    uint8_t v16, v33, v37;
    uint32_t v27, v40;
    uint64_t v34, v35;
    ND_ROOM(32) v6;
    ND_ROOM(96) v7;
    ND_ROOM(40) v8;
    ND_ROOM(24) v9;
    v12 = (unsigned char *)((uintptr_t)v1 + (uintptr_t)((v1 == (unsigned char *)0) ? 4096ULL : 0ULL));
    v15 = (unsigned char *)((uintptr_t)v3 + (uintptr_t)((v3 == (unsigned char *)0) ? 4096ULL : 0ULL));
    v16 = nd_ndef_c_titles_is_poster(v12, v2);
    if (!v16) { v40 = 3U; goto L10; }
    nd_store_ptr(v6.b, v12);
    nd_store_64((v6.b + 8), v2);
    v19 = v7.b + 8;
    v20 = v8.b + 8;
    v21 = v8.b + 16;
    nd_memset((v6.b + 16), 0, 16);
    v22 = v7.b + 88;
    v23 = v7.b + 32;
    v24 = v7.b + 24;
L2:;
    nd_ndef_c_walk_WalkIterator_next(v7.b, v6.b);
    if (!(nd_load_8(v7.b) == 1)) goto L8;
    v27 = nd_load_32(v22);
    if (v27 < 6U) goto L5;
    nd_stop();
L5:;
    v33 = nd_ndef_c_titles_is_title((uint8_t)v27, ((unsigned char *)((uintptr_t)v12 + (uintptr_t)nd_load_64(v24))), nd_load_64(v23));
    if (!v33) goto L7;
    nd_ndef_c_titles_text_of(v8.b, v12, v19);
    v34 = nd_load_64(v8.b);
    v35 = nd_load_64(v20);
    v37 = nd_core_str_ascii_slice_u8_eq_ignore_ascii_case(((unsigned char *)((uintptr_t)v12 + (uintptr_t)v34)), v35, v15, v4);
    if (v37) goto L9;
L7:;
    goto L2;
L8:;
    v40 = 4U;
    goto L10;
L9:;
    nd_memcpy(v9.b, v21, 24);
    nd_store_64(v5, v34);
    nd_store_64((v5 + 8), v35);
    nd_memcpy((v5 + 16), v9.b, 24);
    v40 = 0U;
L10:;
    return v40;
}

static uint32_t nd_ndef_items(unsigned char *v1, uint64_t v2, unsigned char *v3, unsigned char *v4, unsigned char *v5, uint64_t v6) {
    unsigned char *v14, *v17, *v21, *v31, *v32, *v48, *v49;
    uint32_t v25, v42, v59;
    uint64_t v29, v33, v34, v38, v46, v50, v51, v55;
    ND_ROOM(96) v7, v9;
    ND_ROOM(64) v8, v10;
    ND_ROOM(24) v11;
    v14 = (unsigned char *)((uintptr_t)v1 + (uintptr_t)((v1 == (unsigned char *)0) ? 4096ULL : 0ULL));
    v17 = (unsigned char *)((uintptr_t)v5 + (uintptr_t)((v5 == (unsigned char *)0) ? 4096ULL : 0ULL));
    if (v2 > 4294967295ULL) { v59 = 3U; goto L19; }
    nd_ndef_c_limits_limits_of(v11.b, v3);
    if (!(nd_load_8(v11.b) == 1)) { v59 = 3U; goto L19; }
    v21 = v11.b + 4;
    if (!(uint8_t)(nd_load_8((v11.b + 20)) & 1)) goto L11;
    v25 = nd_ndef_c_checking_check_in(v14, v2, v21, v4);
    if (!(v25 == 0U)) { v59 = 1U; goto L19; }
    v29 = (uint64_t)nd_load_32(((unsigned char *)((uintptr_t)v4 + 8)));
    if (v6 < v29) { v59 = 2U; goto L19; }
    v31 = v9.b + 8;
    v32 = v9.b + 16;
    v33 = 0ULL;
    v34 = 0ULL;
L6:;
    if (v33 == v29) goto L10;
    nd_ndef_c_record_record_at(v9.b, v14, v2, v34);
    if (!(nd_load_8(v9.b) == 1)) goto L9;
    v38 = nd_load_64(v32);
    nd_ndef_c_items_item_of(v10.b, v14, v2, v31, 1);
    nd_memcpy((v17 + (ptrdiff_t)(v33 << 6)), v10.b, 64);
    v33 = v33 + 1ULL;
    v34 = v38;
    goto L6;
L9:;
    nd_stop();
L10:;
    v59 = 0U;
    goto L19;
L11:;
    v42 = nd_ndef_c_checking_check_in_2(v14, v2, v21, v4);
    if (!(v42 == 0U)) { v59 = 1U; goto L19; }
    v46 = (uint64_t)nd_load_32(((unsigned char *)((uintptr_t)v4 + 8)));
    if (v6 < v46) { v59 = 2U; goto L19; }
    v48 = v7.b + 8;
    v49 = v7.b + 16;
    v50 = 0ULL;
    v51 = 0ULL;
L14:;
    if (v50 == v46) goto L18;
    nd_ndef_c_record_record_at(v7.b, v14, v2, v51);
    if (!(nd_load_8(v7.b) == 1)) goto L17;
    v55 = nd_load_64(v49);
    nd_ndef_c_items_item_of(v8.b, v14, v2, v48, 0);
    nd_memcpy((v17 + (ptrdiff_t)(v50 << 6)), v8.b, 64);
    v50 = v50 + 1ULL;
    v51 = v55;
    goto L14;
L17:;
    nd_stop();
L18:;
    v59 = 0U;
L19:;
    return v59;
}

static uint32_t nd_ndef_write_request(uint32_t v1, uint32_t v2, unsigned char *v3, uint64_t v4, unsigned char *v5, uint64_t v6, unsigned char *v7, uint64_t v8, unsigned char *v9, uint64_t v10, unsigned char *v11) {
    unsigned char *v19, *v22, *v25, *v28;
    uint16_t v33;
    uint32_t v50, v51;
    ND_ROOM(2) v12;
    ND_ROOM(48) v13;
    ND_ROOM(208) v14;
    ND_ROOM(104) v15;
    ND_ROOM(1) v16;
    v19 = (unsigned char *)((uintptr_t)v3 + (uintptr_t)((v3 == (unsigned char *)0) ? 4096ULL : 0ULL));
    v22 = (unsigned char *)((uintptr_t)v5 + (uintptr_t)((v5 == (unsigned char *)0) ? 4096ULL : 0ULL));
    v25 = (unsigned char *)((uintptr_t)v7 + (uintptr_t)((v7 == (unsigned char *)0) ? 4096ULL : 0ULL));
    v28 = (unsigned char *)((uintptr_t)v9 + (uintptr_t)((v9 == (unsigned char *)0) ? 4096ULL : 0ULL));
    nd_memset(v13.b, 0, 48);
    if ((v1 > 15U) | (int)(v2 > 65535U)) { v51 = 3U; goto L4; }
    v33 = nd_bswap_i16((uint16_t)v2);
    nd_store_16(v12.b, v33);
    nd_store_8(v13.b, 5);
    nd_store_ptr((v13.b + 8), v12.b);
    nd_store_64((v13.b + 16), 2ULL);
    nd_ndef_c_poster_parts_known_made(v15.b, 11, v13.b);
    if (!(nd_load_8(v15.b) == 1)) goto L3;
    nd_store_64(v14.b, 1ULL);
    nd_memcpy((v14.b + 8), (v15.b + 8), 96);
    nd_store_64((v14.b + 104), 4ULL);
    nd_store_ptr((v14.b + 112), v19);
    nd_store_64((v14.b + 120), v4);
    nd_store_ptr((v14.b + 128), v22);
    nd_store_64((v14.b + 136), v6);
    nd_store_ptr((v14.b + 144), v25);
    nd_store_64((v14.b + 152), v8);
    nd_memset((v14.b + 160), 0, 48);
    nd_store_8(v16.b, (uint8_t)((uint8_t)v1 | 16));
    v50 = nd_ndef_c_series_writing_give_message(v16.b, 1ULL, v14.b, 2ULL, v28, v10, v11);
    v51 = v50;
    goto L4;
L3:;
    nd_stop();
L4:;
    return v51;
}

static uint32_t nd_ndef_write_select(unsigned char *v1, unsigned char *v2, uint64_t v3, unsigned char *v4, uint64_t v5, unsigned char *v6, uint64_t v7, unsigned char *v8, uint64_t v9, unsigned char *v10) {
    unsigned char *v18, *v21, *v24, *v27, *v28;
    uint32_t v29, v40, v52, v65, v66;
    uint64_t v33, v36, v53;
    uint8_t v41;
    ND_ROOM(96) v11;
    ND_ROOM(104) v12;
    ND_ROOM(48) v13;
    ND_ROOM(1) v14;
    ND_ROOM(208) v15;
    v18 = (unsigned char *)((uintptr_t)v2 + (uintptr_t)((v2 == (unsigned char *)0) ? 4096ULL : 0ULL));
    v21 = (unsigned char *)((uintptr_t)v4 + (uintptr_t)((v4 == (unsigned char *)0) ? 4096ULL : 0ULL));
    v24 = (unsigned char *)((uintptr_t)v6 + (uintptr_t)((v6 == (unsigned char *)0) ? 4096ULL : 0ULL));
    v27 = (unsigned char *)((uintptr_t)v8 + (uintptr_t)((v8 == (unsigned char *)0) ? 4096ULL : 0ULL));
    v28 = (unsigned char *)((uintptr_t)v1 + 16);
    v29 = nd_load_32(v28);
    if (v29 > 15U) { v66 = 3U; goto L11; }
    nd_store_64(v13.b, 4ULL);
    switch (nd_load_32(((unsigned char *)((uintptr_t)v1 + 20)))) {
    case 0U: goto L2;
    case 1U: goto L3;
    default: goto L9; }
L2:;
    nd_memset(v11.b, 0, 96);
    v52 = v29;
    v53 = 0ULL;
    goto L10;
L3:;
    v33 = nd_load_64(v1);
    if (v3 < v33) goto L8;
    v36 = nd_load_64(((unsigned char *)((uintptr_t)v1 + 8)));
    if ((v3 - v33) < v36) goto L8;
    v40 = nd_load_32(((unsigned char *)((uintptr_t)v1 + 24)));
    v41 = nd_ndef_c_error_writing_may_be_error(v40, v36);
    if (!v41) goto L8;
    nd_store_8((v13.b + 1), (uint8_t)v40);
    nd_store_ptr((v13.b + 8), ((unsigned char *)((uintptr_t)v18 + (uintptr_t)v33)));
    nd_store_64((v13.b + 16), v36);
    nd_memset((v13.b + 24), 0, 24);
    nd_ndef_c_poster_parts_known_made(v12.b, 12, v13.b);
    if (!(nd_load_8(v12.b) == 1)) goto L8;
    nd_memcpy(v11.b, (v12.b + 8), 96);
    v52 = nd_load_32(v28);
    v53 = 1ULL;
    goto L10;
L8:;
    v66 = 3U;
    goto L11;
L9:;
    v66 = 3U;
    goto L11;
L10:;
    nd_store_8(v14.b, (uint8_t)((uint8_t)v52 + 16));
    nd_store_64(v15.b, 4ULL);
    nd_store_ptr((v15.b + 8), v18);
    nd_store_64((v15.b + 16), v3);
    nd_store_ptr((v15.b + 24), v21);
    nd_store_64((v15.b + 32), v5);
    nd_store_ptr((v15.b + 40), v24);
    nd_store_64((v15.b + 48), v7);
    nd_memset((v15.b + 56), 0, 48);
    nd_store_64((v15.b + 104), v53);
    nd_memcpy((v15.b + 112), v11.b, 96);
    v65 = nd_ndef_c_series_writing_give_message(v14.b, 1ULL, v15.b, 2ULL, v27, v9, v10);
    v66 = v65;
L11:;
    return v66;
}

static uint32_t nd_ndef_link_at(unsigned char *v1, uint64_t v2, unsigned char *v3, uint64_t v4, uint64_t v5, unsigned char *v6) {
    unsigned char *v13, *v16, *v22, *v26;
    uint8_t v17, v18, v30;
    uint64_t v27;
    uint32_t v33, v34;
    ND_ROOM(32) v7, v10;
    ND_ROOM(96) v8;
    ND_ROOM(40) v9;
    v13 = (unsigned char *)((uintptr_t)v1 + (uintptr_t)((v1 == (unsigned char *)0) ? 4096ULL : 0ULL));
    v16 = (unsigned char *)((uintptr_t)v3 + (uintptr_t)((v3 == (unsigned char *)0) ? 4096ULL : 0ULL));
    v17 = nd_ndef_c_handover_is_handover(v16, v4);
    if (!v17) { v34 = 3U; goto L10; }
    v18 = nd_ndef_c_message_has_message(v13, v2);
    if (!v18) { v34 = 3U; goto L10; }
    nd_store_ptr(v10.b, v13);
    nd_store_64((v10.b + 8), v2);
    nd_store_ptr((v10.b + 16), v16);
    nd_store_64((v10.b + 24), v4);
    nd_memset(v9.b, 0, 40);
    v22 = (unsigned char *)((uintptr_t)v16 + 1);
    nd_store_ptr(v7.b, v22);
    nd_store_64((v7.b + 8), (v4 + 18446744073709551615ULL));
    v26 = v8.b + 8;
    nd_memset((v7.b + 16), 0, 16);
    v27 = v5;
L3:;
L4:;
    nd_ndef_c_walk_WalkIterator_next(v8.b, v7.b);
    if (!(nd_load_8(v8.b) == 1)) { v33 = 4U; goto L9; }
    v30 = nd_ndef_c_query_wants(v22, v26);
    if (!v30) goto L4;
    if (!(v27 == 0ULL)) goto L8;
    nd_ndef_c_links_LinksRecordQuery_given(v9.b, v10.b, v26);
    nd_memcpy(v6, v9.b, 40);
    v33 = 0U;
    goto L9;
L8:;
    v27 = v27 + 18446744073709551615ULL;
    goto L3;
L9:;
    v34 = v33;
L10:;
    return v34;
}

static uint32_t nd_ndef_request(unsigned char *v1, uint64_t v2, uint32_t v3, unsigned char *v4, unsigned char *v5) {
    unsigned char *v10, *v22, *v35;
    uint8_t v12, v14, v15, v24, v37, v38, v47, v49;
    uint64_t v23, v25, v48, v50;
    uint32_t v31, v51;
    ND_ROOM(32) v6;
    ND_ROOM(24) v7;
    v10 = (unsigned char *)((uintptr_t)v1 + (uintptr_t)((v1 == (unsigned char *)0) ? 4096ULL : 0ULL));
    if (v3 > 1U) { v51 = 3U; goto L14; }
    v12 = (uint8_t)v3;
    if (v2 > 4294967295ULL) { v47 = 23; v48 = 0ULL; goto L12; }
    v14 = nd_ndef_nest_member_is_nested(1, 65535U, v12, v10, v2);
    if (!v14) goto L4;
    goto L7;
L4:;
    nd_ndef_lang_place_refusal_of_2(v7.b, 4, v12, v10, v2);
    v15 = nd_load_8(v7.b);
    if (!(v15 == 1)) goto L6;
    v47 = nd_load_8((v7.b + 16));
    v48 = nd_load_64((v7.b + 8));
    goto L12;
L6:;
    if (!(v15 == 0)) { v49 = 0; v50 = 0ULL; goto L13; }
L7:;
    v22 = (unsigned char *)((uintptr_t)v10 + 1);
    v23 = v2 + 18446744073709551615ULL;
    v24 = nd_load_8(v10);
    v25 = nd_ndef_c_nested_alternatives_in(v22, v23);
    nd_memset(v6.b, 0, 32);
    nd_ndef_c_nested_first_of(v6.b, 1, v22, v23, 11);
    if (!(nd_load_8(v6.b) == 1)) goto L10;
    if (nd_load_64((v6.b + 24)) == 2ULL) goto L11;
    nd_stop();
L10:;
    nd_stop();
L11:;
    v31 = (uint32_t)v24;
    v35 = nd_load_ptr((v6.b + 16));
    v37 = nd_load_8(v35);
    v38 = nd_load_8(((unsigned char *)((uintptr_t)v35 + 1)));
    nd_store_64(v4, v25);
    nd_store_32((v4 + 8), (v31 >> 4));
    nd_store_32((v4 + 12), (v31 & 15U));
    nd_store_32((v4 + 16), (((uint32_t)v37 << 8) | (uint32_t)v38));
    nd_store_32((v4 + 20), 0U);
    v51 = 0U;
    goto L14;
L12:;
    v49 = v47;
    v50 = v48;
L13:;
    nd_ndef_c_refusal_refuse(v50, v49, v5);
    v51 = 1U;
L14:;
    return v51;
}

static uint32_t nd_ndef_select(unsigned char *v1, uint64_t v2, uint32_t v3, unsigned char *v4, unsigned char *v5) {
    unsigned char *v10, *v23;
    uint8_t v12, v14, v15, v22, v51, v53;
    uint64_t v24, v39, v40, v44, v52, v54;
    uint32_t v37, v38, v41, v55;
    ND_ROOM(32) v6;
    ND_ROOM(24) v7;
    v10 = (unsigned char *)((uintptr_t)v1 + (uintptr_t)((v1 == (unsigned char *)0) ? 4096ULL : 0ULL));
    if (v3 > 1U) { v55 = 3U; goto L12; }
    v12 = (uint8_t)v3;
    if (v2 > 4294967295ULL) { v51 = 23; v52 = 0ULL; goto L10; }
    v14 = nd_ndef_nest_member_is_nested(2, 65535U, v12, v10, v2);
    if (!v14) goto L4;
    goto L7;
L4:;
    nd_ndef_lang_place_refusal_of_2(v7.b, 5, v12, v10, v2);
    v15 = nd_load_8(v7.b);
    if (!(v15 == 1)) goto L6;
    v51 = nd_load_8((v7.b + 16));
    v52 = nd_load_64((v7.b + 8));
    goto L10;
L6:;
    if (!(v15 == 0)) { v53 = 0; v54 = 0ULL; goto L11; }
L7:;
    v22 = nd_load_8(v10);
    nd_memset(v6.b, 0, 32);
    v23 = (unsigned char *)((uintptr_t)v10 + 1);
    v24 = v2 + 18446744073709551615ULL;
    nd_ndef_c_nested_first_of(v6.b, 2, v23, v24, 12);
    if (!(nd_load_8(v6.b) == 1)) { v37 = 0U; v38 = 0U; v39 = 0ULL; v40 = 0ULL; goto L9; }
    v37 = 1U;
    v38 = (uint32_t)nd_load_8(nd_load_ptr((v6.b + 16)));
    v39 = nd_load_64((v6.b + 8)) + 2ULL;
    v40 = nd_load_64((v6.b + 24)) + 18446744073709551615ULL;
L9:;
    v41 = (uint32_t)v22;
    v44 = nd_ndef_c_nested_alternatives_in(v23, v24);
    nd_store_64(v4, v44);
    nd_store_64((v4 + 8), v39);
    nd_store_64((v4 + 16), v40);
    nd_store_32((v4 + 24), (v41 >> 4));
    nd_store_32((v4 + 28), (v41 & 15U));
    nd_store_32((v4 + 32), v37);
    nd_store_32((v4 + 36), v38);
    v55 = 0U;
    goto L12;
L10:;
    v53 = v51;
    v54 = v52;
L11:;
    nd_ndef_c_refusal_refuse(v54, v53, v5);
    v55 = 1U;
L12:;
    return v55;
}

static uint32_t nd_ndef_links(unsigned char *v1, uint64_t v2, unsigned char *v3, uint64_t v4, unsigned char *v5, uint64_t v6, unsigned char *v7) {
    unsigned char *v16, *v19, *v22, *v28, *v32, *v42;
    uint8_t v23, v24, v36, v46;
    uint64_t v29, v33, v43;
    uint32_t v50, v51;
    ND_ROOM(32) v8, v11, v13;
    ND_ROOM(96) v9, v12;
    ND_ROOM(40) v10;
    v16 = (unsigned char *)((uintptr_t)v1 + (uintptr_t)((v1 == (unsigned char *)0) ? 4096ULL : 0ULL));
    v19 = (unsigned char *)((uintptr_t)v3 + (uintptr_t)((v3 == (unsigned char *)0) ? 4096ULL : 0ULL));
    v22 = (unsigned char *)((uintptr_t)v5 + (uintptr_t)((v5 == (unsigned char *)0) ? 4096ULL : 0ULL));
    v23 = nd_ndef_c_handover_is_handover(v19, v4);
    if (!v23) { v51 = 3U; goto L13; }
    v24 = nd_ndef_c_message_has_message(v16, v2);
    if (!v24) { v51 = 3U; goto L13; }
    nd_store_ptr(v13.b, v16);
    nd_store_64((v13.b + 8), v2);
    nd_store_ptr((v13.b + 16), v19);
    nd_store_64((v13.b + 24), v4);
    v28 = (unsigned char *)((uintptr_t)v19 + 1);
    v29 = v4 + 18446744073709551615ULL;
    nd_store_ptr(v11.b, v28);
    nd_store_64((v11.b + 8), v29);
    v32 = v12.b + 8;
    nd_memset((v11.b + 16), 0, 16);
    v33 = 0ULL;
L3:;
    nd_ndef_c_walk_WalkIterator_next(v12.b, v11.b);
    if (!(nd_load_8(v12.b) == 1)) goto L5;
    v36 = nd_ndef_c_query_wants(v28, v32);
    v33 = v33 + (uint64_t)v36;
    goto L3;
L5:;
    nd_store_64(v7, v33);
    if (v6 < v33) { v50 = 2U; goto L12; }
    nd_memset(v10.b, 0, 40);
    nd_store_ptr(v8.b, v28);
    nd_store_64((v8.b + 8), v29);
    v42 = v9.b + 8;
    nd_memset((v8.b + 16), 0, 16);
    v43 = 0ULL;
L7:;
L8:;
    nd_ndef_c_walk_WalkIterator_next(v9.b, v8.b);
    if (!(nd_load_8(v9.b) == 1)) goto L11;
    v46 = nd_ndef_c_query_wants(v28, v42);
    if (!v46) goto L8;
    nd_ndef_c_links_LinksRecordQuery_given(v10.b, v13.b, v42);
    nd_memcpy((v22 + (ptrdiff_t)(v43 * 40ULL)), v10.b, 40);
    v43 = v43 + 1ULL;
    goto L7;
L11:;
    v50 = 0U;
L12:;
    v51 = v50;
L13:;
    return v51;
}

static uint32_t nd_ndef_poster_icons(unsigned char *v1, uint64_t v2, unsigned char *v3, uint64_t v4, unsigned char *v5) {
    unsigned char *v12, *v15, *v19, *v31, *v32, *v33, *v34, *v35, *v47;
    uint8_t v16;
    uint64_t v20, v36, v42, v43, v44;
    uint32_t v23, v39, v52;
    ND_ROOM(32) v6, v8;
    ND_ROOM(96) v7, v9;
    v12 = (unsigned char *)((uintptr_t)v1 + (uintptr_t)((v1 == (unsigned char *)0) ? 4096ULL : 0ULL));
    v15 = (unsigned char *)((uintptr_t)v3 + (uintptr_t)((v3 == (unsigned char *)0) ? 4096ULL : 0ULL));
    v16 = nd_ndef_c_titles_is_poster(v12, v2);
    if (!v16) { v52 = 3U; goto L15; }
    nd_store_ptr(v8.b, v12);
    nd_store_64((v8.b + 8), v2);
    v19 = v9.b + 88;
    nd_memset((v8.b + 16), 0, 16);
    v20 = 0ULL;
L2:;
    nd_ndef_c_walk_WalkIterator_next(v9.b, v8.b);
    if (!(nd_load_8(v9.b) == 1)) goto L6;
    v23 = nd_load_32(v19);
    if (v23 < 6U) goto L5;
    nd_stop();
L5:;
    v20 = v20 + (uint64_t)(v23 == 2U);
    goto L2;
L6:;
    nd_store_64(v5, v20);
    if (v4 < v20) { v52 = 2U; goto L15; }
    nd_store_ptr(v6.b, v12);
    nd_store_64((v6.b + 8), v2);
    v31 = v7.b + 24;
    v32 = v7.b + 32;
    v33 = v7.b + 56;
    v34 = v7.b + 64;
    v35 = v7.b + 88;
    nd_memset((v6.b + 16), 0, 16);
    v36 = 0ULL;
L8:;
L9:;
    nd_ndef_c_walk_WalkIterator_next(v7.b, v6.b);
    if (!(nd_load_8(v7.b) == 1)) goto L14;
    v39 = nd_load_32(v35);
    if (v39 < 6U) goto L12;
    nd_stop();
L12:;
    if (!(v39 == 2U)) goto L9;
    v42 = nd_load_64(v34);
    v43 = nd_load_64(v33);
    v44 = nd_load_64(v32);
    v47 = v15 + (ptrdiff_t)(v36 << 5);
    nd_store_64(v47, nd_load_64(v31));
    nd_store_64((v47 + 8), v44);
    nd_store_64((v47 + 16), v43);
    nd_store_64((v47 + 24), v42);
    v36 = v36 + 1ULL;
    goto L8;
L14:;
    v52 = 0U;
L15:;
    return v52;
}

static uint32_t nd_ndef_poster_titles(unsigned char *v1, uint64_t v2, unsigned char *v3, uint64_t v4, unsigned char *v5) {
    unsigned char *v13, *v16, *v20, *v30;
    uint8_t v17, v24, v34;
    uint64_t v21, v31;
    uint32_t v38;
    ND_ROOM(32) v6, v9;
    ND_ROOM(96) v7, v10;
    ND_ROOM(40) v8;
    v13 = (unsigned char *)((uintptr_t)v1 + (uintptr_t)((v1 == (unsigned char *)0) ? 4096ULL : 0ULL));
    v16 = (unsigned char *)((uintptr_t)v3 + (uintptr_t)((v3 == (unsigned char *)0) ? 4096ULL : 0ULL));
    v17 = nd_ndef_c_titles_is_poster(v13, v2);
    if (!v17) { v38 = 3U; goto L11; }
    nd_store_ptr(v9.b, v13);
    nd_store_64((v9.b + 8), v2);
    v20 = v10.b + 8;
    nd_memset((v9.b + 16), 0, 16);
    v21 = 0ULL;
L2:;
    nd_ndef_c_walk_WalkIterator_next(v10.b, v9.b);
    if (!(nd_load_8(v10.b) == 1)) goto L4;
    v24 = nd_ndef_c_query_wants_2(v13, v20);
    v21 = v21 + (uint64_t)v24;
    goto L2;
L4:;
    nd_store_64(v5, v21);
    if (v4 < v21) { v38 = 2U; goto L11; }
    nd_store_ptr(v6.b, v13);
    nd_store_64((v6.b + 8), v2);
    v30 = v7.b + 8;
    nd_memset((v6.b + 16), 0, 16);
    v31 = 0ULL;
L6:;
L7:;
    nd_ndef_c_walk_WalkIterator_next(v7.b, v6.b);
    if (!(nd_load_8(v7.b) == 1)) goto L10;
    v34 = nd_ndef_c_query_wants_2(v13, v30);
    if (!v34) goto L7;
    nd_ndef_c_titles_text_of(v8.b, v13, v30);
    nd_memcpy((v16 + (ptrdiff_t)(v31 * 40ULL)), v8.b, 40);
    v31 = v31 + 1ULL;
    goto L6;
L10:;
    v38 = 0U;
L11:;
    return v38;
}

static uint32_t nd_ndef_append(unsigned char *v1, unsigned char *v2, uint64_t v3, unsigned char *v4, uint64_t v5, unsigned char *v6, uint64_t v7, unsigned char *v8, unsigned char *v9, uint64_t v10, unsigned char *v11) {
    unsigned char *v24, *v27, *v30, *v33, *v44, *v48, *v52, *v91, *v92, *v93, *v94, *v95, *v96, *v97, *v98, *v99, *v122, *v125, *v148, *v149, *v150, *v151, *v152, *v153, *v154, *v155, *v156, *v159, *v162, *v176, *v181;
    uint8_t v38, v42, v57, v59, v64, v65, v69, v70, v72, v73, v75, v76, v106, v164;
    uint64_t v46, v50, v54, v55, v61, v62, v63, v86, v87, v88, v89, v90, v100, v101, v102, v104, v105, v114, v115, v116, v135, v136, v139, v142, v145, v157, v158, v161, v163, v172, v173, v177;
    uint32_t v71, v182, v186;
    ND_ROOM(7) v12, v13, v16, v17;
    ND_ROOM(12) v14, v15, v18, v19;
    ND_ROOM(16) v20;
    ND_ROOM(64) v21;
    v24 = (unsigned char *)((uintptr_t)v2 + (uintptr_t)((v2 == (unsigned char *)0) ? 4096ULL : 0ULL));
    v27 = (unsigned char *)((uintptr_t)v4 + (uintptr_t)((v4 == (unsigned char *)0) ? 4096ULL : 0ULL));
    v30 = (unsigned char *)((uintptr_t)v6 + (uintptr_t)((v6 == (unsigned char *)0) ? 4096ULL : 0ULL));
    v33 = (unsigned char *)((uintptr_t)v9 + (uintptr_t)((v9 == (unsigned char *)0) ? 4096ULL : 0ULL));
    if (!((nd_load_32(((unsigned char *)((uintptr_t)v8 + 4))) & 4294967291U) == 0U)) { v186 = 3U; goto L25; }
    v38 = nd_ndef_c_building_may_grow(v33, v10, v1);
    if (!v38) { v186 = 3U; goto L25; }
    nd_ndef_c_writing_asked_parts(v21.b, v24, v3, v27, v5, v30, v7, v8);
    if (!(nd_load_8(v21.b) == 1)) { v186 = 3U; goto L25; }
    v42 = nd_load_8((v21.b + 8));
    v44 = nd_load_ptr((v21.b + 16));
    v46 = nd_load_64((v21.b + 24));
    v48 = nd_load_ptr((v21.b + 32));
    v50 = nd_load_64((v21.b + 40));
    v52 = nd_load_ptr((v21.b + 48));
    v54 = nd_load_64((v21.b + 56));
    nd_ndef_c_writing_way_of(v20.b, v8);
    v55 = nd_load_64(v1);
    v57 = (uint8_t)(v55 == 0ULL);
    v59 = nd_load_8((v20.b + 2));
    v61 = nd_load_64((v20.b + 8));
    v62 = nd_umin_i64(v61, v54);
    v63 = v54 - v62;
    v64 = v63 == 0ULL;
    v65 = v59 == 0;
    v69 = (uint8_t)v50;
    v70 = (uint8_t)(v50 != 0ULL);
    v71 = (uint32_t)v62;
    v72 = (uint8_t)v46;
    v73 = (uint8_t)(v65 & (int)(v62 < 256ULL));
    v75 = (uint8_t)(v64 ^ 1);
    v76 = (uint8_t)v64;
    nd_store_8(v18.b, v57);
    nd_store_8((v18.b + 1), v76);
    nd_store_8((v18.b + 2), v75);
    nd_store_8((v18.b + 3), v73);
    nd_store_8((v18.b + 4), v42);
    nd_store_8((v18.b + 5), v72);
    nd_store_8((v18.b + 6), v70);
    nd_store_8((v18.b + 7), v69);
    nd_store_32((v18.b + 8), v71);
    nd_memset((v16.b + 2), 0, 5);
    v86 = nd_ndef_piece_write_write_head(v18.b, v16.b);
    v87 = nd_uadd_sat_i64(v86, v55);
    v88 = nd_uadd_sat_i64(v46, v87);
    v89 = nd_uadd_sat_i64(v50, v88);
    v90 = nd_uadd_sat_i64(v62, v89);
    v91 = v19.b + 1;
    v92 = v19.b + 2;
    v93 = v19.b + 3;
    v94 = v19.b + 4;
    v95 = v19.b + 5;
    v96 = v19.b + 6;
    v97 = v19.b + 7;
    v98 = v19.b + 8;
    v99 = v17.b + 2;
    v100 = v90;
    v101 = v63;
    v102 = v55;
L4:;
    if (v101 == 0ULL) goto L6;
    v104 = nd_umin_i64(v61, v101);
    v105 = v101 - v104;
    v106 = v105 == 0ULL;
    nd_store_8(v19.b, 0);
    nd_store_8(v91, (uint8_t)v106);
    nd_store_8(v92, (uint8_t)(v106 ^ 1));
    nd_store_8(v93, (uint8_t)(v65 & (int)(v104 < 256ULL)));
    nd_store_8(v94, 6);
    nd_store_8(v95, 0);
    nd_store_8(v96, 0);
    nd_store_8(v97, 0);
    nd_store_32(v98, (uint32_t)v104);
    nd_memset(v99, 0, 5);
    v114 = nd_ndef_piece_write_write_head(v19.b, v17.b);
    v115 = nd_uadd_sat_i64(v114, v100);
    v116 = nd_uadd_sat_i64(v104, v115);
    { uint64_t t0 = v116; uint64_t t1 = v105; uint64_t t2 = v100; v100 = t0; v101 = t1; v102 = t2; goto L4; }
L6:;
    nd_store_64(v11, v100);
    if (v10 < v100) { v186 = 2U; goto L25; }
    if (nd_load_64(v1) == 0ULL) goto L9;
    v122 = v33 + (ptrdiff_t)nd_load_64(((unsigned char *)((uintptr_t)v1 + 8)));
    nd_store_8(v122, (uint8_t)(nd_load_8(v122) + 192));
L9:;
    nd_memset(v15.b, 0, 12);
    v125 = (unsigned char *)((uintptr_t)v52 + (uintptr_t)v62);
    nd_store_8(v14.b, v57);
    nd_store_8((v14.b + 1), v76);
    nd_store_8((v14.b + 2), v75);
    nd_store_8((v14.b + 3), v73);
    nd_store_8((v14.b + 4), v42);
    nd_store_8((v14.b + 5), v72);
    nd_store_8((v14.b + 6), v70);
    nd_store_8((v14.b + 7), v69);
    nd_store_32((v14.b + 8), v71);
    nd_memset((v12.b + 2), 0, 5);
    v135 = nd_ndef_piece_write_write_head(v14.b, v12.b);
    v136 = nd_uadd_sat_i64(v135, v55);
    if (v136 > v10) goto L11;
    nd_core_slice_edits_slice_T_copy_from_slice(((unsigned char *)((uintptr_t)v33 + (uintptr_t)v55)), v12.b, v135);
L11:;
    v139 = nd_uadd_sat_i64(v46, v136);
    if (v139 > v10) goto L13;
    nd_core_slice_edits_slice_T_copy_from_slice(((unsigned char *)((uintptr_t)v33 + (uintptr_t)v136)), v44, v46);
L13:;
    v142 = nd_uadd_sat_i64(v50, v139);
    if (v142 > v10) goto L15;
    nd_core_slice_edits_slice_T_copy_from_slice(((unsigned char *)((uintptr_t)v33 + (uintptr_t)v139)), v48, v50);
L15:;
    v145 = nd_uadd_sat_i64(v62, v142);
    if (v145 > v10) goto L17;
    nd_core_slice_edits_slice_T_copy_from_slice(((unsigned char *)((uintptr_t)v33 + (uintptr_t)v142)), v52, v62);
L17:;
    v148 = v15.b + 1;
    v149 = v15.b + 2;
    v150 = v15.b + 3;
    v151 = v15.b + 4;
    v152 = v15.b + 5;
    v153 = v15.b + 6;
    v154 = v15.b + 7;
    v155 = v15.b + 8;
    v156 = v13.b + 2;
    v157 = v145;
    v158 = v63;
    v159 = v125;
L18:;
    if (v158 == 0ULL) goto L24;
    v161 = nd_umin_i64(v61, v158);
    v162 = (unsigned char *)((uintptr_t)v159 + (uintptr_t)v161);
    v163 = v158 - v161;
    v164 = v163 == 0ULL;
    nd_store_8(v15.b, 0);
    nd_store_8(v148, (uint8_t)v164);
    nd_store_8(v149, (uint8_t)(v164 ^ 1));
    nd_store_8(v150, (uint8_t)(v65 & (int)(v161 < 256ULL)));
    nd_store_8(v151, 6);
    nd_store_8(v152, 0);
    nd_store_8(v153, 0);
    nd_store_8(v154, 0);
    nd_store_32(v155, (uint32_t)v161);
    nd_memset(v156, 0, 5);
    v172 = nd_ndef_piece_write_write_head(v15.b, v13.b);
    v173 = nd_uadd_sat_i64(v172, v157);
    if (v173 > v10) goto L21;
    nd_core_slice_edits_slice_T_copy_from_slice(((unsigned char *)((uintptr_t)v33 + (uintptr_t)v157)), v13.b, v172);
    v176 = (unsigned char *)((uintptr_t)v33 + (uintptr_t)v173);
    nd_core_slice_edits_slice_T_copy_from_slice(v176, (unsigned char *)nd_data_static_50, 0ULL);
    nd_core_slice_edits_slice_T_copy_from_slice(v176, (unsigned char *)nd_data_static_50, 0ULL);
L21:;
    v177 = nd_uadd_sat_i64(v161, v173);
    if (v177 > v10) goto L23;
    nd_core_slice_edits_slice_T_copy_from_slice(((unsigned char *)((uintptr_t)v33 + (uintptr_t)v173)), v159, v161);
L23:;
    v157 = v177;
    v158 = v163;
    v159 = v162;
    goto L18;
L24:;
    v181 = (unsigned char *)((uintptr_t)v1 + 16);
    v182 = nd_load_32(v181);
    nd_store_64(v1, nd_load_64(v11));
    nd_store_64((v1 + 8), v102);
    nd_store_32(v181, (v182 + 1U));
    nd_store_32((v1 + 20), 0U);
    v186 = 0U;
L25:;
    return v186;
}

static uint32_t nd_ndef_write_record(unsigned char *v1, uint64_t v2, unsigned char *v3, uint64_t v4, unsigned char *v5, uint64_t v6, unsigned char *v7, unsigned char *v8, uint64_t v9, unsigned char *v10) {
    unsigned char *v32, *v38, *v42, *v46, *v87, *v88, *v89, *v90, *v91, *v92, *v93, *v94, *v95, *v113, *v135, *v136, *v137, *v138, *v139, *v140, *v141, *v142, *v143, *v146, *v149, *v164;
    uint8_t v36, v49, v51, v53, v58, v59, v60, v62, v66, v67, v69, v70, v72, v73, v101, v151;
    uint64_t v40, v44, v48, v55, v56, v57, v83, v84, v85, v86, v96, v97, v99, v100, v110, v111, v112, v124, v126, v129, v132, v144, v145, v148, v150, v160, v161, v165;
    uint32_t v68, v168;
    ND_ROOM(7) v11, v12, v15, v16;
    ND_ROOM(12) v13, v14, v17, v18;
    ND_ROOM(16) v19;
    ND_ROOM(64) v20;
    v32 = (unsigned char *)((uintptr_t)v8 + (uintptr_t)((v8 == (unsigned char *)0) ? 4096ULL : 0ULL));
    nd_ndef_c_writing_asked_parts(v20.b, ((unsigned char *)((uintptr_t)v1 + (uintptr_t)((v1 == (unsigned char *)0) ? 4096ULL : 0ULL))), v2, ((unsigned char *)((uintptr_t)v3 + (uintptr_t)((v3 == (unsigned char *)0) ? 4096ULL : 0ULL))), v4, ((unsigned char *)((uintptr_t)v5 + (uintptr_t)((v5 == (unsigned char *)0) ? 4096ULL : 0ULL))), v6, v7);
    if (!(nd_load_8(v20.b) == 1)) { v168 = 3U; goto L21; }
    v36 = nd_load_8((v20.b + 8));
    v38 = nd_load_ptr((v20.b + 16));
    v40 = nd_load_64((v20.b + 24));
    v42 = nd_load_ptr((v20.b + 32));
    v44 = nd_load_64((v20.b + 40));
    v46 = nd_load_ptr((v20.b + 48));
    v48 = nd_load_64((v20.b + 56));
    nd_ndef_c_writing_way_of(v19.b, v7);
    v49 = nd_load_8(v19.b);
    v51 = nd_load_8((v19.b + 1));
    v53 = nd_load_8((v19.b + 2));
    v55 = nd_load_64((v19.b + 8));
    v56 = nd_umin_i64(v55, v48);
    v57 = v48 - v56;
    v58 = (uint8_t)(v51 & 1);
    v59 = (uint8_t)(v49 & 1);
    v60 = v57 == 0ULL;
    v62 = v53 == 0;
    v66 = (uint8_t)v44;
    v67 = (uint8_t)(v44 != 0ULL);
    v68 = (uint32_t)v56;
    v69 = (uint8_t)v40;
    v70 = (uint8_t)(v62 & (int)(v56 < 256ULL));
    v72 = (uint8_t)(v60 ^ 1);
    v73 = (uint8_t)(uint8_t)(v60 ? v58 : 0);
    nd_store_8(v13.b, v59);
    nd_store_8((v13.b + 1), v73);
    nd_store_8((v13.b + 2), v72);
    nd_store_8((v13.b + 3), v70);
    nd_store_8((v13.b + 4), v36);
    nd_store_8((v13.b + 5), v69);
    nd_store_8((v13.b + 6), v67);
    nd_store_8((v13.b + 7), v66);
    nd_store_32((v13.b + 8), v68);
    nd_memset((v11.b + 2), 0, 5);
    v83 = nd_ndef_piece_write_write_head(v13.b, v11.b);
    v84 = nd_uadd_sat_i64(v40, v83);
    v85 = nd_uadd_sat_i64(v44, v84);
    v86 = nd_uadd_sat_i64(v56, v85);
    v87 = v14.b + 1;
    v88 = v14.b + 2;
    v89 = v14.b + 3;
    v90 = v14.b + 4;
    v91 = v14.b + 5;
    v92 = v14.b + 6;
    v93 = v14.b + 7;
    v94 = v14.b + 8;
    v95 = v12.b + 2;
    v96 = v86;
    v97 = v57;
L2:;
    if (v97 == 0ULL) goto L4;
    v99 = nd_umin_i64(v55, v97);
    v100 = v97 - v99;
    v101 = v100 == 0ULL;
    nd_store_8(v14.b, 0);
    nd_store_8(v87, (uint8_t)(v101 & v58));
    nd_store_8(v88, (uint8_t)(v101 ^ 1));
    nd_store_8(v89, (uint8_t)(v62 & (int)(v99 < 256ULL)));
    nd_store_8(v90, 6);
    nd_store_8(v91, 0);
    nd_store_8(v92, 0);
    nd_store_8(v93, 0);
    nd_store_32(v94, (uint32_t)v99);
    nd_memset(v95, 0, 5);
    v110 = nd_ndef_piece_write_write_head(v14.b, v12.b);
    v111 = nd_uadd_sat_i64(v110, v96);
    v112 = nd_uadd_sat_i64(v99, v111);
    v96 = v112;
    v97 = v100;
    goto L2;
L4:;
    v113 = (unsigned char *)((uintptr_t)v46 + (uintptr_t)v56);
    nd_store_64(v10, v96);
    if (v9 < v96) { v168 = 2U; goto L21; }
    nd_memset(v18.b, 0, 12);
    nd_store_8(v17.b, v59);
    nd_store_8((v17.b + 1), v73);
    nd_store_8((v17.b + 2), v72);
    nd_store_8((v17.b + 3), v70);
    nd_store_8((v17.b + 4), v36);
    nd_store_8((v17.b + 5), v69);
    nd_store_8((v17.b + 6), v67);
    nd_store_8((v17.b + 7), v66);
    nd_store_32((v17.b + 8), v68);
    nd_memset((v15.b + 2), 0, 5);
    v124 = nd_ndef_piece_write_write_head(v17.b, v15.b);
    if (v124 > v9) goto L7;
    nd_core_slice_edits_slice_T_copy_from_slice(v32, v15.b, v124);
L7:;
    v126 = nd_uadd_sat_i64(v40, v124);
    if (v126 > v9) goto L9;
    nd_core_slice_edits_slice_T_copy_from_slice(((unsigned char *)((uintptr_t)v32 + (uintptr_t)v124)), v38, v40);
L9:;
    v129 = nd_uadd_sat_i64(v44, v126);
    if (v129 > v9) goto L11;
    nd_core_slice_edits_slice_T_copy_from_slice(((unsigned char *)((uintptr_t)v32 + (uintptr_t)v126)), v42, v44);
L11:;
    v132 = nd_uadd_sat_i64(v56, v129);
    if (v132 > v9) goto L13;
    nd_core_slice_edits_slice_T_copy_from_slice(((unsigned char *)((uintptr_t)v32 + (uintptr_t)v129)), v46, v56);
L13:;
    v135 = v18.b + 1;
    v136 = v18.b + 2;
    v137 = v18.b + 3;
    v138 = v18.b + 4;
    v139 = v18.b + 5;
    v140 = v18.b + 6;
    v141 = v18.b + 7;
    v142 = v18.b + 8;
    v143 = v16.b + 2;
    v144 = v132;
    v145 = v57;
    v146 = v113;
L14:;
    if (v145 == 0ULL) goto L20;
    v148 = nd_umin_i64(v55, v145);
    v149 = (unsigned char *)((uintptr_t)v146 + (uintptr_t)v148);
    v150 = v145 - v148;
    v151 = v150 == 0ULL;
    nd_store_8(v18.b, 0);
    nd_store_8(v135, (uint8_t)(v151 & v58));
    nd_store_8(v136, (uint8_t)(v151 ^ 1));
    nd_store_8(v137, (uint8_t)(v62 & (int)(v148 < 256ULL)));
    nd_store_8(v138, 6);
    nd_store_8(v139, 0);
    nd_store_8(v140, 0);
    nd_store_8(v141, 0);
    nd_store_32(v142, (uint32_t)v148);
    nd_memset(v143, 0, 5);
    v160 = nd_ndef_piece_write_write_head(v18.b, v16.b);
    v161 = nd_uadd_sat_i64(v160, v144);
    if (v161 > v9) goto L17;
    nd_core_slice_edits_slice_T_copy_from_slice(((unsigned char *)((uintptr_t)v32 + (uintptr_t)v144)), v16.b, v160);
    v164 = (unsigned char *)((uintptr_t)v32 + (uintptr_t)v161);
    nd_core_slice_edits_slice_T_copy_from_slice(v164, (unsigned char *)nd_data_static_50, 0ULL);
    nd_core_slice_edits_slice_T_copy_from_slice(v164, (unsigned char *)nd_data_static_50, 0ULL);
L17:;
    v165 = nd_uadd_sat_i64(v148, v161);
    if (v165 > v9) goto L19;
    nd_core_slice_edits_slice_T_copy_from_slice(((unsigned char *)((uintptr_t)v32 + (uintptr_t)v161)), v146, v148);
L19:;
    v144 = v165;
    v145 = v150;
    v146 = v149;
    goto L14;
L20:;
    v168 = 0U;
L21:;
    return v168;
}

static uint32_t nd_ndef_writer_begin(unsigned char *v1, uint64_t v2, uint64_t v3, uint64_t v4, unsigned char *v5) {
    uint8_t v10;
    uint32_t v19;
    ND_ROOM(56) v6;
    nd_ndef_c_writer_plan_of(v6.b, v5, v2, v3, v4);
    if (!(nd_load_8(v6.b) == 1)) { v19 = 3U; goto L3; }
    v10 = nd_ndef_message_stepping_can_be_written((v6.b + 8));
    if (!v10) { v19 = 3U; goto L3; }
    nd_memmove(v1, v5, 12);
    nd_store_32((v1 + 12), (uint32_t)v2);
    nd_store_32((v1 + 16), (uint32_t)v3);
    nd_store_32((v1 + 20), (uint32_t)v4);
    nd_store_32((v1 + 24), 0U);
    nd_store_32((v1 + 28), 0U);
    v19 = 0U;
L3:;
    return v19;
}

static uint32_t nd_ndef_writer_next(unsigned char *v1, unsigned char *v2, uint64_t v3, unsigned char *v4, uint64_t v5, unsigned char *v6, uint64_t v7, unsigned char *v8, uint64_t v9, unsigned char *v10) {
    unsigned char *v21, *v24, *v27, *v30, *v42, *v43, *v46, *v84, *v85, *v96;
    uint64_t v45, v48, v50, v56, v66, v69, v77, v87, v88, v89, v95, v97, v98, v99, v101, v102, v103, v105, v107, v109, v110, v113, v114;
    uint32_t v47, v121;
    uint8_t v51, v71, v86;
    ND_ROOM(7) v11;
    ND_ROOM(12) v12;
    ND_ROOM(24) v13, v14, v15;
    ND_ROOM(56) v16;
    ND_ROOM(64) v17;
    ND_ROOM(48) v18;
    v21 = (unsigned char *)((uintptr_t)v2 + (uintptr_t)((v2 == (unsigned char *)0) ? 4096ULL : 0ULL));
    v24 = (unsigned char *)((uintptr_t)v4 + (uintptr_t)((v4 == (unsigned char *)0) ? 4096ULL : 0ULL));
    v27 = (unsigned char *)((uintptr_t)v6 + (uintptr_t)((v6 == (unsigned char *)0) ? 4096ULL : 0ULL));
    v30 = (unsigned char *)((uintptr_t)v8 + (uintptr_t)((v8 == (unsigned char *)0) ? 4096ULL : 0ULL));
    nd_ndef_c_writer_plan_of(v16.b, v1, (uint64_t)nd_load_32(((unsigned char *)((uintptr_t)v1 + 12))), (uint64_t)nd_load_32(((unsigned char *)((uintptr_t)v1 + 16))), (uint64_t)nd_load_32(((unsigned char *)((uintptr_t)v1 + 20))));
    if (!(nd_load_8(v16.b) == 1)) goto L7;
    v42 = v16.b + 8;
    v43 = (unsigned char *)((uintptr_t)v1 + 24);
    v45 = (uint64_t)nd_load_32(v43);
    v46 = (unsigned char *)((uintptr_t)v1 + 28);
    v47 = nd_load_32(v46);
    v48 = (uint64_t)v47;
    v50 = nd_load_64((v16.b + 32));
    v51 = nd_ndef_message_stepping_can_be_written(v42);
    if (!v51) goto L8;
    nd_memset(v15.b, 0, 24);
    if (!(v50 < v45)) goto L4;
    goto L8;
L4:;
    if ((v50 != 0ULL) & (int)(v50 == v45)) goto L6;
    nd_ndef_message_stepping_chunk_at(v15.b, v42, v45);
    v56 = nd_ndef_message_stepping_front_length(v42, v15.b);
    if ((uint8_t)((nd_load_64(v15.b) == v45) ? (v56 >= v48) : (v56 == v48))) goto L9;
    goto L8;
L6:;
    if (v47 == 0U) goto L9;
    goto L8;
L7:;
    v121 = 3U;
    goto L22;
L8:;
    v121 = 3U;
    goto L22;
L9:;
    nd_memcpy(v18.b, v42, 48);
    nd_memcpy(v17.b, v18.b, 48);
    nd_store_64((v17.b + 48), v45);
    nd_store_64((v17.b + 56), v48);
    nd_memset(v14.b, 0, 24);
    v66 = nd_load_64((v17.b + 24));
    if (v66 == 0ULL) goto L11;
    v71 = v66 == v45;
    goto L12;
L11:;
    nd_ndef_message_stepping_chunk_at(v14.b, v17.b, 0ULL);
    v69 = nd_ndef_message_stepping_front_length(v17.b, v14.b);
    v71 = v69 == v48;
L12:;
    v77 = nd_load_64((v18.b + 24));
    if ((uint8_t)((v3 != nd_load_64((v18.b + 8))) ? 1 : (v5 != nd_load_64((v18.b + 16)))) | (int)((v77 - v45) < v7)) { v121 = 3U; goto L22; }
    v84 = v11.b + 2;
    v85 = v13.b + 8;
    v86 = v77 != 0ULL;
    v87 = v45;
    v88 = v48;
    v89 = 0ULL;
L14:;
    if ((uint8_t)((v89 >= v9) ? 1 : (v86 & (int)(v87 == v77)))) goto L20;
    v95 = nd_umin_i64(v7, (v87 - v45));
    v96 = (unsigned char *)((uintptr_t)v27 + (uintptr_t)v95);
    v97 = v7 - v95;
    nd_memset(v13.b, 0, 24);
    nd_ndef_message_stepping_chunk_at(v13.b, v18.b, v87);
    nd_memset(v84, 0, 5);
    nd_ndef_message_stepping_head_of(v12.b, v18.b, v13.b);
    v98 = nd_ndef_piece_write_write_head(v12.b, v11.b);
    v99 = nd_load_64(v13.b);
    if (!(v99 == 0ULL)) goto L17;
    v101 = nd_ndef_message_stepping_put_front(v11.b, v98, v21, v3, v24, v5, v88, v30, v9, v89);
    v103 = v101;
    goto L18;
L17:;
    v102 = nd_ndef_message_stepping_put_front(v11.b, v98, (unsigned char *)nd_data_static_50, 0ULL, (unsigned char *)nd_data_static_50, 0ULL, v88, v30, v9, v89);
    v103 = v102;
L18:;
    v105 = nd_load_64(v85) + v99;
    v107 = nd_umin_i64((v105 - v87), v97);
    v109 = nd_ndef_message_stepping_put(v96, v107, v30, v9, (v103 + v89));
    v110 = v109 + v103;
    if (v110 == 0ULL) goto L20;
    v113 = v103 + v88;
    v114 = v109 + v87;
    v87 = v114;
    v88 = (v109 == 0ULL) ? v113 : ((v114 == v105) ? 0ULL : v113);
    v89 = v110 + v89;
    goto L14;
L20:;
    if (v71) { v121 = 4U; goto L22; }
    nd_store_64(v10, v89);
    nd_store_32(v43, (uint32_t)v87);
    nd_store_32(v46, (uint32_t)v88);
    v121 = 0U;
L22:;
    return v121;
}

static uint32_t nd_ndef_fields(unsigned char *v1, uint64_t v2, unsigned char *v3, unsigned char *v4, uint64_t v5, unsigned char *v6, unsigned char *v7) {
    unsigned char *v14, *v21;
    uint64_t v23, v27, v29;
    uint32_t v25, v30, v31;
    ND_ROOM(576) v8, v9;
    ND_ROOM(20) v10;
    ND_ROOM(24) v11;
    v14 = (unsigned char *)((uintptr_t)v4 + (uintptr_t)((v4 == (unsigned char *)0) ? 4096ULL : 0ULL));
    nd_ndef_c_fields_typed_limits(v10.b, v3);
    if (!(nd_load_8(v10.b) == 1)) { v31 = 3U; goto L5; }
    nd_ndef_c_fields_checked_front(v11.b, ((unsigned char *)((uintptr_t)v1 + (uintptr_t)((v1 == (unsigned char *)0) ? 4096ULL : 0ULL))), v2, (v10.b + 4), v7);
    v21 = nd_load_ptr(v11.b);
    v23 = nd_load_64((v11.b + 8));
    v25 = nd_load_32((v11.b + 16));
    if (!(v5 < v23)) goto L3;
    nd_ndef_fields_report_fields_before(v8.b, v21, v23);
    v27 = nd_ndef_c_fields_count_of(v8.b);
    nd_store_64(v6, v27);
    if (v5 < v27) { v30 = 2U; goto L4; }
L3:;
    nd_ndef_fields_report_fields_before(v9.b, v21, v23);
    v29 = nd_ndef_c_fields_write_fields(v9.b, v14);
    nd_store_64(v6, v29);
    v30 = v25;
L4:;
    v31 = v30;
L5:;
    return v31;
}

static uint32_t nd_ndef_payload_fields(uint32_t v1, unsigned char *v2, uint64_t v3, unsigned char *v4, uint64_t v5, unsigned char *v6, uint64_t v7, unsigned char *v8) {
    unsigned char *v13, *v16, *v19;
    uint8_t v23, v28, v35, v36;
    uint64_t v38, v40;
    uint32_t v41, v42;
    ND_ROOM(576) v9, v10;
    v13 = (unsigned char *)((uintptr_t)v2 + (uintptr_t)((v2 == (unsigned char *)0) ? 4096ULL : 0ULL));
    v16 = (unsigned char *)((uintptr_t)v4 + (uintptr_t)((v4 == (unsigned char *)0) ? 4096ULL : 0ULL));
    v19 = (unsigned char *)((uintptr_t)v6 + (uintptr_t)((v6 == (unsigned char *)0) ? 4096ULL : 0ULL));
    if (!(v1 < 6U)) { v42 = 3U; goto L12; }
    if (!(v1 == 1U)) { v36 = 0; goto L8; }
    switch (v3) {
    case 0ULL: { v36 = 0; goto L8; }
    case 1ULL: goto L3;
    default: goto L4; }
L3:;
    v23 = nd_ndef_format_kind_of_one(nd_load_8(v13));
    v36 = v23;
    goto L8;
L4:;
    if (!(v3 < 3ULL)) goto L6;
    v28 = nd_ndef_format_kind_of_two(nd_load_8(v13), nd_load_8(((unsigned char *)((uintptr_t)v13 + 1))));
    v36 = v28;
    goto L8;
L6:;
    if (!(v3 == 3ULL)) { v36 = 0; goto L8; }
    v35 = nd_ndef_format_kind_of_three(nd_load_8(v13), nd_load_8(((unsigned char *)((uintptr_t)v13 + 1))), nd_load_8(((unsigned char *)((uintptr_t)v13 + 2))));
    v36 = v35;
L8:;
    if (!(v7 < v5)) goto L10;
    nd_ndef_fields_report_payload_fields(v9.b, v36, v16, v5);
    v38 = nd_ndef_c_fields_count_of(v9.b);
    nd_store_64(v8, v38);
    if (v7 < v38) { v41 = 2U; goto L11; }
L10:;
    nd_ndef_fields_report_payload_fields(v10.b, v36, v16, v5);
    v40 = nd_ndef_c_fields_write_fields(v10.b, v19);
    nd_store_64(v8, v40);
    v41 = 0U;
L11:;
    v42 = v41;
L12:;
    return v42;
}

void ndef_default_limits(ndef_limits *out) {
    nd_ndef_default_limits((unsigned char *)out);
}

uint32_t ndef_field_name(uint32_t name, uint8_t *buffer, ndef_size capacity, ndef_size *count) {
    return nd_ndef_field_name(name, (unsigned char *)buffer, capacity, (unsigned char *)count);
}

uint32_t ndef_field_warning(uint32_t name, const uint8_t *octets, ndef_size octets_length, uint8_t *buffer, ndef_size capacity, ndef_size *count) {
    return nd_ndef_field_warning(name, (unsigned char *)octets, octets_length, (unsigned char *)buffer, capacity, (unsigned char *)count);
}

uint32_t ndef_uri_prefix(uint32_t code, uint8_t *buffer, ndef_size capacity, ndef_size *count) {
    return nd_ndef_uri_prefix(code, (unsigned char *)buffer, capacity, (unsigned char *)count);
}

uint32_t ndef_version(void) {
    return nd_ndef_version();
}

uint32_t ndef_write_action(uint32_t action, uint8_t *buffer, ndef_size capacity, ndef_size *count) {
    return nd_ndef_write_action(action, (unsigned char *)buffer, capacity, (unsigned char *)count);
}

uint32_t ndef_write_collision(uint32_t number, uint8_t *buffer, ndef_size capacity, ndef_size *count) {
    return nd_ndef_write_collision(number, (unsigned char *)buffer, capacity, (unsigned char *)count);
}

uint32_t ndef_write_size(uint32_t bytes, uint8_t *buffer, ndef_size capacity, ndef_size *count) {
    return nd_ndef_write_size(bytes, (unsigned char *)buffer, capacity, (unsigned char *)count);
}

uint32_t ndef_begin(const ndef_limits *limits, ndef_checker *checker) {
    return nd_ndef_begin((unsigned char *)limits, (unsigned char *)checker);
}

uint32_t ndef_write_carrier(uint32_t format, const uint8_t *type, ndef_size type_length, const uint8_t *data, ndef_size data_length, uint8_t *buffer, ndef_size capacity, ndef_size *count) {
    return nd_ndef_write_carrier(format, (unsigned char *)type, type_length, (unsigned char *)data, data_length, (unsigned char *)buffer, capacity, (unsigned char *)count);
}

uint32_t ndef_write_error(uint32_t reason, const uint8_t *data, ndef_size length, uint8_t *buffer, ndef_size capacity, ndef_size *count) {
    return nd_ndef_write_error(reason, (unsigned char *)data, length, (unsigned char *)buffer, capacity, (unsigned char *)count);
}

uint32_t ndef_write_error_number(uint32_t reason, uint32_t number, uint8_t *buffer, ndef_size capacity, ndef_size *count) {
    return nd_ndef_write_error_number(reason, number, (unsigned char *)buffer, capacity, (unsigned char *)count);
}

uint32_t ndef_write_handover(uint32_t handover, uint32_t major, uint32_t minor, const uint8_t *message, ndef_size length, uint8_t *buffer, ndef_size capacity, ndef_size *count) {
    return nd_ndef_write_handover(handover, major, minor, (unsigned char *)message, length, (unsigned char *)buffer, capacity, (unsigned char *)count);
}

uint32_t ndef_normalize(const uint8_t *bytes, ndef_size length, uint32_t flags, uint8_t *buffer, ndef_size capacity, ndef_size *count) {
    return nd_ndef_normalize((unsigned char *)bytes, length, flags, (unsigned char *)buffer, capacity, (unsigned char *)count);
}

uint32_t ndef_write_alternative(uint32_t power, const uint8_t *bytes, ndef_size length, const ndef_part *parts, ndef_size parts_count, uint8_t *buffer, ndef_size capacity, ndef_size *count) {
    return nd_ndef_write_alternative(power, (unsigned char *)bytes, length, (unsigned char *)parts, parts_count, (unsigned char *)buffer, capacity, (unsigned char *)count);
}

uint32_t ndef_write_uri(const uint8_t *uri, ndef_size length, uint8_t *buffer, ndef_size capacity, ndef_size *count) {
    return nd_ndef_write_uri((unsigned char *)uri, length, (unsigned char *)buffer, capacity, (unsigned char *)count);
}

uint32_t ndef_reason_name(uint32_t reason, uint8_t *buffer, ndef_size capacity, ndef_size *count) {
    return nd_ndef_reason_name(reason, (unsigned char *)buffer, capacity, (unsigned char *)count);
}

uint32_t ndef_reason_sentence(uint32_t reason, uint8_t *buffer, ndef_size capacity, ndef_size *count) {
    return nd_ndef_reason_sentence(reason, (unsigned char *)buffer, capacity, (unsigned char *)count);
}

uint32_t ndef_payload(const uint8_t *bytes, ndef_size length, ndef_size at, uint8_t *buffer, ndef_size capacity, ndef_size *count) {
    return nd_ndef_payload((unsigned char *)bytes, length, at, (unsigned char *)buffer, capacity, (unsigned char *)count);
}

uint32_t ndef_record_at(const uint8_t *bytes, ndef_size length, ndef_size at, ndef_record *out) {
    return nd_ndef_record_at((unsigned char *)bytes, length, at, (unsigned char *)out);
}

uint32_t ndef_reference(const uint8_t *payload, ndef_size length, ndef_size index, ndef_part *out) {
    return nd_ndef_reference((unsigned char *)payload, length, index, (unsigned char *)out);
}

uint32_t ndef_alternative(const uint8_t *payload, ndef_size length, ndef_alternative_parts *out, ndef_checked *refusal) {
    return nd_ndef_alternative((unsigned char *)payload, length, (unsigned char *)out, (unsigned char *)refusal);
}

uint32_t ndef_carrier(const uint8_t *payload, ndef_size length, ndef_carrier_parts *out, ndef_checked *refusal) {
    return nd_ndef_carrier((unsigned char *)payload, length, (unsigned char *)out, (unsigned char *)refusal);
}

uint32_t ndef_check(const uint8_t *bytes, ndef_size length, const ndef_limits *limits, ndef_checked *out) {
    return nd_ndef_check((unsigned char *)bytes, length, (unsigned char *)limits, (unsigned char *)out);
}

uint32_t ndef_feed(ndef_checker *checker, const uint8_t *bytes, ndef_size length, ndef_checked *out) {
    return nd_ndef_feed((unsigned char *)checker, (unsigned char *)bytes, length, (unsigned char *)out);
}

uint32_t ndef_uri(const uint8_t *payload, ndef_size length, uint32_t flags, uint8_t *buffer, ndef_size capacity, ndef_size *count, ndef_checked *refusal) {
    return nd_ndef_uri((unsigned char *)payload, length, flags, (unsigned char *)buffer, capacity, (unsigned char *)count, (unsigned char *)refusal);
}

uint32_t ndef_record_warning(const uint8_t *bytes, ndef_size length, ndef_size index, uint8_t *buffer, ndef_size capacity, ndef_size *count) {
    return nd_ndef_record_warning((unsigned char *)bytes, length, index, (unsigned char *)buffer, capacity, (unsigned char *)count);
}

uint32_t ndef_append_uri(ndef_message_builder *builder, const uint8_t *id, ndef_size id_length, const uint8_t *uri, ndef_size uri_length, uint8_t *buffer, ndef_size capacity, ndef_size *count) {
    return nd_ndef_append_uri((unsigned char *)builder, (unsigned char *)id, id_length, (unsigned char *)uri, uri_length, (unsigned char *)buffer, capacity, (unsigned char *)count);
}

uint32_t ndef_error(const uint8_t *payload, ndef_size length, ndef_error_parts *out, ndef_checked *refusal) {
    return nd_ndef_error((unsigned char *)payload, length, (unsigned char *)out, (unsigned char *)refusal);
}

uint32_t ndef_chunks(const uint8_t *bytes, ndef_size length, ndef_size at, ndef_part *parts, ndef_size capacity, ndef_size *count) {
    return nd_ndef_chunks((unsigned char *)bytes, length, at, (unsigned char *)parts, capacity, (unsigned char *)count);
}

uint32_t ndef_references(const uint8_t *payload, ndef_size length, ndef_part *parts, ndef_size capacity, ndef_size *count) {
    return nd_ndef_references((unsigned char *)payload, length, (unsigned char *)parts, capacity, (unsigned char *)count);
}

uint32_t ndef_append_text(ndef_message_builder *builder, const uint8_t *id, ndef_size id_length, const uint8_t *language, ndef_size language_length, const uint8_t *text, ndef_size text_length, uint32_t flags, uint8_t *buffer, ndef_size capacity, ndef_size *count) {
    return nd_ndef_append_text((unsigned char *)builder, (unsigned char *)id, id_length, (unsigned char *)language, language_length, (unsigned char *)text, text_length, flags, (unsigned char *)buffer, capacity, (unsigned char *)count);
}

uint32_t ndef_write_text(const uint8_t *language, ndef_size language_length, const uint8_t *text, ndef_size text_length, uint32_t flags, uint8_t *buffer, ndef_size capacity, ndef_size *count) {
    return nd_ndef_write_text((unsigned char *)language, language_length, (unsigned char *)text, text_length, flags, (unsigned char *)buffer, capacity, (unsigned char *)count);
}

uint32_t ndef_status_name(uint32_t status, uint8_t *buffer, ndef_size capacity, ndef_size *count) {
    return nd_ndef_status_name(status, (unsigned char *)buffer, capacity, (unsigned char *)count);
}

uint32_t ndef_check_layout(const uint8_t *payload, ndef_size length, const ndef_layout_field *fields, ndef_size fields_count, ndef_laid_out *out) {
    return nd_ndef_check_layout((unsigned char *)payload, length, (unsigned char *)fields, fields_count, (unsigned char *)out);
}

uint32_t ndef_kind(const uint8_t *bytes, ndef_size length, const ndef_record *record, uint32_t within) {
    return nd_ndef_kind((unsigned char *)bytes, length, (unsigned char *)record, within);
}

uint32_t ndef_find_id(const uint8_t *bytes, ndef_size length, ndef_size at, const uint8_t *id, ndef_size id_length, ndef_record *out) {
    return nd_ndef_find_id((unsigned char *)bytes, length, at, (unsigned char *)id, id_length, (unsigned char *)out);
}

uint32_t ndef_find_type(const uint8_t *bytes, ndef_size length, ndef_size at, uint32_t tnf, const uint8_t *type, ndef_size type_length, ndef_record *out) {
    return nd_ndef_find_type((unsigned char *)bytes, length, at, tnf, (unsigned char *)type, type_length, (unsigned char *)out);
}

uint32_t ndef_poster_media_type(const uint8_t *payload, ndef_size length, ndef_part *out) {
    return nd_ndef_poster_media_type((unsigned char *)payload, length, (unsigned char *)out);
}

uint32_t ndef_field_at(const uint8_t *bytes, ndef_size length, const ndef_limits *limits, ndef_size place, ndef_field *out, ndef_checked *refusal) {
    return nd_ndef_field_at((unsigned char *)bytes, length, (unsigned char *)limits, place, (unsigned char *)out, (unsigned char *)refusal);
}

uint32_t ndef_find_hint(const uint8_t *bytes, ndef_size length, const ndef_limits *limits, ndef_found *out) {
    return nd_ndef_find_hint((unsigned char *)bytes, length, (unsigned char *)limits, (unsigned char *)out);
}

uint32_t ndef_hint(const uint8_t *bytes, ndef_size length, const ndef_limits *limits, uint8_t *buffer, ndef_size capacity, ndef_size *count) {
    return nd_ndef_hint((unsigned char *)bytes, length, (unsigned char *)limits, (unsigned char *)buffer, capacity, (unsigned char *)count);
}

uint32_t ndef_next_field(const uint8_t *bytes, ndef_size length, const ndef_limits *limits, ndef_field *field, ndef_checked *refusal) {
    return nd_ndef_next_field((unsigned char *)bytes, length, (unsigned char *)limits, (unsigned char *)field, (unsigned char *)refusal);
}

uint32_t ndef_refusal_message(const uint8_t *bytes, ndef_size length, const ndef_limits *limits, uint8_t *buffer, ndef_size capacity, ndef_size *count) {
    return nd_ndef_refusal_message((unsigned char *)bytes, length, (unsigned char *)limits, (unsigned char *)buffer, capacity, (unsigned char *)count);
}

uint32_t ndef_text_in_utf8(const uint8_t *payload, ndef_size length, uint8_t *buffer, ndef_size capacity, ndef_size *count, ndef_checked *refusal) {
    return nd_ndef_text_in_utf8((unsigned char *)payload, length, (unsigned char *)buffer, capacity, (unsigned char *)count, (unsigned char *)refusal);
}

uint32_t ndef_split_uri(const uint8_t *payload, ndef_size length, uint32_t flags, ndef_uri_parts *out, ndef_checked *refusal) {
    return nd_ndef_split_uri((unsigned char *)payload, length, flags, (unsigned char *)out, (unsigned char *)refusal);
}

uint32_t ndef_write_poster(const uint8_t *bytes, ndef_size length, const ndef_poster_writing *how, const ndef_title_writing *titles, ndef_size titles_count, const ndef_icon_writing *icons, ndef_size icons_count, uint8_t *buffer, ndef_size capacity, ndef_size *count) {
    return nd_ndef_write_poster((unsigned char *)bytes, length, (unsigned char *)how, (unsigned char *)titles, titles_count, (unsigned char *)icons, icons_count, (unsigned char *)buffer, capacity, (unsigned char *)count);
}

uint32_t ndef_poster(const uint8_t *payload, ndef_size length, uint32_t flags, ndef_poster_parts *out, ndef_checked *refusal) {
    return nd_ndef_poster((unsigned char *)payload, length, flags, (unsigned char *)out, (unsigned char *)refusal);
}

uint32_t ndef_text(const uint8_t *payload, ndef_size length, ndef_text_parts *out, ndef_checked *refusal) {
    return nd_ndef_text((unsigned char *)payload, length, (unsigned char *)out, (unsigned char *)refusal);
}

uint32_t ndef_title(const uint8_t *payload, ndef_size length, const uint8_t *language, ndef_size language_length, ndef_text_parts *out) {
    return nd_ndef_title((unsigned char *)payload, length, (unsigned char *)language, language_length, (unsigned char *)out);
}

uint32_t ndef_items(const uint8_t *bytes, ndef_size length, const ndef_limits *limits, ndef_checked *out, ndef_item *items, ndef_size capacity) {
    return nd_ndef_items((unsigned char *)bytes, length, (unsigned char *)limits, (unsigned char *)out, (unsigned char *)items, capacity);
}

uint32_t ndef_write_request(uint32_t minor, uint32_t collision, const uint8_t *bytes, ndef_size length, const ndef_part *references, ndef_size references_count, const ndef_alternative_writing *alternatives, ndef_size alternatives_count, uint8_t *buffer, ndef_size capacity, ndef_size *count) {
    return nd_ndef_write_request(minor, collision, (unsigned char *)bytes, length, (unsigned char *)references, references_count, (unsigned char *)alternatives, alternatives_count, (unsigned char *)buffer, capacity, (unsigned char *)count);
}

uint32_t ndef_write_select(const ndef_select_writing *how, const uint8_t *bytes, ndef_size length, const ndef_part *references, ndef_size references_count, const ndef_alternative_writing *alternatives, ndef_size alternatives_count, uint8_t *buffer, ndef_size capacity, ndef_size *count) {
    return nd_ndef_write_select((unsigned char *)how, (unsigned char *)bytes, length, (unsigned char *)references, references_count, (unsigned char *)alternatives, alternatives_count, (unsigned char *)buffer, capacity, (unsigned char *)count);
}

uint32_t ndef_link_at(const uint8_t *bytes, ndef_size length, const uint8_t *payload, ndef_size payload_length, ndef_size index, ndef_link *out) {
    return nd_ndef_link_at((unsigned char *)bytes, length, (unsigned char *)payload, payload_length, index, (unsigned char *)out);
}

uint32_t ndef_request(const uint8_t *payload, ndef_size length, uint32_t flags, ndef_request_parts *out, ndef_checked *refusal) {
    return nd_ndef_request((unsigned char *)payload, length, flags, (unsigned char *)out, (unsigned char *)refusal);
}

uint32_t ndef_select(const uint8_t *payload, ndef_size length, uint32_t flags, ndef_select_parts *out, ndef_checked *refusal) {
    return nd_ndef_select((unsigned char *)payload, length, flags, (unsigned char *)out, (unsigned char *)refusal);
}

uint32_t ndef_links(const uint8_t *bytes, ndef_size length, const uint8_t *payload, ndef_size payload_length, ndef_link *links, ndef_size capacity, ndef_size *count) {
    return nd_ndef_links((unsigned char *)bytes, length, (unsigned char *)payload, payload_length, (unsigned char *)links, capacity, (unsigned char *)count);
}

uint32_t ndef_poster_icons(const uint8_t *payload, ndef_size length, ndef_icon *icons, ndef_size capacity, ndef_size *count) {
    return nd_ndef_poster_icons((unsigned char *)payload, length, (unsigned char *)icons, capacity, (unsigned char *)count);
}

uint32_t ndef_poster_titles(const uint8_t *payload, ndef_size length, ndef_text_parts *titles, ndef_size capacity, ndef_size *count) {
    return nd_ndef_poster_titles((unsigned char *)payload, length, (unsigned char *)titles, capacity, (unsigned char *)count);
}

uint32_t ndef_append(ndef_message_builder *builder, const uint8_t *type, ndef_size type_length, const uint8_t *id, ndef_size id_length, const uint8_t *payload, ndef_size payload_length, const ndef_writing *how, uint8_t *buffer, ndef_size capacity, ndef_size *count) {
    return nd_ndef_append((unsigned char *)builder, (unsigned char *)type, type_length, (unsigned char *)id, id_length, (unsigned char *)payload, payload_length, (unsigned char *)how, (unsigned char *)buffer, capacity, (unsigned char *)count);
}

uint32_t ndef_write_record(const uint8_t *type, ndef_size type_length, const uint8_t *id, ndef_size id_length, const uint8_t *payload, ndef_size payload_length, const ndef_writing *how, uint8_t *buffer, ndef_size capacity, ndef_size *count) {
    return nd_ndef_write_record((unsigned char *)type, type_length, (unsigned char *)id, id_length, (unsigned char *)payload, payload_length, (unsigned char *)how, (unsigned char *)buffer, capacity, (unsigned char *)count);
}

uint32_t ndef_writer_begin(ndef_writer *writer, ndef_size type_length, ndef_size id_length, ndef_size payload_length, const ndef_writing *how) {
    return nd_ndef_writer_begin((unsigned char *)writer, type_length, id_length, payload_length, (unsigned char *)how);
}

uint32_t ndef_writer_next(ndef_writer *writer, const uint8_t *type, ndef_size type_length, const uint8_t *id, ndef_size id_length, const uint8_t *part, ndef_size part_length, uint8_t *buffer, ndef_size capacity, ndef_size *count) {
    return nd_ndef_writer_next((unsigned char *)writer, (unsigned char *)type, type_length, (unsigned char *)id, id_length, (unsigned char *)part, part_length, (unsigned char *)buffer, capacity, (unsigned char *)count);
}

uint32_t ndef_fields(const uint8_t *bytes, ndef_size length, const ndef_limits *limits, ndef_field *fields, ndef_size capacity, ndef_size *count, ndef_checked *refusal) {
    return nd_ndef_fields((unsigned char *)bytes, length, (unsigned char *)limits, (unsigned char *)fields, capacity, (unsigned char *)count, (unsigned char *)refusal);
}

uint32_t ndef_payload_fields(uint32_t tnf, const uint8_t *type, ndef_size type_length, const uint8_t *payload, ndef_size length, ndef_field *fields, ndef_size capacity, ndef_size *count) {
    return nd_ndef_payload_fields(tnf, (unsigned char *)type, type_length, (unsigned char *)payload, length, (unsigned char *)fields, capacity, (unsigned char *)count);
}
