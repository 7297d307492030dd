"""The helpers nd_* that a C file may need, in the order in which it has them. It gets those that its functions call.

A number of 128 bits is two of 64. A number with a fraction is rounded to 64 bits after each operation: so what a machine keeps of it, and a compiler
that makes one operation of two, change nothing but double rounding on x87."""

WIDTHS = (8, 16, 32, 64)
WIDE = 'struct nd_wide '
WIDE_BITS = {f'{name}_i128': f'''static struct nd_wide nd_{name}_i128(struct nd_wide a, struct nd_wide b) {{
    return nd_wide(a.low {sign} b.low, a.high {sign} b.high);
}}''' for name, sign in (('and', '&'), ('or', '|'), ('xor', '^'))}
WIDE_CHOICES = {f'{sign}{name}_i128': f'''static struct nd_wide nd_{sign}{name}_i128(struct nd_wide a, struct nd_wide b) {{
    return nd_{sign}lt_i128(a, b) ? {chosen};
}}''' for sign in 'us' for name, chosen in (('min', 'a : b'), ('max', 'b : a'))}
HELPERS = {
    'wide': '''struct nd_wide { uint64_t low, high; };
static struct nd_wide nd_wide(uint64_t low, uint64_t high) {
    struct nd_wide v;
    v.low = low;
    v.high = high;
    return v;
}''',
    'sext_i128': 'static struct nd_wide nd_sext_i128(uint64_t v) { return nd_wide(v, 0 - (v >> 63)); }',
    'add_i128': '''static struct nd_wide nd_add_i128(struct nd_wide a, struct nd_wide b) {
    uint64_t low = a.low + b.low;
    return nd_wide(low, a.high + b.high + (low < a.low));
}''',
    'sub_i128': '''static struct nd_wide nd_sub_i128(struct nd_wide a, struct nd_wide b) {
    return nd_wide(a.low - b.low, a.high - b.high - (a.low < b.low));
}''',
    'mul_i128': '''static struct nd_wide nd_mul_i128(struct nd_wide a, struct nd_wide b) {
    uint64_t a0 = a.low & 0xFFFFFFFFU, a1 = a.low >> 32, b0 = b.low & 0xFFFFFFFFU, b1 = b.low >> 32;
    uint64_t first = a0 * b1, second = a1 * b0;
    struct nd_wide middle = nd_add_i128(nd_wide(first << 32, first >> 32), nd_wide(second << 32, second >> 32));
    return nd_add_i128(nd_wide(a0 * b0, a1 * b1 + a.low * b.high + a.high * b.low), middle);
}''',
    'shl_i128': '''static struct nd_wide nd_shl_i128(struct nd_wide a, struct nd_wide b) {
    uint32_t n = (uint32_t)b.low & 127;
    if (n == 0) return a;
    if (n >= 64) return nd_wide(0, a.low << (n - 64));
    return nd_wide(a.low << n, a.high << n | a.low >> (64 - n));
}''',
    'lshr_i128': '''static struct nd_wide nd_lshr_i128(struct nd_wide a, struct nd_wide b) {
    uint32_t n = (uint32_t)b.low & 127;
    if (n == 0) return a;
    if (n >= 64) return nd_wide(a.high >> (n - 64), 0);
    return nd_wide(a.low >> n | a.high << (64 - n), a.high >> n);
}''',
    'eq_i128': 'static uint8_t nd_eq_i128(struct nd_wide a, struct nd_wide b) { return a.low == b.low && a.high == b.high; }',
    'ult_i128': '''static uint8_t nd_ult_i128(struct nd_wide a, struct nd_wide b) {
    return a.high < b.high || (a.high == b.high && a.low < b.low);
}''',
    'slt_i128': '''static uint8_t nd_slt_i128(struct nd_wide a, struct nd_wide b) {
    return (int64_t)a.high < (int64_t)b.high || (a.high == b.high && a.low < b.low);
}''',
    **WIDE_BITS,
    **WIDE_CHOICES,
    'usub_sat_i128': '''static struct nd_wide nd_usub_sat_i128(struct nd_wide a, struct nd_wide b) {
    return nd_ult_i128(a, b) ? nd_wide(0, 0) : nd_sub_i128(a, b);
}''',
    'load_128': '''static struct nd_wide nd_load_128(const unsigned char *from) {
    return nd_wide(nd_load_64(from), nd_load_64(from + 8));
}''',
    'store_128': '''static void nd_store_128(unsigned char *to, struct nd_wide v) {
    nd_store_64(to, v.low);
    nd_store_64(to + 8, v.high);
}''',
    # The first place in memory that is aligned to 16: it has 15 bytes more.
    'aligned': 'static unsigned char *nd_aligned(unsigned char *from) { return (unsigned char *)(((uintptr_t)from + 15) & ~(uintptr_t)15); }',
    'fence': 'static double nd_fence(double v) { volatile double rounded = v; return rounded; }',
    'real': 'static double nd_real(uint64_t bits) { double v; nd_memcpy(&v, &bits, 8); return v; }',
    'bits': 'static uint64_t nd_bits(double v) { uint64_t bits; nd_memcpy(&bits, &v, 8); return bits; }',
    'bswap_i16': 'static uint16_t nd_bswap_i16(uint16_t v) { return (uint16_t)(v << 8 | v >> 8); }',
    'bswap_i32': '''static uint32_t nd_bswap_i32(uint32_t v) {
    return v << 24 | (v & 0xFF00U) << 8 | (v >> 8 & 0xFF00U) | v >> 24;
}''',
    'bswap_i64': '''static uint64_t nd_bswap_i64(uint64_t v) {
    return (uint64_t)nd_bswap_i32((uint32_t)v) << 32 | nd_bswap_i32((uint32_t)(v >> 32));
}''',
    'load_part': '''static uint64_t nd_load_part(const unsigned char *from, size_t size) {
    uint64_t v = 0;
    nd_memcpy(&v, from, size);
    return v;
}''',
    'store_part': '''static void nd_store_part(unsigned char *to, uint64_t v, size_t size) { nd_memcpy(to, &v, size); }''',
    # No object has more bytes than a ptrdiff_t counts. GCC doesn't know that of a sum, and would warn.
    'copy': '''static void nd_copy(unsigned char *to, const unsigned char *from, uint64_t size) {
    size_t count = (size_t)size;
    if (count - 1 < (size_t)PTRDIFF_MAX) nd_memcpy(to, from, count);
}''',
    'move': '''static void nd_move(unsigned char *to, const unsigned char *from, uint64_t size) {
    size_t count = (size_t)size;
    if (count - 1 < (size_t)PTRDIFF_MAX) nd_memmove(to, from, count);
}''',
    'fill': '''static void nd_fill(unsigned char *to, uint8_t octet, uint64_t size) {
    if (size) nd_memset(to, octet, (size_t)size);
}''',
}
# Helpers for each width, whose number of bits stands for %d.
FOR_WIDTHS = {
    'load_%d': '''static uint%d_t nd_load_%d(const unsigned char *from) {
    uint%d_t v;
    nd_memcpy(&v, from, sizeof v);
    return v;
}''',
    'store_%d': 'static void nd_store_%d(unsigned char *to, uint%d_t v) { nd_memcpy(to, &v, sizeof v); }',
    'umin_i%d': 'static uint%d_t nd_umin_i%d(uint%d_t a, uint%d_t b) { return a < b ? a : b; }',
    'umax_i%d': 'static uint%d_t nd_umax_i%d(uint%d_t a, uint%d_t b) { return a > b ? a : b; }',
    'smin_i%d': 'static uint%d_t nd_smin_i%d(uint%d_t a, uint%d_t b) { return (int%d_t)a < (int%d_t)b ? a : b; }',
    'smax_i%d': 'static uint%d_t nd_smax_i%d(uint%d_t a, uint%d_t b) { return (int%d_t)a > (int%d_t)b ? a : b; }',
    'usub_sat_i%d': 'static uint%d_t nd_usub_sat_i%d(uint%d_t a, uint%d_t b) { return (uint%d_t)(a > b ? a - b : 0); }',
    'uadd_sat_i%d': '''static uint%d_t nd_uadd_sat_i%d(uint%d_t a, uint%d_t b) {
    uint%d_t sum = (uint%d_t)(a + b);
    return sum < a ? (uint%d_t)-1 : sum;
}''',
    'ctlz_i%d': '''static uint%d_t nd_ctlz_i%d(uint%d_t v) {
    uint%d_t count = 0;
    if (!v) return %d;
    while (!(v >> (%d - 1))) { v <<= 1; count++; }
    return count;
}''',
    'abs_i%d': 'static uint%d_t nd_abs_i%d(uint%d_t v) { return (int%d_t)v < 0 ? (uint%d_t)(0 - v) : v; }',
    'cttz_i%d': '''static uint%d_t nd_cttz_i%d(uint%d_t v) {
    uint%d_t count = 0;
    if (!v) return %d;
    while (!(v & 1)) { v >>= 1; count++; }
    return count;
}''',
}
OF_WIDTHS = {name % bits: text.replace('%d', str(bits)) for name, text in FOR_WIDTHS.items() for bits in WIDTHS}
# Those of pointers call those of numbers, which come first.
HELPERS = {**OF_WIDTHS, **HELPERS}
NEEDED = {'bswap_i64': ['bswap_i32'], 'load_128': ['wide', 'load_64'], 'store_128': ['wide', 'store_64'], 'mul_i128': ['add_i128'], 'usub_sat_i128': ['ult_i128', 'sub_i128'],
          **{f'{sign}{name}_i128': [f'{sign}lt_i128'] for sign in 'us' for name in ('min', 'max')}}
