/* The calls of numbers.ll, memory.ll and flow.ll: ports/translate.py reads them here, as those of the library in include/ndef.h. */
#include <stdint.h>
#if defined(__GNUC__)
typedef uint64_t ndef_size __attribute__((aligned(8)));
#else
typedef uint64_t ndef_size;
#endif

void ndef_shifts(uint64_t x, uint64_t by, uint64_t *to);
void ndef_cuts(uint64_t x, uint64_t *to);
void ndef_narrow(uint64_t x, uint64_t y, uint64_t *to);
uint32_t ndef_compared(uint64_t x, uint64_t y);
uint32_t ndef_truths(uint32_t x, uint32_t y);
void ndef_deep(uint64_t x, uint64_t *to);
void ndef_own(uint64_t x, uint64_t y, uint64_t *to);

void ndef_swap(uint8_t *a, uint8_t *b);
uint32_t ndef_before(uint8_t *at, const uint8_t *with);
uint32_t ndef_sum(uint8_t *at);
uint32_t ndef_led(uint8_t *at);
void ndef_moves(uint8_t *bytes, uint64_t count);
uint32_t ndef_none(uint8_t *to, const uint8_t *from, uint64_t count);
void ndef_fill(uint8_t *to, uint8_t octet, uint64_t count, const uint8_t *from);
uint32_t ndef_parts(uint8_t *at, uint32_t x);
uint32_t ndef_last(uint8_t *at);
uint32_t ndef_unaligned(uint8_t *at);
uint32_t ndef_elements(uint8_t *at, uint64_t i64, uint32_t i32, uint8_t i8);
uint32_t ndef_round(uint8_t *at, uint64_t by);
void ndef_constants(uint64_t i, uint8_t *to);
uint32_t ndef_addresses(uint64_t *to, uint32_t x);
uint32_t ndef_slot(const uint8_t *a, const uint8_t *b);

uint32_t ndef_two(uint32_t a, uint32_t b, uint32_t steps);
uint32_t ndef_odd(uint8_t *at);
uint32_t ndef_ordered(uint32_t x, uint32_t y);
uint32_t ndef_swapped(uint32_t a, uint32_t b, uint32_t steps, uint32_t *to);
uint32_t ndef_ring(uint64_t steps);
uint32_t ndef_choice(uint8_t x, uint64_t y);
uint32_t ndef_both(uint32_t x);
void ndef_nested(uint64_t x, uint32_t y, uint8_t z, uint64_t *to);
uint32_t ndef_turned(uint32_t x, uint32_t y);
uint32_t ndef_unused(uint32_t x, uint32_t y);
