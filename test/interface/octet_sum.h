/* ---- sums of octets: a test adds this file to a copy of the crates */

/* What octets add up to. */
typedef struct ndef_octet_sum_parts {
    ndef_size added; /* the number of octets that are added */
    /* what they add up to, from the first of them to the last. Only the lowest 32 bits of the sum are kept */
    uint32_t sum;
} ndef_octet_sum_parts;

/* Adds up octets, for ndef_octet_sum_parts, say those of a payload of NDEF_KIND_TEXT that ndef_record_at found.
 *
 * It reads `bytes` once:
 *   - each of them counts as a number from 0 to 255, whatever the text in which it stands says, and however often the
 *     same octet comes;
 *   - none is left out.
 * NDEF_OK: `out` has the sum. It is 0 where each octet is 0, and it may be 0 where the octets are others, since only
 *   its lowest bits are kept.
 * NDEF_BAD_ARGUMENT: there are no octets. */
uint32_t ndef_octet_sum(const uint8_t *bytes, ndef_size length, ndef_octet_sum_parts *out) NDEF_ANSWERS(3);

