// Written by ports/erase of crates/ndef_types/src/utf16.rt, which has the contracts: do not edit.
//! Texts in UTF-16 (RFC 2781).

/// Whether a text in UTF-16 is little-endian, and its octets without the byte order mark (RFC 2781,
/// section 3.2).
pub fn unmark(octets: &[u8]) -> (bool, &[u8]) {
    match octets {
        [0xfe, 0xff, rest @ ..] => (false, rest),
        [0xff, 0xfe, rest @ ..] => (true, rest),
        _ => (false, octets),
    }
}

/// The number of UTF-16 units of a text (RFC 2781, section 2.1).
pub fn units_len(text: &str) -> u64 {
    let mut count = 0;
    for c in text.chars() {
        count += c.len_utf16() as u64;
    }
    count
}
