// Written by ports/erase of crates/ndef_lang/src/ascii.rt, which has the contracts: do not edit.
//! Whether octets are ASCII. Only a true answer is conclusive.

/// Whether up to three octets are ASCII.
#[inline(always)]
fn are_few(bytes: &[u8]) -> bool {
    match bytes {
        [] => true,
        [a] => *a <= 0x7f,
        [a, b] => *a <= 0x7f && *b <= 0x7f,
        [a, b, c] => *a <= 0x7f && *b <= 0x7f && *c <= 0x7f,
        _ => false,
    }
}

/// Whether four octets are ASCII.
#[inline(always)]
fn are_four(a: u8, b: u8, c: u8, d: u8) -> bool {
    u32::from_le_bytes([a, b, c, d]) & 0x8080_8080 == 0
}

/// Whether four to seven octets are ASCII: the first four, and the last four.
#[inline(always)]
fn are_up_to_seven(bytes: &[u8]) -> bool {
    if let [a, b, c, d, ..] = bytes {
        if let [.., e, f, g, h] = bytes {
            return are_four(*a, *b, *c, *d) && are_four(*e, *f, *g, *h);
        }
    }
    are_few(bytes)
}

/// Whether they are eight octets of ASCII.
#[inline(always)]
fn are_eight(bytes: &[u8]) -> bool {
    match bytes {
        [a, b, c, d, e, f, g, h] => are_four(*a, *b, *c, *d) && are_four(*e, *f, *g, *h),
        _ => false,
    }
}

/// Whether they are eight to sixteen octets of ASCII, whose ends overlap.
#[inline(always)]
fn are_up_to_sixteen(bytes: &[u8]) -> bool {
    are_eight(&bytes[..8]) && are_eight(&bytes[bytes.len() - 8..])
}

/// Whether more octets are ASCII, eight after eight: a text that isn't costs no more than one that is.
#[inline(never)]
fn are_many(bytes: &[u8]) -> bool {
    let mut rest = bytes;
    while rest.len() > 16 {
        if !are_eight(&rest[..8]) {
            return false;
        }
        rest = &rest[8..];
    }
    are_up_to_sixteen(rest)
}

/// Whether all octets are ASCII, of which there are mostly few.
#[inline(always)]
pub(crate) fn is_ascii(bytes: &[u8]) -> bool {
    if bytes.len() < 8 {
        return are_up_to_seven(bytes);
    }
    if bytes.len() > 16 {
        return are_many(bytes);
    }
    are_up_to_sixteen(bytes)
}
