// Written by ports/erase of crates/ndef_piece/src/payload_length.rt, which has the contracts: do not edit.
//! The octets of PAYLOAD_LENGTH, most significant first (NDEF 1.0, PAYLOAD_LENGTH).

use crate::proved::ndef_format::header::{is_set, width, SHORT};

/// The least and the greatest number of `width` octets, of which these are the front.
pub(crate) fn least_and_greatest(width: usize, front: &[u8]) -> (u32, u32) {
    match *front {
        [] if width == 1 => (0, 255),
        [] => (0, u32::MAX),
        [a] if width == 1 => (u32::from(a), u32::from(a)),
        [a] => (u32::from_be_bytes([a, 0, 0, 0]), u32::from_be_bytes([a, 255, 255, 255])),
        [a, b] => (u32::from_be_bytes([a, b, 0, 0]), u32::from_be_bytes([a, b, 255, 255])),
        [a, b, c] => (u32::from_be_bytes([a, b, c, 0]), u32::from_be_bytes([a, b, c, 255])),
        [a, b, c, d, ..] => {
            let n = u32::from_be_bytes([a, b, c, d]);
            (n, n)
        }
    }
}

/// The least number that these octets of PAYLOAD_LENGTH and then one more can spell.
pub(crate) fn least(header: u8, front: &[u8], octet: u8) -> u32 {
    match *front {
        [] if is_set(SHORT, header) => u32::from(octet),
        [] => u32::from_be_bytes([octet, 0, 0, 0]),
        [a] => u32::from_be_bytes([a, octet, 0, 0]),
        [a, b] => u32::from_be_bytes([a, b, octet, 0]),
        [a, b, c, ..] => u32::from_be_bytes([a, b, c, octet]),
    }
}

/// The octets of PAYLOAD_LENGTH among these of a head.
pub(crate) fn length_front(taken: &[u8]) -> &[u8] {
    match taken {
        [header, _, rest @ ..] => {
            let count = width(*header);
            if rest.len() < count {
                rest
            } else {
                &rest[..count]
            }
        }
        _ => &[],
    }
}
