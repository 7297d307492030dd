// Written by ports/erase of crates/ndef_diagnostics/src/text_remark.rt, which has the contracts: do not edit.
//! Remarks about the payload of a text.

use crate::proved::ndef_diagnostics::begun::after;
use crate::proved::ndef_diagnostics::Remark;

/// Whether octets begin with a byte order mark of UTF-16.
fn is_marked(octets: &[u8]) -> bool {
    matches!(octets, [0xFE, 0xFF, ..] | [0xFF, 0xFE, ..])
}

/// Whether octets are pairs of which the second octet is 0.
fn is_swapped(octets: &[u8]) -> bool {
    let mut rest = octets;
    while let [_, second, more @ ..] = rest {
        if *second != 0 {
            return false;
        }
        rest = more;
    }
    rest.is_empty()
}

/// A text after its language code, where it is in UTF-16 or not.
fn unmarked_remark(wide: bool, octets: &[u8]) -> Option<Remark> {
    if wide && !octets.is_empty() && !is_marked(octets) && is_swapped(octets) {
        Some(Remark::LittleEndian)
    } else {
        None
    }
}

/// Returns the remark about the payload of a text as a whole (RTD Text 1.0): it is likely little-endian, without a byte
/// order mark. None if nothing strange is known of it.
pub fn text_remark_of(payload: &[u8]) -> Option<Remark> {
    match payload {
        [] => None,
        [status, more @ ..] => unmarked_remark(*status >= 128, after(more, usize::from(*status % 64))),
    }
}
