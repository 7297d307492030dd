// Written by ports/erase of crates/ndef_piece/src/header.rt, which has the contracts: do not edit.
//! The header octet of a piece (NDEF 1.0, record layout).

use crate::proved::ndef_format::header::{is_set, tnf_number, width, BEGIN, CHUNK, END, ID_THERE, SHORT};
use crate::proved::ndef_piece::Head;
use crate::proved::ndef_value::Tnf;

/// The type name format of a number.
pub(crate) fn tnf_of(number: u8) -> Tnf {
    match number {
        0 => Tnf::Empty,
        1 => Tnf::WellKnown,
        2 => Tnf::Media,
        3 => Tnf::AbsoluteUri,
        4 => Tnf::External,
        6 => Tnf::Unchanged,
        _ => Tnf::Unknown,
    }
}

/// The type name format that a header octet gives (NDEF 1.0, TNF). The reserved 7 is read as
/// Unknown.
pub fn header_tnf(header: u8) -> Tnf {
    tnf_of(tnf_number(header))
}

/// The number of octets of the head.
pub(crate) fn size(header: u8) -> usize {
    2 + width(header) + usize::from(is_set(ID_THERE, header))
}

/// The header octet of a head.
pub(crate) fn header_octet(head: &Head) -> u8 {
    u8::from(head.first) << BEGIN
        | u8::from(head.last) << END
        | u8::from(head.chunked) << CHUNK
        | u8::from(head.short) << SHORT
        | u8::from(head.id_length.is_some()) << ID_THERE
        | head.tnf.code()
}
