// Written by ports/erase of crates/ndef_piece/src/write.rt, which has the contracts: do not edit.
//! The head of a piece, written.

use crate::proved::ndef_piece::header::header_octet;
use crate::proved::ndef_piece::Head;
use crate::proved::shim::byteorder::{BigEndian, ByteOrder};

/// Writes the octets of a head (NDEF 1.0, record layout) up to ID_LENGTH, leaves the rest of `out`
/// as it is, and returns their number, 3 to 7. The short form is for at most 255 payload bytes. No
/// head is written with the reserved type name format 7.
pub fn write_head(head: &Head, out: &mut [u8; 7]) -> usize {
    out[0] = header_octet(head);
    out[1] = head.kind_length;
    let at = if head.short {
        out[2] = head.payload_length as u8;
        3
    } else {
        BigEndian::write_u32(&mut out[2..], head.payload_length);
        6
    };
    match head.id_length {
        Some(length) => {
            out[at] = length;
            at + 1
        }
        None => at,
    }
}
