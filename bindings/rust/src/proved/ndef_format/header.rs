// Written by ports/erase of crates/ndef_format/src/header.rt, which has the contracts: do not edit.
//! The header octet of a piece of a record (NDEF 1.0, record layout): MB, ME, CF, SR and IL in bits 7 to 3, the type
//! name format in bits 2 to 0.

/// The bit of MB (NDEF 1.0, MB): the piece begins its message. Bit 0 is the lowest.
pub const BEGIN: u32 = 7;

/// The bit of ME (NDEF 1.0, ME): the piece ends its message.
pub const END: u32 = 6;

/// The bit of CF (NDEF 1.0, CF): another piece of the record follows.
pub const CHUNK: u32 = 5;

/// The bit of SR (NDEF 1.0, SR): PAYLOAD_LENGTH has one octet.
pub const SHORT: u32 = 4;

/// The bit of IL (NDEF 1.0, IL): ID_LENGTH is there.
pub const ID_THERE: u32 = 3;

/// Whether a bit of a header octet is set (NDEF 1.0, record layout).
#[inline(always)]
pub fn is_set(bit: u32, header: u8) -> bool {
    header >> bit & 1 == 1
}

/// The number of the type name format in a header octet, 0 to 7 (NDEF 1.0, TNF).
#[inline(always)]
pub fn tnf_number(header: u8) -> u8 {
    header & 7
}

/// The number of octets of PAYLOAD_LENGTH (NDEF 1.0, PAYLOAD_LENGTH): 1 with SR, else 4.
#[inline(always)]
pub fn width(header: u8) -> usize {
    if is_set(SHORT, header) {
        1
    } else {
        4
    }
}
