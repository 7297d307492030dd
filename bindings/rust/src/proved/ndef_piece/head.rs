// Written by ports/erase of crates/ndef_piece/src/head.rt, which has the contracts: do not edit.
//! The head of a piece.

use crate::proved::ndef_format::header::{is_set, tnf_number, width, BEGIN, CHUNK, END, ID_THERE, SHORT};
use crate::proved::ndef_piece::header::tnf_of;
use crate::proved::ndef_piece::payload_length::{least_and_greatest, length_front};
use crate::proved::ndef_value::Tnf;

/// The fields of a piece before its TYPE (NDEF 1.0, record layout).
#[derive(Clone, Copy, Debug, PartialEq, Eq, Hash)]
pub struct Head {
    /// MB: the piece is the first of its message.
    pub first: bool,
    /// ME: it is the last of its message.
    pub last: bool,
    /// CF: another piece of its record follows.
    pub chunked: bool,
    /// SR: its PAYLOAD_LENGTH has one octet in place of four.
    pub short: bool,
    /// TNF, the reserved 7 being read as Unknown.
    pub tnf: Tnf,
    /// TYPE_LENGTH, in octets.
    pub kind_length: u8,
    /// ID_LENGTH, in octets, there exactly if IL is set.
    pub id_length: Option<u8>,
    /// PAYLOAD_LENGTH: the payload bytes of this piece alone.
    pub payload_length: u32,
}

/// The id length in the octets of a whole head.
fn id_length_of(taken: &[u8]) -> Option<u8> {
    let at = 2 + width(taken[0]);
    if is_set(ID_THERE, taken[0]) {
        Some(taken[at])
    } else {
        None
    }
}

/// The head that these octets are.
pub(crate) fn head_of(taken: &[u8]) -> Head {
    let header = taken[0];
    let (payload_length, _) = least_and_greatest(width(header), length_front(taken));
    Head {
        first: is_set(BEGIN, header),
        last: is_set(END, header),
        chunked: is_set(CHUNK, header),
        short: is_set(SHORT, header),
        tnf: tnf_of(tnf_number(header)),
        kind_length: taken[1],
        payload_length,
        id_length: id_length_of(taken),
    }
}
