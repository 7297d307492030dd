// Written by ports/erase of crates/ndef_piece/src/bounds.rt, which has the contracts: do not edit.
//! The lengths of the heads that continue some octets.

use crate::proved::ndef_format::header::{is_set, tnf_number, width, CHUNK, END, ID_THERE};
use crate::proved::ndef_piece::header::{size, tnf_of};
use crate::proved::ndef_piece::payload_length::{least_and_greatest, length_front};
use crate::proved::ndef_piece::{Head, Spot};
use crate::proved::ndef_value::Tnf;

/// The common properties of the heads (NDEF 1.0, record layout) that continue some octets, and the least
/// and the greatest of their lengths, in octets. Each three lengths within these ranges are those of one
/// such head.
#[derive(Clone, Copy, Debug, PartialEq, Eq, Hash)]
pub struct Bounds {
    /// ME: the piece is the last of its message.
    pub last: bool,
    /// CF: another piece of its record follows.
    pub chunked: bool,
    /// TNF, the reserved 7 being read as Unknown.
    pub tnf: Tnf,
    /// The number of octets of the head that are still to come, 0 to 6.
    pub left: usize,
    /// The least and the greatest TYPE_LENGTH.
    pub kind: (u8, u8),
    /// The least and the greatest ID_LENGTH, 0 where there is none.
    pub id: (u8, u8),
    /// The least and the greatest PAYLOAD_LENGTH.
    pub payload: (u64, u64),
}

/// The least and the greatest payload length of the heads that go on after these octets.
pub(crate) fn range(spot: &Spot, taken: &[u8]) -> (u64, u64) {
    let room = spot.room;
    match taken {
        [] => (0, u64::from(room)),
        [header, ..] => {
            if tnf_number(*header) == 0 {
                return (0, 0);
            }
            let (least, greatest) = least_and_greatest(width(*header), length_front(taken));
            (u64::from(least), u64::from(greatest.min(room)))
        }
    }
}

/// The bounds after these octets of a head, where there are some.
pub(crate) fn front_bounds(spot: &Spot, taken: &[u8]) -> Option<Bounds> {
    let payload = range(spot, taken);
    match taken {
        [] => None,
        [header, rest @ ..] => Some(Bounds {
            last: is_set(END, *header),
            chunked: is_set(CHUNK, *header),
            tnf: tnf_of(tnf_number(*header)),
            left: size(*header) - taken.len(),
            kind: kind_range(tnf_number(*header), rest),
            id: id_range(tnf_number(*header), is_set(ID_THERE, *header)),
            payload,
        }),
    }
}

/// The least and the greatest type length of a type name format, given these octets after the
/// header octet.
fn kind_range(tnf: u8, rest: &[u8]) -> (u8, u8) {
    match *rest {
        [] if tnf > 0 && tnf < 5 => (1, 255),
        [] => (0, 0),
        [kind, ..] => (kind, kind),
    }
}

/// The least and the greatest id length of a type name format, before it is read.
fn id_range(tnf: u8, id_there: bool) -> (u8, u8) {
    if id_there && tnf != 0 {
        (0, 255)
    } else {
        (0, 0)
    }
}

/// The bounds after a whole head: its own lengths.
pub(crate) fn bounds_at(head: &Head) -> Bounds {
    let id = head.id_length.unwrap_or(0);
    let payload = u64::from(head.payload_length);
    Bounds {
        last: head.last,
        chunked: head.chunked,
        tnf: head.tnf,
        left: 0,
        kind: (head.kind_length, head.kind_length),
        id: (id, id),
        payload: (payload, payload),
    }
}
