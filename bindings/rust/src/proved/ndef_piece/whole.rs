// Written by ports/erase of crates/ndef_piece/src/whole.rt, which has the contracts: do not edit.
//! A whole piece at the front of a slice, its parts left where they are.

use crate::proved::ndef_format::header::{is_set, tnf_number, BEGIN, CHUNK, END, ID_THERE, SHORT};
use crate::proved::ndef_piece::header::header_tnf;
use crate::proved::ndef_piece::standing::{may_occur, opens, suits};
use crate::proved::ndef_piece::{Head, Spot};
use crate::proved::ndef_value::Tnf;

/// A whole piece (NDEF 1.0, record layout), its parts being slices of the bytes that spell it, and
/// what follows it there.
#[derive(Clone, Copy, Debug, PartialEq, Eq, Hash)]
pub struct WholePiece<'a> {
    /// The header octet, which also shows the reserved type name format 7.
    pub header: u8,
    /// TYPE, 0 to 255 bytes.
    pub kind: &'a [u8],
    /// ID, 0 to 255 bytes, empty where IL is clear.
    pub id: &'a [u8],
    /// PAYLOAD, of this piece alone, 0 to 4294967295 bytes.
    pub payload: &'a [u8],
    /// The bytes after the piece.
    pub rest: &'a [u8],
}

/// PAYLOAD_LENGTH at the front of the bytes, and the rest after it.
#[inline(always)]
fn payload_length_at(header: u8, bytes: &[u8]) -> Option<(u32, &[u8])> {
    if is_set(SHORT, header) {
        let [length, rest @ ..] = bytes else {
            return None;
        };
        Some((u32::from(*length), rest))
    } else {
        let [a, b, c, d, rest @ ..] = bytes else {
            return None;
        };
        Some((u32::from_be_bytes([*a, *b, *c, *d]), rest))
    }
}

/// ID_LENGTH at the front of the bytes, 0 where IL is clear, and the rest after it.
#[inline(always)]
fn id_length_at(header: u8, bytes: &[u8]) -> Option<(u8, &[u8])> {
    if !is_set(ID_THERE, header) {
        return Some((0, bytes));
    }
    let [length, rest @ ..] = bytes else {
        return None;
    };
    Some((*length, rest))
}

/// The head at the front of the bytes, and its number of octets, if it is whole and may occur at the spot.
#[inline(always)]
pub(crate) fn head_at(spot: &Spot, bytes: &[u8]) -> Option<(Head, usize)> {
    let [header, kind_length, rest @ ..] = bytes else {
        return None;
    };
    let (payload_length, rest) = payload_length_at(*header, rest)?;
    let (id_length, rest) = id_length_at(*header, rest)?;
    if !may_occur(spot, *header, usize::from(*kind_length), usize::from(id_length), payload_length as usize) {
        return None;
    }
    let head = Head {
        first: is_set(BEGIN, *header),
        last: is_set(END, *header),
        chunked: is_set(CHUNK, *header),
        short: is_set(SHORT, *header),
        tnf: header_tnf(*header),
        kind_length: *kind_length,
        payload_length,
        id_length: is_set(ID_THERE, *header).then_some(id_length),
    };
    Some((head, bytes.len() - rest.len()))
}

/// The first `count` bytes, and the rest after them.
#[inline(always)]
fn cut(bytes: &[u8], count: usize) -> Option<(&[u8], &[u8])> {
    if bytes.len() < count {
        return None;
    }
    Some(bytes.split_at(count))
}

/// The piece at the front of the bytes, or None if they don't hold a whole one (NDEF 1.0, record
/// layout). Any header octet will do: the call doesn't check whether the piece may occur in a message.
#[inline(always)]
pub fn whole_piece(bytes: &[u8]) -> Option<WholePiece<'_>> {
    let [header, kind_length, rest @ ..] = bytes else {
        return None;
    };
    let (payload_length, rest) = payload_length_at(*header, rest)?;
    let (id_length, rest) = id_length_at(*header, rest)?;
    let (kind, rest) = cut(rest, usize::from(*kind_length))?;
    let (id, rest) = cut(rest, usize::from(id_length))?;
    let (payload, rest) = cut(rest, payload_length as usize)?;
    Some(WholePiece { header: *header, kind, id, payload, rest })
}

impl WholePiece<'_> {
    /// The type name format (NDEF 1.0, TNF), the reserved 7 being read as Unknown.
    pub fn tnf(&self) -> Tnf {
        header_tnf(self.header)
    }

    /// CF: whether another piece of its record follows.
    pub fn is_chunked(&self) -> bool {
        is_set(CHUNK, self.header)
    }
    /// ME: whether it ends its message.
    pub fn is_last(&self) -> bool {
        is_set(END, self.header)
    }

    /// Whether it is clear at once that it may occur at the spot and continues the run there (NDEF
    /// 1.0, chunked payloads).
    pub fn goes_on_at(&self, spot: &Spot) -> bool {
        tnf_number(self.header) == 6
            && self.kind.is_empty()
            && !is_set(ID_THERE, self.header)
            && suits(spot, self.header, self.payload.len())
    }

    /// Whether it is clear at once that it may occur at the spot and begins a record there.
    #[inline(always)]
    pub fn opens_at(&self, spot: &Spot) -> bool {
        opens(spot, self.header, self.kind.len(), self.id.len(), self.payload.len())
    }

    /// Whether it is clear at once that it may occur at the spot and is a record in one piece.
    #[inline(always)]
    pub fn is_record_at(&self, spot: &Spot) -> bool {
        !self.is_chunked() && self.opens_at(spot)
    }
}
