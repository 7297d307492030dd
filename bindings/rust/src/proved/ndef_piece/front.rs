// Written by ports/erase of crates/ndef_piece/src/front.rt, which has the contracts: do not edit.
//! A piece at the front of some bytes, as far as it has come.

use crate::proved::ndef_format::header::{is_set, width, CHUNK, ID_THERE};
use crate::proved::ndef_piece::header::header_tnf;
use crate::proved::ndef_piece::whole::{whole_piece, WholePiece};
use crate::proved::ndef_value::Tnf;

/// A piece (NDEF 1.0, record layout), as far as it has come, its parts being slices of the bytes that spell it. Octets
/// that have not come count as 0.
#[derive(Clone, Copy, Debug)]
pub struct PieceFront<'a> {
    /// What has come of it: all of a whole piece.
    pub octets: &'a [u8],
    /// The header octet, which also shows the reserved type name format 7.
    pub header: u8,
    /// Whether all of it has come.
    pub whole: bool,
    /// TYPE, 0 to 255 bytes.
    pub kind: &'a [u8],
    /// ID, 0 to 255 bytes, empty where IL is clear.
    pub id: &'a [u8],
    /// PAYLOAD, of this piece alone.
    pub payload: &'a [u8],
}

/// Returns the octets after the first `count`, none if there are fewer.
fn following(octets: &[u8], count: usize) -> &[u8] {
    octets.split_at(count.min(octets.len())).1
}

/// The first `count` octets, all where there are fewer.
fn front_of(octets: &[u8], count: usize) -> &[u8] {
    octets.split_at(count.min(octets.len())).0
}

/// The octet at a place; 0 where there is none.
fn octet_at(octets: &[u8], place: usize) -> u8 {
    if place < octets.len() {
        octets[place]
    } else {
        0
    }
}

/// The number of octets of ID_LENGTH: 1 with IL, else 0.
fn id_width(header: u8) -> usize {
    usize::from(is_set(ID_THERE, header))
}

/// ID_LENGTH after PAYLOAD_LENGTH; 0 where there is none.
fn id_length_in(header: u8, tail: &[u8]) -> u8 {
    if is_set(ID_THERE, header) {
        octet_at(tail, width(header))
    } else {
        0
    }
}

/// The piece of which these octets have come, and no more.
fn begun_front(octets: &[u8]) -> PieceFront<'_> {
    let (header, tail) = (octet_at(octets, 0), following(octets, 2));
    let body = following(tail, width(header) + id_width(header));
    let kind_length = usize::from(octet_at(octets, 1));
    let id_length = usize::from(id_length_in(header, tail));
    PieceFront {
        octets,
        header,
        whole: false,
        kind: front_of(body, kind_length),
        id: front_of(following(body, kind_length), id_length),
        payload: following(body, kind_length + id_length),
    }
}

/// A whole piece with which these octets begin.
fn whole_front<'a>(octets: &'a [u8], piece: WholePiece<'a>) -> PieceFront<'a> {
    PieceFront {
        octets: octets.split_at(octets.len() - piece.rest.len()).0,
        header: piece.header,
        whole: true,
        kind: piece.kind,
        id: piece.id,
        payload: piece.payload,
    }
}

/// The piece with which these octets begin, as far as it has come, and the bytes after it (NDEF 1.0, record layout).
pub fn piece_front(octets: &[u8]) -> (PieceFront<'_>, &[u8]) {
    match whole_piece(octets) {
        Some(piece) => (whole_front(octets, piece), piece.rest),
        None => (begun_front(octets), &[]),
    }
}

impl<'a> PieceFront<'a> {
    /// The type name format (NDEF 1.0, TNF), the reserved 7 being read as Unknown.
    pub fn tnf(&self) -> Tnf {
        header_tnf(self.header)
    }

    /// CF: whether another piece of its record follows.
    pub fn is_chunked(&self) -> bool {
        is_set(CHUNK, self.header)
    }

    /// The header octet, as far as it has come: 0 or 1 bytes.
    pub fn header_octets(&self) -> &'a [u8] {
        front_of(self.octets, 1)
    }

    /// TYPE_LENGTH: 0 or 1 bytes.
    pub fn kind_length_octets(&self) -> &'a [u8] {
        front_of(following(self.octets, 1), 1)
    }

    /// PAYLOAD_LENGTH: at most 1 byte in a short record, else at most 4.
    pub fn payload_length_octets(&self) -> &'a [u8] {
        front_of(following(self.octets, 2), width(octet_at(self.octets, 0)))
    }

    /// ID_LENGTH: 0 or 1 bytes.
    pub fn id_length_octets(&self) -> &'a [u8] {
        let header = octet_at(self.octets, 0);
        front_of(following(following(self.octets, 2), width(header)), id_width(header))
    }
}
