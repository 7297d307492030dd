// Written by ports/erase of crates/ndef_piece/src/conditions.rt, which has the contracts: do not edit.
//! The reason why an octet is refused in the head of a piece: the lowest reason that holds of it.

use crate::proved::ndef_format::header::{is_set, tnf_number, width, BEGIN, CHUNK, END, ID_THERE};
use crate::proved::ndef_piece::payload_length::least;
use crate::proved::ndef_piece::Spot;
use crate::proved::ndef_value::{Profile, Reason};

/// Whether what is reserved is refused.
fn is_strict(profile: Profile) -> bool {
    match profile {
        Profile::Strict => true,
        Profile::Standard => false,
    }
}

/// The reason why a header octet is refused.
fn header_reason(spot: &Spot, octet: u8) -> Option<Reason> {
    let tnf = tnf_number(octet);
    let begins = is_set(BEGIN, octet);
    let ends = is_set(END, octet);
    let chunked = is_set(CHUNK, octet);
    if is_strict(spot.profile) && tnf == 7 {
        Some(Reason::ReservedTnf)
    } else if spot.first && !begins {
        Some(Reason::BeginMissing)
    } else if !spot.first && begins {
        Some(Reason::BeginAgain)
    } else if !spot.inside && tnf == 6 {
        Some(Reason::UnchangedOutside)
    } else if spot.inside && tnf != 6 {
        Some(Reason::ChangedInside)
    } else if spot.inside && is_set(ID_THERE, octet) {
        Some(Reason::IdInside)
    } else if chunked && ends {
        Some(Reason::ChunkAtEnd)
    } else if !spot.inside && chunked && tnf == 0 {
        Some(Reason::ChunkOfEmpty)
    } else if chunked && spot.last_piece {
        Some(Reason::TooManyPieces)
    } else if !chunked && !ends && spot.last_record {
        Some(Reason::TooManyRecords)
    } else {
        None
    }
}

/// The reason why the octet is refused as the first of a head, if it is.
pub fn first_reason(spot: &Spot, octet: u8) -> Option<Reason> {
    header_reason(spot, octet)
}

/// The reason why the octet of TYPE_LENGTH is refused.
fn type_length_reason(spot: &Spot, header: u8, octet: u8) -> Option<Reason> {
    let tnf = tnf_number(header);
    if tnf > 4 && octet != 0 {
        Some(Reason::TypeNotEmpty)
    } else if tnf > 0 && tnf < 5 && octet == 0 {
        Some(Reason::TypeEmpty)
    } else if tnf == 0 && octet != 0 {
        Some(Reason::EmptyNotEmpty)
    } else {
        None
    }
}

/// The reason why an octet of PAYLOAD_LENGTH is refused, after these of it.
fn payload_length_reason(spot: &Spot, header: u8, kind_length: u8, front: &[u8], octet: u8) -> Option<Reason> {
    if tnf_number(header) == 0 && octet != 0 {
        Some(Reason::EmptyNotEmpty)
    } else if least(header, front, octet) > spot.room {
        Some(Reason::PayloadTooLarge)
    } else {
        None
    }
}

/// The reason why the octet of ID_LENGTH is refused.
fn id_length_reason(spot: &Spot, header: u8, kind_length: u8, front: &[u8], octet: u8) -> Option<Reason> {
    if tnf_number(header) == 0 && octet != 0 {
        Some(Reason::EmptyNotEmpty)
    } else {
        None
    }
}

/// The reason why an octet is refused after these of a head.
pub(crate) fn reason(spot: &Spot, front: &[u8], octet: u8) -> Option<Reason> {
    match front {
        [] => header_reason(spot, octet),
        [header] => type_length_reason(spot, *header, octet),
        [header, kind_length, rest @ ..] => {
            if rest.len() < width(*header) {
                payload_length_reason(spot, *header, *kind_length, rest, octet)
            } else {
                id_length_reason(spot, *header, *kind_length, rest, octet)
            }
        }
    }
}
