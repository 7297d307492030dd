// Written by ports/erase of crates/ndef_piece/src/standing.rt, which has the contracts: do not edit.
//! Whether a piece may occur at a spot, by its header octet and its lengths. Only a true answer is conclusive.

use crate::proved::ndef_format::header::{is_set, tnf_number, BEGIN, CHUNK, END, ID_THERE};
use crate::proved::ndef_piece::Spot;
use crate::proved::ndef_value::Profile;

/// Whether a record in one piece may have this type name format and these lengths.
#[inline(always)]
fn has_shape(profile: Profile, tnf: u8, kind: usize, id: usize, payload: usize) -> bool {
    if 1 <= tnf && tnf <= 4 {
        return kind > 0;
    }
    match tnf {
        0 => kind == 0 && id == 0 && payload == 0,
        5 => kind == 0,
        7 => matches!(profile, Profile::Standard) && kind == 0,
        _ => false,
    }
}

/// Whether the flags may occur at the spot, and `payload` bytes fit in its payload budget.
#[inline(always)]
pub(crate) fn suits(spot: &Spot, header: u8, payload: usize) -> bool {
    let is_last = is_set(END, header);
    let followed = if is_set(CHUNK, header) { !is_last && !spot.last_piece } else { is_last || !spot.last_record };
    followed && is_set(BEGIN, header) == spot.first && payload <= spot.room as usize
}

/// Whether a piece with this header octet and these lengths may occur at the spot and begins a record there.
#[inline(always)]
pub(crate) fn opens(spot: &Spot, header: u8, kind: usize, id: usize, payload: usize) -> bool {
    let tnf = tnf_number(header);
    !spot.inside
        && suits(spot, header, payload)
        && (tnf > 0 || !is_set(CHUNK, header))
        && has_shape(spot.profile, tnf, kind, id, payload)
}

/// Whether a head with this header octet and these lengths may occur at the spot.
pub(crate) fn may_occur(spot: &Spot, header: u8, kind: usize, id: usize, payload: usize) -> bool {
    if spot.inside {
        tnf_number(header) == 6 && kind == 0 && !is_set(ID_THERE, header) && suits(spot, header, payload)
    } else {
        opens(spot, header, kind, id, payload)
    }
}
