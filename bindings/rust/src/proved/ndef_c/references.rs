// Written by ports/erase of crates/ndef_c/src/references.rt, which has the contracts: do not edit.
//! The places of all references of an alternative carrier (Connection Handover 1.2, Alternative Carrier record).

use crate::proved::ndef_c::alternative::counted_at;
use crate::proved::ndef_c::part::NdefPart;
use crate::proved::ndef_c::refusal::is_payload;
use crate::proved::ndef_c::status::{BAD_ARGUMENT, BUFFER_TOO_SMALL, OK};
use crate::proved::ndef_lang::{Kind, Leaf};
use crate::proved::ndef_value::Profile;

/// Writes where each reference lies to the front of the parts.
fn tell_references(payload: &[u8], parts: &mut [NdefPart]) {
    let first = usize::from(payload[1]);
    let count = usize::from(payload[2 + first]);
    let mut at = 3 + first;
    parts[0] = counted_at(payload, 1);
    for before in 0..count {
        let part = counted_at(payload, at);
        at = part.at + part.length;
        parts[before + 1] = part;
    }
}

/// Gives the place of each reference, where the parts are enough, and their number.
fn give_references(payload: &[u8], parts: &mut [NdefPart], count: &mut usize) -> u32 {
    let needed = 1 + usize::from(payload[2 + usize::from(payload[1])]);
    *count = needed;
    if parts.len() < needed {
        return BUFFER_TOO_SMALL;
    }
    tell_references(payload, parts);
    OK
}

/// Gives the offset of each reference in the payload of an Alternative Carrier record: the carrier data reference
/// first, then the auxiliary ones.
pub fn ndef_references(payload: &[u8], parts: &mut [NdefPart], count: &mut usize) -> u32 {
    if !is_payload::<Leaf>(Kind::Alternative, Profile::Strict, payload) {
        return BAD_ARGUMENT;
    }
    give_references(payload, parts, count)
}
