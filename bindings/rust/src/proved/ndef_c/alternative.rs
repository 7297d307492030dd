// Written by ports/erase of crates/ndef_c/src/alternative.rt, which has the contracts: do not edit.
//! The payloads of Alternative Carrier records (Connection Handover 1.2).

use crate::proved::ndef_c::checking::NdefChecked;
use crate::proved::ndef_c::part::NdefPart;
use crate::proved::ndef_c::refusal::{accepts, is_payload};
use crate::proved::ndef_c::status::{BAD_ARGUMENT, END, OK, REFUSED};
use crate::proved::ndef_lang::{Kind, Leaf};
use crate::proved::ndef_types::AlternativeParts;
use crate::proved::ndef_value::Profile;

/// An alternative carrier.
#[repr(C)]
#[derive(Clone, Copy, Debug, Default, PartialEq, Eq, Hash)]
pub struct NdefAlternative {
    /// The power state of the carrier, 0 to 3.
    pub(crate) power: u32,
    /// The number of references, 1 to 256: the carrier data reference and the auxiliary ones.
    pub(crate) references: u32,
}

/// The power state of an alternative carrier, and its number of references.
fn alternative_at(payload: &[u8]) -> NdefAlternative {
    let parts = AlternativeParts::new(payload);
    NdefAlternative { power: u32::from(parts.power().code()), references: 1 + parts.auxiliary_count() as u32 }
}

/// Gives the power state of the alternative carrier that the payload of an Alternative Carrier
/// record describes, and its number of references.
pub fn ndef_alternative(payload: &[u8], out: &mut NdefAlternative, refusal: &mut NdefChecked) -> u32 {
    if !accepts::<Leaf>(Kind::Alternative, 0, payload, refusal) {
        return REFUSED;
    }
    *out = alternative_at(payload);
    OK
}

/// The reference after its length octet, at an offset.
pub(crate) fn counted_at(payload: &[u8], at: usize) -> NdefPart {
    NdefPart { at: at + 1, length: usize::from(payload[at]) }
}

/// The number of references of an alternative carrier.
pub(crate) fn references_in(payload: &[u8]) -> usize {
    1 + usize::from(payload[2 + usize::from(payload[1])])
}

/// The auxiliary reference with an index of at most their count.
fn auxiliary_at(payload: &[u8], index: usize) -> NdefPart {
    let mut at = 3 + usize::from(payload[1]);
    for _before in 0..index {
        at += 1 + usize::from(payload[at]);
    }
    counted_at(payload, at)
}

/// The reference with an index, 0 the carrier data reference.
fn reference_at(payload: &[u8], index: usize) -> Option<NdefPart> {
    if index == 0 {
        return Some(counted_at(payload, 1));
    }
    let count = usize::from(payload[2 + usize::from(payload[1])]);
    if index > count {
        return None;
    }
    Some(auxiliary_at(payload, index - 1))
}

/// Gives the place of the reference with an index, if there is one.
fn give_reference(payload: &[u8], index: usize, out: &mut NdefPart) -> u32 {
    match reference_at(payload, index) {
        Some(part) => {
            *out = part;
            OK
        }
        None => END,
    }
}

/// Gives the offset of the reference with an index in the payload of an Alternative Carrier record:
/// 0 is the carrier data reference, and the auxiliary ones follow.
pub fn ndef_reference(payload: &[u8], index: usize, out: &mut NdefPart) -> u32 {
    if !is_payload::<Leaf>(Kind::Alternative, Profile::Strict, payload) {
        return BAD_ARGUMENT;
    }
    give_reference(payload, index, out)
}
