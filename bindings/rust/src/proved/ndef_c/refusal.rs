// Written by ports/erase of crates/ndef_c/src/refusal.rt, which has the contracts: do not edit.
//! Refusals as numbers.

use crate::proved::ndef_c::checking::NdefChecked;
use crate::proved::ndef_c::limits::profile_of;
use crate::proved::ndef_c::status::REFUSED;
use crate::proved::ndef_lang::{Kind, Language};
use crate::proved::ndef_types::accept;
use crate::proved::ndef_value::{Profile, Refusal};

/// A refusal as numbers.
pub(crate) fn refused_by(refusal: Refusal) -> NdefChecked {
    NdefChecked { place: refusal.at, records: 0, reason: u32::from(refusal.reason.number()) }
}

/// Writes a refusal, and returns the status of refused bytes.
pub(crate) fn refuse(refusal: Refusal, out: &mut NdefChecked) -> u32 {
    *out = refused_by(refusal);
    REFUSED
}

/// Whether the payload is one of the kind, as the profile reads it.
pub(crate) fn is_payload<L: Language>(kind: Kind, profile: Profile, payload: &[u8]) -> bool {
    match accept::<L>(kind, profile, payload) {
        Ok(()) => true,
        Err(_) => false,
    }
}

/// Whether the payload is one of the kind, as the profile that the flags ask for reads it. If not, writes its refusal.
pub(crate) fn accepts<L: Language>(kind: Kind, flags: u32, payload: &[u8], refusal: &mut NdefChecked) -> bool {
    match accept::<L>(kind, profile_of(flags), payload) {
        Ok(()) => true,
        Err(found) => {
            *refusal = refused_by(found);
            false
        }
    }
}
