// Written by ports/erase of crates/ndef_lang/src/place.rt, which has the contracts: do not edit.
//! The place at which a payload is refused.

use super::language::Language;
use crate::proved::ndef_format::Kind;
use crate::proved::ndef_value::{Profile, Reason, Refusal};

/// Returns the place and the reason why a whole payload is no payload of the kind; None if it is one.
///
/// If no payload is as long as this one, that is place 0 and `DoesNotFit`; else the first octet
/// after which nothing of that length is a payload, and the language's reason for it.
pub fn refusal_of<L: Language>(kind: Kind, records: u32, profile: Profile, payload: &[u8]) -> Option<Refusal> {
    let mut state = L::start(kind, records, profile);
    let length = payload.len() as u64;
    if !state.fits(length, length) {
        return Some(Refusal { at: 0, reason: Reason::DoesNotFit });
    }
    let taken = state.step_all(payload, length, length);
    if taken < payload.len() {
        return Some(Refusal { at: taken as u64, reason: state.reason() });
    }
    None
}
