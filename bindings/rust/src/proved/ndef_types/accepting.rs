// Written by ports/erase of crates/ndef_types/src/accepting.rt, which has the contracts: do not edit.
//! Whether a payload is in the set of its type (NDEF 1.0, PAYLOAD_LENGTH; the sets are ndef_lang's).

use crate::proved::ndef_lang::{refusal_of, Kind, Language};
use crate::proved::ndef_message::Item;
use crate::proved::ndef_value::{Profile, Reason, Refusal, MOST_PAYLOAD, MOST_RECORDS};

/// The greatest length of a payload, in bytes: the most that the four octets of PAYLOAD_LENGTH can
/// hold.
pub(crate) const MOST: usize = MOST_PAYLOAD as usize;

/// Returns `Ok` if the payload is in the set of its kind and of at most 4294967295 bytes, else the place and
/// the reason of its refusal.
#[inline(always)]
pub fn accept<L: Language>(kind: Kind, profile: Profile, payload: &[u8]) -> Result<(), Refusal> {
    if payload.len() > MOST {
        return Err(Refusal { at: 0, reason: Reason::DoesNotFit });
    }
    if L::has(kind, MOST_RECORDS, profile, payload) {
        return Ok(());
    }
    match refusal_of::<L>(kind, MOST_RECORDS, profile, payload) {
        Some(refusal) => Err(refusal),
        None => Ok(()),
    }
}

/// Returns the result of `accept` for the payload of a record that is viewed, whose pieces are judged in place.
pub(crate) fn accept_item<L: Language>(kind: Kind, profile: Profile, item: &Item<'_>) -> Result<(), Refusal> {
    if let Some(payload) = item.whole() {
        return accept::<L>(kind, profile, payload);
    }
    let mut state = L::start(kind, MOST_RECORDS, profile);
    let mut left = u64::from(item.length());
    if !state.fits(left, left) {
        return Err(Refusal { at: 0, reason: Reason::DoesNotFit });
    }
    let mut at = 0;
    for piece in item.pieces() {
        let count = state.step_all(piece, left, left);
        at += count as u64;
        if count < piece.len() {
            return Err(Refusal { at, reason: state.reason() });
        }
        left -= count as u64;
    }
    Ok(())
}
