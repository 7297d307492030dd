// Written by ports/erase of crates/ndef_message/src/message_viewing.rt, which has the contracts: do not edit.
//! Views a message, where it lies.

use crate::proved::ndef_lang::RecordLanguage;
use crate::proved::ndef_message::accepted::lone_message;
use crate::proved::ndef_message::judging::judge;
use crate::proved::ndef_message::View;
use crate::proved::ndef_value::{Limits, Refusal};

/// Views the message with which the bytes begin, without copying or memory (NDEF 1.0, messages).
///
/// It is within the limits, and the payloads of its records are of their kinds in the language `L`:
/// `Typed` of ndef_nest validates the payloads that the standards define, `Opaque` of ndef_lang none.
/// Bytes that begin with no such message are refused at the first byte after which no continuation is
/// one, or where they end too early, with the reason.
pub fn view<L: RecordLanguage>(bytes: &[u8], limits: Limits) -> Result<View<'_>, Refusal> {
    if let Some(taken) = lone_message::<L>(&limits, bytes) {
        return Ok(View::new(&bytes[..taken], 1, limits.profile()));
    }
    match judge::<L>(&limits, bytes) {
        Ok(checked) => Ok(View::new(&bytes[..checked.taken as usize], checked.records, limits.profile())),
        Err(refusal) => Err(refusal),
    }
}
