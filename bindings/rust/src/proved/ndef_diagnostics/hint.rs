// Written by ports/erase of crates/ndef_diagnostics/src/hint.rt, which has the contracts: do not edit.
//! Hints for bytes that are refused.

use crate::proved::ndef_diagnostics::begun::{after, octet_at};
use crate::proved::ndef_diagnostics::dump_text::{text_of, DumpText};
use crate::proved::ndef_diagnostics::tag_memory::{found_in, Found};
use crate::proved::ndef_format::{Reason, Refusal};
use crate::proved::ndef_message::view;
use crate::proved::ndef_nest::Typed;
use crate::proved::ndef_value::{Limits, Profile};

/// A hint for bytes that are refused. It never changes which bytes are accepted.
#[derive(Clone, Copy, Debug, PartialEq, Eq, Hash)]
pub enum Hint {
    /// The bytes are of a tag, which has these for a message.
    InTag(Found),
    /// The bytes are a text that spells others.
    Text(DumpText),
    /// A message begins at this place, 1 to 16: the bytes before it may be what surrounds a message on a tag.
    MessageAt(u64),
    /// The terminator of a tag's TLV blocks is in place of a message.
    AfterBlocks,
    /// The identifier code of a URI may have been left out.
    CodeLeftOut,
    /// The bytes begin with a message for a reader of the standard profile.
    StandardProfile,
}

/// Whether the bytes begin with a message.
fn begins(bytes: &[u8], limits: Limits) -> bool {
    match view::<Typed>(bytes, limits) {
        Ok(_) => true,
        Err(_) => false,
    }
}

/// The first place from 1 to 16 where a message begins.
fn message_near(bytes: &[u8], limits: Limits) -> Option<u64> {
    for place in 1..17 {
        if begins(after(bytes, place), limits) {
            return Some(place as u64);
        }
    }
    None
}

/// Whether a first byte may be one of what surrounds a message on a tag: of TLV blocks, or of a length.
fn is_around(octet: u8) -> bool {
    octet == 0 || octet == 1 || octet == 3
}

/// Whether the first letter of `http` is in place of the identifier code of a URI.
fn is_code_left_out(bytes: &[u8], refusal: Refusal) -> bool {
    refusal.at < bytes.len() as u64 && matches!(refusal.reason, Reason::UriCode) && bytes[refusal.at as usize] == b'h'
}

/// Whether only a strict reader refuses bytes for this reason.
fn is_strict_alone(refusal: Refusal) -> bool {
    matches!(refusal.reason, Reason::ReservedTnf | Reason::UriCode)
}

/// Whether a first byte that is refused may be one of what surrounds a message on a tag.
fn is_surrounded(bytes: &[u8], refusal: Refusal) -> bool {
    refusal.at == 0 && is_around(octet_at(bytes, 0))
}

/// The first place from 1 to 16 where a message begins, where a first byte that is refused may be one of what
/// surrounds it.
fn surrounded_message(bytes: &[u8], limits: Limits, refusal: Refusal) -> Option<u64> {
    if is_surrounded(bytes, refusal) {
        message_near(bytes, limits)
    } else {
        None
    }
}

/// Whether only a strict reader refuses the bytes.
fn is_for_standard(bytes: &[u8], limits: Limits, refusal: Refusal) -> bool {
    is_strict_alone(refusal) && begins(bytes, limits.with(Profile::Standard))
}

/// Whether the terminator of TLV blocks is in place of a message.
fn is_after_blocks(bytes: &[u8], refusal: Refusal) -> bool {
    refusal.at == 0 && octet_at(bytes, 0) == 0xFE
}

/// The hint on what the bytes are, where the first of them is refused.
fn dump_hint(bytes: &[u8], refusal: Refusal) -> Option<Hint> {
    if refusal.at > 0 {
        return None;
    }
    if let Some(text) = text_of(bytes) {
        return Some(Hint::Text(text));
    }
    match found_in(bytes) {
        Some(found) => Some(Hint::InTag(found)),
        None => None,
    }
}

/// The hint on bytes that are no dump.
fn other_hint(bytes: &[u8], limits: Limits, refusal: Refusal) -> Option<Hint> {
    if let Some(place) = surrounded_message(bytes, limits, refusal) {
        return Some(Hint::MessageAt(place));
    }
    if is_after_blocks(bytes, refusal) {
        return Some(Hint::AfterBlocks);
    }
    if is_code_left_out(bytes, refusal) {
        return Some(Hint::CodeLeftOut);
    }
    if is_for_standard(bytes, limits, refusal) {
        return Some(Hint::StandardProfile);
    }
    None
}

/// Returns the hint for bytes with this refusal within the limits; None if none is known (NDEF 1.0, RTD URI
/// 1.0, and NFC Forum, Type 1 to Type 5 Tag). It checks at most 17 times whether a message begins at a place; all else
/// takes a time linear in the number of bytes.
pub fn hint_at(bytes: &[u8], limits: Limits, refusal: Refusal) -> Option<Hint> {
    match dump_hint(bytes, refusal) {
        Some(hint) => Some(hint),
        None => other_hint(bytes, limits, refusal),
    }
}
