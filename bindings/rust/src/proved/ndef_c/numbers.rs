// Written by ports/erase of crates/ndef_c/src/numbers.rt, which has the contracts: do not edit.
//! The payloads that say one number: those of Action and Size records (RTD Smart Poster 1.0) and of Collision
//! Resolution records (Connection Handover 1.2).

use crate::proved::ndef_c::buffer::give;
use crate::proved::ndef_c::checking::NdefChecked;
use crate::proved::ndef_c::refusal::refuse;
use crate::proved::ndef_c::status::{BAD_ARGUMENT, OK};
use crate::proved::ndef_lang::Kind;
use crate::proved::ndef_value::{Reason, Refusal};

/// The kind with a number, if its payloads are one number.
fn number_kind(kind: u32) -> Option<Kind> {
    match kind {
        7 => Some(Kind::Action),
        8 => Some(Kind::Size),
        11 => Some(Kind::Collision),
        _ => None,
    }
}

/// The number that a payload of a kind is, if it has as many octets.
pub(crate) fn number_in(kind: Kind, payload: &[u8]) -> Option<u32> {
    match (kind, payload) {
        (Kind::Action, [a]) => Some(u32::from(*a)),
        (Kind::Size, [a, b, c, d]) => Some(u32::from_be_bytes([*a, *b, *c, *d])),
        (Kind::Collision, [a, b]) => Some(u32::from(u16::from_be_bytes([*a, *b]))),
        _ => None,
    }
}

/// Gives the number that the payload of an Action, a Size or a Collision Resolution record is; `kind` is the number of
/// the kind, as `ndef_kind` gives it.
///
/// - `REFUSED`: the payload has more or fewer octets. The offset of the refusal is 0, since no payload of that length
///   is one of the kind.
/// - `BAD_ARGUMENT`: payloads of the kind are no number.
pub fn ndef_number(kind: u32, payload: &[u8], out: &mut u32, refusal: &mut NdefChecked) -> u32 {
    let Some(kind) = number_kind(kind) else {
        return BAD_ARGUMENT;
    };
    let Some(number) = number_in(kind, payload) else {
        let reason = Reason::DoesNotFit;
        return refuse(Refusal { at: 0, reason }, refusal);
    };
    *out = number;
    OK
}

/// Writes the payload of an Action record, one octet, to the buffer.
pub fn ndef_write_action(action: u32, buffer: &mut [u8], count: &mut usize) -> u32 {
    if action > 255 {
        return BAD_ARGUMENT;
    }
    give(&[action as u8], buffer, count)
}

/// Writes the payload of a Size record, four octets, to the buffer.
pub fn ndef_write_size(bytes: u32, buffer: &mut [u8], count: &mut usize) -> u32 {
    give(&bytes.to_be_bytes(), buffer, count)
}

/// Writes the payload of a Collision Resolution record, two octets, to the buffer.
pub fn ndef_write_collision(number: u32, buffer: &mut [u8], count: &mut usize) -> u32 {
    if number > 65535 {
        return BAD_ARGUMENT;
    }
    give(&(number as u16).to_be_bytes(), buffer, count)
}
