// Written by ports/erase of crates/ndef_c/src/handover_writing.rt, which has the contracts: do not edit.
//! Writes the payloads of Handover Request and Handover Select records (Connection Handover 1.2).

use crate::proved::ndef_c::buffer::give_parts;
use crate::proved::ndef_c::status::BAD_ARGUMENT;
use crate::proved::ndef_lang::{Kind, Language};
use crate::proved::ndef_nest::Nest;
use crate::proved::ndef_value::{Profile, MOST_RECORDS};

/// A handover request.
pub const REQUEST: u32 = 0;
/// A handover select.
pub const SELECT: u32 = 1;

/// Whether an octet and the bytes after it are a payload of the kind.
fn is_payload<L: Language>(kind: Kind, octet: u8, following: &[u8]) -> bool {
    let mut state = L::start(kind, MOST_RECORDS, Profile::Strict);
    state.step(octet);
    let length = following.len() as u64;
    if !state.fits(length, length) {
        return false;
    }
    state.step_all(following, length, length) == following.len()
}

/// Writes the payload of a handover record, a version octet and the bytes of a message, to the buffer.
pub fn ndef_write_handover(
    number: u32,
    major: u32,
    minor: u32,
    message: &[u8],
    buffer: &mut [u8],
    count: &mut usize,
) -> u32 {
    let kind = match number {
        REQUEST => Kind::Request,
        SELECT => Kind::Select,
        _ => return BAD_ARGUMENT,
    };
    if major > 15 || minor > 15 || message.len() >= u32::MAX as usize {
        return BAD_ARGUMENT;
    }
    let version = (16 * major + minor) as u8;
    if !is_payload::<Nest>(kind, version, message) {
        return BAD_ARGUMENT;
    }
    give_parts(&[], &[version], message, buffer, count)
}
