// Written by ports/erase of crates/ndef_c/src/error_writing.rt, which has the contracts: do not edit.
//! Writes the payloads of Error records (Connection Handover 1.2).

use crate::proved::ndef_c::buffer::{give, give_parts};
use crate::proved::ndef_c::status::BAD_ARGUMENT;
use crate::proved::ndef_types::goes_with;

/// Whether an error of a reason and some data may be written.
pub(crate) fn may_be_error(reason: u32, detail: &[u8]) -> bool {
    reason < 256 && goes_with(reason as u8, detail) && detail.len() < u32::MAX as usize
}

/// Writes the payload of an Error record, the reason and its data, to the buffer.
pub fn ndef_write_error(reason: u32, detail: &[u8], buffer: &mut [u8], count: &mut usize) -> u32 {
    if !may_be_error(reason, detail) {
        return BAD_ARGUMENT;
    }
    give_parts(&[], &[reason as u8], detail, buffer, count)
}

/// Writes the payload of an Error record of a defined reason, whose data are a number, to the buffer.
pub fn ndef_write_error_number(reason: u32, number: u32, buffer: &mut [u8], count: &mut usize) -> u32 {
    match reason {
        1 | 3 if number < 256 => give(&[reason as u8, number as u8], buffer, count),
        2 => give_parts(&[], &[2], &number.to_be_bytes(), buffer, count),
        _ => BAD_ARGUMENT,
    }
}
