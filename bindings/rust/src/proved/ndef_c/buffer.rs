// Written by ports/erase of crates/ndef_c/src/buffer.rt, which has the contracts: do not edit.
//! The buffer of a caller.

use crate::proved::ndef_c::out::Out;
use crate::proved::ndef_c::status::{BUFFER_TOO_SMALL, OK};

/// Writes bytes to the buffer where it is large enough, sets `count` to their number, and returns the status.
pub(crate) fn give(bytes: &[u8], buffer: &mut [u8], count: &mut usize) -> u32 {
    *count = bytes.len();
    if buffer.len() < bytes.len() {
        return BUFFER_TOO_SMALL;
    }
    buffer[..bytes.len()].copy_from_slice(bytes);
    OK
}

/// Writes three parts, one after another.
#[inline(always)]
pub(crate) fn put_parts(out: &mut Out<'_>, first: &[u8], second: &[u8], third: &[u8]) {
    out.put(first);
    out.put(second);
    out.put(third);
}

/// Writes three parts, one after another, to the buffer where it is large enough, sets `count` to
/// their number of bytes, and returns the status.
pub(crate) fn give_parts(first: &[u8], second: &[u8], third: &[u8], buffer: &mut [u8], count: &mut usize) -> u32 {
    let mut counter = Out::new(&mut [], 0);
    put_parts(&mut counter, first, second, third);
    *count = counter.at();
    if buffer.len() < *count {
        return BUFFER_TOO_SMALL;
    }
    put_parts(&mut Out::new(buffer, 0), first, second, third);
    OK
}
