//! The calls that write payloads to a buffer, and texts in UTF-8. Nothing of this allocates memory, which the values of
//! ndef_types do.
// Which calls are used depends on the features.
#![allow(dead_code)]

use crate::promised;
use crate::proved::ndef_c::{self as c, BUFFER_TOO_SMALL, OK};
#[cfg(feature = "alloc")]
pub(crate) use crate::proved::ndef_c::{NdefPart, REQUEST, SELECT};
#[cfg(feature = "alloc")]
use alloc::{string::String, vec, vec::Vec};

// The flag of a text that is written in UTF-16.
pub(crate) const AS_UTF16: u32 = 1;

/// A text that a call wrote: so it is UTF-8.
#[inline]
pub(crate) fn utf8(bytes: &[u8]) -> &str {
    promised(core::str::from_utf8(bytes))
}

/// Why a buffer is not filled.
#[derive(Debug, PartialEq, Eq)]
pub(crate) enum Unfilled {
    /// The buffer is too small. This many bytes are needed.
    BufferTooSmall(usize),
    /// An argument is not one that the call takes.
    BadArgument,
}

/// Memory to which a call writes bytes: a slice, from its start on, or a `Vec`, after what it holds.
pub(crate) trait Buffer {
    /// Gives the call the memory and its size, and answers the status and the count. A `Vec` takes the memory that is
    /// needed, and holds what was written then.
    fn write(&mut self, call: impl FnMut(&mut [u8], &mut usize) -> u32) -> Result<usize, Unfilled>;
}

impl Buffer for [u8] {
    #[inline]
    fn write(&mut self, mut call: impl FnMut(&mut [u8], &mut usize) -> u32) -> Result<usize, Unfilled> {
        let mut count = 0;
        match call(self, &mut count) {
            OK => Ok(count),
            BUFFER_TOO_SMALL => Err(Unfilled::BufferTooSmall(count)),
            _ => Err(Unfilled::BadArgument),
        }
    }
}

#[cfg(feature = "alloc")]
impl Buffer for Vec<u8> {
    fn write(&mut self, mut call: impl FnMut(&mut [u8], &mut usize) -> u32) -> Result<usize, Unfilled> {
        let at = self.len();
        match self[at..].write(&mut call) {
            Err(Unfilled::BufferTooSmall(count)) => {
                self.resize(at + count, 0);
                self[at..].write(call)
            }
            answer => answer,
        }
    }
}

/// Calls that fill a buffer.
macro_rules! fills {
    ($($name:ident ($($argument:ident: $kind:ty),*) = $call:ident ($($given:expr),*);)*) => { $(
        pub(crate) fn $name($($argument: $kind,)* buffer: &mut (impl Buffer + ?Sized)) -> Result<usize, Unfilled> {
            buffer.write(|at, count| c::$call($($given,)* at, count))
        }
    )* };
}

fills! {
    write_uri(uri: &str) = ndef_write_uri(uri.as_bytes());
    write_text(language: &str, text: &str, flags: u32) = ndef_write_text(
        language.as_bytes(), text.as_bytes(), flags);
    write_carrier(format: u32, kind: &[u8], data: &[u8]) = ndef_write_carrier(
        format, kind, data);
    write_alternative(power: u32, bytes: &[u8], parts: &[c::NdefPart]) = ndef_write_alternative(
        power, bytes, parts);
    write_action(action: u32) = ndef_write_action(action);
    write_size(bytes: u32) = ndef_write_size(bytes);
    write_collision(number: u32) = ndef_write_collision(number);
    write_error(reason: u32, data: &[u8]) = ndef_write_error(reason, data);
    write_error_number(reason: u32, number: u32) = ndef_write_error_number(reason, number);
    write_handover(handover: u32, major: u32, minor: u32, message: &[u8]) = ndef_write_handover(
        handover, major, minor, message);
}

fn text(payload: &[u8], buffer: &mut (impl Buffer + ?Sized)) -> Result<usize, Unfilled> {
    buffer.write(|at, count| c::ndef_text_in_utf8(payload, at, count, &mut c::NdefChecked::default()))
}

/// The text of a payload in UTF-8, in a buffer.
pub(crate) fn text_in<'r>(payload: &[u8], buffer: &'r mut [u8]) -> Result<&'r str, Unfilled> {
    let count = text(payload, buffer)?;
    Ok(utf8(&buffer[..count]))
}

/// The text of a payload in UTF-8.
#[cfg(feature = "alloc")]
pub(crate) fn text_string(payload: &[u8]) -> String {
    let mut written = Vec::new();
    promised(text(payload, &mut written));
    promised(String::from_utf8(written))
}

/// The references of an alternative carrier, which are this many: the carrier data reference, then the auxiliary ones.
#[cfg(feature = "alloc")]
pub(crate) fn references(payload: &[u8], count: usize) -> Vec<&[u8]> {
    let mut parts = vec![NdefPart::default(); count];
    let status = c::ndef_references(payload, &mut parts, &mut 0);
    debug_assert_eq!(status, OK);
    parts.iter().map(|part| &payload[part.at..][..part.length]).collect()
}
