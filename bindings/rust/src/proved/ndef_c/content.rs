// Written by ports/erase of crates/ndef_c/src/content.rt, which has the contracts: do not edit.
//! The content of a record's payload, which is written directly to its place in the buffer.

use crate::proved::ndef_c::alternative_writing::put_alternative;
use crate::proved::ndef_c::buffer::put_parts;
use crate::proved::ndef_c::out::Out;
use crate::proved::ndef_c::part::NdefPart;
use crate::proved::ndef_c::status::{BAD_ARGUMENT, BUFFER_TOO_SMALL, OK};
use crate::proved::ndef_c::utf16::put_units;

/// The content of a payload that is written.
#[derive(Clone, Copy)]
pub(crate) enum Content<'a> {
    /// RTD Text 1.0: a text in UTF-8, and its language code of up to 63 bytes.
    Utf8 { language: &'a [u8], text: &'a str },
    /// RTD Text 1.0: the same in UTF-16, big-endian after its byte order mark.
    Utf16 { language: &'a [u8], text: &'a str },
    /// RTD URI 1.0: the code of a prefix, and the rest of the URI.
    Uri { code: u8, rest: &'a [u8] },
    /// Connection Handover 1.2, Alternative Carrier record: a power state and references, each of which is a
    /// part of the bytes.
    Alternative { power: u8, bytes: &'a [u8], reference: &'a NdefPart, auxiliary: &'a [NdefPart] },
    /// Connection Handover 1.2, Error record: a reason, and its data.
    Error { reason: u8, detail: &'a [u8] },
    /// Bytes, as they are given.
    Octets { octets: &'a [u8] },
}

/// Writes it.
#[inline(always)]
pub(crate) fn put_content(out: &mut Out<'_>, content: &Content<'_>) {
    match *content {
        Content::Utf8 { language, text } => {
            put_parts(out, &[language.len() as u8], language, text.as_bytes());
        }
        Content::Utf16 { language, text } => {
            put_parts(out, &[128 + language.len() as u8], language, &[0xfe, 0xff]);
            put_units(out, text);
        }
        Content::Uri { code, rest } => put_parts(out, &[code], rest, &[]),
        Content::Alternative { power, bytes, reference, auxiliary } => {
            put_alternative(out, power, bytes, reference, auxiliary)
        }
        Content::Error { reason, detail } => put_parts(out, &[reason], detail, &[]),
        Content::Octets { octets } => out.put(octets),
    }
}

/// The number of its bytes, unless no payload is that long.
pub(crate) fn content_length(content: &Content<'_>) -> Option<usize> {
    let mut counter = Out::new(&mut [], 0);
    put_content(&mut counter, content);
    let length = counter.at();
    if length > u32::MAX as usize {
        return None;
    }
    Some(length)
}

/// Writes it to the buffer where that is large enough, sets `count` to its number of bytes, and returns the status.
pub(crate) fn give_content(content: &Content<'_>, buffer: &mut [u8], count: &mut usize) -> u32 {
    let Some(needed) = content_length(content) else {
        return BAD_ARGUMENT;
    };
    *count = needed;
    if buffer.len() < needed {
        return BUFFER_TOO_SMALL;
    }
    put_content(&mut Out::new(buffer, 0), content);
    OK
}
