// Written by ports/erase of crates/ndef_c/src/uri.rt, which has the contracts: do not edit.
//! The payloads of URI records (RTD URI 1.0).

use crate::proved::ndef_c::buffer::give_parts;
use crate::proved::ndef_c::checking::NdefChecked;
use crate::proved::ndef_c::content::{give_content, Content};
use crate::proved::ndef_c::refusal::accepts;
use crate::proved::ndef_c::status::{BAD_ARGUMENT, REFUSED};
use crate::proved::ndef_lang::{Kind, Leaf};
use crate::proved::ndef_types::{prefix, split};

/// Writes the URI that the payload of a URI record holds, its prefix written out, to the buffer.
pub fn ndef_uri(payload: &[u8], flags: u32, buffer: &mut [u8], count: &mut usize, refusal: &mut NdefChecked) -> u32 {
    if flags > 1 {
        return BAD_ARGUMENT;
    }
    if !accepts::<Leaf>(Kind::Uri, flags, payload, refusal) {
        return REFUSED;
    }
    let [code, rest @ ..] = payload else { unreachable!() };
    give_parts(&[], prefix(*code).as_bytes(), rest, buffer, count)
}

/// Writes the payload of a URI record, by the longest prefix that begins the URI, to the buffer.
pub fn ndef_write_uri(uri: &[u8], buffer: &mut [u8], count: &mut usize) -> u32 {
    let Ok(text) = crate::proved::shim::simdutf8::basic::from_utf8(uri) else {
        return BAD_ARGUMENT;
    };
    let (code, rest) = split(text);
    give_content(&Content::Uri { code, rest }, buffer, count)
}
