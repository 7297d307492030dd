// Written by ports/erase of crates/ndef_c/src/text.rt, which has the contracts: do not edit.
//! The payloads of Text records (RTD Text 1.0).

use crate::proved::ndef_c::buffer::give;
use crate::proved::ndef_c::checking::NdefChecked;
use crate::proved::ndef_c::content::{give_content, Content};
use crate::proved::ndef_c::refusal::accepts;
use crate::proved::ndef_c::status::{BAD_ARGUMENT, OK, REFUSED};
use crate::proved::ndef_c::utf16::give_in_utf8;
use crate::proved::ndef_lang::{Kind, Leaf};
use crate::proved::ndef_types::{unmark, Encoding, TextParts};

/// A text, by offsets and lengths in its payload.
#[repr(C)]
#[derive(Clone, Copy, Debug, Default, PartialEq, Eq, Hash)]
pub struct NdefText {
    /// The offset of the language code.
    pub(crate) language_at: usize,
    /// The bytes of the language code, at most 63.
    pub(crate) language_length: usize,
    /// The offset of the text.
    pub(crate) text_at: usize,
    /// The bytes of the text.
    pub(crate) text_length: usize,
    /// 1 for UTF-16, after a byte order mark or big-endian without one; 0 for UTF-8.
    pub(crate) utf16: u32,
}

/// 1 for UTF-16, 0 for UTF-8.
fn utf16_flag(encoding: Encoding) -> u32 {
    match encoding {
        Encoding::Utf8 => 0,
        Encoding::Utf16 => 1,
    }
}

/// Returns the offsets and lengths of the parts of a text in its payload.
pub(crate) fn text_at(payload: &[u8]) -> NdefText {
    let parts = TextParts::new(payload);
    let language_length = parts.language().len();
    NdefText {
        language_at: 1,
        language_length,
        text_at: 1 + language_length,
        text_length: parts.octets().len(),
        utf16: utf16_flag(parts.encoding()),
    }
}

/// Gives the offsets of the parts of the text that the payload of a Text record holds.
pub fn ndef_text(payload: &[u8], out: &mut NdefText, refusal: &mut NdefChecked) -> u32 {
    if !accepts::<Leaf>(Kind::Text, 0, payload, refusal) {
        return REFUSED;
    }
    *out = text_at(payload);
    OK
}

/// Writes the text of a payload to the buffer in UTF-8.
fn give_text(payload: &[u8], buffer: &mut [u8], count: &mut usize) -> u32 {
    let parts = TextParts::new(payload);
    match parts.encoding() {
        Encoding::Utf8 => give(parts.octets(), buffer, count),
        Encoding::Utf16 => {
            let (little, octets) = unmark(parts.octets());
            give_in_utf8(little, octets, buffer, count)
        }
    }
}

/// Writes the text that the payload of a Text record holds to the buffer in UTF-8, converted where
/// it is UTF-16, without its byte order mark.
pub fn ndef_text_in_utf8(payload: &[u8], buffer: &mut [u8], count: &mut usize, refusal: &mut NdefChecked) -> u32 {
    if !accepts::<Leaf>(Kind::Text, 0, payload, refusal) {
        return REFUSED;
    }
    give_text(payload, buffer, count)
}

/// Returns the content of a text, which is given in UTF-8, if the numbers and its parts may be written.
pub(crate) fn text_content<'a>(language: &'a [u8], text: &'a [u8], flags: u32) -> Option<Content<'a>> {
    if flags > 1 || language.len() > 63 || !language.is_ascii() {
        return None;
    }
    let Ok(text) = crate::proved::shim::simdutf8::basic::from_utf8(text) else {
        return None;
    };
    if flags == 0 {
        Some(Content::Utf8 { language, text })
    } else {
        Some(Content::Utf16 { language, text })
    }
}

/// Writes the payload of a Text record to the buffer. The text is given in UTF-8.
pub fn ndef_write_text(language: &[u8], text: &[u8], flags: u32, buffer: &mut [u8], count: &mut usize) -> u32 {
    let Some(content) = text_content(language, text, flags) else {
        return BAD_ARGUMENT;
    };
    give_content(&content, buffer, count)
}
