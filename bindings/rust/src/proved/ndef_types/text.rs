// Written by ports/erase of crates/ndef_types/src/text.rt, which has the contracts: do not edit.
//! Texts.

use crate::proved::ndef_lang::{Kind, Leaf};
use crate::proved::ndef_types::accepting::{accept, MOST};
use crate::proved::ndef_types::fields::after_first;
use crate::proved::ndef_types::utf16::units_len;
use crate::proved::ndef_types::Encoding;
use crate::proved::ndef_value::{NoMemory, Profile, Refusal};
use core::hash::Hash;

/// The reason why some parts make no text, in the order in which the reasons are tried.
#[derive(Clone, Copy, Debug, PartialEq, Eq, Hash)]
pub enum TextError {
    /// A language code of more than 63 bytes.
    TooLong,
    /// A language code that isn't ASCII.
    NotAscii,
    /// An allocation failed.
    NoMemory,
}

impl core::fmt::Display for TextError {
    fn fmt(&self, f: &mut core::fmt::Formatter<'_>) -> core::fmt::Result {
        match self {
            TextError::TooLong => write!(f, "a language code of more than 63 bytes"),
            TextError::NotAscii => write!(f, "a language code that is not ASCII"),
            TextError::NoMemory => write!(f, "no memory"),
        }
    }
}

impl core::error::Error for TextError {}

/// The payload of a Text record, whose parts are slices of it (RTD Text 1.0). Contracts see its octets.
#[derive(Clone, Debug)]
pub struct TextParts<'a> {
    payload: &'a [u8],
}

impl<'a> TextParts<'a> {
    /// The parts of a payload that is known to be that of a text.
    pub fn new(payload: &'a [u8]) -> TextParts<'a> {
        TextParts { payload }
    }

    /// The parts of a payload, which is refused where it isn't in the set of its type or is longer than a
    /// payload may be.
    pub fn parse(payload: &'a [u8]) -> Result<TextParts<'a>, Refusal> {
        match accept::<Leaf>(Kind::Text, Profile::Strict, payload) {
            Ok(()) => Ok(TextParts { payload }),
            Err(refusal) => Err(refusal),
        }
    }

    /// The encoding of the text: bit 7 of the status octet.
    pub fn encoding(&self) -> Encoding {
        if self.payload[0] < 128 {
            Encoding::Utf8
        } else {
            Encoding::Utf16
        }
    }

    /// The octets of the language code and those of the text.
    fn split(&self) -> (&'a [u8], &'a [u8]) {
        after_first(self.payload).split_at(usize::from(self.payload[0] % 64))
    }

    /// The language code, 0 to 63 bytes of ASCII.
    pub fn language(&self) -> &'a str {
        // The octets are ASCII, and so UTF-8.
        core::str::from_utf8(self.split().0).unwrap()
    }

    /// The octets of the text. A byte order mark belongs to them: `unmark` takes it off.
    pub fn octets(&self) -> &'a [u8] {
        self.split().1
    }

    /// The text where it is in UTF-8, and None if it is in UTF-16.
    pub fn utf8(&self) -> Option<&'a str> {
        match self.encoding() {
            // The octets are UTF-8, by the invariant.
            Encoding::Utf8 => Some(core::str::from_utf8(self.octets()).unwrap()),
            Encoding::Utf16 => None,
        }
    }
}

/// The status octet of a language code of some octets.
fn status_octet(encoding: Encoding, length: u8) -> u8 {
    match encoding {
        Encoding::Utf8 => length,
        Encoding::Utf16 => 128 + length,
    }
}

/// Whether the text has at most `most` octets.
fn octets_fit(encoding: Encoding, text: &str, most: usize) -> bool {
    match encoding {
        Encoding::Utf8 => text.len() <= most,
        Encoding::Utf16 => most >= 2 && units_len(text) <= (most as u64 - 2) / 2,
    }
}

/// Whether the payload of a text of these parts has at most 4294967295 bytes.
pub(crate) fn text_fits(encoding: Encoding, language: &str, text: &str) -> bool {
    octets_fit(encoding, text, MOST - 1 - language.len())
}
