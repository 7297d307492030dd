//! Texts.
use crate::bytes::{Bytes, Quoted};
use crate::calls;
use crate::payload::check_payload;
use crate::proved::ndef_format::Kind;
use crate::proved::ndef_types::{self, TextParts};
use crate::{DecodeError, EncodeError, NewRecord, Profile, Refusal, Tnf};
use core::fmt;

#[cfg(feature = "alloc")]
use alloc::{borrow::Cow, vec::Vec};

/// How a payload encodes a text.
#[derive(Clone, Copy, Debug, Default, PartialEq, Eq, Hash)]
pub enum Encoding {
    /// In UTF-8.
    #[default]
    Utf8,
    /// In UTF-16. It is written big-endian after a byte order mark, and read as its mark says.
    Utf16,
}

impl Encoding {
    fn flags(self) -> u32 {
        match self {
            Self::Utf8 => 0,
            Self::Utf16 => calls::AS_UTF16,
        }
    }
}

/// A text with its language (`T`, RTD Text 1.0).
///
/// With the feature `alloc`, texts are equal if their languages and characters are, however these are encoded.
#[derive(Clone)]
pub struct Text<'a>(Bytes<'a>);

impl<'a> Text<'a> {
    /// The text of the payload of a Text record.
    ///
    /// # Errors
    ///
    /// The payload is not that of a text. The offset counts from its first byte.
    pub fn parse(payload: &'a [u8]) -> Result<Self, Refusal> {
        check_payload(Kind::Text, Profile::Strict, payload)?;
        Ok(Self::known(payload.into()))
    }

    /// The text of a payload that is known to be one.
    pub(crate) fn known(payload: Bytes<'a>) -> Self {
        Self(payload)
    }

    fn parts(&self) -> TextParts<'_> {
        TextParts::new(&self.0)
    }

    /// A text in UTF-8. The language code is ASCII of at most 63 bytes, as `en`.
    ///
    /// # Errors
    ///
    /// [`EncodeError::Text`].
    #[cfg(feature = "alloc")]
    pub fn new(language: &str, text: &str) -> Result<Text<'static>, EncodeError> {
        Text::with_encoding(language, text, Encoding::Utf8)
    }

    /// A text in this encoding.
    ///
    /// # Errors
    ///
    /// [`EncodeError::Text`].
    #[cfg(feature = "alloc")]
    pub fn with_encoding(language: &str, text: &str, encoding: Encoding) -> Result<Text<'static>, EncodeError> {
        let mut payload = Vec::with_capacity(1 + language.len() + text.len());
        calls::write_text(language, text, encoding.flags(), &mut payload)
            .map_err(|unfilled| EncodeError::of(unfilled, EncodeError::Text))?;
        Ok(Text::known(Bytes::Owned(payload)))
    }

    /// A text whose payload is written to the buffer.
    ///
    /// # Errors
    ///
    /// [`EncodeError::Text`] or [`EncodeError::BufferTooSmall`].
    pub fn new_in(language: &str, text: &str, encoding: Encoding, buffer: &'a mut [u8]) -> Result<Self, EncodeError> {
        let count = calls::write_text(language, text, encoding.flags(), buffer)
            .map_err(|unfilled| EncodeError::of(unfilled, EncodeError::Text))?;
        Ok(Text::known(Bytes::Borrowed(&buffer[..count])))
    }

    /// The language code, ASCII of at most 63 bytes.
    #[must_use]
    pub fn language(&self) -> &str {
        self.parts().language()
    }

    /// How the payload encodes the text.
    #[must_use]
    pub fn encoding(&self) -> Encoding {
        match self.parts().encoding() {
            ndef_types::Encoding::Utf8 => Encoding::Utf8,
            ndef_types::Encoding::Utf16 => Encoding::Utf16,
        }
    }

    /// The text, if the payload has it in UTF-8.
    #[must_use]
    pub fn as_utf8(&self) -> Option<&str> {
        self.parts().utf8()
    }

    /// The text. One in UTF-16 is converted, and its byte order mark is skipped.
    #[cfg(feature = "alloc")]
    #[must_use]
    pub fn text(&self) -> Cow<'_, str> {
        match self.as_utf8() {
            Some(text) => Cow::Borrowed(text),
            None => Cow::Owned(calls::text_string(&self.0)),
        }
    }

    /// The text. It borrows the payload where that has it in UTF-8.
    #[cfg(feature = "alloc")]
    #[must_use]
    pub fn into_text(self) -> Cow<'a, str> {
        match self.0 {
            Bytes::Borrowed(payload) => match TextParts::new(payload).utf8() {
                Some(text) => Cow::Borrowed(text),
                None => Cow::Owned(calls::text_string(payload)),
            },
            Bytes::Owned(_) => Cow::Owned(self.text().into_owned()),
        }
    }

    /// The text. One in UTF-16 is converted to the buffer.
    ///
    /// # Errors
    ///
    /// [`DecodeError::BufferTooSmall`] alone.
    pub fn text_in<'r>(&'r self, buffer: &'r mut [u8]) -> Result<&'r str, DecodeError> {
        match self.as_utf8() {
            Some(text) => Ok(text),
            None => calls::text_in(&self.0, buffer).map_err(DecodeError::of),
        }
    }

    /// Its payload.
    #[must_use]
    pub fn payload(&self) -> &[u8] {
        &self.0
    }

    /// The same text, which borrows nothing.
    #[cfg(feature = "alloc")]
    #[must_use]
    pub fn into_owned(self) -> Text<'static> {
        Text(self.0.into_owned())
    }

    #[cfg(feature = "alloc")]
    fn value(&self) -> (&str, Cow<'_, str>) {
        (self.language(), self.text())
    }
}

#[cfg(feature = "alloc")]
compare_by_value! { Text }

impl<'a> From<Text<'a>> for NewRecord<'a> {
    fn from(text: Text<'a>) -> Self {
        NewRecord::new(Tnf::WellKnown, b"T", text.0)
    }
}

#[cfg(feature = "alloc")]
impl fmt::Display for Text<'_> {
    fn fmt(&self, to: &mut fmt::Formatter<'_>) -> fmt::Result {
        to.pad(&self.text())
    }
}

impl fmt::Debug for Text<'_> {
    fn fmt(&self, to: &mut fmt::Formatter<'_>) -> fmt::Result {
        to.debug_struct("Text").field("payload", &Quoted(self.payload())).finish()
    }
}
