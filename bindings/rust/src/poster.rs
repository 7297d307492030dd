//! Smart posters.
use crate::bytes::{Bytes, Quoted};
use crate::payload::check_payload;
use crate::proved::ndef_format::{Kind, Table};
use crate::record::Within;
use crate::{promised, NewRecord, Profile, Records, Refusal, Text, Tnf, Uri};
use core::fmt;

#[cfg(feature = "alloc")]
use crate::{Record, SmartPosterBuilder};
#[cfg(feature = "alloc")]
use alloc::vec::Vec;

/// What a smart poster recommends to do with what its URI leads to (RTD Smart Poster 1.0, recommended action record).
#[derive(Clone, Copy, Debug, PartialEq, Eq, Hash)]
pub enum Action {
    /// Do it: make the call, send the message, open the page.
    Do,
    /// Save it for later.
    Save,
    /// Open it for editing.
    Open,
    /// A reserved number, 3 to 255.
    Other(u8),
}

impl Action {
    /// Its number.
    #[must_use]
    pub const fn number(self) -> u8 {
        match self {
            Self::Do => 0,
            Self::Save => 1,
            Self::Open => 2,
            Self::Other(number) => number,
        }
    }
}

impl From<u8> for Action {
    fn from(number: u8) -> Self {
        match number {
            0 => Self::Do,
            1 => Self::Save,
            2 => Self::Open,
            _ => Self::Other(number),
        }
    }
}

impl From<Action> for u8 {
    fn from(action: Action) -> Self {
        action.number()
    }
}

/// A smart poster (`Sp`, RTD Smart Poster 1.0): a URI with titles, and with what it leads to.
///
/// With the feature `alloc`, posters are equal if their records are.
#[derive(Clone)]
pub struct SmartPoster<'a> {
    payload: Bytes<'a>,
    profile: Profile,
}

impl<'a> SmartPoster<'a> {
    /// The smart poster of the payload of a Smart Poster record.
    ///
    /// # Errors
    ///
    /// The payload is not that of a smart poster. The offset counts from its first byte.
    pub fn parse(payload: &'a [u8], profile: Profile) -> Result<Self, Refusal> {
        check_payload(Kind::SmartPoster, profile, payload)?;
        Ok(Self::known(payload.into(), profile))
    }

    /// The smart poster of a payload that is known to be one.
    pub(crate) fn known(payload: Bytes<'a>, profile: Profile) -> Self {
        Self { payload, profile }
    }

    /// The payload of its first record of a kind.
    fn first(&self, kind: Kind) -> Option<&[u8]> {
        self.records().next_of(kind)?.payload()
    }

    /// Begins a smart poster for a URI.
    ///
    /// ```
    /// use simbegyor_ndef::{Action, MessageBuilder, SmartPoster};
    ///
    /// let poster = SmartPoster::builder("http://www.example.com").title("en", "Title").action(Action::Save).build()?;
    /// assert_eq!(poster.uri().to_uri(), "http://www.example.com");
    /// assert_eq!(poster.title("en").unwrap().text(), "Title");
    /// let bytes = MessageBuilder::new().record(poster).build()?;
    /// # assert_eq!(bytes.len(), 40);
    /// # Ok::<(), simbegyor_ndef::EncodeError>(())
    /// ```
    #[cfg(feature = "alloc")]
    pub fn builder(uri: &str) -> SmartPosterBuilder<'static> {
        SmartPosterBuilder::new(uri)
    }

    /// The URI.
    #[must_use]
    pub fn uri(&self) -> Uri<'_> {
        Uri::known(promised(self.first(Kind::Uri).ok_or(())).into())
    }

    /// The titles, each with its language.
    pub fn titles(&self) -> Titles<'_> {
        Titles(self.records())
    }

    /// The first title in a language. Upper and lower case of its code are the same.
    #[must_use]
    pub fn title(&self, language: &str) -> Option<Text<'_>> {
        self.titles().find(|title| title.language().eq_ignore_ascii_case(language))
    }

    /// The icons, each with its media type: all records of a media type. The standard asks for types that begin with
    /// "image/" or "video/", and the library does not look at that: look at the type before you use the data.
    pub fn icons(&self) -> Icons<'_> {
        Icons(self.records())
    }

    /// What it recommends to do; of several recommendations the first.
    #[must_use]
    pub fn action(&self) -> Option<Action> {
        self.first(Kind::Action)?.first().map(|number| Action::from(*number))
    }

    /// The size in bytes of what the URI leads to; of several sizes the first.
    #[must_use]
    pub fn size(&self) -> Option<u32> {
        self.first(Kind::Size)?.try_into().map(u32::from_be_bytes).ok()
    }

    /// The media type of what the URI leads to; of several types the first.
    #[must_use]
    pub fn media_type(&self) -> Option<&str> {
        Some(promised(core::str::from_utf8(self.first(Kind::MediaType)?)))
    }

    /// All of its records.
    pub fn records(&self) -> Records<'_> {
        Records::within(&self.payload, Within::Payload(Table::SmartPoster), self.profile)
    }

    /// Its payload.
    #[must_use]
    pub fn payload(&self) -> &[u8] {
        &self.payload
    }

    /// The same poster, which borrows nothing.
    #[cfg(feature = "alloc")]
    #[must_use]
    pub fn into_owned(self) -> SmartPoster<'static> {
        SmartPoster { payload: self.payload.into_owned(), ..self }
    }

    #[cfg(feature = "alloc")]
    fn value(&self) -> Vec<Record<'_>> {
        self.records().collect()
    }
}

#[cfg(feature = "alloc")]
compare_by_value! { SmartPoster }

impl<'a> From<SmartPoster<'a>> for NewRecord<'a> {
    fn from(poster: SmartPoster<'a>) -> Self {
        NewRecord::new(Tnf::WellKnown, b"Sp", poster.payload)
    }
}

impl fmt::Debug for SmartPoster<'_> {
    fn fmt(&self, to: &mut fmt::Formatter<'_>) -> fmt::Result {
        to.debug_struct("SmartPoster").field("uri", &self.uri()).field("records", &self.records()).finish()
    }
}

/// The titles of a smart poster, one after another.
#[derive(Clone, Debug)]
#[must_use = "an iterator does nothing unless it is used"]
pub struct Titles<'a>(Records<'a>);

impl<'a> Iterator for Titles<'a> {
    type Item = Text<'a>;

    fn next(&mut self) -> Option<Text<'a>> {
        Some(Text::known(self.0.next_of(Kind::Text)?.payload()?.into()))
    }
}

impl core::iter::FusedIterator for Titles<'_> {}

/// An icon of a smart poster.
#[derive(Clone, Copy, PartialEq, Eq, Hash)]
#[non_exhaustive]
pub struct Icon<'a> {
    /// Its media type, such as `image/png`, 1 to 255 bytes.
    pub media_type: &'a [u8],
    /// The bytes of the image.
    pub data: &'a [u8],
}

impl fmt::Debug for Icon<'_> {
    fn fmt(&self, to: &mut fmt::Formatter<'_>) -> fmt::Result {
        to.debug_struct("Icon").field("media_type", &Quoted(self.media_type)).field("data", &Quoted(self.data)).finish()
    }
}

/// The icons of a smart poster, one after another.
#[derive(Clone, Debug)]
#[must_use = "an iterator does nothing unless it is used"]
pub struct Icons<'a>(Records<'a>);

impl<'a> Iterator for Icons<'a> {
    type Item = Icon<'a>;

    fn next(&mut self) -> Option<Icon<'a>> {
        let record = self.0.find(|record| record.tnf() == Tnf::Media)?;
        Some(Icon { media_type: record.kind(), data: record.payload()? })
    }
}

impl core::iter::FusedIterator for Icons<'_> {}
