//! Type name formats.
use crate::proved::ndef_format;
use crate::NumberError;
use core::fmt;

/// The type name format of a record: what its type is (TNF, NDEF 1.0, 3.2.6).
#[derive(Clone, Copy, Debug, PartialEq, Eq, Hash, PartialOrd, Ord)]
#[repr(u32)]
pub enum Tnf {
    /// The record is empty: it has no type, no id and no payload.
    Empty = 0,
    /// A type that the NFC Forum defines, as `T`.
    WellKnown = 1,
    /// A media type, as `text/plain`.
    Media = 2,
    /// The type is itself a URI.
    AbsoluteUri = 3,
    /// A type of somebody else, as `example.com:x`.
    External = 4,
    /// The record has no type. With [`Profile::Standard`](crate::Profile::Standard) the reserved 7 is read as this too.
    Unknown = 5,
}

impl Tnf {
    /// The type name formats, in the order of their numbers.
    pub const ALL: &'static [Tnf] =
        &[Self::Empty, Self::WellKnown, Self::Media, Self::AbsoluteUri, Self::External, Self::Unknown];

    /// The type name format with a number.
    #[inline]
    #[must_use]
    pub const fn from_number(number: u32) -> Option<Self> {
        match number {
            0 => Some(Self::Empty),
            1 => Some(Self::WellKnown),
            2 => Some(Self::Media),
            3 => Some(Self::AbsoluteUri),
            4 => Some(Self::External),
            5 => Some(Self::Unknown),
            _ => None,
        }
    }

    #[inline]
    pub(crate) fn of(tnf: ndef_format::Tnf) -> Self {
        crate::promised(Self::from_number(tnf.code().into()).ok_or(tnf))
    }

    #[inline]
    pub(crate) fn proved(self) -> ndef_format::Tnf {
        match self {
            Self::Empty => ndef_format::Tnf::Empty,
            Self::WellKnown => ndef_format::Tnf::WellKnown,
            Self::Media => ndef_format::Tnf::Media,
            Self::AbsoluteUri => ndef_format::Tnf::AbsoluteUri,
            Self::External => ndef_format::Tnf::External,
            Self::Unknown => ndef_format::Tnf::Unknown,
        }
    }

    /// Its number.
    #[must_use]
    pub const fn number(self) -> u32 {
        self as u32
    }
}

/// The number 6 (unchanged) belongs to a chunk, and 7 is reserved: no record has them.
impl TryFrom<u8> for Tnf {
    type Error = NumberError;

    fn try_from(number: u8) -> Result<Self, NumberError> {
        Self::from_number(number.into()).ok_or(NumberError { number, most: 5 })
    }
}

impl From<Tnf> for u8 {
    fn from(tnf: Tnf) -> Self {
        tnf as u8
    }
}

impl fmt::Display for Tnf {
    fn fmt(&self, to: &mut fmt::Formatter<'_>) -> fmt::Result {
        to.pad(match self {
            Self::Empty => "empty",
            Self::WellKnown => "well-known",
            Self::Media => "media",
            Self::AbsoluteUri => "absolute URI",
            Self::External => "external",
            Self::Unknown => "unknown",
        })
    }
}
