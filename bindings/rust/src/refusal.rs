//! Where and why bytes are refused.
use crate::proved::ndef_value;
use core::fmt;

macro_rules! reasons {
    ($($number:literal $name:ident $text:literal,)*) => {
        /// Why a byte is refused. `Display` writes the number and the name, as the command `ndef` does.
        #[derive(Clone, Copy, Debug, PartialEq, Eq, Hash, PartialOrd, Ord)]
        #[non_exhaustive]
        #[repr(u32)]
        pub enum Reason {
            /// A reason that only a newer library knows.
            Unlisted = 0,
            $(#[doc = $text] $name = $number,)*
        }

        /// The reasons of the proved text.
        #[cfg(test)]
        const PROVED: &[ndef_value::Reason] = &[$(ndef_value::Reason::$name),*];

        impl Reason {
            /// The reasons, in the order of their numbers.
            pub const ALL: &'static [Reason] = &[$(Reason::$name),*];

            #[inline]
            fn of(reason: ndef_value::Reason) -> Self {
                match reason {
                    $(ndef_value::Reason::$name => Self::$name,)*
                }
            }

            /// The reason with a number.
            pub const fn from_number(number: u32) -> Option<Self> {
                match number {
                    $($number => Some(Self::$name),)*
                    _ => None,
                }
            }

            /// What it means, in a sentence of English, as the command `ndef-explain` prints it.
            pub const fn sentence(self) -> &'static str {
                match self {
                    Self::Unlisted => "Only a newer library knows this reason.",
                    $(Self::$name => $text,)*
                }
            }

            /// Its name.
            pub const fn name(self) -> &'static str {
                match self {
                    Self::Unlisted => "Unlisted",
                    $(Self::$name => stringify!($name),)*
                }
            }
        }
    };
}

reasons! {
    1 ReservedTnf "The type name format 7 is reserved.",
    2 BeginMissing "The first record of a message has to have MB set.",
    3 BeginAgain "MB is set again, though the message has begun.",
    4 UnchangedOutside "The type name format 6 (unchanged) may only continue a chunked record.",
    5 ChangedInside "A chunked record goes on with the type name format 6 (unchanged).",
    6 IdInside "Only the first chunk of a record may have an id.",
    7 ChunkAtEnd "The last record of a message (ME) has to end: CF must be clear.",
    8 ChunkOfEmpty "An empty record cannot be chunked.",
    9 TooManyPieces "The record has more chunks than the limit or a nested message allows.",
    10 TooManyRecords "The message has more records than the limit allows.",
    11 TypeNotEmpty "This type name format has no type: TYPE_LENGTH has to be 0.",
    12 TypeEmpty "This type name format needs a type: TYPE_LENGTH must not be 0.",
    13 EmptyNotEmpty "An empty record has only lengths of 0.",
    14 PayloadTooLarge "The payload is longer than the limit allows.",
    15 TextBit "Bit 6 of the status octet of a text is reserved: it has to be 0.",
    16 Language "The language code of a text has to be ASCII.",
    17 Utf8 "The text is not UTF-8.",
    18 Utf16 "The text is not UTF-16.",
    19 UriCode "The URI identifier codes from 24 to FF (hexadecimal) are reserved.",
    20 UriMissing "A smart poster has to have a URI record.",
    21 UriAgain "A smart poster has only one URI record.",
    22 Version "The handover has another major version than 1.",
    23 DoesNotFit "Nothing that could follow this byte fits the lengths given so far.",
    24 EndOfInput "The input ends within a message.",
    25 CollisionMissing "A handover request has to begin with a collision resolution record.",
}

impl Reason {
    /// Its number, as docs/FORMAT.md lists them.
    #[must_use]
    pub const fn number(self) -> u32 {
        self as u32
    }
}

impl fmt::Display for Reason {
    fn fmt(&self, to: &mut fmt::Formatter<'_>) -> fmt::Result {
        write!(to, "{} {}", self.number(), self.name())
    }
}

impl core::error::Error for Reason {}

/// Where and why bytes are refused.
#[derive(Clone, Copy, Debug, PartialEq, Eq, Hash)]
pub struct Refusal {
    /// The offset of the first byte after which no continuation is a message (or a payload), counted from 0. Where the
    /// bytes end too early, it is their number.
    pub at: u64,
    /// Why that byte is refused.
    pub reason: Reason,
}

impl Refusal {
    pub(crate) fn of(refusal: ndef_value::Refusal) -> Self {
        Self { at: refusal.at, reason: Reason::of(refusal.reason) }
    }

    /// What its reason means, in a sentence of English. The function `why` says what was wanted, of the bytes themselves.
    #[must_use]
    pub const fn sentence(&self) -> &'static str {
        self.reason.sentence()
    }

    /// Whether the bytes begin a message, and only end too early.
    #[must_use]
    pub fn is_incomplete(&self) -> bool {
        self.reason == Reason::EndOfInput
    }
}

impl fmt::Display for Refusal {
    fn fmt(&self, to: &mut fmt::Formatter<'_>) -> fmt::Result {
        write!(to, "refused at {}: {}: {}", self.at, self.reason.name(), self.sentence())
    }
}

impl core::error::Error for Refusal {}

#[cfg(test)]
mod tests {
    use super::*;

    #[test]
    fn names_are_the_librarys() {
        for (reason, proved) in Reason::ALL.iter().zip(PROVED) {
            assert_eq!((Reason::of(*proved), proved.number().into()), (*reason, reason.number()));
            assert_eq!((proved.name(), proved.sentence()), (reason.name().as_bytes(), reason.sentence().as_bytes()));
        }
    }
}
