//! Why a value is not read or written, other than that bytes are refused.
use crate::calls::Unfilled;
#[cfg(feature = "std")]
use crate::Reason;
use crate::Refusal;
use core::fmt;

/// Why a payload is not decoded to a buffer.
#[derive(Clone, Copy, Debug, PartialEq, Eq, Hash)]
#[non_exhaustive]
pub enum DecodeError {
    /// The payload is not one of its type.
    Refused(Refusal),
    /// The buffer is too small. This many bytes are needed, or elements where it is an array of [`Part`](crate::Part)s.
    BufferTooSmall(usize),
}

impl DecodeError {
    pub(crate) fn of(unfilled: Unfilled) -> Self {
        match unfilled {
            Unfilled::BufferTooSmall(needed) => Self::BufferTooSmall(needed),
            Unfilled::BadArgument => crate::promised(Err(unfilled)),
        }
    }
}

impl From<Refusal> for DecodeError {
    fn from(refusal: Refusal) -> Self {
        Self::Refused(refusal)
    }
}

impl fmt::Display for DecodeError {
    fn fmt(&self, to: &mut fmt::Formatter<'_>) -> fmt::Result {
        match self {
            Self::Refused(refusal) => refusal.fmt(to),
            Self::BufferTooSmall(needed) => write!(to, "the buffer is too small: {needed} are needed"),
        }
    }
}

impl core::error::Error for DecodeError {}

/// Why a value or a message is not written.
#[derive(Clone, Copy, Debug, PartialEq, Eq, Hash)]
#[non_exhaustive]
pub enum EncodeError {
    /// A message has at least one record.
    NoRecord,
    /// The record with this index has a type or an id of more than 255 bytes, or a payload of more than 4294967295 bytes;
    /// it has a type where its type name format allows none, or none where it needs one; or its type name format is
    /// [`Tnf::Empty`](crate::Tnf::Empty), and it has a type, an id or a payload. The index counts from 0 in the message,
    /// or in the smart poster or handover that is built.
    Record(usize),
    /// A reader refuses the record within the [`limits`](crate::Form::limits) of the form.
    Refused {
        /// The index of the record in the message, counted from 0.
        record: usize,
        /// Where, counted from the first byte of the record, and why.
        refusal: Refusal,
    },
    /// The language code of a text has more than 63 bytes or is not ASCII, or the text is too long.
    Text,
    /// The URI is too long.
    Uri,
    /// The carrier type format of a handover carrier is above 7, its type has more than 255 bytes, or it is too long.
    Carrier,
    /// An alternative carrier has more than 255 auxiliary references, or a reference has more than 255 bytes.
    Alternative,
    /// The error of a handover has data that its reason does not allow.
    HandoverError,
    /// The records are not those of a smart poster. The offset counts from the first byte of its payload.
    Poster(Refusal),
    /// The minor version of a handover is above 15, or its records are not those of a handover.
    Handover,
    /// A payload that is written in parts has fewer or more bytes than were said, which is this many.
    Payload(u32),
    /// The buffer is too small. This many bytes are needed.
    BufferTooSmall(usize),
}

impl EncodeError {
    /// The error of a call that fills a buffer, and refuses its arguments for one reason.
    pub(crate) fn of(unfilled: Unfilled, why: Self) -> Self {
        match unfilled {
            Unfilled::BufferTooSmall(needed) => Self::BufferTooSmall(needed),
            Unfilled::BadArgument => why,
        }
    }
}

impl fmt::Display for EncodeError {
    fn fmt(&self, to: &mut fmt::Formatter<'_>) -> fmt::Result {
        match self {
            Self::NoRecord => to.write_str("a message has at least one record"),
            Self::Record(record) => write!(to, "record {record}: BadArgument: type, id or payload"),
            Self::Refused { record, refusal } => write!(to, "record {record}: {refusal}"),
            Self::Text => to.write_str("a text cannot have this language or length"),
            Self::Uri => to.write_str("a URI cannot be so long"),
            Self::Carrier => to.write_str("a handover carrier cannot have this format, type or length"),
            Self::Alternative => to.write_str("an alternative carrier cannot have these references"),
            Self::HandoverError => to.write_str("an error of a handover cannot have these data"),
            Self::Poster(refusal) => write!(to, "a smart poster cannot have these records: {refusal}"),
            Self::Handover => to.write_str("a handover cannot have this version or these records"),
            Self::Payload(length) => write!(to, "the parts of the payload have not the {length} bytes that were said"),
            Self::BufferTooSmall(needed) => write!(to, "the buffer is too small: {needed} bytes are needed"),
        }
    }
}

impl core::error::Error for EncodeError {}

/// A number that stands for no value of a type.
#[derive(Clone, Copy, Debug, PartialEq, Eq, Hash)]
#[non_exhaustive]
pub struct NumberError {
    /// The number.
    pub number: u8,
    /// The greatest number that stands for a value.
    pub most: u8,
}

impl fmt::Display for NumberError {
    fn fmt(&self, to: &mut fmt::Formatter<'_>) -> fmt::Result {
        write!(to, "the number is {}, and has to be at most {}", self.number, self.most)
    }
}

impl core::error::Error for NumberError {}

/// An error of the kind [`InvalidInput`](std::io::ErrorKind::InvalidInput).
#[cfg(feature = "std")]
impl From<EncodeError> for std::io::Error {
    fn from(error: EncodeError) -> Self {
        Self::new(std::io::ErrorKind::InvalidInput, error)
    }
}

/// Makes of each other error an [`io::Error`](std::io::Error) of a kind.
#[cfg(feature = "std")]
macro_rules! io_errors {
    ($($error:ident $kind:ident;)*) => { $(
        #[doc = concat!("An error of the kind [`", stringify!($kind), "`](std::io::ErrorKind::", stringify!($kind), ").")]
        impl From<$error> for std::io::Error {
            fn from(error: $error) -> Self {
                Self::new(std::io::ErrorKind::$kind, error)
            }
        }
    )* };
}

#[cfg(feature = "std")]
io_errors! {
    DecodeError InvalidData;
    NumberError InvalidInput;
    Reason InvalidData;
    Refusal InvalidData;
}
