// Written by ports/erase of crates/ndef_types/src/error.rt, which has the contracts: do not edit.
//! The reason why a payload isn't decoded, or a value isn't encoded.

use crate::proved::ndef_value::{NoMemory, Refusal};

/// The reason why no value was decoded, in the order in which the reasons are tried.
#[derive(Clone, Copy, Debug, PartialEq, Eq, Hash)]
pub enum DecodeError {
    /// The payload isn't in the set of its type, or has more than 4294967295 bytes. The place is in the
    /// payload: the first byte after which nothing of its length is in the set, or 0 with `DoesNotFit`
    /// where nothing of its length is.
    Refused(Refusal),
    /// An allocation failed.
    NoMemory,
}

impl core::fmt::Display for DecodeError {
    fn fmt(&self, f: &mut core::fmt::Formatter<'_>) -> core::fmt::Result {
        match self {
            DecodeError::Refused(_0) => write!(f, "{_0}"),
            DecodeError::NoMemory => write!(f, "no memory"),
        }
    }
}

impl core::error::Error for DecodeError {}

impl From<Refusal> for DecodeError {
    fn from(refusal: Refusal) -> DecodeError {
        DecodeError::Refused(refusal)
    }
}

impl From<NoMemory> for DecodeError {
    fn from(_: NoMemory) -> DecodeError {
        DecodeError::NoMemory
    }
}

/// The reason why no payload was made, in the order in which the reasons are tried.
#[derive(Clone, Copy, Debug, PartialEq, Eq, Hash)]
pub enum EncodeError {
    /// It would have more than 4294967295 bytes, the most that PAYLOAD_LENGTH can hold (NDEF 1.0).
    TooLong,
    /// An allocation failed.
    NoMemory,
}

impl core::fmt::Display for EncodeError {
    fn fmt(&self, f: &mut core::fmt::Formatter<'_>) -> core::fmt::Result {
        match self {
            EncodeError::TooLong => write!(f, "a payload of more than 4294967295 bytes"),
            EncodeError::NoMemory => write!(f, "no memory"),
        }
    }
}

impl core::error::Error for EncodeError {}

impl From<NoMemory> for EncodeError {
    fn from(_: NoMemory) -> EncodeError {
        EncodeError::NoMemory
    }
}
