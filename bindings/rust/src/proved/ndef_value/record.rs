// Written by ports/erase of crates/ndef_value/src/record.rt, which has the contracts: do not edit.
//! A record.

use crate::proved::ndef_value::{NameError, NoMemory, Tnf, MOST_PAYLOAD};

/// The reason why some parts make no record, in the order in which the reasons are tried. Nothing was made.
#[derive(Clone, Copy, Debug, PartialEq, Eq, Hash)]
pub enum RecordError {
    /// The type name format is Unchanged, or the parts don't go with it.
    BadShape,
    /// A type or an id of more than 255 bytes, or a payload of more than 4294967295.
    TooLong,
    /// An allocation failed.
    NoMemory,
}

impl core::fmt::Display for RecordError {
    fn fmt(&self, f: &mut core::fmt::Formatter<'_>) -> core::fmt::Result {
        match self {
            RecordError::BadShape => write!(f, "the parts do not go with the type name format"),
            RecordError::TooLong => write!(f, "a part is too long"),
            RecordError::NoMemory => write!(f, "no memory"),
        }
    }
}

impl core::error::Error for RecordError {}

impl From<NameError> for RecordError {
    fn from(error: NameError) -> RecordError {
        match error {
            NameError::TooLong => RecordError::TooLong,
            NameError::NoMemory => RecordError::NoMemory,
        }
    }
}

impl From<NoMemory> for RecordError {
    fn from(_: NoMemory) -> RecordError {
        RecordError::NoMemory
    }
}

/// Whether the parts go together.
fn is_shaped(tnf: Tnf, kind: &[u8], id: &[u8], payload: &[u8]) -> bool {
    match tnf {
        Tnf::Empty => kind.is_empty() && id.is_empty() && payload.is_empty(),
        Tnf::WellKnown | Tnf::Media | Tnf::AbsoluteUri | Tnf::External => !kind.is_empty(),
        Tnf::Unknown => kind.is_empty(),
        Tnf::Unchanged => false,
    }
}

/// Whether each part is at most as long as the lengths of a head allow.
fn has_lengths(tnf: Tnf, kind: &[u8], id: &[u8], payload: &[u8]) -> bool {
    kind.len() <= 255 && id.len() <= 255 && payload.len() <= MOST_PAYLOAD as usize
}
