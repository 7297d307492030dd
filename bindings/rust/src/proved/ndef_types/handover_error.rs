// Written by ports/erase of crates/ndef_types/src/handover_error.rt, which has the contracts: do not edit.
//! Handover errors.

use crate::proved::ndef_lang::{Kind, Leaf};
use crate::proved::ndef_types::accepting::accept;
use crate::proved::ndef_types::fields::after_first;
use crate::proved::ndef_value::{NoMemory, Profile, Refusal};

/// The payload of an error record, whose data are a slice of it (Connection Handover 1.2, Error record).
/// Contracts see its octets.
#[derive(Clone, Debug)]
pub struct ErrorParts<'a> {
    payload: &'a [u8],
}

impl<'a> ErrorParts<'a> {
    /// The parts of a payload that is known to be that of a handover error.
    pub fn new(payload: &'a [u8]) -> ErrorParts<'a> {
        ErrorParts { payload }
    }

    /// The parts of a payload, which is refused where it isn't in the set of its type or is longer than a
    /// payload may be.
    pub fn parse(payload: &'a [u8]) -> Result<ErrorParts<'a>, Refusal> {
        match accept::<Leaf>(Kind::Error, Profile::Strict, payload) {
            Ok(()) => Ok(ErrorParts { payload }),
            Err(refusal) => Err(refusal),
        }
    }

    /// The reason, any octet; 1 to 3 are those that the standard defines.
    pub fn reason(&self) -> u8 {
        self.payload[0]
    }

    /// The data, of the length that the reason demands.
    pub fn detail(&self) -> &'a [u8] {
        after_first(self.payload)
    }
}

/// The reason why a reason and some data make no handover error, in the order in which the reasons are tried.
#[derive(Clone, Copy, Debug, PartialEq, Eq, Hash)]
pub enum DetailError {
    /// The data doesn't have the length that the reason demands.
    BadShape,
    /// An allocation failed.
    NoMemory,
}

impl core::fmt::Display for DetailError {
    fn fmt(&self, f: &mut core::fmt::Formatter<'_>) -> core::fmt::Result {
        match self {
            DetailError::BadShape => write!(f, "the data does not go with the reason"),
            DetailError::NoMemory => write!(f, "no memory"),
        }
    }
}

impl core::error::Error for DetailError {}

impl From<NoMemory> for DetailError {
    fn from(_: NoMemory) -> DetailError {
        DetailError::NoMemory
    }
}

/// Whether the data have the length that the reason demands: one octet for 1 and 3, four for 2, and any number for
/// all others.
pub fn goes_with(reason: u8, detail: &[u8]) -> bool {
    match reason {
        1 | 3 => detail.len() == 1,
        2 => detail.len() == 4,
        _ => true,
    }
}
