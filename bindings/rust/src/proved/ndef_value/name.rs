// Written by ports/erase of crates/ndef_value/src/name.rt, which has the contracts: do not edit.
//! A type name or an id.

use crate::proved::ndef_value::NoMemory;
use core::hash::Hash;

/// The bytes that a name holds without memory.
const INLINE: usize = 32;

/// The reason why there is no name of some bytes.
#[derive(Clone, Copy, Debug, PartialEq, Eq, Hash)]
pub enum NameError {
    /// There are more than 255 of them.
    TooLong,
    /// An allocation failed.
    NoMemory,
}

impl core::fmt::Display for NameError {
    fn fmt(&self, f: &mut core::fmt::Formatter<'_>) -> core::fmt::Result {
        match self {
            NameError::TooLong => write!(f, "a name of more than 255 bytes"),
            NameError::NoMemory => write!(f, "no memory"),
        }
    }
}

impl core::error::Error for NameError {}
