// Written by ports/erase of crates/ndef_value/src/no_memory.rt, which has the contracts: do not edit.
//! Out of memory.

/// An allocation failed. The value that was to grow is as it was before the call, unless the call states otherwise.
#[derive(Clone, Copy, Debug, PartialEq, Eq, Hash)]
pub struct NoMemory;

impl core::fmt::Display for NoMemory {
    fn fmt(&self, f: &mut core::fmt::Formatter<'_>) -> core::fmt::Result {
        match self {
            NoMemory => write!(f, "no memory"),
        }
    }
}

impl core::error::Error for NoMemory {}
