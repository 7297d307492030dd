// Written by ports/erase of crates/ndef_c/src/part.rt, which has the contracts: do not edit.
//! Parts of a payload.

/// A part of some bytes.
#[repr(C)]
#[derive(Clone, Copy, Debug, Default, PartialEq, Eq, Hash)]
pub struct NdefPart {
    /// Where it begins.
    pub(crate) at: usize,
    /// Its bytes.
    pub(crate) length: usize,
}
