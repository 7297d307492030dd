// Written by ports/erase of crates/ndef_fields/src/field.rt, which has the contracts: do not edit.
//! A field of a message.
use crate::proved::ndef_fields::FieldName;

/// A field of a message: at least one byte.
#[derive(Clone, Copy, Debug, PartialEq, Eq, Hash)]
pub struct Field {
    /// The place of its first byte, counted from the start of the message.
    pub at: usize,
    /// The number of its bytes, at least 1.
    pub length: usize,
    /// 0 in the message itself, 1 in a message within a payload.
    pub depth: u8,
    /// Its name.
    pub name: FieldName,
}
