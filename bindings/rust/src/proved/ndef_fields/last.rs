// Written by ports/erase of crates/ndef_fields/src/last.rt, which has the contracts: do not edit.
//! The field of the last of some bytes, in payloads and nested messages too.

use crate::proved::ndef_fields::{FieldName, Fields};

/// The field of a byte, and how deep it lies.
#[derive(Clone, Copy, Debug, PartialEq, Eq, Hash)]
pub struct ByteField {
    /// 0 in the message itself, 1 in a message within a payload.
    pub depth: u8,
    /// The name of the field.
    pub name: FieldName,
}

/// Returns the field of the last of these bytes, if the others are a front of a message (NDEF 1.0, record layout; RTD
/// Text 1.0, RTD URI 1.0, RTD Smart Poster 1.0 and Connection Handover 1.2). Given the bytes of an input up to and
/// including a refused one, it returns the field of the refused byte.
///
/// A payload that comes in several pieces is one field in each of them.
pub fn field_of_last(bytes: &[u8]) -> ByteField {
    let mut last = ByteField { depth: 0, name: FieldName::Header };
    let mut fields = Fields::new(bytes);
    while let Some(field) = fields.next() {
        last = ByteField { depth: field.depth, name: field.name };
    }
    last
}
