// Written by ports/erase of crates/ndef_message/src/plan.rt, which has the contracts: do not edit.
//! The properties of a record that are given before its payload.

use crate::proved::ndef_message::Form;
use crate::proved::ndef_value::Tnf;

/// A record whose payload need not be there at once: its type name format, its lengths, and how it is written
/// (NDEF 1.0, record layout and chunked payloads).
#[derive(Clone, Copy, Debug, PartialEq, Eq, Hash)]
pub struct RecordPlan {
    /// The type name format.
    pub tnf: Tnf,
    /// The bytes of the type.
    pub kind_length: usize,
    /// The bytes of the id. With 0 the record gets no id.
    pub id_length: usize,
    /// The bytes of the whole payload.
    pub payload_length: usize,
    /// Whether the record is the first of its message.
    pub first: bool,
    /// Whether the record is the last of its message.
    pub last: bool,
    /// The form that decides which chunks are short.
    pub form: Form,
    /// The payload bytes of each chunk but the last, at least 1; with `None` the record is one chunk.
    pub size: Option<u32>,
}

/// The part of a record that is written.
#[derive(Clone, Copy, Debug, PartialEq, Eq, Hash)]
pub struct Progress {
    /// The bytes of the payload that are written.
    pub taken: usize,
    /// The bytes that are written of the head, type and id of the chunk that is begun. It is 0 once the whole payload
    /// is written, where that has a byte.
    pub head: usize,
}
