// Written by ports/erase of crates/ndef_message/src/heads.rt, which has the contracts: do not edit.
//! The heads of the chunks in which a record is written.

use crate::proved::ndef_message::Form;
use crate::proved::ndef_piece::Head;
use crate::proved::ndef_value::Tnf;

/// The position of the first chunk of a record.
#[derive(Clone, Copy, Debug, PartialEq, Eq, Hash)]
pub struct Standing {
    /// Its record is the first of the message.
    pub first: bool,
    /// Its record is the last of the message.
    pub last: bool,
    /// It is the only chunk of its record.
    pub alone: bool,
}

/// Whether a chunk of `length` payload bytes is written in the short form.
fn is_short(form: Form, length: usize) -> bool {
    match form {
        Form::Short => length <= 255,
        Form::Long => false,
    }
}

/// The head of the first chunk of a record (NDEF 1.0, record layout), whose type and id have these lengths, where the
/// chunk has `part` bytes of the payload. With an id of length 0 the record gets no id.
pub fn first_head(tnf: Tnf, kind: usize, id: usize, part: usize, standing: Standing, form: Form) -> Head {
    Head {
        first: standing.first,
        last: standing.alone && standing.last,
        chunked: !standing.alone,
        short: is_short(form, part),
        tnf,
        kind_length: kind as u8,
        payload_length: part as u32,
        id_length: if id == 0 { None } else { Some(id as u8) },
    }
}

/// The head of a later chunk of a record (NDEF 1.0, chunked payloads), which has `part` bytes of the payload: of the
/// last one where it ends its record.
pub fn later_head(last: bool, ends: bool, form: Form, part: usize) -> Head {
    Head {
        first: false,
        last: ends && last,
        chunked: !ends,
        short: is_short(form, part),
        tnf: Tnf::Unchanged,
        kind_length: 0,
        payload_length: part as u32,
        id_length: None,
    }
}
