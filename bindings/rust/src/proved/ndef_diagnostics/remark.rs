// Written by ports/erase of crates/ndef_diagnostics/src/remark.rt, which has the contracts: do not edit.
//! Remarks about a message that is accepted.

use crate::proved::ndef_diagnostics::Sentence;
use crate::proved::ndef_fields::FieldName;

/// A remark about a field or a record of a message that is accepted: something that a writer would hardly mean, or
/// that takes more bytes than it has to (NDEF 1.0, RTD URI 1.0, RTD Smart Poster 1.0 and Connection Handover 1.2).
#[derive(Clone, Copy, Debug, PartialEq, Eq, Hash)]
pub enum Remark {
    /// A URI has a control character.
    ControlCharacter,
    /// A URI has a reserved identifier code, 36 to 255.
    ReservedCode(u8),
    /// An action is reserved, 3 to 255.
    ReservedAction(u8),
    /// An error reason is reserved: 0, or 4 to 255.
    ReservedError(u8),
    /// A carrier type format is reserved: 0, or 5 to 7.
    ReservedFormat(u8),
    /// Reserved bits of the octet with a carrier power state are set: the octet, 4 to 255.
    ReservedPower(u8),
    /// A payload of at most 255 bytes has a length of four octets, so that its record is 3 bytes longer than it has to
    /// be: the length.
    LongForm(u8),
    /// An id is empty, so that its record is 1 byte longer than it has to be.
    EmptyId,
    /// A text in UTF-16 without a byte order mark is likely little-endian: every second octet is 0.
    LittleEndian,
    /// An id is that of another record of the message too.
    RepeatedId,
    /// Two titles of a smart poster have the same language.
    SameLanguage,
    /// A handover request has no alternative carrier.
    NoCarrier,
    /// A handover request has a second collision resolution record.
    SecondCollision,
    /// A reference of an alternative carrier of a handover is to no record of the message.
    DanglingReference,
}

/// Whether an octet is a control character of ASCII.
fn is_control(octet: u8) -> bool {
    octet < 32 || octet == 127
}

/// Whether one of the octets is a control character.
fn has_control(octets: &[u8]) -> bool {
    for octet in octets {
        if is_control(*octet) {
            return true;
        }
    }
    false
}

/// A URI, after its identifier code.
fn rest_remark(octets: &[u8]) -> Option<Remark> {
    if has_control(octets) {
        Some(Remark::ControlCharacter)
    } else {
        None
    }
}

/// An identifier code.
fn code_remark(code: u8) -> Option<Remark> {
    if code > 35 {
        Some(Remark::ReservedCode(code))
    } else {
        None
    }
}

/// An action.
fn action_remark(action: u8) -> Option<Remark> {
    if action > 2 {
        Some(Remark::ReservedAction(action))
    } else {
        None
    }
}

/// An error reason.
fn error_remark(reason: u8) -> Option<Remark> {
    if reason == 0 || reason > 3 {
        Some(Remark::ReservedError(reason))
    } else {
        None
    }
}

/// An octet with a carrier type format in its low three bits.
fn format_remark(octet: u8) -> Option<Remark> {
    if octet % 8 == 0 || octet % 8 > 4 {
        Some(Remark::ReservedFormat(octet % 8))
    } else {
        None
    }
}

/// An octet with a carrier power state in its low two bits.
fn power_remark(octet: u8) -> Option<Remark> {
    if octet > 3 {
        Some(Remark::ReservedPower(octet))
    } else {
        None
    }
}

/// A payload length.
fn size_remark(octets: &[u8]) -> Option<Remark> {
    match octets {
        [0, 0, 0, size] => Some(Remark::LongForm(*size)),
        _ => None,
    }
}

/// An id length.
fn id_remark(size: u8) -> Option<Remark> {
    if size == 0 {
        Some(Remark::EmptyId)
    } else {
        None
    }
}

/// Returns the remark about a field with this name and these octets, one of `ndef_fields::fields`; None if none is
/// known.
pub fn field_remark(name: FieldName, octets: &[u8]) -> Option<Remark> {
    match (name, octets) {
        (FieldName::UriRest, _) => rest_remark(octets),
        (FieldName::PayloadLength, _) => size_remark(octets),
        (FieldName::UriCode, [code]) => code_remark(*code),
        (FieldName::Action, [action]) => action_remark(*action),
        (FieldName::ErrorReason, [reason]) => error_remark(*reason),
        (FieldName::CarrierFormat, [octet]) => format_remark(*octet),
        (FieldName::Power, [octet]) => power_remark(*octet),
        (FieldName::IdLength, [size]) => id_remark(*size),
        _ => None,
    }
}

/// A sentence with a number.
fn numbered(before: &[u8], number: u8, end: &[u8]) -> Sentence {
    let mut sentence = Sentence::new();
    sentence.push(before);
    sentence.push_number(u64::from(number));
    sentence.push(end);
    sentence
}

impl Remark {
    /// The sentence for a remark without a number.
    fn plain(self) -> &'static [u8] {
        match self {
            Remark::ControlCharacter => b"The URI has a control character.",
            Remark::EmptyId => b"The id is empty: without ID_LENGTH (IL) the message could be 1 byte shorter.",
            Remark::LittleEndian => {
                b"Every second octet of the text is 0: it may be little-endian, without a byte order mark."
            }
            Remark::RepeatedId => b"Another record has the same id.",
            Remark::SameLanguage => b"Two titles of the smart poster have the same language.",
            Remark::NoCarrier => b"The request has no alternative carrier (`ac`).",
            Remark::SecondCollision => b"The request has a second collision record (`cr`).",
            Remark::DanglingReference => {
                b"A reference of an alternative carrier (`ac`) is to no record of the message."
            }
            _ => b"",
        }
    }

    /// The sentence of English for it: at most 192 bytes of ASCII, the full stop included.
    pub fn sentence(self) -> Sentence {
        match self {
            Remark::ReservedCode(code) => numbered(
                b"The identifier code ",
                code,
                b" is reserved, and read as 0: was the identifier code left out?",
            ),
            Remark::ReservedAction(action) => numbered(b"The action ", action, b" is reserved."),
            Remark::ReservedError(reason) => numbered(b"The error reason ", reason, b" is reserved."),
            Remark::ReservedFormat(format) => numbered(b"The carrier type format ", format, b" is reserved."),
            Remark::ReservedPower(octet) => {
                numbered(b"The octet ", octet, b" of the carrier power state has reserved bits set.")
            }
            Remark::LongForm(size) => {
                numbered(b"The payload length ", size, b" fits one octet (SR): the message could be 3 bytes shorter.")
            }
            _ => Sentence::of(self.plain()),
        }
    }
}
