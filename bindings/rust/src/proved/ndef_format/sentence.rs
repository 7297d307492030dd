// Written by ports/erase of crates/ndef_format/src/sentence.rt, which has the contracts: do not edit.
//! The meaning of each reason for a refusal.

use crate::proved::ndef_format::Reason;

impl Reason {
    /// The meaning of the reason, in a sentence of English: 22 to 70 bytes of ASCII, the full stop included
    /// (NDEF 1.0, RTD Text 1.0, RTD URI 1.0, RTD Smart Poster 1.0 and Connection Handover 1.2).
    pub fn sentence(self) -> &'static [u8] {
        match self {
            Reason::ReservedTnf => b"The type name format 7 is reserved.",
            Reason::BeginMissing => b"The first record of a message has to have MB set.",
            Reason::BeginAgain => b"MB is set again, though the message has begun.",
            Reason::UnchangedOutside => b"The type name format 6 (unchanged) may only continue a chunked record.",
            Reason::ChangedInside => b"A chunked record goes on with the type name format 6 (unchanged).",
            Reason::IdInside => b"Only the first chunk of a record may have an id.",
            Reason::ChunkAtEnd => b"The last record of a message (ME) has to end: CF must be clear.",
            Reason::ChunkOfEmpty => b"An empty record cannot be chunked.",
            Reason::TooManyPieces => b"The record has more chunks than the limit or a nested message allows.",
            Reason::TooManyRecords => b"The message has more records than the limit allows.",
            Reason::TypeNotEmpty => b"This type name format has no type: TYPE_LENGTH has to be 0.",
            Reason::TypeEmpty => b"This type name format needs a type: TYPE_LENGTH must not be 0.",
            Reason::EmptyNotEmpty => b"An empty record has only lengths of 0.",
            Reason::PayloadTooLarge => b"The payload is longer than the limit allows.",
            Reason::TextBit => b"Bit 6 of the status octet of a text is reserved: it has to be 0.",
            Reason::Language => b"The language code of a text has to be ASCII.",
            Reason::Utf8 => b"The text is not UTF-8.",
            Reason::Utf16 => b"The text is not UTF-16.",
            Reason::UriCode => b"The URI identifier codes from 24 to FF (hexadecimal) are reserved.",
            Reason::UriMissing => b"A smart poster has to have a URI record.",
            Reason::UriAgain => b"A smart poster has only one URI record.",
            Reason::Version => b"The handover has another major version than 1.",
            Reason::CollisionMissing => b"A handover request has to begin with a collision resolution record.",
            Reason::DoesNotFit => b"Nothing that could follow this byte fits the lengths given so far.",
            Reason::EndOfInput => b"The input ends within a message.",
        }
    }
}
