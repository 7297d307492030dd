// Written by ports/erase of crates/ndef_diagnostics/src/expected.rt, which has the contracts: do not edit.
//! The expectation that refused bytes don't meet.
use crate::proved::ndef_fields::FieldName;
use crate::proved::ndef_lang::Kind;

/// Whose size is stated: a least size, but for a field, a last record, and a collision record that is the last (NDEF
/// 1.0, record layout, RTD Smart Poster 1.0 and Connection Handover 1.2).
#[derive(Clone, Copy, Debug, PartialEq, Eq, Hash)]
pub enum Whose {
    /// A field of a payload.
    Field(FieldName),
    /// The auxiliary references of an alternative carrier that are to come.
    Auxiliary,
    /// A record of a nested message.
    Record,
    /// A record that is the last of a nested message.
    LastRecord,
    /// A record after another one of a nested message.
    NextRecord,
    /// A record after another one that is as short as it may be.
    AfterShortest,
    /// The last record of a smart poster, which has to be its URI.
    LastUri,
    /// The URI of a smart poster after another record.
    NextUri,
    /// The collision record at the front of a request.
    Collision,
    /// The same, if it is the last record.
    LastCollision,
    /// A record after it.
    AfterCollision,
}

/// The expectation that refused bytes don't meet (NDEF 1.0, RTD Text 1.0, RTD URI 1.0, RTD Smart Poster 1.0 and
/// Connection Handover 1.2). Numbers count octets unless a variant states another unit.
#[derive(Clone, Copy, Debug, PartialEq, Eq, Hash)]
pub enum Expected {
    /// Nothing is known beyond the meaning of the reason.
    Nothing,
    /// A message: the input has no bytes.
    Message,
    /// Another record: the input ends between records, before one with ME.
    NextRecord,
    /// Another chunk of the last record: the input ends between chunks, before the last one.
    NextChunk,
    /// Octets of a field: their number.
    Missing(FieldName, u64),
    /// A payload of a kind with a fixed length: that length, and the one that was given.
    FixedLength(Kind, u64, u64),
    /// A payload of a kind with a least length: that length, and the one that was given.
    LeastLength(Kind, u64, u64),
    /// A handover select of one octet, or of at least four: the length that was given.
    SelectLength(u64),
    /// The data of a handover error: its reason, the length of its data, and the one that was given.
    ErrorLength(u8, u64, u64),
    /// Space for what has a size: whose it is, its number of octets, and the octets left in the payload.
    Size(Whose, u64, u64),
    /// A text in UTF-16 with an even number of octets.
    EvenText,
    /// A text that ends with a whole character.
    WholeCharacter,
    /// The number of auxiliary references of an alternative carrier.
    AuxiliaryCount,
    /// A URI in a smart poster: the number of its last record, from 1.
    UriInPoster(u64),
    /// A payload of the last record of a smart poster, which has to be its URI.
    EmptyUri,
    /// No other URI in a smart poster: the number of the record that is one, from 1.
    OneUri(u64),
    /// A collision record at the front of a request.
    CollisionFirst,
    /// A collision record at the front of a request, which has two octets: the length that was given.
    CollisionLength(u64),
}
