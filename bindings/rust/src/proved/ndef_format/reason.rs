// Written by ports/erase of crates/ndef_format/src/reason.rt, which has the contracts: do not edit.
//! The reason why bytes are refused.

use core::fmt;

/// The reason why the byte at a place isn't allowed there, or why the input can't end there.
///
/// Of the reasons that hold of a byte the one with the lowest rank is given. `ReservedTnf` to
/// `PayloadTooLarge` are of heads: broken rules of NDEF 1.0 or of the limits. The others but the last two
/// are of payloads (RTD Text 1.0, RTD URI 1.0, RTD Smart Poster 1.0 and Connection Handover 1.2). The numbers are
/// those that are printed.
#[derive(Clone, Copy, Debug, PartialEq, Eq, Hash)]
pub enum Reason {
    /// TNF is the reserved 7.
    ReservedTnf = 1,
    /// The first piece of a message has MB clear.
    BeginMissing = 2,
    /// A later piece of a message has MB set.
    BeginAgain = 3,
    /// TNF is that of an unchanged type where no run is open.
    UnchangedOutside = 4,
    /// TNF is another than that of an unchanged type where a run is open.
    ChangedInside = 5,
    /// IL is set where a run is open.
    IdInside = 6,
    /// The last piece of a message, with ME, has CF set: its run would go on.
    ChunkAtEnd = 7,
    /// CF is set in the first piece of an empty record.
    ChunkOfEmpty = 8,
    /// CF is set in the last piece that a record may have by the limits; in a nested message, in any.
    TooManyPieces = 9,
    /// ME is clear in the last record that a message may have by the limits.
    TooManyRecords = 10,
    /// TYPE_LENGTH isn't 0 where TNF is Unknown or Unchanged.
    TypeNotEmpty = 11,
    /// TYPE_LENGTH is 0 where TNF demands a type.
    TypeEmpty = 12,
    /// A length isn't 0 in an empty record.
    EmptyNotEmpty = 13,
    /// PAYLOAD_LENGTH, with the earlier pieces of the record, is above the limit of a payload.
    PayloadTooLarge = 14,
    /// The status octet of a text has its reserved bit 6 set.
    TextBit = 15,
    /// An octet of a text's language code isn't ASCII.
    Language = 16,
    /// The octets so far begin no UTF-8 text.
    Utf8 = 17,
    /// The octets so far begin no UTF-16 text.
    Utf16 = 18,
    /// The identifier code of a URI is reserved: 24 to FF hexadecimal.
    UriCode = 19,
    /// A smart poster ends without a URI.
    UriMissing = 20,
    /// A second URI in a smart poster.
    UriAgain = 21,
    /// A handover request or select of another major version than 1.
    Version = 22,
    /// A handover request that doesn't begin with a collision record.
    CollisionMissing = 25,
    /// No other reason holds, but nothing that may follow fits the lengths that were given.
    DoesNotFit = 23,
    /// The input ended within a message, or before one.
    EndOfInput = 24,
}

impl Reason {
    /// The number that names the reason where it is printed: 1 to 22, 25 for a missing collision
    /// record, 23 where nothing fits and 24 for the end of the input.
    pub fn number(self) -> u8 {
        self as u8
    }

    /// The place in the order in which the reasons are tried, 1 to 25.
    pub fn rank(self) -> u8 {
        match self {
            Reason::CollisionMissing => 23,
            Reason::DoesNotFit => 24,
            Reason::EndOfInput => 25,
            _ => self.number(),
        }
    }

    /// The name, as it is printed: 4 to 16 bytes of ASCII.
    pub fn name(self) -> &'static [u8] {
        self.text().as_bytes()
    }

    /// The name as a text.
    fn text(self) -> &'static str {
        match self {
            Reason::ReservedTnf => "ReservedTnf",
            Reason::BeginMissing => "BeginMissing",
            Reason::BeginAgain => "BeginAgain",
            Reason::UnchangedOutside => "UnchangedOutside",
            Reason::ChangedInside => "ChangedInside",
            Reason::IdInside => "IdInside",
            Reason::ChunkAtEnd => "ChunkAtEnd",
            Reason::ChunkOfEmpty => "ChunkOfEmpty",
            Reason::TooManyPieces => "TooManyPieces",
            Reason::TooManyRecords => "TooManyRecords",
            Reason::TypeNotEmpty => "TypeNotEmpty",
            Reason::TypeEmpty => "TypeEmpty",
            Reason::EmptyNotEmpty => "EmptyNotEmpty",
            Reason::PayloadTooLarge => "PayloadTooLarge",
            Reason::TextBit => "TextBit",
            Reason::Language => "Language",
            Reason::Utf8 => "Utf8",
            Reason::Utf16 => "Utf16",
            Reason::UriCode => "UriCode",
            Reason::UriMissing => "UriMissing",
            Reason::UriAgain => "UriAgain",
            Reason::Version => "Version",
            Reason::CollisionMissing => "CollisionMissing",
            Reason::DoesNotFit => "DoesNotFit",
            Reason::EndOfInput => "EndOfInput",
        }
    }
}

/// The number and the name, as `24 EndOfInput`.
impl fmt::Display for Reason {
    fn fmt(&self, f: &mut fmt::Formatter<'_>) -> fmt::Result {
        let number = self.number();
        let name = self.text();
        write!(f, "{number} {name}")
    }
}
