// Written by ports/erase of crates/ndef_value/src/limits.rt, which has the contracts: do not edit.
//! The greatest size of a message, and the profile of its reader.

use crate::proved::ndef_value::Profile;

/// The most bytes of a payload, its pieces joined (NDEF 1.0, PAYLOAD_LENGTH).
pub const MOST_PAYLOAD: u32 = 4294967295;

/// The most records of a message, a nested one too.
pub const MOST_RECORDS: u32 = 65535;

/// The most pieces of a record.
pub const MOST_PIECES: u32 = 65535;

/// The limits of a message that is read: the bytes of a payload, its pieces joined, 1 to 4294967295; the records of
/// a message, a nested one too, 1 to 65535; the pieces of a record, 1 to 65535; and how reserved values are read. NDEF
/// 1.0 sets no limit but that of its 32-bit lengths.
#[derive(Clone, Copy, Debug, PartialEq, Eq, Hash)]
pub struct Limits {
    payload: u32,
    records: u32,
    pieces: u32,
    profile: Profile,
}

/// A limit is out of its range. Nothing was made.
#[derive(Clone, Copy, Debug, PartialEq, Eq, Hash)]
pub struct OutOfRange;

impl core::fmt::Display for OutOfRange {
    fn fmt(&self, f: &mut core::fmt::Formatter<'_>) -> core::fmt::Result {
        match self {
            OutOfRange => write!(f, "a limit out of its range"),
        }
    }
}

impl core::error::Error for OutOfRange {}

impl Limits {
    /// Strict limits: 1 to 4294967295 bytes of a payload, 1 to 65535 records of a message and 1 to
    /// 65535 pieces of a record; else `OutOfRange`.
    pub fn new(payload: u32, records: u32, pieces: u32) -> Result<Limits, OutOfRange> {
        let records_fit = 1 <= records && records <= MOST_RECORDS;
        let pieces_fit = 1 <= pieces && pieces <= MOST_PIECES;
        if payload == 0 || !records_fit || !pieces_fit {
            return Err(OutOfRange);
        }
        Ok(Limits { payload, records, pieces, profile: Profile::Strict })
    }

    /// Strict limits for usual tags: 1048576 bytes, 1024 records and 4096 pieces.
    pub fn usual() -> Limits {
        Limits { payload: 1048576, records: 1024, pieces: 4096, profile: Profile::Strict }
    }

    /// The same limits under another profile.
    pub fn with(self, profile: Profile) -> Limits {
        Limits { profile, ..self }
    }

    /// The greatest number of bytes of a payload, its pieces joined, 1 to 4294967295.
    pub fn payload(&self) -> u32 {
        self.payload
    }

    /// The greatest number of records of a message, a nested one too, 1 to 65535.
    pub fn records(&self) -> u32 {
        self.records
    }

    /// The greatest number of pieces of a record, 1 to 65535.
    pub fn pieces(&self) -> u32 {
        self.pieces
    }

    /// The way in which reserved values are read.
    pub fn profile(&self) -> Profile {
        self.profile
    }
}

/// The usual limits.
impl Default for Limits {
    fn default() -> Limits {
        Limits::usual()
    }
}
