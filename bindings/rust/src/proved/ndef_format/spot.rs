// Written by ports/erase of crates/ndef_format/src/spot.rt, which has the contracts: do not edit.
//! The position of a piece in a message.
use crate::proved::ndef_format::Profile;

/// The state before a piece of a message (NDEF 1.0): it follows from the pieces before it and the
/// limits. No piece is both the first of its message and inside a run.
#[derive(Clone, Copy, Debug, PartialEq, Eq, Hash)]
pub struct Spot {
    /// The way in which reserved values are read.
    pub profile: Profile,
    /// The piece is the first of its message.
    pub first: bool,
    /// A run is open (NDEF 1.0, chunked payloads), and the piece goes on with it.
    pub inside: bool,
    /// It is the last piece that its record may have.
    pub last_piece: bool,
    /// Its record is the last that the message may have.
    pub last_record: bool,
    /// The payload bytes still allowed to its record, 0 to 4294967295.
    pub room: u32,
}
