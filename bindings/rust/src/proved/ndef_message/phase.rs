// Written by ports/erase of crates/ndef_message/src/phase.rt, which has the contracts: do not edit.
//! The position of a checker in a message.

use crate::proved::ndef_piece::{Bounds, Head, Spot};
use crate::proved::ndef_value::{Limits, Profile, Refusal};

/// The state before a piece, from the pieces before it.
#[derive(Clone, Copy, Debug)]
pub(crate) struct Place {
    /// No piece was before it.
    pub(crate) first: bool,
    /// A run is open.
    pub(crate) inside: bool,
    /// The records that may still end.
    pub(crate) records: u32,
    /// The pieces that its record may still have.
    pub(crate) pieces: u32,
    /// The payload bytes that its record may still have.
    pub(crate) room: u32,
}

/// The field of the next byte, and the number of its bytes that are left.
#[derive(Clone, Copy, Debug)]
pub(crate) enum Phase {
    /// The head of a piece.
    Head,
    /// TYPE.
    Type { head: Head, left: u8 },
    /// ID.
    Id { head: Head, left: u8 },
    /// PAYLOAD.
    Payload { head: Head, left: u32 },
    /// The message has ended.
    Done,
    /// A byte was refused.
    Refused { refusal: Refusal },
}

impl Place {
    /// Returns the state before the first piece.
    pub(crate) fn start(limits: &Limits) -> Place {
        Place { first: true, inside: false, records: limits.records(), pieces: limits.pieces(), room: limits.payload() }
    }

    /// The spot of the piece.
    pub(crate) fn spot(&self, profile: Profile) -> Spot {
        Spot {
            profile,
            first: self.first,
            inside: self.inside,
            last_piece: self.pieces == 1,
            last_record: self.records == 1,
            room: self.room,
        }
    }

    /// Returns the state after a record.
    pub(crate) fn after_record(&self, limits: &Limits) -> Place {
        Place {
            first: false,
            inside: false,
            records: self.records.saturating_sub(1),
            pieces: limits.pieces(),
            room: limits.payload(),
        }
    }

    /// Returns the state after a piece with `payload_length` payload bytes, after which its record
    /// continues.
    pub(crate) fn past_chunk(&self, payload_length: u32) -> Place {
        Place {
            first: false,
            inside: true,
            records: self.records,
            pieces: self.pieces.saturating_sub(1),
            room: self.room.saturating_sub(payload_length),
        }
    }

    /// Returns the state after a piece with this head.
    pub(crate) fn after(&self, limits: &Limits, head: &Head) -> Place {
        if head.chunked {
            self.past_chunk(head.payload_length)
        } else {
            self.after_record(limits)
        }
    }

    /// The most payload bytes that can still come to the record, where `left` are left of the piece
    /// with this head.
    pub(crate) fn most_left(&self, head: &Head, left: u32) -> u64 {
        if head.chunked {
            u64::from(left) + u64::from(self.room.saturating_sub(head.payload_length))
        } else {
            u64::from(left)
        }
    }
}

impl Phase {
    /// Whether the message has ended.
    pub(crate) fn is_done(&self) -> bool {
        matches!(self, Phase::Done)
    }

    /// The number of accepted bytes among some bytes before this phase: all, or all but a refused one.
    pub(crate) fn accepted(&self, count: usize) -> usize {
        match self {
            Phase::Refused { .. } => count - 1,
            _ => count,
        }
    }
}

/// Returns the phase after a piece with this head.
pub(crate) fn phase_after(head: &Head) -> Phase {
    if head.chunked {
        Phase::Head
    } else if head.last {
        Phase::Done
    } else {
        Phase::Head
    }
}

/// The most payload bytes of the record, where a piece goes on within the bounds of its head.
pub(crate) fn greatest(bounds: &Bounds, room: u32) -> u64 {
    let room = u64::from(room);
    if bounds.chunked || room < bounds.payload.1 {
        room
    } else {
        bounds.payload.1
    }
}
