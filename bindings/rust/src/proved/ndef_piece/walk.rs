// Written by ports/erase of crates/ndef_piece/src/walk.rt, which has the contracts: do not edit.
//! The pieces of a message and those of the messages within its payloads, one after another, each read once.

use crate::proved::ndef_format::{Kind, Table};
use crate::proved::ndef_piece::front::{piece_front, PieceFront};

/// A piece on a walk.
#[derive(Clone, Copy, Debug)]
pub struct WalkStep<'a> {
    /// The place of its first octet.
    pub at: usize,
    /// 0 in the message itself, 1 in a message within a payload.
    pub depth: u8,
    /// The kind of its payload where it stands; Other if nothing is checked there, as in one of several pieces in the
    /// message itself.
    pub kind: Kind,
    /// The piece, as far as it has come.
    pub piece: PieceFront<'a>,
}

/// The pieces that are still to come. Only the last of a message, or of a message within a payload, may not be whole.
#[derive(Clone, Copy, Debug)]
pub struct Walk<'a> {
    /// The number of bytes before the next piece.
    pub at: usize,
    /// The type of the nested message.
    pub table: Table,
    /// Its pieces that are not begun.
    pub inner: &'a [u8],
    /// The pieces of the outer message that are not begun.
    pub outer: &'a [u8],
}

/// The number of octets of a payload before the message that it holds: the version of a handover (Connection Handover
/// 1.2).
fn version_length(table: Table) -> usize {
    match table {
        Table::SmartPoster => 0,
        Table::Request | Table::Select => 1,
    }
}

/// The octets of the message in a payload of this kind; none where it holds none.
pub fn inner_of(kind: Kind, payload: &[u8]) -> &[u8] {
    match kind.table() {
        Some(table) => payload.split_at(version_length(table).min(payload.len())).1,
        None => &[],
    }
}

/// The kind of the payload of a piece of the message itself.
fn outer_kind(piece: &PieceFront<'_>) -> Kind {
    if piece.is_chunked() {
        Kind::Other
    } else {
        Kind::of(piece.tnf(), piece.kind)
    }
}

/// The next piece of the nested message.
fn inner_step(from: Walk<'_>) -> (WalkStep<'_>, Walk<'_>) {
    let (piece, rest) = piece_front(from.inner);
    let step = WalkStep { at: from.at, depth: 1, kind: from.table.kind(piece.tnf(), piece.kind), piece };
    let next = Walk { at: from.at + piece.octets.len(), table: from.table, inner: rest, outer: from.outer };
    (step, next)
}

/// The next piece of the message itself, and the message in its payload.
fn outer_step(from: Walk<'_>) -> (WalkStep<'_>, Walk<'_>) {
    let (piece, rest) = piece_front(from.outer);
    let kind = outer_kind(&piece);
    let inner = inner_of(kind, piece.payload);
    let step = WalkStep { at: from.at, depth: 0, kind, piece };
    let next = Walk { at: from.at + (piece.octets.len() - inner.len()), table: Table::of(kind), inner, outer: rest };
    (step, next)
}

impl<'a> Walk<'a> {
    /// The pieces of a message, or of a front of one.
    pub fn new(bytes: &'a [u8]) -> Walk<'a> {
        Walk { at: 0, table: Table::SmartPoster, inner: &[], outer: bytes }
    }

    /// The pieces of the message in a payload of this kind, none where it holds none. Places count from the first byte
    /// of the payload.
    pub fn of_payload(kind: Kind, payload: &'a [u8]) -> Walk<'a> {
        let inner = inner_of(kind, payload);
        Walk { at: payload.len() - inner.len(), table: Table::of(kind), inner, outer: &[] }
    }

    /// The next piece, as far as it has come, and those after it.
    pub fn step(self) -> Option<(WalkStep<'a>, Walk<'a>)> {
        if !self.inner.is_empty() {
            return Some(inner_step(self));
        }
        if self.outer.is_empty() {
            return None;
        }
        Some(outer_step(self))
    }
}
