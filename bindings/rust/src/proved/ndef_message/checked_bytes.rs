// Written by ports/erase of crates/ndef_message/src/checked_bytes.rt, which has the contracts: do not edit.
//! The bytes of pieces that were checked.

use crate::proved::ndef_piece::{whole_piece, WholePiece};

/// The piece with which the bytes begin.
pub(crate) fn first_piece(bytes: &[u8]) -> WholePiece<'_> {
    let Some(piece) = whole_piece(bytes) else { unreachable!() };
    piece
}
