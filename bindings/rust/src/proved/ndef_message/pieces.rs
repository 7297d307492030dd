// Written by ports/erase of crates/ndef_message/src/pieces.rt, which has the contracts: do not edit.
//! The payloads of the pieces of a record, where they lie.

use crate::proved::ndef_message::checked_bytes::first_piece;

/// The payloads of the pieces of a record (NDEF 1.0, chunked payloads), in order, each a slice of the
/// bytes that were viewed; empty ones too. Contracts see the payloads that are left.
#[derive(Clone, Debug)]
pub struct Pieces<'a> {
    /// The bytes of the pieces that are left.
    bytes: &'a [u8],
}

impl<'a> Pieces<'a> {
    /// The payloads of the pieces that the bytes are.
    pub(crate) fn new(bytes: &'a [u8]) -> Pieces<'a> {
        Pieces { bytes }
    }
}

impl<'a> Iterator for Pieces<'a> {
    type Item = &'a [u8];

    fn next(&mut self) -> Option<&'a [u8]> {
        if self.bytes.is_empty() {
            return None;
        }
        let piece = first_piece(self.bytes);
        self.bytes = piece.rest;
        Some(piece.payload)
    }
}
