// Written by ports/erase of crates/ndef_message/src/item.rt, which has the contracts: do not edit.
//! A record of a message, where it lies.

use crate::proved::ndef_message::checked_bytes::first_piece;
use crate::proved::ndef_message::Pieces;
use crate::proved::ndef_piece::WholePiece;
use crate::proved::ndef_value::Tnf;

/// A record of a viewed message (NDEF 1.0, record layout and chunked payloads): its type, its id and
/// the payloads of its pieces are slices of the bytes that were viewed. Contracts see the run of its
/// pieces.
#[derive(Clone, Debug)]
pub struct Item<'a> {
    /// The bytes of its pieces.
    bytes: &'a [u8],
    /// The number of them that are payload.
    length: u32,
}

/// The record with which the bytes begin, and the bytes after it.
pub(crate) fn split_item(bytes: &[u8]) -> (Item<'_>, &[u8]) {
    let mut rest = bytes;
    let mut length = 0;
    loop {
        let piece = first_piece(rest);
        rest = piece.rest;
        length += piece.payload.len() as u32;
        if !piece.is_chunked() {
            let (run, rest) = bytes.split_at(bytes.len() - rest.len());
            return (Item { bytes: run, length }, rest);
        }
    }
}

impl<'a> Item<'a> {
    /// The initial piece, or the only one.
    fn first(&self) -> WholePiece<'a> {
        first_piece(self.bytes)
    }

    /// The type name format (NDEF 1.0, TNF): never Unchanged, and the reserved 7 as Unknown.
    pub fn tnf(&self) -> Tnf {
        self.first().tnf()
    }

    /// The type (NDEF 1.0, TYPE), at most 255 bytes.
    pub fn kind(&self) -> &'a [u8] {
        self.first().kind
    }

    /// The id (NDEF 1.0, ID), at most 255 bytes; it is empty where the record has none.
    pub fn id(&self) -> &'a [u8] {
        self.first().id
    }

    /// The number of bytes of the payload, those of all pieces together.
    pub fn length(&self) -> u32 {
        self.length
    }

    /// The payloads of its pieces, in order (NDEF 1.0, chunked payloads). Joined they are the payload.
    pub fn pieces(&self) -> Pieces<'a> {
        Pieces::new(self.bytes)
    }

    /// The payload, where the record has one piece; None if it is chunked, even if a single one of its
    /// pieces has bytes.
    pub fn whole(&self) -> Option<&'a [u8]> {
        let piece = self.first();
        if piece.is_chunked() {
            None
        } else {
            Some(piece.payload)
        }
    }
}
