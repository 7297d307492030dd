// Written by ports/erase of crates/ndef_diagnostics/src/wholes.rt, which has the contracts: do not edit.
//! The whole pieces at the beginning of some bytes, and the records that end with them.

use crate::proved::ndef_piece::whole_piece;

/// The whole pieces at the beginning of some bytes.
#[derive(Clone, Copy, Debug)]
pub struct WholePieces<'a> {
    /// The number of them.
    pub count: usize,
    /// The number of records that end with one of them.
    pub records: usize,
    /// Whether the last of them is a chunk that another has to follow (CF is set).
    pub ends_in_chunk: bool,
    /// The bytes after them, which begin with no whole piece.
    pub rest: &'a [u8],
}

/// The whole pieces at the beginning of some bytes, and the rest after them (NDEF 1.0, messages and record layout).
pub fn whole_pieces(bytes: &[u8]) -> WholePieces<'_> {
    let mut rest = bytes;
    let mut count = 0;
    let mut records = 0;
    let mut ends_in_chunk = false;
    while let Some(piece) = whole_piece(rest) {
        rest = piece.rest;
        count += 1;
        ends_in_chunk = piece.is_chunked();
        let ended = usize::from(!ends_in_chunk);
        records += ended;
    }
    WholePieces { count, records, ends_in_chunk, rest }
}
