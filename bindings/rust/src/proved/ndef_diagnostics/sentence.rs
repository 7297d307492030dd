// Written by ports/erase of crates/ndef_diagnostics/src/sentence.rt, which has the contracts: do not edit.
//! A short text, made with no memory.

use crate::proved::shim::arrayvec::ArrayVec;
use crate::proved::shim::itoa::Buffer;

/// The most bytes of a sentence.
pub const ROOM: usize = 192;

/// A sentence of English: at most 192 bytes of ASCII.
#[derive(Clone)]
pub struct Sentence {
    bytes: ArrayVec<u8, ROOM>,
}

impl Sentence {
    /// The empty text.
    pub(crate) fn new() -> Sentence {
        Sentence { bytes: ArrayVec::new() }
    }

    /// Appends a text, which must fit in the rest of the sentence.
    pub(crate) fn push(&mut self, text: &[u8]) {
        self.bytes.try_extend_from_slice(text).unwrap();
    }

    /// Appends a number in decimal digits, at most 20 of them.
    pub(crate) fn push_number(&mut self, number: u64) {
        let mut buffer = Buffer::new();
        self.push(buffer.format(number).as_bytes());
    }

    /// Its bytes, at most 192.
    pub fn as_slice(&self) -> &[u8] {
        self.bytes.as_slice()
    }
}
