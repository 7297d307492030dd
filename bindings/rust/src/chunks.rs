//! The parts of a payload that lies in several chunks.
use crate::bytes::Quoted;
use crate::record::chunk;
use core::fmt;
use core::iter::FusedIterator;

/// An element of the array that [`Record::chunks_in`](crate::Record::chunks_in) takes.
#[derive(Clone, Copy, Debug, Default, PartialEq, Eq, Hash)]
pub struct Part(());

/// The part of a record's payload that each of its chunks has, one chunk after another.
#[derive(Clone)]
#[must_use = "an iterator does nothing unless it is used"]
pub struct Chunks<'a> {
    /// The bytes from the next chunk on.
    bytes: &'a [u8],
    left: usize,
}

impl<'a> Chunks<'a> {
    /// Those of the record with which the bytes of a message that was checked begin, which has this many.
    pub(crate) fn of(bytes: &'a [u8], count: usize) -> Self {
        Self { bytes, left: count }
    }
}

impl<'a> Iterator for Chunks<'a> {
    type Item = &'a [u8];

    fn next(&mut self) -> Option<&'a [u8]> {
        self.left = self.left.checked_sub(1)?;
        let chunk = chunk(self.bytes);
        self.bytes = chunk.rest;
        Some(chunk.payload)
    }

    fn size_hint(&self) -> (usize, Option<usize>) {
        (self.left, Some(self.left))
    }
}

impl ExactSizeIterator for Chunks<'_> {}
impl FusedIterator for Chunks<'_> {}

impl fmt::Debug for Chunks<'_> {
    fn fmt(&self, to: &mut fmt::Formatter<'_>) -> fmt::Result {
        to.debug_list().entries(self.clone().map(Quoted)).finish()
    }
}
