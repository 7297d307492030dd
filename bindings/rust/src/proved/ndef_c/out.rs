// Written by ports/erase of crates/ndef_c/src/out.rt, which has the contracts: do not edit.
//! The output of octets one after another: to a buffer, or to a counter that drops them.

/// A buffer, and the place after what was written. What is written past the end of the buffer is counted alone, so an
/// empty buffer counts. The functions that write are inlined, so that those that count do nothing else.
pub(crate) struct Out<'a> {
    buffer: &'a mut [u8],
    at: usize,
}

impl<'a> Out<'a> {
    /// Writes from a place of the buffer on.
    pub(crate) fn new(buffer: &'a mut [u8], at: usize) -> Out<'a> {
        Out { buffer, at }
    }

    /// Writes the octets.
    #[inline(always)]
    pub(crate) fn put(&mut self, octets: &[u8]) {
        let end = self.at.saturating_add(octets.len());
        if end <= self.buffer.len() {
            self.buffer[self.at..end].copy_from_slice(octets);
        }
        self.at = end;
    }

    /// The place after the bytes that were written.
    pub(crate) fn at(&self) -> usize {
        self.at
    }
}
