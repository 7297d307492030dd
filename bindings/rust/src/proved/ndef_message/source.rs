// Written by ports/erase of crates/ndef_message/src/source.rt, which has the contracts: do not edit.
//! The source from which the bytes of a message are read.

/// A source could not give more bytes. It answers faults from then on.
#[derive(Clone, Copy, Debug, PartialEq, Eq, Hash)]
pub struct SourceFault;

impl core::fmt::Display for SourceFault {
    fn fmt(&self, f: &mut core::fmt::Formatter<'_>) -> core::fmt::Result {
        match self {
            SourceFault => write!(f, "reading failed"),
        }
    }
}

impl core::error::Error for SourceFault {}

/// Gives bytes, one run of them after another: `fill` shows the next, and the caller passes the number of used ones
/// to `take`.
pub trait Source {
    /// The next bytes, none only at the end. A source that has failed answers only faults.
    fn fill(&mut self) -> Result<&[u8], SourceFault>;

    /// Takes the first `count` of the bytes that the last `fill` showed and that are not taken yet.
    fn take(&mut self, count: usize);
}
