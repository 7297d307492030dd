// Written by ports/erase of crates/ndef_format/src/refusal.rt, which has the contracts: do not edit.
//! The place and the reason of a refusal.

use crate::proved::ndef_format::Reason;
use core::error::Error;
use core::fmt;

/// The first byte that isn't allowed at its place, or the end of input that came too early.
#[derive(Clone, Copy, Debug, PartialEq, Eq, Hash)]
pub struct Refusal {
    /// The place, in bytes from 0 at the start of what is read: of the message, or of the payload.
    pub at: u64,
    /// The reason why that byte is refused.
    pub reason: Reason,
}

/// The place, and the number and the name of the reason, as `refused at 11: 24 EndOfInput`.
impl fmt::Display for Refusal {
    fn fmt(&self, f: &mut fmt::Formatter<'_>) -> fmt::Result {
        let at = self.at;
        let reason = self.reason;
        write!(f, "refused at {at}: {reason}")
    }
}

impl Error for Refusal {}
