// Written by ports/erase of crates/ndef_message/src/fed.rt, which has the contracts: do not edit.
//! The answers of a checker.
use crate::proved::ndef_value::Refusal;

/// The answer of a checker to some bytes of a message, after those before them.
#[derive(Clone, Copy, Debug, PartialEq, Eq, Hash)]
pub enum Fed {
    /// All of them were taken, and more are needed.
    More,
    /// The first `taken` of them were taken, and complete the message.
    Done {
        /// The number that was taken.
        taken: usize,
    },
    /// They aren't allowed there, or earlier ones weren't. From then on this is the answer.
    Refused(Refusal),
}
