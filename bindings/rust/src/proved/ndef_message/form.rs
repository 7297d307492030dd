// Written by ports/erase of crates/ndef_message/src/form.rt, which has the contracts: do not edit.
//! The form of the output.

/// The pieces that are written in the short form, PAYLOAD_LENGTH having one octet (NDEF 1.0, SR).
#[derive(Clone, Copy, Debug, PartialEq, Eq, Hash)]
pub enum Form {
    /// Each piece of at most 255 payload bytes.
    Short,
    /// None: each PAYLOAD_LENGTH has four octets.
    Long,
}
