// Written by ports/erase of crates/ndef_c/src/status.rt, which has the contracts: do not edit.
//! The statuses that calls return.

/// It is done.
pub const OK: u32 = 0;
/// The bytes are refused.
pub const REFUSED: u32 = 1;
/// The buffer is too small.
pub const BUFFER_TOO_SMALL: u32 = 2;
/// An argument isn't one of those that are allowed.
pub const BAD_ARGUMENT: u32 = 3;
/// There are no more records, references, links or fields.
pub const END: u32 = 4;
/// More bytes are needed.
pub const MORE: u32 = 5;
