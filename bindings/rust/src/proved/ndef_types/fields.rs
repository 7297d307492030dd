// Written by ports/erase of crates/ndef_types/src/fields.rt, which has the contracts: do not edit.
//! The fields of a payload.

/// The octets after the first.
pub(crate) fn after_first(octets: &[u8]) -> &[u8] {
    &octets[1..]
}

/// A field after its length, and the rest after it.
pub(crate) fn split_counted(octets: &[u8]) -> (&[u8], &[u8]) {
    after_first(octets).split_at(usize::from(octets[0]))
}
