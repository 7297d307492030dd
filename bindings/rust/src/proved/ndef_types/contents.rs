// Written by ports/erase of crates/ndef_types/src/contents.rt, which has the contracts: do not edit.
//! The records of nested messages.

use crate::proved::ndef_lang::{refusal_of, Kind, Language, Leaf};
use crate::proved::ndef_value::Profile;

/// Whether two kinds are one.
pub fn is_kind(kind: Kind, other: Kind) -> bool {
    kind == other
}

/// Whether the payload is one of the kind, as a strict reader takes it.
fn is_payload(kind: Kind, payload: &[u8]) -> bool {
    Leaf::has(kind, 1, Profile::Strict, payload) || refusal_of::<Leaf>(kind, 1, Profile::Strict, payload).is_none()
}
