// Written by ports/erase of crates/ndef_c/src/limits.rt, which has the contracts: do not edit.
//! Limits as numbers.

use crate::proved::ndef_value::{Limits, Profile};

/// Limits, and how bytes are checked.
#[repr(C)]
#[derive(Clone, Copy, Debug, Default, PartialEq, Eq, Hash)]
pub struct NdefLimits {
    /// The greatest number of bytes of a payload, its chunks joined, 1 to 4294967295.
    pub(crate) payload: u32,
    /// The greatest number of records of a message, 1 to 65535.
    pub(crate) records: u32,
    /// The greatest number of chunks of a record, 1 to 65535.
    pub(crate) chunks: u32,
    /// 1 for the profile Standard, 2 for a look into no payload, 3 for both.
    pub(crate) flags: u32,
}

/// The profile that the flags ask for.
pub(crate) fn profile_of(flags: u32) -> Profile {
    if flags % 2 == 1 {
        Profile::Standard
    } else {
        Profile::Strict
    }
}

/// Returns the limits of these numbers, and whether payloads are validated.
pub(crate) fn limits_of(numbers: &NdefLimits) -> Option<(Limits, bool)> {
    if numbers.flags > 3 {
        return None;
    }
    let Ok(limits) = Limits::new(numbers.payload, numbers.records, numbers.chunks) else {
        return None;
    };
    Some((limits.with(profile_of(numbers.flags)), numbers.flags < 2))
}

/// Writes the default limits: 1048576 bytes, 1024 records and 4096 chunks, strict, with a look
/// into payloads.
pub fn ndef_default_limits(out: &mut NdefLimits) {
    let limits = Limits::usual();
    *out = NdefLimits { payload: limits.payload(), records: limits.records(), chunks: limits.pieces(), flags: 0 };
}
