// Written by ports/erase of crates/ndef_lang/src/language.rt, which has the contracts: do not edit.
//! The trait of a payload language.

use crate::proved::ndef_format::Kind;
use crate::proved::ndef_value::{Profile, Reason};

/// A set of payloads for each kind, read one octet at a time. `Leaf` has the payloads that
/// the standards define for single records, `Typed` of ndef_nest those and nested messages,
/// `Opaque` any.
///
/// The sets may depend on the number of records that a message within a payload may have, and on
/// how the profile reads reserved values.
pub trait Language {
    /// Returns true if it is clear at once that the payload is one of the kind, in a message whose inner
    /// messages have at most `records` records. If the result is false, the payload may still be
    /// one. This is faster than reading octet by octet, which alone gives the place and the reason of a
    /// refusal.
    fn has(_kind: Kind, _records: u32, _profile: Profile, _payload: &[u8]) -> bool {
        false
    }

    /// Returns the state before the first octet of a payload of the kind; a message within it has at most `records`
    /// records, 1 to 65535.
    fn start(kind: Kind, records: u32, profile: Profile) -> Self;

    /// Takes an octet. If something could follow before it, `reason` then returns why this octet is
    /// refused, if it is.
    fn step(&mut self, byte: u8);

    /// Whether some `lo` to `hi` octets complete a payload, `hi` being at most 4294967295.
    fn fits(&self, lo: u64, hi: u64) -> bool;

    /// Takes octets while what is still to come, `lo` to `hi` octets before the first of them, can
    /// complete a payload, and returns their number. If that is fewer than all, it has taken one
    /// more, and `reason` returns why that one is refused.
    fn step_all(&mut self, bytes: &[u8], lo: u64, hi: u64) -> usize {
        for (at, byte) in bytes.iter().enumerate() {
            self.step(*byte);
            let taken = at as u64 + 1;
            if !self.fits(lo - taken, hi - taken) {
                return at;
            }
        }
        bytes.len()
    }

    /// The reason why the octet taken last is refused, if it is.
    fn reason(&self) -> Reason;
}
