// Written by ports/erase of crates/ndef_lang/src/record_language.rt, which has the contracts: do not edit.
//! The trait of a language for the records of a message.

use crate::proved::ndef_format::Tnf;
use crate::proved::ndef_value::{Profile, Reason};

/// The payloads that a record of a message may have, by its type, read one octet at a time. It is what a checker, a
/// decoder and their kin take for a type parameter. `Typed` of ndef_nest has the payloads that the standards define,
/// `Leaf` those of them with no message in them, `Opaque` any; by
/// `With` a crate adds record types of its own to another language, and it may write a whole language.
///
/// A language that goes by the kinds of the types answers `Kind::of(tnf, name)` first, and declares so by `by_kind`.
pub trait RecordLanguage {
    /// Whether it is clear at once that the payload is one of the type, in a message whose inner messages have at most
    /// `records` records. Where the answer is false, the payload may still be one.
    fn has(_tnf: Tnf, _name: &[u8], _records: u32, _profile: Profile, _payload: &[u8]) -> bool {
        false
    }

    /// Whether it is clear at once that any octets are a payload of the type.
    fn takes_all(_tnf: Tnf, _name: &[u8]) -> bool {
        false
    }

    /// Returns the state before a payload of the type; a message within it has at most `records` records, 1 to 65535.
    fn start(tnf: Tnf, name: &[u8], records: u32, profile: Profile) -> Self;

    /// Takes an octet. If something could follow before it, `reason` then returns why this octet is refused, if it is.
    fn step(&mut self, byte: u8);

    /// Whether some `lo` to `hi` octets complete a payload, `hi` being at most 4294967295.
    fn fits(&self, lo: u64, hi: u64) -> bool;

    /// Takes octets while what is still to come, `lo` to `hi` octets before the first of them, can complete a payload,
    /// and returns their number. If that is fewer than all, it has taken one more, and `reason` returns why that one is
    /// refused.
    fn step_all(&mut self, bytes: &[u8], lo: u64, hi: u64) -> usize {
        for (at, byte) in bytes.iter().enumerate() {
            self.step(*byte);
            let taken = at as u64 + 1;
            if !self.fits(lo - taken, hi - taken) {
                return at;
            }
        }
        bytes.len()
    }

    /// Whether it is clear at once that any octets complete the payload, and leave what can follow as it is. Where it
    /// is false, they may.
    fn is_open(&self) -> bool {
        false
    }

    /// The reason why the octet taken last is refused, if it is.
    fn reason(&self) -> Reason;
}
