// Written by ports/erase of crates/ndef_lang/src/opaque.rt, which has the contracts: do not edit.
//! Payloads that aren't validated.

use super::lengths::Lengths;
use super::record_language::RecordLanguage;
use crate::proved::ndef_format::Tnf;
use crate::proved::ndef_value::{Profile, Reason};

/// The language in which every payload of every type is valid: payloads aren't validated.
#[derive(Clone, Copy, Debug, PartialEq, Eq)]
pub struct Opaque;

impl RecordLanguage for Opaque {
    fn has(_tnf: Tnf, _name: &[u8], _records: u32, _profile: Profile, _payload: &[u8]) -> bool {
        true
    }

    fn takes_all(_tnf: Tnf, _name: &[u8]) -> bool {
        true
    }

    fn start(_tnf: Tnf, _name: &[u8], _records: u32, _profile: Profile) -> Self {
        Opaque
    }

    fn step(&mut self, _byte: u8) {}

    fn step_all(&mut self, bytes: &[u8], _lo: u64, _hi: u64) -> usize {
        bytes.len()
    }

    fn fits(&self, lo: u64, hi: u64) -> bool {
        Lengths::From(0).meet(lo, hi)
    }

    fn is_open(&self) -> bool {
        true
    }

    fn reason(&self) -> Reason {
        Reason::DoesNotFit
    }
}
