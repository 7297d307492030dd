// Written by ports/erase of crates/ndef_nest/src/typed.rt, which has the contracts: do not edit.
//! The payloads of the records of a message, by the kinds of their types.

use crate::proved::ndef_format::Tnf;
use crate::proved::ndef_lang::{Kind, Language, Leaf, RecordLanguage};
use crate::proved::ndef_nest::member::is_nested;
use crate::proved::ndef_nest::nest::Nest;
use crate::proved::ndef_value::{Profile, Reason};

/// The payloads of the records of a message: texts (RTD Text 1.0), URIs (RTD URI 1.0), handover carriers
/// (Connection Handover 1.2), and messages within a payload. Any other type may have any octets, also one
/// that only nested messages know.
#[derive(Clone, Debug)]
pub enum Typed {
    /// A payload with no message in it.
    Leaf(Leaf),
    /// A smart poster, or a handover request or select.
    Nest(Nest),
}

impl Language for Typed {
    #[inline(always)]
    fn has(kind: Kind, records: u32, profile: Profile, payload: &[u8]) -> bool {
        match kind.table() {
            Some(table) => is_nested(table, records, profile, payload),
            None => <Leaf as Language>::has(kind.outer(), records, profile, payload),
        }
    }

    #[inline(always)]
    fn start(kind: Kind, records: u32, profile: Profile) -> Self {
        match kind.table() {
            Some(table) => Typed::Nest(Nest::new(table, records, profile)),
            None => Typed::Leaf(<Leaf as Language>::start(kind.outer(), records, profile)),
        }
    }

    fn step(&mut self, byte: u8) {
        match self {
            Typed::Leaf(leaf) => Language::step(leaf, byte),
            Typed::Nest(nest) => nest.step(byte),
        }
    }

    fn step_all(&mut self, bytes: &[u8], lo: u64, hi: u64) -> usize {
        match self {
            Typed::Leaf(leaf) => Language::step_all(leaf, bytes, lo, hi),
            Typed::Nest(nest) => nest.step_all(bytes, lo, hi),
        }
    }

    fn fits(&self, lo: u64, hi: u64) -> bool {
        match self {
            Typed::Leaf(leaf) => Language::fits(leaf, lo, hi),
            Typed::Nest(nest) => nest.fits(lo, hi),
        }
    }

    fn reason(&self) -> Reason {
        match self {
            Typed::Leaf(leaf) => Language::reason(leaf),
            Typed::Nest(nest) => nest.reason(),
        }
    }
}

/// The language by the kinds of the types.
impl RecordLanguage for Typed {
    #[inline(always)]
    fn has(tnf: Tnf, name: &[u8], records: u32, profile: Profile, payload: &[u8]) -> bool {
        <Typed as Language>::has(Kind::of(tnf, name), records, profile, payload)
    }

    fn takes_all(tnf: Tnf, name: &[u8]) -> bool {
        let kind = Kind::of(tnf, name);
        match kind.table() {
            Some(_) => false,
            None => Leaf::takes_any(kind.outer()),
        }
    }

    fn start(tnf: Tnf, name: &[u8], records: u32, profile: Profile) -> Self {
        <Typed as Language>::start(Kind::of(tnf, name), records, profile)
    }

    fn step(&mut self, byte: u8) {
        Language::step(self, byte);
    }

    fn step_all(&mut self, bytes: &[u8], lo: u64, hi: u64) -> usize {
        Language::step_all(self, bytes, lo, hi)
    }

    fn fits(&self, lo: u64, hi: u64) -> bool {
        Language::fits(self, lo, hi)
    }

    fn is_open(&self) -> bool {
        match self {
            Typed::Leaf(leaf) => leaf.is_any(),
            Typed::Nest(_) => false,
        }
    }

    fn reason(&self) -> Reason {
        Language::reason(self)
    }
}
