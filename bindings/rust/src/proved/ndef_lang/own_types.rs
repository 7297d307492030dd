// Written by ports/erase of crates/ndef_lang/src/own_types.rt, which has the contracts: do not edit.
//! Record types of a program's own, beside those of another language.

use super::language::Language;
use super::record_language::RecordLanguage;
use crate::proved::ndef_format::{Kind, Tnf};
use crate::proved::ndef_value::{Profile, Reason};

/// A record type of a program's own, or several with one set of payloads.
pub trait OwnType {
    /// Reads the payloads, as `Fixed`, `Utf8Lang` or an `Only` of a layout.
    type Payload: Language;

    /// Whether the type with this type name format and this name is it.
    fn is_own(tnf: Tnf, name: &[u8]) -> bool;
}

/// Whether the type with this type name format and this name is the own one, octet for octet.
pub fn is_type(own: Tnf, own_name: &[u8], tnf: Tnf, name: &[u8]) -> bool {
    own.code() == tnf.code() && own_name == name
}

/// The payloads of the own type, and those of the other language for any other type.
#[derive(Clone)]
pub enum With<T: OwnType, L: RecordLanguage> {
    /// A payload of the own type.
    Own(T::Payload),
    /// A payload of any other type.
    Base(L),
}

impl<T: OwnType, L: RecordLanguage> RecordLanguage for With<T, L> {
    fn has(tnf: Tnf, name: &[u8], records: u32, profile: Profile, payload: &[u8]) -> bool {
        if T::is_own(tnf, name) {
            T::Payload::has(Kind::Other, records, profile, payload)
        } else {
            L::has(tnf, name, records, profile, payload)
        }
    }

    fn takes_all(tnf: Tnf, name: &[u8]) -> bool {
        !T::is_own(tnf, name) && L::takes_all(tnf, name)
    }

    fn start(tnf: Tnf, name: &[u8], records: u32, profile: Profile) -> Self {
        if T::is_own(tnf, name) {
            With::Own(T::Payload::start(Kind::Other, records, profile))
        } else {
            With::Base(L::start(tnf, name, records, profile))
        }
    }

    fn step(&mut self, byte: u8) {
        match self {
            With::Own(own) => own.step(byte),
            With::Base(base) => base.step(byte),
        }
    }

    fn fits(&self, lo: u64, hi: u64) -> bool {
        match self {
            With::Own(own) => own.fits(lo, hi),
            With::Base(base) => base.fits(lo, hi),
        }
    }

    fn step_all(&mut self, bytes: &[u8], lo: u64, hi: u64) -> usize {
        match self {
            With::Own(own) => own.step_all(bytes, lo, hi),
            With::Base(base) => base.step_all(bytes, lo, hi),
        }
    }

    fn is_open(&self) -> bool {
        match self {
            With::Own(_) => false,
            With::Base(base) => base.is_open(),
        }
    }

    fn reason(&self) -> Reason {
        match self {
            With::Own(own) => own.reason(),
            With::Base(base) => base.reason(),
        }
    }
}
