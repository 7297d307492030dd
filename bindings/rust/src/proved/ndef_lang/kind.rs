// Written by ports/erase of crates/ndef_lang/src/kind.rt, which has the contracts: do not edit.
//! The kind of payload that the type name of a record names, read octet by octet.

use crate::proved::ndef_format::{Kind, Tnf};

/// The octets of a type name that were read. No name of a kind has more than three.
#[derive(Clone, Copy, Debug, PartialEq, Eq)]
enum Front {
    Nothing,
    One(u8),
    Two(u8, u8),
    Three(u8, u8, u8),
    /// They begin no name of a kind.
    Unknown,
}

/// Reads the type name of a record (NDEF 1.0, TYPE), octet by octet.
#[derive(Clone, Copy, Debug, PartialEq, Eq)]
pub struct KindReader {
    /// The octets of the name that are to come.
    missing: u8,
    front: Front,
}

impl Front {
    /// Returns the state after one more octet.
    fn after(self, byte: u8) -> Front {
        match self {
            Front::Nothing => Front::One(byte),
            Front::One(a) => Front::Two(a, byte),
            Front::Two(a, b) => Front::Three(a, b, byte),
            Front::Three(..) => Front::Unknown,
            Front::Unknown => Front::Unknown,
        }
    }

    /// The kind, if the name ends here.
    fn kind(self) -> Kind {
        match self {
            Front::Nothing | Front::Unknown => Kind::Other,
            Front::One(a) => Kind::of(Tnf::WellKnown, &[a]),
            Front::Two(a, b) => Kind::of(Tnf::WellKnown, &[a, b]),
            Front::Three(a, b, c) => Kind::of(Tnf::WellKnown, &[a, b, c]),
        }
    }
}

impl KindReader {
    /// Returns the reader before the first octet of a type name of `type_length` octets.
    pub fn new(tnf: Tnf, type_length: u8) -> Self {
        let front = match tnf {
            Tnf::WellKnown => Front::Nothing,
            _ => Front::Unknown,
        };
        KindReader { missing: type_length, front }
    }

    /// Takes the next octet of the name, of which some are to come.
    pub fn step(&mut self, byte: u8) {
        self.missing -= 1;
        self.front = self.front.after(byte);
    }

    /// Takes the next octets of the name, of which at least that many are to come.
    pub fn step_all(&mut self, octets: &[u8]) {
        for octet in octets {
            self.step(*octet);
        }
    }

    /// The number of octets of the name that are to come.
    pub fn missing(&self) -> u8 {
        self.missing
    }

    /// The kind of the name, and Other as long as octets of it are missing.
    pub fn kind(&self) -> Kind {
        if self.missing == 0 {
            self.front.kind()
        } else {
            Kind::Other
        }
    }
}
