// Written by ports/erase of crates/ndef_format/src/kind.rt, which has the contracts: do not edit.
//! The kind of payload that the type of a record names.

use crate::proved::ndef_format::Tnf;

/// The kind of payload that a record's type names (RTD 1.0, well-known types).
#[derive(Clone, Copy, Debug, PartialEq, Eq, Hash)]
pub enum Kind {
    /// A type that none of the standards read here defines.
    Other,
    /// `T`, a text (RTD Text 1.0).
    Text,
    /// `U`, a URI (RTD URI 1.0).
    Uri,
    /// `Sp`, a smart poster (RTD Smart Poster 1.0).
    SmartPoster,
    /// `Hr`, a handover request (Connection Handover 1.2).
    Request,
    /// `Hs`, a handover select (Connection Handover 1.2).
    Select,
    /// `Hc`, a handover carrier (Connection Handover 1.2).
    Carrier,
    /// `act`, the recommended action of a smart poster (RTD Smart Poster 1.0).
    Action,
    /// `s`, the size of the object to which a smart poster refers (RTD Smart Poster 1.0).
    Size,
    /// `t`, the media type of the object to which a smart poster refers (RTD Smart Poster 1.0).
    MediaType,
    /// `ac`, an alternative carrier of a handover (Connection Handover 1.2).
    Alternative,
    /// `cr`, the collision resolution of a handover request (Connection Handover 1.2).
    Collision,
    /// `err`, the error of a handover select (Connection Handover 1.2).
    Error,
}

/// The kind of a well-known type with a name of one octet.
fn of_one(a: u8) -> Kind {
    match a {
        b'T' => Kind::Text,
        b'U' => Kind::Uri,
        b's' => Kind::Size,
        b't' => Kind::MediaType,
        _ => Kind::Other,
    }
}

/// The kind of a well-known type with a name of two octets.
fn of_two(a: u8, b: u8) -> Kind {
    match (a, b) {
        (b'S', b'p') => Kind::SmartPoster,
        (b'H', b'r') => Kind::Request,
        (b'H', b's') => Kind::Select,
        (b'H', b'c') => Kind::Carrier,
        (b'a', b'c') => Kind::Alternative,
        (b'c', b'r') => Kind::Collision,
        _ => Kind::Other,
    }
}

/// The kind of a well-known type with a name of three octets.
fn of_three(a: u8, b: u8, c: u8) -> Kind {
    match (a, b, c) {
        (b'a', b'c', b't') => Kind::Action,
        (b'e', b'r', b'r') => Kind::Error,
        _ => Kind::Other,
    }
}

impl Kind {
    /// The kind of the type with this type name format and this name.
    #[inline(always)]
    pub fn of(tnf: Tnf, name: &[u8]) -> Kind {
        let Tnf::WellKnown = tnf else {
            return Kind::Other;
        };
        match name {
            [a] => of_one(*a),
            [a, b] => of_two(*a, *b),
            [a, b, c] => of_three(*a, *b, *c),
            _ => Kind::Other,
        }
    }

    /// The name of the well-known type of this kind (RTD 1.0, well-known types), 1 to 3 octets, as `Sp` for a smart
    /// poster; empty for Other, which has none.
    pub fn name(self) -> &'static [u8] {
        match self {
            Kind::Other => b"",
            Kind::Text => b"T",
            Kind::Uri => b"U",
            Kind::SmartPoster => b"Sp",
            Kind::Request => b"Hr",
            Kind::Select => b"Hs",
            Kind::Carrier => b"Hc",
            Kind::Action => b"act",
            Kind::Size => b"s",
            Kind::MediaType => b"t",
            Kind::Alternative => b"ac",
            Kind::Collision => b"cr",
            Kind::Error => b"err",
        }
    }

    /// The kind whose payloads a record of a message has; Other if they may be any.
    pub fn outer(self) -> Kind {
        match self {
            Kind::Text | Kind::Uri | Kind::SmartPoster | Kind::Request | Kind::Select | Kind::Carrier => self,
            Kind::Other
            | Kind::Action
            | Kind::Size
            | Kind::MediaType
            | Kind::Alternative
            | Kind::Collision
            | Kind::Error => Kind::Other,
        }
    }
}
