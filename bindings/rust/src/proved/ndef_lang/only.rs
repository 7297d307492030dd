// Written by ports/erase of crates/ndef_lang/src/only.rt, which has the contracts: do not edit.
//! Languages of one type of payload, whatever kind they are started with.

use super::language::Language;
use super::leaf::{Class, Leaf, Stage};
use super::member::is_leaf_payload;
use crate::proved::ndef_format::Kind;
use crate::proved::ndef_value::{Profile, Reason};
use core::marker::PhantomData;

/// A type of payload: the payloads, the reasons why an octet of one is refused, and the reader.
pub trait PayloadType: Copy {
    /// Whether it is clear at once that the payload is one of them. Where it is false, the payload may still be one.
    fn has(_profile: Profile, _payload: &[u8]) -> bool;

    /// Returns the state before the first octet.
    fn first(_profile: Profile) -> Leaf;
}

/// The language of one type of payload.
#[derive(Clone, Copy, Debug, PartialEq, Eq)]
pub struct Only<T: PayloadType> {
    leaf: Leaf,
    of: PhantomData<T>,
}

impl<T: PayloadType> Language for Only<T> {
    #[inline(always)]
    fn has(_kind: Kind, _records: u32, profile: Profile, payload: &[u8]) -> bool {
        T::has(profile, payload)
    }

    fn start(_kind: Kind, _records: u32, profile: Profile) -> Self {
        Only { leaf: T::first(profile), of: PhantomData }
    }

    fn step(&mut self, byte: u8) {
        self.leaf = self.leaf.after(byte);
    }

    fn step_all(&mut self, bytes: &[u8], lo: u64, hi: u64) -> usize {
        self.leaf.take(bytes, lo, hi)
    }

    fn fits(&self, lo: u64, hi: u64) -> bool {
        self.leaf.lengths().meet(lo, hi)
    }

    fn reason(&self) -> Reason {
        self.leaf.refusal_reason()
    }
}

/// A kind of record, as a type.
pub trait OneKind: Copy {
    /// The kind.
    fn kind() -> Kind;
}

/// The payloads of one kind of record.
#[derive(Clone, Copy, Debug, PartialEq, Eq)]
pub struct PayloadsOf<K: OneKind> {
    of: PhantomData<K>,
}

impl<K: OneKind> PayloadType for PayloadsOf<K> {
    #[inline(always)]
    fn has(profile: Profile, payload: &[u8]) -> bool {
        is_leaf_payload(K::kind(), profile, payload)
    }

    fn first(profile: Profile) -> Leaf {
        Leaf::of(K::kind(), profile)
    }
}

/// Texts (RTD Text 1.0).
#[derive(Clone, Copy, Debug, PartialEq, Eq)]
pub struct Texts;

impl OneKind for Texts {
    #[inline(always)]
    fn kind() -> Kind {
        Kind::Text
    }
}

/// URIs (RTD URI 1.0).
#[derive(Clone, Copy, Debug, PartialEq, Eq)]
pub struct Uris;

impl OneKind for Uris {
    #[inline(always)]
    fn kind() -> Kind {
        Kind::Uri
    }
}

/// Alternative carriers (Connection Handover 1.2).
#[derive(Clone, Copy, Debug, PartialEq, Eq)]
pub struct Alternatives;

impl OneKind for Alternatives {
    #[inline(always)]
    fn kind() -> Kind {
        Kind::Alternative
    }
}

/// Handover errors (Connection Handover 1.2).
#[derive(Clone, Copy, Debug, PartialEq, Eq)]
pub struct Errors;

impl OneKind for Errors {
    #[inline(always)]
    fn kind() -> Kind {
        Kind::Error
    }
}

/// Handover carriers (Connection Handover 1.2).
#[derive(Clone, Copy, Debug, PartialEq, Eq)]
pub struct Carriers;

impl OneKind for Carriers {
    #[inline(always)]
    fn kind() -> Kind {
        Kind::Carrier
    }
}

/// Lists of `N` octets.
#[derive(Clone, Copy, Debug, PartialEq, Eq)]
pub struct OctetsOf<const N: u32>;

impl<const N: u32> PayloadType for OctetsOf<N> {
    #[inline(always)]
    fn has(_profile: Profile, payload: &[u8]) -> bool {
        payload.len() as u64 == u64::from(N)
    }

    fn first(_profile: Profile) -> Leaf {
        Leaf::Field { left: N, class: Class::Any, next: Stage::End }
    }
}

/// The payloads of Text records (RTD Text 1.0).
///
/// A payload is a status octet with bit 6 clear, as many octets of language code up to 7F as bits 5
/// to 0 of it say, and a text: in UTF-16 where bit 7 is set, else in UTF-8.
pub type TextLang = Only<PayloadsOf<Texts>>;

/// The payloads of URI records (RTD URI 1.0).
///
/// A payload is a code and a UTF-8 text. The codes above 23 hexadecimal are reserved: a strict
/// reader refuses them, and any other reader takes any code.
pub type UriLang = Only<PayloadsOf<Uris>>;

/// The payloads of alternative carrier records (Connection Handover 1.2).
///
/// A payload is an octet with the power state, a carrier reference after an octet with its length,
/// an octet with the number of auxiliary references, each of these after its length, and any octets.
pub type AcLang = Only<PayloadsOf<Alternatives>>;

/// The payloads of handover error records (Connection Handover 1.2).
///
/// A payload is a reason and its data: one octet for reasons 1 and 3, four for 2, any for others.
pub type ErrLang = Only<PayloadsOf<Errors>>;

/// The payloads of handover carrier records (Connection Handover 1.2): a format octet, a type after an
/// octet with its length, and any octets.
pub type HcLang = Only<PayloadsOf<Carriers>>;

/// Payloads of `N` octets, as a size of four.
pub type Fixed<const N: u32> = Only<OctetsOf<N>>;
