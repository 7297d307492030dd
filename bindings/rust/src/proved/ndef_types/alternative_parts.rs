// Written by ports/erase of crates/ndef_types/src/alternative_parts.rt, which has the contracts: do not edit.
//! Alternative carriers, as they lie in their payloads.

use crate::proved::ndef_lang::{Kind, Leaf};
use crate::proved::ndef_types::accepting::accept;
use crate::proved::ndef_types::fields::{after_first, split_counted};
use crate::proved::ndef_types::Power;
use crate::proved::ndef_value::{Profile, Refusal};

/// The payload of an alternative carrier record, whose parts are slices of it (Connection Handover 1.2,
/// Alternative Carrier record). Contracts see the octets of the payload.
#[derive(Clone, Debug)]
pub struct AlternativeParts<'a> {
    payload: &'a [u8],
}

/// Returns the octets after the first `skipped` of `count` references, each after its length.
fn skip(octets: &[u8], count: u8, skipped: usize) -> &[u8] {
    let mut left = octets;
    for _i in 0..skipped {
        left = split_counted(left).1;
    }
    left
}

impl<'a> AlternativeParts<'a> {
    /// The parts of a payload that is known to be that of an alternative carrier.
    pub fn new(payload: &'a [u8]) -> AlternativeParts<'a> {
        AlternativeParts { payload }
    }

    /// The parts of a payload, which is refused where it isn't in the set of its type or is longer than a
    /// payload may be.
    pub fn parse(payload: &'a [u8]) -> Result<AlternativeParts<'a>, Refusal> {
        match accept::<Leaf>(Kind::Alternative, Profile::Strict, payload) {
            Ok(()) => Ok(AlternativeParts { payload }),
            Err(refusal) => Err(refusal),
        }
    }

    /// The power state of the carrier: bits 1 to 0 of the first octet, whose other bits are ignored.
    pub fn power(&self) -> Power {
        Power::of(self.payload[0])
    }

    /// The carrier reference, 0 to 255 octets: the id of the record of the message that describes the
    /// carrier.
    pub fn reference(&self) -> &'a [u8] {
        split_counted(after_first(self.payload)).0
    }

    /// The octets after the carrier reference.
    fn after_reference(&self) -> &'a [u8] {
        split_counted(after_first(self.payload)).1
    }

    /// The number of auxiliary references, 0 to 255.
    pub fn auxiliary_count(&self) -> usize {
        usize::from(self.after_reference()[0])
    }

    /// The auxiliary reference at a place, counted from 0: the id of a record with more about the
    /// carrier. None from `auxiliary_count` on.
    pub fn auxiliary(&self, index: usize) -> Option<&'a [u8]> {
        let octets = self.after_reference();
        if index >= usize::from(octets[0]) {
            return None;
        }
        let left = skip(after_first(octets), octets[0], index);
        Some(split_counted(left).0)
    }

    /// The octets after the references, which the standard reserves.
    pub fn rest(&self) -> &'a [u8] {
        let octets = self.after_reference();
        skip(after_first(octets), octets[0], usize::from(octets[0]))
    }
}
