// Written by ports/erase of crates/ndef_types/src/carrier.rt, which has the contracts: do not edit.
//! Handover carriers.

use crate::proved::ndef_lang::{Kind, Leaf};
use crate::proved::ndef_types::accepting::accept;
use crate::proved::ndef_types::fields::{after_first, split_counted};
use crate::proved::ndef_value::{Profile, Refusal};

/// The payload of a handover carrier record, whose parts are slices of it (Connection Handover 1.2, Handover
/// Carrier record). Contracts see its octets.
#[derive(Clone, Debug)]
pub struct CarrierParts<'a> {
    payload: &'a [u8],
}

impl<'a> CarrierParts<'a> {
    /// The parts of a payload that is known to be that of a handover carrier.
    pub fn new(payload: &'a [u8]) -> CarrierParts<'a> {
        CarrierParts { payload }
    }

    /// The parts of a payload, which is refused where it isn't in the set of its type or is longer than a
    /// payload may be.
    pub fn parse(payload: &'a [u8]) -> Result<CarrierParts<'a>, Refusal> {
        match accept::<Leaf>(Kind::Carrier, Profile::Strict, payload) {
            Ok(()) => Ok(CarrierParts { payload }),
            Err(refusal) => Err(refusal),
        }
    }

    /// The carrier type format, 0 to 7: bits 2 to 0 of the first octet, whose other bits are ignored.
    pub fn format(&self) -> u8 {
        self.payload[0] % 8
    }

    /// The carrier type, 0 to 255 octets.
    pub fn kind(&self) -> &'a [u8] {
        split_counted(after_first(self.payload)).0
    }

    /// The carrier data, such as what configures the carrier.
    pub fn carried(&self) -> &'a [u8] {
        split_counted(after_first(self.payload)).1
    }
}
