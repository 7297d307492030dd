// Written by ports/erase of crates/ndef_c/src/carrier.rt, which has the contracts: do not edit.
//! The payloads of Handover Carrier records (Connection Handover 1.2).

use crate::proved::ndef_c::buffer::give_parts;
use crate::proved::ndef_c::checking::NdefChecked;
use crate::proved::ndef_c::refusal::accepts;
use crate::proved::ndef_c::status::{BAD_ARGUMENT, OK, REFUSED};
use crate::proved::ndef_lang::{Kind, Leaf};
use crate::proved::ndef_types::CarrierParts;

/// A handover carrier, by offsets and lengths in its payload.
#[repr(C)]
#[derive(Clone, Copy, Debug, Default, PartialEq, Eq, Hash)]
pub struct NdefCarrier {
    /// The offset of the carrier type.
    pub(crate) type_at: usize,
    /// The bytes of the carrier type, at most 255.
    pub(crate) type_length: usize,
    /// The offset of the carrier data.
    pub(crate) data_at: usize,
    /// The bytes of the carrier data.
    pub(crate) data_length: usize,
    /// The carrier type format, 0 to 7.
    pub(crate) format: u32,
}

/// Returns the offsets and lengths of the parts of a carrier in its payload.
fn carrier_at(payload: &[u8]) -> NdefCarrier {
    let parts = CarrierParts::new(payload);
    let type_length = parts.kind().len();
    NdefCarrier {
        type_at: 2,
        type_length,
        data_at: 2 + type_length,
        data_length: parts.carried().len(),
        format: u32::from(parts.format()),
    }
}

/// Gives the offsets of the parts of the carrier that the payload of a Handover Carrier record describes.
pub fn ndef_carrier(payload: &[u8], out: &mut NdefCarrier, refusal: &mut NdefChecked) -> u32 {
    if !accepts::<Leaf>(Kind::Carrier, 0, payload, refusal) {
        return REFUSED;
    }
    *out = carrier_at(payload);
    OK
}

/// Whether a carrier of these parts may be written.
fn may_be_carrier(format: u32, kind: &[u8], carried: &[u8]) -> bool {
    format < 8 && kind.len() < 256 && carried.len() <= u32::MAX as usize - 2 - kind.len()
}

/// Writes the payload of a Handover Carrier record, its reserved bits 0, to the buffer.
pub fn ndef_write_carrier(format: u32, kind: &[u8], carried: &[u8], buffer: &mut [u8], count: &mut usize) -> u32 {
    if !may_be_carrier(format, kind, carried) {
        return BAD_ARGUMENT;
    }
    give_parts(&[format as u8, kind.len() as u8], kind, carried, buffer, count)
}
