// Written by ports/erase of crates/ndef_fields/src/report.rt, which has the contracts: do not edit.
//! The fields of the message with which an input begins.

use crate::proved::ndef_fields::Fields;
use crate::proved::ndef_lang::Kind;
use crate::proved::ndef_message::{view, Items};
use crate::proved::ndef_nest::Typed;
use crate::proved::ndef_value::{Limits, Refusal};

/// The fields of a message, its records, and its number of bytes.
#[derive(Clone, Debug)]
pub struct FieldReport<'a> {
    /// The number of bytes of the message, at least 3.
    pub taken: u64,
    /// Its fields.
    pub fields: Fields<'a>,
    /// Its records, for the payloads that come in several pieces.
    pub items: Items<'a>,
}

/// The fields of the message with which the bytes begin (NDEF 1.0, record layout; RTD Text 1.0, RTD URI 1.0, RTD Smart
/// Poster 1.0 and Connection Handover 1.2). Nothing is copied, and no memory is allocated.
///
/// The fields follow one another without a gap from the first byte of the message to its last. A message within a
/// payload has fields of its own, with depth 1. A payload that comes in several pieces is one field in each of them;
/// [`payload_fields`] gives those of the joined payload. Where the bytes begin with no message, they are refused as
/// [`view`] refuses them.
pub fn fields(bytes: &[u8], limits: Limits) -> Result<FieldReport<'_>, Refusal> {
    match view::<Typed>(bytes, limits) {
        Ok(view) => {
            let taken = view.taken();
            Ok(FieldReport { taken, fields: Fields::new(&bytes[..taken as usize]), items: view.items() })
        }
        Err(refusal) => Err(refusal),
    }
}

/// The fields of a front of a message (NDEF 1.0, record layout; RTD Text 1.0, RTD URI 1.0, RTD Smart Poster 1.0
/// and Connection Handover 1.2). Given the bytes of an input up to a refused one, they are all fields before
/// the refused byte.
///
/// They follow one another without a gap from the first byte to the last. The last one ends with the bytes: octets of
/// it may be missing. Messages within payloads, and payloads in several pieces, are treated as by [`fields`].
pub fn fields_before(bytes: &[u8]) -> Fields<'_> {
    Fields::new(bytes)
}

/// The fields of the payload of a record of this kind, joined where it comes in several pieces (RTD Text 1.0, RTD
/// URI 1.0, RTD Smart Poster 1.0 and Connection Handover 1.2). Their places count from its first byte; a message
/// within it has fields with depth 1.
///
/// They follow one another without a gap from the first byte to the last, whatever the bytes are. The last one
/// ends with the bytes: where these are a front of a payload, octets of it may be missing.
pub fn payload_fields(kind: Kind, payload: &[u8]) -> Fields<'_> {
    Fields::of_payload(kind, payload)
}
