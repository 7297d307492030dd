// Written by ports/erase of crates/ndef_diagnostics/src/record_remark.rt, which has the contracts: do not edit.
//! Remarks about a record of a message that is accepted, beside the other records.

use crate::proved::ndef_diagnostics::begun::after;
use crate::proved::ndef_diagnostics::few::{count_id, small_message, whole_payload};
use crate::proved::ndef_diagnostics::handover_remark::{reference_remark, request_remark};
use crate::proved::ndef_diagnostics::poster_remark::poster_remark;
use crate::proved::ndef_diagnostics::text_remark::text_remark_of;
use crate::proved::ndef_diagnostics::Remark;
use crate::proved::ndef_lang::Kind;
use crate::proved::ndef_message::{Item, View};

/// Whether an id is there, and another record has it too.
fn is_repeated(message: &View<'_>, id: &[u8]) -> bool {
    !id.is_empty() && count_id(message, id) > 1
}

/// Returns the remark about the id of a record of this message (NDEF 1.0, ID): another record has it too. None if
/// no other record does.
pub fn repeated_remark(message: &View<'_>, item: &Item<'_>) -> Option<Remark> {
    if is_repeated(message, item.id()) {
        Some(Remark::RepeatedId)
    } else {
        None
    }
}

/// The octets of a nested message in a payload of the kind; that of a handover follows a version octet.
fn nested_octets(kind: Kind, payload: &[u8]) -> &[u8] {
    match kind {
        Kind::SmartPoster => payload,
        Kind::Request | Kind::Select => after(payload, 1),
        _ => &[],
    }
}

/// Returns the remark about a nested message of a payload of the kind.
fn nested_remark(kind: Kind, nested: &View<'_>, message: &View<'_>) -> Option<Remark> {
    match kind {
        Kind::SmartPoster => poster_remark(nested),
        Kind::Request => request_remark(nested, message),
        Kind::Select => reference_remark(nested, message),
        _ => None,
    }
}

/// Returns the remark about the nested message of a payload of the kind, if it has at most 64 records.
fn held_remark(kind: Kind, payload: &[u8], message: &View<'_>) -> Option<Remark> {
    match small_message(nested_octets(kind, payload)) {
        Some(nested) => nested_remark(kind, &nested, message),
        None => None,
    }
}

/// Returns the remark about a payload of the kind.
fn kind_remark(kind: Kind, payload: &[u8], message: &View<'_>) -> Option<Remark> {
    match kind {
        Kind::Text => text_remark_of(payload),
        Kind::SmartPoster => held_remark(Kind::SmartPoster, payload, message),
        Kind::Request => held_remark(Kind::Request, payload, message),
        Kind::Select => held_remark(Kind::Select, payload, message),
        Kind::Uri | Kind::Carrier | Kind::Action | Kind::Size | Kind::MediaType => None,
        Kind::Alternative | Kind::Collision | Kind::Error | Kind::Other => None,
    }
}

/// Returns the remark about the payload of a record of this message (RTD Text 1.0, RTD Smart Poster 1.0 and Connection
/// Handover 1.2): a text that is likely little-endian; two titles in one language; a request without an alternative
/// carrier or with a second collision resolution record; a reference to no record. It is the first of these that holds;
/// None if none does, if the record is chunked, or if a nested message has more than 64 records.
pub fn payload_remark(message: &View<'_>, item: &Item<'_>) -> Option<Remark> {
    let kind = Kind::of(item.tnf(), item.kind());
    kind_remark(kind, whole_payload(item), message)
}
