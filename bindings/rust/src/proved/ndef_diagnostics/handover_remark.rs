// Written by ports/erase of crates/ndef_diagnostics/src/handover_remark.rt, which has the contracts: do not edit.
//! Remarks about the records of a handover.

use crate::proved::ndef_diagnostics::begun::{after, front_of, octet_at};
use crate::proved::ndef_diagnostics::few::{refers, whole_payload};
use crate::proved::ndef_diagnostics::Remark;
use crate::proved::ndef_lang::Kind;
use crate::proved::ndef_message::{Item, View};
use crate::proved::ndef_nest::Table;

/// Whether a record of a handover is an alternative carrier; a select has the same ones as a request.
fn is_carrier(item: &Item<'_>) -> bool {
    match Table::Request.kind(item.tnf(), item.kind()) {
        Kind::Alternative => true,
        _ => false,
    }
}

/// Whether a record of a request is a collision resolution record.
fn is_collision(item: &Item<'_>) -> bool {
    match Table::Request.kind(item.tnf(), item.kind()) {
        Kind::Collision => true,
        _ => false,
    }
}

/// The number of alternative carriers.
fn count_carriers(handover: &View<'_>) -> usize {
    let mut count = 0;
    for item in handover.items() {
        if is_carrier(&item) {
            count += 1;
        }
    }
    count
}

/// The number of collision resolution records.
fn count_collisions(handover: &View<'_>) -> usize {
    let mut count = 0;
    for item in handover.items() {
        if is_collision(&item) {
            count += 1;
        }
    }
    count
}

/// Whether one of this number of references, each after its length, is to no record.
fn has_dangling(count: u8, octets: &[u8], message: &View<'_>) -> bool {
    let mut rest = octets;
    let mut left = count;
    while left > 0 {
        let size = usize::from(octet_at(rest, 0));
        if !refers(message, front_of(after(rest, 1), size)) {
            return true;
        }
        rest = after(rest, 1 + size);
        left -= 1;
    }
    false
}

/// Whether a reference of an alternative carrier is to no record.
fn is_carrier_dangling(payload: &[u8], message: &View<'_>) -> bool {
    let size = usize::from(octet_at(payload, 1));
    let count = octet_at(after(payload, 2 + size), 0);
    has_dangling(1, after(payload, 1), message) || has_dangling(count, after(payload, 3 + size), message)
}

/// Whether a record of a handover is an alternative carrier of which a reference is to no record of the message.
fn is_dangling(item: &Item<'_>, message: &View<'_>) -> bool {
    is_carrier(item) && is_carrier_dangling(whole_payload(item), message)
}

/// Whether a reference of an alternative carrier is to no record of the message.
fn has_dangling_carrier(handover: &View<'_>, message: &View<'_>) -> bool {
    for item in handover.items() {
        if is_dangling(&item, message) {
            return true;
        }
    }
    false
}

/// Returns the remark about the references of a handover.
pub(crate) fn reference_remark(handover: &View<'_>, message: &View<'_>) -> Option<Remark> {
    if has_dangling_carrier(handover, message) {
        Some(Remark::DanglingReference)
    } else {
        None
    }
}

/// Returns the remark about a request.
pub(crate) fn request_remark(request: &View<'_>, message: &View<'_>) -> Option<Remark> {
    if count_carriers(request) == 0 {
        return Some(Remark::NoCarrier);
    }
    if count_collisions(request) > 1 {
        return Some(Remark::SecondCollision);
    }
    reference_remark(request, message)
}
