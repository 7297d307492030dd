// Written by ports/erase of crates/ndef_diagnostics/src/poster_heads.rt, which has the contracts: do not edit.
//! The expectation in a head of a smart poster before which no URI has come.

use crate::proved::ndef_diagnostics::begun::{
    head_length, id_length, is_length_whole, is_size_known, least_record, octet_at, payload_length,
};
use crate::proved::ndef_diagnostics::{Expected, Whose};
use crate::proved::ndef_format::header::{is_set, tnf_number, END};

/// Whether PAYLOAD_LENGTH has come, and is 0.
fn has_no_payload(octets: &[u8]) -> bool {
    is_length_whole(octets) && payload_length(octets) == 0
}

/// Whether a record that begins with these octets may be a URI.
fn may_be_uri(octets: &[u8]) -> bool {
    tnf_number(octet_at(octets, 0)) == 1 && (octets.len() < 2 || octet_at(octets, 1) == 1) && !has_no_payload(octets)
}

/// The least length of a URI record that begins with these octets.
fn least_uri(octets: &[u8]) -> u64 {
    let front = head_length(octets) + 1 + usize::from(id_length(octets));
    front as u64 + payload_length(octets).max(1)
}

/// Whether no octet of PAYLOAD_LENGTH has come, or all have.
fn is_uncut(octets: &[u8]) -> bool {
    octets.len() <= 2 || is_length_whole(octets)
}

/// The last record of a poster has to be its URI.
fn of_last_uri(left: u64, octets: &[u8]) -> Expected {
    if has_no_payload(octets) {
        return Expected::EmptyUri;
    }
    let least = least_uri(octets);
    if left < least && is_uncut(octets) {
        Expected::Size(Whose::LastUri, least, left)
    } else {
        Expected::Nothing
    }
}

/// Returns the expectation if a record of this size isn't the URI of a poster, and one that is has to follow.
fn of_rest(left: u64, size: u64) -> Expected {
    let rest = left.saturating_sub(size);
    if rest < 5 {
        Expected::Size(Whose::NextUri, 5, rest)
    } else {
        Expected::Nothing
    }
}

/// The same, after a head.
fn before_uri(left: u64, octets: &[u8]) -> Expected {
    if is_size_known(octets) && !may_be_uri(octets) {
        of_rest(left, least_record(octets))
    } else {
        Expected::Nothing
    }
}

/// A poster has a URI.
pub(crate) fn of_uri(left: u64, octets: &[u8]) -> Expected {
    if is_set(END, octet_at(octets, 0)) {
        of_last_uri(left, octets)
    } else {
        before_uri(left, octets)
    }
}
