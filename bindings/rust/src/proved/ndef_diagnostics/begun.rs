// Written by ports/erase of crates/ndef_diagnostics/src/begun.rt, which has the contracts: do not edit.
//! A piece of a message, as far as it has come.

use crate::proved::ndef_format::header::{is_set, width, ID_THERE, SHORT};
use crate::proved::ndef_format::Tnf;
use crate::proved::ndef_piece::header_tnf;

/// Returns the octets after the first `count`, none if there are fewer.
pub(crate) fn after(octets: &[u8], count: usize) -> &[u8] {
    octets.split_at(count.min(octets.len())).1
}

/// The first `count` octets, all where there are fewer.
pub(crate) fn front_of(octets: &[u8], count: usize) -> &[u8] {
    octets.split_at(count.min(octets.len())).0
}

/// The bytes before a place, all where it is past the last.
pub(crate) fn bytes_before(bytes: &[u8], place: u64) -> &[u8] {
    bytes.split_at(place.min(bytes.len() as u64) as usize).0
}

/// The octet at a place; 0 where there is none.
pub(crate) fn octet_at(octets: &[u8], place: usize) -> u8 {
    if place < octets.len() {
        octets[place]
    } else {
        0
    }
}

/// The number that octets of PAYLOAD_LENGTH spell; 0 where some are missing.
fn spelled(short: bool, octets: &[u8]) -> u64 {
    match (short, octets) {
        (true, [a]) => u64::from(*a),
        (false, [a, b, c, d]) => 16777216 * u64::from(*a) + 65536 * u64::from(*b) + 256 * u64::from(*c) + u64::from(*d),
        _ => 0,
    }
}

/// PAYLOAD_LENGTH of a piece; 0 where octets of it are missing.
pub(crate) fn payload_length(octets: &[u8]) -> u64 {
    let header = octet_at(octets, 0);
    let come = front_of(after(octets, 2), width(header));
    spelled(is_set(SHORT, header), come)
}

/// The number of octets before TYPE.
pub(crate) fn head_length(octets: &[u8]) -> usize {
    let header = octet_at(octets, 0);
    2 + width(header) + usize::from(is_set(ID_THERE, header))
}

/// ID_LENGTH; 0 where there is none, or it has not come.
pub(crate) fn id_length(octets: &[u8]) -> u8 {
    let header = octet_at(octets, 0);
    if is_set(ID_THERE, header) {
        octet_at(after(octets, 2), width(header))
    } else {
        0
    }
}

/// Whether all of PAYLOAD_LENGTH has come of a piece that begins with these octets.
pub(crate) fn is_length_whole(octets: &[u8]) -> bool {
    2 + width(octet_at(octets, 0)) <= octets.len()
}

/// Whether all lengths of a piece that begins with these octets are among them (NDEF 1.0, record layout).
pub fn is_lengths_whole(octets: &[u8]) -> bool {
    head_length(octets) <= octets.len()
}

/// Whether TYPE has come whole.
pub(crate) fn is_kind_whole(octets: &[u8]) -> bool {
    head_length(octets) + usize::from(octet_at(octets, 1)) <= octets.len()
}

/// The number of octets before the payload.
pub(crate) fn before_payload(octets: &[u8]) -> usize {
    head_length(octets) + usize::from(octet_at(octets, 1)) + usize::from(id_length(octets))
}

/// The octets of TYPE that have come.
pub(crate) fn kind_come(octets: &[u8]) -> &[u8] {
    let rest = after(octets, head_length(octets));
    front_of(rest, usize::from(octet_at(octets, 1)))
}

/// The octets of the payload that have come, and those after it.
pub(crate) fn content_come(octets: &[u8]) -> &[u8] {
    after(octets, before_payload(octets))
}

/// Whether the octets reach the payload.
pub(crate) fn is_payload_begun(octets: &[u8]) -> bool {
    before_payload(octets) <= octets.len()
}

/// The least number of octets of a piece that begins with these octets, below 2 ^ 33; exactly its number where all its
/// lengths are among them (NDEF 1.0, record layout).
pub fn least_record(octets: &[u8]) -> u64 {
    before_payload(octets) as u64 + payload_length(octets)
}

/// Whether a record of this type name format has a type.
fn has_kind(tnf: Tnf) -> bool {
    match tnf {
        Tnf::Empty | Tnf::Unknown | Tnf::Unchanged => false,
        Tnf::WellKnown | Tnf::Media | Tnf::AbsoluteUri | Tnf::External => true,
    }
}

/// The octets of TYPE that a record needs, where TYPE_LENGTH has not come.
pub(crate) fn kind_to_come(octets: &[u8]) -> u64 {
    match octets {
        [header] => u64::from(has_kind(header_tnf(*header))),
        [] | [_, _, ..] => 0,
    }
}

/// Whether the length of a record that begins with these octets is known: all its lengths have come, or it is an empty
/// record.
pub(crate) fn is_size_known(octets: &[u8]) -> bool {
    is_lengths_whole(octets) || matches!(header_tnf(octet_at(octets, 0)), Tnf::Empty)
}

/// The octets from the first that came of a piece to the refused one, which is at this place.
pub(crate) fn through<'a>(bytes: &'a [u8], place: u64, come: &[u8]) -> &'a [u8] {
    let front = bytes_before(bytes, place);
    let all = bytes_before(bytes, place.saturating_add(1));
    after(all, front.len().saturating_sub(come.len()))
}
