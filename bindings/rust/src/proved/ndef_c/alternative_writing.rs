// Written by ports/erase of crates/ndef_c/src/alternative_writing.rt, which has the contracts: do not edit.
//! Writes the payloads of Alternative Carrier records (Connection Handover 1.2).

use crate::proved::ndef_c::content::{give_content, Content};
use crate::proved::ndef_c::out::Out;
use crate::proved::ndef_c::part::NdefPart;
use crate::proved::ndef_c::status::BAD_ARGUMENT;

/// Whether a part is a reference: it lies within the bytes, and has up to 255 of them.
fn is_reference(bytes: &[u8], part: &NdefPart) -> bool {
    part.length < 256 && part.at <= bytes.len() && part.length <= bytes.len() - part.at
}

/// Whether each part is a reference.
fn are_references(bytes: &[u8], parts: &[NdefPart]) -> bool {
    for part in parts {
        if !is_reference(bytes, part) {
            return false;
        }
    }
    true
}

/// Writes a reference after its length.
#[inline(always)]
fn put_reference(out: &mut Out<'_>, bytes: &[u8], part: &NdefPart) {
    out.put(&[part.length as u8]);
    let (_before, from) = bytes.split_at(part.at);
    out.put(&from[..part.length]);
}

/// Writes references, each after its length.
fn put_references(out: &mut Out<'_>, bytes: &[u8], parts: &[NdefPart]) {
    for part in parts {
        put_reference(out, bytes, part);
    }
}

/// Writes the payload of an alternative carrier.
#[inline(always)]
pub(crate) fn put_alternative(
    out: &mut Out<'_>,
    power: u8,
    bytes: &[u8],
    reference: &NdefPart,
    auxiliary: &[NdefPart],
) {
    out.put(&[power]);
    put_reference(out, bytes, reference);
    out.put(&[auxiliary.len() as u8]);
    put_references(out, bytes, auxiliary);
}

/// Returns the content of an alternative carrier, if its power state and references may be written.
pub(crate) fn alternative_content<'a>(power: u32, bytes: &'a [u8], parts: &'a [NdefPart]) -> Option<Content<'a>> {
    let [reference, auxiliary @ ..] = parts else {
        return None;
    };
    if power > 3 || auxiliary.len() > 255 || !are_references(bytes, parts) {
        return None;
    }
    Some(Content::Alternative { power: power as u8, bytes, reference, auxiliary })
}

/// Writes the payload of an Alternative Carrier record, its reserved bits 0, to the buffer. Each reference
/// is a part of the bytes; the first is the carrier data reference, and the auxiliary ones follow.
pub fn ndef_write_alternative<'a>(
    power: u32,
    bytes: &'a [u8],
    parts: &'a [NdefPart],
    buffer: &mut [u8],
    count: &mut usize,
) -> u32 {
    let Some(content) = alternative_content(power, bytes, parts) else {
        return BAD_ARGUMENT;
    };
    give_content(&content, buffer, count)
}
