// Written by ports/erase of crates/ndef_message/src/accepted.rt, which has the contracts: do not edit.
//! Whole records at the front of a slice, or pieces of an open run, that a fast test finds right. Others may be right
//! too.

use crate::proved::ndef_format::header::{is_set, tnf_number, BEGIN, CHUNK, END};
use crate::proved::ndef_lang::RecordLanguage;
use crate::proved::ndef_message::phase::Place;
use crate::proved::ndef_message::Checked;
use crate::proved::ndef_piece::{whole_piece, WholePiece};
use crate::proved::ndef_value::Limits;

/// Returns the number of bytes by which the run at the place continues to its end, and whether the message ends
/// there; None if that isn't clear at once. The payload of the run isn't validated.
#[inline(never)]
fn accepted_run(limits: &Limits, place: Place, bytes: &[u8]) -> Option<(usize, bool)> {
    let profile = limits.profile();
    let mut at = place;
    let mut rest = bytes;
    for _ in 0..limits.pieces() {
        let piece = whole_piece(rest)?;
        if !piece.goes_on_at(&at.spot(profile)) {
            return None;
        }
        rest = piece.rest;
        if !piece.is_chunked() {
            return Some((bytes.len() - rest.len(), piece.is_last()));
        }
        at = at.past_chunk(piece.payload.len() as u32);
    }
    None
}

/// The piece at the front of the bytes, where it is clear at once that it continues the run at the place and another
/// follows it.
fn whole_chunk<'a>(limits: &Limits, place: &Place, bytes: &'a [u8]) -> Option<WholePiece<'a>> {
    let piece = whole_piece(bytes)?;
    if !piece.is_chunked() || !piece.goes_on_at(&place.spot(limits.profile())) {
        return None;
    }
    Some(piece)
}

/// Accepts as many whole pieces at the front of the bytes as continue the run at the place, each with another after it:
/// returns the number of their bytes, and the place after them. Their payload isn't validated.
pub(crate) fn accepted_chunks(limits: &Limits, place: Place, bytes: &[u8]) -> (usize, Place) {
    let mut found = place;
    let mut rest = bytes;
    while let Some(piece) = whole_chunk(limits, &found, rest) {
        found = found.past_chunk(piece.payload.len() as u32);
        rest = piece.rest;
    }
    (bytes.len() - rest.len(), found)
}

/// Whether the piece is a record, which may occur at the place, with a payload of its type.
#[inline(always)]
fn is_record<L: RecordLanguage>(limits: &Limits, place: &Place, piece: &WholePiece<'_>) -> bool {
    let profile = limits.profile();
    if !piece.is_record_at(&place.spot(profile)) {
        return false;
    }
    L::has(piece.tnf(), piece.kind, limits.records(), profile, piece.payload)
}

/// The record in one piece at the front of the bytes.
pub(crate) fn whole_record<'a, L: RecordLanguage>(
    limits: &Limits,
    place: &Place,
    bytes: &'a [u8],
) -> Option<WholePiece<'a>> {
    let piece = whole_piece(bytes)?;
    if !is_record::<L>(limits, place, &piece) {
        return None;
    }
    Some(piece)
}

/// The bytes of the message at the front of these, where it is a record in one piece that the fast test finds right.
#[inline(always)]
fn lone_record<L: RecordLanguage>(limits: &Limits, bytes: &[u8]) -> Option<usize> {
    // Of a message with more records the first piece isn't read here.
    if !is_set(END, *bytes.first()?) {
        return None;
    }
    let piece = whole_piece(bytes)?;
    if !piece.is_last() || !is_record::<L>(limits, &Place::start(limits), &piece) {
        return None;
    }
    Some(bytes.len() - piece.rest.len())
}

/// Whether the first octet may be that of a message of one piece.
#[inline(always)]
fn begins_alone(bytes: &[u8]) -> bool {
    match bytes.first() {
        Some(octet) => {
            is_set(BEGIN, *octet) && is_set(END, *octet) && !is_set(CHUNK, *octet) && tnf_number(*octet) <= 5
        }
        None => false,
    }
}

/// The same. A short record with a well-known type of one octet, such as a text or a URI, gets code of its own: so much
/// is known of it that this takes few instructions.
#[inline(always)]
pub(crate) fn lone_message<L: RecordLanguage>(limits: &Limits, bytes: &[u8]) -> Option<usize> {
    if let [0xd1, 1, ..] = bytes {
        return lone_record::<L>(limits, bytes);
    }
    if !begins_alone(bytes) {
        return None;
    }
    lone_record::<L>(limits, bytes)
}

/// The bytes of the record at the front of these, in one piece or more, and whether it ends the message.
/// In more pieces, any payload has to be one of its type.
#[inline(always)]
fn accepted_record<L: RecordLanguage>(limits: &Limits, place: &Place, bytes: &[u8]) -> Option<(usize, bool)> {
    let piece = whole_piece(bytes)?;
    let taken = bytes.len() - piece.rest.len();
    if !piece.is_chunked() {
        if !is_record::<L>(limits, place, &piece) {
            return None;
        }
        return Some((taken, piece.is_last()));
    }
    if !piece.opens_at(&place.spot(limits.profile())) || !L::takes_all(piece.tnf(), piece.kind) {
        return None;
    }
    let next = place.past_chunk(piece.payload.len() as u32);
    let (more, last) = accepted_run(limits, next, piece.rest)?;
    Some((taken + more, last))
}

/// Accepts as many whole records at the front of the bytes as the fast test finds right: returns the number of
/// their bytes, the place after them, and whether the message ends there.
#[inline(always)]
pub(crate) fn accepted_records<L: RecordLanguage>(limits: &Limits, place: Place, bytes: &[u8]) -> (usize, Place, bool) {
    let mut at = 0;
    let mut found = place;
    while at < bytes.len() {
        let Some((taken, last)) = accepted_record::<L>(limits, &found, &bytes[at..]) else {
            return (at, found, false);
        };
        at += taken;
        found = found.after_record(limits);
        if last {
            return (at, found, true);
        }
    }
    (at, found, false)
}

/// How far the fast test came: the number of bytes of the records that it found right, and the place after them.
#[derive(Clone, Copy)]
pub(crate) struct Passed {
    pub(crate) taken: usize,
    pub(crate) place: Place,
}

impl Passed {
    /// It found none right.
    #[inline(always)]
    pub(crate) fn none(limits: &Limits) -> Passed {
        Passed { taken: 0, place: Place::start(limits) }
    }
}

/// The message at the front of the bytes, where the fast test finds each of its records right; else how far it came.
#[inline(always)]
pub(crate) fn accepted_message<L: RecordLanguage>(limits: &Limits, bytes: &[u8]) -> Result<Checked, Passed> {
    let (taken, place, last) = accepted_records::<L>(limits, Place::start(limits), bytes);
    if !last {
        return Err(Passed { taken, place });
    }
    Ok(Checked { records: limits.records().saturating_sub(place.records), taken: taken as u64 })
}
