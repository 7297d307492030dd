// Written by ports/erase of crates/ndef_message/src/begun.rt, which has the contracts: do not edit.
//! A record in one piece that has come up to its payload at least, and the refusal of that payload, with no checker.

use crate::proved::ndef_lang::RecordLanguage;
use crate::proved::ndef_message::accepted::Passed;
use crate::proved::ndef_message::phase::Place;
use crate::proved::ndef_piece::{Head, HeadReader};
use crate::proved::ndef_value::{Limits, Reason, Refusal};

/// A record in one piece of which the head, the type and the id have come.
#[derive(Clone, Copy)]
pub(crate) struct Begun<'a> {
    head: Head,
    /// TYPE.
    kind: &'a [u8],
    /// As much of PAYLOAD as has come.
    payload: &'a [u8],
    /// The number of octets before PAYLOAD.
    front: usize,
}

/// The most octets of a payload that are read without a checker. The fast test leaves out a longer text, so that one is
/// read to its end no more than once.
const MOST: u32 = 16384;

/// The record in one piece that begins with the bytes, if it is clear at once that it may occur at the place, and its
/// payload isn't long.
#[inline(always)]
fn record_at<'a>(limits: &Limits, place: &Place, bytes: &'a [u8]) -> Option<Begun<'a>> {
    let reader = HeadReader::new(place.spot(limits.profile()));
    let (head, count) = reader.whole_head(bytes)?;
    let named = usize::from(head.kind_length);
    let identified = usize::from(head.id_length.unwrap_or(0));
    let (_, body) = bytes.split_at(count);
    if head.chunked || head.payload_length > MOST || body.len() < named + identified {
        return None;
    }
    let (kind, rest) = body.split_at(named);
    let (_, rest) = rest.split_at(identified);
    let (payload, _) = rest.split_at(rest.len().min(head.payload_length as usize));
    Some(Begun { head, kind, payload, front: count + named + identified })
}

/// The refusal of the input after the records that the fast test found right, if the payload of the next one makes it,
/// or if the input ends within that.
#[inline(always)]
pub(crate) fn refused_payload<L: RecordLanguage>(limits: &Limits, input: &[u8], passed: &Passed) -> Option<Refusal> {
    let record = record_at(limits, &passed.place, &input[passed.taken..])?;
    let mut payload = L::start(record.head.tnf, record.kind, limits.records(), limits.profile());
    let length = u64::from(record.head.payload_length);
    if !payload.fits(length, length) {
        return None;
    }
    let count = payload.step_all(record.payload, length, length);
    let at = (passed.taken + record.front + count) as u64;
    if count < record.payload.len() {
        return Some(Refusal { at, reason: payload.reason() });
    }
    if (count as u64) < length {
        return Some(Refusal { at, reason: Reason::EndOfInput });
    }
    None
}
