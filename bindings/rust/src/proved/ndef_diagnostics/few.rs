// Written by ports/erase of crates/ndef_diagnostics/src/few.rt, which has the contracts: do not edit.
//! Messages of few records.

use crate::proved::ndef_lang::Opaque;
use crate::proved::ndef_message::{view, Item, View};
use crate::proved::ndef_value::{Limits, Profile, MOST_PAYLOAD, MOST_PIECES};

/// The most records of a message that are compared with one another: our choice, so that time stays in proportion to
/// the message.
const MOST_COMPARED: u32 = 64;

/// Limits that a message of few records meets.
fn few() -> Limits {
    match Limits::new(MOST_PAYLOAD, MOST_COMPARED, MOST_PIECES) {
        Ok(limits) => limits.with(Profile::Standard),
        Err(_) => unreachable!(),
    }
}

/// The message of at most 64 records with which the bytes begin (NDEF 1.0, messages), of which nothing is copied; its
/// payloads are any octets. None if the bytes begin with no such message.
pub fn small_message(bytes: &[u8]) -> Option<View<'_>> {
    match view::<Opaque>(bytes, few()) {
        Ok(message) => Some(message),
        Err(_) => None,
    }
}

/// The payload of a record in one piece; no octets where it comes in several.
pub(crate) fn whole_payload<'a>(item: &Item<'a>) -> &'a [u8] {
    match item.whole() {
        Some(payload) => payload,
        None => &[],
    }
}

/// The number of records with this id.
pub(crate) fn count_id(message: &View<'_>, id: &[u8]) -> usize {
    let mut count = 0;
    for item in message.items() {
        if item.id() == id {
            count += 1;
        }
    }
    count
}

/// Whether an id is that of a record.
pub(crate) fn refers(message: &View<'_>, id: &[u8]) -> bool {
    !id.is_empty() && count_id(message, id) > 0
}
