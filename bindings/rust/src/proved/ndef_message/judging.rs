// Written by ports/erase of crates/ndef_message/src/judging.rt, which has the contracts: do not edit.
//! A whole input at once, where the fast test of one record fails.

use crate::proved::ndef_format::header::{is_set, tnf_number, BEGIN, END};
use crate::proved::ndef_lang::RecordLanguage;
use crate::proved::ndef_message::accepted::{accepted_message, Passed};
use crate::proved::ndef_message::begun::refused_payload;
use crate::proved::ndef_message::phase::Place;
use crate::proved::ndef_message::{Checked, Checker, Fed};
use crate::proved::ndef_piece::first_reason;
use crate::proved::ndef_value::{Limits, Reason, Refusal};

/// Returns the reason why the first octet of the input is refused, if its flags or its type name format make it so.
fn refused_at_once<L: RecordLanguage>(limits: &Limits, input: &[u8]) -> Option<Reason> {
    let [octet, ..] = input else {
        return None;
    };
    let reason = first_reason(&Place::start(limits).spot(limits.profile()), *octet)?;
    Some(reason)
}

/// The message at the front of the input, or where and why it is refused, by a checker that begins where the fast test
/// stopped. It isn't inlined, so that a refused payload makes no checker.
#[inline(never)]
fn judge_fed<L: RecordLanguage>(limits: &Limits, input: &[u8], passed: Passed) -> Result<Checked, Refusal> {
    let mut checker = Checker::<L>::after_records(*limits, input, passed);
    match checker.feed_tried(&input[passed.taken..], true) {
        Fed::More => match checker.judge_end() {
            Ok(()) => unreachable!(),
            Err(refusal) => Err(refusal),
        },
        Fed::Done { taken } => Ok(Checked { records: checker.ended_records(), taken: (passed.taken + taken) as u64 }),
        Fed::Refused(refusal) => Err(refusal),
    }
}

/// The message at the front of the input, or where and why it is refused; the fast test came as far as that.
#[inline(never)]
fn judge_from<L: RecordLanguage>(limits: &Limits, input: &[u8], passed: Passed) -> Result<Checked, Refusal> {
    match refused_payload::<L>(limits, input, &passed) {
        Some(refusal) => Err(refusal),
        None => judge_fed::<L>(limits, input, passed),
    }
}

/// Whether a message of more pieces than one begins there.
#[inline(always)]
fn begins_more(input: &[u8]) -> bool {
    match input.first() {
        Some(octet) => is_set(BEGIN, *octet) && !is_set(END, *octet) && tnf_number(*octet) <= 5,
        None => false,
    }
}

/// The message of more pieces than one at the front of the input, or where and why it is refused.
#[inline(never)]
fn judge_more<L: RecordLanguage>(limits: &Limits, input: &[u8]) -> Result<Checked, Refusal> {
    match accepted_message::<L>(limits, input) {
        Ok(checked) => Ok(checked),
        Err(passed) => judge_from::<L>(limits, input, passed),
    }
}

/// The message at the front of the input, or where and why it is refused, where the fast test of one record fails.
#[inline(always)]
pub(crate) fn judge<L: RecordLanguage>(limits: &Limits, input: &[u8]) -> Result<Checked, Refusal> {
    if begins_more(input) {
        return judge_more::<L>(limits, input);
    }
    if let Some(reason) = refused_at_once::<L>(limits, input) {
        return Err(Refusal { at: 0, reason });
    }
    judge_from::<L>(limits, input, Passed::none(limits))
}
