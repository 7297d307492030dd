// Written by ports/erase of crates/ndef_message/src/whole_input.rt, which has the contracts: do not edit.
//! A whole input, fed in parts.

use crate::proved::ndef_lang::RecordLanguage;
use crate::proved::ndef_message::accepted::lone_message;
use crate::proved::ndef_message::judging::judge;
use crate::proved::ndef_message::{Checker, Fed};
use crate::proved::ndef_value::{Limits, Refusal};

/// The same, fed at once.
fn check_whole<L: RecordLanguage>(limits: Limits, input: &[u8]) -> Result<usize, Refusal> {
    if let Some(taken) = lone_message::<L>(&limits, input) {
        return Ok(taken);
    }
    match judge::<L>(&limits, input) {
        Ok(checked) => Ok(checked.taken as usize),
        Err(refusal) => Err(refusal),
    }
}

/// The number of bytes at the front of the input that are a message (NDEF 1.0), or where and why it is refused, fed in
/// parts of these sizes, and then the rest. The answer doesn't depend on the parts.
///
/// The payloads of the records are of their kinds in the language `L`: `Typed` of ndef_nest validates
/// those that the standards define, `Opaque` of ndef_lang into none.
pub fn check<L: RecordLanguage>(limits: Limits, input: &[u8], parts: &[usize]) -> Result<usize, Refusal> {
    if parts.is_empty() {
        return check_whole::<L>(limits, input);
    }
    let mut checker = Checker::<L>::start(limits);
    let mut taken = 0;
    for part in parts {
        let end = taken + (*part).min(input.len() - taken);
        match checker.feed_bytes(&input[taken..end]) {
            Fed::More => taken = end,
            Fed::Done { taken: last } => return Ok(taken + last),
            Fed::Refused(refusal) => return Err(refusal),
        }
    }
    match checker.feed_bytes(&input[taken..]) {
        Fed::More => match checker.judge_end() {
            Ok(()) => Ok(input.len()),
            Err(refusal) => Err(refusal),
        },
        Fed::Done { taken: last } => Ok(taken + last),
        Fed::Refused(refusal) => Err(refusal),
    }
}
