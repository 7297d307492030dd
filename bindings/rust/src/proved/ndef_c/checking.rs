// Written by ports/erase of crates/ndef_c/src/checking.rt, which has the contracts: do not edit.
//! Checks the message at the front of some bytes.

use crate::proved::ndef_c::limits::{limits_of, NdefLimits};
use crate::proved::ndef_c::refusal::refuse;
use crate::proved::ndef_c::status::{BAD_ARGUMENT, OK};
use crate::proved::ndef_lang::{Opaque, RecordLanguage};
use crate::proved::ndef_message::view;
use crate::proved::ndef_nest::Typed;
use crate::proved::ndef_value::Limits;

/// The answer of a check.
#[repr(C)]
#[derive(Clone, Copy, Debug, Default, PartialEq, Eq, Hash)]
pub struct NdefChecked {
    /// The bytes of the message, or the offset of the refused byte.
    pub(crate) place: u64,
    /// The records of the message, 0 where it is refused.
    pub(crate) records: u32,
    /// 0, or the number of the reason.
    pub(crate) reason: u32,
}

/// Checks with the payloads of a language.
pub(crate) fn check_in<L: RecordLanguage>(bytes: &[u8], limits: Limits, out: &mut NdefChecked) -> u32 {
    match view::<L>(bytes, limits) {
        Ok(view) => {
            *out = NdefChecked { place: view.taken(), records: view.records(), reason: 0 };
            OK
        }
        Err(refusal) => refuse(refusal, out),
    }
}

/// Checks the message with which the bytes begin.
pub fn ndef_check(bytes: &[u8], limits: &NdefLimits, out: &mut NdefChecked) -> u32 {
    let Some((limits, looks)) = limits_of(limits) else {
        return BAD_ARGUMENT;
    };
    if looks {
        check_in::<Typed>(bytes, limits, out)
    } else {
        check_in::<Opaque>(bytes, limits, out)
    }
}
