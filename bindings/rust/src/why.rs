//! Why bytes are refused, and what may help, in sentences.
use crate::hint::{hint_of, refusal_of};
use crate::proved::ndef_diagnostics::{expected_at, Sentence};
use crate::{promised, Limits};
use alloc::string::String;

/// What was wanted where the bytes are refused, in a sentence of English, or what the reason means where nothing more is
/// known. `None`: they begin with a message. Payloads are validated, whatever the limits say.
///
/// ```
/// use simbegyor_ndef::{why, Limits};
///
/// let sentence = why(b"\xD1\x01\x06T\x3Fabcde", &Limits::new());
/// assert_eq!(sentence.unwrap(), "The language code has 63 octets; 5 are left in the payload.");
/// assert_eq!(why(b"\xD1\x01\x08T\x02enHello", &Limits::new()), None);
/// ```
#[inline]
#[must_use]
pub fn why(bytes: &[u8], limits: &Limits) -> Option<String> {
    refusal_of(bytes, limits).map(|refusal| said(&expected_at(bytes, refusal).sentence(refusal.reason)))
}

/// A sentence that may help where the bytes are refused: they are of a tag, which has these for a message, or a text that
/// spells bytes, the identifier code of a URI may be missing, or [`Profile::Standard`](crate::Profile::Standard) reads them.
/// It names commands; [`find_hint`](crate::find_hint()) says the same to a program. `None`: nothing is known to help, or they
/// begin with a message. It may take 17 times as long as [`check`](crate::check()); the rest is as for [`why`].
///
/// ```
/// use simbegyor_ndef::{hint, Limits};
///
/// let sentence = hint(b"\xD1\x01\x05Uhttp", &Limits::new()).unwrap();
/// assert_eq!(sentence, "68 (hexadecimal) is the letter h: was the identifier code left out?");
/// ```
#[inline]
#[must_use]
pub fn hint(bytes: &[u8], limits: &Limits) -> Option<String> {
    hint_of(bytes, limits).map(|hint| said(&hint.sentence()))
}

/// A sentence as a string.
pub(crate) fn said(sentence: &Sentence) -> String {
    promised(core::str::from_utf8(sentence.as_slice())).into()
}
