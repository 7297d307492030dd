//! What is strange in messages that are accepted, in sentences.
use crate::proved::ndef_diagnostics::{field_remark, payload_remark, repeated_remark, small_message};
use crate::why::said;
use crate::FieldName;
use alloc::string::String;

/// What is strange in a field of a message that [`check`](crate::check()) accepts, in a sentence of English, by the name and the
/// bytes of a [`Field`](crate::Field). `None`: nothing is known to be strange.
///
/// ```
/// use simbegyor_ndef::{field_warning, FieldName};
///
/// assert_eq!(field_warning(FieldName::Action, &[3]).unwrap(), "The action 3 is reserved.");
/// assert_eq!(field_warning(FieldName::Action, &[0]), None);
/// ```
#[inline]
#[must_use]
pub fn field_warning(name: FieldName, bytes: &[u8]) -> Option<String> {
    Some(said(&field_remark(name.proved()?, bytes)?.sentence()))
}

/// What is strange in the record with an index, counted from 0, of the message with which the bytes begin, beside its other
/// records: two titles in one language, a request without an alternative carrier, a reference to no record, an id that another
/// record has too. `None`: nothing is known to be strange, there is no such record or no message, or the message has more than
/// 64 records. The rest is as for [`field_warning`].
///
/// ```
/// use simbegyor_ndef::record_warning;
///
/// let twice = b"\x9D\0\0\x01a\x5D\0\0\x01a";
/// assert_eq!(record_warning(twice, 1).unwrap(), "Another record has the same id.");
/// assert_eq!(record_warning(twice, 2), None);
/// ```
#[inline]
#[must_use]
pub fn record_warning(bytes: &[u8], index: usize) -> Option<String> {
    let message = small_message(bytes)?;
    let record = message.items().nth(index)?;
    let remark = payload_remark(&message, &record).or_else(|| repeated_remark(&message, &record))?;
    Some(said(&remark.sentence()))
}
