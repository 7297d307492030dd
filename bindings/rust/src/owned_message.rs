//! Messages with their bytes.
use crate::{Limits, Message, Refusal};
use alloc::vec::Vec;
use core::fmt;
use core::hash::{Hash, Hasher};

/// A message that was checked, with its bytes and those after it, which a function can return. Two are equal if their
/// messages are.
///
/// ```
/// use simbegyor_ndef::{Limits, OwnedMessage, Refusal};
///
/// fn read(tag: Vec<u8>) -> Result<OwnedMessage, Refusal> {
///     OwnedMessage::parse(tag, &Limits::new())
/// }
/// let message = read(b"\xD1\x01\x08T\x02enHello".to_vec())?;
/// assert_eq!(message.view().records().next().unwrap().kind(), b"T");
/// # Ok::<(), Refusal>(())
/// ```
#[derive(Clone)]
pub struct OwnedMessage {
    bytes: Vec<u8>,
    length: usize,
    records: u32,
    limits: Limits,
}

impl OwnedMessage {
    /// The message with which the bytes begin, within these limits. Other bytes may follow it.
    ///
    /// # Errors
    ///
    /// As [`check`](crate::check()).
    pub fn parse(bytes: Vec<u8>, limits: &Limits) -> Result<Self, Refusal> {
        let message = Message::parse_within(&bytes, limits)?;
        let (length, records) = (message.as_bytes().len(), message.record_count() as u32);
        Ok(Self { bytes, length, records, limits: *limits })
    }

    /// The message, which is not checked again.
    #[must_use]
    pub fn view(&self) -> Message<'_> {
        let (bytes, rest) = self.bytes.split_at(self.length);
        Message::known(bytes, rest, self.records, &self.limits)
    }

    /// The bytes that were given.
    #[must_use]
    pub fn into_bytes(self) -> Vec<u8> {
        self.bytes
    }
}

impl PartialEq for OwnedMessage {
    fn eq(&self, other: &Self) -> bool {
        self.view() == other.view()
    }
}

impl Eq for OwnedMessage {}

impl Hash for OwnedMessage {
    fn hash<H: Hasher>(&self, state: &mut H) {
        self.view().hash(state);
    }
}

impl fmt::Debug for OwnedMessage {
    fn fmt(&self, to: &mut fmt::Formatter<'_>) -> fmt::Result {
        self.view().fmt(to)
    }
}
