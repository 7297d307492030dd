//! Messages in bytes.
use crate::proved::ndef_format::Kind;
use crate::record::Within;
use crate::{check, DecodeError, Limits, Links, Payloads, Profile, Record, Refusal};
use core::fmt;
use core::iter::FusedIterator;

#[cfg(feature = "alloc")]
use crate::{promised, MessageBuilder};
#[cfg(feature = "alloc")]
use alloc::vec::Vec;

/// A message that was checked. It borrows its bytes.
///
/// With the feature `alloc`, messages are equal if their records are, however these are chunked.
///
/// ```
/// use simbegyor_ndef::Message;
///
/// let message = Message::parse(b"\xD1\x01\x08T\x02enHello, and more")?;
/// assert_eq!((message.record_count(), message.rest()), (1, &b", and more"[..]));
/// let record = message.records().next().unwrap();
/// assert_eq!((record.kind(), record.payload()), (&b"T"[..], Some(&b"\x02enHello"[..])));
/// # Ok::<(), simbegyor_ndef::Refusal>(())
/// ```
#[derive(Clone, Copy)]
pub struct Message<'a> {
    bytes: &'a [u8],
    rest: &'a [u8],
    records: u32,
    profile: Profile,
    payloads: Payloads,
}

impl<'a> Message<'a> {
    /// The message with which the bytes begin, within [`Limits::new`]. Other bytes may follow it.
    ///
    /// # Errors
    ///
    /// As [`check`](check()).
    #[inline]
    pub fn parse(bytes: &'a [u8]) -> Result<Self, Refusal> {
        Self::parse_within(bytes, &Limits::new())
    }

    /// The message with which the bytes begin, within these limits. Other bytes may follow it.
    ///
    /// # Errors
    ///
    /// As [`check`](check()).
    #[inline]
    pub fn parse_within(bytes: &'a [u8], limits: &Limits) -> Result<Self, Refusal> {
        let checked = check(bytes, limits)?;
        let (bytes, rest) = bytes.split_at(checked.length as usize);
        Ok(Self::known(bytes, rest, checked.records, limits))
    }

    /// The message of bytes that were checked within these limits.
    #[inline]
    pub(crate) fn known(bytes: &'a [u8], rest: &'a [u8], records: u32, limits: &Limits) -> Self {
        Self { bytes, rest, records, profile: limits.profile(), payloads: limits.payloads() }
    }

    /// Its records, the first one first.
    #[inline]
    pub fn records(&self) -> Records<'a> {
        let within = self.within();
        Records { bytes: self.bytes, at: 0, left: Left::Counted(self.records), within, profile: self.profile }
    }

    /// How many records it has, at least 1.
    #[must_use]
    pub fn record_count(&self) -> usize {
        self.records as usize
    }

    /// Its bytes.
    #[must_use]
    pub fn as_bytes(&self) -> &'a [u8] {
        self.bytes
    }

    /// The bytes after it.
    #[must_use]
    pub fn rest(&self) -> &'a [u8] {
        self.rest
    }

    /// What became of reserved values when it was parsed.
    #[must_use]
    pub fn profile(&self) -> Profile {
        self.profile
    }

    /// Its first record with this id. No record has the empty id.
    #[must_use]
    pub fn record_with_id(&self, id: &[u8]) -> Option<Record<'a>> {
        self.records().find(|record| record.id() == id && !id.is_empty())
    }

    /// The links of its first handover request or handover select, or none if it has neither. Each link is an
    /// alternative carrier and the record to which it refers. The message and the handover are walked once.
    ///
    /// # Errors
    ///
    /// The payload of the handover is not one of its type. The offset counts from the first byte of the payload. This
    /// happens only if the message was parsed with [`Payloads::Opaque`].
    #[cfg(feature = "alloc")]
    pub fn links(&self) -> Result<Links<'a>, Refusal> {
        match self.handover() {
            None => Ok(Links::none(*self)),
            Some(record) => Ok(Links::of(*self, record, record.payload_cow().into())?.with_ids()),
        }
    }

    /// The same. The payload of a handover that lies in several chunks is joined in the buffer. Each step reads the
    /// message from its start, up to the record.
    ///
    /// # Errors
    ///
    /// As [`links`](Self::links), and [`DecodeError::BufferTooSmall`].
    pub fn links_in<'r>(&self, buffer: &'r mut [u8]) -> Result<Links<'r>, DecodeError>
    where
        'a: 'r,
    {
        match self.handover() {
            None => Ok(Links::none(*self)),
            Some(record) => Ok(Links::of(*self, record, record.payload_in(buffer)?.into())?),
        }
    }

    /// The record that begins at an offset.
    #[cfg(feature = "alloc")]
    pub(crate) fn record_at(&self, at: usize) -> Record<'a> {
        Record::at(self.bytes, at, self.within(), self.profile)
    }

    /// What was checked of its payloads.
    fn within(&self) -> Within {
        match self.payloads {
            Payloads::Typed => Within::Typed,
            Payloads::Opaque => Within::Opaque,
        }
    }

    fn handover(&self) -> Option<Record<'a>> {
        self.records().find(|record| matches!(record.type_kind(), Kind::Request | Kind::Select))
    }

    /// Its canonical bytes: no record is chunked, and each length is as short as it can be.
    #[cfg(feature = "alloc")]
    #[must_use]
    pub fn to_canonical(&self) -> Vec<u8> {
        promised(self.records().collect::<MessageBuilder<'_>>().unchecked().build())
    }

    #[cfg(feature = "alloc")]
    fn value(&self) -> Vec<Record<'a>> {
        self.records().collect()
    }
}

#[cfg(feature = "alloc")]
compare_by_value! { Message }

impl<'a> TryFrom<&'a [u8]> for Message<'a> {
    type Error = Refusal;

    fn try_from(bytes: &'a [u8]) -> Result<Self, Refusal> {
        Self::parse(bytes)
    }
}

/// Its bytes.
impl AsRef<[u8]> for Message<'_> {
    fn as_ref(&self) -> &[u8] {
        self.as_bytes()
    }
}

impl<'a> IntoIterator for Message<'a> {
    type Item = Record<'a>;
    type IntoIter = Records<'a>;

    fn into_iter(self) -> Records<'a> {
        self.records()
    }
}

impl<'a> IntoIterator for &Message<'a> {
    type Item = Record<'a>;
    type IntoIter = Records<'a>;

    fn into_iter(self) -> Records<'a> {
        self.records()
    }
}

impl fmt::Debug for Message<'_> {
    fn fmt(&self, to: &mut fmt::Formatter<'_>) -> fmt::Result {
        to.debug_list().entries(self.records()).finish()
    }
}

/// How many records are left.
#[derive(Clone, Copy, Debug)]
enum Left {
    /// This many.
    Counted(u32),
    /// At least one; the last one says that it is.
    Some,
}

/// The records of a message, one after another.
#[derive(Clone)]
#[must_use = "an iterator does nothing unless it is used"]
pub struct Records<'a> {
    bytes: &'a [u8],
    at: usize,
    left: Left,
    within: Within,
    profile: Profile,
}

impl<'a> Records<'a> {
    /// The records of a message, which ends with the bytes; no bytes have none.
    pub(crate) fn within(message: &'a [u8], within: Within, profile: Profile) -> Self {
        let left = if message.is_empty() { Left::Counted(0) } else { Left::Some };
        Self { bytes: message, at: 0, left, within, profile }
    }

    /// The next record, if one is left, whose payload is of this kind, and was validated.
    pub(crate) fn next_of(&mut self, kind: Kind) -> Option<Record<'a>> {
        self.find(|record| record.checked_kind() == kind)
    }
}

impl<'a> Iterator for Records<'a> {
    type Item = Record<'a>;

    #[inline]
    fn next(&mut self) -> Option<Record<'a>> {
        if let Left::Counted(0) = self.left {
            return None;
        }
        let record = Record::at(self.bytes, self.at, self.within, self.profile);
        self.at = record.end();
        self.left = match self.left {
            Left::Counted(left) => Left::Counted(left - 1),
            Left::Some if record.is_last() => Left::Counted(0),
            Left::Some => Left::Some,
        };
        Some(record)
    }

    /// The records of a message within a payload are counted by a walk over them.
    fn size_hint(&self) -> (usize, Option<usize>) {
        let left = match self.left {
            Left::Counted(left) => left as usize,
            Left::Some => self.clone().fold(0, |count, _| count + 1),
        };
        (left, Some(left))
    }
}

impl ExactSizeIterator for Records<'_> {}
impl FusedIterator for Records<'_> {}

impl fmt::Debug for Records<'_> {
    fn fmt(&self, to: &mut fmt::Formatter<'_>) -> fmt::Result {
        to.debug_list().entries(self.clone()).finish()
    }
}
