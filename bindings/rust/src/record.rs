//! Records in the bytes of a message.
use crate::bytes::{Bytes, Quoted};
use crate::proved::ndef_format::{Kind, Table};
use crate::proved::ndef_piece::{whole_piece, WholePiece};
use crate::{promised, Chunks, DecodeError, Part, Payload, PayloadKind, Profile, Tnf};
use core::fmt;

#[cfg(feature = "alloc")]
use crate::Refusal;
#[cfg(feature = "alloc")]
use alloc::{borrow::Cow, vec::Vec};

/// The message that a record is of, and what was checked of it.
#[derive(Clone, Copy)]
pub(crate) enum Within {
    /// A message whose payloads were validated.
    Typed,
    /// A message whose payloads were not validated.
    Opaque,
    /// The message in a payload that was validated.
    Payload(Table),
}

impl Within {
    /// The kind whose payloads a record has there, by the kind that its type names; Other if its payload was not validated.
    fn checked(self, kind: Kind) -> Kind {
        match self {
            Self::Typed => kind.outer(),
            Self::Opaque => Kind::Other,
            Self::Payload(table) => table.checked(kind),
        }
    }
}

/// The chunk with which some bytes of a message that was checked begin.
#[inline(always)]
pub(crate) fn chunk(bytes: &[u8]) -> WholePiece<'_> {
    promised(whole_piece(bytes).ok_or(()))
}

/// A record of a message. It borrows the message's bytes.
///
/// With the feature `alloc`, records are equal if their type name formats, types, ids and whole payloads are.
#[derive(Clone, Copy)]
pub struct Record<'a> {
    /// The bytes of its message, or of one within a payload, from the record on.
    bytes: &'a [u8],
    first: WholePiece<'a>,
    at: usize,
    /// The number of its bytes, with all of its chunks.
    length: usize,
    payload_length: usize,
    chunk_count: usize,
    is_last: bool,
    within: Within,
    profile: Profile,
}

impl<'a> Record<'a> {
    /// The record with which the bytes of a message begin from an offset on. It is always inlined, so that parts which
    /// nobody looks at are not made: that halves the time of a walk beyond the library's own.
    #[inline(always)]
    pub(crate) fn at(message: &'a [u8], at: usize, within: Within, profile: Profile) -> Self {
        let bytes = &message[at..];
        let first = chunk(bytes);
        let (mut last, mut payload_length, mut chunk_count) = (first, first.payload.len(), 1);
        while last.is_chunked() {
            last = chunk(last.rest);
            payload_length += last.payload.len();
            chunk_count += 1;
        }
        let length = bytes.len() - last.rest.len();
        Self { bytes, first, at, length, payload_length, chunk_count, is_last: last.is_last(), within, profile }
    }

    /// Where the next record begins.
    #[inline]
    pub(crate) fn end(&self) -> usize {
        self.at + self.length
    }

    /// The kind that its type names.
    pub(crate) fn type_kind(&self) -> Kind {
        Kind::of(self.tnf().proved(), self.kind())
    }

    /// The kind whose payloads it has; Other if its payload was not validated.
    pub(crate) fn checked_kind(&self) -> Kind {
        self.within.checked(self.type_kind())
    }

    /// Its type name format: what its type is.
    #[inline]
    #[must_use]
    pub fn tnf(&self) -> Tnf {
        Tnf::of(self.first.tnf())
    }

    /// Its type, at most 255 bytes.
    #[inline]
    #[must_use]
    pub fn kind(&self) -> &'a [u8] {
        self.first.kind
    }

    /// Its id, at most 255 bytes. It is empty if the record has none.
    #[inline]
    #[must_use]
    pub fn id(&self) -> &'a [u8] {
        self.first.id
    }

    /// Whether it has this type, and the NFC Forum defines the type.
    #[must_use]
    pub fn is_well_known(&self, kind: &[u8]) -> bool {
        self.tnf() == Tnf::WellKnown && self.kind() == kind
    }

    /// What its payload is. `within` is [`PayloadKind::Other`] for a record of a message itself; for one of the message
    /// within a payload it is the kind of that payload.
    ///
    /// ```
    /// use simbegyor_ndef::{Message, PayloadKind};
    ///
    /// let message = Message::parse(b"\xD1\x01\x08T\x02enHello")?;
    /// let kind = message.records().next().unwrap().payload_kind(PayloadKind::Other);
    /// assert_eq!(kind, PayloadKind::Text);
    /// # Ok::<(), simbegyor_ndef::Refusal>(())
    /// ```
    #[must_use]
    pub fn payload_kind(&self, within: PayloadKind) -> PayloadKind {
        PayloadKind::of(self.tnf(), self.kind(), within)
    }

    /// The number of bytes of its payload, its chunks joined.
    #[must_use]
    pub fn payload_len(&self) -> usize {
        self.payload_length
    }

    /// Its payload, unless that lies in several chunks.
    #[inline]
    #[must_use]
    pub fn payload(&self) -> Option<&'a [u8]> {
        (self.chunk_count == 1).then_some(self.first.payload)
    }

    /// Its payload. One that lies in several chunks is joined.
    #[cfg(feature = "alloc")]
    #[must_use]
    pub fn payload_cow(&self) -> Cow<'a, [u8]> {
        match self.payload() {
            Some(payload) => Cow::Borrowed(payload),
            None => {
                let mut joined = Vec::with_capacity(self.payload_len());
                self.parts().for_each(|part| joined.extend_from_slice(part));
                Cow::Owned(joined)
            }
        }
    }

    /// Its payload. One that lies in several chunks is joined in the buffer.
    ///
    /// # Errors
    ///
    /// [`DecodeError::BufferTooSmall`] alone.
    pub fn payload_in<'r>(&self, buffer: &'r mut [u8]) -> Result<&'r [u8], DecodeError>
    where
        'a: 'r,
    {
        if let Some(payload) = self.payload() {
            return Ok(payload);
        }
        let joined = buffer.get_mut(..self.payload_len()).ok_or(DecodeError::BufferTooSmall(self.payload_len()))?;
        let mut at = 0;
        for part in self.parts() {
            joined[at..][..part.len()].copy_from_slice(part);
            at += part.len();
        }
        Ok(joined)
    }

    /// The part of the payload that each chunk has. A record that is not chunked has one.
    #[cfg(feature = "alloc")]
    pub fn chunks(&self) -> Chunks<'a> {
        self.parts()
    }

    /// The same.
    fn parts(&self) -> Chunks<'a> {
        Chunks::of(self.bytes, self.chunk_count)
    }

    /// The part of the payload that each chunk has. The array needs [`chunk_count`](Self::chunk_count) elements, or none if
    /// there is one chunk.
    ///
    /// # Errors
    ///
    /// [`DecodeError::BufferTooSmall`] alone.
    pub fn chunks_in<'r>(&self, buffer: &'r mut [Part]) -> Result<Chunks<'r>, DecodeError>
    where
        'a: 'r,
    {
        match self.chunk_count {
            count if count > 1 && count > buffer.len() => Err(DecodeError::BufferTooSmall(count)),
            _ => Ok(self.parts()),
        }
    }

    /// The value of its payload. A payload in several chunks is joined first.
    ///
    /// # Errors
    ///
    /// The payload is not one of its type. The offset counts from the first byte of the payload. A record of a message
    /// has no such payload, unless the message was parsed with [`Payloads::Opaque`](crate::Payloads::Opaque). A record
    /// within a payload may have one.
    #[cfg(feature = "alloc")]
    pub fn decode(&self) -> Result<Payload<'a>, Refusal> {
        self.value_of(self.payload_cow().into())
    }

    /// The value of its payload. A payload in several chunks is joined in the buffer first.
    ///
    /// # Errors
    ///
    /// As [`decode`](Self::decode), and [`DecodeError::BufferTooSmall`].
    pub fn decode_in<'r>(&self, buffer: &'r mut [u8]) -> Result<Payload<'r>, DecodeError>
    where
        'a: 'r,
    {
        let payload = Bytes::Borrowed(self.payload_in(buffer)?);
        Ok(self.value_of(payload)?)
    }

    /// The value of its whole payload, which is looked at only if it was not validated with the message.
    fn value_of<'r>(&self, payload: Bytes<'r>) -> Result<Payload<'r>, crate::Refusal> {
        match self.checked_kind() {
            Kind::Other => Payload::of(self.type_kind(), payload, self.profile),
            kind => Ok(Payload::known(kind, payload, self.profile)),
        }
    }

    /// The number of its chunks, 1 if it is not chunked.
    #[must_use]
    pub fn chunk_count(&self) -> usize {
        self.chunk_count
    }

    /// Where it begins in the bytes of its message.
    #[must_use]
    pub fn place(&self) -> usize {
        self.at
    }

    /// Its bytes in the message, with all of its chunks.
    #[must_use]
    pub fn as_bytes(&self) -> &'a [u8] {
        &self.bytes[..self.length]
    }

    /// Whether it is the last record of its message.
    #[inline]
    #[must_use]
    pub fn is_last(&self) -> bool {
        self.is_last
    }

    #[cfg(feature = "alloc")]
    fn value(&self) -> (Tnf, &'a [u8], &'a [u8], Cow<'a, [u8]>) {
        (self.tnf(), self.kind(), self.id(), self.payload_cow())
    }
}

#[cfg(feature = "alloc")]
compare_by_value! { Record }

impl fmt::Debug for Record<'_> {
    fn fmt(&self, to: &mut fmt::Formatter<'_>) -> fmt::Result {
        to.debug_struct("Record")
            .field("tnf", &self.tnf())
            .field("kind", &Quoted(self.kind()))
            .field("id", &Quoted(self.id()))
            .field("payload_len", &self.payload_len())
            .field("chunk_count", &self.chunk_count())
            .finish_non_exhaustive()
    }
}
