//! URIs.
use crate::bytes::{Bytes, Quoted};
use crate::calls;
use crate::payload::check_payload;
use crate::proved::ndef_format::Kind;
use crate::proved::ndef_types::{prefix, UriParts};
use crate::{DecodeError, EncodeError, NewRecord, Profile, Refusal, Tnf};
use core::fmt;

#[cfg(feature = "alloc")]
use alloc::{string::String, vec::Vec};

/// A URI (`U`, RTD URI 1.0). Its payload may abbreviate the prefix; the methods spell it out.
///
/// With the feature `alloc`, URIs are equal if they are when spelled out.
#[derive(Clone)]
pub struct Uri<'a>(Bytes<'a>);

impl<'a> Uri<'a> {
    /// The URI of the payload of a URI record.
    ///
    /// # Errors
    ///
    /// The payload is not that of a URI. The offset counts from its first byte.
    pub fn parse(payload: &'a [u8], profile: Profile) -> Result<Self, Refusal> {
        check_payload(Kind::Uri, profile, payload)?;
        Ok(Self::known(payload.into()))
    }

    /// The URI of a payload that is known to be one.
    pub(crate) fn known(payload: Bytes<'a>) -> Self {
        Self(payload)
    }

    /// The prefix that is abbreviated, and what comes after it.
    fn parts(&self) -> (&'static str, &str) {
        let parts = UriParts::new(&self.0);
        (prefix(parts.code()), parts.rest())
    }

    /// A URI. Its payload abbreviates the longest prefix that has a code.
    ///
    /// # Errors
    ///
    /// [`EncodeError::Uri`].
    #[cfg(feature = "alloc")]
    pub fn new(uri: &str) -> Result<Uri<'static>, EncodeError> {
        let mut payload = Vec::with_capacity(1 + uri.len());
        calls::write_uri(uri, &mut payload).map_err(|unfilled| EncodeError::of(unfilled, EncodeError::Uri))?;
        Ok(Uri::known(Bytes::Owned(payload)))
    }

    /// A URI whose payload is written to the buffer.
    ///
    /// # Errors
    ///
    /// [`EncodeError::Uri`] or [`EncodeError::BufferTooSmall`].
    pub fn new_in(uri: &str, buffer: &'a mut [u8]) -> Result<Self, EncodeError> {
        let count = calls::write_uri(uri, buffer).map_err(|unfilled| EncodeError::of(unfilled, EncodeError::Uri))?;
        Ok(Uri::known(Bytes::Borrowed(&buffer[..count])))
    }

    /// How many bytes the URI has: the size of the buffer that [`uri_in`](Self::uri_in) needs.
    #[must_use]
    pub fn uri_len(&self) -> usize {
        let (prefix, rest) = self.parts();
        prefix.len() + rest.len()
    }

    /// The URI.
    #[cfg(feature = "alloc")]
    #[must_use]
    pub fn to_uri(&self) -> String {
        let (prefix, rest) = self.parts();
        [prefix, rest].concat()
    }

    /// The URI, in the buffer.
    ///
    /// # Errors
    ///
    /// [`DecodeError::BufferTooSmall`] alone.
    pub fn uri_in<'r>(&self, buffer: &'r mut [u8]) -> Result<&'r str, DecodeError> {
        let (prefix, rest) = self.parts();
        let length = prefix.len() + rest.len();
        let uri = buffer.get_mut(..length).ok_or(DecodeError::BufferTooSmall(length))?;
        uri[..prefix.len()].copy_from_slice(prefix.as_bytes());
        uri[prefix.len()..].copy_from_slice(rest.as_bytes());
        Ok(calls::utf8(uri))
    }

    /// Its payload.
    #[must_use]
    pub fn payload(&self) -> &[u8] {
        &self.0
    }

    /// The same URI, which borrows nothing.
    #[cfg(feature = "alloc")]
    #[must_use]
    pub fn into_owned(self) -> Uri<'static> {
        Uri(self.0.into_owned())
    }

    #[cfg(feature = "alloc")]
    fn value(&self) -> String {
        self.to_uri()
    }
}

#[cfg(feature = "alloc")]
compare_by_value! { Uri }

impl<'a> From<Uri<'a>> for NewRecord<'a> {
    fn from(uri: Uri<'a>) -> Self {
        NewRecord::new(Tnf::WellKnown, b"U", uri.0)
    }
}

#[cfg(feature = "alloc")]
impl fmt::Display for Uri<'_> {
    fn fmt(&self, to: &mut fmt::Formatter<'_>) -> fmt::Result {
        to.pad(&self.to_uri())
    }
}

impl fmt::Debug for Uri<'_> {
    fn fmt(&self, to: &mut fmt::Formatter<'_>) -> fmt::Result {
        to.debug_struct("Uri").field("payload", &Quoted(&self.0)).finish()
    }
}
