//! Handover carriers.
use crate::bytes::{Bytes, Quoted};
use crate::calls;
use crate::payload::check_payload;
use crate::proved::ndef_format::Kind;
use crate::proved::ndef_types::CarrierParts;
use crate::{EncodeError, NewRecord, Profile, Refusal, Tnf};
use core::fmt;

#[cfg(feature = "alloc")]
use alloc::vec::Vec;

/// A handover carrier (`Hc`, Connection Handover 1.2): the type of a carrier, and data for it.
///
/// With the feature `alloc`, handover carriers are equal if their formats, types and data are.
#[derive(Clone)]
pub struct HandoverCarrier<'a>(Bytes<'a>);

impl<'a> HandoverCarrier<'a> {
    /// The handover carrier of the payload of a Handover Carrier record.
    ///
    /// # Errors
    ///
    /// The payload is not that of a handover carrier. The offset counts from its first byte.
    pub fn parse(payload: &'a [u8]) -> Result<Self, Refusal> {
        check_payload(Kind::Carrier, Profile::Strict, payload)?;
        Ok(Self::known(payload.into()))
    }

    /// The handover carrier of a payload that is known to be one.
    pub(crate) fn known(payload: Bytes<'a>) -> Self {
        Self(payload)
    }

    fn parts(&self) -> CarrierParts<'_> {
        CarrierParts::new(&self.0)
    }

    /// A handover carrier: its carrier type format, 0 to 7, its carrier type, at most 255 bytes, and its data.
    ///
    /// # Errors
    ///
    /// [`EncodeError::Carrier`].
    #[cfg(feature = "alloc")]
    pub fn new(format: u8, kind: &[u8], data: &[u8]) -> Result<HandoverCarrier<'static>, EncodeError> {
        let mut payload = Vec::with_capacity(2 + kind.len() + data.len());
        calls::write_carrier(format.into(), kind, data, &mut payload)
            .map_err(|unfilled| EncodeError::of(unfilled, EncodeError::Carrier))?;
        Ok(HandoverCarrier::known(Bytes::Owned(payload)))
    }

    /// A handover carrier whose payload is written to the buffer.
    ///
    /// # Errors
    ///
    /// [`EncodeError::Carrier`] or [`EncodeError::BufferTooSmall`].
    pub fn new_in(format: u8, kind: &[u8], data: &[u8], buffer: &'a mut [u8]) -> Result<Self, EncodeError> {
        let count = calls::write_carrier(format.into(), kind, data, buffer)
            .map_err(|unfilled| EncodeError::of(unfilled, EncodeError::Carrier))?;
        Ok(HandoverCarrier::known(Bytes::Borrowed(&buffer[..count])))
    }

    /// The carrier type format, 0 to 7: what kind of name the carrier type is.
    #[must_use]
    pub fn format(&self) -> u8 {
        self.parts().format()
    }

    /// The carrier type, at most 255 bytes.
    #[must_use]
    pub fn kind(&self) -> &[u8] {
        self.parts().kind()
    }

    /// The carrier data.
    #[must_use]
    pub fn data(&self) -> &[u8] {
        self.parts().carried()
    }

    /// Its payload.
    #[must_use]
    pub fn payload(&self) -> &[u8] {
        &self.0
    }

    /// The same handover carrier, which borrows nothing.
    #[cfg(feature = "alloc")]
    #[must_use]
    pub fn into_owned(self) -> HandoverCarrier<'static> {
        HandoverCarrier(self.0.into_owned())
    }

    #[cfg(feature = "alloc")]
    fn value(&self) -> (u8, &[u8], &[u8]) {
        (self.format(), self.kind(), self.data())
    }
}

#[cfg(feature = "alloc")]
compare_by_value! { HandoverCarrier }

impl<'a> From<HandoverCarrier<'a>> for NewRecord<'a> {
    fn from(carrier: HandoverCarrier<'a>) -> Self {
        NewRecord::new(Tnf::WellKnown, b"Hc", carrier.0)
    }
}

impl fmt::Debug for HandoverCarrier<'_> {
    fn fmt(&self, to: &mut fmt::Formatter<'_>) -> fmt::Result {
        to.debug_struct("HandoverCarrier")
            .field("format", &self.format())
            .field("kind", &Quoted(self.kind()))
            .field("data", &Quoted(self.data()))
            .finish()
    }
}
