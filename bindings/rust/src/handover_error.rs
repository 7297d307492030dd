//! Errors of handover selects.
use crate::payload::check_payload;
use crate::proved::ndef_format::Kind;
use crate::proved::ndef_types::ErrorParts;
use crate::{Profile, Refusal};

/// The error of a handover select (`err`, Connection Handover 1.2).
#[derive(Clone, Copy, Debug, PartialEq, Eq, Hash)]
#[non_exhaustive]
pub struct HandoverError<'a> {
    /// The reason. 1: memory is short temporarily. 2: memory is short permanently. 3: the carrier has an error of its
    /// own. Others are reserved.
    pub reason: u8,
    /// The error data.
    pub data: &'a [u8],
    /// With the reasons 1 to 3, the number in the data: after that many milliseconds (1 and 3) another request may
    /// succeed, and a message may have that many bytes (2).
    pub number: Option<u32>,
}

impl<'a> HandoverError<'a> {
    /// The error of the payload of an Error record.
    ///
    /// # Errors
    ///
    /// The payload is not that of an error. The offset counts from its first byte.
    pub fn parse(payload: &'a [u8]) -> Result<Self, Refusal> {
        check_payload(Kind::Error, Profile::Strict, payload)?;
        Ok(Self::known(payload))
    }

    /// The error of a payload that is known to be one.
    pub(crate) fn known(payload: &'a [u8]) -> Self {
        let parts = ErrorParts::new(payload);
        let (reason, data) = (parts.reason(), parts.detail());
        let number = match (reason, data) {
            (1 | 3, [number]) => Some(u32::from(*number)),
            (2, [a, b, c, d]) => Some(u32::from_be_bytes([*a, *b, *c, *d])),
            _ => None,
        };
        Self { reason, data, number }
    }
}
