//! How large a message may be, and how it is checked.
use crate::promised;
use crate::proved::ndef_value;
use core::num::{NonZeroU16, NonZeroU32};

/// What becomes of the type name format 7 and of URI codes above 0x23, which are reserved. The repository's
/// docs/FORMAT.md has each difference from the standards.
#[derive(Clone, Copy, Debug, Default, PartialEq, Eq, Hash)]
pub enum Profile {
    /// They are refused, though the standards ask a reader to accept them.
    #[default]
    Strict,
    /// They are read as the standards say: the type name format 7 as [`Tnf::Unknown`](crate::Tnf::Unknown) (NDEF 1.0,
    /// 3.2.6), and a reserved identifier code of a URI as no prefix (RTD URI 1.0, 3.2.2).
    Standard,
}

impl Profile {
    #[inline]
    pub(crate) fn proved(self) -> ndef_value::Profile {
        match self {
            Self::Strict => ndef_value::Profile::Strict,
            Self::Standard => ndef_value::Profile::Standard,
        }
    }
}

/// Which payloads a check validates.
#[derive(Clone, Copy, Debug, Default, PartialEq, Eq, Hash)]
pub enum Payloads {
    /// Those of texts, URIs, smart posters, handover requests, handover selects and handover carriers.
    #[default]
    Typed,
    /// None of them: any payload may have any bytes.
    Opaque,
}

/// How large a message may be, and how it is checked. The type of each number is its range, so that no limits are bad.
///
/// ```
/// use core::num::NonZeroU16;
/// use simbegyor_ndef::{Limits, Profile};
///
/// let limits = Limits::new().with_profile(Profile::Standard).with_records(NonZeroU16::MIN);
/// assert_eq!(limits.records().get(), 1);
/// assert_eq!(limits.payload().get(), 1048576);
/// ```
#[derive(Clone, Copy, Debug, PartialEq, Eq, Hash)]
#[must_use]
pub struct Limits {
    payload: NonZeroU32,
    records: NonZeroU16,
    chunks: NonZeroU16,
    profile: Profile,
    payloads: Payloads,
}

impl Limits {
    /// Limits that suit most tags: at most 1048576 bytes of payload in a record, 1024 records in a message and 4096
    /// chunks in a record. Reserved values are refused, and payloads are validated.
    pub const fn new() -> Self {
        Self {
            payload: NonZeroU32::new(1048576).unwrap(),
            records: NonZeroU16::new(1024).unwrap(),
            chunks: NonZeroU16::new(4096).unwrap(),
            profile: Profile::Strict,
            payloads: Payloads::Typed,
        }
    }

    /// The same with another limit for the payload of a record, in bytes, its chunks joined.
    pub const fn with_payload(mut self, bytes: NonZeroU32) -> Self {
        self.payload = bytes;
        self
    }

    /// The same with another limit for the records of a message.
    pub const fn with_records(mut self, records: NonZeroU16) -> Self {
        self.records = records;
        self
    }

    /// The same with another limit for the chunks of a record.
    pub const fn with_chunks(mut self, chunks: NonZeroU16) -> Self {
        self.chunks = chunks;
        self
    }

    /// The same with another profile.
    pub const fn with_profile(mut self, profile: Profile) -> Self {
        self.profile = profile;
        self
    }

    /// The same, but it validates these payloads.
    pub const fn with_payloads(mut self, payloads: Payloads) -> Self {
        self.payloads = payloads;
        self
    }

    /// The most bytes of a record's payload, its chunks joined.
    #[must_use]
    pub const fn payload(&self) -> NonZeroU32 {
        self.payload
    }

    /// The most records of a message.
    #[must_use]
    pub const fn records(&self) -> NonZeroU16 {
        self.records
    }

    /// The most chunks of a record.
    #[must_use]
    pub const fn chunks(&self) -> NonZeroU16 {
        self.chunks
    }

    /// What becomes of reserved values.
    #[must_use]
    pub const fn profile(&self) -> Profile {
        self.profile
    }

    /// Which payloads are validated.
    #[must_use]
    pub const fn payloads(&self) -> Payloads {
        self.payloads
    }

    #[inline]
    pub(crate) fn proved(&self) -> ndef_value::Limits {
        let limits = ndef_value::Limits::new(self.payload.get(), self.records.get().into(), self.chunks.get().into());
        promised(limits).with(self.profile.proved())
    }
}

impl Default for Limits {
    fn default() -> Self {
        Self::new()
    }
}

#[cfg(test)]
mod tests {
    #[test]
    fn the_usual_limits_are_the_librarys() {
        assert_eq!(super::Limits::new().proved(), crate::proved::ndef_value::Limits::usual());
    }
}
