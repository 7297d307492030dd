//! Alternative carriers of handovers.
use crate::bytes::{Bytes, Quoted};
use crate::payload::check_payload;
use crate::proved::ndef_format::Kind;
use crate::proved::ndef_types::{AlternativeParts, Power};
use crate::{NumberError, Profile, Refusal};
use core::fmt;
use core::iter::FusedIterator;

#[cfg(feature = "alloc")]
use crate::calls;
#[cfg(feature = "alloc")]
use alloc::vec::Vec;

/// The power state of a carrier (Connection Handover 1.2, Alternative Carrier record).
#[derive(Clone, Copy, Debug, PartialEq, Eq, Hash)]
#[repr(u32)]
pub enum PowerState {
    /// It is off.
    Inactive = 0,
    /// It is on.
    Active = 1,
    /// It is being switched on.
    Activating = 2,
    /// It is not known.
    Unknown = 3,
}

impl PowerState {
    /// The power states, in the order of their numbers.
    pub const ALL: &'static [PowerState] = &[Self::Inactive, Self::Active, Self::Activating, Self::Unknown];

    fn of(power: Power) -> Self {
        match power {
            Power::Inactive => Self::Inactive,
            Power::Active => Self::Active,
            Power::Activating => Self::Activating,
            Power::Unknown => Self::Unknown,
        }
    }

    /// Its number.
    #[must_use]
    pub const fn number(self) -> u32 {
        self as u32
    }
}

impl TryFrom<u8> for PowerState {
    type Error = NumberError;

    fn try_from(number: u8) -> Result<Self, NumberError> {
        Self::ALL.get(usize::from(number)).copied().ok_or(NumberError { number, most: 3 })
    }
}

impl From<PowerState> for u8 {
    fn from(power: PowerState) -> Self {
        power as u8
    }
}

impl fmt::Display for PowerState {
    fn fmt(&self, to: &mut fmt::Formatter<'_>) -> fmt::Result {
        to.pad(match self {
            Self::Inactive => "inactive",
            Self::Active => "active",
            Self::Activating => "activating",
            Self::Unknown => "unknown",
        })
    }
}

/// An alternative carrier (`ac`, Connection Handover 1.2): it refers to the record that describes a carrier.
///
/// With the feature `alloc`, alternative carriers are equal if their power states and references are.
#[derive(Clone)]
pub struct AlternativeCarrier<'a>(Bytes<'a>);

impl<'a> AlternativeCarrier<'a> {
    /// The alternative carrier of the payload of an Alternative Carrier record.
    ///
    /// # Errors
    ///
    /// The payload is not that of an alternative carrier. The offset counts from its first byte.
    pub fn parse(payload: &'a [u8]) -> Result<Self, Refusal> {
        check_payload(Kind::Alternative, Profile::Strict, payload)?;
        Ok(Self::known(payload.into()))
    }

    /// The alternative carrier of a payload that is known to be one.
    pub(crate) fn known(payload: Bytes<'a>) -> Self {
        Self(payload)
    }

    fn parts(&self) -> AlternativeParts<'_> {
        AlternativeParts::new(&self.0)
    }

    /// The power state of the carrier.
    #[must_use]
    pub fn power(&self) -> PowerState {
        PowerState::of(self.parts().power())
    }

    /// The carrier data reference: the id of the record that describes the carrier, at most 255 bytes.
    #[must_use]
    pub fn reference(&self) -> &[u8] {
        self.parts().reference()
    }

    /// The auxiliary data references, at most 255, each of at most 255 bytes.
    pub fn auxiliaries(&self) -> Auxiliaries<'_> {
        Auxiliaries::of(&self.0)
    }

    /// Its payload.
    #[must_use]
    pub fn payload(&self) -> &[u8] {
        &self.0
    }

    /// The same alternative carrier, which borrows nothing.
    #[cfg(feature = "alloc")]
    #[must_use]
    pub fn into_owned(self) -> AlternativeCarrier<'static> {
        AlternativeCarrier(self.0.into_owned())
    }

    #[cfg(feature = "alloc")]
    fn value(&self) -> (PowerState, &[u8], Vec<&[u8]>) {
        (self.power(), self.reference(), self.auxiliaries().collect())
    }
}

#[cfg(feature = "alloc")]
compare_by_value! { AlternativeCarrier }

impl fmt::Debug for AlternativeCarrier<'_> {
    fn fmt(&self, to: &mut fmt::Formatter<'_>) -> fmt::Result {
        to.debug_struct("AlternativeCarrier")
            .field("power", &self.power())
            .field("reference", &Quoted(self.reference()))
            .field("auxiliaries", &self.auxiliaries())
            .finish()
    }
}

/// The auxiliary data references of an alternative carrier, one after another.
#[derive(Clone)]
#[must_use = "an iterator does nothing unless it is used"]
pub struct Auxiliaries<'a> {
    /// Without memory each one is looked for from the first on.
    #[cfg(not(feature = "alloc"))]
    parts: AlternativeParts<'a>,
    #[cfg(feature = "alloc")]
    references: Vec<&'a [u8]>,
    next: usize,
    end: usize,
}

impl<'a> Auxiliaries<'a> {
    fn of(payload: &'a [u8]) -> Self {
        let parts = AlternativeParts::new(payload);
        let count = parts.auxiliary_count();
        #[cfg(not(feature = "alloc"))]
        let auxiliaries = Self { parts, next: 0, end: count };
        #[cfg(feature = "alloc")]
        let auxiliaries = Self { references: calls::references(payload, 1 + count), next: 0, end: count };
        auxiliaries
    }

    #[cfg(not(feature = "alloc"))]
    fn reference(&self, index: usize) -> Option<&'a [u8]> {
        self.parts.auxiliary(index)
    }

    /// The first of all references is the carrier data reference.
    #[cfg(feature = "alloc")]
    fn reference(&self, index: usize) -> Option<&'a [u8]> {
        self.references.get(1 + index).copied()
    }
}

impl<'a> Iterator for Auxiliaries<'a> {
    type Item = &'a [u8];

    fn next(&mut self) -> Option<&'a [u8]> {
        if self.next == self.end {
            return None;
        }
        self.next += 1;
        self.reference(self.next - 1)
    }

    fn size_hint(&self) -> (usize, Option<usize>) {
        let left = self.end - self.next;
        (left, Some(left))
    }
}

impl DoubleEndedIterator for Auxiliaries<'_> {
    fn next_back(&mut self) -> Option<Self::Item> {
        if self.next == self.end {
            return None;
        }
        self.end -= 1;
        self.reference(self.end)
    }
}

impl ExactSizeIterator for Auxiliaries<'_> {}
impl FusedIterator for Auxiliaries<'_> {}

impl fmt::Debug for Auxiliaries<'_> {
    fn fmt(&self, to: &mut fmt::Formatter<'_>) -> fmt::Result {
        to.debug_list().entries(self.clone().map(Quoted)).finish()
    }
}

#[cfg(test)]
mod tests {
    use super::AlternativeCarrier;

    /// Without memory each is looked for, with it all are found at once.
    #[test]
    fn auxiliaries_are_read_from_both_ends() {
        let carrier = AlternativeCarrier::parse(b"\x01\x01a\x04\x01b\x00\x02cd\x01e").unwrap();
        let mut names = carrier.auxiliaries();
        assert_eq!((names.next(), names.len(), names.next_back()), (Some(&b"b"[..]), 3, Some(&b"e"[..])));
        assert_eq!(
            (names.next(), names.next(), names.next(), names.next_back()),
            (Some(&b""[..]), Some(&b"cd"[..]), None, None)
        );
    }
}
