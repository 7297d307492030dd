//! Handover requests and handover selects.
use crate::bytes::Bytes;
use crate::payload::check_payload;
use crate::proved::ndef_format::{Kind, Table};
use crate::proved::ndef_piece::inner_of;
use crate::record::Within;
use crate::{promised, AlternativeCarrier, HandoverError, NewRecord, Profile, Records, Refusal, Tnf};
use core::fmt;
use core::iter::FusedIterator;

#[cfg(feature = "alloc")]
use crate::{HandoverRequestBuilder, HandoverSelectBuilder, Record};
#[cfg(feature = "alloc")]
use alloc::vec::Vec;

/// What requests and selects share.
macro_rules! handovers {
    ($($(#[$doc:meta])* $name:ident $kind:ident;)*) => { $(
        $(#[$doc])*
        ///
        /// With the feature `alloc`, they are equal if their versions and records are.
        #[derive(Clone)]
        pub struct $name<'a> {
            payload: Bytes<'a>,
            profile: Profile,
        }

        impl<'a> $name<'a> {
            /// The value of the payload of such a record.
            ///
            /// # Errors
            ///
            /// The payload is not one of its type. The offset counts from its first byte.
            pub fn parse(payload: &'a [u8], profile: Profile) -> Result<Self, Refusal> {
                check_payload(Kind::$kind, profile, payload)?;
                Ok(Self::known(payload.into(), profile))
            }

            /// The value of a payload that is known to be one.
            pub(crate) fn known(payload: Bytes<'a>, profile: Profile) -> Self {
                Self { payload, profile }
            }

            /// The version of Connection Handover, major and minor. The major one is 1, and the minor one is 0 to 15.
            pub fn version(&self) -> (u8, u8) {
                (self.payload[0] / 16, self.payload[0] % 16)
            }

            /// How many alternative carriers it has.
            pub fn alternative_count(&self) -> usize {
                self.alternatives().len()
            }

            /// Its alternative carriers. [`Message::links`](crate::Message::links) gives the record of each.
            pub fn alternatives(&self) -> Alternatives<'_> {
                Alternatives(self.records())
            }

            /// All of its records.
            pub fn records(&self) -> Records<'_> {
                Records::within(inner_of(Kind::$kind, &self.payload), Within::Payload(Table::$kind), self.profile)
            }

            /// Its payload.
            pub fn payload(&self) -> &[u8] {
                &self.payload
            }

            /// The same handover, which borrows nothing.
            #[cfg(feature = "alloc")]
            pub fn into_owned(self) -> $name<'static> {
                $name { payload: self.payload.into_owned(), ..self }
            }

            #[cfg(feature = "alloc")]
            fn value(&self) -> ((u8, u8), Vec<Record<'_>>) {
                (self.version(), self.records().collect())
            }
        }

        #[cfg(feature = "alloc")]
        compare_by_value! { $name }

        impl<'a> From<$name<'a>> for NewRecord<'a> {
            fn from(handover: $name<'a>) -> Self {
                NewRecord::new(Tnf::WellKnown, Kind::$kind.name(), handover.payload)
            }
        }

        impl fmt::Debug for $name<'_> {
            fn fmt(&self, to: &mut fmt::Formatter<'_>) -> fmt::Result {
                to.debug_struct(stringify!($name))
                    .field("version", &self.version())
                    .field("records", &self.records())
                    .finish()
            }
        }
    )* };
}

handovers! {
    /// A handover request (`Hr`, Connection Handover 1.2): the carriers that a device offers.
    HandoverRequest Request;
    /// A handover select (`Hs`, Connection Handover 1.2): the carriers that a device chose of a request.
    HandoverSelect Select;
}

impl HandoverRequest<'_> {
    /// The random number of its Collision Resolution record.
    #[must_use]
    pub fn collision(&self) -> u16 {
        let record = self.records().next_of(Kind::Collision);
        let number = record.and_then(|record| record.payload()?.try_into().ok());
        u16::from_be_bytes(promised(number.ok_or(())))
    }

    /// Begins a request with the version 1.`minor`, 0 to 15, and the random number of its Collision Resolution record.
    ///
    /// ```
    /// use simbegyor_ndef::{HandoverRequest, Message, MessageBuilder, NewRecord, PowerState};
    ///
    /// let request = HandoverRequest::builder(2, 4660).alternative(PowerState::Active, b"0", &[]).build()?;
    /// let carrier = NewRecord::media("application/vnd.bluetooth.ep.oob", b"\x02\0").with_id(b"0");
    /// let bytes = MessageBuilder::new().record(request).record(carrier).build()?;
    /// let message = Message::parse(&bytes)?;
    /// let link = message.links()?.next().unwrap();
    /// assert_eq!(link.record, message.record_with_id(b"0"));
    /// # Ok::<(), Box<dyn std::error::Error>>(())
    /// ```
    #[cfg(feature = "alloc")]
    pub fn builder(minor: u8, collision: u16) -> HandoverRequestBuilder<'static> {
        HandoverRequestBuilder::new(minor, collision)
    }
}

impl HandoverSelect<'_> {
    /// Its error; of several errors the first.
    #[must_use]
    pub fn error(&self) -> Option<HandoverError<'_>> {
        Some(HandoverError::known(self.records().next_of(Kind::Error)?.payload()?))
    }

    /// Begins a select with the version 1.`minor`, 0 to 15.
    #[cfg(feature = "alloc")]
    pub fn builder(minor: u8) -> HandoverSelectBuilder<'static> {
        HandoverSelectBuilder::new(minor)
    }
}

/// The alternative carriers of a handover, one after another.
#[derive(Clone)]
#[must_use = "an iterator does nothing unless it is used"]
pub struct Alternatives<'a>(Records<'a>);

impl<'a> Iterator for Alternatives<'a> {
    type Item = AlternativeCarrier<'a>;

    fn next(&mut self) -> Option<AlternativeCarrier<'a>> {
        Some(AlternativeCarrier::known(self.0.next_of(Kind::Alternative)?.payload()?.into()))
    }

    /// They are counted by a walk over the records.
    fn size_hint(&self) -> (usize, Option<usize>) {
        let left = self.clone().fold(0, |count, _| count + 1);
        (left, Some(left))
    }
}

impl ExactSizeIterator for Alternatives<'_> {}
impl FusedIterator for Alternatives<'_> {}

impl fmt::Debug for Alternatives<'_> {
    fn fmt(&self, to: &mut fmt::Formatter<'_>) -> fmt::Result {
        to.debug_list().entries(self.clone()).finish()
    }
}
