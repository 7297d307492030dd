//! Handover requests and selects built of their records.
use crate::bytes::Bytes;
use crate::calls::{self, NdefPart, Unfilled};
use crate::{EncodeError, HandoverRequest, HandoverSelect, MessageBuilder, NewRecord, PowerState, Profile, Tnf};
use alloc::vec::Vec;

/// The records of a handover, or the first error of one.
type Records<'a> = Result<MessageBuilder<'a>, EncodeError>;

/// The records with one more, whose payload a call writes.
fn written<'a>(
    records: Records<'a>,
    kind: &'static [u8],
    why: EncodeError,
    write: impl FnOnce(&mut Vec<u8>) -> Result<usize, Unfilled>,
) -> Records<'a> {
    let mut payload = Vec::new();
    let records = records?;
    write(&mut payload).map_err(|unfilled| EncodeError::of(unfilled, why))?;
    Ok(records.record(NewRecord::new(Tnf::WellKnown, kind, Bytes::Owned(payload))))
}

/// The records with one more, an alternative carrier.
fn alternative<'a>(records: Records<'a>, power: PowerState, references: &[&[u8]]) -> Records<'a> {
    let bytes = references.concat();
    let mut at = 0;
    let part = |reference: &&[u8]| {
        let part = NdefPart { at, length: reference.len() };
        at += part.length;
        part
    };
    let parts: Vec<NdefPart> = references.iter().map(part).collect();
    let write = |payload: &mut Vec<u8>| calls::write_alternative(power as u32, &bytes, &parts, payload);
    written(records, b"ac", EncodeError::Alternative, write)
}

/// The payload of a handover with these records.
fn payload(handover: u32, minor: u8, records: Records<'_>) -> Result<Bytes<'static>, EncodeError> {
    let records = records?;
    let message = if records.is_empty() { Vec::new() } else { records.build()? };
    let mut payload = Vec::with_capacity(1 + message.len());
    calls::write_handover(handover, 1, minor.into(), &message, &mut payload)
        .map_err(|unfilled| EncodeError::of(unfilled, EncodeError::Handover))?;
    Ok(Bytes::Owned(payload))
}

/// What both builders share.
macro_rules! builders {
    ($($(#[$doc:meta])* $name:ident builds $handover:ident $number:expr;)*) => { $(
        $(#[$doc])*
        #[derive(Clone, Debug)]
        #[must_use]
        pub struct $name<'a> {
            minor: u8,
            records: Records<'a>,
        }

        impl<'a> $name<'a> {
            /// Adds an alternative carrier: its power state, the id of the record that describes it, and auxiliary
            /// references. There are at most 255 of these, and each reference has at most 255 bytes.
            pub fn alternative(mut self, power: PowerState, reference: &[u8], auxiliaries: &[&[u8]]) -> Self {
                let references = [&[reference], auxiliaries].concat();
                self.records = alternative(self.records, power, &references);
                self
            }

            /// Adds any other record.
            pub fn record(mut self, record: impl Into<NewRecord<'a>>) -> Self {
                self.records = self.records.map(|records| records.record(record));
                self
            }

            /// The handover.
            ///
            /// # Errors
            ///
            /// The first error of a record: [`EncodeError::Alternative`], [`EncodeError::HandoverError`] or
            /// [`EncodeError::Record`]. [`EncodeError::Handover`]: together they make no such handover.
            pub fn build(self) -> Result<$handover<'static>, EncodeError> {
                let payload = payload($number, self.minor, self.records)?;
                Ok($handover::known(payload, Profile::Strict))
            }
        }
    )* };
}

builders! {
    /// Builds a handover request. The first error of the records is kept, and [`build`](Self::build) answers it.
    HandoverRequestBuilder builds HandoverRequest calls::REQUEST;
    /// Builds a handover select. The first error of the records is kept, and [`build`](Self::build) answers it.
    HandoverSelectBuilder builds HandoverSelect calls::SELECT;
}

impl HandoverRequestBuilder<'_> {
    pub(crate) fn new(minor: u8, collision: u16) -> Self {
        let write = |payload: &mut Vec<u8>| calls::write_collision(collision.into(), payload);
        Self { minor, records: written(Ok(MessageBuilder::new().unchecked()), b"cr", EncodeError::Handover, write) }
    }
}

impl HandoverSelectBuilder<'_> {
    pub(crate) fn new(minor: u8) -> Self {
        Self { minor, records: Ok(MessageBuilder::new().unchecked()) }
    }

    /// Adds an error with a reason from 1 to 3, whose data are a number.
    pub fn error(mut self, reason: u8, number: u32) -> Self {
        let write = |payload: &mut Vec<u8>| calls::write_error_number(reason.into(), number, payload);
        self.records = written(self.records, b"err", EncodeError::HandoverError, write);
        self
    }

    /// Adds an error with any reason and data.
    pub fn error_data(mut self, reason: u8, data: &[u8]) -> Self {
        let write = |payload: &mut Vec<u8>| calls::write_error(reason.into(), data, payload);
        self.records = written(self.records, b"err", EncodeError::HandoverError, write);
        self
    }
}
