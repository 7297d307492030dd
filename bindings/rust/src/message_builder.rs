//! Messages built of records.
use crate::{EncodeError, Form, Limits, MessageEncoder, NewRecord};
use alloc::vec::Vec;
use core::num::NonZeroU32;

/// Builds the bytes of a message from records.
///
/// ```
/// use simbegyor_ndef::{Message, MessageBuilder, NewRecord, Text, Uri};
///
/// let bytes = MessageBuilder::new()
///     .record(Text::new("en", "Hello")?)
///     .record(Uri::new("http://www.example.com")?)
///     .record(NewRecord::media("text/plain", b"x").with_id(b"a"))
///     .build()?;
/// assert_eq!(Message::parse(&bytes)?.record_count(), 3);
/// # Ok::<(), Box<dyn std::error::Error>>(())
/// ```
#[derive(Clone, Debug, Default)]
#[must_use]
pub struct MessageBuilder<'a> {
    records: Vec<NewRecord<'a>>,
    form: Form,
}

impl<'a> MessageBuilder<'a> {
    /// Begins without a record.
    pub fn new() -> Self {
        Self::default()
    }

    /// Adds a record.
    pub fn record(mut self, record: impl Into<NewRecord<'a>>) -> Self {
        self.push(record);
        self
    }

    /// Adds a record.
    pub fn push(&mut self, record: impl Into<NewRecord<'a>>) {
        self.records.push(record.into());
    }

    /// Cuts payloads into chunks of this many bytes.
    pub fn chunk(mut self, bytes: NonZeroU32) -> Self {
        self.form.chunk = Some(bytes);
        self
    }

    /// Writes each payload length in four bytes.
    pub fn long(mut self) -> Self {
        self.form.long = true;
        self
    }

    /// Checks the message within other limits than the default ones: what is built has to be a message within these.
    pub fn limits(mut self, limits: Limits) -> Self {
        self.form.limits = Some(limits);
        self
    }

    /// Builds the message without a check, so that readers may refuse it.
    pub fn unchecked(mut self) -> Self {
        self.form.limits = None;
        self
    }

    /// The bytes of the message.
    ///
    /// # Errors
    ///
    /// [`EncodeError::NoRecord`], [`EncodeError::Record`], or [`EncodeError::Refused`], for which no reader would take it
    /// within the [`limits`](Self::limits).
    pub fn build(&self) -> Result<Vec<u8>, EncodeError> {
        let mut bytes = Vec::new();
        self.build_into(&mut bytes)?;
        Ok(bytes)
    }

    /// Appends the bytes of the message to others, which an error leaves as they were.
    ///
    /// # Errors
    ///
    /// As [`build`](Self::build).
    pub fn build_into(&self, bytes: &mut Vec<u8>) -> Result<(), EncodeError> {
        if self.records.is_empty() {
            return Err(EncodeError::NoRecord);
        }
        let before = bytes.len();
        bytes.reserve(self.records.iter().map(NewRecord::usual_size).sum());
        let written = self.write(bytes).and_then(|()| self.form.check(&bytes[before..]));
        if written.is_err() {
            bytes.truncate(before);
        }
        written
    }

    /// The bytes of the message in steps, so that it is never whole in memory. The encoder gives the errors of [`build`](Self::build).
    pub fn encoder(&self) -> MessageEncoder<'_> {
        MessageEncoder::new(&self.records, self.form)
    }

    fn write(&self, bytes: &mut Vec<u8>) -> Result<(), EncodeError> {
        for (index, record) in self.records.iter().enumerate() {
            let encoder = record.begin(self.form, (index, self.records.len()));
            let (mut encoder, mut at) = (encoder.ok_or(EncodeError::Record(index))?, bytes.len());
            while !encoder.is_whole() {
                bytes.resize(at + record.usual_size(), 0);
                at += record.step(&mut encoder, &mut bytes[at..]);
                bytes.truncate(at);
            }
        }
        Ok(())
    }

    pub(crate) fn is_empty(&self) -> bool {
        self.records.is_empty()
    }
}

impl<'a, R: Into<NewRecord<'a>>> Extend<R> for MessageBuilder<'a> {
    fn extend<I: IntoIterator<Item = R>>(&mut self, records: I) {
        self.records.extend(records.into_iter().map(Into::into));
    }
}

impl<'a, R: Into<NewRecord<'a>>> FromIterator<R> for MessageBuilder<'a> {
    fn from_iter<I: IntoIterator<Item = R>>(records: I) -> Self {
        Self { records: records.into_iter().map(Into::into).collect(), form: Form::default() }
    }
}
