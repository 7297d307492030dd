//! Messages written in steps.
use crate::proved::ndef_message::RecordEncoder;
use crate::{Checker, EncodeError, Form, NewRecord, Refusal};

/// A message of records that is written in steps, to buffers of any size: it is never whole in memory.
///
/// With the feature `std` it is a [`Read`](std::io::Read). [`MessageBuilder::encoder`](crate::MessageBuilder::encoder) makes one too.
///
/// ```
/// use simbegyor_ndef::{Form, MessageEncoder, NewRecord};
///
/// let records = [NewRecord::media("text/plain", "Hello")];
/// let (mut encoder, mut page) = (MessageEncoder::new(&records, Form::default()), [0; 4]);
/// assert_eq!((encoder.fill(&mut page)?, page), (4, *b"\xD2\x0A\x05t"));
/// assert_eq!((encoder.fill(&mut page)?, page), (4, *b"ext/"));
/// # Ok::<(), simbegyor_ndef::EncodeError>(())
/// ```
#[derive(Clone, Debug)]
#[must_use = "an encoder does nothing unless it is read"]
pub struct MessageEncoder<'a> {
    records: &'a [NewRecord<'a>],
    form: Form,
    checker: Option<Checker>,
    /// The index of the record that is written, and how far it is, if it is begun.
    index: usize,
    encoder: Option<RecordEncoder>,
    /// The bytes that are written, and those before this record.
    length: u64,
    before: u64,
    failed: Option<EncodeError>,
}

impl<'a> MessageEncoder<'a> {
    /// Begins a message of these records.
    pub fn new(records: &'a [NewRecord<'a>], form: Form) -> Self {
        Self {
            records,
            form,
            checker: form.limits.map(|limits| Checker::new(&limits)),
            index: 0,
            encoder: None,
            length: 0,
            before: 0,
            failed: records.is_empty().then_some(EncodeError::NoRecord),
        }
    }

    /// Writes the next bytes of the message to the buffer, as many as there are and fit, and answers their number. Where that
    /// is less than the size of the buffer, the message is whole.
    ///
    /// # Errors
    ///
    /// As [`encode`](crate::encode()), but for [`EncodeError::BufferTooSmall`]; what the encoder wrote so far is no message then. The buffer may
    /// hold some bytes before those that are refused. Each later call gives the same error.
    pub fn fill(&mut self, buffer: &mut [u8]) -> Result<usize, EncodeError> {
        if let Some(error) = self.failed {
            return Err(error);
        }
        let mut filled = 0;
        while filled < buffer.len() && self.index < self.records.len() {
            filled += self.step(&mut buffer[filled..]).inspect_err(|error| self.failed = Some(*error))?;
        }
        Ok(filled)
    }

    /// Writes the next bytes of the record, and checks them; of a record that is whole it goes on to the next one.
    fn step(&mut self, buffer: &mut [u8]) -> Result<usize, EncodeError> {
        let record = &self.records[self.index];
        if self.encoder.is_none() {
            self.encoder = record.begin(self.form, (self.index, self.records.len()));
        }
        let Some(encoder) = &mut self.encoder else { return Err(EncodeError::Record(self.index)) };
        let count = record.step(encoder, buffer);
        let is_whole = encoder.is_whole();
        self.length += count as u64;
        if let Some(Err(refusal)) = self.checker.as_mut().map(|checker| checker.feed(&buffer[..count])) {
            let refusal = Refusal { at: refusal.at - self.before, ..refusal };
            return Err(EncodeError::Refused { record: self.index, refusal });
        }
        if is_whole {
            (self.index, self.encoder, self.before) = (self.index + 1, None, self.length);
        }
        Ok(count)
    }
}

/// An [`EncodeError`] is an [`io::Error`](std::io::Error) of the kind [`InvalidInput`](std::io::ErrorKind::InvalidInput).
///
/// ```
/// use simbegyor_ndef::{MessageBuilder, Text};
///
/// let message = MessageBuilder::new().record(Text::new("en", "Hello")?);
/// let mut tag = Vec::new();
/// std::io::copy(&mut message.encoder(), &mut tag)?;
/// assert_eq!(tag, b"\xD1\x01\x08T\x02enHello");
/// # Ok::<(), Box<dyn std::error::Error>>(())
/// ```
#[cfg(feature = "std")]
impl std::io::Read for MessageEncoder<'_> {
    fn read(&mut self, buffer: &mut [u8]) -> std::io::Result<usize> {
        Ok(self.fill(buffer)?)
    }
}
