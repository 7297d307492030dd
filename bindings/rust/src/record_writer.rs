//! Records whose payload is written in parts.
use crate::proved::ndef_message::RecordEncoder;
use crate::{EncodeError, Form, NewRecord, Position};
use std::io::{self, Write};

/// The bytes of a record that are handed on at once.
const STEP: usize = 1024;

/// A record whose payload is written in parts: it is never whole in memory. It hands on the bytes of the record to another writer.
///
/// What is written isn't checked beyond the record: a reader may refuse the message.
///
/// ```
/// use simbegyor_ndef::{Form, NewRecord, Position, RecordWriter};
/// use std::io::Write;
///
/// let image = NewRecord::media("image/png", b"").with_id("i");
/// let mut record = RecordWriter::begin(Vec::new(), image, 6, Position::Only, Form::default())?;
/// record.write_all(b"\x89PN")?;
/// record.write_all(b"G\r\n")?;
/// assert_eq!(record.finish()?, b"\xDA\x09\x06\x01image/pngi\x89PNG\r\n");
/// # Ok::<(), std::io::Error>(())
/// ```
#[derive(Debug)]
#[must_use = "the record is whole only after `finish`"]
pub struct RecordWriter<'a, W: Write> {
    to: W,
    record: NewRecord<'a>,
    length: u32,
    encoder: RecordEncoder,
}

impl<'a, W: Write> RecordWriter<'a, W> {
    /// Begins the record: hands on what stands before the payload, and then the payload of `record`, with which that of the whole
    /// begins. `length` is the number of bytes of the whole payload. The limits of the form aren't looked at.
    ///
    /// # Errors
    ///
    /// Of the kind [`InvalidInput`](io::ErrorKind::InvalidInput): [`EncodeError::Record`] with the index 0, and [`EncodeError::Payload`] if the
    /// payload of `record` is longer than `length`. Nothing is written then. Any other error is one of the writer.
    pub fn begin(to: W, record: NewRecord<'a>, length: u32, position: Position, form: Form) -> io::Result<Self> {
        let plan = record.plan(form, position, length as usize);
        let encoder = RecordEncoder::new(plan).ok_or(EncodeError::Record(0))?;
        let mut begun = Self { to, record, length, encoder };
        let first = begun.record.take_payload();
        begun.hand_on(&first)?;
        Ok(begun)
    }

    /// Ends the record, and gives back the writer.
    ///
    /// # Errors
    ///
    /// [`EncodeError::Payload`], of the kind [`InvalidInput`](io::ErrorKind::InvalidInput), if bytes of the payload are missing.
    pub fn finish(self) -> io::Result<W> {
        if self.encoder.is_whole() {
            Ok(self.to)
        } else {
            Err(EncodeError::Payload(self.length).into())
        }
    }

    /// Hands on the bytes of the record up to the end of a part of its payload.
    fn hand_on(&mut self, part: &[u8]) -> io::Result<()> {
        let (mut buffer, begin) = ([0; STEP], self.encoder.taken());
        loop {
            let left = &part[self.encoder.taken() - begin..];
            let written = self.encoder.next(self.record.kind(), self.record.id(), left, &mut buffer);
            let count = written.map_err(|_| EncodeError::Payload(self.length))?;
            self.to.write_all(&buffer[..count])?;
            if count < STEP {
                return Ok(());
            }
        }
    }
}

/// Takes all bytes of each part. Where there are more than are left of the payload, the error is [`EncodeError::Payload`], of the kind
/// [`InvalidInput`](io::ErrorKind::InvalidInput), and none of them is handed on. After an error of the other writer the record is not whole.
impl<W: Write> Write for RecordWriter<'_, W> {
    fn write(&mut self, part: &[u8]) -> io::Result<usize> {
        self.hand_on(part)?;
        Ok(part.len())
    }

    fn flush(&mut self) -> io::Result<()> {
        self.to.flush()
    }
}
