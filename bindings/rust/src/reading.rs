//! Messages of readers.
use crate::{Checker, Limits, Refusal};
use core::fmt;
use std::io::{self, BufRead, ErrorKind};
use std::vec::Vec;

/// Why no message is read.
#[derive(Debug)]
#[non_exhaustive]
pub enum ReadError {
    /// The reader failed.
    Io(io::Error),
    /// The input does not begin with a message.
    Refused(Refusal),
}

impl fmt::Display for ReadError {
    fn fmt(&self, to: &mut fmt::Formatter<'_>) -> fmt::Result {
        match self {
            Self::Io(error) => error.fmt(to),
            Self::Refused(refusal) => refusal.fmt(to),
        }
    }
}

impl core::error::Error for ReadError {
    fn source(&self) -> Option<&(dyn core::error::Error + 'static)> {
        match self {
            Self::Io(error) => error.source(),
            Self::Refused(_) => None,
        }
    }
}

/// The error of the reader, or one of the kind [`InvalidData`](ErrorKind::InvalidData).
impl From<ReadError> for io::Error {
    fn from(error: ReadError) -> Self {
        match error {
            ReadError::Io(error) => error,
            ReadError::Refused(refusal) => refusal.into(),
        }
    }
}

impl From<io::Error> for ReadError {
    fn from(error: io::Error) -> Self {
        Self::Io(error)
    }
}

impl From<Refusal> for ReadError {
    fn from(refusal: Refusal) -> Self {
        Self::Refused(refusal)
    }
}

/// Reads the bytes of one message, and takes none of those after it. `None`: the input ends before the first byte.
/// [`Message::parse_within`](crate::Message::parse_within) reads the bytes.
///
/// # Errors
///
/// [`ReadError::Refused`]: the offset counts from the first byte that was read. The reader stands at the refused byte.
/// [`ReadError::Io`]: the reader stands where it failed.
///
/// ```
/// use simbegyor_ndef::{read_message, Limits};
///
/// let mut input = &b"\xD0\x00\x00\xD1\x01\x01T\x00"[..];
/// assert_eq!(read_message(&mut input, &Limits::new())?.unwrap(), b"\xD0\x00\x00");
/// assert_eq!(read_message(&mut input, &Limits::new())?.unwrap(), b"\xD1\x01\x01T\x00");
/// assert_eq!(read_message(&mut input, &Limits::new())?, None);
/// # Ok::<(), simbegyor_ndef::ReadError>(())
/// ```
pub fn read_message<R: BufRead + ?Sized>(reader: &mut R, limits: &Limits) -> Result<Option<Vec<u8>>, ReadError> {
    let (mut checker, mut message) = (Checker::new(limits), Vec::new());
    loop {
        let shown = match reader.fill_buf() {
            Ok(shown) => shown,
            Err(error) if error.kind() == ErrorKind::Interrupted => continue,
            Err(error) => return Err(error.into()),
        };
        if shown.is_empty() {
            return match checker.end() {
                Err(refusal) if !message.is_empty() => Err(refusal.into()),
                _ => Ok(None),
            };
        }
        let answer = checker.feed(shown);
        let end = match answer {
            Ok(None) => shown.len(),
            Ok(Some(checked)) => within(checked.length, &message),
            Err(refusal) => within(refusal.at, &message),
        };
        message.extend_from_slice(&shown[..end]);
        reader.consume(end);
        if answer?.is_some() {
            return Ok(Some(message));
        }
    }
}

/// How many of the bytes that are shown lie before an offset, where those before them were taken.
fn within(place: u64, taken: &[u8]) -> usize {
    (place - taken.len() as u64) as usize
}
