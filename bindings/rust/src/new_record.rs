//! Records to be written.
use crate::proved::ndef_message::{self, RecordEncoder, RecordPlan};
use crate::record::Within;
use crate::{check, promised, Bytes, EncodeError, Limits, Profile, Record, Records, Refusal, Tnf};
use core::num::NonZeroU32;

/// How records are written.
#[derive(Clone, Copy, Debug, PartialEq, Eq, Hash)]
pub struct Form {
    /// The payload bytes of each chunk but the last. `None`: records are not chunked.
    pub chunk: Option<NonZeroU32>,
    /// Whether each payload length takes four bytes, even where one would do.
    pub long: bool,
    /// The limits within which what is written has to be a message. `None`: it is not checked, and readers may refuse it.
    pub limits: Option<Limits>,
}

/// The shortest spelling, checked within the default limits.
impl Default for Form {
    fn default() -> Self {
        Self { chunk: None, long: false, limits: Some(Limits::new()) }
    }
}

impl Form {
    /// Looks whether a message that was written is one within the limits.
    pub(crate) fn check(self, message: &[u8]) -> Result<(), EncodeError> {
        let Some(Err(refusal)) = self.limits.map(|limits| check(message, &limits)) else { return Ok(()) };
        let mut records = Records::within(message, Within::Opaque, Profile::Standard).enumerate();
        let is_there =
            |(_, record): &(usize, Record<'_>)| refusal.at < (record.place() + record.as_bytes().len()) as u64;
        let (record, begun) = records.find(is_there).map_or((0, 0), |(index, record)| (index, record.place() as u64));
        Err(EncodeError::Refused { record, refusal: Refusal { at: refusal.at - begun, ..refusal } })
    }
}

/// Where in its message a record is written.
#[derive(Clone, Copy, Debug, PartialEq, Eq, Hash)]
pub enum Position {
    /// It is the only record.
    Only,
    /// It is the first one, and others follow.
    First,
    /// It is neither the first nor the last one.
    Middle,
    /// It is the last one, and others are before it.
    Last,
}

impl Position {
    /// That of the record with an index, out of `count` records.
    fn of((index, count): (usize, usize)) -> Self {
        match (index == 0, index + 1 == count) {
            (true, true) => Self::Only,
            (true, false) => Self::First,
            (false, false) => Self::Middle,
            (false, true) => Self::Last,
        }
    }

    /// Whether the record is the first one, and the last one.
    fn ends(self) -> (bool, bool) {
        match self {
            Self::Only => (true, true),
            Self::First => (true, false),
            Self::Middle => (false, false),
            Self::Last => (false, true),
        }
    }
}

/// A record to be written. Whether there is such a record is checked when it is written.
///
/// Its type, its id and its payload are [`Bytes`]: a slice or a string is borrowed, and a `Vec` or a `String` becomes a
/// part of the record.
///
/// ```
/// use simbegyor_ndef::NewRecord;
///
/// fn lines(lines: &[&str]) -> NewRecord<'static> {
///     NewRecord::media("text/plain", lines.join("\n")).with_id("lines")
/// }
/// assert_eq!(lines(&["a", "b"]).payload(), b"a\nb");
/// ```
#[derive(Clone, Debug, PartialEq, Eq, Hash)]
#[must_use]
pub struct NewRecord<'a> {
    tnf: Tnf,
    kind: Bytes<'a>,
    id: Bytes<'a>,
    payload: Bytes<'a>,
}

impl<'a> NewRecord<'a> {
    /// A record with a type, at most 255 bytes, and a payload.
    pub fn new(tnf: Tnf, kind: impl Into<Bytes<'a>>, payload: impl Into<Bytes<'a>>) -> Self {
        Self { tnf, kind: kind.into(), id: Bytes::default(), payload: payload.into() }
    }

    /// An empty record.
    pub fn empty() -> Self {
        Self::new(Tnf::Empty, b"", b"")
    }

    /// A record without a type.
    pub fn unknown(payload: impl Into<Bytes<'a>>) -> Self {
        Self::new(Tnf::Unknown, b"", payload)
    }

    /// A record with a media type, as `text/plain`.
    pub fn media(kind: impl Into<Bytes<'a>>, payload: impl Into<Bytes<'a>>) -> Self {
        Self::new(Tnf::Media, kind, payload)
    }

    /// A record with an external type, as `example.com:x`.
    pub fn external(kind: impl Into<Bytes<'a>>, payload: impl Into<Bytes<'a>>) -> Self {
        Self::new(Tnf::External, kind, payload)
    }

    /// The same record with an id, at most 255 bytes. One with the empty id has none.
    pub fn with_id(mut self, id: impl Into<Bytes<'a>>) -> Self {
        self.id = id.into();
        self
    }

    /// Its type name format: what its type is.
    #[must_use]
    pub fn tnf(&self) -> Tnf {
        self.tnf
    }

    /// Its type.
    #[must_use]
    pub fn kind(&self) -> &[u8] {
        &self.kind
    }

    /// Its id. It is empty if the record has none.
    #[must_use]
    pub fn id(&self) -> &[u8] {
        &self.id
    }

    /// Its payload.
    #[must_use]
    pub fn payload(&self) -> &[u8] {
        &self.payload
    }

    /// Its payload, of which it keeps nothing.
    #[cfg(feature = "std")]
    pub(crate) fn take_payload(&mut self) -> Bytes<'a> {
        core::mem::take(&mut self.payload)
    }

    /// The same record, which borrows nothing.
    #[cfg(feature = "alloc")]
    pub fn into_owned(self) -> NewRecord<'static> {
        NewRecord {
            tnf: self.tnf,
            kind: self.kind.into_owned(),
            id: self.id.into_owned(),
            payload: self.payload.into_owned(),
        }
    }

    /// More bytes than most spellings of it have.
    #[cfg(feature = "alloc")]
    pub(crate) fn usual_size(&self) -> usize {
        16 + self.kind.len() + self.id.len() + self.payload.len()
    }

    /// Begins to write it as the record with an index, out of `count` records. `None`: there is no such record.
    pub(crate) fn begin(&self, form: Form, place: (usize, usize)) -> Option<RecordEncoder> {
        RecordEncoder::new(self.plan(form, Position::of(place), self.payload.len()))
    }

    /// Writes its next bytes, as many as there are and fit, and answers how many they are.
    pub(crate) fn step(&self, encoder: &mut RecordEncoder, buffer: &mut [u8]) -> usize {
        let part = &self.payload[encoder.taken()..];
        promised(encoder.next(&self.kind, &self.id, part, buffer))
    }

    /// How it is written at a place, where its whole payload has this many bytes.
    pub(crate) fn plan(&self, form: Form, position: Position, payload_length: usize) -> RecordPlan {
        let (first, last) = position.ends();
        RecordPlan {
            tnf: self.tnf.proved(),
            kind_length: self.kind.len(),
            id_length: self.id.len(),
            payload_length,
            first,
            last,
            form: if form.long { ndef_message::Form::Long } else { ndef_message::Form::Short },
            size: form.chunk.map(NonZeroU32::get),
        }
    }
}

/// A record that was read, to be written.
#[cfg(feature = "alloc")]
impl<'a> From<Record<'a>> for NewRecord<'a> {
    fn from(record: Record<'a>) -> Self {
        Self::new(record.tnf(), record.kind(), record.payload_cow()).with_id(record.id())
    }
}

/// Writes the message of these records to the buffer, and answers how many bytes it has.
///
/// # Errors
///
/// [`EncodeError::NoRecord`], [`EncodeError::Record`], or [`EncodeError::Refused`] by the limits of the form.
/// [`EncodeError::BufferTooSmall`] has the size that the whole message needs. After an error the buffer may hold some of the
/// records.
///
/// ```
/// use simbegyor_ndef::{encode, Encoding, Form, Text};
///
/// let (mut payload, mut buffer) = ([0; 32], [0; 64]);
/// let text = Text::new_in("en", "Hello", Encoding::Utf8, &mut payload)?;
/// let length = encode(&[text.into()], Form::default(), &mut buffer)?;
/// assert_eq!(&buffer[..length], b"\xD1\x01\x08T\x02enHello");
/// # Ok::<(), simbegyor_ndef::EncodeError>(())
/// ```
pub fn encode(records: &[NewRecord<'_>], form: Form, buffer: &mut [u8]) -> Result<usize, EncodeError> {
    if records.is_empty() {
        return Err(EncodeError::NoRecord);
    }
    let (mut length, mut needed) = (0, 0usize);
    for (index, record) in records.iter().enumerate() {
        let mut encoder = record.begin(form, (index, records.len())).ok_or(EncodeError::Record(index))?;
        length += record.step(&mut encoder, &mut buffer[length..]);
        needed = needed.saturating_add(rest_of(record, &mut encoder));
    }
    if needed > 0 {
        return Err(EncodeError::BufferTooSmall(length.saturating_add(needed)));
    }
    form.check(&buffer[..length])?;
    Ok(length)
}

/// How many bytes of a record are not written yet.
fn rest_of(record: &NewRecord<'_>, encoder: &mut RecordEncoder) -> usize {
    let (mut buffer, mut count) = ([0; 64], 0usize);
    while !encoder.is_whole() {
        count = count.saturating_add(record.step(encoder, &mut buffer));
    }
    count
}
