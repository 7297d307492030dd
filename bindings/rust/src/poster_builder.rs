//! Smart posters built of their records.
use crate::bytes::Bytes;
use crate::calls::{self, Unfilled};
use crate::payload::check_payload;
use crate::proved::ndef_format::Kind;
use crate::{promised, Action, EncodeError, MessageBuilder, NewRecord, Profile, SmartPoster, Text, Tnf, Uri};
use alloc::vec::Vec;

/// Builds a smart poster. The first error of the records is kept, and [`build`](Self::build) answers it.
#[derive(Clone, Debug)]
#[must_use]
pub struct SmartPosterBuilder<'a> {
    records: Result<MessageBuilder<'a>, EncodeError>,
}

impl<'a> SmartPosterBuilder<'a> {
    pub(crate) fn new(uri: &str) -> Self {
        Self { records: Uri::new(uri).map(|uri| MessageBuilder::new().unchecked().record(uri)) }
    }

    /// Adds a title in a language, whose code is ASCII of at most 63 bytes.
    pub fn title(mut self, language: &str, title: &str) -> Self {
        self.records = self.records.and_then(|records| Ok(records.record(Text::new(language, title)?)));
        self
    }

    /// Recommends what to do.
    pub fn action(self, action: Action) -> Self {
        self.written(b"act", |buffer| calls::write_action(action.number().into(), buffer))
    }

    /// Adds the size in bytes of what the URI leads to.
    pub fn size(self, bytes: u32) -> Self {
        self.written(b"s", |buffer| calls::write_size(bytes, buffer))
    }

    /// Adds the media type of what the URI leads to.
    pub fn media_type(self, kind: impl Into<Bytes<'a>>) -> Self {
        self.record(NewRecord::new(Tnf::WellKnown, b"t", kind))
    }

    /// Adds an icon of a media type, such as `image/png`. The standard asks for types that begin with "image/" or
    /// "video/", and the library does not look at that.
    pub fn icon(self, media_type: impl Into<Bytes<'a>>, data: impl Into<Bytes<'a>>) -> Self {
        self.record(NewRecord::media(media_type, data))
    }

    /// Adds any other record.
    pub fn record(mut self, record: impl Into<NewRecord<'a>>) -> Self {
        self.records = self.records.map(|records| records.record(record));
        self
    }

    fn written(self, kind: &'static [u8], write: impl FnOnce(&mut Vec<u8>) -> Result<usize, Unfilled>) -> Self {
        let mut payload = Vec::new();
        promised(write(&mut payload));
        self.record(NewRecord::new(Tnf::WellKnown, kind, Bytes::Owned(payload)))
    }

    /// The smart poster.
    ///
    /// # Errors
    ///
    /// The first error of a record: [`EncodeError::Uri`], [`EncodeError::Text`] or [`EncodeError::Record`].
    /// [`EncodeError::Poster`]: together they make no smart poster, as with a second URI.
    pub fn build(self) -> Result<SmartPoster<'static>, EncodeError> {
        let payload = self.records?.build()?;
        check_payload(Kind::SmartPoster, Profile::Strict, &payload).map_err(EncodeError::Poster)?;
        Ok(SmartPoster::known(Bytes::Owned(payload), Profile::Strict))
    }
}
