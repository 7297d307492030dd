//! The links of messages.
use crate::bytes::Bytes;
use crate::payload::check_payload;
use crate::proved::ndef_format::{Kind, Table};
use crate::proved::ndef_piece::inner_of;
use crate::record::Within;
use crate::{AlternativeCarrier, Message, Record, Refusal};
use core::fmt;
use core::iter::FusedIterator;

#[cfg(feature = "alloc")]
use alloc::vec::Vec;

/// A link of a message: an alternative carrier of its handover, and the record to which that refers.
#[derive(Clone, Debug)]
#[cfg_attr(feature = "alloc", derive(PartialEq, Eq, Hash))]
#[non_exhaustive]
pub struct Link<'a> {
    /// The alternative carrier.
    pub alternative: AlternativeCarrier<'a>,
    /// The first record whose id equals the carrier data reference. `None`: no record has that id, or the reference is
    /// empty.
    pub record: Option<Record<'a>>,
}

/// The links of a message, one after another.
#[derive(Clone)]
#[must_use = "an iterator does nothing unless it is used"]
pub struct Links<'a> {
    message: Message<'a>,
    /// The kind of the handover, and its whole payload.
    kind: Kind,
    handover: Bytes<'a>,
    /// Where the next record of the message in that payload begins, if there is one.
    next: Option<usize>,
    /// Where the first record with each id begins, by the ids. Without it each id is looked for in the message.
    #[cfg(feature = "alloc")]
    ids: Option<Vec<(&'a [u8], usize)>>,
}

impl<'a> Links<'a> {
    pub(crate) fn none(message: Message<'a>) -> Self {
        Self::new(message, Kind::Select, Bytes::default())
    }

    fn new(message: Message<'a>, kind: Kind, handover: Bytes<'a>) -> Self {
        let next = (!inner_of(kind, &handover).is_empty()).then_some(0);
        Self {
            message,
            kind,
            handover,
            next,
            #[cfg(feature = "alloc")]
            ids: None,
        }
    }

    /// The links of a message by its handover, whose whole payload is given.
    pub(crate) fn of(message: Message<'a>, handover: Record<'a>, payload: Bytes<'a>) -> Result<Self, Refusal> {
        let kind = handover.type_kind();
        if handover.checked_kind() != kind {
            check_payload(kind, message.profile(), &payload)?;
        }
        Ok(Self::new(message, kind, payload))
    }

    /// The same, with the offset of each id, so that the message is walked once for all of them.
    #[cfg(feature = "alloc")]
    pub(crate) fn with_ids(mut self) -> Self {
        let records = self.message.records().filter(|record| !record.id().is_empty());
        let mut ids: Vec<_> = records.map(|record| (record.id(), record.place())).collect();
        ids.sort_unstable();
        ids.dedup_by_key(|(id, _)| *id);
        self.ids = Some(ids);
        self
    }

    /// Where the payload of the next alternative carrier lies in the handover, and its length.
    fn next_carrier(&mut self) -> Option<(usize, usize)> {
        let (message, table) = (inner_of(self.kind, &self.handover), Table::of(self.kind));
        let before = self.handover.len() - message.len();
        loop {
            let record = Record::at(message, self.next?, Within::Payload(table), self.message.profile());
            self.next = (!record.is_last()).then_some(record.end());
            if record.checked_kind() == Kind::Alternative {
                let length = record.payload_len();
                return Some((before + record.end() - length, length));
            }
        }
    }

    /// The first record with an id. No record has the empty id.
    fn record_with_id(&self, id: &[u8]) -> Option<Record<'a>> {
        #[cfg(feature = "alloc")]
        if let Some(ids) = &self.ids {
            let index = ids.binary_search_by_key(&id, |(id, _)| *id).ok()?;
            return Some(self.message.record_at(ids[index].1));
        }
        self.message.record_with_id(id)
    }
}

impl<'a> Iterator for Links<'a> {
    type Item = Link<'a>;

    fn next(&mut self) -> Option<Link<'a>> {
        let (at, length) = self.next_carrier()?;
        let alternative = AlternativeCarrier::known(self.handover.part(at, length));
        let record = self.record_with_id(alternative.reference());
        Some(Link { alternative, record })
    }
}

impl FusedIterator for Links<'_> {}

impl fmt::Debug for Links<'_> {
    fn fmt(&self, to: &mut fmt::Formatter<'_>) -> fmt::Result {
        to.debug_list().entries(self.clone()).finish()
    }
}
