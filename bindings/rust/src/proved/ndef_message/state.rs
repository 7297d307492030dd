// Written by ports/erase of crates/ndef_message/src/state.rt, which has the contracts: do not edit.
//! Whole records of a message, and bytes of one field of it.

use crate::proved::ndef_lang::{RecordLanguage, TypeName};
use crate::proved::ndef_message::accepted::{accepted_chunks, accepted_records, whole_record};
use crate::proved::ndef_message::phase::{greatest, phase_after, Phase, Place};
use crate::proved::ndef_piece::{Head, HeadReader, Step, WholePiece};
use crate::proved::ndef_value::{Limits, Reason, Refusal};

/// The state of a checker.
#[derive(Clone, Debug)]
pub(crate) struct State<L: RecordLanguage> {
    pub(crate) place: Place,
    pub(crate) reader: HeadReader,
    pub(crate) payload: L,
    pub(crate) phase: Phase,
    /// The octets of TYPE that have come, while it comes.
    pub(crate) name: TypeName,
}

impl<L: RecordLanguage> State<L> {
    /// Whether a record may begin here, and no octet of it has come.
    fn is_fresh(&self) -> bool {
        matches!(self.phase, Phase::Head) && self.reader.is_fresh() && !self.place.inside
    }

    /// Continues after whole records, where another may begin or the message ends.
    pub(crate) fn advance_past(&mut self, limits: &Limits, place: Place, last: bool) {
        self.place = place;
        if last {
            self.phase = Phase::Done;
            return;
        }
        self.reader = HeadReader::new(place.spot(limits.profile()));
        self.phase = Phase::Head;
    }

    /// Takes as many whole records at the front of the bytes as the fast test finds right, where one may begin; returns
    /// their number of bytes.
    fn take_records(&mut self, limits: &Limits, bytes: &[u8]) -> usize {
        if !self.is_fresh() {
            return 0;
        }
        let (taken, place, last) = accepted_records::<L>(limits, self.place, bytes);
        if taken > 0 {
            self.advance_past(limits, place, last);
        }
        taken
    }

    /// Whether a piece of an open run may begin here, no octet of it has come, and any octets complete
    /// the payload.
    fn is_at_chunk(&self) -> bool {
        matches!(self.phase, Phase::Head) && self.place.inside && self.reader.is_fresh() && self.payload.is_open()
    }

    /// Continues after pieces of an open run, where another begins.
    fn advance_past_chunks(&mut self, limits: &Limits, place: Place) {
        self.place = place;
        self.reader = HeadReader::new(place.spot(limits.profile()));
    }

    /// Takes as many whole pieces at the front of the bytes as continue an open run, each with another after it, where
    /// any octets complete its payload; returns their number of bytes.
    #[inline(never)]
    fn take_chunks(&mut self, limits: &Limits, bytes: &[u8]) -> usize {
        if !self.is_at_chunk() {
            return 0;
        }
        let (taken, place) = accepted_chunks(limits, self.place, bytes);
        if taken > 0 {
            self.advance_past_chunks(limits, place);
        }
        taken
    }

    /// Takes whole records at the front of the bytes where one may begin, and pieces of an open run where one of them
    /// may, as many as the fast test finds right; returns their number of bytes.
    pub(crate) fn take_pieces(&mut self, limits: &Limits, bytes: &[u8]) -> usize {
        if self.place.inside {
            return self.take_chunks(limits, bytes);
        }
        self.take_records(limits, bytes)
    }

    /// The record in one piece at the front of the bytes, where one may begin and the fast test finds it right.
    pub(crate) fn whole_record<'a>(&self, limits: &Limits, bytes: &'a [u8]) -> Option<WholePiece<'a>> {
        if !self.is_fresh() {
            return None;
        }
        whole_record::<L>(limits, &self.place, bytes)
    }

    /// Takes the next bytes of one field, after `at` others, up to the first that is refused;
    /// returns the number taken, including a refused one.
    pub(crate) fn step(&mut self, limits: &Limits, at: u64, bytes: &[u8]) -> usize {
        match self.phase {
            Phase::Head => match self.take_head(limits, bytes) {
                Some(count) => count,
                None => {
                    self.in_head(limits, at, bytes[0]);
                    1
                }
            },
            Phase::Type { head, left } => {
                let most = bytes.len().min(usize::from(left));
                self.in_type(limits, at, head, left, &bytes[..most])
            }
            Phase::Id { head, left } => {
                let most = bytes.len().min(usize::from(left));
                self.in_id(limits, head, left, &bytes[..most])
            }
            Phase::Payload { head, left } => {
                let most = bytes.len().min(left as usize);
                self.in_payload(limits, at, head, left, &bytes[..most])
            }
            Phase::Done | Phase::Refused { .. } => 1,
        }
    }

    /// Takes the head of a piece at once, if none of it has come, the bytes show that it is whole and may occur here,
    /// and the payload can be completed after it; returns its number of octets. Else nothing changes.
    fn take_head(&mut self, limits: &Limits, bytes: &[u8]) -> Option<usize> {
        let (head, count) = self.reader.whole_head(bytes)?;
        if !self.place.inside {
            self.begin_record(limits, head);
            return Some(count);
        }
        let left = head.payload_length;
        let most = self.place.most_left(&head, left);
        if !self.payload.fits(u64::from(left), most) {
            return None;
        }
        self.advance_field(limits, head, 0, left);
        Some(count)
    }

    /// Takes an octet of the head of a piece.
    fn in_head(&mut self, limits: &Limits, at: u64, byte: u8) {
        match self.reader.step(byte) {
            Step::More => {
                if !self.head_goes_on() {
                    self.phase = Phase::Refused { refusal: Refusal { at, reason: Reason::DoesNotFit } };
                }
            }
            Step::Head(head) => self.after_head(limits, at, head),
            Step::Refused(reason) => self.phase = Phase::Refused { refusal: Refusal { at, reason } },
        }
    }

    /// Whether the payload of an open run can be completed by a piece whose head continues so.
    fn head_goes_on(&self) -> bool {
        if !self.place.inside {
            return true;
        }
        match self.reader.bounds() {
            Some(bounds) => self.payload.fits(bounds.payload.0, greatest(&bounds, self.place.room)),
            None => false,
        }
    }

    /// Continues after a whole head.
    fn after_head(&mut self, limits: &Limits, at: u64, head: Head) {
        if self.place.inside {
            self.start_body(limits, at, head, 0, head.payload_length);
        } else {
            self.begin_record(limits, head);
        }
    }

    /// Continues after the whole head of a record's first piece, after which any payload can be completed.
    fn begin_record(&mut self, limits: &Limits, head: Head) {
        if head.kind_length > 0 {
            self.name.clear();
            self.phase = Phase::Type { head, left: head.kind_length };
            return;
        }
        self.payload = L::start(head.tnf, &[], limits.records(), limits.profile());
        let id_left = head.id_length.unwrap_or(0);
        self.advance_field(limits, head, id_left, head.payload_length);
    }

    /// Takes octets of PAYLOAD, no more than the piece still has, up to the first that is refused;
    /// returns the number taken, including a refused one.
    fn in_payload(&mut self, limits: &Limits, at: u64, head: Head, left: u32, bytes: &[u8]) -> usize {
        let most = self.place.most_left(&head, left);
        let count = self.payload.step_all(bytes, u64::from(left), most);
        if count < bytes.len() {
            self.phase = Phase::Refused { refusal: Refusal { at: at + count as u64, reason: self.payload.reason() } };
            return count + 1;
        }
        self.advance_field(limits, head, 0, left - count as u32);
        count
    }

    /// Takes octets of ID, no more than the piece still has: all of them.
    fn in_id(&mut self, limits: &Limits, head: Head, left: u8, bytes: &[u8]) -> usize {
        let count = bytes.len();
        self.advance_field(limits, head, left - count as u8, head.payload_length);
        count
    }

    /// Takes octets of TYPE, no more than the piece still has: all of them, the last of which may be refused.
    fn in_type(&mut self, limits: &Limits, at: u64, head: Head, left: u8, bytes: &[u8]) -> usize {
        let count = bytes.len();
        self.name.push_all(bytes);
        if count < usize::from(left) {
            self.phase = Phase::Type { head, left: left - count as u8 };
            return count;
        }
        self.payload = L::start(head.tnf, self.name.octets(), limits.records(), limits.profile());
        let last = at + (count - 1) as u64;
        let id_left = head.id_length.unwrap_or(0);
        self.start_body(limits, last, head, id_left, head.payload_length);
        count
    }

    /// Continues where `id_left` octets of the id and `left` of the payload of a piece are left, if
    /// these can complete the payload; else the octet at `at`, the last one, doesn't fit.
    fn start_body(&mut self, limits: &Limits, at: u64, head: Head, id_left: u8, left: u32) {
        if self.payload.fits(u64::from(left), self.place.most_left(&head, left)) {
            self.advance_field(limits, head, id_left, left);
        } else {
            self.phase = Phase::Refused { refusal: Refusal { at, reason: Reason::DoesNotFit } };
        }
    }

    /// Continues where `id_left` octets of the id and `left` of the payload of a piece are left.
    fn advance_field(&mut self, limits: &Limits, head: Head, id_left: u8, left: u32) {
        if id_left > 0 {
            self.phase = Phase::Id { head, left: id_left };
            return;
        }
        if left > 0 {
            self.phase = Phase::Payload { head, left };
            return;
        }
        self.place = self.place.after(limits, &head);
        self.reader = HeadReader::new(self.place.spot(limits.profile()));
        self.phase = phase_after(&head);
    }
}
