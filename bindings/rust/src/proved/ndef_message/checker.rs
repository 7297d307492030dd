// Written by ports/erase of crates/ndef_message/src/checker.rt, which has the contracts: do not edit.
//! The checker of a message: whole records and pieces, and else bytes of one field, one after another.

use crate::proved::ndef_lang::{RecordLanguage, TypeName};
use crate::proved::ndef_message::accepted::Passed;
use crate::proved::ndef_message::phase::{Phase, Place};
use crate::proved::ndef_message::state::State;
use crate::proved::ndef_message::Fed;
use crate::proved::ndef_piece::{HeadReader, WholePiece};
use crate::proved::ndef_value::{Limits, Reason, Refusal, Tnf};

/// Checks one message in memory of fixed size.
#[derive(Clone, Debug)]
pub struct Checker<L: RecordLanguage> {
    pub(crate) limits: Limits,
    pub(crate) state: State<L>,
    pub(crate) taken: u64,
}

impl<L: RecordLanguage> Checker<L> {
    /// Returns a checker before a message.
    pub fn new(limits: Limits) -> Self {
        Checker::start(limits)
    }

    /// Takes the next bytes of the message, up to its last one or the first that is refused. After
    /// the last byte it takes none, and after a refusal it repeats that refusal.
    pub fn feed(&mut self, bytes: &[u8]) -> Fed {
        self.feed_bytes(bytes)
    }

    /// Returns the refusal of the input, if it ends here, or `Ok` if it begins with a message.
    pub fn end(&self) -> Result<(), Refusal> {
        self.judge_end()
    }

    /// The records that have ended; after a refusal, before the refused byte.
    pub fn records(&self) -> u32 {
        self.ended_records()
    }

    /// The bytes that were taken; after a refusal, those before the refused one. They are at most as
    /// many as a message within the limits can have.
    pub fn place(&self) -> u64 {
        self.accepted_bytes()
    }
}

/// The same functions, in terms of the bytes that the checker took, the records that they end and the point after them.
impl<L: RecordLanguage> Checker<L> {
    /// Returns a checker before the first byte.
    pub(crate) fn start(limits: Limits) -> Self {
        let place = Place::start(&limits);
        Checker {
            limits,
            state: State {
                place,
                reader: HeadReader::new(place.spot(limits.profile())),
                payload: L::start(Tnf::Unknown, &[], limits.records(), limits.profile()),
                phase: Phase::Head,
                name: TypeName::new(),
            },
            taken: 0,
        }
    }

    /// Returns a checker after the records with which the input begins.
    pub(crate) fn after_records(limits: Limits, input: &[u8], passed: Passed) -> Self {
        let mut checker = Checker::<L>::start(limits);
        if passed.taken == 0 {
            return checker;
        }
        checker.state.advance_past(&limits, passed.place, false);
        checker.taken = passed.taken as u64;
        checker
    }

    /// Takes bytes up to the last one of the message or the first that is refused.
    pub(crate) fn feed_bytes(&mut self, bytes: &[u8]) -> Fed {
        if bytes.len() == 1 {
            return self.feed_octet(bytes);
        }
        self.feed_tried(bytes, false)
    }

    /// The same for one byte, with which no whole record or piece comes.
    fn feed_octet(&mut self, bytes: &[u8]) -> Fed {
        if let Some(answer) = self.answer(0) {
            return answer;
        }
        let count = self.step(bytes);
        match self.answer(count) {
            Some(answer) => answer,
            None => Fed::More,
        }
    }

    /// The same. Where `tried` is set, the fast test has just failed on the record at the front of the bytes, and isn't
    /// tried on it again.
    pub(crate) fn feed_tried(&mut self, bytes: &[u8], tried: bool) -> Fed {
        let mut tried = tried;
        let mut at = 0;
        while at < bytes.len() {
            if let Some(answer) = self.answer(at) {
                return answer;
            }
            let (count, failed) = self.advance(&bytes[at..], tried);
            at += count;
            tried = failed;
        }
        match self.answer(bytes.len()) {
            Some(answer) => answer,
            None => Fed::More,
        }
    }

    /// Returns the refusal of the bytes, if the input ends with them, or `Ok` if they are a message.
    pub(crate) fn judge_end(&self) -> Result<(), Refusal> {
        match self.state.phase {
            Phase::Done => Ok(()),
            Phase::Refused { refusal } => Err(refusal),
            _ => Err(Refusal { at: self.taken, reason: Reason::EndOfInput }),
        }
    }

    /// The records that they end.
    pub(crate) fn ended_records(&self) -> u32 {
        self.limits.records().saturating_sub(self.state.place.records)
    }

    /// The number of them that are accepted: all, or all but a refused one.
    pub(crate) fn accepted_bytes(&self) -> u64 {
        match self.state.phase {
            Phase::Refused { refusal } => refusal.at,
            _ => self.taken,
        }
    }

    /// Returns the answer that is known before another byte is seen.
    fn answer(&self, taken: usize) -> Option<Fed> {
        match self.state.phase {
            Phase::Done => Some(Fed::Done { taken }),
            Phase::Refused { refusal } => Some(Fed::Refused(refusal)),
            _ => None,
        }
    }

    /// Takes whole records or pieces where that can be done at once, unless it was tried on these bytes; returns their
    /// number of bytes.
    fn pass(&mut self, bytes: &[u8], tried: bool) -> usize {
        if tried {
            return 0;
        }
        let taken = self.state.take_pieces(&self.limits, bytes);
        self.taken += taken as u64;
        taken
    }

    /// Takes whole records or pieces where that can be done at once, else the next bytes of one field, up to the first
    /// that is refused. Returns the number taken, including a refused one, and whether the fast test failed on what
    /// comes after them. Where `tried` is set, it has failed on these bytes.
    fn advance(&mut self, bytes: &[u8], tried: bool) -> (usize, bool) {
        let taken = self.pass(bytes, tried);
        if taken > 0 {
            return (taken, true);
        }
        (self.step(bytes), false)
    }

    /// Continues after the record in one piece at the front of the bytes.
    pub(crate) fn pass_record(&mut self, bytes: &[u8], piece: &WholePiece<'_>) {
        let taken = bytes.len() - piece.rest.len();
        let place = self.state.place.after_record(&self.limits);
        self.state.advance_past(&self.limits, place, piece.is_last());
        self.taken += taken as u64;
    }

    /// Takes the next bytes of one field, up to the first that is refused. Returns the number taken, including a
    /// refused one. It isn't inlined, so that whole records are fast.
    #[inline(never)]
    pub(crate) fn step(&mut self, bytes: &[u8]) -> usize {
        let at = self.taken;
        let count = self.state.step(&self.limits, at, bytes);
        self.taken = at + count as u64;
        count
    }
}
