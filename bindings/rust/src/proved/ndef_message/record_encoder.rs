// Written by ports/erase of crates/ndef_message/src/record_encoder.rt, which has the contracts: do not edit.
//! A record that is encoded in steps.

use crate::proved::ndef_message::plan::{Progress, RecordPlan};
use crate::proved::ndef_message::stepping::{can_be_written, fill, is_progress, is_whole};

/// A record that is encoded in steps, into buffers and from parts of its payload of any sizes (NDEF 1.0, record layout
/// and chunked payloads): for a caller that doesn't have the whole payload, or no memory for the record. It takes no
/// memory. Contracts see the plan of the record and how much of it is written.
#[derive(Clone, Debug)]
pub struct RecordEncoder {
    plan: RecordPlan,
    progress: Progress,
}

/// A type, an id or a part of a payload that isn't of the record: the type or the id has another length than in the
/// plan, or the part is longer than the rest of the payload.
#[derive(Clone, Copy, Debug, PartialEq, Eq, Hash)]
pub struct OtherLength;

impl core::fmt::Display for OtherLength {
    fn fmt(&self, f: &mut core::fmt::Formatter<'_>) -> core::fmt::Result {
        match self {
            OtherLength => write!(f, "the type, the id or the payload has another length than was said"),
        }
    }
}

impl core::error::Error for OtherLength {}

impl RecordEncoder {
    /// Begins a record. `None` where no record has such a plan: a reader would refuse its head, since the lengths don't
    /// go with the type name format, or are more than a head can say.
    pub fn new(plan: RecordPlan) -> Option<RecordEncoder> {
        if !can_be_written(&plan) {
            return None;
        }
        let progress = Progress { taken: 0, head: 0 };
        Some(RecordEncoder { plan, progress })
    }

    /// Returns an encoder that continues a record at the `progress` of another encoder. `None` if `new` returns it for
    /// this plan, or if no encoder of the record has this progress.
    pub fn resume(plan: RecordPlan, progress: Progress) -> Option<RecordEncoder> {
        if !can_be_written(&plan) || !is_progress(&plan, progress) {
            return None;
        }
        Some(RecordEncoder { plan, progress })
    }

    /// The plan of the record.
    pub fn plan(&self) -> RecordPlan {
        self.plan
    }

    /// Returns the part of the record that is written: of a head, a type and an id at most 517 bytes.
    pub fn progress(&self) -> Progress {
        self.progress
    }

    /// The bytes of the payload that are written: the next call of `next` is given the payload from there on.
    pub fn taken(&self) -> usize {
        self.progress.taken
    }

    /// Whether the whole record is written.
    pub fn is_whole(&self) -> bool {
        is_whole(&self.plan, self.progress)
    }

    /// Writes the next bytes of the record to the front of the buffer, as many as there are and fit, and returns their
    /// number. `part` is the payload from byte `taken()` on, or as much of it as is at hand; `taken()` then returns how
    /// far it was taken. `OtherLength` if the type, the id or the part isn't of the record: nothing changes.
    pub fn next(&mut self, kind: &[u8], id: &[u8], part: &[u8], buffer: &mut [u8]) -> Result<usize, OtherLength> {
        let plan = self.plan;
        let left = plan.payload_length - self.progress.taken;
        if kind.len() != plan.kind_length || id.len() != plan.id_length || part.len() > left {
            return Err(OtherLength);
        }
        let next = fill(&plan, self.progress, kind, id, part, buffer, 0);
        self.progress = next.progress;
        Ok(next.count)
    }
}
