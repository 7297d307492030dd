// Written by ports/erase of crates/ndef_message/src/stepping.rt, which has the contracts: do not edit.
//! Writes a record in steps.

use crate::proved::ndef_message::heads::{first_head, later_head, Standing};
use crate::proved::ndef_message::plan::{Progress, RecordPlan};
use crate::proved::ndef_piece::{write_head, Head};
use crate::proved::ndef_value::Tnf;

/// A chunk of a record.
#[derive(Clone, Copy)]
struct Chunk {
    /// The byte of the payload with which it begins.
    begin: usize,
    /// Its bytes of the payload.
    length: usize,
    /// It is the last of its record.
    ends: bool,
}

/// The result of a step.
#[derive(Clone, Copy)]
pub(crate) struct Stepped {
    /// The progress in the record after the step.
    pub(crate) progress: Progress,
    /// The bytes that went out.
    pub(crate) count: usize,
}

/// The chunk that is begun.
fn chunk_at(plan: &RecordPlan, taken: usize) -> Chunk {
    let size = plan.size.unwrap_or(u32::MAX) as usize;
    let begin = taken - taken % size;
    let left = plan.payload_length - begin;
    Chunk { begin, length: left.min(size), ends: left <= size }
}

/// The head of a chunk.
fn head_of(plan: &RecordPlan, chunk: Chunk) -> Head {
    if chunk.begin == 0 {
        let standing = Standing { first: plan.first, last: plan.last, alone: chunk.ends };
        first_head(plan.tnf, plan.kind_length, plan.id_length, chunk.length, standing, plan.form)
    } else {
        later_head(plan.last, chunk.ends, plan.form, chunk.length)
    }
}

/// Puts as many of the bytes at a place of the buffer as fit, and returns their number.
fn put(bytes: &[u8], buffer: &mut [u8], at: usize) -> usize {
    let count = bytes.len().min(buffer.len() - at);
    buffer[at..at + count].copy_from_slice(&bytes[..count]);
    count
}

/// Returns the rest of some bytes, of which the first `out` are written.
pub(crate) fn rest_of(bytes: &[u8], out: usize) -> &[u8] {
    &bytes[out.min(bytes.len())..]
}

/// Puts the rest of a head, a type and an id, as far as it fits.
fn put_front(head: &[u8], kind: &[u8], id: &[u8], out: usize, buffer: &mut [u8], at: usize) -> usize {
    let of_head = put(rest_of(head, out), buffer, at);
    let after_head = out.saturating_sub(head.len());
    let of_kind = put(rest_of(kind, after_head), buffer, at + of_head);
    let after_kind = after_head.saturating_sub(kind.len());
    let of_id = put(rest_of(id, after_kind), buffer, at + of_head + of_kind);
    of_head + of_kind + of_id
}

/// Puts the rest of the head, type and id of a chunk, as far as it fits. `out` of their bytes are out.
fn put_chunk_front(
    plan: &RecordPlan,
    chunk: Chunk,
    kind: &[u8],
    id: &[u8],
    out: usize,
    buffer: &mut [u8],
    at: usize,
) -> usize {
    let mut octets = [0; 7];
    let count = write_head(&head_of(plan, chunk), &mut octets);
    if chunk.begin == 0 {
        put_front(&octets[..count], kind, id, out, buffer, at)
    } else {
        put_front(&octets[..count], &[], &[], out, buffer, at)
    }
}

/// Returns the progress in a record after this many bytes of a chunk's front and of its payload.
fn advanced(chunk: Chunk, progress: Progress, of_front: usize, of_part: usize) -> Progress {
    let taken = progress.taken + of_part;
    let ends = of_part > 0 && taken == chunk.begin + chunk.length;
    Progress { taken, head: if ends { 0 } else { progress.head + of_front } }
}

/// Writes the rest of the chunk that is begun, as far as it fits and the part has it.
fn step(
    plan: &RecordPlan,
    progress: Progress,
    kind: &[u8],
    id: &[u8],
    part: &[u8],
    buffer: &mut [u8],
    at: usize,
) -> Stepped {
    let chunk = chunk_at(plan, progress.taken);
    let of_front = put_chunk_front(plan, chunk, kind, id, progress.head, buffer, at);
    let there = chunk.begin + chunk.length - progress.taken;
    let of_part = put(&part[..part.len().min(there)], buffer, at + of_front);
    Stepped { progress: advanced(chunk, progress, of_front, of_part), count: of_front + of_part }
}

/// Whether a payload that has a byte is written.
fn is_over(plan: &RecordPlan, progress: Progress) -> bool {
    plan.payload_length > 0 && progress.taken == plan.payload_length
}

/// Writes the next bytes of a record from a place of the buffer on, as many as there are and fit.
pub(crate) fn fill(
    plan: &RecordPlan,
    progress: Progress,
    kind: &[u8],
    id: &[u8],
    part: &[u8],
    buffer: &mut [u8],
    at: usize,
) -> Stepped {
    let mut reached = progress;
    let mut end = at;
    'steps: while end < buffer.len() && !is_over(plan, reached) {
        let rest = rest_of(part, reached.taken - progress.taken);
        let next = step(plan, reached, kind, id, rest, buffer, end);
        if next.count == 0 {
            break 'steps;
        }
        reached = next.progress;
        end += next.count;
    }
    Stepped { progress: reached, count: end - at }
}

/// Whether a record has such a plan: its lengths go with the type name format, and a head can say them.
pub(crate) fn can_be_written(plan: &RecordPlan) -> bool {
    let goes = match plan.tnf {
        Tnf::Empty => plan.kind_length == 0 && plan.id_length == 0 && plan.payload_length == 0,
        Tnf::WellKnown | Tnf::Media | Tnf::AbsoluteUri | Tnf::External => plan.kind_length > 0,
        Tnf::Unknown => plan.kind_length == 0,
        Tnf::Unchanged => false,
    };
    goes && plan.kind_length <= 255 && plan.id_length <= 255 && plan.payload_length <= u32::MAX as usize
}

/// The bytes of a chunk before its payload.
fn front_length(plan: &RecordPlan, chunk: Chunk) -> usize {
    let count = write_head(&head_of(plan, chunk), &mut [0; 7]);
    if chunk.begin == 0 {
        count + plan.kind_length + plan.id_length
    } else {
        count
    }
}

/// Whether writing in steps leaves this much of the record.
pub(crate) fn is_progress(plan: &RecordPlan, progress: Progress) -> bool {
    if progress.taken > plan.payload_length {
        return false;
    }
    if is_over(plan, progress) {
        return progress.head == 0;
    }
    let chunk = chunk_at(plan, progress.taken);
    let front = front_length(plan, chunk);
    if progress.taken == chunk.begin {
        progress.head <= front
    } else {
        progress.head == front
    }
}

/// Whether the whole record is written.
pub(crate) fn is_whole(plan: &RecordPlan, progress: Progress) -> bool {
    if plan.payload_length > 0 {
        progress.taken == plan.payload_length
    } else {
        progress.head == front_length(plan, chunk_at(plan, 0))
    }
}
