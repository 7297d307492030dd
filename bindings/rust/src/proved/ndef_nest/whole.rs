// Written by ports/erase of crates/ndef_nest/src/whole.rt, which has the contracts: do not edit.
//! A whole record of a nested message that is half read, or as much of one as its head shows to fit.

use crate::proved::ndef_lang::{Kind, Language, Leaf};
use crate::proved::ndef_nest::context::Context;
use crate::proved::ndef_nest::demand::Demand;
use crate::proved::ndef_nest::phase::{after_record, headed, typed, NestPhase};
use crate::proved::ndef_nest::span::meets;
use crate::proved::ndef_piece::Head;

/// Returns the state after the head of a record and all that it announces, if the bytes begin with that and it is clear
/// at once that it may come: the demand, the position of the next octet, and the number of octets.
fn recorded(context: &Context, head: &Head, bytes: &[u8]) -> Option<(Demand, NestPhase, usize)> {
    let named = usize::from(head.kind_length);
    let before = named + usize::from(head.id_length.unwrap_or(0));
    let length = head.payload_length as usize;
    if bytes.len() < before || bytes.len() - before < length {
        return None;
    }
    let whole = before + length;
    let kind = context.table.checked(Kind::of(head.tnf, &bytes[..named]));
    if !context.demand.allows(kind) || !Leaf::has(kind, 1, context.profile, &bytes[before..whole]) {
        return None;
    }
    let demand = context.demand.after(kind);
    let next = Context { demand, ..*context };
    Some((demand, after_record(&next, head.last), whole))
}

/// Whether some `lo` to `hi` octets complete the message after a head, with no octet of the next one.
#[inline(always)]
fn fits_after(context: &Context, demand: Demand, phase: NestPhase, lo: u64, hi: u64) -> bool {
    let next = Context { demand, ..*context };
    meets(phase.span(&next), lo, hi)
}

/// Returns the state after the head of a record and as much of the record as the bytes begin with, if that is all or
/// its type, and it is clear at once that some `lo` to `hi` octets continue it: the demand, the position of the next
/// octet, and the number of octets.
pub(crate) fn after_head(
    context: &Context,
    head: &Head,
    bytes: &[u8],
    lo: u64,
    hi: u64,
) -> Option<(Demand, NestPhase, usize)> {
    if let Some((demand, phase, count)) = recorded(context, head, bytes) {
        let before = count as u64;
        if fits_after(context, demand, phase, lo - before, hi - before) {
            return Some((demand, phase, count));
        }
    }
    let named = usize::from(head.kind_length);
    if named <= bytes.len() {
        let (demand, phase) = typed(context, head, &bytes[..named]);
        let before = named as u64;
        if fits_after(context, demand, phase, lo - before, hi - before) {
            return Some((demand, phase, named));
        }
    }
    let (demand, phase) = headed(context, head);
    if fits_after(context, demand, phase, lo, hi) {
        Some((demand, phase, 0))
    } else {
        None
    }
}
