// Written by ports/erase of crates/ndef_nest/src/member.rt, which has the contracts: do not edit.
//! Whether whole payloads are nested messages. Only a true answer is conclusive.

use crate::proved::ndef_lang::{Language, Leaf};
use crate::proved::ndef_nest::context::Context;
use crate::proved::ndef_nest::demand::Demand;
use crate::proved::ndef_nest::Table;
use crate::proved::ndef_piece::whole_piece;
use crate::proved::ndef_value::Profile;

/// Returns the state after the record at the front of the bytes, if it is clear at once that it may occur there: the
/// demand, whether the message ends there, and the bytes.
fn after_record(context: Context, first: bool, bytes: &[u8]) -> Option<(Demand, bool, &[u8])> {
    let piece = whole_piece(bytes)?;
    if !piece.is_record_at(&context.spot(first)) {
        return None;
    }
    let kind = context.table.kind(piece.tnf(), piece.kind);
    if !context.demand.allows(kind) || !Leaf::has(kind, context.records, context.profile, piece.payload) {
        return None;
    }
    Some((context.demand.after(kind), piece.is_last(), piece.rest))
}

/// Whether they are a message of at most `records` records, each in one piece.
fn are_records(table: Table, records: u32, profile: Profile, bytes: &[u8]) -> bool {
    let mut demand = Demand::first(table);
    let mut first = true;
    let mut rest = bytes;
    let mut left = records;
    while left > 0 {
        let context = Context { profile, table, demand, records: left };
        let Some((asked, last, following)) = after_record(context, first, rest) else {
            return false;
        };
        if last {
            return asked.is_met() && following.is_empty();
        }
        demand = asked;
        first = false;
        rest = following;
        left -= 1;
    }
    false
}

/// Whether the payload is a nested message (RTD Smart Poster 1.0, Connection Handover 1.2).
#[inline(never)]
pub(crate) fn is_nested(table: Table, records: u32, profile: Profile, payload: &[u8]) -> bool {
    if let Table::SmartPoster = table {
        return are_records(table, records, profile, payload);
    }
    let [version, rest @ ..] = payload else {
        return false;
    };
    if *version < 0x10 || *version >= 0x20 {
        return false;
    }
    if let Table::Select = table {
        if rest.is_empty() {
            return true;
        }
    }
    are_records(table, records, profile, rest)
}
