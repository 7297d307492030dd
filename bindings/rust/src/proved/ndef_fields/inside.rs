// Written by ports/erase of crates/ndef_fields/src/inside.rt, which has the contracts: do not edit.
//! The fields of a payload that are still to come.

use crate::proved::ndef_fields::stage::Stage;
use crate::proved::ndef_fields::FieldName;
use crate::proved::ndef_lang::Kind;
use crate::proved::ndef_piece::inner_of;

/// The fields of a payload that are still to come.
#[derive(Clone, Copy, Debug)]
pub(crate) struct Inside<'a> {
    /// The next field.
    pub stage: Stage,
    /// Its octets, and those after it.
    pub octets: &'a [u8],
}

/// The fields of a payload, before the message that it holds.
pub(crate) fn outer_inside(kind: Kind, payload: &[u8]) -> Inside<'_> {
    match kind.table() {
        Some(_) => Inside {
            stage: Stage::Whole(FieldName::Version),
            octets: payload.split_at(payload.len() - inner_of(kind, payload).len()).0,
        },
        None => Inside { stage: Stage::of(kind.outer()), octets: payload },
    }
}

/// The name of the next field of a payload, its number of octets, which may be 0, and the fields after it.
pub(crate) fn inside_step(inside: Inside<'_>) -> Option<(FieldName, usize, Inside<'_>)> {
    if let Stage::Done = inside.stage {
        return None;
    }
    let cut = inside.stage.cut(inside.octets);
    let length = cut.length.min(inside.octets.len());
    let (_, octets) = inside.octets.split_at(length);
    let rest = Inside { stage: cut.stage, octets };
    Some((cut.name, length, rest))
}
