// Written by ports/erase of crates/ndef_fields/src/stage.rt, which has the contracts: do not edit.
//! The fields of payloads: the octets before a field determine it, by the layout that the languages of payloads read.

use crate::proved::ndef_fields::FieldName;
use crate::proved::ndef_lang::{Kind, Leaf, Stage as Layout};
use crate::proved::ndef_value::Profile;

/// The next field of a payload.
#[derive(Clone, Copy, Debug)]
pub(crate) enum Stage {
    /// None.
    Done,
    /// A field that goes to the end.
    Whole(FieldName),
    /// The byte order mark of a text in UTF-16, if it has one.
    Mark,
    /// A field of `left` octets, and then those of the layout, of which the last goes to the end.
    Inside { left: u32, name: FieldName, next: Layout, last: FieldName },
}

/// The next field of a payload, the octets that it has where they have come, and the field after
/// it.
#[derive(Clone, Copy)]
pub(crate) struct Cut {
    pub name: FieldName,
    pub length: usize,
    pub stage: Stage,
}

/// The names of the one octet with which a stage of the layout begins, of the field whose length it gives, and of the
/// field that goes to the end.
#[derive(Clone, Copy)]
pub(crate) struct NamesAt {
    pub first: FieldName,
    pub counted: FieldName,
    pub last: FieldName,
}

/// The first octet; 0 where there is none.
fn first(octets: &[u8]) -> u8 {
    match octets {
        [octet, ..] => *octet,
        _ => 0,
    }
}

/// The number of octets of the byte order mark: 2, or 0 where there is none.
fn mark_length(octets: &[u8]) -> usize {
    match octets {
        [0xfe, 0xff, ..] | [0xff, 0xfe, ..] => 2,
        _ => 0,
    }
}

/// The names at a stage of the layout.
fn names_at(next: Layout) -> NamesAt {
    let (first, counted, last) = match next {
        Layout::Status => (FieldName::Status, FieldName::Language, FieldName::Text),
        Layout::UriCode(_) => (FieldName::UriCode, FieldName::UriRest, FieldName::UriRest),
        Layout::ErrorReason => (FieldName::ErrorReason, FieldName::ErrorData, FieldName::ErrorData),
        Layout::CarrierKindLength => (FieldName::CarrierKindLength, FieldName::CarrierKind, FieldName::CarrierData),
        Layout::ReferenceLength => (FieldName::ReferenceLength, FieldName::Reference, FieldName::AfterAuxiliary),
        Layout::AuxiliaryCount => (FieldName::AuxiliaryCount, FieldName::Auxiliary, FieldName::AfterAuxiliary),
        Layout::References(_) => (FieldName::AuxiliaryLength, FieldName::Auxiliary, FieldName::AfterAuxiliary),
        Layout::End | Layout::Any | Layout::Utf8 | Layout::Utf16 => {
            (FieldName::Payload, FieldName::Payload, FieldName::Payload)
        }
    };
    NamesAt { first, counted, last }
}

/// The field that goes to the end of a payload of the kind, where none comes before it.
fn last_of(kind: Kind) -> FieldName {
    match kind {
        Kind::Action => FieldName::Action,
        Kind::Size => FieldName::Size,
        Kind::MediaType => FieldName::MediaType,
        Kind::Collision => FieldName::Collision,
        _ => FieldName::Payload,
    }
}

/// The first field of a payload of the kind, where it has a length of its own.
fn first_of(kind: Kind) -> FieldName {
    match kind {
        Kind::Carrier => FieldName::CarrierFormat,
        Kind::Alternative => FieldName::Power,
        _ => FieldName::Payload,
    }
}

/// A field, its number of octets, and the field after it.
fn cut_is(name: FieldName, length: usize, stage: Stage) -> Cut {
    Cut { name, length, stage }
}

/// The fields of a payload that are left.
fn inside(leaf: Leaf, name: FieldName, last: FieldName) -> Stage {
    match leaf {
        Leaf::Field { left, next, .. } => Stage::Inside { left, name, next, last },
        _ => Stage::Whole(last),
    }
}

/// Splits off the first octet of a stage of the layout, with the field that it announces.
fn cut_octet(next: Layout, octets: &[u8]) -> Cut {
    let names = names_at(next);
    let stage = inside(next.field_after(first(octets)), names.counted, names.last);
    cut_is(names.first, 1, stage)
}

/// The next field at a stage of the layout.
fn cut_at(_name: FieldName, next: Layout, last: FieldName, octets: &[u8]) -> Cut {
    match next {
        Layout::End | Layout::Any | Layout::Utf8 => cut_is(last, octets.len(), Stage::Done),
        Layout::Utf16 => cut_is(FieldName::Mark, mark_length(octets), Stage::Whole(FieldName::Text)),
        Layout::References(count) => {
            if count == 0 {
                cut_is(FieldName::AfterAuxiliary, octets.len(), Stage::Done)
            } else {
                cut_octet(next, octets)
            }
        }
        _ => cut_octet(next, octets),
    }
}

impl Stage {
    /// The field with which a payload of a kind begins.
    pub(crate) fn of(kind: Kind) -> Stage {
        inside(Leaf::of(kind, Profile::Standard), first_of(kind), last_of(kind))
    }

    /// The next field, cut from these octets.
    pub(crate) fn cut(self, octets: &[u8]) -> Cut {
        match self {
            Stage::Done => cut_is(FieldName::Payload, 0, Stage::Done),
            Stage::Whole(name) => cut_is(name, octets.len(), Stage::Done),
            Stage::Mark => cut_is(FieldName::Mark, mark_length(octets), Stage::Whole(FieldName::Text)),
            Stage::Inside { left, name, next, last } => {
                if left == 0 {
                    cut_at(name, next, last, octets)
                } else {
                    match next {
                        Layout::End => cut_is(last, octets.len(), Stage::Done),
                        _ => cut_is(name, left as usize, Stage::Inside { left: 0, name, next, last }),
                    }
                }
            }
        }
    }
}
