// Written by ports/erase of crates/ndef_diagnostics/src/length_mismatch.rt, which has the contracts: do not edit.
//! The expectation for a payload that doesn't fit its length, from the layout of its kind.

use crate::proved::ndef_diagnostics::{Expected, Whose};
use crate::proved::ndef_fields::FieldName;
use crate::proved::ndef_lang::{Kind, Leaf, Lengths, Stage};
use crate::proved::ndef_value::Profile;

/// A payload of this kind has at least this length.
pub(crate) fn of_least(kind: Kind, least: u64, given: u64) -> Expected {
    if given < least {
        Expected::LeastLength(kind, least, given)
    } else {
        Expected::Nothing
    }
}

/// Payloads of this kind have these lengths.
fn of_lengths(lengths: Lengths, kind: Kind, given: u64) -> Expected {
    match lengths {
        Lengths::Exactly(there) if given != there => Expected::FixedLength(kind, there, given),
        Lengths::From(least) => of_least(kind, least, given),
        Lengths::Exactly(_) | Lengths::Never | Lengths::PairsFrom(_) | Lengths::Between(_, _) => Expected::Nothing,
    }
}

/// Returns the field whose length the first octet of a stage gives.
fn field_named(stage: Stage) -> FieldName {
    match stage {
        Stage::Status => FieldName::Language,
        Stage::CarrierKindLength => FieldName::CarrierKind,
        Stage::ReferenceLength => FieldName::Reference,
        _ => FieldName::Auxiliary,
    }
}

/// Returns the expectation if after a field this number of octets is left for the stage.
fn of_stage(stage: Stage, left: u64) -> Expected {
    match stage {
        Stage::Utf16 if left % 2 == 1 => Expected::EvenText,
        Stage::AuxiliaryCount if left == 0 => Expected::AuxiliaryCount,
        Stage::References(count) if left < u64::from(count) => Expected::Size(Whose::Auxiliary, u64::from(count), left),
        _ => Expected::Nothing,
    }
}

/// Returns the expectation if a field of this name is no longer than the rest, and the octets after it fit.
fn of_field(name: FieldName, leaf: Leaf, left: u64) -> Expected {
    let Leaf::Field { left: size, next, .. } = leaf else {
        return Expected::Nothing;
    };
    let size = u64::from(size);
    if left < size {
        Expected::Size(Whose::Field(name), size, left)
    } else {
        of_stage(next, left - size)
    }
}

/// The data of an error reason has these lengths.
fn of_data(lengths: Lengths, reason: u8, left: u64) -> Expected {
    match lengths {
        Lengths::Exactly(there) if left != there => Expected::ErrorLength(reason, there, left),
        _ => Expected::Nothing,
    }
}

/// Returns the expectation if after the first octet of a stage this number of octets is left.
fn after_first(stage: Stage, octet: u8, left: u64) -> Expected {
    match stage {
        Stage::Utf8 | Stage::Utf16 => Expected::WholeCharacter,
        Stage::ErrorReason => of_data(stage.field_after(octet).lengths(), octet, left),
        Stage::End
        | Stage::Any
        | Stage::Status
        | Stage::UriCode(_)
        | Stage::CarrierKindLength
        | Stage::ReferenceLength
        | Stage::AuxiliaryCount
        | Stage::References(_) => of_field(field_named(stage), stage.field_after(octet), left),
    }
}

/// Returns the expectation if the rest of a payload, of this length, begins with these octets.
fn length_mismatch_in(leaf: Leaf, given: u64, octets: &[u8]) -> Expected {
    let mut leaf = leaf;
    let mut left = given;
    let mut rest = octets;
    while let [octet, more @ ..] = rest {
        let Leaf::Field { left: count, class, next } = leaf else {
            return Expected::Nothing;
        };
        left = left.saturating_sub(1);
        if count > 0 {
            leaf = Leaf::Field { left: count - 1, class, next };
        } else if more.is_empty() {
            return after_first(next, *octet, left);
        } else {
            leaf = next.field_after(*octet);
        }
        rest = more;
    }
    Expected::Nothing
}

/// Returns the expectation if no payload of a kind with this length begins with these octets.
pub(crate) fn length_mismatch(kind: Kind, given: u64, octets: &[u8]) -> Expected {
    let leaf = Leaf::of(kind, Profile::Strict);
    match octets {
        [] => of_lengths(leaf.lengths(), kind, given),
        [_, ..] => length_mismatch_in(leaf, given, octets),
    }
}
