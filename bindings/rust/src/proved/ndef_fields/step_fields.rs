// Written by ports/erase of crates/ndef_fields/src/step_fields.rt, which has the contracts: do not edit.
//! The fields of one piece, as far as it has come.

use crate::proved::ndef_fields::inside::{inside_step, outer_inside, Inside};
use crate::proved::ndef_fields::stage::Stage;
use crate::proved::ndef_fields::{Field, FieldName};
use crate::proved::ndef_lang::Kind;
use crate::proved::ndef_piece::{piece_front, PieceFront, WalkStep};

/// The fields of a piece that are still to come. Those of a message in its payload are not among them.
#[derive(Clone, Copy, Debug)]
pub(crate) struct StepFields<'a> {
    /// The place of the next one.
    pub at: usize,
    /// 0 in the message itself, 1 in a message within a payload.
    pub depth: u8,
    /// The number of parts of its head that are still to come.
    pub left: u8,
    /// The piece.
    pub piece: PieceFront<'a>,
    /// Those of its payload.
    pub inside: Inside<'a>,
}

/// The part of the head with that many parts after it.
fn head_part<'a>(piece: &PieceFront<'a>, number: u8) -> (FieldName, &'a [u8]) {
    match number {
        5 => (FieldName::Header, piece.header_octets()),
        4 => (FieldName::KindLength, piece.kind_length_octets()),
        3 => (FieldName::PayloadLength, piece.payload_length_octets()),
        2 => (FieldName::IdLength, piece.id_length_octets()),
        1 => (FieldName::Kind, piece.kind),
        _ => (FieldName::Id, piece.id),
    }
}

impl<'a> StepFields<'a> {
    /// The fields of the piece of a walk.
    pub(crate) fn of(step: &WalkStep<'a>) -> StepFields<'a> {
        let payload = step.piece.payload;
        let inside = if step.depth == 0 {
            outer_inside(step.kind, payload)
        } else {
            Inside { stage: Stage::of(step.kind), octets: payload }
        };
        StepFields { at: step.at, depth: step.depth, left: 6, piece: step.piece, inside }
    }

    /// Those of a payload of this kind.
    pub(crate) fn of_payload(kind: Kind, payload: &'a [u8]) -> StepFields<'a> {
        StepFields { at: 0, depth: 0, left: 0, piece: piece_front(&[]).0, inside: outer_inside(kind, payload) }
    }

    /// The field of this name and that many octets, which is taken off.
    fn take(&mut self, name: FieldName, length: usize) -> Field {
        let field = Field { at: self.at, length, depth: self.depth, name };
        self.at += length;
        field
    }

    /// The next field, which may have no octets.
    pub(crate) fn part(&mut self) -> Option<Field> {
        if self.left > 0 {
            self.left -= 1;
            let (name, octets) = head_part(&self.piece, self.left);
            return Some(self.take(name, octets.len()));
        }
        let (name, length, inside) = inside_step(self.inside)?;
        self.inside = inside;
        Some(self.take(name, length))
    }
}
