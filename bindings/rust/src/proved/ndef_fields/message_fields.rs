// Written by ports/erase of crates/ndef_fields/src/message_fields.rt, which has the contracts: do not edit.
//! The fields of a message, one after another.

use crate::proved::ndef_fields::step_fields::StepFields;
use crate::proved::ndef_fields::Field;
use crate::proved::ndef_lang::Kind;
use crate::proved::ndef_piece::Walk;

/// The fields of a message or of a front of one, in order. Contracts see those that are still to come.
#[derive(Clone, Debug)]
pub struct Fields<'a> {
    /// The pieces that are not begun.
    walk: Walk<'a>,
    /// The fields of the one that is.
    begun: StepFields<'a>,
}

impl<'a> Fields<'a> {
    /// The fields of a message, or of a front of one.
    pub(crate) fn new(bytes: &'a [u8]) -> Fields<'a> {
        Fields { walk: Walk::new(bytes), begun: StepFields::of_payload(Kind::Other, &[]) }
    }

    /// The fields of a payload, or of a front of one.
    pub(crate) fn of_payload(kind: Kind, payload: &'a [u8]) -> Fields<'a> {
        Fields { walk: Walk::of_payload(kind, payload), begun: StepFields::of_payload(kind, payload) }
    }
}

/// The next field: of the piece that is begun, or of those after it.
fn next_field<'a>(walk: &mut Walk<'a>, begun: &mut StepFields<'a>) -> Option<Field> {
    loop {
        match begun.part() {
            Some(field) => {
                if field.length > 0 {
                    return Some(field);
                }
            }
            None => {
                let (step, next) = (*walk).step()?;
                *begun = StepFields::of(&step);
                *walk = next;
            }
        }
    }
}

impl<'a> Iterator for Fields<'a> {
    type Item = Field;

    fn next(&mut self) -> Option<Field> {
        next_field(&mut self.walk, &mut self.begun)
    }
}
