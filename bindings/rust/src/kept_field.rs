//! Fields as they are kept in arrays.
use crate::proved::ndef_fields;
use crate::FieldName;

/// An element of the array that [`Fields::of_in`](crate::Fields::of_in) fills.
#[derive(Clone, Copy, Debug, Default, PartialEq, Eq, Hash)]
pub struct Field {
    pub(crate) at: usize,
    pub(crate) length: usize,
    pub(crate) depth: u32,
    pub(crate) name: u32,
}

impl Field {
    pub(crate) fn of(field: ndef_fields::Field) -> Self {
        let name = FieldName::of(field.name) as u32;
        Self { at: field.at, length: field.length, depth: field.depth.into(), name }
    }
}
