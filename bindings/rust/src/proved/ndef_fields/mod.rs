// Written by ports/erase of crates/ndef_fields/src/lib.rt, which has the contracts: do not edit.
//! The fields of NDEF messages (NFC Forum, NDEF 1.0): the field of each byte, in the heads of
//! records and in the payloads that the standards define. Nothing here allocates memory.
//!
//! The files:
//!
//! - `name.rs`: the names of fields. `field.rs`: a field of a message.
//! - `message_fields.rs`, `step_fields.rs`: the fields of a message, one after another; those of one piece.
//! - `inside.rs`, `stage.rs`: the fields of a payload, by the layout that the languages of payloads read.
//! - `report.rs`: the fields of the message with which an input begins. `last.rs`: the field of the last of some bytes.
//! - `crates/ndef_fields/src/laws.rt`: that each byte has one field.

mod field;
mod inside;
mod last;
mod message_fields;
mod name;
mod report;
mod stage;
mod step_fields;

pub use field::Field;
pub use last::{field_of_last, ByteField};
pub use message_fields::Fields;
pub use name::FieldName;
pub use report::{fields, fields_before, payload_fields, FieldReport};
