// Written by ports/erase of crates/ndef_message/src/lib.rt, which has the contracts: do not edit.
//! NDEF messages (NFC Forum, NDEF 1.0): checked in any parts, viewed in place, and encoded; and
//! the sources and sinks of their bytes.
//!
//! The files:
//!
//! - ndef_format's `crates/ndef_format/specs/Accepted.antt` and `crates/ndef_format/specs/Refusals.antt`: the messages that are accepted, and
//!   the place and the reason of the refusal of other bytes. Start there.
//! - `checker.rs`, `state.rs`, `accepted.rs`: the checker; whole records at once, else octets of one
//!   field after another. `crates/ndef_message/specs/Feed.antt` defines its answers. `begun.rs`: a refused payload, with no checker.
//! - `judging.rs`: a whole input at once, if the test of one record fails. `whole_input.rs`: one that comes in parts.
//!   `phase.rs`: the position of the checker in a message. `fed.rs`: its answers.
//! - `crates/ndef_message/src/decoder.rt`, `crates/ndef_message/src/open.rt`: the decoder, and the octets that it keeps of the open record. `crates/ndef_message/src/event.rt`: its answers,
//!   which `crates/ndef_message/specs/Decoding.antt` defines.
//! - `crates/ndef_message/src/message_reading.rt`, `message_checking.rs`: one message from a source; `crates/ndef_message/specs/Readings.antt` defines
//!   the meaning of that.
//! - `message_viewing.rs`, `message_view.rs`, `items.rs`, `item.rs`, `pieces.rs`, `checked_bytes.rs`: a message that
//!   is viewed in place (`crates/ndef_message/specs/Views.antt`), its records, and the pieces of one.
//! - `crates/ndef_message/src/encoding.rt`, `crates/ndef_message/src/writing.rt`: the encoders; `crates/ndef_message/specs/Cut.antt` has the pieces in which a message is
//!   written. `heads.rs`: the heads of the chunks.
//! - `crates/ndef_message/src/encoder.rt`, `record_encoder.rs`: a message, or a record whose payload comes in parts, encoded in steps;
//!   `crates/ndef_message/specs/Steps.antt` defines the bytes that are left. `stepping.rs` fills a buffer for both. `form.rs`, `plan.rs`:
//!   the form of pieces, and what is given of a record before its payload. `crates/ndef_message/src/sending.rt`: bytes sent to a sink.
//! - `source.rs`, `crates/ndef_message/src/sink.rt`: the contracts of a source and of a sink. `crates/ndef_message/src/slice_source.rt`, `crates/ndef_message/src/std_source.rt`,
//!   `crates/ndef_message/src/std_sink.rt` are such; `crates/ndef_message/src/failing_source.rt`, `crates/ndef_message/src/endless_source.rt`, `crates/ndef_message/src/failing_sink.rt` are for tests.
//!   `crates/ndef_message/src/input.rt`: all that a source gives.
//! - `crates/ndef_message/src/laws.rt`, `crates/ndef_message/src/reading_laws.rt`, `crates/ndef_message/src/view_laws.rt`, `crates/ndef_message/src/encoding_laws.rt`: properties of places, readings, views and bytes.
//!   `crates/ndef_message/src/format.rt`: those of the crates below on which the checker relies.
//! - `specs/Machine/`: the states of checker, decoder, views and readers.

mod accepted;
mod begun;
mod checked_bytes;
mod checker;
mod fed;
mod form;
mod heads;
mod item;
mod items;
mod judging;
mod message_checking;
mod message_view;
mod message_viewing;
mod phase;
mod pieces;
mod plan;
mod record_encoder;
mod source;
mod state;
mod stepping;
mod whole_input;

pub use checker::Checker;
pub use fed::Fed;
pub use form::Form;
pub use heads::{first_head, later_head, Standing};
pub use item::Item;
pub use items::Items;
pub use message_checking::{check_message, CheckError, Checked};
pub use message_view::View;
pub use message_viewing::view;
pub use pieces::Pieces;
pub use plan::{Progress, RecordPlan};
pub use record_encoder::{OtherLength, RecordEncoder};
pub use source::{Source, SourceFault};
pub use whole_input::check;
