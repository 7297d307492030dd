// Written by ports/erase of crates/ndef_value/src/lib.rt, which has the contracts: do not edit.
//! The values of an NDEF message (NFC Forum, NDEF 1.0): names, records, messages and limits.
//!
//! The files:
//!
//! - `record.rs`, `crates/ndef_value/src/message.rt`, `name.rs`, `crates/ndef_value/src/bytes.rt`: records, messages, names and byte strings.
//! - `limits.rs`: the greatest size of a message. `no_memory.rs`: the error if memory is used up.
//! - `crates/ndef_value/src/laws.rt`: properties of the bytes of messages. The crate ndef_format defines these.
mod limits;
mod name;
mod no_memory;
mod record;
pub use crate::proved::ndef_format::{Profile, Reason, Refusal, Tnf, TnfError};
pub use limits::{Limits, OutOfRange, MOST_PAYLOAD, MOST_PIECES, MOST_RECORDS};
pub use name::NameError;
pub use no_memory::NoMemory;
pub use record::RecordError;
