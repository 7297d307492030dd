// Written by ports/erase of crates/ndef_format/src/lib.rt, which has the contracts: do not edit.
//! The format of NDEF messages (NFC Forum, NDEF 1.0): the types that describe bytes, and in `specs/` the definitions of
//! messages, payloads and refusals.
//!
//! The files:
//!
//! - `crates/ndef_format/specs/Lib.antt`: the definitions, in the order in which they can be read.
//! - `tnf.rs`, `kind.rs`, `table.rs`: type name formats, kinds of payloads, nested messages.
//! - `header.rs`: the bits of the header octet of a piece.
//! - `profile.rs`: the two ways to read reserved values. `spot.rs`: the position of a piece.
//! - `reason.rs`, `refusal.rs`: the reason and the place of a refusal. `sentence.rs`, `crates/ndef_format/specs/Sentences.antt`: the
//!   meaning of each reason.

pub mod header;
mod kind;
mod profile;
mod reason;
mod refusal;
mod sentence;
mod spot;
mod table;
mod tnf;

pub use kind::Kind;
pub use profile::Profile;
pub use reason::Reason;
pub use refusal::Refusal;
pub use spot::Spot;
pub use table::Table;
pub use tnf::{Tnf, TnfError};
