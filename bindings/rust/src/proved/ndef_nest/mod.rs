// Written by ports/erase of crates/ndef_nest/src/lib.rt, which has the contracts: do not edit.
//! Nested messages as payload languages: smart posters, and handover requests and selects (NFC
//! Forum, RTD Smart Poster 1.0 and Connection Handover 1.2). Nothing here allocates memory.
//!
//! The files:
//!
//! - `crates/ndef_nest/specs/Nested.antt`: laws of the nested messages, which ndef_format's `crates/ndef_nest/specs/Nested.antt` defines.
//! - `nest.rs`: the language of a nested message. `phase.rs`: the position of the next octet in it.
//! - `span.rs`: the number of octets that complete it. `demand.rs`: the demands on the
//!   records to come.
//! - `member.rs`: whole nested messages at once. `whole.rs`: whole records of one that is half read.
//! - `typed.rs`: the payloads of all records of a message, by their kinds.
//! - `context.rs`: the state that follows from the records before. `crates/ndef_nest/src/laws.rt`: properties of nested messages.
//! - `specs/Machine/`: the states. `crates/ndef_nest/specs/Machine/Demands.antt` and `crates/ndef_nest/specs/Machine/Phases.antt` define the octets that complete a message from
//!   any point on, `crates/ndef_nest/specs/Machine/SpanLaws.antt` and its neighbours their lengths.

mod context;
mod demand;
mod member;
mod nest;
mod phase;
mod span;
mod typed;
mod whole;
pub use crate::proved::ndef_format::Table;
pub use nest::Nest;
pub use typed::Typed;
