// Written by ports/erase of crates/ndef_types/src/lib.rt, which has the contracts: do not edit.
//! Typed payloads: texts, URIs, smart posters and handovers (NFC Forum, RTD Text 1.0, RTD URI 1.0, RTD
//! Smart Poster 1.0 and Connection Handover 1.2).
//!
//! The files:
//!
//! - `text.rs`, `uri.rs`, `crates/ndef_types/src/smart_poster.rt`, `crates/ndef_types/src/request.rt`, `crates/ndef_types/src/select.rt`, `crates/ndef_types/src/alternative.rt`, `carrier.rs`,
//!   `handover_error.rs`: a value each. Those of one record, such as a text, have a type of their parts
//!   beside them, `TextParts`: slices of the payload, without memory. `alternative_parts.rs`: those of
//!   an alternative carrier.
//! - `encoding.rs`, `action.rs`, `power.rs`: the codes of texts, posters and carriers. `crates/ndef_types/src/texts.rt`: the titles of a
//!   poster. `prefixes.rs`: the prefixes of URIs. `utf16.rs`: texts in UTF-16. `fields.rs`: the fields of a payload.
//! - `error.rs`, `crates/ndef_types/src/not_handover.rt`: why there is no value. `crates/ndef_types/src/laws.rt`, `crates/ndef_types/src/message_laws.rt`: what is written is decoded.
//! - `crates/ndef_types/specs/Values.antt`, `crates/ndef_types/specs/Posters.antt`, `crates/ndef_types/specs/Handovers.antt`: the value of each
//!   payload.
//! - `crates/ndef_types/specs/Decoding.antt`: the answers, and the laws. `accepting.rs`: the check that each decoder
//!   begins with.
//! - `crates/ndef_types/specs/Prefixes.antt`: the prefixes of URIs.
//! - `contents.rs`, `crates/ndef_types/specs/Contents.antt`: the wrong record of a nested message. `crates/ndef_types/src/nested.rt`:
//!   messages in payloads.
//! - `crates/ndef_types/src/link.rt`, `crates/ndef_types/specs/Links.antt`: the carriers of a message. `crates/ndef_types/src/ids.rt`, `crates/ndef_types/specs/Ids.antt`: its records,
//!   found by their ids. `crates/ndef_types/specs/Equality.antt`: the equality of
//!   values.
//! - `crates/ndef_types/src/builder.rt`, `crates/ndef_types/src/build_error.rt`, `crates/ndef_types/specs/Building.antt`: smart posters and handovers, made record by
//!   record.

mod accepting;
mod action;
mod alternative_parts;
mod carrier;
mod contents;
mod encoding;
mod error;
mod fields;
mod handover_error;
mod power;
mod prefixes;
mod text;
mod uri;
mod utf16;

pub use accepting::accept;
pub use action::Action;
pub use alternative_parts::AlternativeParts;
pub use carrier::CarrierParts;
pub use contents::is_kind;
pub use encoding::Encoding;
pub use error::{DecodeError, EncodeError};
pub use handover_error::{goes_with, DetailError, ErrorParts};
pub use power::Power;
pub use prefixes::{prefix, split};
pub use text::{TextError, TextParts};
pub use uri::UriParts;
pub use utf16::{units_len, unmark};
