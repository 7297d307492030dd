// Written by ports/erase of crates/ndef_lang/src/lib.rt, which has the contracts: do not edit.
//! Payload languages: the sets of payloads that the standards define (NFC Forum, RTD Text 1.0, RTD URI
//! 1.0, RTD Smart Poster 1.0, Connection Handover 1.2), read one octet at a time or by slices. Nothing here
//! allocates memory.
//!
//! The files:
//!
//! - `language.rs`, `crates/ndef_lang/specs/Language.antt`: the contract of a payload language.
//! - `record_language.rs`: the contract of a language for the records of a message, by their types.
//! - `leaf.rs`: the layout of each payload, field by field, and the language of a kind;
//!   `crates/ndef_lang/specs/Machine/Leaf.antt` defines the meaning of its states. ndef_format defines the sets of payloads and
//!   their conditions.
//! - `only.rs`: a language for each type of payload, over the same layouts. `utf8.rs`, `utf16.rs`: texts.
//! - `kind.rs`: reads the kind of a type. `type_name.rs`: keeps the name of one.
//! - `member.rs`: whole payloads at once. `ascii.rs`: whether octets are ASCII.
//! - `own_types.rs`: record types of a program's own. `opaque.rs`: payloads that aren't validated.
//! - `lengths.rs`: the numbers of octets that complete a payload. `crates/ndef_lang/src/laws.rt`: properties of all the languages.
//! - `place.rs`: the place at which a payload of known length is refused.
//! - `crates/ndef_lang/specs/StepLaws.antt`: payloads by whole slices.

mod ascii;
mod kind;
mod language;
mod leaf;
mod lengths;
mod member;
mod only;
mod opaque;
mod own_types;
mod place;
mod record_language;
mod type_name;
mod utf16;
mod utf8;

pub use crate::proved::ndef_format::Kind;
pub use kind::KindReader;
pub use language::Language;
pub use leaf::{Class, Leaf, Stage};
pub use lengths::Lengths;
pub use only::{
    AcLang, Alternatives, Carriers, ErrLang, Errors, Fixed, HcLang, OctetsOf, OneKind, Only, PayloadType, PayloadsOf,
    TextLang, Texts, UriLang, Uris,
};
pub use opaque::Opaque;
pub use own_types::{is_type, OwnType, With};
pub use place::refusal_of;
pub use record_language::RecordLanguage;
pub use type_name::TypeName;
pub use utf16::Utf16State;
pub use utf8::Utf8Lang;
