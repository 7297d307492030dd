#![doc = include_str!("../README.md")]
#![no_std]
#![cfg_attr(docsrs, feature(doc_cfg))]
#![forbid(unsafe_code)]

#[cfg(feature = "alloc")]
extern crate alloc;
#[cfg(feature = "std")]
extern crate std;

/// Compares and hashes values of a type by what its method `value` answers.
#[cfg(feature = "alloc")]
macro_rules! compare_by_value {
    ($($(#[$doc:meta])* $name:ident)*) => { $(
        $(#[$doc])*
        impl PartialEq for $name<'_> {
            fn eq(&self, other: &Self) -> bool {
                self.value() == other.value()
            }
        }

        impl Eq for $name<'_> {}

        impl core::hash::Hash for $name<'_> {
            fn hash<H: core::hash::Hasher>(&self, state: &mut H) {
                self.value().hash(state);
            }
        }
    )* };
}

mod alternative;
mod bytes;
mod calls;
mod carrier;
mod check;
mod chunks;
mod error;
mod field;
mod handover;
#[cfg(feature = "alloc")]
mod handover_builder;
mod handover_error;
mod hint;
mod kept_field;
mod limits;
mod link;
mod message;
#[cfg(feature = "alloc")]
mod message_builder;
mod message_encoder;
mod new_record;
#[cfg(feature = "alloc")]
mod owned_message;
mod payload;
mod poster;
#[cfg(feature = "alloc")]
mod poster_builder;
mod proved;
#[cfg(feature = "std")]
mod reading;
mod record;
#[cfg(feature = "std")]
mod record_writer;
mod refusal;
mod text;
mod tnf;
mod uri;
#[cfg(feature = "alloc")]
mod warning;
#[cfg(feature = "alloc")]
mod why;

pub use alternative::{AlternativeCarrier, Auxiliaries, PowerState};
pub use bytes::Bytes;
pub use carrier::HandoverCarrier;
pub use check::{check, Checked, Checker};
pub use chunks::Chunks;
/// [`Record::chunks_in`] fills an array of them.
#[doc(inline)]
pub use chunks::Part;
pub use error::{DecodeError, EncodeError, NumberError};
pub use field::{Field, FieldName, Fields};
pub use handover::{Alternatives, HandoverRequest, HandoverSelect};
#[cfg(feature = "alloc")]
pub use handover_builder::{HandoverRequestBuilder, HandoverSelectBuilder};
pub use handover_error::HandoverError;
pub use hint::{find_hint, FoundHint, HintKind};
/// [`Fields::of_in`] fills an array of them.
#[doc(inline)]
pub use kept_field::Field as FieldPart;
pub use limits::{Limits, Payloads, Profile};
pub use link::{Link, Links};
pub use message::{Message, Records};
#[cfg(feature = "alloc")]
pub use message_builder::MessageBuilder;
pub use message_encoder::MessageEncoder;
pub use new_record::{encode, Form, NewRecord, Position};
#[cfg(feature = "alloc")]
pub use owned_message::OwnedMessage;
pub use payload::{Payload, PayloadKind};
pub use poster::{Action, Icon, Icons, SmartPoster, Titles};
#[cfg(feature = "alloc")]
pub use poster_builder::SmartPosterBuilder;
#[cfg(feature = "std")]
pub use reading::{read_message, ReadError};
pub use record::Record;
#[cfg(feature = "std")]
pub use record_writer::RecordWriter;
pub use refusal::{Reason, Refusal};
pub use text::{Encoding, Text};
pub use tnf::Tnf;
pub use uri::Uri;
#[cfg(feature = "alloc")]
pub use warning::{field_warning, record_warning};
#[cfg(feature = "alloc")]
pub use why::{hint, why};

/// The value that a contract of the proved text promises. It panics only where that contract is broken.
#[track_caller]
fn promised<T, E>(answer: Result<T, E>) -> T {
    match answer {
        Ok(value) => value,
        Err(_) => panic!("a proved function broke its contract"),
    }
}
