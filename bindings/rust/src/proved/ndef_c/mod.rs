// Written by ports/erase of crates/ndef_c/src/lib.rt, which has the contracts: do not edit.
//! The library as C calls it: it allocates no memory, and keeps nothing between calls except in a checker, in the
//! memory of its caller. `include/ndef.h` states what each call demands, returns and leaves.
//!
//! The files:
//!
//! - `checking.rs`: check. `crates/ndef_c/src/feeding.rt`, `crates/ndef_c/specs/Feeding.antt`: check of bytes that come in parts.
//! - `crates/ndef_c/src/run.rt`, `crates/ndef_c/src/record.rt`, `crates/ndef_c/specs/Walks.antt`: the record at a place. `crates/ndef_c/src/payload.rt`: its joined payload. `crates/ndef_c/src/walk.rt`: the
//!   records from a place on, which other calls go over.
//! - `crates/ndef_c/src/kinds.rt`, `crates/ndef_c/specs/Kinds.antt`: the kind of a record's payload, from its type.
//! - `crates/ndef_c/src/chunks.rt`, `crates/ndef_c/specs/Chunks.antt`: the places of its pieces. `crates/ndef_c/specs/Arrays.antt`: results written to an array.
//! - `crates/ndef_c/src/fields.rt`, `crates/ndef_c/src/field_names.rt`, `crates/ndef_c/src/payload_fields.rt`, `crates/ndef_c/specs/Fields.antt`: the field of each byte.
//! - `crates/ndef_c/src/refusal_message.rt`, `crates/ndef_c/specs/RefusalMessages.antt`: the reason of a refusal, in sentences. `crates/ndef_c/src/hints.rt`,
//!   `crates/ndef_c/specs/Hints.antt`: hints, in sentences and by numbers. `crates/ndef_c/src/warnings.rt`, `crates/ndef_c/specs/Warnings.antt`: warnings about
//!   a message that is accepted.
//! - `crates/ndef_c/src/items.rt`, `crates/ndef_c/specs/Items.antt`: a message and all its records, in one call; the message within a payload,
//!   likewise.
//! - `crates/ndef_c/src/handover_items.rt`, `crates/ndef_c/specs/HandoverItems.antt`: a handover and all its references, in one call.
//!   `crates/ndef_c/src/reference_items.rt`: the references in its payload. `crates/ndef_c/src/reference_records.rt`, `crates/ndef_c/specs/ReferenceOrder.antt`: the
//!   records to which they refer.
//! - `crates/ndef_c/src/layout.rt`, `crates/ndef_c/specs/Layouts.antt`: payloads of a layout that a program gives.
//! - `crates/ndef_c/src/finding.rt`, `crates/ndef_c/specs/Finding.antt`: the first record with a type or an id.
//! - `crates/ndef_c/src/writer.rt`, `crates/ndef_c/specs/Writers.antt`: a record written in steps.
//! - `crates/ndef_c/src/writing.rt`, `crates/ndef_c/specs/Writes.antt`: a record written. `crates/ndef_c/src/building.rt`, `crates/ndef_c/specs/Built.antt`, `crates/ndef_c/specs/Growing.antt`: a
//!   message built in a buffer. `crates/ndef_c/src/making.rt`, `crates/ndef_c/specs/PendingRecord.antt`, `content.rs`, `crates/ndef_c/specs/Contents.antt`: a record
//!   whose payload is written in place. `crates/ndef_c/src/appending.rt`, `crates/ndef_c/specs/Appending.antt`: texts and URIs appended so.
//! - `crates/ndef_c/src/poster_writing.rt`, `crates/ndef_c/specs/PosterWrites.antt`: a smart poster written in one call. `crates/ndef_c/src/poster_parts.rt`,
//!   `crates/ndef_c/specs/PosterParts.antt`: its titles and icons. `crates/ndef_c/src/record_list.rt`, `crates/ndef_c/src/series_writing.rt`, `crates/ndef_c/specs/RecordList.antt`:
//!   records written one after another.
//! - `crates/ndef_c/src/handover_making.rt`, `crates/ndef_c/specs/HandoverMaking.antt`: a request or a select written in one call. `crates/ndef_c/src/handover_parts.rt`,
//!   `crates/ndef_c/specs/HandoverParts.antt`: its alternative carriers.
//! - `crates/ndef_c/src/normalizing.rt`, `crates/ndef_c/specs/Normalizing.antt`: a message written again, each record in one piece.
//! - `uri.rs`, `crates/ndef_c/src/uri_parts.rt`, `text.rs`, `carrier.rs`, `alternative.rs`, `crates/ndef_c/src/request.rt`, `crates/ndef_c/src/select.rt`, `crates/ndef_c/src/poster.rt`,
//!   `crates/ndef_c/src/error.rt`, `numbers.rs`: payloads of each kind. `alternative_writing.rs`, `error_writing.rs`,
//!   `handover_writing.rs`: those of records within posters and handovers, written.
//! - `crates/ndef_c/src/titles.rt`, `crates/ndef_c/specs/Titles.antt`: the places of the titles and of the media type of a poster.
//! - `crates/ndef_c/src/icons.rt`, `crates/ndef_c/specs/Icons.antt`: the places of the icons of a poster.
//! - `utf16.rs`: texts from and to UTF-16.
//! - `crates/ndef_c/src/link.rt`: the links of a message. `crates/ndef_c/src/message.rt`: its records. `crates/ndef_c/src/handover.rt`: common parts of requests
//!   and selects. `crates/ndef_c/src/links.rt`, `references.rs`: all links of a message, all references of an alternative carrier.
//! - `crates/ndef_c/src/nested.rt`: records of the messages in payloads. `crates/ndef_c/src/query.rt`, `crates/ndef_c/specs/RecordQuery.antt`: the results for records
//!   that are sought, and their number.
//! - `out.rs`, `buffer.rs`, `crates/ndef_c/specs/Buffers.antt`: octets that are written to the caller's buffer, or counted.
//! - `status.rs`, `crates/ndef_c/src/status_name.rt`: what calls return. `refusal.rs`, `crates/ndef_c/src/reasons.rt`: a refusal in numbers, and the names
//!   of reasons. `limits.rs`: limits in numbers. `part.rs`: a part of a payload. `crates/ndef_c/src/version.rt`: the version.
//! - `crates/ndef_c/src/laws.rt`: properties that the calls have together.

mod alternative;
mod alternative_writing;
mod buffer;
mod carrier;
mod checking;
mod content;
mod error_writing;
mod handover_writing;
mod limits;
mod numbers;
mod out;
mod part;
mod references;
mod refusal;
mod status;
mod text;
mod uri;
mod utf16;

pub use alternative::ndef_alternative;
pub use alternative::ndef_reference;
pub use alternative::NdefAlternative;
pub use alternative_writing::ndef_write_alternative;
pub use carrier::ndef_carrier;
pub use carrier::ndef_write_carrier;
pub use carrier::NdefCarrier;
pub use checking::ndef_check;
pub use checking::NdefChecked;
pub use error_writing::ndef_write_error;
pub use error_writing::ndef_write_error_number;
pub use handover_writing::ndef_write_handover;
pub use handover_writing::REQUEST;
pub use handover_writing::SELECT;
pub use limits::ndef_default_limits;
pub use limits::NdefLimits;
pub use numbers::ndef_number;
pub use numbers::ndef_write_action;
pub use numbers::ndef_write_collision;
pub use numbers::ndef_write_size;
pub use part::NdefPart;
pub use references::ndef_references;
pub use status::BAD_ARGUMENT;
pub use status::BUFFER_TOO_SMALL;
pub use status::END;
pub use status::MORE;
pub use status::OK;
pub use status::REFUSED;
pub use text::ndef_text;
pub use text::ndef_text_in_utf8;
pub use text::ndef_write_text;
pub use text::NdefText;
pub use uri::ndef_uri;
pub use uri::ndef_write_uri;
