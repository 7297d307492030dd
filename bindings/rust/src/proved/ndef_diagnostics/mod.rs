// Written by ports/erase of crates/ndef_diagnostics/src/lib.rt, which has the contracts: do not edit.
//! Advice that a person can act on: the expectation that refused bytes don't meet, hints, and remarks about a message
//! that is accepted. Nothing here allocates memory, prints, or changes which bytes are accepted.
//!
//! The files:
//!
//! - `expected.rs`: the expectation. `expecting.rs`, `crates/ndef_diagnostics/specs/Expectations.antt`: from the bytes up to a refused one.
//! - `begun.rs`, `crates/ndef_diagnostics/specs/Begun.antt`: a piece as far as it has come. `wholes.rs`, `crates/ndef_diagnostics/specs/Wholes.antt`: the whole pieces
//!   before it, and the records that end with them.
//! - `length_mismatch.rs`, `crates/ndef_diagnostics/specs/LengthMismatches.antt`: the expectation for a payload that doesn't fit its length.
//! - `poster_heads.rs`, `crates/ndef_diagnostics/specs/PosterHeads.antt`: the expectation in a head of a smart poster.
//! - `hint.rs`, `hint_wording.rs`, `crates/ndef_diagnostics/specs/Hints.antt`: hints. `tag_memory.rs`, `crates/ndef_diagnostics/specs/TagMemory.antt`: the place of a
//!   message in the memory of a tag. `dump_text.rs`, `crates/ndef_diagnostics/specs/DumpTexts.antt`: texts that spell bytes.
//! - `dump.rs`, `crates/ndef_diagnostics/specs/Dumps.antt`: the bytes that a dump spells. `dump_form.rs`: its form. `dump_words.rs`,
//!   `dump_gaps.rs`: its words, and its lines `*`. `dump_digits.rs`, `crates/ndef_diagnostics/specs/Filled.antt`: its digits.
//! - `remark.rs`, `crates/ndef_diagnostics/specs/Remarks.antt`: remarks about a field of a message that is accepted. `text_remark.rs`,
//!   `crates/ndef_diagnostics/specs/TextRemarks.antt`: about a text. `record_remark.rs`, `poster_remark.rs`, `handover_remark.rs`,
//!   `crates/ndef_diagnostics/specs/RecordRemarks.antt`: about a record beside the others. `few.rs`: the messages that are searched for them.
//! - `wording.rs`, `crates/ndef_diagnostics/specs/Wordings.antt`: the sentence for each. `sentence.rs`: a short text, made with no memory.
//! - `crates/ndef_diagnostics/src/laws.rt`, `crates/ndef_diagnostics/specs/Truths.antt`: the laws that sentences are true.

mod begun;
mod dump;
mod dump_digits;
mod dump_form;
mod dump_gaps;
mod dump_text;
mod dump_words;
mod expected;
mod expecting;
mod few;
mod handover_remark;
mod hint;
mod hint_wording;
mod length_mismatch;
mod poster_heads;
mod poster_remark;
mod record_remark;
mod remark;
mod sentence;
mod tag_memory;
mod text_remark;
mod wholes;
mod wording;

pub use begun::{is_lengths_whole, least_record};
pub use dump::{read_dump, DumpFault};
pub use dump_text::DumpText;
pub use expected::{Expected, Whose};
pub use expecting::expected_at;
pub use few::small_message;
pub use hint::{hint_at, Hint};
pub use record_remark::{payload_remark, repeated_remark};
pub use remark::{field_remark, Remark};
pub use sentence::{Sentence, ROOM};
pub use tag_memory::{Found, Wrapping};
pub use text_remark::text_remark_of;
pub use wholes::{whole_pieces, WholePieces};
