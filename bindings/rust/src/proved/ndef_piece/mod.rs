// Written by ports/erase of crates/ndef_piece/src/lib.rt, which has the contracts: do not edit.
//! The heads of NDEF pieces (NFC Forum, NDEF 1.0): read octet by octet, refused at the first octet that no
//! valid head can contain there, and written; and whole pieces at the front of a slice. Nothing here allocates memory.
//!
//! The files:
//!
//! - `head_reader.rs`: reads a head. `write.rs`: writes one.
//! - `conditions.rs`: the conditions of the reasons 1 to 14. ndef_format's `crates/ndef_format/specs/HeadReasons.antt` states them.
//! - `crates/ndef_piece/specs/Heads.antt`: the octets that are heads that may occur at a spot. `bounds.rs`: the lengths of heads.
//! - `whole.rs`: a whole piece, or a whole head, at the front of a slice. `standing.rs`: whether it may
//!   occur at a spot.
//! - `header.rs`, `payload_length.rs`, `head.rs`: the header octet, PAYLOAD_LENGTH, and a whole head.
//! - `front.rs`, `crates/ndef_piece/specs/Come.antt`: a piece of which all or a front has come. `walk.rs`, `crates/ndef_piece/specs/Steps.antt`: the pieces
//!   of a message and of those in its payloads.
//! - `crates/ndef_piece/src/laws.rt`: properties of heads and pieces, for every reader and writer.
//! - `crates/ndef_piece/specs/Field.antt`: the field of the next octet follows from those before it. `specs/Machine/`: the
//!   states of a reader.
//! - `crates/ndef_piece/specs/Walk.antt`, `crates/ndef_piece/specs/Rest.antt`: the pieces of a message one after another, and the state
//!   before each.

mod bounds;
mod conditions;
mod front;
mod head;
mod head_reader;
mod header;
mod payload_length;
mod standing;
mod walk;
mod whole;
mod write;

pub use crate::proved::ndef_format::Spot;
pub use bounds::Bounds;
pub use conditions::first_reason;
pub use front::{piece_front, PieceFront};
pub use head::Head;
pub use head_reader::{HeadReader, Step};
pub use header::header_tnf;
pub use walk::{inner_of, Walk, WalkStep};
pub use whole::{whole_piece, WholePiece};
pub use write::write_head;
