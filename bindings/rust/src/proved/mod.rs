// Written by ports/erase: do not edit.
//! The proved text, its contracts taken out. Each file names the one of `crates/` that it comes of, where the contract of each function
//! stands. `shim.rs` is written by hand: it is what Rattle's std has and Rust's has not.
// Not all of it is used by the rest of this crate, some parameters are read by contracts alone, and its layout is that of its source.
#![allow(dead_code, unused_imports, unused_labels, unused_variables, missing_docs, clippy::all)]
#![warn(clippy::incompatible_msrv)]

pub(crate) mod ndef_c;
pub(crate) mod ndef_diagnostics;
pub(crate) mod ndef_fields;
pub(crate) mod ndef_format;
pub(crate) mod ndef_lang;
pub(crate) mod ndef_message;
pub(crate) mod ndef_nest;
pub(crate) mod ndef_piece;
pub(crate) mod ndef_types;
pub(crate) mod ndef_value;
#[path = "../shim.rs"]
pub(crate) mod shim;
